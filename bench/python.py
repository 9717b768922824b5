"""The Python module beside what a Python program would take instead: a dict, dbm and sqlite3, side by side in one run.

    python3 bench/python.py [NAMES..]      ns for each name; 4,096 and 100,000 names where none is given

The sides take turns, and the best of many turns counts. Names have 9 bytes and are asked for in an order that jumps about. dbm is
the first of gnu, ndbm and dumb that this Python has. Needs ./make-shared; sides that this Python lacks are left out."""
from __future__ import annotations

import importlib
import pathlib
import random
import sqlite3
import sys
import tempfile
import time
from typing import Any, Callable, Dict, List, Tuple

sys.path.insert(0, str(pathlib.Path(__file__).resolve().parents[1] / "python"))
import cqdb  # noqa: E402

ROUND = 512
TURNS = 60
Ask = Callable[[List[str]], Any]
Sides = Dict[str, Ask]


def listed(count: int) -> List[Tuple[str, int]]:
    """The names of a linear congruential generator, as cqdb_load makes them, with ids from 0."""
    state, entries = 0, []
    for id in range(count):
        state = (1_664_525 * state + 1_013_904_223) % 2**32
        entries.append((f"P{state:08X}", id))
    return entries


def dbm_kind() -> str:
    """The first kind of dbm that this Python has."""
    for kind in ("dbm.gnu", "dbm.ndbm", "dbm.dumb"):
        try:
            importlib.import_module(kind)
            return kind
        except ImportError:
            pass
    raise SystemExit("python.py: this Python has no dbm")


def by_cqdb(entries: List[Tuple[str, int]], folder: pathlib.Path) -> Tuple[Ask, Ask]:
    (folder / "cqdb").write_bytes(cqdb.build(entries).image)
    catalogue = cqdb.Catalogue.open(folder / "cqdb")
    return lambda names: [catalogue[name] for name in names], catalogue.round


def by_dict(entries: List[Tuple[str, int]], folder: pathlib.Path) -> Tuple[Ask, Ask]:
    held = dict(entries)
    return lambda names: [held[name] for name in names], lambda names: [held.get(name) for name in names]


def by_dbm(entries: List[Tuple[str, int]], folder: pathlib.Path) -> Tuple[Ask, Ask]:
    """dbm has no call for several names."""
    kind = importlib.import_module(dbm_kind())
    with kind.open(str(folder / "dbm"), "n") as file:
        for name, id in entries:
            file[name] = str(id)
    opened = kind.open(str(folder / "dbm"), "r")
    return lambda names: [int(opened[name]) for name in names], lambda names: [int(opened[name]) for name in names]


def by_sqlite3(entries: List[Tuple[str, int]], folder: pathlib.Path) -> Tuple[Ask, Ask]:
    """A table in the order of its names, asked inside one transaction, so that no lock is taken again; a round is one statement."""
    base = sqlite3.connect(folder / "sqlite3")
    base.execute("CREATE TABLE names (name TEXT PRIMARY KEY, id INTEGER) WITHOUT ROWID")
    base.executemany("INSERT INTO names VALUES (?, ?)", entries)
    base.commit()
    base.execute("BEGIN")
    one = "SELECT id FROM names WHERE name = ?"
    many = f"SELECT name, id FROM names WHERE name IN ({','.join('?' * ROUND)})"

    def round(names: List[str]) -> List[Any]:
        found = dict(base.execute(many, names))
        return [found.get(name) for name in names]

    return lambda names: [base.execute(one, (name,)).fetchone()[0] for name in names], round


def best(sides: Sides, rounds: List[List[str]]) -> Dict[str, float]:
    """The time of each side for a name, in ns: the best of many turns for each round, and the mean of the rounds. In each turn every
    side is asked for every round, and must give the same ids."""
    times = {side: [float("inf")] * len(rounds) for side in sides}
    for place in range(TURNS * len(rounds)):
        place, answers = place % len(rounds), []
        for side, ask in sides.items():
            start = time.perf_counter()
            answers.append(ask(rounds[place]))
            times[side][place] = min(times[side][place], time.perf_counter() - start)
        assert answers.count(answers[0]) == len(sides)
    return {side: sum(each) / len(rounds) / ROUND * 1e9 for side, each in times.items()}


def main() -> None:
    kinds = {"cqdb": by_cqdb, "dict": by_dict, "dbm": by_dbm, "sqlite3": by_sqlite3}
    print(f"Python {sys.version.split()[0]}, cqdb {cqdb.__version__}, {dbm_kind()}, SQLite {sqlite3.sqlite_version}; ns for each name")
    print("| What, for each name | " + " | ".join(kinds) + " |\n|---|" + "---|" * len(kinds))
    for count in map(int, sys.argv[1:] or ["4096", "100000"]):
        entries = listed(count)
        asked = [name for name, _ in random.Random(7).sample(entries, min(count, 8 * ROUND))]
        rounds = [asked[first : first + ROUND] for first in range(0, len(asked) // ROUND * ROUND, ROUND)]
        with tempfile.TemporaryDirectory() as folder:
            made = {side: make(entries, pathlib.Path(folder)) for side, make in kinds.items()}
            for what, place in (("one by one", 0), (f"a round of {ROUND}", 1)):
                times = best({side: asks[place] for side, asks in made.items()}, rounds)
                print(f"| {what}, {count:,} names | " + " | ".join(f"{times[side]:,.0f}" for side in kinds) + " |", flush=True)


if __name__ == "__main__":
    main()
