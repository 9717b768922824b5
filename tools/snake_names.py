#!/usr/bin/env python3
"""Brings the repository's own names to today's spelling: words in snake case, modules in camel case.

usage: tools/snake_names.py          at the top of the checkout, once, after port.py

A definition, lemma, field or constructor of specs/ and proofs/ loses its inner capitals and its dashes: nameHash is name_hash,
zero-after is zero_after. A dash stays between two names of definitions that the dash alone keeps apart, as in entries_size-append. The modules
steps, theorems and examples of specs/ become Steps, Theorems and Examples. Types, modules, functions of src/ and strings keep
their names. Comments and documents follow where they quote a name. What falls together in one file is printed and keeps its name.
"""
import collections
import os
import re
import subprocess
import sys

FOLDERS = {"steps": "Steps", "theorems": "Theorems", "examples": "Examples"}
STD = set("length take drop get_or map append replicate reverse sum fold filter snoc cons slice_index".split())
TOKEN = re.compile(r"[\w'₀-₉\-]+")
BOUND = {
    True: re.compile(r"\b(?:let (?:mut )?|for )(\w+)|\b(\w+): [&\w\[]"),
    False: re.compile(r"[({]([\w'₀-₉\-]+) :|\blet ([\w'₀-₉\-]+) "),
}
MADE = re.compile(r"^(returns|loop|loop-.*|overflow.*|bounds.*|.*-requires(-\d+)?|After.*|In-.*|At-.*)$")


def files():
    for root, dirs, names in os.walk("crates"):
        dirs[:] = sorted(d for d in dirs if d != "out")
        for n in sorted(names):
            if n.endswith((".antt", ".rt")):
                yield os.path.join(root, n)


def declared():
    terms, types, words = set(), set(), set()
    for p in files():
        if not p.endswith(".antt"):
            continue
        lines = open(p, encoding="utf-8").read().split("\n")
        for i, l in enumerate(lines):
            s = l.strip()
            if not s or s.startswith("--"):
                continue
            m = re.match(r"^\s*(?:(?:pub|abbrev|unfoldable|open)\s+)*(record|data|module)\s+([^\s(){}:]+)", l)
            if m:
                types.add(m.group(2))
                continue
            m = re.match(r"^(\s*)(?:(?:pub|abbrev|unfoldable)\s+)*([\w'₀-₉\-]+)\s*:(?![=:])\s*(.*)$", l)
            if not m or re.match(r"^\s*(use|let|in|elim|where|ghost)\b", l):
                continue
            if p.endswith("Proof.antt") and "tie.Need" in m.group(3):
                continue
            sig, j = m.group(3), i + 1
            while j < len(lines) and lines[j].strip().startswith("→"):
                sig += " " + lines[j].strip()
                j += 1
            (types if re.search(r"(→|^)\s*Type [01]$", sig.strip()) else terms).add(m.group(2))
            if "/specs/" in p and not m.group(1) and "-" not in m.group(2):
                words.add(snake(m.group(2)))
    return terms - types, words


def snake(part):
    part = part.replace("getD", "get_or")
    return re.sub(r"([a-z0-9₀-₉'])([A-Z])", lambda m: m.group(1) + "_" + m.group(2).lower(), part)


def spell(name, words):
    parts = name.split("-")
    new = [p if p[:1].isupper() else snake(p) for p in parts]
    out = new[0]
    for a, b, oa, ob in zip(new, new[1:], parts, parts[1:]):
        both = all(w in STD or w in words and "_" in w or w[:1].isupper() for w in (a, b))
        out += ("-" if both else "_") + b
    return out


def main():
    terms, words = declared()
    names = {}
    for t in terms:
        if t[:1].isupper() and "-" not in t or t.startswith("-") or t.endswith("-") or MADE.match(t):
            continue
        n = t.replace("-", "_") if t.endswith("-spec") else spell(t, words)
        if n != t:
            names[t] = n
    for p in files():
        for m in re.finditer(r"^\s*(?:ghost |pub )?use (?!Rattle\.(?!std\b))[^;\n]*", open(p, encoding="utf-8").read(), re.M):
            for t in TOKEN.findall(m.group(0)):
                names.pop(t, None)
    # what falls together in one file keeps its name: a lemma with a dash beside a definition, and a definition beside a
    # variable. A function of src/ may share the name of the definition that it computes
    tokens, bound = {}, {}
    for p in files():
        text = open(p, encoding="utf-8").read()
        tokens[p] = set(TOKEN.findall(text))
        bound[p] = {x for pair in BOUND[p.endswith(".rt")].findall(text) for x in pair if x}
    clash, again = set(), True
    code = set().union(*(ts for p, ts in tokens.items() if p.endswith(".rt")))
    while again:
        again = False
        for p, ts in tokens.items():
            groups = collections.defaultdict(list)
            for t in ts:
                groups[names.get(t, t)].append(t)
            for n, olds in groups.items():
                if len(olds) < 2 and n not in bound[p]:
                    continue
                moved = [t for t in olds if t in names]
                if not moved:
                    continue
                if n in bound[p]:
                    for t in moved:
                        clash.add((t, names.pop(t), p))
                        again = True
                    continue
                camel = [t for t in moved if "-" not in t]
                keep = (camel or moved)[0]
                for t in olds:
                    if t == keep or t == n and (t not in terms or t in code):
                        continue
                    names[t] = n + "_lem"
                    again = True
    for x, n, p in sorted(clash):
        print(f"kept: {x} (not {n}): {p}")

    def turn(text):
        return TOKEN.sub(lambda m: names.get(m.group(0), m.group(0)), text)

    def quoted(text):
        return re.sub(r"`[^`\n]+`", lambda m: turn(m.group(0)), text)

    def code(line, mark):
        if line.lstrip().startswith(mark):
            return quoted(line)
        cut = re.search(r"(?<!\S)" + re.escape(mark) + r"(?!\S)", line)
        head, tail = (line, "") if not cut else (line[: cut.start()], line[cut.start():])
        parts = re.split(r'("(?:[^"\\]|\\.)*")', head)
        return "".join(q if q.startswith('"') else turn(q) for q in parts) + quoted(tail)

    for p in files():
        text = open(p, encoding="utf-8").read()
        new = "\n".join(code(l, "--" if p.endswith(".antt") else "//") for l in text.split("\n"))
        for old, now in FOLDERS.items():
            new = re.sub(r"(\bRattle\.\w+\.specs\.)" + old + r"\b", r"\1" + now, new)
            new = re.sub(r"(\bspecs/)" + old + r"\b", r"\1" + now, new)
            if p.endswith("specs/Lib.antt"):
                new = re.sub(r"^(\s*(?:pub )?mod )" + old + r"$", r"\1" + now, new, flags=re.M)
        if new != text:
            open(p, "w", encoding="utf-8").write(new)
    edits = [os.path.join(r, n) for r, d, ns in os.walk("crates") for n in ns if n.endswith(".edit")]
    for p in edits:
        text = open(p, encoding="utf-8").read()
        new = "\n".join(turn(l) if l.startswith(("old:", "new:")) else l for l in text.split("\n"))
        for old, now in FOLDERS.items():
            new = re.sub(r"(\bspecs/)" + old + r"\b", r"\1" + now, new)
        if new != text:
            open(p, "w", encoding="utf-8").write(new)
    for root, dirs, _ in list(os.walk("crates")):
        if os.path.basename(root) == "specs":
            for old, now in FOLDERS.items():
                for a, b in ((old, now), (old + ".antt", now + ".antt")):
                    if os.path.exists(os.path.join(root, a)):
                        subprocess.run(["git", "mv", os.path.join(root, a), os.path.join(root, b)], check=True)
    docs = subprocess.run(["git", "ls-files", "*.md", "docs/*.txt", "tests/*", "bench/*", "include/*", "rust/*", "python/*"], capture_output=True, text=True).stdout.split()
    for p in docs:
        try:
            text = open(p, encoding="utf-8").read()
        except (UnicodeDecodeError, IsADirectoryError):
            continue
        new = quoted(text) if p.endswith(".md") else text
        for old, now in FOLDERS.items():
            new = re.sub(r"(\bspecs/)" + old + r"\b", r"\1" + now, new)
        if new != text:
            open(p, "w", encoding="utf-8").write(new)
    print(f"{len(names)} names")


if __name__ == "__main__":
    main()
