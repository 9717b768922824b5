"""Makes the wheel of the Python module cqdb: what pip calls for `pip install .` in a clone (PEP 517). The wheel holds the
module and the shared library, which is made first: from the archive, which is proved and made anew where it is not there or is
older than a source. It needs no other package."""
from __future__ import annotations

import base64
import hashlib
import pathlib
import shutil
import subprocess
import zipfile
from typing import Any, Dict, List, Optional, Tuple

ROOT = pathlib.Path(__file__).resolve().parent.parent
MODULE = ROOT / "python" / "cqdb"
ARCHIVE = ROOT / "target" / "staticlib" / "libcqdb_c.a"
SHARED = ROOT / "target" / "staticlib" / "libcqdb.so.0"
PLATFORM = "linux_x86_64"
Settings = Optional[Dict[str, Any]]


def get_requires_for_build_wheel(config_settings: Settings = None) -> List[str]:
    """What the wheel's making needs: nothing."""
    return []


def prepare_metadata_for_build_wheel(metadata_directory: str, config_settings: Settings = None) -> str:
    """Writes what pip asks before the wheel is made, into a folder whose name it gives."""
    folder = pathlib.Path(metadata_directory) / f"lithwennog-{_version()}.dist-info"
    folder.mkdir()
    (folder / "METADATA").write_bytes(_metadata())
    (folder / "WHEEL").write_bytes(_wheel(_platform(config_settings)))
    return folder.name


def build_wheel(wheel_directory: str, config_settings: Settings = None, metadata_directory: Optional[str] = None) -> str:
    """Makes the wheel in a folder, and gives its file's name. It is for this platform, or for those that the setting
    `platform` names, joined by full stops, as packaging/release finds them."""
    _make_library()
    platform = _platform(config_settings)
    about = f"lithwennog-{_version()}.dist-info"
    files = [(f"cqdb/{file.name}", file.read_bytes()) for file in sorted(MODULE.glob("*.py")) + [MODULE / "py.typed", SHARED]]
    files += [(f"{about}/{name}", (ROOT / name).read_bytes()) for name in ("LICENSE", "NOTICE")]
    files += [(f"{about}/METADATA", _metadata()), (f"{about}/WHEEL", _wheel(platform))]
    files.append((f"{about}/RECORD", _record(files, f"{about}/RECORD")))
    wheel = f"lithwennog-{_version()}-py3-none-{platform}.whl"
    with zipfile.ZipFile(pathlib.Path(wheel_directory) / wheel, "w", zipfile.ZIP_DEFLATED) as out:
        for name, content in files:
            # The same files make the same wheel, whenever it is made.
            entry = zipfile.ZipInfo(name, date_time=(1980, 1, 1, 0, 0, 0))
            entry.external_attr = (0o100755 if name.endswith(".so.0") else 0o100644) << 16
            entry.compress_type = zipfile.ZIP_DEFLATED
            out.writestr(entry, content)
    return wheel


def build_sdist(sdist_directory: str, config_settings: Settings = None) -> str:
    """There is none: the library is proved and made in a clone."""
    raise NotImplementedError("no source distribution: pip install . in a clone of the repository")


def _make_library() -> None:
    """Makes the shared library; before it the archive, where there is none or a source is newer."""
    newer = _newer_source()
    if newer and ARCHIVE.is_file() and shutil.which("rt") is None:
        raise SystemExit(
            f"cqdb: {newer} is newer than {ARCHIVE.relative_to(ROOT)}, which may be of other sources: run ./make-archive, for which"
            " rt has to be on the path; or, where the archive is of these sources, `touch` it"
        )
    for script in ["make-archive", "make-shared"] if newer else ["make-shared"]:
        if subprocess.run([str(ROOT / script)]).returncode != 0:
            raise SystemExit(f"cqdb: the library was not made: ./{script} says above what is missing")


def _newer_source() -> Optional[pathlib.Path]:
    """A source that is newer than the archive, the newest one; every source is where there is no archive."""
    folders = [folder for name in ("src", "specs", "proofs") for folder in ROOT.glob(f"crates/*/{name}")]
    sources = [file for folder in folders for file in folder.rglob("*") if file.is_file()]
    newest = max(sources + [ROOT / name for name in ("KIT", "crates.txt", "make-archive", "packaging/proved.sh")], key=_changed)
    return newest.relative_to(ROOT) if _changed(newest) > _changed(ARCHIVE) else None


def _changed(file: pathlib.Path) -> int:
    """When a file was changed, in nanoseconds; 0 where it is not there."""
    return file.stat().st_mtime_ns if file.is_file() else 0


def _version() -> str:
    return (ROOT / "VERSION").read_text().strip()


def _metadata() -> bytes:
    lines = [
        "Metadata-Version: 2.1",
        "Name: lithwennog",
        f"Version: {_version()}",
        "Summary: Constant quark database images: names to ids and ids to names, over a proved library",
        "License: MIT AND BSD-3-Clause",
        "License-File: LICENSE",
        "License-File: NOTICE",
        "Requires-Python: >=3.9",
    ]
    return "".join(f"{line}\n" for line in lines).encode()


def _platform(config_settings: Settings) -> str:
    return str((config_settings or {}).get("platform", PLATFORM))


def _wheel(platform: str) -> bytes:
    tags = "".join(f"Tag: py3-none-{one}\n" for one in platform.split("."))
    return f"Wheel-Version: 1.0\nGenerator: lithwennog\nRoot-Is-Purelib: false\n{tags}".encode()


def _record(files: List[Tuple[str, bytes]], itself: str) -> bytes:
    """A line for each file: its name, its hash and its size; of the record itself the name alone."""
    lines = []
    for name, content in files:
        digest = base64.urlsafe_b64encode(hashlib.sha256(content).digest()).rstrip(b"=").decode()
        lines.append(f"{name},sha256={digest},{len(content)}\n")
    return "".join(lines + [f"{itself},,\n"]).encode()
