#!/usr/bin/env python3
"""Writes what a release consists of, from what is built, or compares a part of a release with what is built: make calls
it.

  packaging/release.py --record FILE dist      the archive for `tar -C /usr/local`
  packaging/release.py --record FILE deb       the packages for Debian
  packaging/release.py --record FILE wheel     the wheel for Python
  packaging/release.py --record FILE verify RELEASED

Each goes into the folder dist, or that of --to, with PROOF.txt and SHA256SUMS of all files there. The record is that of
tools/build.py. The bytes depend on the sources, the kit and the versions of the tools, and not on the folder, the user,
the time or the processors: the time of all files is SOURCE_DATE_EPOCH, or the day of the version in CHANGELOG.md.

RELEASED is one of the files, or SHA256SUMS with or without them beside it. verify ends with 1 if one isn't what is made
here.
"""

from __future__ import annotations

import argparse
import os
import pathlib
import sys
import tarfile
import tempfile
import zipfile
from collections.abc import Callable, Iterable

sys.dont_write_bytecode = True
import archive  # noqa: E402
import debian  # noqa: E402
import proof  # noqa: E402
import wheel  # noqa: E402
from common import TOP, Failed, run, set_epoch, write  # noqa: E402
from files import sum_of  # noqa: E402

SUMS, PROOF = "SHA256SUMS", "PROOF.txt"
# What is made of each kind, by the ends of the files' names.
KINDS = {"dist": (".tar.xz", PROOF), "deb": (".deb",), "wheel": (".whl",)}


def make_release(kinds: Iterable[str], folder: pathlib.Path, record: pathlib.Path) -> list[str]:
    """Writes the files of some kinds into a folder, and returns their names."""
    folder.mkdir(parents=True, exist_ok=True)
    with tempfile.TemporaryDirectory() as room:
        prefix = archive.install(pathlib.Path(room))
        proof.check(record, prefix / "bin/cmk")
        text = proof.text(record, {path: prefix / path for path in archive.BUILT})
        write(folder / PROOF, text)
        makers: dict[str, Callable[[], list[str]]] = {
            "dist": lambda: [archive.write_into(folder, prefix, text)],
            "deb": lambda: debian.write_into(folder, record),
            "wheel": lambda: [wheel.write_into(folder, prefix)],
        }
        return [PROOF, *(name for kind in kinds for name in makers[kind]())]


def write_sums(folder: pathlib.Path) -> None:
    """Writes the sums of all files of a release that are in a folder."""
    ends = tuple(end for of_kind in KINDS.values() for end in of_kind)
    files = sorted(path for path in folder.iterdir() if path.name.endswith(ends))
    write(folder / SUMS, "".join(f"{sum_of(file)}  {file.name}\n" for file in files))


def contents(file: pathlib.Path) -> dict[str, str | bytes]:
    """Returns what a file of a release has inside, by names."""
    if file.name.endswith(".whl"):
        with zipfile.ZipFile(file) as opened:
            return {name: opened.read(name) for name in opened.namelist()}
    if file.name.endswith(".deb"):
        with tempfile.TemporaryDirectory() as folder:
            run("dpkg-deb", "--raw-extract", file, folder)
            found = [path for path in pathlib.Path(folder).rglob("*") if path.is_symlink() or path.is_file()]
            return {
                str(path.relative_to(folder)): os.readlink(path) if path.is_symlink() else path.read_bytes()
                for path in found
            }
    if file.name.endswith(".tar.xz"):
        with tarfile.open(file) as opened:
            packed: dict[str, str | bytes] = {}
            for entry in opened:
                inside = opened.extractfile(entry) if entry.isfile() else None
                packed[entry.name] = inside.read() if inside else entry.linkname
            return packed
    return {}


def difference(made: pathlib.Path, released: pathlib.Path) -> str:
    """Returns what differs between two files that aren't the same."""
    if not released.exists():
        return ""
    ours, theirs = contents(made), contents(released)
    names = sorted(name for name in ours.keys() | theirs.keys() if ours.get(name) != theirs.get(name))
    return f": {', '.join(names)}" if names else ", and all inside is the same" if ours else ""


def verify(released: pathlib.Path, record: pathlib.Path) -> bool:
    """Compares files of a release, or their sums, with those that are made here, and returns whether all are the
    same."""
    wanted = {released.name: sum_of(released)}
    if released.name == SUMS:
        wanted = {name: checksum for checksum, name in (line.split() for line in released.read_text().splitlines())}
    is_same = True
    kinds = [kind for kind, ends in KINDS.items() if any(name.endswith(ends) for name in wanted)]
    with tempfile.TemporaryDirectory() as folder:
        room = pathlib.Path(folder)
        made = make_release(kinds, room, record)
        for name, checksum in wanted.items():
            if name not in made:
                print(f"not made of these sources: {name}")
            elif sum_of(room / name) == checksum:
                print(f"the same: {name}")
                continue
            else:
                print(f"differs: {name}{difference(room / name, released.parent / name)}")
            is_same = False
    return is_same


def main() -> int:
    parser = argparse.ArgumentParser(prog="packaging/release.py", description=__doc__.partition("\n\n")[0])
    parser.add_argument(
        "--record", type=pathlib.Path, required=True, metavar="FILE", help="the record of tools/build.py"
    )
    parser.add_argument("--to", type=pathlib.Path, default=TOP / "dist", metavar="FOLDER", help="where the files go")
    parser.add_argument("kind", choices=[*KINDS, "verify"], help="what to write, or verify")
    parser.add_argument("released", type=pathlib.Path, nargs="?", metavar="RELEASED", help="the file to verify")
    asked = parser.parse_args()
    if (asked.kind == "verify") != (asked.released is not None):
        parser.error("verify takes a file, and the others none")
    os.umask(0o022)
    try:
        set_epoch()
        if asked.kind == "verify":
            return not verify(asked.released, asked.record)
        print(*(f"{asked.to / name}" for name in make_release([asked.kind], asked.to, asked.record)), sep="\n")
        write_sums(asked.to)
    except (Failed, OSError) as why:
        print(f"packaging/release.py: {why}", file=sys.stderr)
        return 1
    return 0


sys.exit(main())
