"""What the parts of a release share: its version and date, what is built, and archives whose bytes depend on their
files alone."""

from __future__ import annotations

import datetime
import gzip
import importlib.machinery
import importlib.util
import lzma
import os
import pathlib
import re
import subprocess
import sys
import tarfile
from typing import Any

TOP = pathlib.Path(__file__).resolve().parent.parent


def loaded(script: pathlib.Path) -> Any:
    """Returns a script of the repository as a module."""
    loader = importlib.machinery.SourceFileLoader(script.name, str(script))
    spec = importlib.util.spec_from_loader(script.name, loader)
    if not spec:
        raise ImportError(f"{script} is no script")
    module = importlib.util.module_from_spec(spec)
    loader.exec_module(module)
    return module


links, backend = loaded(TOP / "tools/links"), loaded(TOP / "bindings/python/backend.py")

VERSION: str = backend.version()
SONAME, SHARED = f"libcmk.so.{VERSION.split('.')[0]}", f"libcmk.so.{VERSION}"
# Where make links the libraries of a release.
OUT = "out/release"
# What a recipe or a command would take from the surroundings of its caller.
LEFT_OUT = ("MAKE", "MFLAGS", "LC_", "LANG", "DEB_", "XZ_", "GZIP", "TAR_")


class Failed(Exception):
    """Why a part of a release isn't made."""


def set_epoch() -> None:
    """Sets SOURCE_DATE_EPOCH, the time that each file of a release has: if it isn't given, midnight of the version's
    day in CHANGELOG.md."""
    if "SOURCE_DATE_EPOCH" not in os.environ:
        day = re.search(rf"(?m)^## {re.escape(VERSION)} \((\d+-\d+-\d+)\)$", (TOP / "CHANGELOG.md").read_text())
        if not day:
            raise Failed(f"CHANGELOG.md has no line '## {VERSION} (YEAR-MONTH-DAY)'")
        midnight = datetime.datetime.fromisoformat(day[1]).replace(tzinfo=datetime.timezone.utc)
        os.environ["SOURCE_DATE_EPOCH"] = str(int(midnight.timestamp()))


def epoch() -> int:
    return int(os.environ["SOURCE_DATE_EPOCH"])


def run(*words: object, folder: pathlib.Path = TOP) -> str:
    """Runs a command, with nothing of its caller's that changes what it writes, and returns its output."""
    kept = {name: value for name, value in os.environ.items() if not name.startswith(LEFT_OUT)}
    ran = subprocess.run(
        [str(word) for word in words],
        cwd=folder,
        env={**kept, "LC_ALL": "C.UTF-8", "TZ": "UTC"},
        stdin=subprocess.DEVNULL,
        stdout=subprocess.PIPE,
        stderr=subprocess.PIPE,
        umask=0o022,
        check=False,
    )
    if ran.returncode:
        said = (ran.stderr or ran.stdout).decode(errors="replace").strip()
        raise Failed(f"{pathlib.Path(str(words[0])).name} failed: {said}")
    return ran.stdout.decode(errors="replace")


def make(*words: object) -> str:
    """Runs make over what is built, and returns its output."""
    return run("make", "--silent", "BUILD=", f"OUT={OUT}", *words)


def write(file: pathlib.Path, content: str | bytes) -> None:
    """Writes a text or bytes into a file, and makes its folders."""
    file.parent.mkdir(parents=True, exist_ok=True)
    file.write_bytes(content if isinstance(content, bytes) else content.encode())
    file.chmod(0o644)


def targets(page: pathlib.Path) -> set[pathlib.Path]:
    """Returns the files that the links of a page lead to."""
    return {links.target_of(page, link) for _, link in links.linked(page)} - {None}


def documents() -> dict[pathlib.Path, bytes]:
    """Returns the pages for users by their paths: README.md, what it leads to, and their pictures, with links to no
    other file."""
    pages = {
        TOP / "README.md",
        *(
            target
            for target in targets(TOP / "README.md")
            if target.suffix == ".md" and target != TOP / "CONTRIBUTING.md"
        ),
    }
    pictures = {target for page in pages for target in targets(page) if target.parent == TOP / "docs/pictures"}
    texts = {page: links.kept(page, lambda file: file is None or file in pages | pictures).encode() for page in pages}
    return {file.relative_to(TOP): texts.get(file) or file.read_bytes() for file in sorted(pages | pictures)}


def gzipped(content: bytes) -> bytes:
    return gzip.compress(content, 9, mtime=0)


def write_archive(file: pathlib.Path, root: pathlib.Path) -> None:
    """Writes the files and links below a folder, without its folders, so that those that exist where it is unpacked
    stay as they are."""

    def plain(entry: tarfile.TarInfo) -> tarfile.TarInfo:
        entry.mode = 0o777 if entry.issym() else 0o755 if entry.mode & 0o100 else 0o644
        entry.uid, entry.gid, entry.uname, entry.gname, entry.mtime = 0, 0, "root", "root", epoch()
        return entry

    with lzma.open(file, "wb", preset=9) as packed, tarfile.open(
        fileobj=packed, mode="w", format=tarfile.USTAR_FORMAT
    ) as archive:
        for path in sorted(root.rglob("*"), key=lambda path: path.relative_to(root).as_posix()):
            if path.is_symlink() or not path.is_dir():
                archive.add(path, path.relative_to(root).as_posix(), recursive=False, filter=plain)
