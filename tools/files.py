"""Whole files: their checksums, writing them to disk before they get their names, and locks between runs."""
from __future__ import annotations

import contextlib
import fcntl
import hashlib
import os
import pathlib
from collections.abc import Iterable, Iterator

# The file that has the checksums of all others in its folder, as sha256sum writes them.
SUMS = "SHA256SUMS"
# The most files that are written to disk at a time. One after another, each would wait for the disk.
AT_ONCE = 16


def sum_of(file: pathlib.Path) -> str:
    """Returns the SHA-256 of a file."""
    found = hashlib.sha256()
    with open(file, "rb") as opened:
        while part := opened.read(1 << 20):
            found.update(part)
    return found.hexdigest()


def paths_below(folder: str | pathlib.Path) -> Iterator[str]:
    """Yields the paths of the files below a folder, or nothing where there is none. It takes a third of the time of
    pathlib."""
    with contextlib.suppress(FileNotFoundError), os.scandir(folder) as entries:
        for entry in entries:
            if entry.is_dir(follow_symlinks=False):
                yield from paths_below(entry.path)
            elif entry.is_file():
                yield entry.path


def names_in(folder: pathlib.Path) -> list[str]:
    """Returns the paths of the files in a folder, but for that of the checksums."""
    return sorted({os.path.relpath(path, folder) for path in paths_below(folder)} - {SUMS})


def sums_in(folder: pathlib.Path) -> dict[str, str]:
    """Returns the checksums that a folder was sealed with, by the paths of the files."""
    lines = (folder / SUMS).read_text().splitlines()
    return {name: checksum for checksum, name in (line.split("  ", 1) for line in lines)}


def is_whole(folder: pathlib.Path, names: Iterable[str] | None = None) -> bool:
    """Returns whether these files of a sealed folder, or all, are what they were. Without names, a file more is as
    wrong as one less."""
    try:
        sums = sums_in(folder)
        if names is None and names_in(folder) != sorted(sums):
            return False
        return all(sum_of(folder / name) == sums[name] for name in (sums if names is None else names))
    except (OSError, ValueError, KeyError):
        return False


def settle(path: pathlib.Path) -> None:
    """Waits until a file or the entries of a folder are on the disk."""
    number = os.open(path, os.O_RDONLY)
    try:
        os.fsync(number)
    finally:
        os.close(number)


def seal(folder: pathlib.Path) -> None:
    """Writes the checksums of a folder's files into it, and waits until all of it is on the disk."""
    # This is loaded here alone because it takes 10 milliseconds, which each run of an unproved ./cmk would take.
    from concurrent.futures import ThreadPoolExecutor

    (folder / SUMS).write_text("".join(f"{sum_of(folder / name)}  {name}\n" for name in names_in(folder)))
    with ThreadPoolExecutor(AT_ONCE) as pool:
        list(pool.map(settle, [folder, *folder.rglob("*")]))


def write(file: pathlib.Path, content: bytes) -> None:
    """Writes bytes into a file, which at each moment has either the old ones or the new ones."""
    new = file.with_name(f"{file.name}.new")
    new.write_bytes(content)
    new.replace(file)


@contextlib.contextmanager
def locked(file: pathlib.Path) -> Iterator[None]:
    """Holds a lock, which is a file. Where nothing can be written, no other run changes anything either."""
    lock = None
    with contextlib.suppress(OSError):
        lock = file.open("a")
    with lock or contextlib.nullcontext():
        if lock:
            fcntl.flock(lock, fcntl.LOCK_EX)
        yield
