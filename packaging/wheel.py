"""The wheel with the library in it, for each system that has the C library which that needs."""

from __future__ import annotations

import pathlib
import re

from common import SHARED, Failed, backend, run

# The least version of glibc, 2.N, that a tag may have for x86-64.
LEAST = 5


def tag_of(library: pathlib.Path) -> str:
    """Returns the tag of a wheel with a library, by the versions of the symbols that it needs."""
    needed = re.findall(r"\(NEEDED\).*\[(.*)\]", run("readelf", "--wide", "--dynamic", library))
    if needed != ["libc.so.6"]:
        raise Failed(f"{SHARED} needs {', '.join(needed)}, and not only libc.so.6")
    versions = re.findall(r"\bName: GLIBC_2\.(\d+)", run("readelf", "--wide", "--version-info", library))
    return f"py3-none-manylinux_2_{max([LEAST, *map(int, versions)])}_x86_64"


def write_into(folder: pathlib.Path, prefix: pathlib.Path) -> str:
    """Writes the wheel of what is installed into a folder, and returns its name."""
    library = prefix / "lib" / SHARED
    return str(backend.write_wheel(folder, tag_of(library), library))
