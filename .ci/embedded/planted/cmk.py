"""Comes before the package cmk in the workers of .ci/programs.py. One text ends the process, and another one is refused
once in each process, as if there were no memory for it."""

import os
import pathlib
import sys

sys.path.insert(0, str(pathlib.Path(__file__).resolve().parents[3] / "bindings/python"))
del sys.modules["cmk"]
import cmk  # noqa: E402

del sys.path[0]
plain, refused = cmk.html, []


def html(text, **options):
    if text == "KILL":
        os._exit(7)
    if text == "MEMORY" and not refused:
        refused.append(text)
        raise cmk.CmkError(cmk.Fault.NO_MEMORY, 0)
    return plain(text, **options)


cmk.html = html
