"""What the scripts that try the built program and library share: counting points, running commands, and what is
built."""

import os
import pathlib
import shlex
import shutil
import subprocess
import sys

TOP = pathlib.Path(__file__).resolve().parent.parent
sys.path.insert(0, str(TOP / "tools"))
import build  # noqa: E402
from files import sum_of  # noqa: E402, F401

PROGRAM, ARCHIVE = TOP / "crates/cmk/out/cmk", TOP / "crates/cmk_c/out/libcmk_c.a"
# Folders whose names a careless script or recipe takes apart.
FOLDERS = ["a folder", "l'été"]

# What can happen to a file: the name, and what becomes of the first half of its bytes and of the others.
DAMAGES = {
    "emptied": lambda first, others: b"",
    "truncated": lambda first, others: first,
    "replaced": lambda first, others: b"#!/bin/sh\necho hello\n",
    "with a flipped bit": lambda first, others: first + bytes([others[0] ^ 1]) + others[1:],
}


class Points:
    """What was tried, and how it went."""

    def __init__(self):
        self.passed = self.failed = self.skipped = 0

    def say(self, name, mistake):
        self.passed, self.failed = self.passed + (not mistake), self.failed + bool(mistake)
        print(f"FAILED: {name}: {mistake}" if mistake else f"ok: {name}", flush=True)

    def skip(self, name, tool):
        self.skipped += 1
        print(f"skipped: {name}: there is no {tool}", flush=True)


class Run:
    """The result of a command."""

    def __init__(self, words, given=b"", environment=None, folder=None):
        how = {
            "cwd": folder, "input": given, "stdout": subprocess.PIPE, "stderr": subprocess.PIPE,
            "env": {**os.environ, **(environment or {})},
        }
        ran = subprocess.run([str(word) for word in words], timeout=7200, check=False, **how)
        self.status, self.wrote, self.said = ran.returncode, ran.stdout, ran.stderr

    def mistake(self):
        """Returns what the command said and its status, if that isn't 0."""
        return (
            None
            if self.status == 0
            else f"status {self.status}: {(self.said or self.wrote).decode(errors='replace')[-500:].strip()}"
        )

    def answer(self):
        return self.status, self.wrote, self.said


def damage(file, name):
    """Damages a file in one of these ways."""
    content = file.read_bytes()
    half = len(content) // 2
    file.write_bytes(DAMAGES[name](content[:half], content[half:]))


def is_current(made):
    """Returns whether no source is newer than what was made of it."""
    sources = [TOP / "crates.txt", *(path for part in build.PARTS for path in TOP.glob(f"crates/*/{part}/**/*"))]
    return made.exists() and all(source.stat().st_mtime <= made.stat().st_mtime for source in sources)


def build_archive(room):
    """Builds the static library over the libraries that rt ci left in the crates' folders, or else as make does.
    Returns what went wrong."""
    if is_current(ARCHIVE):
        return None
    plan = build.crates(build.LIBRARY)
    below = {name: TOP / "crates" / name / "out/rlib" for name in plan if name != build.LIBRARY}
    if not all((folder / f"{name}.rlib").is_dir() for name, folder in below.items()):
        return Run([TOP / "tools/build.py", build.LIBRARY]).mistake()
    (words,) = build.Kit().steps(plan[build.LIBRARY], below, 1, room)
    mistake = Run(words, folder=TOP / "crates/cmk_c").mistake()
    if not mistake:
        ARCHIVE.parent.mkdir(exist_ok=True)
        shutil.copy(room / ARCHIVE.name, ARCHIVE)
    return mistake


def copy_built(top):
    """Copies the repository with the program and the static library into a folder, as if `make` had built them
    there."""
    shutil.copytree(TOP, top, ignore=shutil.ignore_patterns(".git", "out", "dist", "target", "__pycache__"))
    kit, plan = build.Kit(), build.crates(*build.MADE)
    sums = build.sums_of(plan, kit)
    for target, from_ in {build.PROGRAM: PROGRAM, build.LIBRARY: ARCHIVE}.items():
        made = build.Made(target, top)
        made.folder.mkdir()
        shutil.copy(from_, made.file)
        made.mark(kit, sums[target], sum_of(made.file), {})
        made.keep_list(build.list_sources(top))


def flags_of(environment):
    """Returns the words for the compiler and for the linker. pkg-config puts a backslash before each byte of a letter
    beyond ASCII."""
    told = [Run(["pkg-config", f"--{kind}", "cmk"], environment=environment).wrote for kind in ("cflags", "libs")]
    return [shlex.split(os.fsdecode(word)) for word in told]
