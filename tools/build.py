#!/usr/bin/env python3
"""Proves and builds the program cmk and the static library of cmk_c, or one of the two.

  tools/build.py [--record FILE [--anew]] [cmk] [cmk_c]
  tools/build.py --built
  tools/build.py --summary

It proves each crate from nothing, and builds it for the crates above without its proofs. A proved crate is kept in
~/.cache/cmk, or in $XDG_CACHE_HOME/cmk, under a checksum of everything it was made from. So an interrupted build
resumes at the last finished crate, and another copy of the same sources proves nothing again. Anyone who can write to
that folder is trusted. Messages go to standard error.

Each kept crate has the checksums of its files. They are compared wherever a file is taken, run or linked against, and
so are those of the program and the library in their folders. What differs is reported, removed and built again.

With --record, FILE gets the name of the kit; on a line each the crates with the prover's verdicts, which are kept too;
and the checksums of what is built. With --anew the cache is left alone, and everything is proved. --built proves
nothing, and compares what is built with its checksums. --summary prints how many crates and functions were proved.

Where `rt check` has left its work in each library, `rt run` builds over that: a developer's next program takes what has
changed, and no library is kept for each edit. A kit without the options that are needed here has `rt run` prove the
crates one after another.
"""
from __future__ import annotations

import argparse
import contextlib
import fcntl
import hashlib
import os
import pathlib
import re
import shutil
import signal
import subprocess
import sys
import tempfile
import threading
import time
from collections.abc import Callable, Iterable, Mapping, Sequence
from typing import TextIO, Union

import files

# A word of a command.
Word = Union[str, pathlib.Path]
TOP = pathlib.Path(__file__).resolve().parent.parent
PROGRAM, LIBRARY = "cmk", "cmk_c"
# The file that is built of each.
MADE = {PROGRAM: "cmk", LIBRARY: "libcmk_c.a"}
PARTS = ("src", "specs", "proofs")
MEMORY = pathlib.Path("/proc/meminfo")
# The options that `rattle build` needs and the files that the kit needs so that libraries can be built without their
# proofs.
FLAGS = (
    "--crate-name --extern -L --antt-project --logic-built --links --statements --jobs --backend --toolchain -o".split()
)
FILES = (
    "bin/rattle bin/rattle-link rlibs logic_built rattle/logic/antt-project.json toolchain "
    "c/libos_c.a c/liblibc_c.a"
).split()
# The most jobs that may prove one crate.
JOBS = 4
# The seconds that each crate took on the last machine, and its most jobs: a second job for cm_block or a fourth for
# cm_tool gained nothing.
TIMES = {
    "cm_text": (105, JOBS),
    "cm_tree": (125, JOBS),
    "cm_command": (123, 1),
    "cm_html": (195, 2),
    "cm_json": (150, 2),
    "cm_scan": (190, 2),
    "cm_source": (265, 1),
    "cm_block": (405, 1),
    "cm_inline": (370, 1),
    "cm_tool": (160, 3),
    "cmk": (83, 1),
    "cmk_c": (76, 1),
}
# A crate takes twice this memory, in kB, and once more for each job after the first.
ROOM = 1536 * 1024
# The store keeps this many entries of each name, each with the prover's last line on it.
KEPT = 2
VERDICT = "verdict"
# The times of a file may lag behind the clock by this many seconds.
TICK = 0.02
# A program can't be run while it is open for writing, and a process that starts has open what any thread writes. So
# this is held where a process starts, and where a program is copied.
STARTING = threading.Lock()


class Failed(Exception):
    """The reason why nothing was built."""


class Stopped(Exception):
    """A signal that ends this run."""


def tell(text: object) -> None:
    print(f"cmk: {text}", file=sys.stderr, flush=True)


class Crate:
    """A crate of the repository, with the libraries it depends on: those of the repository and those of the kit."""

    def __init__(self, name: str, named: list[str], ours: Iterable[str]) -> None:
        self.name = name
        self.below = [name for name in named if name in ours]
        self.of_kit = ["std", *(name for name in named if name not in ours)]
        self.folder = TOP / "crates" / name
        self.seconds, self.jobs = TIMES.get(name, (max(TIMES.values())[0], JOBS))

    def sum(self, kit: Kit, below: list[str]) -> str:
        """Returns the checksum of everything the crate is made from: the kit, its sources, and the crates below, given
        by their checksums."""
        made_of = hashlib.sha256(repr((kit.identity, self.name, self.of_kit, below)).encode())
        for path in sorted(path for part in PARTS for path in files.paths_below(self.folder / part)):
            content = pathlib.Path(path).read_bytes()
            made_of.update(repr((os.path.relpath(path, self.folder), len(content))).encode())
            made_of.update(content)
        return made_of.hexdigest()[:32]

    def keeps_work(self) -> bool:
        """Returns whether `rt check` has left work that makes the next check short."""
        kept = self.folder / "out/incremental"
        return kept.is_dir() and any(kept.iterdir())


def crates(*targets: str) -> dict[str, Crate]:
    """Returns the targets and the crates they depend on by name, each after those it depends on."""
    lines = (
        line.partition("#")[0].replace(",", " ").partition(":")
        for line in (TOP / "crates.txt").read_text().splitlines()
    )
    named = {head.split()[0]: names.split() for head, colon, names in lines if colon}
    found, entered = {}, set()

    def add(name: str) -> None:
        if name in named and name not in found:
            if name in entered:
                raise Failed(f"the dependencies in {TOP}/crates.txt form a cycle")
            entered.add(name)
            for below in named[name]:
                add(below)
            found[name] = Crate(name, named[name], named)

    for target in targets:
        add(target)
        if target not in found:
            raise Failed(f"{TOP}/crates.txt doesn't name {target}")
    return found


def sums_of(plan: dict[str, Crate], kit: Kit) -> dict[str, str]:
    sums: dict[str, str] = {}
    for crate in plan.values():
        sums[crate.name] = crate.sum(kit, [sums[name] for name in crate.below])
    return sums


class Made:
    """A target in its folder. The file `built` beside it has on a line each the kit, the checksum of the sources, that
    of the target, and the verdicts on the crates. The file `sources` has what tools/sources prints."""

    def __init__(self, target: str, top: pathlib.Path = TOP) -> None:
        self.target, self.top, self.folder = target, top, top / "crates" / target / "out"
        self.file, self.built, self.sources = (self.folder / name for name in (MADE[target], "built", "sources"))

    def locked(self) -> contextlib.AbstractContextManager[None]:
        """Returns the lock that a run holds while it changes what is in the folder."""
        self.folder.mkdir(parents=True, exist_ok=True)
        return files.locked(self.folder / "lock")

    def lines(self) -> list[str]:
        """Returns the lines of `built`."""
        return self.built.read_text(errors="replace").splitlines() if self.built.exists() else []

    def verdicts(self) -> dict[str, str]:
        """Returns the prover's last lines on the crates that the target was built of."""
        return dict(line.split(" ", 1) for line in self.lines()[3:])

    def is_damaged(self) -> bool:
        """Returns whether the target isn't what was built there. Where nothing says what that was, it isn't damaged."""
        lines = self.lines()
        return len(lines) > 2 and not (self.file.exists() and files.sum_of(self.file) == lines[2])

    def is_of(self, kit: Kit, checksum: str) -> bool:
        """Returns whether the target was built by this kit from the sources with this checksum. A damaged one is
        reported and removed."""
        lines = self.lines()
        if len(lines) < 3 or lines[:2] != [kit.identity, checksum] or not self.file.exists():
            return False
        if self.is_damaged():
            tell(f"{self.file.relative_to(self.top)} is damaged, so it is removed")
            self.forget()
            self.file.unlink()
        return self.file.exists()

    def forget(self) -> None:
        """Removes what is known of the target."""
        for file in (self.sources, self.built):
            file.unlink(missing_ok=True)

    def take(self, store: Store, checksum: str) -> str:
        """Copies the target from the store, and returns its own checksum."""
        place, new = store.place(self.target, checksum), self.folder / "new"
        with STARTING:
            shutil.copy(place / self.file.name, new)
        own = files.sums_in(place)[self.file.name]
        if files.sum_of(new) != own:
            raise Failed(f"{place} was damaged while {self.target} was taken from it: run this again")
        files.settle(new)
        self.forget()
        new.replace(self.file)
        return own

    def mark(self, kit: Kit, checksum: str, own: str, verdicts: Mapping[str, str]) -> None:
        """Marks the target, which has a checksum of its own, as built by this kit from the sources with this
        checksum."""
        lines = [kit.identity, checksum, own, *(f"{name} {verdict}" for name, verdict in verdicts.items())]
        files.write(self.built, "".join(f"{line}\n" for line in lines).encode())

    def keep_list(self, listed: bytes) -> None:
        """Keeps the list of the present sources and the program, if the sources are as they were listed before they
        were read."""
        if self.target == PROGRAM and not self.is_damaged():
            present = list_sources(self.top)
            if without_program(present) == without_program(listed):
                files.write(self.sources, present)


def list_sources(top: pathlib.Path = TOP) -> bytes:
    """Returns what tools/sources prints. Any file that changes afterwards gets another time, because the clock has
    moved on."""
    words = ["sh", "tools/sources"]
    with STARTING:
        listed = subprocess.run(words, cwd=top, stdin=subprocess.DEVNULL, stdout=subprocess.PIPE, check=False).stdout
    newest = max(map(float, re.findall(rb"(?m)^\d+ [\d.]+ ([\d.]+) ", listed)), default=0)
    if newest > time.time() - TICK:
        time.sleep(TICK)
    return listed


def without_program(listed: bytes) -> bytes:
    return re.sub(rb"(?m)^.* crates/cmk/out/cmk$", b"", listed)


def functions_in(verdict: str) -> int:
    """Returns how many functions were proved, by the prover's last line on a crate."""
    found = re.match(r"logic=proved functions=(\d+) ", verdict)
    if not found:
        raise Failed(f"this is no verdict: {verdict}")
    return int(found[1])


class Kit:
    """The Rattle kit, by its command rt."""

    def __init__(self) -> None:
        self.prover = shutil.which("rt") or "/opt/rattle/bin/rt"
        if not os.access(self.prover, os.X_OK):
            raise Failed(f"this needs the Rattle kit, and there is no rt on the PATH or at {self.prover}")
        self.folder = pathlib.Path(self.prover).resolve().parent.parent
        self.identity = ""
        with contextlib.suppress(OSError):
            self.identity = (self.folder / "KIT-ID").read_text().strip()

    def lacking(self) -> str | None:
        """Returns what this kit lacks to build libraries without their proofs, or None."""
        absent = [file for file in FILES if not (self.folder / file).exists()]
        if absent:
            return absent[0]
        asked: list[Word] = [self.folder / "bin/rattle", "build", "--help"]
        told = subprocess.run(asked, stdin=subprocess.DEVNULL, stdout=subprocess.PIPE, check=False).stdout.decode(
            errors="replace"
        )
        words = {word for pair in re.findall(r"(?m)^ *(-[\w-]+)(?:, (--[\w-]+))?", told) for word in pair}
        return next((flag for flag in FLAGS if flag not in words), None)

    def steps(
        self, crate: Crate, libraries: Mapping[str, pathlib.Path], jobs: int, made: pathlib.Path
    ) -> list[list[Word]]:
        """Returns the commands that prove the crate and build it into a folder. `libraries` has the folder of each
        library of the repository that the crate depends on."""
        rattle = self.folder / "bin/rattle"
        words: list[Word] = ["--crate-name", crate.name, "--links", f"{crate.name}="]
        for name in crate.of_kit:
            words += ["--extern", f"{name}={self.folder}/rlibs/{name}.rlib"]
        for name in crate.below:
            words += ["--extern", f"{name}={libraries[name]}/{name}.rlib"]
        for folder in [self.folder / "rlibs", *libraries.values()]:
            words += ["-L", f"dependency={folder}"]
        words += ["--antt-project", self.folder / "rattle/logic/antt-project.json"]
        proving: list[Word] = ["--logic-built", self.folder / "logic_built", "--jobs", str(jobs)]
        if crate.name not in MADE:
            return [
                [rattle, "build", "src/lib.rt", *words, *proving, "--statements", "-o", made / f"{crate.name}.rlib"]
            ]
        toolchain: list[Word] = ["--toolchain", self.folder / "toolchain"]
        if crate.name == LIBRARY:
            return [
                [
                    rattle, "build", "src/lib.rt", *words, *proving, "--crate-type", "staticlib", *toolchain, "-o",
                    made / MADE[LIBRARY],
                ]
            ]
        linked: list[Word] = ["--target", "x86_64-unknown-linux-gnu", *toolchain, "-o", made / PROGRAM, made / "cmk.o"]
        return [
            [rattle, "build", "src/main.rt", *words, *proving, "--backend", "llvm", *toolchain, "-o", made / "cmk.o"],
            [self.folder / "bin/rattle-link", *linked, self.folder / "c/libos_c.a", self.folder / "c/liblibc_c.a"],
            ["rm", made / "cmk.o"],
            [made / PROGRAM, "--help"],
        ]

    def check(self, crate: Crate, libraries: Mapping[str, pathlib.Path]) -> list[Word]:
        """Returns the command that checks the crate with one job, over libraries as for `steps`."""
        rattle, _, _, *words = self.steps(crate, libraries, 1, pathlib.Path("made"))[0]
        root = next(root for root in ("src/lib.rt", "src/main.rt") if (crate.folder / root).exists())
        for flag in ("-o", "--toolchain"):
            if flag in words:
                del words[words.index(flag) : words.index(flag) + 2]
        return [rattle, "check", root, *(word for word in words if word != "--statements")]


class Store:
    """What was built on this machine: a folder for each crate, named after it and its checksum. If verdicts are asked
    for, a crate without one counts for nothing. The folder is that of the user, or else, as for what is built anew, one
    in the repository."""

    def __init__(self, with_verdicts: bool = False, anew: bool = False) -> None:
        self.with_verdicts = with_verdicts
        cache = os.environ.get("XDG_CACHE_HOME") or os.path.expanduser("~/.cache")
        out = Made(PROGRAM).folder
        users = [pathlib.Path(cache) / "cmk"] if os.path.isabs(cache) else []
        for folder in [out / "anew"] if anew else [*users, out / "proved"]:
            with contextlib.suppress(OSError):
                folder.mkdir(parents=True, exist_ok=True)
                (folder / "lock").open("a").close()
                self.folder = folder
                self.locks: dict[str, TextIO] = {}
                return
        raise Failed(f"nothing can be written to {folder}")

    def wait(self, name: str, what: str) -> None:
        """Waits until no other run holds the lock with this name. The kernel releases a lock when its run ends, no
        matter how."""
        if name in self.locks:
            return
        lock = self.locks[name] = (self.folder / name).open("a")
        try:
            fcntl.flock(lock, fcntl.LOCK_EX | fcntl.LOCK_NB)
        except BlockingIOError:
            tell(f"waiting for another run that {what}")
            fcntl.flock(lock, fcntl.LOCK_EX)

    def room(self, prefix: str) -> tempfile.TemporaryDirectory[str]:
        """Returns a new temporary folder, and removes those that killed runs have left."""
        for left in self.folder.glob(f"{prefix}.*"):
            shutil.rmtree(left, ignore_errors=True)
        return tempfile.TemporaryDirectory(prefix=f"{prefix}.", dir=self.folder)

    def place(self, name: str, checksum: str) -> pathlib.Path:
        return self.folder / f"{name}-{checksum}"

    def has(self, name: str, checksum: str, names: list[str] | None = None) -> bool:
        """Returns whether the store has an entry, and these files of it, or all, are as they were written. One that is
        damaged is reported and removed. One without checksums, as an earlier version left it, counts for nothing."""
        place = self.place(name, checksum)
        if not (place / files.SUMS).exists():
            return False
        if files.is_whole(place, names):
            return True
        with self.changing():
            # Another run may have removed or replaced it meanwhile.
            if (place / files.SUMS).exists() and not files.is_whole(place, names):
                tell(f"{place} is damaged, so it is removed")
                self.remove(place)
            return (place / files.SUMS).exists()

    def verdict(self, name: str, checksum: str) -> str:
        """Returns the prover's last line on a crate."""
        return (self.place(name, checksum) / VERDICT).read_text().strip()

    def verdicts(self, plan: dict[str, Crate], sums: dict[str, str]) -> dict[str, str]:
        """Returns the prover's last lines on those crates of a plan that the store has."""
        return {name: self.verdict(name, sums[name]) for name in plan if self.has(name, sums[name], [VERDICT])}

    def keep(self, made: pathlib.Path, name: str, checksum: str) -> None:
        """Moves a folder into the store, which keeps the last few of each name. It is on the disk before it has its
        name."""
        files.seal(made)
        place = self.place(name, checksum)
        with self.changing():
            if place.exists():
                self.remove(place)
            made.rename(place)
            files.settle(self.folder)
            for old in sorted(self.folder.glob(f"{name}-*"), key=lambda entry: entry.stat().st_mtime)[:-KEPT]:
                self.remove(old)

    def changing(self) -> contextlib.AbstractContextManager[None]:
        """Returns a lock for a moment in which entries come and go."""
        return files.locked(self.folder / "changing")

    def remove(self, place: pathlib.Path) -> None:
        """Removes an entry, which loses its name first, so that no run finds a part of it."""
        with self.room("removed") as room:
            place.rename(pathlib.Path(room) / place.name)

    def empty(self) -> None:
        """Removes all entries."""
        for entry in self.folder.glob("*-*"):
            self.remove(entry)


class Processes:
    """The processes that this run starts, in a group that gets a signal when this run ends, no matter how."""

    def __init__(self, signal_name: str = "KILL") -> None:
        # The shell's read returns when this run's end of the pipe closes.
        self.started: list[subprocess.Popen[bytes]] = []
        at_end = f"read _; kill -s {signal_name} 0"
        self.guard = subprocess.Popen(
            ["sh", "-c", at_end],
            stdin=subprocess.PIPE,
            stdout=subprocess.DEVNULL,
            stderr=subprocess.DEVNULL,
            preexec_fn=os.setpgrp,
        )

    def start(
        self,
        words: Sequence[Word],
        folder: pathlib.Path,
        log: pathlib.Path,
        env: Mapping[str, str] | None = None,
    ) -> subprocess.Popen[bytes]:
        with log.open("ab") as to, STARTING:
            group = self.guard.pid
            started = subprocess.Popen(
                words,
                cwd=folder,
                env=env,
                stdin=subprocess.DEVNULL,
                stdout=to,
                stderr=subprocess.STDOUT,
                preexec_fn=lambda: os.setpgid(0, group),
            )
            self.started.append(started)
        return started

    def kill(self, word: bytes) -> None:
        """Kills the processes of the group that have a word among their arguments."""
        for process in pathlib.Path("/proc").glob("[0-9]*"):
            with contextlib.suppress(OSError):
                if os.getpgid(int(process.name)) == self.guard.pid and word in (process / "cmdline").read_bytes().split(
                    b"\0"
                ):
                    os.kill(int(process.name), signal.SIGKILL)

    def close(self) -> None:
        if self.guard.stdin:
            self.guard.stdin.close()
        for process in (self.guard, *self.started):
            process.wait()


class Making:
    """A crate on its way: the commands that prove it and build it into a folder, one after another."""

    def __init__(
        self, crate: Crate, jobs: int, steps: list[list[Word]], processes: Processes, made: pathlib.Path
    ) -> None:
        self.crate, self.jobs, self.steps, self.processes, self.made = crate, jobs, steps, processes, made
        self.log = made.with_suffix(".log")
        self.began = time.monotonic()
        self.process: subprocess.Popen[bytes] | None = None
        made.mkdir()

    def goes_on(self) -> bool:
        """Starts the next command if the last one has ended, and returns whether one is running."""
        if self.process and self.process.poll() is None:
            return True
        if self.process and self.process.returncode:
            lines = [
                line for line in self.log.read_text(errors="replace").splitlines() if not line.startswith("statements ")
            ]
            why = (
                "was killed, probably for lack of memory"
                if self.process.returncode == -signal.SIGKILL
                else "isn't proved"
            )
            print("\n".join(lines[-20:]), file=sys.stderr)
            raise Failed(f"{self.crate.name} {why}, so nothing was built")
        if self.steps:
            self.process = self.processes.start(self.steps.pop(0), self.crate.folder, self.log)
            return True
        return False

    def write_verdict(self) -> None:
        """Writes the prover's last line into the folder."""
        found = re.findall(r"(?m)^logic=proved .*", self.log.read_text(errors="replace"))
        if not found:
            raise Failed(f"the kit has built {self.crate.name} and gave no verdict")
        (self.made / VERDICT).write_text(f"{found[-1]}\n")


class Progress:
    """Shows the progress: on a terminal in one line that is rewritten, elsewhere in a line a minute."""

    def __init__(self) -> None:
        self.is_terminal = sys.stderr.isatty()
        self.told = time.monotonic()

    def tell(self, text: object) -> None:
        if self.is_terminal:
            line = f"cmk: {text}"[: shutil.get_terminal_size().columns - 1]
            print(f"\r{line}\033[K", end="", file=sys.stderr, flush=True)
        elif time.monotonic() - self.told >= 60:
            self.told = time.monotonic()
            tell(text)

    def close(self) -> None:
        if self.is_terminal:
            print("\r\033[K", end="", file=sys.stderr, flush=True)


def minutes(seconds: float) -> str:
    count = max(1, round(seconds / 60))
    return f"{count} minute{'s' * (count > 1)}"


class Build:
    """The crates that the store lacks for the targets, and how far they are."""

    def __init__(
        self, targets: Sequence[str], plan: dict[str, Crate], sums: dict[str, str], kit: Kit, store: Store
    ) -> None:
        self.plan, self.sums, self.kit, self.store = plan, sums, kit, store
        self.waiting: list[str] = []
        for name in reversed(plan):
            if self.lacks(name, targets):
                self.waiting.insert(0, name)
        self.total = len(self.waiting)
        self.running: dict[str, Making] = {}
        self.processors = len(os.sched_getaffinity(0))
        # The seconds that the finished crates took, here and on the last machine.
        self.took = self.expected = 0.0

    def lacks(self, name: str, targets: Sequence[str]) -> bool:
        """Returns whether a crate has to be built, once it is known which of those above it have to. What they are
        linked against is checked when they start."""
        if any(self.stands_on(other, name) for other in self.waiting):
            return not self.store.has(name, self.sums[name], [])
        if name in targets:
            return not self.store.has(name, self.sums[name])
        return self.store.with_verdicts and not self.store.has(name, self.sums[name], [VERDICT])

    def is_kept(self, name: str) -> bool:
        return name not in self.waiting and name not in self.running

    def stands_on(self, name: str, other: str) -> bool:
        return any(below == other or self.stands_on(below, other) for below in self.plan[name].below)

    def libraries(self, name: str) -> list[str]:
        """Returns the libraries that a crate is linked against."""
        return [crate for crate in self.plan if self.stands_on(name, crate)]

    def chains(self, seconds: Mapping[str, float]) -> dict[str, float]:
        """Returns for each crate the time of the longest chain that starts with it and goes upwards, given the seconds
        of each crate."""
        found: dict[str, float] = {}
        for name in reversed(self.plan):
            found[name] = seconds[name] + max(
                (found[other] for other in found if name in self.plan[other].below), default=0
            )
        return found

    def left(self) -> float:
        """Returns the seconds left at the pace so far: those of the longest chain, or of all crates if there are too
        few processors."""
        pace = self.took / self.expected if self.expected else 1
        seconds = {name: 0 if self.is_kept(name) else crate.seconds * pace for name, crate in self.plan.items()}
        for name, making in self.running.items():
            seconds[name] = max(seconds[name] - (time.monotonic() - making.began), 5)
        return max(*self.chains(seconds).values(), sum(seconds.values()) / self.processors)

    def jobs(self, name: str, others: int) -> int:
        """Returns how many jobs one more crate may have if each of the given number of others keeps a processor: 0 if
        there is no processor or no memory for it. The first crate always has one."""
        lines = dict(line.split(":", 1) for line in MEMORY.read_text().splitlines())
        room = int(lines["MemAvailable"].split()[0]) // ROOM - 2 * len(self.running)
        free = self.processors - sum(making.jobs for making in self.running.values())
        found = min(self.plan[name].jobs, max(free - others, min(free, 1)), room - 1)
        return max(found, 0 if self.running else 1)

    def ready(self) -> tuple[list[str], list[str]]:
        """Returns the crates that wait for no other, in the order in which they start: those at the start of the
        longest chains first. Crates that hold up less than those which aren't ready yet are a list of their own: they
        start on processors that would be idle."""
        chains = self.chains({name: 0 if self.is_kept(name) else crate.seconds for name, crate in self.plan.items()})
        ready = [name for name in self.waiting if all(self.is_kept(below) for below in self.libraries(name))]
        ready.sort(key=chains.__getitem__, reverse=True)
        longest = max((chains[name] for name in self.waiting if name not in ready), default=0)
        return [name for name in ready if chains[name] >= longest], [name for name in ready if chains[name] < longest]

    def start_ready(self, processes: Processes, work: pathlib.Path) -> None:
        """Starts the crates that wait for no other while there is room."""
        for ready in self.ready():
            for at, name in enumerate(ready, 1):
                jobs = self.jobs(name, len(ready) - at)
                if not jobs:
                    return
                below = self.libraries(name)
                if damaged := [other for other in below if not self.store.has(other, self.sums[other])]:
                    self.waiting, self.total = [*damaged, *self.waiting], self.total + len(damaged)
                    return
                libraries = {other: self.store.place(other, self.sums[other]) for other in below}
                steps = self.kit.steps(self.plan[name], libraries, jobs, work / name)
                self.waiting.remove(name)
                self.running[name] = Making(self.plan[name], jobs, steps, processes, work / name)

    def keep_ended(self) -> None:
        """Stores the finished crates, provided that their sources haven't changed."""
        for name, making in list(self.running.items()):
            if making.goes_on():
                continue
            if self.plan[name].sum(self.kit, [self.sums[below] for below in self.plan[name].below]) != self.sums[name]:
                raise Failed(f"a source of {name} changed while it was being proved: run this again")
            making.write_verdict()
            self.store.keep(making.made, name, self.sums[name])
            del self.running[name]
            self.took += time.monotonic() - making.began
            self.expected += self.plan[name].seconds

    def run(self) -> None:
        """Proves and builds the crates, and stores each as soon as it is done."""
        progress, processes = Progress(), Processes()
        with self.store.room("proving") as work, contextlib.closing(processes), contextlib.closing(progress):
            while self.waiting or self.running:
                self.start_ready(processes, pathlib.Path(work))
                done, now = self.total - len(self.waiting) - len(self.running), " and ".join(self.running)
                progress.tell(f"{done} of {self.total} crates are proved, now {now}; about {minutes(self.left())} left")
                time.sleep(0.1)
                self.keep_ended()


def libraries(
    names: list[str], plan: dict[str, Crate], sums: dict[str, str], kit: Kit, store: Store
) -> dict[str, pathlib.Path]:
    """Returns the folders of these libraries in the store, once it has them."""
    if Build(names, plan, sums, kit, store).total:
        store.wait("lock", "proves it")
        Build(names, plan, sums, kit, store).run()
    return {name: store.place(name, sums[name]) for name in names}


def run_rt(target: str, kit: Kit, store: Store) -> None:
    """Has rt prove what isn't proved, one crate after another, and build the target in its folder."""
    jobs = min(JOBS, len(os.sched_getaffinity(0)))
    words = ["lib", "--jobs", str(jobs)] if target == LIBRARY else ["run", "--jobs", str(jobs), "--", "--help"]
    progress, processes = Progress(), Processes()
    with store.room("proving") as work, contextlib.closing(processes), contextlib.closing(progress):
        rt = Making(Crate(target, [], []), jobs, [[kit.prover, *words]], processes, pathlib.Path(work) / target)
        while rt.goes_on():
            progress.tell(f"proving {target} for {minutes(time.monotonic() - rt.began)}")
            time.sleep(0.1)


def obtain(targets: Sequence[str], plan: dict[str, Crate], sums: dict[str, str], kit: Kit, store: Store) -> bool:
    """Has everything proved that the targets depend on, and returns whether the store has them. Otherwise rt has built
    them in their folders."""
    build = Build(targets, plan, sums, kit, store)
    is_developed = not store.with_verdicts and all(
        crate.keeps_work() for crate in plan.values() if crate.name not in MADE
    )
    lacking = None if is_developed or not build.total else kit.lacking()
    what = "every function" if build.total == len(plan) else "what isn't proved yet"
    if not build.total:
        tell(f"these sources are proved already: taking {' and '.join(targets)} from {store.folder}")
    elif lacking and store.with_verdicts:
        raise Failed(f"this kit has no {lacking}, so there is no verdict on each crate")
    elif is_developed or lacking:
        why = f"because this kit has no {lacking}" if lacking else "on top of the work that rt check has left"
        tell(f"proving {what} with rt, {why}")
        for target in targets:
            run_rt(target, kit, store)
        return False
    else:
        tell(f"proving {what}: about {minutes(build.left())}")
        build.run()
    return True


def prove_in(store: Store, targets: Sequence[str], record: pathlib.Path | None) -> None:
    """Proves and builds those targets that aren't built from the present sources with the present kit. A record is of
    what the store has, so with one all are taken from there."""
    plan, kit = crates(*targets), Kit()
    listed = list_sources()
    sums = sums_of(plan, kit)
    stale = []
    for made in map(Made, targets):
        with made.locked():
            if record or not made.is_of(kit, sums[made.target]):
                stale.append(made.target)
                made.forget()
    is_kept = stale and obtain(stale, plan, sums, kit, store)
    for made in map(Made, targets):
        checksum = sums[made.target]
        with made.locked():
            if made.target in stale:
                own = made.take(store, checksum) if is_kept else files.sum_of(made.file)
                made.mark(kit, checksum, own, store.verdicts(crates(made.target), sums) if is_kept else {})
            made.keep_list(listed)
    if record:
        built = (f"{files.sum_of(made.file)}  {made.file.relative_to(TOP)}" for made in map(Made, targets))
        record.write_text(
            "\n".join(
                [
                    kit.identity,
                    *(f"{name} {verdict}" for name, verdict in store.verdicts(plan, sums).items()),
                    *built,
                    "",
                ]
            )
        )


def prove(targets: Sequence[str], record: pathlib.Path | None = None, anew: bool = False) -> None:
    """Proves and builds targets, by a store that is empty at first if they are to be proved anew."""
    store = Store(record is not None, anew)
    store.wait("lock", "proves it")
    try:
        if anew:
            store.empty()
        prove_in(store, targets, record)
    finally:
        if anew:
            store.empty()


def look() -> None:
    """Raises why what is built can't be used: something is absent or damaged."""
    for made in map(Made, MADE):
        if not os.access(made.file, os.X_OK if made.target == PROGRAM else os.R_OK):
            raise Failed(f"{made.file.relative_to(TOP)} isn't built: run 'make'")
        if made.is_damaged():
            raise Failed(f"{made.file.relative_to(TOP)} isn't what was built there: run 'make'")


def summary() -> str:
    """Returns how many crates and functions were proved, by the verdicts that are kept with what is built."""
    verdicts = {name: verdict for made in map(Made, MADE) for name, verdict in made.verdicts().items()}
    total = len(crates(*MADE))
    if not verdicts:
        return "proved by rt, which leaves no verdicts to count"
    others = "" if len(verdicts) == total else "; the verdicts on the others aren't kept"
    return f"{len(verdicts)} of {total} crates proved, {sum(map(functions_in, verdicts.values())):,} functions{others}"


def outcome(work: Callable[[], object]) -> int:
    """Does some work, and returns the exit status: 0 if it succeeds."""

    def stop(number: int, _: object) -> None:
        raise Stopped(number)

    for number in (signal.SIGHUP, signal.SIGINT, signal.SIGTERM):
        if signal.getsignal(number) is not signal.SIG_IGN:
            signal.signal(number, stop)
    try:
        work()
    except BrokenPipeError:
        return 128 + signal.SIGPIPE
    except (Failed, OSError) as why:
        tell(why)
        return 1
    except Stopped as stopped:
        tell("interrupted")
        return 128 + int(stopped.args[0])
    return 0


def main() -> int:
    parser = argparse.ArgumentParser(prog="tools/build.py", description=__doc__.partition("\n\n")[0])
    parser.add_argument(
        "--record", type=pathlib.Path, metavar="FILE", help="write the kit, the verdicts and the checksums to FILE"
    )
    parser.add_argument(
        "--anew", action="store_true", help="with --record: prove everything, and leave the cache alone"
    )
    parser.add_argument("--built", action="store_true", help="only compare what is built with its checksums")
    parser.add_argument("--summary", action="store_true", help="only print how many crates and functions were proved")
    parser.add_argument("targets", nargs="*", metavar="TARGET", help="cmk or cmk_c; without any, both")
    asked = parser.parse_args()
    targets = asked.targets or list(MADE)
    if not set(targets) <= set(MADE):
        parser.error(f"a target is {' or '.join(MADE)}")
    if asked.anew and not asked.record:
        parser.error("--anew takes --record")
    if asked.built:
        return outcome(look)
    if asked.summary:
        return outcome(lambda: print(summary()))
    return outcome(lambda: prove(targets, asked.record, asked.anew))


if __name__ == "__main__":
    sys.exit(main())
