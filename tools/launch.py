#!/usr/bin/env python3
"""Runs cmk with the given arguments: ./cmk calls this if no proved program of the present sources is in its folder.

  tools/launch.py [WORD..]

If the store of tools/build.py has that program, it is taken from there. Otherwise the program is built without its
proofs by `rt try`, with run-time checks in their place, which takes about a minute. The store keeps this build too,
under the checksum of the sources. Each run of it says on standard error that it isn't proved. Proofs are never started:
`make` does that.
"""
from __future__ import annotations

import contextlib
import errno
import os
import pathlib
import shutil
import signal
import subprocess
import sys
import time
from collections.abc import Sequence
from typing import NoReturn

import build

# The programs that can be tried, and the arguments with which each reads a file.
READS: dict[str, list[str]] = {build.PROGRAM: ["render"], "conformance": []}
# An argument of the check that `rt try` runs during the build: it only gives hints on names, and keeps a second
# processor busy.
HINTS = b"no function"


def reader(pipe: pathlib.Path) -> int | None:
    """Opens a named pipe for writing, and returns its number, or None while nobody reads it."""
    try:
        return os.open(pipe, os.O_WRONLY | os.O_NONBLOCK)
    except OSError as why:
        if why.errno != errno.ENXIO:
            raise
        return None


def try_program(name: str, kit: build.Kit, work: pathlib.Path, made: pathlib.Path, processes: build.Processes) -> None:
    """Has `rt try` build a program without its proofs, and copies that to `made`. `rt try` removes what it has built
    when the program ends. So the program is given a named pipe to read, and is copied while it waits."""
    pipe, log = work / "pipe", work / "log"
    os.mkfifo(pipe)
    began = time.monotonic()
    with contextlib.closing(build.Progress()) as progress:
        words: list[build.Word] = [kit.prover, "try", "--", *READS[name], pipe]
        tried = processes.start(words, build.TOP / "crates" / name, log, env={**os.environ, "TMPDIR": str(work)})
        while (number := reader(pipe)) is None:
            progress.tell(
                f"building {name} without proofs, which takes about a minute: {time.monotonic() - began:.0f} s"
            )
            if tried.poll() is not None and reader(pipe) is None:
                raise build.Failed(
                    f"rt try has built no program, so nothing was run:\n{log.read_text(errors='replace').rstrip()}"
                )
            processes.kill(HINTS)
            time.sleep(0.1)
        for program in work.glob("*/*/program"):
            with build.STARTING:
                shutil.copy2(program, made)
        os.close(number)
    if not made.exists():
        raise build.Failed("this kit's rt try has its program elsewhere, so nothing was run: run 'make'")


class Sources:
    """The present sources of a program, the kit, and the store of what was built on this machine."""

    def __init__(self, name: str) -> None:
        self.name, self.plan, self.kit, self.store = name, build.crates(name), build.Kit(), build.Store()
        self.sums = build.sums_of(self.plan, self.kit)
        self.checksum = self.sums[name]
        self.tried = f"unproved-{name}"

    def proved(self) -> pathlib.Path | None:
        """Returns the proved program, if it is in its folder or in the store, or None."""
        made = build.Made(self.name)
        with made.locked():
            if not made.is_of(self.kit, self.checksum):
                if not self.store.has(self.name, self.checksum):
                    return None
                build.tell(f"these sources are proved already: taking {self.name} from {self.store.folder}")
                own = made.take(self.store, self.checksum)
                made.mark(self.kit, self.checksum, own, self.store.verdicts(self.plan, self.sums))
            listed = build.list_sources()
            # In a folder that can't be written to, the program is looked for in each run.
            with contextlib.suppress(OSError):
                if build.sums_of(self.plan, self.kit) == self.sums:
                    made.keep_list(listed)
        return made.file

    def wait(self) -> bool:
        """Waits until no other run builds the unproved program, and returns whether the store has it."""
        if self.store.has(self.tried, self.checksum):
            return True
        self.store.wait(f"{self.tried}.lock", "builds it without proofs")
        return self.store.has(self.tried, self.checksum)

    def unproved(self, processes: build.Processes) -> pathlib.Path:
        """Returns the unproved program, and builds it if the store lacks it. The build ends early if the processes are
        closed."""
        if not self.wait():
            with self.store.room(f"trying-{self.name}") as room:
                folder = pathlib.Path(room) / "made"
                folder.mkdir()
                try_program(self.name, self.kit, pathlib.Path(room), folder / self.name, processes)
                self.store.keep(folder, self.tried, self.checksum)
        return self.store.place(self.tried, self.checksum) / self.name

    def time_to_prove(self) -> str:
        return build.minutes(build.Build([self.name], self.plan, self.sums, self.kit, self.store).left())


def run(program: pathlib.Path, words: Sequence[str]) -> int:
    """Runs the unproved program, and returns its exit status."""
    ran = subprocess.Popen([program, *words])
    for number in (signal.SIGHUP, signal.SIGINT, signal.SIGTERM):
        if signal.getsignal(number) is not signal.SIG_IGN:
            signal.signal(number, lambda number, _: ran.send_signal(number))
    status = ran.wait()
    if status == -signal.SIGABRT:
        build.tell("a run-time check of the unproved code failed; 'rt try' in crates/cmk says which")
        return 1
    return status if status >= 0 else 128 - status


def become(program: pathlib.Path, words: Sequence[str]) -> NoReturn:
    """Replaces this process by the proved program."""
    # Python ignores this signal, and a program inherits what is ignored.
    signal.signal(signal.SIGPIPE, signal.SIG_DFL)
    os.execv(program, [str(program), *words])


def main() -> int:
    """Runs the proved program, or else the unproved one, and says so."""
    programs: dict[str, pathlib.Path] = {}

    def find() -> None:
        sources = Sources(build.PROGRAM)
        if proved := sources.proved():
            programs["proved"] = proved
            return
        build.tell(
            "not proved on this machine yet; this output comes from unproved code with run-time checks. "
            f"Run 'make' to prove and build cmk (about {sources.time_to_prove()})."
        )
        with contextlib.closing(build.Processes("TERM")) as processes:
            programs["unproved"] = sources.unproved(processes)

    status = build.outcome(find)
    if status:
        return status
    words = sys.argv[1:]
    try:
        if "proved" in programs:
            become(programs["proved"], words)
        return run(programs["unproved"], words)
    except OSError as why:
        build.tell(why)
        return 1


if __name__ == "__main__":
    sys.exit(main())
