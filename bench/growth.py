"""How the time of a program grows from a text to one of four times the length."""

import math
import os
import pathlib
import resource
import subprocess
import time
import typing

HERE = pathlib.Path(__file__).resolve().parent
# Growth of the time that is too much, on four times the text.
TOO_MUCH = 5
# Seconds on the longer text, without those of the start, up to which growth doesn't show.
SHORT = 0.005
# How often a growth that is too much is measured again, unless it is more than twice that; the seconds between two such
# turns, in which what else the machine does may end; and the seconds after which a run is stopped.
AGAIN, PAUSE, STOPPED = 6, 0.1, 10


class Growth(typing.NamedTuple):
    """The least times on a text and on four times the text, in seconds, and whether the program reported a fault on the
    longer one.

    They have what the start of the program takes, a millisecond: what is left without it can be too little to divide
    by. If the longer text takes next to no time, the other isn't measured. A run that failed, or was stopped, took for
    ever.
    """

    once: float | None
    four: float
    refused: bool = False

    def times(self):
        """How many times as long it took, or 0 if that wasn't measured."""
        return self.four / self.once if self.once and not math.isinf(self.four) else 0

    def is_too_much(self, by=1):
        """Whether it is more than is allowed, or than the given multiple of that."""
        return math.inf in (self.once, self.four) or self.times() > by * TOO_MUCH

    def __str__(self):
        if math.inf in (self.once, self.four):
            return f"it failed, or was stopped after {STOPPED} s"
        if not self.once:
            return f"{self.four * 1000:.1f} ms"
        return f"{self.once * 1000:.1f} ms and {self.four * 1000:.1f} ms, {self.times():.1f} times as long"


def in_memory(text):
    """A file of these bytes that is nowhere but in memory, as a descriptor."""
    file = os.memfd_create("text")
    with open(file, "wb", closefd=False) as out:
        out.write(text)
    return file


class Lengths:
    """A text at several lengths, each made and written when it is first asked for."""

    def __init__(self, make):
        self.make, self.files = make, {}

    def at(self, times):
        if times not in self.files:
            self.files[times] = in_memory(self.make(times))
        return self.files[times]

    def close(self):
        for file in self.files.values():
            os.close(file)


class Runner:
    """Runs a program on texts, whole or in pieces."""

    def __init__(self, program, room):
        self.program, self.started = str(program), {}
        self.nowhere = os.open(os.devnull, os.O_RDWR)
        self.shim = pathlib.Path(room) / "pieces.so"
        subprocess.run(
            [os.environ.get("CC", "cc"), "-O2", "-shared", "-fPIC", "-o", self.shim, HERE / "pieces.c"], check=True
        )

    def run(self, words, piece, file):
        """Seconds of a processor that a run took, and its status."""
        os.lseek(file, 0, os.SEEK_SET)
        places = [(os.POSIX_SPAWN_DUP2, file, 0), *((os.POSIX_SPAWN_DUP2, self.nowhere, to) for to in (1, 2))]
        environment = {**os.environ, "LD_PRELOAD": str(self.shim), "PIECE": str(piece)} if piece else os.environ
        child = os.posix_spawn(self.program, [self.program, *words], environment, file_actions=places)
        resource.prlimit(child, resource.RLIMIT_CPU, (STOPPED, STOPPED))
        _, status, used = os.wait4(child, 0)
        return used.ru_utime + used.ru_stime, os.waitstatus_to_exitcode(status)

    def start_of(self, words, piece):
        """Seconds that a run takes on no text, the least of some."""
        key = (*words, piece)
        if key not in self.started:
            empty = in_memory(b"")
            self.started[key] = min(self.run(words, piece, empty)[0] for _ in range(10))
            os.close(empty)
        return self.started[key]

    def seconds(self, words, piece, file):
        """Seconds on a text, and whether the run reported a fault."""
        took, status = self.run(words, piece, file)
        return (took if status in (0, 1) else math.inf), status == 1

    def growth(self, words, piece, lengths, times=1):
        """The growth from one length of a text to four times that. It is too much only if the one from there to four
        times that is too."""
        found = self.steady_growth(words, piece, lengths.at(times), lengths.at(4 * times))
        if times > 1 or not found.is_too_much() or found.is_too_much(2):
            return found
        longer = self.growth(words, piece, lengths, 4)
        return found if longer.is_too_much() else longer

    def steady_growth(self, words, piece, once, four):
        """The growth from one text to another. If it is too much, both are measured again, and the least times count.

        Others use the processors too, and a time can double then.
        """
        longer, refused = self.seconds(words, piece, four)
        if longer < SHORT + self.start_of(words, piece):
            return Growth(None, longer, refused)
        found = Growth(self.seconds(words, piece, once)[0], longer, refused)
        for turn in range(AGAIN):
            if not found.is_too_much() or (turn and found.is_too_much(2)):
                break
            time.sleep(PAUSE)
            found = Growth(
                *(min(least, self.seconds(words, piece, file)[0]) for least, file in zip(found, (once, four))), refused
            )
        return found
