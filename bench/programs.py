"""The programs that are measured, and what a run of one takes."""

import functools
import json
import pathlib
import shutil
import subprocess
import sys
import time
import typing

HERE = pathlib.Path(__file__).resolve().parent
OUT = HERE / "out"
NEWER = OUT / "newer"
# The least nanoseconds that the work of measure.c has taken on this machine.
PACE = OUT / "pace"
NODE = pathlib.Path("/usr/share/nodejs")
MARKDOWN_IT = "import sys, markdown_it; sys.stdout.write(markdown_it.MarkdownIt('commonmark').render(sys.stdin.read()))"
# Each by the package that has it, and its words.
PEERS = {
    "cmark": ("cmark", ["cmark", "--unsafe"]),
    "md4c": ("libmd4c-dev", [str(OUT / "md4c")]),
    "md4c-newer": (NEWER / "md4c_*.orig.tar.gz", [str(OUT / "md4c-newer")]),
    "pulldown-cmark": ("pulldown-cmark", ["pulldown-cmark"]),
    "pulldown-cmark-newer": (NEWER / "pulldown-cmark_*.deb", [str(NEWER / "pulldown-cmark/usr/bin/pulldown-cmark")]),
    "comrak": (NEWER / "librust-comrak-dev_*.deb", [str(OUT / "comrak")]),
    "goldmark": ("golang-github-yuin-goldmark-dev", [str(OUT / "goldmark")]),
    "markdown-it": (
        NODE / "markdown-it/package.json",
        ["/usr/bin/env", f"NODE_PATH={NODE}", "node", str(HERE / "markdown_it_driver.js")],
    ),
    "lowdown": ("lowdown", ["lowdown", "-thtml"]),
    "discount": ("discount", ["markdown", "-f", "+fencedcode"]),
    "markdown-it-py": ("python3-markdown-it", ["/usr/bin/python3", "-X", "utf8", "-c", MARKDOWN_IT]),
}
# One turn on an input is enough for these.
SLOW = ["lowdown", "discount", "markdown-it-py"]
# A processor is at full pace if the work of measure.c takes it at most this many times the least time.
SLACK = 1.05
# A turn on a slower processor is repeated for this many seconds. One of more seconds than LONG_TURN isn't.
PATIENCE = 20
LONG_TURN = 1
# More nanoseconds than the work ever takes.
ANY_PACE = 10**18


class Used(typing.NamedTuple):
    """What one run took: seconds of a processor, bytes at the most, its exit status, and the processor's pace
    (`measure.c`)."""

    seconds: float
    memory: int
    status: int
    pace: int


def programs(cmk, with_slow=False):
    """The words of each program that is there, by its name: `cmk` first, if its path is given."""
    found = {"cmk": [str(pathlib.Path(cmk).resolve()), "render"]} if cmk else {}
    found |= {name: words for name, (_, words) in PEERS.items() if with_slow or name not in SLOW}
    return {name: words for name, words in found.items() if shutil.which(words[0])}


def version_of(name):
    """The version of a peer, without what its packager adds to it, or nothing."""
    package = PEERS.get(name, ("", []))[0]
    if isinstance(package, pathlib.Path) and package.suffix == ".json":
        return json.loads(package.read_text())["version"] if package.exists() else ""
    if isinstance(package, pathlib.Path):
        version = max((file.name.split("_")[1] for file in package.parent.glob(package.name)), default="")
    else:
        asked = ["dpkg-query", "--show", "--showformat=${Version}", package]
        version = subprocess.run(asked, capture_output=True, text=True).stdout if package else ""
    return version.split("-")[0].split("+")[0].removesuffix(".orig.tar.gz")


@functools.cache
def full_pace():
    """The most nanoseconds that the work of measure.c takes on a processor at full pace.

    The least that was ever seen is kept, since a second may show none.
    """
    told = subprocess.run([str(OUT / "measure")], stderr=subprocess.PIPE, text=True).stderr
    seen = PACE.read_text() if PACE.exists() else told
    least = min(int(told), int(seen))
    PACE.write_text(f"{least}\n")
    return int(least * SLACK)


def run(words, file, seconds=120, output=subprocess.DEVNULL, pace=ANY_PACE):
    """Runs a program on a file, with up to the given number of seconds of a processor, on one of this pace if there is
    one."""
    with open(file, "rb") as given:
        asked = [str(OUT / "measure"), str(seconds), str(pace), *words]
        told = subprocess.run(asked, stdin=given, stdout=output, stderr=subprocess.PIPE, text=True).stderr
    user, system, memory, status, found = map(int, told.split())
    return Used((user + system) / 1e6, memory * 1024, status, found)


def run_at_full_pace(words, file, seconds=120):
    """A run on a processor at full pace. If none is for too long, the last run counts, and a message names it."""
    end = time.monotonic() + PATIENCE
    while True:
        used = run(words, file, seconds, pace=full_pace())
        if used.pace <= full_pace() or used.status:
            return used
        if used.seconds > LONG_TURN or time.monotonic() > end:
            print(f"{words[0]}: {file.name}: the processor wasn't at full pace", file=sys.stderr)
            return used


def turns(named, file, count, seconds=120):
    """The runs of all programs on a file, in turns, so that what else the machine does meets all alike.

    A slow program has one turn, and a program that failed no more.
    """
    ran = {name: [] for name in named}
    for turn in range(count):
        for name, words in named.items():
            failed = any(used.status for used in ran[name])
            if not failed and not (turn and name in SLOW):
                ran[name].append(run_at_full_pace(words, file, seconds))
    return ran


def least(runs):
    """The least time of some runs and their greatest memory, or None where one failed."""
    if any(used.status for used in runs):
        return None
    return Used(
        min(used.seconds for used in runs), max(used.memory for used in runs), 0, max(used.pace for used in runs)
    )
