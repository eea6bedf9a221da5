#!/usr/bin/env python3
"""Reports how much a byte of text may become: for each kind of text the output and the memory of a run, per byte.

  bench/worst_cases.py PROGRAM [SIZE]     texts of about SIZE bytes (1,000,000)

A line for each kind of text and each job: bytes of output and bytes of memory for a byte of text. Memory is the largest
resident set of the run, without the 2 MB that a run of an empty text holds. An output that grows as the square of the
text isn't counted, and such a text isn't rewritten, since its source is held whole.
"""

import argparse
import subprocess
import sys
import tempfile

from programs import run

DEEP = "> " * 99
EMPTY = 2_000_000
SQUARE = "references to an address of half the text"


def times(piece):
    """A text of about a size, of one piece over and over."""
    return lambda size: piece * max(1, size // len(piece.encode()))


def behind(front, piece):
    """The same after a front."""
    return lambda size: front + times(piece)(size - len(front))


def numbered(make):
    """A text of about a size, of pieces that a number distinguishes."""
    return lambda size: "".join(make(n) for n in range(size // len(make(1000))))


def each_twice(size):
    """Short definitions, each with two references."""
    count = size // 24
    return "".join(f"[{n:x}]:/\n" for n in range(count)) + "\n" + "".join(f"[{n:x}]\n" for n in range(count)) * 2


KINDS = {
    SQUARE: lambda size: f"[x]: {'a' * (size // 2)}\n\n" + "[x]" * (size // 6),
    "references to an address of 63 bytes": behind(f"[x]: {'a' * 63}\n\n", "[x]"),
    "the same, each byte percent-encoded, with a title of quotation marks": behind(
        f"[x]: {'ä' * 31} '{chr(34) * 63}'\n\n", "[x]"
    ),
    "the same in paragraphs": behind(f"[x]: {'ä' * 31} '{chr(34) * 63}'\n\n", "[x]\n\n"),
    "an address behind each link, percent-encoded": times("[](ä)"),
    "definitions": numbered(lambda n: f"[{n:x}]:/\n"),
    "definitions, each referred to twice": each_twice,
    "definitions of one label": times("[a]:/\n"),
    "lines in 99 quotes, lazily": behind(f"{DEEP}a\n", "a\n"),
    "items nested 99 deep": times("".join("  " * n + "- a\n" for n in range(99))),
    "quotation marks": times('"'),
    "blank lines": times("\n"),
    "lines of a letter": times("a\n"),
    "paragraphs of a letter": times("a\n\n"),
    "items of a letter": times("- a\n"),
    "breaks": times("***\n"),
    "delimiter runs that open": times("*a "),
    "emphasis": times("*a*"),
    "emphasis and text": times("*a* b"),
    "brackets that open": times("["),
    "brackets and links": times("[](a)"),
    "code spans": times("`a`"),
    "character references": times("&lt;"),
    "escapes": times("\\<"),
    "autolinks": times("<a:b>"),
    "raw HTML": times("<b>"),
    "hard breaks": times("a\\\n"),
}


def measured(program, job, file, name, text):
    """The two figures of a job."""
    with tempfile.TemporaryFile() as output:
        used = run([program, job], file, output=subprocess.DEVNULL if name == SQUARE else output)
        length = output.seek(0, 2)
    if used.status:
        return "        refused"
    size = len(text.encode())
    written = "      -" if name == SQUARE else f"{length / size:7.1f}"
    return f"{written} {max(0, used.memory - EMPTY) / size:7.1f}"


def main() -> int:
    parser = argparse.ArgumentParser(description=__doc__.partition("\n\n")[0])
    parser.add_argument("program", metavar="PROGRAM", help="a built cmk")
    parser.add_argument(
        "size", type=int, nargs="?", default=1_000_000, metavar="SIZE", help="about how many bytes a text has (1000000)"
    )
    asked = parser.parse_args()
    program, size = asked.program, asked.size
    print("render           tree             rewrite          (output and memory for a byte of text)")
    for name, make in KINDS.items():
        text = make(size)
        with tempfile.NamedTemporaryFile("w", encoding="utf-8", suffix=".md") as file:
            file.write(text)
            file.flush()
            jobs = ("render", "tree") if name == SQUARE else ("render", "tree", "rewrite")
            figures = [measured(program, job, file.name, name, text) for job in jobs]
            print(f"{'  '.join(figures):50} {name}", flush=True)
    return 0


if __name__ == "__main__":
    sys.exit(main())
