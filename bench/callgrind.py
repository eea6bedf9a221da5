"""Instructions that a run takes, counted by valgrind."""

import re
import subprocess

FRONT = 400_000
# A line of callgrind_annotate: a count, its share, and a function after its file and before its object.
COUNTED = re.compile(r"^ *([\d,]+) \(.*?%\)  (\S+?):(.+?)(?: \[.*\])?$", re.MULTILINE)
MEMORY = re.compile(r"malloc|calloc|realloc|free|unlink_chunk|brk|munmap|mmap")
COPIES = re.compile(r"mem(?:cpy|move|set|cmp)")


def front_of(file, room):
    """The lines of a file's first bytes, as a file, and how many bytes these are."""
    text = file.read_bytes()[:FRONT]
    text = text[: text.rfind(b"\n") + 1]
    front = room / "front"
    front.write_bytes(text)
    return front, len(text)


def counted(words, file, room):
    """How many instructions a run takes. What it takes where stays in a file of `room`."""
    asked = ["valgrind", "--tool=callgrind", f"--callgrind-out-file={room}/counts", *words]
    with open(file, "rb") as given:
        ran = subprocess.run(asked, stdin=given, stdout=subprocess.DEVNULL, stderr=subprocess.PIPE, text=True)
    return int(re.search(r"Collected : (\d+)", ran.stderr)[1])


def module_of(function):
    """The module of a function, or what it is for where it is one of the C library."""
    path = re.sub(r"<.*?>|'\d+$", "", function).split("::")
    if len(path) > 1:
        return "::".join(path[:2])
    return "asking for memory" if MEMORY.search(function) else "copies" if COPIES.search(function) else "the rest"


def by_module(words, file, room):
    """How many instructions a run takes in each module."""
    counted(words, file, room)
    asked = ["callgrind_annotate", "--threshold=100", "--auto=no", f"{room}/counts"]
    told = subprocess.run(asked, capture_output=True, text=True).stdout
    found = {}
    for count, _, function in COUNTED.findall(told.partition("file:function")[2]):
        module = module_of(function)
        found[module] = found.get(module, 0) + int(count.replace(",", ""))
    return found
