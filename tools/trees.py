#!/usr/bin/env python3
"""The trees of random texts in JSON, from a built libcmk: tried with examples/render_tree.py, Python's json and the
listing.

  CMK_LIBRARY=LIBRARY tools/trees.py [--texts N] [--seed N]

The texts are those of tools/strangers.py in quotes and lists, with one option and another. The JSON of each has to
parse. The HTML that render_tree.py makes of it has to be what the library renders. The lines of its leaves and the
markers of its root have to be the owners that the listing has. Anything else is reported, and the status is 1. Last it
says how many texts and leaves were tried, and how many texts have a fault.
"""
from __future__ import annotations

import argparse
import json
import pathlib
import re
import sys
from collections.abc import Callable, Iterator
from typing import Any

TOP = pathlib.Path(__file__).resolve().parent.parent
sys.path[:0] = [str(TOP / "bindings/python"), str(TOP / "examples")]
import cmk  # noqa: E402
import render_tree  # noqa: E402
import strangers  # noqa: E402

ASKED = [
    {}, {"strike": True}, {"older": True}, {"safe": True}, {"strike": True, "no_html": True},
    {"blocks": 2, "inlines": 2},
]
# The lines of each leaf, those of markers alone, and the number of lines.
Owners = tuple[list[list[int]], list[int], int]
RENDERED: Callable[[Any], str] = render_tree.html
OWNER = re.compile(r"^owner (\d+) (?:leaf (\d+)|(marker|blank))$", re.M)
MARKERS = ["> ", "> ", "- ", "* ", "1. ", "7) ", "  ", "    ", "", "", ">", "-"]


class Texts(strangers.Texts):
    """Random texts, some of whose lines are in quotes and lists."""

    def text(self) -> str:
        text, choice = super().text(), self.random.choice
        if self.random.random() < 0.5:
            text = "\n".join(
                "".join(choice(MARKERS) for _ in range(self.random.randint(0, 3))) + line for line in text.split("\n")
            )
        return text


def owners_of_tree(tree: Any) -> Owners:
    """Returns the lines of each leaf, those of markers alone, and the number of lines."""
    nodes: Iterator[Any] = cmk.walk(tree)
    leaves = [node["data"]["lines"] for node in nodes if "lines" in node.get("data", {})][1:]
    return leaves, tree["data"].get("markers", []), tree["data"]["lines"][1]


def owners_of_listing(listing: str) -> Owners:
    """Returns the same of a listing."""
    owners = OWNER.findall(listing)
    lines: dict[int, list[int]] = {}
    for line, leaf, _ in owners:
        if leaf:
            lines.setdefault(int(leaf), []).append(int(line))
    return (
        [[numbers[0], numbers[-1]] for _, numbers in sorted(lines.items())],
        [int(line) for line, _, kind in owners if kind == "marker"],
        len(owners),
    )


def wrong_in(text: str, asked: Any) -> tuple[int, str | None]:
    """Returns the number of leaves of a text, and what is wrong with its tree or None."""
    written = cmk.json(text, **asked)
    tree = json.loads(written)
    owners = owners_of_tree(tree)
    if RENDERED(tree) != cmk.html(text, **asked):
        return len(owners[0]), "the HTML"
    return len(owners[0]), None if owners == owners_of_listing(cmk.tree(text, **asked)) else "the owners"


def main() -> int:
    parser = argparse.ArgumentParser(description=__doc__.partition("\n\n")[0])
    parser.add_argument("--texts", type=int, default=100_000, metavar="N", help="the number of random texts (100000)")
    parser.add_argument("--seed", type=int, default=1, metavar="N", help="where the random numbers start (1)")
    given = parser.parse_args()
    texts, wrong, leaves, faults = Texts(given.seed), 0, 0, 0
    for number in range(given.texts):
        text, asked = texts.text(), ASKED[number % len(ASKED)]
        try:
            count, what = wrong_in(text, asked)
        except cmk.CmkError:
            faults += 1
            continue
        leaves += count
        if what:
            wrong += 1
            print(f"{what} of {text!r} with {asked}")
    print(f"{wrong} of {given.texts} trees are wrong; they have {leaves} leaves, and {faults} texts have a fault")
    return int(wrong > 0)


if __name__ == "__main__":
    sys.exit(main())
