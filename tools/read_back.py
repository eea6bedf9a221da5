#!/usr/bin/env python3
"""What is spelled reads back: tried with a built cmk.

  tools/read_back.py PROGRAM [--trees N] [--seed N] [--strike] [--older] [--safe]
            of random trees
  tools/read_back.py PROGRAM --examples FILE [--strike] [--older] [--safe]
            of the sources of a file of examples

Each random tree that can be spelled is spelled by this program's own account of the plain form, apart from that of
cm_source. Then `PROGRAM tree` has to list just that tree, and `PROGRAM rewrite` to write just that source. Each source
of a file of examples is rewritten: where it can be, `PROGRAM tree` has to list what was written as it lists the source,
but for its definitions, and rewriting it has to write the same. What differs is reported, and last how many trees of
each kind there were, or how many sources could be rewritten. The status is 1 if any differs.
"""
from __future__ import annotations

import argparse
import random
import subprocess
import sys
import unicodedata
from collections.abc import Iterable, Sequence
from typing import Any

# An inline or a block: its kind, and what belongs to that.
Node = tuple[Any, ...]
PUNCTUATION = "!\"#$%&'()*+,-./:;<=>?@[\\]^_`{|}~"
CHARACTERS = PUNCTUATION * 2 + "abcxyz019" * 6 + " " * 30 + "\t\n\x01\x7f" + "\u00a0\u2003\u3000é日本“…€\u0301😀\ufffd"
TAGS = [
    "<b>", "</b>", "<a href=\"x\">", "<br/>", "<i\tx = 'y' z>", "<!-- c -->", "<?p ?>", "<!X y>", "<![CDATA[a]]>",
    "<a b='\\'>",
]
HTML = [
    "<div>\n", "<div\n*a*\n", "<p>\n<b>x\n</p>\n", "<!-- a\n\n  b -->\n", "<pre>\n\n*x*\n</pre>\n", "<?a\n\n?>\n",
    "<!A\n>\n", "<![CDATA[\n\n]]>\n", "<b>\nx\n", "</b>\n", "<script>\n</script> x\n",
]
DESTINATIONS = [
    "", "/u", "a b", "<x>", "(", "\\*", "&amp;", "é", "a\nb", "\"", "`", "javascript:a", "HTTP:a", "/a:b", " http:a",
    "a\n:b",
]
TITLES = ["", "", "t", "a \"b\"", "\\", "&copy;", "x\n\ny", "日", "`"]
INFOS = ["", "", "a", "a b", "`", " x ", "~~~", "&lt;", "a\nb", "\\", "é"]
CODES = ["a", "`", "``", " a ", " ", "  ", "a`b", "]: /u", "*a*", "<b>", "\\", " `a", "&amp;", "[", "`a", "é"]


def is_whitespace(c: str) -> bool:
    return unicodedata.category(c) == "Zs" or c in "\t\n\f\r"


def is_punctuation(c: str, older: bool) -> bool:
    category = unicodedata.category(c)[0]
    return category == "P" or (c in PUNCTUATION if older else category == "S")


def is_plain(c: str | None, older: bool) -> bool:
    return (
        c is not None and not is_whitespace(c) and not (ord(c) < 32 or ord(c) == 127) and not is_punctuation(c, older)
    )


# ---- random trees: an inline or a block is a tuple, its kind first

class Trees:
    def __init__(self, source: random.Random, rules: Any) -> None:
        self.random, self.rules = source, rules

    def text(self) -> str:
        return "".join(self.random.choice(CHARACTERS) for _ in range(self.random.choice([1, 1, 2, 3, 5, 9])))

    def content(self, depth: int) -> list[Node]:
        return [self.inline(depth) for _ in range(self.random.choice([1, 1, 2, 3, 4]))]

    def inline(self, depth: int) -> Node:
        kinds = ["text"] * 8 + ["code", "code", "html", "soft", "hard"]
        if depth:
            kinds += ["emph", "emph", "strong", "strong", "link", "image"] + ["strike"] * (2 * self.rules.strike)
        kind = self.random.choice(kinds)
        if kind == "text":
            return kind, self.text()
        if kind == "code":
            return kind, self.random.choice(CODES)
        if kind == "html":
            return kind, self.random.choice(TAGS)
        if kind in ("soft", "hard"):
            return (kind,)
        inside = self.content(depth - 1) if self.random.random() < 0.9 else []
        if kind in ("link", "image"):
            return kind, self.random.choice(DESTINATIONS), self.random.choice(TITLES), inside
        return kind, inside

    def blocks(self, depth: int) -> list[Node]:
        return [self.block(depth) for _ in range(self.random.choice([0, 1, 1, 2, 2, 3]))]

    def block(self, depth: int) -> Node:
        kinds = (
            ["paragraph"] * 5 + ["heading", "fenced", "raw", "break"] + ["quote", "list", "list", "list"] * bool(depth)
        )
        kind = self.random.choice(kinds)
        if kind == "paragraph":
            return kind, self.accepted(True)
        if kind == "heading":
            return kind, self.random.randint(1, 6), self.accepted(False) if self.random.random() < 0.9 else []
        if kind == "fenced":
            lines = [
                self.random.choice(["", "a", "```", "   ", "\tx", "~~~~", "`` `", "> a", "é"])
                for _ in range(self.random.choice([0, 1, 2, 3]))
            ]
            return kind, self.random.choice(INFOS), "".join(line + "\n" for line in lines)
        if kind == "raw":
            return kind, self.random.choice(HTML)
        if kind == "break":
            return (kind,)
        if kind == "quote":
            return kind, self.blocks(depth - 1)
        mark = self.random.choice("-+*.)")
        start = self.random.choice([0, 1, 1, 2, 10, 999999999]) if mark in ".)" else None
        return (
            kind, mark, start, self.random.random() < 0.5,
            [self.blocks(depth - 1) for _ in range(self.random.choice([1, 1, 2, 3]))],
        )

    def accepted(self, paragraph: bool) -> list[Node]:
        while True:
            content = self.content(3)
            if content_is_fine(content, not paragraph, paragraph, False, self.rules):
                return content


# ---- which contents and blocks can be spelled

def holds(kinds: Sequence[str], content: Sequence[Node]) -> bool:
    return any(i[0] in kinds or isinstance(i[-1], list) and holds(kinds, i[-1]) for i in content)


def holds_emphasis(content: Sequence[Node]) -> bool:
    return any(
        i[0] in ("emph", "strong", "strike") or i[0] in ("link", "image") and holds_emphasis(i[3]) for i in content
    )


def content_is_fine(content: Sequence[Node], heading: bool, opens: bool, in_link: bool, rules: Any) -> bool:
    return all(
        inline_is_fine(
            i, content[n - 1] if n else None, content[n + 1] if n + 1 < len(content) else None, heading,
            opens and n == 0, in_link, rules,
        )
        for n, i in enumerate(content)
    )


def inline_is_fine(
    i: Node, before: Node | None, after: Node | None, heading: bool, opens: bool, in_link: bool, rules: Any
) -> bool:
    kind = i[0]
    behind = before[0] if before else None
    if kind == "text":
        return bool(i[1]) and behind != "text"
    if kind == "code":
        return i[1] != "" and behind != "code" and not (in_link and "]:" in i[1])
    if kind in ("link", "image") and rules.safe and not is_followed(i[1]):
        return False
    if kind == "html":
        return not rules.safe and not opens and behind not in ("soft", "hard") and not (in_link and "]:" in i[1])
    if kind in ("soft", "hard"):
        return not heading and before is not None and after is not None and behind not in ("soft", "hard")
    if kind in ("emph", "strong", "strike"):
        return (
            not (kind == "strike" and not rules.strike)
            and edges_are_fine(i[1], before, after, rules.older)
            and content_is_fine(i[1], heading, False, in_link, rules)
        )
    if kind == "link":
        return not holds(("link",), i[3]) and content_is_fine(i[3], heading, False, in_link or opens, rules)
    return content_is_fine(i[3], heading, False, in_link, rules)


def is_followed(address: str) -> bool:
    before, colon, _ = address.partition(":")
    return not colon or any(c in before for c in "/?#") or before.lower() in ("http", "https", "mailto")


def edges_are_fine(content: Sequence[Node], before: Node | None, after: Node | None, older: bool) -> bool:
    if not content or holds_emphasis(content) or before and before[0] in ("emph", "strong", "strike"):
        return False
    first = content[0][1][0] if content[0][0] == "text" and content[0][1] else None
    last = content[-1][1][-1] if content[-1][0] == "text" and content[-1][1] else None
    left = before[1][-1] if before and before[0] == "text" and before[1] else None
    right = after[1][0] if after and after[0] == "text" and after[1] else None
    if first and is_whitespace(first) or last and is_whitespace(last):
        return False
    return not (is_plain(left, older) and not is_plain(first, older)) and not (
        is_plain(right, older) and not is_plain(last, older)
    )


def blocks_are_fine(blocks: Sequence[Node], rules: Any) -> bool:
    return all(block_is_fine(b, blocks[n - 1] if n else None, rules) for n, b in enumerate(blocks))


def block_is_fine(b: Node, before: Node | None, rules: Any) -> bool:
    if b[0] == "quote":
        return blocks_are_fine(b[1], rules)
    if rules.safe and (b[0] == "raw" or b[0] == "fenced" and any(c in b[1] for c in "\n\f\r")):
        return False
    if b[0] != "list":
        return True
    _, mark, _, tight, items = b
    if before and before[0] == "list" and before[1] == mark or any(item and item[0][0] == "list" for item in items):
        return False
    said = all(is_tight(item) for item in items) if tight else len(items) > 1 or any(len(item) > 1 for item in items)
    return said and all(blocks_are_fine(item, rules) for item in items)


def is_tight(item: Sequence[Node]) -> bool:
    if len(item) < 2:
        return True
    if len(item) > 2 or item[0][0] != "paragraph":
        return False
    follows = item[1]
    return follows[0] in ("fenced", "quote") or follows[0] == "list" and bool(follows[4][0]) and follows[2] in (None, 1)


# ---- the plain form

def spelled_text(text: str, first: bool, last: bool) -> str:
    def one(n: int, c: str) -> str:
        if c == " " and (first and n == 0 or last and n == len(text) - 1) or c == "`" or ord(c) < 32 or ord(c) == 127:
            return f"&#{ord(c)};"
        return "\\" + c if c in PUNCTUATION else c
    return "".join(one(n, c) for n, c in enumerate(text))


def longest_run(text: str) -> int:
    return max((len(run) for run in "".join(c if c == "`" else " " for c in text).split()), default=0)


def spelled_code(text: str) -> str:
    marks = "`" * (longest_run(text) + 1)
    padded = "`" in (text[0], text[-1]) or text[0] == text[-1] == " " and text.strip(" ") != ""
    return marks + " " * padded + text + " " * padded + marks


def target(destination: str, title: str) -> str:
    return (
        "](<"
        + spelled_text(destination, False, False)
        + ">"
        + (' "' + spelled_text(title, False, False) + '"' if title else "")
        + ")"
    )


def spelled_content(content: Sequence[Node], first: bool = True, last: bool = True) -> str:
    out = ""
    for n, i in enumerate(content):
        ends = content[n + 1][0] == "soft" if n + 1 < len(content) else last
        begins = content[n - 1][0] in ("soft", "hard") if n else first
        out += spelled_inline(i, begins, ends)
    return out


def spelled_inline(i: Node, first: bool, last: bool) -> str:
    kind = i[0]
    if kind == "text":
        return spelled_text(i[1], first, last)
    if kind in ("code", "html"):
        return spelled_code(i[1]) if kind == "code" else str(i[1])
    if kind in ("soft", "hard"):
        return "\n" if kind == "soft" else "\\\n"
    marks = {"emph": "*", "strong": "**", "strike": "~~"}
    if kind in marks:
        return marks[kind] + spelled_content(i[1], False, False) + marks[kind]
    return ("[" if kind == "link" else "![") + spelled_content(i[3], False, False) + target(i[1], i[2])


def joined(apart: bool, blocks: Iterable[list[str]]) -> list[str]:
    out = []
    for n, lines in enumerate(blocks):
        out += ([""] if apart and n else []) + lines
    return out


def lines_of(b: Node) -> list[str]:
    kind = b[0]
    if kind == "paragraph":
        return spelled_content(b[1]).split("\n")
    if kind == "heading":
        return ["#" * b[1] + (" " + spelled_content(b[2]) if b[2] else "")]
    if kind == "fenced":
        fence = "`" * max(3, longest_run(b[2]) + 1)
        return [fence + spelled_text(b[1], True, True), *b[2].split("\n")[:-1], fence]
    if kind == "raw":
        return [*b[1].split("\n")[:-1]]
    if kind == "break":
        return ["___"]
    if kind == "quote":
        return [">" + (" " + line if line else "") for line in joined(True, map(lines_of, b[1])) or [""]]
    _, mark, start, tight, items = b
    marker = mark if start is None else f"{start}{mark}"
    return joined(not tight, [item_lines(marker, joined(not tight, map(lines_of, item))) for item in items])


def item_lines(marker: str, lines: Sequence[str]) -> list[str]:
    if not lines:
        return [marker]
    room = " " * (len(marker) + 1)
    return [marker + (" " + lines[0] if lines[0] else "")] + [room + line if line else "" for line in lines[1:]]


def spelled(blocks: Sequence[Node]) -> str:
    return "".join(line + "\n" for line in joined(True, map(lines_of, blocks)))


# ---- the listing

def quoted(text: str) -> str:
    def one(c: str) -> str:
        if c in "\\\"":
            return "\\" + c
        return "\\n" if c == "\n" else f"\\x{ord(c):02x}" if ord(c) < 32 or ord(c) == 127 else c
    return ' "' + "".join(map(one, text)) + '"'


def listed_inline(i: Node, depth: int) -> str:
    margin = "  " * depth
    kind: str = i[0]
    if kind in ("text", "code", "html"):
        return margin + kind + quoted(i[1]) + "\n"
    if kind in ("soft", "hard"):
        return margin + kind + "\n"
    words = quoted(i[1]) + quoted(i[2]) if kind in ("link", "image") else ""
    return margin + kind + words + "\n" + "".join(listed_inline(j, depth + 1) for j in i[-1])


def listed(b: Node, depth: int = 0) -> str:
    margin = "  " * depth
    kind = b[0]
    if kind == "paragraph":
        return margin + "paragraph\n" + "".join(listed_inline(i, depth + 1) for i in b[1])
    if kind == "heading":
        return f"{margin}heading {b[1]}\n" + "".join(listed_inline(i, depth + 1) for i in b[2])
    if kind == "fenced":
        return margin + "code" + quoted(b[1]) + quoted(b[2]) + "\n"
    if kind == "raw":
        return margin + "html" + quoted(b[1]) + "\n"
    if kind == "break":
        return margin + "break\n"
    if kind == "quote":
        return margin + "quote\n" + "".join(listed(c, depth + 1) for c in b[1])
    _, mark, start, tight, items = b
    head = f"bullet {mark}" if start is None else f"ordered {mark} {start}"
    inside = "".join(margin + "  item\n" + "".join(listed(c, depth + 2) for c in item) for item in items)
    return f"{margin}list {head} {'tight' if tight else 'loose'}\n" + inside


# ---- the runs

def ran(program: str, words: Sequence[str], source: str) -> tuple[str, str]:
    done = subprocess.run([program, *words], input=source.encode(), capture_output=True)
    return done.stdout.decode(), done.stderr.decode()


def tree_listed(program: str, rules: Any, source: str) -> tuple[str, str]:
    read, told = ran(program, ["tree", *rules], source)
    kept = [line + "\n" for line in read.split("\n") if line and not line.startswith("owner ")]
    return "".join(kept), told


def try_trees(program: str, rules: Any, asked: Any) -> int:
    trees = Trees(random.Random(asked.seed), asked)
    kinds: dict[str, int] = {}
    done = wrong = 0
    while done < asked.trees:
        blocks = trees.blocks(4)
        if not blocks or not blocks_are_fine(blocks, asked):
            continue
        done += 1
        source = spelled(blocks)
        listing = "".join(map(listed, blocks))
        for line in listing.splitlines():
            kind = line.split()[0]
            kinds[kind] = kinds.get(kind, 0) + 1
        tree, told = tree_listed(program, rules, source)
        again, why = ran(program, ["rewrite", *rules], source)
        if tree != listing or again != source:
            wrong += 1
            print(f"--- {done}\n{source}--- wanted\n{listing}--- listed\n{tree}{told}--- rewritten\n{again}{why}")
    print(", ".join(f"{n} {kind}" for kind, n in sorted(kinds.items())))
    print(f"{done - wrong} of {done} trees read back")
    return wrong


def sources_of(file: str) -> list[str]:
    fence, sources, source = "`" * 32, [], None
    for line in open(file, encoding="utf-8"):
        if line.rstrip("\n") == fence + " example":
            source = ""
        elif line == ".\n" and source is not None:
            sources.append(source.replace("→", "\t"))
            source = None
        elif source is not None:
            source += line
    return sources


def without_definitions(listing: str) -> str:
    return "".join(line for line in listing.splitlines(True) if not line.lstrip().startswith("definition "))


def try_examples(program: str, rules: Any, file: str) -> int:
    sources, done, wrong = sources_of(file), 0, 0
    for source in sources:
        once, why = ran(program, ["rewrite", *rules], source)
        if why:
            continue
        done += 1
        wanted = without_definitions(tree_listed(program, rules, source)[0])
        tree = tree_listed(program, rules, once)[0]
        twice, why = ran(program, ["rewrite", *rules], once)
        if tree != wanted or twice != once:
            wrong += 1
            print(
                f"--- {source}--- wanted\n{wanted}--- rewritten\n{once}"
                f"--- listed\n{tree}--- rewritten again\n{twice}{why}"
            )
    print(f"{done} of {len(sources)} sources can be rewritten, and {done - wrong} of these read back")
    return wrong


def main() -> int:
    parser = argparse.ArgumentParser(description=__doc__.partition("\n\n")[0])
    parser.add_argument("program", metavar="PROGRAM", help="a built cmk")
    parser.add_argument("--trees", type=int, default=20000, metavar="N", help="the number of random trees (20000)")
    parser.add_argument("--seed", type=int, default=1, metavar="N", help="where the random numbers start (1)")
    parser.add_argument("--examples", metavar="FILE", help="try the sources of a file of examples instead")
    parser.add_argument("--strike", action="store_true", help="with struck text")
    parser.add_argument("--older", action="store_true", help="with the older rules of comments and punctuation")
    parser.add_argument("--safe", action="store_true", help="with links to no other schemes, and without HTML")
    asked = parser.parse_args()
    rules = ["--strike"] * asked.strike + ["--older"] * asked.older + ["--safe"] * asked.safe
    wrong = (
        try_examples(asked.program, rules, asked.examples) if asked.examples else try_trees(asked.program, rules, asked)
    )
    return int(wrong > 0)


if __name__ == "__main__":
    sys.exit(main())
