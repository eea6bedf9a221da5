"""Tries the tree of bindings/python for .ci/embedding, with examples/render_tree.py: the number of texts, or what differs and status 1.

  trees.py FILE FOLDER..     FILE gets the JSON of each text on a line

The texts are those of the tables of cases, which have limits and rules, and the Markdown files in the folders, up to some MB. The HTML that is
made of each tree has to be that of `cmk.html`, and of the table; its JSON, read in both ways that `cmk` has, has to be what was read.
"""

import json
import os
import pathlib
import re
import sys

import cmk
import render_tree

DATA = pathlib.Path(__file__).resolve().parents[2] / "crates/conformance/data"
MOST = 2_000_000
LIMITS = ("bytes", "blocks", "inlines")
RULES = ("older", "strike", "no_html", "web_links", "safe")
ESCAPE = re.compile(rb"\\(?:x(..)|u\{(\w+)\}|\{(\d+)\|((?:[^\\}]|\\[^{]|\\u\{\w+\})*)\}|\n|(.))", re.S)
SIGNS = {b"t": b"\t", b"r": b"\r", b"n": b"\n"}
EXAMPLE = re.compile(r"^`{32} example\n(.*?)^\.\n(.*?)^`{32}$", re.M | re.S)


def unescaped(text):
    """Returns a text of a table with its escapes read, which blocks.cases describes."""

    def one(found):
        byte, character, count, inside, sign = found.groups()
        if byte:
            return bytes([int(byte, 16)])
        if character:
            return chr(int(character, 16)).encode()
        if count:
            return int(count) * unescaped(inside)
        return SIGNS.get(sign, sign) if sign else b""

    return ESCAPE.sub(one, text)


def cases(table):
    """Yields the texts of a table with what is asked, and the HTML that the table has or None."""
    for case in re.split(rb"^@case ", table, flags=re.M)[1:]:
        found = re.findall(rb"^@(\w+) ?(.*)\n((?:(?!@).*\n)*)", case, re.M)
        parts = {name.decode(): (word.decode(), lines) for name, word, lines in found}
        if "input" in parts:
            asked = {it: int(parts[it][0]) for it in LIMITS if it in parts}
            asked.update((it, True) for it in RULES if it in parts.get("rules", ("", b""))[0])
            yield unescaped(parts["input"][1]), asked, unescaped(parts["html"][1]).decode() if "html" in parts else None


def examples(suite, asked):
    """Yields the same for a file of examples."""
    for text, html in EXAMPLE.findall(suite.replace("→", "\t")):
        yield text.encode(), asked, html


def pages(folders):
    """Yields the same for the Markdown files in folders, with one option and another."""
    left, asked = MOST, [{}, {"strike": True}, {"older": True}, {"safe": True, "strike": True}]
    for folder in folders:
        for at, _, names in os.walk(folder):
            for file in sorted(pathlib.Path(at, it) for it in names if it.endswith(".md")):
                if file.is_file() and file.stat().st_size <= left:
                    left -= file.stat().st_size
                    yield file.read_bytes(), asked[left % 4], None


def dumped(value):
    """Returns a value in JSON, however deep it nests."""
    left, out = [(value,)], []
    while left:
        part = left.pop()
        if isinstance(part, str):
            out.append(part)
            continue
        (value,) = part
        if isinstance(value, dict):
            inside = [[f"{json.dumps(name)}:", (it,), ","] for name, it in value.items()]
        elif isinstance(value, list):
            inside = [[(it,), ","] for it in value]
        else:
            out.append(json.dumps(value, ensure_ascii=False))
            continue
        around = "{}" if isinstance(value, dict) else "[]"
        left += [around[1], *reversed([it for parts in inside for it in parts][:-1]), around[0]]
    return "".join(out)


def mistake(text, asked, wanted, out):
    """Returns what differs for a text, or None."""
    try:
        html, written = cmk.html(text, **asked), cmk.json(text, **asked)
    except cmk.CmkError:
        return None
    out.write(f"{written}\n")
    tree = cmk.parse(text, **asked)
    if not dumped(tree) == dumped(cmk._read(written)) == written:
        return "the JSON"
    if wanted not in (None, html):
        return "the HTML of the table"
    return None if render_tree.html(tree) == html else "the HTML of the tree"


def main(to, *folders):
    texts = [it for file in sorted(DATA.glob("*.cases")) for it in cases(file.read_bytes())]
    texts += [*examples((DATA / "suite.txt").read_text(), {}), *examples((DATA / "older.txt").read_text(), {"older": True}), *pages(folders)]
    with open(to, "w", encoding="utf-8") as out:
        found = [(what, text[:60], asked) for text, asked, wanted in texts if (what := mistake(text, asked, wanted, out))]
    print(f"{len(found)} of {len(texts)} differ, first {found[0]}" if found else f"{len(texts)} texts")
    return bool(found)


sys.exit(main(*sys.argv[1:]))
