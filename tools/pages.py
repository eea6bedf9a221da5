#!/usr/bin/env python3
"""What cmk.pages makes of examples, random texts and real documents, from a built libcmk.

  CMK_LIBRARY=LIBRARY tools/pages.py [--texts N] [--seed N] [FOLDER ..]

The examples are texts with tables, tasks and bare addresses, most of them of GitHub's specification, and what cmark-gfm
makes of them.

The random texts are those of tools/trees.py with such things and headings in them. The headings, addresses and code
blocks that patterns find in the HTML have to be those of the tree. The HTML that examples/render_tree.py makes of the
tree with tables and tasks has to be that with tables and tasks, and the lines of its leaves those of the tree without.
With all additions and changes, the HTML has to be
what tools/strangers.py accepts, with the elements of tables and checkboxes, and without marks; no bare link is in
another, no link is followed, each id is another, and the table of contents leads to all of them. Front matter before a
text has to come off it.

The tables of the Markdown files in the folders have to be those of cmark-gfm, if it is installed. Anything else is
reported, and the status is 1. Last it says how many texts were tried, and what was found in them.
"""
import argparse
import collections
import html
import pathlib
import re
import shutil
import subprocess
import sys
import urllib.parse

TOP = pathlib.Path(__file__).resolve().parent.parent
sys.path[:0] = [str(TOP / "bindings/python"), str(TOP / "examples")]
import render_tree  # noqa: E402
import strangers  # noqa: E402
import trees  # noqa: E402

import cmk  # noqa: E402
from cmk import pages  # noqa: E402

# What the additions write besides what the library does.
strangers.ELEMENTS.update({it: set() for it in ("table", "thead", "tbody", "tr")})
strangers.ELEMENTS.update(
    {it: {"align"} for it in ("th", "td")}, input={"type", "checked", "disabled"}, a={"href", "title", "rel"}
)
strangers.ELEMENTS.update({f"h{level}": {"id"} for level in range(1, 7)})
strangers.VOID.add("input")
MARK = re.compile("t[0-9a-f]{24}")
SPAN = re.compile('<(?:span class="[^"]*"|/span|div class="highlight"|/div)>')
NESTED = re.compile("<a [^>]*>(?:(?!</a>).)*<a ", re.S)
EXAMPLES = pathlib.Path(__file__).with_suffix(".examples")
EXAMPLE = re.compile(r"^`{32} example\n(.*?)^\.\n(.*?)^`{32}$", re.M | re.S)
ASKED = [{}, {"strike": True}, {"older": True}, {"safe": False, "no_html": True}]
TREE = {"tables": True, "tasks": True}
ADDITIONS = {**TREE, "bare_links": True}
GFM = ["cmark-gfm", "-e", "table"]
# The longest document that is tried.
LONGEST = 400_000


CELLS = ["", "a", "*b*", "`c|d`", "e\\|f", "\\\\", "[A]", "# g", "http://h.i/j", "<b>", "\t", "\\", "`", "*"]


class Texts(trees.Texts):
    """Random texts with what pages are about."""

    def row(self):
        return "|".join(self.random.choice([*CELLS, self.piece(1)]) for _ in range(self.random.randint(1, 4)))

    def table(self):
        count = self.random.randint(1, 3)
        head = "|".join(["a", "*b*", "`c`", "d\\|e"][:count])
        rule = "|".join(self.random.choice(["-", ":-", "--:", " :-: ", "---"]) for _ in range(count))
        lines = [head, rule, *(self.row() for _ in range(self.random.randint(0, 2)))]
        return "\n" + "\n".join(self.random.choice(["|%s|", "%s|", "| %s |", "%s"]) % it for it in lines)

    def text(self):
        one_of, plain = self.random.choice, super().text
        more = [
            lambda: "\n- " + one_of(["[ ] ", "[x] ", "[X]\t", "[ ]"]) + self.piece(1),
            lambda: "\n" + "#" * self.random.randint(1, 6) + " " + self.piece(1) + "\n",
            lambda: one_of(' (*a\n"')
            + one_of(["http://", "HTTPS://", "www."])
            + one_of(["a.b", "a_b.c", "é/", ""])
            + self.piece(1),
            lambda: "\n" + one_of(["---", "-- ", "===", "```py\nif '<a>': # b\n```"]) + "\n",
            self.table,
            self.table,
        ]
        parts = [(plain if self.random.random() < 0.6 else one_of(more))() for _ in range(self.random.randint(1, 4))]
        return "".join(parts)


def text_of(node):
    """Returns the text of the inlines of a heading, on one line."""
    parts = ("\n" if it["type"] == "break" else it.get("value") or it.get("alt") or "" for it in cmk.walk(node))
    return " ".join("".join(parts).split())


def lines_of(tree):
    """Returns the lines that leaves have, in order, and the lines of the root."""
    nodes = [it for it in cmk.walk(tree) if "lines" in it.get("data", {}) and it is not tree]
    found = sorted(line for it in nodes for line in range(it["data"]["lines"][0], it["data"]["lines"][1] + 1))
    return found, tree["data"]


def spaced(made):
    """Returns HTML with one space after each checkbox."""
    return re.sub('(<input [^>]*>)[ \t]*', r"\1 ", made)


def found_wrong(text, asked, counts):
    """Yields what patterns find in the HTML and the tree doesn't have, or the other way round."""
    made, plain = pages.render(text, **asked), {"safe": True, **asked}
    tree = cmk.parse(text, **plain)
    nodes = list(cmk.walk(tree))
    if made != cmk.html(text, **plain):
        yield "the HTML"
    headings = [(it["depth"], text_of(it)) for it in nodes if it["type"] == "heading"]
    if [(it.level, it.text) for it in pages.with_ids(made)[1]] != headings:
        yield "the headings"
    if pages.title(made) != next((it for level, it in headings if level == 1), None):
        yield "the title"
    came, links, images = [], lambda it: came.append(("link", it)) or it, lambda it: came.append(("image", it)) or it
    addresses = [(it["type"], render_tree.address(it)) for it in nodes if it["type"] in ("link", "image")]
    if pages.with_addresses(made, links, images) != made or came != [
        it for it in addresses if not it[1].startswith("#")
    ]:
        yield "the addresses"
    came = []
    blocks = [(it["lang"], render_tree.source(it)) for it in nodes if it["type"] == "code" and it["lang"]]
    if pages.with_code(made, lambda *it: came.append(it), most=1 << 30) != made or came != blocks:
        yield "the code blocks"
    with_tables = pages.parse(text, **TREE, **plain)
    if spaced(render_tree.html(with_tables)) != spaced(pages.render(text, **TREE, **asked)):
        yield "the tree with tables"
    if lines_of(with_tables) != lines_of(tree):
        yield "the lines of the tree with tables"
    matter = f"a: {text[:9]!r}\n"
    if pages.front_matter(f"---\n{matter}---\n{text}") != (matter, f"\n\n\n{text}"):
        yield "the front matter"
    counts.update(headings=len(headings), addresses=len(addresses), blocks=len(blocks))


def changed_wrong(text, asked, counts):
    """Yields what is wrong with the HTML with all additions and changes."""
    made, headings = pages.with_ids(pages.with_lower_headings(pages.render(text, **ADDITIONS, **asked)))
    made = pages.with_nofollow(
        pages.with_addresses(made, lambda it: urllib.parse.urljoin("/a/b", it), lambda it: f"/{it}")
    )
    if asked.get("safe", True):
        yield from strangers.wrong_in(made)
    if MARK.search(made):
        yield "a mark"
    # A link may have an address in `<` and `>` in it.
    if NESTED.search(made) and not NESTED.search(pages.render(text, **asked)):
        yield "a bare link in a link"
    if made.count("<a ") != made.count(' rel="nofollow ugc">'):
        yield "a link that is followed"
    ids = re.findall('<h[1-6] id="([^"]*)">', made)
    if len(set(ids)) != made.count("<h") - made.count("<hr") or not all(it.startswith("user-content-") for it in ids):
        yield "the ids"
    contents = pages.contents(headings)
    led = [urllib.parse.unquote(it) for it in re.findall('href="#([^"]*)"', contents)]
    if not strangers.is_xml(contents) or led != [it.id for it in headings]:
        yield "the table of contents"
    shown = pages.with_code(made)
    if not strangers.is_xml(shown) or html.unescape(SPAN.sub("", shown)) != html.unescape(made):
        yield "the highlighted code"
    counts.update(
        highlighted=shown.count('<div class="highlight">'),
        tables=made.count("<table>"),
        boxes=made.count("<input"),
        links=made.count("<a "),
    )


def wrong_examples():
    """Tries the examples, and returns how many are wrong."""
    examples = EXAMPLE.findall(EXAMPLES.read_text())
    wrong = [(text, came) for text, wanted in examples if (came := pages.render(text, **ADDITIONS)) != wanted]
    print(
        "\n".join(
            [*(f"{came!r} of {text!r}" for text, came in wrong), f"{len(wrong)} of {len(examples)} examples are wrong"]
        )
    )
    return len(wrong)


def tables_of(made):
    """Returns the tables in HTML."""
    return re.findall("<table>.*?</table>", made, re.S)


def compare(folders):
    """Compares the tables of the Markdown files in folders with those of cmark-gfm. Returns their number, and the files
    that differ."""
    count, differ = 0, []
    for file in sorted(
        it for folder in folders for it in folder.rglob("*.md") if it.is_file() and it.stat().st_size < LONGEST
    ):
        # Raw HTML ends a table there, and is text here.
        source = file.read_bytes().replace(b"<", b"&lt;")
        try:
            came = tables_of(pages.render(source, tables=True))
        except cmk.CmkError:
            continue
        wanted = tables_of(subprocess.run(GFM, input=source, stdout=subprocess.PIPE, check=True).stdout.decode())
        count += len(wanted)
        differ += [str(file)] * (came != wanted)
    return count, differ


def wrong_texts(number, seed):
    """Tries random texts, and returns how many are wrong."""
    texts, counts, wrong = Texts(seed), collections.Counter(), 0
    for at in range(number):
        text, asked = texts.text(), ASKED[at % len(ASKED)]
        try:
            mistakes = [*found_wrong(text, asked, counts), *changed_wrong(text, asked, counts)]
        except cmk.CmkError:
            counts["faults"] += 1
            continue
        if mistakes:
            wrong += 1
            print(f"{', '.join(mistakes)} of {text!r} with {asked}")
    print(
        f"{wrong} of {number} texts are wrong; they have "
        + ", ".join(f"{count} {name}" for name, count in counts.items())
    )
    return wrong


def main():
    words = argparse.ArgumentParser(description=__doc__.partition("\n")[0])
    words.add_argument("--texts", type=int, default=20_000)
    words.add_argument("--seed", type=int, default=1)
    words.add_argument("folders", metavar="FOLDER", nargs="*", type=pathlib.Path)
    given = words.parse_args()
    wrong, differ = wrong_examples() + wrong_texts(given.texts, given.seed), []
    if given.folders and not shutil.which(GFM[0]):
        print("the tables of documents aren't tried: there is no cmark-gfm")
    elif given.folders:
        count, differ = compare(given.folders)
        print(
            "\n".join(
                [
                    *(f"the tables of {it}" for it in differ),
                    f"{count} tables in documents, and {len(differ)} documents differ",
                ]
            )
        )
    sys.exit(bool(wrong or differ))


if __name__ == "__main__":
    main()
