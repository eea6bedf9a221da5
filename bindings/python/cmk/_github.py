"""What GitHub adds to CommonMark, for `cmk.pages`: tables, task list items and links of bare addresses.

A table takes the place of lines of a paragraph, and its cells are texts of their own. So the text is rendered with a
mark, which is a word that it doesn't have, for each table and each checkbox; and the cells are rendered as headings,
since whatever is on the line of a heading is inlines. So the library writes all tags but those of tables, checkboxes
and these links.
"""

import hashlib
import html
import re
import string
import urllib.parse
from collections.abc import Callable, Iterator
from typing import Any, NamedTuple, Optional, TypeVar

import cmk

_LINE_END = re.compile("\r\n?|\n")
# A line that may be the second of a table, and one that may have a checkbox. Other texts are read only once.
_MAY_BE_TABLE = re.compile(r"^[ \t>]*[|:-][ \t|:-]*$", re.M)
_MAY_BE_TASK = re.compile(r"[-+*.)][ \t]+\[[ xX]\][ \t]")
_DELIMITERS = re.compile(r"\|?[ \t]*:?-+:?[ \t]*(?:\|[ \t]*:?-+:?[ \t]*)*\|?")
_BAR = re.compile(r"(?<!\\)\|")
_SIDES = {(True, True): "center", (False, True): "right", (True, False): "left"}
_CONTAINERS = ("blockquote", "list", "listItem")
# What is before the text of a block on its first line, and an item's checkbox after it.
_MARKER = r"[ \t]*(?:>|(?:[-+*]|[0-9]{1,9}[.)])(?=[ \t]))"
_MARKERS = re.compile(rf"(?:{_MARKER})*[ \t]*")
_CHECKBOX = re.compile(rf"((?:{_MARKER})+(?<!>)[ \t]+)\[([ xX])\](?=[ \t]+[^ \t])")
_BOXES = {
    "checked": '<input type="checkbox" checked="" disabled="" />',
    "empty": '<input type="checkbox" disabled="" />',
}
_ENDS_IN_BACKSLASH = re.compile(r"(?<!\\)(?:\\\\)*\\\Z")
# An underline that would be a break without a paragraph before it.
_UNDERLINE = re.compile(r"([ \t>]*)-{3,}[ \t]*")
# The most cells that the rows of a text's tables leave out, and the most bytes that a text may have at all.
_MOST_FILLED, _MOST_BYTES = 100_000, 1 << 30

_TAG = re.compile("(<[^>]*>)")
_BARE = re.compile(r"(?:(?<![^\W_])https?://|(?<![^\s*_~(])www\.)(?=[^\W_])([\w.-]+)[^\s<]*", re.I)
# What the library writes as it is in an address.
_KEPT = "-_.+!*'(),%#@?=;:/&$~"

_Made = TypeVar("_Made")


def escaped(text: str) -> str:
    """Returns a text as the library escapes it."""
    return html.escape(text).replace("&#x27;", "'")


def escaped_address(address: str) -> str:
    """Returns an address as the library escapes it."""
    return escaped(urllib.parse.quote(address, safe=_KEPT))


def html_of(text: str, plain: str, tables: bool, tasks: bool, options: Any) -> str:
    """Returns the HTML of a text with its tables and checkboxes. `plain` is the HTML without."""
    tables, tasks = _may_have(text, tables, tasks)
    if not (tables or tasks):
        return plain
    tree = cmk.parse(text, **options)
    return _replaced(plain, _Marked(text, tree, tables, tasks), lambda marked: marked.html(tree, options))


def tree_of(text: str, plain: cmk.Root, tables: bool, tasks: bool, options: Any) -> cmk.Root:
    """Returns the tree of a text with its tables and checkboxes. `plain` is the tree without."""
    marked = _Marked(text, plain, *_may_have(text, tables, tasks))
    return _replaced(plain, marked, lambda marked: marked.tree(plain, options))


def _may_have(text: str, tables: bool, tasks: bool) -> tuple[bool, bool]:
    """Returns which of these a text may have."""
    lines = _LINE_END.sub("\n", text)
    return tables and bool(_MAY_BE_TABLE.search(lines)), tasks and bool(_MAY_BE_TASK.search(text))


def _replaced(plain: _Made, marked: "_Marked", make: Callable[["_Marked"], Optional[_Made]]) -> _Made:
    """Returns what is made of a text with marks, or what is made of it without where there are none or that fails."""
    try:
        return marked.count and make(marked) or plain
    except cmk.CmkError:
        # A cell by itself may nest deeper than its paragraph, and the cells make the text longer.
        return plain


class _Leaf(NamedTuple):
    """A paragraph or a heading: its lines, counted from 0, and in how many quotes it is."""

    first: int
    last: int
    quotes: int
    is_heading: bool
    starts_item: bool


def _leaves(tree: Any) -> Iterator[_Leaf]:
    """Yields the paragraphs and headings of a tree."""
    left = [(tree, 0)]
    while left:
        node, quotes = left.pop()
        quotes += node["type"] == "blockquote"
        for number, it in enumerate(node["children"]):
            if it["type"] in _CONTAINERS:
                left.append((it, quotes))
            elif it["type"] in ("paragraph", "heading"):
                first, last = it["data"]["lines"]
                is_heading, starts_item = it["type"] == "heading", node["type"] == "listItem" and number == 0
                yield _Leaf(first - 1, last - 1, quotes, is_heading, starts_item)


class _Table(NamedTuple):
    """A table: where each column is aligned, and the sources of the cells of each row, the head first."""

    sides: list[Optional[str]]
    rows: list[list[str]]

    def filled(self) -> int:
        """Returns how many cells the rows leave out."""
        return sum(max(0, len(self.sides) - len(it)) for it in self.rows)

    def cells(self) -> Iterator[str]:
        """Yields the sources of all cells, as many in each row as there are columns."""
        for row in self.rows:
            yield from [*row, *[""] * (len(self.sides) - len(row))][: len(self.sides)]

    def html(self, cells: Iterator[str]) -> str:
        """Returns the HTML. `cells` has that of the cells."""
        head, *rows = [self.row_html("td" if number else "th", cells) for number in range(len(self.rows))]
        body = f"<tbody>\n{''.join(rows)}</tbody>\n" if rows else ""
        return f"<table>\n<thead>\n{head}</thead>\n{body}</table>\n"

    def row_html(self, name: str, cells: Iterator[str]) -> str:
        starts = (f'{name} align="{side}"' if side else name for side in self.sides)
        inside = "".join(f"<{start}>{next(cells)}</{name}>\n" for start in starts)
        return f"<tr>\n{inside}</tr>\n"

    def node(self, cells: Iterator[Any]) -> dict[str, Any]:
        """Returns the node of the table, without its lines. `cells` has the nodes in the cells."""
        rows = [[{"type": "tableCell", "children": next(cells)} for _ in self.sides] for _ in self.rows]
        children = [{"type": "tableRow", "children": it} for it in rows]
        return {"type": "table", "data": {}, "align": self.sides, "children": children}


def _row(line: str) -> list[str]:
    """Returns the cells of a line."""
    cells = [it.strip(" \t").replace("\\|", "|") for it in _BAR.split(line)]
    if len(cells) > 1 and not cells[0]:
        del cells[0]
    if len(cells) > 1 and not cells[-1]:
        del cells[-1]
    return cells


def _table_in(lines: list[str]) -> Optional[tuple[int, _Table]]:
    """Returns the table in the lines of a paragraph, with the number of its first line."""
    for number, (head, delimiters) in enumerate(zip(lines, lines[1:])):
        if _DELIMITERS.fullmatch(delimiters) and len(_row(head)) == len(_row(delimiters)):
            sides = [_SIDES.get((it.startswith(":"), it.endswith(":"))) for it in _row(delimiters)]
            return number, _Table(sides, [_row(it) for it in (head, *lines[number + 2 :])])
    return None


class _Marked:
    """A text in which marks take the place of the tables and checkboxes that its tree has room for."""

    def __init__(self, text: str, tree: cmk.Root, tables: bool, tasks: bool) -> None:
        self.text = text
        self.lines: list[Optional[str]] = [*_LINE_END.split(text)]
        # A text that has this word would have its own checksum.
        self.word = "t" + hashlib.sha256(text.encode()).hexdigest()[:24]
        self.tables: list[_Table] = []
        # The line on which each table starts, counted from 0.
        self.starts: list[int] = []
        self.count = self.filled = 0
        for leaf in _leaves(tree) if tables or tasks else ():
            if not (tables and self.put_table(leaf)) and tasks and leaf.starts_item:
                self.put_box(leaf)

    def source(self) -> str:
        return "\n".join(it for it in self.lines if it is not None)

    def parts(self, leaf: _Leaf, number: int) -> tuple[str, str]:
        """Returns what is before the text of a leaf on one of its lines, and that text without spaces at its end."""
        line = self.lines[number] or ""
        before = _MARKERS if number == leaf.first else re.compile(rf"(?:[ \t]*>){{0,{leaf.quotes}}}[ \t]*")
        found = before.match(line)
        end = found.end() if found else 0
        return line[:end], line[end:].rstrip(" \t")

    def put_table(self, leaf: _Leaf) -> bool:
        """Puts a mark in the place of a leaf's table, and returns whether it has one."""
        underline = _UNDERLINE.fullmatch(self.lines[leaf.last] or "")
        if leaf.is_heading and not underline:
            return False
        end = leaf.last + 1 - leaf.is_heading
        parts = [self.parts(leaf, it) for it in range(leaf.first, end)]
        found = _table_in([text for _, text in parts])
        if not found or self.filled + found[1].filled() > _MOST_FILLED:
            return False
        number, table = found
        at = leaf.first + number
        # A backslash at the end of the text before the table isn't a line break.
        if number and _ENDS_IN_BACKSLASH.search(self.lines[at - 1] or ""):
            self.lines[at - 1] = f"{self.lines[at - 1]}\\"
        # With its bar a mark isn't the address of a link reference definition that starts on the line before.
        self.lines[at:end] = [f"{parts[number][0]}{self.word}{len(self.tables)}z |", *[None] * (end - at - 1)]
        # Three hyphens right after a table are a break, and not the underline of a heading.
        if leaf.is_heading and underline:
            self.lines[leaf.last] = f"{underline[1]}***"
        self.filled += table.filled()
        self.tables.append(table)
        self.starts.append(at)
        self.count += 1
        return True

    def put_box(self, leaf: _Leaf) -> None:
        """Puts a mark in the place of the checkbox of an item, if it has one."""
        line = self.lines[leaf.first] or ""
        found = None if leaf.is_heading else _CHECKBOX.match(line)
        if found:
            box = "empty" if found[2] == " " else "checked"
            self.lines[leaf.first] = f"{found[1]}{self.word}{box}{line[found.end() :]}"
            self.count += 1

    def html(self, tree: Any, options: Any) -> Optional[str]:
        """Returns the HTML with tables and checkboxes, or None if a mark isn't where it was put."""
        made = cmk.html(self.source(), **options)
        sources, asked = self.cells(tree, options)
        parts = cmk.html(sources, **asked).split("</h1>\n")
        cells = (it.removeprefix("<h1>") for it in parts)
        tables = [it.html(cells) for it in self.tables]

        def box(mark: re.Match[str]) -> str:
            return _BOXES[mark[1]]

        def table(mark: re.Match[str]) -> str:
            if mark[1] == "<p>":
                return tables[int(mark[2])]
            # Text comes before the table in its paragraph, or it's in an item without `<p>`.
            return f"{mark[3] or ''}\n{tables[int(mark[2])]}"

        made, of_tables = re.subn(rf"(<p>|(?:<br />)?\n|){self.word}(\d+)z \|(</p>)?\n?", table, made)
        made, of_boxes = re.subn(rf"{self.word}(empty|checked)", box, made)
        return made if of_tables == len(tables) and of_tables + of_boxes == self.count else None

    def cells(self, tree: Any, options: Any) -> tuple[str, Any]:
        """Returns a text whose first headings are the cells of all tables, and the options for it. What is after them
        has the link reference definitions."""
        cells = "".join(f"# {cell} #\n" for table in self.tables for cell in table.cells())
        has_definitions = any(it["type"] == "definition" for it in cmk.walk(tree))
        return cells + (f"\n{self.text}" if has_definitions else ""), {**options, "bytes": _MOST_BYTES}

    def tree(self, tree: Any, options: Any) -> Optional[cmk.Root]:
        """Returns the tree with tables and checkboxes, or None if a mark isn't where it was put."""
        made: Any = cmk.parse(self.source(), **options)
        sources, asked = self.cells(tree, options)
        headings: Any = cmk.parse(sources, **asked)["children"]
        cells, found = (it["children"] for it in headings), 0
        tables = [it.node(cells) for it in self.tables]
        self.number_lines(made)
        nodes: list[Any] = [it for it in cmk.walk(made) if it["type"] in ("root", *_CONTAINERS)]
        for node in nodes:
            parts = [self.with_table(it, tables) for it in node["children"]]
            found += self.has_checked(node) + sum(it["type"] == "table" for part in parts for it in part)
            node["children"] = [it for part in parts for it in part]
        return made if found == self.count else None

    def number_lines(self, made: Any) -> None:
        """Gives the nodes of the text with marks the numbers of their lines without."""
        kept = [number for number, it in enumerate(self.lines) if it is not None]
        after = [*kept, len(self.lines)]
        for node in cmk.walk(made):
            data: Any = node.get("data", {})
            if "lines" in data:
                first, last = data["lines"]
                data["lines"] = [kept[first - 1] + 1, after[last]]
            if "markers" in data:
                data["markers"] = [kept[it - 1] + 1 for it in data["markers"]]

    def with_table(self, node: Any, tables: list[Any]) -> list[Any]:
        """Returns a block without the mark at its end, if it has any, and the table for that."""
        inside = node["children"] if node["type"] == "paragraph" else []
        found = inside and re.fullmatch(rf"(?:(.*)\n)?{self.word}(\d+)z \|", inside[-1].get("value", ""), re.S)
        if not found:
            return [node]
        table, number, (_, last) = tables[int(found[2])], self.starts[int(found[2])], node["data"]["lines"]
        table["data"] = {"lines": [number + 1, last]}
        inside[-1]["value"] = found[1]
        if not found[1]:
            del inside[-1]
        if inside and inside[-1]["type"] == "break":
            del inside[-1]
        node["data"]["lines"][1] = number
        return [node, table] if inside else [table]

    def has_checked(self, item: Any) -> bool:
        """Removes the mark at the start of an item, and returns whether it has one."""
        first = item["children"][:1] if item["type"] == "listItem" else []
        inside = first[0]["children"] if first and first[0]["type"] == "paragraph" else []
        found = inside and re.match(rf"{self.word}(empty|checked)[ \t]*", inside[0].get("value", ""))
        if not found:
            return False
        item["checked"] = found[1] == "checked"
        inside[0]["value"] = inside[0]["value"][found.end() :]
        if not inside[0]["value"]:
            del inside[0]
        return True


def with_bare_links(made: str) -> str:
    """Returns HTML in which web addresses that aren't in a link or in code are links."""
    parts, inside = _TAG.split(made), 0
    for at, part in enumerate(parts):
        if at % 2:
            inside += part.startswith(("<a ", "<code")) - part.startswith(("</a", "</code"))
        elif not inside and ("://" in part or "www." in part.lower()):
            parts[at] = _linked(html.unescape(part))
    return "".join(parts)


def _linked(text: str) -> str:
    """Returns the HTML of a text with its links."""
    made, at = [], 0
    for found in _BARE.finditer(text):
        address = _without_end(found[0])
        if "_" not in "".join(found[1].split(".")[-2:]):
            scheme = "http://" if found[0][:4].lower() == "www." else ""
            link = f'<a href="{escaped_address(scheme + address)}">{escaped(address)}</a>'
            made += [escaped(text[at : found.start()]), link]
            at = found.start() + len(address)
    return "".join([*made, escaped(text[at:])])


def _without_end(address: str) -> str:
    """Returns an address without final punctuation, a final reference, and parentheses that it only closes."""
    end, surplus = len(address), address.count(")") - address.count("(")
    while end:
        last, start = address[end - 1], end - 1
        if last == ";":
            name = start
            while name and address[name - 1] in string.ascii_letters:
                name -= 1
            end = name - 1 if 0 < name < start and address[name - 1] == "&" else start
        elif last in "?!.,:*_~'\"" or last == ")" and surplus > 0:
            end, surplus = start, surplus - (last == ")")
        else:
            break
    return address[:end]
