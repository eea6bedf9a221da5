"""Writes the HTML of a tree in JSON, as `cmk render` writes it: cmk tree --json FILE | python3 render_tree.py

`html` also takes the tables and tasks of `cmk.pages.parse`.
"""
import json
import sys
import urllib.parse

# What a destination keeps; each other byte is written as % and two hexadecimal digits.
KEPT = "-_.+!*'(),%#@?=;:/&$~"
# What is written before and after what is inside a node.
TAGS = {
    "root": ("", ""), "paragraph": ("<p>", "</p>\n"), "blockquote": ("<blockquote>\n", "</blockquote>\n"),
    "thematicBreak": ("<hr />\n", ""), "emphasis": ("<em>", "</em>"), "strong": ("<strong>", "</strong>"),
    "delete": ("<del>", "</del>"), "break": ("<br />\n", ""),
}  # fmt: skip
BOXES = {True: '<input type="checkbox" checked="" disabled="" /> ', False: '<input type="checkbox" disabled="" /> '}


def escaped(text):
    return text.replace("&", "&amp;").replace("<", "&lt;").replace(">", "&gt;").replace('"', "&quot;")


def tag(name, **attributes):
    """Returns a start tag without its `>`. An attribute that is None is left out."""
    return f"<{name}" + "".join(f' {name}="{escaped(str(it))}"' for name, it in attributes.items() if it is not None)


def address(node):
    return urllib.parse.quote(node["url"], safe=KEPT)


def source(node):
    """Returns the text of a code block or an HTML block with its last line feed."""
    return node["value"] + "\n" * node["data"].get("finalNewline", True)


def item_parts(item):
    """Returns the parts of an item. In a tight list a paragraph is written as its inlines alone."""
    found, after_inlines, blocks = ["<li>"], True, item["children"]
    if "checked" in item:
        blocks = [{**blocks[0], "children": [BOXES[item["checked"]], *blocks[0]["children"]]}, *blocks[1:]]
    for block in blocks:
        if block["type"] != "definition":
            is_bare = block["type"] == "paragraph" and not item["spread"]
            found += ["\n"] * (after_inlines and not is_bare) + (block["children"] if is_bare else [block])
            after_inlines = is_bare
    return [*found, "</li>\n"]


def row_parts(name, row, sides):
    """Returns the parts of a row of a table, with cells of this name."""
    cells = [(tag(name, align=side) + ">", *it["children"], f"</{name}>\n") for it, side in zip(row["children"], sides)]
    return ["<tr>\n", *(part for cell in cells for part in cell), "</tr>\n"]


def table_parts(table):
    """Returns the parts of a table, whose first row is its head."""
    head, *rows = table["children"]
    body = [part for row in rows for part in row_parts("td", row, table["align"])]
    found = ["<table>\n<thead>\n", *row_parts("th", head, table["align"]), "</thead>\n"]
    return [*found, *(["<tbody>\n", *body, "</tbody>\n"] if body else []), "</table>\n"]


def parts(node):
    """Returns what a node is written as: pieces of HTML, and nodes in between."""
    kind, inside = node["type"], node.get("children", [])
    if kind in TAGS:
        start, end = TAGS[kind]
        return [start, *inside, end]
    if kind == "heading":
        return [f"<h{node['depth']}>", *inside, f"</h{node['depth']}>\n"]
    if kind == "list":
        name = "ol" if node["ordered"] else "ul"
        return [tag(name, start=None if node["start"] == 1 else node["start"]) + ">\n", *inside, f"</{name}>\n"]
    if kind == "listItem":
        return item_parts(node)
    if kind == "table":
        return table_parts(node)
    if kind == "code":
        start = tag("code", **{"class": node["lang"] and f"language-{node['lang']}"})
        return [f"<pre>{start}>{escaped(source(node))}</code></pre>\n"]
    if kind == "link":
        return [tag("a", href=address(node), title=node["title"]) + ">", *inside, "</a>"]
    if kind == "image":
        return [tag("img", src=address(node), alt=node["alt"], title=node["title"]) + " />"]
    if kind == "html":
        return [source(node) if "data" in node else node["value"]]
    if kind == "inlineCode":
        return [f"<code>{escaped(node['value'])}</code>"]
    return [escaped(node["value"])] if kind == "text" else []


def html(tree):
    """Returns the HTML of a tree, however deep it nests."""
    left, written = [tree], []
    while left:
        part = left.pop()
        if isinstance(part, str):
            written.append(part)
        else:
            left.extend(reversed(parts(part)))
    return "".join(written)


if __name__ == "__main__":
    sys.stdout.buffer.write(html(json.load(sys.stdin.buffer)).encode())
