"""Writes the tree of standard input as pandoc's JSON: PYTHONPATH=bindings/python python3 pandoc.py < FILE | pandoc -f json -o FILE.docx"""
import json
import re
import sys

import cmk

VERSION = [1, 22, 2]
NO_ATTRIBUTES = ["", [], []]
GROUPS = {"emphasis": "Emph", "strong": "Strong", "delete": "Strikeout"}
STYLES = {".": "Period", ")": "OneParen"}


def element(name, *content):
    """Returns an element with its content: none, one part, or a list of parts."""
    return {"t": name, "c": content[0] if len(content) == 1 else content} if content else {"t": name}


def words(text, line_feed="Space"):
    """Returns the words of a text with what is between them: spaces, and this for each line feed."""
    names = {" ": "Space", "\t": "Space", "\n": line_feed}
    return [element(names[it[0]]) if it[0] in names else element("Str", it) for it in re.findall(r"\n|[ \t]+|[^ \t\n]+", text)]


def inline(node):
    """Returns the elements of an inline."""
    kind = node["type"]
    if kind == "text":
        return words(node["value"], "Space" if "data" in node else "SoftBreak")
    if kind == "break":
        return [element("LineBreak")]
    if kind == "inlineCode":
        return [element("Code", NO_ATTRIBUTES, node["value"])]
    if kind == "html":
        return [element("RawInline", "html", node["value"])]
    if kind in GROUPS:
        return [element(GROUPS[kind], inlines(node["children"]))]
    if kind == "link":
        return [element("Link", NO_ATTRIBUTES, inlines(node["children"]), [node["url"], node["title"] or ""])]
    description = inlines(node["data"]["children"]) if "data" in node else words(node["alt"])
    return [element("Image", NO_ATTRIBUTES, description, [node["url"], node["title"] or ""])]


def inlines(nodes):
    return [it for node in nodes for it in inline(node)]


def block(node, spread=True):
    """Returns the elements of a block, in a tight list or elsewhere: one, or none for a definition."""
    kind = node["type"]
    if kind == "paragraph":
        return [element("Para" if spread else "Plain", inlines(node["children"]))]
    if kind == "heading":
        return [element("Header", node["depth"], NO_ATTRIBUTES, inlines(node["children"]))]
    if kind == "code":
        return [element("CodeBlock", ["", [node["lang"]] if node["lang"] else [], []], node["value"])]
    if kind == "html":
        return [element("RawBlock", "html", node["value"] + "\n")]
    if kind == "thematicBreak":
        return [element("HorizontalRule")]
    if kind == "blockquote":
        return [element("BlockQuote", blocks(node["children"]))]
    if kind == "definition":
        return []
    items = [blocks(item["children"], item["spread"]) for item in node["children"]]
    if not node["ordered"]:
        return [element("BulletList", items)]
    return [element("OrderedList", [node["start"], element("Decimal"), element(STYLES[node["data"]["marker"]])], items)]


def blocks(nodes, spread=True):
    return [it for node in nodes for it in block(node, spread)]


try:
    tree = cmk.parse(sys.stdin.buffer.read())
except cmk.CmkError as error:
    sys.exit(error.line)
print(json.dumps({"pandoc-api-version": VERSION, "meta": {}, "blocks": blocks(tree["children"])}))
