"""Prints the headings of standard input with their lines: PYTHONPATH=bindings/python python3 outline.py"""
import sys

import cmk


def plain(node):
    """Returns the text of what is inside a node, on one line."""
    words = (it.get("value") or it.get("alt") or " " * (it["type"] == "break") for it in cmk.walk(node))
    return " ".join("".join(words).split())


try:
    tree = cmk.parse(sys.stdin.buffer.read())
except cmk.CmkError as error:
    sys.exit(error.line)
for node in cmk.walk(tree):
    if node["type"] == "heading":
        print(f"{node['data']['lines'][0]:5}{'  ' * node['depth']}{plain(node)}")
