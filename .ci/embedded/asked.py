"""Asks bindings/python for .ci/embedding what a mistaken or hostile caller asks, and writes what it answers."""

import inspect
import pickle
import pydoc

import cmk
from cmk import pages


class Bytes(bytes):
    def __len__(self):
        return 1000


class Text(str):
    def encode(self, *_, **__):
        return Bytes(b"d")


class Array(bytearray):
    def __len__(self):
        return 1000


for kind, text in (("bytes", Bytes(b"abc")), ("str", Text("abc")), ("bytearray", Array(b"abc"))):
    what = "encoding" if kind == "str" else "length"
    print(repr(cmk.html(text)), f"of a {kind} with another {what}")
print(*{" ".join(inspect.signature(it).parameters) for it in (cmk.html, cmk.tree, cmk.json, cmk.parse, cmk.rewrite)})
print("help shows the options:", "blocks: int = 100" in pydoc.render_doc(cmk.html))
try:
    cmk.parse("a", saef=True)
except TypeError as error:
    print(f"TypeError: {error}")
try:
    cmk.html("ab", bytes=1)
except cmk.CmkError as error:
    print(f"CmkError: {error.number!r}", str(error.number), f"{error.number} {error.line}")
error = cmk.CmkError(99, 0)
print(f"CmkError: {error.number!r}", str(error.number), f"{error.number} {error.line}")

made = pages.render("<b>[a](javascript:b)")
for ask in (
    lambda: pages.with_ids("<h1>"),
    lambda: pages.with_nofollow(made + "<a>"),
    lambda: pages.page(made.replace("p", "q"), title="a"),
    lambda: pages.SafeHtml("<b>"),
    lambda: pages.render("<b>", safe=False),
):
    try:
        print("no error", ask())
    except (TypeError, ValueError) as error:
        print(f"{type(error).__name__}: {error}")
print(pages.render("<b>[a](javascript:b)", safe=False, no_html=True), type(pickle.loads(pickle.dumps(made))), made.__html__(), end="")
