#!/usr/bin/env python3
"""Serves a page on which the installed library can be tried, to this machine only.

  python3 examples/page/serve.py [--port N] [FILE]

It prints the page's address. The page starts with the text of FILE, or with a sample. What is typed is sent to this
program, which calls the library and answers in JSON; the page loads nothing from elsewhere.
"""

import argparse
import http.server
import json
import pathlib
import re
import sys
import time

HERE = pathlib.Path(__file__).resolve().parent
sys.path += [str(HERE.parents[1] / "bindings/python"), str(HERE.parent)]
import cmk  # noqa: E402
import render_tree  # noqa: E402

# The longest request that the page may send.
LONGEST = 16 << 20
# The names by which this machine reaches the page. No other site can give its name to it and read what it serves.
NAMES = ("127.0.0.1", "localhost")
# The policy of the page, and that of the frame with the rendered text: no scripts, and nothing from the network.
FOR_BOTH = "default-src 'none'; img-src data:; base-uri 'none'; form-action 'none'; "
POLICY = FOR_BOTH + "script-src 'self'; style-src 'self'; connect-src 'self'; frame-src 'self'; frame-ancestors 'none'"
FRAME_POLICY = FOR_BOTH + "style-src 'self' 'unsafe-inline'; frame-ancestors 'self'; sandbox allow-same-origin"
FILES = {
    "/": ("page.html", "text/html", POLICY),
    "/page.css": ("page.css", "text/css", POLICY),
    **{f"/{it}.js": (f"{it}.js", "text/javascript", POLICY) for it in ("page", "editor", "listing", "located")},
    "/frame.html": ("frame.html", "text/html", FRAME_POLICY),
    "/frame.css": ("frame.css", "text/css", FRAME_POLICY),
}
# The library's HTML has no U+0000, so one can mark where a leaf starts and ends.
CUT = {"type": "html", "data": {"finalNewline": False}, "value": "\0"}
NOT_UTF8, BLOCKS_TOO_DEEP, INLINES_TOO_DEEP = 1, 3, 4
DEEPEST = 500
FLAGS, LIMITS = ("safe", "no_html", "web_links", "older", "strike"), ("blocks", "inlines")


def is_leaf(node):
    return "lines" in node.get("data", ()) and node["type"] != "root"


def cut_leaves(container):
    """Puts a cut at both ends of each leaf that a container holds. A tight paragraph has no tags, so its cuts are inside it."""
    is_tight = container["type"] == "listItem" and not container["spread"]
    children = []
    for block in container["children"]:
        if not is_leaf(block) or block["type"] == "definition":
            children.append(block)
        elif is_tight and block["type"] == "paragraph":
            children.append({**block, "children": [CUT, *block["children"], CUT]})
        else:
            children += [CUT, block, CUT]
    container["children"] = children


def pieces_of(html, tree):
    """Returns the HTML in pieces: each with the number of the leaf that it is, or with 0 if it lies between leaves."""
    nodes = list(cmk.walk(tree))
    leaves = [it["type"] for it in nodes if is_leaf(it)]
    numbers = [number for number, kind in enumerate(leaves, 1) if kind != "definition"]
    for node in nodes:
        if node["type"] in ("root", "blockquote", "listItem"):
            cut_leaves(node)
    pieces = render_tree.html(tree).split("\0")
    if "".join(pieces) != html:
        return [[0, html]]
    return [[numbers[at // 2] if at % 2 else 0, it] for at, it in enumerate(pieces)]


def units_before(text, place):
    """Returns how many UTF-16 code units, which browsers count in, a text has before the byte where it stops being UTF-8."""
    before = text.encode(errors="surrogatepass")[:place].decode()
    return len(before.encode("utf-16-le")) // 2


def lines_of_leaf(number, text, options):
    """Returns the lines of a leaf whose inlines nest too deep for the options, or None if they do for any."""
    try:
        leaves = [it for it in cmk.walk(cmk.parse(text, **{**options, "inlines": DEEPEST})) if is_leaf(it)]
    except cmk.CmkError:
        return None
    return leaves[number - 1]["data"]["lines"]


def fault(error, text, options):
    """Returns what an error says, and where in the text it is."""
    told = {"error": error.line}
    if error.number == NOT_UTF8:
        told["at"] = units_before(text, error.place)
    elif error.number == BLOCKS_TOO_DEEP:
        told["lines"] = [error.place, error.place]
    elif error.number == INLINES_TOO_DEEP:
        told["lines"] = lines_of_leaf(error.place, text, options)
    return told


def spelled(text, options):
    """Returns the plain source of a text, or why it has none."""
    try:
        return {"text": cmk.rewrite(text, **options)}
    except cmk.CmkError as error:
        return {"error": error.line}


def answer(text, options):
    """Returns everything that the page shows of a text."""
    try:
        began = time.perf_counter_ns()
        html = cmk.html(text, **options)
        took = time.perf_counter_ns() - began
        pieces, listing = pieces_of(html, cmk.parse(text, **options)), cmk.tree(text, **options)
    except cmk.CmkError as error:
        return fault(error, text, options)
    return {"microseconds": took / 1000, "pieces": pieces, "listing": listing, "source": spelled(text, options)}


class Refused(Exception):
    """Why a request is refused: the status and a sentence."""

    def __init__(self, status, why):
        super().__init__(why)
        self.status = status


def limits_of(given):
    """Returns the limits that are given. One out of its range is a ValueError."""
    found = {it: given[it] for it in LIMITS if it in given}
    for name, value in found.items():
        if type(value) is not int or not 1 <= value <= DEEPEST:
            raise ValueError(f"--{name} takes a whole number from 1 to {DEEPEST}.")
    return found


def asked_of(body):
    """Returns the text and the options of a request. A request in another form is refused."""
    try:
        asked = json.loads(body)
        text, given = asked["text"], asked["options"]
        if not isinstance(text, str):
            raise ValueError("The text is no string.")
        return text, {**{it: bool(given.get(it)) for it in FLAGS}, **limits_of(given)}
    except ValueError as why:
        raise Refused(400, str(why)) from why
    except (AttributeError, KeyError, RecursionError, TypeError) as why:
        raise Refused(400, f"The request has another form: {why}") from why


class Handler(http.server.BaseHTTPRequestHandler):
    """Answers the page's requests."""

    protocol_version = "HTTP/1.1"
    # The head and the body of an answer go out together, since the second of two small packets would wait for an
    # acknowledgement.
    wbufsize = -1
    # How many seconds a connection may be silent.
    timeout = 60
    sample = HERE / "sample.md"

    def do_GET(self):
        self.reply(self.file)

    def do_POST(self):
        self.reply(self.conversion)

    def reply(self, make):
        """Sends what a call makes, or why it refuses."""
        try:
            if self.headers.get("Host", "").partition(":")[0] not in NAMES:
                raise Refused(421, "This page has another address.")
            self.send(200, *make())
        except Refused as why:
            self.close_connection = True
            self.send(why.status, "text/plain", f"{why}\n".encode(), POLICY)

    def file(self):
        """Returns the type, the content and the policy of a file."""
        path = self.path.partition("?")[0]
        if path == "/sample":
            # A byte that isn't UTF-8 becomes a surrogate, which the library refuses at the same place.
            text = self.sample.read_bytes().decode(errors="surrogateescape")
            return "application/json", json.dumps(text).encode(), POLICY
        if path not in FILES:
            raise Refused(404, "There is no such page.")
        name, kind, policy = FILES[path]
        return kind, (HERE / name).read_bytes(), policy

    def conversion(self):
        """Returns the same for what the library makes of a text."""
        length = self.headers.get("Content-Length", "")
        if self.path != "/convert":
            raise Refused(404, "There is no such page.")
        if not re.fullmatch("[0-9]+", length):
            raise Refused(411, "The request doesn’t say how long it is.")
        if len(length) > 9 or int(length) > LONGEST:
            raise Refused(413, "The text is too long for this page.")
        text, options = asked_of(self.rfile.read(int(length)))
        return "application/json", json.dumps(answer(text, options)).encode(), POLICY

    def send(self, status, kind, body, policy):
        self.send_response(status)
        self.send_header("Content-Type", f"{kind}; charset=utf-8")
        self.send_header("Content-Length", str(len(body)))
        self.send_header("Content-Security-Policy", policy)
        self.send_header("X-Content-Type-Options", "nosniff")
        self.send_header("X-DNS-Prefetch-Control", "off")
        self.send_header("Referrer-Policy", "no-referrer")
        self.send_header("Cache-Control", "no-store")
        self.end_headers()
        self.wfile.write(body)

    def log_message(self, *_):
        """Keeps the terminal quiet."""


class Server(http.server.ThreadingHTTPServer):
    def handle_error(self, request, client_address):
        """Reports an error, unless the browser has left before its answer."""
        if not isinstance(sys.exc_info()[1], ConnectionError):
            super().handle_error(request, client_address)


def main():
    words = argparse.ArgumentParser(description=__doc__.partition("\n")[0])
    words.add_argument("file", metavar="FILE", nargs="?", type=pathlib.Path, default=Handler.sample)
    words.add_argument("--port", type=int, default=0, help="the port; a free one if it is omitted")
    asked = words.parse_args()
    if not asked.file.is_file():
        words.error(f"there is no file {asked.file}")
    Handler.sample = asked.file
    with Server(("127.0.0.1", asked.port), Handler) as server:
        print(f"http://127.0.0.1:{server.server_port}/", flush=True)
        try:
            server.serve_forever()
        except KeyboardInterrupt:
            pass


if __name__ == "__main__":
    main()
