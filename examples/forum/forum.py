#!/usr/bin/env python3
"""A forum of CommonMark for untrusted users: a WSGI application over SQLite and the installed library.

  python3 examples/forum/forum.py [--port N] [FILE]

It serves to this machine only, with waitress, prints its address, and keeps the posts in FILE, or in memory. Each post
is rendered once, with the safe rules, and its HTML is stored next to its source. `Forum` is the application for another
server. In public, put a proxy before it that speaks TLS and limits the connections of each address.
"""

import argparse
import html
import logging
import pathlib
import re
import resource
import sqlite3
import sys
import threading
import urllib.parse

sys.path.append(str(pathlib.Path(__file__).resolve().parents[2] / "bindings/python"))
import cmk  # noqa: E402
from cmk import pages  # noqa: E402

# References to a long title make the HTML grow with the square of the text, so both are limited, and so is the memory
# of the process. A text that is too long for a post still fits into a form, which then comes back with it.
MOST_TEXT, MOST_HTML, MOST_FORM, MOST_MEMORY, DEEPEST = 20_000, 200_000, 200_000, 1 << 30, 100
# Waitress reads requests in one thread, and calls the application in others once a request is whole. So a connection
# that sends nothing costs a socket, for 20 seconds. A head has fewer digits than `int` reads.
SERVING = {
    "threads": 4,
    "connection_limit": 500,
    "channel_timeout": 20,
    "cleanup_interval": 5,
    "asyncore_use_poll": True,
    "max_request_header_size": 4096,
    "max_request_body_size": MOST_FORM,
}
# These modes don't wait for the disk at each post. If the power fails, the last posts are lost, and no others.
TABLE = """PRAGMA journal_mode = WAL; PRAGMA synchronous = NORMAL;
CREATE TABLE IF NOT EXISTS post (number INTEGER PRIMARY KEY, author TEXT, title TEXT, source TEXT, html TEXT)"""
INSERT = "INSERT INTO post (author, title, source, html) VALUES (?, ?, ?, ?)"
# The HTML has no scripts, styles or forms; with this policy a browser wouldn't obey them either. Pictures would tell
# their servers who reads.
POLICY = "default-src 'none'; style-src 'self'; form-action 'self'; base-uri 'none'; frame-ancestors 'none'"
HEADERS = [
    ("Content-Security-Policy", POLICY),
    ("X-Content-Type-Options", "nosniff"),
    ("Referrer-Policy", "same-origin"),
]
STYLE = """:root { color-scheme: light dark }
body { margin: 2rem auto; max-width: 44rem; padding: 0 1rem; font: 1rem/1.6 system-ui, sans-serif }
body { overflow-wrap: break-word }
article { margin: 1.5rem 0; padding: .5rem 1.25rem; border: 1px solid #8886; border-radius: 8px }
pre { overflow-x: auto } blockquote { margin-left: 0; padding-left: 1rem; border-left: 3px solid #8886 }
label { display: block; margin: .75rem 0 } input, textarea { box-sizing: border-box; width: 100%; padding: .5rem }
input, textarea, button { border: 1px solid light-dark(#767676, #8c8c8c); border-radius: 6px; font: inherit }
button { padding: .5rem 1.25rem } nav { margin: 1rem 0 }
nav a, li a { display: inline-block; min-width: 24px; min-height: 24px }
:focus-visible { outline: 3px solid light-dark(#0a6b60, #62c9ba); outline-offset: 2px }
footer, .image { color: light-dark(#555, #aaa) } .image { padding: 0 .4em; border: 1px dashed }
[role=alert] { color: light-dark(#b3261e, #ff8f86) } [aria-invalid] { border-color: light-dark(#b3261e, #ff8f86) }
"""
MOST = {"author": 80, "title": 200}
FIELDS = {
    "author": '<label>Name <input name="author" required maxlength="{most}" value="{value}"{mark}></label>\n',
    "title": '<label>Title <input name="title" required maxlength="{most}" value="{value}"{mark}></label>\n',
    "text": '<label>Text, in CommonMark <textarea name="text" rows="10" required{mark}>\n{value}</textarea></label>\n',
}
HOME = '<nav><a href="/">All posts</a></nav>\n'


class Refused(Exception):
    """Why a request is refused: a sentence for its sender, the field that it is about, and the status."""

    def __init__(self, why, field="", status="400 Bad Request"):
        super().__init__(why)
        self.field, self.status = field, status


def line_of(leaf, text):
    """Returns where a leaf starts whose inlines nest too deep. Beyond the library's own limit that isn't known."""
    try:
        listing = cmk.tree(text, safe=True, inlines=500)
    except cmk.CmkError:
        return "In one block"
    return "In the block at line " + re.search(rf"(?m)^owner (\d+) leaf {leaf}$", listing)[1]


def refusal(error, text):
    """Returns why the library refuses a text, in words for its writer."""
    if error.number == cmk.Fault.TOO_LONG:
        length, unit = len(text.encode()), "An English letter is one byte."
        return Refused(f"The text has {length:,} bytes, and {MOST_TEXT:,} are the most. {unit}", "text")
    if error.number == cmk.Fault.BLOCKS_TOO_DEEP:
        return Refused(f"Line {error.place} is inside more than {DEEPEST} quotes and list items.", "text")
    if error.number == cmk.Fault.INLINES_TOO_DEEP:
        where = line_of(error.place, text)
        return Refused(f"{where}, emphasis, links and images nest more than {DEEPEST} deep.", "text")
    return Refused("The forum has no memory for this text. Try again later.", "text", "503 Service Unavailable")


def adapted(made):
    """Returns the HTML of a text for a page. In it `<` only starts tags, so a pattern finds just the images."""
    made = pages.with_nofollow(pages.with_lower_headings(made))
    shown = r'<span class="image">Image, not loaded: \2 (\1)</span>'
    return re.sub(r'<img src="([^"]*)" alt="([^"]*)"(?: title="[^"]*")? />', shown, made)


def rendered(text):
    """Returns the HTML of a post."""
    try:
        made = pages.render(text, bytes=MOST_TEXT, blocks=DEEPEST, inlines=DEEPEST)
    except cmk.CmkError as error:
        raise refusal(error, text) from error
    if not made:
        raise Refused("The text shows nothing.", "text")
    if len(made) > MOST_HTML:
        raise Refused("The page of this text would be too long. Do links repeat a long address or title?", "text")
    return adapted(made)


def sent_by(environ):
    """Returns the fields of the form that a request has. Less than the whole form is refused."""
    length = environ.get("CONTENT_LENGTH") or ""
    if not re.fullmatch("[0-9]{1,9}", length):
        raise Refused("The request doesn’t say how long it is.", status="411 Length Required")
    if int(length) > MOST_FORM:
        raise Refused("The post is too long.", status="413 Content Too Large")
    body = environ["wsgi.input"].read(int(length))
    if len(body) < int(length):
        raise Refused("The end of the post is missing.")
    sent = urllib.parse.parse_qs(body.decode("ascii", "replace"), keep_blank_values=True)
    return {name: sent.get(name, [""])[0] for name in FIELDS}


def line(sent, name):
    """Returns a field of one line, if it has a right length."""
    value = " ".join(sent[name].split())
    if not value:
        raise Refused("This field is empty.", name)
    if len(value) > MOST[name]:
        raise Refused(f"This field has {len(value):,} characters, and {MOST[name]} are the most.", name)
    return value


def form(sent, refused=None):
    """Returns the form with what was sent, and why that was refused."""
    parts = []
    for name, field in FIELDS.items():
        mark = ""
        if refused and refused.field == name:
            parts.append(f'<p role="alert" id="why">{html.escape(str(refused))}</p>\n')
            mark = ' aria-invalid="true" aria-describedby="why" autofocus'
        parts.append(field.format(value=html.escape(sent.get(name, "")), mark=mark, most=MOST.get(name)))
    return f'<form method="post" action="/">\n{"".join(parts)}<button>Post</button>\n</form>\n'


def page(title, content):
    return f"""<!DOCTYPE html>
<html lang="en"><head><meta charset="utf-8"><meta name="viewport" content="width=device-width, initial-scale=1">
<title>{html.escape(title)}</title><link rel="stylesheet" href="/style.css"></head>
<body><main>
<h1><bdi>{html.escape(title)}</bdi></h1>
{content}</main></body></html>
"""


class Forum:
    """The application. Threads may call at once. It answers to its names alone, so no other site can pass for it."""

    def __init__(self, file=":memory:", names=("127.0.0.1", "localhost")):
        self.names, self.posts = names, sqlite3.connect(file, check_same_thread=False)
        # One text at a time is rendered, since a hostile one may take half of the memory for a moment.
        self.storing, self.rendering = threading.Lock(), threading.Lock()
        self.posts.executescript(TABLE)

    def run(self, statement, *values):
        """Runs a statement, and returns its rows and the number of the last post."""
        with self.storing, self.posts:
            ran = self.posts.execute(statement, values)
            return ran.fetchall(), ran.lastrowid

    def __call__(self, environ, start_response):
        try:
            status, more, body = self.answer(environ)
        except Refused as why:
            status, more, body = why.status, [], page("Refused", f'<p role="alert">{html.escape(str(why))}</p>\n{HOME}')
        kind = "text/css" if environ["PATH_INFO"] == "/style.css" else "text/html"
        start_response(status, [("Content-Type", f"{kind}; charset=utf-8"), *HEADERS, *more])
        return [] if environ["REQUEST_METHOD"] == "HEAD" else [body.encode()]

    def answer(self, environ):
        """Returns the status, headers and body of a request."""
        path, method = environ["PATH_INFO"], environ["REQUEST_METHOD"]
        if environ.get("HTTP_HOST", "").partition(":")[0] not in self.names:
            raise Refused("The forum has another address.", status="421 Misdirected Request")
        if method == "POST":
            return self.post(environ)
        if method not in ("GET", "HEAD"):
            raise Refused("There is no such request.", status="405 Method Not Allowed")
        if path == "/style.css":
            return "200 OK", [("Cache-Control", "max-age=3600")], STYLE
        if path == "/":
            return "200 OK", [], self.list()
        shown = self.show(int(path[1:])) if re.fullmatch("/[0-9]{1,18}", path) else None
        return ("200 OK", [], shown) if shown else ("404 Not Found", [], page("There is no such page", HOME))

    def post(self, environ):
        """Stores a post. Only the forum's form may send one: links in a post ask with GET, which changes nothing."""
        if environ.get("HTTP_ORIGIN") != f"{environ['wsgi.url_scheme']}://{environ['HTTP_HOST']}":
            raise Refused("This didn’t come from the forum’s form.", status="403 Forbidden")
        sent = sent_by(environ)
        try:
            author, title = line(sent, "author"), line(sent, "title")
            with self.rendering:
                made = rendered(sent["text"])
        except Refused as why:
            return why.status, [], page("Not posted", form(sent, why) + HOME)
        _, number = self.run(INSERT, author, title, sent["text"], made)
        return "303 See Other", [("Location", f"/{number}")], ""

    def list(self):
        posts, _ = self.run("SELECT number, title, author FROM post ORDER BY number DESC LIMIT 100")
        link = '<li><a href="/{}"><bdi>{}</bdi></a>, by <bdi>{}</bdi></li>\n'
        items = "".join(link.format(number, html.escape(title), html.escape(author)) for number, title, author in posts)
        return page("Forum", f"<ul>\n{items}</ul>\n<h2>Write</h2>\n{form({})}")

    def show(self, number):
        """Returns the page of a post, or None if there is none. The stored HTML is the only text that isn't escaped."""
        found, _ = self.run("SELECT author, title, html FROM post WHERE number = ?", number)
        if not found:
            return None
        author, title, made = found[0]
        after = f"<footer>by <bdi>{html.escape(author)}</bdi></footer>\n{HOME}"
        return page(title, f"<article>\n{made}</article>\n{after}")


def main():
    words = argparse.ArgumentParser(description=__doc__.partition("\n")[0])
    words.add_argument("file", metavar="FILE", nargs="?", default=":memory:")
    words.add_argument("--port", type=int, default=0, help="the port; a free one if it is omitted")
    asked = words.parse_args()
    try:
        import waitress
    except ImportError:
        sys.exit("forum.py needs waitress: apt install python3-waitress for /usr/bin/python3, or pip install waitress")
    resource.setrlimit(resource.RLIMIT_AS, (MOST_MEMORY, MOST_MEMORY))
    # That requests wait for a thread is no error.
    logging.getLogger("waitress.queue").setLevel(logging.ERROR)
    server = waitress.create_server(Forum(asked.file), host="127.0.0.1", port=asked.port, **SERVING)
    print(f"http://127.0.0.1:{server.effective_port}/", flush=True)
    server.run()


if __name__ == "__main__":
    main()
