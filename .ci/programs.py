"""What .ci/embedding tries of the examples in other programs, over the installed library: cgit, Sphinx, MkDocs, mail,
mutt, and a cluster of Dask. Each is skipped where it isn't installed. Those in Python are Debian's.

Each function yields what it tries, and what is wrong or None.
"""

import concurrent.futures
import contextlib
import email
import email.policy
import json
import os
import pathlib
import re
import shutil
import signal
import subprocess
import time

from tried import TOP, Run

EXAMPLES = TOP / "examples"
PYTHON = "/usr/bin/python3"
CGIT = "/usr/lib/cgit/cgit.cgi"
TABLE = "|a|b|\n|-|-:|\n|*c*|d\\|e|\n"
TEXT = (
    f"# A & *b*\n\n<script>x</script>\n\n[c](d.md#e-f) [g](javascript:h)\n\n{TABLE}\n## E f\n\n```python\nk = 1\n```\n"
)
TOO_DEEP = "> " * 101 + "a\n"
# The longest page of this repository. In Sphinx one of a line takes its place.
LONGEST = "docs/definitions.md"


class Room:
    """A folder that goes away, the variables by which the library is found, and what is run with these."""

    def __init__(self, folder, environment):
        self.folder, self.environment = folder, {**environment, "PYTHONDONTWRITEBYTECODE": "1"}
        self.folder.mkdir()

    def write(self, **texts):
        """Writes files, with `__` in their names for `/` and `_` for `.`, and returns the folder."""
        for name, text in texts.items():
            file = self.folder / name.replace("__", "/").replace("_", ".")
            file.parent.mkdir(parents=True, exist_ok=True)
            file.write_text(text)
        return self.folder

    def run(self, *words, given=b"", **more):
        return Run(words, given, {**self.environment, **more}, self.folder)


def absent(text, *wanted):
    """Returns the first of some parts that a text doesn't have, or None."""
    return next((f"has no {it!r}" for it in wanted if it not in text), None)


def has_module(name):
    return os.path.exists(PYTHON) and Run([PYTHON, "-c", f"import {name}"]).status == 0


def first_table(made):
    """Returns the texts of the cells of the first table in HTML that has a head, a list for each row."""
    table = re.search("<thead.*?</table>", made, re.S)
    rows = re.findall("<tr.*?</tr>", table[0], re.S) if table else []
    return [[re.sub("<[^>]*>", "", it).strip() for it in re.findall("<t[hd].*?</t[hd]>", row, re.S)] for row in rows]


def readme_mistake(made):
    """Returns what is wrong with the table of README.md in a page."""
    rows = re.findall(r"(?m)^\|(?!-)(.*)\|$", (TOP / "README.md").read_text())
    wanted = [[it.replace("`", "").strip() for it in row.split("|")] for row in rows if "---" not in row]
    came = [[it.replace("&amp;", "&") for it in row] for row in first_table(made)]
    return None if came == wanted else f"has the table {came}"


# ---- cgit


class Cgit:
    """cgit over a repository with some files."""

    def __init__(self, room, files, *settings):
        self.room, bare = room, room.folder / "bare.git"
        source = room.folder / "source"
        for name, text in files.items():
            (source / name).parent.mkdir(parents=True, exist_ok=True)
            (source / name).write_bytes(text)
        git = ["git", "-c", "user.name=a", "-c", "user.email=a@b.c", "-c", "init.defaultBranch=main", "-C", source]
        for words in (["init", "-q"], ["add", "-A"], ["commit", "-qm", "a"], ["clone", "-q", "--bare", ".", bare]):
            room.run(*git, *words)
        lines = ["cache-size=0", "virtual-root=/", f"about-filter={EXAMPLES}/cgit/about.py", *settings]
        lines += ["readme=:README.md", "repo.url=wuravina", f"repo.path={bare}", "repo.desc=CommonMark, proved"]
        room.write(cgitrc="".join(f"{it}\n" for it in lines))

    def page(self, path):
        """Returns the page for a path, without its HTTP header, and what was said."""
        asked = {"CGIT_CONFIG": str(self.room.folder / "cgitrc"), "PATH_INFO": path, "REQUEST_METHOD": "GET"}
        ran = self.room.run(CGIT, QUERY_STRING="", **asked)
        return ran.wrote.decode(errors="replace").partition("\n\n")[2], ran.said.decode()


def cgit(room):
    files = {"README.md": TEXT.encode(), "d.md": b"a\xff<b>\n", "e.txt": b"*<f>*\n", "g.md": f"h\n{TOO_DEEP}".encode()}
    program = Cgit(room, files)
    page, said = program.page("/wuravina/about/")
    parts = (
        '<h1 id="user-content-a--b">A &amp; <em>b</em></h1>',
        "&lt;script&gt;",
        "[g](javascript:h)",
        "<td><em>c</em></td>",
    )
    more = ('<a href="d.md#user-content-e-f" rel="nofollow ugc">', 'class="highlight"', '<td align="right">d|e</td>')
    yield "README.md in cgit", said or absent(page, *parts, *more)
    wanted = {"d.md": ("cmk: F1 not UTF-8 at byte 1", "<pre>a�&lt;b&gt;"), "e.txt": ("<pre>*&lt;f&gt;*",)}
    wanted["g.md"] = ("cmk: F3 blocks too deep on line 2", "<pre>h\n&gt;")
    found = {name: absent(program.page(f"/wuravina/about/{name}")[0], *it) for name, it in wanted.items()}
    yield "other files in cgit", "; ".join(f"{name} {mistake}" for name, mistake in found.items() if mistake)


def cgit_readme(room):
    page, said = Cgit(room, {"README.md": (TOP / "README.md").read_bytes()}).page("/wuravina/about/")
    yield "this repository's README.md in cgit", said or readme_mistake(page)


def shown_in_cgit(room):
    """Returns a file with the page of README.md, which a browser can show without a server for cgit."""
    # The folder of the repository is the base of the page's addresses.
    head = room.folder / "head.html"
    head.write_text(f'<base href="{TOP.as_uri()}/">\n{(EXAMPLES / "cgit/head.html").read_text()}')
    style = pathlib.Path("/usr/share/cgit")
    settings = [f"head-include={head}", f"css={style.as_uri()}/cgit.css", f"logo={style.as_uri()}/cgit.png"]
    page, _ = Cgit(room, {"README.md": (TOP / "README.md").read_bytes()}, *settings).page("/wuravina/about/")
    (room.folder / "page.html").write_text(page)
    return room.folder / "page.html"


def shown_in_sphinx(room):
    """Returns the same of Sphinx."""
    return built_pages(room)[1]


# ---- Sphinx


def conf(*lines):
    path = f"import sys\nsys.path.append({str(EXAMPLES / 'sphinx')!r})\nextensions = ['cmk_sphinx']\n"
    return path + "".join(f"{it}\n" for it in lines)


def sphinx(room):
    directives = "``` {note}\nm ``n``\n```\n\n``` {toctree}\nd\n```\n"
    index = f"{TEXT}\n[i](#a--b) [j](conf.py) a\\\nb ~~k~~\n\n> ## L\n\n---\n\n{directives}"
    settings = conf("cmk_options = {'safe': True, 'strike': True}")
    room.write(index_md=index, d_md="# D\n\n## E f\n", conf_py=settings)
    sphinx_build = [PYTHON, "-m", "sphinx", "-q", "-b"]
    ran = room.run(*sphinx_build, "html", "-W", ".", "made")
    made = (room.folder / "made/index.html").read_text() if not ran.status else ""
    parts = (
        'href="d.html#e-f"',
        "&lt;script&gt;",
        'class="highlight-python',
        '<section id="a--b">',
        'href="#a--b"',
        "<del>k</del>",
    )
    more = (
        "<em>c</em>",
        '<td class="text-right"><p>d|e</p></td>',
        'class="admonition note"',
        "toctree-l1",
        "_downloads/",
    )
    yield "a page in Sphinx", ran.mistake() or absent(made, *parts, *more)
    ran = room.run(*sphinx_build, "text", ".", "plain")
    text = (room.folder / "plain/index.txt").read_text() if not ran.status else ""
    yield "its table as text", ran.mistake() or absent(text, "| *c*", "| d|e")
    room.write(index_md="# A\n", d_md=f"# D\n\n{TOO_DEEP}")
    said = room.run(*sphinx_build, "html", ".", "made").said.decode()
    yield "an error in Sphinx", absent(said, "d.md:3: ERROR: cmk: F3 blocks too deep on line 3")
    room.write(d_md="# D\n\n[a](b.md)\n[c](#d1)\n\n[e](f)\n\n``` {image} g\n:h: i\n```\n\n``` {k}\n```\n")
    said = room.run(*sphinx_build, "html", "-E", ".", "made").said.decode()
    lines = (
        "d.md:3: WARNING: unknown document: '/b'",
        "d.md:3: WARNING: undefined label: 'd#d1'",
        "d.md:6: WARNING: download file",
    )
    more = ('d.md:8: ERROR: Error in "image" directive', 'd.md:12: ERROR: Unknown directive type "k"')
    yield "the lines of warnings in Sphinx", absent(said, *lines, *more)


def sphinx_pages(room):
    ran, page = built_pages(room)
    yield "this repository's pages in Sphinx", ran.mistake() or readme_mistake(re.sub("</?p>", "", page.read_text()))


def built_pages(room):
    """Has Sphinx build this repository's pages, and returns how that went, and README.md there."""
    to = room.folder / "pages"
    to.mkdir()
    for name in {it.name for it in TOP.iterdir()} - {"docs", "examples", "out", "dist", ".git"}:
        (to / name).symlink_to(TOP / name)
    shutil.copytree(TOP / "docs", to / "docs")
    (to / LONGEST).write_text("# Definitions\n")
    theme = {"page_width": "1160px", "body_max_width": "920px", "description": "CommonMark, proved"}
    left_out = ["bench/out", "bindings", "packaging"]
    lines = ("project = 'Wuravina'", f"html_theme_options = {theme}", f"exclude_patterns = {left_out}")
    (to / "conf.py").write_text(conf(*lines, "suppress_warnings = ['misc.highlighting_failure']"))
    (to / "index.md").write_text("# A\n\n```{toctree}\n:glob:\n\n*\n*/*\ncrates/cmk/runs\n```\n")
    ran = room.run(PYTHON, "-m", "sphinx", "-q", "-W", "--keep-going", "-b", "html", to, "made")
    return ran, room.folder / "made/README.html"


# ---- MkDocs


def mkdocs(room):
    settings = f"site_name: a\nhooks: [{EXAMPLES}/mkdocs/cmk_mkdocs.py]\n"
    room.write(
        mkdocs_yml=settings,
        docs__index_md=f"---\ntitle: x\n---\n{TEXT}\n[i](sub/j.md) ![k](l.png)\n",
        docs__d_md="# D\n\n## E f\n",
    )
    readme = re.sub(r"\]\((?!http)[^()]*\)", "](https://a.b/)", (TOP / "README.md").read_text())
    room.write(docs__sub__j_md=readme, docs__l_png="")
    build = [PYTHON, "-m", "mkdocs", "build", "--strict"]
    ran = room.run(*build)
    parts = (
        'href="d/#e-f"',
        'href="#e-f" class="nav-link"',
        '<h2 id="e-f">',
        "&lt;script&gt;",
        "<td><em>c</em></td>",
        'href="sub/j/"',
    )
    made, other = (
        (room.folder / f"site/{it}index.html").read_text() if not ran.status else "" for it in ("", "sub/j/")
    )
    yield "a page in MkDocs", ran.mistake() or absent(made, *parts, 'src="l.png"')
    yield "this repository's README.md in MkDocs", ran.mistake() or readme_mistake(other)
    room.write(docs__d_md="[a](b.md)\n")
    yield "a missing page in MkDocs", absent(
        room.run(*build).said.decode(), "d.md has a link to b.md, which isn't there"
    )
    room.write(docs__d_md=TOO_DEEP)
    yield "an error in MkDocs", absent(room.run(*build).said.decode(), "d.md: cmk: F3 blocks too deep on line 1")


# ---- mail

MAIL = b"*a*\n\n|b|\n|-|\n\nc\n-- \nd <e>\n"
IN_HTML = ("<p><em>a</em></p>", "<th>b</th>", "<p>c</p>", "<pre><code>-- \nd &lt;e&gt;\n</code></pre>")


def read(mail):
    return email.message_from_bytes(mail, policy=email.policy.default)


def mail_mistake(given, letter="c"):
    """Returns what is wrong with a mail that has to have two alternatives, with this letter instead of `c`."""
    mail = read(given)
    plain, made = mail.get_body(("plain",)), mail.get_body(("html",))
    if not plain or not made:
        return f"has the parts {[it.get_content_type() for it in mail.walk()]}"
    if plain.get_content().strip() != MAIL.decode().replace("c", letter).strip():
        return f"has the text {plain.get_content()!r}"
    return absent(made.get_content(), *(it.replace("<p>c", f"<p>{letter}") for it in IN_HTML))


def sendmail(room):
    """Returns the words of a sendmail that leaves a mail in the file `sent`."""
    room.write(send=f"#!/bin/sh\ncat >{room.folder}/sent\n")
    (room.folder / "send").chmod(0o755)
    return [PYTHON, EXAMPLES / "mail/alternative.py", "send", room.folder / "send"]


def typed(kind, body):
    """Returns a mail of a type, but for its first headers."""
    return b"MIME-Version: 1.0\nContent-Type: " + kind + b"\n\n" + body


# Mails that get HTML, and mails that stay as they are.
WITH_HTML = {
    "plain": b"\n" + MAIL,
    "in ISO 8859-1": typed(
        b"text/plain; charset=iso-8859-1\nContent-Transfer-Encoding: 8bit", MAIL.replace(b"c", b"\xe4")
    ),
    "with an attachment": typed(
        b'multipart/mixed; boundary="f"',
        b"--f\n\n" + MAIL + b"\n--f\nContent-Type: text/x-g\nContent-Disposition: attachment\n\n*h*\n--f--\n",
    ),
}
WITHOUT = {
    "HTML": typed(b"text/html", b"*a*\n"),
    "signed": typed(b'multipart/signed; boundary="f"', b"--f\n\n*a*\n--f\nContent-Type: text/x-g\n\nb\n--f--\n"),
    "too deep": b"\n" + TOO_DEEP.encode(),
    "of unknown letters": typed(b"text/plain; charset=x-a", b"*a*\n"),
}


def mail(room):
    words, sent = sendmail(room), room.folder / "sent"
    head = b"From: a@b.c\nSubject: =?utf-8?q?d?=\n e\nX-F: " + b"f " * 50 + b"g\n"
    for name, given in WITH_HTML.items():
        ran = room.run(*words, given=head + given)
        came = sent.read_bytes()
        kept = None if came.startswith(head) else f"starts with {came[:60]}"
        yield f"a mail {name}", ran.mistake() or kept or mail_mistake(came, "ä" if "ISO" in name else "c")
    for name, given in WITHOUT.items():
        room.run(*words, given=head + given)
        yield f"a mail {name}", None if sent.read_bytes() == head + given else f"is {sent.read_bytes()}"
    ran = room.run(PYTHON, EXAMPLES / "mail/alternative.py", "text", given=MAIL)
    yield "the text of a mail", ran.mistake() or absent(ran.wrote.decode(), *IN_HTML)


def mutt(room):
    words, to_html = sendmail(room), f"{PYTHON} {EXAMPLES}/mail/alternative.py mutt"
    filtered = f'send_multipart_alternative=yes send_multipart_alternative_filter="{to_html}"'
    both = {
        "a filter": f"sendmail={room.folder}/send {filtered}",
        "a sendmail": 'sendmail="{}"'.format(" ".join(map(str, words))),
    }
    for name, settings in both.items():
        room.write(muttrc=f"set from=a@b.c copy=no {settings}\n")
        ran = room.run("mutt", "-F", "muttrc", "-s", "d", "e@f.g", given=MAIL)
        sent = room.folder / "sent"
        yield f"mutt with {name}", ran.mistake() or mail_mistake(sent.read_bytes() if sent.exists() else b"")
        sent.unlink(missing_ok=True)


# ---- a corpus


# How many shards of how many texts; a third of the shards is rendered twice.
SHARDS, TEXTS = 30, 3000


def write_shards(folder):
    """Writes shards of texts, every tenth with an error."""
    folder.mkdir()
    for shard in range(SHARDS):
        lines = ({"n": n, "text": TOO_DEEP if n % 10 == 0 else f"*{shard}* " * 40} for n in range(TEXTS))
        (folder / f"{shard:03}.jsonl").write_text("".join(f"{json.dumps(it)}\n" for it in lines))


def files_in(folder):
    return {it.name: it.read_bytes() for it in folder.iterdir()}


@contextlib.contextmanager
def cluster(room):
    """Runs a cluster, and yields its address and the numbers of its workers' processes."""
    how = {"stdin": subprocess.PIPE, "stdout": subprocess.PIPE, "text": True, "cwd": room.folder}
    environment = {**os.environ, **room.environment, "PYTHONPATH": str(TOP / ".ci/embedded/planted")}
    process = subprocess.Popen(
        [PYTHON, TOP / ".ci/embedded/cluster.py"], env=environment, stderr=subprocess.DEVNULL, **how
    )
    try:
        address, *numbers = process.stdout.readline().split()
        yield address, [int(it) for it in numbers]
    finally:
        process.stdin.close()
        process.wait(60)
        process.stdout.close()


def corpus(room):
    write_shards(room.folder / "from")
    words = [PYTHON, EXAMPLES / "corpus/corpus.py"]
    alone = room.run(*words, "--workers", "0", "from", "alone")
    wanted = files_in(room.folder / "alone")
    line = '{"n": 0, "error": {"name": "BLOCKS_TOO_DEEP", "place": 1, "line": "cmk: F3 blocks too deep on line 1"}}'
    first = wanted.get("000.jsonl", b"").decode().split("\n")
    is_right = first[0] == line and len(first) == TEXTS + 1
    yield "a corpus in one process", alone.mistake() or (None if is_right else f"is {first[0]}")
    with cluster(room) as (address, numbers):
        yield from on_cluster(room, [*words, "--scheduler", address], numbers, wanted)


def on_cluster(room, words, numbers, wanted):
    """Has a corpus rendered while a worker is killed, again where that is half done, and with a text that kills."""
    made = room.folder / "made"
    running = subprocess.Popen(
        [*map(str, words), "from", made],
        cwd=room.folder,
        env={**os.environ, **room.environment},
        stdout=subprocess.PIPE,
        stderr=subprocess.DEVNULL,
    )
    while running.poll() is None and not [*made.glob("*.jsonl")]:
        time.sleep(0.01)
    was_running = running.poll() is None
    os.kill(numbers[0], signal.SIGKILL)
    wrote, _ = running.communicate(timeout=120)
    mistake = f"status {running.returncode}: {wrote}" if running.returncode else None
    mistake = mistake or (None if was_running else "was whole before the worker was killed")
    yield "a corpus with a killed worker", mistake or (None if files_in(made) == wanted else "differs")
    for name in sorted(wanted)[::3]:
        (made / name).unlink()
    ran = room.run(*words, "from", made)
    again, count = len(wanted) // 3, len(wanted) // 3 * TEXTS
    counts = f"{SHARDS - again} shards were there; {again} of {again} shards, 0 without a file; {count:,} texts"
    mistake = ran.mistake() or absent(ran.wrote.decode(), counts)
    yield "a corpus that goes on", mistake or (None if files_in(made) == wanted else "differs")
    killing = [{"text": "*b*"}, {"n": 1, "text": "KILL"}, {"text": "c"}]
    room.write(some__a_jsonl="".join(f"{json.dumps(it)}\n" for it in killing), some__d_jsonl='{"text": 1}\n')
    room.write(some__e_jsonl='{"n": "\\ud800", "text": "MEMORY"}\n')
    ran = room.run(*words, "some", "killed")
    came = {
        name: [json.loads(it) for it in lines.splitlines()] for name, lines in files_in(room.folder / "killed").items()
    }
    error = {"name": "KILLED", "place": 0, "line": "the process that rendered it ended with 7"}
    right = [{"html": "<p><em>b</em></p>\n"}, {"n": 1, "error": error}, {"html": "<p>c</p>\n"}]
    told = absent(ran.said.decode(), "a.jsonl: lost its workers")
    yield "a text that kills workers", told or (None if came.pop("a.jsonl", []) == right else f"gives {came}")
    told = absent(f"{ran.status} {ran.said.decode()}", "1 ", "d.jsonl: TypeError")
    yield "a shard without a text", told or ("has a file" if "d.jsonl" in came else None)
    memory = [{"n": "\ud800", "html": "<p>MEMORY</p>\n"}]
    yield "a text without memory at first", None if came.get("e.jsonl") == memory else f"gives {came.get('e.jsonl')}"


PARTS = {
    cgit: lambda: os.path.exists(CGIT),
    cgit_readme: lambda: os.path.exists(CGIT),
    sphinx: lambda: has_module("sphinx"),
    sphinx_pages: lambda: has_module("sphinx"),
    mkdocs: lambda: has_module("mkdocs"),
    mail: lambda: os.path.exists(PYTHON),
    mutt: lambda: shutil.which("mutt"),
    corpus: lambda: has_module("distributed"),
}


def programs(points, folder, environment):
    """Tries all at the same time."""
    with concurrent.futures.ThreadPoolExecutor() as pool:
        tried = [
            (part, is_there() and pool.submit(lambda part: [*part(Room(folder / part.__name__, environment))], part))
            for part, is_there in PARTS.items()
        ]
    for part, came in tried:
        if not came:
            points.skip(f"examples in {part.__name__}", part.__name__)
            continue
        for name, mistake in came.result():
            points.say(name, mistake)
