"""What a page needs besides the HTML of its text, as functions from HTML to HTML.

    >>> from cmk import pages
    >>> made = pages.render("# A *b*\\n\\n- [x] see www.c.de\\n", tasks=True, bare_links=True)
    >>> made, headings = pages.with_ids(pages.with_nofollow(made))
    >>> print(made, end="")
    <h1 id="user-content-a-b">A <em>b</em></h1>
    <ul>
    <li><input type="checkbox" checked="" disabled="" /> see \
<a href="http://www.c.de" rel="nofollow ugc">www.c.de</a></li>
    </ul>
    >>> headings
    [Heading(level=1, id='user-content-a-b', text='A b')]

`render` makes the HTML with the safe rules, or at least without raw HTML. In it each `<` starts a tag that the library
writes, and nothing in a text or an attribute looks like one; that is proved (docs/proved.md). So a pattern finds just
these tags, whatever the text says. The functions here rely on it, keep it, and take only such HTML: a `SafeHtml`, which
nothing else makes. That they do what they say is tested, not proved.
"""

import html
import re
import unicodedata
import urllib.parse
from collections.abc import Callable, Iterable
from typing import TYPE_CHECKING, Any, NamedTuple, Optional

import cmk

from . import _github
from ._github import escaped, escaped_address

if TYPE_CHECKING:
    from typing_extensions import Unpack

# fmt: off
__all__ = [
    "Heading", "SafeHtml", "contents", "front_matter", "heading_ids", "highlighted", "page", "parse", "render", "title",
    "with_addresses", "with_code", "with_ids", "with_lower_headings", "with_nofollow",
]
# fmt: on

# What the library writes, and what the functions here have added to it.
_TAG = re.compile("<[^>]*>")
_HEADING = re.compile(r'<h([1-6])(?: id="[^"]*")?>(.*?)</h\1>', re.S)
_UNNAMED_HEADING = re.compile(r"<h([1-6])>(.*?)</h\1>", re.S)
_HEADING_LEVEL = re.compile("(</?h)([1-6])")
_ADDRESS = re.compile('<(a href|img src)="([^"]*)"')
_FRAGMENT = re.compile('<a href="#([^"]*)"')
_LINK = re.compile('(<a href="[^"]*"(?: title="[^"]*")?)>')
_IMAGE = re.compile('<img src="[^"]*" alt="([^"]*)"[^>]*>')
_CODE = re.compile('<pre><code class="language-([^"]*)">([^<]*)</code></pre>')
# What a highlighter may write: text, and spans that have a class and only text in them.
_HIGHLIGHTED = re.compile(r'(?:[^<]|<span class="[\w -]*">[^<]*</span>)*')
_FRONT_MATTER = re.compile(
    r"(?:(---)|\+\+\+)[ \t]*\r?\n((?![ \t]*\r?$).*?^)?(?(1)(?:---|\.\.\.)|\+\+\+)[ \t]*\r?$\n?", re.M | re.S
)
# The languages of `highlighted`. 4,000 characters of 150 pieces of code, each over and over, took their lexers at most
# 2 seconds. Those of other languages may never end, or call that of any language which the code names.
_LANGUAGES = frozenset(
    """bash c c++ cpp csharp css dart diff docker dockerfile elixir go graphql haskell html ini java javascript js json
    julia kotlin lua makefile nginx ocaml perl php powershell py python r rb rs ruby rust scala scheme sh shell sql
    swift toml ts typescript vim xml yaml zig""".split()
)
# The least length that a block of code counts as.
_LEAST_COUNTED = 100
# The categories of characters that an id may have besides `-`.
_IN_IDS = {"Lu", "Ll", "Lt", "Lm", "Lo", "Mn", "Mc", "Me", "Nd", "Nl", "Pc"}


class SafeHtml(str):
    """HTML in which each `<` starts a tag that the library or this module writes.

    Only `render`, and the functions that take it, make it. Jinja and Django leave it as it is. Whatever else is made of
    it, such as a slice or a copy by pickle, is a plain `str`.

    >>> made = render("<b>")
    >>> with_nofollow(made + "<a href='/'>")
    Traceback (most recent call last):
    TypeError: this takes the HTML that cmk.pages.render makes, and not a str
    """

    __slots__ = ()

    def __new__(cls, *_: object) -> "SafeHtml":
        raise TypeError("cmk.pages.render makes SafeHtml")

    def __html__(self) -> str:
        return str(self)

    def __reduce__(self) -> tuple[type[str], tuple[str]]:
        return (str, (str(self),))


class Heading(NamedTuple):
    """A heading: its level, 1 to 6, its id and its text."""

    level: int
    id: str
    text: str


def _safe(made: str) -> SafeHtml:
    return str.__new__(SafeHtml, made)


def _checked(made: SafeHtml) -> str:
    """Returns the HTML if it is safe."""
    if type(made) is not SafeHtml:
        raise TypeError(f"this takes the HTML that cmk.pages.render makes, and not a {type(made).__name__}")
    return str(made)


def _text(made: str) -> str:
    """Returns the text of inline HTML, with the descriptions of its images."""
    return html.unescape(_TAG.sub("", _IMAGE.sub(r"\1", made)))


def render(
    text: cmk.Source,
    *,
    tables: bool = False,
    tasks: bool = False,
    bare_links: bool = False,
    **options: "Unpack[cmk.Options]",
) -> SafeHtml:
    """Returns the HTML of a text, as `cmk.html` with `safe` does, and if asked for with what GitHub adds to CommonMark.

    >>> print(render("|a|b|\\n|-|:-:|\\n|*c*|d\\\\|e|\\n", tables=True), end="")
    <table>
    <thead>
    <tr>
    <th>a</th>
    <th align="center">b</th>
    </tr>
    </thead>
    <tbody>
    <tr>
    <td><em>c</em></td>
    <td align="center">d|e</td>
    </tr>
    </tbody>
    </table>

    - `tables`: a line of a paragraph, and the next one if it is like `|---|:-:|` and has as many cells, start a table,
      which the other lines of the paragraph are the rows of. `\\|` is a bar in a cell, also in code.
    - `tasks`: `[ ]` or `[x]` at the start of an item is a checkbox.
    - `bare_links`: `http://`, `https://` and `www.` start a link, up to the next space, without final punctuation.

    `options` are those of `cmk.html`. With `safe=False` there has to be `no_html=True`; links then lead anywhere.
    Otherwise a text could write tags, and this raises a `ValueError`. Tables and tasks read the text twice or three
    times, and only if it has any.
    """
    asked: Any = {"safe": True, **options}
    if not (asked["safe"] or asked.get("no_html")):
        raise ValueError("cmk.pages needs HTML without raw HTML of the text: give safe or no_html")
    made = cmk.html(text, **asked)
    if tables or tasks:
        made = _github.html_of(cmk._encoded(text).decode(), made, tables, tasks, asked)
    return _safe(_github.with_bare_links(made) if bare_links else made)


def parse(
    text: cmk.Source, *, tables: bool = False, tasks: bool = False, **options: "Unpack[cmk.Options]"
) -> cmk.Root:
    """Returns the tree of a text, as `cmk.parse` with `options` does, with the tables and tasks of `render`.

    They are as mdast has them. A `table` has `align`, with "left", "right", "center" or None for each column, and
    `lines`; in it are the nodes `tableRow`, the head first, and in these `tableCell`. A `listItem` that is a task has
    `checked`.

    >>> [it["type"] for it in cmk.walk(parse("|*a*|\\n|-:|\\n", tables=True))]
    ['root', 'table', 'tableRow', 'tableCell', 'emphasis', 'text']
    """
    tree = cmk.parse(text, **options)
    return _github.tree_of(cmk._encoded(text).decode(), tree, tables, tasks, options)


def front_matter(text: str) -> tuple[Optional[str], str]:
    """Returns the front matter of a text, or None, and the text with blank lines instead, so lines keep their numbers.

    Front matter is what is between a first line `---` and the next one, or `...`; or between two lines `+++`. No blank
    line may follow the first. Without this, `---` is a break, and what follows is a heading.

    >>> front_matter("---\\ntitle: A\\n---\\n# B\\n")
    ('title: A\\n', '\\n\\n\\n# B\\n')
    """
    found = _FRONT_MATTER.match(text)
    if not found:
        return None, text
    return found[2] or "", "\n" * found[0].count("\n") + text[found.end() :]


def with_ids(made: SafeHtml, prefix: str = "user-content-") -> tuple[SafeHtml, list[Heading]]:
    """Returns the HTML with an id for each heading, and the headings.

    An id is the prefix and the text in small letters, with `-` for spaces and without punctuation, as GitHub makes it;
    `-1`, `-2` and so on tell equal ones apart. The prefix keeps users from choosing ids that the page has, and links of
    the text to such an id get it too.

    >>> with_ids(render("# Größe, *neu*\\n\\n[a](#größe-neu)\\n"), "text-")[0]
    '<h1 id="text-größe-neu">Größe, <em>neu</em></h1>\\n<p><a href="#text-gr%C3%B6%C3%9Fe-neu">a</a></p>\\n'
    """
    found: list[Heading] = []
    ids = heading_ids(html.unescape(_TAG.sub("", it[2])) for it in _UNNAMED_HEADING.finditer(_checked(made)))
    names, left = {*ids}, iter(ids)

    def named(match: re.Match[str]) -> str:
        found.append(Heading(int(match[1]), prefix + next(left), " ".join(_text(match[2]).split())))
        return f'<h{match[1]} id="{html.escape(found[-1].id)}">{match[2]}</h{match[1]}>'

    def led(match: re.Match[str]) -> str:
        name = urllib.parse.unquote(html.unescape(match[1]))
        return f'<a href="{_fragment(prefix + name)}"' if name in names else match[0]

    whole = _UNNAMED_HEADING.sub(named, _checked(made))
    return _safe(_FRAGMENT.sub(led, whole)), found


def heading_ids(texts: Iterable[str]) -> list[str]:
    """Returns the ids of headings with these texts, as `with_ids` makes them, without a prefix.

    >>> heading_ids(["A & b", "C", "C"])
    ['a--b', 'c', 'c-1']
    """
    counts: dict[str, int] = {}
    for text in texts:
        name = unique = _name(text)
        while unique in counts:
            counts[name] += 1
            unique = f"{name}-{counts[name]}"
        counts[unique] = 0
    return [*counts]


def _name(text: str) -> str:
    """Returns the id of a heading as GitHub makes it: letters, marks, digits, `_` and `-` stay."""
    kept = (it for it in text.lower().replace("\n", " ") if it in " -" or unicodedata.category(it) in _IN_IDS)
    return "".join(kept).replace(" ", "-") or "section"


def _fragment(name: str) -> str:
    return "#" + escaped_address(name)


def contents(headings: Iterable[Heading]) -> SafeHtml:
    """Returns a table of contents: a list of links to headings, with a list inside for those of a lower level.

    >>> print(contents(with_ids(render("# A\\n\\n### B\\n\\n# C\\n"), "")[1]), end="")
    <ul>
    <li><a href="#a">A</a>
    <ul>
    <li><a href="#b">B</a></li>
    </ul>
    </li>
    <li><a href="#c">C</a></li>
    </ul>
    """
    made: list[str] = []
    levels: list[int] = []
    for it in headings:
        while len(levels) > 1 and levels[-2] >= it.level:
            levels.pop()
            made.append("</li>\n</ul>\n")
        if levels and levels[-1] >= it.level:
            levels[-1] = it.level
            made.append("</li>\n")
        else:
            made.append("\n<ul>\n" if levels else "<ul>\n")
            levels.append(it.level)
        made.append(f'<li><a href="{_fragment(it.id)}">{escaped(it.text)}</a>')
    return _safe("".join(made) + "</li>\n</ul>\n" * len(levels))


def title(made: SafeHtml) -> Optional[str]:
    """Returns the text of the first heading of level 1, or None.

    >>> title(render("a\\n\\n# B &amp; *c*\\n"))
    'B & c'
    """
    texts = (it[2] for it in _HEADING.finditer(_checked(made)) if it[1] == "1")
    return next((" ".join(_text(it).split()) for it in texts), None)


def with_lower_headings(made: SafeHtml, levels: int = 1) -> SafeHtml:
    """Returns the HTML with headings some levels lower, at most on level 6, for a page that has headings of its own.

    >>> with_lower_headings(render("# A\\n"))
    '<h2>A</h2>\\n'
    """
    return _safe(_HEADING_LEVEL.sub(lambda it: f"{it[1]}{min(6, int(it[2]) + levels)}", _checked(made)))


def with_addresses(
    made: SafeHtml, link: Optional[Callable[[str], str]] = None, image: Optional[Callable[[str], str]] = None
) -> SafeHtml:
    """Returns the HTML with what the functions make of the address of each link and of each image.

    Links to a place of the same page, which start with `#`, stay. `urllib.parse.urljoin` leaves addresses that aren't
    relative as they are. Nothing looks at what a function returns, so it has to lead where a page may lead.

    >>> with_addresses(render("[a](b.md) ![c](d.png)"), link=lambda it: urllib.parse.urljoin("/blob/main/", it))
    '<p><a href="/blob/main/b.md">a</a> <img src="d.png" alt="c" /></p>\\n'
    """
    changes = {"a href": link, "img src": image}

    def other(match: re.Match[str]) -> str:
        change = changes[match[1]]
        if not change or match[2].startswith("#"):
            return match[0]
        return f'<{match[1]}="{escaped(change(html.unescape(match[2])))}"'

    return _safe(_ADDRESS.sub(other, _checked(made)))


def with_nofollow(made: SafeHtml) -> SafeHtml:
    """Returns the HTML with links that search engines don't follow.

    >>> with_nofollow(render("[a](/b)"))
    '<p><a href="/b" rel="nofollow ugc">a</a></p>\\n'
    """
    return _safe(_LINK.sub(r'\1 rel="nofollow ugc">', _checked(made)))


def highlighted(language: str, code: str) -> Optional[str]:
    """Returns the HTML that Pygments makes of code, or None if it isn't installed, or the language isn't a common one.

    Some lexers of Pygments never end with some texts, so it uses those of some fifty languages that were tried. For
    texts that you trust, give `with_code` a function of your own.
    """
    if language.lower() not in _LANGUAGES:
        return None
    try:
        import pygments  # type: ignore[import]
        from pygments.formatters import HtmlFormatter  # type: ignore[import]
        from pygments.lexers import get_lexer_by_name  # type: ignore[import]
    except ImportError:
        return None
    try:
        lexer = get_lexer_by_name(language, stripnl=False, ensurenl=False)
    except pygments.util.ClassNotFound:
        return None
    made: str = pygments.highlight(code, lexer, HtmlFormatter(nowrap=True))
    return made


def with_code(
    made: SafeHtml, highlight: Callable[[str, str], Optional[str]] = highlighted, most: int = 5_000
) -> SafeHtml:
    """Returns the HTML with what `highlight(language, code)` makes of each code block that has a language.

    What it makes is used only if it is that code with spans that have a class. The block is then in
    `<div class="highlight">`, which is what the style sheets of Pygments are for.

    `most` is the length of the longest block. Pygments takes time in the square of the length of some texts, such as
    2 seconds for 5,000 blank lines of C. So the squares of the lengths are added up, and once they are more than that
    of `most`, blocks stay as they are.

    >>> with_code(render("```a\\nb\\n```\\n"), lambda language, code: f'<span class="k">{code}</span>')
    '<div class="highlight"><pre><code class="language-a"><span class="k">b\\n</span></code></pre></div>\\n'
    """
    left = most**2

    def other(match: re.Match[str]) -> str:
        nonlocal left
        code = html.unescape(match[2])
        cost = max(len(code), _LEAST_COUNTED) ** 2
        if cost > left:
            return match[0]
        left -= cost
        spans = highlight(html.unescape(match[1]), code)
        if not spans or not _HIGHLIGHTED.fullmatch(spans) or html.unescape(_TAG.sub("", spans)) != code:
            return match[0]
        return f'<div class="highlight"><pre><code class="language-{match[1]}">{spans}</code></pre></div>'

    return _safe(_CODE.sub(other, _checked(made)))


def page(*content: SafeHtml, title: str, lang: str = "en", head: str = "") -> str:
    """Returns a whole page. `head` is HTML of your own, such as a `<link>` to a style sheet; the title is text.

    Serve it with `Content-Type: text/html; charset=utf-8`.

    >>> print(page(render("a"), title="b & c"), end="")
    <!DOCTYPE html>
    <html lang="en">
    <head>
    <meta charset="utf-8" />
    <meta name="viewport" content="width=device-width, initial-scale=1" />
    <title>b &amp; c</title>
    </head>
    <body>
    <p>a</p>
    </body>
    </html>
    """
    return f"""<!DOCTYPE html>
<html lang="{html.escape(lang)}">
<head>
<meta charset="utf-8" />
<meta name="viewport" content="width=device-width, initial-scale=1" />
<title>{escaped(title)}</title>
{head}</head>
<body>
{''.join(map(_checked, content))}</body>
</html>
"""
