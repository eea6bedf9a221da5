"""Pages of MkDocs 1.4 or later by libcmk. In mkdocs.yml:

  hooks: [/PATH/examples/mkdocs/cmk_mkdocs.py]

A page is CommonMark with tables, tasks and bare links as on GitHub. Its raw HTML is text. Links and images lead to the
files that MkDocs makes; one whose file is missing is a warning, and so an error with `mkdocs build --strict`. A page
that the library refuses ends the build.
"""

import logging
import pathlib
import posixpath
import sys
import urllib.parse

from mkdocs.exceptions import PluginError
from mkdocs.structure.toc import get_toc

sys.path.append(str(pathlib.Path(__file__).resolve().parents[2] / "bindings/python"))
import cmk  # noqa: E402
from cmk import pages  # noqa: E402

log = logging.getLogger("mkdocs.cmk")
# The text of the page between the two calls for it.
texts = {}


def on_page_markdown(markdown, page, **_):
    """Keeps the text, and leaves nothing for Python-Markdown."""
    texts[page.file.src_uri] = markdown
    return ""


def on_page_content(html, page, config, files):
    """Returns the HTML of the text, and sets the page's table of contents."""
    name = page.file.src_uri
    try:
        made = pages.render(texts.pop(name), tables=True, tasks=True, bare_links=True, strike=True)
    except cmk.CmkError as error:
        raise PluginError(f"{name}: {error.line}") from error

    def address(given):
        """Returns where a link or an image leads in what MkDocs makes."""
        path, sign, heading = given.partition("#")
        if not path or ":" in path or path.startswith("/"):
            return given
        target = posixpath.normpath(posixpath.join(posixpath.dirname(name), urllib.parse.unquote(path)))
        file = files.get_file_from_path(target)
        if file:
            return file.url_relative_to(page.file) + sign + heading
        log.warning("%s has a link to %s, which isn't there", name, target)
        return given

    made, headings = pages.with_ids(pages.with_addresses(made, link=address, image=address), prefix="")
    page.toc = get_toc(nested(headings))
    return made


def nested(headings):
    """Returns the headings as MkDocs takes them, each in the one above it."""
    root, above = [], []
    for it in headings:
        while above and above[-1]["level"] >= it.level:
            above.pop()
        token = {"level": it.level, "id": it.id, "name": it.text, "children": []}
        (above[-1]["children"] if above else root).append(token)
        above.append(token)
    return root
