#!/usr/bin/env python3
"""The about-filter of cgit: shows the Markdown pages of repositories, whoever writes them. In cgitrc:

  about-filter=/PATH/examples/cgit/about.py
  head-include=/PATH/examples/cgit/head.html
  readme=:README.md
  mimetype.png=image/png
  mimetype.svg=image/svg+xml

cgit calls it with the name of a file, and its text as standard input. Tables, tasks, bare links, ids of headings and
highlighted code are as on GitHub. cgit itself shows what relative links and images lead to. A file that isn't Markdown,
or that the library refuses, is shown as it is.
"""

import argparse
import html
import pathlib
import resource
import sys

sys.path.append(str(pathlib.Path(__file__).resolve().parents[2] / "bindings/python"))
import cmk  # noqa: E402
from cmk import pages  # noqa: E402

PAGES = (".md", ".markdown")
# The page has ids of its own, such as `summary`.
PREFIX = "user-content-"
# References to a long title make the HTML grow with the square of the text, so the memory of the process is limited.
MOST_TEXT, MOST_MEMORY = 1_000_000, 1 << 30


def with_prefix(address: str) -> str:
    """Returns an address, with the prefix if it leads to a heading on another page of the repository."""
    path, _, heading = address.partition("#")
    is_page = heading and ":" not in path and not path.startswith("//") and path.lower().endswith(PAGES)
    return f"{path}#{PREFIX}{heading}" if is_page else address


def rendered(text: str) -> str:
    """Returns the HTML of a Markdown page."""
    _, text = pages.front_matter(text)
    made = pages.render(text, tables=True, tasks=True, bare_links=True, strike=True, bytes=MOST_TEXT)
    made, _ = pages.with_ids(pages.with_addresses(made, link=with_prefix), PREFIX)
    return pages.with_code(pages.with_nofollow(made))


def shown(name: str, given: bytes) -> str:
    """Returns the HTML of the bytes of a file."""
    why, text = "", given.decode(errors="surrogateescape")
    if name.lower().endswith(PAGES):
        try:
            return rendered(text)
        except (cmk.CmkError, MemoryError) as error:
            why = f"<p><strong>{html.escape(str(error) or 'out of memory')}</strong></p>\n"
    return f"{why}<pre>{html.escape(given.decode(errors='replace'))}</pre>\n"


def main() -> None:
    words = argparse.ArgumentParser(description=__doc__.partition(":")[0])
    words.add_argument("name", metavar="NAME", help="the name of the file whose text is standard input")
    name = words.parse_args().name
    resource.setrlimit(resource.RLIMIT_AS, (MOST_MEMORY, MOST_MEMORY))
    made = f'<div class="markdown">\n{shown(name, sys.stdin.buffer.read())}</div>\n'
    sys.stdout.buffer.write(made.encode())


if __name__ == "__main__":
    main()
