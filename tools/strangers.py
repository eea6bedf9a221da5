#!/usr/bin/env python3
"""What `cmk render --safe` writes of random texts: tried with a built cmk, and with a parser of HTML and two of
addresses that aren't cmk's.

  tools/strangers.py PROGRAM [--texts N] [--seed N]

The texts are made of what strangers try: addresses with schemes in many disguises, raw HTML, ends of attributes, info
strings, control characters. They are rendered some thousands at a time, as a file of examples. Python's html.parser has
to find in each output only the elements and attributes of a short list, each closed in its place. Each class has to be
one word for HTML. Each address has to have no scheme or one of http, https and mailto, as urllib.parse reads it and as
a browser does. Without the characters that XML 1.0 forbids each output has to be well-formed XML for expat. Anything
else is reported. Last it says how many texts were tried, and how many of the first ones would be refused without
--safe. The status is 1 if any text is refused.
"""
from __future__ import annotations

import argparse
import html.parser
import os
import random
import re
import subprocess
import sys
import tempfile
import urllib.parse
import xml.parsers.expat
from collections.abc import Callable, Sequence

BATCH = 5000
SCHEMES = {"", "http", "https", "mailto"}
VOID = {"hr", "br", "img"}
FORBIDDEN = re.compile("[\x00-\x08\x0b\x0c\x0e-\x1f\ufffe\uffff]")
ELEMENTS: dict[str, set[str]] = {
    name: set() for name in "p h1 h2 h3 h4 h5 h6 pre blockquote ul li em strong del hr br".split()
}
ELEMENTS |= {"code": {"class"}, "ol": {"start"}, "a": {"href", "title"}, "img": {"src", "alt", "title"}}

WORDS = [
    "a", "b", "c", "é", "日", "x y", "  ", "\u00a0", "\u200b", "\u2028", "\ufeff", "\0", "\x01", "\x0c", "\x1b", "\x7f",
    "\t",
]
ADDRESSES = [
    "javascript:alert(1)", "JaVaScRiPt:a", "JAVASCRIPT:a", "java\tscript:a", "java&Tab;script:a", "java&#9;script:a",
    "java&#10;script:a", "java&#13;script:a", "java&NewLine;script:a", "&#106;avascript:a", "&#x6A;&#x61;vascript:a",
    "javascript&#58;a", "javascript&#x3A;a", "javascript&colon;a", "javascript\\:a", "\\javascript:a", "javascript%3Aa",
    "%6Aavascript:a", "&#1;javascript:a", "\x01javascript:a", "&#32;javascript:a", " javascript:a", "\x0cjavascript:a",
    "&nbsp;javascript:a", "javascript :a", "javascript&#0;:a", "java\0script:a", "javascript://a%0Aalert(1)",
    "vbscript:a", "livescript:a", "data:text/html,<script>a</script>", "data:text/html;base64,PHNjcmlwdD4=", "DATA:a",
    "file:///a", "blob:a", "feed:javascript:a", "view-source:a", "jar:a", "ftp://a", "tel:1", "x:y", ":a", "a:",
    "//a.b:80/c", "/a:b", "?a:b", "#a:b", "a/b:c", "http://a.b", "HTTPS://a.b", "hTTp:a", "ht\ttp:a", "&#9;http:a",
    "http&#58;a", "mailto:a@b.c", "MAILTO:a@b.c", "httpsx:a", "http\u017f:a", "\uff4aavascript:a", "j\u0430vascript:a",
    "", "a", "a(b)c", "a&quot;b", "\"", "a\"onclick=\"b",
]  # fmt: skip
TAGS = [
    "<script>", "</script>", "<ScRiPt >", "<script/src=a>", "<img src=x onerror=alert(1)>", "<svg/onload=alert(1)>",
    "<iframe src=\"", "<style>", "<textarea>", "<title>", "<plaintext>", "<math><mi xlink:href=\"data:x\">",
    "<a href=\"javascript:b\">", "</a>", "<b", "<b>", "</b>", "</p>", "<div>", "<p>", "<base href=\"//a\">",
    "<meta http-equiv=refresh content=0>", "<!--", "-->", "<!-->", "<!--->", "--!>", "<!", "<!DOCTYPE html>", "<?",
    "?>", "<?xml?>", "<![CDATA[", "]]>", "<\0script>", "<a\x0cb>", "\"><script>", "'><b>", "\" onclick=\"a",
    "' onclick='a", "&lt;script&gt;", "&#60;script&#62;", "&#x3c;b>", "&lt", "&amp;lt;", "&quot;", "&#34;", "&", "<",
    ">", "\"", "'", "/>",
]  # fmt: skip
MARKS = [
    "\n", "\n", "\n", "\n\n", "\n\n", "# ", "> ", "- ", "* ", "1. ", "7) ", "    ", "\n```", "\n~~~", "\n```\n",
    "\n~~~\n", "\n===\n", "\n---\n", "***\n", "`", "``", "*", "**", "_", "__", "~~", "\\", "!", "[", "]", "(", ")",
    "](", "][", "![", "  \n", "|",
]  # fmt: skip
INFOS = [
    "a", "a b", "a&#10;b", "a&#13;onclick", "a&#12;b", "a\x0cb", "a\x0bb", "a&#9;b", "&#10;a", "a&nbsp;b", "a\u2028b",
    "a\"b", "a&quot;b", "<b>", "a&#0;b",
]  # fmt: skip
LINKS = [
    "[%t](%a)", "[%t](<%a>)", "[%t](%a \"%t\")", "[%t](%a '%t')", "[%t]( %a )", "![%t](%a)", "![%t](<%a> (%t))", "<%a>",
    "\n\n[%l]: %a\n", "\n\n[%l]: <%a> '%t'\n", "[%t][%l]", "[%l]", "![%l][]", "[![%t](%a)](%a)", "\n```%i\n%t\n```\n",
    "\n~~~ %i\n", "<a href=\"%a\">%t</a>", "<%t %t=\"%a\">",
]  # fmt: skip


class Texts:
    """Random texts."""

    def __init__(self, seed: int) -> None:
        self.random = random.Random(seed)

    def piece(self, depth: int = 2) -> str:
        one_of = self.random.choice
        kind = self.random.random()
        if kind < 0.35 and depth:
            filled: dict[str, Callable[[], str]] = {
                "%t": lambda: self.piece(depth - 1),
                "%a": self.address,
                "%l": lambda: one_of("AB"),
                "%i": lambda: one_of(INFOS),
            }
            return re.sub("%[tali]", lambda found: filled[found[0]](), one_of(LINKS))
        return one_of(TAGS if kind < 0.5 else MARKS if kind < 0.75 else WORDS)

    def address(self) -> str:
        """An address, now and then with a character put into it."""
        address = self.random.choice(ADDRESSES)
        if self.random.random() < 0.2:
            at = self.random.randint(0, len(address))
            address = (
                address[:at] + self.random.choice([*WORDS, "&#%d;" % self.random.randint(0, 127), "\\"]) + address[at:]
            )
        return address

    def text(self) -> str:
        text = "".join(self.piece() for _ in range(self.random.choice([1, 1, 2, 3, 5, 8, 13])))
        # In a file of examples a line of these would end the source, and an arrow would be a tab.
        lines = re.split("\r\n?|\n", text.replace("\u2192", ""))
        return "\n".join("" if line == "." or line.startswith("`" * 32) else line for line in lines)


class Rendered:
    """Outputs of the program, from files of examples that all differ."""

    def __init__(self, program: str, flags: Sequence[str]) -> None:
        self.words = [program, "examples", *flags]

    def of(self, texts: Sequence[str]) -> list[str]:
        mark = f"no output {random.getrandbits(64):x}"
        fence = "`" * 32
        examples = "".join(f"{fence} example\n{text}\n.\n{mark}\n{fence}\n" for text in texts)
        with tempfile.TemporaryDirectory() as folder:
            file = os.path.join(folder, "texts")
            with open(file, "w", encoding="utf-8", newline="") as made:
                made.write(examples)
            ran = subprocess.run([*self.words, file], stdout=subprocess.PIPE, stderr=subprocess.PIPE, check=False)
        report = ran.stdout.decode()
        parts = re.split(rf"^example \d+\nexpected:\n{mark}\ngot:\n", report, flags=re.M)
        if len(parts) != len(texts) + 1:
            sys.exit(f"{len(parts) - 1} outputs of {len(texts)} texts: {ran.stderr.decode()}")
        return [*parts[1:-1], parts[-1].removesuffix(f"0 of {len(texts)} agree\n")]


def scheme_by_a_browser(address: str) -> str:
    """Returns the scheme that a browser finds: it drops controls and spaces at the ends, and tabs and line endings
    anywhere."""
    address = re.sub("[\t\n\r]", "", address.strip("".join(map(chr, range(33)))))
    found = re.match(r"([A-Za-z][A-Za-z0-9+.-]*):", address)
    return found[1].lower() if found else ""


def scheme_by_urllib(address: str) -> str:
    try:
        return urllib.parse.urlsplit(address).scheme.lower()
    except ValueError:
        # A host that is none: what is before it has been read.
        return scheme_by_a_browser(address)


class Page(html.parser.HTMLParser):
    """A reader of an output, with what it finds that may not be there."""

    def __init__(self) -> None:
        super().__init__()
        self.found: list[str] = []
        self.opened: list[str] = []

    def handle_starttag(self, tag: str, attrs: list[tuple[str, str | None]]) -> None:
        allowed = ELEMENTS.get(tag)
        if allowed is None:
            self.found.append(f"the element {tag}")
        self.found += [f"the attribute {name} of {tag}" for name, _ in attrs if name not in (allowed or ())]
        self.found += [f"the {name} {value!r}" for name, value in attrs if not self.is_right(name, value or "")]
        if tag not in VOID:
            self.opened.append(tag)

    def handle_startendtag(self, tag: str, attrs: list[tuple[str, str | None]]) -> None:
        self.handle_starttag(tag, attrs)
        if tag not in VOID:
            self.found.append(f"the element {tag} without content")

    def is_right(self, name: str, value: str) -> bool:
        if name in ("href", "src"):
            return {scheme_by_a_browser(value), scheme_by_urllib(value)} <= SCHEMES
        if name == "class":
            return value.startswith("language-") and len(re.split("[\t\n\f\r ]", value)) == 1
        return name != "start" or value.isdigit()

    def handle_endtag(self, tag: str) -> None:
        if not self.opened or self.opened.pop() != tag:
            self.found.append(f"the end of {tag}")

    def handle_comment(self, data: str) -> None:
        self.found.append("a comment")

    def handle_decl(self, decl: str) -> None:
        self.found.append("a declaration")

    def handle_pi(self, data: str) -> None:
        self.found.append("an instruction")

    def unknown_decl(self, data: str) -> None:
        self.found.append("a section")


def is_xml(output: str) -> bool:
    try:
        xml.parsers.expat.ParserCreate().Parse("<body>" + FORBIDDEN.sub("\ufffd", output) + "</body>", True)
    except xml.parsers.expat.ExpatError:
        return False
    return True


def wrong_in(output: str) -> list[str]:
    """Returns what is in an output and may not be there."""
    page = Page()
    try:
        page.feed(output)
        page.close()
    except AssertionError:
        page.found.append("a declaration that can't be read")
    page.found += [f"{tag} left open" for tag in page.opened]
    return page.found + ([] if is_xml(output) else ["what isn't XML"])


def main() -> int:
    parser = argparse.ArgumentParser(description=__doc__.partition("\n\n")[0])
    parser.add_argument("program", metavar="PROGRAM", help="a built cmk")
    parser.add_argument("--texts", type=int, default=100_000, metavar="N", help="the number of random texts (100000)")
    parser.add_argument("--seed", type=int, default=1, metavar="N", help="where the random numbers start (1)")
    asked = parser.parse_args()
    program = os.path.abspath(asked.program)
    texts, safely, plainly = Texts(asked.seed), Rendered(program, ["--safe"]), Rendered(program, [])
    first = [texts.text() for _ in range(min(BATCH, asked.texts))]
    without = sum(bool(wrong_in(output)) for output in plainly.of(first))
    done = refused = 0
    while done < asked.texts:
        batch = [texts.text() for _ in range(min(BATCH, asked.texts - done))] if done else first
        for text, output in zip(batch, safely.of(batch)):
            wrong = wrong_in(output)
            if wrong:
                refused += 1
                print(f"{text!r}: {', '.join(wrong)}, in {output!r}")
        done += len(batch)
    print(f"{refused} of {done} texts are refused; without --safe {without} of the first {len(first)}")
    return int(refused > 0)


if __name__ == "__main__":
    sys.exit(main())
