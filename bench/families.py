"""Families of texts in which a reader may search the same bytes again and again. bench/slow_texts measures how its time
grows with them.

A text is an expression of Python in `n`, the number of repetitions, so that its name is all that is needed to write it.
Left out are texts whose output grows faster than they do: many references to a long target (.ci/long_targets).
"""

import functools
import itertools
import typing

from hostile import hostile as hostile_texts

# Each set of rules takes another way through the code: comments end in another way with the older ones, and an address
# that isn't followed is a search that succeeds in vain.
STANDARD, OLDER, WEB_LINKS, SAFE = (), ("--older", "--strike"), ("--web-links",), ("--safe", "--strike")
ALL_RULES = [STANDARD, OLDER, WEB_LINKS, SAFE]
ALL_JOBS = [("render",), ("tree",), ("tree", "--json"), ("rewrite",)]
OTHER_JOBS = ALL_JOBS[1:]
RENDER = ALL_JOBS[:1]
ALL_PIECES = [1, 16, 1000]

# The starts of constructs, by kind.
STARTS = {
    "raw HTML": [
        "<", "<a", "<a ", "<a b", "<a b ", "<a b=", '<a b="', "<a b='", "<a b=c ", "<a b='c' ", "<a/", "</", "</a",
        "</a ", "<!", "<!a", "<!a ", "<!-", "<!--", "<!-- ", "<!-->", "<!--->", "<!---", "<?", "<?a", "<![", "<![CDATA",
        "<![CDATA[", "<![CDATA[a]", "\\<!",
    ],
    "autolinks": ["<a:", "<ab:", "<ab:c", "<a+b", "<a@", "<a@b.", "<a@b-", "<javascript:a", "<http://a.b/"],
    "code spans": ["`", "``", "`a", "``a", "`a``b", "` ", "\\`", "`a\n"],
    "links": [
        "[", "![", "[a", "[a]", "[a](", "![a](", "[a](\n", "[a](<", "[a](<b", "[a](<b>", "[a](\\<", "[a](b", "[a](b(",
        "[a](b\\(", "[a](b ", '[a](b "', "[a](b '", "[a](b (", '[a](b "c"', "[a](b\n'", "[a](javascript:b",
        "[a](javascript:b)", "[a][", "[a][b", "[a][]", "[a][b]", "[a]: b", "[\\]", "[\\[", "[[a]", "[a](b)",
    ],
    "references": ["&", "&#", "&#1", "&#x", "&#xa", "&a", "&amp", "&amp;"],
    "escapes": ["\\", "\\\\", "\\\n", "a\\*", "  \n", " \n"],
    "emphasis": [
        "*", "**", "***", "*a", "a*", "**a", "a**", "*a ", "*a_", "_", "_a", "a_", "__a", "~", "~~", "~~~", "~~a",
        "a~~", "[^", "*[a](b)", "*[", "a**b*c", "*a **b* ",
    ],
}
DEFINITIONS = [
    "[a]:", "[a]: ", "[a]:\n", "[a]: <", "[a]: <b", "[a]: <b>", "[a]: b", "[a]: b\n", '[a]: b "', "[a]: b '",
    "[a]: b (", '[a]: b\n"', '[a]: b "c"\n', "[a]: b 'c' d\n", "[a]: b(", "[a\n", "[\\]",
]
# Whatever one could search for from one of them.
ENDS = [
    "", ">", "->", "-->", "?>", "]]>", "`", "``", ")", "]", "](b)", "]: b\n", '"', '")', "'", ";", "*", "**", "_", "~~"
]
# Those that are tried after each start where there is little time.
FEW_ENDS = ["", ">", "-->", "?>", "]]>", "`", ")", "]", "](b)", '"', "'", ";"]

# What is open while another start is repeated, with what ends it.
OPENERS = {
    "<a ": ">", '<a b="': '">', "<a b='": "'>", "</a ": ">", "<!a ": ">", "<!--": "-->", "<?": "?>", "<![CDATA[": "]]>",
    "<![CDATA": ">", "<ab:": ">", "<a@": ">", "`": "`", "`` ": "``", "[": "]", "![": "](a)", "[a](": ")", "[a](<": ">)",
    "[a](b(": "))", '[a](b "': '")', "[a](b '": "')", "[a](b (": "))", "[a][": "]", "&#": ";", "*": "*", "**": "**",
    "_a ": "_", "~~": "~~", "\\": "",
}

# What a long line is made of.
ONE_KIND = [
    " ", "\t", "> ", ">", "- ", "-", "+ ", "* ", "*", "_", "=", "#", "# ", "`", "~", "1", "1. ", "\\", "a", "a ", "&",
    ":", "|", "!", "<", '"', "[", "]", "\0", "é", "€", "😀", "\u00a0", "\r", "\n", "\r\n", " \n", "a\n", "- \n", "> \n",
    "[a", "<a", "&#",
]
# Those that take no memory to speak of beyond the text's own, so that a line may have many megabytes.
LIGHT = [" ", "\t", "-", "=", "`", "a", "\0", "é", "#", "~", "1", "a ", "😀", "\u00a0", "_"]
# What comes before the line, and what starts it.
BEFORE = [
    "", "a\n", "> a\n", "- a\n", "> - > - a\n", "```\n", "    a\n", "<!--\n", "[a]: b\n", "> ", "- ", "- > - > ",
    "a\n> ", "# ", "[a]: ", "| a |\n",
]
FEW_BEFORE = ["", "a\n", "> a\n", "- a\n", "```\n", "<!--\n", "> - "]
AFTER = ["", "a", "\n", "\n\na\n"]

DEEP = ["--blocks", "500", "--inlines", "500"]
# Lines that open containers, each within the one before, and lines after them, over and over.
NESTS = [
    "'> ' * 480", "'- ' * 480", "'* ' * 480", "'1. ' * 480", "'> - ' * 240", "'- > ' * 240", "'- + ' * 240",
    "'-\\t' * 400", "'>\\t' * 400",
]
LINES = [
    "\n", "b\n", " \n", "\t\n", "  b\n", "\tb\n", ">\n", "> b\n", "- b\n", "-\n", "***\n", "===\n", "```\n", "<!--\n",
    "    b\n\n", "b\n\n",
]
LONG_IN_NEST = [" ", "\t", "-", "- ", "*", "* ", "=", "#", "`", "~", "1", ">", "a", "<"]


class Family(typing.NamedTuple):
    """Texts that are measured alike: with the number of repetitions, and with four times that."""

    name: str
    texts: list
    size: int
    jobs: list = RENDER
    rules: list = [STANDARD]
    pieces: list = [0]
    options: list = []

    def runs(self):
        """The words and the number of bytes a read of each run of a text."""
        for job, rules, piece in itertools.product(self.jobs, self.rules, self.pieces):
            yield [*job, *rules, *self.options], piece


@functools.cache
def hostile(n):
    """The texts of hostile.py, kept, since one of them takes a while to make."""
    return hostile_texts(n)


def made(text, n):
    """The bytes of a text."""
    return eval(text, {"hostile": hostile, "n": n}).encode()  # noqa: S307: the expressions are those of this file


def after(front):
    """The part of an expression for what comes first, if anything does."""
    return f"{front!r} + " if front else ""


def followed_by(end):
    """The same for what comes last."""
    return f" + {end!r}" if end else ""


def pairs(starts, ends, front=""):
    """Each start over and over, followed by each end."""
    return [f"{after(front)}{start!r} * n{followed_by(end)}" for start in starts for end in ends]


def other_pairs():
    """Each two openers, with the end of the first."""
    return [(one, end, other) for one, end in OPENERS.items() for other in OPENERS if one != other]


def repeated_in_turn():
    """Each two starts in turn, followed by the end of the first."""
    return [text for one, end, other in other_pairs() for text in pairs([one + other], [end], "x ")]


def repeated_inside():
    """A start, another over and over, and the end of the first, or none."""
    return [text for one, end, other in other_pairs() for text in pairs([other], dict.fromkeys(["", end]), "x " + one)]


def long_lines(kinds, fronts, ends=("a",)):
    """A line of about n bytes of one kind, after other lines or the start of the same one."""
    times = {kind: "n" if len(kind.encode()) == 1 else f"(n // {len(kind.encode())})" for kind in kinds}
    return [
        f"{after(front)}{kind!r} * {times[kind]}{followed_by(end)}"
        for kind in kinds
        for front in fronts
        for end in ends
    ]


def nested(lines):
    """Deep containers in one line, and further lines of one kind. Blank ones belong to code as well."""
    firsts = [("a\n", line) for line in lines] + [("```\n", "\n")]
    return [f"{nest} + {first!r} + {line!r} * n" for nest in NESTS for first, line in firsts]


def long_in_nest():
    """Deep containers in one line, which is long, or which a long line follows."""
    return [
        f"{nest}{followed_by(line)} + {kind!r} * n + 'a'"
        for nest in NESTS
        for line in ("", "a\n")
        for kind in LONG_IN_NEST
    ]


def nested_again():
    """Deep containers, opened and closed over and over: all on one line, or one more on each line."""
    lines = [f"({nest} + 'a\\n{gap}') * (n // 1000)" for nest in NESTS for gap in ("", "\\n", "\\nb\\n\\n", "***\\n")]
    stairs = [
        f"''.join('{step}' * k + '{mark}a\\n{gap}' for k in range(100)) * (n // 10_000)"
        for step, mark in (("  ", "- "), ("> ", "> "), ("   ", "1. "), (" > ", "> "), ("- ", "- "))
        for gap in ("", "\\n")
    ]
    return lines + stairs


def nested_inlines():
    """Inlines that nest deeply, over and over, each time in a paragraph of its own or in one."""
    sides = [
        ("*a ", " a*"), ("**a ", " a**"), ("*a **b ", " a** b*"), ("~~a ", " a~~"), ("![", "](b)"),
        ("![a ", " a](b 'c')"), ("![*a ", " a*](b)"), ("[", "]"), ("![a", "][]"), ("[![", "](b)](b)"),
        ("![`a` <b> ", "](<b>)"),
    ]
    return [
        f"({left!r} * 240 + 'a' + {right!r} * 240 + {gap!r}) * (n // 1000)"
        for left, right in sides
        for gap in ("\n\n", " ", "\n")
    ]


def in_kinds(name, ends, size, *how):
    """A family for each kind of start."""
    return [Family(f"{name}: {kind}", pairs(starts, ends, "x "), size, *how) for kind, starts in STARTS.items()]


def families(size, everywhere):
    """All families, those of starts with about `size` repetitions; with all jobs and rules, or with those that show
    most."""
    jobs, rules = (ALL_JOBS, ALL_RULES) if everywhere else (RENDER, [STANDARD])
    ends = ENDS if everywhere else FEW_ENDS
    starts = [f"{start}\n" for kind in STARTS.values() for start in kind]
    found = [
        *in_kinds("a start over and over, and an end", ends, size, jobs, ALL_RULES),
        Family("definitions over and over, and an end", pairs(DEFINITIONS, ends), size, jobs, rules),
        Family(
            "a start on each line, and an end", pairs(starts, ENDS[:5] if everywhere else ENDS[:1]), size, jobs, rules
        ),
        Family("two starts in turn, and an end", repeated_in_turn(), size // 2, jobs, rules),
        Family("one start within another", repeated_inside(), size, jobs, rules),
        Family("hostile.py", [f"hostile(n)[{name!r}]" for name in hostile(8)], size, ALL_JOBS, rules),
        Family(
            "long lines",
            long_lines(LIGHT, BEFORE, AFTER) if everywhere else long_lines(LIGHT[:8], FEW_BEFORE),
            4_000_000,
        ),
        Family(
            "long lines, 1 byte a read",
            long_lines(ONE_KIND, BEFORE if everywhere else FEW_BEFORE[:2]),
            25_000,
            pieces=[1],
        ),
        Family(
            "long lines, 16 bytes a read",
            long_lines(ONE_KIND, BEFORE if everywhere else FEW_BEFORE),
            150_000,
            pieces=[16],
        ),
        Family(
            "long lines, 1,000 bytes a read",
            long_lines(ONE_KIND, BEFORE if everywhere else FEW_BEFORE),
            300_000,
            pieces=[1000],
        ),
        Family("deep containers, then lines", nested(LINES), 5_000, jobs, options=DEEP),
        Family("deep containers and a long line", long_in_nest(), 5_000, jobs, options=DEEP),
        Family("deep containers over and over", nested_again(), 20_000, ALL_JOBS, options=DEEP),
        Family("deep inlines over and over", nested_inlines(), 20_000, ALL_JOBS, [OLDER], options=DEEP),
    ]
    return found if everywhere else [*found, *with_other_jobs(size)]


def with_other_jobs(size):
    """A part of the texts, as trees and as source: the leaves are read by the same code as for HTML."""
    return [
        *in_kinds("as trees and as source", ["", ">", ")"], size, OTHER_JOBS),
        Family("as trees and as source: definitions", pairs(DEFINITIONS, [""]), size, OTHER_JOBS),
        Family("as trees and as source: long lines", long_lines(ONE_KIND, ["", "a\n", "> - "]), 100_000, OTHER_JOBS),
        Family("as trees and as source: deep containers", nested(LINES[:4]), 500, OTHER_JOBS, options=DEEP),
    ]
