"""The texts on which rewriting is measured next to rendering, by their names: all can be spelled as plain source."""

import marked

ONE_IN = [100, 30, 8, 3]
SIZE = 10_000_000
# What is repeated in a text of one kind. Each piece starts with a word, since not everything can start a line.
PIECES = {
    "code_spans": "word `code` ",
    "emphasis": "word *some words* ",
    "links": "word [text](/address) ",
    "images": "word ![text](/address) ",
    "references": "word &amp; ",
    "hard_breaks": "word\\\n",
    "short_lines": "two words\n",
    "punctuation": "word, word. ",
    "autolinks": "word <https://example.org/> ",
    "raw_html": "word <b>text</b> ",
}


NAMES = ["three", *(f"marked_{one_in}" for one_in in ONE_IN), *PIECES]


def of_one_piece(piece, size=5_000_000):
    """Paragraphs of a piece over and over, in lines of eight or, where the piece ends its line, of one."""
    line = piece if piece.endswith("\n") else piece * 8 + "end\n"
    paragraph = line * 10 + "the last line\n\n"
    return paragraph * (size // len(paragraph))


def of_marked_words():
    return {f"marked_{one_in}": marked.text(SIZE, one_in) for one_in in ONE_IN}


def rewriting(large):
    """All of them. The first is three of the large inputs in one."""
    three = {"three": "\n".join(large[name] for name in ("plain", "code", "refs"))}
    return three | of_marked_words() | {name: of_one_piece(piece) for name, piece in PIECES.items()}
