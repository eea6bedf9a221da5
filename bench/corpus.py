"""The six large inputs of the benchmark, made at random from fixed seeds: the same bytes on each machine."""

import random

WORDS = """the of and to in a is that for it as was with be by on not he his but at are this have from or had an they
which one you were all her she there would their we him been has when who will no more if out so parser text line block
inline quote list item leaf marker column width char byte tree node render write read stack depth limit label link image
title source table row rule first last open close begin end naïve café über Größe ελληνικά кириллица 日本語
données""".split()
REFERENCES = 200


class Maker:
    """Makes blocks from one row of random numbers, so the order of the draws decides the bytes."""

    def __init__(self, seed):
        self.random = random.Random(seed)

    def word(self):
        return self.random.choice(WORDS)

    def phrase(self, least, most):
        return " ".join([self.word() for _ in range(self.random.randint(least, most))])

    def number(self, most):
        return self.random.randint(0, most)

    def piece(self, rate):
        """A word, or with the probability `rate` some words in inline markup."""
        if self.random.random() >= rate:
            return self.word()
        return self.marked(self.phrase(1, 4))

    def marked(self, text):
        """These words in one of eighteen kinds of markup, each as likely as the others."""
        word, number = self.word, self.number
        return self.random.choice([
            lambda: f"*{text}*",
            lambda: f"**{text}**",
            lambda: f"_{text}_",
            lambda: f"`{text}`",
            lambda: f'[{text}](/{word()}/{number(999)} "{word()}")',
            lambda: f"[{text}](https://example.org/{number(99999)})",
            lambda: f"![{text}](img/{number(999)}.png)",
            lambda: f"<https://example.org/{number(99999)}>",
            lambda: f"[{text}][ref{number(REFERENCES - 1)}]",
            lambda: f"[ref{number(REFERENCES - 1)}]",
            lambda: "&amp;",
            lambda: "&copy;",
            lambda: "&#8212;",
            lambda: "\\*",
            lambda: f"<b>{text}</b>",
            lambda: f"***{text}***",
            lambda: "a*b*c",
            lambda: "x < y & z > w",
        ])()

    def paragraph(self, rate, least=20, most=120):
        """Lines of about 76 characters. One line ending in thirty is a hard break."""
        made, column = [], 0
        for _ in range(self.random.randint(least, most)):
            piece = self.piece(rate)
            if made and column + len(piece) > 76:
                made.append("\n" if self.random.random() < 0.97 else "  \n")
                column = 0
            elif made:
                made.append(" ")
            made.append(piece)
            column += len(piece) + 1
        return "".join(made) + "\n"

    def code_line(self):
        indent = "    " * self.random.randint(0, 3)
        return f"{indent}if ({self.word()} < {self.number(99)} && {self.word()}) {{ {self.phrase(0, 6)}; }}\n"

    def code_lines(self, count):
        return "".join(self.code_line() for _ in range(count))

    def block(self, rate, depth=0):
        """A block of any kind: six in ten are paragraphs, and three levels down no more quotes and lists start."""
        kind = self.random.random()
        if kind < 0.62:
            return self.paragraph(rate)
        if kind < 0.85:
            return self.small_block(kind)
        if depth >= 3:
            return self.paragraph(rate, 5, 20)
        return self.quote(rate, depth) if kind < 0.90 else self.list(rate, depth)

    def small_block(self, kind):
        """A heading, code, a break or HTML, by a number from 0.62 up to 0.85."""
        between = self.random.randint
        if kind < 0.72:
            return "#" * between(1, 6) + f" {self.phrase(2, 8)}\n"
        if kind < 0.76:
            return f"```rust\n{self.code_lines(between(2, 12))}```\n"
        if kind < 0.79:
            return indented(self.code_lines(between(2, 6)))
        if kind < 0.81:
            return self.random.choice(["***\n", "---\n", "_ _ _\n"])
        if kind < 0.83:
            return f"{self.phrase(2, 6)}\n{self.random.choice(['===', '---'])}\n"
        return f'<div class="{self.word()}">\n{self.paragraph(0.05, 5, 20)}</div>\n'

    def quote(self, rate, depth):
        blocks = [self.block(rate, depth + 1) for _ in range(self.random.randint(1, 3))]
        return "".join((f"> {line}" if line else ">") + "\n" for line in "\n".join(blocks).splitlines())

    def list(self, rate, depth):
        """Two to eight items, three lists in ten numbered, and three in ten loose."""
        numbered, loose = self.random.random() < 0.3, self.random.random() < 0.3
        items = []
        for number in range(1, self.random.randint(2, 8) + 1):
            items.append(hung(f"{number}. " if numbered else "- ", self.item(rate, depth, loose)))
        return "".join(item + "\n" * loose for item in items)

    def item(self, rate, depth, loose):
        """A paragraph, and now and then a list after it."""
        text = self.paragraph(rate, 3, 30)
        if depth < 3 and self.random.random() < 0.3:
            text += "\n" * loose + self.list(rate, depth + 1)
        return text


def indented(text):
    return "".join(f"    {line}\n" for line in text.splitlines())


def hung(marker, text):
    """Lines after a marker, the further ones as far in as the first."""
    first, *others = text.splitlines()
    room = " " * len(marker)
    return f"{marker}{first}\n" + "".join((room + line if line else "") + "\n" for line in others)


def filled(size, make):
    """What `make` gives, one after another, up to the given number of bytes or a little more."""
    made, length = [], 0
    while length < size:
        made.append(make())
        length += len(made[-1].encode())
    return "".join(made)


def prose():
    maker = Maker(1)
    targets = (f'[ref{number}]: /target/{number} "title {number}"\n' for number in range(REFERENCES))
    return filled(10_000_000, lambda: maker.block(0.12) + "\n") + "".join(targets)


def plain():
    maker = Maker(2)
    return filled(10_000_000, lambda: maker.paragraph(0.0, 60, 300) + "\n")


def markup():
    maker = Maker(3)
    return filled(2_000_000, lambda: maker.paragraph(0.6, 20, 60) + "\n")


def lists():
    maker = Maker(4)
    one = lambda: maker.list(0.05, 0) if maker.random.random() < 0.7 else maker.block(0.05)
    return filled(4_000_000, lambda: one() + "\n")


def code():
    maker = Maker(5)
    return filled(4_000_000, lambda: f"```\n{maker.code_lines(30)}```\n\n{indented(maker.code_lines(30))}\n")


def refs():
    """Definitions and references in turn, most of which find a definition."""
    maker, count = Maker(6), 66_666
    made = []
    for number in range(count):
        if number % 2:
            made.append(f"[{maker.word()} {number}]: /d/{number} 'title {maker.word()}'\n" + "\n" * (number % 10 == 9))
        else:
            made.append(f"\nsee [{maker.word()} {maker.number(count)}] and [x][{maker.word()} {number + 1}]\n\n")
    return "".join(made)


LARGE = {"prose": prose, "plain": plain, "markup": markup, "lists": lists, "code": code, "refs": refs}
