#!/usr/bin/env python3
"""Writes a text of blocks of all kinds that can be rewritten, in which one word in a given number is marked.

  bench/marked.py MEGABYTES ONE_IN [SEED]

One megabyte of blocks, made at random, is repeated in it, after fifty link reference definitions.
"""

import argparse
import random
import sys

WORDS = """the of and to in is it that was for on are with as his they be at one have this from by hot word but what
some we can out other were all there when up use your how said an each she which do their time if will way about many
then them write would like so these her long make thing see him two has look more day could go come did number sound no
most people my over know water than call first who may down side been now find""".split()


class Writer:
    def __init__(self, one_in, seed):
        self.one_in, self.random = one_in, random.Random(seed)
        word, phrase = self.word, self.phrase
        self.marks = [
            lambda: f"*{phrase()}*",
            lambda: f"**{phrase()}**",
            lambda: f"`{phrase()}`",
            lambda: f'[{phrase()}](/{word()}/{word()} "{phrase()}")',
            lambda: f"![{phrase()}](/{word()}.png)",
            lambda: f"<https://{word()}.example/{word()}>",
            lambda: f"[{phrase()}][ref{self.random.randint(0, 49)}]",
            lambda: f"{word()} &amp; {word()}",
        ]

    def word(self):
        return self.random.choice(WORDS)

    def phrase(self):
        return " ".join(self.word() for _ in range(self.random.randint(1, 3)))

    def line(self, least, most):
        """A line that starts and ends with a plain word, without two adjacent marked words."""
        words, marked = [self.word()], False
        for _ in range(self.random.randint(least, most) - 2):
            marked = not marked and self.random.randrange(self.one_in) == 0
            words.append(self.random.choice(self.marks)() if marked else self.word())
        return " ".join([*words, self.word() + self.random.choice(["", "", ".", ","])])

    def lines(self, front, least, most, count):
        return "\n".join(front + self.line(least, most) for _ in range(self.random.randint(*count)))

    def block(self):
        kind = self.random.randrange(12)
        if kind < 6:
            return self.lines("", 8, 14, (2, 6))
        if kind == 6:
            return "#" * self.random.randint(1, 3) + " " + self.line(3, 7)
        if kind == 7:
            return self.lines("* ", 5, 10, (2, 6))
        if kind == 8:
            return "\n\n".join(f"{number}. {self.line(5, 10)}" for number in range(1, self.random.randint(3, 6)))
        if kind == 9:
            return self.lines("> ", 8, 12, (1, 4))
        if kind == 10:
            code = "\n".join(f"    let {self.word()} = {self.word()}();" for _ in range(self.random.randint(2, 8)))
            return f"```rust\n{code}\n```"
        return "***"

    def blocks(self, size):
        """Blocks of the given number of bytes, without two adjacent lists."""
        made, last = ["the text begins\n\n"], ""
        while size > 0:
            block = self.block()
            if block[0] in "*1" and last[:1] in ("*", "1"):
                continue
            made.append(f"{block}\n\n")
            size, last = size - len(made[-1]), block
        return "".join(made)


def text(size, one_in, seed=1):
    """About the given number of bytes, in which one word in a given number is marked."""
    writer = Writer(one_in, seed)
    definitions = "".join(f"[ref{number}]: /{writer.word()}/{number} '{writer.word()}'\n" for number in range(50))
    blocks = writer.blocks(1_000_000)
    return definitions + "\n" + blocks * -(-size // len(blocks))


def main() -> int:
    parser = argparse.ArgumentParser(description=__doc__.partition("\n\n")[0])
    parser.add_argument("megabytes", type=float, metavar="MEGABYTES", help="the length of the text")
    parser.add_argument("one_in", type=int, metavar="ONE_IN", help="how many words have one that is marked")
    parser.add_argument(
        "seed", type=int, nargs="?", default=1, metavar="SEED", help="where the random numbers start (1)"
    )
    asked = parser.parse_args()
    sys.stdout.write(text(int(asked.megabytes * 1_000_000), asked.one_in, asked.seed))
    return 0


if __name__ == "__main__":
    sys.exit(main())
