"""Texts that make a careless reader slow: four times the text then takes far more than four times as long."""

import itertools

SIZE = 50_000
# The table of definitions numbers a label: byte by byte the number is added to and multiplied by this, in 64 bits.
FACTOR = 5871781006564002453
# Where these steps are added to the letters of a label, from any letter on, its number stays as it is.
STEPS = [3, 0, 2, 2, -1, 4, 0, 0, -2, -5, 2, -2, 0, -4, 5, 1, -1, -1, 1]
PLACES = 18


def number_of(label):
    """The number under which the table keeps a folded label."""
    number = 0
    for byte in label.encode():
        number = (number + byte) * FACTOR % 2**64
    return number


def moved(label, places):
    """The codes of a label's letters, with the steps added from each of these places on."""
    codes = list(label.encode())
    for place in places:
        for at, step in enumerate(STEPS, place):
            codes[at] += step
    return codes


def labels_of_one_number(count):
    """The given number of labels of small letters, all with the number of the first."""
    first, found = "m" * (len(STEPS) + PLACES - 1), []
    for chosen in itertools.product([False, True], repeat=PLACES):
        codes = moved(first, itertools.compress(range(PLACES), chosen))
        if all(ord("a") <= code <= ord("z") for code in codes):
            found.append(bytes(codes).decode())
        if len(found) == count:
            break
    assert len(set(found)) == count and {number_of(label) for label in found} == {number_of(first)}
    return found


def defined_and_used(labels):
    return "".join(f"[{label}]: /u\n\n" for label in labels) + "".join(f"[{label}] " for label in labels) + "\n"


def of_blocks(n):
    """Quotes, lists and leaves over and over, or one in another."""
    return {
        "quotes_deep": "> " * 95 + "a\n",
        "quotes_wide": ("> a\n" + "b\n" * 9) * n,
        "quotes_lazy": "> " * 90 + "a\n" + "b\n" * n,
        "lists_deep": "".join("  " * (k % 90) + "- a\n" for k in range(n)),
        "list_long": "- a\n" * n,
        "blank_lines": "- a\n" + "\n" * n + "  b\n",
        "thematic": "* " * n + "a\n",
        "setext": "a\n" * n + "===\n",
        "setext_defs": "[a]: /u\n" * n + "===\n",
        "tabs": "\t" * n + "a\n",
        "nul": "a\0" * n,
        "long_line": "a" * (n * 8),
        "spaces_end": ("a" + " " * 200 + "b") * (n // 32 + 1),
    }


def of_definitions(n):
    """Link reference definitions: of one label, of many, and of many that the table keeps under one number."""
    return {
        "refs_dup": "".join(f"[a]: /u{k}\n" for k in range(n)) + "\n[a]\n",
        "refs_many": "".join(f"[a{k}]: /u\n" for k in range(n)) + "\n" + "".join(f"[a{k}] " for k in range(n)) + "\n",
        "refs_unclosed": "[a]: (" * n,
        "refs_one_number": defined_and_used(labels_of_one_number(n // 5)),
    }


def of_emphasis(n):
    return {
        "emph_open": "*a " * n,
        "emph_mixed": "*a_ " * n,
        "emph_close": "a* " * n,
        "emph_long_close": "a**b" + "c* " * n,
        "emph_nested": "*a **a " * n,
        "emph_multiple3": "a***b**c* " * n,
        "stars_one_run": "*" * n + "a" + "*" * n,
    }


def of_links(n):
    return {
        "brackets_open": "[" * n,
        "brackets_close": "]" * n,
        "images_open": "![" * n,
        "brackets_pairs": "[a](" * n,
        "brackets_nested": "[" * n + "a" + "]" * n,
        "links_unclosed": "[a](<b" * n,
        "links_titles": '[a](b "c' * n,
        "parens": "[a](" + "(" * n + ")" * n + ")",
    }


def of_other_inlines(n):
    """Code spans, raw HTML, references and escapes. Most never end."""
    longest = int(n**0.5)
    return {
        "backtick_runs": "".join("`" * k + "a" for k in range(1, longest + 1)),
        "backtick_same": "`a" + "``b" * n,
        "html_open": "<a " * n,
        "html_comment": "x <!-- a " * n,
        "html_question": "x <? a " * n,
        "html_cdata": "x <![CDATA[ a " * n,
        "html_decl": "x <!a b " * n,
        "entity": "&" * n,
        "entity_long": "&#" + "1" * n,
        "escapes": "\\" * n,
    }


def hostile(n):
    """Each text by its name, with about n repetitions."""
    kinds = [of_blocks, of_definitions, of_emphasis, of_links, of_other_inlines]
    return {name: text for kind in kinds for name, text in kind(n).items()}
