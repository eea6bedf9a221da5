"""Reads the definitions and the contracts of the crates, and follows the names that they have.

The clauses of a contract name definitions of specs/, types and traits of src/, and words of the kit's library; so do
these, and so on. Names are followed by the `use` lines of each file.
"""

from __future__ import annotations

import dataclasses
import functools
import itertools
import pathlib
import re
from collections.abc import Iterable, Iterator, Sequence

TOP = pathlib.Path(__file__).resolve().parent.parent
CRATES = TOP / "crates"
LIBRARIES = [
    line.split(":")[0].split()[0]
    for line in (TOP / "crates.txt").read_text().splitlines()
    if line.startswith(("cm_", "cmk_"))
]
# The calls, clauses and laws that are the promises of README.md, "The proof". The last two are those of --safe.
HEADLINE = [
    "cm_tool::convert", "cm_tool::read", "cm_tool::rewrite.back", "cm_tool::laws::text_is_no_markup",
    "cm_tool::laws::texts_from_strangers",
]
# What is promised beside them: which trees are spelled, and how.
SPELLING = "cm_tool::rewrite.exact"
COLUMNS = ["Definitions", "Files", "Lines", "Types and traits", "Lines", "Words of the kit"]
STRING = re.compile(r'"(?:\\.|[^"\\])*"')
WORD = re.compile(r"[^\s(){}\[\],;.:|]+(?:\|>)?")
USE = re.compile(r"^\s*(?:ghost |pub |unfoldable )*use Rattle\.([\w.]+?)(?:\.\{([^}]*)\}| as (\w+))", re.MULTILINE)
OPENER = re.compile(r"module |(?:unfoldable |abbrev )?mutual$")
HEADER = re.compile(r"^\s*(?:(?:abbrev |unfoldable )(?:pub )?|pub )(?:data |record )?(?!mutual$)(\S+)")
DECLARED = re.compile(
    r"(?:^(?:///|#\[)[^\n]*\n)*^pub(?:\(crate\))? (?:enum|struct|trait) (\w+)[^\n]*"
    r"(?:;|\}|\{\n(?:(?:[ ][^\n]*)?\n)*\})$",
    re.MULTILINE,
)
CLAUSES = ("requires ", "ensures ")
FUNCTION = re.compile(r'^ {0,4}(pub )?(?:const |unsafe |extern "C" )*fn (\w+)')
BLOCK = re.compile(r"^(?:impl(?:<[^>]*>)?|pub trait) (\w+)(?:<[^>]*>)?(?:: \w+)? \{$")
TRAIT = re.compile(r"^impl(?:<[^>]*>)? (.+) for &?(?:'\w+ )?(\w+)(?:<.*>)? \{\}?$")


@dataclasses.dataclass(eq=False)
class Part:
    """A definition, or the declaration of a type or a trait: its names and its lines."""

    file: pathlib.Path
    line: int
    names: list[str]
    text: str

    def size(self) -> int:
        return sum(1 for line in self.text.splitlines() if line.strip())


# ---- the parts of a file

def paragraphs(file: pathlib.Path) -> Iterator[tuple[int, list[str]]]:
    """Each run of lines without an empty one, with the number of its first line."""
    run: list[str] = []
    begun = 0
    for number, line in enumerate([*file.read_text().splitlines(), ""], 1):
        if line.strip():
            begun = begun if run else number
            run.append(line)
        elif run:
            yield begun, run
            run = []


def indent(line: str) -> int:
    return len(line) - len(line.lstrip())


def code_lines(run: Sequence[str]) -> list[str]:
    return [line for line in run if not line.lstrip().startswith("--")]


def names_of(run: Sequence[str]) -> list[str]:
    """The names that a paragraph defines: of functions, types and constructors. Those of fields aren't among them."""
    lines = [line for line in code_lines(run) if not OPENER.match(line)]
    least = min((indent(line) for line in lines), default=0)
    headers = [HEADER.match(line) for line in lines if indent(line) == least]
    names = [found[1] for found in headers if found]
    if any("pub data " in line for line in lines):
        names += [line.split()[0] for line in lines if indent(line) > least and re.match(r"\s+[^\s|(]+ : ", line)]
    return names


def is_inside(run: Sequence[str], opener: Part | None) -> bool:
    """Whether a paragraph belongs to the `mutual` before it."""
    lines = code_lines(run)
    return opener is not None and bool(lines) and lines[0].startswith("  ") and "mutual" in opener.text


@functools.cache
def definitions(file: pathlib.Path) -> list[Part]:
    """The definitions of a file of specs/."""
    found: list[Part] = []
    for line, run in paragraphs(file):
        if found and is_inside(run, found[-1]):
            found[-1].names += names_of(run)
            found[-1].text += "\n\n" + "\n".join(run)
        elif code_lines(run) and not code_lines(run)[0].startswith(("use ", "pub use ", "pub mod ")):
            found.append(Part(file, line, names_of(run), "\n".join(run)))
    return found


@functools.cache
def declarations(file: pathlib.Path) -> list[Part]:
    """The types and traits that a file of src/ declares, each with how it is seen in specs/."""
    text, found = file.read_text(), []
    for declared in DECLARED.finditer(text):
        view = re.search(
            rf"^impl(?:<[^>\n]*>)? Model for {declared[1]}\b[^\n]*\n(?:(?:[ ][^\n]*)?\n)*\}}", text, re.MULTILINE
        )
        line = text[: declared.start()].count("\n") + 1
        found.append(Part(file, line, [declared[1]], declared[0] + ("\n\n" + view[0] if view else "")))
    return found


# ---- what a name means

def type_in(crate: str, name: str) -> Part | None:
    """The declaration of a type, by its name and its crate."""
    for file in sorted((CRATES / crate / "src").rglob("*.rt")):
        for part in declarations(file):
            if name in part.names:
                return part
    return None


def in_module(module: str, name: str) -> Part | str | None:
    """The part with a name in a module of specs/, such as cm_text.specs.Lines, or the word of the kit."""
    crate, *path = module.split(".")
    if crate not in LIBRARIES:
        return f"{module}.{name}"
    if path[1:2] == ["declared"]:
        return type_in(crate, next(word for word in path[2:] if word[0].isupper()))
    file = CRATES / crate / pathlib.Path(*path).with_suffix(".antt")
    here = [part for part in definitions(file) if name in part.names] if file.exists() else []
    passed_on = imports(file)[0].get(name) if file.exists() else None
    return here[0] if here else passed_on and in_module(*passed_on)


@functools.cache
def imports(file: pathlib.Path) -> tuple[dict[str, tuple[str, str]], dict[str, str]]:
    """What the names that a file imports mean, and the modules for which it has a short name."""
    names: dict[str, tuple[str, str]] = {}
    modules: dict[str, str] = {}
    for module, listed, short in USE.findall(file.read_text()):
        if short:
            modules[short] = module
        for one in filter(str.strip, listed.split(",")):
            name, _, other = one.strip().partition(" as ")
            names[other or name] = (module, name)
    return names, modules


def plain(text: str) -> str:
    """A text without its comments and strings."""
    return "\n".join(re.sub(r"(?:--|//).*", "", line) for line in STRING.sub("", text).splitlines())


def words_of(part: Part) -> tuple[set[str], set[tuple[str, str]]]:
    """The words of a part, and those after the short name of a module. What a part binds may be among them: it means
    nothing."""
    text = plain(part.text)
    words = re.sub(r"\.[\w-]+", "", text)
    return {*WORD.findall(words), *re.findall(r"\w+", words)}, set(re.findall(r"\b(\w+)\.(\w+)", text))


@functools.cache
def named_in(part: Part) -> list[tuple[Part | str, str]]:
    """What a part names, each with the name: other parts, and words of the kit."""
    words, pairs = words_of(part)
    names, modules = imports(part.file)
    found = [(in_module(modules[short], name), name) for short, name in pairs if short in modules]
    here = definitions(part.file) if part.file.suffix == ".antt" else declarations(part.file)
    own = {name: other for other in here for name in other.names}
    for word in words:
        spelled = word if word in names or word in own else f"◌{word}◌"
        if spelled in own:
            found.append((own[spelled], spelled))
        elif spelled in names:
            found.append((in_module(*names[spelled]), names[spelled][1]))
        elif part.file.suffix == ".rt":
            found.append((type_named(part.file, word), word))
    return [(one, name) for one, name in found if one is not None and one is not part]


def named_by(part: Part) -> list[Part | str]:
    """The parts, and the words of the kit, that a part names."""
    return [one for one, _ in named_in(part)]


def type_named(file: pathlib.Path, word: str) -> Part | None:
    """The type that a word means in a file of src/, if it is one of this repository."""
    crate = file.relative_to(CRATES).parts[0]
    name = re.escape(word)
    used = re.search(
        rf"^(?:pub )?use (\w+)(?:::[\w:]+)?::(?:\{{[^}}]*\b{name}\b[^}}]*\}}|{name});", file.read_text(), re.MULTILINE
    )
    if not used:
        return None
    crate = used[1] if used[1] in LIBRARIES else crate
    return type_in(crate, word)


# ---- the contracts of a crate

@dataclasses.dataclass(eq=False)
class Call:
    """A function, or what a type promises by a trait: its names, its comment, its clauses by name, and its statement as
    a part."""

    owner: str | None
    name: str
    comment: list[str]
    clauses: list[str]
    is_public: bool
    is_empty: bool
    part: Part

    def is_promise(self) -> bool:
        return TRAIT.match(self.part.text.splitlines()[0]) is not None

    def path(self) -> str:
        return f"{self.owner}::{self.name}" if self.owner else self.name


def comment_before(lines: Sequence[str], at: int) -> list[str]:
    """The lines of the doc comment before a line, without what marks them."""
    first = at
    while first and lines[first - 1].strip().startswith(("//", "#[")):
        first -= 1
    return [line.strip()[3:].strip() for line in lines[first:at] if line.strip().startswith("///")]


def end_of(lines: Sequence[str], at: int) -> int | None:
    """The line after the signature and the clauses that start at a line, or None if there are no clauses."""
    has_clauses = False
    for number in range(at, len(lines)):
        line, following = lines[number].strip(), "".join(lines[number + 1 : number + 2]).strip()
        has_clauses = has_clauses or line.startswith(CLAUSES)
        if number > at and line.startswith("{") or not line and not following.startswith((*CLAUSES, "// ")):
            return number if has_clauses else None
        if not has_clauses and line.endswith(("{", "{}", ";")):
            return None
    return len(lines)


def clauses_in(lines: Sequence[str]) -> list[str]:
    """The names of the clauses in some lines; one without a name is an `ensures`."""
    found = [re.match(r"ensures (\w+)? ?\{", line.strip()) for line in lines]
    return [one[1] or "ensures" for one in found if one]


def call_at(file: pathlib.Path, lines: Sequence[str], at: int, owner: str | None, in_trait: bool) -> Call | None:
    """The function whose first line this is, if it has clauses."""
    found, end = FUNCTION.match(lines[at]), end_of(lines, at)
    if found is None or end is None:
        return None
    text = "\n".join(lines[at:end]) + "\n"
    clauses = clauses_in(lines[at:end])
    part = Part(file, at + 1, [found[2]], f"impl {owner}\n{text}" if owner else text)
    is_empty = end < len(lines) and lines[end].strip() == "{}"
    is_public = bool(found[1]) or in_trait
    return Call(owner, found[2], comment_before(lines, at), clauses, is_public, is_empty, part)


@functools.cache
def is_private(file: pathlib.Path, trait: str) -> bool:
    """Whether a trait belongs to the crate of a file alone."""
    declared = re.compile(rf"^(?:pub\(crate\) )?trait {re.escape(trait)}\b", re.MULTILINE)
    files = (CRATES / file.relative_to(CRATES).parts[0] / "src").rglob("*.rt")
    return any(declared.search(other.read_text()) for other in files)


def without_bodies(lines: Sequence[str]) -> Iterator[str]:
    """The lines of an `impl` but those of the bodies of its functions."""
    is_body = False
    for line in lines:
        is_body = is_body and line != "    }"
        if not is_body:
            yield line
        is_body = is_body or re.match(r" {4}(?:\{$|(?:fn|\)) .*\{$)", line) is not None


def promise_at(file: pathlib.Path, found: re.Match[str], lines: Sequence[str], at: int, end: int) -> Call:
    """What a type promises by a trait: the ghosts and the clauses of the `impl` in these lines, whose first was
    found."""
    text = lines[at:end]
    clauses = re.findall(r"^    ghost (\w+) =", "\n".join(text), re.MULTILINE)
    clauses += [name for name in clauses_in(text) if name not in clauses]
    kept = [
        line for line in without_bodies(text) if re.match(r" {4}(?:ghost|fn) | {8}(?:requires|ensures) | {12}", line)
    ]
    part = Part(file, at + 1, [found[2]], "\n".join([lines[at], *kept]))
    return Call(found[2], found[1], comment_before(lines, at), clauses, True, False, part)


@functools.cache
def calls(file: pathlib.Path) -> list[Call]:
    """The functions of a file of src/ that have clauses, those of its types and traits, and what its types promise by
    traits."""
    lines, found, at = file.read_text().splitlines(), [], 0
    while at < len(lines):
        block, promise = BLOCK.match(lines[at]), TRAIT.match(lines[at])
        last = (number for number in range(at, len(lines)) if re.match(r"\}|impl.*\{\}$", lines[number]))
        end = next(last) + 1 if block or promise else at + 1
        if promise and not is_private(file, promise[1]):
            found.append(promise_at(file, promise, lines, at, end))
        is_trait = lines[at].startswith("pub trait")
        inside = [] if promise else [number for number in range(at, end) if FUNCTION.match(lines[number])]
        found += filter(
            None,
            (call_at(file, lines, number, block[1] if block else None, is_trait) for number in inside),
        )
        at = end
    return found


def module_file(file: pathlib.Path, name: str) -> pathlib.Path:
    """The file of a module that another file declares."""
    folder = file.parent if file.name == "lib.rt" else file.with_suffix("")
    return folder / f"{name}.rt"


@functools.cache
def exported(file: pathlib.Path) -> set[tuple[str, pathlib.Path]]:
    """What a file of src/ makes public, as pairs of a name and the file that defines it."""
    text = file.read_text()
    found = {
        (name, file)
        for name in re.findall(r"^pub (?:const |extern \"C\" )?(?:fn|struct|enum|trait) (\w+)", text, re.MULTILINE)
    }
    for name in re.findall(r"^pub mod (\w+);", text, re.MULTILINE):
        found |= exported(module_file(file, name))
    for path, names in re.findall(r"^pub use (\w+)::(\{[^}]*\}|\w+);", text, re.MULTILINE):
        below = module_file(file, path)
        wanted = set(re.findall(r"\w+", names))
        found |= {pair for pair in exported(below) if pair[0] in wanted} if below.exists() else set()
    return found


def public_calls(crate: str) -> Iterator[Call]:
    """The public functions of a crate that have clauses, and what its public types promise by traits, file by file in
    the order of modules."""
    offered = exported(CRATES / crate / "src/lib.rt")
    types = {name for name, _ in offered}
    for file in source_files(CRATES / crate / "src/lib.rt"):
        for call in calls(file):
            if (
                call.clauses
                and call.is_public
                and (call.owner in types if call.owner else (call.name, file) in offered)
            ):
                yield call


def source_files(file: pathlib.Path) -> Iterator[pathlib.Path]:
    """A file of src/ and those of its modules, each before its own."""
    yield file
    for name in re.findall(r"^(?:pub )?mod (\w+);", file.read_text(), re.MULTILINE):
        yield from source_files(module_file(file, name))


def asked_of(call: Call, owner: str | None, name: str) -> bool:
    """Whether a path asks for a call: for a function, or for what a type promises by a trait that has the function."""
    if call.is_promise():
        return call.owner == owner and (
            call.name == name
            or re.search(rf"^    fn {re.escape(name)}\b", call.part.text, re.MULTILINE) is not None
        )
    return call.is_public and (call.owner, call.name) == (owner, name)


def without_others(text: str, clause: str) -> str:
    """The signature and the clauses of a call without its other `ensures`."""
    first = next(iter(re.findall(r"(?m)^ *(?:requires|ensures)\b", text)), "")
    indent = " " * (len(first) - len(first.lstrip()))
    pieces = re.split(rf"(?m)^(?={indent}(?:requires|ensures|//))", text)
    kept = [
        piece
        for at, piece in enumerate(pieces)
        if not at
        or not piece.startswith((f"{indent}ensures", f"{indent}//"))
        or piece.startswith(f"{indent}ensures {clause} {{")
    ]
    if not any(line.startswith(f"{indent}ensures") for line in kept):
        raise SystemExit(f"there is no clause {clause}")
    return "".join(kept)


def contracts_of(path: str) -> list[Part]:
    """The signature and the clauses of a call, as a part; of a path like `cm_tool::rewrite.back`, those but for its
    other `ensures`. What is in the braces of its body isn't among them. A type can promise several functions of one
    name, each by a trait of its own."""
    path, _, clause = path.partition(".")
    crate, *names = path.split("::")
    owner = names[-2] if len(names) > 1 and names[-2][0].isupper() else None
    files = sorted((CRATES / crate / "src").rglob("*.rt"))
    asked = [(file, call.part) for file in files for call in calls(file) if asked_of(call, owner, names[-1])]
    if not asked:
        raise SystemExit(f"there is no public function {path}")
    texts = [without_others(part.text, clause) if clause else part.text for _, part in asked]
    return [
        Part(file, part.line, [f"{path}.{clause}" if clause else path], text)
        for (file, part), text in zip(asked, texts)
    ]


def contract(path: str) -> Part:
    """The first contract of a call."""
    return contracts_of(path)[0]


def reached(*firsts: Part, by_views: bool = True) -> tuple[set[Part], set[str]]:
    """All parts that some depend on, and the words of the kit. Without the views of types nothing is followed that a
    type names."""
    seen: set[Part] = set()
    kit: set[str] = set()
    waiting = [*firsts]
    while waiting:
        part = waiting.pop()
        named = named_by(part) if by_views or part in firsts or part.file.suffix == ".antt" else []
        kit |= {one for one in named if isinstance(one, str)}
        found = {one for one in named if not isinstance(one, str)} - seen
        seen |= found
        waiting += found
    return seen, kit


@functools.cache
def depth(file: pathlib.Path) -> int:
    """How many files are below one, each depending on the next."""
    below = [
        CRATES / module.replace(".", "/")
        for module, _, _ in USE.findall(file.read_text())
        if module.split(".")[0] in LIBRARIES
    ]
    files = [path.with_suffix(".antt") for path in below]
    return 1 + max((depth(path) for path in files if path.exists() and path != file), default=0)


def in_order(parts: Iterable[Part]) -> list[Part]:
    """Crate by crate, the types first, and each file after those that it uses."""
    def place(part: Part) -> tuple[int, int, pathlib.Path, int]:
        crate, is_spec = part.file.relative_to(CRATES).parts[0], part.file.suffix == ".antt"
        return LIBRARIES.index(crate), depth(part.file) if is_spec else 0, part.file, part.line
    return sorted(parts, key=place)


# ---- how much that is

def numbers(parts: Iterable[Part], kit: set[str]) -> tuple[int, int, int, int, int, int]:
    specs = [part for part in parts if part.file.suffix == ".antt"]
    types = [part for part in parts if part.file.suffix != ".antt"]
    return (
        len(specs), len({part.file for part in specs}), sum(map(Part.size, specs)), len(types),
        sum(map(Part.size, types)), len(kit),
    )


def number_row(name: str, parts: Iterable[Part], kit: set[str]) -> str:
    return f"| {name} | " + " | ".join(f"{count:,}" for count in numbers(parts, kit)) + " |"


def number_table(paths: Sequence[str]) -> Iterator[str]:
    """The lines of a table with the numbers of each contract, and of all."""
    yield f"| Contract | {' | '.join(COLUMNS)} |"
    yield f"|---|{'---|' * len(COLUMNS)}"
    firsts = [contracts_of(path) for path in paths]
    for path, found in zip(paths, firsts):
        yield number_row(f"`{path}`", *reached(*found))
    if len(paths) > 1:
        yield number_row("all of these", *reached(*itertools.chain.from_iterable(firsts)))
