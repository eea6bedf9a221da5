"""PROOF.txt: what was proved of a release, by what, and how to repeat it."""

from __future__ import annotations

import hashlib
import pathlib
import sys
from collections.abc import Mapping

from common import TOP, VERSION, Failed

sys.path.insert(0, str(TOP / "tools"))
import build  # noqa: E402
import contracts  # noqa: E402
from files import sum_of  # noqa: E402

# The calls and laws whose contracts are the promises in README.md, "The proof", and those of the library for C.
PROMISES = """
    cm_tool::read cm_tool::convert cm_tool::rewrite cm_tool::text_is_no_markup cm_tool::texts_from_strangers
    cmk_c::cmk_html cmk_c::cmk_tree cmk_c::cmk_json cmk_c::cmk_rewrite cmk_c::cmk_html_into cmk_c::cmk_fault_text
""".split()
FORM = """\
The proof of cmk {version}

Kit: {kit}

Every function of these crates is proved to return on each input that its contract allows, and to do what the contract \
says. For each
crate: how many functions the prover proved, and the SHA-256 of its sources.

{crates}

In the folder of a crate its sum is printed by

  find src specs proofs -type f 2>/dev/null | LC_ALL=C sort | xargs sha256sum | sha256sum

What was built of them, by SHA-256:

{files}

The last line of the prover on each crate:

{verdicts}

In these lines

  axioms=    counts the functions of C that were reached: that each meets its contract is assumed
  threads=   names those that the kit's code for threads and for waiting may call: HANDLES allows neither here
  =trusted   marks what wasn't checked again: the kit's logic, and the libraries with their statements, which other \
checks proved

To repeat this with the same kit, in the sources of this version:

  make verify DIST=cmk-{version}-linux-x86_64.tar.xz

The promises of README.md rest on these contracts. tools/believed --text PATH prints the definitions that one depends \
on, and
docs/proved.md says what all of them mean, what is only tested, and what is trusted.

{contracts}"""


def sum_of_sources(crate: pathlib.Path) -> str:
    """Returns the sum of the files of a crate, as the command in PROOF.txt prints it."""
    files = [
        path.relative_to(crate).as_posix()
        for part in build.PARTS
        for path in (crate / part).rglob("*")
        if path.is_file()
    ]
    lines = (f"{sum_of(crate / file)}  {file}\n" for file in sorted(files, key=str.encode))
    return hashlib.sha256("".join(lines).encode()).hexdigest()


def statement(path: str) -> str:
    """Returns the contract of a call, after the place where it is."""
    part = contracts.contract(path)
    lines = "".join(f"    {line}\n" for line in part.text.splitlines())
    return f"  {path}, {part.file.relative_to(TOP)}:{part.line}\n\n{lines}"


def parts_of(record: pathlib.Path) -> tuple[str, dict[str, str], dict[str, str]]:
    """Returns the kit, the verdicts by crates, and the checksums by files, of a record of tools/build.py."""
    kit, *lines = record.read_text().splitlines()
    verdicts = dict(line.split(" ", 1) for line in lines if "  " not in line)
    sums = {name: checksum for checksum, name in (line.split("  ", 1) for line in lines if "  " in line)}
    return kit, verdicts, sums


def check(record: pathlib.Path, program: pathlib.Path) -> None:
    """Raises what isn't as the record has it: the program that was installed, or the crate's library, from which both
    others were linked."""
    _, _, sums = parts_of(record)
    library = build.Made(build.LIBRARY).file
    for file, made in ((program, build.Made(build.PROGRAM).file), (library, library)):
        if sum_of(file) != sums.get(str(made.relative_to(TOP))):
            raise Failed(f"{made.relative_to(TOP)} isn't what was proved")


def text(record: pathlib.Path, files: Mapping[str, pathlib.Path]) -> str:
    """Returns PROOF.txt for a record of tools/build.py and the files that were built, each by its name."""
    kit, verdicts, _ = parts_of(record)
    try:
        counts = {name: build.functions_in(verdict) for name, verdict in verdicts.items()}
    except build.Failed as why:
        raise Failed(f"{record}: {why}") from why
    crates = [f"  {name:<12}{count:>5}  {sum_of_sources(TOP / 'crates' / name)}" for name, count in counts.items()]
    crates.append(f"  {'all':<12}{sum(counts.values()):>5}")
    return FORM.format(
        version=VERSION,
        kit=kit,
        crates="\n".join(crates),
        files="\n".join(f"  {sum_of(file)}  {name}" for name, file in files.items()),
        verdicts="\n".join(f"  {name}: {verdict}" for name, verdict in verdicts.items()),
        contracts="\n".join(map(statement, PROMISES)),
    )
