"""What .ci/embedding tries of Go, Node, Ruby and PHP, over the installed library.

For each language a driver, .ci/embedded/call.*, answers all cases in one process. It reads a case in each line, JSON
with `call`, `text` in base64 and `options` by their names in Python, and writes an answer in each line: JSON with
`output`, or with `number`, `place` and `line`. A call is html, tree, json or rewrite; parse, whose tree is written as
JSON; or threads, for HTML that four threads at once agree on.
"""

import base64
import concurrent.futures
import json
import pathlib
import re
import shlex
import shutil

from tried import TOP, Run

OUT_OF_RANGE = 11
STRICT = ["-std=gnu11", "-fsyntax-only", "-Wall", "-Wextra", "-Werror"]


class Case:
    """A text, a call and its options, and what has to come: an output, or the line of an error."""

    def __init__(self, call, text, options, output=None, line=None):
        self.call, self.text, self.options, self.output, self.line = call, text, options, output, line

    def line_in(self):
        return (
            json.dumps({"call": self.call, "text": base64.b64encode(self.text).decode(), "options": self.options})
            + "\n"
        )

    def is_answer(self, answer, reasons):
        """Returns whether an answer is what has to come, with the number and the place that its line has."""
        if self.line is None:
            return self.output == answer.get("output") or (
                self.call == "parse" and is_same_tree(answer.get("output"), self.output)
            )
        return [answer.get(it) for it in ("line", "number", "place")] == [self.line, *place_of(self.line, reasons)]


def place_of(line, reasons):
    """Returns the number of an error and its place, by its line."""
    number = re.match(r"cmk: F(\d+) ", line)
    reason = line.rpartition(": ")[2]
    place = reasons.index(reason) + 1 if reason in reasons else int((re.search(r" (\d+)$", line) or [0, 0])[1])
    return int(number[1]) if number else OUT_OF_RANGE, place


def is_same_tree(came, wanted):
    """Returns whether two trees in JSON have the same members, but for those that a type fills in: null, 0, "", false
    and empty."""
    return bool(came) and pruned(json.loads(came)) == pruned(json.loads(wanted))


def pruned(value):
    if isinstance(value, list):
        return [pruned(it) for it in value]
    if isinstance(value, dict):
        members = {name: pruned(it) for name, it in value.items()}
        return {name: it for name, it in members.items() if it and it != [0, 0]}
    return value


class Language:
    """A language: a folder with a copy of its binding, in which that is tested, and what docs/embedding.md has is
    pasted and run.

    `tests` yields the name of each test of the binding and how it went; `called` returns the words that run the driver.
    """

    TOOLS = ()
    # The word of the page's block that has the program, the file to which it is pasted, and what runs that.
    WORD, PROGRAM, RUN = "", "", ()
    # The file of the binding with the numbers of faults and of reasons, what finds their names there, and what comes
    # before the reasons.
    NAMES, FAULT, REASON, BEFORE_REASONS = "", "", "", ""

    def __init__(self, room, environment):
        self.name = type(self).__name__
        self.folder, self.environment = room / self.name, environment
        self.binding = self.folder / "bindings" / self.name.lower()
        self.driver = TOP / f".ci/embedded/call.{self.PROGRAM.partition('.')[2]}"

    @classmethod
    def names(cls, kind):
        """Returns the names of each Fault or Reason in the binding, with its number."""
        text = (TOP / "bindings" / cls.__name__.lower() / cls.NAMES).read_text()
        faults, _, reasons = text.partition(cls.BEFORE_REASONS) if cls.BEFORE_REASONS else (text, "", text)
        return re.findall(cls.FAULT, faults, re.M) if kind == "Fault" else re.findall(cls.REASON, reasons, re.M)

    def absent(self):
        """Returns the first tool that this machine lacks, or None."""
        return next((it for it in self.TOOLS if not shutil.which(it)), None)

    def run(self, *words, given=b"", folder=None):
        return Run(words, given, self.environment, folder or self.folder)

    def cflags(self):
        return shlex.split(self.run("pkg-config", "--cflags", "cmk").wrote.decode())

    def copy(self):
        """Makes the folder, with the binding in it as the repository has it."""
        left_out = shutil.ignore_patterns("build", "modules", "node_modules")
        shutil.copytree(TOP / "bindings" / self.name.lower(), self.binding, ignore=left_out)

    def paste(self):
        """Runs the commands and the program in the section of docs/embedding.md on this language, and returns what is
        wrong."""
        page = (TOP / "docs/embedding.md").read_text()
        lines = re.search(r"Each program here prints `([^`]*)` and `([^`]*)`", page)
        section = page.partition(f"\n### {self.name}\n")[2].partition("\n##")[0]
        blocks = re.findall(r"(?ms)^```(\w+)\n(.*?)^```$", section)
        if not lines or [word for word, _ in blocks] != ["sh", self.WORD]:
            return f"has the blocks {[word for word, _ in blocks]}"
        (_, commands), (_, program) = blocks
        (self.folder / self.PROGRAM).write_text(program)
        came = self.run("sh", "-ec", commands)
        came = came if came.status else self.run(*self.RUN)
        wrote = came.wrote.decode().splitlines()
        return came.mistake() or (f"writes {wrote}" if wrote != [*lines.groups()] else None)

    def call(self, cases):
        """Returns the answers of the driver to all cases, and what is wrong."""
        came = self.run(*self.called(), given="".join(it.line_in() for it in cases).encode())
        return [] if came.status else [json.loads(it) for it in came.wrote.splitlines()], came.mistake()


class Go(Language):
    TOOLS = ("go",)
    WORD, PROGRAM, RUN = "go", "page.go", ("go", "run", ".")
    NAMES, FAULT, REASON = "cmk.go", r"^\tErr(\w+) +Fault = (\d+)", r"^\tReason(\w+) += (\d+)"

    def tests(self):
        yield "gofmt", self.run(
            "sh", "-c", 'test -z "$(gofmt -l "$@")"', "sh", self.binding, self.driver, self.folder / self.PROGRAM
        )
        yield "go vet", self.run("go", "vet", ".", folder=self.binding)
        yield "go test", self.run("go", "test", "-count=1", ".", folder=self.binding)

    def called(self):
        return "go", "run", self.driver


class Node(Language):
    TOOLS = ("node", "npm")
    WORD, PROGRAM, RUN = "js", "page.js", ("node", "page.js")
    NAMES, BEFORE_REASONS = "index.js", "const Reason = "
    FAULT = REASON = r"^  ([A-Z_\d]+): (\d+),$"

    def __init__(self, room, environment):
        super().__init__(room, environment)
        # The headers that came with node, so that node-gyp doesn't look for them on the network.
        self.headers = pathlib.Path(shutil.which("node") or "/").resolve().parent.parent
        self.environment = {**environment, "npm_config_nodedir": str(self.headers), "npm_config_offline": "true"}

    def absent(self):
        return super().absent() or (None if (self.headers / "include/node/node_api.h").exists() else "node_api.h")

    def tests(self):
        yield "node --test", self.run("node", "--test", "test", folder=self.binding)
        yield "cc", self.run(
            "cc", *STRICT, "-Wpedantic", f"-I{self.headers}/include/node", *self.cflags(), "cmk.c", folder=self.binding
        )

    def called(self):
        shutil.copy(self.driver, self.folder)
        return "node", self.driver.name


class Ruby(Language):
    TOOLS = ("ruby", "gem", "rake")
    WORD, PROGRAM, RUN = "ruby", "page.rb", ("ruby", "page.rb")
    NAMES, BEFORE_REASONS = "lib/cmk.rb", "  module Reason\n"
    FAULT = REASON = r"^    ([A-Z_\d]+) = (\d+)$"

    def __init__(self, room, environment):
        super().__init__(room, environment)
        # The library is found by pkg-config.
        self.environment = {
            **environment,
            "GEM_HOME": str(self.folder / "gems"),
            "CMK_LIBRARY": "",
            "LD_LIBRARY_PATH": "",
        }

    def tests(self):
        yield "rake", self.run("rake", "--quiet", folder=self.binding)

    def called(self):
        return "ruby", "-w", self.driver


class PHP(Language):
    TOOLS = ("php", "phpize", "make", "cc")
    WORD, PROGRAM = "php", "page.php"
    LOADED = "php", "-n", "-d", "extension=bindings/php/modules/cmk.so"
    RUN = *LOADED, PROGRAM
    NAMES, FAULT = "cmk.stub.php", r"^    public const (?!REASON_)([A-Z_\d]+) = (\d+);$"
    REASON = r"^    public const REASON_([A-Z_\d]+) = (\d+);$"

    def __init__(self, room, environment):
        super().__init__(room, environment)
        self.environment = {**environment, "NO_INTERACTION": "1", "TEST_PHP_ARGS": "-q"}

    def tests(self):
        yield "make test", self.run("make", "test", folder=self.binding)
        includes = self.run("php-config", "--includes").wrote.decode().replace("-I", "-isystem ").split()
        yield "cc", self.run(
            "cc", *STRICT, "-Wno-unused-parameter", *includes, *self.cflags(), "php_cmk.c", folder=self.binding
        )

    def called(self):
        return *self.LOADED, self.driver


LANGUAGES = (Go, Node, Ruby, PHP)


def outcomes(it, cases, reasons):
    """Yields what is tried of a language, and what is wrong: the page, the tests of the binding, and the answers of the
    driver to the cases."""
    it.copy()
    yield f"docs/embedding.md in {it.name}", it.paste()
    for name, ran in it.tests():
        yield f"bindings/{it.name.lower()} by {name}", ran.mistake()
    answers, mistake = it.call(cases)
    mistake = mistake or (f"{len(answers)} answers" if len(answers) != len(cases) else None)
    differ = [
        f"{case.call} of {case.text[:30]!r}: {answer}"
        for case, answer in zip(cases, answers)
        if not case.is_answer(answer, reasons)
    ]
    yield f"{len(cases)} calls from {it.name}", mistake or (
        f"not {len(differ)}, first {differ[0][:300]}" if differ else None
    )


def bindings(points, room, environment, cases, reasons):
    """Tries all languages at the same time."""
    languages = [kind(room, environment) for kind in LANGUAGES]
    with concurrent.futures.ThreadPoolExecutor() as pool:
        tried = [
            (it, it.absent() or pool.submit(lambda it: list(outcomes(it, cases, reasons)), it)) for it in languages
        ]
    for it, came in tried:
        if isinstance(came, str):
            points.skip(f"calls from {it.name}", came)
            continue
        for name, mistake in came.result():
            points.say(name, mistake)
