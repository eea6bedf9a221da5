#!/usr/bin/env python3
"""Renders a corpus of JSON lines, on this machine or on a cluster of Dask.

  corpus.py [--workers N] FROM TO
  corpus.py --scheduler tcp://HOST:PORT FROM TO

FROM has files *.jsonl, the shards; each line is an object with a member `text`. TO gets a file of the same name for
each, in which each object has, instead of its text, `html`; or `error` with the `name` of the library's fault, its
`place` and its `line`. The lines keep their order.

Progress goes to standard error. If a worker is lost, another one renders its shards again. If a shard loses several
workers, its texts are rendered in a process of their own, and one that ends this process has the error KILLED. A run
that was stopped goes on when it is started again: a shard whose file in TO is newer is left out. The status is 1 if
there is a shard without a file, and why is printed.

The workers of a cluster see both folders at the same paths, and have the package cmk. `--workers 0` renders in this
process, and only otherwise is Debian's python3-distributed needed.
"""

from __future__ import annotations

import argparse
import contextlib
import json
import logging
import os
import pathlib
import subprocess
import sys
import tempfile
import time
from collections.abc import Iterable, Iterator
from typing import Any

sys.path.append(str(pathlib.Path(__file__).resolve().parents[2] / "bindings/python"))
import cmk  # noqa: E402

# The file of a shard, and that for what is made of it.
Shard = tuple[pathlib.Path, pathlib.Path]
# What a worker is writing has this in its name.
PART = ".part-"
# How a process of its own renders the lines that it gets.
LOADER = "import pickle, sys; function, lines = pickle.load(sys.stdin.buffer); function(lines)"


def line_of(it: dict[str, Any], **made: object) -> str:
    """Returns the line of an object of a shard, with this instead of its text."""
    return json.dumps({**{name: value for name, value in it.items() if name != "text"}, **made}, ensure_ascii=False)


def rendered(line: str) -> tuple[str, bool]:
    """Returns the line for a line of a shard, and whether the text has an error."""
    it = json.loads(line)
    try:
        return line_of(it, html=cmk.html(it["text"], safe=True, strike=True)), False
    except cmk.CmkError as error:
        if error.number == cmk.Fault.NO_MEMORY:
            # That is no fault of the text. Another worker may have memory for it.
            raise
        named = {"name": cmk.Fault(error.number).name, "place": error.place, "line": error.line}
        return line_of(it, error=named), True


def write_rendered(lines: Iterable[str]) -> None:
    """Writes the line for each of some lines to standard output, as soon as it is made."""
    for line in lines:
        print(json.dumps(rendered(line)), flush=True)


def rendered_apart(lines: Iterable[str]) -> Iterator[tuple[str, bool]]:
    """Yields what `rendered` returns for each line, from another process. Where that ends early, the text has the error
    KILLED, and a new one goes on with the next text."""
    import cloudpickle

    left = list(lines)
    words, there = [sys.executable, "-c", LOADER], {**os.environ, "PYTHONPATH": os.pathsep.join(sys.path)}
    while left:
        given = cloudpickle.dumps((write_rendered, left))
        ran = subprocess.run(words, input=given, stdout=subprocess.PIPE, env=there, check=False)
        made = ran.stdout.split(b"\n")[:-1]
        yield from map(json.loads, made)
        left = left[len(made) :]
        if left and ran.returncode == 1:
            raise ChildProcessError("an exception ended the process that renders the texts")
        if left:
            why = {"name": "KILLED", "place": 0, "line": f"the process that rendered it ended with {ran.returncode}"}
            yield line_of(json.loads(left.pop(0)), error=why), True


def render(source: pathlib.Path, target: pathlib.Path, apart: bool = False) -> tuple[int, int]:
    """Renders a shard, and returns how many texts it has, and how many have an error. Only a whole file has the name of
    the target, also where two workers write the same."""
    part = target.with_name(f"{target.name}{PART}{os.uname().nodename}-{os.getpid()}")
    count = errors = 0
    # A lone surrogate in another member is written as JSON escapes it.
    kept = "backslashreplace"
    with source.open(encoding="utf-8") as lines, part.open("w", encoding="utf-8", errors=kept) as made:
        for line, is_error in rendered_apart(lines) if apart else map(rendered, lines):
            count, errors = count + 1, errors + is_error
            made.write(f"{line}\n")
    part.replace(target)
    return count, errors


class Progress:
    """How far a run is. It is shown at most once a second, on one line of a terminal, and elsewhere every ten seconds."""

    def __init__(self, shards: int) -> None:
        self.shards, self.done, self.texts, self.errors, self.failed = shards, 0, 0, 0, 0
        self.start = self.shown = time.monotonic()

    def note(self, shard: pathlib.Path, result: tuple[int, int] | BaseException) -> None:
        """Notes what `render` returned for a shard, or why it has no file."""
        self.done += 1
        if isinstance(result, BaseException):
            self.failed += 1
            print(f"{shard}: {result!r}", file=sys.stderr)
        else:
            self.texts, self.errors = self.texts + result[0], self.errors + result[1]
        if time.monotonic() - self.shown >= (1 if sys.stderr.isatty() else 10):
            self.shown = time.monotonic()
            print(f"\r{self}", end="" if sys.stderr.isatty() else "\n", file=sys.stderr, flush=True)

    def __str__(self) -> str:
        rate = self.texts / max(0.001, time.monotonic() - self.start)
        texts = f"{self.texts:,} texts, {self.errors:,} of them with an error, {rate:,.0f} a second"
        return f"{self.done} of {self.shards} shards, {self.failed} without a file; {texts}"


def render_here(shards: list[Shard], progress: Progress) -> None:
    """Renders shards in this process."""
    for source, target in shards:
        try:
            progress.note(source, render(source, target))
        except Exception as error:
            progress.note(source, error)


def render_on(cluster: Any, shards: list[Shard], progress: Progress) -> None:
    """Renders shards on a cluster."""
    import distributed

    with distributed.Client(cluster) as client:
        versions = sorted(set(client.run(cmk.version).values()))
        if len(versions) != 1:
            sys.exit(f"the workers have libcmk {' and '.join(versions) or 'nowhere'}")
        print(f"libcmk {versions[0]} on {len(client.nthreads())} workers", file=sys.stderr)
        progress.start = time.monotonic()
        jobs = {client.submit(render, *it, pure=False, retries=3): it for it in shards}
        left, apart = distributed.as_completed(jobs), set()
        for future in left:
            shard = jobs[future]
            if future.status != "error":
                progress.note(shard[0], future.result())
            elif isinstance(future.exception(), distributed.KilledWorker) and shard not in apart:
                print(f"{shard[0]}: lost its workers, and is rendered apart", file=sys.stderr)
                apart.add(shard)
                again = client.submit(render, *shard, apart=True, pure=False, retries=3)
                jobs[again] = shard
                left.add(again)
            else:
                progress.note(shard[0], future.exception())


def remove_parts(target: pathlib.Path) -> None:
    """Removes what lost workers were writing."""
    for it in target.glob(f"*{PART}*"):
        it.unlink(missing_ok=True)


def main() -> int:
    words = argparse.ArgumentParser(description=__doc__.partition("\n")[0])
    where = words.add_mutually_exclusive_group()
    where.add_argument("--scheduler", metavar="ADDRESS", help="the scheduler of a cluster")
    where.add_argument("--workers", metavar="N", type=int, help="how many processes; as many as there are processors")
    words.add_argument("source", metavar="FROM", type=pathlib.Path, help="the folder with the shards")
    words.add_argument("target", metavar="TO", type=pathlib.Path, help="the folder for what is made of them")
    asked = words.parse_args()
    target = asked.target.resolve()
    target.mkdir(parents=True, exist_ok=True)
    shards = [(it.resolve(), target / it.name) for it in sorted(asked.source.glob("*.jsonl"))]
    left = [it for it in shards if not it[1].exists() or it[1].stat().st_mtime < it[0].stat().st_mtime]
    progress = Progress(len(left))
    try:
        with contextlib.ExitStack() as stack:
            if asked.workers == 0:
                render_here(left, progress)
            elif asked.scheduler:
                render_on(asked.scheduler, left, progress)
            else:
                import distributed

                room = stack.enter_context(tempfile.TemporaryDirectory())
                own = {"n_workers": asked.workers, "threads_per_worker": 1, "local_directory": room}
                quiet = {"dashboard_address": None, "silence_logs": logging.CRITICAL}
                render_on(stack.enter_context(distributed.LocalCluster(**own, **quiet)), left, progress)
    finally:
        remove_parts(target)
    print(f"{len(shards) - len(left)} shards were there; {progress}")
    return 1 if progress.failed else 0


if __name__ == "__main__":
    sys.exit(main())
