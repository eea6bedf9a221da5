"""Calls libcmk for .ci/embedding by bindings/python.

  call.py html|tree|json|rewrite BYTES BLOCKS INLINES FLAGS     on standard input: its output, or the line of its fault and status 1;
                      FLAGS has 0 or 1 for each of older, strike, no_html and web_links. The text is given as bytes, and as a str if it is
                      one, also with lone surrogates; status 3 if the two differ
  call.py threads     four threads at once
"""

import contextlib
import sys
import threading

import cmk


def answer(call, text, asked):
    """Returns the output of a call and None, or None and its error's line."""
    try:
        return call(text, **asked), None
    except cmk.CmkError as error:
        return None, error.line


def one(name, *words):
    *numbers, flags = words
    asked = {name: int(number) for name, number in zip(("bytes", "blocks", "inlines"), numbers) if number != "0"}
    asked |= {name: flag == "1" for name, flag in zip(("older", "strike", "no_html", "web_links"), flags)}
    call, text = getattr(cmk, name), sys.stdin.buffer.read()
    output, line = answer(call, text, asked)
    with contextlib.suppress(UnicodeDecodeError):
        if answer(call, text.decode(errors="surrogatepass"), asked) != (output, line):
            sys.exit(3)
    if line:
        sys.exit(line)
    sys.stdout.buffer.write(output.encode())


def threads():
    text, found = "> *a*\n" * 200, []
    wanted = cmk.html(text)

    def work():
        found.append(all(cmk.html(text) == wanted for _ in range(200)))

    started = [threading.Thread(target=work) for _ in range(4)]
    for it in started:
        it.start()
    for it in started:
        it.join()
    sys.exit(found != [True] * 4)


if len(sys.argv) < 6:
    threads()
one(*sys.argv[1:])
