#!/usr/bin/env python3
"""HTML for mails that are written in CommonMark.

  alternative.py text                  the HTML of the text of a mail, for aerc
  alternative.py mutt                  the same, for mutt
  alternative.py send SENDMAIL..       adds the HTML to a whole mail, and passes that to a sendmail

In aerc.conf, for the command :multipart text/html

  [multipart-converters]
  text/html=/PATH/examples/mail/alternative.py text

In muttrc, for each mail:

  set send_multipart_alternative=yes send_multipart_alternative_filter="/PATH/examples/mail/alternative.py mutt"

For any other program that sends mail, where it has the words of its sendmail:

  /PATH/examples/mail/alternative.py send /usr/sbin/sendmail -oi -oem

The text stays as it is, and is the first alternative. A signature is shown as it is. A mail whose text the library
refuses, or that is signed or encrypted or has HTML, is sent without another alternative.
"""

from __future__ import annotations

import argparse
import email
import email.policy
import pathlib
import re
import subprocess
import sys
from typing import Any

sys.path.append(str(pathlib.Path(__file__).resolve().parents[2] / "bindings/python"))
import cmk  # noqa: E402
from cmk import pages  # noqa: E402

# The headers of a mail stay as its writer folded them.
POLICY = email.policy.default.clone(refold_source="none")
# What a mail has that is signed or encrypted, in part or as a whole.
CLOSED = ("multipart/signed", "multipart/encrypted", "application/pkcs7-mime")
SIGNATURE = re.compile(r"^-- \r?$", re.M)


def page_of(text: str) -> str:
    """Returns the page of the text of a mail. In CommonMark, the line `-- ` makes a heading of the lines before it, so what
    starts with it becomes code."""
    found = SIGNATURE.search(text)
    end = found.start() if found else len(text)
    content = pages.render(text[:end], tables=True, tasks=True, bare_links=True, strike=True)
    signature = "".join(f"    {it}\n" for it in text[end:].splitlines())
    return pages.page(content, pages.render(signature), title="")


def with_html(given: bytes) -> bytes:
    """Returns the bytes of a mail with its HTML, if it can have any."""
    mail: Any = email.message_from_bytes(given, policy=POLICY)
    body = mail.get_body(("plain",))
    is_closed = any(it.get_content_type() in CLOSED for it in mail.walk())
    if body is None or mail.get_body(("html",)) or is_closed:
        return given
    # Without these headers a mail is plain text, and Python would drop the text.
    for part, header, value in ((body, "Content-Type", "text/plain"), (mail, "MIME-Version", "1.0")):
        if header not in part:
            part[header] = value
    try:
        body.add_alternative(page_of(body.get_content()), subtype="html")
    except (cmk.CmkError, LookupError):
        # The library refuses the text, or Python doesn't have its character set.
        return given
    made: bytes = mail.as_bytes()
    return made


def main() -> int | str:
    words = argparse.ArgumentParser(description=__doc__.partition("\n")[0])
    commands = words.add_subparsers(dest="command", required=True, metavar="COMMAND")
    commands.add_parser("text", help="writes the HTML of the text on standard input")
    commands.add_parser("mutt", help="writes the same after its type and an empty line")
    send = commands.add_parser("send", help="passes the mail on standard input to a sendmail, with its HTML")
    send.add_argument("sendmail", metavar="SENDMAIL", nargs=argparse.REMAINDER, help="the program and its arguments")
    asked, given = words.parse_args(), sys.stdin.buffer.read()
    if asked.command == "send":
        return subprocess.run(asked.sendmail, input=with_html(given), check=False).returncode
    try:
        page = page_of(given.decode(errors="surrogateescape"))
    except cmk.CmkError as error:
        return error.line
    sys.stdout.buffer.write(("text/html\n\n" * (asked.command == "mutt") + page).encode())
    return 0


if __name__ == "__main__":
    sys.exit(main())
