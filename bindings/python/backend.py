"""Builds the wheel of the package cmk with nothing but Python, and the same sources give the same bytes.

`pip install ./bindings/python` calls `build_wheel` (PEP 517): that wheel is for every machine, and uses the library that is installed. The
wheel of a release has the library in it.
"""

import base64
import hashlib
import os
import pathlib
import re
import time
import zipfile

HERE = pathlib.Path(__file__).resolve().parent
HEADER = HERE.parent.parent / "include/cmk.h"
# The first second that a ZIP archive can have.
EARLIEST = 315532800


class UnsupportedOperation(Exception):
    """What this backend doesn't do."""


def version():
    """Returns the version, which the header has."""
    return re.search(r'#define CMK_VERSION "(.*)"', HEADER.read_text())[1]


def metadata():
    """Returns what pyproject.toml says, in the form of a wheel's METADATA."""
    said = dict(re.findall(r'(?m)^([\w-]+) = "(.*)"$', (HERE / "pyproject.toml").read_text()))
    lines = ("Metadata-Version: 2.1", f"Name: {said['name']}", f"Version: {version()}", f"Summary: {said['description']}")
    return "".join(f"{it}\n" for it in (*lines, f"Requires-Python: {said['requires-python']}"))


def line_of_record(name, content):
    checksum = base64.urlsafe_b64encode(hashlib.sha256(content).digest()).rstrip(b"=").decode()
    return f"{name},sha256={checksum},{len(content)}\n"


def write_wheel(folder, tag="py3-none-any", library=None):
    """Writes the wheel with a tag, and with a library if there is one, into a folder, and returns the name of the file."""
    stem = f"cmk-{version()}"
    files = {f"cmk/{it.name}": it.read_bytes() for it in sorted(HERE.glob("cmk/*")) if it.suffix in (".py", ".typed")}
    if library:
        files["cmk/libcmk.so.0"] = pathlib.Path(library).read_bytes()
    about = f"Wheel-Version: 1.0\nGenerator: cmk\nRoot-Is-Purelib: {'false' if library else 'true'}\nTag: {tag}\n"
    files[f"{stem}.dist-info/METADATA"] = metadata().encode()
    files[f"{stem}.dist-info/WHEEL"] = about.encode()
    record = f"{stem}.dist-info/RECORD"
    files[record] = "".join([*(line_of_record(*it) for it in files.items()), f"{record},,\n"]).encode()
    when = time.gmtime(max(EARLIEST, int(os.environ.get("SOURCE_DATE_EPOCH", EARLIEST))))[:6]
    wheel = f"{stem}-{tag}.whl"
    with zipfile.ZipFile(pathlib.Path(folder) / wheel, "w", zipfile.ZIP_DEFLATED) as archive:
        for name, content in files.items():
            entry = zipfile.ZipInfo(name, when)
            entry.external_attr, entry.compress_type = 0o100644 << 16, zipfile.ZIP_DEFLATED
            archive.writestr(entry, content)
    return wheel


def build_wheel(wheel_directory, config_settings=None, metadata_directory=None):
    return write_wheel(wheel_directory)


def build_sdist(sdist_directory, config_settings=None):
    raise UnsupportedOperation("the package is built in its repository: take that")
