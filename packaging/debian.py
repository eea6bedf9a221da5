"""The packages for Debian, made by dpkg's own tools. packaging/debian has what is written by hand."""

from __future__ import annotations

import datetime
import email.utils
import hashlib
import pathlib
import re
import shutil
import tempfile
import zipfile

import proof
from common import SHARED, SONAME, TOP, VERSION, Failed, backend, documents, epoch, gzipped, make, run, write

HERE = TOP / "packaging/debian"
LIBRARIES = "usr/lib/x86_64-linux-gnu"
REVISION = f"{VERSION}-1"
# What is built, by how much is stripped of it.
BUILT = {"all": "usr/bin/cmk", "debug": f"{LIBRARIES}/libcmk.a", "unneeded": f"{LIBRARIES}/{SHARED}"}
# What each package has of the installed files, as patterns.
PACKAGES = {
    "libcmk0": [f"{LIBRARIES}/{SONAME}*"],
    "cmk": [
        "usr/bin/*", "usr/share/man/man1/*", "usr/share/bash-completion/**/*", "usr/share/zsh/**/*",
        "usr/share/fish/**/*",
    ],
    "libcmk-dev": [
        "usr/include/*", f"{LIBRARIES}/libcmk.a", f"{LIBRARIES}/libcmk.so", f"{LIBRARIES}/pkgconfig/*",
        "usr/share/man/man3/*",
    ],
    "python3-cmk": ["usr/lib/python3/**/*"],
}
SCRIPTS = ("postinst", "prerm")


def changelog() -> str:
    """Returns the changelog as Debian has it: the version, and who made it when."""
    maintainer = re.search(r"(?m)^Maintainer: (.*)$", (HERE / "control").read_text())
    if not maintainer:
        raise Failed("packaging/debian/control names no maintainer")
    when = email.utils.format_datetime(datetime.datetime.fromtimestamp(epoch(), datetime.timezone.utc))
    return f"wuravina ({REVISION}) unstable; urgency=medium\n\n  * Version {VERSION}.\n\n -- {maintainer[1]}  {when}\n"


def install(room: pathlib.Path, record: pathlib.Path) -> None:
    """Installs what is built, if it is as recorded, as Debian lays it out into a folder: stripped, and with packed
    manual pages."""
    make(
        "install", f"DESTDIR={room}", "PREFIX=/usr", f"LIBDIR=/{LIBRARIES}", "ZSHDIR=/usr/share/zsh/vendor-completions"
    )
    proof.check(record, room / BUILT["all"])
    for flag, name in BUILT.items():
        run(
            "strip", f"--strip-{flag}", "--remove-section=.comment", "--remove-section=.note",
            "--enable-deterministic-archives", room / name,
        )
    (room / BUILT["unneeded"]).chmod(0o644)
    for page in [path for path in room.glob("usr/share/man/*/*") if path.is_file()]:
        write(page.with_name(f"{page.name}.gz"), gzipped(page.read_bytes()))
        page.unlink()
    site = room / "usr/lib/python3/dist-packages"
    with tempfile.TemporaryDirectory() as folder, zipfile.ZipFile(
        pathlib.Path(folder) / backend.write_wheel(folder)
    ) as wheel:
        for name in [name for name in wheel.namelist() if not name.endswith("/RECORD")]:
            write(site / name, wheel.read(name))


def fill(name: str, room: pathlib.Path, root: pathlib.Path, text: str) -> None:
    """Puts the files of a package into its folder."""
    for path in (
        path for pattern in PACKAGES[name] for path in room.glob(pattern) if path.is_symlink() or path.is_file()
    ):
        to = root / path.relative_to(room)
        to.parent.mkdir(parents=True, exist_ok=True)
        shutil.copy2(path, to, follow_symlinks=False)
    folder = root / "usr/share/doc" / name
    write(folder / "changelog.Debian.gz", gzipped(changelog().encode()))
    write(folder / "changelog.gz", gzipped((TOP / "CHANGELOG.md").read_bytes()))
    write(folder / "copyright", (HERE / "copyright").read_bytes())
    if name == "cmk":
        write(folder / "PROOF.txt", text)
        for path, content in documents().items():
            write(folder / path, content)


def control(name: str, room: pathlib.Path, root: pathlib.Path) -> None:
    """Writes the control files of a package, by dpkg's tools, which run in a folder that has debian/control and
    debian/changelog."""
    there = root / "DEBIAN"
    files = sorted(
        path for path in root.rglob("*") if path.is_file() and not path.is_symlink() and there not in path.parents
    )
    write(
        there / "md5sums",
        "".join(f"{hashlib.md5(file.read_bytes()).hexdigest()}  {file.relative_to(root)}\n" for file in files),
    )
    for source in HERE.glob(f"{name}.*"):
        kind = source.suffix[1:]
        if kind == "symbols":
            run(
                "dpkg-gensymbols", "-q", "-c4", f"-p{name}", f"-v{REVISION}", f"-I{source}", f"-P{root}",
                f"-O{there / kind}", folder=room,
            )
        else:
            write(there / kind, source.read_bytes())
            (there / kind).chmod(0o755 if kind in SCRIPTS else 0o644)
    if name == "libcmk0":
        write(there / "shlibs", f"libcmk 0 libcmk0 (>= {VERSION})\n")
    linked = [file for file in files if file.read_bytes()[:4] == b"\x7fELF"]
    substitutions = f"-T{room}/debian/{name}.substvars"
    if linked:
        run("dpkg-shlibdeps", substitutions, *(f"-e{file}" for file in linked), folder=room)
    run("dpkg-gencontrol", f"-p{name}", substitutions, f"-P{root}", folder=room)


def write_into(folder: pathlib.Path, record: pathlib.Path) -> list[str]:
    """Writes the packages into a folder, and returns their names. The record is for PROOF.txt, which is in the package
    cmk."""
    with tempfile.TemporaryDirectory() as temporary:
        room = pathlib.Path(temporary)
        installed, roots = room / "installed", room / "debian"
        install(installed, record)
        text = proof.text(record, {path: installed / path for path in BUILT.values()})
        write(roots / "control", (HERE / "control").read_bytes())
        write(roots / "changelog", changelog())
        found = []
        for name in PACKAGES:
            root = roots / name
            fill(name, installed, root, text)
            control(name, room, root)
            made = run("dpkg-deb", "--root-owner-group", "-Zxz", "--threads-max=1", "--build", root, folder)
            named = re.search(r"'([^']*\.deb)'", made)
            if not named:
                raise Failed(f"dpkg-deb names no package: {made}")
            found.append(named[1].rpartition("/")[2])
        return found
