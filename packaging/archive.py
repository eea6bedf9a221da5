"""The archive of a release, laid out for `tar -C /usr/local`."""

from __future__ import annotations

import pathlib
import shutil

from common import OUT, SHARED, TOP, VERSION, documents, make, write, write_archive

NAME = f"cmk-{VERSION}-linux-x86_64.tar.xz"
BUILT = ("bin/cmk", "lib/libcmk.a", f"lib/{SHARED}")
# The bindings that the tools of their languages build over the installed library, and the examples in programs that are
# over the package for Python, each with its files.
SHARED_FILES = {
    "bindings/go": "cmk.go cmk_test.go go.mod tree.go",
    "bindings/node": "binding.gyp cmk.c index.d.ts index.js package.json test/cmk.test.js",
    "bindings/php": "cmk.stub.php config.m4 php_cmk.c php_cmk_arguments.h tests/errors.phpt tests/outputs.phpt "
    "tests/stub.phpt tests/tree.phpt",
    "bindings/ruby": "Rakefile cmk.gemspec lib/cmk.rb lib/cmk/version.rb test/test_cmk.rb",
    "examples": "cgit/about.py cgit/head.html corpus/corpus.py mail/alternative.py mkdocs/cmk_mkdocs.py "
    "sphinx/cmk_sphinx.py",
}
# The pkg-config file finds its prefix by its own place. make reads $$ as $.
RELOCATED = ("PREFIX=$${pcfiledir}/../..", "LIBDIR=$${prefix}/lib", "INCLUDEDIR=$${prefix}/include")


def install(room: pathlib.Path) -> pathlib.Path:
    """Installs what is built into a folder, as below a prefix, and returns that folder."""
    make("install", f"DESTDIR={room}", "PREFIX=/usr/local")
    prefix = room / "usr/local"
    make(f"{OUT}/cmk.pc", *RELOCATED)
    shutil.copy(TOP / OUT / "cmk.pc", prefix / "lib/pkgconfig/cmk.pc")
    return prefix


def write_into(folder: pathlib.Path, prefix: pathlib.Path, proof: str) -> str:
    """Writes the archive of what install returned, with the bindings, examples and the pages for users, into a folder,
    and returns its name."""
    for folder_of, names in SHARED_FILES.items():
        for name in names.split():
            file = pathlib.Path(folder_of, name)
            write(prefix / "share/cmk" / file, (TOP / file).read_bytes())
            if (TOP / file).stat().st_mode & 0o100:
                (prefix / "share/cmk" / file).chmod(0o755)
    for name, content in documents().items():
        write(prefix / "share/doc/cmk" / name, content)
    write(prefix / "share/doc/cmk/PROOF.txt", proof)
    write_archive(folder / NAME, prefix)
    return NAME
