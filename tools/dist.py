#!/usr/bin/env python3
"""Packs what one needs who only wants to debug: the built programs, their manual pages, and the editors' files.

usage: dist.py

`make install` copies manual pages and scripts into the archive's folder, and editors/vsix.py packs the extension. The
programs are linked anew, with the C library of this computer in them, from the objects that the proved ones were linked
from, once these are seen to give the proved programs. Then each is run with the archive's folder as the root of the
file system, where it finds no other file. The archive's INSTALL.md says how to install it, of which commit and by which
kit the programs were proved, and their digests. The version is the one that the program's help says. The same objects at
the same commit, with the same kit and C library, give the same bytes. Beside the archive stands its own digest, as
`sha256sum --check` wants it; both take their places when they are whole. Prints the archive's place and size. Nothing is
proved.
"""
from __future__ import annotations

import gzip
import hashlib
import os
import pathlib
import re
import shutil
import subprocess
import sys
import tarfile
import tempfile

from pages import VERSIONS
from scratch import TOP

PROVED = ("pl0dap", "pl0dap_from_zero", "pl0")
# The C code of the kit, and how a program is linked by the kit's linker so that it needs no other file.
KIT_ARCHIVES = ("libos_c.a", "liblibc_c.a")
TARGET = "x86_64-unknown-linux-gnu"
STATIC = "-static-pie -s -fuse-ld=lld -Wl,-z,relro,-z,now,--gc-sections,--fatal-warnings".split()
PAGES = ("docs/EDITORS.md", "docs/PL0.md", "docs/TEACHING.md", "docs/ANSWERS.md", "docs/pictures/emacs.png", "LICENSE")
FOLDERS = ("editors", "examples")
LEFT_OUT = shutil.ignore_patterns("drive", "*.py", "__pycache__")
INSTALL = """# pl0dap {version}, for Linux on x86-64

A debug adapter for PL/0, the program `pl0`, and files for editors.

    mkdir -p ~/.local && cp -r bin share ~/.local

This is what `make install` does. `~/.local/bin` has to be in your `PATH`, which `echo $PATH` shows: Debian puts it there
when you log in next, now that the folder exists. `docs/EDITORS.md` says what to do in each editor; what it calls
`out/pl0.vsix` is `editors/pl0.vsix` here, and `editors/listen.py` is `bin/pl0dap-listen`. `docs/PL0.md` describes the
language, and `docs/TEACHING.md` has lessons, of which 1, 2 and 5 need the repository too. Where a link leads to no file here,
it leads to a page of the repository. The programs need no other file of the system, `pl0dap-listen` Python 3.8 or later.

To remove it:

    cd ~/.local && rm -f {installed}

## What was proved

{programs} were proved and built of the commit

    {commit}

of the repository by the kit

    {kit}

Its pages `README.md` and `docs/PROMISES.md` say what is proved, and what isn't. The SHA-256 digests of the programs are

{digests}

The programs contain, in place of your computer's C library,

    {c_library}

which is under the LGPL 2.1. They can be linked with another one from what was proved, which is in `objects`:

    cd objects && gcc -o pl0dap pl0dap.o {archives}
"""


def said(*words: str | pathlib.Path) -> str:
    """What a program prints. Where it fails nothing is packed, and what it reports is printed."""
    try:
        return subprocess.run(words, cwd=TOP, capture_output=True, text=True, check=True).stdout.strip()
    except subprocess.CalledProcessError as failed:
        sys.exit(f"not packed, since {failed.cmd[0]} failed:\n{failed.stderr}{failed.stdout}")


def version() -> str:
    """The version, where it is defined."""
    place, pattern = next(iter(VERSIONS.items()))
    return re.search(pattern, (TOP / place).read_text(encoding="utf-8"), re.MULTILINE)[1]


def commit() -> str:
    """The commit of the sources, and whether they differ from it."""
    changed = said("git", "status", "--porcelain", "--untracked-files=no")
    return said("git", "rev-parse", "HEAD") + (", with changes that aren't committed" if changed else "")


def c_library() -> str:
    """What the C library that programs are linked with says of itself."""
    library = pathlib.Path(said("gcc", "-print-file-name=libc.a"))
    return re.search(rb"GNU C Library .*\d", library.read_bytes())[0].decode()


def link(folder: pathlib.Path, kit: pathlib.Path) -> None:
    """Links the programs, with the C library in them, from what the proved ones were linked from, which is kept."""
    objects, tools = folder / "objects", kit / "toolchain"
    objects.mkdir()
    for name in PROVED:
        program, proved = folder / "bin" / name, TOP / "crates" / name / "out" / name
        said("cp", f"{proved}.o", *(kit / "c" / archive for archive in KIT_ARCHIVES), objects)
        files = [objects / file for file in (f"{name}.o", *KIT_ARCHIVES)]
        said(kit / "bin" / "rattle-link", "--target", TARGET, "--toolchain", tools, "-o", program, *files)
        if program.read_bytes() != proved.read_bytes():
            sys.exit(f"not packed, since {proved} wasn't linked from {proved}.o")
        said("gcc", *STATIC, "-B", tools / "bin", "-o", program, *files)


def run_alone(folder: pathlib.Path) -> None:
    """Runs the programs where the archive's folder is the root of the file system: a session and a whole program."""
    alone = [*["unshare", "--map-root-user"] * (os.geteuid() != 0), "chroot", folder]
    for name in ("pl0dap", "pl0dap_from_zero"):
        said(sys.executable, "demo/session.py", "demo/factorial.session", *alone, f"/bin/{name}")
    if (written := said(*alone, "/bin/pl0", "run", "examples/factorial.pl0")) != "3628800":
        sys.exit(f"not packed, since pl0 alone writes {written}")


def install_page(folder: pathlib.Path) -> str:
    """What the archive says of itself."""
    programs = [folder / "bin" / name for name in PROVED]
    copied = sorted(path.relative_to(folder) for top in ("bin", "share") for path in (folder / top).rglob("*")
                    if path.is_file())
    return INSTALL.format(
        version=version(), c_library=c_library(), installed=" ".join(map(str, copied)),
        programs=", ".join(f"`{name}`" for name in PROVED), commit=commit(), kit=said("rt", "version"),
        archives=" ".join(KIT_ARCHIVES),
        digests="\n".join(f"    {hashlib.sha256(one.read_bytes()).hexdigest()}  bin/{one.name}" for one in programs),
    )


def fill(folder: pathlib.Path) -> None:
    """Makes the archive's folder."""
    if unknown := said("git", "status", "--porcelain", "--ignored", "--", *FOLDERS, ":!*/__pycache__"):
        sys.exit(f"not packed, since git doesn't have these as they are:\n{unknown}")
    said("make", "--silent", "install", "DESTDIR=", f"PREFIX={folder}")
    link(folder, pathlib.Path(said("rt", "doc")).parent)
    for name in FOLDERS:
        shutil.copytree(TOP / name, folder / name, ignore=LEFT_OUT)
    (folder / "docs" / "pictures").mkdir(parents=True)
    for name in PAGES:
        shutil.copy(TOP / name, folder / name)
    said(sys.executable, "editors/vsix.py", folder / "editors" / "pl0.vsix")
    run_alone(folder)
    (folder / "INSTALL.md").write_text(install_page(folder), encoding="utf-8")


def pack(folder: pathlib.Path, archive: pathlib.Path) -> None:
    """Packs a folder: nobody's files, as old as the commit."""
    time = int(said("git", "log", "-1", "--format=%ct"))

    def plain(entry: tarfile.TarInfo) -> tarfile.TarInfo:
        entry.uid = entry.gid = 0
        entry.uname = entry.gname = ""
        entry.mtime = time
        entry.mode = 0o755 if entry.isdir() or entry.mode & 0o100 else 0o644
        return entry

    with gzip.GzipFile(archive, "wb", mtime=time) as pressed, tarfile.open(fileobj=pressed, mode="w") as file:
        file.add(folder, folder.name, filter=plain)


def main() -> int:
    if len(sys.argv) != 1:
        print(__doc__, file=sys.stderr)
        return 4
    name, place = f"pl0dap-{version()}-x86_64-linux", TOP / "out"
    archive = place / f"{name}.tar.gz"
    place.mkdir(exist_ok=True)
    with tempfile.TemporaryDirectory(dir=place) as temporary:
        folder = pathlib.Path(temporary) / name
        fill(folder)
        new = folder.with_name(archive.name)
        pack(folder, new)
        digest = folder.with_name(f"{archive.name}.sha256")
        digest.write_text(f"{hashlib.sha256(new.read_bytes()).hexdigest()}  {archive.name}\n", encoding="ascii")
        for whole in (new, digest):
            whole.replace(place / whole.name)
    print(f"{archive.relative_to(TOP)}: {archive.stat().st_size} bytes")
    return 0


if __name__ == "__main__":
    try:
        sys.exit(main())
    except OSError as error:
        sys.exit(f"not packed: {error}")
