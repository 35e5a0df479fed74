#!/usr/bin/env python3
"""Writes what an adapter of one's own stands on into a folder, or a later version of it in place of an earlier one.

usage: adapter_kit.py FOLDER
       adapter_kit.py --test

FOLDER gets the seven crates without their wrong bodies, their lines of crates.txt, HANDLES, tools that speak with an
adapter and record what an editor says, and VERSION: the version, the commit, and the digest of each file, which
`sha256sum --check --quiet VERSION` compares. Where FOLDER has a VERSION, its files go first, unless one was changed:
then nothing is done, and the file is named. All else in FOLDER stays, and so do other lines of crates.txt.

With --test it is written into a temporary folder, twice, with a crate of one's own in it, and looked at.
"""
from __future__ import annotations

import hashlib
import pathlib
import shutil
import subprocess
import sys
import tempfile

from dist import version
from scratch import TOP, crate_lines, libraries

CRATES = ("byte_streams", "dap_frame", "dap_server", "dap_bodies", "dap_reader", "debuggee", "dap_debug")
TOOLS = ("tools/talk.py", "tools/record.py", "checks/lib/client.py", "checks/lib/__init__.py")
HANDLES = "HANDLES"  # which an author may have changed, so that it is written once
LINES, VERSION = "crates.txt", "VERSION"
WRONG_BODIES = ("must-fail", "plants.txt")


def said(*words: str) -> str:
    """What git prints."""
    return subprocess.run(["git", *words], cwd=TOP, stdout=subprocess.PIPE, text=True, check=True).stdout.strip()


def names() -> list[str]:
    """The files, by their names in the repository."""
    listed = said("ls-files", *(f"crates/{crate}" for crate in CRATES)).splitlines()
    return [*(name for name in listed if name.split("/")[2] not in WRONG_BODIES and (TOP / name).exists()), *TOOLS]


def digest(file: pathlib.Path) -> str:
    return hashlib.sha256(file.read_bytes()).hexdigest()


def former(folder: pathlib.Path) -> dict[str, str]:
    """The digests of the version that is there."""
    if not (folder / VERSION).exists():
        return {}
    lines = [line for line in (folder / VERSION).read_text(encoding="utf-8").splitlines() if not line.startswith("#")]
    return {name: found for found, name in (line.split("  ", 1) for line in lines)}


def changed(folder: pathlib.Path) -> list[str]:
    """The files of the version that is there which were changed since."""
    return [name for name, found in former(folder).items() if (folder / name).exists() and digest(folder / name) != found]


def with_lines(text: str) -> str:
    """A crates.txt with the crates' lines, before those that are there."""
    kept = [line for line in text.splitlines() if line.partition(":")[0].split()[:1] not in [[crate] for crate in CRATES]]
    return "\n".join([*(crate_lines()[crate] for crate in CRATES), *kept]) + "\n"


def write(folder: pathlib.Path) -> None:
    """Writes the kit into a folder."""
    for name in former(folder):
        (folder / name).unlink(missing_ok=True)
    for name in names():
        (folder / name).parent.mkdir(parents=True, exist_ok=True)
        shutil.copy(TOP / name, folder / name)
    if not (folder / HANDLES).exists():
        shutil.copy(TOP / HANDLES, folder / HANDLES)
    lines = folder / LINES
    lines.write_text(with_lines(lines.read_text(encoding="utf-8") if lines.exists() else ""), encoding="utf-8")
    is_changed = ", with changes" if said("status", "--porcelain", "--", *names()) else ""
    head = f"# pl0dap {version()}, commit {said('rev-parse', 'HEAD')}{is_changed}\n"
    sums = "".join(f"{digest(folder / name)}  {name}\n" for name in sorted(names()))
    (folder / VERSION).write_text(head + sums, encoding="utf-8")


def wrong() -> list[str]:
    """What is wrong with a kit that is written over another one."""
    found = [f"{crate} uses {used}, which isn't in it" for crate in CRATES for used in libraries(crate) if used not in CRATES]
    with tempfile.TemporaryDirectory() as place:
        folder = pathlib.Path(place)
        write(folder)
        (folder / "crates" / "mine" / "src").mkdir(parents=True)
        (folder / "crates" / "mine" / "src" / "main.rt").write_text("mine")
        own, gone = "mine may_wait=1: dap_debug", folder / "crates" / CRATES[0] / "src" / "gone.rt"
        with (folder / LINES).open("a") as lines:
            lines.write(own + "\n")
        gone.write_text("of an earlier version")
        with (folder / VERSION).open("a") as sums:
            sums.write(f"{digest(gone)}  {gone.relative_to(folder)}\n")
        write(folder)
        if subprocess.run(["sha256sum", "--check", "--quiet", VERSION], cwd=folder).returncode:
            found.append("the digests aren't those of the files")
        if gone.exists() or not (folder / "crates" / "mine" / "src" / "main.rt").exists():
            found.append("a file of an earlier version is left, or one of the author's gone")
        if (folder / LINES).read_text().splitlines() != [*(crate_lines()[crate] for crate in CRATES), own]:
            found.append("crates.txt has other lines than these crates and the author's")
        (folder / names()[0]).write_text("changed")
        if changed(folder) != [names()[0]]:
            found.append("a changed file isn't noticed")
        for tool in ("talk.py", "record.py"):
            run = subprocess.run([sys.executable, f"tools/{tool}"], cwd=folder, capture_output=True, text=True)
            if "usage: " not in run.stdout + run.stderr:
                found.append(f"tools/{tool} can't be started")
    return found


def main() -> int:
    if len(sys.argv) != 2:
        print(__doc__, file=sys.stderr)
        return 4
    if sys.argv[1] == "--test":
        found = wrong()
        print("\n".join(found) or f"the kit for an adapter of one's own: {len(names())} files, with their digests")
        return 1 if found else 0
    folder = pathlib.Path(sys.argv[1]).expanduser()
    if found := changed(folder):
        print("not written, since these were changed:\n" + "\n".join(found), file=sys.stderr)
        return 1
    folder.mkdir(parents=True, exist_ok=True)
    write(folder)
    print(f"{folder}: {len(names())} files, of {len(CRATES)} crates and tools; docs/YOUR_OWN_ADAPTER.md says what comes then")
    return 0


if __name__ == "__main__":
    sys.exit(main())
