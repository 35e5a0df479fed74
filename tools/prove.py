#!/usr/bin/env python3
"""Proves the libraries of programs, side by side where none stands below another, those with the longest chain above
them first; and then the programs, which it builds side by side.

usage: prove.py PROGRAM..

While `rt` works on a crate it keeps others from all crates below it, so a checkout proves nearly one crate at a time.
So a few copies of the crates are made, in a temporary folder; in each a library at a time is proved, and what `rt`
keeps of it in `out/` is brought to the checkout, from where the other copies take it; so is a program, once it is built.
COPIES says how many, by default one a processor, as far as there is memory: each takes up to 5 GB. Prints a line for each
library as it is proved and each program as it is built, and what `rt` printed where one isn't: then the status is 1, and
those above it aren't tried.
"""
from __future__ import annotations

import concurrent.futures
import os
import pathlib
import shutil
import subprocess
import sys
import tempfile
import time
from typing import NamedTuple

from scratch import TOP, crate_names, libraries

COPY_MEMORY = 5
PARTS = ("src", "specs", "proofs")
# What `rt` keeps of a library in `out/`: what is proved of it, by a checksum of what it was made from, and its work.
PROVED, WORK = "rlib", "incremental"


class Proof(NamedTuple):
    """How the proof of a library or program went: its status, what was printed, and the minutes."""

    status: int
    text: str
    minutes: float


def with_libraries(programs: list[str]) -> list[str]:
    """These programs, and the libraries below them, each once."""
    return [*dict.fromkeys(library for program in programs for library in libraries(program)), *programs]


def is_program(name: str) -> bool:
    return (TOP / "crates" / name / "src" / "main.rt").is_file()


def lines_of(crate: str) -> int:
    """How many lines there are to check in a crate, which tells roughly how long it takes."""
    files = [file for part in PARTS for file in (TOP / "crates" / crate / part).rglob("*") if file.is_file()]
    return sum(file.read_bytes().count(b"\n") for file in files)


def chains(names: list[str]) -> dict[str, int]:
    """The lines of each library together with those of the longest chain above it."""
    found: dict[str, int] = {}
    for name in sorted(names, key=lambda one: -len(libraries(one))):
        found[name] = lines_of(name) + max((found[above] for above in found if name in libraries(above)), default=0)
    return found


def copy_to(folder: pathlib.Path) -> pathlib.Path:
    """Copies the repository's crates, without what was built of them."""
    ignored = shutil.ignore_patterns("out", "must-fail", "plants.txt")
    shutil.copytree(TOP / "crates", folder / "crates", ignore=ignored)
    for name in ("crates.txt", "HANDLES"):
        shutil.copy(TOP / name, folder)
    return folder


def jobs(running: int, ready: int) -> int:
    """How many processors work on a library: all where it is alone, two while less than half of them have work, else
    one."""
    cores = len(os.sched_getaffinity(0))
    if running == 0 and ready == 1:
        return cores
    return 2 if 2 * running < cores else 1


def stamp(kept: pathlib.Path) -> str | None:
    """The checksum of what a library was proved from, if it is proved."""
    file = kept / "stamp"
    return file.read_text() if file.is_file() else None


def bring(name: str, part: str, source: pathlib.Path, target: pathlib.Path) -> None:
    """Copies a part of what is kept of a library from one copy of the repository to another, unless it is there."""
    kept, place = (top / "crates" / name / "out" / part for top in (source, target))
    if kept.is_dir() and (stamp(kept) is None or stamp(kept) != stamp(place)):
        shutil.rmtree(place, ignore_errors=True)
        place.parent.mkdir(exist_ok=True)
        subprocess.run(["cp", "-a", "--reflink=auto", kept, place], check=True)


def bring_program(name: str, source: pathlib.Path) -> None:
    """Copies a program, and the object that it was linked from, to the checkout from a copy in which it was built."""
    place = TOP / "crates" / name / "out"
    place.mkdir(exist_ok=True)
    for file in (name, f"{name}.o"):
        shutil.copy(source / "crates" / name / "out" / file, place)


def prove(top: pathlib.Path, name: str, processors: int) -> Proof:
    """Proves a library, or builds a program, in a copy of the repository, over what the checkout keeps of the libraries
    below, and brings it there. `rt run` builds a program and runs it, here for its help."""
    begin = time.monotonic()
    for library in [*libraries(name), name]:
        bring(library, PROVED, TOP, top)
    bring(name, WORK, TOP, top)
    command = ["rt", "run", "--", "--help"] if is_program(name) else ["rt", "lib", "--jobs", str(processors)]
    run = subprocess.run(
        command, cwd=top / "crates" / name, stdin=subprocess.DEVNULL,
        stdout=subprocess.PIPE, stderr=subprocess.STDOUT, text=True, errors="replace",
    )
    if run.returncode == 0:
        bring(name, PROVED, top, TOP)
        bring(name, WORK, top, TOP)
        if is_program(name):
            bring_program(name, top)
    return Proof(run.returncode, run.stdout, (time.monotonic() - begin) / 60)


class Proving:
    """Libraries and programs that wait for a proof, those that are proved, and copies in which nothing is proved now."""

    def __init__(self, names: list[str], copies: list[pathlib.Path]):
        self.chains, self.copies = chains(names), copies
        self.waiting, self.proved, self.failed = set(names), set(), False

    def ready(self) -> list[str]:
        """The libraries whose own are all proved, those with the longest chain first."""
        found = [name for name in self.waiting if self.proved.issuperset(libraries(name))]
        return sorted(found, key=lambda name: -self.chains[name])

    def ends(self, name: str, proof: Proof) -> None:
        how = ("built" if is_program(name) else "proved") if proof.status == 0 else "not proved"
        print(f"{name:16} {how} in {proof.minutes:.1f} minutes", flush=True)
        if proof.status == 0:
            self.proved.add(name)
        else:
            self.failed = True
            print("\n".join(f"  {line}" for line in proof.text.splitlines()), flush=True)

    def run(self) -> None:
        """Proves libraries and programs until none is left, or one isn't proved."""
        running: dict[concurrent.futures.Future, tuple[str, pathlib.Path]] = {}
        with concurrent.futures.ThreadPoolExecutor(len(self.copies)) as pool:
            while True:
                ready = [] if self.failed else self.ready()
                for name in ready[:len(self.copies)]:
                    self.waiting.remove(name)
                    copy = self.copies.pop()
                    running[pool.submit(prove, copy, name, jobs(len(running), len(ready)))] = name, copy
                if not running:
                    return
                done, _ = concurrent.futures.wait(running, return_when=concurrent.futures.FIRST_COMPLETED)
                for one in done:
                    name, copy = running.pop(one)
                    self.copies.append(copy)
                    self.ends(name, one.result())


def number_of_copies() -> int:
    """As many as told, or one a processor, as far as there is memory."""
    if told := os.environ.get("COPIES"):
        return int(told)
    memory = os.sysconf("SC_PAGE_SIZE") * os.sysconf("SC_AVPHYS_PAGES") / 2**30
    return max(1, min(len(os.sched_getaffinity(0)), int(memory / COPY_MEMORY)))


def main() -> int:
    programs = crate_names(sys.argv[1:])
    if not programs:
        sys.exit(__doc__)
    if shutil.which("rt") is None:
        sys.exit("rt, the command of the Rattle kit, isn't on the path: README.md, Try it")
    begin, names = time.monotonic(), with_libraries(programs)
    with tempfile.TemporaryDirectory(prefix="pl0dap-") as folder:
        copies = [copy_to(pathlib.Path(folder, str(number))) for number in range(number_of_copies())]
        print(f"{len(names)} libraries and programs are proved, in {len(copies)} copies of the crates", flush=True)
        proving = Proving(names, copies)
        proving.run()
    minutes = (time.monotonic() - begin) / 60
    print(f"{len(proving.proved)} of {len(names)} libraries and programs are proved, in {minutes:.1f} minutes", flush=True)
    return 1 if proving.failed else 0


if __name__ == "__main__":
    sys.exit(main())
