#!/usr/bin/env python3
"""Tests the libraries and the programs that cargo builds, of which nothing is proved.

usage: tests.py

Needs what `cargo build --release` makes. Runs `cargo test`, the scripts of checks/ that try these programs, random
sessions in parts, the kit for an adapter of one's own, and `make pages`, side by side on all processors but one.

Prints a line for each part as it ends, and all that a part printed that fails. The last line is `unproved: N passed, M
failed`, where each test of a crate counts, and each other part once. The status is 0 where nothing failed, else 1. A
signal ends the parts with all that they began.
"""
from __future__ import annotations

import os
import pathlib
import re
import resource
import signal
import subprocess
import sys
import tempfile
import time
from typing import IO, NamedTuple

TOP = pathlib.Path(__file__).resolve().parent.parent
BUILT = TOP / "target" / "release"
# How many random sessions a part plays, and the first seed of each part, the longest first.
SESSIONS, SEEDS = 20, (21, 41, 1)
TESTED = re.compile(r"^test result: .* (\d+) passed; (\d+) failed", re.MULTILINE)
SECONDS_BETWEEN_LOOKS = 0.05


class Part(NamedTuple):
    """What is run, under which name."""

    name: str
    command: tuple[str, ...]


def script(name: str, program: str, *arguments: str) -> Part:
    return Part(name, (sys.executable, f"checks/{name}.py", str(BUILT / program), *arguments))


def sessions(name: str, program: str) -> list[Part]:
    parts = [script(name, program, str(SESSIONS), str(seed)) for seed in SEEDS]
    return [part._replace(name=f"{name} from {seed}") for part, seed in zip(parts, SEEDS)]


# The longest first.
PARTS = [
    *sessions("stack_sessions", "stack_adapter"),
    Part("cargo test", ("cargo", "test", "--quiet")),
    Part("pages", ("make", "--no-print-directory", "pages")),
    *sessions("sessions", "pl0dap"),
    script("rows", "pl0dap"),
    script("pl0_pages", "pl0"),
    script("hostile", "pl0dap"),
    script("nonblocking", "pl0dap"),
    script("stack_pause", "stack_adapter"),
    script("stack_sizes", "stack_adapter"),
    Part("author", (sys.executable, "checks/author.py")),
    Part("adapter_kit", (sys.executable, "tools/adapter_kit.py", "--test")),
]


class Running(NamedTuple):
    """A part that runs, in a session of its own, the file to which it prints, and when it began."""

    part: Part
    child: subprocess.Popen[bytes]
    printed: IO[bytes]
    begin: float


def start(part: Part) -> Running:
    printed = tempfile.TemporaryFile()
    child = subprocess.Popen(part.command, cwd=TOP, stdin=subprocess.DEVNULL, stdout=printed, stderr=printed,
                             start_new_session=True)
    return Running(part, child, printed, time.monotonic())


def ended(one: Running) -> tuple[int, int]:
    """Prints the line of a part that has ended, and what it printed where it failed; how many tests passed and failed."""
    one.printed.seek(0)
    text = one.printed.read().decode(errors="replace")
    counts = [(int(passed), int(failed)) for passed, failed in TESTED.findall(text)]
    passed, failed = map(sum, zip(*counts)) if counts else (int(one.child.returncode == 0), 0)
    if one.child.returncode != 0:
        failed = max(failed, 1)
    how = f"{failed} failed" if failed else f"{passed} tests passed" if counts else "passed"
    print(f"{one.part.name:22} {how} in {time.monotonic() - one.begin:.0f} s", flush=True)
    if failed:
        print("\n".join(f"  {line}" for line in text.splitlines()), flush=True)
    return passed, failed


def cores() -> int:
    """How many processors this may use, where the system says it, or how many there are."""
    return len(os.sched_getaffinity(0)) if hasattr(os, "sched_getaffinity") else os.cpu_count() or 1


def run(parts: list[Part], at_once: int, running: list[Running]) -> tuple[int, int]:
    """Runs the parts, so many side by side, which stand in `running`; how many tests passed and failed."""
    waiting, passed, failed = list(parts), 0, 0
    while waiting or running:
        while waiting and len(running) < at_once:
            running.append(start(waiting.pop(0)))
        time.sleep(SECONDS_BETWEEN_LOOKS)
        for one in [one for one in running if one.child.poll() is not None]:
            running.remove(one)
            more, wrong = ended(one)
            passed, failed = passed + more, failed + wrong
    return passed, failed


def main() -> int:
    begin, at_once = time.monotonic(), max(2, cores() - 1)
    running: list[Running] = []
    for number in (signal.SIGINT, signal.SIGTERM, signal.SIGHUP):
        signal.signal(number, lambda number, _: sys.exit(128 + number))
    print(f"Nothing is proved here: `make check` is the merge gate. {len(PARTS)} parts, {at_once} at once:", flush=True)
    try:
        passed, failed = run(PARTS, at_once, running)
    finally:
        for one in running:
            os.killpg(one.child.pid, signal.SIGKILL)
    used = resource.getrusage(resource.RUSAGE_CHILDREN)
    print(f"{time.monotonic() - begin:.0f} seconds, {used.ru_utime + used.ru_stime:.0f} of the processors")
    print(f"unproved: {passed} passed, {failed} failed")
    return 1 if failed else 0


if __name__ == "__main__":
    sys.exit(main())
