#!/usr/bin/env python3
"""Times the machine's steps beside those of two interpreters of the same code in C.

usage: machine.py PROGRAM SPEED

PROGRAM is pl0dap, whose `--check` gives the code to the interpreters: the plain one takes an instruction at a time; the
fused one has the machine's own operations, with computed goto. SPEED is the program `speed`, which steps the machine. All
run each of bench/programs to its end, in turn, so that whatever else the computer does slows all. The figures to hold are
5 times the plain interpreter's steps a second for `count`, 3.7 for `links` and 1.5 for `divide`.
"""
from __future__ import annotations

import os
import re
import subprocess
import sys
import tempfile
import time

HERE = os.path.dirname(os.path.abspath(__file__))
RUNS = 4
# Those of bench/programs, each to its end.
PROGRAMS = ("count", "links", "divide", "primes", "nested")


def interpreter(room: str, name: str = "interpreter", compiler: str = "clang") -> str:
    """Builds an interpreter in C into a folder. At -O2, clang 14's plain one runs six of the seven programs of
    bench/programs faster than gcc 12's, by up to 28 per cent; gcc's runs `fib` faster, by 8. gcc's
    build of the fused one needs fewer instructions in most."""
    path = os.path.join(room, name)
    subprocess.run([compiler, "-O2", "-o", path, os.path.join(HERE, f"{name}.c")], check=True)
    return path


def rate(command: list[str]) -> tuple[int, float]:
    """How many steps the command says that it took, and how many a second that is, the command's start included."""
    begin = time.monotonic()
    said = subprocess.run(command, capture_output=True, text=True, check=True).stdout
    seconds = time.monotonic() - begin
    steps = int(re.search(r"after (\d+) steps", said).group(1))
    return steps, steps / seconds


def row(name: str, *commands: list[str]) -> None:
    """The best of some runs of the machine and of each interpreter."""
    best = [0.0] * len(commands)
    for _ in range(RUNS):
        taken = []
        for index, command in enumerate(commands):
            steps, speed = rate(command)
            taken.append(steps)
            best[index] = max(best[index], speed)
        if len(set(taken)) != 1:
            sys.exit(f"{name}: {taken[0]} steps, and {taken[1:]} in C")
    ours, *others = (speed / 1e6 for speed in best)
    print(f"{name:10} {taken[0]:12,} {ours:10.1f}" + "".join(f" {one:10.1f} {ours / one:8.2f}" for one in others))


def main() -> int:
    program, speed = (os.path.abspath(word) for word in sys.argv[1:3])
    print(f"{'program':10} {'steps':>12} {'machine':>10} {'plain C':>10} {'ratio':>8} {'fused C':>10} {'ratio':>8}   "
          "(million steps a second)")
    with tempfile.TemporaryDirectory() as room:
        yardsticks = [interpreter(room), interpreter(room, "fused", "gcc")]
        for name in PROGRAMS:
            text = os.path.join(HERE, "programs", f"{name}.pl0")
            listing = os.path.join(room, f"{name}.listing")
            with open(listing, "w") as sink:
                subprocess.run([program, "--check", text], stdout=sink, check=True)
            row(name, [speed, "machine", text], *([yardstick, listing] for yardstick in yardsticks))
    return 0


if __name__ == "__main__":
    sys.exit(main())
