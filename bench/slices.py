#!/usr/bin/env python3
"""Times a debugged run beside the bare machine's.

usage: slices.py SPEED

SPEED is the program `speed`. It steps the machine alone; it hands a debuggee to the runner, over ports in memory; and
it runs a debuggee in slices: without breakpoints, with one in the loop whose condition is false, and with 256 at lines
that are never reached. All run the same text, in turn, so that whatever else the computer does slows each. The figures
to hold: slices without breakpoints at least 0.85 of the machine's steps a second; with 256 elsewhere 0.85 of these;
with a false condition 150 million.
"""
from __future__ import annotations

import os
import re
import resource
import subprocess
import sys
import tempfile

RUNS = 15
TURNS = 20_000_000
ELSEWHERE = 256


def text() -> str:
    """A loop, in front of which stands a procedure of many lines that nobody calls."""
    idle = "".join(f"x := {number};\n" for number in range(ELSEWHERE))
    return f"var x;\nprocedure idle;\nbegin\n{idle}end;\nwhile x < {TURNS} do\nx := x + 1.\n"


def used() -> float:
    """The processor's time of all runs so far."""
    usage = resource.getrusage(resource.RUSAGE_CHILDREN)
    return usage.ru_utime + usage.ru_stime


def rate(command: list[str]) -> float:
    """Steps a second of the processor's time, the command's start included."""
    begin = used()
    said = subprocess.run(command, capture_output=True, text=True, check=True).stdout
    return int(re.search(r"after (\d+) steps", said).group(1)) / (used() - begin)


def main() -> int:
    speed = os.path.abspath(sys.argv[1])
    with tempfile.TemporaryDirectory() as room:
        path = os.path.join(room, "loop.pl0")
        with open(path, "w") as sink:
            sink.write(text())
        body = ELSEWHERE + 6
        commands = {
            "machine alone": [speed, "machine", path],
            "runner, ports in memory": [speed, "work", path],
            "slices, no breakpoints": [speed, "slices", path],
            "256 breakpoints elsewhere": [speed, "slices", path, "4", str(ELSEWHERE)],
            "a false condition in the loop": [speed, "slices", path, str(body), "1", "x < 0"],
        }
        best = dict.fromkeys(commands, 0.0)
        for _ in range(RUNS):
            for name, command in commands.items():
                best[name] = max(best[name], rate(command))
        machine, free = best["machine alone"], best["slices, no breakpoints"]
        print(f"{'run':32} {'million steps/s':>16} {'of the machine':>15} {'of no breakpoints':>18}")
        for name, found in best.items():
            print(f"{name:32} {found / 1e6:16.1f} {found / machine:15.2f} {found / free:18.2f}")
    return 0


if __name__ == "__main__":
    sys.exit(main())
