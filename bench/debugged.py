#!/usr/bin/env python3
"""Times whole debugged runs, from `configurationDone` to `exited`, beside a plain interpreter of the same code in C;
and steps over what runs long, conditions, and a loop that writes, beside `continue`.

usage: debugged.py PROGRAM

PROGRAM is pl0dap. Programs such as students write, of bench/programs, run to their ends in a session without
breakpoints and in the C interpreter, in turn, so that whatever else the computer does slows both. The figures to hold
are 1.8 times the C interpreter's steps a second in the median, and 1.5 at least. Then a run of other commands, or under
a breakpoint, is timed in turn with a run of the same text without, and `next` and `stepOut` are to take no longer.
"""
from __future__ import annotations

import os
import statistics
import subprocess
import sys
import tempfile
import time
from typing import NamedTuple

from instructions import called, scaled, writing
from machine import HERE, interpreter, rate
from session import Client

RUNS = 4
COUNTED = 5_000_000
WRITTEN = 100_000
PROGRAMS = ("ack", "fib", "gcd", "collatz", "levels", "primes")


def run_seconds(client: Client) -> float:
    """How long the program runs to its end, before which it may write numbers."""
    begin = time.perf_counter()
    client.ask("configurationDone", {})
    while b'"event":"exited"' not in client.content():
        pass
    return time.perf_counter() - begin


def seconds(program: str, text: str) -> float:
    """How long a session lets the program run."""
    folder, name = os.path.split(text)
    client = Client([program], folder)
    client.launch(name, False)
    taken = run_seconds(client)
    client.end()
    return taken


def ratio(name: str, program: str, yardstick: str, listing: str) -> float:
    """The best of some runs of each: how often as many steps a second the session takes."""
    text = os.path.join(HERE, "programs", f"{name}.pl0")
    with open(listing, "w", encoding="ascii") as file:
        subprocess.run([program, "--check", text], stdout=file, check=True)
    ours, theirs = [], []
    for _ in range(RUNS):
        ours.append(seconds(program, text))
        steps, speed = rate([yardstick, listing])
        theirs.append(speed)
    session = steps / min(ours)
    print(f"{name:10} {steps:12,} {session / 1e6:10.1f} {max(theirs) / 1e6:10.1f} {session / max(theirs):8.2f}",
          flush=True)
    return session / max(theirs)


class Way(NamedTuple):
    """A way to run a text: what is asked at its entry, of which the last is timed, or else a breakpoint at its loop's
    body; and what `continue` runs beside it, if that isn't the text itself."""

    name: str
    text: str
    asked: tuple[str, ...] = ()
    breakpoint: dict[str, str] = {}
    beside: str | None = None


def ways() -> list[Way]:
    count, primes = scaled("count", "100000000"), scaled("primes", "150000")
    text, writes = f"var x;\nwhile x < {COUNTED} do\nx := x + 1.\n", writing(8 * WRITTEN)
    return [
        Way("`next` over a call that runs `primes`", called(primes)(150_000), ("next",)),
        Way("`stepOut` of a procedure that runs `count`", called(count)(COUNTED), ("stepIn", "stepOut")),
        Way("a hit condition in a loop", text, breakpoint={"hitCondition": "1000000000"}),
        Way("a false condition of any form in a loop", text, breakpoint={"condition": "x + 1 < 0"}),
        Way("a loop of which each tenth step writes", writes, beside=writes.replace("! x", "x := x")),
    ]


def way_seconds(program: str, way: Way, folder: str) -> float:
    """How long the last of what is asked takes, or a run to the end."""
    with open(os.path.join(folder, "way.pl0"), "w", encoding="ascii") as file:
        file.write(way.text)
    client = Client([program], folder)
    client.launch("way.pl0", bool(way.asked))
    if way.breakpoint:
        lines = [{"line": 3, **way.breakpoint}]
        client.ask("setBreakpoints", {"source": {"path": "way.pl0"}, "breakpoints": lines})
    if way.asked:
        client.run_to("stopped")
        *_, taken = (client.seconds(command, {"threadId": 1}, 2) for command in way.asked)
    else:
        taken = run_seconds(client)
    client.end()
    return taken


def show_way(program: str, way: Way, folder: str) -> None:
    """The best of some runs, in turn with runs by `continue`."""
    plain = Way("", way.beside or way.text)
    times = [(way_seconds(program, way, folder), way_seconds(program, plain, folder)) for _ in range(RUNS)]
    taken, beside = (min(column) for column in zip(*times))
    print(f"{way.name:44} {taken:8.3f} {beside:8.3f} {beside / taken:8.2f}", flush=True)


def main() -> int:
    program = os.path.abspath(sys.argv[1])
    print(f"{'program':10} {'steps':>12} {'session':>10} {'C':>10} {'ratio':>8}   (million steps a second)")
    with tempfile.TemporaryDirectory() as room:
        yardstick, listing = interpreter(room), os.path.join(room, "listing")
        found = [ratio(name, program, yardstick, listing) for name in PROGRAMS]
        print(f"median {statistics.median(found):.2f}, least {min(found):.2f}")
        print(f"{'way':44} {'seconds':>8} {'continue':>8} {'share':>8}")
        for way in ways():
            show_way(program, way, room)
    return 0


if __name__ == "__main__":
    sys.exit(main())
