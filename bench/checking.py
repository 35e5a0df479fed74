#!/usr/bin/env python3
"""Times `--check` on generated programs of several shapes, at 16, 32 and 64 KiB.

usage: checking.py PROGRAM

Each text is lawful. What is looked at is the growth: twice the text is to take at most 2.3 times the time. The time of
the program's start is taken off. In the shapes `deeper` and `farther` the nesting grows with the text, up to its limit
of 64 levels.
"""
from __future__ import annotations

import os
import resource
import subprocess
import sys
import tempfile

KIB = 1024
LIMIT = 64 * KIB
NAMES = 1024
LEVELS = 64
RUNS = 60
# What twice the text may take.
MOST = 2.3


def fill(size: int, front: str, piece, back: str) -> str:
    """The front, as many pieces as fit, numbered from 0, and the back."""
    parts = [front]
    left = size - len(front) - len(back)
    number = 0
    while len(text := piece(number)) <= left:
        parts.append(text)
        left -= len(text)
        number += 1
    return "".join(parts) + back


def variables(count: int) -> str:
    return "var " + ",".join(f"v{n}" for n in range(count)) + ";"


def statements(size: int) -> str:
    """Assignments in a row."""
    return fill(size, "var x;\nbegin ", lambda n: "x := x + 1;\n", "end.\n")


def names(size: int) -> str:
    """As many variables as a block may have, up to half the text, and their uses."""
    few = variables(min(NAMES, size // 16))
    count = few.count(",") + 1
    return fill(size, few + "\nbegin ", lambda n: f"v{n % count}:=v{n * 7 % count};\n", "end.\n")


def sums(size: int) -> str:
    """One expression of many terms."""
    return fill(size, "var x;\n! x", lambda n: " + x * 2", ".\n")


def procedures(size: int) -> str:
    """Blocks in a row, each called once."""
    count = min(NAMES, size // 40)
    blocks = "".join(f"procedure p{n};;\n" for n in range(count))
    return fill(size, blocks + "begin ", lambda n: f"call p{n % count};\n", "end.\n")


def nested(size: int, levels: int = LEVELS) -> str:
    """Blocks in one another as deep as may be, with statements of an equal share in each."""
    share = size // levels - len("procedure p00;begin x:=0 end;\n") - len(";end;\n")
    front = "".join(f"procedure p{n:02};\n" for n in range(levels - 1))
    body = "begin x:=0" + ";x:=x+1" * max(0, share // len(";x:=x+1")) + " end"
    return "var x;\n" + front + (body + ";\n") * (levels - 1) + body + ".\n"


def chains(size: int, depth: int = LEVELS - 1) -> str:
    """Chains of nested blocks, one after the other."""
    chain = "procedure p{};" + "procedure p;" * (depth - 1) + ";" * depth + "\n"
    return fill(size, "", lambda n: chain.format(n), ".\n")


def deeper(size: int) -> str:
    """Such chains, whose depth grows with the text."""
    return chains(size, size // KIB - 1)


def outward(size: int, depth: int = LEVELS - 2) -> str:
    """Uses in the innermost block of a name of the outermost."""
    front = "var x;\n" + "".join(f"procedure p{n:02};var y{n:02};\n" for n in range(depth)) + "begin "
    return fill(size, front, lambda n: "x:=x+x;\n", "end" + ";" * depth + ".\n")


def farther(size: int) -> str:
    """Such uses, past blocks whose number grows with the text."""
    return outward(size, size // KIB - 2)


def begins(size: int) -> str:
    """Statements in one another as deep as may be, in a row."""
    depth = LEVELS - 2
    row = "begin " * depth + "x:=x" + " end" * depth + ";\n"
    return fill(size, "var x;\nbegin ", lambda n: row, "end.\n")


SHAPES = [statements, names, sums, procedures, nested, chains, deeper, outward, farther, begins]


def used() -> float:
    """The processor's time of all runs so far."""
    usage = resource.getrusage(resource.RUSAGE_CHILDREN)
    return usage.ru_utime + usage.ru_stime


def seconds(program: str, texts: list[str]) -> list[float]:
    """The processor's time of the best of some runs of each text, the program's start included. They take turns, so
    that whatever else the computer does slows all."""
    best = [float("inf")] * len(texts)
    with tempfile.TemporaryDirectory() as room:
        paths = [os.path.join(room, f"{number}.pl0") for number in range(len(texts))]
        for path, text in zip(paths, texts):
            with open(path, "w") as sink:
                sink.write(text)
        for _ in range(RUNS):
            for number, path in enumerate(paths):
                begin = used()
                subprocess.run([program, "--check", path], stdout=subprocess.DEVNULL, check=True)
                best[number] = min(best[number], used() - begin)
    return best


def main() -> None:
    program = sys.argv[1]
    start = seconds(program, [".\n"])[0]
    print(f"{'start':12} {start * 1000:8.2f} ms")
    for shape in SHAPES:
        texts = [shape(size) for size in (16 * KIB, 32 * KIB, LIMIT)]
        times = [max(taken - start, 0.0) for taken in seconds(program, texts)]
        shown = " ".join(f"{t * 1000:8.2f} ms" for t in times)
        growth = [b / a if a > 0.0005 else 0.0 for a, b in zip(times, times[1:])]
        note = f"   over {MOST}" if max(growth) > MOST else ""
        print(f"{shape.__name__:12} {shown}   {growth[0]:5.2f} and {growth[1]:5.2f} times{note}")


if __name__ == "__main__":
    main()
