#!/usr/bin/env python3
"""Times `pl0 run` beside a plain interpreter of the same code in C, and beside the same programs in Pascal, compiled.

usage: shell.py PROGRAM PL0

PROGRAM is pl0dap, whose `--check` gives the code to the C interpreter. Each of bench/programs runs to its end by all
three in turn, so that whatever else the computer does slows all. The Pascal program is the text of the PL/0 program
with another sign or word here and there, and numbers of 64 bits; `fpc -O2 -Co` compiles it, which looks for results
that don't fit. The figures to hold are 4 times the C interpreter's steps a second for `count`, and 3.5 for `links`. It
needs clang and fpc.
"""
from __future__ import annotations

import os
import re
import subprocess
import sys
import tempfile
import time

from machine import PROGRAMS

HERE = os.path.dirname(os.path.abspath(__file__))
RUNS = 5
TOKEN = re.compile(r"\w+|:=|<=|>=|[^\s\w]")
# What stands in Pascal for a token that it has no other use for; `call` is left out.
IN_PASCAL = {"#": "<>", "/": "div", "call": "", "!": "writeln(", "odd": "odd("}
# The tokens before which what `!` or `odd` is of has ended.
ENDS = {";", ".", "end", "then", "do"}


def pascal(text: str) -> str:
    """The PL/0 program as a Pascal program."""
    words = ["program", "p", ";"]
    is_declaring = is_open = False
    for token in TOKEN.findall(text):
        if is_open and token in ENDS:
            words.append(")")
            is_open = False
        if is_declaring and token == ";":
            words += [":", "Int64"]
        is_declaring = token == "var" or is_declaring and token != ";"
        is_open = is_open or token in ("!", "odd")
        words.append(IN_PASCAL.get(token, token))
    return " ".join(words) + "\n"


def seconds(command: list[str]) -> tuple[float, str]:
    """How long a command runs, its start included, and what it says."""
    begin = time.monotonic()
    said = subprocess.run(command, capture_output=True, text=True, check=True).stdout
    return time.monotonic() - begin, said


def row(name: str, commands: list[list[str]]) -> str:
    """The best of some runs of each: the C interpreter first, whose last line has the steps."""
    best = [float("inf")] * len(commands)
    for _ in range(RUNS):
        for index, command in enumerate(commands):
            taken, said = seconds(command)
            best[index] = min(best[index], taken)
            if index == 0:
                steps = int(re.search(r"after (\d+) steps", said).group(1))
    interpreter, ours, compiled = (steps / taken / 1e6 for taken in best)
    return (f"{name:10} {steps:12,} {interpreter:8.1f} {ours:8.1f} {compiled:8.1f} "
            f"{ours / interpreter:8.2f} {compiled / ours:8.2f}")


def main() -> int:
    program, pl0 = (os.path.abspath(word) for word in sys.argv[1:3])
    print(f"{'program':10} {'steps':>12} {'C':>8} {'pl0':>8} {'Pascal':>8} {'pl0/C':>8} {'P./pl0':>8}"
          "   (million steps a second)")
    with tempfile.TemporaryDirectory() as room:
        interpreter = os.path.join(room, "interpreter")
        subprocess.run(["clang", "-O2", "-o", interpreter, os.path.join(HERE, "interpreter.c")], check=True)
        for name in PROGRAMS:
            text = os.path.join(HERE, "programs", f"{name}.pl0")
            listing, source, compiled = (os.path.join(room, f"{name}{end}") for end in (".listing", ".pas", ""))
            with open(listing, "w", encoding="utf-8") as sink:
                subprocess.run([program, "--check", text], stdout=sink, check=True)
            with open(text, encoding="utf-8") as read, open(source, "w", encoding="utf-8") as sink:
                sink.write(pascal(read.read()))
            subprocess.run(["fpc", "-O2", "-Co", f"-o{compiled}", source], stdout=subprocess.DEVNULL, check=True)
            print(row(name, [[interpreter, listing], [pl0, "run", text], [compiled]]), flush=True)
    return 0


if __name__ == "__main__":
    sys.exit(main())
