#!/usr/bin/env python3
"""Counts instructions a step and instructions an answer, and compares them with those that bench/instructions.txt has.

usage: instructions.py [--record] SPEED

SPEED is the program `speed`. What is counted is what `valgrind --tool=callgrind` collects: of a step, by how much two
runs of different length differ; of an answer, by how much two sessions over memory differ (`speed session`) that ask a
question a few times and more often. Both run in one thread, so neither the computer's speed nor what else it does
counts, and a build can be judged on any computer of the same kind; what the threads of pl0dap take to hand a message on
isn't in it. Prints each figure beside the recorded one, and says which moved by more than 3 per cent; the status is 1
where one grew by more. --record writes the file anew, from a clean commit, whose name it says. It needs valgrind.
"""
from __future__ import annotations

import argparse
import os
import re
import shutil
import subprocess
import sys
import tempfile
from typing import NamedTuple

import session
sys.path.insert(0, os.path.join(os.path.dirname(os.path.realpath(__file__)), "..", "checks"))
from lib.client import Frames, frame, request  # noqa: E402

HERE = os.path.dirname(os.path.abspath(__file__))
RECORD = os.path.join(HERE, "instructions.txt")
# From how much on a figure counts as moved.
MOVED = 0.03
ELSEWHERE = 256
# How many breakpoints stand behind the loop of the stack language.
STACK_ELSEWHERE = (0, 64, 1_024, 4_096)
# In how many frames of a procedure a condition asks for a variable of the last.
DEEP = (10, 100, 1_000)
# How often a question is asked.
ASKED = (1, 3)
# callgrind counts each byte that `rep movsb` and `rep stosb` move as an instruction: so the C library uses neither.
NO_REP = "GLIBC_TUNABLES=" + ":".join(
    f"glibc.cpu.x86_rep_{name}_threshold=0x7fffffffffff" for name in ("movsb", "stosb"))
CALLGRIND = ["env", NO_REP, "valgrind", "--tool=callgrind", "--callgrind-out-file=/dev/null"]
HEAD = """# Instructions a step and an answer, as callgrind counts them. Written by `bench/instructions.py --record SPEED` from a
# proved build of the commit that is named; compared with by `make instructions`. Each line: the figure, a tab, what it is of.
"""


class Run(NamedTuple):
    """A run of `speed` in a mode, its text for a number of turns, two such numbers, further arguments, and how many
    steps a turn has, where `speed` doesn't say how many were taken."""

    name: str
    mode: str
    text: object
    turns: tuple[int, int]
    more: tuple[str, ...] = ()
    turn: int = 0


def scaled(name: str, turns: str):
    """A program of bench/programs by its turns, which stand in it as this number."""
    with open(os.path.join(HERE, "programs", f"{name}.pl0"), encoding="ascii") as file:
        text = file.read()
    if turns not in text:
        sys.exit(f"{name}.pl0 has no {turns}")
    return lambda number: text.replace(turns, str(number))


def loop(turns: int) -> str:
    """A loop, in front of which stands a procedure of many lines that nobody calls."""
    idle = "".join(f"x := {number};\n" for number in range(ELSEWHERE))
    return f"var x;\nprocedure idle;\nbegin\n{idle}end;\nwhile x < {turns} do\nx := x + 1.\n"


def called(text):
    """The same in a procedure, which the program calls first."""
    return lambda turns: f"procedure p;\n{text(turns).strip().removesuffix('.')};\ncall p.\n"


def writing(turns: int) -> str:
    """A loop of ten steps, of which one writes."""
    return "var x;\nwhile x < %d do begin\n%s! x\nend.\n" % (turns, "x := x + 1;\n" * 8)


def in_the_loop(*conditions: str) -> tuple[str, ...]:
    """A breakpoint in the loop, with a condition and a hit condition."""
    return (str(ELSEWHERE + 6), "1", *conditions)


def below(frames: int):
    """A loop in a procedure of a procedure that has called itself, until it has this many frames; the loop has the
    variable `a` of the last."""
    outer = "n := n - 1;\nif n > 0 then call outer;\nif n = 0 then begin n := 0 - 1; call inner end\n"
    return lambda turns: (
        f"var n;\nprocedure outer;\nvar a;\nprocedure inner;\nvar x;\nwhile x < {turns} do\nx := x + 1;\n"
        f"begin\n{outer}end;\nbegin n := {frames}; call outer end.\n"
    )


def stack_loop(turns: int) -> str:
    """A loop of seven steps in the stack language, behind which stand lines that are never reached."""
    lines = [f"push {turns}", "store n", "load n", "jzero 10", "load n", "push 1", "sub", "store n", "jump 3", "ret"]
    return "\n".join([*lines, *["print"] * STACK_ELSEWHERE[-1]])


def in_stack_slices(count: int) -> Run:
    """The loop of `stack_loop` in slices of `debuggee`, with so many breakpoints behind it."""
    return Run(f"a step of the stack language, in slices, breakpoints elsewhere: {count:,}", "language", stack_loop,
               (2_000, 6_000), ("10", str(count)), 7)


def runs() -> list[Run]:
    many, few = (100_000, 300_000), (20_000, 60_000)
    count, links, divide = scaled("count", "100000000"), scaled("links", "30000000"), scaled("divide", "50000000")
    primes, nested = scaled("primes", "150000"), scaled("nested", "600000")
    return [
        Run("a step of `count`, the machine alone", "machine", count, many),
        Run("a step of `links`, the machine alone", "machine", links, few),
        Run("a step of `divide`, the machine alone", "machine", divide, few),
        Run("a step of `primes`, the machine alone", "machine", primes, (1_000, 3_000)),
        Run("a step of `nested`, the machine alone", "machine", nested, (1_000, 3_000)),
        Run("a step of `count`, in slices", "slices", count, many),
        Run("a step of `count`, by the runner", "work", count, many),
        Run("a step of `links`, in slices", "slices", links, few),
        Run("a step in slices, 256 breakpoints elsewhere", "slices", loop, many, ("4", str(ELSEWHERE))),
        Run("a step in slices, a false condition in the loop", "slices", loop, few, in_the_loop("x < 0")),
        Run("a step in slices, a false condition of another form", "slices", loop, few, in_the_loop("x + 1 < 0")),
        Run("a step in slices, a hit condition in the loop", "slices", loop, few, in_the_loop("", "1000000")),
        Run("a step in slices, a hit condition with a condition beside it", "slices", loop, few,
            in_the_loop("x < 1000000", "1000000")),
        *(Run(f"a step in slices, a false condition on a variable around, {frames:,} frames", "slices", below(frames),
              few, ("7", "1", "a < 0")) for frames in DEEP),
        Run("a step in slices, each tenth writes", "slices", writing, few),
        Run("a step of `primes`, in slices", "slices", primes, (1_000, 3_000)),
        Run("a step of `primes`, in a call that `next` passes over", "next", called(primes), (1_000, 3_000)),
        Run("a step of `count`, in a procedure that `stepOut` leaves", "out", called(count), many),
        *map(in_stack_slices, STACK_ELSEWHERE),
    ]


def steps_of(run: Run, turns: int, said: str) -> int:
    """How many steps a run took, by what it said."""
    return turns * run.turn or int(re.search(r"after (\d+) steps", said)[1])


def counted(speed: str, run: Run, turns: int, folder: str) -> tuple[int, int]:
    """The instructions and the steps of a run."""
    path = os.path.join(folder, "run.pl0")
    with open(path, "w", encoding="ascii") as file:
        file.write(run.text(turns))
    done = subprocess.run([*CALLGRIND, speed, run.mode, path, *run.more], capture_output=True, text=True, check=True)
    return int(re.search(r"Collected : (\d+)", done.stderr)[1]), steps_of(run, turns, done.stdout)


def a_step(speed: str, run: Run, folder: str) -> float:
    (few, short), (many, long) = (counted(speed, run, turns, folder) for turns in run.turns)
    return (many - few) / (long - short)


def sent(question: session.Question, count: int) -> bytes:
    """What a client sends that asks a question that many times at a stop."""
    stop = question.stop
    lines = [] if stop.line is None else [{"line": stop.line}]
    requests = [
        ("initialize",),
        ("launch", {"program": stop.path, "stopOnEntry": stop.line is None}),
        ("setBreakpoints", {"source": {"path": stop.path}, "breakpoints": lines}),
        ("configurationDone",),
        *[(question.command, question.arguments)] * count,
        ("disconnect",),
    ]
    return b"".join(frame(request(seq, *one)) for seq, one in enumerate(requests, 1))


def asked(speed: str, question: session.Question, count: int, folder: str) -> int:
    """The instructions of such a session over memory, in which each question must be granted."""
    with open(os.path.join(folder, question.stop.path), "w", encoding="ascii") as file:
        file.write(question.stop.text)
    with open(os.path.join(folder, "sent"), "wb") as file:
        file.write(sent(question, count))
    done = subprocess.run([*CALLGRIND, speed, "session", "sent"], capture_output=True, cwd=folder, check=True)
    frames = Frames()
    frames.take(done.stdout)
    granted = [content for content in frames if b'"command":"%s"' % question.command.encode() in content]
    if len(granted) < count or any(b'"success":false' in content for content in granted):
        sys.exit(f"{question.name}: {len(granted)} answers, the last {granted[-1:]}")
    return int(re.search(rb"Collected : (\d+)", done.stderr)[1])


def an_answer(speed: str, question: session.Question, folder: str) -> int:
    few, many = (asked(speed, question, count, folder) for count in ASKED)
    return (many - few) // (ASKED[1] - ASKED[0])


def figures(speed: str, folder: str):
    """Each figure with its name."""
    for run in runs():
        yield run.name, round(a_step(speed, run, folder), 1)
    for question in session.questions():
        yield f"an answer: {question.name}", an_answer(speed, question, folder)


def recorded() -> dict[str, float]:
    with open(RECORD, encoding="utf-8") as file:
        lines = [line.rstrip("\n") for line in file if line.strip() and not line.startswith("#")]
    return {name: float(figure) for figure, _, name in (line.partition("\t") for line in lines)}


def commit() -> str:
    """The commit that stands here; ends the script where files differ from it."""
    git = ["git", "-C", HERE]
    if subprocess.run([*git, "status", "--porcelain"], capture_output=True, text=True, check=True).stdout.strip():
        sys.exit("figures are recorded from a commit, and files here differ from it")
    return subprocess.run([*git, "rev-parse", "--short=12", "HEAD"], capture_output=True, text=True,
                          check=True).stdout.strip()


def record(found: dict[str, float], where: str) -> None:
    with open(RECORD, "w", encoding="utf-8") as file:
        file.write(f"{HEAD}# Commit {where}.\n")
        file.writelines(f"{figure:g}\t{name}\n" if figure < 1e5 else f"{figure:.0f}\t{name}\n"
                        for name, figure in found.items())
    print(f"recorded {len(found)} figures of {where} in {os.path.relpath(RECORD)}")


def tell(name: str, figure: float, before: float | None) -> float:
    """Prints a figure beside the recorded one, and answers by which share it moved."""
    moved = 0.0 if not before else figure / before - 1
    was = "nothing recorded" if before is None else f"{before:>12,.10g} {moved:+8.1%}"
    print(f"{name:75} {figure:>12,.10g} {was}", flush=True)
    return moved


def main() -> int:
    parser = argparse.ArgumentParser(usage=__doc__.split("\n\n")[1].replace("usage: ", "", 1))
    parser.add_argument("--record", action="store_true")
    parser.add_argument("speed")
    given = parser.parse_args()
    if not shutil.which("valgrind"):
        sys.exit("valgrind isn't installed: nothing is counted")
    where = commit() if given.record else ""
    before = {} if given.record else recorded()
    found, moves = {}, {}
    with tempfile.TemporaryDirectory() as folder:
        for name, figure in figures(os.path.abspath(given.speed), folder):
            found[name] = figure
            moves[name] = tell(name, figure, before.get(name))
    if given.record:
        record(found, where)
        return 0
    moved = [f"{name} by {by:+.1%}" for name, by in moves.items() if abs(by) > MOVED]
    gone = [name for name in before if name not in found]
    print(f"moved by more than {MOVED:.0%}: {'; '.join(moved) or 'none'}")
    if gone:
        print(f"recorded, and counted no more: {'; '.join(gone)}")
    if not before:
        print("bench/instructions.txt has no figures yet: record them from a proved build")
    return 1 if any(by > MOVED for by in moves.values()) else 0


if __name__ == "__main__":
    sys.exit(main())
