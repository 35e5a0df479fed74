#!/usr/bin/env python3
"""Writes the figures of docs/PERFORMANCE.md from what `make bench` printed.

usage: page.py LOG

Each place of the page that stands between `<!--NAME-->` and `<!--end-->` is written anew from the lines of LOG. All of
them must be there, from one run and one tree: it refuses a tree whose sources differ from its commit, which the page
then names.
"""
from __future__ import annotations

import datetime
import pathlib
import re
import subprocess
import sys
import textwrap
from collections.abc import Callable
from typing import NamedTuple

from instructions import DEEP

TOP = pathlib.Path(__file__).resolve().parent.parent
PAGE = TOP / "docs" / "PERFORMANCE.md"
COLUMNS = 122
COMMAND = re.compile(r"python3 (?:bench|checks)/(\w+)\.py ")
NUMBER = re.compile(r"-?\d[\d,]*(?:\.\d+)?")
PROGRAMS = ("count", "links", "divide", "primes", "nested")
AROUND = "a step in slices, a false condition on a variable around"
LARGE_ANSWERS = ("`stackTrace`, 1,024 frames", "`variables`, 1,024")
SOURCES = ("crates.txt", "crates/*/src/*", "crates/*/specs/*", "bench")


class Log:
    """What each script printed."""

    def __init__(self, text: str):
        self.lines: dict[str, list[str]] = {}
        script = ""
        for line in text.splitlines():
            if found := COMMAND.match(line):
                script = found[1]
            self.lines.setdefault(script, []).append(line)

    def at(self, script: str, label: str) -> int:
        """The place of the script's line that begins with these words, and then has only figures."""
        after = re.compile(re.escape(label) + r"(?:\s{2,}|: | (?=-?\d))")
        places = [place for place, line in enumerate(self.lines.get(script, [])) if after.match(line)]
        if not places:
            sys.exit(f"the log has no figures of {script}.py for: {label}")
        return places[0]

    def figures(self, script: str, label: str, later: int = 0) -> list[float]:
        """The figures of that line behind these words, or all of one of the lines after it."""
        place = self.at(script, label)
        text = self.lines[script][place + later] if later else self.lines[script][place][len(label):]
        return [float(number.replace(",", "")) for number in NUMBER.findall(text)]


def filled(text: str, indent: str = "") -> str:
    return textwrap.fill(text, COLUMNS, subsequent_indent=indent, break_long_words=False, break_on_hyphens=False)


class Goal(NamedTuple):
    """What is wanted; how the figures are shown; these; a limit for each, the least or else the most; and what each is
    of."""

    what: str
    shown: str
    measured: list[float]
    limits: list[float]
    names: tuple[str, ...] = ()
    least: bool = True

    def item(self) -> str:
        held = [(had >= limit) if self.least else (had <= limit) for had, limit in zip(self.measured, self.limits)]
        missed = [name for name, is_held in zip(self.names, held) if not is_held]
        word = "" if all(held) else ", not held" if not any(held) or not missed else ", but for " + ", ".join(missed)
        return filled(f"- {self.what}: {self.shown.format(*self.measured)}{word}", "  ")


def table(head: list[str], rows: list[list[str]]) -> str:
    lines = [f"| {' | '.join(line)} |" for line in [head, *rows]]
    return "\n".join([lines[0], "|" + "---|" * len(head), *lines[1:]])


def items(rows: list[list[str]]) -> str:
    return "\n".join(f"- {what}: {', '.join(figures)}" for what, *figures in rows)


def ours_and_constant(log: Log, label: str) -> tuple[float, float]:
    """The best microseconds of the program, and of the one that answers with constant bytes."""
    later = 1
    return log.figures("session", label)[1], log.figures("session", label, later)[-2]


LOADS = [
    "25,000 and 100,000 `threads`, from a file",
    "16 and 64 contents of 1 MiB, from a file",
    "2,500 and 10,000 `threads`, by single bytes",
    "1 and 4 contents of 1 MiB, by single bytes",
]


def growths(log: Log) -> list[float]:
    return [log.figures("throughput", label)[2] for label in LOADS]


def texts(log: Log) -> list[list[float]]:
    """The milliseconds of each shape of a text at three sizes, and how they grow."""
    shapes = [line.split()[0] for line in log.lines["checking"] if line.rstrip().endswith("times") or "over" in line]
    return [log.figures("checking", shape)[:5] for shape in shapes]


def session_goals(log: Log) -> list[Goal]:
    session, long_text, long_conditions = (log.figures("session", f"a session, {run}")[0] for run in (
        "no breakpoint", "no breakpoint, a text of 64 KiB", "256 elsewhere, conditions of 1,024 bytes"))
    sliced = log.figures("session", "`speed`, slices, no breakpoint")[0]
    plain = log.figures("session", "interpreter in C")[0]
    at_once, constant = (log.figures("session", f"25,000 `threads` at once{by}")[-1] for by in ("", ", by `answer.c`"))
    frames, variables = (ours_and_constant(log, label) for label in LARGE_ANSWERS)
    return [
        Goal("a session at 0.9 of slices alone, or at 2.5 times C",
             f"{session / sliced:.2f}; {session / plain:.1f}", [max(session / sliced / 0.9, session / plain / 2.5)],
             [1]),
        Goal("a session at 0.19 of slices alone in a text of 64 KiB, at 0.05 with 256 conditions of 1,024 bytes",
             "{:.2f}, {:.2f}",
             [long_text / sliced, long_conditions / sliced], [0.19, 0.05], ("the text", "the conditions")),
        Goal("25,000 `threads` at once at 6.5 times constant bytes", "{:.1f}", [at_once / constant], [6.5],
             least=False),
        Goal("`stackTrace`, `variables` of 1,024 at 4.5 times constant bytes", "{:.1f}, {:.1f}",
             [frames[0] / frames[1], variables[0] / variables[1]], [4.5, 4.5], ("`stackTrace`", "`variables`"),
             least=False),
    ]


# What is counted beside `continue`: its label, its name in a goal, and the most instructions a step.
STEPPING = [
    ("a step of `primes`, in a call that `next` passes over", "`next`", 64),
    ("a step of `count`, in a procedure that `stepOut` leaves", "`stepOut`", 27),
    ("a step in slices, a hit condition in the loop", "a hit condition", 44),
    ("a step in slices, a hit condition with a condition beside it", "with a condition", 55),
    ("a step in slices, a false condition of another form", "`x + 1 < 0`", 93),
    ("a step in slices, each tenth writes", "`writing`", 35),
]


def machine_goals(log: Log) -> list[Goal]:
    names = tuple(f"`{name}`" for name in PROGRAMS)
    ratios = [log.figures("machine", name)[3] for name in PROGRAMS]
    counts = [log.figures("instructions", f"a step of {name}, the machine alone")[0] for name in names]
    false = log.figures("instructions", "a step in slices, a false condition in the loop")[0]
    around = [log.figures("instructions", f"{AROUND}, {frames:,} frames")[0] for frames in DEEP]
    answers = [log.figures("instructions", f"an answer: {label}")[0] / 1e6 for label in LARGE_ANSWERS]
    debugged = [log.figures("debugged", "median")[0], log.figures("debugged", "median")[1]]
    sliced = {run: log.figures("slices", run) for run in (
        "slices, no breakpoints", "256 breakpoints elsewhere", "a false condition in the loop")}
    return [
        Goal("the machine at 5 times C for `count`, 3.7 for `links`, 1.5 for `divide`", "{:.2f}, {:.2f}, {:.2f}",
             ratios[:3], [5, 3.7, 1.5], names),
        Goal("six debugged runs at 1.8 times C in the median, 1.5 at least", "{:.2f}, {:.2f}", debugged,
             [1.8, 1.5], ("the median", "the least")),
        Goal("`pl0 run` at 4 times C for `count`, 3.5 for `links`", "{:.2f}, {:.2f}",
             [log.figures("shell", name)[4] for name in PROGRAMS[:2]], [4, 3.5], names),
        Goal("slices at 0.85 of the machine", "{:.2f}", [sliced["slices, no breakpoints"][1]], [0.85]),
        Goal("256 breakpoints elsewhere at 0.85 of none", "{:.2f}", [sliced["256 breakpoints elsewhere"][2]], [0.85]),
        Goal("slices with a false condition at 150 million steps a second", "{:.1f}",
             [sliced["a false condition in the loop"][0]], [150]),
        Goal("instructions a step: `count` 25, `links` 32, `divide` 56, `primes` 64, `nested` 53, a false condition 48",
             "{:.1f}, {:.1f}, {:.1f}, {:.1f}, {:.1f}, {:.1f}", [*counts, false], [25, 32, 56, 64, 53, 48],
             (*names, "the condition"), least=False),
        Goal("instructions a step: a false condition on a variable around 150, in 10, 100 and 1,000 frames",
             "{:.1f}, {:.1f}, {:.1f}", around, [150] * len(around), tuple(f"{frames:,} frames" for frames in DEEP),
             least=False),
        Goal("instructions a step: " + ", ".join(f"{name} {most}" for _, name, most in STEPPING),
             ", ".join(["{:.1f}"] * len(STEPPING)), [log.figures("instructions", label)[0] for label, *_ in STEPPING],
             [most for *_, most in STEPPING], tuple(name for _, name, _ in STEPPING), least=False),
        Goal("million instructions of `stackTrace`, `variables` of 1,024: 0.6, 0.42", "{:.2f}, {:.2f}", answers,
             [0.6, 0.42],
             ("`stackTrace`", "`variables`"), least=False),
    ]


def goals(log: Log) -> str:
    judged = [growth for text in texts(log) for growth in text[3:]]
    each = [
        Goal("four times the requests or contents in at most 4.5 times the time", "{:.2f}", [max(growths(log))], [4.5],
             least=False),
        *session_goals(log), *machine_goals(log),
        Goal("twice the text judged in at most 2.3 times the time", "{:.2f}", [max(judged)], [2.3], least=False),
    ]
    return "\n".join(goal.item() for goal in each)


ANSWERS = [
    ("start to the answer of `initialize`", "start to the answer of `initialize`"),
    ("`threads`", "`threads`"),
    ("`stackTrace`, 1,024 frames", "`stackTrace`, 1,024 frames"),
    ("`variables`, 1,024", "`variables`, 1,024"),
    ("`setBreakpoints`, 256 conditions, 64 KiB of names", "`setBreakpoints`, 256 conditions, a text of 64 KiB"),
    ("from `continue` to the stop, 10,000 steps away", "`continue` to a stop 10,000 steps away"),
    ("from `pause` to the stop, while a program loops", "`pause` to the stop, in a loop"),
]


def answers(log: Log) -> str:
    rows = [[shown, *(f"{figure:,.0f}" for figure in ours_and_constant(log, label))] for label, shown in ANSWERS]
    at_once, constant = (log.figures("session", f"25,000 `threads` at once{by}")[-1] / 1000
                         for by in ("", ", by `answer.c`"))
    rows.append(["each of 25,000 `threads` at once, in the median", f"{at_once:.1f}", f"{constant:.1f}"])
    memory = [log.figures("session", f"a stop with {what}")[0]
              for what in ("1 frame", "1,024 frames", "1,024 variables")]
    return items(rows) + (
        f"\n\nAt a stop {memory[0]:,.0f} KiB are resident with 1 frame, {memory[1]:,.0f} with 1,024, and "
        f"{memory[2]:,.0f} where a block has 1,024 variables.")


RUNS = [
    ("a session, no breakpoint", "a session without a breakpoint"),
    ("a session, no breakpoint, a text of 64 KiB", "in a text of 64 KiB"),
    ("a session, a false condition in the loop", "with a false condition in the loop"),
    ("a session, 256 elsewhere, conditions of 1,024 bytes", "with 256 conditions of 1,024 bytes elsewhere"),
    ("`speed`, slices, no breakpoint", "slices without a session"),
    ("interpreter in C", "the interpreter in C"),
]


def runs(log: Log) -> str:
    return items([[shown, f"{log.figures('session', label)[0]:.1f}"] for label, shown in RUNS])


def machine(log: Log) -> str:
    rows = []
    for name in PROGRAMS:
        _, ours, plain, ratio, fused, fused_ratio = log.figures("machine", name)
        counted = log.figures("instructions", f"a step of `{name}`, the machine alone")[0]
        _, _, run, compiled = log.figures("shell", name)[:4]
        rows.append([f"`{name}`", f"{ours:.1f}", f"{plain:.1f}", f"{ratio:.2f}", f"{fused:.1f}", f"{fused_ratio:.2f}",
                     f"{counted:.1f}", *(f"{figure:.1f}" for figure in (run, compiled))])
    return table(["", "Machine", "Plain C", "Ratio", "Fused C", "Ratio", "Instructions", "`pl0 run`", "Pascal"], rows)


def back(log: Log) -> str:
    forward, memory = log.figures("back", "100,000,002 steps forward")
    best, median, worst = log.figures("back", "`stepBack` from there, 20 times")
    start, logged = log.figures("back", "`reverseContinue` to the start")[0], log.figures("back", "100,000 logs in")[0]
    turns = log.figures("back", "gdb records 16,000 turns")
    hits = log.figures("back", "`reverseContinue` to the last of 50,000,000 hits")[1]
    kept, deep = (log.figures("back", f"{frames} frames of 1,000 variables, some 2,000,000 steps forward")
                  for frames in ("130", "1,000"))
    return filled(
        f"The way forward, with checkpoints kept, takes {forward:.3f} s and {memory:,.0f} KiB at most; `stepBack` from there "
        f"{best / 1000:.1f} ms at best, {median / 1000:.1f} in the median and {worst / 1000:.1f} at worst; `reverseContinue` to "
        f"the start {start:.3f} s, to the last of a hit a turn {hits:.2f} times the way's processor time. With 130,000 cells in "
        f"use a session has {kept[1]:,.0f} KiB at most, with 1,000,000 {deep[1]:,.0f}; `stepBack` takes {kept[2]:.1f} and "
        f"{deep[2]:.1f} ms there. 100,000 logs take {logged:.3f} s at best. gdb records 16,000 turns in {turns[1]:.3f} s, with "
        f"{turns[3]:.0f} bytes an instruction, and its `reverse-step` takes {turns[4]:.2f} ms at best.")


def checking(log: Log) -> str:
    largest = [text[2] for text in texts(log)]
    return f"A text of 64 KiB takes {min(largest):.2f} ms to {max(largest):.2f} ms, by its shape."


def many(log: Log) -> str:
    names = ("9000 sessions one after the other", "200 sessions at once")
    wrong, seconds, pauses = ([log.figures("soak", name, later) for name in names] for later in (2, 2, 3))
    memory = max(log.figures("soak", name, 4)[1] for name in names)
    return (f"9,000 one after the other took {seconds[0][1]:.2f} s, and 200 at once {seconds[1][1]:.2f} s; "
            f"{sum(each[0] for each in wrong):.0f} went wrong. From `pause` to the stop were\n"
            f"{pauses[0][0]:,.0f} us in the median and {pauses[0][1]:,.0f} at most, or {pauses[1][0]:,.0f} and "
            f"{pauses[1][1]:,.0f}. No process had more than {memory:,.0f} KiB.")


def build(log: Log) -> str:
    with open("/proc/cpuinfo", encoding="utf-8") as file:
        model = re.search(r"^model name\s*: (.*)$", file.read(), re.MULTILINE)[1]
    commit = subprocess.run(["git", "rev-parse", "--short=12", "HEAD"], cwd=TOP, capture_output=True, text=True,
                            check=True).stdout.strip()
    load, processors = log.figures("session", "load")[:2]
    return (f"All figures are of one proved build, of commit `{commit}`, "
            f"measured on {datetime.date.today().isoformat()} on {processors:.0f} of\n"
            f"{model}, shared with others; the load was {load:.2f} when `session.py` began.")


BLOCKS: dict[str, Callable[[Log], str]] = {
    "build": build, "goals": goals, "answers": answers, "runs": runs, "machine": machine, "back": back,
    "checking": checking, "many": many,
}


def main() -> int:
    if len(sys.argv) != 2:
        sys.exit(__doc__)
    changed = subprocess.run(["git", "status", "--porcelain", "--", *SOURCES], cwd=TOP, capture_output=True, text=True,
                             check=True).stdout
    if changed:
        sys.exit(f"the tree differs from its commit: {changed.split()[1]}")
    log, page = Log(pathlib.Path(sys.argv[1]).read_text(encoding="utf-8")), PAGE.read_text(encoding="utf-8")
    for name, written in BLOCKS.items():
        place = re.compile(rf"(<!--{name}-->\n).*?(<!--end-->)", re.DOTALL)
        page, count = place.subn(lambda found: f"{found[1]}{written(log)}\n{found[2]}", page)
        if count != 1:
            sys.exit(f"the page has {count} places for {name}")
    PAGE.write_text(page, encoding="utf-8")
    return 0


if __name__ == "__main__":
    sys.exit(main())
