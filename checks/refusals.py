#!/usr/bin/env python3
"""Runs the programs again and again, with calls refused or hindered, and judges how they end.

usage: refusals.py [--speed SPEED] [--pl0 PL0] [--own STACK_ADAPTER] [PROGRAM..]

STACK_ADAPTER is the example for another language, which plays its stored session; where a read of a program is refused
there, its launch is, and so the frames may be others. PROGRAM is pl0dap or pl0dap_from_zero; SPEED is the program
`speed`, which runs a text by the machine alone, in slices under a plan, and by the runner; PL0 is the program `pl0`.
Each allocation is refused in turn, up to the first run that asks for none more, and then each thread, read and write;
but of SPEED allocations alone. In PROGRAM and PL0 each is refused once, and then again with all later ones of its kind.
What is written may differ from the whole answer only by what is missing at its end, of a session by whole frames, and
the program must say why. But a run in slices may also end by the report that there was no memory for its first one, and
must at least once; and where the file of a launch can't be read, the launch must be refused, and the session goes on.
At last reads and writes take few bytes, are interrupted or would block, by some seeds: nothing may be missing.

The threads of a session take turns as they like, so which call is the Nth differs from one time to the next: each end
must be one that is allowed, and none must hang. Before a thread was asked for nothing may be written where the session
gives up. It needs clang.
"""
from __future__ import annotations

import argparse
import collections
import dataclasses
import itertools
import os
import pathlib
import signal
import subprocess
import sys
import tempfile
from collections.abc import Iterator

from lib import feeding, notation
import rows

HERE = os.path.dirname(os.path.abspath(__file__))
CRATES = os.path.join(HERE, "..", "crates")
RECURSION = os.path.join(HERE, "recursion.pl0")
# What the text takes: its steps, and those up to where the condition first holds at a breakpoint.
STEPS = 924
CONDITION = "total > 2000"
STOP = 893
LINES = 20

# How a run of pl0dap may end in which something of a kind was refused: the status, and what stands on standard error.
# An allocation that the program can do without changes nothing. Fault 2 of the session is out of memory.
ALLOCATION_ENDS = [(0, ""), (3, "pl0dap: no memory"), (3, "pl0dap: refused 2")]
WRITE_ENDS = [(1, "pl0dap: write failed")]
NO_THREAD = (3, "pl0dap: refused 7")
# A thread may also be refused where memory runs out. The last read of a session, after its `disconnect`, changes
# nothing.
SESSION_ENDS = {
    "allocation": [*ALLOCATION_ENDS, NO_THREAD],
    "thread": [NO_THREAD],
    "read": [(0, ""), (1, "pl0dap: read failed")],
    "write": WRITE_ENDS,
}
# Where `trace` tells a part of a run, it says where that goes on: a drawing of positions 9 to 11 does.
GOES_ON = "pl0: the run goes on at position 12"


# How a run of the example for another language may end so.
OWN_THREAD = (4, "stack_adapter: Start(NoThread)")
OWN_ENDS = {
    "allocation": [(0, ""), (3, "stack_adapter: Serve(NoMemory)"), (4, "stack_adapter: Start(NoMemory)"), OWN_THREAD],
    "thread": [OWN_THREAD],
    "read": [(0, ""), (1, "stack_adapter: Serve(Input)")],
    "write": [(1, "stack_adapter: Serve(Output)")],
}


def listing_ends(file: str) -> dict[str, list[tuple[int, str]]]:
    """How `--check FILE` may end in which something was refused."""
    unread = f"{file}: error: the file can't be read pl0dap: cannot read"
    return {"allocation": ALLOCATION_ENDS, "read": [(1, unread)], "write": WRITE_ENDS}


def pl0_ends(file: str, said: str) -> dict[str, list[tuple[int, str]]]:
    """How a run of pl0 may end in which something was refused, by what it says where nothing is."""
    return {
        "allocation": [(0, said), (3, "pl0: no memory")],
        "read": [(3, f"pl0: cannot read {file}")],
        "write": [(3, f"{said} pl0: cannot write the output".strip())],
    }


# What a session with a program that can't be read is called.
UNREAD = "launch refused"
# By so many seeds the reads and writes of a run are hindered.
SEEDS = 20
# In a loop without end a call is asked for again and again. After EACH, a few more are refused up to MOST.
EACH, MOST = 500, 20_000
# After this many runs that ended as they may not, no more are tried.
MOST_WRONG = 5
# Where this many runs in a row ask for no call of that number, there is none.
UNASKED = 3
# How much longer than at first it is waited where a session seemed to have given up.
PATIENCE = 50


def wants_memory(thing: str, why: str) -> tuple[int, str]:
    """How a program that steps a text ends where it found no memory for something."""
    return 1, f"Error: {thing} Caused by: {why}"


MACHINE_ENDS = [
    (0, ""),
    wants_memory("no arguments", "out of memory"),
    wants_memory("no text", "out of memory"),
    (1, "Error: no tree: NoMemory"),
    (1, "Error: no code: NoMemory"),
    wants_memory("no share of the code", "memory allocation failed"),
    wants_memory("no machine", "memory allocation failed"),
    wants_memory("no line", "memory allocation failed"),
]
WORK_ENDS = MACHINE_ENDS + [
    wants_memory("no plan", "memory allocation failed"),
    wants_memory("no share of the plan", "memory allocation failed"),
    wants_memory("no room for logs", "memory allocation failed"),
    wants_memory("no room for the debuggee", "memory allocation failed"),
    wants_memory("no room for an order", "memory allocation failed"),
]
SLICES_ENDS = WORK_ENDS + [
    wants_memory("no lines", "memory allocation failed"),
    wants_memory("no lines", "0: no room for a text 1: memory allocation failed"),
]


@dataclasses.dataclass
class Run:
    """A command, the pieces that it writes where nothing is refused, and how it may end where something of a kind
    is."""

    command: list[str]
    pieces: list[bytes]
    ends: dict[str, list[tuple[int, str]]]
    source: str = os.devnull
    # What it says on standard error where nothing is refused.
    said: str = ""
    # What it is asked over pipes, in place of the source.
    exchanges: list[notation.Exchange] | None = None
    # Whether it runs for as long as the client likes.
    is_endless: bool = False
    # The kind of which one refusal must make it write other pieces, with status 0; these pieces; and what that is
    # called.
    instead: tuple[str, list[bytes], str] = ("", [], "")
    # Whether calls are also refused from one on, and hindered.
    is_whole_program: bool = True
    folder: str = rows.TOP
    # The kind of which a refusal may change the frames, which are whole then, and numbered.
    changes: str = ""

    def whole(self) -> bytes:
        return b"".join(self.pieces)

    def is_beginning(self, written: bytes, kind: str) -> bool:
        """Whether some pieces were written that may be where a call of a kind is refused."""
        if kind == self.changes:
            found = feeding.frames_of(written)
            return all(b'"seq":%d,' % number in one for number, one in enumerate(found, 1))
        lists = [self.pieces, self.instead[1]] if kind == self.instead[0] else [self.pieces]
        return any(written in itertools.accumulate(pieces, initial=b"") for pieces in lists)

    def unseen(self, kind: str, ends: collections.Counter[str]) -> str:
        """What is said of an end that has to be among those where one call of a kind is refused, and isn't."""
        other, _, name = self.instead
        return f"; never {name}" if kind == other and name not in ends else ""

    def end(self, kind: str, outcome: "Outcome") -> str | None:
        """How a run ended in which something of a kind was refused, in words; None where it may not end so."""
        written, status, said = outcome.written, outcome.status, outcome.said
        other, pieces, name = self.instead
        if (status, said) == (0, "") and kind == other and written == b"".join(pieces):
            return name
        if (status, said) not in self.ends[kind] or not self.is_beginning(written, kind):
            return None
        if status == 0 and written != self.whole() and kind != self.changes:
            return None
        if status != 0 and written and self.ends is SESSION_ENDS and (outcome.early or kind == "thread"):
            return None
        return "nothing missing" if (status, said) == (0, self.said) else said


def listing(name: str) -> bytes:
    """The listing of a file, of those that the stored run prints one after another, each after a line with its name."""
    with open(os.path.join(CRATES, "check_runs", "stdout"), "rb") as file:
        _, rest = file.read().split(b"%s.pl0:\n" % name.encode(), 1)
    return b"".join(itertools.takewhile(lambda line: not line.startswith(b"status "), rest.splitlines(keepends=True)))


def by_bytes(text: bytes) -> list[bytes]:
    return [bytes([byte]) for byte in text]


def no_memory(after: str) -> tuple[str, list[bytes], str]:
    """What a run writes where there is no memory for its first slice. The others take its room, as it wrote nothing."""
    text = f"NoMemory after 0 steps{after}"
    return "allocation", [f"{text}\n".encode()], text


def stored_session(program: str) -> Run:
    with open(os.path.join(CRATES, "pl0dap", "stdout"), "rb") as file:
        pieces = feeding.frames_of(file.read())
    return Run([program], pieces, SESSION_ENDS, source=os.path.join(CRATES, "pl0dap", "stdin"))


def fed_session(program: str, session: feeding.Session, is_endless: bool = False) -> Run:
    unread = "read", session.unread, UNREAD
    exchanges = session.exchanges
    return Run([program], session.frames(), SESSION_ENDS, exchanges=exchanges, is_endless=is_endless, instead=unread)


def runs_of_own(stack: str) -> dict[str, Run]:
    folder = os.path.join(CRATES, "stack_adapter")
    with open(os.path.join(folder, "stdout"), "rb") as file:
        pieces = feeding.frames_of(file.read())
    source = os.path.join(folder, "stdin")
    return {"a session of the stack language": Run([stack], pieces, OWN_ENDS, source, folder=os.path.join(folder, "data"),
                                                   changes="read")}


def runs(program: str) -> dict[str, Run]:
    procedures = os.path.join(CRATES, "check_runs", "data", "procedures.pl0")
    return {
        "a session": stored_session(program),
        "a debug session without a stop": fed_session(program, feeding.TWO_SESSION),
        "a debug session with a stop": fed_session(program, feeding.FACTORIAL_SESSION),
        "a debug session that logs and goes back": fed_session(program, feeding.BACK_SESSION),
        "a debug session with a fault": fed_session(program, feeding.OVERFLOW_SESSION),
        "a debug session with pauses": fed_session(program, feeding.ENDLESS_SESSION, is_endless=True),
        "a listing": Run([program, "--check", procedures], by_bytes(listing("procedures")), listing_ends(procedures)),
    }


def runs_of_texts(speed: str) -> dict[str, Run]:
    under = f" under {LINES} breakpoints"
    return {
        "a machine": Run(
            [speed, "machine", RECURSION],
            [f"Done after {STEPS} steps\n".encode()],
            {"allocation": MACHINE_ENDS},
            is_whole_program=False,
        ),
        "a run in slices": Run(
            [speed, "slices", RECURSION, "1", str(LINES), CONDITION],
            [f"Due(Breakpoint) after {STOP} steps{under}\n".encode()],
            {"allocation": SLICES_ENDS},
            instead=no_memory(under),
            is_whole_program=False,
        ),
        "a run by the runner": Run(
            [speed, "work", RECURSION],
            [f"Done after {STEPS} steps\n".encode()],
            {"allocation": WORK_ENDS},
            instead=no_memory(""),
            is_whole_program=False,
        ),
    }


def stored_run(line: str) -> tuple[list[str], bytes]:
    """The arguments of a command line of pl0 whose run is stored, with the whole path of its file, and what it writes
    to standard output."""
    folder = pathlib.Path(CRATES, "pl0_runs")
    _, rest = (folder / "stdout").read_bytes().split(f"$ {line}\n".encode(), 1)
    _, *options, name = line.split()
    lines = rest.split(b"status 0\n", 1)[0].splitlines(keepends=True)
    return [*options, str(folder / "data" / name)], b"".join(line for line in lines if not line.startswith(b"pl0: "))


def runs_of_pl0(pl0: str) -> dict[str, Run]:
    procedures = os.path.join(CRATES, "check_runs", "data", "procedures.pl0")
    given = {
        "a run of pl0": (["run", procedures], b"1\n2\n"),
        "a check by pl0": (["check", procedures], b""),
        "a listing by pl0": stored_run("pl0 list two.pl0"),
        "a trace by pl0": stored_run("pl0 trace procedures.pl0"),
        "a drawing by pl0": stored_run("pl0 trace --machine --from 9 --steps 3 procedures.pl0"),
    }
    said = {name: GOES_ON if name == "a drawing by pl0" else "" for name in given}
    return {
        name: Run([pl0, *arguments], by_bytes(text), pl0_ends(arguments[-1], said[name]), said=said[name])
        for name, (arguments, text) in given.items()
    }


@dataclasses.dataclass
class Outcome:
    """What a run wrote, its status, what it said on standard error beside its log, whether a call was refused, and
    whether no thread had been asked for then."""

    written: bytes
    status: int
    said: str
    refused: bool = False
    early: bool = False


def lines_said(errors: str) -> str:
    return " ".join(line.strip() for line in errors.splitlines() if line and not line.startswith("["))


def perform(run: Run, notice: feeding.Notice, patience: int, **settings) -> Outcome:
    if run.exchanges:
        frames, status, errors = feeding.feed(run.command, run.exchanges, notice, patience, **settings)
        return Outcome(b"".join(frames), status, lines_said(errors))
    with open(run.source, "rb") as file:
        try:
            limit = feeding.MOST_SECONDS
            done = subprocess.run(run.command, stdin=file, capture_output=True, cwd=run.folder, timeout=limit, **settings)
        except subprocess.TimeoutExpired:
            return Outcome(b"", -signal.SIGKILL, "it hangs")
    return Outcome(done.stdout, done.returncode, lines_said(done.stderr.decode()))


def play(run: Run, environment: dict[str, str] | None = None, patience: int = 1) -> Outcome:
    """Runs it, and reads whether a call was refused."""
    notice = feeding.Notice()
    extra = {**environment, "NOTICE": str(notice.write_end)} if environment else {}
    outcome = perform(run, notice, patience, pass_fds=[notice.write_end], env={**os.environ, **extra})
    text = notice.look()
    outcome.refused, outcome.early = text != b"", text == b"0"
    notice.close()
    return outcome


def numbers(run: Run) -> Iterator[int]:
    """The numbers of the calls that are refused."""
    number = 1
    while not run.is_endless or number < MOST:
        yield number
        number += 1 if not run.is_endless or number < EACH else number // 20


def judged(run: Run, kind: str, later: str, number: int, library: str) -> tuple[Outcome, str | None]:
    """Refuses a call, and answers how the run ended, in words too where it may end so. It is waited longer where it
    seems that the input was closed too soon."""
    for patience in (1, PATIENCE):
        outcome = play(run, {"LD_PRELOAD": library, "REFUSES": kind + later, "REFUSED": str(number)}, patience)
        end = run.end(kind, outcome)
        if end is not None or not outcome.refused or outcome.status < 0:
            break
    return outcome, end


def is_judged(name: str, run: Run, kind: str, later: str, library: str) -> bool:
    """Refuses each call of a kind in turn, with an s for `later` also all after it; prints how the runs ended, and
    answers whether all ended as they may."""
    ends: collections.Counter[str] = collections.Counter()
    wrong = unasked = early = 0
    for number in numbers(run):
        outcome, end = judged(run, kind, later, number, library)
        unasked = 0 if outcome.refused else unasked + 1
        if unasked == UNASKED or wrong == MOST_WRONG:
            break
        if outcome.refused and end is None:
            print(f"{name}, {kind} {number}{' and all later' if later else ''}: {outcome}", flush=True)
            wrong += 1
        elif outcome.refused:
            ends[end] += 1
            early += outcome.early and end == "pl0dap: refused 2"
    unseen = "" if later else run.unseen(kind, ends)
    said = ", ".join(f"{count} times {end}" for end, count in ends.items())
    before = f"; {early} times refused 2 before any thread" if early else ""
    all_later = " with all later ones" if later else ""
    times = sum(ends.values()) + wrong
    print(f"{name}, {kind} refused{all_later} {times} times, up to {number}: {said}{before}{unseen}", flush=True)
    is_tried = times > 0 or (kind == "write" and not run.pieces)
    is_early = early > 0 or kind != "allocation" or run.ends is not SESSION_ENDS
    return is_tried and is_early and not wrong and not unseen


def is_whole_hindered(name: str, run: Run, library: str) -> bool:
    """Hinders reads and writes by some seeds, and answers whether nothing was missing."""
    for seed in range(1, SEEDS + 1):
        outcome = play(run, {"LD_PRELOAD": library, "REFUSES": "hindrance", "REFUSED": str(seed)})
        if outcome != Outcome(run.whole(), 0, run.said):
            print(f"{name}, hindered by seed {seed}: {outcome}", flush=True)
            return False
    print(f"{name}, hindered by {SEEDS} seeds: nothing missing", flush=True)
    return True


def is_good(name: str, run: Run, library: str) -> bool:
    """Whether a run is whole where nothing is refused, and ends as it may where something is."""
    outcome = play(run)
    good = outcome == Outcome(run.whole(), 0, run.said)
    if not good:
        print(f"{name}, nothing refused: {outcome}")
    for kind, later in itertools.product(run.ends, ["", "s"] if run.is_whole_program else [""]):
        good &= is_judged(name, run, kind, later, library)
    if run.is_whole_program:
        good &= is_whole_hindered(name, run, library)
    return good


def runs_of_programs(programs: list[str]) -> dict[str, Run]:
    """The runs of each program, with its name before theirs where there is another."""
    if len(programs) == 1:
        return runs(*programs)
    return {f"{os.path.basename(program)}, {name}": run for program in programs for name, run in runs(program).items()}


def main() -> int:
    parser = argparse.ArgumentParser(usage=__doc__.split("\n\n")[1].replace("usage: ", "", 1))
    parser.add_argument("--speed")
    parser.add_argument("--pl0")
    parser.add_argument("--own")
    parser.add_argument("programs", nargs="*")
    given = parser.parse_args()
    with tempfile.TemporaryDirectory() as folder:
        library = os.path.join(folder, "refuse.so")
        subprocess.run(["clang", "-shared", "-fPIC", "-o", library, os.path.join(HERE, "refuse.c")], check=True)
        played = runs_of_programs(list(map(os.path.abspath, given.programs)))
        if given.speed:
            played |= runs_of_texts(os.path.abspath(given.speed))
        if given.pl0:
            played |= runs_of_pl0(os.path.abspath(given.pl0))
        if given.own:
            played |= runs_of_own(os.path.abspath(given.own))
        good = [is_good(name, run, library) for name, run in played.items()]
    return 0 if all(good) else 1


if __name__ == "__main__":
    sys.exit(main())
