#!/usr/bin/env python3
"""Plays the same input to two builds of each program, and compares all bytes, the status and standard error.

usage: both_builds.py COUNT PROVED STOCK [PROVED STOCK..]

PROVED is what the kit built, STOCK what cargo built from the same sources: so this tests both compilers and libraries.
What is played depends on the program's name. An adapter gets the cases of hostile.py whose output somebody takes;
`pl0dap` and `stack_adapter` also COUNT random sessions, in which nothing is sent while a program runs, so that there is
one order of events; `pl0` gets each command with the examples, and one with each text of mistakes.txt and COUNT random
ones. At a difference this prints the input and what both did, and ends with status 1.
"""
from __future__ import annotations

import functools
import pathlib
import random
import subprocess
import sys
import tempfile
from collections.abc import Callable, Iterator
from typing import NamedTuple

from hostile import CASES, FROM_ZERO, NO_OUTPUT, STACK_TOPICS, Case, difference
from in_memory import served
from lib.client import Client, put_files
from lib.making import Story, Texts, make
from pl0_pages import PATIENCE, TOP, texts
from stack_sessions import Player

COMMANDS = [words.split() for words in (
    "run", "run --steps 50", "trace", "trace --machine --from 3", "trace --instructions", "check", "list",
    "list --names", "tree", "tokens")]


class Outcome(NamedTuple):
    """What a process wrote, its status, if it ended by itself, and what stands on standard error."""

    written: bytes = b""
    status: int | None = None
    told: str = ""


class Kept(Client):
    """A process of which all is kept."""

    outcome = Outcome()

    def more(self) -> bool:
        before = len(self.frames.rest)
        is_more = super().more()
        self.outcome = self.outcome._replace(written=self.outcome.written + self.frames.rest[before:])
        return is_more

    def status(self) -> int:
        self.outcome = self.outcome._replace(status=super().status())
        return self.outcome.status

    def said(self) -> str:
        self.outcome = self.outcome._replace(told=super().said())
        return self.outcome.told


def hostile(program: str, case: Case, is_own: bool) -> Outcome:
    """One of the cases of hostile.py."""
    kept: list[Kept] = []

    def begin(program: str, folder: str) -> Kept:
        kept.append(Kept(program, folder))
        return kept[0]

    difference(program, case, begin, is_own)
    return kept[0].outcome


def session(program: str, story: Story) -> Outcome:
    with tempfile.TemporaryDirectory() as folder:
        put_files(folder, story.files)
        adapter = Kept(program, folder)
        served(adapter, folder, story)
    return adapter.outcome


class Patient(Player):
    """A client of the stack language that notes whether it had to pause a program, which then stops anywhere."""

    has_paused = False

    def never_stops(self) -> bool:
        is_endless = super().never_stops()
        self.has_paused |= is_endless
        return is_endless


def stack_session(program: str, seed: int) -> Outcome:
    with tempfile.TemporaryDirectory() as folder:
        player = Patient(program, folder, seed, Kept)
        player.play()
    return Outcome() if player.has_paused else player.client.outcome


def page(program: str, words: list[str], text: bytes) -> Outcome:
    """What a command of `pl0` prints of a text."""
    ran = subprocess.run([program, *words, "-"], input=text, capture_output=True, check=False, timeout=PATIENCE)
    return Outcome(ran.stdout, ran.returncode, ran.stderr.decode(errors="replace"))


def pages(count: int) -> Iterator[tuple[str, Callable[[str], Outcome]]]:
    """Commands of `pl0` with texts."""
    chance = random.Random(1)
    asked = [(words, file.read_bytes()) for file in sorted((TOP / "examples").glob("*.pl0")) for words in COMMANDS]
    asked += [(chance.choice(COMMANDS), text) for text, _ in texts()]
    asked += [(chance.choice(COMMANDS), Texts(chance).program().encode()) for _ in range(count)]
    for words, text in asked:
        yield f"{' '.join(words)} - < {text!r}", functools.partial(page, words=words, text=text)


def sessions(name: str, count: int) -> Iterator[tuple[str, Callable[[str], Outcome]]]:
    """Cases, and random sessions. In those of other seeds of the stack language requests cross the runs."""
    is_own = name == "stack_adapter"
    for case in (case for topic in (STACK_TOPICS if is_own else CASES) for case in CASES[topic]):
        case = FROM_ZERO.get(case.name, case) if name == "pl0dap_from_zero" else case
        if case.after != NO_OUTPUT:
            yield f"the case of {case.name}", functools.partial(hostile, case=case, is_own=is_own)
    for seed in range(1, 2 * count, 2):
        if is_own:
            yield f"session {seed}", functools.partial(stack_session, seed=seed)
        if name == "pl0dap":
            yield f"session {seed}", functools.partial(session, story=make(seed, crosses=False))


def is_equal(proved: str, stock: str, count: int) -> bool:
    """Plays all to both builds of a program, up to the first difference, and prints how it went."""
    name, played, length = pathlib.Path(proved).name, 0, 0
    for what, play in pages(count) if name == "pl0" else sessions(name, count):
        if (one := play(proved)) != (other := play(stock)):
            print(f"{name}, {what}:\n  {proved}: {one}\n  {stock}: {other}")
            return False
        played, length = played + 1, length + len(one.written)
    print(f"{name}: {played} inputs, {length:,} bytes: both builds do the same", flush=True)
    return True


def main() -> int:
    programs = [str(pathlib.Path(word).resolve()) for word in sys.argv[2:]]
    alike = [is_equal(proved, stock, int(sys.argv[1])) for proved, stock in zip(programs[::2], programs[1::2])]
    return 0 if alike and all(alike) else 1


if __name__ == "__main__":
    sys.exit(main())
