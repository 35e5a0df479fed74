#!/usr/bin/env python3
"""Plays random sessions to the example `stack_adapter`, and compares each message with what may leave by definition.

usage: stack_sessions.py PROGRAM [COUNT] [SEED]

Session number n has the seed SEED + n - 1; the seed is 1 where none is given. What may leave is worked out by
`plain_debugger`, which is written apart from the adapter. In a session with an odd seed nothing is sent while a program
runs, but to pause one that doesn't end; in one with an even seed requests cross its run. At a difference this prints the
seed and the session, and ends with status 1; `stack_sessions.py PROGRAM 1 SEED` plays that seed again.
"""
from __future__ import annotations

import collections
import json
import os
import random
import sys
import tempfile
from collections.abc import Callable

from lib.client import Client, frame, put_files, request
from lib.plain_debugger import INSPECTING, RESUMING, STACK, Request, Session, World, advance
from lib.plain_stack import VARIABLES, Mistake, State, read, step

MOST_STEPS = 3000
NAMES = "aabcnn"
NUMBERS = ["0", "1", "2", "3", "5", "-1", "-4", "-7", "+10"]
LARGE_NUMBERS = ["9223372036854775807", "-9223372036854775808", "3037000500"]
OPERATORS = ["add", "sub", "mul", "div"]
MISTAKES = ["push", "push 9223372036854775808", "push 1 2", "load aa", "load A", "jump 0", "call -1", "add 1", "pop",
            "push 1 ; one", "jump 18446744073709551616", "ret 1", "push 0x1", "store é"]
LINES = ["", "  ", "; a comment", ";", "\t", "push 5", "print", "ret", "load n", "store n", "add", "jump 1", "call 2",
         "jzero 3", "jump 999", "push 1", "call 1"]
EXPRESSIONS = ["n", "a", "b", "c", "z", "n", "a", "", "nn", "N", "1", " n", "é"]
RULES = ["2", "2", "3", "=2", "%2", "%3"]
OTHER_RULES = ["", "1", "=1", "% 2", " 2 ", "0", "=0", "%0", "x", "-1", "%", "=", "18446744073709551615",
               "18446744073709551616"]
MESSAGES = ["here", "n is {n}", "{a}{b}", "{", "}", "{zz}", "a { b", "{n} and {n", "", "{}", "é {n}", "x" * 65_535 + "é",
            "x" * 65_533 + "é{"]
SOME_VALUES = [None, True, 0, 1, 2, 17, -1, 1.5, 2**63, 2**64, "", "n", [], {}, [1]]


# ---- programs

class Text:
    """A program that is being written: lines, with lines to which it jumps still open."""

    def __init__(self, make: random.Random):
        self.make = make
        self.lines: list[str] = []
        self.calls: list[int] = []

    def add(self, *lines: str) -> None:
        for line in lines:
            if self.make.random() < 0.1:
                self.lines.append(self.make.choice(LINES[:5]))
            self.lines.append(line)

    def name(self) -> str:
        return self.make.choice(NAMES)

    def block(self, depth: int) -> None:
        """A few pieces, one after another."""
        for _ in range(self.make.randint(1, 3)):
            self.make.choice((self.assign, self.show, self.call, self.choose, *[self.calculate, self.loop] * 2))(depth)

    def assign(self, depth: int) -> None:
        self.set(self.name())

    def set(self, name: str) -> None:
        self.add(f"push {self.make.choice(NUMBERS if self.make.random() < 0.95 else LARGE_NUMBERS)}", f"store {name}")

    def calculate(self, depth: int) -> None:
        """Keeps what two numbers make, or prints it."""
        after = self.make.choice((f"store {self.name()}", "print"))
        self.add(self.operand(), self.operand(), self.make.choice(OPERATORS), after)

    def operand(self) -> str:
        return self.make.choice((f"load {self.name()}", f"push {self.make.choice(NUMBERS)}"))

    def show(self, depth: int) -> None:
        self.add(f"load {self.name()}", "print")

    def call(self, depth: int) -> None:
        self.add("call ?")
        self.calls.append(len(self.lines) - 1)

    def loop(self, depth: int) -> None:
        """Goes round some times, or for ever."""
        if depth == 0:
            return
        counter = self.name()
        self.add(f"push {self.make.randint(1, 5)}", f"store {counter}")
        first = len(self.lines) + 1
        self.add(f"load {counter}", "jzero ?")
        out = len(self.lines) - 1
        self.block(depth - 1)
        if self.make.random() < 0.9:
            self.add(f"load {counter}", "push 1", "sub", f"store {counter}")
        self.add(f"jump {first}")
        self.lines[out] = f"jzero {len(self.lines) + 1}"

    def choose(self, depth: int) -> None:
        if depth == 0:
            return
        self.add(f"load {self.name()}", "jzero ?")
        out = len(self.lines) - 1
        self.block(depth - 1)
        self.lines[out] = f"jzero {len(self.lines) + 1}"

    def whole(self) -> str:
        for name in self.make.sample("abcn", self.make.randint(0, 4)):
            self.set(name)
        if self.make.random() < 0.5:
            self.call(2)
        self.block(2)
        self.add("ret")
        firsts = []
        for _ in range(2):
            firsts.append(len(self.lines) + 1)
            self.block(1)
            if self.make.random() < 0.9:
                self.add("ret")
        for at in self.calls:
            self.lines[at] = f"call {self.make.choice(firsts)}"
        return self.make.choice(("\n", "\n", "\r\n")).join(self.lines) + self.make.choice(("", "\n"))


def any_text(make: random.Random) -> str:
    """A program's text, with a mistake at times, or lines at random."""
    if make.random() < 0.08:
        return "\n".join(make.choice(LINES) for _ in range(make.randint(0, 12)))
    text = Text(make).whole()
    if make.random() < 0.1:
        lines = text.split("\n")
        lines[make.randrange(len(lines))] = make.choice(MISTAKES)
        return "\n".join(lines)
    return text


def is_short(text: str) -> bool:
    """Whether a program ends, fails or comes round within some steps."""
    try:
        program = read(text)
    except Mistake:
        return True
    state, seen = State(), set()
    for _ in range(MOST_STEPS):
        if state in seen:
            return True
        seen.add(state)
        told, state = step(program, state)
        if told.ends or told.fault:
            return True
    return False


def short_text(make: random.Random) -> str:
    while not is_short(text := any_text(make)):
        pass
    return text


# ---- requests

class Player:
    """A client that sends requests at random, and looks at what comes."""

    def __init__(self, adapter: str, folder: str, seed: int, client: Callable[[str, str], Client] = Client):
        self.make = random.Random(seed)
        self.crosses = seed % 2 == 0
        self.files = {f"{name}.stk": short_text(self.make).encode() for name in "pq"}
        put_files(folder, self.files)
        self.client = client(adapter, folder)
        self.model = Session(folder)
        self.sent: list[bytes] = []
        self.counts: collections.Counter[str] = collections.Counter()

    def lines(self) -> int:
        return max(len(text.split(b"\n")) for text in self.files.values()) + 1

    def play(self) -> str | None:
        """Plays a session, and says what is wrong, if anything is."""
        wrong = self.send(("initialize", self.greeting())) or self.receive()
        for _ in range(self.make.randint(5, 40)):
            wrong = wrong or self.send(*self.some()) or self.receive()
        wrong = wrong or self.send(("disconnect", None))
        while not wrong and self.model.asked:
            wrong = self.next()
        end = self.client.end()
        return wrong or (None if end == (b"", 0, "") else f"the end is {end}")

    def greeting(self) -> dict:
        """What `initialize` says: how the client counts, or nothing of that."""
        counts = {key: self.make.choice([True, False]) for key in ("linesStartAt1", "columnsStartAt1")}
        return {"adapterID": "stack"} | self.make.choice([{}, {}, counts, {"linesStartAt1": 0}])

    def send(self, *requests: tuple) -> str | None:
        """Sends requests by one write."""
        whole = b""
        for command, arguments in requests:
            self.client.seq += 1
            given = None if arguments is None else json.dumps(arguments)
            self.model.asked.append(Request(self.client.seq, command, given))
            whole += frame(request(self.client.seq, command, given))
        self.sent.append(whole)
        self.client.write_now(whole)
        return None

    def receive(self) -> str | None:
        """Receives what must come; a program that runs may go on running where requests cross it."""
        while self.model.asked or (self.model.is_waiting() and not self.crosses):
            if wrong := self.next():
                return wrong
        is_patient = not self.crosses or self.make.random() < 0.5
        if is_patient and self.never_stops():
            self.send(("pause", {"threadId": 1}))
        while is_patient and self.model.runs():
            if wrong := self.next():
                return wrong
        if is_patient and len(self.model.worlds) > 1:
            self.send(("stackTrace", {"threadId": 1}), ("variables", {"variablesReference": 1}))
            while self.model.asked:
                if wrong := self.next():
                    return wrong
        return None

    def never_stops(self) -> bool:
        """Whether the program may go round for ever."""
        known: dict[World, bool] = {}
        for world in self.model.worlds:
            path = []
            while world not in known and world.phase == "running":
                known[world] = True  # as long as its end isn't found
                path.append(world)
                _, world = advance(world)
            goes_round = known.get(world, False)
            known |= dict.fromkeys(path, goes_round)
            if goes_round:
                return True
        return False

    def next(self) -> str | None:
        content = self.client.content()
        if content is None:
            return f"nothing comes, and {[one.command for one in self.model.asked]} are asked"
        message = json.loads(content)
        self.counts[kind(message)] += 1
        return self.model.take(message)

    def some(self) -> list[tuple]:
        """One request, or some at once where they may cross."""
        return [self.one() for _ in range(self.make.choice((1, 1, 2, 3)) if self.crosses else 1)]

    def one(self) -> tuple:
        phase = self.make.choice(sorted(self.model.phases()))
        timely = {
            "none": ["launch"],
            "ended": ["launch", "launch", "setBreakpoints"],
            "configuring": [*["setBreakpoints"] * 3, "configurationDone"],
            "running": ["pause"],
            "stopped": [*["continue", "next", "stepIn"] * 3, *RESUMING, *INSPECTING, "exceptionInfo",
                        "setBreakpoints"],
        }.get(phase, ["threads"])
        any_time = ["launch", "setBreakpoints", "configurationDone", "pause", "threads", "terminate", "restart",
                    "initialize", "exceptionInfo", *RESUMING, *INSPECTING]
        command = self.make.choice(timely if self.make.random() < 0.85 else any_time)
        return command, self.arguments(command)

    def arguments(self, command: str) -> object:
        make = self.make
        if make.random() < 0.05:
            return make.choice(SOME_VALUES)
        if command == "launch":
            name = make.choice(["p.stk"] * 6 + ["q.stk"] * 3 + ["none.stk", 1])
            stops = {"program": name, "stopOnEntry": make.choice([True, True, False, False, 1])}
            return stops | make.choice([{}] * 9 + [{"noDebug": True}, {"noDebug": False}])
        if command == "setBreakpoints":
            here = {"path": make.choice(sorted(world.path for world in self.model.worlds))}
            source = make.choice([here] * 8 + [{"path": "q.stk"}, {}, None])
            if make.random() < 0.03:
                return {"source": source, "lines": [1, 2]}
            return {"source": source, "breakpoints": [self.breakpoint() for _ in range(make.randint(0, 8))]}
        if command == "initialize":
            return self.greeting()
        if command == "stackTrace":
            return {"threadId": self.thread()} | self.perhaps("startFrame", [0, 1, 2, 1000]) | self.perhaps("levels", [0, 1, 2, 20])
        if command == "scopes":
            return self.perhaps("frameId", [1, 1, 2, 3])
        if command == "variables":
            page = self.perhaps("start", [0, 1, 25, 26, 2**64 - 1]) | self.perhaps("count", [0, 1, 3, 26, 2**64 - 1])
            return self.perhaps("variablesReference", [1, 1, 1, 17, 2, 0, 33, STACK, STACK, STACK + 1]) | make.choice([{}, page])
        if command == "evaluate":
            return {"expression": make.choice(EXPRESSIONS)} | self.perhaps("frameId", [1, 2])
        return make.choice([None, {}, {"threadId": self.thread()}])

    def thread(self) -> object:
        return self.make.choice([1] * 19 + [2])

    def perhaps(self, key: str, values: list) -> dict:
        return {key: self.make.choice(values)} if self.make.random() < 0.8 else {}

    def breakpoint(self) -> object:
        make = self.make
        if make.random() < 0.03:
            return make.choice(SOME_VALUES)
        one: dict = {"line": make.randint(0, self.lines() + 1)}
        if make.random() < 0.2:
            one["condition"] = make.choice(EXPRESSIONS)
        if make.random() < 0.4:
            one["hitCondition"] = make.choice(RULES if make.random() < 0.8 else OTHER_RULES)
        if make.random() < 0.25:
            one["logMessage"] = make.choice(MESSAGES)
        return one


def kind(message: dict) -> str:
    if message["type"] == "event":
        body = message.get("body", {})
        return f"{message['event']} {body.get('reason', body.get('category', ''))}".strip()
    return "granted" if message["success"] else "refused"


def main() -> int:
    program = os.path.abspath(sys.argv[1])
    number, first = map(int, (sys.argv[2:4] + ["1000", "1"][len(sys.argv[2:4]):]))
    counts: collections.Counter[str] = collections.Counter()
    for seed in range(first, first + number):
        with tempfile.TemporaryDirectory() as folder:
            player = Player(program, folder, seed)
            if wrong := player.play():
                print(f"seed {seed}: {wrong}")
                for name, text in player.files.items():
                    print(f"file {name}: {text!r}")
                for one in player.sent:
                    print(f"sent: {one!r}")
                return 1
            counts += player.counts
    print(f"{number} sessions from seed {first} on, {sum(counts.values())} messages: as they must be")
    print(", ".join(f"{count} {name}" for name, count in sorted(counts.items())))
    return 0


if __name__ == "__main__":
    sys.exit(main())
