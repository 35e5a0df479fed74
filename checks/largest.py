#!/usr/bin/env python3
"""Plays one session that is large in everything at once, and looks whether all of it is answered.

usage: largest.py PROGRAM

The text has 65,536 bytes and names of 64 letters. 256 breakpoints have conditions of 1,024 bytes, of which none holds.
The program is stepped a thousand times; it takes more than a million steps; a recursion stops at 1,024 frames, with a
level of procedures between the declaration of a variable and its use; 300 numbers are written one after the other; and
10,000 requests are sent without waiting. Each request must be granted under its own number, the numbers of what comes
must run 1, 2, 3, and the stop must have the frames and values that the text gives. Prints what was seen, and ends with
status 1 where something is wrong.
"""
from __future__ import annotations

import os
import sys
import tempfile

from lib.client import Client, put_files

LIMIT = 65_536
DEPTH = 1_024
TURNS = 600_000
BREAKPOINTS = 256
CONDITION = 1_024
RUNS = 1_000
NUMBERS = 300
MESSAGES = 10_000
FILE = "largest.pl0"

TURN, LEFT, START, OUTER, INNER = (letter * 64 for letter in ("t", "l", "s", "o", "i"))
# Two frames for each pair of calls, one of the procedure that begins, and one of the main program.
PAIRS = (DEPTH - 2) // 2


def text() -> tuple[bytes, int, int]:
    """The program, the line of its first statement, and that of the deepest call's stop."""
    lines = [f"var {TURN}, {LEFT};", f"procedure {OUTER};", f"  procedure {INNER};", "  begin"]
    lines += [f"    {LEFT} := {LEFT} - 1;", f"    if {LEFT} > 0 then call {OUTER}", "  end;"]
    lines += [f"  call {INNER};", f"procedure {START}; call {OUTER};", "begin"]
    first = len(lines) + 1
    lines += [f"  {TURN} := 0;"] * BREAKPOINTS
    lines += [f"  {LEFT} := {PAIRS};", f"  while {TURN} < {TURNS} do {TURN} := {TURN} + 1;", f"  call {START};"]
    lines += [f"  ! {TURN};"] * NUMBERS + [f"  {LEFT} := 0", "end."]
    whole = "\n".join(lines)
    return (whole + " " * (LIMIT - len(whole))).encode(), first, 6


def condition(holds: bool) -> str:
    """A condition of the longest length."""
    front = f"{LEFT} = 0" if holds else f"{TURN} < 0"
    return front + " + 0" * ((CONDITION - len(front)) // 4) + " " * ((CONDITION - len(front)) % 4)


class Session(Client):
    """A client that checks the numbers of all that comes."""

    def __init__(self, program: str, folder: str):
        super().__init__(program, folder)
        self.last = 0
        self.written: list[str] = []

    def receive(self) -> dict:
        message = super().receive()
        self.last += 1
        if message.get("seq") != self.last:
            raise SystemExit(f"message {self.last} is {message}")
        if message.get("event") == "output":
            self.written += message["body"]["output"].split()
        return message

    def granted(self, number: int) -> dict:
        """The answer to a request, which must be the next one to be answered, and granted."""
        while (message := self.receive())["type"] != "response":
            pass
        if message["request_seq"] != number or not message["success"]:
            raise SystemExit(f"request {number}: {message}")
        return message.get("body", {})

    def ask(self, command: str, arguments: object = None) -> dict:
        self.send((command, arguments))
        return self.granted(self.seq)


def breakpoints(session: Session, asked: list[dict]) -> None:
    found = session.ask("setBreakpoints", {"source": {"path": FILE}, "breakpoints": asked})["breakpoints"]
    if len(found) != len(asked) or not all(one["verified"] for one in found):
        raise SystemExit(f"breakpoints: {found}")


def at_the_depth(session: Session) -> None:
    """The program stopped where the recursion is deepest."""
    frames = session.ask("stackTrace", {"threadId": 1})
    names = [frame["name"] for frame in frames["stackFrames"]]
    wanted = [INNER, OUTER] * PAIRS + [START, "main"]
    if names != wanted or frames["totalFrames"] != len(wanted):
        raise SystemExit(f"{len(names)} frames of {frames['totalFrames']}")
    at = {"frameId": frames["stackFrames"][0]["id"]}
    value = session.ask("evaluate", {"expression": TURN, **at})["result"]
    if value != str(TURNS):
        raise SystemExit(f"{TURN} is {value}")
    print(f"a stop at {len(names)} frames after more than {2 * TURNS:,} steps; a variable two levels out is {value}")


def play(session: Session, first: int, stop: int) -> None:
    session.ask("initialize", {})
    session.ask("launch", {"program": FILE, "stopOnEntry": True})
    breakpoints(session, [{"line": first + at, "condition": condition(False)} for at in range(BREAKPOINTS)])
    session.ask("configurationDone", {})
    session.wait_for("stopped")
    for _ in range(RUNS):
        session.ask("stepIn", {"threadId": 1})
        session.wait_for("stopped")
    print(f"{RUNS:,} runs under {BREAKPOINTS} conditions of {CONDITION:,} bytes")
    breakpoints(session, [{"line": first + at, "condition": condition(False)} for at in range(BREAKPOINTS - 1)]
                + [{"line": stop, "condition": condition(True)}])
    session.ask("continue", {"threadId": 1})
    session.wait_for("stopped")
    at_the_depth(session)
    session.send(*[("threads",)] * MESSAGES)
    for number in range(session.seq - MESSAGES + 1, session.seq + 1):
        session.granted(number)
    print(f"{MESSAGES:,} requests at once")
    session.ask("continue", {"threadId": 1})
    session.wait_for("terminated")
    if session.written != [str(TURNS)] * NUMBERS:
        raise SystemExit(f"{len(session.written)} numbers")
    print(f"{NUMBERS} numbers, one after the other")
    session.ask("disconnect", {})


def main() -> int:
    if len(sys.argv) != 2:
        print(__doc__, file=sys.stderr)
        return 1
    program = os.path.abspath(sys.argv[1])
    whole, first, stop = text()
    with tempfile.TemporaryDirectory() as folder:
        put_files(folder, {FILE: whole})
        session = Session(program, folder)
        play(session, first, stop)
        rest, status, said = session.end()
    print(f"status {status}, {len(rest)} bytes after the answer to disconnect")
    return 1 if rest or status or said else 0


if __name__ == "__main__":
    sys.exit(main())
