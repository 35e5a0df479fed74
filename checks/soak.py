#!/usr/bin/env python3
"""Plays many sessions in which a program in a loop without end is paused and goes on, and looks for what is left over.

usage: soak.py [--seconds SECONDS] PROGRAM [ONE_BY_ONE] [AT_ONCE]

100 sessions are played one after the other, and 20 at once. In each the loop is paused twice, and looked at between the
pauses; in turn it only runs, or logs a message at each thousandth turn, or goes back after the first pause, by a step
and to the beginning. A session ends, in turn, by `disconnect` where the program stopped, by `disconnect` while it runs,
or by the end of the input while it runs. While the loop runs, the adapter must have its four threads, and as many open
files as at its start, but for one that is open for a moment; after the session its process must be gone, with status 0
and nothing said; and at the end this script must have as many open files and threads as at the beginning. A session
that takes more than 30 seconds, or all of them together more than 5 minutes, hang. All of it is played again until
SECONDS have passed. Ends with status 1 where something is wrong.
"""
from __future__ import annotations

import argparse
import collections
import concurrent.futures
import dataclasses
import json
import os
import re
import statistics
import sys
import tempfile
import threading
import time

from lib.client import Client, Wrong, name_of, put_files

MOST_SECONDS = 300
MOST_SECONDS_EACH = 30
# The C library opens a file of the system for a moment where a thread gives memory back.
MOST_SECONDS_OPEN = 1
THREADS = 4
LOOP = b"var x;\nwhile 1 = 1 do\nx := 1 - x.\n"
THREAD = '{"threadId":1}'
RUNS, LOGS, GOES_BACK = KINDS = ("only run", "log", "go back")
ENDS = ("a disconnect at a stop", "a disconnect in a run", "the end of the input in a run")
# Each thousandth arrival at the loop's body is an even one, before which x is 1.
LOG_POINT = '{"source":{"path":"loop.pl0"},"breakpoints":[{"line":3,"hitCondition":"%1000","logMessage":"x is {x}"}]}'
LOGGED = "x is 1\n"
MOST_MEMORY = re.compile(r"^VmHWM:\s+([0-9]+) kB$", re.MULTILINE)


@dataclasses.dataclass
class Played:
    """How a session went: its kind and end, how long it took, how long after a pause the stop came, how many messages
    were logged, and how much memory the process had at most, in KiB."""

    kind: str
    end: str
    seconds: float = 0.0
    pauses: list[float] = dataclasses.field(default_factory=list)
    logs: int = 0
    memory: int = 0
    wrong: str | None = None


class Session(Client):
    """A session that is played."""

    def __init__(self, program: str, folder: str, played: Played):
        super().__init__(program, folder)
        self.played = played

    def expect(self, name: str) -> dict:
        """The next message but for logs, which must be the granted response to this command, or this event."""
        while self.is_log(message := self.receive()):
            self.played.logs += 1
            if name == "output":
                return message
        if name_of(message) != name or not message.get("success", True):
            raise Wrong(f"{name} must come, and not {message}")
        return message

    def is_log(self, message: dict) -> bool:
        is_output = message.get("event") == "output"
        return is_output and self.played.kind == LOGS and message["body"] == {"category": "console", "output": LOGGED}

    def stopped(self, reason: str) -> None:
        found = self.expect("stopped")["body"]["reason"]
        if found != reason:
            raise Wrong(f"the stop is by {found}, and not by {reason}")

    def pause(self) -> None:
        """Pauses the program."""
        begin = time.monotonic()
        self.ask("pause", THREAD)
        self.stopped("pause")
        self.played.pauses.append(time.monotonic() - begin)

    def look(self) -> None:
        """Looks where the program stands."""
        frames = self.ask("stackTrace", THREAD)["stackFrames"]
        if [frame["name"] for frame in frames] != ["main"]:
            raise Wrong(f"these frames: {frames}")

    def go_back(self) -> None:
        """Goes back by a step, and to the beginning, where x is 0."""
        self.ask("stepBack", THREAD)
        self.stopped("step")
        self.ask("reverseContinue", THREAD)
        self.stopped("entry")
        if (value := self.ask("evaluate", '{"expression":"x"}')["result"]) != "0":
            raise Wrong(f"x is {value} at the beginning")

    def begin(self) -> None:
        """Launches the loop."""
        self.ask("initialize")
        files = open_files(self.child.pid)
        self.ask("launch", '{"program":"loop.pl0"}')
        self.expect("initialized")
        if self.played.kind == LOGS:
            self.ask("setBreakpoints", LOG_POINT)
        self.ask("configurationDone")
        if self.played.kind == LOGS:
            self.expect("output")
        if (found := threads(self.child.pid)) != THREADS:
            raise Wrong(f"{found} threads")
        if (left := files_at_last(self.child.pid, files)) != files:
            raise Wrong(f"the open files {left}, which were {files}")

    def converse(self) -> None:
        self.begin()
        self.pause()
        self.look()
        if self.played.kind == GOES_BACK:
            self.go_back()
        self.ask("continue", THREAD)
        self.pause()
        with open(f"/proc/{self.child.pid}/status", encoding="ascii") as file:
            self.played.memory = int(MOST_MEMORY.search(file.read())[1])
        if self.played.end != ENDS[0]:
            self.ask("continue", THREAD)
        if self.played.end != ENDS[2]:
            self.ask("disconnect")

    def end_with_logs(self) -> tuple[bytes, int, str]:
        """Ends the input, and returns what was still written that is no log."""
        self.end_input()
        while (content := self.content()) is not None:
            if not self.is_log(json.loads(content)):
                return content, *self.end()[1:]
        return self.end()

    def play(self) -> None:
        """Plays the session to its end. One that hangs is ended, which shows in its status."""
        start = time.monotonic()
        timer = threading.Timer(MOST_SECONDS_EACH, self.child.kill)
        timer.start()
        try:
            self.converse()
        except Wrong as found:
            self.played.wrong = str(found)
        left, *end = self.end_with_logs()
        timer.cancel()
        timer.join()
        if left or end != [0, ""]:
            self.played.wrong = self.played.wrong or f"it ended with {end}, after {left!r}"
        if os.path.exists(f"/proc/{self.child.pid}"):
            self.played.wrong = self.played.wrong or f"process {self.child.pid} is left"
        self.played.seconds = time.monotonic() - start


def threads(process: int) -> int:
    """How many threads a process has."""
    return len(os.listdir(f"/proc/{process}/task"))


def open_files(process: int | str = "self") -> list[str]:
    """The numbers of the files that a process has open."""
    return sorted(os.listdir(f"/proc/{process}/fd"))


def files_at_last(process: int, wanted: list[str]) -> list[str]:
    """The files that a process has open once they are those that are wanted, or after a second."""
    end = time.monotonic() + MOST_SECONDS_OPEN
    while (found := open_files(process)) != wanted and time.monotonic() < end:
        time.sleep(0.001)
    return found


def played(program: str, folder: str, number: int) -> Played:
    """Plays the session of this number."""
    one = Played(KINDS[number // len(ENDS) % len(KINDS)], ENDS[number % len(ENDS)])
    Session(program, folder, one).play()
    return one


def counts(names: list[str]) -> str:
    return ", ".join(f"{count} {name}" for name, count in collections.Counter(names).items())


def tell(name: str, sessions: list[Played], seconds: float) -> bool:
    """Prints how the sessions went, and answers whether all went well."""
    wrong = [one for one in sessions if one.wrong]
    pauses = [taken for one in sessions for taken in one.pauses] or [0.0]
    print(f"{len(sessions)} sessions {name}: {counts([one.kind for one in sessions])};")
    print(f"  {counts(['by ' + one.end for one in sessions])}")
    longest, memory = max(one.seconds for one in sessions), max(one.memory for one in sessions)
    print(f"  {len(wrong)} went wrong; {seconds:.2f} s in all; a session at most {longest:.3f} s")
    print(f"  from `pause` to `stopped`: median {statistics.median(pauses) * 1e6:.0f} us, "
          f"at most {max(pauses) * 1e6:.0f} us")
    print(f"  {sum(one.logs for one in sessions)} messages logged; a process had at most {memory} KiB")
    for one in wrong[:5]:
        print(f"  {one.kind}, {one.end}: {one.wrong}")
    return not wrong


def give_up() -> None:
    print(f"not over after {MOST_SECONDS} s", flush=True)
    os._exit(1)


def round_of(program: str, folder: str, single: int, together: int) -> bool:
    """Plays the sessions one by one and at once, and answers whether all went well."""
    watch = threading.Timer(MOST_SECONDS, give_up)
    watch.start()
    start = time.monotonic()
    good = tell("one after the other", [played(program, folder, number) for number in range(single)],
                time.monotonic() - start)
    start = time.monotonic()
    with concurrent.futures.ThreadPoolExecutor(together) as pool:
        sessions = list(pool.map(lambda number: played(program, folder, number), range(together)))
    good &= tell("at once", sessions, time.monotonic() - start)
    watch.cancel()
    watch.join()
    return good


def main() -> int:
    parser = argparse.ArgumentParser(usage=__doc__.split("\n\n")[1].replace("usage: ", "", 1))
    parser.add_argument("--seconds", type=float, default=0.0)
    parser.add_argument("program", type=os.path.abspath)
    parser.add_argument("single", type=int, nargs="?", default=100)
    parser.add_argument("together", type=int, nargs="?", default=20)
    given = parser.parse_args()
    before, begin, rounds, good = (open_files(), threads(os.getpid())), time.monotonic(), 0, True
    with tempfile.TemporaryDirectory() as folder:
        put_files(folder, {"loop.pl0": LOOP})
        while good and (rounds == 0 or time.monotonic() - begin < given.seconds):
            good = round_of(given.program, folder, given.single, given.together)
            rounds += 1
    after = open_files(), threads(os.getpid())
    print(f"{rounds} times {given.single + given.together} sessions in {time.monotonic() - begin:.0f} s")
    print(f"open files before and after: {len(before[0])} and {len(after[0])}; threads: {before[1]} and {after[1]}")
    return 0 if good and after == before else 1


if __name__ == "__main__":
    sys.exit(main())
