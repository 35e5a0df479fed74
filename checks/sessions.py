#!/usr/bin/env python3
"""Plays random sessions to the adapter, and compares what leaves with what must leave by definition.

usage: sessions.py PROGRAM [COUNT] [SEED]

Session number n has the seed SEED + n - 1; the seed is 1 where none is given. What must leave is worked out by
`plain_session`, which is written apart from the adapter. In a session with an odd seed nothing is sent while a program
runs, so each message is compared as it comes. In one with an even seed requests cross the reports of a run: what leaves
must be lawful for one of the orders in which they can meet (`interleavings`), so two plays of a seed can differ. At a
difference this prints the seed, the session, and the shortest one found that shows it, and ends with status 1;
`sessions.py PROGRAM 1 SEED` plays that seed again.
"""
from __future__ import annotations

import collections
import dataclasses
import json
import os
import re
import sys
import tempfile
import time
from collections.abc import Callable

from lib.interleavings import Following, Item, Write, breach, items_of
from lib.making import Part, Story, ending, make
from lib.plain_pl0 import Machine, Program, RunFault
from lib.plain_session import GOING_BACK, RESUMING, FrameFault, Frames, Session, request_of
from lib.client import Client, put_files

WORD = re.compile(rb"\s+|[A-Za-z0-9]+|[^\sA-Za-z0-9]+")
# How often a session whose output may differ from one time to the next is played before it counts as lawful.
TIMES = 5
# How long a moment is.
MOMENT = 0.0005
BEGINNING = ("configurationDone", *RESUMING, *GOING_BACK)


@dataclasses.dataclass
class Found:
    """Where the adapter first differs from what is lawful, if it does, the messages that came, and after how many
    slices runs may have been held."""

    difference: str | None
    messages: list[bytes]
    held: list[int]


def play(program: str, story: Story) -> Found:
    with tempfile.TemporaryDirectory() as folder:
        put_files(folder, story.files)
        return (play_crossing if story.crosses else play_exactly)(program, story, folder)


def play_exactly(program: str, story: Story, folder: str) -> Found:
    """Waits for each message that must come before it writes more."""
    model, adapter = Session(folder), Client(program, folder)
    found = None
    for number, part in enumerate(story.parts, 1):
        if found or model.is_closed():
            break
        found = part_difference(adapter, model, number, part.text)
    end = adapter.end()
    return Found(found or end_difference(end, model), model.sent, model.held)


def part_difference(adapter: Client, model: Session, number: int, text: bytes) -> str | None:
    """Gives a part of the input to the adapter and to the model, and tells how the adapter first differs."""
    before = len(model.sent)
    adapter.write_now(text)
    model.take(text)
    model.run()
    for wanted in model.sent[before:]:
        content = adapter.content()
        if content != wanted:
            return f"after part {number}\n  must be {wanted!r}\n  but is  {content!r}"
    return None


def end_difference(end: tuple[bytes, int, str], model: Session) -> str | None:
    wanted = (b"", 0, "") if model.fault is None else (b"", 2, f"pl0dap: frame {model.fault}")
    return None if end == wanted else f"at the end\n  must be {wanted}\n  but is  {end}"


class Talk:
    """A client that knows what it asked and what was answered."""

    def __init__(self, program: str, folder: str):
        self.adapter = Client(program, folder)
        self.frames = Frames()
        self.asked = 0
        self.is_over = False
        self.writes: list[Write] = []
        self.messages: list[bytes] = []
        self.answered = 0
        self.runs = False

    def send(self, text: bytes) -> None:
        self.writes.append(Write(text, len(self.messages)))
        self.adapter.write_now(text)
        self.frames.rest += text
        try:
            while not self.is_over and (content := self.frames.next()) is not None:
                request = request_of(content)
                self.asked += request is not None
                self.is_over = request is not None and request.command == "disconnect"
        except FrameFault:
            self.is_over = True

    def wait(self, kind: str) -> None:
        if kind == "moment":
            time.sleep(MOMENT)
        while kind in ("stop", "answers") and (
                self.answered < self.asked or (kind == "stop" and self.runs and not self.is_over)):
            if not self.receive():
                return

    def receive(self) -> bool:
        content = self.adapter.content()
        if content is None:
            return False
        self.messages.append(content)
        message = json.loads(content)
        if message["type"] == "response":
            self.answered += 1
            self.runs |= message["success"] and message["command"] in BEGINNING
        elif message["event"] in ("stopped", "terminated"):
            self.runs = False
        return True

    def end(self) -> tuple[list[Item], tuple[bytes, int, str]]:
        """Ends the input, and receives all that still comes."""
        items = items_of(self.writes, len(self.messages))
        self.adapter.end_input()
        while self.receive():
            pass
        return items, self.adapter.end()


def play_crossing(program: str, story: Story, folder: str) -> Found:
    """Waits where the story says so, and looks whether what came is lawful."""
    talk = Talk(program, folder)
    for part in story.parts:
        if talk.is_over:
            break
        talk.send(part.text)
        talk.wait(part.wait)
    items, end = talk.end()
    following = Following(items, talk.messages)
    last = following.end(Session(folder))
    return Found(unlawful(following, last, end), talk.messages, last.held if last else [])


def unlawful(following: Following, last: Session | None, end: tuple[bytes, int, str]) -> str | None:
    """Why the messages that came aren't lawful, if so."""
    messages = following.messages
    numbers = written(following.program, len(messages)) if following.program else []
    broken = breach(following.items, messages, numbers)
    if broken or last is None:
        shown = "\n  ".join(f"{number}: {message!r}" for number, message in enumerate(messages, 1))
        expected = " or ".join(map(repr, following.expected))
        why = broken or f"message {following.farthest + 1} may be {expected}"
        return f"since {why}; what came, with status {end[1:]}:\n  {shown}"
    return end_difference(end, last)


def written(program: Program, most: int) -> list[int]:
    """The first numbers that a program writes."""
    machine = Machine(program)
    numbers = []
    try:
        while not machine.is_done() and len(numbers) < most:
            number = machine.step()
            numbers += [] if number is None else [number]
    except RunFault:
        pass
    return numbers


def fewest(items: list, is_kept: Callable[[list], bool]) -> list:
    """The items without those runs of them that can be left out."""
    size = len(items)
    while size:
        at = 0
        while at < len(items):
            fewer = items[:at] + items[at + size:]
            if is_kept(fewer):
                items = fewer
            else:
                at += size
        size //= 2
    return items


def differs(program: str, story: Story) -> bool:
    return any(play(program, story).difference is not None for _ in range(TIMES if story.crosses else 1))


def shortest(program: str, story: Story) -> Story:
    """A shorter session at which the adapter still differs."""

    def with_parts(parts: list[Part]) -> Story:
        return dataclasses.replace(story, parts=parts)

    story = with_parts(fewest(story.parts, lambda parts: differs(program, with_parts(parts))))
    for name in story.files:
        story = with_shortest(program, story, name)
    return story


def with_shortest(program: str, story: Story, name: str) -> Story:
    """The same with words left out of a file."""

    def without(words: list[bytes]) -> Story:
        return dataclasses.replace(story, files={**story.files, name: b"".join(words)})

    def is_kept(words: list[bytes]) -> bool:
        return ending(b"".join(words)) is not None and differs(program, without(words))

    return without(fewest(WORD.findall(story.files[name]), is_kept))


def tell(seed: int, story: Story, found: str) -> None:
    print(f"seed {seed}: the adapter differs {found}")
    for name, text in story.files.items():
        if text:
            print(f"file {name}: {text!r}")
    for number, part in enumerate(story.parts, 1):
        print(f"part {number}, then {part.wait}: {part.text!r}")


def kinds(messages: list[bytes]) -> collections.Counter[str]:
    """How many of the messages that left were responses granted, refused for each reason, and events of each kind."""
    counts: collections.Counter[str] = collections.Counter()
    for content in messages:
        message = json.loads(content)
        kind = message["event"] if message["type"] == "event" else message.get("message", "granted").split()[0]
        body = message.get("body", {})
        counts[f"{kind} {body.get('reason', body.get('category', ''))}".strip()] += 1
    return counts


def main() -> int:
    program = os.path.abspath(sys.argv[1])
    number, first = map(int, (sys.argv[2:4] + ["500", "1"][len(sys.argv[2:4]):]))
    counts: dict[bool, collections.Counter[str]] = {False: collections.Counter(), True: collections.Counter()}
    held: list[int] = []
    for seed in range(first, first + number):
        story = make(seed, crosses=seed % 2 == 0)
        found = play(program, story)
        if found.difference:
            tell(seed, story, found.difference)
            story = shortest(program, story)
            tell(seed, story, play(program, story).difference or "at times")
            return 1
        counts[story.crosses] += kinds(found.messages)
        held += found.held
    messages = sum(sum(one.values()) for one in counts.values())
    print(f"{number} sessions from seed {first} on, {messages} messages: as they must be")
    for crosses, name in ((False, "exactly compared"), (True, "with requests during runs")):
        print(f"{name}: " + ", ".join(f"{count} {kind}" for kind, count in sorted(counts[crosses].items())))
    if held:
        print(f"runs were held {len(held)} times, {sum(one > 1 for one in held)} of these after a later slice than the "
              f"first, the latest after {max(held)}")
    return 0


if __name__ == "__main__":
    sys.exit(main())
