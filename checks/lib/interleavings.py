"""Whether what an adapter sent is lawful, where requests arrive while a program runs.

The adapter reads, runs, answers and writes in threads. So requests and reports of slices come to the session in one of
many orders, and a run is held after its first slice or a later one. The model of `plain_session` is followed through
all of them, as far as each agrees with what was sent.
"""
from __future__ import annotations

import dataclasses
import json

from lib.plain_pl0 import Program
from lib.plain_session import FrameFault, Frames, Session, request_of


@dataclasses.dataclass
class Item:
    """A thing that the input gives: a content, a framing fault or the end; and how many messages had left before it was
    whole."""

    kind: str
    content: bytes
    after: int


@dataclasses.dataclass
class Write:
    """Some bytes that were written, and how many messages had been received before that."""

    piece: bytes
    after: int


def items_of(writes: list[Write], after: int) -> list[Item]:
    """What the input gives that was written so, and ended after that many messages."""
    frames, items = Frames(), []
    try:
        for write in writes:
            frames.rest += write.piece
            while (content := frames.next()) is not None:
                items.append(Item("content", content, write.after))
    except FrameFault as fault:
        return [*items, Item("fault", b"%d" % fault.args[0], write.after)]
    return [*items, Item("end", b"", after)]


class Following:
    """Follows a model through all that may happen, as far as that agrees with what was sent."""

    def __init__(self, items: list[Item], messages: list[bytes]):
        self.items = items
        self.messages = messages
        self.seen: set[tuple] = set()
        # A model, how many items it took, and how many messages it sent.
        self.open: list[tuple[Session, int, int]] = []
        self.farthest = 0
        self.expected: set[bytes] = set()
        self.program: Program | None = None

    def end(self, model: Session) -> Session | None:
        """A model that took the items and sent exactly the messages, if there is one."""
        self.keep(model, 0, 0)
        while self.open:
            model, taken, count = self.open.pop()
            if model.is_closed():
                if count == len(self.messages):
                    return model
                continue
            self.go_on(model, taken, count)
        return None

    def go_on(self, model: Session, taken: int, count: int) -> None:
        """Follows all that may happen next. An item is tried first, and a slice, of which there may be many, last."""
        if model.situation == "Running":
            held = model.twin() if model.may_be_held() else None
            going = model.twin()
            going.slice()
            self.agree(going, taken, count)
            if held:
                held.give_back()
                self.agree(held, taken, count)
        if taken < len(self.items) and self.items[taken].after <= count:
            self.take(model.twin(), taken, count)

    def take(self, model: Session, taken: int, count: int) -> None:
        """Gives a twin of a model the next item, and keeps it if it agrees."""
        item = self.items[taken]
        if item.kind == "content":
            model.take_content(item.content)
        else:
            model.fault = int(item.content) if item.kind == "fault" else None
            model.situation = "Closed"
        self.agree(model, taken + 1, count)

    def agree(self, model: Session, taken: int, count: int) -> None:
        """Keeps a model if what it sent now is what was sent."""
        for message in model.sent:
            if count == len(self.messages) or self.messages[count] != message:
                self.note(count, message)
                return
            count += 1
        if model.is_closed() and count < len(self.messages):
            self.note(count, b"nothing")
        self.keep(model, taken, count)

    def note(self, count: int, message: bytes) -> None:
        """Remembers what could have come where the most messages agree."""
        if count > self.farthest:
            self.farthest, self.expected = count, set()
        if count == self.farthest and len(self.expected) < 20:
            self.expected.add(message)

    def keep(self, model: Session, taken: int, count: int) -> None:
        """Keeps a model to go on from, if none like it was kept."""
        key = (taken, count, model.key())
        if key not in self.seen:
            self.seen.add(key)
            self.program = self.program or model.program
            model.sent = []
            self.open.append((model, taken, count))


def breach(items: list[Item], messages: list[bytes], numbers: list[int]) -> str | None:
    """Which of the plainest laws is broken, if one is: numbered messages, an answer for each request in its turn, the
    program's numbers in order, and nothing after the answer to `disconnect`."""
    sent = [json.loads(message) for message in messages]
    if [one["seq"] for one in sent] != list(range(1, len(sent) + 1)):
        return "messages aren't numbered 1, 2, 3"
    requests = [request for item in items if item.kind == "content" and (request := request_of(item.content))]
    leaves = [number for number, request in enumerate(requests) if request.command == "disconnect"]
    asked = [(request.seq, request.command) for request in requests[:leaves[0] + 1 if leaves else None]]
    answered = [(one["request_seq"], one["command"]) for one in sent if one["type"] == "response"]
    if answered != asked:
        return f"{asked} was asked, and {answered} answered"
    outputs = [one["body"] for one in sent if one.get("event") == "output"]
    written = [int(one["output"]) for one in outputs if one["category"] == "stdout"]
    if written != numbers[:len(written)]:
        return f"{written} was written, and not {numbers}"
    if leaves and (not sent or sent[-1].get("command") != "disconnect"):
        return "something comes after the answer to disconnect"
    return None
