#!/usr/bin/env python3
"""Plays a stored session to the adapter, and prints what goes in and what comes out.

usage: session.py [--short] SESSION PROGRAM [ARGUMENT..]

SESSION is written as checks/lib/notation.py says. Requests are sent when all messages that stand before them have come;
where some are joined by `+`, at once. The input ends after the last of them.

With --short, each message is printed by what it says, and not as it is. The status is that of the program, or 1 where a
message isn't the one that SESSION has.
"""
from __future__ import annotations

import argparse
import json
import os
import sys

sys.path.insert(0, os.path.join(os.path.dirname(os.path.realpath(__file__)), "..", "checks"))
from lib.client import Client, name_of  # noqa: E402
from lib.notation import Exchange, detail, sessions  # noqa: E402


def short(content: str) -> str:
    """What a message says: a request's command and arguments, or a response's or an event's name and body."""
    message = json.loads(content)
    if message["type"] == "request":
        return f"{message['command']} {json.dumps(message['arguments']) if 'arguments' in message else ''}".strip()
    granted = "" if message["type"] == "event" else "granted"
    text = message.get("message") or detail(message.get("body", {})) or granted
    return f"{name_of(message)}: {text}" if text else name_of(message)


class Playing:
    """A session that is played to a command, and printed."""

    def __init__(self, given: argparse.Namespace):
        self.client = Client(given.command, stderr=None)
        self.written = short if given.short else str
        self.is_right = True

    def play(self, exchanges: list[Exchange]) -> int:
        """Plays a session, and returns the command's exit status, or 1 where it goes differently."""
        for number, exchange in enumerate(exchanges, 1):
            self.ask(exchange)
            if number == len(exchanges):
                self.client.end_input()
            for wanted in exchange.answers:
                self.receive(wanted)
        while self.receive(None):
            pass
        return self.client.status() or (0 if self.is_right else 1)

    def ask(self, exchange: Exchange) -> None:
        """Prints the requests, each after a blank line and its remarks where it has some, and sends them."""
        for remarks, request in zip(exchange.remarks, exchange.requests):
            for line in [""] * bool(remarks) + [f"# {remark}" for remark in remarks]:
                print(line)
            print(f"  -> {self.written(request.decode())}", flush=True)
        self.client.write_now(exchange.piece())

    def receive(self, wanted: bytes | None) -> bool:
        """Prints the next message, and answers whether one came."""
        content = self.client.content()
        if content is not None:
            print(f"  <- {self.written(content.decode())}", flush=True)
        if content != wanted:
            self.is_right = False
            print(f"  and not: {wanted.decode() if wanted else 'nothing more'}", flush=True)
        return content is not None


def main() -> int:
    parser = argparse.ArgumentParser(usage=__doc__.split("\n\n")[1].replace("usage: ", "", 1))
    parser.add_argument("--short", action="store_true")
    parser.add_argument("session")
    parser.add_argument("command", nargs=argparse.REMAINDER)
    given = parser.parse_args()
    with open(given.session, encoding="utf-8") as file:
        (session,) = sessions(file.read())
    status = Playing(given).play(session.exchanges)
    print(f"exit status {status}")
    return status


if __name__ == "__main__":
    sys.exit(main())
