#!/usr/bin/env python3
"""Speaks with an adapter by the lines of standard input, and prints each message that comes.

usage: talk.py PROGRAM [WORD..]

A line is a request, a command and its arguments in JSON, as `launch {"program": "sum.stk"}`; its response is waited for.
A line `. NAME` waits for the event of this name, as `. stopped`. Empty lines, and those that begin with `#`, are passed
over. At the end of the lines the adapter's input ends.

The status is 1 where what is waited for doesn't come in a minute, and else the adapter's.
"""
from __future__ import annotations

import json
import pathlib
import sys

sys.path.insert(0, str(pathlib.Path(__file__).resolve().parent.parent / "checks"))

from lib.client import Client, Wrong, name_of  # noqa: E402


def wait_for(client: Client, name: str) -> None:
    """Prints what comes, up to the event of this name, or the response to this command."""
    while True:
        message = client.receive()
        print(json.dumps(message))
        if name_of(message) == name:
            return


def main() -> int:
    if len(sys.argv) < 2:
        print(__doc__)
        return 1
    try:
        client = Client(sys.argv[1:], stderr=None)
    except OSError as error:
        print(f"{sys.argv[1]} can't be started: {error.strerror}", file=sys.stderr)
        return 1
    try:
        for line in sys.stdin:
            name, _, rest = line.strip().partition(" ")
            if name == ".":
                wait_for(client, rest.strip())
            elif name and not name.startswith("#"):
                client.send((name, rest) if rest.strip() else (name,))
                wait_for(client, name)
    except Wrong as wrong:
        print(f"{sys.argv[1]}: {wrong}", file=sys.stderr)
        return 1
    client.end_input()
    while client.more():
        pass
    for content in client.frames:
        print(content.decode())
    return client.status()


if __name__ == "__main__":
    sys.exit(main())
