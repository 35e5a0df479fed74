#!/usr/bin/env python3
"""Plays an editor's side of recorded sessions to the adapter, and compares what the adapter sends with the record.

usage: replay.py SESSION.. -- PROGRAM [ARGUMENT..]

A SESSION is a transcript as tools/record.py writes it, or one written by hand. Each `->` line is sent when all that
stands before it has come; each `<-` line has to come as it stands there. ${folder} is the repository's folder. After a
remark that begins with `# indented` contents are sent in several lines, as Qt writes them. Where a session ends without
a `disconnect`, the input is closed. Ends with status 1 where something differs.
"""
from __future__ import annotations

import json
import os
import sys
import time
from collections.abc import Iterator

sys.path.insert(0, os.path.join(os.path.dirname(os.path.realpath(__file__)), "..", "..", "checks"))
from lib.client import Client, frame  # noqa: E402

TOP = os.path.realpath(os.path.join(os.path.dirname(__file__), "..", ".."))

LIMIT = float(os.environ.get("REPLAY_SECONDS", "10"))  # for each message, and for the end


def sent(content: str, is_indented: bool) -> bytes:
    return (json.dumps(json.loads(content), indent=4) + "\n").encode() if is_indented else content.encode()


def contents(session: str) -> Iterator[tuple[int, str, bytes]]:
    """The messages of a session: the number of the line, the arrow before it, and the content."""
    with open(session, encoding="utf-8") as file:
        lines = file.read().replace("${folder}", TOP).splitlines()
    is_indented = False
    for number, line in enumerate(lines, 1):
        arrow, _, content = line.partition(" ")
        if arrow == "->":
            yield number, arrow, sent(content, is_indented)
        elif arrow == "<-":
            yield number, arrow, content.encode()
        is_indented = is_indented or line.startswith("# indented")


def difference(session: str, command: list[str]) -> str | None:
    """Plays a session, and says where the adapter first differs from it."""
    adapter = Client(command, wait=LIMIT, stderr=None)
    found = None
    for number, arrow, content in contents(session):
        if arrow == "->":
            adapter.write_now(frame(content))
        elif (received := adapter.content()) != content:
            found = f"line {number}: {received.decode() if received else 'nothing'}"
            break
    adapter.end_input()
    more = None if found else adapter.content()
    status = adapter.status()
    if more is not None:
        found = f"after the last line: {more.decode()}"
    return found or (f"status {status}" if status else None)


def main() -> int:
    at = sys.argv.index("--")
    sessions, command = sys.argv[1:at], sys.argv[at + 1 :]
    wrong = 0
    for session in sessions:
        started = time.monotonic()
        found = difference(session, command)
        wrong += found is not None
        print(f"{os.path.relpath(session, TOP)}: {found or 'as recorded'} ({time.monotonic() - started:.2f} s)",
              flush=True)
    return 1 if wrong else 0


if __name__ == "__main__":
    sys.exit(main())
