#!/usr/bin/env python3
"""Plays what makes the example `stack_adapter` tell and show the most, and looks at how large its frames are.

usage: stack_sizes.py PROGRAM

Breakpoints with the longest message, of characters that JSON writes in six bytes, speak in each step of a program without
end; 1,001 frames are shown of a file with a path that is as long and as costly as the system allows, in as many answers as
that takes; and 5,000 breakpoints are asked for. No frame may have more than 1,048,576 bytes, no byte of what is told may
be lost, and each stack frame has to be shown. Prints the largest event and the largest answer, and ends with status 1 if
something is wrong.
"""
from __future__ import annotations

import os
import sys
import tempfile

from lib.client import Client, Wrong, frame


LARGEST = 1_048_576  # bytes of a frame
MESSAGE = "\x01" * 65_536
DEPTH = 1001
THREAD = {"threadId": 1}


class Measured(Client):
    """A client that notes the largest frames."""

    largest = {"event": 0, "response": 0}

    def content(self) -> bytes | None:
        content = super().content()
        if content is not None:
            kind = "event" if b'"type":"event"' in content[-40:] else "response"
            self.largest[kind] = max(self.largest[kind], len(frame(content)))
        return content

    def load(self, path: str, breakpoints: list[dict]) -> None:
        """Launches a program, and sets breakpoints in it."""
        self.ask("launch", {"program": path})
        self.expect("initialized")
        answers = self.ask("setBreakpoints", {"source": {"path": path}, "breakpoints": breakpoints})["breakpoints"]
        if [one["verified"] for one in answers] != [True] * len(breakpoints):
            raise Wrong(f"breakpoints: {answers}")


def speak(client: Measured, folder: str) -> None:
    """Two breakpoints speak at each step of a loop, and what they say is whole."""
    path = os.path.join(folder, "loop.stk")
    with open(path, "w", encoding="utf-8") as file:
        file.write("jump 1\n")
    client.load(path, [{"line": 1, "logMessage": MESSAGE}] * 2)
    client.send(("configurationDone", None), ("pause", THREAD))
    client.expect("configurationDone")
    told = ""
    while (message := client.receive()).get("command") != "pause":
        told += message["body"]["output"]
    if not told or told.replace(MESSAGE + "\n", ""):
        raise Wrong("what breakpoints say isn't told as it is")
    client.expect("stopped")
    client.ask("terminate")
    client.expect("terminated")


def long_path(folder: str) -> str:
    """A path of nearly 4,096 bytes, most of which JSON writes in six, to a program that calls itself."""
    os.chdir(folder)
    path = folder
    while len(path) < 3_700:
        os.mkdir("\x01" * 250)
        os.chdir("\x01" * 250)
        path = os.path.join(path, "\x01" * 250)
    with open("deep.stk", "w", encoding="utf-8") as file:
        file.write("call 1\n")
    return os.path.join(path, "deep.stk")


def show(client: Measured, folder: str) -> int:
    """All frames of a deep stack, by as many requests as that takes."""
    client.load(long_path(folder), [])
    client.ask("configurationDone")
    client.expect("stopped")
    shown, requests = 0, 0
    while shown < DEPTH:
        body = client.ask("stackTrace", {"threadId": 1, "startFrame": shown})
        ids = [one["id"] for one in body["stackFrames"]]
        if ids != list(range(shown + 1, shown + 1 + len(ids))) or not ids or body["totalFrames"] != DEPTH:
            raise Wrong(f"frames {ids[:2]} of {body['totalFrames']} after {shown}")
        shown += len(ids)
        requests += 1
    return requests


def main() -> int:
    program = os.path.abspath(sys.argv[1])
    with tempfile.TemporaryDirectory() as folder:
        client = Measured([program])
        try:
            client.ask("initialize", {"adapterID": "stack"})
            speak(client, folder)
            requests = show(client, folder)
            client.ask("setBreakpoints", {"source": {"path": "other"}, "breakpoints": [0] * 5_000})
            client.ask("disconnect")
        except Wrong as wrong:
            print(f"stack_adapter: {wrong}")
            return 1
        finally:
            os.chdir("/")
    largest = client.largest
    print(f"stack_adapter: the largest event has {largest['event']:,} bytes, the largest answer {largest['response']:,}; "
          f"{DEPTH:,} frames were shown by {requests} requests")
    return 0 if max(largest.values()) <= LARGEST else 1


if __name__ == "__main__":
    sys.exit(main())
