#!/usr/bin/env python3
"""Plays random sessions to the adapter and to `drive` over memory, and compares all bytes that leave.

usage: in_memory.py PROGRAM SPEED [COUNT] [SEED]

SPEED is the program `speed`, whose `session` drives a session in one thread by the bytes that the client sends. Nothing
is sent while a program runs, so there is one order of events, and the two outputs must be equal. Where `drive` gives
up, what it put before must be what the adapter writes before it ends with the status of that fault. Every other seed
from SEED on is played, until COUNT sessions were compared; 200 from seed 1 on where nothing is given. At a difference
this prints the seed, both outputs and ends, and ends with status 1. At the end it counts the faults.
"""
from __future__ import annotations

import collections
import itertools
import os
import re
import subprocess
import sys
import tempfile

from lib.making import Story, make
from lib.plain_session import Session
from lib.client import Client, frame, put_files

GAVE_UP = re.compile(r"the session gave up: (.*)")
# The statuses of the adapter after a framing fault, and after another one.
FRAMING, REFUSED = 2, 3


def driven(speed: str, folder: str, sent: bytes) -> tuple[bytes, str]:
    """What `drive` puts over memory, and the fault by which it gives up; an empty one where it doesn't."""
    path = os.path.join(folder, "sent")
    with open(path, "wb") as file:
        file.write(sent)
    run = subprocess.run([speed, "session", path], cwd=folder, stdout=subprocess.PIPE, stderr=subprocess.PIPE)
    said = run.stderr.decode()
    gave_up = GAVE_UP.search(said)
    if run.returncode != 0 and not gave_up:
        sys.exit(f"{speed} can't drive a session: {said}")
    return run.stdout, gave_up[1] if gave_up else ""


def status_of(fault: str) -> int:
    """The status with which the adapter ends by a fault."""
    return 0 if not fault else FRAMING if fault.startswith("Frame") else REFUSED


def served(adapter: Client, folder: str, story: Story) -> tuple[bytes, int]:
    """What an adapter writes to a client that waits for each run to end, and its status; the model says how many
    messages come before."""
    model, came = Session(folder), b""
    for part in story.parts:
        if model.is_closed():
            break
        adapter.write_now(part.text)
        before = len(model.sent)
        model.take(part.text)
        model.run()
        for _ in model.sent[before:]:
            content = adapter.content()
            came += b"" if content is None else frame(content)
    rest, status, _ = adapter.end()
    return came + rest, status


def main() -> int:
    program, speed = map(os.path.abspath, sys.argv[1:3])
    count, first = map(int, sys.argv[3:5] + ["200", "1"][len(sys.argv[3:5]):])
    faults: collections.Counter[str] = collections.Counter()
    length = 0
    for seed in itertools.islice(itertools.count(first, 2), count):
        story = make(seed, crosses=False)
        with tempfile.TemporaryDirectory() as folder:
            put_files(folder, story.files)
            put, fault = driven(speed, folder, b"".join(part.text for part in story.parts))
            written, status = served(Client(program, folder), folder, story)
        if (written, status) != (put, status_of(fault)):
            print(f"seed {seed}: drive puts, and gives up by {fault or 'no fault'}\n  {put!r}")
            print(f"the adapter writes, and ends with status {status}\n  {written!r}")
            return 1
        if fault:
            faults[fault] += 1
        length += len(written)
    given_up = "".join(f", {times} given up by {fault}" for fault, times in faults.most_common())
    print(f"{count} sessions, {length} bytes: what the adapter writes is what `drive` puts{given_up}")
    return 0


if __name__ == "__main__":
    sys.exit(main())
