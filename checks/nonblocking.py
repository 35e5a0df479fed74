#!/usr/bin/env python3
"""Speaks with the adapter over a socket that doesn't block, as a parent with an event loop hands it over, and looks
that no message is lost in either direction.

usage: nonblocking.py PROGRAM..

One socket is the adapter's standard input and output, and doesn't block on its side. It is left without anything to
read for a while, and then without room for what is written: REQUESTS requests are sent while no answer is read. All
have to be answered, each once and in their order, and the process has to end with status 0 and say nothing.
"""
from __future__ import annotations

import json
import os
import socket
import subprocess
import sys
import threading
import time

from lib.client import Frames, frame, request

REQUESTS = 5000
# How long nothing is sent, and then nothing read, in seconds.
REST = 0.5
WAIT = 60.0


def answered(client: socket.socket) -> list[int]:
    """The numbers of the requests that are answered, in order, up to the answer to `disconnect`."""
    frames, numbers = Frames(), []
    while True:
        piece = client.recv(65536)
        if not piece:
            raise ConnectionError("the adapter has ended")
        frames.take(piece)
        for content in frames:
            message = json.loads(content)
            numbers.append(message["request_seq"])
            if message["command"] == "disconnect":
                return numbers


def send_all(client: socket.socket) -> None:
    try:
        for seq in range(2, REQUESTS):
            client.sendall(frame(request(seq, "threads")))
        client.sendall(frame(request(REQUESTS, "disconnect")))
    except OSError:
        pass  # the adapter has ended, which the answers show


def numbers_of_answers(client: socket.socket) -> list[int] | None:
    """Speaks with the adapter, and returns which requests it answers, or None where it ends before that."""
    time.sleep(REST)
    try:
        client.sendall(frame(request(1, "initialize")))
        sender = threading.Thread(target=send_all, args=(client,))
        sender.start()
        time.sleep(REST)
        numbers = answered(client)
        sender.join()
        client.shutdown(socket.SHUT_WR)
        return numbers
    except (OSError, ValueError):
        return None


def difference(program: str) -> str | None:
    """How a session differs from what must come, if it does."""
    client, given = socket.socketpair()
    given.setblocking(False)
    child = subprocess.Popen([program], stdin=given, stdout=given, stderr=subprocess.PIPE)
    given.close()
    client.settimeout(WAIT)
    numbers = numbers_of_answers(client)
    client.close()
    said = child.communicate(timeout=WAIT)[1].decode()
    if numbers is None:
        return f"it ends, with status {child.returncode}"
    if numbers != list(range(1, REQUESTS + 1)):
        return f"{len(numbers)} answers, and not {REQUESTS}"
    return None if (child.returncode, said) == (0, "") else f"status {child.returncode}, {said!r}"


def main() -> int:
    programs = [os.path.abspath(name) for name in sys.argv[1:]]
    if not programs:
        print(__doc__, file=sys.stderr)
        return 4
    found = {os.path.basename(program): difference(program) for program in programs}
    for name, differs in found.items():
        print(f"{name}, over a socket that doesn't block: {differs or f'{REQUESTS} requests, each answered once'}")
    return 1 if any(found.values()) else 0


if __name__ == "__main__":
    sys.exit(main())
