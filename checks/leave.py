#!/usr/bin/env python3
"""Lets clients leave the adapter at random moments, and looks that its process ends as docs/PROTOCOL.md says.

usage: leave.py [--listen] [--stack] PROGRAM [COUNT] [FIRST]

With --listen PROGRAM serves behind editors/listen.py, with --stack it is the example `stack_adapter`. COUNT clients are
played, 200 where none is given, from the seed FIRST on, 1 where none is given, some at a time. Each speaks over pipes,
a socket or a connection of TCP, which may block on the adapter's side or not. It launches a program that writes without
end, that only runs, or that comes to a fault, sends requests and reads or rests at random, and leaves: it closes both
ends, in either order or with a request in between, sends half a frame before, resets the connection, or ends its input
and reads the rest. The process must be gone soon, with status 0 and nothing said, or with status 1 after a failed read
or write; where all was read, it must be whole frames. Prints how they ended, and those that ended otherwise, and ends
with status 1 where one did.
"""
from __future__ import annotations

import argparse
import collections
import concurrent.futures
import contextlib
import os
import random
import socket
import struct
import subprocess
import sys
import tempfile
import time

from lib.client import Frames, frame, listened, put_files, request

MOST_SECONDS = 40.0
PROGRAMS = {
    "writes.pl0": b"var i; while 1 = 1 do begin i := i + 1; ! i end.",
    "runs.pl0": b"var i; while 1 = 1 do i := i + 1.",
    "fault.pl0": b"var i; begin i := 9; while i > 0 do begin ! i; i := i - 1 end; ! 1 / i end.",
}
STACK_PROGRAMS = {
    "writes.stk": b"push 1\nload i\nadd\nstore i\nload i\nprint\njump 1",
    "runs.stk": b"push 1\nload i\nadd\nstore i\njump 1",
    "fault.stk": b"push 9\nprint\npush 1\npush 0\ndiv",
}
COMMANDS = ("threads", "pause", "continue", "stackTrace", "stepIn", "stepBack", "reverseContinue", "bogus")
PIPES, SOCKET, TCP = STREAMS = ("pipes", "a socket", "TCP")
BOTH, INPUT_FIRST, OUTPUT_FIRST, REQUEST_BETWEEN, HALF, RESET, READS_ON = WAYS = (
    "both at once", "input first", "output first", "output, a request, input", "half a frame", "a reset", "reads on",
)
LAWFUL = {(0, ""), (1, "pl0dap: write failed"), (1, "pl0dap: read failed"), (1, "stack_adapter: Serve(Output)"),
          (1, "stack_adapter: Serve(Input)")}


class Leaving:
    """A client of a process of its own, which doesn't wait for anything."""

    def __init__(self, command: list[str], folder: str, chosen: random.Random):
        self.folder = folder
        self.chosen, self.kind, self.frames = chosen, chosen.choice(STREAMS), Frames()
        if self.kind == PIPES:
            given, self.sends = os.pipe()
            self.receives, taken = os.pipe()
        else:
            end, other = self.sockets()
            other.setblocking(chosen.random() < 0.5)
            given, self.sends = other.detach(), end.detach()
            self.receives, taken = os.dup(self.sends), os.dup(given)
        self.child = subprocess.Popen(command, cwd=folder, stdin=given, stdout=taken, stderr=subprocess.PIPE)
        os.close(given)
        os.close(taken)
        os.set_blocking(self.sends, False)
        os.set_blocking(self.receives, False)

    def sockets(self) -> tuple[socket.socket, socket.socket]:
        if self.kind == SOCKET:
            return socket.socketpair()
        with socket.create_server(("127.0.0.1", 0)) as server:
            return socket.create_connection(server.getsockname()), server.accept()[0]

    def put(self, *contents: bytes) -> None:
        """Sends requests as far as there is room."""
        with contextlib.suppress(BlockingIOError, BrokenPipeError, ConnectionError):
            os.write(self.sends, b"".join(map(frame, contents)))

    def get(self, most: int) -> bytes:
        with contextlib.suppress(BlockingIOError, ConnectionError):
            self.frames.take(piece := os.read(self.receives, most))
            return piece
        return b""

    def talk(self) -> None:
        """Launches a program, and sends, reads and rests at random."""
        launch = {"program": self.chosen.choice(sorted(os.listdir(self.folder))), "stopOnEntry": self.chosen.random() < 0.3}
        self.put(request(1, "initialize"), request(2, "launch", launch), request(3, "configurationDone"))
        for turn in range(self.chosen.randint(0, 25)):
            kind = self.chosen.random()
            if kind < 0.5:
                self.put(*(request(100 * turn + place, self.chosen.choice(COMMANDS), {"threadId": 1})
                           for place in range(4, 4 + self.chosen.choice((1, 1, 20)))))
            elif kind < 0.8:
                self.get(self.chosen.choice((1, 100, 65536)))
            else:
                time.sleep(self.chosen.choice((0, 0.0003, 0.003)))

    def read_on(self) -> None:
        """Ends the input, and reads all that comes."""
        if self.kind == PIPES:
            os.close(self.sends)
        else:
            with socket.socket(fileno=os.dup(self.sends)) as end:
                end.shutdown(socket.SHUT_WR)
        os.set_blocking(self.receives, True)
        while self.get(65536):
            pass

    def leave(self, way: str) -> None:
        ends = [self.sends, self.receives]
        if way == READS_ON:
            self.read_on()
            if self.kind == PIPES:
                ends = [self.receives]
        elif way == HALF:
            with contextlib.suppress(BlockingIOError, ConnectionError, BrokenPipeError):
                os.write(self.sends, b"Content-Length: 50\r\n\r\n{")
        elif way == RESET and self.kind == TCP:
            with socket.socket(fileno=os.dup(self.sends)) as end:
                end.setsockopt(socket.SOL_SOCKET, socket.SO_LINGER, struct.pack("ii", 1, 0))
        elif way in (OUTPUT_FIRST, REQUEST_BETWEEN):
            ends = [self.receives, self.sends]
        for number, end in enumerate(ends):
            if number and way == REQUEST_BETWEEN:
                self.put(request(9999, "threads"))
            if number and way in (INPUT_FIRST, OUTPUT_FIRST, REQUEST_BETWEEN):
                time.sleep(self.chosen.choice((0, 0.002)))
            os.close(end)

    def end(self) -> tuple[int | None, str]:
        """The status, None where the process isn't gone, and the last line on standard error."""
        try:
            status = self.child.wait(MOST_SECONDS)
        except subprocess.TimeoutExpired:
            status = None
            self.child.kill()
            self.child.wait()
        with self.child.stderr as said:
            return status, (said.read().decode(errors="replace").splitlines() or [""])[-1]


def played(command: list[str], folder: str, seed: int) -> tuple[tuple[int | None, str], str | None]:
    """How the process ended for a seed, and what is wrong with that."""
    chosen = random.Random(seed)
    client = Leaving(command, folder, chosen)
    client.talk()
    way = chosen.choice(WAYS)
    client.leave(way)
    end = client.end()
    for _ in client.frames:
        pass
    is_right = end in LAWFUL and not (way == READS_ON and end[0] == 0 and client.frames.rest)
    left = bytes(client.frames.rest[:60])
    return end, None if is_right else f"seed {seed}, {client.kind}, {way}: {end}, and {left!r} is left"


def main() -> int:
    parser = argparse.ArgumentParser(usage=__doc__.split("\n\n")[1].removeprefix("usage: "))
    parser.add_argument("--listen", action="store_true")
    parser.add_argument("--stack", action="store_true")
    parser.add_argument("program", type=os.path.abspath)
    parser.add_argument("count", type=int, nargs="?", default=200)
    parser.add_argument("first", type=int, nargs="?", default=1)
    given = parser.parse_args()
    command, count, first = listened(given.program) if given.listen else [given.program], given.count, given.first
    with tempfile.TemporaryDirectory() as folder, concurrent.futures.ThreadPoolExecutor(os.cpu_count()) as pool:
        put_files(folder, STACK_PROGRAMS if given.stack else PROGRAMS)
        found = list(pool.map(lambda seed: played(command, folder, seed), range(first, first + count)))
    wrong = [what for _, what in found if what]
    ends = collections.Counter(f"status {status}{', ' * bool(said)}{said}" for (status, said), _ in found)
    counts = "; ".join(f"{number} with {end}" for end, number in ends.most_common())
    name = os.path.basename(given.program) + " behind listen.py" * given.listen
    print("\n".join([*wrong, f"{name}: {count} clients from seed {first} on left: {counts}; "
                     f"{len(wrong)} wrong"]))
    return 1 if wrong else 0


if __name__ == "__main__":
    sys.exit(main())
