#!/usr/bin/env python3
"""Looks whom editors/listen.py lets in, and that nothing that comes holds it up.

usage: listening.py PROGRAM

PROGRAM is pl0dap. As root another user of the computer connects before the user does, in each way in which 127.0.0.1
can be reached: he gets nothing, and the user is served. Headers and lengths that the adapter refuses, of which more
seems to come, end it as they end the adapter alone, with the same bytes. A socket that doesn't block serves as well,
20,000 numbers come in some seconds, and without Python the adapter serves alone. Prints what is wrong, and ends with
status 1 where anything is.
"""
from __future__ import annotations

import json
import os
import pathlib
import shutil
import socket
import subprocess
import sys
import tempfile
import time
from collections.abc import Iterator

from lib.client import Client, Frames, frame, put_files, request

LISTEN = pathlib.Path(__file__).resolve().parent.parent / "editors" / "listen.py"
NOBODY = 65534
SECRET, WORD = "secret.pl0", b"password hunter2"
NUMBERS, REST, MOST_REST = 20_000, 0.05, 4.0  # how many are written; the seconds after each output, and of all together
LIMIT = 60.0
WRITES = """import sys
for number in range(int(sys.argv[1])):
    text = '{"body":{"category":"stdout","output":"%d\\\\n"},"event":"output","seq":%d,"type":"event"}' % (number, number + 1)
    sys.stdout.write("Content-Length: %d\\r\\n\\r\\n%s" % (len(text), text))
"""
# How a stranger reaches the port: the kind of the address, the one that he comes from, and the one that he goes to.
WAYS = ((socket.AF_INET, "127.0.0.1", "127.0.0.1"), (socket.AF_INET, "127.0.0.2", "127.0.0.1"),
        (socket.AF_INET6, "::ffff:127.0.0.1", "::ffff:127.0.0.1"), (socket.AF_INET6, "::", "::ffff:127.0.0.1"))
READY = frame(request(1, "initialize"))
# What the adapter refuses before the input ends.
REFUSED = (
    b"Content-Length: 99999999999999\r\n\r\n", b"Content-Length: " + b"9" * 5000 + b"\r\n\r\n",
    b"Content-Length: 99999999\r\n\r\n", b"Content-Length: 1048577\r\n\r\n{", b"x" * 5000, b"X: y\r\n" * 1000,
    b"\r\n\r\n",
)


def connected(way: tuple, port: int) -> socket.socket:
    kind, come_from, go_to = way
    until = time.monotonic() + LIMIT
    while True:
        try:
            end = socket.socket(kind, socket.SOCK_STREAM)
            end.settimeout(LIMIT)
            end.bind((come_from, 0))
            end.connect((go_to, port))
            return end
        except ConnectionRefusedError:
            end.close()
            if time.monotonic() > until:
                raise
            time.sleep(0.05)


def all_from(way: tuple, port: int, program: str) -> bytes:
    """What one gets who connects, launches a program, and ends his input."""
    with connected(way, port) as end:
        came = b""
        try:
            end.sendall(READY + frame(request(2, "launch", {"program": program})))
            end.shutdown(socket.SHUT_WR)
            while piece := end.recv(65536):
                came += piece
        except OSError:
            pass  # it was closed before all was sent
        return came


def asked_by(user: int, way: tuple, port: int, program: str) -> bytes:
    """What another user gets."""
    reading, writing = os.pipe()
    child = os.fork()
    if child == 0:
        os.setgroups([])
        os.setgid(user)
        os.setuid(user)
        os.write(writing, all_from(way, port, program)[:4096])
        os._exit(0)
    os.close(writing)
    with open(reading, "rb") as got:
        came = got.read()
    if os.waitpid(child, 0)[1]:
        raise SystemExit(f"another user couldn't connect by {way}")
    return came


def wrong_users(program: str, folder: str) -> Iterator[str]:
    """Where another user gets something, or the user nothing."""
    if os.getuid() != 0:
        print("not tried: another user, whom only root can be")
        return
    with socket.create_server(("127.0.0.1", 0)) as server:
        port = server.getsockname()[1]
    listening = subprocess.Popen([sys.executable, LISTEN, str(port), program], cwd=folder, stderr=subprocess.DEVNULL)
    for way in WAYS:
        if got := asked_by(NOBODY, way, port, SECRET):
            yield f"another user by {way} got {got!r}"
    if listening.poll() is not None:
        yield f"the listener has ended with {listening.returncode} before the user came"
        return
    if b'"command":"launch"' not in all_from(WAYS[0], port, SECRET):
        yield "the user isn't served"
    if listening.wait(LIMIT) != 0:
        yield f"status {listening.returncode} once the user has left"


def outcome(command: list[str], text: bytes) -> tuple[bool, bytes, int, str]:
    """Whether something is said of a text before the input ends; what is written, the status, and the last line on
    standard error."""
    client, until = Client(command), time.monotonic() + LIMIT
    client.write_now(READY + text)
    while not (is_said := os.fstat(client.notes.fileno()).st_size > 0) and time.monotonic() < until:
        time.sleep(0.01)
    return is_said, *client.end()


def wrong_lengths(program: str) -> Iterator[str]:
    """Where what the adapter refuses doesn't end it, as it ends the adapter alone."""
    for text in REFUSED:
        alone, between = outcome([program], text), outcome([sys.executable, LISTEN, "-", program], text)
        if alone != between or not alone[0]:
            yield f"{text[:40]!r}: {between}, and not {alone}"


def wrong_pace() -> Iterator[str]:
    """Where numbers that an adapter writes as fast as it can don't come whole and soon."""
    begin, texts = time.monotonic(), []
    client = Client([sys.executable, LISTEN, "-", sys.executable, "-c", WRITES, str(NUMBERS)])
    while content := client.content():
        texts.append(json.loads(content)["body"]["output"])
    taken = time.monotonic() - begin
    if "".join(texts).split() != [str(one) for one in range(NUMBERS)]:
        yield f"of {NUMBERS} numbers not all came in order"
    if len(texts) * REST > MOST_REST:
        yield f"{NUMBERS} numbers came in {len(texts)} outputs"
    client.end()
    print(f"{NUMBERS:,} numbers came after {taken:.1f} s, in {len(texts)} outputs")


def wrong_socket(program: str) -> Iterator[str]:
    """Where a socket that doesn't block is taken for one that has ended."""
    end, given = socket.socketpair()
    given.setblocking(False)
    child = subprocess.Popen([sys.executable, LISTEN, "-", program], stdin=given, stdout=given)
    given.close()
    time.sleep(0.5)
    end.sendall(READY)
    frames = Frames()
    frames.take(end.recv(65536))
    if not (json.loads(frames.next() or b"{}")).get("success"):
        yield "over a socket that doesn't block `initialize` has no answer"
    end.close()
    if child.wait(LIMIT) != 0:
        yield f"status {child.returncode} over a socket that doesn't block"


def wrong_alone(program: str, folder: str) -> Iterator[str]:
    """Where the adapter doesn't serve without Python, or a port is said to be listened to."""
    bare = {"PATH": os.path.join(folder, "bare")}
    os.mkdir(bare["PATH"])
    shell = shutil.which("sh")
    client = Client([shell, str(LISTEN), "-", program], env=bare)
    if not client.ask("initialize") or client.end()[1:] != (0, ""):
        yield "without Python the adapter doesn't serve"
    run = subprocess.run([shell, LISTEN, "2000", program], env=bare, capture_output=True, text=True)
    if (run.returncode, run.stderr) != (7, "pl0dap-listen needs Python\n"):
        yield f"without Python: status {run.returncode}, {run.stderr!r}"


def main() -> int:
    if len(sys.argv) != 2:
        print(__doc__, file=sys.stderr)
        return 4
    program = os.path.abspath(sys.argv[1])
    with tempfile.TemporaryDirectory() as folder:
        put_files(folder, {SECRET: WORD})
        os.chmod(os.path.join(folder, SECRET), 0o600)
        found = [*wrong_users(program, folder), *wrong_lengths(program), *wrong_pace(),
                 *wrong_socket(program), *wrong_alone(program, folder)]
    print("\n".join(found) or "pl0dap-listen lets in its user alone, and nothing that comes holds it up")
    return 1 if found else 0


if __name__ == "__main__":
    sys.exit(main())
