#!/usr/bin/env python3
"""Looks that editors/listen.py changes what it says it changes, and nothing else.

usage: listening.py PL0DAP
       listening.py --follow SESSION GOT

Messages are given to its functions. Then it stands, as for CodeLite and as for Kate, between this script and a program:
one that writes what it reads; one that follows a recorded session, so that each message is looked at, both ways; and
the adapter, also while a program writes without end, and where the editor goes away meanwhile. Prints how many messages
of recorded sessions were changed and how, then what is wrong, and ends with status 1 where anything is. With --follow
it is the program that follows a session: it writes what the adapter sends there as soon as what stands before it has
come, and puts what came into the file GOT.
"""
from __future__ import annotations

import collections
import glob
import json
import os
import queue
import random
import signal
import socket
import struct
import subprocess
import sys
import tempfile
import threading
import time
from collections.abc import Callable, Iterable, Iterator

DRIVE = os.path.dirname(os.path.realpath(__file__))
TOP = os.path.realpath(os.path.join(DRIVE, "..", ".."))
EDITORS = os.path.join(TOP, "editors")
LISTEN = os.path.join(EDITORS, "listen.py")
sys.path[:0] = [os.path.join(TOP, "checks"), EDITORS]
import listen  # noqa: E402
from lib.client import ANY_HEADER, Frames, frame, name_of, put_files, request  # noqa: E402
from replay import contents  # noqa: E402
from soak import MOST_MEMORY as MEMORY  # noqa: E402

LIMIT = 60.0  # seconds for each message, and for the end
RUNNING, SOON = 2.0, 20.0  # for which a program writes before a pause; up to the stop, and for what is left to end
MOST_MEMORY = 64 * 1024  # of listen.py, in KiB
PACED = 10  # outputs, each of which is as large as what is joined
FOLLOW = "--follow"
# Sessions between an editor and the adapter, with nothing in between.
SESSIONS = sorted(place for pattern in (("docs", "editors", "emacs*.txt"), ("docs", "editors", "codelite*.txt"),
                                        ("editors", "drive", "*.txt")) for place in glob.glob(os.path.join(TOP, *pattern)))
ANY = "any"  # category
PROGRAM = os.path.join(TOP, "examples", "factorial.pl0")
MISTAKE = os.path.join(TOP, "crates", "check_runs", "data", "mistake.pl0")
WRITES = "var n; while 0 = 0 do begin n := n + 1; ! n end."
WORDS = "FILE:2:9: error: words"
WARNING = "FILE:1:13: warning: words"
CHECKER = f"#!/bin/sh\ncase $2 in {MISTAKE}) echo '{WORDS}' >&2; exit 2;; esac\necho '{WARNING}' >&2\n"
CODES = {words: code for code, words in listen.REFUSALS.items()}
SOURCE = {"path": PROGRAM, "name": "factorial.pl0"}
# What is sent, and its arguments before and after; first as only CodeLite needs it.
FOR_CODELITE = (
    ("initialize", {"linesStartAt1": False, "columnsStartAt1": False},
     {"linesStartAt1": True, "columnsStartAt1": True}),
    ("initialize", {"adapterID": "x"}, {"adapterID": "x", "linesStartAt1": True, "columnsStartAt1": True}),
    ("pause", {"threadId": -1}, {"threadId": 1}),
    ("next", {"threadId": -1, "granularity": "line"}, {"threadId": 1, "granularity": "line"}),
)
FOR_ALL = (
    ("setBreakpoints", {"breakpoints": [{"line": 3, "hitCondition": "<=1"}, {"line": 4, "hitCondition": "3"}, 5]},
     {"breakpoints": [{"line": 3}, {"line": 4, "hitCondition": "3"}, 5]}),
    ("setBreakpoints", {"source": {"path": "/a/././b/./.c"}}, {"source": {"path": "/a/b/.c"}}),
    ("launch", {"program": "./a.pl0", "cwd": "/b/./c"}, {"program": "/b/c/a.pl0", "cwd": "/b/./c"}),
    ("setBreakpoints", {"source": {"path": "a.pl0"}}, {"source": {"path": os.path.join(os.getcwd(), "a.pl0")}}),
    ("launch", {"program": "a.pl0", "cwd": ""}, {"program": os.path.join(os.getcwd(), "a.pl0"), "cwd": ""}),
    ("launch", {"program": "/a/../b.pl0", "cwd": "/c"}, {"program": "/a/../b.pl0", "cwd": "/c"}),
)
# What is passed on as it is, to the adapter and from it.
KEPT = (
    b'{ "seq":7, "type":"request", "command":"pause", "arguments":{"threadId":1} }',
    b'{"seq":1,"command":"initialize"}', b'{"seq":1,"command":"setBreakpoints","arguments":{"breakpoints":7}}',
    b'{"seq":1,"command":"initialize","arguments":null}', b'{"arguments":{"expression":"-1"},"command":"evaluate"}',
    b"[-1]", b"-1", b'"threadId"', b"", b'{"threadId":-1', b"\xff\xfe",
    b"[" * 100000, b'{"seq":[],"command":"setBreakpoints","arguments":{"breakpoints":[]}}',
    b'{"seq":1,"command":"launch","arguments":{"program":""}}', b'{"command":"launch","arguments":{"program":7}}',
)
FROM_ADAPTER = (
    b'{"body":{"category":"stdout","output":"1\\n"},"event":"output","seq":9,"type":"event"}',
    b'{"body":{},"event":"stopped","seq":9,"type":"event"}',
)


class Editor:
    """An editor's side of the program under test, which has been started with this adapter and these folders on its
    path: over a connection, as CodeLite has it, or over standard input and output, as Kate."""

    def __init__(self, is_codelite: bool, *adapter: str, path: str = "/usr/bin:/bin"):
        with socket.create_server(("127.0.0.1", 0)) as server:
            self.port = server.getsockname()[1]
        self.connection = None
        words = [sys.executable, LISTEN, str(self.port) if is_codelite else listen.STANDARD, *adapter]
        settings = {} if is_codelite else {"stdin": subprocess.PIPE, "stdout": subprocess.PIPE}
        self.child = subprocess.Popen(words, stderr=subprocess.PIPE, bufsize=0, env={**os.environ, "PATH": path},
                                      **settings)
        if is_codelite:
            self.connect()
        self.frames, self.seq = Frames(), 0

    def connect(self) -> None:
        until = time.monotonic() + LIMIT
        while self.connection is None:
            try:
                self.connection = socket.create_connection(("127.0.0.1", self.port), timeout=LIMIT)
            except ConnectionRefusedError:
                if self.child.poll() is not None or time.monotonic() > until:
                    raise
                time.sleep(0.05)

    def write(self, piece: bytes) -> None:
        if self.connection:
            self.connection.sendall(piece)
        else:
            self.child.stdin.write(piece)

    def read(self) -> bytes:
        return self.connection.recv(4096) if self.connection else self.child.stdout.read(4096)

    def end_input(self) -> None:
        if self.connection:
            self.connection.shutdown(socket.SHUT_WR)
        else:
            self.child.stdin.close()

    def send(self, command: str, **arguments: object) -> None:
        """Sends a request byte by byte."""
        self.seq += 1
        for byte in frame(request(self.seq, command, arguments)):
            self.write(bytes((byte,)))

    def receive(self) -> dict | None:
        """The next message; None at the end of what comes."""
        while (content := self.frames.next()) is None:
            piece = self.read()
            if not piece:
                return None
            self.frames.take(piece)
        return json.loads(content)

    def wait_for(self, name: str) -> dict:
        """The next message of this name, with all before it left out."""
        while (message := self.receive()) and name_of(message) != name:
            pass
        return message or {}

    def rest(self) -> bytes:
        """All bytes that still come, with no more sent."""
        self.end_input()
        came = b""
        while piece := self.read():
            came += piece
        return came

    def die(self) -> None:
        """Goes away with all that it hasn't read."""
        if self.connection:
            self.connection.setsockopt(socket.SOL_SOCKET, socket.SO_LINGER, struct.pack("ii", 1, 0))
        self.leave()

    def leave(self) -> None:
        for one in (self.connection, self.child.stdin, self.child.stdout):
            if one:
                one.close()

    def end(self) -> tuple[int, str]:
        """The status, and what was printed to standard error."""
        self.leave()
        status = self.child.wait(LIMIT)
        with self.child.stderr as said:
            return status, said.read().decode()


def different(what: str, wanted: object, found: object) -> Iterator[str]:
    if wanted != found:
        yield f"{what}: {found}, and not {wanted}"


def wrong_changes() -> Iterator[str]:
    """Where messages are changed otherwise than is said."""
    for is_codelite in (True, False):
        for command, given, wanted in FOR_CODELITE + FOR_ALL:
            session = listen.Session(is_codelite)
            if not is_codelite and (command, given, wanted) in FOR_CODELITE:
                wanted = given
            found = [json.loads(one) for one in session.to_adapter(request(1, command, given))]
            yield from different(command, [json.loads(request(1, command, wanted))], found)
        for content in KEPT:
            yield from different("to the adapter", [content], session.to_adapter(content))
        for content in KEPT + FROM_ADAPTER:
            yield from different("to the editor", [content], session.to_editor(content))
        found = session.to_editor(b'{"command":"evaluate","message":"badExpression","success":false}')
        yield from different("an expression that is refused", [listen.REFUSALS["badExpression"]],
                             [json.loads(one)["message"] for one in found])


def wrong_streams(is_codelite: bool) -> Iterator[str]:
    """Where what is no whole frame, or a frame of an unusual form, isn't passed on as it is."""
    for text in (
        b"", b"\r\n", b"Content-Length: 5\r\n\r\nabc", b"Content-Length: x\r\n\r\n", b"Content-Length: 1\r\n",
        b"X: y\r\nContent-Length: 2\r\nZ: 1\r\n\r\n{}" * 3, b"Content-Length: 0\r\n\r\nContent-Length: 2\r\n\r\n[]",
        b"\0" * 60000,
    ):
        copied = Editor(is_codelite, "cat")
        copied.write(text)
        yield from different(f"{text[:40]!r}", text, copied.rest())
        yield from different("the end of a copy", (0, ""), copied.end())
    ended = Editor(is_codelite, "true")
    yield from different("after the adapter's end", None, ended.receive())
    yield from different("its end", (0, ""), ended.end())
    lacking = Editor(is_codelite, "/nothing")
    yield from different("an adapter that isn't there", (listen.NO_ADAPTER, True),
                         (lambda status, said: (status, "/nothing can't be started" in said))(*lacking.end()))


def wrong_pace() -> Iterator[str]:
    """Where outputs aren't joined up to their size, those of two categories to one, or follow each other too fast."""
    for text, joined in (("x" * listen.JOINED, PACED), ("x\n", 1)):
        waiting: queue.Queue[listen.Frame | None] = queue.Queue()
        for turn in range(PACED):
            body = {"category": ("console", "stdout")[turn % 2], "output": text}
            content = listen.written({"body": body, "event": "output", "seq": turn + 1, "type": "event"})
            waiting.put(listen.Frame(frame(content), content))
        waiting.put(None)
        begin = time.monotonic()
        found = [json.loads(one.content) for one in listen.joined(waiting, threading.Event())]
        yield from different("outputs, joined", (joined, PACED, "stdout"),
                             (len(found), found[-1]["seq"], found[-1]["body"]["category"]))
        yield from different("their text", True, "".join(one["body"]["output"] for one in found) == text * PACED)
        rests = joined / 20 + listen.PART * sum(turn / 20 for turn in range(joined))
        yield from different("at most 20 outputs a second, and fewer with time", True, time.monotonic() - begin >= rests)


def follow(session: str, got: str) -> None:
    """Is the adapter of a session, and keeps what it got."""
    frames = Frames(ANY_HEADER)
    with open(got, "wb") as file:
        for _, arrow, content in contents(session):
            if arrow == "<-":
                sys.stdout.buffer.write(frame(content))
                sys.stdout.buffer.flush()
                continue
            while (came := frames.next()) is None and (piece := os.read(sys.stdin.fileno(), 4096)):
                frames.take(piece)
            file.write(frame(came or b""))
        while piece := os.read(sys.stdin.fileno(), 4096):
            frames.take(piece)
        file.write(frames.rest)


def as_given(content: bytes, is_codelite: bool) -> dict:
    """A request as the adapter has to get it."""
    message = json.loads(content)
    arguments = message.get("arguments") or {}
    if is_codelite and message["command"] == "initialize":
        arguments.update(linesStartAt1=True, columnsStartAt1=True)
    if is_codelite and arguments.get("threadId") == -1:
        arguments["threadId"] = 1
    for one in arguments.get("breakpoints", ()):
        if one.get("hitCondition") == "<=1":
            del one["hitCondition"]
    return message


def as_sent(content: bytes) -> dict:
    """A message to the editor as the adapter sent it."""
    message = json.loads(content)
    body = message.get("body", {})
    if name_of(message) == "setBreakpoints":
        for one in body.get("breakpoints", ()):
            del one["id"], one["source"]
            if "message" in one:
                one["message"] = CODES[one["message"]]
    if message.get("message") in CODES:
        message["message"] = CODES[message["message"]]
    if body.get("reason") == "exception":
        del body["description"]
    return message


def merged(messages: Iterable[bytes]) -> list[bytes]:
    """Messages, where outputs that stand together are one, with the number of the last."""
    found: list[bytes] = []
    for content in messages:
        message, last = json.loads(content), json.loads(found[-1]) if found else {}
        if name_of(message) != "output":
            found.append(content)
            continue
        message["body"]["category"] = ANY
        if name_of(last) == "output":
            message["body"]["output"] = last["body"]["output"] + message["body"]["output"]
            found.pop()
        found.append(json.dumps(message, separators=(",", ":")).encode())
    return found


class Compared:
    """What is compared of recorded sessions, and how many messages were changed, and of which name."""

    def __init__(self) -> None:
        self.count = 0
        self.changed: collections.Counter[str] = collections.Counter()

    def messages(self, what: str, sent: list[bytes], came: list[bytes], wanted: Callable, found: Callable) -> Iterator[str]:
        """Where what came isn't what was sent, but for what is changed of it."""
        yield from different(f"{what}, messages", len(sent), len(came))
        for one, other in zip(sent, came):
            self.count += 1
            if one != other:
                self.changed[name_of(json.loads(one))] += 1
                yield from different(what, wanted(one), found(other))

    def session(self, place: str, is_codelite: bool, folder: str) -> Iterator[str]:
        """Where a recorded session differs, which is sent in pieces of all sizes."""
        what, got = f"{os.path.relpath(place, TOP)}{' of CodeLite' * is_codelite}", os.path.join(folder, "got")
        sent, answers = ([content for _, arrow, content in contents(place) if arrow == wanted] for wanted in ("->", "<-"))
        editor = Editor(is_codelite, sys.executable, os.path.realpath(__file__), FOLLOW, place, got)
        text, chosen = b"".join(map(frame, sent)), random.Random(place)
        while text:
            size = chosen.choice((1, 2, 100, 5000))
            editor.write(text[:size])
            text = text[size:]
        frames = Frames()
        frames.take(editor.rest())
        came = list(frames)
        told = [at for at, content in enumerate(came) if json.loads(content)["seq"] == 0]
        yield from different(f"{what}, the end", (0, "", b""), (*editor.end(), bytes(frames.rest)))
        for at in told:
            self.changed["told"] += 1
            if at - 1 not in told and came[at - 1] in answers:
                yield f"{what}: {came[at].decode()} stands behind what isn't changed"
        with open(got, "rb") as file:
            frames = Frames()
            frames.take(file.read())
        yield from self.messages(what, sent, list(frames), lambda one: as_given(one, is_codelite), json.loads)
        yield from different(f"{what}, bytes left", b"", bytes(frames.rest))
        came = [content for at, content in enumerate(came) if at not in told]
        yield from self.messages(what, merged(answers), merged(came), json.loads, as_sent)

    def tell(self) -> None:
        counts = ", ".join(f"{count} {name}" for name, count in sorted(self.changed.items()))
        print(f"{len(SESSIONS)} recorded sessions, as CodeLite's and as Kate's: {self.count} messages both ways; "
              f"changed were {counts}", flush=True)


def wrong_session(program: str, is_codelite: bool) -> Iterator[str]:
    """Where a session with the adapter isn't one that the editor can show."""
    session = Editor(is_codelite, program)
    session.send("initialize", linesStartAt1=is_codelite is False)
    session.send("launch", program=PROGRAM)
    session.send("setBreakpoints", source=SOURCE,
                 breakpoints=[{"line": 1}, {"line": 9, "condition": "k == 8"}, {"line": 18, "hitCondition": "<=1"}])
    found = [session.receive() for _ in range(4)][-1]["body"]["breakpoints"]
    wanted = [{"line": 5, "verified": True}, {"message": listen.REFUSALS["badCondition"], "verified": False},
              {"line": 18, "verified": True}]
    yield from different("breakpoints", [{**one, "id": at, "source": SOURCE} for at, one in enumerate(wanted, 1)],
                         found)
    told = f"The breakpoint at line 9 stops nothing: {listen.REFUSALS['badCondition']}\n"
    yield from different("a refused breakpoint", {"category": "console", "output": told}, session.receive()["body"])
    session.send("configurationDone")
    yield from different("configurationDone", True, session.receive()["success"])
    yield from different("a stop", "breakpoint", session.receive()["body"].get("reason"))
    session.send("pause", threadId=-1 if is_codelite else 1)
    yield from different("pause", True, session.receive()["success"])
    session.send("disconnect")
    yield from different("disconnect", True, session.receive()["success"])
    if not is_codelite:
        session.child.send_signal(signal.SIGTERM)
    yield from different("the end", (0, ""), session.end())


def wrong_fault(program: str, folder: str, is_codelite: bool) -> Iterator[str]:
    """Where a fault isn't told in words."""
    session = Editor(is_codelite, program)
    session.send("initialize")
    session.send("launch", program=os.path.join(folder, "fault.pl0"))
    session.send("configurationDone")
    yield from different("a fault", "division by zero", session.wait_for("stopped")["body"].get("description"))
    if is_codelite:
        yield from different("a fault", "fault: division by zero\n", session.receive()["body"]["output"])
    session.send("disconnect")
    yield from different("disconnect after it", True, session.receive()["success"])
    yield from different("the end after it", (0, ""), session.end())


def wrong_launch(program: str, launched: str, path: str, message: str, said: str) -> Iterator[str]:
    """Where a refused launch isn't answered by this message, or something else is printed."""
    session = Editor(True, program, path=path)
    session.send("initialize")
    session.send("launch", program=launched)
    _, answer = session.receive(), session.receive()
    yield from different("a refused launch", message, answer["message"])
    yield from different("the end after it", (0, said), session.end())


def wrong_warning(program: str, path: str, is_codelite: bool) -> Iterator[str]:
    """Where a launch isn't followed by what is said of its text, or otherwise than by an output."""
    session = Editor(is_codelite, program, path=path)
    session.send("initialize")
    session.send("launch", program=PROGRAM)
    _, answer, told = (session.receive() for _ in range(3))
    yield from different("a launch with a warning", True, answer["success"])
    yield from different("a warning", {"category": "console", "output": WARNING + "\n"}, told.get("body"))
    yield from different("after the warning", "initialized", name_of(session.receive()))
    yield from different("the end after it", (0, ""), session.end())


def wrong_port() -> Iterator[str]:
    """Where a port that is taken isn't refused in words."""
    with socket.create_server(("127.0.0.1", 0)) as taken:
        port = str(taken.getsockname()[1])
        run = subprocess.run([sys.executable, LISTEN, port, "cat"], capture_output=True, text=True, timeout=LIMIT)
    if run.returncode != listen.NO_PORT or not run.stderr.startswith(f"Port {port} can't be used: "):
        yield f"a port that is taken: status {run.returncode}, {run.stderr}"


def children(process: int) -> list[int]:
    with open(f"/proc/{process}/task/{process}/children", encoding="ascii") as file:
        return [int(word) for word in file.read().split()]


def flood(session: Editor, folder: str, thread: int) -> tuple[list[str], float]:
    """What a program that writes without end writes in the outputs up to a stop, and the seconds between a pause and the
    stop."""
    session.send("initialize")
    session.send("launch", program=os.path.join(folder, "writes.pl0"))
    session.send("configurationDone")
    session.wait_for("configurationDone")
    begin, texts, paused = time.monotonic(), [], 0.0
    while name_of(message := session.receive() or {}) not in ("stopped", None):
        if name_of(message) == "output":
            texts.append(message["body"]["output"])
        if not paused and time.monotonic() - begin > RUNNING:
            session.send("pause", threadId=thread)
            paused = time.monotonic()
    return texts, time.monotonic() - paused


def wrong_flood(program: str, folder: str, is_codelite: bool) -> Iterator[str]:
    """Where such a program isn't paused soon, something that it wrote is lost or out of order, too much is kept, or
    something is left over after the editor has gone."""
    session = Editor(is_codelite, program)
    texts, taken = flood(session, folder, -1 if is_codelite else 1)
    numbers = "".join(texts).splitlines()
    with open(f"/proc/{session.child.pid}/status", encoding="ascii") as file:
        memory = int(MEMORY.search(file.read())[1])
    print(f"a program that writes without end: {len(numbers)} numbers in {len(texts)} outputs; stopped {taken:.1f} s after "
          f"the pause; at most {memory} KiB", flush=True)
    yield from different("numbers in order", True, numbers == [str(one) for one in range(1, len(numbers) + 1)])
    yield from different("a stop that comes soon", True, taken < SOON)
    yield from different("little memory", True, memory < MOST_MEMORY)
    session.send("continue", threadId=1)
    session.wait_for("output")
    (adapter,) = children(session.child.pid)
    session.die()
    yield from different("the end once the editor has gone", 0, session.child.wait(SOON))
    yield from different("an adapter that is left", False, os.path.exists(f"/proc/{adapter}"))
    session.child.stderr.close()


def all_wrong(program: str, folder: str) -> Iterator[str]:
    yield from wrong_changes()
    yield from wrong_pace()
    compared = Compared()
    for is_codelite in (True, False):
        yield from wrong_streams(is_codelite)
        for place in SESSIONS:
            yield from compared.session(place, is_codelite, folder)
        yield from wrong_session(program, is_codelite)
        yield from wrong_fault(program, folder, is_codelite)
        yield from wrong_warning(program, f"{folder}:/usr/bin:/bin", is_codelite)
        yield from wrong_flood(program, folder, is_codelite)
    compared.tell()
    yield from wrong_port()
    yield from wrong_launch(program, MISTAKE, f"{folder}:/usr/bin:/bin", WORDS, WORDS + "\n")
    yield from wrong_launch(program, MISTAKE, folder + "/nothing", "syntax 6 2 9", "")
    words = f"{folder}: {listen.IS_FOLDER}"
    yield from wrong_launch(program, folder, "/usr/bin:/bin", words, words + "\n")


def main() -> int:
    if len(sys.argv) == 4 and sys.argv[1] == FOLLOW:
        follow(*sys.argv[2:])
        return 0
    if len(sys.argv) != 2:
        print(__doc__, file=sys.stderr)
        return 4
    program = os.path.abspath(sys.argv[1])
    with tempfile.TemporaryDirectory() as folder:
        put_files(folder, {"pl0": CHECKER.encode(), "writes.pl0": WRITES.encode(), "fault.pl0": b"! 1 / 0."})
        os.chmod(os.path.join(folder, "pl0"), 0o755)
        found = list(all_wrong(program, folder))
    print("\n".join(found) or "listen.py changes what it says it changes, and nothing else")
    return 1 if found else 0


if __name__ == "__main__":
    sys.exit(main())
