#!/bin/sh
""":"  # To Python this is a text. The shell takes these lines: without Python the adapter serves the editor alone.
command -v python3 > /dev/null && exec python3 "$0" "$@"
[ "$1" = - ] && shift && exec "$@"
echo "pl0dap-listen needs Python" >&2
exit 7
"""
from __future__ import annotations

import contextlib
import itertools
import json
import os
import queue
import re
import shutil
import signal
import socket
import subprocess
import sys
import threading
import time
from collections.abc import Callable, Iterable, Iterator
from typing import BinaryIO, NamedTuple

HELP = """Stands between an editor and a debug adapter, puts codes into words, and lets an editor take breath.

usage: pl0dap-listen - PROGRAM [ARGUMENT..]
       pl0dap-listen PORT PROGRAM [ARGUMENT..]

The editor is at standard input and output; or, as CodeLite 17 wants it, it connects to PORT of this computer: the first
connection of the user's own is taken. The adapter PROGRAM gets what comes, and what it writes goes back, nothing is
left out, and the order is kept. This is passed on otherwise than it came:

- A launch that is refused for a mistake in the text says what `pl0 check` says first of it, if that can be started,
  also on standard error. After a launch of a text of which it warns, one more output says the warnings.
- Why a breakpoint or an expression is refused is in words, of a breakpoint also in one more output.
- A stop at a fault has a `description`: its name in words.
- Each breakpoint of an answer gets an `id` and its `source`: CodeLite drops those from its list that have none.
- The hit condition `<=1` of Kate's Run To Cursor is taken away.
- The paths of the program and of breakpoints are made whole, by the launch's `cwd` or by the folder of this process,
  and steps `/./` are taken out.
- Outputs that wait are joined, up to 128 KiB, those of several categories to one of `stdout`. After each stands a rest:
  an editor gets at most 20 of them a second, fewer the longer they come without a break, at least one, and again 20
  once it sends something. The adapter waits meanwhile. CodeLite takes no click before it has shown all that it was
  sent, and Kate keeps it all.

With a PORT, moreover:

- CodeLite says in `initialize` that it counts lines and columns from 0, but counts them from 1: both members become
  true.
- Before a first stop CodeLite pauses thread -1: that becomes 1, the one thread there is.
- Where CodeLite launches a folder, as it does for a path that was just typed, the refusal says what to do.
- A fault is also told by an output: CodeLite doesn't show it.

The end of either side is passed on to the other. SIGTERM, by which Kate ends it, ends it with status 0. Without Python
the adapter serves the editor alone."""
# What is longer, or is no header, is passed on as it came: the adapter refuses it.
LENGTH = re.compile(rb"^Content-Length: ([0-9]{1,7})\r$", re.MULTILINE)
END, MOST_HEADER, MOST_CONTENT = b"\r\n\r\n", 4096, 1_048_576
FROM_ONE = {"linesStartAt1": True, "columnsStartAt1": True}
ANY_THREAD, THE_THREAD = -1, 1
CHECKER, CHECKING = "pl0", 10  # the program, and the seconds that it gets
IS_RIGHT, HAS_MISTAKE = 0, 2  # its status
STANDARD = "-"
WRONG_USAGE, NO_PORT, NO_ADAPTER = 4, 5, 6
# How many frames wait at most, and up to how many bytes of them are joined.
WAITING, JOINED = 1024, 131_072
# The rest after an output in seconds, what part is added of the time for which outputs have come, and at most how much.
REST, PART, MOST_ADDED = 0.05, 0.05, 1.0
MIXED = "stdout"  # the category of outputs of several
# The system's tables of connections, and how each writes the address 127.0.0.1.
CONNECTIONS = {"/proc/net/tcp": "0100007F", "/proc/net/tcp6": "0000000000000000FFFF00000100007F"}
TO_CURSOR = "<=1"
IS_FOLDER = "this is a folder: choose Quick Debug again, and OK without typing the path anew"
REFUSALS = {
    "otherSource": "its file isn't the one that is debugged",
    "noStep": "no step stands at its line or after it",
    "badCondition": "its condition can't be used: `=` compares, as in k = 8, and each name has to be known there",
    "badHitCondition": "its hit condition is neither like 3, from the third time on, nor like %3, each third time",
    "badLogMessage":
        "an expression in its message can't be used: each stands in braces, and each name has to be known there",
    "badExpression": "this is no expression, or a name isn't known there; conditions can't be computed",
}
FAULTS = {
    "overflow": "a result does not fit into 64 bits",
    "divideByZero": "division by zero",
    "depth": "more than 1,024 frames would be alive",
    "stepLimit": "no step can be taken any more",
}


class Frame(NamedTuple):
    """A frame as it came, and its content; None in place of the content where it is no whole frame."""

    whole: bytes
    content: bytes | None


def read_object(content: bytes) -> dict:
    """The object of a content; an empty one where it holds none."""
    try:
        found = json.loads(content)
    except (ValueError, RecursionError):
        return {}
    return found if isinstance(found, dict) else {}


def written(message: dict) -> bytes:
    return json.dumps(message, separators=(",", ":")).encode()


def framed(content: bytes) -> bytes:
    return b"Content-Length: %d\r\n\r\n%s" % (len(content), content)


def checked(program: str, status: int) -> str:
    """What `pl0 check` says of a program's text if it ends with this status: the mistake, or warnings. Empty where it
    ends otherwise, says nothing, or can't be asked."""
    checker = shutil.which(CHECKER)
    if checker is None:
        return ""
    try:
        run = subprocess.run([checker, "check", program], stdin=subprocess.DEVNULL, capture_output=True, text=True,
                             timeout=CHECKING)
    except (OSError, ValueError, subprocess.TimeoutExpired):
        return ""
    return run.stderr.strip() if run.returncode == status else ""


class Session:
    """What has to be known of a session to change its messages. Each comes as one content, and leaves as one or more."""

    def __init__(self, is_codelite: bool) -> None:
        self.is_codelite = is_codelite
        self.program, self.folder = "", os.getcwd()
        self.asked: dict[int, dict] = {}  # the arguments of each request `setBreakpoints` that isn't answered yet
        self.heard = threading.Event()  # whether the editor has sent something
        self.numbers = itertools.count(1)

    def to_adapter(self, content: bytes) -> list[bytes]:
        """A content of the editor's as the adapter gets it."""
        self.heard.set()
        request = read_object(content)
        command, arguments = request.get("command"), request.get("arguments")
        if not isinstance(arguments, dict):
            return [content]
        given = json.dumps(arguments)
        if command == "setBreakpoints" and isinstance(request.get("seq"), int):
            self.asked[request["seq"]] = json.loads(given)
        self.with_whole_paths(command, arguments)
        without_cursor(arguments)
        if self.is_codelite:
            self.for_codelite(command, arguments)
        return [content if json.dumps(arguments) == given else written(request)]

    def with_whole_paths(self, command: object, arguments: dict) -> None:
        """Makes the path of a launch or of breakpoints whole."""
        if command == "launch":
            self.folder = os.path.join(self.folder, text_at(arguments, "cwd"))
        named, member = (arguments, "program") if command == "launch" else (arguments.get("source"), "path")
        if isinstance(named, dict) and (path := text_at(named, member)):
            named[member] = re.sub("/([.]/)+", "/", os.path.join(self.folder, path))
        if command == "launch":
            self.program = text_at(arguments, "program")

    @staticmethod
    def for_codelite(command: object, arguments: dict) -> None:
        """Puts right what CodeLite has wrong in these arguments."""
        if command == "initialize":
            arguments.update(FROM_ONE)
        elif arguments.get("threadId") == ANY_THREAD:
            arguments["threadId"] = THE_THREAD

    def to_editor(self, content: bytes) -> list[bytes]:
        """A content of the adapter's as the editor gets it, and what is told after it."""
        if b'"command":"setBreakpoints"' in content:
            change = self.with_names
        elif b'"command":"launch"' in content:
            change = self.with_words
        elif b'"event":"stopped"' in content and b'"reason":"exception"' in content:
            change = self.with_fault
        elif b'"message":"badExpression"' in content:
            change = self.with_reason
        else:
            return [content]
        message = read_object(content)
        told = change(message)
        return [written(message), *map(output_of, told)]

    def with_names(self, answer: dict) -> list[str]:
        """Gives each breakpoint of an answer its number and its source, and tells of those that are refused."""
        asked = self.asked.pop(answer.get("request_seq"), {})
        found = answer.get("body", {}).get("breakpoints", [])
        for one in found:
            one.update(id=next(self.numbers), source=asked.get("source"))
            self.with_reason(one)
        wished = asked.get("breakpoints") if found else ()  # a list, since the adapter has answered each
        return [f"The breakpoint at line {wanted.get('line')} stops nothing: {one['message']}\n"
                for wanted, one in zip(wished, found) if "message" in one]

    @staticmethod
    def with_reason(refused: dict) -> list[str]:
        """Says a reason for a refusal in words."""
        if message := refused.get("message"):
            refused["message"] = REFUSALS.get(message, message)
        return []

    def with_words(self, answer: dict) -> list[str]:
        """Lets the refusal of a launch say what is wrong in words, and prints it, where the words can be had. Tells the
        warnings where it isn't refused."""
        if answer.get("success") is not False:
            warnings = checked(self.program, IS_RIGHT)
            return [f"{warnings}\n"] if warnings else []
        is_folder = self.is_codelite and os.path.isdir(self.program)
        words = f"{self.program}: {IS_FOLDER}" if is_folder else checked(self.program, HAS_MISTAKE).partition("\n")[0]
        if words:
            print(words, file=sys.stderr, flush=True)
            answer["message"] = words
        return []

    def with_fault(self, event: dict) -> list[str]:
        """Lets a stop at a fault say its name in words, and tells CodeLite."""
        words = FAULTS.get(event["body"].get("text"), event["body"].get("text"))
        event["body"]["description"] = words
        return [f"fault: {words}\n"] if self.is_codelite else []


def without_cursor(arguments: dict) -> None:
    """Takes away the hit conditions of Run To Cursor."""
    listed = arguments.get("breakpoints")
    for one in listed if isinstance(listed, list) else ():
        if isinstance(one, dict) and one.get("hitCondition") == TO_CURSOR:
            del one["hitCondition"]


def text_at(members: dict, name: str) -> str:
    """The text of a member; an empty one where it is none."""
    return found if isinstance(found := members.get(name), str) else ""


def output_of(text: str) -> bytes:
    """An output that the adapter hasn't sent. Its number is 0, so that it is none of the adapter's."""
    return written({"body": {"category": "console", "output": text}, "event": "output", "seq": 0, "type": "event"})


def frames(stream: BinaryIO) -> Iterator[Frame]:
    """What comes, frame by frame."""
    while header := stream.readline(MOST_HEADER):
        while not header.endswith(END) and len(header) < MOST_HEADER and (line := stream.readline(MOST_HEADER)):
            header += line
        found = LENGTH.search(header) if header.endswith(END) else None
        length = int(found[1]) if found else MOST_CONTENT + 1
        content = stream.read(length) if length <= MOST_CONTENT else b""
        yield Frame(header + content, content if len(content) == length else None)


def is_output(frame: Frame) -> bool:
    message = read_object(frame.content) if frame.content and b'"event":"output"' in frame.content else {}
    body = message.get("body")
    return message.get("event") == "output" and isinstance(body, dict) and isinstance(body.get("output"), str)


def one_output(outputs: list[Frame]) -> Frame:
    """Outputs as one, with the number of the last."""
    if len(outputs) == 1:
        return outputs[0]
    messages = [read_object(frame.content) for frame in outputs]
    whole = messages[-1]
    whole["body"]["output"] = "".join(message["body"]["output"] for message in messages)
    if len({message["body"].get("category") for message in messages}) > 1:
        whole["body"]["category"] = MIXED
    content = written(whole)
    return Frame(framed(content), content)


def together(waiting: queue.Queue[Frame | None]) -> list[Frame | None]:
    """What waits in a queue, or comes next where nothing does; no more after None, and after so many bytes."""
    some, size = [waiting.get()], 0
    while some[-1] and (size := size + len(some[-1].whole)) < JOINED and not waiting.empty():
        some.append(waiting.get())
    return some


def joined(waiting: queue.Queue[Frame | None], heard: threading.Event) -> Iterator[Frame]:
    """What comes through a queue up to None, where outputs that wait together are one, with a rest after it. It grows
    until nothing waits, or the editor is heard, which also ends it."""
    some: list[Frame | None] = []
    begin = time.monotonic()
    while None not in some:
        is_new = waiting.empty() or heard.is_set()
        some = together(waiting)
        if is_new:
            heard.clear()
            begin = time.monotonic()
        for are_outputs, group in itertools.groupby(filter(None, some), is_output):
            if not are_outputs:
                yield from group
            else:
                yield one_output(list(group))
                time.sleep(REST)
                heard.wait(min(PART * (time.monotonic() - begin), MOST_ADDED))


def fetch(stream: BinaryIO, waiting: queue.Queue[Frame | None]) -> None:
    """Puts what comes into a queue, and None at its end."""
    for frame in frames(stream):
        waiting.put(frame)
    waiting.put(None)


def pass_on(source: Iterable[Frame], target: BinaryIO, changed: Callable[[bytes], list[bytes]]) -> None:
    """Passes on what comes, each content as it is changed, up to its end. Where nobody takes it, it is only read."""
    is_taken = True
    for whole, content in source:
        new = [content] if content is None else changed(content)
        with contextlib.suppress(OSError):
            if is_taken:
                is_taken = False
                target.write(whole if new == [content] else b"".join(map(framed, new)))
                target.flush()
                is_taken = True


def take(editor: BinaryIO, adapter: BinaryIO, session: Session) -> None:
    """Passes on what the editor sends, and its end."""
    with contextlib.suppress(OSError):  # it died
        pass_on(frames(editor), adapter, session.to_adapter)
    with contextlib.suppress(OSError):  # the adapter has gone before
        adapter.close()


def serve(editor: BinaryIO, output: BinaryIO, session: Session, command: list[str]) -> int:
    """Lets the adapter serve an editor up to the adapter's end, and returns its status."""
    try:
        adapter = subprocess.Popen(command, stdin=subprocess.PIPE, stdout=subprocess.PIPE)
    except OSError as error:
        print(f"{command[0]} can't be started: {error.strerror}", file=sys.stderr)
        return NO_ADAPTER
    waiting: queue.Queue[Frame | None] = queue.Queue(WAITING)
    threading.Thread(target=take, args=(editor, adapter.stdin, session), daemon=True).start()
    threading.Thread(target=fetch, args=(adapter.stdout, waiting), daemon=True).start()
    pass_on(joined(waiting, session.heard), output, session.to_editor)
    return adapter.wait()


def is_own(connection: socket.socket) -> bool:
    """Whether the system says that who has connected is the user whose process this is."""
    ports = [f":{name[1]:04X}" for name in (connection.getpeername(), connection.getsockname())]
    for table, host in CONNECTIONS.items():
        with contextlib.suppress(OSError), open(table, encoding="ascii") as lines:
            for words in map(str.split, lines):
                if words[1:3] == [host + port for port in ports]:
                    return int(words[7]) == os.getuid()
    return False


def own_connection(server: socket.socket) -> socket.socket:
    """The first connection of the user's own; those of others are closed."""
    while True:
        connection, _ = server.accept()
        with contextlib.suppress(OSError):  # it has been left
            if is_own(connection):
                return connection
        connection.close()


def main() -> int:
    if len(sys.argv) < 3 or not (sys.argv[1] == STANDARD or sys.argv[1].isdecimal()):
        print(HELP, file=sys.stderr)
        return WRONG_USAGE
    signal.signal(signal.SIGTERM, lambda *_: os._exit(0))
    if sys.argv[1] == STANDARD:
        for stream in (sys.stdin, sys.stdout):
            os.set_blocking(stream.fileno(), True)
        return serve(sys.stdin.buffer, sys.stdout.buffer, Session(is_codelite=False), sys.argv[2:])
    try:
        server = socket.create_server(("127.0.0.1", int(sys.argv[1])))
    except (OSError, OverflowError) as error:
        print(f"Port {sys.argv[1]} can't be used: {error}. Choose another one, in both places of the settings.",
              file=sys.stderr)
        return NO_PORT
    with server:
        connection = own_connection(server)
    return serve(connection.makefile("rb"), connection.makefile("wb"), Session(is_codelite=True), sys.argv[2:])


if __name__ == "__main__":
    os._exit(main())  # a read of the editor's may still wait
