#!/usr/bin/env python3
"""Runs the adapter on worked inputs and compares what it writes, its status and its last line with what they must be.

usage: rows.py PROGRAM [FROM_ZERO]

Each input goes in whole and cut in two at a number of places, and one of at most 4,096 bytes a byte at a time. Between
two parts of an input the client waits for what must come of the first. Then the worked sessions of worked.session are
played, and those of crates/session_tests that a program can be played too, each request after the messages that are due
before it. At last the sessions of demo/ are played, and the messages of the first compared with those of the session in
docs/PROTOCOL.md. FROM_ZERO is `pl0dap_from_zero`, to which all of it is played as well, and then the worked sessions
with requests that are numbered from 0. Prints a line for each input and each session, and ends with status 1 where one
differs.
"""
from __future__ import annotations

import os
import subprocess
import sys
from collections.abc import Iterator
from typing import NamedTuple

from lib import notation
from lib.client import Client, frame, request
from lib.worked import differences

TOP = os.path.join(os.path.dirname(os.path.abspath(__file__)), "..")

INITIALIZE = request(1, "initialize")
HELLO = frame(INITIALIZE) + frame(request(2, "disconnect"))
INITIALIZED = notation.content("1: ok initialize/1", "")
ANSWERS = [INITIALIZED, notation.content("2: ok disconnect/2", "")]


class Row(NamedTuple):
    """An input in parts, what must come of each before the next is given, and the status and the last line on standard
    error."""

    name: str
    parts: list[bytes]
    answers: list[list[bytes]]
    status: int = 0
    last: str = ""

    def output(self) -> bytes:
        """The frames of all that must come, joined."""
        return b"".join(frame(content) for contents in self.answers for content in contents)


def raw(name: str, given: bytes, answers: list[bytes], status: int = 0, last: str = "") -> Row:
    """An input in one part, after which it ends at once."""
    return Row(name, [given], [answers], status, last)


def headed(header: bytes) -> bytes:
    return header + b"\r\n\r\n" + INITIALIZE


SKIPPED = notation.session("skipped contents", """
> initialize
+ threads
+ disconnect
1: ok initialize/1
2: ok threads/2
3: ok disconnect/3
""")

# Sessions in the notation. What is sent while the last program runs meets no stop, whenever it comes.
SESSIONS = """
# a run
> initialize
+ launch {"program":"examples/two.pl0"}
+ setBreakpoints {"source":{"path":"examples/two.pl0"},"breakpoints":[{"line":1,"condition":"two = 3"},{"line":3}]}
+ configurationDone
1: ok initialize/1
2: ok launch/2
3: initialized
4: ok setBreakpoints/3 2 noStep
5: ok configurationDone/4
6: output 4
7: exited 0
8: terminated
end

# a stop on entry
> initialize
+ launch {"program":"examples/gcd.pl0","stopOnEntry":true}
+ configurationDone
+ stackTrace {"threadId":1}
+ scopes {"frameId":1}
+ variables {"variablesReference":1}
+ evaluate {"expression":"2 * (3 + 4)"}
+ evaluate {"expression":"z"}
+ scopes {"frameId":2}
+ pause {"threadId":1}
+ disconnect
1: ok initialize/1
2: ok launch/2
3: initialized
4: ok configurationDone/3
5: stopped entry
6: ok stackTrace/4 1 frames: main 3:3 id 1
7: ok scopes/5 main 1
8: ok variables/6 a 0, b 0, rest 0
9: ok evaluate/7 14
10: no evaluate/8 badExpression
11: no scopes/9 unknownFrame
12: ok pause/10
13: ok disconnect/11

# two pauses in a loop without end
> initialize
+ launch {"program":"demo/endless.pl0"}
+ configurationDone
+ stackTrace {"threadId":1}
+ pause {"threadId":1}
1: ok initialize/1
2: ok launch/2
3: initialized
4: ok configurationDone/3
5: no stackTrace/4 notStopped
6: ok pause/5
7: stopped pause
> stackTrace {"threadId":1}
+ continue {"threadId":1}
+ pause {"threadId":1}
8: ok stackTrace/6 1 frames: main 1:1 id 1
9: ok continue/7
10: ok pause/8
11: stopped pause
> disconnect
12: ok disconnect/9

# a disconnect in a loop without end
> initialize
+ launch {"program":"demo/endless.pl0"}
+ configurationDone
+ disconnect
1: ok initialize/1
2: ok launch/2
3: initialized
4: ok configurationDone/3
5: ok disconnect/4

# the end of the input in a loop without end
> initialize
+ launch {"program":"demo/endless.pl0"}
+ configurationDone
1: ok initialize/1
2: ok launch/2
3: initialized
4: ok configurationDone/3
"""


def played_row(session: notation.Session) -> Row:
    """The row of a session: its last part ends the input at once, or by a part of no bytes."""
    parts = [exchange.piece() for exchange in session.exchanges]
    answers = [exchange.answers for exchange in session.exchanges]
    return Row(session.name, [*parts, b""], [*answers, []]) if session.waits else Row(session.name, parts, answers)


PLAYED = {row.name: row for row in map(played_row, notation.sessions(SESSIONS))}
LOOP = PLAYED["the end of the input in a loop without end"]

ROWS = [
    raw("hello", HELLO, ANSWERS),
    raw("nothing", b"", []),
    raw("last byte missing", HELLO[:-1], [INITIALIZED]),
    raw("largest content", headed(b"Content-Length: 1048576") + b" " * 1048527 + frame(request(2, "disconnect")),
        ANSWERS),
    raw("content too large", headed(b"Content-Length: 1048577"), [], 2, "pl0dap: frame 6"),
    raw("longest header", headed(b"Content-Length: 49\r\nX: " + b"a" * 997), [INITIALIZED]),
    raw("header too long", headed(b"Content-Length: 49\r\nX: " + b"a" * 998), [], 2, "pl0dap: frame 1"),
    raw("name in lower case", headed(b"content-length: 49"), [], 2, "pl0dap: frame 3"),
    raw("two lengths", headed(b"Content-Length: 49\r\nContent-Length: 49"), [], 2, "pl0dap: frame 4"),
    raw("leading zero", headed(b"Content-Length: 049"), [], 2, "pl0dap: frame 5"),
    raw("no space", headed(b"Content-Length:49"), [], 2, "pl0dap: frame 2"),
    raw("skipped contents", b"".join(map(frame, (b'{"seq":1}', b"[", b""))) + SKIPPED.exchanges[0].piece(),
        SKIPPED.answers()),
    *PLAYED.values(),
    raw("a framing fault in a loop without end", LOOP.parts[0] + b"\r\n", LOOP.answers[0], 2, "pl0dap: frame 3"),
    raw("two disconnects", frame(request(1, "disconnect")) + frame(request(2, "disconnect")),
        [notation.content("1: ok disconnect/1", "")]),
]


def run(program: str, row: Row, cut: list[list[bytes]]) -> tuple[bytes, int, str]:
    """What the program does on the pieces of a row's parts, each of which it gets by a write of its own."""
    client = Client(program, TOP)
    came = b""
    for number, (pieces, answers) in enumerate(zip(cut, row.answers), 1):
        for piece in pieces:
            client.write_now(piece)
        for _ in answers if number < len(cut) else []:
            content = client.content()
            came += b"" if content is None else frame(content)
    client.end_input()
    while (content := client.content()) is not None:
        came += frame(content)
    rest, status, last = client.end()
    return came + rest, status, last


def cuts(parts: list[bytes]) -> Iterator[list[list[bytes]]]:
    """The ways in which each part of an input is cut into pieces."""
    yield [[part] for part in parts]
    if len(b"".join(parts)) <= 4096:
        yield [[part[at:at + 1] for at in range(len(part))] for part in parts]
    for number, part in enumerate(parts):
        for at in range(1, len(part), max(1, len(part) // 16)):
            yield [[one] if other != number else [part[:at], part[at:]] for other, one in enumerate(parts)]


def played(program: str, session: str) -> list[str] | None:
    """The messages of a stored session as it is played, or None where it goes differently."""
    script = [os.path.join(TOP, "demo", name) for name in ("session.py", session)]
    run = subprocess.run([sys.executable, *script, program], cwd=TOP, stdout=subprocess.PIPE, text=True, timeout=60)
    return [line.strip() for line in run.stdout.splitlines() if line.startswith("  ")] if run.returncode == 0 else None


def difference_of_demo(program: str) -> str | None:
    """What is wrong with the sessions that `make demo` plays, of which the first stands on the page."""
    with open(os.path.join(TOP, "docs", "PROTOCOL.md"), encoding="utf-8") as file:
        page = [line for line in file.read().splitlines() if line.startswith(("-> ", "<- "))]
    if played(program, "factorial.session") != page:
        return "from the session of the page"
    return "from what is stored" if played(program, "back.session") is None else None


def told(name: str, found: object) -> bool:
    """Prints whether an input or a session goes as it must, and answers whether it doesn't."""
    print(f"{name}: {'as it must be' if found is None else f'differs: {found}'}", flush=True)
    return found is not None


def failures(program: str) -> int:
    """How many of the rows and the sessions differ."""
    failed = 0
    for row in ROWS:
        wanted = (row.output(), row.status, row.last)
        outcomes = (run(program, row, cut) for cut in cuts(row.parts))
        failed += told(row.name, next((found for found in outcomes if found != wanted), None))
    failed += sum(told(name, found) for name, found in differences(program))
    return failed + told("the sessions of the demo", difference_of_demo(program))


def main() -> int:
    if len(sys.argv) not in (2, 3):
        print(__doc__, file=sys.stderr)
        return 4
    program, *from_zero = map(os.path.abspath, sys.argv[1:])
    failed = failures(program)
    for other in from_zero:
        print(f"{os.path.basename(other)}:")
        failed += failures(other)
        failed += sum(told(f"{name}, numbered from 0", found) for name, found in differences(other, first=0))
    return 1 if failed else 0


if __name__ == "__main__":
    sys.exit(main())
