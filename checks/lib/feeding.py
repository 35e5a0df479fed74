"""Feeds debug sessions to the adapter over pipes, and has what they must write.

A request that is meant for a stop is sent when the stop was written. Where the adapter gave up it still waits in a
read, which nothing but its input ends: so once a call was refused, and a thread of the adapter has ended, the input is
closed.
"""
from __future__ import annotations

import json
import os
import select
import threading
from typing import NamedTuple

from lib import notation
from lib.client import Client, Frames, frame

TOP = os.path.join(os.path.dirname(os.path.abspath(__file__)), "..", "..")
# A session that has not ended after this many seconds is killed, which shows in its status.
MOST_SECONDS = 20
# The session's own thread, the reader, the runner and the writer.
THREADS = 4
# How long a frame is waited for before it is looked whether the adapter gave up, and how often in a row it must seem
# so.
MOMENT = 0.004
LOOKS = 3


class Notice:
    """A pipe on which one thing is reported once."""

    def __init__(self) -> None:
        self.fd, self.write_end = os.pipe()
        os.set_blocking(self.fd, False)
        self.text = b""

    def look(self) -> bytes:
        """What was reported so far."""
        try:
            self.text += os.read(self.fd, 64)
        except BlockingIOError:
            pass
        return self.text

    def close(self) -> None:
        """Closes both ends of the pipe."""
        os.close(self.fd)
        os.close(self.write_end)


class Session(NamedTuple):
    """What is asked and answered, and the frames that are written in place of these where the program can't be read."""

    exchanges: list[notation.Exchange]
    unread: list[bytes]

    def frames(self) -> list[bytes]:
        """The frames that are written."""
        return [frame(content) for exchange in self.exchanges for content in exchange.answers]


def session(text: str) -> Session:
    """A session in the notation, of requests one by one."""
    exchanges = notation.session("", text).exchanges
    refused = [unread(number, exchange) for number, exchange in enumerate(exchanges, 1)]
    return Session(exchanges, [frame(content) for content in refused])


def unread(number: int, exchange: notation.Exchange) -> bytes:
    """The response to a request where the file of `launch` can't be read."""
    command = notation.name_in(exchange.requests[0])
    if command in ("initialize", "threads", "disconnect"):
        return notation.written({**json.loads(exchange.answers[0]), "seq": number})
    why = "cannotRead" if command == "launch" else "wrongPhase"
    return notation.content(f"{number}: no {command}/{number} {why}", "")


def frames_of(text: bytes) -> list[bytes]:
    """The frames of a text, and what is left of one where it ends."""
    stream = Frames()
    stream.take(text)
    found = [frame(content) for content in stream]
    return found + [bytes(stream.rest)] if stream.rest else found


def is_refusal(content: bytes) -> bool:
    return content.endswith(b'"success":false,"type":"response"}')


class Talk(Client):
    """A process that is fed, which may give up."""

    def __init__(self, command: list[str], notice: Notice | None, patience: int, **settings):
        super().__init__(command, TOP, **settings)
        self.notice = notice
        self.looks = LOOKS * patience
        self.written: list[bytes] = []

    def give(self, piece: bytes) -> bool:
        """Sends a piece, and answers whether the process still had its input open."""
        try:
            return os.write(self.child.stdin.fileno(), piece) == len(piece)
        except BrokenPipeError:
            return False

    def has_given_up(self) -> bool:
        """Whether a call was refused, and a thread has ended."""
        if not self.notice or not self.notice.look():
            return False
        try:
            return len(os.listdir(f"/proc/{self.child.pid}/task")) < THREADS
        except FileNotFoundError:
            return True

    def more(self) -> bool:
        """Receives some more bytes; none where the process has ended or given up."""
        seemed = 0
        while not select.select([self.child.stdout], [], [], MOMENT)[0]:
            seemed = seemed + 1 if not self.child.stdin.closed and self.has_given_up() else 0
            if seemed >= self.looks:
                return False
        return super().more()

    def content(self) -> bytes | None:
        """The next content, which is kept as written."""
        content = super().content()
        self.written += [] if content is None else [frame(content)]
        return content

    def converse(self, exchanges: list[notation.Exchange]) -> None:
        """Asks, and waits for what must be written then. After a refusal no event is waited for."""
        for exchange in exchanges:
            if not self.give(exchange.piece()):
                return
            for _ in exchange.answers:
                content = self.content()
                if content is None:
                    return
                if is_refusal(content):
                    break


def feed(
    command: list[str], exchanges: list[notation.Exchange], notice: Notice | None = None, patience: int = 1, **settings
) -> tuple[list[bytes], int, str]:
    """The frames that a command writes where it is asked so, its status, and what it says on standard error."""
    talk = Talk(command, notice, patience, **settings)
    end = threading.Timer(MOST_SECONDS, talk.child.kill)
    end.start()
    talk.converse(exchanges)
    talk.end_input()
    while talk.content() is not None:
        pass
    status = talk.status()
    end.cancel()
    rest = [bytes(talk.frames.rest)] if talk.frames.rest else []
    return talk.written + rest, status, talk.said()


# The condition holds in the third of ten calls.
FACTORIAL_SESSION = session("""
> initialize {"adapterID":"pl0"}
1: ok initialize/1
> launch {"program":"examples/factorial.pl0"}
2: ok launch/2
3: initialized
> setBreakpoints {"source":{"path":"examples/factorial.pl0"},"breakpoints":[{"line":9,"condition":"k = 8"}]}
4: ok setBreakpoints/3 9
> configurationDone
5: ok configurationDone/4
6: stopped breakpoint
> threads
7: ok threads/5
> stackTrace {"threadId":1}
8: ok stackTrace/6 4 frames: factorial 9:5 id 4, factorial 10:5 id 3, factorial 10:5 id 2, main 16:3 id 1
> scopes {"frameId":4}
9: ok scopes/7 factorial 4, main 1
> variables {"variablesReference":4}
10: ok variables/8 k 8
> variables {"variablesReference":1}
11: ok variables/9 n 8, product 1
> evaluate {"expression":"k * (k - 1) + n","frameId":4}
12: ok evaluate/10 64
> continue {"threadId":1}
13: ok continue/11
14: output 3628800
15: exited 0
16: terminated
> disconnect
17: ok disconnect/12
""")

# It logs in each call up to that stop, goes back to the beginning, and comes by again.
BACK_SESSION = session("""
> initialize {"adapterID":"pl0"}
1: ok initialize/1
> launch {"program":"examples/factorial.pl0"}
2: ok launch/2
3: initialized
> setBreakpoints {"source":{"path":"examples/factorial.pl0"},"breakpoints":[{"line":9,"condition":"k = 8"},{"line":9,"logMessage":"k is {k}"}]}
4: ok setBreakpoints/3 9 9
> configurationDone
5: ok configurationDone/4
6: console k is 10
7: console k is 9
8: console k is 8
9: stopped breakpoint
> stepBack {"threadId":1}
10: ok stepBack/5
11: stopped step
> evaluate {"expression":"k","frameId":4}
12: ok evaluate/6 8
> reverseContinue {"threadId":1}
13: ok reverseContinue/7
14: stopped entry
> stackTrace {"threadId":1}
15: ok stackTrace/8 1 frames: main 15:3 id 1
> continue {"threadId":1}
16: ok continue/9
17: console k is 10
18: console k is 9
19: console k is 8
20: stopped breakpoint
> disconnect
21: ok disconnect/10
""")

# The program stops before the step that can't be taken.
OVERFLOW_SESSION = session("""
> initialize {"adapterID":"pl0"}
1: ok initialize/1
> launch {"program":"demo/overflow.pl0"}
2: ok launch/2
3: initialized
> configurationDone
4: ok configurationDone/3
5: stopped exception overflow
> stackTrace {"threadId":1}
6: ok stackTrace/4 1 frames: main 4:3 id 1
> scopes {"frameId":1}
7: ok scopes/5 main 1
> variables {"variablesReference":1}
8: ok variables/6 x 9223372036854775807
> evaluate {"expression":"x - 1","frameId":1}
9: ok evaluate/7 9223372036854775806
> continue {"threadId":1}
10: ok continue/8
11: exited 1
12: terminated
> disconnect
13: ok disconnect/9
""")

# It doesn't stop.
TWO_SESSION = session("""
> initialize {"adapterID":"pl0"}
1: ok initialize/1
> launch {"program":"examples/two.pl0"}
2: ok launch/2
3: initialized
> setBreakpoints {"source":{"path":"examples/two.pl0"},"breakpoints":[{"line":1,"condition":"two = 3"},{"line":3}]}
4: ok setBreakpoints/3 2 noStep
> configurationDone
5: ok configurationDone/4
6: output 4
7: exited 0
8: terminated
> disconnect
9: ok disconnect/5
""")

# It is paused somewhere in a loop without end, which looks the same everywhere.
ENDLESS_SESSION = session("""
> initialize {"adapterID":"pl0"}
1: ok initialize/1
> launch {"program":"demo/endless.pl0"}
2: ok launch/2
3: initialized
> configurationDone
4: ok configurationDone/3
> pause {"threadId":1}
5: ok pause/4
6: stopped pause
> stackTrace {"threadId":1}
7: ok stackTrace/5 1 frames: main 1:1 id 1
> continue {"threadId":1}
8: ok continue/6
> pause {"threadId":1}
9: ok pause/7
10: stopped pause
> disconnect
11: ok disconnect/8
""")
