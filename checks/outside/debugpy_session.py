#!/usr/bin/env python3
"""Plays a debug session by the client's side of Microsoft's debugpy, and compares what comes.

usage: debugpy_session.py PROGRAM [ARGUMENT..]

PROGRAM is the adapter. The session has a breakpoint with a condition, a log point, frames, scopes, variables, an
expression, a step back and the program's end; before it two launches are refused. Prints what is wrong, and ends with
status 1 where anything is. Status 2: `debugpy.common.messaging` isn't installed (Debian: python3-debugpy).
"""
import os
import subprocess
import sys
import tempfile
import threading
from collections.abc import Iterator

sys.path.append("/usr/lib/python3/dist-packages")  # where Debian keeps it, also for another Python than Debian's
try:
    from debugpy.common import messaging
except ImportError:
    sys.exit(2)

TOP = os.path.realpath(os.path.join(os.path.dirname(__file__), "..", ".."))
PROGRAM = os.path.join(TOP, "examples", "factorial.pl0")
LIMIT = 20.0  # seconds for each event, and for the end
BREAKPOINTS = [{"line": 9, "condition": "k = 8"}, {"line": 9, "logMessage": "k is {k}"}]
LOGS = ["k is 10\n", "k is 9\n", "k is 8\n"]


class Events:
    """The events that have come, and those that are waited for."""

    def __init__(self) -> None:
        self.outputs: list[tuple[str, str]] = []
        self.came = {name: threading.Semaphore(0) for name in ("initialized", "stopped", "terminated")}

    def event(self, event: messaging.Event) -> None:
        if event.event == "output":
            self.outputs.append((event("category", str), event("output", str)))
        if event.event in self.came:
            self.came[event.event].release()

    def disconnect(self) -> None:
        pass  # the end of the adapter's output

    def wait(self, name: str) -> str | None:
        """Waits for an event of this name: None once it came, else what is missing."""
        return None if self.came[name].acquire(timeout=LIMIT) else f"no event {name}"


class Session:
    """The client's side of a session with a program."""

    def __init__(self, command: list[str]):
        self.child = subprocess.Popen(command, stdin=subprocess.PIPE, stdout=subprocess.PIPE)
        self.events = Events()
        self.channel = messaging.JsonMessageChannel(messaging.JsonIOStream.from_process(self.child, name="pl0dap"),
                                                    self.events)
        self.channel.start()

    def ask(self, command: str, **arguments: object) -> messaging.MessageDict:
        """Asks a request and returns the body of its answer; an exception where it is refused."""
        return self.channel.request(command, arguments)

    def refusal(self, command: str, **arguments: object) -> str:
        """Why a request is refused; the empty text where it isn't."""
        try:
            self.ask(command, **arguments)
        except messaging.MessageHandlingError as error:
            return str(error)
        return ""

    def names(self, answer: messaging.MessageDict, member: str) -> list[str]:
        """The names in the list that a member of an answer is."""
        return [one["name"] for one in answer(member, messaging.json.array())]

    def set_breakpoints(self, breakpoints: list[dict]) -> messaging.MessageDict:
        """Asks for these breakpoints in the program."""
        return self.ask("setBreakpoints", source={"path": PROGRAM}, breakpoints=breakpoints)


def differs(what: str, found: object, wanted: object) -> Iterator[str]:
    """What is said where something was found in place of what is wanted."""
    if found != wanted:
        yield f"{what}: {found}, and not {wanted}"


def start(session: Session) -> Iterator[str]:
    """Two refused launches, and one that isn't."""
    answer = session.ask("initialize", adapterID="pl0", clientID="debugpy")
    yield from differs("supportsStepBack", answer("supportsStepBack", bool), True)
    with tempfile.NamedTemporaryFile("w", suffix=".pl0") as wrong:
        wrong.write("! x.")
        wrong.flush()
        yield from differs("a wrong text", "syntax 10 1 3" in session.refusal("launch", program=wrong.name), True)
    yield from differs("no file", "cannotRead" in session.refusal("launch", program=os.path.join(TOP, "none.pl0")),
                       True)
    session.ask("launch", program=PROGRAM)
    yield from filter(None, [session.events.wait("initialized")])
    answer = session.set_breakpoints(BREAKPOINTS)
    yield from differs("breakpoints", [one["verified"] for one in answer("breakpoints", messaging.json.array())],
                       [True, True])
    session.ask("configurationDone")
    yield from filter(None, [session.events.wait("stopped")])


def look(session: Session) -> Iterator[str]:
    """What is asked at the stop."""
    yield from differs("threads", session.names(session.ask("threads"), "threads"), ["main"])
    frames = session.ask("stackTrace", threadId=1)
    yield from differs("frames", session.names(frames, "stackFrames"), ["factorial"] * 3 + ["main"])
    yield from differs("scopes", session.names(session.ask("scopes", frameId=4), "scopes"), ["factorial", "main"])
    yield from differs("variables", session.names(session.ask("variables", variablesReference=4), "variables"), ["k"])
    yield from differs("a value", session.ask("evaluate", expression="k * (k - 1)", frameId=4)("result", str), "56")
    yield from differs("a wrong expression", "badExpression" in session.refusal("evaluate", expression="k +"), True)
    session.ask("stepBack", threadId=1)
    yield from filter(None, [session.events.wait("stopped")])
    top = session.ask("stackTrace", threadId=1)("stackFrames", messaging.json.array())[0]
    yield from differs("the line before", top["line"], 7)


def leave(session: Session) -> Iterator[str]:
    """The program's end, and the adapter's."""
    session.set_breakpoints([])
    session.ask("continue", threadId=1)
    yield from filter(None, [session.events.wait("terminated")])
    session.ask("disconnect")
    session.channel.close()
    yield from differs("the status", session.child.wait(LIMIT), 0)
    yield from differs("logs", [text for category, text in session.events.outputs if category == "console"], LOGS)
    yield from differs("numbers", [text for category, text in session.events.outputs if category == "stdout"],
                       ["3628800\n"])


def main() -> int:
    if len(sys.argv) < 2:
        print(__doc__, file=sys.stderr)
        return 4
    session = Session(sys.argv[1:])
    found = [*start(session), *look(session), *leave(session)]
    print("\n".join(found) or "debugpy: the whole session as it should be")
    return 1 if found else 0


if __name__ == "__main__":
    sys.exit(main())
