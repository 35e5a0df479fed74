#!/usr/bin/env python3
"""Plays a debug session of the stack language by the client's side of Microsoft's debugpy, and compares what comes.

usage: debugpy_stack.py PROGRAM [ARGUMENT..]

PROGRAM is the example `stack_adapter`. The session has a stop on entry, breakpoints, a step out of a call, frames,
scopes, variables, an expression, a fault, a second launch that comes to its end, and a third that is paused in a loop
without end; before them two launches are refused. Prints what is wrong, and ends with status 1 where anything is.
Status 2: `debugpy.common.messaging` isn't installed (Debian: python3-debugpy).
"""
import os
import sys
from collections.abc import Iterator

from debugpy_session import LIMIT, TOP, Session, differs, messaging

DATA = os.path.join(TOP, "crates", "stack_adapter", "data")
COUNTDOWN, SUM, MISTAKE, LOOP = (os.path.join(DATA, f"{name}.stk") for name in ("countdown", "sum", "mistake", "loop"))
ARRAY = messaging.json.array()
# The language's variables, each a letter, beside which the stack is shown.
LETTERS = 26


def waited(session: Session, *names: str) -> Iterator[str]:
    for name in names:
        yield from filter(None, [session.events.wait(name)])


def lines(session: Session) -> list[int]:
    return [frame["line"] for frame in session.ask("stackTrace", threadId=1)("stackFrames", ARRAY)]


def variables(session: Session, reference: int) -> dict[str, messaging.MessageDict]:
    return {one["name"]: one for one in session.ask("variables", variablesReference=reference)("variables", ARRAY)}


def start(session: Session) -> Iterator[str]:
    """Two refused launches, and one that isn't."""
    answer = session.ask("initialize", adapterID="stack", clientID="debugpy")
    yield from differs("supportsConfigurationDoneRequest", answer("supportsConfigurationDoneRequest", bool), True)
    yield from differs("a mistake", "line 2" in session.refusal("launch", program=MISTAKE), True)
    yield from differs("no file", "can't be read" in session.refusal("launch", program=MISTAKE + ".none"), True)
    session.ask("launch", program=COUNTDOWN, stopOnEntry=True)
    yield from waited(session, "initialized")
    answer = session.ask("setBreakpoints", source={"path": COUNTDOWN}, breakpoints=[{"line": 8}, {"line": 99}])
    yield from differs("breakpoints", [one["verified"] for one in answer("breakpoints", ARRAY)], [True, False])
    session.ask("configurationDone")
    yield from waited(session, "stopped")


def look(session: Session) -> Iterator[str]:
    """What is asked at the breakpoint, and after a step out of the call."""
    session.ask("continue", threadId=1)
    yield from waited(session, "stopped")
    yield from differs("threads", session.names(session.ask("threads"), "threads"), ["main"])
    yield from differs("frames", lines(session), [9, 6])
    yield from differs("scopes", session.names(session.ask("scopes", frameId=1), "scopes"), ["variables"])
    shown = variables(session, 1)
    yield from differs("variables", (len(shown), shown["n"]["value"]), (1 + LETTERS, "3"))
    session.ask("stepOut", threadId=1)
    yield from waited(session, "stopped")
    yield from differs("the line after the call", lines(session), [7])
    yield from differs("a value", session.ask("evaluate", expression="n")("result", str), "2")
    yield from differs("no variable", "no variable" in session.refusal("evaluate", expression="n + 1"), True)


def pause(session: Session) -> Iterator[str]:
    """A pause in a loop without end, after which the loop is left to run."""
    session.ask("launch", program=LOOP)
    yield from waited(session, "initialized")
    session.ask("configurationDone")
    yield from differs("while it runs", "isn't stopped" in session.refusal("stackTrace", threadId=1), True)
    session.ask("pause", threadId=1)
    yield from waited(session, "stopped")
    yield from differs("the frame", len(lines(session)), 1)
    session.ask("continue", threadId=1)


def leave(session: Session) -> Iterator[str]:
    """A fault, another program that comes to its end, and the adapter's end."""
    session.ask("setBreakpoints", source={"path": COUNTDOWN}, breakpoints=[])
    session.ask("continue", threadId=1)
    yield from waited(session, "stopped")
    yield from differs("the line of the fault", lines(session), [18])
    inside = variables(session, variables(session, 1)["stack"]["variablesReference"])
    yield from differs("the stack", [one["value"] for one in inside.values()], ["0", "7"])
    session.ask("launch", program=SUM)
    yield from waited(session, "initialized")
    session.ask("configurationDone")
    yield from waited(session, "terminated")
    yield from pause(session)
    session.ask("disconnect")
    session.channel.close()
    yield from differs("the status", session.child.wait(LIMIT), 0)
    numbers = "".join(text for category, text in session.events.outputs if category == "stdout")
    yield from differs("numbers", numbers, "3\n2\n1\n5\n")


def main() -> int:
    if len(sys.argv) < 2:
        print(__doc__, file=sys.stderr)
        return 4
    session = Session(sys.argv[1:])
    found = [*start(session), *look(session), *leave(session)]
    print("\n".join(found) or "debugpy: the whole session of the stack language as it should be")
    return 1 if found else 0


if __name__ == "__main__":
    sys.exit(main())
