"""A session of the example `stack_adapter`, written apart from it: which messages may leave, after what came.

While a program runs nobody sees how far it has come. So this keeps every way in which a session can stand, a world each,
and a message is lawful where one of them lets it leave; the others are given up then. Where nothing is sent in a run
there is one world, and each message is exactly the one that must leave.
"""
from __future__ import annotations

import collections
import json
import os
import re
from collections.abc import Iterable
from typing import NamedTuple

from lib.plain_stack import VARIABLES, Mistake, State, read, step

RESUMING = ("continue", "next", "stepIn", "stepOut")
INSPECTING = ("stackTrace", "scopes", "variables", "evaluate")
SCOPES = 16  # of a frame, at most
STACK = 2**30 + 1  # the reference of what is inside the stack
PAGE = 1_024  # frames, or variables, at most
MOST_MESSAGE = 65_536  # bytes
MOST_OUTPUT = 65_536  # bytes of one event
LARGEST = 2**64 - 1
LIST, FRAME = 1_000_000, 248  # bytes of a list, and of a frame's row without its texts, at most
MOST_ARRIVALS = 10**6  # which no breakpoint has in a session
DECIMAL = re.compile(r"[1-9][0-9]*\Z", re.ASCII)
BRACES = re.compile(r"([^{]*)\{([^}]*)\}")


class Breakpoint(NamedTuple):
    """A rule is its sign and its number; a message is its texts and, marked, its expressions."""

    place: int
    condition: str | None = None
    rule: tuple[str, int] | None = None
    arrivals: int = 0
    message: tuple[tuple[bool, str], ...] | None = None

    def arrived(self) -> Breakpoint:
        """The same after one arrival more; numbers that a rule treats alike are one, so that a loop comes round."""
        if self.rule is None or self.rule[1] > MOST_ARRIVALS:
            return self
        sign, number = self.rule
        more = self.arrivals + 1
        alike = {"": min(more, number), "=": min(more, number + 1), "%": more % max(number, 1)}[sign]
        return self._replace(arrivals=alike)

    def accepts(self) -> bool:
        """Whether the next arrival is accepted."""
        if self.rule is None:
            return True
        sign, number = self.rule
        more = self.arrivals + 1
        return {"": more >= number, "=": more == number, "%": number > 0 and more % number == 0}[sign]


class Program(tuple):
    """The instructions of a program by their lines, which aren't looked through to find a world."""

    def __hash__(self) -> int:
        return id(self)


NOTHING = Program()

class World(NamedTuple):
    """How a session may stand. What must leave next is in `pending`, as texts without their number."""

    phase: str = "none"
    entry: bool = False
    path: str = ""
    program: Program = NOTHING
    state: State = State()
    mode: tuple[str, int] = ("continue", 0)
    fault: str | None = None
    breakpoints: tuple[Breakpoint, ...] = ()
    less: tuple[int, int] = (0, 0)  # than from 1 the client counts lines and columns
    pending: tuple[str, ...] = ()

    def having(self, **changes: object) -> World:
        return self._replace(**changes)

    def place(self) -> int | None:
        line = self.state.line
        return line if line < len(self.program) and self.program[line] is not None else None

    def depth(self) -> int:
        return len(self.state.returns) + 1


# ---- messages

def text_of(message: dict) -> str:
    """A message without its number."""
    return json.dumps({key: value for key, value in message.items() if key != "seq"}, sort_keys=True)


def event(name: str, body: dict | None = None) -> dict:
    return {"type": "event", "event": name} | ({} if body is None else {"body": body})


def output(category: str, text: str) -> dict:
    return event("output", {"category": category, "output": text})


def stopped(reason: str, text: str | None = None) -> dict:
    body = {"allThreadsStopped": True, "reason": reason, "threadId": 1}
    return event("stopped", body | ({} if text is None else {"text": text}))


TERMINATED = [event("terminated")]
ENDED = [event("exited", {"exitCode": 0}), *TERMINATED]


# ---- a run

def value(world: World, expression: str) -> int | None:
    named = len(expression) == 1 and expression in VARIABLES
    return world.state.values[VARIABLES.index(expression)] if named else None


def shown(world: World, expression: str) -> str:
    found = value(world, expression)
    return NO_VARIABLE if found is None else str(found)


def is_at(world: World, breakpoint: Breakpoint) -> bool:
    return world.place() == breakpoint.place and (
        breakpoint.condition is None or value(world, breakpoint.condition) != 0)


def asks(world: World) -> bool:
    kind, depth = world.mode
    return world.place() is not None and {
        "continue": False, "in": True, "over": world.depth() <= depth, "out": world.depth() < depth}[kind]


def arrive(world: World) -> tuple[list[dict], World]:
    """What is told where a program comes to, which may stop there."""
    hits = [one for one in world.breakpoints if is_at(world, one) and one.accepts()]
    told = [output("console", "".join(shown(world, part) if given else part for given, part in one.message))
            for one in hits if one.message is not None]
    after = world.having(breakpoints=tuple(one.arrived() if is_at(world, one) else one for one in world.breakpoints))
    if any(one.message is None for one in hits):
        return [*told, stopped("breakpoint")], after.having(phase="stopped")
    if asks(world):
        return [*told, stopped("step")], after.having(phase="stopped")
    return told, after


def advance(world: World) -> tuple[list[dict], World]:
    """A step of a program that runs."""
    told, state = step(world.program, world.state)
    if told.ends:
        return ENDED, gone(world)
    if told.fault is not None:
        return [stopped("exception", told.fault)], world.having(phase="stopped", fault=told.fault)
    events = [] if told.printed is None else [output("stdout", told.printed)]
    more, after = arrive(world.having(state=state))
    return events + more, after


def gone(world: World) -> World:
    """The same with a program that has ended."""
    return world.having(phase="ended", entry=False, state=State(), mode=("continue", 0), fault=None)


def silent(worlds: Iterable[World]) -> set[World]:
    """Where programs may have come without a message."""
    seen: set[World] = set()
    for world in worlds:
        while world not in seen:
            seen.add(world)
            if world.phase != "running":
                break
            told, after = advance(world)
            if told:
                break
            world = after
    return seen


def next_told(world: World, known: dict[World, World | None]) -> World | None:
    """The same where the program next tells something, which is pending; None where it never does.

    What is found is known from then on of each world on the way.
    """
    path = []
    while world not in known:
        known[world] = None  # as long as nothing is found
        path.append(world)
        told, after = advance(world)
        if told:
            known[world] = with_pending(after, told)
        else:
            world = after
    known |= dict.fromkeys(path, known[world])
    return known[world]


def with_pending(world: World, told: list[dict]) -> World:
    return world.having(pending=world.pending + tuple(map(text_of, told)))


# ---- requests

NO_VARIABLE = "no variable has this name"
REASONS = {FileNotFoundError: ": there is no such file", IsADirectoryError: ": it is a folder",
           PermissionError: ": it is not allowed"}


class Request(NamedTuple):
    seq: int
    command: str
    arguments: str | None = None  # as JSON

    def given(self) -> dict:
        found = None if self.arguments is None else json.loads(self.arguments)
        return found if isinstance(found, dict) else {}


class Refused(Exception):
    """A request is refused, with this message."""


def answer(world: World, request: Request, folder: str) -> World:
    """The same after a request, whose response and events are pending."""
    head = {"type": "response", "request_seq": request.seq, "command": request.command}
    try:
        body, told, after = grant(world, request, folder)
    except Refused as refused:
        return with_pending(world, [head | {"success": False, "message": str(refused), "body": {}}])
    return with_pending(after, [head | {"success": True} | ({} if body is None else {"body": body}), *told])


def grant(world: World, request: Request, folder: str) -> tuple[dict | None, list[dict], World]:
    command, given = request.command, request.given()
    if (why := refusal(command, given)) is not None:
        raise Refused(why)
    if command in RESUMING:
        return resume(world, command)
    if command in INSPECTING:
        if world.phase != "stopped":
            raise Refused("the program isn't stopped")
        return INSPECTIONS[command](world, given), [], world
    return GRANTS.get(command, unsupported)(world, given, folder)


def refusal(command: str, given: dict) -> str | None:
    """Why a request is refused for its arguments, whatever the program does."""
    if command == "launch" and given.get("noDebug") is True:
        return "`noDebug` is unsupported"
    if command == "setBreakpoints" and "lines" in given and "breakpoints" not in given:
        return "`breakpoints` is missing"
    if command in (*RESUMING, "pause", "stackTrace") and whole_at(given, "threadId") not in (None, 1):
        return "there is no such thread"
    return None


def unsupported(world: World, given: dict, folder: str) -> tuple[dict | None, list[dict], World]:
    raise Refused("unsupported")


def initialize(world: World, given: dict, folder: str) -> tuple[dict | None, list[dict], World]:
    less = tuple(int(given.get(key) is False) for key in ("linesStartAt1", "columnsStartAt1"))
    return CAPABILITIES, [], world.having(less=less)


CAPABILITIES = {
    "supportsConditionalBreakpoints": True,
    "supportsConfigurationDoneRequest": True,
    "supportsEvaluateForHovers": True,
    "supportsExceptionInfoRequest": True,
    "supportsHitConditionalBreakpoints": True,
    "supportsLogPoints": True,
    "supportsTerminateRequest": True,
}


def text_at(given: dict, key: str) -> str | None:
    found = given.get(key)
    return found if isinstance(found, str) else None


def whole_at(given: dict, key: str) -> int | None:
    found = given.get(key)
    return found if isinstance(found, int) and not isinstance(found, bool) and 0 <= found < 2**64 else None


def launch(world: World, given: dict, folder: str) -> tuple[dict | None, list[dict], World]:
    if world.phase == "running":
        raise Refused("a program runs")
    path = text_at(given, "program")
    if path is None:
        raise Refused("`program` is missing")
    try:
        with open(os.path.join(folder, path), encoding="utf-8", newline="") as file:
            program = Program(read(file.read()))
    except OSError as error:
        raise Refused(f"the program can't be read{REASONS.get(type(error), '')}") from None
    except UnicodeDecodeError:
        raise Refused("the program isn't UTF-8") from None
    except Mistake as mistake:
        raise Refused(f"line {mistake} is no instruction") from None
    loaded = World("configuring", given.get("stopOnEntry") is True, path, program, less=world.less)
    return None, [event("initialized")], loaded


def set_breakpoints(world: World, given: dict, folder: str) -> tuple[dict | None, list[dict], World]:
    if world.phase == "none":
        raise Refused("no program is loaded")
    asked = given.get("breakpoints")
    asked = asked if isinstance(asked, list) else []
    source = given.get("source")
    if not isinstance(source, dict) or source.get("path") != world.path:
        return {"breakpoints": [unset("this isn't the program's source")] * len(asked)}, [], world
    answers, kept = [], []
    for one in asked:
        told, found = set_one(world, one if isinstance(one, dict) else {})
        answers.append(told)
        kept += [] if found is None else [found]
    return {"breakpoints": answers}, [], world.having(breakpoints=tuple(kept))


def unset(why: str) -> dict:
    return {"message": why, "verified": False}


def set_one(world: World, asked: dict) -> tuple[dict, Breakpoint | None]:
    """What is told of a breakpoint, and where it is set, if it is."""
    asked_line = whole_at(asked, "line")
    if asked_line is None:
        return unset("`line` is missing"), None
    line = max(min(asked_line + world.less[0], LARGEST) - 1, 0)
    place = next((at for at in range(line, len(world.program)) if world.program[at] is not None), None)
    if place is None:
        return unset("no place is at this line or after it"), None
    try:
        rule = rule_of(text_at(asked, "hitCondition") or "")
    except ValueError:
        return unset("a hit condition is N, =N or %N"), None
    if len((text_at(asked, "logMessage") or "").encode()) > MOST_MESSAGE:
        return unset("a message has at most 65,536 bytes"), None
    condition = text_at(asked, "condition") or None
    if condition is not None and value(world, condition) is None:
        return unset(NO_VARIABLE), None
    message = text_at(asked, "logMessage")
    parts = parts_of(message) if message else None
    return {"line": place + 1 - world.less[0], "verified": True}, Breakpoint(place, condition, rule, 0, parts)


def rule_of(text: str) -> tuple[str, int] | None:
    if not text:
        return None
    sign = text[0] if text[0] in "=%" else ""
    digits = text[len(sign):]
    if not DECIMAL.match(digits) or int(digits) >= 2**64:
        raise ValueError
    return sign, int(digits)


def parts_of(message: str) -> tuple[tuple[bool, str], ...]:
    """The parts of a message, which ends its line: expressions stand in braces."""
    parts: list[tuple[bool, str]] = []
    while found := BRACES.match(message):
        parts += [(False, found[1]), (True, found[2])]
        message = message[found.end():]
    return (*parts, (False, message), (False, "\n"))


def start(world: World, given: dict, folder: str) -> tuple[dict | None, list[dict], World]:
    if world.phase != "configuring":
        raise Refused("no program waits to be started")
    told, after = arrive(world.having(phase="running", mode=("continue", 0)))
    if world.entry and after.phase == "running":
        return None, [*told, stopped("entry")], after.having(phase="stopped")
    return None, told, after


def resume(world: World, command: str) -> tuple[dict | None, list[dict], World]:
    if world.phase != "stopped":
        raise Refused("the program isn't stopped")
    mode = {"continue": "continue", "next": "over", "stepIn": "in", "stepOut": "out"}[command]
    body = {"allThreadsContinued": True} if command == "continue" else None
    # Only these look at where the run began: the others are one world wherever it did.
    depth = world.depth() if mode in ("over", "out") else 0
    told, after = advance(world.having(phase="running", mode=(mode, depth), fault=None))
    return body, told, after


def pause(world: World, given: dict, folder: str) -> tuple[dict | None, list[dict], World]:
    if world.phase != "running":
        raise Refused("the program doesn't run")
    return None, [stopped("pause")], world.having(phase="stopped")


def terminate(world: World, given: dict, folder: str) -> tuple[dict | None, list[dict], World]:
    if world.phase in ("none", "ended"):
        return None, [], world
    return None, TERMINATED, gone(world)


def threads(world: World, given: dict, folder: str) -> tuple[dict | None, list[dict], World]:
    return {"threads": [{"id": 1, "name": "main"}]}, [], world


def exception_info(world: World, given: dict, folder: str) -> tuple[dict | None, list[dict], World]:
    if world.phase != "stopped" or world.fault is None:
        raise Refused("the program hasn't stopped at a fault")
    return {"breakMode": "always", "description": world.fault, "exceptionId": FAULTS[world.fault]}, [], world


FAULTS = {
    "overflow": "Overflow",
    "division by zero": "DivisionByZero",
    "a number is missing on the stack": "TooFew",
    "there are too many numbers or calls": "TooMany",
}


def disconnect(world: World, given: dict, folder: str) -> tuple[dict | None, list[dict], World]:
    return None, [], world.having(phase="left")


GRANTS = {
    "initialize": initialize, "launch": launch, "setBreakpoints": set_breakpoints, "configurationDone": start,
    "pause": pause, "terminate": terminate, "threads": threads, "exceptionInfo": exception_info,
    "disconnect": disconnect,
}


def stack_trace(world: World, given: dict) -> dict:
    first, levels = whole_at(given, "startFrame") or 0, min(whole_at(given, "levels") or PAGE, PAGE)
    lines = list(world.state.lines())
    called = [f"line {world.program[line].operand + 1}" for line in lines[1:]]
    frames = [{"column": 1 - world.less[1], "id": index + 1, "line": line + 1 - world.less[0], "name": name,
               "source": {"path": world.path}} for index, (line, name) in enumerate(zip(lines, [*called, "main"]))]
    return {"stackFrames": fitting(frames[first:first + levels]), "totalFrames": world.depth()}


def fitting(frames: list[dict]) -> list[dict]:
    """As many frames as fit into an answer, by six bytes for each of a text's."""
    room = LIST
    for index, one in enumerate(frames):
        size = FRAME + 6 * len((one["name"] + one["source"]["path"]).encode())
        if size >= room:
            return frames[:index]
        room -= size + 1
    return frames


def scopes(world: World, given: dict) -> dict:
    frame = alive(world, whole_at(given, "frameId"))
    return {"scopes": [{"expensive": False, "name": "variables", "variablesReference": (frame - 1) * SCOPES + 1}]}


def alive(world: World, frame: int | None) -> int:
    """The number of a frame that is alive, of which the newest is 1."""
    if frame is None or not 1 <= frame <= world.depth():
        raise Refused("no such frame is alive")
    return frame


def variables(world: World, given: dict) -> dict:
    reference = whole_at(given, "variablesReference") or 0
    shown_all = numbers(world) if reference == STACK else values(world, reference)
    first, count = whole_at(given, "start") or 0, min(whole_at(given, "count") or PAGE, PAGE)
    return {"variables": shown_all[first:first + count]}


def values(world: World, reference: int) -> list[dict]:
    """The stack, and the variables, of a scope."""
    if reference % SCOPES != 1 or reference // SCOPES >= world.depth():
        raise Refused("no variables have this reference")
    named = [{"name": name, "value": str(number), "variablesReference": 0}
             for name, number in zip(VARIABLES, world.state.values)]
    return [{"name": "stack", "value": str(len(world.state.numbers)), "variablesReference": STACK}, *named]


def numbers(world: World) -> list[dict]:
    """The numbers on the stack, the top one first."""
    return [{"name": str(place), "value": str(number), "variablesReference": 0}
            for place, number in enumerate(reversed(world.state.numbers))]


def evaluate(world: World, given: dict) -> dict:
    expression = text_at(given, "expression")
    if expression is None:
        raise Refused("`expression` is missing")
    frame = whole_at(given, "frameId")
    alive(world, 1 if frame is None else frame)
    if value(world, expression) is None:
        raise Refused(NO_VARIABLE)
    return {"result": shown(world, expression), "variablesReference": 0}


INSPECTIONS = {"stackTrace": stack_trace, "scopes": scopes, "variables": variables, "evaluate": evaluate}


# ---- a session

def pieces(message: dict) -> list[dict]:
    """A message as the program told it: line by line, where lines come in one event."""
    text = message.get("body", {}).get("output", "")
    if not text.endswith("\n"):
        return [message]
    return [message | {"body": message["body"] | {"output": line + "\n"}} for line in text[:-1].split("\n")]


class Session:
    """What came and what left, so far."""

    def __init__(self, folder: str):
        self.folder = folder
        self.worlds = {World()}
        self.asked: collections.deque[Request] = collections.deque()
        self.sent = 0
        self.cut = ""  # what was told of a text whose end follows in the next event

    def phases(self) -> set[str]:
        return {world.phase for world in self.worlds}

    def is_waiting(self) -> bool:
        """Whether a message must still leave before something is asked."""
        return bool(self.asked) or any(world.pending for world in self.worlds)

    def runs(self) -> bool:
        return self.is_waiting() or "running" in self.phases()

    def take(self, message: dict) -> str | None:
        """Takes a message that left, and says what is wrong with it, if anything is."""
        self.sent += 1
        if message.get("seq") != self.sent:
            return f"number {self.sent} must leave, and not {message}"
        if message.get("event") == "output":
            body = message["body"]
            if len(body["output"].encode()) > MOST_OUTPUT:
                return f"an output has more than {MOST_OUTPUT} bytes"
            if not body["output"].endswith("\n") and len(body["output"].encode()) > MOST_OUTPUT - 4:
                self.cut += body["output"]
                return None
            message = message | {"body": body | {"output": self.cut + body["output"]}}
            self.cut = ""
        wrong = (self.take_piece(piece) for piece in pieces(message))
        return next(filter(None, wrong), None)

    def take_piece(self, message: dict) -> str | None:
        expected = self.expected(message.get("type") == "response")
        found = text_of(message)
        self.worlds = {world.having(pending=world.pending[1:]) for world in expected if world.pending[0] == found}
        if not self.worlds:
            return f"{found} leaves, and not {' or '.join(sorted({world.pending[0] for world in expected})) or 'nothing'}"
        if message.get("type") == "response":
            self.asked.popleft()
        return None

    def expected(self, is_response: bool) -> list[World]:
        """The worlds in which a response, or an event, is the next to leave."""
        pending = [world for world in self.worlds if world.pending]
        others = [world for world in self.worlds if not world.pending]
        if is_response:
            return pending + ([answer(one, self.asked[0], self.folder) for one in silent(others)] if self.asked else [])
        known: dict[World, World | None] = {}
        told = [next_told(world, known) for world in others if world.phase == "running"]
        return pending + [world for world in told if world is not None]
