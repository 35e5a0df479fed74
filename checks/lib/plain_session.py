"""What an adapter must send, by definition: a session that takes pieces of input and gives the contents that leave.

It is written apart from the adapter, from the protocol's rules, and stands on `plain_pl0`.
"""
from __future__ import annotations

import copy
import dataclasses
import json
import os
import re

from lib.plain_pl0 import Block, Machine, Program, RunFault, Statement, TextFault, read_alone, read_program

LARGEST_SEQ = 2**53 - 1
LARGEST_LINE = 2**31 - 1
LONGEST_HEADER = 1024
LARGEST_CONTENT = 1048576
MOST_LINES = 256
LONGEST_TEXT = 1024
SLICE = 256
DEEPEST = 127
FIELD = re.compile(rb"([A-Za-z0-9-]+): ([\x20-\x7e]*)")
LENGTH = re.compile(rb"0|[1-9][0-9]{0,6}")
PRINTABLE = re.compile(r"[\x20-\x7e]+")
HIT = re.compile(r"(%?)([1-9][0-9]*)")
HEADER_TOO_LONG, BAD_FIELD, NO_LENGTH, TWO_LENGTHS, BAD_LENGTH, TOO_LARGE = range(1, 7)
MOST_EXPRESSIONS = 8
RESUMING = ("continue", "next", "stepIn", "stepOut")
GOING_BACK = ("stepBack", "reverseContinue")
ASKING = ("stackTrace", "scopes", "variables", "evaluate")
UNLOOKED = ("configurationDone", "threads", "disconnect")
CAPABILITIES = {
    "supportsConditionalBreakpoints": True,
    "supportsConfigurationDoneRequest": True,
    "supportsHitConditionalBreakpoints": True,
    "supportsLogPoints": True,
    "supportsStepBack": True,
}


class FrameFault(Exception):
    """A header that no frame has, by its number."""


class BadArguments(Exception):
    """Arguments that don't fit their command."""


class Refusal(Exception):
    """A request that is refused, by its message."""


class Frames:
    """A stream of frames, of which contents are taken."""

    def __init__(self) -> None:
        self.rest = b""

    def header(self) -> tuple[int, int] | None:
        """The lengths of the header in front and of its content, or None where it isn't complete."""
        at, length = 0, None
        while True:
            end = self.rest.find(b"\r\n", at, LONGEST_HEADER)
            if end < 0:
                if len(self.rest) >= LONGEST_HEADER:
                    raise FrameFault(HEADER_TOO_LONG)
                return None
            line, at = self.rest[at:end], end + 2
            if not line:
                if length is None:
                    raise FrameFault(NO_LENGTH)
                return at, length
            length = self.field(line, length)

    def field(self, line: bytes, length: int | None) -> int | None:
        """The length that is named after one more line."""
        field = FIELD.fullmatch(line)
        if not field:
            raise FrameFault(BAD_FIELD)
        name, value = field.groups()
        if name != b"Content-Length":
            return length
        if length is not None:
            raise FrameFault(TWO_LENGTHS)
        if not LENGTH.fullmatch(value):
            raise FrameFault(BAD_LENGTH)
        if int(value) > LARGEST_CONTENT:
            raise FrameFault(TOO_LARGE)
        return int(value)

    def next(self) -> bytes | None:
        """The next content, or None where it isn't complete."""
        header = self.header()
        if header is None or len(self.rest) < sum(header):
            return None
        start, length = header
        content, self.rest = self.rest[start:start + length], self.rest[start + length:]
        return content


def finite(text: str) -> float:
    number = float(text)
    if number in (float("inf"), float("-inf")):
        raise ValueError(text)
    return number


def whole_or_float(text: str) -> int | float:
    """Minus zero is a float; a whole number too large for a float isn't read."""
    finite(text)
    return -0.0 if text == "-0" else int(text)


def unread(text: str) -> None:
    raise ValueError(text)


def nesting(value: object) -> int:
    parts = value.values() if isinstance(value, dict) else value if isinstance(value, list) else None
    return 0 if parts is None else 1 + max(map(nesting, parts), default=0)


def json_of(content: bytes) -> object:
    """The value of a JSON text; ValueError where it is none, or goes too deep."""
    text = content.decode()
    value = json.loads(text, parse_float=finite, parse_int=whole_or_float, parse_constant=unread)
    json.dumps(value, ensure_ascii=False).encode()  # no half of a surrogate pair
    if nesting(value) > DEEPEST:
        raise ValueError("too deep")
    return value


def is_whole(value: object, most: int = LARGEST_SEQ) -> bool:
    return type(value) is int and 0 <= value <= most


@dataclasses.dataclass
class Request:
    """A well-formed request."""

    seq: int
    command: str
    arguments: object


def request_of(content: bytes) -> Request | None:
    """The request that a content is, or None."""
    try:
        value = json_of(content)
    except (ValueError, RecursionError):
        return None
    if not isinstance(value, dict) or value.get("type") != "request":
        return None
    seq, command = value.get("seq"), value.get("command")
    if not is_whole(seq) or seq == 0 or not isinstance(command, str):
        return None
    if len(command) > 64 or not PRINTABLE.fullmatch(command):
        return None
    return Request(seq, command, value.get("arguments", {}))


class Arguments:
    """The members of an object, each looked at by its kind."""

    def __init__(self, members: object):
        self.members = self.fit(members, isinstance(members, dict))

    def fit(self, value: object, fits: bool) -> object:
        if not fits:
            raise BadArguments
        return value

    def truth(self, name: str, default: bool) -> bool:
        """A member that is true or false."""
        value = self.members.get(name, default)
        return self.fit(value, isinstance(value, bool))

    def whole(self, name: str, default: int | None = None, most: int = LARGEST_SEQ) -> int:
        """A member that is a whole number, at most so large."""
        value = self.members.get(name, default)
        return self.fit(value, is_whole(value, most))

    def text(self, name: str, default: str | None = None, most: int | None = LONGEST_TEXT) -> str:
        """A member that is a text of at most so many bytes."""
        value = self.members.get(name, default)
        self.fit(value, isinstance(value, str))
        return self.fit(value, most is None or len(value.encode()) <= most)


@dataclasses.dataclass
class Asked:
    """A breakpoint that is asked for."""

    line: int
    condition: str
    hits: str
    message: str


def asked(value: object) -> Asked:
    one = Arguments(value)
    texts = [one.text(name, "") for name in ("condition", "hitCondition", "logMessage")]
    return Asked(one.whole("line", most=LARGEST_LINE), *texts)


def fit_launch(arguments: Arguments) -> dict:
    path = arguments.text("program", most=255)
    arguments.fit(path, bool(PRINTABLE.fullmatch(path)))
    entry = arguments.truth("stopOnEntry", False)
    arguments.fit(None, not arguments.truth("noDebug", False))
    return {"path": path, "entry": entry}


def fit_breakpoints(arguments: Arguments) -> dict:
    source = Arguments(arguments.members.get("source"))
    path = source.text("path", most=None) if "path" in source.members else None
    lines = arguments.members.get("breakpoints", [])
    arguments.fit(None, isinstance(lines, list) and len(lines) <= MOST_LINES)
    return {"path": path, "asked": [asked(line) for line in lines]}


def fit_thread(arguments: Arguments) -> dict:
    return {"thread": arguments.whole("threadId")}


FITTING = {
    "initialize": lambda given: {"lines": given.truth("linesStartAt1", True),
                                 "columns": given.truth("columnsStartAt1", True)},
    "launch": fit_launch,
    "setBreakpoints": fit_breakpoints,
    **{command: fit_thread for command in (*RESUMING, *GOING_BACK, "pause")},
    "stackTrace": lambda given: {**fit_thread(given), "start": given.whole("startFrame", 0),
                                 "levels": given.whole("levels", 0)},
    "scopes": lambda given: {"frame": given.whole("frameId")},
    "variables": lambda given: {"reference": given.whole("variablesReference")},
    "evaluate": lambda given: {"expression": given.text("expression"), "frame": given.whole("frameId", 1)},
    **{command: lambda given: {} for command in UNLOOKED},
}


def fitted(request: Request) -> dict:
    """The arguments of a request, named as the answers below want them."""
    if request.command not in FITTING:
        raise Refusal("unsupported")
    try:
        return FITTING[request.command](Arguments({} if request.command in UNLOOKED else request.arguments))
    except BadArguments:
        raise Refusal("badArguments") from None


def read_message(text: str, block: Block) -> list[str | tuple]:
    """The texts and expressions of a log message, which are read in a block; a refusal where it can't be read."""
    parts: list[str | tuple] = []
    while text:
        plain, brace, rest = text.partition("{")
        parts.append(plain)
        expression, closing, text = rest.partition("}")
        tree = read_alone(expression, block, "expression") if closing else None
        if brace and tree is None:
            raise Refusal("badLogMessage")
        if tree is not None:
            parts.append(tree)
    if sum(isinstance(part, tuple) for part in parts) > MOST_EXPRESSIONS:
        raise Refusal("badLogMessage")
    return parts


def value_text(machine: Machine, tree: tuple) -> str:
    """The value of an expression in the newest frame, or why it has none."""
    try:
        return str(machine.value(machine.depth() - 1, tree))
    except RunFault as fault:
        return fault.args[0]


@dataclasses.dataclass
class Breakpoint:
    """A breakpoint in force, with the number of its arrivals so far; one with a message is a log point."""

    step: Statement
    condition: tuple | None
    every: bool
    hits: int | None
    message: list[str | tuple] | None
    arrivals: int = 0

    def anew(self) -> "Breakpoint":
        """The same breakpoint with no arrival."""
        return dataclasses.replace(self, arrivals=0)

    def log(self, machine: Machine) -> str:
        """What a log point says where the machine stands."""
        return "".join(part if isinstance(part, str) else value_text(machine, part) for part in self.message)

    def is_met(self, machine: Machine) -> bool:
        """Counts an arrival, if the machine's position is one, and tells whether the hit rule accepts it."""
        if machine.top() is not self.step or not self.holds(machine):
            return False
        self.arrivals += 1
        if self.hits is None:
            return True
        return self.arrivals % self.hits == 0 if self.every else self.arrivals >= self.hits

    def holds(self, machine: Machine) -> bool:
        try:
            return self.condition is None or bool(machine.value(machine.depth() - 1, self.condition))
        except RunFault:
            return True


def resolved(program: Program, one: Asked) -> Breakpoint | str:
    """The breakpoint that is asked for, or why there is none."""
    step = program.step_from(one.line)
    if step is None:
        return "noStep"
    condition = read_alone(one.condition, step.block, "condition") if one.condition else None
    if one.condition and condition is None:
        return "badCondition"
    hits = HIT.fullmatch(one.hits)
    if one.hits and (not hits or int(hits[2]) > LARGEST_LINE):
        return "badHitCondition"
    try:
        message = read_message(one.message, step.block) if one.message else None
    except Refusal as refusal:
        return refusal.args[0]
    return Breakpoint(step, condition, bool(hits and hits[1]), int(hits[2]) if hits else None, message)


def met(plan: list[Breakpoint], machine: Machine) -> list[Breakpoint]:
    """Considers the machine's position, and returns the breakpoints that are met there."""
    return [one for one in plan if one.is_met(machine)]


def stops(found: list[Breakpoint]) -> bool:
    """Whether breakpoints that are met stop the program."""
    return any(one.message is None for one in found)


def machine_at(program: Program, position: int) -> tuple[Machine, int]:
    """A machine that has come to a position, and how many numbers were written on its way."""
    machine = Machine(program)
    numbers = [machine.step() for _ in range(position)]
    return machine, sum(number is not None for number in numbers)


def last_stop(program: Program, plan: list[Breakpoint], end: int) -> int | None:
    """The greatest position below the end at which breakpoints, counted from position 0, stop the program."""
    machine, plan, found = Machine(program), [one.anew() for one in plan], None
    for position in range(end):
        if stops(met(plan, machine)):
            found = position
        machine.step()
    return found


@dataclasses.dataclass
class Mode:
    """How a run goes on, and the depth at which it was resumed."""

    name: str
    depth: int = 0

    def reason(self, depth: int) -> str | None:
        """Why it stops at a depth where no breakpoint is due."""
        if self.name == "entry":
            return "entry"
        is_due = {"continue": False, "stepIn": True, "next": depth <= self.depth, "stepOut": depth < self.depth}
        return "step" if is_due[self.name] else None

    def goes_back(self) -> bool:
        return self.name in GOING_BACK


class Session:
    """A session: what it is given changes it, and adds to the contents that leave.

    A piece of input is taken whole by `take`. While the program runs, `slice` accepts the report of its next slice, and
    `give_back` that it is held, which may come after a slice of the run, once there is reason for it (`may_be_held`).
    When each comes is open.
    """

    def __init__(self, folder: str):
        self.folder = folder
        self.frames = Frames()
        self.situation = "Fresh"
        self.fault: int | None = None
        self.sent: list[bytes] = []
        self.seq = 0
        self.lines = self.columns = True
        self.path = ""
        self.entry = False
        self.program: Program | None = None
        self.machine: Machine | None = None
        self.plan: list[Breakpoint] = []
        self.mode = Mode("continue")
        self.waiting_plan: list[Breakpoint] | None = None
        self.waiting_pause = False
        self.is_held = False
        self.slices = 0
        # How many numbers the steps up to the machine's position write, and how many were sent.
        self.written = self.numbers_sent = 0
        # After how many slices each run was held that was.
        self.held: list[int] = []
        # Requests to set breakpoints so far, and the one whose plan is in force.
        self.asked_plans = 0
        self.plan_number = 0

    def twin(self) -> "Session":
        """The same session, which has sent nothing since, and goes on apart from this one."""
        twin = copy.copy(self)
        twin.sent = []
        twin.held = list(self.held)
        twin.frames = copy.copy(self.frames)
        twin.plan = [dataclasses.replace(one) for one in self.plan]
        twin.machine = self.machine.twin() if self.machine else None
        return twin

    def key(self) -> tuple:
        """What the rest of the session depends on, beside what was taken of its input, since a program's run is always
        the same."""
        return (
            self.situation, self.machine and self.machine.position, self.slices > 0, self.is_held, self.waiting_pause,
            self.waiting_plan is None, self.asked_plans, self.plan_number, tuple(one.arrivals for one in self.plan),
            dataclasses.astuple(self.mode), self.numbers_sent,
        )

    def is_closed(self) -> bool:
        """Whether nothing more is taken."""
        return self.situation == "Closed"

    def put(self, message: dict) -> None:
        """Sends a message under the next seq."""
        self.seq += 1
        whole = {**message, "seq": self.seq}
        self.sent.append(json.dumps(whole, sort_keys=True, separators=(",", ":"), ensure_ascii=False).encode())

    def event(self, name: str, body: dict | None = None) -> None:
        self.put({"type": "event", "event": name, **({} if body is None else {"body": body})})

    def stop(self, reason: str, text: str | None = None) -> None:
        """Reports a stop, or with a text a fault."""
        self.situation = "Stopped" if text is None else "Faulted"
        body = {"allThreadsStopped": True, "reason": reason, "threadId": 1}
        self.event("stopped", body if text is None else {**body, "text": text})

    def end(self, code: int) -> None:
        """Reports the end of the program with this exit code."""
        self.situation = "Ended"
        self.event("exited", {"exitCode": code})
        self.event("terminated")

    def take(self, piece: bytes) -> None:
        """Takes a piece of input: all contents that are whole, and then a framing fault."""
        self.frames.rest += piece
        try:
            while not self.is_closed() and (content := self.frames.next()) is not None:
                self.take_content(content)
        except FrameFault as fault:
            self.fault = fault.args[0]
            self.situation = "Closed"

    def take_content(self, content: bytes) -> None:
        """Takes a content, and sends what it causes, if it is a request."""
        request = request_of(content)
        if request is None:
            return
        answer = {"type": "response", "request_seq": request.seq, "command": request.command}
        try:
            body = self.granted(request)
        except Refusal as refusal:
            self.put({**answer, "success": False, "message": refusal.args[0], "body": {}})
            return
        self.put({**answer, "success": True, **({} if body is None else {"body": body})})
        self.follow(request)

    def granted(self, request: Request) -> dict | None:
        """The body of the answer to a request that is granted."""
        arguments = fitted(request)
        self.check_situation(request.command)
        if arguments.get("thread", 1) != 1:
            raise Refusal("unknownThread")
        if request.command in RESUMING + GOING_BACK:
            return {"allThreadsContinued": True} if request.command == "continue" else None
        answer = getattr(self, "answer_" + request.command, None)
        return answer(**{name: value for name, value in arguments.items() if name != "thread"}) if answer else None

    def check_situation(self, command: str) -> None:
        """Refuses what isn't allowed in the situation."""
        if command == "disconnect":
            return
        if self.situation == "Running" and command in RESUMING + GOING_BACK + ASKING:
            raise Refusal("notStopped")
        allowed = {
            "initialize": ("Fresh",),
            "launch": ("Ready",),
            "setBreakpoints": ("Configuring", "Running", "Stopped", "Faulted", "Ended"),
            "configurationDone": ("Configuring",),
            "threads": ("Ready", "Configuring", "Running", "Stopped", "Faulted", "Ended"),
            "pause": ("Running", "Stopped", "Faulted"),
        }
        if self.situation not in allowed.get(command, ("Stopped", "Faulted")):
            raise Refusal("wrongPhase")

    def follow(self, request: Request) -> None:
        """What follows the answer to a request that was granted."""
        if request.command == "disconnect":
            self.situation = "Closed"
        elif request.command == "launch":
            self.situation = "Configuring"
            self.event("initialized")
        elif request.command == "configurationDone":
            self.begin()
        elif request.command in RESUMING:
            self.resume(request.command)
        elif request.command in GOING_BACK:
            self.go(Mode(request.command))

    def begin(self) -> None:
        reason, logs = self.consider(Mode("entry" if self.entry else "continue"))
        self.tell(logs)
        if reason:
            self.stop(reason)
        else:
            self.go(Mode("continue"))

    def resume(self, command: str) -> None:
        """Goes on by a command; after a fault the program ends."""
        if self.situation == "Faulted":
            self.end(1)
        else:
            self.go(Mode(command, self.machine.depth()))

    def go(self, mode: Mode) -> None:
        self.situation = "Running"
        self.mode = mode
        self.waiting_plan = None
        self.waiting_pause = self.is_held = False
        self.slices = 0

    def answer_initialize(self, lines: bool, columns: bool) -> dict:
        self.situation = "Ready"
        self.lines, self.columns = lines, columns
        return CAPABILITIES

    def answer_launch(self, path: str, entry: bool) -> None:
        try:
            with open(os.path.join(self.folder, path), "rb") as file:
                text = file.read()
        except OSError:
            raise Refusal("cannotRead") from None
        try:
            self.program = read_program(text)
        except TextFault as fault:
            raise Refusal("syntax %d %d %d" % (fault.number, *fault.place)) from None
        self.machine = Machine(self.program)
        self.path, self.entry = path, entry

    def answer_threads(self) -> dict:
        return {"threads": [{"id": 1, "name": "main"}]}

    def answer_setBreakpoints(self, path: str | None, asked: list[Asked]) -> dict:
        if path != self.path:
            return {"breakpoints": [{"message": "otherSource", "verified": False} for _ in asked]}
        for one in asked:
            one.line += 0 if self.lines else 1
        found = [resolved(self.program, one) for one in asked]
        plan = [one for one in found if isinstance(one, Breakpoint)]
        self.asked_plans += 1
        if self.situation == "Running":
            self.waiting_plan, self.is_held = plan, not self.mode.goes_back()
        else:
            self.plan, self.plan_number = plan, self.asked_plans
        return {"breakpoints": [self.answered(one) for one in found]}

    def answered(self, one: Breakpoint | str) -> dict:
        if isinstance(one, str):
            return {"message": one, "verified": False}
        return {"line": self.outer_line(one.step), "verified": True}

    def outer_line(self, step: Statement) -> int:
        return step.place[0] - (0 if self.lines else 1)

    def answer_pause(self) -> None:
        if self.situation == "Running":
            self.waiting_pause, self.is_held = True, not self.mode.goes_back()

    def answer_stackTrace(self, start: int, levels: int) -> dict:
        depth = self.machine.depth()
        numbers = list(range(depth - 1, -1, -1))[start:]
        listed = numbers[:levels] if levels else numbers
        return {"stackFrames": [self.frame(number) for number in listed], "totalFrames": depth}

    def frame(self, number: int) -> dict:
        step = self.machine.place(number)
        return {
            "id": number + 1,
            "name": step.block.name,
            "line": self.outer_line(step),
            "column": step.place[1] - (0 if self.columns else 1),
            "source": {"path": self.path},
        }

    def alive(self, number: int, message: str) -> int:
        """The number of a frame from 0, by its id."""
        if not 1 <= number <= self.machine.depth():
            raise Refusal(message)
        return number - 1

    def answer_scopes(self, frame: int) -> dict:
        scopes = []
        number: int | None = self.alive(frame, "unknownFrame")
        while number is not None:
            name = self.machine.frames[number].block.name
            scopes.append({"expensive": False, "name": name, "variablesReference": number + 1})
            number = self.machine.frames[number].link
        return {"scopes": scopes}

    def answer_variables(self, reference: int) -> dict:
        values = self.machine.frames[self.alive(reference, "unknownReference")].values
        listed = [{"name": name, "value": str(value), "variablesReference": 0} for name, value in values.items()]
        return {"variables": listed}

    def answer_evaluate(self, expression: str, frame: int) -> dict:
        number = self.alive(frame, "unknownFrame")
        tree = read_alone(expression, self.machine.frames[number].block, "expression")
        if tree is None:
            raise Refusal("badExpression")
        try:
            return {"result": str(self.machine.value(number, tree)), "variablesReference": 0}
        except RunFault as fault:
            raise Refusal(fault.args[0]) from None

    def consider(self, mode: Mode) -> tuple[str | None, tuple[str, ...]]:
        """Considers the position, and returns why it is due, and what it logs."""
        found = met(self.plan, self.machine)
        logs = tuple(one.log(self.machine) for one in found if one.message is not None)
        return "breakpoint" if stops(found) else mode.reason(self.machine.depth()), logs

    def run(self) -> None:
        """Runs the program to where it stops, and holds it as soon as may be."""
        while self.situation == "Running":
            if self.may_be_held():
                self.give_back()
            else:
                self.slice()

    def may_be_held(self) -> bool:
        """Whether the run can be held now: a pause or breakpoints wait, and it has sent a report."""
        return self.situation == "Running" and self.is_held and self.slices > 0

    def slice(self) -> None:
        """Accepts the report of a slice; a run that goes back reports nothing that is seen before its stop."""
        self.slices += 1
        if self.mode.goes_back():
            return self.go_back()
        numbers: list[int] = []
        for _ in range(SLICE):
            try:
                number = self.machine.step()
            except RunFault as fault:
                return self.report(numbers, "exception", fault.args[0])
            numbers += [] if number is None else [number]
            if self.machine.is_done():
                return self.report(numbers, "end")
            reason, logs = self.consider(self.mode)
            if reason or logs:
                return self.report(numbers, reason, logs=logs)
        return self.report(numbers)

    def go_back(self) -> None:
        position, reason = max(self.machine.position - 1, 0), "step"
        if self.mode.name == "reverseContinue":
            found = last_stop(self.program, self.plan, self.machine.position)
            position, reason = (0, "entry") if found is None else (found, "breakpoint")
        self.machine, self.written = machine_at(self.program, position)
        self.plan = [one.anew() for one in self.plan]
        self.report([], reason)

    def report(self, numbers: list[int], reason: str | None = None, text: str | None = None,
               logs: tuple[str, ...] = ()) -> None:
        for number in numbers:
            self.written += 1
            if self.written > self.numbers_sent:
                self.numbers_sent = self.written
                self.output("stdout", str(number))
        self.tell(logs)
        if reason == "end":
            self.end(0)
        elif reason:
            self.stop(reason, text)
            self.put_plan_in()

    def output(self, category: str, text: str) -> None:
        self.event("output", {"category": category, "output": text + "\n"})

    def tell(self, logs: tuple[str, ...]) -> None:
        for log in logs:
            self.output("console", log)

    def put_plan_in(self) -> None:
        if self.waiting_plan is not None:
            self.plan = [one.anew() for one in self.waiting_plan]
            self.plan_number = self.asked_plans

    def give_back(self) -> None:
        """The runner gives the program back between two slices."""
        self.held.append(self.slices)
        self.put_plan_in()
        if self.waiting_pause:
            self.stop("pause")
        else:
            self.go(self.mode)
