#!/usr/bin/env python3
"""Plays hostile input to the adapter, and compares what comes of it with what docs/PROTOCOL.md says.

usage: hostile.py [--listen] PROGRAM [FROM_ZERO]
       hostile.py --own STACK_ADAPTER

FROM_ZERO is `pl0dap_from_zero`, to which the cases are played as well. Only the `seq` 0 differs there: it is a number
like any other. With --listen the programs serve behind editors/listen.py, which takes all output. STACK_ADAPTER is the
example, to which the cases of frames, contents and ends are played, with programs of its own language.

Each case is played to a process of its own, which is first brought into a situation. What must come stands beside each
case, as the page has it. Then the next request follows, `threads`, and after it `disconnect`: both have to be answered,
but after a framing fault, after a `disconnect`, and where a header says that more is to come. At last the input ends,
and the process has to end with the status and the last line on standard error that the page names. The `seq` of all
messages have to run from 1.

Other clients ask one request at a time of a process whose output is full or closed, and keep its input open. The page
says at which request the reason has to stand on standard error, and that the next one ends the process. And the deepest
content is played to a process with the stack that the page names, and with a large environment, which takes a part of
it. Prints a line for each case that differs and one for all, and ends with status 1 where one differs.
"""
from __future__ import annotations

import argparse
import os
import resource
import sys
import tempfile
import time
from collections.abc import Callable
from typing import NamedTuple

from lib import client
from lib.client import LISTEN, Client, frame, listened, put_files
from lib.notation import said_of

sys.path.append(os.path.dirname(LISTEN))
import listen  # noqa: E402

FRESH, READY, CONFIGURING, RUNNING, PRINTING, STOPPED, FAULTED, ENDED = (
    "fresh", "ready", "configuring", "running", "printing", "stopped", "faulted", "ended",
)
# What comes after a case: the next request is answered; it is taken for a part of what was announced; the session is
# closed; or the input ends at once. After a framing fault, it is the fault's number.
HEARD, DEAF, CLOSED, END, NO_OUTPUT = "heard", "deaf", "closed", "end", "no output"

FILES = {
    "loop.pl0": b"while 1 = 1 do.",
    "prints.pl0": b"while 1 = 1 do ! 1.",
    "stop.pl0": b"var x;\nbegin\n  x := 2;\n  ! x\nend.\n",
    "fault.pl0": b"! 1 / 0.",
    "end.pl0": b".",
    "empty.pl0": b"",
    "zeros.pl0": bytes(100),
    "bytes.pl0": bytes(range(255, 127, -1)),
    "longest.pl0": b" " * 65535 + b".",
    "too_long.pl0": b" " * 65536 + b".",
}
# What is played to the stack language: the programs of the same names, the cases, and how it names the framing faults.
STACK_FILES = {"loop.pl0": b"jump 1", "prints.pl0": b"push 1\nprint\njump 1"}
STACK_TOPICS = ("headers", "contents", "cuts", "ends")
FRAMING = ("HeaderTooLong", "BadField", "NoLength", "TwoLengths", "BadLength", "TooLarge")
LAUNCHES = {
    CONFIGURING: '{"program":"stop.pl0"}',
    RUNNING: '{"program":"loop.pl0"}',
    PRINTING: '{"program":"prints.pl0"}',
    STOPPED: '{"program":"stop.pl0","stopOnEntry":true}',
    FAULTED: '{"program":"fault.pl0"}',
    ENDED: '{"program":"end.pl0"}',
}
ARRIVALS = {
    RUNNING: [],
    PRINTING: [],
    STOPPED: ["stopped entry"],
    FAULTED: ["stopped exception divideByZero"],
    ENDED: ["exited 0", "terminated"],
}


class Case(NamedTuple):
    """Input in a situation, as the pieces that are written one by one, and what must come of it."""

    name: str
    situation: str
    pieces: list[bytes]
    answers: list[str]
    after: str | int


def content(seq: object, command: str, arguments: str = "") -> bytes:
    return client.request(seq, command, arguments)


def request(seq: object, command: str, arguments: str = "") -> bytes:
    return frame(content(seq, command, arguments))


ASKED = content(10, "threads")  # 47 bytes
TOO_LONG = "x" * 1025


def headed(header: bytes) -> bytes:
    return header + b"\r\n\r\n" + ASKED


def fault(name: str, number: int, header: bytes) -> Case:
    """A request behind a header with a framing fault."""
    return Case(name, READY, [headed(header)], [], number)


def silent(name: str, *contents: bytes) -> Case:
    """Contents that are passed over."""
    return Case(name, READY, [frame(one) for one in contents], [], HEARD)


def asks(name: str, situation: str, *asked: tuple[str, str, str]) -> Case:
    """Requests, each with its command, its arguments and what its answer says, counted from 10."""
    numbered = list(enumerate(asked, 10))
    pieces = [request(seq, command, arguments) for seq, (command, arguments, _) in numbered]
    return Case(name, situation, pieces, [answer(seq, command, said) for seq, (command, _, said) in numbered], HEARD)


def answer(seq: int, command: str, said: str) -> str:
    """An answer in short: granted, where what it says begins with `ok`, and else refused with that message."""
    word, _, text = said.partition(" ") if said.startswith("ok") else ("no", "", said)
    return f"{word} {command}/{seq} {text}".strip()


def all_ask(name: str, situation: str, command: str, said: str, *arguments: str) -> Case:
    """The same command with these arguments, each with the same answer."""
    return asks(name, situation, *((command, one, said) for one in arguments))


def source(breakpoints: str, place: str = '{"path":"stop.pl0"}') -> str:
    return f'{{"source":{place},"breakpoints":{breakpoints}}}'


def line(member: str) -> str:
    """The arguments for a breakpoint at line 3 with one more member."""
    return source(f'[{{"line":3,{member}}}]')


def expression(text: str) -> str:
    return f'{{"expression":"{text}"}}'


def many_lines(count: int) -> str:
    return "[" + ",".join(['{"line":3}'] * count) + "]"


def nested(levels: int) -> bytes:
    """A request that is nested so deep."""
    return b'{"seq":10,"type":"request","command":"threads","x":%s%s}' % (b"[" * (levels - 1), b"]" * (levels - 1))


THREAD, OTHER_THREAD = '{"threadId":1}', '{"threadId":2}'
RESUMING = ("continue", "next", "stepIn", "stepOut", "stepBack", "reverseContinue")
# Commands with arguments that fit, but for `initialize` and `disconnect`.
FITTING = [
    ("launch", '{"program":"stop.pl0"}'), ("setBreakpoints", source("[]")), ("configurationDone", ""), ("threads", ""),
    *((command, THREAD) for command in RESUMING), ("pause", THREAD), ("stackTrace", THREAD),
    ("scopes", '{"frameId":1}'), ("variables", '{"variablesReference":1}'), ("evaluate", '{"expression":"x"}'),
]

HEADERS = [
    fault("a length's name in lower case", 3, b"content-length: 47"),
    fault("a length twice", 4, b"Content-Length: 47\r\nContent-Length: 47"),
    fault("a second length that is no number", 4, b"Content-Length: 47\r\nContent-Length: many"),
    fault("a length that is no number, before another", 5, b"Content-Length: many\r\nContent-Length: 47"),
    fault("no blank before a length", 2, b"Content-Length:47"),
    fault("two blanks before a length", 5, b"Content-Length:  47"),
    fault("a blank after a length", 5, b"Content-Length: 47 "),
    fault("a length with a leading zero", 5, b"Content-Length: 047"),
    fault("a length with a sign", 5, b"Content-Length: +47"),
    fault("a length without digits", 5, b"Content-Length: "),
    fault("a length of eight digits", 5, b"Content-Length: 10485760"),
    fault("a length of 1,048,577", 6, b"Content-Length: 1048577"),
    fault("a blank in a field's name", 2, b"Content-Length: 47\r\nContent Type: x"),
    fault("a field without a name", 2, b"Content-Length: 47\r\n: x"),
    fault("a byte above 0x7E in a field's value", 2, b"Content-Length: 47\r\nX: \xc3\xa9"),
    fault("a CR before CR LF", 2, b"Content-Length: 47\r"),
    fault("only an empty line", 3, b""),
    fault("a header of 1,025 bytes", 1, b"Content-Length: 47\r\nX: " + b"a" * 998),
    fault("a faulty line that ends after 1,024 bytes", 1, b"Content-Length: 47\r\n" + b"faulty " * 200),
    # (the next request's header ends the line)
    Case("lines that end with LF alone", READY, [b"Content-Length: 47\n\n" + ASKED], [], 2),
    Case("a length of one byte too few", READY, [headed(b"Content-Length: 46")], [], 2),
    Case("1,024 bytes and no line", READY, [b"a" * 1024], [], 1),
    Case("a length of more bytes than there are", READY, [headed(b"Content-Length: 1000")], [], DEAF),
    Case("a header of 1,024 bytes", READY, [headed(b"Content-Length: 47\r\nX: " + b"a" * 997)], ["ok threads/10"],
         HEARD),
    Case("other fields", READY, [headed(b"Content-Type: x; y=z\r\nContent-Length: 47\r\nX-1: ")], ["ok threads/10"],
         HEARD),
]

CONTENTS = [
    silent("contents that are no JSON", b"", b"{", b'{"seq":10,}', b"threads", ASKED + ASKED, ASKED + b"//",
           ASKED[:-1]),
    silent("contents that are no texts", bytes(47), b"\xff" * 47, b"\xef\xbb\xbf" + ASKED,
           ASKED[:-1] + b',"x":"\xe9"}'),
    silent("contents that are no objects", b"[%s]" % ASKED, b'"threads"', b"10", b"null", b"true", b"[]"),
    silent("half of a surrogate pair", ASKED[:-1] + b',"x":"\\ud800"}'),
    silent("1,048,576 opening brackets", b"[" * 1048576),
    silent("128 levels", nested(128)),
    Case("127 levels", READY, [frame(nested(127))], ["ok threads/10"], HEARD),
    Case("equal keys, of which the last counts", READY, [frame(b'{"seq":9,"type":"event","command":"no",' + ASKED[1:])],
         ["ok threads/10"], HEARD),
    silent("equal keys, of which the last is wrong", ASKED[:-1] + b',"type":"event"}', ASKED[:-1] + b',"seq":null}'),
    Case("escapes in names and texts", READY,
         [frame(b'{"\\u0073eq":10,"type":"reques\\u0074","command":"thre\\u0061ds"}')], ["ok threads/10"], HEARD),
]

NO_SEQS = ("-1", "-0", "1.0", "1e1", '"10"', "null", "true", "[10]", 2**53, 10**400)

TYPES = [
    silent("a `seq` that is no number from 1 on", *(content(seq, "threads") for seq in ("0", *NO_SEQS))),
    silent("another type than `request`", b'{"seq":10,"command":"threads"}', *(
        b'{"seq":10,"type":%s,"command":"threads"}' % kind
        for kind in (b'"event"', b'"response"', b'"Request"', b"1", b"null"))),
    silent("a command that is no text of printable characters", b'{"seq":10,"type":"request"}', *(
        b'{"seq":10,"type":"request","command":%s}' % name
        for name in (b'""', b"1", b"null", b'["threads"]', b'"a\\n"', b'"\xc3\xa9"'))),
    all_ask("arguments that are no object", READY, "launch", "badArguments", "null", "[]", '"stop.pl0"', "1", "true",
            "{}"),
    all_ask("arguments that are ignored", READY, "threads", "ok", "null", "[]", '"x"', "1", '{"threadId":9}'),
    all_ask("members of `launch` of other types", READY, "launch", "badArguments", '{"program":1}',
            '{"program":null}', *(
        f'{{"program":"stop.pl0",{one}}}'
        for one in ('"stopOnEntry":1', '"stopOnEntry":"true"', '"stopOnEntry":null', '"noDebug":null',
                    '"noDebug":true'))),
    all_ask("sources and breakpoints of other types", CONFIGURING, "setBreakpoints", "badArguments", "{}",
            source("[]", "null"), source("[]", '"stop.pl0"'), source("[]", "[]"), source("[]", '{"path":1}'),
            source("[]", '{"path":null}'), source("null"), source("1"), source("true"), source("{}"),
            source("[3]"), source("[null]"), source("[{}]")),
    all_ask("members of a breakpoint of other types", CONFIGURING, "setBreakpoints", "badArguments", *(
        source(f'[{{"line":{one}}}]') for one in ('"3"', "null", "-1", "3.0", "3.5", "[3]", 2**31)), *(
        line(one)
        for one in ('"condition":null', '"condition":1', '"hitCondition":3', '"logMessage":null',
                    '"logMessage":["x"]'))),
    asks("numbers of other types", STOPPED, *(
        ("stackTrace", one, "badArguments") for one in (
            "{}", '{"threadId":null}', '{"threadId":"1"}', '{"threadId":1.0}', '{"threadId":-1}', '{"threadId":true}',
            '{"threadId":1,"levels":-1}', '{"threadId":1,"startFrame":0.5}', '{"threadId":1,"levels":null}')),
        ("scopes", '{"frameId":"1"}', "badArguments"), ("variables", '{"variablesReference":[1]}', "badArguments"),
        ("evaluate", '{"expression":1}', "badArguments"),
        ("evaluate", '{"expression":"x","frameId":null}', "badArguments")),
]

IDS = [
    Case("the largest `seq`", READY, [request(2**53 - 1, "threads")], ["ok threads/9007199254740991"], HEARD),
    Case("one `seq` many times, and smaller ones after it", READY,
         [request(seq, "threads") for seq in (10, 10, 10, 1, 2, 1)],
         [f"ok threads/{seq}" for seq in (10, 10, 10, 1, 2, 1)], HEARD),
    asks("threads that aren't there", STOPPED, *(
        (command, arguments, "unknownThread")
        for command in (*RESUMING, "pause", "stackTrace") for arguments in ('{"threadId":0}', OTHER_THREAD)),
        ("pause", f'{{"threadId":{2**53 - 1}}}', "unknownThread"),
        ("pause", f'{{"threadId":{2**53}}}', "badArguments")),
    asks("frames that aren't there", STOPPED, *(
        ("scopes", f'{{"frameId":{one}}}', "unknownFrame") for one in (0, 2, 2**53 - 1)), *(
        ("evaluate", f'{{"expression":"x +","frameId":{one}}}', "unknownFrame") for one in (0, 2, 2**53 - 1)),
        ("scopes", f'{{"frameId":{2**53}}}', "badArguments")),
    asks("references that aren't there", STOPPED, *(
        ("variables", f'{{"variablesReference":{one}}}', "unknownReference") for one in (0, 2, 1024, 2**53 - 1))),
]

SIZES = [
    Case("a content of 1,048,576 bytes", READY, [frame(ASKED + b" " * (1048576 - 47))], ["ok threads/10"], HEARD),
    Case("commands of 64 and 65 characters", READY, [request(10, "a" * 64), request(11, "a" * 65)],
         ["no " + "a" * 64 + "/10 unsupported"], HEARD),
    asks("paths", READY, *(
        ("launch", f'{{"program":"{one}"}}', said) for one, said in (
            ("a" * 255, "cannotRead"), ("a" * 256, "badArguments"), ("", "badArguments"), ("\\u0000", "badArguments"),
            ("stop.pl0\\u0000", "badArguments"), ("\u00e9", "badArguments"), (".", "cannotRead"),
            ("stop.pl0/x", "cannotRead")))),
    asks("256 and 257 breakpoints", CONFIGURING,
         ("setBreakpoints", source(many_lines(256)), "ok " + " ".join(["3"] * 256)),
         ("setBreakpoints", source(many_lines(257)), "badArguments")),
    asks("lines at both ends", CONFIGURING, ("setBreakpoints", source('[{"line":0},{"line":5}]'), "ok 3 5"),
         ("setBreakpoints", source(f'[{{"line":6}},{{"line":{2**31 - 1}}}]'), "ok noStep noStep")),
    asks("texts of 1,024 bytes and more", STOPPED, *(
        ("evaluate", expression(one), said) for one, said in (
            ("x" + " " * 1023, "ok 0"), ("x" + " " * 1024, "badArguments"), ("\u00e9" * 512, "badExpression"),
            ("\u00e9" * 513, "badArguments"))), *(
        ("setBreakpoints", line(f'"{member}":"{TOO_LONG}"'), "badArguments")
        for member in ("condition", "hitCondition", "logMessage"))),
    asks("64 levels of parentheses and one more", STOPPED, ("evaluate", expression("(" * 64 + "x" + ")" * 64), "ok 0"),
         ("evaluate", expression("(" * 65 + "x" + ")" * 65), "badExpression"),
         ("setBreakpoints", line('"condition":"' + "(" * 65 + "x" + ")" * 65 + ' = 0"'), "ok badCondition")),
    all_ask("hit conditions that are none", CONFIGURING, "setBreakpoints", "ok badHitCondition", *(
        line(f'"hitCondition":"{one}"')
        for one in ("0", "%0", "03", "-1", " 3", "%", "3%", "%%3", "1e1", 2**31, 10**300))),
    asks("log messages with many expressions and braces", CONFIGURING, *(
        ("setBreakpoints", line(f'"logMessage":"{one}"'), said) for one, said in (
            ("{x}" * 8, "ok 3"), ("{x}" * 9, "ok badLogMessage"), ("{x", "ok badLogMessage"),
            ("{{x}}", "ok badLogMessage"),
            ("{}", "ok badLogMessage"), ("}" * 1024, "ok 3"), ("{" * 1024, "ok badLogMessage")))),
    Case("program texts of 65,536 bytes and one more", READY, [
        request(10, "launch", '{"program":"too_long.pl0"}'), request(11, "launch", '{"program":"longest.pl0"}')],
        ["no launch/10 syntax 1 1 1", "ok launch/11", "initialized"], HEARD),
    asks("program texts that are none, and what is no regular file", READY,
         ("launch", '{"program":"empty.pl0"}', "syntax 6 1 1"),
         ("launch", '{"program":"zeros.pl0"}', "syntax 3 1 1"), ("launch", '{"program":"bytes.pl0"}', "syntax 2 1 1"),
         ("launch", '{"program":"/dev/zero"}', "cannotRead")),
]

PHASES = [
    asks("all too early", FRESH, *((*one, "wrongPhase") for one in FITTING), ("attach", "", "unsupported")),
    asks("all before a launch", READY, ("initialize", "", "wrongPhase"), *(
        (*one, "ok" if one[0] == "threads" else "wrongPhase") for one in FITTING if one[0] != "launch")),
    asks("what comes once, again", STOPPED, ("initialize", "", "wrongPhase"), FITTING[0] + ("wrongPhase",),
         ("configurationDone", "", "wrongPhase")),
    asks("all in a run", RUNNING, *((command, THREAD, "notStopped") for command in (*RESUMING, "stackTrace")),
         *((command, OTHER_THREAD, "notStopped") for command in (*RESUMING, "stackTrace")),
         ("pause", OTHER_THREAD, "unknownThread"), ("initialize", "", "wrongPhase"),
         ("scopes", '{"frameId":9}', "notStopped"), ("variables", '{"variablesReference":9}', "notStopped"),
         ("evaluate", expression("("), "notStopped"), ("launch", '{"program":"stop.pl0"}', "wrongPhase")),
    Case("a pause and a step after a fault", FAULTED, [request(10, "pause", THREAD) + request(11, "stepIn", THREAD)],
         ["ok pause/10", "ok stepIn/11", "exited 1", "terminated"], HEARD),
    asks("all after the end", ENDED, *(
        (*one, "ok" if one[0] in ("threads", "setBreakpoints") else "wrongPhase") for one in FITTING)),
    asks("two reasons to refuse, of which the first counts", FRESH, ("attach", "1", "unsupported"),
         ("launch", "{}", "badArguments"), ("pause", OTHER_THREAD, "wrongPhase"), ("scopes", "{}", "badArguments"),
         ("evaluate", expression("("), "wrongPhase")),
]

ACCENT = request(10, "threads", '"\u00e9"')
MANY = b"".join(request(seq, "threads") for seq in range(10, 310))
CUTS = [
    Case("a request byte by byte", READY, [ACCENT[at:at + 1] for at in range(len(ACCENT))], ["ok threads/10"], HEARD),
    Case("300 requests by one write", READY, [MANY], [f"ok threads/{seq}" for seq in range(10, 310)], HEARD),
    Case("a fault between two requests of one write", READY,
         [request(10, "threads") + b"\r\n" + request(11, "threads")],
         ["ok threads/10"], 3),
]

ENDS = [
    Case("the end within a header", READY, [b"Content-Length: 4"], [], END),
    Case("the end within a content", READY, [request(10, "threads")[:-1]], [], END),
    Case("the end in a run", RUNNING, [], [], END),
    Case("a framing fault in a run", RUNNING, [b"\r\n\r\n"], [], 3),
    Case("a disconnect, and more by the same write", RUNNING,
         [request(10, "disconnect") + request(11, "disconnect") + b"\r\n"],
         ["ok disconnect/10"], CLOSED),
    Case("nobody takes the output", RUNNING, [request(10, "threads")], [], NO_OUTPUT),
]

CASES = {
    "headers": HEADERS, "contents": CONTENTS, "types": TYPES, "ids": IDS,
    "sizes": SIZES, "phases": PHASES, "cuts": CUTS, "ends": ENDS,
}


class Differs(Exception):
    """Something else came than what must come."""


class Play:
    """A process that is played to, and how many of its messages came."""

    def __init__(self, program: str, folder: str, adapter: Callable[[str, str], Client] = Client):
        self.adapter = adapter(program, folder)
        self.count = 0

    def want(self, answers: list[str]) -> None:
        for wanted in answers:
            self.count += 1
            came = said_of(self.adapter.content())
            if came != f"{self.count}: {wanted}":
                raise Differs(f"`{self.count}: {wanted}` must come, and not `{came}`")

    def ask(self, piece: bytes, *answers: str) -> None:
        self.adapter.write(piece)
        self.want(list(answers))

    def enter(self, situation: str) -> None:
        """Brings the process into a situation."""
        if situation != FRESH:
            self.ask(request(1, "initialize"), "ok initialize/1")
        if situation in LAUNCHES:
            self.ask(request(2, "launch", LAUNCHES[situation]), "ok launch/2", "initialized")
        if situation in ARRIVALS:
            self.ask(request(3, "configurationDone"), "ok configurationDone/3", *ARRIVALS[situation])

    def follow(self, situation: str, is_heard: bool) -> None:
        """Sends the next request, and `disconnect` after it."""
        threads = "no threads/98 wrongPhase" if situation == FRESH else "ok threads/98"
        self.ask(request(98, "threads"), *[threads] * is_heard)
        self.ask(request(99, "disconnect"), *["ok disconnect/99"] * is_heard)

    def close_output(self) -> None:
        """Goes on as a client that takes no output, but sees the end of the process."""
        read, write = os.pipe()
        os.close(write)
        os.dup2(read, self.adapter.child.stdout.fileno())
        os.close(read)

    def end(self, wanted: tuple[int, str]) -> None:
        left, *came = self.adapter.end()
        if left or tuple(came) != wanted:
            raise Differs(f"nothing and {wanted} must come at the end, and not {left!r} and {tuple(came)}")


def stack_ending(after: str | int) -> tuple[int, str]:
    """The status and the last line on standard error of the stack language's adapter."""
    if after == NO_OUTPUT:
        return 1, "stack_adapter: Serve(Output)"
    return (2, f"stack_adapter: Serve(Framing({FRAMING[after - 1]}))") if isinstance(after, int) else (0, "")


def ending(after: str | int) -> tuple[int, str]:
    """The status and the last line on standard error."""
    if after == NO_OUTPUT:
        return 1, "pl0dap: write failed"
    return (2, f"pl0dap: frame {after}") if isinstance(after, int) else (0, "")


class Listened(Client):
    """A process behind listen.py, of which what that changes is put back."""

    def __init__(self, program: str, folder: str):
        super().__init__(listened(program), folder, env={**os.environ, "PATH": os.defpath})

    def content(self) -> bytes | None:
        content = super().content()
        if content and b'"seq":0,' in content:
            return self.content()
        for code, words in listen.REFUSALS.items():
            content = content and content.replace(words.encode(), code.encode())
        return content


def difference(
    program: str, case: Case, adapter: Callable[[str, str], Client] = Client, is_own: bool = False,
) -> str | None:
    """Plays a case, and says how what comes differs from what must come, or nothing."""
    with tempfile.TemporaryDirectory() as folder:
        put_files(folder, STACK_FILES if is_own else FILES)
        play, found = Play(program, folder, adapter), None
        try:
            play.enter(case.situation)
            if case.after == NO_OUTPUT:
                play.close_output()
            for piece in case.pieces:
                play.adapter.write(piece)
            play.want(case.answers)
            if case.after != END:
                play.follow(case.situation, case.after == HEARD)
            play.end(stack_ending(case.after) if is_own else ending(case.after))
        except Differs as differs:
            found = str(differs)
        play.adapter.child.kill()
        play.adapter.child.wait()
    return found


# ---- The stack

STACK, ENVIRONMENT = 256, 20000  # in KiB, and in bytes
DEEPEST = Case("the deepest content, with little stack", READY,
               [request(10, "threads", '{"a":' * 126 + "1" + "}" * 126)], ["ok threads/10"], HEARD)


def with_little_stack(program: str, folder: str) -> Client:
    """A process with this stack, and a large environment."""

    def limit() -> None:
        resource.setrlimit(resource.RLIMIT_STACK, (STACK * 1024, STACK * 1024))

    return Client(program, folder, env={**os.environ, "LARGE": "x" * ENVIRONMENT}, preexec_fn=limit)


# ---- Outputs that nobody takes any more, and a client that asks one request at a time

CLOSED_OUTPUT, FULL_OUTPUT, NO_ROOM = "closed", "full", "full from the start"
# How soon the reason has to stand on standard error, and the process has to end, in seconds.
SOON = 20.0


class Filed(Client):
    """A process whose output is a file, which has room until it is full. Its signal for that is ignored, as a shell may
    do."""

    def __init__(self, program: str, folder: str):
        path = os.path.join(folder, "output")
        with open(path, "wb") as output:
            super().__init__(program, folder, stdout=output, restore_signals=False)
        self.child.stdout = open(path, "rb", buffering=0)

    def more(self) -> bool:
        until = time.monotonic() + client.WAIT
        while not (piece := os.read(self.child.stdout.fileno(), client.READ)) and time.monotonic() < until:
            time.sleep(0.001)
        self.frames.take(piece)
        return piece != b""


def without_room(program: str, folder: str) -> Client:
    """A process whose output has no room for anything."""
    with open("/dev/full", "wb") as output:
        return Client(program, folder, stdout=output)


class Mute(NamedTuple):
    """An output that takes no more, in a situation, and how many requests it takes until the reason is told."""

    situation: str
    output: str
    requests: int


MUTE = [Mute(FRESH, NO_ROOM, 2)] + [
    Mute(situation, output, requests)
    for output in (CLOSED_OUTPUT, FULL_OUTPUT) for situation, requests in ((STOPPED, 2), (RUNNING, 2), (PRINTING, 0))]


class Watched(Play):
    """A process that is played to, of which is seen how many threads it has, and what stands on standard error."""

    def threads(self) -> int:
        return len(os.listdir(f"/proc/{self.adapter.child.pid}/task"))

    def said(self) -> bytes:
        return os.pread(self.adapter.notes.fileno(), 4096, 0)

    def has_told(self) -> bool:
        return self.said().endswith(b"pl0dap: write failed\n")

    def has_ended(self) -> bool:
        return self.adapter.child.poll() is not None

    def fill(self, output: str) -> None:
        """Goes on with an output that takes no more."""
        if output == CLOSED_OUTPUT:
            self.close_output()
        if output == FULL_OUTPUT:
            size = os.fstat(self.adapter.child.stdout.fileno()).st_size
            resource.prlimit(self.adapter.child.pid, resource.RLIMIT_FSIZE, (size, size))

    def put(self, piece: bytes) -> None:
        """Writes a piece, whatever comes."""
        os.write(self.adapter.child.stdin.fileno(), piece)

    def must(self, what: str, holds: Callable[[], bool]) -> None:
        """Waits until this holds, which must be soon."""
        until = time.monotonic() + SOON
        while not holds():
            if time.monotonic() > until:
                raise Differs(f"{what}, with {self.threads()} threads and {self.said()!r}")
            time.sleep(0.005)


def play_mute(play: Watched, case: Mute) -> None:
    """Plays a case. Two of the four threads end: the writer where a write fails, the reader at its next read."""
    play.enter(case.situation)
    play.must("four threads must run", lambda: play.threads() == 4)
    play.fill(case.output)
    for seq in range(10, 10 + case.requests):
        if play.said():
            raise Differs(f"nothing must be told before request {seq}, and not {play.said()!r}")
        play.put(request(seq, "threads"))
        play.must(f"a thread must end after request {seq}", lambda: play.threads() < 4)
    play.must(f"the reason must be told after {case.requests} requests", play.has_told)
    if play.has_ended():
        raise Differs("the reader must wait")
    play.put(request(98, "threads"))
    play.must("it must end at the request after that", play.has_ended)
    if (status := play.adapter.child.wait()) != 1:
        raise Differs(f"status 1 must come at the end, and not {status}")


def mute_difference(program: str, case: Mute) -> str | None:
    """Plays a case, and says how what comes differs from what must come, or nothing."""
    adapter = {CLOSED_OUTPUT: Client, FULL_OUTPUT: Filed, NO_ROOM: without_room}[case.output]
    with tempfile.TemporaryDirectory() as folder:
        put_files(folder, FILES)
        play, found = Watched(program, folder, adapter), None
        try:
            play_mute(play, case)
        except Differs as differs:
            found = str(differs)
        play.adapter.child.kill()
        play.adapter.child.wait()
    return found


# What a client that counts from 0 sees in place of the cases of these names.
FROM_ZERO = {
    "a `seq` that is no number from 1 on": Case(
        "a `seq` that is no number from 0 on", READY, [request(seq, "threads") for seq in (0, *NO_SEQS)],
        ["ok threads/0"], HEARD),
}


def differing_between(program: str, instead: dict[str, Case]) -> int:
    """How many cases differ behind listen.py, but of paths, which that makes whole, of the stack, and of outputs that
    nobody takes. Prints them."""
    cases = [instead.get(case.name, case) for topic in CASES.values() for case in topic
             if case.after != NO_OUTPUT and case.name != "paths"]
    found = [f"{case.name}: {differs}" for case in cases if (differs := difference(program, case, Listened))]
    name = os.path.basename(program)
    print("\n".join([*found, f"{name} behind listen.py, {len(cases)} hostile cases: {len(found)} differ"]), flush=True)
    return len(found)


def differing_own(program: str) -> int:
    """How many cases differ of the stack language's adapter. Prints them."""
    cases = [case for topic in STACK_TOPICS for case in CASES[topic]]
    found = [f"{case.name}: {differs}" for case in cases if (differs := difference(program, case, is_own=True))]
    print("\n".join([*found, f"{os.path.basename(program)}, {len(cases)} hostile cases: {len(found)} differ"]), flush=True)
    return len(found)


def differing(program: str, instead: dict[str, Case]) -> int:
    """How many cases differ, of which some are played instead of those of these names. Prints them."""
    wrong = 0
    if found := difference(program, DEEPEST, with_little_stack):
        wrong += 1
        print(f"the stack, {STACK} KiB, {DEEPEST.name}: {found}", flush=True)
    for topic, cases in CASES.items():
        for case in (instead.get(case.name, case) for case in cases):
            found = difference(program, case)
            wrong += found is not None
            if found is not None:
                print(f"{topic}, {case.name}: {found}", flush=True)
    for case in MUTE:
        found = mute_difference(program, case)
        wrong += found is not None
        if found is not None:
            print(f"outputs, {case.output}, {case.situation}: {found}", flush=True)
    sizes = {topic: len(cases) for topic, cases in CASES.items()} | {"outputs": len(MUTE), "the stack": 1}
    counts = ", ".join(f"{size} of {topic}" for topic, size in sizes.items())
    name = os.path.basename(program)
    print(f"{name}, {sum(sizes.values())} hostile cases ({counts}): {wrong} differ from docs/PROTOCOL.md", flush=True)
    return wrong


def main() -> int:
    parser = argparse.ArgumentParser(usage=__doc__.split("\n\n")[1].replace("usage: ", "", 1))
    parser.add_argument("--listen", action="store_true")
    parser.add_argument("--own", action="store_true")
    parser.add_argument("program", type=os.path.abspath)
    parser.add_argument("from_zero", type=os.path.abspath, nargs="?")
    given = parser.parse_args()
    wrong = 0
    for program, instead in ((given.program, {}), (given.from_zero, FROM_ZERO)):
        if program and given.own:
            wrong += differing_own(program)
        elif program and given.listen:
            wrong += differing_between(program, instead)
        elif program:
            wrong += differing(program, instead)
    return 1 if wrong else 0


if __name__ == "__main__":
    sys.exit(main())
