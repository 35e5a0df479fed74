"""The notation of sessions, which `crates/session_tests`, the scripts of this folder and the demo share.

`# NAME` begins a session, and each line `| ..` after it is one of the text of its program, `p.pl0`. Then come:

- `> COMMAND ARGUMENTS`, a request, numbered from 1, or `+ ..`, one that is sent together with what stands before it;
- `4: ok threads/3 ..`, a message in short that must come before more is sent, or `4: {..}`, one as it is;
- `end`, the end of the input once all that stands before it has come; without it the input ends after the last request;
- `// ..`, a remark, which the demo prints.

A message in short is `ok COMMAND/SEQ` with what its body says, `no COMMAND/SEQ REASON` or an event: `stopped REASON`,
`output NUMBER`, `console TEXT` (what a log point says, as JSON has it), `exited STATUS`, `initialized` or `terminated`.
Some lines stand for others, as in session_tests, whose `verbs.rt` lists them. What session_tests says of a session over
memory is passed over here: `S ..` (a report), `! ..` (an order) and `= ..` (how it ended).
"""
from __future__ import annotations

import json
import re
from typing import NamedTuple

from lib.client import frame, name_of, request

CAPABILITIES = {
    "supportsConditionalBreakpoints": True,
    "supportsConfigurationDoneRequest": True,
    "supportsHitConditionalBreakpoints": True,
    "supportsLogPoints": True,
    "supportsStepBack": True,
}
# Lines that stand for others.
LAUNCH = '> initialize\n1: ok initialize/1\n> launch {"program":"p.pl0"%s}\n2: ok launch/2\n3: initialized'
TWO_PROCEDURES = """var n;
procedure p;
var k;
procedure q;
k := k + n;
begin
k := n;
n := n - 1;
if n > 0 then call p;
call q;
! k
end;
begin n := 2; call p end.
"""
VERBS = {
    "two procedures": "\n".join(f"| {line}" for line in TWO_PROCEDURES.split("\n")),
    "launched": LAUNCH % "",
    "entered": LAUNCH % ',"stopOnEntry":true' + "\n> configurationDone\n4: ok configurationDone/3\n5: stopped entry",
    "launched again": '> launch {"program":"dot.pl0"}\n3: ok launch/3\n4: initialized',
    "ended": "end",
}
STARTED = re.compile(r"started (\d+)/(\d+)$")
RESUMED = re.compile(r"(continue|next|stepIn|stepOut|stepBack|reverseContinue) \d+ (\d+)/(\d+)$")
MESSAGE = re.compile(r"\d+: ")
PASSED_OVER = ("S", "!", "=")
# Events that a client can't cause, or contents that it doesn't send by itself; what lets a program run; and what ends
# its run.
UNPLAYABLE = (">>", ">>>", "+>", "R", "F", "read", "no", "refused")
STARTS = re.compile(r"\d+: ok (?:configurationDone|continue|next|stepIn|stepOut|stepBack|reverseContinue)/")
STOPS = re.compile(r"\d+: (?:stopped|terminated|\{.*\"event\":\"(?:stopped|terminated)\")")


class Exchange(NamedTuple):
    """Requests that are sent by one write, the remarks before each, and the contents that must come before more is
    sent."""

    requests: list[bytes]
    remarks: list[list[str]]
    answers: list[bytes]

    def piece(self) -> bytes:
        """The frames of the requests, joined."""
        return b"".join(map(frame, self.requests))


class Session(NamedTuple):
    """A session, the program that it launches, and what is asked and answered in it."""

    name: str
    program: bytes
    exchanges: list[Exchange]
    # Whether the input ends only when all has come.
    waits: bool

    def answers(self) -> list[bytes]:
        """All that must come."""
        return [content for exchange in self.exchanges for content in exchange.answers]


def sessions(text: str, first: int = 1) -> list[Session]:
    """The sessions of a text, with requests that are numbered from `first` on in place of 1."""
    return [session(*part.partition("\n")[::2], first) for part in ("\n" + text).split("\n# ")[1:]]


def of_session_tests(source: str, first: int = 1) -> list[Session]:
    """The sessions of a source of session_tests that a program can be played too: none has events that a client can't
    cause, and in none something is sent while the program runs, which might come sooner or later."""
    texts = re.findall(r'r#"(.*?)"#;', source, re.DOTALL)
    parts = [part.partition("\n")[::2] for text in texts for part in ("\n" + text).split("\n# ")[1:]]
    return [session(name, text, first) for name, text in parts if is_playable(text)]


def is_playable(text: str) -> bool:
    runs = False
    for line in (one for line in text.splitlines() for one in spelled_out(line).splitlines()):
        sign = line.partition(" ")[0]
        is_sent = sign in (">", "+") or line == "end"
        if sign in UNPLAYABLE or line == "S noMemory" or "~" in line or (runs and is_sent):
            return False
        began, is_stop = STARTS.match(line), STOPS.match(line)
        runs = bool(began) or (runs and not is_stop)
    return "end" in text or "= Disconnected" in text


def session(name: str, text: str, first: int = 1) -> Session:
    """The session of these lines."""
    lines = [one for line in text.splitlines() for one in spelled_out(line).splitlines()]
    program = [line[2:] for line in lines if line.startswith("|")]
    exchanges: list[Exchange] = []
    remarks: list[str] = []
    path, seq = "p.pl0", first - 1
    for line in lines:
        sign, _, rest = line.partition(" ")
        if sign in (">", "+"):
            seq += 1
            if sign == ">":
                exchanges.append(Exchange([], [], []))
            path = launched(rest) or path
            exchanges[-1].requests.append(request(seq, *rest.split(" ", 1)))
            exchanges[-1].remarks.append(remarks)
            remarks = []
        elif sign == "//":
            remarks.append(rest)
        elif MESSAGE.match(line):
            exchanges[-1].answers.append(content(line, path, first))
        elif line and line != "end" and sign not in ("|", *PASSED_OVER):
            raise ValueError(f"session {name}: {line}")
    return Session(name, "\n".join(program).encode(), exchanges, "end" in lines)


def spelled_out(line: str) -> str:
    """The lines that a line stands for."""
    started, resumed = STARTED.match(line), RESUMED.match(line)
    if started:
        return f"> configurationDone\n{started[1]}: ok configurationDone/{started[2]}"
    if resumed:
        command, seq, number = resumed.groups()
        return f'> {command} {{"threadId":1}}\n{seq}: ok {command}/{number}'
    return VERBS.get(line, line)


def launched(asked: str) -> str | None:
    """The program that a request launches, if it does."""
    command, _, arguments = asked.partition(" ")
    return json.loads(arguments)["program"] if command == "launch" else None


# From a line to a content


def content(line: str, path: str, first: int = 1) -> bytes:
    """The content of a message in short, in a session with the program of this path, whose requests are numbered from
    `first` on."""
    seq, _, text = line.partition(": ")
    one = json.loads(text) if text.startswith("{") else {**message(text, path), "seq": int(seq)}
    if "request_seq" in one:
        one["request_seq"] += first - 1
    return text.encode() if text.startswith("{") and first == 1 else written(one)


def written(one: dict) -> bytes:
    """A message as the adapter writes it."""
    return json.dumps(one, sort_keys=True, separators=(",", ":"), ensure_ascii=False).encode()


def message(text: str, path: str) -> dict:
    """A message in short without its `seq`."""
    word, _, rest = text.partition(" ")
    if word not in ("ok", "no"):
        return with_body({"type": "event", "event": "output" if word == "console" else word}, event_body(word, rest))
    answered, _, shown = rest.partition(" ")
    command, _, number = answered.partition("/")
    response = {"type": "response", "command": command, "request_seq": int(number), "success": word == "ok"}
    if word == "no":
        return {**response, "body": {}, "message": shown}
    return with_body(response, response_body(command, shown, path))


def with_body(one: dict, body: dict | None) -> dict:
    return one if body is None else {**one, "body": body}


def event_body(event: str, shown: str) -> dict | None:
    if event == "stopped":
        reason, _, text = shown.partition(" ")
        return {"allThreadsStopped": True, "reason": reason, "threadId": 1, **({"text": text} if text else {})}
    if event in ("output", "console"):
        return {"category": "stdout" if event == "output" else "console", "output": json.loads(f'"{shown}\\n"')}
    return {"exitCode": int(shown)} if event == "exited" else None


def response_body(command: str, shown: str, path: str) -> dict | None:
    if command == "setBreakpoints":
        return {"breakpoints": list(map(breakpoint_body, shown.split()))}
    if command == "stackTrace":
        total, _, frames = shown.partition(" frames:")
        return {"stackFrames": [frame_body(one, path) for one in listed(frames)], "totalFrames": int(total)}
    if command == "scopes":
        return {"scopes": [{"name": name, "variablesReference": int(one), "expensive": False}
                           for name, one in pairs(shown)]}
    if command == "variables":
        return {"variables": [{"name": name, "value": value, "variablesReference": 0} for name, value in pairs(shown)]}
    if command == "evaluate":
        return {"result": shown, "variablesReference": 0}
    return {
        "initialize": CAPABILITIES,
        "threads": {"threads": [{"id": 1, "name": "main"}]},
        "continue": {"allThreadsContinued": True},
    }.get(command)


def listed(shown: str) -> list[str]:
    return shown.strip().split(", ") if shown.strip() else []


def pairs(shown: str) -> list[list[str]]:
    return [one.split(" ") for one in listed(shown)]


def breakpoint_body(shown: str) -> dict:
    return {"line": int(shown), "verified": True} if shown.isdigit() else {"message": shown, "verified": False}


def frame_body(shown: str, path: str) -> dict:
    """The body of a frame such as `p 10:1 id 3`."""
    name, place, _, number = shown.split(" ")
    line, column = map(int, place.split(":"))
    return {"id": int(number), "name": name, "line": line, "column": column, "source": {"path": path}}


# From a content to a line


def short(came: bytes) -> str:
    """A message in short."""
    one = json.loads(came)
    return f"{one['seq']}: {shown(one)}"


def shown(one: dict) -> str:
    """A message in short, without its `seq`."""
    said = detail(one.get("body", {}))
    if one["type"] == "event":
        name = "console" if one.get("body", {}).get("category") == "console" else one["event"]
        return f"{name} {said}".strip()
    word = "ok" if one["success"] else "no"
    return f"{word} {one['command']}/{one['request_seq']} {one.get('message', said)}".strip()


def detail(body: dict) -> str:
    """What a body of a response or an event says, in short."""
    if "stackFrames" in body:
        frames = [f"{one['name']} {one['line']}:{one['column']} id {one['id']}" for one in body["stackFrames"]]
        return f"{body['totalFrames']} frames: {', '.join(frames)}".strip()
    if "scopes" in body:
        return ", ".join(f"{one['name']} {one['variablesReference']}" for one in body["scopes"])
    if "variables" in body:
        return ", ".join(f"{one['name']} {one['value']}" for one in body["variables"])
    if "breakpoints" in body:
        return " ".join(str(one.get("line", one.get("message"))) for one in body["breakpoints"])
    if "output" in body:
        text = json.dumps(body["output"], ensure_ascii=False)[1:-1]
        return text[:-2] if text.endswith("\\n") else text
    return " ".join(str(body[name]) for name in ("reason", "text", "exitCode", "result") if name in body)


def said_of(came: bytes | None) -> str:
    """A content in short, or as it is where it is no message of an adapter."""
    if came is None:
        return "nothing"
    try:
        return short(came)
    except (ValueError, KeyError, TypeError):
        return came.decode(errors="replace")


def name_in(came: bytes) -> str | None:
    """The name in a content: of its event, or its command."""
    return name_of(json.loads(came))
