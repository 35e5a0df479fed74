#!/usr/bin/env python3
"""Times debug sessions: the start, the answers at a stop, many requests at once, pauses, the way to the next stop, and
runs under a breakpoint; looks at the memory at a stop; and counts the outputs that come before a pause takes effect.

usage: session.py PROGRAM [SPEED]

One request is sent at a time, over pipes, and its answer waited for, but where many are sent at once. Beside the
program stands `answer.c`, in turn with it, which answers each frame with the same bytes: what the pipes and this script
take. A time is from before the request is written, or the process is started, to after the last message was read that
it causes. Instructions are what `valgrind --tool=callgrind` counts more where a session has more of a request. A run is
timed up to the event `exited`; beside it stand a C interpreter of the same code, and the program `speed` where it is
given. It needs clang, and valgrind for the instructions.
"""
from __future__ import annotations

import dataclasses
import functools
import itertools
import json
import os
import re
import shutil
import statistics
import string
import subprocess
import sys
import tempfile
import threading
import time

sys.path.insert(0, os.path.join(os.path.dirname(os.path.realpath(__file__)), "..", "checks"))
from lib import client as protocol  # noqa: E402
from machine import HERE, interpreter

STARTS = 200
MANY = 200
FEW = 20
RUNS = 5
DEPTH = 1024
VARIABLES = 1024
BREAKPOINTS = 256
KIB = 1024
LIMIT = 64 * KIB
TURNS = 10_000_000
STEPS = 2 * TURNS + 2
FALSE = "x < 0"
# The requests that are sent at once, and how often that many of them.
PIPELINED = (25_000, 100_000)
PIPELINED_TURNS = 5
# How long a program runs before it is paused.
MOMENT = 0.001
# How often a loop prints in each turn, and how long a client that reads slowly rests.
PRINTS = 300
REST = 0.02
# How much is taken from a pipe at once, at most.
PIECE = 1 << 20


class Client(protocol.Client):
    """A client that does nothing but read and write, so that little of what is timed is its own."""

    def __init__(self, command: list[str], folder: str) -> None:
        super().__init__(command, folder, wait=None, stderr=subprocess.DEVNULL)

    def more(self) -> bool:
        """Reads once what is there, and tells whether anything came."""
        piece = os.read(self.child.stdout.fileno(), PIECE)
        self.frames.take(piece)
        return piece != b""

    def content(self) -> bytes:
        """The next content, which must come."""
        content = super().content()
        if content is None:
            sys.exit(f"{self.child.args} ended with status {self.child.wait()}")
        return content

    def put(self, frame: bytes) -> None:
        """Writes all of a frame."""
        while frame:
            frame = frame[os.write(self.child.stdin.fileno(), frame):]

    def ask(self, command: str, arguments: dict) -> bytes:
        """The answer to a request, which must be granted, with each breakpoint."""
        self.put(self.framed(command, arguments))
        answer = self.content()
        if not json.loads(answer)["success"] or b'"verified":false' in answer:
            sys.exit(f"{command}: {answer.decode()}")
        return answer

    def seconds(self, command: str, arguments: dict, messages: int = 1) -> float:
        """The time of a round trip, up to the last of that many messages."""
        frame = self.framed(command, arguments)
        begin = time.perf_counter()
        self.put(frame)
        for _ in range(messages):
            content = self.content()
        taken = time.perf_counter() - begin
        if messages > 1 and b'"event":"stopped"' not in content:
            sys.exit(f"{command}: {content.decode()}")
        return taken

    def launch(self, path: str, on_entry: bool) -> None:
        """Launches a program, up to the event `initialized`."""
        self.ask("initialize", {})
        self.ask("launch", {"program": path, "stopOnEntry": on_entry})
        self.content()

    def run_to(self, event: str) -> None:
        """Lets the program run to this event, before which it sends none."""
        self.ask("configurationDone", {})
        content = self.content()
        if json.loads(content)["event"] != event:
            sys.exit(f"not {event}: {content.decode()}")

    def kibibytes(self, name: str) -> int:
        """How many KiB the process has by one of its counts, such as `VmHWM`."""
        with open(f"/proc/{self.child.pid}/status", encoding="ascii") as file:
            return next(int(line.split()[1]) for line in file if line.startswith(name))

    def end(self) -> None:
        """Ends the input, and waits for the process."""
        self.end_input()
        self.child.stdout.close()
        self.child.wait()


@dataclasses.dataclass
class Stop:
    """A program, the file that has it, and the line of a breakpoint at which it stops; else it stops on entry."""

    path: str
    text: str
    line: int | None = None

    def reach(self, command: list[str], folder: str) -> Client:
        """Starts a session that runs to the stop, and returns its client."""
        with open(os.path.join(folder, self.path), "w", encoding="ascii") as file:
            file.write(self.text)
        client = Client(command, folder)
        client.launch(self.path, self.line is None)
        if self.line is not None:
            client.ask("setBreakpoints", {"source": {"path": self.path}, "breakpoints": [{"line": self.line}]})
        client.run_to("stopped")
        return client


@dataclasses.dataclass
class Question:
    """A question that is asked COUNT times at a stop, with the name of its row."""

    name: str
    stop: Stop
    command: str
    arguments: dict
    count: int


def deep() -> Stop:
    """As many frames as may be: all calls come before the step at which it stops."""
    calls = f"n := n + 1;\nif n < {DEPTH - 1} then call p;\n"
    return Stop("deep.pl0", f"var n;\nprocedure p;\nbegin\n{calls}n := n\nend;\ncall p.\n", 6)


def flat() -> Stop:
    """The same program with one frame."""
    return dataclasses.replace(deep(), line=None)


def wide() -> Stop:
    """As many variables as a block may have."""
    names = ",".join(f"v{n}" for n in range(VARIABLES))
    return Stop("wide.pl0", f"var {names};\nv0 := 1.\n")


def filled(front: str, piece, back: str, size: int) -> str:
    """The front, pieces numbered from 0 and the back, in that many bytes; the rest of these are spaces."""
    text = front
    number = 0
    while len(text) + len(piece(number)) + len(back) <= size:
        text += piece(number)
        number += 1
    return (text + back).ljust(size)


def statements(size: int) -> str:
    """A statement on each line."""
    return filled("var x;\nbegin\n", lambda n: "x := x + 1;\n", "x := 0\nend.\n", size)


def procedures(size: int) -> str:
    """Procedures in a row, of four statements each: at most as many as a block may have names."""
    body = "begin\nx := y;\ny := x;\nx := x + y;\ny := y - x\nend;\n"
    return filled("var x;\n", lambda n: f"procedure p{n};\nvar y;\n{body}", "x := 0.\n", size)


def names(size: int) -> str:
    """Blocks in one another, of as many variables as fit, and a statement on each line of the innermost."""
    digits = string.ascii_lowercase + string.digits
    triples = ("".join(letters) for letters in itertools.product(string.ascii_lowercase, digits, digits))
    spelled = (name for name in triples if name not in ("end", "odd", "var"))
    body = "begin\n" + "x := x;\n" * BREAKPOINTS + "end"
    front, back = "var x;", ".\n"
    while (room := size - len(front + "procedure p;var aaa;" + body + ";" + back)) > 0:
        # A name of the block is that of the procedure in it.
        declared = itertools.islice(spelled, min(VARIABLES - 1, 1 + room // len(",aaa")))
        front += f"procedure p;var {','.join(declared)};"
        back = ";" + back
    return (front + body + back).ljust(size)


def conditions(shape, size: int) -> Question:
    """As many breakpoints as a request may have, each with a condition, all over the text."""
    text = shape(size)
    path = f"{shape.__name__}{size // KIB}.pl0"
    lines = text.count("\n")
    asked = [{"line": 1 + n * lines // BREAKPOINTS, "condition": f"x > {n} * (x + 2)"} for n in range(BREAKPOINTS)]
    name = f"`setBreakpoints`, {BREAKPOINTS} conditions, {size // KIB} KiB of {shape.__name__}"
    return Question(name, Stop(path, text), "setBreakpoints", {"source": {"path": path}, "breakpoints": asked}, FEW)


def paused() -> Stop:
    """A loop without end."""
    return Stop("endless.pl0", "while 1 = 1 do.\n", 1)


def spaced() -> Stop:
    """A breakpoint that is reached each 10,000 steps: one of the outer loop, two assignments, and 9,997 of the inner
    loop."""
    inner = "while x < 4998 do x := x + 1"
    return Stop("spaced.pl0", f"var x;\nwhile 1 = 1 do\nbegin x := 0;\nx := 0;\n{inner} end.\n", 3)


@dataclasses.dataclass
class Journey:
    """A request that leads from a stop to the next one, and what is asked at the stop before it without being timed."""

    name: str
    stop: Stop
    command: str
    before: str | None = None
    breakpoints: bool = True


def journeys() -> list[Journey]:
    """How long it takes from a request to a stop: one row each."""
    return [
        Journey("from `continue` to the stop, 1 step away", paused(), "continue"),
        Journey("from `continue` to the stop, 10,000 steps away", spaced(), "continue"),
        Journey("from `pause` to the stop, while a program loops", paused(), "pause", "continue", breakpoints=False),
    ]


def questions() -> list[Question]:
    """What is asked at a stop: one row each."""
    some = {"threadId": 1, "levels": 20}
    expression = {"expression": "n * (n - 1) + 2", "frameId": DEPTH}
    return [
        Question("`threads`", flat(), "threads", {}, MANY),
        Question("`evaluate`, in the newest of 1,024 frames", deep(), "evaluate", expression, MANY),
        Question("`scopes`, of the newest of 1,024 frames", deep(), "scopes", {"frameId": DEPTH}, MANY),
        Question("`stackTrace`, 20 of 1,024 frames", deep(), "stackTrace", some, MANY),
        Question("`stackTrace`, 1,024 frames", deep(), "stackTrace", {"threadId": 1}, FEW),
        Question("`variables`, 1,024", wide(), "variables", {"variablesReference": 1}, FEW),
        *(conditions(shape, size * KIB) for shape in (statements, procedures, names) for size in (16, 32, 64)),
    ]


def started(command: list[str], folder: str) -> float:
    """The time from a start to the answer of `initialize`."""
    begin = time.perf_counter()
    client = Client(command, folder)
    client.put(client.framed("initialize", {}))
    client.content()
    taken = time.perf_counter() - begin
    client.end()
    return taken


def show(name: str, times: list[float], more: str = "") -> None:
    best, median = min(times), statistics.median(times)
    print(f"{name:66} {len(times):5} {best * 1e6:10.0f} us {median * 1e6:10.0f} us {more}", flush=True)


def show_starts(program: str, answer: str, folder: str) -> None:
    times = {program: [], answer: []}
    for _ in range(STARTS):
        for path, taken in times.items():
            taken.append(started([path], folder))
    show("start to the answer of `initialize`", times[program])
    show("the same of `answer.c`", times[answer])


def instructions(program: str, question: Question, count: int, folder: str) -> int:
    """The instructions of a session that asks a question that many times."""
    log = os.path.join(folder, "log")
    tool = ["valgrind", "--tool=callgrind", "--callgrind-out-file=/dev/null", f"--log-file={log}", program]
    client = question.stop.reach(tool, folder)
    for _ in range(count):
        client.ask(question.command, question.arguments)
    client.end()
    with open(log, encoding="ascii") as file:
        return int(re.search(r"Collected : (\d+)", file.read()).group(1))


def instructions_each(program: str, question: Question, folder: str) -> int:
    """The instructions of an answer."""
    few, more = (instructions(program, question, count, folder) for count in (1, 3))
    return (more - few) // 2


def constant(answer: str, contents: list[bytes], folder: str) -> list[str]:
    """The command that answers each frame with these contents."""
    path = os.path.join(folder, "answered")
    with open(path, "wb") as file:
        file.write(b"".join(map(protocol.frame, contents)))
    return [answer, path]


def show_questions(program: str, answer: str, folder: str) -> None:
    for question in questions():
        client = question.stop.reach([program], folder)
        content = client.ask(question.command, question.arguments)
        other = Client(constant(answer, [content], folder), folder)
        times = [
            [one.seconds(question.command, question.arguments) for one in (client, other)]
            for _ in range(question.count)
        ]
        client.end()
        other.end()
        counted = f"{instructions_each(program, question, folder):,}" if shutil.which("valgrind") else "-"
        show(question.name, [one for one, _ in times], f"{len(content):9,} {counted:>12}")
        show("  by `answer.c`", [one for _, one in times])


def show_journeys(program: str, answer: str, folder: str) -> None:
    thread = {"threadId": 1}
    for journey in journeys():
        client = journey.stop.reach([program], folder)
        if not journey.breakpoints:
            client.ask("setBreakpoints", {"source": {"path": journey.stop.path}, "breakpoints": []})
        last = (b'{"body":{"allThreadsStopped":true,"reason":"breakpoint","threadId":1},'
                b'"event":"stopped","seq":99,"type":"event"}')
        command = journey.command.encode()
        granted = b'{"command":"%s","request_seq":98,"seq":98,"success":true,"type":"response"}' % command
        other = Client(constant(answer, [granted, last], folder), folder)
        times = []
        for _ in range(MANY):
            if journey.before:
                client.ask(journey.before, thread)
                time.sleep(MOMENT)
            times.append([one.seconds(journey.command, thread, messages=2) for one in (client, other)])
        client.end()
        other.end()
        show(journey.name, [one for one, _ in times])
        show("  by `answer.c`", [one for _, one in times])


def pipelined_seconds(command: list[str], count: int, folder: str) -> float:
    """The time of that many requests that are written without waiting, up to the end of the output."""
    client = Client(command, folder)
    client.put(client.framed("initialize", {}))
    client.content()
    whole = b"".join(client.framed("threads", {}) for _ in range(count)) + client.framed("disconnect", {})

    def feed() -> None:
        client.put(whole)
        client.child.stdin.close()

    feeder = threading.Thread(target=feed)
    frames = 0
    begin = time.perf_counter()
    feeder.start()
    while piece := os.read(client.child.stdout.fileno(), PIECE):
        frames += piece.count(b"Content-Length")
    taken = time.perf_counter() - begin
    feeder.join()
    client.child.wait()
    # A header may be cut between two pieces, which is seldom.
    if frames < count * 0.9:
        sys.exit(f"{command}: {frames} frames for {count} requests")
    return taken


def show_pipelined(program: str, answer: str, folder: str) -> None:
    names = {"`threads` at once": program, "`threads` at once, by `answer.c`": answer}
    times = {name: [[] for _ in PIPELINED] for name in names}
    for _ in range(PIPELINED_TURNS):
        for name, word in names.items():
            for number, count in enumerate(PIPELINED):
                times[name][number].append(pipelined_seconds([word], count, folder))
    for name, taken in times.items():
        for count, some in zip(PIPELINED, taken):
            each = statistics.median(some) / count
            show(f"{count:,} {name}", some, f"{each * 1e9:8.0f} ns a request")
        growth = statistics.median(taken[1]) / statistics.median(taken[0])
        print(f"  four times as many take {growth:.2f} times as long, by the medians", flush=True)


def memory(client: Client) -> str:
    return ", ".join(f"{kind} {client.kibibytes(kind):,} KiB" for kind in ("VmRSS", "VmHWM"))


def show_memory(program: str, folder: str) -> None:
    for name, stop in (("1 frame", flat()), (f"{DEPTH:,} frames", deep()), (f"{VARIABLES:,} variables", wide())):
        client = stop.reach([program], folder)
        print(f"a stop with {name}: {memory(client)}")
        client.ask("stackTrace", {"threadId": 1})
        print(f"after `stackTrace` of it: {memory(client)}")
        client.end()


def outputs_until(client: Client, name: str) -> int:
    """How many outputs come before the event of this name, or the response to this command."""
    outputs = 0
    while protocol.name_of(message := json.loads(client.content())) != name:
        outputs += message.get("event") == "output"
    return outputs


def show_outputs(program: str, folder: str) -> None:
    """The most outputs around a pause, and before the answer to `disconnect`, of loops that print, where the client
    rests before."""
    bodies = {"prints at each step": "! 1; " * PRINTS, "prints at each second step": "x := x + 1; ! x",
              "prints at one step of 16": "x := x + 1; " * 15 + "! x"}
    for name, body in bodies.items():
        with open(os.path.join(folder, "prints.pl0"), "w", encoding="ascii") as file:
            file.write(f"var x; while 1 = 1 do begin {body} end.\n")
        client = Client([program], folder)
        client.launch("prints.pl0", False)
        client.ask("configurationDone", {})
        before, between = [], []
        for _ in range(FEW):
            time.sleep(REST)
            client.put(client.framed("pause", {"threadId": 1}))
            before.append(outputs_until(client, "pause"))
            between.append(outputs_until(client, "stopped"))
            client.ask("continue", {"threadId": 1})
        time.sleep(REST)
        client.put(client.framed("disconnect"))
        last = outputs_until(client, "disconnect")
        client.end()
        print(f"a loop that {name}: at most {max(before):,} outputs before the answer to `pause` and "
              f"{max(between):,} between it and the stop, of {FEW} times; "
              f"{last:,} before the answer to `disconnect`, those in the pipe with them")


def loop() -> str:
    """A loop, in front of which stands a procedure that is never called, with as many lines as there may be
    breakpoints."""
    idle = "x := 0;\n" * BREAKPOINTS
    return f"var x;\nprocedure idle;\nbegin\n{idle}end;\nwhile x < {TURNS} do\nx := x + 1.\n"


@dataclasses.dataclass
class Loop:
    """A run of the loop under breakpoints, each a line and a condition, in a text of at least that many bytes."""

    breakpoints: list[tuple[int, str]]
    size: int = 0

    def seconds(self, program: str, folder: str) -> float:
        """How many seconds a run of the loop takes."""
        path = f"loop{self.size}.pl0"
        with open(os.path.join(folder, path), "w", encoding="ascii") as file:
            file.write(loop().ljust(self.size))
        client = Client([program], folder)
        client.launch(path, False)
        asked = [{"line": line, "condition": condition} for line, condition in self.breakpoints]
        client.ask("setBreakpoints", {"source": {"path": path}, "breakpoints": asked})
        begin = time.perf_counter()
        client.run_to("exited")
        taken = time.perf_counter() - begin
        client.end()
        return taken


def command_seconds(command: list[str], folder: str) -> float:
    """The time of a command that says how many steps it took."""
    begin = time.perf_counter()
    said = subprocess.run(command, capture_output=True, text=True, check=True, cwd=folder).stdout
    taken = time.perf_counter() - begin
    if f"after {STEPS} steps" not in said:
        sys.exit(f"{command}: {said}")
    return taken


def elsewhere(condition: str) -> list[tuple[int, str]]:
    return [(4 + number, condition) for number in range(BREAKPOINTS)]


def in_the_loop(condition: str) -> list[tuple[int, str]]:
    return [(BREAKPOINTS + 6, condition)]


def commands(program: str, speed: str | None, folder: str) -> dict[str, list[str]]:
    """What the sessions are compared with."""
    with open(os.path.join(folder, "loop"), "w", encoding="ascii") as file:
        file.write(loop())
    with open(os.path.join(folder, "listing"), "w", encoding="ascii") as file:
        subprocess.run([program, "--check", "loop"], stdout=file, check=True, cwd=folder)
    given = {"interpreter in C": [interpreter(folder), "listing"]}
    if speed:
        given["`speed`, the machine alone"] = [speed, "machine", "loop"]
        given["`speed`, slices, no breakpoint"] = [speed, "slices", "loop"]
        given["`speed`, slices, a false condition"] = [speed, "slices", "loop", str(BREAKPOINTS + 6), "1", FALSE]
    return given


def loops() -> dict[str, Loop]:
    """Under which breakpoints a program runs in a loop, by their names."""
    return {
        "no breakpoint": Loop([]),
        "a false condition in the loop": Loop(in_the_loop(FALSE)),
        "256 breakpoints elsewhere": Loop(elsewhere("")),
        "256 elsewhere, conditions of 1,024 bytes": Loop(elsewhere(FALSE.ljust(KIB))),
        "no breakpoint, a text of 64 KiB": Loop([], LIMIT),
        "a false condition in the loop, a text of 64 KiB": Loop(in_the_loop(FALSE), LIMIT),
    }


def show_runs(program: str, speed: str | None, folder: str) -> None:
    runs = {f"a session, {name}": functools.partial(run.seconds, program, folder) for name, run in loops().items()}
    runs.update({
        name: functools.partial(command_seconds, command, folder)
        for name, command in commands(program, speed, folder).items()
    })
    times = {name: [] for name in runs}
    for _ in range(RUNS):
        for name, run in runs.items():
            times[name].append(run())
    print(f"{f'{STEPS:,} steps, in million steps a second':66} {RUNS:5} {'best':>8} {'median':>8}")
    for name, taken in times.items():
        best, median = STEPS / min(taken) / 1e6, STEPS / statistics.median(taken) / 1e6
        print(f"{name:66} {'':5} {best:8.1f} {median:8.1f}")


def main() -> int:
    program, *speed = map(os.path.abspath, sys.argv[1:])
    print(f"load {os.getloadavg()[0]:.2f}, {os.cpu_count()} processors")
    with tempfile.TemporaryDirectory() as folder:
        answer = os.path.join(folder, "answer")
        subprocess.run(["clang", "-O2", "-o", answer, os.path.join(HERE, "answer.c")], check=True)
        print(f"{'':66} {'times':>5} {'best':>13} {'median':>13} {'bytes':>9} {'instructions':>12}")
        show_starts(program, answer, folder)
        show_questions(program, answer, folder)
        show_journeys(program, answer, folder)
        show_pipelined(program, answer, folder)
        show_runs(program, speed[0] if speed else None, folder)
        show_memory(program, folder)
        show_outputs(program, folder)
    return 0


if __name__ == "__main__":
    sys.exit(main())
