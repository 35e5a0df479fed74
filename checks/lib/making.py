"""Makes random sessions: programs with and without mistakes, and pieces of input that are mostly timely.

A session is made beside a model of the adapter, so that what is asked fits the situation more often than not. In a
session that crosses, requests are sent while the program runs too; in another one the client waits for the stop first.
"""
from __future__ import annotations

import dataclasses
import json
import random
import tempfile

from lib.plain_pl0 import Block, Machine, Program, RunFault, Statement, TextFault, read_program
from lib.plain_session import FITTING, RESUMING, Session
from lib.client import frame, put_files

MOST_STEPS = 4000
NAMES = ["a", "b", "c", "n", "x", "y", "main", "P2", "p", "q", "r"]
SIGNS = ["+", "-", "*", "/"]
COMPARISONS = ["=", "#", "<", "<=", ">", ">="]
NUMBERS = ["0", "1", "2", "3", "5", "7", "10", "100", "007", "3037000500", "9223372036854775807"]
SPACES = [" ", " ", " ", "\n", "\n", "\n", "  ", "\t", "\r\n", "\n\n", "\r", "\n\r"]
STRANGE = ["(", ")", ";", ".", "?", ":", "é", "end", "begin", "odd", "=", ":=", "const", "zz", "9223372036854775808",
           "N" * 64,
           "N" * 65, "(" * 65, "begin " * 65, "\x00", "1x", "call", "!"]
HITS = ["", "1", "2", "3", "%1", "%2", "%2", "%3", "%3", "%7", "10", "2147483647", "%2147483647"]
BAD_HITS = ["0", "%0", "03", " 2", "2 ", "+2", "%", "2147483648", "%%2", "x", "²", "1\n"]
# The parts of log messages, with expressions and without, and messages that can't be read.
MESSAGE_TEXTS = ["", "x is ", " ", ", ", "}", "}}", "k", "\\", "\"", "\n", "é", "\u2028", "\x7f", "\x00", "100 %",
                 "log"]
BAD_MESSAGES = ["{", "{}", "{x", "x {", "{ }", "{ {1} }", "{1}{", "{1 +}", "{1}}{", "{call p}", "{1 = 1}", "{é}",
                "{1}" * 9, "{zz}",
                "{1}" + "x" * 1022, "é" * 513]
BAD_TEXTS = [" ", "x >", "(x = 1", "x = 1.", "x = é", "zz + 1", "call p", "1 +", "- - 1", "odd", "x := 1",
             "(" * 64 + "1" + ")" * 64,
             "(" * 65 + "1" + ")" * 65, "9223372036854775808", "1;", "p", "\x00", "é" * 513, "1" + " " * 1023,
             "1" + " " * 1024]
LEAST = "(- 9223372036854775807 - 1)"
EDGES = [LEAST, f"{LEAST} - 1", f"{LEAST} / (-1)", f"-{LEAST}", f"{LEAST} * (-1)", "9223372036854775807 + 1", "1 / 0",
         "zz + 1 / 0",
         "1 / 0 + (9223372036854775807 + 1)", "3037000500 * 3037000500", "3037000499 * 3037000499", "-7 / 2",
         "7 / (-2)", "-1 / 2"]
STRANGE_VALUES = [None, True, False, 0, 1, 2, -1, 1.0, 2**31 - 1, 2**31, 2**53 - 1, 2**53, 2**64, "", "x", "1",
                  "x" * 1024,
                  "x" * 1025, "é" * 512, "é" * 513, [], {}, [1], {"path": None}, [{}], [None], [{"line": 0}], "p.pl0"]
SKIPPED = [
    b"", b"[", b"null", b"[]", b'"x"', b"{}", b'{"seq":1}', b"\xff\xfe", b'{"seq":1,"type":"request"}',
    b'{"seq":0,"type":"request","command":"threads"}', b'{"seq":1.0,"type":"request","command":"threads"}',
    b'{"seq":-0,"type":"request","command":"threads"}', b'{"seq":"1","type":"request","command":"threads"}',
    b'{"seq":9007199254740992,"type":"request","command":"threads"}',
    b'{"seq":true,"type":"request","command":"threads"}',
    b'{"seq":1,"type":"event","command":"threads"}', b'{"seq":1,"type":"request","command":""}',
    b'{"seq":1,"type":"request","command":"%s"}' % (b"c" * 65), b'{"seq":1,"type":"request","command":"a\\tb"}',
    b'{"seq":1,"type":"request","command":"\\u00e9"}', b'{"seq":1,"type":"request","command":"threads","x":1e400}',
    b'{"seq":1,"type":"request","command":"threads","x":NaN}', b'{"seq":1,"type":"request","command":"threads",}',
    b'{"seq":1,"type":"request","command":"threads","x":"\\ud800"}',
    b'\xef\xbb\xbf{"seq":1,"type":"request","command":"threads"}',
    b'{"seq":1,"type":"request","command":"threads"} x', b'{"seq":01,"type":"request","command":"threads"}',
    b'{"seq":1,"type":"request","command":"threads","x":' + b"[" * 127 + b"]" * 127 + b"}",
    b'{"seq":1,"type":"request","command":"threads","x":"\n"}', b"{'seq':1}", b'{"seq":1 "type":"request"}',
    b'{"seq":1,"type":"request","command":null}', b'{"seq":null,"type":"request","command":"threads"}',
]
ODD_BUT_FINE = [
    b'{"seq":9007199254740991,"type":"request","command":"threads"}',
    b' {\t"seq":7 ,"type":"request","command":"threads"}\r\n',
    b'{"seq":1,"seq":8,"type":"request","command":"x","command":"threads"}',
    b'{"seq":9,"type":"request","command":"\\u0074hreads"}',
    b'{"seq":1,"type":"request","command":"%s"}' % (b"c" * 64), b'{"seq":1,"type":"request","command":"a \\"\\\\~/"}',
    b'{"seq":5,"type":"request","command":"threads","x":' + b"[" * 126 + b"]" * 126 + b"}",
    b'{"seq":5,"type":"request","command":"threads","arguments":null}',
    b'{"seq":5,"type":"request","command":"launch","arguments":[]}',
    b'{"seq":5,"type":"request","command":"threads","x":"\\ud83d\\ude00\\u0000"}',
    b'{"seq":5,"type":"request","command":"pause"}',
    b'{"seq":5,"type":"request","command":"continue","arguments":{"threadId":1e0}}',
    b'{"seq":5,"type":"request","command":"continue","arguments":{"threadId":-0}}',
    b'{"seq":5,"type":"request","command":"evaluate","arguments":{"expression":"1","frameId":18446744073709551617}}',
]
FAULTY = [
    b"\r\n", b"\r\n\r\n", b"content-length: 2\r\n\r\n{}", b"Content-Length: 02\r\n\r\n", b"Content-Length:2\r\n\r\n",
    b"Content-Length: 2\r\nContent-Length: 2\r\n\r\n", b"Content-Length: 1048577\r\n\r\n",
    b"Content-Length: 12345678\r\n\r\n",
    b"A b: c\r\n", b"X: \x7f\r\n", b"X: " + b"a" * 1022, b"Content-Length: 2\n\n{}\r\n\r\n", b"Content-Length: \r\n",
    b": x\r\n",
]
FIELDS = [b""] * 4 + [b"X-Y: z\r\n", b"Content-Type: application/vscode-jsonrpc; charset=utf-8\r\n",
          b"content-length: 7\r\n", b"0: \r\n"]
CHANGES = [b"", b'"', b"{", b"}", b"[", b"]", b",", b":", b"0", b"1", b"9", b"-", b".", b"e", b"\\", b"/", b" ", b"\n",
           b"\r",
           b"\x00", b"\x7f", b"\xc3", b"\xff", "é".encode(), b"x", b"null"]
# It runs for so long that requests arrive in the middle.
LONG = """var a, b, c, x;
procedure p; var n; begin n := x; a := a + n end;
while x < {turns} do
begin x := x + 1;
b := b + 2; c := c + a / 7;
if x / {rare} * {rare} = x then
! x + c; call p
end."""
# A step over its calls takes some slices at times, writes, stops at breakpoints, and at times faults.
CALLS = """var n, x;
procedure p; var i;
begin i := 0;
while i < {turns} do
begin x := x + i;
if i / {rare} * {rare} = i then
! x; i := i + 1 end
end;
procedure q;
begin call p;
if n = {last} then x := n / (n - {last});
call p end;
while n < {rounds} do
begin call q;
n := n + 1 end."""
PATHS = {"p.pl0": 20, "calls.pl0": 5, "deep.pl0": 3, "bad.pl0": 6, "worse.pl0": 6, "missing.pl0": 1, ".": 1,
         "p.pl0/": 1,
         "./p.pl0": 1, "x" * 255: 1}
FILES = ("p.pl0", "calls.pl0", "deep.pl0", "bad.pl0", "worse.pl0", "long.pl0")
COMMANDS = [*FITTING, "attach", "restart", "terminate", "cancel", "source", "completions", "stepback", "setVariable",
            "goto"]
# What is asked in a situation, and how often.
LIKELY = {
    "Fresh": {"initialize": 20, "threads": 1, "launch": 1},
    "Ready": {"launch": 20, "threads": 1, "setBreakpoints": 1},
    "Configuring": {"setBreakpoints": 10, "configurationDone": 8, "threads": 1, "evaluate": 1},
    "Running": {"pause": 6, "setBreakpoints": 8, "threads": 1, "continue": 1, "stepBack": 1, "stackTrace": 1,
                "evaluate": 1,
                "configurationDone": 1},
    "Stopped": {"continue": 5, "next": 9, "stepIn": 9, "stepOut": 4, "stepBack": 5, "reverseContinue": 5,
                "setBreakpoints": 4,
                "stackTrace": 4, "scopes": 4, "variables": 5, "evaluate": 6, "pause": 1, "threads": 1},
    "Faulted": {"continue": 2, "next": 1, "stepIn": 1, "stepOut": 1, "stepBack": 2, "reverseContinue": 2,
                "setBreakpoints": 2,
                "stackTrace": 3, "scopes": 3, "variables": 3, "evaluate": 4, "pause": 1, "threads": 1},
    "Ended": {"setBreakpoints": 3, "threads": 2, "continue": 1, "reverseContinue": 1, "stackTrace": 1, "disconnect": 4},
}


class Texts:
    """Writes texts of programs, conditions and expressions as lists of words."""

    def __init__(self, chance: random.Random):
        self.chance = chance

    def pick(self, **weights):
        return self.chance.choices(list(weights), list(weights.values()))[0]

    def one(self, names: dict[str, str], *kinds: str) -> str | None:
        found = [name for name, kind in names.items() if kind in kinds]
        return self.chance.choice(found) if found else None

    def factor(self, names: dict[str, str], size: int) -> list[str]:
        if size > 0 and self.chance.random() < 0.25:
            return ["(", *self.expression(names, size - 1), ")"]
        if self.chance.random() < 0.01:
            return ["(", "-", "9223372036854775807", "-", "1", ")"]
        name = self.one(names, "const", "var")
        if name and self.chance.random() < 0.6:
            return [name]
        return [self.chance.choice(NUMBERS[:6] if self.chance.random() < 0.95 else NUMBERS)]

    def chain(self, names: dict[str, str]) -> list[str]:
        """Four to eight operands, whatever the frames of their variables; at times a division by one of them faults."""
        words = self.factor(names, 1)
        for _ in range(self.chance.randrange(3, 8)):
            words += [self.chance.choices(SIGNS, [5, 5, 2, 2])[0], *self.factor(names, 0)]
        return words

    def expression(self, names: dict[str, str], size: int = 2) -> list[str]:
        if size == 2 and self.chance.random() < 0.08:
            return self.chain(names)
        words = ["-"] if self.chance.random() < 0.1 else ["+"] if self.chance.random() < 0.03 else []
        words += self.factor(names, size)
        while size > 0 and self.chance.random() < 0.4:
            size -= 1
            sign = self.chance.choices(SIGNS, [5, 5, 1, 1])[0]
            divides = sign == "/" and self.chance.random() < 0.8
            words += [sign, *([self.chance.choice(NUMBERS[1:6])] if divides else self.factor(names, size))]
        return words

    def telling(self, names: dict[str, str]) -> list[str]:
        """A condition that holds at some times and not at others, if a variable changes."""
        name = self.one(names, "var")
        if not name or self.chance.random() < 0.3:
            return self.condition(names)
        number = self.chance.choice(["1", "2", "3", "10"])
        return self.chance.choice([["odd", name], ["odd", name, "/", "2"],
                                   [name, self.chance.choice(COMPARISONS), number]])

    def condition(self, names: dict[str, str]) -> list[str]:
        if self.chance.random() < 0.15:
            return ["odd", *self.expression(names)]
        return [*self.expression(names, 1), self.chance.choice(COMPARISONS), *self.expression(names, 1)]

    def assignment(self, names: dict[str, str]) -> list[str]:
        name = self.one(names, "var")
        return [name, ":=", *self.expression(names)] if name else []

    def call(self, names: dict[str, str]) -> list[str]:
        """A call, seldom of a procedure that is being written, since such a recursion mostly has no end."""
        name = self.one(names, "procedure", *(["open"] if self.chance.random() < 0.04 else []))
        return ["call", name] if name else []

    def bounded_call(self, names: dict[str, str]) -> list[str]:
        """A call that ends a recursion, mostly."""
        name, procedure = self.one(names, "var"), self.one(names, "procedure", "open")
        if not name or not procedure:
            return []
        return ["if", name, "<", self.chance.choice(["3", "6", "20"]), "then", "begin", name, ":=", name, "+", "1", ";",
                "call",
                procedure, "end"]

    def loop(self, names: dict[str, str], size: int) -> list[str]:
        """A loop that ends, mostly."""
        name = self.one(names, "var")
        if not name:
            return []
        most = self.chance.choice(["2", "3", "5", "20", "150", "400"])
        body = self.statement(names, size - 1)
        return ["while", name, "<", most, "do", "begin", *body, ";", name, ":=", name, "+", "1", "end"]

    def statement(self, names: dict[str, str], size: int) -> list[str]:
        if size <= 0:
            kind = self.pick(assign=5, write=4, call=1, bounded=2, empty=1)
        else:
            kind = self.pick(assign=3, write=2, call=2, bounded=2, empty=0.5, loop=4, free=0.2, test=2, sequence=6)
        return {
            "assign": lambda: self.assignment(names),
            "write": lambda: ["!", *self.expression(names)],
            "call": lambda: self.call(names),
            "bounded": lambda: self.bounded_call(names),
            "empty": lambda: [],
            "loop": lambda: self.loop(names, size),
            "free": lambda: ["while", *self.condition(names), "do", *self.statement(names, size - 1)],
            "test": lambda: ["if", *self.condition(names), "then", *self.statement(names, size - 1)],
            "sequence": lambda: self.sequence(names, size),
        }[kind]()

    def sequence(self, names: dict[str, str], size: int) -> list[str]:
        words = ["begin", *self.statement(names, size - 1)]
        for _ in range(self.chance.randrange(1, 6)):
            words += [";", *self.statement(names, size - 1)]
        return [*words, "end"]

    def block(self, outer: dict[str, str], level: int) -> list[str]:
        """A block; a name that it declares hides the outer one, even before its declaration."""
        chosen = self.chance.sample(NAMES, self.chance.randrange(3, 8))
        kinds = [self.pick(const=1, var=3, procedure=2 if level < 3 else 0) for _ in chosen]
        constants = [name for name, kind in zip(chosen, kinds) if kind == "const"]
        variables = [name for name, kind in zip(chosen, kinds) if kind == "var"]
        names = {name: kind for name, kind in outer.items() if name not in chosen}
        names.update({name: "const" for name in constants}, **{name: "var" for name in variables})
        words = self.declared("const", [[name, "=", self.chance.choice(NUMBERS)] for name in constants])
        words += self.declared("var", [[name] for name in variables])
        for name in (name for name, kind in zip(chosen, kinds) if kind == "procedure"):
            names[name] = "open"
            words += ["procedure", name, ";", *self.block(names, level + 1), ";"]
            names[name] = "procedure"
        return words + self.sequence(names, 3)

    def declared(self, keyword: str, items: list[list[str]]) -> list[str]:
        words = [word for item in items for word in [",", *item]]
        return [keyword, *words[1:], ";"] if words else []

    def spaced(self, words: list[str], spaces: list[str]) -> str:
        """The words with white space between them, which may be missing beside a sign."""
        text = ""
        for word in words:
            needs = text[-1:].isalnum() and word[:1].isalnum()
            text += (self.chance.choice(spaces) if needs or self.chance.random() < 0.8 else "") + word
        return text.lstrip(" ") + self.chance.choice(["", "", "\n"])

    def program(self) -> str:
        """A program that ends, or stops by a fault, before long, but if possible not too soon."""
        fewest = self.chance.choice([0, 10, 50, 300, 500, 700])
        unwanted = self.chance.choices(["depth", "nothing"], [4, 1])[0]
        found = "."
        for _ in range(8):
            text = self.spaced([*self.block({}, 0), "."], SPACES)
            end = ending(text.encode())
            if end is not None:
                found = text
                if end[0] >= fewest and end[1] != unwanted:
                    break
        return found

    def mistaken(self) -> str:
        """A text that probably is no program, but if it is one, ends."""
        while True:
            words = [*self.block({}, self.chance.randrange(4)), "."]
            for _ in range(self.chance.choice([1, 1, 1, 2])):
                self.chance.choice([self.rename, self.spoil])(words)
            text = self.spaced(words[:self.chance.choice([None, None, None, len(words) // 2])], SPACES)
            if ending(text.encode()) is not None:
                return text

    def rename(self, words: list[str]) -> None:
        """Puts a name in place of another."""
        found = [at for at, word in enumerate(words) if word in NAMES]
        if found:
            words[self.chance.choice(found)] = self.chance.choice(NAMES)

    def spoil(self, words: list[str]) -> None:
        """Leaves a word out, or puts another in its place or before it."""
        at = self.chance.randrange(len(words))
        other = self.chance.choice([self.chance.choice(words), self.chance.choice(NAMES), self.chance.choice(STRANGE)])
        words[at:at + self.chance.randrange(2)] = self.chance.choice([[], [other], [other]])


def ending(text: bytes) -> tuple[int, str] | None:
    """How many steps a text takes and how it ends, or None where it doesn't end before long."""
    try:
        machine = Machine(read_program(text))
    except TextFault:
        return 0, "no program"
    try:
        while machine.position < MOST_STEPS and not machine.is_done():
            machine.step()
    except RunFault as fault:
        return machine.position, fault.args[0]
    return (machine.position, "done") if machine.is_done() else None


def visited(program: Program) -> list[Statement]:
    """The steps at which the run of a program stands, one after the other."""
    machine = Machine(program)
    steps = []
    try:
        while not machine.is_done():
            steps.append(machine.top())
            machine.step()
    except RunFault:
        pass
    return steps


def lasts(model: Session, command: str) -> bool:
    """Whether a run that a command begins is still on after its first slice."""
    twin = model.twin()
    twin.resume(command)
    twin.slice()
    return twin.situation == "Running"


@dataclasses.dataclass
class Part:
    """A part of the input, and what the client waits for after it: a `stop` and all answers, all `answers`, a `moment`,
    or `nothing`."""

    text: bytes
    wait: str


@dataclasses.dataclass
class Story:
    """A session: the files that there are, the parts of the input, and whether requests cross the reports of a run."""

    files: dict[str, bytes]
    parts: list[Part]
    crosses: bool


class Maker:
    """Makes the pieces of a session beside a model."""

    def __init__(self, chance: random.Random, folder: str, crosses: bool):
        self.chance = chance
        self.crosses = crosses
        self.texts = Texts(chance)
        self.files = {name: self.text(name).encode() for name in FILES}
        self.model = Session(folder)
        self.seq = chance.choice([0, 0, 0, 100, 2**53 - 200])
        self.favourite = chance.choice(["continue", "continue", "next", "stepIn", "stepOut"])
        self.rest = b""
        self.program: Program | None = None
        self.trace: list[Statement] = []

    def text(self, name: str) -> str:
        """The text of a file of this name."""
        if name == "p.pl0":
            return self.texts.program()
        if name == "deep.pl0":
            return self.chance.choice(["procedure p; call p;\ncall p.", "var x; while x < 700 do\nx := x + 1.", "."])
        if name == "calls.pl0":
            chosen = {"turns": [3, 40, 100], "rare": [7, 30, 200], "last": [1, 2, 9], "rounds": [2, 4]}
            return CALLS.format(**{word: self.chance.choice(numbers) for word, numbers in chosen.items()})
        if name == "long.pl0":
            return LONG.format(turns=self.chance.choice([1000, 4000, 16000]), rare=self.chance.choice([50, 200, 1000]))
        if name == "worse.pl0" and self.chance.random() < 0.1:
            return self.chance.choice(["", " " * 65537, " " * 65535 + ".", "\n\n"])
        return self.texts.mistaken()

    def names(self, block: Block | None) -> dict[str, str]:
        """The names that a block can use, and at times others."""
        names = {} if block and self.chance.random() < 0.9 else {self.chance.choice(NAMES): "var" for _ in range(2)}
        while block:
            names = {**{name: declared.kind for name, declared in block.declared.items()}, **names}
            block = block.outer
        return names

    def step(self) -> Statement | None:
        """A step of the program, mostly one that its run comes to often."""
        if not self.model.program:
            return None
        if self.program is not self.model.program:
            self.program, self.trace = self.model.program, visited(self.model.program)
        return self.chance.choice(self.trace if self.chance.random() < 0.8 else self.program.steps)

    def often(self, usual, strange: list, share: float = 0.1):
        return self.chance.choice(strange) if self.chance.random() < share else usual

    def breakpoint(self, step: Statement | None) -> dict:
        """A breakpoint, mostly at a step."""
        line = step.place[0] - (0 if self.model.lines else 1) if step else 1
        one: dict = {"line": self.often(line, [0, 1, line + 1, 1000])}
        if self.chance.random() < 0.5:
            words = self.texts.telling(self.names(step.block if step else None))
            text = self.often(self.texts.spaced(words, SPACES), BAD_TEXTS)
            one["condition"] = self.often(text, [f"{edge} < 0" for edge in EDGES], 0.05)
        if self.chance.random() < 0.6:
            one["hitCondition"] = self.often(self.chance.choice(HITS), BAD_HITS)
        if self.chance.random() < 0.3:
            one["logMessage"] = self.often(self.message(self.names(step.block if step else None)), BAD_MESSAGES, 0.05)
        return one

    def message(self, names: dict[str, str]) -> str:
        """A log message of texts and expressions."""
        parts = []
        for _ in range(self.chance.randrange(1, 5)):
            parts.append(self.chance.choice(MESSAGE_TEXTS))
            if self.chance.random() < 0.6:
                words = self.texts.spaced(self.texts.expression(names), SPACES)
                parts.append("{%s}" % self.often(words, EDGES, 0.05))
        return "".join(parts)

    def breakpoints(self) -> list[dict]:
        count = self.often(self.chance.choice([0, 1, 1, 2, 3, 4]), [0, 5, 20, 256, 257])
        steps = [self.step() for _ in range(count)]
        few = self.chance.choice([1, 2, 3])
        return [self.breakpoint(self.chance.choice(steps[:few])) for _ in range(count)]

    def frame_id(self) -> int:
        depth = self.model.machine.depth() if self.model.machine else 1
        return self.often(self.chance.randrange(1, depth + 1) if depth else 1, [0, depth + 1, depth, 1024, 2**53 - 1],
                          0.15)

    def arguments(self, command: str) -> dict:
        chance = self.chance
        if command == "initialize":
            return {name: chance.random() < 0.5 for name in ("linesStartAt1", "columnsStartAt1")
                    if chance.random() < 0.4}
        if command == "launch":
            path = chance.choices(list(PATHS), list(PATHS.values()))[0]
            path = "long.pl0" if self.crosses and chance.random() < 0.3 else path
            return {"program": path, **({"stopOnEntry": chance.random() < 0.7} if chance.random() < 0.7 else {})}
        if command == "setBreakpoints":
            path = self.often(self.model.path, ["q.pl0", "", "p.pl0", "P.PL0"], 0.08)
            source = self.often({"path": path, "name": "p"}, [{}, {"name": "p.pl0"}], 0.03)
            return {"source": source, "breakpoints": self.breakpoints()}
        return self.arguments_at_stop(command)

    def arguments_at_stop(self, command: str) -> dict:
        chance = self.chance
        if command == "scopes":
            return {"frameId": self.frame_id()}
        if command == "variables":
            return {"variablesReference": self.frame_id()}
        if command == "evaluate":
            frames = self.model.machine.frames if self.model.machine else []
            words = self.texts.expression(self.names(chance.choice(frames[-3:]).block if frames else None))
            text = self.often(self.often(self.texts.spaced(words, SPACES), BAD_TEXTS), EDGES)
            return {"expression": text, **({"frameId": self.frame_id()} if chance.random() < 0.8 else {})}
        thread = {"threadId": self.often(1, [0, 2, 2**53 - 1], 0.05)}
        if command == "stackTrace" and chance.random() < 0.6:
            thread.update(startFrame=chance.randrange(5), levels=chance.randrange(5))
        return thread

    def spoilt(self, arguments: dict) -> object:
        """Arguments of which one doesn't fit, probably."""
        if not arguments or self.chance.random() < 0.2:
            return self.chance.choice(STRANGE_VALUES)
        name = self.chance.choice(list(arguments))
        if name == "breakpoints" and arguments[name] and self.chance.random() < 0.6:
            one = self.chance.choice(arguments[name])
            name = self.chance.choice(["line", "condition", "hitCondition", "logMessage", "column"])
            one[name] = self.chance.choice(STRANGE_VALUES)
        elif self.chance.random() < 0.3:
            del arguments[name]
        else:
            arguments[self.chance.choice([name, "noDebug", "startFrame"])] = self.chance.choice(STRANGE_VALUES)
        return arguments

    def step_over_frames(self) -> str | None:
        """A step that passes over what is done in other frames: over the call that comes next, or out of a
        procedure."""
        if self.model.machine.top().kind == "call":
            return "next"
        return "stepOut" if self.model.machine.depth() > 1 else None

    def command(self) -> str:
        """The next command, one that often fits the situation."""
        if self.chance.random() < 0.06:
            return self.chance.choice([command for command in COMMANDS if command != "disconnect"])
        likely = LIKELY[self.model.situation]
        over = self.step_over_frames() if self.model.situation == "Stopped" else None
        if over and self.chance.random() < 0.3:
            return over
        if self.model.situation == "Stopped" and self.chance.random() < 0.25:
            long = [command for command in RESUMING if lasts(self.model, command)]
            if long:
                return self.chance.choice(long)
        if self.model.situation == "Stopped" and (self.model.plan or self.favourite != "continue"):
            likely = {**likely, self.favourite: 30, "setBreakpoints": 2}
        return self.chance.choices(list(likely), list(likely.values()))[0]

    def request(self, command: str) -> bytes:
        self.seq += 1
        arguments: object = self.arguments(command) if command in FITTING else {}
        if self.chance.random() < 0.04:
            arguments = self.spoilt(arguments)
        members = [("seq", self.seq), ("type", "request"), ("command", command)]
        if arguments or self.chance.random() < 0.5:
            members.append(("arguments", arguments))
        self.chance.shuffle(members)
        indent = self.often(None, [1], 0.05)
        return json.dumps(dict(members), indent=indent, ensure_ascii=self.chance.random() < 0.5).encode()

    def content(self) -> bytes:
        """The next content, nearly always a request."""
        if self.chance.random() < 0.04:
            return self.chance.choice(SKIPPED + ODD_BUT_FINE)
        return self.request(self.command())

    def part(self) -> bytes:
        if self.chance.random() < 0.002:
            return self.chance.choice(FAULTY)
        content = self.content()
        if content and self.chance.random() < 0.02:
            content = self.changed(content)
        fields = [b"Content-Length: %d\r\n" % len(content), self.chance.choice(FIELDS)]
        self.chance.shuffle(fields)
        whole = b"".join(fields) + b"\r\n" + content
        return self.changed(whole) if self.chance.random() < 0.002 else whole

    def changed(self, text: bytes) -> bytes:
        """A text with another byte, or none, in the place of one."""
        at = self.chance.randrange(len(text))
        return text[:at] + self.chance.choice(CHANGES) + text[at + 1:]

    def piece(self) -> list[Part]:
        """A piece, after which the program doesn't run, mostly. Its last frame may be cut, so that the rest comes with
        the next piece."""
        parts = [self.rest] if self.rest else []
        self.model.take(self.rest)
        self.rest = b""
        while not self.model.is_closed():
            if self.model.situation == "Running" and not self.crosses:
                break
            part = self.part()
            if self.chance.random() < 0.03:
                at = self.chance.randrange(len(part))
                part, self.rest = part[:at], part[at:]
            parts.append(part)
            self.model.take(part)
            if self.rest or self.chance.random() < (0.25 if self.model.situation == "Running" else 0.75):
                break
        self.run()
        return self.crossing(parts) if self.crosses else [Part(text, "stop") for text in self.cut(b"".join(parts))]

    def run(self) -> None:
        """Runs the model's program to where it stops, and holds it as soon as may be, or later."""
        while self.model.situation == "Running":
            if self.model.may_be_held() and self.chance.random() < 0.5:
                self.model.give_back()
            else:
                self.model.slice()

    def crossing(self, parts: list[bytes]) -> list[Part]:
        """The parts of a piece, some cut and some together, with little waiting between them."""
        cut = [text for part in parts for text in self.cut(part)]
        one = self.chance.random() < 0.4
        texts = [b"".join(cut)] if one else cut
        waits = [self.chance.choice(["nothing", "nothing", "answers", "moment"]) for _ in texts[1:]]
        waits.append(self.often("stop", ["answers", "nothing"], 0.2))
        return [Part(text, wait) for text, wait in zip(texts, waits)]

    def cut(self, part: bytes) -> list[bytes]:
        if len(part) < 2 or self.chance.random() < 0.8:
            return [part]
        at = self.chance.randrange(1, len(part))
        return [part[:at], part[at:]]

    def last(self) -> list[Part]:
        """What ends a session: a request to leave with more after it, a frame that is none, or the end of the input.
        Where requests cross, it may come while the program runs."""
        kind = self.texts.pick(leave=6, fault=2, end=2)
        before = []
        if self.crosses and not self.rest and self.model.situation == "Stopped" and self.chance.random() < 0.5:
            before = [Part(frame(self.request("continue")), self.chance.choice(["nothing", "answers"]))]
        if kind == "end":
            return before
        # The rest may be of a request that lets the program run.
        rest = []
        if self.rest:
            rest.append(Part(self.rest, self.chance.choice(["nothing", "stop"]) if self.crosses else "stop"))
        if kind == "fault":
            return [*before, *rest, Part(self.chance.choice(FAULTY), "nothing")]
        more = self.often(b"", [*FAULTY, frame(self.content())], 0.3)
        return [*before, *rest, Part(frame(self.request("disconnect")) + more, "nothing")]


def make(seed: int, crosses: bool) -> Story:
    """The session of a seed."""
    chance = random.Random(seed)
    with tempfile.TemporaryDirectory() as folder:
        maker = Maker(chance, folder, crosses)
        put_files(folder, maker.files)
        parts: list[Part] = []
        most = chance.choice([15, 30, 60])
        for _ in range(most):
            if not maker.model.is_closed():
                parts += maker.piece()
        if not maker.model.is_closed():
            parts += maker.last()
    return Story(maker.files, parts, crosses)
