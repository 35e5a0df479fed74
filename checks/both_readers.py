#!/usr/bin/env python3
"""Plays random contents and command lines to two builds of `pl0dap` and `pl0`, and compares all that comes back.

usage: both_readers.py COUNT PROVED STOCK [PROVED STOCK..] [--seed SEED]

PROVED is what the kit built, STOCK what cargo built of the same program, as its file's name says: so this tests both
readers of JSON, and of the command line. COUNT contents are sent as frames, many in a session: what is answered shows
how each was read. Then come command lines, one for 10 contents and 200 at least. Bytes, statuses and standard errors
must be equal, but for the words by which the stock programs say what they are. At a difference this prints both, and
ends with status 1. Without SEED another one is taken each time.
"""
from __future__ import annotations

import argparse
import pathlib
import random
import subprocess
import sys
import tempfile

from lib.client import frame, request
from lib.making import ODD_BUT_FINE, SKIPPED

NOTE = b"built by stock Rust, nothing is proved of this build"
IN_SESSION = 100
END = request(3, "disconnect")
NUMBERS = ["0", "-0", "1", "-1", "7", "1.0", "-1.5", "1e0", "1E+2", "1e-2", "1.7976931348623159e308", "1e-400",
           "9007199254740991", "9007199254740993", "9223372036854775807", "9223372036854775808", "-9223372036854775808",
           "-9223372036854775809", "18446744073709551615", "18446744073709551616", "1" * 300, "2147483647"]
STRINGS = ["", "a", "x = 1", "\\n", "\\u0000", "\\u00e9", "é", "\\ud83d\\ude00", "😀", "\\/", "\\\"", "\\\\", "\x7f"]
WORDS = ["null", "true", "false", "[]", "{}"]
SPACES = ["", "", "", "", " ", "\n", "\t", "\r", " \r\n "]
WRONG_NUMBERS = ["01", "-01", "1.", ".5", "1e", "1e+", "1e400", "-1e400", "1" * 400, "+1", "0x1", "--1", "-", "NaN"]
WRONG_STRINGS = ["\\ud83d", "\\ude00", "\\ude00\\ud83d", "\\uD83D\\u0041", "\\u+12", "\\", "\n", "\x00", "\x1f", '"']
WRONG_WORDS = ["", "nul", "True", "nulls", "tru e", "'a'", "/**/1", "[,]", "[1,]", '{"a":1,}', '{"a"}', "{a:1}",
               '{"a":}', '{"a" 1}', "[1 2]", "[}", "{1:1}", '{"a":1:2}', "[1]]"]
PUT = [b"", b'"', b"}", b"]", b",", b"0", b"\\", b"\xff", b"\xc3", b"\xed\xa0\x80", b"\xf4\x90\x80\x80"]
MEMBERS = ["seq", "type", "command", "arguments", "linesStartAt1", "threadId", "frameId", "levels", "expression", "",
           "program", "breakpoints", "line", "source", "path", "condition", "logMessage", "\\u0073eq", "é"]
COMMANDS = ["threads", "initialize", "launch", "setBreakpoints", "stackTrace", "scopes", "evaluate", "continue",
            "nothing", "c" * 64, "c" * 65, "a\\tb", "", "\\u0074hreads"]
OPTIONS = ["--help", "-h", "--version", "-V", "--steps", "--steps=5", "--from", "--from=x", "--machine",
           "--names", "--check", "--check=a.pl0", "--chec", "--stps", "--hel", "--verion", "--name=1", "--help=1",
           "--version=", "-x", "-hx", "-xh", "-", "---", "--=", "--é", ""]
TASKS = ["run", "trace", "check", "list", "tree", "tokens", "help"]
OPERANDS = [*TASKS, "a.pl0", "bad.pl0", "missing.pl0", "-", "rn", "chek", "tre", "5", "0", "000", "007", "+3",
            "18446744073709551615", "18446744073709551616", "65537", "é", "two words", ".", b"\xff"]
FILES = {"a.pl0": "var x; begin x := 3; ! x * x end.\n", "bad.pl0": "begin ! y end.\n"}


class Contents:
    """Makes contents, valid and not."""

    def __init__(self, chance: random.Random):
        self.chance = chance

    def pick(self, right: list[str], wrong: list[str]) -> str:
        """One of these that are right, or seldom one of those that aren't."""
        return self.chance.choice(wrong if self.chance.random() < 0.004 else right)

    def space(self) -> str:
        return self.pick(SPACES, ["\f", "\v", "\u00a0", "\ufeff"])

    def string(self) -> str:
        return f'"{self.pick(STRINGS, WRONG_STRINGS)}{self.pick(STRINGS, WRONG_STRINGS)}"'

    def value(self, size: int) -> str:
        kinds = {"number": 6, "string": 4, "word": 3, "array": 3 * size, "object": 4 * size, "deep": 0.1}
        kind = self.chance.choices(list(kinds), list(kinds.values()))[0]
        items = range(self.chance.choice([0, 1, 2, 3, 3, 40]))
        deep = self.chance.choice([3, 125, 126, 127, 128, 129, 1000])
        return self.space() + {
            "number": lambda: self.pick(NUMBERS, WRONG_NUMBERS),
            "string": self.string,
            "word": lambda: self.pick(WORDS, WRONG_WORDS),
            "array": lambda: "[" + ",".join(self.value(size - 1) for _ in items) + "]",
            "object": lambda: "{" + ",".join(self.member(size - 1) for _ in items) + "}",
            "deep": lambda: self.chance.choice(["[", '{"a":']) * deep + "1" + "]" * deep,
        }[kind]() + self.space()

    def member(self, size: int) -> str:
        return f'{self.space()}"{self.chance.choice(MEMBERS)}"{self.space()}:{self.value(size)}'

    def request(self) -> str:
        """A request, with members that may come twice, and strange arguments."""
        seq = self.chance.choice(["1", "7"]) if self.chance.random() < 0.9 else self.pick(NUMBERS, WRONG_NUMBERS)
        parts = [f'"seq":{seq}', '"type":"request"', f'"command":"{self.chance.choice(COMMANDS)}"']
        parts += [self.member(1) for _ in range(self.chance.choice([0, 0, 1, 2]))]
        given = ",".join(self.member(2) for _ in range(self.chance.randrange(4)))
        self.chance.shuffle(parts)
        return "{" + ",".join([*parts, f'"arguments":{{{given}}}']) + "}"

    def content(self) -> bytes:
        kind = self.chance.random()
        if kind < 0.05:
            return self.chance.choice(SKIPPED + ODD_BUT_FINE)
        content = (self.request() if kind < 0.8 else self.value(3)).encode()
        if self.chance.random() < 0.2:
            at, cut = self.chance.randrange(len(content) + 1), self.chance.randrange(3)
            content = content[:at] + self.chance.choice(PUT) + content[at + cut:]
        return content


def command_line(chance: random.Random) -> list[str | bytes]:
    """The words of a command line, the program's name first. A word comes twice more often than not."""
    program = chance.choice(["pl0", "pl0", "pl0", "pl0dap"])
    head = [chance.choice(TASKS)] if program == "pl0" and chance.random() < 0.8 else []
    pool = [*chance.choices(OPTIONS, k=2), *chance.choices(OPERANDS, k=2), "a.pl0", "--"]
    return [program, *head, *chance.choices(pool, k=chance.randrange(6))]


def outcome(program: pathlib.Path, words: list[str | bytes], given: bytes, place: str) -> tuple[int, bytes, bytes]:
    ran = subprocess.run(words, executable=program, input=given, capture_output=True, cwd=place)
    return ran.returncode, ran.stdout, ran.stderr


def with_note(output: bytes) -> bytes:
    """What a stock program prints in place of this: it says in its version and after a help what it is."""
    if b"\nUsage: " in output:
        return output + NOTE + b"\n"
    return output.replace(b"\n", b" (" + NOTE + b")\n") if output.startswith(b"pl0 1.") else output


def main() -> int:
    parser = argparse.ArgumentParser()
    parser.add_argument("--seed", type=int, default=random.randrange(10**6))
    parser.add_argument("count", type=int)
    parser.add_argument("programs", type=pathlib.Path, nargs="+")
    asked = parser.parse_args()
    programs = [program.resolve() for program in asked.programs]
    builds = [{program.name: program for program in programs[at::2]} for at in range(2)]
    count, seed = asked.count, asked.seed
    chance, differ, notes = random.Random(seed), 0, 0
    contents = [Contents(chance).content() for _ in range(count)]
    lines = [command_line(chance) for _ in range(max(200, count // 10))]
    played: list[tuple[list[str | bytes], bytes]] = [(words, FILES["a.pl0"].encode()) for words in lines]
    with tempfile.TemporaryDirectory() as place:
        # A session begins with none, one or both of these, so that requests meet it in each situation before the run.
        beginning = [request(1, "initialize", {}), request(2, "launch", {"program": f"{place}/a.pl0"})]
        for at in range(0, count, IN_SESSION):
            session = [*beginning[:chance.randrange(3)], *contents[at:at + IN_SESSION], END]
            played.append((["pl0dap"], b"".join(map(frame, session))))
        for name, text in FILES.items():
            pathlib.Path(place, name).write_text(text, encoding="utf-8")
        for words, given in played:
            wanted, came = (outcome(build[words[0]], words, given, place) for build in builds)
            output = with_note(wanted[1])
            notes += output != wanted[1]
            if came != (wanted[0], output, wanted[2]):
                differ += 1
                print(f"{words}: {given if words == ['pl0dap'] else ''}\n  {wanted}\n  {came}")
    print(f"seed {seed}: {count} contents, {len(lines)} command lines, {differ} outcomes differ; {notes} have the note")
    return 1 if differ else 0


if __name__ == "__main__":
    sys.exit(main())
