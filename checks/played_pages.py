#!/usr/bin/env python3
"""Plays what pages show: the session of README.md, and the commands of docs/TEACHING.md and docs/ANSWERS.md.

usage: played_pages.py PL0DAP PL0

The session's lines are those that come, told in the page's words. Each command `pl0 ..` of a lesson is run on the text
that the page shows there, under the name that the command has, and `procedures.pl0` is the program of docs/PL0.md: none
may be refused as a command, and each but `check` tells something. A lesson's instructions in docs/ANSWERS.md stand in
a listing of its program in this order, and the program of the second answer writes the 5 that the page says. Prints
what is wrong, and ends with status 1 where anything is.
"""
from __future__ import annotations

import pathlib
import re
import subprocess
import sys
import tempfile
from collections.abc import Iterator

sys.path.insert(0, str(pathlib.Path(__file__).resolve().parent))
from lib.client import Client, Wrong  # noqa: E402

TOP = pathlib.Path(__file__).resolve().parent.parent
PROGRAM, LINE = "examples/factorial.pl0", 9
CONDITION, MESSAGE, EXPRESSION = "k = 8", "k is {k}", "k * (k - 1)"
COMMAND = re.compile(r"`(pl0\s[^`]*)`")
INSTRUCTION = re.compile(r"[A-Z]{3} \d+ -?\d+")
# The status of arguments that aren't understood; how long a command may take where other processes are busy.
REFUSED, PATIENCE = 4, 180
NAMES_PROGRAM = "procedures.pl0"


def read(page: str) -> str:
    return (TOP / page).read_text(encoding="utf-8")


def blocks(text: str) -> list[str]:
    return re.findall(r"^```\n(.*?)^```$", text, re.MULTILINE | re.DOTALL)


def session(client: Client) -> Iterator[str]:
    """The session as README.md shows it, from what comes."""
    client.ask("initialize", {"adapterID": "pl0"})
    client.ask("launch", {"program": PROGRAM})
    client.expect("initialized")
    yield f'-> setBreakpoints      line {LINE} if {CONDITION}; line {LINE}, log "{MESSAGE}"'
    asked = [{"line": LINE, "condition": CONDITION}, {"line": LINE, "logMessage": MESSAGE}]
    told = client.ask("setBreakpoints", {"source": {"path": PROGRAM}, "breakpoints": asked})["breakpoints"]
    both = "both are set" if all(one["verified"] for one in told) else "one is refused"
    yield f"<- setBreakpoints      {both} at line {' and '.join(sorted({str(one['line']) for one in told}))}"
    yield "-> configurationDone   so the program runs"
    client.ask("configurationDone")
    while (event := client.receive())["event"] == "output":
        yield from (f"<- output              {line}" for line in event["body"]["output"].splitlines())
    yield f"<- {event['event']:20}{event['body']['reason']}"
    yield "-> stackTrace"
    yield f"<- stackTrace          {frames(client)}"
    yield f"-> evaluate            {EXPRESSION}"
    yield f"<- evaluate            {client.ask('evaluate', {'expression': EXPRESSION, 'frameId': 4})['result']}"
    yield "-> stepBack"
    client.ask("stepBack", {"threadId": 1})
    reason = client.expect("stopped")["body"]["reason"]
    yield f"<- stopped             {reason}; now it is at line {frames(client).split()[3].strip(',')}"


def frames(client: Client) -> str:
    """The frames of a stop: the name and the line of each, "line" before the first."""
    shown = client.ask("stackTrace", {"threadId": 1})["stackFrames"]
    return ", ".join(f"{one['name']} at {'' if at else 'line '}{one['line']}" for at, one in enumerate(shown))


def wrong_session(program: str) -> Iterator[str]:
    wanted = next(block for block in blocks(read("README.md")) if block.startswith("-> setBreakpoints"))
    try:
        came = list(session(Client(program, folder=str(TOP))))
    except (Wrong, KeyError, IndexError) as fault:
        came = [f"{type(fault).__name__}: {fault}"]
    for line, other in zip(wanted.splitlines() + [""] * len(came), came):
        if line != other:
            yield f"README.md has {line!r}, and {other!r} comes"
    if len(came) < len(wanted.splitlines()):
        yield f"README.md has {len(wanted.splitlines())} lines, and {len(came)} come"


def run(pl0: str, folder: str, *words: str) -> subprocess.CompletedProcess[str]:
    return subprocess.run([pl0, *words], cwd=folder, capture_output=True, text=True, check=False, timeout=PATIENCE)


def lessons(page: str, heads: str) -> list[str]:
    """The parts of a page that begin with the number of a lesson."""
    return re.split(heads, read(page), flags=re.MULTILINE)[1:]


def wrong_lesson(pl0: str, folder: str, number: int, lesson: str, answer: str) -> Iterator[str]:
    """What is wrong with a lesson, and with what its answer lists."""
    commands = [" ".join(found.split()).split()[1:] for found in COMMAND.findall(lesson)]
    named = [word for words in commands for word in words if word.endswith(".pl0")]
    own = next((name for name in named if name != NAMES_PROGRAM), f"lesson{number}.pl0")
    for text in blocks(lesson):
        if re.match(r"(?:var|const|procedure|begin)\b", text):
            (pathlib.Path(folder) / own).write_text(text, encoding="utf-8")
    for words in commands:
        files = [word for word in words if word.endswith(".pl0")] or [own]
        told = run(pl0, folder, *[word for word in words if word not in files], *files)
        if told.returncode == REFUSED or words[0] != "check" and not told.stdout + told.stderr:
            yield f"lesson {number}: {' '.join(words)}: status {told.returncode}, {told.stderr!r}"
    listings = [" ".join(INSTRUCTION.findall(run(pl0, folder, "list", name).stdout)) for name in {own, *named}]
    for row in re.findall(r"`[A-Z]{3} \d+ -?\d+`(?:,\s+`[A-Z]{3} \d+ -?\d+`){2,}", answer):
        if not any(" ".join(INSTRUCTION.findall(row)) in listing for listing in listings):
            yield f"answer {number}: no listing has {' '.join(INSTRUCTION.findall(row))}"


def wrong_lessons(pl0: str) -> Iterator[str]:
    """What is wrong with the commands of lessons and with what answers list."""
    asked, answered = lessons("docs/TEACHING.md", r"^## \d\. "), lessons("docs/ANSWERS.md", r"^\*\*\d\. ")
    if len(asked) != len(answered) or len(asked) < 7:
        yield f"{len(asked)} lessons have {len(answered)} answers"
    with tempfile.TemporaryDirectory() as folder:
        program = blocks(read("docs/PL0.md").partition("## A run, position by position\n")[2])[0]
        (pathlib.Path(folder) / NAMES_PROGRAM).write_text(program, encoding="utf-8")
        for number, (lesson, answer) in enumerate(zip(asked, answered), 1):
            yield from wrong_lesson(pl0, folder, number, lesson, answer)
        (pathlib.Path(folder) / "links.pl0").write_text(blocks(answered[1])[0], encoding="utf-8")
        if (told := run(pl0, folder, "run", "links.pl0").stdout) != "5\n":
            yield f"answer 2: its program writes {told!r}"


def main() -> int:
    program, pl0 = (str(pathlib.Path(word).resolve()) for word in sys.argv[1:3])
    wrong = [*wrong_session(program), *wrong_lessons(pl0)]
    print("\n".join(wrong) or "README.md's session and the commands of the lessons are as the pages have them")
    return 1 if wrong else 0


if __name__ == "__main__":
    sys.exit(main())
