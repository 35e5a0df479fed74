#!/usr/bin/env python3
"""Runs a program to the last position, which is 1,001 here: nobody can wait for 2^53 - 1 steps.

usage: last_position.py

Copies the crates, puts that number in place of the machine's last position, and drives a session over memory (`speed
session`) through `rt try`, which proves nothing. A loop without end has to stop there, before an assignment, with
`stepLimit`; its variable says how many steps were taken. The status is 1 where it is otherwise.
"""
from __future__ import annotations

import json
import pathlib
import shutil
import subprocess
import sys
import tempfile

from lib.client import Frames, frame, name_of, request

TOP = pathlib.Path(__file__).resolve().parent.parent
DECLARED = "pub const LAST_POSITION: u64 = 9007199254740991;"
LAST = 1001
# A test and an assignment are taken in turn, so x is half of the steps.
PROGRAM = "var x;\nwhile 1 = 1 do\n  x := x + 1.\n"
REQUESTS = [
    ("initialize", {"adapterID": "pl0"}),
    ("launch", {"program": "loop.pl0"}),
    ("configurationDone", {}),
    ("stackTrace", {"threadId": 1}),
    ("evaluate", {"expression": "x", "frameId": 1}),
    ("disconnect", {}),
]


def copy_crates(top: pathlib.Path) -> None:
    """The crates, with the other last position."""
    shutil.copytree(TOP / "crates", top / "crates", ignore=shutil.ignore_patterns("out", "must-fail", "plants.txt"))
    for name in ("crates.txt", "HANDLES"):
        shutil.copy(TOP / name, top)
    machine = top / "crates/pl0_machine/src/machine.rt"
    text = machine.read_text()
    if text.count(DECLARED) != 1:
        sys.exit(f"{machine.name} doesn't say once: {DECLARED}")
    machine.write_text(text.replace(DECLARED, DECLARED.replace("9007199254740991", str(LAST))))


def play(top: pathlib.Path) -> dict[str, dict]:
    """The bodies that the session sends, by the command or the event that they are of. It has to succeed."""
    (top / "sent").write_bytes(b"".join(frame(request(seq, *one)) for seq, one in enumerate(REQUESTS, 1)))
    (top / "loop.pl0").write_text(PROGRAM)
    files = [word for name in ("sent", "loop.pl0") for word in ("--data", f"{name}={top / name}")]
    run = subprocess.run(["rt", "try", "--seconds", "300", *files, "--", "session", "sent"], cwd=top / "crates/speed",
                         stdout=subprocess.PIPE, check=True)
    said, frames = {}, Frames()
    frames.take(run.stdout)
    for content in frames:
        print(f"  <- {content.decode()}")
        message = json.loads(content)
        said[name_of(message)] = message.get("body", {})
    return said


def main() -> int:
    with tempfile.TemporaryDirectory(prefix="pl0dap-") as folder:
        top = pathlib.Path(folder)
        copy_crates(top)
        said = play(top)
    found = said["stopped"]["text"], said["stackTrace"]["stackFrames"][0]["line"], said["evaluate"]["result"]
    wanted = "stepLimit", 3, str(LAST // 2)
    print("as it must be" if found == wanted else f"{found}, not {wanted}")
    return 0 if found == wanted else 1


if __name__ == "__main__":
    sys.exit(main())
