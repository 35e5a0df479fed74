#!/usr/bin/env python3
"""Builds the adapter of example_adapter/ in a folder outside the repository, as its author would, and debugs with it.

usage: author.py

In a copy, which depends on this repository by its path, cargo builds without a network, and countdown.session is
played. Then the language is edited, so that its faults have another text, built again, and debugged up to that fault:
what comes has to be what the edit says, and the seconds from the edit to the stop are printed. At last a `ghost` that
isn't known is written into the language: the build has to be refused at its line. Ends with status 1 where something is
wrong.
"""
from __future__ import annotations

import os
import pathlib
import resource
import shutil
import subprocess
import sys
import time

from lib.client import Client, Wrong

TOP = pathlib.Path(__file__).resolve().parent.parent
EXAMPLE = TOP / "example_adapter"
FOLDER = TOP / "out" / "example_adapter"
PROGRAM = FOLDER / "target" / "debug" / "counter_adapter"
LANGUAGE = FOLDER / "language" / "lib.rs"
# What an edit changes, and a program that has a fault in its second line.
REASON, EDITED = '"the count is too large"', '"edited"'
OVERFLOW = f"set {2**63 - 1}\nadd 1\n"
# What the build must refuse, as the last line of the language.
UNKNOWN = "ghost\n"


def copy() -> None:
    """Copies the example but for what was built, with paths to this repository."""
    shutil.copytree(EXAMPLE, FOLDER, dirs_exist_ok=True, ignore=shutil.ignore_patterns("target"))
    manifest = FOLDER / "Cargo.toml"
    manifest.write_text(manifest.read_text(encoding="utf-8").replace('path = "..', f'path = "{TOP}'), encoding="utf-8")


def build() -> subprocess.CompletedProcess[str]:
    return subprocess.run(["cargo", "build", "--offline", "--quiet"], cwd=FOLDER, capture_output=True, text=True,
                          env={**os.environ, "CARGO_TARGET_DIR": str(FOLDER / "target")})


def built() -> None:
    """Builds, and gives up where that fails."""
    if (ran := build()).returncode:
        raise Wrong(f"cargo build: {ran.stderr}")


def fault() -> str:
    """The text of the fault at which a program stops."""
    program = FOLDER / "overflow.count"
    program.write_text(OVERFLOW, encoding="utf-8")
    client = Client(str(PROGRAM))
    client.ask("initialize", {"adapterID": "counter"})
    client.ask("launch", {"program": str(program)})
    client.expect("initialized")
    client.ask("configurationDone")
    text = client.expect("stopped")["body"]["text"]
    client.ask("disconnect")
    client.end()
    return text


def processor_seconds() -> float:
    used = resource.getrusage(resource.RUSAGE_CHILDREN)
    return used.ru_utime + used.ru_stime


def edited() -> None:
    """Edits the language, builds, and debugs up to the fault, which has to have the new text."""
    wall, processor = time.monotonic(), processor_seconds()
    text = LANGUAGE.read_text(encoding="utf-8")
    LANGUAGE.write_text(text.replace(REASON, EDITED), encoding="utf-8")
    built()
    if (found := fault()) != EDITED.strip('"'):
        raise Wrong(f"after the edit the fault is {found!r}")
    print(f"an edit to a stop: {time.monotonic() - wall:.1f} s, {processor_seconds() - processor:.1f} s of processor")


def refused() -> None:
    """Writes into the language what isn't known, which the build has to refuse at its line."""
    text = LANGUAGE.read_text(encoding="utf-8")
    LANGUAGE.write_text(text + UNKNOWN, encoding="utf-8")
    place = f"language/lib.rs:{text.count(chr(10)) + 1}: "
    ran = build()
    if not ran.returncode or place not in ran.stderr:
        raise Wrong(f"not refused at {place}{ran.stderr}")


def main() -> int:
    copy()
    try:
        built()
        played = [sys.executable, "demo/session.py", "example_adapter/countdown.session", str(PROGRAM)]
        if (ran := subprocess.run(played, cwd=TOP, capture_output=True, text=True)).returncode:
            raise Wrong(ran.stdout)
        edited()
        refused()
    except Wrong as wrong:
        print(f"example_adapter: {wrong}")
        return 1
    return 0


if __name__ == "__main__":
    sys.exit(main())
