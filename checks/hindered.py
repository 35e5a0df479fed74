#!/usr/bin/env python3
"""Runs checks while the threads of the adapter are hindered where they wait for each other.

usage: hindered.py [--stack] PROGRAM [TIMES]

hinder.c says how. The checks are soak.py, random sessions of sessions.py, and leave.py, each of a size that takes some
minutes at most, or TIMES as large. With --stack PROGRAM is the example `stack_adapter`, and the checks are its own.
First it is looked whether PROGRAM waits on futexes by the call that is hindered. Ends with status 1 where a check does.
It needs cc.
"""
from __future__ import annotations

import argparse
import os
import subprocess
import sys
import tempfile

from lib.client import Client

HERE = os.path.dirname(os.path.abspath(__file__))
# Each check, with options, and its sizes.
CHECKS = (("soak.py",), (27, 9)), (("sessions.py",), (60,)), (("leave.py",), (200,))
STACK_CHECKS = (("stack_pause.py",), ()), (("stack_sessions.py",), (60,)), (("leave.py", "--stack"), (200,))


def is_hindered(program: str, library: str) -> bool:
    """Whether the process names the library's function in place of the C library's: it has to be one of those that it
    takes from a library."""
    named = subprocess.run(["nm", "--dynamic", "--undefined-only", program], capture_output=True, text=True, check=True)
    adapter = Client(program, env={**os.environ, "LD_PRELOAD": library})
    adapter.ask("initialize")  # so that it is loaded
    with open(f"/proc/{adapter.child.pid}/maps", encoding="utf-8") as file:
        is_there = library in file.read()
    return is_there and adapter.end()[1:] == (0, "") and " syscall" in named.stdout


def main() -> int:
    parser = argparse.ArgumentParser(usage=__doc__.split("\n\n")[1].removeprefix("usage: "))
    parser.add_argument("--stack", action="store_true")
    parser.add_argument("program", type=os.path.abspath)
    parser.add_argument("times", type=int, nargs="?", default=1)
    given = parser.parse_args()
    program, times = given.program, given.times
    with tempfile.TemporaryDirectory() as folder:
        library = os.path.join(folder, "hinder.so")
        subprocess.run(["cc", "-O2", "-shared", "-fPIC", "-o", library, os.path.join(HERE, "hinder.c")], check=True)
        if not is_hindered(program, library):
            sys.exit(f"{program} doesn't wait by a call that is hindered")
        environment, failed = {**os.environ, "LD_PRELOAD": library, "HINDERED": str(times)}, 0
        for (name, *options), sizes in STACK_CHECKS if given.stack else CHECKS:
            words = [sys.executable, os.path.join(HERE, name), *options, program, *(str(size * times) for size in sizes)]
            print(f"hindered, {name}:", flush=True)
            failed += subprocess.run(words, env=environment).returncode != 0
    return 1 if failed else 0


if __name__ == "__main__":
    sys.exit(main())
