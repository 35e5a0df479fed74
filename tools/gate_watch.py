#!/usr/bin/env python3
"""Runs the merge gate, measures the processor time that each crate costs it, and holds that to a budget.

usage: gate_watch.py [--beside] [COMMAND..]

Runs `rt ci` with nothing kept, or COMMAND, and looks once a second at the processes below it. At its end it prints a
row for each crate, the processor seconds of the prover and the compilers that worked for it, and those that its
must-fail edits took, the dearest first, then the sums, the wall time, and the most memory that all had together. What a
process takes after the last look at it is missed. The status is that of the command, or 1 where that is 0 and the
budget isn't kept: what is above it stands on standard error. With `--beside` the other cores are busy too, and a
quarter more is allowed.
"""
from __future__ import annotations

import os
import pathlib
import re
import subprocess
import sys
import time
from typing import NamedTuple

CRATE = re.compile(rb"--crate-name\0([a-z0-9_]+)\0")
TICKS, PAGE = os.sysconf("SC_CLK_TCK"), os.sysconf("SC_PAGE_SIZE")
# How the kit names the folder in which it tries an edit.
EDIT_FOLDER = "rt-edit-"
# The processor minutes that the whole may take, and each crate without its edits, where the computer does nothing else.
WHOLE_MINUTES, CRATE_MINUTES = 230, 10
# How many times as many where all cores are busy: cores share the way to memory, and a proof of 58 seconds took 73 then.
BESIDE = 1.25


class Process(NamedTuple):
    """What the system tells of a process."""

    parent: int
    started: str
    seconds: float
    memory: int


def processes_now() -> dict[int, Process]:
    """All processes, each with the processor seconds that it took itself, and the bytes of memory that it has."""
    found = {}
    for folder in pathlib.Path("/proc").glob("[0-9]*"):
        try:
            fields = (folder / "stat").read_text().rsplit(")", 1)[1].split()
        except OSError:
            continue
        seconds = (int(fields[11]) + int(fields[12])) / TICKS
        found[int(folder.name)] = Process(int(fields[1]), fields[19], seconds, int(fields[21]) * PAGE)
    return found


def below(root: int, processes: dict[int, Process]) -> set[int]:
    """The processes that stand below another one."""
    children: dict[int, list[int]] = {}
    for number, process in processes.items():
        children.setdefault(process.parent, []).append(number)
    found, waiting = set(), [root]
    while waiting:
        for child in children.get(waiting.pop(), []):
            if child not in found:
                found.add(child)
                waiting.append(child)
    return found


def crate_of(number: int) -> str | None:
    """The crate for which a process of the prover or of a compiler works."""
    try:
        named = CRATE.search(pathlib.Path(f"/proc/{number}/cmdline").read_bytes())
    except OSError:
        return None
    return named.group(1).decode() if named else None


def tries_an_edit(number: int) -> bool:
    """Whether a process judges a must-fail edit."""
    try:
        return pathlib.Path(os.readlink(f"/proc/{number}/cwd")).name.startswith(EDIT_FOLDER)
    except OSError:
        return False


class Spent(NamedTuple):
    """The processor seconds that a crate took, and those of its edits."""

    itself: float
    edits: float


class Watched(NamedTuple):
    """What a command came to: its status, what each crate took, and the most bytes of memory."""

    status: int
    spent: dict[str, Spent]
    memory: int


def watch(command: list[str]) -> Watched:
    """Runs a command to its end."""
    run, memory = subprocess.Popen(command), 0
    # (a process is known by its number and its start, since numbers are used again)
    seconds: dict[tuple[int, str], tuple[str, bool, float]] = {}
    while run.poll() is None:
        processes = processes_now()
        found = {number: processes[number] for number in below(run.pid, processes)}
        memory = max(memory, sum(process.memory for process in found.values()))
        for number, process in found.items():
            key = number, process.started
            name, is_edit, _ = seconds.get(key, ("others", False, 0.0))
            seconds[key] = crate_of(number) or name, is_edit or tries_an_edit(number), process.seconds
        time.sleep(1)
    spent: dict[str, Spent] = {}
    for name, is_edit, taken in seconds.values():
        itself, edits = spent.get(name, Spent(0.0, 0.0))
        spent[name] = Spent(itself, edits + taken) if is_edit else Spent(itself + taken, edits)
    return Watched(run.returncode, spent, memory)


def gate_anew() -> list[str]:
    """The merge gate from nothing: where the kit keeps what was proved, it is told not to use that."""
    said = subprocess.run(["rt", "help"], capture_output=True, text=True, errors="replace")
    return ["rt", "ci", *(["--anew"] if "--anew" in said.stdout + said.stderr else [])]


def above_budget(spent: dict[str, Spent], allowed: float) -> list[str]:
    """What takes more than so many times what it may."""
    crate_minutes, whole_minutes = allowed * CRATE_MINUTES, allowed * WHOLE_MINUTES
    found = [f"{name} takes over {crate_minutes:.1f} minutes without its edits" for name, one in spent.items()
             if one.itself > 60 * crate_minutes]
    whole = sum(sum(one) for one in spent.values()) / 60
    if whole > whole_minutes:
        found.append(f"the whole takes {whole:.0f} minutes, and may take {whole_minutes:.0f}")
    return found


def main() -> int:
    begin, is_beside = time.monotonic(), sys.argv[1:2] == ["--beside"]
    watched = watch(sys.argv[2 if is_beside else 1:] or gate_anew())
    print("| Crate | Processor seconds | Those of its edits |\n|---|---|---|")
    for name, one in sorted(watched.spent.items(), key=lambda row: -sum(row[1])):
        print(f"| `{name}` | {one.itself:,.0f} | {one.edits:,.0f} |")
    itself, edits = (sum(one[part] for one in watched.spent.values()) / 60 for part in (0, 1))
    print(f"| minutes of all | {itself:.0f} | {edits:.0f} |")
    print(f"{itself + edits:.0f} processor minutes, in {(time.monotonic() - begin) / 60:.0f} minutes of wall time and "
          f"{watched.memory / 2**30:.1f} GB")
    above = above_budget(watched.spent, BESIDE if is_beside else 1)
    print("\n".join(above), file=sys.stderr)
    return watched.status or (1 if above else 0)


if __name__ == "__main__":
    sys.exit(main())
