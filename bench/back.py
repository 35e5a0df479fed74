#!/usr/bin/env python3
"""Times going back and log points, beside gdb's `record full` on the same loop in C.

usage: back.py PROGRAM

A loop of 50,000,000 turns runs to a stop 100,000,002 steps away; from there one step is taken back again and again, and
then the run is reversed to its start, where nothing else is due. It is reversed again from there with a breakpoint that
each turn hits, up to the last hit. The same loop runs in the newest of 130 frames of 1,000 variables, whose checkpoints
are the largest that are kept, and of 1,000, whose aren't kept. Another loop logs its variable at each turn. The loop in
C, compiled without optimization, is recorded for a few thousand turns, since recording is slow and takes memory for
each instruction; then gdb steps back. Times are from before a request is written to after the last message that it
causes. It needs gdb, with Python, and clang.
"""
from __future__ import annotations

import json
import os
import statistics
import subprocess
import sys
import tempfile
import time

import session

TURNS = 50_000_000
BACK = 20
LOGS = 100_000
LOGGING_RUNS = 5
RECORDED = (1_000, 4_000, 16_000)

LOOP = """var x;
begin
  while x < {turns} do
    x := x + 1;
  ! x
end.
"""
STOP_LINE = 5
LOG_LINE = 4

# The same loop, in a procedure that has called itself.
FRAMES, VARIABLES = (130, 1_000), 1_000
DEEP_TURNS = 1_000_000
DEEP_LOOP = """var n, x;
procedure p;
var {variables};
begin
  n := n + 1;
  if n < {frames} then
    call p;
  while x < {turns} do
    x := x + 1;
  v0 := x
end;
call p.
"""
DEEP_STOP_LINE = 10

C_LOOP = """volatile long x;
int main(void) {
  while (x < {turns})
    x = x + 1;
  return 0;
}
"""

IN_GDB = """import gdb, resource, time
def kibibytes():
    return resource.getrusage(resource.RUSAGE_SELF).ru_maxrss
def timed(command):
    begin = time.perf_counter()
    gdb.execute(command, to_string=True)
    return time.perf_counter() - begin
gdb.execute("set confirm off")
gdb.execute("set pagination off")
gdb.execute("set record full insn-number-max unlimited")
gdb.execute("tbreak main", to_string=True)
gdb.execute("run", to_string=True)
gdb.execute("record full")
before = kibibytes()
gdb.execute("tbreak 5", to_string=True)
run = timed("continue")
kept = kibibytes() - before
steps = [timed("reverse-step") for _ in range(5)]
log = gdb.execute("info record", to_string=True)
instructions = next(int(line.split()[2]) for line in log.splitlines() if line.startswith("Log contains"))
print("RECORD", run, instructions, kept, min(steps))
"""


def stopped(client: session.Client) -> None:
    """Waits for the next stop."""
    while json.loads(client.content()).get("event") != "stopped":
        pass


def seconds(client: session.Client, command: str, arguments: dict) -> float:
    """From a request to the stop that it leads to."""
    frame = client.framed(command, arguments)
    begin = time.perf_counter()
    client.put(frame)
    stopped(client)
    return time.perf_counter() - begin


def processor_seconds(client: session.Client) -> float:
    """How long the adapter has had a processor, in all its threads."""
    with open(f"/proc/{client.child.pid}/stat", encoding="ascii") as file:
        fields = file.read().rpartition(")")[2].split()
    return (int(fields[11]) + int(fields[12])) / os.sysconf("SC_CLK_TCK")


def client_of(program: str, folder: str, text: str, breakpoint: dict) -> session.Client:
    """A session of a program with one breakpoint, before it runs."""
    with open(os.path.join(folder, "loop.pl0"), "w", encoding="ascii") as file:
        file.write(text)
    client = session.Client([program], folder)
    client.launch("loop.pl0", False)
    set_breakpoint(client, breakpoint)
    return client


def set_breakpoint(client: session.Client, breakpoint: dict) -> None:
    client.ask("setBreakpoints", {"source": {"path": "loop.pl0"}, "breakpoints": [breakpoint]})


def go_back(program: str, folder: str) -> None:
    client = client_of(program, folder, LOOP.format(turns=TURNS), {"line": STOP_LINE})
    thread = {"threadId": 1}
    before = processor_seconds(client)
    forward = seconds(client, "configurationDone", {})
    used = processor_seconds(client) - before
    memory = client.kibibytes("VmHWM")
    steps = [seconds(client, "stepBack", thread) for _ in range(BACK)]
    back = seconds(client, "reverseContinue", thread)
    again = seconds(client, "continue", thread)
    set_breakpoint(client, {"line": LOG_LINE})
    before = processor_seconds(client)
    hits = seconds(client, "reverseContinue", thread)
    used_by_hits = processor_seconds(client) - before
    client.end()
    print(f"{2 * TURNS + 2:,} steps forward: {forward:.3f} s, {memory:,} KiB at most")
    print(f"`stepBack` from there, {BACK} times: {min(steps) * 1e6:,.0f} us at best, "
          f"{statistics.median(steps) * 1e6:,.0f} us in the median, {max(steps) * 1e6:,.0f} us at worst")
    print(f"`reverseContinue` to the start: {back:.3f} s, {back / forward:.2f} of the way forward")
    print(f"forward again, over checkpoints that are there: {again:.3f} s")
    print(f"`reverseContinue` to the last of {TURNS:,} hits: {hits:.3f} s, {used_by_hits / used:.2f} of the way forward by "
          "processor time")


def go_back_deep(program: str, folder: str, frames: int) -> None:
    variables = ", ".join(f"v{number}" for number in range(VARIABLES))
    text = DEEP_LOOP.format(variables=variables, frames=frames, turns=DEEP_TURNS)
    client = client_of(program, folder, text, {"line": DEEP_STOP_LINE})
    forward = seconds(client, "configurationDone", {})
    memory = client.kibibytes("VmHWM")
    steps = [seconds(client, "stepBack", {"threadId": 1}) for _ in range(BACK)]
    client.end()
    print(f"{frames:,} frames of {VARIABLES:,} variables, some {2 * DEEP_TURNS:,} steps forward: {forward:.3f} s, "
          f"{memory:,} KiB at most; `stepBack` from there {statistics.median(steps) * 1e3:,.1f} ms in the median, "
          f"{max(steps) * 1e3:,.1f} at worst")


def logging_run(program: str, folder: str) -> tuple[float, int]:
    """The seconds from the start of a run to its end, and how many logs it wrote."""
    client = client_of(program, folder, LOOP.format(turns=LOGS), {"line": LOG_LINE, "logMessage": "x is {x}"})
    begin = time.perf_counter()
    client.put(client.framed("configurationDone", {}))
    logged = 0
    while (message := json.loads(client.content())).get("event") != "exited":
        logged += message.get("body", {}).get("output", "").count("x is ")
    taken = time.perf_counter() - begin
    client.end()
    return taken, logged


def log(program: str, folder: str) -> None:
    taken, logged = min(logging_run(program, folder) for _ in range(LOGGING_RUNS))
    print(f"{logged:,} logs in {taken:.3f} s at best: {logged / taken:,.0f} a second")


def record(folder: str, turns: int) -> None:
    source, binary = os.path.join(folder, "loop.c"), os.path.join(folder, "loop")
    with open(source, "w", encoding="ascii") as file:
        file.write(C_LOOP.replace("{turns}", str(turns)))
    subprocess.run(["clang", "-O0", "-g", source, "-o", binary], check=True)
    script = os.path.join(folder, "record.py")
    with open(script, "w", encoding="ascii") as file:
        file.write(IN_GDB)
    ran = subprocess.run(["gdb", "-nx", "-batch", "-x", script, binary], capture_output=True, text=True, check=False)
    line = next((line for line in ran.stdout.splitlines() if line.startswith("RECORD")), None)
    if line is None:
        sys.exit(f"gdb recorded nothing:\n{ran.stdout}{ran.stderr}")
    run, instructions, kept, step = map(float, line.split()[1:])
    print(f"gdb records {turns:,} turns: {instructions:,.0f} instructions in {run:.3f} s, "
          f"{turns / run:,.0f} turns a second, {kept * 1024 / instructions:,.0f} bytes an instruction; "
          f"`reverse-step` {step * 1e3:.2f} ms at best")


def main() -> None:
    if len(sys.argv) != 2:
        sys.exit(__doc__)
    program = os.path.abspath(sys.argv[1])
    with tempfile.TemporaryDirectory() as folder:
        go_back(program, folder)
        for frames in FRAMES:
            go_back_deep(program, folder, frames)
        log(program, folder)
        for turns in RECORDED:
            record(folder, turns)


if __name__ == "__main__":
    main()
