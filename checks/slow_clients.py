#!/usr/bin/env python3
"""Shows what the adapter does with clients that read, write and leave as they like.

usage: slow_clients.py PROGRAM [SECONDS]

Each client has a process of its own; all are there at the same time. One stops reading while a program logs at each
turn of a loop, and reads again after 1.5 times SECONDS, 3 where none are given: no message may be missing. Two go away
while a program runs, one of which takes messages until then: the process has to be gone. One sends a request a byte a
second: it has to be answered. One stops reading and ends its input: the process has to wait without processor time, and
to end when it reads again. Two launch a named pipe and a folder: they have to be refused at once. Two keep the input
open after `disconnect`, at a stop and in a run: half of the threads have to stay, take no processor time, and be gone
when the input ends. Prints what was seen and measured of each, and ends with status 1 where something is wrong.
"""
from __future__ import annotations

import concurrent.futures
import os
import select
import sys
import tempfile
import time
from collections.abc import Callable

from lib.client import Client, Wrong, frame, put_files
from soak import LOOP, MOST_MEMORY, THREAD, THREADS, open_files, threads

LOG_POINT = '{"source":{"path":"loop.pl0"},"breakpoints":[{"line":3,"logMessage":"x is {x}"}]}'
A_BYTE = 1.0  # seconds between two bytes
MOST_SECONDS = 10.0  # for what has to come or to end by itself
TICKS = os.sysconf("SC_CLK_TCK")


class Watched(Client):
    """A client whose process is looked at, and which keeps what came."""

    def __init__(self, program: str, folder: str):
        super().__init__(program, folder)
        self.messages: list[dict] = []

    def receive(self) -> dict:
        self.messages.append(super().receive())
        return self.messages[-1]

    def asked(self, command: str, arguments: object = None) -> dict:
        """The response to a request; what comes before it is received too."""
        self.send((command, arguments))
        return self.wait_for(command)

    def run_loop(self, log_point: str = "") -> None:
        """Lets the loop run, and ask for this log point."""
        self.asked("initialize")
        self.asked("launch", '{"program":"loop.pl0"}')
        if log_point:
            self.asked("setBreakpoints", log_point)
        self.asked("configurationDone")

    def memory(self) -> int:
        """The most memory that the process had so far, in KiB."""
        with open(f"/proc/{self.child.pid}/status", encoding="ascii") as file:
            return int(MOST_MEMORY.search(file.read())[1])

    def processor_seconds(self) -> float:
        with open(f"/proc/{self.child.pid}/stat", encoding="ascii") as file:
            fields = file.read().rsplit(")", 1)[1].split()
        return (int(fields[11]) + int(fields[12])) / TICKS

    def must_rest(self, seconds: float) -> str:
        """Tells how much processor time the process takes in that time, which must be next to none."""
        before = self.processor_seconds()
        time.sleep(seconds)
        taken = self.processor_seconds() - before
        if taken > seconds / 20:
            raise Wrong(f"it takes {taken:.2f} s of the processor in {seconds:.0f} s")
        return f"{taken:.2f} s of the processor in {seconds:.0f} s"

    def must_end(self, statuses: dict[int, str]) -> str:
        """Waits for the end of the process, which must be with one of these statuses, and last lines on standard
        error."""
        start = time.monotonic()
        status = self.child.wait(MOST_SECONDS)
        taken = time.monotonic() - start
        last = self.said().splitlines()[-1:]
        if "".join(last) != statuses.get(status):
            raise Wrong(f"status {status}, and {last}")
        return f"gone {taken * 1000:.0f} ms later, with status {status}"

    def close(self) -> None:
        self.child.stdin.close()
        self.child.stdout.close()


def reads_again(one: Watched, seconds: float) -> str:
    """Doesn't read for some time, in which it asks for a pause, and then reads up to the stop."""
    one.run_loop(LOG_POINT)
    time.sleep(seconds / 2)
    one.send(("pause", THREAD))
    memory = one.memory()
    rest = one.must_rest(seconds)
    if threads(one.child.pid) != THREADS or one.memory() > memory + 256:
        raise Wrong(f"{threads(one.child.pid)} threads, {memory} KiB and then {one.memory()}")
    one.wait_for("stopped")
    one.asked("disconnect")
    numbers = [message["seq"] for message in one.messages]
    logs = [message["body"]["output"] for message in one.messages if message.get("event") == "output"]
    if numbers != list(range(1, len(numbers) + 1)) or logs != [f"x is {turn % 2}\n" for turn in range(len(logs))]:
        raise Wrong("messages are missing")
    if not logs:
        raise Wrong("nothing was logged")
    one.child.stdin.close()
    return f"waits with {memory} KiB, {rest}; {len(logs)} logs in their order, none missing; {one.must_end({0: ''})}"


def goes_away(one: Watched, _seconds: float) -> str:
    """Closes both its ends while the loop runs."""
    one.run_loop()
    one.close()
    return one.must_end({0: ""})


def goes_away_from_logs(one: Watched, _seconds: float) -> str:
    """Closes both its ends while the loop logs; a write may fail before the end of the input is seen."""
    one.run_loop(LOG_POINT)
    one.wait_for("output")
    one.close()
    return one.must_end({0: "", 1: "pl0dap: write failed"})


def sends_bytes(one: Watched, _seconds: float) -> str:
    """Sends a request a byte a second, while the program stands."""
    one.run_loop()
    one.asked("pause", THREAD)
    one.wait_for("stopped")
    request, before = frame(b'{"seq":9,"type":"request","command":"threads"}'), one.processor_seconds()
    for byte in request:
        if select.select([one.child.stdout], [], [], 0)[0]:
            raise Wrong("something comes before the request is whole")
        one.write_now(bytes([byte]))
        time.sleep(A_BYTE)
    if one.wait_for("threads")["request_seq"] != 9:
        raise Wrong("another request is answered")
    taken = one.processor_seconds() - before
    one.child.stdin.close()
    return f"{len(request)} bytes, and the answer; {taken:.2f} s of the processor; {one.must_end({0: ''})}"


def ends_input_unread(one: Watched, seconds: float) -> str:
    """Stops reading while the loop logs, ends its input, and reads again after some time."""
    one.run_loop(LOG_POINT)
    time.sleep(seconds / 2)
    one.end_input()
    rest = one.must_rest(seconds)
    if one.child.poll() is not None:
        raise Wrong(f"status {one.child.poll()} while nobody reads")
    while one.content() is not None:
        pass
    return f"waits, {rest}; it reads again: {one.must_end({0: ''})}"


def is_refused(one: Watched, program: str) -> str:
    """Launches what is no regular file, to which nobody writes."""
    one.asked("initialize")
    one.wait = MOST_SECONDS
    answer = one.asked("launch", {"program": program})
    if answer.get("message") != "cannotRead":
        raise Wrong(f"{answer}")
    one.asked("disconnect")
    one.end_input()
    return f"refused with {answer['message']}; {one.must_end({0: ''})}"


def launches_pipe(one: Watched, _seconds: float) -> str:
    return is_refused(one, "pipe.pl0")


def launches_folder(one: Watched, _seconds: float) -> str:
    return is_refused(one, ".")


def keeps_input_open(one: Watched, seconds: float) -> str:
    """Keeps the input open after `disconnect`."""
    one.asked("disconnect")
    time.sleep(0.5)
    left = threads(one.child.pid)
    rest = one.must_rest(seconds)
    if left != THREADS // 2 or one.child.poll() is not None:
        raise Wrong(f"{left} threads, status {one.child.poll()}")
    one.child.stdin.close()
    return f"{left} threads stay, {rest}; the input ends: {one.must_end({0: ''})}"


def keeps_input_open_at_a_stop(one: Watched, seconds: float) -> str:
    one.run_loop()
    one.asked("pause", THREAD)
    one.wait_for("stopped")
    return keeps_input_open(one, seconds)


def keeps_input_open_in_a_run(one: Watched, seconds: float) -> str:
    one.run_loop()
    return keeps_input_open(one, seconds)


CLIENTS: dict[str, Callable[[Watched, float], str]] = {
    "stops reading, and reads again": reads_again,
    "goes away in a run": goes_away,
    "goes away in a run that logs": goes_away_from_logs,
    "sends a byte a second": sends_bytes,
    "stops reading, and ends its input": ends_input_unread,
    "launches a named pipe": launches_pipe,
    "launches a folder": launches_folder,
    "keeps the input open after a disconnect at a stop": keeps_input_open_at_a_stop,
    "keeps the input open after a disconnect in a run": keeps_input_open_in_a_run,
}


def seen(client: Callable[[Watched, float], str], program: str, folder: str, seconds: float) -> tuple[bool, str]:
    """Whether all went as it must, and what was seen."""
    one = Watched(program, folder)
    try:
        return True, client(one, seconds)
    except Exception as found:  # a process that doesn't end, or that is gone too early, is wrong as well
        return False, f"WRONG: {found!r}"
    finally:
        one.close()
        one.child.kill()
        one.child.wait()
        one.said()


def main() -> int:
    program, seconds = os.path.abspath(sys.argv[1]), float(sys.argv[2]) if len(sys.argv) > 2 else 3.0
    before = open_files()
    with tempfile.TemporaryDirectory() as folder, concurrent.futures.ThreadPoolExecutor(len(CLIENTS)) as pool:
        put_files(folder, {"loop.pl0": LOOP})
        os.mkfifo(os.path.join(folder, "pipe.pl0"))
        waiting = {name: pool.submit(seen, client, program, folder, seconds) for name, client in CLIENTS.items()}
        good = True
        for name, one in waiting.items():
            is_right, what = one.result()
            good = good and is_right
            print(f"{name}: {what}", flush=True)
    return 0 if good and open_files() == before else 1


if __name__ == "__main__":
    sys.exit(main())
