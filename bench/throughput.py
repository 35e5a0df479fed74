#!/usr/bin/env python3
"""Times the adapter on many small requests and on a few large contents, whole and by single bytes.

usage: throughput.py PROGRAM

For each load the input is a file, taken at a size and at four times that size. By single bytes `single.c` holds each
read of the program to one byte. What is looked at is the growth: four times the input is to take at most 4.5 times the
time. It needs a C compiler.
"""
from __future__ import annotations

import os
import subprocess
import sys
import tempfile
import time

sys.path.insert(0, os.path.join(os.path.dirname(os.path.realpath(__file__)), "..", "checks"))
from lib.client import frame, request  # noqa: E402

HERE = os.path.dirname(os.path.abspath(__file__))


def requests(count: int) -> bytes:
    """`initialize`, that many pipelined `threads`, and `disconnect`."""
    first, last = frame(request(1, "initialize")), frame(request(2, "disconnect"))
    return first + b"".join(frame(request(n + 3, "threads")) for n in range(count)) + last


def large(count: int) -> bytes:
    """So many contents of 1,048,576 bytes each: a request after spaces."""
    return frame(request(1, "initialize").rjust(1 << 20)) * count


def seconds(program: str, path: str, extra: dict[str, str]) -> float:
    """The best of three runs."""
    best = float("inf")
    for _ in range(3):
        begin = time.monotonic()
        with open(path, "rb") as source, open(os.devnull, "wb") as sink:
            subprocess.run([program], stdin=source, stdout=sink, stderr=sink, env={**os.environ, **extra}, check=True)
        best = min(best, time.monotonic() - begin)
    return best


def row(program: str, name: str, make, small: int, extra: dict[str, str]) -> None:
    times = []
    for count in (small, 4 * small):
        with tempfile.NamedTemporaryFile() as file:
            file.write(make(count))
            file.flush()
            times.append(seconds(program, file.name, extra))
    print(f"{name:44} {times[0]:8.3f} s {times[1]:8.3f} s   {times[1] / times[0]:5.2f} times")


def main() -> int:
    program = os.path.abspath(sys.argv[1])
    print(f"{'load':44} {'size':>10} {'4 * size':>10}   growth")
    row(program, "25,000 and 100,000 `threads`, from a file", requests, 25_000, {})
    row(program, "16 and 64 contents of 1 MiB, from a file", large, 16, {})
    with tempfile.TemporaryDirectory() as folder:
        library = os.path.join(folder, "single.so")
        subprocess.run(["cc", "-O2", "-shared", "-fPIC", "-o", library, os.path.join(HERE, "single.c")], check=True)
        single = {"LD_PRELOAD": library}
        row(program, "2,500 and 10,000 `threads`, by single bytes", requests, 2_500, single)
        row(program, "1 and 4 contents of 1 MiB, by single bytes", large, 1, single)
    return 0


if __name__ == "__main__":
    sys.exit(main())
