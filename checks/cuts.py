#!/usr/bin/env python3
"""Cuts random streams at each byte, and looks that the adapter does what it does with the whole stream.

usage: cuts.py [--listen] [--stack] PROGRAM [COUNT] [FIRST]

With --listen PROGRAM serves behind editors/listen.py, with --stack it is the example `stack_adapter`. COUNT streams are
made, 20 where none is given, from the seed FIRST on, 1 where none is given: some requests, and inputs of hostile.py, of
which every other is changed at random places. No program runs in them, so that the same output must come each time.
Each is played whole, cut once at each of its bytes, and by single bytes; each piece is one read. Output, status and
what stands on standard error must be the same. Prints the streams that differ, and how many were played, and ends with
status 1 where one differs.
"""
from __future__ import annotations

import argparse
import concurrent.futures
import os
import random
import sys
import tempfile
from collections.abc import Iterator

import hostile
from lib.client import Client, frame, listened, put_files, request

MOST_BYTES = 600  # of a stream, and of an input of hostile.py
STACK = "stop.stk"  # of as many letters as the other program
PARTS = 4  # inputs of a stream, at most
LAUNCHES = (("initialize", '{"linesStartAt1":true}'), ("launch", '{"program":"stop.pl0","stopOnEntry":true}'))
INPUTS = [text for cases in hostile.CASES.values() for case in cases
          if len(text := b"".join(case.pieces)) <= MOST_BYTES and b"configurationDone" not in text]
# What is put in at random.
TOKENS = (b"\r\n", b"\r", b"\n", b"\r\n\r\n", b"Content-Length: ", b"Content-Length: 5\r\n", b"X-Y: z\r\n", b": ", b" ",
          b"\0", b"\xff", b"\xc3\xa9", b"\xed\xa0\x80", b'"', b"\\u", b"{", b"]", b",", b"9" * 20, b"-")


def changed(chosen: random.Random, text: bytes) -> bytes:
    """A text with a byte changed, some left out, or something put in, at one place or some."""
    for _ in range(chosen.choice((1, 1, 2, 4))):
        at = chosen.randrange(len(text) + 1)
        text = chosen.choice((
            lambda: text[:at] + bytes((chosen.randrange(256),)) + text[at + 1:],
            lambda: text[:at] + text[at + chosen.choice((1, 2, 5, 30)):],
            lambda: text[:at] + chosen.choice(TOKENS) + text[at:],
        ))()
    return text


def stream(seed: int, program: str) -> bytes:
    """The stream of a seed, in which this program is launched."""
    chosen = random.Random(seed)
    parts = [frame(request(seq, *one)) for seq, one in enumerate(LAUNCHES[:chosen.randint(0, 2)], 1)]
    parts += [chosen.choice(INPUTS) for _ in range(chosen.randint(1, PARTS))]
    text = b"".join(parts)[:MOST_BYTES].replace(b"stop.pl0", program.encode())
    return changed(chosen, text) if seed % 2 else text


def came_of(command: list[str], folder: str, pieces: list[bytes]) -> tuple[bytes, int, str]:
    """What comes of a stream in these pieces: the output, the status and all on standard error."""
    adapter = Client(command, folder)
    for piece in pieces:
        adapter.write(piece)
    adapter.end_input()
    while adapter.more():
        pass
    return bytes(adapter.frames.rest), adapter.status(), adapter.said()


def cuts(text: bytes) -> Iterator[list[bytes]]:
    """The stream cut once at each byte, and by single bytes."""
    for at in range(1, len(text)):
        yield [text[:at], text[at:]]
    yield [text[at:at + 1] for at in range(len(text))]


def main() -> int:
    parser = argparse.ArgumentParser(usage=__doc__.split("\n\n")[1].removeprefix("usage: "))
    parser.add_argument("--listen", action="store_true")
    parser.add_argument("--stack", action="store_true")
    parser.add_argument("program", type=os.path.abspath)
    parser.add_argument("count", type=int, nargs="?", default=20)
    parser.add_argument("first", type=int, nargs="?", default=1)
    given = parser.parse_args()
    command, count, first = listened(given.program) if given.listen else [given.program], given.count, given.first
    played = wrong = 0
    with tempfile.TemporaryDirectory() as folder, concurrent.futures.ThreadPoolExecutor(os.cpu_count()) as pool:
        put_files(folder, {**hostile.FILES, STACK: b"push 2\nprint\n"})
        for seed in range(first, first + count):
            text = stream(seed, STACK if given.stack else "stop.pl0")
            whole, all_cuts = came_of(command, folder, [text]), list(cuts(text))
            for pieces, came in zip(all_cuts, pool.map(lambda some: came_of(command, folder, some), all_cuts)):
                played += 1
                if came != whole:
                    wrong += 1
                    print(f"seed {seed}, {text!r}, {len(pieces)} pieces, the first of {len(pieces[0])} bytes: {came}, and "
                          f"not {whole}", flush=True)
    name = os.path.basename(given.program) + " behind listen.py" * given.listen
    print(f"{name}: {count} streams from seed {first} on, cut in {played} ways: {wrong} differ")
    return 1 if wrong else 0


if __name__ == "__main__":
    sys.exit(main())
