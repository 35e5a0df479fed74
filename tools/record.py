#!/usr/bin/env python3
"""Stands between an editor and its debug adapter, passes on what each sends, and records it.

usage: record.py [--folder FOLDER] TRANSCRIPT PROGRAM [ARGUMENT..]

An editor starts this in place of the adapter PROGRAM. Bytes are passed on as they come. In TRANSCRIPT, each content is
a line: `->` for what the editor sends, `<-` for what it is sent. A content that is sent in several lines is recorded in
one, and a remark says so once. Other remarks begin with # as well: the end of the editor's input, signals, how the
adapter ended. A signal that ends the editor's child is passed on; SIGKILL can't be. FOLDER, which stands for the place
of the program under debugging, is recorded as ${folder}.
"""
from __future__ import annotations

import argparse
import json
import os
import signal
import subprocess
import sys
import threading
import time

sys.path.insert(0, os.path.join(os.path.dirname(os.path.realpath(__file__)), "..", "checks"))
from lib.client import ANY_HEADER, Frames  # noqa: E402

AT_ONCE = 65536
SIGNALS = (signal.SIGTERM, signal.SIGHUP, signal.SIGINT)


class Transcript:
    """The record of a session, to which both directions write."""

    def __init__(self, path: str, folder: str | None):
        self.file = open(path, "w", encoding="utf-8")
        self.folder = folder
        self.lock = threading.RLock()
        self.is_indented = False
        self.last = time.monotonic()

    def line(self, text: str) -> None:
        """Writes a line, with a name for the folder."""
        with self.lock:
            self.file.write((text.replace(self.folder, "${folder}") if self.folder else text) + "\n")
            self.file.flush()

    def content(self, arrow: str, content: str) -> None:
        """Writes a content on one line, behind an arrow."""
        with self.lock:
            if "\n" in content:
                content = self.joined(content)
            self.last = time.monotonic()
            self.line(f"{arrow} {content}")

    def joined(self, content: str) -> str:
        """A content of several lines in one; the first time, a remark."""
        if not self.is_indented:
            self.is_indented = True
            self.line("# indented: the editor's contents have several lines, and end with a line feed")
        try:
            return json.dumps(json.loads(content), ensure_ascii=False, separators=(",", ":"))
        except ValueError:
            return json.dumps(content, ensure_ascii=False)

    def remark(self, text: str) -> None:
        with self.lock:
            self.line(f"# {text}, {1000 * (time.monotonic() - self.last):.1f} ms after the last message")


def pass_on(source: int, target: int, transcript: Transcript, arrow: str) -> None:
    """Passes on what comes, until nothing comes or nobody takes it. Each content is recorded before its last byte is
    passed on."""
    contents = Frames(ANY_HEADER)
    while piece := os.read(source, AT_ONCE):
        contents.take(piece)
        for content in contents:
            transcript.content(arrow, content.decode("utf-8", "backslashreplace"))
        while piece:
            piece = piece[os.write(target, piece) :]
    if contents.rest:
        transcript.remark(f"{arrow} {len(contents.rest)} bytes that are no whole frame")


def take_input(child: subprocess.Popen, transcript: Transcript) -> None:
    try:
        pass_on(sys.stdin.fileno(), child.stdin.fileno(), transcript, "->")
        transcript.remark("the editor closed the adapter's input")
    except BrokenPipeError:
        transcript.remark("the editor sent more after the adapter's end")
    child.stdin.close()


def take_output(child: subprocess.Popen, transcript: Transcript) -> None:
    try:
        pass_on(child.stdout.fileno(), sys.stdout.fileno(), transcript, "<-")
    except BrokenPipeError:
        transcript.remark("the editor closed the adapter's output")
    child.stdout.close()


def main() -> int:
    parser = argparse.ArgumentParser(description="Records what an editor and its debug adapter say to each other.")
    parser.add_argument("--folder", help="recorded as ${folder}")
    parser.add_argument("transcript")
    parser.add_argument("program", nargs=argparse.REMAINDER)
    given = parser.parse_args()
    transcript = Transcript(given.transcript, given.folder)
    with subprocess.Popen(given.program, stdin=subprocess.PIPE, stdout=subprocess.PIPE, bufsize=0) as child:

        def signalled(number: int, _frame: object) -> None:
            transcript.remark(f"the editor sent {signal.Signals(number).name}")
            child.send_signal(number)

        for number in SIGNALS:
            signal.signal(number, signalled)
        threading.Thread(target=take_input, args=(child, transcript), daemon=True).start()
        output = threading.Thread(target=take_output, args=(child, transcript))
        output.start()
        status = child.wait()
        output.join()
        transcript.remark(f"the adapter ended with {status}" if status >= 0
                          else f"the adapter ended by signal {-status}")
    return status if status >= 0 else 128 - status


if __name__ == "__main__":
    os._exit(main())  # a read of the editor's input may still wait
