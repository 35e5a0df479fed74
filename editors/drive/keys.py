#!/usr/bin/env python3
"""Types keys into Emacs in a terminal, and looks what reaches the adapter.

usage: keys.py TRANSCRIPT COMMAND..

COMMAND starts the adapter, with tools/record.py somewhere in it, which writes TRANSCRIPT. Commands are typed by name
and by key, at a stop and in a loop that may write without end; letters in a prompt, in a search and in another buffer
while a stop arrives, which may neither act as keys nor change the program; and mistakes, which have to be marked if
`pl0` is on the path. Ends with status 1 where something doesn't come in time, or comes and shouldn't, or Emacs takes
too much memory. Needs tmux, and emacs with dap-mode.
"""
from __future__ import annotations

import contextlib
import os
import shlex
import shutil
import subprocess
import sys
import tempfile
import time
from collections.abc import Callable, Iterator

TOP = os.path.realpath(os.path.join(os.path.dirname(os.path.realpath(__file__)), "..", ".."))
EMACS = """(progn (require 'package) (package-initialize) (setq inhibit-startup-screen t)
(setq lsp-session-file "./session" dap-breakpoints-file "./breakpoints" native-comp-async-report-warnings-errors nil)
(setq frame-background-mode 'light) (frame-set-background-mode nil)
(load "{top}/editors/emacs/pl0-dap.el" nil t) (setq pl0-dap-command '({command})))"""
LIMIT = float(os.environ.get("DRIVE_SECONDS", "60"))  # seconds for each thing that has to come
SOON = float(os.environ.get("DRIVE_SOON", "3"))  # seconds for a stop after a step
REST, PAUSE = 0.3, 1.0  # seconds after each key, and before the first one at a stop
FLOOD, MOST_MEMORY = 10.0, 400  # seconds of numbers, and the MB that Emacs may take then
FRAMES = '"command":"stackTrace","request_seq"'
STEPS = '"command":"next"', '"command":"stepIn"', '"command":"stepOut"'
PAUSE_LATER = "M-:", " (run-with-timer 3 nil 'call-interactively 'pl0-dap-pause) ", "Enter"


class Wrong(Exception):
    """Something didn't come, or came and shouldn't."""


class Terminal:
    """A terminal in which a command runs, in a folder of its own that is its home."""

    def __init__(self, folder: str, *command: str):
        self.name = f"pl0dap-{os.getpid()}"
        settings = "set", "-g", "status", "off", ";", "set", "-g", "default-terminal", "screen-256color", ";"
        run = f"env HOME={shlex.quote(folder)} {shlex.join(command)}"
        self.do("start-server", ";", *settings, "new-session", "-d", "-x", "134", "-y", "42", "-c", folder, run)

    def do(self, *words: str) -> str:
        words = "tmux", "-L", self.name, "-f", os.devnull, *words
        return subprocess.run(words, capture_output=True, text=True).stdout

    def type(self, *keys: str) -> None:
        """Presses keys by their names; what has blanks around it is typed letter by letter."""
        for key in keys:
            self.do("send-keys", *(["-l", key[1:-1]] if key.startswith(" ") else [key]))
            time.sleep(REST)

    def press(self, *keys: str) -> None:
        """Presses keys once what came before is shown."""
        time.sleep(PAUSE)
        self.type(*keys)

    def process(self) -> str:
        """The number of the command's process; nothing where it has ended."""
        return self.do("list-panes", "-F", "#{pane_pid}").strip()

    def memory(self) -> int:
        """The MB that the command takes."""
        with open(f"/proc/{self.process()}/status", encoding="ascii") as file:
            return next(int(line.split()[1]) // 1024 for line in file if line.startswith("VmRSS"))

    def screen(self) -> str:
        return self.do("capture-pane", "-p")

    def end(self) -> None:
        """Ends the command, which writes to its folder until then."""
        process = self.process()
        self.do("kill-server")
        must("the command's end", lambda: not process or not os.path.exists(f"/proc/{process}"))


def must(what: str, holds: Callable[[], bool], limit: float = LIMIT) -> None:
    """Waits until this holds."""
    until = time.monotonic() + limit
    while not holds():
        if time.monotonic() > until:
            raise Wrong(f"{what} doesn't come within {limit:.0f} s")
        time.sleep(0.1)


class Transcript:
    """What was said between the editor and the adapter, of which each part is waited for behind the one before."""

    def __init__(self, place: str):
        self.place, self.read = place, 0

    def must(self, *parts: str, limit: float = LIMIT) -> None:
        for part in parts:
            must(part, lambda: self.has(part), limit)

    def must_not(self, *parts: str) -> None:
        if found := [part for part in parts if self.has(part)]:
            raise Wrong(f"{', '.join(found)} comes")

    def has(self, part: str) -> bool:
        if not os.path.exists(self.place):
            return False
        with open(self.place, encoding="utf-8") as file:
            at = file.read().find(part, self.read)
        self.read = at + len(part) if at >= 0 else self.read
        return at >= 0


def named(command: str) -> tuple[str, ...]:
    return "M-x", f" {command} ", "Enter"


def key(word: str) -> tuple[str, ...]:
    """The key of the command that the header line calls by this word."""
    return "C-c", f"C-{word[0].lower()}"


def stops_and_back(terminal: Terminal, said: Transcript) -> None:
    """Conditions, letters in a search, steps in both directions by names and keys, a value, and the program's end."""
    terminal.type("M-g", "g", " 9 ", "Enter", *named("dap-breakpoint-add"), *named("dap-breakpoint-condition"),
                  " k = 8 ", "Enter", *named("dap-debug"), " PL/0 ", "Enter")
    said.must('"condition":"k = 8"', '"reason":"breakpoint"', FRAMES)
    for keys, condition in ((named("dap-breakpoint-condition"), "k + n - n = 8"),
                            (("C-s", " nice ", "Enter", "M-g", "g", " 9 ", "Enter", *key("When")), "k + k - k = 8"),
                            ((*key("Variables"), *key("Frames"), *key("When")), "k + n - k = 8")):
        terminal.press(*keys, "C-a", "C-k", f" {condition} ", "Enter")
        said.must(f'"condition":"{condition}"', '"command":"setBreakpoints","request_seq"')
    Transcript(said.place).must_not(*STEPS)
    for keys, name in ((named("pl0-dap-step-back"), "stepBack"), (key("Back"), "stepBack"),
                       (named("pl0-dap-reverse-continue"), "reverseContinue"), (key("Continue"), "continue"),
                       (key("Reverse"), "reverseContinue"), (key("Continue"), "continue"), (key("Next"), "next"),
                       (key("In"), "stepIn"), (key("Out"), "stepOut")):
        terminal.press(*keys)
        said.must(f'"command":"{name}","request_seq"', '"event":"stopped"', FRAMES, limit=SOON)
    terminal.press(*key("Evaluate"), " k ", "Enter")
    said.must('"command":"evaluate","request_seq"')
    terminal.press(*key("Continue"))
    said.must('"event":"terminated"')


def pauses(terminal: Terminal, said: Transcript) -> None:
    """Pauses by key, by name and while something else is typed, which does nothing, and the end at the user's wish."""
    for keys, letters, shown, end in (
            (key("Pause"), (), "", ()), (named("pl0-dap-pause"), (), "", ()),
            ((*PAUSE_LATER, "M-x", " n "), (" ice! ",), "M-x nice!", ("C-a", "C-k", " ignore ", "Enter")),
            ((*PAUSE_LATER, "C-s", " while "), (" nic ",), "whilenic", ("Enter",)),
            ((*PAUSE_LATER, "C-x", "b", " *scratch* ", "Enter", " n "), (" i ",), "Buffer is read-only", ())):
        terminal.press(*keys)
        said.must('"command":"pause","request_seq"', '"reason":"pause"', FRAMES)
        terminal.press(*letters)
        must(shown, lambda: shown in terminal.screen())
        terminal.press(*end, *key("Continue"))
        said.must('"command":"continue","request_seq"')
    terminal.press(*key("Quit"))
    said.must('"command":"disconnect"')
    Transcript(said.place).must_not(*STEPS)


def flood(terminal: Terminal, said: Transcript) -> None:
    """A pause in a loop that writes without end; how much memory is taken, and how soon the stop is shown."""
    time.sleep(FLOOD)
    taken, begin = terminal.memory(), time.monotonic()
    terminal.type(*key("Pause"))
    said.must('"reason":"pause"', FRAMES)
    print(f"after {FLOOD:.0f} s of numbers: {taken} MB, and stopped {time.monotonic() - begin:.1f} s after the key")
    if taken > MOST_MEMORY:
        sys.exit(f"more than {MOST_MEMORY} MB")
    terminal.press(*key("Quit"))
    said.must('"command":"disconnect"')


def is_as_before(terminal: Terminal) -> None:
    """After a session the program has neither the debugger's keys nor another text."""
    must("a program without keys", lambda: "C-c C-LETTER:" not in terminal.screen())
    terminal.press("C-x", "C-s")
    must("an unchanged text", lambda: "No changes need to be saved" in terminal.screen())


def marks(terminal: Terminal) -> None:
    """How many mistakes are marked in a text that is too long, in a program, and in one with a mistake."""
    for keys, count in ((("M-:", " (insert (make-string 120000 ?x)) ", "Enter"), 1),
                        (("C-x", "h", "C-w", " . "), 0), ((" x ",), 1)):
        terminal.type(*keys)
        must(f"the count of {count} mistakes", lambda: f"Flymake[{count}" in terminal.screen())


@contextlib.contextmanager
def emacs(adapter: list[str]) -> Iterator[Terminal]:
    """Emacs with factorial.pl0 in a folder of its own. Where something is wrong, this script ends, and prints it."""
    start = EMACS.format(top=TOP, command=" ".join(f'"{word}"' for word in adapter))
    with tempfile.TemporaryDirectory() as folder:
        for name in (("examples", "factorial.pl0"), ("demo", "endless.pl0")):
            shutil.copy(os.path.join(TOP, *name), folder)
        with open(os.path.join(folder, "writes.pl0"), "w", encoding="ascii") as written:
            written.write("while 1 = 1 do ! 1.\n")
        terminal = Terminal(folder, "emacs", "-nw", "-q", "--eval", start, "factorial.pl0")
        try:
            must("a mode for the program", lambda: "(PL/0" in terminal.screen())
            yield terminal
        except Wrong as wrong:
            sys.exit(f"{wrong}. The terminal shows:\n{terminal.screen()}")
        finally:
            terminal.end()


def main() -> None:
    place, *adapter = sys.argv[1:]
    with emacs(adapter) as terminal:
        stops_and_back(terminal, Transcript(place))
        is_as_before(terminal)
        for name, play in (("endless.pl0", pauses), ("writes.pl0", flood)):
            os.remove(place)  # the next session writes it anew
            terminal.type("C-x", "C-f", f" {name} ", "Enter", *key("Debug"), " PL/0 ", "Enter")
            said = Transcript(place)
            said.must('"command":"configurationDone","request_seq"')
            play(terminal, said)
            is_as_before(terminal)
        if shutil.which("pl0"):
            marks(terminal)


if __name__ == "__main__":
    main()
