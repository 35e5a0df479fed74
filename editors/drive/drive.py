#!/usr/bin/env python3
"""Plays the editors' sessions to the adapter, then lets the editors that are installed debug a program with it.

usage: drive.py PL0DAP PL0DAP_FROM_ZERO PL0 STACK_ADAPTER

First, sessions that were recorded, or written by what is known of an editor, are played by replay.py: those of editors
that number their requests from 0 to the second program, and Kate's by listen.py; and listening.py looks at what that
changes. Then Emacs, Kate and CodeLite debug programs, Emacs also one of the stack language by STACK_ADAPTER, and Neovim
shows a mistake. out/ gets a transcript of each session, a picture of Emacs and one of Kate at a stop; with RECORD=1
docs/ does, but for the session by STACK_ADAPTER, and those with a mistake or a loop that writes without end. PL0 says
what is wrong with a text. Nothing is installed. Status 0: all that was wanted was done. Status 1: the adapter sent
something else than a session says, or an editor failed. Status 2: only an editor, or what a picture needs, is missing.
"""
from __future__ import annotations

import os
import shutil
import subprocess
import sys
import tempfile

from screen import NEEDED

DRIVE = os.path.dirname(os.path.realpath(__file__))
TOP = os.path.realpath(os.path.join(DRIVE, "..", ".."))
RECORDINGS = os.path.join(TOP, "docs", "editors")
RECORD = os.path.join(TOP, "tools", "record.py")
LISTEN = [sys.executable, os.path.join(TOP, "editors", "listen.py"), "-"]
PROGRAMS = (("examples", "factorial.pl0"), ("crates", "check_runs", "data", "mistake.pl0"))
OUT = os.path.join(TOP, "out")
MADE_IN = os.path.join(TOP, "docs") if os.environ.get("RECORD") == "1" else OUT
PICTURES = os.path.join(MADE_IN, "pictures")
WRITTEN = ("vscode.txt", "vscode_back.txt", "vscode_log.txt", "neovim.txt", "neovim_back.txt", "from_zero.txt")
# Those of editors that number their requests from 0, of which Kate's are with listen.py.
KATE = ("kate.txt", "kate_condition.txt", "kate_endless.txt", "kate_words.txt")
FROM_ZERO = (*KATE, "neovim.txt", "neovim_back.txt")
RECORDED = (
    "emacs.txt", "emacs_back.txt", "emacs_fault.txt", "emacs_endless.txt", "emacs_refused.txt", *KATE, "codelite.txt",
    "codelite_endless.txt",
)
# What a session comes to: the program's end, where nothing else is said. Emacs kills the proxy at `exited`.
AT_THE_END, BY_DISCONNECT, BY_PAUSE = '"event":"terminated"', '"command":"disconnect","request_seq"', '"reason":"pause"'
BY_KILL = '"event":"exited"'
ENDINGS = {
    "emacs.txt": BY_KILL, "emacs_back.txt": BY_KILL, "emacs_refused.txt": BY_KILL, "emacs_mistake.txt": BY_KILL,
    "emacs_fault.txt": BY_DISCONNECT, "emacs_endless.txt": BY_DISCONNECT, "emacs_own.txt": BY_DISCONNECT,
    "codelite_endless.txt": BY_PAUSE, "codelite_writes.txt": BY_PAUSE, "kate_mistake.txt": '"output":"2\\n"',
    "kate_endless.txt": BY_DISCONNECT, "kate_words.txt": BY_DISCONNECT, "kate_writes.txt": BY_DISCONNECT,
}
KEYS = "emacs_keys_writes.txt"
HAS_DAP_MODE = "(progn (require 'package) (package-initialize) (require 'dap-ui))"


def command_of(session: str, program: str, from_zero: str) -> list[str]:
    """The command that serves the session of this name."""
    return [*LISTEN * (session in KATE), from_zero if session in FROM_ZERO else program]


def replay(program: str, from_zero: str) -> bool:
    """Whether the adapter sends what the sessions say, and listen.py changes of it what it says."""
    played: dict[tuple[str, ...], list[str]] = {}
    for folder, names in ((DRIVE, WRITTEN), (RECORDINGS, RECORDED)):
        for name in names:
            played.setdefault((*command_of(name, program, from_zero),), []).append(os.path.join(folder, name))
    play = [sys.executable, os.path.join(DRIVE, "replay.py")]
    statuses = [subprocess.run([*play, *sessions, "--", *command]).returncode for command, sessions in played.items()]
    statuses.append(subprocess.run([sys.executable, os.path.join(DRIVE, "listening.py"), program]).returncode)
    return not any(statuses)


def place_of(name: str) -> str:
    """Where a transcript is written: not where those are kept that are played, if it has paths of this computer, is long,
    or is another adapter's."""
    is_kept = not name.endswith(("_mistake.txt", "_writes.txt", "_own.txt"))
    return os.path.join(MADE_IN if is_kept else OUT, "editors", name)


def proxy(name: str, *program: str) -> list[str]:
    """The command that an editor starts in place of the adapter. A former transcript of this name is removed."""
    place = place_of(name)
    os.makedirs(os.path.dirname(place), exist_ok=True)
    if os.path.exists(place):
        os.remove(place)
    return [sys.executable, RECORD, "--folder", TOP, place, *program]


def missing_for_emacs() -> list[str]:
    if not shutil.which("emacs"):
        return ["emacs", "its package dap-mode"]
    tried = subprocess.run(["emacs", "--batch", "--eval", HAS_DAP_MODE], capture_output=True)
    return ["Emacs' package dap-mode"] if tried.returncode else []


def missing(*names: str) -> list[str]:
    return [name for name in names if not shutil.which(name)]


def picture(name: str) -> str:
    os.makedirs(PICTURES, exist_ok=True)
    return os.path.join(PICTURES, name)


def has_ended(name: str) -> bool:
    """Whether there is a transcript, and it goes to the end of its session."""
    place = place_of(name)
    if not os.path.exists(place):
        return False
    with open(place, encoding="utf-8") as file:
        return ENDINGS.get(name, AT_THE_END) in file.read()


def transcript(editor: str, session: str) -> str:
    return f"{editor}.txt" if session == "factorial" else f"{editor}_{session}.txt"


def drive_emacs(session: str, program: str) -> bool:
    """Lets Emacs debug; but for another adapter than PL/0's listen.py stands in front of the proxy."""
    driver, name = os.path.join(DRIVE, "emacs.el"), transcript("emacs", session)
    words = [*LISTEN * (session != "own"), *proxy(name, program)]
    status = subprocess.run(["emacs", "--batch", "--load", driver, "--", session, *words]).returncode
    return status == 0 and has_ended(name)


def type_keys(_session: str, program: str) -> bool:
    words = [sys.executable, os.path.join(DRIVE, "keys.py"), place_of(KEYS), *LISTEN, *proxy(KEYS, program)]
    return subprocess.run(words).returncode == 0


def drive_kate(session: str, program: str) -> bool:
    driver, name = os.path.join(DRIVE, "kate.py"), transcript("kate", session)
    words = [sys.executable, driver, session, picture("kate.png"), *proxy(name, *LISTEN, program)]
    return subprocess.run(words).returncode == 0 and has_ended(name)


def drive_codelite(session: str, program: str) -> bool:
    driver, name = os.path.join(DRIVE, "codelite.py"), transcript("codelite", session)
    status = subprocess.run([sys.executable, driver, session, *proxy(name, program)]).returncode
    return status == 0 and has_ended(name)


def drive_neovim(_session: str, _program: str) -> bool:
    with tempfile.TemporaryDirectory() as folder:
        for place in PROGRAMS:
            shutil.copy(os.path.join(TOP, *place), folder)
        script = "luafile " + os.path.join(DRIVE, "neovim.lua").replace(" ", "\\ ")
        words = ["nvim", "--headless", "--clean", "-c", script]
        return subprocess.run(words, env={**os.environ, "NEOVIM_PROGRAMS": folder}).returncode == 0


def take_picture(_session: str, program: str) -> bool:
    words = [sys.executable, os.path.join(DRIVE, "terminal.py"), picture("emacs.png"), place_of(KEYS), *LISTEN]
    return subprocess.run([*words, *proxy(KEYS, program)]).returncode == 0


def drive_all(program: str, from_zero: str, stack: str) -> tuple[bool, bool]:
    """Lets the editors that are installed debug programs: whether none failed, and whether all were driven."""
    is_right, is_whole = True, True
    emacs, display, pl0 = missing_for_emacs(), missing(*NEEDED), missing("pl0")
    for editor, lacks, sessions, drive, started in (
        ("Emacs", emacs, ("factorial", "back", "fault", "endless", "refused"), drive_emacs, program),
        ("Emacs, by keys", emacs + missing("tmux"), ("keys",), type_keys, program),
        ("Emacs with an adapter of one's own", emacs, ("own",), drive_emacs, stack),
        ("Emacs at a mistake", emacs + pl0, ("mistake",), drive_emacs, program),
        ("Emacs in a terminal", emacs + missing("tmux", "xterm") + display, ("picture",), take_picture, program),
        ("Kate", missing("kate") + display, ("factorial", "condition", "endless", "words", "writes", "mistake"),
         drive_kate, from_zero),
        ("CodeLite", missing("codelite") + display, ("factorial", "endless", "writes"), drive_codelite, program),
        ("Neovim", missing("nvim") + pl0, ("mistake",), drive_neovim, from_zero),
    ):
        if lacks:
            is_whole = False
            print(f"{editor} was not driven. Missing: {', '.join(lacks)}. docs/CLIENTS.md names the packages.",
                  flush=True)
            continue
        for session in sessions:
            print(f"{editor}, session {session}:", flush=True)
            done = drive(session, started)
            is_right = is_right and done
            print(f"{editor} was driven." if done else f"{editor} failed.", flush=True)
    return is_right, is_whole


def main() -> int:
    if len(sys.argv) != 5:
        print(__doc__, file=sys.stderr)
        return 4
    program, from_zero, pl0, stack = map(os.path.abspath, sys.argv[1:])
    with tempfile.TemporaryDirectory() as folder:
        if os.access(pl0, os.X_OK):
            os.symlink(pl0, os.path.join(folder, "pl0"))
        os.environ["PATH"] = f"{folder}{os.pathsep}{os.environ['PATH']}"
        print("Sessions, played to the adapter:", flush=True)
        is_right = replay(program, from_zero)
        none_failed, is_whole = drive_all(program, from_zero, stack)
    return 1 if not (is_right and none_failed) else 0 if is_whole else 2


if __name__ == "__main__":
    sys.exit(main())
