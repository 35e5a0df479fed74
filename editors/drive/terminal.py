#!/usr/bin/env python3
"""Takes a picture of Emacs in a terminal, at a stop of factorial.pl0.

usage: terminal.py PICTURE TRANSCRIPT COMMAND..

COMMAND and TRANSCRIPT are those of keys.py. Keys bring Emacs to the stop, and show variables, frames and what a log
point has written. PICTURE gets a PNG of it, in xterm on a display of its own. Ends with status 1 where something
doesn't come in time. Needs what keys.py does, xterm, Xvfb and xdotool.
"""
from __future__ import annotations

import subprocess
import sys

from keys import FRAMES, Transcript, emacs, key, must
from screen import Screen

TERMINAL = ("xterm", "-tn", "xterm-256color", "-fa", "DejaVu Sans Mono", "-fs", "10", "-bg", "white", "-fg", "black",
            "-ms", "white", "-geometry", "134x42+0+0")  # the mouse is white too
OPEN, OTHER_WINDOW = "Tab", ("C-x", "o")


def main() -> None:
    picture, place, *adapter = sys.argv[1:]
    with Screen(1076, 720) as screen, emacs(adapter) as terminal:
        shown = subprocess.Popen([*TERMINAL, "-e", "tmux", "-L", terminal.name, "attach"], env=screen.settings)
        terminal.type("M-g", "g", " 9 ", "Enter", *key("Toggle"), *key("Log"), " k is {k}, n {n} ", "Enter",
                      "Down", *key("Toggle"), *key("When"), " k = 8 ", "Enter", *key("Debug"), " PL/0 ", "Enter")
        Transcript(place).must('"reason":"breakpoint"', FRAMES)
        terminal.press(*key("Variables"), *key("Frames"), *OTHER_WINDOW, *OTHER_WINDOW, "C-u", " 28 ", "C-x", "}")
        terminal.press(OPEN, "Down", OPEN)
        must("the frames", lambda: "factorial.pl0:16)" in terminal.screen())
        terminal.press(*OTHER_WINDOW, *OTHER_WINDOW)
        screen.take(picture)
        shown.terminate()
        shown.wait()


if __name__ == "__main__":
    main()
