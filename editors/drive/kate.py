#!/usr/bin/env python3
"""Kate debugs a program on a display of its own: keys are pressed for it, and what it shows isn't looked at.

usage: kate.py SESSION PICTURE COMMAND..

SESSION is factorial, condition, endless, words, writes or mistake. COMMAND starts the adapter, or the proxy before it.
Ends with status 0 once all keys are pressed; the session is in the proxy's transcript. PICTURE gets a picture of the
last stop at a breakpoint of factorial. Needs kate (22.12), Xvfb and xdotool; the icons are those of breeze-icon-theme,
where it is installed. Kate's settings are in a folder that is removed afterwards.
"""
from __future__ import annotations

import json
import os
import subprocess
import sys
import time

from screen import Screen

TOP = os.path.realpath(os.path.join(os.path.dirname(__file__), "..", ".."))
FACTORIAL, ENDLESS, OVERFLOW = (
    os.path.join(TOP, *place)
    for place in (("examples", "factorial.pl0"), ("demo", "endless.pl0"), ("demo", "overflow.pl0")))
# Programs that the driver writes: one with a mistake, and one that writes without end.
TYPED = {
    "typed.pl0": "begin ! x end.\n",
    "writes.pl0": "var n;\nwhile 0 = 0 do\nbegin\n  n := n + 1;\n  ! n\nend.\n",
}
START, REST = 60, 1.5  # seconds that Kate gets at most to start, and after each key
WIDTH, HEIGHT = 1200, 740
COMMANDS, TEXT = (600, 702), (600, 160)  # the line below the output, and the program
HIGHLIGHTING = ("org.kde.syntax-highlighting", "syntax", "pl0.xml")
ADAPTER = float(os.environ.get("DRIVE_SECONDS", "2"))  # seconds that the adapter gets to start
SESSION = """[Kate Plugins]
kategdbplugin=true

[Open MainWindows]
Count=1

[Plugin:kategdbplugin:MainWindow:0]
lastTarget=0
targetCount=1
target_0=%s
version=5
"""


def keys(*names: str) -> None:
    subprocess.run(["xdotool", "key", *names], check=True)
    time.sleep(REST)


def focus(screen: Screen) -> None:
    """Waits for Kate's window, lets it have the keys, and makes it as large as the display."""
    window = ("search", "--onlyvisible", "--class", "kate")
    until = time.monotonic() + START
    while not screen.do(*window, "windowfocus"):
        if time.monotonic() > until:
            sys.exit("Kate has no window")
        time.sleep(1)
    screen.do(*window, "windowmove", "0", "0", "windowsize", str(WIDTH), str(HEIGHT))
    time.sleep(2 * REST)


def action(name: str) -> None:
    """Picks an action of Kate's by its name."""
    keys("ctrl+alt+i")
    subprocess.run(["xdotool", "type", name], check=True)
    time.sleep(REST)
    keys("Return")


def write(path: str, text: str) -> None:
    os.makedirs(os.path.dirname(path), exist_ok=True)
    with open(path, "w", encoding="utf-8") as file:
        file.write(text)


def settings(home: str, program: str, configuration: str, command: list[str]) -> None:
    """Kate's settings: the adapter as editors/kate/dap.json has it, but by this command; and a session that debugs the
    program."""
    with open(os.path.join(TOP, "editors", "kate", "dap.json"), encoding="utf-8") as file:
        adapters = json.load(file)
    adapters["dap"]["pl0dap"]["run"]["command"] = command
    write(os.path.join(home, ".config", "kate", "gdbplugin", "dap.json"), json.dumps(adapters))
    target = {"debuggerKey": "pl0dap", "debuggerProfile": configuration, "target": "PL/0",
              "variables": {"file": program}}
    write(os.path.join(home, ".local", "share", "kate", "sessions", "pl0.katesession"), SESSION % json.dumps(target))
    with open(os.path.join(TOP, "editors", "kate", "pl0.xml"), encoding="utf-8") as file:
        write(os.path.join(home, ".local", "share", *HIGHLIGHTING), file.read())


def show_locals(screen: Screen) -> None:
    """Opens the view of variables and frames, and makes it so wide that the frames' lines can be read."""
    action("Show Locals and Stack")
    screen.do("mousemove", str(WIDTH - 242), "300", "mousedown", "1", "mousemove", str(WIDTH - 460), "300", "mouseup",
              "1")
    time.sleep(REST)


def factorial(screen: Screen, picture: str) -> None:
    """A breakpoint, four stops, variables and frames, a value, a step and the end."""
    focus(screen)
    keys("ctrl+F7")
    time.sleep(ADAPTER)
    action("Toggle Breakpoint")
    action("Continue")
    action("Continue")
    show_locals(screen)
    action("Continue")
    action("Continue")
    screen.take(picture)
    keys("Home", "shift+Right")
    action("Print Value")
    action("Step Over")
    keys("Up")
    action("Toggle Breakpoint")
    action("Continue")
    keys("ctrl+q")


def command(screen: Screen, text: str) -> None:
    """Types a command into the line below the output, and goes back to the program."""
    screen.do("mousemove", *map(str, COMMANDS), "click", "1")
    subprocess.run(["xdotool", "type", text], check=True)
    keys("Return")
    screen.do("mousemove", *map(str, TEXT), "click", "1")


def condition(screen: Screen, _picture: str) -> None:
    """A breakpoint, for which one with a condition is typed at its first stop, the stop where it holds, a step and the
    end."""
    focus(screen)
    keys("ctrl+F7")
    time.sleep(ADAPTER)
    action("Toggle Breakpoint")
    action("Continue")
    action("Continue")
    action("Toggle Breakpoint")
    command(screen, "b 9 when {k = 8}")
    action("Continue")
    action("Step Over")
    action("Continue")
    keys("ctrl+q")


def mistake(screen: Screen, _picture: str) -> None:
    """A refused launch, and two more once the text is mended, which Kate doesn't begin before Stop Debugging."""
    focus(screen)
    keys("ctrl+F7")
    time.sleep(ADAPTER)
    for number in (1, 2):
        write(os.path.join(screen.folder.name, "typed.pl0"), f"begin ! {number} end.\n")
        keys("F5")
        action("Stop Debugging")
        keys("ctrl+F7")
        time.sleep(ADAPTER)
        action("Continue")
    keys("ctrl+q")


def endless(screen: Screen, _picture: str) -> None:
    """Two pauses in a loop without an end, and a stop at the user's wish, which is a pause where the program runs."""
    focus(screen)
    keys("ctrl+F7")
    time.sleep(ADAPTER)
    action("Continue")
    action("Toggle Breakpoint / Break")
    action("Continue")
    action("Stop Debugging")
    action("Stop Debugging")
    keys("ctrl+q")


def words(screen: Screen, _picture: str) -> None:
    """A breakpoint that is refused, a run to the cursor, and a fault."""
    focus(screen)
    keys("ctrl+F7")
    time.sleep(ADAPTER)
    action("Continue")
    command(screen, "b 5 when {x == 1}")
    keys("ctrl+g", "4", "Return")
    action("Run To Cursor")
    action("Continue")
    action("Stop Debugging")
    keys("ctrl+q")


def writes(screen: Screen, _picture: str) -> None:
    """A pause in a loop that writes without end, and one more in the same loop, with a stop."""
    focus(screen)
    keys("ctrl+F7")
    time.sleep(ADAPTER)
    action("Continue")
    for name in ("Toggle Breakpoint / Break", "Continue", "Stop Debugging", "Stop Debugging"):
        time.sleep(2 * ADAPTER)
        action(name)
    time.sleep(2 * ADAPTER)
    keys("ctrl+q")


SESSIONS = {
    "factorial": (FACTORIAL, "9", "launch, stop at the first step", factorial),
    "condition": (FACTORIAL, "9", "launch, stop at the first step", condition),
    "endless": (ENDLESS, "1", "launch", endless),
    "words": (OVERFLOW, "4", "launch, stop at the first step", words),
    "writes": ("writes.pl0", "1", "launch", writes),
    "mistake": ("typed.pl0", "1", "launch", mistake),
}


def main() -> int:
    place, line, configuration, debug = SESSIONS[sys.argv[1]]
    with Screen(WIDTH, HEIGHT) as screen:
        program = os.path.join(screen.folder.name, place)
        if place in TYPED:
            write(program, TYPED[place])
        settings(screen.folder.name, program, configuration, sys.argv[3:])
        os.environ.update(screen.settings)
        kate = subprocess.Popen(["kate", "-s", "pl0", "-l", line, program], stderr=subprocess.DEVNULL)
        try:
            debug(screen, sys.argv[2])
            kate.wait(timeout=30)
        finally:
            kate.terminate()
            kate.wait()
    return 0


if __name__ == "__main__":
    sys.exit(main())
