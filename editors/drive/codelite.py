#!/usr/bin/env python3
"""CodeLite debugs a program on a display of its own: keys and the mouse are pressed for it, and what it shows isn't
looked at.

usage: codelite.py SESSION COMMAND..

SESSION is factorial, endless or writes. COMMAND starts the adapter, or the proxy before it. Ends with status 0 once all
is pressed, and CodeLite took no more memory than it may; the session is in the proxy's transcript. Needs codelite (17),
Xvfb and xdotool. CodeLite's settings are in a folder that is removed afterwards. It has no window manager, and so the
window's place, and that of all in it, is always the same.
"""
from __future__ import annotations

import json
import os
import re
import shlex
import socket
import subprocess
import sys
import time

from screen import Screen

TOP = os.path.realpath(os.path.join(os.path.dirname(__file__), "..", ".."))
LISTEN = os.path.join(TOP, "editors", "listen.py")
SETTINGS = os.path.join(TOP, "editors", "codelite", "debug-adapter-client.conf")
START, REST = 60, 2.0  # seconds that CodeLite gets at most to start, and after each press
MOST_MEMORY = 400 * 1024  # that CodeLite may take, in KiB
MEMORY = re.compile(r"^VmHWM:\s+([0-9]+) kB$", re.MULTILINE)
WRITES = "writes.pl0", "var n;\nwhile 0 = 0 do\nbegin\n  n := n + 1;\n  ! n\nend.\n"
LONG = float(os.environ.get("DRIVE_SECONDS", "8"))  # seconds that the adapter gets to start
# What CodeLite has debugged before: it takes the program only from the list of these, and no path that was typed just
# now.
DEBUGGED = """<?xml version="1.0" encoding="utf-8"?>
<CodeLite Version="2.0.2">
  <ArchiveObject Name="QuickDebugDlg">
    <wxString Value="" Name="m_arguments"/>
    <wxArrayString Name="m_exeFilepaths">
      <wxString Value="%s"/>
    </wxArrayString>
    <int Value="1" Name="m_selectedDbg"/>
    <wxArrayString Name="m_startCmds"/>
    <wxArrayString Name="m_wds">
      <wxString Value="%s"/>
    </wxArrayString>
    <wxString Value="" Name="m_alternateDebuggerExec"/>
  </ArchiveObject>
</CodeLite>
"""
LINE_9, MENU = (600, 339), (483, 92)
# How far down the menu Debugger each stands.
START_OR_CONTINUE, PAUSE, STOP, NEXT, TOGGLE, QUICK_DEBUG = 117, 217, 243, 318, 471, 572
OK = (644, 583)  # of the window Quick Debug, in which adapter and program are those of the settings
MAIN, FACTORIAL = (634, 461), (634, 440)  # open the scopes of the newest frame, the lower one first


def click(screen: Screen, place: tuple[int, int]) -> None:
    screen.do("mousemove", str(place[0]), str(place[1]), "click", "1")
    time.sleep(REST)


def choose(screen: Screen, down: int) -> None:
    """Chooses a line of the menu Debugger."""
    click(screen, MENU)
    click(screen, (MENU[0] + 20, down))


def free_port() -> str:
    with socket.create_server(("127.0.0.1", 0)) as server:
        return str(server.getsockname()[1])


def settings(home: str, program: str, command: list[str]) -> None:
    """CodeLite's settings: the adapter as editors/codelite has it, but by this command and port; no wizard and no
    questions."""
    with open(SETTINGS, encoding="utf-8") as file:
        (adapter,) = json.load(file)
    address, _, written = adapter["connection_string"].rpartition(":")
    if written not in adapter["command"].split():
        sys.exit(f"{SETTINGS} has two ports")
    port = free_port()
    adapter["connection_string"] = f"{address}:{port}"
    adapter["command"] = shlex.join([sys.executable, LISTEN, port, *command])
    folder = os.path.join(home, ".codelite", "config")
    os.makedirs(folder)
    with open(os.path.join(folder, "codelite.xml"), "w", encoding="utf-8") as file:
        file.write(DEBUGGED % (program, TOP))
    for name, text in {
        "debug-adapter-client.conf": [adapter],
        "plugins.conf": {"codelite-plugins": {"enabledPlugins": ["DebugAdapterClient"]}},
        "codelite.conf": {"General": {"BootstrapCompleted": True, "ColoursAdjusted": True, "LexersVersion": 7}},
    }.items():
        with open(os.path.join(folder, name), "w", encoding="utf-8") as file:
            json.dump(text, file)


def wait_for_window(screen: Screen, program: str) -> None:
    until = time.monotonic() + START
    while not screen.do("search", "--onlyvisible", "--name", os.path.basename(program)):
        if time.monotonic() > until:
            sys.exit("CodeLite has no window")
        time.sleep(1)
    time.sleep(LONG)


def start(screen: Screen) -> None:
    """Debugs the program that was debugged before."""
    choose(screen, QUICK_DEBUG)
    click(screen, OK)
    time.sleep(LONG)


def factorial(screen: Screen) -> None:
    """A breakpoint, a stop, the variables of two scopes, the breakpoint taken away, a step, and the program's end."""
    click(screen, LINE_9)
    screen.do("key", "F9")
    start(screen)
    click(screen, MAIN)
    click(screen, FACTORIAL)
    choose(screen, TOGGLE)
    choose(screen, NEXT)
    choose(screen, START_OR_CONTINUE)
    time.sleep(REST)


def endless(screen: Screen) -> None:
    """A pause before a first stop, another one, and a stop at the user's wish."""
    start(screen)
    for name in (PAUSE, START_OR_CONTINUE, PAUSE, START_OR_CONTINUE, STOP):
        choose(screen, name)
        time.sleep(REST)


def writes(screen: Screen) -> None:
    """A pause in a loop that writes without end, and a stop at the user's wish in the same loop."""
    start(screen)
    for name in (PAUSE, START_OR_CONTINUE, STOP):
        choose(screen, name)
        time.sleep(LONG)


def memory(process: int) -> int:
    """The most memory that a process had so far, in KiB."""
    with open(f"/proc/{process}/status", encoding="ascii") as file:
        return int(MEMORY.search(file.read())[1])


SESSIONS = {
    "factorial": (os.path.join(TOP, "examples", "factorial.pl0"), factorial),
    "endless": (os.path.join(TOP, "demo", "endless.pl0"), endless),
    "writes": (WRITES[0], writes),
}


def main() -> int:
    place, debug = SESSIONS[sys.argv[1]]
    with Screen(1200, 800) as screen:
        program = os.path.join(screen.folder.name, place)
        with open(os.path.join(screen.folder.name, WRITES[0]), "w", encoding="ascii") as file:
            file.write(WRITES[1])
        settings(screen.folder.name, program, sys.argv[2:])
        said = subprocess.DEVNULL
        codelite = subprocess.Popen(["codelite", program], env=screen.settings, stdout=said, stderr=said)
        try:
            wait_for_window(screen, program)
            debug(screen)
            taken = memory(codelite.pid)
        finally:
            codelite.terminate()
            try:
                codelite.wait(timeout=10)
            except subprocess.TimeoutExpired:
                codelite.kill()
                codelite.wait()
    print(f"CodeLite took at most {taken // 1024} MB")
    return 1 if taken > MOST_MEMORY else 0


if __name__ == "__main__":
    sys.exit(main())
