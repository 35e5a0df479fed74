#!/usr/bin/env python3
"""Lets clients and types that others have written judge the adapter.

usage: outside_clients.py PL0DAP PL0DAP_FROM_ZERO STACK_ADAPTER

Microsoft's `debugpy.common.messaging` plays a session, and one to the example of a stack language. They, and the
editors' sessions that `make editors` plays, are recorded anew in out/clients/. Then each message that the adapter sent
in them is decoded by `go-dap`, which refuses unknown fields, and type-checked against Microsoft's
`@vscode/debugprotocol`. At last the extension for Visual Studio Code is loaded over a stand-in for the editor. Nothing
is installed. Status 0: all was done, and all is right. Status 1: something is wrong. Status 2: only something that is
needed is missing.
"""
import json
import os
import shutil
import subprocess
import sys

TOP = os.path.realpath(os.path.join(os.path.dirname(__file__), ".."))
OUTSIDE = os.path.join(TOP, "checks", "outside")
DRIVE = os.path.join(TOP, "editors", "drive")
RECORD = os.path.join(TOP, "tools", "record.py")
MADE = os.path.join(TOP, "out", "clients")
GO_PACKAGES, NODE_PACKAGES = "/usr/share/gocode", "/usr/share/nodejs"  # where Debian keeps them
GO_DAP = os.path.join(GO_PACKAGES, "src", "github.com", "google", "go-dap")
TYPES = os.path.join(NODE_PACKAGES, "@vscode", "debugprotocol")
MISSING = 2

sys.path.append(DRIVE)
from drive import RECORDED, RECORDINGS, WRITTEN, command_of  # noqa: E402


def recorder(name: str, *program: str) -> tuple[str, list[str]]:
    """The place of a new transcript, and the command that stands between a client and the program, and writes it."""
    place = os.path.join(MADE, name)
    if os.path.exists(place):
        os.remove(place)
    return place, [sys.executable, RECORD, place, *program]


def script(name: str) -> list[str]:
    return [sys.executable, os.path.join(OUTSIDE, name)]


def run(*words: str, **settings: str) -> int:
    return subprocess.run(words, cwd=TOP, env={**os.environ, **settings}).returncode


def play_debugpy(program: str, stack: str) -> tuple[int, list[str]]:
    """The status of debugpy's sessions, and their transcripts if there are any."""
    statuses, places = [], []
    for name, played in (("debugpy_session", program), ("debugpy_stack", stack)):
        place, command = recorder(f"{name}.txt", played)
        statuses.append(run(*script(f"{name}.py"), *command))
        places.append(place)
    if MISSING in statuses:
        print("debugpy was not asked. Missing: debugpy (Debian: python3-debugpy)", flush=True)
    wrong = [status for status in statuses if status not in (0, MISSING)]
    return max(wrong or statuses), [place for place in places if os.path.exists(place)]


def play_editors(program: str, from_zero: str) -> tuple[int, list[str]]:
    """The status of the editors' sessions, and their transcripts."""
    status, places = 0, []
    for folder, names in ((DRIVE, WRITTEN), (RECORDINGS, RECORDED)):
        for name in names:
            place, command = recorder(name, *command_of(name, program, from_zero))
            session = os.path.join(folder, name)
            status |= run(sys.executable, os.path.join(DRIVE, "replay.py"), session, "--", *command)
            places.append(place)
    return status, places


def is_missing(what: str, packages: str, *names: str) -> bool:
    """Whether a program or a folder that is needed is missing, which is said."""
    lacks = [name for name in names if not (shutil.which(name) or os.path.isdir(name))]
    if lacks:
        print(f"{what} was not asked. Missing: {', '.join(lacks)} (Debian: {packages})", flush=True)
    return bool(lacks)


def decode(places: list[str]) -> int:
    if is_missing("go-dap", "golang-go, golang-github-google-go-dap-dev", "go", GO_DAP):
        return MISSING
    binary, source = os.path.join(MADE, "strict_decoding"), os.path.join(OUTSIDE, "strict_decoding.go")
    settings = {"GO111MODULE": "off", "GOPATH": GO_PACKAGES, "GOCACHE": os.path.join(MADE, "go")}
    failed = run("go", "build", "-o", binary, source, **settings) or run(binary, *places)
    return 1 if failed else 0


def check_types(places: list[str]) -> int:
    if is_missing("TypeScript", "node-typescript, node-vscode-debugprotocol", "tsc", TYPES):
        return MISSING
    options = {"strict": True, "noEmit": True, "baseUrl": NODE_PACKAGES, "paths": {"*": ["*"]}, "types": []}
    with open(os.path.join(MADE, "tsconfig.json"), "w", encoding="utf-8") as file:
        json.dump({"compilerOptions": options, "files": ["messages.ts"]}, file)
    failed = run(*script("message_types.py"), os.path.join(MADE, "messages.ts"), *places) or run("tsc", "--project",
                                                                                                 MADE)
    return 1 if failed else 0


def load_extension() -> int:
    if is_missing("the extension", "nodejs", "node"):
        return MISSING
    return 1 if run("node", os.path.join(OUTSIDE, "extension.js")) else 0


def main() -> int:
    if len(sys.argv) != 4:
        print(__doc__, file=sys.stderr)
        return 4
    program, from_zero, stack = (os.path.abspath(name) for name in sys.argv[1:])
    os.makedirs(MADE, exist_ok=True)
    debugpy, first = play_debugpy(program, stack)
    editors, others = play_editors(program, from_zero)
    places = first + others
    statuses = [debugpy, editors, decode(places), check_types(places), load_extension()]
    wrong = [status for status in statuses if status not in (0, MISSING)]
    return 1 if wrong else MISSING if MISSING in statuses else 0


if __name__ == "__main__":
    sys.exit(main())
