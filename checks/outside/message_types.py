#!/usr/bin/env python3
"""Writes what the adapter sent in transcripts as typed constants, for a check by the TypeScript compiler.

usage: message_types.py FILE TRANSCRIPT..

In a transcript each line that begins with `<-` is a content that the adapter sent. FILE gets each as a constant of its
type in `@vscode/debugprotocol`; of contents that differ in digits alone one is written. Prints how many there were, and
how many were written. Ends with status 1 where a content is of no known type, or where there is none.
"""
import json
import re
import sys
from collections.abc import Iterator

SENT = "<- "
EVENTS = ("initialized", "output", "stopped", "exited", "terminated")
RESPONSES = (
    "initialize", "launch", "setBreakpoints", "configurationDone", "threads", "continue", "next", "stepIn", "stepOut",
    "stepBack", "reverseContinue", "pause", "stackTrace", "scopes", "variables", "evaluate", "disconnect",
)


def contents(places: list[str]) -> Iterator[dict]:
    for place in places:
        with open(place, encoding="utf-8") as file:
            yield from (json.loads(line.removeprefix(SENT)) for line in file if line.startswith(SENT))


def type_of(message: dict) -> str:
    """The name of a message's type. Raises `ValueError` where none is known."""
    if message["type"] == "response" and not message["success"]:
        return "ErrorResponse"
    is_event = message["type"] == "event"
    name, known, kind = (message["event"], EVENTS, "Event") if is_event else (message["command"], RESPONSES, "Response")
    if name not in known:
        raise ValueError(f"no type is known for {name}")
    return name[0].upper() + name[1:] + kind


def main() -> int:
    if len(sys.argv) < 3:
        print(__doc__, file=sys.stderr)
        return 4
    messages = list(contents(sys.argv[2:]))
    try:
        different = {(type_of(one), re.sub(r"\d+", "0", json.dumps(one))): one for one in messages}
    except ValueError as error:
        print(error)
        return 1
    with open(sys.argv[1], "w", encoding="utf-8") as file:
        file.write('import { DebugProtocol } from "@vscode/debugprotocol";\n')
        for number, ((name, _), message) in enumerate(different.items()):
            file.write(f"export const message{number}: DebugProtocol.{name} = {json.dumps(message)};\n")
    print(f"{len(messages)} messages, of which {len(different)} are checked for their types")
    return 0 if messages else 1


if __name__ == "__main__":
    sys.exit(main())
