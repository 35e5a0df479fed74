#!/usr/bin/env python3
"""Counts the lines of each step of docs/DEFINITIONS.md, and of what these rest on, and checks what the page says of them.

usage: reading.py

Counts lines of definitions, without imports, blanks and comments. Prints a count where the page's number is more than a
twentieth and five lines away, and ends with status 1 where there is one. `cited.py` counts what a way to the headline
takes, with the types that the code declares.
"""
from __future__ import annotations

import re
import sys

from scratch import TOP

PAGE = TOP / "docs" / "DEFINITIONS.md"
# What isn't counted, and what a declaration of a definition or of a type begins with.
ASIDE = re.compile(r"\s*(?:--|//|#\[|(?:unfoldable |pub )*use |$)")
DEFINED = re.compile(r"(?:abbrev |unfoldable |pub )*(?:record |data |module )?([^\s:(){}=]+)")
TYPE = re.compile(r"pub (?:struct|enum) (\w+)")
# A file, the declarations of it from one up to another, both with it, and those that are left out.
PART = re.compile(r"([\w./]+)(?:: ?(\w*)\.\.(\w*))?((?:-\w+)*)")

# The steps of the page. A file that begins with a point lies in the folder of the one before it.
STEPS = {
    "1.": "dbg_runner/specs/Plain",
    "2.": "dap_history/specs/Last .Plans .History .Readings",
    "3.": "dap_history/specs/Replies .Launching .Breakpoints .Running .Frames .Inspection .Reactions .Reports .Emission",
    "4.": "dap_history/specs/Events:..IsHistoryOf .Interleaving:..Interleaves .Output",
    "5.": "dap_session/specs/Ports .Sending .Taking:..EventGivesUp-Expects-LacksMemory .Serving:..SessionOutcome",
    "6.": "byte_streams/specs/Streams dap_wires/specs/Transfer:..AreRead .Senders:from_client..from_client"
          " .Senders:reports_among..reports_among .Rooms .Full .Reading:..IsReadUntil",
    "7.": "dbg_runner/specs/Rooms:slice_limit..slice_limit .Lawful .Runner .Queues",
    "8.": "adapter/specs/Serving",
    "9.": "dap_history/specs/Always .Considered .Laws .Stops .Transitions .GoingBack .Runs .Verdicts .Loading"
          " .Interleaving:Interleaves..-Interleaves .Moves .Ends .Taken .Initialized .LineAnswers .Shown .Lines",
    "10.": "dbg_runner/specs/Laws:AllButLastGoOn..AllButLastGoOn .Laws:taken_by.. dap_session/specs/Laws:IsOnTheWay..IsReached"
           " dap_replies/specs/Replied:IsQuiet..IsQuiet adapter/specs/Laws .AllRead .UpTo .Written",
}
# What they rest on, by the words of the page before the number.
BELOW = {
    "`Steps.antt`": "pl0_tree/specs/Tree .Tokens .Reading .Scope .Faults .Steps .Blocks:procedure_name..",
    "`Runs.antt`": "pl0_meaning/specs/Values .Runs pl0_machine/specs/Machine:frames_of..frames_of",
    "`Retreat.antt`": "dbg_plan/specs/Messages .Breakpoints:..plain_breakpoints .Resolutions .Due .Logs .Plans:parts_at..parts_at"
        " .Values .Retreat",
    "`Frame.antt`": "dap_frame/specs/Header .Frame",
    "`dap_msg/specs`":
        "dap_msg/specs/Request .Commands .Arguments .Questions .Asked .Said .Outgoing .Members .Texts .Lists .Printable"
        " .Initialize .Launch .SetBreakpoints .Resume .Threads .StackTrace .Scopes .Variables .Evaluate .Writing .Laws",
}


def lines_by_name(file: str, begins: re.Pattern[str]) -> list[tuple[str, str]]:
    """The lines of a file that count, each with the name of its declaration."""
    name, found = "", []
    for line in (TOP / "crates" / file).read_text(encoding="utf-8").splitlines():
        if ASIDE.match(line):
            continue
        if not line.startswith((" ", "}")):
            begun = begins.match(line)
            name = begun[1] if begun else ""
        found.append((name, line))
    return found


def part_of(part: re.Match[str], folder: str) -> int:
    """How many lines a part of a file has."""
    file, first, last, without = part.groups()
    names = [name for name, _ in lines_by_name(folder + file.lstrip(".") + ".antt", DEFINED)]
    start = names.index(first) if first else 0
    end = len(names) - names[::-1].index(last) if last else len(names)
    return sum(name not in without.split("-")[1:] for name in names[start:end])


def definitions(parts: str) -> int:
    """How many lines these parts have."""
    folder, count = "", 0
    for part in map(PART.fullmatch, parts.split()):
        assert part
        if not part[1].startswith("."):
            folder = part[1].rpartition("/")[0] + "/"
        count += part_of(part, folder if part[1].startswith(".") else "")
    return count


def said_after(words: str, page: str) -> int:
    """The number in brackets that comes next on the page behind these words."""
    number = re.search(re.escape(words) + r"[^(]*?\((\d+)[,)]", page)
    return int(number[1]) if number else 0


def main() -> int:
    page = PAGE.read_text(encoding="utf-8")
    counts = {words: definitions(parts) for words, parts in {**STEPS, **BELOW}.items()}
    compared = [(words, count, said_after(f"\n{words} **" if words in STEPS else words, page))
                for words, count in counts.items()]
    wrong = [one for one in compared if abs(one[1] - one[2]) > max(5, one[1] / 20)]
    for words, count, said in wrong:
        print(f"docs/DEFINITIONS.md: {words} {count} lines, and it says {said}")
    return 1 if wrong else 0


if __name__ == "__main__":
    sys.exit(main())
