"""Which functions' bodies an edit changes, and several edits in one copy of a crate: for plants.py."""
from __future__ import annotations

import pathlib
import re
from typing import NamedTuple

from edits import Edit

FUNCTION = re.compile(r"( *)(?:pub(?:\([^)]*\))? )?(?:const )?fn (\w+)")
IMPL = re.compile(r"impl(?:<.*>)? (?:.* for )?(\w+)")


class Change(NamedTuple):
    """A text that takes the place of another one, which stands in a line of a file."""

    file: str
    line: int
    old: str
    new: str


class Function(NamedTuple):
    """A function, by its file, the type whose `impl` stands last before it, if one does, and its name."""

    file: str
    type: str
    name: str

    def is_named_by(self, path: str, crate: str) -> bool:
        """Whether the prover calls the function so, or a closure in it. A method bears the name of its type, which may
        stand in another module."""
        module = [part for part in pathlib.PurePath(self.file).with_suffix("").parts[1:] if part not in ("lib", "main")]
        around = ["::".join([crate, *module[:depth]]) for depth in range(len(module) + 1)]
        of_type = rf"|{crate}::(?:[a-z]\w*::)*{self.type}::" if self.type else ""
        name = rf"(?:(?:{'|'.join(around)})::(?:[^:]+::)?{of_type})(?:{self.name}|fn::{self.name}::.*)"
        return re.fullmatch(name, path) is not None


class BodyEdit(NamedTuple):
    """An edit that changes nothing but the bodies of functions."""

    name: str
    changes: tuple[Change, ...]
    functions: frozenset[Function]


def changes_of(edit: Edit, crate: pathlib.Path) -> list[Change] | None:
    """What an edit changes; None where one of its texts doesn't stand exactly once in a file as it is."""
    found: list[Change] = []
    file = old = ""
    for line in edit.text.splitlines():
        kind, _, text = line.partition(" ")
        if kind == "file:":
            file = text
        elif kind == "old:":
            old = text
        elif kind == "new:" or line == "new:":
            source = (crate / file).read_text(encoding="utf-8")
            if source.count(old) != 1:
                return None
            found.append(Change(file, source[:source.index(old)].count("\n"), old, text))
    return found


def end_of_head(lines: list[str], begin: int, indent: str) -> int | None:
    """The line in which a function's body begins; None where it has none, or one of a single line."""
    for at in range(begin, len(lines)):
        line = lines[at].rstrip()
        if line.endswith(("}", ";")) and (at == begin or line.endswith(";")):
            return None
        if line == indent + "{" or line.endswith("{") and line.startswith(indent) and line[len(indent)] != " ":
            return at
    return None


def is_in_a_cycle(lines: list[str], begin: int) -> bool:
    """Whether an attribute of the function says that it has one proof with others, which it calls and which call it."""
    at = begin - 1
    while at >= 0 and lines[at].strip().startswith(("#[", "///")):
        if "cycle(" in lines[at]:
            return True
        at -= 1
    return False


def bodies_of(lines: list[str]) -> list[tuple[str, int, int]]:
    """The functions of a file with a body and a proof of their own: the name, and where that body begins and ends."""
    found = []
    for begin, line in enumerate(lines):
        head = FUNCTION.match(line)
        start = end_of_head(lines, begin, head[1]) if head and not is_in_a_cycle(lines, begin) else None
        if head and start is not None:
            end = next((at for at in range(start + 1, len(lines)) if lines[at] == head[1] + "}"), start)
            found.append((head[2], start, end))
    return found


def function_at(change: Change, crate: pathlib.Path) -> Function | None:
    """The function in whose body a change stands, if its name is the only one of its file."""
    source = (crate / change.file).read_text(encoding="utf-8").splitlines()
    bodies = bodies_of(source)
    around = [name for name, start, end in bodies if start < change.line < end]
    if len(around) != 1 or sum(name == around[0] for name, _, _ in bodies) != 1:
        return None
    types = [head[1] for head in map(IMPL.match, source[:change.line]) if head]
    return Function(change.file, types[-1] if types else "", around[0])


def edit_of_bodies(edit: Edit, crate: pathlib.Path) -> BodyEdit | None:
    """The edit, if it changes bodies alone, each line once."""
    changes = changes_of(edit, crate)
    if not changes or any(not change.file.startswith("src/") for change in changes):
        return None
    functions = [function_at(change, crate) for change in changes]
    lines = {(change.file, change.line) for change in changes}
    if None in functions or len(lines) < len(changes):
        return None
    return BodyEdit(edit.name, tuple(changes), frozenset(one for one in functions if one))


def apart(edits: list[BodyEdit], most: int) -> list[list[BodyEdit]]:
    """The edits in groups of at most so many, in each of which no two change one function."""
    groups: list[list[BodyEdit]] = []
    for edit in edits:
        fitting = (group for group in groups
                   if len(group) < most and all(not edit.functions & other.functions for other in group))
        group = next(fitting, None)
        if group is None:
            groups.append([edit])
        else:
            group.append(edit)
    return groups


def apply(edits: list[BodyEdit], crate: pathlib.Path) -> dict[pathlib.Path, str]:
    """Makes the changes of all these edits, and returns the files as they were."""
    before: dict[pathlib.Path, str] = {}
    for change in (change for edit in edits for change in edit.changes):
        path = crate / change.file
        text = path.read_text(encoding="utf-8")
        before.setdefault(path, text)
        lines = text.split("\n")
        lines[change.line] = lines[change.line].replace(change.old, change.new)
        path.write_text("\n".join(lines), encoding="utf-8")
    return before
