#!/usr/bin/env python3
"""Tries planted bugs: edits that the prover must refuse, and that the merge gate leaves out to save time.

usage: plants.py [--jobs N] [--outdated] [CRATE..]

The edits are the blocks of `crates/CRATE/plants.txt` (edits.py). For each crate that is named they are tried in a copy of
it, over the work that is kept in `out/`; N crates are tried side by side. A function's proof rests on its own body, and
on no other. So those that change bodies alone are tried many at once, no two in one function: each that has a function
which isn't proved any more is refused. All others are given to a copy of the crate in place of its must-fail edits, and
`rt must-fail` tries them one by one. Prints a line for each edit, and at the end one that counts those that were
refused, those that got through and those that were not judged.

What was found is written to tools/plants.txt: a row for each crate, with a checksum of the kit's logic, of the crate
with its plants, and of the sources and definitions of the crates below, all without lines of comments, but for those
that a plant quotes. Where no crate is named, those with plants are tried whose row is of another sum, so a run that is
broken off goes on where it was, and the last line counts the rows of all. The status is 1 where an edit was not
refused. With `--outdated` nothing is tried, and those crates are named.
"""
from __future__ import annotations

import argparse
import datetime
import functools
import hashlib
import pathlib
import re
import shutil
import subprocess
import sys
import threading
from collections.abc import Iterator
from concurrent.futures import ThreadPoolExecutor
from subprocess import PIPE, STDOUT
from typing import NamedTuple

from bodies import BodyEdit, apart, apply, edit_of_bodies
from edits import Edit, plants_of
from scratch import TOP, crate_lines, crate_names, libraries, scratch_copy

ANSWER = re.compile(r"rt: must-fail \S+/(\S+)\.edit: (refused|NOT REFUSED|BAD EDIT)(.*)")
# What the prover says of a function, and where a proof file names what an edit took away, which says little.
RESTS_ON_ANOTHER = re.compile(r"no proof: it (?:calls|passes)|not proved; it waits for")
JUDGED = re.compile(r"^(?:fn|impl|struct|enum) (\S+): (.*)$", re.MULTILINE)
AT_A_PROOF = re.compile(r"^(?:note: )?(?:\./)?proofs/(\S+?):\d+:\d+: (.*)$", re.MULTILINE)
TAKEN_AWAY = re.compile(r"has no field|is not in scope|has no `|was not admitted")
# What a line of comments begins with, by the ending of the file's name.
COMMENTS = {".rt": b"//", ".antt": b"--"}
# A text that an edit takes away.
QUOTED = re.compile(r"^old: *(\S.*?) *$", re.MULTILINE)
# How many edits are tried at once.
AT_ONCE = 12
RECORD = TOP / "tools" / "plants.txt"
HEAD = """# What the plants of each crate came to, as `make plants` wrote it: the crate, a checksum of what was tried,
# how many plants were refused, let through and not judged, and the day.
"""
PRINTING = threading.Lock()


class Row(NamedTuple):
    """What became of a crate's plants."""

    crate: str
    sum: str
    refused: int
    through: int
    unjudged: int
    day: str


def files_below(folder: pathlib.Path, *parts: str) -> Iterator[pathlib.Path]:
    for part in parts:
        yield from sorted(path for path in (folder / part).rglob("*") if path.is_file())


@functools.cache
def logic_of_kit() -> str:
    """The logic that the kit's line names. Kits that differ in their commands alone name the same one."""
    line = subprocess.run(["rt", "version"], capture_output=True, text=True, check=True).stdout
    return line.partition("logic ")[2].strip()


def content(file: pathlib.Path, quoted: frozenset[bytes] = frozenset()) -> bytes:
    """A file without its lines of comments, which decide nothing where no edit quotes them."""
    mark, lines = COMMENTS.get(file.suffix), file.read_bytes().splitlines(keepends=True)
    return b"".join(line for line in lines if mark is None or not line.lstrip().startswith(mark)
                    or any(text in line for text in quoted))


def quoted_by(plants: list[Edit]) -> frozenset[bytes]:
    """The texts that edits take away."""
    return frozenset(text.encode() for plant in plants for text in QUOTED.findall(plant.text))


def sum_of(name: str) -> str:
    """A checksum of all that decides what becomes of a crate's plants."""
    found = hashlib.sha256(logic_of_kit().encode())
    crates, quoted = TOP / "crates", quoted_by(plants_of(name))
    contents = [(file, content(file, quoted)) for file in files_below(crates / name, "src", "specs", "proofs")]
    contents += [(crates / name / "plants" / f"{plant.name}.edit", plant.text.encode()) for plant in plants_of(name)]
    contents += [(file, content(file)) for library in libraries(name)
                 for file in files_below(crates / library, "src", "specs")]
    for file, text in contents:
        found.update(f"{file.relative_to(crates)}\0".encode())
        found.update(hashlib.sha256(text).digest())
    return found.hexdigest()[:16]


def recorded() -> dict[str, Row]:
    """The rows of the record, by their crate."""
    lines = RECORD.read_text().splitlines() if RECORD.exists() else []
    fields = [line.split() for line in lines if line and not line.startswith("#")]
    return {one[0]: Row(one[0], one[1], *(int(count) for count in one[2:5]), one[5]) for one in fields}


def record(row: Row) -> None:
    """Puts a row in the place of the one that the record has of its crate."""
    rows = {**recorded(), row.crate: row}
    lines = ["\t".join(str(field) for field in rows[name]) + "\n" for name in crate_lines() if name in rows]
    RECORD.write_text(HEAD + "".join(lines))


def verdict(answer: str, rest: str) -> str:
    if answer == "refused":
        says_little = "says little of the contract" in rest
        return "refused, but only since a proof names what it took away" if says_little else "refused"
    return "GOT THROUGH" if answer == "NOT REFUSED" else f"CAN'T BE TRIED{rest}"


def says_little(edit: BodyEdit, printed: str) -> bool:
    """Whether all that is said of the edit's functions is that their proofs name something that it took away."""
    of_edit = [text for file, text in AT_A_PROOF.findall(printed)
               if any(f"/{one.name}/" in file for one in edit.functions)]
    return bool(of_edit) and all(TAKEN_AWAY.search(text) for text in of_edit)


def refused_at_once(edits: list[BodyEdit], crate: pathlib.Path) -> set[str]:
    """The names of those edits that are refused in a check of the crate with all of them; none where that judges
    nothing, or where a function isn't proved that none of them changes."""
    work, before = crate / "out" / "incremental", apply(edits, crate)
    kept = crate / "out" / "kept"
    subprocess.run(["cp", "-a", "--reflink=auto", work, kept], check=True)
    run = subprocess.run(["rt", "check", "--jobs", "1"], cwd=crate, stdout=PIPE, stderr=STDOUT, text=True)
    for path, text in before.items():
        path.write_text(text, encoding="utf-8")
    shutil.rmtree(work, ignore_errors=True)
    kept.rename(work)
    judged = JUDGED.findall(run.stdout)
    by_edit = {edit: {path for path, _ in judged if any(one.is_named_by(path, crate.name) for one in edit.functions)}
               for edit in edits}
    named = [path for paths in by_edit.values() for path in paths]
    is_open = {path for path, said in judged if not said.startswith("proved") and not RESTS_ON_ANOTHER.match(said)}
    if "logic=not-proved" not in run.stdout or len(set(named)) < len(named) or not is_open <= set(named):
        return set()
    return {edit.name for edit, paths in by_edit.items() if paths & is_open and not says_little(edit, run.stdout)}


def refused_together(plants: list[Edit], crate: pathlib.Path) -> set[str]:
    """The names of those plants that are refused with others, in a copy of the crate that is proved as it is."""
    edits = [edit for edit in (edit_of_bodies(plant, crate) for plant in plants) if edit]
    check = ["rt", "check", "--jobs", "1"]
    if not edits or subprocess.run(check, cwd=crate, stdout=PIPE, stderr=STDOUT).returncode != 0:
        return set()
    found: set[str] = set()
    groups = apart(edits, AT_ONCE)
    while groups:
        group = groups.pop()
        refused = refused_at_once(group, crate)
        found |= refused
        left = [edit for edit in group if edit.name not in refused]
        if len(left) > 1:
            groups += [left] if refused else [left[::2], left[1::2]]
    return found


def tried_alone(plants: list[Edit], crate: pathlib.Path) -> str:
    """What `rt must-fail` prints of a copy of the crate that has these plants alone."""
    edits = crate / "must-fail"
    shutil.rmtree(edits, ignore_errors=True)
    edits.mkdir()
    for plant in plants:
        (edits / f"{plant.name}.edit").write_text(plant.text, encoding="utf-8")
    return subprocess.run(["rt", "must-fail", crate.name], cwd=crate.parent.parent, stdout=PIPE, stderr=STDOUT,
                          text=True).stdout


def tried(name: str, plants: list[Edit]) -> str:
    """A line for each plant, as `rt must-fail` prints it."""
    with scratch_copy(name) as top:
        crate = top / "crates" / name
        refused = refused_together(plants, crate)
        lines = [f"rt: must-fail {name}/{plant}.edit: refused, with others" for plant in sorted(refused)]
        rest = [plant for plant in plants if plant.name not in refused]
        return "\n".join([*lines, tried_alone(rest, crate) if rest else ""])


def try_plants(name: str) -> Row:
    """Tries the plants of the crate, prints a line for each, and records what they came to."""
    plants, tree = plants_of(name), sum_of(name)
    printed = tried(name, plants) if plants else ""
    answers = ANSWER.findall(printed)
    refused, through = (sum(answer == kind for _, answer, _ in answers) for kind in ("refused", "NOT REFUSED"))
    row = Row(name, tree, refused, through, len(plants) - refused - through, datetime.date.today().isoformat())
    with PRINTING:
        print(f"{name}: {len(plants)} plants")
        for edit, answer, rest in answers:
            print(f"  {edit}: {verdict(answer, rest)}")
        if len(answers) < len(plants):
            print(printed)
        sys.stdout.flush()
        if plants:
            record(row)
    return row


def outdated(row: Row | None, name: str) -> str:
    """Why the plants of a crate have to be tried, by the row that the record has of it; nothing where they don't."""
    if row is None:
        return "never tried"
    if row.sum != sum_of(name):
        return f"tried on another tree, on {row.day}"
    return f"{row.unjudged} not judged" if row.unjudged else ""


def still_to_try() -> dict[str, str]:
    """The crates with plants that the record doesn't have as they are, with each plant judged; and why."""
    rows = recorded()
    found = {name: outdated(rows.get(name), name) for name in crate_lines() if plants_of(name)}
    return {name: why for name, why in found.items() if why}


def main() -> int:
    parser = argparse.ArgumentParser(usage=__doc__.split("\n\n")[1].replace("usage: ", "", 1))
    parser.add_argument("--jobs", type=int, default=1)
    parser.add_argument("--outdated", action="store_true")
    parser.add_argument("crates", nargs="*")
    given = parser.parse_args()
    if given.outdated:
        for name, why in still_to_try().items():
            print(f"{name}: {why}, {len(plants_of(name))} plants")
        return 0
    names = crate_names(given.crates) or [*still_to_try()]
    with ThreadPoolExecutor(given.jobs) as pool:
        rows = [*pool.map(try_plants, names)]
    if not given.crates:
        rows = [*recorded().values()]
    counts = [sum(column) for column in zip(*((row.refused, row.through, row.unjudged) for row in rows))] or [0, 0, 0]
    print("{} refused, {} got through, {} not judged".format(*counts))
    return 1 if counts[1] or counts[2] else 0


if __name__ == "__main__":
    sys.exit(main())
