#!/usr/bin/env python3
"""Reads the edits of a crate that the prover must refuse, and checks that each can still be applied.

usage: edits.py

Those of the gate are the files of must-fail/. All others are plants, the blocks of plants.txt: a line `plant: NAME`, and
then what a file of must-fail/ has, lines `file: F`, and after each pairs of lines `old: TEXT` and `new: TEXT`. Each old
text has to stand exactly once in F, after the pairs before it. Prints what is wrong, also where a crate has more than
four edits in must-fail/, two plants of one name, or a folder plants/, or where docs/CONTRIBUTING.md counts otherwise, and ends
with status 1 where anything is.
"""
from __future__ import annotations

import pathlib
import re
import sys
from collections.abc import Iterator
from typing import NamedTuple

from scratch import TOP, crate_lines

MOST_IN_GATE = 4
PLANTS = "plants.txt"
PLANT = re.compile(r"^plant: (\S+)\n((?:(?:file|old|new):.*\n)+)(?:\n|\Z)", re.MULTILINE)


class Edit(NamedTuple):
    """An edit as it is written: its name, and its lines."""

    name: str
    text: str


def crate_folder(name: str) -> pathlib.Path:
    return TOP / "crates" / name


def plants_of(name: str) -> list[Edit]:
    """The plants of a crate, in the order of their names."""
    file = crate_folder(name) / PLANTS
    text = file.read_text(encoding="utf-8") if file.is_file() else ""
    return sorted(Edit(*found) for found in PLANT.findall(text))


def gate_edits_of(name: str) -> list[Edit]:
    """The edits of a crate that the gate tries."""
    files = sorted((crate_folder(name) / "must-fail").glob("*.edit"))
    return [Edit(file.stem, file.read_text(encoding="utf-8")) for file in files]


def wrong_in(edit: Edit, crate: pathlib.Path) -> Iterator[str]:
    """What is wrong with an edit."""
    name, texts, file, old = f"{crate.relative_to(TOP)}: {edit.name}", {}, crate, ""
    for word, _, value in (line.partition(": ") for line in edit.text.splitlines()):
        if word == "file":
            file = crate / value
            if not file.is_file():
                yield f"{name}: {value} isn't there"
                return
            texts.setdefault(file, file.read_text(encoding="utf-8"))
        elif word == "old":
            old = value
            if texts[file].count(old) != 1:
                yield f"{name}: {texts[file].count(old)} places for {old}"
        elif word == "new":
            texts[file] = texts[file].replace(old, value, 1)
    if all(text == file.read_text(encoding="utf-8") for file, text in texts.items()):
        yield f"{name}: it changes nothing"


def wrong_plants(name: str) -> Iterator[str]:
    """What is wrong with a crate's plants as a whole."""
    file, names = crate_folder(name) / PLANTS, [plant.name for plant in plants_of(name)]
    if (crate_folder(name) / "plants").exists():
        yield f"{name}: plants stand in {PLANTS}, not in a folder"
    if file.is_file() and PLANT.sub("", file.read_text(encoding="utf-8")):
        yield f"{name}: {PLANTS} has lines that belong to no plant"
    yield from (f"{name}: two plants are called {one}" for one in sorted(set(names)) if names.count(one) > 1)


def miscounted(in_gate: int, plants: int) -> list[str]:
    """How many edits there are, where docs/CONTRIBUTING.md says otherwise."""
    page = (TOP / "docs" / "CONTRIBUTING.md").read_text(encoding="utf-8")
    counts = [f"{in_gate} together", f"{plants:,}, are plants"]
    return [f"CONTRIBUTING.md doesn't have: {count}" for count in counts if count not in page]


def main() -> int:
    wrong, in_gate, plants = [], 0, 0
    for name in crate_lines():
        gate = gate_edits_of(name)
        in_gate, plants = in_gate + len(gate), plants + len(plants_of(name))
        if len(gate) > MOST_IN_GATE:
            wrong.append(f"{name}: {len(gate)} edits in must-fail/")
        wrong += wrong_plants(name)
        wrong += [one for edit in [*gate, *plants_of(name)] for one in wrong_in(edit, crate_folder(name))]
    wrong += miscounted(in_gate, plants)
    print("\n".join(wrong) or f"each edit can be applied: {in_gate} of the gate, {plants} plants")
    return 1 if wrong else 0


if __name__ == "__main__":
    sys.exit(main())
