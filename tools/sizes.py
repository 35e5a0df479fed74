#!/usr/bin/env python3
"""Counts what the repository holds, and checks what README.md says of it.

usage: sizes.py

Counts lines that aren't blank: of code with its contracts, of definitions and of proofs, without the crates of tests,
and of code in these; the files that git tracks; and the files of those crates that have to know of one operator, the
sign `/`, worked examples not counted. README.md has the lines in hundreds: the status is 1 where one of its figures is
more than a fiftieth away.

Counts the words of README.md and of each page in docs/: what stands between blanks and has a letter or a digit, so that
the bars of a table don't count. The status is 1 where README.md has more than README_WORDS, or all have more than
ALL_WORDS.
"""
from __future__ import annotations

import pathlib
import re
import subprocess
import sys

from scratch import TOP

# What a crate's size counts; and the crates of tests: these, what they stand on, stored runs, and benchmarks.
COUNTED = ("src/**/*.rt", "specs/**/*.antt", "proofs/**/*.antt")
OF_TESTS = ("*_tests", "*_runs", "test_kit", "sample_programs", "speed")
# What README.md says: code, definitions, proofs, tests.
SAID = re.compile(
    r"([\d,]+) lines of code with contracts, ([\d,]+) of definitions, ([\d,]+) of proofs, and ([\d,]+) of tests"
    .replace(" ", r"\s+")
)
# The operation, or the token, of the operator; not the fault of dividing by 0.
OPERATOR = re.compile(r"Divide(?!ByZero)|Slash")

# How many words README.md has at most, and all pages together: so that they don't grow.
README_WORDS = 850
ALL_WORDS = 28_500


def words_of_pages() -> dict[str, int]:
    """How many words each page has, manual pages too; those with the most first."""
    pages = [TOP / "README.md", *(page for page in (TOP / "docs").iterdir() if page.suffix in (".md", ".1"))]
    words = {page.name: sum(any(map(str.isalnum, word)) for word in page.read_text(encoding="utf-8").split())
             for page in pages}
    return dict(sorted(words.items(), key=lambda page: (-page[1], page[0])))


def are_short(words: dict[str, int]) -> bool:
    """Whether the pages have as many words as they may have; what is said of them is printed."""
    print(f"words: {sum(words.values()):,} of at most {ALL_WORDS:,}: "
          + ", ".join(f"{name} {count:,}" for name, count in words.items()))
    if words["README.md"] > README_WORDS:
        print(f"README.md has more than {README_WORDS:,} words")
    return words["README.md"] <= README_WORDS and sum(words.values()) <= ALL_WORDS


def files_of(crates: list[pathlib.Path], *patterns: str) -> list[str]:
    """The contents of these files of crates, without those of worked examples."""
    files = (file for crate in crates for pattern in patterns for file in sorted(crate.glob(pattern)))
    return [file.read_text(encoding="utf-8") for file in files if not file.name.startswith("Worked")]


def lines_of(crates: list[pathlib.Path], pattern: str) -> int:
    """How many lines of these files of crates aren't blank."""
    texts = (file.read_text(encoding="utf-8") for crate in crates for file in crate.glob(pattern))
    return sum(bool(line.strip()) for text in texts for line in text.splitlines())


def tracked() -> int:
    """How many files git tracks."""
    listed = subprocess.run(["git", "ls-files"], cwd=TOP, capture_output=True, text=True, check=True).stdout
    return len(listed.splitlines())


def main() -> int:
    crates = [crate for crate in (TOP / "crates").iterdir() if (crate / "src").is_dir()]
    tests = [crate for crate in crates if any(crate.match(name) for name in OF_TESTS)]
    others = [crate for crate in crates if crate not in tests]
    lines = [*(lines_of(others, pattern) for pattern in COUNTED), lines_of(tests, COUNTED[0])]
    operator = sum(bool(OPERATOR.search(text)) for text in files_of(others, *COUNTED))
    print("lines: code {:,}, definitions {:,}, proofs {:,}; tests {:,}".format(*lines))
    print(f"files: {tracked():,} tracked; {operator} know of the operator /")
    said = SAID.search((TOP / "README.md").read_text(encoding="utf-8"))
    figures = [int(figure.replace(",", "")) for figure in said.groups()] if said else []
    if len(figures) < 4 or any(abs(figure - count) * 50 > count for figure, count in zip(figures, lines)):
        print(f"README.md says {figures}")
        return 1
    return 0 if are_short(words_of_pages()) else 1


if __name__ == "__main__":
    sys.exit(main())
