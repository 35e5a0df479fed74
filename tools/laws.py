#!/usr/bin/env python3
"""Reads the laws of functions that do nothing: what each clause says, where, and by which lemmas it is answered.

usage: laws.py [--write]

Prints for each law function that proofs answer each of its clauses, what that says, and the lemmas by which it is
answered, with their files. With --write it writes instead what docs/PROMISES.md says of the laws of a session's history,
between `<!--laws-->` and `<!--end-->`: for each function a list of its clauses, each with the first sentence of the
comment in front of its definition, or as many as SENTENCES says.
"""
from __future__ import annotations

import re
import sys
import textwrap
from collections.abc import Iterator
from typing import NamedTuple

from scratch import TOP

PAGE = TOP / "docs" / "PROMISES.md"
PLACE = re.compile(r"(?<=<!--laws-->\n).*?(?=<!--end-->)", re.DOTALL)
HISTORY = TOP / "crates" / "dap_history"
# The functions of which the page has lists, and how long its lines are.
LISTS = ("history_laws", "run_laws", "command_laws")
COLUMNS = 122
# The clauses of which the page has more sentences than the first, as these say what no other clause does.
SENTENCES = {"counts": 2, "over_told": 2, "judged": 2, "ends": 2}
SENTENCE_END = re.compile(r"(?<=\.) (?=[A-Z`])")
# A law function with its clauses, and one of these; the answer to a goal of one, and a lemma file with what is used of
# it; a definition with the comment in front of it.
LAW = re.compile(r"^pub fn (\w+_laws)\(.*\)\n((?:    (?:ensures|//| ) .*\n)+)", re.MULTILINE)
CLAUSE = re.compile(r"^    ensures (\w*) ?\{ (.*?) \}$", re.MULTILINE | re.DOTALL)
ANSWER = re.compile(r"^returns(?:-clause-(\w+))? c =(.*?)(?=^pub |\Z)", re.MULTILINE | re.DOTALL)
LEMMAS = re.compile(r"^use Rattle\.(\w+)\.proofs\.(?!Common\.)([\w.]+)\.\{(.*)\}$", re.MULTILINE)
DEFINITION = re.compile(r"((?:^--(?! ----).*\n)+)(?:abbrev )?(?:pub )?(\w+) : Type 0$", re.MULTILINE)


class Law(NamedTuple):
    """A clause of a law function, and what it says."""

    function: str
    clause: str
    says: str


def laws_of(crate: str) -> list[Law]:
    """The clauses of a crate's law functions, in their order."""
    sources = sorted((TOP / "crates" / crate / "src").rglob("*.rt"))
    laws = [law for source in sources for law in LAW.findall(source.read_text(encoding="utf-8"))]
    return [Law(function, clause, says) for function, clauses in laws for clause, says in CLAUSE.findall(clauses)]


def answered_laws() -> Iterator[tuple[str, str, str, str]]:
    """Each clause of a law that its proofs answer: the law, the clause, what it says, and the lemmas with their
    files."""
    for answers in sorted(TOP.glob("crates/*/proofs/**/*_laws/Answers.antt")):
        crate, function = answers.relative_to(TOP).parts[1], answers.parent.name
        text = answers.read_text(encoding="utf-8")
        says = {law.clause: law.says for law in laws_of(crate) if law.function == function}
        used = [(name.strip(), f"{of}/proofs/{path.replace('.', '/')}.antt")
                for of, path, names in LEMMAS.findall(text) if of == crate for name in names.split(",")]
        for clause, body in ANSWER.findall(text):
            lemmas = [f"{name} ({file})" for name, file in used
                      if re.search(rf"(?<![\w-]){re.escape(name)}(?![\w-])", body)]
            said = says.get(clause, "") if clause else " ".join(says.values())
            yield function, clause or " ".join(says), said, ", ".join(lemmas)


def comments() -> dict[str, str]:
    """The statements that the definitions of a session's history make, with the comment before each."""
    found = {}
    for file in sorted((HISTORY / "specs").glob("*.antt")):
        for lines, name in DEFINITION.findall(file.read_text(encoding="utf-8")):
            found[name] = " ".join(line.removeprefix("--").strip() for line in lines.splitlines())
    return found


def item(law: Law, comment: str, clauses: dict[str, str]) -> str:
    """What the page says of a clause: of another definition that is named it has the clause."""
    sentences = SENTENCE_END.split(comment)[:SENTENCES.get(law.clause, 1)]
    said = re.sub(r"`(\w+)`", lambda name: f"`{clauses.get(name[1], name[1])}`", " ".join(sentences))
    text = f"- `{law.clause}`: {said}"
    return textwrap.fill(text, COLUMNS, subsequent_indent="  ", break_long_words=False, break_on_hyphens=False)


def lists() -> str:
    """What the page says of the laws of a session's history."""
    laws, said = laws_of(HISTORY.name), comments()
    clauses = {law.says: law.clause for law in laws}
    parts = []
    for function in LISTS:
        items = [item(law, said[law.says], clauses) for law in laws if law.function == function]
        parts.append("\n".join([f"`{function}`:", "", *items]))
    return "\n\n".join(parts) + "\n"


def wrong_laws() -> Iterator[str]:
    """Whether the page has other lists than these."""
    if PLACE.findall(PAGE.read_text(encoding="utf-8")) != [lists()]:
        yield "docs/PROMISES.md: the laws aren't as in dap_history: tools/laws.py --write"


def main() -> int:
    if sys.argv[1:] == ["--write"]:
        PAGE.write_text(PLACE.sub(lambda _: lists(), PAGE.read_text(encoding="utf-8")), encoding="utf-8")
    else:
        print("\n".join("\t".join(row) for row in answered_laws()))
    return 0


if __name__ == "__main__":
    sys.exit(main())
