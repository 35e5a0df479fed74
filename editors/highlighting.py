#!/usr/bin/env python3
"""Compares what Visual Studio Code and Kate mark in programs, token by token, and with the steps that the adapter
finds.

usage: highlighting.py PROGRAM TEXT..

Each TEXT is a PL/0 program. The grammar of editors/vscode and the highlighting of editors/kate are read and followed
here, as far as they go: a grammar that is a list of patterns, and one context of rules. Both have to mark each token of
PL/0, as a keyword, a name, a number, a sign or a write, and nothing else; and the steps that `PROGRAM --check TEXT`
lists have to begin at tokens of their kind. Some texts of this script's own, with tokens that touch each other, are
compared as well, but for the steps. Where Kate's own engine is installed (`kate-syntax-highlighter`), it has to give
the characters of each kind a look of their own. Prints a line for each difference, and ends with status 1 where there
is one.
"""
from __future__ import annotations

import html.parser
import json
import os
import re
import shutil
import subprocess
import sys
import tempfile
import xml.etree.ElementTree
from collections.abc import Callable, Iterator
from typing import NamedTuple

TOP = os.path.realpath(os.path.join(os.path.dirname(__file__), ".."))
GRAMMAR = os.path.join(TOP, "editors", "vscode", "syntaxes", "pl0.tmLanguage.json")
ENGINE = "kate-syntax-highlighter"
HIGHLIGHTING = os.path.join(TOP, "editors", "kate", "pl0.xml")
KEYWORD, NAME, NUMBER, SIGN, WRITE = "keyword", "name", "number", "sign", "write"
WORDS = frozenset("const var procedure call begin end if then while do odd".split())
TOKEN = re.compile(r"([A-Za-z][A-Za-z0-9]*)|([0-9]+)|(!)|(:=|<=|>=|[-+*/()=#<>,;.])")
# The kind for a scope of the grammar, of which the longest beginning counts; and for an attribute of Kate's.
SCOPES = {
    "keyword": KEYWORD, "storage": KEYWORD, "variable": NAME, "entity": NAME, "constant": NUMBER,
    "keyword.operator": SIGN,
    "keyword.operator.word": KEYWORD, "punctuation": SIGN, "support": WRITE, "invalid": "mistake",
}
ATTRIBUTES = {"Keyword": KEYWORD, "Name": NAME, "Number": NUMBER, "Operator": SIGN, "Write": WRITE}
# The text and the kind of the token with which a step begins, or which it is for a return.
BEGINNINGS = {
    "assign": ("", NAME), "call": ("call", KEYWORD), "if": ("if", KEYWORD), "while": ("while", KEYWORD),
    "write": ("!", WRITE), "return": ("", SIGN),
}
TOUCHING = (
    "const a=1,b2=22;var begin2,Begin,odder,endx;procedure call2;;begin2:=-a+(b2*3)/4;",
    "if odd begin2 then while a<=b2 do begin!a;!(b2)end;if a>=1 then call call2;x:=1<2>3#4=5.",
    "procedure\tp;\r\n\tcall  p;call\n\tp.",
    "",
)


class Mark(NamedTuple):
    """A part of a line, counted from 1, that is marked as a kind of thing."""

    line: int
    column: int
    text: str
    kind: str


class Rule(NamedTuple):
    """What a rule of Kate's finds at a place, and the kind that it marks it as, if any."""

    found: Callable[[str, int], int]
    kind: str | None


def tokens(line: str, number: int) -> Iterator[Mark]:
    """The tokens of PL/0 on a line."""
    for match in TOKEN.finditer(line):
        word, digits, write, _ = match.groups()
        kind = KEYWORD if word in WORDS else NAME if word else NUMBER if digits else WRITE if write else SIGN
        yield Mark(number, match.start() + 1, match.group(), kind)


def kind_of(scope: str) -> str:
    parts = scope.split(".")
    return next(SCOPES[begin] for end in range(len(parts), 0, -1) if (begin := ".".join(parts[:end])) in SCOPES)


def patterns() -> list[tuple[re.Pattern, dict[int, str]]]:
    """The patterns of the grammar, with the kind for each of their groups; 0 is the whole match."""
    with open(GRAMMAR, encoding="utf-8") as file:
        listed = json.load(file)["patterns"]
    named = [{**one.get("captures", {}), **({"0": one} if "name" in one else {})} for one in listed]
    return [
        (re.compile(one["match"]), {int(group): kind_of(part["name"]) for group, part in names.items()})
        for one, names in zip(listed, named)
    ]


def marks_of_code(line: str, number: int, found: list[tuple[re.Pattern, dict[int, str]]]) -> Iterator[Mark]:
    """What Visual Studio Code marks on a line: the earliest match, and of several the one whose pattern comes first."""
    at = 0
    while matches := [(match, kinds) for pattern, kinds in found if (match := pattern.search(line, at))]:
        match, kinds = min(matches, key=lambda one: one[0].start())
        for group in sorted(kinds):
            yield Mark(number, match.start(group) + 1, match.group(group), kinds[group])
        at = match.end()


def at_word(line: str, at: int) -> bool:
    return at == 0 or not (line[at - 1].isalnum() or line[at - 1] == "_")


def pattern_rule(text: str, needs_word: bool = False) -> Callable[[str, int], int]:
    """Finds a match of the pattern at a place, and returns where it ends, or the place itself."""
    pattern = re.compile(text)

    def found(line: str, at: int) -> int:
        match = pattern.match(line, at)
        return match.end() if match and (at_word(line, at) or not needs_word) else at

    return found


def rule_of(element: xml.etree.ElementTree.Element, lists: dict[str, list[str]]) -> Rule:
    """A rule of Kate's highlighting."""
    given = element.attrib
    pattern, needs_word = {
        "DetectSpaces": lambda: (r"\s+", False),
        "WordDetect": lambda: (re.escape(given["String"]) + r"\b", True),
        "keyword": lambda: ("(?:" + "|".join(lists[given["String"]]) + r")\b", True),
        "DetectIdentifier": lambda: (r"[A-Za-z_][A-Za-z0-9_]*", False),
        "RegExpr": lambda: (given["String"], False),
        "Int": lambda: (r"[0-9]+", True),
        "Detect2Chars": lambda: (re.escape(given["char"] + given["char1"]), False),
        "DetectChar": lambda: (re.escape(given["char"]), False),
        "AnyChar": lambda: ("[" + re.escape(given["String"]) + "]", False),
    }[element.tag]()
    return Rule(pattern_rule(pattern, needs_word), ATTRIBUTES.get(given.get("attribute", "")))


def rules() -> list[Rule]:
    """The rules of Kate's highlighting, which has one context."""
    root = xml.etree.ElementTree.parse(HIGHLIGHTING).getroot()
    lists = {one.get("name"): [item.text for item in one] for one in root.iter("list")}
    (context,) = root.iter("context")
    return [rule_of(element, lists) for element in context]


def marks_of_kate(line: str, number: int, found: list[Rule]) -> Iterator[Mark]:
    """What Kate marks on a line: by the first rule that finds something at a place."""
    at = 0
    while at < len(line):
        end, kind = next(((end, rule.kind) for rule in found if (end := rule.found(line, at)) > at), (at + 1, None))
        if kind:
            yield Mark(number, at + 1, line[at:end], kind)
        at = end


def marks(text: str, of_line: Callable[[str, int], Iterator[Mark]]) -> list[Mark]:
    return [mark for number, line in enumerate(text.split("\n"), 1) for mark in of_line(line, number)]


def first_difference(name: str, wanted: list[Mark], found: list[Mark]) -> Iterator[str]:
    if wanted != found:
        pairs = zip([*wanted, None], [*found, None])
        one, other = next(pair for pair in pairs if pair[0] != pair[1])
        yield f"{name} marks {other}, and not {one}"


def steps(program: str, path: str) -> Iterator[tuple[int, int, str]]:
    """The line, the column and the kind of each step that the adapter lists."""
    run = subprocess.run([program, "--check", path], stdout=subprocess.PIPE, text=True, check=True)
    for line in run.stdout.split("\n\n")[0].splitlines():
        _, row, column, kind = line.split()
        yield int(row), int(column), kind


def wrong_steps(listed: list[tuple[int, int, str]], found: list[Mark]) -> Iterator[str]:
    """The steps that don't begin at a mark of their kind."""
    at = {(mark.line, mark.column): mark for mark in found}
    for line, column, kind in listed:
        mark = at.get((line, column))
        text, wanted = BEGINNINGS[kind]
        if mark is None or mark.kind != wanted or text not in ("", mark.text):
            yield f"the step at {line}:{column}, {kind}, begins at {mark}"


class Looks(html.parser.HTMLParser):
    """The look of each character of a program, in the page that Kate's engine makes of it."""

    def __init__(self) -> None:
        super().__init__()
        self.looks: list[tuple[str, str]] = []
        self.look: str | None = None

    def handle_starttag(self, tag: str, attributes: list[tuple[str, str | None]]) -> None:
        if tag in ("pre", "span"):
            self.look = dict(attributes).get("style") or ""

    def handle_endtag(self, tag: str) -> None:
        self.look = None if tag == "pre" else "" if tag == "span" else self.look

    def handle_data(self, data: str) -> None:
        if self.look is not None:
            self.looks += [(character, self.look) for character in data if not character.isspace()]


def looks(text: str) -> list[tuple[str, str]]:
    """The characters of a text but blanks, with the look that Kate's engine gives each."""
    with tempfile.TemporaryDirectory() as home:
        folder = os.path.join(home, "org.kde.syntax-highlighting", "syntax")
        os.makedirs(folder)
        shutil.copy(HIGHLIGHTING, folder)
        place = os.path.join(home, "text.pl0")
        with open(place, "w", encoding="ascii", newline="") as file:
            file.write(text)
        settings = {**os.environ, "XDG_DATA_HOME": home, "QT_QPA_PLATFORM": "offscreen"}
        run = subprocess.run([ENGINE, "--syntax", "PL/0", place], env=settings, stdout=subprocess.PIPE, text=True,
                             check=True)
    page = Looks()
    page.feed(run.stdout)
    return page.looks


def wrong_looks(text: str, wanted: list[Mark], known: dict[str, str]) -> Iterator[str]:
    """Where Kate's engine looks at a text in another way. What is known of the kinds' looks grows."""
    kinds = [(character, mark.kind) for mark in wanted for character in mark.text]
    found = looks(text)
    if [character for character, _ in found] != [character for character, _ in kinds]:
        yield "Kate's engine shows another text"
        return
    for (character, look), (_, kind) in zip(found, kinds):
        if known.setdefault(kind, look) != look:
            yield f"Kate's engine shows {character}, of a {kind}, as `{look}`, and not as `{known[kind]}`"
            return


class Comparison:
    """What was compared so far."""

    def __init__(self, program: str):
        self.program = program
        self.code, self.kate = patterns(), rules()
        self.has_engine = shutil.which(ENGINE) is not None
        self.looks: dict[str, str] = {}
        self.counts = {"texts": 0, "tokens": 0, "steps": 0}

    def differences(self, text: str, path: str | None) -> Iterator[str]:
        """The differences in a text, which is that of the file at this path, if any."""
        wanted = marks(text, tokens)
        self.counts["texts"] += 1
        self.counts["tokens"] += len(wanted)
        yield from first_difference("Visual Studio Code", wanted,
                                    marks(text, lambda *at: marks_of_code(*at, self.code)))
        yield from first_difference("Kate", wanted, marks(text, lambda *at: marks_of_kate(*at, self.kate)))
        if self.has_engine:
            yield from wrong_looks(text, wanted, self.looks)
        if path is not None:
            listed = list(steps(self.program, path))
            self.counts["steps"] += len(listed)
            yield from wrong_steps(listed, wanted)

    def alike(self) -> Iterator[str]:
        """Kinds that Kate's engine shows alike."""
        if len(set(self.looks.values())) < len(self.looks):
            yield f"Kate's engine shows kinds alike: {self.looks}"


def main() -> int:
    if len(sys.argv) < 3:
        print(__doc__, file=sys.stderr)
        return 4
    comparison = Comparison(os.path.abspath(sys.argv[1]))
    found = [f"a text of this script: {one}" for text in TOUCHING for one in comparison.differences(text, None)]
    for path in sys.argv[2:]:
        with open(path, encoding="ascii", newline="") as file:
            found += [f"{path}: {one}" for one in comparison.differences(file.read(), path)]
    found += comparison.alike()
    counts = ", ".join(f"{count} {name}" for name, count in comparison.counts.items())
    engine = "Kate's engine too" if comparison.has_engine else f"Kate's engine, {ENGINE}, isn't installed"
    print("\n".join(found) or f"{counts}: marked alike, each by its kind; {engine}")
    return 1 if found else 0


if __name__ == "__main__":
    sys.exit(main())
