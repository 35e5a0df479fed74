#!/usr/bin/env python3
"""Counts what statements cite, through all definitions down to the library: what one reads to know what they say.

usage: cited.py [--told NAME].. NAME..
       cited.py --page

A NAME is a definition, as adapter.Serving.IsServed. What is `told` isn't looked into: a law says that B holds where A
does, and a reader who has A of a contract, by its name, need not know what A says. Prints the lines of each file that
are cited, without imports, blanks and comments, those of the types that the code declares, and their sums.

With --page it compares the table of ways in docs/DEFINITIONS.md with such sums, if the kit is there also with what the
kit defines of JSON; the steps of the page with what the headline cites; and what the page prints with the sources. It
prints each count that is more than a twentieth away, each definition that no step has, and each printed one that isn't
so declared, and ends with status 1 where there is one.
"""
from __future__ import annotations

import argparse
import pathlib
import re
import shutil
import subprocess
import sys
from collections import Counter
from collections.abc import Iterator

from reading import ASIDE, BELOW, DEFINED, PAGE, PART, STEPS, TYPE, lines_by_name
from scratch import TOP

IMPORT = re.compile(r"(?:pub )?use (\S+?)(?:\.\{(.*)\}| as (\S+))$")
WORD = re.compile(r"[^\s(){}\[\],;]+")
# What begins a declaration, and a rule of a type that is given by cases.
BEGINS = re.compile(r"(?:(?:abbrev|unfoldable|opaque|pub) )*(record |data )?([^\s:(){}=,]+)")
RULE = re.compile(r"([^\s:(){}=]+) :")
# The kit's crates that say what JSON is; and what a page prints of definitions.
JSON = ("json", "serde_json")
PRINTED = re.compile(r"^```antt\n(.*?)^```$", re.MULTILINE | re.DOTALL)
CONTRACT, BYTES = "adapter.Serving.IsServed", "adapter.Serving.TasksEnd"
HISTORY = ["dap_history.Events.IsHistoryOf", "dap_history.Events.AreLawful", "dap_session.Laws.IsOnTheWay"]
LAWS = {"dap_history": ("history_laws", "run_laws", "command_laws"), "adapter": ("serving_laws",)}
# The ways of the page, by the words of their rows: what is read, and what is told.
WAYS = {
    "answered": (["adapter.UpTo.DisconnectIsAnswered", "adapter.UpTo.AllBeforeFaultIsAnswered",
                  "adapter.AllRead.AllReadIsAnswered"], [CONTRACT]),
    "numbered": (["dap_history.Laws.SeqCountFromOne", "dap_history.Laws.FramesAreReadBack"], HISTORY),
    "numbers": (["dap_history.Laws.NumbersAreWritten", "dap_history.Laws.StopsFollowNumbers"], HISTORY),
    "stops": ([f"dap_history.Moves.{law}" for law in
               ("EachStopIsAsAsked", "NoStopIsPassed", "PausesStop", "PositionZeroIsConsidered")], HISTORY),
    "lines": (["dap_history.LineAnswers.LinesAreAnswered", "dap_history.Lines.EachRunHasItsLines",
               "dap_history.Lines.EachRunCountsFrom"], HISTORY),
    "came": (["dap_history.Laws.ContentsAreOfTheStream", "dap_history.Interleaving.EachLaunchIsLoaded",
              "dap_history.Loading.EachLaunchIsOfItsFile"], HISTORY),
    "shown": (["dap_history.Shown.AnswersShowTheProgram"], HISTORY),
    "last": (["dap_history.Laws.DisconnectIsLast"], HISTORY),
    "history": (["adapter.Written.OutputIsOfHistory"], [BYTES, *HISTORY]),
    "waiting": (["adapter.Waiting.WaitingOwesNothing"], HISTORY),
    "contract": ([CONTRACT], []),
}


WAYS["all"] = ([name for names, told in WAYS.values() if told for name in names], [CONTRACT, BYTES, *HISTORY])


def path(name: str) -> tuple[str, str]:
    """The module and the name of a definition."""
    crate, file, own = name.split(".")
    return f"Rattle.{crate}.specs.{file}", own


class Module:
    """A file of definitions: what each word of it stands for, and the lines of each declaration."""

    def __init__(self, file: str, text: str) -> None:
        self.file = file
        self.imported: dict[str, tuple[str, str]] = {}
        self.passed: dict[str, str] = {}
        self.lines: dict[str, list[str]] = {}
        self.owners: dict[str, str] = {}
        self.shared: list[str] = []
        name, kind, inner = "", "", 0
        for line in text.splitlines():
            found = IMPORT.match(line)
            if found:
                self.take_import(*found.groups())
            elif line.strip() in ("mutual", "abbrev mutual") or line.startswith("module _"):
                inner, self.shared = 2, self.shared + [line]
            elif not ASIDE.match(line):
                depth = len(line) - len(line.lstrip())
                inner = min(inner, depth)
                begun = BEGINS.match(line.strip()) if depth == inner and line.strip()[0] not in "})×⊎→" else None
                if begun:
                    kind, name = begun[1] or "", begun[2]
                rule = RULE.match(line.strip())
                if kind == "data " and not begun and rule:
                    self.owners.setdefault(rule[1], name)
                self.lines.setdefault(name, []).append(line)

    def take_import(self, source: str, items: str | None, alias: str | None) -> None:
        """Takes note of what an import brings."""
        if items is None:
            self.passed[alias or source.rpartition(".")[2]] = source
        for item in items.split(", ") if items else []:
            name, _, other = item.partition(" as ")
            self.imported[other or name] = (source, name)

    def meant(self, word: str) -> tuple[str, str] | None:
        """What a word of the file stands for, if it isn't a variable: a module, or none for this one, and a name."""
        head, _, rest = word.partition(".")
        if word in self.imported:
            return self.imported[word]
        if word in self.lines or word in self.owners:
            return "", self.owners.get(word, word)
        if rest and head in self.passed:
            return self.passed[head], rest
        return self.imported.get(head) if rest else None


class Cited:
    """What statements lead to: definitions, and types of the code; with `kit`, also what that folder has of JSON."""

    def __init__(self, names: list[tuple[str, str]], told: list[str], kit: pathlib.Path | None = None) -> None:
        self.kit = kit
        self.modules: dict[str, Module | None] = {}
        self.types: set[tuple[str, str]] = set()
        self.found: set[tuple[str, str]] = set()
        self.told = set(map(path, told))
        work = list(names)
        while work:
            place = self.declared(*work.pop())
            if place and place not in self.found and place not in self.told:
                self.found.add(place)
                work += self.words(*place)

    def module(self, name: str) -> Module | None:
        """A module of the repository, or none: one of the library, or a type of the code."""
        if name not in self.modules:
            crate, _, file = name.removeprefix("Rattle.").partition(".specs.")
            crates = self.kit if self.kit and crate in JSON else TOP / "crates"
            place = crates / crate / "specs" / (file.replace(".", "/") + ".antt")
            self.modules[name] = Module(f"{crate}/specs/{file}", place.read_text(encoding="utf-8")) \
                if place.exists() else None
        return self.modules[name]

    def declared(self, name: str, word: str) -> tuple[str, str] | None:
        """Where a name is declared, through files that pass it on; takes note of a type of the code."""
        crate, found, rest = name.removeprefix("Rattle.").partition(".specs.declared.")
        if found and (TOP / "crates" / crate).exists():
            *folders, own = rest.removesuffix(".TheVariants").split(".")
            self.types.add((f"{crate}/src/{'/'.join(folders) or 'lib'}.rt", own))
        module = self.module(name)
        if module is None:
            return None
        word = module.owners.get(word, word)
        return (name, word) if word in module.lines else \
            self.declared(*module.imported[word]) if word in module.imported else None

    def words(self, name: str, own: str) -> list[tuple[str, str]]:
        """What a declaration's words stand for."""
        module = self.modules[name]
        lines = module.lines[own] + (module.shared if module.lines[own][0].startswith("  ") else [])
        meant = (module.meant(word) for line in lines for word in WORD.findall(line.partition(" -- ")[0]))
        return [(place[0] or name, place[1]) for place in meant if place]

    def definitions(self) -> Counter[str]:
        """How many lines of each file are cited."""
        found: Counter[str] = Counter()
        for name, own in self.found:
            found[self.modules[name].file] += len(self.modules[name].lines[own])
        return found

    def type_lines(self) -> Counter[str]:
        """How many lines the types of each source have."""
        return Counter({f"{file}: {own}": sum(one == own for one, _ in lines_by_name(file, TYPE))
                        for file, own in self.types})

    def lines(self) -> int:
        return sum(self.definitions().values()) + sum(self.type_lines().values())


def clauses() -> list[tuple[str, str]]:
    """What the contract of `serve` and the laws of the headline say."""
    found = [path(CONTRACT)]
    for crate, functions in LAWS.items():
        text = (TOP / "crates" / crate / "src" / "laws.rt").read_text(encoding="utf-8")
        names = {name: source for source, items in re.findall(r"ghost use (\S+)\.\{(.*)\};", text)
                 for name in items.split(", ")}
        for function in functions:
            head = text[text.index(f"pub fn {function}("):].partition("\n{")[0]
            found += [(names[name], name) for name in re.findall(r"\{ (\w+) \}", head)]
    return found


def listed() -> set[tuple[str, str]]:
    """The files with the declarations that the steps of the page have, and what these rest on."""
    found: set[tuple[str, str]] = set()
    for parts in [*STEPS.values(), *BELOW.values()]:
        folder = ""
        for file, first, last, without in (PART.fullmatch(part).groups() for part in parts.split()):
            folder = folder if file.startswith(".") else file.rpartition("/")[0] + "/"
            place = folder + file.rpartition("/")[2].lstrip(".")
            names = [name for name, _ in lines_by_name(place + ".antt", DEFINED)]
            start = names.index(first) if first else 0
            end = len(names) - names[::-1].index(last) if last else len(names)
            found |= {(place, name) for name in names[start:end]} - {(place, name) for name in without.split("-")}
            if {"mutual", "_"} & set(names):
                found.add((place, ""))
    return found


def kit() -> pathlib.Path | None:
    """The folder of the kit's crates, if the kit is there."""
    if not shutil.which("rt"):
        return None
    first = subprocess.run(["rt", "doc"], capture_output=True, text=True, check=True).stdout.splitlines()[0]
    return pathlib.Path(first).parent / "rattle"


def counts() -> Iterator[tuple[str, int]]:
    """How many lines each way of the page has, and what the kit adds to them of JSON."""
    for way, (names, told) in WAYS.items():
        yield way, Cited([*map(path, names)], told).lines()
    names, told = WAYS["all"]
    if (folder := kit()) is not None:
        cited = Cited([*map(path, names)], told, folder).definitions()
        yield "json", sum(lines for file, lines in cited.items() if file.partition("/")[0] in JSON)


def misprinted(page: str) -> Iterator[str]:
    """The declarations that the page prints, and that no file of definitions has, line for line."""
    sources = [file.read_text(encoding="utf-8") for file in (TOP / "crates").glob("*/specs/*.antt")]
    for block in PRINTED.findall(page):
        for printed in block.strip("\n").split("\n\n"):
            if not any(f"\n{printed}\n" in source for source in sources):
                yield f"docs/DEFINITIONS.md: no file declares what is printed: {printed.splitlines()[0]}"


def wrong_page() -> list[str]:
    """What the page says otherwise, or leaves out."""
    page = PAGE.read_text(encoding="utf-8")
    wrong = [*misprinted(page)]
    for way, count in counts():
        said = re.search(rf"<!--{way}-->([\d,]+)", page)
        number = int(said[1].replace(",", "")) if said else 0
        if abs(count - number) > count / 20:
            wrong.append(f"docs/DEFINITIONS.md: the way `{way}` has {count} lines, and it says {number}")
    cited, places = Cited(clauses(), []), listed()
    for name, own in sorted(cited.found):
        file = cited.modules[name].file
        if (file, own) not in places and (file, "") not in places:
            wrong.append(f"docs/DEFINITIONS.md: no step has {own} of {file}.antt, which the headline cites")
    return wrong


def main() -> int:
    parser = argparse.ArgumentParser(usage="cited.py [--told NAME].. NAME.. | --page")
    parser.add_argument("--page", action="store_true")
    parser.add_argument("--told", action="append", default=[])
    parser.add_argument("names", nargs="*")
    asked = parser.parse_args()
    if asked.page:
        wrong = wrong_page()
        print("\n".join(wrong), end="\n" if wrong else "")
        return 1 if wrong else 0
    cited = Cited([*map(path, asked.names)], asked.told)
    for lines in (cited.definitions(), cited.type_lines()):
        for file, count in sorted(lines.items()):
            print(f"{count:5} {file}")
        print(f"{sum(lines.values()):5} in {len(lines)}")
    return 0


if __name__ == "__main__":
    sys.exit(main())
