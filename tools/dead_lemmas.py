#!/usr/bin/env python3
"""Finds lemmas that nothing uses, and what stands in specs/ and need not be believed.

usage: tools/dead_lemmas.py [CRATE..]

A lemma is used where an answer to a goal, an invariant, a source or a worked example leads to it, through other lemmas
and definitions. To what stands in specs/ a contract, another line of a source or a worked example has to lead, through
definitions alone: what serves proofs alone belongs into proofs/. Names are followed through imports, so two lemmas of
one name aren't taken for each other. Prints a line for each lemma and definition of the crates, or of all if none is
given, that isn't used so. Says on standard error how many these are, and in how many lines. Ends with status 1 where
there is one.
"""
import re
import sys
from pathlib import Path
from typing import Iterator, NamedTuple

TOP = Path(__file__).resolve().parent.parent
# Lemma files and definitions that state what is checked by computing both sides: nothing has to name them.
WORKED = re.compile(r"/(?:Worked\w*|pl0_tree/proofs/Rows(?:OfTrees|OfLimits)?|dbg_runner/proofs/Refused)\.antt$")
# Files of which the prover itself reads all, or what is public.
READ_WHOLE = ("Invariants.antt", "Proof.antt", "Send.antt")
READ_IN_PART = READ_WHOLE + ("Answers.antt",)
MODIFIERS = r"(?:(?:pub|abbrev|unfoldable|mutual|data|record) )*"
NAMED = re.compile(rf"^ *{MODIFIERS}([^\s:(){{}}=]+)(?: [({{][^:]*:.*)? :(?: |$)")
LISTED = re.compile(r"^ *(?:pub )?ruleset ([^\s=]+) =")
IMPORT = re.compile(r"^(?:unfoldable )?(pub )?use ([^\s{}]+?)(?:\.\{(.*)\}| as (\S+))?$")
SOURCE_IMPORT = re.compile(r"ghost use ([^\s{};]+?)(?:\.\{([^}]*)\}| as (\w+))?;")
WORD = re.compile(r"[^\s(){}\[\],;]+")


class Paragraph(NamedTuple):
    """What stands between two empty lines: the names that it declares, and the words that it has."""

    module: str
    line: int
    lines: int
    is_public: bool
    names: frozenset[str]
    words: frozenset[str]


class Module:
    """A file: its paragraphs, what it imports by which word, and what it passes on."""

    def __init__(self, file: Path) -> None:
        self.file = str(file.relative_to(TOP))
        crate, kind, *inner = file.relative_to(TOP / "crates").with_suffix("").parts
        self.name = ".".join(["Rattle", crate, kind, *(part for part in inner if part != "Lib")])
        self.imported: dict[str, str] = {}
        self.paragraphs: list[Paragraph] = []
        self.declared: dict[str, list[int]] = {}
        self.read(file.read_text(encoding="utf-8").split("\n"))

    def read(self, lines: list[str]) -> None:
        start = 0
        headers: list[tuple[int, frozenset[str]]] = []
        while start < len(lines):
            end = start
            while end < len(lines) and lines[end].strip():
                end += 1
            headers = [header for header in headers if not lines[start] or header[0] < indent(lines[start])]
            self.take(start, lines[start:end], frozenset().union(*(words for _, words in headers)))
            headers += headers_of(lines[start:end])
            start = end + 1

    def take(self, start: int, lines: list[str], header: frozenset[str]) -> None:
        text = [line for line in lines if not line.lstrip().startswith("--")]
        for line in text:
            found = IMPORT.match(line)
            if found:
                self.imported.update(imports(found[2], found[3], found[4]))
        text = [line for line in text if not IMPORT.match(line) and not re.match(r"^(pub )?mod ", line)]
        if not text:
            return
        is_public = any(line.startswith("pub ") for line in text)
        names = frozenset(name for line in joined(text) for name in declared(line))
        words = header.union(word for line in text for word in WORD.findall(line))
        for name in names:
            for word in spellings(name):
                self.declared.setdefault(word, []).append(len(self.paragraphs))
        self.paragraphs.append(Paragraph(self.name, start + 1, len(lines) + 1, is_public, names, words))


def indent(line: str) -> int:
    """How many spaces a line begins with."""
    return len(line) - len(line.lstrip())


def headers_of(lines: list[str]) -> Iterator[tuple[int, frozenset[str]]]:
    """The words of each `module _ (..) where`: what stands in the module may use them, in later paragraphs too."""
    for start, line in enumerate(lines):
        if line.lstrip().startswith("module _ "):
            end = next((end for end in range(start, len(lines)) if lines[end].endswith("where")), start)
            yield indent(line), frozenset(word for line in lines[start:end + 1] for word in WORD.findall(line))


def joined(lines: list[str]) -> list[str]:
    """The lines, with a name whose type begins on the next line joined to that."""
    return [f"{line} {following.lstrip()}" if following.lstrip().startswith(": ") else line
            for line, following in zip(lines, [*lines[1:], ""])]


def declared(line: str) -> Iterator[str]:
    """The names that a line declares: a lemma, a type, a constructor or a field."""
    found = NAMED.match(line) or LISTED.match(line)
    if found:
        yield found[1]


def spellings(name: str) -> list[str]:
    """A name as it is imported, and the words of an operator as they stand between its arguments."""
    return [name, *(part for part in name.split("◌") if part and part != name)]


def imports(path: str, items: str | None, alias: str | None) -> Iterator[tuple[str, str]]:
    """Each word that an import brings, with what it stands for."""
    if items is None:
        yield alias or path.rsplit(".", 1)[-1], path
        return
    for item in items.replace("\n", " ").split(","):
        name, _, other = item.strip().partition(" as ")
        for word in spellings(other or name.rsplit(".", 1)[-1]):
            yield word, f"{path}.{name}"


class Tree:
    """Files, and which of their paragraphs are alive."""

    def __init__(self, files: list[Path]) -> None:
        self.modules = {module.name: module for module in map(Module, files)}
        self.alive: set[tuple[str, int]] = set()
        self.work: list[tuple[str, int]] = []

    def meant(self, path: str, depth: int = 0) -> list[tuple[str, int]]:
        """The paragraphs that a whole path leads to, through files that pass the name on."""
        parts = path.split(".")
        for cut in range(len(parts) - 1, 1, -1):
            module = self.modules.get(".".join(parts[:cut]))
            if module is None:
                continue
            if parts[cut] in module.declared:
                return [(module.name, index) for index in module.declared[parts[cut]]]
            if parts[cut] in module.imported and depth < 5:
                return self.meant(".".join([module.imported[parts[cut]], *parts[cut + 1:]]), depth + 1)
        return []

    def name(self, module: Module, word: str) -> None:
        """Takes note of a word that stands in a file."""
        head, _, rest = word.partition(".")
        path = word
        if word in module.declared or head in module.declared:
            path = f"{module.name}.{word if word in module.declared else head}"
        elif word in module.imported or head in module.imported:
            path = module.imported[word] if word in module.imported else f"{module.imported[head]}.{rest}".rstrip(".")
        self.reach(self.meant(path))

    def reach(self, found: list[tuple[str, int]]) -> None:
        new = [place for place in found if place not in self.alive]
        self.alive.update(new)
        self.work += new

    def live(self) -> None:
        """Marks what is read by the prover, what sources name, and all that these lead to."""
        for module in self.modules.values():
            if module.file.endswith(READ_IN_PART) or WORKED.search(module.file):
                is_whole = module.file.endswith(READ_WHOLE) or WORKED.search(module.file) is not None
                self.reach([(module.name, index) for index, paragraph in enumerate(module.paragraphs)
                            if is_whole or paragraph.is_public])
        for source in TOP.glob("crates/*/src/**/*.rt"):
            self.take_source(source)
        while self.work:
            name, index = self.work.pop()
            module = self.modules[name]
            for word in module.paragraphs[index].words:
                self.name(module, word)

    def take_source(self, source: Path) -> None:
        """Marks what a source's clauses, imports and attributes name."""
        text = source.read_text(encoding="utf-8")
        crate = source.relative_to(TOP / "crates").parts[0]
        for path, items, alias in SOURCE_IMPORT.findall(text):
            for word, whole in imports(path, items or None, alias or None):
                self.reach(self.meant(whole))
                for rest in re.findall(rf"\b{re.escape(word)}\.([\w.\-◌]+)", text):
                    self.reach(self.meant(f"{whole}.{rest}"))
        for path in re.findall(r"crate::((?:proofs|specs)(?:::\w+)+)", text):
            self.reach(self.meant(f"Rattle.{crate}.{path.replace('::', '.')}"))

    def dead(self, crates: list[str], kind: str) -> Iterator[tuple[Module, Paragraph]]:
        """The paragraphs of proofs/ or of specs/ that aren't alive."""
        for module in self.modules.values():
            crate, own_kind = module.name.split(".")[1:3]
            if crates and crate not in crates or own_kind != kind:
                continue
            for index, paragraph in enumerate(module.paragraphs):
                if paragraph.names and (module.name, index) not in self.alive:
                    yield module, paragraph


def main() -> int:
    files = sorted(TOP.glob("crates/*/proofs/**/*.antt")) + sorted(TOP.glob("crates/*/specs/**/*.antt"))
    believed = [file for file in files if "specs" in file.parts or WORKED.search(str(file))]
    whole, definitions = Tree(files), Tree(believed)
    whole.live()
    definitions.live()
    dead = [*whole.dead(sys.argv[1:], "proofs"), *definitions.dead(sys.argv[1:], "specs")]
    for module, paragraph in dead:
        print(f"{module.file}:{paragraph.line} {' '.join(sorted(paragraph.names))}")
    print(f"{len(dead)} dead, {sum(paragraph.lines for _, paragraph in dead)} lines", file=sys.stderr)
    return 1 if dead else 0


if __name__ == "__main__":
    sys.exit(main())
