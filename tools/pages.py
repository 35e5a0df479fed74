#!/usr/bin/env python3
"""Checks what pages and sources say about themselves and each other: names, lengths of functions and of lines.

usage: pages.py

In README.md, CHANGELOG.md and docs/*.md a link has to lead to a file, and to a heading where it names one. A name in
backquotes that ends like a source file or a script has to be that of a file of the repository, or the end of its path;
names that stand for others, such as `src/NAME.rt`, aren't looked at. A name that stands with its file, as in "`NAME`
(`FILE`)", "(`NAME`, `FILE`)", "`NAME`: `FILE`" and "`NAME` in `FILE`", or before its file in a row of a table, has to
be declared in that file. Prose has lines of at most 124 columns. The lists of laws in docs/PROMISES.md have to be
those that laws.py writes. The version in the first line of the program's help is that of the manual pages, of the
extension, and of the newest changes. In the model of the threads each process and inline names, in the comment before
it, what it stands for: `@ FILE: NAME, NAME`. The files and their functions, types and variants have to be there, and a
size, `@size FILE: NAME (VALUE)`, has to be the constant's.

In sources no function has over 40 lines, contracts not counted, but those of LONG_FUNCTIONS. Lines of contracts,
definitions and proofs have at most 120 columns, but for imports, which the kit keeps on one line, and names of goals.

Prints what is wrong, and ends with status 1 where anything is.
"""
from __future__ import annotations

import pathlib
import re
import sys
from collections.abc import Iterator

from laws import wrong_laws
from scratch import TOP

COLUMNS = 124
LOGIC_COLUMNS = 120
FUNCTION_LINES = 40
# Functions that are longer, each with the reason.
LONG_FUNCTIONS = {
    ("crates/adapter/src/thread_tasks.rt", "tasks_over"):
        "four tasks, on a line for each field",
    ("crates/adapter/src/serving.rt", "serve_over"):
        "nine parameters with their bounds, on 19 lines; four tasks, of which one proof speaks",
    ("crates/test_kit/src/runner.rt", "report_next"):
        "the runner's turn in one thread, which the runner itself takes in two functions between threads",
}
LINK = re.compile(r"\]\(([^)#]*)(?:#([^)]*))?\)")
NAME = re.compile(r"`([\w./*-]+\.(?:rt|antt|py|edit|session|md|lua|json|el|txt|c))`")
# What stands for a name, and what begins a file of a user's own.
STANDS_FOR = re.compile(r"NAME|MODULE|\bName\b|\bX\.|/F/|^\.")
VERSION = r"(\d+\.\d+\.\d+)"
# Where the version stands, and what says it there: first where it is defined.
VERSIONS = {
    "crates/adapter/src/arguments.rt": rf'HELP: &str =\s+"pl0dap {VERSION}:',
    "crates/pl0_tool/src/arguments.rt": rf'\.version\("{VERSION}"\)',
    "docs/pl0.1": rf'^\.TH .*"pl0dap {VERSION}"',
    "docs/pl0dap.1": rf'^\.TH .*"pl0dap {VERSION}"',
    "docs/EDITORS.md": rf"pl0dap\.pl0-{VERSION}`",
    "editors/vscode/package.json": rf'^  "version": "{VERSION}"',
    "Cargo.toml": rf'^version = "{VERSION}"$',
    "CHANGELOG.md": rf"^## {VERSION}, \d{{4}}-\d{{2}}-\d{{2}}$",
}
FUNCTION = re.compile(r"^( *)(?:pub(?:\([a-z ]+\))? )?(?:const )?(?:unsafe )?(?:ghost )?fn (\w+)")
CONTRACT = re.compile(r"^ *(?:requires|ensures|decreases|invariant)\b")
# A line of a contract, of a type's ghost field or invariant, or of what goes on with one.
STATED = re.compile(r"^ *(?:(?:requires|ensures|decreases|invariant)\b|(?:pub )?ghost (?!use |fn )\w|[×→∧∨])")
# A file, and names in a row in front of one: in prose with a word or a bracket between, or as the last two cells of a
# row.
FILE = r"`(?:[\w./-]+/)?\w+\.(?:rt|antt|py)`"
WORDS = r"`[\w:]+`(?:(?:, | and |, and | or )`[\w:]+`)*"
FILES = rf"{FILE}(?:(?:, | and ){FILE})*"
# What declares a name: an item's word before it, or what follows a field, a variant, a lemma or a constant; or a list
# that passes it on.
DECLARED = (
    r"^ *(?:pub(?:\([a-z ]+\))? )?(?:(?:(?:const |unsafe |ghost )*(?:fn|struct|enum|trait|const|static|type|mod)"
    r"|data|record|def|class) {0}\b|(?:(?:abbrev|opaque|pub) )*{0}(?: ?[:,(={{]|$))|^(?:pub use|from) .*\b{0}\b"
)
NAMED = [
    re.compile(rf"({WORDS}) \(({FILES})\)"),
    re.compile(rf"(?:\(|; )({WORDS}), ({FILES})(?=[;)])"),
    re.compile(rf"({WORDS}): ({FILES})"),
    re.compile(rf"({WORDS}) in ({FILES})"),
    re.compile(rf"\| (?:[^|`]* )?({WORDS}) \| ({FILES}) \|"),
]
MODEL = TOP / "tools" / "threads" / "threads.pml"
# What a part of the model stands for, below crates/; the size of a queue in the code; and a part of the model.
STANDS_BESIDE = re.compile(r"@ (\S+\.rt): ([\w:]+(?:, [\w:]+)*)")
SIZE = re.compile(r"@size (\S+\.rt): (\w+) \((\d+)\)")
MODEL_PART = re.compile(r"^(?:proctype|inline) (\w+)", re.MULTILINE)
# Parts that stand for no code: who speaks with the adapter, and who says what has to hold.
NO_CODE = {"Client", "Judge"}


def pages() -> list[pathlib.Path]:
    return [TOP / "README.md", TOP / "CHANGELOG.md", *sorted((TOP / "docs").glob("*.md"))]


def prose(page: pathlib.Path) -> Iterator[tuple[int, str]]:
    """The lines of a page that aren't code, with their numbers."""
    is_code = False
    for number, line in enumerate(page.read_text(encoding="utf-8").splitlines(), 1):
        if line.startswith("```"):
            is_code = not is_code
        elif not is_code:
            yield number, line


def anchor(heading: str) -> str:
    """The name by which a link finds a heading."""
    return re.sub(r"[^\w -]", "", heading.lower()).replace(" ", "-")


def anchors(page: pathlib.Path) -> set[str]:
    return {anchor(line.lstrip("#").strip()) for _, line in prose(page) if line.startswith("#")}


def wrong_link(page: pathlib.Path, target: str, heading: str) -> bool:
    if "://" in target:
        return False
    found = page.parent / target if target else page
    return not found.exists() or bool(heading) and heading not in anchors(found)


def wrong(page: pathlib.Path, files: list[pathlib.Path]) -> Iterator[str]:
    """What is wrong with a page, line by line."""
    for number, line in prose(page):
        at = f"{page.relative_to(TOP)}:{number}"
        if len(line) > COLUMNS and not line.startswith(("|", "[")):
            yield f"{at}: {len(line)} columns"
        for target, heading in LINK.findall(line):
            if wrong_link(page, target, heading):
                yield f"{at}: nothing is at {target}{'#' + heading if heading else ''}"
        for name in NAME.findall(line):
            if not STANDS_FOR.search(name) and not any(file.match(name) for file in files):
                yield f"{at}: there is no file {name}"


def paragraphs(page: pathlib.Path) -> Iterator[tuple[int, str]]:
    """The paragraphs and the rows of tables of a page, each as one line, with the number of its first."""
    start, lines = 0, []
    for number, line in [*prose(page), (0, "")]:
        begins = line.startswith(("|", "#", "- ")) or re.match(r" *(?:[-*]|[0-9]+\.) ", line)
        if lines and (not line.strip() or begins):
            yield start, " ".join(lines)
            lines = []
        if line.strip():
            start, lines = start if lines else number, [*lines, line.strip()]


def declares(text: str, name: str) -> bool:
    """Whether a source declares an item, a field or a variant, or a lemma of this name, or passes one on."""
    return re.search(DECLARED.format(re.escape(name)), text, re.MULTILINE) is not None


def misplaced(page: pathlib.Path, files: list[pathlib.Path]) -> Iterator[str]:
    """The names of a page that aren't in the file that stands with them."""
    texts = {file: file.read_text(encoding="utf-8") for file in files if file.suffix in (".rt", ".antt", ".py")}
    for number, paragraph in paragraphs(page):
        for names, places in (found for pattern in NAMED for found in pattern.findall(paragraph)):
            listed = re.findall(r"`([^`]+)`", places)
            held = [text for file, text in texts.items() if any(file.match(place) for place in listed)]
            for name in re.findall(r"`([\w:]+)`", names):
                if held and not any(declares(text, name.split("::")[-1]) for text in held):
                    yield f"{page.relative_to(TOP)}:{number}: {name} isn't in {places}"


def long_logic() -> Iterator[str]:
    """The lines of definitions and proofs that are too long."""
    for file in sorted(TOP.glob("crates/*/specs/**/*.antt")) + sorted(TOP.glob("crates/*/proofs/**/*.antt")):
        for number, line in enumerate(file.read_text(encoding="utf-8").splitlines(), 1):
            if len(line) > LOGIC_COLUMNS and not line.startswith(("use ", "pub use ")) and " : goal." not in line:
                yield f"{file.relative_to(TOP)}:{number}: {len(line)} columns"


def source(place: str) -> str:
    """A source file below crates/; nothing where it isn't there."""
    file = TOP / "crates" / place
    return file.read_text(encoding="utf-8") if file.exists() else ""


def has_item(code: str, name: str) -> bool:
    """Whether a source has this function, type, variant or constant, and names the type that stands before it."""
    owner, _, item = name.rpartition("::")
    found = re.search(rf"\b(?:fn|struct|enum|trait|const) {item}\b|^    {item}(?:,| \{{|\()", code, re.MULTILINE)
    return bool(found and re.search(rf"\b{owner}\b", code))


def wrong_model() -> Iterator[str]:
    """What the model of the threads names and isn't in the code, and its parts that name nothing."""
    model = MODEL.read_text(encoding="utf-8")
    at = MODEL.relative_to(TOP)
    for place, names in STANDS_BESIDE.findall(model):
        for name in names.split(", "):
            if not has_item(source(place), name):
                yield f"{at}: there is no {name} in crates/{place}"
    for place, name, value in SIZE.findall(model):
        if f"const {name}: usize = {value};" not in source(place):
            yield f"{at}: crates/{place} has no {name} of {value}"
    for part in MODEL_PART.finditer(model):
        before = model[:part.start()].rstrip()
        if part[1] not in NO_CODE and not (before.endswith("*/") and "@" in before[before.rfind("/*"):]):
            yield f"{at}: {part[1]} doesn't say what it stands for"


def wrong_versions() -> Iterator[str]:
    """Where another version stands than the one that the program's help says."""
    wanted = None
    for name, pattern in VERSIONS.items():
        match = re.search(pattern, (TOP / name).read_text(encoding="utf-8"), re.MULTILINE)
        found = match and match[1]
        wanted = wanted or found
        if found is None or found != wanted:
            yield f"{name}: the version is {found}, and not {wanted}"


def functions(text: str) -> Iterator[tuple[str, int]]:
    """The functions of a source, and how many lines each has without its contract."""
    lines = text.splitlines()
    for number, line in enumerate(lines):
        head = FUNCTION.match(line)
        if head:
            end = next((at for at, one in enumerate(lines[number:], number) if is_last(one, head[1])), number)
            yield head[2], len([*without_contracts(lines[number:end + 1])])


def without_contracts(lines: list[str]) -> Iterator[str]:
    """The lines that belong to no clause of a contract; a clause goes on until its braces are closed."""
    opened = 0
    for line in lines:
        if opened or CONTRACT.match(line):
            opened += line.count("{") - line.count("}")
        else:
            yield line


def is_last(line: str, indent: str) -> bool:
    """Whether a line ends a function that is indented so far: its brace, or the end of a declaration without a body."""
    ends = line.endswith((";", "{}", " }"))
    return line == indent + "}" or line.startswith(indent) and ends and not line.startswith(indent + " ")


def long_functions() -> Iterator[str]:
    """The functions that are too long, and exceptions that aren't needed."""
    unused = dict(LONG_FUNCTIONS)
    for file in sorted(TOP.glob("crates/*/src/**/*.rt")):
        place = file.relative_to(TOP).as_posix()
        for name, lines in functions(file.read_text(encoding="utf-8")):
            if lines > FUNCTION_LINES and not unused.pop((place, name), None):
                yield f"{place}: {name} has {lines} lines"
    for place, name in unused:
        yield f"tools/pages.py: {name} of {place} needs no exception any more"


def long_contracts() -> Iterator[str]:
    """The lines of contracts that are too long."""
    for file in sorted(TOP.glob("crates/*/src/**/*.rt")):
        for number, line in enumerate(file.read_text(encoding="utf-8").splitlines(), 1):
            if len(line) > LOGIC_COLUMNS and STATED.match(line):
                yield f"{file.relative_to(TOP)}:{number}: {len(line)} columns"


def main() -> int:
    files = [file for file in TOP.rglob("*")
             if file.is_file() and not {"out", ".git", "__pycache__"} & set(file.relative_to(TOP).parts)]
    found = [one for page in pages() for one in (*wrong(page, files), *misplaced(page, files))]
    found += [*wrong_laws(), *long_logic(), *long_functions(), *long_contracts(), *wrong_versions(), *wrong_model()]
    for (file, name), why in LONG_FUNCTIONS.items():
        print(f"{file}: {name} is longer than 40 lines: {why}")
    print("\n".join(found) or f"{len(pages())} pages: all files, headings and functions that they name are there; "
          f"no line is too long, and no function but {len(LONG_FUNCTIONS)} with a reason")
    return 1 if found else 0


if __name__ == "__main__":
    sys.exit(main())
