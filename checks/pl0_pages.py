#!/usr/bin/env python3
"""Checks the program `pl0`: what docs/PL0.md says of mistakes, that it lists the code that is checked, and its output.

usage: pl0_pages.py PL0

Each row of the table of mistakes in docs/PL0.md is tried where its example is a text: the code is the number of the
fault, and the sentence and the place are what `pl0 check` tells. So is what the list below it says beside a token
that can't stand where it does, and of each text of mistakes.txt what stands there; each hint is told of one, and
names only what its sources know. For each of the examples `pl0 list` shows the same instructions, and the same steps
beside them, as `pl0dap --check` prints, whose stored output the gate compares. The table of names in docs/PL0.md is
what `pl0 list --names` writes, and the tree what `pl0 tree` does. The table of a run in docs/PL0.md is what `pl0
trace` writes, also where it begins later or ends earlier, and so are the machine and the instructions that are shown
there; in a run of each example an instruction leads to the next, and a step writes the operand on top. A program that
writes more than a megabyte writes it all to a pipe. Where nobody reads on, each command ends at once with status 3,
and says nothing; where the disk is full, it says so once, after a fault too. A run that is stopped keeps what it
wrote, and `pl0 check` tells which files can't be read, and why. Prints what is wrong, and ends with status 1 where
anything is.
"""
import itertools
import os
import pathlib
import re
import subprocess
import sys
import threading

TOP = pathlib.Path(__file__).resolve().parent.parent
MISTAKES = TOP / "crates" / "mistake_runs" / "data" / "mistakes.txt"
HINTS = TOP / "crates" / "pl0_mistakes" / "src" / "hints.rt"
ROW = re.compile(r"^\| (\d+) \| \w+ \| (.*) \| `([^`]*)` \| `(\d+) (\d+) (\d+)` \|$")
HINT = re.compile(r"^- (.*): `([^`]*)`$")
INSTRUCTION = re.compile(r"^ +(\d+)  ([A-Z]{3}) (\d+) (-?\d+) *((?: -?\d+)*)$")
ENDLESS = b"var n; while 0 = 0 do begin n := n + 1; ! n end.\n"
FAULTY = b"var n; begin n := n; ! 1 / n end.\n"
WRITES_AND_FAULTS = b"var n; begin ! 1; ! 1 / n end.\n"
# How many seconds a run that isn't proved may take to its first slice's end, where other processes are busy.
PATIENCE = 180
STUCK = b"var n; begin ! 1; ! 2; while 1 = 1 do n := 1 end.\n"
UNREAD = [b"there is no such file", b"it is a folder"]
LONG = b"var n; while n < 200000 do begin n := n + 1; ! n end.\n"


def run(*words: str, text: bytes = b"", **streams: object) -> subprocess.CompletedProcess[bytes]:
    return subprocess.run(words, input=text, capture_output=not streams, check=False, timeout=PATIENCE, **streams)


def wrong_mistakes(pl0: str):
    """What is wrong with the rows of mistakes."""
    rows = 0
    for line in (TOP / "docs" / "PL0.md").read_text(encoding="utf-8").splitlines():
        row = ROW.match(line)
        if not row:
            continue
        number, sentence, text, code, place_line, column = row.groups()
        rows += 1
        told = run(pl0, "check", "-", text=text.encode())
        wanted = f"-:{place_line}:{column}: error: {sentence}\n".encode()
        if number != code or told.stderr != wanted or told.returncode != 2 or told.stdout:
            yield f"mistake {number}: {told.stderr!r}, status {told.returncode}, where {wanted!r} is wanted"
    if rows < 8:
        yield f"only {rows} rows of mistakes were found"


def wrong_hints(pl0: str):
    """What is wrong with the list of what is said beside a token that can't stand where it does."""
    page = (TOP / "docs" / "PL0.md").read_text(encoding="utf-8")
    rows = [row for line in re.split(r"each\s+with\s+a\s+text:\n\n", page)[1].split("\n\n")[0].splitlines()
            if (row := HINT.match(line))]
    for row in rows:
        hint, text = row.groups()
        told = run(pl0, "check", "-", text=text.encode())
        if not told.stderr.endswith(f"` can't stand here; {hint}\n".encode()):
            yield f"of {text!r} is told {told.stderr!r}, where {hint!r} is wanted"
    if len(rows) < 6:
        yield f"only {len(rows)} rows of hints were found"


def texts() -> list[tuple[bytes, bytes]]:
    """The texts of mistakes.txt, and what is told of each. `\\0d` stands for the byte with this number."""
    found = []
    for block in MISTAKES.read_bytes().split(b"\n\n"):
        lines = block.rstrip(b"\n").split(b"\n")
        text = b"\n".join(line for line in lines if not line.startswith(b"-:"))
        told = b"".join(line + b"\n" for line in lines if line.startswith(b"-:"))
        found.append((re.sub(rb"\\([0-9a-f]{2})", lambda code: bytes([int(code[1], 16)]), text), told))
    return found


def wrong_texts(pl0: str):
    """The texts in mistakes.txt of which something else is told than stands there, and the hints that none is told."""
    for text, wanted in texts():
        told = run(pl0, "check", "-", text=text)
        status = 2 if b": error: " in wanted else 0
        if (told.stdout, told.stderr, told.returncode) != (b"", wanted, status):
            yield f"{text!r}: {told}, where {wanted!r} is wanted"
    for hint in re.findall(r"^[a-z].*say: (.*)$", HINTS.read_text(encoding="utf-8"), re.MULTILINE):
        said = re.compile(r".*; " + ".*".join(re.escape(part) for part in re.split(r"\{.*?\}", hint)))
        if not any(said.fullmatch(line) for _, wanted in texts() for line in wanted.decode().splitlines()):
            yield f"no text is told {hint!r}"


def misspelt_rows(pl0: str):
    """What a row of the hints names, and what reads it doesn't know: a key, a fact, a word in capitals or in braces."""
    sources = {name: (HINTS.parent / f"{name}.rt").read_text(encoding="utf-8") for name in ("facts", "words", "rows")}
    known = {name: set(re.findall(r'"([^"\n]+)" =>', text)) for name, text in sources.items()}
    for row in re.findall(r"^[a-z].*say: .*$", HINTS.read_text(encoding="utf-8"), re.MULTILINE):
        conditions, said = row.split("say: ")
        key, unknown = "", [one for one in re.findall(r"\{(.*?)\}", said) if one not in known["words"] | {"here"}]
        for word in conditions.split():
            if len(word) > 1 and word.endswith(":"):
                key = word
                unknown += [key] if key not in known["rows"] | {"here:"} else []
            elif key in ("when:", "unless:"):
                unknown += [word] if word not in known["facts"] else []
            elif word.isupper() and len(word) > 2 and word.lower() not in conditions.split():
                unknown += [word] if word not in known["words"] else []
        yield from (f"{one!r} is unknown in the row {row!r}" for one in unknown)


def listed(text: bytes) -> list[list[bytes]]:
    """The instructions in a listing of `pl0 list`: number, name, level, address, and the step that each begins."""
    found = []
    for line in text.splitlines():
        code = re.match(rb"^ *(@\d+)? +(\d+) ([A-Z]{3}) (\d+) +(-?\d+)(?:  .*)?$", line)
        if code:
            found.append([*code.groups()[1:], *([code[1]] if code[1] else [])])
    return found


def stored_code(name: str) -> list[list[bytes]]:
    """The instructions that `pl0dap --check` prints of an example."""
    stored = (TOP / "crates" / "check_runs" / "stdout").read_bytes()
    lines = stored.split(name.encode() + b":\n")[1].split(b"\n\n")[1].splitlines()
    return [line.split() for line in itertools.takewhile(lambda line: line[:1].isdigit(), lines)]


def wrong_listings(pl0: str):
    """The examples whose code is listed otherwise than `pl0dap --check` prints it, and what is wrong with the table of
    names and with the tree."""
    for example in sorted((TOP / "examples").glob("*.pl0")):
        if listed(run(pl0, "list", str(example)).stdout) != stored_code(example.name):
            yield f"{example.name}: another code is listed than checked"
    told = run(pl0, "list", "--names", str(TOP / "crates" / "pl0_runs" / "data" / "procedures.pl0"))
    wanted = drawn("pl0 list --names procedures.pl0")
    if (told.stdout, told.stderr, told.returncode) != (wanted, b"", 0):
        yield f"the table of names: {told}, where {wanted!r} is wanted"
    told = run(pl0, "tree", str(TOP / "crates" / "pl0_runs" / "data" / "procedures.pl0"))
    wanted = drawn("pl0 tree procedures.pl0")
    if (told.stdout, told.stderr, told.returncode) != (wanted, b"", 0):
        yield f"the tree: {told}, where {wanted!r} is wanted"


def drawn(command: str) -> bytes:
    """What docs/PL0.md shows under a command."""
    page = (TOP / "docs" / "PL0.md").read_text(encoding="utf-8")
    return page.split(f"$ {command}\n")[1].split("```")[0].encode()


def wrong_traces(pl0: str):
    """What is wrong with the table of a run, its parts, the machine drawn, and a run that ends or faults before all
    that."""
    table = drawn("pl0 trace procedures.pl0").splitlines(keepends=True)
    program = str(TOP / "crates" / "pl0_runs" / "data" / "procedures.pl0")
    options = ["--machine", "--from", "10", "--steps", "1"]
    told = run(pl0, "trace", *options, program)
    wanted = drawn(" ".join(["pl0 trace", *options, "procedures.pl0"]))
    if (told.stdout, told.stderr, told.returncode) != (wanted, b"pl0: the run goes on at position 11\n", 0):
        yield f"the machine at position 10: {told}, where {wanted!r} is wanted"
    options = ["--instructions", "--from", "9", "--steps", "3"]
    told = run(pl0, "trace", *options, program)
    wanted = drawn(" ".join(["pl0 trace", *options, "procedures.pl0"]))
    if (told.stdout, told.stderr, told.returncode) != (wanted, b"pl0: the run goes on at position 12\n", 0):
        yield f"the instructions from position 9 on: {told}, where {wanted!r} is wanted"
    for start, steps in ((0, 100), (0, 1), (7, 5), (19, 1), (19, 2), (20, 3)):
        told = run(pl0, "trace", program, "--from", str(start), "--steps", str(steps))
        wanted = b"".join([table[0], *table[start + 1 : start + steps + 1]])
        said = b"pl0: the run ends at position 20\n" if start >= 20 else b""
        if start + steps < 20:
            said = f"pl0: the run goes on at position {start + steps}\n".encode()
        if (told.stdout, told.stderr, told.returncode) != (wanted, said, 0):
            yield f"a trace of {steps} steps from {start}: {told}, where {wanted!r} is wanted"
    for start in ("0", "3", "7"):
        told = run(pl0, "trace", "-", "--from", start, text=FAULTY)
        said = b"-:1:22: fault: division by zero\n  in main at -:1:22\n"
        if (told.stderr, told.returncode) != (said, 1):
            yield f"a trace from {start} of a run that faults: {told}"


def wrong_instructions(pl0: str):
    """Where in the runs of examples an instruction doesn't lead to the next one, or a step writes another number than
    the operand on top."""
    for example in sorted((TOP / "examples").glob("*.pl0")):
        told = run(pl0, "trace", "--instructions", "--steps", "2000", str(example)).stdout.decode()
        written, returns, leads = "", [], {0}
        for line in told.splitlines()[2:]:
            found = INSTRUCTION.match(line)
            if not found:
                written = line[51:].split()[0]
                continue
            at, name, target = int(found[1]), found[2], int(found[4])
            if at not in leads or (name, target) == ("OPR", 14) and found[5].split()[-1] != written:
                yield f"{example.name}: {line} follows on {leads}, and {written!r} is written"
            leads = {"JMP": {target}, "CAL": {target}, "JPC": {target, at + 1}}.get(name, {at + 1})
            if name == "CAL":
                returns.append(at + 1)
            if (name, target) == ("OPR", 0):
                leads = {returns.pop()} if returns else set()
        if "OPR" not in told:
            yield f"{example.name}: no instructions are told"


def outputs_of(pl0: str) -> list[list[str]]:
    """A command line of each kind that writes to its output."""
    program = str(TOP / "examples" / "gcd.pl0")
    return [[pl0, "run", program], [pl0, "list", program], [pl0, "trace", program], [pl0, "--help"]]


def wrong_outputs(pl0: str):
    """What is wrong with long outputs, and with outputs that fail."""
    wanted = "".join(f"{n}\n" for n in range(1, 200001)).encode()
    told = run(pl0, "run", "-", text=LONG)
    if told.stdout != wanted or told.returncode:
        yield f"a megabyte: {len(told.stdout)} bytes, status {told.returncode}"
    pipe = subprocess.PIPE
    for command in [*outputs_of(pl0), [pl0, "run", "-"]]:
        with open("/dev/full", "wb") as full:
            told = run(*command, text=LONG, stdout=full, stderr=pipe)
        if (told.stderr, told.returncode) != (b"pl0: cannot write the output\n", 3):
            yield f"a full disk: {told}"
        read_end, write_end = os.pipe()
        os.close(read_end)
        told = run(*command, text=LONG, stdout=write_end, stderr=pipe)
        os.close(write_end)
        if (told.stderr, told.returncode) != (b"", 3):
            yield f"a pipe that nobody reads: {told}"
    with subprocess.Popen([pl0, "run", "-"], stdin=pipe, stdout=pipe, stderr=pipe) as program:
        program.stdin.write(ENDLESS)
        program.stdin.close()
        first = program.stdout.readline()
        program.stdout.close()
        status = program.wait(timeout=60)
        said = program.stderr.read()
    if first != b"1\n" or said or status != 3:
        yield f"a closed pipe: {first!r}, {said!r}, status {status}"


def wrong_stops(pl0: str):
    """What is wrong with a run that is ended from outside, with a fault whose output fails, and with files that can't
    be read."""
    pipe = subprocess.PIPE
    with subprocess.Popen([pl0, "run", "-"], stdin=pipe, stdout=pipe) as program:
        program.stdin.write(STUCK)
        program.stdin.close()
        alarm = threading.Timer(PATIENCE, program.kill)
        alarm.start()
        written = program.stdout.read(4)
        alarm.cancel()
        program.kill()
    if written != b"1\n2\n":
        yield f"a run that was stopped: {written!r}"
    with open("/dev/full", "wb") as full:
        told = run(pl0, "run", "-", text=WRITES_AND_FAULTS, stdout=full, stderr=pipe)
    said = b"-:1:19: fault: division by zero\n  in main at -:1:19\npl0: cannot write the output\n"
    if (told.stderr, told.returncode) != (said, 3):
        yield f"a fault, with a full disk: {told}"
    told = run(pl0, "check", "missing", str(TOP / "docs"), str(TOP / "crates" / "pl0_runs" / "data" / "mistake.pl0"))
    said = told.stderr.splitlines()
    if told.returncode != 3 or [line.rsplit(b": ", 1)[1]
                                for line in said[:2]] != UNREAD or b"error: `=`" not in said[2]:
        yield f"a check of a file that is missing, a folder and a mistake: {told}"


def main() -> int:
    pl0 = str(pathlib.Path(sys.argv[1]).resolve())
    wrong = [*wrong_mistakes(pl0), *wrong_hints(pl0), *wrong_texts(pl0), *misspelt_rows(pl0)]
    wrong += [*wrong_listings(pl0), *wrong_traces(pl0), *wrong_instructions(pl0), *wrong_outputs(pl0), *wrong_stops(pl0)]
    print("\n".join(wrong) or "mistakes, listings, traces and long outputs are as they should be")
    return 1 if wrong else 0


if __name__ == "__main__":
    sys.exit(main())
