#!/usr/bin/env python3
"""Runs everything that the merge gate leaves out, and writes one line of each to out/release.md.

usage: release.py [CHECK..]

Each check is a target of the Makefile. They are run one after the other, and all of them also where one fails. The
tests come first, and have all cores, so that in a fresh clone their minutes are those of a beginner. Where there are
four cores, two of them are then for what is run in clones, the tests once more and the merge gate, and the others for
what stands before these: so the programs' minutes are those of two cores. The soak, which takes an hour, the random
sessions, which take one core, and the plants are run beside those that stand before them. The benchmarks come last,
alone. What each one printed is in out/release/.

What a check came to is written to tools/release.txt as it ends: a row with a checksum of the kit and of all files, for
most checks but for pages and lines of comments in the crates, which decide nothing there, and for definitions and
proofs, of which no program is made; and the commit, the day and the computer. A check isn't run where the record has it
as passed with the same sum, and what it makes is there: so a release that is broken off goes on where it was, also after
a change of pages. With CHECK these are run, whatever the record has. A tree that differs from its commit is refused, but
for what the checks write. The status is 0 where every check has passed, 1 where one failed, or nothing was run, and 2
where none did, but one was not run or not whole.
"""
from __future__ import annotations

import datetime
import functools
import hashlib
import os
import pathlib
import platform
import re
import shutil
import signal
import subprocess
import sys
import threading
import time
from concurrent.futures import ThreadPoolExecutor
from typing import NamedTuple, NoReturn

TOP = pathlib.Path(__file__).resolve().parent.parent
sys.path.insert(0, str(TOP / "tools"))
from plants import content  # noqa: E402

OUT = TOP / "out"
LOGS, PAGE, RECORD = OUT / "release", OUT / "release.md", TOP / "tools" / "release.txt"
HEAD = """# What each check of `make release` came to: its name, a checksum of the kit and of the files that it reads,
# the commit, the day, the result, minutes, the computer, and the last line that it printed.
"""
# What `make editors`, `make plants` and this script write, of which only the editors' sessions are read.
SESSIONS, UNREAD = "docs/editors/", ("docs/pictures/", "tools/plants.txt", "tools/release.txt")
# What few checks read, but for those that read all.
READ_BY = {r"crates/\w+/(specs|proofs)/": ["build", "compile-fail", "plants", "gate-times"],
           r"crates/\w+/plants\.txt": ["plants"], "checks/outside/": ["clients"], "tools/threads/": ["threads"],
           "editors/drive/": ["clients", "editors"], "compile-fail/": ["compile-fail"], "bench/": ["bench"]}
# What is read by tests and checks of pages alone, and this script.
APART = re.compile(r"(README|CHANGELOG|docs/(?!PL0|PROTOCOL)\w+)\.md|docs/\w+\.1|(checks/release|tools/tests)\.py")
PASSED, FAILED, PARTLY, MISSING = "passed", "FAILED", "not whole", "not run"
CORES = sorted(os.sched_getaffinity(0))
# How many cores the checks in clones have, where as many are left.
CLONE_CORES = 2
# The checks that are running, each in a session of its own, so that they can be ended with all that they began.
RUNNING: set[subprocess.Popen] = set()
# Whether the release was broken off, so that no further check begins.
BROKEN_OFF = threading.Event()
RECORDING = threading.Lock()


class Row(NamedTuple):
    """What a check came to."""

    check: str
    sum: str
    commit: str
    day: str
    result: str
    minutes: str
    computer: str
    last: str


class Check(NamedTuple):
    """A target, or the name of a check of it, what it is, its variables, with which check it begins where it is run
    beside others, whether it is run in a clone, and whether it reads all pages and comments."""

    name: str
    what: str
    variables: tuple[str, ...] = ()
    beside: str = ""
    target: str = ""
    in_clone: bool = False
    reads_pages: bool = False
    # Statuses of its last command that mean that something it needs is missing.
    partly: tuple[int, ...] = ()


CHECKS = [
    Check("test", "all tests, with nothing proved", reads_pages=True),
    Check("build", "all programs, proved"),
    Check("pages", "names on pages, lengths of functions and lines", reads_pages=True),
    Check("rows", "worked inputs and sessions, both programs"),
    Check("hostile", "hostile inputs, both programs"),
    Check("compile-fail", "programs that the compiler must refuse"),
    Check("clients", "other clients of the protocol", partly=(2,)),
    Check("threads", "the model of the threads, in every interleaving", partly=(2,)),
    Check("last-position", "the last position, in a copy of the crates"),
    Check("editors", "editors and their sessions", partly=(2,)),
    Check("in-memory", "random sessions beside the session over memory"),
    Check("beside", "the same input to proved programs and to those that cargo builds"),
    Check("stock", "what cargo builds is the sources, and planted faults of it are found"),
    Check("sessions", "2,000 random sessions beside a plain model", ("SESSIONS=2000",), beside="hostile"),
    Check("refusals", "each allocation, thread, read and write refused or hindered, all programs"),
    Check("soak", "sessions that leave nothing over, for an hour", ("SOAK=3600",), beside="pages"),
    Check("streams", "streams cut at each byte, clients that leave, threads hindered"),
    Check("plants", "planted bugs, whole", ("JOBS=2",), beside="pages"),
    Check("test-again", "all tests in a fresh clone, on two cores", target="test", beside="build", in_clone=True,
          reads_pages=True),
    Check("gate-times", "the merge gate from nothing, within its budget", ("BESIDE=1",), beside="build", in_clone=True),
    Check("bench", "times and instructions"),
]
NAMES = [check.name for check in CHECKS]
# Those that have all cores.
ALONE = ("test", "bench")


def output(*command: str) -> str:
    """What a command prints; nothing where it can't be run."""
    try:
        return subprocess.run(command, cwd=TOP, capture_output=True, text=True).stdout.strip()
    except OSError:
        return ""


def changed() -> list[str]:
    """The files that differ from the commit, but for what the checks write."""
    lines = subprocess.run(["git", "status", "--porcelain"], cwd=TOP, capture_output=True, text=True,
                           check=True).stdout.splitlines()
    return [line[3:] for line in lines if not line[3:].startswith((SESSIONS, *UNREAD))]


def computer() -> str:
    with open("/proc/cpuinfo", encoding="utf-8") as file:
        models = re.findall(r"^model name\s*: (.*)$", file.read(), re.MULTILINE)
    memory = os.sysconf("SC_PAGE_SIZE") * os.sysconf("SC_PHYS_PAGES") / 2**30
    model = models[0] if models else platform.processor() or platform.machine()
    system = f"{platform.system()} {platform.release()}, Python {platform.python_version()}"
    return f"{len(CORES)} of {model}, {memory:.0f} GiB, {system}"


@functools.cache
def kit() -> str:
    return (output("rt", "--version").splitlines() or ["no kit on the path"])[0]


def commit() -> str:
    return output("git", "rev-parse", "--short=8", "HEAD")


@functools.cache
def digests(with_pages: bool) -> dict[str, str]:
    """A checksum of each file, of all but pages without its lines of comments, or of all as they are."""
    names = [name for name in output("git", "ls-files").splitlines() if with_pages or not APART.fullmatch(name)]
    texts = ((TOP / name).read_bytes() if with_pages else content(TOP / name) for name in names)
    return {name: hashlib.sha256(text).hexdigest() for name, text in zip(names, texts)}


def sum_of(check: Check) -> str:
    """A checksum of all that decides what becomes of a check, but for the computer and what is installed."""
    others = [] if check.reads_pages else [path for path, names in READ_BY.items() if check.name not in names]
    read = [f"{name} {digest}" for name, digest in digests(check.reads_pages).items()
            if not any(re.match(path, name) for path in (*UNREAD, *others))]
    return hashlib.sha256("\n".join([kit(), *check.variables, *read]).encode()).hexdigest()[:16]


def recorded() -> dict[str, Row]:
    """The rows of the record, by their check."""
    lines = RECORD.read_text(encoding="utf-8").splitlines() if RECORD.exists() else []
    rows = [Row(*line.split("\t")) for line in lines if not line.startswith("#")]
    return {row.check: row for row in rows}


def record(row: Row) -> None:
    """Puts a row in the place of the one that the record has of its check, and writes the page."""
    with RECORDING:
        rows = {**recorded(), row.check: row}
        lines = ["\t".join(rows[name]) + "\n" for name in NAMES if name in rows]
        RECORD.write_text(HEAD + "".join(lines), encoding="utf-8")
        PAGE.write_text(page(), encoding="utf-8")


def result_of(check: Check) -> str:
    """What the record has of a check with the files that it reads as they are."""
    row = recorded().get(check.name)
    return row.result if row and row.sum == sum_of(check) else MISSING


def is_done(check: Check) -> bool:
    """Whether a check needn't be run: it has passed, and the programs are there that it makes."""
    question = ["make", "--question", "--silent", "build"]
    made = check.name != "build" or subprocess.run(question, cwd=TOP, capture_output=True).returncode == 0
    return made and result_of(check) == PASSED


def last_line(text: str, commands: set[str]) -> str:
    """The last line that a check printed itself, and not make."""
    lines = [line.strip() for line in text.splitlines() if line not in commands and not line.startswith("make")]
    return next((line for line in reversed(lines) if line), "")


def is_shared() -> bool:
    """Whether the checks in clones have cores of their own."""
    return len(CORES) >= 2 * CLONE_CORES


def cores_of(check: Check) -> list[int]:
    """The cores on which a check is run."""
    if not is_shared() or check.name in ALONE:
        return CORES
    return CORES[:CLONE_CORES] if check.in_clone else CORES[CLONE_CORES:]


def folder_of(check: Check) -> pathlib.Path:
    """Where a check is run: the gate, which sets aside what was built, and what measures a beginning, in a clone."""
    if not check.in_clone:
        return TOP
    clone = OUT / check.name
    shutil.rmtree(clone, ignore_errors=True)
    subprocess.run(["git", "clone", "--quiet", TOP, clone], check=True)
    return clone


def run(check: Check) -> None:
    """Runs a check, and records how it went, unless the release is broken off. What it prints goes to its log."""
    command = ["make", "--no-print-directory", check.target or check.name, *check.variables]
    commands = set(output(*command, "--dry-run").splitlines())
    log, folder, begun_at, begin = LOGS / f"{check.name}.log", folder_of(check), commit(), time.monotonic()
    # A process has the cores of the thread that begins it.
    os.sched_setaffinity(0, cores_of(check))
    if BROKEN_OFF.is_set():
        return
    with open(log, "w", encoding="utf-8") as file:
        with subprocess.Popen(command, cwd=folder, stdin=subprocess.DEVNULL, stdout=file, stderr=subprocess.STDOUT,
                              start_new_session=True) as child:
            RUNNING.add(child)
            status = child.wait()
            RUNNING.remove(child)
    if commit() != begun_at or changed():
        break_off(f"the tree changed while {check.name} ran: what was found is of no commit")
    text = log.read_text(encoding="utf-8", errors="replace")
    failures = [int(number) for number in re.findall(r"^make.*\*\*\* .* Error (\d+)", text, re.MULTILINE)]
    is_partly = bool(failures) and all(number in check.partly for number in failures)
    result = PASSED if status == 0 else PARTLY if is_partly else FAILED
    if not BROKEN_OFF.is_set():
        record(Row(check.name, sum_of(check), begun_at, datetime.date.today().isoformat(), result,
                   f"{(time.monotonic() - begin) / 60:.1f}", computer(), last_line(text, commands).replace("\t", " ")))


def break_off(why: str) -> NoReturn:
    """Ends the checks that are running, and the release."""
    BROKEN_OFF.set()
    for child in set(RUNNING):
        if child.poll() is None:
            os.killpg(child.pid, signal.SIGTERM)
    sys.exit(why)


def on_signal(number: int, _frame: object) -> None:
    break_off(f"ended by {signal.Signals(number).name}")


def page() -> str:
    """What the record has of all checks, and where a sum is another one now."""
    rows = recorded()
    computers = dict.fromkeys(f"{row.day}: {row.computer}" for row in rows.values())
    lines = [
        f"| `{' '.join(['make', check.target or check.name, *check.variables])}` | {check.what} | {row.result} | "
        f"{row.minutes} | `{row.commit}`{'' if row.sum == sum_of(check) else ', since changed'} | "
        f"{row.last.replace('|', '/')} |"
        for check in CHECKS if (row := rows.get(check.name))
    ]
    rest = [name for name in NAMES if name not in rows]
    head = ["# What the gate leaves out", "", f"- kit: {kit()}", *(f"- {one}" for one in computers)]
    table = ["", "| Command | What | Result | Minutes | Commit | Its last line |", "|---|---|---|---|---|---|", *lines]
    return "\n".join([*head, *table, *(["", f"Not tried yet: {', '.join(rest)}."] if rest else [])]) + "\n"


def begins_beside(check: Check, at: Check) -> bool:
    """Whether a check that is run beside others begins at another one, at the latest."""
    is_asked = check.beside and (not check.in_clone or is_shared())
    return bool(is_asked) and NAMES.index(check.beside) <= NAMES.index(at.name)


def run_all(checks: list[Check]) -> None:
    """Runs the checks, some beside others."""
    with ThreadPoolExecutor() as pool, ThreadPoolExecutor(1) as in_turn:
        begun = {}
        for check in checks:
            for one in checks:
                if begins_beside(one, check) and one.name not in begun:
                    begun[one.name] = (in_turn if one.in_clone else pool).submit(run, one)
            print(f"{check.name}: {check.what}", flush=True)
            if check.name in begun:
                begun[check.name].result()
            else:
                run(check)


def main() -> int:
    asked = sys.argv[1:]
    if any(name not in NAMES for name in asked):
        sys.exit(f"{__doc__}\nChecks: {', '.join(NAMES)}")
    if files := changed():
        sys.exit(f"the tree differs from its commit: {', '.join(files[:5])}{' ..' if files[5:] else ''}")
    LOGS.mkdir(parents=True, exist_ok=True)
    for number in (signal.SIGINT, signal.SIGTERM, signal.SIGHUP):
        signal.signal(number, on_signal)
    print(f"commit: {commit()}\nkit: {kit()}\ncomputer: {computer()}\nload: {os.getloadavg()[0]:.2f}", flush=True)
    run_all([check for check in CHECKS if (check.name in asked if asked else not is_done(check))])
    print(page())
    found = {result_of(check) for check in CHECKS if check.name in (asked or NAMES)}
    return 1 if FAILED in found else 2 if found & {PARTLY, MISSING} else 0


if __name__ == "__main__":
    sys.exit(main())
