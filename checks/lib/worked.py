"""The worked sessions, those of session_tests that a program can be played too, and where the adapter goes
differently."""
from __future__ import annotations

import os
import pathlib
import tempfile
from collections.abc import Iterator

from lib.client import Client, put_files
from lib.notation import Session, of_session_tests, said_of, session, sessions, short

HERE = os.path.dirname(os.path.dirname(os.path.abspath(__file__)))
SESSION_TESTS = pathlib.Path(HERE).parent / "crates" / "session_tests" / "src" / "rows"

# The texts of programs with a mistake, and the message of the refusal.
MISTAKES = [
    (b"x := 1.", "syntax 10 1 1"),
    (b"var x; x := 1", "syntax 6 1 14"),
    (b"procedure p; call q; procedure q; ; call p.", "syntax 11 1 19"),
    (b"var x; call x.", "syntax 12 1 13"),
    (b"const a = 1, a = 2; .", "syntax 9 1 14"),
    (b"", "syntax 6 1 1"),
    (b"x := 99999999999999999999.", "syntax 4 1 6"),
    (b"x : 1.", "syntax 3 1 3"),
    (b"x := " + b"(" * 65, "syntax 7 1 70"),
    (b"procedure q; ; procedure p; procedure r; call q; procedure q; ; call r; call p.", "syntax 11 1 47"),
]


def refused(first: int) -> tuple[dict[str, bytes], Session]:
    """The files and the session in which each mistake is refused, and then a program launched."""
    files = {f"{number}.pl0": text for number, (text, _) in enumerate(MISTAKES)}
    lines = ["> initialize", "1: ok initialize/1", '> launch {"program":"none.pl0"}', "2: no launch/2 cannotRead"]
    for number, (_, message) in enumerate(MISTAKES):
        lines += [f'> launch {{"program":"{number}.pl0"}}', f"{number + 3}: no launch/{number + 3} {message}"]
    seq = len(MISTAKES) + 3
    lines += ['> launch {"program":"p.pl0"}', f"{seq}: ok launch/{seq}", f"{seq + 1}: initialized"]
    return {**files, "p.pl0": b"."}, session("mistakes in a text", "\n".join(lines), first)


def play(program: str, files: dict[str, bytes], one: Session) -> str | None:
    """Where a session goes differently, or None."""
    with tempfile.TemporaryDirectory() as folder:
        put_files(folder, files)
        client = Client(program, folder)
        found = next(filter(None, (wrong(client, exchange) for exchange in one.exchanges)), None)
        end = client.end()
    return found or (None if end == (b"", 0, "") else f"at the end {end}")


def wrong(client: Client, exchange) -> str | None:
    """Sends requests, and returns what came in place of what must come, if it is another message."""
    client.write(exchange.piece())
    for wanted in exchange.answers:
        came = client.content()
        if came != wanted:
            return f"{short(wanted)} must come, and not {said_of(came)}: {wanted!r}, {came!r}"
    return None


def of_tests(first: int) -> list[Session]:
    """The sessions of session_tests, whose crate has its own reader for the same notation."""
    sources = sorted(SESSION_TESTS.glob("*.rt"))
    found = [one for source in sources for one in of_session_tests(source.read_text(encoding="utf-8"), first)]
    if not found:
        raise SystemExit(f"no session that a program can be played is in {SESSION_TESTS}")
    return found


def differences(program: str, first: int = 1) -> Iterator[tuple[str, str | None]]:
    """The name of each worked session, whose requests are numbered from `first` on, and where it goes differently, or
    None."""
    with open(os.path.join(HERE, "worked.session"), encoding="utf-8") as file:
        worked = sessions(file.read(), first)
    for one in [*worked, *of_tests(first)]:
        yield one.name, play(program, {"p.pl0": one.program, "dot.pl0": b"."}, one)
    files, one = refused(first)
    yield one.name, play(program, files, one)
