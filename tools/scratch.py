"""Copies of a crate, and of the crates below it, in a temporary folder: for scripts that change a crate and try it."""
from __future__ import annotations

import contextlib
import pathlib
import subprocess
import tempfile
from collections.abc import Iterator

TOP = pathlib.Path(__file__).resolve().parent.parent


def crate_lines() -> dict[str, str]:
    """The lines of crates.txt, by the name of their crate."""
    lines = [line.split("#")[0].strip() for line in (TOP / "crates.txt").read_text().splitlines()]
    return {line.split()[0].rstrip(":"): line for line in lines if line}


def libraries(name: str) -> list[str]:
    """The crates of the repository below this one, the lowest first."""
    lines = crate_lines()
    found: list[str] = []
    for library in lines[name].partition(":")[2].split():
        if library in lines:
            found += [one for one in [*libraries(library), library] if one not in found]
    return found


@contextlib.contextmanager
def scratch_copy(name: str) -> Iterator[pathlib.Path]:
    """A repository of this crate and those below it, with what was proved of them, which is removed at the end."""
    lines = crate_lines()
    wanted = [*libraries(name), name]
    with tempfile.TemporaryDirectory(prefix="pl0dap-") as folder:
        top = pathlib.Path(folder)
        (top / "crates").mkdir()
        (top / "crates.txt").write_text("".join(lines[crate] + "\n" for crate in wanted))
        (top / "HANDLES").write_text((TOP / "HANDLES").read_text())
        for crate in wanted:
            subprocess.run(["cp", "-a", "--reflink=auto", TOP / "crates" / crate, top / "crates"], check=True)
        yield top


def crate_names(names: list[str]) -> list[str]:
    """The crates of these names; ends the script where one names none."""
    unknown = [name for name in names if name not in crate_lines()]
    if unknown:
        raise SystemExit(f"crates.txt has no crate {unknown[0]}")
    return names
