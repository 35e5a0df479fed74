"""Shows that misuses don't compile: each file here is checked as a crate of its own.

A file's first line says what the compiler must answer: `// Refused: CODE`, or `// Accepted`.
"""
from __future__ import annotations

import os
import pathlib
import shutil
import subprocess
import sys
import tempfile

HERE = pathlib.Path(__file__).resolve().parent
TOP = HERE.parent


def make_copy(top: pathlib.Path) -> pathlib.Path:
    """A copy of the repository with one crate more, and the folder of that crate."""
    shutil.copy(TOP / "HANDLES", top)
    # Links in place of copies: what earlier checks kept is large.
    shutil.copytree(TOP / "crates", top / "crates", copy_function=os.link, symlinks=True)
    crates = (TOP / "crates.txt").read_text()
    (top / "crates.txt").write_text(crates + "misuse: dap_session dbg_plan dbg_runner\n")
    misuse = top / "crates" / "misuse"
    (misuse / "src").mkdir(parents=True)
    return misuse


def is_answered(crate: pathlib.Path, source: pathlib.Path) -> bool:
    """Whether the compiler answers as the file's first line says; prints what it says else."""
    text = source.read_text()
    wanted = text.splitlines()[0][len("// "):]
    (crate / "src" / "lib.rt").write_text(text)
    run = subprocess.run(["rt", "check"], cwd=crate, capture_output=True, text=True)
    if wanted == "Accepted":
        good = run.returncode == 0
    else:
        good = f"error[{wanted.replace('Refused: ', '')}]" in run.stdout + run.stderr
    print(f"{source.name}: {wanted if good else 'not as wanted'}")
    if not good:
        print(run.stdout + run.stderr)
    return good


def main() -> int:
    (HERE / "out").mkdir(exist_ok=True)
    with tempfile.TemporaryDirectory(dir=HERE / "out") as folder:
        crate = make_copy(pathlib.Path(folder))
        answers = [is_answered(crate, source) for source in sorted(HERE.glob("*.txt"))]
    return 0 if answers and all(answers) else 1


sys.exit(main())
