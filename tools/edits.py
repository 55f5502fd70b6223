#!/usr/bin/env python3
"""Tries the wrong bodies of tests/edits, which the prover must refuse as it refuses those of the crates' must-fail/.

    tools/edits.py [CRATE]..    of these crates, or of all that have some; status 1 where one is not refused

They are tried by hand: the gate tries those that tell most.
"""
import pathlib
import shutil
import subprocess
import sys
import tempfile

ROOT = pathlib.Path(__file__).resolve().parent.parent
EDITS = ROOT / "tests/edits"


def copy_with_edits(names, room):
    """The crates as they are here, those of these names with their edits of tests/edits in place of their own."""
    shutil.copytree(ROOT / "crates", room / "crates", ignore=shutil.ignore_patterns("out", "must-fail"))
    for name in ("crates.txt", "HANDLES"):
        shutil.copy(ROOT / name, room)
    for name in names:
        shutil.copytree(EDITS / name, room / "crates" / name / "must-fail")


def main(names):
    known = sorted(it.name for it in EDITS.iterdir())
    unknown = [name for name in names if name not in known]
    if unknown:
        sys.exit(f"edits: tests/edits has none of {' '.join(unknown)}")
    if not shutil.which("rt"):
        sys.exit("edits: the command rt of the Rattle kit isn't on the PATH")
    names = names or known
    with tempfile.TemporaryDirectory() as room:
        copy_with_edits(names, pathlib.Path(room))
        return subprocess.run(["rt", "must-fail", *names], cwd=room).returncode


if __name__ == "__main__":
    sys.exit(main(sys.argv[1:]))
