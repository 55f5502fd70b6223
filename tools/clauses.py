#!/usr/bin/env python3
"""The clauses of all public functions, a line each: what they require and what they ensure.

    tools/clauses.py              prints those of this tree
    tools/clauses.py OLD [NEW]    prints what differs from the commit OLD in this tree, or in the commit NEW: behind - what is gone,
                                  behind + what is new
"""
import difflib
import pathlib
import re
import shutil
import subprocess
import sys

ROOT = pathlib.Path(__file__).resolve().parent.parent
SOURCE = re.compile(r"crates/(\w+)/src/.*\.rt")
OWNER = re.compile(r"(?:impl|pub trait)\b(?:<.*?>)?\s+(?:[\w:<>, ]+ for )?(\w+)")
FUNCTION = re.compile(r"\s*(pub |pub\([a-z]+\) )?(?:const |unsafe )*fn (\w+)")
CLAUSE = re.compile(r"\s*(requires|ensures)\b")


def asked(*words):
    """What git answers of this repository."""
    return subprocess.run(["git", "-C", ROOT, *words], check=True, capture_output=True, text=True).stdout


def sources(commit):
    """The files of code of a commit, or of this tree: pairs of a path and its text."""
    if commit is None:
        for path in sorted(ROOT.glob("crates/*/src/**/*.rt")):
            yield path.relative_to(ROOT).as_posix(), path.read_text()
        return
    for path in asked("ls-tree", "-r", "--name-only", commit, "--", "crates").splitlines():
        if SOURCE.fullmatch(path):
            yield path, asked("show", f"{commit}:{path}")


def clauses_of(path, text):
    """Those of a file; what a trait asks for, and what implements it, is public too."""
    crate = SOURCE.fullmatch(path)[1]
    owner, shared, name, clause = "", False, None, ""
    for line in text.splitlines():
        if clause or name and CLAUSE.match(line):
            clause = f"{clause} {line.strip()}".strip()
            if clause.count("{") == clause.count("}"):
                yield f"{crate}::{owner}{name}: {clause}"
                clause = ""
        elif opened := OWNER.match(line):
            owner, shared = f"{opened[1]}::", "trait " in line or " for " in line
        elif line == "}":
            owner, shared = "", False
        elif function := FUNCTION.match(line):
            name = function[2] if shared or function[1] == "pub " else None


def clauses(commit):
    return sorted(line for path, text in sources(commit) for line in clauses_of(path, text))


def main(commits):
    if len(commits) > 2 or any(word.startswith("-") for word in commits):
        sys.exit(__doc__)
    if commits and not shutil.which("git"):
        sys.exit("clauses: the command git isn't on the PATH")
    if not commits:
        lines = clauses(None)
    else:
        old, new = clauses(commits[0]), clauses(commits[1] if len(commits) > 1 else None)
        lines = [line for line in difflib.ndiff(old, new) if line[0] in "-+"]
    print("\n".join(lines))


if __name__ == "__main__":
    try:
        main(sys.argv[1:])
    except subprocess.CalledProcessError as error:
        sys.exit(f"clauses: {error.stderr.strip().splitlines()[0]}")
