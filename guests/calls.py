#!/usr/bin/env python3
"""The call tables of the examples: which functions of POSIX threads an executable's symbols name.

    calls.py [FOLDER]            compares each executable of built/, or of FOLDER, with its source: its table has the functions
                                 that the source names, and no others; status 1 where they differ
    calls.py --table [FOLDER]    prints of each with threads whether its table has pthread_mutex_trylock and pthread_cond_wait
    calls.py --of FILE           prints the table of one executable
"""
import collections.abc
import pathlib
import re
import sys

HERE = pathlib.Path(__file__).resolve().parent
sys.path.insert(0, str(HERE.parent / "tools"))

import sentences
from fuzzing import readers

NAMES = {name.decode() for name in readers.NAMES}
ASKED = "pthread_mutex_trylock", "pthread_cond_wait"


def table_of(file: pathlib.Path) -> set[str]:
    """The functions of which Romain takes the calls."""
    code, places = readers.executable_of(file.read_bytes())
    if code is not None:
        sys.exit(f"calls: {file} is refused, as by `answer exe {code}`")
    return {name.decode() for name in places}


def called_by(source: pathlib.Path) -> set[str]:
    """Those that a source names outside of comments."""
    text = re.sub(r"//[^\n]*|/\*.*?\*/", " ", source.read_text(), flags=re.DOTALL)
    return NAMES & set(re.findall(r"\w+", text))


def examples(folder: pathlib.Path) -> list[tuple[str, pathlib.Path, pathlib.Path]]:
    """Those that are built there: name, executable and source."""
    programs = HERE / "programs"
    sources = sorted(programs.glob("*.[cS]")) + sorted(programs.glob("atomics/*.c"))
    named = [(str(source.relative_to(programs).with_suffix("")), source) for source in sources]
    found = [(name, folder / name, source) for name, source in named if (folder / name).exists()]
    return found or sys.exit(f"calls: {folder} has no example")


def troubles(folder: pathlib.Path) -> collections.abc.Iterator[str]:
    for _, file, source in examples(folder):
        table, called = table_of(file), called_by(source)
        if table != called:
            yield (f"calls: {file} has in its call table {' '.join(sorted(table)) or 'nothing'}, "
                   f"and {source.name} names {' '.join(sorted(called)) or 'nothing'}")


def print_table(folder: pathlib.Path):
    rows = [("program", *(name.removeprefix("pthread_") for name in ASKED))]
    for name, file, _ in examples(folder):
        table = table_of(file)
        if table:
            rows.append((name, *("yes" if asked in table else "no" for asked in ASKED)))
    widths = [max(map(len, column)) for column in zip(*rows)]
    for row in rows:
        print("  ".join(text.ljust(width) for text, width in zip(row, widths)).rstrip())


def answer(option: str | None, place: pathlib.Path):
    if option == "--of":
        print(*sorted(table_of(place)))
    elif option == "--table":
        print_table(place)
    else:
        found = list(troubles(place))
        print(*found, sep="\n", end="\n" if found else "")
        sys.exit(1 if found else 0)


def main():
    words = sys.argv[1:]
    option = words.pop(0) if words and words[0].startswith("-") else None
    if option not in (None, "--table", "--of") or len(words) > 1 or (option == "--of" and not words):
        sys.exit(__doc__)
    try:
        answer(option, pathlib.Path(words[0]) if words else HERE / "built")
    except OSError as error:
        sys.exit(f"calls: {sentences.of_system(error)}")


if __name__ == "__main__":
    main()
