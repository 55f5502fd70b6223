#!/usr/bin/env python3
"""Runs romain on drawn damage: executables, fault lists, words and journals that are changed here and there; and on programs of
drawn instructions.

    tools/fuzz.py
    tools/fuzz.py --count 100000 --seed 7 --first 400000
    tools/fuzz.py --kinds words --seed 7 --only 4711

The first is the short form of the gate. No run may end by a signal, with a status outside the table of docs/USING.md or with
another one than its report says, or take longer than --seconds. What is refused, and by which answer, is worked out after the
pages (tools/fuzzing/readers.py) and compared, and so is what a program with one thread comes to (tools/fuzzing/machine.py). A
case hangs on the seed, its kind and its number alone, so that --only runs it again, and --first goes on where a run ended. One
that fails is kept in a folder of its own under --keep: its files, the command, and what is wrong. Status 1 where a case fails.
ROMAIN may name another program than ./romain.
"""
import argparse
import collections
import concurrent.futures
import os
import pathlib
import random
import subprocess
import sys
import tempfile
import time

import sentences
from fuzzing import kinds

ROOT = kinds.ROOT
ROMAIN = os.path.abspath(os.environ.get("ROMAIN", ROOT / "romain"))
# The script answers --help itself, so cases are run by what it builds.
PROGRAM = ROMAIN if "ROMAIN" in os.environ else str(ROOT / "crates/romain/out/romain")

PART = 100  # cases that are drawn, run and judged in a row by one process


def positive(text):
    number = int(text)
    if number < 1:
        raise argparse.ArgumentTypeError(f"{text} is less than 1")
    return number


def read_arguments():
    parser = argparse.ArgumentParser(description=__doc__, formatter_class=argparse.RawDescriptionHelpFormatter)
    parser.add_argument("--kinds", default=",".join(kinds.KINDS), help="parted by commas (all)")
    parser.add_argument("--count", type=positive, default=400, help="cases of each kind (400)")
    parser.add_argument("--seed", type=int, default=1, help="of the draws (1)")
    parser.add_argument("--first", type=int, default=0, metavar="N", help="the number of the first case (0)")
    parser.add_argument("--only", type=int, metavar="N", help="case N alone, which is kept")
    parser.add_argument("--seconds", type=float, default=20, help="that one run may take (20)")
    parser.add_argument("--jobs", type=positive, default=len(os.sched_getaffinity(0)), help="runs at once (one a processor)")
    parser.add_argument("--keep", type=pathlib.Path, default=ROOT / "out/fuzz", metavar="FOLDER",
                        help="where cases that fail are kept (out/fuzz)")
    arguments = parser.parse_args()
    arguments.kinds = arguments.kinds.split(",")
    for kind in arguments.kinds:
        if kind not in kinds.KINDS:
            parser.error(f"there is no kind {kind}")
    return arguments


def build():
    """Words that are no command are answered at once, and the program is built then if it wasn't."""
    try:
        done = subprocess.run([ROMAIN, "run"], stdin=subprocess.DEVNULL, capture_output=True)
    except OSError as error:
        sys.exit(f"fuzz: failed, nothing was run: {sentences.of_system(error)}")
    if done.returncode != 249:
        print(done.stderr.decode(errors="replace"), end="", file=sys.stderr)
        sys.exit(f"fuzz: failed, nothing was run: {ROMAIN} run ends with status {done.returncode}, not 249")


def run(case, seconds, folder=None):
    """What comes of a case, or None where it doesn't end in time. A folder that is given has been laid down."""
    if folder is None:
        with tempfile.TemporaryDirectory() as own:
            kinds.write(case, own)
            return run(case, seconds, own)
    try:
        done = subprocess.run([PROGRAM, *case.words], cwd=folder, stdin=subprocess.DEVNULL, capture_output=True, timeout=seconds)
    except subprocess.TimeoutExpired:
        return None
    return kinds.Came(done.returncode, done.stdout, done.stderr)


def troubles(kind, case, seconds, folder=None):
    """What is wrong with a case, line by line."""
    came = run(case, seconds, folder)
    if came is None:
        return [f"no end within {seconds} seconds"]
    return [*kinds.usual_troubles(case, came), *kind.troubles(case, came)]


def draw(kind, name, seed, number):
    return kind.draw(random.Random(f"{seed} {name} {number}"))


def keep(case, folder, found, again):
    """A case's files, its command, and what is wrong with it."""
    folder.mkdir(parents=True, exist_ok=True)
    kinds.write(case, folder)
    (folder / "command").write_bytes(kinds.shown(case, PROGRAM))
    (folder / "troubles").write_text("".join(f"{line}\n" for line in [*found, again]))


def knows_plain(kind):
    """Whether the program has the command that runs the plan of a journal."""
    case = kinds.Case([b"plain", b"guest", b"--plan", b"plan"], {"guest": kind.guest, "plan": kind.KNOWN}, None)
    came = run(case, 60)
    return came is not None and came.answer() != "words"


def some(name, seed, numbers, seconds):
    """The cases of these numbers: how many there are of each answer, and what is wrong with which."""
    kind, answers, bad = kinds.KINDS[name](), collections.Counter(), []
    with tempfile.TemporaryDirectory() as folder:
        laid = {}
        for number in numbers:
            case = draw(kind, name, seed, number)
            kinds.write(case, folder, laid)
            laid = case.files
            answers[(case.wanted or "any").split(" ")[0]] += 1
            found = troubles(kind, case, seconds, folder)
            if found:
                bad.append((number, found))
    return answers, bad


def tell(arguments, name, number, found):
    """Keeps a case, and says what is wrong with it."""
    folder = arguments.keep / f"{name}-{arguments.seed}-{number}"
    again = f"tools/fuzz.py --kinds {name} --seed {arguments.seed} --only {number}"
    kept = f"kept in {folder}"
    try:
        keep(draw(kinds.KINDS[name](), name, arguments.seed, number), folder, found, again)
    except OSError as error:
        kept = f"not kept, {sentences.of_system(error)}"
    print(f"{name} {number}, {kept}:", *found, again, sep="\n    ", flush=True)


def fuzz(arguments, name, pool):
    """How many cases of a kind were run, and how many failed; those are kept and told at once."""
    start = time.monotonic()
    if name == "journals" and not knows_plain(kinds.KINDS[name]()):
        print("fuzz: journals are left out, the program has no command plain")
        return 0, 0
    first, count = (arguments.first, arguments.count) if arguments.only is None else (arguments.only, 1)
    numbers = range(first, first + count)
    parts = [numbers[place:place + PART] for place in range(0, len(numbers), PART)]
    answers, failed = collections.Counter(), 0
    for part in concurrent.futures.as_completed(
            [pool.submit(some, name, arguments.seed, part, arguments.seconds) for part in parts]):
        came, bad = part.result()
        answers += came
        failed += len(bad)
        for number, found in bad:
            tell(arguments, name, number, found)
    if arguments.only is not None and not failed:
        tell(arguments, name, arguments.only, [])
    told = ", ".join(f"{count} {answer}" for answer, count in sorted(answers.items()))
    print(f"fuzz: {name}: {len(numbers)} cases in {time.monotonic() - start:.0f} s: {told}", flush=True)
    return len(numbers), failed


def main():
    arguments = read_arguments()
    build()
    with concurrent.futures.ProcessPoolExecutor(arguments.jobs) as pool:
        counts = [fuzz(arguments, name, pool) for name in arguments.kinds]
    ran, failed = (sum(column) for column in zip(*counts))
    print(f"fuzz: passed, {ran} cases" if failed == 0 else f"fuzz: failed, {failed} of {ran} cases")
    sys.exit(1 if failed else 0)


if __name__ == "__main__":
    main()
