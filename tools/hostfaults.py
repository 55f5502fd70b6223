#!/usr/bin/env python3
"""Flips bits in the process that runs Romain itself, and says what became of each run.

    tools/hostfaults.py crates/romain/out/romain guests/built/sha256 --input big --runs 1000 --rows host.sqlite
    tools/hostfaults.py crates/romain/out/romain guests/built/sha256 --input big --what registers --drivers 3

Each run is held still once, at a drawn moment, by ptrace; one drawn bit is flipped, and the run goes on. Of `memory` that is a bit
of a page which the process may write and which is in memory, of `code` one of the program's own code, of `registers` one of a
general register or the rip of one of its threads. What Romain promises covers none of this: the table says how often it comes to
what. A fate of `wrong` is an output that is no front of the right one, or an end that is told as the program's own and isn't.
Moments are drawn in time, so a run that is made again is not struck at the same instruction.
"""
import argparse
import collections
import concurrent.futures
import hashlib
import os
import pathlib
import sys

import sentences
from campaigns.forms import markdown, shown_rate
from campaigns.tables import Table
from hosting.flips import WHATS, Files
from hosting.judging import FATES
from hosting.runs import Job, first_run, run

KEY = ["image", "program", "words", "what", "seed", "number"]
REST = ["moment", "holds", "place", "fate", "answer", "status"]


def read_arguments() -> tuple[argparse.Namespace, list[str]]:
    parser = argparse.ArgumentParser(description=__doc__, formatter_class=argparse.RawDescriptionHelpFormatter,
                                     epilog="Further options, as --replicas 5, are handed to the runs.")
    parser.add_argument("binary", type=pathlib.Path, metavar="BINARY", help="the built program, not the script")
    parser.add_argument("exe", type=pathlib.Path, metavar="EXE", help="what it runs")
    parser.add_argument("--input", type=pathlib.Path, metavar="F", help="what that reads (nothing)")
    parser.add_argument("--what", choices=WHATS, default="memory", help="is struck (memory)")
    parser.add_argument("--runs", type=int, default=100, metavar="N", help="(100)")
    parser.add_argument("--seed", type=int, default=1, metavar="S", help="of the draws (1)")
    parser.add_argument("--rows", metavar="FILE", help="rows of SQLite, a run each; what is there isn't run again")
    parser.add_argument("--csv", metavar="FILE", help="all rows as CSV")
    parser.add_argument("--jobs", type=int, default=os.cpu_count(), metavar="N", help="runs at once")
    parser.add_argument("--seconds", type=float, default=60, metavar="N", help="that one run may take (60)")
    return parser.parse_known_args()


def made(arguments: argparse.Namespace, more: list[str], kept: Table) -> list[list]:
    """Makes the runs whose rows aren't there, and gives the key of all but for their numbers."""
    files = Files(arguments.exe.read_bytes(), arguments.input.read_bytes() if arguments.input else b"")
    image = hashlib.sha256(arguments.binary.read_bytes() + files.exe + files.input).hexdigest()[:16]
    binary, exe = arguments.binary.resolve(), arguments.exe.resolve()
    words = ["run", str(exe), *(["--input", str(arguments.input.resolve())] if arguments.input else []), *more]
    right, lasts = first_run([str(binary), *words], arguments.seconds)
    if right.status is None or "\nanswer " not in "\n" + right.report:
        sys.exit(f"hostfaults: nothing was struck: {arguments.binary} doesn't run this: {right.report.strip()}")
    key = [image, exe.name, " ".join(more), arguments.what, arguments.seed]
    numbers = [number for number in range(arguments.runs) if number not in kept.numbers(key)]
    jobs = [Job([str(binary), *words], arguments.what, f"{arguments.seed} {arguments.what} {number}", files, arguments.seconds,
                right, lasts) for number in numbers]
    with concurrent.futures.ThreadPoolExecutor(arguments.jobs) as pool:
        futures = {pool.submit(run, job): number for job, number in zip(jobs, numbers)}
        for future in concurrent.futures.as_completed(futures):
            kept.add(dict(zip(KEY, [*key, futures[future]])) | future.result())
    return key


def table(rows: list) -> str:
    """By what was struck and what stood there: how often each fate came, and the share of `wrong` of those that were reached."""
    groups = collections.defaultdict(collections.Counter)
    for row in rows:
        if row.fate != "not reached":
            groups[row.what, row.holds][row.fate] += 1
            groups[row.what, "all"][row.fate] += 1
    fates = FATES[:-1]
    lines = [[what, holds, counts.total(), *(counts[fate] for fate in fates), shown_rate(counts["wrong"], counts.total())]
             for (what, holds), counts in sorted(groups.items(), key=lambda group: (group[0][0], -group[1].total()))]
    return markdown(["struck", "holds", "runs", *fates, "% wrong (95 %)"], lines)


def main():
    arguments, more = read_arguments()
    try:
        kept = Table(arguments.rows, "flips", KEY, REST)
        if not kept.has_columns():
            sys.exit(f"hostfaults: nothing was struck: the rows of {arguments.rows} have other columns")
        made(arguments, more, kept)
    except OSError as error:
        sys.exit(f"hostfaults: {sentences.of_system(error)}")
    if arguments.csv:
        kept.write_csv(arguments.csv)
    print(table(list(kept.every())), end="")


if __name__ == "__main__":
    main()
