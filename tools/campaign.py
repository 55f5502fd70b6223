#!/usr/bin/env python3
"""Fault campaigns: runs programs many times with drawn faults and compares with the run without faults.

    tools/campaign.py --runs 1000 --rows rows.sqlite --table table.md --plot fates.svg --latencies latencies.svg
    tools/campaign.py --exe mine --input data --runs 1000 --rows rows.sqlite
    tools/campaign.py --exe mine --width 2 --rows rows.sqlite
    tools/campaign.py --exe mine --runs 1000 --rows rows.sqlite --unreplicated
    tools/campaign.py --guests ledger --pattern scattered --faults-per-run 1,2,4,8 --scrub 0,100000,10000 --kinds reg,mem \
        --runs 10000 --rows scrubs.sqlite --points scrubs --points-plot scrubs.svg
    tools/campaign.py --check 20

Of each run the output's bytes and the status are compared with those of the run without faults, and no vote may have a
loser that wasn't struck. This is sound for programs whose output and status don't depend on the order of their threads,
and that have no data races; where runs without faults show that they do or have, there is no campaign. Where faults in two
replicas met, nothing is promised and nothing is wrong; what is promised holds too where strikes hit at most half of the
replicas from each scrub to the next. Status 1 where anything differs; the faults are printed then. Status 130 after an
interrupt (Ctrl-C, or SIGTERM): what was done so far is told, and stays in the rows. docs/FAULTS.md has the rest.
"""
import argparse
import collections
import contextlib
import dataclasses
import importlib.util
import itertools
import os
import pathlib
import signal
import sqlite3
import subprocess
import sys
import time

import places
from campaigns import again, comparing, drawing, judging, narrowing, points, programs, rows, running, telling

ROOT = programs.ROOT
REPLICAS = [2, 3, 5]
MAX_DRIVERS = 8
RUNS, MOST_RUNS = 200, 100_000  # of each program; where a width says how many, at most
INTERRUPTED = 130  # the status of a shell's command that SIGINT ended


class Input(argparse.Action):
    """--input belongs to the --exe before it."""

    def __call__(self, parser, arguments, value, option=None):
        if not arguments.exe:
            parser.error("--input stands after its --exe")
        arguments.exe[-1].input = value


def numbers(text):
    """Numbers that are parted by commas."""
    return [int(number) for number in text.split(",")]


def kinds(text):
    chosen = text.split(",")
    if not set(chosen) <= set(drawing.KINDS):
        raise argparse.ArgumentTypeError(f"there are {', '.join(drawing.KINDS)}")
    return [kind for kind in drawing.KINDS if kind in chosen]


def replicas(text):
    chosen = numbers(text)
    if not set(chosen) <= set(REPLICAS):
        raise argparse.ArgumentTypeError(f"there are {', '.join(map(str, REPLICAS))}")
    return chosen


def width(text):
    per_cent = float(text)
    if not 0 < per_cent <= 100:
        raise argparse.ArgumentTypeError("it is above 0 and at most 100")
    return per_cent


def request(text):
    return programs.Request(pathlib.Path(text).name, pathlib.Path(text))


def add_what_is_told(parser):
    told = parser.add_argument_group("what is told")
    told.add_argument("--rows", metavar="FILE", help="rows of SQLite, a run each; what is there isn't run again")
    told.add_argument("--csv", metavar="FILE", help="all rows as CSV")
    told.add_argument("--table", type=pathlib.Path, metavar="FILE", help="tables of all rows (standard output)")
    told.add_argument("--compare", type=pathlib.Path, metavar="FILE",
                      help="one table of all campaigns of the rows beside each other, by the literature's names")
    told.add_argument("--again", type=int, metavar="N",
                      help="makes run N of one campaign once more, and nothing else: its faults, journal, audit and picture")
    told.add_argument("--plot", metavar="FILE", help="picture of the fates; this and the next by matplotlib")
    told.add_argument("--latencies", metavar="FILE", help="picture of the latencies")
    told.add_argument("--points", metavar="NAME", help="the share of runs that end wrong by faults a run and by scrubs, of "
                      f"{' and '.join(drawing.MANY)}: NAME.md and NAME.csv")
    told.add_argument("--points-plot", metavar="FILE", help="picture of these shares, by matplotlib")


def read_arguments():
    parser = argparse.ArgumentParser(description=__doc__, formatter_class=argparse.RawDescriptionHelpFormatter)
    what = parser.add_argument_group("what is run")
    what.add_argument("--exe", type=request, action="append", default=[], metavar="FILE", help="a program; may come again")
    what.add_argument("--input", type=pathlib.Path, action=Input, metavar="F", help="what the program before it reads")
    what.add_argument("--programs", type=pathlib.Path, metavar="CSV", help="a table of them, with the heads name,exe,input")
    what.add_argument("--guests", metavar="NAMES",
                      help="examples of guests/, parted by commas (all, where no program is given)")
    what.add_argument("--romain", help="the program (./romain)")
    what.add_argument("--limit", type=int, default=10**9, help="steps of the run without faults (10^9)")
    what.add_argument("--racy", action="store_true", help="a program with threads isn't looked at for data races before")
    faults = parser.add_argument_group("what strikes it")
    faults.add_argument("--runs", type=int, help=f"of each program ({RUNS}); with --width at most so many ({MOST_RUNS:,})")
    faults.add_argument("--width", type=width, metavar="W", help="runs go on until the 95 %% interval of each fate, and of the "
                        "share that the tables give, is at most so wide, in per cent")
    faults.add_argument("--check", type=int, metavar="N", help="N runs of each program, no table, one line at the end")
    faults.add_argument("--seed", type=int, default=1, help="of the draws (1)")
    faults.add_argument("--pattern", choices=drawing.PATTERNS, default="one",
                        help="; ".join(f"{name}: {what}" for name, what in drawing.PATTERNS.items()) + " (one)")
    faults.add_argument("--faults-per-run", type=numbers, default=[2], metavar="K,..",
                        help=f"how many under {' and '.join(drawing.MANY)}; of several numbers each is run (2)")
    faults.add_argument("--kinds", type=kinds, default=drawing.KINDS, metavar="K,..", help="reg, pc, mem: what is struck (all)")
    faults.add_argument("--scrub", type=numbers, default=[0], metavar="N,..",
                        help="of the runs, 0 for never; of several numbers each is run, with the same faults (0)")
    faults.add_argument("--bits", type=int, default=4, choices=range(1, 33), metavar="K", help="of a burst (4)")
    faults.add_argument("--replicas", type=replicas, default=[3], metavar="N,..",
                        help="2, 3 or 5; of several numbers each is run (3)")
    faults.add_argument("--drivers", type=int, choices=range(1, MAX_DRIVERS + 1), default=1,
                        help="(1, with which the same run gives the same journal)")
    faults.add_argument("--unreplicated", action="store_true", help="the same faults in a machine that nobody compares")
    how = parser.add_argument_group("how")
    how.add_argument("--jobs", type=int, default=os.cpu_count(), help="runs at once (as many as there are processors)")
    how.add_argument("--scheduler", metavar="ADDRESS", help="run on a cluster of Dask, as tcp://host:8786")
    how.add_argument("--seconds", type=float, default=120, help="that one run may take (120)")
    add_what_is_told(parser)
    arguments = parser.parse_args()
    if arguments.check is not None:
        arguments.runs = arguments.check
    if arguments.runs is None:
        arguments.runs = MOST_RUNS if arguments.width else RUNS
    return arguments


def look_for_folders(arguments):
    """Where a file is to be written and there is no such folder, that is said before anything is run."""
    for path in (arguments.rows, arguments.csv, arguments.table, arguments.compare, arguments.plot, arguments.latencies,
                 arguments.points, arguments.points_plot):
        if path and not pathlib.Path(path).absolute().parent.is_dir():
            sys.exit(f"campaign: failed, nothing was run: {path}: there is no such folder")


def look_for_libraries(arguments):
    """So it is where a library is missing for what is asked."""
    pictures = arguments.plot or arguments.latencies or arguments.points_plot
    for is_asked, library, what in [(pictures, "matplotlib", "pictures"), (arguments.scheduler, "distributed", "a cluster")]:
        if is_asked and importlib.util.find_spec(library) is None:
            sys.exit(f"campaign: failed, nothing was run: Python's library {library} isn't here, which is needed for {what}; "
                     "docs/FAULTS.md says how to install it")


def build(arguments):
    """Words that are no command are answered at once, and the program is built then if it wasn't."""
    script = arguments.romain or str(ROOT / "romain")
    done = subprocess.run([script, "run"], stdin=subprocess.DEVNULL, capture_output=True)
    if done.returncode != 249:
        print(done.stderr.decode(errors="replace"), end="", file=sys.stderr)
        sys.exit(f"campaign: failed, nothing was run: {script} run ends with status {done.returncode}, not 249")
    arguments.romain = os.path.abspath(arguments.romain or places.program())


def requests(arguments):
    """The programs that are asked for: by --exe, by a table, and examples."""
    asked = list(arguments.exe)
    if arguments.programs:
        asked += programs.read_table(arguments.programs)
    if arguments.guests or not asked:
        asked += programs.examples([name for name in (arguments.guests or "").split(",") if name])
    names = [request.name for request in asked]
    if len(set(names)) < len(names):
        sys.exit("campaign: failed, nothing was run: two programs have one name; a table of programs can name them")
    return asked


@dataclasses.dataclass
class Campaign:
    """Of one program, with one number of replicas, of faults a run and of steps from scrub to scrub."""
    program: programs.Program
    replicas: int  # that faults are drawn for
    count: int
    scrub: int
    key: list  # what names its rows, but for their numbers


def campaigns_of(arguments, program):
    machine = "unreplicated" if arguments.unreplicated else "replicated"
    bits = arguments.bits if arguments.pattern == "burst" else 1
    counts = arguments.faults_per_run if arguments.pattern in drawing.MANY else [2 if arguments.pattern.startswith("two") else 1]
    for replicas, count, scrub in itertools.product(arguments.replicas, counts, arguments.scrub):
        running_replicas = 1 if arguments.unreplicated else replicas
        key = [program.name, program.image, machine, running_replicas, arguments.drivers, scrub, arguments.pattern, count, bits,
               ",".join(arguments.kinds), arguments.seed]
        yield Campaign(program, replicas, count, scrub, key)


def job_of(arguments, campaign, number):
    """A run that is to be made, and what of its row is known before."""
    program = campaign.program
    drawn = drawing.draw_run(program, arguments.seed, number, arguments.pattern, campaign.replicas, campaign.count,
                             arguments.bits, arguments.kinds)
    struck = drawing.unreplicated(drawn) if arguments.unreplicated else drawn
    first = drawn[0]
    section, symbol = program.name_of(first.number) if first.kind == "mem" else ("", "")
    replicas = 2 if arguments.unreplicated else campaign.replicas
    words = program.words + ["--replicas", str(replicas), "--drivers", str(arguments.drivers),
                             "--limit", str(program.limit())]
    words += ["--scrub", str(campaign.scrub)] if campaign.scrub else []
    faults = "".join(fault.line() for fault in struck)
    drawn_part = [faults, first.kind, first.place, first.number if first.kind == "reg" else None, first.bit,
                  first.number if first.kind == "mem" else None, section, symbol, first.moment]
    return {"key": campaign.key + [number], "drawn": drawn_part, "romain": arguments.romain, "words": words, "faults": faults,
            "seconds": arguments.seconds, "machine": campaign.key[2], "replicas": replicas, "status": program.status,
            "many": arguments.pattern in drawing.MANY and not arguments.unreplicated, "output": program.output,
            "strike": (struck[0].replica, first.thread, first.moment),
            "replicas_struck": sorted({fault.replica for fault in struck})}


def jobs_of(arguments, campaigns, runs, kept, drawn_parts):
    """So many runs of each, but for those that are among the rows. What was drawn for each is laid down until its row comes."""
    for campaign in campaigns:
        there = kept.numbers(campaign.key)
        for number in range(runs):
            if number not in there:
                job = job_of(arguments, campaign, number)
                drawn_parts[tuple(job["key"])] = job.pop("drawn"), job["words"]
                yield job


def results_of(arguments, jobs):
    """The jobs' rows as they come, from this machine or a cluster."""
    if not arguments.scheduler:
        yield from running.locally(jobs, arguments.jobs)
        return
    try:
        yield from running.on_cluster(jobs, arguments.scheduler)
    except OSError as error:
        sys.exit(f"campaign: failed, the rows so far are kept: no cluster at {arguments.scheduler}: {error}")


def bar(done, total):
    """A progress bar on a terminal, where tqdm is here; else how many there are by now, on a line that is written over."""
    if not sys.stderr.isatty():
        return done
    try:
        from tqdm import tqdm
    except ImportError:
        return counted(done, total)
    return tqdm(done, total=total)


def counted(done, total):
    told = time.monotonic()
    for number, one in enumerate(done, 1):
        yield one
        if number == total or time.monotonic() - told > 1:
            told = time.monotonic()
            print(f"\rcampaign: {number} of {total} runs", end="\n" if number == total else "", file=sys.stderr, flush=True)


def run_all(arguments, campaigns, runs, kept):
    """Makes so many runs of each and keeps their rows; what differs is told at once."""
    drawn_parts = {}
    jobs = jobs_of(arguments, campaigns, runs, kept, drawn_parts)
    total = sum(len(set(range(runs)) - kept.numbers(campaign.key)) for campaign in campaigns)
    with contextlib.closing(results_of(arguments, jobs)) as results:
        for key, judged in bar(results, total):
            drawn, words = drawn_parts.pop(tuple(key))
            kept.add(dict(zip(rows.KEY + rows.DRAWN, [*key, *drawn])) | judged)
            if judged.get("trouble"):
                print(f"{key[0]}: {judged['trouble']}, by the faults", *drawn[0].splitlines(), sep="\n    ")
                print(f"of romain {' '.join(words)} --faults FILE", flush=True)


def run_until_narrow(arguments, campaigns, kept):
    """Makes runs of each until its intervals are narrow enough; of those whose aren't at the most number of runs that is told."""
    def width_of(campaign):
        return narrowing.widest(kept, campaign.key, arguments.unreplicated)

    wide = campaigns
    for runs in narrowing.goals(arguments.runs):
        wide = [campaign for campaign in wide if width_of(campaign) > arguments.width]
        run_all(arguments, wide, runs, kept)
    for campaign in wide:
        if width_of(campaign) > arguments.width:
            print(f"{campaign.program.name}, replicas {campaign.replicas}, faults {campaign.count}, scrub {campaign.scrub}: after "
                  f"{arguments.runs} runs an interval is {width_of(campaign):.1f} % wide")


def tell(arguments, kept):
    """Files and tables of all rows."""
    if arguments.csv:
        kept.write_csv(arguments.csv)
    if arguments.points:
        points.tell(kept, arguments.points)
    shares = list(points.points_of(kept))
    if arguments.points_plot and shares:
        points.plot(shares, arguments.points_plot)
    every = list(kept.every())
    if arguments.compare:
        arguments.compare.write_text(comparing.compared(every))
    if arguments.table:
        arguments.table.write_text(telling.table(every))
    elif arguments.check is None and not arguments.points and not arguments.points_plot:
        print(telling.table(every))
    if arguments.plot:
        telling.plot_fates(every, arguments.plot)
    if arguments.latencies:
        telling.plot_latencies(every, arguments.latencies)


def summary(arguments, campaigns, kept, was_interrupted):
    """Prints the last line, and gives the status."""
    counts, is_troubled = collections.Counter(), False
    for campaign in campaigns:
        for fate, trouble, runs in kept.fates(campaign.key):
            counts[fate] += runs
            is_troubled = is_troubled or bool(trouble)
    fates = judging.FATES_ALONE if arguments.unreplicated else judging.FATES
    told = ", ".join(f"{counts[fate]} {fate}" for fate in fates if counts[fate] or fate == "differs")
    verdict = "failed" if is_troubled else "interrupted" if was_interrupted else "passed"
    most = f"{'at most ' if arguments.width else ''}{arguments.runs * len(campaigns)}"
    runs = f"{counts.total()} of {most}" if was_interrupted else f"{counts.total()}"
    print(f"campaign: {verdict}, {runs} runs: {told}")
    return 1 if is_troubled else INTERRUPTED if was_interrupted else 0


def make_again(arguments, campaigns):
    """One run once more; says where what tells of it lies."""
    if len(campaigns) != 1:
        return "campaign: failed, nothing was run: --again is of one program, with one number of replicas, faults and scrubs"
    job, name = job_of(arguments, campaigns[0], arguments.again), f"{campaigns[0].program.name}-{arguments.again}"
    judged = again.make_again(job, name)
    print(f"campaign: run {arguments.again} of {campaigns[0].program.name}, {judged['fate']}; what tells of it lies in {name}")
    return 1 if judged.get("trouble") else 0


def opened(arguments):
    """The programs that are asked for, run without faults, and the rows."""
    asked = requests(arguments)
    build(arguments)
    every = [programs.open_program(arguments, request) for request in asked]
    kept = rows.Rows(arguments.rows)
    if not kept.has_columns():
        sys.exit(f"campaign: failed, nothing was run: the rows of {arguments.rows} have other columns")
    return every, kept


def main():
    arguments = read_arguments()
    signal.signal(signal.SIGTERM, signal.default_int_handler)  # as an interrupt
    look_for_folders(arguments)
    look_for_libraries(arguments)
    try:
        every, kept = opened(arguments)
    except KeyboardInterrupt:
        print("campaign: interrupted, nothing was run")
        sys.exit(INTERRUPTED)
    except OSError as error:
        sys.exit(f"campaign: failed, nothing was run: {error.filename}: {error.strerror}")
    except sqlite3.Error as error:
        sys.exit(f"campaign: failed, nothing was run: {arguments.rows}: {error}")
    campaigns = [campaign for program in every for campaign in campaigns_of(arguments, program)]
    if arguments.again is not None:
        sys.exit(make_again(arguments, campaigns))
    was_interrupted = False
    try:
        if arguments.width:
            run_until_narrow(arguments, campaigns, kept)
        else:
            run_all(arguments, campaigns, arguments.runs, kept)
    except KeyboardInterrupt:
        was_interrupted = True
    tell(arguments, kept)
    sys.exit(summary(arguments, campaigns, kept, was_interrupted))


if __name__ == "__main__":
    main()
