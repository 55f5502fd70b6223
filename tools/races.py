#!/usr/bin/env python3
"""Explains a data race of a program in the program's own terms.

    ./romain run EXE --journal 2>journal
    tools/races.py EXE --plan journal
    tools/races.py EXE --plan journal --race 8 13 69632

The first runs `romain races`, which runs the plan of the journal and answers its first race, and explains the answer; with
--race it explains one that is given: steps I and J of the plan, counted from 0, access the byte at the address A, in decimal.
The plan is run here as well, by a machine in Python, up to J: some seconds for a million steps. Functions and variables are
told by the executable's symbols; source lines and instructions where an addr2line and an objdump for RISC-V or LLVM's are here.
The status is that of `romain races`; of --race 0; and 1 where what was given is no race.
"""
import argparse
import os
import pathlib
import subprocess
import sys

import sentences
from racing.machine import NoStep, Refused, Replay, plan_of, steps_of
from racing.symbols import Executable
from racing.telling import NoRace, Teller, race_at

ROOT = pathlib.Path(__file__).resolve().parent.parent
NO_RACE = "No two steps of this plan race. A plan is one run's order of steps; another order of them may have a race.\n"


def read_arguments() -> argparse.Namespace:
    parser = argparse.ArgumentParser(description=__doc__, formatter_class=argparse.RawDescriptionHelpFormatter)
    parser.add_argument("exe", type=pathlib.Path, metavar="EXE", help="the executable")
    parser.add_argument("--plan", type=pathlib.Path, required=True, metavar="F", help="a journal, or a whole report with one")
    parser.add_argument("--input", type=pathlib.Path, metavar="F", help="what the program reads (nothing)")
    parser.add_argument("--race", type=int, nargs=3, metavar=("I", "J", "A"), help="a race that is known; nothing is asked")
    parser.add_argument("--romain", default=os.environ.get("ROMAIN", ROOT / "romain"), metavar="PROGRAM",
                        help="the program that is asked (ROMAIN, or ./romain)")
    return parser.parse_args()


def ask(arguments: argparse.Namespace) -> tuple[int, str]:
    """The status of `romain races`, and its answer."""
    words = [arguments.romain, "races", arguments.exe, "--plan", arguments.plan]
    words += ["--input", arguments.input] if arguments.input else []
    done = subprocess.run(words, stdin=subprocess.DEVNULL, stdout=subprocess.DEVNULL, stderr=subprocess.PIPE)
    last = done.stderr.decode(errors="replace").splitlines()[-1:] or [""]
    return done.returncode, last[0].removeprefix("answer ")


def explain(arguments: argparse.Namespace, race: list[int]) -> str:
    executable = Executable(arguments.exe)
    machine = Replay(executable.data, arguments.input.read_bytes() if arguments.input else b"")
    steps = steps_of(machine, plan_of(arguments.plan.read_bytes()))
    return Teller(executable, machine).tell(race_at(steps, *race))


def main():
    arguments = read_arguments()
    status, race = 0, arguments.race
    try:
        if race is None:
            status, answer = ask(arguments)
            print(f"romain races answers: {answer}", flush=True)
            if not answer.startswith("race "):
                print(NO_RACE if answer == "no-race" else "", end="")
                sys.exit(status)
            race = [int(number) for number in answer.split(" ")[1:]]
        print(explain(arguments, race), end="")
    except OSError as error:
        sys.exit(f"races: {sentences.of_system(error)}")
    except Refused as answer:
        sys.exit(f"races: refused, as by `answer {answer}`")
    except NoStep:
        sys.exit("races: the plan has a step that does not exist before that one")
    except NoRace as reason:
        sys.exit(f"races: this is no race. {reason}")
    sys.exit(status)


if __name__ == "__main__":
    main()
