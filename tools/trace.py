#!/usr/bin/env python3
"""Prints the calls of a run, a line each, from its journal.

    ./romain run EXE --journal 2>journal
    tools/trace.py EXE --plan journal

A line has the step of the plan, counted from 0, the thread, the call with its arguments, and its answer, with the name of an error.
A call that waits for another thread stands there once more when it is served. Addresses have the names of the executable's symbols.
The plan of the journal is run here, by a machine in Python, some two seconds for a million steps. Atomic instructions are no calls.
"""
import argparse
import os
import pathlib
import sys

import sentences
from debugging.moments import Moments
from debugging.tracing import Calls, Tracer
from racing.machine import NoStep, Refused, is_of_files
from racing.symbols import Executable


def read_arguments() -> argparse.Namespace:
    parser = argparse.ArgumentParser(description=__doc__, formatter_class=argparse.RawDescriptionHelpFormatter)
    parser.add_argument("exe", type=pathlib.Path, metavar="EXE", help="the executable")
    parser.add_argument("--plan", type=pathlib.Path, required=True, metavar="F", help="a journal, or a whole report with one")
    parser.add_argument("--input", type=pathlib.Path, metavar="F", help="what the program reads (nothing)")
    parser.add_argument("--bytes", type=int, default=32, metavar="N", help="shown of what is read or written (32)")
    return parser.parse_args()


def trace(arguments: argparse.Namespace):
    executable = Executable(arguments.exe)
    data, journal = arguments.input.read_bytes() if arguments.input else b"", arguments.plan.read_bytes()
    machine, moments = Tracer(executable.data, data), Moments(journal)
    is_of_files(journal, executable.data, data)
    for line in Calls(machine, moments, executable, arguments.bytes).lines():
        print(line)


def main():
    try:
        trace(read_arguments())
    except BrokenPipeError:
        os.dup2(os.open(os.devnull, os.O_WRONLY), sys.stdout.fileno())  # as `| head` does
    except OSError as error:
        sys.exit(f"trace: {sentences.of_system(error)}")
    except Refused as answer:
        sys.exit(f"trace: refused, as by `answer {answer}`")
    except NoStep:
        sys.exit("trace: the plan has a step that does not exist behind these")


if __name__ == "__main__":
    main()
