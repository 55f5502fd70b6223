#!/usr/bin/env python3
"""Serves the run of a journal to a debugger, which goes through it forwards and backwards.

    ./romain run EXE --journal 2>journal
    tools/gdb.py EXE --plan journal
    gdb-multiarch EXE -ex 'target remote :1234'

or in one, by a pipe in place of a port:

    gdb-multiarch EXE -ex 'target remote | tools/gdb.py EXE --plan journal --pipe'

What runs is the plan of the journal, on one machine without replicas and faults, in Python: a second or two for a million steps.
Registers, memory, threads, breakpoints, watchpoints, steps and `continue` are there as of a program that runs, and so are
`reverse-stepi`, `reverse-step`, `reverse-continue` and the like. `monitor help` lists what is there besides: going to an entry of
the journal or to a step, and what a copy overwrote, for which the numbers and the fault list of the run are asked for here. Nothing
can be changed. docs/DEBUGGING.md has a session.
"""
import argparse
import collections.abc
import pathlib
import socket
import sys

import sentences
from auditing.jobs import Refused as RefusedJob, job_of
from debugging.history import History
from debugging.moments import Moments
from debugging.monitor import Monitor
from debugging.packets import Wire
from debugging.quick import QuickReplay
from debugging.server import Server
from fuzzing import readers
from racing.machine import Refused, is_of_files

PORT = 1234


def number_in(least: int, most: int) -> collections.abc.Callable[[str], int]:
    def number(text: str) -> int:
        if not text.isdecimal() or not least <= int(text) <= most:
            raise argparse.ArgumentTypeError(f"{text} is no number from {least} to {most}")
        return int(text)
    return number


def read_arguments() -> argparse.Namespace:
    parser = argparse.ArgumentParser(description=__doc__, formatter_class=argparse.RawDescriptionHelpFormatter)
    parser.add_argument("exe", type=pathlib.Path, metavar="EXE", help="the executable")
    parser.add_argument("--plan", type=pathlib.Path, required=True, metavar="F", help="a journal, or a whole report with one")
    parser.add_argument("--input", type=pathlib.Path, metavar="F", help="what the program reads (nothing)")
    parser.add_argument("--port", type=number_in(0, 65535), default=PORT, metavar="P",
                        help=f"of this machine; 0 is any that is free ({PORT})")
    parser.add_argument("--pipe", action="store_true", help="standard input and output in place of a port")
    parser.add_argument("--faults", type=pathlib.Path, metavar="F", help="the run's fault list, for `monitor differs`")
    for name, (least, most, usual) in readers.RANGES.items():
        parser.add_argument(f"--{name}", type=number_in(least, most), default=usual, metavar="N",
                            help=f"of the run, for the same ({usual})")
    return parser.parse_args()


def connected(port: int) -> Wire:
    """The first debugger that comes."""
    with socket.create_server(("127.0.0.1", port)) as server:
        print(f"gdb: target remote :{server.getsockname()[1]}", flush=True)
        connection, _ = server.accept()
    connection.setsockopt(socket.IPPROTO_TCP, socket.TCP_NODELAY, 1)
    descriptor = connection.detach()
    return Wire(descriptor, descriptor)


def serve(arguments: argparse.Namespace):
    file, journal = arguments.exe.read_bytes(), arguments.plan.read_bytes()
    data = arguments.input.read_bytes() if arguments.input else b""
    history = History(QuickReplay(file, data), Moments(journal))
    is_of_files(journal, file, data)
    faults = arguments.faults.read_bytes() if arguments.faults else b""
    said = readers.recorded_in(journal) or vars(arguments)  # a record says the numbers itself
    job = job_of(file, data, faults, {name: said[name] for name in readers.RANGES})
    wire = Wire(sys.stdin.fileno(), sys.stdout.fileno()) if arguments.pipe else connected(arguments.port)
    Server(wire, history, Monitor(history, job, journal)).serve()


def main():
    try:
        serve(read_arguments())
    except OSError as error:
        sys.exit(f"gdb: {sentences.of_system(error)}")
    except (Refused, RefusedJob) as answer:
        sys.exit(f"gdb: refused, as by `answer {answer}`")
    except KeyboardInterrupt:
        sys.exit(130)


if __name__ == "__main__":
    main()
