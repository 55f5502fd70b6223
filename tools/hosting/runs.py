"""Runs in whose process a bit flips, one by one."""
import dataclasses
import os
import pathlib
import random
import select
import time

from campaigns.running import kill, memory_file, whole
from hosting.flips import Files, Flip, flip
from hosting.judging import Outcome, fate_of
from hosting.processes import Gone, held

FIRST_RUNS = 3  # without flips, of which the longest says how long a run takes


@dataclasses.dataclass
class Job:
    """A run that is to be made, by its number; `right` is the run without flips, which takes `lasts` seconds."""
    command: list[str]
    what: str
    seed: str
    files: Files
    seconds: float
    right: Outcome
    lasts: float


class Process:
    """A program that runs: what it writes goes to files in memory."""

    def __init__(self, command: list[str]):
        self.output, self.report = memory_file(), memory_file()
        self.number = os.posix_spawn(command[0], command, os.environ, file_actions=[
            (os.POSIX_SPAWN_OPEN, 0, os.devnull, os.O_RDONLY, 0), (os.POSIX_SPAWN_DUP2, self.output.fileno(), 1),
            (os.POSIX_SPAWN_DUP2, self.report.fileno(), 2)])
        self.descriptor = os.pidfd_open(self.number)

    def has_ended(self, seconds: float) -> bool:
        poll = select.poll()
        poll.register(self.descriptor, select.POLLIN)
        return bool(poll.poll(1000 * seconds))

    def outcome(self, seconds: float) -> Outcome:
        """What it comes to within so many seconds; it is over then."""
        has_ended = self.has_ended(seconds)
        kill(self.descriptor)
        _, status = os.waitpid(self.number, 0)
        os.close(self.descriptor)
        with self.output, self.report:
            return Outcome(os.waitstatus_to_exitcode(status) if has_ended else None, whole(self.output),
                           whole(self.report).decode(errors="replace"))


def first_run(command: list[str], seconds: float) -> tuple[Outcome, float]:
    """What the runs without flips come to, and the longest time that one takes."""
    longest, outcome = 0.0, None
    for _ in range(FIRST_RUNS):
        start = time.monotonic()
        outcome = Process(command).outcome(seconds)
        longest = max(longest, time.monotonic() - start)
    return outcome, longest


def run(job: Job) -> dict[str, object]:
    """The part of a run's row that is known when it has ended."""
    draw = random.Random(job.seed)
    moment = draw.random() * job.lasts
    process = Process(job.command)
    hit = None if process.has_ended(moment) else flipped(process, job, draw)
    outcome = process.outcome(job.seconds)
    fate, answer = fate_of(outcome, job.right) if hit else ("not reached", "")
    return {"moment": round(moment, 6), "holds": hit.holds if hit else "", "place": hit.place if hit else "", "fate": fate,
            "answer": answer, "status": outcome.status}


def flipped(process: Process, job: Job, draw: random.Random) -> Flip | None:
    """What the flip hit; nothing where the process ended before."""
    try:
        with held(process.number) as stands:
            return flip(stands, job.what, draw, str(pathlib.Path(job.command[0]).resolve()), job.files)
    except (Gone, FileNotFoundError, ProcessLookupError):
        return None
