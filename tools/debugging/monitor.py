"""What `monitor` answers in the debugger."""
import collections.abc

from auditing.jobs import Job
from debugging.differs import NotLegal, Overwritten, overwritten
from debugging.history import History

HELP = """monitor event N    goes to where entry N of the journal is met, counted from 0; the next stepi arrives there
monitor step P     goes to where P steps of the plan were taken; the next stepi arrives there
monitor where      which step and which entry come next
monitor differs    in what the replicas differed that were overwritten up to here
monitor output     what the program has written up to here
"""


class Monitor:
    """`goal` is a place to which the next resumption goes, where one was asked for."""

    def __init__(self, history: History, job: Job, journal: bytes):
        self.history, self.job, self.journal = history, job, journal
        self.goal: int | None = None
        self.copies: list[Overwritten] | None = None

    def answer(self, command: str) -> str:
        name, *words = command.split() or ["help"]
        answers = {"event": self.event, "step": self.step, "where": self.where, "differs": self.differs, "output": self.output}
        if name not in answers or len(words) != int(name in ("event", "step")) or not all(map(str.isdecimal, words)):
            return HELP
        return answers[name](*map(int, words))

    def event(self, number: int) -> str:
        entries = self.history.moments.entries
        if number >= len(entries):
            return f"The journal has {len(entries)} entries, counted from 0.\n"
        self.goal = min(entries[number].place, self.history.length)
        return f"Entry {number}, {entries[number].line}, is met at step {self.goal}. The next stepi arrives there.\n"

    def step(self, place: int) -> str:
        if place > self.history.length:
            return f"The plan has {self.history.length} steps.\n"
        self.goal = place
        return "The next stepi arrives there.\n"

    def where(self) -> str:
        history = self.history
        entry, thread = history.moments.entry_at(history.place), history.next_thread()
        what = "the run is over" if thread is None else f"the next one is thread {thread}'s"
        met = f" Met last: entry {entry}, {history.moments.entries[entry].line}." if entry >= 0 else ""
        return f"{history.place} of {history.length} steps were taken, {what}.{met}\n"

    def output(self) -> str:
        written = self.history.machine.output.decode(errors="backslashreplace")
        return written if written.endswith("\n") else written + "\n"

    def differs(self) -> str:
        try:
            self.copies = list(overwritten(self.job, self.journal)) if self.copies is None else self.copies
        except NotLegal as reason:
            return f"This is no journal of such a run, by its faults and numbers: {reason}.\n"
        return "".join(told(self.until_here(self.copies))) or "No replica was overwritten up to here.\n"

    def until_here(self, copies: list[Overwritten]) -> list[Overwritten]:
        entries, place = self.history.moments.entries, self.history.place
        return [copy for copy in copies if entries[copy.place].place <= place]


def told(copies: list[Overwritten]) -> collections.abc.Iterator[str]:
    for copy in copies:
        yield f"At entry {copy.place} replica {copy.loser} became a copy of replica {copy.winner}:\n"
        yield from (f"  {line}\n" for line in copy.lines)
