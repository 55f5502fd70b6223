"""What the copies of a run overwrote: its replicas are run with their faults, by the judge of tools/auditing/, up to each copy."""
import collections.abc
import dataclasses

from auditing.cores import Core, Illegal
from auditing.jobs import Job, entries_of
from auditing.replicas import Replica
from auditing.telling import ABI_NAMES, fault_line
from fuzzing import readers
from journals import Scrub, Vote
from kernel import PAGE

MOST_BYTES = 16  # of memory that are told of one copy


@dataclasses.dataclass
class Overwritten:
    """A replica that an entry makes a copy of another, and in what the two differed."""
    place: int
    loser: int
    winner: int
    lines: list[str]


class NotLegal(Exception):
    """The journal is none of this job: the place of its first entry that is not allowed, and why."""


def overwritten(job: Job, journal: bytes) -> collections.abc.Iterator[Overwritten]:
    """What each copy of a journal overwrites, in order. A cooperative run has none."""
    entries, core = [] if readers.is_coop(journal) else entries_of(journal), Core(job)
    for place, entry in enumerate(entries):
        losers = entry.losers if isinstance(entry, Vote | Scrub) else ()
        told = [Overwritten(place, loser, entry.winner, [*differences(core.replicas[loser], core.replicas[entry.winner]),
                                                         *strikes(core.replicas[loser])]) for loser in losers]
        try:
            core.do(entry)
        except Illegal as illegal:
            raise NotLegal(f"entry {place} is not allowed: {illegal}") from illegal
        yield from told


def differences(loser: Replica, winner: Replica) -> list[str]:
    """Registers of threads and bytes of memory, with what stands in the loser and in the winner."""
    lines = []
    for number, (its, right) in enumerate(zip(loser.threads, winner.threads)):
        pairs = [("pc", its.pc, right.pc), *((f"x{at} ({ABI_NAMES[f'x{at}']})", its.registers[at], right.registers[at])
                                             for at in range(1, 32))]
        lines += [f"thread {number}: {name} is {value:08x}, and should be {other:08x}"
                  for name, value, other in pairs if value != other]
        if its.since != right.since:
            lines.append(f"thread {number}: ran {its.since} instructions since its last event, and should have run {right.since}")
    return lines + byte_lines(loser, winner)


def byte_lines(loser: Replica, winner: Replica) -> list[str]:
    found = [(page * PAGE + at, its, right) for page in sorted(loser.pages.keys() | winner.pages.keys())
             for at, (its, right) in enumerate(zip(page_of(loser, page), page_of(winner, page))) if its != right]
    more = [f"and {len(found) - MOST_BYTES} bytes more"] if len(found) > MOST_BYTES else []
    return [f"the byte at {address:08x} is {its:02x}, and should be {right:02x}"
            for address, its, right in found[:MOST_BYTES]] + more


def page_of(replica: Replica, page: int) -> bytes:
    return bytes(replica.pages.get(page, bytes(PAGE)))


def strikes(replica: Replica) -> list[str]:
    """The faults of the list that struck it since it was last a copy."""
    return [f"struck by the fault {fault_line(fault)}" for fault in replica.struck] or ["no fault of the list had struck it"]
