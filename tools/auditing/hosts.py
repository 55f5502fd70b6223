"""A host of cooperative runs that is simulated: drivers whose leases overlap, at a drawn interleaving, and a lock page that says who
asked first for each rank of a mutex."""
import collections
import copy
import dataclasses
import random

from auditing.cooperative import Cooperative, Side, leased, parking_of, voted_at
from auditing.drawing import vote_of
from auditing.jobs import Entry
from auditing.nexts import next_action
from auditing.replicas import Replica
from journals import End, Free, Part, Put, Take

MOST_IDLE = 1  # leases of a thread of a replica without an instruction, while nothing else comes
MOST_ENTRIES = 40_000  # of a run that ends


class Broken(Exception):
    """What is claimed of cooperative runs doesn't hold of this one."""


class Page:
    """The lock page: of each mutex, whose each rank is. It remembers as many ranks as replicas may be apart, and `rows` all."""

    def __init__(self, size: int):
        self.size, self.kept, self.rows = size, {}, {}

    def decide(self, mutex: int, rank: int, thread: int) -> int | None:
        """Whose the rank is: who asked first for it; None where that is forgotten."""
        place = mutex, rank % self.size
        if self.kept.get(place, (-1, 0))[0] < rank:
            self.kept[place] = rank, thread
            self.rows.setdefault((mutex, rank), thread)
        kept, owner = self.kept[place]
        return owner if kept == rank else None


class TornPage(Page):
    """A page that lets whoever asks have a rank, so that replicas may get a mutex in different orders."""

    def decide(self, mutex: int, rank: int, thread: int) -> int | None:
        return thread


@dataclasses.dataclass
class Flight:
    """A lease that is out, as far as its driver has come."""
    lease: Take
    replica: Replica
    side: Side
    ceilings: dict[int, int]  # by mutex, the first rank that it doesn't get
    retired: int = 0
    back: Put | None = None  # once it comes back


class Host:
    def __init__(self, draw: random.Random, core: Cooperative):
        self.draw, self.core, self.page = draw, core, Page(core.most_apart)
        self.by_program = draw.randrange(3) > 0  # what comes next is what the program does, and not any entry that is allowed
        self.grain = draw.choice((1, 1, 3, 10, 100))  # instructions at a time, at the most
        self.haste = draw.choice((1, 3, 10))  # how often drivers run, to how often another one takes a lease
        self.flights: list[Flight] = []
        self.entries: list[Entry] = []
        self.coming: list[Entry] | None = None  # what comes next, as far as that is known
        self.parts = self.stopped = self.most_empty = self.most_idle = 0
        # By replica and thread, leases in a row without an instruction; and those while nothing else came.
        self.empty, self.idle = collections.Counter(), collections.Counter()

    def run(self):
        """To the end of the run."""
        while self.core.ended is None:
            which = self.draw.choice(self.flights * self.haste + self.comes_next())
            if isinstance(which, Flight):
                self.fly(which)
            else:
                self.do(which)
            if len(self.entries) > MOST_ENTRIES:
                raise Broken("the run doesn't end")

    def do(self, entry: Entry):
        self.core.do(entry)
        self.entries.append(entry)
        self.coming = None
        if isinstance(entry, Take):
            replica, side = self.core.replicas[entry.replica], self.core.sides[entry.replica]
            self.flights.append(Flight(entry, copied(replica), side.copied(), self.core.ceilings(entry.replica, entry.thread)))
        elif not isinstance(entry, Put):
            self.idle.clear()

    # ---- What comes next

    def comes_next(self) -> list[Entry]:
        """Entries of which one may come now; the core is asked anew behind each entry."""
        if self.coming is None:
            self.coming = self.by_choice() if self.by_program else self.allowed()
        return self.coming

    def idle_driver(self) -> int | None:
        out = {flight.lease.driver for flight in self.flights}
        return self.draw.choice([driver for driver in range(self.core.job.drivers) if driver not in out] or [None])

    def by_choice(self) -> list[Entry]:
        """What the program does next; a lease where a driver is idle."""
        action, *numbers = next_action(self.core)
        if action == "lend":
            driver = self.idle_driver()
            return [] if driver is None else [Take(driver, *numbers)]
        if action == "wait":
            return []
        return [{"vote": self.vote, "free": self.free, "end": End}[action](*numbers)]

    def allowed(self) -> list[Entry]:
        """All that may come but returns, by one of the idle drivers."""
        core, driver = self.core, self.idle_driver()
        if core.due is not None:
            return [End(core.due)]
        if core.is_stuck():
            return [End("deadlock")]
        if core.wrote and self.draw.randrange(50) == 0:
            return [End(f"sink {self.draw.randrange(core.wrote)}")]
        threads = range(len(core.kernel.lives))
        found = [self.vote(thread) for thread in threads if core.may_vote(thread)]
        found += [self.free(thread) for thread in threads if core.may_free(thread)]
        return found + [Take(driver, replica, thread) for replica in range(len(core.replicas)) for thread in threads
                        if driver is not None and core.is_lendable(replica, thread)]

    def vote(self, thread: int) -> Entry:
        return vote_of(self.core, thread)

    def free(self, thread: int) -> Entry:
        core = self.core
        return Free(thread) if core.steps < core.job.limit else End(f"limit {core.steps} 1")

    # ---- A lease

    def fly(self, flight: Flight):
        """A driver runs on, or brings its replica back."""
        if flight.back is not None:
            self.bring(flight)
            return
        for _ in range(self.draw.randint(1, self.grain)):
            flight.back = self.back_of(flight)
            if flight.back is not None:
                break

    def back_of(self, flight: Flight) -> Put | None:
        """One step of a lease; or how it comes back."""
        replica, side, thread = flight.replica, flight.side, flight.lease.thread
        lease = flight.lease.driver, flight.lease.replica, thread
        if flight.retired == self.core.job.quantum:
            return Put(*lease, flight.retired, 0)
        if leased(lambda mutex, rank: self.asked(flight, mutex, rank), replica, side, thread):
            flight.retired += 1
            return None
        if voted_at(replica, side, thread) is not None:
            return Put(*lease, flight.retired, 0)
        if parking_of(replica, side, thread) is None:
            raise Broken("a lease has no step, and is at no stop and no lock")
        return Part(*lease, flight.retired, 0)

    def asked(self, flight: Flight, mutex: int, rank: int) -> int | None:
        if rank >= flight.ceilings[mutex]:
            self.stopped += 1
            return None
        return self.page.decide(mutex, rank, flight.lease.thread)

    def bring(self, flight: Flight):
        lease, entry = flight.lease, flight.back
        self.flights.remove(flight)
        self.do(entry)
        self.count(lease, entry)
        replica, side = self.core.replicas[lease.replica], self.core.sides[lease.replica]
        flight.replica.threads[lease.thread].stop = replica.threads[lease.thread].stop
        if not are_one(replica, flight.replica) or (side.mutexes, side.gets) != (flight.side.mutexes, flight.side.gets):
            raise Broken("a lease comes to another replica than the judge's")

    def count(self, lease: Take, entry: Put):
        """Looks that a thread isn't lent over and over."""
        place = lease.replica, lease.thread
        self.parts += isinstance(entry, Part)
        if entry.retired or not isinstance(entry, Part):
            self.idle.clear()
            self.empty[place] = 0
            return
        self.idle[place] += 1
        self.empty[place] += 1
        self.most_empty = max(self.most_empty, self.empty[place])
        self.most_idle = max(self.most_idle, self.idle[place])
        if self.idle[place] > MOST_IDLE:
            raise Broken("a thread is lent over and over")


def copied(replica: Replica) -> Replica:
    """Another one that is the same."""
    other = copy.copy(replica)
    other.pages = {page: bytearray(data) for page, data in replica.pages.items()}
    other.threads = [dataclasses.replace(thread, registers=[*thread.registers]) for thread in replica.threads]
    return other


def are_one(one: Replica, other: Replica) -> bool:
    return (one.pages, one.threads) == (other.pages, other.threads)
