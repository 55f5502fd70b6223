"""Cooperative runs, after crates/ro_legal/specs/Cooperative.antt, Sides.antt and Core.antt, crates/ro_peer/specs and
crates/ro_orders/specs: replicas answer calls on some mutexes by themselves. A lease is judged as if whoever asks got a mutex that
is free; what was got is held against the rows of the lock page by `in_rows`."""
import collections
import collections.abc
import dataclasses
import typing

from auditing.cores import STEPS, Core, Event, Illegal, Won, needs
from auditing.jobs import Entry, Job
from auditing.replicas import Change, Replica, Stop
from journals import Free, Part, Put, Take, Vote
from kernel import EDEADLK, EPERM, Call, Kernel

MOST_APART = 1024  # ranks of a mutex that replicas may be apart
LOCK, UNLOCK = "pthread_mutex_lock", "pthread_mutex_unlock"
TAKES_OTHERWISE = b"pthread_mutex_trylock", b"pthread_cond_wait"


class Get(typing.NamedTuple):
    """A thread gets a mutex as the so-manieth."""
    mutex: int
    rank: int
    thread: int


Rows = collections.abc.Callable[[int, int], int | None]  # of a mutex and a rank, whose it is


@dataclasses.dataclass
class Mutex:
    """As a replica has it that answers its calls."""
    address: int
    owner: int | None
    rank: int = 0  # how often it was got in the replica


@dataclasses.dataclass(frozen=True)
class Parking:
    """Where a thread came back at a lock."""
    mutex: int
    rank: int
    asked: bool  # it was free there


@dataclasses.dataclass
class Side:
    """What a replica has beside."""
    mutexes: dict[int, Mutex] = dataclasses.field(default_factory=dict)  # by address, as they became cooperative
    answered: set[int] = dataclasses.field(default_factory=set)  # threads, since the kernel last served a call of them
    gets: list[Get] = dataclasses.field(default_factory=list)  # in order
    parked: dict[int, Parking] = dataclasses.field(default_factory=dict)  # by thread, where it last came back at a lock

    def own(self, stop: Stop | Change) -> Mutex | None:
        """The mutex of a lock or an unlock that the replica answers itself."""
        return self.mutexes.get(stop.a0) if isinstance(stop, Call) and stop.which in (LOCK, UNLOCK) else None

    def copied(self) -> "Side":
        mutexes = {address: dataclasses.replace(mutex) for address, mutex in self.mutexes.items()}
        return Side(mutexes, {*self.answered}, [*self.gets], {**self.parked})

    def threads_of(self, mutex: int) -> list[int]:
        """Who got it, in order."""
        return [get.thread for get in self.gets if get.mutex == mutex]

    def rank_in(self, mutex: int) -> int:
        return self.mutexes[mutex].rank if mutex in self.mutexes else 0


# ---- One step that needs no other replica

@dataclasses.dataclass
class Answer:
    """Of a lock or an unlock: the owner from then on, and the value."""
    owner: int | None
    value: int
    gets: bool = False  # the thread gets the mutex


def answer_by(which: str, thread: int, owner: int | None) -> Answer | None:
    """What a call comes to, by the mutex's owner; None where it waits."""
    if which == UNLOCK:
        return Answer(None, 0) if owner == thread else Answer(owner, EPERM)
    if owner is None:
        return Answer(thread, 0, True)
    return Answer(owner, EDEADLK) if owner == thread else None


def leased(rows: Rows, replica: Replica, side: Side, number: int) -> bool:
    """Takes a step of a thread: a plain instruction, or a call that the replica answers, a lock that gets the mutex only where
    the row is the thread's. Whether there was one."""
    thread = replica.threads[number]
    found = replica.next(thread)
    if isinstance(found, Change):
        replica.carry(thread, found)
        return True
    mutex = side.own(found)
    answer = answer_by(found.which, number, mutex.owner) if mutex else None
    if answer is None or answer.gets and rows(mutex.address, mutex.rank) != number:
        return False
    if answer.gets:
        side.gets.append(Get(mutex.address, mutex.rank, number))
    mutex.owner, mutex.rank = answer.owner, mutex.rank + answer.gets
    side.answered.add(number)
    thread.registers[10], thread.pc = answer.value, thread.registers[1]
    thread.since, thread.done = thread.since + 1, thread.done + 1
    return True


def voted_at(replica: Replica, side: Side, number: int) -> Stop | None:
    """The stop at which the thread stands for a vote."""
    found = replica.next(replica.threads[number])
    return None if isinstance(found, Change) or side.own(found) else found


def parking_of(replica: Replica, side: Side, number: int) -> Parking | None:
    """Where the thread waits at a lock, if it does: the lock of a mutex that it doesn't own."""
    found = replica.next(replica.threads[number])
    mutex = side.own(found)
    if mutex is None or found.which != LOCK or mutex.owner == number:
        return None
    return Parking(mutex.address, mutex.rank, mutex.owner is None)


def is_cooperative(job: Job, kernel: Kernel, mutex: int) -> bool:
    """Of a program whose table of calls has neither trylock nor wait all mutexes that stand in the kernel's table are
    cooperative; of another none is."""
    return mutex in kernel.owners and not any(name in job.functions for name in TAKES_OTHERWISE)


# ---- The core

class Cooperative(Core):
    """The core of a cooperative run."""

    def __init__(self, job: Job, most_apart: int = MOST_APART):
        super().__init__(job)
        self.lends_pages = False
        self.sides = [Side() for _ in self.replicas]
        self.most_apart = most_apart

    # ---- What can be done

    def is_lendable(self, number: int, thread: int) -> bool:
        return super().is_lendable(number, thread) and not self.is_parked(number, thread)

    def is_parked(self, number: int, thread: int) -> bool:
        """The thread waits at a lock in this replica."""
        parking = self.sides[number].parked.get(thread)
        return parking is not None and self.is_kept(self.sides[number], thread, parking)

    def is_kept(self, side: Side, thread: int, parking: Parking) -> bool:
        """A thread that came back at a lock in this replica would come back again."""
        mutex = side.mutexes.get(parking.mutex)
        return mutex is not None and (
            mutex.owner is not None
            or parking.asked and mutex.rank == parking.rank and self.is_barred(side, thread, parking.mutex, parking.rank))

    def is_barred(self, side: Side, thread: int, mutex: int, rank: int) -> bool:
        """A rank of a mutex is not for the thread: another got it somewhere; or nobody is known to have, and it is too far ahead, or
        another thread waits for the mutex, or a lease is out that may have got it."""
        taker = self.taker_of(mutex, rank)
        if taker is not None:
            return taker != thread
        return self.is_ahead(mutex, rank) or self.is_awaited(side, thread, mutex, rank) or bool(self.leases)

    def is_awaited(self, side: Side, thread: int, mutex: int, rank: int) -> bool:
        """Another thread waits for the mutex in this replica, and has not asked for the rank."""
        return any(other != thread and parking.mutex == mutex and not (parking.asked and parking.rank == rank)
                   for other, parking in side.parked.items())

    def taker_of(self, mutex: int, rank: int) -> int | None:
        """Who got a mutex at a rank, by the first replica in which it was got so often."""
        return next((threads[rank] for threads in (side.threads_of(mutex) for side in self.sides) if rank < len(threads)), None)

    def is_ahead(self, mutex: int, rank: int) -> bool:
        """Some replica is so far behind that the rank is not to be got yet."""
        return any(side.rank_in(mutex) + self.most_apart <= rank for side in self.sides)

    # ---- A lease comes back

    def put(self, entry: Put):
        added = self.ran(entry)
        replica, side, stop = self.replicas[entry.replica], self.sides[entry.replica], None
        if entry.retired < self.job.quantum:
            stop = voted_at(replica, side, entry.thread)
            needs(stop is not None, "it came back at no stop for a vote")
        self.came_back(entry, stop, None, added)

    def part(self, entry: Part):
        added = self.ran(entry)
        needs(entry.retired < self.job.quantum, "its quantum was over")
        parking = parking_of(self.replicas[entry.replica], self.sides[entry.replica], entry.thread)
        needs(parking is not None, "it came back at no lock")
        self.came_back(entry, None, parking, added)

    def ran(self, entry: Put) -> int:
        """Runs a lease, whoever asks getting a mutex; how many steps of it no replica made before."""
        needs(self.ended is None, "the run has ended")
        needs(Take(entry.driver, entry.replica, entry.thread) in self.leases, "it isn't lent")
        needs(entry.retired <= self.job.quantum, "it ran past the quantum")
        needs(entry.struck == 0, "no faults are struck")
        replica, side = self.replicas[entry.replica], self.sides[entry.replica]
        most, gets = self.most_done(entry.thread), len(side.gets)
        reach = self.reach()
        for _ in range(entry.retired):
            needs(leased(lambda mutex, rank: entry.thread, replica, side, entry.thread), "it ran past a stop or a lock that waits")
        needs(all(get.rank < reach[get.mutex] for get in side.gets[gets:]), "it got too far ahead")
        return max(0, replica.threads[entry.thread].done - most)

    def reach(self) -> dict[int, int]:
        """By mutex, the first rank of it that is too far ahead."""
        return {mutex: min(side.rank_in(mutex) for side in self.sides) + self.most_apart for mutex in self.sides[0].mutexes}

    def ceilings(self, number: int, thread: int) -> dict[int, int]:
        """By mutex, the first rank of it that a lease of the thread doesn't get: it is too far ahead, or another thread of the replica
        waits for the mutex. Of such a mutex it gets the next rank alone, and only where it got that in another replica."""
        side, ceilings = self.sides[number], self.reach()
        for mutex in side.mutexes.values():
            if self.is_awaited(side, thread, mutex.address, mutex.rank):
                own = self.taker_of(mutex.address, mutex.rank) == thread
                ceilings[mutex.address] = min(ceilings[mutex.address], mutex.rank + own)
        return ceilings

    def most_done(self, thread: int) -> int:
        """How many instructions a thread has retired in any replica, at the most."""
        return max(replica.threads[thread].done for replica in self.replicas)

    def came_back(self, entry: Put, stop: Stop | None, parking: Parking | None, added: int):
        side = self.sides[entry.replica]
        self.replicas[entry.replica].threads[entry.thread].stop = stop
        side.parked.pop(entry.thread, None)
        if parking is not None:
            side.parked[entry.thread] = parking
        self.leases.remove(Take(entry.driver, entry.replica, entry.thread))
        self.steps, self.wrote = self.steps + added, 0

    # ---- What holds threads up

    def waits_at(self, thread: int) -> int | None:
        """Where it came back at a lock."""
        return next((side.parked[thread].mutex for side in self.sides if thread in side.parked), None)

    def owner_of(self, mutex: int) -> int | None:
        mutexes = self.sides[0].mutexes
        return mutexes[mutex].owner if mutex in mutexes else super().owner_of(mutex)

    # ---- An event

    def won(self, thread: int) -> Won | None:
        """What a vote on the thread comes to; None where not all views are one, or the replicas leave its reservation unlike."""
        first, *others = [replica.view(thread) for replica in self.replicas]
        if any(view != first for view in others) or not self.lapses_alike(thread):
            return None
        stop = self.replicas[0].threads[thread].stop
        return Won(0, (), first[2], self.event(thread, stop, self.replicas[0].payload(stop)))

    def lapses_alike(self, thread: int) -> bool:
        """By all replicas the same is left of the thread's reservation: it has none in the kernel, or all of them answered a call of
        it, or none did."""
        answered = [thread in side.answered for side in self.sides]
        return thread not in self.kernel.reservations or all(answered) or not any(answered)

    def added(self, won: Won) -> int:
        """The instructions before count where they are made."""
        return STEPS[won.event.did]

    def kernel_for(self, thread: int) -> Kernel:
        """The thread's reservation has ended where replica 0, as any other, answered a call of it."""
        return self.kernel.without_reservation(thread) if thread in self.sides[0].answered else self.kernel

    def occur(self, thread: int, added: int, event: Event):
        stop = self.blocked[thread] if thread in self.blocked else self.replicas[0].threads[thread].stop
        entered = self.entered_by(self.kernel, event.kernel, stop)
        super().occur(thread, added, event)
        for replica, side in zip(self.replicas, self.sides):
            side.mutexes |= {mutex: Mutex(mutex, owner) for mutex, owner in entered.items()}
            side.answered.discard(thread)
            self.drop_own(replica, side)

    def entered_by(self, before: Kernel, after: Kernel, stop: Stop) -> dict[int, int | None]:
        """The mutex that an event makes cooperative, if any, and its owner."""
        enters = (isinstance(stop, Call) and is_cooperative(self.job, after, stop.a0)
                  and not is_cooperative(self.job, before, stop.a0))
        return {stop.a0: after.owners[stop.a0]} if enters else {}

    def drop_own(self, replica: Replica, side: Side):
        """Stops go at calls that the replica answers by itself from now on."""
        for thread in replica.threads:
            if thread.stop is not None and side.own(thread.stop):
                thread.stop = None

    # ---- No scrubs

    def may_scrub(self) -> bool:
        return False

    def scrub(self, entry):
        raise Illegal("a cooperative run has no scrubs")

    def ends_scrub(self, how: str) -> bool:
        return False

    def how_split(self) -> str:
        return "differ"


class Joined(Cooperative):
    """The same, where all that was got must stand in rows."""

    def __init__(self, job: Job):
        super().__init__(job)
        self.rows: dict[tuple[int, int], int] = {}  # by mutex and rank, the thread that got it

    def ran(self, entry: Put) -> int:
        gets = self.sides[entry.replica].gets if entry.replica < len(self.sides) else []
        before, added = len(gets), super().ran(entry)
        for get in gets[before:]:
            needs(self.rows.setdefault((get.mutex, get.rank), get.thread) == get.thread, "another thread got the mutex")
        return added


# ---- What a journal comes to

def first_of(entries: list[Entry]) -> list[int]:
    """The first steps: those that no replica made before, in the order in which they came."""
    first, taken, made = [], collections.Counter(), collections.Counter()
    for entry in entries:
        if isinstance(entry, Put):
            taken[entry.replica, entry.thread] += entry.retired
            first += [entry.thread] * (taken[entry.replica, entry.thread] - made[entry.thread])
            made[entry.thread] = max(made[entry.thread], taken[entry.replica, entry.thread])
        elif isinstance(entry, Vote):
            first += [entry.thread] * STEPS[entry.did]
        elif isinstance(entry, Free):
            first.append(entry.thread)
    return first


def in_rows(rows: Rows, gets: list[Get]) -> bool:
    """Each has its row."""
    return all(rows(get.mutex, get.rank) == get.thread for get in gets)
