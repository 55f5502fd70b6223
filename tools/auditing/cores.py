"""The core of a run and its journal, after crates/ro_legal/specs: which entries are allowed in a core, and what each does. Written
after the definitions and for no speed, so that one shows an error of the other."""
import collections
import dataclasses

from auditing.jobs import Entry, Fault, Job
from auditing.replicas import Change, Lent, PageFault, Replica, Stands, Stop, Trap, View
from journals import Free, Part, Put, Scrub, Take, Vote
from kernel import PAGE, THREADS, Atomic, Blocked, Call, Done, Effect, Kernel, Parked, opening_kernel


class Illegal(Exception):
    """The entry is not allowed, and why."""


def needs(holds: bool, why: str):
    if not holds:
        raise Illegal(why)


PARTS = [*(f"x{number}" for number in range(1, 32)), "pc", "since", "stop", "payload"]  # of a view, as they are told
STEPS = {"served": 1, "trapped": 1, "parked": 1, "blocked": 0, "mapped": 0, "watch": 0}  # that an event itself adds to the plan
MOST_WISHES = 16  # pages that a thread wishes of a replica
MOST_WANTED = 2  # of them, that it can want where it stands
MOST_MISSES = 8  # of pages, between two votes on a thread, before its leases are whole


@dataclasses.dataclass
class Event:
    """What a stop comes to."""
    did: str
    kernel: Kernel
    effect: Effect
    payload: bytes = b""  # that goes out
    blocked: Call | None = None  # the call on which the thread is blocked from now on
    due: str | None = None  # the end, if the program ended


@dataclasses.dataclass
class Won:
    """More than half of the views are one: the lowest replica that shows it, those that show another, and what it comes to."""
    winner: int
    losers: tuple[int, ...]
    count: int  # instructions since the thread was last released
    event: Event


@dataclasses.dataclass
class Whole:
    """In what replicas differ that are compared whole."""
    threads: list[tuple[int, list[str]]]  # each live one that differs, and the parts of it
    pages: list[int]  # addresses


@dataclasses.dataclass
class Copy:
    """A replica that lost a vote or a scrub and became as the winner."""
    place: int  # of the entry
    thread: int | None  # None at a scrub
    replica: int
    differed: list[str] | Whole  # the parts of its view that were not the winner's, or all that was not
    undone: list[tuple[Fault, int]]  # what had struck it since its last copy, and how many instructions of its thread before


def unlike(one: View | tuple, other: View | tuple) -> list[str]:
    """The parts in which two views differ, or two live threads of snapshots, which have no bytes that go out."""
    registers = [f"x{number}" for number in range(1, 32) if one[0][number] != other[0][number]]
    rest = zip(("pc", "since", "stop", "payload"), one[1:], other[1:])
    return registers + [name for name, mine, theirs in rest if mine != theirs]


def unlike_whole(kernel: Kernel, replicas: list[Replica]) -> Whole:
    """In what the replicas differ from the first of them."""
    (pages, threads), *others = [replica.snapshot(kernel) for replica in replicas]
    differ = [page for page in sorted(pages) if any(other[page] != pages[page] for other, _ in others)]
    parts = [(number, {part for _, other in others for part in unlike(mine, other[number])})
             for number, mine in enumerate(threads) if kernel.lives_on(number)]
    return Whole([(number, sorted(found, key=PARTS.index)) for number, found in parts if found], [page * PAGE for page in differ])


def verdict(views: list) -> tuple[int, tuple[int, ...]] | None:
    """Of views or snapshots: the lowest replica that shows what more than half of them show, and those that show another."""
    for number, view in enumerate(views):
        if 2 * views.count(view) > len(views):
            return number, tuple(loser for loser, other in enumerate(views) if other != view)
    return None


class Core:
    def __init__(self, job: Job):
        self.job = job
        self.replicas = [Replica(job, number) for number in range(job.replicas)]
        self.leases: list[Take] = []
        self.lends_pages = job.drivers > 1  # else each lease has its whole replica
        self.lent: dict[int, Lent] = {}  # by driver, what its lease has
        # By replica and thread: the pages that it missed there, the last one first; and how often it did since its last event.
        self.wishes: dict[tuple[int, int], list[int]] = collections.defaultdict(list)
        self.misses = collections.Counter()
        self.kernel = opening_kernel(self.replicas[0])
        self.blocked: dict[int, Call] = {}  # by thread, the voted call on which it is blocked
        self.steps = 0
        self.scrubbed = 0  # the steps at the last scrub
        self.waited = [0] * THREADS  # by thread, how many votes of others came since it was itself voted on or freed
        self.output = b""
        self.wrote = 0  # how many bytes the last entry's event wrote
        self.due: str | None = None  # an end that must come next
        self.ended: str | None = None
        self.views: list[View] = []  # of the end differ or no-majority, those that had no majority; none at a scrub
        self.entries = 0  # how many were done
        self.copies: list[Copy] = []

    def do(self, entry: Entry):
        """What an entry does; Illegal where it isn't allowed."""
        if isinstance(entry, Take):
            self.take(entry)
        elif isinstance(entry, Part):
            self.part(entry)
        elif isinstance(entry, Put):
            self.put(entry)
        elif isinstance(entry, Vote):
            self.vote(entry)
        elif isinstance(entry, Free):
            self.free(entry.thread)
        elif isinstance(entry, Scrub):
            self.scrub(entry)
        else:
            self.end(entry.how)
        self.entries += 1

    # ---- What can be done

    def is_going(self) -> bool:
        return self.due is None and self.ended is None

    def stop_of(self, replica: Replica, thread: int) -> Stop | None:
        return replica.threads[thread].stop if thread < len(replica.threads) else None

    def goes_on(self, number: int, thread: int) -> bool:
        """The thread lives, and stands at no stop in the replica."""
        return self.kernel.lives_on(thread) and self.replicas[number].threads[thread].stop is None

    def is_lendable(self, number: int, thread: int) -> bool:
        """The thread goes on in the replica, and what a lease of it has is there."""
        return number < len(self.replicas) and self.goes_on(number, thread) and self.offers(number, thread)

    def may_vote(self, thread: int) -> bool:
        """Nothing is lent, and the thread stands at a stop in every replica, and isn't blocked."""
        return (self.is_going() and not self.leases and self.kernel.lives_on(thread) and thread not in self.blocked
                and all(self.stop_of(replica, thread) is not None for replica in self.replicas))

    def may_free(self, thread: int) -> bool:
        """Nothing is lent, and the call on which the thread is blocked can be served."""
        return (self.is_going() and not self.leases and thread in self.blocked
                and self.kernel.serves(thread, self.blocked[thread]))

    def may_scrub(self) -> bool:
        """Nothing is lent and nothing can be: every thread that lives stands still in every replica."""
        return self.is_going() and not self.leases and not self.some_lendable()

    def some_lendable(self) -> bool:
        return any(self.is_lendable(number, thread)
                   for number in range(len(self.replicas)) for thread in range(len(self.kernel.lives)))

    # ---- What holds threads up

    def waits_at(self, thread: int) -> int | None:
        """The mutex for which a thread waits that is blocked on no call."""
        return None

    def owner_of(self, mutex: int) -> int | None:
        return self.kernel.owners[mutex]

    # ---- What a lease has of its replica

    def shares(self, number: int, thread: int) -> bool:
        """A lease of the thread has pages: another thread of the replica goes on, no fault of this one is due in a quantum, and it
        missed pages seldom."""
        return (self.lends_pages and self.misses[number, thread] <= MOST_MISSES
                and any(other != thread and self.goes_on(number, other) for other in range(len(self.kernel.lives)))
                and self.replicas[number].is_calm(thread, self.job.quantum))

    def leases_of(self, number: int) -> list[tuple[Take, Lent]]:
        """Those of the replica that are out, and what each has."""
        return [(lease, self.lent[lease.driver]) for lease in self.leases if lease.replica == number]

    def is_free(self, number: int, page: int) -> bool:
        """No lease of the replica has the page, or no byte of it may be written."""
        is_taken = any(lent is None or page in lent for _, lent in self.leases_of(number))
        return not (is_taken and self.kernel.is_writable(page))

    def is_open(self, number: int, thread: int) -> bool:
        """Neither the thread is lent nor its whole replica, and the pages that it wishes most can be."""
        is_barred = any(lease.thread == thread or lent is None for lease, lent in self.leases_of(number))
        return not is_barred and all(self.is_free(number, page) for page in self.wishes[number, thread][:MOST_WANTED])

    def offers(self, number: int, thread: int) -> bool:
        """What a lease of the thread has is there."""
        return self.is_open(number, thread) if self.shares(number, thread) else not self.leases_of(number)

    def lent_to(self, number: int, thread: int) -> Lent:
        """What a lease of the thread has, if it is taken now: of the pages that it wishes those that can be lent, or all."""
        if not self.shares(number, thread):
            return None
        return frozenset(page for page in self.wishes[number, thread] if self.is_free(number, page))

    def wish(self, number: int, thread: int, page: int):
        """The thread missed the page in the replica."""
        others = [other for other in self.wishes[number, thread] if other != page]
        self.wishes[number, thread] = [page, *others][:MOST_WISHES]

    # ---- A thread is lent, runs, and comes back

    def take(self, entry: Take):
        needs(self.is_going(), "the run ends")
        needs(entry.driver < self.job.drivers, "there is no such driver")
        needs(all(lease.driver != entry.driver for lease in self.leases), "the driver has a lease")
        needs(self.is_lendable(entry.replica, entry.thread), "the thread can't be lent")
        self.lent[entry.driver] = self.lent_to(entry.replica, entry.thread)
        self.leases.append(entry)
        self.wrote = 0

    def put(self, entry: Put):
        """After a whole quantum, or at a stop, wanting no page."""
        wanted = self.run_lease(entry)
        replica, stop = self.replicas[entry.replica], None
        if entry.retired < self.job.quantum:
            needs(wanted is None, "it wants a page")
            stop = replica.next(replica.threads[entry.thread])
            needs(not isinstance(stop, Change), "it came back at no stop")
        if isinstance(stop, PageFault):
            self.wish(entry.replica, entry.thread, stop.page)
        self.return_lease(entry, stop)

    def part(self, entry: Part):
        """For the want of a page, short of a quantum."""
        wanted = self.run_lease(entry)
        needs(entry.retired < self.job.quantum, "its quantum was over")
        needs(wanted is not None, "it wants no page")
        self.wish(entry.replica, entry.thread, wanted)
        self.misses[entry.replica, entry.thread] += 1
        self.return_lease(entry, None)

    def run_lease(self, entry: Put) -> int | None:
        """Runs a lease in its replica as that is by now, on what it has; the page that its thread wants behind it. Faults are struck
        in leases of whole replicas alone, since none is due in any other."""
        needs(self.ended is None, "the run has ended")
        needs(Take(entry.driver, entry.replica, entry.thread) in self.leases, "it isn't lent")
        needs(entry.retired <= self.job.quantum, "it ran past the quantum")
        replica, lent = self.replicas[entry.replica], self.lent[entry.driver]
        try:
            needs(replica.run(entry.thread, entry.retired, lent) == entry.struck, "another number of faults was struck")
        except Stands as stands:
            raise Illegal(f"it ran past {stands.stop}") from stands
        return replica.wanted(entry.thread, lent)

    def return_lease(self, entry: Put, stop: Stop | None):
        """Its thread stands at the stop, or goes on."""
        self.replicas[entry.replica].threads[entry.thread].stop = stop
        self.leases.remove(Take(entry.driver, entry.replica, entry.thread))
        self.wrote = 0

    # ---- A vote is held, a call that waits is served

    def won(self, thread: int) -> Won | None:
        """What a vote on the thread comes to; None where there is no majority."""
        found = verdict([replica.view(thread) for replica in self.replicas])
        if found is None:
            return None
        winner = self.replicas[found[0]]
        stop = winner.threads[thread].stop
        return Won(*found, winner.threads[thread].since, self.event(thread, stop, winner.payload(stop)))

    def added(self, won: Won) -> int:
        """How many steps the vote adds to the plan."""
        return won.count + STEPS[won.event.did]

    def kernel_for(self, thread: int) -> Kernel:
        """That serves the thread."""
        return self.kernel

    def event(self, thread: int, stop: Stop, payload: bytes) -> Event:
        kernel = self.kernel_for(thread)
        if isinstance(stop, Call):
            return self.call_event(thread, stop, payload)
        if isinstance(stop, Atomic):
            served = kernel.serve_atomic(thread, stop, int.from_bytes(payload, "little"))
            return Event("served", served.kernel, served.effect)
        if isinstance(stop, PageFault):
            return Event("mapped", kernel, Effect(thread, page=stop.page, releases=True))
        if isinstance(stop, Trap):
            return Event("trapped", kernel, Effect(thread), due=f"trap {stop.cause}")
        return Event("watch", kernel, Effect(thread, releases=True))

    def call_event(self, thread: int, call: Call, payload: bytes) -> Event:
        kernel = self.kernel_for(thread)
        served = kernel.serve(thread, call)
        if isinstance(served, Done):
            return Event("served", served.kernel, served.effect, payload)
        if isinstance(served, Blocked):
            return Event("blocked", kernel, Effect(thread), blocked=call)
        if isinstance(served, Parked):
            return Event("parked", served.kernel, Effect(thread), blocked=call)
        return Event("served", served.kernel, Effect(thread), due=f"exit {served.status}")

    def occur(self, thread: int, added: int, event: Event):
        """An event, which adds so many steps to the plan."""
        for replica in self.replicas:
            replica.apply(event.kernel, event.effect)
        self.kernel = event.kernel
        self.blocked.pop(thread, None)
        if event.blocked is not None:
            self.blocked[thread] = event.blocked
        for number in range(len(self.replicas)):
            self.misses[number, thread] = 0
        self.steps += added
        self.output += event.payload
        self.wrote = len(event.payload)
        self.due = event.due

    def vote(self, entry: Vote):
        needs(self.may_vote(entry.thread), "there can be no vote on the thread")
        won = self.won(entry.thread)
        needs(won is not None, "there is no majority")
        came = won.winner, won.losers, won.count, won.event.did
        needs(came == (entry.winner, entry.losers, entry.steps, entry.did), f"the vote comes to {came}")
        needs(self.steps + self.added(won) <= self.job.limit, "it passes the limit")
        self.copies += [self.copy(entry.thread, won.winner, loser) for loser in won.losers]
        for loser in won.losers:
            self.replicas[loser].become(self.replicas[won.winner])
        self.waited = [waited + 1 for waited in self.waited]
        self.waited[entry.thread] = 0
        self.occur(entry.thread, self.added(won), won.event)

    def copy(self, thread: int | None, winner: int, loser: int) -> Copy:
        """The copy that is about to be made, at a vote on the thread or at a scrub."""
        one, replica = self.replicas[winner], self.replicas[loser]
        undone = [(fault, replica.threads[fault.thread].done - fault.moment)
                  for fault in self.job.faults if fault in replica.struck]
        differed = unlike_whole(self.kernel, [one, replica]) if thread is None else unlike(one.view(thread), replica.view(thread))
        return Copy(self.entries, thread, loser, differed, undone)

    def free(self, thread: int):
        needs(self.may_free(thread), "the thread can't be freed")
        needs(self.steps + 1 <= self.job.limit, "it passes the limit")
        self.waited[thread] = 0
        event = self.call_event(thread, self.blocked[thread], b"")
        self.occur(thread, STEPS[event.did], event)

    # ---- All replicas are compared whole

    def prevailing(self) -> tuple[int, tuple[int, ...]] | None:
        """What a scrub comes to; None where there is no majority."""
        return verdict([replica.snapshot(self.kernel) for replica in self.replicas])

    def scrub(self, entry: Scrub):
        needs(self.may_scrub(), "there can be no scrub")
        came = self.prevailing()
        needs(came == (entry.winner, entry.losers), f"the scrub comes to {came}")
        self.copies += [self.copy(None, entry.winner, loser) for loser in entry.losers]
        for loser in entry.losers:
            self.replicas[loser].become(self.replicas[entry.winner])
        self.scrubbed, self.wrote = self.steps, 0

    # ---- Ends

    def end(self, how: str):
        needs(self.ended is None, "the run has ended")
        threads = range(len(self.kernel.lives))
        needs(how == self.due or self.ends_alone(how)
              or any(self.may_vote(thread) and self.ends_vote(thread, how) for thread in threads)
              or any(self.may_free(thread) and self.is_passed(how, 1) for thread in threads)
              or self.may_scrub() and self.ends_scrub(how), "the run doesn't end so")
        if how in ("differ", "no-majority"):
            split = [thread for thread in threads if self.may_vote(thread) and self.won(thread) is None]
            self.views = [replica.view(split[0]) for replica in self.replicas] if split else []
        if how.startswith("sink "):
            self.output = self.output[:len(self.output) - self.wrote + int(how.split(" ")[1])]
        self.wrote, self.due, self.ended = 0, None, how

    def ends_alone(self, how: str) -> bool:
        """Whether the end comes of no entry: nothing can be done, or a sink failed."""
        return how == "deadlock" and self.is_stuck() or self.ends_sink(how)

    def ends_sink(self, how: str) -> bool:
        """Whether the end says that a sink took a part of the last write alone."""
        kind, *numbers = how.split(" ")
        return kind == "sink" and self.is_going() and int(numbers[0]) < self.wrote

    def is_stuck(self) -> bool:
        threads = range(len(self.kernel.lives))
        return self.is_going() and not self.leases and not any(
            self.may_vote(thread) or self.may_free(thread) for thread in threads) and not self.some_lendable()

    def ends_vote(self, thread: int, how: str) -> bool:
        """Whether the end comes in the place of a vote on the thread: no majority, or the limit would be passed."""
        won = self.won(thread)
        if won is None:
            return how == self.how_split()
        return self.is_passed(how, self.added(won))

    def ends_scrub(self, how: str) -> bool:
        """Whether the end comes in the place of a scrub: no majority."""
        return how == self.how_split() and self.prevailing() is None

    def how_split(self) -> str:
        """The end where there is no majority."""
        return "differ" if len(self.replicas) == 2 else "no-majority"

    def is_passed(self, how: str, more: int) -> bool:
        """Whether the end says that so many steps more would pass the limit, and they would."""
        return how == f"limit {self.steps} {more}" and self.steps + more > self.job.limit


@dataclasses.dataclass
class Judged:
    core: Core  # that the legal entries leave
    place: int | None = None  # of the first entry that isn't allowed, from 0
    why: str = ""
    other: int | None = None  # the place of the first legal entry that isn't what the program does next, where that is asked

    def __str__(self):
        return "legal" if self.place is None else f"illegal {self.place}"


def judge(job: Job, entries: list[Entry], is_next=None) -> Judged:
    """Whether each entry is allowed in the core that those before it leave; and, by `is_next`, whether it is what comes next."""
    return judge_from(Core(job), entries, is_next)


def judge_from(core: Core, entries: list[Entry], is_next=None) -> Judged:
    """The same from this core on."""
    other = None
    for place, entry in enumerate(entries):
        if is_next is not None and other is None and not is_next(core, entry):
            other = place
        try:
            core.do(entry)
        except Illegal as illegal:
            return Judged(core, place, str(illegal), other)
    return Judged(core, other=other)
