"""What is drawn: numbers and faults for a run of a small guest, legal journals that make other choices than the program does, and
changes of journals."""
import collections.abc
import copy
import random

from auditing.cores import STEPS, Core
from auditing.jobs import Entry, Job
from fuzzing import readers
from fuzzing.machine import STACKS, STACK_SIZE, STACK_STEP
from fuzzing.programs import BASE, PAGE
from journals import End, Free, Part, Put, Scrub, Take, Vote
from kernel import MAPPED

HEAD = "romain 2"
CHOICES = {"replicas": [2, 3, 3, 5], "drivers": [1, 2, 2, 3, 8], "watchdog": [100, 100, 128, 10_000],
           "quantum": [1, 2, 3, 7, 64, 4_096], "limit": [3, 20, 60, 300, 2_000],
           "scrub": [0, 0, 1, 1, 7, 40, 300]}
THREADS = [0, 0, 1, 2, 15]  # of which faults are drawn


def draw_numbers(draw: random.Random) -> dict[str, int]:
    """The numbers of a command."""
    return {name: draw.choice(numbers) for name, numbers in CHOICES.items()}


def draw_fault(draw: random.Random, file: bytes, replicas: int) -> str:
    replica, thread, moment = draw.randrange(replicas), draw.choice(THREADS), draw.randrange(draw.choice((4, 20, 200)))
    kind = draw.choice(("reg", "reg", "pc", "mem", "mem"))
    if kind == "reg":
        where = f"{draw.randrange(1, 32)} {draw.randrange(32)}"
    elif kind == "pc":
        where = f"{draw.randrange(32)}"
    else:
        stack = STACKS + STACK_STEP * thread + STACK_SIZE - 1 - draw.randrange(32)
        hidden = BASE + draw.randrange(52)  # of the file's header, which no guest reads
        mapped = MAPPED + draw.choice((0, PAGE)) + draw.randrange(8)
        places = hidden, BASE + draw.randrange(len(file)), BASE + PAGE + draw.randrange(8), stack, mapped
        where = f"{draw.choice(places)} {draw.randrange(8)}"
    return f"{replica} {thread} {moment} {kind} {where}\n"


def draw_faults(draw: random.Random, file: bytes, replicas: int) -> bytes:
    """The text of a fault list, in which a line may come twice."""
    lines = [draw_fault(draw, file, replicas) for _ in range(draw.choice((0, 0, 1, 1, 2, 6)))]
    return "".join(lines + lines[:draw.choice((0, 0, 0, 1))]).encode()


# ---- Legal journals

def draw_journal(draw: random.Random, job: Job, most: int) -> list[Entry]:
    """At most so many entries, each of which is drawn from those that are allowed."""
    core, entries = Core(job), []
    while len(entries) < most and core.ended is None:
        entry = draw.choice(allowed(draw, core))
        core.do(entry)
        entries.append(entry)
    return entries


def allowed(draw: random.Random, core: Core) -> list[Entry]:
    """Entries that are allowed in a core; seldom an end by a sink."""
    if core.due is not None:
        return [End(core.due)]
    if core.wrote and draw.randrange(10) == 0:
        return [End(f"sink {draw.randrange(core.wrote)}")]
    if core.may_scrub() and draw.randrange(4) == 0:
        return [scrub_of(core)]
    if core.is_stuck():
        return [End("deadlock")]
    threads, replicas = range(len(core.kernel.lives)), range(len(core.replicas))
    idle = [driver for driver in range(core.job.drivers) if all(lease.driver != driver for lease in core.leases)]
    found = [return_of(core, lease) for lease in core.leases]
    found += [Take(draw.choice(idle), replica, thread) for replica in replicas for thread in threads
              if idle and core.is_lendable(replica, thread)]
    found += [vote_of(core, thread) for thread in threads if core.may_vote(thread)]
    found += [Free(thread) if core.steps < core.job.limit else End(f"limit {core.steps} 1")
              for thread in threads if core.may_free(thread)]
    return found


def return_of(core: Core, lease: Take) -> Put:
    """A lease comes back in one way."""
    replica, lent = copy.deepcopy(core.replicas[lease.replica]), core.lent[lease.driver]
    count, struck = replica.run_on(lease.thread, core.job.quantum, lent)
    wants = count < core.job.quantum and replica.wanted(lease.thread, lent) is not None
    return (Part if wants else Put)(lease.driver, lease.replica, lease.thread, count, struck)


def vote_of(core: Core, thread: int) -> Vote | End:
    """A vote, or the end that comes in its place."""
    won = core.won(thread)
    if won is None:
        return End(core.how_split())
    more = core.added(won)
    if core.steps + more > core.job.limit:
        return End(f"limit {core.steps} {more}")
    return Vote(thread, won.count, won.winner, won.losers, won.event.did)


def scrub_of(core: Core) -> Scrub | End:
    """A scrub, or the end that comes in its place."""
    came = core.prevailing()
    return End(core.how_split()) if came is None else Scrub(*came)


# ---- Texts

def line_of(entry: Entry) -> str:
    """A journal's line."""
    if isinstance(entry, Take):
        return f"take {entry.driver} {entry.replica} {entry.thread}"
    if isinstance(entry, Put):
        kind = "part" if isinstance(entry, Part) else "put"
        return f"{kind} {entry.driver} {entry.replica} {entry.thread} {entry.retired} {entry.struck}"
    if isinstance(entry, Vote):
        return f"vote {entry.thread} {entry.steps} {entry.winner} {losers_of(entry)} {entry.did}"
    if isinstance(entry, Scrub):
        return f"scrub {entry.winner} {losers_of(entry)}"
    return f"free {entry.thread}" if isinstance(entry, Free) else f"end {entry.how}"


def losers_of(entry: Vote | Scrub) -> str:
    return ",".join(map(str, entry.losers)) or "-"


def text_of(lines: list[str]) -> bytes:
    return "".join(f"{line}\n" for line in [HEAD, *lines]).encode()


# ---- Changes

LOSERS = ["-", "-", "0", "1", "2", "0,1", "1,2", "3,4"]


def change_number(draw: random.Random, lines: list[str]):
    """A number of an entry becomes another, mostly near it."""
    place = draw.randrange(len(lines))
    words = lines[place].split(" ")
    numbers = [at for at, word in enumerate(words) if word.isdigit()]
    if numbers:
        at = draw.choice(numbers)
        words[at] = str(draw.choice((int(words[at]) + 1, int(words[at]) - 1, draw.randrange(6), draw.randrange(2_000))))
        lines[place] = " ".join(words)


def change_vote(draw: random.Random, lines: list[str]):
    """A vote has other losers, or did something else."""
    places = [place for place, line in enumerate(lines) if line.startswith("vote ")]
    if places:
        place = draw.choice(places)
        words = lines[place].split(" ")
        if draw.randrange(2):
            words[4] = draw.choice(LOSERS)
        else:
            words[5] = draw.choice(list(STEPS))
        lines[place] = " ".join(words)


def change_scrub(draw: random.Random, lines: list[str]):
    """A scrub has another winner or other losers, is dropped, or comes where none was."""
    places = [place for place, line in enumerate(lines) if line.startswith("scrub ")]
    how = draw.randrange(4) if places else 3
    if how == 3:
        lines.insert(draw.randrange(len(lines) + 1), f"scrub {draw.choice((0, 0, 0, 1))} {draw.choice(LOSERS)}")
        return
    place = draw.choice(places)
    _, winner, losers = lines[place].split(" ")
    lines[place:place + 1] = [[f"scrub {draw.randrange(5)} {losers}"], [f"scrub {winner} {draw.choice(LOSERS)}"], []][how]


BACK = {"put": "part", "part": "put"}  # how a lease comes back, and how else


def places_of(lines: list[str], kinds: collections.abc.Container[str]) -> list[int]:
    """Of entries of these kinds."""
    return [place for place, line in enumerate(lines) if line.split(" ")[0] in kinds]


def change_back(draw: random.Random, lines: list[str]):
    """A lease comes back in part in place of whole, or whole in place of in part."""
    places = places_of(lines, BACK)
    if places:
        place = draw.choice(places)
        kind, rest = lines[place].split(" ", 1)
        lines[place] = f"{BACK[kind]} {rest}"


def change_count(draw: random.Random, lines: list[str]):
    """A lease comes back sooner or later, now and then by the other entry."""
    places = places_of(lines, BACK)
    if places:
        place = draw.choice(places)
        kind, *lease, count, struck = lines[place].split(" ")
        other = draw.choice((0, int(count) - 1, int(count) + 1, draw.randrange(int(count) + 1)))
        lines[place] = " ".join([draw.choice((kind, kind, BACK[kind])), *lease, str(other), struck])


def change_driver(draw: random.Random, lines: list[str]):
    """Another driver takes a thread, and brings it back."""
    places = places_of(lines, ("take",))
    if places:
        taken, other = draw.choice(places), str(draw.randrange(8))
        lease = lines[taken].split(" ")[1:]
        back = [place for place in places_of(lines, BACK) if place > taken and lines[place].split(" ")[1:4] == lease]
        for place in [taken, *back[:1]]:
            kind, _, *rest = lines[place].split(" ")
            lines[place] = " ".join([kind, other, *rest])


def drop(draw: random.Random, lines: list[str]):
    del lines[draw.randrange(len(lines))]


def double(draw: random.Random, lines: list[str]):
    """An entry comes again, at once or later."""
    place = draw.randrange(len(lines))
    lines.insert(draw.choice((place, draw.randint(place, len(lines)))), lines[place])


def swap(draw: random.Random, lines: list[str]):
    """Two entries, mostly neighbours, change their places."""
    one = draw.randrange(len(lines))
    other = draw.choice((min(one + 1, len(lines) - 1), draw.randrange(len(lines))))
    lines[one], lines[other] = lines[other], lines[one]


def put_end(draw: random.Random, lines: list[str]):
    """The journal ends earlier, or otherwise."""
    steps, more = draw.randrange(60), draw.randrange(1, 20)
    how = draw.choice((f"exit {draw.choice((0, 6, 7))}", "deadlock", f"trap {draw.randrange(1, 10)}", f"limit {steps} {more}",
                       "differ", "no-majority", "sink 0", f"sink {draw.randrange(6)}"))
    lines.insert(draw.randrange(len(lines) + 1), f"end {how}")


def take_end(draw: random.Random, lines: list[str]):
    """The journal breaks off."""
    del lines[draw.choice((len(lines) - 1, draw.randrange(len(lines)))):]


CHANGES = [change_number] * 4 + [change_vote, change_scrub, change_scrub, change_back, change_back, change_count, change_driver, drop,
                                 drop, double, swap, swap, put_end, put_end, take_end]


def draw_change(draw: random.Random, lines: list[str]) -> list[str]:
    """The lines with a change; a journal is still read of them."""
    while True:
        changed = [*lines]
        draw.choice(CHANGES)(draw, changed) if changed else put_end(draw, changed)
        if readers.journal_of(text_of(changed))[1] is None:
            return changed


def draw_other_numbers(draw: random.Random, numbers: dict[str, int]) -> dict[str, int]:
    """One number of the command is another; not that of replicas, below which those of faults have to be."""
    name = draw.choice([name for name in CHOICES if name != "replicas"])
    least, most, _ = readers.RANGES[name]
    near = numbers[name] + draw.choice((-1, 1))
    return numbers | {name: min(max(near, least), most) if draw.randrange(2) else draw.choice(CHOICES[name])}
