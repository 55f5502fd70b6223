"""Reports of Romain and their journals, as docs/USING.md gives them."""
import collections
import dataclasses


@dataclasses.dataclass
class Take:
    """Driver `driver` took thread `thread` of replica `replica`."""
    driver: int
    replica: int
    thread: int


@dataclasses.dataclass
class Put:
    """A driver brought thread `thread` of replica `replica` back, `retired` instructions later, `struck` faults in it."""
    driver: int
    replica: int
    thread: int
    retired: int
    struck: int
    taken: int = 0  # the place in the journal of its `take`
    beside: bool = False  # another thread of the replica was lent meanwhile


@dataclasses.dataclass
class Part(Put):
    """The same before its quantum was over, its thread stopped for no vote: by votes it lacks a page that its replica has, in a
    cooperative run it stands at a lock."""


@dataclasses.dataclass
class Vote:
    """Thread `thread` was compared, `steps` instructions behind its event before; `losers` rise, none where all agreed."""
    thread: int
    steps: int
    winner: int
    losers: tuple
    did: str


@dataclasses.dataclass
class Free:
    """A call that waited was served."""
    thread: int


@dataclasses.dataclass
class Scrub:
    """All replicas were compared whole; `losers` rise, none where all were the same."""
    winner: int
    losers: tuple
    did = "scrub"  # in the place of what a vote did


@dataclasses.dataclass
class End:
    """How the run ended, in the answer's words."""
    how: str


@dataclasses.dataclass
class Report:
    entries: list  # Put, Part, Vote, Free, Scrub, End in their order; without --journal none
    summary: dict  # votes, copies, struck, steps, bytes; empty where nothing ran
    answer: str
    is_cooperative: bool = False

    def retired(self):
        """By thread, how many instructions replica 0 retired."""
        counts = {}
        for entry in self.entries:
            if isinstance(entry, Put) and entry.replica == 0:
                counts[entry.thread] = counts.get(entry.thread, 0) + entry.retired
        return counts


def losers_of(word):
    return () if word == "-" else tuple(map(int, word.split(",")))


def read_entry(line):
    """The entry of a journal's line; None of another line."""
    kind, *words = line.split(" ")
    if kind == "take":
        return Take(*map(int, words))
    if kind == "put":
        return Put(*map(int, words))
    if kind == "part":
        return Part(*map(int, words))
    if kind == "vote":
        return Vote(int(words[0]), int(words[1]), int(words[2]), losers_of(words[3]), words[4])
    if kind == "free":
        return Free(int(words[0]))
    if kind == "scrub":
        return Scrub(int(words[0]), losers_of(words[1]))
    return End(" ".join(words)) if kind == "end" else None


def most_in_one_replica(entries):
    """How many leases of one replica are out at once, at the most."""
    out, most = collections.Counter(), 0
    for entry in entries:
        if isinstance(entry, Take):
            out[entry.replica] += 1
            most = max(most, out[entry.replica])
        elif isinstance(entry, Put):
            out[entry.replica] -= 1
    return most


class Out:
    """The leases that are out: of each the place of its `take`, and whether another one of its replica was out meanwhile."""

    def __init__(self):
        self.leases = {}

    def take(self, entry, place):
        others = [lease for lease in self.leases if lease[1] == entry.replica]
        self.leases |= {other: (self.leases[other][0], True) for other in others}
        self.leases[entry.driver, entry.replica, entry.thread] = place, bool(others)

    def put(self, entry, place):
        entry.taken, entry.beside = self.leases.pop((entry.driver, entry.replica, entry.thread), (place, False))


def head_lines(lines):
    """How many lines the head of a record has; 0 of another report."""
    return 10 if lines[:1] in (["romain 3 vote"], ["romain 3 coop"]) else 0


def read_report(text):
    """What a report says; the journal's `take` lines are kept as the place where a put's turn began."""
    entries, summary, answer, out = [], {}, "none", Out()
    lines = text.splitlines()
    for line in lines[head_lines(lines):]:
        kind, *words = line.split(" ")
        entry = read_entry(line)
        if isinstance(entry, Take):
            out.take(entry, len(entries))
        elif entry is not None:
            if isinstance(entry, Put):
                out.put(entry, len(entries))
            entries.append(entry)
        elif kind == "votes":
            summary = dict(zip([kind, *words][::2], map(int, words[::2])))
        elif kind == "answer":
            answer = " ".join(words)
    return Report(entries, summary, answer, lines[:1] in (["romain 2 coop"], ["romain 3 coop"]))
