"""Which steps are ordered before another one, after docs/GUESTS.md, "Without races"."""
import dataclasses

from racing.machine import Relation, Step

Placed = tuple[int, Step]  # a step and its place in the plan


def last_before(earlier: list[Placed], thread: int, step: Step) -> Placed | None:
    """The last step of a thread that is ordered before a step of another thread. The earlier steps are in the plan's order, and
    only those that mean something for the order, since from one thread to another it goes by these alone. Looks backwards from
    the step, and keeps of which threads, mutexes, words and exits what it finds is ordered before it."""
    found = Found({step.thread})
    found.learn(step)
    for place, other in reversed(earlier):
        is_ordered = found.has(other)
        if is_ordered and other.thread == thread:
            return place, other
        if is_ordered:
            found.learn(other)
    return None


@dataclasses.dataclass
class Found:
    """Of which threads, mutexes, words and exits an earlier step is ordered before."""
    threads: set[int]
    mutexes: set[int] = dataclasses.field(default_factory=set)
    words: set[int] = dataclasses.field(default_factory=set)
    exits: set[int] = dataclasses.field(default_factory=set)

    def has(self, step: Step) -> bool:
        return step.thread in self.threads or {
            Relation.UNLOCKS: step.subject in self.mutexes,
            Relation.WRITES_WORD: step.subject in self.words,
            Relation.MAKES: step.subject in self.threads,
            Relation.EXITS: step.thread in self.exits,
        }.get(step.relation, False)

    def learn(self, step: Step):
        """What is ordered before this step: what its thread did, unlocks of the mutex that it locks, what wrote the word that it
        accesses atomically, the exit that it joins."""
        self.threads.add(step.thread)
        subjects = {Relation.LOCKS: self.mutexes, Relation.READS_WORD: self.words, Relation.WRITES_WORD: self.words,
                    Relation.JOINS: self.exits}.get(step.relation)
        if subjects is not None:
            subjects.add(step.subject)
