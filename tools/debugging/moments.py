"""The steps of a journal's plan by their places, and where its entries are met among them."""
import bisect
import dataclasses
import itertools

from fuzzing import readers
from racing.machine import Refused


@dataclasses.dataclass
class Entry:
    """An entry of a journal: its line, the place of the step before which it is met, and how many steps its own event takes."""
    line: str
    place: int
    served: int


class Moments:
    def __init__(self, journal: bytes):
        entries, bad = readers.journal_of(journal)
        if bad:
            raise Refused(f"plan {bad[0]} {bad[1]}")
        is_cooperative = readers.is_coop(journal)
        self.entries, self.stretches, place = [], [], 0
        self.walk = readers.plan_of(entries, is_cooperative)
        for words in entries:
            served = served_by(words)
            place += self.steps_of(words, is_cooperative)
            self.entries.append(Entry(b" ".join(words).decode(), place - served, served))
        self.starts = [0, *itertools.accumulate(count for _, count in self.stretches)]
        del self.walk

    def steps_of(self, words: list[bytes], is_cooperative: bool) -> int:
        """How many steps an entry adds; they are kept as a stretch of its thread's."""
        if not adds_steps(words[0], is_cooperative):
            return 0
        thread, count = next(self.walk)
        if count:
            self.stretches.append((thread, count))
        return count

    @property
    def length(self) -> int:
        return self.starts[-1]

    def stretch_at(self, place: int) -> tuple[int, int]:
        """The thread that takes the step at a place, and how many steps of it follow each other from there on."""
        number = bisect.bisect_right(self.starts, place) - 1
        thread, _ = self.stretches[number]
        return thread, self.starts[number + 1] - place

    def before(self, thread: int, place: int) -> int | None:
        """The place of a thread's last step in front of a place."""
        for number in range(bisect.bisect_left(self.starts, place) - 1, -1, -1):
            if self.stretches[number][0] == thread:
                return min(self.starts[number + 1], place) - 1
        return None

    def entry_at(self, place: int) -> int:
        """The last entry that is met at a place or in front of it."""
        return bisect.bisect_right(self.entries, place, key=lambda entry: entry.place) - 1


def adds_steps(kind: bytes, is_cooperative: bool) -> bool:
    return kind in (b"vote", b"free") or is_cooperative and kind in (b"put", b"part")


def served_by(words: list[bytes]) -> int:
    """Of the steps that an entry adds, those of its own event: they come when it has been met."""
    return int(words[0] == b"free" or words[0] == b"vote" and words[-1] in readers.STEPS)
