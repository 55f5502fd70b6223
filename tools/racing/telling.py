"""A race in plain sentences, one a line. Addresses and what is behind a `+` are hexadecimal."""
import collections.abc
import dataclasses

from racing.machine import Relation, Replay, Step
from racing.order import Placed, last_before
from racing.symbols import Executable


PLAINLY, ATOMICALLY = False, True
CURE = ["One of the two is an atomic instruction, the other a plain load or store.",
        "Make every access of that variable atomic.",
        "With guests/kit/atomics.c each C11 atomic is a call, whose loads are LR and whose stores are AMOSWAP.",
        "Without it compilers make a plain lw of an atomic load and a plain sw of an atomic store."]


class NoRace(Exception):
    """What was called a race is none, and why."""


@dataclasses.dataclass
class Race:
    """Two steps of a plan on one byte, each with its place in the plan."""
    first: Placed
    second: Placed
    byte: int
    before: Placed | None  # of the first's thread, the last step that is ordered before the second


def race_at(steps: collections.abc.Iterable[Step], first: int, second: int, byte: int) -> Race:
    """The race at two places of a plan, whose steps are taken up to the second."""
    kept, earlier = {}, []
    for place, step in enumerate(steps):
        if place in (first, second):
            kept[place] = step
        if place == second:
            break
        if step.relation is not Relation.NOTHING:
            earlier.append((place, step))
    if not first < second or len(kept) < 2:
        raise NoRace(f"The plan has no steps {first} and {second} in this order.")
    one, other = kept[first], kept[second]
    if one.thread == other.thread:
        raise NoRace(f"Steps {first} and {second} are both of thread {one.thread}.")
    if not one.conflicts(other, byte):
        are_atomic = all(ways_of(step, byte) == {ATOMICALLY} for step in (one, other))
        raise NoRace(f"Steps {first} and {second} both access the byte at {byte:08x} atomically." if are_atomic else
                     f"Steps {first} and {second} don't both access the byte at {byte:08x}, one of them to write it.")
    before = last_before(earlier, one.thread, other)
    if before and before[0] >= first:
        raise NoRace(f"Step {first} is ordered before step {second}.")
    return Race((first, one), (second, other), byte, before)


@dataclasses.dataclass
class Teller:
    executable: Executable
    machine: Replay

    def tell(self, race: Race) -> str:
        (first, one), (second, other), byte = race.first, race.second, race.byte
        parts = [
            [f"A data race on the byte at {byte:08x} (decimal {byte}), {self.lies(byte)}.",
             f"Thread {one.thread} {verb(one, byte)} it at step {first}, thread {other.thread} {verb(other, byte)} it at step"
             f" {second}, and nothing orders the two."],
            *([f"Step {place}: thread {step.thread} {self.does(step)}.", accesses(step, byte), self.holds(step)]
              for place, step in (race.first, race.second)),
            [self.order(race)],
            *([CURE] if is_mixed(one, other, byte) else []),
        ]
        return "\n".join("".join(sentence + "\n" for sentence in part) for part in parts)

    def lies(self, byte: int) -> str:
        name, owner = self.executable.name_of(byte), self.machine.stack_of(byte)
        if name:
            return name
        if self.machine.is_heap(byte):
            return f"in the heap, at heap+{byte - self.machine.heap:x}"
        given = self.machine.given_at(byte)
        if given:
            return f"in mapped memory {given.start:08x}..{given.end:08x}"
        return "which no symbol names" if owner is None else f"in the stack of thread {owner}"

    def does(self, step: Step) -> str:
        """The instruction, or the call."""
        if step.word is None:
            return f"calls {step.call} from {self.place(step.caller)}"
        text = self.executable.text_of(step.pc, step.word)
        call = f", a call of {step.call}" if step.call else ""
        return f"runs the instruction at {self.place(step.pc)}: {step.word:08x}{f', {text}' if text else ''}{call}"

    def place(self, address: int) -> str:
        """An address of code, with its function and line."""
        name, line = self.executable.name_of(address), self.executable.line_of(address)
        return f"{address:08x}{f', {name}' if name else ''}{f' ({line})' if line else ''}"

    def holds(self, step: Step) -> str:
        named = [f"{mutex:08x}{f' ({name})' if (name := self.executable.name_of(mutex)) else ''}" for mutex in step.held]
        held = {0: "no mutex", 1: "the mutex at "}.get(len(named), "the mutexes at ") + " and ".join(named)
        return f"The thread holds {held}."

    def order(self, race: Race) -> str:
        thread, second = race.first[1].thread, race.second[0]
        if race.before is None:
            return f"No step of thread {thread} is ordered before step {second}."
        place, step = race.before
        what = f"{part_of(step)}a call of {step.call}" if step.call else f"the atomic instruction at {self.place(step.pc)}"
        return f"Of thread {thread}, step {place}, {what}, is the last that is ordered before step {second}."


def ways_of(step: Step, byte: int) -> set[bool]:
    """Whether a step accesses a byte atomically, otherwise, or in both ways."""
    return {access.is_atomic for access in step.accesses() if byte in access.stretch}


def is_mixed(one: Step, other: Step, byte: int) -> bool:
    """Whether one of two steps is an atomic instruction on the byte, and the other one loads or stores it otherwise."""
    plain, atomic = sorted((one, other), key=lambda step: ways_of(step, byte) == {ATOMICALLY})
    is_plain = ways_of(plain, byte) == {PLAINLY} and byte not in plain.code and not plain.call
    return is_plain and ways_of(atomic, byte) == {ATOMICALLY}


def part_of(step: Step) -> str:
    """Which of the two steps of a wait it is; nothing of another call."""
    parts = {Relation.UNLOCKS: "the first step of ", Relation.LOCKS: "the second step of "}
    return parts.get(step.relation, "") if step.call == "pthread_cond_wait" else ""


def verb(step: Step, byte: int) -> str:
    does = "writes" if step.writes(byte) else "reads"
    return f"atomically {does}" if ways_of(step, byte) == {ATOMICALLY} else does


def accesses(step: Step, byte: int) -> str:
    """How a step accesses a byte."""
    whats = {"read": "with bytes of the input", "write": "for the output", "mmap": "with zeros",
             "pthread_create": "with the new thread's number", "pthread_join": f"with the exit value of thread {step.subject}"}
    what = whats.get(step.call)
    atomic = [does for does, stretch in (("reads", step.loaded_atomically), ("writes", step.stored_atomically)) if byte in stretch]
    ways = [("writes", step.stored, what), ("reads", step.loaded, what),
            (f"atomically {' and '.join(atomic)}", step.loaded_atomically or step.stored_atomically, None),
            ("reads", step.code, "as a part of the instruction")]
    told = []
    for does, stretch, what in ways:
        if byte in stretch:
            among = f", one of {len(stretch)} from {stretch.start:08x} on" if len(stretch) > 1 else ""
            told.append(f"{does} the byte{among}{f', {what}' if what else ''}")
    return f"It {', and '.join(told)}."
