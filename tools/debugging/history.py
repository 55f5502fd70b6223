"""A run as places between its steps, to which one can go, forwards by running and backwards from snapshots."""
import collections.abc
import dataclasses

from debugging.moments import Moments
from debugging.quick import QuickReplay
from kernel import READ, WRITE, Kernel
from racing.machine import NoStep, Step, Thread

SPACING = 20_000  # steps between two snapshots, at first
MOST_SNAPSHOTS = 200  # from then on every second one is dropped, and the spacing doubled


@dataclasses.dataclass(frozen=True)
class Watch:
    """A stretch of memory, and which accesses to it are looked for: READ, WRITE or both."""
    stretch: range
    kinds: int

    def meets(self, step: Step) -> bool:
        return any(access.stretch.start < self.stretch.stop and self.stretch.start < access.stretch.stop
                   and self.kinds & (WRITE if access.writes else READ)
                   for access in step.accesses() if access.stretch and access.stretch is not step.code)


@dataclasses.dataclass(frozen=True)
class Hit:
    """Why a run stops at a place: a breakpoint there, or an access to what is watched by the step next to it."""
    place: int
    thread: int
    watch: Watch | None = None


@dataclasses.dataclass
class Snapshot:
    threads: list[Thread]
    pages: dict[int, bytes]
    kernel: Kernel
    written: int  # bytes of output
    ended: str | None


class History:
    """The machine stands at `place`: so many steps of the plan were taken."""

    def __init__(self, machine: QuickReplay, moments: Moments):
        self.machine, self.moments = machine, moments
        self.place, self.length = 0, moments.length  # less, where the plan has a step that the program has not
        self.breaks: set[int] = set()
        self.watches: list[Watch] = []
        self.spacing = SPACING
        self.output = b""  # up to the last snapshot
        self.snapshots = {0: self.snapshot({})}

    def watch(self, watches: list[Watch]):
        """These are watched from now on; no step that meets one is a quick one."""
        self.watches = watches
        self.machine.closed = [(watch.stretch, watch.kinds) for watch in watches]
        self.machine.forget_rights()

    # ---- Snapshots

    def snapshot(self, before: dict[int, bytes]) -> Snapshot:
        """The machine as it is; pages that are as they were before are kept once."""
        machine = self.machine
        if len(machine.output) > len(self.output):
            self.output = bytes(machine.output)
        threads = [Thread([*thread.registers], thread.pc) for thread in machine.threads]
        pages = {number: before[number] if before.get(number) == page else bytes(page) for number, page in machine.pages.items()}
        return Snapshot(threads, pages, machine.kernel, len(machine.output), machine.ended)

    def keep(self):
        """A snapshot of this place, where one is due."""
        if self.place % self.spacing or self.place in self.snapshots:
            return
        nearest = max(place for place in self.snapshots if place < self.place)
        self.snapshots[self.place] = self.snapshot(self.snapshots[nearest].pages)
        if len(self.snapshots) > MOST_SNAPSHOTS:
            self.spacing *= 2
            self.snapshots = {place: kept for place, kept in self.snapshots.items() if place % self.spacing == 0}

    def restore(self, place: int):
        machine, kept = self.machine, self.snapshots[place]
        machine.threads = [Thread([*thread.registers], thread.pc) for thread in kept.threads]
        machine.pages.clear()
        machine.pages.update((number, bytearray(page)) for number, page in kept.pages.items())
        machine.kernel, machine.ended = kept.kernel, kept.ended
        machine.output[:] = self.output[:kept.written]
        machine.forget_rights()
        self.place = place

    # ---- Forwards

    def advance(self, most: int, breaks: collections.abc.Container[int]) -> Step | None:
        """Takes at most so many steps, up to the end of one thread's stretch, to where a snapshot is due, or behind a step that
        is not quick, which is answered."""
        thread, count = self.moments.stretch_at(self.place)
        try:
            done, step = self.machine.run(thread, min(most, count, self.spacing - self.place % self.spacing), breaks)
        except NoStep:
            self.length = self.place
            return None
        self.place += done
        self.keep()
        return step

    def forward(self, goal: int) -> Hit | None:
        """Runs to a place, or to the first hit behind this one."""
        while self.place < min(goal, self.length):
            step = self.advance(goal - self.place, self.breaks)
            watch = next((watch for watch in self.watches if step and watch.meets(step)), None)
            if watch:
                return Hit(self.place, step.thread, watch)
            thread = self.next_thread()
            if thread is not None and self.machine.threads[thread].pc in self.breaks:
                return Hit(self.place, thread)
        return None

    def go(self, goal: int):
        """To a place, whatever is hit."""
        start = max(place for place in self.snapshots if place <= goal)
        if goal < self.place or start > self.place:
            self.restore(start)
        while self.place < min(goal, self.length):
            self.advance(goal - self.place, ())

    # ---- Backwards

    def hits(self, start: int, end: int) -> collections.abc.Iterator[Hit]:
        """What is hit backwards: breakpoints from a place on, and steps from there on that access what is watched."""
        self.go(start)
        thread = self.next_thread()
        if start < end and thread is not None and self.machine.threads[thread].pc in self.breaks:
            yield Hit(start, thread)
        while self.place < min(end, self.length):
            hit = self.forward(end)
            if hit and hit.watch:
                yield Hit(hit.place - 1, hit.thread, hit.watch)
            thread = self.next_thread()
            if self.place < end and thread is not None and self.machine.threads[thread].pc in self.breaks:
                yield Hit(self.place, thread)

    def backward(self, goal: int) -> Hit | None:
        """Back to a place, or to the last hit between it and this one."""
        end = self.place
        for start in self.windows(goal, end):
            last = max(self.hits(start, end), key=lambda hit: hit.place, default=None)
            if last:
                self.go(last.place)
                return last
            end = start
        self.go(goal)
        return None

    def windows(self, goal: int, end: int) -> list[int]:
        """Where to begin looking, the latest first: at snapshots behind the goal, and at the goal."""
        starts = sorted(place for place in self.snapshots if goal < place < end)
        return [*reversed(starts), goal] if goal < end else []

    # ---- Threads

    def next_thread(self) -> int | None:
        """That takes the next step; None at the end."""
        return self.moments.stretch_at(self.place)[0] if self.place < self.length else None

    def behind(self, thread: int) -> int:
        """The place behind a thread's next step, or the end."""
        place = self.place
        while place < self.length:
            other, count = self.moments.stretch_at(place)
            if other == thread:
                return place + 1
            place += count
        return self.length
