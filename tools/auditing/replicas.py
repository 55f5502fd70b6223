"""A replica, after crates/ro_replica/specs and crates/ro_thread/specs: its own memory and backed pages, its threads, and the
faults that wait. What an instruction does is told by the machine that tools/fuzz.py has."""
import dataclasses

from auditing.jobs import Fault, Job
from fuzzing.machine import EBREAK, ECALL, Machine
from kernel import PAGE, WORD, Atomic, Call, Effect, Kernel, low_bytes, moved
from racing.machine import made_registers


@dataclasses.dataclass(frozen=True)
class Trap:
    cause: int


@dataclasses.dataclass(frozen=True)
class PageFault:
    page: int


@dataclasses.dataclass(frozen=True)
class Watchdog:
    pass


Stop = Call | Atomic | Trap | PageFault | Watchdog


class Stands(Exception):
    """The thread can do no instruction: it stands at a stop."""

    def __init__(self, stop: Stop):
        super().__init__(stop)
        self.stop = stop


@dataclasses.dataclass
class Change:
    """What an instruction changes."""
    register: int
    value: int
    pc: int
    place: int = 0
    data: bytes = b""


@dataclasses.dataclass
class Thread:
    registers: list[int]
    pc: int
    since: int = 0  # instructions since it was last released
    done: int = 0  # instructions in all
    stop: Stop | None = None


Lent = frozenset[int] | None  # the pages that a lease has of its replica; None: all of it
View = tuple[list[int], int, int, Stop, bytes]  # registers, pc, instructions since, stop, and the payload
Snapshot = tuple[dict[int, bytearray], list[tuple]]  # pages, and of each thread the same but the bytes


class Replica(Machine):
    def __init__(self, job: Job, number: int):
        super().__init__(job.file, job.functions, job.input, job.watchdog, job.limit)
        self.threads = [Thread(self.registers, self.pc)]
        self.waiting = [fault for fault in job.faults if fault.replica == number]
        self.struck: list[Fault] = []  # since it was last made a copy
        self.storing = 0, b""
        self.lent: Lent = None  # what the thread sees whose next instruction is looked at

    # ---- What a thread does next

    def next(self, thread: Thread, lent: Lent = None) -> Stop | Change:
        """The watchdog's stop, or what the thread does next, which sees what is lent alone. Nothing changes."""
        if thread.since == self.watchdog:
            return Watchdog()
        self.lent = lent
        try:
            return self.change(thread.pc, thread.registers)
        except Stands as stands:
            return stands.stop

    def change(self, pc: int, x: list[int]) -> Change:
        name, word = self.fetched(pc)
        if name:
            raise Stands(Call(name.decode(), *x[10:14]))
        if word == ECALL:
            raise Stands(Call(x[17], *x[10:14]))
        atomic = self.atomic_in(word, x)
        if atomic:
            raise Stands(atomic)
        if word == EBREAK:
            self.trap(9)
        self.storing = 0, b""
        register, value, after = self.instruction(word, pc, x) or self.trap(3)
        return Change(register, value & WORD, after & WORD, *self.storing)

    def trap(self, cause: int):
        raise Stands(Trap(cause))

    def place(self, address: int) -> tuple[bytearray, int]:
        page = address // PAGE
        if page not in self.pages or self.lent is not None and page not in self.lent:
            raise Stands(PageFault(page))
        return self.pages[page], address % PAGE

    def store(self, address: int, size: int, value: int):
        self.storable(address, size)
        self.storing = address, low_bytes(value, size)

    def wanted(self, number: int, lent: Lent) -> int | None:
        """The page that a thread wants: one that is backed, and at whose fault it stands with what is lent."""
        stop = self.next(self.threads[number], lent)
        return stop.page if isinstance(stop, PageFault) and stop.page in self.pages else None

    # ---- Runs

    def run(self, number: int, count: int, lent: Lent = None) -> int:
        """So many instructions of a thread, and the faults that are due before, between and after them: how many were struck."""
        struck = self.strike(number)
        for _ in range(count):
            self.execute(self.threads[number], lent)
            struck += self.strike(number)
        return struck

    def run_on(self, number: int, most: int, lent: Lent) -> tuple[int, int]:
        """At most so many instructions of a thread, up to where it stands: how many there were, and how many faults were struck."""
        count, struck = 0, self.strike(number)
        while count < most and isinstance(self.next(self.threads[number], lent), Change):
            count, struck = count + 1, struck + self.run(number, 1, lent)
        return count, struck

    def is_calm(self, number: int, count: int) -> bool:
        """No fault of a thread is due before, within or behind so many instructions."""
        done = self.threads[number].done
        return not any(fault.thread == number and done <= fault.moment <= done + count for fault in self.waiting)

    def execute(self, thread: Thread, lent: Lent):
        change = self.next(thread, lent)
        if not isinstance(change, Change):
            raise Stands(change)
        self.carry(thread, change)

    def carry(self, thread: Thread, change: Change):
        """Carries out what the thread does next."""
        self.fill(change.place, change.data)
        if change.register:
            thread.registers[change.register] = change.value
        thread.pc, thread.since, thread.done = change.pc, thread.since + 1, thread.done + 1

    def strike(self, number: int) -> int:
        """Strikes the faults of a thread whose moment has come, in the order of the list."""
        thread = self.threads[number]
        due = [fault for fault in self.waiting if fault.thread == number and fault.moment == thread.done]
        self.waiting = [fault for fault in self.waiting if fault not in due]
        for fault in due:
            self.flip(thread, fault)
        self.struck += due
        return len(due)

    def flip(self, thread: Thread, fault: Fault):
        if fault.kind == "reg":
            thread.registers[fault.number] ^= 1 << fault.bit
        elif fault.kind == "pc":
            thread.pc ^= 1 << fault.bit
        elif fault.number // PAGE in self.pages and self.is_mapped(fault.number):
            self.pages[fault.number // PAGE][fault.number % PAGE] ^= 1 << fault.bit

    def is_mapped(self, address: int) -> bool:
        """Whether it lies in a range, whatever that permits."""
        return any(start <= address < end for start, end, _ in self.kernel.ranges())

    # ---- Votes

    def payload(self, stop: Stop) -> bytes:
        """What is looked at in memory: the bytes that go out, or the word that an atomic instruction meets."""
        if isinstance(stop, Atomic):
            return self.bytes_at(stop.address, 4)
        if isinstance(stop, Call) and self.kernel.is_good_write(stop):
            return self.bytes_at(stop.a1, moved(stop))
        return b""

    def view(self, number: int) -> View:
        """All that a vote compares of a thread that stands still."""
        thread = self.threads[number]
        return thread.registers, thread.pc, thread.since, thread.stop, self.payload(thread.stop)

    def snapshot(self, kernel: Kernel) -> Snapshot:
        """All that a scrub compares: memory, of each thread its instructions since, and of each that lives the rest of it."""
        threads = [(thread.registers, thread.pc, thread.since, thread.stop) if kernel.lives_on(number) else (thread.since,)
                   for number, thread in enumerate(self.threads)]
        return self.pages, threads

    def become(self, winner: "Replica"):
        """A copy of the winner, but for what this replica has retired itself and its own faults."""
        self.struck = []
        self.pages = {page: bytearray(data) for page, data in winner.pages.items()}
        self.threads = [dataclasses.replace(theirs, registers=[*theirs.registers], done=own.done)
                        for theirs, own in zip(winner.threads, self.threads)]

    def apply(self, kernel: Kernel, effect: Effect):
        """What an event changes, with the kernel that it leaves; and page faults that are settled by it are forgotten."""
        self.kernel, thread = kernel, self.threads[effect.thread]
        effect.move(thread)
        thread.since = 0
        if effect.releases:
            thread.stop = None
        self.fill(effect.place, effect.data)
        if effect.page is not None:
            self.back(effect.page)
        if effect.made:
            creator = self.threads[effect.made.creator].registers
            registers = made_registers(creator, len(self.threads), effect.made.argument)
            self.threads.append(Thread(registers, effect.made.start))
        for other in self.threads:
            if isinstance(other.stop, PageFault) and other.stop.page in self.pages:
                other.stop = None
