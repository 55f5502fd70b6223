"""The machine of docs/GUESTS.md with all its threads and without replicas: it takes the steps of a plan one by one, and says of
each which bytes it accesses and what it means for the order of steps."""
import collections.abc
import dataclasses
import enum
import typing

from fuzzing import readers
from fuzzing.machine import ECALL, RETURN, STACKS, STACK_SIZE, STACK_STEP, Ended, Machine
from kernel import HEAP_SIZE, LR, SC, THREADS, WORD, Atomic, Blocked, Call, Effect, Ends, Parked, Range, Served, moved

NONE = range(0)  # no bytes
SYSTEM_CALLS = {63: "read", 64: "write", 93: "exit", 94: "exit", 214: "brk", 222: "mmap"}


class Relation(enum.Enum):
    """What a step means for the order; `subject` of a step says of which mutex, thread or word."""
    NOTHING = "nothing"
    UNLOCKS = "unlocks"
    LOCKS = "locks"
    MAKES = "makes"
    JOINS = "joins"
    EXITS = "exits"
    READS_WORD = "reads word"  # an LR
    WRITES_WORD = "writes word"  # an AMO, or an SC that succeeds


@dataclasses.dataclass
class Thread:
    registers: list[int]
    pc: int


class Access(typing.NamedTuple):
    """How a step accesses bytes."""
    stretch: range
    writes: bool
    is_atomic: bool = False

    def conflicts(self, other: "Access", byte: int) -> bool:
        both = byte in self.stretch and byte in other.stretch
        return both and (self.writes or other.writes) and not (self.is_atomic and other.is_atomic)


@dataclasses.dataclass
class Step:
    thread: int
    pc: int
    held: tuple[int, ...]  # the mutexes that its thread holds before it
    word: int | None = None  # the instruction, where one was read
    call: str = ""  # the call's name, where it is one
    caller: int = 0  # of a call of a POSIX function, the instruction in front of the place where it comes back
    code: range = NONE  # the bytes that were read as an instruction
    loaded: range = NONE  # the bytes that it loads, or writes to the output
    stored: range = NONE  # the bytes that it stores, or that are given to the program
    loaded_atomically: range = NONE
    stored_atomically: range = NONE
    relation: Relation = Relation.NOTHING
    subject: int = 0

    def accesses(self) -> list[Access]:
        return [Access(self.code, False), Access(self.loaded, False), Access(self.stored, True),
                Access(self.loaded_atomically, False, True), Access(self.stored_atomically, True, True)]

    def reads(self, byte: int) -> bool:
        return any(byte in access.stretch for access in self.accesses() if not access.writes)

    def writes(self, byte: int) -> bool:
        return any(byte in access.stretch for access in self.accesses() if access.writes)

    def conflicts(self, other: "Step", byte: int) -> bool:
        """Whether both access the byte, one of them to write it, and not both by atomic accesses."""
        return any(one.conflicts(its, byte) for one in self.accesses() for its in other.accesses())


def made_registers(creator: list[int], number: int, argument: int) -> list[int]:
    """The registers with which a made thread begins."""
    registers = [0] * 32
    registers[1:5] = RETURN, STACKS + number * STACK_STEP + STACK_SIZE - 16, creator[3], number
    registers[10] = argument
    return registers


class Refused(Exception):
    """The executable isn't accepted, or the journal isn't one: the answer's words."""


class NoStep(Exception):
    """The thread has no step: it isn't there, is over, or waits; or the program has ended."""


class Replay(Machine):
    """The machine, as far as it has come. `ended` are the answer's words, once the program has ended by itself."""

    def __init__(self, file: bytes, data: bytes):
        code, functions = readers.executable_of(file)
        if code is not None:
            raise Refused(f"exe {code}")
        super().__init__(file, functions, data, watchdog=0, limit=0)
        self.threads = [Thread(self.registers, self.pc)]
        self.ended: str | None = None
        self.now = Step(0, self.pc, ())

    def vote(self, served):
        """Without replicas nothing is compared."""

    # ---- What lies where

    def stack_of(self, address: int) -> int | None:
        """The thread whose stack it is."""
        thread, offset = divmod(address - STACKS, STACK_STEP)
        return thread if 0 <= thread < THREADS and offset < STACK_SIZE else None

    def is_heap(self, address: int) -> bool:
        return self.heap <= address < self.heap + HEAP_SIZE

    def given_at(self, address: int) -> Range | None:
        """The range of mapped memory that it lies in."""
        return next((given for given in self.kernel.given if given.start <= address < given.end), None)

    def held_by(self, thread: int) -> tuple[int, ...]:
        return tuple(sorted(mutex for mutex, owner in self.kernel.owners.items() if owner == thread))

    # ---- Steps

    def has_step(self, thread: int) -> bool:
        """Whether the thread could go on; a call of it that waits is found only by `take`."""
        return self.ended is None and self.kernel.lives_on(thread)

    def take(self, number: int) -> Step:
        """Takes a step of a thread."""
        if not self.has_step(number):
            raise NoStep
        thread = self.threads[number]
        self.now = Step(number, thread.pc, self.held_by(number))
        try:
            self.advance(thread)
        except Ended as end:
            self.ended = str(end)
        return self.now

    def advance(self, thread: Thread):
        pc, x = thread.pc, thread.registers
        name, word = self.fetched(pc)
        if name:
            self.now.call, self.now.caller = name.decode(), x[1] - 4 & WORD
            self.serve(thread, Call(name.decode(), *x[10:14]))
            return
        self.now.word, self.now.code = word, range(pc, pc + 4)
        if word == ECALL:
            self.now.call = SYSTEM_CALLS.get(x[17], f"system call {x[17]}")
            self.serve(thread, Call(x[17], *x[10:14]))
            return
        atomic = self.atomic_in(word, x)
        if atomic:
            self.serve_atomic(thread, atomic)
            return
        self.carry_out(thread, word)

    # ---- Accesses

    def loaded(self, address, size, is_signed):
        value = super().loaded(address, size, is_signed)
        self.now.loaded = range(address, address + size)
        return value

    def store(self, address, size, value):
        super().store(address, size, value)
        self.now.stored = range(address, address + size)

    def serve_atomic(self, thread: Thread, atomic: Atomic):
        """An atomic instruction of a thread."""
        served = self.kernel.serve_atomic(self.now.thread, atomic, self.word_at(atomic.address))
        self.kernel, stores = served.kernel, bool(served.effect.data)
        touched = range(atomic.address, atomic.address + 4)
        loaded, stored = NONE if atomic.kind == SC and stores else touched, touched if stores else NONE
        if atomic.address == thread.pc:  # its own word, which was read before: plain accesses, and no order
            self.now.loaded, self.now.stored = loaded, stored
        else:
            self.now.loaded_atomically, self.now.stored_atomically = loaded, stored
            if stores or atomic.kind == LR:
                self.now.relation, self.now.subject = Relation.WRITES_WORD if stores else Relation.READS_WORD, atomic.address
        self.fill(served.effect.place, served.effect.data)
        served.effect.move(thread)

    # ---- Calls

    def serve(self, thread: Thread, call: Call):
        """A call of a thread: what the kernel says of it, and what that changes."""
        served = self.kernel.serve(self.now.thread, call)
        if isinstance(served, Blocked):
            raise NoStep
        self.now.relation, self.now.subject = meaning(call, served)
        self.kernel = served.kernel
        if isinstance(served, Ends):
            raise Ended(f"exit {served.status}")
        if not isinstance(served, Parked):
            self.apply(thread, call, served.effect)

    def apply(self, thread: Thread, call: Call, effect: Effect):
        if self.kernel.is_good_write(call):
            self.now.loaded = range(call.a1, call.a1 + moved(call))
            self.output += self.bytes_at(call.a1, moved(call))
        if effect.data:
            self.now.stored = range(effect.place, effect.place + len(effect.data))
            self.fill(effect.place, effect.data)
        if effect.range:
            self.now.stored = range(effect.range.start, effect.range.end)
        if effect.made:
            self.threads.append(Thread(made_registers(thread.registers, len(self.threads), effect.made.argument),
                                       effect.made.start))
        effect.move(thread)


def meaning(call: Call, served: Served) -> tuple[Relation, int]:
    """What a call means for the order, by what came of it."""
    if call.which == "pthread_exit":
        return Relation.EXITS, 0
    if isinstance(served, Parked):
        return Relation.UNLOCKS, call.a1
    if isinstance(served, Ends) or served.effect.answer != 0:
        return Relation.NOTHING, 0
    if call.which == "pthread_create":
        return Relation.MAKES, len(served.kernel.lives) - 1
    return {"pthread_join": (Relation.JOINS, call.a0), "pthread_mutex_unlock": (Relation.UNLOCKS, call.a0),
            "pthread_mutex_lock": (Relation.LOCKS, call.a0), "pthread_mutex_trylock": (Relation.LOCKS, call.a0),
            "pthread_cond_wait": (Relation.LOCKS, call.a1)}.get(call.which, (Relation.NOTHING, 0))


# ---- Plans

Plan = list[tuple[int, int]]  # a thread, and how many steps of it follow each other


def is_of_files(journal: bytes, executable: bytes, data: bytes):
    """Refused where the journal is a record of another executable or input."""
    other = readers.other_of(journal, executable, data)
    if other:
        raise Refused(f"other {other}")


def plan_of(journal: bytes) -> Plan:
    """The steps that a journal names."""
    entries, bad = readers.journal_of(journal)
    if bad:
        raise Refused(f"plan {bad[0]} {bad[1]}")
    return list(readers.plan_of(entries, readers.is_coop(journal)))


def steps_of(machine: Replay, plan: Plan) -> collections.abc.Iterator[Step]:
    """The plan's steps as they are taken; NoStep at the first that does not exist."""
    for thread, count in plan:
        for _ in range(count):
            yield machine.take(thread)
