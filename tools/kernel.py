"""What comes of a call of a program, or of an atomic instruction, after docs/GUESTS.md and crates/ro_kernel/specs; for all machines
and judges in Python. It changes no memory and no thread; what is to be changed there is an effect
(crates/ro_event/specs/Effects.antt)."""
import collections.abc
import dataclasses
import enum
import itertools
import typing

WORD = 0xFFFFFFFF
PAGE, HEAP_SIZE, THREADS, MOST_MUTEXES, MOST_BYTES = 4096, 1 << 20, 16, 256, 4096
MAPPED, MAPPED_END = 0x50000000, 0x51000000  # where the memory begins that is given on demand, and its end
READ, WRITE, EXECUTE = 4, 2, 1
PRIVATE_ANONYMOUS = 0x22  # the only flags of mmap
PROTECTIONS = {1: READ, 3: READ | WRITE}  # of mmap
EPERM, ESRCH, EBADF, EAGAIN, ENOMEM, EFAULT, EBUSY, EINVAL, EDEADLK, ENOSYS = 1, 3, 9, 11, 12, 14, 16, 22, 35, 38


def low_bytes(value: int, size: int) -> bytes:
    """So many bytes of a number, the lowest first."""
    return (value & (1 << 8 * size) - 1).to_bytes(size, "little")


def signed(value: int) -> int:
    """A word as a number with a sign."""
    return value - (1 << 32) if value >> 31 else value


class Range(typing.NamedTuple):
    """Addresses, and of READ, WRITE and EXECUTE what their bytes may be."""
    start: int
    end: int
    kinds: int


class Place(typing.Protocol):
    """What the kernel looks at of the machine that calls; it never changes."""
    ranges: list[Range]  # that are permitted from the start
    heap: int  # where it begins
    input: bytes


class Life(enum.Enum):
    LIVE = "live"
    EXITED = "exited"
    JOINED = "joined"


@dataclasses.dataclass(frozen=True)
class Call:
    """Its function's name, or the number of a system call; and the registers a0 to a3."""
    which: str | int
    a0: int
    a1: int
    a2: int
    a3: int


# ---- Atomic instructions

ATOMIC, OF_A_WORD = 0x2F, 2  # their opcode, and their funct3
LR, SC = 2, 3  # by the bits 31 to 27 of their words, as all of them are

# What an AMO makes of the word in memory and its operand.
AMOS = {0: lambda word, operand: word + operand, 1: lambda word, operand: operand, 4: lambda word, operand: word ^ operand,
        8: lambda word, operand: word | operand, 12: lambda word, operand: word & operand,
        16: lambda word, operand: min(word, operand, key=signed), 20: lambda word, operand: max(word, operand, key=signed),
        24: min, 28: max}


def atomic_kind(word: int) -> int | None:
    """Which atomic instruction a word is: LR, SC or one of AMOS; None where it is none."""
    kind, second = word >> 27, word >> 20 & 31
    is_one = kind in AMOS or kind == SC or kind == LR and second == 0
    return kind if word & 127 == ATOMIC and word >> 12 & 7 == OF_A_WORD and is_one else None


@dataclasses.dataclass(frozen=True)
class Atomic:
    """An atomic instruction at which a thread stops: its word, and the values of its registers rs1 and rs2."""
    word: int
    address: int
    operand: int

    @property
    def kind(self) -> int:
        return atomic_kind(self.word)

    @property
    def register(self) -> int:
        """That gets the answer."""
        return self.word >> 7 & 31

    def needs(self) -> int:
        """What has to be permitted of all bytes of the word."""
        return {LR: READ, SC: WRITE}.get(self.kind, READ | WRITE)

    def trap(self, kernel: "Kernel") -> int | None:
        """The cause of its trap, if it ends in one."""
        if self.address % 4:
            return 5 if self.kind == LR else 7
        if not kernel.permits_all(self.address, 4, self.needs()):
            return 6 if self.kind == LR else 8
        return None


def atomic_of(word: int, registers: list[int]) -> Atomic | None:
    """The atomic instruction that a word is."""
    if atomic_kind(word) is None:
        return None
    return Atomic(word, registers[word >> 15 & 31], registers[word >> 20 & 31])


@dataclasses.dataclass(frozen=True)
class Reservation:
    """What an LR leaves: where it loaded, and what."""
    address: int
    word: int


# ---- Effects

class Goes(enum.Enum):
    """Where a thread goes on."""
    STAYS = "stays"
    NEXT = "next"  # behind the instruction
    RETURNS = "returns"  # at ra


@dataclasses.dataclass
class Made:
    """A thread that is made."""
    start: int
    argument: int
    creator: int


@dataclasses.dataclass
class Effect:
    """What a call or an atomic instruction that is served changes, alike in every replica."""
    thread: int
    answer: int | None = None
    goes: Goes = Goes.STAYS
    place: int = 0  # where the bytes are stored; their pages are backed
    data: bytes = b""
    page: int | None = None  # a page to back
    made: Made | None = None
    range: Range | None = None  # that is permitted from now on
    releases: bool = False  # whether the thread's stop goes
    register: int = 10  # that gets the answer

    def move(self, thread):
        """The registers and the pc of its thread behind it."""
        thread.pc = {Goes.STAYS: thread.pc, Goes.NEXT: thread.pc + 4 & WORD, Goes.RETURNS: thread.registers[1]}[self.goes]
        if self.answer is not None and self.register != 0:
            thread.registers[self.register] = self.answer


@dataclasses.dataclass
class Done:
    """The call is served."""
    kernel: "Kernel"
    effect: Effect


class Blocked:
    """The call waits, and nothing changes."""


@dataclasses.dataclass
class Parked:
    """The kernel changes, and the call waits."""
    kernel: "Kernel"


@dataclasses.dataclass
class Ends:
    """The program ends with this status."""
    kernel: "Kernel"
    status: int


Served = Done | Blocked | Parked | Ends


@dataclasses.dataclass(frozen=True)
class Waiter:
    """A thread that waits for a condition variable. Its mutex stands in its call."""
    thread: int
    condition: int
    signalled: bool = False


def moved(call: Call) -> int:
    """How many bytes a read or a write moves."""
    return min(call.a2, MOST_BYTES)


@dataclasses.dataclass
class Kernel:
    machine: Place
    lives: list[Life]  # one for each thread that was made
    values: dict[int, int]  # by thread, what it exited with
    owners: dict[int, int | None]  # of each mutex that was ever initialised or locked
    broken: int  # the program's break
    taken: int = 0  # how much of the input was read
    waiters: tuple[Waiter, ...] = ()  # in the order in which they began to wait
    given: tuple[Range, ...] = ()  # the ranges that were given to the program, the newest first
    reservations: dict[int, Reservation] = dataclasses.field(default_factory=dict)  # by thread

    def __deepcopy__(self, memo) -> "Kernel":
        """It never changes."""
        return self

    def ranges(self) -> collections.abc.Iterator[Range]:
        """All that are permitted: those from the start, and those that were given since."""
        return itertools.chain(self.machine.ranges, self.given)

    def permits(self, address: int, size: int, kind: int) -> bool:
        """Whether each of the bytes may be read, written or executed."""
        end = address + size
        while address < end:
            reached = next((stop for start, stop, kinds in self.ranges() if kinds & kind and start <= address < stop), None)
            if reached is None:
                return False
            address = reached
        return True

    def permits_all(self, address: int, size: int, kinds: int) -> bool:
        """Whether each of the bytes may be all of this."""
        return all(self.permits(address, size, kind) for kind in (READ, WRITE, EXECUTE) if kinds & kind)

    def is_writable(self, page: int) -> bool:
        """Whether some byte of a page may be written."""
        return any(kinds & WRITE and start < PAGE * (page + 1) and PAGE * page < end for start, end, kinds in self.ranges())

    def has_room(self, address: int) -> bool:
        """Whether a word can be stored there."""
        return address % 4 == 0 and self.permits(address, 4, WRITE)

    def is_good_write(self, call: Call) -> bool:
        """Whether it is a write that passes its checks."""
        return call.which == 64 and call.a0 in (1, 2) and moved(call) > 0 and self.permits(call.a1, moved(call), READ)

    def given_end(self) -> int:
        """Where the next range begins."""
        return self.given[0].end if self.given else MAPPED

    def lives_on(self, thread: int) -> bool:
        return thread < len(self.lives) and self.lives[thread] is Life.LIVE

    def waiter(self, thread: int) -> Waiter | None:
        """The thread as one that waits for a condition variable."""
        return next((waiter for waiter in self.waiters if waiter.thread == thread), None)

    def serves(self, thread: int, call: Call) -> bool:
        """Whether all of the call would be done now."""
        return isinstance(self.serve(thread, call), Done | Ends)

    def serve(self, thread: int, call: Call) -> Served:
        """What comes of a thread's call. The kernel itself stays as it is; a new one is answered, in which a call that doesn't
        block has ended the thread's reservation."""
        served = self.served(thread, call)
        if not isinstance(served, Blocked):
            served.kernel = served.kernel.without_reservation(thread)
        return served

    def without_reservation(self, thread: int) -> "Kernel":
        kept = {other: theirs for other, theirs in self.reservations.items() if other != thread}
        return dataclasses.replace(self, reservations=kept)

    def served(self, thread: int, call: Call) -> Served:
        """The same but for the reservation."""
        calling = Calling(self, thread, call)
        if isinstance(call.which, int):
            return calling.system()
        if call.which.startswith("pthread_mutex_"):
            return calling.on_mutex(call.which.removeprefix("pthread_mutex_"))
        if call.which.startswith("pthread_cond_"):
            return calling.on_condition(call.which.removeprefix("pthread_cond_"))
        return {"pthread_create": calling.create, "pthread_join": calling.join, "pthread_exit": calling.exit,
                "pthread_self": lambda: calling.answers(thread)}[call.which]()

    def serve_atomic(self, thread: int, atomic: Atomic, word: int) -> Done:
        """What comes of a thread's atomic instruction, where this word stands at its address. Its page is backed in any case."""
        reservation = Reservation(atomic.address, word)
        answer, stored = self.outcome(atomic, word, self.reservations.get(thread) == reservation)
        kept = {other: theirs for other, theirs in self.reservations.items()
                if other != thread and (stored is None or theirs.address != atomic.address)}
        if atomic.kind == LR:
            kept[thread] = reservation
        data = b"" if stored is None else low_bytes(stored, 4)
        effect = Effect(thread, answer, Goes.NEXT, atomic.address, data, atomic.address // PAGE, releases=True,
                        register=atomic.register)
        return Done(dataclasses.replace(self, reservations=kept), effect)

    def outcome(self, atomic: Atomic, word: int, is_reserved: bool) -> tuple[int, int | None]:
        """The answer, and what is stored, if anything is."""
        if atomic.kind == LR:
            return word, None
        if atomic.kind == SC:
            return (0, atomic.operand) if is_reserved else (1, None)
        return word, AMOS[atomic.kind](word, atomic.operand)


def opening_kernel(machine: Place) -> Kernel:
    return Kernel(machine, [Life.LIVE], {}, {}, machine.heap)


@dataclasses.dataclass
class Calling:
    """A call of a thread, and the kernel that it meets."""
    kernel: Kernel
    thread: int
    call: Call

    def answers(self, value: int, place: int = 0, data: bytes = b"", made: Made | None = None, gives: Range | None = None,
                **changes) -> Done:
        """It is served with this answer; of the kernel these fields change. A system call goes on behind it, a function at ra."""
        goes = Goes.NEXT if isinstance(self.call.which, int) else Goes.RETURNS
        effect = Effect(self.thread, value & WORD, goes, place, data, None, made, gives, releases=True)
        return Done(dataclasses.replace(self.kernel, **changes), effect)

    def with_life(self, thread: int, life: Life) -> list[Life]:
        return [life if number == thread else other for number, other in enumerate(self.kernel.lives)]

    # ---- System calls

    def system(self) -> Served:
        if self.call.which == 63:
            return self.read()
        if self.call.which == 64:
            return self.write()
        if self.call.which in (93, 94):
            return Ends(self.kernel, self.call.a0 % 256)
        if self.call.which == 214:
            return self.brk()
        if self.call.which == 222:
            return self.mmap()
        return self.answers(-ENOSYS)

    def read(self) -> Served:
        call, kernel, size = self.call, self.kernel, moved(self.call)
        if call.a0 != 0:
            return self.answers(-EBADF)
        if size == 0:
            return self.answers(0)
        if not kernel.permits(call.a1, size, WRITE):
            return self.answers(-EFAULT)
        got = kernel.machine.input[kernel.taken:kernel.taken + size]
        return self.answers(len(got), call.a1, got, taken=kernel.taken + len(got))

    def write(self) -> Served:
        if self.call.a0 not in (1, 2):
            return self.answers(-EBADF)
        if moved(self.call) > 0 and not self.kernel.is_good_write(self.call):
            return self.answers(-EFAULT)
        return self.answers(moved(self.call))

    def brk(self) -> Served:
        wish, heap = self.call.a0, self.kernel.machine.heap
        if heap <= wish <= heap + HEAP_SIZE:
            return self.answers(wish, broken=wish)
        return self.answers(self.kernel.broken)

    def mmap(self) -> Served:
        """The next pages of the memory that is given on demand. The address that is wished for isn't looked at."""
        call, kernel, start = self.call, self.kernel, self.kernel.given_end()
        if call.a3 != PRIVATE_ANONYMOUS or call.a2 not in PROTECTIONS or call.a1 == 0:
            return self.answers(-EINVAL)
        end = start + -(-call.a1 // PAGE) * PAGE
        if end > MAPPED_END:
            return self.answers(-ENOMEM)
        gives = Range(start, end, PROTECTIONS[call.a2])
        return self.answers(start, gives=gives, given=(gives, *kernel.given))

    # ---- Threads

    def create(self) -> Served:
        call, kernel = self.call, self.kernel
        if call.a1 != 0 or call.a2 % 4 != 0:
            return self.answers(EINVAL)
        if not kernel.has_room(call.a0):
            return self.answers(EFAULT)
        number = len(kernel.lives)
        if number >= THREADS:
            return self.answers(EAGAIN)
        return self.answers(0, call.a0, low_bytes(number, 4), Made(call.a2, call.a3, self.thread),
                            lives=[*kernel.lives, Life.LIVE])

    def join(self) -> Served:
        other, place = self.call.a0, self.call.a1
        if other >= len(self.kernel.lives):
            return self.answers(ESRCH)
        if other == self.thread:
            return self.answers(EDEADLK)
        life = self.kernel.lives[other]
        if life is Life.JOINED:
            return self.answers(ESRCH)
        if place != 0 and not self.kernel.has_room(place):
            return self.answers(EFAULT)
        if life is Life.LIVE:
            return Blocked()
        data = low_bytes(self.kernel.values[other], 4) if place != 0 else b""
        return self.answers(0, place, data, lives=self.with_life(other, Life.JOINED))

    def exit(self) -> Served:
        """The program ends with the last live thread."""
        after = dataclasses.replace(self.kernel, lives=self.with_life(self.thread, Life.EXITED),
                                    values=self.kernel.values | {self.thread: self.call.a0})
        if Life.LIVE in after.lives:
            return Done(after, Effect(self.thread, releases=True))
        return Ends(after, 0)

    # ---- Mutexes

    def on_mutex(self, what: str) -> Served:
        """A mutex is its address; its word must be one that can be stored."""
        mutex, owners = self.call.a0, self.kernel.owners
        if not self.kernel.has_room(mutex):
            return self.answers(EFAULT)
        if what == "destroy" or what == "init" and mutex in owners:
            return self.answers(0)
        owner = owners.get(mutex)
        if what == "unlock":
            return self.answers(0, owners=owners | {mutex: None}) if owner == self.thread else self.answers(EPERM)
        if owner is not None:
            if what == "trylock":
                return self.answers(EBUSY)
            return self.answers(EDEADLK) if owner == self.thread else Blocked()
        if mutex not in owners and len(owners) >= MOST_MUTEXES:
            return self.answers(EAGAIN)
        return self.answers(0, owners=owners | {mutex: None if what == "init" else self.thread})

    # ---- Condition variables

    def on_condition(self, what: str) -> Served:
        """A condition variable is its address, too."""
        if not self.kernel.has_room(self.call.a0):
            return self.answers(EFAULT)
        if what == "wait":
            return self.wait()
        if what in ("init", "destroy"):
            return self.answers(0)
        waiters = self.kernel.waiters
        waiting = [waiter for waiter in waiters if waiter.condition == self.call.a0 and not waiter.signalled]
        woken = waiting[:1] if what == "signal" else waiting
        return self.answers(0, waiters=tuple(
            dataclasses.replace(waiter, signalled=True) if waiter in woken else waiter for waiter in waiters))

    def wait(self) -> Served:
        """Two steps: the mutex becomes free and the thread waits; later, signalled, it takes the mutex."""
        kernel, condition, mutex, waiter = self.kernel, self.call.a0, self.call.a1, self.kernel.waiter(self.thread)
        if not kernel.has_room(mutex):
            return self.answers(EFAULT)
        owner = kernel.owners.get(mutex)
        if waiter is None:
            if owner != self.thread:
                return self.answers(EPERM)
            return Parked(dataclasses.replace(kernel, owners=kernel.owners | {mutex: None},
                                              waiters=(*kernel.waiters, Waiter(self.thread, condition))))
        if not waiter.signalled or owner is not None:
            return Blocked()
        return self.answers(0, owners=kernel.owners | {mutex: self.thread},
                            waiters=tuple(other for other in kernel.waiters if other != waiter))
