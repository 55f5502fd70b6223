"""The machine of docs/GUESTS.md for programs with one thread, written after that page: what a program writes, how it ends and
after how many votes and steps."""
from fuzzing import readers
from kernel import (EXECUTE, HEAP_SIZE, PAGE, READ, THREADS, WORD, WRITE, Atomic, Call, Done, Ends, Range, atomic_of, low_bytes,
                    moved, opening_kernel, signed)

STACKS, STACK_SIZE, STACK_STEP = 0x70000000, 0x10000, 0x20000
RETURN = 0x7FFFFFF0
ECALL, EBREAK = 0x00000073, 0x00100073


class Ended(Exception):
    """The program has ended, with this answer."""


class Several(Exception):
    """A second thread would be made."""


def extended(value, bits):
    """A field's value with its sign."""
    return (value ^ 1 << bits - 1) - (1 << bits - 1)


def quotient(a, b):
    return abs(a) // abs(b) * (1 if (a < 0) == (b < 0) else -1)


def divided(a, b):
    return WORD if b == 0 else quotient(signed(a), signed(b))


def remains(a, b):
    return a if b == 0 else signed(a) - quotient(signed(a), signed(b)) * signed(b)


# By funct7 and funct3: of two registers.
OPERATIONS = {
    (0, 0): lambda a, b: a + b, (32, 0): lambda a, b: a - b, (0, 1): lambda a, b: a << (b & 31),
    (0, 2): lambda a, b: signed(a) < signed(b), (0, 3): lambda a, b: a < b, (0, 4): lambda a, b: a ^ b,
    (0, 5): lambda a, b: a >> (b & 31), (32, 5): lambda a, b: signed(a) >> (b & 31), (0, 6): lambda a, b: a | b,
    (0, 7): lambda a, b: a & b,
    (1, 0): lambda a, b: a * b, (1, 1): lambda a, b: signed(a) * signed(b) >> 32, (1, 2): lambda a, b: signed(a) * b >> 32,
    (1, 3): lambda a, b: a * b >> 32, (1, 4): divided, (1, 5): lambda a, b: a // b if b else WORD, (1, 6): remains,
    (1, 7): lambda a, b: a % b if b else a,
}
BRANCHES = {0: lambda a, b: a == b, 1: lambda a, b: a != b, 4: lambda a, b: signed(a) < signed(b),
            5: lambda a, b: signed(a) >= signed(b), 6: lambda a, b: a < b, 7: lambda a, b: a >= b}


class Machine:
    def __init__(self, file, functions, data, watchdog, limit):
        self.registers, self.pc = [0] * 32, readers.word(file, 24)
        self.calls = {address: name for name, address in functions.items()}
        self.input, self.output = data, bytearray()
        self.pages, self.ranges = {}, []
        self.watchdog, self.limit = watchdog, limit
        self.since, self.steps, self.votes = 0, 0, 0
        self.load(file)
        self.kernel = opening_kernel(self)
        self.registers[2] = STACKS + STACK_SIZE - 16

    def load(self, file):
        top = 0
        for segment in readers.program_headers(file):
            if segment.kind == 1 and segment.size:
                self.ranges.append(Range(segment.address, segment.end, segment.flags))
                top = max(top, segment.end)
                self.fill(segment.address, file[segment.offset:segment.offset + segment.file_size])
        self.heap = -(-top // PAGE) * PAGE
        self.ranges.append(Range(self.heap, self.heap + HEAP_SIZE, READ | WRITE))
        stacks = range(STACKS, STACKS + STACK_STEP * THREADS, STACK_STEP)
        self.ranges += [Range(start, start + STACK_SIZE, READ | WRITE) for start in stacks]

    # ---- Memory

    def fill(self, address, data):
        """Stores bytes; their pages are there then."""
        for place, byte in enumerate(data, address):
            self.pages.setdefault(place // PAGE, bytearray(PAGE))[place % PAGE] = byte

    def back(self, page):
        """The page is there from now on."""
        self.pages.setdefault(page, bytearray(PAGE))

    def bytes_at(self, address, size):
        return bytes(self.pages[place // PAGE][place % PAGE] if place // PAGE in self.pages else 0
                     for place in range(address, address + size))

    def place(self, address):
        """The page of an address, and where it is in it. The first time it is needed its replicas stop there, for a vote."""
        while address // PAGE not in self.pages:
            self.vote(0)
            self.back(address // PAGE)
        return self.pages[address // PAGE], address % PAGE

    # ---- Votes

    def vote(self, served):
        """The replicas are compared; so many steps lie behind them since the vote before, and one more where it serves."""
        more = self.since + served
        if self.steps + more > self.limit:
            raise Ended(f"limit {self.steps} {more}")
        self.steps, self.since, self.votes = self.steps + more, 0, self.votes + 1

    def trap(self, cause):
        self.vote(1)
        raise Ended(f"trap {cause}")

    # ---- Calls

    def call(self, which):
        """A call of the one thread there is: the number of a system call, or a function's name."""
        self.vote(1)
        call = Call(which, *self.registers[10:14])
        served = self.kernel.serve(0, call)
        if isinstance(served, Ends):
            raise Ended(f"exit {served.status}")
        if not isinstance(served, Done):
            raise Ended("deadlock")
        if served.effect.made:
            raise Several
        self.kernel = served.kernel
        if self.kernel.is_good_write(call):
            self.output += self.bytes_at(call.a1, moved(call))
        self.fill(served.effect.place, served.effect.data)
        served.effect.move(self)

    # ---- Atomic instructions

    def atomic_in(self, word, registers) -> Atomic | None:
        """The atomic instruction that a word is, where it ends in no trap."""
        atomic = atomic_of(word, registers)
        cause = atomic.trap(self.kernel) if atomic else None
        if cause is not None:
            self.trap(cause)
        return atomic

    def word_at(self, address):
        return int.from_bytes(self.bytes_at(address, 4), "little")

    def atomic(self, atomic):
        """An atomic instruction of the one thread there is."""
        self.vote(1)
        served = self.kernel.serve_atomic(0, atomic, self.word_at(atomic.address))
        self.kernel = served.kernel
        self.back(served.effect.page)
        self.fill(served.effect.place, served.effect.data)
        served.effect.move(self)

    # ---- Steps

    def run(self):
        """How it ends, in the answer's words; None where it makes a second thread."""
        try:
            while True:
                if self.since == self.watchdog:
                    self.vote(0)
                self.step()
        except Ended as end:
            return str(end)
        except Several:
            return None

    def fetched(self, pc):
        """What is met at a place: the name of the function that is called there and None, or None and an instruction's word."""
        if pc % 4:
            self.trap(1)
        name = b"pthread_exit" if pc == RETURN else self.calls.get(pc)
        if name:
            return name, None
        if not self.kernel.permits(pc, 4, EXECUTE):
            self.trap(2)
        page, at = self.place(pc)
        return None, int.from_bytes(page[at:at + 4], "little")

    def step(self):
        pc, x = self.pc, self.registers
        name, word = self.fetched(pc)
        if name or word == ECALL:
            self.call(name.decode() if name else x[17])
            return
        atomic = self.atomic_in(word, x)
        if atomic:
            self.atomic(atomic)
            return
        self.carry_out(self, word)
        self.since += 1

    def carry_out(self, thread, word):
        """An instruction of what has registers and a pc: the machine itself, or one of its threads."""
        if word == EBREAK:
            self.trap(9)
        register, value, after = self.instruction(word, thread.pc, thread.registers) or self.trap(3)
        if register:
            thread.registers[register] = value & WORD
        thread.pc = after & WORD

    def instruction(self, word, pc, x):
        """The register that gets a value, the value, and the next pc; None where the word is no instruction."""
        opcode, rd, funct3, funct7 = word & 127, word >> 7 & 31, word >> 12 & 7, word >> 25
        a, b, after, immediate = x[word >> 15 & 31], x[word >> 20 & 31], pc + 4, extended(word >> 20, 12)
        if opcode == 0x37:
            return rd, word & 0xFFFFF000, after
        if opcode == 0x17:
            return rd, pc + (word & 0xFFFFF000), after
        if opcode == 0x6F:
            by = (word >> 31) << 20 | (word >> 12 & 0xFF) << 12 | (word >> 20 & 1) << 11 | (word >> 21 & 0x3FF) << 1
            return rd, after, self.target(pc + extended(by, 21))
        if opcode == 0x67 and funct3 == 0:
            return rd, after, self.target((a + immediate) & ~1)
        if opcode == 0x63 and funct3 in BRANCHES:
            by = (word >> 31) << 12 | (word >> 7 & 1) << 11 | (word >> 25 & 63) << 5 | (word >> 8 & 15) << 1
            return 0, 0, self.target(pc + extended(by, 13)) if BRANCHES[funct3](a, b) else after
        if opcode == 0x03 and funct3 in (0, 1, 2, 4, 5):
            return rd, self.loaded((a + immediate) & WORD, 1 << (funct3 & 3), funct3 < 4), after
        if opcode == 0x23 and funct3 < 3:
            self.store((a + extended(funct7 << 5 | rd, 12)) & WORD, 1 << funct3, b)
            return 0, 0, after
        if opcode == 0x13:
            shifts = funct3 in (1, 5)
            if shifts and (funct7 == 1 or (funct7, funct3) not in OPERATIONS):
                return None
            operation = OPERATIONS[funct7 if shifts else 0, funct3]
            return rd, int(operation(a, word >> 20 & 31 if shifts else immediate & WORD)), after
        if opcode == 0x33 and (funct7, funct3) in OPERATIONS:
            return rd, int(OPERATIONS[funct7, funct3](a, b)), after
        if opcode == 0x0F and funct3 == 0:
            return 0, 0, after
        return None

    def target(self, address):
        if address % 4:
            self.trap(4)
        return address

    def loaded(self, address, size, is_signed):
        if address % size:
            self.trap(5)
        if not self.kernel.permits(address, size, READ):
            self.trap(6)
        page, at = self.place(address)
        return int.from_bytes(page[at:at + size], "little", signed=is_signed)

    def storable(self, address, size):
        """The page of bytes that are stored, and where they are in it."""
        if address % size:
            self.trap(7)
        if not self.kernel.permits(address, size, WRITE):
            self.trap(8)
        return self.place(address)

    def store(self, address, size, value):
        page, at = self.storable(address, size)
        page[at:at + size] = low_bytes(value, size)
