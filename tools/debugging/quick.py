"""The machine of tools/racing/ for long runs. An instruction of computing, loading, storing or jumping is decoded once for each
word, into a function that carries it out; where that meets anything else, the machine takes the whole step."""
import collections.abc
import struct

from fuzzing.machine import BRANCHES, OPERATIONS, extended
from kernel import EXECUTE, PAGE, READ, WORD, WRITE
from racing.machine import Replay, Step

Instruction = collections.abc.Callable[[list[int], int], int | None]  # registers and pc; the next pc, or None where it did nothing
LOAD_FORMS = {0: "<b", 1: "<h", 2: "<I", 4: "<B", 5: "<H"}  # by funct3, as struct names them
STORE_FORMS = {0: "<B", 1: "<H", 2: "<I"}
WORDS = PAGE // 4


class QuickReplay(Replay):
    """`closed` are stretches of addresses with what is not done quickly there, of READ and WRITE."""

    def __init__(self, file: bytes, data: bytes):
        super().__init__(file, data)
        self.decoded: dict[int, Instruction | None] = {}  # by word
        self.rights: dict[int, bytes] = {}  # by page, of each word what may quickly be done with all four bytes of it
        self.closed: list[tuple[range, int]] = []

    def forget_rights(self):
        """Ranges or what is closed have changed."""
        self.rights.clear()

    def run(self, number: int, count: int, breaks: collections.abc.Container[int]) -> tuple[int, Step | None]:
        """Takes at most so many steps of a thread, and none at the addresses in `breaks` but the first. How many were taken;
        and the last one, where that was not a quick one: then it may be fewer than asked for."""
        thread = self.threads[number] if self.has_step(number) else None
        done = 0
        if thread is not None:
            done = self.run_quickly(thread, count, breaks)
        if done == count or done > 0 and thread.pc in breaks:
            return done, None
        given = self.kernel.given
        step = self.take(number)
        if self.kernel.given is not given:
            self.forget_rights()
        return done + 1, step

    def run_quickly(self, thread, count: int, breaks: collections.abc.Container[int]) -> int:
        registers, pc, pages, rights, decoded = thread.registers, thread.pc, self.pages, self.rights, self.decoded
        unpack, done = struct.Struct("<I").unpack_from, 0
        while done < count:
            number = pc >> 12
            allowed = rights.get(number) or self.learn_rights(number)
            if pc & 3 or number not in pages or not allowed[(pc & 4095) >> 2] & EXECUTE:
                break
            word = unpack(pages[number], pc & 4095)[0]
            instruction = decoded[word] if word in decoded else self.learn(word)
            after = instruction(registers, pc) if instruction else None
            if after is None:
                break
            pc, done = after, done + 1
            if pc in breaks:
                break
        thread.pc = pc
        return done

    # ---- What may be done quickly

    def learn_rights(self, number: int) -> bytes:
        """Of each word of a page what all of its bytes permit, but for what is closed; a function's address is not fetched from."""
        start = PAGE * number
        kinds = bytearray(PAGE)
        for low, high, permitted in self.kernel.ranges():
            for at in range(max(low, start), min(high, start + PAGE)):
                kinds[at - start] |= permitted
        allowed = bytearray(kinds[at] & kinds[at + 1] & kinds[at + 2] & kinds[at + 3] for at in range(0, PAGE, 4))
        for address in self.calls:
            if address // PAGE == number:
                allowed[address % PAGE // 4] &= ~EXECUTE
        for stretch, closed in self.closed:
            for place in range(max(stretch.start, start) // 4, -(-min(stretch.stop, start + PAGE) // 4)):
                allowed[place % WORDS] &= ~closed
        self.rights[number] = bytes(allowed)
        return self.rights[number]

    def range_end(self, address: int) -> int | None:
        """The end of a range that the address lies in, whatever it permits."""
        return next((end for start, end, _ in self.kernel.ranges() if start <= address < end), None)

    def opened(self, address: int, kind: int) -> bytearray | None:
        """The page of an address in whose word this may be done quickly."""
        number = address >> 12
        allowed = self.rights.get(number) or self.learn_rights(number)
        return self.pages.get(number) if allowed[(address & 4095) >> 2] & kind else None

    # ---- Instructions

    def learn(self, word: int) -> Instruction | None:
        self.decoded[word] = self.decode(word)
        return self.decoded[word]

    def decode(self, word: int) -> Instruction | None:
        opcode, funct3 = word & 127, word >> 12 & 7
        if opcode == 0x03 and funct3 in LOAD_FORMS:
            return self.decode_load(word, LOAD_FORMS[funct3])
        if opcode == 0x23 and funct3 in STORE_FORMS:
            return self.decode_store(word, STORE_FORMS[funct3])
        decoder = {0x13: computes_with_a_constant, 0x33: computes, 0x63: branches, 0x6F: jumps, 0x67: jumps_to_register, 0x37: puts,
                   0x17: puts_from_here}.get(opcode)
        return decoder(word) if decoder else None

    def decode_load(self, word: int, form: str) -> Instruction:
        rd, base, offset = word >> 7 & 31, word >> 15 & 31, extended(word >> 20, 12)
        unpack, misaligned, opened = struct.Struct(form).unpack_from, struct.calcsize(form) - 1, self.opened

        def loads(x, pc):
            address = x[base] + offset & WORD
            page = opened(address, READ)
            if page is None or address & misaligned:
                return None
            if rd:
                x[rd] = unpack(page, address & 4095)[0] & WORD
            return pc + 4 & WORD
        return loads

    def decode_store(self, word: int, form: str) -> Instruction:
        base, second, offset = word >> 15 & 31, word >> 20 & 31, extended(word >> 25 << 5 | word >> 7 & 31, 12)
        pack, size, opened = struct.Struct(form).pack_into, struct.calcsize(form), self.opened
        misaligned, kept = size - 1, (1 << 8 * size) - 1

        def stores(x, pc):
            address = x[base] + offset & WORD
            page = opened(address, WRITE)
            if page is None or address & misaligned:
                return None
            pack(page, address & 4095, x[second] & kept)
            return pc + 4 & WORD
        return stores


def computes(word: int) -> Instruction | None:
    rd, one, other = word >> 7 & 31, word >> 15 & 31, word >> 20 & 31
    operation = OPERATIONS.get((word >> 25, word >> 12 & 7))

    def does(x, pc):
        x[rd] = operation(x[one], x[other]) & WORD
        return pc + 4 & WORD
    return (does if rd else passes) if operation else None


def computes_with_a_constant(word: int) -> Instruction | None:
    rd, one, funct3, funct7 = word >> 7 & 31, word >> 15 & 31, word >> 12 & 7, word >> 25
    shifts = funct3 in (1, 5)
    if shifts and funct7 not in ((0,) if funct3 == 1 else (0, 32)):
        return None
    constant = word >> 20 & 31 if shifts else extended(word >> 20, 12) & WORD
    operation = OPERATIONS[funct7 if shifts else 0, funct3]

    def does(x, pc):
        x[rd] = operation(x[one], constant) & WORD
        return pc + 4 & WORD
    return does if rd else passes


def passes(x: list[int], pc: int) -> int:
    """Of an instruction that would write register 0."""
    return pc + 4 & WORD


def branches(word: int) -> Instruction | None:
    one, other, condition = word >> 15 & 31, word >> 20 & 31, BRANCHES.get(word >> 12 & 7)
    by = extended((word >> 31) << 12 | (word >> 7 & 1) << 11 | (word >> 25 & 63) << 5 | (word >> 8 & 15) << 1, 13)

    def does(x, pc):
        return pc + by & WORD if condition(x[one], x[other]) else pc + 4 & WORD
    return does if condition and by % 4 == 0 else None


def jumps(word: int) -> Instruction | None:
    rd = word >> 7 & 31
    by = extended((word >> 31) << 20 | (word >> 12 & 0xFF) << 12 | (word >> 20 & 1) << 11 | (word >> 21 & 0x3FF) << 1, 21)

    def does(x, pc):
        if rd:
            x[rd] = pc + 4 & WORD
        return pc + by & WORD
    return does if by % 4 == 0 else None


def jumps_to_register(word: int) -> Instruction | None:
    rd, base, offset = word >> 7 & 31, word >> 15 & 31, extended(word >> 20, 12)

    def does(x, pc):
        target = x[base] + offset & WORD & ~1
        if target & 3:
            return None
        if rd:
            x[rd] = pc + 4 & WORD
        return target
    return does if word >> 12 & 7 == 0 else None


def puts(word: int) -> Instruction:
    rd, value = word >> 7 & 31, word & 0xFFFFF000

    def does(x, pc):
        x[rd] = value
        return pc + 4 & WORD
    return does if rd else passes


def puts_from_here(word: int) -> Instruction:
    rd, value = word >> 7 & 31, word & 0xFFFFF000

    def does(x, pc):
        x[rd] = pc + value & WORD
        return pc + 4 & WORD
    return does if rd else passes
