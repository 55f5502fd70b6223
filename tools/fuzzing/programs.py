"""Drawn programs: each register gets a value, drawn instructions follow, all registers are written out."""
import struct

from kernel import AMOS, ATOMIC, LR, MAPPED, OF_A_WORD, SC

BASE, HEADERS, PAGE = 0x10000, 52 + 32, 4096
POINTER = 31  # the register with an address of the heap, which no drawn instruction changes
STACK_END = 0x70010000  # of thread 0
PLACE, TARGET = 30, 29  # the registers with the address of atomic instructions, which nothing else changes, and of jumps
OPERANDS = [0, 1, 2, 31, 32, 0x7FF, 0x800, 0xFFFF, 0x10000, 0x7FFFFFFF, 0x80000000, 0x80000001, 0xFFFF8000, 0xFFFFFFFE,
            0xFFFFFFFF]
# funct7 and funct3 of what two registers give.
TWO_REGISTERS = [(0, function) for function in range(8)] + [(32, 0), (32, 5)] + [(1, function) for function in range(8)]
LENGTHS = {0: 1, 1: 2, 2: 4, 4: 1, 5: 2}  # in bytes, of a load or store by its funct3
# Of calls of mmap: lengths that are given and lengths at the edges, and the other arguments, most of them right.
MAP_LENGTHS = [1, PAGE - 1, PAGE, PAGE + 1, 3 * PAGE, 1 << 20]
MAP_EDGES = [0, (1 << 24) - PAGE, 1 << 24, (1 << 24) + 1, 0xFFFFF001, 0xFFFFFFFF]
PROTECTIONS, FLAGS = [3] * 12 + [1, 1, 0, 2, 5], [0x22] * 20 + [0, 2, 0x20, 0x32]


def form_i(value, first, function, register, opcode):
    return (value & 0xFFF) << 20 | first << 15 | function << 12 | register << 7 | opcode


def form_s(value, second, first, function):
    return (value >> 5 & 127) << 25 | second << 20 | first << 15 | function << 12 | (value & 31) << 7 | 0x23


def form_b(by, second, first, function):
    return ((by >> 12 & 1) << 31 | (by >> 5 & 63) << 25 | second << 20 | first << 15 | function << 12 | (by >> 1 & 15) << 8
            | (by >> 11 & 1) << 7 | 0x63)


def form_j(by, register):
    return ((by >> 20 & 1) << 31 | (by >> 1 & 0x3FF) << 21 | (by >> 11 & 1) << 20 | (by >> 12 & 0xFF) << 12
            | register << 7 | 0x6F)


def form_a(kind, second, first, register, order=0):
    """An atomic instruction, by the bits 31 to 27, with the bits aq and rl."""
    return kind << 27 | order << 25 | second << 20 | first << 15 | OF_A_WORD << 12 | register << 7 | ATOMIC


def put(register, value):
    """LUI and ADDI of a value."""
    low = (value & 0xFFF) - ((value & 0x800) << 1)
    return [(value - low) & 0xFFFFF000 | register << 7 | 0x37, form_i(low, register, 0, register, 0x13)]


def draw_mapping(draw):
    """A call of mmap, mostly one that is served, and mostly a store to what it gives and a load from there, or from near it."""
    length = draw.choice(MAP_LENGTHS if draw.randrange(8) else MAP_EDGES)
    words = []
    for register, value in enumerate((draw.getrandbits(32), length, draw.choice(PROTECTIONS), draw.choice(FLAGS)), 10):
        words += put(register, value)
    words += [form_i(222, 0, 0, 17, 0x13), 0x73]
    size = -(-length // PAGE) * PAGE
    if size == 0 or draw.randrange(8) == 0:
        return words
    place = draw.choice((0, 0, 4 * draw.randrange(size // 4), size - 4, *([-4, size] if draw.randrange(20) == 0 else [])))
    words += put(11, place & 0xFFFFFFFF) + [11 << 20 | 10 << 15 | 11 << 7 | 0x33]  # the answer and the place
    if draw.randrange(4):
        words.append(form_s(0, draw.randrange(32), 11, 2))
    return words + [form_i(0, 11, 2, draw.randrange(PLACE), 0x03)]


def draw_place(draw):
    """The address of a word to PLACE: of the heap, mostly one of two, or the header's last word or the stack; seldom no word's."""
    kind = draw.randrange(100)
    if kind == 0:
        return put(PLACE, draw.choice((0, BASE - 4, 0x40000000, MAPPED, STACK_END, 0xFFFFFFFC)))
    if kind == 1:
        return [form_i(draw.choice((1, 2, 3)), POINTER, 0, PLACE, 0x13)]
    if kind < 5:
        return put(PLACE, BASE + HEADERS - 4)
    if kind < 8:
        return put(PLACE, STACK_END - 4 * draw.randrange(1, 9))
    return [form_i(draw.choice((0, 0, 4, -2048, 4 * draw.randrange(-512, 512))), POINTER, 0, PLACE, 0x13)]


def draw_atomic(draw):
    """One atomic instruction on the word at PLACE; seldom a word of their opcode that is none."""
    kind = draw.choice((LR, SC, *AMOS))
    second, register, order = 0 if kind == LR else draw.randrange(32), draw.randrange(PLACE), draw.randrange(4)
    word = form_a(kind, second, PLACE, register, order)
    if draw.randrange(150):
        return word
    return draw.choice((form_a(LR, draw.randrange(1, 32), PLACE, register, order), draw.getrandbits(25) << 7 | ATOMIC,
                        form_a(draw.randrange(32), second, PLACE, register, order), word ^ 1 << draw.randrange(12, 15)))


def draw_between(draw):
    """What comes between an LR and an SC: mostly nothing, a store to the word, a call, or another atomic instruction."""
    kind = draw.randrange(8)
    if kind == 0:
        return [form_s(0, draw.randrange(32), PLACE, 2)]
    if kind == 1:
        return [form_i(draw.choice((214, 0)), 0, 0, 17, 0x13), 0x73]
    if kind == 2:
        return [form_i(0, PLACE, 2, TARGET, 0x03), form_s(0, TARGET, PLACE, 2)]
    return [draw_atomic(draw)] if kind == 3 else []


def draw_atomics(draw):
    """Some atomic instructions on one word; or an LR and an SC, and what comes between."""
    words = draw_place(draw)
    if draw.randrange(2):
        return words + [draw_atomic(draw) for _ in range(draw.choice((1, 1, 2, 3)))]
    pair = [form_a(kind, second, PLACE, draw.choice((0, draw.randrange(PLACE))), draw.randrange(4))
            for kind, second in ((LR, 0), (SC, draw.randrange(32)))]
    return words + pair[:1] + draw_between(draw) + pair[1:]


def draw_instructions(draw):
    """One instruction, or some that belong together. Jumps go ahead, so that programs end."""
    if draw.randrange(60) == 0:
        return draw_mapping(draw)
    if draw.randrange(15) == 0:
        return draw_atomics(draw)
    register, first, second = draw.randrange(PLACE), draw.randrange(32), draw.randrange(32)
    ahead = 4 * draw.randrange(2, 8) - (2 if draw.randrange(200) == 0 else 0)
    kind = draw.randrange(12)
    if kind < 4:
        high, function = draw.choice(TWO_REGISTERS)
        return [high << 25 | second << 20 | first << 15 | function << 12 | register << 7 | 0x33]
    if kind < 6:
        function = draw.randrange(8)
        value = draw.randrange(32) | (1024 if function == 5 and draw.randrange(2) else 0) if function in (1, 5) \
            else draw.choice((0, 1, 2047, -2048, -1, draw.randrange(-2048, 2048)))
        return [form_i(value, first, function, register, 0x13)]
    if kind == 6:
        return [draw.getrandbits(20) << 12 | register << 7 | draw.choice((0x37, 0x17))]
    if kind < 9:
        function = draw.choice(list(LENGTHS))
        place = draw.randrange(-2048, 2048)
        place -= place % LENGTHS[function] if draw.randrange(200) else 0
        pointer = POINTER if draw.randrange(400) else first
        return [form_i(place, pointer, function, register, 0x03)] if kind == 7 else [form_s(place, second, pointer, function % 4)]
    if kind == 9:
        return [form_b(ahead, second, first, draw.choice((0, 1, 4, 5, 6, 7)))]
    if kind == 10:
        return [form_j(ahead, register)]
    return draw.choice(([TARGET << 7 | 0x17, form_i(4 + ahead + draw.randrange(2), TARGET, 0, register, 0x67)],
                        [draw.getrandbits(32) & ~0x707F | 0x0F]))


def executable(words):
    """One segment that may be read, written and executed."""
    size = HEADERS + 4 * len(words)
    header = b"\x7fELF\1\1\1" + bytes(9) + struct.pack("<HHIIIIIHHHHHH", 2, 243, 1, BASE + HEADERS, 52, 0, 0, 52, 32, 1, 0, 0, 0)
    return header + struct.pack("<8I", 1, 0, BASE, BASE, size, size, 7, PAGE) + struct.pack(f"<{len(words)}I", *words)


def draw_program(draw, length):
    """An executable of so many drawn instructions and some."""
    words = []
    for register in range(1, PLACE):
        words += put(register, draw.choice((draw.choice(OPERANDS), draw.getrandbits(32))))
    ends = [form_s(4 * register, register, POINTER, 2) for register in range(32)]
    ends += [form_i(1, 0, 0, 10, 0x13), form_i(0, POINTER, 0, 11, 0x13), form_i(128, 0, 0, 12, 0x13), form_i(64, 0, 0, 17, 0x13),
             0x73, form_i(93, 0, 0, 17, 0x13), 0x73]
    body = []
    while len(body) < length:
        body += draw_instructions(draw)
    body += [0x13] * 8  # where the last jumps go
    size = HEADERS + 4 * (3 + len(words) + len(body) + len(ends))
    heap = BASE + -(-size // PAGE) * PAGE
    return executable(put(POINTER, heap + 2048) + [form_i(0, POINTER, 0, PLACE, 0x13)] + words + body + ends)
