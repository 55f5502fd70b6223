"""Small programs with threads: executables by their words and symbols, drawn programs, and drawn orders of their threads."""
import random
import struct

from fuzzing.machine import EBREAK, ECALL
from fuzzing.programs import BASE, HEADERS, PAGE, form_a, form_b, form_i, form_j, form_s, put
from fuzzing.readers import NAMES
from kernel import AMOS, LR, MAPPED, SC
from racing.machine import NoStep, Plan, Replay
from racing.symbols import FUNCTION, Symbol

CODE = BASE + HEADERS
GLOBAL = 0x10  # of a symbol, besides its type


READ_EXECUTE, READ_WRITE_EXECUTE = 5, 7  # flags of a segment


def executable(words: list[int], symbols: list[Symbol], flags: int = READ_WRITE_EXECUTE) -> bytes:
    """One segment, which is the whole file up to its last word; and a section of it."""
    size = HEADERS + 4 * len(words)
    table, strings = bytes(16), b"\0"
    for symbol in symbols:
        table += struct.pack("<IIIBBH", len(strings), symbol.start, symbol.end - symbol.start, GLOBAL | symbol.kind, 0, 1)
        strings += symbol.name.encode() + b"\0"
    sections = [(0, 0, 0, 0, 0, 0, 0, 0, 0, 0), (0, 1, 7, CODE, HEADERS, 4 * len(words), 0, 0, 4, 0),
                (0, 2, 0, 0, size, len(table), 3, 1, 4, 16), (0, 3, 0, 0, size + len(table), len(strings), 0, 0, 1, 0)]
    place = size + len(table) + len(strings)
    header = b"\x7fELF\1\1\1" + bytes(9) + struct.pack("<HHIIIIIHHHHHH", 2, 243, 1, CODE, 52, place, 0, 52, 32, 1, 40,
                                                       len(sections), 0)
    segment = struct.pack("<8I", 1, 0, BASE, BASE, size, size, flags, PAGE)
    return (header + segment + struct.pack(f"<{len(words)}I", *words) + table + strings
            + b"".join(struct.pack("<10I", *section) for section in sections))


# ---- Drawn programs

STUBS = {name.decode(): CODE + 4 + 4 * i for i, name in enumerate(NAMES)}
SHARED = CODE + 4 * (1 + len(NAMES))  # two words that all threads access
MUTEXES = [SHARED + 8, SHARED + 12]
CONDITIONS = [SHARED + 16, SHARED + 20]
ATOMICS = [SHARED + 24, SHARED + 28]  # two words that are mostly accessed atomically
FIRST, ROOM = SHARED + 32, 4 * 260  # thread 0's function, and the room of each
POINTER, VALUE, RETURN_PLACE = 9, 5, 18  # registers: SHARED, what is loaded and stored, and where a thread returns to
PLACE, RESULT = 6, 7  # registers: the address of an atomic instruction, and its answer
NOP = 0x13
SWAP, OR = 1, 8  # AMOs


class Function:
    """What a thread runs. It begins with a word that others may store to, which changes nothing."""

    def __init__(self, number: int):
        self.start = FIRST + ROOM * number
        self.words = [NOP, *put(POINTER, SHARED), form_i(0, 1, 0, RETURN_PLACE, 0x13)]

    def call(self, which: str | int, *arguments: int):
        """A call by its name or its number."""
        for register, value in enumerate(arguments, 10):
            self.words += put(register, value)
        if isinstance(which, int):
            self.words += put(17, which) + [ECALL]
        else:
            self.words.append(form_j(STUBS[which] - self.start - 4 * len(self.words), 1))

    def whole(self) -> list[int]:
        assert 4 * len(self.words) <= ROOM
        return self.words + [EBREAK] * (ROOM // 4 - len(self.words))


def linked(functions: list[Function], left_out: tuple[str, ...] = (), flags: int = READ_WRITE_EXECUTE) -> bytes:
    """The executable of a program's functions, which begins with the first; some names of POSIX functions may be left out."""
    words = [form_j(FIRST - CODE, 0)] + [EBREAK] * len(NAMES) + [0] * ((FIRST - SHARED) // 4)
    words += [word for function in functions for word in function.whole()]
    symbols = [Symbol(address, address + 4, FUNCTION, name) for name, address in STUBS.items() if name not in left_out]
    return executable(words, symbols, flags)


def draw_access(draw: random.Random, function: Function):
    """A load or a store, or seldom a call that reads or writes bytes, or a store to the first word of a function."""
    size = draw.choice((0, 0, 1, 2))
    place, kind = draw.randrange(8 >> size) << size, draw.randrange(20)
    if kind < 9:
        function.words.append(form_i(place, POINTER, size, VALUE, 0x03))
    elif kind < 17:
        function.words.append(form_s(place, VALUE, POINTER, size))
    elif kind == 17:
        function.call(63, draw.choice((0, 0, 0, 1)), SHARED + place, draw.randrange(6))
    elif kind == 18:
        function.call(64, 1, SHARED + place, draw.randrange(6))
    else:
        function.words += put(6, FIRST + ROOM * draw.randrange(3)) + put(VALUE, NOP) + [form_s(0, VALUE, 6, 2)]


def draw_mapped(draw: random.Random, function: Function):
    """A call of mmap, mostly one that is served; or an access to what may have been given, or a call that needs bytes there."""
    kind, place = draw.randrange(9), MAPPED + draw.choice((0, 0, PAGE - 4, PAGE, PAGE, 2 * PAGE))
    if kind < 3:
        numbers = (1, PAGE, PAGE + 1, 0), (3,) * 6 + (1, 2), (0x22,) * 8 + (2,)
        function.call(222, 0, *map(draw.choice, numbers))
    elif kind == 3:
        function.call("pthread_mutex_trylock", place)
    elif kind == 4:
        function.call(draw.choice((63, 64)), draw.randrange(2), place, draw.randrange(6))
    else:
        size = draw.randrange(3)
        function.words += put(6, place) + [form_i(0, 6, size, VALUE, 0x03) if kind < 7 else form_s(0, VALUE, 6, size)]


def draw_order(draw: random.Random) -> int:
    """The bits aq and rl, which mean nothing."""
    return draw.choice((0, 0, 1, 2, 3))


def draw_atomic(draw: random.Random, function: Function):
    """One or two atomic instructions on a word that is accessed so alone, or, seldom, on one that others load and store: one that
    all threads access, what a thread begins with, mapped memory, or the instruction itself."""
    kind, order = draw.randrange(24), draw_order(draw)
    if kind == 0:
        function.words += [PLACE << 7 | 0x17, form_i(8, PLACE, 0, PLACE, 0x13), form_a(OR, 0, PLACE, RESULT, order)]
        return
    if kind == 1:
        function.words += [*put(PLACE, FIRST + ROOM * draw.randrange(3)), form_a(OR, 0, PLACE, RESULT, order)]
        return
    place = {2: SHARED, 3: SHARED, 4: SHARED + 4, 5: MAPPED}.get(kind, draw.choice((ATOMICS[0], *ATOMICS)))
    function.words += put(PLACE, place)
    how = draw.randrange(8)
    if how < 3:
        function.words.append(form_a(draw.choice(list(AMOS)), VALUE, PLACE, RESULT, order))
    elif how < 5:
        function.words.append(form_a(LR, 0, PLACE, RESULT, order))
    elif how == 5:
        function.words.append(form_a(SC, VALUE, PLACE, RESULT, order))
    else:
        function.words += [form_a(LR, 0, PLACE, RESULT, order), form_a(SC, VALUE, PLACE, RESULT, order)]


def draw_message(draw: random.Random, function: Function):
    """Sends a word: stores it and sets a word of the atomic ones to 1, seldom by a store that fails; or receives it: looks whether
    that word is set, seldom by a plain load, and loads the word if it is."""
    order = draw_order(draw)
    function.words += put(PLACE, ATOMICS[1])
    if draw.randrange(2):
        function.words += [form_s(4, VALUE, POINTER, 2), form_i(1, 0, 0, VALUE, 0x13)]
        function.words += [form_a(SC if draw.randrange(5) == 0 else SWAP, VALUE, PLACE, RESULT, order)]
    else:
        look = form_i(0, PLACE, 2, RESULT, 0x03) if draw.randrange(5) == 0 else form_a(LR, 0, PLACE, RESULT, order)
        function.words += [look, form_b(8, 0, RESULT, 0), form_i(4, POINTER, 2, VALUE, 0x03)]


def draw_condition(draw: random.Random, function: Function, mutex: int):
    """A signal or a broadcast, or a wait, seldom with another mutex. Nobody looks whether there is something to wait for."""
    condition = CONDITIONS[draw.randrange(8) == 0]
    kind = draw.randrange(20)
    if kind < 8:
        function.call("pthread_cond_wait", condition, draw.choice(MUTEXES) if draw.randrange(8) == 0 else mutex)
    elif kind == 8:
        function.call(draw.choice(("pthread_cond_init", "pthread_cond_destroy", "pthread_cond_wait")), condition, 0)
    else:
        function.call(draw.choice(("pthread_cond_signal", "pthread_cond_broadcast")), condition)


def draw_part(draw: random.Random, function: Function):
    """Accesses, mostly under a mutex, which is now and then another one or not locked at all; among them, now and then, a call on
    a condition variable."""
    kind = draw.randrange(8)
    mutex = draw.choice(MUTEXES) if draw.randrange(4) == 0 else MUTEXES[0]
    if kind < 6:
        function.call("pthread_mutex_trylock" if kind == 0 else "pthread_mutex_lock", mutex)
    for _ in range(draw.randint(1, 2)):
        if draw.randrange(4) == 0:
            draw_condition(draw, function, mutex)
        draw_access(draw, function)
    if kind < 7:
        function.call("pthread_mutex_unlock", mutex)


def draw_end(draw: random.Random, function: Function, is_first: bool):
    """The end, mostly behind a broadcast."""
    if draw.randrange(3):
        function.call("pthread_cond_broadcast", CONDITIONS[0])
    kind = draw.randrange(6)
    if kind < 4:
        function.call("pthread_exit", draw.randrange(100))
    elif kind == 4 and not is_first:
        function.words.append(form_i(0, RETURN_PLACE, 0, 0, 0x67))
    else:
        function.call(93, 0)


def draw_program(draw: random.Random) -> bytes:
    """An executable whose thread 0 makes a second thread, and thread 0 or that one perhaps a third; each does a few parts, of a
    third of the programs some with mapped memory, and of half of them some with atomic instructions."""
    makers = {1: 0, 2: draw.choice((0, 1, None))}
    functions, maps = [Function(number) for number in range(3)], draw.randrange(3) == 0
    others = [draw_mapped] * maps + [draw_atomic, draw_message] * draw.randrange(2)
    if maps and draw.randrange(2):
        functions[0].call(222, 0, draw.choice((1, 2 * PAGE)), 3, 0x22)
    for number, function in enumerate(functions):
        deeds = [("part", 0)] * draw.randint(0, 3)
        deeds += [("make", made) for made, maker in makers.items() if maker == number]
        draw.shuffle(deeds)
        deeds += [("join", draw.randrange(3)) for _ in range(draw.choice((0, 1, 1, 2)) if number == 0 else draw.randrange(2))]
        deeds += [("part", 0)] * draw.randint(0, 1)
        for what, other in deeds:
            for draw_other in draw.sample(others, draw.randrange(len(others) + 1)):
                draw_other(draw, function)
            if what == "part":
                draw_part(draw, function)
            elif what == "make":
                function.call("pthread_create", draw.choice((MUTEXES[1], SHARED, SHARED + 4)), 0, FIRST + ROOM * other, 0)
            else:
                function.call("pthread_join", other, draw.choice((0, 0, SHARED, SHARED + 4)))
        draw_end(draw, function, number == 0)
    return linked(functions)


# ---- Drawn orders

def draw_plan(draw: random.Random, machine: Replay, most: int) -> Plan:
    """Takes steps of drawn threads, at most so many, until none has one."""
    plan, taken, thread, stays = [], 0, 0, draw.choice((0, 3, 10, 30))
    able, kernel = [0], machine.kernel  # who may have a step, as long as the kernel stays so
    while able and taken < most:
        if thread not in able or draw.randrange(stays + 1) == 0:
            thread = draw.choice(able)
        if not takes(machine, thread):
            able.remove(thread)
            continue
        taken += 1
        if plan and plan[-1][0] == thread:
            plan[-1] = thread, plan[-1][1] + 1
        else:
            plan.append((thread, 1))
        if machine.kernel is not kernel:
            able, kernel = list(range(len(machine.threads))), machine.kernel
    return plan


def takes(machine: Replay, thread: int) -> bool:
    try:
        machine.take(thread)
    except NoStep:
        return False
    return True


def draw_journal(draw: random.Random, plan: Plan) -> bytes:
    """A journal with this plan, in drawn forms of its lines."""
    lines = ["romain 2"]
    for thread, count in plan:
        forms = [f"vote {thread} {count} 0 - watch", *(f"vote {thread} {count - 1} 1 0 {did}" for did in ("served", "parked"))]
        lines.append(draw.choice(forms + [f"free {thread}"] if count == 1 else forms))
        lines += draw.choice(([],) * 7 + (["scrub 0 -"], ["scrub 1 0,2"]))  # no steps
    return "".join(line + "\n" for line in lines).encode()
