"""Drawn programs without races whose threads go on beside each other: each stores to pages of its own, to words of its own in common
pages, and to common words under a mutex."""
import random

from auditing.guarded import DATA, SEEN, SUM, Drawn, add
from fuzzing.machine import STACK_STEP, STACKS
from fuzzing.programs import PAGE, form_a, form_b, form_i, form_s, put
from kernel import AMOS, MAPPED
from racing.programs import NOP, PLACE, READ_EXECUTE, READ_WRITE_EXECUTE, RESULT, VALUE, Function

HEAPS, MOST_PAGES = 0x20000, 20  # where the threads' own pages of the heap begin, and how many each has at the most
COMMON, COMMON_PAGES = DATA + PAGE * 8, 4  # pages in which each thread has words of its own
WORDS_OF_ATOMICS = DATA + PAGE * 12  # that are accessed atomically alone
STEP, ROUND, COUNT = 28, 29, 30  # registers
TURN = 7  # instructions for a word


class Paged(Drawn):
    """A program that is being drawn, in which a thread stores to so many words at a time, at the most."""
    places = [DATA + PAGE * number + PAGE // 2 for number in range(3)]  # in the pages that the mutexes guard

    def __init__(self, draw: random.Random, instructions: int):
        super().__init__(draw)
        self.functions = [Function(number) for number in range(draw.choice((2, 2, 2, 3, 3, 4, 6, 8)))]
        self.most = max(1, instructions // (TURN * 3 * len(self.functions)))
        self.pages = draw.choice((1, 1, 2, 3, 9, MOST_PAGES))
        self.kinds = [*["own"] * draw.choice((1, 6)), *["common"] * draw.choice((1, 6)), "guard", "adds", "code", "write", "waste"]
        self.is_mapped = draw.randrange(3) == 0
        self.flags = draw.choice((READ_EXECUTE, READ_EXECUTE, READ_EXECUTE, READ_WRITE_EXECUTE))

    # ---- Stores

    def walk(self, function: Function, start: int, step: int, count: int, rounds: int):
        """Of so many words, each so far behind the one before, each is loaded and stored with 1 more; and all that so often."""
        function.words += [*put(STEP, step), *put(ROUND, rounds), *put(PLACE, start), *put(COUNT, count)]
        function.words += [form_i(0, PLACE, 2, VALUE, 0x03), add(SUM, VALUE), form_i(1, VALUE, 0, VALUE, 0x13), form_s(0, VALUE, PLACE, 2),
                           add(PLACE, STEP), form_i(-1, COUNT, 0, COUNT, 0x13), form_b(-4 * (TURN - 1), 0, COUNT, 1)]
        function.words += [form_i(-1, ROUND, 0, ROUND, 0x13), form_b(-4 * (TURN + 5), 0, ROUND, 1)]

    def walk_often(self, function: Function, start: int, step: int, count: int):
        self.walk(function, start, step, count, self.draw.randint(1, max(1, self.most // count)))

    def own(self, function: Function, thread: int):
        """Pages of the thread: of the heap, of its stack, or of mapped memory."""
        count, kind = self.draw.randint(1, self.pages), self.draw.randrange(6)
        if kind == 0:
            start = STACKS + STACK_STEP * thread
        elif kind == 1 and self.is_mapped:
            start = MAPPED + PAGE * (COMMON_PAGES + MOST_PAGES * thread)
        else:
            start = HEAPS + PAGE * MOST_PAGES * thread
        self.walk_often(function, start, PAGE, min(count, 12) if kind == 0 else count)

    def common(self, function: Function, thread: int):
        """A word of the thread in each of some common pages, which may be of mapped memory."""
        start = MAPPED if self.is_mapped and self.draw.randrange(2) else COMMON
        self.walk_often(function, start + 4 * thread, PAGE, self.draw.randint(1, COMMON_PAGES))

    def adds(self, function: Function):
        """An AMO on a word that all threads access so."""
        function.words += [*put(PLACE, WORDS_OF_ATOMICS + 4 * self.draw.randrange(2)),
                           form_a(self.draw.choice(list(AMOS)), VALUE, PLACE, RESULT), add(SEEN, RESULT)]

    def code(self, function: Function):
        """Its own first word is stored, or one of its words is loaded."""
        function.words += put(PLACE, function.start)
        if self.flags == READ_WRITE_EXECUTE:
            function.words += [*put(VALUE, NOP), form_s(0, VALUE, PLACE, 2)]
        else:
            function.words += [form_i(4 * self.draw.randrange(8), PLACE, 2, VALUE, 0x03), add(SUM, VALUE)]

    def write(self, function: Function, thread: int):
        self.call(function, 64, 1, HEAPS + PAGE * MOST_PAGES * thread, 4)

    # ---- What a thread does

    def do(self, function: Function, what: str, number: int):
        others = {"own": lambda: self.own(function, number), "common": lambda: self.common(function, number),
                  "adds": lambda: self.adds(function), "code": lambda: self.code(function), "write": lambda: self.write(function, number),
                  "map": lambda: self.call(function, 222, 0, PAGE * (COMMON_PAGES + MOST_PAGES * len(self.functions)), 3, 0x22),
                  "touch": lambda: self.walk(function, HEAPS + PAGE * MOST_PAGES * number, PAGE, self.pages, 1),
                  "touch common": lambda: self.walk(function, COMMON + 4 * number, PAGE, COMMON_PAGES, 1)}
        if what in others:
            others[what]()
        else:
            super().do(function, what, number)

    def deeds(self, number: int) -> list[tuple[str, int]]:
        draw, others = self.draw, range(1, len(self.functions))
        deeds = [(what, draw.randrange(self.mutexes) if what in ("guard", "waste") else number)
                 for what in draw.choices(self.kinds, k=draw.randint(1, 4))]
        if number:
            return deeds
        # Pages that thread 0 has used are there, so that the others don't stand at their faults.
        touched = [("touch", other) for other in others if draw.randrange(2)] + [("touch common", 0)] * draw.randrange(2)
        first = [("map", 0)] * self.is_mapped + touched + [("own", 0)] * draw.randrange(2)
        joined = [("join", other) for other in others] + [("touch", other) for other in others if draw.randrange(2)]
        return first + [("make", other) for other in others] + deeds + joined
