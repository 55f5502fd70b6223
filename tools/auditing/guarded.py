"""Drawn programs without races, for cooperative runs: two to four threads, each shared word under a mutex of its own, some that
deadlock, and some that wait for each other by looking."""
import random

from fuzzing.machine import EBREAK, ECALL, STACKS, STACK_STEP
from fuzzing.programs import PAGE, form_a, form_b, form_i, form_s, put
from kernel import LR, SC, THREADS
from racing.programs import (ATOMICS, CONDITIONS, FIRST, MUTEXES, PLACE, READ_WRITE_EXECUTE, RESULT, RETURN_PLACE, ROOM, VALUE,
                             Function, linked)

PLACES = [*MUTEXES, *CONDITIONS]  # of mutexes, in the segment
DATA = STACKS + STACK_STEP * (THREADS - 1)  # the stack of a thread that is never made: a page for each mutex, and one more
FLAG = 64  # where, in a mutex's page, the word is that threads wait for
WORDS, SUM, SEEN = 8, 19, 20  # registers: a mutex's page, the answers of calls, and what was loaded
END_WORDS = 16  # that the end of a function takes, at the most
OTHERWISE = "pthread_mutex_trylock", "pthread_cond_wait"


def add(register: int, other: int) -> int:
    return other << 20 | register << 15 | register << 7 | 0x33


class Drawn:
    """A program that is being drawn."""
    places = PLACES
    flags = READ_WRITE_EXECUTE

    def __init__(self, draw: random.Random):
        self.draw = draw
        self.functions = [Function(number) for number in range(draw.choice((2, 2, 3, 3, 4)))]
        self.mutexes = draw.choice((1, 1, 2, 3))
        self.tries = draw.randrange(10) == 0  # with trylock in its table
        self.spins = draw.randrange(8) == 0
        self.inits = [draw.choice(("first", "later", "never")) for _ in range(self.mutexes)]

    def call(self, function: Function, *call):
        """A call, whose answer is mostly kept."""
        function.call(*call)
        if self.draw.randrange(4):
            function.words.append(add(SUM, 10))

    def access(self, function: Function, mutex: int):
        """Something that is done with the mutex: mostly a load and a store of a word of it."""
        place, kind = 4 * self.draw.randrange(3), self.draw.randrange(16)
        function.words += put(WORDS, DATA + PAGE * mutex)
        if kind < 10:
            function.words += [form_i(place, WORDS, 2, VALUE, 0x03), add(SEEN, VALUE), form_i(1, VALUE, 1, RESULT, 0x13),
                               add(VALUE, RESULT), form_i(self.draw.randrange(1, 100), VALUE, 0, VALUE, 0x13),
                               form_s(place, VALUE, WORDS, 2)]
        elif kind < 13:
            self.call(function, 64, 1, DATA + PAGE * mutex + place, 4)
        elif kind == 13:
            self.call(function, 222, 0, PAGE, 3, 0x22)
        else:
            self.waste(function)

    def waste(self, function: Function):
        """Counts down."""
        function.words += [form_i(self.draw.choice((2, 5, 30)), 0, 0, RESULT, 0x13), form_i(-1, RESULT, 0, RESULT, 0x13),
                           form_b(-4, 0, RESULT, 1)]

    def guard(self, function: Function, mutex: int, outer: tuple[int, ...] = ()):
        """Locks a mutex, does something, and unlocks it; seldom another one between, or one lock more, or no unlock."""
        self.call(function, "pthread_mutex_lock", self.places[mutex])
        if self.draw.randrange(12) == 0:
            self.call(function, "pthread_mutex_lock", self.places[mutex])
        for _ in range(self.draw.randint(1, 2)):
            self.access(function, mutex)
        others = [other for other in range(self.mutexes) if other != mutex and other not in outer]
        if others and self.draw.randrange(5) == 0:
            self.guard(function, self.draw.choice(others), (*outer, mutex))
            self.access(function, mutex)
        if self.draw.randrange(25):
            self.call(function, "pthread_mutex_unlock", self.places[mutex])

    def attempt(self, function: Function, mutex: int):
        """The same where a trylock gets the mutex."""
        function.call("pthread_mutex_trylock", self.places[mutex])
        branch = len(function.words)
        function.words.append(0)
        self.access(function, mutex)
        self.call(function, "pthread_mutex_unlock", self.places[mutex])
        function.words[branch] = form_b(4 * (len(function.words) - branch), 0, 10, 1)

    def reserve(self, function: Function):
        """An SC, behind an LR and a few calls, of which each ends the reservation."""
        function.words += put(PLACE, ATOMICS[0]) + [form_a(LR, 0, PLACE, RESULT), add(SEEN, RESULT)]
        if self.draw.randrange(3):
            self.call(function, "pthread_mutex_unlock", self.places[self.draw.randrange(self.mutexes)])
        function.words += put(PLACE, ATOMICS[0]) + [form_a(SC, VALUE, PLACE, RESULT), add(SUM, RESULT)]

    def look(self, function: Function, mutex: int):
        """Waits until the mutex's flag is set, by looking again and again."""
        start = len(function.words)
        function.call("pthread_mutex_lock", self.places[mutex])
        function.words += put(WORDS, DATA + PAGE * mutex) + [form_i(FLAG, WORDS, 2, VALUE, 0x03)]
        function.call("pthread_mutex_unlock", self.places[mutex])
        function.words.append(form_b(4 * (start - len(function.words)), 0, VALUE, 0))

    def set_flag(self, function: Function, mutex: int):
        function.call("pthread_mutex_lock", self.places[mutex])
        function.words += put(WORDS, DATA + PAGE * mutex) + [form_i(1, 0, 0, VALUE, 0x13), form_s(FLAG, VALUE, WORDS, 2)]
        function.call("pthread_mutex_unlock", self.places[mutex])

    def do(self, function: Function, what: str, number: int):
        if what == "make":
            self.call(function, "pthread_create", DATA + PAGE * 8 + 4 * number, 0, FIRST + ROOM * number, 0)
        elif what == "join":
            self.call(function, "pthread_join", number, 0)
        elif what == "locked join":  # the other may wait for that mutex
            self.call(function, "pthread_mutex_lock", self.places[0])
            self.call(function, "pthread_join", number, 0)
            self.call(function, "pthread_mutex_unlock", self.places[0])
        elif what in ("init", "destroy", "unlock"):
            self.call(function, f"pthread_mutex_{what}", self.places[number], 0)
        else:
            {"guard": self.guard, "attempt": self.attempt, "look": self.look, "set flag": self.set_flag,
             "reserve": lambda f, _: self.reserve(f), "waste": lambda f, _: self.waste(f)}[what](function, number)

    def deeds(self, number: int) -> list[tuple[str, int]]:
        """What a thread does, in its order."""
        draw, others = self.draw, len(self.functions)
        deeds = [("guard", draw.randrange(self.mutexes)) for _ in range(draw.randint(2, 5))]
        deeds += [("attempt", draw.randrange(self.mutexes)) for _ in range(draw.randrange(3) * self.tries)]
        deeds += [("init", mutex) for mutex, when in enumerate(self.inits) if when == "later" and draw.randrange(2)]
        deeds += [(draw.choice(("destroy", "unlock", "reserve", "reserve", "waste")), draw.randrange(self.mutexes))
                  for _ in range(draw.randrange(2))]
        if self.spins:
            deeds.append(("look" if number == 0 else "set flag", 0))
        draw.shuffle(deeds)
        if number:
            return deeds
        made = [("make", other) for other in range(1, others)]
        if not self.spins and draw.randrange(3):
            deeds += [(draw.choice(("join",) * 7 + ("locked join",)), draw.randrange(1, others))
                      for _ in range(draw.randint(1, others - 1))]
        deeds = deeds[:1] * draw.randrange(2) + made + deeds if not self.spins else made + deeds
        return [("init", mutex) for mutex, when in enumerate(self.inits) if when == "first"] + deeds

    def end(self, function: Function, is_first: bool):
        """Writes what was answered and loaded, and ends."""
        function.words += [form_s(0, SUM, 2, 2), form_s(4, SEEN, 2, 2), form_i(0, 2, 0, 11, 0x13)]
        for register, value in ((10, 1), (12, 8), (17, 64)):
            function.words += put(register, value)
        function.words.append(ECALL)
        kind = self.draw.randrange(24)
        if kind == 0:
            function.words.append(EBREAK)
        elif kind == 1:
            function.call(93, 3)
        elif kind < 5 and not is_first:
            function.words.append(form_i(0, RETURN_PLACE, 0, 0, 0x67))
        else:
            function.call("pthread_exit", 7)

    def file(self) -> bytes:
        for number, function in enumerate(self.functions):
            for deed in self.deeds(number):
                before = len(function.words)
                self.do(function, *deed)
                if 4 * (len(function.words) + END_WORDS) > ROOM:
                    del function.words[before:]
                    break
            self.end(function, number == 0)
        return linked(self.functions, OTHERWISE[self.tries:], self.flags)
