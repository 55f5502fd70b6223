"""A debugger's server: GDB's remote protocol over a run whose journal is there. Registers and memory may be looked at and not
changed; the run goes where its journal has it go, forwards and backwards."""
import collections.abc

from debugging.history import Hit, History, Watch
from debugging.monitor import Monitor
from debugging.packets import Closed, Wire
from kernel import READ, WRITE, Life

FEATURES = ("PacketSize=4000;qXfer:features:read+;qXfer:threads:read+;QStartNoAckMode+;ReverseStep+;ReverseContinue+;swbreak+;"
            "hwbreak+;vContSupported+")
REGISTERS = 33  # x0 to x31 and the pc
SIGNAL_0, SIGTRAP = 0, 5
SIGNALS = {1: 10, 2: 11, 3: 4, 4: 10, 5: 10, 6: 11, 7: 10, 8: 11, 9: SIGTRAP}  # by a trap's cause: SIGBUS, SIGSEGV, SIGILL
WATCHES = {"2": (WRITE, "watch"), "3": (READ, "rwatch"), "4": (READ | WRITE, "awatch")}  # by the number of a Z packet
REFUSED, NO_MEMORY = "E01", "E0e"
AT_ONCE = 200_000  # steps between two looks at Ctrl-C


def target_description() -> str:
    registers = "".join(f'<reg name="x{number}" bitsize="32"/>' for number in range(32))
    return ('<?xml version="1.0"?><!DOCTYPE target SYSTEM "gdb-target.dtd"><target version="1.0">'
            '<architecture>riscv:rv32</architecture><feature name="org.gnu.gdb.riscv.cpu">'
            f'{registers}<reg name="pc" bitsize="32" type="code_ptr"/></feature></target>')


def little(value: int) -> str:
    return value.to_bytes(4, "little").hex()


def named(thread: int) -> str:
    """A thread as GDB numbers them, from 1 on."""
    return f"{thread + 1:x}"


def numbered(word: str) -> int | None:
    """The thread of GDB's number; None where it may be any, or all."""
    number = int(word, 16) if not word.startswith("-") else 0
    return number - 1 if number > 0 else None


class Server:
    def __init__(self, wire: Wire, history: History, monitor: Monitor):
        self.wire, self.history, self.monitor = wire, history, monitor
        self.shown = self.moved = history.next_thread() or 0  # whose registers are asked for; which thread a resumption names
        self.alone: int | None = None  # the thread that is resumed, where no other is
        self.stopped = f"T{SIGTRAP:02x}thread:{named(self.shown)};"
        self.watch_names: dict[Watch, str] = {}

    def serve(self):
        """Answers packets until the debugger goes."""
        try:
            while self.answer(self.wire.receive()):
                pass
        except Closed:
            pass

    def answer(self, packet: str) -> bool:
        """Whether another packet may come."""
        if packet == "QStartNoAckMode":
            self.wire.send("OK")
            self.wire.acknowledges = False
            return True
        if packet == "k":
            return False
        self.wire.send(self.reply(packet))
        return not packet.startswith("D")

    def reply(self, packet: str) -> str:
        """Nothing, as to what isn't known here, says so."""
        replies: dict[str, collections.abc.Callable[[str], str]] = {
            "?": lambda _: self.stopped, "g": lambda _: self.registers(), "p": self.register, "m": self.memory,
            "H": self.select, "T": self.is_alive, "Z": self.add_point, "z": self.remove_point, "q": self.query, "v": self.verb,
            "b": self.back, "s": lambda _: self.step(self.moved), "c": lambda _: self.go_on(), "D": lambda _: "OK",
            "G": lambda _: REFUSED, "P": lambda _: REFUSED, "M": lambda _: REFUSED, "X": lambda _: REFUSED,
        }
        answers = replies.get(packet[:1])
        return answers(packet[1:]) if answers else ""

    # ---- What is asked for

    def query(self, rest: str) -> str:
        if rest.startswith("Supported"):
            return FEATURES
        if rest.startswith("Xfer:features:read:target.xml:"):
            return self.part(target_description(), rest)
        if rest.startswith("Xfer:threads:read::"):
            return self.part(self.thread_list(), rest)
        if rest.startswith("Rcmd,"):
            return self.command(bytes.fromhex(rest.removeprefix("Rcmd,")).decode(errors="replace"))
        return {"C": f"QC{named(self.shown)}", "Attached": "1", "fThreadInfo": "m" + ",".join(map(named, self.living())),
                "sThreadInfo": "l", "Symbol::": "OK"}.get(rest, "")

    def part(self, text: str, request: str) -> str:
        """A part of a document, as `..:start,length` asks for it."""
        start, length = (int(word, 16) for word in request.rsplit(":", 1)[1].split(","))
        return ("m" if start + length < len(text) else "l") + text[start:start + length]

    def command(self, text: str) -> str:
        for line in self.monitor.answer(text).splitlines(keepends=True):
            self.wire.send("O" + line.encode().hex())
        return "OK"

    # ---- Threads, registers and memory

    def living(self) -> list[int]:
        """The threads that live; of a program that is over the last one that did."""
        machine = self.history.machine
        return [number for number, life in enumerate(machine.kernel.lives) if life is Life.LIVE] or [len(machine.threads) - 1]

    def thread_list(self) -> str:
        after = self.history.next_thread()
        said = {after: "its step comes next"}
        lines = "".join(f'<thread id="{named(thread)}" name="thread {thread}">{said.get(thread, "")}</thread>'
                        for thread in self.living())
        return f'<?xml version="1.0"?><threads>{lines}</threads>'

    def is_alive(self, word: str) -> str:
        return "OK" if numbered(word) in self.living() else REFUSED

    def select(self, rest: str) -> str:
        thread = numbered(rest[1:])
        if thread is not None and thread >= len(self.history.machine.threads):
            return REFUSED
        if thread is not None and rest[0] == "g":
            self.shown = thread
        elif rest[0] == "c":
            self.moved = self.shown if thread is None else thread
        return "OK"

    def values(self) -> list[int]:
        thread = self.history.machine.threads[self.shown]
        return [*thread.registers, thread.pc]

    def registers(self) -> str:
        return "".join(map(little, self.values()))

    def register(self, rest: str) -> str:
        number = int(rest, 16)
        return little(self.values()[number]) if number < REGISTERS else REFUSED

    def memory(self, rest: str) -> str:
        """As many of the bytes as lie in ranges, from the first on."""
        address, size = (int(word, 16) for word in rest.split(","))
        machine, end = self.history.machine, address
        while end < address + size and (reached := machine.range_end(end)):
            end = min(reached, address + size)
        return machine.bytes_at(address, end - address).hex() or NO_MEMORY

    # ---- Breakpoints and watchpoints

    def point_of(self, rest: str) -> tuple[str, int, int]:
        kind, address, size = rest.split(";")[0].split(",")
        return kind, int(address, 16), int(size, 16)

    def add_point(self, rest: str) -> str:
        kind, address, size = self.point_of(rest)
        if kind in ("0", "1"):
            self.history.breaks.add(address)
        elif kind in WATCHES:
            kinds, name = WATCHES[kind]
            watch = Watch(range(address, address + size), kinds)
            self.watch_names[watch] = name
            self.history.watch([*self.history.watches, watch])
        else:
            return ""
        return "OK"

    def remove_point(self, rest: str) -> str:
        kind, address, size = self.point_of(rest)
        if kind in ("0", "1"):
            self.history.breaks.discard(address)
        elif kind in WATCHES:
            gone = Watch(range(address, address + size), WATCHES[kind][0])
            self.history.watch([watch for watch in self.history.watches if watch != gone])
        else:
            return ""
        return "OK"

    # ---- Where the run goes

    def verb(self, rest: str) -> str:
        if rest == "Cont?":
            return "vCont;c;C;s;S"
        if not rest.startswith("Cont;"):
            return ""
        actions = [action.partition(":") for action in rest.removeprefix("Cont;").split(";")]
        resumed = [numbered(word) if word else None for _, _, word in actions]
        steps = [self.moved if thread is None else thread for (kind, _, _), thread in zip(actions, resumed) if kind[0] in "sS"]
        self.alone = resumed[0] if len(resumed) == 1 else None
        try:
            return self.step(steps[0]) if steps else self.go_on()
        finally:
            self.alone = None

    def step(self, thread: int) -> str:
        """One step of a thread; those of others that come before it are taken, too."""
        return self.arrive() or self.run_to(self.history.behind(thread), thread)

    def go_on(self) -> str:
        return self.arrive() or self.run_to(self.history.length)

    def arrive(self) -> str | None:
        """At the place that `monitor` was asked for; not yet where one thread alone is resumed that doesn't live there."""
        goal, place = self.monitor.goal, self.history.place
        if goal is None:
            return None
        self.history.go(goal)
        if self.alone is not None and self.alone not in self.living():
            self.history.go(place)
            return None
        self.monitor.goal = None
        return self.stop(SIGNAL_0)

    def run_to(self, goal: int, thread: int | None = None) -> str:
        history = self.history
        if history.place == history.length:
            return self.stop(SIGTRAP, "replaylog:end;")
        while history.place < min(goal, history.length):
            hit = history.forward(min(goal, history.place + AT_ONCE))
            if hit and self.alone in (None, hit.thread):
                return self.stop_at(hit, hit.place - 1)
            if self.wire.is_interrupted():
                return self.stop(2)
        return self.end() if history.place == history.length else self.stop(SIGTRAP, thread=thread)

    def end(self) -> str:
        """A trap stops where it is; any other end is that of the history."""
        ended = self.history.machine.ended
        self.tell(f"The run ends here: {ended or self.history.moments.entries[-1].line}\n")
        last = self.history.moments.stretch_at(self.history.length - 1)[0] if self.history.length else 0
        if ended and ended.startswith("trap "):
            return self.stop(SIGNALS[int(ended.split(" ")[1])], thread=last)
        return self.stop(SIGTRAP, "replaylog:end;", last)

    def back(self, rest: str) -> str:
        """`bs` is a step of a thread backwards, `bc` goes on so."""
        arrived = self.arrive()
        if arrived:
            return arrived
        history = self.history
        goal = history.moments.before(self.moved, history.place) if rest == "s" else None
        hit = history.backward(goal or 0)
        if hit:
            return self.stop_at(hit, hit.place + 1)
        return self.stop(SIGTRAP, "replaylog:begin;" if goal is None else "")

    def stop_at(self, hit: Hit, short_of_it: int) -> str:
        """At a breakpoint, or a step short of where an access that is watched is done: GDB takes processors of this kind to stop
        there, and takes that step itself."""
        if not hit.watch:
            return self.stop(SIGTRAP, "swbreak:;", hit.thread)
        self.history.go(short_of_it)
        return self.stop(SIGTRAP, f"{self.watch_names[hit.watch]}:{hit.watch.stretch.start:x};", hit.thread)

    def stop(self, signal: int, why: str = "", thread: int | None = None) -> str:
        """The run stands still, for this thread: without one for that whose step comes next. Where one thread alone is resumed,
        as it is to leave a breakpoint behind, the debugger may be told of no other."""
        threads = self.alone, thread, self.history.next_thread(), self.shown
        self.shown = self.moved = next(number for number in threads if number is not None)
        self.stopped = f"T{signal:02x}{why}thread:{named(self.shown)};"
        return self.stopped

    def tell(self, text: str):
        """On the debugger's console, while the program runs."""
        self.wire.send("O" + text.encode().hex())
