"""The calls of a run, a line each: of which thread, with their arguments and answers, by the names of Linux and POSIX."""
import collections.abc
import dataclasses
import errno

from debugging.moments import Moments
from debugging.quick import QuickReplay
from fuzzing.machine import ECALL
from kernel import Call, moved
from racing.machine import SYSTEM_CALLS, Step, Thread
from racing.symbols import Executable

PROTECTIONS = {0: "PROT_NONE", 1: "PROT_READ", 2: "PROT_WRITE", 3: "PROT_READ|PROT_WRITE", 4: "PROT_EXEC"}
FLAGS = {0x22: "MAP_PRIVATE|MAP_ANONYMOUS"}
ARGUMENTS = {  # of each call, what its arguments are
    "read": ["number", "bytes", "number"], "write": ["number", "bytes", "number"], "exit": ["number"], "brk": ["address"],
    "mmap": ["address", "number", "protection", "flags"],
    "pthread_create": ["address", "address", "address", "word"], "pthread_join": ["number", "address"], "pthread_exit": ["word"],
    "pthread_self": [], "pthread_mutex_init": ["address", "address"], "pthread_cond_init": ["address", "address"],
    "pthread_cond_wait": ["address", "address"],
}
ONE_ADDRESS, FOUR_WORDS = ["address"], ["word"] * 4  # of the other functions, and of the other system calls
ESCAPES = {ord('"'): '\\"', ord("\\"): "\\\\", ord("\n"): "\\n", ord("\t"): "\\t", ord("\r"): "\\r"}


class Tracer(QuickReplay):
    """The machine, which keeps the call of the last step that was one."""
    called: Call

    def serve(self, thread: Thread, call: Call):
        self.called = call
        super().serve(thread, call)

    def call_at(self, number: int) -> Call | None:
        """The call at which a thread stands."""
        thread = self.threads[number]
        name, word = self.fetched(thread.pc)
        if name is None and word != ECALL:
            return None
        return Call(name.decode() if name else thread.registers[17], *thread.registers[10:14])


@dataclasses.dataclass
class Calls:
    """`most` bytes are shown of what a call reads or writes."""
    machine: Tracer
    moments: Moments
    executable: Executable
    most: int
    place: int = 0

    def lines(self) -> collections.abc.Iterator[str]:
        for entry in self.moments.entries:
            kind, *words = entry.line.split(" ")
            yield from self.reach(entry.place + entry.served)
            call = self.machine.call_at(int(words[0])) if kind == "vote" and words[-1] == "blocked" else None
            if call:
                yield self.line(self.place, int(words[0]), f"{self.told(call)} waits")
            if kind == "end":
                yield f"end {' '.join(words)}"

    def reach(self, goal: int) -> collections.abc.Iterator[str]:
        """The calls of the steps up to a place."""
        while self.place < goal:
            thread, count = self.moments.stretch_at(self.place)
            done, step = self.machine.run(thread, min(count, goal - self.place), ())
            self.place += done
            if step and step.call:
                yield self.line(self.place - 1, thread, self.served(step))

    def line(self, place: int, thread: int, text: str) -> str:
        return f"{place:>8} [{thread}] {text}"

    def served(self, step: Step) -> str:
        """A call that was served, with its answer; one that ends a thread or the program has none, and one that waits not yet."""
        call, thread = self.machine.called, self.machine.threads[step.thread]
        if self.machine.kernel.waiter(step.thread):
            return f"{self.told(call)} waits"
        if step.call in ("exit", "pthread_exit"):
            return self.told(call)
        answer = thread.registers[10]
        read = self.machine.bytes_at(call.a1, answer) if step.call == "read" and answer <= moved(call) else None
        return f"{self.told(call, read)} = {answered(call, answer)}"

    def told(self, call: Call, read: bytes | None = None) -> str:
        """The call with its arguments; `read` are the bytes that came, where it is a read that was served."""
        name = SYSTEM_CALLS.get(call.which, f"system call {call.which}") if isinstance(call.which, int) else call.which
        kinds = ARGUMENTS.get(name, FOUR_WORDS if name.startswith("system call") else ONE_ADDRESS)
        values = zip(kinds, (call.a0, call.a1, call.a2, call.a3))
        return f"{name}({', '.join(self.argument(kind, value, call, read) for kind, value in values)})"

    def argument(self, kind: str, value: int, call: Call, read: bytes | None) -> str:
        if kind == "bytes":
            return self.quoted(value, call, read)
        if kind == "address":
            return self.address(value)
        return {"number": str, "word": hex, "protection": lambda value: PROTECTIONS.get(value, hex(value)),
                "flags": lambda value: FLAGS.get(value, hex(value))}[kind](value)

    def address(self, value: int) -> str:
        name = self.executable.name_of(value)
        return "NULL" if value == 0 else f"{value:#x} <{name}>" if name else hex(value)

    def quoted(self, address: int, call: Call, read: bytes | None) -> str:
        """What was read, or is written; the address where that isn't known."""
        is_write = self.machine.kernel.is_good_write(call)
        data = self.machine.bytes_at(address, moved(call)) if is_write else read
        if data is None:
            return hex(address)
        text = "".join(ESCAPES.get(byte) or (chr(byte) if 32 <= byte < 127 else f"\\x{byte:02x}") for byte in data[:self.most])
        return f'"{text}"{"..." if len(data) > self.most else ""}'


def answered(call: Call, value: int) -> str:
    """An answer, and the error's name where it is one: of a system call a negative number, of a function a positive one."""
    number = value - (1 << 32) if isinstance(call.which, int) and value >> 31 else value
    code = -number if isinstance(call.which, int) else number
    is_error = code in errno.errorcode and call.which != "pthread_self"
    shown = hex(value) if call.which in (214, 222) and not is_error else str(number)
    return f"{shown} {errno.errorcode[code]}" if is_error else shown
