"""A process of the host that is held still, by ptrace, while bits of its memory or of its threads' registers are flipped."""
import contextlib
import ctypes
import errno
import os
import pathlib
import struct
import typing

SEIZE, INTERRUPT, GETREGS, SETREGS, DETACH = 0x4206, 0x4207, 12, 13, 17  # requests of ptrace
ANY_CHILD = 0x40000000  # __WALL: waits for threads, too
# struct user_regs_struct of x86-64, in its order.
LAYOUT = ["r15", "r14", "r13", "r12", "rbp", "rbx", "r11", "r10", "r9", "r8", "rax", "rcx", "rdx", "rsi", "rdi", "orig_rax", "rip",
          "cs", "eflags", "rsp", "ss", "fs_base", "gs_base", "ds", "es", "fs", "gs"]
REGISTERS = ["rax", "rbx", "rcx", "rdx", "rsi", "rdi", "rbp", "rsp", *(f"r{number}" for number in range(8, 16)), "rip"]
REGISTER_BITS, PAGE, WORD = 64, 4096, 8
PRESENT = 1 << 63  # of a page, in a pagemap
MOST_BYTES = 1 << 30  # of a mapping that is looked at

libc = ctypes.CDLL(None, use_errno=True)
libc.ptrace.argtypes = [ctypes.c_long, ctypes.c_long, ctypes.c_void_p, ctypes.c_void_p]
libc.ptrace.restype = ctypes.c_long


class Gone(Exception):
    """The process has ended."""


def is_ending(thread: int) -> bool:
    """Whether a thread has ended, though its number is still there."""
    try:
        return pathlib.Path(f"/proc/{thread}/stat").read_text().rsplit(")")[-1].split()[0] in "ZX"
    except (FileNotFoundError, ProcessLookupError):
        return True


def ptrace(request: int, thread: int, data=0):
    """Of a thread that is ending the system answers that it may not be traced."""
    if libc.ptrace(request, thread, None, data) == -1:
        code = ctypes.get_errno()
        is_gone = code == errno.ESRCH or code == errno.EPERM and is_ending(thread)
        raise Gone if is_gone else OSError(code, os.strerror(code))


def wait_for_stop(thread: int):
    """One that ends instead is left to who waits for its end."""
    told = os.waitid(os.P_PID, thread, os.WSTOPPED | os.WEXITED | os.WNOWAIT | ANY_CHILD)
    if told.si_code not in (os.CLD_STOPPED, os.CLD_TRAPPED):
        raise Gone
    os.waitpid(thread, ANY_CHILD)


class Mapping(typing.NamedTuple):
    """A stretch of addresses of a process."""
    start: int
    end: int
    permits: str  # as rw-p
    name: str  # the file's path, [heap], [stack]; of no name where it is anonymous


class Held:
    """A process all of whose threads stand still. What asks is the thread that holds it."""

    def __init__(self, process: int):
        self.process, self.threads, self.ended = process, [], []

    def hold(self):
        """All threads, those too that come to be meanwhile; one that ends meanwhile is left out."""
        while new := [thread for thread in self.listed() if thread not in [*self.threads, *self.ended]]:
            for thread in new:
                try:
                    ptrace(SEIZE, thread)
                    ptrace(INTERRUPT, thread)
                    wait_for_stop(thread)
                except Gone:
                    self.ended.append(thread)
                else:
                    self.threads.append(thread)
        if not self.threads:
            raise Gone

    def listed(self) -> list[int]:
        try:
            return sorted(int(name) for name in os.listdir(f"/proc/{self.process}/task"))
        except FileNotFoundError as error:
            raise Gone from error

    def release(self):
        for thread in self.threads:
            with contextlib.suppress(Gone):
                ptrace(DETACH, thread)

    # ---- Memory

    def mappings(self) -> list[Mapping]:
        found = []
        for line in pathlib.Path(f"/proc/{self.process}/maps").read_text().splitlines():
            stretch, permits, _, _, _, *name = line.split(maxsplit=5)
            start, end = (int(word, 16) for word in stretch.split("-"))
            found.append(Mapping(start, end, permits, "".join(name)))
        return found

    def resident(self, mapping: Mapping) -> list[int]:
        """Addresses of the mapping's pages that are in memory; none of one that is only set aside."""
        if mapping.end - mapping.start > MOST_BYTES:
            return []
        count = (mapping.end - mapping.start) // PAGE
        with open(f"/proc/{self.process}/pagemap", "rb") as file:
            file.seek(mapping.start // PAGE * WORD)
            entries = file.read(count * WORD)
        words = struct.unpack(f"<{len(entries) // WORD}Q", entries)
        return [mapping.start + PAGE * number for number, word in enumerate(words) if word & PRESENT]

    def read(self, address: int, size: int) -> bytes:
        with open(f"/proc/{self.process}/mem", "rb", buffering=0) as file:
            file.seek(address)
            return file.read(size)

    def flip_byte(self, address: int, bit: int):
        """Also where the process itself may not write."""
        with open(f"/proc/{self.process}/mem", "r+b", buffering=0) as file:
            file.seek(address)
            byte = file.read(1)[0]
            file.seek(address)
            file.write(bytes([byte ^ 1 << bit]))

    # ---- Registers

    def registers(self, thread: int) -> dict[str, int]:
        area = ctypes.create_string_buffer(WORD * len(LAYOUT))
        ptrace(GETREGS, thread, ctypes.addressof(area))
        return dict(zip(LAYOUT, struct.unpack(f"<{len(LAYOUT)}Q", area.raw)))

    def flip_register(self, thread: int, name: str, bit: int):
        values = self.registers(thread)
        values[name] ^= 1 << bit
        area = ctypes.create_string_buffer(struct.pack(f"<{len(LAYOUT)}Q", *values.values()), WORD * len(LAYOUT))
        ptrace(SETREGS, thread, ctypes.addressof(area))


@contextlib.contextmanager
def held(process: int) -> typing.Iterator[Held]:
    """The process stands still meanwhile, and goes on then."""
    stands = Held(process)
    try:
        stands.hold()
        yield stands
    finally:
        stands.release()
