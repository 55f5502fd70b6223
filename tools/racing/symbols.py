"""What an executable's file says of addresses: symbols, and by other tools, where they are here, source lines and the texts of
instructions."""
import dataclasses
import functools
import pathlib
import re
import shutil
import struct
import subprocess

from fuzzing import readers
from kernel import LR, SC, atomic_kind

PREFIXES = ["riscv64-unknown-elf-", "riscv64-linux-gnu-", "llvm-"]
SECONDS = 20  # that another tool may take
SYMBOL_TABLE, UNDEFINED, RESERVED = 2, 0, 0xFF00  # a section's type; numbers of no section, and from there on
NO_TYPE, OBJECT, FUNCTION = 0, 1, 2  # types of symbols
ALLOCATED = 2  # the flag of a section that is in memory

REGISTERS = ["zero", "ra", "sp", "gp", "tp", "t0", "t1", "t2", "s0", "s1", *(f"a{i}" for i in range(8)),
             *(f"s{i}" for i in range(2, 12)), *(f"t{i}" for i in range(3, 7))]
LOADS = {0: "lb", 1: "lh", 2: "lw", 4: "lbu", 5: "lhu"}
STORES = {0: "sb", 1: "sh", 2: "sw"}
ATOMICS = {LR: "lr", SC: "sc", 0: "amoadd", 1: "amoswap", 4: "amoxor", 8: "amoor", 12: "amoand", 16: "amomin", 20: "amomax",
           24: "amominu", 28: "amomaxu"}
ORDERS = ["", ".rl", ".aq", ".aqrl"]  # of the bits 26 and 25


@dataclasses.dataclass
class Symbol:
    start: int
    end: int  # of what it names
    kind: int
    name: str


def symbols_of(file: bytes) -> list[Symbol]:
    """Functions, variables and labels. One without a size reaches to the end of its section, or names its address alone."""
    place, count = readers.word(file, 32), readers.half(file, 48)
    sections = [struct.unpack_from("<10I", file, place + 40 * i) for i in range(count)] if place else []
    table = next((section for section in sections if section[1] == SYMBOL_TABLE), None)
    if table is None:
        return []
    strings = sections[table[6]][4]
    found = []
    for name, value, size, info, _, section in struct.iter_unpack("<IIIBBH", file[table[4]:table[4] + table[5]]):
        text = file[strings + name:file.find(b"\0", strings + name)].decode(errors="replace")
        if info & 15 in (NO_TYPE, OBJECT, FUNCTION) and UNDEFINED < section < min(RESERVED, count) and is_telling(text):
            _, _, flags, start, _, length, *_ = sections[section]
            end = start + length if flags & ALLOCATED else value + 1
            found.append(Symbol(value, value + size if size else end, info & 15, text))
    return found


def is_telling(name: str) -> bool:
    """Not one of an assembler's or linker's own."""
    return name != "" and not name.startswith(("$", ".L")) and not name.endswith("$")


class Executable:
    def __init__(self, path: pathlib.Path):
        self.path, self.data = path, path.read_bytes()

    @functools.cached_property
    def symbols(self) -> list[Symbol]:
        """Of a file that is accepted."""
        return symbols_of(self.data)

    def name_of(self, address: int) -> str | None:
        """A symbol and how far behind it the address is, as work+1c: the nearest in front, rather one with a type."""
        found = [symbol for symbol in self.symbols if symbol.start <= address < symbol.end]
        if not found:
            return None
        symbol = max(found, key=lambda symbol: (symbol.kind != NO_TYPE, symbol.start))
        return symbol.name if symbol.start == address else f"{symbol.name}+{address - symbol.start:x}"

    def word_at(self, address: int) -> int | None:
        """The word that the file has for an address."""
        for segment in readers.program_headers(self.data):
            if segment.kind == 1 and segment.address <= address and address + 4 <= segment.address + segment.file_size:
                return readers.word(self.data, segment.offset + address - segment.address)
        return None

    def line_of(self, address: int) -> str | None:
        """File and line of the source, where the file has debug lines."""
        line = output_of("addr2line", "-e", str(self.path), f"{address:x}")
        found = re.match(r"(.+:[1-9][0-9]*)( \(discriminator \d+\))?$", line)
        return found[1] if found else None

    def text_of(self, address: int, word: int) -> str | None:
        """The text of an instruction that was run at an address."""
        if self.word_at(address) == word:
            lines = output_of("objdump", "-d", "--no-show-raw-insn", f"--start-address={address:#x}",
                              f"--stop-address={address + 4:#x}", str(self.path))
            found = re.search(rf"^\s*{address:x}:\s+([a-z].*)$", lines, re.MULTILINE)
            if found:
                return re.sub(r"\s+", " ", re.sub(r",\s*", ", ", found[1].strip()))
        return decoded(word)


def output_of(name: str, *words: str) -> str:
    """What another tool writes; nothing where there is none."""
    tool = next(filter(None, (shutil.which(prefix + name) for prefix in PREFIXES)), None)
    if tool is None:
        return ""
    try:
        return subprocess.run([tool, *words], stdin=subprocess.DEVNULL, capture_output=True, text=True, errors="replace",
                              timeout=SECONDS).stdout
    except (OSError, subprocess.TimeoutExpired):
        return ""


def decoded(word: int) -> str | None:
    """The text of a load, a store or an atomic instruction, or of an ECALL."""
    opcode, function, base = word & 127, word >> 12 & 7, REGISTERS[word >> 15 & 31]
    if opcode == 0x03 and function in LOADS:
        return f"{LOADS[function]} {REGISTERS[word >> 7 & 31]}, {signed(word >> 20)}({base})"
    if opcode == 0x23 and function in STORES:
        return f"{STORES[function]} {REGISTERS[word >> 20 & 31]}, {signed(word >> 25 << 5 | word >> 7 & 31)}({base})"
    return "ecall" if word == 0x73 else decoded_atomic(word)


def decoded_atomic(word: int) -> str | None:
    kind, (register, base, second) = atomic_kind(word), (REGISTERS[word >> at & 31] for at in (7, 15, 20))
    if kind is None:
        return None
    operand = "" if kind == LR else f"{second}, "
    return f"{ATOMICS[kind]}.w{ORDERS[word >> 25 & 3]} {register}, {operand}({base})"


def signed(field: int) -> int:
    return (field ^ 0x800) - 0x800
