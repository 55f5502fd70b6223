"""Which bit of a process flips, by draws; and what stood there, as far as one can tell from outside."""
import dataclasses
import random

from hosting.processes import PAGE, REGISTER_BITS, REGISTERS, Gone, Held, Mapping

WHATS = ["memory", "registers", "code"]
WINDOW = 32  # bytes round a flip by which its place is known again in a file


@dataclasses.dataclass
class Flip:
    """What it hit: `holds` is a word for what stood there, `place` the address and bit, or the register and bit."""
    holds: str
    place: str


@dataclasses.dataclass
class Files:
    """What is run: by their bytes places in memory are known again."""
    exe: bytes
    input: bytes


def flip(held: Held, what: str, draw: random.Random, binary: str, files: Files) -> Flip:
    if what == "registers":
        thread, register, bit = draw.randrange(len(held.threads)), draw.choice(REGISTERS), draw.randrange(REGISTER_BITS)
        held.flip_register(held.threads[thread], register, bit)
        return Flip(register, f"thread {thread} {register} {bit}")
    pages = [(mapping, page) for mapping in held.mappings() if suits(mapping, what, binary) for page in held.resident(mapping)]
    if not pages:  # it has begun to end, or is not the program yet
        raise Gone
    mapping, page = draw.choice(pages)
    address, bit = page + draw.randrange(PAGE), draw.randrange(8)
    holds = "code" if what == "code" else kind_of(held, mapping, page, address, binary, files)
    held.flip_byte(address, bit)
    return Flip(holds, f"{address:#x} {bit}")


def suits(mapping: Mapping, what: str, binary: str) -> bool:
    """Memory is what the process itself writes; code is the program's own."""
    if what == "code":
        return "x" in mapping.permits and mapping.name == binary
    return mapping.permits.startswith("rw") and "s" not in mapping.permits


def kind_of(held: Held, mapping: Mapping, page: int, address: int, binary: str, files: Files) -> str:
    """What the bytes round an address are: of the input or the executable where they stand there too; else by the mapping."""
    start = min(max(page, address - WINDOW // 2), page + PAGE - WINDOW)
    near = held.read(start, WINDOW)
    if len(set(near)) > 2:  # no stretch of zeros
        for name, data in ("input", files.input), ("executable", files.exe):
            if near in data:
                return name
    if any(mapping.start <= held.registers(thread)["rsp"] < mapping.end for thread in held.threads):
        return "stack"
    if mapping.name in (binary, "[heap]"):
        return {binary: "program's data", "[heap]": "heap"}[mapping.name]
    return "library's data" if mapping.name.startswith("/") else "mapped memory"
