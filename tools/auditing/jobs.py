"""What is judged: a job, a program with its input, its faults and the numbers of a command; and the entries of a journal."""
import dataclasses

from fuzzing import readers
from journals import End, Free, Put, Scrub, Take, Vote, read_entry

Entry = Take | Put | Vote | Free | Scrub | End


@dataclasses.dataclass
class Fault:
    """A bit of a register, of the pc or of a byte, that is flipped when a replica's thread has retired so many instructions."""
    replica: int
    thread: int
    moment: int
    kind: str  # reg, pc, mem
    number: int  # the register or the address; of the pc none: 0
    bit: int


@dataclasses.dataclass
class Job:
    """What is run, and the numbers that the run is asked for with."""
    file: bytes
    functions: dict[bytes, int]
    input: bytes
    faults: list[Fault]
    replicas: int
    drivers: int
    watchdog: int
    quantum: int
    limit: int
    scrub: int


class Refused(Exception):
    """The executable, the fault list or the journal isn't accepted."""


def job_of(file: bytes, data: bytes, faults: bytes, numbers: dict[str, int]) -> Job:
    """The job of an executable, its input, the text of a fault list and the command's numbers."""
    numbers = {name: numbers.get(name, usual) for name, (_, _, usual) in readers.RANGES.items()}
    code, functions = readers.executable_of(file)
    found, bad = readers.faults_of(faults, numbers["replicas"])
    if code is not None or bad:
        raise Refused(f"exe {code}" if code is not None else f"faults {bad[0]} {bad[1]}")
    return Job(file, functions, data, [fault_of(*words) for words in found], **numbers)


def fault_of(replica: int, thread: int, moment: int, kind: bytes, where: list[int]) -> Fault:
    number, bit = where if kind != b"pc" else (0, *where)
    return Fault(replica, thread, moment, kind.decode(), number, bit)


def entries_of(journal: bytes) -> list[Entry]:
    """The entries of a journal's text, up to its end."""
    lines, bad = readers.journal_of(journal)
    if bad:
        raise Refused(f"plan {bad[0]} {bad[1]}")
    return [read_entry(b" ".join(words).decode()) for words in lines]
