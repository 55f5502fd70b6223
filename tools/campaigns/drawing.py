"""What is drawn: the faults of a run, from the seed, the program and the run's number alone, so that any run of a campaign
can be made again by itself."""
import dataclasses
import random

STACKS, STACK_STEP, STACK_SIZE = 0x70000000, 0x20000, 0x10000
# of a stack only the part that small programs use is struck
STACK_PART = 2 * 1024

KINDS = ["reg", "pc", "mem"]
PATTERNS = {
    "one": "one fault",
    "two-in-one": "two faults in one replica, each drawn by itself",
    "two-in-two": "two faults in two replicas, each drawn by itself",
    "burst": "neighbouring bits of one register, of the pc or of memory at one moment",
    "scattered": "some faults, each drawn by itself, its replica too",
    "in-turn": "some faults, each in a later part of the run and in another replica than the one before",
}
MANY = "scattered", "in-turn"  # patterns of as many faults as are asked for
REGISTERS = ("zero ra sp gp tp t0 t1 t2 s0 s1 a0 a1 a2 a3 a4 a5 a6 a7 s2 s3 s4 s5 s6 s7 s8 s9 s10 s11 t3 t4 t5 t6").split()


@dataclasses.dataclass
class Fault:
    replica: int
    thread: int
    moment: int
    kind: str
    place: str  # register's name, pc, or code, data, heap, mapped, stack
    number: int  # the register or the address; of the pc none: 0
    bit: int

    def where(self):
        return f"{self.bit}" if self.kind == "pc" else f"{self.number} {self.bit}"

    def line(self):
        return f"{self.replica} {self.thread} {self.moment} {self.kind} {self.where()}\n"


def neighbours(fault, width):
    """The fault and the bits above it; in memory they go on in the next byte."""
    for step in range(width):
        bit = fault.bit + step
        if fault.kind == "mem":
            yield dataclasses.replace(fault, number=fault.number + bit // 8, bit=bit % 8)
        else:
            yield dataclasses.replace(fault, bit=bit)


def draw_memory(draw, program, thread, width):
    """A place of memory, then a bit of it with room for its neighbours."""
    stack_end = STACKS + thread * STACK_STEP + STACK_SIZE
    areas = program.areas | {"stack": [(stack_end - STACK_PART, STACK_PART)]}
    place = draw.choice(sorted(areas))
    start, length = draw.choice(areas[place])
    bit = draw.randrange(max(1, 8 * length - width + 1))
    return place, start + bit // 8, bit % 8


def draw_fault(draw, program, replica, width=1, kinds=KINDS, part=None):
    """Each thread, moment of that thread, kind and bit alike likely; of the moments those between two shares of them, where a
    part is given."""
    thread = draw.choice(sorted(program.retired))
    retired = program.retired[thread]
    moment = draw.randrange(retired + 1) if part is None else int(draw.uniform(*part) * retired)
    kind = draw.choice(kinds)
    if kind == "mem":
        place, number, bit = draw_memory(draw, program, thread, width)
    else:
        number = draw.randrange(1, 32) if kind == "reg" else 0
        place, bit = REGISTERS[number] if kind == "reg" else "pc", draw.randrange(33 - width)
    return Fault(replica, thread, moment, kind, place, number, bit)


def draw_run(program, seed, number, pattern, replicas, count=2, width=1, kinds=KINDS):
    """The faults of one run."""
    draw = random.Random(f"{seed} {program.name} {pattern} {f'{count} ' if pattern in MANY else ''}{number}")
    if pattern == "burst":
        return list(neighbours(draw_fault(draw, program, draw.randrange(replicas), width, kinds), width))
    if pattern == "scattered":
        return [draw_fault(draw, program, draw.randrange(replicas), kinds=kinds) for _ in range(count)]
    if pattern == "in-turn":
        return draw_in_turn(draw, program, replicas, count, kinds)
    struck = draw.sample(range(replicas), 2) if pattern == "two-in-two" else [draw.randrange(replicas)] * 2
    return [draw_fault(draw, program, replica, kinds=kinds) for replica in (struck[:1] if pattern == "one" else struck)]


def draw_in_turn(draw, program, replicas, count, kinds):
    """The run is cut into so many parts, and a fault strikes in the middle half of each."""
    replica, faults = draw.randrange(replicas), []
    for number in range(count):
        faults.append(draw_fault(draw, program, replica, kinds=kinds, part=((number + 0.25) / count, (number + 0.75) / count)))
        replica = draw.choice([other for other in range(replicas) if other != replica])
    return faults


def unreplicated(faults):
    """The same faults in both of two replicas. Both do the same then, so what is seen is what one machine alone does."""
    return [dataclasses.replace(fault, replica=replica) for replica in range(2) for fault in faults]
