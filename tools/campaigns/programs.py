"""The programs of a campaign: their files, where their memory is struck, and their run without faults."""
import bisect
import csv
import dataclasses
import hashlib
import pathlib
import struct
import subprocess
import sys
import tempfile

from campaigns.running import call
from journals import read_report
from kernel import MAPPED

ROOT = pathlib.Path(__file__).resolve().parent.parent.parent
PAGE = 4096
SYMBOL_TABLE, ALLOCATED = 2, 2  # the kind of a section; the flag of one that is in memory
OBJECT, FUNCTION = 1, 2  # kinds of symbols
# of the heap and of mapped memory only the part that small programs use is struck
HEAP_PART = 16 * 1024
# addi a7, zero, 222: a program that has it asks for mapped memory
ASKS_FOR_MAPPED = struct.pack("<I", 0x0DE00893)


@dataclasses.dataclass
class Program:
    name: str
    words: list  # of the command: run EXE and its input
    image: str  # a digest of the executable and the input: a changed program is another one
    output: bytes
    status: int
    steps: int
    retired: dict  # by thread, in the run without faults
    areas: dict  # by place: a list of start and length
    names: list  # of memory, in order: start, end, section, symbol

    def limit(self):
        """Steps that a struck run may take. One whose faults are hidden takes as many as the run without faults."""
        return 2 * self.steps + 100_000

    def name_of(self, address):
        """The section and the symbol at an address, as far as the file tells."""
        place = bisect.bisect_right(self.names, (address, 1 << 32, "", "")) - 1
        if place >= 0 and address < self.names[place][1]:
            return self.names[place][2:]
        return "", ""


def segments_of(data):
    """The loaded segments of an executable: flags, address, size in memory."""
    start, count = struct.unpack_from("<I", data, 28)[0], struct.unpack_from("<H", data, 44)[0]
    for i in range(count):
        kind, _, address, _, _, size, flags, _ = struct.unpack_from("<8I", data, start + 32 * i)
        if kind == 1 and size > 0:
            yield flags, address, size


def areas_of(data):
    """Where memory is struck, by place; stacks are a thread's own."""
    areas, top = {}, 0
    for flags, address, size in segments_of(data):
        areas.setdefault("code" if flags & 1 else "data", []).append((address, size))
        top = max(top, address + size)
    areas["heap"] = [((top + PAGE - 1) // PAGE * PAGE, HEAP_PART)]
    if ASKS_FOR_MAPPED in data:
        areas["mapped"] = [(MAPPED, HEAP_PART)]
    return areas


@dataclasses.dataclass
class Section:
    name: str
    kind: int
    flags: int
    address: int
    offset: int
    size: int
    link: int  # the number of another section: of a symbol table its strings


def text_at(data, place):
    return data[place:data.index(b"\0", place)].decode(errors="replace")


def sections_of(data):
    """The sections of an executable, in the order of their numbers."""
    start, count, names = struct.unpack_from("<I", data, 32)[0], *struct.unpack_from("<HH", data, 48)
    if start == 0:
        return []
    heads = [struct.unpack_from("<7I", data, start + 40 * i) for i in range(count)]
    return [Section(text_at(data, heads[names][4] + name), *rest) for name, *rest in heads]


def symbols_of(data, sections):
    """Address, size and name of the functions and objects, in order."""
    tables = [section for section in sections if section.kind == SYMBOL_TABLE]
    found = set()
    for table in tables:
        strings = sections[table.link].offset
        for name, value, size, info, _, _ in struct.iter_unpack("<IIIBBH", data[table.offset:table.offset + table.size]):
            if info & 15 in (OBJECT, FUNCTION):
                found.add((value, size, text_at(data, strings + name)))
    return sorted(found)


def names_of(data):
    """Section and symbol by ranges of addresses."""
    sections = sections_of(data)
    symbols = symbols_of(data, sections)
    return sorted(name for section in sections if section.flags & ALLOCATED and section.size
                  for name in ranges_of(section, symbols))


def ranges_of(section, symbols):
    """A section cut at its functions and objects; one without a size reaches to the next. What is between has no name."""
    start, end = section.address, section.address + section.size
    at, cuts = start, [cut for cut in symbols if start <= cut[0] < end]
    for (value, size, name), after in zip(cuts, [*(value for value, _, _ in cuts[1:]), end]):
        if at < value:
            yield at, value, section.name, ""
        at = min(after, value + size) if size else after
        if value < at:
            yield value, at, section.name, name
    if at < end:
        yield at, end, section.name, ""


@dataclasses.dataclass
class Request:
    """A program that is asked for, before it ran."""
    name: str
    exe: pathlib.Path
    input: pathlib.Path | None = None
    wanted: tuple | None = None  # status and output, where they are known from elsewhere


def examples(names):
    """Those of guests/ that are named, or all, with what expected.py worked out for them."""
    stored = ROOT / "guests/expected"
    known = sorted(file.stem for file in stored.glob("*.status"))
    unknown = [name for name in names if name not in known]
    if unknown:
        sys.exit(f"campaign: failed, nothing was run: no guest {', '.join(unknown)} among {', '.join(known)}")
    for name in names or known:
        given = ROOT / "guests/inputs" / name
        wanted = int((stored / f"{name}.status").read_text()), (stored / f"{name}.output").read_bytes()
        yield Request(name, ROOT / "guests/built" / name, given if given.exists() else None, wanted)


def read_table(path):
    """A table of programs in CSV: a line of heads, name,exe,input; paths are from the table's folder."""
    with open(path, newline="") as file:
        table = csv.DictReader(file)
        if "exe" not in (table.fieldnames or []):
            sys.exit(f"campaign: failed, nothing was run: {path} has no column exe; its heads are name,exe,input")
        for line in table:
            given = line.get("input") or ""
            exe = path.parent / line["exe"]
            yield Request(line.get("name") or exe.name, exe, path.parent / given if given else None)


# Words of runs in which threads come in other orders, as it happens: with several drivers a thread that works for long can be
# passed by another where one of its replicas waits at the watchdog's turn for the others.
OTHER_ORDERS = [
    ["--drivers", "3"],
    ["--drivers", "3", "--watchdog", "1000"],
    ["--drivers", "3", "--watchdog", "2000", "--quantum", "65536"],
    ["--drivers", "3", "--quantum", "61"],
]


def open_program(arguments, request):
    """The program and its run without faults. One driver, so that the counts are always the same."""
    words = ["run", str(request.exe.absolute())]
    if request.input:
        words += ["--input", str(request.input.absolute())]
    without = words + ["--limit", str(arguments.limit)]
    status, output, text = plain_run(arguments, without + ["--drivers", "1"])
    report = read_report(text)
    if not report.answer.startswith("exit ") or (request.wanted and (status, output) != request.wanted):
        refuse(request, f"without faults it doesn't run as it should, answer {report.answer}")
    retired = report.retired()
    has_to_be_free_of_races = len(retired) > 1 and not arguments.racy
    if has_to_be_free_of_races:
        look_for_race(arguments, request, words, text)
    # Judging compares with one run; where another order of threads shows, that says nothing.
    for other in OTHER_ORDERS:
        *same, text = plain_run(arguments, without + other)
        if has_to_be_free_of_races:
            look_for_race(arguments, request, words, text)
        if same != [status, output]:
            refuse(request, "without faults it writes otherwise in another order of its threads")
    data = request.exe.read_bytes()
    given = request.input.read_bytes() if request.input else b""
    image = hashlib.sha256(hashlib.sha256(data).digest() + given).hexdigest()[:16]
    return Program(request.name, words, image, output, status, report.summary["steps"], retired, areas_of(data), names_of(data))


def refuse(request, why):
    sys.exit(f"campaign: failed, nothing was run: {request.name}: {why}")


def plain_run(arguments, words):
    done = call(arguments.romain, words, "", arguments.seconds)
    if done is None:
        sys.exit(f"campaign: failed, nothing was run: romain {' '.join(words)} doesn't come to its end")
    return done


def look_for_race(arguments, request, words, text):
    """Refuses a program whose threads raced in a run without faults: its replicas may differ though nothing struck them."""
    with tempfile.NamedTemporaryFile("w", suffix=".journal") as plan:
        plan.write(text)
        plan.flush()
        command = [arguments.romain, "races", *words[1:], "--plan", plan.name]
        told = subprocess.run(command, stdin=subprocess.DEVNULL, capture_output=True, text=True).stderr
    answer, *places = read_report(told).answer.split(" ")
    if answer == "race":
        refuse(request, "steps {} and {} of a run without faults race for the byte at {}, so replicas may differ that nothing "
                        "struck; tools/races.py says where, and --racy goes on all the same".format(*places))
    if answer != "no-race":
        refuse(request, f"whether its threads race can't be told, romain races answers {answer}; --racy goes on all the same")
