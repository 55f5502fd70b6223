"""What docs/USING.md and docs/GUESTS.md say of files and words: which are accepted, and why another one isn't. Written after
the pages, not after the program, so that one shows an error of the other."""
import collections
import dataclasses
import hashlib
import re
import struct

import options

# ---- Executables

LOWEST, HIGHEST = 0x10000, 0x40000000
MOST_MEMORY = 4 << 20
NAMES = [b"pthread_" + name for name in (b"create", b"join", b"exit", b"self", b"mutex_init", b"mutex_destroy", b"mutex_lock",
                                         b"mutex_trylock", b"mutex_unlock", b"cond_init", b"cond_destroy", b"cond_wait",
                                         b"cond_signal", b"cond_broadcast")]


def half(data, place):
    return struct.unpack_from("<H", data, place)[0]


def word(data, place):
    return struct.unpack_from("<I", data, place)[0]


@dataclasses.dataclass
class Segment:
    """A program header."""
    kind: int
    offset: int
    address: int
    file_size: int
    size: int
    flags: int

    @property
    def end(self):
        return self.address + self.size


def header_code(data):
    """The code of the first check of the header that fails, 1 to 10."""
    if len(data) < 52:
        return 1
    checks = [
        (2, data[:4] == b"\x7fELF"),
        (3, data[4] == 1),
        (4, data[5] == 1),
        (5, data[6] == 1 and word(data, 20) == 1),
        (6, half(data, 16) == 2),
        (7, half(data, 18) == 243),
        (8, word(data, 36) & 15 == 0),
        (9, half(data, 42) == 32 and 1 <= half(data, 44) <= 32),
        (10, word(data, 28) + 32 * half(data, 44) <= len(data)),
    ]
    return next((code for code, holds in checks if not holds), None)


def program_headers(data):
    for place in range(word(data, 28), word(data, 28) + 32 * half(data, 44), 32):
        kind, offset, address, _, file_size, size, flags, _ = struct.unpack_from("<8I", data, place)
        yield Segment(kind, offset, address, file_size, size, flags)


def segments_code(data, headers):
    """The code of the first check of the program headers that fails, 11 to 15."""
    loaded = [header for header in headers if header.kind == 1]
    segments = [header for header in loaded if header.size > 0]
    entry = word(data, 24)

    def apart(one, other):
        return one.end <= other.address or other.end <= one.address

    def executes(address):
        return any(segment.flags & 1 and segment.address <= address < segment.end for segment in segments)

    checks = [
        (11, all(header.kind not in (2, 3, 7) for header in headers)),
        (12, all(header.offset + header.file_size <= len(data) and header.file_size <= header.size for header in loaded)),
        (13, all(LOWEST <= segment.address and segment.end <= HIGHEST for segment in segments)
         and all(apart(one, other) for i, one in enumerate(segments) for other in segments[:i])),
        (14, entry % 4 == 0 and all(executes(entry + i) for i in range(4))),
        (15, sum(segment.size for segment in segments) <= MOST_MEMORY),
    ]
    return next((code for code, holds in checks if not holds), None)


def symbols_of(data):
    """The symbols of the first symbol table, and the strings that have their names; or the code 16."""
    place, size, count = word(data, 32), half(data, 46), half(data, 48)
    if place == 0 or count == 0:
        return b"", b""
    if size != 40 or place + 40 * count > len(data):
        return 16
    sections = [struct.unpack_from("<10I", data, place + 40 * i)[1:8] for i in range(count)]
    table = next((section for section in sections if section[0] == 2), None)
    if table is None:
        return b"", b""
    _, _, _, start, length, link, _ = table
    if start + length > len(data) or length % 16 or link >= count:
        return 16
    kind, _, _, texts, texts_length, _, _ = sections[link]
    if kind != 3 or texts + texts_length > len(data):
        return 16
    return data[start:start + length], data[texts:texts + texts_length]


def symbols_code(data):
    """Where the functions of POSIX threads are, by their names; or the code, 16 or 17."""
    found = symbols_of(data)
    return names_of(*found) if isinstance(found, tuple) else found


def names_of(symbols, strings):
    """The same of symbols and strings."""
    values = {}
    for name, value, _, info, _, section in struct.iter_unpack("<IIIBBH", symbols):
        if info & 15 == 2 and section:
            end = strings.find(b"\0", name)
            if end < 0:
                return 16
            values.setdefault(strings[name:end], set()).add(value)
    ours = {name: values[name] for name in NAMES if name in values}
    addresses = set().union(*ours.values())
    if any(len(found) > 1 for found in ours.values()) or len(addresses) < len(ours):
        return 17
    return {name: found.pop() for name, found in ours.items()}


def object_at(data, address):
    """The variable of an accepted file that an address lies in: its name, and how many bytes behind its start. None where
    there is none, or it has no name."""
    symbols, strings = symbols_of(data)
    for name, value, size, info, _, section in struct.iter_unpack("<IIIBBH", symbols):
        if info & 15 == 1 and section and value <= address < value + size:
            text = strings[name:].split(b"\0")[0]
            return ("".join(chr(byte) if 33 <= byte <= 126 else "?" for byte in text), address - value) if text else None
    return None


def executable_of(data):
    """The code by which a file is refused, or None; and where the functions of POSIX threads are, if it is accepted."""
    code = header_code(data)
    if code is None:
        code = segments_code(data, list(program_headers(data)))
    if code is not None:
        return code, {}
    found = symbols_code(data)
    return (None, found) if isinstance(found, dict) else (found, {})


# ---- Fault lists

NUMBER = re.compile(rb"0|[1-9][0-9]*")
MOST_FAULTS = 256


def fault_of(line, replicas):
    """The fault of a line without its end, or the code by which it is refused."""
    words = line.split(b" ")
    kind, count = (words[3], {b"reg": 6, b"pc": 5, b"mem": 6}.get(words[3])) if len(words) > 3 else (None, None)
    numbers = words[:3] + words[4:]
    if len(words) != count or not all(map(NUMBER.fullmatch, numbers)):
        return 1
    replica, thread, moment, *where = map(int, numbers)
    fits = {
        b"reg": lambda: 1 <= where[0] <= 31 and where[1] <= 31,
        b"pc": lambda: where[0] <= 31,
        b"mem": lambda: where[0] <= 0xFFFFFFFF and where[1] <= 7,
    }[kind]()
    if not fits or replica >= replicas or thread > 15 or moment > 10**12:
        return 2
    return replica, thread, moment, kind, where


def faults_of(data, replicas):
    """The faults of a list and None, or the first bad line and its code."""
    faults, lines = [], data.split(b"\n")
    for number, line in enumerate(lines, 1):
        last = number == len(lines)
        if last and line == b"":
            break
        fault = 3 if number > MOST_FAULTS else 1 if last else fault_of(line, replicas)
        if isinstance(fault, int):
            return [], (number, fault)
        faults.append(fault)
    return faults, None


# ---- Words

RANGES = options.tabled(options.USING.read_text())
VALUED = ["input", "faults", "mode", *RANGES]
FLAGS = ["journal", "record"]  # what is told of the journal: one of them at most
MODES = {"vote": False, "coop": True}  # whether it is the cooperative one


def number_of(text, least, most):
    """The number that a text writes, in its range; or None."""
    if not re.fullmatch(r"\+?[0-9]+", text, re.ASCII):
        return None
    value = int(text)
    return value if least <= value <= most else None


def run_of(words):
    """What the words behind the program's name ask for, by name; or None where they are no command."""
    try:
        words = [word.decode() for word in words]
    except UnicodeDecodeError:
        return None
    if words[:1] != ["run"]:
        return None
    given, rest = {}, iter(words[1:])
    for word in rest:
        if word == "" or word[0] != "-":
            name, value = "exe", word
        elif not word.startswith("--"):
            return None
        else:
            name, equals, value = word[2:].partition("=")
            if name in FLAGS and not equals:
                value = "true"
            elif name not in VALUED:
                return None
            elif not equals:
                value = next(rest, "")
        if value == "" or value[0] == "-" or name in given:
            return None
        given[name] = value
    for name, (least, most, usual) in RANGES.items():
        given[name] = number_of(given[name], least, most) if name in given else usual
        if given[name] is None:
            return None
    is_coop = MODES.get(given.get("mode", "vote"))
    suits = is_coop is not None and not (is_coop and ("faults" in given or given["scrub"] > 0))
    return given if "exe" in given and given["replicas"] != 4 and suits and not given.keys() >= set(FLAGS) else None


# ---- Journals

DIDS = [b"served", b"blocked", b"mapped", b"watch", b"trapped"]
STEPS = [b"served", b"trapped", b"parked"]  # of what a vote did, what is a step itself
HOWS = {b"exit": [(0, 255)], b"deadlock": [], b"trap": [(1, 9)], b"limit": [(0, 10**12)] * 2, b"differ": [], b"no-majority": [],
        b"sink": [(0, 4095)]}
COOP = b"romain 2 coop"  # the first line of a cooperative run
RECORDS = {b"romain 3 vote": b"romain 2", b"romain 3 coop": COOP}  # the first lines of records, and under which entries stand as behind them
DIGESTS = ["exe", "input", "faults"]
FIRST_ENTRY = 2 + len(RANGES) + len(DIGESTS)  # the line of a record's first entry
HEADS = {b"romain 1": (0, 2), b"romain 2": (0, 4), COOP: (0, 4)}  # the numbers of replicas by the first line
DRIVER, THREAD = (0, 7), (0, 15)


def entries_of(replica):
    """The ranges of the numbers of each kind of entry but an end, and but those of losers. The first version has no scrubs and
    no parts."""
    back = [DRIVER, replica, THREAD, (0, 65_536), (0, 256)]
    return {b"take": [DRIVER, replica, THREAD], b"put": back, b"vote": [THREAD, (0, 1_000_000), replica], b"free": [THREAD],
            **({b"part": back, b"scrub": [replica]} if replica == HEADS[b"romain 2"] else {})}


def fields_code(fields, ranges):
    """The code by which the numbers are refused, or None."""
    if len(fields) != len(ranges) or not all(map(NUMBER.fullmatch, fields)):
        return 1
    fit = all(least <= int(field) <= most for field, (least, most) in zip(fields, ranges))
    return None if fit else 2


def losers_of(word, replica):
    """The numbers of a list of losers, in words, and whether they rise and are few enough for so many replicas."""
    if word == b"-":
        return [], True
    losers = word.split(b",")
    if replica == HEADS[b"romain 1"] and len(losers) > 1:
        return None, False
    numbers = [int(loser) if NUMBER.fullmatch(loser) else None for loser in losers]
    rise = None not in numbers and len(numbers) <= 2 and all(one < other for one, other in zip(numbers, numbers[1:]))
    return losers, rise


def dids_of(replica):
    """What a vote may have done. The first version has no `parked`."""
    return [*DIDS, b"parked"] if replica == HEADS[b"romain 2"] else DIDS


def entry_code(words, replica):
    """The code by which a journal's line is refused, where numbers of replicas have this range, or None."""
    kind, fields = words[0], words[1:]
    if kind == b"end":
        return fields_code(fields[1:], HOWS[fields[0]]) if fields and fields[0] in HOWS else 1
    if kind not in entries_of(replica):
        return 1
    ranges, rise = entries_of(replica)[kind], True
    if kind == b"vote":
        if len(fields) != 5 or fields.pop() not in dids_of(replica):
            return 1
    if kind in (b"vote", b"scrub"):
        if len(fields) != len(ranges) + 1:
            return 1
        losers, rise = losers_of(fields.pop(), replica)
        if losers is None:
            return 1
        fields, ranges = fields + losers, ranges + [replica] * len(losers)
    code = fields_code(fields, ranges)
    return 2 if code is None and not rise else code


def digest_of(content):
    """The SHA-256 of a content, in words."""
    return hashlib.sha256(content).hexdigest()


def is_coop(data):
    """Whether a text's first line is that of a cooperative run."""
    first, _, _ = data.partition(b"\n")
    return RECORDS.get(first, first) == COOP


def head_code(name, words):
    """The code by which the line of this name in a record's head is refused, or None."""
    if len(words) != 2 or words[0] != name.encode():
        return 1
    if name in DIGESTS:
        return None if re.fullmatch(rb"[0-9a-f]{64}", words[1]) else 1
    least, most, _ = RANGES[name]
    return fields_code(words[1:], [(least, most)]) or (2 if name == "replicas" and words[1] == b"4" else None)


def head_of(data):
    """What a record's head says, by the names of its lines, and None, or the first bad line and its code."""
    lines, said = data.split(b"\n"), {}
    for number, name in enumerate([*RANGES, *DIGESTS], 2):
        words = lines[number - 1].split(b" ") if number < len(lines) else []
        code = head_code(name, words)
        if code is not None:
            return {}, (number, code)
        said[name] = words[1].decode() if name in DIGESTS else int(words[1])
    return said, None


def recorded_in(data):
    """What the head of a record says, or None where it is none or a bad one."""
    first, feed, _ = data.partition(b"\n")
    said, bad = head_of(data) if first in RECORDS and feed else ({}, (1, 1))
    return None if bad else said


def other_of(data, executable, content):
    """Which file another one stands for than a record says, the executable or the input; or None."""
    said = recorded_in(data) or {}
    files = {"exe": executable, "input": content}
    return next((name for name, file in files.items() if name in said and said[name] != digest_of(file)), None)


def journal_of(data):
    """The words of a journal's lines up to its end and None, or the first bad line and its code."""
    lines, entries = data.split(b"\n"), []
    head, start = RECORDS.get(lines[0], lines[0]), FIRST_ENTRY if lines[0] in RECORDS else 2
    if head not in HEADS or len(lines) < 2:
        return [], (1, 1)
    if lines[0] in RECORDS and head_of(data)[1]:
        return [], head_of(data)[1]
    for number, line in enumerate(lines[start - 1:], start):
        last = number == len(lines)
        if last and line == b"":
            break
        code = 1 if last else entry_code(line.split(b" "), HEADS[head])
        if code is not None:
            return [], (number, code)
        entries.append(line.split(b" "))
        if entries[-1][0] == b"end":
            break
    return entries, None


def plan_of(entries, is_coop=False):
    """The steps of a journal: pairs of a thread and how many steps of it follow each other. Those of a cooperative run are the
    first ones, which no replica took before."""
    taken, first = collections.Counter(), collections.Counter()
    for kind, *fields in entries:
        if kind in (b"put", b"part") and is_coop:
            replica, thread, retired = map(int, fields[1:4])
            taken[replica, thread] += retired
            yield thread, max(0, taken[replica, thread] - first[thread])
            first[thread] = max(first[thread], taken[replica, thread])
        elif kind == b"vote" and is_coop:
            yield int(fields[0]), int(fields[4] in STEPS)
        elif kind == b"vote":
            yield int(fields[0]), int(fields[1]) + (fields[4] in STEPS)
        elif kind == b"free":
            yield int(fields[0]), 1
