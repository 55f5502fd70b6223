"""Mutations: bytes of executables, lines of texts, words of commands. Each takes what is drawn from a generator."""
import struct

# ---- Bytes

# Numbers that stand at the edges of what a header may say.
EDGES = [0, 1, 2, 3, 4, 7, 15, 16, 31, 32, 33, 39, 40, 41, 52, 84, 0xFF, 0x7FFF, 0xFFFF, 0xFFF0, 0x10000, 0x10054, 0x11000,
         0x3FFFFFFF, 0x3FFFF000, 0x40000000, 0x400000, 0x400001, 0x70000000, 0x7FFFFFF0, 0x7FFFFFFF, 0x80000000, 0xFFFFF000,
         0xFFFFFFE0, 0xFFFFFFFF]


def regions(data):
    """The parts of an executable that readers look at, by their places and sizes: headers, symbols, strings; and all of it."""
    phoff, shoff = struct.unpack_from("<II", data, 28)
    phnum, _, shnum = struct.unpack_from("<HHH", data, 44)
    found = [(0, 52), (phoff, 32 * phnum), (0, len(data))]
    if shoff:
        found.append((shoff, 40 * shnum))
        for place in range(shoff, shoff + 40 * shnum, 40):
            kind, _, _, offset, size = struct.unpack_from("<5I", data, place + 4)
            found += [(place, 40), (offset, size)] if kind in (2, 3) and size else []
    return found


def number_near(draw, old, most):
    """A number for a field: at an edge, near what was there, or any."""
    how = draw.randrange(4)
    if how == 0:
        return draw.choice(EDGES) & most
    if how == 1:
        return (old + draw.choice((-40, -32, -16, -4, -1, 1, 4, 16, 32, 40))) & most
    if how == 2:
        return old ^ 1 << draw.randrange(most.bit_length())
    return draw.randrange(most + 1)


def change_field(draw, data, place):
    """A field of 1, 2 or 4 bytes gets another number."""
    size = draw.choice((1, 2, 4, 4))
    place -= place % size
    old = int.from_bytes(data[place:place + size], "little")
    data[place:place + size] = number_near(draw, old, 256**size - 1).to_bytes(size, "little")[:max(0, len(data) - place)]


def cut_out(draw, data, place):
    del data[place:place + draw.choice((1, 4, 16, 32, 40, 1 << 20))]


def put_in(draw, data, place):
    data[place:place] = draw.choice((bytes(4), bytes(32), b"\xff" * 4, draw.randbytes(draw.randrange(1, 40))))


def copy_part(draw, data, place):
    """Some bytes of another place come here."""
    size, other = draw.choice((4, 16, 32, 40)), draw.randrange(max(1, len(data)))
    data[place:place + size] = data[other:other + size]


OPCODES = [0x03, 0x0F, 0x13, 0x17, 0x23, 0x2F, 0x33, 0x33, 0x37, 0x63, 0x67, 0x6F, 0x73]


def change_word_of_code(draw, data, place):
    """An instruction gets another bit, becomes another one of the code, or any."""
    how, old = draw.randrange(4), int.from_bytes(data[place:place + 4], "little")
    if how == 0:
        new = old ^ 1 << draw.randrange(32)
    elif how == 1:
        new = draw.getrandbits(32) & ~0x7F | draw.choice(OPCODES)
    elif how == 2:
        new = old & ~0xFE000000 | draw.choice((0, 1, 32)) << 25
    else:
        other = place + 4 * draw.randrange(-20, 20)
        new = int.from_bytes(data[other:other + 4], "little") if 0 <= other else 0
    data[place:place + 4] = new.to_bytes(4, "little")[:len(data) - place]


def code_of(data):
    """Where the entry's segment stands in the file: its place, its size, and the entry's place."""
    entry, place = struct.unpack_from("<II", data, 24)
    for at in range(place, place + 32 * struct.unpack_from("<H", data, 44)[0], 32):
        kind, offset, address, _, size, _, _, _ = struct.unpack_from("<8I", data, at)
        if kind == 1 and address <= entry < address + size:
            return offset, size, offset + entry - address
    return 0, len(data), 0


def mutated_code(draw, data):
    """An executable with one to eight changes of its code."""
    (start, size, entry), data = code_of(data), bytearray(data)
    for _ in range(draw.choice((1, 1, 2, 4, 8))):
        from_entry = min(entry + 4 * draw.randrange(60), start + size - 4)
        change_word_of_code(draw, data, draw.choice((from_entry, start + 4 * draw.randrange(size // 4))))
    return bytes(data)


def mutated(draw, data):
    """An executable with one to six changes, mostly of its headers, symbols and strings; or of its code."""
    if draw.randrange(3) == 0:
        return mutated_code(draw, data)
    places, data = regions(data), bytearray(data)
    changes = [change_field] * 8 + [cut_out, put_in, copy_part, copy_part]
    for _ in range(draw.choice((1, 1, 1, 2, 2, 3, 6))):
        start, size = draw.choice(places)
        place = min(start + draw.randrange(max(1, size)), max(0, len(data) - 1))
        draw.choice(changes)(draw, data, place)
    return bytes(data)


# ---- Texts

NUMBERS = [b"0", b"1", b"2", b"3", b"7", b"8", b"9", b"15", b"16", b"31", b"32", b"255", b"256", b"4095", b"4096", b"65536",
           b"65537", b"1000000", b"1000001", b"4294967295", b"4294967296", b"1000000000000", b"1000000000001",
           b"18446744073709551615", b"18446744073709551616", b"340282366920938463463374607431768211456", b"9" * 60,
           b"00", b"01", b"+1", b"-1", b"-", b"", b"0x1", b"1.0", b"1e3"]
PIECES = [b" ", b"  ", b"\t", b"\r", b"\n", b"\n\n", b"\0", b"\xff", b"\xc3\xa9", b"0", b"reg", b"pc", b"mem", b"take", b"scrub",
          b"end", b"-"]


def change_word(draw, lines):
    """A word of a line becomes a number, a word of another place, or goes."""
    place = draw.randrange(len(lines))
    words = lines[place].split(b" ")
    at = draw.randrange(len(words))
    other = draw.choice(lines).split(b" ")
    words[at:at + 1] = draw.choice(([draw.choice(NUMBERS)], [draw.choice(NUMBERS)], [draw.choice(other)], [],
                                    [words[at], words[at]]))
    lines[place] = b" ".join(words)


def change_byte(draw, lines):
    place = draw.randrange(len(lines))
    line = bytearray(lines[place])
    at = draw.randrange(len(line) + 1)
    line[at:at + draw.choice((0, 1, 1))] = draw.choice(PIECES + [bytes([draw.randrange(256)])])
    lines[place] = bytes(line)


def change_order(draw, lines):
    one, other = draw.randrange(len(lines)), draw.randrange(len(lines))
    lines[one], lines[other] = lines[other], lines[one]


def change_lines(draw, lines):
    """A line goes, or comes again, once or many times."""
    place = draw.randrange(len(lines))
    lines[place:place + 1] = [lines[place]] * draw.choice((0, 0, 2, 2, 3, 255, 256, 257))


def mutated_text(draw, text):
    """A text with some changes; sometimes its last line has no end."""
    lines = text.split(b"\n")[:-1] or [b""]
    for _ in range(draw.choice((0, 1, 1, 1, 2, 3))):
        draw.choice((change_word, change_word, change_word, change_byte, change_byte, change_order, change_lines))(draw, lines)
        lines = lines or [b""]
    text = b"\n".join(lines) + b"\n"
    return text[:-1] if draw.randrange(12) == 0 else text


# ---- Words

PARTS = [b"", b"-", b"--", b"=", b"--=", b"---journal", b"-j", b"--journal=", b"--journal=true", b"--help", b"-h", b"-V",
         b"--version", b"help", b"run", b"--inputs", b"--inpu", b"--INPUT", b"\xff", b"--input=\xff", b"\xc3\xa9", b" ", b"\n",
         b"guest ", b"x" * 300, b"x" * 5000, b"--limit", b"--limit=", b"--limit=-1", b"--", b"..", b".", b"@faults"]


def change_words(draw, words):
    """A word goes, comes again, is another, or gets other bytes."""
    at = draw.randrange(len(words) + 1)
    how = draw.randrange(7)
    if how == 0:
        words.insert(at, draw.choice(PARTS))
    elif how == 1:
        words.insert(at, draw.choice(words or PARTS))
    elif words:
        at = min(at, len(words) - 1)
        if how == 2:
            del words[at]
        elif how == 3:
            words[at] = draw.choice(PARTS)
        elif how == 4:
            other = draw.randrange(len(words))
            words[at], words[other] = words[other], words[at]
        elif how == 5:
            words[at] = words[at].partition(b"=")[0] + b"=" + draw.choice(NUMBERS + PARTS)
        else:
            word = bytearray(words[at])
            place = draw.randrange(len(word) + 1)
            word[place:place + draw.choice((0, 1))] = bytes([draw.choice((*range(1, 47), *range(48, 256)))])  # no slash
            words[at] = bytes(word)
