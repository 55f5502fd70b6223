#!/usr/bin/env python3
"""What each guest is to write and to exit with, worked out from its input without any of the guests or Romain.

    expected.py            compares with what is stored in expected/, status 1 where they differ
    expected.py --write    stores it
"""
import hashlib
import pathlib
import sys

HERE = pathlib.Path(__file__).resolve().parent


def given(name):
    return (HERE / "inputs" / name).read_bytes()


def lines_of(text):
    """Its lines without their ends; a last one without its end counts."""
    pieces = text.split(b"\n")
    return pieces[:-1] if pieces[-1] == b"" else pieces


def sorted_lines():
    return b"".join(line + b"\n" for line in sorted(lines_of(given("sort"))))


def digest():
    return hashlib.sha256(given("sha256")).hexdigest().encode() + b"\n"


def turned_lines():
    """The program in the input writes each line of what follows it from its end to its front."""
    own_input = given("tape").split(b"!", 1)[1]
    return b"".join(line[::-1] + b"\n" for line in lines_of(own_input))


def row_sums():
    size, last = 20, 2024

    def draw():
        nonlocal last
        last = (last * 1664525 + 1013904223) % 2**32
        return last >> 8

    left, right = ([[draw() for _ in range(size)] for _ in range(size)] for _ in range(2))
    # The sum of a row of the product is that row of the left matrix times the row sums of the right one.
    sums = [sum(row) for row in right]
    return b"".join(b"%d\n" % (sum(a * b for a, b in zip(row, sums)) % 2**32) for row in left)


def digests():
    accounts, group, last = 1024, 64, 2026

    def draw():
        nonlocal last
        last = (last * 1664525 + 1013904223) % 2**32
        return last >> 8

    balances = [draw() for _ in range(accounts)]
    for _ in range(int(given("ledger"))):
        source, target, amount = draw() % accounts, draw() % accounts, draw()
        balances[source] -= amount
        balances[target] += amount
    for start in range(0, accounts, group):
        digest = 0
        for balance in balances[start:start + group]:
            digest = 31 * digest + balance
        yield b"%d\n" % (digest % 2**32)


def totals():
    numbers = [int(word) for word in given("parallel_sum").split()]
    return b"sum %d\nlargest %d\nnumbers %d\n" % (sum(numbers) % 2**32, max(numbers), len(numbers))


def squares():
    numbers = [int(word) for word in given("queue").split()]
    return b"squares %d\nnumbers %d\n" % (sum(number * number for number in numbers) % 2**32, len(numbers))


def cells():
    """Rows of cells, each from the one before by rule 110, of a ring whose last cell alone is set."""
    width, rows = 64, 16
    born = {"110", "101", "011", "010", "001"}
    row = "0" * (width - 1) + "1"
    for _ in range(rows):
        row = "".join(str(int(row[i - 1] + row[i] + row[(i + 1) % width] in born)) for i in range(width))
        yield row.translate(str.maketrans("01", ".#")).encode() + b"\n"


def word_counts():
    words = given("words").split()
    return b"".join(b"%d %s\n" % (words.count(word), word) for word in dict.fromkeys(words))


def atomics():
    """Of each program of programs/atomics its output and its status; the numbers of threads and turns are those of the program."""
    return {
        "counter": (b"", 4 * 10),
        "references": (b"", 4 * 3 * 5),
        "spin_by_store": (b"", 2 * 6),
        "spin_by_exchange": (b"", 2 * 6),
        "flag": (b"", 2 * 7),
        "held_locks": (b"", 20 + 22),
        "message": (b"First a line,\nthen another one,\nand the last.\n", 0),
        "ticket": (b"", 2 * 6),
        "dekker": (b"", 2 * 5),
        "stack": (b"", sum(range(1, 3 * 4 + 1))),
        "once": (b"The table is made.\n", sum(i * i for i in range(8))),
        "shared_queue": (b"", sum(range(1, 2 * 6 + 1))),
        "finished": (b"All are finished.\n", sum(range(21))),
    }


def expected():
    """Of each guest its output and its status."""
    count = given("lines").count(b"\n")
    return {
        "hello": (b"Hello from three machines.\n", 7),
        "cat": (given("cat"), 0),
        "sort": (sorted_lines(), 0),
        "sha256": (digest(), 0),
        "tape": (turned_lines(), 0),
        "matrix": (row_sums(), 0),
        "ledger": (b"".join(digests()), 0),
        "parallel_sum": (totals(), 0),
        "polling": (b"The count is there.\n", 0),
        "queue": (squares(), 0),
        "barrier": (b"".join(cells()), 0),
        "lines": (b"%d\n" % count, count % 256),
        "words": (word_counts(), 0),
        **{f"atomics/{name}": wanted for name, wanted in atomics().items()},
    }


def main():
    write = sys.argv[1:] == ["--write"]
    if sys.argv[1:] and not write:
        sys.exit(__doc__)
    differs = False
    for name, (output, status) in expected().items():
        for place, content in ((f"{name}.output", output), (f"{name}.status", b"%d\n" % status)):
            file = HERE / "expected" / place
            if write:
                file.parent.mkdir(exist_ok=True)
                file.write_bytes(content)
            elif not file.exists() or file.read_bytes() != content:
                print(f"expected/{place} isn't what it should be")
                differs = True
    sys.exit(1 if differs else 0)


if __name__ == "__main__":
    main()
