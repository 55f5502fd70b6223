"""What is fuzzed: executables, programs, fault lists, words and journals. A kind draws a case, a command and the files beside
it, and says what is wrong with what came of it."""
import dataclasses
import os
import pathlib

from fuzzing import drawing, machine, programs, readers

ROOT = pathlib.Path(__file__).resolve().parent.parent.parent
GUESTS = ROOT / "guests"
SMALL = ROOT / "crates/romain/data"

# The answers and their statuses, as docs/USING.md has them.
STATUSES = {"deadlock": 240, "trap": 241, "differ": 242, "no-majority": 243, "limit": 244, "sink": 245, "store": 246, "exe": 247,
            "faults": 248, "words": 249, "no-memory": 250, "too-long": 252, "plan": 253, "no-step": 254, "unended": 239,
            "other": 238}
NUMBERS = {"exit": 1, "trap": 1, "limit": 2, "sink": 1, "exe": 1, "faults": 2, "plan": 2, "no-step": 1}  # behind an answer
REFUSALS = ["store", "exe", "faults", "words", "too-long", "plan", "other"]
# What no case asks for: all files and outputs are there, and there is memory.
NEVER = ["sink", "no-memory"]


@dataclasses.dataclass
class Case:
    words: list  # of the command, behind the program's name
    files: dict  # by name
    wanted: str | None  # the answer; None where a run may end in several ways
    about: object = None  # what a kind knows of it besides


@dataclasses.dataclass
class Came:
    """What came of a case."""
    status: int
    output: bytes
    report: bytes

    def answer(self):
        lines = self.report.split(b"\n")
        line = lines[-2] if len(lines) > 1 and lines[-1] == b"" else b""
        return line[7:].decode(errors="replace") if line.startswith(b"answer ") else None

    def summary(self):
        """The numbers of the line before the answer, by their names."""
        lines = self.report.split(b"\n")
        words = lines[-3].split(b" ") if len(lines) > 2 else []
        return {name.decode(): int(number) for name, number in zip(words[::2], words[1::2]) if number.isdigit()}


def status_of(answer):
    """The status that goes with an answer; None where it is none."""
    kind, *numbers = answer.split(" ")
    if kind == "other":
        return STATUSES[kind] if len(numbers) == 1 and numbers[0] in (*readers.RANGES, *readers.DIGESTS) else None
    if len(numbers) != NUMBERS.get(kind, 0) or not all(number.isdigit() for number in numbers):
        return None
    return int(numbers[0]) if kind == "exit" else STATUSES.get(kind)


def usual_troubles(case, came):
    """What is wrong with any run."""
    answer = came.answer()
    if came.status < 0:
        yield f"it died by signal {-came.status}"
    if answer is None or status_of(answer) != came.status:
        yield f"status {came.status}, and the report's last line is {came.report[-80:]!r}"
        return
    kind = answer.split(" ")[0]
    if kind in NEVER or case.wanted not in (None, answer):
        yield f"the answer is {answer}, not {case.wanted or 'one of a run'}"
    if kind in REFUSALS:
        if came.output or came.report != f"answer {answer}\n".encode():
            yield f"a refused command writes {came.output[:80]!r} and reports {came.report[:200]!r}"
    elif case.words[:1] == [b"run"]:
        yield from run_troubles(case, came, answer)


def run_troubles(case, came, answer):
    """What is wrong with the summary of a replicated run."""
    summary = came.summary()
    if list(summary) != ["votes", "copies", "struck", "steps", "bytes"]:
        yield f"a summary is missing in {came.report[-200:]!r}"
        return
    if summary["bytes"] != len(came.output):
        yield f"{len(came.output)} bytes came, and the summary says {summary['bytes']}"
    run = readers.run_of(case.words) or {}
    limit = run.get("limit", 10**9)
    if summary["steps"] > limit and run.get("mode") != "coop":  # whose leases may pass it
        yield f"{summary['steps']} steps are more than the limit of {limit}"
    kind, *numbers = answer.split(" ")
    if kind == "limit" and not (int(numbers[0]) == summary["steps"] and summary["steps"] + int(numbers[1]) > limit):
        yield f"{answer} is told of {summary['steps']} steps and a limit of {limit}"


class Executables:
    """Changed executables. Which are refused, and by which code, is known; what the others come to, too, as long as they have one
    thread: output, answer, votes and steps, whatever the number of replicas and drivers, the quantum and the scrubs."""

    LIMITS = [200, 2_000, 10_000]

    def __init__(self):
        built = [path for path in (GUESTS / "built").iterdir() if path.is_file()]
        files = [*sorted(built), *sorted(SMALL.iterdir())]
        self.real = [file.read_bytes() for file in files]

    def file(self, draw):
        return drawing.mutated(draw, draw.choice(self.real))

    def draw(self, draw):
        file, data = self.file(draw), draw.randbytes(draw.choice((0, 1, 100, 5000)))
        options = {"limit": draw.choice(self.LIMITS), "watchdog": draw.choice((100, 128, 1_000, 10_000)),
                   "quantum": draw.choice((1, 7, 128, 4_096)), "replicas": draw.choice((2, 3, 5)),
                   "drivers": draw.choice((1, 1, 2, 3)), "scrub": draw.choice((0, 0, 1, 50, 1_000))}
        words = [b"run", b"guest", b"--input", b"input"]
        for name, number in options.items():
            words += [b"--" + name.encode(), str(number).encode()]
        code, functions = readers.executable_of(file)
        ran, wanted = None, f"exe {code}"
        if code is None:
            ran = machine.Machine(file, functions, data, options["watchdog"], options["limit"])
            wanted = ran.run()
        return Case(words, {"guest": file, "input": data}, wanted, ran)

    def troubles(self, case, came):
        ran = case.about
        if ran is None:
            return
        if case.wanted is None:
            if (came.answer() or "").split(" ")[0] in (*REFUSALS, "unended", "no-step"):
                yield f"it is accepted by the pages, and the answer is {came.answer()}"
            return
        report = f"votes {ran.votes} copies 0 struck 0 steps {ran.steps} bytes {len(ran.output)}\nanswer {case.wanted}\n"
        if came.report != report.encode():
            yield f"{came.report!r} is reported, not {report!r}"
        if came.output != ran.output:
            wanted = bytes(ran.output)
            yield f"{came.output[:80]!r}.., {len(came.output)} bytes came, not {wanted[:80]!r}.., {len(wanted)} bytes"


class Programs(Executables):
    """Programs of drawn instructions, which write what comes of them."""

    LIMITS = [200] + [2_000] * 19

    def file(self, draw):
        return programs.draw_program(draw, draw.choice((20, 200)))


class Faults:
    """Changed fault lists for the greeting. Which are refused is known, with line and code; three replicas hide the faults of
    one, and two of which one is struck write a front."""

    OUTPUT, STATUS = b"Hello from three machines.\n", 7

    def __init__(self):
        self.guest = (SMALL / "hello").read_bytes()

    def line(self, draw):
        where = draw.choice((f"reg {draw.randrange(1, 32)} {draw.randrange(32)}", f"pc {draw.randrange(32)}",
                             f"mem {draw.choice((65536, 65646, 0x50000000, 0x7000FFF0, 4294967295))} {draw.randrange(8)}"))
        return f"{draw.randrange(3)} {draw.choice((0, 0, 0, 1, 15))} {draw.choice((0, 1, 5, 12, 20, 10**12))} {where}\n"

    def draw(self, draw):
        text = "".join(self.line(draw) for _ in range(draw.choice((1, 1, 2, 3, 8)))).encode()
        if draw.randrange(3) == 0:  # all in one replica
            text = b"".join(b"1" + line[1:] + b"\n" for line in text.split(b"\n")[:-1])
        text = drawing.mutated_text(draw, text)
        replicas = draw.choice((2, 3, 5))
        faults, bad = readers.faults_of(text, replicas)
        words = [b"run", b"guest", b"--faults", b"faults", b"--limit", b"50000", b"--replicas", str(replicas).encode(),
                 b"--drivers", b"1", *draw.choice(([], [], [b"--scrub", b"1"], [b"--scrub", b"15"]))]
        wanted = f"faults {bad[0]} {bad[1]}" if bad else None
        struck = {fault[0] for fault in faults}
        if wanted is None and replicas > 2 and 2 * len(struck) <= replicas:
            wanted = f"exit {self.STATUS}"
        return Case(words, {"guest": self.guest, "faults": text}, wanted, (replicas, struck))

    def troubles(self, case, came):
        answer, (replicas, struck) = came.answer() or "", case.about
        if answer == f"exit {self.STATUS}" and 2 * len(struck) <= max(replicas, 3) and came.output != self.OUTPUT:
            yield f"{came.output!r} came"
        if replicas == 2 and len(struck) == 1 and not case.wanted:
            if answer not in ("differ", f"exit {self.STATUS}") or not self.OUTPUT.startswith(came.output):
                yield f"one of two replicas was struck; the answer is {answer}, and {came.output!r} came"


class Words:
    """Changed words. What they ask for is known, and so is the answer."""

    def __init__(self):
        self.files = {"guest": (SMALL / "p0").read_bytes(), "empty": b"", "input": b"abc", "faults": b"0 1 5824 pc 11\n",
                      "bad": b"0 1 5824 pc 32\n", "-": b""}
        self.options = {b"mode": [b"coop", b"coop", b"vote", b"Coop", b"cooperative", b"", b"0"],
                        b"input": [b"input", b"empty", b"nothere", b"."], b"faults": [b"faults", b"empty", b"bad", b"nothere"],
                        **{name.encode(): [str(number).encode() for number in
                                           (least, most, usual, least - 1, most + 1, 0, 1 << 64, (1 << 64) - 1)]
                           + [b"+%d" % most, b"000%d" % least, b" 3", b"3 ", b"0x3", b"", b"\xd9\xa3"]
                           for name, (least, most, usual) in readers.RANGES.items()}}

    def draw(self, draw):
        words = [draw.choice((b"guest",) * 6 + (b"empty", b"nothere", b".", b"./guest"))]
        for name in draw.sample(sorted(self.options), draw.choice((0, 1, 1, 2, 3, 7))):
            value = draw.choice(self.options[name][:3] if draw.randrange(2) else self.options[name])
            words[draw.choice((0, len(words))):0] = draw.choice(([b"--" + name, value], [b"--" + name + b"=" + value]))
        if draw.randrange(3) == 0:
            words.insert(draw.choice((0, len(words))), draw.choice((b"--journal", b"--record")))
        words.insert(0, b"run")
        for _ in range(draw.choice((0, 0, 1, 1, 2))):
            drawing.change_words(draw, words)
        return Case(words, self.files, self.wanted(words), readers.run_of(words))

    def content(self, name):
        """What a file has, or None where it isn't there. Names have no slash but in ./guest."""
        return self.files.get(name[2:] if name.startswith("./") else name)

    def wanted(self, words):
        run = readers.run_of(words)
        if run is None:
            return "words"
        guest = self.content(run["exe"])
        if guest is None:
            return "store"
        code, _ = readers.executable_of(guest)
        if code:
            return f"exe {code}"
        if "input" in run and self.content(run["input"]) is None:
            return "store"
        faults = self.content(run["faults"]) if "faults" in run else b""
        if faults is None:
            return "store"
        _, bad = readers.faults_of(faults, run["replicas"])
        if bad:
            return f"faults {bad[0]} {bad[1]}"
        if run["limit"] >= 3:
            return "exit 7"
        return "limit 2 1" if run.get("mode") == "coop" else "limit 0 3"

    def troubles(self, case, came):
        ran = case.about is not None and case.wanted.split(" ")[0] not in REFUSALS
        if not ran:
            return
        wanted = [case.about.get("mode") == "coop", "record" in case.about] if case.about.keys() & set(readers.FLAGS) else None
        first = came.report.partition(b"\n")[0]
        told = [readers.is_coop(came.report), first in readers.RECORDS] if first in readers.HEADS or first in readers.RECORDS else None
        if told != wanted:
            yield f"the report begins with {came.report[:40]!r}"
        elif told and told[1] and readers.recorded_in(came.report) != self.recorded(case.about):
            yield f"the record says {readers.recorded_in(came.report)}"

    def recorded(self, run):
        """What the record of a run says."""
        contents = [self.content(run[name]) if name in run else b"" for name in readers.DIGESTS]
        return {name: run[name] for name in readers.RANGES} | dict(zip(readers.DIGESTS, map(readers.digest_of, contents)))


class Journals:
    """Changed journals of the greeting, whose plan is run. Which are refused is known, and what comes of the others, too: the
    machine takes its 21 steps by thread 0 and no other, and writes at its 14th."""

    STEPS, WRITES = 21, 14
    MOST = 10**9
    KNOWN = b"romain 2\nvote 0 13 0 - served\nvote 0 6 0 - served\nend exit 7\n"

    def __init__(self):
        self.guest = (SMALL / "hello").read_bytes()

    def text(self, draw):
        """A journal like those that a run of one driver has, and now and then a lease that comes back in parts. One of a cooperative
        run has the same steps."""
        lines, left = draw.choice(([b"romain 2"], [b"romain 2"], [readers.COOP], self.record_head(draw))), [13, 6]
        for steps in left:
            for replica in range(3):
                kind = draw.choice((b"put", b"put", b"put", b"part"))
                lines += [b"take 0 %d 0" % replica, b"%s 0 %d 0 %d 0" % (kind, replica, steps)]
            lines += [b"scrub 0 %s" % draw.choice((b"-", b"1", b"1,2"))] * draw.choice((0, 0, 1))
            did = draw.choice((b"served", b"served", b"parked"))  # each a step
            lines.append(b"vote 0 %d 0 %s %s" % (steps, draw.choice((b"-", b"1", b"2")), did))
        return b"\n".join(lines + [draw.choice((b"end exit 7", b"end limit 5 6", b"end sink 3", b"free 0"))]) + b"\n"

    def draw(self, draw):
        text = drawing.mutated_text(draw, self.text(draw))
        entries, bad = readers.journal_of(text)
        plan, other = self.plan_of(text, entries), readers.other_of(text, self.guest, b"")
        wanted = f"plan {bad[0]} {bad[1]}" if bad else f"other {other}" if other else self.wanted(plan)
        return Case([b"plain", b"guest", b"--plan", b"plan"], {"guest": self.guest, "plan": text}, wanted, plan)

    def record_head(self, draw):
        """The head of a record of the greeting, which now and then is another's."""
        numbers = [b"%s %d" % (name.encode(), usual) for name, (_, _, usual) in readers.RANGES.items()]
        files = [draw.choice((self.guest,) * 6 + (b"",)), draw.choice((b"",) * 6 + (b"a",)), b""]
        digests = [f"{name} {readers.digest_of(file)}".encode() for name, file in zip(readers.DIGESTS, files)]
        return [draw.choice(list(readers.RECORDS)), *numbers, *digests]

    def plan_of(self, text, entries):
        return list(readers.plan_of(entries, readers.is_coop(text)))

    def wanted(self, plan):
        length, place = 0, None
        for thread, steps in plan:
            if length + steps > self.MOST:
                return f"limit {length} {steps}"
            if steps and place is None and (thread != 0 or length + steps > self.STEPS):
                place = length if thread != 0 else max(length, self.STEPS)
            length += steps
        if place is not None:
            return f"no-step {place}"
        return "exit 7" if length == self.STEPS else "unended"

    def troubles(self, case, came):
        kind, *numbers = case.wanted.split(" ")
        length = sum(steps for _, steps in case.about)
        taken = 0 if kind in ("plan", "limit", "other") else int(numbers[0]) if kind == "no-step" else length
        output = Faults.OUTPUT if taken >= self.WRITES else b""
        summary = f"steps {length} bytes {len(output)}\n" if kind in ("exit", "unended") else ""
        if came.output != output:
            yield f"{came.output[:80]!r} came, not {output!r}"
        if came.report != f"{summary}answer {case.wanted}\n".encode():
            yield f"{came.report[-80:]!r} is reported, not {summary}answer {case.wanted}"


KINDS = {"executables": Executables, "programs": Programs, "faults": Faults, "words": Words, "journals": Journals}


def write(case, folder, laid=None):
    """Lays down a case's files, but for those that were laid there before. A folder may not be in the way of a name."""
    for name, data in case.files.items():
        if laid is None or laid.get(name) is not data:
            (pathlib.Path(folder) / name).write_bytes(data)


def shown(case, program):
    """The command of a case as a line of the shell."""
    words = [os.fsencode(program), *case.words]
    return b" ".join(b"'" + word.replace(b"'", b"'\\''") + b"'" for word in words) + b"\n"
