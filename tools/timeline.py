#!/usr/bin/env python3
"""Draws the journal of a run as a picture in SVG, or as a page in HTML where the file's name ends so.

    ./romain run guests/built/hello --faults one --drivers 1 --journal 2>journal
    tools/timeline.py journal --faults one -o run.svg

There is a lane for each thread of each replica. A bar is a run of instructions; time goes on by instructions, each replica
for itself up to the vote that waits for it. Where two drivers were in one replica at once their bars are underlined. A triangle is
a lease that came back by a `part`. A line is a vote, one over all lanes a scrub, an arrow a copy, a flash a strike; the lanes of a
scrub's losers are framed there. Long runs that would take too much room are cut, and short ones get a least width, so
a line of a long journal holds some dozens of votes. --from and --to draw a part of a long run, by instructions as they stand below
each line, and frame it in the overview. With the fault list, strikes stand where they struck; without, at the end of
their turn. `-` is standard input, and standard output where no -o is given.
"""
import argparse
import bisect
import collections
import dataclasses
import html
import pathlib
import statistics
import sys

import sentences
from journals import End, Free, Part, Put, Scrub, Vote, head_lines, read_report

LEFT, RIGHT, WIDTH = 96, 24, 1100  # margins and the whole width, in pixels
LANE, BAR, GAP, HEAD, FOOT = 18, 10, 10, 22, 26  # a lane's height, a bar's, between threads, above and below a line's lanes
LEAST, MOST, MIDDLE = 10, 180, 48  # widths of what lies between two marks: the least, the most, that of the median
STRETCH, END = 8, 80  # how much wider a run of few marks is drawn, and the room for its end's words
COLOURS = {"served": "#2171b5", "blocked": "#e6890a", "parked": "#8c510a", "mapped": "#6a51a3", "watch": "#8c8c8c",
           "trapped": "#a50f15", "free": "#238b45", "scrub": "#d4449c"}
MEANS = {"served": "call served", "blocked": "call waits", "parked": "mutex left, call waits", "mapped": "page needed",
         "watch": "watchdog", "trapped": "trap", "free": "a waiting call served", "scrub": "scrub"}
NO_VOTES = "free", "scrub"
RED, GREY, RUNS, LOST, BESIDE, PARTS = "#d62728", "#666666", "#9ecae1", "#f4a6a6", "#08306b", "#333333"
OVERVIEW, LINE = 34, 3  # the height of the overview, and of a line below a bar


@dataclasses.dataclass
class Bar:
    lane: tuple  # replica, thread
    start: int
    end: int
    driver: int
    lost: bool  # behind a strike, before a copy
    beside: bool  # another driver was in the replica meanwhile


@dataclasses.dataclass
class Mark:
    what: str  # a vote's result, free or scrub
    at: int
    thread: int | None  # None: of all
    title: str
    copies: tuple = ()  # pairs of a winner and a loser

    def is_on(self, lane):
        return self.thread is None or lane[1] == self.thread


@dataclasses.dataclass
class Strike:
    lane: tuple
    at: int
    title: str


@dataclasses.dataclass
class Drawing:
    bars: list
    marks: list
    strikes: list
    parts: dict  # by lane and place, how many leases came back by a part there
    waits: str  # for what they did
    lanes: list
    end: str
    length: int  # the last place that is drawn, in instructions
    start: int = 0  # and the first one

    def window(self, first, last):
        """The part between two places; what reaches over an end of it is cut there."""
        bars = [dataclasses.replace(bar, start=max(bar.start, first), end=min(bar.end, last)) for bar in self.bars
                if bar.start < last and first < bar.end]
        marks = [mark for mark in self.marks if first <= mark.at <= last]
        strikes = [strike for strike in self.strikes if first <= strike.at <= last]
        parts = {(lane, at): count for (lane, at), count in self.parts.items() if first <= at <= last}
        return dataclasses.replace(self, bars=bars, marks=marks, strikes=strikes, parts=parts, start=first, length=last)


def read_text(path):
    """Bytes that are no text are no journal either, and are told as what stands there."""
    return path.read_text(errors="backslashreplace")


def read_journal(text, name):
    """The report, or an end that names the first line that has no meaning."""
    try:
        return read_report(text)
    except (ValueError, IndexError, TypeError):
        lines = text.splitlines()
        for number, line in enumerate(lines[head_lines(lines):], 1 + head_lines(lines)):
            try:
                read_report(line)
            except (ValueError, IndexError, TypeError):
                sys.exit(f"timeline: {name} is no journal: line {number} is {line!r}")
        raise


def read_faults(path):
    """Moments of the fault list's lines by replica and thread, and the lines."""
    faults = {}
    for number, line in enumerate(read_text(path).splitlines() if path else [], 1):
        try:
            replica, thread, moment, *_ = line.split(" ")
            faults.setdefault((int(replica), int(thread)), []).append((int(moment), line))
        except ValueError:
            sys.exit(f"timeline: {path} is no fault list: line {number} is {line!r}")
    return {lane: sorted(some, key=lambda fault: fault[0]) for lane, some in faults.items()}


class Clock:
    """Where each lane is, in instructions. A replica's threads run beside each other, and replicas too; a vote of a thread
    comes when its last replica stands there, and no vote comes before the one before it."""

    def __init__(self, faults):
        self.faults = faults
        self.at, self.retired, self.struck = {}, {}, set()
        self.now = 0
        self.bars, self.marks, self.strikes, self.parts = [], [], [], collections.Counter()

    def put(self, entry):
        lane = entry.replica, entry.thread
        start = self.at.setdefault(lane, self.now)
        before = self.retired.get(lane, 0)
        self.at[lane] = start + entry.retired
        self.retired[lane] = before + entry.retired
        for at, title in self.strikes_of(lane, entry, start, before):
            self.strikes.append(Strike(lane, at, title))
            self.bar(entry, start, at)
            self.struck.add(entry.replica)
            start = at
        self.bar(entry, start, self.at[lane])
        if isinstance(entry, Part):
            self.parts[lane, self.at[lane]] += 1

    def bar(self, entry, start, end):
        lane = entry.replica, entry.thread
        self.bars.append(Bar(lane, start, end, entry.driver, entry.replica in self.struck, entry.beside))

    def strikes_of(self, lane, entry, start, before):
        """Of a turn in which faults were struck: where, and what they are."""
        known = [fault for fault in self.faults.get(lane, []) if before <= fault[0] <= before + entry.retired]
        if len(known) < entry.struck:
            known = [(before + entry.retired, f"{entry.struck} struck in this turn")] if entry.struck else []
        for moment, line in known[:entry.struck] if entry.struck else []:
            if self.faults.get(lane) and (moment, line) in self.faults[lane]:
                self.faults[lane].remove((moment, line))
            yield start + moment - before, f"fault {line}"

    def vote(self, entry):
        stand = [at for (_, thread), at in self.at.items() if thread == entry.thread]
        self.now = max([self.now, *stand])
        self.compare(entry, entry.thread, f"vote on thread {entry.thread}: {MEANS.get(entry.did, entry.did)}")
        self.wait(entry.thread)

    def scrub(self, entry):
        """It comes when all stand still, and all go on from it."""
        self.now = max([self.now, *self.at.values()])
        self.compare(entry, None, MEANS["scrub"])
        self.at = dict.fromkeys(self.at, self.now)

    def compare(self, entry, thread, title):
        copies = tuple((entry.winner, loser) for loser in entry.losers)
        for winner, loser in copies:
            title += f"; replica {loser} lost and is a copy of replica {winner}"
            self.take_over(winner, loser)
        self.marks.append(Mark(entry.did, self.now, thread, title, copies))

    def take_over(self, winner, loser):
        """The loser stands where the winner does, with all its threads."""
        self.struck.discard(loser)
        for replica, thread in list(self.at):
            if replica == winner:
                self.at[loser, thread] = self.at[winner, thread]
                self.retired[loser, thread] = self.retired.get((winner, thread), 0)

    def wait(self, thread):
        for lane in self.at:
            if lane[1] == thread:
                self.at[lane] = self.now

    def free(self, entry):
        self.marks.append(Mark("free", self.now, entry.thread, f"thread {entry.thread}: {MEANS['free']}"))
        self.wait(entry.thread)


def layout(report, faults):
    """The journal as bars and marks over instructions."""
    clock, end = Clock(faults), ""
    for entry in report.entries:
        if isinstance(entry, Put):
            clock.put(entry)
        elif isinstance(entry, Vote):
            clock.vote(entry)
        elif isinstance(entry, Free):
            clock.free(entry)
        elif isinstance(entry, Scrub):
            clock.scrub(entry)
        elif isinstance(entry, End):
            end = entry.how
    lanes = sorted({bar.lane for bar in clock.bars}, key=lambda lane: (lane[1], lane[0]))
    for mark in clock.marks:
        ran = {replica for replica, thread in lanes if mark.is_on((replica, thread))}
        if not ran or not ran.issuperset(replica for copy in mark.copies for replica in copy):
            sys.exit(f"timeline: this is no whole journal: nothing ran before: {mark.title}")
    length = max([clock.now, *clock.at.values()])
    waits = "at a lock" if report.is_cooperative else "for a page"
    return Drawing(clock.bars, clock.marks, clock.strikes, clock.parts, waits, lanes, end, length)


class Scale:
    """Instructions to pixels: between two neighbouring marks to scale, but no narrower than LEAST and no wider than MOST;
    then cut into lines that fit."""

    def __init__(self, drawing):
        points = sorted({drawing.start, drawing.length, *(mark.at for mark in drawing.marks)})
        gaps = [b - a for a, b in zip(points, points[1:])]
        self.factor = MIDDLE / max(1, statistics.median(gaps)) if gaps else 1.0
        self.points, self.places, self.lines, self.cuts = points, {drawing.start: (0, 0.0)}, [drawing.start], []
        widths = [min(MOST, max(LEAST, gap * self.factor)) for gap in gaps]
        # a short run gets more room
        stretch = max(1.0, min(STRETCH, (WIDTH - LEFT - RIGHT - END) / max(1.0, sum(widths))))
        line, x = 0, 0.0
        for a, b, width in zip(points, points[1:], widths):
            width *= stretch
            if x + width > WIDTH - LEFT - RIGHT:
                line, x = line + 1, 0.0
                self.lines.append(a)
            if (b - a) * self.factor > MOST:
                self.cuts.append((line, x + width / 2, b - a))
            self.places[b] = line, x + width
            x += width

    def gaps_of(self, start, end):
        """The parts of a range between marks: line, from, to in pixels."""
        at = max(0, bisect.bisect_right(self.points, start) - 1)
        while at + 1 < len(self.points) and (self.points[at] < end or start == end):
            a, b = self.points[at], self.points[at + 1]
            line, right = self.places[b]
            left = self.places[a][1] if self.places[a][0] == line else 0.0
            part = (right - left) / (b - a)
            yield line, left + (max(a, start) - a) * part, left + (min(b, end) - a) * part
            at += 1
            if start == end:
                return

    def place(self, at):
        """Of a mark: line and pixel."""
        if at in self.places:
            return self.places[at]
        return next((line, x) for line, x, _ in self.gaps_of(at, at))


def element(name, text=None, **values):
    words = "".join(f' {key.replace("_", "-")}="{value}"' for key, value in values.items())
    return f"<{name}{words}/>\n" if text is None else f"<{name}{words}>{text}</{name}>\n"


def title(text):
    return f"<title>{html.escape(text)}</title>"


def triangle(x, y):
    """With its point there, which is its lowest."""
    return f"M{number(x)} {number(y)} l-4 -6 h8 z"


def number(value):
    return f"{value:.1f}".removesuffix(".0")


class Picture:
    """The picture of a run, or of a window of it: a legend, an overview of the whole run where there are many lines or a window,
    and the lines, each with the lanes that it needs."""

    def __init__(self, drawing, whole, summary):
        self.drawing, self.run, self.scale, self.summary, self.body = drawing, whole, Scale(drawing), summary, []
        self.is_window = (drawing.start, drawing.length) != (whole.start, whole.length)
        scale = self.scale
        self.bars = [(line, left, right, bar) for bar in drawing.bars if bar.end > bar.start
                     for line, left, right in scale.gaps_of(bar.start, bar.end)]
        self.overview = OVERVIEW if len(scale.lines) > 3 or self.is_window else 0
        self.rows, self.tops, y = [], [], 62 + self.overview
        for needed in self.lanes_by_line():
            rows, height = self.rows_of(needed)
            self.rows.append(rows)
            self.tops.append(y)
            y += height
        self.tops.append(y)

    def lanes_by_line(self):
        """Of each line the lanes on which something is."""
        needed = [set() for _ in self.scale.lines]
        for line, _, _, bar in self.bars:
            needed[line].add(bar.lane)
        for lane, at in [*((strike.lane, strike.at) for strike in self.drawing.strikes), *self.drawing.parts]:
            needed[self.scale.place(at)[0]].add(lane)
        for mark in self.drawing.marks:
            needed[self.scale.place(mark.at)[0]] |= set(filter(mark.is_on, self.drawing.lanes))
        return needed

    def rows_of(self, needed):
        """Where lanes stand in a line, and the line's height."""
        rows, y, before = {}, HEAD, None
        for lane in self.drawing.lanes:
            if lane in needed:
                y += GAP if before is not None and lane[1] != before else 0
                rows[lane], before = y, lane[1]
                y += LANE
        return rows, y + FOOT

    def add(self, name, text=None, **values):
        self.body.append(element(name, text, **values))

    def text(self, x, y, text, **values):
        self.add("text", html.escape(text), x=number(x), y=number(y), **values)

    def draw(self):
        self.legend()
        if self.overview:
            self.whole()
        for line in range(len(self.scale.lines)):
            self.names(line)
        for part in self.bars:
            self.bar(*part)
        for line, x, length in self.scale.cuts:
            self.text(LEFT + x, self.tops[line + 1] - FOOT + 10, f"// {length} instructions", text_anchor="middle",
                      fill=GREY, font_size=9)
        for mark in self.drawing.marks:
            self.mark(mark)
        for (lane, at), count in self.drawing.parts.items():
            self.part(lane, at, count)
        for strike in self.drawing.strikes:
            self.strike(strike)
        self.end()
        return (f'<svg xmlns="http://www.w3.org/2000/svg" viewBox="0 0 {WIDTH} {self.tops[-1] + 4}" '
                'font-family="sans-serif" font-size="11">\n<rect width="100%" height="100%" fill="#ffffff"/>\n'
                f'{"".join(self.body)}</svg>\n')

    def legend(self):
        """The summary, and below it what the marks mean, as far as they come."""
        told = ", ".join(f"{what} {count}" for what, count in self.summary.items())
        self.text(10, 18, f"{told}; end {self.drawing.end}" if told else f"end {self.drawing.end}")
        come = [what for what in COLOURS if any(mark.what == what for mark in self.drawing.marks)]
        others, votes = [what for what in come if what in NO_VOTES], [what for what in come if what not in NO_VOTES]
        x = 10
        for what in [*others, *(["votes:"] if votes else []), *votes]:
            if what in COLOURS:
                self.add("line", x1=number(x + 4), y1=30, x2=number(x + 4), y2=44, stroke=COLOURS[what], stroke_width=2)
            x = self.label(x + 12, MEANS[what]) if what in COLOURS else self.label(x, what)
        for colour, label in (RUNS, "runs"), (LOST, "runs behind a strike"):
            if colour == RUNS or self.drawing.strikes:
                self.add("rect", x=number(x), y=33, width=14, height=BAR, fill=colour)
                x = self.label(x + 18, label)
        self.shared_legend(LEFT + (WIDTH - LEFT) // 2)

    def shared_legend(self, x):
        """Beside the summary: what comes where several drivers run."""
        if any(bar.beside for bar in self.drawing.bars):
            self.add("rect", x=number(x), y=10, width=14, height=BAR, fill=RUNS)
            self.add("rect", x=number(x), y=10 + BAR - LINE, width=14, height=LINE, fill=BESIDE)
            x = self.label(x + 18, "runs with another driver in the replica", 18)
        if self.drawing.parts:
            self.add("path", d=triangle(x + 4, 17), fill=PARTS)
            self.label(x + 12, f"a lease comes back {self.drawing.waits}", 18)

    def label(self, x, text, y=41):
        self.text(x, y, text)
        return x + 12 + 5.9 * len(text)

    def whole(self):
        """All of the run in one strip to scale: votes by their colour, strikes and copies above it."""
        room = WIDTH - LEFT - RIGHT
        self.text(LEFT - 8, 76, "the whole run", text_anchor="end", font_size=9)
        self.add("rect", x=LEFT, y=66, width=room, height=14, fill="#f2f2f2")
        pixel = {int(room * mark.at / max(1, self.run.length)): mark for mark in self.run.marks
                 if mark.what in ("watch", "served")}
        pixel |= {int(room * mark.at / max(1, self.run.length)): mark for mark in self.run.marks
                  if mark.what not in ("watch", "served")}
        for x, mark in pixel.items():
            self.add("rect", x=LEFT + x, y=66, width=1, height=14, fill=COLOURS.get(mark.what, "#000000"))
        for at, what in [*((strike.at, strike.title) for strike in self.run.strikes),
                         *((mark.at, mark.title) for mark in self.run.marks if mark.copies)]:
            x = number(LEFT + room * at / max(1, self.run.length))
            self.add("path", title(what), d=f"M{x} 65 l-4 -7 h8 z", fill=RED)
        if self.is_window:
            left, right = (LEFT + room * at / max(1, self.run.length) for at in (self.drawing.start, self.drawing.length))
            self.add("rect", title("what is drawn below"), x=number(left), y=65, width=number(max(1.0, right - left)), height=16,
                     fill="none", stroke="#000000")

    def names(self, line):
        top = self.tops[line]
        for (replica, thread), y in self.rows[line].items():
            self.text(LEFT - 8, top + y + 12, f"replica {replica}, thread {thread}", text_anchor="end", font_size=9)
            self.add("line", x1=LEFT, y1=number(top + y + 9), x2=WIDTH - RIGHT, y2=number(top + y + 9), stroke="#eeeeee")
        self.text(LEFT, self.tops[line + 1] - 6, f"from {self.scale.lines[line]} instructions on", fill=GREY, font_size=9)

    def mark(self, mark):
        """A line over its lanes, a broad one of a scrub, so that a vote at its place leaves it to be seen; each copy is an arrow
        beside it, with both replicas' ends, and all lanes of a scrub's loser are framed."""
        line, x = self.scale.place(mark.at)
        x, rows = x + LEFT, {lane: y for lane, y in self.rows[line].items() if mark.is_on(lane)}
        low, high = self.tops[line] + min(rows.values()) + 1, self.tops[line] + max(rows.values()) + LANE - 1
        dashes = {"stroke_dasharray": "3 2"} if mark.what in ("blocked", "parked", "watch") else {}
        self.add("line", title(mark.title), x1=number(x), y1=number(low), x2=number(x), y2=number(high),
                 stroke=COLOURS.get(mark.what, "#000000"), stroke_width=6 if mark.thread is None else 2, **dashes)
        for copy in mark.copies:
            winner, loser = (self.tops[line] + min(y for lane, y in rows.items() if lane[0] == replica) + 9 for replica in copy)
            self.add("path", title(mark.title), d=f"M{number(x)} {number(winner)} h7 V{number(loser)} h-4 l4 -3 v6 l-4 -3",
                     fill="none", stroke=RED, stroke_width=2)
            self.text(x + 11, (winner + loser) / 2 + 3, "copy", fill=RED, font_size=9)
            for lane, y in rows.items() if mark.thread is None else ():
                if lane[0] == copy[1]:
                    self.add("rect", title(mark.title), x=number(x - 4), y=number(self.tops[line] + y + 2), width=8,
                             height=LANE - 4, fill="none", stroke=RED)

    def bar(self, line, left, right, bar):
        x, y, width = number(LEFT + left), self.tops[line] + self.rows[line][bar.lane] + 4, number(max(0.5, right - left))
        told = title(f"driver {bar.driver}, instructions: {bar.end - bar.start}")
        self.add("rect", told, x=x, y=number(y), width=width, height=BAR, fill=LOST if bar.lost else RUNS)
        if bar.beside:
            self.add("rect", told, x=x, y=number(y + BAR - LINE), width=width, height=LINE, fill=BESIDE)

    def part(self, lane, at, count):
        line, x = self.scale.place(at)
        told = title(f"a lease came back {self.drawing.waits}" + (f", {count} times" if count > 1 else ""))
        self.add("path", told, d=triangle(LEFT + x, self.tops[line] + self.rows[line][lane] + 6), fill=PARTS)

    def strike(self, strike):
        line, x = self.scale.place(strike.at)
        x, y = LEFT + x, self.tops[line] + self.rows[line][strike.lane]
        self.add("path", title(strike.title), d=f"M{number(x + 3)} {number(y - 6)} l-6 9 h4 l-3 9 l8 -11 h-4 l4 -7 z",
                 fill=RED, stroke="#ffffff", stroke_width=0.6)

    def end(self):
        if self.drawing.length < self.run.length:
            return
        line, x = self.scale.place(self.drawing.length)
        self.text(LEFT + x + 4, self.tops[line] + HEAD - 8, f"end {self.drawing.end}", font_weight="bold",
                  text_anchor="end" if x > WIDTH - LEFT - 160 else "start")


def page(picture, name):
    """The picture in a page of HTML."""
    return (f'<!DOCTYPE html>\n<html lang="en">\n<meta charset="utf-8">\n<title>{html.escape(name)}</title>\n'
            f'<body style="margin:0">\n{picture}</body>\n</html>\n')


def read_arguments():
    parser = argparse.ArgumentParser(description=__doc__, formatter_class=argparse.RawDescriptionHelpFormatter)
    parser.add_argument("journal", help="a report with its journal; - is standard input")
    parser.add_argument("--faults", type=pathlib.Path, help="the run's fault list")
    parser.add_argument("--from", type=int, default=0, dest="first", metavar="N", help="draw from N instructions on (0)")
    parser.add_argument("--to", type=int, dest="last", metavar="N", help="draw up to N instructions (the end)")
    parser.add_argument("-o", "--out", type=pathlib.Path, help="file.svg or file.html (standard output, SVG)")
    return parser.parse_args()


def draw(arguments):
    text = sys.stdin.read() if arguments.journal == "-" else read_text(pathlib.Path(arguments.journal))
    report = read_journal(text, arguments.journal)
    if not report.entries:
        sys.exit(f"timeline: {arguments.journal} has no journal; run with --record or --journal")
    whole = layout(report, read_faults(arguments.faults))
    first, last = arguments.first, whole.length if arguments.last is None else min(arguments.last, whole.length)
    if not 0 <= first < max(1, last):
        sys.exit(f"timeline: the run goes on for {whole.length} instructions, and none of it lies from {first} to {last}")
    picture = Picture(whole.window(first, last), whole, report.summary).draw()
    if arguments.out and arguments.out.suffix == ".html":
        picture = page(picture, arguments.journal)
    if arguments.out:
        arguments.out.write_text(picture)
    else:
        print(picture, end="")


def main():
    arguments = read_arguments()
    try:
        draw(arguments)
    except OSError as error:
        sys.exit(f"timeline: {sentences.of_system(error)}")


if __name__ == "__main__":
    main()
