"""The share of runs that end wrong against the number of faults a run, for each number of steps from scrub to scrub: a table,
and by matplotlib a picture."""
import csv
import dataclasses
import pathlib

from campaigns.drawing import MANY
from campaigns.forms import figure, markdown, save, wilson

WRONG = "no majority", "outvoted", "differs"  # fates
COLOURS = ["#252525", "#d94801", "#2171b5", "#238b45", "#6a51a3", "#d6278a"]
LEGEND = 0.08  # the share of the picture's height below the parts


@dataclasses.dataclass
class Point:
    """Runs of a program with so many faults and so many steps from scrub to scrub."""
    program: str
    replicas: int
    pattern: str
    faults: int  # a run
    scrub: int
    runs: int
    few: int  # in which the strikes hit at most half of the replicas from each scrub to the next
    few_wrong: int  # of these
    no_majority: int
    outvoted: int
    differs: int

    def wrong(self):
        return self.no_majority + self.outvoted + self.differs


def points_of(kept):
    for point, found in kept.points(MANY).items():
        def count(fates=None, few=None):
            return sum(runs for is_few, fate, runs in found if fates is None or fate in fates if few is None or is_few == few)
        yield Point(*point, count(), count(few=1), count(WRONG, few=1), *(count([fate]) for fate in WRONG))


# What of runs is counted in each part of the picture.
PANELS = {"wrong output, or ended by no-majority": Point.wrong, "wrong output": lambda point: point.wrong() - point.no_majority,
          "covered by the promise": lambda point: point.few}


def scrub_words(scrub):
    return f"every {scrub:,} steps" if scrub else "never"


def table(points):
    heads = ["scrub", "faults", "runs", "strikes few", "of these wrong", "% (95 %)", "no majority", "outvoted", "% wrong of all (95 %)"]
    text = ""
    for key in dict.fromkeys((point.program, point.replicas, point.pattern) for point in points):
        lines = [[scrub_words(point.scrub), point.faults, point.runs, point.few, point.few_wrong,
                  shown(point.few_wrong, point.few), point.no_majority, point.outvoted, shown(point.wrong(), point.runs)]
                 for point in sorted(points, key=lambda point: (-(point.scrub or 10**13), point.faults))
                 if (point.program, point.replicas, point.pattern) == key]
        text += "### {}, {} replicas, {}\n\n".format(*key) + markdown(heads, lines)
    return text


def shown(count, total):
    """Of rare ones, too."""
    rate, low, high = wilson(count, total)
    return f"{100 * rate:.2f} ({100 * low:.2f} to {100 * high:.2f})" if total else ""


def write_csv(points, path):
    with open(path, "w", newline="") as file:
        writer = csv.writer(file, lineterminator="\n")
        writer.writerow([field.name for field in dataclasses.fields(Point)] + ["wrong", "low", "high"])
        for point in points:
            writer.writerow([*dataclasses.astuple(point), point.wrong(), *wilson(point.wrong(), point.runs)[1:]])


def plot(points, path):
    """The shares of runs that end wrong or by no-majority, of those that end wrong, and of those in which strikes stay few; of the
    first program, number of replicas and pattern that there are."""
    first = points[0]
    points = [point for point in points
              if (point.program, point.replicas, point.pattern) == (first.program, first.replicas, first.pattern)]
    drawn, every = figure(3.8, 10, ncols=3)
    for colour, scrub in zip(COLOURS, sorted({point.scrub for point in points}, key=lambda scrub: -(scrub or 10**13))):
        some = sorted((point for point in points if point.scrub == scrub), key=lambda point: point.faults)
        label = "no scrub" if scrub == 0 else f"a scrub every {scrub:,} steps"
        for axes, count in zip(every, PANELS.values()):
            draw(axes, some, [(count(point), point.runs) for point in some], colour, label)
    for axes, name in zip(every, PANELS):
        axes.set_title(name, fontsize=9)
        axes.set_xlabel("faults injected in one run")
        axes.set_ylabel("share of the runs, in %")
        axes.set_xticks(sorted({point.faults for point in points}))
        axes.set_ylim(0, 105 if axes is every[-1] else None)
    drawn.suptitle(f"{first.program}, {first.replicas} replicas, n = {runs_words(points)} runs at each point", fontsize=9)
    drawn.get_layout_engine().set(rect=(0, LEGEND, 1, 1 - LEGEND))
    drawn.legend(*every[0].get_legend_handles_labels(), loc="lower center", ncol=len(COLOURS), frameon=False)
    save(drawn, path)


def runs_words(points):
    least, most = min(point.runs for point in points), max(point.runs for point in points)
    return f"{least:,}" if least == most else f"{least:,} to {most:,}"


def draw(axes, points, counts, colour, label):
    """A line through the shares, with their intervals."""
    shares = [wilson(count, total) for count, total in counts]
    below = [100 * max(0.0, rate - low) for rate, low, _ in shares]
    above = [100 * max(0.0, high - rate) for rate, _, high in shares]
    axes.errorbar([point.faults for point in points], [100 * rate for rate, *_ in shares], yerr=[below, above], color=colour,
                  label=label, marker="o", markersize=3, capsize=2, linewidth=1)


def tell(kept, stem):
    """Writes the table, and the same as CSV, in files of this name."""
    points = list(points_of(kept))
    pathlib.Path(f"{stem}.md").write_text(table(points))
    write_csv(points, f"{stem}.csv")
