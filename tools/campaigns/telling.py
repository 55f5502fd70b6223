"""Tables and, by matplotlib, pictures of a campaign's rows."""
import collections
import math

from campaigns.drawing import KINDS, REGISTERS
from campaigns.forms import figure, markdown, save, shown_rate
from campaigns.judging import FATES, FATES_ALONE
from campaigns.ways import WAY, more_of

COLOURS = {"vanished": "#9ecae1", "overwritten": "#2171b5", "stopped": "#6a51a3", "no majority": "#fdae6b",
           "outvoted": "#e6550d", "not reached": "#d9d9d9", "differs": "#a50f15", "silent corruption": "#d94801",
           "crash": "#737373", "hang": "#252525"}
FOUND = "overwritten", "stopped", "no majority"
HARMED = "silent corruption", "crash", "hang"
LATENCIES = [0, 1, 10, 100, 1_000, 10_000, 100_000, 1_000_000]


def groups_of(rows, *columns):
    """The rows by their values in these columns, in order."""
    groups = collections.defaultdict(list)
    for row in rows:
        groups[tuple(getattr(row, column) for column in columns)].append(row)
    return sorted(groups.items())


def is_alone(rows):
    return any(row.machine == "unreplicated" for row in rows)


def fates_of(rows):
    """The fates that come in them, in their order; `differs` always."""
    counts = collections.Counter(row.fate for row in rows)
    return [fate for fate in (FATES_ALONE if is_alone(rows) else FATES) if fate == "differs" or counts[fate]]


def fates_by(rows, column, title, order=None):
    """By the values of a column how often each fate came, and the share of runs that were found, or where nobody compares of
    those that were harmed, the architectural vulnerability factor, with its interval."""
    fates, told = fates_of(rows), HARMED if is_alone(rows) else FOUND
    groups = {value: some for (value,), some in groups_of(rows, column)}
    lines = []
    for value in order or groups:
        counts = collections.Counter(row.fate for row in groups.get(value, ()))
        if counts:
            reached = counts.total() - counts["not reached"]
            lines.append([value, counts.total(), *(counts[fate] for fate in fates),
                          shown_rate(sum(counts[fate] for fate in told), reached)])
    share = "AVF % (95 %)" if is_alone(rows) else "% found (95 %)"
    return markdown([title, "runs", *fates, share], lines) if lines else ""


def latencies(rows):
    """How many instructions lie between a strike and the vote that found it, by that vote's kind."""
    found = [row for row in rows if row.latency is not None]
    if not found:
        return ""
    heads = ["the vote that found it", "runs", "median", "90 %", "99 %", "most"]
    lines = []
    for name, some in [*((f"`{vote}`", some) for (vote,), some in groups_of(found, "vote")), ("all", found)]:
        counts = sorted(row.latency for row in some)
        lines.append([name, len(some), *(counts[int(share * (len(counts) - 1))] for share in (0.5, 0.9, 0.99, 1))])
    heads_below, below = ["instructions", "runs", "% of those found"], []
    for low, high in zip(LATENCIES, [*LATENCIES[1:], math.inf]):
        some = sum(low <= row.latency < high for row in found)
        if some:
            below.append([f"{low} to {high - 1}" if high < math.inf else f"{low} and more", some, shown_rate(some, len(found))])
    return markdown(heads, lines) + markdown(heads_below, below)


def table(rows):
    """The tables of campaigns in Markdown; one part for each way in which runs were made, since the same faults are drawn for
    several."""
    text = ""
    for (machine, replicas, pattern, *_), some in groups_of(rows, *WAY):
        what = "unreplicated" if machine == "unreplicated" else f"{replicas} replicas"
        seeds = ", ".join(map(str, sorted({row.seed for row in some})))
        text += f"### {what}, {pattern}{more_of(some[0])}\n\n{len(some)} runs, seed {seeds}.\n\n"
        text += fates_by(some, "program", "program") + fates_by(some, "kind", "struck", KINDS)
        text += fates_by([row for row in some if row.kind == "reg"], "place", "register", REGISTERS)
        text += fates_by([row for row in some if row.kind == "pc"], "bit", "pc bit")
        memory = [row for row in some if row.kind == "mem"]
        text += fates_by(memory, "place", "memory") + fates_by([row for row in memory if row.section], "section", "section")
        named = [row._replace(symbol=f"{row.program}: {row.symbol}") for row in memory if row.symbol]
        text += fates_by(named, "symbol", "symbol") + latencies(some)
    return text


def plot_fates(rows, path):
    """A bar for each program and way: what became of the faults, and of how many runs. Where replicas ran the legend has
    `differs` though there may be none."""
    groups = groups_of(rows, "program", *WAY)[::-1]
    drawn, axes = figure(1 + 0.25 * len(groups))
    names, left = [], [0.0] * len(groups)
    for (program, machine, replicas, pattern, *_), some in groups:
        what = "one machine alone" if machine == "unreplicated" else f"{replicas} replicas"
        names.append(f"{program}, {what}" + ("" if pattern == "one" else f", {pattern}") + more_of(some[0]))
    for fate, colour in COLOURS.items():
        shares = [100 * sum(row.fate == fate for row in some) / len(some) for _, some in groups]
        if any(shares) or fate == "differs" and not all(is_alone(some) for _, some in groups):
            axes.barh(range(len(groups)), shares, left=left, color=colour, label=fate)
            left = [low + share for low, share in zip(left, shares)]
    for place, (_, some) in enumerate(groups):
        axes.text(101, place, f"n = {len(some):,}", va="center")
    axes.set_yticks(range(len(groups)), names)
    axes.set_xlabel("share of the runs with injected faults, in %")
    axes.set_xlim(0, 100)
    axes.legend(loc="lower center", bbox_to_anchor=(0.4, 1), ncol=5, frameon=False)
    save(drawn, path)


def plot_latencies(rows, path):
    """The distribution of the latency, by the kind of the vote that found the fault."""
    drawn, axes = figure(4)
    found = [row for row in rows if row.latency is not None]
    for (vote,), some in groups_of(found, "vote"):
        points = sorted(row.latency for row in some)
        axes.step(points, [100 * (at + 1) / len(points) for at in range(len(points))], where="post",
                  label=f"{vote} (n = {len(points):,})")
    axes.set_xscale("symlog")
    axes.set_xlim(left=0)
    axes.set_ylim(0, 100)
    axes.set_xlabel("instructions that the program ran after the fault, until a vote found it")
    axes.set_ylabel("share of the faults that such a vote found, in %")
    if found:
        axes.legend(frameon=False, title="what the vote was about")
    save(drawn, path)
