"""Campaigns beside each other, by the names that the literature has for what becomes of a run."""
import collections

from campaigns.forms import markdown, shown_rate

MASKED, CORRECTED, DUE, SDC, TIMEOUT = "masked", "corrected", "DUE", "SDC", "timeout"
NAMES = [MASKED, CORRECTED, DUE, SDC, TIMEOUT]
HEADS = {"program": "program", "image": "digest", "pattern": "pattern", "count": "faults", "width": "bits", "kinds": "kinds",
         "drivers": "drivers", "replicas": "replicas", "scrub": "scrub"}
IF_VARIED = "image", "width", "kinds", "drivers"  # told where the rows don't have one of them alone
BY_FATE = {"vanished": MASKED, "overwritten": CORRECTED, "stopped": DUE, "no majority": DUE, "crash": DUE, "silent corruption": SDC,
           "hang": TIMEOUT}
BY_ANSWER = {"trap": DUE, "deadlock": DUE, "differ": DUE, "no-majority": DUE, "limit": TIMEOUT}  # of a run that ended otherwise


def name_of(row):
    """None of a run whose faults didn't strike. A run that was outvoted, or differs, is named by how it ended."""
    if row.fate == "not reached":
        return None
    return BY_FATE.get(row.fate) or BY_ANSWER.get((row.answer or "").split(" ")[0], SDC)


def compared(rows):
    """A line for each program and each way in which it ran; the shares are of the runs whose faults struck."""
    columns = [column for column in HEADS if column not in IF_VARIED or len({getattr(row, column) for row in rows}) > 1]
    groups = collections.defaultdict(collections.Counter)
    for row in rows:
        name = name_of(row)
        if name:
            groups[tuple(getattr(row, column) for column in columns)][name] += 1
    lines = []
    for way, counts in sorted(groups.items()):
        harmed = counts[DUE] + counts[SDC] + counts[TIMEOUT]
        told = ["never" if column == "scrub" and value == 0 else value for column, value in zip(columns, way)]
        lines.append([*told, counts.total(), *(counts[name] for name in NAMES),
                      shown_rate(counts[SDC], counts.total()), shown_rate(harmed, counts.total())])
    heads = [HEADS[column] for column in columns]
    return markdown([*heads, "runs", *NAMES, "% SDC (95 %)", "AVF, % (95 %)"], lines)
