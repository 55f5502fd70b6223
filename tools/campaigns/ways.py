"""In which way the runs of a campaign are made, and how that is told."""
from campaigns.drawing import KINDS, MANY

WAY = "machine", "replicas", "pattern", "count", "width", "kinds", "drivers", "scrub"  # columns of a row


def more_of(row):
    """What a way has beside its replicas and its pattern, as far as it isn't the usual."""
    more = []
    if row.pattern in MANY:
        more.append(f"{row.count} faults")
    if row.pattern == "burst":
        more.append(f"{row.width} bits")
    if row.kinds != ",".join(KINDS):
        more.append(f"of {row.kinds}")
    if row.drivers != 1:
        more.append(f"{row.drivers} drivers")
    if row.scrub:
        more.append(f"a scrub every {row.scrub:,} steps")
    return "".join(f", {part}" for part in more)
