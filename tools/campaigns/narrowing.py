"""When a campaign has runs enough: its intervals are as narrow as is asked for."""
import collections
import collections.abc

from campaigns.forms import wilson
from campaigns.judging import FATES, FATES_ALONE
from campaigns.rows import Rows
from campaigns.telling import FOUND, HARMED

STRIDE = 100  # runs before the first look, and at least so many before each other


def goals(most: int) -> collections.abc.Iterator[int]:
    """How many runs there are at each look: a tenth more than at the one before, so that few are made in vain. What they are
    doesn't depend on which run ends first, and so neither does where a campaign stops."""
    goal = STRIDE
    while goal < most:
        yield goal
        goal += max(STRIDE, goal // 10)
    yield most


def widest(kept: Rows, key: list, is_alone: bool) -> float:
    """The width in per cent of a campaign's widest interval: of each fate, and of the share that its tables give, over the runs
    whose faults struck."""
    counts = collections.Counter()
    for fate, _, runs in kept.fates(key):
        counts[fate] += runs
    reached = counts.total() - counts["not reached"]
    shares = [(fate,) for fate in (FATES_ALONE if is_alone else FATES) if fate != "not reached"]
    intervals = [wilson(sum(counts[fate] for fate in share), reached) for share in (*shares, HARMED if is_alone else FOUND)]
    return 100 * max(high - low for _, low, high in intervals)
