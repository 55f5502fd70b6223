"""What becomes of a struck run, by its report.

Comparison with the one run without faults is sound for programs whose output and status don't depend on the order of their
threads; a campaign looks whether another order shows, and takes no program where it does. For others a run would have to be
replayed: the votes and frees of its journal name one execution without faults, and what that writes is what is wanted.
`wanted` is the place for it.

A journal may have thousands of lines, of which a judgement takes a few, so it is searched as a text and not read line by line.
"""
import bisect
import dataclasses
import functools
import re

from journals import losers_of, read_report

# What may become of a run that is replicated, and of one that is not. `differs` may not be.
FATES = ["vanished", "overwritten", "stopped", "no majority", "outvoted", "not reached", "differs"]
FATES_ALONE = ["vanished", "silent corruption", "crash", "hang", "not reached"]

# Lines of a journal, each with the end of the line before, so that they begin with a text that is found fast.
STRIKE = re.compile(r"\nput (\d+) (\d+) (\d+) \d+ [1-9]")
LOSS = re.compile(r"\nvote \d+ \d+ (\d+) (\d[\d,]*) (\w+)")
SCRUB = re.compile(r"\nscrub (\d+) (\S+)")


@dataclasses.dataclass(order=True)
class Strike:
    """A turn in which faults were struck."""
    place: int  # of its `put` in the text
    taken: int  # and of its `take`
    replica: int


@dataclasses.dataclass(order=True)
class Comparison:
    """A vote that had losers, or a scrub."""
    place: int
    winner: int
    losers: tuple
    did: str


class Story:
    """What a report tells of strikes and of those that lost."""

    def __init__(self, text):
        self.text = text
        report = read_report(text[text.rfind("\nvotes ") + 1:])  # what stands behind the journal
        self.answer, self.struck = report.answer, report.summary.get("struck", 0)
        votes = [Comparison(line.start(), int(line[1]), losers_of(line[2]), line[3]) for line in LOSS.finditer(text)]
        scrubs = [Comparison(line.start(), int(line[1]), losers_of(line[2]), "scrub") for line in SCRUB.finditer(text)]
        self.comparisons = sorted([*votes, *scrubs])
        self.losses = [comparison for comparison in self.comparisons if comparison.losers]
        self.scrubs = [scrub.place for scrub in scrubs]

    @functools.cached_property
    def strikes(self):
        return [Strike(line.start(), self.text.rfind("\ntake {} {} {}\n".format(*line.groups()), 0, line.start() + 1), int(line[2]))
                for line in STRIKE.finditer(self.text)]

    @functools.cached_property
    def struck_after(self):
        """By how many scrubs came before: the replicas that were struck until the next."""
        found = {}
        for strike in self.strikes:
            found.setdefault(bisect.bisect_left(self.scrubs, strike.place), set()).add(strike.replica)
        return found

    def is_few(self, replicas):
        """Whether strikes hit at most half of the replicas from each scrub to the next, from the opening to the first and after
        the last: then scrubs leave all alike, and those that weren't struck since don't lose."""
        return all(2 * len(struck) <= replicas for struck in self.struck_after.values())

    def unstruck(self):
        """Replicas that lost and weren't struck since the last scrub before."""
        for loss in self.losses:
            struck = self.struck_after.get(bisect.bisect_left(self.scrubs, loss.place), set())
            yield from (loser for loser in loss.losers if loser not in struck)

    def stay_apart(self):
        """Whether the journal of two or three replicas shows that the faults stayed apart: where two turns struck two replicas,
        the first became a copy before the second began, or a scrub came between, which leaves all alike. It may be so without
        showing: a struck bit may have been written over."""
        return all(any(first.place < clear.place < second.taken and (clear.did == "scrub" or first.replica in clear.losers)
                       for clear in self.comparisons)
                   for first in self.strikes for second in self.strikes
                   if second.place > first.place and second.replica != first.replica)

    def latency(self, replica, strike, until):
        """Instructions that a replica which wasn't struck retired, of all its threads, from the strike's moment to a place of the
        text. The struck one may have stopped at once, and waited."""
        _, thread, moment = strike
        total, own, has_begun = 0, 0, False
        for by, retired in re.compile(rf"\np(?:ut|art) \d+ {replica} (\d+) (\d+)").findall(self.text, 0, until):
            if has_begun:
                total += int(retired)
            elif int(by) == thread:
                own += int(retired)
                if own >= moment:
                    has_begun, total = True, own - moment
        return total if has_begun else None


def wanted(job, story):
    """The status and output that the run should have had. `story` is for a replay."""
    return job["status"], job["output"]


def judge(job, done):
    """The row of a run: its fate, the vote that found it, the latency, and what is wrong, if anything."""
    is_alone = job["machine"] == "unreplicated"
    if done is None:
        return {"fate": "hang" if is_alone else "differs", "trouble": "" if is_alone else "it doesn't come to its end"}
    status, output, text = done
    story = Story(text)
    # a fault list of few replicas strikes few, whatever the journal says
    is_few = 2 * len(job["replicas_struck"]) <= job["replicas"] or story.is_few(job["replicas"])
    row = {"status": status, "answer": story.answer, "struck": story.struck, "few": int(is_few)}
    if is_alone:
        return row | judge_alone(job, status, output, story)
    return row | (judge_many if job["many"] else judge_replicas)(job, status, output, story, is_few)


def judge_many(job, status, output, story, is_few):
    """Replicas that were struck by many faults, of which one after another may hit each replica."""
    found = {"vote": story.losses[0].did if story.losses else None}
    is_right = (status, output) == wanted(job, story)
    if is_few:
        is_wanted = is_right or is_stopped(job, output, story)
        trouble = "" if is_wanted else f"status {status}; answer {story.answer}; {len(output)} bytes"
        unstruck = next(story.unstruck(), None)
        if unstruck is not None:
            trouble = f"replica {unstruck} lost, which wasn't struck since the last scrub"
        if trouble:
            return found | {"fate": "differs", "trouble": trouble}
    if story.answer in ("differ", "no-majority"):
        return found | {"fate": "stopped" if story.answer == "differ" else "no majority"}
    if not is_right:
        return found | {"fate": "outvoted"}
    return found | {"fate": "overwritten" if story.losses else "vanished" if story.struck else "not reached"}


def is_stopped(job, output, story):
    """Whether two replicas differed, and what was written is a front."""
    return job["replicas"] == 2 and story.answer == "differ" and job["output"].startswith(output)


def judge_alone(job, status, output, story):
    """Two replicas that are struck alike: what one machine does that nobody compares."""
    if story.struck == 0:
        return {"fate": "not reached"}
    if story.answer.startswith(("limit", "deadlock")):
        return {"fate": "hang"}
    if story.answer.startswith("exit"):
        return {"fate": "vanished" if (status, output) == wanted(job, story) else "silent corruption"}
    if story.answer.startswith("trap"):
        return {"fate": "crash"}
    return {"fate": "crash", "trouble": f"two replicas struck alike end with {story.answer}"}


def judge_replicas(job, status, output, story, is_few):
    """Replicas that are compared; whether the strikes from scrub to scrub hit at most half of them."""
    trouble = trouble_of(job, status, output, story)
    if trouble and (is_few or story.stay_apart()):
        return {"fate": "differs", "trouble": trouble}
    strike = job["strike"]
    if story.answer == "differ":
        return {"fate": "stopped", "vote": "differ", "latency": story.latency(1 - strike[0], strike, len(story.text))}
    if story.answer == "no-majority":
        return {"fate": "no majority"}
    if trouble:
        return {"fate": "outvoted"}
    if story.losses:
        loss = next((loss for loss in story.losses if strike[0] in loss.losers), story.losses[0])
        return {"fate": "overwritten", "vote": loss.did, "latency": story.latency(loss.winner, strike, loss.place)}
    return {"fate": "vanished" if story.struck else "not reached"}


def trouble_of(job, status, output, story):
    """What is not as without faults, or nothing."""
    want_status, want_output = wanted(job, story)
    if story.answer == "differ" and job["replicas"] == 2 and story.struck:
        return "" if want_output.startswith(output) else "what was written is no front of the output"
    if status != want_status:
        return f"status {status}, not {want_status}; answer {story.answer}"
    if output != want_output:
        return "another output"
    others = [loser for loss in story.losses for loser in loss.losers if loser not in job["replicas_struck"]]
    if others:
        return f"replica {others[0]} lost, which wasn't struck"
    if story.losses and not story.struck:
        return "a vote has a loser, and nothing was struck"
    return ""
