"""What the core does next, after crates/ro_legal/specs/Action.antt: the choice that the program makes. A legal journal may choose
otherwise."""
from auditing.cores import Core
from auditing.jobs import Entry
from journals import End, Free, Put, Scrub, Take, Vote

# What is done next is a word and the numbers that go with it: `lend` a replica and a thread, `vote` and `free` a thread, `scrub`,
# `end` how, `wait`, `over`.
Action = tuple
PATIENCE = 64  # for how many votes of others a thread waits before it comes first, where something can be done for it


def is_scrub_due(core: Core) -> bool:
    return core.job.scrub != 0 and core.scrubbed + core.job.scrub <= core.steps


def leases_of(core: Core, threads: list[int]) -> list[Action]:
    """The lowest of these threads of the lowest replica that can be lent, if one can."""
    places = ((number, thread) for number in range(len(core.replicas)) for thread in threads)
    lowest = next((place for place in places if core.is_lendable(*place)), None)
    return [("lend", *lowest)] if lowest else []


def turns_of(core: Core, threads: list[int]) -> list[Action]:
    """The lowest vote on one of these threads, and else their lowest lease, if there is any."""
    votes = [("vote", thread) for thread in threads if core.may_vote(thread)]
    return votes[:1] or leases_of(core, threads)


def overdue(core: Core) -> list[int]:
    """The threads that have waited too long, those that have waited longest first, and of several the lowest."""
    late = [thread for thread in range(len(core.kernel.lives)) if core.waited[thread] >= PATIENCE]
    return sorted(late, key=lambda thread: -core.waited[thread])


def frees_of(core: Core, threads: list[int]) -> list[Action]:
    """The free of the first of these threads that can be freed, if one can."""
    return [("free", thread) for thread in threads if core.may_free(thread)][:1]


def urgent_turn(core: Core) -> list[Action]:
    """What can be done for the thread that has waited longest of those that have waited too long, the lowest of several."""
    return next(filter(None, (turns_of(core, [thread]) for thread in overdue(core))), [])


def next_action(core: Core) -> Action:
    """A free comes first, of a thread that has waited too long or else of the lowest, then the turn of one that has waited too long,
    then the lowest vote, and the lowest lease. While a scrub is due there are leases alone, the lowest first."""
    if core.ended is not None:
        return ("over",)
    if core.due is not None:
        return "end", core.due
    threads = list(range(len(core.kernel.lives)))
    if is_scrub_due(core):
        found = leases_of(core, threads)
    else:
        found = frees_of(core, overdue(core) + threads) or urgent_turn(core) or turns_of(core, threads)
    if found:
        return found[0]
    return ("wait",) if core.leases else ("scrub",) if is_scrub_due(core) else ("end", "deadlock")


def is_next(core: Core, entry: Entry) -> bool:
    """Whether an entry that is allowed is what the core does next, or the end in its place; a lease comes back at any time."""
    if isinstance(entry, Put):
        return True
    action = next_action(core)
    if isinstance(entry, End):
        return action == ("end", entry.how) or core.ends_sink(entry.how) or ends_in_place(core, action, entry.how)
    wanted = {Take: lambda: ("lend", entry.replica, entry.thread), Vote: lambda: ("vote", entry.thread),
              Free: lambda: ("free", entry.thread), Scrub: lambda: ("scrub",)}
    return action == wanted[type(entry)]()


def ends_in_place(core: Core, action: Action, how: str) -> bool:
    """Whether the end comes in the place of this action."""
    if action[0] == "vote":
        return core.ends_vote(action[1], how)
    return action[0] == "free" and core.is_passed(how, 1) or action[0] == "scrub" and core.ends_scrub(how)
