"""Why an entry is not allowed in a core, as an audit tells it. What each reason means stands in crates/ro_audit/specs/Audits.antt."""
from auditing.cooperative import Joined, leased
from auditing.cores import Core
from auditing.drawing import line_of
from auditing.jobs import Entry, Job
from journals import Free, Part, Put, Scrub, Take, Vote


def core_behind(kind: type[Core], job: Job, entries: list[Entry]) -> Core:
    """The core that legal entries leave."""
    core = kind(job)
    for entry in entries:
        core.do(entry)
    return core


def reason_of(core: Core, entry: Entry) -> dict:
    """Of an entry that is not allowed; the core is of no use behind it."""
    if core.ended:
        return {"reason": "behind"}
    if isinstance(entry, Take):
        return {"reason": "not_lendable"}
    if isinstance(entry, Put):
        return reason_of_return(core, entry)
    if isinstance(entry, Vote):
        return {"reason": "comes", "entry": vote_comes_to(core, entry.thread)} if core.may_vote(entry.thread) else {"reason": "no_vote"}
    if isinstance(entry, Free):
        return {"reason": "comes", "entry": f"end limit {core.steps} 1"} if core.may_free(entry.thread) else {"reason": "no_free"}
    if isinstance(entry, Scrub):
        return {"reason": "comes", "entry": scrub_comes_to(core)} if core.may_scrub() else {"reason": "no_scrub"}
    return {"reason": "no_end"}


def reason_of_return(core: Core, entry: Put) -> dict:
    """Of a `put` or a `part`."""
    lease = Take(entry.driver, entry.replica, entry.thread)
    if lease not in core.leases:
        return {"reason": "not_out"}
    if isinstance(core, Joined):
        return reason_of_peer(core, entry)
    count, hit = core.replicas[lease.replica].run_on(lease.thread, core.job.quantum, core.lent[lease.driver])
    return other_kind(entry) if (count, hit) == (entry.retired, entry.struck) else {"reason": "ran", "count": count, "hit": hit}


def other_kind(entry: Put) -> dict:
    """The lease comes back by the other of `put` and `part`, or by neither."""
    return {"reason": "no_part" if isinstance(entry, Part) else "no_put"}


def reason_of_peer(core: Joined, entry: Put) -> dict:
    """The same in a cooperative run: how far the lease came, if not so far, and else that it doesn't come back so there."""
    replica, side, thread = core.replicas[entry.replica], core.sides[entry.replica], entry.thread
    reach = core.reach()

    def taker(mutex: int, rank: int) -> int:
        return core.rows.get((mutex, rank), thread)

    def rows(mutex: int, rank: int) -> int | None:
        return taker(mutex, rank) if rank < reach[mutex] else None

    for count in range(min(entry.retired, core.job.quantum)):
        if not leased(rows, replica, side, thread):
            mutex = side.own(replica.next(replica.threads[thread]))
            is_free = mutex is not None and mutex.owner is None
            is_others = is_free and mutex.rank < reach[mutex.address] and taker(mutex.address, mutex.rank) != thread
            return {"reason": "other_got"} if is_others else {"reason": "ran", "count": count, "hit": 0}
    if entry.retired > core.job.quantum:
        return {"reason": "ran", "count": core.job.quantum, "hit": 0}
    return other_kind(entry)


def vote_comes_to(core: Core, thread: int) -> str:
    """The line of a vote that may be held, or of the end in its place."""
    won = core.won(thread)
    if won is None:
        return f"end {core.how_split()}"
    more = core.added(won)
    if core.steps + more > core.job.limit:
        return f"end limit {core.steps} {more}"
    return line_of(Vote(thread, won.count, won.winner, won.losers, won.event.did))


def scrub_comes_to(core: Core) -> str:
    """The line of a scrub that may be made, or of the end in its place."""
    came = core.prevailing()
    return f"end {core.how_split()}" if came is None else line_of(Scrub(*came))
