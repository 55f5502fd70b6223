"""What an audit tells of a journal: its JSON, and the sentences of its copies, of what is not allowed and of what doesn't come next."""
from auditing.cores import Copy, Core, Judged, Whole, unlike, unlike_whole
from auditing.drawing import line_of
from auditing.jobs import Entry, Fault
from auditing.reasons import core_behind, reason_of
from auditing.replicas import PageFault, Stop, Thread, Trap, Watchdog
from fuzzing import readers
from journals import Vote
from kernel import MAPPED, MAPPED_END, WORD, Atomic, Call, Kernel, atomic_of
from racing.symbols import LOADS, REGISTERS, STORES, signed

LEFT_OUT = "function", "text"  # what a file's symbols of functions tell, and the texts of instructions
UNFETCHED = 1, 2  # causes of a trap before the instruction was fetched

WORDS = {  # of the parts of a view
    "pc": "the pc", "since": "the instructions since the last vote", "stop": "what it stands at", "payload": "what is written or found"}

WHYS = {  # by the reason, with what is told beside it
    "not_lendable": "The driver holds a lease or is none, or the thread can't be lent in that replica.",
    "not_out": "No such lease is out.",
    "ran": "The run of the lease comes back after {count} instructions and {hit} faults.",
    "no_put": "That is no put: the thread lacks a page of its replica, or waits at a lock, or goes on; or faults are told of a cooperative "
              "run.",
    "no_part": "That is no part: the quantum is over, or the thread lacks no page of its replica and waits at no lock; or faults are told "
               "of a cooperative run.",
    "other_got": "The lease gets a mutex in another thread's turn.",
    "no_vote": "The thread can't be voted on.",
    "no_free": "The thread has no call that can be served.",
    "no_scrub": "No scrub may be made here.",
    "comes": "What is allowed in its place is: {entry}",
    "no_end": "The run does not end so here.",
    "behind": "The run has ended before.",
}

ABI_NAMES = {f"x{number}": name for number, name in enumerate(REGISTERS)}


def told(judged: Judged, entries: list[Entry]) -> dict:
    """The JSON of a journal, but for what is left out."""
    copies = [copy_told(copy) for copy in judged.core.copies]
    if judged.place is not None:
        entry = entries[judged.place]
        why = reason_of(core_behind(type(judged.core), judged.core.job, entries[:judged.place]), entry)
        return {"entries": len(entries), "verdict": "illegal", "place": judged.place, "entry": line_of(entry), "why": why, "copies": copies}
    end = end_told(judged.core, entries) if judged.core.ended else None
    odd = None if judged.other is None else {"place": judged.other, "entry": line_of(entries[judged.other])}
    return {"entries": len(entries), "verdict": "legal", "steps": judged.core.steps, "odd": odd, "end": end, "copies": copies}


def odd_line(told: dict) -> str:
    """The sentence of what is told of a legal journal: which entry is the first that isn't what the run does next."""
    if told["odd"] is None:
        return "Each entry is what the run does next."
    return "Entry {place} is the first that is not what the run does next: {entry}".format(**told["odd"])


def illegal_lines(told: dict) -> list[str]:
    """The sentences of what is told of an illegal journal: which entry is not allowed, and why it is not."""
    why = told["why"]
    return [f"The first entry that is not allowed is: {told['entry']}", WHYS[why["reason"]].format(**why)]


def without_left_out(value):
    """The same of what came."""
    if isinstance(value, dict):
        return {name: without_left_out(member) for name, member in value.items() if name not in LEFT_OUT}
    return [without_left_out(item) for item in value] if isinstance(value, list) else value


def fault_line(fault: Fault) -> str:
    where = "" if fault.kind == "pc" else f"{fault.number} "
    return f"{fault.replica} {fault.thread} {fault.moment} {fault.kind} {where}{fault.bit}"


def copy_told(copy: Copy) -> dict:
    undone = [{"fault": fault_line(fault), "before": before} for fault, before in copy.undone]
    differed = ({"differed": whole_told(copy.differed)} if isinstance(copy.differed, Whole)
                else {"differed": copy.differed, "abi_names": names_of(copy.differed)})
    return {"place": copy.place, "thread": copy.thread, "replica": copy.replica, **differed, "undone": undone}


def names_of(parts: list[str]) -> list[str | None]:
    """The ABI name of each part that is a register."""
    return [ABI_NAMES.get(part) for part in parts]


def whole_told(whole: Whole) -> dict:
    return {"threads": [{"thread": thread, "parts": parts, "abi_names": names_of(parts)} for thread, parts in whole.threads], "pages": whole.pages}


def copy_line(copy: Copy) -> str:
    """The sentences of a copy."""
    parts = whole_words(copy.differed) if isinstance(copy.differed, Whole) else listed(copy.differed)
    strikes = [f"{fault_line(fault)}, struck {before} instruction{'' if before == 1 else 's'} before" for fault, before in copy.undone]
    explained = f"Undone: {'; '.join(strikes)}." if strikes else "No fault of the list in that replica explains it."
    where = "a scrub" if copy.thread is None else f"a vote on thread {copy.thread}"
    return f"At entry {copy.place} replica {copy.replica} was overwritten at {where}: {parts} differed. {explained}"


def listed(parts: list[str]) -> str:
    *most, last = [WORDS.get(part) or f"{ABI_NAMES[part]} ({part})" for part in parts]
    return f"{', '.join(most)} and {last}" if most else last


def whole_words(whole: Whole) -> str:
    words = [f"{listed(parts)} of thread {thread}" for thread, parts in whole.threads]
    return ", ".join(words + [f"the page {page:08x}" for page in whole.pages])


# ---- Ends

def end_told(core: Core, entries: list[Entry]) -> dict:
    how, *numbers = core.ended.split(" ")
    first, *rest = [int(number) for number in numbers] or [0]
    more = {
        "exit": lambda: {"status": first},
        "deadlock": lambda: {"threads": [waiting_told(core, thread) for thread in range(len(core.kernel.lives))]},
        "trap": lambda: {"cause": first, "at": trap_told(core, entries)},
        "limit": lambda: {"steps": first, "next": rest[0],
                          "threads": [standing_told(core, thread) for thread in range(len(core.kernel.lives))]},
        "differ": lambda: split_told(core),
        "no-majority": lambda: split_told(core),
        "sink": lambda: {"taken": first},
    }
    return {"how": how, **more[how]()}


def waiting_told(core: Core, thread: int) -> dict:
    if not core.kernel.lives_on(thread):
        return {"thread": thread, "state": "exited"}
    call = core.blocked.get(thread)
    if call is None:
        mutex = core.waits_at(thread)
        return {"thread": thread, "state": "unblocked"} if mutex is None else locks_told(core, thread, mutex)
    if call.which == "pthread_join":
        return {"thread": thread, "state": "joins", "other": call.a0}
    if call.which == "pthread_cond_wait":
        return {"thread": thread, "state": "waits", **variable_told(core, "condition", call.a0),
                "signalled": core.kernel.waiter(thread).signalled, **variable_told(core, "mutex", call.a1),
                "owner": core.owner_of(call.a1)}
    return locks_told(core, thread, call.a0)


def locks_told(core: Core, thread: int, mutex: int) -> dict:
    return {"thread": thread, "state": "locks", **variable_told(core, "mutex", mutex), "owner": core.owner_of(mutex)}


def variable_told(core: Core, which: str, address: int) -> dict:
    """The address of a mutex or a condition variable, and the object of the file's symbols that it lies in."""
    found = readers.object_at(core.job.file, address)
    return {which: address, f"{which}_object": {"name": found[0], "offset": found[1]} if found else None}


def variable_words(told: dict, which: str) -> str:
    """The same in a sentence."""
    found = told[f"{which}_object"]
    if found is None:
        return f"{told[which]:08x}"
    behind = f"+{found['offset']:x}" if found["offset"] else ""
    return f"{told[which]:08x} ({found['name']}{behind})"


def waiting_line(core: Core, thread: int) -> str:
    """The sentence of the same."""
    told = waiting_told(core, thread)
    holds = "" if told.get("owner") is None else f", which thread {told['owner']} holds"
    waits = {
        "exited": lambda: "has exited",
        "unblocked": lambda: "is not blocked",
        "joins": lambda: f"waits until thread {told['other']} has exited",
        "locks": lambda: f"waits for the mutex at {variable_words(told, 'mutex')}{holds}",
        "waits": lambda: (f"waits for the condition at {variable_words(told, 'condition')}, "
                          f"{'' if told['signalled'] else 'not '}signalled, "
                          f"to hold the mutex at {variable_words(told, 'mutex')}{holds}"),
    }
    return f"Thread {thread} {waits[told['state']]()}."


def trap_told(core: Core, entries: list[Entry]) -> dict:
    thread = [entry.thread for entry in entries if isinstance(entry, Vote) and entry.did == "trapped"][-1]
    trapped = core.replicas[0].threads[thread]
    return {"thread": thread, "pc": trapped.pc, "registers": trapped.registers[1:], "abi_names": REGISTERS[1:],
            "instruction": instruction_told(core, trapped)}


def instruction_told(core: Core, trapped: Thread) -> dict | None:
    """The instruction that trapped, and what it touches."""
    if trapped.stop.cause in UNFETCHED:
        return None
    word = int.from_bytes(core.replicas[0].bytes_at(trapped.pc, 4), "little")
    touched = touched_by(word, trapped.registers)
    return {"word": word, "touched": touched, "mapped": None if touched is None else mapped_told(core.kernel, touched)}


def touched_by(word: int, registers: list[int]) -> int | None:
    """The address that an instruction loads from or stores to, or both."""
    atomic = atomic_of(word, registers)
    if atomic:
        return atomic.address
    opcode, function, base = word & 127, word >> 12 & 7, registers[word >> 15 & 31]
    if opcode == 0x03 and function in LOADS:
        return base + signed(word >> 20) & WORD
    if opcode == 0x23 and function in STORES:
        return base + signed(word >> 25 << 5 | word >> 7 & 31) & WORD
    return None


def mapped_told(kernel: Kernel, address: int) -> dict | None:
    """The range of mapped memory that an address lies in, or the newest one where it lies behind that, and how far."""
    if not kernel.given or not MAPPED <= address < MAPPED_END:
        return None
    given = next((given for given in kernel.given if given.start <= address < given.end), kernel.given[0])
    return {"start": given.start, "end": given.end, "behind": address - given.end if given.end <= address else None}


def touched_lines(core: Core, entries: list[Entry]) -> list[str]:
    """The sentence of what the instruction touches that trapped, if it touches something."""
    told = trap_told(core, entries)["instruction"]
    if told is None or told["touched"] is None:
        return []
    return [f"It touches the address {told['touched']:08x}{mapped_words(told['mapped'])}."]


def mapped_words(told: dict | None) -> str:
    if told is None:
        return ""
    where = {None: "in", 0: "just behind", 1: "1 byte behind"}.get(told["behind"], f"{told['behind']} bytes behind")
    return f", {where} mapped memory {told['start']:08x}..{told['end']:08x}"


def stop_word(stop: Stop) -> str:
    return {Call: "call", Atomic: "atomic", Trap: "trap", PageFault: "page_fault", Watchdog: "watchdog"}[type(stop)]


def standing_told(core: Core, thread: int) -> dict:
    stands = core.replicas[0].threads[thread]
    if stands.stop is None:
        return {"thread": thread, "pc": None, "stop": None}
    return {"thread": thread, "pc": stands.pc, "stop": stop_word(stands.stop)}


def split_told(core: Core) -> dict:
    """In what the replicas differ that had no majority: at a vote, or, where no views are left, at a scrub."""
    if core.views:
        return {"fields": fields_told(core.views)}
    whole, snapshots = unlike_whole(core.kernel, core.replicas), [replica.snapshot(core.kernel) for replica in core.replicas]
    threads = [{"thread": thread, "fields": fields_told([(*threads[thread], b"") for _, threads in snapshots])}
               for thread, _ in whole.threads]
    return {"threads": threads, "pages": whole.pages}


def fields_told(views: list) -> list[dict]:
    """The parts in which views differ."""
    parts = {part for view in views for part in unlike(views[0], view)}
    values = {"pc": [{"pc": pc} for _, pc, *_ in views], "since": [view[2] for view in views],
              **{f"x{number}": [view[0][number] for view in views] for number in range(1, 32)},
              "stop": [stop_word(view[3]) for view in views], "payload": [len(view[4]) for view in views]}
    order = ["pc", "since", *(f"x{number}" for number in range(1, 32)), "stop", "payload"]
    return [{"part": part, "abi_name": ABI_NAMES.get(part), "values": values[part]} for part in order if part in parts]
