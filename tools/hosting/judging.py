"""What becomes of a run in whose process a bit flipped."""
import dataclasses

from journals import read_report

FATES = ["right", "copied", "named end", "crash", "hang", "wrong", "not reached"]
ENDS_OF_PROGRAM = ("exit", "trap", "deadlock")  # answers that say what the program did


@dataclasses.dataclass
class Outcome:
    """What a run came to: no status where it was killed since it took too long."""
    status: int | None
    output: bytes
    report: str


def fate_of(outcome: Outcome, right: Outcome) -> tuple[str, str]:
    """The fate and the answer, by the run without faults. What is written has to be a front of what that wrote, in any case; and
    who says that the program ended must say how it does."""
    report = read_report(outcome.report)
    answer = report.answer
    if not right.output.startswith(outcome.output):
        return "wrong", answer
    if outcome.status is None:
        return "hang", answer
    if answer.split(" ")[0] not in ENDS_OF_PROGRAM:
        return ("crash" if answer == "none" else "named end"), answer
    is_right = (outcome.status, outcome.output, answer) == (right.status, right.output, read_report(right.report).answer)
    return ("wrong" if not is_right else "copied" if report.summary.get("copies") else "right"), answer
