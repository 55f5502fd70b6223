#!/usr/bin/env python3
"""For what the prover refuses wrong bodies: the goal of each edit of must-fail/ and of tests/edits, which its bug has to break.

    tools/reasons.py LOG              of the edits that `rt ci` or `rt must-fail` told in this text; - is standard input
    tools/reasons.py --try [CRATE]..  tries the edits of these crates, or of all, and tells the goals in full
    tools/reasons.py --names          tries none, and tells those that take a call away which a proof of that function names

An edit that only makes a proof name what isn't there any more says nothing of the contract: it is refused whatever the body
does. Status 1 where one fell for a name, an import or a field, or isn't refused. In a text each refusal is cut to one line: where
that line has no goal, `untold` is said; and a goal that got another name and so lost its answer looks there like any other.
--try tells them apart. --names finds such edits without the prover, and those of which the call was told by its goal too.
"""
import importlib.machinery
import importlib.util
import os
import pathlib
import re
import shutil
import sys
import tempfile

import sentences

ROOT = pathlib.Path(__file__).resolve().parent.parent
EDITS = ROOT / "tests/edits"
TOLD = re.compile(r"(?:rt: )?must-fail (\S+\.edit): (.*)")
BY_NAME = "only because a proof file names what the edit took away"
# What a proof file says of a name that isn't there, or that stands on one.
NAMES = re.compile(r"has no field|is not in scope|has no `|is no name|cannot be found")
DEPENDS = re.compile(r"which (was|were) not admitted")
ERROR = re.compile(r"(?:\./)?((?:proofs|src|specs)/\S+?):\d+:\d+: error: (?:`([^`]+)`: )?(.*)")
OPEN = re.compile(r"fn (\S+): no proof: .*`search` did not prove `([^`]+)`")
NOTE = re.compile(r"note: (?:\./)?(\S+?\.rt):\d+:\d+: .*?\(`([^`]+)`")


class Reason:
    """Why an edit is refused: a goal, or why that is none."""

    def __init__(self, goal, is_goal):
        self.goal, self.is_goal = goal, is_goal


def reason_of_line(text):
    """Of what rt tells of an edit in a line."""
    if not text.startswith("refused, as it must be"):
        return Reason(text[:120], False)
    if BY_NAME in text:
        return Reason("a name", False)
    note = NOTE.search(text)
    if note:
        return Reason(" ".join(note.groups()), True)
    error = ERROR.search(text)
    if error:
        return Reason(" ".join(filter(None, error.groups()[:2])), True)
    return Reason("untold", True)


def folder_of(function):
    """Where the proof of a function stands, by its name."""
    return "/".join(["proofs", *function.split("::")[1:]])


def reason_of(said):
    """Of all that the prover says of an edited crate."""
    refused, lacking, stale = [], [], set()
    for path, name, text in ERROR.findall(said):
        if DEPENDS.search(text):
            continue
        if NAMES.search(text):
            lacking.append(f"{path}: {text[:90]}")
            stale.add(os.path.dirname(path))
        else:
            refused.append(f"{path} {name}".strip())
    # A goal without an answer counts where no answer beside it has lost its own: else it may be the same goal by another name.
    left = [f"{function} {goal}" for function, goal in OPEN.findall(said) if folder_of(function) not in stale]
    if refused or left:
        return Reason((refused or left)[0], True)
    return Reason(f"a name: {lacking[0]}" if lacking else "nothing that can be read", False)


def told_in(text):
    for line in text.splitlines():
        told = TOLD.match(line)
        if told:
            yield told[1], reason_of_line(told[2])


def kit():
    """The kit's own program as a module: how it reads and tries an edit."""
    program = shutil.which("rt") or sys.exit("reasons: the command rt of the Rattle kit isn't on the PATH")
    loader = importlib.machinery.SourceFileLoader("rt", os.path.realpath(program))
    module = importlib.util.module_from_spec(importlib.util.spec_from_loader("rt", loader))
    loader.exec_module(module)
    return module


def tried(names):
    """The edits of these crates, tried in turn over one another's work."""
    rt = kit()
    for crate in rt.rtlib.crates_below(str(ROOT)):
        edits = sorted(pathlib.Path(crate.folder, "must-fail").glob("*.edit")) + sorted((EDITS / crate.name).glob("*.edit"))
        if not edits or names and crate.name not in names:
            continue
        if any(below.build_rlib(["--jobs", "1"], anew=False) for below in crate.below()):
            sys.exit(f"a library below {crate.name} isn't proved")
        with tempfile.TemporaryDirectory() as kept:
            before = pathlib.Path(crate.folder, "out/incremental")  # what the crate's own checks kept
            if before.is_dir():
                shutil.copytree(before, kept, dirs_exist_ok=True)
            for edit in edits:
                title = edit.relative_to(ROOT)
                texts, why = rt.read_edit(str(edit), crate.folder)
                if why:
                    yield title, Reason(why, False)
                    continue
                ran = rt.checked(crate, texts, ["--jobs", "1"], kept)
                is_refused = ran.returncode == 1 and ran.stdout.rstrip().split("\n")[-1].startswith("logic=not-proved")
                yield title, reason_of(ran.stdout) if is_refused else Reason("not refused, or not read by the prover", False)


def pairs_of(text):
    """The file of each change of an edit, and what it takes away and puts there."""
    path = old = ""
    for line in text.splitlines():
        kind, _, rest = line.partition(": ")
        if kind == "file":
            path = rest.strip()
        elif kind == "old":
            old = rest
        elif kind in ("new", "new:"):
            yield path, old, rest


def functions(source):
    """The text of each function of a file, from its name up to the next one's."""
    starts = [*re.finditer(r"\bfn (\w+)", source)]
    for start, after in zip(starts, [*starts[1:], None]):
        yield start[1], source[start.start():after.start() if after else len(source)]


def calls(text):
    return set(re.findall(r"(\w+)(?:::<[^>]*>)?\(", text))


def lost_names(crate, text):
    """The calls that an edit takes away from a function whose proof names them."""
    for path, old, new in pairs_of(text):
        source = (crate / path).read_text()
        for (name, before), (_, after) in zip(functions(source), functions(source.replace(old, new))):
            lost = calls(before) - calls(after)
            proofs = [file.read_text() for file in (crate / "proofs").rglob("*.antt") if file.parent.name.lstrip("+") == name]
            cited = {word for proof in proofs for words in re.findall(r"\b(?:c|goal)\.([\w-]+)", proof) for word in words.split("-")}
            yield from (f"{name} {call}" for call in sorted(lost & cited))


def named():
    for edit in sorted([*ROOT.glob("crates/*/must-fail/*.edit"), *EDITS.glob("*/*.edit")]):
        crate = ROOT / "crates" / (edit.parent.name if EDITS in edit.parents else edit.parent.parent.name)
        for lost in lost_names(crate, edit.read_text()):
            yield edit.relative_to(ROOT), Reason(f"the proof of {lost}", False)


def main(words):
    if words[:1] == ["--try"]:
        reasons = tried(words[1:])
    elif words == ["--names"]:
        reasons = named()
    elif len(words) == 1 and words[0] not in ("-h", "--help"):
        try:
            text = sys.stdin.read() if words[0] == "-" else pathlib.Path(words[0]).read_text(errors="replace")
        except OSError as error:
            sys.exit(f"reasons: {sentences.of_system(error)}")
        reasons = told_in(text)
    else:
        sys.exit(__doc__)
    failed = count = 0
    for title, reason in reasons:
        count += 1
        failed += not reason.is_goal
        print(f"{title}: {'' if reason.is_goal else 'NO GOAL: '}{reason.goal}", flush=True)
    print(f"reasons: {'passed' if not failed else 'failed'}, {count} edits, {failed} of them without a goal")
    return 1 if failed else 0


if __name__ == "__main__":
    sys.exit(main(sys.argv[1:]))
