#!/usr/bin/env python3
"""Lists the lemmas that are stated more than once: statements in crates/*/proofs that are equal up to the names of variables.

    tools/statements.py              each statement that stands twice, with its places
    tools/statements.py --most N     the same; status 1 where there are more than N of them

A statement is read as the words that say it, where a name from elsewhere is the one that the file's `use` lines give it, so that
two that are the same in letters and speak of different things are two. What a module takes for all of its lemmas is a part of
the statement as far as that names it. Unlike the prover it unfolds nothing: what is listed is equal as it stands.
"""
import argparse
import collections
import pathlib
import re
import sys

ROOT = pathlib.Path(__file__).resolve().parent.parent
TOKEN = re.compile(r'"[^"]*"|[(){}\[\];,]|[^\s(){}\[\];,]+')
NAME = re.compile(r"[^\W\d][\w'-]*")
USE = re.compile(r"^(?:pub )?use ([\w.]+)(?:\.\{([^}]*)\}| as (\w+))", re.M)
STATEMENT = re.compile(r"(?:pub )?([^\W\d][\w'-]*) : (.+)", re.S)
NO_LEMMAS = ("use ", "pub use ", "record ", "pub record ", "data ", "pub data ", "abbrev ", "unfoldable ", "mutual")


def module_of(path: pathlib.Path) -> str:
    crate, *parts = path.relative_to(ROOT / "crates").with_suffix("").parts
    return ".".join(["Rattle", crate, *parts])


def imports(text: str) -> dict[str, str]:
    """What each name stands for that a file takes from elsewhere."""
    names = {}
    for found in USE.finditer(text):
        module, listed, alias = found.groups()
        if alias:
            names[alias] = module
        for item in (listed or "").split(","):
            name, _, other = item.strip().partition(" as ")
            names[other or name] = f"{module}.{name}"
    return names


def blocks(text: str) -> list[tuple[int, int, str]]:
    """Declarations: the line, how far it is indented, and the text up to the next one that is indented no more."""
    lines, found = text.split("\n"), []
    for number, line in enumerate(lines):
        if line.strip() and not line.lstrip().startswith("--"):
            found.append((number, len(line) - len(line.lstrip())))
    for place, (number, indent) in enumerate(found):
        behind = next((other for other, deep in found[place + 1:] if deep <= indent), len(lines))
        yield number + 1, indent, "\n".join(lines[number:behind])


def binders(text: str) -> list[tuple[list[str], str]]:
    """The names of each group `(a b : T)` at the front of a module's line, and the group."""
    groups, depth, start = [], 0, 0
    for place, letter in enumerate(text):
        if letter in "({":
            start, depth = (place, depth + 1) if not depth else (start, depth + 1)
        elif letter in ")}":
            depth -= 1
            if not depth:
                group = text[start:place + 1]
                names, colon, _ = group[1:-1].partition(" : ")
                if colon:
                    groups.append((names.split(), group))
    return groups


def statements(path: pathlib.Path):
    """Of a file each lemma's line, name, and statement with what its modules take for it."""
    text = path.read_text()
    modules: list[tuple[int, list[tuple[list[str], str]]]] = []
    for number, indent, block in blocks(text):
        modules = [(deep, groups) for deep, groups in modules if deep < indent]
        first = block.strip().split("\n")[0]
        if first.startswith("module "):
            modules.append((indent, binders(first)))
        elif (found := STATEMENT.match(block.strip())) and not first.startswith(NO_LEMMAS) and indent <= 2 * len(modules):
            name, said = found.groups()
            end = re.search(r"\n\s*(?:unfolding\b|" + re.escape(name) + r"(?: |$)|=)", said)
            said = said[:end.start()] if end else said
            needed = said
            for _, groups in reversed(modules):
                for names, group in reversed(groups):
                    if set(names) & set(NAME.findall(needed)):
                        needed = f"{group} → {needed}"
            yield number, name, needed


def shape(said: str, module: str, known: dict[str, str], own: set[str]) -> str:
    """The statement with its variables numbered as they come, and each other name in full."""
    tokens, numbers, told = TOKEN.findall(said), {}, []
    for place, token in enumerate(tokens):
        if token in "({":
            colon = next((at for at in range(place + 1, len(tokens)) if tokens[at] in "(){}:" or tokens[at] in ("→", "=")), None)
            if colon and tokens[colon] == ":":
                for name in tokens[place + 1:colon]:
                    numbers[name] = f"_{len(numbers)}"
        elif token == "λ":
            for name in tokens[place + 1:]:
                if not NAME.fullmatch(name.rstrip(".")):
                    break
                numbers[name.rstrip(".")] = f"_{len(numbers)}"
                if name.endswith("."):
                    break
        for name in NAME.findall(token) if not token.startswith('"') else []:
            if name in numbers:
                token = re.sub(rf"(?<![\w.'-]){re.escape(name)}(?![\w'-])", numbers[name], token)
        head = token.split(".")[0]
        told.append(token.replace(head, known.get(head, f"{module}.{head}" if head in own else head), 1))
    return " ".join(told)


def main() -> int:
    parser = argparse.ArgumentParser(description=__doc__, formatter_class=argparse.RawDescriptionHelpFormatter)
    parser.add_argument("--most", type=int, metavar="N", help="so many may there be")
    arguments = parser.parse_args()
    places = collections.defaultdict(list)
    for path in sorted(ROOT.glob("crates/*/proofs/**/*.antt")):
        if path.name in ("Answers.antt", "Invariants.antt", "Lib.antt"):
            continue
        found = list(statements(path))
        known, own = imports(path.read_text()), {name for _, name, _ in found}
        for number, name, said in found:
            places[shape(said, module_of(path), known, own)].append(f"{path.relative_to(ROOT)}:{number} {name}")
    twice = [found for found in places.values() if len(found) > 1]
    for found in sorted(twice):
        print(*found, sep="\n    ")
    print(f"statements: {sum(map(len, places.values()))} lemmas, {len(twice)} statements stand more than once, "
          f"{sum(len(found) - 1 for found in twice)} times too often")
    return int(arguments.most is not None and len(twice) > arguments.most)


if __name__ == "__main__":
    sys.exit(main())
