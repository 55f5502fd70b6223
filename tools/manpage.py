#!/usr/bin/env python3
"""The man page docs/romain.1 from what `./romain --help` prints.

    tools/manpage.py            compares, status 1 where the page isn't what the text gives
    tools/manpage.py --write    writes it
"""
import pathlib
import re
import subprocess
import sys

ROOT = pathlib.Path(__file__).resolve().parent.parent
PAGE = ROOT / "docs/romain.1"


def escaped(text):
    text = text.replace("\\", r"\e").replace("-", r"\-")
    return r"\&" + text if text.startswith((".", "'")) else text


def lines_of(section, text):
    """A section's lines: what stands two steps in explains the line before it."""
    lines = text.split("\n")
    for place, line in enumerate(lines):
        words, after = line.strip(), lines[place + 1] if place + 1 < len(lines) else ""
        if not words:
            yield ".PP"
        elif line.startswith("        "):
            if words.startswith("R T N reg"):
                yield ".br"
            yield escaped(words)
            if words.startswith("R T N"):
                yield ".br"
        elif after.startswith("        "):
            yield ".TP"
            yield r"\fB" + escaped(words) + r"\fR"
        else:
            if place and lines[place - 1].startswith("        "):
                yield ".PP"
            yield escaped(words)
            if section in ("USAGE", "EXAMPLES"):
                yield ".br"


def page(text):
    """The page in the macros of man."""
    parts = re.split(r"^([A-Z]+)\n", text, flags=re.M)[1:]
    out = ['.\\" Made by tools/manpage.py from the text of ./romain --help.', '.TH ROMAIN 1 "" "romain" "User Commands"']
    for section, body in zip(parts[::2], parts[1::2]):
        out.append(f".SH {'SYNOPSIS' if section == 'USAGE' else 'EXIT STATUS' if section == 'STATUS' else section}")
        out += lines_of(section, body.strip("\n"))
    return "\n".join(out) + "\n"


def main():
    text = subprocess.run([ROOT / "romain", "--help"], capture_output=True, text=True, check=True).stdout
    if sys.argv[1:] == ["--write"]:
        PAGE.write_text(page(text))
    elif sys.argv[1:]:
        sys.exit(__doc__)
    elif not PAGE.exists() or PAGE.read_text() != page(text):
        sys.exit("manpage: docs/romain.1 isn't what the text of ./romain --help gives; tools/manpage.py --write")
    else:
        print("manpage: passed")


if __name__ == "__main__":
    main()
