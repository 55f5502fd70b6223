#!/usr/bin/env python3
"""The options of a run whose values are numbers, as crates/ro_settings/src/options.rt lists them.

    tools/options.py    compares the text of ./romain --help and the table of docs/USING.md with that list, status 1 where one differs
"""
import pathlib
import re
import subprocess
import sys

ROOT = pathlib.Path(__file__).resolve().parent.parent
LIST = ROOT / "crates/ro_settings/src/options.rt"
USING = ROOT / "docs/USING.md"
ROW = re.compile(r'NumberOption \{\s*name: "(\w+)",\s*least: ([0-9_]+),\s*most: ([0-9_]+),\s*usual: ([0-9_]+),\s*\}')
HELP = re.compile(r"^    --(\w+) [A-Z]\n        ([0-9][^,]*(?:, [0-9] or [0-9])?), default ([0-9]+)\b", re.M)
TABLE = re.compile(r"^\| `--(\w+) [A-Z]` \| ([0-9,]+) \| ([0-9][0-9., ]*) \|", re.M)


def listed():
    """By each option's name the least number that it may be, the largest, and the usual one."""
    return {name: (int(least), int(most), int(usual)) for name, least, most, usual in ROW.findall(LIST.read_text())}


def ends(text):
    """The first number of a range and the last one."""
    numbers = [int(number.replace(",", "")) for number in re.findall(r"[0-9]+(?:,[0-9]{3})*", text)]
    return numbers[0], numbers[-1]


def told(text):
    """The same out of the help."""
    return {name: (*ends(range_), int(usual)) for name, range_, usual in HELP.findall(text)}


def tabled(text):
    """The same out of the page's table."""
    return {name: (*ends(range_), int(usual.replace(",", ""))) for name, usual, range_ in TABLE.findall(text)}


def main():
    if sys.argv[1:]:
        sys.exit(__doc__)
    text = subprocess.run([ROOT / "romain", "--help"], capture_output=True, text=True, check=True).stdout
    want = listed()
    for place, found in (("the text of ./romain --help", told(text)), ("docs/USING.md", tabled(USING.read_text()))):
        if not want or found != want:
            sys.exit(f"options: {place} has {found}, and {LIST.relative_to(ROOT)} {want}")
    print("options: passed")


if __name__ == "__main__":
    main()
