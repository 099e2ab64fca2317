#!/usr/bin/env python3
"""Counts, over crates/*/src, the places that docs/DESIGN-PASS.md speaks of; with -l it prints each of them.

Each count is of a shape of text, so it also finds places that are right as they are: the page says what became of each.
"""

import collections
import glob
import re
import sys

LINES = [
    ("1 an error or none handed on by a match", r"Err\((\w+)\) => (return )?Err\(\1\)|None => (return )?(None|Ok\(None\))"),
    ("1 a result taken apart to say less of it", r"Ok\((\(\)|_)\) => (\{\}|true|Ok\(\(\)\))|Err\(_\) => |None => (return )?Err\(|Ok\((\w+)\) => \4,|Some\((\w+)\) => return Some\(\5\)|let _ = "),
    ("1 enums of our own", r"^\s*(pub )?enum "),
    ("1 flags in a struct", r"^    (pub(\(crate\))? )?\w+: bool,"),
    ("1 functions that answer 0 for nothing", r"\) -> u8$"),
    ("3 loops over an index", r"^\s*('\w+: )?for \w+ in [^{]*\.\."),
    ("3 other loops by hand", r"^\s*('\w+: )?(while|loop)\b"),
    ("4 comparisons by a field", r"\.0 (<|>|==|!=|<=|>=) |\.closed (==|!=) |\.number (<|>|==|!=|<=|>=) \w+\.number"),
    ("4 constants and rows that ask nothing", r"lower: None,$|const (FREE|ANYWHERE)|\binvariant: ANYWHERE|area: ANYWHERE|guard: ANYWHERE"),
    ("6 a count beside a buffer", r"^    (pub(\(crate\))? )?(used|length|count): usize,"),
]


def main():
    listed = "-l" in sys.argv
    files = sorted(glob.glob("crates/*/src/**/*.rt", recursive=True))
    for name, shape in LINES:
        found = []
        for path in files:
            for number, line in enumerate(open(path, encoding="utf-8"), 1):
                if re.search(shape, line):
                    found.append(f"{path}:{number}: {line.strip()}")
        print(f"{len(found):4}  {name}")
        if listed:
            print("".join(f"        {place}\n" for place in found), end="")
    clauses = collections.defaultdict(list)
    for path in files:
        for number, line in enumerate(open(path, encoding="utf-8"), 1):
            clause = re.match(r"\s*(requires|ensures)(?: \w+)? \{ (.*) \}\s*$", line)
            if clause:
                for part in re.split(r" × (?![^()]*\))", clause.group(2)):
                    clauses[(clause.group(1), part.strip("()"))].append(f"{path}:{number}")
    repeated = {key: places for key, places in clauses.items() if len(places) >= 3}
    print(f"{len(repeated):4}  5 clauses that stand in three or more contracts ({sum(map(len, repeated.values()))} places)")
    if listed:
        for (kind, text), places in sorted(repeated.items()):
            print(f"        {len(places)} {kind} {text}")
            print("".join(f"            {place}\n" for place in places), end="")


if __name__ == "__main__":
    main()
