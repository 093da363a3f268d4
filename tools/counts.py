#!/usr/bin/env python3
"""Counts what the repository has, crate by crate and in all, and gives the longest chain of crates.

usage: python3 tools/counts.py

It prints a line for each crate: the lines of src/, specs/ and proofs/ (all lines, as wc -l has them), functions, public ones,
clauses, those with a line over 100 and over 120 columns, and must-fail edits. Then the sums, and from crates.txt how many
dependencies it lists, how many of them the crates' files cite, and the longest chain from a crate down to one that needs none.
"""

import functools
import glob
import os
import re

TOP = os.path.join(os.path.dirname(os.path.realpath(__file__)), "..")
COLUMNS = ["src", "specs", "proofs", "fn", "pub fn", "clauses", "> 100", "> 120", "edits"]


def texts(crate, ending):
    for path in glob.glob(os.path.join(TOP, "crates", crate, ending), recursive=True):
        with open(path, encoding="utf-8") as f:
            yield f.read()


def clauses(text):
    """Each clause as its lines, from `requires` or `ensures` to the brace that closes it."""
    for match in re.finditer(r"(?m)^ *(?:requires|ensures)\b[^{]*", text):
        depth, end = 0, match.end()
        while not (depth == 0 and text[end - 1] == "}"):
            depth += (text[end] == "{") - (text[end] == "}")
            end += 1
        yield (text[match.start():end] + re.match(r"[^\n]*", text[end:]).group()).split("\n")


def counts(crate):
    source = list(texts(crate, "src/**/*.rt"))
    code = [re.sub("//.*", "", text) for text in source]
    widths = [max(map(len, clause)) for text in source for clause in clauses(text)]
    return [
        sum(text.count("\n") for text in source),
        sum(text.count("\n") for text in texts(crate, "specs/**/*.antt")),
        sum(text.count("\n") for text in texts(crate, "proofs/**/*.antt")),
        sum(len(re.findall(r"\bfn \w+", text)) for text in code),
        sum(len(re.findall(r"\bpub (?:const |unsafe )*fn \w+", text)) for text in code),
        len(widths),
        sum(width > 100 for width in widths),
        sum(width > 120 for width in widths),
        len(glob.glob(os.path.join(TOP, "crates", crate, "must-fail", "*.edit"))),
    ]


def cites(crate, other):
    below = r"\bRattle\.%s\.|\b(?<!:)%s::" % (other, other)
    return any(re.search(below, text) for ending in ("src/**/*.rt", "*/**/*.antt") for text in texts(crate, ending))


def main():
    crates = sorted(os.listdir(os.path.join(TOP, "crates")))
    rows = {crate: counts(crate) for crate in crates}
    rows["in all"] = [sum(column) for column in zip(*rows.values())]
    print("%-20s" % "" + "".join("%8s" % title for title in COLUMNS))
    for crate, row in rows.items():
        print("%-20s" % crate + "".join("%8d" % number for number in row))
    needs = {}
    with open(os.path.join(TOP, "crates.txt"), encoding="utf-8") as f:
        for name, others in re.findall(r"(?m)^(\w+):(.*)$", f.read()):
            needs[name] = others.split()
    listed = [(name, other) for name in needs for other in needs[name]]
    print("\ncrates.txt: %d crates, %d dependencies, %d cited" % (len(needs), len(listed), sum(cites(*pair) for pair in listed)))

    @functools.cache
    def chain(name):
        return max((chain(other) for other in needs.get(name, [])), key=len, default=[]) + [name]

    longest = max(map(chain, needs), key=len)
    print("longest chain: %d: %s" % (len(longest), " ".join(longest)))


if __name__ == "__main__":
    main()
