#!/usr/bin/env python3
"""Brings the names of goals and steps in answer files to today's spelling, once.

usage: python3 tools/answers.py FILE..     proofs/F/Answers.antt, or text kept aside

Rattle makes these names after the code. Its own words are in snake case now (overflow_mul-x,
in_ok-x, invariant_of-x), and a name of the source keeps its underscores (write_pair).
"""

import glob
import re
import sys

OWN = [
    (r"overflow-(add|sub|mul|cast|shl|shr|neg|step)\b", r"overflow_\1"),
    (r"\bin-(ok|err)-", r"in_\1-"),
    (r"\binvariant-of-", "invariant_of-"),
    (r"\bin-default\b", "in_default"),
    (r"\bfrom-residual\b", "from_residual"),
    (r"\bslice-bounds-", "slice_bounds-"),
]
LIBRARY = "unsigned_abs as_slice as_mut_slice as_bytes split_whitespace starts_with from_slice into_iter to_vec write_str".split()


def names():
    out = set(LIBRARY)
    for p in glob.glob("crates/*/src/**/*.rt", recursive=True) + glob.glob("unfinished/crates/*/src/**/*.rt.txt", recursive=True):
        with open(p, encoding="utf-8") as f:
            out |= {n for n in re.findall(r"\bfn (\w+)", f.read()) if "_" in n}
    return sorted(out, key=len, reverse=True)


def main():
    rules = OWN + [(rf"(?<![A-Za-z0-9_]){n.replace('_', '-')}(?![A-Za-z0-9_])", n) for n in names()]
    for p in sys.argv[1:]:
        with open(p, encoding="utf-8") as f:
            old = f.read()
        new = old
        for a, b in rules:
            new = re.sub(a, b, new)
        if new != old:
            with open(p, "w", encoding="utf-8") as f:
                f.write(new)
            print(p)


main()
