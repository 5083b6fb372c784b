#!/usr/bin/env python3
"""Compares changes of basis with Symmetrica (Debian's libsymmetrica2-dev): `bases.py PROGRAM`.

It builds the driver beside it and asks both for every partition of 8 from each basis into each other one."""
import sys

from common import Differences, atom, partitions, printed, symmetrica, terms

BASES = "mehps"


def main():
    calc, differences = sys.argv[1], Differences()
    asked = [(start, target, parts) for start in BASES for target in BASES if start != target for parts in partitions(8)]
    theirs = symmetrica([f"change {start} {target} {','.join(map(str, parts))}" for start, target, parts in asked])
    if theirs is None:
        return 77
    ours = printed(calc, "batch", given="".join(f"expand {target} {atom(start, parts)}\n" for start, target, parts in asked)).split("--\n")
    for (start, target, parts), mine, other in zip(asked, ours, theirs):
        differences.compare(f"expand {target} {atom(start, parts)}", terms(mine), terms(other, falling))
    return differences.status("changes of basis of Symmetrica")


def falling(label):
    return tuple(sorted(map(int, label.split(",")), reverse=True))


if __name__ == "__main__":
    sys.exit(main())
