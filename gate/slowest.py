#!/usr/bin/env python3
"""gate/slowest.py [-n COUNT] [FOLDER]: the functions whose proofs took longest, of all crates that were checked in a checkout.

A check by one job writes each module that it has checked as soon as it has, so the time between two of them is that of the
second. What several jobs checked at once is told as it fell, and what was taken over from another checkout as it was there; where
one check ended and another began, the time between them is left out.
"""
import argparse
import os
import re
from collections import Counter

from tree import TOP, Tree

# no module takes longer
LONGEST = 200

# a module of a function's proof: its crate, the function's path, and which part of the proof it is
MODULE = re.compile(r"Rattle-(\w+)-proofs\.(.+?)\.[\w-]+(?:\.decls)?\.oantt")


def seconds_of(folder):
    """The seconds of each function of one crate."""
    written = []
    for at, _, names in os.walk(folder):
        written += [(os.stat(f"{at}/{it}").st_mtime_ns, it) for it in names if it.endswith(".oantt")]
    written.sort()
    found = Counter()
    for (before, _), (after, name) in zip(written, written[1:]):
        if (module := MODULE.fullmatch(name)) and after - before < LONGEST * 1e9:
            found[f"{module[1]}::{module[2].replace('.', '::')}"] += (after - before) / 1e9
    return found


def main():
    parser = argparse.ArgumentParser(description="The functions whose proofs took longest.")
    parser.add_argument("-n", type=int, default=10, metavar="COUNT", help="how many (10)")
    parser.add_argument("folder", nargs="?", default=TOP, help="the checkout (this one)")
    given = parser.parse_args()
    tree, found = Tree(given.folder), Counter()
    for crate in tree.crates():
        found.update(seconds_of(f"{tree.folder(crate)}/out/incremental"))
    for name, seconds in found.most_common(given.n):
        print(f"{seconds:7.1f}  {name}")


if __name__ == "__main__":
    main()
