#!/usr/bin/env python3
"""`rt` of the toolchain, with the sum of a crate's files made once in a run.

rt makes the sum of a crate from its files and the sums of the crates that it lists, and makes these anew for each way that leads
to a crate: 20,000 times for the program, which takes minutes. They are the same each time, since no file changes in the gate's
copy of the repository. Where a toolchain makes them in another way, this is rt as it is.
"""
import os
import runpy
import shutil
import sys
from importlib.machinery import SourceFileLoader

sys.dont_write_bytecode = True
RT = os.path.realpath(shutil.which("rt") or "/opt/rattle/bin/rt")


def keep_sums(module):
    """Has each crate's sum made once."""
    crate, kept = getattr(module, "Crate", None), {}
    made = getattr(crate, "stamp", None)

    def stamp(self):
        if self.folder not in kept:
            kept[self.folder] = made(self)
        return kept[self.folder]

    if made:
        crate.stamp = stamp


def main():
    load = SourceFileLoader.exec_module

    def exec_module(self, module):
        load(self, module)
        if module.__name__ == "rtlib":
            keep_sums(module)

    SourceFileLoader.exec_module = exec_module
    sys.argv[0] = RT
    sys.path.insert(0, os.path.dirname(RT))
    runpy.run_path(RT, run_name="__main__")


if __name__ == "__main__":
    main()
