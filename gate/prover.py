"""The prover, run on a copy of one crate over the libraries that it stands on, and what it says."""
import ctypes
import os
import re
import shutil
import signal
import subprocess

from tree import FURTHER, KIT, MUST_FAIL

# What the prover leaves open: a goal that its search doesn't prove, or an answer in a proof file that it doesn't accept.
GOAL = re.compile(r"note: (src/\S+): it is not proved that")
ANSWER = re.compile(r"(?:\./)?(proofs/(\S+)/\w+\.antt:\d+:\d+): error: (.*)")
# Such a file only names what an edit took away, which says nothing of the contract.
NAME_IS_GONE = re.compile(r"has no field|is not in scope|has no `|was not admitted")
FUNCTION = re.compile(r"fn (\S+): (no proof|not proved|proved)?")
# Of a body with a raw pointer the prover takes nothing but a proof by hand of all that its contract says: it leaves that open.
BY_HAND = re.compile(r"fn (\S+): no proof: expected .*: (src/\S+): a raw pointer$")
# In the answers of functions that call each other, each is named by the function that it belongs to.
DECLARED = re.compile(r"(?:pub )?(\w+)-")


class Said:
    """What the prover said of a crate."""

    def __init__(self, crate, ran, room):
        self.crate, self.room = crate, room
        self.lines = ran.stdout.rstrip("\n").split("\n")
        self.ended_well = ran.returncode == 0
        self.refused = ran.returncode == 1 and self.lines[-1].startswith(("only=", "logic=not-proved"))
        self.proved, self.open, self.lacking = set(), {}, {}
        place = None
        for line in self.lines:
            if goal := GOAL.match(line):
                place = place or goal[1]
            elif answer := ANSWER.match(line):
                found = self.lacking if NAME_IS_GONE.search(answer[3]) else self.open
                found.setdefault(self.function_of(*answer.group(1, 2)), answer[1])
            elif by_hand := BY_HAND.match(line):
                self.open.setdefault(by_hand[1], f"{by_hand[2]}, a raw pointer")
                place = None
            elif function := FUNCTION.match(line):
                # the notes on a function's goals stand above its line
                if function[2] == "proved":
                    self.proved.add(function[1])
                elif place:
                    self.open.setdefault(function[1], place)
                place = None

    def function_of(self, place, folder):
        """The function of an answer, by its folder, which several have that call each other: then by its name too."""
        names = [self.crate, *folder.split("/")]
        if names[-1].startswith("+"):
            file, line, _ = place.split(":")
            with open(f"{self.room}/crate/{file}", encoding="utf-8") as it:
                declared = [found[1] for found in map(DECLARED.match, it.read().split("\n")[: int(line)]) if found]
            names += declared[-1:]
        return "::".join(names)

    def last(self):
        return " | ".join(self.lines[-3:])[:400]


class Prover:
    """Checks one crate of a tree, whose text may be changed, over the libraries that were built in another."""

    def __init__(self, tree, crate, built, room):
        self.crate, self.room, self.checks = crate, room, 0
        shutil.copytree(tree.folder(crate), f"{room}/crate", ignore=shutil.ignore_patterns("out", MUST_FAIL, FURTHER))
        is_program = os.path.isfile(f"{room}/crate/src/main.rt")
        self.words = ["--crate-name", crate, "src/main.rt" if is_program else "src/lib.rt"]
        folder_of = lambda it: f"{built}/crates/{it}/out/rlib"
        for it in ["std", *tree.uses[crate]]:
            place = folder_of(it) if it in tree.uses else f"{KIT}/rlibs"
            self.words += ["--extern", f"{it}={place}/{it}.rlib"]
        for it in [f"{KIT}/rlibs", *map(folder_of, tree.below(crate))]:
            self.words += ["-L", f"dependency={it}"]
        self.words += ["--links", f"{crate}=", "--jobs", "1", "--incremental", f"{room}/kept"]
        self.words += ["--antt-project", f"{KIT}/rattle/logic/antt-project.json", "--logic-built", f"{KIT}/logic_built"]

    def write(self, file, text):
        with open(f"{self.room}/crate/{file}", "w", encoding="utf-8") as it:
            it.write(text)

    def check(self, functions=()):
        """What the prover says of these functions, or of the whole crate where none is named."""
        only = [word for it in sorted(functions) for word in ("--only", it.partition("::")[2])]
        self.checks += 1
        how = {"cwd": f"{self.room}/crate", "stdin": subprocess.DEVNULL, "stdout": subprocess.PIPE, "stderr": subprocess.STDOUT}
        whole = [f"{KIT}/bin/rattle", "check", *self.words, *only]
        return Said(self.crate, subprocess.run(whole, errors="replace", preexec_fn=behind_all_else, **how), self.room)


_libc = ctypes.CDLL(None)


def ends_with_us():
    """Called in a child process: it is ended where this program ends, however that is."""
    _libc.prctl(1, signal.SIGKILL)
    os.nice(5)


def behind_all_else():
    """The same, and it takes what processors the chain of proofs leaves: no crate waits for an edit."""
    ends_with_us()
    os.nice(10)
