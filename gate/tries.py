"""Tries the wrong bodies of a crate, many in one check.

A function is proved against the contracts of those that it calls, whatever their bodies are. So wrong bodies of different
functions are tried in one check, and an edit is refused where the prover leaves a goal open of the very function that it
changes, whose unedited code it proves by the same means, or all that its contract says, as of a body with a raw pointer. A
goal of another function, or a proof file that only names what the edit took away, is told, and shows nothing of the promise
that the edit stands for.
"""
import tempfile
import time

from edit import Sources, apart
from prover import Prover


class Tries:
    """Some edits of one crate, tried over the libraries of a tree in which the crates below are built."""

    def __init__(self, tree, crate, edits, built, room, say):
        self.crate, self.edits, self.say = crate, edits, say
        self.sources = Sources(tree)
        self.prover = Prover(tree, crate, built, room)
        self.refused = []

    def check(self, edits, functions):
        spans = sorted((it for edit in edits for it in edit.spans), key=lambda it: it[:2], reverse=True)
        for file in {it[0] for edit in self.edits for it in edit.spans}:
            text = self.sources.of(self.crate, file).text
            for _, start, end, new in (it for it in spans if it[0] == file):
                text = text[:start] + new + text[end:]
            self.prover.write(file, text)
        return self.prover.check(functions)

    def unproved(self):
        """The functions that the edits change and that aren't proved as they stand: what is refused of them shows nothing."""
        functions = {name for edit in self.edits for name in edit.functions if name}
        said = self.check([], functions)
        if not said.ended_well:
            return {it: said.last() for it in functions}
        return {it: "it isn't among the functions that the prover says it proved" for it in functions - said.proved}

    def run(self):
        """Tries the edits, those apart from each other at once."""
        unproved = self.unproved()
        left = [it for it in self.edits if not self.lacks_control(it, unproved)]
        while batch := apart(left):
            self.settle(batch)
            left = [it for it in left if it not in batch]
        return self.refused

    def settle(self, batch):
        """Tries edits in one check, then those of which that told nothing; where it told nothing of any, as where one of them doesn't
        compile, half of them at a time."""
        said = self.check(batch, {name for it in batch for name in it.functions})
        left = [it for it in batch if not (said.refused and self.tell(it, said))]
        if len(batch) == 1:
            for it in left:
                self.fail(it, said)
        elif len(left) < len(batch):
            if left:
                self.settle(left)
        else:
            half = len(batch) // 2
            self.settle(batch[:half])
            self.settle(batch[half:])

    def lacks_control(self, edit, unproved):
        if None in edit.functions:
            self.say(f"{edit.label}: NOT TRIED: it changes what is no function, so no goal is its own")
            return True
        for it in edit.functions & set(unproved):
            self.say(f"{edit.label}: NOT TRIED: {it} isn't proved unedited: {unproved[it]}")
            return True
        return False

    def tell(self, edit, said):
        if where := goal_of(edit, said.open):
            self.say(f"{edit.label}: refused at {where}")
            self.refused.append(edit)
        return bool(where)

    def fail(self, edit, said):
        if not said.refused:
            why = f"NOT REFUSED: {said.last()}"
        elif where := goal_of(edit, said.lacking):
            why = f"REFUSED FOR A NAME ALONE: a proof file names what the edit took away, at {where}"
        else:
            why = f"REFUSED ELSEWHERE: {', '.join(f'{place}, a goal of {it}' for it, place in said.open.items()) or said.last()}"
        self.say(f"{edit.label}: {why}")


def goal_of(edit, found):
    """The function that an edit changes, or a closure in it, among those found, and where."""
    for name in edit.functions:
        *owner, function = name.split("::")
        closures = "::".join([*owner, "fn", function, ""])
        for it, place in found.items():
            # functions that call each other: their module, a name for all of them, and the one
            module, among, one = it.partition("::+")
            is_one = among and name.startswith(f"{module}::") and one.endswith(f"::{function}")
            if it == name or it.startswith(closures) or is_one:
                return f"{place}, a goal of {it}"
    return None


def try_edits(tree, crate, edits, built, say):
    """Tries some edits of one crate, and answers those that were refused."""
    begun = time.monotonic()
    with tempfile.TemporaryDirectory(prefix="edits-") as room:
        tries = Tries(tree, crate, edits, built, room, say)
        refused = tries.run()
    say(f"{crate}: {len(refused)} of {len(edits)} refused, in {tries.prover.checks} checks and {time.monotonic() - begun:.0f} seconds")
    return refused
