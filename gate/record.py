"""The record of wrong bodies that were refused: for each, a digest of all that its refusal rests on."""
import hashlib
import os
import subprocess

from tree import TOP, digest_of

FILE = "gate/refused.txt"

# Of the edits that the record covers, a run of the gate tries again one in so many.
SHARES = 10


class Record:
    """Which edits were refused over which sources: the crate's own, the contracts of those below it, and the edit."""

    def __init__(self, tree):
        self.tree, self._digests, self.passed = tree, {}, {}
        # what a proof is, is the logic's; a later kit of one logic refuses what an earlier one did
        self.logic = subprocess.run(["rt", "version"], capture_output=True, text=True).stdout.partition(" ")[2].strip()
        if os.path.isfile(f"{tree.top}/{FILE}"):
            with open(f"{tree.top}/{FILE}", encoding="utf-8") as it:
                self.passed = dict(line.split() for line in it if not line.startswith("#"))

    def digest(self, edit):
        if edit.crate not in self._digests:
            below, uses = self.tree.contracts(edit.crate), " ".join(self.tree.uses[edit.crate])
            self._digests[edit.crate] = digest_of([(edit.crate, self.tree.digest(edit.crate)), ("", f"{below} {uses} {self.logic}")])
        return digest_of([(edit.label, edit.text), ("", self._digests[edit.crate])])

    def covers(self, edit):
        return self.passed.get(edit.label) == self.digest(edit)

    def is_due(self, edit, turn):
        """Whether a run of the gate tries this edit: it isn't covered, or belongs to the share whose turn it is."""
        share = int(hashlib.sha256(edit.label.encode()).hexdigest(), 16) % SHARES
        return not self.covers(edit) or share == turn

    def tell(self, edit, is_refused):
        if is_refused:
            self.passed[edit.label] = self.digest(edit)
        else:
            self.passed.pop(edit.label, None)

    def write(self, edits):
        """Writes the record of these edits, and of no other, into the repository."""
        names = sorted(it.label for it in edits if it.label in self.passed)
        with open(f"{TOP}/{FILE}.new", "w", encoding="utf-8") as it:
            it.write("# Written by ./edits: which wrong bodies were refused, each with a digest of what that rests on.\n")
            it.writelines(f"{name} {self.passed[name]}\n" for name in names)
        os.replace(f"{TOP}/{FILE}.new", f"{TOP}/{FILE}")


def turn():
    """The share whose turn it is: it changes from commit to commit."""
    ran = subprocess.run(["git", "rev-parse", "HEAD"], cwd=TOP, capture_output=True, text=True)
    return int(ran.stdout.strip() or "0", 16) % SHARES
