"""`rt ci` over a copy of the repository: every crate and its tests proved, the tests and the program run.

Some kits keep what `rt ci` proved beside the toolchain, on this machine alone, by the checksums of all that a proof reads; a
crate whose sources, libraries and toolchain are the same isn't proved again there. Else every proof is made anew.
"""
import os
import re
import subprocess
import sys
import threading

from prover import ends_with_us
from rt import __file__ as RT

PROVED = re.compile(r"rt: (\w+)(: its tests are)? (proved|NOT PROVED.*|is kept: .*)")
RESULT = re.compile(r"(\d+) passed, (\d+) failed")


class Proofs(threading.Thread):
    """A run of `rt ci` that tells of each crate when it is proved, and at the end what passed."""

    def __init__(self, tree, jobs, on_proved, say):
        super().__init__()
        self.tree, self.jobs, self.on_proved, self.say = tree, jobs, on_proved, say
        self.done, self.kept, self.passed, self.failed, self.why = [], 0, 0, [], {}

    def run(self):
        words = {"cwd": self.tree.top, "stdin": subprocess.DEVNULL, "stdout": subprocess.PIPE, "stderr": subprocess.STDOUT}
        with subprocess.Popen([sys.executable, "-B", RT, "ci"], env={**os.environ, "RT_JOBS": str(self.jobs)}, preexec_fn=ends_with_us, **words) as ran:
            result, kept = None, []
            for line in map(lambda it: it.decode(errors="replace").rstrip("\n"), ran.stdout):
                kept.append(line)
                if found := PROVED.fullmatch(line):
                    self.tell(found, kept)
                    kept = []
                elif line.startswith("rt: ") and not line.startswith("rt: chose "):
                    self.say(line)
                if line.startswith("rt: FAILED: "):
                    self.failed += line[len("rt: FAILED: ") :].replace(" (", "(").split()
                result = RESULT.fullmatch(line) or result
        self.passed = int(result[1]) if result else 0
        if not result or (ran.returncode and not self.failed):
            self.say("\n".join(kept[-20:]))
            self.failed.append(f"rt ci ended with status {ran.returncode}")

    def tell(self, found, kept):
        """A crate, or its tests, are proved, or not: then what was said of them is told whole."""
        crate, tests, how = found[1], found[2], found[3]
        if how.startswith("NOT PROVED"):
            self.say("\n".join(kept))
            self.why[crate] = " | ".join(kept[-4:])[-400:]
        elif tests:
            self.say(f"the tests of {crate} are proved")
        else:
            self.done.append(crate)
            self.kept += how != "proved"
            was = "is proved" if how == "proved" else "was proved before, of the same bytes"
            self.say(f"{crate} {was} ({len(self.done)} of {len(self.tree.uses)})")
            self.on_proved(crate)

    def under_way(self):
        """The crates whose proof has begun and not ended."""
        begun = [it for it in self.tree.uses if os.path.isdir(f"{self.tree.folder(it)}/out")]
        return [it for it in begun if it not in self.done]
