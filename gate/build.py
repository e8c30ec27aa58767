"""Proves and builds the program in the repository, and shows on standard error how far it is.

What an earlier build proved stands, so an interrupted build goes on where it stopped. The program is there only where all
that it rests on was proved, and it counts as built when this build began: what changes meanwhile makes it old.
"""
import fcntl
import os
import re
import subprocess
import sys
import threading
import time

from prover import ends_with_us
from tree import PROGRAM, TOP, Tree

# A line of code, definition or proof, checked for the first time by one job: the first guess at what is left.
SECONDS_A_LINE = 0.08

# What `rt all check` says of a crate, above what was said while it was proved, and at its end.
SAID_OF, SUMMARY = re.compile(r"== (\w+)"), re.compile(r"(\w+): (ok|failed .*|not run.*)")


class Proving(threading.Thread):
    """A run of `rt all check`: several crates at a time, each after those that it stands on; what it says of each as it ends."""

    def __init__(self, top, lanes):
        super().__init__(daemon=True)
        how = {"stdin": subprocess.DEVNULL, "stdout": subprocess.PIPE, "stderr": subprocess.STDOUT, "errors": "replace", "preexec_fn": ends_with_us}
        self.ran = subprocess.Popen(["rt", "all", "check", "--jobs", str(lanes)], cwd=top, **how)
        self.said, self.ok, self.last = {}, set(), []

    def run(self):
        part = self.last
        for line in map(str.rstrip, self.ran.stdout):
            if found := SAID_OF.fullmatch(line):
                part = self.said.setdefault(found[1], []) if found[1] != "summary" else self.last
            elif part is self.last and (found := SUMMARY.fullmatch(line)) and found[2] == "ok":
                self.ok.add(found[1])
            part.append(line)
        self.ran.wait()

    def why_not(self, crate):
        """What was said of a crate that wasn't proved."""
        return "\n".join(self.said.get(crate) or self.last)[-3000:]


class Build:
    """A build of the program: which crates are done, and which are being proved."""

    def __init__(self, out=sys.stderr):
        self.tree, self.out, self.begun = Tree(TOP), out, time.time()
        self.program = f"{self.tree.folder(PROGRAM)}/out/{PROGRAM}"
        self.needed = [*self.tree.below(PROGRAM), PROGRAM]
        self.weight = {it: self.tree.lines(it) for it in self.tree.crates()}
        self.lanes = max(len(os.sched_getaffinity(0)), 1)
        self.done = []
        self.is_terminal = out.isatty()

    def is_current(self):
        """Whether the program is there and newer than each file that it is made of."""
        if not os.access(self.program, os.X_OK):
            return False
        built = os.stat(self.program).st_mtime
        files = [f"{self.tree.folder(it)}/{file}" for it in self.needed for file in self.tree.files(it, "src", "specs")]
        return all(os.stat(it).st_mtime <= built for it in [f"{TOP}/crates.txt", *files])

    def run(self):
        """Proves the crates and builds the program; answers why that failed, or nothing."""
        if os.path.exists(self.program):
            os.remove(self.program)
        proving = Proving(TOP, self.lanes)
        proving.start()
        self.show()
        while proving.is_alive():
            proving.join(1)
            for crate in [it for it in list(proving.said) if it not in self.done and it in self.weight]:
                self.done.append(crate)
                self.show(crate)
            self.show()
        # the tests of public calls are crates too, and no part of the program
        for crate in self.needed:
            if crate not in proving.ok:
                return f"{crate} is not proved:\n{proving.why_not(crate)}"
        if why := self.built():
            return f"{PROGRAM} is not built:\n{why}"
        os.utime(self.program, (self.begun, self.begun))
        return None

    def built(self):
        """Builds the program of what was proved; answers what was said where that failed."""
        how = {"stdin": subprocess.DEVNULL, "stdout": subprocess.PIPE, "stderr": subprocess.STDOUT, "preexec_fn": ends_with_us}
        ran = subprocess.run(["rt", "run", "--jobs", str(self.lanes), "--", "run"], cwd=self.tree.folder(PROGRAM), errors="replace", **how)
        if ran.returncode == 0 and os.access(self.program, os.X_OK):
            return None
        return ran.stdout[-3000:] or f"rt run ended with status {ran.returncode}"

    def under_way(self):
        """The crates that are likely being proved: the first that wait for none."""
        ready = [it for it in self.tree.crates() if it not in self.done and set(self.tree.below(it)) <= set(self.done)]
        return ready[: self.lanes]

    def left(self):
        """About how many seconds are left, by the sizes of the crates."""
        passed = time.time() - self.begun
        done = sum(self.weight[it] for it in self.done)
        all_lines = sum(self.weight.values())
        share = min(passed / SECONDS_A_LINE, sum(0.5 * self.weight[it] for it in self.under_way()))
        guess = passed / (done + share) if done > 500 and passed > 20 else SECONDS_A_LINE / self.lanes * 2
        return max(guess * (all_lines - done - share), 1)

    def show(self, crate=None):
        """One line that is rewritten on a terminal, and elsewhere a line for each crate that was proved."""
        so_far = f"{len(self.done)} of {len(self.weight)} crates"
        times = f"{clock(time.time() - self.begun)} so far, about {clock(self.left())} left"
        if self.is_terminal:
            line = f"druid-node: {so_far} proved, now {', '.join(self.under_way()) or PROGRAM}; {times}"
            width = os.get_terminal_size(self.out.fileno()).columns
            print(f"\r{line[: width - 1]}\x1b[K", end="", file=self.out, flush=True)
        elif crate:
            print(f"druid-node: {crate} is done, {so_far}; {times}", file=self.out, flush=True)


def clock(seconds):
    return f"{seconds / 60:.0f} min" if seconds >= 90 else f"{seconds:.0f} s"


def main():
    os.makedirs(f"{TOP}/out", exist_ok=True)
    with open(f"{TOP}/out/build.lock", "w") as lock:
        # of two first runs one builds, and the other waits for it
        try:
            fcntl.flock(lock, fcntl.LOCK_EX | fcntl.LOCK_NB)
        except OSError:
            print("druid-node: another build is under way; waiting for it", file=sys.stderr, flush=True)
            fcntl.flock(lock, fcntl.LOCK_EX)
        build = Build()
        if build.is_current():
            return True
        why = build.run()
        if build.is_terminal:
            print("\r\x1b[K", end="", file=sys.stderr, flush=True)
        if why:
            print(f"druid-node: not built: {why}", file=sys.stderr, flush=True)
        return not why


if __name__ == "__main__":
    try:
        sys.exit(0 if main() else 1)
    except KeyboardInterrupt:
        print("\ndruid-node: interrupted; the next build goes on from here", file=sys.stderr)
        os._exit(130)
