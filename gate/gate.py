"""The gate: proofs, tests, wrong bodies, scripts and the installed program, all of one copy of the repository.

The proofs run as `rt ci` does them. Beside them the wrong bodies of a crate are tried as soon as it is proved, and the scripts
run as soon as the program is built. The last line is 'N passed, M failed' over all parts.
"""
import os
import shutil
import subprocess
import sys
import tempfile
import threading
import time
from concurrent.futures import ThreadPoolExecutor

from cases import cases_of
from edit import Sources
from proofs import Proofs
from record import Record, turn
from tree import FURTHER, MUST_FAIL, PROGRAM, TOP, Tree, copy_to
from tries import try_edits

# How the two programs are named that rt ci builds, by LLVM and by Rattle's own compiler.
PROGRAMS = (PROGRAM, f"{PROGRAM}.by-rattle")


# What a run may write, in bytes: libraries of all crates, and what provers keep meanwhile.
ROOM = 8_000_000_000


class Gate:
    """What has passed and what has failed so far, and when each part ended."""

    def __init__(self):
        self.begun, self.passed, self.failed, self.times = time.monotonic(), 0, [], []
        self.lock = threading.Lock()
        self.spoke = self.begun

    def minutes(self):
        return (time.monotonic() - self.begun) / 60

    def say(self, line):
        with self.lock:
            self.spoke = time.monotonic()
            print(f"[{self.minutes():5.1f}] {line}", flush=True)

    def pass_one(self, count=1):
        with self.lock:
            self.passed += count

    def fail(self, name, why=""):
        with self.lock:
            self.failed.append((name, why))
        self.say(f"FAILED: {name}{': ' + why if why else ''}")

    def ended(self, part):
        self.times.append(f"minute {self.minutes():5.1f}: {part}")

    def finish(self):
        print("\n".join(self.times))
        print(f"the gate took {self.minutes():.0f} minutes on {processors()} processors")
        for name, why in self.failed:
            print(f"FAILED: {name}" + (f"\n  {why}" if why else ""))
        print(f"{self.passed} passed, {len(self.failed)} failed", flush=True)
        return not self.failed


def processors():
    return len(os.sched_getaffinity(0))


class Run:
    """One run of the gate over one copy of the repository."""

    def __init__(self, gate, copy):
        self.gate = gate
        self.whole = Tree(copy_to(f"{copy}/whole"))
        # rt ci would try the edits one by one, a check of the crate for each
        self.proved = Tree(copy_to(f"{copy}/proved", MUST_FAIL, FURTHER))
        self.sources, self.record, self.turn = Sources(self.whole), Record(self.whole), turn()
        self.lanes = min(processors(), 4)
        # beside the proofs edits have one lane, since each prover takes some 2 GB, and those that no crate needs (`share_lanes`)
        self.edit_lanes = ThreadPoolExecutor(self.lanes)
        self.beside = 1
        self.free_lanes = threading.Semaphore(self.beside)
        self.left = {it: self.due(it) for it in self.whole.uses}
        self.proofs = Proofs(self.proved, self.lanes, self.on_proved, gate.say)
        self.is_built = threading.Event()

    def due(self, crate):
        """The edits of a crate that this run tries."""
        found = []
        for edit in self.sources.edits_of(crate):
            if edit.why_not:
                self.gate.fail(edit.label, edit.why_not)
            elif edit.label.startswith(f"{crate}/{MUST_FAIL}/") and self.record.is_due(edit, self.turn):
                found.append(edit)
        return found

    def on_proved(self, crate):
        self.gate.ended(f"{crate} is proved")
        if self.left[crate]:
            self.edit_lanes.submit(self.try_edits, crate)
        if crate == PROGRAM:
            self.is_built.set()

    def try_edits(self, crate):
        edits = self.left[crate]
        try:
            with self.free_lanes:
                refused = try_edits(self.whole, crate, edits, self.proved.top, self.gate.say)
        except Exception as error:  # what goes wrong here must not pass for a refusal
            refused = []
            self.gate.say(f"the edits of {crate} could not be tried: {error!r}")
        for it in edits:
            self.gate.pass_one() if it in refused else self.gate.fail(it.label)
        self.left[crate] = []
        self.gate.ended(f"the {len(edits)} edits of {crate} are tried")

    def run_cases(self):
        """Runs each case with both programs, and the installed program on the first example."""
        cases, programs = cases_of(self.whole.top), [f"{self.proved.folder(PROGRAM)}/out/{it}" for it in PROGRAMS]
        programs = [it for it in programs if os.path.isfile(it)]
        if not programs:
            self.gate.fail("the program", "rt ci built none")
        for case in cases if programs else []:
            for program in programs:
                if fault := case.fault(program):
                    self.gate.fail(case.label, f"{os.path.basename(program)}: {fault}")
                    break
            else:
                self.gate.pass_one()
        self.gate.ended(f"{len(cases)} cases are run with {len(programs)} programs")
        self.install(next(it for it in cases if it.label == "examples/first_query"))

    def install(self, case):
        """`./install` into an empty folder, and the first example with what it put there."""
        with tempfile.TemporaryDirectory(prefix="installed-") as prefix:
            words = {"cwd": self.proved.top, "stdin": subprocess.DEVNULL, "capture_output": True, "text": True}
            ran = subprocess.run(["./install", prefix], **words)
            fault = case.fault(f"{prefix}/bin/druid-node") if ran.returncode == 0 else ran.stderr[-300:]
        self.gate.fail("install", fault) if fault else self.gate.pass_one()

    def share_lanes(self, wanted):
        """Gives the edits so many lanes; one that is in use is taken back once it is free."""
        while self.beside < wanted:
            self.free_lanes.release()
            self.beside += 1
        while self.beside > wanted and self.free_lanes.acquire(blocking=False):
            self.beside -= 1

    def progress(self):
        tried = sum(map(len, self.left.values()))
        waiting = f"; edits left: {tried}" if tried else ""
        under_way = ", ".join(self.proofs.under_way()) or "none"
        return f"{len(self.proofs.done)} of {len(self.whole.uses)} crates proved; being proved: {under_way}{waiting}"

    def run(self):
        test_gate(self.gate, self.whole)
        self.proofs.start()
        has_run_cases = False
        while self.proofs.is_alive():
            self.proofs.join(1)
            self.share_lanes(max(self.lanes - len(self.proofs.under_way()), 1))
            if self.is_built.is_set() and not has_run_cases:
                has_run_cases = True
                self.run_cases()
            if time.monotonic() - self.gate.spoke > 50:
                self.gate.say(self.progress())
        self.gate.pass_one(self.proofs.passed)
        for name in self.proofs.failed:
            self.gate.fail(name, self.proofs.why.get(name, ""))
        self.gate.ended(f"rt ci has ended; {self.proofs.kept} of {len(self.proofs.done)} crates were proved by an earlier run on this machine")
        self.share_lanes(self.lanes)
        if not has_run_cases:
            self.gate.fail("examples", "the program is not proved")
        self.finish_edits()

    def finish_edits(self):
        """The edits that are left, of crates that were proved; those of the others can't be tried."""
        for crate in self.whole.uses:
            if crate not in self.proofs.done:
                for it in self.left.pop(crate):
                    self.gate.fail(it.label, f"{crate} is not proved")
        waiting = threading.Thread(target=self.edit_lanes.shutdown)
        waiting.start()
        while waiting.is_alive():
            waiting.join(1)
            if time.monotonic() - self.gate.spoke > 50:
                self.gate.say(self.progress())


def test_gate(gate, tree):
    """The gate's own faults, with a toolchain that only says what it is told to."""
    if os.environ.get("GATE_OF_A_STUB"):
        return
    words = [sys.executable, f"{tree.top}/gate/self_test.py"]
    ran = subprocess.run(words, stdin=subprocess.DEVNULL, stdout=subprocess.PIPE, stderr=subprocess.STDOUT, text=True)
    if ran.returncode:
        gate.say(ran.stdout)
        gate.fail("the test of the gate")
    else:
        gate.pass_one()
    gate.ended("the gate itself is tested")


def main():
    gate = Gate()
    with tempfile.TemporaryDirectory(prefix="gate-") as copy:
        os.chmod(copy, 0o755)
        os.chdir(TOP)
        if (free := shutil.disk_usage(copy).free) < ROOM:
            gate.fail("room on the disk", f"{free / 1e9:.1f} GB are free at {copy}, and a run may take {ROOM / 1e9:.0f}")
        else:
            Run(gate, copy).run()
    return gate.finish()


if __name__ == "__main__":
    sys.exit(0 if main() else 1)
