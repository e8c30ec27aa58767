"""A test of the gate itself: a small repository, and a toolchain that proves nothing and fails where it is told to.

Each fault has to end the gate as failed, by the name of what failed; without a fault it passes.
"""
import os
import shutil
import subprocess
import sys
import tempfile
from concurrent.futures import ThreadPoolExecutor

from tree import Tree

HERE = os.path.dirname(os.path.realpath(__file__))

RT = """#!/usr/bin/env python3
import os, sys, time
fault = os.environ.get("STUB_FAULT", "")
says = {"wrong output": "echo wrong", "wrong by workers": "[ $# -eq 1 ] && cat || echo wrong"}
program = "#!/bin/sh\\n" + says.get(fault, "cat") + "\\n"
def make(path):
    with open(path, "w") as it:
        it.write(program)
    os.chmod(path, 0o755)
verb = sys.argv[1]
if verb == "ci":
    for crate in ("low", "dr_cli"):
        os.makedirs(f"crates/{crate}/out", exist_ok=True)
    print("== low\\nfn low::f: " + ("not proved" if fault == "proof" else "proved"))
    of_low = {"proof": "NOT PROVED", "kept": "is kept: an earlier run on this machine proved the same files", "kept edit": "is kept: so"}
    print("rt: low " + of_low.get(fault, "proved"))
    if fault == "proof":
        print("rt: FAILED: low dr_cli\\n0 passed, 2 failed")
        sys.exit(1)
    if fault != "no program":
        make("crates/dr_cli/out/dr_cli")
        make("crates/dr_cli/out/dr_cli.by-rattle")
    print("== dr_cli\\nrt: dr_cli proved")
    if fault == "killed":
        sys.exit(137)
    if fault == "test":
        print("rt: FAILED: low (tests)\\n1 passed, 1 failed")
        sys.exit(1)
    print("2 passed, 0 failed")
elif verb in ("all", "run"):
    with open(os.environ["STUB_LOG"], "a") as it:
        it.write(f"{verb} {os.path.basename(os.getcwd())}\\n")
    time.sleep(0.2)
    if verb == "all":
        of_low = "failed (1)" if fault == "build" else "ok"
        print("== low\\nit is " + of_low)
        of_program = "not run, since low failed" if fault == "build" else "ok"
        print("== dr_cli\\n== summary\\nlow: " + of_low + "\\ndr_cli: " + of_program)
        sys.exit(1 if fault == "build" else 0)
    if fault == "link":
        print("it does not link")
        sys.exit(1)
    os.makedirs("out", exist_ok=True)
    make("out/dr_cli")
elif verb == "version":
    print("stub")
"""

RATTLE = """#!/usr/bin/env python3
import os, sys
fault = os.environ.get("STUB_FAULT", "")
with open("src/lib.rt") as it:
    wrong = "wrong" in it.read()
refused = wrong and fault not in ("edit", "kept edit") or fault == "control"
if refused:
    named = "f" if fault != "elsewhere" else "g"
    if fault == "raw pointer":
        print("fn low::f: no proof: expected `f_spec` in ./proofs/f/Proof.antt; not covered yet: src/lib.rt:2:5: a raw pointer")
    elif fault == "name":
        print("./proofs/f/Answers.antt:1:1: error: c has no field x")
    else:
        print("note: src/lib.rt:2:5: it is not proved that what the function ensures holds")
    print(f"fn low::{named}: not proved")
else:
    print("fn low::f: proved")
print("only=1 proved=" + ("0" if refused else "1"))
sys.exit(1 if refused else 0)
"""

FILES = {
    "crates.txt": "low:\ndr_cli: low\n",
    "crates/low/src/lib.rt": "fn f() -> u64 {\n    right()\n}\n",
    "crates/low/specs/Lib.antt": "",
    "crates/low/must-fail/f-is_wrong.edit": "file: src/lib.rt\nold: right\nnew: wrong\n",
    "crates/dr_cli/src/main.rt": "fn main() {\n}\n",
    "examples/first_query.script": "spec\n",
    "examples/first_query.out": "spec\n",
    "examples/cases/first_query.script": "other\n",
    "examples/cases/first_query.out": "other\n",
    "examples/cases/asked.script": "spec\nquery {}\n",
    "examples/cases/asked.out": "spec\nquery {}\n",
}

# The case that is run a second time.
ASKED = ["examples/cases/asked", "examples/cases/asked --workers 3"]

# The fault, what is changed beside it, and what the gate has to name as failed.
FAULTS = [
    ("", {}, []),
    ("proof", {}, ["low", "dr_cli", "examples", "low/must-fail/f-is_wrong.edit"]),
    ("kept", {}, []),
    ("kept edit", {}, ["low/must-fail/f-is_wrong.edit"]),
    ("killed", {}, ["rt ci ended with status 137"]),
    ("no program", {}, ["the program"]),
    ("test", {}, ["low(tests)"]),
    ("edit", {}, ["low/must-fail/f-is_wrong.edit"]),
    ("control", {}, ["low/must-fail/f-is_wrong.edit"]),
    ("raw pointer", {}, []),
    ("elsewhere", {}, ["low/must-fail/f-is_wrong.edit"]),
    ("name", {}, ["low/must-fail/f-is_wrong.edit"]),
    ("wrong output", {}, ["examples/first_query", "examples/cases/first_query", *ASKED, "install"]),
    ("wrong by workers", {}, ASKED[1:]),
    ("", {"examples/cases/first_query.out": "another\n"}, ["examples/cases/first_query"]),
    ("", {"examples/cases/first_query.status": "1\n"}, ["examples/cases/first_query"]),
    ("", {"examples/cases/first_query.err": "told\n"}, ["examples/cases/first_query"]),
    ("", {"crates/low/must-fail/f is wrong.edit": "file: src/lib.rt\nold: right\nnew: wrong\n"}, ["low/must-fail/f is wrong.edit"]),
    ("", {"crates/low/must-fail/more/f.edit": "file: src/lib.rt\nold: right\nnew: wrong\n"}, ["low/must-fail/more/f.edit"]),
    ("", {"crates/low/must-fail/gone.edit": "file: src/lib.rt\nold: left\nnew: wrong\n"}, ["low/must-fail/gone.edit"]),
]

# A crate of which another names a type, which has another one, and one of its functions, whose contract names a definition, and that
# another one.
USED = {
    "crates.txt": "low:\ntop: low\n",
    "crates/low/src/lib.rt": "mod inner;\n\npub use inner::{Held, Other, Shown};\n",
    "crates/low/src/inner.rt": """ghost use Rattle.low.specs.Told.{is_told};
use std::mem::swap;

pub struct Shown(u64, Held);

pub struct Held(u8);

pub struct Other(u16);

impl Other {
    pub fn named(&self) -> u16
        ensures { result ≡ 5 }
    {
        5
    }
}

impl Shown {
    pub fn named(&self) -> u64
        ensures { is_told result }
    {
        self.inside()
    }

    pub fn unnamed(&self) -> u64
        ensures { result ≡ 2 }
    {
        2
    }

    fn inside(&self) -> u64 {
        1
    }
}

impl Drop for Shown {
    fn drop(&mut self) {}
}
""",
    "crates/low/specs/Told.antt": "use Rattle.low.specs.Deeper.{deeper}\n",
    "crates/low/specs/Deeper.antt": "-- a remark\ndeeper = 1\n",
    "crates/low/specs/Apart.antt": "apart = 1\n",
    "crates/top/src/lib.rt": "use low::Shown;\n\npub fn top(it: Shown) -> u64 {\n    it.named()\n}\n",
}

# A text there, what it is changed to, and whether what the crate above may use is another then.
CHANGES = [
    ("low/src/inner.rt", "is_told result", "result ≡ 1", True),
    ("low/src/inner.rt", "self.inside()", "1", False),
    ("low/src/inner.rt", "result ≡ 2", "result ≡ 3", False),
    ("low/src/inner.rt", "fn inside(&self)", "fn inside(&self, by: u64)", False),
    ("low/src/inner.rt", "std::mem::swap", "std::mem::take", False),
    ("low/src/inner.rt", "Shown(u64", "Shown(u32", True),
    ("low/src/inner.rt", "Held(u8)", "Held(u16)", True),
    ("low/src/inner.rt", "Other(u16)", "Other(u8)", False),
    ("low/src/inner.rt", "result ≡ 5", "result ≡ 6", False),
    ("low/src/inner.rt", "fn drop(&mut self)", "fn drop(self)", True),
    ("low/src/lib.rt", "mod inner;", "mod inner;\nmod more;", False),
    ("low/src/lib.rt", "Other, Shown", "More, Other, Shown", False),
    ("low/specs/Told.antt", "{deeper}", "{deeper, deepest}", True),
    ("low/specs/Deeper.antt", "deeper = 1", "deeper = 2", True),
    ("low/specs/Deeper.antt", "-- a remark", "-- another", False),
    ("low/specs/Apart.antt", "apart = 1", "apart = 2", False),
]


def write(path, text, mode=0o644):
    os.makedirs(os.path.dirname(path), exist_ok=True)
    with open(path, "w", encoding="utf-8") as it:
        it.write(text)
    os.chmod(path, mode)


class Stub:
    """A repository of two crates, with the gate of this one and a toolchain of its own."""

    def __init__(self, room, more):
        self.top, kit = f"{room}/top", f"{room}/kit"
        for name, text in {**FILES, **more}.items():
            write(f"{self.top}/{name}", text)
        for name in ("test", "edits", "druid-node", "install"):
            shutil.copy(f"{HERE}/../{name}", self.top)
        shutil.copytree(HERE, f"{self.top}/gate", ignore=shutil.ignore_patterns("__pycache__", "refused.txt"))
        write(f"{kit}/bin/rt", RT, 0o755)
        write(f"{kit}/bin/rattle", RATTLE, 0o755)
        self.given = {**os.environ, "PATH": f"{kit}/bin:{os.environ['PATH']}", "GATE_OF_A_STUB": "1"}
        self.log = self.given["STUB_LOG"] = f"{room}/log"

    def run(self, fault, *words, **how):
        given = {"cwd": self.top, "env": {**self.given, "STUB_FAULT": fault}, "capture_output": True, "text": True}
        return subprocess.run(words, **{**given, "input": "", **how})


def gate_tells(fault, more, wanted):
    """What the gate says otherwise than is wanted, where it is run with a fault."""
    with tempfile.TemporaryDirectory(prefix="stub-") as room:
        ran = Stub(room, more).run(fault, "./test")
    lines = ran.stdout.splitlines()
    failed = [it[len("FAILED: ") :] for it in lines if it.startswith("FAILED: ")]
    if sorted(failed) != sorted(wanted):
        return f"it named {failed}, and not {wanted}:\n{ran.stdout}{ran.stderr}"
    if (ran.returncode == 0) != (not wanted) or not lines[-1].endswith(f" passed, {len(wanted)} failed"):
        return f"it ended with status {ran.returncode} and: {lines[-1]}"
    return None


def program_is_never_stale():
    """What druid-node does otherwise than build a program where it is old, and run none where that fails."""
    with tempfile.TemporaryDirectory(prefix="stub-") as room:
        stub = Stub(room, {})
        words = ("./druid-node", "run")
        if (ran := stub.run("build", *words, input="first")).returncode == 0 or ran.stdout or "low is not proved" not in ran.stderr:
            return f"a first build that fails: {ran}"
        if (ran := stub.run("link", *words, input="first")).returncode == 0 or ran.stdout or "dr_cli is not built" not in ran.stderr:
            return f"a program that isn't built: {ran}"
        if (ran := stub.run("", *words, input="second")).stdout != "second" or "low is done, 1 of 2 crates" not in ran.stderr:
            return f"a first build: {ran}"
        if (ran := stub.run("build", *words, input="third")).stdout != "third" or ran.stderr:
            return f"a program that is current: {ran}"
        os.utime(f"{stub.top}/crates/low/src/lib.rt")
        for _ in range(2):
            if (ran := stub.run("build", *words, input="fourth")).returncode == 0 or ran.stdout:
                return f"a source changed, and the build fails: {ran}"
        if (ran := stub.run("", "./install", f"{room}/prefix")).returncode or not os.access(f"{room}/prefix/bin/druid-node", os.X_OK):
            return f"install: {ran}"
    return None


def first_runs_wait():
    """What two first runs at once do otherwise than build the program once and both run it."""
    with tempfile.TemporaryDirectory(prefix="stub-") as room:
        stub = Stub(room, {})
        with ThreadPoolExecutor(2) as pool:
            ran = list(pool.map(lambda it: stub.run("", "./druid-node", "run", input=it), ("one", "two")))
        with open(stub.log, encoding="utf-8") as it:
            built = it.read().splitlines()
    if [it.stdout for it in ran] != ["one", "two"] or built != ["all top", "run dr_cli"]:
        return f"{built}: {ran}"
    return None


def counts_what_is_used():
    """What a digest of what a crate may use tells otherwise than is wanted."""
    with tempfile.TemporaryDirectory(prefix="used-") as top:
        for name, text in USED.items():
            write(f"{top}/{name}", text)
        before = Tree(top).contracts("top")
        for name, old, new, wanted in CHANGES:
            text = USED[f"crates/{name}"]
            write(f"{top}/crates/{name}", text.replace(old, new))
            if (Tree(top).contracts("top") != before) != wanted:
                return f"{name}, where {new!r} stands for {old!r}: {'the same' if wanted else 'another'}"
            write(f"{top}/crates/{name}", text)
    return None


def main():
    with ThreadPoolExecutor(4) as pool:
        told = pool.map(lambda it: gate_tells(*it), FAULTS)
        faults = [(f"the gate with the fault {fault!r} and {list(more)}", why) for (fault, more, _), why in zip(FAULTS, told)]
    faults += [("druid-node", program_is_never_stale()), ("two first runs", first_runs_wait()), ("what a crate may use", counts_what_is_used())]
    for name, why in faults:
        if why:
            print(f"{name}: {why}")
    return not any(why for _, why in faults)


if __name__ == "__main__":
    sys.exit(0 if main() else 1)
