"""Scripts and other runs of the program, each with what it has to write.

A case is a file NAME.script, which `druid-node run` gets as standard input, or a file NAME.args, whose lines are the arguments
of the program. Beside it may lie NAME.out (wanted output; absent: none), NAME.err (wanted standard error; absent: none), NAME.status
(absent: 0), NAME.stdin, and a folder NAME.files, whose files lie where the program runs. A script that asks a query is a second
case by three workers, with the same of everything that is wanted.

A page of docs/ is a case too, where it has blocks of code that name a file, which lies where the program runs, and blocks of
kind `console`: each line behind `$ ` is a command of a shell, in which `druid-node` is the program, and the lines below it
are what it prints.
"""
import os
import re
import shutil
import subprocess
import tempfile

FOLDERS = ("examples", "examples/cases")

# No case takes longer.
SECONDS = 120

# The words by which a script is run with several workers.
BY_WORKERS = ("--workers", "3")


class Case:
    """A run of the program and what is wanted of it."""

    def __init__(self, top, folder, name, more=()):
        self.label, self.beside, self.more = " ".join((f"{folder}/{name}", *more)), f"{top}/{folder}/{name}", more
        words = self.read("args")
        self.words = ["run"] if words is None else words.decode().removesuffix("\n").split("\n") if words else []
        self.given = self.read("script") or self.read("stdin") or b""
        self.wanted = (int(self.read("status") or b"0"), self.read("out") or b"", self.read("err") or b"")

    def read(self, ending):
        try:
            with open(f"{self.beside}.{ending}", "rb") as it:
                return it.read()
        except FileNotFoundError:
            return None

    def asks(self):
        """Whether it is a script with a line that asks a query."""
        return any(it.startswith((b"query ", b"at ")) for it in (self.read("script") or b"").split(b"\n"))

    def fault(self, program):
        """What a run of this program does otherwise than is wanted, or nothing."""
        with tempfile.TemporaryDirectory(prefix="case-") as room:
            if os.path.isdir(f"{self.beside}.files"):
                shutil.copytree(f"{self.beside}.files", room, dirs_exist_ok=True)
            words = [program, *self.words[:1], *self.more, *self.words[1:]]
            how = {"cwd": room, "env": {"PATH": "/usr/bin:/bin", "LANG": "C.UTF-8"}, "capture_output": True}
            try:
                ran = subprocess.run(words, input=self.given, timeout=SECONDS, **how)
            except subprocess.TimeoutExpired:
                return f"it hadn't ended after {SECONDS} seconds"
        for what, got, want in zip(("status", "output", "standard error"), (ran.returncode, ran.stdout, ran.stderr), self.wanted):
            if got != want:
                return f"its {what} is {told(got, want)}"
        return None


class Page:
    """The commands that a page shows, and what it says that they print."""

    def __init__(self, top, file):
        self.label = file
        with open(f"{top}/{file}", encoding="utf-8") as it:
            text = it.read()
        self.files, self.commands = {}, []
        for kind, name, body in re.findall(r"^```(\w+) ?(\S*)\n(.*?)^```$", text, re.M | re.S):
            if name:
                self.files[name] = body
            elif kind == "console":
                for part in re.split(r"^\$ ", body, flags=re.M)[1:]:
                    self.commands.append(part.split("\n", 1))

    def fault(self, program):
        """What a command prints otherwise than the page says, or nothing."""
        with tempfile.TemporaryDirectory(prefix="page-") as room:
            os.mkdir(f"{room}/bin")
            shutil.copy(program, f"{room}/bin/druid-node")
            os.mkdir(f"{room}/here")
            for name, text in self.files.items():
                with open(f"{room}/here/{name}", "w", encoding="utf-8") as it:
                    it.write(text)
            how = {"cwd": f"{room}/here", "env": {"PATH": f"{room}/bin:/usr/bin:/bin", "LANG": "C.UTF-8"}, "capture_output": True}
            for command, wanted in self.commands:
                ran = subprocess.run(["sh", "-c", command], stdin=subprocess.DEVNULL, timeout=SECONDS, **how)
                if ran.stdout != wanted.encode() or ran.stderr:
                    return f"{command[:60]}: {told(ran.stdout + ran.stderr, wanted.encode())}"
        return None


def told(got, want):
    """The first line that differs."""
    if isinstance(got, int):
        return f"{got}, and not {want}"
    mine, wanted = got.split(b"\n"), want.split(b"\n")
    at = next((i for i, (a, b) in enumerate(zip(mine, wanted)) if a != b), min(len(mine), len(wanted)))
    line = lambda lines: lines[at].decode(errors="replace")[:300] if at < len(lines) else "(nothing)"
    return f"wrong at line {at + 1}: {line(mine)!r}, and not {line(wanted)!r}"


def cases_of(top):
    """The cases of a tree, each script that asks a query by workers too."""
    found = []
    for folder in FOLDERS:
        names = {it.rpartition(".")[0] for it in os.listdir(f"{top}/{folder}") if it.endswith((".script", ".args"))}
        for name in sorted(names):
            found.append(Case(top, folder, name))
            if found[-1].asks():
                found.append(Case(top, folder, name, BY_WORKERS))
    pages = sorted(it for it in os.listdir(f"{top}/docs") if it.endswith(".md")) if os.path.isdir(f"{top}/docs") else []
    return found + [it for it in (Page(top, f"docs/{page}") for page in pages) if it.commands]
