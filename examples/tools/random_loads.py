"""Loads random files: events of random_queries.py in up to six files, of which one line in ten is spoiled, with its spec and its queries.
What a load prints is compared with answers.py, which is told the lines of the files one file behind the other. Load number N is the same
each time.

    python3 random_loads.py FOLDER FIRST COUNT PROGRAM

The files of a load that differs stay in FOLDER/load_N, and it ends with 1. Each load has 1, 2, 3 or 16 workers.
"""

import os
import shutil
import subprocess
import sys
from random import Random

import answers
import random_queries

BYTES = [bytes([it]) for it in range(256) if it != 10]
MATCHES = {("longSum", "longSum"), ("longSum", "count"), ("longMin", "longMin"), ("longMax", "longMax")}


def matches(spec, query):
    """Whether each aggregation folds its column by what rolled it up."""
    if query.kind == "scan":
        return False
    columns = [(kind, None if place is None else spec.metrics[place][0]) for kind, _, place in query.aggregations]
    return not spec.rollup or all(kind != "count" and (column is None or (kind, column) in MATCHES) for kind, column in columns)


def wanted_of(spec, query, lines):
    """What a load prints of these lines, and its status."""
    try:
        read = answers.Spec(spec)
        if not matches(read, answers.Query(query, read)):
            raise answers.Refusal(97, "NotMatching")
    except answers.Refusal as it:
        return ("refused %s\n" % it.line).encode(), 1
    script = [spec, *(b"+ " + it if it else b"+" for it in lines), b"stats", b"query " + query]
    told = answers.run(b"".join(it + b"\n" for it in script))[0].splitlines(True)
    is_refused = told[-1].startswith(b"refused")
    return (told[-1], 1) if is_refused else (b"".join(told[-2:]), 0)


class Load:
    def __init__(self, number):
        self.random = r = Random(number)
        self.spec, *lines = random_queries.Writer(number).script().split(b"\n")
        given = [it.split(b" ", 2 if it.startswith(b"at ") else 1)[-1] for it in lines if it.startswith((b"query ", b"at "))]
        self.queries = r.sample(given, min(3, len(given)))
        lines = [self.line(it[2:]) for it in lines if it.startswith(b"+ ")] + [b""] * r.choice([0, 0, 0, 1, 2])
        r.shuffle(lines)
        cuts = [0, *sorted(r.randint(0, len(lines)) for _ in range(r.choice([0, 0, 1, 2, 3, 5]))), len(lines)]
        self.files = [lines[it:end] for it, end in zip(cuts, cuts[1:])]

    def line(self, text):
        r = self.random
        if r.random() < 0.9:
            return text
        place = r.randint(0, len(text))
        return text[:place] + r.choice([b"", r.choice(BYTES)]) + text[place + r.choice([0, 1, 1, len(text)]):]

    def write(self, folder):
        """The names of the files, of which some have no newline at the end."""
        os.makedirs(folder, exist_ok=True)
        answers.write(os.path.join(folder, "spec.json"), self.spec)
        names = ["file%d" % it for it in range(len(self.files))]
        for name, lines in zip(names, self.files):
            text = b"".join(it + b"\n" for it in lines)
            answers.write(os.path.join(folder, name), text[:-1] if lines and lines[-1] and self.random.random() < 0.3 else text)
        return names

    def differs(self, program, folder):
        names, every = self.write(folder), [it for lines in self.files for it in lines]
        for query in self.queries:
            answers.write(os.path.join(folder, "query.json"), query)
            words = ["load", "--workers", self.random.choice(["1", "2", "3", "16"]), "spec.json", "query.json", *names]
            ran = subprocess.run(["timeout", "60", program, *words], cwd=folder, capture_output=True, check=False)
            if (ran.stdout, ran.returncode) != wanted_of(self.spec, query, every):
                return True
        return False


def main(folder, first, count, program):
    differ = asked = 0
    for number in range(int(first), int(first) + int(count)):
        load, own = Load(number), os.path.join(folder, "load_%d" % number)
        asked += len(load.queries)
        if load.differs(os.path.abspath(program), own):
            differ += 1
            print("load %d differs" % number)
        else:
            shutil.rmtree(own)
    print("%d loads of %d, %d differ" % (asked, int(count), differ))
    return 1 if differ else 0


if __name__ == "__main__":
    sys.exit(main(*sys.argv[1:]))
