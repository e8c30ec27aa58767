#!/usr/bin/env python3
"""What filters of many `like`s cost: shapes of values and patterns at random, and the dearest of them.

    python3 bench/likes.py PROGRAM [--first SEED] [--count N] [--share S]

Of each shape one query is asked over at most a megabyte of open rows. Told are its seconds of a processor, and what they would be for as
many patterns as a line of one MiB holds and a megabyte of values; the dearest are told again at the end. A query has a tenth of such a
line, or the share that is given. It is no part of the gate.
"""
import argparse
from random import Random

from extremes import BEGIN, DAY, event, measure, one_of, series, spec

VALUES = 1000000
LINE = 1 << 20
KINDS = [chr(it) for it in range(0x23, 0x7F) if chr(it) not in "%_\\"] + [chr(it) for it in range(0x4E00, 0x9C20)]

# What no value has, or hardly one: a part, or a letter.
NO_PART = "!_!"
NO_LETTER = "!"


class Shape:
    """How many values there are, of how many letters, and how the parts of a pattern are made; all by one seed."""

    def __init__(self, seed):
        self.random = random = Random(seed)
        self.rows = random.choice([1, 3, 10, 30, 100, 200, 257, 300, 500, 700, 1000, 1500, 2000, 3000, 4100, 10000, 16384])
        self.length = max(1, int(VALUES // self.rows * random.choice([1, 1, 0.5, 0.1])))
        kinds = random.choice([1, 2, 2, 3, 4, 10, 20, 50, 70, 200, 20000])
        self.letters = random.sample(KINDS if kinds > 80 else KINDS[:80], kinds)
        self.form = random.choice(["drawn", "changed", "turned", "periodic", "skewed", "runs"])
        self.period = random.choice([2, 3, 5, 20, 250])
        self.first = self.drawn()
        self.part = random.choice([1, 1, 2, 3, 8, 22, 60, 300, *(max(1, int(self.length * it)) for it in (0.05, 0.1, 0.25, 0.5, 0.9))])
        self.parts = random.choice([1, 1, 2, 3, 7, 20, 76, 300])
        self.gaps = random.choice([0, 0, 0.01, 0.1, 0.5, 0.9])
        self.source = random.choice(["a value", "one value", "letters", "one letter"])
        self.missing = random.choice(["nothing", "the first part", "the last part", "the last letter", "the first letter"])

    def drawn(self):
        return [self.random.choice(self.letters) for _ in range(self.length)]

    def value(self, it):
        random, first = self.random, self.first
        turn = random.randrange(self.length)
        if self.form == "changed":
            found = [random.choice(self.letters) if not random.randrange(50) else letter for letter in first]
        elif self.form == "turned":
            found = first[turn:] + first[:turn]
        elif self.form == "periodic":
            found = [first[(turn + place) % min(self.period, self.length)] for place in range(self.length)]
        elif self.form == "runs":
            found = [self.letters[0 if (turn + place) % (self.period + 1) else -1] for place in range(self.length)]
        elif self.form == "skewed":
            found = [self.letters[min(int(random.expovariate(1)), len(self.letters) - 1)] for _ in range(self.length)]
        else:
            found = self.drawn()
        name = f"{it:x}"
        return name + "".join(found)[len(name) :]

    def pattern(self, values):
        random = self.random
        value = values[0] if self.source == "one value" else random.choice(values)
        starts = sorted(random.randrange(max(1, len(value) - self.part + 1)) for _ in range(self.parts))
        parts, end = [], 0
        for start in starts:
            if "value" in self.source:
                start = max(start, end)
                letters = value[start : start + self.part]
                end = start + self.part
            else:
                letters = [random.choice(self.letters) if self.source == "letters" else self.letters[0] for _ in range(self.part)]
            parts.append("".join("_" if 0 < place < len(letters) - 1 and random.random() < self.gaps else letter for place, letter in enumerate(letters)))
        parts = [it for it in parts if it]
        if self.missing == "the first part":
            parts.insert(0, NO_PART)
        if self.missing == "the last part":
            parts.append(NO_PART)
        if self.missing == "the first letter":
            parts[0] = NO_LETTER + parts[0][1:]
        if self.missing == "the last letter":
            parts[-1] = parts[-1][:-1] + NO_LETTER
        return "%" + "%".join(parts) + "%"

    def script(self, share):
        """The lines of the spec and the values, the query, and how many bytes the values have."""
        values = [self.value(it) for it in range(self.rows)]
        fields, size = [], 0
        while size < share * LINE and len(fields) < 20000:
            fields.append({"type": "like", "dimension": "page", "pattern": self.pattern(values)})
            size += len(fields[-1]["pattern"].encode()) + 46
        lines = [spec(), *(event(BEGIN + it % DAY, value) for it, value in enumerate(values))]
        return lines, series(filter=one_of(*fields)), sum(len(it.encode()) for it in values)

    def __str__(self):
        asked = f"{self.parts} parts of {self.part} from {self.source}, {self.gaps:.0%} of them gaps, {self.missing} missing"
        return f"{self.rows:,} values of {self.length:,} letters of {len(self.letters):,} kinds, {self.form} by {self.period}: {asked}"


def main():
    words = argparse.ArgumentParser(description=__doc__, formatter_class=argparse.RawDescriptionHelpFormatter)
    words.add_argument("program")
    words.add_argument("--first", type=int, default=1)
    words.add_argument("--count", type=int, default=200)
    words.add_argument("--share", type=float, default=0.1)
    asked = words.parse_args()
    told = []
    for seed in range(asked.first, asked.first + asked.count):
        shape = Shape(seed)
        lines, query, size = shape.script(asked.share)
        if len(query.encode()) > LINE:
            continue
        seconds = measure(asked.program, lines + [query])[0] - measure(asked.program, lines)[0]
        line = seconds * LINE / len(query.encode())
        told.append((line * 1e6 / size, f"{line * 1e6 / size:.1f} for a line and a megabyte, {line:.2f} for a line, {seconds:.2f} asked; seed {seed}: {shape}"))
        print(told[-1][1], flush=True)
    print("The dearest:")
    for _, line in sorted(told, reverse=True)[:10]:
        print(line)


if __name__ == "__main__":
    main()
