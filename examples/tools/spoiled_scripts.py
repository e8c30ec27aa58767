"""Writes scripts of examples and examples/cases that are spoiled in one to three places, with what they have to print by answers.py: a
byte is another one, some bytes are gone, a word or a number is another one, or a line stands elsewhere, twice, or comes from another
script. Script number N is the same each time as long as the examples are.

    python3 spoiled_scripts.py FOLDER FIRST COUNT [PROGRAM [W ..]]    as random_queries.py has them
"""

import re
import sys
from pathlib import Path
from random import Random

import random_queries

EXAMPLES = Path(__file__).resolve().parent.parent
# Scripts of more bytes take answers.py too long.
LONGEST = 6000
BYTES = [bytes([it]) for it in range(32, 127)] + [b"\x00", b"\t", b"\r", b"\x7f", b"\x80", b"\xff", b"\n"]
PIECES = BYTES + ["é".encode(), "\u2028".encode(), "😀".encode(), b"\\u0000", b"\\ud800", b"\\uD83D\\uDE00", b"null", b"true", b"[]", b"{}", b'""']
PIECES += [b"1e3", b"-0", b"1E400", b"0.0", b"1.5", b"-1"]
NUMBERS = [b"0", b"1", b"-1", b"2", b"00", b"1.0", b"1e2", b"999999", b"9223372036854775807", b"9223372036854775808", b"-9223372036854775808"]
NUMBERS += [b"253402300799999", b"-62135596800000"]
NUMBER, WORD = re.compile(rb"-?\d+"), re.compile(rb"[A-Za-z_]+")


def scripts():
    for folder in (EXAMPLES, EXAMPLES / "cases"):
        for path in sorted(folder.glob("*.script")):
            if path.stat().st_size < LONGEST:
                yield path.read_bytes()


SCRIPTS = list(scripts())
WORDS = sorted({it for script in SCRIPTS for it in WORD.findall(script)})


class SpoiledWriter:
    def __init__(self, number):
        self.random = Random(number)

    def script(self):
        r = self.random
        script = r.choice(SCRIPTS)
        for _ in range(r.choice([1, 1, 1, 2, 3])):
            script = r.choice([self.with_a_piece, self.without_some, self.with_another, self.with_a_line])(script)
        return script

    def with_a_piece(self, script):
        place = self.random.randrange(len(script) + 1)
        return script[:place] + self.random.choice(PIECES) + script[place + self.random.choice([0, 1]):]

    def without_some(self, script):
        place = self.random.randrange(len(script) + 1)
        return script[:place] + script[place + self.random.choice([1, 1, 2, 4, 8, 16]):]

    def with_another(self, script):
        """A word in the place of another one, or a number."""
        pattern, others = self.random.choice([(NUMBER, NUMBERS), (WORD, WORDS)])
        found = list(pattern.finditer(script))
        if not found:
            return script
        it = self.random.choice(found)
        return script[: it.start()] + self.random.choice(others) + script[it.end():]

    def with_a_line(self, script):
        """A line moved, said twice, or taken from another script; mostly not in the place of the spec."""
        r, lines = self.random, script.split(b"\n")
        place, other = r.randrange(len(lines)), r.randrange(min(1, len(lines) - 1), len(lines))
        line = lines.pop(place) if place and r.random() < 0.4 else r.choice([lines[place], r.choice(r.choice(SCRIPTS).split(b"\n"))])
        lines.insert(other, line)
        return b"\n".join(lines)


if __name__ == "__main__":
    random_queries.Writer = SpoiledWriter
    sys.exit(random_queries.main(*sys.argv[1:]))
