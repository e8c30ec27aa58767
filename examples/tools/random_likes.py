"""Writes random scripts of filters of many `like`s, over values of up to 600 characters, of a few kinds or of 96, in up to
17 dimensions, with what they have to print by answers.py: asked of open rows, of the raw events and of published ones. In one script of
four a pattern decides all rows but a few. Script number N is the same each time.

    python3 random_likes.py FOLDER FIRST COUNT [PROGRAM [W ..]]    as random_queries.py has them
"""

import sys
from random import Random

import random_queries
from random_queries import compact

BEGIN = 1704067200000
DAY = "2024-01-01T00:00:00.000Z"
# Some letters are frequent, most are rare at each place, and of some the numbers have the same last seven bits.
WIDE = "a" * 30 + "b" * 15 + "".join(chr(it) for it in range(0x30, 0x7A) if it not in (0x5C, 0x5F)) + "".join(chr(ord(it) + 128 * k) for it in "aAbX09" for k in (1, 152, 153, 154)) * 2
LENGTHS = [[3, 5, 9], [0, 1, 2, 300, 512, 513], [250, 256, 257, 511, 512, 513, 600], [10] * 30 + [520], [17] * 20 + [100]]


class LikeWriter:
    def __init__(self, number):
        self.random = Random(number)
        r = self.random
        self.dims = ["d%d" % i for i in range(r.choice([1, 1, 2, 3, 17]))]
        self.letters = r.choice(["ab", "abé", "a", "01", "abcdefgh😀", WIDE, WIDE])
        self.lengths = r.choice(LENGTHS)
        self.crowd = r.choice([300, 600, 1100]) if r.random() < 0.25 else 0
        if self.crowd:
            self.dims, self.lengths = self.dims[:2], LENGTHS[0]
        self.known = [self.text() for _ in range(r.choice([3, 20, 100]))]

    def text(self):
        return "".join(self.random.choice(self.letters) for _ in range(self.random.choice(self.lengths)))

    def events(self):
        r = self.random
        for i in range(self.crowd):
            yield "+ " + compact({"t": BEGIN + i, self.dims[0]: "q" + self.text(), self.dims[-1]: "q" + self.text(), "v": 1})
        if self.crowd:
            few = r.choice([1, 2, self.crowd // 256, self.crowd // 256 + 1])
            for i in range(few):
                yield "+ " + compact({"t": BEGIN + i} | {it: r.choice(self.known) for it in self.dims} | {"v": 1 << 20 + i})
            return
        share = 0.9 if len(self.dims) < 5 else 0.2
        for i in range(r.choice([5, 40, 60, 200 if len(self.dims) < 5 else 1100])):
            values = {it: r.choice(self.known) if r.random() < 0.5 else self.text() for it in self.dims if r.random() < share}
            yield "+ " + compact({"t": BEGIN + i} | values | {"v": 1 << i % 40})

    def pattern(self):
        r = self.random
        text = r.choice(self.known) if r.random() < 0.8 else self.text()
        begin = r.randrange(len(text) + 1)
        end = r.randrange(begin, len(text) + 1)
        pieces = [text[:begin], text[begin:end][: r.choice([1, 3, 50])], text[end:]]
        forms = [text, text[:end] + "%", "%" + text[begin:], "%" + text[begin:end] + "%", "%".join(pieces)]
        cuts = sorted(r.randrange(len(text) + 1) for _ in range(r.choice([6, 6, 40])))
        short = [text[cut:][: r.choice([0, 1, 2, 4])] for cut in cuts]
        forms += ["%".join(short), "%" + "%".join(short[2:-2]) + "%", "%".join(short[:3])]
        gaps = r.choice([0.05, 0.3, 0.9, 1.0])
        pattern = ["_" if it != "%" and r.random() < gaps else it for it in r.choice(forms)]
        if pattern and r.random() < 0.3:
            pattern[r.randrange(len(pattern))] = r.choice("z_%")
        return "".join(pattern).replace("%", r.choice(["%"] * 9 + ["%%%"]))

    def with_gap(self, text):
        place = self.random.randrange(len(text))
        return text[:place] + "_" + text[place + 1 :] + self.random.choice(["", "%"])

    def like(self, pattern):
        return {"type": "like", "dimension": self.random.choice(self.dims), "pattern": pattern}

    def filter(self):
        r = self.random
        if self.crowd:
            # Most fit no row, two next to each other fit the crowd, and of the few others each may fit one that comes last.
            likes = [self.like(self.pattern() + r.choice(["z", "z%", "_z"])) for _ in range(r.choice([140, 280]))]
            place = r.randrange(0, 60, 2)
            likes[place : place + 2] = [self.like(r.choice(["q_%", "q__%", "q%_"]))] * 2
            likes += [self.like(self.with_gap(r.choice(self.known))) for _ in range(6)]
        else:
            likes = [self.like(self.pattern()) for _ in range(r.choice([33, 40, 64, 200]))]
        some = {"type": "or", "fields": likes}
        none = {"type": "and", "fields": [{"type": "not", "field": it} for it in likes[1::2]]}
        return r.choice([some, none, {"type": "and", "fields": [{"type": "or", "fields": likes[::2]}, none]}])

    def script(self):
        schema = {"dataSource": "w", "timestampSpec": {"column": "t", "format": "millis"}, "dimensionsSpec": {"dimensions": self.dims}}
        schema["metricsSpec"] = [{"type": "longSum", "name": "v", "fieldName": "v"}]
        schema["granularitySpec"] = {"segmentGranularity": "day", "queryGranularity": "none", "rollup": True}
        query = {"queryType": "timeseries", "dataSource": "w", "intervals": "2024-01-01/2024-01-02", "granularity": "all"}
        query["aggregations"] = schema["metricsSpec"]
        lines = [compact({"dataSchema": schema}), *self.events()]
        queries = [compact(query | {"filter": self.filter()}) for _ in range(6)]
        lines += ["query " + it for it in queries] + ["audit " + it for it in queries]
        lines += ["seal " + DAY, "publish %s 0 1" % DAY] + ["query " + it for it in queries]
        return ("\n".join(lines) + "\n").encode()


if __name__ == "__main__":
    random_queries.Writer = LikeWriter
    sys.exit(random_queries.main(*sys.argv[1:]))
