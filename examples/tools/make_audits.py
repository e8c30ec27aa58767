"""Writes the scripts cases/queries_equal_their_audits*.script with their outputs by answers.py: some three hundred snapshots each, after
events, seals, merges and publications that fall anywhere, and of each a query that matches, of every kind, asked as `query`, which goes
over the ranges as they are kept, and as `audit`, which goes over the events one by one. Both have to print the same.

Run it in the folder examples: python3 tools/make_audits.py
"""

import json
from random import Random

import answers

HOUR = 3600000
START = 1704067200000 - 2 * HOUR
# Texts of 14 bytes and of 15 among them: the first lie in a value itself, the others on a heap.
TEXTS = ["", "a", "b", "ab", "B", "é", "10", "9", "fourteen bytes", "fifteen bytes !"]
KINDS = [("n", "count", None), ("sum", "longSum", "x"), ("low", "longMin", "x"), ("high", "longMax", "y")]
MATCHING = [("longSum", "n"), ("longSum", "sum"), ("longMin", "low"), ("longMax", "high"), ("longSum", "nope"), ("longMin", "nope")]


def compact(value):
    return json.dumps(value, ensure_ascii=False, separators=(",", ":"))


class Writer:
    def __init__(self, number, rollup):
        self.random, self.rollup = Random(number), rollup

    def spec(self):
        metrics = [{"type": kind, "name": name} | ({"fieldName": field} if field else {}) for name, kind, field in KINDS]
        schema = {"dataSource": "w", "timestampSpec": {"column": "t", "format": "millis"}, "dimensionsSpec": {"dimensions": ["p", "q"]}}
        grans = {"segmentGranularity": "hour", "queryGranularity": "minute", "rollup": self.rollup}
        return {"dataSchema": schema | {"metricsSpec": metrics, "granularitySpec": grans}, "tuningConfig": {"maxRowsInMemory": 24}}

    def event(self):
        r = self.random
        time = START + r.choice([0, 1, 2, 3]) * HOUR + r.choice([0, 59999, 60000, 600000, 601000, 1800000, 3599999])
        number = r.choice([0, 1, -1, 5, -7, 1000, 2**63 - 1, -(2**63)])
        event = {"t": time, "p": r.choice(TEXTS[: r.choice([3, 10])]), "q": r.choice(TEXTS[:4]), "x": number, "y": r.choice([1, -3, 2**62])}
        return {name: value for name, value in event.items() if name == "t" or r.random() < 0.9}

    def instant(self, more=0):
        return answers.print_instant(START + self.random.choice([0, 1, 2, 3, 4]) * HOUR + more)

    def intervals(self):
        r = self.random
        if r.random() < 0.5:
            return r.choice([[answers.ETERNITY], "2023-12-31T22/2024-01-01T02"])
        ends = [sorted([self.instant(r.choice([0, 1, 60000])), self.instant(r.choice([0, 1800000]))]) for _ in range(r.choice([1, 2, 12]))]
        return ["/".join(it) for it in ends]

    def filter(self, depth=0):
        r = self.random
        kind = r.choice(["selector", "in", "bound", "like", "interval"] + ["and", "or", "or", "not"] * (depth < 2))
        if kind in ("and", "or"):
            return {"type": kind, "fields": [self.filter(depth + 1) for _ in range(r.randint(0, 3))]}
        if kind == "not":
            return {"type": kind, "field": self.filter(depth + 1)}
        if kind == "interval":
            return {"type": kind, "dimension": "__time", "intervals": self.intervals()}
        more = {"selector": {"value": r.choice(TEXTS)}, "in": {"values": [r.choice(TEXTS) for _ in range(r.randint(0, 3))]}}
        more |= {"bound": {r.choice(["lower", "upper"]): r.choice(TEXTS), "lowerStrict": r.random() < 0.5}, "like": {"pattern": r.choice(["%", "a%", "_", "%e_n%", "%!"])}}
        return {"type": kind, "dimension": r.choice(["p", "q", "nope"])} | more[kind]

    def aggregations(self):
        r, found = self.random, []
        for i in range(r.randint(0, 4)):
            kind, field = r.choice(MATCHING)
            if not self.rollup:
                kind, field = r.choice(["count", "longSum", "longMin", "longMax"]), r.choice(["n", "sum", "low", "high", "nope"])
            found.append({"type": kind, "name": "%s%d" % (r.choice("az"), i)} | ({} if kind == "count" else {"fieldName": field}))
        return found

    def query(self):
        r, sometimes = self.random, lambda chance: self.random.random() < chance
        query = {"queryType": r.choice(["timeseries", "groupBy"]), "dataSource": "w", "intervals": self.intervals()}
        query |= {"granularity": r.choice(["all", "all", "hour", "thirty_minute", "minute", "day", "none"]), "aggregations": self.aggregations()}
        if sometimes(0.6):
            query["filter"] = self.filter()
        if query["queryType"] == "timeseries":
            skips = sometimes(0.5) or query["granularity"] == "none"
            query |= {"descending": sometimes(0.3), "limit": r.choice([3, 8]), "context": {"skipEmptyBuckets": skips}}
            return query
        names = r.sample(["p", "q", "nope"], r.randint(0, 3))
        query["dimensions"] = [{"type": "default", "dimension": it, "outputName": "o" + it} for it in names]
        outputs = ["o" + it for it in names] + [it["name"] for it in query["aggregations"]]
        columns = [{"dimension": it, "direction": r.choice(["ascending", "descending"])} for it in outputs if sometimes(0.6)]
        query["limitSpec"] = {"type": "default", "columns": columns, "limit": r.choice([2, 5]), "offset": r.choice([0, 0, 1])}
        if query["aggregations"] and sometimes(0.4):
            compared = {"type": r.choice(["equalTo", "greaterThan", "lessThan"]), "aggregation": query["aggregations"][0]["name"], "value": r.choice([0, 1, 5])}
            query["having"] = r.choice([compared, {"type": "not", "havingSpec": compared}])
        return query

    def change(self):
        """A seal, a merge or a publication, which may be refused."""
        r = self.random
        places = "%s %d %d" % (self.instant(r.choice([0, 1])), r.choice([0, 0, 1]), r.choice([1, 2, 2, 3]))
        return r.choice(["seal " + self.instant(), "seal " + self.instant(), "merge " + places, "publish " + places])

    def lines(self, snapshots):
        r = self.random
        yield compact(self.spec())
        for _ in range(snapshots):
            for _ in range(r.choice([0, 1, 2, 4])):
                yield "+ " + compact(self.event())
            if r.random() < 0.5:
                yield self.change()
            query = compact(self.query())
            yield "query " + query
            yield "audit " + query


def write(name, number, rollup):
    script = "".join(it + "\n" for it in Writer(number, rollup).lines(300)).encode()
    output, status = answers.run(script)
    asked, told = script.split(b"\n"), output.split(b"\n")
    for i, line in enumerate(asked):
        if line.startswith(b"audit "):
            assert told[i] == told[i - 1] and told[i].startswith(b"["), line
    answers.write(f"cases/{name}.script", script)
    answers.write(f"cases/{name}.out", output)
    answers.write(f"cases/{name}.status", b"1\n" if status else None)


write("queries_equal_their_audits", 20261126, True)
write("queries_equal_their_audits_without_rollup", 20261127, False)
