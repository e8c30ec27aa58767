"""Writes random scripts with what they have to print by answers.py: specs, events, seals, merges, publications, images, jobs and pins,
and queries of the whole profile, some of which are spoiled in one place. Script number N is the same each time.

    python3 random_queries.py FOLDER FIRST COUNT                 writes FOLDER/random_N.script, .out and .status
    python3 random_queries.py FOLDER FIRST COUNT PROGRAM [W ..]  runs PROGRAM run over each, and writes those only that differ

With numbers of workers W the program is run once with each of them, by --workers W. With a program it ends with 1 where one differs.
"""

import copy
import json
import os
import subprocess
import sys
from random import Random

import answers

TEXTS = ["", "a", "b", "ab", "B", "é", "éa", "😀", "￿", "10", "9", "a%", 'say "hi"', "\u0001\n", "a text of more than twenty-three bytes"]
PATTERNS = ["%", "_", "a%", "%b", "_%", "%a%", "__", "é_", "😀", "a\\%", "", "%_%", "a_%b%"]
PATTERNS += ["a", "ab", "ab%", "a tex%", "b%", "éa%", "%é", "%text%", "%ab", "%a", "%é%", "%t%", "%\u0001%", "%%"]
NUMBERS = [0, 1, -1, 5, -7, 100, 2**63 - 1, -(2**63), 2**62]
JUNK = [None, True, False, 0, -1, 5, 1.5, "", "x", "page", "d0", "m0", "__time", "all", "hour", "noon", [], {}, [5], ["x"], [None]]
JUNK += [{"type": "x"}, {"type": 5}, {"x": 1}, 2**64 - 1, 2**64, -(2**63), "true", "descending", "numeric", "and", "not", "longSum"]
# The start of the events' times, and how far they spread, with the granularities that cut them into some buckets.
STARTS = [1704067200000, 1704066000000, 0, -3600000, 951696000000, -62135596800000, 253402214400000, -2208988800000]
SPREADS = [(20, ["none"]), (20000, ["second"]), (7200000, ["minute", "five_minute", "ten_minute", "fifteen_minute", "thirty_minute"])]
SPREADS += [(86399999, ["thirty_minute", "hour", "six_hour", "eight_hour", "day"]), (86400000 * 40, ["day", "week", "month"])]
SPREADS += [(86400000 * 1500, ["week", "month", "quarter", "year"])]


def compact(value):
    return json.dumps(value, ensure_ascii=False, separators=(",", ":"))


class Writer:
    def __init__(self, number):
        self.random = Random(number)
        r = self.random
        self.dims = ["d%d" % i for i in range(r.randint(1, 3))]
        self.metrics = [("m%d" % i, r.choice(["count", "longSum", "longMin", "longMax"])) for i in range(r.randint(0, 4))]
        self.spread, self.grans = r.choice(SPREADS)
        self.start = min(r.choice(STARTS), answers.LAST_TIME - self.spread)
        self.format = r.choice(["iso", "iso", "millis", "auto"])
        self.jobs = self.pins = 0

    def spec(self):
        r = self.random
        segment = r.choice([it for it in answers.NAMES if it not in ("all", "none")])
        fits = [it for it in answers.NESTS if segment in answers.NESTS[it]]
        metrics = [{"type": kind, "name": name} | ({} if kind == "count" else {"fieldName": "f" + name}) for name, kind in self.metrics]
        schema = {"dataSource": "w", "timestampSpec": {"column": "t", "format": self.format}, "dimensionsSpec": {"dimensions": self.dims}}
        grans = {"segmentGranularity": segment, "queryGranularity": r.choice(fits + ["none"]), "rollup": r.random() < 0.8}
        limits = {"maxRowsInMemory": r.choice([1, 2, 3, 1000, 1000]), "maxCommits": r.choice([1, 3, 1000])}
        if r.random() < 0.2:
            limits["maxImageBytes"] = r.choice([100, 150, 200, 300, 500])
        return {"dataSchema": schema | {"metricsSpec": metrics, "granularitySpec": grans}, "tuningConfig": limits}

    def time(self):
        return self.start + self.random.choice([0, self.spread, self.random.randint(0, self.spread)])

    def instant(self):
        return answers.print_instant(max(answers.FIRST_TIME, min(answers.LAST_TIME, self.time() + self.random.choice([0, 0, 1, -1]))))

    def event(self):
        r, time = self.random, self.time()
        record = {"t": answers.print_instant(time) if self.format == "iso" else time}
        for name in self.dims:
            if r.random() < 0.9:
                record[name] = r.choice(TEXTS[: r.choice([3, 3, 15])] + [None, 7, True])
        for name, _ in self.metrics:
            if r.random() < 0.9:
                record["f" + name] = r.choice(NUMBERS[: r.choice([6, 9])])
        if r.random() < 0.03:
            record[r.choice(list(record))] = r.choice(JUNK)
        return record

    def intervals(self):
        r = self.random
        if r.random() < 0.6:
            ends = [max(answers.FIRST_TIME, self.start - 1), min(answers.LAST_TIME, self.start + self.spread + 1)]
            return r.choice([[answers.ETERNITY], "/".join(map(answers.print_instant, ends))])
        ends = [sorted([self.instant(), self.instant()]) for _ in range(r.choice([0, 1, 1, 2, 3]))]
        texts = ["/".join(it) for it in ends]
        return {"type": "intervals", "intervals": texts} if r.random() < 0.1 else texts

    def nest(self, leaf, many, one, depth=0):
        """Conditions within conditions, of few members each."""
        r = self.random
        if depth == 5 or r.random() < 0.25:
            return leaf()
        kind = r.choice(["and", "or", "not"])
        if kind == "not":
            return {"type": kind, one: self.nest(leaf, many, one, depth + 1)}
        return {"type": kind, many: [self.nest(leaf, many, one, depth + 1) for _ in range(r.randint(0, 3))]}

    def filter(self, depth=0):
        r = self.random
        if depth == 0 and r.random() < 0.2:
            return self.nest(lambda: self.filter(3), "fields", "field")
        if depth == 0 and r.random() < 0.3:
            return self.nest(self.leaf_of_one_column(), "fields", "field")
        if depth == 0 and r.random() < 0.2:
            return self.ands_by_texts()
        kinds = ["selector", "in", "bound", "like", "interval"] + (["and", "or", "not"] if depth < 3 else [])
        kind = r.choice(kinds)
        if kind in ("and", "or"):
            # Few of any kind, or many of the kinds that are asked together, as they stand or denied.
            many = [self.filter(3) for _ in range(r.randint(4, 9))] if r.random() < 0.3 else []
            fields = [{"type": "not", "field": it} if r.random() < 0.5 else it for it in many]
            return {"type": kind, "fields": fields or [self.filter(depth + 1) for _ in range(r.randint(0, 3))]}
        if kind == "not":
            return {"type": kind, "field": self.filter(depth + 1)}
        return self.leaf(kind, r.choice(self.dims + ["nope"]))

    def ands_by_texts(self):
        """Many conditions of which one is to hold, or none: most ask for texts of one dimension or of some, and for something else besides."""
        r, columns, few = self.random, self.some_of(self.dims), self.random.sample(TEXTS, 2)
        selector = lambda column: {"type": "selector", "dimension": column, "value": r.choice(few)}
        by_texts = r.choice([lambda column: self.leaf(r.choice(["selector", "selector", "in"]), column), selector])
        ands = []
        for _ in range(r.randint(12, 40 * len(columns))):
            fields = [by_texts(it) for it in columns if r.random() < 0.9]
            fields += [self.filter(2) for _ in range(r.choice([1, 1, 1, 2]))]
            ands.append({"type": "and", "fields": r.sample(fields, len(fields))})
        if r.random() < 0.5:
            return {"type": "or", "fields": ands}
        return {"type": "and", "fields": [{"type": "not", "field": it} for it in ands]}

    def some_of(self, dims):
        """One of some dimensions, or a few of them."""
        return self.random.sample(dims, min(len(dims), self.random.choice([1, 1, 2, 3])))

    def leaf_of_one_column(self):
        """A maker of conditions on one dimension, or on the time: of all kinds that are joined there, or patterns alone."""
        r, column = self.random, self.random.choice(self.dims + ["nope"])
        kinds = r.choice([["selector", "in", "bound"], ["bound"], ["like"], ["interval"], ["selector", "in", "bound", "like"]])
        return lambda: self.leaf(r.choice(kinds), column)

    def leaf(self, kind, column):
        r, value = self.random, lambda: self.random.choice([*TEXTS, None, 10])
        if kind == "interval":
            return {"type": kind, "dimension": "__time", "intervals": self.intervals()}
        more = {"selector": {"value": value()}, "in": {"values": [value() for _ in range(r.randint(0, 4))]}}
        more |= {"like": {"pattern": r.choice(PATTERNS)}, "bound": {"lower": value(), "upper": value()}}
        more["bound"] |= {"lowerStrict": r.random() < 0.3, "upperStrict": r.random() < 0.3}
        if r.random() < 0.5:
            more["bound"].pop(r.choice(["lower", "upper"]))
        return {"type": kind, "dimension": column} | more[kind]

    def aggregations(self):
        r, found = self.random, []
        for i in range(r.randint(0, 4)):
            kind = r.choice(["count", "longSum", "longSum", "longMin", "longMax"])
            field = {} if kind == "count" else {"fieldName": r.choice([it[0] for it in self.metrics] + ["nope"])}
            found.append({"type": kind, "name": "%s%d" % (r.choice("aez"), i)} | field)
        return found

    def dimensions(self):
        found = []
        for i in range(self.random.randint(0, 3)):
            name = self.random.choice(self.dims + ["nope"])
            found.append({"type": "default", "dimension": name, "outputName": "%s%d" % (self.random.choice("bdy"), i)})
        return found

    def having(self, dims, aggs, depth=0):
        r = self.random
        if depth == 0 and r.random() < 0.2:
            few = (dims[:1], aggs[:1]) if r.random() < 0.5 else (dims, aggs)
            return self.nest(lambda: self.having(*few, 3), "havingSpecs", "havingSpec")
        if depth == 0 and dims and r.random() < 0.2:
            return self.ands_by_values(dims, aggs)
        kinds = ["and", "or", "not"] if depth < 3 else ["and", "or"]
        kinds += ["equalTo", "greaterThan", "lessThan"] * (2 if aggs else 0) + ["dimSelector"] * (2 if dims else 0)
        kind = r.choice(kinds)
        if kind in ("and", "or"):
            many = [self.having(dims, aggs, 3) for _ in range(r.randint(3, 7))] if depth < 3 and r.random() < 0.3 else []
            specs = [{"type": "not", "havingSpec": it} if r.random() < 0.5 else it for it in many]
            return {"type": kind, "havingSpecs": specs or [self.having(dims, aggs, depth + 1) for _ in range(r.randint(0, 2) * (depth < 3))]}
        if kind == "not":
            return {"type": kind, "havingSpec": self.having(dims, aggs, depth + 1)}
        if kind == "dimSelector":
            return {"type": kind, "dimension": r.choice(dims), "value": r.choice(TEXTS[:5])}
        return {"type": kind, "aggregation": r.choice(aggs), "value": r.choice(NUMBERS)}

    def ands_by_values(self, dims, aggs):
        """Many conditions of which one is to hold, or none: most ask for a value of one dimension or of some, and for something else."""
        r, columns, texts = self.random, self.some_of(dims), self.random.choice([TEXTS, self.random.sample(TEXTS, 2)])
        ands = []
        for _ in range(r.randint(12, 40 * len(columns))):
            specs = [{"type": "dimSelector", "dimension": it, "value": r.choice(texts)} for it in columns if r.random() < 0.9]
            specs += [self.having(dims, aggs, 2) for _ in range(r.choice([1, 1, 1, 2]))]
            ands.append({"type": "and", "havingSpecs": r.sample(specs, len(specs))})
        if r.random() < 0.5:
            return {"type": "or", "havingSpecs": ands}
        return {"type": "and", "havingSpecs": [{"type": "not", "havingSpec": it} for it in ands]}

    def limit_spec(self, outputs):
        r = self.random
        columns = [r.choice([it, {"dimension": it, "direction": r.choice(["ascending", "Descending"])}]) for it in outputs if r.random() < 0.6]
        r.shuffle(columns)
        return {"type": "default", "columns": columns, "limit": r.choice([0, 1, 2, 5, 100]), "offset": r.choice([0, 0, 1, 3])}

    def query(self):
        r, sometimes = self.random, lambda chance: self.random.random() < chance
        if sometimes(0.25):
            query = self.scan()
            return self.spoiled(query) if sometimes(0.2) else query
        query = {"queryType": r.choice(["timeseries", "groupBy"]), "dataSource": "w", "intervals": self.intervals()}
        query["granularity"] = r.choice([*self.grans, *self.grans, *self.grans, "all", "all", r.choice(answers.NAMES)])
        query["aggregations"] = self.aggregations()
        if sometimes(0.5):
            query["filter"] = self.filter()
        if query["queryType"] == "groupBy":
            query["dimensions"] = self.dimensions()
            dims, aggs = [it["outputName"] for it in query["dimensions"]], [it["name"] for it in query["aggregations"]]
            if sometimes(0.4):
                query["having"] = self.having(dims, aggs)
            if sometimes(0.6):
                query["limitSpec"] = self.limit_spec(dims + aggs)
        else:
            query["descending"] = sometimes(0.4)
            if sometimes(0.4) or query["granularity"] not in [*self.grans, "all"]:
                query["limit"] = r.choice([1, 2, 5, 40])
            query["context"] = {"skipEmptyBuckets": r.choice([True, False, False, "true"])}
        return self.spoiled(query) if sometimes(0.25) else query

    def scan(self):
        r, sometimes = self.random, lambda chance: self.random.random() < chance
        query = {"queryType": "scan", "dataSource": "w", "intervals": self.intervals()}
        names = ["__time", "nope", *self.dims, *(it[0] for it in self.metrics)]
        choices = {"columns": [it for it in names if sometimes(0.5)], "filter": self.filter(), "order": r.choice(["none", "ascending", "descending"])}
        choices |= {"resultFormat": r.choice(["list", "compactedList"]), "batchSize": r.choice([1, 2, 3, 100]), "granularity": r.choice(["all", {"type": "ALL"}])}
        choices |= {"offset": r.choice([0, 1, 2, 5, 50]), "limit": r.choice([0, 1, 2, 3, 10])}
        r.shuffle(choices["columns"])
        return query | {name: value for name, value in choices.items() if sometimes(0.5)}

    def spoiled(self, query):
        """The query with one value changed, left out or added somewhere."""
        query, r = copy.deepcopy(query), self.random
        at = query
        while r.random() < 0.7:
            inner = [it for it in (at.values() if isinstance(at, dict) else at) if it and isinstance(it, (dict, list))]
            if not inner:
                break
            at = r.choice(inner)
        keys = list(at) if isinstance(at, dict) else list(range(len(at)))
        how = r.random()
        if how < 0.6 and keys:
            at[r.choice(keys)] = r.choice(JUNK)
        elif how < 0.8 and keys:
            at.pop(r.choice(keys))
        elif isinstance(at, dict):
            at[r.choice(["x", "A", "limit", "type", "dimensions", "having", "é"])] = r.choice(JUNK)
        else:
            at.append(r.choice(JUNK))
        return query

    def command(self):
        r = self.random
        kinds = ["seal"] * 3 + ["merge", "publish", "publish", "plan", "image", "pin", "stats", "query", "query", "query", "query", "audit"]
        kind = r.choice(kinds + ["commit"] * (self.jobs > 0) + ["at"] * 2 * (self.pins > 0))
        places = "%s %d %d" % (self.instant(), r.choice([0, 0, 1]), r.choice([1, 2, 2, 3]))
        if kind == "plan":
            self.jobs += 1
        if kind == "pin":
            self.pins += 1
        texts = {"seal": "seal " + self.instant(), "merge": "merge " + places, "publish": "publish " + places}
        texts |= {"plan": "plan %s %s" % (r.choice(["merge", "publish"]), places), "image": "image %s %d" % (self.instant(), r.choice([0, 0, 1, 2]))}
        texts |= {"commit": "commit %d" % r.randint(0, max(0, self.jobs - 1)), "pin": "pin", "stats": "stats"}
        texts |= {it: it + " " + compact(self.query()) for it in ("query", "audit")}
        texts["at"] = "at %d %s" % (r.randint(0, max(0, self.pins - 1)), compact(self.query()))
        return texts[kind]

    def script(self):
        r, lines = self.random, [compact(self.spec())]
        for _ in range(r.choice([5, 15, 40])):
            lines += ["+ " + compact(self.event()) for _ in range(r.choice([0, 1, 3, 6]))]
            lines.append(self.command())
        return ("\n".join(lines) + "\n").encode()


def main(folder, first, count, program=None, *workers):
    differ = 0
    os.makedirs(folder, exist_ok=True)
    runs = [[program, "run", "--workers", it] for it in workers] or [[program, "run"]]
    for number in range(int(first), int(first) + int(count)):
        script = Writer(number).script()
        wanted = answers.run(script)
        if program:
            ran = [subprocess.run(["timeout", "60", *it], input=script, capture_output=True, check=False) for it in runs]
            if all((it.stdout, it.returncode) == wanted for it in ran):
                continue
            differ += 1
            print("script %d differs" % number)
        base = os.path.join(folder, "random_%d" % number)
        answers.write(base + ".script", script)
        answers.write(base + ".out", wanted[0])
        answers.write(base + ".status", b"1\n" if wanted[1] else None)
    print("%d scripts%s" % (int(count), ", %d differ" % differ if program else ""))
    return 1 if differ else 0


if __name__ == "__main__":
    sys.exit(main(*sys.argv[1:]))
