#!/usr/bin/env python3
"""Large inputs in unfriendly orders: seconds of a processor and megabytes of `druid-node run` over a script of each.

    python3 bench/extremes.py PROGRAM [--only WORD] [--share S]

With a share below 1 each input is so much smaller. The scripts are written to a pipe while they are run. It is no part of the gate.
"""
import argparse
import json
import os
import subprocess
import sys
import threading
from random import Random

import alike

DAY = 86400000
BEGIN = 1704067200000


def compact(value):
    return json.dumps(value, separators=(",", ":"), ensure_ascii=False)


def spec(dims=("page",), metrics=("v",), segment="day", query="none", rollup=True, **limits):
    schema = {"dataSource": "w", "timestampSpec": {"column": "t", "format": "millis"}, "dimensionsSpec": {"dimensions": list(dims)}}
    schema["metricsSpec"] = [{"type": "longSum", "name": it, "fieldName": it} for it in metrics]
    schema["granularitySpec"] = {"segmentGranularity": segment, "queryGranularity": query, "rollup": rollup}
    return compact({"dataSchema": schema, "tuningConfig": {"maxRowsInMemory": 1000000} | limits})


def event(t, page="a", **more):
    return "+ " + compact({"t": t, "page": page, "v": 1} | more)


SUM = [{"type": "longSum", "name": "v", "fieldName": "v"}]
ALWAYS = ["2000-01-01/2100-01-01"]


def series(**more):
    return "query " + compact({"queryType": "timeseries", "dataSource": "w", "intervals": ALWAYS, "granularity": "all", "aggregations": SUM} | more)


def groups(**more):
    return "query " + compact({"queryType": "groupBy", "dataSource": "w", "intervals": ALWAYS, "granularity": "all", "dimensions": ["page"], "aggregations": SUM} | more)


def instant(day):
    return f"2024-01-{day:02d}"


def chunks(order):
    def lines(n):
        yield spec(segment="second")
        places = {"rising": lambda: range(n), "falling": lambda: range(n - 1, -1, -1), "random": lambda: Random(1).sample(range(n), n)}
        for it in places[order]():
            yield event(BEGIN + it * 1000)
    return lines


def wide(n):
    dims, metrics = [f"d{it}" for it in range(64)], [f"m{it}" for it in range(64)]
    yield spec(dims, metrics, segment="second")
    for it in range(n):
        yield "+ " + compact({"t": BEGIN + it * 1000, "d1": "x", "m3": 1})


def seals(n):
    yield spec(maxRowsInMemory=1)
    for it in range(n):
        yield event(BEGIN + it % DAY, str(it))


def many_intervals(n):
    yield spec(query="second")
    for it in range(n):
        yield event(BEGIN + it % 86400 * 1000)
    clock = lambda it: f"2024-01-01T{it // 3600:02d}:{it // 60 % 60:02d}:{it % 60:02d}"
    spans = [f"{clock(it)}/{clock(it + 1)}" for it in range(0, 86399, 9)] + ["2024-01-01/2024-01-02"]
    more = [{"type": "longSum", "name": f"v{it}", "fieldName": "v"} for it in range(20)]
    for way in ("query", "seal", "query"):
        yield f"seal {instant(1)}" if way == "seal" else series(intervals=spans, aggregations=more)


def kept_pins(n):
    yield spec()
    for it in range(1000):
        yield event(BEGIN + it, str(it))
    for it in range(n):
        yield event(BEGIN + it % 1000, str(it % 1000))
        yield "pin"


def pins_of_many_chunks(n):
    yield spec(segment="second")
    for it in range(100000):
        yield event(BEGIN + it * 1000)
    for _ in range(n):
        yield "pin"


def query_after_event(n):
    yield spec()
    for it in range(100000):
        yield event(BEGIN + it, str(it))
    for it in range(n):
        yield event(BEGIN + it, str(it))
        yield series()


def query_of_open_rows(n):
    yield spec()
    for it in range(n):
        yield event(BEGIN + it % DAY, str(it))
    yield series()


def like_long(n):
    yield spec()
    yield event(BEGIN, "a" * n)
    yield groups(filter={"type": "like", "dimension": "page", "pattern": "%" + "a" * (n // 2) + "b%"})
    yield groups(filter={"type": "like", "dimension": "page", "pattern": "%a_" * (n // 4) + "b"})
    yield groups(filter={"type": "like", "dimension": "page", "pattern": "%a_" + "a" * (n // 2) + "b%"})


def like_gapped(n):
    """A text of so many characters, and pieces of half as many that fail at their end alone, or not at all."""
    yield spec()
    yield event(BEGIN, "a" * n)
    yield event(BEGIN, "aabc" * (n // 4))
    for piece in "a_" * (n // 4) + "b", "a_" * (n // 4), "_aabc_" * (n // 12):
        yield groups(filter={"type": "like", "dimension": "page", "pattern": "%" + piece + "%"})


def like_gapped_among(n):
    """A text of so many characters, and a piece with gaps among many short ones, which fails by one of two letters in turn."""
    yield spec()
    yield event(BEGIN, "aax" * (n // 3))
    first, last = n // 96 * 3 + 2, n // 48 * 3 - 2
    piece = "a" + "_" * (first - 1) + "x" + "_" * (last - first - 1) + "x"
    yield groups(filter={"type": "like", "dimension": "page", "pattern": "%" + piece + "%a" * (n * 468 // 1000) + "%"})


def like_gapped_late(n):
    """A text of so many characters, and a piece with a gap that fits each place but for one letter, which is asked last."""
    yield spec()
    yield event(BEGIN, "a" * n)
    yield groups(filter={"type": "like", "dimension": "page", "pattern": "%a_" + "a" * 61 + "b" + "a" * (n // 2 - 64) + "%"})


def long_or(n):
    yield spec()
    for it in range(n):
        yield event(BEGIN + it % DAY, str(it))
    fields = [{"type": "selector", "dimension": "page", "value": f"x{it}"} for it in range(17000)]
    yield groups(filter={"type": "or", "fields": fields})


def texts(n):
    yield spec()
    for it in range(n):
        yield event(BEGIN + it % DAY, str(it))


def asked_of_texts(query):
    """The same query of open rows, and of them sealed and published."""
    def lines(n):
        yield from texts(n)
        yield query
        yield f"seal {instant(1)}"
        yield f"publish {instant(1)} 0 1"
        yield query
    return lines


def bound(it):
    return {"type": "bound", "dimension": "page", "lower": f"y{it}", "upper": "y"}


def no_selector(it):
    return {"type": "not", "field": {"type": "selector", "dimension": "page", "value": f"x{it}"}}


def denied(filter):
    return {"type": "not", "field": filter}


def one_of(*filters):
    return {"type": "or", "fields": list(filters)}


def selector(value):
    return {"type": "selector", "dimension": "page", "value": value}


def compared(it):
    return {"type": "lessThan", "aggregation": "v", "value": -it}


def within(begin, end):
    return {"type": "interval", "dimension": "__time", "intervals": [f"{begin}/{end}"]}


def moments(it):
    """A millisecond of the day."""
    return f"2024-01-01T{it // 3600000:02d}:{it // 60000 % 60:02d}:{it // 1000 % 60:02d}.{it % 1000:03d}Z"


LONG_OR_OF_BOUNDS = groups(filter={"type": "or", "fields": [bound(it) for it in range(14000)]})
LONG_OR_OF_INS = groups(filter={"type": "or", "fields": [{"type": "in", "dimension": "page", "values": [f"x{it}"]} for it in range(15000)]})
LONG_AND_OF_NOTS = groups(filter={"type": "and", "fields": [no_selector(it) for it in range(12000)]}, limitSpec={"type": "default", "limit": 1})
LONG_AND_OF_DENIED_BOUNDS = series(filter={"type": "and", "fields": [denied(bound(it)) for it in range(11000)]})
LONG_AND_OF_SELECTORS = series(filter={"type": "and", "fields": [{"type": "selector", "dimension": "none", "value": ""}] * 17000})
LONG_OR_OF_INTERVALS = series(filter={"type": "or", "fields": [within(moments(it * 9), moments(it * 9 + 1)) for it in range(8000)]})
LONG_AND_OF_INTERVALS = series(filter={"type": "and", "fields": [within("2024-01-01", moments(86000000 + it)) for it in range(8000)]})
ORS_OF_AN_OR = series(filter=one_of(*(one_of(selector(f"x{it}"), selector(f"y{it}")) for it in range(6500))))
ORS_OF_ONE_DIMENSION = series(filter={"type": "and", "fields": [one_of(selector("0"), selector(f"x{it}")) for it in range(6500)]})
ORS_OF_A_HAVING = groups(having={"type": "or", "havingSpecs": [{"type": "or", "havingSpecs": [compared(it), compared(2 * it)]} for it in range(5000)]})
ORS_OF_NO_COLUMN = series(filter={"type": "and", "fields": [one_of({"type": "selector", "dimension": "none", "value": "x"}, denied(selector(f"x{it}"))) for it in range(6500)]})
ORS_OF_RANGES = series(filter={"type": "and", "fields": [one_of(selector("0"), {"type": "bound", "dimension": "page", "lower": f"{it}"}, denied({"type": "bound", "dimension": "page", "upper": f"{it}x"})) for it in range(5000)]})
ORS_OF_TIMES = series(filter={"type": "and", "fields": [one_of(within("2024-01-01", moments(it)), denied(within("2024-01-01", moments(2 * it)))) for it in range(4400)]})
ANDS_OF_A_HAVING = groups(having={"type": "and", "havingSpecs": [{"type": "or", "havingSpecs": [compared(it), compared(it + 5000)]} for it in range(7500)]})
LONG_HAVING_OF_DENIED = groups(having={"type": "and", "havingSpecs": [{"type": "not", "havingSpec": {"type": "greaterThan", "aggregation": "v", "value": it}} for it in range(10, 10000)]}, limitSpec={"type": "default", "limit": 1})
LONG_HAVING_OF_TEXTS = groups(having={"type": "or", "havingSpecs": [{"type": "dimSelector", "dimension": "page", "value": f"x{it}"} for it in range(17000)]})
MANY_SUMS = series(aggregations=[{"type": "longSum", "name": f"v{it}", "fieldName": "v"} for it in range(19000)])
ONE_DIMENSION = [{"type": "default", "dimension": "none", "outputName": f"o{it}"} for it in range(16000)]
ONE_DIMENSION_OFTEN = groups(dimensions=ONE_DIMENSION)
COUNTS = [{"type": "count", "name": f"{it:05x}"} for it in range(14000)]
LEAST_OF_EACH = [[{"type": "dimSelector", "dimension": "page", "value": str(it * 7)}, {"type": "greaterThan", "aggregation": "v", "value": it % 2}] for it in range(7400)]
OF_TWO = [[{"type": "dimSelector", "dimension": "page", "value": str(it % 70)}, {"type": "dimSelector", "dimension": "lang", "value": str(it // 70)}, {"type": "greaterThan", "aggregation": "v", "value": it + 1}] for it in range(4900)]
HAVING_OF_TWO = groups(dimensions=["page", "lang", "user"], having={"type": "or", "havingSpecs": [{"type": "and", "havingSpecs": it} for it in OF_TWO]})
HAVING_OF_PAIRS = groups(having={"type": "or", "havingSpecs": [{"type": "and", "havingSpecs": it} for it in LEAST_OF_EACH]})
LAST_COUNT_OFTEN = groups(aggregations=COUNTS, filter={"type": "selector", "dimension": "page", "value": "0"}, limitSpec={"type": "default", "columns": [COUNTS[-1]["name"]] * 60000})


def long_spec(n):
    letters = "abcdefghijklmnopqrstuvwxyzABCDEFGHIJKLMNOPQRSTUVWXYZ0123456789"
    names = (a + b + c for a in letters for b in letters for c in letters)
    yield spec([next(names) for _ in range(n)])


def published_apart(n):
    yield spec(segment="second", query="second")
    clock = lambda it: f"2024-01-{1 + it // 86400:02d}T{it // 3600 % 24:02d}:{it // 60 % 60:02d}:{it % 60:02d}"
    for it in range(n):
        yield event(BEGIN + it * 1000)
        yield f"seal {clock(it)}"
        yield f"publish {clock(it)} 0 1"
    spans = [f"{clock(it)}/{clock(it + 1)}" for it in range(0, 86399, 9)] + ["2024-01-01/2024-02-01"]
    yield series(intervals=spans)


def of_two_sums(n):
    """Groups of two sums, each of which differs, that meet each of many `or`s of a comparison of the one and one of the other."""
    yield spec(metrics=("v", "w"))
    for it in range(n):
        yield event(BEGIN, f"{it:x}", v=it + 5000, w=n - it)
    sums = SUM + [{"type": "longSum", "name": "w", "fieldName": "w"}]
    both = lambda it: [{"type": "lessThan", "aggregation": "v", "value": it}, {"type": "greaterThan", "aggregation": "w", "value": -it}]
    some = lambda it: [{"type": "equalTo", "aggregation": "v", "value": it}, {"type": "equalTo", "aggregation": "w", "value": it}]
    limit = {"type": "default", "limit": 1}
    yield groups(aggregations=sums, limitSpec=limit, having={"type": "and", "havingSpecs": [{"type": "or", "havingSpecs": both(it)} for it in range(5000)]})
    yield groups(aggregations=sums, limitSpec=limit, having={"type": "or", "havingSpecs": [{"type": "and", "havingSpecs": some(it)} for it in range(5000)]})


def asked_apart(n):
    """Ranges of one row each under nests that the rows meet at last, by a timeseries and by a scan."""
    yield spec(dims=("page", "lang"), maxRowsInMemory=1)
    for it in range(n):
        yield event(BEGIN + it % DAY, "a", lang=f"l{it}")
    yield series(filter=every(RANGES_OF_TWO_DIMENSIONS))
    yield series(filter=every(ORS_OF_TWO_DIMENSIONS))
    scan = {"queryType": "scan", "dataSource": "w", "intervals": ALWAYS, "columns": ["page"], "resultFormat": "compactedList", "limit": 10, "offset": n - 10}
    yield "query " + compact(scan | {"filter": every(RANGES_OF_TWO_DIMENSIONS)})


def stretches(n):
    """Rows that meet each of many `or`s of a stretch of time and a text of another dimension than theirs, but for those of the last."""
    yield spec(dims=("page", "lang"))
    clock = lambda second: f"2024-01-01T{second // 3600:02d}:{second // 60 % 60:02d}:{second % 60:02d}Z"
    for it in range(n):
        yield event(BEGIN + it * 800, "a", lang=f"l{it}")
    either = lambda it: one_of({"type": "interval", "dimension": "__time", "intervals": [f"2024-01-01/{clock(80000 - it)}"]}, at("lang", f"l{it}"))
    yield series(filter=every([either(it) for it in range(5000)]))
    yield f"seal {instant(1)}"
    yield f"publish {instant(1)} 0 1"
    yield series(filter=every([either(it) for it in range(5000)]))


def long_having(n):
    yield spec()
    for it in range(n):
        yield event(BEGIN + it % DAY, str(it))
    fields = [{"type": "greaterThan", "aggregation": "v", "value": it} for it in range(1, 14000)]
    yield groups(having={"type": "or", "havingSpecs": fields})


def levels(filter, count):
    """A filter within an `or` and an `and` in turn, so often, each of which asks something of the same dimension."""
    for it in range(count):
        more = denied({"type": "bound", "dimension": "page", "lower": f"z{it}", "upper": f"z{it}z"}) if it % 2 else selector(f"s{it}")
        filter = {"type": "and" if it % 2 else "or", "fields": [filter, more]}
    return filter


LEVELS_OF_ONE_DIMENSION = series(filter=levels(one_of({"type": "in", "dimension": "page", "values": [f"{it:x}" for it in range(120000)]}, bound(1)), 60))


def likes(pattern):
    return asked_of_texts(groups(filter=one_of(*({"type": "like", "dimension": "page", "pattern": pattern.replace("x", f"x{it}")} for it in range(15000)))))


def likes_of_rows(text, pattern, patterns, *more):
    """So many patterns over rows of texts, and of some texts more, asked while they are open and once they are published."""
    def lines(n):
        random = Random(3)
        yield spec()
        for it in range(n):
            yield event(BEGIN + it % DAY, text(random, it))
        for it in more:
            yield event(BEGIN, it)
        asked = series(filter=one_of(*({"type": "like", "dimension": "page", "pattern": pattern(random, it)} for it in range(patterns))))
        yield from (asked, f"seal {instant(1)}", f"publish {instant(1)} 0 1", asked)
    return lines


def bits_of_300(random, it):
    return f"{random.getrandbits(300):0300b}"


def likes_of_gaps(begin, end, first=""):
    """A pattern for each of 12,000, of letters that each value has or not, which all values fail by one letter alone: the last, or the
    first, which is asked last."""
    def pattern(random, it):
        return begin + first + "".join(random.choice("01____") for _ in range(8)) + ("" if first else "2") + end
    return likes_of_rows(lambda random, it: f"{it:017b}", pattern, 12000)


def likes_of_long_texts(begin, end, first="", letters=22, patterns=12000):
    """The same of texts of 300 letters, and patterns that are gaps but for four letters."""
    def pattern(random, it):
        inner = ["_"] * letters
        for _ in range(4):
            inner[random.randrange(letters)] = random.choice("01")
        return begin + first + "".join(inner) + ("" if first else "2") + end
    return likes_of_rows(bits_of_300, pattern, patterns)


def likes_of_common_letters(letters, asked, patterns, ones):
    """Patterns of a part, so many letters of which so many are asked, over texts of 300 letters that have each of them at many places: of
    these so many in a hundred are a `1`. One row more fits none, so that each pattern is asked."""
    def letter(random):
        return "1" if random.randrange(100) < ones else "0"

    def pattern(random, it):
        inner = ["_"] * letters
        for place in random.sample(range(letters), asked):
            inner[place] = letter(random) if ones == 50 else "1"
        return "%" + "".join(inner) + "%"
    return likes_of_rows(lambda random, it: "".join(letter(random) for _ in range(300)), pattern, patterns, "2")


def likes_of_parts(parts, letters, patterns):
    """Patterns of so many parts, each of so many letters with a gap among them, over texts of 300 letters. One row more fits none, so that
    each pattern is asked."""
    def part(random):
        inner = [random.choice("01") for _ in range(letters + 1)]
        inner[random.randrange(1, letters)] = "_"
        return "".join(inner)
    return likes_of_rows(bits_of_300, lambda random, it: "%" + "%".join(part(random) for _ in range(parts)) + "%", patterns, "2")


def likes_but_for_one_part(parts, patterns, letters=2, length=300, last=False):
    """Patterns of so many parts of so many letters with gaps between, over texts of 300 letters or more, each of which has all parts but
    the first, which is asked last of many texts at once, or the last, which is asked last of each by itself; where there are no other
    parts the second is a number."""
    def text(random, it):
        found = [random.choice("01") for _ in range(length)]
        for place in range(0, length, 5):
            found[place + random.randrange(2)] = "2"
        return "".join(found)

    def pattern(random, it):
        part = lambda: "_".join(random.choice("01") for _ in range(letters))
        others = "%".join(part() for _ in range(parts)) if parts else str(it)
        return f"%{others}%2_2%" if last else f"%2_2%{others}%"
    return likes_of_rows(text, pattern, patterns)


LATIN = [chr(code) for code in range(0x23, 0x70) if chr(code) not in '%_\\']
HAN = [chr(code) for code in range(0x4E00, 0x9C20)]


def likes_of_rare_letters(letters, parts, patterns, length=300):
    """Patterns of so many parts of a letter over texts of so many letters, of which no text in 64 has one at a place, and one text of a
    letter of a far greater number; each lacks the first part, which is asked last."""
    def text(random, it):
        found = [random.choice(letters) for _ in range(length)]
        for place in range(0, length, 5):
            if not random.randrange(70):
                found[place + random.randrange(2)] = "!"
        return "".join(found)
    return likes_of_rows(text, lambda random, it: "%!_!%" + "%".join(random.choice(letters) for _ in range(parts)) + "%", patterns, "\U0001f600" * length)


def likes_of_rare_pairs(letters, parts, patterns):
    """Patterns of so many parts of two letters over texts of 300, of which no text in 64 has one at a place."""
    text_of = lambda random, count: "".join(random.choice(letters) for _ in range(count))
    return likes_of_rows(lambda random, it: text_of(random, 300), lambda random, it: "%" + "%".join(text_of(random, 2) for _ in range(parts)) + "%", patterns)


def likes_of_one_row(letters, parts, patterns, length=300):
    """Patterns of so many parts of a letter and one before them that no row has, over texts of so many letters, of which the first has all
    the others: so a few parts decide of each other row, and for that one each part is asked."""
    text = lambda random, it: "".join(random.choice(letters) for _ in range(length))
    first = text(Random(3), 0)
    return likes_of_rows(text, lambda random, it: "%!_!%" + "%".join(first[place] for place in sorted(random.sample(range(length), parts))) + "%", patterns)


def likes_of_own_parts(letters, parts, count, patterns, length):
    """Patterns of so many parts of so many letters, as they stand one behind the other in one of the texts of so many letters, and of one
    part more, which hardly a text has behind them."""
    own = lambda it: "".join(Random(it).choices(letters, k=length))

    def pattern(random, it):
        one, found, end = own(random.randrange(200)), [], 0
        for place in sorted(random.sample(range(length - count), parts)):
            place = max(place, end)
            if place + count <= length:
                found.append(one[place : place + count])
                end = place + count
        return "%" + "%".join(found) + "%" + 3 * random.choice(letters) + "%"
    return likes_of_rows(lambda random, it: own(it), pattern, patterns)


def likes_of_long_runs(length, run, patterns):
    """Patterns of more than two runs of so many letters with a gap, over texts of so many letters that have such runs, each from another
    place on, with one other letter between two of them."""
    def text(random, it):
        begin = random.randrange(run + 1)
        return f"{it:05}" + (("a" * run + "c") * (length // run + 2))[begin:][: length - 5]

    def pattern(random, it):
        letters = ["a"] * (2 * run + 2 + random.randrange(6))
        letters[random.randrange(1, len(letters) - 1)] = "_"
        return "%" + "".join(letters) + "%"
    return likes_of_rows(text, pattern, patterns)


def likes_of_runs(patterns, runs):
    """Patterns of so many `%` and three letters, over texts of 300."""
    return likes_of_rows(bits_of_300, lambda random, it: "%" * runs + f"0_{it % 2}", patterns)


def likes_of_many_dimensions(letters):
    """33 of each of 64 dimensions, of whose values one in 15 has so many letters, and the others two."""
    def lines(n):
        names = [f"d{it}" for it in range(64)]
        random = Random(3)
        yield spec(dims=names)
        for it in range(n):
            yield event(BEGIN + it, **{name: f"{random.getrandbits(letters):0{letters}b}" if random.randrange(15) == 0 else "01" for name in names})
        yield series(filter=one_of(*({"type": "like", "dimension": name, "pattern": f"%0_{it:06b}_2%"} for name in names for it in range(33))))
    return lines


def pairs(n):
    yield spec(dims=("page", "lang"))
    for it in range(n):
        yield event(BEGIN + it, f"{it:x}", lang=str(it % 70))
    both = [[{"type": "selector", "dimension": "page", "value": f"{it * 7:x}"}, {"type": "selector", "dimension": "lang", "value": str(it % 70)}] for it in range(5500)]
    asked = series(filter=one_of(*({"type": "and", "fields": it} for it in both)))
    yield asked
    yield f"seal {instant(1)}"
    yield f"publish {instant(1)} 0 1"
    yield asked


def at(dimension, value):
    return {"type": "selector", "dimension": dimension, "value": value}


def from_to(dimension, lower, upper):
    return {"type": "bound", "dimension": dimension, "lower": lower, "upper": upper}


# Nests over two dimensions that each row meets at last: the first has one text, the second has one of its own in each row.
ORS_OF_TWO_DIMENSIONS = [one_of(at("lang", f"b{it}"), at("page", "a")) for it in range(5500)]
ORS_OF_AN_IN = [one_of({"type": "in", "dimension": "page", "values": ["a", f"x{it}"]}, at("lang", f"b{it}")) for it in range(5000)]
RANGES_OF_TWO_DIMENSIONS = [one_of(from_to("lang", "l2", f"l{it}"), from_to("lang", f"l{it}", "m"), from_to("page", "b", f"c{it}")) for it in range(3000)]
DENIED_RANGES = [{"type": "and", "fields": [denied(from_to("lang", "l5", f"l5{it}")), from_to("page", "b", f"c{it}")]} for it in range(4500)]


def two_dimensions(*filters):
    """Queries of open rows, and of them sealed and published."""
    def lines(n):
        yield spec(dims=("page", "lang"))
        for it in range(n):
            yield event(BEGIN + it % DAY, "a", lang=f"l{it}")
        yield series(filter=filters[0])
        yield f"seal {instant(1)}"
        yield f"publish {instant(1)} 0 1"
        yield series(filter=filters[-1])
    return lines


def every(fields):
    return {"type": "and", "fields": fields}


def of_two(n):
    yield spec(dims=("page", "lang", "user"))
    for it in range(n):
        yield event(BEGIN, str(it % 70), lang=str(it // 70 % 70), user=str(it))
    yield HAVING_OF_TWO
    yield f"seal {instant(1)}"
    yield f"publish {instant(1)} 0 1"
    yield HAVING_OF_TWO


def windows(n):
    """One value of a dimension in many stretches of time."""
    yield spec()
    for it in range(n):
        yield event(BEGIN + it * 800, "p0")
    clock = lambda second: f"2024-01-01T{second // 3600:02d}:{second // 60 % 60:02d}:{second % 60:02d}Z"
    spans = [[f"{clock(it * 14)}/{clock(it * 14 + 5)}"] for it in range(5700)]
    asked = series(filter=one_of(*({"type": "and", "fields": [selector("p0"), {"type": "interval", "dimension": "__time", "intervals": it}]} for it in spans)))
    yield asked
    yield f"seal {instant(1)}"
    yield f"publish {instant(1)} 0 1"
    yield asked


def ranked(most, dims, values):
    """Many `and`s of a value of each of some dimensions and a stretch of time, of rows with these values."""
    names = [f"d{it}" for it in range(dims)]
    texts = lambda it: [str(it // values**place % values) for place in range(dims)]
    clock = lambda second: f"2024-01-01T{second // 3600:02d}:{second // 60 % 60:02d}:{second % 60:02d}Z"
    span = lambda it: {"type": "interval", "dimension": "__time", "intervals": [f"{clock(it * 14)}/{clock(it * 14 + 5)}"]}
    both = lambda it: [{"type": "selector", "dimension": name, "value": text} for name, text in zip(names, texts(it))] + [span(it)]
    asked = series(filter=one_of(*({"type": "and", "fields": both(it)} for it in range(most))))

    def lines(n):
        yield spec(dims=names)
        for it in range(n):
            yield "+ " + compact({"t": BEGIN + it * 800, "v": 1} | dict(zip(names, texts(it))))
        yield asked
        yield f"seal {instant(1)}"
        yield f"publish {instant(1)} 0 1"
        yield asked
    return lines


def with_text(n):
    """Many `and`s that ask for one text, or another one, and for one of another dimension, of rows that have the one."""
    yield spec(dims=("page", "lang"))
    for it in range(n):
        yield event(BEGIN + it, "p0", lang=f"m{it % 70}")
    both = lambda it: [{"type": "in", "dimension": "page", "values": ["p0", f"x{it}"]}, {"type": "selector", "dimension": "lang", "value": f"l{it}"}]
    asked = series(filter=one_of(*({"type": "and", "fields": both(it)} for it in range(5500))))
    yield asked
    yield f"seal {instant(1)}"
    yield f"publish {instant(1)} 0 1"
    yield asked


def few_left(share):
    """Many `and`s that ask for one text, or another one, and for one of another dimension, of rows that have the one; another `and` is met
    by all rows but one in so many, which have the first text."""
    def lines(n):
        yield spec(dims=("page", "lang"))
        for it in range(n):
            yield event(BEGIN + it % DAY, "p0" if it % share == 0 else "r", lang=f"l{it}")
        both = lambda it: [{"type": "in", "dimension": "page", "values": ["p0", f"x{it}"]}, at("lang", f"b{it}")]
        most = [from_to("page", "q", "s"), from_to("lang", "l", "m")]
        asked = series(filter=one_of(*({"type": "and", "fields": it} for it in (most, *map(both, range(5000))))))
        yield from (asked, f"seal {instant(1)}", f"publish {instant(1)} 0 1", asked)
    return lines


def by_turns(n):
    """Many `and`s of a stretch of time and a value, of one dimension and of another in turn."""
    yield spec(dims=("page", "lang"))
    for it in range(n):
        yield event(BEGIN + it * 800, f"p{it % 3000}", lang=f"l{it // 7 % 3000}")
    clock = lambda second: f"2024-01-01T{second // 3600:02d}:{second // 60 % 60:02d}:{second % 60:02d}Z"
    span = lambda it: {"type": "interval", "dimension": "__time", "intervals": [f"{clock(it * 14)}/{clock(it * 14 + 5)}"]}
    text = lambda it: {"type": "selector", "dimension": "lang", "value": f"l{it // 2}"} if it % 2 else selector(f"p{it // 2}")
    asked = series(filter=one_of(*({"type": "and", "fields": [text(it), span(it)]} for it in range(5700))))
    yield asked
    yield f"seal {instant(1)}"
    yield f"publish {instant(1)} 0 1"
    yield asked


def likes_of_each(n):
    yield spec()
    for it in range(n):
        yield event(BEGIN + it, f"an {it:x} end")
    patterns = ["a%", "%", "%end", "% %", "%an%", "an %"] * 2500
    yield groups(filter={"type": "and", "fields": [{"type": "like", "dimension": "page", "pattern": it} for it in patterns]})


def likes_of_growing(n):
    yield spec()
    for it in range(n):
        yield event(BEGIN + it, "a" * 800)
    patterns = [form.replace("x", "a" * it) for it in range(1, 800) for form in ("x%", "%x", "%x%")]
    yield series(filter={"type": "and", "fields": [{"type": "like", "dimension": "page", "pattern": it} for it in patterns[:2000]]})


def order_columns(n):
    yield spec()
    for it in range(n):
        yield event(BEGIN + it % DAY, str(it))
    yield groups(limitSpec={"type": "default", "columns": ["v"] * 240000})


def many_outputs(n):
    yield spec()
    for it in range(n):
        yield event(BEGIN + it % DAY, str(it))
    yield groups(aggregations=[{"type": "longSum", "name": f"v{it}", "fieldName": "v"} for it in range(19000)], filter={"type": "selector", "dimension": "page", "value": "0"})


def distinct_pages(*queries):
    def lines(n):
        yield spec()
        for it in range(n):
            yield event(BEGIN + it % DAY, str(it))
        yield from queries
    return lines


NAMES = [f"{it:x}" for it in range(100000)]
NO_COLUMNS_ONE_GIVEN = groups(dimensions=["page", *NAMES], limitSpec={"type": "default", "limit": 1})
SUMS = [{"type": "longSum", "name": f"{it:x}", "fieldName": "v"} for it in range(9000)]
MANY_COMPARED = groups(aggregations=SUMS, limitSpec={"type": "default", "limit": 1}, having={"type": "and", "havingSpecs": [{"type": "greaterThan", "aggregation": it["name"], "value": 0} for it in SUMS]})


def merges(n):
    yield spec(maxCommits=1000000)
    for it in range(n):
        yield event(BEGIN + it, str(it))
        yield f"seal {instant(1)}"
        yield f"merge {instant(1)} 0 2" if it else "pin"


def plans(n):
    yield spec()
    for it in range(100):
        yield event(BEGIN + it, str(it))
        yield f"seal {instant(1)}"
    for _ in range(n):
        yield f"plan merge {instant(1)} 0 100"


def rows_alike(n):
    """Rows whose keys hash alike, and their groups."""
    moment, begin = alike.time_and_begin(BEGIN)
    yield spec()
    for it in range(n):
        yield event(moment, f"{begin}{it:08d}")
    yield groups(granularity="none", limitSpec={"type": "default", "limit": 1})


def values_alike(n):
    """An `in` of 24,000 texts that hash alike, of which each row has one."""
    begin = alike.begin_of_texts()
    values = [f"{begin}{it:08d}" for it in range(24000)]
    yield spec()
    for it in range(n):
        yield event(BEGIN + it % DAY, values[it % 24000])
    yield series(filter={"type": "in", "dimension": "page", "values": values})


def names_alike(n):
    """Events of 24,000 names of no column, which hash alike."""
    begin = alike.begin_of_texts()
    yield spec()
    for it in range(n):
        yield event(BEGIN + it, **{f"{begin}{name:08d}": 1 for name in range(24000)})
    yield series()


def outputs_alike(n):
    """1,000 groups of 7,000 outputs whose names hash alike, by each of which they are ordered."""
    begin = alike.begin_of_texts()
    names = [f"{begin}{it:08d}" for it in range(7000)]
    yield spec()
    for it in range(n):
        yield event(BEGIN, f"{it:08d}")
    columns = [{"dimension": it} for it in reversed(names)]
    yield groups(aggregations=[{"type": "count", "name": it} for it in names], limitSpec={"type": "default", "limit": 1, "columns": columns})


def published_alike(n):
    """Rows of distinct values that hash alike, sealed, published and grouped."""
    begin = alike.begin_of_texts()
    yield spec()
    for it in range(n):
        yield event(BEGIN + it % DAY, f"{begin}{it:08d}")
    yield groups(limitSpec={"type": "default", "limit": 1})
    yield f"seal {instant(1)}"
    yield f"publish {instant(1)} 0 1"
    yield groups(limitSpec={"type": "default", "limit": 1})


def apart(n):
    yield spec(rollup=False)
    for it in range(n):
        yield event(BEGIN)
    yield f"seal {instant(1)}"
    yield f"publish {instant(1)} 0 1"
    yield series()


def falling(n):
    yield spec()
    for it in range(n):
        yield event(BEGIN + DAY - 1 - it % DAY, f"{10**9 - it}")
    yield f"seal {instant(1)}"
    yield f"publish {instant(1)} 0 1"
    yield groups(limitSpec={"type": "default", "columns": ["page"], "limit": 3})


def scan_of_all(n):
    yield spec()
    for it in range(n):
        yield event(BEGIN + it % DAY, f"{it:08d}")
    for more in ({}, {"order": "descending"}, {"order": "descending", "limit": 10}, {"batchSize": 1}):
        yield "query " + compact({"queryType": "scan", "dataSource": "w", "intervals": ALWAYS} | more)


INPUTS = {
    "chunks of a second, rising": (chunks("rising"), 1000000),
    "chunks of a second, falling": (chunks("falling"), 1000000),
    "chunks of a second, in random order": (chunks("random"), 1000000),
    "64 dimensions, 64 metrics, a chunk for each event": (wide, 20000),
    "maxRowsInMemory 1": (seals, 1000000),
    "rows under 9,601 intervals and 20 aggregations, open and sealed": (many_intervals, 86400),
    "pairs of an event and a pin that is kept, 1,000 open rows": (kept_pins, 3000),
    "pins of 100,000 chunks, none changed": (pins_of_many_chunks, 300),
    "pairs of an event and a query, 100,000 open rows": (query_after_event, 3000),
    "a query of open rows in one chunk": (query_of_open_rows, 1000000),
    "like, of so many characters, with a gap behind each second letter of the pattern": (like_gapped, 1000000),
    "like, of so many characters, with a piece with gaps among short pieces": (like_gapped_among, 999999),
    "like, of so many characters, with a piece with a gap that fails by the letter that is asked last": (like_gapped_late, 1000000),
    "like, of so many characters and half as many in the pattern": (like_long, 100000),
    "rows under an or of 17,000 selectors": (long_or, 100000),
    "rows under an or of 15,000 ins of one value": (asked_of_texts(LONG_OR_OF_INS), 100000),
    "rows under an or of 14,000 bounds": (asked_of_texts(LONG_OR_OF_BOUNDS), 100000),
    "rows under an and of 12,000 selectors that don't hold": (asked_of_texts(LONG_AND_OF_NOTS), 100000),
    "rows under an and of 11,000 bounds that don't hold": (asked_of_texts(LONG_AND_OF_DENIED_BOUNDS), 100000),
    "rows under an and of 17,000 selectors": (asked_of_texts(LONG_AND_OF_SELECTORS), 100000),
    "rows under an or of 8,000 intervals": (asked_of_texts(LONG_OR_OF_INTERVALS), 100000),
    "rows under an and of 8,000 intervals": (asked_of_texts(LONG_AND_OF_INTERVALS), 100000),
    "rows under an or of 6,500 ors of two selectors": (asked_of_texts(ORS_OF_AN_OR), 100000),
    "rows under an and of 6,500 ors of two selectors of one dimension": (asked_of_texts(ORS_OF_ONE_DIMENSION), 100000),
    "rows under an and of 5,000 ors of three forms of one dimension": (asked_of_texts(ORS_OF_RANGES), 100000),
    "rows under an and of 6,500 ors of which one names no column": (asked_of_texts(ORS_OF_NO_COLUMN), 100000),
    "rows under an and of 4,400 ors of an interval and one that is denied": (asked_of_texts(ORS_OF_TIMES), 100000),
    "rows under 60 levels of and and or over an in of 120,000 values": (asked_of_texts(LEVELS_OF_ONE_DIMENSION), 100000),
    "rows under an or of 15,000 likes without % and _": (likes("x"), 100000),
    "rows under an or of 15,000 likes of a beginning": (likes("x%"), 100000),
    "rows under an or of 15,000 likes of an end": (likes("%x"), 100000),
    "rows under an or of 15,000 likes of a part": (likes("%x%"), 100000),
    "rows under an or of 5,500 ands of two selectors": (pairs, 100000),
    "rows under an and of 5,500 ors of two selectors of two dimensions": (two_dimensions(every(ORS_OF_TWO_DIMENSIONS)), 100000),
    "rows under an and of 5,000 ors of an in and a selector of two dimensions": (two_dimensions(every(ORS_OF_AN_IN)), 100000),
    "rows under an and of 3,000 ors of three ranges of two dimensions": (two_dimensions(every(RANGES_OF_TWO_DIMENSIONS)), 100000),
    "rows under an or of 4,500 ands of two ranges of two dimensions": (two_dimensions(one_of(*DENIED_RANGES)), 100000),
    "rows under an or of 5,700 ands of one selector and an interval": (windows, 100000),
    "rows with a text of each of 5,500 ands of an in and a selector, under their or": (with_text, 100000),
    "rows under an or of 5,000 ands of an in and a selector, and one that all but one in 1,030 meet": (few_left(1030), 100000),
    "rows under an or of 5,000 ands of an in and a selector, and one that all but one in 200 meet": (few_left(200), 100000),
    "rows under an or of 5,700 ands of an interval and a selector of two dimensions in turn": (by_turns, 100000),
    "rows under an or of 4,500 ands of two selectors, all the same, and an interval": (ranked(4500, 2, 1), 100000),
    "rows under an or of 4,500 ands of two selectors of 67 each and an interval": (ranked(4500, 2, 67), 100000),
    "rows under an or of 2,000 ands of seven selectors of three each and an interval": (ranked(2000, 7, 3), 100000),
    "rows under an or of 320 ands of 60 selectors, all the same, and an interval": (ranked(320, 60, 1), 20000),
    "rows under an or of 12,000 likes of nine letters and gaps": (likes_of_gaps("________", ""), 100000),
    "rows under an or of 12,000 likes of a beginning with gaps": (likes_of_gaps("", "%"), 100000),
    "rows under an or of 12,000 likes of an end with gaps": (likes_of_gaps("%", ""), 100000),
    "rows under an or of 12,000 likes of a part with gaps": (likes_of_gaps("%", "%"), 100000),
    "rows under an or of 12,000 likes of a part with gaps whose first letter fails": (likes_of_gaps("%", "%", "2"), 100000),
    "rows of 300 letters under an or of 2,800 likes of as many and gaps": (likes_of_long_texts("", "", letters=299, patterns=2800), 10000),
    "rows of 300 letters under an or of 12,000 likes of a beginning with gaps": (likes_of_long_texts("", "%"), 10000),
    "rows of 300 letters under an or of 12,000 likes of an end with gaps": (likes_of_long_texts("%", ""), 10000),
    "rows of 300 letters under an or of 12,000 likes of a part with gaps": (likes_of_long_texts("%", "%"), 10000),
    "rows of 300 letters under an or of 12,000 likes of a part with gaps whose first letter fails": (likes_of_long_texts("%", "%", "2"), 10000),
    "rows of 300 letters under an or of 12,000 likes of a part, five of 22 letters that all have": (likes_of_common_letters(22, 5, 12000, 50), 10000),
    "rows of 300 letters under an or of 9,000 likes of a part, 14 of 60 letters that all have": (likes_of_common_letters(60, 14, 9000, 50), 10000),
    "rows of 300 letters under an or of 4,000 likes of a part, 100 of 200 letters that nearly all have": (likes_of_common_letters(200, 100, 4000, 95), 10000),
    "rows of 300 letters under an or of 16,000 likes of a part, 13 of 14 letters": (likes_of_common_letters(14, 13, 16000, 50), 10000),
    "rows of 300 letters under an or of 17,500 likes of two parts of three letters": (likes_of_parts(2, 3, 17500), 10000),
    "rows of 300 letters under an or of 15,500 likes of two parts of seven letters": (likes_of_parts(2, 7, 15500), 10000),
    "rows of 300 letters under an or of 8,000 likes of twenty parts of two letters": (likes_of_parts(20, 2, 8000), 10000),
    "rows of 300 letters under an or of 2,800 likes of seventy parts of two letters": (likes_of_parts(70, 2, 2800), 10000),
    "rows of 300 letters under an or of 8,000 likes of twenty parts of two letters, of which each row lacks the first alone": (likes_but_for_one_part(19, 8000), 10000),
    "rows of 300 letters under an or of 5,000 likes of 76 parts, all but the first of one letter, of which each row lacks the first alone": (likes_but_for_one_part(75, 5000, letters=1), 10000),
    "rows of 300 letters of 70 kinds, each rare, under an or of 13,000 likes of seven parts, of which each row lacks the first alone": (likes_of_rare_letters(LATIN[:70], 6, 13000), 10000),
    "rows of 300 letters of 50 kinds under an or of 5,000 likes of 76 parts, all but the first of one letter, of which one row lacks the first alone": (likes_of_one_row(LATIN[:50], 75, 5000), 10000),
    "rows of 1,020 letters of 50 kinds under an or of 1,000 likes of 76 parts, all but the first of one letter, of which one row lacks the first alone": (likes_of_one_row(LATIN[:50], 75, 1000, 1020), 4100),
    "few rows of 1,020 letters of 50 kinds under an or of 1,000 likes of 76 parts, all but the first of one letter, of which one row lacks the first alone": (likes_of_one_row(LATIN[:50], 75, 1000, 1020), 1030),
    "rows of 500 letters of 20 kinds under an or of 1,400 likes of 320 parts of a letter, as they stand in a row, and of one more": (likes_of_own_parts(LATIN[:20], 320, 1, 1400, 500), 200),
    "rows of 500 letters of three kinds under an or of 4,000 likes of 60 parts of two letters, as they stand in a row, and of one more": (likes_of_own_parts(LATIN[:3], 60, 2, 4000, 500), 2000),
    "rows of 2,000 letters of 20 kinds under an or of 7,000 likes of 40 parts of a letter, as they stand in a row, and of one more": (likes_of_own_parts(LATIN[:20], 40, 1, 7000, 2000), 500),
    "rows of 300 letters of 70 kinds, each rare, under an or of 11,000 likes of seven parts of two letters": (likes_of_rare_pairs(LATIN[:70], 7, 11000), 10000),
    "rows of 80 letters of 140 kinds, each rare, under an or of 11,000 likes of seven parts, of which each row lacks the first alone": (likes_of_rare_letters(HAN[:140], 6, 11000, 80), 16000),
    "rows of 80 letters of 20,000 kinds under an or of 11,000 likes of seven parts": (likes_of_rare_letters(HAN, 6, 11000, 80), 16000),
    "rows of 300 letters with runs of 20 under an or of 10,000 likes of two runs with a gap": (likes_of_long_runs(300, 20, 10000), 10000),
    "rows of 4,000 letters with runs of 250 under an or of 1,800 likes of two runs with a gap": (likes_of_long_runs(4000, 250, 1800), 100),
    "rows of 4,000 letters with runs of 20 under an or of 10,000 likes of two runs with a gap": (likes_of_long_runs(4000, 20, 10000), 100),
    "rows of 4,000 letters under an or of 4,000 likes of 101 parts, all but the last of one letter, of which each row lacks the last alone": (likes_but_for_one_part(100, 4000, letters=1, length=4000, last=True), 100),
    "rows of 4,000 letters under an or of 800 likes of 601 parts, all but the last of one letter, of which each row lacks the last alone": (likes_but_for_one_part(600, 800, letters=1, length=4000, last=True), 100),
    "rows of 100,000 letters under an or of 17,000 likes of two parts, of which each row lacks the first": (likes_but_for_one_part(0, 17000, length=100000), 10),
    "rows of 300 letters under a like of 1,000,000 runs and three letters": (likes_of_runs(1, 1000000), 10000),
    "rows of 300 letters under an or of 32 likes of 32,000 runs and three letters": (likes_of_runs(32, 32000), 10000),
    "rows of 64 dimensions, one value in 15 of 100 letters, under an or of 33 likes of each": (likes_of_many_dimensions(100), 16384),
    "rows of 64 dimensions, one value in 15 of 512 letters, under an or of 33 likes of each": (likes_of_many_dimensions(512), 16384),
    "rows under an and of 15,000 likes of six kinds": (likes_of_each, 100000),
    "rows of 800 bytes under an and of 2,000 likes of growing texts": (likes_of_growing, 20000),
    "groups under a having that is an and of 7,500 ors of two comparisons": (asked_of_texts(ANDS_OF_A_HAVING), 100000),
    "groups under a having that is an or of 5,000 ors of two comparisons": (asked_of_texts(ORS_OF_A_HAVING), 100000),
    "groups under a having that is an or of 7,400 ands of a dimension value and a comparison": (asked_of_texts(HAVING_OF_PAIRS), 100000),
    "groups under a having that is an or of 4,900 ands of two dimension values and a comparison": (of_two, 100000),
    "groups under nests of 5,000 comparisons of two sums": (of_two_sums, 100000),
    "ranges of one row under nests of two dimensions": (asked_apart, 100000),
    "rows under an and of 5,000 ors of an interval and a selector": (stretches, 100000),
    "groups under a having of 9,990 comparisons that don't hold": (asked_of_texts(LONG_HAVING_OF_DENIED), 100000),
    "groups under a having of 14,000 comparisons": (long_having, 100000),
    "groups under a having of 17,000 dimension values": (asked_of_texts(LONG_HAVING_OF_TEXTS), 100000),
    "groups ordered by one column 240,000 times": (order_columns, 100000),
    "rows under 19,000 aggregations, one selected": (many_outputs, 100000),
    "rows under 19,000 aggregations, all selected": (asked_of_texts(MANY_SUMS), 100000),
    "rows of one group by 16,000 outputs of one dimension": (asked_of_texts(ONE_DIMENSION_OFTEN), 100000),
    "groups by one column and 100,000 names of none, one given": (distinct_pages(NO_COLUMNS_ONE_GIVEN), 100000),
    "groups of 9,000 equal aggregations, each compared, one given": (distinct_pages(MANY_COMPARED), 100000),
    "groups ordered by the last of 14,000 outputs 60,000 times": (asked_of_texts(LAST_COUNT_OFTEN), 1000),
    "a spec of so many dimensions": (long_spec, 174000),
    "published ranges of one row under 9,601 intervals": (published_apart, 100000),
    "a seal and a merge with what was there, each event": (merges, 2000),
    "plans of 100 ranges": (plans, 20000),
    "equal rows that stay apart, sealed and published": (apart, 1000000),
    "falling times and values, sealed, published and grouped": (falling, 1000000),
    "rows whose keys hash alike, grouped": (rows_alike, 20000),
    "rows under an in of 24,000 texts that hash alike": (values_alike, 100000),
    "rows of values that hash alike, published, grouped": (published_alike, 100000),
    "events of 24,000 names that hash alike": (names_alike, 20),
    "groups of 7,000 outputs whose names hash alike": (outputs_alike, 1000),
    "scans of all, by order, by batches of 1": (scan_of_all, 300000),
}


# What a process holds when it starts a program counts as the peak of that program too, so a small one starts it, and tells its
# status, its seconds of a processor and its peak.
STARTER = """
import os, sys
_, status, used = os.wait4(os.spawnv(os.P_NOWAIT, sys.argv[2], sys.argv[2:]), 0)
print(os.waitstatus_to_exitcode(status), used.ru_utime + used.ru_stime, used.ru_maxrss, file=os.fdopen(int(sys.argv[1]), "w"))
"""


def measure(program, lines):
    """The seconds of a processor, the megabytes at the peak, what was written, and the status."""
    end, told = os.pipe()
    words = [sys.executable, "-SI", "-c", STARTER, str(told), program, "run"]
    ran = subprocess.Popen(words, stdin=subprocess.PIPE, stdout=subprocess.PIPE, pass_fds=[told])
    os.close(told)
    count = [0, b""]

    def read():
        while piece := ran.stdout.read(1 << 16):
            count[0] += len(piece)
            count[1] = (count[1] + piece)[-60:]

    reader = threading.Thread(target=read)
    reader.start()
    try:
        with ran.stdin as it:
            batch = []
            for line in lines:
                batch.append(line)
                if len(batch) == 1000:
                    it.write(("\n".join(batch) + "\n").encode())
                    batch = []
            it.write(("\n".join(batch) + "\n").encode())
    except BrokenPipeError:
        pass
    reader.join()
    ran.wait()
    with os.fdopen(end) as it:
        status, seconds, peak = it.read().split()
    return float(seconds), int(peak) / 1024, count, status


def main():
    words = argparse.ArgumentParser(description=__doc__, formatter_class=argparse.RawDescriptionHelpFormatter)
    words.add_argument("program")
    words.add_argument("--only", default="")
    words.add_argument("--share", type=float, default=1)
    asked = words.parse_args()
    for name, (lines, count) in INPUTS.items():
        if asked.only in name:
            count = int(count * asked.share)
            seconds, megabytes, written, status = measure(asked.program, lines(count))
            last = written[1].decode(errors="replace").strip().split("\n")[-1]
            print(f"| {count:,} | {name} | {seconds:.2f} | {megabytes:.0f} | {written[0]:,} bytes, status {status}, ends {last[-40:]!r}", flush=True)


if __name__ == "__main__":
    main()
