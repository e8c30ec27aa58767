#!/usr/bin/env python3
"""Five kinds of logs, asked while they come and afterwards, each answer beside the audit's and beside SQLite's.

    python3 bench/logs.py PROGRAM [--events N] [--folder FOLDER]

The kinds: many events to a row, none to a row, one hot key, late events over many chunks, and rows that aren't rolled up. Of each
kind a script is run in which events come beside seals, merges and publications, and the queries are asked after each tenth of the
events, by `query`, `audit` and over a pin that is asked at the end; then the same events are loaded from one file and from three,
with one worker and with three, once for each query. SQLite answers by SQL over a table of the raw events. It ends with 1 where
two answers differ. It is no part of the gate.
"""
import argparse
import json
import os
import sqlite3
import subprocess
import sys
import tempfile
from datetime import datetime, timedelta, timezone
from random import Random

HOUR, DAY = 3600000, 86400000
BEGIN = 1704067200000  # 2024-01-01T00:00Z
PAGES = ["Ada", "Bash", "Caf\u00e9", "Druid", "", 'say "hi"', "\U0001f600", "z%"]


def instant(millis):
    at = datetime(1970, 1, 1, tzinfo=timezone.utc) + timedelta(milliseconds=millis)
    return at.strftime("%Y-%m-%dT%H:%M:%S.") + f"{at.microsecond // 1000:03d}Z"


def compact(value):
    return json.dumps(value, ensure_ascii=False, sort_keys=True, separators=(",", ":"))


class Log:
    """A kind of log: its spec, and how an event of it is made."""

    def __init__(self, name, segment, query, rollup=True, days=2, rows=5000):
        self.name, self.segment, self.query, self.rollup, self.days, self.rows = name, segment, query, rollup, days, rows

    def spec(self):
        columns = [("count", "events", None), ("longSum", "bytes", "bytes"), ("longMin", "quickest", "ms"), ("longMax", "slowest", "ms")]
        metrics = [{"type": kind, "name": name} | ({"fieldName": field} if field else {}) for kind, name, field in columns]
        schema = {"dataSource": "log", "timestampSpec": {"column": "t", "format": "millis"}}
        schema |= {"dimensionsSpec": {"dimensions": ["page", "user", "country"]}, "metricsSpec": metrics}
        schema["granularitySpec"] = {"segmentGranularity": self.segment, "queryGranularity": self.query, "rollup": self.rollup}
        return {"dataSchema": schema, "tuningConfig": {"maxRowsInMemory": self.rows}}

    def events(self, count):
        random = Random(self.name)
        for number in range(count):
            at = BEGIN + self.days * DAY * number // count
            page, user = random.choice(PAGES), f"u{random.randrange(20)}"
            if self.name == "many events to a row":
                page, user = PAGES[number % 3], "u0"
            if self.name == "no two events to a row":
                user = f"u{number}"
            if self.name == "one hot key" and random.random() < 0.9:
                page, user = "Druid", "u7"
            if self.name == "late events":
                at = BEGIN + random.randrange(self.days * DAY)
            event = {"t": at, "page": page, "user": user, "country": random.choice(["FR", "DE", None])}
            event |= {"bytes": random.randrange(-5, 100000), "ms": random.randrange(1, 900)}
            if random.random() < 0.05:
                del event[random.choice(["page", "country", "bytes", "ms"])]
            yield event


LOGS = [
    Log("many events to a row", "day", "hour"),
    Log("no two events to a row", "hour", "minute"),
    Log("one hot key", "hour", "minute"),
    Log("late events", "hour", "minute", days=40, rows=300),
    Log("rows that aren't rolled up", "day", "none", rollup=False),
]

SUMS = {"bytes": ("longSum", "bytes", "sum"), "events": ("longSum", "events", "count"), "quickest": ("longMin", "quickest", "min"), "slowest": ("longMax", "slowest", "max")}
EMPTY = {"bytes": 0, "events": 0, "quickest": 2**63 - 1, "slowest": -(2**63)}
OF_SQL = {"bytes": "sum(bytes)", "events": "count(*)", "quickest": "min(ms)", "slowest": "max(ms)"}
FILTERS = [
    (None, "1"),
    ({"type": "selector", "dimension": "country", "value": "FR"}, "country = 'FR'"),
    ({"type": "in", "dimension": "page", "values": ["Ada", "Caf\u00e9", "\U0001f600"]}, "page in ('Ada', 'Caf\u00e9', '\U0001f600')"),
    ({"type": "bound", "dimension": "page", "lower": "B", "upper": "z", "upperStrict": True}, "page >= 'B' and page < 'z'"),
    ({"type": "not", "field": {"type": "like", "dimension": "user", "pattern": "%7%"}}, "not instr(user, '7')"),
    ({"type": "or", "fields": [{"type": "selector", "dimension": "page", "value": None}, {"type": "selector", "dimension": "user", "value": "u0"}]}, "(page = '' or user = 'u0')"),
]
STEPS = {"hour": HOUR, "day": DAY}


class Asked:
    """A query, as JSON and as SQL."""

    def __init__(self, kind, granularity, filter, hours, names, more=(), dimensions=(), having=None, order=None, limit=None):
        self.kind, self.granularity, self.where, self.names, self.dimensions = kind, granularity, filter[1], names, list(dimensions)
        self.having, self.order, self.limit, self.more = having, order, limit, dict(more)
        self.begin, self.end = BEGIN + hours[0] * HOUR, BEGIN + hours[1] * HOUR
        query = {"queryType": kind, "dataSource": "log", "intervals": [f"{instant(self.begin)}/{instant(self.end)}"], "granularity": granularity}
        query["aggregations"] = [{"type": SUMS[it][0], "name": it, "fieldName": SUMS[it][1]} for it in names]
        if filter[0]:
            query["filter"] = filter[0]
        if kind == "groupBy":
            query["dimensions"] = self.dimensions
            if having:
                query["having"] = {"type": "greaterThan", "aggregation": having[0], "value": having[1]}
            if order or limit is not None:
                columns = [{"dimension": name, "direction": way} for name, way in order or []]
                query["limitSpec"] = {"type": "default", "columns": columns} | ({"limit": limit} if limit is not None else {})
        elif limit is not None:
            query["limit"] = limit
        self.text = compact(query | self.more)

    def bucket(self):
        step = STEPS.get(self.granularity)
        return f"(t / {step} * {step})" if step else str(self.begin)

    def answer(self, database):
        """What SQLite makes of the events that are in its table."""
        folds = ", ".join(OF_SQL[it] for it in self.names)
        keys = ", ".join([self.bucket(), *self.dimensions])
        where = f"t >= {self.begin} and t < {self.end} and {self.where}"
        found = database.execute(f"select {keys}, {folds} from events where {where} group by {keys}").fetchall()
        width = 1 + len(self.dimensions)
        rows = [(row[:width], dict(zip(self.names, row[width:]))) for row in found]
        return self.series(database, rows) if self.kind == "timeseries" else self.groups(rows)

    def series(self, database, rows):
        (first, last), step = database.execute("select min(t), max(t) from events").fetchone(), STEPS.get(self.granularity)
        told = {key[0]: values for key, values in rows}
        starts = [self.begin]
        if first is None:
            starts = []
        elif step:
            starts = [it for it in range(first // step * step, last + 1, step) if it < self.end and it + step > self.begin]
        elif not (first < self.end and last >= self.begin):
            starts = []
        if self.more.get("context", {}).get("skipEmptyBuckets"):
            starts = [it for it in starts if it in told]
        if self.more.get("descending"):
            starts.reverse()
        empty = {it: EMPTY[it] for it in self.names}
        answers = [{"timestamp": instant(it), "result": told.get(it, empty)} for it in starts]
        return compact(answers[: self.limit])

    def groups(self, rows):
        if self.having:
            rows = [it for it in rows if it[1][self.having[0]] > self.having[1]]
        rows.sort(key=lambda it: (it[0][0], [text.encode() for text in it[0][1:]]))
        for name, way in reversed(self.order or []):
            value = (lambda it: it[1][name]) if name in self.names else (lambda it: it[0][1 + self.dimensions.index(name)].encode())
            rows.sort(key=value, reverse=way == "descending")
        told = [{"version": "v1", "timestamp": instant(key[0]), "event": dict(zip(self.dimensions, (it or None for it in key[1:]))) | values} for key, values in rows]
        return compact(told[: self.limit])


def queries(days):
    everything, all_names = (0, days * 24), list(SUMS)
    for number, filter in enumerate(FILTERS):
        yield Asked("timeseries", ["hour", "day", "all"][number % 3], filter, everything, all_names)
        yield Asked("groupBy", ["all", "day"][number % 2], filter, everything, ["events", "bytes"], dimensions=["page"])
    yield Asked("timeseries", "hour", FILTERS[0], (5, 29), all_names, more={"descending": True}, limit=7)
    yield Asked("timeseries", "hour", FILTERS[1], (3, 20), ["bytes"], more={"context": {"skipEmptyBuckets": True}})
    yield Asked("groupBy", "day", FILTERS[0], (2, 30), ["events", "slowest"], dimensions=["page", "country"], having=("events", 3))
    yield Asked("groupBy", "all", FILTERS[4], everything, ["bytes", "quickest"], dimensions=["country", "page"], order=[("bytes", "descending"), ("page", "ascending")], limit=5)
    yield Asked("groupBy", "all", FILTERS[0], everything, ["events"], dimensions=["user"], order=[("events", "descending"), ("user", "ascending")], limit=10)


class Table:
    """The raw events as a table of SQLite."""

    def __init__(self):
        self.database = sqlite3.connect(":memory:")
        self.database.execute("create table events (t integer, page text, user text, country text, bytes integer, ms integer)")

    def add(self, log, event):
        # a bucket is of the truncated time, and the buckets asked for are never finer
        dims = [event.get(it) or "" for it in ("page", "user", "country")]
        self.database.execute("insert into events values (?, ?, ?, ?, ?, ?)", [event["t"], *dims, event.get("bytes", 0), event.get("ms", 0)])


def run(log, events, program, tell):
    """Events beside seals, merges and publications, and queries after each tenth."""
    random, lines, wanted = Random(1), [compact(log.spec())], [None]
    asked, table, chunk = list(queries(log.days)), Table(), HOUR if log.segment == "hour" else DAY

    def say(line, answer=None):
        lines.append(line)
        wanted.append(answer)

    pins = []
    for number, event in enumerate(events):
        say("+ " + compact(event))
        table.add(log, event)
        if random.random() < 0.001:
            at = instant(event["t"] // chunk * chunk)
            say(random.choice([f"seal {at}", f"merge {at} 0 1", f"merge {at} 0 2", f"publish {at} 0 1", f"publish {at} 0 2"]))
        if (number + 1) % max(len(events) // 10, 1) == 0:
            say("pin")
            pins.append([it.answer(table.database) for it in asked])
            for query, answer in zip(asked, pins[-1]):
                say("query " + query.text, answer)
                say("audit " + query.text, answer)
    for place, told in enumerate(pins):
        for query, answer in zip(asked, told):
            say(f"at {place} {query.text}", answer)
    said = subprocess.run([program, "run"], input="\n".join(lines) + "\n", capture_output=True, text=True).stdout.split("\n")
    return sum(tell(log, line, answer, got) for line, answer, got in zip(lines, wanted, said + [""] * len(lines)) if answer is not None)


def load(log, events, program, folder, tell):
    """The same events from one file and from three, with one worker and with three."""
    table, failed = Table(), 0
    for event in events:
        table.add(log, event)
    at = lambda name: os.path.join(folder, name)
    with open(at("spec"), "w") as it:
        it.write(compact(log.spec()))
    for files in (1, 3):
        for place in range(files):
            with open(at(f"events{place}"), "w") as it:
                it.writelines(compact(event) + "\n" for event in events[place::files])
        for query in queries(log.days):
            with open(at("query"), "w") as it:
                it.write(query.text)
            for workers in ("1", "3"):
                words = [program, "load", "--workers", workers, at("spec"), at("query"), *[at(f"events{it}") for it in range(files)]]
                said = subprocess.run(words, capture_output=True, text=True).stdout.split("\n")
                failed += tell(log, " ".join(words), query.answer(table.database), (said + ["", ""])[1])
    return failed


def main():
    words = argparse.ArgumentParser(description=__doc__, formatter_class=argparse.RawDescriptionHelpFormatter)
    words.add_argument("program")
    words.add_argument("--events", type=int, default=20000)
    words.add_argument("--only", choices=["run", "load"])
    asked, compared, failed = words.parse_args(), 0, 0

    def tell(log, line, answer, got):
        nonlocal compared
        compared += 1
        if answer != got:
            print(f"{log.name}: {line[:300]}\n  SQLite:     {answer[:300]}\n  druid-node: {got[:300]}")
        return answer != got

    for log in LOGS:
        events = list(log.events(asked.events))
        with tempfile.TemporaryDirectory() as folder:
            if asked.only != "load":
                failed += run(log, events, asked.program, tell)
            if asked.only != "run":
                failed += load(log, events, asked.program, folder, tell)
        print(f"{log.name}: {compared} answers compared so far, {failed} differ", flush=True)
    return failed == 0


if __name__ == "__main__":
    sys.exit(0 if main() else 1)
