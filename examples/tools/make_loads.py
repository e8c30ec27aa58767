"""Writes the cases cases/load_answers_*: three files of events and lines that are none, loaded by one, two and four workers, and the same
lines one file after the other as a script, whose counts and answer by answers.py the loads have to print too.

Run it in the folder examples: python3 tools/make_loads.py
"""

import json
import os
from random import Random

import answers

START = 1704067200000
BROKEN = ["", "rotated", "[1]", '{"page":"A"}', '{"t":"x","page":"A"}', '{"t":0,"page":["A"]}', '{"t":0,"a":1.5}']


def compact(value):
    return json.dumps(value, ensure_ascii=False, separators=(",", ":"))


def spec():
    metrics = [{"type": "count", "name": "n"}, {"type": "longSum", "name": "added", "fieldName": "a"}, {"type": "longMin", "name": "lo", "fieldName": "a"}]
    schema = {"dataSource": "w", "timestampSpec": {"column": "t", "format": "millis"}, "dimensionsSpec": {"dimensions": ["page", "lang"]}, "metricsSpec": metrics}
    return {"dataSchema": schema | {"granularitySpec": {"segmentGranularity": "day", "queryGranularity": "hour"}}, "tuningConfig": {"maxRowsInMemory": 5}}


def query():
    sums = [{"type": "longSum", "name": "events", "fieldName": "n"}, {"type": "longSum", "name": "added", "fieldName": "added"}, {"type": "longMin", "name": "lo", "fieldName": "lo"}]
    columns = ["lang", {"dimension": "added", "direction": "descending"}]
    base = {"queryType": "groupBy", "dataSource": "w", "intervals": "2024-01-01/2024-01-04", "granularity": "day", "aggregations": sums}
    wanted = {"filter": {"type": "not", "field": {"type": "selector", "dimension": "page", "value": "D"}}, "dimensions": ["page", "lang"]}
    return base | wanted | {"limitSpec": {"type": "default", "columns": columns, "limit": 20, "offset": 2}}


def lines(number):
    random, found = Random(number), []
    for _ in range(120):
        event = {"t": START + random.randrange(3 * 86400000), "page": random.choice("ABCD"), "lang": random.choice(["en", "de", None]), "a": random.choice([0, 1, 5, -7])}
        found.append(compact(event) if random.random() < 0.9 else random.choice(BROKEN))
    return found


def main():
    files = {f"file{it}": lines(it) for it in range(3)}
    every = [it for name in files for it in files[name]]
    script = [compact(spec())] + ["+ " + it if it else "+" for it in every] + ["stats", "query " + compact(query())]
    given = "".join(it + "\n" for it in script).encode()
    output, status = answers.run(given)
    assert status == 0
    answers.write("cases/load_answers_as_this_run_does.script", given)
    answers.write("cases/load_answers_as_this_run_does.out", output)
    told = b"".join(output.splitlines(True)[-2:])
    for workers, word in ((1, "one_worker"), (2, "two_workers"), (4, "four_workers")):
        base = f"cases/load_answers_by_{word}"
        os.makedirs(base + ".files", exist_ok=True)
        for name, found in files.items():
            answers.write(f"{base}.files/{name}", "".join(it + "\n" for it in found).encode())
        answers.write(f"{base}.files/spec.json", (json.dumps(spec(), indent=1) + "\n").encode())
        answers.write(f"{base}.files/query.json", (json.dumps(query(), indent=1) + "\n").encode())
        answers.write(base + ".args", "".join(it + "\n" for it in ["load", "--workers", str(workers), "spec.json", "query.json", *files]).encode())
        answers.write(base + ".out", told)


main()
