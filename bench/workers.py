#!/usr/bin/env python3
"""Times queries over published ranges by 1, 2 and 4 workers: `bench/workers.py PROGRAM [EVENTS]`.

A day of made-up page edits (five dimensions, six metrics) is cut into 24 ranges of an hour, and again into 96 of a quarter of an hour;
each range is sealed and published. Then two queries are asked, one at a time: a timeseries by hour with five aggregations, and a groupBy
with a filter, ordered and limited. Of each the median of the times from the write of its line to the end of its answer is told, in
milliseconds, with how many times faster than with one worker that is, and what an answer takes of all processors together, which
depends less on what else the machine does. The answers have to be the same. Then the same over 24 ranges of which
the first has nine tenths of the events, since a worker's share is a share of the ranges and not of the rows. Last, what a thread costs: over
ranges of one row each, where there is next to nothing to do, in microseconds for each worker.
"""
import json
import os
import random
import statistics
import subprocess
import sys
import threading
import time

WORKERS = (1, 2, 4)
RUNS = 21
DAY = 1_704_067_200
SUMS = ("added", "removed", "delta", "views")

QUERIES = {
    "timeseries": {
        "queryType": "timeseries", "dataSource": "edits", "intervals": ["2024-01-01/2024-01-02"], "granularity": "hour",
        "aggregations": [{"type": "longSum", "name": it, "fieldName": it} for it in ("n", "added", "removed")]
        + [{"type": "longMin", "name": "least", "fieldName": "least"}, {"type": "longMax", "name": "most", "fieldName": "most"}],
    },
    "groupBy": {
        "queryType": "groupBy", "dataSource": "edits", "intervals": ["2024-01-01/2024-01-02"], "granularity": "all", "dimensions": ["page"],
        "filter": {"type": "not", "field": {"type": "selector", "dimension": "kind", "value": "bot"}},
        "aggregations": [{"type": "longSum", "name": it, "fieldName": it} for it in ("n", "added")],
        "limitSpec": {"type": "default", "limit": 10, "columns": [{"dimension": "added", "direction": "descending"}]},
    },
}


def spec_of(granularity):
    metrics = [{"type": "count", "name": "n"}] + [{"type": "longSum", "name": it, "fieldName": it} for it in SUMS[:3]]
    metrics += [{"type": "longMin", "name": "least", "fieldName": "added"}, {"type": "longMax", "name": "most", "fieldName": "added"}]
    return {
        "dataSchema": {
            "dataSource": "edits", "timestampSpec": {"column": "t", "format": "posix"},
            "dimensionsSpec": {"dimensions": ["page", "lang", "kind", "user", "city"]}, "metricsSpec": metrics,
            "granularitySpec": {"segmentGranularity": granularity, "queryGranularity": "minute"},
        },
        "tuningConfig": {"maxRowsInMemory": 1048576},
    }


def second_of(i, count, uneven):
    """The second of the day of an event; uneven: of the first nine tenths of them within the first hour."""
    first = count * 9 // 10
    if not uneven:
        return i * 86400 // count
    return i * 3600 // first if i < first else 3600 + (i - first) * 82800 // (count - first)


def events(count, uneven):
    pick = random.Random(7)
    for i in range(count):
        yield {
            "t": DAY + second_of(i, count, uneven), "page": f"page {int(pick.paretovariate(0.9)) % 5000}", "lang": f"l{pick.randrange(30)}",
            "kind": pick.choice(("user", "user", "user", "bot")), "user": f"u{pick.randrange(200)}", "city": f"c{pick.randrange(8)}",
            "added": pick.randrange(2000), "removed": pick.randrange(500), "delta": pick.randrange(-500, 1500),
        }


def script(granularity, seconds, count, uneven):
    lines = [json.dumps(spec_of(granularity))]
    lines += ["+ " + json.dumps(it, separators=(",", ":")) for it in events(count, uneven)]
    for at in range(DAY, DAY + 86400, seconds):
        text = time.strftime("%Y-%m-%dT%H:%M:%SZ", time.gmtime(at))
        lines += [f"seal {text}", f"publish {text} 0 1"]
    return ("\n".join(lines) + "\n").encode(), len(lines)


class Program:
    """A run of the program, fed with a script."""

    def __init__(self, path, fed, replies, workers):
        self.it = subprocess.Popen([path, "run", "--workers", str(workers)], stdin=subprocess.PIPE, stdout=subprocess.PIPE)
        feeder = threading.Thread(target=lambda: (self.it.stdin.write(fed), self.it.stdin.flush()))
        feeder.start()
        for _ in range(replies):
            line = self.it.stdout.readline()
            assert line and not line.startswith(b"refused"), line
        feeder.join()

    def ask(self, query, runs):
        """The seconds of each run, and the answer."""
        line, took = b"query " + json.dumps(query).encode() + b"\n", []
        for _ in range(runs):
            began = time.perf_counter()
            self.it.stdin.write(line)
            self.it.stdin.flush()
            answer = self.it.stdout.readline()
            took.append(time.perf_counter() - began)
        return took, answer

    def processors(self):
        """The seconds that all its threads had of processors."""
        with open(f"/proc/{self.it.pid}/stat", encoding="ascii") as it:
            words = it.read().rpartition(")")[2].split()
        return (int(words[11]) + int(words[12])) / os.sysconf("SC_CLK_TCK")

    def end(self):
        self.it.stdin.close()
        self.it.wait()


def measure(path, granularity, seconds, count, runs, workers, uneven=False):
    """For each query the median of the seconds by each number of workers, and the seconds of processors."""
    fed, replies = script(granularity, seconds, count, uneven)
    programs = {it: Program(path, fed, replies, it) for it in workers}
    found = {}
    for name, query in QUERIES.items():
        took, answers, before = {it: [] for it in workers}, set(), {it: programs[it].processors() for it in workers}
        for _ in range(runs):  # in turn, so that what else the machine does falls on all
            for it in workers:
                seconds_of, answer = programs[it].ask(query, 1)
                took[it] += seconds_of
                answers.add(answer)
        assert len(answers) == 1 and next(iter(answers)).startswith(b"["), [it[:200] for it in answers]
        found[name] = {it: (statistics.median(took[it]), (programs[it].processors() - before[it]) / runs) for it in workers}
    for it in programs.values():
        it.end()
    return found


def main():
    path, count = sys.argv[1], int(sys.argv[2]) if len(sys.argv) > 2 else 1_000_000
    print(f"{count} events, {os.cpu_count()} processors, load {os.getloadavg()[0]:.1f}")
    kinds = (("24", "hour", 3600, False), ("96", "fifteen_minute", 900, False), ("24 uneven", "hour", 3600, True))
    for ranges, granularity, seconds, uneven in kinds:
        for name, took in measure(path, granularity, seconds, count, RUNS, WORKERS, uneven).items():
            told = "  ".join(f"{it}: {took[it][0] * 1e3:.1f} ms ({took[1][0] / took[it][0]:.2f}), {took[it][1] * 1e3:.1f} of processors" for it in WORKERS)
            print(f"{name} over {ranges} published ranges, by workers  {told}", flush=True)
    few = measure(path, "hour", 3600, 24, 1001, (1, 2, 4, 8, 16))["timeseries"]
    costs = "  ".join(f"{it}: {(few[it][0] - few[1][0]) / it * 1e6:.0f}, {(few[it][1] - few[1][1]) / it * 1e6:.0f} of processors" for it in few if it > 1)
    print(f"one row a range: {few[1][0] * 1e6:.0f} µs by one worker; µs for each thread, by workers  {costs}; load {os.getloadavg()[0]:.1f}")


if __name__ == "__main__":
    main()
