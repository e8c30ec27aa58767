"""Writes the scripts cases/members_in_*.script with their outputs: for each of some 60 JSON values an event that has it in one field,
which the time column reads, or a dimension, or a metric, or no column; and events in which that field stands twice, of which the
last counts. And members_in_any_order, whose events have their members now in one order and now in another, some twice and some of
names that no column reads.

Which texts are JSON, and what each of them spells, is told by hand below; what columns read of it is worked out here, by Python's
numbers and dates. Run it in the folder examples: python3 tools/make_members.py
"""

import json
from datetime import datetime, timedelta, timezone
from random import Random

SPEC = '{"dataSchema":{"dataSource":"w","timestampSpec":{"column":"t","format":"auto"},"dimensionsSpec":{"dimensions":["page","lang"]},'
SPEC += '"metricsSpec":[{"type":"count","name":"n"},{"type":"longSum","name":"added","fieldName":"a"}]}}'

# The last instant of an event, 9999-12-31T23:59:59.999Z.
LAST_INSTANT = 253402300799999
QUERY = 'query {"queryType":"timeseries","dataSource":"w","intervals":"0001-01-01/9999-12-31","granularity":"all","aggregations":['
QUERY += '{"type":"count","name":"rows"},{"type":"longSum","name":"added","fieldName":"added"}]}'

EPOCH = datetime(1970, 1, 1, tzinfo=timezone.utc)
FIRST, LAST = ((it.replace(tzinfo=timezone.utc) - EPOCH) // timedelta(milliseconds=1) for it in (datetime.min, datetime.max))

BROKEN, OTHER = "broken", "other"

# what is neither null nor a truth value nor a whole number nor a text
OTHERS = ["1.5", "-0", "-0.0", "1.0", "1e3", "1E+2", "0e400", "1e-400", "1.7e308", "-9223372036854775809", "18446744073709551616"]
OTHERS += ["1" + "0" * 300, "[]", '["a"]', "[[[]],{}]", "{}", '{"lat":1}', '{"a":[{"a":null}],"a":1.5}', "[1e-400]"]
OTHERS += ["[" * 126 + "]" * 126, '{"x":' * 125 + "{}" + "}" * 125]

# what is no JSON, wherever it stands
BROKENS = ["1e400", "-1e400", "1.8e308", "1" + "0" * 400, "[[1e400]]", '{"lat":1e400}', "01", "+1", "1.", ".5", "1e", "-", "nul", "True"]
BROKENS += ["NaN", "[1,]", "[", '{"lat"}', '{"lat":1,}', "{1:2}", '"a', '"\\ud83d"', '"\\ude00x"', '["\\ud83d"]', '{"\\udfff":1}', '"\\x41"']
BROKENS += ["[" * 127 + "]" * 127, '{"x":' * 126 + "{}" + "}" * 126, "'a'", ""]

# JSON texts with what they spell
VALUES = [("null", None), ("true", True), ("false", False), ('""', ""), ('"12"', "12"), ('"+7"', "+7"), ('"-3"', "-3")]
VALUES += [('"\\u0041\\n"', "A\n"), ('"\\ud83d\\ude00"', "\U0001f600"), ('"twenty-three bytes long"', "twenty-three bytes long"), ('"1.5"', "1.5")]
VALUES += [('"9223372036854775807"', "9223372036854775807"), ('"9223372036854775808"', "9223372036854775808"), ('"2024-01-01"', "2024-01-01")]
VALUES += [(str(it), it) for it in (0, 7, -7, 2**63 - 1, 2**63, 2**64 - 1, -(2**63), FIRST, FIRST - 1, LAST, LAST + 1)]
VALUES += [(it, OTHER) for it in OTHERS] + [(it, BROKEN) for it in BROKENS]


def is_whole(value):
    return isinstance(value, int) and not isinstance(value, bool)


def in_64_bits(number):
    return number if -(2**63) <= number < 2**63 else None


def digits(text, signs):
    """The number that a text of digits spells, behind one of these signs or none."""
    rest = text[1:] if text[:1] and text[0] in signs else text
    return int(text) if rest.isascii() and rest.isdigit() else None


def time(value):
    """The refusal of a time, or nothing."""
    if value is None:
        return "31 NoTimestamp"
    number = value if is_whole(value) else None
    if isinstance(value, str) and value not in (OTHER, BROKEN):
        number = digits(value, "-")
        if value == "2024-01-01":
            number = (datetime(2024, 1, 1, tzinfo=timezone.utc) - EPOCH) // timedelta(milliseconds=1)
    return None if number is not None and FIRST <= number <= LAST else "32 BadTimestamp"


def dimension(value):
    return "33 BadDimension 1" if value == OTHER else None


def metric(value):
    """The number that a metric reads, or nothing."""
    if value is None or value == "":
        return 0
    if isinstance(value, bool) or value == OTHER:
        return None
    number = value if is_whole(value) else digits(value, "+-")
    return None if number is None else in_64_bits(number)


def text_of(value):
    if value is None or value is True or value is False:
        return {None: "", True: "true", False: "false"}[value]
    return str(value)


def judged(field, value):
    """The refusal of an event with that value in that field, or nothing."""
    if field == "t":
        return time(value)
    if field == "lang":
        return dimension(value)
    return "34 BadMetric 1" if field == "a" and metric(value) is None else None


def line(members):
    return "+ {" + ",".join(f'"{name}":{text}' for name, text in members) + "}"


def script(name, field):
    lines, out, accepted, added, rows = [SPEC], ["spec ok"], 0, 0, set()

    def event(given):
        nonlocal accepted, added
        others = [("t", "0")] if field != "t" else []
        lines.append(line(others + [("page", '"A"')] + [(field, text) for text, _ in given] + [("z", "[1.5]")]))
        value = BROKEN if any(it == BROKEN for _, it in given) else given[-1][1]
        refusal = "30 NotAnObject" if value == BROKEN else judged(field, value)
        if refusal:
            out.append(f"unparseable {refusal}")
            return
        out.append(f"accepted {accepted}")
        accepted += 1
        added += metric(value) if field == "a" else 0
        if field == "t" and value == LAST_INSTANT:
            return  # it lies behind the end of the query's interval
        rows.add((value if is_whole(value) else digits(value, "-") if field == "t" and value != "2024-01-01" else value) if field == "t" else text_of(value) if field == "lang" else 0)

    for it in VALUES:
        event([it])
    for first in VALUES[1::3]:
        for last in (VALUES[0], VALUES[4], VALUES[15], (OTHERS[0], OTHER), ('{"lat":1}', OTHER), ("1e400", BROKEN)):
            event([first, last])
    lines += [QUERY, "stats"]
    wrapped = (added + 2**63) % 2**64 - 2**63
    start = "0001-01-01T00:00:00.000Z"
    out.append(f'[{{"result":{{"added":{wrapped},"rows":{len(rows)}}},"timestamp":"{start}"}}]')
    refused = sum(it.startswith("unparseable") for it in out)
    out.append(f"processed {accepted} unparseable {refused} thrownAway 0")
    for ending, text in (("script", lines), ("out", out)):
        with open(f"cases/{name}.{ending}", "w", encoding="utf-8", newline="") as it:
            it.write("\n".join(text) + "\n")


script("members_in_the_time_column", "t")
script("members_in_a_dimension", "lang")
script("members_in_a_metric", "a")
script("members_in_no_column", "x")


def many_columns():
    """A spec of 40 dimensions and 24 metrics, some of which read a dimension's field or the same field as another."""
    dimensions = [f"dimension {it}" + "!" * (it % 3 * 12) for it in range(40)]
    fields = [f"field {it}" for it in range(16)] + dimensions[:4] + ["field 3", "field 3", "t", "dimension 1" + "!" * 12]
    metrics = [{"type": "longSum", "name": f"sum {it}", "fieldName": field} for it, field in enumerate(fields)]
    schema = {"dataSource": "w", "timestampSpec": {"column": "t", "format": "millis"}, "dimensionsSpec": {"dimensions": dimensions}}
    return dimensions, fields, json.dumps({"dataSchema": schema | {"metricsSpec": metrics}}, separators=(",", ":"))


def in_any_order():
    random = Random(20261124)
    dimensions, fields, spec = many_columns()
    lines, out, rows, sums, accepted = [spec], ["spec ok"], set(), [0] * len(fields), 0
    shapes = []
    for number in range(400):
        if not shapes or number % 7 == 0:
            names = ["t"] + random.sample(dimensions + fields[:16] + [f"other {it}" for it in range(6)], random.randrange(1, 50))
            random.shuffle(names)
            shapes.append(names + random.sample(names, min(2, len(names))))
        names = list(random.choice(shapes[-3:]))
        if number % 11 == 0:
            random.shuffle(names)
        members = [(name, random.randrange(5) if name != "t" else random.randrange(2)) for name in names]
        lines.append("+ {" + ",".join(f"{json.dumps(name)}:{value}" for name, value in members) + "}")
        event = dict(members)
        out.append(f"accepted {accepted}")
        accepted += 1
        rows.add((event["t"],) + tuple(event.get(name, "") for name in dimensions))
        sums = [total + event.get(field, 0) for total, field in zip(sums, fields)]
    aggregations = [{"type": "count", "name": "rows"}] + [{"type": "longSum", "name": f"sum {it}", "fieldName": f"sum {it}"} for it in range(len(fields))]
    query = {"queryType": "timeseries", "dataSource": "w", "intervals": "1970-01-01/1970-01-02", "granularity": "all", "aggregations": aggregations}
    lines.append("query " + json.dumps(query, separators=(",", ":")))
    result = {"rows": len(rows)} | {f"sum {it}": total for it, total in enumerate(sums)}
    answer = [{"result": result, "timestamp": "1970-01-01T00:00:00.000Z"}]
    out.append(json.dumps(answer, separators=(",", ":"), sort_keys=True))
    for ending, text in (("script", lines), ("out", out)):
        with open(f"cases/members_in_any_order.{ending}", "w", encoding="utf-8", newline="") as it:
            it.write("\n".join(text) + "\n")


in_any_order()
