"""Prints what a script has to print, by the definitions alone: a plain and slow program beside the node, which shares nothing with it.

It keeps one list of events, rolls each range up from its events whenever a query comes, and filters, groups and folds row by row. It
knows timeseries, groupBy and scan queries, seals, merges, publications with their images, jobs, pins, audits and counters; a filtered
aggregation is refused.

    python3 answers.py < NAME.script             prints the output, and ends with the status
    python3 answers.py --write NAME.script ..    writes NAME.out, and NAME.status where the status isn't 0
    python3 answers.py --compare NAME.script ..  tells where the files beside a script differ, and ends with 1 if they do
"""

import hashlib
import json
import os
import re
import struct
import sys
from datetime import date, datetime, timedelta
from functools import lru_cache

FIRST_TIME, LAST_TIME = -62135596800000, 253402300799999
ETERNITY = "-146136543-09-08T08:23:32.096Z/146140482-04-24T15:36:27.903Z"
ETERNITY_START, ETERNITY_END = -4611686018427387904, 4611686018427387903
LEAST, GREATEST = -(2**63), 2**63 - 1
MOST_GROUPS = 100000
LONGEST_LINE = 1048576
DEEPEST_JSON, DEEPEST_FILTER = 127, 64
DAY = 86400000


class Refusal(Exception):
    def __init__(self, number, name, what=None):
        self.number, self.line = number, "%d %s" % (number, name)
        if what is not None:
            self.line += " %d" % what if isinstance(what, int) else " " + text_of(what)


def missing(name):
    return Refusal(2, "Missing", name)


def wrong_kind(name):
    return Refusal(3, "WrongKind", name)


def unsupported(name):
    return Refusal(76, "Unsupported", name)


def text_of(value):
    """Compact JSON with its keys in the order of their bytes."""
    if isinstance(value, dict):
        return "{%s}" % ",".join(text_of(key) + ":" + text_of(value[key]) for key in sorted(value, key=str.encode))
    if isinstance(value, list):
        return "[%s]" % ",".join(map(text_of, value))
    return json.dumps(value, ensure_ascii=False)


# JSON


def whole_or_float(text):
    number = int(text) if len(text) < 30 else None
    if text != "-0" and number is not None and LEAST <= number < 2**64:
        return number
    return finite(text)


def finite(text):
    number = float(text)
    if number in (float("inf"), float("-inf")):
        raise ValueError("out of range")
    return number


def no_constant(text):
    raise ValueError("no JSON: " + text)


def without_lone_surrogates(value):
    if isinstance(value, str):
        value.encode()
    elif isinstance(value, list):
        for it in value:
            without_lone_surrogates(it)


def members(pairs):
    for key, value in pairs:
        without_lone_surrogates(key)
        without_lone_surrogates(value)
    return dict(pairs)


def depth(text):
    deepest = now = 0
    for it in re.findall(r'"(?:[^"\\]|\\.)*"|[\[\]{}]', text, re.S):
        now += it in "[{"
        deepest = max(deepest, now)
        now -= it in "]}"
    return deepest


def parse_json(data):
    try:
        text = data.decode()
        value = json.loads(
            text, parse_int=whole_or_float, parse_float=finite, parse_constant=no_constant, object_pairs_hook=members
        )
        without_lone_surrogates(value)
    except (ValueError, RecursionError):
        raise Refusal(1, "NotJson") from None
    if depth(text) > DEEPEST_JSON:
        raise Refusal(1, "NotJson")
    return value


def is_whole(value):
    return isinstance(value, int) and not isinstance(value, bool)


def is_empty(value):
    return value is None or value is False or value == [] or value == {}


def of_kind(value, kind, name):
    if not isinstance(value, kind):
        raise wrong_kind(name)
    return value


def required(record, name, kind=None):
    if record.get(name) is None:
        raise missing(name)
    return record[name] if kind is None else of_kind(record[name], kind, name)


def optional(record, name, kind, default):
    return default if record.get(name) is None else of_kind(record[name], kind, name)


def bounded(record, name, default, low, high):
    value = record.get(name)
    if value is None:
        return default
    if not is_whole(value) or not low <= value <= high:
        raise wrong_kind(name)
    return value


def no_more_keys(record, listed, refusal):
    for key in sorted(set(record) - set(listed), key=str.encode):
        if not is_empty(record[key]):
            raise refusal(key)


def lower(text):
    return "".join(it.lower() if it.isascii() else it for it in text)


# Time

INSTANT = re.compile(
    "([0-9]{4})(?:-([0-9]{2})(?:-([0-9]{2})(?:[T ]([0-9]{2})(?::([0-9]{2})(?::([0-9]{2})(?:[.]([0-9]{1,9}))?)?)?"
    "(Z|[+-][0-9]{2}(?::[0-9]{2})?)?)?)?)?"
)
EPOCH = date(1970, 1, 1).toordinal()
# The calendar repeats after so many days.
FOUR_CENTURIES = 146097


def days_of(year, month, day):
    """The days since 1970-01-01, or ValueError; the year may be 0."""
    return date(year or 400, month, day).toordinal() - EPOCH - (0 if year else FOUR_CENTURIES)


def parse_instant(text):
    fits = INSTANT.fullmatch(text)
    if not fits:
        raise Refusal(10, "BadInstant")
    year, month, day, hour, minute, second, fraction, zone = fits.groups()
    hour, minute, second = int(hour or 0), int(minute or 0), int(second or 0)
    sign, zone_hour, zone_minute = 1, 0, 0
    if zone and zone != "Z":
        sign, zone_hour, zone_minute = (-1 if zone[0] == "-" else 1), int(zone[1:3]), int(zone[4:] or 0)
    try:
        days = days_of(int(year), int(month or 1), int(day or 1))
    except ValueError:
        raise Refusal(10, "BadInstant") from None
    if max(hour, zone_hour) > 23 or max(minute, second, zone_minute) > 59:
        raise Refusal(10, "BadInstant")
    millis = days * DAY + hour * 3600000 + minute * 60000 + second * 1000 + int(((fraction or "") + "000")[:3])
    millis -= sign * (zone_hour * 3600000 + zone_minute * 60000)
    if not FIRST_TIME <= millis <= LAST_TIME:
        raise Refusal(11, "OutOfRange")
    return millis


def print_instant(time):
    if time == ETERNITY_START:
        return ETERNITY.split("/")[0]
    if time > LAST_TIME:
        # the end of a bucket, a few days behind the last year that the calendar here knows
        return "10000-01-%02dT00:00:00.000Z" % (1 + (time - LAST_TIME - 1) // DAY)
    moment = datetime(1970, 1, 1) + timedelta(milliseconds=time)
    return "%04d-%02d-%02dT%02d:%02d:%02d.%03dZ" % (*moment.timetuple()[:6], time % 1000)


def parse_interval(text):
    """The first millisecond, and the one after the last."""
    if text == ETERNITY:
        return ETERNITY_START, ETERNITY_END
    if "/" not in text:
        raise Refusal(12, "BadInterval")
    ends = []
    for part in text.split("/", 1):
        try:
            ends.append(parse_instant(part))
        except Refusal as it:
            raise it if it.number == 11 else Refusal(12, "BadInterval") from None
    if ends[1] < ends[0]:
        raise Refusal(13, "EndBeforeStart")
    return tuple(ends)


# Granularities

LENGTHS = {"none": 1, "second": 1000, "minute": 60000, "five_minute": 300000, "ten_minute": 600000, "fifteen_minute": 900000}
LENGTHS |= {"thirty_minute": 1800000, "hour": 3600000, "six_hour": 21600000, "eight_hour": 28800000, "day": DAY}
MONTHS = {"month": 1, "quarter": 3, "year": 12}
NAMES = ["all", *LENGTHS, "week", *MONTHS]

FROM_DAY = ["day", "week", "month", "quarter", "year"]
FROM_HOUR = ["hour", "six_hour", "eight_hour", *FROM_DAY]
NESTS = {"none": NAMES, "second": NAMES}
NESTS["minute"] = ["minute", "five_minute", "ten_minute", "fifteen_minute", "thirty_minute", *FROM_HOUR]
NESTS["five_minute"] = ["five_minute", "ten_minute", "fifteen_minute", "thirty_minute", *FROM_HOUR]
NESTS["ten_minute"] = ["ten_minute", "thirty_minute", *FROM_HOUR]
NESTS["fifteen_minute"] = ["fifteen_minute", "thirty_minute", *FROM_HOUR]
NESTS |= {"thirty_minute": ["thirty_minute", *FROM_HOUR], "hour": FROM_HOUR, "six_hour": ["six_hour", *FROM_DAY]}
NESTS |= {"eight_hour": ["eight_hour", *FROM_DAY], "day": FROM_DAY, "week": ["week"], "month": ["month", "quarter", "year"]}
NESTS |= {"quarter": ["quarter", "year"], "year": ["year"]}


def no_granularity(name):
    return Refusal(22, "UnsupportedGranularity", name)


def parse_granularity(value, barred=()):
    name, known = value, NAMES
    if isinstance(value, dict):
        name = value.get("type")
        known = ["all", "none"] if all(is_empty(value[it]) for it in value if it != "type") else []
    if not isinstance(name, str):
        raise no_granularity("granularity")
    if lower(name) not in known or lower(name) in barred:
        raise no_granularity(name)
    return lower(name)


def truncate(granularity, time):
    """The start of the bucket that holds this time."""
    if granularity in LENGTHS:
        return time - time % LENGTHS[granularity]
    days = time // DAY
    if granularity == "week":
        return (days - (days + EPOCH - 1) % 7) * DAY
    day = date.fromordinal(days + EPOCH)
    return days_of(day.year, day.month - (day.month - 1) % MONTHS[granularity], 1) * DAY


def next_start(granularity, time):
    """The start of the bucket after it."""
    start = truncate(granularity, time)
    if granularity in LENGTHS:
        return start + LENGTHS[granularity]
    if granularity == "week":
        return start + 7 * DAY
    first = date.fromordinal(start // DAY + EPOCH)
    months = first.year * 12 + first.month - 1 + MONTHS[granularity]
    if months == 120000:
        return (date.max.toordinal() + 1 - EPOCH) * DAY
    return days_of(months // 12, months % 12 + 1, 1) * DAY


# The spec

UNIT = {"count": 0, "longSum": 0, "longMin": GREATEST, "longMax": LEAST}


def combine(kind, one, other):
    if kind == "longMin":
        return min(one, other)
    if kind == "longMax":
        return max(one, other)
    return (one + other + 2**63) % 2**64 - 2**63


def not_in_a_spec(name):
    return Refusal(26, "Unsupported", name)


class Spec:
    def __init__(self, data):
        outer = of_kind(parse_json(data), dict, "spec")
        if outer.get("spec") is not None:
            outer = of_kind(outer["spec"], dict, "spec")
        schema = required(outer, "dataSchema", dict)
        self.source = required(schema, "dataSource", str)
        if not self.source:
            raise wrong_kind("dataSource")
        self.read_time(optional(schema, "timestampSpec", dict, {}))
        self.read_dimensions(optional(schema, "dimensionsSpec", dict, {}))
        self.metrics = [self.metric(it) for it in optional(schema, "metricsSpec", list, [])]
        self.read_granularities(optional(schema, "granularitySpec", dict, {}))
        if schema.get("transformSpec") not in (None, {}):
            raise not_in_a_spec("transformSpec")
        self.check_names()
        if len(self.dimensions) > 64 or len(self.metrics) > 64:
            raise Refusal(27, "TooManyColumns")
        inner = {"timestampSpec": ["column", "format"], "dimensionsSpec": ["dimensions"]}
        inner["granularitySpec"] = ["type", "segmentGranularity", "queryGranularity", "rollup"]
        no_more_keys(schema, ["dataSource", "metricsSpec", "transformSpec", *inner], not_in_a_spec)
        for name, listed in inner.items():
            no_more_keys(schema.get(name) or {}, listed, not_in_a_spec)
        tuning = optional(outer, "tuningConfig", dict, {})
        self.max_rows = bounded(tuning, "maxRowsInMemory", 1000, 1, 1048576)
        self.max_retained = bounded(tuning, "maxRetained", 1048576, 1, 1048576)
        self.max_commits = bounded(tuning, "maxCommits", 4294967295, 1, 4294967295)
        self.max_image = bounded(tuning, "maxImageBytes", 1073741824, 1, 1073741824)

    def read_time(self, record):
        self.column = optional(record, "column", str, "timestamp")
        self.format = optional(record, "format", str, "auto")
        if self.format not in ("iso", "millis", "posix", "auto"):
            raise not_in_a_spec(self.format)

    def read_dimensions(self, record):
        given = optional(record, "dimensions", list, [])
        if not given:
            raise Refusal(25, "NoDimensions")
        self.dimensions = [self.dimension(it) for it in given]

    def dimension(self, given):
        name = given
        if isinstance(given, dict):
            kind = optional(given, "type", str, "string")
            if kind != "string":
                raise Refusal(20, "UnsupportedDimension", kind)
            name = required(given, "name", str)
        of_kind(name, str, "dimensions")
        if not name:
            raise wrong_kind("name")
        return name

    def metric(self, given):
        """Its kind, its name and the field that it reads."""
        of_kind(given, dict, "metricsSpec")
        kind = required(given, "type", str)
        if kind not in UNIT:
            raise Refusal(21, "UnsupportedMetric", kind)
        name = required(given, "name", str)
        if not name:
            raise wrong_kind("name")
        field = None if kind == "count" else required(given, "fieldName", str)
        no_more_keys(given, ["type", "name", "fieldName"], not_in_a_spec)
        return kind, name, field

    def read_granularities(self, record):
        kind = optional(record, "type", str, "uniform")
        if lower(kind) != "uniform":
            raise not_in_a_spec(kind)
        named = lambda name, default: default if record.get(name) is None else record[name]
        self.segment = parse_granularity(named("segmentGranularity", "day"), ["all", "none"])
        self.granularity = parse_granularity(named("queryGranularity", "none"), ["all"])
        self.rollup = optional(record, "rollup", bool, True)
        if self.segment not in NESTS[self.granularity]:
            raise Refusal(23, "NotNested")

    def check_names(self):
        before = {"__time"}
        for name in self.dimensions + [it[1] for it in self.metrics]:
            if name in before:
                raise Refusal(24, "DuplicateName", name)
            before.add(name)

    def is_metric(self, name):
        return name == "__time" or any(it[1] == name for it in self.metrics)


# Events


def digits(text, signs):
    """The number that a text of digits spells, behind one of these signs or none, or nothing."""
    rest = text[1:] if text[:1] and text[0] in signs else text
    if not re.fullmatch("[0-9]+", rest):
        return None
    rest = rest.lstrip("0") or "0"
    return None if len(rest) > 30 else int(rest) * (-1 if text[0] == "-" else 1)


def time_of(spec, value):
    """The milliseconds of an event's time, or nothing."""
    number = value if is_whole(value) else None
    if isinstance(value, str):
        is_number = spec.format in ("millis", "posix") or spec.format == "auto" and re.fullmatch("-?[0-9]{1,19}", value)
        if not is_number:
            try:
                return parse_instant(value)
            except Refusal:
                return None
        number = digits(value, "-")
    if number is None or spec.format == "iso":
        return None
    number *= 1000 if spec.format == "posix" else 1
    return number if FIRST_TIME <= number <= LAST_TIME else None


def dimension_of(value):
    if value is None:
        return ""
    if isinstance(value, bool):
        return "true" if value else "false"
    return value if isinstance(value, str) else str(value) if is_whole(value) else None


def metric_of(value):
    if value is None or value == "":
        return 0
    number = value if is_whole(value) else digits(value, "+-") if isinstance(value, str) else None
    return number if number is not None and LEAST <= number <= GREATEST else None


def event_of(spec, data):
    """The unrolled row of an event with its untruncated time: time, dimension values, inputs."""
    try:
        record = parse_json(data)
    except Refusal:
        record = None
    if not isinstance(record, dict):
        raise Refusal(30, "NotAnObject")
    if record.get(spec.column) is None:
        raise Refusal(31, "NoTimestamp")
    time = time_of(spec, record[spec.column])
    if time is None:
        raise Refusal(32, "BadTimestamp")
    dims = [dimension_of(record.get(name)) for name in spec.dimensions]
    if None in dims:
        raise Refusal(33, "BadDimension", dims.index(None))
    inputs = [1 if kind == "count" else metric_of(record.get(field)) for kind, _, field in spec.metrics]
    if None in inputs:
        raise Refusal(34, "BadMetric", inputs.index(None))
    return time, tuple(dims), inputs


def by_bytes(dims):
    return [it.encode() for it in dims]


def unrolled(spec, event):
    return truncate(spec.granularity, event[0]), event[1], event[2]


def rollup(spec, events):
    """The rows of some events, by time and then by dimension values."""
    rows = [unrolled(spec, it) for it in events]
    if spec.rollup:
        combined = {}
        for time, dims, inputs in rows:
            old = combined.get((time, dims))
            pairs = zip(spec.metrics, old, inputs) if old else ()
            combined[time, dims] = [combine(kind[0], one, other) for kind, one, other in pairs] if old else inputs
        rows = [(*key, values) for key, values in combined.items()]
    return sorted(rows, key=lambda row: (row[0], by_bytes(row[1])))


# Images


def words_of(numbers):
    return struct.pack("<%dI" % len(numbers), *numbers)


def column_bytes(values):
    """A dimension of an image, by the values of its rows."""
    texts = [it.encode() for it in values]
    dictionary = sorted(set(texts))
    numbers = [dictionary.index(it) for it in texts]
    lists = [[i for i, it in enumerate(numbers) if it == v] for v in range(len(dictionary))]
    ends = lambda parts: [sum(map(len, parts[: i + 1])) for i in range(len(parts))]
    found = words_of([len(dictionary), sum(map(len, dictionary))]) + words_of(ends(dictionary)) + b"".join(dictionary)
    return found + words_of(numbers) + words_of(ends(lists)) + b"".join(map(words_of, lists))


def image_of(spec, chunk, low, high, rows):
    """The bytes of the image of some rows, version 1."""
    longs = lambda numbers: struct.pack("<%dq" % len(numbers), *numbers)
    data = longs([it[0] for it in rows]) + b"".join(longs([it[2][m] for it in rows]) for m in range(len(spec.metrics)))
    data += b"".join(column_bytes([it[1][d] for it in rows]) for d in range(len(spec.dimensions)))
    head = b"DRSG" + struct.pack("<HH", 1, 1 if spec.rollup else 0) + struct.pack("<QqQQ", 80 + len(data), chunk, low, high)
    whole = head + struct.pack("<HHI", len(spec.dimensions), len(spec.metrics), len(rows)) + data
    return whole + hashlib.sha256(whole).digest()


def image_within(spec, chunk, low, high, events):
    """The image of the rollup of some events, where it isn't too large."""
    image = image_of(spec, chunk, low, high, rollup(spec, events))
    if len(image) > spec.max_image:
        raise Refusal(59, "ImageTooLarge")
    return image


# Filters


def no_filter(what):
    return Refusal(60, "UnknownFilter", what)


def text_or_number(value, name):
    if value is None:
        return ""
    return str(value) if is_whole(value) else of_kind(value, str, name)


def intervals_of(value, refusal):
    listed = value
    if isinstance(value, dict):
        kind = required(value, "type", str)
        if kind != "intervals":
            raise refusal(kind)
        listed = required(value, "intervals", list)
    elif isinstance(value, str):
        listed = [value]
    found = [parse_interval(of_kind(it, str, "intervals")) for it in of_kind(listed, list, "intervals")]
    if isinstance(value, dict):
        no_more_keys(value, ["type", "intervals"], refusal)
    return found


def lies_in(time, intervals):
    return any(start <= time < end for start, end in intervals)


def order_name(value, name, refusal):
    """The name of an order, which is a text or an object of that type."""
    if isinstance(value, dict):
        kind = required(value, "type", str)
        return kind, lambda: no_more_keys(value, ["type"], refusal)
    return of_kind(value, str, name), lambda: None


@lru_cache(maxsize=100000)
def standing(letter, text):
    """Where a text has a letter, a bit for each place."""
    return sum(1 << k for k, it in enumerate(text) if letter in ("_", it))


def fits(pattern, text):
    """Whether a text fits a pattern of `like`. It is kept, a bit for each, which beginnings of the text fit the pattern so far."""
    begun = 1
    for letter in pattern:
        if not begun:
            return False
        shortest = begun & -begun
        begun = (2 << len(text)) - shortest if letter == "%" else (begun & standing(letter, text)) << 1
    return begun >> len(text) == 1


class Filter:
    """What a filter says of a row."""

    def __init__(self, value, spec, name="filter", level=1):
        record = of_kind(value, dict, name)
        if level > DEEPEST_FILTER:
            raise Refusal(62, "TooDeep")
        kind = required(record, "type", str)
        read = {"and": self.joined, "or": self.joined, "not": self.negated, "interval": self.interval, "selector": self.selector}
        read |= {"in": self.one_of, "bound": self.bound, "like": self.like}
        if kind not in read:
            raise no_filter(kind)
        self.holds, listed = read[kind](record, spec, level)
        no_more_keys(record, ["type", *listed], no_filter)

    def joined(self, record, spec, level):
        fields = [Filter(it, spec, "fields", level + 1) for it in required(record, "fields", list)]
        join = all if record["type"] == "and" else any
        return lambda time, dims: join(it.holds(time, dims) for it in fields), ["fields"]

    def negated(self, record, spec, level):
        field = Filter(required(record, "field"), spec, "field", level + 1)
        return lambda time, dims: not field.holds(time, dims), ["field"]

    def interval(self, record, spec, level):
        if required(record, "dimension", str) != "__time":
            raise no_filter("interval")
        intervals = intervals_of(required(record, "intervals"), no_filter)
        return lambda time, dims: lies_in(time, intervals), ["dimension", "intervals"]

    def dimension(self, record, spec):
        name = required(record, "dimension", str)
        if spec.is_metric(name):
            raise Refusal(61, "FilterOnMetric", name)
        return lambda dims: dict(zip(spec.dimensions, dims)).get(name, "")

    def selector(self, record, spec, level):
        read = self.dimension(record, spec)
        value = text_or_number(record.get("value"), "value")
        return lambda time, dims: read(dims) == value, ["dimension", "value"]

    def one_of(self, record, spec, level):
        read = self.dimension(record, spec)
        values = [text_or_number(it, "values") for it in required(record, "values", list)]
        return lambda time, dims: read(dims) in values, ["dimension", "values"]

    def bound(self, record, spec, level):
        read = self.dimension(record, spec)
        low, high = (None if record.get(it) is None else text_or_number(record[it], it).encode() for it in ("lower", "upper"))
        low_strict, high_strict = (optional(record, it, bool, False) for it in ("lowerStrict", "upperStrict"))
        if record.get("ordering") is not None:
            order, judge_more = order_name(record["ordering"], "ordering", no_filter)
            if order != "lexicographic":
                raise no_filter(order)
            judge_more()

        def holds(time, dims):
            value = read(dims).encode()
            above = low is None or (value > low if low_strict else value >= low)
            return above and (high is None or (value < high if high_strict else value <= high))

        return holds, ["dimension", "lower", "upper", "lowerStrict", "upperStrict", "ordering"]

    def like(self, record, spec, level):
        read = self.dimension(record, spec)
        pattern = required(record, "pattern", str)
        return lambda time, dims: fits(pattern, read(dims)), ["dimension", "pattern"]


# Queries


class Query:
    def __init__(self, data, spec):
        self.spec = spec
        record = of_kind(parse_json(data), dict, "query")
        self.kind = required(record, "queryType", str)
        if self.kind not in ("timeseries", "groupBy", "scan"):
            raise Refusal(70, "UnknownQueryType", self.kind)
        self.read_source(required(record, "dataSource"))
        self.intervals = [it for it in intervals_of(required(record, "intervals"), unsupported) if it[0] < it[1]]
        listed = ["queryType", "dataSource", "intervals", "granularity", "filter", "context"]
        if self.kind == "scan":
            self.read_scan(record)
            listed += ["columns", "order", "resultFormat", "batchSize", "offset", "limit"]
            self.read_context(optional(record, "context", dict, {}))
            return no_more_keys(record, listed, unsupported)
        self.granularity = parse_granularity(required(record, "granularity"))
        self.filter = None if record.get("filter") is None else Filter(record["filter"], spec)
        self.aggregations = [self.aggregation(it) for it in optional(record, "aggregations", list, [])]
        listed += ["aggregations"]
        if self.kind == "groupBy":
            self.read_group_by(record)
            listed += ["dimensions", "having", "limitSpec"]
        else:
            self.dimensions = []
            self.check_outputs()
            self.descending = optional(record, "descending", bool, False)
            self.limit = bounded(record, "limit", 0, 0, 2**64 - 1)
            listed += ["descending", "limit"]
        self.read_context(optional(record, "context", dict, {}))
        no_more_keys(record, listed, unsupported)

    def read_source(self, value):
        name = value
        if isinstance(value, dict):
            kind = required(value, "type", str)
            if kind != "table":
                raise unsupported(kind)
            name = required(value, "name", str)
        if of_kind(name, str, "dataSource") != self.spec.source:
            raise Refusal(71, "WrongDataSource", name)
        if isinstance(value, dict):
            no_more_keys(value, ["type", "name"], unsupported)

    def aggregation(self, given):
        """Its kind, its output name, and the place of the column that it reads or nothing."""
        of_kind(given, dict, "aggregations")
        kind = required(given, "type", str)
        if kind not in UNIT:
            raise unsupported(kind)
        name, field = required(given, "name", str), None
        if kind != "count":
            field = required(given, "fieldName", str)
            if field in self.spec.dimensions or field == "__time":
                raise Refusal(74, "FieldIsDimension", field)
        no_more_keys(given, ["type", "name"] + ["fieldName"] * (kind != "count"), unsupported)
        places = [i for i, it in enumerate(self.spec.metrics) if it[1] == field]
        return kind, name, places[0] if places else None

    def read_group_by(self, record):
        self.dimensions = [self.dimension(it) for it in optional(record, "dimensions", list, [])]
        self.check_outputs()
        self.having = None
        if record.get("having") is not None:
            self.having = Having(record["having"], self)
        self.read_limit(optional(record, "limitSpec", dict, {"type": "NoopLimitSpec"}))

    def dimension(self, given):
        """Its name and its output name."""
        name, output = given, given
        if isinstance(given, dict):
            kind = required(given, "type", str)
            if kind != "default":
                raise unsupported(kind)
            name = required(given, "dimension", str)
        if self.spec.is_metric(of_kind(name, str, "dimensions")):
            raise Refusal(75, "DimensionIsMetric", name)
        if isinstance(given, dict):
            output = optional(given, "outputName", str, name)
            if optional(given, "outputType", str, "STRING") != "STRING":
                raise unsupported(given["outputType"])
            no_more_keys(given, ["type", "dimension", "outputName", "outputType"], unsupported)
        return name, output

    def check_outputs(self):
        before = set()
        for name in [it[1] for it in self.dimensions] + [it[1] for it in self.aggregations]:
            if name in before:
                raise Refusal(72, "DuplicateOutput", name)
            before.add(name)

    def place(self, outputs, name):
        return next((i for i, it in enumerate(outputs) if it[1] == name), None)

    def read_limit(self, record):
        self.limit, self.offset, self.columns = 0, 0, []
        kind = optional(record, "type", str, "default")
        if kind == "NoopLimitSpec":
            return no_more_keys(record, ["type"], unsupported)
        if kind != "default":
            raise unsupported(kind)
        self.limit = bounded(record, "limit", 0, 0, 2**64 - 1)
        self.offset = bounded(record, "offset", 0, 0, 2**64 - 1)
        self.columns = [self.column(it) for it in optional(record, "columns", list, [])]
        no_more_keys(record, ["type", "limit", "offset", "columns"], unsupported)

    def column(self, given):
        """The places of the column among the dimensions and among the aggregations, one of them nothing, and whether it descends."""
        name = given
        if isinstance(given, dict):
            name = required(given, "dimension", str)
        of_kind(name, str, "columns")
        dimension, metric = self.place(self.dimensions, name), self.place(self.aggregations, name)
        if dimension is None and metric is None:
            raise Refusal(73, "UnknownOrderColumn", name)
        direction = "ascending"
        if isinstance(given, dict):
            direction = optional(given, "direction", str, direction)
            if lower(direction) not in ("ascending", "descending"):
                raise unsupported(direction)
            if given.get("dimensionOrder") is not None:
                order, judge_more = order_name(given["dimensionOrder"], "dimensionOrder", unsupported)
                if order != "lexicographic" and not (order == "numeric" and metric is not None):
                    raise unsupported(order)
                judge_more()
            no_more_keys(given, ["dimension", "direction", "dimensionOrder"], unsupported)
        return dimension, metric, lower(direction) == "descending"

    def read_context(self, record):
        skip = record.get("skipEmptyBuckets")
        if skip not in (None, "true", "false") and not isinstance(skip, bool):
            raise wrong_kind("skipEmptyBuckets")
        self.skip_empty = skip in (True, "true")
        for name in ("grandTotal", "sortByDimsFirst"):
            if record.get(name) is not None and record[name] is not False:
                raise unsupported(name)

    def read_scan(self, record):
        if record.get("granularity") is not None and parse_granularity(record["granularity"]) != "all":
            raise unsupported("granularity")
        self.filter = None if record.get("filter") is None else Filter(record["filter"], self.spec)
        self.columns = []
        for name in optional(record, "columns", list, []):
            if of_kind(name, str, "columns") in self.columns:
                raise Refusal(72, "DuplicateOutput", name)
            self.columns.append(name)
        if not self.columns:
            self.columns = ["__time", *self.spec.dimensions, *(it[1] for it in self.spec.metrics)]
        self.order = optional(record, "order", str, "none")
        if self.order not in ("none", "ascending", "descending"):
            raise unsupported(self.order)
        self.format = optional(record, "resultFormat", str, "list")
        if self.format not in ("list", "compactedList"):
            raise unsupported(self.format)
        self.batch = bounded(record, "batchSize", 20480, 1, 2**64 - 1)
        self.offset = bounded(record, "offset", 0, 0, 2**64 - 1)
        self.limit = bounded(record, "limit", 0, 0, 2**64 - 1)

    # The answer

    def selects(self, row):
        return lies_in(row[0], self.intervals) and (self.filter is None or self.filter.holds(row[0], row[1]))

    def scanned(self, pieces):
        """The text of a scan over pieces, each an identifier and its rows."""
        spec, entries, left, offset = self.spec, [], self.limit or None, self.offset
        if self.order != "none":
            rows = [row for _, piece in pieces for row in piece]
            rows.sort(key=lambda row: row[0] if self.order == "ascending" else -row[0])
            pieces = [(None, rows)]
        for name, rows in pieces:
            rows = [row for row in rows if self.selects(row)]
            rows, offset = rows[offset:], max(offset - len(rows), 0)
            rows = rows[:left]
            left = None if left is None else left - len(rows)
            batch = self.batch if self.order == "none" else max(len(rows), 1)
            entries += [(name, rows[i : i + batch]) for i in range(0, len(rows), batch)]
        places = {it: i for i, it in enumerate(spec.dimensions)}, {it[1]: i for i, it in enumerate(spec.metrics)}

        def value(row, column):
            if column == "__time":
                return row[0]
            if column in places[0]:
                return row[1][places[0][column]] or None
            return row[2][places[1][column]] if column in places[1] else None

        printed = []
        for name, rows in entries:
            events = [[value(row, it) for it in self.columns] for row in rows]
            if self.format == "list":
                events = [dict(zip(self.columns, it)) for it in events]
            printed.append({"columns": self.columns, "events": events, "segmentId": name})
        return text_of(printed)

    def bucket(self, time):
        return min(it[0] for it in self.intervals) if self.granularity == "all" else truncate(self.granularity, time)

    def filled(self, rows):
        """The buckets that hold a millisecond both of the intervals and of the span of all rows, or one more than may be answered."""
        found = set()
        if not rows:
            return found
        first, last = min(it[0] for it in rows), max(it[0] for it in rows)
        for start, end in self.intervals:
            time, end = max(start, first), min(end, last + 1)
            while time < end and len(found) <= MOST_GROUPS:
                found.add(self.bucket(time))
                time = end if self.granularity == "all" else next_start(self.granularity, time)
        return found

    def fold(self, aggregation, rows):
        kind, _, place = aggregation
        if kind == "count":
            return len(rows)
        value = UNIT[kind]
        for row in rows:
            value = combine(kind, value, 0 if place is None else row[2][place])
        return value

    def groups(self, rows):
        """Each bucket and its dimension values, with its folds."""
        names, selected = self.spec.dimensions, {}
        if self.kind == "timeseries" and not self.skip_empty:
            selected = {(it, ()): [] for it in self.filled(rows)}
            if len(selected) > MOST_GROUPS:
                return selected
        for row in rows:
            if self.selects(row):
                dims = tuple(dict(zip(names, row[1])).get(it[0], "") for it in self.dimensions)
                selected.setdefault((self.bucket(row[0]), dims), []).append(row)
        return {key: [self.fold(it, group) for it in self.aggregations] for key, group in selected.items()}

    def answer(self, rows):
        groups = self.groups(rows)
        if len(groups) > MOST_GROUPS:
            raise Refusal(81, "ResultTooLarge")
        outputs = [it[1] for it in self.dimensions] + [it[1] for it in self.aggregations]
        groups = sorted(((*key, values) for key, values in groups.items()), key=lambda it: (it[0], by_bytes(it[1])))
        if self.kind == "groupBy":
            groups = self.arranged(groups)
        elif self.descending:
            groups.reverse()
        printed = []
        for time, dims, values in groups[: self.limit or None]:
            record = dict(zip(outputs, [it or None for it in dims] + values))
            if self.kind == "groupBy":
                printed.append({"event": record, "timestamp": print_instant(time), "version": "v1"})
            else:
                printed.append({"result": record, "timestamp": print_instant(time)})
        return text_of(printed)

    def arranged(self, groups):
        """The groups that satisfy having, in their order, without the first ones."""
        kept = [it for it in groups if self.having is None or self.having.holds(it[1], it[2])]
        for dimension, metric, descending in reversed(self.columns):
            value = lambda it: it[1][dimension].encode() if metric is None else it[2][metric]
            kept.sort(key=value, reverse=descending)
        kept.sort(key=lambda it: it[0])
        return kept[self.offset :]


class Having:
    """What a having says of a group."""

    def __init__(self, value, query, name="having", level=1):
        record = of_kind(value, dict, name)
        if level > DEEPEST_FILTER:
            raise Refusal(62, "TooDeep")
        kind = required(record, "type", str)
        read = {"equalTo": self.compared, "greaterThan": self.compared, "lessThan": self.compared, "dimSelector": self.selector}
        read |= {"and": self.joined, "or": self.joined, "not": self.negated}
        if kind not in read:
            raise unsupported(kind)
        self.holds, listed = read[kind](record, query, level)
        no_more_keys(record, ["type", *listed], unsupported)

    def place(self, outputs, record, field):
        name = required(record, field, str)
        found = next((i for i, it in enumerate(outputs) if it[1] == name), None)
        if found is None:
            raise Refusal(77, "UnknownHavingColumn", name)
        return found

    def compared(self, record, query, level):
        place = self.place(query.aggregations, record, "aggregation")
        value = required(record, "value")
        if not is_whole(value) or not LEAST <= value <= GREATEST:
            raise wrong_kind("value")
        tests = {"equalTo": int.__eq__, "greaterThan": int.__gt__, "lessThan": int.__lt__}
        return lambda dims, values: tests[record["type"]](values[place], value), ["aggregation", "value"]

    def selector(self, record, query, level):
        place = self.place(query.dimensions, record, "dimension")
        value = optional(record, "value", str, "")
        return lambda dims, values: dims[place] == value, ["dimension", "value"]

    def joined(self, record, query, level):
        parts = [Having(it, query, "havingSpecs", level + 1) for it in required(record, "havingSpecs", list)]
        join = all if record["type"] == "and" else any
        return lambda dims, values: join(it.holds(dims, values) for it in parts), ["havingSpecs"]

    def negated(self, record, query, level):
        part = Having(required(record, "havingSpec"), query, "havingSpec", level + 1)
        return lambda dims, values: not part.holds(dims, values), ["havingSpec"]


# The timeline


class Chunk:
    """The events of a chunk, its sealed ranges (from, to, serial, version), where the open range starts, and how many publications there were."""

    def __init__(self):
        self.events, self.sealed, self.open, self.open_keys, self.publications = [], [], 0, set(), 0


class Timeline:
    def __init__(self, spec):
        self.spec, self.events, self.chunks, self.serials, self.commits = spec, [], {}, 0, 0
        self.pins, self.jobs, self.processed, self.unparseable = [], [], 0, 0

    def accept(self, data):
        try:
            event = event_of(self.spec, data)
        except Refusal as it:
            self.unparseable += 1
            return "unparseable " + it.line
        if len(self.events) == self.spec.max_retained:
            raise Refusal(90, "StreamFull")
        self.events.append(event)
        self.processed += 1
        chunk = self.chunks.setdefault(truncate(self.spec.segment, event[0]), Chunk())
        chunk.events.append(event)
        chunk.open_keys.add((truncate(self.spec.granularity, event[0]), event[1]))
        rows = len(chunk.open_keys) if self.spec.rollup else len(chunk.events) - chunk.open
        if rows == self.spec.max_rows:
            self.close(chunk)
        return "accepted %d" % (len(self.events) - 1)

    def close(self, chunk):
        chunk.sealed.append((chunk.open, len(chunk.events), self.serials, 0))
        chunk.open, chunk.open_keys = len(chunk.events), set()
        self.serials += 1

    def seal(self, start):
        chunk = self.chunks.get(start)
        if chunk is None or chunk.open == len(chunk.events):
            raise Refusal(91, "NothingToSeal")
        self.close(chunk)
        return "sealed"

    def plan(self, start, low, high, purpose):
        chunk = self.chunks.get(start)
        if not low < high <= (len(chunk.sealed) if chunk else 0):
            raise Refusal(92, "NoSuchRange")
        return start, chunk.sealed[low:high], purpose

    def commit(self, job):
        """Commits a job, and answers the version of the new range."""
        start, ranges, purpose = job
        chunk = self.chunks[start]
        low, high = ranges[0][0], ranges[-1][1]
        image_within(self.spec, start, low, high, chunk.events[low:high])
        found = [i for i in range(len(chunk.sealed)) if chunk.sealed[i : i + len(ranges)] == ranges]
        if not found:
            raise Refusal(93, "Stale")
        if self.commits == self.spec.max_commits:
            raise Refusal(95, "CommitsFull")
        chunk.publications += purpose == "publish"
        version = chunk.publications if purpose == "publish" else min(it[3] for it in ranges)
        chunk.sealed[found[0] : found[0] + len(ranges)] = [(low, high, self.serials, version)]
        self.serials += 1
        self.commits += 1
        return version

    def image(self, start, place):
        chunk = self.chunks.get(start)
        if place >= (len(chunk.sealed) if chunk else 0):
            raise Refusal(92, "NoSuchRange")
        low, high = chunk.sealed[place][:2]
        return image_within(self.spec, start, low, high, chunk.events[low:high]).hex()

    def snapshot(self):
        """The events, and of each chunk the pieces of its events, each with the identifier of its segment."""
        spec, pieces = self.spec, []
        for start in sorted(self.chunks):
            chunk = self.chunks[start]
            ranges = [(*it[:2], it[3]) for it in chunk.sealed] + [(chunk.open, len(chunk.events), 0)]
            ends = print_instant(start) + "_" + print_instant(next_start(spec.segment, start))
            for place, (low, high, version) in enumerate(ranges):
                name = "%s_%s_%s%s" % (spec.source, ends, "v%d" % version if version else "r", "_%d" % place if place else "")
                pieces += [(name, chunk.events[low:high])] if low < high else []
        return list(self.events), pieces


def raw_rows(spec, snapshot):
    return [unrolled(spec, it) for it in snapshot[0]]


def answer(spec, text, snapshot):
    """The answer to a query over the rows of a snapshot."""
    query, pieces = Query(text, spec), [(name, rollup(spec, piece)) for name, piece in snapshot[1]]
    if query.kind == "scan":
        return query.scanned(pieces)
    return query.answer([row for _, rows in pieces for row in rows])


def audit(spec, text, snapshot):
    query = Query(text, spec)
    if query.kind == "scan":
        raise unsupported("scan")
    return query.answer(raw_rows(spec, snapshot))


# Scripts


def bad_command():
    return Refusal(101, "BadCommand")


def number_of(word):
    number = digits(word.decode(errors="replace"), "")
    if number is None or number >= 2**64:
        raise bad_command()
    return number


def instant_of(word):
    try:
        return parse_instant(word.decode())
    except UnicodeDecodeError:
        raise Refusal(10, "BadInstant") from None


def places(words):
    """INSTANT LO HI."""
    if len(words) != 3 or b"" in words:
        raise bad_command()
    return words[0], number_of(words[1]), number_of(words[2])


def reply(timeline, line):
    spec = timeline.spec
    words = line.split(b" ")
    word, _, rest = line.partition(b" ")
    chunk_of = lambda instant: truncate(spec.segment, instant_of(instant))
    if word == b"+":
        return timeline.accept(rest)
    if words[0] == b"seal" and len(words) == 2 and words[1]:
        return timeline.seal(chunk_of(words[1]))
    if words[0] in (b"merge", b"publish"):
        instant, low, high = places(words[1:])
        version = timeline.commit(timeline.plan(chunk_of(instant), low, high, words[0].decode()))
        return "merged" if words[0] == b"merge" else "published v%d" % version
    if words[:2] in ([b"plan", b"merge"], [b"plan", b"publish"]):
        instant, low, high = places(words[2:])
        timeline.jobs.append(timeline.plan(chunk_of(instant), low, high, words[1].decode()))
        return "job %d" % (len(timeline.jobs) - 1)
    if words[0] == b"image" and len(words) == 3 and words[1]:
        place = number_of(words[2])
        return timeline.image(chunk_of(words[1]), place)
    if words[0] == b"commit" and len(words) == 2:
        number = number_of(words[1])
        if number >= len(timeline.jobs):
            raise bad_command()
        timeline.commit(timeline.jobs[number])
        return "committed"
    if line == b"pin":
        timeline.pins.append(timeline.snapshot())
        return "pin %d" % (len(timeline.pins) - 1)
    if word == b"query" and b" " in line:
        return answer(spec, rest, timeline.snapshot())
    if word == b"audit" and b" " in line:
        return audit(spec, rest, timeline.snapshot())
    if word == b"at" and len(words) > 2:
        number = number_of(words[1])
        if number >= len(timeline.pins):
            raise bad_command()
        return answer(spec, rest.partition(b" ")[2], timeline.pins[number])
    if line == b"stats":
        return "processed %d unparseable %d thrownAway 0" % (timeline.processed, timeline.unparseable)
    raise bad_command()


def run(script):
    """What a script writes, and its status."""
    lines = script.split(b"\n")
    if not lines[-1]:
        lines.pop()
    written, timeline, status = [], None, 0
    for line in lines:
        try:
            if len(line) > LONGEST_LINE:
                raise Refusal(98, "LineTooLong")
            if timeline:
                written.append(reply(timeline, line))
            else:
                timeline = Timeline(Spec(line))
                written.append("spec ok")
        except Refusal as it:
            written.append("refused " + it.line)
            status = 1
            if not timeline:
                break
    return "".join(it + "\n" for it in written).encode(), status


def contents(path):
    try:
        with open(path, "rb") as file:
            return file.read()
    except FileNotFoundError:
        return None


def write(path, data):
    if data is not None:
        with open(path, "wb") as file:
            file.write(data)
    elif os.path.exists(path):
        os.remove(path)


def main(words):
    if not words:
        output, status = run(sys.stdin.buffer.read())
        sys.stdout.buffer.write(output)
        return status
    differ = 0
    for name in words[1:]:
        base = name.removesuffix(".script")
        output, status = run(contents(base + ".script"))
        if words[0] == "--write":
            write(base + ".out", output)
            write(base + ".status", b"1\n" if status else None)
            continue
        wanted = contents(base + ".out") or b""
        if (output, status) != (wanted, int(contents(base + ".status") or 0)):
            differ = 1
            pairs = zip(output.split(b"\n"), wanted.split(b"\n"))
            mine, other = next(((a, b) for a, b in pairs if a != b), (b"status or length", b""))
            print("%s\n  here   %s\n  beside %s" % (base, mine.decode(errors="replace")[:500], other.decode(errors="replace")[:500]))
    return differ


if __name__ == "__main__":
    sys.exit(main(sys.argv[1:]))
