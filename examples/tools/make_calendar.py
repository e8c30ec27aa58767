"""Writes the scripts cases/calendar_of_weeks, _months, _quarters and _years with their outputs: for buckets in sampled years, an event
at the start of the bucket, then a seal of the chunk of the millisecond before, which has nothing open, and one of the chunk of the
bucket's last millisecond, which has the event.

The dates come from Python's datetime, whose calendar is the proleptic Gregorian one and whose weeks begin on Mondays.
Run it in the folder examples: python3 tools/make_calendar.py
"""

from datetime import date, timedelta

DAY = timedelta(days=1)

# years round the ends of the calendar, of centuries and of 400 years, round the epoch, and the leap years of our time
YEARS = [1, 2, 3, 4, 5, 99, 100, 101, 399, 400, 401, 1582, 1599, 1600, 1700, 1752, 1800, 1896, 1899, 1900, 1901, 1904]
YEARS += list(range(1967, 1974)) + [1999, 2000, 2001, 2004] + list(range(2019, 2030)) + [2099, 2100, 2101, 2399, 2400]
YEARS += [4000, 9600, 9900, 9996, 9997, 9998, 9999]

SPEC = '{"dataSchema":{"dataSource":"w","timestampSpec":{"column":"t","format":"iso"},"dimensionsSpec":{"dimensions":["page"]},'
SPEC += '"granularitySpec":{"segmentGranularity":"%s"}}}'


def first_of_month(year, month):
    """The first day of a month, which may be one after December."""
    return date(year + (month - 1) // 12, (month - 1) % 12 + 1, 1)


def last_before(year, month):
    """The day before the first one of a month."""
    return date.max if (year, month) == (9999, 13) else first_of_month(year, month) - DAY


def months(length):
    """The first and the last day of each bucket of that many months."""
    return [(first_of_month(y, m), last_before(y, m + length)) for y in YEARS for m in range(1, 13, length)]


def weeks():
    """Those of the weeks in which a month begins."""
    mondays = [it - it.weekday() * DAY for y in YEARS for it in (first_of_month(y, m) for m in range(1, 13))]
    return [(it, it + 6 * DAY) for it in sorted(set(mondays))]


def write(name, granularity, buckets):
    lines, replies = [SPEC % granularity], ["spec ok"]
    for number, (first, last) in enumerate(buckets):
        lines.append('+ {"t":"%s"}' % first.isoformat())
        replies.append("accepted %d" % number)
        if first > date.min:
            lines.append("seal %sT23:59:59.999" % (first - DAY).isoformat())
            replies.append("refused 91 NothingToSeal")
        lines.append("seal %sT23:59:59.999" % last.isoformat())
        replies.append("sealed")
    for ending, rows in (("script", lines), ("out", replies), ("status", ["1"])):
        with open("cases/%s.%s" % (name, ending), "w", encoding="utf-8") as file:
            file.write("\n".join(rows) + "\n")


write("calendar_of_weeks", "week", weeks())
write("calendar_of_months", "month", months(1))
write("calendar_of_quarters", "quarter", months(3))
write("calendar_of_years", "year", months(12))
