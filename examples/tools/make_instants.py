"""Writes the script cases/instants_of_many_spellings with its output: a query from each of some 600 instants on, whose answer begins
with that instant as it is printed.

The instants come from Python's datetime, whose calendar is the proleptic Gregorian one. The texts are drawn at random, in all their
spellings, always the same ones. Run it in the folder examples: python3 tools/make_instants.py
"""

from datetime import datetime, timedelta
from random import Random

EPOCH = datetime(1970, 1, 1)
MILLI = timedelta(milliseconds=1)
FIRST = (datetime.min - EPOCH) // MILLI
LAST = (datetime.max - EPOCH) // MILLI

SPEC = '{"dataSchema":{"dataSource":"w","timestampSpec":{"column":"t","format":"iso"},"dimensionsSpec":{"dimensions":["page"]}}}'

EVENT = '+ {"t":"9999-12-31T23:59:59.998Z"}'

QUERY = 'query {"queryType":"timeseries","dataSource":"w","intervals":"%s/9999-12-31T23:59:59.999Z","granularity":"all",'
QUERY += '"aggregations":[{"type":"count","name":"rows"}]}'

ANSWER = '[{"result":{"rows":1},"timestamp":"%s"}]'


def zone(random):
    """A zone, and by how many minutes its clock is ahead of UTC."""
    kind = random.randrange(6)
    if kind == 0:
        return "", 0
    if kind == 1:
        return "Z", 0
    hour, minute = random.randrange(24), random.randrange(60)
    sign, text = random.choice([(1, "+"), (-1, "-")])
    if kind < 4:
        return f"{text}{hour:02}", sign * hour * 60
    return f"{text}{hour:02}:{minute:02}", sign * (hour * 60 + minute)


def row(random):
    time = EPOCH + MILLI * random.randint(FIRST, LAST)
    if random.randrange(3) == 0:
        time = time.replace(year=random.choice([1, 4, 1600, 1900, 1904, 1969, 1970, 2000, 2023, 2024, 9999]), month=2, day=28)
        time += timedelta(days=random.randrange(2))
    parts = random.randint(1, 8)
    time = time.replace(
        month=time.month if parts > 1 else 1,
        day=time.day if parts > 2 else 1,
        hour=time.hour if parts > 3 else 0,
        minute=time.minute if parts > 4 else 0,
        second=time.second if parts > 5 else 0,
        microsecond=0,
    )
    text = f"{time.year:04}"
    text += f"-{time.month:02}" if parts > 1 else ""
    text += f"-{time.day:02}" if parts > 2 else ""
    text += f"{random.choice('T ')}{time.hour:02}" if parts > 3 else ""
    text += f":{time.minute:02}" if parts > 4 else ""
    text += f":{time.second:02}" if parts > 5 else ""
    millis = 0
    if parts > 6:
        digits = "".join(random.choice("0123456789") for _ in range(random.randint(1, 9)))
        text += "." + digits
        millis = int(digits[:3].ljust(3, "0"))
    ahead = 0
    if parts > 3:
        shift, ahead = zone(random)
        text += shift
    instant = time + timedelta(milliseconds=millis - ahead * 60_000) if is_in_range(time, millis, ahead) else None
    return (text, printed(instant)) if instant else None


def is_in_range(time, millis, ahead):
    """Whether the instant lies in the years 1 to 9999."""
    return FIRST <= (time - EPOCH) // MILLI + millis - ahead * 60_000 <= LAST


def printed(time):
    """A time of UTC, to the millisecond."""
    return f"{time.year:04}-{time:%m-%dT%H:%M:%S}.{time.microsecond // 1000:03}Z"


def main():
    random = Random(1)
    rows = [it for it in (row(random) for _ in range(600)) if it]
    lines = [SPEC, EVENT] + [QUERY % text for text, _ in rows]
    replies = ["spec ok", "accepted 0"] + [ANSWER % wanted for _, wanted in rows]
    for ending, texts in (("script", lines), ("out", replies)):
        with open(f"cases/instants_of_many_spellings.{ending}", "w", encoding="utf-8") as file:
            file.write("\n".join(texts) + "\n")


main()
