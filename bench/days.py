#!/usr/bin/env python3
"""The day files of the benchmark, and its month book.

    days.py FOLDER     writes them to FOLDER

full       8 areas, CISO with 64 coordinators, 2 load points, failures in every hour
ordinary   8 areas, CISO with 64 coordinators, 2 load points, failures in one hour in twenty
passing    8 areas, CISO with 64 coordinators, 2 load points, failures in one hour in two: in most some areas pay and others pass
smallest   one area with one coordinator and one load point, no failure
refused    the full day, its last word broken
areas-N    N areas of one coordinator, 2 load points, failures in every hour
missing-R  the 8 areas, five of a hundred prices missing, at random
missing-4  the 8 areas, every fourth price missing, which is as many as may be
high       the 8 areas, every price at least $1,700, beyond what a glance tells
ciso-K     one CISO area of K coordinators, 2 load points, failures in every hour

full.book  a month book of the full day under each date of May
"""

import random
import sys
from pathlib import Path

sys.dont_write_bytecode = True  # running a tool leaves nothing behind in the repository
sys.path.insert(0, str(Path(__file__).resolve().parent.parent / "tools"))

import arguments
import days

OTHER = (0, 2, 1)


def ciso(count):
    return (1, 2, count)


def as_drawn(pairs):
    return pairs


def five_missing(pairs):
    """Five of a hundred prices missing, at random, and no more than may be."""
    rng = random.Random(repr(pairs))
    left = len(pairs) // 4
    taken = []
    for quantity, price in pairs:
        gone = left > 0 and rng.randrange(100) < 5
        left -= gone
        taken.append((quantity, days.MISSING if gone else price))
    return taken


def fourth_missing(pairs):
    return [(quantity, days.MISSING if i % 4 == 3 else price) for i, (quantity, price) in enumerate(pairs)]


def high(pairs):
    return [(quantity, 17000000 + abs(price)) for quantity, price in pairs]


def day_of(seed, shapes, failing, intervals=as_drawn):
    """A day of these shapes (kind, L, K), with failures in so many of a hundred hours, and what `intervals` makes of the drawn ones."""
    rng = random.Random(seed)
    areas = []
    for number, (kind, points, count) in enumerate(shapes):
        hours = []
        for _ in range(24):
            pairs = [(rng.randrange(1, 500000), rng.randrange(-50000, 2000000)) for _ in range(12 * points)]
            hour = days.Hour(intervals(pairs), [rng.randrange(1, 1500000) for _ in range(count)])
            hour.requirement = 600000
            hour.mec = -rng.randrange(1, 400000)
            if rng.randrange(100) < failing:
                hour.set_upward([rng.randrange(100000) for _ in range(4)])
                hour.set_downward([rng.randrange(100000) for _ in range(2)])
            hours.append(hour)
        area = days.Area(101 + number, kind, points, list(range(1001, 1001 + count)), hours)
        area.flag = 1
        area.persistent_days = 3
        area.hub_a, area.hub_b = 8000, 9550
        areas.append(area)
    return days.Day(days.DATE, days.PEAK_WORD, areas).to_bytes()


def broken(file_bytes):
    """Its last demand out of range."""
    return file_bytes[:-4] + b"\xff\xff\xff\x7f"


def month_of(file_bytes):
    """A month book of the same day under each date of May."""
    dates = range(20260501, 20260532)
    return days.Book([days.with_words(file_bytes, (1, date)) for date in dates]).to_bytes()


def all_files():
    full = day_of(1, [ciso(64)] + 7 * [OTHER], 100)
    yield "full.day", full
    yield "full.book", month_of(full)
    yield "ordinary.day", day_of(2, [ciso(64)] + 7 * [OTHER], 5)
    yield "passing.day", day_of(5, [ciso(64)] + 7 * [OTHER], 50)
    yield "smallest.day", days.quiet_day([(0, 1, 1)]).to_bytes()
    yield "refused.day", broken(full)
    for count in range(1, 9):
        yield "areas-%d.day" % count, day_of(3, count * [OTHER], 100)
    for name, intervals in (("missing-R", five_missing), ("missing-4", fourth_missing), ("high", high)):
        yield name + ".day", day_of(3, 8 * [OTHER], 100, intervals)
    for count in (1, 2, 4, 8, 16, 32, 64):
        yield "ciso-%d.day" % count, day_of(4, [ciso(count)], 100)


def main():
    parser = arguments.parser_of(__doc__)
    parser.add_argument("folder", metavar="FOLDER", type=Path)
    folder = parser.parse_args().folder
    try:
        folder.mkdir(parents=True, exist_ok=True)
        for name, file_bytes in all_files():
            (folder / name).write_bytes(file_bytes)
    except OSError as error:
        parser.error("the days cannot be written: %s" % error)


if __name__ == "__main__":
    main()
