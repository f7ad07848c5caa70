#!/usr/bin/env python3
"""Day files of document 01 and month books of document 02, §5: builders from named numbers to bytes,
the place of each word, and random days.

A Day holds exactly the numbers of a day file; `to_bytes` works out the contents. The builder checks
nothing, so that a day with a number out of its range can be built too. The random days keep every
rule of the check, so that each is accepted unless it is damaged afterwards; settling may still
refuse one with 16, 11 or 12. A Book holds day files, and checks as little.

Only `randrange` and `choice` of random.Random are used, and no floating point number, so that a
seed gives the same days on every machine.

Run as a program it writes one random day to standard output: days.py SEED
"""

import datetime
import random
import struct
import sys

sys.dont_write_bytecode = True  # running a tool leaves nothing behind in the repository

import arguments
from reference import AMOUNTS_SHOWN

MISSING = -2147483648
PEAK_WORD = 4194240
HOURS = 24
DATE = 20260504

# The head of a body and the first numbers of an hour, in file order.
HEAD = ("kind", "flag", "persistent_days", "hub_a", "hub_b", "load_points", "coordinators")
HOUR_NUMBERS = (
    "energy_up",
    "regulation_up",
    "spin",
    "non_spin",
    "energy_down",
    "regulation_down",
    "requirement",
    "mec",
)
UPWARD = HOUR_NUMBERS[:4]
DOWNWARD = HOUR_NUMBERS[4:6]

# The words of a day in the contents of a book, in their order.
KEPT_DAY = ("date", "first", "length")

# The ends of each range of document 01.
MOST_DEFICIENCY = 2500000
MOST_REQUIREMENT = 50000000
MOST_MARKET_PRICE = 20000000
MOST_HUB_PRICE = 200000
MOST_QUANTITY = 10000000
MOST_DEMAND = 100000000
MOST_COORDINATORS = 64
LARGEST_NUMBER = 2147483647


class Hour:
    """An hour of an area: 8 numbers, 12L pairs of quantity and price, K demands."""

    def __init__(self, pairs, demands):
        for name in HOUR_NUMBERS:
            setattr(self, name, 0)
        self.pairs = pairs
        self.demands = demands

    def words(self):
        numbers = [getattr(self, name) for name in HOUR_NUMBERS]
        intervals = [word for pair in self.pairs for word in pair]
        return numbers + intervals + list(self.demands)

    def set_upward(self, parts):
        for name, part in zip(UPWARD, parts):
            setattr(self, name, part)

    def set_downward(self, parts):
        for name, part in zip(DOWNWARD, parts):
            setattr(self, name, part)


class Area:
    """An area: its number in the contents, and its body."""

    def __init__(self, number, kind, load_points, coordinators, hours):
        self.number = number
        self.kind = kind
        self.flag = 1
        self.persistent_days = 0
        self.hub_a = 0
        self.hub_b = 0
        self.load_points = load_points
        self.coordinators = coordinators
        self.hours = hours

    def words(self):
        head = [self.kind, self.flag, self.persistent_days, self.hub_a, self.hub_b]
        head += [self.load_points, len(self.coordinators)]
        hours = [word for hour in self.hours for word in hour.words()]
        return head + list(self.coordinators) + hours


class Day:
    """A whole day file."""

    def __init__(self, date, peak, areas):
        self.edition = 1
        self.date = date
        self.peak = peak
        self.areas = areas

    def words(self):
        header = [self.edition, self.date, len(self.areas), self.peak]
        contents, bodies = [], []
        first = 4 + 3 * len(self.areas)
        for area in self.areas:
            body = area.words()
            contents += [area.number, first + len(bodies), len(body)]
            bodies += body
        return header + contents + bodies

    def to_bytes(self):
        return bytes_of(self.words())

    def numbers_needed(self):
        return sum(HOURS * (AMOUNTS_SHOWN + len(area.coordinators)) for area in self.areas)

    # Places: the word where a number of the day stands. Areas, hours, pairs and coordinators
    # count from 0.

    def head_place(self, area, name):
        before = sum(len(earlier.words()) for earlier in self.areas[:area])
        return 4 + 3 * len(self.areas) + before + HEAD.index(name)

    def coordinator_place(self, area, coordinator):
        return self.head_place(area, "kind") + len(HEAD) + coordinator

    def hour_place(self, area, hour):
        hours_before = sum(len(earlier.words()) for earlier in self.areas[area].hours[:hour])
        return self.coordinator_place(area, len(self.areas[area].coordinators)) + hours_before

    def number_place(self, area, hour, name):
        return self.hour_place(area, hour) + HOUR_NUMBERS.index(name)

    def quantity_place(self, area, hour, pair):
        return self.hour_place(area, hour) + len(HOUR_NUMBERS) + 2 * pair

    def price_place(self, area, hour, pair):
        return self.quantity_place(area, hour, pair) + 1

    def demand_place(self, area, hour, coordinator):
        return self.quantity_place(area, hour, 12 * self.areas[area].load_points) + coordinator


class Book:
    """A month book: the bytes of day files, in the order in which they stand. Days count from 0."""

    def __init__(self, files):
        self.files = files

    def to_bytes(self):
        contents = [1, len(self.files)]
        for day, file_bytes in enumerate(self.files):
            (date,) = struct.unpack("<I", file_bytes[4:8])
            contents += [date, self.file_place(day), len(file_bytes) // 4]
        return bytes_of(contents) + b"".join(self.files)

    def contents_place(self, day, name):
        return 2 + 3 * day + KEPT_DAY.index(name)

    def file_place(self, day):
        before = sum(len(file_bytes) // 4 for file_bytes in self.files[:day])
        return 2 + 3 * len(self.files) + before


# Bytes and words


def bytes_of(words):
    """Little-endian 32-bit words; a word may be given signed or unsigned."""
    return struct.pack("<%dI" % len(words), *[word & 0xFFFFFFFF for word in words])


def with_words(file_bytes, *changes):
    """The same bytes but for words that are changed, each given as (place, value)."""
    changed = bytearray(file_bytes)
    for place, value in changes:
        changed[4 * place : 4 * place + 4] = bytes_of([value])
    return bytes(changed)


# Dates


def later(date, count):
    """The day so many days after a date, both as YYYYMMDD; before it for a count below 0."""
    day = datetime.date(date // 10000, date // 100 % 100, date % 100)
    day += datetime.timedelta(days=count)
    return day.year * 10000 + day.month * 100 + day.day


# Days to start from


def quiet_area(number, kind, load_points, coordinators, pair=(0, MISSING)):
    """An area in which nothing happens: all numbers zero, every pair the same."""
    hours = [
        Hour([pair] * (12 * load_points), [0] * len(coordinators)) for _ in range(HOURS)
    ]
    return Area(number, kind, load_points, coordinators, hours)


def quiet_day(shapes, peak=PEAK_WORD, date=DATE, pair=(1000, 250000), demand=1000):
    """A day of quiet areas, one for each shape (kind, L, K), with a price in every interval and a
    demand for every coordinator."""
    areas = []
    for kind, load_points, count in shapes:
        coordinators = [11 + k for k in range(count)]
        area = quiet_area(7 + 2 * len(areas), kind, load_points, coordinators, pair)
        for hour in area.hours:
            hour.demands = [demand] * count
        areas.append(area)
    return Day(date, peak, areas)


# Random numbers


def chance(rng, percent):
    return rng.randrange(100) < percent


def between(rng, low, high):
    return rng.randrange(low, high + 1)


def rising(rng, count, highest):
    """Numbers that rise strictly, from 1 to the highest."""
    found = []
    while len(found) < count:
        number = between(rng, 1, highest)
        if number not in found:
            found.append(number)
    return sorted(found)


def parts_of(rng, total, count):
    """A total split into deficiencies, each in its range; at most count × 2,500,000 of it."""
    total = max(0, min(total, count * MOST_DEFICIENCY))
    parts = []
    for left in range(count - 1, -1, -1):
        least = max(0, total - left * MOST_DEFICIENCY)
        most = min(total, MOST_DEFICIENCY)
        part = rng.choice((least, most, between(rng, least, most)))
        parts.append(part)
        total -= part
    return parts


def demands_of(rng, count, most):
    """Demands that together are at most `most`."""
    demands = []
    for _ in range(count):
        demand = 0 if chance(rng, 15) else between(rng, 0, min(most, MOST_DEMAND // count))
        demands.append(demand)
        most -= demand
    return demands


# Random days. A style says how the numbers of an area are drawn.

REALISTIC = "realistic"
THRESHOLDS = "thresholds"
EXTREME = "extreme"
STYLES = (REALISTIC, REALISTIC, THRESHOLDS, THRESHOLDS, EXTREME)


def random_requirement(rng, style):
    if style == REALISTIC:
        return between(rng, 100000, 3000000)
    if style == THRESHOLDS:
        # Around the figures T1 to T5, and where 1% or half of Q is a whole or a half number.
        common = (10000, 20000, 20001, 60000, 600000, 1000000, 1000050, 1000100, 2000000, 2000001)
        return rng.choice(common + (between(rng, 0, 40000), between(rng, 900000, 20000000)))
    ends = (0, 1, 2, 100, 199, 19999999, MOST_REQUIREMENT - 1, MOST_REQUIREMENT)
    return rng.choice(ends + (between(rng, 0, MOST_REQUIREMENT),))


def random_upward(rng, style, requirement):
    """U of an hour: none, or at one of the lines between the tiers, or anywhere."""
    if style == REALISTIC:
        return 0 if chance(rng, 70) else between(rng, 1, 400000)
    if style == THRESHOLDS:
        line = rng.choice((0, 10000, requirement // 100, requirement // 2, (requirement + 1) // 2))
        return max(0, line + rng.choice((-1, 0, 0, 1)))
    most = 4 * MOST_DEFICIENCY
    return rng.choice((0, 1, most, most - 1, MOST_DEFICIENCY, between(rng, 0, most)))


def random_downward(rng, style):
    """W of an hour: none, or at the line of 10 MW, or anywhere."""
    if style == REALISTIC:
        return 0 if chance(rng, 75) else between(rng, 1, 200000)
    if style == THRESHOLDS:
        return rng.choice((0, 9999, 10000, 10001, 12500, between(rng, 10001, 100000)))
    most = 2 * MOST_DEFICIENCY
    return rng.choice((0, 1, most, most - 1, between(rng, 0, most)))


def random_market_price(rng, style):
    if style == REALISTIC:
        return between(rng, -300000, 2000000)
    if style == THRESHOLDS:
        # Round prices, so that halves of a cent come up.
        return rng.choice((-100, -50, 50, 100, 250, 300000, 400000, between(rng, -999, 999) * 100))
    ends = (-MOST_MARKET_PRICE, -1, 0, 1, MOST_MARKET_PRICE)
    return rng.choice(ends + (between(rng, -MOST_MARKET_PRICE, MOST_MARKET_PRICE),))


def random_quantity(rng, style):
    if style == REALISTIC:
        return between(rng, 1, 500000)
    if style == THRESHOLDS:
        return rng.choice((0, 1, 2, 1000, 1000, 1000, 2500, between(rng, 0, 9999)))
    return rng.choice((0, 1, MOST_QUANTITY, MOST_QUANTITY - 1, between(rng, 0, MOST_QUANTITY)))


def missing_at(pairs, places):
    """The same intervals, with no price at some places."""
    return [(q, MISSING if place in places else p) for place, (q, p) in enumerate(pairs)]


def random_places(rng, count, some):
    """So many of the places 0 to count - 1."""
    left = list(range(count))
    return [left.pop(rng.randrange(len(left))) for _ in range(some)]


def random_pairs(rng, style, count, gaps):
    """Intervals of an hour: mostly all present, some with a quarter of the prices missing or less;
    with gaps, few with more missing or without any quantity, which settling refuses where the price
    is needed."""
    pairs = [(random_quantity(rng, style), random_market_price(rng, style)) for _ in range(count)]
    what = rng.randrange(100)
    quarter = count // 4
    if gaps and what < 6:
        some = rng.choice((quarter + 1, count - 1, count, between(rng, quarter + 1, count)))
        return missing_at(pairs, random_places(rng, count, some))
    if gaps and what < 10:
        pairs = [(0, p) for _, p in pairs]
        return missing_at(pairs, random_places(rng, count, rng.choice((0, quarter))))
    if what < 40:
        some = rng.choice((quarter, between(rng, 1, quarter)))
        pairs = missing_at(pairs, random_places(rng, count, some))
    if all(q == 0 or p == MISSING for q, p in pairs):
        pairs[rng.randrange(count)] = (between(rng, 1, 9), random_market_price(rng, style))
    return pairs


def random_demands(rng, style, count, gaps):
    """Demands of an hour; with gaps, few hours without any."""
    if gaps and chance(rng, 8):
        return [0] * count
    most = MOST_DEMAND if style == EXTREME else rng.choice((3, 1000, 30000000))
    demands = demands_of(rng, count, most)
    if style == EXTREME and chance(rng, 20):
        # Together exactly the most that is allowed.
        demands[-1] += MOST_DEMAND - sum(demands)
    if sum(demands) == 0:
        demands[rng.randrange(count)] = 1
    return demands


def random_hour(rng, style, load_points, count, gaps):
    pairs = random_pairs(rng, style, 12 * load_points, gaps)
    hour = Hour(pairs, random_demands(rng, style, count, gaps))
    hour.requirement = random_requirement(rng, style)
    hour.set_upward(parts_of(rng, random_upward(rng, style, hour.requirement), 4))
    hour.set_downward(parts_of(rng, random_downward(rng, style), 2))
    hour.mec = random_market_price(rng, style)
    return hour


def random_hub_price(rng, style):
    if style == REALISTIC:
        return between(rng, 1000, 20000)
    ends = (-MOST_HUB_PRICE, -1, 0, 1, 8000, 9550, MOST_HUB_PRICE)
    return rng.choice(ends + (between(rng, -MOST_HUB_PRICE, MOST_HUB_PRICE),))


def random_area(rng, style, gaps, number, kind, load_points, count):
    highest = rng.choice((count + 5, 5000, LARGEST_NUMBER))
    coordinators = rising(rng, count, highest)
    hours = [random_hour(rng, style, load_points, count, gaps) for _ in range(HOURS)]
    area = Area(number, kind, load_points, coordinators, hours)
    area.flag = 0 if chance(rng, 10) else 1
    area.persistent_days = rng.choice((0, 1, 3, 29, 30, between(rng, 0, 30)))
    area.hub_a = random_hub_price(rng, style)
    area.hub_b = random_hub_price(rng, style)
    if chance(rng, 40):
        calm_peak_hours(rng, area)
    return area


def calm_peak_hours(rng, area):
    """Most peak hours without a deficiency, so that a day has passed hours and a credit."""
    for hour in area.hours[6:22]:
        if chance(rng, 80):
            hour.set_upward((0, 0, 0, 0))


def random_shape(rng, kind):
    """(kind, L, K): mostly one load point and few coordinators, so that files stay small."""
    load_points = 2 if chance(rng, 15) else 1
    if kind == 0:
        return kind, load_points, 1
    count = rng.choice((1, 2, 2, 3, 3, 4, 5, 7, between(rng, 1, 20)))
    if chance(rng, 5):
        count = rng.choice((MOST_COORDINATORS - 1, MOST_COORDINATORS))
    return kind, load_points, count


def random_date(rng):
    """A day that every month has, or an end of the years or of February."""
    ends = (20000101, 20000229, 20240229, 20991231)
    day = between(rng, 2000, 2099) * 10000 + between(rng, 1, 12) * 100 + between(rng, 1, 28)
    return rng.choice(ends + (day, day, day, day))


def random_day_of(rng, shapes, style=None, peak=None, gaps=None):
    """A random day with these areas, (kind, L, K) each. Style, peak word and gaps (hours with too
    few prices, without a quantity or without a demand) are drawn unless they are given."""
    highest = rng.choice((len(shapes) + 3, 3000, LARGEST_NUMBER))
    numbers = rising(rng, len(shapes), highest)
    areas = []
    for number, shape in zip(numbers, shapes):
        drawn_style = rng.choice(STYLES) if style is None else style
        drawn_gaps = chance(rng, 15) if gaps is None else gaps
        areas.append(random_area(rng, drawn_style, drawn_gaps, number, *shape))
    if peak is None:
        peak = 0 if chance(rng, 30) else PEAK_WORD
    return Day(random_date(rng), peak, areas)


def random_day(rng, style=None):
    """A random day of any shape: mostly one or two areas, at times up to eight."""
    count = rng.choice((1, 1, 1, 1, 2, 2, 2, 3))
    if chance(rng, 2):
        count = between(rng, 4, 8)
    ciso = rng.randrange(2 * count)  # none in half of the days
    shapes = [random_shape(rng, 1 if place == ciso else 0) for place in range(count)]
    return random_day_of(rng, shapes, style)


def main():
    parser = arguments.parser_of(__doc__)
    parser.add_argument("seed", metavar="SEED", type=int)
    sys.stdout.buffer.write(random_day(random.Random(parser.parse_args().seed)).to_bytes())


if __name__ == "__main__":
    main()
