#!/usr/bin/env python3
"""What the program explain8080 prints for a day file, derived from docs/EXPLAIN.md and the rules: the
lines of a day that is settled, and the line of one that is refused, with the place in words.

The amounts, S, the credit and the charges are those of the statement that reference.py settles; every
number that they rest on is asked of the functions of reference.py that settled it, and turned back
into the units of the day file. It shares no code with the crates, so that an agreement of the two says
something.

Run as a program it prints the lines for one file: explanation.py FILE, with - for standard input.
"""

import sys
from collections import namedtuple
from pathlib import Path

sys.dont_write_bytecode = True  # running a tool leaves nothing behind in the repository

import arguments
import reference

# The kinds of a day that is settled, in their order, and the names of their fields.
KINDS = {
    "day": ("trading day", "areas", "peak word"),
    "area": (
        "area",
        "kind",
        "flag",
        "d",
        "hub price A (cents)",
        "hub price B (cents)",
        "greater hub price (cents)",
        "load points",
        "coordinators",
        "day tier",
        "M (0.001 MW)",
        "m (quarters)",
    ),
    "hour": (
        "area",
        "hour ending",
        "U (0.001 MW)",
        "Q (0.001 MW)",
        "tier",
        "peak",
        "price needed",
        "price ($0.0001)",
        "intervals with a price",
        "m (quarters)",
        "S (cents)",
        "credit (cents)",
        "on-peak (cents)",
        "off-peak (cents)",
        "W (0.001 MW)",
        "MEC ($0.0001)",
        "downward (cents)",
        "A (cents)",
        "T (0.001 MWh)",
    ),
    "interval": ("area", "hour ending", "interval", "quantity (0.001 MWh)", "price ($0.0001)"),
    "charge": ("area", "coordinator", "hour ending", "demand (0.001 MWh)", "charge (cents)"),
    "area-total": (
        "area",
        "on-peak (cents)",
        "off-peak (cents)",
        "downward (cents)",
        "charges (cents)",
    ),
    "coordinator-total": ("coordinator", "charges (cents)"),
    "day-total": ("on-peak (cents)", "off-peak (cents)", "downward (cents)", "charges (cents)"),
}

# The fields of a day that is refused.
REFUSED = (
    "number",
    "place",
    "part",
    "entry",
    "area",
    "hour ending",
    "field",
    "which",
    "value",
    "intervals with a price",
    "intervals",
)

# The words of each part of a day file, in file order.
HEAD_FIELDS = ("edition", "trading day", "areas", "peak word")
CONTENTS_FIELDS = ("area number", "first word", "words")
BODY_FIELDS = (
    "kind",
    "flag",
    "persistent days",
    "hub price A",
    "hub price B",
    "load points",
    "coordinators",
)
HOUR_FIELDS = (
    "upward energy",
    "regulation up",
    "spin",
    "non-spin",
    "downward energy",
    "regulation down",
    "requirement",
    "MEC",
)
INTERVAL_FIELDS = ("interval quantity", "interval price")

# A file is read to one byte more than the longest that is taken.
MOST_READ = 65537

# The longest statement: eight areas, one of them with 64 coordinators and the others with one each.
MOST_NUMBERS = reference.HOURS * (8 * reference.AMOUNTS_SHOWN + 64 + 7)


# Lines


def line(*fields):
    return "\t".join(str(field) for field in fields) + "\n"


def lines_of(kind, names, rows):
    """The header of a kind and its lines, each with a field for each name."""
    rows = list(rows)
    assert all(len(row) == len(names) for row in rows), kind
    return line("header", kind, *names) + "".join(line(kind, *row) for row in rows)


# Units


def whole(value):
    """A number that is whole in the units of the day file."""
    assert value.denominator == 1, value
    return value.numerator


def thousandths(megawatts):
    return whole(1000 * megawatts)


def quarters(of_tier):
    """m in quarters: 1.25 is 5, 2 is 8, and 0 where the tier is 0 or 1: nothing is multiplied then."""
    return whole(4 * reference.multiplier(of_tier)) if of_tier >= 2 else 0


# A day that is settled. An area and its hours are read with the statement's numbers of each hour.

SettledHour = namedtuple("SettledHour", "area ending hour on_peak off_peak downward S credit charges")


def settled_hours(areas, statement):
    """The hours of each area in file order, each with its 5 + K numbers of the statement."""
    numbers = iter(statement)
    return [
        [settled_hour(area, ending, hour, numbers) for ending, hour in enumerate(area.hours, 1)]
        for area in areas
    ]


def settled_hour(area, ending, hour, numbers):
    amounts_shown = [next(numbers) for _ in range(reference.AMOUNTS_SHOWN)]
    charges = [next(numbers) for _ in area.coordinators]
    settled = SettledHour(area, ending, hour, *amounts_shown, charges)
    assert sum(charges) == amount(settled), (area.number, ending)
    return settled


def amount(settled):
    """A: the on-peak, off-peak and downward amount added."""
    return settled.on_peak + settled.off_peak + settled.downward


def day_row(words):
    return words[1], words[2], words[3]


def area_row(area):
    day_tier = reference.day_tier(area)
    return (
        area.number,
        area.kind,
        area.flag,
        area.days,
        *area.hub_prices,
        max(area.hub_prices),
        len(area.hours[0].pairs) // 12,
        len(area.coordinators),
        day_tier,
        thousandths(reference.highest_deficiency(area)),
        quarters(day_tier),
    )


def deciding_tier(area, hour):
    """The tier that an hour's amount goes by: the day tier in a peak hour, its own in any other."""
    return reference.day_tier(area) if hour.peak else reference.hour_tier(hour)


def price_shown(hour):
    """The load-weighted price, also where it is not needed; none where no quantity stands under a
    price that is present."""
    price = reference.load_weighted(hour.pairs)
    return "none" if price is None else price


def hour_row(settled):
    area, hour = settled.area, settled.hour
    return (
        area.number,
        settled.ending,
        thousandths(reference.upward_deficiency(hour)),
        hour.requirement,
        reference.hour_tier(hour),
        int(hour.peak),
        int(reference.price_is_needed(area, hour)),
        price_shown(hour),
        reference.prices_present(hour.pairs),
        quarters(deciding_tier(area, hour)),
        settled.S,
        settled.credit,
        settled.on_peak,
        settled.off_peak,
        thousandths(reference.downward_deficiency(hour)),
        hour.mec,
        settled.downward,
        amount(settled),
        sum(hour.demands),
    )


def interval_rows(settled):
    for interval, (quantity, price) in enumerate(settled.hour.pairs, 1):
        shown = "missing" if price == reference.MISSING else price
        yield settled.area.number, settled.ending, interval, quantity, shown


def charge_rows(settled):
    area, hour = settled.area, settled.hour
    for coordinator, demand, charge in zip(area.coordinators, hour.demands, settled.charges):
        yield area.number, coordinator, settled.ending, demand, charge


def three_and_charges(hours):
    """The three amounts and the charges of these hours, each added up."""
    totals = (
        sum(settled.on_peak for settled in hours),
        sum(settled.off_peak for settled in hours),
        sum(settled.downward for settled in hours),
        sum(sum(settled.charges) for settled in hours),
    )
    assert sum(totals[:3]) == totals[3]
    return totals


def coordinator_totals(hours):
    """The charges of each coordinator, of all its areas together, in the order in which the file
    first names them: areas in file order, each with its coordinators in theirs."""
    totals = {}
    for settled in hours:
        for coordinator, charge in zip(settled.area.coordinators, settled.charges):
            totals[coordinator] = totals.get(coordinator, 0) + charge
    return list(totals.items())


def settled_text(words, statement):
    areas = reference.areas_of(words)
    hours_of_areas = settled_hours(areas, statement)
    hours = [settled for of_area in hours_of_areas for settled in of_area]
    coordinators, day = coordinator_totals(hours), three_and_charges(hours)
    assert sum(charges for _, charges in coordinators) == day[3]
    rows = {
        "day": [day_row(words)],
        "area": [area_row(area) for area in areas],
        "hour": [hour_row(settled) for settled in hours],
        "interval": [row for settled in hours for row in interval_rows(settled)],
        "charge": [row for settled in hours for row in charge_rows(settled)],
        "area-total": [
            (area.number, *three_and_charges(of_area))
            for area, of_area in zip(areas, hours_of_areas)
        ],
        "coordinator-total": coordinators,
        "day-total": [day],
    }
    return "".join(lines_of(kind, names, rows[kind]) for kind, names in KINDS.items())


# A day that is refused. What is read to find a place is what was right before it was judged: below
# the contents the number of areas, in a body the contents, behind its head L and K.

Location = namedtuple("Location", "part entry area ending field which")


def location(words, place):
    """Where a word of the file stands, by the layout of docs/FORMAT.md."""
    if place < 4:
        return Location("head", 0, 0, 0, HEAD_FIELDS[place], 0)
    if place < 4 + 3 * words[2]:
        entry, field = divmod(place - 4, 3)
        return Location("contents", entry + 1, words[4 + 3 * entry], 0, CONTENTS_FIELDS[field], 0)
    entry = entry_of_body(words, place)
    number, start = words[4 + 3 * entry], words[5 + 3 * entry]
    return location_in_body(words[start:], place - start, entry + 1, number)


def entry_of_body(words, place):
    """The last entry, counted from 0, whose body begins at the place or before it."""
    return max(entry for entry in range(words[2]) if words[5 + 3 * entry] <= place)


def location_in_body(body, word, entry, area):
    if word < 7:
        return Location("body", entry, area, 0, BODY_FIELDS[word], 0)
    load_points, coordinators = body[5], body[6]
    if word < 7 + coordinators:
        return Location("body", entry, area, 0, "coordinator", word - 7 + 1)
    hour, word_of_hour = divmod(
        word - 7 - coordinators, reference.hour_words(load_points, coordinators)
    )
    field, which = field_of_hour(word_of_hour, load_points)
    return Location("hour", entry, area, hour + 1, field, which)


def field_of_hour(word, load_points):
    """8 numbers, 12L pairs of quantity and price, the demands; pairs and demands are counted."""
    if word < 8:
        return HOUR_FIELDS[word], 0
    if word < 8 + 24 * load_points:
        pair, of_pair = divmod(word - 8, 2)
        return INTERVAL_FIELDS[of_pair], pair + 1
    return "demand", word - 8 - 24 * load_points + 1


def intervals_counted(words, number, where):
    """Under 11 and 16 how many of the hour's intervals have a price, and how many there are."""
    if number not in (11, 16):
        return 0, 0
    pairs = reference.area_of(words, where.entry - 1).hours[where.ending - 1].pairs
    return reference.prices_present(pairs), len(pairs)


def refused_row(file_bytes, number, place):
    if number == 1:
        where = Location("file", 0, 0, 0, "bytes", 0)
        return (number, place, *where, len(file_bytes), 0, 0)
    words = reference.words_of(file_bytes)
    where = location(words, place)
    return (number, place, *where, words[place], *intervals_counted(words, number, where))


# Both


def explained(file_bytes):
    """All that explain8080 prints for these bytes on its standard input."""
    file_bytes = file_bytes[:MOST_READ]
    number, place, statement = reference.settle(file_bytes, [0] * MOST_NUMBERS)
    if number != 0:
        return lines_of("refused", REFUSED, [refused_row(file_bytes, number, place)])
    return settled_text(reference.words_of(file_bytes), statement)


def main():
    parser = arguments.parser_of(__doc__)
    parser.add_argument("file", metavar="FILE")
    file = parser.parse_args().file
    try:
        file_bytes = sys.stdin.buffer.read() if file == "-" else Path(file).read_bytes()
    except OSError as error:
        sys.exit("explanation.py: %s cannot be read: %s" % (file, error.strerror))
    sys.stdout.write(explained(file_bytes))


if __name__ == "__main__":
    main()
