#!/usr/bin/env python3
"""The example day: a warm working day of eight areas, one of them CISO with twelve coordinators.

Every number comes from the tables here, in whole numbers, so that the day is the same on every
machine. `make` writes examples/example.day, what settle8080 prints for it by reference.py to
examples/example.out, and what explain8080 prints for it by explanation.py to
examples/example.explained; `check` exits 1 if one of them differs from what `make` would write.
"""

import sys
from pathlib import Path

sys.dont_write_bytecode = True  # running a tool leaves nothing behind in the repository

import arguments
import days
import explanation
import reference

ROOT = Path(__file__).resolve().parent.parent
DAY = ROOT / "examples" / "example.day"
PRINTED = ROOT / "examples" / "example.out"
EXPLAINED = ROOT / "examples" / "example.explained"

TRADING_DAY = 20260714

# Load in percent of the area's highest, hours ending 1 to 12 and 13 to 24.
LOAD = (62, 59, 57, 56, 58, 63, 69, 74, 78, 81, 84, 87)
LOAD += (90, 93, 96, 98, 100, 99, 97, 93, 88, 81, 73, 66)

# The price of energy in dollars, hours ending 1 to 12 and 13 to 24.
PRICE = (38, 35, 33, 32, 34, 41, 47, 44, 36, 25, 14, 6)
PRICE += (-4, -2, 9, 27, 52, 78, 91, 84, 67, 55, 48, 42)

CISO = 1104

# The area that has not joined the extended day-ahead market: EDAM flag 0, nothing is charged.
NOT_JOINED = 1106

# (area number, highest load in MW, persistent days, hub prices A and B in dollars, load points,
# coordinator), lowest number first; the CISO area has its coordinators below.
AREAS = (
    (1101, 3400, 0, (58, 61), 1, 2101),
    (1102, 5200, 3, (80, 95), 1, 2102),
    (1103, 1900, 12, (80, 95), 2, 2103),
    (1104, 27500, 1, (62, 64), 2, None),
    (1105, 4100, 0, (58, 61), 1, 2105),
    (1106, 2600, 5, (80, 95), 1, 2106),
    (1107, 7800, 0, (58, 61), 2, 2107),
    (1108, 1200, 0, (80, 95), 1, 2108),
)

# The coordinators of the CISO area: number, and share of the area's load in thousandths. The last
# one has no demand.
CISO_COORDINATORS = (
    (3001, 352),
    (3007, 241),
    (3012, 118),
    (3019, 96),
    (3020, 61),
    (3044, 47),
    (3051, 33),
    (3068, 22),
    (3102, 15),
    (3117, 9),
    (3230, 6),
    (3305, 0),
)

# Upward failures in MW: (area, hour ending): (energy, regulation up, spin, non-spin). The upward
# imbalance reserve requirement of an area is 4% of its highest load.
UPWARD = {
    # Off-peak: 4 MW is tier 1, 50 MW of 136 is tier 2, 90 MW of 136 is tier 3.
    (1101, 2): (4, 0, 0, 0),
    (1101, 4): (30, 8, 12, 0),
    (1101, 24): (70, 0, 15, 5),
    # On-peak, day tier 2: 85 MW of 208 is the day's highest; 9 MW is tier 1.
    (1102, 18): (60, 5, 20, 0),
    (1102, 19): (85, 0, 0, 0),
    (1102, 20): (9, 0, 0, 0),
    # On-peak, day tier 3: 52 MW of 76.
    (1103, 17): (20, 4, 6, 0),
    (1103, 18): (40, 4, 8, 0),
    # CISO, d 1: off-peak tier 2, 410 MW of 1,100, which d scales; on-peak tier 1 alone, which costs
    # nothing.
    (1104, 5): (300, 40, 70, 0),
    (1104, 19): (10, 0, 0, 0),
    # On-peak tier 1 alone.
    (1105, 8): (7, 0, 2, 0),
    # Flag 0.
    (1106, 18): (60, 0, 0, 0),
    (1106, 23): (60, 0, 0, 0),
    # Off-peak tier 3, 170 MW of 312.
    (1107, 1): (120, 0, 30, 20),
}

# Downward failures in MW: (area, hour ending): (energy, regulation down).
DOWNWARD = {
    # The energy price is below zero in the hours ending 13 and 14 alone; 10 MW is not above 10 MW.
    (1104, 13): (180, 25),
    (1105, 12): (20, 0),
    (1105, 13): (20, 4),
    (1105, 14): (8, 2),
    (1106, 13): (30, 0),
    (1107, 14): (60, 0),
}

# Intervals whose price is missing: (area, hour ending): how many of the hour's first ones.
MISSING = {
    (1101, 4): 3,
    (1101, 15): 12,
    (1102, 10): 2,
    (1103, 9): 5,
    (1104, 5): 1,
    (1104, 16): 24,
    (1108, 12): 12,
}


def thousandths(megawatts):
    return tuple(1000 * part for part in megawatts)


def load_of(highest, ending):
    """The load of an hour, in thousandths of a MWh."""
    return 10 * highest * LOAD[ending - 1]


def price_of(ending, load_point, interval):
    """The price of an interval, in $0.0001: a dollar dearer at the second load point, and up to
    half a dollar to and fro within the hour."""
    fro = (7 * interval + 3 * ending) % 11 - 5
    return 10000 * (PRICE[ending - 1] + load_point) + 1000 * fro


def pairs_of(number, highest, load_points, ending):
    """The intervals of the hour: 12 for each load point, of an even part of the load."""
    count = 12 * load_points
    missing = MISSING.get((number, ending), 0)
    pairs = []
    for pair in range(count):
        price = price_of(ending, pair // 12, pair % 12)
        pairs.append((load_of(highest, ending) // count, days.MISSING if pair < missing else price))
    return pairs


def demands_of(number, highest, ending):
    load = load_of(highest, ending)
    if number == CISO:
        return [load * share // 1000 for _, share in CISO_COORDINATORS]
    return [load]


def hour_of(number, highest, load_points, ending):
    pairs = pairs_of(number, highest, load_points, ending)
    hour = days.Hour(pairs, demands_of(number, highest, ending))
    hour.set_upward(thousandths(UPWARD.get((number, ending), (0, 0, 0, 0))))
    hour.set_downward(thousandths(DOWNWARD.get((number, ending), (0, 0))))
    hour.requirement = 40 * highest
    hour.mec = 10000 * PRICE[ending - 1]
    return hour


def area_of(number, highest, persistent_days, hubs, load_points, coordinator):
    hours = [hour_of(number, highest, load_points, ending) for ending in range(1, 25)]
    kind, coordinators = 0, [coordinator]
    if number == CISO:
        kind, coordinators = 1, [its_number for its_number, _ in CISO_COORDINATORS]
    area = days.Area(number, kind, load_points, coordinators, hours)
    area.flag = 0 if number == NOT_JOINED else 1
    area.persistent_days = persistent_days
    area.hub_a, area.hub_b = (100 * dollars for dollars in hubs)
    return area


def made():
    """The day file, and what each program prints for it."""
    areas = [area_of(*area) for area in AREAS]
    file_bytes = days.Day(TRADING_DAY, days.PEAK_WORD, areas).to_bytes()
    return (
        file_bytes,
        reference.program(file_bytes).encode("ascii"),
        explanation.explained(file_bytes).encode("ascii"),
    )


def make():
    DAY.parent.mkdir(exist_ok=True)
    for path, due in zip((DAY, PRINTED, EXPLAINED), made()):
        path.write_bytes(due)


def check():
    for path, due in zip((DAY, PRINTED, EXPLAINED), made()):
        name = path.relative_to(ROOT).as_posix()
        if not path.exists():
            sys.exit("%s is missing; tools/example.py make writes it." % name)
        if path.read_bytes() != due:
            sys.exit("%s is not what tools/example.py makes." % name)


def main():
    parser = arguments.parser_of(__doc__)
    parser.add_argument("command", choices=("make", "check"))
    {"make": make, "check": check}[parser.parse_args().command]()


if __name__ == "__main__":
    main()
