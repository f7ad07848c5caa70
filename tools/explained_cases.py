#!/usr/bin/env python3
"""The day files on which the program explain8080 is compared with explanation.py: those of vectors/ and
examples/, those of the check, the settlement and the C call in vectors.py, and days that try what
these do not: every field of the refused line, coordinators under several areas, hours without a
price, the ends of the file's size.

    explained_cases.py write FOLDER   writes NAME.day and NAME.explained for each into the folder

Before it writes it holds what explanation.py gives to what is known without it: the charges that are
not 0 to the lines of reference.program, and the place of a word that was broken on purpose to where it
was broken.
"""

import hashlib
import random
import sys
from pathlib import Path

sys.dont_write_bytecode = True  # running a tool leaves nothing behind in the repository

import arguments
import days
import explanation
import reference
import vectors
from days import HEAD, HOUR_NUMBERS, MISSING, PEAK_WORD, with_words
from explanation import Location

ROOT = Path(__file__).resolve().parent.parent

# The calls of vectors.py whose payload is a day file and nothing else.
DAY_FILE_CALLS = (vectors.CHECK, vectors.SETTLE, vectors.C_CALL)


# Files that are there already


def committed_files():
    """The files of vectors/ and examples/, by their names."""
    for path in sorted((ROOT / "vectors").glob("*.day")) + sorted((ROOT / "examples").glob("*.day")):
        yield path.stem, path.read_bytes()


def files_of_vectors():
    """The payloads of the calls that take a day file alone, by group and number."""
    counts = {}
    for group, case in vectors.committed_cases(DAY_FILE_CALLS):
        counts[group] = counts.get(group, 0) + 1
        yield "%s-%d" % (group, counts[group]), case.payload


# Days with a word broken on purpose: (name, file, number, where it was broken)

# Fields of the refused line by the names that days.py has for the words.
BODY_FIELD = dict(zip(HEAD, explanation.BODY_FIELDS))
HOUR_FIELD = dict(zip(HOUR_NUMBERS, explanation.HOUR_FIELDS))

# A value out of range for each word of a body's head, and for each of an hour's first numbers.
BEYOND_HEAD = dict(zip(HEAD, (2, -1, 31, -200001, 200001, 3, 65)))
BEYOND_HOUR = dict(
    zip(HOUR_NUMBERS, (2500001, -1, 2500001, MISSING, 2500001, -7, 50000001, MISSING))
)

# The hours, counted from 0, in which each word is broken.
HOURS_BROKEN = (0, 11, 23)


def three_areas():
    """One load point; CISO with four coordinators and two load points; two load points."""
    day = vectors.filled_day(random.Random("three areas"), (0, 1, 1), (1, 2, 4), (0, 2, 1))
    for area, number in zip(day.areas, (5, 901, days.LARGEST_NUMBER)):
        area.number = number
    day.areas[1].coordinators = [3, 8, 90, days.LARGEST_NUMBER]
    return day


def broken_heads():
    file_bytes = three_areas().to_bytes()
    for number, place, values in (
        (2, 0, (0, 2, -1, MISSING)),
        (4, 1, (0, 20250229, -20260504, 20261301, MISSING)),
        (3, 2, (0, 9, -3, MISSING)),
        (5, 3, (1, -1, PEAK_WORD + 1, MISSING)),
    ):
        field = explanation.HEAD_FIELDS[place]
        for value in values:
            broken = with_words(file_bytes, (place, value))
            yield "%s %d" % (field, value), broken, number, Location("head", 0, 0, 0, field, 0)
    # Nothing is wrong with the number of areas but that the file lacks their entries.
    where = Location("head", 0, 0, 0, "areas", 0)
    for words in (4, 7, 12):
        yield "areas of %d words" % words, file_bytes[: 4 * words], 3, where


def broken_contents():
    """Each word of each entry: out of its range, and where only another word makes it wrong."""
    day = three_areas()
    file_bytes, words = day.to_bytes(), day.words()
    for entry, area in enumerate(day.areas):
        at = 4 + 3 * entry
        before = day.areas[entry - 1].number if entry else 0
        for field, place, values in (
            ("area number", at, (0, -1, MISSING, before)),
            ("first word", at + 1, (0, -1, words[at + 1] - 1, words[at + 1] + 1)),
            ("words", at + 2, (799, 2952, 0, -1, MISSING)),
        ):
            for value in sorted(set(values)):
                broken = with_words(file_bytes, (place, value))
                number = value if field == "area number" else area.number
                where = Location("contents", entry + 1, number, 0, field, 0)
                yield "%s %d %d" % (field, entry + 1, value), broken, 6, where
    last = Location("contents", 3, day.areas[2].number, 0, "words", 0)
    yield "a word behind the last body", file_bytes + bytes(4), 6, last
    yield "a word less than the last body", file_bytes[:-4], 6, last
    # The second body would pass the end of the file.
    second = Location("contents", 2, day.areas[1].number, 0, "words", 0)
    yield "the second body cut off", file_bytes[: 4 * (words[8] + 900)], 6, second


def broken_bodies():
    day = three_areas()
    file_bytes = day.to_bytes()
    for entry, area in enumerate(day.areas):
        for name in HEAD:
            where = Location("body", entry + 1, area.number, 0, BODY_FIELD[name], 0)
            broken = with_words(file_bytes, (day.head_place(entry, name), BEYOND_HEAD[name]))
            yield "%s %d" % (BODY_FIELD[name], entry + 1), broken, 7, where
        # L says another size than the contents: 6, at the word of K.
        where = Location("body", entry + 1, area.number, 0, "coordinators", 0)
        other = (day.head_place(entry, "load_points"), 3 - area.load_points)
        yield "another size %d" % (entry + 1), with_words(file_bytes, other), 6, where
        for k in range(len(area.coordinators)):
            where = Location("body", entry + 1, area.number, 0, "coordinator", k + 1)
            for value in (0, -1, area.coordinators[k - 1] if k else MISSING):
                broken = with_words(file_bytes, (day.coordinator_place(entry, k), value))
                yield "coordinator %d %d %d" % (entry + 1, k + 1, value), broken, 8, where
    where = Location("body", 3, day.areas[2].number, 0, "kind", 0)
    second_ciso = with_words(file_bytes, (day.head_place(2, "kind"), 1))
    yield "a second CISO area", second_ciso, 7, where
    where = Location("body", 2, day.areas[1].number, 0, "coordinators", 0)
    for count, number in ((0, 7), (1, 6), (5, 6), (64, 6)):
        broken = with_words(file_bytes, (day.head_place(1, "coordinators"), count))
        yield "%d coordinators" % count, broken, number, where


def broken_hours():
    """9 at every word of an hour, in the first, a middle and the last hour of each area."""
    day = three_areas()
    file_bytes = day.to_bytes()
    for entry, area in enumerate(day.areas):
        for hour in HOURS_BROKEN:
            for field, which, place, value in words_of_hour(day, entry, hour):
                where = Location("hour", entry + 1, area.number, hour + 1, field, which)
                name = "%s %d %d %d" % (field, which, entry + 1, hour + 1)
                yield name, with_words(file_bytes, (place, value)), 9, where


def words_of_hour(day, entry, hour):
    """Field, which one, place and a value out of range: each number, three intervals, each demand."""
    for name in HOUR_NUMBERS:
        place = day.number_place(entry, hour, name)
        yield HOUR_FIELD[name], 0, place, BEYOND_HOUR[name]
    intervals = 12 * day.areas[entry].load_points
    for pair in (0, 11, intervals - 1):
        yield "interval quantity", pair + 1, day.quantity_place(entry, hour, pair), MISSING
        yield "interval price", pair + 1, day.price_place(entry, hour, pair), -20000001
    for k in range(len(day.areas[entry].coordinators)):
        yield "demand", k + 1, day.demand_place(entry, hour, k), -1 - k


def broken_sums():
    """10 at each demand but the first, which its own range judges."""
    day = three_areas()
    for hour in HOURS_BROKEN:
        for k in (1, 2, 3):
            demands = [100000000] + [0] * (k - 1) + [1] * (4 - k)
            where = Location("hour", 2, day.areas[1].number, hour + 1, "demand", k + 1)
            broken = vectors.with_demands(day, hour, demands, area=1)
            yield "running demand %d %d" % (k + 1, hour + 1), broken, 10, where


def unsettled():
    """16, 11 and 12 in each area and each of the three hours, 12 in the CISO area alone."""
    gaps = (
        (16, "interval quantity", vectors.one_price_short),
        (16, "interval quantity", vectors.without_price),
        (11, "interval quantity", vectors.without_quantity),
        (11, "interval quantity", vectors.just_enough_without_quantity),
        (12, "demand", vectors.dry),
    )
    for number, field, gap in gaps:
        for entry in (1,) if number == 12 else (0, 1, 2):
            for hour in HOURS_BROKEN:
                day = vectors.failing_day([(0, 1, 1), (1, 2, 4), (0, 2, 1)])
                area = day.areas[entry]
                gap(area.hours[hour])
                where = Location("hour", entry + 1, area.number, hour + 1, field, 1)
                name = "%s %d %d" % (gap.__name__, entry + 1, hour + 1)
                yield name, day.to_bytes(), number, where


def broken_sizes():
    """1, and a file of just as many bytes as are taken."""
    where = Location("file", 0, 0, 0, "bytes", 0)
    small = vectors.filled_day(random.Random("sizes"), vectors.SMALL).to_bytes()
    padded = small + bytes(65536)
    for size in (0, 1, 3, 15, 17, len(small) - 1, 65537, 65538, 65540, len(padded)):
        yield "%d bytes" % size, padded[:size], 1, where
    where = Location("contents", 1, reference.words_of(small)[4], 0, "words", 0)
    yield "65536 bytes", padded[:65536], 6, where


BROKEN = (
    broken_sizes,
    broken_heads,
    broken_contents,
    broken_bodies,
    broken_hours,
    broken_sums,
    unsettled,
)


def broken_files():
    """Every day of the groups above, held to the number and the place that were meant."""
    for group in BROKEN:
        for name, file_bytes, number, where in group():
            fields = explanation.explained(file_bytes).splitlines()[1].split("\t")
            due = ["refused", str(number)] + [str(field) for field in where]
            assert fields[:2] + fields[3:9] == due, (group.__name__, name, fields, due)
            yield "%s-%s" % (group.__name__, name.replace(" ", "-")), file_bytes


# Days that are settled


def shared_coordinators():
    """Coordinators under several areas: one that a later area names again, one of two areas of kind 0,
    and a CISO area whose coordinators come in another order than their first names."""
    shapes = ((0, 1, 1), (1, 1, 3), (0, 1, 1), (0, 2, 1), (0, 1, 1))
    for peak in (0, PEAK_WORD):
        day = vectors.failing_day(shapes, peak)
        names = ([60], [10, 60, 70], [10], [2147483647], [60])
        for area, coordinators in zip(day.areas, names):
            area.coordinators = coordinators
            area.hub_a = 100 * area.number
        for ending, hour in enumerate(day.areas[1].hours, 1):
            hour.demands = [ending, 2 * ending, 7]
            hour.energy_down, hour.mec = 12500, -10000 * ending
        yield "peak" if peak else "off-peak", day


def prices_of_all_sorts():
    """Hours of tier 0 off-peak, so that no price is needed: none present, all present without a
    quantity, one present, some at 0, negative ones, halves of $0.0001."""
    for load_points in (1, 2):
        day = days.quiet_day([(0, load_points, 1)])
        for hour, change in zip(day.areas[0].hours, PRICE_CHANGES):
            change(hour)
        yield "%d load points" % load_points, day


def one_present(hour):
    hour.pairs = [(0, MISSING)] * (len(hour.pairs) - 1) + [(1, -20000000)]


def present_without_quantity(hour):
    """A quantity stands under the missing prices alone."""
    hour.pairs = [(0, 1)] + [(5, MISSING)] * (len(hour.pairs) - 1)


def nothing_present(hour):
    hour.pairs = [(0, MISSING)] * len(hour.pairs)


def half_up(hour):
    hour.pairs = [(1, 0), (1, 1)] + [(0, 7)] * (len(hour.pairs) - 2)


def half_down(hour):
    hour.pairs = [(1, 0), (1, -1)] + [(0, 7)] * (len(hour.pairs) - 2)


def all_zero(hour):
    hour.pairs = [(0, 0)] * len(hour.pairs)


def price_zero(hour):
    hour.pairs = [(10000000, 0)] * len(hour.pairs)


PRICE_CHANGES = (
    one_present,
    present_without_quantity,
    nothing_present,
    half_up,
    half_down,
    all_zero,
    price_zero,
    vectors.one_price_short,
    vectors.without_price,
    vectors.without_quantity,
)


def flags_and_tiers():
    """Flag 0 and 1, each kind, each peak word, with the tiers 0 to 3 in turn: with flag 0 tiers, M and m
    are shown, no price is needed and nothing is charged."""
    upward = (0, 10000, 20000, 40000)
    for flag in (0, 1):
        for kind in (0, 1):
            for peak in (0, PEAK_WORD):
                day = vectors.failing_day([(kind, 1, 1)], peak)
                day.areas[0].flag = flag
                for place, hour in enumerate(day.areas[0].hours):
                    hour.energy_up = upward[place % 4]
                    hour.energy_down, hour.mec = 10001 * (place % 2), -12345
                    if flag == 0 and place % 5 == 0:
                        vectors.without_price(hour)
                yield "flag %d kind %d peak %d" % (flag, kind, peak), day


def shapes_of_days():
    """1 to 8 areas, the largest day of all, and each size of K that is an end."""
    for count in range(1, 9):
        shapes = [(1 if area == count // 2 else 0, 1 + area % 2, 1) for area in range(count)]
        yield "%d areas" % count, drawn_day("areas", shapes)
    for place in (0, 3, 7):
        shapes = [(0, 2, 1)] * 8
        shapes[place] = (1, 2, 64)
        yield "the largest day %d" % place, drawn_day("largest", shapes)
    for load_points in (1, 2):
        for count in (1, 2, 63, 64):
            shapes = [(1, load_points, count)]
            yield "%d by %d" % (load_points, count), drawn_day("shapes", shapes)


def drawn_day(seed, shapes):
    """A day that is settled, with numbers at the thresholds."""
    rng = random.Random("%s %r" % (seed, shapes))
    return days.random_day_of(rng, shapes, days.THRESHOLDS, gaps=False)


def drawn_days():
    """Random days of every style; some have a needed price or a demand missing."""
    for seed in range(120):
        yield "seed %d" % seed, days.random_day(random.Random("explained %d" % seed))


MADE = (shared_coordinators, prices_of_all_sorts, flags_and_tiers, shapes_of_days, drawn_days)


def made_files():
    for group in MADE:
        for name, day in group():
            yield "%s-%s" % (group.__name__, name.replace(" ", "-")), day.to_bytes()


def damaged_files():
    """Random days with one word changed, and with several."""
    for seed in range(120):
        rng = random.Random("damaged %d" % seed)
        file_bytes = vectors.small_day(rng).to_bytes()
        yield "damaged-%d" % seed, vectors.damaged(rng, file_bytes, rng.choice((1, 1, 2, 5)))


# All


def cases():
    """Name and bytes of every file, each file once."""
    seen = set()
    for group in (committed_files, files_of_vectors, broken_files, made_files, damaged_files):
        for name, file_bytes in group():
            digest = hashlib.sha256(file_bytes).digest()
            if digest not in seen:
                seen.add(digest)
                yield name, file_bytes


def printed_charges(text):
    """What reference.program prints, worked out from the lines of an explanation."""
    lines = [line.split("\t") for line in text.splitlines()]
    if lines[1][0] == "refused":
        return "refused %s %s\n" % tuple(lines[1][1:3])
    day = next(line for line in lines if line[0] == "day")
    charges = [line for line in lines if line[0] == "charge" and line[5] != "0"]
    printed = ["8080 %s %s" % (day[1], day[2])]
    printed += ["%s %s %s %s" % (line[1], line[2], line[3], line[5]) for line in charges]
    printed.append("total %s" % lines[-1][4])
    return "\n".join(printed) + "\n"


def write(folder):
    folder.mkdir(parents=True, exist_ok=True)
    count = 0
    for count, (name, file_bytes) in enumerate(cases(), 1):
        text = explanation.explained(file_bytes)
        assert printed_charges(text) == reference.program(file_bytes), name
        (folder / (name + ".day")).write_bytes(file_bytes)
        (folder / (name + ".explained")).write_text(text, newline="\n")
    print("%d day files and what is due for each." % count)


def main():
    parser = arguments.parser_of(__doc__)
    commands = parser.add_subparsers(dest="command", required=True)
    writing = commands.add_parser("write", help="write the files into a folder")
    writing.add_argument("folder", metavar="FOLDER", type=Path)
    write(parser.parse_args().folder)


if __name__ == "__main__":
    main()
