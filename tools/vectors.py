#!/usr/bin/env python3
"""The cases that the vectors program runs, and the line that it must print for each.

    vectors.py make     writes the cases to crates/vectors/stdin, the lines to crates/vectors/stdout
    vectors.py check    makes both anew and exits 1 if what is committed differs
    vectors.py list     prints for each case its line number, group, call, x and payload bytes
    vectors.py stream --seed N --cases M --input FILE --expected FILE [--calls 1,5]
                        writes M fresh random cases and their lines, for fuzzing

A case is four little-endian words (call, x, y, payload bytes) and the payload:

    1 check    a day file                                      number, place
    2 settle   a day file, x numbers lent                      number, place, the x numbers
    3 price    interval pairs                                  number, place, price, count
    4 share    8 bytes of amount, 8 bytes a row, x lent        number, place, the x charges
    5 lookup   a day file, x the area's number                 length and digest of the part
    6 C call   a day file, x statement bytes lent              coded answer, digest of the x bytes
    7 enter    a record, a day file                            number, place, the record afterwards
    8 recorded a record, a day file, x numbers lent            number, place, the x numbers
    9 month    a word p, a book in its room, x numbers lent    number, place, p places, the x numbers
   10 add      a word b, b bytes of a book's room, a day file  number, place, digest of the b bytes
   11 withdraw a book in its room, x the date                  number, place, digest of the room
   12 pay out  a word m, m words of basis, a day file, x lent  number, place, the x payments

A record is 18 words, the last day entered, the number of areas held and 8 places of two words; call
8 settles with it. A book has any number of words or bytes behind it in its room; call 9 settles its
days with a table of p places, calls 10 and 11 add a day to it and withdraw one. The basis of call 12 is
24 words an area, without a sign.

The expected lines come from reference.py alone. Each group of cases is one generator function with
a seed of its own, so that a group added or left out does not move another.
"""

import itertools
import random
import struct
import sys
from collections import namedtuple
from pathlib import Path

sys.dont_write_bytecode = True  # running a tool leaves nothing behind in the repository

import arguments
import days
import reference
from days import DATE, HEAD, HOUR_NUMBERS, LARGEST_NUMBER, MISSING, PEAK_WORD
from days import between, chance, with_words

ROOT = Path(__file__).resolve().parent.parent
INPUT = ROOT / "crates" / "vectors" / "stdin"
EXPECTED = ROOT / "crates" / "vectors" / "stdout"

# The calls that the committed stream holds: those that the vectors program has.
CALLS = (1, 2, 3, 4, 5, 6, 7, 8, 9, 10, 11, 12)
ALL_CALLS = (1, 2, 3, 4, 5, 6, 7, 8, 9, 10, 11, 12)

CHECK, SETTLE, PRICE, SHARE, LOOKUP, C_CALL, ENTER, RECORDED = ALL_CALLS[:8]
MONTH, ADD_DAY, WITHDRAW_DAY, PAY_OUT = ALL_CALLS[8:]

# What the vectors program has room for: bytes of a payload, numbers lent, places lent in a table, words
# of a basis.
MOST_PAYLOAD = 262144
MOST_LENT = 8192
MOST_PLACES = 64
MOST_BASIS_WORDS = 1024

# What rt takes of a program's output.
MOST_LINES_BYTES = 1048576

# The bytes of a record, which stand before the day file in the payload of calls 7 and 8.
RECORD_BYTES = 4 * reference.RECORD_WORDS

Case = namedtuple("Case", "call x payload")


# The stream and its lines


def case_bytes(case):
    assert len(case.payload) <= MOST_PAYLOAD
    return struct.pack("<4I", case.call, case.x, 0, len(case.payload)) + case.payload


def lent_numbers(count):
    """Number i of lent numbers holds -9,000,000,000,000,000,000 + i before the call."""
    return [-9000000000000000000 + i for i in range(count)]


def lent_places(count):
    """Place i of a lent table holds 9,000,000,000,000,000,000 + i before the call."""
    return [9000000000000000000 + i for i in range(count)]


def lent_bytes(count):
    """Each lent byte holds 165 before the call."""
    return bytes([165]) * count


def digest(part):
    """Starts at 0 and goes h = (31 h + b) mod 4,294,967,296 for each byte."""
    h = 0
    for b in part:
        h = (31 * h + b) % 4294967296
    return h


def share_payload(amount, rows):
    return struct.pack("<q", amount) + days.bytes_of([word for row in rows for word in row])


def share_arguments(payload):
    (amount,) = struct.unpack("<q", payload[:8])
    words = reference.words_of(payload[8:])
    return amount, list(zip(words[0::2], words[1::2]))


def record_arguments(payload):
    """The words of the record, without a sign, and the day file behind them."""
    record = struct.unpack("<%dI" % reference.RECORD_WORDS, payload[:RECORD_BYTES])
    return list(record), payload[RECORD_BYTES:]


def counted(payload):
    """The word that stands first in the payload of calls 9, 10 and 12, and what is behind it."""
    (count,) = struct.unpack("<I", payload[:4])
    return count, payload[4:]


def payout_arguments(payload):
    """The numbers of the basis, without a sign, and the day file behind them."""
    count, rest = counted(payload)
    return list(struct.unpack("<%dI" % count, rest[: 4 * count])), rest[4 * count :]


def answers(case):
    """The numbers of the line that the vectors program prints."""
    call, x, payload = case
    if call == CHECK:
        return reference.check(payload)
    if call == SETTLE:
        number, place, statement = reference.settle(payload, lent_numbers(x))
        return [number, place] + statement
    if call == PRICE:
        return reference.price(payload)
    if call == SHARE:
        amount, rows = share_arguments(payload)
        number, place, charges = reference.share(amount, rows, lent_numbers(x))
        return [number, place] + charges
    if call == LOOKUP:
        part = reference.lookup(payload, x)
        return len(part), digest(part)
    if call == ENTER:
        number, place, record = reference.enter(*record_arguments(payload))
        return [number, place] + record
    if call == RECORDED:
        record, file_bytes = record_arguments(payload)
        number, place, statement = reference.settle_recorded(record, file_bytes, lent_numbers(x))
        return [number, place] + statement
    if call == MONTH:
        places, room = counted(payload)
        number, place, statement, table = reference.settle_month(
            room, lent_numbers(x), lent_places(places)
        )
        return [number, place] + table + statement
    if call == ADD_DAY:
        size, rest = counted(payload)
        number, place, room = reference.add_day(rest[:size], rest[size:])
        return number, place, digest(room)
    if call == WITHDRAW_DAY:
        number, place, room = reference.withdraw_day(payload, x)
        return number, place, digest(room)
    if call == PAY_OUT:
        basis, file_bytes = payout_arguments(payload)
        number, place, payments = reference.pay_out(file_bytes, basis, lent_numbers(x))
        return [number, place] + payments
    coded, after = reference.c_call(payload, lent_bytes(x))
    return coded, digest(after)


def line(case):
    return " ".join(str(number) for number in answers(case)) + "\n"


# Parts that several groups use


def vector_files():
    """The day files of vectors/, by name: those that the vectors program has room for."""
    paths = sorted((ROOT / "vectors").glob("*.day"), key=lambda path: path.name)
    if not paths:
        sys.exit("vectors/ has no day file.")
    files = [path.read_bytes() for path in paths]
    return [file_bytes for file_bytes in files if len(file_bytes) <= MOST_PAYLOAD]


def filled_day(rng, *shapes, style=days.REALISTIC):
    """A day that is settled, with numbers in most words: (kind, L, K) an area."""
    return days.random_day_of(rng, shapes, style, PEAK_WORD, gaps=False)


# Shapes of an area, (kind, L, K): the smallest, of 800 words, and one with three coordinators.
SMALL = (0, 1, 1)
CISO = (1, 1, 3)


def needed(file_bytes):
    """The numbers that an accepted file needs, 0 for a refused one."""
    number, place, _ = reference.settle(file_bytes, [])
    return place if number == 13 else 0


def header(n=1, date=DATE, peak=0, edition=1):
    return [edition, date, n, peak]


def refused_files(rng):
    """One small file or two for each number of the check, 1 to 10."""
    day = filled_day(rng, SMALL)
    small = day.to_bytes()
    yield small[:-1]
    yield b""
    yield with_words(small, (0, 2))
    yield with_words(small, (2, 9))
    yield with_words(small, (1, 20250229))
    yield with_words(small, (3, 1))
    yield with_words(small, (6, 801))
    yield small + bytes(4)
    yield with_words(small, (day.head_place(0, "flag"), 2))
    yield with_words(small, (day.coordinator_place(0, 0), 0))
    yield with_words(small, (day.number_place(0, 23, "mec"), MISSING))
    ciso = filled_day(rng, CISO)
    yield with_words(
        ciso.to_bytes(),
        (ciso.demand_place(0, 5, 0), 100000000),
        (ciso.demand_place(0, 5, 1), 0),
        (ciso.demand_place(0, 5, 2), 1),
    )


# Call 1: the check


def check_vector_files(rng):
    """The files of vectors/."""
    for file_bytes in vector_files():
        yield Case(CHECK, 0, file_bytes)


def check_sizes(rng):
    """Refusal 1, and files that end too early or too late: bytes, a word, a body."""
    two = filled_day(rng, SMALL, SMALL).to_bytes()
    small = filled_day(rng, SMALL).to_bytes()
    for size in range(21):
        yield Case(CHECK, 0, bytes(size))
        yield Case(CHECK, 0, small[:size])
    for size in (24, 27, 28, 29, 32, 36):
        yield Case(CHECK, 0, small[:size])
    for missing in (1, 2, 3, 4, 3200, 3204):
        yield Case(CHECK, 0, small[: len(small) - missing])
    for more in (1, 2, 3, 4):
        yield Case(CHECK, 0, small + bytes(more))
    yield Case(CHECK, 0, small + small[28:])
    yield Case(CHECK, 0, two[:-4])
    yield Case(CHECK, 0, two[:-3200])
    yield Case(CHECK, 0, two[:-3204])
    yield Case(CHECK, 0, two + bytes(4))
    # The same words, a byte off.
    yield Case(CHECK, 0, b"\x00" + small[:-1])


def check_most_bytes(rng):
    """65,536 bytes, and one byte and one word more.

    The eight bodies of the full file keep every rule of the contents, and the first keeps all of
    its own; the second is of no size that L and K can give.
    """
    day = filled_day(rng, (1, 1, 50), SMALL)
    first = day.areas[0].words()
    lengths = [len(first)] + [2047] * 7
    lengths[7] = 65536 // 4 - 28 - sum(lengths[:7])
    words = header(n=8)
    start = 28
    for area, length in enumerate(lengths):
        words += [area + 1, start, length]
        start += length
    words += first + day.areas[1].words()
    full = days.bytes_of(words)
    full += bytes(65536 - len(full))
    yield Case(CHECK, 0, full)
    yield Case(CHECK, 0, full + bytes(1))
    yield Case(CHECK, 0, full + bytes(4))


def check_largest_accepted(rng):
    """The largest file that is accepted, 12,611 words, and one word more."""
    shapes = [(0, 2, 1)] * 3 + [(1, 2, 64)] + [(0, 2, 1)] * 4
    largest = filled_day(rng, *shapes).to_bytes()
    assert len(largest) == 4 * 12611
    yield Case(CHECK, 0, largest)
    yield Case(CHECK, 0, largest + bytes(4))


def check_words_of_the_header(rng):
    """Words 0, 2 and 3 around their rules.

    A file of four words, or of the contents alone, shows each side: a word that keeps its rule is
    followed by a refusal further on.
    """
    edges = (0, 2, 256, 16777216, 0x7FFFFFFF, 0x80000000, 0x80000001, 0xFFFFFFFF)
    for edition in (1,) + edges:
        yield Case(CHECK, 0, days.bytes_of(header(edition=edition)))
    # 1431655766 × 3 passes 32 bits and leaves 2; 1431655764 × 3 + 4 leaves 0.
    for n in (1, 3, 7, 8, 9, 10, 1365, 5460, 1431655764, 1431655766, 0xFFFFFFFE) + edges:
        yield Case(CHECK, 0, days.bytes_of(header(n=n)))
        yield Case(CHECK, 0, days.bytes_of(header(n=n) + [1, 7, 800]))
    # The file lacks 4 + 3n words, by one, two and three, or has just these.
    for n in range(1, 9):
        for words in range(3 * n + 1, 3 * n + 6):
            yield Case(CHECK, 0, days.bytes_of((header(n=n) + [0] * 40)[:words]))
            yield Case(CHECK, 0, days.bytes_of((header(n=n) + [n, 4 + 3 * n, 800] * 9)[:words]))
    peaks = [PEAK_WORD + step for step in (-64, -2, -1, 0, 1, 2, 64)]
    peaks += [PEAK_WORD | 1 << bit for bit in (0, 5, 22, 23, 31)]
    peaks += [PEAK_WORD & ~(1 << bit) for bit in (6, 13, 21)]
    peaks += [PEAK_WORD >> 1, PEAK_WORD << 1, 0xC0FF3F00, 0x00FFFFFF, 64, 1]
    for peak in tuple(peaks) + edges:
        yield Case(CHECK, 0, days.bytes_of(header(peak=peak) + [1, 7, 800]))
    small = filled_day(rng, SMALL).to_bytes()
    for peak in (0, PEAK_WORD, PEAK_WORD + 1, 1):
        yield Case(CHECK, 0, with_words(small, (3, peak)))


def check_dates(rng):
    """Word 1: every end of February of the century, every month's end, days and months beyond.

    In a file of four words a real date is followed by refusal 3.
    """
    dates = []
    for year in range(1998, 2103):
        dates += [year * 10000 + month_day for month_day in (228, 229, 230, 301)]
    for year in (2000, 2023, 2024, 2099):
        for month in range(15):
            for day in (0, 1, 28, 29, 30, 31, 32, 99):
                dates.append(year * 10000 + month * 100 + day)
    dates += [19991231, 20000101, 20991231, 21000101, 21000228, 21000229, 20000100, 20000001]
    dates += [0, 1, 101, 1231, 991231, 2026504, 202605040, 504, 20269999, 20261232]
    dates += [0x7FFFFFFF, 0x80000000, 0xFFFFFFFF, -20260504, 20260504 + (1 << 31)]
    for date in dates:
        yield Case(CHECK, 0, days.bytes_of(header(date=date)))
    small = filled_day(rng, SMALL).to_bytes()
    for date in (20000101, 20000229, 20240229, 20991231, 20990229, 20260431, 19991231):
        yield Case(CHECK, 0, with_words(small, (1, date)))


def check_contents(rng):
    """Refusal 6 at each of the three words of the first, second and last entry."""
    one = filled_day(rng, SMALL).to_bytes()
    for number in (1, LARGEST_NUMBER):
        yield Case(CHECK, 0, with_words(one, (4, number)))
    # In a file of the contents alone a right number and start are followed by a wrong length.
    for number in (0, 1, LARGEST_NUMBER, 0x80000000, 0x80000001, 0xFFFFFFFF):
        yield Case(CHECK, 0, days.bytes_of(header() + [number, 7, 800]))
    for start in (0, 1, 4, 6, 7, 8, 28, 0x7FFFFFFF, 0x80000007, 0xFFFFFFFF):
        yield Case(CHECK, 0, days.bytes_of(header() + [7, start, 800]))
    for length in (0, 799, 801, 2951, 2952, 0x7FFFFFFF, 0x80000000, 0x80000320, 0xFFFFFFF9):
        yield Case(CHECK, 0, days.bytes_of(header() + [7, 7, length]))
        yield Case(CHECK, 0, with_words(one, (6, length)))
    # Two areas: the first ends before, with and after the file.
    day = filled_day(rng, SMALL, SMALL)
    day.areas[0].number, day.areas[1].number = 5, 7
    two = day.to_bytes()
    for length in (799, 801, 1600, 1601, 0x80000320):
        yield Case(CHECK, 0, with_words(two, (6, length)))
    yield Case(CHECK, 0, with_words(two, (6, 1600), (8, 1610)))
    yield Case(CHECK, 0, with_words(two, (6, 801), (8, 811), (9, 799)))
    yield Case(CHECK, 0, with_words(two, (6, 799), (8, 809), (9, 801)))
    # The second entry's number and start; what follows the first body is not reached.
    for number in (0, 4, 5, 6, LARGEST_NUMBER, 0x80000000, 0xFFFFFFFF):
        yield Case(CHECK, 0, with_words(two, (7, number))[: 4 * 810])
    for start in (0, 10, 809, 811, 0x8000032A):
        yield Case(CHECK, 0, with_words(two, (8, start))[: 4 * 810])
    # The last of three: its number, its start, its length.
    three = filled_day(rng, SMALL, SMALL, SMALL).to_bytes()
    yield Case(CHECK, 0, with_words(three, (10, reference.words_of(three)[7])))
    yield Case(CHECK, 0, with_words(three, (11, 1614)))
    yield Case(CHECK, 0, with_words(three, (12, 801)))
    # The last of eight.
    eight = filled_day(rng, *[SMALL] * 8).to_bytes()
    yield Case(CHECK, 0, with_words(eight, (27, 799)))


def check_lengths(rng):
    """A body of a length out of its range in a file that ends with it, and bodies whose size
    differs from their L and K: place the word of K."""
    small = filled_day(rng, SMALL)
    words = small.words()
    for length in (799, 801, 1375, 1377, 2952):
        longer = (words + [0] * 3000)[: 7 + length]
        yield Case(CHECK, 0, with_words(days.bytes_of(longer), (6, length)))
    # Each shape at the ends of K and L is accepted with its own size.
    for shape in ((0, 1, 1), (0, 2, 1), (1, 1, 1), (1, 2, 1), (1, 1, 64), (1, 2, 64)):
        yield Case(CHECK, 0, filled_day(rng, shape).to_bytes())
    # L or K says another size than the length.
    for shape, name, value in (
        ((0, 1, 1), "load_points", 2),
        ((0, 2, 1), "load_points", 1),
        ((1, 1, 2), "coordinators", 1),
        ((1, 1, 2), "coordinators", 3),
        ((1, 1, 2), "load_points", 2),
        ((1, 1, 1), "coordinators", 24),
        ((1, 1, 1), "coordinators", 64),
    ):
        day = filled_day(rng, shape)
        yield Case(CHECK, 0, with_words(day.to_bytes(), (day.head_place(0, name), value)))
    # For the last body of two, and with a K that breaks its own rule as well (7 before 6).
    day = filled_day(rng, SMALL, (1, 1, 2))
    two = day.to_bytes()
    for count in (0, 1, 65):
        yield Case(CHECK, 0, with_words(two, (day.head_place(1, "coordinators"), count)))


def check_body_heads(rng):
    """Refusal 7: each word of the head, both sides of its range, in the first and last area."""
    edges = (0x7FFFFFFF, 0x80000000, 0xFFFFFFFF)
    values = {
        "kind": (2, 256) + edges,
        "flag": (0, 1, 2, 256) + edges[1:],
        "persistent_days": (0, 30, 31) + edges,
        "hub_a": (-200000, 200000, -200001, 200001) + edges[:2],
        "hub_b": (-200000, 200000, -200001, 200001) + edges[:2],
        "load_points": (0, 3) + edges[1:],
        "coordinators": (0, 2, 64) + edges[1:],
    }
    day = filled_day(rng, SMALL)
    one = day.to_bytes()
    for name in HEAD:
        for value in values[name]:
            yield Case(CHECK, 0, with_words(one, (day.head_place(0, name), value)))
    # The last of two.
    beyond = (2, 2, 31, 200001, -200001, 3, 65)
    day = filled_day(rng, SMALL, CISO)
    two = day.to_bytes()
    for name, value in zip(HEAD, beyond):
        yield Case(CHECK, 0, with_words(two, (day.head_place(1, name), value)))
    # K of kind 1 is 1 to 64 (64 then has the wrong size); the kind turned to 0 makes K 3 break.
    day = filled_day(rng, CISO)
    one = day.to_bytes()
    for count in (0, 64, 65, 0xFFFFFFFF):
        yield Case(CHECK, 0, with_words(one, (day.head_place(0, "coordinators"), count)))
    yield Case(CHECK, 0, with_words(one, (day.head_place(0, "kind"), 0)))


def check_second_ciso(rng):
    """A second area of kind 1 breaks at its kind word; one is accepted anywhere."""
    for kinds in ((1, 0), (0, 1), (1, 1), (1, 0, 1)):
        yield Case(CHECK, 0, filled_day(rng, *[(kind, 1, 1) for kind in kinds]).to_bytes())
    # The second breaks before its own flag, but after the first one's last demand.
    day = filled_day(rng, (1, 1, 1), (1, 1, 1))
    two = day.to_bytes()
    yield Case(CHECK, 0, with_words(two, (day.head_place(1, "flag"), 2)))
    yield Case(CHECK, 0, with_words(two, (day.demand_place(0, 23, 0), -1)))


def check_coordinators(rng):
    """Refusal 8: the first coordinator of the first area to the last of the last area."""
    day = filled_day(rng, SMALL)
    one = day.to_bytes()
    place = day.coordinator_place(0, 0)
    for number in (0, 1, LARGEST_NUMBER, 0x80000000, 0x80000001, 0xFFFFFFFF):
        yield Case(CHECK, 0, with_words(one, (place, number)))
    day = filled_day(rng, CISO)
    day.areas[0].coordinators = [5, 6, 9]
    one = day.to_bytes()
    for coordinator, numbers in (
        (0, (0, 6, 7, 0xFFFFFFFF)),
        (1, (0, 5, 8, 9, 10, 0x80000006)),
        (2, (0, 6, 7, LARGEST_NUMBER, 0x80000000)),
    ):
        for number in numbers:
            place = day.coordinator_place(0, coordinator)
            yield Case(CHECK, 0, with_words(one, (place, number)))
    # The last of 64 behind another area.
    day = filled_day(rng, SMALL, (1, 1, 64))
    place = day.coordinator_place(1, 63)
    yield Case(CHECK, 0, with_words(day.to_bytes(), (place, day.areas[1].coordinators[62])))


def ends_day(shape, which):
    """A day with every hourly number at the low (0) or high (1) end of its range."""
    market = (-20000000, 20000000)[which]
    day = days.quiet_day([shape], pair=((0, 10000000)[which], market), demand=0)
    for hour in day.areas[0].hours:
        parts = (0, 2500000)[which]
        hour.set_upward([parts] * 4)
        hour.set_downward([parts] * 2)
        hour.requirement = (0, 50000000)[which]
        hour.mec = market
        hour.demands[-1] = (0, 100000000)[which]
    return day


def check_hourly_numbers(rng):
    """Refusal 9: each number of an hour, one beyond each end of its range and at the ends of the
    words, in the first hour of the first area and in the last hour of the last area."""
    # At the ends of every range at once all is accepted, with missing prices too.
    for shape in (SMALL, (1, 2, 3)):
        for which in (0, 1):
            yield Case(CHECK, 0, ends_day(shape, which).to_bytes())
    missing = ends_day(SMALL, 1)
    for hour in missing.areas[0].hours:
        hour.pairs = [(10000000, MISSING)] * 12
    yield Case(CHECK, 0, missing.to_bytes())

    edges = (0x7FFFFFFF, 0x80000000, 0xFFFFFFFF)
    market = (20000001, -20000001, 0x7FFFFFFF, 0x80000000, 0x80000001)
    beyond = {name: (2500001, 0x80000000, 0xFFFFFFFF) for name in HOUR_NUMBERS}
    beyond["requirement"] = (50000001,) + edges
    beyond["mec"] = market
    day = filled_day(rng, SMALL)
    one = day.to_bytes()
    for name in HOUR_NUMBERS:
        for value in beyond[name]:
            yield Case(CHECK, 0, with_words(one, (day.number_place(0, 0, name), value)))
    # A price that is missing is accepted, the words next to it are not.
    for value in (10000001,) + edges:
        yield Case(CHECK, 0, with_words(one, (day.quantity_place(0, 0, 0), value)))
    for value in market:
        yield Case(CHECK, 0, with_words(one, (day.price_place(0, 0, 0), value)))
    for value in (100000000, 100000001) + edges:
        yield Case(CHECK, 0, with_words(one, (day.demand_place(0, 0, 0), value)))

    # The last hour, with three demands.
    day = filled_day(rng, CISO)
    last = day.to_bytes()
    for name in HOUR_NUMBERS:
        yield Case(CHECK, 0, with_words(last, (day.number_place(0, 23, name), beyond[name][0])))
    for place, values in (
        (day.quantity_place(0, 23, 11), (10000001, -1)),
        (day.price_place(0, 23, 11), (20000001, -20000001)),
        (day.demand_place(0, 23, 0), (-1,)),
        (day.demand_place(0, 23, 2), (-1, 100000001, MISSING)),
        # The hours next to each other: the end of one, the start of the other.
        (day.demand_place(0, 22, 2), (-1,)),
        (day.number_place(0, 23, "energy_up"), (-1,)),
    ):
        for value in values:
            yield Case(CHECK, 0, with_words(last, (place, value)))
    # The same at the end of one area, at the start and at the end of the next.
    day = filled_day(rng, SMALL, CISO)
    for place, value in (
        (day.demand_place(0, 23, 0), -1),
        (day.number_place(1, 0, "energy_up"), 2500001),
        (day.demand_place(1, 23, 2), 100000001),
    ):
        yield Case(CHECK, 0, with_words(day.to_bytes(), (place, value)))
    # Two load points: the last pair of the first, the first and last of the second.
    day = filled_day(rng, (0, 2, 1))
    wide = day.to_bytes()
    for pair in (12, 23):
        yield Case(CHECK, 0, with_words(wide, (day.quantity_place(0, 23, pair), 10000001)))
        yield Case(CHECK, 0, with_words(wide, (day.price_place(0, 23, pair), 20000001)))


def with_demands(day, hour, demands, area=0):
    changes = [(day.demand_place(area, hour, k), demand) for k, demand in enumerate(demands)]
    return with_words(day.to_bytes(), *changes)


def check_running_demand(rng):
    """Refusal 10: where the running demand of an hour first passes 100,000,000; 9 before 10."""
    day = filled_day(rng, CISO)
    for hour in (0, 23):
        for demands in (
            (100000000, 0, 0),
            (50000000, 49999999, 1),
            (100000000, 1, 0),
            (100000000, 0, 1),
            (50000000, 50000000, 1),
        ):
            yield Case(CHECK, 0, with_demands(day, hour, demands))
    for demands in (
        (0, 0, 100000000),
        (50000001, 50000000, 0),
        (100000000, 100000000, 100000000),
        # Out of range at the word where the sum passes, and before and after it.
        (100000000, 100000001, 0),
        (100000000, -1, 2),
        (99999999, 2, -1),
        (100000001, 1, 1),
        (60000000, 60000000, 0x7FFFFFFF),
    ):
        yield Case(CHECK, 0, with_demands(day, 12, demands))
    # Each hour starts anew.
    full = filled_day(rng, (1, 1, 2))
    for hour in full.areas[0].hours:
        hour.demands = [40000000, 60000000]
    yield Case(CHECK, 0, full.to_bytes())
    # The last of 64, with a sum that 32 bits do not hold if all were taken.
    day = filled_day(rng, (1, 1, 64))
    yield Case(CHECK, 0, with_demands(day, 23, [1562500] * 64))
    yield Case(CHECK, 0, with_demands(day, 23, [1562500] * 63 + [1562501]))
    # In the second area.
    day = filled_day(rng, SMALL, (1, 1, 2))
    yield Case(CHECK, 0, with_demands(day, 23, [100000000, 1], area=1))


def check_several_broken(rng):
    """Several rules broken at once: the first word in file order wins."""
    day = filled_day(rng, (1, 1, 2))
    one = day.to_bytes()
    # Words that break their own rule, in file order.
    broken = [
        (0, 2),
        (1, 20250229),
        (2, 9),
        (3, 1),
        (4, 0),
        (5, 8),
        (6, 799),
        (day.head_place(0, "kind"), 2),
        (day.head_place(0, "flag"), 2),
        (day.head_place(0, "persistent_days"), 31),
        (day.head_place(0, "hub_a"), 200001),
        (day.head_place(0, "hub_b"), 200001),
        (day.head_place(0, "load_points"), 0),
        (day.head_place(0, "coordinators"), 65),
        (day.coordinator_place(0, 0), 0),
        (day.coordinator_place(0, 1), 0),
        (day.number_place(0, 0, "energy_up"), -1),
        (day.number_place(0, 0, "mec"), MISSING),
        (day.price_place(0, 0, 0), -20000001),
        (day.demand_place(0, 0, 1), -1),
        (day.number_place(0, 23, "spin"), -1),
        (day.demand_place(0, 23, 1), 100000001),
    ]
    for earlier, later in zip(broken, broken[1:]):
        yield Case(CHECK, 0, with_words(one, earlier, later))
    for _ in range(6):
        picked = [broken[rng.randrange(len(broken))] for _ in range(between(rng, 3, 6))]
        yield Case(CHECK, 0, with_words(one, *picked))
    # The size before the first word; a word of the header before a wrong file end, and that
    # before a body.
    yield Case(CHECK, 0, with_words(one, *broken)[:-1])
    yield Case(CHECK, 0, with_words(one, *broken))
    yield Case(CHECK, 0, with_words(one, (3, 1))[:-4])
    yield Case(CHECK, 0, with_words(one, (day.head_place(0, "kind"), 2))[:-4])
    # Contents before bodies, and an area's last word before the next area.
    day = filled_day(rng, SMALL, (1, 1, 2))
    two = day.to_bytes()
    first_kind, second_kind = (day.head_place(0, "kind"), 2), (day.head_place(1, "kind"), 2)
    yield Case(CHECK, 0, with_words(two, (9, 826), first_kind))
    yield Case(CHECK, 0, with_words(two, (day.demand_place(0, 23, 0), -1), second_kind))
    # 4 for word 1 before 3 for word 2, in the shortest file.
    yield Case(CHECK, 0, days.bytes_of(header(n=0, date=20261301, peak=1)))
    yield Case(CHECK, 0, days.bytes_of(header(n=0, peak=1)))


def check_accepted(rng):
    """Random days, which the check accepts."""
    for _ in range(6):
        yield Case(CHECK, 0, small_day(rng).to_bytes())


EDGE_WORDS = (
    (0, 1, 2, 3, 7, 30, 31, 64, 65, 799, 800, 801, 1376, 2951, 2952, 10000, 10001)
    + (199999, 200000, 200001, 2500000, 2500001, 10000000, 10000001, 20000000, 20000001)
    + (50000000, 50000001, 100000000, 100000001, 0x7FFFFFFF, 0x80000000, 0x80000001, 0xFFFFFFFF)
    + (-200000, -200001, -20000000, -20000001, DATE, PEAK_WORD)
)


def damaged_word(rng, word):
    """Another value for a word: an end of some range, a neighbour, a turned bit, or anything."""
    return rng.choice(
        (
            rng.choice(EDGE_WORDS),
            rng.choice(EDGE_WORDS),
            word + rng.choice((-1, 1)),
            word ^ 1 << rng.randrange(32),
            rng.randrange(1 << 32),
        )
    )


def damaged(rng, file_bytes, count):
    """Some words of a file changed; half of them in its first words and heads, where most of the
    rules are."""
    words = list(reference.words_of(file_bytes))
    heads = [words[5 + 3 * entry] + k for entry in range(words[2]) for k in range(10)]
    telling = list(range(4 + 3 * words[2])) + heads
    changes = []
    for _ in range(count):
        place = rng.choice((rng.choice(telling), rng.randrange(len(words))))
        changes.append((place, damaged_word(rng, words[place])))
    return with_words(file_bytes, *changes)


def small_day(rng):
    """A random day of mostly one area, without the widest shapes."""
    ciso = (1, 1, between(rng, 1, 4))
    two = rng.choice(([SMALL, ciso], [ciso, SMALL]))
    shapes = rng.choice([[SMALL]] * 7 + [[ciso]] * 7 + [two])
    return days.random_day_of(rng, shapes)


def check_damage(rng):
    """Accepted files with one word changed, and with several."""
    for _ in range(90):
        yield Case(CHECK, 0, damaged(rng, small_day(rng).to_bytes(), 1))
    for _ in range(40):
        yield Case(CHECK, 0, damaged(rng, small_day(rng).to_bytes(), between(rng, 2, 6)))


# Call 5: the lookup


def lookup_every_area(rng):
    """Each area of several files, and the numbers next to it."""
    for shapes in ([SMALL], [CISO]):
        day = days.random_day_of(rng, shapes)
        number = day.areas[0].number
        for looked_for in (number, number + 1, number - 1, number + (1 << 31)):
            yield Case(LOOKUP, looked_for, day.to_bytes())
    for shapes in ([SMALL, CISO], [(1, 1, 2), SMALL, SMALL]):
        day = days.random_day_of(rng, shapes)
        for area in day.areas:
            yield Case(LOOKUP, area.number, day.to_bytes())
        yield Case(LOOKUP, day.areas[-1].number + 1, day.to_bytes())
    # The ends of the area numbers, and the last of eight areas.
    ends = days.random_day_of(rng, [SMALL, SMALL])
    ends.areas[0].number, ends.areas[1].number = 1, LARGEST_NUMBER
    for number in (0, 1, LARGEST_NUMBER, 0xFFFFFFFF):
        yield Case(LOOKUP, number, ends.to_bytes())
    eight = days.quiet_day([SMALL] * 8)
    yield Case(LOOKUP, eight.areas[7].number, eight.to_bytes())


def lookup_absent(rng):
    """Numbers that no area can have, and numbers that stand elsewhere in the file."""
    day = days.random_day_of(rng, [CISO])
    for number in (0, 1, 7, 850, 0x80000000, 0xFFFFFFFF):
        if number != day.areas[0].number:
            yield Case(LOOKUP, number, day.to_bytes())
    # A coordinator's number is no area's.
    for coordinator in day.areas[0].coordinators:
        yield Case(LOOKUP, coordinator, day.to_bytes())


def lookup_in_refused(rng):
    """The number stands in the contents, but the check refuses the file."""
    for file_bytes in refused_files(rng):
        words = reference.words_of(file_bytes[: len(file_bytes) // 4 * 4])
        yield Case(LOOKUP, words[4] if len(words) > 4 else 1, file_bytes)
    # The area looked for is whole; another is not.
    day = filled_day(rng, SMALL, SMALL)
    file_bytes = with_words(day.to_bytes(), (day.demand_place(1, 23, 0), -1))
    yield Case(LOOKUP, day.areas[0].number, file_bytes)


def lookup_in_short(rng):
    """Files of 0 to 20 bytes."""
    small = filled_day(rng, SMALL).to_bytes()
    for size in range(21):
        yield Case(LOOKUP, 0, bytes(size))
        yield Case(LOOKUP, reference.words_of(small)[4], small[:size])


def lookup_vector_files(rng):
    """The last area of the smaller files of vectors/."""
    for file_bytes in vector_files():
        if len(file_bytes) <= 9000 and reference.check(file_bytes) == (0, 0):
            words = reference.words_of(file_bytes)
            yield Case(LOOKUP, words[1 + 3 * words[2]], file_bytes)


# Call 2: settling


def settle_of(day):
    """A day in exactly the numbers that it needs: settled, or what an hour refuses."""
    return Case(SETTLE, day.numbers_needed(), day.to_bytes())


def settle_vector_files(rng):
    """The files of vectors/, in exactly the numbers needed."""
    for file_bytes in vector_files():
        yield Case(SETTLE, needed(file_bytes) or 5, file_bytes)


def settle_tier_figures(rng):
    """T1 to T5 without peak hours: the off-peak amount tells the tier of each hour. The deficiency
    stands in another of the four numbers each time."""
    figures = (
        (600000, 10000),
        (600000, 10001),
        (600000, 300000),
        (600000, 300001),
        (2000000, 20000),
        (2000000, 20001),
        (10000, 8000),
        (10000, 10001),
        (1000050, 10000),
        (1000050, 10001),
        # 1% and half of Q at numbers that do not divide, and Q 0.
        (1000100, 10001),
        (1000099, 10001),
        (20001, 10001),
        (20002, 10001),
        (20003, 10002),
        (0, 1),
        (0, 10000),
        (0, 10001),
        (50000000, 500000),
        (50000000, 500001),
        (20000000, 10000000),
        (19999999, 10000000),
        (1, 1),
        (0, 0),
    )
    for peak in (0, PEAK_WORD):
        day = days.quiet_day([SMALL], peak=peak)
        day.areas[0].hub_a = 8000
        for number, (requirement, total) in enumerate(figures):
            hour = day.areas[0].hours[number]
            hour.requirement = requirement
            parts = days.parts_of(rng, total, 4) if total > 2500000 else [total, 0, 0, 0]
            hour.set_upward(parts[-(number % 4) :] + parts[: -(number % 4)])
        yield settle_of(day)


def on_peak_day(persistent_days=3, hub_a=8000, hub_b=9550, failing=120000):
    """T6 and T7: M 120 MW in hour ending 7, tier 1 in hour ending 8, passed hours from there."""
    day = days.quiet_day([SMALL], pair=(1000, 0))
    area = day.areas[0]
    area.persistent_days, area.hub_a, area.hub_b = persistent_days, hub_a, hub_b
    for hour in area.hours:
        hour.requirement = 600000
    area.hours[6].energy_up = failing
    area.hours[7].spin = 10000
    for hour, price in ((8, 600000), (9, 1300000), (10, -50000), (11, 1), (12, -1)):
        area.hours[hour].pairs = [(1000, price)] * 12
    return day


def settle_on_peak_figures(rng):
    """T6 and T7, and the same day with other hubs, days and tiers."""
    for day in (
        on_peak_day(),
        on_peak_day(hub_a=9550, hub_b=8000),
        on_peak_day(persistent_days=0),
        on_peak_day(persistent_days=30),
        on_peak_day(failing=300000),
        on_peak_day(failing=300001),
        # Day tier 1: nothing, though hours are passed at negative prices.
        on_peak_day(failing=10000),
        # Both hub prices negative: S is 0, and a negative credit is still an amount.
        on_peak_day(hub_a=-8000, hub_b=-1),
        on_peak_day(hub_a=-200000, hub_b=0),
        on_peak_day(hub_a=200000, hub_b=-200000, persistent_days=30, failing=2500000),
    ):
        yield settle_of(day)
    # The highest U and the highest tier in different peak hours; a higher one off-peak counts not.
    day = on_peak_day()
    day.areas[0].hours[21].requirement = 20000
    day.areas[0].hours[21].non_spin = 10001
    day.areas[0].hours[22].energy_up = 900000
    day.areas[0].hours[5].energy_up = 900000
    yield settle_of(day)
    # The same without peak hours, and with flag 0.
    day.peak = 0
    yield settle_of(day)
    day.peak = PEAK_WORD
    day.areas[0].flag = 0
    yield settle_of(day)


def off_peak_day(persistent_days, figures):
    """No peak hours; those outside the usual ones have these U, Q and prices, in order."""
    day = days.quiet_day([SMALL], peak=0, pair=(1000, 0))
    area = day.areas[0]
    area.persistent_days = persistent_days
    outside_peak = area.hours[:6] + area.hours[22:]
    for hour, (upward, requirement, price) in zip(outside_peak, figures):
        hour.energy_up, hour.requirement, hour.pairs = upward, requirement, [(1000, price)] * 12
    return day


def settle_off_peak_figures(rng):
    """40 MW of 60 at 25 and d 5: $2,100.00. The same in tier 2, 1 and 0, and with other d."""
    figures = [(40000, 60000, 250000), (40000, 80000, 250000), (10000, 60000, 250000)]
    figures += [(0, 60000, 250000), (40000, 60000, -250000), (40000, 60000, 0)]
    for persistent_days in (5, 0, 1, 30):
        yield settle_of(off_peak_day(persistent_days, figures))


def settle_downward_figures(rng):
    """T8 and T9, in peak and other hours, with the deficiency in either number."""
    figures = (
        (10000, -1000000),
        (10001, -1000000),
        (12500, -100),
        (12500, 400000),
        (12500, -300),
        (12500, -50),
        (10001, 0),
        (10001, -1),
        (5000000, -20000000),
        (5000000, 20000000),
        (0, -20000000),
        (2500001, -20000000),
    )
    for peak in (0, PEAK_WORD):
        day = days.quiet_day([SMALL], peak=peak)
        for number in range(24):
            total, mec = figures[number % 12]
            hour = day.areas[0].hours[number]
            rest = max(0, total - 2500000)
            hour.set_downward((total - rest, rest) if number < 12 else (rest, total - rest))
            hour.mec = mec
        yield settle_of(day)
        day.areas[0].flag = 0
        yield settle_of(day)


def settle_halves(rng):
    """Amounts that are a whole number of cents and a half: off-peak, on-peak with and without
    credit, downward."""
    for _ in range(12):
        day = days.quiet_day([(1, 1, 2)], peak=PEAK_WORD)
        area = day.areas[0]
        # On-peak in cents is M × P × 5 × (100 + d) / 400,000 in tier 2: a half for M 40,000 times
        # an odd number, P and 100 + d odd. The credit is a whole number at prices of whole cents.
        area.persistent_days = 2 * between(rng, 0, 14) + 1
        area.hub_a = 2 * between(rng, 500, 9000) + 1
        area.hub_b = between(rng, -500, 999)
        M = 40000 * (2 * between(rng, 0, 5) + 1)
        for number, hour in enumerate(area.hours):
            hour.requirement = 4 * M
            hour.demands = [between(rng, 0, 9), between(rng, 1, 9)]
            hour.pairs = [(1000, 100 * between(rng, -999, 9999))] * 12
            # Downward in cents is W × MEC / 100,000.
            hour.set_downward((12500, 0))
            hour.mec = -100 * (2 * between(rng, 0, 999) + 1)
            if not 6 <= number < 22:
                # Off-peak in cents is U × price × (100 + d) / 8,000,000 in tier 2 and / 5,000,000 in
                # tier 3: a half for U × price an odd number of times 4,000,000 or 2,500,000.
                hour.requirement = 100000
                choices = ((20000, 200), (12500, 320), (32000, 125), (62500, 40))
                hour.energy_up, step = rng.choice(choices)
                hour.pairs = [(1000, step * (2 * between(rng, 0, 9999) + 1))] * 12
        area.hours[between(rng, 6, 21)].spin = M
        yield settle_of(day)


def settle_rooms(rng):
    """Room for exactly the numbers needed, one short, for an hour of 3 + K or 4 + K numbers, none,
    and more: numbers past them stay."""
    for shapes in ([SMALL], [(1, 1, 2)], [SMALL, (1, 1, 2)]):
        day = filled_day(rng, *shapes)
        room = day.numbers_needed()
        column = 24 * len(shapes)
        for lent in (room, room - 1, room - column, room - 2 * column, 0, 1, room + 1, 2 * room):
            yield Case(SETTLE, lent, day.to_bytes())
    # Far more than that; the longest room of all is the C call's, whose line is short.
    yield Case(SETTLE, 512, filled_day(rng, SMALL).to_bytes())


def settle_refused(rng):
    """The numbers of the check, with room and without: they come before 13."""
    for file_bytes in refused_files(rng):
        yield Case(SETTLE, 9, file_bytes)
        yield Case(SETTLE, 0, file_bytes)


def failing_day(shapes, peak=0):
    """A quiet day with a failure of tier 2 in every hour of every area."""
    day = days.quiet_day(shapes, peak=peak)
    for area in day.areas:
        area.hub_a = 5000
        for hour in area.hours:
            hour.requirement = 60000
            hour.energy_up = 20000
    return day


def without_price(hour):
    hour.pairs = [(quantity, MISSING) for quantity, _ in hour.pairs]


def one_price_short(hour):
    """8 of 12 prices, or 17 of 24: one below 9L."""
    count = len(hour.pairs)
    hour.pairs = days.missing_at(hour.pairs, range(count // 4 + 1))


def without_quantity(hour):
    hour.pairs = [(0, price) for _, price in hour.pairs]


def just_enough_without_quantity(hour):
    """9L prices and no quantity under them, and quantities where the price is missing."""
    count = len(hour.pairs)
    missing = range(0, count, 4)
    hour.pairs = [
        (quantity if place in missing else 0, price)
        for place, (quantity, price) in enumerate(days.missing_at(hour.pairs, missing))
    ]


def settle_no_price(rng):
    """Refusals 16 and 11 at the first and last hour and area where they can come, and where no
    price is needed."""
    two = [SMALL, (1, 1, 2)]
    gaps = (one_price_short, just_enough_without_quantity)
    # Off-peak hours of tier 2, without peak hours: area and hour of the first gap.
    for area, hour in ((0, 0), (0, 23), (1, 0), (1, 23)):
        for gap in gaps:
            day = failing_day(two)
            gap(day.areas[area].hours[hour])
            yield settle_of(day)
    # Nothing is left: no price, or no quantity.
    for gap in (without_price, without_quantity):
        day = failing_day([(0, 2, 1)])
        gap(day.areas[0].hours[23])
        yield settle_of(day)
    # Among nine prices one of quantity 1 is enough; eight are too few at any quantity.
    for present in (9, 8):
        day = failing_day([SMALL])
        some = [(0, 7)] * (present - 1) + [(1, -300000)]
        day.areas[0].hours[23].pairs = [(500, MISSING)] * (12 - present) + some
        yield settle_of(day)
    # Peak hours: needed in tier 0 of a day of tier 2 or 3, also where S is 0.
    for hub, hour in ((5000, 6), (5000, 21), (-5000, 21)):
        for gap in gaps:
            day = on_peak_day(hub_a=hub, hub_b=hub)
            day.areas[0].hours[6].energy_up = 0
            day.areas[0].hours[13].energy_up = 120000
            gap(day.areas[0].hours[hour])
            yield settle_of(day)
    # Not needed: peak hours of tier 1 to 3, tier 0 and 1 off-peak, a day of tier 1, flag 0.
    day = on_peak_day()
    for hour in (0, 5, 6, 7, 22, 23):
        without_price(day.areas[0].hours[hour])
    day.areas[0].hours[23].energy_up = 10000
    yield settle_of(day)
    for failing, flag in ((10000, 1), (120000, 0), (120000, 1)):
        day = on_peak_day(failing=failing)
        day.areas[0].flag = flag
        for hour in day.areas[0].hours:
            without_price(hour)
        yield settle_of(day)
    # 13 before 16 and 11.
    for gap in gaps:
        day = failing_day([SMALL])
        gap(day.areas[0].hours[0])
        yield Case(SETTLE, day.numbers_needed() - 1, day.to_bytes())


def settle_no_demand(rng):
    """Refusal 12 at the first and last hour, in competition with 16, 11 and 13, and where it cannot
    come."""
    shapes = [(1, 1, 2), SMALL]
    for shape_order in (shapes, shapes[::-1]):
        ciso = shape_order.index((1, 1, 2))
        for hour in (0, 23):
            day = failing_day(shape_order)
            day.areas[ciso].hours[hour].demands = [0, 0]
            yield settle_of(day)
        # The other area lacks a price in its last hour: areas in order.
        day = failing_day(shape_order)
        day.areas[ciso].hours[0].demands = [0, 0]
        without_price(day.areas[1 - ciso].hours[23])
        yield settle_of(day)
    # All demands 0: no amount, flag 0 and kind 0 have nothing to refuse.
    quiet = days.quiet_day([(1, 1, 2)], demand=0)
    yield settle_of(quiet)
    for kind, flag in ((1, 0), (1, 1), (0, 1)):
        day = failing_day([(kind, 1, 1)])
        day.areas[0].flag = flag
        for hour in day.areas[0].hours:
            hour.demands = [0]
            hour.set_downward((20000, 0))
            hour.mec = -300000
        yield settle_of(day)
    # Amounts that cancel: 20 MW at 25.00 and 1.25 is $625.00, 20 MW at -31.25 takes it back.
    for mec in (-312500, -312501, -312499):
        day = days.quiet_day([(1, 1, 2)], peak=0, demand=0)
        hour = day.areas[0].hours[17]
        hour.requirement, hour.energy_up, hour.energy_down, hour.mec = 60000, 20000, 20000, mec
        yield settle_of(day)
    # Only a downward amount, in a peak hour.
    day = days.quiet_day([(1, 1, 2)], demand=0)
    day.areas[0].hours[12].regulation_down, day.areas[0].hours[12].mec = 10001, -1
    yield settle_of(day)
    day.areas[0].hours[12].mec = -500
    yield settle_of(day)


def settle_ends(rng):
    """Every number at the end of its range, both kinds, both peak words: the largest amounts."""
    sides = ((0, -200000, 0), (1, 200000, 2500000), (0, 200000, 2500000))
    for shape in (SMALL, (1, 2, 3)):
        for peak in (0, PEAK_WORD):
            for which, hub, deficiency in sides:
                day = ends_day(shape, which)
                day.peak = peak
                area = day.areas[0]
                area.hub_a, area.hub_b, area.persistent_days = hub, -hub, 30
                for number, hour in enumerate(area.hours):
                    # Every third hour is passed, and has a credit in a peak hour.
                    hour.set_upward([deficiency if number % 3 else 0] * 4)
                    hour.set_downward([deficiency] * 2)
                    hour.pairs = [(max(1, quantity), price) for quantity, price in hour.pairs]
                    if shape != SMALL:
                        hour.demands = [1, 0, 99999999]
                yield settle_of(day)


def settle_full_day(rng):
    """Eight areas, one with 64 coordinators, two load points."""
    shapes = [(0, 2, 1)] * 7 + [(1, 2, 64)]
    for style in (days.REALISTIC, days.THRESHOLDS):
        day = filled_day(rng, *shapes, style=style)
        yield settle_of(day)


def settle_thresholds(rng):
    """Deficiencies around 10 MW, 1% of Q and half of Q."""
    for _ in range(60):
        shape = rng.choice((SMALL, SMALL, (1, 1, 2)))
        day = days.random_day_of(rng, [shape], days.THRESHOLDS)
        yield settle_of(day)


def settle_random(rng):
    """Random days of all styles, every other one small; some have a needed price or a demand missing."""
    for number in range(120):
        day = small_day(rng) if number % 2 else days.random_day(rng)
        yield Case(SETTLE, day.numbers_needed() + rng.choice((0, 0, 1, 4)), day.to_bytes())


# Call 3: the load-weighted price


def pair_bytes(pairs):
    return days.bytes_of([word for pair in pairs for word in pair])


def price_lengths(rng):
    """Both lengths, and others."""
    plain = pair_bytes([(1000, 250000)] * 40)
    for size in (0, 1, 8, 95, 96, 97, 100, 104, 184, 191, 192, 193, 196, 200, 288, 320):
        yield Case(PRICE, 0, plain[:size])


def price_ranges(rng):
    """Refusal 9 at the first, second and last pair, by quantity and by price, and both ends."""
    for count in (12, 24):
        for place in (0, 1, 11, count - 1):
            for pair in (
                (10000000, 20000000),
                (10000000, -20000000),
                (0, MISSING),
                (10000001, 0),
                (-1, 0),
                (0x7FFFFFFF, 0),
                (0x80000000, 0),
                (1, 20000001),
                (1, -20000001),
                (1, 0x7FFFFFFF),
                (1, 0x80000001),
                (-1, MISSING),
                (-1, 20000001),
            ):
                pairs = [(1000, 250000)] * count
                pairs[place] = pair
                yield Case(PRICE, 0, pair_bytes(pairs))
    # Two pairs: the first in order; and 9 before 11.
    for count in (12, 24):
        pairs = [(1000, 250000)] * count
        pairs[3], pairs[7] = (1, 20000001), (-1, 1)
        yield Case(PRICE, 0, pair_bytes(pairs))
        pairs = [(0, MISSING)] * count
        pairs[-1] = (0, -20000001)
        yield Case(PRICE, 0, pair_bytes(pairs))


def price_without_quantity(rng):
    """Refusal 11: no price, no quantity, or neither where the other is."""
    for count in (12, 24):
        for pairs in (
            [(1000, MISSING)] * count,
            [(0, MISSING)] * count,
            [(0, 250000)] * count,
            [(0, 250000), (1000, MISSING)] * (count // 2),
            [(0, -250000)] + [(10000000, MISSING)] * (count - 1),
        ):
            yield Case(PRICE, 0, pair_bytes(pairs))
            # One unit of quantity is enough.
            yield Case(PRICE, 0, pair_bytes([(1, -7)] + pairs[1:]))
            yield Case(PRICE, 0, pair_bytes(pairs[:-1] + [(1, 20000000)]))


def price_counts(rng):
    """Every count of present prices, with and without quantity under them; a count is no refusal,
    and a refusal for range has none."""
    for count in (12, 24):
        for missing in range(count + 1):
            for quantity in (1000, 0):
                pairs = [(quantity, 250000 + place) for place in range(count)]
                pairs = days.missing_at(pairs, days.random_places(rng, count, missing))
                yield Case(PRICE, 0, pair_bytes(pairs))
            # The quantity under a missing price is as much a quantity as any other: it is checked.
            pairs[-1] = (10000001, MISSING)
            yield Case(PRICE, 0, pair_bytes(pairs))


def price_figures(rng):
    """T10, with the missing intervals before and after, and averages that end in a half."""
    t10 = [(100000, 300000), (300000, 500000)]
    yield Case(PRICE, 0, pair_bytes(t10 + [(0, MISSING)] * 10))
    yield Case(PRICE, 0, pair_bytes(t10 + [(100000, MISSING)] * 10))
    yield Case(PRICE, 0, pair_bytes([(100000, MISSING)] * 10 + t10))
    yield Case(PRICE, 0, pair_bytes([(100000, MISSING)] * 22 + t10))
    rest = [(0, 0)] * 10
    for pairs in (
        [(1, 1), (1, 0)],
        [(1, -1), (1, 0)],
        [(1, 3), (1, 0)],
        [(1, -3), (1, 0)],
        [(1, 2), (1, -1)],
        [(1, 1), (1, -2)],
        [(1, 1), (2, 0)],
        [(2, 1), (1, 0)],
        [(1, -1), (2, 0)],
        [(2, -1), (1, 0)],
        [(10000000, 20000000), (10000000, 19999999)],
        [(10000000, -20000000), (10000000, -19999999)],
        [(4999999, 1), (5000001, 0)],
        [(5000000, 1), (5000000, 0)],
        [(5000001, -1), (4999999, 0)],
        [(1, 20000000), (1, -20000000)],
    ):
        yield Case(PRICE, 0, pair_bytes(pairs + rest))
    for count in (12, 24):
        for price in (20000000, -20000000, 1, -1, 0):
            yield Case(PRICE, 0, pair_bytes([(10000000, price)] * count))


def random_pair(rng):
    style = rng.choice((days.REALISTIC, days.THRESHOLDS, days.EXTREME))
    quantity = days.random_quantity(rng, style)
    price = MISSING if chance(rng, 20) else days.random_market_price(rng, style)
    return quantity, price


def random_price_case(rng):
    count = rng.choice((12, 24))
    if chance(rng, 30):
        # Small numbers, where a half is common.
        pairs = [(between(rng, 0, 3), between(rng, -9, 9)) for _ in range(count)]
    else:
        pairs = [random_pair(rng) for _ in range(count)]
    if chance(rng, 8):
        place = rng.randrange(count)
        pairs[place] = tuple(damaged_word(rng, word) for word in pairs[place])
    payload = pair_bytes(pairs)
    if chance(rng, 3):
        payload = payload[: rng.randrange(len(payload))]
    return Case(PRICE, 0, payload)


def price_random(rng):
    """Random pairs of both lengths."""
    for _ in range(250):
        yield random_price_case(rng)


# Call 4: the sharing of one amount


def share_case(amount, rows, lent=None):
    return Case(SHARE, len(rows) if lent is None else lent, share_payload(amount, rows))


def rows_of(demands):
    return [(k + 1, demand) for k, demand in enumerate(demands)]


def share_rows(rng):
    """0, 1, 2, 64, 65 and 70 rows, with room for all of them and for none."""
    for count in (0, 1, 2, 63, 64, 65, 70):
        rows = rows_of([3 * k + 1 for k in range(count)])
        for amount in (0, 1, -1, 1000, -99999, 10000000000, -10000000000, 10000000001):
            yield share_case(amount, rows)
        yield share_case(77, rows, lent=0)
        yield share_case(77, rows, lent=count + 3)


def share_amounts(rng):
    """Refusal 15: both sides of ±10,000,000,000, and the ends of 64 bits."""
    limit = 10000000000
    ends = (limit, limit - 1, limit + 1, 1 << 40, (1 << 32) + 5, 1 << 62, (1 << 63) - 1)
    for rows in (rows_of([1, 1, 1]), rows_of([99999999, 1]), rows_of([0, 0]), rows_of([5])):
        for amount in ends:
            yield share_case(amount, rows)
            yield share_case(-amount, rows)
        yield share_case(-(1 << 63), rows)


def share_figures(rng):
    """T11 in its three forms, T12, and the like with the other sign and with no demand in a row."""
    for amount, demands in (
        (100, (1, 1, 1)),
        (100, (2, 1)),
        (-100, (1, 1, 1)),
        (-100, (2, 1)),
        (1, (1, 0, 1)),
        (-1, (1, 0, 1)),
        (1, (0, 1, 1)),
        (1, (1, 1)),
        (-1, (1, 1)),
        (3, (1, 1)),
        (-3, (1, 1)),
        (1, (0, 0, 0, 1)),
        (1, (1, 0, 0, 0)),
        (7, (0, 5, 0)),
        (10000000000, (33333333, 33333333, 33333334)),
        (-10000000000, (99999999, 1)),
        (9999999999, (1, 99999999)),
    ):
        yield share_case(amount, rows_of(demands))
        yield share_case(amount, rows_of(demands), lent=len(demands) + 2)


def share_rows_refused(rng):
    """8, 9 and 10 at the first and last row where they can come, both sides of each range."""
    for count in (1, 3, 64):
        plain = [(10 * k + 10, 1000) for k in range(count)]
        for place in {1: (0,), 3: (0, 1, 2), 64: (0, 1, 63)}[count]:
            before = plain[place - 1][0] if place else 0
            for coordinator in (0, 1, before, before + 1, LARGEST_NUMBER, 0x80000000, 0xFFFFFFFF):
                rows = list(plain)
                rows[place] = (coordinator, 1000)
                yield share_case(12345, rows)
            for demand in (0, 99936000, 100000000, 100000001, 0x7FFFFFFF, 0x80000000, 0xFFFFFFFF):
                rows = list(plain)
                rows[place] = (plain[place][0], demand)
                yield share_case(12345, rows)
    for demands in (
        (100000000, 0, 0),
        (0, 0, 100000000),
        (100000000, 1, 0),
        (100000000, 0, 1),
        (50000000, 50000000, 0),
        (50000000, 50000000, 1),
        (50000000, 50000001, -1),
        (100000000, 100000001, 0),
        (100000000, 100000000, 100000000),
    ):
        yield share_case(-54321, rows_of(demands))
    yield share_case(64, rows_of([1562500] * 64))
    yield share_case(64, rows_of([1562500] * 63 + [1562501]))
    yield share_case(64, rows_of([100000000] * 64))


def share_order(rng):
    """Pairs of refusals: 1, 15, rows in order with 8, 9, 10 in a row, 13, 12."""
    too_much = 10000000001
    good = [(1, 5), (2, 5), (3, 5)]
    dry = [(1, 0), (2, 0), (3, 0)]
    bad_8 = [(1, 5), (1, 5), (3, 5)]
    bad_9 = [(1, 5), (2, -1), (3, 5)]
    bad_10 = [(1, 100000000), (2, 1), (3, 5)]
    sixty_five = rows_of([0] * 65)
    for amount, rows, lent in (
        # 1 before 15, 8, 13 and 12.
        (too_much, sixty_five, 0),
        (1, sixty_five, 64),
        (1, [(0, -1)] * 65, 65),
        (too_much, [], 0),
        (1, [], 5),
        # 15 before the rows, 13 and 12.
        (too_much, bad_8, 3),
        (-too_much, bad_9, 3),
        (too_much, bad_10, 0),
        (too_much, good, 2),
        (too_much, dry, 3),
        # The rows before 13 and 12, also with amount 0.
        (1, bad_8, 2),
        (1, bad_9, 0),
        (1, bad_10, 2),
        (0, bad_8, 3),
        (0, bad_9, 3),
        (0, bad_10, 3),
        (1, [(0, 0), (2, 0)], 2),
        # 8 before 9 before 10 in one row; an earlier row before a later one.
        (1, [(1, 5), (1, -1), (3, 5)], 3),
        (1, [(1, 100000000), (1, 1), (3, 5)], 3),
        (1, [(1, 100000000), (2, 100000001), (3, 5)], 3),
        (1, [(1, 100000000), (1, 100000001), (3, 5)], 3),
        (1, [(1, -1), (1, 5), (3, 5)], 3),
        (1, [(1, 100000000), (2, 1), (2, -1)], 3),
        (1, [(2, 5), (1, -1), (0, -1)], 3),
        # 13 before 12; place the numbers needed.
        (1, dry, 2),
        (1, dry, 0),
        (1, good, 2),
        (1, good, 0),
        (0, good, 2),
        (0, dry, 2),
        # 12, and nothing to refuse with amount 0.
        (1, dry, 3),
        (-1, dry, 4),
        (1, [(9, 0)], 1),
        (0, dry, 3),
        (0, dry, 5),
        (0, good, 5),
    ):
        yield share_case(amount, rows, lent)


def random_share_case(rng):
    count = rng.choice((1, 1, 2, 2, 3, 3, 4, 5, 7, between(rng, 1, 64), between(rng, 0, 70)))
    style = rng.choice((days.REALISTIC, days.EXTREME))
    demands = days.random_demands(rng, style, count, gaps=True) if count else []
    coordinators = days.rising(rng, count, rng.choice((count + 3, LARGEST_NUMBER)))
    rows = list(zip(coordinators, demands))
    sizes = (1, 100, 99999, 10000000000, 10000000002)
    size = rng.choice(sizes)
    amount = rng.choice((size, -size, between(rng, -size, size), between(rng, -size, size)))
    if rows and chance(rng, 12):
        place = rng.randrange(count)
        rows[place] = tuple(damaged_word(rng, word) for word in rows[place])
    lent = min(128, count + rng.choice((0, 0, 0, 1, 5)))
    if count and chance(rng, 6):
        lent = rng.randrange(count)
    return share_case(amount, rows, lent)


def share_random(rng):
    """Random amounts and rows."""
    for _ in range(300):
        yield random_share_case(rng)


# Call 6: the C call


def c_call_of(day):
    """A day in exactly the room that it needs: settled, or what an hour refuses."""
    return Case(C_CALL, 8 * day.numbers_needed(), day.to_bytes())


def c_call_rooms(rng):
    """Rooms in bytes: exact, a byte short, a byte to seven more, a number more, long, none."""
    for shapes in ([SMALL], [(1, 1, 2)], [SMALL, CISO]):
        day = filled_day(rng, *shapes)
        room = 8 * day.numbers_needed()
        for lent in (room, room - 1, room + 1, room + 7, room + 8, room - 8, 2 * room, 7, 0):
            yield Case(C_CALL, lent, day.to_bytes())
    yield Case(C_CALL, 65536, filled_day(rng, SMALL).to_bytes())


def c_call_refused(rng):
    """The numbers of the check, 12, 11 and 16: nothing is written."""
    for number, file_bytes in enumerate(refused_files(rng)):
        yield Case(C_CALL, (1152, 0)[number % 2], file_bytes)
    day = failing_day([(1, 1, 2)])
    day.areas[0].hours[23].demands = [0, 0]
    yield c_call_of(day)
    for gap in (without_quantity, without_price):
        gap(day.areas[0].hours[23])
        yield c_call_of(day)
        yield Case(C_CALL, 8 * day.numbers_needed() - 1, day.to_bytes())


def c_call_prices_seen(rng):
    """None to all of an hour's prices present, one load point and two, off-peak and peak, and with
    the missing ones first, last and anywhere: settled from 9L on."""
    for load_points in (1, 2):
        count, enough = 12 * load_points, 9 * load_points
        for present in sorted({0, 1, 8, 9, enough - 1, enough, enough + 1, count - 1, count}):
            missing = count - present
            for places in (
                range(missing),
                range(present, count),
                days.random_places(rng, count, missing),
            ):
                for peak in (0, PEAK_WORD):
                    day = failing_day([(0, load_points, 1)], peak)
                    # A passed peak hour of a day of tier 2, or an off-peak hour that fails.
                    hour = day.areas[0].hours[14]
                    hour.energy_up = 0 if peak else 20000
                    hour.pairs = [(between(rng, 1, 9), between(rng, -99, 999)) for _ in hour.pairs]
                    hour.pairs = days.missing_at(hour.pairs, places)
                    yield c_call_of(day)
    # Two load points: the prices of both count together.
    for first, second in ((12, 5), (12, 6), (9, 8), (9, 9), (6, 12), (5, 12)):
        day = failing_day([(0, 2, 1)])
        some = days.missing_at([(1000, 250000)] * 12, range(first, 12))
        more = days.missing_at([(1000, 250000)] * 12, range(second, 12))
        day.areas[0].hours[23].pairs = some + more
        yield c_call_of(day)
    # Not needed: one price of twelve does in peak hours that fail, and with EDAM flag 0.
    for flag in (0, 1):
        day = failing_day([SMALL], PEAK_WORD)
        day.areas[0].flag = flag
        for hour in day.areas[0].hours[6:22]:
            hour.pairs = days.missing_at(hour.pairs, range(11))
        yield c_call_of(day)
        one_price_short(day.areas[0].hours[22])
        yield c_call_of(day)


def dry(hour):
    hour.demands = [0] * len(hour.demands)


def c_call_order_of_hours(rng):
    """16, 11 and 12 in one file, in every order of hours and of areas, and two or three of them in
    one hour: areas and hours in order, in each hour 16, 11, 12."""
    refusals = (one_price_short, without_quantity, dry)
    for places in ((3, 4, 5), (0, 11, 23), (3, 3, 5), (3, 5, 5), (8, 8, 8)):
        for order in itertools.permutations(refusals):
            day = failing_day([(1, 1, 2)])
            for hour, refusal in zip(places, order):
                refusal(day.areas[0].hours[hour])
            yield c_call_of(day)
    # Three areas; only CISO can be dry.
    for order in itertools.permutations(refusals):
        shapes = [(1, 1, 2) if refusal == dry else SMALL for refusal in order]
        day = failing_day(shapes)
        for area, hour, refusal in zip(day.areas, (20, 10, 0), order):
            refusal(area.hours[hour])
        yield c_call_of(day)


def c_call_off_peak_scaling(rng):
    """Every d over off-peak hours of tier 2 and 3 whose amount is half a cent before the day scaling
    or after it, or the largest; without peak hours, and on days of another day tier."""
    for persistent_days in range(31):
        scaling = 100 + persistent_days
        # U × price × 5 × (100 + d) / 40,000,000 is half a cent for U 15.625 and this price.
        half = 256 // (scaling & -scaling) * (2 * between(rng, 0, 9999) + 1)
        day = off_peak_day(
            persistent_days,
            [
                (15625, 31250, half - 1),
                (15625, 31250, half),
                (15625, 31250, half + 1),
                (15625, 31249, half),
                (20000, 40000, 2 * (2 * between(rng, 0, 999999) + 1)),
                (10001, 20001, between(rng, -20000000, 20000000)),
            ],
        )
        # The largest amounts of tier 2 and 3.
        for hour, requirement in zip(day.areas[0].hours[22:], (20000000, 19999999)):
            hour.set_upward([2500000] * 4)
            hour.requirement, hour.pairs = requirement, [(1000, 20000000)] * 12
        yield c_call_of(day)
        day.peak, day.areas[0].hub_a = PEAK_WORD, 100
        failing = day.areas[0].hours[between(rng, 6, 21)]
        failing.requirement = 100000
        for energy_up in (10000, 20000, 60000):
            failing.energy_up = energy_up
            yield c_call_of(day)


def credited_day(hub, prices, flag=1, peak=PEAK_WORD, failing=12500):
    """M 12.5 MW in hour ending 7, and a passed peak hour for each of the prices, 15 at most. In tier 2
    and with d 0 S is 125 eighths of a cent for each cent of the hub price, and the credit an eighth for
    each unit of the price."""
    day = days.quiet_day([SMALL], peak=peak, pair=(1000, 0))
    area = day.areas[0]
    area.flag, area.persistent_days, area.hub_a, area.hub_b = flag, 0, hub, hub
    for hour in area.hours:
        hour.requirement = 100000
    area.hours[6].energy_up = failing
    for hour, price in zip(area.hours[7:22], prices):
        hour.pairs = [(1000, price)] * 12
    return day


AROUND_0 = range(-7, 8)


def settle_surcharge_shown(rng):
    """S at 15 5/8 and at 31 1/4 cents, and credits within a cent of it on both sides: what is shown
    leaves the amount, a cent more or a cent less. The same in tier 1 and with flag 0: both are 0."""
    for hub in (1, 2):
        prices = [125 * hub + step for step in AROUND_0]
        yield settle_of(credited_day(hub, prices))
    yield settle_of(credited_day(2, prices, failing=10000))
    yield settle_of(credited_day(2, prices, flag=0))


def c_call_surcharge_shown(rng):
    """S and the credit at every eighth of a cent on its own, S at 0 and below, the credit around S, 0
    and far above S; in tier 1, 2 and 3, with flag 0 and without peak hours; two areas, and shares."""
    for hub in range(-1, 9):
        for prices in (
            [125 * hub + step for step in AROUND_0],
            AROUND_0,
            [4 * (2 * step + 1) for step in AROUND_0],
            [between(rng, -20000000, 20000000) for _ in AROUND_0],
        ):
            yield c_call_of(credited_day(hub, prices))
    prices = [125 * 8 + step for step in AROUND_0]
    for failing in (9999, 10000, 10001, 50000, 50001):
        for flag, peak in ((1, PEAK_WORD), (0, PEAK_WORD), (1, 0)):
            yield c_call_of(credited_day(8, prices, flag, peak, failing))
    # Passed and failed hours side by side: tier 1, 2 and 3 have no credit.
    day = credited_day(8, prices)
    for hour, upward in zip(day.areas[0].hours[8:], (1, 10000, 10001, 12500, 0, 12499)):
        hour.regulation_up = upward
    day.areas[0].hours[9].requirement = 20000
    yield c_call_of(day)
    # The largest S and credits, and the most negative credit.
    for hub, price in ((200000, 20000000), (200000, -20000000), (-200000, -20000000)):
        day = credited_day(hub, [price] * 15)
        day.areas[0].persistent_days = 30
        day.areas[0].hours[6].set_upward([2500000] * 4)
        yield c_call_of(day)
    # Neither is shared: coordinators of two areas, with amounts and without.
    for hub in (1, 3, 8):
        day = days.quiet_day([SMALL, CISO], pair=(1000, 0))
        for area in day.areas:
            one = credited_day(hub, [125 * hub + step for step in AROUND_0]).areas[0]
            area.hub_a = area.hub_b = hub
            for hour, like in zip(area.hours, one.hours):
                hour.requirement, hour.energy_up, hour.pairs = 100000, like.energy_up, like.pairs
        yield c_call_of(day)


def c_call_random(rng):
    """Random days, and the smaller files of vectors/."""
    for number in range(300):
        day = small_day(rng) if number % 2 else days.random_day(rng)
        yield Case(C_CALL, 8 * day.numbers_needed() + rng.choice((0, 3, 16)), day.to_bytes())
    for file_bytes in vector_files():
        if len(file_bytes) <= 12000:
            yield Case(C_CALL, 8 * needed(file_bytes), file_bytes)


# Call 7: entering a day in a record


def record_of(last_day=0, *places):
    """The words of a record: the last day entered, then each area held with its marks."""
    words = [last_day, len(places)] + [word for place in places for word in place]
    return words + [0] * (reference.RECORD_WORDS - len(words))


def bits(*places):
    """Marks on the days so many days before the last day entered."""
    return sum(1 << place for place in places)


ALL_THIRTY = bits(*range(30))
EMPTY_RECORD = record_of()


def record_payload(record, file_bytes):
    return days.bytes_of(record) + file_bytes


def enter_case(record, day):
    return Case(ENTER, 0, record_payload(record, day.to_bytes()))


def fail(hour, upward=20000, requirement=60000):
    """A failure of tier 2, unless another is given."""
    hour.energy_up, hour.requirement = upward, requirement


def entered_day(date, failing=(7,), quiet=()):
    """A day of areas that fail in hour ending 14, which marks the day, and of quiet ones."""
    numbers = sorted(failing + quiet)
    day = days.quiet_day([SMALL] * len(numbers), date=date)
    for area, number in zip(day.areas, numbers):
        area.number = number
        if number in failing:
            fail(area.hours[13])
    return day


def entries(record, entered):
    """Each day entered in the record that the days before it left."""
    for day in entered:
        yield enter_case(record, day)
        _, _, record = reference.enter(record, day.to_bytes())


def enter_sequences(rng):
    """Entries from the empty record on, each in the record that those before it left, marked and
    unmarked, over gaps of 1 to 36,524 days."""
    dates = [20241129]
    for gap in (1, 2, 29, 1, 30, 31, 59, 60, 365):
        dates.append(days.later(dates[-1], gap))
    # The same area fails on each day; three areas by turns; every other day is unmarked.
    yield from entries(EMPTY_RECORD, [entered_day(date) for date in dates])
    turns = zip(dates[:5], (7, 9, 5, 9, 7))
    yield from entries(EMPTY_RECORD, [entered_day(date, (number,)) for date, number in turns])
    marked, unmarked = ((7,), (9,)), ((), (7,))
    turns = zip(dates[:4], (marked, unmarked, marked, unmarked))
    yield from entries(EMPTY_RECORD, [entered_day(date, *areas) for date, areas in turns])
    # The whole century between two entries.
    yield from entries(EMPTY_RECORD, [entered_day(date) for date in (20000101, 20991231)])


def enter_calendar(rng):
    """Sequences over the ends of months and years, the ends of February, the first days of 2000 and
    the last of 2099, with gaps at which a mark just stays and just goes."""
    for dates in (
        # The mark of the first day of 2000 stays until 30 January.
        (20000101, 20000102, 20000130, 20000131),
        (20000131, 20000229, 20000301),
        (20000201, 20000302),
        (20231231, 20240101, 20240229, 20240301, 20240329, 20240330),
        (20230228, 20230301, 20230329, 20230330),
        (20240731, 20240801, 20240830),
        (20251202, 20251231, 20260101),
        (20991201, 20991230, 20991231),
    ):
        yield from entries(EMPTY_RECORD, [entered_day(date) for date in dates])


def enter_ageing(rng):
    """A record of several areas moves on by one day to a hundred years; the area that comes in
    stands between them, or the day is unmarked. Gaps of 32 and 64 days are no gaps of 0."""
    last_day = 20240201
    record = record_of(
        last_day,
        (3, bits(0)),
        (5, bits(29)),
        (8, ALL_THIRTY),
        (11, bits(1, 28)),
        (20, bits(28)),
        (21, bits(0, 14, 15)),
    )
    for gap in (1, 2, 14, 15, 28, 29, 30, 31, 32, 33, 60, 64, 366):
        yield enter_case(record, entered_day(days.later(last_day, gap)))
    for gap in (1, 29, 30, 32):
        yield enter_case(record, entered_day(days.later(last_day, gap), (), (8,)))
    # An area that the record holds is marked again, alone and with others.
    for gap, failing in ((1, (8,)), (2, (3, 21)), (29, (5, 8)), (30, (8,))):
        yield enter_case(record, entered_day(days.later(last_day, gap), failing))


def enter_marks(rng):
    """What marks a day: an hour of tier 2 or 3, peak or not, with flag 1."""
    record = record_of(20260502, (6, bits(0)), (7, bits(3)))
    # The first and last hours of the day, of the peak hours and next to them, in tier 2, 3 and 1.
    for upward, hours in ((20000, (0, 5, 6, 21, 22, 23)), (30001, (0, 6, 23)), (10000, (0, 6, 23))):
        for hour in hours:
            day = days.quiet_day([SMALL])
            fail(day.areas[0].hours[hour], upward)
            yield enter_case(record, day)
    # Both sides of 10 MW, 1% of Q and half of Q, and Q 0, without peak hours.
    for upward, requirement in (
        (10000, 600000),
        (10001, 600000),
        (10000, 0),
        (10001, 0),
        (20000, 2000000),
        (20001, 2000000),
        (10001, 1000100),
        (10001, 1000099),
        (300000, 600000),
        (300001, 600000),
    ):
        day = days.quiet_day([SMALL], peak=0)
        fail(day.areas[0].hours[9], upward, requirement)
        yield enter_case(record, day)
    # The four numbers together, and the downward ones not.
    for parts in ((2500, 2500, 2500, 2500), (2500, 2501, 2500, 2500), (0, 0, 0, 10001)):
        day = days.quiet_day([SMALL])
        day.areas[0].hours[3].set_upward(parts)
        day.areas[0].hours[3].set_downward((2500000, 2500000))
        yield enter_case(record, day)
    # Flag 0 with failures in every hour; tier 1 in every hour; no failure at all.
    for flag, upward in ((0, 2500000), (1, 10000), (1, 0)):
        day = days.quiet_day([SMALL])
        day.areas[0].flag = flag
        for hour in day.areas[0].hours:
            fail(hour, upward)
        yield enter_case(record, day)
    # Two areas, of which one is marked: by its tier and by its flag.
    for failing, flags in (((7,), (1, 1)), ((9,), (1, 1)), ((7, 9), (0, 1)), ((7, 9), (1, 0))):
        quiet = tuple({7, 9} - set(failing))
        day = entered_day(DATE, failing, quiet)
        for area, flag in zip(day.areas, flags):
            area.flag = flag
        yield enter_case(record, day)
    # The file's own d does not matter.
    day = entered_day(DATE)
    day.areas[0].persistent_days = 30
    yield enter_case(record, day)


def days_that_settling_refuses():
    """Days that the check accepts and settlement refuses with 16, 11 and 12."""
    for gap in (one_price_short, without_quantity, dry):
        day = failing_day([(1, 1, 1)])
        gap(day.areas[0].hours[23])
        yield day


def enter_unsettled(rng):
    """Days that settlement would refuse can be entered; so can a day whose missing prices nobody
    needs."""
    for day in days_that_settling_refuses():
        yield enter_case(EMPTY_RECORD, day)
    day = failing_day([SMALL], PEAK_WORD)
    for hour in day.areas[0].hours:
        without_price(hour)
    yield enter_case(record_of(20260503, (7, bits(29))), day)


def full_record(last_day=20260503, **marks_of):
    """A record of the areas 10, 20, .. 80, each marked on the last day unless other marks are
    given, as in at_40=bits(29)."""
    numbers = range(10, 90, 10)
    places = [(number, marks_of.get("at_%d" % number, bits(0))) for number in numbers]
    return record_of(last_day, *places)


def enter_full(rng):
    """Refusal 19: a ninth area. It is judged after the ageing, and an area that is held already
    does not count twice."""
    # Before, between and behind those held; unmarked areas do not come in.
    for number in (1, 45, LARGEST_NUMBER):
        yield enter_case(full_record(), entered_day(DATE, (number,)))
    yield enter_case(full_record(), entered_day(DATE, (), (45,)))
    day = entered_day(DATE, (45,))
    day.areas[0].flag = 0
    yield enter_case(full_record(), day)
    # Areas that it holds, and one with another that it does not.
    for failing in ((10,), (40,), (80,), (40, 41)):
        yield enter_case(full_record(), entered_day(DATE, failing))
    # One area's last mark falls out on that day, or a day later, or it has another one.
    for name, number in (("at_10", 90), ("at_40", 45), ("at_80", 7)):
        yield enter_case(full_record(**{name: bits(29)}), entered_day(DATE, (number,)))
    for gap, marks in ((1, bits(28)), (2, bits(28)), (1, bits(1, 29)), (29, 1), (30, 1)):
        record = full_record(at_40=marks)
        yield enter_case(record, entered_day(days.later(20260503, gap), (45,)))
    # The area whose last mark falls out is marked anew.
    yield enter_case(full_record(at_40=bits(29)), entered_day(DATE, (40, 45)))
    yield enter_case(full_record(at_40=bits(29)), entered_day(DATE, (40,)))
    # Several areas come in at once: exactly 8, and one more; with two that go.
    for held, failing in (
        (7, (7,)),
        (7, (7, 9)),
        (6, (1, LARGEST_NUMBER)),
        (6, (1, 35, LARGEST_NUMBER)),
        (6, (1, 30, LARGEST_NUMBER)),
        (5, (15, 25, 35)),
    ):
        places = [(10 * place, bits(0)) for place in range(1, held + 1)]
        yield enter_case(record_of(20260503, *places), entered_day(DATE, failing))
    gone = {"at_10": bits(29), "at_80": bits(29)}
    for failing in ((45, 90), (7, 45, 90), (10, 45)):
        yield enter_case(full_record(**gone), entered_day(DATE, failing))
    # Files of eight areas: in the empty record, in one that holds one of them, in one that holds
    # another, in a full one of others, and in the same when all of its marks fall out.
    eight = tuple(range(1, 9))
    for record in (
        EMPTY_RECORD,
        record_of(20260503, (8, bits(0))),
        record_of(20260503, (9, bits(0))),
        full_record(),
        full_record(20260404),
    ):
        yield enter_case(record, entered_day(DATE, eight))


def enter_not_after(rng):
    """Refusal 18: the same day and days before it, for a record with areas and without."""
    for last_day, date in (
        (20260504, 20260504),
        (20260504, 20260503),
        (20260504, 20250504),
        (20260504, 20260505),
        # A later month or year with an earlier day.
        (20260601, 20260531),
        (20270101, 20261231),
        (20260531, 20260601),
        (20261231, 20270101),
        (20240301, 20240229),
        (20000101, 20000101),
        (20991231, 20991230),
        (20991231, 20991231),
    ):
        yield enter_case(record_of(last_day, (7, bits(0))), entered_day(date))
    for last_day in (20260503, 20260504):
        yield enter_case(record_of(last_day), entered_day(DATE, (), (7,)))


def broken_records():
    """Records on both sides of each rule of their words (14), each with the day to be entered."""

    def changed(record, *changes):
        words = list(record)
        for place, value in changes:
            words[place] = value
        return words

    base = record_of(20260503, (5, bits(0, 2)), (9, bits(29)))
    full = full_record()
    records = []
    # Word 0: no such date, and 0 with something held or in an unused place.
    for date in (0, 20230229, 20240229, 20000230, 19991231, 21000101, 20261301, 99999999):
        records.append(changed(base, (0, date)))
    for date in (20260503 + (1 << 31), 4294967295):
        records.append(changed(base, (0, date)))
    for change in ((1, 1), (2, 5), (17, 1)):
        records.append(changed(EMPTY_RECORD, change))
    records.append(changed(record_of(20260503, (5, 1)), (0, 0)))
    # Word 1: more than 8, or not the places that are filled.
    for held in (1, 3, 8, 9, 4294967295):
        records.append(changed(base, (1, held)))
    for held in (0, 7, 9, 8 + (1 << 31)):
        records.append(changed(full, (1, held)))
    records.append(changed(record_of(20260503), (1, 1)))
    # Numbers: 1 to 2,147,483,647, strictly rising.
    for number in (0, 1, 8, 9, 10, 2147483648, 4294967295):
        records.append(changed(base, (2, number)))
    for number in (4, 5, 6, LARGEST_NUMBER, 2147483648, 4294967295):
        records.append(changed(base, (4, number)))
    for place in (6, 10, 16):
        records.append(changed(full, (place, full[place - 2])))
    records.append(changed(full, (16, 1)))
    records.append(changed(full, (16, 2147483648)))
    # Marks: 1 to 2^30 - 1.
    for marks in (0, 1, ALL_THIRTY, 1 << 30, 4294967295):
        records.append(changed(base, (3, marks)))
    for marks in (0, 1 + (1 << 30), 1 + (1 << 31)):
        records.append(changed(base, (5, marks)))
    for place, marks in ((7, 0), (11, 1 << 30), (17, ALL_THIRTY), (17, 1 << 30), (17, 0)):
        records.append(changed(full, (place, marks)))
    # Unused places.
    for place in range(6, 18):
        records.append(changed(base, (place, 1)))
    records.append(changed(base, (16, 10), (17, 1)))
    records.append(changed(base, (17, 1 << 31)))
    for record in records:
        yield DATE, record
    # No file can have a day before the first of 2000.
    for last_day, places in (
        (20000101, [bits(0)]),
        (20000101, [bits(1)]),
        (20000105, [bits(4)]),
        (20000105, [bits(5)]),
        (20000105, [bits(0, 29)]),
        (20000105, [bits(0, 1, 2, 3, 4), bits(5)]),
        (20000129, [bits(28)]),
        (20000129, [bits(29)]),
        (20000130, [bits(29)]),
        (20000131, [ALL_THIRTY]),
    ):
        held = [(5 + place, marks) for place, marks in enumerate(places)]
        yield days.later(last_day, 1), record_of(last_day, *held)


def enter_broken_records(rng):
    """Refusal 14 for each word of a record, and what is next to it and good."""
    for date, record in broken_records():
        yield enter_case(record, entered_day(date))


def enter_order(rng):
    """The check's numbers before 14, 14 before 18 and 19, 18 before 19."""
    broken = record_of(20260504, (7, 0))
    for file_bytes in refused_files(rng):
        yield Case(ENTER, 0, record_payload(broken, file_bytes))
    # With a good record, which stays as it was, and for the longest files.
    good = record_of(20260501, (7, bits(0, 29)), (8, bits(1)))
    day = entered_day(DATE)
    small = day.to_bytes()
    for file_bytes in (
        b"",
        small[:-1],
        small + bytes(65540 - len(small)),
        with_words(small, (1, 20250229)),
        with_words(small, (day.head_place(0, "persistent_days"), 31)),
        with_words(small, (day.demand_place(0, 23, 0), -1)),
    ):
        yield Case(ENTER, 0, record_payload(good, file_bytes))
    ninth = entered_day(DATE, (45,))
    yield enter_case(record_of(DATE, (7, 0)), day)
    yield enter_case(record_of(20270101, (7, 1 << 30)), day)
    yield enter_case(full_record(at_80=1 << 30), ninth)
    for last_day in (DATE, 20260505, 20991231):
        yield enter_case(full_record(last_day), ninth)
    yield enter_case(full_record(DATE, at_10=0), ninth)
    # The largest file that is accepted.
    shapes = [(0, 2, 1)] * 3 + [(1, 2, 64)] + [(0, 2, 1)] * 4
    largest = filled_day(rng, *shapes)
    yield enter_case(record_of(days.later(largest.date, -3)), largest)


def enter_random(rng):
    """Random days in records that hold some of their areas."""
    for _ in range(16):
        day = small_day(rng)
        yield enter_case(random_record(rng, day.date, [area.number for area in day.areas]), day)


# Call 8: settling with a record


def recorded_case(record, day, lent=None):
    lent = day.numbers_needed() if lent is None else lent
    return Case(RECORDED, lent, record_payload(record, day.to_bytes()))


def counting_day(date, *numbers, persistent_days=17):
    """A day whose areas have 100 MW off-peak at $100.00 in tier 3, one hour each: the amount is
    $20,000.00 and $200.00 for each day of d. The file's own d is another."""
    day = days.quiet_day([SMALL] * len(numbers), peak=0, date=date, pair=(1000, 1000000))
    for hour, (area, number) in enumerate(zip(day.areas, numbers)):
        area.number, area.persistent_days = number, persistent_days
        fail(area.hours[11 * hour], 100000, 100000)
    return day


def recorded_days_counted(rng):
    """d over the days between: of the last day entered g days before, bits 0 to 30 - g count. An
    area has the last bit that counts, one the first that does not, one has all."""
    last_day = 20240201
    for gap in (1, 2, 16, 28, 29, 30, 31, 32, 64):
        last_counted = bits(max(0, 30 - gap))
        first_not = bits(min(29, max(0, 31 - gap)))
        record = record_of(last_day, (5, last_counted), (7, first_not), (9, ALL_THIRTY))
        yield recorded_case(record, counting_day(days.later(last_day, gap), 5, 7, 9))
    # Consecutive or not, over the end of a year, and next to the first and last days.
    for last_day, gap, marks in (
        (20251231, 1, bits(0, 1, 3)),
        (20251220, 12, bits(17, 18, 19, 20)),
        (20260503, 1, 0x15555555),
        (20240229, 30, bits(0, 1)),
        (20230228, 31, bits(0, 1)),
        (20000101, 1, bits(0)),
        (20000130, 1, ALL_THIRTY),
        (20991230, 1, ALL_THIRTY),
    ):
        day = counting_day(days.later(last_day, gap), 7)
        yield recorded_case(record_of(last_day, (7, marks)), day)
    # A hundred years later.
    record = record_of(20000101, (7, bits(0)))
    yield recorded_case(record, counting_day(20991231, 7))


def recorded_amounts(rng):
    """On-peak amounts, T6 and T7 with d 3 of the record, other d, and shares of two coordinators;
    the file's own d is ignored."""
    for persistent_days, marks in ((30, bits(0, 4, 9)), (3, ALL_THIRTY), (3, bits(29))):
        record = record_of(20260503, (7, marks))
        yield recorded_case(record, on_peak_day(persistent_days=persistent_days))
    record = record_of(20260502, (7, bits(0, 29)))
    yield recorded_case(record, on_peak_day(failing=300001))
    day = days.quiet_day([(1, 1, 2)], peak=0)
    day.areas[0].persistent_days = 30
    fail(day.areas[0].hours[4], 12345, 20000)
    day.areas[0].hours[4].demands = [2, 1]
    day.areas[0].hours[5].energy_down, day.areas[0].hours[5].mec = 12500, -100
    yield recorded_case(record_of(20260503, (7, bits(0, 1, 2, 9, 29))), day)
    # Flag 0: no amount with any d.
    day.areas[0].flag = 0
    yield recorded_case(record_of(20260503, (7, ALL_THIRTY)), day)


def recorded_areas(rng):
    """Areas that the record holds and others, which settle with d 0 though the file says 30."""
    for record in (
        EMPTY_RECORD,
        record_of(20260503),
        record_of(20260503, (6, ALL_THIRTY), (8, ALL_THIRTY)),
    ):
        yield recorded_case(record, counting_day(DATE, 7, persistent_days=30))
    # The first, a middle and the last of eight; the ends of the numbers.
    record = full_record(at_10=bits(0, 1), at_40=bits(0, 1, 2, 3), at_80=bits(29))
    for numbers in ((10,), (80,), (10, 45, 80), (9, 40)):
        yield recorded_case(record, counting_day(DATE, *numbers, persistent_days=30))
    record = record_of(20260503, (1, bits(0, 5)), (LARGEST_NUMBER, bits(1, 3, 7)))
    yield recorded_case(record, counting_day(DATE, 1, 2, LARGEST_NUMBER))
    # The same areas, in the record that an entry of the day before leaves.
    _, _, record = reference.enter(record, counting_day(20260510, 2).to_bytes())
    yield recorded_case(record, counting_day(20260511, 1, 2, LARGEST_NUMBER))


def recorded_rooms(rng):
    """Room for the numbers needed, more, and too little: 13, also before 16, 11 and 12."""
    record = record_of(20260503, (7, bits(2)))
    day = counting_day(DATE, 7)
    for lent in (99, 95, 0):
        yield recorded_case(record, day, lent)
    yield recorded_case(record, counting_day(DATE, 7, 8), 3)
    for day in days_that_settling_refuses():
        yield recorded_case(record, day, 2)
    # The largest file that is accepted.
    shapes = [(0, 2, 1)] * 7 + [(1, 2, 64)]
    largest = filled_day(rng, *shapes)
    yield recorded_case(record_of(days.later(largest.date, -1)), largest, 0)


def recorded_refused(rng):
    """16, 11 and 12, which leave the statement as it was."""
    for day in days_that_settling_refuses():
        yield recorded_case(record_of(20260503, (7, bits(2))), day)


def recorded_order(rng):
    """The check's numbers before 14, 14 before 18, 18 before 13 and the hours."""
    broken = record_of(20260504, (7, 0))
    for file_bytes in list(refused_files(rng))[::2]:
        yield Case(RECORDED, 2, record_payload(broken, file_bytes))
    # The file's own d is ignored, but checked.
    day = counting_day(DATE, 7)
    place = day.head_place(0, "persistent_days")
    good = record_of(20260503, (7, bits(2)))
    for record, persistent_days in ((good, 31), (good, -1), (broken, 31)):
        file_bytes = with_words(day.to_bytes(), (place, persistent_days))
        yield Case(RECORDED, 1, record_payload(record, file_bytes))
    for last_day, lent in ((DATE, 0), (DATE, 2), (20260503, 0), (20270101, 2)):
        yield recorded_case(record_of(last_day, (7, 0)), day, lent)
    for last_day, lent in ((DATE, 0), (DATE, 2), (20260505, 0), (20270504, 2), (20991231, 2)):
        yield recorded_case(record_of(last_day, (7, bits(0))), day, lent)
    yield recorded_case(record_of(DATE), day)
    for gap_day in days_that_settling_refuses():
        yield recorded_case(record_of(DATE), gap_day, 3)


def recorded_broken_records(rng):
    """Refusal 14: every third of the records that are refused in enter_broken_records."""
    refused = [
        (date, record) for date, record in broken_records() if not reference.record_is_left(record)
    ]
    for date, record in refused[::3]:
        yield recorded_case(record, counting_day(date, 7), 1)


def recorded_random(rng):
    """Random days of one area, with records that mostly hold it."""
    for _ in range(8):
        day = days.random_day_of(rng, [SMALL], gaps=False)
        numbers = [area.number for area in day.areas]
        yield recorded_case(random_record(rng, day.date, numbers), day)


# Month books, for the calls 9, 10 and 11


def month_case(room, places, lent):
    return Case(MONTH, lent, days.bytes_of([places]) + room)


def add_case(room, file_bytes):
    return Case(ADD_DAY, 0, days.bytes_of([len(room)]) + room + file_bytes)


def withdraw_case(room, date):
    return Case(WITHDRAW_DAY, date, room)


def short_file(date, words=4):
    """A day file of four words or more, which its check refuses with 3: the smallest that a book can
    keep."""
    return days.bytes_of(header(n=0, date=date) + [0] * (words - 4))


def long_file(date, words):
    """A file whose one body ends long before it: refused with 6, or with 1 if it has more than 16,384
    words, which are 65,536 bytes."""
    return days.bytes_of(header(date=date) + [7, 7, 800] + [0] * (words - 7))


def told_day(date, *shapes):
    """A quiet day, of the smallest shape unless others are given, in which the off-peak amount of
    hour ending 3 tells the date."""
    day = days.quiet_day(shapes or [SMALL], date=date)
    fail(day.areas[0].hours[2], 10001 + date % 10000)
    return day


def told_file(date, *shapes):
    return told_day(date, *shapes).to_bytes()


def dates_from(date, count):
    return [days.later(date, after) for after in range(count)]


def short_book(count, date=20260501):
    """A book of files of four words, which differ in their dates."""
    return days.Book([short_file(day) for day in dates_from(date, count)])


def numbers_of(files):
    """The numbers that the days of a book take, those that their check accepts."""
    return sum(needed(file_bytes) for file_bytes in files)


def unsettled_file(gap, date):
    """A file of 144 numbers that the check accepts and settlement refuses with 16, 11 or 12."""
    day = failing_day([(1, 1, 1)])
    day.date = date
    gap(day.areas[0].hours[23])
    return day.to_bytes()


# What settlement refuses with 16, 11 and 12.
UNSETTLED = (one_price_short, without_quantity, dry)


def refused_days(rng, date):
    """Files of one date after the other that their check refuses, with each of the numbers that a day
    of a book can have but 1: its size is of whole words and its date real."""
    for file_bytes in refused_files(rng):
        if len(file_bytes) < 16 or len(file_bytes) % 4 != 0:
            continue
        file_bytes = with_words(file_bytes, (1, date))
        if reference.check(file_bytes) != (0, 0):
            yield file_bytes
            date = days.later(date, 1)


def varied_bytes(count):
    """Bytes for what is behind a book, no word like the next: it is seen where they are moved."""
    return bytes((37 * place + place // 256 + 11) % 256 for place in range(count))


def short_rooms(book_bytes):
    """Rooms that end before the book does, by a byte to a word."""
    return [book_bytes[: len(book_bytes) - missing] for missing in (4, 3, 2, 1)]


def long_rooms(book_bytes):
    """Rooms of exactly the book's words, of a byte to three more, and with words behind."""
    return [book_bytes + varied_bytes(more) for more in (0, 1, 2, 3, 4, 7, 40)]


def tiny_rooms():
    """Rooms of 0 to 8 bytes: the empty book, one that says a day, and another first word."""
    for words in ([1, 0], [1, 1], [0, 0], [2, 0]):
        for size in range(9):
            yield days.bytes_of(words)[:size]


def broken_books():
    """Books on both sides of each rule of their words (20), of three days of four words and of 31."""
    ends = (0, 0x7FFFFFFF, 0x80000000, 0xFFFFFFFF)
    book = short_book(3)
    good = book.to_bytes()
    for edition in (1, 2, 256, 16777216, 0x80000001) + ends:
        yield with_words(good, (0, edition))
    # The room has 23 words, and 7 days have a contents of so many. 2 + 3n leaves 1 and 4 in 32 bits
    # for the last two.
    for n in (1, 2, 3, 4, 7, 8, 31, 32, 33, 1431655765, 1431655766) + ends:
        yield with_words(good, (1, n))
    for day, date in enumerate(dates_from(20260501, 3)):
        place = book.contents_place(day, "date")
        dates = [date + step for step in (-2, -1, 1, 2, 1 << 31)]
        for value in dates + [20260431, 20230229, 20260001, 19991231, 21000101] + list(ends):
            yield with_words(good, (place, value))
        first = book.file_place(day)
        place = book.contents_place(day, "first")
        for value in (first - 1, first + 1, first + 4, 2, first + (1 << 31)) + ends:
            yield with_words(good, (place, value))
        # The last two end at word 0 and at word 4 in 32 bits.
        place = book.contents_place(day, "length")
        lengths = (1, 3, 5, 8, 12, 13, 4 + (1 << 31), (1 << 32) - first, (1 << 32) - first + 4)
        for value in lengths + ends:
            yield with_words(good, (place, value))
        for value in (date - 1, date + 1, 20260431, date + (1 << 31)) + ends[:1]:
            yield with_words(good, (first + 1, value))
            # In the contents and in the file.
            yield with_words(good, (book.contents_place(day, "date"), value), (first + 1, value))
    # The last day ends behind the files: with the room, and a word past it.
    place = book.contents_place(2, "length")
    for more in (0, 1, 2, 3, 4):
        for behind in (12, 15):
            yield with_words(good + varied_bytes(behind), (place, 4 + more))
    # The second day starts and ends a word later, or has a word less than four.
    yield with_words(good, (4, 5), (6, 16), (7, 3))
    yield with_words(good, (4, 5), (6, 16), (9, 20), (10, 3))
    yield with_words(good + bytes(4), (4, 5), (6, 16), (9, 20))
    # The last of 31 days; 30 and 32 in word 1, with 31 and 32 in the contents.
    book = short_book(31)
    good = book.to_bytes()
    place, first = book.contents_place(30, "date"), book.file_place(30)
    for changed, value in (
        (place, 20260530),
        (place, 20260532),
        (place, 20260601),
        (place + 1, first - 1),
        (place + 1, first + 1),
        (place + 2, 3),
        (place + 2, 5),
        (first + 1, 20260530),
        (1, 30),
        (1, 31),
        (1, 32),
    ):
        yield with_words(good, (changed, value))
    yield short_book(32).to_bytes()


def twice_broken_books(rng):
    """Two words of a book broken, or several: the first wins, and a day's word 1 comes behind the
    contents."""
    book = short_book(3)
    good = book.to_bytes()
    broken = [(0, 2), (1, 32)]
    for day in range(3):
        place, first = book.contents_place(day, "date"), book.file_place(day)
        broken += [(place, 20260431), (place + 1, first + 1), (place + 2, 3)]
    broken += [(book.file_place(day) + 1, 20260431) for day in range(3)]
    for earlier, later in zip(broken, broken[1:]):
        yield with_words(good, earlier, later)
    for _ in range(8):
        picked = [broken[rng.randrange(len(broken))] for _ in range(between(rng, 2, 5))]
        yield with_words(good, *picked)
    # The contents is cut off, and its first words are broken as well.
    yield with_words(good, (2, 0), (3, 0))[: 4 * 10]


def largest_file(date):
    """A day of 12,611 words and 2,664 numbers."""
    return told_file(date, *[(0, 2, 1)] * 7, (1, 2, 64))


# Call 9: settling a month


def month_rooms(rng):
    """Books of 0, 1, 2 and 31 days, in rooms that end too early, exactly and behind them."""
    day = told_file(DATE)
    for files in (
        [],
        short_book(1).files,
        [day],
        [short_file(20260503), day],
        short_book(31).files,
    ):
        book_bytes = days.Book(files).to_bytes()
        for room in short_rooms(book_bytes):
            yield month_case(room, len(files), 2)
        for room in long_rooms(book_bytes):
            yield month_case(room, len(files), numbers_of(files) + 1)
    for room in tiny_rooms():
        yield month_case(room, 1, 1)


def month_broken_books(rng):
    """Refusal 20 for each word of a book, and what is next to it and good."""
    for room in broken_books():
        yield month_case(room, 3, 1)


def month_order(rng):
    """20 before 21, and both before any day: nothing is written, though days before the broken word
    would be settled."""
    for room in twice_broken_books(rng):
        yield month_case(room, 0, 1)
    files = [told_file(20260501), unsettled_file(dry, 20260502), told_file(20260503)]
    book = days.Book(files)
    good = book.to_bytes()
    for places, change, lent in (
        (3, (book.file_place(2) + 1, 20260504), 144),
        (3, (book.contents_place(2, "length"), 808), 144),
        (2, (book.contents_place(2, "length"), 806), 5),
        (2, (book.contents_place(2, "length"), 808), 5),
        (2, (0, 1), 144),
        (0, (0, 1), 5),
    ):
        yield month_case(with_words(good, change), places, lent)


def month_tables(rng):
    """Refusal 21: tables of one place less than the days, as many, one more and 64."""
    for count in (0, 1, 2, 3, 30, 31):
        room = short_book(count).to_bytes()
        for places in (max(0, count - 1), count, count + 1, 64):
            yield month_case(room, places, 1)
    files = [told_file(date) for date in dates_from(DATE, 2)]
    for places in (0, 1, 2, 3):
        yield month_case(days.Book(files).to_bytes(), places, 289 if places > 1 else 2)


def month_statements(rng):
    """Statements that end in each day: one number short of its end, at its end and one behind."""
    shapes = ([SMALL], [(1, 1, 2)], [SMALL, SMALL])
    files = [told_file(date, *shape) for date, shape in zip((20260430, 20260501, 20260601), shapes)]
    room = days.Book(files).to_bytes()
    ends = (144, 144 + 168, 144 + 168 + 288)
    assert ends[2] == numbers_of(files)
    for lent in [0, 1] + [end + step for end in ends for step in (-1, 0, 1)]:
        yield month_case(room, 3, lent)


def month_refused_days(rng):
    """Days that their check refuses: first, in the middle, last and alone. They take no numbers, and
    say their number also behind a day that does not fit."""
    refused = list(refused_days(rng, 20260505))
    first, last = told_file(20260504), told_file(20260601)
    room = days.Book([first] + refused + [last]).to_bytes()
    for lent in (288, 143):
        yield month_case(room, 2 + len(refused), lent)
    for files in ([refused[-1], last], [first, refused[0]], [refused[3]]):
        yield month_case(days.Book(files).to_bytes(), 2, numbers_of(files) + 1)
    for words in (16384, 16385):
        files = [long_file(20260503, words), first]
        yield month_case(days.Book(files).to_bytes(), 2, 144)


def month_unsettled_days(rng):
    """Days refused with 16, 11 and 12: their part stays as it was, and the next one is behind it."""
    for gap in UNSETTLED:
        files = [unsettled_file(gap, 20260501), told_file(20260502)]
        yield month_case(days.Book(files).to_bytes(), 2, 288)
    files = [told_file(20260501), unsettled_file(one_price_short, 20260502)]
    yield month_case(days.Book(files).to_bytes(), 2, 288)
    # All three, and one that its check refuses, between two that are settled.
    dates = dates_from(20260228, 6)
    files = [told_file(dates[0])]
    files += [unsettled_file(gap, date) for gap, date in zip(UNSETTLED, dates[1:])]
    files += [short_file(dates[4]), told_file(dates[5])]
    yield month_case(days.Book(files).to_bytes(), 6, 5 * 144)
    # Their own part does not fit: 13 comes first. It does, and the next one does not behind it.
    for gap, lent in zip(UNSETTLED + UNSETTLED[:1], (143, 0, 144, 287)):
        files = [unsettled_file(gap, 20260501), told_file(20260502)]
        yield month_case(days.Book(files).to_bytes(), 2, lent)


def month_behind_13(rng):
    """Behind a day that does not fit: smaller days that would, days that their check refuses, and days
    that settlement would refuse. Each says 13 with its own numbers, or what its check says."""
    files = [told_file(20260501), told_file(20260502, SMALL, CISO), told_file(20260503)]
    files += [short_file(20260504, 9)]
    files += [unsettled_file(gap, date) for gap, date in zip(UNSETTLED, dates_from(20260505, 3))]
    files += [told_file(20260508, (1, 1, 2)), told_file(20260509)]
    room = days.Book(files).to_bytes()
    second = 144 + 144 + 192
    for lent in (0, 144, second - 1, second + 144):
        yield month_case(room, 9, lent)
    # The largest first: each of the others would fit.
    files[:2] = [told_file(20260501, SMALL, CISO), told_file(20260502)]
    yield month_case(days.Book(files).to_bytes(), 10, 144 + 192 - 1)


def month_dates(rng):
    """Days of several months and years, from the first to the last that a file can have."""
    dates = (20000101, 20000229, 20000301, 20231231, 20240101, 20240229, 20991231)
    files = [told_file(date) if date % 100 == 29 else short_file(date) for date in dates]
    yield month_case(days.Book(files).to_bytes(), 7, 289)
    for date in (20230229, 21000101, 19991231, 20000100):
        yield month_case(days.Book([short_file(date)]).to_bytes(), 1, 1)


def month_one_by_one(rng):
    """Days of other areas, d, hubs and failures, some of which settlement refuses."""
    for _ in range(6):
        files = []
        for date in dates_from(days.later(20240220, rng.randrange(20)), between(rng, 2, 4)):
            day = small_day(rng)
            day.date = date
            files.append(day.to_bytes())
        yield month_case(days.Book(files).to_bytes(), len(files), numbers_of(files))


def month_full(rng):
    """31 days that are settled, in exactly their numbers; and the longest payload: five of the largest
    days, of which three fit the most numbers that are lent."""
    files = [told_file(date) for date in dates_from(20260501, 31)]
    yield month_case(days.Book(files).to_bytes(), 31, 31 * 144)
    room = days.Book([largest_file(date) for date in dates_from(20260501, 5)]).to_bytes()
    yield month_case(room + varied_bytes(MOST_PAYLOAD - 4 - len(room)), 5, MOST_LENT)


def format_page_rooms():
    """The room of the book in docs/FORMAT.md, its two days added in either order: before and after
    each of the additions, with the file that is added."""
    both = [reference.case_p(), reference.day_after_case_p()]
    for files in (both, both[::-1]):
        room = reference.room_for_two(varied_bytes(30))
        for file_bytes in files:
            before = room
            _, _, room = reference.add_day(room, file_bytes)
            yield before, file_bytes, room


def month_format_page(rng):
    """The book of docs/FORMAT.md, in room for more than its days and a number short of the first."""
    *_, (_, _, room) = format_page_rooms()
    yield month_case(room, 3, 300)
    yield month_case(room, 2, 143)


def month_random(rng):
    """Random books of few days."""
    for _ in range(12):
        yield random_month_case(rng, most_days=3)


# Calls 10 and 11: adding and withdrawing a day


def book_changes(room, steps):
    """A day added for each file, and withdrawn for each date, in the room that those before left."""
    for step in steps:
        if isinstance(step, bytes):
            yield add_case(room, step)
            _, _, room = reference.add_day(room, step)
        else:
            yield withdraw_case(room, step)
            _, _, room = reference.withdraw_day(room, step)


def of_call(call, cases):
    return (case for case in cases if case.call == call)


def roomy(book, new_file, behind=b""):
    """Room for a book and just the new file with its three words in the contents, and bytes behind."""
    return book.to_bytes() + varied_bytes(12 + len(new_file)) + behind


def kept_files():
    """Days of several lengths, every other day of May 2026 from the third: such as their check refuses,
    and one that is settled."""
    lengths = ((20260503, 4), (20260505, 5), (20260509, 40))
    refused = [short_file(date, words) for date, words in lengths]
    return refused[:2] + [told_file(20260507)] + refused[2:]


def add_places(rng):
    """A day before the first, between two and behind the last, near and far, and into an empty book;
    what is behind the new end stays."""
    book = days.Book(kept_files())
    for date in (20000101, 20260502, 20260504, 20260506, 20260508, 20260510, 20991231):
        yield add_case(roomy(book, told_file(date)), told_file(date))
    for date in (20260502, 20260506, 20260510):
        yield add_case(roomy(book, told_file(date), varied_bytes(50)), told_file(date))
    for shapes in ([SMALL], [(1, 1, 2)], [SMALL, SMALL]):
        new_file = told_file(DATE, *shapes)
        for behind in (b"", varied_bytes(21)):
            yield add_case(roomy(days.Book([]), new_file, behind), new_file)


def add_format_page(rng):
    """The two days of docs/FORMAT.md, in either order."""
    for room, file_bytes, _ in format_page_rooms():
        yield add_case(room, file_bytes)


def add_rooms(rng):
    """Refusal 21: a byte to four words short of the days kept and the new one, just enough, a byte to
    three more."""
    new_file = told_file(DATE)
    for files in ([], kept_files()[:2]):
        room = roomy(days.Book(files), new_file)
        for missing in (1, 2, 3, 4, 5, 8, 12, 13, 16, 12 + len(new_file)):
            yield add_case(room[: len(room) - missing], new_file)
        for more in (0, 1, 2, 3, 4):
            yield add_case(room + varied_bytes(more), new_file)


def add_most_days(rng):
    """Refusal 21: a 32nd day, wherever it would stand; the 31st is added there."""
    for count in (29, 30, 31):
        kept = [date for date in dates_from(20260402, count + 1) if date != 20260404]
        book = days.Book([short_file(date) for date in kept])
        for date in (20260401, 20260404, 20260601):
            new_file = told_file(date)
            yield add_case(roomy(book, new_file, varied_bytes(9)), new_file)


def add_there(rng):
    """Refusal 22: the date of the first day, of one between and of the last; before 21, where there is
    no room and where there are 31 days."""
    book = days.Book(kept_files())
    for date in (20260503, 20260507, 20260509):
        new_file = told_file(date)
        for room in (roomy(book, new_file), book.to_bytes()):
            yield add_case(room, new_file)
    book = short_book(31)
    for date in (20260501, 20260516, 20260531):
        yield add_case(roomy(book, told_file(date)), told_file(date))
        yield add_case(book.to_bytes(), told_file(date))
    # The same file once more.
    book = days.Book([told_file(DATE)])
    yield add_case(roomy(book, book.files[0]), book.files[0])


def add_refused(rng):
    """A new day that the check refuses, before 22 and 21; the check knows nothing of the book."""
    for file_bytes in refused_files(rng):
        yield add_case(roomy(days.Book([]), file_bytes), file_bytes)
    book = short_book(31)
    for file_bytes in refused_days(rng, 20260528):
        yield add_case(book.to_bytes(), file_bytes)
    for words in (4, 9):
        yield add_case(roomy(book, short_file(20260507)), short_file(20260507, words))
    yield add_case(book.to_bytes(), long_file(DATE, 16385))


def add_broken_books(rng):
    """Refusal 20 for each word of a book, before the numbers of the check; what is next to it and good
    is followed by the check's 3."""
    cut = [room for count in (1, 31) for room in short_rooms(short_book(count).to_bytes())]
    for room in itertools.chain(broken_books(), tiny_rooms(), cut):
        yield add_case(room, short_file(20260502))
    for room in twice_broken_books(rng):
        yield add_case(room, b"")
    # A day that is accepted otherwise, and one whose date is there.
    book = short_book(3)
    for date in (20260430, 20260502):
        new_file = told_file(date)
        room = roomy(book, new_file)
        for change in ((0, 2), (1, 32), (8, 20260502), (book.file_place(2) + 1, 0)):
            yield add_case(with_words(room, change), new_file)


def add_orders(rng):
    """Three days in every order from the empty book on, in room for just the three."""
    dates = dates_from(20240228, 3)
    shapes = (SMALL, (1, 1, 2), (1, 1, 5))
    files = [told_file(date, shape) for date, shape in zip(dates, shapes)]
    empty = days.Book([]).to_bytes()
    room = empty + varied_bytes(len(days.Book(files).to_bytes()) - len(empty))
    for order in itertools.permutations(files):
        yield from book_changes(room, order)


def add_after_withdrawal(rng):
    """Freed words serve the next day added: a day of the same words, of fewer, and of more, which does
    not fit; at the same place and at another; and all days withdrawn before."""
    files = [told_file(20260503), told_file(20260505, (1, 1, 2)), told_file(20260507)]
    room = days.Book(files).to_bytes() + varied_bytes(3)
    for new_file in (
        told_file(20260505, (1, 1, 2)),
        told_file(20260505),
        told_file(20260502, (1, 1, 1)),
        told_file(20260509, (1, 1, 2)),
        told_file(20260504, (1, 1, 3)),
    ):
        yield from of_call(ADD_DAY, book_changes(room, [20260505, new_file]))
    steps = [20260503, 20260507, 20260505] + files[::-1]
    yield from of_call(ADD_DAY, book_changes(room, steps))


def add_full(rng):
    """The 31st of settled days, at the front; the largest day between the smallest."""
    files = [told_file(date) for date in dates_from(20260501, 31)]
    yield add_case(roomy(days.Book(files[1:]), files[0], varied_bytes(2)), files[0])
    new_file = largest_file(20260501)
    kept = [short_file(20260430), short_file(20260502)]
    yield add_case(roomy(days.Book(kept), new_file), new_file)


def add_random(rng):
    """Random books of few days."""
    for _ in range(8):
        yield random_add_case(rng, most_days=3)


def withdraw_places(rng):
    """The first day, one between, the last and the only one; rooms of exactly the book and of more."""
    book = days.Book(kept_files())
    for date in (20260503, 20260505, 20260507, 20260509):
        for more in (0, 1, 3, 4, 50):
            yield withdraw_case(book.to_bytes() + varied_bytes(more), date)
    for file_bytes in (told_file(DATE), short_file(DATE)):
        for more in (0, 2, 9):
            yield withdraw_case(days.Book([file_bytes]).to_bytes() + varied_bytes(more), DATE)
    for date in (20260501, 20260516, 20260531):
        yield withdraw_case(short_book(31).to_bytes() + varied_bytes(5), date)


def withdraw_format_page(rng):
    """Case P out of the book of docs/FORMAT.md."""
    *_, (_, _, room) = format_page_rooms()
    yield withdraw_case(room, 20260504)


def withdraw_absent(rng):
    """Refusal 22: dates before, between and behind those there, words that are no dates, words that
    stand elsewhere in the book; from the empty book too."""
    book = days.Book(kept_files())
    words = reference.words_of(book.to_bytes())
    dates = [20260502, 20260504, 20260508, 20260510, 20000101, 20991231, 20250503, 20260603]
    no_dates = [0, 1, 4, 14, 20260431, 20260503 + (1 << 31), 0x7FFFFFFF, 0x80000000, 0xFFFFFFFF]
    for date in dates + no_dates + [words[3], words[4]]:
        yield withdraw_case(book.to_bytes() + varied_bytes(6), date)
    for date in (0, 1, DATE):
        for more in (0, 1, 12):
            yield withdraw_case(days.Book([]).to_bytes() + varied_bytes(more), date)


def withdraw_broken_books(rng):
    """Refusal 20 for each word of a book, before 22, and what is next to it and good."""
    for room in itertools.chain(broken_books(), twice_broken_books(rng)):
        yield withdraw_case(room, 20260502)
    for room in tiny_rooms():
        yield withdraw_case(room, 0)
    for book in (short_book(1), short_book(31), days.Book([told_file(20260501)])):
        for room in short_rooms(book.to_bytes()):
            yield withdraw_case(room, 20260501)
            yield withdraw_case(room, 20260601)


def withdraw_orders(rng):
    """All days of a book in every order of three, and each date twice; a day added in between."""
    dates = (20260503, 20260505, 20260509)
    book = days.Book([short_file(date, words) for date, words in zip(dates, (4, 7, 40))])
    for order in itertools.permutations(dates):
        twice = [date for date in order for _ in range(2)]
        yield from book_changes(book.to_bytes() + varied_bytes(5), twice)
    files = [told_file(date) for date in dates]
    room = days.Book(files).to_bytes()
    for first, then in itertools.permutations(range(3), 2):
        steps = [dates[first], files[first], dates[then]]
        yield from of_call(WITHDRAW_DAY, book_changes(room, steps))


def withdraw_full(rng):
    """The first of 31 settled days."""
    files = [told_file(date) for date in dates_from(20260501, 31)]
    yield withdraw_case(days.Book(files).to_bytes() + varied_bytes(2), 20260501)


def withdraw_random(rng):
    """Random books of few days."""
    for _ in range(12):
        yield random_withdraw_case(rng, most_days=3)


# Call 12: paying out


MOST_BASIS = reference.MOST_BASIS


def payout_case(file_bytes, basis, lent):
    assert len(basis) <= MOST_BASIS_WORDS
    return Case(PAY_OUT, lent, days.bytes_of([len(basis)] + list(basis)) + file_bytes)


def payout_of(day, basis):
    """A day in exactly the room that it needs: paid out, or what is refused."""
    return payout_case(day.to_bytes(), basis, reference.payments_needed(len(day.areas)))


def level_basis(*numbers):
    """For each area one number in every hour."""
    return [number for number in numbers for _ in range(24)]


def basis_of_hours(hours):
    """A basis given by hours, each with a number for each area."""
    assert len(hours) == 24
    return [number for of_area in zip(*hours) for number in of_area]


def payout_worked_day(rng):
    """The day of reference.py's figures, with numbers behind the rests."""
    file_bytes, basis = reference.payout_day()
    yield payout_case(file_bytes, basis, 290)


# The basis of an area that pays.
PAYER_BASIS = 17

# For each hour an amount collected, and the basis of the three areas that pass.
PAID_FIGURES = (
    # T11 with two of them merged, T12, and the like.
    (100, (1, 1, 1)),
    (100, (2, 0, 1)),
    (100, (0, 2, 1)),
    (1, (1, 0, 1)),
    (1, (0, 1, 1)),
    (1, (0, 0, 1)),
    (3, (1, 1, 0)),
    (5, (1, 1, 1)),
    (7, (0, 5, 0)),
    # Halves of a cent, and what is next to them.
    (1, (4000000, 0, 4000000)),
    (1, (3999999, 1, 4000000)),
    (1, (3999999, 0, 4000001)),
    (1, (4000000, 0, 3999999)),
    (9, (1, 2, 3)),
    (15, (3, 4, 3)),
    (25, (1, 2, 7)),
    # Nothing is collected, or nothing can be paid.
    (0, (1, 1, 1)),
    (0, (0, 0, 0)),
    (123, (0, 0, 0)),
    # Large amounts, and a basis that sums to the most with that of the area that pays.
    (20000000, (9999982, 0, 1)),
    (19999999, (1, 9999982, 0)),
    (19999993, (3333333, 3333333, 3333317)),
    (1, (1, 0, 9999982)),
    (9999983, (9999981, 1, 1)),
)


def paying_day(payers, figures):
    """Four areas without peak hours: one pays upward and one downward, an amount for each hour."""
    day = days.quiet_day([SMALL] * 4, peak=0)
    for hour, (amount, _) in enumerate(figures):
        for payer, (upward, downward) in zip(payers, ((amount, 0), (0, -amount))):
            reference.set_amounts(day.areas[payer].hours[hour], upward, downward)
    return day


def payout_shares(rng):
    """Shares of 24 amounts upward, and of the same below 0 downward, over three areas that pass. The
    basis of the one that pays does not count, unless it is another that pays downward."""
    for payers in ((0, 0), (3, 3), (1, 2)):
        hours = []
        for _, passing in PAID_FIGURES:
            numbers = list(passing)
            numbers.insert(payers[0], PAYER_BASIS)
            hours.append(numbers)
        yield payout_of(paying_day(payers, PAID_FIGURES), basis_of_hours(hours))


def payout_collected(rng):
    """What several areas pay is collected together: none, one, two or all three of them in an hour, in
    each direction on its own; who does not pay passes."""
    day = days.quiet_day([SMALL] * 3, peak=0)
    hours = []
    for hour in range(24):
        upward_payers, downward_payers = hour % 8, rng.randrange(8)
        for place, area in enumerate(day.areas):
            upward = between(rng, 1, 999) if upward_payers >> place & 1 else 0
            downward = -between(rng, 1, 999) if downward_payers >> place & 1 else 0
            reference.set_amounts(area.hours[hour], upward, downward)
        hours.append([between(rng, 1, 9) for _ in day.areas])
    yield payout_of(day, basis_of_hours(hours))
    # One area with flag 0 pays nothing, and gets nothing.
    day.areas[1].flag = 0
    yield payout_of(day, basis_of_hours(hours))


# Numbers of an hour that an area has, outside peak hours: with or without a deficiency in a direction.
PASSING_FIGURES = (
    {},
    {"requirement": 50000000, "mec": -20000000},
    # U is 0.001 MW in each of its four numbers, 0.004 MW, 10.000 and 10.001 MW.
    {"energy_up": 1},
    {"regulation_up": 1},
    {"spin": 1},
    {"non_spin": 1},
    {"energy_up": 1, "regulation_up": 1, "spin": 1, "non_spin": 1},
    {"energy_up": 10000},
    {"spin": 10001},
    {"non_spin": 10000, "requirement": 50000000},
    {"energy_up": 500000, "requirement": 50000000},
    # W is 0.001 MW in each of its two numbers, 5, 9.999, 10.000 and 10.001 MW.
    {"energy_down": 1, "mec": -100},
    {"regulation_down": 1, "mec": -100},
    {"energy_down": 2500, "regulation_down": 2500, "mec": -100},
    {"energy_down": 9999, "mec": -100},
    {"energy_down": 10000, "mec": -100},
    {"energy_down": 5000, "regulation_down": 5000, "mec": -100},
    {"energy_down": 10001, "mec": -100},
    {"energy_down": 5000, "regulation_down": 5001, "mec": -100},
    # Above 10 MW, and nothing is due: it does not pass either.
    {"regulation_down": 10001, "mec": 100},
    {"energy_down": 10001, "mec": 0},
    {"energy_down": 10001, "mec": -4},
    # Both.
    {"energy_up": 1, "regulation_down": 1, "mec": -100},
    {"spin": 10001, "energy_down": 10001, "mec": -100},
)


def payout_passing(rng):
    """Who passes: an area with each of the figures, beside one that pays in every hour and one without
    any deficiency, which passes; with flag 1 and with flag 0, and of both kinds."""
    for shape, flag, other_flag in ((SMALL, 1, 1), (SMALL, 0, 1), (CISO, 1, 0)):
        day = days.quiet_day([SMALL, shape, SMALL], peak=0)
        payer, tried, other = day.areas
        tried.flag, other.flag = flag, other_flag
        for hour, numbers in enumerate(PASSING_FIGURES):
            reference.set_amounts(payer.hours[hour], 1000, -1000)
            for name, value in numbers.items():
                setattr(tried.hours[hour], name, value)
        yield payout_of(day, level_basis(8, 2, 1))


def payout_rests(rng):
    """The rest is all of it when nobody passes or the passing basis is 0: one area alone that pays, that
    passes or has flag 0, and two of which the other has 0.001 MW, a basis of 0 or flag 0."""
    figures = [(100 + hour, (0, 0, 0)) for hour in range(24)]
    alone = paying_day((0, 0), figures)
    alone.areas = alone.areas[:1]
    for basis in (level_basis(1), level_basis(0), level_basis(MOST_BASIS)):
        yield payout_of(alone, basis)
    alone.areas[0].flag = 0
    yield payout_of(alone, level_basis(1))
    yield payout_of(days.quiet_day([SMALL]), level_basis(1))

    two = paying_day((0, 0), figures)
    two.areas = two.areas[:2]
    for number, hour in enumerate(two.areas[1].hours):
        # Upward, downward, in both and in neither.
        hour.non_spin, hour.regulation_down = number % 2, number // 2 % 2
    some = [(MOST_BASIS - 7, 7), (MOST_BASIS, 0), (0, 7)] * 8
    yield payout_of(two, basis_of_hours(some))
    two.areas[1].flag = 0
    yield payout_of(two, basis_of_hours(some))


def with_passing_area(day, flag=1):
    """The one area of a day, and behind it one that passes in every hour and direction."""
    other = days.quiet_day([SMALL, SMALL]).areas[1]
    other.flag = flag
    day.areas.append(other)
    return day


def payout_peak_hours(rng):
    """T6 and T7: in a peak hour of tier 0 of its own failed day an area pays and passes, in one of tier
    1 it pays and does not pass. On a day of tier 1 it pays nothing, and passes where U is 0. The other
    area passes, or nobody but the first does. d is the file's own."""
    basis = level_basis(2, 1)
    yield payout_of(with_passing_area(on_peak_day()), basis)
    yield payout_of(with_passing_area(on_peak_day(persistent_days=30, failing=300001), flag=0), basis)
    yield payout_of(with_passing_area(on_peak_day(failing=10000)), basis)
    # S is 0, and a negative credit is an amount.
    yield payout_of(with_passing_area(on_peak_day(hub_a=-8000, hub_b=-1)), basis)
    # The same with flag 0, where the other fails.
    day = with_passing_area(on_peak_day())
    day.areas[0].flag = 0
    fail(day.areas[1].hours[20])
    day.areas[1].hub_a = 1
    yield payout_of(day, basis)
    # One area alone: what it pays in the hours that it passed comes back to it.
    yield payout_of(on_peak_day(), level_basis(1))
    # Each fails in hours in which the other passes, on-peak and off-peak.
    day = with_passing_area(on_peak_day(persistent_days=5))
    day.areas[1].hub_a = 77
    for hour, upward in ((9, 20000), (10, 12345), (2, 20000), (3, 30001)):
        fail(day.areas[1].hours[hour], upward)
    fail(day.areas[0].hours[23], 99999)
    yield payout_of(day, level_basis(3, 4))


def payout_kinds(rng):
    """CISO pays and others pass, or others pay and CISO passes, as the first area and as the last; with
    two load points and with 64 coordinators, for which a statement would need far more numbers."""
    for shapes in ([CISO, SMALL], [SMALL, CISO], [(0, 2, 1), (1, 2, 64)]):
        day = days.quiet_day(shapes, peak=0)
        for hour in range(24):
            payer = day.areas[hour % 2]
            reference.set_amounts(payer.hours[hour], 100 + hour, -200 - hour)
        yield payout_of(day, level_basis(3, 5))
    # No demand in any hour: refused only where the three amounts together are not 0. 20 MW at 25.00 and
    # 1.25 is $625.00, 20 MW at -31.25 takes it back; in each direction it is collected.
    for mec, lent in ((-312500, 144), (-312501, 144), (-312600, 2)):
        day = days.quiet_day([(1, 1, 2), SMALL], peak=0, demand=0)
        hour = day.areas[0].hours[17]
        hour.requirement, hour.energy_up, hour.energy_down, hour.mec = 60000, 20000, 20000, mec
        yield payout_case(day.to_bytes(), level_basis(3, 5), lent)


def payout_largest(rng):
    """Eight areas with the largest amounts, together beyond 10,000,000,000 cents: seven pay off-peak and
    downward and one passes, or five pay and three pass; and a peak hour in which all pay, with the
    largest S and a credit below 0, and all pass."""
    for passing in ((1,), (1, 4, 7)):
        day = days.quiet_day([SMALL] * 8, peak=0)
        for place, area in enumerate(day.areas):
            area.persistent_days = 30
            if place not in passing:
                for hour in area.hours[22:]:
                    hour.set_upward([2500000] * 4)
                    hour.set_downward([2500000] * 2)
                    hour.mec, hour.pairs = -20000000, [(1000, 20000000)] * 12
        some = [(0, MOST_BASIS, 0, 0, 0, 0, 0, 0), (1, 3333333, 1, 1, 3333333, 0, 0, 3333331)] * 12
        yield payout_of(day, basis_of_hours(some))
    day = days.quiet_day([SMALL] * 8)
    for area in day.areas:
        area.persistent_days, area.hub_a = 30, 200000
        for hour in area.hours[6:22]:
            hour.set_upward([2500000] * 4)
        area.hours[14].set_upward([0] * 4)
        area.hours[14].pairs = [(1000, -20000000)] * 12
    yield payout_of(day, level_basis(*[1249999] * 7, 1250007))


def told_payout_day(count):
    """Areas of which the first pays 1,000 cents upward in hour ending 3, where the others pass."""
    day = days.quiet_day([SMALL] * count, peak=0)
    reference.set_amounts(day.areas[0].hours[2], 1000, 0)
    return day


def payout_rooms(rng):
    """Refusal 24: one number short of 48n + 48, just enough, and numbers behind, which stay; one number
    and none."""
    for count, rooms in ((1, (95, 96, 97, 99)), (2, (144, 146)), (8, (432, 434))):
        for lent in rooms + (1, 0):
            yield payout_case(told_payout_day(count).to_bytes(), level_basis(*[7] * count), lent)


def payout_basis_sizes(rng):
    """Refusal 23 for a basis that is not 24 numbers an area. With one number lent a right one is
    followed by 24."""
    for count in (1, 2, 8):
        file_bytes = told_payout_day(count).to_bytes()
        due = 24 * count
        for size in (due - 1, due, due + 1, 0, 1, due - 24, due + 24):
            yield payout_case(file_bytes, [3] * size, 1)
    for size in (24, 48, 768, MOST_BASIS_WORDS):
        yield payout_case(file_bytes, [0] * size, 1)


def payout_basis_ranges(rng):
    """Refusal 23 for a number above 10,000,000: of an area that passes and of one that does not, in the
    first and last hour and in the one in which something is collected."""
    for count in (1, 2):
        file_bytes = told_payout_day(count).to_bytes()
        for place in (0, 2, 23, 24, 26, 47)[: 3 * count]:
            for number in (MOST_BASIS, MOST_BASIS + 1, 0x7FFFFFFF, 0x80000000, 0xFFFFFFFF):
                basis = [0] * (24 * count)
                basis[place] = number
                yield payout_case(file_bytes, basis, 1)
    # Each number at its most, and one of them above.
    file_bytes = told_payout_day(1).to_bytes()
    yield payout_case(file_bytes, level_basis(MOST_BASIS), 96)
    yield payout_case(file_bytes, [MOST_BASIS] * 23 + [MOST_BASIS + 1], 1)


def payout_basis_sums(rng):
    """Refusal 23 for an hour's sum above 10,000,000, in the first and last hour and in the one in which
    something is collected; with what an area with flag 0 and one with a deficiency has, and words whose
    sum 32 bits do not hold."""
    three = told_payout_day(3)
    three.areas[1].flag = 0
    three.areas[2].hours[0].energy_up = three.areas[2].hours[0].energy_down = 1
    some = (
        (MOST_BASIS, 0, 0),
        (MOST_BASIS - 1, 0, 1),
        (3333333, 3333333, 3333334),
        (3333333, 3333334, 3333334),
        (MOST_BASIS, 1, 0),
        (0, MOST_BASIS, 1),
        (0, 1, MOST_BASIS),
        (MOST_BASIS, MOST_BASIS, MOST_BASIS),
        (0x80000000, 0x80000000, 0),
        (0xFFFFFFFF, 1, 0),
        (0, 2, 0xFFFFFFFF),
        (0x7FFFFFFF, 0x7FFFFFFF, 2),
        (0x55555555, 0x55555555, 0x55555556),
    )
    for hour in (0, 2, 23):
        for numbers in some:
            hours = [(5, 6, 7)] * 24
            hours[hour] = numbers
            yield payout_case(three.to_bytes(), basis_of_hours(hours), 1)
    # Each hour has its own sum, at its most.
    hours = [some[hour % 3] for hour in range(24)]
    yield payout_case(three.to_bytes(), basis_of_hours(hours), 192)
    eight = told_payout_day(8).to_bytes()
    for last in (1250000, 1250001):
        yield payout_case(eight, level_basis(*[1250000] * 7, last), 1)
        yield payout_case(eight, [1250000] * 191 + [last], 1)
    for numbers in ([0x20000000] * 8, [0x20000001] * 8, [MOST_BASIS] * 8):
        yield payout_case(eight, level_basis(*numbers), 1)


def payout_order(rng):
    """The check's numbers and 16, 11, 12 before 23 and 24, and 23 before 24; nothing is written."""
    broken = [MOST_BASIS + 1] + [0] * 22
    for file_bytes in refused_files(rng):
        yield payout_case(file_bytes, broken, 0)
        yield payout_case(file_bytes, level_basis(1), 2)
    for day in days_that_settling_refuses():
        for basis, lent in itertools.product((broken, level_basis(1)), (0, 2)):
            yield payout_case(day.to_bytes(), basis, lent)
    small = told_payout_day(1).to_bytes()
    for basis in (broken, level_basis(1)[:23], level_basis(MOST_BASIS + 1), level_basis(1), []):
        for lent in (0, 2):
            yield payout_case(small, basis, lent)
    # In all of the room: a refusal of the last hour, and one of the last number of the basis.
    yield payout_of(day, level_basis(1))
    yield payout_case(small, level_basis(1)[:23] + [MOST_BASIS + 1], 96)
    # The largest file that is accepted, of which a word is broken, and one that is longer.
    largest = largest_file(DATE)
    yield payout_case(largest, broken, 0)
    yield payout_case(largest + bytes(4), broken, 0)
    yield payout_case(with_words(largest, (3, 1)), broken, 0)
    yield payout_case(largest + bytes(65540 - len(largest)), broken, 0)


def payout_order_of_hours(rng):
    """16, 11 and 12 in one file: areas and hours in order, in each hour 16, 11, 12."""
    for places in ((3, 4, 5), (23, 11, 0), (8, 8, 8)):
        for order in itertools.permutations(UNSETTLED):
            day = failing_day([(1, 1, 2)])
            for hour, refusal in zip(places, order):
                refusal(day.areas[0].hours[hour])
            yield payout_case(day.to_bytes(), [], 0)
    for order in itertools.permutations(UNSETTLED):
        day = failing_day([(1, 1, 2) if refusal == dry else SMALL for refusal in order])
        for area, hour, refusal in zip(day.areas, (20, 10, 0), order):
            refusal(area.hours[hour])
        yield payout_case(day.to_bytes(), level_basis(1, 1, 1), 0)
    # Only the last of two areas, in its last hour.
    for refusal in UNSETTLED:
        day = failing_day([SMALL, (1, 1, 2)])
        refusal(day.areas[1].hours[23])
        yield payout_case(day.to_bytes(), level_basis(1, 1), 1)


def areas_said(file_bytes):
    """The number of areas that a file says, if it is one that a file can have, or 1."""
    words = reference.words_of(file_bytes[: len(file_bytes) // 4 * 4])
    return words[2] if len(words) > 2 and 1 <= words[2] <= 8 else 1


def payout_vector_files(rng):
    """The files of vectors/ with a random basis: those that are paid out in exactly their room."""
    for file_bytes in vector_files():
        n = areas_said(file_bytes)
        basis = random_basis(rng, n)
        number, _, _ = reference.pay_out(file_bytes, basis, [])
        yield payout_case(file_bytes, basis, reference.payments_needed(n) if number == 24 else 2)


def payout_random(rng):
    """Random days of few areas; two numbers are lent where they are refused."""
    for _ in range(24):
        case = random_payout_case(rng, most_areas=3)
        number = answers(case)[0]
        yield case if number == 0 else case._replace(x=2)


# All groups in the stream's order, each with the call that it makes

GROUPS = (
    (CHECK, check_vector_files),
    (CHECK, check_sizes),
    (CHECK, check_most_bytes),
    (CHECK, check_largest_accepted),
    (CHECK, check_words_of_the_header),
    (CHECK, check_dates),
    (CHECK, check_contents),
    (CHECK, check_lengths),
    (CHECK, check_body_heads),
    (CHECK, check_second_ciso),
    (CHECK, check_coordinators),
    (CHECK, check_hourly_numbers),
    (CHECK, check_running_demand),
    (CHECK, check_several_broken),
    (CHECK, check_accepted),
    (CHECK, check_damage),
    (LOOKUP, lookup_every_area),
    (LOOKUP, lookup_absent),
    (LOOKUP, lookup_in_refused),
    (LOOKUP, lookup_in_short),
    (LOOKUP, lookup_vector_files),
    (PRICE, price_lengths),
    (PRICE, price_ranges),
    (PRICE, price_without_quantity),
    (PRICE, price_counts),
    (PRICE, price_figures),
    (PRICE, price_random),
    (SHARE, share_rows),
    (SHARE, share_amounts),
    (SHARE, share_figures),
    (SHARE, share_rows_refused),
    (SHARE, share_order),
    (SHARE, share_random),
    (SETTLE, settle_vector_files),
    (SETTLE, settle_tier_figures),
    (SETTLE, settle_on_peak_figures),
    (SETTLE, settle_off_peak_figures),
    (SETTLE, settle_downward_figures),
    (SETTLE, settle_halves),
    (SETTLE, settle_surcharge_shown),
    (SETTLE, settle_rooms),
    (SETTLE, settle_refused),
    (SETTLE, settle_no_price),
    (SETTLE, settle_no_demand),
    (SETTLE, settle_ends),
    (SETTLE, settle_full_day),
    (SETTLE, settle_thresholds),
    (SETTLE, settle_random),
    (C_CALL, c_call_rooms),
    (C_CALL, c_call_refused),
    (C_CALL, c_call_prices_seen),
    (C_CALL, c_call_order_of_hours),
    (C_CALL, c_call_off_peak_scaling),
    (C_CALL, c_call_surcharge_shown),
    (C_CALL, c_call_random),
    (ENTER, enter_sequences),
    (ENTER, enter_calendar),
    (ENTER, enter_ageing),
    (ENTER, enter_marks),
    (ENTER, enter_unsettled),
    (ENTER, enter_full),
    (ENTER, enter_not_after),
    (ENTER, enter_broken_records),
    (ENTER, enter_order),
    (ENTER, enter_random),
    (RECORDED, recorded_days_counted),
    (RECORDED, recorded_amounts),
    (RECORDED, recorded_areas),
    (RECORDED, recorded_rooms),
    (RECORDED, recorded_refused),
    (RECORDED, recorded_order),
    (RECORDED, recorded_broken_records),
    (RECORDED, recorded_random),
    (MONTH, month_rooms),
    (MONTH, month_broken_books),
    (MONTH, month_order),
    (MONTH, month_tables),
    (MONTH, month_statements),
    (MONTH, month_refused_days),
    (MONTH, month_unsettled_days),
    (MONTH, month_behind_13),
    (MONTH, month_dates),
    (MONTH, month_one_by_one),
    (MONTH, month_format_page),
    (MONTH, month_full),
    (MONTH, month_random),
    (ADD_DAY, add_places),
    (ADD_DAY, add_format_page),
    (ADD_DAY, add_rooms),
    (ADD_DAY, add_most_days),
    (ADD_DAY, add_there),
    (ADD_DAY, add_refused),
    (ADD_DAY, add_broken_books),
    (ADD_DAY, add_orders),
    (ADD_DAY, add_after_withdrawal),
    (ADD_DAY, add_full),
    (ADD_DAY, add_random),
    (WITHDRAW_DAY, withdraw_places),
    (WITHDRAW_DAY, withdraw_format_page),
    (WITHDRAW_DAY, withdraw_absent),
    (WITHDRAW_DAY, withdraw_broken_books),
    (WITHDRAW_DAY, withdraw_orders),
    (WITHDRAW_DAY, withdraw_full),
    (WITHDRAW_DAY, withdraw_random),
    (PAY_OUT, payout_worked_day),
    (PAY_OUT, payout_shares),
    (PAY_OUT, payout_collected),
    (PAY_OUT, payout_passing),
    (PAY_OUT, payout_rests),
    (PAY_OUT, payout_peak_hours),
    (PAY_OUT, payout_kinds),
    (PAY_OUT, payout_largest),
    (PAY_OUT, payout_rooms),
    (PAY_OUT, payout_basis_sizes),
    (PAY_OUT, payout_basis_ranges),
    (PAY_OUT, payout_basis_sums),
    (PAY_OUT, payout_order),
    (PAY_OUT, payout_order_of_hours),
    (PAY_OUT, payout_vector_files),
    (PAY_OUT, payout_random),
)


def committed_cases(calls=None):
    """The cases of the calls, with the name of their group; a case that came before is left out."""
    calls = CALLS if calls is None else calls
    seen = set()
    for call, group in GROUPS:
        if call not in calls:
            continue
        # A text as seed is turned into a number in the same way everywhere, unlike its hash.
        for case in group(random.Random("8080 " + group.__name__)):
            if case not in seen:
                seen.add(case)
                yield group.__name__, case


# Fresh random cases of every call


def random_file(rng):
    """Mostly a whole day, at times a damaged or cut one, seldom bytes of no day at all."""
    what = rng.randrange(100)
    file_bytes = (small_day(rng) if what % 2 else days.random_day(rng)).to_bytes()
    if what < 65:
        return file_bytes
    if what < 85:
        return damaged(rng, file_bytes, 1)
    if what < 93:
        return damaged(rng, file_bytes, between(rng, 2, 8))
    if what < 96:
        return file_bytes[: rng.randrange(len(file_bytes))]
    if what < 98:
        return file_bytes + bytes(between(rng, 1, 12))
    return bytes(rng.randrange(256) for _ in range(between(rng, 0, 60)))


def random_room(rng, file_bytes):
    """Mostly the numbers needed, at times fewer or more."""
    room = needed(file_bytes)
    what = rng.randrange(100)
    if what < 70:
        return room
    if what < 80:
        return max(0, room - between(rng, 1, 3))
    return min(MOST_LENT, room + between(rng, 1, 40))


def random_lookup_case(rng):
    file_bytes = random_file(rng)
    words = reference.words_of(file_bytes[: len(file_bytes) // 4 * 4])
    numbers = [word & 0xFFFFFFFF for word in words[4:28:3]]
    number = rng.choice(numbers) if numbers else rng.randrange(9)
    if chance(rng, 25):
        number = rng.choice((0, 1, number ^ 1, (number + 1) & 0xFFFFFFFF, 0xFFFFFFFF))
    return Case(LOOKUP, number, file_bytes)


def random_marks(rng, last_day):
    """Marks that an area can have: none is on a day before the first of 2000."""
    since = (reference.date_of(last_day) - reference.FIRST_DAY).days
    reach = min(30, since + 1)
    every = bits(*range(reach))
    some = (1 << rng.randrange(reach), between(rng, 1, every))
    return rng.choice((bits(0), bits(reach - 1), every) + some)


def random_record(rng, date, numbers):
    """A record whose last day is mostly some days before the date, and which holds some of these
    areas and others; few have a word that is broken."""
    any_gap = rng.choice((between(rng, 1, 35), between(rng, 1, 999), 0, -1, between(rng, -400, 0)))
    gap = rng.choice((1, 1, 1, 1, 2, 3, 28, 29, 30, 31, 32, any_gap, any_gap))
    last_day = days.later(date, -gap)
    if not reference.is_date(last_day) or chance(rng, 5):
        return EMPTY_RECORD
    held = set()
    count = rng.choice((0, 1, 1, 2, 3, 7, 8, 8, between(rng, 0, 8)))
    highest = rng.choice((10, 3000, LARGEST_NUMBER))
    of_these = rng.choice((0, 10, 50))
    while len(held) < count:
        held.add(rng.choice(numbers) if chance(rng, of_these) else between(rng, 1, highest))
    places = [(number, random_marks(rng, last_day)) for number in sorted(held)]
    record = record_of(last_day, *places)
    if chance(rng, 10):
        place = rng.randrange(len(record))
        record[place] = damaged_word(rng, record[place])
    return record


def random_record_case(rng, call):
    """A random file with a record of its areas; in a quarter of the cases the record is what an
    entry of another file left, and the file is some days later."""
    file_bytes = random_file(rng)
    words = reference.words_of(file_bytes[: len(file_bytes) // 4 * 4])
    date = words[1] if len(words) > 1 and reference.is_date(words[1]) else DATE
    areas = words[2] if len(words) > 2 and 1 <= words[2] <= 8 else 1
    numbers = [number for number in words[4 : 4 + 3 * areas : 3] if reference.is_number(number)]
    record = random_record(rng, date, numbers or [7])
    if chance(rng, 25) and len(words) > 1:
        before = small_day(rng)
        before.date = date
        record, _ = record_arguments(record_payload(record, b""))
        _, _, record = reference.enter(record, before.to_bytes())
        moved = days.later(date, rng.choice((1, 1, 2, 29, 30, 31, between(rng, 0, 60))))
        file_bytes = with_words(file_bytes, (1, moved))
    room = random_room(rng, file_bytes) if call == RECORDED else 0
    return Case(call, room, record_payload(record, file_bytes))


def random_rising_dates(rng, count):
    """Dates that rise: one day after the other, or with gaps up to some days or years."""
    most = rng.choice((1, 1, 3, 40, 1100))
    gaps = [between(rng, 1, most) for _ in range(count)]
    last_start = (reference.date_of(20991231) - reference.FIRST_DAY).days - sum(gaps)
    date = days.later(20000101, rng.choice((0, last_start, between(rng, 0, last_start))))
    dates = []
    for gap in gaps:
        dates.append(date)
        date = days.later(date, gap)
    return dates


def random_kept_file(rng, date, short):
    """A file for a book, with its date: mostly a day that is settled, at times one that settlement or
    its check refuses; most are of few words if that is asked."""
    what = rng.randrange(100)
    if what < 15 or short and what < 85:
        return short_file(date, rng.choice((4, 4, 5, between(rng, 4, 60))))
    if what < 30:
        return unsettled_file(rng.choice(UNSETTLED), date)
    file_bytes = small_day(rng).to_bytes() if what < 85 else random_file(rng)
    file_bytes = (file_bytes + bytes(16))[: max(16, len(file_bytes) // 4 * 4)]
    return with_words(file_bytes, (1, date))


def random_book(rng, most_days):
    few = (0, 1, 2, 2, 3, 3)
    count = min(most_days, rng.choice(few + few + (4, 5, 8, between(rng, 0, 31), 30, 31)))
    files, size = [], 0
    for date in random_rising_dates(rng, count):
        file_bytes = random_kept_file(rng, date, short=count > 5)
        size += len(file_bytes)
        # What is left of the payload is for the contents, the new file and the words behind.
        if size < MOST_PAYLOAD - 70000:
            files.append(file_bytes)
    return days.Book(files)


def damaged_book(rng, book, room):
    """One word of the contents or a day's word 1 changed, or two, or bytes cut off."""
    if chance(rng, 25):
        return room[: rng.randrange(len(room) + 1)]
    telling = list(range(2 + 3 * len(book.files)))
    telling += [book.file_place(day) + 1 for day in range(len(book.files))]
    words = reference.book_words(room)
    telling = [place for place in telling if place < len(words)] or [0]
    changes = []
    for _ in range(rng.choice((1, 1, 1, 2))):
        place = rng.choice(telling)
        value = rng.choice((damaged_word(rng, words[place]), words[rng.choice(telling)]))
        changes.append((place, value))
    return with_words(room, *changes)


def random_behind(rng):
    """What the room has behind a book: nothing, bytes past its last whole word, words."""
    size = rng.choice((0, 0, 1, 2, 3, 4, 12, between(rng, 0, 400), between(rng, 0, 20000)))
    return rng.choice((bytes(size), varied_bytes(size)))


def random_month_case(rng, most_days=reference.MOST_DAYS):
    book = random_book(rng, most_days)
    room = book.to_bytes() + random_behind(rng)
    if chance(rng, 12):
        room = damaged_book(rng, book, room)
    ends = list(itertools.accumulate([needed(file_bytes) for file_bytes in book.files], initial=0))
    any_end = rng.choice(ends) + rng.choice((-1, 0, 1, between(rng, -99, 99)))
    lent = rng.choice((ends[-1], ends[-1], ends[-1] + between(rng, 1, 9), any_end, any_end))
    count = len(book.files)
    places = count + rng.choice((0, 0, 0, 0, 1, 5))
    if count and chance(rng, 6):
        places = rng.choice((count - 1, rng.randrange(count)))
    return month_case(room, min(MOST_PLACES, places), min(MOST_LENT, max(0, lent)))


def random_date_near(rng, book, there):
    """In so many of a hundred cases a date that the book has, else one next to it or any other."""
    dates = [reference.words_of(file_bytes)[1] for file_bytes in book.files] or [DATE]
    date = rng.choice(dates)
    if chance(rng, there):
        return date
    return rng.choice((days.later(date, 1), days.later(date, -1), days.random_date(rng)))


def random_add_case(rng, most_days=reference.MOST_DAYS):
    book = random_book(rng, most_days)
    new_file = random_file(rng) if chance(rng, 50) else small_day(rng).to_bytes()
    if len(new_file) >= 8 and chance(rng, 70):
        new_file = with_words(new_file, (1, random_date_near(rng, book, there=12)))
    room = roomy(book, new_file)
    what = rng.randrange(100)
    if what < 60:
        room += random_behind(rng)
    elif what < 80:
        room = room[: len(room) - rng.choice((1, 2, 3, 4, 8, 12, 16))]
    else:
        room = book.to_bytes() + random_behind(rng)
    if chance(rng, 10):
        room = damaged_book(rng, book, room)
    return add_case(room, new_file)


def random_withdraw_case(rng, most_days=reference.MOST_DAYS):
    book = random_book(rng, most_days)
    room = book.to_bytes() + random_behind(rng)
    if chance(rng, 12):
        room = damaged_book(rng, book, room)
    date = random_date_near(rng, book, there=75)
    if chance(rng, 8):
        date = damaged_word(rng, date) & 0xFFFFFFFF
    return withdraw_case(room, date)


def random_basis(rng, n):
    """A basis of n areas that keeps its rule: in an hour none, small numbers, or up to just the most."""
    hours = []
    for _ in range(24):
        most = rng.choice((0, 1, 3, 1000, MOST_BASIS, MOST_BASIS))
        numbers = days.demands_of(rng, n, most)
        if chance(rng, 20):
            numbers[rng.randrange(n)] += most - sum(numbers)
        turn = rng.randrange(n)
        hours.append(numbers[turn:] + numbers[:turn])
    return basis_of_hours(hours)


def damaged_basis(rng, basis):
    """Another length, another number, or an hour whose sum is one above the most."""
    what = rng.randrange(4)
    place = rng.randrange(len(basis))
    if what == 0:
        return rng.choice((basis[:-1], basis + [0], basis[24:], basis + [1] * 24, [], basis[:place]))
    changed = list(basis)
    if what < 3:
        changed[place] = damaged_word(rng, basis[place])
    else:
        changed[place] += MOST_BASIS + 1 - sum(basis[place % 24 :: 24])
    return changed


def random_payout_case(rng, most_areas=8):
    """Mostly a whole day of some areas with a basis that keeps its rule; in most hours of most areas
    there is no deficiency, so that some pay and others pass."""
    count = min(most_areas, rng.choice((1, 2, 2, 2, 3, 3, 3, 4, 5, between(rng, 1, 8))))
    shapes = [SMALL] * count
    shapes[rng.randrange(count)] = rng.choice((SMALL, (1, 1, between(rng, 1, 4))))
    style = rng.choice((days.REALISTIC, days.REALISTIC, None))
    file_bytes = days.random_day_of(rng, shapes, style).to_bytes()
    if chance(rng, 20):
        # Any file may have more areas than the most that is asked.
        file_bytes = random_file(rng) if most_areas == 8 else damaged(rng, file_bytes, 1)
    n = areas_said(file_bytes)
    basis = random_basis(rng, n)
    if chance(rng, 12):
        basis = damaged_basis(rng, basis)
    lent = reference.payments_needed(n)
    if chance(rng, 20):
        lent += rng.choice((-1, 1, 5, between(rng, -lent, 20)))
    return payout_case(file_bytes, basis, lent)


def random_case(rng, call):
    if call in (ENTER, RECORDED):
        return random_record_case(rng, call)
    if call == PAY_OUT:
        return random_payout_case(rng)
    if call == MONTH:
        return random_month_case(rng)
    if call == ADD_DAY:
        return random_add_case(rng)
    if call == WITHDRAW_DAY:
        return random_withdraw_case(rng)
    if call == PRICE:
        return random_price_case(rng)
    if call == SHARE:
        return random_share_case(rng)
    if call == LOOKUP:
        return random_lookup_case(rng)
    file_bytes = random_file(rng)
    if call == CHECK:
        return Case(CHECK, 0, file_bytes)
    room = random_room(rng, file_bytes)
    if call == SETTLE:
        return Case(SETTLE, room, file_bytes)
    return Case(C_CALL, min(65536, 8 * room + rng.choice((0, 0, 1, 7))), file_bytes)


# The commands


def made(calls=None):
    """The whole stream and all of its lines."""
    cases = [case for _, case in committed_cases(calls)]
    stream = b"".join(case_bytes(case) for case in cases)
    lines = "".join(line(case) for case in cases).encode("ascii")
    return stream, lines


def make():
    stream, lines = made()
    if len(lines) >= MOST_LINES_BYTES:
        sys.exit("%d bytes of lines are more than rt takes of a program's output." % len(lines))
    INPUT.parent.mkdir(parents=True, exist_ok=True)
    INPUT.write_bytes(stream)
    EXPECTED.write_bytes(lines)
    sizes = (lines.count(b"\n"), len(stream), len(lines))
    print("%d cases, %d bytes of cases, %d bytes of lines" % sizes)


def check():
    for path, bytes_due in zip((INPUT, EXPECTED), made()):
        name = path.relative_to(ROOT).as_posix()
        if not path.exists():
            sys.exit("%s is missing; tools/vectors.py make writes it." % name)
        if path.read_bytes() != bytes_due:
            sys.exit("%s is not what tools/vectors.py makes." % name)


def list_cases():
    for number, (group, case) in enumerate(committed_cases(), 1):
        print(number, group, case.call, case.x, len(case.payload))


def calls_of(text):
    """Calls by their numbers, as in 1,5."""
    calls = [int(call) for call in text.split(",")]
    if not set(calls) <= set(ALL_CALLS):
        raise ValueError(text)
    return calls


def write_stream(asked):
    rng = random.Random(asked.seed)
    with open(asked.input, "wb") as stream, open(asked.expected, "w") as lines:
        for _ in range(asked.cases):
            case = random_case(rng, rng.choice(asked.calls))
            stream.write(case_bytes(case))
            lines.write(line(case))


def main():
    parser = arguments.parser_of(__doc__)
    commands = parser.add_subparsers(dest="command", required=True)
    commands.add_parser("make", help="write crates/vectors/stdin and crates/vectors/stdout")
    commands.add_parser("check", help="exit 1 if what is committed differs")
    commands.add_parser("list", help="print a line for each case")
    stream = commands.add_parser("stream", help="write fresh random cases")
    stream.add_argument("--seed", type=int, required=True)
    stream.add_argument("--cases", type=int, required=True)
    stream.add_argument("--input", required=True)
    stream.add_argument("--expected", required=True)
    stream.add_argument("--calls", type=calls_of, default=ALL_CALLS)
    asked = parser.parse_args()
    if asked.command == "make":
        make()
    elif asked.command == "check":
        check()
    elif asked.command == "list":
        list_cases()
    else:
        try:
            write_stream(asked)
        except OSError as error:
            stream.error("the cases cannot be written: %s" % error)


if __name__ == "__main__":
    main()
