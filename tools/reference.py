#!/usr/bin/env python3
"""The rules of document 01, and of document 02 as far as its requests are taken up (§1 to §7), as
plain functions: the check, the settlement, the price of an hour, the sharing of an amount, the
lookup, the C call, the program, the record of failing days and the settlement with it, the month
book with its settlement, a day added to it and a day withdrawn from it, the collections paid out.

It is written to be read beside these documents and to be right, not to be fast. Quantities, prices
and amounts are exact fractions in MW, dollars a MWh and dollars, and are rounded once, by R. It
shares no code with the crates, so that an agreement of the two says something.

Run as a program it prints the figures T1 to T12, T6 and T7 with the S and the credit that they show
(document 02, §4), the figure of §2, what a record counts (§3), what a book holds and gives (§5), how
many dates there are (§6), what a day pays out (§7), and Case P, and exits 1 if one is off.
"""

import datetime
import itertools
import math
import struct
import sys
from collections import namedtuple
from fractions import Fraction

sys.dont_write_bytecode = True  # running a tool leaves nothing behind in the repository

import arguments

MISSING = -2147483648
LARGEST_NUMBER = 2147483647
PEAK_WORD = 4194240
HOURS = 24
MOST_DEMAND = 100000000
MOST_SHARED = 10000000000

# The numbers of an hour before its charges: "The hour becomes 5 + K numbers" (document 02, §4).
AMOUNTS_SHOWN = 5

# The record of document 02, §3: the calendar days that it reaches over, the areas that it holds at
# most, its words, and the first day that a file can have.
DAYS_KEPT = 30
MOST_HELD = 8
RECORD_WORDS = 2 + 2 * MOST_HELD
FIRST_DAY = datetime.date(2000, 1, 1)

# The month book of document 02, §5: "word 1 the number of days, 0 to 31"; of a day "its date, first
# word and length in words (4 or more)".
MOST_DAYS = 31
LEAST_DAY_WORDS = 4

# The basis of document 02, §7: "0 to 10,000,000, summing to at most that per hour".
MOST_BASIS = 10000000


class Refused(Exception):
    """A refusal, with its number and place."""

    def __init__(self, number, place):
        super().__init__(number, place)
        self.number = number
        self.place = place


# Units


def R(value):
    """Rounding to the nearest whole number, halves away from zero: R(-12.5) = -13."""
    nearest = math.floor(abs(Fraction(value)) + Fraction(1, 2))
    return nearest if value >= 0 else -nearest


def megawatts(word):
    """Quantities are thousandths of a MW or MWh."""
    return Fraction(word, 1000)


def hub_dollars(word):
    """Hub prices are whole cents per MWh."""
    return Fraction(word, 100)


def market_dollars(word):
    """Market prices (interval prices and MEC) are $0.0001 per MWh."""
    return Fraction(word, 10000)


def cents(dollars):
    """Amounts are whole cents, signed: the one rounding of an amount."""
    return R(100 * dollars)


# The day file


def words_of(file_bytes):
    """Little-endian 32-bit words, two's complement where signed.

    All are read as signed: a word that is 2,147,483,648 or more without a sign is out of every
    range of the document either way.
    """
    return struct.unpack("<%di" % (len(file_bytes) // 4), file_bytes)


def date_of(word):
    """The day that YYYYMMDD names."""
    return datetime.date(word // 10000, word // 100 % 100, word % 100)


def is_leap(year):
    return year % 4 == 0 and (year % 100 != 0 or year % 400 == 0)


def days_of_month(year, month):
    """A month's last day by formula (document 02, §6). Counted from March, a month with k months
    before it begins (153 k + 2) // 5 days after 1 March, and ends where the next one begins.
    February, the last of them, ends with its year."""
    if month == 2:
        return 29 if is_leap(year) else 28
    months_before = (month - 3) % 12
    return (153 * (months_before + 1) + 2) // 5 - (153 * months_before + 2) // 5


def is_date(word):
    """Trading day as YYYYMMDD, a real Gregorian date, 2000 to 2099."""
    year, month, day = word // 10000, word // 100 % 100, word % 100
    return (
        2000 <= year <= 2099
        and 1 <= month <= 12
        and 1 <= day <= days_of_month(year, month)
    )


def is_number(word):
    """Area and coordinator numbers are 1 to 2,147,483,647."""
    return 1 <= word <= LARGEST_NUMBER


def is_price(word):
    """A price has the range of MEC, or is -2,147,483,648: missing."""
    return -20000000 <= word <= 20000000 or word == MISSING


def is_quantity(word):
    """Interval quantity (0 to 10,000,000)."""
    return 0 <= word <= 10000000


def is_demand(word):
    """Metered demand (0 to 100,000,000)."""
    return 0 <= word <= MOST_DEMAND


def hour_words(load_points, coordinators):
    """The words of an hour: 8 numbers, 12L pairs, K demands."""
    return 8 + 24 * load_points + coordinators


def body_words(load_points, coordinators):
    """Body words = 7 + K + 24(8 + 24L + K)."""
    return 7 + coordinators + HOURS * hour_words(load_points, coordinators)


# The check: each rule is (word that is judged, refusal number, whether the word keeps its rule).
# The rules stand in file order. Each generator is left at the first rule that is broken, so what
# it reads after a rule may rely on that rule.


def file_rules(words):
    """Words in file order, contents before bodies."""
    yield 0, 2, words[0] == 1
    yield 1, 4, is_date(words[1])
    n = words[2]
    yield 2, 3, 1 <= n <= 8 and len(words) >= 4 + 3 * n
    yield 3, 5, words[3] in (0, PEAK_WORD)
    for entry in range(n):
        yield from entry_rules(words, entry)
    for entry in range(n):
        yield from body_rules(words, entry)


def entry_rules(words, entry):
    """An entry: area number, first word of its body, words in its body."""
    n = words[2]
    at = 4 + 3 * entry
    number, first, length = words[at : at + 3]

    # Area numbers are 1 to 2,147,483,647, strictly rising.
    yield at, 6, is_number(number) and (entry == 0 or words[at - 3] < number)

    # Bodies follow in entry order without gaps, the first at word 4 + 3n.
    due = 4 + 3 * n if entry == 0 else words[at - 2] + words[at - 1]
    yield at + 1, 6, first == due

    # A body has 800 to 2,951 words. A body that would pass the file's end breaks at its length
    # word, and a wrong file end is the last length word.
    end = first + length
    ends_well = end == len(words) if entry == n - 1 else end <= len(words)
    yield at + 2, 6, 800 <= length <= 2951 and ends_well


def body_rules(words, entry):
    """A body: its head, its coordinators, its 24 hours."""
    start, length = words[5 + 3 * entry], words[6 + 3 * entry]
    kinds_before = [words[words[5 + 3 * before]] for before in range(entry)]
    kind, flag, days, hub_a, hub_b, load_points, coordinators = words[start : start + 7]

    # Kind (1 CISO, at most one in a file; 0 other).
    yield start, 7, kind == 0 or (kind == 1 and 1 not in kinds_before)
    # EDAM flag 0 or 1, persistent days d 0 to 30.
    yield start + 1, 7, flag in (0, 1)
    yield start + 2, 7, 0 <= days <= 30
    # Hub price A, hub price B (each -200,000 to 200,000).
    yield start + 3, 7, -200000 <= hub_a <= 200000
    yield start + 4, 7, -200000 <= hub_b <= 200000
    # Load points L 1 or 2.
    yield start + 5, 7, load_points in (1, 2)
    # Coordinators K (1 to 64; exactly 1 for kind 0). For the word of K, 7 before 6.
    yield start + 6, 7, coordinators == 1 or (kind == 1 and 1 <= coordinators <= 64)
    yield start + 6, 6, length == body_words(load_points, coordinators)

    # K coordinator numbers, 1 to 2,147,483,647, strictly rising.
    for k in range(coordinators):
        at = start + 7 + k
        yield at, 8, is_number(words[at]) and (k == 0 or words[at - 1] < words[at])

    for hour in range(HOURS):
        at = start + 7 + coordinators + hour * hour_words(load_points, coordinators)
        yield from hour_rules(words, at, load_points, coordinators)


def hour_rules(words, at, load_points, coordinators):
    """An hour: six deficiencies, Q, MEC, 12L pairs, K demands."""
    # Upward deficiencies of energy, regulation up, spin, non-spin; downward deficiencies of
    # energy, regulation down (each 0 to 2,500,000).
    for place in range(at, at + 6):
        yield place, 9, 0 <= words[place] <= 2500000
    # Upward imbalance reserve requirement Q (0 to 50,000,000); MEC (-20,000,000 to 20,000,000).
    yield at + 6, 9, 0 <= words[at + 6] <= 50000000
    yield at + 7, 9, -20000000 <= words[at + 7] <= 20000000
    # 12L pairs of interval quantity and price.
    for pair in range(12 * load_points):
        place = at + 8 + 2 * pair
        yield place, 9, is_quantity(words[place])
        yield place + 1, 9, is_price(words[place + 1])
    # K metered demands (0 to 100,000,000, together at most 100,000,000). For a demand, 9 before 10.
    first_demand = at + 8 + 24 * load_points
    for k in range(coordinators):
        place = first_demand + k
        yield place, 9, is_demand(words[place])
        yield place, 10, sum(words[first_demand : place + 1]) <= MOST_DEMAND


def check(file_bytes):
    """The number and place of the first rule that is broken, or 0, 0."""
    # 1: file under 16 bytes, over 65,536, or no multiple of 4.
    if len(file_bytes) < 16 or len(file_bytes) > 65536 or len(file_bytes) % 4 != 0:
        return 1, 0
    for place, number, kept in file_rules(words_of(file_bytes)):
        if not kept:
            return number, place
    return 0, 0


# A checked file, read into named numbers

Area = namedtuple("Area", "number kind flag days hub_prices coordinators hours start length")
Hour = namedtuple(
    "Hour", "peak upward downward requirement mec pairs demands first_interval first_demand"
)


def areas_of(words):
    """The areas of an accepted file in file order."""
    return [area_of(words, entry) for entry in range(words[2])]


def area_of(words, entry):
    number, start, length = words[4 + 3 * entry : 7 + 3 * entry]
    kind, flag, days, hub_a, hub_b, load_points, count = words[start : start + 7]
    first_hour = start + 7 + count
    hours = [
        hour_of(words, first_hour + hour * hour_words(load_points, count), hour, load_points, count)
        for hour in range(HOURS)
    ]
    coordinators = words[start + 7 : first_hour]
    return Area(number, kind, flag, days, (hub_a, hub_b), coordinators, hours, start, length)


def hour_of(words, at, hour, load_points, count):
    first_interval = at + 8
    first_demand = first_interval + 24 * load_points
    intervals = words[first_interval:first_demand]
    return Hour(
        # Peak hours: bits 6 to 21 are hours ending 7 to 22, so bit b is the hour ending b + 1.
        peak=words[3] >> hour & 1 == 1,
        upward=words[at : at + 4],
        downward=words[at + 4 : at + 6],
        requirement=words[at + 6],
        mec=words[at + 7],
        pairs=list(zip(intervals[0::2], intervals[1::2])),
        demands=words[first_demand : first_demand + count],
        first_interval=first_interval,
        first_demand=first_demand,
    )


# Amounts


def upward_deficiency(hour):
    """U = the four upward deficiencies added."""
    return megawatts(sum(hour.upward))


def downward_deficiency(hour):
    """W = the two downward deficiencies."""
    return megawatts(sum(hour.downward))


def tier(U, Q):
    """0 if U = 0; 1 if U > 0 and (U <= 10 MW or 100U <= Q); otherwise 2 if 2U <= Q, 3 if 2U > Q."""
    if U == 0:
        return 0
    if U <= 10 or 100 * U <= Q:
        return 1
    return 2 if 2 * U <= Q else 3


def hour_tier(hour):
    """Tier of an hour. Q is the area's one total."""
    return tier(upward_deficiency(hour), megawatts(hour.requirement))


def day_tier(area):
    """Day tier = highest tier of the peak hours, 0 without peak hours."""
    return max([hour_tier(hour) for hour in area.hours if hour.peak], default=0)


def highest_deficiency(area):
    """M = highest U of the peak hours, 0 without peak hours."""
    return max([upward_deficiency(hour) for hour in area.hours if hour.peak], default=Fraction(0))


def multiplier(of_tier):
    """m 1.25 for tier 2 and 2 for tier 3."""
    return {2: Fraction(5, 4), 3: Fraction(2)}[of_tier]


def load_weighted(pairs):
    """Sum of quantity × price over intervals whose price is present, over the sum of the same
    quantities, then R to $0.0001. None where there is no quantity under it."""
    present = [(quantity, price) for quantity, price in pairs if price != MISSING]
    weight = sum(megawatts(quantity) for quantity, _ in present)
    if weight == 0:
        return None
    value = sum(megawatts(quantity) * market_dollars(price) for quantity, price in present)
    return R(10000 * value / weight)


def prices_present(pairs):
    """The count of intervals whose price was present."""
    return sum(1 for _, price in pairs if price != MISSING)


def too_few_present(pairs):
    """Fewer than 9L present of its 12L (document 02, §1)."""
    load_points = len(pairs) // 12
    return prices_present(pairs) < 9 * load_points


def price_is_needed(area, hour):
    """It is needed in an off-peak hour of tier 2 or 3 and in a tier 0 peak hour of a day of
    tier 2 or 3, flag 1 only."""
    if area.flag == 0:
        return False
    if hour.peak:
        return hour_tier(hour) == 0 and day_tier(area) >= 2
    return hour_tier(hour) >= 2


def surcharge(M, P, of_tier, days):
    """S = max(0, M × P × m × (1 + d/100)), in dollars."""
    return max(Fraction(0), M * P * multiplier(of_tier) * (1 + Fraction(days, 100)))


def surcharge_and_credit(area, hour, price, d):
    """S and the credit of a peak hour of a day of tier 2 or 3, in dollars."""
    M = highest_deficiency(area)
    # P the greater hub price.
    P = max(hub_dollars(hub) for hub in area.hub_prices)
    S = surcharge(M, P, day_tier(area), d)
    # In a peak hour of tier 0 the credit is M × its load-weighted price; elsewhere 0.
    credit = M * market_dollars(price) if hour_tier(hour) == 0 else Fraction(0)
    return S, credit


def on_peak(area, hour, price, d):
    """R(max(0, S - credit)) in cents, peak hours only; 0 if day tier <= 1."""
    if not hour.peak or day_tier(area) <= 1:
        return 0
    S, credit = surcharge_and_credit(area, hour, price, d)
    return cents(max(Fraction(0), S - credit))


def before_the_credit(area, hour, price, d):
    """Document 02, §4: S and the credit, each rounded by R on its own; both are 0 outside peak hours,
    on a day of tier 0 or 1, and with flag 0."""
    if not hour.peak or day_tier(area) in (0, 1) or area.flag == 0:
        return 0, 0
    S, credit = surcharge_and_credit(area, hour, price, d)
    return cents(S), cents(credit)


def off_peak(area, hour, price, d):
    """Other hours: tier 0 and 1 give 0; otherwise R(max(0, U × price × m × (1 + d/100))), rounded
    once (document 02, §2), with the load-weighted price and the hour's own tier."""
    if hour.peak or hour_tier(hour) <= 1:
        return 0
    U = upward_deficiency(hour)
    m = multiplier(hour_tier(hour))
    return cents(max(Fraction(0), U * market_dollars(price) * m * (1 + Fraction(d, 100))))


def downward(W, mec):
    """If W > 10 MW, R(min(0, W × MEC)), otherwise 0."""
    if W > 10:
        return cents(min(Fraction(0), W * mec))
    return 0


def needed_price(area, hour):
    """The price of an hour that needs one, or refusal 16 or 11; None for an hour that needs none."""
    if not price_is_needed(area, hour):
        return None
    # 16: too few intervals, place as for 11, directly before 11.
    if too_few_present(hour.pairs):
        raise Refused(16, hour.first_interval)
    # 11 remains for enough prices with no quantity.
    price = load_weighted(hour.pairs)
    if price is None:
        raise Refused(11, hour.first_interval)
    return price


def amounts(area, hour, price, d):
    """On-peak, off-peak and downward amount of an hour at its price, with this d."""
    # All amounts of an area with EDAM flag 0 are 0.
    if area.flag == 0:
        return 0, 0, 0
    return (
        on_peak(area, hour, price, d),
        off_peak(area, hour, price, d),
        downward(downward_deficiency(hour), market_dollars(hour.mec)),
    )


# Shares


def shares(A, demands):
    """With running demands C0 = 0, C1, .. and total T,
    charge i = R(A × Ci / T) - R(A × C(i-1) / T); all 0 when A = 0."""
    if A == 0:
        return [0] * len(demands)
    T = sum(demands)
    running = [sum(demands[:i]) for i in range(len(demands) + 1)]
    rounded = [R(Fraction(A * C, T)) for C in running]
    return [rounded[i + 1] - rounded[i] for i in range(len(demands))]


def charges(area, hour, A):
    """Kind 0: the one coordinator is charged A. Kind 1: shares, or refusal 12."""
    if area.kind == 0:
        return [A]
    # 12: kind 1, A not 0, T = 0.
    if A != 0 and sum(hour.demands) == 0:
        raise Refused(12, hour.first_demand)
    return shares(A, hour.demands)


# The statement


def numbers_needed(areas):
    """The sum of 24(5 + K)."""
    return sum(HOURS * (AMOUNTS_SHOWN + len(area.coordinators)) for area in areas)


def block(area, d):
    """24 hours of on-peak amount, off-peak amount, downward amount, S, credit, K charges."""
    numbers = []
    for hour in area.hours:
        price = needed_price(area, hour)
        three = amounts(area, hour, price, d)
        numbers += three
        numbers += before_the_credit(area, hour, price, d)
        # A = the hour's three amounts added.
        numbers += charges(area, hour, sum(three))
    return numbers


def settle_areas(areas, days_of, statement):
    """Number, place and the statement afterwards, for the areas of a file that the check accepts;
    days_of gives the d of an area. A refusal writes nothing; numbers past the needed ones stay."""
    needed = numbers_needed(areas)
    if len(statement) < needed:
        return 13, needed, list(statement)
    try:
        settled = [number for area in areas for number in block(area, days_of(area))]
    except Refused as refusal:
        return refusal.number, refusal.place, list(statement)
    return 0, 0, settled + list(statement[needed:])


def settle(file_bytes, statement):
    """Number, place and the statement afterwards, with the file's own d."""
    number, place = check(file_bytes)
    if number != 0:
        return number, place, list(statement)
    return settle_areas(areas_of(words_of(file_bytes)), lambda area: area.days, statement)


# The record of failing days (document 02, §3)


def marked(area):
    """A day marked when any hour, peak or not, was of tier 2 or 3 and the flag was 1."""
    return area.flag == 1 and any(hour_tier(hour) >= 2 for hour in area.hours)


def days_before(day, count):
    return day - datetime.timedelta(days=count)


def thirty_days_to(day):
    """The thirty calendar days that end with this one."""
    return {days_before(day, back) for back in range(DAYS_KEPT)}


def places_of(record):
    """The places behind the first two words, of two words each: an area's number and its marks."""
    return list(zip(record[2::2], record[3::2]))


def marked_days(last_day, marks):
    """Bit i of the marks, i from 0 to 29, is the day i days before the last day entered."""
    return {days_before(last_day, i) for i in range(DAYS_KEPT) if marks >> i & 1 == 1}


def days_of_record(record):
    """The marked days of each area that a good record holds."""
    return {
        number: marked_days(date_of(record[0]), marks)
        for number, marks in places_of(record)[: record[1]]
    }


def words_of_record(last_day, days_of_area):
    """The words of a record: the last day entered as YYYYMMDD, the number of areas held, then the
    places. Areas rise; places that hold no area are 0, 0."""
    record = [last_day.year * 10000 + last_day.month * 100 + last_day.day, len(days_of_area)]
    for number in sorted(days_of_area):
        marks = sum(1 << (last_day - day).days for day in days_of_area[number])
        record += [number, marks]
    return record + [0] * (RECORD_WORDS - len(record))


def record_is_left(record):
    """Whether some accepted entries leave this record; the words are read without a sign."""
    last_day, held = record[:2]
    # The last day entered is 0 where none was, and then nothing is held.
    if last_day == 0:
        return not any(record)
    # The last day entered is that of an accepted file; 8 areas at most.
    if not is_date(last_day) or held > MOST_HELD:
        return False
    places, unused = places_of(record)[:held], places_of(record)[held:]
    numbers = [number for number, _ in places]
    return (
        # Areas rise, and each has a number that an area can have.
        all(is_number(number) for number in numbers)
        and all(before < after for before, after in zip(numbers, numbers[1:]))
        # The record holds just the areas with a marked day among the thirty.
        and all(1 <= marks < 1 << DAYS_KEPT for _, marks in places)
        # A marked day is the day of an accepted file.
        and all(
            day >= FIRST_DAY
            for _, marks in places
            for day in marked_days(date_of(last_day), marks)
        )
        # Places that hold no area are 0, 0.
        and all(place == (0, 0) for place in unused)
    )


def record_refusal(record, trading_day):
    """14, a record that no accepted entries leave, right before 18; 18, day not after the last one
    entered. 0 for neither."""
    if not record_is_left(record):
        return 14
    if record[0] != 0 and trading_day <= date_of(record[0]):
        return 18
    return 0


def enter(record, file_bytes):
    """Number, place and the words of the record afterwards. An entry is a day file that the check
    accepts; every refusal leaves the record as it was."""
    number, place = check(file_bytes)
    if number != 0:
        return number, place, list(record)
    words = words_of(file_bytes)
    trading_day = date_of(words[1])
    number = record_refusal(record, trading_day)
    if number != 0:
        return number, 0, list(record)

    days_of_area = days_of_record(record)
    for area in areas_of(words):
        if marked(area):
            days_of_area.setdefault(area.number, set()).add(trading_day)
    # After an entry the record holds just the areas with a marked day among the thirty that end
    # with the day entered. Skipped days are unmarked and age the record.
    kept = {
        number: days & thirty_days_to(trading_day)
        for number, days in days_of_area.items()
        if days & thirty_days_to(trading_day)
    }
    # 19, an entry after which more than 8 areas would be held.
    if len(kept) > MOST_HELD:
        return 19, 0, list(record)
    return 0, 0, words_of_record(trading_day, kept)


def days_counted(record, area_number, trading_day):
    """d: the marked days among the thirty before the trading day, consecutive or not."""
    days = days_of_record(record).get(area_number, set())
    return len(days & thirty_days_to(days_before(trading_day, 1)))


def settle_recorded(record, file_bytes, statement):
    """Number, place and the statement afterwards. Settlement with the record uses its d and ignores
    the file's; the record stays as it is."""
    number, place = check(file_bytes)
    if number != 0:
        return number, place, list(statement)
    words = words_of(file_bytes)
    trading_day = date_of(words[1])
    # 14 and 18 after the check's numbers and before 13.
    number = record_refusal(record, trading_day)
    if number != 0:
        return number, 0, list(statement)
    return settle_areas(
        areas_of(words), lambda area: days_counted(record, area.number, trading_day), statement
    )


# The month book (document 02, §5)

KeptDay = namedtuple("KeptDay", "date file_bytes")


def book_words(room):
    """The words of the lent room, in which the book stands; bytes past its last whole word are not
    counted. Read as signed too: a room of 2,147,483,648 words is longer than any here."""
    return words_of(room[: len(room) // 4 * 4])


def first_file_word(n):
    """The day files follow word 0, word 1 and the three words of each of the n days."""
    return 2 + 3 * n


def book_rules(words):
    """The words of the contents in order, then each day's word 1, each as (word that is judged,
    whether it keeps its rule). Left at the first that is broken, as the rules of a day file are."""
    # Word 0 is 1; also where the room is under 2 words.
    yield 0, len(words) >= 2 and words[0] == 1
    # Word 1 is the number of days, 0 to 31; also where the room lacks the contents.
    n = words[1]
    yield 1, 0 <= n <= MOST_DAYS and first_file_word(n) <= len(words)
    for day in range(n):
        yield from kept_day_rules(words, day)
    # A day's date equals its file's word 1.
    for day in range(n):
        date, first, _ = words[2 + 3 * day : 5 + 3 * day]
        yield first + 1, words[first + 1] == date


def kept_day_rules(words, day):
    """A day in the contents: its date, first word and length in words."""
    at = 2 + 3 * day
    date, first, length = words[at : at + 3]
    # A date is real, 2000 to 2099; the dates rise strictly.
    yield at, is_date(date) and (day == 0 or words[at - 3] < date)
    # The day files follow without gaps.
    due = first_file_word(words[1]) if day == 0 else words[at - 2] + words[at - 1]
    yield at + 1, first == due
    # 4 or more; the length word of a day that passes the room.
    yield at + 2, length >= LEAST_DAY_WORDS and first + length <= len(words)


def check_book(room):
    """20 with the first word that breaks a rule of the book, or 0, 0."""
    for place, kept in book_rules(book_words(room)):
        if not kept:
            return 20, place
    return 0, 0


def days_of_book(room):
    """The days that a good book holds, in its order."""
    words = book_words(room)
    entries = [words[2 + 3 * day : 5 + 3 * day] for day in range(words[1])]
    return [
        KeptDay(date, room[4 * first : 4 * (first + length)]) for date, first, length in entries
    ]


def book_of(days_kept):
    """The bytes of the book that holds these days, in rising order of their dates."""
    days_kept = sorted(days_kept)
    contents, first = [1, len(days_kept)], first_file_word(len(days_kept))
    for date, file_bytes in days_kept:
        length = len(file_bytes) // 4
        contents += [date, first, length]
        first += length
    files = b"".join(file_bytes for _, file_bytes in days_kept)
    return struct.pack("<%di" % len(contents), *contents) + files


def coded(number, place):
    """Number × 1,000,000 + place: the C call's answer, and what a place of the table holds."""
    return number * 1000000 + place


def settle_month(room, statement, table):
    """Number, place, the statement and the table afterwards. The result is that of settling the days
    one by one; a refused day leaves its part as it was and the others go on."""
    statement, table = list(statement), list(table)
    # 20, checked before any day.
    number, place = check_book(room)
    if number != 0:
        return number, place, statement, table
    days_kept = days_of_book(room)
    # 21, the table has fewer places than days.
    if len(table) < len(days_kept):
        return 21, 0, statement, table

    # The numbers from `start` to `end` are the room that is left for the days to come.
    start, end = 0, len(statement)
    for day, (_, file_bytes) in enumerate(days_kept):
        number, place, statement[start:end] = settle(file_bytes, statement[start:end])
        table[day] = coded(number, place)
        if number == 13:
            # Once a day's part doesn't fit, it and every later day that passes its check get 13,
            # each with its own numbers needed: nothing is left for them.
            end = start
        elif check(file_bytes) == (0, 0):
            # A day that its check refuses takes no numbers; any other takes those it needs.
            start += numbers_needed(areas_of(words_of(file_bytes)))
    return 0, 0, statement, table


def add_day(room, file_bytes):
    """Number, place and the room afterwards, with the day added to the book; a refusal leaves the book
    as it was."""
    number, place = check_book(room)
    if number != 0:
        return number, place, room
    # A new day that the check refuses is refused with the check's number, before 22.
    number, place = check(file_bytes)
    if number != 0:
        return number, place, room
    days_kept = days_of_book(room)
    new = KeptDay(words_of(file_bytes)[1], file_bytes)
    # 22, date already there, before 21.
    if new.date in [day.date for day in days_kept]:
        return 22, 0, room
    # 21, exactly when the days kept plus the new one don't fit or would be 32. A book is whole words,
    # so that bytes past the room's last whole word never make it fit.
    book = book_of(days_kept + [new])
    if len(days_kept) == MOST_DAYS or len(book) > len(room):
        return 21, 0, room
    return 0, 0, book + room[len(book) :]


def withdraw_day(room, date):
    """Number, place and the room afterwards, with the day of this date withdrawn from the book; freed
    words become 0. A refusal leaves the book as it was."""
    number, place = check_book(room)
    if number != 0:
        return number, place, room
    days_kept = days_of_book(room)
    # 22, date absent.
    if date not in [day.date for day in days_kept]:
        return 22, 0, room
    old_end = len(book_of(days_kept))
    book = book_of([day for day in days_kept if day.date != date])
    return 0, 0, book + bytes(old_end - len(book)) + room[old_end:]


# Paying out under 8088 (document 02, §7)

# The directions of an hour: upward before downward.
UPWARD, DOWNWARD = 0, 1


def settled_amounts(area):
    """The upward and the downward amount of each hour of an area, with the file's own d, or what
    settlement refuses. Upward is on-peak plus off-peak."""
    numbers = block(area, area.days)
    starts = range(0, len(numbers), AMOUNTS_SHOWN + len(area.coordinators))
    return [(numbers[at] + numbers[at + 1], numbers[at + 2]) for at in starts]


def passes(area, hour, direction):
    """The passing areas are those with flag 1 and a deficiency of exactly 0 in that direction."""
    deficiency = {UPWARD: upward_deficiency, DOWNWARD: downward_deficiency}[direction]
    return area.flag == 1 and deficiency(hour) == 0


def basis_is_right(basis, n):
    """24 numbers an area, areas in file order, 0 to 10,000,000, summing to at most that per hour. The
    numbers have no sign."""
    return (
        len(basis) == HOURS * n
        and all(0 <= number <= MOST_BASIS for number in basis)
        and all(sum(basis[hour::HOURS]) <= MOST_BASIS for hour in range(HOURS))
    )


def paid_and_rest(collected, passing_basis):
    """The payments of the passing areas, in file order, and the unpaid rest."""
    # The rest is all of it when nobody passes or the passing basis is 0, else 0.
    if sum(passing_basis) == 0:
        return [0] * len(passing_basis), collected
    # Payments are shares of the collected amount by running totals over the passing areas.
    return shares(collected, passing_basis), 0


def payments_needed(n):
    """Two for each area and hour, and the 24 pairs of rests."""
    return 2 * HOURS * n + 2 * HOURS


def payments_and_rests(areas, amounts_of_areas, basis):
    """Payments stand by area, then hour, upward before downward; the 24 pairs of rests follow."""
    n = len(areas)
    # The rests stand where the payments of one more area would.
    numbers = [0] * payments_needed(n)
    for hour, direction in itertools.product(range(HOURS), (UPWARD, DOWNWARD)):
        at = 2 * hour + direction
        # The collected amount is the sum over all areas of the file.
        collected = sum(amounts_of_areas[area][hour][direction] for area in range(n))
        # Non-passing ones get 0.
        passing = [k for k, area in enumerate(areas) if passes(area, area.hours[hour], direction)]
        paid, rest = paid_and_rest(collected, [basis[HOURS * k + hour] for k in passing])
        for k, payment in zip(passing, paid):
            numbers[2 * HOURS * k + at] = payment
        numbers[2 * HOURS * n + at] = rest
    return numbers


def pay_out(file_bytes, basis, payments):
    """Number, place and the payments afterwards. A refusal writes nothing; numbers past the needed
    ones stay."""
    number, place = check(file_bytes)
    if number != 0:
        return number, place, list(payments)
    areas = areas_of(words_of(file_bytes))
    # Refusals after those of settlement; never 13, no statement is lent.
    try:
        amounts_of_areas = [settled_amounts(area) for area in areas]
    except Refused as refusal:
        return refusal.number, refusal.place, list(payments)
    # 23, basis not 24 numbers an area, or out of range or sum.
    if not basis_is_right(basis, len(areas)):
        return 23, 0, list(payments)
    # 24, payment room too short, place the numbers needed.
    needed = payments_needed(len(areas))
    if len(payments) < needed:
        return 24, needed, list(payments)
    return 0, 0, payments_and_rests(areas, amounts_of_areas, basis) + list(payments[needed:])


# The other calls


def price(pair_bytes):
    """The price call: number, place, price in $0.0001, count of intervals whose price was present
    (0 on a refusal for length or range)."""
    # 96 or 192 bytes of pairs: 1 for another length.
    if len(pair_bytes) not in (96, 192):
        return 1, 0, 0, 0
    words = words_of(pair_bytes)
    pairs = list(zip(words[0::2], words[1::2]))
    # 9 with the pair's number from 0.
    for number, (quantity, pair_price) in enumerate(pairs):
        if not (is_quantity(quantity) and is_price(pair_price)):
            return 9, number, 0, 0
    value = load_weighted(pairs)
    if value is None:
        return 11, 0, 0, prices_present(pairs)
    return 0, 0, value, prices_present(pairs)


def row_rules(rows):
    """Rows in order (8, 9, 10, place the row from 0), as in a body."""
    for row, (coordinator, demand) in enumerate(rows):
        yield row, 8, is_number(coordinator) and (row == 0 or rows[row - 1][0] < coordinator)
        yield row, 9, is_demand(demand)
        yield row, 10, sum(demand for _, demand in rows[: row + 1]) <= MOST_DEMAND


def share(amount, rows, lent):
    """The sharing call: number, place and the charges afterwards; charges past the rows stay."""
    # 1 unless 1 to 64 rows, then 15.
    if not 1 <= len(rows) <= 64:
        return 1, 0, list(lent)
    if abs(amount) > MOST_SHARED:
        return 15, 0, list(lent)
    for place, number, kept in row_rules(rows):
        if not kept:
            return number, place, list(lent)
    # 13 for fewer charges than rows, place the numbers needed.
    if len(lent) < len(rows):
        return 13, len(rows), list(lent)
    demands = [demand for _, demand in rows]
    # 12 (place 0; A not 0 and T = 0).
    if amount != 0 and sum(demands) == 0:
        return 12, 0, list(lent)
    return 0, 0, shares(amount, demands) + list(lent[len(rows) :])


def lookup(file_bytes, area_number):
    """The bytes of that area's body, or none if the number is absent or the check refuses."""
    if check(file_bytes) != (0, 0):
        return b""
    for area in areas_of(words_of(file_bytes)):
        if area.number == area_number:
            return file_bytes[4 * area.start : 4 * (area.start + area.length)]
    return b""


def c_call(file_bytes, statement_bytes):
    """Number × 1,000,000 + place, and the statement bytes afterwards: 8 little-endian bytes a
    number; bytes past the last whole number don't count and stay."""
    whole = len(statement_bytes) // 8
    statement = list(struct.unpack("<%dq" % whole, statement_bytes[: 8 * whole]))
    number, place, after = settle(file_bytes, statement)
    afterwards = struct.pack("<%dq" % whole, *after) + statement_bytes[8 * whole :]
    return coded(number, place), afterwards


def program(file_bytes):
    """What the program prints for a day file."""
    number, place = check(file_bytes)
    if number == 0:
        words = words_of(file_bytes)
        areas = areas_of(words)
        number, place, statement = settle(file_bytes, [0] * numbers_needed(areas))
    if number != 0:
        return "refused %d %d\n" % (number, place)

    # `8080`, the day, n.
    lines = ["8080 %d %d" % (words[1], words[2])]
    total = 0
    left = statement
    for area in areas:
        for hour_ending in range(1, HOURS + 1):
            hour_numbers = AMOUNTS_SHOWN + len(area.coordinators)
            hour_charges = left[AMOUNTS_SHOWN:hour_numbers]
            left = left[hour_numbers:]
            for coordinator, charge in zip(area.coordinators, hour_charges):
                total += charge
                if charge != 0:
                    lines.append(
                        "%d %d %d %d" % (area.number, coordinator, hour_ending, charge)
                    )
    lines.append("total %d" % total)
    return "\n".join(lines) + "\n"


# The figures to hold

# Document 02, §1: hour 3 of Case P has one price of twelve.
CASE_P = "refused 16 89\n"


def case_p():
    """Case P word by word: 807 words, all zero and every price missing, but in hour 3."""
    words = [1, 20260504, 1, PEAK_WORD, 7, 7, 800, 0, 1, 0, 0, 0, 1, 1, 12]
    hour = [0] * 8 + [0, MISSING] * 12 + [0]
    third = [40000] + [0] * 5 + [60000, 0] + [1000, 250000] + [0, MISSING] * 11 + [0]
    words += hour * 2 + third + hour * 21
    assert len(words) == 807
    return struct.pack("<807i", *words)


def tier_figures():
    """T1 to T5: the figure's name, Q, U and its tier, in MW as the document writes them."""
    table = (
        ("T1", "600", "10.000", 1),
        ("T1", "600", "10.001", 2),
        ("T2", "600", "300.000", 2),
        ("T2", "600", "300.001", 3),
        ("T3", "2000", "20.000", 1),
        ("T3", "2000", "20.001", 2),
        ("T4", "10", "8.000", 1),
        ("T4", "10", "10.001", 3),
        ("T5", "1000.050", "10.000", 1),
        ("T5", "1000.050", "10.001", 2),
    )
    for name, Q, U, due in table:
        yield "%s Q %s U %s" % (name, Q, U), due, tier(Fraction(U), Fraction(Q))


# The numbers of an hour and of a day with one coordinator.
HOUR_OF_ONE = AMOUNTS_SHOWN + 1
DAY_OF_ONE = HOURS * HOUR_OF_ONE


def on_peak_figures():
    """T6 and T7 in the statement of a whole day file: the amount, and the S and the credit that are
    shown beside it (document 02, §4).

    M 120, hubs 80.00 and 95.50, d 3, day tier 2. Hour ending 7 has the 120 MW, hour ending 8
    fails in tier 1, hours ending 9 to 11 pass at the three prices.
    """
    import days

    area = days.quiet_area(number=7, kind=0, load_points=1, coordinators=[12])
    area.persistent_days, area.hub_a, area.hub_b = 3, 8000, 9550
    for hour in area.hours:
        hour.requirement = 600000
        hour.pairs = [(1000, 0)] * 12
    area.hours[6].energy_up = 120000
    area.hours[7].spin = 10000
    for passed, dollars in ((8, 60), (9, 130), (10, -5)):
        area.hours[passed].pairs = [(1000, 10000 * dollars)] * 12
    file_bytes = days.Day(20260504, PEAK_WORD, [area]).to_bytes()
    number, place, statement = settle(file_bytes, [0] * DAY_OF_ONE)
    assert (number, place) == (0, 0)
    starts = range(0, DAY_OF_ONE, HOUR_OF_ONE)
    # The on-peak amount, S and the credit.
    shown = [(statement[at], statement[at + 3], statement[at + 4]) for at in starts]
    yield "T6 a failed hour", (1475475, 1475475, 0), shown[6]
    yield "T6 a failed hour of tier 1", (1475475, 1475475, 0), shown[7]
    yield "T7 a passed hour at 60", (755475, 1475475, 720000), shown[8]
    yield "T7 a passed hour at 130", (0, 1475475, 1560000), shown[9]
    yield "T7 a passed hour at -5", (1535475, 1475475, -60000), shown[10]
    yield "an hour outside peak hours", (0, 0, 0), shown[5]


def off_peak_figures():
    """Document 02, §2, in the statement of a whole day file: U 40 MW, Q 60, price 25 and d 5."""
    import days

    area = days.quiet_area(number=7, kind=0, load_points=1, coordinators=[12])
    area.persistent_days = 5
    hour = area.hours[2]
    hour.energy_up, hour.requirement, hour.pairs = 40000, 60000, [(1000, 250000)] * 12
    file_bytes = days.Day(20260504, PEAK_WORD, [area]).to_bytes()
    number, place, statement = settle(file_bytes, [0] * DAY_OF_ONE)
    found = (number, place, statement[2 * HOUR_OF_ONE + 1])
    yield "U 40, Q 60, price 25, d 5", (0, 0, 210000), found


def record_figures():
    """Document 02, §3: four entries from the empty record, with days skipped between them, and what
    the record then counts on days further on. Hour ending 3 fails off-peak in tier 3, so that the
    off-peak amount tells d: $2,000.00 at d 0, as in document 02, §2, and $20.00 more for each day.
    """
    import days

    def day_of(date, upward):
        area = days.quiet_area(number=7, kind=0, load_points=1, coordinators=[12])
        area.persistent_days = 30
        hour = area.hours[2]
        hour.energy_up, hour.requirement, hour.pairs = upward, 60000, [(1000, 250000)] * 12
        return days.Day(date, PEAK_WORD, [area]).to_bytes()

    record = [0] * RECORD_WORDS
    # The first, third and fourth are marked; 10 MW is tier 1.
    upward = {20240228: 40000, 20240229: 10000, 20240301: 10001, 20240303: 40000}
    for date in upward:
        number, place, record = enter(record, day_of(date, upward[date]))
        assert (number, place) == (0, 0)
    held = [20240303, 1, 7, 0b10101] + [0] * 14
    yield "the record after 4 entries", held, record
    # 28 February is the thirtieth day before 29 March, 3 March the thirtieth before 2 April.
    for date, d in ((20240304, 3), (20240329, 3), (20240330, 2), (20240402, 1), (20240403, 0)):
        number, place, statement = settle_recorded(record, day_of(date, 40000), [0] * DAY_OF_ONE)
        due = (0, 0, 200000 + 2000 * d)
        yield "d %d on %d" % (d, date), due, (number, place, statement[2 * HOUR_OF_ONE + 1])


def day_after_case_p():
    """The day after Case P with every price: U 40, Q 60, price 25 and d 0 in hour ending 3."""
    import days

    area = days.quiet_area(number=7, kind=0, load_points=1, coordinators=[12])
    hour = area.hours[2]
    hour.energy_up, hour.requirement, hour.pairs = 40000, 60000, [(1000, 250000)] * 12
    return days.Day(20260505, PEAK_WORD, [area]).to_bytes()


def room_for_two(behind):
    """A book without days, and room for Case P and the day after it."""
    return struct.pack("<2i", 1, 0) + bytes(4 * (6 + 2 * 807)) + behind


def month_figures():
    """Document 02, §5: Case P and the day after it in one book, added in the other order. Case P is
    refused with 16 and leaves its part as it was, the day after it has its part behind that. Then Case P
    is withdrawn.
    """
    day_after = day_after_case_p()
    behind = bytes([165]) * 30
    room = room_for_two(behind)
    for file_bytes in (day_after, case_p()):
        number, place, room = add_day(room, file_bytes)
        assert (number, place) == (0, 0)
    contents = (1, 2, 20260504, 8, 807, 20260505, 815, 807)
    yield "the contents of two days", contents, book_words(room)[:8]
    yield "their files in order", True, room[4 * 8 :] == case_p() + day_after + behind

    number, place, statement, table = settle_month(room, [-1] * 300, [-1] * 3)
    yield "the table of the month", (0, 0, [16000089, 0, -1]), (number, place, table)
    off_peak_amounts = statement[2 * HOUR_OF_ONE + 1 : 2 * DAY_OF_ONE : DAY_OF_ONE]
    yield "hour ending 3 of each day, off-peak", [-1, 200000], off_peak_amounts
    yield "what is behind the parts", [-1] * 12, statement[2 * DAY_OF_ONE :]
    _, _, _, table = settle_month(room, [-1] * 143, [-1] * 2)
    yield "the table, a number short of the first day", [13000144, 13000144], table

    number, place, room = withdraw_day(room, 20260504)
    contents = (0, 0, (1, 1, 20260505, 5, 807))
    yield "the contents of one day", contents, (number, place, book_words(room)[:5])
    yield "its file, freed words", True, room[4 * 5 :] == day_after + bytes(4 * 810) + behind


def set_amounts(hour, upward, downward):
    """Failures for which an area with d 0 pays so many cents in an hour outside peak hours: upward 50 MW
    in tier 3, downward 100 MW, each at a price of so many hundredths of a cent. 0 is no failure."""
    if upward != 0:
        hour.energy_up, hour.requirement = 50000, 60000
        hour.pairs = [(1000, upward)] * len(hour.pairs)
    if downward != 0:
        hour.regulation_down, hour.mec = 100000, downward


def payout_day():
    """A day of five areas, the last with flag 0, and its basis: 1 for each area and hour, but 0 in hour
    ending 1."""
    import days

    areas = [
        days.quiet_area(number, kind=0, load_points=1, coordinators=[12], pair=(1000, 0))
        for number in (7, 9, 11, 13, 15)
    ]
    first, second, third, fourth, fifth = areas
    fifth.flag = 0
    # Hour ending 1 collects 100 cents and the areas that pass have no basis. Hour ending 3 collects the
    # same of the first, hour ending 4 -100 cents of the second.
    set_amounts(first.hours[0], 100, 0)
    set_amounts(first.hours[2], 100, 0)
    set_amounts(second.hours[3], 0, -100)
    # Hour ending 5: 5 MW downward neither pay nor pass. Hour ending 6: nobody passes.
    set_amounts(second.hours[4], 0, -100)
    first.hours[4].energy_down = 5000
    set_amounts(second.hours[5], 0, -100)
    for area in (first, third, fourth):
        area.hours[5].energy_down = 1
    # The fourth fails in hour ending 7 with 40 MW in tier 3, at $1.00: S is $80.00 in every peak hour.
    # At $0.50 the credit of hour ending 8 is $20.00.
    fourth.hub_a = fourth.hub_b = 100
    fourth.hours[6].energy_up, fourth.hours[6].requirement = 40000, 60000
    fourth.hours[7].pairs = [(1000, 5000)] * 12
    return days.Day(20260504, PEAK_WORD, areas).to_bytes(), ([0] + 23 * [1]) * 5


def payout_figures():
    """Document 02, §7: for an hour and direction the payments of the five areas, and the rest."""
    file_bytes, basis = payout_day()
    number, place, payments = pay_out(file_bytes, basis, [-1] * 290)
    yield "number and place of the payments", (0, 0), (number, place)

    def of_hour(hour_ending, direction):
        return payments[2 * (hour_ending - 1) + direction : 288 : 2 * HOURS]

    for name, hour_ending, direction, due in (
        ("100 cents, a basis of 0", 1, UPWARD, [0, 0, 0, 0, 0, 100]),
        ("nothing collected", 2, UPWARD, [0, 0, 0, 0, 0, 0]),
        ("100 cents over 1, 1, 1", 3, UPWARD, [0, 33, 34, 33, 0, 0]),
        ("-100 cents over 1, 1, 1", 4, DOWNWARD, [-33, 0, -34, -33, 0, 0]),
        ("-100 cents, and 5 MW that do not pass", 5, DOWNWARD, [0, 0, -50, -50, 0, 0]),
        ("-100 cents, and nobody passes", 6, DOWNWARD, [0, 0, 0, 0, 0, -100]),
        ("$80.00 in the hour that failed", 7, UPWARD, [2667, 2666, 2667, 0, 0, 0]),
        ("$60.00 of one that pays and passes", 8, UPWARD, [1500, 1500, 1500, 1500, 0, 0]),
        ("$80.00 of one that pays and passes", 22, UPWARD, [2000, 2000, 2000, 2000, 0, 0]),
    ):
        yield name, due, of_hour(hour_ending, direction)
    # 200 cents off-peak, 15 times $80.00 and once $60.00, and three times -100 cents.
    yield "payments and rests together", 125900, sum(payments[:288])
    yield "what is behind them", [-1, -1], payments[288:]
    _, _, statement = settle(file_bytes, [0] * (5 * DAY_OF_ONE))
    yield "the charges together", 125900, sum(statement[AMOUNTS_SHOWN::HOUR_OF_ONE])

    for name, due, lent_basis, room in (
        ("a basis of 119 numbers", (23, 0, True), basis[:119], 0),
        ("10,000,001 with that of flag 0", (23, 0, True), basis[:96] + [9999997] * 24, 288),
        ("a room of 287", (24, 288, True), basis, 287),
    ):
        number, place, payments = pay_out(file_bytes, lent_basis, [-1] * room)
        yield name, due, (number, place, payments == [-1] * room)


def in_calendar(word):
    """Whether YYYYMMDD is a date of Python's own calendar."""
    try:
        date_of(word)
    except ValueError:
        return False
    return True


def date_figures():
    """Document 02, §6: every year from 1999 to 2100 with every month, and the numbers beside them."""
    year_of_days = [month * 100 + day for month in range(14) for day in range(33)]
    words = [year * 10000 + rest for year in range(1999, 2101) for rest in year_of_days]
    due = [word for word in words if 2000 <= word // 10000 <= 2099 and in_calendar(word)]
    found = [word for word in words if is_date(word)]
    yield "the dates of 2000 to 2099", (36525, True), (len(found), found == due)


def downward_figures():
    """T8 and T9."""
    yield "T8 W 10.000 at -100", 0, downward(Fraction("10.000"), Fraction(-100))
    yield "T8 W 10.001 at -100", -100010, downward(Fraction("10.001"), Fraction(-100))
    yield "T9 W 12.500 at -0.01", -13, downward(Fraction("12.5"), Fraction("-0.01"))
    yield "T9 W 12.500 at +40", 0, downward(Fraction("12.5"), Fraction(40))


def call_figures():
    """T10 by the price call, T11 and T12 by the sharing call."""
    pairs = [(100000, 300000), (300000, 500000)] + [(100000, MISSING)] * 10
    pair_words = [word for pair in pairs for word in pair]
    yield "T10", (0, 0, 450000, 2), price(struct.pack("<24i", *pair_words))
    table = (
        ("T11 100 cents over 1, 1, 1", 100, (1, 1, 1), [33, 34, 33]),
        ("T11 the first two merged", 100, (2, 1), [67, 33]),
        ("T11 -100 cents", -100, (1, 1, 1), [-33, -34, -33]),
        ("T12 1 cent over 1, 0, 1", 1, (1, 0, 1), [1, 0, 0]),
    )
    for name, amount, demands, due in table:
        rows = [(coordinator + 1, demand) for coordinator, demand in enumerate(demands)]
        yield name, (0, 0, due), share(amount, rows, [0] * len(rows))


def rounding_figures():
    """R(-12.5) = -13, and R in whole numbers: (2a + b) / 2b without its remainder for a >= 0."""
    yield "R(-12.5)", -13, R(Fraction(-25, 2))
    fractions = [(a, b) for a in range(200) for b in range(1, 40)]
    due = [(2 * a + b) // (2 * b) for a, b in fractions]
    found = [R(Fraction(a, b)) for a, b in fractions]
    yield "R in whole numbers, a >= 0", True, found == due
    found = [R(Fraction(-a, b)) for a, b in fractions]
    yield "R in whole numbers, a < 0", True, found == [-value for value in due]


def main():
    arguments.parser_of(__doc__).parse_args()
    wrong = 0
    for figures in (
        rounding_figures,
        tier_figures,
        on_peak_figures,
        off_peak_figures,
        record_figures,
        month_figures,
        date_figures,
        payout_figures,
        downward_figures,
        call_figures,
    ):
        for name, due, found in figures():
            right = due == found
            wrong += not right
            print("%s: %s%s" % (name, found, "" if right else ", and not %s" % (due,)))
    printed = program(case_p())
    wrong += printed != CASE_P
    print("Case P prints\n%s" % printed, end="")
    if wrong:
        sys.exit("%d of the figures are off." % wrong)


if __name__ == "__main__":
    main()
