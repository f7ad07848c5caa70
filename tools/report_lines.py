"""What explain8080 prints, read into named numbers, and its sums held against its totals.

docs/EXPLAIN.md says what the lines hold. Lines that are not so, whose sums are off, or whose amounts
contradict what a sentence of the page would say, raise a Fault: nothing of the kind is laid out.
"""

import re
from types import SimpleNamespace

import report_words as words

HOURS = 24
INTERVALS_OF_A_LOAD_POINT = 12
PEAK_WORD = 4194240

# m of each tier, in quarters (RULES.md, section 3).
QUARTERS_OF_TIER = (0, 0, 5, 8)

# W must be above 10 MW, in thousandths (RULES.md, section 6).
DOWNWARD_FLOOR = 10000

# How far the on-peak amount may be from S less the credit as they are shown (RULES.md, section 9).
CENTS_APART = 1

# The fields of each kind of line, in their order: the name in the header, and the name here.
FIELDS = {
    "day": (
        ("trading day", "trading_day"),
        ("areas", "areas"),
        ("peak word", "peak_word"),
    ),
    "area": (
        ("area", "number"),
        ("kind", "kind"),
        ("flag", "flag"),
        ("d", "persistent_days"),
        ("hub price A (cents)", "hub_a"),
        ("hub price B (cents)", "hub_b"),
        ("greater hub price (cents)", "greater_hub"),
        ("load points", "load_points"),
        ("coordinators", "coordinator_count"),
        ("day tier", "day_tier"),
        ("M (0.001 MW)", "highest_upward"),
        ("m (quarters)", "quarters"),
    ),
    "hour": (
        ("area", "area"),
        ("hour ending", "ending"),
        ("U (0.001 MW)", "upward"),
        ("Q (0.001 MW)", "requirement"),
        ("tier", "tier"),
        ("peak", "peak"),
        ("price needed", "price_needed"),
        ("price ($0.0001)", "price"),
        ("intervals with a price", "present"),
        ("m (quarters)", "quarters"),
        ("S (cents)", "surcharge"),
        ("credit (cents)", "credit"),
        ("on-peak (cents)", "on_peak"),
        ("off-peak (cents)", "off_peak"),
        ("W (0.001 MW)", "downward_deficiency"),
        ("MEC ($0.0001)", "mec"),
        ("downward (cents)", "downward"),
        ("A (cents)", "amount"),
        ("T (0.001 MWh)", "demand"),
    ),
    "interval": (
        ("area", "area"),
        ("hour ending", "ending"),
        ("interval", "interval"),
        ("quantity (0.001 MWh)", "quantity"),
        ("price ($0.0001)", "price"),
    ),
    "charge": (
        ("area", "area"),
        ("coordinator", "coordinator"),
        ("hour ending", "ending"),
        ("demand (0.001 MWh)", "demand"),
        ("charge (cents)", "charge"),
    ),
    "area-total": (
        ("area", "area"),
        ("on-peak (cents)", "on_peak"),
        ("off-peak (cents)", "off_peak"),
        ("downward (cents)", "downward"),
        ("charges (cents)", "charges"),
    ),
    "coordinator-total": (
        ("coordinator", "coordinator"),
        ("charges (cents)", "charges"),
    ),
    "day-total": (
        ("on-peak (cents)", "on_peak"),
        ("off-peak (cents)", "off_peak"),
        ("downward (cents)", "downward"),
        ("charges (cents)", "charges"),
    ),
    "refused": (
        ("number", "number"),
        ("place", "place"),
        ("part", "part"),
        ("entry", "entry"),
        ("area", "area"),
        ("hour ending", "ending"),
        ("field", "field"),
        ("which", "which"),
        ("value", "value"),
        ("intervals with a price", "present"),
        ("intervals", "intervals"),
    ),
}

SETTLED = ("day", "area", "hour", "interval", "charge")
SETTLED += ("area-total", "coordinator-total", "day-total")
REFUSED = ("refused",)

# Fields that hold words, and the words that may stand for a number that is not there; None for both
# in what is read.
NAMES = {("refused", "part"), ("refused", "field")}
NO_NUMBER = {("hour", "price"): "none", ("interval", "price"): "missing"}

# The fields that have only a few values.
CHOICES = {
    ("day", "peak_word"): (0, PEAK_WORD),
    ("area", "kind"): (0, 1),
    ("area", "flag"): (0, 1),
    ("area", "load_points"): (1, 2),
    ("area", "day_tier"): (0, 1, 2, 3),
    ("hour", "tier"): (0, 1, 2, 3),
    ("hour", "peak"): (0, 1),
    ("hour", "price_needed"): (0, 1),
}

AMOUNTS = (("on_peak", "on-peak"), ("off_peak", "off-peak"), ("downward", "downward"))

# The longest are 64-bit.
WHOLE_NUMBER = re.compile("0|-?[1-9][0-9]{0,18}")


class Fault(Exception):
    """The lines are not those of explain8080, or do not add up."""


# Lines


class Lines:
    """The lines that are still to be read."""

    def __init__(self, text):
        if text and not text.endswith("\n"):
            raise Fault("the last line is cut off.")
        self.rows = [line.split("\t") for line in text.split("\n")[:-1]]
        self.at = 0

    def next_is(self, *start):
        return self.at < len(self.rows) and self.rows[self.at][: len(start)] == list(start)

    def take(self, due):
        if self.at == len(self.rows):
            raise Fault("the lines end where %s is due." % due)
        self.at += 1
        return self.rows[self.at - 1]

    def fault(self, text):
        return Fault("line %d: %s" % (self.at, text))

    def take_header(self, kind):
        due = "the header of the kind %s" % kind
        if self.take(due) != ["header", kind] + [name for name, _ in FIELDS[kind]]:
            raise self.fault("%s, as docs/EXPLAIN.md has it, is due here." % due)

    def take_kind(self, kind):
        """The header of a kind, and all its lines."""
        self.take_header(kind)
        records = [self.record(kind, self.take("a line of the kind %s" % kind))]
        while self.next_is(kind):
            records.append(self.record(kind, self.take(kind)))
        return records

    def record(self, kind, row):
        fields = FIELDS[kind]
        if row[0] != kind or len(row) != 1 + len(fields):
            raise self.fault("a line of the kind %s with %d fields is due." % (kind, len(fields)))
        record = SimpleNamespace()
        for (name, attribute), text in zip(fields, row[1:]):
            setattr(record, attribute, self.value(kind, name, attribute, text))
        return record

    def value(self, kind, name, attribute, text):
        if (kind, attribute) in NAMES:
            return text
        if NO_NUMBER.get((kind, attribute)) == text:
            return None
        if not WHOLE_NUMBER.fullmatch(text):
            raise self.fault("%s is '%s', and a whole number is due." % (name, text))
        value = int(text)
        if value not in CHOICES.get((kind, attribute), (value,)):
            raise self.fault("%s cannot be %d." % (name, value))
        return value

    def end(self):
        if self.at < len(self.rows):
            self.at += 1
            raise self.fault("the lines go on after their last one.")


def read(text):
    """The day, with areas, hours, intervals and charges in their places, or the refusal."""
    lines = Lines(text)
    kinds = REFUSED if lines.next_is("header", "refused") else SETTLED
    records = {kind: lines.take_kind(kind) for kind in kinds}
    lines.end()
    if kinds == REFUSED:
        return only(records, "refused")
    day = day_of(records)
    check_sums(day)
    return day


def only(records, kind):
    if len(records[kind]) != 1:
        raise Fault("there is more than one line of the kind %s." % kind)
    return records[kind][0]


def is_refused(read_lines):
    return hasattr(read_lines, "place")


# A day put together


def day_of(records):
    day = only(records, "day")
    try:
        day.date = words.date_of(day.trading_day)
    except ValueError:
        raise Fault("the trading day %d is no date." % day.trading_day) from None
    numbers = [area.number for area in records["area"]]
    expect("area", [day.areas] + numbers, [len(numbers)] + sorted(set(numbers)))
    day.areas = records["area"]
    hand_out_hours(day.areas, records["hour"])
    hand_out_intervals(day.areas, records["interval"])
    hand_out_charges(day.areas, records["charge"])
    hand_out_totals(day, records)
    return day


def expect(what, found, due):
    """Asks that the lines of a kind are all there, and in their order."""
    if found != due:
        raise Fault("the lines of the kind %s are not all there, each in its place." % what)


def hours_of(areas):
    return [(area, hour) for area in areas for hour in area.hours]


def hand_out_hours(areas, records):
    due = [(area.number, ending) for area in areas for ending in range(1, HOURS + 1)]
    expect("hour", [(hour.area, hour.ending) for hour in records], due)
    for place, area in enumerate(areas):
        area.hours = records[HOURS * place : HOURS * (place + 1)]


def hand_out_intervals(areas, records):
    due = []
    left = list(reversed(records))
    for area, hour in hours_of(areas):
        count = INTERVALS_OF_A_LOAD_POINT * area.load_points
        due += [(area.number, hour.ending, interval) for interval in range(1, count + 1)]
        hour.intervals = [left.pop() for _ in range(min(count, len(left)))]
        hour.missing = [each.interval for each in hour.intervals if each.price is None]
    expect("interval", [(each.area, each.ending, each.interval) for each in records], due)


def hand_out_charges(areas, records):
    due = []
    left = list(reversed(records))
    for area, hour in hours_of(areas):
        hour.charges = [left.pop() for _ in range(min(area.coordinator_count, len(left)))]
        add_up_demands(hour.charges)
        if hour.ending == 1:
            area.coordinators = [each.coordinator for each in hour.charges]
        due += [(area.number, number, hour.ending) for number in area.coordinators]
    expect("charge", [(each.area, each.coordinator, each.ending) for each in records], due)


def add_up_demands(charges):
    """The demand up to and with each coordinator, which shares go by (RULES.md, section 8)."""
    demand_so_far = 0
    for each in charges:
        demand_so_far += each.demand
        each.demand_so_far = demand_so_far


def hand_out_totals(day, records):
    expect(
        "area-total",
        [total.area for total in records["area-total"]],
        [area.number for area in day.areas],
    )
    for area, total in zip(day.areas, records["area-total"]):
        area.total = total
    named = dict.fromkeys(number for area in day.areas for number in area.coordinators)
    day.coordinators = records["coordinator-total"]
    expect("coordinator-total", [total.coordinator for total in day.coordinators], list(named))
    day.total = only(records, "day-total")


# Sums


def check_sums(day):
    for area, hour in hours_of(day.areas):
        check_hour(area, hour)
    for area in day.areas:
        check_area(area)
    check_coordinators(day)
    check_day(day)


def same(where, what, total, parts, write=words.dollars):
    """Asks that parts add up to the total that the program printed."""
    added = sum(parts)
    if total != added:
        text = "%s: %s is %s, and what it is the sum of adds up to %s."
        raise Fault(text % (where, what, write(total), write(added)))


def check_hour(area, hour):
    where = "area %d, hour ending %d" % (area.number, hour.ending)
    same(where, "A, by its amounts,", hour.amount, [getattr(hour, name) for name, _ in AMOUNTS])
    same(where, "A, by its charges,", hour.amount, [each.charge for each in hour.charges])
    same(where, "T", hour.demand, [each.demand for each in hour.charges], words.quantity)
    present = [1 for each in hour.intervals if each.price is not None]
    same(where, "the number of intervals with a price", hour.present, present, str)
    check_price(where, area, hour)
    for contradiction in contradictions(area, hour):
        raise Fault("%s: %s." % (where, contradiction))
    if area.kind:
        check_shares(where, hour)


def check_price(where, area, hour):
    """A price is needed where something is multiplied by it (RULES.md, section 7), and then there."""
    failed_on_peak = hour.peak and hour.tier
    multiplied = area.flag and hour.quarters and not failed_on_peak
    if bool(multiplied) != bool(hour.price_needed):
        raise Fault("%s: whether the price is needed does not go with the tier." % where)
    if hour.price_needed and hour.price is None:
        raise Fault("%s: the price is needed, and there is none." % where)


def contradictions(area, hour):
    """What of an hour's amounts goes against the rules by which its sentence tells them. Each is asked
    for only where those before it do not hold."""
    yield from where_nothing_is_due(area, hour)
    yield from on_peak_contradictions(area, hour)
    yield from off_peak_contradictions(hour)
    yield from downward_contradictions(hour)


def where_nothing_is_due(area, hour):
    """By sections 3 to 5 of RULES.md."""
    on_peak = any((hour.on_peak, hour.surcharge, hour.credit))
    if bool(hour.tier) != bool(hour.upward):
        yield "the tier is not that of U"
    if hour.quarters != QUARTERS_OF_TIER[area.day_tier if hour.peak else hour.tier]:
        yield "m is not that of the tier"
    if area.flag == 0 and (on_peak or hour.off_peak or hour.downward):
        yield "the EDAM flag is 0, and there is an amount, S or a credit"
    if hour.peak and hour.off_peak:
        yield "it is a peak hour, and there is an off-peak amount"
    if not hour.peak and on_peak:
        yield "it is no peak hour, and there is an on-peak amount, S or a credit"
    if hour.quarters == 0 and (on_peak or hour.off_peak):
        yield "m is 0, and there is an on-peak or off-peak amount, S or a credit"


def on_peak_contradictions(area, hour):
    """By sections 4 and 9 of RULES.md."""
    if hour.tier and hour.credit:
        yield "the tier is %d, and there is a credit" % hour.tier
    if min(hour.on_peak, hour.surcharge) < 0:
        yield "the on-peak amount or S is below 0"
    if hour.surcharge and area.greater_hub <= 0:
        yield "the greater hub price is not above 0, and there is an S"
    if abs(hour.on_peak - max(0, hour.surcharge - hour.credit)) > CENTS_APART:
        yield "the on-peak amount is more than a cent from S less the credit"


def off_peak_contradictions(hour):
    """By section 5 of RULES.md."""
    if hour.off_peak < 0:
        yield "the off-peak amount is below 0"
    if hour.off_peak and hour.price <= 0:
        yield "the price is not above 0, and there is an off-peak amount"


def downward_contradictions(hour):
    """By section 6 of RULES.md."""
    if hour.downward > 0:
        yield "the downward amount is above 0"
    if hour.downward and hour.downward_deficiency <= DOWNWARD_FLOOR:
        yield "W is not above 10 MW, and there is a downward amount"
    if hour.downward and hour.mec >= 0:
        yield "MEC is not below 0, and there is a downward amount"


def check_shares(where, hour):
    """The charges of a CISO hour, as the page says that they come about (RULES.md, section 8)."""
    if hour.amount and hour.demand == 0:
        raise Fault("%s: there is an amount to share, and T is 0." % where)
    charged = 0
    for each in hour.charges:
        charged += each.charge
        due = rounded(hour.amount * each.demand_so_far, hour.demand) if hour.amount else 0
        if charged != due:
            text = "%s: the charges up to that of coordinator %d are %s, and must be %s."
            texts = where, each.coordinator, words.dollars(charged), words.dollars(due)
            raise Fault(text % texts)


def rounded(numerator, denominator):
    """R: to the nearest whole number, halves away from zero (RULES.md, section 1)."""
    size = (2 * abs(numerator) + denominator) // (2 * denominator)
    return -size if numerator < 0 else size


def check_area(area):
    where = "area %d" % area.number
    for attribute, name in AMOUNTS:
        parts = [getattr(hour, attribute) for hour in area.hours]
        same(where, "the %s total" % name, getattr(area.total, attribute), parts)
    amounts = [hour.amount for hour in area.hours]
    charges = [each.charge for hour in area.hours for each in hour.charges]
    same(where, "the total of the charges, by hours,", area.total.charges, amounts)
    same(where, "the total of the charges, one by one,", area.total.charges, charges)
    if area.greater_hub != max(area.hub_a, area.hub_b):
        raise Fault("%s: the greater hub price is neither of the two, or the other one." % where)
    check_day_tier(where, area)


def check_day_tier(where, area):
    """The day tier, M and m come from the peak hours (RULES.md, section 3)."""
    peak = [hour for hour in area.hours if hour.peak]
    if area.day_tier != max((hour.tier for hour in peak), default=0):
        raise Fault("%s: the day tier is not the highest tier of the peak hours." % where)
    if area.highest_upward != max((hour.upward for hour in peak), default=0):
        raise Fault("%s: M is not the highest U of the peak hours." % where)
    if area.quarters != QUARTERS_OF_TIER[area.day_tier]:
        raise Fault("%s: m is not that of the day tier." % where)


def check_coordinators(day):
    charges = {total.coordinator: [] for total in day.coordinators}
    for _, hour in hours_of(day.areas):
        for each in hour.charges:
            charges[each.coordinator].append(each.charge)
    for total in day.coordinators:
        where = "coordinator %d" % total.coordinator
        same(where, "the total of the charges", total.charges, charges[total.coordinator])


def check_day(day):
    for attribute, name in AMOUNTS:
        parts = [getattr(area.total, attribute) for area in day.areas]
        same("the day", "the %s total" % name, getattr(day.total, attribute), parts)
    by_area = [area.total.charges for area in day.areas]
    by_coordinator = [total.charges for total in day.coordinators]
    same("the day", "the total of the charges, by areas,", day.total.charges, by_area)
    same("the day", "the total of the charges, by coordinators,", day.total.charges, by_coordinator)
