"""The sentences of the reports: what a refusal says, what each hour's amounts come from, and which
intervals have no price. Every number in them is one of explain8080's."""

import report_words as words
from report_lines import DOWNWARD_FLOOR, PEAK_WORD, Fault

# What the rules allow (RULES.md, section 2).
MISSING = -2147483648
LEAST_BYTES, MOST_BYTES = 16, 65536
LEAST_BODY, MOST_BODY = 800, 2951
MOST_AREAS = 8
MOST_COORDINATORS = 64
MOST_NUMBER = 2147483647

HOW_MISSING_IS_WRITTEN = (
    "is %d, which is how a missing price is written; only an interval price may be missing, and this"
    % MISSING
)


# What a word may be: how the reader calls it, how its value is written, and what is allowed.


def with_commas(value):
    return format(value, ",")


def from_to(least, most):
    """16 to 65,536."""
    return "%s to %s" % (with_commas(least), with_commas(most))


def in_file(written, value):
    """A value in its unit, and the word itself, to be found in the file by."""
    return "%s (%d in the file)" % (written, value)


def megawatts(value):
    return in_file(words.quantity(value) + " MW", value)


def megawatt_hours(value):
    return in_file(words.quantity(value) + " MWh", value)


def hub_dollars(value):
    return in_file(words.dollars(value) + " a MWh", value)


def market_dollars(value):
    return in_file(words.market_dollars(value) + " a MWh", value)


NUMBER_RANGE = from_to(1, MOST_NUMBER)
BYTES_RANGE = from_to(LEAST_BYTES, MOST_BYTES)
DEFICIENCY = (megawatts, "0 to 2,500 MW")
HUB_PRICE = (hub_dollars, "-$2,000.00 to $2,000.00 a MWh")

RANGES = {
    "edition": ("the edition", str, "1"),
    "trading day": (
        "the trading day",
        str,
        "a real date of the years 2000 to 2099, written YYYYMMDD",
    ),
    "areas": ("the number of areas", str, from_to(1, MOST_AREAS)),
    "peak word": (
        "the peak word",
        str,
        "0 (no peak hours) or %d (the hours ending 7 to 22)" % PEAK_WORD,
    ),
    "area number": ("its area number", str, NUMBER_RANGE),
    "words": ("the length of its body in words", with_commas, from_to(LEAST_BODY, MOST_BODY)),
    "kind": ("its kind", str, "0 (any other area) or 1 (CISO)"),
    "flag": ("its EDAM flag", str, "0 or 1"),
    "persistent days": ("the number of its persistent days", str, "0 to 30"),
    "hub price A": ("its hub price A",) + HUB_PRICE,
    "hub price B": ("its hub price B",) + HUB_PRICE,
    "load points": ("the number of its load points", str, "1 or 2"),
    "coordinators": (
        "the number of its coordinators",
        str,
        from_to(1, MOST_COORDINATORS) + " in the CISO area and exactly 1 in any other",
    ),
    "coordinator": ("the number of its {which} coordinator", str, NUMBER_RANGE),
    "upward energy": ("the upward deficiency of energy",) + DEFICIENCY,
    "regulation up": ("the upward deficiency of regulation up",) + DEFICIENCY,
    "spin": ("the upward deficiency of spin",) + DEFICIENCY,
    "non-spin": ("the upward deficiency of non-spin",) + DEFICIENCY,
    "downward energy": ("the downward deficiency of energy",) + DEFICIENCY,
    "regulation down": ("the downward deficiency of regulation down",) + DEFICIENCY,
    "requirement": (
        "the upward imbalance reserve requirement Q",
        megawatts,
        "0 to 50,000 MW",
    ),
    "MEC": ("the marginal energy cost MEC", market_dollars, "-$2,000 to $2,000 a MWh"),
    "interval quantity": ("the quantity of interval {which}", megawatt_hours, "0 to 10,000 MWh"),
    "interval price": (
        "the price of interval {which}",
        market_dollars,
        "-$2,000 to $2,000 a MWh, or %d where it is missing" % MISSING,
    ),
    "demand": (
        "the metered demand of the {which} coordinator",
        megawatt_hours,
        "0 to 100,000 MWh",
    ),
}

# Fields whose `which` is a place in a list, and not a number of its own.
BY_ORDINAL = ("coordinator", "demand")

HOUR_NUMBERS = ("upward energy", "regulation up", "spin", "non-spin", "downward energy")
HOUR_NUMBERS += ("regulation down", "requirement", "MEC")
BODY_HEAD = ("kind", "flag", "persistent days", "hub price A", "hub price B", "load points")


def name_of(refusal):
    which = words.ordinal(refusal.which) if refusal.field in BY_ORDINAL else refusal.which
    return RANGES[refusal.field][0].format(which=which)


def value_of(refusal):
    return RANGES[refusal.field][1](refusal.value)


def out_of_range(refusal):
    """Name, value, and what is allowed."""
    allowed = RANGES[refusal.field][2]
    if refusal.value == MISSING:
        return "%s %s must be %s" % (name_of(refusal), HOW_MISSING_IS_WRITTEN, allowed)
    return "%s is %s, and must be %s" % (name_of(refusal), value_of(refusal), allowed)


# What is broken, by the field of the refusal


def broken_length(refusal):
    if refusal.value > MOST_BYTES:
        most = with_commas(MOST_BYTES)
        return "the file has more than %s bytes, and must have %s" % (most, BYTES_RANGE)
    return "the file has %s %s, and must have %s, a multiple of 4" % (
        with_commas(refusal.value),
        "byte" if refusal.value == 1 else "bytes",
        BYTES_RANGE,
    )


def broken_areas(refusal):
    if 1 <= refusal.value <= MOST_AREAS:
        return "the number of areas is %d, and the file is too short to hold %s of the contents" % (
            refusal.value,
            "an entry" if refusal.value == 1 else "%d entries" % refusal.value,
        )
    return out_of_range(refusal)


def broken_rising(before):
    """Of numbers that rise: the range, or the order where the range is kept."""

    def broken(refusal):
        if refusal.value < 1:
            return out_of_range(refusal)
        return "%s is %s, and must be greater than %s" % (name_of(refusal), value_of(refusal), before)

    return broken


def broken_first_word(refusal):
    if refusal.entry == 1:
        due = "behind the contents, at word 4 + 3 × the number of areas"
    else:
        due = "where the body before it ends"
    if refusal.value == MISSING:
        return "the first word of its body %s must be %s" % (HOW_MISSING_IS_WRITTEN, due)
    return "its body is said to begin at word %d, and must begin %s" % (refusal.value, due)


def broken_words(refusal):
    if not LEAST_BODY <= refusal.value <= MOST_BODY:
        return out_of_range(refusal)
    return (
        "its body is said to have %s words, which pass the end of the file or, for the last area, do"
        " not end with it" % with_commas(refusal.value)
    )


def broken_body_length(refusal):
    return (
        "its body has not the 7 + K + 24 × (8 + 24 L + K) words that its load points L and its"
        " coordinators K, %d here, make" % refusal.value
    )


def broken_kind(refusal):
    if refusal.value == 1:
        return "its kind is 1, CISO, and an area before it is CISO already; a file may have one"
    return out_of_range(refusal)


def broken_coordinators(refusal):
    if 2 <= refusal.value <= MOST_COORDINATORS:
        return (
            "the number of its coordinators is %d, and must be exactly 1, as its kind is 0"
            % refusal.value
        )
    return out_of_range(refusal)


def broken_sum(refusal):
    return (
        "the metered demands of the hour, added up in order, pass 100,000 MWh at that of the %s"
        " coordinator, which is %s" % (words.ordinal(refusal.which), value_of(refusal))
    )


def broken_quantities(refusal):
    under = "it" if refusal.present == 1 else "them"
    return "%s, but no quantity stands under %s" % (needed_and_present(refusal), under)


def broken_prices(refusal):
    least = refusal.intervals * 3 // 4
    return "%s; at least %d must be (three quarters)" % (needed_and_present(refusal), least)


def needed_and_present(refusal):
    """Why the price is needed (RULES.md, section 7), and how many prices it has."""
    return (
        "the price of this hour is needed (it is an off-peak hour of tier 2 or 3, or a peak hour"
        " without an upward deficiency on a day of tier 2 or 3), and %s of its %d five-minute prices"
        " %s there"
        % (refusal.present or "none", refusal.intervals, "is" if refusal.present <= 1 else "are")
    )


def broken_demands(refusal):
    return "the CISO area has an amount to share in this hour, and no coordinator has a demand"


def broken_room(refusal):
    return "the lent statement is too short: %s numbers are needed" % with_commas(refusal.value)


# Which rule a refusal names: by number, part and field.
BROKEN = {
    (1, "file", "bytes"): broken_length,
    (2, "head", "edition"): out_of_range,
    (3, "head", "areas"): broken_areas,
    (4, "head", "trading day"): out_of_range,
    (5, "head", "peak word"): out_of_range,
    (6, "contents", "area number"): broken_rising("that of the area before it"),
    (6, "contents", "first word"): broken_first_word,
    (6, "contents", "words"): broken_words,
    (6, "body", "coordinators"): broken_body_length,
    (7, "body", "coordinators"): broken_coordinators,
    (8, "body", "coordinator"): broken_rising("that of the one before it"),
    (9, "hour", "interval quantity"): out_of_range,
    (9, "hour", "interval price"): out_of_range,
    (9, "hour", "demand"): out_of_range,
    (10, "hour", "demand"): broken_sum,
    (11, "hour", "interval quantity"): broken_quantities,
    (12, "hour", "demand"): broken_demands,
    (13, "statement", "numbers needed"): broken_room,
    (16, "hour", "interval quantity"): broken_prices,
}
BROKEN.update({(7, "body", field): out_of_range for field in BODY_HEAD})
BROKEN.update({(9, "hour", field): out_of_range for field in HOUR_NUMBERS})
BROKEN[7, "body", "kind"] = broken_kind

# What to look at, as docs/REFUSALS.md has it.
LOOK_AT = {
    1: "Look at the file as a whole: empty, cut off, or not a day file. Compare its size with the"
    " source's.",
    2: "Look whether it is a day file at all, and whether it was written with the lowest byte first.",
    3: "Look at the number of areas, and whether the file is cut off.",
    4: "Look at the date: month and day swapped, 29 February in a year that has none, a date counted"
    " in days or seconds.",
    5: "Look at the peak word: only \"no peak hours\" and \"hours ending 7 to 22\" are known.",
    6: "Look at the entry: an area's number, its body's first word and its length stand there.",
    7: "Look at the area's master data.",
    8: "Look at the list of coordinators: one named twice, or not in rising order.",
    9: "Look at the number itself, its sign and its unit: a quantity in MW instead of thousandths, a"
    " price of a wrong scale, a missing value where only a price may be missing.",
    10: "Look at all demands of that hour, not at this one alone.",
    11: "Look at the hour's interval quantities.",
    12: "Look at the hour's metered demands.",
    13: "Look at the caller's room.",
    16: "Ask for the missing ones: a price that is filled in makes a charge that nobody owes."
    " tools/dayfile show FILE lists them: the empty prices of that hour in intervals.csv.",
}
LOOK_AT_BODY_LENGTH = "Look at load points, coordinators and the length of the body together."


def where(refusal):
    """The part of the file; nothing where the sentence itself says it."""
    if refusal.part == "contents" and refusal.field == "area number":
        return "entry %d of the contents: " % refusal.entry
    if refusal.part == "contents":
        return "entry %d of the contents, area %d: " % (refusal.entry, refusal.area)
    if refusal.part == "body":
        return "area %d: " % refusal.area
    if refusal.part == "hour":
        return "area %d, hour ending %d: " % (refusal.area, refusal.ending)
    return ""


def at_word(refusal):
    """The place of 1 and 13 is no word."""
    return "" if refusal.number in (1, 13) else " at word %d" % refusal.place


def broken(refusal):
    rule = refusal.number, refusal.part, refusal.field
    if rule not in BROKEN:
        raise Fault("there is no refusal of number %d, part '%s' and field '%s'." % rule)
    return "%s%s." % (where(refusal), BROKEN[rule](refusal))


def look_at(refusal):
    if (refusal.number, refusal.part) == (6, "body"):
        return LOOK_AT_BODY_LENGTH
    return LOOK_AT[refusal.number]


def refusal_sentences(refusal):
    """What is refused and why, and what to look at."""
    what = "Refused, number %d%s: %s" % (refusal.number, at_word(refusal), broken(refusal))
    return what, look_at(refusal)


# What the amounts of an hour come from. A number of these has a minus sign, for the page.


def power(value):
    return words.with_minus_sign(words.quantity(value)) + " MW"


def money(cents):
    return words.with_minus_sign(words.dollars(cents))


def price(value):
    return words.with_minus_sign(words.market_dollars(value))


def is_charged(hour):
    return any((hour.on_peak, hour.off_peak, hour.downward))


def has_sentence(area, hour):
    """Whether there is something to say: a deficiency, or an amount that is multiplied."""
    if area.flag == 0:
        return False
    return any((hour.upward, hour.downward_deficiency, hour.quarters))


def factors(area):
    """Which number of the sentences of an area is which, of the products that stand in them."""
    multiplied = [hour for hour in area.hours if hour.quarters]
    texts = []
    if any(hour.peak for hour in multiplied):
        texts.append("on-peak M × P × m × (1 + d/100) = S, and the credit M × price")
    if any(not hour.peak for hour in multiplied):
        texts.append("off-peak U × price × m × (1 + d/100)")
    if any(hour.downward_deficiency > DOWNWARD_FLOOR for hour in area.hours):
        texts.append("downward W × MEC")
    return "The factors stand in this order: %s." % "; ".join(texts) if texts else ""


def hour_sentence(area, hour):
    """What the amounts of an hour come from, by sections 4 to 6 of RULES.md."""
    upward = on_peak_part(area, hour) if hour.peak else off_peak_part(area, hour)
    parts = [part for part in (upward, downward_part(hour)) if part]
    text = "hour ending %d, %s" % (hour.ending, "; ".join(parts))
    if len(parts) > 1 and is_charged(hour):
        text += "; together A %s" % money(hour.amount)
    return text


def upward_of_requirement(hour):
    """What a tier comes from (RULES.md, section 3)."""
    return "U %s of Q %s" % (power(hour.upward), power(hour.requirement))


def hour_price(hour):
    """The load-weighted price; where intervals are missing, with the number that it rests on."""
    if not hour.missing:
        return price(hour.price)
    count = hour.present, len(hour.intervals)
    return "price %s (on %d of %d intervals)" % (price(hour.price), *count)


def on_peak_part(area, hour):
    if hour.quarters == 0 and hour.upward == 0:
        return ""
    if hour.quarters == 0:
        deficiency = upward_of_requirement(hour), hour.tier
        return "on-peak: day tier %d, nothing is charged (%s, tier %d)" % (area.day_tier, *deficiency)
    return "on-peak: day tier %d, %s, %s, %s" % (
        area.day_tier,
        surcharge_part(area, hour),
        credit_part(area, hour),
        charged_part(hour),
    )


def surcharge_product(area):
    """The numbers of M × P × m × (1 + d/100), in this order."""
    return "%s × %s × %s × %s" % (
        power(area.highest_upward),
        money(area.greater_hub),
        words.multiplier(area.quarters),
        words.scale(area.persistent_days),
    )


def surcharge_part(area, hour):
    product = "M " + surcharge_product(area)
    if area.greater_hub < 0:
        return "%s is below 0, so that S is %s" % (product, money(hour.surcharge))
    return "%s = S %s" % (product, money(hour.surcharge))


def credit_part(area, hour):
    if hour.tier != 0:
        return "no credit, as the hour has an upward deficiency itself (%s, tier %d)" % (
            upward_of_requirement(hour),
            hour.tier,
        )
    product = "%s × %s" % (power(area.highest_upward), hour_price(hour))
    return "credit %s = %s" % (product, money(hour.credit))


def charged_part(hour):
    less = hour.surcharge - hour.credit
    if less < 0:
        return "S less the credit is below 0, charged %s" % money(hour.on_peak)
    if less != hour.on_peak:
        return (
            "charged %s (S and the credit are shown rounded; the charge is rounded once, from their"
            " exact difference)" % money(hour.on_peak)
        )
    return "charged %s" % money(hour.on_peak)


def off_peak_part(area, hour):
    if hour.upward == 0:
        return ""
    tier = "off-peak: tier %d (%s)" % (hour.tier, upward_of_requirement(hour))
    if hour.quarters == 0:
        return "%s, nothing is charged" % tier
    product = "%s, U %s × %s × %s × %s" % (
        tier,
        power(hour.upward),
        hour_price(hour),
        words.multiplier(hour.quarters),
        words.scale(area.persistent_days),
    )
    if hour.price < 0:
        return "%s is below 0, charged %s" % (product, money(hour.off_peak))
    return "%s = %s" % (product, money(hour.off_peak))


def downward_part(hour):
    if hour.downward_deficiency == 0:
        return ""
    size = "downward: W %s" % power(hour.downward_deficiency)
    if hour.downward_deficiency <= DOWNWARD_FLOOR:
        return "%s is not above 10 MW, nothing is charged" % size
    product = "%s × MEC %s" % (size, price(hour.mec))
    if hour.mec > 0:
        return "%s is above 0, charged %s" % (product, money(hour.downward))
    return "%s = %s" % (product, money(hour.downward))


# Missing prices


def missing_sentence(hour):
    """Which intervals of an hour have no price, and what that does to the hour's price."""
    return "hour ending %d: %s; %s" % (hour.ending, missing_intervals(hour), rests_on(hour))


def missing_intervals(hour):
    count = len(hour.intervals)
    if len(hour.missing) == 1:
        return "interval %d of %d is missing" % (hour.missing[0], count)
    return "intervals %s of %d are missing" % (words.listed_runs(hour.missing), count)


def rests_on(hour):
    if not hour.price_needed:
        return "the price of this hour is not needed, and no amount rests on it"
    kind = "on-peak" if hour.peak else "off-peak"
    return "the price rests on the other %d, and the %s amount on that price" % (hour.present, kind)
