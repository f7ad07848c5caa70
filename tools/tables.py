"""A day file as six tables that a spreadsheet opens, and back.

    day.csv           the trading day and its peak hours
    areas.csv         the areas
    coordinators.csv  the coordinators of each area
    hours.csv         the eight numbers of each hour
    intervals.csv     price and quantity of each interval
    demands.csv       the metered demand of each coordinator in each hour

Numbers stand in the units of the headers, exactly: a decimal number is turned into the words of the
file by its digits. `tables_of` and `file_of` are each other's inverse on every file that the check
accepts. What a table lacks is never filled in: an empty price is a missing price, and every other
field that is empty and every row that is absent is a fault.
"""

import csv
import io
import re
import sys
from collections import namedtuple
from itertools import zip_longest

sys.dont_write_bytecode = True  # running a tool leaves nothing behind in the repository

import days
import explanation
import reference
import report_words

# The faults that are told of a table.
MOST_FAULTS = 20

# What is repeated of a field in a message.
MOST_REPEATED = 40

COUNTS = {2: "two", 3: "three", 4: "four"}

# What names several rows.
PLURALS = {"hour ending": "hours ending", "interval": "intervals", "coordinator": "coordinators"}


class Faulty(Exception):
    """The faults of a table, each a text that says table and line."""

    def __init__(self, faults):
        super().__init__(faults)
        self.faults = faults


# Columns: each turns a word of the day file into the text of a field and back. A text that is not
# taken is a ValueError whose words say why.


class Measure:
    """A number in a unit, with so many decimals, from low to high in units of the day file."""

    def __init__(self, name, unit, decimals, low, high, may_be_missing=False):
        self.name = name
        self.header = "%s (%s)" % (name, unit) if unit else name
        self.unit = unit
        self.decimals = decimals
        self.low = low
        self.high = high
        self.may_be_missing = may_be_missing

    def text_of(self, word):
        if self.may_be_missing and word == reference.MISSING:
            return ""
        if self.decimals == 0:
            return str(word)
        whole, part = divmod(abs(word), 10**self.decimals)
        return "%s%d.%0*d" % ("-" if word < 0 else "", whole, self.decimals, part)

    def word_of(self, text):
        if text == "":
            if self.may_be_missing:
                return reference.MISSING
            raise ValueError("the %s is empty; only a price may be missing" % self.name)
        number = re.fullmatch(r"(-?)([0-9]{1,30})(?:\.([0-9]{1,30}))?", text)
        if number is None:
            raise ValueError(self.no_number(text))
        sign, whole, part = number.group(1), number.group(2), number.group(3) or ""
        if len(part) > self.decimals:
            raise ValueError("the %s %s %s" % (self.name, repeated(text), self.too_fine()))
        word = int(whole + part.ljust(self.decimals, "0"))
        if sign:
            word = -word
        if not self.low <= word <= self.high:
            raise ValueError(self.out_of_range(text, word))
        return word

    def no_number(self, text):
        what = "the %s '%s' is no number" % (self.name, repeated(text))
        if "," in text:
            return what + ": it has a comma; only a point before the decimals is taken"
        what += " written like %s" % self.text_of(min(self.high, 12 * 10**self.decimals))
        if self.may_be_missing:
            # A price that somebody knows must not be taken out because of how it is written.
            what += "; only a price that is not known is left empty"
        return what

    def out_of_range(self, text, word):
        what = "the %s %s is not %s" % (self.name, repeated(text), self.range())
        # The word of a missing price, taken to dollars or as it stands in the file.
        missing = (reference.MISSING, reference.MISSING * 10**self.decimals)
        if self.may_be_missing and word in missing:
            what += "; a price that is missing is an empty field"
        return what

    def too_fine(self):
        if self.decimals == 0:
            return "is no whole number"
        return "has more than %s decimals" % COUNTS[self.decimals]

    def range(self):
        low, high = (separated(end, self.decimals) for end in (self.low, self.high))
        return "%s to %s%s" % (low, high, " " + self.unit if self.unit else "")


class Choice:
    """One of a few words, in small letters or capitals."""

    def __init__(self, name, word_of_text):
        self.name = self.header = name
        self.word_of_text = word_of_text

    def text_of(self, word):
        return {its_word: text for text, its_word in self.word_of_text.items()}[word]

    def word_of(self, text):
        for due, word in self.word_of_text.items():
            if text.lower() == due.lower():
                return word
        due = " or ".join("'%s'" % due for due in self.word_of_text)
        raise ValueError("the %s '%s' is not %s" % (self.name, repeated(text), due))


class TradingDay:
    """A real date of the years 2000 to 2099."""

    name = header = "trading day"

    def text_of(self, word):
        return "%04d-%02d-%02d" % (word // 10000, word // 100 % 100, word % 100)

    def word_of(self, text):
        written = re.fullmatch(r"([0-9]{4})-([0-9]{2})-([0-9]{2})", text)
        if written is None:
            raise ValueError(
                "the trading day '%s' is not written like 2026-07-14" % repeated(text)
            )
        word = int("".join(written.groups()))
        if not reference.is_date(word):
            raise ValueError("the trading day %s is no real date of the years 2000 to 2099" % text)
        return word


def repeated(text):
    """What a message repeats of a field: its beginning, without characters that do not print."""
    shown = "".join(letter if letter.isprintable() else "?" for letter in text)
    return shown if len(shown) <= MOST_REPEATED else shown[:MOST_REPEATED] + ".."


def separated(word, decimals):
    """An end of a range, in whole units and with commas, as docs/FORMAT.md writes it."""
    whole = abs(word) // 10**decimals
    return "%s%s" % ("-" if word < 0 else "", format(whole, ","))


def deficiency(name):
    return Measure(name, "MW", 3, 0, days.MOST_DEFICIENCY)


def market_price(name, may_be_missing=False):
    most = days.MOST_MARKET_PRICE
    return Measure(name, "$/MWh", 4, -most, most, may_be_missing)


def hub_price(name):
    return Measure(name, "$/MWh", 2, -days.MOST_HUB_PRICE, days.MOST_HUB_PRICE)


AREA = Measure("area", "", 0, 1, days.LARGEST_NUMBER)
COORDINATOR = Measure("coordinator", "", 0, 1, days.LARGEST_NUMBER)
HOUR_ENDING = Measure("hour ending", "", 0, 1, days.HOURS)
REQUIREMENT, MEC = explanation.HOUR_FIELDS[6:]

# The tables in the order in which they are read. The first `keys` columns name a row: no two rows
# have the same, and the rows of a day file stand in their rising order.
Table = namedtuple("Table", "name keys columns")

DAY = Table(
    "day.csv",
    0,
    (
        TradingDay(),
        Choice("peak hours", {"hours ending 7 to 22": days.PEAK_WORD, "none": 0}),
    ),
)
AREAS = Table(
    "areas.csv",
    1,
    (
        AREA,
        Choice("kind", {"CISO": 1, "other": 0}),
        Choice("EDAM flag", {"yes": 1, "no": 0}),
        Measure("persistent days", "", 0, 0, 30),
        hub_price("hub price A"),
        hub_price("hub price B"),
        Measure("load points", "", 0, 1, 2),
    ),
)
COORDINATORS = Table("coordinators.csv", 2, (AREA, COORDINATOR))
HOURS = Table(
    "hours.csv",
    2,
    (AREA, HOUR_ENDING)
    + tuple(deficiency(name) for name in explanation.HOUR_FIELDS[:6])
    + (Measure(REQUIREMENT, "MW", 3, 0, days.MOST_REQUIREMENT), market_price(MEC)),
)
# The price stands before the quantity: of a last column some spreadsheets write empty fields without
# their comma, and a row that is cut off could not be told from one whose price is missing.
INTERVALS = Table(
    "intervals.csv",
    3,
    (
        AREA,
        HOUR_ENDING,
        Measure("interval", "", 0, 1, 24),
        market_price("price", may_be_missing=True),
        Measure("quantity", "MWh", 3, 0, days.MOST_QUANTITY),
    ),
)
DEMANDS = Table(
    "demands.csv",
    3,
    (AREA, HOUR_ENDING, COORDINATOR, Measure("demand", "MWh", 3, 0, days.MOST_DEMAND)),
)
TABLES = (DAY, AREAS, COORDINATORS, HOURS, INTERVALS, DEMANDS)


# From a day file to tables


def tables_of(file_bytes):
    """The bytes of each table, by its name, of a file that the check accepts."""
    words = reference.words_of(file_bytes)
    areas = reference.areas_of(words)
    rows = {
        DAY: [(words[1], words[3])],
        AREAS: [area_row(area) for area in areas],
        COORDINATORS: [(area.number, number) for area in areas for number in area.coordinators],
        HOURS: [row for area in areas for row in hour_rows(area)],
        INTERVALS: [row for area in areas for row in interval_rows(area)],
        DEMANDS: [row for area in areas for row in demand_rows(area)],
    }
    return {table.name: table_bytes(table, rows[table]) for table in TABLES}


def area_row(area):
    load_points = len(area.hours[0].pairs) // 12
    return (area.number, area.kind, area.flag, area.days, *area.hub_prices, load_points)


def hour_rows(area):
    for ending, hour in enumerate(area.hours, 1):
        numbers = (*hour.upward, *hour.downward, hour.requirement, hour.mec)
        yield (area.number, ending, *numbers)


def interval_rows(area):
    for ending, hour in enumerate(area.hours, 1):
        for interval, (quantity, price) in enumerate(hour.pairs, 1):
            yield area.number, ending, interval, price, quantity


def demand_rows(area):
    for ending, hour in enumerate(area.hours, 1):
        for coordinator, demand in zip(area.coordinators, hour.demands):
            yield area.number, ending, coordinator, demand


def table_bytes(table, rows):
    lines = [[column.header for column in table.columns]]
    lines += [[column.text_of(word) for column, word in zip(table.columns, row)] for row in rows]
    return "".join(",".join(line) + "\n" for line in lines).encode("ascii")


# From tables to a day file. Rows are kept by their keys, in the order of their lines.

Row = namedtuple("Row", "line words")


def file_of(tables):
    """The day file that the tables make, each given as bytes by its name; raises Faulty with the
    faults of the first table that has one."""
    day = day_of(read(DAY, tables))
    areas = areas_of(read(AREAS, tables))
    coordinators = coordinators_of(read(COORDINATORS, tables), areas)
    hours = hours_of(read(HOURS, tables), areas)
    intervals = intervals_of(read(INTERVALS, tables), areas)
    demands = demands_of(read(DEMANDS, tables), coordinators)
    made = []
    for number in sorted(areas):
        made_hours = [
            made_hour(hours[number, ending], intervals[number, ending], demands[number, ending])
            for ending in endings()
        ]
        made.append(made_area(areas[number], coordinators[number], made_hours))
    return days.Day(*day, made).to_bytes()


def made_area(area, coordinators, hours):
    number, kind, flag, persistent_days, hub_a, hub_b, load_points = area
    made = days.Area(number, kind, load_points, coordinators, hours)
    made.flag, made.persistent_days = flag, persistent_days
    made.hub_a, made.hub_b = hub_a, hub_b
    return made


def made_hour(numbers, pairs, demands):
    made = days.Hour(pairs, demands)
    for name, number in zip(days.HOUR_NUMBERS, numbers):
        setattr(made, name, number)
    return made


def endings():
    return range(1, days.HOURS + 1)


# Faults


def said(table, line, what):
    """A fault, with its table and its line; line 0 where it is of no line."""
    return "%s, line %d: %s" % (table.name, line, what) if line else "%s: %s" % (table.name, what)


def stop_at(table, faults):
    """Ends the reading where there are faults: (line, what is wrong), told in the order of lines.
    Those of no line come last: a row that is absent often follows from a line that is wrong."""
    if not faults:
        return
    in_order = sorted(faults, key=lambda fault: (fault[0] == 0, fault[0]))
    told = [said(table, line, what) for line, what in in_order]
    if len(told) > MOST_FAULTS:
        more = "%s: and %d faults more" % (table.name, len(told) - MOST_FAULTS)
        told = told[:MOST_FAULTS] + [more]
    raise Faulty(told)


def named(table, key):
    """A row by its keys, as in: area 7, hour ending 3."""
    return rows_named(table, [(word,) for word in key]) if key else "the day"


def rows_named(table, numbers):
    """Rows by the numbers of each key, as in: area 7, hours ending 1 to 24, intervals 3 and 5."""
    names = []
    for column, of_column in zip(table.columns, numbers):
        name = column.name if len(of_column) == 1 else PLURALS[column.name]
        names.append("%s %s" % (name, report_words.listed_runs(of_column)))
    return ", ".join(names)


# A table: its text, its rows, the words of a row


def read(table, tables):
    """The rows of a table by their keys."""
    faults, rows = [], {}
    for line, fields in lines_of(table, tables[table.name]):
        try:
            words = words_of_line(table, fields)
        except ValueError as fault:
            faults.append((line, str(fault)))
            continue
        key = words[: table.keys]
        if key in rows:
            earlier = rows[key].line
            faults.append((line, "%s stands in line %d already" % (named(table, key), earlier)))
        else:
            rows[key] = Row(line, words)
    stop_at(table, faults)
    return rows


def text_of(table, table_bytes):
    """UTF-8, with or without the mark that spreadsheets write before it."""
    try:
        return table_bytes.decode("utf-8-sig")
    except UnicodeDecodeError as error:
        line = table_bytes[: error.start].count(b"\n") + 1
        raise Faulty([said(table, line, "this is not UTF-8")])


def lines_of(table, table_bytes):
    """The lines behind the header, each with its number; lines with nothing in any field are left
    out, as a spreadsheet may leave some at the end."""
    header, *lines = fields_of(table, text_of(table, table_bytes)) or [(1, [])]
    stop_at(table, [(1, what) for what in header_faults(table, header[1])])
    return [(line, fields) for line, fields in lines if any(fields)]


def fields_of(table, text):
    """The fields of each line, with its number: the first of those over which its fields go on."""
    lines = list(io.StringIO(text, newline=""))
    reader = csv.reader(lines, strict=True)
    found, first = [], 1
    try:
        for fields in reader:
            found.append((first, [field.strip() for field in fields]))
            first = reader.line_num + 1
    except csv.Error as error:
        raise Faulty([said(table, first, no_fields(lines[first - 1], error))])
    return found


def no_fields(line, error):
    """What is wrong with a line where reading ended, perhaps at a later one or at the end."""
    if line.count('"') % 2 == 1:
        return "a quotation mark is not closed"
    return "this is no line of fields: %s" % error


def header_faults(table, header):
    """Each column that has another name; where one is absent or too many, the first alone, since all
    behind it are moved."""
    due = [column.header for column in table.columns]
    if not any(header):
        return ["the header is not there; it must be: %s" % ",".join(due)]
    if len(header) == 1:
        return ["one column where %d are due: are the separators commas?" % len(due)]
    faults = [
        column_fault(place, name, name_due)
        for place, (name, name_due) in enumerate(zip_longest(header, due), 1)
        if name != name_due
    ]
    if len(header) == len(due):
        return faults
    return ["%d columns where %d are due: %s" % (len(header), len(due), faults[0])]


def column_fault(place, name, name_due):
    """Of a column that is not there, or of one that is not due, the name is None."""
    if name is None:
        return "column %d is not there, and must be '%s'" % (place, name_due)
    must = "not be there" if name_due is None else "be '%s'" % name_due
    return "column %d is '%s', and must %s" % (place, repeated(name), must)


def words_of_line(table, fields):
    count, due = len(fields), len(table.columns)
    if count != due:
        what = "%d field%s where %d are due" % (count, "" if count == 1 else "s", due)
        raise ValueError(what + "; is there a comma within a number?" if count > due else what)
    return tuple(column.word_of(field) for column, field in zip(table.columns, fields))


# What the tables say together


def day_of(rows):
    """The trading day and the peak word."""
    if not rows:
        stop_at(DAY, [(0, "no row for the day")])
    return rows[()].words


def areas_of(rows):
    """The words of each area by its number: one to eight, at most one of them CISO."""
    faults, ciso = [], None
    if not rows:
        faults.append((0, "no row for an area; a day has one to eight"))
    for place, row in enumerate(rows.values(), 1):
        if place > 8:
            faults.append((row.line, "area %d is one more than the eight of a day" % row.words[0]))
        if row.words[1] == 1:
            if ciso is not None:
                what = "area %d is CISO, and so is that of line %d; a day has one at most"
                faults.append((row.line, what % (row.words[0], ciso)))
            else:
                ciso = row.line
    stop_at(AREAS, faults)
    return {number: row.words for (number,), row in rows.items()}


def coordinators_of(rows, areas):
    """The coordinators of each area, rising: one, of the CISO area one to 64."""
    faults, found = [], {number: [] for number in areas}
    for (number, coordinator), row in rows.items():
        if number not in areas:
            faults.append((row.line, not_an_area(number)))
            continue
        found[number].append(coordinator)
        most = days.MOST_COORDINATORS if areas[number][1] == 1 else 1
        if len(found[number]) > most:
            faults.append((row.line, too_many_coordinators(number, most)))
    for number, coordinators in found.items():
        if not coordinators:
            faults.append((0, "no row for a coordinator of area %d" % number))
    stop_at(COORDINATORS, faults)
    return {number: sorted(coordinators) for number, coordinators in found.items()}


def not_an_area(number):
    return "area %d is not in %s" % (number, AREAS.name)


def too_many_coordinators(number, most):
    if most == 1:
        return "a second coordinator of area %d, whose kind is other; it has exactly one" % number
    return "a coordinator of area %d beyond the %d that it can have" % (number, most)


def nothing_more(*_):
    return ""


def hold_to(table, rows, due, why_not, why_due=nothing_more):
    """Faults of a table that has rows too many or lacks some. why_not says of a row, by its keys, why
    it is not due; why_due may say of rows that are absent, by area and third keys, why they are."""
    due_keys = set(due)
    surplus = {key: row for key, row in rows.items() if key not in due_keys}
    absent = [key for key in due if key not in rows]
    stop_at(table, surplus_faults(surplus, why_not) + absent_faults(table, absent, why_due))


def surplus_faults(surplus, why_not):
    """Rows that are not due for the same reason are told at the first: they have one cause."""
    lines = {}
    for key, row in surplus.items():
        lines.setdefault(why_not(*key), []).append(row.line)
    return [(first, why + the_same_in(len(more))) for why, (first, *more) in lines.items()]


def the_same_in(count):
    return "; the same in %s more" % report_words.counted(count, "line") if count else ""


def absent_faults(table, absent, why_due):
    """The hours of an area that lack the same rows are told together."""
    hours = {}
    for (number, ending), lacking in grouped(absent, lambda key: key[2:]).items():
        hours.setdefault((number, tuple(lacking)), []).append(ending)
    faults = []
    for (number, lacking), its_endings in hours.items():
        # The numbers of the third key; of hours.csv, which has two keys, there are none.
        third = list(zip(*lacking))
        what = no_rows(table, [(number,), its_endings, *third])
        faults.append((0, what + why_due(number, *third)))
    return faults


def no_rows(table, numbers):
    several = any(len(of_column) > 1 for of_column in numbers)
    return "no %s for %s" % ("rows" if several else "row", rows_named(table, numbers))


def hours_of(rows, areas):
    """The eight numbers of each hour, by area and hour ending."""
    due = [(number, ending) for number in sorted(areas) for ending in endings()]
    hold_to(HOURS, rows, due, lambda number, _: not_an_area(number))
    return {key: row.words[2:] for key, row in rows.items()}


def intervals_of(rows, areas):
    """The pairs of quantity and price of each hour in order, by area and hour ending."""
    greatest = greatest_intervals(rows)

    def why_not(number, _ending, _interval):
        if number not in areas:
            return not_an_area(number)
        area = areas[number]
        return "an interval above %d; %s" % (interval_count(area), why_so_many(area))

    def why_due(number, intervals):
        """Said where intervals beyond those in the table are due: the load points may be wrong."""
        beyond = intervals[-1] > greatest.get(number, 0)
        return "; " + why_so_many(areas[number]) if beyond else ""

    due = [
        (number, ending, interval)
        for number in sorted(areas)
        for ending in endings()
        for interval in range(1, interval_count(areas[number]) + 1)
    ]
    hold_to(INTERVALS, rows, due, why_not, why_due)
    return grouped(due, lambda key: pair_of(*rows[key].words))


def greatest_intervals(rows):
    """The greatest interval that stands in the table, of each area."""
    greatest = {}
    for number, _, interval in rows:
        greatest[number] = max(interval, greatest.get(number, 0))
    return greatest


def interval_count(area):
    """The intervals of an hour: 12 for each load point."""
    *_, load_points = area
    return 12 * load_points


def why_so_many(area):
    """As in: area 7 has 2 load points, so intervals 1 to 24 are due."""
    number, *_, load_points = area
    has = report_words.counted(load_points, "load point")
    return "area %d has %s, so intervals 1 to %d are due" % (number, has, interval_count(area))


def pair_of(_area, _ending, _interval, price, quantity):
    """A pair has the quantity first, as the day file has it."""
    return quantity, price


def demands_of(rows, coordinators):
    """The demands of each hour in the order of the coordinators, by area and hour ending."""

    def why_not(number, ending, coordinator):
        if number not in coordinators:
            return not_an_area(number)
        return "coordinator %d is not under area %d in %s" % (
            coordinator,
            number,
            COORDINATORS.name,
        )

    due = [
        (number, ending, coordinator)
        for number in sorted(coordinators)
        for ending in endings()
        for coordinator in coordinators[number]
    ]
    hold_to(DEMANDS, rows, due, why_not)
    lines = grouped(due, lambda key: rows[key])
    stop_at(DEMANDS, [fault for key in lines for fault in sum_faults(key, lines[key])])
    return grouped(due, lambda key: rows[key].words[3])


def sum_faults(key, rows):
    """The demands of an hour are together at most 100,000 MWh: the line that passes it."""
    running = 0
    for row in rows:
        running += row.words[3]
        if running > days.MOST_DEMAND:
            what = "with this demand those of %s are together above %s MWh"
            most = separated(days.MOST_DEMAND, 3)
            return [(row.line, what % (named(DEMANDS, key), most))]
    return []


def grouped(keys, value_of):
    """The values of the keys by area and hour ending, in the order of the keys."""
    found = {}
    for key in keys:
        found.setdefault(key[:2], []).append(value_of(key))
    return found
