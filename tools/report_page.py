"""The page of a day: one HTML file that needs nothing else, for a browser and for paper. It shows
what explain8080 printed; its own are only counts, and the demands added up one by one."""

import html
import re

import report_pictures as pictures
import report_sentences as sentences
import report_words as words
from report_style import STYLE

KINDS = ("other", "CISO")
FLAGS = ("not in EDAM", "in EDAM")
PEAK = ("off-peak", "on-peak")
YES = ("no", "yes")

LETTERS = (
    ("U", "the four upward deficiencies of an hour, added"),
    ("Q", "the upward imbalance reserve requirement of an hour"),
    (
        "tier",
        "0 where U is 0; 1 where U is at most 10 MW or at most one hundredth of Q; otherwise 2 where"
        " U is at most half of Q, and 3 where it is more",
    ),
    ("day tier, M", "the highest tier, and the highest U, of the peak hours"),
    ("m", "the multiplier of a tier: 1.25 for tier 2, 2.00 for tier 3"),
    ("d", "persistent days, which scale m by 1 + d/100"),
    ("P", "the greater of the two hub prices"),
    (
        "S",
        "M × P × m × (1 + d/100), and never below 0: the surcharge of a peak hour before its credit",
    ),
    (
        "credit",
        "M × the load-weighted price of a peak hour without an upward deficiency; other hours have"
        " none",
    ),
    (
        "price",
        "the load-weighted price of the hour: the sum of quantity × price over the sum of the same"
        " quantities, over the five-minute intervals that have a price, to $0.0001; an interval"
        " without a price is left out with its quantity",
    ),
    ("W", "the two downward deficiencies of an hour, added"),
    ("MEC", "the marginal energy cost of the hour"),
    ("A", "the on-peak, the off-peak and the downward amount of an hour, added"),
    ("T", "the metered demands of the hour, added"),
    (
        "rounding",
        "once, to the nearest cent, halves away from zero: each amount from what is exact; S and the"
        " credit, to be shown, each on its own",
    ),
)

# Beside the number of intervals with a price, where it is not all.
MISSING_MARK = "!"

# A table of no more rows than this is kept on one sheet of paper.
ROWS_OF_A_SHEET = 26


# Numbers in tables, where the column says the unit


def amount(cents):
    return words.with_minus_sign(words.amount(cents)) if cents else "0"


def quantity(value):
    return words.quantity(value) if value else "0"


def market_price(value):
    return "none" if value is None else words.with_minus_sign(words.market_price(value))


def multiplier(quarters):
    return words.multiplier(quarters) if quarters else "0"


# Pieces of HTML


def cell(content, css=""):
    """A number; a zero is written quietly."""
    names = [css] if css else []
    if content in ("0", "none"):
        names.append("none")
    return "<td%s>%s</td>" % (class_of(names), content)


def class_of(names):
    return ' class="%s"' % " ".join(names) if names else ""


def word(content):
    return '<td class="word">%s</td>' % content


def row_head(content):
    return '<th scope="row">%s</th>' % content


def row(cells, css=""):
    return "<tr%s>%s</tr>\n" % (class_of([css] if css else []), "".join(cells))


def column(name, unit="", css=""):
    note = " <small>%s</small>" % unit if unit else ""
    return '<th scope="col"%s>%s%s</th>' % (class_of([css] if css else []), name, note)


def table(caption, head_rows, body_rows, foot="", identifier="", css=""):
    """A table with its caption; the head is repeated on each sheet of paper."""
    name = ' id="%s"' % identifier if identifier else ""
    name += class_of([css] if css else [])
    foot = "<tfoot>%s</tfoot>\n" % foot if foot else ""
    return "<table%s>\n<caption>%s</caption>\n<thead>%s</thead>\n<tbody>\n%s</tbody>\n%s</table>\n" % (
        name,
        caption,
        "".join(head_rows),
        "".join(body_rows),
        foot,
    )


def kept_together(rows):
    return "together" if len(rows) <= ROWS_OF_A_SHEET else ""


def wide(label, content):
    """A box of its own, in which a wide table or picture is moved by hand or by keys."""
    box = '<div class="wide" role="group" aria-label="%s" tabindex="0">\n%s</div>\n'
    return box % (label, content)


def link(target, content):
    return '<a href="#%s">%s</a>' % (target, content)


def notice(texts):
    """A box that stands out."""
    return '<div class="notice">\n%s</div>\n' % "".join("<p>%s</p>\n" % text for text in texts)


def unbroken(text):
    """A text whose amounts below 0 are not broken behind their minus sign at the end of a line."""
    return re.sub("\N{MINUS SIGN}[$0-9,.]*[0-9]", '<span class="unbroken">\\g<0></span>', text)


def list_of(items):
    """Sentences, each as (identifier, text)."""
    texts = [
        "<li%s>%s</li>\n" % (' id="%s"' % name if name else "", unbroken(text))
        for name, text in items
    ]
    return '<ul class="sentences">\n%s</ul>\n' % "".join(texts)


def heading(level, content):
    return "<h%d>%s</h%d>\n" % (level, content, level)


def section(identifier, title, content, css=""):
    start = '<section id="%s"%s aria-labelledby="%s-title">\n' % (
        identifier,
        class_of([css] if css else []),
        identifier,
    )
    return '%s<h2 id="%s-title">%s</h2>\n%s</section>\n' % (start, identifier, title, content)


def area_name(area):
    return "area-%d" % area.number


def hour_name(area, part, hour):
    """The name of a part of an hour, which no other part of the page has."""
    return "area-%d-%s-%d" % (area.number, part, hour.ending)


def area_and_hour(hour):
    return "area %d, hour ending %d" % (hour.area, hour.ending)


# The whole


def document(title, body):
    return (
        '<!DOCTYPE html>\n<html lang="en">\n<head>\n<meta charset="utf-8">\n'
        '<meta name="viewport" content="width=device-width, initial-scale=1">\n'
        '<meta name="color-scheme" content="light dark">\n'
        '<title>%s</title>\n<link rel="icon" href="data:,">\n<style>%s</style>\n</head>\n'
        "<body>\n%s</body>\n</html>\n" % (title, STYLE + sheet_foot(title), body)
    )


def sheet_foot(title):
    """The title at the foot of each sheet of paper; the style has the sheet's number beside it."""
    return '@page { @bottom-left { content: "%s"; } }\n' % title


def settled(day):
    body = [
        '<a class="skip" href="#day">Skip to the totals</a>\n',
        head(day),
        contents(day),
        "<main>\n",
        section("day", "The day", day_totals(day) + missing_of_day(day) + charged_hours(day)),
        section("areas", "Areas", areas_table(day)),
        section("coordinators", "Coordinators", coordinators_table(day)),
    ]
    body += [area_section(area) for area in day.areas]
    body += [section("letters", "What the letters mean", letters()), "</main>\n", foot()]
    return document("Charge code 8080, %s" % words.written_date(day.date), "".join(body))


def refused(what, look):
    """A short page with the refusal's sentence, and what to do."""
    box = notice((html.escape(what), "<strong>What to do.</strong> " + html.escape(look)))
    body = (
        '<main>\n<p class="code">Charge code 8080: resource sufficiency surcharges</p>\n'
        "<h1>Nothing of this day is settled</h1>\n<p>The day file is refused.</p>\n%s"
        "<p>No number of the statement is written, and nobody is charged for any hour of the day. What"
        " explain8080 prints of a refused file does not name its trading day.</p>\n"
        "<p>One refusal is given at a time: mend it and run again, and a second fault shows up then."
        " What each number means is in docs/REFUSALS.md.</p>\n</main>\n" % box
    )
    return document("Charge code 8080: refused", body)


def head(day):
    peak = "the hours ending 7 to 22 are peak hours" if day.peak_word else "no peak hours"
    return (
        '<header>\n<p class="code">Charge code 8080: resource sufficiency surcharges</p>\n'
        "<h1>%s, %s</h1>\n<p>%s; %s.</p>\n</header>\n"
        % (
            words.weekday(day.date),
            words.written_date(day.date),
            words.counted(len(day.areas), "area"),
            peak,
        )
    )


def contents(day):
    links = [("day", "The day"), ("areas", "Areas"), ("coordinators", "Coordinators")]
    links += [(area_name(area), "Area %d" % area.number) for area in day.areas]
    links.append(("letters", "What the letters mean"))
    items = ["<li>%s</li>\n" % link(*each) for each in links]
    return '<nav aria-label="Contents">\n<ul>\n%s</ul>\n</nav>\n' % "".join(items)


def foot():
    return (
        "<footer>\n<p>Each number is one that explain8080 printed, or a count or a sum of such, as the"
        " demand so far is; every total was held against what it is the sum of. docs/RULES.md has the"
        " rules, docs/EXPLAIN.md the numbers.</p>\n</footer>\n"
    )


# The day


def total_box(name, cents, css=""):
    return "<div%s><dt>%s</dt><dd>%s</dd></div>\n" % (
        class_of([css] if css else []),
        name,
        sentences.money(cents),
    )


def day_totals(day):
    boxes = total_box("on-peak", day.total.on_peak)
    boxes += total_box("off-peak", day.total.off_peak)
    boxes += total_box("downward", day.total.downward)
    boxes += total_box("charges", day.total.charges, "whole")
    return '<dl class="totals">\n%s</dl>\n' % boxes


def charged_hours(day):
    """Where the charges are, at a glance."""
    if not any(sentences.is_charged(hour) for area in day.areas for hour in area.hours):
        return "<p>No hour of any area is charged.</p>\n"
    return '<div class="charts">\n%s</div>\n' % chart(
        "The hours in which something is charged, by area", pictures.charged_hours(day)
    )


def missing_of_day(day):
    """Where prices are missing, so that it is seen before the day is signed: first the hours on whose
    price an amount rests, a charge before one that came to 0, and then the others."""
    hours = [(area, hour) for area in day.areas for hour in area.hours if hour.missing]
    if not hours:
        return "<p>Every five-minute interval has a price.</p>\n"
    charged, nothing, idle = [], [], []
    for area, hour in hours:
        by_price = hour.on_peak if hour.peak else hour.off_peak
        group = idle if not hour.price_needed else charged if by_price else nothing
        group.append((area, hour))
    return notice(missing_texts(charged, nothing, idle))


def missing_texts(charged, nothing, idle):
    """A text for each group of hours that there is."""
    if charged:
        lead = "A charge rests on" if len(charged) == 1 else "Charges rest on"
        yield missing_text(lead, charged)
    if nothing:
        lead = "An amount that came to $0.00 rests on"
        yield missing_text(lead if len(nothing) == 1 else "Amounts that came to $0.00 rest on", nothing)
    if idle:
        lead = "Missing too" if charged or nothing else "Prices are missing"
        yield "%s, but no amount rests on them: %s." % (lead, missing_places(idle))


def missing_text(lead, hours):
    what = "an hour" if len(hours) == 1 else "hours"
    return "<strong>%s %s with missing prices:</strong> %s." % (lead, what, missing_places(hours))


def missing_places(hours):
    """The hours by area and by how many of their prices are missing."""
    endings = {}
    for area, hour in hours:
        missing = area_name(area), area.number, len(hour.missing), len(hour.intervals)
        endings.setdefault(missing, []).append(hour.ending)
    return "; ".join(
        "%s, %s (%d of %d missing%s)"
        % (
            link("%s-intervals" % name, "area %d" % number),
            words.hours_ending(of_these),
            missing,
            count,
            "" if len(of_these) == 1 else " in each",
        )
        for (name, number, missing, count), of_these in endings.items()
    )


def hub_cell(price, greater):
    written = words.with_minus_sign(words.amount(price))
    if price == greater:
        return cell("<b>%s</b><small>P</small>" % written, "hub")
    return cell("%s<small></small>" % written, "hub")


def areas_table(day):
    columns = (
        column("area"),
        column("kind", css="word"),
        column("flag", css="word"),
        column("d"),
        column("hub price A", "$/MWh"),
        column("hub price B", "$/MWh"),
        column("day tier"),
        column("M", "MW"),
        column("m"),
        column("on-peak", "$"),
        column("off-peak", "$"),
        column("downward", "$"),
        column("charges", "$"),
    )
    rows = [row(area_cells(area)) for area in day.areas]
    whole = [row_head("day"), '<td colspan="8"></td>']
    whole += total_cells(day.total)
    caption = "The areas in file order, and their totals; P marks the greater hub price"
    return wide("Areas", table(caption, [row(columns)], rows, row(whole)))


def total_cells(total):
    return [
        cell(amount(total.on_peak)),
        cell(amount(total.off_peak)),
        cell(amount(total.downward)),
        cell(amount(total.charges)),
    ]


def area_cells(area):
    cells = [
        row_head(link(area_name(area), area.number)),
        word(KINDS[area.kind]),
        word(FLAGS[area.flag]),
        "<td>%d</td>" % area.persistent_days,
        hub_cell(area.hub_a, area.greater_hub),
        hub_cell(area.hub_b, area.greater_hub),
        "<td>%d</td>" % area.day_tier,
        cell(quantity(area.highest_upward)),
        cell(multiplier(area.quarters)),
    ]
    return cells + total_cells(area.total)


def coordinators_table(day):
    areas = {total.coordinator: [] for total in day.coordinators}
    for area in day.areas:
        for number in area.coordinators:
            areas[number].append(link(area_name(area), area.number))
    rows = [
        row(
            [
                row_head(total.coordinator),
                word(words.listed(areas[total.coordinator])),
                cell(amount(total.charges)),
            ]
        )
        for total in day.coordinators
    ]
    head_row = row([column("coordinator"), column("area", css="word"), column("charges", "$")])
    whole = row([row_head("day"), "<td></td>", cell(amount(day.total.charges))])
    caption = "What each coordinator is charged in all areas together"
    return wide("Coordinators", table(caption, [head_row], rows, whole))


def letters():
    pairs = ["<dt>%s</dt><dd>%s</dd>\n" % pair for pair in LETTERS]
    return '<dl class="letters">\n%s</dl>\n' % "".join(pairs)


# An area


def area_section(area):
    parts = [
        facts(area),
        charts(area),
        hour_sentences(area),
        charges(area),
        hours_table(area),
        interval_prices(area),
    ]
    return section(area_name(area), "Area %d" % area.number, "".join(parts), "area")


def facts(area):
    """What the area's numbers mean for its day."""
    texts = [
        "Area %d is %s and has %s and %s."
        % (
            area.number,
            "the CISO area (kind 1)" if area.kind else "not CISO (kind 0)",
            words.counted(area.load_points, "load point"),
            words.counted(area.coordinator_count, "coordinator"),
        )
    ]
    if area.flag == 0:
        texts.append(
            "It does not take part in the extended day-ahead market (EDAM flag 0), so that every"
            " amount is 0."
        )
        return "<p>%s</p>\n" % unbroken(" ".join(texts))
    texts.append("It takes part in the extended day-ahead market (EDAM flag 1).")
    texts += [day_tier_fact(area), hub_fact(area), persistent_fact(area), surcharge_fact(area)]
    return "<p>%s</p>\n" % unbroken(" ".join(filter(None, texts)))


def day_tier_fact(area):
    """The day tier and M, and the hours that set them (RULES.md, section 3)."""
    peak = [hour for hour in area.hours if hour.peak]
    if not peak:
        return "The day has no peak hours, so that the day tier and M are 0."
    if area.day_tier == 0:
        return "No peak hour has an upward deficiency, so that the day tier and M are 0."
    setting = [hour.ending for hour in peak if hour.tier == area.day_tier]
    highest = [hour.ending for hour in peak if hour.upward == area.highest_upward]
    return (
        "The day tier, the highest tier of its peak hours, is %d (%s), and M, the highest U of its peak"
        " hours, is %s (%s)."
        % (
            area.day_tier,
            words.hours_ending(setting),
            sentences.power(area.highest_upward),
            words.hours_ending(highest),
        )
    )


def hub_fact(area):
    return "The hub prices are %s (A) and %s (B); P, the greater one, is %s." % (
        sentences.money(area.hub_a),
        sentences.money(area.hub_b),
        sentences.money(area.greater_hub),
    )


def persistent_fact(area):
    days = area.persistent_days
    scale = words.scale(days)
    return "d, the persistent days, is %d, which scales a multiplier by 1 + d/100 = %s." % (days, scale)


def surcharge_fact(area):
    """S, which is the same in every peak hour, with the names of its factors."""
    peak = [hour for hour in area.hours if hour.peak]
    if not peak:
        return ""
    if area.quarters == 0:
        return "On a day of tier 0 or 1 nothing is charged on-peak."
    product = sentences.surcharge_product(area)
    below = " is below 0, and S never is: it" if area.greater_hub < 0 else ""
    return (
        "m of the day tier is %s. S, the surcharge of each peak hour before its credit, is"
        " M × P × m × (1 + d/100) = %s%s = %s."
        % (words.multiplier(area.quarters), product, below, sentences.money(peak[0].surcharge))
    )


def chart(caption, picture, note=""):
    note = '<p class="note">%s</p>\n' % note if note else ""
    box = wide(caption, picture + "\n")
    return "<figure>\n<figcaption>%s</figcaption>\n%s%s</figure>\n" % (caption, box, note)


def charts(area):
    parts = []
    if any(sentences.is_charged(hour) for hour in area.hours):
        caption = "Amounts of area %d by hour" % area.number
        parts.append(chart(caption, pictures.amounts(area)))
    if any(hour.upward for hour in area.hours):
        caption = "U of area %d by hour against the lines between the tiers" % area.number
        note = (
            "The number on a bar is the tier of the hour. The scale is not even: from 1 MW on, each"
            " line of the grid is ten times the one below it."
        )
        parts.append(chart(caption, pictures.deficiencies(area), note))
    quiet = []
    if len(parts) < 2 and area.flag:
        quiet = ["<p>%s</p>\n" % text for text in quiet_facts(area)]
    boxes = '<div class="charts">\n%s</div>\n' % "".join(parts) if parts else ""
    return "".join(quiet) + boxes


def quiet_facts(area):
    """What stands in the place of a picture that would be empty."""
    if not any(sentences.is_charged(hour) for hour in area.hours):
        yield "No hour of this area is charged."
    if not any(hour.upward for hour in area.hours):
        yield "It has no upward deficiency: U is 0 in every hour."


def hour_sentences(area):
    charged, others = [], []
    for hour in area.hours:
        if sentences.has_sentence(area, hour):
            where = charged if sentences.is_charged(hour) else others
            where.append((hour_name(area, "hour", hour), sentences.hour_sentence(area, hour)))
    factors = sentences.factors(area)
    legend = '<p class="note">%s</p>\n' % factors if factors else ""
    text = ""
    for title, items in (("Hours that are charged", charged), ("Hours that come to nothing", others)):
        if items:
            text += heading(3, title) + legend + list_of(items)
            legend = ""  # it stands above the first list alone
    return text


# Charges


def charges(area):
    hours = [hour for hour in area.hours if any(each.charge for each in hour.charges)]
    if not hours:
        return ""
    text = heading(3, "Charges")
    if area.kind == 0:
        return text + one_coordinator(area, hours)
    # RULES.md, section 8.
    text += (
        "<p>A coordinator is charged A × C / T less A × C′ / T, each rounded to the cent, halves away"
        " from zero: C is the demand so far with its own, C′ without it. So the charges add up to A,"
        " and each is less than a cent from A × its demand / T.</p>\n"
    )
    tables = [shares(area, hour) for hour in hours]
    return text + '<div class="grid-of-shares">\n%s</div>\n' % "".join(tables)


def one_coordinator(area, hours):
    columns = [column("hour ending"), column("coordinator")]
    columns += [column("demand", "MWh"), column("charge", "$")]
    rows = []
    for hour in hours:
        for each in hour.charges:
            cells = [row_head(hour.ending), cell(each.coordinator), cell(quantity(each.demand))]
            rows.append(row(cells + [cell(amount(each.charge))]))
    whole = row([row_head("all"), '<td colspan="2"></td>', cell(amount(area.total.charges))])
    caption = "The one coordinator of area %d is charged the whole A of each hour" % area.number
    name = "%s-charges" % area_name(area)
    content = table(caption, [row(columns)], rows, whole, name, kept_together(rows))
    return wide("Charges of area %d" % area.number, content)


def shares(area, hour):
    columns = [column("coordinator"), column("demand", "MWh")]
    columns += [column("demand so far", "MWh"), column("charge", "$")]
    rows = [
        row(
            [
                row_head(each.coordinator),
                cell(quantity(each.demand)),
                cell(quantity(each.demand_so_far)),
                cell(amount(each.charge)),
            ]
        )
        for each in hour.charges
    ]
    whole = [row_head("T, A"), cell(quantity(hour.demand)), "<td></td>", cell(amount(hour.amount))]
    caption = unbroken(shares_caption(hour))
    # On paper the caption stands in the head instead, which each sheet repeats.
    on_paper = row(['<th scope="colgroup" colspan="%d">%s</th>' % (len(columns), caption)], "on-paper")
    name = hour_name(area, "shares", hour)
    label = "Shares of " + area_and_hour(hour)
    css = " ".join(filter(None, ["shares", kept_together(rows)]))
    return wide(label, table(caption, [on_paper, row(columns)], rows, row(whole), name, css))


def shares_caption(hour):
    return "%s: A %s over T %s MWh" % (
        area_and_hour(hour),
        sentences.money(hour.amount),
        words.quantity(hour.demand),
    )


# The 24 hours

GROUPS = (
    ("", (("hour ending", ""), ("peak", ""))),
    ("upward deficiency", (("U", "MW"), ("Q", "MW"), ("tier", ""), ("m", ""))),
    ("load-weighted price", (("needed", ""), ("price", "$/MWh"), ("intervals", ""))),
    ("on-peak", (("S", "$"), ("credit", "$"), ("amount", "$"))),
    ("off-peak", (("amount", "$"),)),
    ("downward", (("W", "MW"), ("MEC", "$/MWh"), ("amount", "$"))),
    ("hour", (("A", "$"), ("T", "MWh"))),
)


def hours_table(area):
    groups, columns = [], []
    for name, members in GROUPS:
        if name:
            groups.append('<th scope="colgroup" colspan="%d">%s</th>' % (len(members), name))
        else:
            groups.append('<td colspan="%d"></td>' % len(members))
        for place, (title, unit) in enumerate(members):
            first = "first" if name and place == 0 else ""
            columns.append(column(title, unit, first))
    rows = [row(hour_cells(area, hour), "peak" if hour.peak else "") for hour in area.hours]
    caption = "What the amounts of each hour of area %d come from" % area.number
    if any(hour.missing for hour in area.hours):
        caption += "; %s marks an hour with missing prices" % MISSING_MARK
    heads = [row(groups), row(columns)]
    hours = table(caption, heads, rows, row(whole_cells(area)), css="dense")
    return heading(3, "The 24 hours") + wide("The 24 hours of area %d" % area.number, hours)


def hour_cells(area, hour):
    ending = hour.ending
    if sentences.has_sentence(area, hour):
        ending = link(hour_name(area, "hour", hour), ending)
    return [
        row_head(ending),
        "<td>%s</td>" % PEAK[hour.peak],
        cell(quantity(hour.upward), "first"),
        cell(quantity(hour.requirement)),
        cell(str(hour.tier)),
        cell(multiplier(hour.quarters)),
        '<td class="first%s">%s</td>' % ("" if hour.price_needed else " none", YES[hour.price_needed]),
        cell(market_price(hour.price)),
        intervals_cell(hour),
        cell(amount(hour.surcharge), "first"),
        cell(amount(hour.credit)),
        cell(amount(hour.on_peak)),
        cell(amount(hour.off_peak), "first"),
        cell(quantity(hour.downward_deficiency), "first"),
        cell(market_price(hour.mec)),
        cell(amount(hour.downward)),
        cell(amount(hour.amount), "first"),
        cell(quantity(hour.demand)),
    ]


def intervals_cell(hour):
    """How many intervals have a price, with a mark where some have none."""
    count = "%d of %d" % (hour.present, len(hour.intervals))
    if not hour.missing:
        return "<td>%s</td>" % count
    return '<td class="missing">%s %s</td>' % (MISSING_MARK, count)


def whole_cells(area):
    total = area.total
    return [
        row_head("all"),
        '<td colspan="10"></td>',
        cell(amount(total.on_peak)),
        cell(amount(total.off_peak), "first"),
        '<td class="first" colspan="2"></td>',
        cell(amount(total.downward)),
        cell(amount(total.charges), "first"),
        "<td></td>",
    ]


# Interval prices


def interval_prices(area):
    shown = [hour for hour in area.hours if hour.price_needed or hour.missing]
    text = '<h3 id="%s-intervals">Interval prices</h3>\n' % area_name(area)
    if not shown:
        return text + "<p>No price of this area is needed, and none is missing.</p>\n"
    missing = [("", sentences.missing_sentence(hour)) for hour in shown if hour.missing]
    text += list_of(missing) if missing else "<p>No interval price of this area is missing.</p>\n"
    # An hour without any price has nothing to be drawn.
    drawn = [hour_prices(area, hour) for hour in shown if hour.present]
    if not drawn:
        return text
    text += (
        "<p>Each bar is the price of an interval, the dashed line the load-weighted price; a cross"
        " stands where the price is missing.</p>\n"
    )
    return text + '<div class="grid-of-hours">\n%s</div>\n' % "".join(drawn)


def hour_prices(area, hour):
    return '<figure class="hour-prices" id="%s">\n<figcaption>%s</figcaption>\n%s\n%s</figure>\n' % (
        hour_name(area, "prices", hour),
        prices_caption(hour),
        pictures.prices(hour),
        intervals_table(hour),
    )


def prices_caption(hour):
    texts = ["price %s" % ("none" if hour.price is None else sentences.price(hour.price))]
    texts.append("on %d of %d" % (hour.present, len(hour.intervals)))
    if hour.missing:
        texts.append("missing: %s" % words.listed_runs(hour.missing))
    if not hour.price_needed:
        texts.append("not needed")
    return "<b>%s</b>: %s" % (area_and_hour(hour), unbroken(", ".join(texts)))


def intervals_table(hour):
    rows = []
    for each in hour.intervals:
        cells = [row_head(each.interval), "<td>%s</td>" % words.quantity(each.quantity)]
        if each.price is None:
            cells.append('<td class="missing">missing</td>')
        else:
            cells.append("<td>%s</td>" % market_price(each.price))
        rows.append(row(cells))
    columns = [column("interval"), column("quantity", "MWh"), column("price", "$/MWh")]
    return "<details>\n<summary>the %d intervals in numbers</summary>\n%s</details>\n" % (
        len(hour.intervals),
        table(area_and_hour(hour), [row(columns)], rows),
    )
