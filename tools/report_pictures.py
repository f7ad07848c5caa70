"""The pictures of the page, as SVG that stands in it: the amounts of an area by hour, its upward
deficiencies against the lines between the tiers, and the interval prices of an hour.

Colours come from the page's style, by class. What is told by colour is told by a pattern, a mark or
a word too. Places on the paper are worked out to a tenth; no number of the statement is."""

import math

import report_sentences as sentences
import report_words as words
from report_lines import AMOUNTS, HOURS

# The paper of the two pictures of an area.
WIDTH, HEIGHT = 560, 236
LEFT, RIGHT, TOP, BOTTOM = 72, 8, 16, 34
LINE_NAMES = 46  # room at the right for the names of the lines between the tiers
BAR_PART = 0.72  # of the room of an hour

# A bar that is there is never thinner than this, and there is some room below zero where it is below.
LEAST_BAR = 1.5
LEAST_STEPS_DOWN = 0.2

# Names of lines stand at least so far from one another.
NAME_DISTANCE = 11

TIER_FLOOR = 10000  # 10 MW, in thousandths (RULES.md, section 3)
ONE_MEGAWATT = 1000


def at(value):
    """A place on the paper, to a tenth, without a needless point."""
    text = "%.1f" % value
    return text[:-2] if text.endswith(".0") else text


def picture(width, height, label, parts, css):
    return '<svg class="%s" viewBox="0 0 %d %d" role="img" aria-label="%s">%s</svg>' % (
        css,
        width,
        height,
        label.replace('"', "'"),
        "".join(parts),
    )


def text(x, y, content, css="", anchor="middle"):
    shape = ' class="%s"' % css if css else ""
    place = "" if anchor == "start" else ' text-anchor="%s"' % anchor
    return '<text x="%s" y="%s"%s%s>%s</text>' % (at(x), at(y), shape, place, content)


def line(x1, y1, x2, y2, css):
    return '<path class="%s" d="M%s %sL%s %s"/>' % (css, at(x1), at(y1), at(x2), at(y2))


def block(x, y1, y2, width):
    """A bar as a part of a path, between two heights."""
    return "M%s %sV%sH%sV%sZ" % (at(x), at(y1), at(y2), at(x + width), at(y1))


def path(css, shapes, fill=""):
    if not shapes:
        return ""
    style = ' fill="%s"' % fill if fill else ""
    return '<path class="%s" d="%s"%s/>' % (css, "".join(shapes), style)


# What the pictures of 24 hours have in common


class Paper:
    """The room of 24 hours, beside one another."""

    def __init__(self, right, height=HEIGHT):
        self.left, self.right = LEFT, WIDTH - right
        self.top, self.bottom = TOP, height - BOTTOM
        self.slot = (self.right - self.left) / HOURS

    def start(self, ending):
        """Where the hour begins."""
        return self.left + self.slot * (ending - 1)

    def middle(self, ending):
        return self.start(ending) + self.slot / 2

    def bar(self, ending, y1, y2):
        """A bar of an hour from the height of zero; thin, but there, where the number is small."""
        if abs(y2 - y1) < LEAST_BAR:
            y2 = y1 + LEAST_BAR if y2 > y1 else y1 - LEAST_BAR
        width = BAR_PART * self.slot
        return block(self.middle(ending) - width / 2, y1, y2, width)

    def peak_hours(self, hours):
        """The peak hours as a ground behind the bars, with their name."""
        peak = [hour.ending for hour in hours if hour.peak]
        if not peak:
            return []
        start, end = self.start(peak[0]), self.start(peak[-1] + 1)
        ground = path("ground", [block(start, self.top, self.bottom, end - start)])
        return [ground, text((start + end) / 2, self.top - 5, "peak hours", "small")]

    def hour_names(self):
        names = [
            text(self.middle(ending), self.bottom + 12, ending, "small")
            for ending in range(1, HOURS + 1)
        ]
        return names + [text(self.right, self.bottom + 27, "hour ending", "small", "end")]

    def grid(self, y, name):
        shown = text(self.left - 6, y + 3.5, name, "small", "end")
        return line(self.left, y, self.right, y, "grid") + shown


# The three amounts, told apart by a pattern each


def patterns(name):
    """The patterns of a picture: off-peak is striped and downward dotted; on-peak is filled."""
    return [stripes("stripes-" + name, "off-peak"), dots("dots-" + name, "downward")]


def stripes(name, css):
    return (
        '<defs><pattern id="%s" width="5" height="5" patternUnits="userSpaceOnUse"'
        ' patternTransform="rotate(45)"><path class="%s soft" d="M0 0H5V5H0Z"/>'
        '<path class="%s" d="M0 0H2.2V5H0Z"/></pattern></defs>' % (name, css, css)
    )


def dots(name, css):
    return (
        '<defs><pattern id="%s" width="4" height="4" patternUnits="userSpaceOnUse">'
        '<path class="%s soft" d="M0 0H4V4H0Z"/><circle class="%s" cx="2" cy="2" r="1.1"/></pattern>'
        "</defs>" % (name, css, css)
    )


def of_kind(attribute, shapes, name):
    """Shapes of one kind of amount, in its pattern."""
    if attribute == "on_peak":
        return path("on-peak edge", shapes)
    if attribute == "off_peak":
        return path("off-peak edge", shapes, "url(#stripes-%s)" % name)
    return path("downward edge", shapes, "url(#dots-%s)" % name)


def key(paper, hours, name):
    """Which pattern is which, of the kinds that are there."""
    parts, x, y = [], paper.left, paper.bottom + 27
    for attribute, kind in AMOUNTS:
        if any(getattr(hour, attribute) for hour in hours):
            parts.append(of_kind(attribute, [block(x, y - 9, y, 12)], name))
            parts.append(text(x + 17, y, kind, "small", "start"))
            x += 34 + 5 * len(kind)
    return parts


def charged_label(area):
    """The hours of an area that are charged, in words."""
    texts = []
    for attribute, kind in AMOUNTS:
        endings = [hour.ending for hour in area.hours if getattr(hour, attribute)]
        if endings:
            texts.append("%s in the %s" % (kind, words.hours_ending(endings)))
    return "area %d %s" % (area.number, ", ".join(texts) if texts else "in no hour")


# The day at a glance

ROW, LEAST_HEIGHT = 17, TOP + BOTTOM


def charged_hours(day):
    """A row for each area, with a mark in each hour that is charged: upward above, downward below."""
    height = LEAST_HEIGHT + ROW * len(day.areas)
    paper = Paper(RIGHT, height)
    parts = patterns("day") + paper.peak_hours(day.areas[0].hours)
    shapes = {attribute: [] for attribute, _ in AMOUNTS}
    for place, area in enumerate(day.areas):
        top = paper.top + ROW * place
        parts.append(text(paper.left - 6, top + 12, area.number, "small", "end"))
        parts.append(line(paper.left, top + ROW, paper.right, top + ROW, "grid"))
        for hour in area.hours:
            x = paper.middle(hour.ending) - 6.5
            for attribute in ("on_peak", "off_peak"):
                if getattr(hour, attribute):
                    shapes[attribute].append(block(x, top + 2, top + 9, 13))
            if hour.downward:
                shapes["downward"].append(block(x, top + 10.5, top + 15, 13))
    parts += [of_kind(attribute, shapes[attribute], "day") for attribute, _ in AMOUNTS]
    parts += paper.hour_names()
    parts += key(paper, [hour for area in day.areas for hour in area.hours], "day")
    label = "Hours that are charged: %s." % "; ".join(charged_label(area) for area in day.areas)
    return picture(WIDTH, height, label, parts, "chart")


# Amounts by hour


def round_step(most):
    """A step of 1, 2 or 5 and zeros, of which at most five make up a number above 0."""
    step = 1
    while True:
        for digit in (1, 2, 5):
            if 5 * digit * step >= most:
                return digit * step
        step *= 10


def amounts_label(area):
    texts = []
    for attribute, name in AMOUNTS:
        each = [
            "%s in the hour ending %d" % (sentences.money(getattr(hour, attribute)), hour.ending)
            for hour in area.hours
            if getattr(hour, attribute)
        ]
        if each:
            texts.append("%s %s" % (name, words.listed(each)))
    return "The amounts of area %d by hour: %s." % (area.number, "; ".join(texts))


def amounts(area):
    """The three amounts of each hour: on-peak and off-peak above zero, downward below."""
    paper = Paper(RIGHT)
    name = str(area.number)
    highest = max(0, *(hour.on_peak + hour.off_peak for hour in area.hours))
    lowest = min(0, *(hour.downward for hour in area.hours))
    step = round_step(highest - lowest)
    steps_up = -(-highest // step)
    # Below zero only as much room as is needed, and a little where there is little.
    steps_down = max(-lowest / step, LEAST_STEPS_DOWN) if lowest else 0
    room = (paper.bottom - paper.top) / (steps_up + steps_down)

    def height(cents):
        return paper.top + room * (steps_up - cents / step)

    parts = patterns(name) + paper.peak_hours(area.hours)
    for count in range(-int(steps_down), steps_up + 1):
        parts.append(paper.grid(height(count * step), axis_dollars(count * step, step)))
    for attribute, _ in AMOUNTS:
        parts.append(of_kind(attribute, bars_of(paper, area, attribute, height), name))
    parts.append(line(paper.left, height(0), paper.right, height(0), "zero"))
    parts += paper.hour_names() + key(paper, area.hours, name)
    return picture(WIDTH, HEIGHT, amounts_label(area), parts, "chart")


def bars_of(paper, area, attribute, height):
    return [
        paper.bar(hour.ending, height(0), height(getattr(hour, attribute)))
        for hour in area.hours
        if getattr(hour, attribute)
    ]


def axis_dollars(cents, step):
    """Whole dollars where the steps are whole dollars."""
    written = sentences.money(cents)
    return written[:-3] if step % 100 == 0 else written


# Upward deficiencies


def steps_of(thousandths):
    """The height on a scale on which each MW counts for less than the one before: 0 at 0 MW, and
    about one more for each ten times as much."""
    return math.log10(1 + thousandths / ONE_MEGAWATT)


def deficiencies_label(area):
    hours = [
        "%s in the hour ending %d, tier %d" % (sentences.power(hour.upward), hour.ending, hour.tier)
        for hour in area.hours
        if hour.upward
    ]
    return (
        "The upward deficiency U of area %d by hour, as bars against three lines: 10 MW, one hundredth"
        " of Q and half of Q. U is %s; 0 in every other hour." % (area.number, "; ".join(hours))
    )


def deficiencies(area):
    """U of each hour against the lines between the tiers, which move where Q does."""
    paper = Paper(LINE_NAMES)
    most = max(max(hour.upward, hour.requirement // 2, TIER_FLOOR) for hour in area.hours)
    top = steps_of(most) * 1.06

    def height(thousandths):
        return paper.bottom - (paper.bottom - paper.top) * steps_of(thousandths) / top

    parts = paper.peak_hours(area.hours)
    tick = ONE_MEGAWATT
    parts.append(paper.grid(height(0), "0 MW"))
    while tick <= most:
        parts.append(paper.grid(height(tick), format(tick // ONE_MEGAWATT, ",") + " MW"))
        tick *= 10
    for tier in (1, 2, 3):
        bars = [
            paper.bar(hour.ending, height(0), height(hour.upward))
            for hour in area.hours
            if hour.upward and hour.tier == tier
        ]
        parts.append(path("tier-%d edge" % tier, bars))
    parts += tier_lines(paper, area, height)
    parts += [
        text(paper.middle(hour.ending), height(hour.upward) - 3.5, hour.tier, "mark")
        for hour in area.hours
        if hour.upward
    ]
    parts.append(line(paper.left, height(0), paper.right, height(0), "zero"))
    parts += paper.hour_names()
    return picture(WIDTH, HEIGHT, deficiencies_label(area), parts, "chart")


def tier_lines(paper, area, height):
    """The lines, and their names at the right, moved apart where they would run into each other."""
    lines = (
        ("half", "Q/2", lambda hour: hour.requirement / 2),
        ("hundredth", "1% of Q", lambda hour: hour.requirement / 100),
        ("floor", "10 MW", lambda hour: TIER_FLOOR),
    )
    parts, names = [], []
    for css, name, level in lines:
        heights = [height(level(hour)) for hour in area.hours]
        parts.append(step_line(paper, heights, css))
        names.append((heights[-1], name))
    lowest = -NAME_DISTANCE
    for y, name in sorted(names):
        lowest = max(y, lowest + NAME_DISTANCE)
        parts.append(text(paper.right + 4, lowest + 3.5, name, "small", "start"))
    return parts


def step_line(paper, heights, css):
    """A line of one height in each hour."""
    shape = "M%s %s" % (at(paper.left), at(heights[0]))
    for place, y in enumerate(heights):
        if place and y != heights[place - 1]:
            shape += "V%s" % at(y)
        if place == HOURS - 1 or heights[place + 1] != y:
            shape += "H%s" % at(paper.start(place + 2))
    return '<path class="%s" d="%s"/>' % (css, shape)


# Interval prices of an hour

SMALL_WIDTH, SMALL_HEIGHT = 264, 96
SMALL_LEFT, SMALL_RIGHT, SMALL_TOP, SMALL_BOTTOM = 56, 4, 10, 14


def prices_label(hour):
    present = [each.price for each in hour.intervals if each.price is not None]
    label = "Interval prices of area %d, hour ending %d: %d of %d, from %s to %s" % (
        hour.area,
        hour.ending,
        hour.present,
        len(hour.intervals),
        sentences.price(min(present)),
        sentences.price(max(present)),
    )
    if hour.price is not None:
        label += "; load-weighted price %s" % sentences.price(hour.price)
    if hour.missing:
        label += "; missing: %s" % words.listed_runs(hour.missing)
    return label + "."


def prices(hour):
    """The interval prices as bars from the line of zero, the load-weighted price as a line, and a
    cross where a price is missing."""
    present = [each.price for each in hour.intervals if each.price is not None]
    highest, lowest = max(0, max(present)), min(0, min(present))
    span = highest - lowest or 1
    left, right = SMALL_LEFT, SMALL_WIDTH - SMALL_RIGHT
    top, bottom = SMALL_TOP, SMALL_HEIGHT - SMALL_BOTTOM
    slot = (right - left) / len(hour.intervals)
    width = 0.7 * slot

    def height(value):
        return top + (bottom - top) * (highest - value) / span

    bars, crosses = [], []
    for place, each in enumerate(hour.intervals):
        middle = left + slot * (place + 0.5)
        if each.price is None:
            crosses.append(cross(middle, (top + bottom) / 2, 3.2))
        elif each.price:
            bars.append(block(middle - width / 2, height(0), height(each.price), width))
    parts = [path("price-bar", bars), line(left, height(0), right, height(0), "zero")]
    parts.append(path("missing", crosses))
    if hour.price is not None:
        parts.append(line(left, height(hour.price), right, height(hour.price), "weighted"))
    levels = {highest, lowest}
    # A zero between them that would stand in another number is left out; its line says enough.
    if min(height(0) - top, bottom - height(0)) > NAME_DISTANCE:
        levels.add(0)
    for value in sorted(levels):
        parts.append(text(left - 4, height(value) + 3, short_price(value), "small", "end"))
    for number in (1, len(hour.intervals)):
        parts.append(text(left + slot * (number - 0.5), SMALL_HEIGHT - 3, number, "small"))
    return picture(SMALL_WIDTH, SMALL_HEIGHT, prices_label(hour), parts, "small-chart")


def short_price(value):
    return "$0" if value == 0 else sentences.price(value)


def cross(x, y, size):
    return "M%s %sl%s %sm0 -%sl-%s %s" % (
        at(x - size),
        at(y - size),
        at(2 * size),
        at(2 * size),
        at(2 * size),
        at(2 * size),
        at(2 * size),
    )
