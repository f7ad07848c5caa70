"""How the reports write the whole numbers of explain8080: megawatts, dollars, dates and lists in
words. Whole-number arithmetic only, so that what is written is exactly the number."""

import datetime

MARKET_PRICE_PLACES = 4  # a market price is in $0.0001
CENTS = 2
THOUSANDTHS = 3

# A run of numbers this long or longer is written by its ends.
LONG_RUN = 4


def with_places(value, places):
    """A number of units of 10^-places, with commas: 1234567 with 3 places is 1,234.567."""
    whole, part = divmod(abs(value), 10**places)
    sign = "-" if value < 0 else ""
    return "%s%s.%0*d" % (sign, format(whole, ","), places, part)


def with_dollar_sign(text):
    """The sign goes before the dollar: -$5.00."""
    return "-$" + text[1:] if text.startswith("-") else "$" + text


def quantity(value):
    """MW or MWh, from thousandths."""
    return with_places(value, THOUSANDTHS)


def amount(cents):
    return with_places(cents, CENTS)


def dollars(cents):
    return with_dollar_sign(amount(cents))


def market_price(value):
    """A price a MWh, from units of $0.0001."""
    return with_places(value, MARKET_PRICE_PLACES)


def market_dollars(value):
    return with_dollar_sign(market_price(value))


def plain_dollars(cents):
    """For a spreadsheet: no commas and no dollar sign."""
    return amount(cents).replace(",", "")


def multiplier(quarters):
    """m from quarters: 5 is 1.25."""
    return with_places(25 * quarters, CENTS)


def scale(persistent_days):
    """1 + d/100."""
    return with_places(100 + persistent_days, CENTS)


def with_minus_sign(text):
    """A minus sign as wide as a plus sign, for the page; a hyphen may end a line."""
    return text.replace("-", "\N{MINUS SIGN}")


def ordinal(number):
    """1st, 2nd, 3rd, 4th; 11th, 12th, 13th."""
    ending = {1: "st", 2: "nd", 3: "rd"}.get(number % 10, "th")
    return "%d%s" % (number, "th" if number // 10 % 10 == 1 else ending)


def listed(names):
    """a; a and b; a, b and c."""
    names = [str(name) for name in names]
    if len(names) <= 1:
        return "".join(names)
    return ", ".join(names[:-1]) + " and " + names[-1]


def runs(numbers):
    """Rising numbers as runs of neighbours: (first, last) of each."""
    found = []
    for number in numbers:
        if found and found[-1][1] + 1 == number:
            found[-1] = (found[-1][0], number)
        else:
            found.append((number, number))
    return found


def listed_runs(numbers):
    """Rising numbers in words: 1, 2 and 3; 1 to 12; 2 and 5 to 9."""
    names = []
    for first, last in runs(numbers):
        if last - first + 1 >= LONG_RUN:
            names.append("%d to %d" % (first, last))
        else:
            names += range(first, last + 1)
    return listed(names)


def counted(count, name):
    """1 hour, 2 hours."""
    return "%d %s%s" % (count, name, "" if count == 1 else "s")


def hours_ending(endings):
    """hour ending 4; hours ending 4 and 7 to 22."""
    return "hour%s ending %s" % ("" if len(endings) == 1 else "s", listed_runs(endings))


def date_of(trading_day):
    """The date of YYYYMMDD; ValueError where there is none."""
    return datetime.date(trading_day // 10000, trading_day // 100 % 100, trading_day % 100)


# Not strftime, whose words go by the machine's language.
WEEKDAYS = ("Monday", "Tuesday", "Wednesday", "Thursday", "Friday", "Saturday", "Sunday")
MONTHS = ("January", "February", "March", "April", "May", "June")
MONTHS += ("July", "August", "September", "October", "November", "December")


def written_date(date):
    return "%d %s %d" % (date.day, MONTHS[date.month - 1], date.year)


def weekday(date):
    return WEEKDAYS[date.weekday()]
