"""HTTP-date by its grammar (RFC 9110, section 5.6.7)."""
import re
from datetime import datetime, timezone

DAYS = "Mon Tue Wed Thu Fri Sat Sun".split()
LONG_DAYS = "Monday Tuesday Wednesday Thursday Friday Saturday Sunday".split()
MONTHS = "Jan Feb Mar Apr May Jun Jul Aug Sep Oct Nov Dec".split()
CLOCK = r"(?P<clock>\d\d:\d\d:\d\d)"
FORMATS = [
    re.compile(text, re.ASCII)
    for text in (
        rf"(?P<name>{'|'.join(DAYS)}), (?P<day>\d\d) (?P<month>{'|'.join(MONTHS)}) (?P<year>\d{{4}}) {CLOCK} GMT",
        rf"(?P<name>{'|'.join(LONG_DAYS)}), (?P<day>\d\d)-(?P<month>{'|'.join(MONTHS)})-(?P<year>\d\d) {CLOCK} GMT",
        rf"(?P<name>{'|'.join(DAYS)}) (?P<month>{'|'.join(MONTHS)}) (?P<day>\d\d| \d) {CLOCK} (?P<year>\d{{4}})",
    )
]


class NoSuchTime(ValueError):
    """A text of the grammar that names no time: day 30 of February, hour 24."""


class WrongDay(NoSuchTime):
    """A text of the grammar with the name of another day of the week. By the grammar it is this date all the same, in
    seconds since 1970; some readers reject it."""

    def __init__(self, text: str, seconds: int) -> None:
        super().__init__(text)
        self.seconds = seconds


def year_of_two_digits(year: int, now: int) -> int:
    """The year with these last digits that is at most 50 years ahead, by the rule for the format of RFC 850."""
    here = datetime.fromtimestamp(now, timezone.utc).year
    year += here - here % 100
    return year - 100 if year > here + 50 else year


def http_date(text: str, now: int) -> int | None:
    """The seconds since 1970 of a date, or `None` if it isn't one by the grammar. Raises `NoSuchTime`."""
    found = next((it for form in FORMATS if (it := form.fullmatch(text))), None)
    if found is None:
        return None
    year = int(found["year"]) if len(found["year"]) == 4 else year_of_two_digits(int(found["year"]), now)
    hour, minute, second = map(int, found["clock"].split(":"))
    try:
        # (second 60 is a leap second, which the grammar has: the time that follows second 59)
        time = datetime(year, MONTHS.index(found["month"]) + 1, int(found["day"]), hour, minute, min(second, 59),
                        tzinfo=timezone.utc)
    except ValueError:
        raise NoSuchTime(text) from None
    if second > 60:
        raise NoSuchTime(text)
    seconds = int(time.timestamp()) + (second == 60)
    if DAYS[time.weekday()] != found["name"][:3]:
        raise WrongDay(text, seconds)
    return seconds


def valid_date(text: str, now: int) -> int | None:
    """The seconds since 1970 of a date, or `None` if it names no time."""
    try:
        return http_date(text, now)
    except WrongDay as date:
        return date.seconds
    except NoSuchTime:
        return None


def imf_fixdate(seconds: int) -> str:
    """The preferred format, with four digits of the year."""
    time = datetime.fromtimestamp(seconds, timezone.utc)
    return f"{DAYS[time.weekday()]}, {time.day:02} {MONTHS[time.month - 1]} {time.year:04} {time:%H:%M:%S} GMT"


def old_formats(seconds: int) -> dict[str, str]:
    """The obsolete formats, by the names that test cases have for them."""
    time = datetime.fromtimestamp(seconds, timezone.utc)
    return {"850": time.strftime("%A, %d-%b-%y %H:%M:%S GMT"), "asc": time.strftime("%a %b %e %H:%M:%S %Y")}
