"""Random responses and requests for a cache, with a taste for what is easy to get wrong: escapes, bytes past ASCII, old
and impossible dates, numbers past 2^64, repeated fields and directives."""
import random
from collections.abc import Iterator
from dataclasses import dataclass
from datetime import datetime, timezone

from common.dates import imf_fixdate, old_formats
from common.fields import Fields

NOW = 1795657000  # 25 Nov 2026
NUMBERS = ["0", "1", "5", "10", "59", "60", "61", "100", "3600", "86400", "010", "2147483648", "4294967296",
           "18446744073709551615", "18446744073709551616", "99999999999999999999999"]
BAD_NUMBERS = ["-1", "1.5", "soon", "", "+5", "5s", "0x10", "1e3", "60 ", "\xd9\xa5"]
RESPONSE_FLAGS = ["no-cache", "no-store", "must-revalidate", "proxy-revalidate", "must-understand", "public", "private",
                  "no-transform", "immutable"]
RESPONSE_NUMBERS = ["max-age"] * 6 + ["s-maxage"] * 3 + ["stale-while-revalidate"] * 2 + ["stale-if-error"] * 2
REQUEST_FLAGS = ["no-cache", "no-store", "only-if-cached", "no-transform"]
REQUEST_NUMBERS = ["max-age"] * 3 + ["max-stale"] * 3 + ["min-fresh"] * 3 + ["stale-if-error"] * 2
STRANGE = ['x="no-store"', 'x="a, no-store, b"', 'x="\\", no-store, \\""', 'x="\\"", no-store', "ext", "ext=1",
           'x="max-age=5"', 'x=", no-cache', "no-store-x", "x-no-store", 'x="a\\\\", private', 'no-cache="set-cookie"',
           'private="set-cookie, x"', "private=x", 'no-cache=""', "no-store=1", "must-revalidate=0", 'public="x"',
           "no-cache=x", "max-age", "s-maxage", "max-age =5", "", " ", "=5", ";", 'x="a', 'max-age="60', "no cache",
           "no-cache;", "max-age=60;no-store", "max-age=60 no-store", "max-age=60, max-age=0", "max-age=0, max-age=60",
           "s-maxage=60, s-maxage=0", "Private", "NO-STORE"]
# What a quoted-string may have: quoted-pairs, separators and bytes past ASCII (RFC 9110, section 5.6.4).
QUOTED_PIECES = ['\\"', "\\\\", "\\a", "\\,", ",", ", no-store", ", private ,", "=", ";", " ", "\t", "\xe9", "\xc3\xa9",
                 "\xff", "\\\xe9", "max-age=5", "a", "no-cache"]
AGES = ["0", "5", "10", "59", "60", "61", "3600", "010", "5, 10", "10, x", "x, 10", "", "-1", "1.5", "old", "+5", ",5",
        "99999999999999999999", " 7 ", "18446744073709551615", "5;x", '"5"', "\xe9"]
ENTITY_TAGS = ['"a"', 'W/"a"', '""', '"\xe9"', "a", '"a', '"a" ', '"a b"', '"a", "b"', "*", 'w/"a"', '"a\\"', "W/a",
               'W/"\xff\\"']
VALUES = {"Accept-Encoding": ["gzip, br", "gzip,br", "br, gzip", "gzip", "GZIP, br", "gzip,, br", ""],
          "Accept-Language": ["en, de", "en,de", "en", "en;q=0.5, de", "EN, de"],
          "X-A": ["1", "2", "1, 2", "1,2", "", "\xe9", '"a\\", b"', '"a\\",b"'],
          "Cookie": ["a=1", "a=1; b=2", "b=2; a=1"], "User-Agent": ["A", "a"],
          "Accept": ["*/*", "text/html", "*/* ", 'text/html;a="\\", b"', 'text/html;a="\\",b"', 'a/b;c="\xe9" , */*']}
STATUSES = [200] * 8 + [204, 206, 301, 302, 304, 307, 308, 404, 410, 403, 500, 503, 599, 299, 100]


@dataclass
class Case:
    """A stored response with the request that it answered, and another request."""

    stored_method: str
    method: str
    status: int
    stored: Fields
    request: Fields
    response: Fields
    is_shared: bool
    asked: int
    received: int
    now: int


def quoted(draw: random.Random) -> str:
    return '"' + "".join(draw.choice(QUOTED_PIECES) for _ in range(draw.choice([0, 1, 1, 2, 3]))) + '"'


def argument(draw: random.Random, text: str) -> str:
    kind = draw.random()
    if kind < 0.86:
        return "=" + text
    if kind < 0.94:
        return '="' + text + '"'
    if kind < 0.97:
        return '="' + "".join("\\" + it if draw.random() < 0.7 else it for it in text) + '"'
    return draw.choice([" = ", "= ", " =", '="', "==", ";", ":"]) + text


def cased(draw: random.Random, text: str) -> str:
    return draw.choice([text.upper(), text.title()]) if draw.random() < 0.15 else text


def member(draw: random.Random, flags: list[str], numbers: list[str]) -> str:
    kind = draw.random()
    if kind < 0.36:
        return cased(draw, draw.choice(flags))
    if kind < 0.86:
        name = draw.choice(numbers)
        if name == "max-stale" and draw.random() < 0.25:
            return cased(draw, name)
        number = draw.choice(NUMBERS if draw.random() < 0.93 else BAD_NUMBERS)
        return cased(draw, name) + argument(draw, number)
    if kind < 0.93:
        return f"{draw.choice(['x', 'ext', 'community'])}={quoted(draw)}"
    return draw.choice(STRANGE)


def cache_control(draw: random.Random, flags: list[str], numbers: list[str]) -> Fields:
    lines: list[list[str]] = [[]]
    for _ in range(draw.choice([1, 1, 1, 2, 2, 2, 3, 3, 4, 6])):
        if lines[-1] and draw.random() < 0.15:
            lines.append([])
        lines[-1].append(member(draw, flags, numbers))
    return [(cased(draw, "cache-control"), draw.choice([", ", ", ", ",", " , ", ",,"]).join(it)) for it in lines]


def date(draw: random.Random, second: int) -> str:
    kind = draw.random()
    if not 0 <= second < 253402300800:
        return "0"
    imf = imf_fixdate(second)
    if kind < 0.85:
        return imf
    if kind < 0.93:
        return old_formats(second)[draw.choice(["850", "asc"])]
    time = datetime.fromtimestamp(second, timezone.utc)
    return draw.choice([imf[:-4], imf.lower(), "0", "-1", "", imf + "+1", imf.replace("GMT", "UTC"), "Xxx" + imf[3:],
                        "Thu, 30 Feb 2026 00:00:00 GMT", imf[5:], imf.replace(" GMT", " +0000"), "never",
                        "Thursday, 01-Jan-71 00:00:00 GMT", "Wed, 31 Dec 1969 23:59:59 GMT",
                        "Mon, 01 Jan 1900 00:00:00 GMT", "Thu, 01 Jan 1970 00:00:00 GMT", imf + ", " + imf,
                        "1795657000",
                        "Fri, 31 Dec 9999 23:59:59 GMT", time.strftime("%a, %d %b %Y 24:%M:%S GMT"),
                        "Sat, 31 Dec 2016 23:59:60 GMT", "\xe9"])


def response(draw: random.Random, received: int) -> Fields:
    fields: Fields = []
    made = received - draw.choice([0, 0, 0, 0, 1, 5, 30, 60, 3600, -5, -3600])
    if draw.random() < 0.85:
        fields.append(("Date", date(draw, made)))
        if draw.random() < 0.03:
            fields.append(("Date", date(draw, made - 60)))
    if draw.random() < 0.75:
        fields += cache_control(draw, RESPONSE_FLAGS, RESPONSE_NUMBERS)
    if draw.random() < 0.4:
        fields.append(("Expires", date(draw, made + draw.choice([-60, 0, 1, 10, 60, 3600, 86400]))))
        if draw.random() < 0.08:
            fields.append(("expires", date(draw, made + 120)))
    if draw.random() < 0.3:
        fields += [("Age", draw.choice(AGES)) for _ in range(2 if draw.random() < 0.1 else 1)]
    if draw.random() < 0.3:
        # (also after it was made, as of a file whose clock was wrong)
        fields.append(("Last-Modified", date(draw, made - draw.choice([0, 10, 1000, 864000, 864000, -1, -3600, -864000]))))
    if draw.random() < 0.35:
        fields.append(("ETag", draw.choice(ENTITY_TAGS)))
    if draw.random() < 0.05:
        fields.append(("Pragma", "no-cache"))
    if draw.random() < 0.25:
        names = draw.sample(["Accept-Encoding", "accept-language", "X-A", "Cookie", "*", "", "User-Agent", "ACCEPT"],
                            draw.choice([1, 1, 2, 3]))
        if draw.random() < 0.2:
            fields += [("Vary", it) for it in names]
        else:
            fields.append(("Vary", draw.choice([", ", ",", " , "]).join(names)))
    draw.shuffle(fields)
    return fields


def request(draw: random.Random) -> Fields:
    fields: Fields = []
    for name, values in VALUES.items():
        if draw.random() < 0.35:
            fields += [(name, draw.choice(values)) for _ in range(2 if draw.random() < 0.08 else 1)]
    if draw.random() < 0.5:
        fields += cache_control(draw, REQUEST_FLAGS, REQUEST_NUMBERS)
    if draw.random() < 0.2:
        fields.append(("Authorization", "Basic YTpi"))
    if draw.random() < 0.06:
        fields.append(("Pragma", "no-cache"))
    return fields


def case(draw: random.Random) -> Case:
    received = NOW - draw.choice([0, 1, 5, 10, 30, 59, 60, 61, 100, 3600, 86400])
    stored, again = request(draw), request(draw)
    if draw.random() < 0.6:  # the fields that Vary may name mostly agree
        again = [it for it in again if it[0] not in VALUES] + [it for it in stored if it[0] in VALUES]
    return Case(
        stored_method=draw.choice(["GET"] * 8 + ["HEAD", "POST", "PUT"]),
        method=draw.choice(["GET"] * 12 + ["HEAD", "POST", "OPTIONS", "DELETE"]), status=draw.choice(STATUSES),
        stored=stored, request=again, response=response(draw, received), is_shared=draw.random() < 0.6,
        asked=received - draw.choice([0, 0, 0, 1, 5, 60, -1]), received=received, now=NOW)


def cases(seed: int, count: int) -> Iterator[Case]:
    draw = random.Random(seed)
    return (case(draw) for _ in range(count))
