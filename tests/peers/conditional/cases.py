"""Conditional and range requests, hand-made and random, as templates over a server's own validators.

In a value stand {S} and {W} for the representation's tag as strong and as weak, {U} for it without quotes, {D}, {D-1},
{D+1} for its date and the seconds beside it, and {D:850}, {D:asc} for its date in the obsolete formats.
"""
import itertools
import random
import re
from collections.abc import Iterator
from dataclasses import dataclass

from common.dates import imf_fixdate, old_formats
from common.fields import Fields

# Of a representation: a strong tag and a date, a weak tag and a date, a date alone, a strong tag alone, nothing.
KINDS = ["strong", "weak", "none", "nodate", "bare"]
LENGTH = 10000
MODIFIED = 1700000000
CONDITIONS = ["If-Match", "If-None-Match", "If-Modified-Since", "If-Unmodified-Since", "Range"]


@dataclass
class Case:
    """A request for a representation of a kind of validators and of so many bytes. `wanted` is the answer that a table
    of Go's tests has: a status (0: any but 206), and parts."""

    method: str
    lines: Fields
    kind: str = "strong"
    length: int = LENGTH
    wanted: tuple[int, list[tuple[int, int]] | None] | None = None


# Of Go's own tables of tests: fs_test.go (ServeFileRangeTests, TestServeContent) and range_test.go (ParseRangeTests).
GO_RANGES_11 = [
    ("", 200, None), ("bytes=0-4", 206, [(0, 4)]), ("bytes=2-", 206, [(2, 10)]), ("bytes=-5", 206, [(6, 10)]),
    ("bytes=3-7", 206, [(3, 7)]), ("bytes=0-0,-2", 206, [(0, 0), (9, 10)]), ("bytes=0-1,5-8", 206, [(0, 1), (5, 8)]),
    ("bytes=0-1,5-", 206, [(0, 1), (5, 10)]), ("bytes=5-1000", 206, [(5, 10)]),
    ("bytes=0-,1-,2-,3-,4-", 200, None), ("bytes=0-9", 206, [(0, 9)]), ("bytes=0-10", 206, [(0, 10)]),
    ("bytes=0-11", 206, [(0, 10)]), ("bytes=10-11", 206, [(10, 10)]), ("bytes=10-", 206, [(10, 10)]),
    ("bytes=11-", 416, None), ("bytes=11-12", 416, None), ("bytes=12-12", 416, None), ("bytes=11-100", 416, None),
    ("bytes=12-100", 416, None), ("bytes=100-", 416, None), ("bytes=100-1000", 416, None),
]
GO_PARSE = [
    ("", 1000, None), ("foo", 10, None), ("bytes=", 10, None), ("bytes=7", 10, None), ("bytes= 7 ", 10, None),
    ("bytes=5-4", 10, None), ("bytes=0-2,5-4", 10, None), ("bytes=2-5,4-3", 10, None), ("bytes=--5,4--3", 10, None),
    ("bytes=A-", 10, None), ("bytes=A- ", 10, None), ("bytes=A-Z", 10, None), ("bytes= -Z", 10, None),
    ("bytes=5-Z", 10, None), ("bytes=Ran-dom, garbage", 10, None), ("bytes=0x01-0x02", 10, None),
    ("bytes=         ", 10, None), ("bytes= , , ,   ", 10, None), ("bytes=0-9", 10, [(0, 9)]),
    ("bytes=0-", 10, [(0, 9)]), ("bytes=5-", 10, [(5, 9)]), ("bytes=0-20", 10, [(0, 9)]),
    ("bytes=15-,0-5", 10, [(0, 5)]), ("bytes=1-2,5-", 10, [(1, 2), (5, 9)]), ("bytes=-2 , 7-", 11, [(9, 10), (7, 10)]),
    ("bytes=0-0 ,2-2, 7-", 11, [(0, 0), (2, 2), (7, 10)]), ("bytes=-5", 10, [(5, 9)]), ("bytes=-15", 10, [(0, 9)]),
    ("bytes=0-499", 10000, [(0, 499)]), ("bytes=500-999", 10000, [(500, 999)]), ("bytes=-500", 10000, [(9500, 9999)]),
    ("bytes=9500-", 10000, [(9500, 9999)]), ("bytes=0-0,-1", 10000, [(0, 0), (9999, 9999)]),
    ("bytes=500-600,601-999", 10000, [(500, 600), (601, 999)]),
    ("bytes=500-700,601-999", 10000, [(500, 700), (601, 999)]),
    ("bytes=   1 -2   ,  4- 5, 7 - 8 , ,,", 11, [(1, 2), (4, 5), (7, 8)]),
]
GO_CONTENT = [
    ("strong", [("If-Modified-Since", "{D}")], 304), ("strong", [("If-None-Match", "{S}")], 304),
    ("weak", [("If-None-Match", '"baz", {W}')], 304), ("strong", [("If-None-Match", '"Foo"')], 200),
    ("strong", [("If-None-Match", ",")], 200), ("strong", [("Range", "bytes=0-4")], 206),
    ("strong", [("Range", "bytes=0-4"), ("If-Range", "{S}")], 206),
    ("weak", [("Range", "bytes=0-4"), ("If-Range", "{W}")], 200), ("strong", [("Range", "bytes=10000-20000")], 416),
    ("strong", [("Range", "bytes=0-4"), ("If-Range", '"B"')], 200),
    ("none", [("Range", "bytes=0-4"), ("If-Range", "{D}")], 206),
    ("none", [("Range", "bytes=0-4"), ("If-Range", "{D+1}")], 200), ("strong", [("If-Match", '"Z", {S}')], 200),
    ("strong", [("If-Match", "*")], 200), ("strong", [("If-Match", '"B"')], 412),
    ("weak", [("If-Match", "{W}")], 412), ("none", [("If-Unmodified-Since", "{D}")], 200),
    ("none", [("If-Unmodified-Since", "{D-1}")], 412), ("strong", [], 200),
]

TAGS = [
    "{S}", "{S}", "{W}", "{W}", '"other"', 'W/"other"', "*", '"x", {S}', '{W} , "y"', ",{S}", "{S},", ", ,{S}, ,",
    '"a,b", {S}', '"other", "more", W/"third"', "abc", '"unclosed', "*, {S}", "{S}, *", "w/{S}", "", ",", '""',
    '"\xe9"', '"\xe9", {S}', "{S}{S}", "{S} {S}", "{S};q=1", "{S}, abc", "abc, {S}", '"a\\"", {S}', 'W/ {S}', " {S} ",
    "W/*", "{S}, \"x", '"x, {S}', "\t{S}", '"' + "x" * 300 + '", {S}', "{S}, " * 40 + "{S}", "W/{W}", "'x'", "{U}",
]
DATES = [
    "{D}", "{D}", "{D-1}", "{D+1}", "{D-3600}", "{D+3600}", "{D:850}", "{D:asc}", "{D-1:850}", "{D-1:asc}",
    "Tue, 14 Nov 2023 22:13:20", "tue, 14 nov 2023 22:13:20 gmt", "Wed, 14 Nov 2023 22:13:20 GMT",
    "Tue, 14 Nov 2023 22:13:20 +0000", "Tue, 14 Nov 2023 23:13:20 +0100", "1700000000", "", "0", "-1", "{D}, {D}",
    '"{D}"', "{D}; length=10000", "Fri, 31 Dec 9999 23:59:59 GMT", "Thu, 01 Jan 1970 00:00:00 GMT",
    "Tue, 14 Nov 2023 22:13:60 GMT", "Tue, 14 Nov 2023 24:00:00 GMT", "14 Nov 2023 22:13:20 GMT",
    "Tue, 14 Nov 2023  22:13:20 GMT", "Tue, 14-Nov-2023 22:13:20 GMT", "Tue, 14 Nov 23 22:13:20 GMT",
    "Tue, 14 Nov 2023 22:13:20 UTC", "Mon, 01 Jan 1900 00:00:00 GMT", "never", "{S}", " {D} ", "{D+100000}",
    "Tuesday, 14-Nov-23 22:13:20 GMT", "Tue Nov 14 22:13:20 2023", "Tue, 30 Feb 2027 00:00:00 GMT",
    "Tue, 14 Nov 2023 22:13:20 GMT+1", "Thursday, 01-Jan-71 00:00:00 GMT", "Thursday, 01-Jan-70 00:00:00 GMT",
]
IF_RANGES = TAGS[:8] + DATES[:10] + [
    "{S}, {S}", "*", "abc", "", '"\xe9"', "w/{S}", "{S} ", '"x', "Tue, 14 Nov 2023 22:13:20", "{D}, {D}", "{S},",
    "Wed, 14 Nov 2023 22:13:20 GMT", "1700000000",
]
RANGES = [
    "bytes=0-499", "bytes=500-999", "bytes=-500", "bytes=9500-", "bytes=0-0", "bytes=9999-9999", "bytes=0-9999",
    "bytes=0-", "bytes=-1", "bytes=-10000", "bytes=-20000", "bytes=0-20000", "bytes=9999-20000", "bytes=10000-",
    "bytes=10000-20000", "bytes=20000-", "bytes=-0", "bytes=0-0,-1", "bytes=0-0,9999-", "bytes=500-600,601-999",
    "bytes=500-700,601-999", "bytes=601-999,500-700", "bytes=0-10,20-30,40-50", "bytes=40-50,0-10,20-30",
    "bytes=0-0,1-1,2-2", "bytes=0-0,2-2,4-4,6-6", "bytes=0-100,50-150,100-200", "bytes=0-,1-,2-", "bytes=0-,0-",
    "bytes=0-9999,0-9999", "bytes=-0,0-0", "bytes=0-0,-0", "bytes=10000-,0-0", "bytes=0-0,10000-", "bytes=5-4",
    "bytes=5-4,0-0", "bytes=0-0,5-4", "bytes=x", "bytes=x,0-0", "bytes=0-0,x", "bytes=", "bytes=-", "bytes=,",
    "bytes=,0-0", "bytes=0-0,", "bytes=,,0-0,,1-1,,", "bytes= 0-0", "bytes=0-0 ", "bytes=0-0 , 2-2", "bytes=0 -0",
    "bytes=0- 0", "bytes =0-0", "Bytes=0-0", "BYTES=0-0", "items=0-0", "bytes 0-0", "bytes:0-0", "bytes", "", "0-0",
    "bytes=+0-0", "bytes=0-+4", "bytes=-+5", "bytes=--5", "bytes=0--5", "bytes=0-1-2", "bytes=0x0-0x4", "bytes=a-b",
    "bytes=00-04", "bytes=0000000000000000000000000-4", "bytes=0-9223372036854775807", "bytes=0-9223372036854775808",
    "bytes=0-18446744073709551615", "bytes=0-18446744073709551616", "bytes=0-99999999999999999999999999",
    "bytes=18446744073709551615-", "bytes=18446744073709551616-", "bytes=18446744073709551616-18446744073709551617",
    "bytes=-18446744073709551616", "bytes=99999999999999999999-,0-0", "bytes=0-0,0-99999999999999999999",
    "bytes=9223372036854775807-", "bytes=9223372036854775808-", "bytes=0-0;q=1", "bytes=0-0, items=1-1",
    "bytes=0-0,bytes=2-2", "bytes=\"0-0\"", "bytes=0-4\t,\t6-8", "bytes=0.0-1", "bytes=1e1-", "bytes=\xb2-",
    "bytes=0-99,200-299,400-499,600-699,800-899", "bytes=" + ",".join(f"{i*10}-{i*10+1}" for i in range(30)),
    "bytes=" + ",".join("0-" for _ in range(6)), "bytes=" + ",".join(f"{i}-{i}" for i in range(0, 400, 2)),
    "bytes=" + ",".join("0-0" for _ in range(250)), "bytes=9000-,-2000", "bytes=-2000,9000-", "bytes=-1,-2,-3",
    "bytes=9998-9999,0-1", "bytes=5000-,0-4999", "bytes=0-4999,5000-9999", "bytes=1-9998", "none", "none=0-0",
    "bytes=0-0\x0b", "bytes=1-1,3-3,x", "bytes=-5,x", "bytes=10000-,x", "bytes=10000-,5-4", "bytes=-0,x",
]
TWO_LINES = {
    "If-None-Match": [['"x"', "{S}"], ["{S}", "*"], ["*", "*"], ['"x"', '"y"'], ['"x', '{S}"'], ["", "{S}"], ["*", ""]],
    "If-Match": [['"x"', "{S}"], ["{S}", "*"], ["*", "*"], ['"x"', '"y"'], ["", "{S}"], ["*", ""], ["{W}", '"y"']],
    "If-Modified-Since": [["{D}", "{D}"], ["{D}", "{D-1}"], ["{D-1}", "{D}"], ["x", "{D}"]],
    "If-Unmodified-Since": [["{D-1}", "{D-1}"], ["{D}", "{D-1}"], ["{D-1}", "{D}"], ["x", "{D-1}"]],
    "If-Range": [["{S}", "{S}"], ["{S}", '"x"'], ['"x"', "{S}"], ["{D}", "{S}"]],
    "Range": [["bytes=0-0", "bytes=2-2"], ["bytes=0-0", "x"], ["x", "bytes=0-0"], ["bytes=0-0", "2-2"],
              ["bytes=5-5", "bytes=5-5"]],
}


def of_go() -> Iterator[Case]:
    for text, status, parts in GO_RANGES_11:
        yield Case("GET", [("Range", text)] if text else [], "none", 11, (status, parts))
    for text, length, parts in GO_PARSE:
        yield Case("GET", [("Range", text)] if text else [], "none", length, (206 if parts else 0, parts))
    for kind, lines, status in GO_CONTENT:
        yield Case("GET", lines, kind, LENGTH, (status, None))


def by_hand() -> Iterator[Case]:
    for kind in KINDS:
        yield Case("GET", [], kind)
    for text in TAGS:
        for name in ("If-Match", "If-None-Match"):
            yield Case("GET", [(name, text)], "strong")
    for text in TAGS[:24]:
        for name in ("If-Match", "If-None-Match"):
            yield Case("GET", [(name, text)], "weak")
            yield Case("GET", [(name, text)], "none")
    for text in DATES:
        for name in ("If-Modified-Since", "If-Unmodified-Since"):
            yield Case("GET", [(name, text)], "none")
    for text in DATES[:6]:
        for name in ("If-Modified-Since", "If-Unmodified-Since"):
            yield Case("GET", [(name, text)], "bare")
            yield Case("HEAD", [(name, text)], "strong")
    for text in RANGES:
        yield Case("GET", [("Range", text)], "strong")
    for text in RANGES[:16]:
        yield Case("HEAD", [("Range", text)], "strong")
        yield Case("GET", [("Range", text)], "strong", 0)
        yield Case("GET", [("Range", text)], "strong", 1)
    for text in IF_RANGES:
        for kind in ("strong", "weak", "none"):
            yield Case("GET", [("Range", "bytes=0-4"), ("If-Range", text)], kind)
        yield Case("GET", [("Range", "bytes=10000-"), ("If-Range", text)], "strong")
    for name, all_values in TWO_LINES.items():
        for values in all_values:
            lines = [(name, value) for value in values]
            if name == "If-Range":
                lines.append(("Range", "bytes=0-4"))
            yield Case("GET", lines, "strong")
    # All combinations of a true and a false condition, and of none.
    tags, times = (None, "{S}", '"other"'), (None, "{D}", "{D-1}")
    for combination in itertools.product(tags, tags, times, times, (None, "bytes=0-4", "bytes=10000-")):
        yield Case("GET", [(name, value) for name, value in zip(CONDITIONS, combination) if value])
    for method in ("POST", "PUT", "DELETE"):
        for lines in ([("If-None-Match", "{S}")], [("If-None-Match", "*")], [("If-Match", '"x"')],
                      [("If-Modified-Since", "{D}")], [("If-Unmodified-Since", "{D-1}")], [("Range", "bytes=0-0")]):
            yield Case(method, lines, "strong")


def random_range(draw: random.Random) -> str:
    if draw.random() < 0.35:
        return draw.choice(RANGES)
    specs = []
    for _ in range(draw.choice([1, 1, 1, 2, 2, 3, 4, 6, 12])):
        roll = draw.random()
        first = draw.choice([0, 1, 5, 100, 4999, 5000, 9998, 9999, 10000, draw.randrange(12000)])
        if roll < 0.55:
            specs.append(f"{first}-{first + draw.choice([0, 1, 2, 9, 100, 5000, draw.randrange(3000)])}")
        elif roll < 0.7:
            specs.append(f"{first}-")
        elif roll < 0.85:
            specs.append(f"-{draw.choice([0, 1, 2, 10, 5000, 9999, 10000, 10001, draw.randrange(11000)])}")
        elif roll < 0.95:
            specs.append(draw.choice(["", "x", "-", "5-4", "+1-2", "1 -2", "1- 2", "a-", "0-0-0"]))
        else:
            specs.append(f"{first}-{draw.choice([2**63 - 1, 2**63, 2**64 - 1, 2**64])}")
    return "bytes=" + draw.choice([",", ", ", " , ", ",,"]).join(specs)


# What an entity tag may have (RFC 9110, section 8.8.3), and what breaks one.
TAG_PIECES = ["a", "b", ",", "\\", "\\\\", "!", "#", "\xe9", "\xc3\xa9", "\xff", "*", "'", "W/", "~"]
BAD_PIECES = [" ", '"', "\t", "\\\""]
# Tags of representations whose bytes are as odd.
OWN_TAGS = ['"v1-tag"', '"\xe9"', '"a\\"', '"a,b"', '""', '"\xff\\,"', '"*"']


def random_tags(draw: random.Random) -> str:
    """A list of entity tags with separators, backslashes and bytes past ASCII, some of them malformed."""
    tags = []
    for _ in range(draw.choice([1, 1, 1, 2, 2, 3])):
        if draw.random() < 0.4:
            tags.append(draw.choice(["{S}", "{W}"]))
            continue
        pieces = TAG_PIECES + (BAD_PIECES if draw.random() < 0.1 else [])
        opaque = "".join(draw.choice(pieces) for _ in range(draw.choice([0, 1, 1, 2, 3])))
        tags.append(draw.choice(["", "", "W/"]) + f'"{opaque}"')
    return draw.choice([",", ", ", " , ", ",,"]).join(tags)


def at_random(seed: int, count: int) -> Iterator[Case]:
    draw = random.Random(seed)
    pools = {"If-Match": TAGS, "If-None-Match": TAGS, "If-Modified-Since": DATES, "If-Unmodified-Since": DATES,
             "If-Range": IF_RANGES}
    for _ in range(count):
        lines = []
        for name, pool in pools.items():
            if draw.random() < {"If-Match": 0.22, "If-Range": 0.4}.get(name, 0.3):
                if draw.random() < 0.05:
                    lines += [(name, value) for value in draw.choice(TWO_LINES[name])]
                elif pool is not DATES and draw.random() < 0.3:
                    lines.append((name, random_tags(draw)))
                else:
                    lines.append((name, draw.choice(pool)))
        if draw.random() < 0.6:
            if draw.random() < 0.03:
                lines += [("Range", value) for value in draw.choice(TWO_LINES["Range"])]
            else:
                lines.append(("Range", random_range(draw)))
        draw.shuffle(lines)
        method = draw.choice(["GET"] * 17 + ["HEAD"] * 2 + ["POST"])
        kind = draw.choice(["strong"] * 6 + ["weak"] * 2 + ["none", "nodate", "bare"])
        yield Case(method, lines, kind, draw.choice([LENGTH] * 20 + [11, 1, 0]))


def filled(value: str, etag: str | None, modified: int | None) -> str:
    """A template with a representation's own tag and date, or if it has none with those that it might have."""
    own = (etag or '"v1-tag"').removeprefix("W/")

    def put(found: re.Match[str]) -> str:
        what = found[1]
        if what in ("S", "W", "U"):
            return {"S": own, "W": "W/" + own, "U": own.strip('"')}[what]
        delta, _, form = what[1:].partition(":")
        second = (MODIFIED if modified is None else modified) + int(delta or 0)
        return old_formats(second)[form] if form else imf_fixdate(second)

    return re.sub(r"\{([SWU]|D[+\-0-9]*(?::\w+)?)\}", put, value)


def filled_lines(case: Case, etag: str | None, modified: int | None) -> Fields:
    return [(name, filled(value, etag, modified)) for name, value in case.lines]
