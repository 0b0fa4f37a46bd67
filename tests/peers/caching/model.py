"""RFC 9111 and RFC 5861 as a second reading of their text: storing (section 3), Vary (4.1), freshness (4.2), age
(4.2.3), stale responses (4.2.4), validation (4.3.1), the directives (5.2) and Authorization (3.5).

Where the text lets a cache choose, a call gives the set of what it may answer. `Malformed` is raised if a field that
counts breaks its grammar, and the text has no rule for that.
"""
import itertools
import re

from common.dates import imf_fixdate, valid_date
from common.fields import Fields, lines_of, members

TOKEN = r"[!#$%&'*+\-.^_`|~0-9A-Za-z]+"
QUOTED = r'"(?:[\t !\x23-\x5b\x5d-\x7e\x80-\xff]|\\[\t \x21-\x7e\x80-\xff])*"'
DIRECTIVE = re.compile(rf"({TOKEN})(?:=({TOKEN}|{QUOTED}))?")
# The statuses that RFC 9110, section 15.1, defines as heuristically cacheable.
HEURISTIC = {200, 203, 204, 206, 300, 301, 308, 404, 405, 410, 414, 501}
# The greatest number of seconds that a cache represents here (section 1.2.2).
TOP = 2**64 - 1
ENTITY_TAG = re.compile(r'(W/)?"[\x21\x23-\x7e\x80-\xff]*"')

Directives = list[tuple[str, str | None]]


class Malformed(Exception):
    """A field that breaks its grammar."""


# What a directive counts as if it has an argument though none is defined: it permits nothing, and forbids what it does
# without one (section 5.2).
ARGUED = {"public": "", "must-revalidate": "no-cache", "must-understand": "no-store"}


def directives(fields: Fields) -> Directives:
    """The members of Cache-Control in order: the name in lower case, and the argument if there is one."""
    found: Directives = []
    # (a quoted-string that doesn't end in its line breaks the grammar of that line)
    for text in (it for line in lines_of(fields, "cache-control") for it in members([line])):
        if not text:
            continue
        part = DIRECTIVE.fullmatch(text)
        if not part:
            raise Malformed(text)
        argument = part[2]
        if argument is not None and argument.startswith('"'):
            argument = re.sub(r"\\(.)", r"\1", argument[1:-1], flags=re.DOTALL)
        name = part[1].lower()
        if argument is not None and name in ARGUED:
            name, argument = ARGUED[name], None
        if name:
            found.append((name, argument))
    return found


def has(found: Directives, name: str) -> bool:
    return any(other == name for other, _ in found)


def seconds(text: str | None) -> int | None:
    """delta-seconds (section 1.2.2): a number past the greatest counts as that."""
    return min(int(text), TOP) if text is not None and re.fullmatch("[0-9]+", text) else None


def stated(found: Directives, name: str, invalid: int) -> set[int]:
    """The numbers that a directive may stand for; none if it isn't there. One that is repeated counts as it stands
    first, or as invalid (section 4.2.1). An invalid number is `invalid`."""
    arguments = [argument for other, argument in found if other == name]
    if not arguments:
        return set()
    first = seconds(arguments[0])
    return {invalid if first is None else first} | ({invalid} if len(arguments) > 1 else set())


def or_none(found: set[int]) -> set[int | None]:
    """The numbers, or `None` if there are none."""
    return {*found} or {None}


def one_date(fields: Fields, name: str, now: int) -> int | None:
    values = lines_of(fields, name)
    return valid_date(values[0], now) if len(values) == 1 else None


# Sections 3 and 3.5


def may_store(method: str, status: int, request: Fields, response: Fields, is_shared: bool) -> bool:
    asks, tells = directives(request), directives(response)
    # (206 and 304 are stored only by a cache that combines responses)
    if method not in ("GET", "HEAD") or status < 200 or status in (206, 304):
        return False
    must_understand = has(tells, "must-understand")
    if must_understand and status not in HEURISTIC:
        return False
    if has(asks, "no-store") or (has(tells, "no-store") and not must_understand):
        return False
    if is_shared and has(tells, "private"):
        return False
    if is_shared and lines_of(request, "authorization"):
        if not any(has(tells, name) for name in ("must-revalidate", "public", "s-maxage")):
            return False
    return (has(tells, "public") or (not is_shared and has(tells, "private")) or bool(lines_of(response, "expires"))
            or has(tells, "max-age") or (is_shared and has(tells, "s-maxage")) or status in HEURISTIC)


# Section 4.2.1


def lifetimes(response: Fields, received: int, is_shared: bool) -> set[int | None]:
    """The lifetimes that a cache may take; `None` if the origin states none."""
    tells = directives(response)
    for name in ("s-maxage", "max-age") if is_shared else ("max-age",):
        if has(tells, name):
            return {*stated(tells, name, 0)}
    values = lines_of(response, "expires")
    if not values:
        return {None}
    date = one_date(response, "date", received)
    date = received if date is None else date
    found: set[int | None] = set()
    # (of several lines the first may count, or none)
    for value in {values[0]} if len(values) == 1 else {values[0], "0"}:
        expires = valid_date(value, received)
        found.add(0 if expires is None else max(0, expires - date))
    return found


# Section 4.2.2


def heuristics(status: int, response: Fields, received: int, is_shared: bool) -> set[int | None]:
    """A tenth of the time since the last modification, if a lifetime may be guessed."""
    tells = directives(response)
    if lifetimes(response, received, is_shared) != {None} or not (status in HEURISTIC or has(tells, "public")):
        return {None}
    modified = one_date(response, "last-modified", received)
    if modified is None:
        return {None}
    date = one_date(response, "date", received)
    return {max(0, (received if date is None else date) - modified) // 10}


# Section 4.2.3


def current_ages(response: Fields, asked: int, received: int, now: int) -> set[int]:
    date = one_date(response, "date", received)
    apparent = 0 if date is None else max(0, received - date)
    ages = [it.strip(" \t") for line in lines_of(response, "age") for it in line.split(",")]
    corrected = ((seconds(ages[0]) if ages else None) or 0) + max(0, received - asked)
    return {min(TOP, max(apparent, corrected) + max(0, now - received))}


# Section 4.1

LISTS = {"accept", "accept-charset", "accept-encoding", "accept-language", "access-control-request-headers",
         "cache-control", "connection", "expect", "if-match", "if-none-match", "te", "upgrade", "via"}


def vary_matches(stored: Fields, request: Fields, response: Fields) -> set[bool]:
    """Whether each field that Vary nominates matches, as a set of what a cache may find."""
    names = [it for it in members(lines_of(response, "vary")) if it]
    if "*" in names:
        return {False}
    for name in names:
        if not re.fullmatch(TOKEN, name):
            raise Malformed(name)
    each = [one_field_matches(name, lines_of(stored, name), lines_of(request, name)) for name in map(str.lower, names)]
    is_possible, is_sure = all(True in it for it in each), all(it == {True} for it in each)
    return {True} if is_sure else {True, False} if is_possible else {False}


def one_field_matches(name: str, one: list[str], other: list[str]) -> set[bool]:
    if bool(one) != bool(other):
        return {False}
    if one == other:
        return {True}
    if name not in LISTS:
        # (that lines may be combined is known of a list field alone)
        return {True, False} if ", ".join(one) == ", ".join(other) else {False}
    if members(one) == members(other):
        return {True}
    # Empty members, order and case may be normalized: a cache may find a match, and may not.
    loose = [sorted(it.lower() for it in members(lines)) for lines in (one, other)]
    if loose[0] == loose[1] or [it for it in members(one) if it] == [it for it in members(other) if it]:
        return {True, False}
    return {False}


# Sections 4, 4.2.4 and 5.2.1, and RFC 5861

SERVE, SERVE_AND_REVALIDATE, SERVE_STALE, REVALIDATE, REVALIDATE_OR_SERVE, UNAVAILABLE, FETCH = range(7)
# The names of the decisions in the programs of test cases.
NAMES = ["Serve", "ServeAndRevalidate", "ServeStale", "Revalidate", "RevalidateOrServe", "Unavailable", "Fetch"]


def decisions(stored_method: str, stored: Fields, method: str, request: Fields, response: Fields, asked: int,
              received: int, now: int, is_shared: bool) -> set[int]:
    """What a cache may decide that uses all that the text lets it, over all readings of what is given twice."""
    # "A cache MUST write through requests with methods that are unsafe to the origin server" (section 4)
    if method not in ("GET", "HEAD", "OPTIONS", "TRACE"):
        return {FETCH}
    asks = directives(request)
    unstored = UNAVAILABLE if has(asks, "only-if-cached") else FETCH
    # "the request method associated with the stored response allows it to be used for the presented request"
    if (stored_method, method) not in (("GET", "GET"), ("GET", "HEAD"), ("HEAD", "HEAD")):
        return {unstored}
    tells = directives(response)
    found = set()
    for is_matched in vary_matches(stored, request, response):
        if not is_matched:
            found.add(unstored)
            continue
        for lifetime in lifetimes(response, received, is_shared):
            for age in current_ages(response, asked, received, now):
                found |= {
                    decision(asks, tells, lifetime or 0, age, max_age, min_fresh, max_stale, meanwhile, on_error,
                             is_shared)
                    for max_age in or_none(stated(asks, "max-age", 0))
                    for min_fresh in or_none(stated(asks, "min-fresh", TOP))
                    for max_stale in stale_limits(asks)
                    for meanwhile in or_none(stated(tells, "stale-while-revalidate", 0))
                    for on_error in error_limits(asks, tells)
                }
    return found


def stale_limits(asks: Directives) -> set[int | None]:
    arguments = [argument for name, argument in asks if name == "max-stale"]
    if not arguments:
        return {None}
    # "If no value is assigned to max-stale, then the client will accept a stale response of any age."
    first = TOP if arguments[0] is None else seconds(arguments[0]) or 0
    return {first, 0} if len(arguments) > 1 else {first}


def error_limits(asks: Directives, tells: Directives) -> set[int | None]:
    pairs = itertools.product(*(or_none(stated(it, "stale-if-error", 0)) for it in (asks, tells)))
    return {min((it for it in pair if it is not None), default=None) for pair in pairs}


def decision(asks: Directives, tells: Directives, lifetime: int, age: int, max_age: int | None, min_fresh: int | None,
             max_stale: int | None, meanwhile: int | None, on_error: int | None, is_shared: bool) -> int:
    staleness = max(0, age - lifetime)
    # "an explicit in-protocol directive" against stale responses (section 4.2.4)
    is_prohibited = has(tells, "must-revalidate") or (
        is_shared and (has(tells, "proxy-revalidate") or has(tells, "s-maxage")))
    is_usable = not has(asks, "no-cache") and not has(tells, "no-cache")
    is_preferred = (max_age is None or age <= max_age) and (min_fresh is None or lifetime >= age + min_fresh)
    if is_usable and is_preferred:
        if lifetime > age:
            return SERVE
        if not is_prohibited:
            wants_fresh = max_age is not None and max_stale is None
            is_within = max_stale is None or staleness <= max_stale
            if meanwhile is not None and staleness <= meanwhile and is_within and not wants_fresh:
                return SERVE_AND_REVALIDATE
            if max_stale is not None and staleness <= max_stale:
                return SERVE_STALE
    if has(asks, "only-if-cached"):
        return UNAVAILABLE
    if on_error is not None and staleness <= on_error and is_usable and not is_prohibited:
        return REVALIDATE_OR_SERVE
    return REVALIDATE


# Section 4.3.1


def validators(response: Fields, now: int) -> Fields:
    found = []
    tags = lines_of(response, "etag")
    if len(tags) == 1 and ENTITY_TAG.fullmatch(tags[0]):
        found.append(("if-none-match", tags[0]))
    date = one_date(response, "last-modified", now)
    if date is not None:
        found.append(("if-modified-since", imf_fixdate(date)))
    return found
