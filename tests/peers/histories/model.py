"""A cache over time as a second reading of RFC 9111: what is stored (section 3), selected (4, 4.1), validated (4.3),
freshened (4.3.4, 4.3.5) and invalidated (4.4), in bounded memory.

Single messages are read by `caching.model` and `conditional.model`. Where the text leaves a choice to the cache, those
give all that it may do. This one does what the pages of the crates `cache_policy`, `cache_rules` and `cache_store`
name; each such place has the word *choice*.
"""
import re
from dataclasses import dataclass, replace

from caching.model import (LISTS, NAMES, TOKEN, TOP, Directives, Malformed, current_ages, decision, directives, has,
                           heuristics, may_store, one_date, seconds, validators)
from common.dates import imf_fixdate
from common.fields import Fields, lines_of, members
from conditional import model as conditional
from histories.targets import effective

SAFE = ("GET", "HEAD", "OPTIONS", "TRACE")
# RFC 9110, section 7.6.1, and RFC 9111, section 3.1.
OF_CONNECTION = {"connection", "keep-alive", "proxy-connection", "te", "transfer-encoding", "upgrade"}
OF_PROXY = {"proxy-authenticate", "proxy-authentication-info", "proxy-authorization"}
# "Header fields that the cache might depend upon to process a stored response" (section 3.2): Content-Length by name,
# and by choice what else speaks of the stored content.
OF_CONTENT = {"content-length", "content-encoding", "content-range"}
# Choice: a Connection that names one of these is wrong.
REUSE = {"age", "cache-control", "content-encoding", "content-length", "content-range", "content-type", "date", "etag",
         "expires", "last-modified", "set-cookie", "vary"}
# Choice: a malformed Cache-Control directs these.
STRICTEST: Directives = [("no-cache", None), ("no-store", None), ("private", None), ("must-revalidate", None),
                         ("max-age", "0")]
# How a stored response answers, by the status that the client gets.
ANSWERS = {200: "whole", 206: "part", 304: "not_modified", 400: "rejected", 416: "unsatisfiable"}


@dataclass(frozen=True)
class Request:
    method: str
    fields: Fields


@dataclass(frozen=True)
class Stored:
    """A stored response, with the request that it answered and the times of the exchange that validated it last."""

    request: Request
    status: int
    fields: Fields
    content: str
    requested: int
    received: int

    def made(self) -> int:
        """When it was made; without a valid Date when it came (RFC 9110, section 6.6.1)."""
        date = one_date(self.fields, "date", self.received)
        return self.received if date is None else date

    def modified(self) -> int | None:
        """The date for If-Modified-Since: without Last-Modified when it was made (section 4.3.2). Choice: a date before
        1970 isn't compared, so that the client gets the whole."""
        has_date = lines_of(self.fields, "last-modified")
        found = one_date(self.fields, "last-modified", self.received) if has_date else self.made()
        return None if found is None or found < 0 else found


@dataclass(frozen=True)
class Answer:
    """What a call answers: a word, the response that it is about, and fields that go with it."""

    word: str
    response: Stored | None = None
    fields: tuple[tuple[str, str | None], ...] = ()


# Cache-Control


def read(fields: Fields) -> Directives:
    try:
        return directives(fields)
    except Malformed:
        return STRICTEST


def number(found: Directives, name: str, invalid: int, bare: int | None = None) -> int | None:
    """The number of a directive. Choice: of several the first counts (section 4.2.1), and a bad one is `invalid`."""
    arguments = [argument for other, argument in found if other == name]
    if not arguments:
        return None
    if arguments[0] is None and bare is not None:
        return bare
    given = seconds(arguments[0])
    return invalid if given is None else given


def lifetime(stored: Stored, is_shared: bool, most: int) -> int:
    """Sections 4.2.1 and 4.2.2. Choices: of several Expires none is valid, and a guess is at most `most`."""
    fields, received = stored.fields, stored.received
    tells = read(fields)
    for name in ("s-maxage", "max-age") if is_shared else ("max-age",):
        stated = number(tells, name, 0)
        if stated is not None:
            return stated
    if lines_of(fields, "expires"):
        expires = one_date(fields, "expires", received)
        return 0 if expires is None else max(0, expires - stored.made())
    [guess] = heuristics(stored.status, fields, received, is_shared)
    return min(guess or 0, most)


# Section 4.1


def matches(stored: Stored, request: Request) -> bool:
    """Whether the stored response could be chosen, as far as method and Vary go. Choice: GET answers HEAD."""
    if (stored.request.method, request.method) not in (("GET", "GET"), ("GET", "HEAD"), ("HEAD", "HEAD")):
        return False
    names = [it for it in members(lines_of(stored.fields, "vary")) if it]
    return all(re.fullmatch(TOKEN, name) and name != "*"
               and is_same(name.lower(), lines_of(stored.request.fields, name.lower()),
                           lines_of(request.fields, name.lower())) for name in names)


def is_same(name: str, one: list[str], other: list[str]) -> bool:
    """Choice: byte for byte, or for a list field with the same members in order and case."""
    if one == other:
        return True
    if not one or not other or name not in LISTS or name == "via":
        return False
    has_escapes = name not in ("if-match", "if-none-match")
    lists = [list_of(lines, has_escapes) for lines in (one, other)]
    return lists[0] is not None and lists[0] == lists[1]


def list_of(lines: list[str], has_escapes: bool) -> list[str] | None:
    """The members of a list, each line by itself; `None` if a quoted-string has no end in its line."""
    found = []
    for line in lines:
        if not is_closed(line, has_escapes):
            return None
        found += [it for it in members([line], has_escapes) if it]
    return found


def is_closed(line: str, has_escapes: bool) -> bool:
    """Whether each quoted-string of the line ends in it."""
    rest = re.sub(r'"(?:[^"\\]|\\.)*"' if has_escapes else r'"[^"]*"', "", line, flags=re.DOTALL)
    return '"' not in rest


# Connection


def options(fields: Fields) -> set[str] | None:
    """The connection options, or `None` if the field is no list of tokens."""
    found = {it.strip(" \t").lower() for line in lines_of(fields, "connection") for it in line.split(",")} - {""}
    return found if all(re.fullmatch(TOKEN, it) for it in found) else None


def is_fair(fields: Fields, targets: tuple[str, ...]) -> bool:
    """Choice: a targeted field that isn't stored as it came is as wrong as one on which reuse depends."""
    found = options(fields)
    lost = OF_CONNECTION | OF_PROXY | {"age", "date"}
    return found is not None and not found & (REUSE | set(targets)) and not lost & set(targets)


def without_connection(fields: Fields) -> Fields:
    """Section 3.1."""
    dropped = OF_CONNECTION | OF_PROXY | (options(fields) or set())
    return [it for it in fields if it[0].lower() not in dropped]


def with_date(fields: Fields, received: int) -> Fields:
    """A recipient with a clock adds the time of receipt (RFC 9110, section 6.6.1)."""
    return fields if lines_of(fields, "date") else [*fields, ("date", imf_fixdate(received))]


# Section 4.3.4


def is_weak(tag: str) -> bool:
    return tag.startswith("W/")


def corresponds(stored: Fields, update: Fields) -> bool:
    """Whether the stored response has the validators of a 304. Choices: each of them counts, but a strong entity tag
    counts alone; dates correspond if their lines are equal, and invalid tags too."""
    tags, own_tags = lines_of(update, "etag"), lines_of(stored, "etag")
    dates, own_dates = lines_of(update, "last-modified"), lines_of(stored, "last-modified")
    if not tags and not dates:
        return not own_tags and not own_dates
    if len(tags) == 1 and not is_weak(tags[0]):
        return own_tags == tags
    if tags:
        if len(tags) > 1 or len(own_tags) != 1 or own_tags[0].removeprefix("W/") != tags[0].removeprefix("W/"):
            return False
    return not dates or dates == own_dates


def identified(chosen: list[Stored], update: Fields) -> list[Stored]:
    """Which of those that could be chosen a 304 updates. Choice: with a malformed Connection none."""
    if options(update) is None:
        return []
    found = [it for it in chosen if corresponds(it.fields, update)]
    tags = lines_of(update, "etag")
    if len(tags) == 1 and not is_weak(tags[0]):
        # "All the stored responses with one of those same strong validators are selected."
        return found
    if tags or lines_of(update, "last-modified"):
        # "the most recent of those matching stored responses is selected"
        return [most_recent(found)] if found else []
    # "there is only one stored response, and that stored response also lacks a validator"
    return found if len(chosen) == 1 else []


def is_described(stored: Stored, head: Fields) -> bool:
    """Whether a 200 to HEAD is about the stored response (section 4.3.5): "matching values for any received validator
    fields", and for Content-Length. Choices: tags match as for a 304; a stored validator that isn't received doesn't
    match; and a malformed Connection leaves no match."""
    return (options(head) is not None and corresponds(stored.fields, head)
            and all(lines_of(head, name) in ([], lines_of(stored.fields, name))
                    for name in ("last-modified", "content-length")))


def most_recent(found: list[Stored]) -> Stored:
    """Section 4: the most recent by Date. Choice: of those that are as recent the one that was stored last."""
    return max(reversed(found), key=Stored.made)


def selected(found: list[Stored]) -> Stored:
    """Section 4.1: "When a cache has multiple stored responses for a target URI and one or more omits the Vary header
    field, the cache SHOULD choose the most recent .. stored response with a valid Vary field value." """
    return most_recent([it for it in found if lines_of(it.fields, "vary")] or found)


def updated(stored: Stored, update: Fields, requested: int, received: int) -> Stored:
    """Section 3.2. A 304 without Date was made when it came (RFC 9110, section 6.6.1). Choice: without Age it has none,
    so the stored one goes."""
    kept = OF_CONNECTION | OF_PROXY | OF_CONTENT | (options(update) or set())
    given = [it for it in update if it[0].lower() not in kept]
    names = {name.lower() for name, _ in given} | {"age", "date"}
    fields = [it for it in stored.fields if it[0].lower() not in names] + given
    return replace(stored, fields=with_date(fields, received), requested=requested, received=received)


def is_for_cache(request: Request) -> bool:
    """"A cache MUST NOT evaluate conditional header fields that only apply to an origin server" (section 4.3.2)."""
    return (request.method in ("GET", "HEAD") and not lines_of(request.fields, "if-match")
            and not lines_of(request.fields, "if-unmodified-since"))


def answers(stored: Stored, request: Request, now: int, ranges: bool) -> set[str]:
    """How a stored response may answer the client's conditions and ranges (section 4.3.2)."""
    if not is_for_cache(request):
        return {"forward"}
    # Preconditions are about a 200 (RFC 9110, section 13.2.1).
    if stored.status != 200:
        return {"whole"}
    tags = lines_of(stored.fields, "etag")
    asked = conditional.Request(
        request.method, request.fields, tags[0] if len(tags) == 1 else None, stored.modified(), len(stored.content),
        False, now)
    return {ANSWERS[status] + "".join(f" {first}-{last}" for first, last in parts)
            for status, parts in (asked.wanted() if ranges else asked.permitted())
            if ranges or status in (200, 304)}


class Cache:
    """The stored responses by target, the most recently used target last. Those of a target are in the order in which
    they were stored."""

    def __init__(self, is_shared: bool, variants: int, responses: int, is_immutable: bool = False,
                 targeted: tuple[str, ...] = ()) -> None:
        self.is_shared = is_shared
        # Options: `immutable` counts (RFC 8246), and the names of targeted fields (RFC 9213).
        self.is_immutable, self.targeted = is_immutable, targeted
        self.variants, self.responses = variants, responses
        self.targets: dict[str, list[Stored]] = {}

    def at(self, target: str) -> list[Stored]:
        return self.targets.get(target, [])

    def put(self, target: str, found: list[Stored]) -> None:
        """Makes these the responses of the target, which becomes the most recently used."""
        self.targets.pop(target, None)
        if found:
            self.targets[target] = found

    def chosen(self, target: str, request: Request) -> list[Stored]:
        return [it for it in self.at(target) if matches(it, request)]

    def may_store(self, request: Request, status: int, fields: Fields) -> bool:
        """Section 3. Choice: nothing is stored if a Cache-Control is malformed."""
        try:
            return may_store(request.method, status, request.fields, effective(fields, self.targeted), self.is_shared)
        except Malformed:
            return False

    def lookup(self, target: str, request: Request, now: int, most: int = 0) -> Answer:
        """Section 4. A lifetime that isn't stated is guessed, up to `most` seconds."""
        self.put(target, self.at(target))
        asks, found = read(request.fields), self.chosen(target, request)
        if request.method not in SAFE:
            return Answer("forward")
        if not found:
            return Answer("unavailable" if has(asks, "only-if-cached") else "forward")
        stored = selected(found)
        governed = replace(stored, fields=effective(stored.fields, self.targeted))
        tells = read(governed.fields)
        [age] = current_ages(stored.fields, stored.requested, stored.received, now)
        fresh_for = lifetime(governed, self.is_shared, most)
        if self.is_immutable and has(tells, "immutable") and age < fresh_for:
            # "Clients SHOULD NOT issue a conditional request during the response's freshness lifetime (e.g., upon a
            # reload) unless explicitly overridden by the user (e.g., a force reload)" (RFC 8246, section 2)
            asks = [it for it in asks if it[0] != "max-age"]
        limits = [number(it, "stale-if-error", 0) for it in (asks, tells)]
        decided = decision(
            asks, tells, fresh_for, age, number(asks, "max-age", 0),
            number(asks, "min-fresh", TOP), number(asks, "max-stale", 0, TOP), number(tells, "stale-while-revalidate", 0),
            min((it for it in limits if it is not None), default=None), self.is_shared)
        name = NAMES[decided]
        if name in ("Serve", "ServeStale", "ServeAndRevalidate"):
            word = "serve_and_revalidate" if name == "ServeAndRevalidate" else "serve"
            return Answer(word, stored, (("age", str(age)),))
        if name == "Unavailable":
            return Answer("unavailable")
        sent = dict(validators(stored.fields, stored.received))
        conditions = tuple((it, sent.get(it)) for it in ("if-none-match", "if-modified-since"))
        return Answer("validate_or_serve" if name == "RevalidateOrServe" else "validate", stored, conditions)

    def store(self, target: str, came: Stored, is_complete: bool) -> Answer:
        """Sections 3, 3.1, 3.3 and 4.3.3."""
        if not (is_complete and is_fair(came.fields, self.targeted) and self.may_store(came.request, came.status, came.fields)
                and self.responses):
            return Answer("unstored")
        new = replace(came, fields=with_date(without_connection(came.fields), came.received))
        kept = list(self.at(target))
        chosen = self.chosen(target, came.request)
        if chosen and selected(chosen).request.method == came.request.method:
            kept = [it for it in kept if it is not selected(chosen)]
        kept = kept[max(0, len(kept) + 1 - min(self.variants, self.responses)):]
        self.put(target, [*kept, new])
        self.make_room(target)
        return Answer("stored")

    def make_room(self, target: str) -> None:
        """Removes the least recently used targets, as few as have to go."""
        while sum(len(found) for found in self.targets.values()) > self.responses:
            del self.targets[next(it for it in self.targets if it != target)]

    def is_reusable(self, stored: Stored, new: Stored, request: Request, update: Fields) -> bool:
        """Whether an updated response may be stored, for each request that it answered, and be reused for this one and by
        others. Choices: a validation without a strong tag changes no Vary, since it may be about another
        representation, and in a shared cache none sets a cookie."""
        tags, vary = lines_of(update, "etag"), lines_of(update, "vary")
        is_strong = len(tags) == 1 and not is_weak(tags[0])
        return (is_fair(update, self.targeted) and matches(new, request)
                and (is_strong or vary in ([], lines_of(stored.fields, "vary")))
                and not (self.is_shared and lines_of(update, "set-cookie"))
                and all(self.may_store(it, new.status, new.fields) for it in (new.request, request)))

    def freshen(self, target: str, request: Request, update: Fields, requested: int, received: int) -> Answer:
        """Section 4.3.4."""
        chosen = self.chosen(target, request)
        if not chosen:
            return Answer("absent")
        found = identified(chosen, update)
        if not found:
            return Answer("unchanged")
        first, left = most_recent(found), []
        for stored in self.at(target):
            if stored is first:
                continue
            if not any(stored is it for it in found):
                left.append(stored)
            elif self.is_reusable(stored, new := updated(stored, update, requested, received), request, update):
                left.append(new)
        new = updated(first, update, requested, received)
        is_kept = self.is_reusable(first, new, request, update)
        self.put(target, [*left, new] if is_kept else left)
        return Answer("stored" if is_kept else "once", new)

    def freshen_by_head(self, target: str, request: Request, head: Fields, requested: int, received: int) -> Answer:
        """Section 4.3.5. Choice: what a HEAD isn't about is removed."""
        left = []
        for stored in self.at(target):
            if stored.request.method != "GET" or not matches(stored, request):
                left.append(stored)
            elif (is_described(stored, head)
                  and self.is_reusable(stored, new := updated(stored, head, requested, received), request, head)):
                left.append(new)
        self.put(target, left)
        return Answer(str(len(left)))

    def answers(self, target: str, place: int, request: Request, now: int, ranges: bool) -> set[str]:
        """How the stored response at a place may answer the client's conditions and ranges (section 4.3.2)."""
        if place >= len(self.at(target)):
            return {"(none)"}
        return answers(self.at(target)[place], request, now, ranges)

    def invalidate(self, target: str, method: str, status: int) -> Answer:
        """Section 4.4."""
        if method not in SAFE and 200 <= status < 400:
            self.targets.pop(target, None)
        return Answer(str(len(self.at(target))))
