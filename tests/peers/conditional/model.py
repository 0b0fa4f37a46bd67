"""RFC 9110, sections 13 and 14, as a second reading of their text: the answers that are permitted to a request for a
representation.

An answer is a status and the parts that are sent, as first and last positions. Those that are permitted have them in
order and joined where they touch: in which order they may be sent is judged apart. Where a field breaks its grammar and
the RFC has no rule for that, several answers are permitted.
"""
import re
from collections.abc import Iterable, Sequence

from common.dates import NoSuchTime, WrongDay, http_date
from common.fields import Fields, members

Part = tuple[int, int]
Answer = tuple[int, tuple[Part, ...]]
ENTITY_TAG = re.compile(r'(W/)?"([\x21\x23-\x7e\x80-\xff]*)"')
RANGES_SPECIFIER = re.compile(r"([!#$%&'*+\-.^_`|~0-9A-Za-z]+)=(.*)", re.DOTALL)


class AnyDate:
    """A text that has the grammar of a date and names no time: readings differ."""


def dates(values: list[str], now: int) -> set[int | None | AnyDate]:
    """The readings of a field that has to be one date. `None` is a field that is ignored."""
    if len(values) != 1:
        return {None}
    try:
        return {http_date(values[0], now)}
    except NoSuchTime:
        return {None, AnyDate()}


def matches(values: list[str], etag: str | None, is_weak: bool, may_name_any: bool = False) -> set[bool]:
    """Whether a tag of If-Match, or with weak comparison of If-None-Match, matches (sections 13.1.1 and 13.1.2). With
    `may_name_any` a malformed field may be taken for one that names the representation."""
    text = ", ".join(values)
    if text == "*":
        return {True}
    own = ENTITY_TAG.fullmatch(etag) if etag else None
    listed = [it for it in members([text], has_escapes=False) if it]
    tags = [ENTITY_TAG.fullmatch(it) for it in listed]

    def equals(tag: re.Match[str] | None) -> bool:
        return bool(tag and own and tag[2] == own[2] and (is_weak or not (tag[1] or own[1])))

    found = any(map(equals, tags))
    if all(tags):
        return {found}
    # Malformed, without a rule: its tags may count, or none.
    return {found, False} | ({True} if may_name_any or "*" in listed else set())


def joined(parts: Iterable[Sequence[int]]) -> tuple[Part, ...]:
    found: list[Part] = []
    for first, last in sorted(tuple(it) for it in parts):
        if found and first <= found[-1][1] + 1:
            found[-1] = (found[-1][0], max(found[-1][1], last))
        else:
            found.append((first, last))
    return tuple(found)


def plain(answer: Answer) -> Answer:
    """An answer as those that are permitted are told."""
    return answer[0], joined(answer[1])


def asked_parts(specs: list[str], length: int) -> list[Part] | None:
    """The positions that a ranges-specifier asks for, in its order, or `None` if it is invalid (sections 14.1.1 and
    14.1.2)."""
    if not specs:
        return None
    parts = []
    for spec in specs:
        ends = re.fullmatch(r"(\d*)-(\d*)", spec, re.ASCII)
        if not ends or spec == "-" or (ends[1] and ends[2] and int(ends[2]) < int(ends[1])):
            return None
        first, last = ends.groups()
        if not first and int(last) and length:
            parts.append((max(0, length - int(last)), length - 1))
        elif first and int(first) < length:
            parts.append((int(first), min(int(last), length - 1) if last else length - 1))
    return parts


def may_be_joined(parts: Sequence[Part], gap: int) -> set[tuple[Part, ...]]:
    """The parts that may be sent: a server may join those between which few bytes stand (section 15.3.7.2)."""
    exact = joined(parts)
    wide: list[Part] = []
    for first, last in exact:
        if wide and first - wide[-1][1] - 1 <= gap:
            wide[-1] = (wide[-1][0], last)
        else:
            wide.append((first, last))
    return {exact, tuple(wide)}


# How many bytes a server may send for the sake of fewer parts: fewer than a part costs. Ours takes 80.
GAP = 80


def specs_of(found: re.Match[str] | None) -> list[str]:
    return [it for it in (it.strip(" \t") for it in found[2].split(",")) if it] if found else []


def range_answers(text: str, length: int) -> set[Answer]:
    """The answers to Range. To ignore it is always permitted (section 14.2: MAY)."""
    found = RANGES_SPECIFIER.fullmatch(text)
    if found and found[1].lower() != "bytes":
        return {(200, ())}  # "MUST ignore a Range header field that contains a range unit it does not understand"
    parts = asked_parts(specs_of(found), length)
    if not parts:  # invalid: "MAY ignore or reject"; or unsatisfiable
        return {(200, ()), (416, ())}
    answers: set[Answer] = {(200, ()), *((206, it) for it in may_be_joined(parts, GAP))}
    # "MAY ignore, coalesce, or reject egregious range requests, such as requests for more than two overlapping ranges
    # or for many small ranges"
    return answers | ({(416, ())} if len(parts) > 2 else set())


def if_range(values: list[str], etag: str | None, modified: int | None, is_date_strong: bool, now: int) -> set[bool]:
    """Whether If-Range holds (section 13.1.5)."""
    if len(values) != 1:
        return {False, True}
    tag = ENTITY_TAG.fullmatch(values[0])
    if tag:
        own = ENTITY_TAG.fullmatch(etag) if etag else None
        return {bool(own and not tag[1] and not own[1] and tag[2] == own[2])}
    try:
        date = http_date(values[0], now)
    except WrongDay as wrong:
        return {False, modified == wrong.seconds and is_date_strong}
    except NoSuchTime:
        return {False}
    return {date is not None and modified == date and is_date_strong}


class Request:
    """A request for a representation, and what is known of that."""

    def __init__(self, method: str, lines: Fields, etag: str | None, modified: int | None, length: int,
                 is_date_strong: bool, now: int, exists: bool = True) -> None:
        self.method, self.etag, self.modified, self.length = method, etag, modified, length
        self.is_date_strong, self.now, self.exists = is_date_strong, now, exists
        self.fields: dict[str, list[str]] = {}
        for name, value in lines:
            self.fields.setdefault(name.lower(), []).append(value.strip(" \t"))
        self.is_read = method in ("GET", "HEAD")

    def goes_on(self) -> set[bool]:
        """Steps 1 and 2 of section 13.2.2."""
        if "if-match" in self.fields:
            return matches(self.fields["if-match"], self.etag, False)
        found: set[bool] = set()
        for date in dates(self.fields.get("if-unmodified-since", []), self.now):
            if isinstance(date, AnyDate):
                found |= {True, False}
            else:
                found.add(date is None or self.modified is None or self.modified <= date)
        return found

    def is_fresh(self) -> set[bool]:
        """Steps 3 and 4: whether the client has the representation."""
        if "if-none-match" in self.fields:
            # (a method that changes the representation may be held back by a field that nobody can read)
            return matches(self.fields["if-none-match"], self.etag, True, not self.is_read)
        found: set[bool] = set()
        for date in dates(self.fields.get("if-modified-since", []) if self.is_read else [], self.now):
            if isinstance(date, AnyDate):
                found |= {True, False}
            else:
                found.add(date is not None and self.modified is not None and self.modified <= date)
        return found

    def performed(self) -> set[Answer]:
        """Step 5, and the method."""
        if self.method != "GET" or "range" not in self.fields:
            return {(200, ())}
        lines = self.fields["range"]
        # (of several lines, which no sender may send, the first, the last or all may count)
        readings = {", ".join(lines), lines[0], lines[-1]}
        holds = {True}
        if "if-range" in self.fields:
            holds = if_range(self.fields["if-range"], self.etag, self.modified, self.is_date_strong, self.now)
        answers: set[Answer] = set()
        if True in holds:
            answers |= {it for text in readings for it in range_answers(text, self.length)}
        if False in holds:  # "MUST ignore the Range header field"
            answers.add((200, ()))
        return answers

    def permitted(self) -> set[Answer]:
        # (a control byte is no part of a field value, and "recipients MAY retain such characters": section 5.5)
        text = "".join(it for values in self.fields.values() for it in values)
        has_control = any(ord(byte) < 0x20 and byte != "\t" for byte in text)
        answers: set[Answer] = {(400, ())} if has_control else set()
        if not self.exists:
            # "MUST ignore all received preconditions if its response .. would have been a status code other than a
            # 2xx (Successful) or 412" (section 13.2.1): a read is 404.
            status = 404 if self.is_read else 412 if "if-match" in self.fields else 200
            return {*answers, (status, ())}
        goes_on, is_fresh = self.goes_on(), self.is_fresh()
        if False in goes_on:
            answers.add((412, ()))
        if True in goes_on and True in is_fresh:
            answers.add((304 if self.is_read else 412, ()))
        if True in goes_on and False in is_fresh:
            answers |= self.performed()
        return answers

    def dates_sent(self, status: int) -> set[int | None]:
        """The Last-Modified that an answer of this status may have: never one after its own date (section 8.8.2.1)."""
        date = None if self.modified is None else min(self.modified, self.now)
        if status == 206 and "if-range" in self.fields:
            return {None}  # "SHOULD NOT generate other representation header fields" (section 15.3.7)
        return {200: {date}, 206: {date}, 304: {date, None}}.get(status, {None})

    def is_in_order(self, parts: Sequence[Part]) -> bool:
        """Whether parts come as they were asked for: "A server that generates a multipart response SHOULD send the parts
        in the same order that the corresponding range-spec appeared in the received Range header field, excluding those
        ranges that were deemed unsatisfiable or that were coalesced into other ranges" (section 15.3.7.2). A part of
        several ranges may have the place of any of them."""
        lines = self.fields.get("range", [])
        if len(lines) != 1:
            return True
        asked = asked_parts(specs_of(RANGES_SPECIFIER.fullmatch(lines[0])), self.length) or []
        place = 0
        for first, last in parts:
            places = [it for it, (one, other) in enumerate(asked) if it >= place and first <= one and other <= last]
            if not places:
                return False
            place = places[0] + 1
        return True

    def wanted(self) -> set[Answer]:
        """As `permitted`, where the RFC also says SHOULD: one satisfiable range is sent (section 14.2)."""
        found = self.permitted()
        if len(self.fields.get("range", [])) == 1 and "if-range" not in self.fields and len(found) == 2:
            return {it for it in found if it[0] == 206 and len(it[1]) == 1} or found
        return found
