"""The answers of `decide_preconditions` and `decide_resource`, by the library for C. A header section that the library
refuses is answered by 400, as by a server that reads it."""
from collections.abc import Iterable
from typing import Any

from conditional.model import Answer
from common import products
from common.dates import http_date
from common.fields import Fields, lines_of, section

# An answer, with its Last-Modified if it is one of a representation.
Dated = tuple[Answer, int | None]


def parts_of(ranges: Iterable[Any]) -> tuple[tuple[int, int], ...]:
    """The parts, in the order in which they are sent."""
    return tuple((it.first, it.last) for it in ranges)


def date_of(fields: Iterable[tuple[str, str]], now: int) -> int | None:
    dates = lines_of(fields, "last-modified")
    return http_date(dates[0], now) if dates else None


def answer(method: str, lines: Fields, etag: str | None, modified: int | None, length: int, is_date_strong: bool,
           now: int, exists: bool = True) -> Answer:
    """By `evaluate` and `select`."""
    headers = products.library()
    request = (method, section(lines), headers.Target(etag, modified, exists, is_date_strong))
    try:
        before = headers.evaluate(*request, now)
        if before != headers.Precondition.PERFORM:
            return int(before), ()
        if not exists and method in ("GET", "HEAD"):
            return 404, ()
        if method not in ("GET", "HEAD"):
            return 200, ()
        selected = headers.select(*request, length, now)
    except headers.HeaderError:
        return 400, ()
    return selected.status, parts_of(selected.ranges)


def response(method: str, lines: Fields, etag: str | None, modified: int | None, length: int, is_date_strong: bool,
             now: int, exists: bool = True) -> Dated | None:
    """By `respond`; `None` if the server answers by itself."""
    headers = products.library()
    target = headers.Target(etag, modified, exists, is_date_strong)
    try:
        found = headers.respond(method, section(lines), target, headers.Content(length), now=now)
    except headers.HeaderError:
        return (400, ()), None
    return found and ((found.status, parts_of(found.ranges)), date_of(found.fields, now))


def of_resource(method: str, lines: Fields, etag: str | None, modified: int | None, length: int, is_date_strong: bool,
                now: int, exists: bool = True) -> Dated:
    """By the whole answer of a resource with one representation, which any method may make."""
    headers = products.library()
    shown = headers.Representation("text/plain", length, etag, modified, is_date_strong=is_date_strong)
    state = headers.State.CURRENT if exists else headers.State.ABSENT
    resource = headers.Resource([headers.Method("GET"), headers.Method("POST", creates=True)], [shown][:exists], state)
    try:
        found = resource.answer(method, section([("Host", "a.example"), *lines]), now=now)
    except headers.HeaderError:
        return (400, ()), None
    return (found.status or 200, parts_of(found.ranges)), date_of(found.fields, now)
