"""What the library says of a message's head: each field, and what caches, browsers and range requests may do with it.

`inspect` returns a `Report`, which is data; `python3 -m typed_headers inspect` prints it. Each answer is that of a call
of the library. Nothing is computed here.
"""

from __future__ import annotations

import re
import time
from dataclasses import dataclass, field, is_dataclass
from datetime import datetime
from enum import IntEnum
from typing import Any, Callable, Dict, List, Optional, Tuple, TypeVar

from . import _library
from ._checks import check_members
from ._library import Text, Time, made
from ._names import FIELDS
from .caching import Decision, judge, validators
from .conditions import Precondition, Selection, Target, evaluate, select
from .errors import HeaderError, InvalidField
from .headers import Headers, canonical_field, canonical_known
from .values import Host, Origin

__all__ = [
    "CacheReport",
    "CorsReport",
    "FieldReport",
    "Head",
    "Report",
    "ValidatorReport",
    "inspect",
    "parse_heads",
    "report_data",
]


@dataclass(frozen=True)
class Head:
    """The head of a message: its start line and its header section."""

    #: The method of a request, else `None`.
    method: Optional[str]
    #: The status of a response, else `None`.
    status: Optional[int]
    #: The start line, empty if there was none.
    start: str
    #: The lines that are fields.
    section: bytes
    #: The other lines, each with its number in the head, from 1.
    wrong: Tuple[Tuple[int, str], ...] = ()

    def __post_init__(self) -> None:
        check_members(self)


@dataclass(frozen=True)
class FieldReport:
    """A field, its lines, and their canonical form or why they are rejected."""

    name: str
    lines: Tuple[str, ...]
    is_known: bool
    canonical: Optional[Tuple[str, ...]]
    error: Optional[str] = None
    #: The line and the byte that are rejected, from 0, if the library says so.
    line: Optional[int] = None
    byte: Optional[int] = None

    def __post_init__(self) -> None:
        check_members(self)


@dataclass(frozen=True)
class CacheReport:
    """What a cache may do with the response."""

    may_store: bool
    #: For how many seconds the response is fresh, or `None` if its origin doesn't say.
    lifetime: Optional[int]
    #: How old it is, in seconds.
    age: int
    #: What the cache does if the same request comes again now.
    decision: Decision

    def __post_init__(self) -> None:
        check_members(self)


@dataclass(frozen=True)
class CorsReport:
    """What a response says to scripts of other origins: the canonical field lines, or `None` if a field is absent."""

    allow_origin: Optional[str]
    allow_credentials: Optional[str]
    expose_headers: Optional[str]
    allow_methods: Optional[str]
    allow_headers: Optional[str]
    max_age: Optional[str]

    def __post_init__(self) -> None:
        check_members(self)


@dataclass(frozen=True)
class ValidatorReport:
    """How a client asks whether the response is still good."""

    etag: Optional[str]
    is_weak: Optional[bool]
    last_modified: Optional[datetime]
    #: The fields of a request that asks so.
    fields: Tuple[Tuple[str, str], ...]

    def __post_init__(self) -> None:
        check_members(self)


@dataclass(frozen=True)
class Report:
    """What the library says of a head. A part that doesn't apply is `None`."""

    head: Head
    fields: Tuple[FieldReport, ...]
    browser_cache: Optional[CacheReport] = None
    shared_cache: Optional[CacheReport] = None
    cors: Optional[CorsReport] = None
    validators: Optional[ValidatorReport] = None
    #: Canonical lines of the fields of ranges.
    ranges: Tuple[Tuple[str, str], ...] = ()
    #: Which part of a representation the request selects.
    selection: Optional[Selection] = None
    #: What the request's preconditions come to by the response's validators.
    precondition: Optional[Precondition] = None
    #: What could not be judged, and why.
    notes: Tuple[str, ...] = field(default=())

    def __post_init__(self) -> None:
        check_members(self)

    @property
    def is_valid(self) -> bool:
        """Whether each line is a field, and the library rejects none that it knows."""
        return not self.head.wrong and all(it.error is None for it in self.fields)


_RESPONSE = re.compile(rb"HTTP/\d(?:\.\d)? (\d{3})(?: .*)?")
_REQUEST = re.compile(rb"([!#$%&'*+.^_`|~0-9A-Za-z-]+) \S+ HTTP/\d(?:\.\d)?")


_NO_MEMORY = int(_library.Status.NO_MEMORY)


def _are_fields(section: bytes) -> bool:
    status, _ = _library.calls.section_new(section)
    if status == _NO_MEMORY:
        raise MemoryError
    return not status


def _head(lines: List[bytes]) -> Head:
    response, request = _RESPONSE.fullmatch(lines[0]), _REQUEST.fullmatch(lines[0])
    has_start = bool(response or request)
    given = [line + b"\n" for line in lines[has_start:]]
    kept, wrong = given, []
    if not _are_fields(b"".join(given)):
        kept = [line for line in given if _are_fields(line)]
        numbered = enumerate(lines[has_start:], 1 + has_start)
        wrong = [(number, _library.to_str(line)) for number, line in numbered if not _are_fields(line + b"\n")]
    return Head(
        method=request[1].decode("ascii") if request else None,
        status=int(response[1]) if response else None if request else 200,
        start=_library.to_str(lines[0]) if has_start else "",
        section=b"".join(kept),
        wrong=tuple(wrong),
    )


def parse_heads(text: Text) -> Tuple[Optional[Head], Optional[Head]]:
    """The request and the last response of a text as `curl -si` or `curl -sv` prints it.

    Responses with a status from 100 to 199 are left out. Fields without a start line are those of a response with
    status 200.

    >>> request, response = parse_heads("HTTP/1.1 200 OK\\r\\nAge: 7\\r\\n\\r\\ncontent")
    >>> response.status, response.section
    (200, b'Age: 7\\n')
    """
    given = _library.to_bytes(text, "the head")
    lines = (given[:-1] if given.endswith(b"\r") else given).replace(b"\r\n", b"\n").split(b"\n")
    if b"< HTTP/" in given and any(line.startswith(b"< HTTP/") for line in lines):
        # curl marks what it sent and what it got, and prints lines of its own between.
        lines = [line[2:] for line in lines if line[:2] in (b"> ", b"< ") or line in (b">", b"<")]
    heads: List[List[bytes]] = []
    is_open = False
    for line in lines:
        is_start = b"HTTP/" in line and bool(_RESPONSE.fullmatch(line) or _REQUEST.fullmatch(line))
        if is_start or not heads and line:
            heads.append([])
            is_open = True
        if not line:
            is_open = False
        elif is_open:
            heads[-1].append(line)
    request = response = None
    for head in map(_head, heads):
        if head.method is not None:
            request = head
        elif head.status is not None and head.status >= 200:
            response = head
    return request, response


# Their canonical lines have the port as it came, which may be no number of a port.
_PARSED: Dict[str, Callable[..., object]] = {"host": Host.parse, "origin": Origin.parse}


def _fields(headers: Headers) -> Tuple[FieldReport, ...]:
    found = []
    for name in headers:
        lines, is_known = tuple(headers.lines(name)), name in FIELDS
        canonical: Optional[Tuple[str, ...]] = None
        error = line = byte = None
        try:
            canonical = tuple(canonical_known(name, lines) if is_known else canonical_field(name, *lines))
            if name in _PARSED:
                _PARSED[name](*lines)
        except InvalidField as it:
            canonical, error, line, byte = None, it.reason, it.line, it.byte
        found.append(
            made(
                FieldReport,
                name=name,
                lines=lines,
                is_known=is_known,
                canonical=canonical,
                error=error,
                line=line,
                byte=byte,
            )
        )
    return tuple(found)


Value = TypeVar("Value")


def inspect(text: Text, *, received: Optional[Time] = None, length: Optional[int] = None) -> Report:
    """What the library says of the head of a response or of a request.

    A text with both, as `curl -sv` prints it, is judged as the response to that request. `received` is when the
    response came, the present if it isn't given. `length` is the length of the representation that a request for ranges
    selects from.

    >>> report = inspect("HTTP/1.1 200 OK\\nCache-Control: MAX-AGE=060\\nDate: yesterday\\n", received=1000)
    >>> for it in report.fields:
    ...     print(it.name, it.canonical or it.error)
    cache-control ('max-age=60',)
    date expected an HTTP date in a single field line (RFC 9110, section 6.6.1), not 'yesterday'
    >>> report.browser_cache.lifetime, report.browser_cache.decision
    (60, <Decision.SERVE: 0>)
    """
    asked, answered = parse_heads(text)
    head = answered or asked
    if head is None:
        raise HeaderError("there is no head: expected a start line or fields, as `curl -si URL` prints them")
    notes: List[str] = []

    def known(call: Callable[[], Value]) -> Optional[Value]:
        try:
            return call()
        except InvalidField:
            # The report of the field says so.
            return None
        except HeaderError as error:
            notes.append(str(error))
            return None

    headers = Headers(head.section)
    reports = _fields(headers)
    lines_of = {it.name: it.canonical for it in reports}
    at = int(time.time()) if received is None else _library.to_seconds(received, "received")
    method = asked.method if asked and asked.method else "GET"
    request = Headers(asked.section) if asked else Headers()

    def one(name: str) -> Optional[str]:
        lines = lines_of.get(name)
        return ", ".join(lines) if lines else None

    ranges = tuple((name, line) for name in ("accept-ranges", "range", "content-range") for line in [one(name)] if line)
    modified = known(lambda: headers.last_modified)
    target = Target(known(lambda: headers.etag), modified) if answered else Target()
    precondition = known(lambda: evaluate(method, request, target, at)) if asked and answered else None
    selection = None
    if asked and length is not None and precondition in (None, Precondition.PERFORM):
        size = length
        selection = known(lambda: select(method, request, target, size, at))
    if not answered:
        return Report(head, reports, ranges=ranges, selection=selection, notes=tuple(notes))

    exchange = method.encode("ascii"), request.section, headers.section, answered.status or 200

    def cache(shared: bool) -> Optional[CacheReport]:
        return known(lambda: CacheReport(*judge(*exchange, at, shared)))

    tag = target.etag
    return Report(
        head,
        reports,
        browser_cache=cache(False),
        shared_cache=cache(True),
        cors=CorsReport(
            allow_origin=one("access-control-allow-origin"),
            allow_credentials=one("access-control-allow-credentials"),
            expose_headers=one("access-control-expose-headers"),
            allow_methods=one("access-control-allow-methods"),
            allow_headers=one("access-control-allow-headers"),
            max_age=one("access-control-max-age"),
        ),
        validators=ValidatorReport(
            None if tag is None else str(tag),
            None if tag is None else str(tag).startswith("W/"),
            modified,
            known(lambda: validators(headers, at)) or (),
        ),
        ranges=ranges,
        selection=selection,
        precondition=precondition,
        notes=tuple(notes),
    )


def report_data(report: Report) -> Dict[str, Any]:
    """The report as data for JSON: enums by name, times in ISO 8601, and `is_valid`. The section's bytes are left out."""
    given: Dict[str, Any] = {
        name: [_field_data(field) for field in report.fields] if name == "fields" else _plain(member)
        for name, member in report.__dict__.items()
    }
    del given["head"]["section"]
    return {**given, "is_valid": report.is_valid}


def _field_data(report: FieldReport) -> Dict[str, Any]:
    canonical = None if report.canonical is None else [*report.canonical]
    return {**report.__dict__, "lines": [*report.lines], "canonical": canonical}


_SAME = frozenset((str, bool, int, type(None)))
_REPORTS: Dict[type, bool] = {}


def _plain(value: object) -> Any:
    kind = type(value)
    if kind in _SAME:
        return value
    if kind is tuple:
        return [it if type(it) is str else _plain(it) for it in value]  # type: ignore[attr-defined]
    if kind not in _REPORTS:
        _REPORTS[kind] = is_dataclass(kind)
    if _REPORTS[kind]:
        # (with its members in their order)
        found = value.__dict__.copy()
        for name, member in found.items():
            if type(member) not in _SAME:
                found[name] = _plain(member)
        return found
    if isinstance(value, IntEnum):
        return value.name.lower()
    return value.isoformat() if isinstance(value, datetime) else value
