"""Conditional requests and requests for ranges (RFC 9110, sections 13 and 14)."""

import re
import time
from dataclasses import dataclass
from datetime import datetime
from enum import IntEnum
from typing import ClassVar, Iterable, List, Optional, Tuple, Union

from . import _library
from ._checks import check_members
from ._library import Text, Time, made
from .errors import HeaderError
from .headers import Headers, HeadersLike, Section, section_of
from .values import ByteRange, ETag, MediaType, ranges_of

__all__ = ["Content", "Precondition", "Response", "Selection", "Target", "evaluate", "respond", "select"]


class Precondition(IntEnum):
    """What the preconditions of a request come to: the method is performed, or this is the status of the response."""

    PERFORM = 0
    NOT_MODIFIED = 304
    FAILED = 412


_PRECONDITIONS = {int(it): it for it in Precondition}
_TAG, _TIME = (ETag, str, type(None)), (type(None), datetime, int)


@dataclass(frozen=True)
class Target:
    """What a server knows of the target of a request."""

    #: The entity tag of its current representation.
    etag: Union[ETag, str, None] = None
    #: When that representation was last modified.
    last_modified: Optional[Time] = None
    #: Whether the target has a current representation.
    exists: bool = True
    #: Whether that date is a strong validator (RFC 9110, section 8.8.2.2).
    is_date_strong: bool = False

    _known: ClassVar[Optional[Tuple[bytes, Optional[int]]]] = None

    def __post_init__(self) -> None:
        # (this takes less time than `check_members`)
        is_right = isinstance(self.etag, _TAG) and isinstance(self.last_modified, _TIME)
        if not is_right or not isinstance(self.exists, bool) or not isinstance(self.is_date_strong, bool):
            check_members(self)


@dataclass(frozen=True)
class Selection:
    """Which part of a representation a request selects.

    With status 206 these are the ranges that are sent, in order. With 200 all of the representation is sent, with 416
    none of it.
    """

    status: int
    ranges: Tuple[ByteRange, ...] = ()

    def __post_init__(self) -> None:
        check_members(self)


@dataclass(frozen=True)
class Content:
    """What a response carries of a representation."""

    #: How many bytes it has, if that is known. If not, no ranges are sent.
    length: Optional[int] = None
    #: Its media type, as the value of Content-Type.
    media_type: Union[MediaType, str, None] = None
    #: Whether ranges of it are sent.
    sends_ranges: bool = True

    def __post_init__(self) -> None:
        check_members(self)


@dataclass(frozen=True)
class Response:
    """The response to a request for a representation."""

    #: 200, 206, 304, 412 or 416.
    status: int
    #: The ranges that a 206 sends, in order.
    ranges: Tuple[ByteRange, ...]
    #: The fields: `apply` sets them in those of a response.
    fields: Tuple[Tuple[str, str], ...]
    #: Whether a Content-Encoding that the server has set stays.
    keeps_encoding: bool

    def __post_init__(self) -> None:
        check_members(self)

    def apply(self, response: Iterable[Tuple[str, str]]) -> List[Tuple[str, str]]:
        """The fields that the server has set, with those of this response.

        >>> response = respond("GET", {"If-None-Match": '"a"'}, Target(etag=ETag("a")), Content(4, "text/plain"))
        >>> response.status, response.apply([("Content-Length", "4"), ("Vary", "Accept")])
        (304, [('Vary', 'Accept'), ('etag', '"a"')])
        """
        removed = {
            *RESPONSE_FIELDS,
            *(() if self.keeps_encoding else ("content-encoding",)),
            *(() if self.status == 200 else CONTENT_DIGESTS),
        }
        return [(name, value) for name, value in response if name.lower() not in removed] + list(self.fields)


#: Digests of the content, which are false of an answer without all of it.
CONTENT_DIGESTS = ("content-digest", "content-md5")
#: The fields of a response that are `respond`'s alone.
RESPONSE_FIELDS = ("etag", "last-modified", "accept-ranges", "content-range", "content-length", "content-type")

_Facts = Tuple[bytes, Optional[int], int, bool, bool]

_evaluate, _to_bytes = _library.calls.evaluate, _library.to_bytes
#: Usual methods, which take less time so.
_METHODS = {it: it.encode("ascii") for it in ("GET", "HEAD", "POST", "PUT", "PATCH", "DELETE", "OPTIONS")}


def _facts(target: Target, now: Optional[Time]) -> _Facts:
    present = int(time.time()) if now is None else _library.to_seconds(now, "now")
    known = target._known
    if known is None:
        etag, modified = target.etag, target.last_modified
        known = (
            b"" if etag is None else _to_bytes(str(etag), "etag"),
            None if modified is None else _library.to_seconds(modified, "last_modified"),
        )
        # (a target doesn't change)
        object.__setattr__(target, "_known", known)
    return known[0], known[1], present, target.exists, target.is_date_strong


def _refused(method: Text, request: HeadersLike, target: Target) -> HeaderError:
    section = Headers(request).section
    try:
        _library.canonical_text(section)
    except HeaderError as error:
        return error
    if target.etag is not None and not isinstance(target.etag, ETag):
        try:
            ETag.parse(target.etag)
        except HeaderError as error:
            return error
    verb = _library.to_str(_library.to_bytes(method, "method"))
    facts = f"the method {verb!r} is no token, or {target.last_modified} lies past the year 9999"
    return HeaderError(f"the request can't be judged: {facts}")


def evaluate(
    method: Text, request: HeadersLike, target: Target, now: Optional[Time] = None
) -> Precondition:
    """What the preconditions of a request come to (RFC 9110, section 13.2.2).

    A server asks this once it would otherwise answer with success, and before it performs the method. `now` is when
    the request is answered, the present if it isn't given.

    >>> evaluate("GET", {"If-None-Match": '"a", "b"'}, Target(etag=ETag("a")))
    <Precondition.NOT_MODIFIED: 304>
    >>> evaluate("PUT", {"If-Match": "*"}, Target(exists=False))
    <Precondition.FAILED: 412>
    """
    verb = (_METHODS.get(method) if type(method) is str else None) or _to_bytes(method, "method")
    facts = _facts(target, now)
    # (what is asked first takes no time)
    if type(request) is dict or not isinstance(request, Section):
        status, answer = _evaluate((verb, section_of(request)), facts)
    else:
        status, answer = _library.calls.section_evaluate(request._handle, verb, facts)
    if status:
        _library.check(status, lambda: _refused(method, request, target))
    return _PRECONDITIONS[answer]


def select(
    method: Text, request: HeadersLike, target: Target, length: int, now: Optional[Time] = None
) -> Selection:
    """Which part of the target's representation, of so many bytes, a request selects (RFC 9110, section 14.2).

    A server asks this once `evaluate` said that the method is performed. `HeaderError` if the target doesn't exist.

    >>> select("GET", {"Range": "bytes=0-3"}, Target(), 10)
    Selection(status=206, ranges=(ByteRange(first=0, last=3),))
    >>> select("GET", {"Range": "bytes=10-"}, Target(), 10).status
    416
    """
    verb, facts, size = _to_bytes(method, "method"), _facts(target, now), _library.to_number(length, "length")
    if isinstance(request, Section):
        status, answer, found = _library.calls.section_select(request._handle, verb, facts, size)
    else:
        status, answer, found = _library.calls.select((verb, section_of(request)), facts, size)
    _library.check(status, lambda: _refused(method, request, target))
    if status == _library.ABSENT:
        raise HeaderError("target: it doesn't exist, so nothing of it can be selected")
    return made(Selection, status=answer, ranges=ranges_of(found))


def respond(
    method: Text,
    request: HeadersLike,
    target: Target,
    content: Content,
    boundary: str = "THIS_STRING_SEPARATES",
    now: Optional[Time] = None,
) -> Optional[Response]:
    """The response to a GET or a HEAD of the target, by its preconditions and its ranges (RFC 9110, section 13.2.2).

    `None` if the preconditions let a request go on that isn't a GET or a HEAD of what exists: the server performs its
    method, and answers by itself. Several ranges are sent as `multipart/byteranges` with the boundary, which no range
    that is sent may hold.

    >>> response = respond("GET", {"Range": "bytes=0-3"}, Target(), Content(10, "text/plain"))
    >>> response.status, response.ranges
    (206, (ByteRange(first=0, last=3),))
    >>> dict(response.fields)["content-range"]
    'bytes 0-3/10'
    >>> respond("PUT", {}, Target(), Content(10)) is None
    True
    """
    length = None if content.length is None else _library.to_number(content.length, "length")
    kind = b"" if content.media_type is None else _library.to_bytes(str(content.media_type), "media_type")
    separator = _library.to_bytes(boundary, "boundary")
    verb, facts = _to_bytes(method, "method"), _facts(target, now)
    sent = (kind, separator, length, content.sends_ranges)
    if isinstance(request, Section):
        given = _library.calls.section_respond(request._handle, verb, facts, sent)
    else:
        given = _library.calls.respond((verb, section_of(request)), facts, sent)
    status, (code, keeps), found, text = given
    if status:
        _library.check(status, lambda: _no_response(method, request, target, kind, separator))
    if not code:
        return None
    lines = tuple(Headers(text).pairs())
    return made(Response, status=code, ranges=ranges_of(found), fields=lines, keeps_encoding=keeps == 1)


def _no_response(method: Text, request: HeadersLike, target: Target, kind: bytes, boundary: bytes) -> HeaderError:
    if not re.fullmatch(rb"[A-Za-z0-9'+._-]{1,70}", boundary):
        return HeaderError("boundary: expected 1 to 70 letters, digits, or ', +, -, ., _ (RFC 2046, section 5.1.1)")
    if not _library.is_value(kind):
        return HeaderError("media_type: it has a byte that no field value has (RFC 9110, section 5.5)")
    return _refused(method, request, target)
