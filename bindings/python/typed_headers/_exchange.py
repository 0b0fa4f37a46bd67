"""What the middleware for WSGI and ASGI shares: how a response to a conditional request or to one for ranges is made
from the one that the application gave.

`typed_headers.respond` decides; here its answer is made of the application's response, and content is cut.
"""

import hashlib
import secrets
from dataclasses import dataclass, replace
from typing import Iterable, List, Optional, Sequence, Tuple

from .conditions import Content, Target
from .conditions import respond as answer_of
from .errors import HeaderError, InvalidField
from .headers import Headers
from .values import ByteRange, ContentRange, ETag

Fields = List[Tuple[str, str]]

#: The fields of a request that make it conditional, or one for ranges.
CONDITIONS = ("if-match", "if-none-match", "if-modified-since", "if-unmodified-since", "if-range", "range")
#: The fields of a request by which a policy for other origins answers it.
ORIGINS = ("origin", "access-control-request-method")

#: What the library says nothing of. An application states it of its 200: a cache would keep a 412 or 416 for as long.
_FRESHNESS = ("cache-control", "expires")
REASONS = {206: "Partial Content", 304: "Not Modified", 412: "Precondition Failed", 416: "Range Not Satisfiable"}


@dataclass(frozen=True)
class Response:
    """The head of a response, and how its content is cut: `None` if it is sent as it is."""

    status: int
    fields: Fields
    parts: Optional[Sequence[Tuple[bytes, ByteRange]]] = None
    #: What follows the last part.
    end: bytes = b""


def _without(fields: Fields, *names: str) -> Fields:
    return [(name, value) for name, value in fields if name.lower() not in names]


def _target(headers: Headers, is_date_strong: bool) -> Target:
    """What the response says of the representation. A field that can't be decoded says nothing."""
    try:
        etag = headers.etag
    except InvalidField:
        etag = None
    try:
        modified = headers.last_modified
    except InvalidField:
        modified = None
    return Target(etag, modified, is_date_strong=is_date_strong)


def length_of(fields: Iterable[Tuple[str, str]]) -> Optional[int]:
    """The length of the content, if the fields say it."""
    try:
        return Headers([(name, value) for name, value in fields if name.lower() == "content-length"]).content_length
    except InvalidField:
        return None


def tagged(fields: Fields, content: bytes) -> Fields:
    """The fields with an entity tag of the content, unless they have one."""
    if any(name.lower() == "etag" for name, _ in fields):
        return fields
    return [*fields, ("etag", str(ETag(hashlib.sha256(content).hexdigest()[:32])))]


def respond(
    method: str, request: Headers, given: Response, length: Optional[int], is_date_strong: bool = False
) -> Response:
    """The response to a GET or HEAD whose application answers as `given`, with content of so many bytes.

    The application's response is sent as it is if its status isn't 200, or if the library can't judge the request. So
    is a 200, but it gets the Accept-Ranges of the library's answer if it has none.
    """
    if given.status != 200:
        return given
    names = {name.lower(): value for name, value in given.fields}
    media_type, coding = names.get("content-type"), names.get("content-encoding", "identity")
    # (the application may say that it sends no ranges, or send one already)
    sends_ranges = names.get("accept-ranges", "bytes") == "bytes" and "content-range" not in names
    content, boundary = Content(length, media_type, sends_ranges), secrets.token_hex(16)
    try:
        validators = [(name, value) for name, value in given.fields if name.lower() in ("etag", "last-modified")]
        target = _target(Headers(validators), is_date_strong)
        answer = answer_of(method, request, target, content, boundary)
        if answer is not None and len(answer.ranges) > 1 and coding.lower() != "identity":
            # Range is ignored: the coding would be that of the parts and their boundaries together.
            answer = answer_of(method, Headers(_without(request.pairs(), "range")), target, content, boundary)
    except HeaderError:
        return given
    if answer is None:
        return given
    if answer.status == 200:
        added = [it for it in answer.fields if it[0] == "accept-ranges" and it[0] not in names]
        return replace(given, fields=[*given.fields, *added]) if added else given
    fields = answer.apply(given.fields if answer.status < 400 else _without(given.fields, *_FRESHNESS))
    return with_parts(answer.status, fields, answer.ranges, media_type, length or 0, boundary)


def with_parts(
    status: int, fields: Fields, ranges: Sequence[ByteRange], media_type: Optional[str], length: int, boundary: str
) -> Response:
    """A response that sends these ranges of content of so many bytes, with the length of several together."""
    if len(ranges) < 2:
        return Response(status, fields, [(b"", it) for it in ranges])
    parts, end = multipart(ranges, media_type, length, boundary)
    size = sum(len(head) + part.length for head, part in parts) + len(end)
    return Response(status, [*fields, ("content-length", str(size))], parts, end)


def multipart(
    ranges: Sequence[ByteRange], media_type: Optional[str], length: int, boundary: str
) -> Tuple[List[Tuple[bytes, ByteRange]], bytes]:
    """The ranges with what is sent before each, and what is sent after the last (RFC 9110, section 14.6)."""
    typed = f"Content-Type: {media_type}\r\n" if media_type is not None else ""
    parts = []
    for place, part in enumerate(ranges):
        lead = "\r\n" if place else ""
        head = f"{lead}--{boundary}\r\n{typed}Content-Range: {ContentRange(part, length)}\r\n\r\n"
        parts.append((head.encode("latin-1"), part))
    return parts, f"\r\n--{boundary}--\r\n".encode("latin-1")


class Cutter:
    """Cuts parts out of content that comes in pieces, in the order of their positions."""

    def __init__(self, response: Response, place: int = 0) -> None:
        self.parts, self.end, self.place = list(response.parts or ()), response.end, place
        self.is_open = False

    @property
    def is_done(self) -> bool:
        """Whether no further content is needed."""
        return not self.parts

    def cut(self, piece: bytes) -> bytes:
        """What is sent of the next piece of the content."""
        found, start = b"", self.place
        self.place += len(piece)
        while self.parts and self.parts[0][1].first < self.place:
            head, part = self.parts[0]
            if not self.is_open:
                found += head
                self.is_open = True
            found += piece[max(part.first - start, 0) : part.last + 1 - start]
            if part.last >= self.place:
                break
            del self.parts[0]
            self.is_open = False
            if not self.parts:
                found += self.end
        return found
