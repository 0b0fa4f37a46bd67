"""The whole answer of a resource to a request (RFC 9110, sections 7.4 to 15)."""

import re
import time
from dataclasses import dataclass, fields
from enum import IntEnum
from typing import ClassVar, Dict, FrozenSet, Iterable, List, Optional, Sequence, SupportsIndex, Tuple, Union

from . import _library
from ._checks import check_members
from ._library import Text, Time, made
from .conditions import CONTENT_DIGESTS, RESPONSE_FIELDS
from .cors import CORS_FIELDS, CorsPolicy
from .errors import HeaderError
from .headers import Headers, HeadersLike, asked_of
from .values import ByteRange, ETag, MediaType, ranges_of

__all__ = ["Answer", "Denied", "Method", "Reason", "Representation", "Resource", "Sends", "State"]


class State(IntEnum):
    """What the target of a request is."""

    #: It has a current representation.
    CURRENT = 0
    #: It has none.
    ABSENT = 1
    #: It has none, and none is expected again.
    GONE = 2
    #: It is the server in general, `*` (RFC 9110, section 9.3.7): OPTIONS gets the methods, and any other method 404.
    SERVER = 3
    #: It has a new URI. A client may change POST to GET.
    MOVED_PERMANENTLY = 301
    #: It is under another URI for now. The method stays.
    TEMPORARY_REDIRECT = 307
    #: It has a new URI. The method stays.
    PERMANENT_REDIRECT = 308


class Reason(IntEnum):
    """Why a request is answered as it is: the first of these that applies."""

    #: Nothing stands in the way: the preconditions and Range decide, and then the method.
    ADMITTED = 0
    #: 400: Host is missing, is there twice, or is no host.
    INVALID_HOST = 1
    #: 421: the host isn't one of the resource's.
    MISDIRECTED = 2
    #: 501: the server doesn't implement the method.
    UNKNOWN_METHOD = 3
    #: 405: the server implements the method, and the resource doesn't have it.
    METHOD_NOT_ALLOWED = 4
    #: 204: the method is OPTIONS. A missing resource that no method makes gets 404.
    OPTIONS = 5
    #: 417: Expect has a member other than `100-continue`.
    UNMET_EXPECTATION = 6
    #: 301, 307 or 308: the resource is under another URI.
    MOVED = 7
    #: 410: the resource is gone.
    GONE = 8
    #: 404: there is no current representation, and the method makes none.
    NOT_FOUND = 9
    #: 411: the length of the content isn't stated.
    LENGTH_REQUIRED = 10
    #: 413: the content is longer than the limit.
    CONTENT_TOO_LARGE = 11
    #: 415: the method doesn't take the media type of the content.
    UNSUPPORTED_MEDIA_TYPE = 12
    #: 415: the method doesn't take a coding of the content.
    UNSUPPORTED_CODING = 13
    #: 406: no representation is acceptable.
    NOT_ACCEPTABLE = 14
    #: 428: the request doesn't name what it may replace.
    PRECONDITION_REQUIRED = 15
    #: 400: PUT with Content-Range, and no parts are taken. It comes after 417.
    PARTIAL_CONTENT = 16
    #: 204: a preflight, where `cors` counts. It comes after 421.
    PREFLIGHT = 17
    #: 401, 403, 429 or 503: the server denies the request. It comes after a preflight.
    DENIED = 18


class Sends(IntEnum):
    """What an answer sends. A response to HEAD never has content."""

    #: Nothing of the resource. The server may explain the status.
    NOTHING = 0
    #: A list of the representations that there are.
    ALTERNATIVES = 1
    #: All of the representation, or without a place all that the server makes as it performs GET.
    WHOLE = 2
    #: Ranges of it.
    PARTS = 3
    #: What comes of the method, which the server performs.
    RESULT = 4


@dataclass(frozen=True)
class Method:
    """A method that a resource has, and what it asks of a request."""

    #: Its name, with case.
    name: str
    #: The media types of content that it takes, as Accept lists them. Without them it takes any.
    accept: Union[str, Sequence[str]] = ()
    #: The codings of content that it takes, as Accept-Encoding lists them. Without them it takes none.
    accept_encoding: Union[str, Sequence[str]] = ()
    #: Whether it is performed if there is no current representation, as PUT. Any other is answered by 404.
    creates: bool = False
    #: Whether the request must name what it may replace, by entity tags in If-Match, by `*` in If-None-Match, or by a
    #: strong date in If-Unmodified-Since (RFC 6585, section 3). GET and HEAD need not.
    needs_condition: bool = False

    def __post_init__(self) -> None:
        check_members(self)


@dataclass(frozen=True)
class Representation:
    """What a server knows of a current representation."""

    #: Its media type, as the value of Content-Type.
    media_type: Union[MediaType, str, None] = None
    #: How many bytes it has, if that is known. If not, no ranges are sent.
    length: Optional[int] = None
    #: Its entity tag.
    etag: Union[ETag, str, None] = None
    #: When it was last modified.
    last_modified: Optional[Time] = None
    #: Its language, as the value of Content-Language.
    language: Optional[str] = None
    #: Its coding, as the value of Content-Encoding.
    coding: Optional[str] = None
    #: Whether ranges of it are sent.
    sends_ranges: bool = True
    #: Whether `last_modified` is a strong validator (RFC 9110, section 8.8.2.2).
    is_date_strong: bool = False

    def __post_init__(self) -> None:
        check_members(self)


@dataclass(frozen=True)
class Denied:
    """Why a server denies a request: by its credentials, or by the load. The answer says nothing of the resource.

    `HeaderError` if the status is none of the four, a 401 has no challenge, or the challenge can't be a field line.

    >>> resource = Resource([Method("GET")])
    >>> denied = Denied(401, challenge='Basic realm="notes"')
    >>> answer = resource.answer("POST", {"Host": "a.example"}, denied=denied)
    >>> answer.status, answer.fields
    (401, (('www-authenticate', 'Basic realm="notes"'),))
    """

    #: 401 (RFC 9110, section 15.5.2), 403 (15.5.4), 429 (RFC 6585, section 4) or 503 (RFC 9110, section 15.6.4).
    status: int
    #: The challenges of a 401, as the value of WWW-Authenticate (RFC 9110, section 11.6.1). Other answers have none.
    challenge: str = ""
    #: After how many seconds the client may send another request: Retry-After of a 429 or a 503, if that is known.
    retry_after: Optional[int] = None
    # Its values as the library takes them.
    _given: ClassVar[Tuple[bytes, Optional[int], int]]

    def __post_init__(self) -> None:
        check_members(self)
        challenge = _library.to_bytes(self.challenge, "challenge")
        if self.status not in (401, 403, 429, 503):
            raise HeaderError(f"status: {self.status} is none of 401, 403, 429 and 503")
        if self.status == 401 and not challenge:
            raise HeaderError("challenge: a 401 has one (RFC 9110, section 11.6.1)")
        if not _library.is_value(challenge):
            raise _library.rejected("challenge", [challenge])
        seconds = None if self.retry_after is None else _library.to_number(self.retry_after, "retry_after")
        object.__setattr__(self, "_given", (challenge, seconds, int(self.status)))


@dataclass(frozen=True)
class Answer:
    """What a resource answers a request."""

    #: Why it is this answer.
    reason: Reason
    #: The status. `None` if it comes of the method, which the server performs.
    status: Optional[int]
    #: What is sent.
    sends: Sends
    #: The place, in `representations`, of the one that the answer is about, if it is about one.
    place: Optional[int]
    #: The ranges that a 206 sends, in order.
    ranges: Tuple[ByteRange, ...]
    #: The fields: `apply` sets them in those of a response.
    fields: Tuple[Tuple[str, str], ...]
    #: The names of the fields that are the answer's alone.
    owns: FrozenSet[str]

    def __post_init__(self) -> None:
        check_members(self)

    def apply(self, response: Iterable[Tuple[str, str]]) -> List[Tuple[str, str]]:
        """The fields of a response that a server made, with those of this answer.

        >>> resource = Resource([Method("POST")], cors=CorsPolicy("https://a.example"))
        >>> request = {"Host": "b.example", "Origin": "https://a.example"}
        >>> answer = resource.answer("POST", request, length=2)
        >>> answer.status, answer.sends
        (None, <Sends.RESULT: 4>)
        >>> answer.apply([("Location", "/1"), ("Access-Control-Allow-Origin", "*")])
        [('Location', '/1'), ('access-control-allow-origin', 'https://a.example'), ('vary', 'origin')]
        """
        return [(name, value) for name, value in response if name.lower() not in self.owns] + list(self.fields)


_NO_RULES = (b"", b"", b"", b"", None, False)
_NOT_DENIED = (b"", None, 0)

_VERSIONS = (10, 11, 20, 30)
_BOUNDARY = re.compile(r"[A-Za-z0-9'+._-]{1,70}")


def _listed(given: Union[str, Sequence[str]]) -> str:
    return given if isinstance(given, str) else ", ".join(given)


@dataclass(frozen=True)
class Resource:
    """What a server knows of the target of a request before it performs a method.

    What can't be a resource raises `HeaderError`: a method that is no token, a value that can't be a field line, an
    entity tag or a boundary that is none, or a redirect without a location.

    >>> page = Representation("text/html", length=10, etag='"a"')
    >>> resource = Resource([Method("GET"), Method("PUT", "text/html")], [page])
    >>> request = {"Host": "a.example"}
    >>> answer = resource.answer("GET", {**request, "Range": "bytes=0-3"})
    >>> answer.status, answer.sends, answer.ranges
    (206, <Sends.PARTS: 3>, (ByteRange(first=0, last=3),))
    >>> answer = resource.answer("POST", request)
    >>> answer.status, answer.reason, dict(answer.fields)["allow"]
    (405, <Reason.METHOD_NOT_ALLOWED: 4>, 'GET, HEAD, PUT, OPTIONS')
    >>> resource.answer("PUT", {**request, "Content-Type": "text/plain"}, length=3).fields
    (('accept', 'text/html'),)
    """

    #: The methods that it has, in the order of Allow. GET stands for HEAD too, and each resource has OPTIONS.
    methods: Sequence[Union[Method, str]]
    #: Its current representations, the most wanted first. There may be none if they are made only as GET is performed.
    representations: Sequence[Representation] = ()
    #: Whether it exists.
    state: State = State.CURRENT
    #: Where it is, if it has moved.
    location: str = ""
    #: The hosts that it is served for, as they are written in Host, compared without case. One without a port is served
    #: at each port. None: any.
    hosts: Sequence[str] = ()
    #: Whether a representation is chosen by Accept.
    by_media_type: bool = False
    #: Whether it is chosen by Accept-Language.
    by_language: bool = False
    #: Whether it is chosen by Accept-Encoding.
    by_coding: bool = False
    #: Whether a read is answered by 406 if no representation is acceptable. If not, it gets the first.
    is_strict: bool = False
    #: The boundary between several parts: 1 to 70 letters, digits, or ', +, -, ., _. No range that is sent may hold it.
    boundary: str = "THIS_STRING_SEPARATES"
    #: Whether content must have a length.
    needs_length: bool = False
    #: The greatest length of content that is taken.
    limit: Optional[int] = None
    #: What responses say to requests from other origins, if they say anything.
    cors: Optional[CorsPolicy] = None
    #: The methods that the server implements for some resource, with GET, HEAD and `methods` (RFC 9110, section 9.1).
    #: `None`: those of RFC 9110, and PATCH. Any other is answered by 501, and one that isn't in `methods` by 405.
    implemented: Optional[Sequence[str]] = None
    #: Whether each change of a representation gives it a later date (RFC 9110, section 8.8.2.2): then If-Unmodified-Since
    #: with that date names it. An old date isn't enough: two changes may have come in its second.
    has_strong_dates: bool = False
    # Its texts as the library takes them, and the handle of the resource that it made of them.
    _texts: ClassVar[Sequence[bytes]]
    _handle: "ClassVar[_library.Handle]"

    def __post_init__(self) -> None:
        check_members(self)
        methods = tuple(it if isinstance(it, Method) else Method(it) for it in self.methods)
        object.__setattr__(self, "methods", methods)
        if self.limit is not None:
            object.__setattr__(self, "limit", _library.to_number(self.limit, "limit"))
        status, handle = self._made(methods)
        _library.check(status, lambda: self._refused(methods))
        object.__setattr__(self, "_handle", handle)

    def __reduce__(self) -> Tuple[object, ...]:
        return Resource, tuple(getattr(self, it.name) for it in fields(self))

    def _made(self, methods: Tuple[Method, ...]) -> "Tuple[int, _library.Handle]":
        shown = self.representations
        lists: Dict[str, List[str]] = {
            "hosts": list(self.hosts),
            "methods": [it.name for it in methods],
            "creating": [it.name for it in methods if it.creates],
            "guarded": [it.name for it in methods if it.needs_condition],
            "accept": [_listed(it.accept) for it in methods],
            "accept_encoding": [_listed(it.accept_encoding) for it in methods],
            "location": [],
            "media_types": [str(it.media_type or "") for it in shown],
            "languages": [it.language or "" for it in shown],
            "codings": [it.coding or "" for it in shown],
            "etags": [str(it.etag or "") for it in shown],
            "implemented": list(self.implemented or ()),
        }
        texts = [_library.joined(_library.to_lines(name, lines)) for name, lines in lists.items()]
        texts[6] = _library.to_bytes(self.location, "location")
        object.__setattr__(self, "_texts", texts)
        (hosts, names, creating, guarded, accept, accept_encoding, location, kinds, languages, codings, etags,
         implemented) = texts
        known = tuple(
            (
                None if it.length is None else _library.to_number(it.length, "length"),
                None if it.last_modified is None else _library.to_seconds(it.last_modified, "last_modified"),
                it.sends_ranges,
                it.is_date_strong,
            )
            for it in shown
        )
        boundary = _library.to_bytes(self.boundary, "boundary")
        resource = (
            hosts, names, creating, guarded, accept, accept_encoding, location, kinds, languages, codings, etags, boundary,
            None if self.implemented is None else implemented, self.limit, int(self.state), self.by_media_type,
            self.by_language, self.by_coding, self.is_strict, self.needs_length, self.cors is not None,
            self.has_strong_dates,
        )
        rules = _NO_RULES if self.cors is None else self.cors._rules
        return _library.calls.resource_handle_new(resource, known, rules)

    def answer(
        self,
        method: Text,
        request: HeadersLike,
        *,
        target: Text = "",
        length: Optional[SupportsIndex] = 0,
        version: int = 11,
        now: Optional[Time] = None,
        denied: Optional[Denied] = None,
    ) -> Answer:
        """What the resource answers a request.

        `request` has its fields. `target` is that of its request line: in absolute-form its host counts, else that of
        Host. `length` is that of its content: 0 if it has none, and `None` if it isn't stated. `version` is 10, 11, 20
        or 30, and `now` is when it is answered, the present if it isn't given. `denied` says why the server denies it,
        if it does. `HeaderError` if the method is no token, the target has no host, or a line can't be a field line.
        """
        verb, asked = _library.to_bytes(method, "method"), _library.to_bytes(target, "target")
        section = asked_of(request)
        size = None if length is None else _library.to_number(length, "length")
        present = int(time.time()) if now is None else _library.to_seconds(now, "now")
        known = (verb, asked, present, size, version if version in _VERSIONS else 0, size != 0)
        denial = _NOT_DENIED if denied is None else denied._given
        status, (place, code, reason, sends), ranges, text = _library.calls.resource_handle_answer(
            self._handle, section, known, denial
        )
        if status:
            text_of = section if isinstance(section, bytes) else b""
            _library.check(status, lambda: _wrong_request(verb, asked, text_of, version))
        lines = tuple(Headers(text).pairs())
        named = {name for name, _ in lines}
        if reason == Reason.ADMITTED and code and not (sends == Sends.WHOLE and place is None):
            named.update(RESPONSE_FIELDS, _OF_REPRESENTATION, () if code == 200 else CONTENT_DIGESTS)
        if self.cors is not None:
            named.update(CORS_FIELDS)
        parts = ranges_of(ranges)
        return made(
            Answer,
            reason=Reason(reason),
            status=code or None,
            sends=Sends(sends),
            place=place,
            ranges=parts,
            fields=lines,
            owns=frozenset(named),
        )

    def _refused(self, methods: Tuple[Method, ...]) -> HeaderError:
        known = [("methods", it.name) for it in methods] + [("implemented", it) for it in self.implemented or ()]
        for name, method in known:
            if not _library.is_token(method):
                return HeaderError(f"{name}: {method!r} is no token (RFC 9110, section 9.1)")
        if self.state >= State.MOVED_PERMANENTLY and not self.location:
            return HeaderError("location: a resource that has moved needs one")
        if not _BOUNDARY.fullmatch(self.boundary):
            return HeaderError("boundary: expected 1 to 70 letters, digits, or ', +, -, ., _ (RFC 2046, section 5.1.1)")
        for shown in self.representations:
            if shown.etag is not None:
                try:
                    ETag.parse(str(shown.etag))
                except HeaderError as error:
                    return error
        names = ("hosts", "methods", "creating", "guarded", "accept", "accept_encoding", "location", "media_types",
                 "languages", "codings", "etags", "implemented")
        for name, text in zip(names, self._texts):
            for line in text.split(b"\n"):
                if not _library.is_value(line):
                    return _library.rejected(name, [line])
        return HeaderError("representations: a date lies past the year 9999")


#: The other fields of an answer that is about a representation.
_OF_REPRESENTATION = ("content-encoding", "content-language")


def _wrong_request(method: bytes, target: bytes, section: bytes, version: int) -> HeaderError:
    try:
        _library.canonical_text(section)
    except HeaderError as error:
        return error
    if not _library.is_token(method):
        return HeaderError(f"method: {_library.to_str(method)!r} is no token (RFC 9110, section 9.1)")
    if version not in _VERSIONS:
        return HeaderError(f"version: {version} is none of 10, 11, 20 and 30")
    shown = _library.to_str(target)
    return HeaderError(f"target: {shown!r} has no host, or one that can't be a field line (RFC 9112, section 3.2.2)")
