"""The values of header fields. Each type has `parse`, from field lines, and `str`, its canonical field line.

Texts are `str` with a character for each byte (ISO 8859-1), as in WSGI and `http.client`.
"""

from base64 import b64encode
from dataclasses import dataclass, field
from datetime import datetime, timedelta, timezone
from enum import Enum
from typing import TYPE_CHECKING, Iterator, List, Optional, Sequence, Tuple

from . import _library
from ._checks import check_members, type_name
from ._library import Parsed, Text, Time
from .errors import HeaderError, InvalidField

# (a name of this module is found in half the time)
_read_content_range = _library.calls.content_range_as
_read_ranges = _library.calls.ranges_as
_first_named = _library.calls.first_named
_made = _library.made
_NO_MEMORY = int(_library.Status.NO_MEMORY)
#: The form of a list whose elements may have parameters, and the parts of its one element `*`.
_ELEMENTS, _ANY = 0, [[("n", "*", None)]]

__all__ = [
    "ByteRange",
    "CacheControl",
    "ContentRange",
    "Cookie",
    "Credentials",
    "ETag",
    "ETags",
    "Host",
    "IfRange",
    "MediaType",
    "Origin",
    "Range",
    "ReferrerPolicy",
    "RetryAfter",
    "StrictTransportSecurity",
    "age",
    "content_length",
    "date",
    "expires",
    "find_cookie",
    "format_date",
    "has_member",
    "last_modified",
    "members",
    "websocket_accept",
]


def age(line: Text, *more: Text) -> int:
    """The seconds of `Age` (RFC 9111, section 5.1).

    >>> age("+007")
    7
    """
    return _library.number(_library.calls.age, "age", (line, *more))


def content_length(line: Text, *more: Text) -> int:
    """The bytes of `Content-Length` (RFC 9110, section 8.6). Several field lines have to say the same.

    >>> content_length("42", "42")
    42
    """
    return _library.number(_library.calls.content_length, "content-length", (line, *more))


def date(line: Text, *more: Text) -> datetime:
    """The time of `Date` (RFC 9110, section 6.6.1), in one of the three formats of HTTP dates.

    >>> date("Sunday, 06-Nov-94 08:49:37 GMT")
    datetime.datetime(1994, 11, 6, 8, 49, 37, tzinfo=datetime.timezone.utc)
    """
    return _library.to_datetime(_library.number(_library.calls.date, "date", (line, *more)))


def expires(line: Text, *more: Text) -> datetime:
    """The time of `Expires` (RFC 9111, section 5.3)."""
    return _library.to_datetime(_library.number(_library.calls.expires, "expires", (line, *more)))


def last_modified(line: Text, *more: Text) -> datetime:
    """The time of `Last-Modified` (RFC 9110, section 8.8.2)."""
    return _library.to_datetime(_library.number(_library.calls.last_modified, "last-modified", (line, *more)))


def format_date(time: Time) -> str:
    """A time as an HTTP date (RFC 9110, section 5.6.7). A fraction of a second is cut off.

    >>> format_date(784111777)
    'Sun, 06 Nov 1994 08:49:37 GMT'
    """
    seconds = _library.to_seconds(time, "time")
    status, text = _library.calls.format_date(seconds)
    _library.check(status, lambda: HeaderError(f"time: {seconds} lies past the year 9999"))
    return _library.to_str(text)


def websocket_accept(line: Text, *more: Text) -> str:
    """The value of `Sec-WebSocket-Accept` that answers a `Sec-WebSocket-Key` (RFC 6455, section 4.2.2).

    >>> websocket_accept("dGhlIHNhbXBsZSBub25jZQ==")
    's3pPLMBiTxaQ9kYGzzhZRbK+xOo='
    """
    field = "sec-websocket-key"
    status, text = _library.calls.websocket_accept((line, *more))
    if status:
        reason = "expected the base64 of 16 bytes in a single field line (RFC 6455, section 4.2.1)"
        raise _library.failed(status, field, (line, *more), reason)
    return _library.to_str(text)


def _only(field: str, lines: Tuple[Text, ...]) -> str:
    """The canonical field line of a field that has one."""
    found = _library.canonical_lines(field, _library.to_lines(field, lines))
    return _library.to_str(found[0])


def _check(field: str, text: str) -> None:
    """Raises an error if the text isn't the canonical field line of a field."""
    lines = _library.to_lines(field, [text])
    if _library.canonical_lines(field, lines) != lines:
        raise _library.rejected(field, lines)


@dataclass(frozen=True)
class ETag(Parsed):
    """An entity tag (RFC 9110, section 8.8.3).

    >>> ETag.parse('W/"a"')
    ETag(opaque='a', weak=True)
    >>> str(ETag("a"))
    '"a"'
    >>> ETag("a").matches_weakly(ETag("a", weak=True)), ETag("a").matches_strongly(ETag("a", weak=True))
    (True, False)
    """

    #: The text between the quotes.
    opaque: str
    #: Whether it begins with `W/`.
    weak: bool = False

    def __post_init__(self) -> None:
        if not isinstance(self.opaque, str) or not isinstance(self.weak, bool):
            check_members(self)
        ETag.parse(str(self))

    if TYPE_CHECKING:

        @classmethod
        def parse(cls, line: Text, *more: Text) -> "ETag":
            """The entity tag that the only field line of `ETag` is."""
            raise NotImplementedError

    _PARSE = "parse_etag"

    @classmethod
    def _otherwise(cls, status: int, lines: Tuple[Text, ...]) -> "ETag":
        raise _library.failed(status, "etag", lines)

    def __str__(self) -> str:
        return f'W/"{self.opaque}"' if self.weak else f'"{self.opaque}"'

    def matches_strongly(self, other: "ETag") -> bool:
        """Whether both tags are equal and neither is weak (RFC 9110, section 8.8.3.2)."""
        return _library.calls.strong_eq((str(self),), (str(other),))[1] == 1

    def matches_weakly(self, other: "ETag") -> bool:
        """Whether both tags are equal but for `W/` (RFC 9110, section 8.8.3.2)."""
        return _library.calls.weak_eq((str(self),), (str(other),))[1] == 1


@dataclass(frozen=True)
class ETags(Parsed):
    """The entity tags of `If-Match` or `If-None-Match`, or `*` for any (RFC 9110, sections 13.1.1 and 13.1.2).

    >>> tags = ETags.parse('"a", W/"b"')
    >>> tags.matches_weakly(ETag("b")), tags.matches_strongly(ETag("b")), len(tags)
    (True, False, 2)
    >>> ETags.parse("*").is_any, str(ETags((ETag("a"), ETag("b", weak=True))))
    (True, '"a", W/"b"')
    """

    tags: Tuple[ETag, ...] = ()
    #: Whether this is `*`, which has no tags.
    is_any: bool = False

    _TAG = ETag

    def __post_init__(self) -> None:
        check_members(self)
        if self.is_any and self.tags:
            raise HeaderError("tags: expected either any or these")
        if ETags.parse(str(self)) != self:
            raise HeaderError(f"tags: {str(self)!r} has other tags, as a list has ASCII alone")

    if TYPE_CHECKING:

        @classmethod
        def parse(cls, line: Text, *more: Text) -> "ETags":
            """The tags of all field lines."""
            raise NotImplementedError

    _PARSE = "parse_etags"

    @classmethod
    def _otherwise(cls, status: int, lines: Tuple[Text, ...]) -> "ETags":
        """What lines without tags are: empty, or `*`."""
        found = _library.calls.groups(None, lines[0], lines[1:], _ELEMENTS)
        status = found if isinstance(found, int) else status
        if status or found not in ([], _ANY):
            raise _library.failed(status, "if-none-match", lines)
        return _made(cls, tags=(), is_any=found == _ANY)

    def __str__(self) -> str:
        return "*" if self.is_any else ", ".join(map(str, self.tags))

    def __iter__(self) -> Iterator[ETag]:
        return iter(self.tags)

    def __len__(self) -> int:
        return len(self.tags)

    def matches_strongly(self, tag: ETag) -> bool:
        """Whether this is `*`, or a tag matches as `ETag.matches_strongly` says. `If-Match` is compared so."""
        return self.is_any or any(it.matches_strongly(tag) for it in self.tags)

    def matches_weakly(self, tag: ETag) -> bool:
        """Whether this is `*`, or a tag matches as `ETag.matches_weakly` says. `If-None-Match` is compared so."""
        return self.is_any or any(it.matches_weakly(tag) for it in self.tags)


@dataclass(frozen=True)
class IfRange:
    """On what a request for a range depends: an entity tag, or a date (RFC 9110, section 13.1.5).

    >>> IfRange.parse('"a"').etag
    ETag(opaque='a', weak=False)
    >>> str(IfRange(date=datetime(1994, 11, 6, 8, 49, 37, tzinfo=timezone.utc)))
    'Sun, 06 Nov 1994 08:49:37 GMT'
    """

    etag: Optional[ETag] = None
    date: Optional[datetime] = None

    def __post_init__(self) -> None:
        check_members(self)
        if (self.etag is None) == (self.date is None):
            raise HeaderError("if-range: expected either an entity tag or a date")
        if self.date is not None:
            object.__setattr__(self, "date", _library.to_datetime(_library.to_seconds(self.date, "date")))
        _check("if-range", str(self))

    @classmethod
    def parse(cls, line: Text, *more: Text) -> "IfRange":
        """The tag or the date of the field line."""
        text = _only("if-range", (line, *more))
        try:
            return _made(cls, etag=ETag.parse(text), date=None)
        except InvalidField:
            return _made(cls, etag=None, date=date(text))

    def __str__(self) -> str:
        if self.date is not None:
            return format_date(self.date)
        return str(self.etag)


@dataclass(frozen=True)
class MediaType(Parsed):
    """A media type (RFC 9110, section 8.3.1).

    >>> html = MediaType.parse('Text/HTML;Charset=UTF-8; a="b c"')
    >>> html.essence, html.charset, html.parameter("a")
    ('text/html', 'utf-8', 'b c')
    >>> str(html)
    'text/html; charset=utf-8; a="b c"'
    >>> str(MediaType("image", "png"))
    'image/png'
    """

    type: str
    subtype: str
    #: Names and values of the parameters, in order. A value is a token or a quoted-string, as it is written.
    parameters: Tuple[Tuple[str, str], ...] = ()

    def __post_init__(self) -> None:
        check_members(self)
        read = MediaType.parse(str(self))
        given = (self.type.lower(), self.subtype.lower(), len(self.parameters))
        if (read.type, read.subtype, len(read.parameters)) != given:
            raise _library.rejected("content-type", _library.to_lines("content-type", [str(self)]))
        for name in ("type", "subtype", "parameters"):
            object.__setattr__(self, name, getattr(read, name))

    if TYPE_CHECKING:

        @classmethod
        def parse(cls, line: Text, *more: Text) -> "MediaType":
            """The media type that the first field line of `Content-Type` is."""
            raise NotImplementedError

    _PARSE = "parse_media_type"

    @classmethod
    def _otherwise(cls, status: int, lines: Tuple[Text, ...]) -> "MediaType":
        raise _library.failed(status, "content-type", lines)

    def __str__(self) -> str:
        return self.essence + "".join(f"; {name}={value}" for name, value in self.parameters)

    @property
    def essence(self) -> str:
        """Type and subtype, as `text/html`."""
        return f"{self.type}/{self.subtype}"

    @property
    def charset(self) -> Optional[str]:
        """The parameter `charset`, if there is one."""
        value = _first_named(self.parameters, "charset")
        return value if value is None or value[:1] != '"' else _meant(value)

    def parameter(self, name: str) -> Optional[str]:
        """The first parameter of a name, without quotes and backslashes (RFC 9110, section 5.6.4)."""
        value = _library.first_named(self.parameters, name)
        return None if value is None else _meant(value)


def _meant(value: str) -> str:
    """What the value of a parameter means, which is itself if it is a token."""
    if value[:1] != '"':
        return value
    status, shown = _library.calls.field_parts(_ELEMENTS, (f"a={value}",))
    _library.check(status, lambda: HeaderError(f"{value!r} is no value of a parameter"))
    return _library.to_str(shown[len("pa=") : -len("\n\n")])


# The directives in the order of the library's call.
_SECONDS = ("max_age", "max_stale", "min_fresh", "s_maxage")
_STALE = ("stale_while_revalidate", "stale_if_error")
_NAMES = ("no_cache_fields", "private_fields")
_FLAGS = (
    "no_cache",
    "no_store",
    "no_transform",
    "only_if_cached",
    "must_revalidate",
    "must_understand",
    "public",
    "private",
    "immutable",
    "proxy_revalidate",
)


@dataclass(frozen=True)
class CacheControl(Parsed):
    """The directives of `Cache-Control` (RFC 9111, section 5.2, RFC 5861 and RFC 8246). A number of seconds is `None`
    if it isn't set. Other directives are ignored.

    >>> CacheControl.parse("no-cache, MAX-AGE=060").max_age
    60
    >>> CacheControl.parse('private="set-cookie, x-user", stale-if-error=5').private_fields
    ('set-cookie', 'x-user')
    >>> str(CacheControl(max_age=60, public=True))
    'public, max-age=60'
    """

    max_age: Optional[int] = None
    max_stale: Optional[int] = None
    min_fresh: Optional[int] = None
    s_maxage: Optional[int] = None
    no_cache: bool = False
    no_store: bool = False
    no_transform: bool = False
    only_if_cached: bool = False
    must_revalidate: bool = False
    must_understand: bool = False
    proxy_revalidate: bool = False
    public: bool = False
    private: bool = False
    immutable: bool = False
    stale_while_revalidate: Optional[int] = None
    stale_if_error: Optional[int] = None
    #: The field names of `no-cache="..."` and `private="..."`, by which `no_cache` and `private` aren't set (RFC 9111,
    #: sections 5.2.2.4 and 5.2.2.7).
    no_cache_fields: Tuple[str, ...] = ()
    private_fields: Tuple[str, ...] = ()

    def __post_init__(self) -> None:
        check_members(self)
        for name in _SECONDS + _STALE:
            seconds = getattr(self, name)
            if seconds is not None:
                object.__setattr__(self, name, _library.to_number(seconds, name))
        for name in _NAMES:
            for field_name in getattr(self, name):
                if not _library.is_token(field_name):
                    raise HeaderError(f"{name}: {field_name!r} is no field name (RFC 9110, section 5.1)")

    if TYPE_CHECKING:

        @classmethod
        def parse(cls, line: Text, *more: Text) -> "CacheControl":
            """The directives of all field lines."""
            raise NotImplementedError

    _PARSE = "parse_cache_control"

    @classmethod
    def _otherwise(cls, status: int, lines: Tuple[Text, ...]) -> "CacheControl":
        """What the lines encode, of which some directives are those of other calls."""
        status, found = _library.calls.cache_control(lines)
        if status:
            raise _library.failed(status, "cache-control", lines)
        members = dict(zip(_SECONDS, found))
        members.update(zip(_FLAGS, map(bool, found[len(_SECONDS) :])))
        status, stale = _library.calls.stale_directives(lines)
        if status:
            raise _library.failed(status, "cache-control", lines)
        names = (_arguments(lines, b"no-cache"), _arguments(lines, b"private"))
        return _made(cls, **members, **dict(zip(_STALE, stale)), **dict(zip(_NAMES, names)))

    def __str__(self) -> str:
        # (in the order of a canonical field line)
        shown = []
        if self.no_cache:
            shown.append("no-cache")
        if self.no_store:
            shown.append("no-store")
        if self.no_transform:
            shown.append("no-transform")
        if self.only_if_cached:
            shown.append("only-if-cached")
        if self.must_revalidate:
            shown.append("must-revalidate")
        if self.public:
            shown.append("public")
        if self.private:
            shown.append("private")
        if self.immutable:
            shown.append("immutable")
        if self.must_understand:
            shown.append("must-understand")
        if self.proxy_revalidate:
            shown.append("proxy-revalidate")
        if self.max_age is not None:
            shown.append(f"max-age={self.max_age}")
        if self.max_stale is not None:
            shown.append(f"max-stale={self.max_stale}")
        if self.min_fresh is not None:
            shown.append(f"min-fresh={self.min_fresh}")
        if self.s_maxage is not None:
            shown.append(f"s-maxage={self.s_maxage}")
        if self.stale_while_revalidate is not None:
            shown.append(f"stale-while-revalidate={self.stale_while_revalidate}")
        if self.stale_if_error is not None:
            shown.append(f"stale-if-error={self.stale_if_error}")
        if self.no_cache_fields:
            shown.append(f'no-cache="{", ".join(self.no_cache_fields)}"')
        if self.private_fields:
            shown.append(f'private="{", ".join(self.private_fields)}"')
        return ", ".join(shown)


def _arguments(lines: Tuple[Text, ...], name: bytes) -> Tuple[str, ...]:
    """The members of the arguments of a directive of Cache-Control."""
    status, text = _library.calls.directive_arguments(lines, name)
    if status:
        raise _library.failed(status, "cache-control", lines)
    return tuple(members(*text.split(b"\n")[:-1])) if text else ()


@dataclass(frozen=True)
class ByteRange:
    """A range of bytes, by its first and its last position, both included.

    >>> b"abcdef"[ByteRange(1, 3).slice]
    b'bcd'
    """

    first: int
    last: int

    def __post_init__(self) -> None:
        for name in ("first", "last"):
            object.__setattr__(self, name, _library.to_number(getattr(self, name), name))

    @property
    def length(self) -> int:
        """How many bytes the range has."""
        return self.last - self.first + 1

    @property
    def slice(self) -> "slice":
        """The range as a slice of the content."""
        return slice(self.first, self.last + 1)


def ranges_of(found: Sequence[Tuple[int, int]]) -> Tuple[ByteRange, ...]:
    """Ranges that the library gave."""
    return tuple([_made(ByteRange, first=first, last=last) for first, last in found])


@dataclass(frozen=True)
class Range:
    """The ranges that a request asks for (RFC 9110, section 14.2).

    >>> Range.parse("bytes=0-4, -3").satisfiable(10)
    [ByteRange(first=0, last=4), ByteRange(first=7, last=9)]
    >>> str(Range.bytes((0, 4), (7, None), (None, 3)))
    'bytes=0-4,7-,-3'
    """

    #: The field line.
    text: str

    def __post_init__(self) -> None:
        check_members(self)
        _ranges(self.text, (), 0)

    @classmethod
    def parse(cls, line: Text, *more: Text) -> "Range":
        """The ranges of the first field line."""
        _ranges(line, more, 0)
        return _made(cls, text=line if isinstance(line, str) else _library.to_str(bytes(line)))

    @classmethod
    def bytes(cls, *ranges: Tuple[Optional[int], Optional[int]]) -> "Range":
        """The ranges from a first to a last position. Without a last one, a range goes to the end; without a first
        one, it is so many bytes at the end."""
        shown = []
        for first, last in ranges:
            if first is None and last is None or first is not None and last is not None and first > last:
                raise HeaderError(f"range: ({first}, {last}) is no range of bytes")
            numbers = ("" if it is None else str(_library.to_number(it, "range")) for it in (first, last))
            shown.append("-".join(numbers))
        return cls("bytes=" + ",".join(shown))

    def __str__(self) -> str:
        return self.text

    def satisfiable(self, length: int) -> List[ByteRange]:
        """The ranges that a representation of so many bytes can satisfy, in order (RFC 9110, section 14.1.2)."""
        return _ranges(self.text, (), _library.to_number(length, "length"))


def _ranges(line: Text, more: Tuple[Text, ...], length: int) -> List[ByteRange]:
    found = _read_ranges(ByteRange, line, more, length)
    if isinstance(found, int):
        raise _library.failed(found, "range", (line, *more))
    return found


@dataclass(frozen=True)
class ContentRange:
    """Which bytes of a representation a message has (RFC 9110, section 14.4).

    >>> ContentRange.parse("bytes 0-4/10")
    ContentRange(range=ByteRange(first=0, last=4), length=10)
    >>> str(ContentRange(None, 10))
    'bytes */10'
    """

    #: The range, or `None` if no range could be satisfied.
    range: Optional[ByteRange]
    #: The length of the whole representation, or `None` if it isn't known.
    length: Optional[int]

    def __post_init__(self) -> None:
        check_members(self)
        if self.length is not None:
            object.__setattr__(self, "length", _library.to_number(self.length, "length"))
        _check("content-range", str(self))

    @classmethod
    def parse(cls, line: Text, *more: Text) -> "ContentRange":
        """The range of the first field line."""
        found = _read_content_range((cls, ByteRange), line, more)
        if isinstance(found, int):
            raise _library.failed(found, "content-range", (line, *more))
        return found

    def __str__(self) -> str:
        part = "*" if self.range is None else f"{self.range.first}-{self.range.last}"
        return f"bytes {part}/{'*' if self.length is None else self.length}"


@dataclass(frozen=True)
class RetryAfter:
    """When a client may ask again (RFC 9110, section 10.2.3): after a delay, or from a time on, in whole seconds.

    >>> RetryAfter.parse("120").delay
    datetime.timedelta(seconds=120)
    >>> str(RetryAfter(date=datetime(1994, 11, 6, 8, 49, 37, tzinfo=timezone.utc)))
    'Sun, 06 Nov 1994 08:49:37 GMT'
    """

    delay: Optional[timedelta] = None
    date: Optional[datetime] = None

    def __post_init__(self) -> None:
        check_members(self)
        if (self.delay is None) == (self.date is None):
            raise HeaderError("retry-after: expected either a delay or a date")
        _check("retry-after", str(self))
        if self.delay is not None:
            object.__setattr__(self, "delay", self.delay // _library.SECOND * _library.SECOND)
        if self.date is not None:
            object.__setattr__(self, "date", _library.to_datetime(_library.to_seconds(self.date, "date")))

    @classmethod
    def parse(cls, line: Text, *more: Text) -> "RetryAfter":
        """The delay or the time of the first field line. A delay of more than 999,999,999 days is that long."""
        status, (found, is_date) = _library.calls.retry_after((line, *more))
        if status:
            raise _library.failed(status, "retry-after", (line, *more))
        if is_date:
            return _made(cls, delay=None, date=_library.to_datetime(found))
        days, seconds = divmod(found, 86400)
        return _made(cls, delay=timedelta(min(days, timedelta.max.days), seconds), date=None)

    def __str__(self) -> str:
        if self.date is not None:
            return format_date(self.date)
        assert self.delay is not None, "there is either a delay or a date"
        return str(self.delay // _library.SECOND)


@dataclass(frozen=True)
class StrictTransportSecurity:
    """For how long a browser uses HTTPS alone (RFC 6797, section 6.1).

    >>> StrictTransportSecurity.parse("max-age=31536000; includeSubDomains")
    StrictTransportSecurity(max_age=31536000, include_subdomains=True)
    """

    max_age: int
    include_subdomains: bool = False

    def __post_init__(self) -> None:
        check_members(self)
        object.__setattr__(self, "max_age", _library.to_number(self.max_age, "max_age"))

    @classmethod
    def parse(cls, line: Text, *more: Text) -> "StrictTransportSecurity":
        """The policy of the only field line."""
        status, (max_age, include_subdomains) = _library.calls.strict_transport_security((line, *more))
        if status:
            raise _library.failed(status, "strict-transport-security", (line, *more))
        return _made(cls, max_age=max_age, include_subdomains=include_subdomains == 1)

    def __str__(self) -> str:
        return f"max-age={self.max_age}{'; includeSubdomains' if self.include_subdomains else ''}"


class ReferrerPolicy(Enum):
    """What a browser says in `Referer` (Referrer Policy, section 8.1).

    >>> ReferrerPolicy.parse("unknown, no-referrer, same-origin")
    <ReferrerPolicy.SAME_ORIGIN: 'same-origin'>
    """

    NO_REFERRER = "no-referrer"
    NO_REFERRER_WHEN_DOWNGRADE = "no-referrer-when-downgrade"
    SAME_ORIGIN = "same-origin"
    ORIGIN = "origin"
    ORIGIN_WHEN_CROSS_ORIGIN = "origin-when-cross-origin"
    UNSAFE_URL = "unsafe-url"
    STRICT_ORIGIN = "strict-origin"
    STRICT_ORIGIN_WHEN_CROSS_ORIGIN = "strict-origin-when-cross-origin"

    @classmethod
    def _missing_(cls, value: object) -> "ReferrerPolicy":
        if not isinstance(value, str):
            raise TypeError(f"referrer-policy: expected str, not {type_name(value)}")
        raise _library.rejected("referrer-policy", _library.to_lines("referrer-policy", [value]))

    @classmethod
    def parse(cls, line: Text, *more: Text) -> "ReferrerPolicy":
        """The last policy of the field lines that is known."""
        return cls(_only("referrer-policy", (line, *more)))

    def __str__(self) -> str:
        return str(self.value)


@dataclass(frozen=True)
class Credentials(Parsed):
    """The credentials of Basic, a user name and a password (RFC 7617), or those of Bearer, a token (RFC 6750).

    >>> given = Credentials.parse("Basic QWxhZGRpbjpvcGVuIHNlc2FtZQ==")
    >>> given.user, given.password
    ('Aladdin', 'open sesame')
    >>> given
    Credentials(user='Aladdin')
    >>> str(Credentials(token="mF_9.B5f-4.1JqM"))
    'Bearer mF_9.B5f-4.1JqM'
    """

    #: The user name of Basic, or `None`.
    user: Optional[str] = None
    #: The password of Basic, or `None`.
    password: Optional[str] = field(default=None, repr=False)
    #: The token of Bearer, or `None`.
    token: Optional[str] = field(default=None, repr=False)

    def __post_init__(self) -> None:
        check_members(self)
        if (self.user is None) != (self.password is None) or (self.user is None) == (self.token is None):
            raise HeaderError("credentials: expected either a user name and a password, or a token")
        if Credentials.parse(str(self)) != self:
            raise HeaderError("credentials: a user name has no colon, and a token is printable ASCII")

    if TYPE_CHECKING:

        @classmethod
        def parse(cls, line: Text, *more: Text) -> "Credentials":
            """The credentials of the first field line of `Authorization` or of `Proxy-Authorization`."""
            raise NotImplementedError

    _PARSE = "parse_credentials"

    @classmethod
    def _otherwise(cls, status: int, lines: Tuple[Text, ...]) -> "Credentials":
        if status == _NO_MEMORY:
            raise MemoryError
        _library.to_lines("authorization", lines)
        # (the message doesn't show the lines, which may hold a secret)
        reason = "expected credentials of Basic or Bearer (RFC 7617, section 2; RFC 6750, section 2.1)"
        raise InvalidField("authorization", reason)

    def __str__(self) -> str:
        if self.token is not None:
            return f"Bearer {self.token}"
        return "Basic " + b64encode(f"{self.user}:{self.password}".encode("utf-8")).decode("ascii")


@dataclass(frozen=True)
class Cookie(Parsed):
    """The cookies of a request, in order (RFC 6265, section 5.4). Its `repr` has the names alone.

    >>> cookies = Cookie.parse("SID=31d4d96e407aad42; lang=en-US; lang=de")
    >>> cookies
    Cookie(names=('SID', 'lang', 'lang'))
    >>> cookies.get("lang"), cookies.get("theme")
    ('en-US', None)
    >>> [name for name, value in cookies]
    ['SID', 'lang', 'lang']
    >>> str(Cookie((("SID", "31d4d96e407aad42"), ("lang", "en-US"))))
    'SID=31d4d96e407aad42; lang=en-US'
    """

    #: Names and values.
    pairs: Tuple[Tuple[str, str], ...] = ()

    def __post_init__(self) -> None:
        check_members(self)
        if Cookie.parse(str(self)).pairs != self.pairs:
            raise _library.rejected("cookie", _library.to_lines("cookie", [str(self)]))

    if TYPE_CHECKING:

        @classmethod
        def parse(cls, line: Text, *more: Text) -> "Cookie":
            """The cookies of all field lines. What has no `=` is skipped."""
            raise NotImplementedError

    _PARSE = "parse_cookie"

    @classmethod
    def _otherwise(cls, status: int, lines: Tuple[Text, ...]) -> "Cookie":
        raise _library.failed(status, "cookie", lines)

    def get(self, name: str) -> Optional[str]:
        """The value of the first cookie with this name."""
        return next((value for other, value in self.pairs if other == name), None)

    def __repr__(self) -> str:
        return f"Cookie(names={tuple(name for name, _ in self.pairs)!r})"

    def __iter__(self) -> Iterator[Tuple[str, str]]:
        return iter(self.pairs)

    def __len__(self) -> int:
        return len(self.pairs)

    def __str__(self) -> str:
        return "; ".join(f"{name}={value}" for name, value in self.pairs)


def find_cookie(name: Text, line: Text, *more: Text) -> Optional[str]:
    """The value of the first cookie with this name, of all field lines of `Cookie` (RFC 6265, section 5.4).

    >>> find_cookie("lang", "SID=31d4d96e407aad42; lang=en-US")
    'en-US'
    """
    status, found = _library.calls.cookie((line, *more), _library.to_bytes(name, "name"))
    if status == _library.ABSENT:
        return None
    if status:
        raise _library.failed(status, "cookie", (line, *more))
    return _library.to_str(found)


@dataclass(frozen=True)
class Host:
    """The host of a request's target, and its port (RFC 9110, section 7.2).

    >>> Host.parse("example.org:8080")
    Host(name='example.org', port=8080)
    >>> str(Host("[::1]"))
    '[::1]'
    """

    #: The host. An IPv6 address has its brackets.
    name: str
    port: Optional[int] = None

    def __post_init__(self) -> None:
        check_members(self)
        if self.port is not None:
            object.__setattr__(self, "port", _library.to_number(self.port, "port", 16))
        if Host.parse(str(self)) != self:
            raise _library.rejected("host", _library.to_lines("host", [str(self)]))

    @classmethod
    def parse(cls, line: Text, *more: Text) -> "Host":
        """The host of the first field line, which has no user, and a port below 65,536 or none."""
        status, port, found = _library.calls.host((line, *more))
        if status:
            raise _library.failed(status, "host", (line, *more))
        return _made(cls, name=_library.to_str(found), port=port)

    def __str__(self) -> str:
        return self.name if self.port is None else f"{self.name}:{self.port}"


@dataclass(frozen=True)
class Origin:
    """The origin of a request: its scheme, host and port, or `null` (RFC 6454, section 7).

    >>> Origin.parse("https://example.org:8443")
    Origin(scheme='https', host='example.org', port=8443)
    >>> str(Origin()), Origin.parse("null").is_null
    ('null', True)
    """

    #: The scheme, or the empty text of `null`.
    scheme: str = ""
    #: The host, or the empty text of `null`. An IPv6 address has its brackets.
    host: str = ""
    port: Optional[int] = None

    def __post_init__(self) -> None:
        check_members(self)
        if self.port is not None:
            object.__setattr__(self, "port", _library.to_number(self.port, "port", 16))
        if Origin.parse(str(self)) != self:
            raise _library.rejected("origin", _library.to_lines("origin", [str(self)]))

    @classmethod
    def parse(cls, line: Text, *more: Text) -> "Origin":
        """The origin that the only field line is, which has no user, and a port below 65,536 or none."""
        status, (length, port, _), found = _library.calls.origin((line, *more))
        if status:
            raise _library.failed(status, "origin", (line, *more))
        text = _library.to_str(found)
        return _made(cls, scheme=text[:length], host=text[length:], port=port)

    @property
    def is_null(self) -> bool:
        """Whether this is `null`."""
        return self == Origin()

    def __str__(self) -> str:
        if not self.scheme and not self.host and self.port is None:
            return "null"
        return f"{self.scheme}://{self.host}" + ("" if self.port is None else f":{self.port}")


def members(line: Text, *more: Text) -> List[str]:
    """The members of a list between commas, as `Allow`, `Connection` and `Vary` are (RFC 9110, section 5.6.1).

    >>> members("GET, HEAD", "OPTIONS")
    ['GET', 'HEAD', 'OPTIONS']
    """
    status, found = _library.calls.members((line, *more))
    if status:
        raise _library.failed(status, "list", (line, *more), "expected a list (RFC 9110, section 5.6.1)")
    return _library.to_str(found).split("\n")[:-1]


def has_member(member: Text, line: Text, *more: Text, any_case: bool = True) -> bool:
    """Whether a list between commas has a member, as `Connection` and `Vary` are, whose members have no case. Those of
    `Allow` have.

    >>> has_member("close", "Keep-Alive, Close")
    True
    >>> has_member("get", "GET, HEAD", any_case=False)
    False
    """
    status, found = _library.calls.has_member((line, *more), _library.to_bytes(member, "member"), any_case)
    if status:
        raise _library.failed(status, "list", (line, *more), "expected a list (RFC 9110, section 5.6.1)")
    return found == 1
