"""Fields that are one number, one time, one text or one list of texts.

A value of such a field is an `int`, a `datetime`, a `str` or a `tuple`, and equal to it. Each type has `parse`, from
field lines, and `str`, its canonical field line; `value` is the plain number, time, text or tuple.

>>> size = ContentLength.parse("042")
>>> size, str(size), size == 42, size + 1, size.value
(ContentLength(42), '42', True, 43, 42)
>>> Vary.parse("Accept", "Origin"), str(Vary(["Accept", "Origin"]))
(Vary(('Accept', 'Origin')), 'Accept, Origin')
>>> Age("7")
Traceback (most recent call last):
...
TypeError: age: expected int, not str
"""

from collections import abc
from datetime import datetime, timedelta, timezone, tzinfo
from functools import partial
from time import gmtime
from typing import (
    TYPE_CHECKING,
    Any,
    Callable,
    ClassVar,
    Iterable,
    Optional,
    SupportsIndex,
    Tuple,
    Type,
    TypeVar,
    overload,
)

from . import _library
from ._checks import type_name
from ._library import Text, Time
from .errors import HeaderError
from .values import Origin, format_date

__all__ = [
    "AcceptRanges",
    "AccessControlAllowCredentials",
    "AccessControlAllowHeaders",
    "AccessControlAllowMethods",
    "AccessControlAllowOrigin",
    "AccessControlExposeHeaders",
    "AccessControlMaxAge",
    "AccessControlRequestHeaders",
    "AccessControlRequestMethod",
    "Age",
    "Allow",
    "ConnectionOptions",
    "ContentEncoding",
    "ContentLength",
    "ContentLocation",
    "Date",
    "Expect",
    "Expires",
    "IfModifiedSince",
    "IfUnmodifiedSince",
    "LastModified",
    "Location",
    "Pragma",
    "Referer",
    "SecWebSocketAccept",
    "SecWebSocketKey",
    "SecWebSocketVersion",
    "Server",
    "TE",
    "TransferEncoding",
    "Upgrade",
    "UserAgent",
    "Vary",
]

#: How field lines are parsed: a status of the library, and what it found.
_Reader = Callable[[Tuple[Text, ...]], Tuple[int, Any]]

# (these make a value that needs no check)
_new_number, _new_text, _new_list, _new_time = int.__new__, str.__new__, tuple.__new__, datetime.__new__


def _canonical(field: str) -> _Reader:
    """The canonical field line of a field that has one, and a line end behind it."""
    return partial(_library.calls.field, field.encode("ascii"))


def _time_of(field: str) -> _Reader:
    """The seconds of a time that has no call of its own."""
    canonical = _canonical(field)

    def read(lines: Tuple[Text, ...]) -> Tuple[int, int]:
        status, found = canonical(lines)
        return (status, 0) if status else _library.calls.date((found[:-1],))

    return read


_Made = TypeVar("_Made", bound="_Number")


class _Number(int):
    """A field that is one number."""

    __slots__ = ()
    _FIELD: ClassVar[str] = ""
    _READ: ClassVar[_Reader]

    def __new__(cls: Type[_Made], value: SupportsIndex) -> _Made:
        return cls.parse(str(_library.to_number(value, cls._FIELD)))

    @classmethod
    def parse(cls: Type[_Made], line: Text, *more: Text) -> _Made:
        """The number that the field lines encode."""
        status, found = cls._READ((line, *more))
        if status:
            raise _library.failed(status, cls._FIELD, (line, *more))
        # (it is the number's text)
        return _new_number(cls, found)

    @classmethod
    def _otherwise(cls: Type[_Made], status: int, lines: Tuple[Text, ...]) -> _Made:
        raise _library.failed(status, cls._FIELD, lines)

    @property
    def value(self) -> int:
        """The number as an `int`."""
        return int(self)

    def __repr__(self) -> str:
        return f"{type(self).__name__}({int(self)})"

    __str__ = int.__repr__


class _Seconds(_Number):
    """A field that is a number of seconds."""

    __slots__ = ()

    @property
    def duration(self) -> timedelta:
        """The seconds as a `timedelta`. More than 999,999,999 days are that long."""
        days, seconds = divmod(int(self), 86400)
        return timedelta(min(days, timedelta.max.days), seconds)


class Age(_Seconds):
    """For how many seconds a response has been on its way and in caches: `Age` (RFC 9111, section 5.1)."""

    __slots__ = ()
    _FIELD = "age"

    if not TYPE_CHECKING:
        parse = classmethod(_library.calls.parse_age)


class AccessControlMaxAge(_Seconds):
    """For how many seconds a browser may keep the answer to a preflight (Fetch standard, section 3.3).

    >>> AccessControlMaxAge.parse("600").duration
    datetime.timedelta(seconds=600)
    """

    __slots__ = ()
    _FIELD, _READ = "access-control-max-age", _canonical("access-control-max-age")


class ContentLength(_Number):
    """How many bytes the content has: `Content-Length` (RFC 9110, section 8.6). Several field lines have to say the
    same."""

    __slots__ = ()
    _FIELD = "content-length"

    if not TYPE_CHECKING:
        parse = classmethod(_library.calls.parse_content_length)


class SecWebSocketVersion(_Number):
    """The version of the WebSocket protocol, which is 13 (RFC 6455, section 11.3.5)."""

    __slots__ = ()
    _FIELD, _READ = "sec-websocket-version", _canonical("sec-websocket-version")


_Leave = TypeVar("_Leave", bound="AccessControlAllowCredentials")


class AccessControlAllowCredentials(int):
    """That scripts of another origin may read the response to a request with credentials (Fetch standard, section 3.3).

    The field's one value is the word `true`, and equal to `True`.

    >>> AccessControlAllowCredentials.parse("true"), str(AccessControlAllowCredentials(True))
    (AccessControlAllowCredentials(True), 'true')
    """

    __slots__ = ()

    def __new__(cls: Type[_Leave], value: bool = True) -> _Leave:
        if not isinstance(value, (bool, cls)):
            raise TypeError(f"{_CREDENTIALS}: expected bool, not {type_name(value)}")
        return cls.parse("true" if value else "false")

    @classmethod
    def parse(cls: Type[_Leave], line: Text, *more: Text) -> _Leave:
        """The word `true`."""
        status, _ = _library.calls.field(_CREDENTIALS.encode("ascii"), (line, *more))
        if status:
            raise _library.failed(status, _CREDENTIALS, (line, *more))
        return _new_number(cls, 1)

    @property
    def value(self) -> bool:
        """`True`."""
        return True

    def __repr__(self) -> str:
        return f"{type(self).__name__}(True)"

    def __str__(self) -> str:
        return "true"

    def __reduce__(self) -> Tuple[Any, ...]:
        return type(self), (True,)


_CREDENTIALS = "access-control-allow-credentials"

_MadeTime = TypeVar("_MadeTime", bound="_Time")


class _Time(datetime):
    """A field that is one time, in whole seconds of UTC. What is computed of it is a `datetime`."""

    __slots__ = ()
    _FIELD: ClassVar[str] = ""
    _READ: ClassVar[_Reader]

    def __new__(cls: Type[_MadeTime], time: Time, *more: Any, **named: Any) -> _MadeTime:
        """A time: a `datetime` with a time zone, seconds since 1970, or what `datetime` takes."""
        given = datetime(time, *more, **named) if more or named else time  # type: ignore[arg-type]
        seconds = _library.to_seconds(given, cls._FIELD)
        status, text = _library.calls.format_date(seconds)
        _library.check(status, lambda: HeaderError(f"{cls._FIELD}: {seconds} lies past the year 9999"))
        return cls.parse(text)

    @classmethod
    def parse(cls: Type[_MadeTime], line: Text, *more: Text) -> _MadeTime:
        """The time that the field lines encode, in one of the three formats of HTTP dates."""
        status, seconds = cls._READ((line, *more))
        if status:
            raise _library.failed(status, cls._FIELD, (line, *more))
        return _new_time(cls, *gmtime(seconds)[:6], 0, timezone.utc)

    @classmethod
    def now(cls: Type[_MadeTime], tz: Optional[tzinfo] = None) -> _MadeTime:
        """The present."""
        return cls(datetime.now(tz or timezone.utc))

    @classmethod
    def fromtimestamp(cls: Type[_MadeTime], timestamp: float, tz: Optional[tzinfo] = None) -> _MadeTime:
        """The time that is so many seconds after the start of 1970."""
        return cls(datetime.fromtimestamp(timestamp, tz or timezone.utc))

    @property
    def value(self) -> datetime:
        """The time as a `datetime`."""
        return datetime.combine(self.date(), self.time(), timezone.utc)

    @property
    def seconds(self) -> int:
        """The seconds since the start of 1970."""
        return _library.to_seconds(self, self._FIELD)

    def __str__(self) -> str:
        return format_date(self)

    def __reduce_ex__(self, protocol: SupportsIndex) -> Tuple[Any, ...]:
        return type(self), (self.value,)

    def __add__(self, other: timedelta) -> datetime:  # type: ignore[override]
        return self.value + other

    def __radd__(self, other: timedelta) -> datetime:  # type: ignore[override]
        return self.value + other

    @overload  # type: ignore[override]
    def __sub__(self, other: datetime) -> timedelta: ...

    @overload
    def __sub__(self, other: timedelta) -> datetime: ...

    def __sub__(self, other: Any) -> Any:
        # (between two times, which makes none, this takes less time)
        difference: Any = super().__sub__
        return difference(other) if isinstance(other, datetime) else self.value - other

    def replace(self, *given: Any, **named: Any) -> datetime:  # type: ignore[override]
        return self.value.replace(*given, **named)

    def astimezone(self, tz: Optional[tzinfo] = None) -> datetime:  # type: ignore[override]
        return self.value.astimezone(tz)


class Date(_Time):
    """When a message was made: `Date` (RFC 9110, section 6.6.1).

    >>> made = Date.parse("Sunday, 06-Nov-94 08:49:37 GMT")
    >>> made
    Date(1994, 11, 6, 8, 49, 37, tzinfo=datetime.timezone.utc)
    >>> str(made), str(Date(784111777)), made.year
    ('Sun, 06 Nov 1994 08:49:37 GMT', 'Sun, 06 Nov 1994 08:49:37 GMT', 1994)
    >>> made + timedelta(days=1)
    datetime.datetime(1994, 11, 7, 8, 49, 37, tzinfo=datetime.timezone.utc)
    """

    __slots__ = ()
    _FIELD, _READ = "date", _library.calls.date


class Expires(_Time):
    """From when on a response is stale: `Expires` (RFC 9111, section 5.3)."""

    __slots__ = ()
    _FIELD, _READ = "expires", _library.calls.expires


class IfModifiedSince(_Time):
    """Since when a representation has to be modified to be sent: `If-Modified-Since` (RFC 9110, section 13.1.3)."""

    __slots__ = ()
    _FIELD, _READ = "if-modified-since", _time_of("if-modified-since")


class IfUnmodifiedSince(_Time):
    """Since when a representation may not be modified: `If-Unmodified-Since` (RFC 9110, section 13.1.4)."""

    __slots__ = ()
    _FIELD, _READ = "if-unmodified-since", _time_of("if-unmodified-since")


class LastModified(_Time):
    """When a representation was modified: `Last-Modified` (RFC 9110, section 8.8.2)."""

    __slots__ = ()
    _FIELD, _READ = "last-modified", _library.calls.last_modified


_MadeText = TypeVar("_MadeText", bound="_Text")


class _Text(str):
    """A field that is one text, with a character for each byte."""

    __slots__ = ()
    _FIELD: ClassVar[str] = ""
    _READ: ClassVar[_Reader]

    def __new__(cls: Type[_MadeText], value: str) -> _MadeText:
        if not isinstance(value, str):
            raise TypeError(f"{cls._FIELD}: expected str, not {type_name(value)}")
        found = cls.parse(value)
        if found != value:
            raise _library.rejected(cls._FIELD, _library.to_lines(cls._FIELD, [value]))
        return found

    @classmethod
    def parse(cls: Type[_MadeText], line: Text, *more: Text) -> _MadeText:
        """The text that the field lines encode."""
        status, found = cls._READ((line, *more))
        if status:
            raise _library.failed(status, cls._FIELD, (line, *more))
        return _new_text(cls, found[:-1], "latin-1")

    @property
    def value(self) -> str:
        """The text as a `str`."""
        return str(self)

    def __repr__(self) -> str:
        return f"{type(self).__name__}({super().__repr__()})"


class AccessControlAllowOrigin(_Text):
    """Whose scripts may read the response: `*`, `null` or one origin (Fetch standard, section 3.3).

    >>> allowed = AccessControlAllowOrigin.parse("https://a.example")
    >>> allowed.origin, allowed.is_any
    (Origin(scheme='https', host='a.example', port=None), False)
    """

    __slots__ = ()
    _FIELD, _READ = "access-control-allow-origin", _canonical("access-control-allow-origin")

    @property
    def is_any(self) -> bool:
        """Whether this is `*`."""
        return self == "*"

    @property
    def origin(self) -> Optional[Origin]:
        """The origin, or `None` if this is `*`."""
        return None if self.is_any else Origin.parse(self)


class AccessControlRequestMethod(_Text):
    """The method of the request that a preflight asks for, with case (Fetch standard, section 3.3)."""

    __slots__ = ()
    _FIELD, _READ = "access-control-request-method", _canonical("access-control-request-method")


class ContentLocation(_Text):
    """A URI of the representation that a message has: `Content-Location` (RFC 9110, section 8.7)."""

    __slots__ = ()
    _FIELD, _READ = "content-location", _canonical("content-location")


class Expect(_Text):
    """What a client expects, which is `100-continue` (RFC 9110, section 10.1.1)."""

    __slots__ = ()
    _FIELD, _READ = "expect", _canonical("expect")


class Location(_Text):
    """The URI that a response refers to, which may be relative: `Location` (RFC 9110, section 10.2.2)."""

    __slots__ = ()
    _FIELD, _READ = "location", _canonical("location")


class Pragma(_Text):
    """The text of `Pragma` (RFC 9111, section 5.4)."""

    __slots__ = ()
    _FIELD, _READ = "pragma", _canonical("pragma")


class Referer(_Text):
    """The URI from which the client has that of the request: `Referer` (RFC 9110, section 10.1.3)."""

    __slots__ = ()
    _FIELD, _READ = "referer", _canonical("referer")


class SecWebSocketAccept(_Text):
    """What a server answers to `Sec-WebSocket-Key` (RFC 6455, section 11.3.3). `websocket_accept` computes it."""

    __slots__ = ()
    _FIELD, _READ = "sec-websocket-accept", _canonical("sec-websocket-accept")


class SecWebSocketKey(_Text):
    """The nonce of a client's opening handshake (RFC 6455, section 11.3.1)."""

    __slots__ = ()
    _FIELD, _READ = "sec-websocket-key", _canonical("sec-websocket-key")


class Server(_Text):
    """The software of the origin server: `Server` (RFC 9110, section 10.2.4)."""

    __slots__ = ()
    _FIELD, _READ = "server", _canonical("server")


class Upgrade(_Text):
    """The protocols that a client offers, or to which a server switches: `Upgrade` (RFC 9110, section 7.8)."""

    __slots__ = ()
    _FIELD, _READ = "upgrade", _canonical("upgrade")


class UserAgent(_Text):
    """The software of the client: `User-Agent` (RFC 9110, section 10.1.5)."""

    __slots__ = ()
    _FIELD, _READ = "user-agent", _canonical("user-agent")


_MadeList = TypeVar("_MadeList", bound="_List")


class _List(Tuple[str, ...]):
    """A field that is a list between commas (RFC 9110, section 5.6.1). It is equal to a tuple or a list of its members.
    """

    __slots__ = ()
    _FIELD: ClassVar[str] = ""
    #: Whether members that differ in case alone are the same for `has`.
    _ANY_CASE: ClassVar[bool] = True

    def __new__(cls: Type[_MadeList], members: Iterable[str] = ()) -> _MadeList:
        if isinstance(members, str) or not isinstance(members, abc.Iterable):
            raise TypeError(f"{cls._FIELD}: expected several str, not {type_name(members)}")
        given = tuple(members)
        for it in given:
            if not isinstance(it, str):
                raise TypeError(f"{cls._FIELD}: expected str, not {type_name(it)}")
        text = ", ".join(given)
        found = cls.parse(text)
        if found != given:
            raise HeaderError(f"{cls._FIELD}: {text!r} has other members than {given!r}")
        return found

    @classmethod
    def parse(cls: Type[_MadeList], line: Text, *more: Text) -> _MadeList:
        """The members of all field lines."""
        status, found = _library.calls.members((line, *more))
        if status:
            raise _library.failed(status, cls._FIELD, (line, *more))
        return _new_list(cls, found.decode("latin-1").split("\n")[:-1])

    @property
    def value(self) -> Tuple[str, ...]:
        """The members as a `tuple`."""
        return tuple(self)

    def has(self, member: Text) -> bool:
        """Whether this is a member. Its case counts if it is a method, and not otherwise."""
        return _library.calls.has_member((str(self),), _library.to_bytes(member, "member"), self._ANY_CASE)[1] == 1

    def __eq__(self, other: object) -> bool:
        return super().__eq__(tuple(other) if isinstance(other, list) else other)

    def __ne__(self, other: object) -> bool:
        return not self == other

    __hash__ = tuple.__hash__

    def __repr__(self) -> str:
        return f"{type(self).__name__}({super().__repr__()})"

    def __str__(self) -> str:
        return ", ".join(self)


class AcceptRanges(_List):
    """The range units that a server takes for the target: `Accept-Ranges` (RFC 9110, section 14.3)."""

    __slots__ = ()
    _FIELD = "accept-ranges"


class AccessControlAllowHeaders(_List):
    """The names of fields that a request of another origin may have (Fetch standard, section 3.3)."""

    __slots__ = ()
    _FIELD = "access-control-allow-headers"


class AccessControlAllowMethods(_List):
    """The methods that a request of another origin may have (Fetch standard, section 3.3)."""

    __slots__ = ()
    _FIELD, _ANY_CASE = "access-control-allow-methods", False


class AccessControlExposeHeaders(_List):
    """The names of response fields that scripts of another origin may read (Fetch standard, section 3.3)."""

    __slots__ = ()
    _FIELD = "access-control-expose-headers"


class AccessControlRequestHeaders(_List):
    """The names of fields of the request that a preflight asks for (Fetch standard, section 3.3)."""

    __slots__ = ()
    _FIELD = "access-control-request-headers"


class Allow(_List):
    """The methods that a resource has, with case: `Allow` (RFC 9110, section 10.2.1).

    >>> allowed = Allow.parse("GET, HEAD")
    >>> allowed.has("GET"), allowed.has("get"), allowed == ["GET", "HEAD"]
    (True, False, True)
    """

    __slots__ = ()
    _FIELD, _ANY_CASE = "allow", False


class ConnectionOptions(_List):
    """The options of `Connection` (RFC 9110, section 7.6.1).

    >>> ConnectionOptions.parse("Keep-Alive, Close").has("close")
    True
    """

    __slots__ = ()
    _FIELD = "connection"


class ContentEncoding(_List):
    """The codings of the content, in the order in which they were applied (RFC 9110, section 8.4)."""

    __slots__ = ()
    _FIELD = "content-encoding"


class TE(_List):
    """The transfer codings that a client takes, with their parameters, and `trailers` (RFC 9110, section 10.1.4)."""

    __slots__ = ()
    _FIELD = "te"


class TransferEncoding(_List):
    """The transfer codings, in the order in which they were applied (RFC 9112, section 6.1)."""

    __slots__ = ()
    _FIELD = "transfer-encoding"


class Vary(_List):
    """The names of the request fields that chose the response, or `*`: `Vary` (RFC 9110, section 12.5.5)."""

    __slots__ = ()
    _FIELD = "vary"

    @property
    def is_any(self) -> bool:
        """Whether `*` is a member: what chose the response is more than fields."""
        return self.has("*")
