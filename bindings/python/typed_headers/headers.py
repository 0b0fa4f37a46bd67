"""Header sections: the fields of a message, whatever form a framework has them in."""

from functools import lru_cache
from typing import (
    TYPE_CHECKING,
    Any,
    Callable,
    Dict,
    Iterable,
    Iterator,
    List,
    Mapping,
    MutableMapping,
    Optional,
    Protocol,
    Sequence,
    Tuple,
    TypeVar,
    Union,
)

from . import _library
from ._library import Text
from ._names import FIELDS, SECRETS
from .errors import InvalidField
from .fields import (
    TE,
    AcceptRanges,
    AccessControlAllowCredentials,
    AccessControlAllowHeaders,
    AccessControlAllowMethods,
    AccessControlAllowOrigin,
    AccessControlExposeHeaders,
    AccessControlMaxAge,
    AccessControlRequestHeaders,
    AccessControlRequestMethod,
    Age,
    Allow,
    ConnectionOptions,
    ContentEncoding,
    ContentLength,
    ContentLocation,
    Date,
    Expect,
    Expires,
    IfModifiedSince,
    IfUnmodifiedSince,
    LastModified,
    Location,
    Pragma,
    Referer,
    SecWebSocketAccept,
    SecWebSocketKey,
    SecWebSocketVersion,
    Server,
    TransferEncoding,
    Upgrade,
    UserAgent,
    Vary,
)
from .values import (
    CacheControl,
    ContentRange,
    Cookie,
    Credentials,
    ETag,
    ETags,
    Host,
    IfRange,
    MediaType,
    Origin,
    Range,
    ReferrerPolicy,
    RetryAfter,
    StrictTransportSecurity,
)

if TYPE_CHECKING:
    from . import parts

__all__ = ["Headers", "HeadersLike", "Section", "canonical_field", "canonical_section"]

Parsed = TypeVar("Parsed")

#: Names and values of fields.
Fields = List[Tuple[str, str]]
_Named = Dict[str, Tuple[str, ...]]


def _parts() -> Any:
    """The types of fields with parts, whose module needs this one."""
    from . import parts

    return parts


def canonical_field(name: Text, *lines: Text) -> List[str]:
    """The canonical field lines of a field.

    They are those that the decoded value encodes to. If `name` is none of the 49 names that the library knows, they are
    the field lines as they came, without the white space at their ends. `InvalidField` if the lines encode no value.

    >>> canonical_field("Cache-Control", "no-cache, MAX-AGE=060")
    ['no-cache, max-age=60']
    >>> canonical_field("If-None-Match", '"a"', 'W/"b"')
    ['"a", W/"b"']
    """
    field = (name if isinstance(name, str) else _library.to_str(_library.to_bytes(name, "name"))).lower()
    if field in FIELDS:
        return canonical_known(field, lines)
    given = _library.to_lines(field, lines)
    _check_name(field)
    return [_library.to_str(line.strip(b" \t")) for line in given]


def canonical_known(field: str, lines: Tuple[Text, ...]) -> List[str]:
    """The canonical field lines of a field that the library knows, by its name in lower case."""
    status, found = _library.calls.field(field.encode("ascii"), lines)
    if status:
        raise _library.failed(status, field, lines)
    return found.decode("latin-1").split("\n")[:-1]


@lru_cache(maxsize=256)
def _check_name(field: str) -> None:
    """Raises an error if this is no field name."""
    _field_of(field, b"")


def canonical_section(section: "HeadersLike") -> str:
    """The canonical text of a header section (RFC 9112, section 5).

    Each name has its field lines together, where the first one was. A name whose field lines are rejected is the line
    `! NAME`. `InvalidSection` if a line is no field.

    >>> canonical_section([("Age", "+007"), ("Date", "yesterday"), ("X-Any", "thing")])
    'age: 7\\n! date\\nx-any: thing\\n'
    """
    return _library.to_str(_library.canonical_text(Headers(section).section))


_section, _pair, _parse = _library.calls.section, _library.calls.pair, _library.calls.pairs
#: What is between the lines of a field whose lines aren't joined by commas (RFC 9113, section 8.2.3).
_JOINTS = {"cookie": "; "}


def _field_of(name: Text, value: Text) -> bytes:
    """The line of a section for a field, which the extension makes of plain bytes; of others the library says whether
    they are one."""
    field = _section(((name, value),))
    if field is not None:
        return field
    given, line = _library.to_bytes(name, "name"), _library.to_bytes(value, "value")
    if not _library.is_token(given):
        raise InvalidField(_library.to_str(given), "this is no field name (RFC 9110, section 5.1)")
    if not _library.is_value(line):
        raise _library.rejected(_library.to_str(given).lower(), [line])
    return b"%b: %b\n" % (given, line)


def _pairs_of(fields: Any) -> Iterable[Tuple[Text, Text]]:
    """Pairs of what a framework has: a name may come several times."""
    # (`items` of httpx and Starlette has each name once)
    items = getattr(fields, "multi_items", None) or getattr(fields, "items", None)
    if items is None:
        pairs: Iterable[Tuple[Text, Text]] = fields
        return pairs
    return [(name, value) for name, given in items() for value in _values(given)]


class _State:
    """The fields of a message at a time: a text, what it is parsed to once that is asked for, or both."""

    __slots__ = ("by_name", "is_checked", "pairs", "text")

    def __init__(
        self,
        text: Optional[bytes],
        pairs: Optional[Fields] = None,
        by_name: Optional[_Named] = None,
        is_checked: bool = True,
    ) -> None:
        self.text, self.pairs, self.by_name = text, pairs, by_name
        #: Whether each pair is known to be a field.
        self.is_checked = is_checked

    def section(self) -> bytes:
        text = self.text
        if text is None:
            text = self.text = b"".join([_field_of(*it) for it in self.pairs or ()])
        return text

    def parsed(self) -> Fields:
        pairs = self.pairs
        if pairs is None:
            pairs = self.pairs = _parse(self.text or b"")
        return pairs

    def named(self) -> _Named:
        """The lines of each name."""
        found = self.by_name
        if found is None:
            found = {}
            for name, value in self.parsed():
                found[name] = (*found[name], value) if name in found else (value,)
            self.by_name = found
        return found


class Headers(MutableMapping[str, str]):
    """The header fields of a message: a mapping of names, whatever their case, that keeps their order and their lines.

    It takes a header section as text, a mapping of names to values, pairs of a name and a value, or what Starlette,
    Werkzeug, httpx, requests, aiohttp and `http.client` have. `pairs` is what these take, `raw` what Starlette takes.
    An item is the field's value: its lines, joined by commas (RFC 9110, section 5.2), and those of Cookie by semicolons
    (RFC 9113, section 8.2.3), so take `lines` for Set-Cookie. A typed field that is absent is `None`; one whose lines
    encode no value raises `InvalidField`. Its `repr` doesn't show credentials and cookies.

    >>> headers = Headers({"Content-Length": "42", "ETag": '"a"', "Cache-Control": "no-cache, max-age=60"})
    >>> headers.content_length
    ContentLength(42)
    >>> headers.etag
    ETag(opaque='a', weak=False)
    >>> headers.cache_control.max_age
    60
    >>> headers.age is None
    True
    >>> headers = Headers("Vary: Accept\\r\\nVary: Origin\\r\\n")
    >>> headers.lines("vary"), headers["Vary"]
    (('Accept', 'Origin'), 'Accept, Origin')
    >>> headers["Vary"] = "*"
    >>> headers.add("Age", "7")
    >>> headers.pairs()
    [('vary', '*'), ('age', '7')]
    """

    _state: _State

    def __init__(self, fields: "HeadersLike" = ()) -> None:
        text, is_checked = _section(fields), True
        if text is None:
            if isinstance(fields, (str, bytes, bytearray, memoryview)):
                text, is_checked = _library.to_bytes(fields, "the header section"), False
            elif isinstance(fields, Headers):
                text, is_checked = fields.section, fields._state.is_checked
            else:
                text = b"".join([_field_of(name, value) for name, value in _pairs_of(fields)])
        self._state = _State(text, is_checked=is_checked)

    @property
    def section(self) -> bytes:
        """The header section as bytes: a line for each field."""
        return self._state.section()

    def __repr__(self) -> str:
        shown = [(name, "..." if name in SECRETS else value) for name, value in self._state.parsed()]
        return f"{type(self).__name__}({shown!r})"

    def __eq__(self, other: object) -> bool:
        return isinstance(other, Headers) and self._state.parsed() == other._state.parsed()

    def __reduce__(self) -> Tuple[object, ...]:
        return type(self), (self.section,)

    def __iter__(self) -> Iterator[str]:
        """The names, in lower case, each once."""
        return iter(self._state.named())

    def __len__(self) -> int:
        return len(self._state.named())

    def __contains__(self, name: object) -> bool:
        return isinstance(name, str) and bool(self.lines(name))

    def __getitem__(self, name: str) -> str:
        state = self._state
        # (no field has a name past ASCII, but some such letters have one of ASCII in lower case)
        field = name.lower() if name.isascii() else name
        lines = (state.by_name or state.named()).get(field)
        if lines is None:
            raise KeyError(name)
        return lines[0] if len(lines) == 1 else _JOINTS.get(field, ", ").join(lines)

    def __setitem__(self, name: str, value: str) -> None:
        """Puts a single field line where the first of that name is, or at the end."""
        key, line = field = _pair(name, value) or _parse(_field_of(name, value))[0]
        pairs, named = self._changing(key)
        lines = named.get(key)
        if lines is None:
            pairs.append(field)
        else:
            place = pairs.index((key, lines[0]))
            pairs[place] = field
            if len(lines) > 1:
                pairs[place + 1 :] = [it for it in pairs[place + 1 :] if it[0] != key]
        named[key] = (line,)
        self._state = _State(None, pairs, named)

    def __delitem__(self, name: str) -> None:
        if name not in self:
            raise KeyError(name)
        field = name.lower()
        pairs, named = self._changing(field)
        named.pop(field, None)
        self._state = _State(None, [it for it in pairs if it[0] != field], named)

    def add(self, name: str, value: str) -> None:
        """Appends a field line."""
        field = _pair(name, value) or _parse(_field_of(name, value))[0]
        pairs, _ = self._changing()
        self._state = _State(None, [*pairs, field])

    def _changing(self, replaced: str = "") -> Tuple[Fields, _Named]:
        """Copies of what the fields are parsed to, of which others than those of a name stay."""
        state = self._state
        pairs, named = state.pairs, state.by_name
        if pairs is None or named is None:
            pairs, named = state.parsed(), state.named()
        if not state.is_checked:
            for it in pairs:
                if it[0] != replaced:
                    _field_of(*it)
        return pairs[:], named.copy()

    def pairs(self) -> Fields:
        """The names, in lower case, and values of the field lines, in order."""
        return list(self._state.parsed())

    def raw(self) -> List[Tuple[bytes, bytes]]:
        """`pairs` as bytes, as ASGI has them."""
        return [(name.encode("latin-1"), value.encode("latin-1")) for name, value in self._state.parsed()]

    def lines(self, name: str) -> Sequence[str]:
        """The field lines of a name, without the white space at their ends."""
        state = self._state
        return (state.by_name or state.named()).get(name.lower() if name.isascii() else name, ())

    def canonical(self, name: str) -> Optional[List[str]]:
        """The canonical field lines of a name, or `None` if it has none: see `canonical_field`."""
        lines = self.lines(name)
        return canonical_field(name, *lines) if lines else None

    @property
    def age(self) -> Optional[Age]:
        """The seconds of `Age`."""
        lines = self.lines("age")
        return Age.parse(*lines) if lines else None

    @property
    def cache_control(self) -> Optional[CacheControl]:
        """The directives of `Cache-Control`."""
        lines = self.lines("cache-control")
        return CacheControl.parse(*lines) if lines else None

    @property
    def content_length(self) -> Optional[ContentLength]:
        """The bytes of `Content-Length`."""
        lines = self.lines("content-length")
        return ContentLength.parse(*lines) if lines else None

    @property
    def content_range(self) -> Optional[ContentRange]:
        """The range of `Content-Range`."""
        lines = self.lines("content-range")
        return ContentRange.parse(*lines) if lines else None

    @property
    def content_type(self) -> Optional[MediaType]:
        """The media type of `Content-Type`."""
        lines = self.lines("content-type")
        return MediaType.parse(*lines) if lines else None

    @property
    def date(self) -> Optional[Date]:
        """The time of `Date`."""
        lines = self.lines("date")
        return Date.parse(*lines) if lines else None

    @property
    def etag(self) -> Optional[ETag]:
        """The entity tag of `ETag`."""
        lines = self.lines("etag")
        return ETag.parse(*lines) if lines else None

    @property
    def expires(self) -> Optional[Expires]:
        """The time of `Expires`."""
        lines = self.lines("expires")
        return Expires.parse(*lines) if lines else None

    @property
    def last_modified(self) -> Optional[LastModified]:
        """The time of `Last-Modified`."""
        lines = self.lines("last-modified")
        return LastModified.parse(*lines) if lines else None

    @property
    def range(self) -> Optional[Range]:
        """The ranges of `Range`."""
        lines = self.lines("range")
        return Range.parse(*lines) if lines else None

    @property
    def referrer_policy(self) -> Optional[ReferrerPolicy]:
        """The policy of `Referrer-Policy`."""
        lines = self.lines("referrer-policy")
        return ReferrerPolicy.parse(*lines) if lines else None

    @property
    def retry_after(self) -> Optional[RetryAfter]:
        """The delay or the time of `Retry-After`."""
        lines = self.lines("retry-after")
        return RetryAfter.parse(*lines) if lines else None

    @property
    def strict_transport_security(self) -> Optional[StrictTransportSecurity]:
        """The policy of `Strict-Transport-Security`."""
        lines = self.lines("strict-transport-security")
        return StrictTransportSecurity.parse(*lines) if lines else None

    @property
    def allow(self) -> Optional[Allow]:
        """The methods of `Allow`."""
        lines = self.lines("allow")
        return Allow.parse(*lines) if lines else None

    @property
    def authorization(self) -> Optional[Credentials]:
        """The credentials of `Authorization`."""
        lines = self.lines("authorization")
        return Credentials.parse(*lines) if lines else None

    @property
    def connection(self) -> Optional[ConnectionOptions]:
        """The options of `Connection`."""
        lines = self.lines("connection")
        return ConnectionOptions.parse(*lines) if lines else None

    @property
    def content_disposition(self) -> "Optional[parts.ContentDisposition]":
        """The disposition of `Content-Disposition`."""
        return self._part("content-disposition", _parts().ContentDisposition.parse)

    @property
    def accept(self) -> "Optional[parts.Accept]":
        """The preferences of `Accept`."""
        return self._part("accept", _parts().Accept.parse)

    @property
    def accept_encoding(self) -> "Optional[parts.AcceptEncoding]":
        """The preferences of `Accept-Encoding`."""
        return self._part("accept-encoding", _parts().AcceptEncoding.parse)

    @property
    def accept_language(self) -> "Optional[parts.AcceptLanguage]":
        """The preferences of `Accept-Language`."""
        return self._part("accept-language", _parts().AcceptLanguage.parse)

    @property
    def cache_status(self) -> "Optional[List[parts.CacheStatus]]":
        """The caches of `Cache-Status`."""
        return self._part("cache-status", _parts().CacheStatus.parse_all)

    @property
    def forwarded(self) -> "Optional[List[parts.Forwarded]]":
        """The elements of `Forwarded`."""
        return self._part("forwarded", _parts().Forwarded.parse_all)

    @property
    def link(self) -> "Optional[List[parts.Link]]":
        """The links of `Link`."""
        return self._part("link", _parts().Link.parse_all)

    @property
    def set_cookie(self) -> "Optional[List[parts.SetCookie]]":
        """The cookies of `Set-Cookie`."""
        lines = self.lines("set-cookie")
        return [_parts().SetCookie.parse(line) for line in lines] or None

    @property
    def www_authenticate(self) -> "Optional[List[parts.Challenge]]":
        """The challenges of `WWW-Authenticate`."""
        return self._part("www-authenticate", _parts().Challenge.parse_all)

    def _part(self, name: str, parse: Callable[..., Parsed]) -> Optional[Parsed]:
        lines = self.lines(name)
        return parse(*lines) if lines else None

    @property
    def cookie(self) -> Optional[Cookie]:
        """The cookies of `Cookie`."""
        lines = self.lines("cookie")
        return Cookie.parse(*lines) if lines else None

    @property
    def host(self) -> Optional[Host]:
        """The host and the port of `Host`."""
        lines = self.lines("host")
        return Host.parse(*lines) if lines else None

    @property
    def origin(self) -> Optional[Origin]:
        """The origin of `Origin`."""
        lines = self.lines("origin")
        return Origin.parse(*lines) if lines else None

    @property
    def proxy_authorization(self) -> Optional[Credentials]:
        """The credentials of `Proxy-Authorization`."""
        lines = self.lines("proxy-authorization")
        try:
            return Credentials.parse(*lines) if lines else None
        except InvalidField as it:
            raise InvalidField("proxy-authorization", it.reason, it.lines, it.line, it.byte) from None

    @property
    def vary(self) -> Optional[Vary]:
        """The names of `Vary`, or `*`."""
        lines = self.lines("vary")
        return Vary.parse(*lines) if lines else None

    @property
    def accept_ranges(self) -> Optional[AcceptRanges]:
        """The range units of `Accept-Ranges`."""
        return self._part("accept-ranges", AcceptRanges.parse)

    @property
    def access_control_allow_credentials(self) -> Optional[AccessControlAllowCredentials]:
        """`True` if there is `Access-Control-Allow-Credentials`."""
        return self._part("access-control-allow-credentials", AccessControlAllowCredentials.parse)

    @property
    def access_control_allow_headers(self) -> Optional[AccessControlAllowHeaders]:
        """The names of `Access-Control-Allow-Headers`."""
        return self._part("access-control-allow-headers", AccessControlAllowHeaders.parse)

    @property
    def access_control_allow_methods(self) -> Optional[AccessControlAllowMethods]:
        """The methods of `Access-Control-Allow-Methods`."""
        return self._part("access-control-allow-methods", AccessControlAllowMethods.parse)

    @property
    def access_control_allow_origin(self) -> Optional[AccessControlAllowOrigin]:
        """`*`, `null` or the origin of `Access-Control-Allow-Origin`."""
        return self._part("access-control-allow-origin", AccessControlAllowOrigin.parse)

    @property
    def access_control_expose_headers(self) -> Optional[AccessControlExposeHeaders]:
        """The names of `Access-Control-Expose-Headers`."""
        return self._part("access-control-expose-headers", AccessControlExposeHeaders.parse)

    @property
    def access_control_max_age(self) -> Optional[AccessControlMaxAge]:
        """The seconds of `Access-Control-Max-Age`."""
        return self._part("access-control-max-age", AccessControlMaxAge.parse)

    @property
    def access_control_request_headers(self) -> Optional[AccessControlRequestHeaders]:
        """The names of `Access-Control-Request-Headers`."""
        return self._part("access-control-request-headers", AccessControlRequestHeaders.parse)

    @property
    def access_control_request_method(self) -> Optional[AccessControlRequestMethod]:
        """The method of `Access-Control-Request-Method`."""
        return self._part("access-control-request-method", AccessControlRequestMethod.parse)

    @property
    def content_encoding(self) -> Optional[ContentEncoding]:
        """The codings of `Content-Encoding`, in the order in which they were applied."""
        return self._part("content-encoding", ContentEncoding.parse)

    @property
    def content_location(self) -> Optional[ContentLocation]:
        """The reference of `Content-Location`."""
        return self._part("content-location", ContentLocation.parse)

    @property
    def expect(self) -> Optional[Expect]:
        """`100-continue`."""
        return self._part("expect", Expect.parse)

    @property
    def if_match(self) -> Optional[ETags]:
        """The entity tags of `If-Match`."""
        return self._tags("if-match")

    @property
    def if_modified_since(self) -> Optional[IfModifiedSince]:
        """The time of `If-Modified-Since`."""
        return self._part("if-modified-since", IfModifiedSince.parse)

    @property
    def if_none_match(self) -> Optional[ETags]:
        """The entity tags of `If-None-Match`."""
        return self._tags("if-none-match")

    @property
    def if_range(self) -> Optional[IfRange]:
        """The entity tag or the time of `If-Range`."""
        return self._part("if-range", IfRange.parse)

    @property
    def if_unmodified_since(self) -> Optional[IfUnmodifiedSince]:
        """The time of `If-Unmodified-Since`."""
        return self._part("if-unmodified-since", IfUnmodifiedSince.parse)

    @property
    def location(self) -> Optional[Location]:
        """The reference of `Location`."""
        return self._part("location", Location.parse)

    @property
    def pragma(self) -> Optional[Pragma]:
        """The text of `Pragma`."""
        return self._part("pragma", Pragma.parse)

    @property
    def referer(self) -> Optional[Referer]:
        """The reference of `Referer`."""
        return self._part("referer", Referer.parse)

    @property
    def sec_websocket_accept(self) -> Optional[SecWebSocketAccept]:
        """The text of `Sec-WebSocket-Accept`."""
        return self._part("sec-websocket-accept", SecWebSocketAccept.parse)

    @property
    def sec_websocket_key(self) -> Optional[SecWebSocketKey]:
        """The text of `Sec-WebSocket-Key`."""
        return self._part("sec-websocket-key", SecWebSocketKey.parse)

    @property
    def sec_websocket_version(self) -> Optional[SecWebSocketVersion]:
        """The 13 of `Sec-WebSocket-Version`."""
        return self._part("sec-websocket-version", SecWebSocketVersion.parse)

    @property
    def server(self) -> Optional[Server]:
        """The text of `Server`."""
        return self._part("server", Server.parse)

    @property
    def te(self) -> Optional[TE]:
        """The transfer codings of `TE`, with their parameters."""
        return self._part("te", TE.parse)

    @property
    def transfer_encoding(self) -> Optional[TransferEncoding]:
        """The codings of `Transfer-Encoding`, in the order in which they were applied."""
        return self._part("transfer-encoding", TransferEncoding.parse)

    @property
    def upgrade(self) -> Optional[Upgrade]:
        """The protocols of `Upgrade`."""
        return self._part("upgrade", Upgrade.parse)

    @property
    def user_agent(self) -> Optional[UserAgent]:
        """The text of `User-Agent`."""
        return self._part("user-agent", UserAgent.parse)

    def _tags(self, name: str) -> Optional[ETags]:
        lines = self.lines(name)
        try:
            return ETags.parse(*lines) if lines else None
        except InvalidField:
            raise _library.rejected(name, _library.to_lines(name, lines)) from None


class Section(Headers):
    """The header fields of a message, parsed once for all that is asked of them.

    It is taken wherever `Headers` is. `evaluate`, `select`, `respond`, `choose_type`, `choose_coding`,
    `choose_language`, `CorsPolicy.answer` and `Resource.answer` don't parse it again, nor does `canonical`.
    `InvalidSection` if a line is no field. Threads may share it.

    >>> request = Section({"Accept-Encoding": "gzip", "Cache-Control": "MAX-AGE=060"})
    >>> request.canonical("Cache-Control")
    ['max-age=60']
    """

    _handle: "_library.Handle"

    def __init__(self, fields: "HeadersLike" = ()) -> None:
        super().__init__(fields)
        if isinstance(fields, Section):
            self._handle = fields._handle
            return
        status, self._handle = _library.calls.section_new(self.section)
        if status:
            _library.check(status, lambda: _library.wrong_section("the header section", self.section))

    def _changing(self, replaced: str = "") -> Tuple[Fields, _Named]:
        raise TypeError("a Section doesn't change, as it is parsed once: change Headers(section)")

    def canonical(self, name: str) -> Optional[List[str]]:
        """The canonical field lines of a name, or `None` if it has none: see `canonical_field`."""
        field = name.lower()
        if field not in FIELDS:
            return super().canonical(name)
        status, found = _library.calls.section_field(self._handle, field.encode("ascii"))
        if status == _library.ABSENT:
            return None
        if status:
            raise _library.failed(status, field, self.lines(name))
        return [_library.to_str(line) for line in found.split(b"\n")[:-1]]


def section_of(fields: "HeadersLike") -> bytes:
    """The header section as bytes, as `Headers` has it."""
    if type(fields) is Headers:
        return fields.section
    return _section(fields) or Headers(fields).section


def asked_of(fields: "HeadersLike") -> Union[bytes, "_library.Handle"]:
    """What the calls are handed of a request: the handle of a section that was parsed, else its bytes."""
    return fields._handle if isinstance(fields, Section) else section_of(fields)


def _values(given: Union[Text, Iterable[Text]]) -> Iterable[Text]:
    return (given,) if isinstance(given, (str, bytes, bytearray, memoryview)) else given


class HasItems(Protocol):
    """What gives names and values, as `HTTPMessage` of `http.client`."""

    def items(self) -> Iterable[Tuple[Any, Any]]: ...


#: What `Headers` takes.
HeadersLike = Union[
    Headers,
    Text,
    HasItems,
    Mapping[str, str],
    Mapping[str, Sequence[str]],
    Mapping[bytes, bytes],
    Iterable[Tuple[str, str]],
    Iterable[Tuple[bytes, bytes]],
]
