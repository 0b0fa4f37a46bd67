"""What a gateway or proxy forwards (RFC 9110, section 7.6), and how messages are delimited (RFC 9112, section 6.3)."""

import time
from dataclasses import dataclass
from enum import IntEnum
from typing import TYPE_CHECKING, Any, ClassVar, Iterable, Optional, Tuple, Union

from . import _library
from ._checks import check_members
from ._library import Text, Time, made
from .errors import HeaderError
from .headers import Headers, HeadersLike, section_of

if TYPE_CHECKING:
    from .proxy import Client, ClientRequest, ClientResponse, Proxy, Unanswered

__all__ = [
    "Action",
    "Client",
    "ClientRequest",
    "ClientResponse",
    "Framing",
    "FramingKind",
    "FramingOutcome",
    "Gateway",
    "Hop",
    "Proxy",
    "Rejection",
    "RequestOutcome",
    "ResponseOutcome",
    "Unanswered",
    "framing",
]


def __getattr__(name: str) -> Any:
    """What `typed_headers.proxy` has, which takes more modules than a decision."""
    if name not in ("Client", "ClientRequest", "ClientResponse", "Proxy", "Unanswered"):
        raise AttributeError(f"module {__name__!r} has no attribute {name!r}")
    from . import proxy

    return getattr(proxy, name)


Fields = Tuple[Tuple[str, str], ...]


class Action(IntEnum):
    """What a gateway does with a message."""

    #: It sends the fields.
    FORWARD = 0
    #: It answers the request itself, which may be forwarded no more (`Max-Forwards: 0` of TRACE or OPTIONS).
    ANSWER = 1
    #: It rejects it.
    REJECT = 2
    #: It drops an interim response, which a client of HTTP/1.0 doesn't know.
    DISCARD = 3


class Rejection(IntEnum):
    """Why a message is rejected."""

    LENGTH_AND_CODING = 1
    INVALID_LENGTH = 2
    UNKNOWN_CODING = 3
    LAST_CODING_NOT_CHUNKED = 4
    CODING_IN_HTTP_10 = 5
    INVALID_OPTION = 6
    PROTECTED_OPTION = 7
    INVALID_HOST = 8
    INVALID_HOPS = 9
    LOOP = 10
    UNKNOWN_EXPECTATION = 11
    SWITCHED_PROTOCOLS = 12
    LENGTH_REQUIRED = 13


class FramingKind(IntEnum):
    """How the content of a message is delimited."""

    NO_CONTENT = 0
    LENGTH = 1
    CHUNKED = 2
    #: It ends when the connection is closed.
    UNTIL_CLOSE = 3
    #: The connection is a tunnel from here on.
    TUNNEL = 4


@dataclass(frozen=True)
class Framing:
    """How the content of a message is delimited."""

    kind: FramingKind
    #: How many bytes there are, if the kind is `LENGTH`.
    length: Optional[int] = None

    def __post_init__(self) -> None:
        check_members(self)


@dataclass(frozen=True)
class FramingOutcome:
    """How the content of a message is delimited, or why the message is rejected."""

    #: `None` if the message is rejected.
    framing: Optional[Framing]
    #: The status that answers a rejected request, or 502, which takes the place of a rejected response.
    status: Optional[int] = None
    reason: Optional[Rejection] = None

    def __post_init__(self) -> None:
        check_members(self)


@dataclass(frozen=True)
class RequestOutcome:
    """What a gateway does with a request."""

    action: Action
    #: How the content is delimited, as received and as sent. `None` if the request is rejected.
    framing: Optional[Framing]
    #: All fields to send, in order, if the request is forwarded.
    fields: Fields = ()
    #: The status that answers a rejected request: 400, 411, 417, 501 or 508.
    status: Optional[int] = None
    reason: Optional[Rejection] = None
    #: Whether the client waits for a 100 (Continue) that the next server doesn't send, so that the gateway does.
    sends_continue: bool = False

    def __post_init__(self) -> None:
        check_members(self)


@dataclass(frozen=True)
class ResponseOutcome:
    """What a gateway does with a response."""

    action: Action
    #: How the content is delimited as received. `None` if the response isn't forwarded.
    received: Optional[Framing]
    #: How it is delimited as sent. The gateway closes the connection after content that is sent `UNTIL_CLOSE`.
    sent: Optional[Framing]
    #: All fields to send, in order, if the response is forwarded.
    fields: Fields = ()
    #: 502, which takes the place of a rejected response, if that is final.
    status: Optional[int] = None
    reason: Optional[Rejection] = None

    def __post_init__(self) -> None:
        check_members(self)


@dataclass(frozen=True)
class Hop:
    """How a request arrived, and what is known of the next connection.

    A node is an IP address without brackets, or an identifier that hides it, as `_proxy` (RFC 7239, section 6.3).
    """

    #: The node that sent the request.
    client: Optional[str] = None
    client_port: Optional[int] = None
    #: The node at which the gateway received it, if that is told.
    interface: Optional[str] = None
    interface_port: Optional[int] = None
    #: The version of HTTP that the next server is known to speak: 10 or 11.
    server_version: int = 11
    #: Whether the request came over TLS.
    is_secure: bool = False
    #: Whether the client is trusted to tell who sent it the request. Forwarded and X-Forwarded-For, -Host and -Proto
    #: of any other client are dropped.
    is_trusted: bool = False
    #: Whether the gateway writes Forwarded (RFC 7239).
    writes_forwarded: bool = False
    #: Whether it writes X-Forwarded-For, X-Forwarded-Host and X-Forwarded-Proto.
    writes_x_forwarded: bool = False
    #: Whether these tell the host to which the request came.
    tells_host: bool = False
    #: Whether the next connection is closed after the request.
    closes: bool = False
    #: Whether the gateway, and all clients behind it, accept trailer fields.
    accepts_trailers: bool = False

    def __post_init__(self) -> None:
        check_members(self)


def _wrong_section(section: bytes) -> Optional[HeaderError]:
    try:
        _library.canonical_text(section)
    except HeaderError as error:
        return error
    return None


def _version(number: int, what: str) -> int:
    if number not in (10, 11):
        raise HeaderError(f"{what}: expected 10 for HTTP/1.0, or 11, not {number!r}")
    return number


def _framing(length: int, kind: int) -> Framing:
    return made(Framing, kind=FramingKind(kind), length=length if kind == FramingKind.LENGTH else None)


def _reason(number: int) -> Optional[Rejection]:
    return Rejection(number) if number else None


def _hop(hop: Hop) -> Tuple[bytes, bytes, int, int, int, bool, bool, bool, bool, bool, bool, bool]:
    nodes = [_library.to_bytes(it or "", "node") for it in (hop.client, hop.interface)]
    ports = [_library.to_number(it or 0, "port", 16) for it in (hop.client_port, hop.interface_port)]
    return (
        nodes[0],
        nodes[1],
        ports[0],
        ports[1],
        _version(hop.server_version, "server_version"),
        hop.is_secure,
        hop.is_trusted,
        hop.writes_forwarded,
        hop.writes_x_forwarded,
        hop.tells_host,
        hop.closes,
        hop.accepts_trailers,
    )


@dataclass(frozen=True)
class Gateway:
    """What a gateway or proxy is to the messages that pass it.

    A name that is no token, or a protected name that is no field name, raises `HeaderError`.

    >>> gateway = Gateway("gw.example", protected=["X-Forwarded-For"])
    >>> hop = Hop(client="192.0.2.43", writes_x_forwarded=True)
    >>> outcome = gateway.forward_request("GET", {"Host": "a.example", "Connection": "close"}, hop)
    >>> for name, value in outcome.fields:
    ...     print(f"{name}: {value}")
    host: a.example
    via: 1.1 gw.example
    x-forwarded-for: 192.0.2.43
    x-forwarded-proto: http
    >>> gateway.forward_response("GET", 200, {"Date": "Sun, 06 Nov 1994 08:49:37 GMT"}).sent
    Framing(kind=<FramingKind.UNTIL_CLOSE: 3>, length=None)
    """

    #: Its name in Via: a token.
    name: str
    #: The names of further fields that no connection option may name, as those that the servers behind it rely on.
    protected: Union[str, Iterable[str]] = ()
    #: Whether clients authenticate to it as their proxy.
    consumes_credentials: bool = False
    #: Whether it forwards fields whose name has an underscore, which WSGI and CGI take for a dash. Those that have a
    #: protected name but for such marks never are.
    passes_underscores: bool = False
    # The gateway as the library takes it.
    _parts: ClassVar[Tuple[bytes, bytes, bool, bool]]

    def __post_init__(self) -> None:
        check_members(self)
        protected = (self.protected,) if isinstance(self.protected, str) else tuple(self.protected)
        object.__setattr__(self, "protected", protected)
        lines = _library.joined(_library.to_lines("protected", protected))
        parts = (_library.to_bytes(self.name, "name"), lines, self.consumes_credentials, self.passes_underscores)
        object.__setattr__(self, "_parts", parts)
        self.forward_request("GET", {"Host": "a"})

    def forward_request(
        self,
        method: Text,
        request: HeadersLike,
        hop: Hop = Hop(),
        version: int = 11,
        authority: Optional[Text] = None,
    ) -> RequestOutcome:
        """What the gateway does with a request that it received in this version, 10 or 11.

        `authority` is the host and the port of a target in absolute-form, which takes the place of Host.

        >>> smuggled = {"Host": "a", "Content-Length": "5", "Transfer-Encoding": "chunked"}
        >>> outcome = Gateway("gw").forward_request("POST", smuggled)
        >>> outcome.action, outcome.status, outcome.reason
        (<Action.REJECT: 2>, 400, <Rejection.LENGTH_AND_CODING: 1>)
        """
        verb, section = _library.to_bytes(method, "method"), section_of(request)
        target = b"" if authority is None else _library.to_bytes(authority, "authority")
        status, (framed, code, action, reason, sends_continue), text = _library.calls.forward_request(
            self._parts, _hop(hop), (verb, section), _version(version, "version"), target
        )
        _library.check(status, lambda: self._refused(section, verb, hop, target))
        is_rejected = action == Action.REJECT
        return made(
            RequestOutcome,
            action=Action(action),
            framing=None if is_rejected else _framing(*framed),
            fields=tuple(Headers(text).pairs()),
            status=code or None,
            reason=_reason(reason),
            sends_continue=sends_continue == 1,
        )

    def forward_response(
        self,
        method: Text,
        status: int,
        response: HeadersLike,
        version: int = 11,
        client_version: int = 11,
        received: Optional[Time] = None,
    ) -> ResponseOutcome:
        """What the gateway does with a response of this version. `method` and `client_version` are the request's.

        `received` is when the response came, by default now: the date of a response that has none.

        >>> Gateway("gw").forward_response("GET", 200, {"Content-Length": "5"}, received=784111777).fields
        (('via', '1.1 gw'), ('date', 'Sun, 06 Nov 1994 08:49:37 GMT'), ('content-length', '5'))
        """
        verb, section = _library.to_bytes(method, "method"), section_of(response)
        number = _library.to_number(status, "status", 16)
        second = _library.to_seconds(time.time_ns() // 10**9 if received is None else received, "received")
        versions = (_version(version, "version"), _version(client_version, "client_version"))
        ended, (came, sent, code, action, reason), text = _library.calls.forward_response(
            self._parts, (verb, section, number, versions[0]), versions[1], second
        )
        _library.check(ended, lambda: _wrong_section(section) or HeaderError(
            f"the response can't be forwarded: {_library.to_str(verb)!r} is no token, {number} no status from 100 to "
            f"999, or {second} lies past the year 9999"
        ))
        is_sent = action == Action.FORWARD
        return made(
            ResponseOutcome,
            action=Action(action),
            received=_framing(*came) if is_sent else None,
            sent=_framing(*sent) if is_sent else None,
            fields=tuple(Headers(text).pairs()),
            status=code or None,
            reason=_reason(reason),
        )

    def _refused(self, section: bytes, method: bytes, hop: Hop, authority: bytes) -> HeaderError:
        return _wrong_section(section) or HeaderError(
            f"the request can't be forwarded: {self.name!r} or {_library.to_str(method)!r} is no token, one of "
            f"{list(self.protected)} no field name, {hop.client!r} or {hop.interface!r} no node, or "
            f"{_library.to_str(authority)!r} no field value"
        )


def framing(
    method: Text, fields: HeadersLike, status: Optional[int] = None, version: int = 11
) -> FramingOutcome:
    """How the content of a message is delimited (RFC 9112, section 6.3).

    `status` is that of a response, or `None` if the message is a request; `method` is that of the request. `version`
    is that of the message, 10 or 11. What recipients are known to delimit in different ways is rejected.

    >>> framing("POST", {"Content-Length": "5"}).framing
    Framing(kind=<FramingKind.LENGTH: 1>, length=5)
    >>> framing("HEAD", {"Content-Length": "5"}, 200).framing
    Framing(kind=<FramingKind.NO_CONTENT: 0>, length=None)
    >>> framing("POST", {"Transfer-Encoding": "gzip"})
    FramingOutcome(framing=None, status=400, reason=<Rejection.LAST_CODING_NOT_CHUNKED: 4>)
    """
    verb, section = _library.to_bytes(method, "method"), section_of(fields)
    number = 0 if status is None else _library.to_number(status, "status", 16)
    ended, (framed, code, reason) = _library.calls.framing((verb, section, number, _version(version, "version")))
    _library.check(ended, lambda: _wrong_section(section) or HeaderError(
        f"{_library.to_str(verb)!r} is no token, or {status} no status from 100 to 999"
    ))
    found = None if reason else _framing(*framed)
    return made(FramingOutcome, framing=found, status=code or None, reason=_reason(reason))
