"""Both ends of the opening handshake of a WebSocket (RFC 6455, section 4)."""

import os
from dataclasses import dataclass
from enum import IntEnum
from typing import Optional, Sequence, Tuple, Union

from . import _library
from ._checks import check_members
from ._library import Text, made
from .cors import unsent_origin
from .errors import HeaderError
from .headers import Headers, HeadersLike, section_of

__all__ = ["Fault", "Flaw", "Handshake", "websocket_check", "websocket_request", "websocket_respond"]

Fields = Tuple[Tuple[str, str], ...]


class Fault(IntEnum):
    """Why a request is no opening handshake: the first rule that it breaks (RFC 6455, section 4.2.1)."""

    NOT_GET = 1
    OLD_HTTP = 2
    NOT_HTTP_11 = 3
    NO_HOST = 4
    NO_UPGRADE = 5
    NO_CONNECTION = 6
    NO_KEY = 7
    MALFORMED_PROTOCOLS = 8
    MALFORMED_EXTENSIONS = 9


class Flaw(IntEnum):
    """Why a client must fail the connection: the first rule that a response breaks (RFC 6455, section 4.1)."""

    NOT_SWITCHED = 1
    NO_UPGRADE = 2
    NO_CONNECTION = 3
    WRONG_ACCEPT = 4
    MALFORMED_EXTENSIONS = 5
    UNASKED_EXTENSION = 6
    UNASKED_PROTOCOL = 7


@dataclass(frozen=True)
class Handshake:
    """What a server answers to an opening handshake."""

    #: 101, 400, 403 or 426.
    status: int
    #: Why the status is 400.
    fault: Optional[Fault]
    #: The fields of the response. A 101 has no other lines of Sec-WebSocket-Protocol and Sec-WebSocket-Extensions.
    fields: Fields

    def __post_init__(self) -> None:
        check_members(self)


def _values(what: str, given: Union[str, Sequence[str]]) -> bytes:
    texts = (given,) if isinstance(given, str) else given
    return _library.joined(_library.to_lines(what, texts))


def _wrong_sections(*sections: bytes) -> Optional[HeaderError]:
    for section in sections:
        try:
            _library.canonical_text(section)
        except HeaderError as error:
            return error
    return None


def websocket_respond(
    method: Text,
    request: HeadersLike,
    protocols: Union[str, Sequence[str]] = (),
    origins: Union[str, Sequence[str]] = "*",
    version: int = 11,
) -> Handshake:
    """What a server answers to an opening handshake (RFC 6455, sections 4.2.1 and 4.2.2).

    `protocols` are the server's own subprotocols, the most wanted first. `origins` are those whose scripts may open a
    connection, as browsers send them, or `"*"`; a server that relies on cookies lists its own. `version` is that of the
    request: 9, 10, 11, 20 or 30.

    >>> request = {"Host": "a", "Upgrade": "websocket", "Connection": "Upgrade", "Sec-WebSocket-Version": "13"}
    >>> websocket_respond("GET", {**request, "Sec-WebSocket-Key": "dGhlIHNhbXBsZSBub25jZQ=="}).status
    101
    >>> websocket_respond("GET", request).fault
    <Fault.NO_KEY: 7>
    """
    verb, section = _library.to_bytes(method, "method"), section_of(request)
    number = _library.to_number(version, "version", 8)
    allowed = _values("origins", origins)
    rules = (_values("protocols", protocols), allowed)
    status, (code, fault), text = _library.calls.websocket_respond((verb, section), number, rules)
    _library.check(status, lambda: _wrong_sections(section) or unsent_origin(allowed) or HeaderError(
        f"the request can't be answered: {_library.to_str(verb)!r} is no token, {version} no version of HTTP, "
        "or a byte of a protocol or an origin is none of a field value"
    ))
    lines = tuple(Headers(text).pairs())
    return made(Handshake, status=code, fault=Fault(fault) if fault else None, fields=lines)


def websocket_request(nonce: Optional[bytes] = None) -> Fields:
    """The fields of a client's opening handshake (RFC 6455, section 4.1), with a nonce of sixteen bytes.

    Without a nonce it is taken at random. The client adds Host, and what it offers.

    >>> websocket_request(b"the sample nonce")[-1]
    ('sec-websocket-key', 'dGhlIHNhbXBsZSBub25jZQ==')
    """
    status, text = _library.calls.websocket_request(os.urandom(16) if nonce is None else bytes(nonce))
    _library.check(status, lambda: HeaderError("nonce: expected sixteen bytes"))
    return tuple(Headers(text).pairs())


def websocket_check(sent: HeadersLike, status: int, response: HeadersLike) -> Optional[Flaw]:
    """What a client that sent these fields finds in a response (RFC 6455, section 4.1). `None`: the connection is open.

    >>> websocket_check(websocket_request(), 200, {})
    <Flaw.NOT_SWITCHED: 1>
    """
    asked, told = section_of(sent), section_of(response)
    number = _library.to_number(status, "status", 16)
    ended, flaw = _library.calls.websocket_check((asked, told, number))
    _library.check(ended, lambda: _wrong_sections(asked, told) or HeaderError(f"status: {status} is no status code"))
    return Flaw(flaw) if flaw else None
