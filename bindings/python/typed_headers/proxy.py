"""A reverse proxy: an application of ASGI that passes requests to an origin server, by any client of HTTP.

    app = Cached(Proxy("http://127.0.0.1:8080", Gateway("gw.example")), Cache(shared=True))

>>> import asyncio
>>> class Client:
...     async def send(self, request):
...         return Response(dict(request.fields)[b"via"])
>>> class Response:
...     status, version, fields = 200, 11, [(b"Keep-Alive", b"timeout=5")]
...     def __init__(self, content):
...         self.content = content
...     async def pieces(self):
...         yield self.content
...     async def aclose(self):
...         pass
>>> proxy = Proxy("http://127.0.0.1:8080", Gateway("gw.example"), Client())
>>> async def receive():
...     return {"type": "http.request"}
>>> async def send(message):
...     print(message["status"] if message["type"] == "http.response.start" else message["body"])
>>> scope = {"type": "http", "method": "GET", "path": "/", "headers": [(b"host", b"a.example")]}
>>> asyncio.run(proxy(scope, receive, send))
200
b'1.1 gw.example'
b''
"""

import asyncio
import logging
import sys
import time
from dataclasses import dataclass, replace
from ipaddress import ip_address
from typing import Any, AsyncIterator, Callable, Container, Iterable, List, Optional, Protocol, Sequence, Tuple, Union
from urllib.parse import quote, urlsplit

from ._library import calls, check, to_bytes
from .asgi import Receive, Scope, Send
from .errors import HeaderError
from .gateway import Action, FramingKind, Gateway, Hop, RequestOutcome, ResponseOutcome
from .headers import Headers
from .values import format_date, has_member

__all__ = ["Client", "ClientRequest", "ClientResponse", "Proxy", "Unanswered"]

_LOG = logging.getLogger("typed_headers.proxy")
_VERSIONS = {"1.0": 10, "1.1": 11}
#: The event that a request waits, and so many bytes of its method, its target and its Host.
_WAITS_FOR_ORIGIN, _MOST_HEAD = 1, 1 << 20
_CLOSE = (b"connection", b"close")
#: The trailer fields that a gateway forwards, as crates/gateway_messages/specs/Trailers.antt has them.
_TRAILERS = frozenset(
    "accept-ranges authentication-info content-digest etag proxy-authentication-info repr-digest server-timing "
    "signature signature-input".split()
)
FieldLines = Sequence[Tuple[bytes, bytes]]


class Unanswered(Exception):
    """A client got no response: the status that the proxy answers with, and why."""

    def __init__(self, status: int, reason: str) -> None:
        super().__init__(reason)
        self.status = status


@dataclass(frozen=True)
class ClientRequest:
    """A request as an origin server is to get it."""

    #: The origin server, as `"http://127.0.0.1:8080"`.
    origin: str
    method: str
    #: A path, perhaps with a query, or an asterisk.
    target: bytes
    #: The field lines. They say how the content is delimited: Content-Length, or Transfer-Encoding: chunked.
    fields: FieldLines
    #: The pieces of the content, which come as the proxy's client sends them, or `None` if there is none.
    content: Optional[AsyncIterator[bytes]]
    #: How many seconds a connection, and each piece of a message, may take. `None` is any time.
    timeout: Optional[float]


class ClientResponse(Protocol):
    """A final response whose head came."""

    @property
    def status(self) -> int: ...

    @property
    def version(self) -> int:
        """10 for HTTP/1.0, or 11."""

    @property
    def fields(self) -> Iterable[Tuple[bytes, bytes]]:
        """The field lines as they came."""

    def pieces(self) -> AsyncIterator[bytes]:
        """The content in pieces, not chunked, and decoded in no other way. If it is cut off, this raises."""

    async def aclose(self) -> None:
        """Ends the response. What wasn't read of it is dropped."""


class Client(Protocol):
    """What a proxy sends by. It sends a request as it is, adds nothing, follows no redirect, and keeps no cookie."""

    async def send(self, request: ClientRequest) -> ClientResponse:
        """The response to the request. Interim responses are dropped.

        If none comes, it raises: `TimeoutError` for 504, `Unanswered` for its status, and any other error for 502.

        A client may have a true `gives_trailers`. Its responses have `trailers`: the trailer field lines, once all
        pieces came.
        """


class Proxy:
    """Passes requests to the server at `origin`, as `"http://127.0.0.1:8080"`, and its responses back.

    `gateway` decides which fields are sent, how content is delimited, and which messages are rejected. The method, the
    target and the content pass as they came, content in pieces. The origin server gets the client's Host, and the whole
    path, also where the proxy is mounted at a part of it.

    `client` sends the requests, and is the caller's to close: an `httpx.AsyncClient`, a transport of `httpx`, or a
    `Client`. Of an `AsyncClient` only the connections count: none of its fields, cookies and credentials are sent, and
    no redirect is followed. Without one, each request has its own connection by `httpx`, so that what an origin server
    sends after its response reaches no client. A client that reuses connections may take it for the next response. If
    an idempotent request without content gets no response on a connection of `httpx` that was used before, it is sent
    once more.

    A client may say who sent it the request if its address is in `trusted`, or `trusted` returns true for the address,
    which is empty for a client at a Unix socket. `writes_forwarded`, `writes_x_forwarded` and `tells_host` are those of
    `Hop`.

    `timeout` limits, in seconds, how long a connection may take to be made or to become free, and each piece of a
    message to be sent or to come. If it ends before a response, the client gets 504, or 503 if no connection became
    free. The client gets 502 if the origin server can't be reached, fails, or sends a response that is rejected. Once a
    response has begun, the error of the client is raised instead, so that the server ends the client's connection. If
    the client goes away, its request to the origin server ends. A client that is slow isn't limited.

    The logger `typed_headers.proxy` is told why the proxy answers by itself: a warning, or at the level of information
    if the request is at fault. The proxy answers CONNECT and handshakes of WebSockets with 501, the latter if the
    server lets an application do so. Let the server set neither Date nor Server, and not take the client from
    X-Forwarded-For.

    Trailer fields that a chunked response announces in Trailer pass if the server has the extension
    `http.response.trailers`, and the client has `gives_trailers`: `httpx` hides them. Of these fields, the gateway
    forwards those that their definition permits in a trailer section, but for its protected ones. `httpx` also hides
    interim responses, so none pass.
    """

    def __init__(
        self,
        origin: str,
        gateway: Gateway,
        client: Any = None,
        *,
        timeout: Optional[float] = 60.0,
        trusted: Union[Container[str], Callable[[str], bool]] = (),
        writes_forwarded: bool = False,
        writes_x_forwarded: bool = False,
        tells_host: bool = False,
    ) -> None:
        self.origin, self.authority = _origin(origin)
        self.gateway, self.is_own = gateway, client is None
        status, self._rules = calls.gate_rules_new(gateway._parts, (self.authority, False, False, False, False, False))
        check(status, lambda: ValueError(f"origin: no Host is {self.authority!r}"))
        self.client: Client = _client(self.origin, client)
        self.gives_trailers = bool(getattr(self.client, "gives_trailers", False))
        self.timeout = timeout
        self.trusted = (trusted,) if isinstance(trusted, str) else trusted
        self.hop = Hop(
            writes_forwarded=writes_forwarded,
            writes_x_forwarded=writes_x_forwarded,
            tells_host=tells_host,
            closes=self.is_own,
        )

    async def __call__(self, scope: Scope, receive: Receive, send: Send) -> None:
        if scope["type"] == "http":
            await self._answer(scope, receive, send)
        elif scope["type"] == "websocket":
            await _decline(scope, receive, send)
        elif scope["type"] == "lifespan":
            await self._live(receive, send)
        else:
            raise NotImplementedError(f"{scope['type']} isn't passed to an origin server")

    async def aclose(self) -> None:
        """Closes the proxy's own client, as the end of the server's lifespan does."""
        if self.is_own:
            await self.client.aclose()  # type: ignore[attr-defined]

    async def _live(self, receive: Receive, send: Send) -> None:
        while True:
            message = await receive()
            if message["type"] == "lifespan.shutdown":
                await self.aclose()
            await send({"type": f"{message['type']}.complete"})
            if message["type"] == "lifespan.shutdown":
                return

    async def _answer(self, scope: Scope, receive: Receive, send: Send) -> None:
        method, version = scope["method"], _VERSIONS.get(scope.get("http_version", "1.1"))
        if version is None:
            await _respond(send, 505, "another version of HTTP")
            return
        hosts = [bytes(value) for name, value in scope["headers"] if name.lower() == b"host"]
        if version == 10 and not hosts:
            hosts = [self.authority]
        try:
            request = Headers([(name, value) for name, value in scope["headers"]])
            status, target, host = self._target(method, _raw_target(scope), hosts)
            authority = None if [host] == hosts and "host" in request else host
            gives_trailers = self.gives_trailers and "http.response.trailers" in (scope.get("extensions") or {})
            hop = self._hop(scope, gives_trailers and _accepts_trailers(request))
            decided = self.gateway.forward_request(method, request, hop, version, authority or None)
        except HeaderError as error:
            await _respond(send, 400, str(error), _CLOSE)
            return
        reason = "the target isn't passed on" if decided.reason is None else decided.reason.name
        if decided.action is not Action.FORWARD:
            status = 200 if decided.action is Action.ANSWER else decided.status
        if status is not None:
            # (after a request that others may delimit in another way, the connection ends: RFC 9112, section 6.1)
            await _respond(send, status, reason, *([_CLOSE] if status == 400 else []))
            return
        await _Exchange(self, method, target, version, decided, receive, send, gives_trailers).run()

    def _target(self, method: str, target: bytes, hosts: List[bytes]) -> Tuple[Optional[int], bytes, bytes]:
        """The status if no request for the target is passed on; and the target and the Host to send."""
        lines = b"".join(b"host: " + host + b"\n" for host in hosts)
        status, gate = calls.gate_new((b"", 0, False, False), _MOST_HEAD)
        check(status, _wrong)
        verb = to_bytes(method, "method")
        # (what isn't one word would be other parts of a head)
        if len(verb.split()) != 1 or len(target.split()) != 1:
            return 400, b"", b""
        check(calls.gate_ask(gate, verb, target, lines), _wrong)
        status, facts = calls.gate_next(gate, self._rules, int(time.time()))
        check(status, _wrong)
        if facts[1] != _WAITS_FOR_ORIGIN:
            return calls.gate_own(gate)[1], b"", b""
        return None, calls.gate_target(gate)[1], calls.gate_authority(gate)[1]

    def _hop(self, scope: Scope, accepts_trailers: bool) -> Hop:
        host, port = [*(scope.get("client") or ("", 0))][:2]
        address = _address(host or "")
        is_trusted = self.trusted(host or "") if callable(self.trusted) else (host or "") in self.trusted
        return replace(
            self.hop,
            client=address,
            client_port=port if address and port else None,
            is_secure=scope.get("scheme") == "https",
            is_trusted=bool(is_trusted),
            accepts_trailers=accepts_trailers,
        )


class _Gone(Exception):
    """The client went away before all content of its request came."""


class _Content:
    """The content of a request, in the pieces that the server gives."""

    def __init__(self, receive: Receive, is_empty: bool) -> None:
        self.receive, self.is_empty = receive, is_empty
        self.ended = asyncio.Event()
        if is_empty:
            self.ended.set()

    async def __aiter__(self) -> AsyncIterator[bytes]:
        while not self.ended.is_set():
            message = await self.receive()
            if message["type"] != "http.request":
                raise _Gone
            if not message.get("more_body", False):
                self.ended.set()
            piece = bytes(message.get("body", b""))
            if piece:
                yield piece

    async def gone(self) -> None:
        """Returns once all content was read and then the client went away."""
        await self.ended.wait()
        has_more = self.is_empty
        while True:
            message = await self.receive()
            if message["type"] == "http.disconnect":
                return
            if message.get("body"):
                raise ValueError("the request has content that its fields don't delimit")
            if not has_more:
                # What gives the end twice doesn't say when the client goes.
                await asyncio.Event().wait()
            has_more = message.get("more_body", False)


@dataclass
class _Exchange:
    """A request that is passed to the origin server, and the response that is passed back."""

    proxy: Proxy
    method: str
    target: bytes
    #: The version of the request.
    version: int
    decided: RequestOutcome
    receive: Receive
    send: Send
    #: Whether the server sends trailer fields, and the client gives them.
    gives_trailers: bool

    async def run(self) -> None:
        has_content = self.decided.framing is not None and self.decided.framing.kind is not FramingKind.NO_CONTENT
        content = _Content(self.receive, not has_content)
        passing = asyncio.ensure_future(self._pass(content))
        leaving = asyncio.ensure_future(content.gone())
        try:
            done, _ = await asyncio.wait({passing, leaving}, return_when=asyncio.FIRST_COMPLETED)
        finally:
            passing.cancel()
            leaving.cancel()
            await asyncio.gather(passing, leaving, return_exceptions=True)
        for task in done:
            task.result()

    async def _pass(self, content: _Content) -> None:
        pieces = None if content.is_empty else content.__aiter__()
        fields, proxy = _encoded(self.decided.fields), self.proxy
        request = ClientRequest(proxy.origin, self.method, self.target, fields, pieces, proxy.timeout)
        try:
            response = await proxy.client.send(request)
        except _Gone:
            return
        except Unanswered as error:
            await _respond(self.send, error.status, str(error))
            return
        except (TimeoutError, asyncio.TimeoutError) as error:
            await _respond(self.send, 504, repr(error))
            return
        except Exception as error:
            await _respond(self.send, 502, repr(error))
            return
        try:
            await self._pass_back(response)
        finally:
            await response.aclose()

    async def _pass_back(self, response: ClientResponse) -> None:
        fields, decided, reason = self._decided(response)
        if decided is None or decided.sent is None:
            await _respond(self.send, 502, reason)
            return
        has_content = decided.sent.kind is not FramingKind.NO_CONTENT
        is_chunked = decided.sent.kind is FramingKind.CHUNKED
        has_trailers = self.gives_trailers and is_chunked and "trailer" in fields
        # An ASGI server delimits the content by itself, and may wait for as much as a 304 states.
        unsent = ("transfer-encoding", *(("content-length",) if response.status == 304 else ()))
        head = _encoded([(name, value) for name, value in decided.fields if name not in unsent])
        start = {"type": "http.response.start", "status": response.status, "headers": head}
        await self.send({**start, "trailers": True} if has_trailers else start)
        async for piece in response.pieces():
            if has_content:
                await self.send({"type": "http.response.body", "body": bytes(piece), "more_body": True})
        trailers = self._trailers(fields, response) if has_trailers else []
        await self.send({"type": "http.response.body", "body": b""})
        if has_trailers:
            await self.send({"type": "http.response.trailers", "headers": trailers, "more_trailers": False})

    def _decided(self, response: ClientResponse) -> Tuple[Headers, Optional[ResponseOutcome], str]:
        """The fields of a response, what the gateway does with it, and why it is rejected. `None` if no server of ASGI
        sends it."""
        if response.status > 599:
            return Headers(), None, f"the status is {response.status}"
        try:
            fields = Headers([(name, value) for name, value in response.fields])
            decided = self.proxy.gateway.forward_response(
                self.method, response.status, fields, response.version, self.version
            )
        except HeaderError as error:
            return Headers(), None, str(error)
        return fields, decided, "an interim response" if decided.reason is None else decided.reason.name

    def _trailers(self, fields: Headers, response: Any) -> List[Tuple[bytes, bytes]]:
        """The trailer fields that go on (RFC 9110, section 6.5.1). What is no field raises `HeaderError`."""
        gateway = self.proxy.gateway
        names = _TRAILERS.difference(name.lower() for name in gateway.protected)
        given = Headers([(name, value) for name, value in response.trailers]).pairs()
        options = [("connection", line) for line in fields.lines("connection")]
        decided = gateway.forward_response("GET", 200, options + [it for it in given if it[0] in names])
        return _encoded([it for it in decided.fields if it[0] in names])


def _accepts_trailers(request: Headers) -> bool:
    lines = request.lines("te")
    return bool(lines) and has_member("trailers", *lines)


def _wrong() -> HeaderError:
    return HeaderError("the request has no form that is passed on")


def _origin(text: str) -> Tuple[str, bytes]:
    """An origin server without a slash at its end, and its authority."""
    parts = urlsplit(text)
    is_bare = parts.path in ("", "/") and "?" not in text and "#" not in text and "@" not in parts.netloc
    if parts.scheme not in ("http", "https") or not parts.hostname or not is_bare or parts.port == 0:
        raise ValueError(f"origin: expected a scheme, http or https, a host and perhaps a port, not {text!r}")
    return f"{parts.scheme}://{parts.netloc}", parts.netloc.encode("ascii")


def _client(origin: str, given: Any) -> Client:
    """The client that is given, or one of `httpx`, which is imported only then."""
    httpx = sys.modules.get("httpx")
    if given is None or httpx and isinstance(given, (httpx.AsyncClient, httpx.AsyncBaseTransport)):
        from ._sending import HttpxClient, own_client

        return own_client(origin) if given is None else HttpxClient(given)
    made: Client = given
    return made


def _raw_target(scope: Scope) -> bytes:
    """The target as it came, as far as ASGI tells that."""
    raw, query = scope.get("raw_path"), bytes(scope.get("query_string") or b"")
    path = bytes(raw).partition(b"?")[0] if raw else quote(scope.get("path") or "/").encode("ascii")
    return path + (b"?" + query if query else b"")


def _address(host: str) -> Optional[str]:
    """The address of a client, without a zone, or `None` if that isn't its host."""
    try:
        return str(ip_address(host.partition("%")[0]))
    except ValueError:
        return None


def _encoded(fields: "Union[List[Tuple[str, str]], Tuple[Tuple[str, str], ...]]") -> List[Tuple[bytes, bytes]]:
    return [(name.encode("latin-1"), value.encode("latin-1")) for name, value in fields]


async def _respond(send: Send, status: int, reason: str, *more: Tuple[bytes, bytes]) -> None:
    """Answers in place of the origin server, without content."""
    _LOG.log(logging.INFO if status < 500 else logging.WARNING, "answered by %d: %s", status, reason)
    date = format_date(int(time.time())).encode("ascii")
    fields = [(b"date", date), (b"content-length", b"0"), *more]
    await send({"type": "http.response.start", "status": status, "headers": fields})
    await send({"type": "http.response.body", "body": b""})


async def _decline(scope: Scope, receive: Receive, send: Send) -> None:
    """Answers the opening handshake of a WebSocket with 501, or with what the server sends for a close: 403."""
    await receive()
    if "websocket.http.response" not in (scope.get("extensions") or {}):
        await send({"type": "websocket.close"})
        return
    fields = [(b"content-length", b"0")]
    await send({"type": "websocket.http.response.start", "status": 501, "headers": fields})
    await send({"type": "websocket.http.response.body", "body": b""})
