"""Sends the requests of a `Proxy` by `httpx`: by a transport, or by an `AsyncClient`."""

from typing import Any, AsyncIterator, Dict, List, Tuple, Union

import httpx

from .proxy import ClientRequest, Unanswered

#: The methods whose request may be sent again (RFC 9110, section 9.2.2).
_IDEMPOTENT = ("GET", "HEAD", "OPTIONS", "TRACE", "PUT", "DELETE")


class _Content(httpx.AsyncByteStream):
    def __init__(self, pieces: AsyncIterator[bytes]) -> None:
        self.pieces = pieces

    async def __aiter__(self) -> AsyncIterator[bytes]:
        async for piece in self.pieces:
            yield piece


class _Trace:
    """Notes how a transport of httpcore sends a request."""

    def __init__(self) -> None:
        self.is_sent = self.is_connected = False

    async def __call__(self, name: str, info: Dict[str, Any]) -> None:
        self.is_connected |= name.startswith("connection.connect_")
        self.is_sent |= name.endswith(".send_request_headers.started")

    @property
    def is_on_used_connection(self) -> bool:
        return self.is_sent and not self.is_connected


class _Url(httpx.URL):
    """The origin server, and a target as it came, which `httpx.URL` by itself would encode anew."""

    def __init__(self, origin: str, target: bytes) -> None:
        super().__init__(origin)
        self.target = target

    @property
    def raw_path(self) -> bytes:
        return self.target


class _Response:
    def __init__(self, response: httpx.Response) -> None:
        self.response = response
        self.status: int = response.status_code
        self.version = 10 if response.extensions.get("http_version") == b"HTTP/1.0" else 11
        self.fields: List[Tuple[bytes, bytes]] = response.headers.raw

    async def pieces(self) -> AsyncIterator[bytes]:
        assert isinstance(self.response.stream, httpx.AsyncByteStream)
        async for piece in self.response.stream:
            yield piece

    async def aclose(self) -> None:
        await self.response.aclose()


class HttpxClient:
    """A client of a `Proxy` that sends by a transport, or by a client, of which only the connections count."""

    def __init__(self, by: "Union[httpx.AsyncBaseTransport, httpx.AsyncClient]") -> None:
        self.by = by

    async def send(self, request: ClientRequest) -> _Response:
        can_repeat = request.content is None and request.method in _IDEMPOTENT
        while True:
            trace = _Trace()
            try:
                return _Response(await self._sent(_request(request, trace)))
            except httpx.PoolTimeout as error:
                raise Unanswered(503, "no connection became free") from error
            except httpx.TimeoutException as error:
                raise Unanswered(504, f"it took too long: {error!r}") from error
            except httpx.TransportError as error:
                is_cut = isinstance(error, (httpx.NetworkError, httpx.RemoteProtocolError))
                if not (can_repeat and is_cut and trace.is_on_used_connection):
                    raise Unanswered(502, repr(error)) from error
                can_repeat = False

    async def _sent(self, request: httpx.Request) -> httpx.Response:
        if isinstance(self.by, httpx.AsyncClient):
            return await self.by.send(request, stream=True, auth=None, follow_redirects=False)
        return await self.by.handle_async_request(request)

    async def aclose(self) -> None:
        await self.by.aclose()


def own_client(origin: str) -> HttpxClient:
    """One with a connection for each request. (It reads certificates, which takes time, only if it has to.)"""
    limits = httpx.Limits(max_connections=None, max_keepalive_connections=0)
    verify = origin.lower().startswith("https:")
    return HttpxClient(httpx.AsyncHTTPTransport(verify=verify, trust_env=False, limits=limits))


def _request(asked: ClientRequest, trace: _Trace) -> httpx.Request:
    extensions = {"timeout": dict.fromkeys(("connect", "read", "write", "pool"), asked.timeout), "trace": trace}
    stream = httpx.ByteStream(b"") if asked.content is None else _Content(asked.content)
    made = httpx.Request(asked.method, asked.origin, headers=asked.fields, stream=stream, extensions=extensions)
    # (made of its arguments, a request has its method in upper case, and a normalized target)
    made.method, made.url = asked.method, _Url(asked.origin, asked.target)
    return made
