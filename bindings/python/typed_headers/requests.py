"""A private cache (RFC 9111) for `requests`.

    session = requests.Session()
    session.mount("https://", CachedAdapter())
    session.mount("http://", CachedAdapter())
"""

import time
from http.client import responses
from io import BytesIO
from threading import Thread
from typing import TYPE_CHECKING, Any, Callable, Dict, List, Optional
from urllib.parse import urldefrag

import requests
from requests.adapters import HTTPAdapter
from urllib3 import HTTPResponse

# (version 1 has it nowhere else)
from urllib3._collections import HTTPHeaderDict
from urllib3.exceptions import HTTPError

from ._cached import Rules, Step, Turn
from ._exchange import length_of
from .caching import Ask, Cache, Reply, Wait
from .errors import HeaderError
from .headers import Headers

if TYPE_CHECKING:
    from .storage import Storage

__all__ = ["CachedAdapter"]

_PIECE = 64 * 1024


class CachedAdapter(HTTPAdapter):
    """Sends requests as an adapter of `requests` does, by way of a cache for one user.

    What is stored and fresh is served; what is stale is validated. `stale-while-revalidate` and `stale-if-error`
    (RFC 5861) are followed: the origin is asked by a thread after the response, and an exception of `requests` or a 500,
    502, 503 or 504 is an error. A method that isn't safe removes what is stored for its URI. Each response has
    `from_cache`. A response is stored if its content has at most `largest` bytes, and is read whole then; with
    `stream=True`, only if it states its length.

    `clock` gives the seconds since 1970. Without a cache, one in 64 MiB of memory is made. Adapters and threads may share
    a cache. With a `storage` (`typed_headers.storage`) what is stored outlives the process. It is one user's alone, and
    `secret` is the key by which its entries are authenticated.
    """

    def __init__(
        self,
        cache: Optional[Cache] = None,
        *,
        largest: int = 8 * 1024 * 1024,
        clock: Callable[[], float] = time.time,
        storage: "Optional[Storage]" = None,
        secret: bytes = b"",
        **options: Any,
    ) -> None:
        super().__init__(**options)
        own = Cache(shared=False) if cache is None else cache
        self.rules = Rules(own, largest, clock, is_shared=False, storage=storage, secret=secret)

    def __getstate__(self) -> Dict[str, Any]:
        raise TypeError("a CachedAdapter can't be copied or pickled, as its cache is this process's: share a storage")

    def send(
        self, request: requests.PreparedRequest, stream: bool = False, *given: Any, **named: Any
    ) -> requests.Response:
        try:
            fields = Headers(list(request.headers.items()))
        except HeaderError as error:
            raise requests.exceptions.InvalidHeader(str(error), request=request) from error
        turn = Turn(self.rules, request.method or "GET", urldefrag(request.url or "").url, fields)
        step: Optional[Step] = turn.start()
        if isinstance(step, Wait):
            step = turn.wait()
        while isinstance(step, Ask):
            try:
                response = super().send(_asking(request, step), stream, *given, **named)
            except requests.exceptions.RequestException:
                step = turn.failed()
                if step is None:
                    raise
                continue
            step = turn.came(response.status_code, list(response.raw.headers.items()))
            if step is None:
                response.request = request
                setattr(response, "from_cache", False)
                return self._kept(turn, response, stream)
            response.close()
        assert isinstance(step, Reply)
        response = self.build_response(request, _raw(request, step))
        setattr(response, "from_cache", True)
        if turn.validates:
            Thread(target=self._validate, args=(turn, request, given, named), daemon=True).start()
        return response

    def _kept(self, turn: Turn, response: requests.Response, stream: bool) -> requests.Response:
        """The response, which is stored if it may be."""
        raw = response.raw
        if turn.came_as is None or stream and length_of(turn.came_as) is None:
            turn.end()
            return response
        pieces: List[bytes] = []
        try:
            # (content that isn't stored ends the turn, and isn't read ahead)
            while turn.came_as is not None:
                pieces.append(raw.read(_PIECE, decode_content=False))
                turn.received(pieces[-1])
                if not pieces[-1]:
                    turn.keep()
        except HTTPError as error:
            turn.end()
            raise requests.exceptions.ChunkedEncodingError(error, request=response.request) from error
        content = b"".join(pieces)
        response.raw = HTTPResponse(
            body=_Chain(content, raw) if pieces[-1] else BytesIO(content),
            headers=raw.headers,
            status=raw.status,
            version=raw.version,
            reason=raw.reason,
            original_response=raw._original_response,
            request_method=response.request.method,
            preload_content=False,
        )
        return response

    def _validate(self, served: Turn, request: requests.PreparedRequest, given: Any, named: Any) -> None:
        turn = served.validation()
        if turn is None:
            return
        try:
            response = super().send(_asking(request, turn.asked), False, *given, **named)
            if turn.came(response.status_code, list(response.raw.headers.items())) is None:
                self._kept(turn, response, False)
            response.close()
        except requests.exceptions.RequestException:
            # (what is stored may be served stale once more, and the next request asks again)
            pass
        finally:
            turn.end()


class _Chain:
    """What was read of a response, and then its rest."""

    def __init__(self, read: bytes, rest: HTTPResponse) -> None:
        self.first, self.rest = BytesIO(read), rest

    @property
    def closed(self) -> bool:
        return bool(self.rest.closed)

    def read(self, count: Optional[int] = None) -> bytes:
        if count is None or count < 0:
            return self.first.read() + bytes(self.rest.read(decode_content=False))
        return self.first.read(count) or bytes(self.rest.read(count, decode_content=False))

    def close(self) -> None:
        self.rest.close()


def _asking(request: requests.PreparedRequest, ask: Ask) -> requests.PreparedRequest:
    """The request as the origin is asked it."""
    if ask.fields is None:
        return request
    asked = request.copy()
    for name in ask.replaced:
        asked.headers.pop(name, None)
    asked.headers.update(dict(ask.fields))
    return asked


def _raw(request: requests.PreparedRequest, reply: Reply) -> HTTPResponse:
    return HTTPResponse(
        body=BytesIO(reply.content or b""),
        headers=HTTPHeaderDict(reply.fields),
        status=reply.status,
        reason=responses.get(reply.status, ""),
        request_method=request.method,
        preload_content=False,
    )
