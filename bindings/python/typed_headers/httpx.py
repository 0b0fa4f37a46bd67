"""A private cache (RFC 9111) for `httpx`.

    client = httpx.Client(transport=CachedTransport())
    client = httpx.AsyncClient(transport=AsyncCachedTransport())
"""

import asyncio
import time
from threading import Thread
from typing import TYPE_CHECKING, Any, AsyncIterator, Callable, Iterable, Iterator, List, Optional, Set, Tuple, Union

import httpx

from ._cached import Rules, Step, Turn
from .asgi import unblocked, waited
from .caching import Ask, Cache, Reply, Wait
from .errors import HeaderError
from .headers import Headers

if TYPE_CHECKING:
    from .storage import Storage

__all__ = ["AsyncCachedTransport", "CachedTransport"]

_LARGEST = 8 * 1024 * 1024


class CachedTransport(httpx.BaseTransport):
    """Sends requests by another transport, by way of a cache for one user.

    What is stored and fresh is served; what is stale is validated. `stale-while-revalidate` and `stale-if-error`
    (RFC 5861) are followed: the origin is asked by a thread after the response, and an `httpx.TransportError` or a 500,
    502, 503 or 504 is an error. A method that isn't safe removes what is stored for its URI. A response is passed on as
    it is read, and stored once all of it was, if it has at most `largest` bytes. `response.extensions["from_cache"]`
    is true of what was stored.

    `clock` gives the seconds since 1970. Without a transport it is `httpx.HTTPTransport()`, and without a cache one in
    64 MiB of memory is made. Transports and threads may share a cache. With a `storage` (`typed_headers.storage`) what
    is stored outlives the process. It is one user's alone, and `secret` is the key by which its entries are
    authenticated.
    """

    def __init__(
        self,
        transport: Optional[httpx.BaseTransport] = None,
        cache: Optional[Cache] = None,
        *,
        largest: int = _LARGEST,
        clock: Callable[[], float] = time.time,
        storage: "Optional[Storage]" = None,
        secret: bytes = b"",
    ) -> None:
        self.transport = httpx.HTTPTransport() if transport is None else transport
        self.rules = _rules(cache, largest, clock, storage, secret)

    def handle_request(self, request: httpx.Request) -> httpx.Response:
        turn = _turn(self.rules, request)
        step: Optional[Step] = turn.start()
        if isinstance(step, Wait):
            step = turn.wait()
        while isinstance(step, Ask):
            try:
                response = self.transport.handle_request(_asking(request, step))
            except httpx.TransportError:
                step = turn.failed()
                if step is None:
                    raise
                continue
            except BaseException:
                turn.end()
                raise
            step = turn.came(response.status_code, _fields(response))
            if step is None:
                return _passed(response, _Passing(turn, response))
            response.close()
        assert isinstance(step, Reply)
        if turn.validates:
            Thread(target=self._validate, args=(turn, request), daemon=True).start()
        return _stored(step)

    def _validate(self, served: Turn, request: httpx.Request) -> None:
        turn = served.validation()
        if turn is None:
            return
        try:
            response = self.transport.handle_request(_asking(request, turn.asked))
            stream = _Passing(turn, response)
            if turn.came(response.status_code, _fields(response)) is None:
                for _ in stream:
                    pass
            stream.close()
        except httpx.TransportError:
            # (what is stored may be served stale once more, and the next request asks again)
            pass
        finally:
            turn.end()

    def close(self) -> None:
        self.transport.close()


class AsyncCachedTransport(httpx.AsyncBaseTransport):
    """The same for `httpx.AsyncClient`, under asyncio: what was served stale is validated by a task.

    What may block on a storage runs in threads, by the executor of the loop.
    """

    def __init__(
        self,
        transport: Optional[httpx.AsyncBaseTransport] = None,
        cache: Optional[Cache] = None,
        *,
        largest: int = _LARGEST,
        clock: Callable[[], float] = time.time,
        storage: "Optional[Storage]" = None,
        secret: bytes = b"",
    ) -> None:
        self.transport = httpx.AsyncHTTPTransport() if transport is None else transport
        self.rules = _rules(cache, largest, clock, storage, secret)
        self.tasks: Set["asyncio.Task[None]"] = set()

    async def handle_async_request(self, request: httpx.Request) -> httpx.Response:
        turn = _turn(self.rules, request)
        step: Optional[Step] = await unblocked(turn, turn.start)
        if isinstance(step, Wait):
            step = await waited(turn)
        while isinstance(step, Ask):
            try:
                response = await self.transport.handle_async_request(_asking(request, step))
            except httpx.TransportError:
                step = await unblocked(turn, turn.failed)
                if step is None:
                    raise
                continue
            except BaseException:
                turn.end()
                raise
            step = await _came(turn, response)
            if step is None:
                return _passed(response, _AsyncPassing(turn, response))
            await response.aclose()
        assert isinstance(step, Reply)
        if turn.validates:
            task = asyncio.create_task(self._validate(turn, request))
            self.tasks.add(task)
            task.add_done_callback(self.tasks.discard)
        return _stored(step)

    async def _validate(self, served: Turn, request: httpx.Request) -> None:
        turn = await unblocked(served, served.validation)
        if turn is None:
            return
        try:
            response = await self.transport.handle_async_request(_asking(request, turn.asked))
            stream = _AsyncPassing(turn, response)
            if await _came(turn, response) is None:
                async for _ in stream:
                    pass
            await stream.aclose()
        except httpx.TransportError:
            # (what is stored may be served stale once more, and the next request asks again)
            pass
        finally:
            turn.end()

    async def aclose(self) -> None:
        for task in [*self.tasks]:
            task.cancel()
        await asyncio.gather(*self.tasks, return_exceptions=True)
        await self.transport.aclose()


class _Passing(httpx.SyncByteStream):
    """The content of a response that is passed on, and stored once all of it was read."""

    def __init__(self, turn: Turn, response: httpx.Response) -> None:
        assert isinstance(response.stream, httpx.SyncByteStream)
        self.turn, self.stream = turn, response.stream

    def __iter__(self) -> Iterator[bytes]:
        for piece in self.stream:
            self.turn.received(piece)
            yield piece
        self.turn.keep()

    def close(self) -> None:
        self.turn.end()
        self.stream.close()


class _AsyncPassing(httpx.AsyncByteStream):
    """The same of a response of an asynchronous transport."""

    def __init__(self, turn: Turn, response: httpx.Response) -> None:
        assert isinstance(response.stream, httpx.AsyncByteStream)
        self.turn, self.stream = turn, response.stream

    async def __aiter__(self) -> AsyncIterator[bytes]:
        async for piece in self.stream:
            self.turn.received(piece)
            yield piece
        await unblocked(self.turn, self.turn.keep)

    async def aclose(self) -> None:
        self.turn.end()
        await self.stream.aclose()


def _rules(
    cache: Optional[Cache], largest: int, clock: Callable[[], float], storage: "Optional[Storage]", secret: bytes
) -> Rules:
    own = Cache(shared=False) if cache is None else cache
    return Rules(own, largest, clock, is_shared=False, storage=storage, secret=secret)


def _turn(rules: Rules, request: httpx.Request) -> Turn:
    try:
        fields = Headers(request.headers.raw)
    except HeaderError as error:
        raise httpx.LocalProtocolError(str(error), request=request) from error
    return Turn(rules, request.method, str(request.url.copy_with(fragment=None)), fields)


def _fields(message: Union[httpx.Request, httpx.Response]) -> List[Tuple[str, str]]:
    return [(name.decode("latin-1"), value.decode("latin-1")) for name, value in message.headers.raw]


def _encoded(fields: Iterable[Tuple[str, str]]) -> List[Tuple[bytes, bytes]]:
    """The fields as bytes: httpx encodes text as ASCII."""
    return [(name.encode("latin-1"), value.encode("latin-1")) for name, value in fields]


async def _came(turn: Turn, response: httpx.Response) -> Optional[Step]:
    status, fields = response.status_code, _fields(response)
    try:
        return await unblocked(turn, lambda: turn.came(status, fields))
    except BaseException:
        await response.aclose()
        raise


def _asking(request: httpx.Request, ask: Ask) -> httpx.Request:
    """The request as the origin is asked it."""
    if ask.fields is None:
        return request
    headers = _encoded(ask.apply(_fields(request)))
    return httpx.Request(
        request.method, request.url, headers=headers, stream=request.stream, extensions=request.extensions
    )


def _passed(response: httpx.Response, stream: Any) -> httpx.Response:
    return httpx.Response(
        response.status_code,
        headers=response.headers,
        stream=stream,
        extensions={**response.extensions, "from_cache": False},
    )


def _stored(reply: Reply) -> httpx.Response:
    # (given as a stream, content adds no field)
    stream = httpx.ByteStream(reply.content or b"")
    return httpx.Response(reply.status, headers=_encoded(reply.fields), stream=stream, extensions={"from_cache": True})
