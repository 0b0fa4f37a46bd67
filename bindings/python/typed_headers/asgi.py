"""Middleware for ASGI: conditional requests and ranges, requests from other origins, and a shared cache; and
applications that answer for resources, and for the files of a folder.

>>> import asyncio
>>> from typed_headers import CorsPolicy
>>> from typed_headers.asgi import ConditionalRequests, Cors
>>> async def application(scope, receive, send):
...     fields = [(b"content-type", b"text/plain"), (b"etag", b'"a"')]
...     await send({"type": "http.response.start", "status": 200, "headers": fields})
...     await send({"type": "http.response.body", "body": b"0123456789"})
>>> application = ConditionalRequests(application)
>>> application = Cors(application, CorsPolicy("https://a.example"))
>>> async def send(message):
...     print(message["status"] if message["type"] == "http.response.start" else message["body"])
>>> scope = {"type": "http", "method": "GET", "headers": [(b"range", b"bytes=0-4")]}
>>> asyncio.run(application(scope, None, send))
206
b'01234'
"""

import asyncio
import os
import secrets
import time
from contextlib import suppress
from dataclasses import dataclass, field, replace
from typing import (
    TYPE_CHECKING,
    Any,
    AsyncGenerator,
    AsyncIterable,
    Awaitable,
    Callable,
    Dict,
    Iterable,
    List,
    Mapping,
    MutableMapping,
    Optional,
    Sequence,
    Tuple,
    TypeVar,
    Union,
)
from urllib.parse import quote, unquote_to_bytes

from ._cached import MOMENT, Rules, Step, Turn, target_of
from ._checks import check_members
from ._exchange import CONDITIONS, ORIGINS, Cutter, Fields, Response, length_of, respond, tagged
from ._files import ASKED, Folder
from ._serving import DECIDING, Explanation, explained, list_alternatives, ranges
from .caching import Ask, Cache, Reply, Wait
from .cors import CorsKind, CorsPolicy
from .errors import HeaderError
from .headers import Headers
from .resource import Answer, Denied, Resource, Sends

if TYPE_CHECKING:
    from .storage import Storage

__all__ = ["Cached", "ConditionalRequests", "Cors", "Files", "Result", "Served", "Serves", "list_alternatives"]

Message = MutableMapping[str, Any]
Scope = MutableMapping[str, Any]
Receive = Callable[[], Awaitable[Message]]
Send = Callable[[Message], Awaitable[None]]
Application = Callable[[Scope, Receive, Send], Awaitable[None]]
Found = TypeVar("Found")

# Extensions by which an application hands a server its content, so that nobody else sees it.
_CONTENT_EXTENSIONS = ("http.response.pathsend", "http.response.zerocopysend")


def _request(scope: Scope, names: Iterable[str]) -> Optional[Headers]:
    """These fields of the request, or `None` if a value has a byte that no field value has."""
    wanted = {name.encode("ascii") for name in names}
    try:
        return Headers([(name, value) for name, value in scope["headers"] if bytes(name).lower() in wanted])
    except HeaderError:
        return None


async def _answer(send: Send, status: int, fields: Fields) -> None:
    """Answers without content."""
    await send({"type": "http.response.start", "status": status, "headers": _encoded(fields)})
    await send({"type": "http.response.body", "body": b""})


def _fields(message: Message) -> Fields:
    given: Iterable[Tuple[bytes, bytes]] = message.get("headers", ())
    return [(bytes(name).decode("latin-1"), bytes(value).decode("latin-1")) for name, value in given]


def _encoded(fields: Fields) -> List[Tuple[bytes, bytes]]:
    return [(name.lower().encode("latin-1"), value.encode("latin-1")) for name, value in fields]


def _without_conditions(scope: Scope) -> Scope:
    """The request as an application sees it that doesn't answer conditions, and whose content has to pass here."""
    gone = {name.encode("ascii") for name in CONDITIONS}
    fields = [(name, value) for name, value in scope["headers"] if bytes(name).lower() not in gone]
    extensions: Dict[str, Any] = scope.get("extensions") or {}
    kept = {name: it for name, it in extensions.items() if name not in _CONTENT_EXTENSIONS}
    return {**scope, "headers": fields, **({"extensions": kept} if extensions else {})}


class ConditionalRequests:
    """Answers conditional requests and requests for ranges (RFC 9110, sections 13 and 14) in place of an application.

    The application gets each GET and HEAD without If-Match, If-None-Match, If-Modified-Since, If-Unmodified-Since,
    If-Range and Range, so it answers none of them itself. By the ETag and the Last-Modified of its 200, the response
    becomes 304, 412, 206 or 416, if the request asks for that. Ranges need a content whose length is known: by
    Content-Length, or because it is a single message. All other responses are sent as they are. A request with a
    control byte in one of these fields is answered with 400.

    With `tags`, a 200 whose content is a single message gets a strong entity tag, a digest of the content, if it has
    none. `strong_dates` says that Last-Modified is a strong validator (RFC 9110, section 8.8.2.2), so that an If-Range
    with a date resumes a download.

    A precondition of another method, as If-Match of a PUT, is the application's to ask, before it changes anything: by
    `typed_headers.evaluate`.
    """

    def __init__(self, app: Application, *, tags: bool = False, strong_dates: bool = False) -> None:
        # (Starlette names the application `app` where it makes a middleware.)
        self.application, self.tags, self.strong_dates = app, tags, strong_dates

    async def __call__(self, scope: Scope, receive: Receive, send: Send) -> None:
        if scope["type"] != "http" or scope["method"] not in ("GET", "HEAD"):
            await self.application(scope, receive, send)
            return
        request = _request(scope, CONDITIONS)
        if request is None:
            await _answer(send, 400, [("content-length", "0")])
            return
        if request.section:
            scope = _without_conditions(scope)
        await self.application(scope, receive, _Sender(self, scope["method"], request, send))


class _Sender:
    """Stands for the server's `send`: it keeps the head of the response until its first content, if that may matter."""

    def __init__(self, rules: ConditionalRequests, method: str, request: Headers, send: Send) -> None:
        self.rules, self.method, self.request, self.send = rules, method, request, send
        self.head: Optional[Message] = None
        self.cutter: Optional[Cutter] = None
        self.is_done = False

    async def __call__(self, message: Message) -> None:
        if message["type"] == "http.response.start" and not message.get("trailers"):
            if self.request.section or self.rules.tags:
                self.head = message
            else:
                # Nothing asks for another response, so the head doesn't wait for the content.
                await self.send_head(message, _fields(message), None)
        elif message["type"] == "http.response.body" and (self.head or self.cutter):
            await self.content(message)
        else:
            head, self.head = self.head, None
            if head is not None:
                await self.send(head)
            await self.send(message)

    async def send_head(self, head: Message, fields: Fields, length: Optional[int]) -> Response:
        """Sends the head of the response, by the length that its fields state, or else by this one."""
        stated = length_of(fields)
        length = stated if stated is not None else length
        given = Response(head["status"], fields)
        response = respond(self.method, self.request, given, length, self.rules.strong_dates)
        await self.send({**head, "status": response.status, "headers": _encoded(response.fields)})
        return response

    async def content(self, message: Message) -> None:
        body, has_more = bytes(message.get("body", b"")), bool(message.get("more_body", False))
        head, self.head = self.head, None
        if head is not None:
            fields, length = _fields(head), None
            if not has_more:
                length = len(body)
                if self.rules.tags and head["status"] == 200 and (self.method == "GET" or body):
                    fields = tagged(fields, body)
            response = await self.send_head(head, fields, length)
            if response.parts is None:
                await self.send(message)
                return
            self.cutter = Cutter(response)
        if self.cutter is None or self.is_done:
            return
        found = self.cutter.cut(body)
        self.is_done = self.cutter.is_done or not has_more
        if found or self.is_done:
            await self.send({"type": "http.response.body", "body": found, "more_body": not self.is_done})


class Cors:
    """Answers requests from other origins (Fetch standard, section 3.3) by a policy.

    A preflight is answered with 204, and doesn't reach the application. To each other response the policy's fields are
    added, and those that the application set are removed. A request whose origin isn't allowed reaches the application,
    and a browser lets no script read the response.
    """

    def __init__(self, app: Application, policy: CorsPolicy) -> None:
        self.application, self.policy = app, policy

    async def __call__(self, scope: Scope, receive: Receive, send: Send) -> None:
        if scope["type"] != "http":
            await self.application(scope, receive, send)
            return
        method, asked = scope["method"], _request(scope, ORIGINS)
        if asked is None:
            await _answer(send, 400, [("content-length", "0")])
            return
        request = asked
        if method == "OPTIONS":
            answer = self.policy.answer(method, request)
            if answer.kind is CorsKind.PREFLIGHT:
                await _answer(send, 204, list(answer.fields))
                return

        async def add(message: Message) -> None:
            if message["type"] == "http.response.start":
                fields = _fields(message)
                varied = [(name, value) for name, value in fields if name.lower() == "vary"]
                answer = self.policy.answer(method, request, varied)
                message = {**message, "headers": _encoded(answer.apply(fields))}
            await send(message)

        await self.application(scope, receive, add)


#: How many bytes of the messages of a GET or HEAD are kept, to be given again, and how many a message has beside its
#: content.
_MOST_GIVEN, _OF_MESSAGE = 64 * 1024, 256


class Cached:
    """A shared cache (RFC 9111) in front of an application.

    A GET or HEAD is answered by what is stored for its URI, if that is fresh. If it is stale, the application is asked
    whether it is still good, by `If-None-Match` and `If-Modified-Since`. `stale-while-revalidate` and `stale-if-error`
    (RFC 5861) are followed: the application is asked after the response, and an exception or a 500, 502, 503 or 504 of
    it is an error. A response that may be stored is passed on as it comes, and stored once all of it came, if it has at
    most `largest` bytes. One with Set-Cookie isn't stored. A request that isn't safe removes what is stored for its URI,
    and for the URIs of Location and Content-Location at the same host.

    If the cache has `wait`, a GET waits for another that asks the application for the same, by asyncio. With a `storage`
    (`typed_headers.storage`) processes share what is stored; `secret` is the key by which its entries are authenticated.
    What may block on it runs in threads, by the executor of the loop.

    `clock` gives the seconds since 1970. Each request is a pass through the cache, which is held for a step of it alone.
    """

    def __init__(
        self,
        app: Application,
        cache: Cache,
        *,
        largest: int = 8 * 1024 * 1024,
        clock: Callable[[], float] = time.time,
        storage: "Optional[Storage]" = None,
        secret: bytes = b"",
    ) -> None:
        self.application = app
        self.rules = Rules(cache, largest, clock, storage=storage, secret=secret)

    async def __call__(self, scope: Scope, receive: Receive, send: Send) -> None:
        if scope["type"] != "http":
            await self.application(scope, receive, send)
            return
        try:
            request = Headers([(name, value) for name, value in scope["headers"]])
        except HeaderError:
            await _answer(send, 400, [("content-length", "0")])
            return
        target = _uri(scope)
        if target is None:
            await _answer(send, 400, [("content-length", "0")])
            return
        turn = Turn(self.rules, scope["method"], target, request)
        step: Optional[Step] = await unblocked(turn, turn.start)
        if isinstance(step, Wait):
            step = await waited(turn)
        given = _Given(receive, scope["method"])
        while isinstance(step, Ask):
            if not given.rewind():
                # The application would get a request without its content.
                turn.end()
                step = Reply(502, (("content-length", "0"),), b"")
                break
            step = await self._asked(turn, step, scope, given, send)
        if isinstance(step, Reply):
            await _reply(send, turn.method, step)
            validates = turn.validates and given.rewind()
            validation = await unblocked(turn, turn.validation) if validates else None
            if validation is not None:
                given.is_answered = True
                await self._asked(validation, validation.asked, scope, given, None)
                validation.end()

    async def _asked(
        self, turn: Turn, ask: Ask, scope: Scope, given: "_Given", send: Optional[Send]
    ) -> Optional[Step]:
        """Asks the application, and returns what is done then, if its response isn't passed on."""
        passing = _Passing(turn, send)
        try:
            await self.application(_asking(scope, ask), given, passing)
        except Exception:
            step = None if passing.is_passed else await unblocked(turn, turn.failed)
            turn.end()
            if step is None:
                raise
            return step
        except BaseException:
            # (the client went away, perhaps: others wait no longer)
            turn.end()
            raise
        if not isinstance(passing.step, Ask):
            turn.end()
        return passing.step


async def unblocked(turn: Turn, call: Callable[[], Found]) -> Found:
    """Calls a call of a turn that may block on a storage: in another thread, if there is one."""
    if turn.rules.shelf is None:
        return call()
    done = asyncio.get_running_loop().run_in_executor(None, call)

    def end(_: "asyncio.Future[Found]") -> None:
        # (nobody takes what the call returned or raised)
        done.exception()
        turn.end()

    try:
        return await asyncio.shield(done)
    except asyncio.CancelledError:
        done.add_done_callback(end)
        raise


async def waited(turn: Turn) -> Step:
    """What is done once the request for which this one waits has ended."""
    loop, woken = asyncio.get_running_loop(), asyncio.Event()

    def wake() -> None:
        # (a loop that is closed has nobody who waits)
        with suppress(RuntimeError):
            loop.call_soon_threadsafe(woken.set)

    step = turn.resume(wake)
    while isinstance(step, Wait):
        with suppress(asyncio.TimeoutError):
            await asyncio.wait_for(woken.wait(), MOMENT)
        woken.clear()
        step = turn.resume(wake)
    return step


class _Given:
    """The messages of a request. If the application is asked again, they are given again.

    Only a GET or HEAD is asked again, so no content of another request is kept, and of these at most `_MOST_GIVEN`
    bytes.
    """

    def __init__(self, receive: Receive, method: str) -> None:
        self.receive, self.place, self.is_whole = receive, 0, True
        self.left = _MOST_GIVEN if method in ("GET", "HEAD") else 0
        self.messages: List[Message] = []
        #: Whether the client has its response, so that its absence ends nothing.
        self.is_answered = False

    def rewind(self) -> bool:
        """Begins again, and returns whether all that was given can be given again."""
        self.place = 0
        return self.is_whole

    async def __call__(self) -> Message:
        if self.place < len(self.messages):
            self.place += 1
            return self.messages[self.place - 1]
        message = await self.receive()
        if self.is_answered and message["type"] == "http.disconnect":
            # A server says so of each request that was answered.
            if self.messages and not self.messages[-1].get("more_body"):
                await asyncio.Event().wait()
            message = {"type": "http.request", "body": b"", "more_body": False}
        self.left -= _OF_MESSAGE + len(message.get("body", b""))
        if self.is_whole and self.left >= 0:
            self.messages.append(message)
            self.place += 1
        else:
            self.is_whole, self.messages, self.place = False, [], 0
        return message


class _Passing:
    """Stands for the server's `send`: it passes a response on, and stores it, unless it is one for the cache alone."""

    def __init__(self, turn: Turn, send: Optional[Send]) -> None:
        self.turn, self.send = turn, send
        self.step: Optional[Step] = None
        self.is_passed = False

    async def __call__(self, message: Message) -> None:
        if message["type"] == "http.response.start":
            status, fields = message["status"], _fields(message)
            self.step = await unblocked(self.turn, lambda: self.turn.came(status, fields))
            self.is_passed = self.step is None
            if message.get("trailers"):
                self.turn.end()
        if not self.is_passed:
            return
        if message["type"] == "http.response.body":
            self.turn.received(bytes(message.get("body", b"")))
            if not message.get("more_body", False):
                await unblocked(self.turn, self.turn.keep)
        if self.send is not None:
            await self.send(message)


async def _reply(send: Send, method: str, reply: Reply) -> None:
    fields, content = list(reply.fields), reply.content
    has_length = any(name == "content-length" for name, _ in fields)
    if content is not None and not has_length and reply.status not in (204, 304):
        fields = [*fields, ("content-length", str(len(content)))]
    await send({"type": "http.response.start", "status": reply.status, "headers": _encoded(fields)})
    await send({"type": "http.response.body", "body": b"" if method == "HEAD" else content or b""})


def _uri(scope: Scope) -> Optional[str]:
    hosts = [bytes(value).decode("latin-1") for name, value in scope["headers"] if bytes(name).lower() == b"host"]
    server = ":".join(map(str, scope.get("server") or ()))
    raw = scope.get("raw_path")
    path = bytes(raw).partition(b"?")[0].decode("latin-1") if raw else quote(scope.get("path") or "/")
    query = bytes(scope.get("query_string") or b"").decode("latin-1")
    return target_of(scope.get("scheme", "http"), hosts, server, path, query)


def _asking(scope: Scope, ask: Ask) -> Scope:
    """The request as the application is asked it. What it sends has to pass here, so it gets no other way."""
    gone = {name.encode("ascii") for name in ask.replaced}
    fields = [(name, value) for name, value in scope["headers"] if bytes(name).lower() not in gone]
    extensions: Dict[str, Any] = scope.get("extensions") or {}
    kept = {name: it for name, it in extensions.items() if name not in _CONTENT_EXTENSIONS}
    return {**scope, "headers": [*fields, *_encoded(list(ask.fields or ()))], "extensions": kept}


#: The content of a response: all of it, or its pieces.
Content = Union[bytes, Iterable[bytes], AsyncIterable[bytes]]


@dataclass(frozen=True)
class Result:
    """What came of a method that was performed."""

    status: int = 204
    #: The fields that are the application's. Those that the resource decides are set after them.
    fields: Sequence[Tuple[str, str]] = ()
    content: Content = b""

    def __post_init__(self) -> None:
        check_members(self)


@dataclass(frozen=True)
class Served:
    """A resource as it is when a request comes, and what it is made of."""

    resource: Resource
    #: The content of the representation at a place.
    content: Callable[[int], Content] = lambda place: b""
    #: What performs each method. GET needs nothing if there are representations.
    methods: Mapping[str, Callable[[Scope, Receive], Awaitable[Result]]] = field(default_factory=dict)
    #: Why the request is denied, if it is.
    denied: Optional[Denied] = None

    def __post_init__(self) -> None:
        check_members(self)


_VERSIONS = {"1.0": 10, "2": 20, "3": 30}


class Serves:
    """An application that answers for resources, by the whole answer of each (RFC 9110, sections 7.4 to 15).

    `find` gives the resource of a request, as it is now. The resource answers by itself with 304, 206, 405, 406, 412,
    415 and all others of `Reason`, and to OPTIONS and preflights; its representations answer GET and HEAD. A method is
    performed only if nothing stands in its way. `explain` gives content to an answer that sends nothing of the
    resource; without it, a 406 lists the representations. What `find` and a method raise is the server's to answer.

    >>> import asyncio
    >>> from typed_headers import Method, Representation, Resource
    >>> async def find(scope):
    ...     return Served(Resource([Method("GET")], [Representation("text/plain", 4)]), lambda place: b"milk")
    >>> async def send(message):
    ...     print(message["status"] if message["type"] == "http.response.start" else message["body"])
    >>> scope = {"type": "http", "method": "GET", "headers": [(b"host", b"a.example"), (b"range", b"bytes=1-2")]}
    >>> asyncio.run(Serves(find)(scope, None, send))
    206
    b'il'
    """

    def __init__(
        self,
        find: Callable[[Scope], Awaitable[Served]],
        explain: Callable[[Answer, Resource], Optional[Explanation]] = list_alternatives,
    ) -> None:
        self.find, self.explain = find, explain

    async def __call__(self, scope: Scope, receive: Receive, send: Send) -> None:
        if scope["type"] != "http":
            raise NotImplementedError(f"resources answer http alone, not {scope['type']}")
        method, request = scope["method"], _request(scope, (*DECIDING, "content-type", "content-length"))
        if request is None:
            await _answer(send, 400, [("content-length", "0")])
            return
        served = await self.find(scope)
        resource = served.resource
        if "range" in request:
            # (no client knows it before its own response, so no content can hold it on purpose)
            resource = replace(resource, boundary=secrets.token_hex(16))
        try:
            answer = resource.answer(
                method,
                request,
                target=_target(scope),
                length=_length_of_content(scope, request),
                version=_VERSIONS.get(scope.get("http_version", ""), 11),
                denied=served.denied,
            )
        except HeaderError:
            await _answer(send, 400, [("content-length", "0")])
            return
        if answer.sends is Sends.RESULT or (answer.sends is Sends.WHOLE and answer.place is None):
            result = await _perform(served, method, scope, receive)
            await _start(send, method, result.status, answer.apply(result.fields), result.content)
            return
        status, fields = answer.status or 200, list(answer.fields)
        if answer.place is None or answer.sends in (Sends.NOTHING, Sends.ALTERNATIVES):
            explanation = None if status in (204, 304) else self.explain(answer, resource)
            if explanation is None:
                await _start(send, method, status, fields, b"")
            else:
                await _start(send, method, status, explained(answer, explanation), explanation[1])
        elif method == "HEAD" or answer.sends is Sends.WHOLE:
            content = None if method == "HEAD" else served.content(answer.place)
            await _start(send, method, status, fields, content)
        else:
            response = ranges(answer, resource.representations[answer.place], resource.boundary)
            await _start(send, method, status, response.fields, served.content(answer.place), Cutter(response))


def _target(scope: Scope) -> str:
    """The request target as it came, or nothing if the server doesn't tell it."""
    raw, query = bytes(scope.get("raw_path") or b"").partition(b"?")[0], bytes(scope.get("query_string") or b"")
    return (raw + (b"?" if raw and query else b"") + (query if raw else b"")).decode("latin-1")


def _length_of_content(scope: Scope, request: Headers) -> Optional[int]:
    """How many bytes the content of a request has, or `None` if that isn't stated."""
    if "content-length" in request:
        return request.content_length
    is_chunked = any(bytes(name).lower() == b"transfer-encoding" for name, _ in scope["headers"])
    return None if is_chunked or scope.get("http_version", "1.1") not in ("1.0", "1.1") else 0


async def _perform(served: Served, method: str, scope: Scope, receive: Receive) -> Result:
    performs = served.methods.get(method)
    if performs is None and method == "HEAD":
        performs = served.methods.get("GET")
    if performs is None:
        raise LookupError(f"the resource has {method}, and nothing performs it")
    return await performs(scope, receive)


async def _pieces(content: Union[Iterable[bytes], AsyncIterable[bytes]]) -> AsyncGenerator[bytes, None]:
    """The pieces of content, which is closed at the end."""
    try:
        if isinstance(content, AsyncIterable):
            async for piece in content:
                yield piece
        else:
            for piece in content:
                yield piece
    finally:
        if hasattr(content, "aclose"):
            await content.aclose()
        elif hasattr(content, "close"):
            content.close()


async def _start(
    send: Send, method: str, status: int, fields: Fields, content: Optional[Content], cutter: Optional[Cutter] = None
) -> None:
    """Sends a response, with the length of content that is bytes; of that content what the cutter cuts, if any."""
    has_length = any(name.lower() == "content-length" for name, _ in fields)
    is_head = method == "HEAD"
    if isinstance(content, bytes) and not has_length and status >= 200 and status not in (204, 304):
        fields = [*fields, ("content-length", str(len(content)))]
    await send({"type": "http.response.start", "status": status, "headers": _encoded(fields)})
    if content is None or isinstance(content, bytes):
        found = b"" if is_head or content is None else content if cutter is None else cutter.cut(content)
        await send({"type": "http.response.body", "body": found})
        return
    pieces, found = _pieces(content), b""
    try:
        async for piece in pieces:
            found = piece if cutter is None else cutter.cut(piece)
            if is_head or cutter is not None and cutter.is_done:
                break
            if found:
                await send({"type": "http.response.body", "body": found, "more_body": True})
            found = b""
    finally:
        await pieces.aclose()
    await send({"type": "http.response.body", "body": b"" if is_head else found})


class Files:
    """An application that serves the files of a folder, as `typed_headers.wsgi.Files` does. It reads them in threads.

    >>> import asyncio, pathlib, tempfile
    >>> folder = tempfile.TemporaryDirectory()
    >>> _ = pathlib.Path(folder.name, "a.css").write_text("content")
    >>> async def send(message):
    ...     print(message["status"] if message["type"] == "http.response.start" else message["body"])
    >>> fields = [(b"host", b"a"), (b"range", b"bytes=0-2")]
    >>> scope = {"type": "http", "method": "GET", "path": "/a.css", "headers": fields}
    >>> asyncio.run(Files(folder.name)(scope, None, send))
    206
    b'con'
    b''
    >>> folder.cleanup()
    """

    def __init__(
        self,
        folder: Union[str, "os.PathLike[str]"],
        *,
        precompressed: bool = False,
        cache_control: str = "",
        hosts: Union[str, Sequence[str]] = (),
        key: Optional[bytes] = None,
    ) -> None:
        self.folder = Folder(folder, precompressed, cache_control, hosts, key)

    async def __call__(self, scope: Scope, receive: Receive, send: Send) -> None:
        if scope["type"] != "http":
            raise NotImplementedError(f"files are served by http alone, not {scope['type']}")
        request, (path, mount) = _request(scope, ASKED), _mounted(scope)
        query = bytes(scope.get("query_string") or b"").decode("latin-1")
        version = 10 if scope.get("http_version") == "1.0" else 11
        if request is None:
            await _answer(send, 400, [("content-length", "0")])
            return
        run = asyncio.get_running_loop().run_in_executor
        try:
            answer = await run(None, self.folder.answer, scope["method"], path, query, mount, request, version)
        except HeaderError:
            await _answer(send, 400, [("content-length", "0")])
            return
        try:
            await send({"type": "http.response.start", "status": answer.status, "headers": _encoded(answer.fields)})
            pieces = iter(answer)
            while True:
                piece = await run(None, next, pieces, None)
                if piece is None:
                    break
                await send({"type": "http.response.body", "body": piece, "more_body": True})
            await send({"type": "http.response.body", "body": b""})
        finally:
            answer.close()


def _mounted(scope: Scope) -> Tuple[bytes, bytes]:
    """The path of a request, decoded, and the path in it where the application is mounted, without slashes around it.

    By the specification `path` has that of `root_path` in front. Servers and routers have left it out, but leave
    `raw_path` as it came.
    """
    path, root = scope.get("path", "").encode("utf-8", "surrogateescape"), scope.get("root_path", "").encode("utf-8")
    whole = unquote_to_bytes(bytes(scope.get("raw_path") or b"").partition(b"?")[0])
    if whole.endswith(path) and whole != path:
        return whole, whole[: len(whole) - len(path)].strip(b"/")
    root = root.rstrip(b"/")
    if path == root or path.startswith(root + b"/"):
        return path or b"/", root.strip(b"/")
    return root + path, root.strip(b"/")
