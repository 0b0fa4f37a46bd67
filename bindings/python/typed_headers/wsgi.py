"""Middleware for WSGI (PEP 3333): conditional requests and ranges, requests from other origins, and a shared cache; and
applications that answer for resources, and for the files of a folder.

>>> from typed_headers import CorsPolicy
>>> from typed_headers.wsgi import ConditionalRequests, Cors
>>> def application(environ, start_response):
...     start_response("200 OK", [("Content-Type", "text/plain"), ("ETag", '"a"')])
...     return [b"0123456789"]
>>> application = ConditionalRequests(application)
>>> application = Cors(application, CorsPolicy("https://a.example"))
>>> def start_response(status, fields, exc_info=None):
...     print(status)
>>> environ = {"REQUEST_METHOD": "GET", "HTTP_RANGE": "bytes=0-4"}
>>> b"".join(application(environ, start_response))
206 Partial Content
b'01234'
>>> application({"REQUEST_METHOD": "GET", "HTTP_IF_NONE_MATCH": '"a"'}, start_response)
304 Not Modified
[]
"""

import os
import secrets
import time
from dataclasses import dataclass, field, replace
from http import HTTPStatus
from types import TracebackType
from typing import (
    TYPE_CHECKING,
    Any,
    Callable,
    Dict,
    Iterable,
    Iterator,
    List,
    Mapping,
    Optional,
    Sequence,
    Tuple,
    Type,
    Union,
)
from urllib.parse import quote

from ._exchange import (
    CONDITIONS,
    ORIGINS,
    REASONS,
    Cutter,
    Fields,
    Response,
    length_of,
    respond,
    tagged,
)
from ._cached import Rules, Step, Turn, target_of
from ._checks import check_members
from ._files import ASKED, Folder
from ._serving import DECIDING, Explanation, explained, list_alternatives, ranges
from .caching import Ask, Cache, Reply, Wait
from .cors import CorsKind, CorsPolicy
from .errors import HeaderError
from .headers import Headers
from .resource import Answer, Denied, Resource, Sends

if TYPE_CHECKING:
    from .storage import Storage

__all__ = ["Cached", "ConditionalRequests", "Cors", "Files", "Result", "Served", "Serves", "list_alternatives"]

Environ = Dict[str, Any]
ExcInfo = Union[
    Tuple[Type[BaseException], BaseException, TracebackType], Tuple[None, None, None], None
]
#: What a server's `start_response` gives, which nearly no application calls.
Write = Any
StartResponse = Callable[..., Write]
Application = Callable[[Environ, StartResponse], Iterable[bytes]]


def _key(name: str) -> str:
    """The key of a field of the request (PEP 3333)."""
    return f"HTTP_{name.upper().replace('-', '_')}"


def _request(environ: Environ, names: Iterable[str]) -> Optional[Headers]:
    """These fields of the request, or `None` if a value has a byte that no field value has."""
    keys = ((name, _key(name)) for name in names)
    try:
        return Headers([(name, environ[key]) for name, key in keys if key in environ])
    except HeaderError:
        return None


def _bad_request(start_response: StartResponse) -> Iterable[bytes]:
    start_response("400 Bad Request", [("content-length", "0")])
    return []


class ConditionalRequests:
    """Answers conditional requests and requests for ranges (RFC 9110, sections 13 and 14) in place of an application.

    The application gets each GET and HEAD without If-Match, If-None-Match, If-Modified-Since, If-Unmodified-Since,
    If-Range and Range, so it answers none of them itself. By the ETag and the Last-Modified of its 200, the response
    becomes 304, 412, 206 or 416, if the request asks for that. Ranges need a content whose length is known: by
    Content-Length, or because the application returned a list. All other responses are sent as they are. A request
    with a control byte in one of these fields is answered with 400.

    With `tags`, a 200 whose content is a list gets a strong entity tag, a digest of the content, if it has none.
    `strong_dates` says that Last-Modified is a strong validator (RFC 9110, section 8.8.2.2), so that an If-Range with a
    date resumes a download.

    A precondition of another method, as If-Match of a PUT, is the application's to ask, before it changes anything: by
    `typed_headers.evaluate`.
    """

    def __init__(self, application: Application, *, tags: bool = False, strong_dates: bool = False) -> None:
        self.application, self.tags, self.strong_dates = application, tags, strong_dates

    def __call__(self, environ: Environ, start_response: StartResponse) -> Iterable[bytes]:
        method = environ["REQUEST_METHOD"]
        if method not in ("GET", "HEAD"):
            return self.application(environ, start_response)
        request = _request(environ, CONDITIONS)
        if request is None:
            return _bad_request(start_response)
        if request.section:
            gone = set(map(_key, CONDITIONS))
            environ = {key: value for key, value in environ.items() if key not in gone}
        started = _Started(start_response)
        content = self.application(environ, started)
        if started.is_sent:
            return content
        if not started.is_called:
            # The application calls start_response when its first piece is asked for.
            content = _Ahead(content)
        if started.is_sent or not started.is_called:
            return content
        fields, length = started.fields, length_of(started.fields)
        if isinstance(content, (list, tuple)):
            size = sum(map(len, content))
            length = size if length is None else length
            if self.tags and started.status == 200 and length == size and (method == "GET" or size):
                fields = tagged(fields, b"".join(content))
        given = Response(started.status, fields)
        response = respond(method, request, given, length, self.strong_dates)
        if response.parts is None:
            started.send(started.line, response.fields)
            return content
        started.send(f"{response.status} {REASONS[response.status]}", response.fields)
        if not response.parts:
            _close(content)
            return []
        return _Parts(response, content)


class _Started:
    """Stands for the server's `start_response`: it keeps what it is called with until that is decided."""

    def __init__(self, start_response: StartResponse, before: Callable[[], None] = lambda: None) -> None:
        # (`before` is called before anything is sent by `write`)
        self.start_response, self.before = start_response, before
        self.line, self.exc_info = "", None  # type: Tuple[str, ExcInfo]
        self.fields: Fields = []
        self.is_called = self.is_sent = False
        self.server_write: Optional[Write] = None

    def __call__(self, line: str, fields: Fields, exc_info: ExcInfo = None) -> Write:
        if self.is_sent:
            return self.start_response(line, fields, exc_info)
        if self.is_called and not exc_info:
            raise AssertionError("start_response was called twice")
        self.line, self.fields, self.exc_info, self.is_called = line, fields, exc_info, True
        return self.write

    @property
    def status(self) -> int:
        return int(self.line[:3])

    def send(self, line: str, fields: Fields) -> Write:
        self.is_sent = True
        self.server_write = self.start_response(line, fields, *([self.exc_info] if self.exc_info else []))
        return self.server_write

    def write(self, content: bytes) -> None:
        """What an application calls that doesn't return its content. Its response is sent as it is."""
        write = self.server_write
        if write is None:
            self.before()
            write = self.send(self.line, self.fields)
        write(content)


def _close(content: object) -> None:
    close = getattr(content, "close", None)
    if close is not None:
        close()


class _Ahead:
    """Content whose first piece was asked for already."""

    def __init__(self, content: Iterable[bytes]) -> None:
        self.content, self.iterator = content, iter(content)
        self.ahead: List[bytes] = []
        for piece in self.iterator:
            self.ahead.append(piece)
            break

    def __iter__(self) -> Iterator[bytes]:
        yield from self.ahead
        yield from self.iterator

    def close(self) -> None:
        _close(self.content)


class _Parts:
    """The parts of content."""

    def __init__(self, response: Response, content: Iterable[bytes]) -> None:
        self.content = content
        self.cutter = Cutter(response, self.skip(response))

    def skip(self, response: Response) -> int:
        """Moves a file to its first part, and returns how many bytes that skips."""
        file = getattr(self.content, "filelike", None) or getattr(self.content, "file", None)
        first = response.parts[0][1].first if response.parts else 0
        try:
            if file is None or not file.seekable():
                return 0
            file.seek(first, os.SEEK_CUR)
        except (AttributeError, OSError):
            return 0
        return first

    def __iter__(self) -> Iterator[bytes]:
        for piece in self.content:
            found = self.cutter.cut(piece)
            if found:
                yield found
            if self.cutter.is_done:
                return

    def close(self) -> None:
        _close(self.content)


class Cors:
    """Answers requests from other origins (Fetch standard, section 3.3) by a policy.

    A preflight is answered with 204, and doesn't reach the application. To each other response the policy's fields are
    added, and those that the application set are removed. A request whose origin isn't allowed reaches the application,
    and a browser lets no script read the response.
    """

    def __init__(self, application: Application, policy: CorsPolicy) -> None:
        self.application, self.policy = application, policy

    def __call__(self, environ: Environ, start_response: StartResponse) -> Iterable[bytes]:
        method, asked = environ["REQUEST_METHOD"], _request(environ, ORIGINS)
        if asked is None:
            return _bad_request(start_response)
        request = asked
        if method == "OPTIONS":
            answer = self.policy.answer(method, request)
            if answer.kind is CorsKind.PREFLIGHT:
                start_response("204 No Content", list(answer.fields))
                return []

        def start(line: str, fields: Fields, *exc_info: ExcInfo) -> Write:
            varied = [(name, value) for name, value in fields if name.lower() == "vary"]
            answer = self.policy.answer(method, request, varied)
            return start_response(line, answer.apply(fields), *exc_info)

        return self.application(environ, start)


class Cached:
    """A shared cache (RFC 9111) in front of an application.

    A GET or HEAD is answered by what is stored for its URI, if that is fresh. If it is stale, the application is asked
    whether it is still good, by `If-None-Match` and `If-Modified-Since`. `stale-while-revalidate` and `stale-if-error`
    (RFC 5861) are followed: the application is asked once the response is closed, and an exception or a 500, 502, 503 or
    504 of it is an error. A response that may be stored is passed on as it comes, and stored once all of it came, if it
    has at most `largest` bytes. One with Set-Cookie isn't stored. A request that isn't safe removes what is stored for
    its URI, and for the URIs of Location and Content-Location at the same host.

    If the cache has `wait`, a GET waits for another that asks the application for the same. With a `storage`
    (`typed_headers.storage`) processes share what is stored; `secret` is the key by which its entries are authenticated.

    `clock` gives the seconds since 1970. Each request is a pass through the cache, which is held for a step of it alone.

    >>> from typed_headers import Cache
    >>> def application(environ, start_response):
    ...     start_response("200 OK", [("Content-Type", "text/plain"), ("Cache-Control", "max-age=60")])
    ...     print("asked")
    ...     return [b"hello"]
    >>> application = Cached(application, Cache(shared=True))
    >>> environ = {"REQUEST_METHOD": "GET", "HTTP_HOST": "a.example", "PATH_INFO": "/", "wsgi.url_scheme": "http"}
    >>> def ask(**more):
    ...     seen = []
    ...     content = application({**environ, **more}, lambda status, fields: seen.append(status))
    ...     return seen[0], b"".join(content)
    >>> ask()
    asked
    ('200 OK', b'hello')
    >>> ask()
    ('200 OK', b'hello')
    >>> ask(HTTP_RANGE="bytes=1-2")
    ('206 Partial Content', b'el')
    """

    def __init__(
        self,
        application: Application,
        cache: Cache,
        *,
        largest: int = 8 * 1024 * 1024,
        clock: Callable[[], float] = time.time,
        storage: "Optional[Storage]" = None,
        secret: bytes = b"",
    ) -> None:
        self.application = application
        self.rules = Rules(cache, largest, clock, storage=storage, secret=secret)

    def __call__(self, environ: Environ, start_response: StartResponse) -> Iterable[bytes]:
        request, target = _whole_request(environ), _uri(environ)
        if request is None or target is None:
            return _bad_request(start_response)
        turn = Turn(self.rules, environ["REQUEST_METHOD"], target, request)
        step: Optional[Step] = turn.start()
        if isinstance(step, Wait):
            step = turn.wait()
        while isinstance(step, Ask):
            started = _Started(start_response, turn.outdate)
            try:
                content = self.application(_asking(environ, step), started)
                if not started.is_called:
                    content = _Ahead(content)
            except Exception:
                step = turn.failed()
                if step is None:
                    raise
                continue
            if started.is_sent or not started.is_called:
                if started.is_sent:
                    turn.came(started.status, started.fields)
                else:
                    turn.outdate()
                turn.end()
                return content
            step = turn.came(started.status, started.fields)
            if step is None:
                started.send(started.line, started.fields)
                return self._passed(turn, content)
            _close(content)
        assert isinstance(step, Reply)
        replied = _start(start_response, turn.method, step.status, list(step.fields), step.content)
        return _Then(replied, lambda: self._validate(turn, environ)) if turn.validates else replied

    def _passed(self, turn: Turn, content: Iterable[bytes]) -> Iterable[bytes]:
        if turn.came_as is None:
            return content
        if isinstance(content, (list, tuple)):
            _take(turn, content)
            return content
        return _Kept(turn, content)

    def _validate(self, served: Turn, environ: Environ) -> None:
        turn = served.validation()
        if turn is None:
            return
        started = _Started(lambda *_: _ignore)
        try:
            content = self.application(_asking(environ, turn.asked), started)
            if not started.is_called:
                content = _Ahead(content)
        except Exception:
            turn.failed()
            raise
        if started.is_sent or not started.is_called or turn.came(started.status, started.fields) is not None:
            turn.end()
        else:
            _take(turn, content)
        _close(content)


def _ignore(content: bytes) -> None:
    """Takes what nobody reads."""


def _take(turn: Turn, content: Iterable[bytes]) -> None:
    for piece in content:
        turn.received(piece)
    turn.keep()


class _Kept:
    """Content that is stored once all of it was passed on."""

    def __init__(self, turn: Turn, content: Iterable[bytes]) -> None:
        self.turn, self.content = turn, content

    def __iter__(self) -> Iterator[bytes]:
        for piece in self.content:
            self.turn.received(piece)
            yield piece
        self.turn.keep()

    def close(self) -> None:
        self.turn.end()
        _close(self.content)


class _Then:
    """Content after which something is done."""

    def __init__(self, content: Iterable[bytes], after: Callable[[], None]) -> None:
        self.content, self.after = content, after

    def __iter__(self) -> Iterator[bytes]:
        return iter(self.content)

    def close(self) -> None:
        _close(self.content)
        self.after()


def _whole_request(environ: Environ) -> Optional[Headers]:
    """All fields of the request, or `None` if a value has a byte that no field value has."""
    fields = [(key[5:].replace("_", "-"), value) for key, value in environ.items() if key.startswith("HTTP_")]
    if environ.get("CONTENT_TYPE"):
        fields.append(("content-type", environ["CONTENT_TYPE"]))
    try:
        return Headers(fields)
    except HeaderError:
        return None


def _uri(environ: Environ) -> Optional[str]:
    hosts = [it for it in (environ.get("HTTP_HOST"),) if it]
    server = f"{environ.get('SERVER_NAME', '')}:{environ.get('SERVER_PORT', '')}"
    path = quote(environ.get("SCRIPT_NAME", "") + environ.get("PATH_INFO", ""), "/;=,@:!$&'()*+~", "latin-1") or "/"
    return target_of(environ.get("wsgi.url_scheme", "http"), hosts, server, path, environ.get("QUERY_STRING", ""))


def _asking(environ: Environ, ask: Ask) -> Environ:
    """The request as the application is asked it."""
    gone = {f"HTTP_{name.upper().replace('-', '_')}" for name in ask.replaced}
    fields = {f"HTTP_{name.upper().replace('-', '_')}": value for name, value in ask.fields or ()}
    return {**{key: value for key, value in environ.items() if key not in gone}, **fields}


#: The content of a response: all of it, or its pieces.
Content = Union[bytes, Iterable[bytes]]


@dataclass(frozen=True)
class Result:
    """What came of a method that was performed."""

    status: int = 204
    #: The fields that are the application's. Those that the resource decides are set after them.
    fields: Sequence[Tuple[str, str]] = ()
    content: Content = b""

    def __post_init__(self) -> None:
        check_members(self)


@dataclass(frozen=True)
class Served:
    """A resource as it is when a request comes, and what it is made of."""

    resource: Resource
    #: The content of the representation at a place.
    content: Callable[[int], Content] = lambda place: b""
    #: What performs each method. GET needs nothing if there are representations.
    methods: Mapping[str, Callable[[Environ], Result]] = field(default_factory=dict)
    #: Why the request is denied, if it is.
    denied: Optional[Denied] = None

    def __post_init__(self) -> None:
        check_members(self)


_VERSIONS = {"HTTP/0.9": 10, "HTTP/1.0": 10, "HTTP/2": 20, "HTTP/2.0": 20, "HTTP/3": 30, "HTTP/3.0": 30}


class Serves:
    """An application that answers for resources, by the whole answer of each (RFC 9110, sections 7.4 to 15).

    `find` gives the resource of a request, as it is now. The resource answers by itself with 304, 206, 405, 406, 412,
    415 and all others of `Reason`, and to OPTIONS and preflights; its representations answer GET and HEAD. A method is
    performed only if nothing stands in its way. `explain` gives content to an answer that sends nothing of the
    resource; without it, a 406 lists the representations. What `find` and a method raise is the server's to answer.

    >>> from typed_headers import Method, Representation, Resource, State
    >>> notes = {}
    >>> def find(environ):
    ...     text = notes.get(environ["PATH_INFO"])
    ...     def put(environ):
    ...         notes[environ["PATH_INFO"]] = environ["wsgi.input"].read(int(environ["CONTENT_LENGTH"]))
    ...         return Result(201 if text is None else 204)
    ...     methods = [Method("GET"), Method("PUT", "text/plain", creates=True)]
    ...     if text is None:
    ...         return Served(Resource(methods, state=State.ABSENT), methods={"PUT": put})
    ...     shown = [Representation("text/plain", len(text))]
    ...     return Served(Resource(methods, shown), lambda place: text, {"PUT": put})
    >>> application = Serves(find)
    >>> def ask(method, **environ):
    ...     seen = []
    ...     environ = {"REQUEST_METHOD": method, "HTTP_HOST": "a.example", "PATH_INFO": "/1", **environ}
    ...     content = application(environ, lambda status, fields: seen.append(status))
    ...     return seen[0], b"".join(content)
    >>> ask("GET")
    ('404 Not Found', b'')
    >>> import io
    >>> ask("PUT", CONTENT_TYPE="text/plain", CONTENT_LENGTH="4", **{"wsgi.input": io.BytesIO(b"milk")})
    ('201 Created', b'')
    >>> ask("GET", HTTP_RANGE="bytes=1-2")
    ('206 Partial Content', b'il')
    >>> ask("DELETE")
    ('405 Method Not Allowed', b'')
    """

    def __init__(
        self,
        find: Callable[[Environ], Served],
        explain: Callable[[Answer, Resource], Optional[Explanation]] = list_alternatives,
    ) -> None:
        self.find, self.explain = find, explain

    def __call__(self, environ: Environ, start_response: StartResponse) -> Iterable[bytes]:
        method, request = environ["REQUEST_METHOD"], _deciding(environ)
        if request is None:
            return _bad_request(start_response)
        served = self.find(environ)
        resource = served.resource
        if "range" in request:
            # (no client knows it before its own response, so no content can hold it on purpose)
            resource = replace(resource, boundary=secrets.token_hex(16))
        try:
            answer = resource.answer(
                method,
                request,
                target=environ.get("REQUEST_URI") or environ.get("RAW_URI") or "",
                length=_length_of_content(environ, request),
                version=_VERSIONS.get(environ.get("SERVER_PROTOCOL", ""), 11),
                denied=served.denied,
            )
        except HeaderError:
            return _bad_request(start_response)
        if answer.sends is Sends.RESULT or (answer.sends is Sends.WHOLE and answer.place is None):
            result = _perform(served, method, environ)
            return _start(start_response, method, result.status, answer.apply(result.fields), result.content)
        status, fields = answer.status or 200, list(answer.fields)
        if answer.place is None or answer.sends in (Sends.NOTHING, Sends.ALTERNATIVES):
            return self._explained(start_response, method, status, answer, resource)
        if method == "HEAD":
            return _start(start_response, method, status, fields, None)
        content = served.content(answer.place)
        if answer.sends is Sends.WHOLE:
            return _start(start_response, method, status, fields, content)
        response = ranges(answer, resource.representations[answer.place], resource.boundary)
        pieces = [content] if isinstance(content, bytes) else content
        return _start(start_response, method, status, response.fields, _Parts(response, pieces))

    def _explained(
        self, start_response: StartResponse, method: str, status: int, answer: Answer, resource: Resource
    ) -> Iterable[bytes]:
        explanation = None if status in (204, 304) else self.explain(answer, resource)
        if explanation is None:
            return _start(start_response, method, status, list(answer.fields), b"")
        return _start(start_response, method, status, explained(answer, explanation), explanation[1])


def _deciding(environ: Environ) -> Optional[Headers]:
    request = _request(environ, DECIDING)
    if request is None or not environ.get("CONTENT_TYPE"):
        return request
    try:
        return Headers([*request.pairs(), ("content-type", environ["CONTENT_TYPE"])])
    except HeaderError:
        return None


def _length_of_content(environ: Environ, request: Headers) -> Optional[int]:
    """How many bytes the content of a request has, or `None` if that isn't stated."""
    if environ.get("CONTENT_LENGTH"):
        return Headers([("content-length", environ["CONTENT_LENGTH"])]).content_length
    return None if "HTTP_TRANSFER_ENCODING" in environ or environ.get("wsgi.input_terminated") else 0


def _perform(served: Served, method: str, environ: Environ) -> Result:
    performs = served.methods.get(method)
    if performs is None and method == "HEAD":
        performs = served.methods.get("GET")
    if performs is None:
        raise LookupError(f"the resource has {method}, and nothing performs it")
    return performs(environ)


def _start(
    start_response: StartResponse, method: str, status: int, fields: Fields, content: Optional[Content]
) -> Iterable[bytes]:
    """Sends the head, with the length of content that is bytes, and returns what is sent after it."""
    has_length = any(name.lower() == "content-length" for name, _ in fields)
    if isinstance(content, bytes) and not has_length and status >= 200 and status not in (204, 304):
        fields = [*fields, ("content-length", str(len(content)))]
    start_response(f"{status} {_phrase(status)}", fields)
    if content is None or method == "HEAD":
        _close(content)
        return []
    return ([content] if content else []) if isinstance(content, bytes) else content


def _phrase(status: int) -> str:
    try:
        return HTTPStatus(status).phrase
    except ValueError:
        return "Unknown"


class Files:
    """An application that serves the files of a folder (RFC 9110), below the path where it is mounted.

    The library's service of files, which is proved, gives each answer: which file a path names, its media type and its
    entity tag, 304, 206, 412 and 416, and a redirect of a folder to its `index.html`. With `precompressed` a client
    gets the copy `NAME.br` or `NAME.gz` of a file, if its Accept-Encoding prefers that. `cache_control` is the value of
    Cache-Control for what may be stored, and `hosts` are those that are served, or all.

    A name that begins with a dot isn't served, and no link in the folder is followed. `key` are 16 bytes by which
    entity tags are made, at random if there are none: give the same to all processes that serve the folder.

    >>> import pathlib, tempfile
    >>> folder = tempfile.TemporaryDirectory()
    >>> for name in ("a.css", "a.css.gz"):
    ...     _ = pathlib.Path(folder.name, name).write_text(f"content of {name}")
    >>> application = Files(folder.name, precompressed=True)
    >>> def ask(path, **environ):
    ...     seen = []
    ...     environ = {"REQUEST_METHOD": "GET", "HTTP_HOST": "a.example", "PATH_INFO": path, **environ}
    ...     return b"".join(application(environ, lambda status, fields: seen.append(status))), seen[0]
    >>> ask("/a.css")
    (b'content of a.css', '200 OK')
    >>> ask("/a.css", HTTP_ACCEPT_ENCODING="gzip")
    (b'content of a.css.gz', '200 OK')
    >>> ask("/a.css", HTTP_RANGE="bytes=-5")
    (b'a.css', '206 Partial Content')
    >>> ask("/../etc/passwd")[1]
    '404 Not Found'
    >>> folder.cleanup()
    """

    def __init__(
        self,
        folder: Union[str, "os.PathLike[str]"],
        *,
        precompressed: bool = False,
        cache_control: str = "",
        hosts: Union[str, Sequence[str]] = (),
        key: Optional[bytes] = None,
    ) -> None:
        self.folder = Folder(folder, precompressed, cache_control, hosts, key)

    def __call__(self, environ: Environ, start_response: StartResponse) -> Iterable[bytes]:
        request, mount = _request(environ, ASKED), environ.get("SCRIPT_NAME", "").encode("latin-1")
        path, query = mount + environ.get("PATH_INFO", "").encode("latin-1"), environ.get("QUERY_STRING", "")
        method, below = environ["REQUEST_METHOD"], mount.strip(b"/")
        version = 10 if _VERSIONS.get(environ.get("SERVER_PROTOCOL", "")) == 10 else 11
        if request is None:
            return _bad_request(start_response)
        try:
            answer = self.folder.answer(method, path or b"/", query, below, request, version)
        except HeaderError:
            return _bad_request(start_response)
        start_response(f"{answer.status} {_phrase(answer.status)}", answer.fields)
        return answer
