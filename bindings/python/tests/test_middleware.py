"""The middleware, as a server and an application see it."""

import asyncio
import io
import re
import unittest
from typing import Any, Callable, Dict, Iterable, List, Optional, Tuple
from unittest import mock
from wsgiref.util import FileWrapper, setup_testing_defaults
from wsgiref.validate import validator

from typed_headers import Cache, CorsPolicy, Headers, asgi, wsgi

CONTENT = bytes(place % 251 for place in range(10_000))
DATE = "Sun, 06 Nov 1994 08:49:37 GMT"
FIELDS = [
    ("Content-Type", "text/plain"),
    ("Content-Length", "10000"),
    ("ETag", '"a"'),
    ("Last-Modified", DATE),
    ("Cache-Control", "max-age=60"),
    ("X-Any", "b"),
]
Fields = List[Tuple[str, str]]
Asked = Dict[str, str]


def setUpModule() -> None:
    # wsgiref wants a Content-Type of each response, which HTTP doesn't: a 412 without content has none.
    patch = mock.patch("wsgiref.validate.check_content_type")
    patch.start()
    unittest.addModuleCleanup(patch.stop)


class Answer:
    """A response: its status, its fields and its content."""

    def __init__(self, status: int, fields: Fields, content: bytes) -> None:
        self.status, self.content = status, content
        self.names = [name.lower() for name, _ in fields]
        self.fields = {name.lower(): value for name, value in fields}

    def parts(self) -> List[Tuple[str, bytes]]:
        """The parts of a multipart/byteranges: the Content-Range and the content of each."""
        found = re.fullmatch(r"multipart/byteranges; boundary=(\w+)", self.fields["content-type"])
        assert found
        first, *parts, last = (b"\r\n" + self.content).split(b"\r\n--" + found[1].encode())
        assert (first, last) == (b"", b"--\r\n"), self.content
        pieces = [part.partition(b"\r\n\r\n") for part in parts]
        return [(str(Headers(head[2:]).canonical("content-range")), content) for head, _, content in pieces]


Ask = Callable[[str, Asked], Answer]


def by_wsgi(application: Any, method: str, asked: Asked) -> Answer:
    """Asks an application, as a server that checks each rule of PEP 3333."""
    environ: Dict[str, Any] = {"REQUEST_METHOD": method, "QUERY_STRING": ""}
    setup_testing_defaults(environ)
    environ.update({f"HTTP_{name.upper().replace('-', '_')}": value for name, value in asked.items()})
    seen: List[Any] = []
    written: List[bytes] = []

    def start_response(status: str, fields: Fields, exc_info: Any = None) -> Any:
        seen[:] = [int(status[:3]), fields]
        return written.append

    content = application(environ, start_response)
    try:
        body = b"".join(content)
    finally:
        if hasattr(content, "close"):
            content.close()
    return Answer(seen[0], seen[1], b"".join(written) + body)


def by_asgi(application: Any, method: str, asked: Asked, more: Any = None) -> Answer:
    """Asks an application, as a server that checks the order of messages."""
    fields = [(name.lower().encode(), value.encode("latin-1")) for name, value in asked.items()]
    scope = {"type": "http", "method": method, "headers": fields, "path": "/", **(more or {})}
    messages: List[Any] = []

    async def send(message: Any) -> None:
        is_over = bool(messages) and messages[-1]["type"] == "http.response.body" and not messages[-1].get("more_body")
        assert not is_over, "a message after the last one"
        assert (message["type"] == "http.response.start") == (not messages), "the head comes first, and once"
        messages.append(message)

    asyncio.run(application(scope, None, send))
    assert not messages[-1].get("more_body"), "the content ends"
    head, *bodies = messages
    given = [(name.decode(), value.decode("latin-1")) for name, value in head["headers"]]
    return Answer(head["status"], given, b"".join(it.get("body", b"") for it in bodies))


def pieces_of(content: bytes, size: int) -> Iterable[bytes]:
    return (content[place : place + size] for place in range(0, len(content), size))


def wsgi_application(size: int, fields: Fields, line: str = "200 OK", content: bytes = CONTENT) -> Any:
    """An application that returns its content in pieces of a size, as a list if it is 0, as a file if it is -1."""

    def application(environ: Any, start_response: Any) -> Any:
        start_response(line, list(fields))
        if environ["REQUEST_METHOD"] == "HEAD":
            return []
        if size < 0:
            return FileWrapper(io.BytesIO(content), 1000)
        return [content] if size == 0 else iter(list(pieces_of(content, size)))

    return application


def asgi_application(size: int, fields: Fields, line: str = "200 OK", content: bytes = CONTENT) -> Any:
    async def application(scope: Any, receive: Any, send: Any) -> None:
        given = [(name.lower().encode(), value.encode("latin-1")) for name, value in fields]
        await send({"type": "http.response.start", "status": int(line[:3]), "headers": given})
        pieces = [] if scope["method"] == "HEAD" else list(pieces_of(content, size if size > 0 else len(content) or 1))
        for piece in pieces[:-1]:
            await send({"type": "http.response.body", "body": piece, "more_body": True})
        await send({"type": "http.response.body", "body": pieces[-1] if pieces else b""})

    return application


class Both(unittest.TestCase):
    """Each request is made of both kinds of applications, whose content comes in pieces of several sizes."""

    def answers(self, method: str, asked: Asked, fields: Fields = FIELDS, **given: Any) -> Iterable[Answer]:
        line, content = given.pop("line", "200 OK"), given.pop("content", CONTENT)
        for size in (0, -1, 1, 7, 4096, 20_000):
            with self.subTest(size=size, kind="wsgi"):
                application = validator(wsgi_application(size, fields, line, content)) if size >= 0 else (
                    wsgi_application(size, fields, line, content))
                yield by_wsgi(validator(wsgi.ConditionalRequests(application, **given)), method, asked)
            with self.subTest(size=size, kind="asgi"):
                application = asgi_application(size, fields, line, content)
                yield by_asgi(asgi.ConditionalRequests(application, **given), method, asked)

    def test_no_condition(self) -> None:
        for answer in self.answers("GET", {}):
            self.assertEqual((answer.status, answer.content), (200, CONTENT))
            self.assertEqual(answer.names.count("accept-ranges"), 1)
        for answer in self.answers("HEAD", {}):
            self.assertEqual((answer.status, answer.content, answer.fields["content-length"]), (200, b"", "10000"))

    def test_not_modified(self) -> None:
        for method in ("GET", "HEAD"):
            for asked in ({"If-None-Match": 'W/"a"'}, {"If-Modified-Since": DATE}):
                for answer in self.answers(method, asked):
                    self.assertEqual((answer.status, answer.content), (304, b""))
                    self.assertEqual(set(answer.names), {"etag", "cache-control", "x-any"})
        dated = [it for it in FIELDS if it[0] != "ETag"]
        for answer in self.answers("GET", {"If-Modified-Since": DATE}, dated):
            self.assertEqual((answer.status, answer.fields["last-modified"]), (304, DATE))

    def test_failed(self) -> None:
        for answer in self.answers("GET", {"If-Match": '"b"'}):
            self.assertEqual((answer.status, answer.content), (412, b""))
            self.assertEqual(set(answer.names), {"x-any", "content-length"})

    def test_a_part(self) -> None:
        ranges = (("0-4", 0, 4), ("9999-", 9999, 9999), ("-3", 9997, 9999), ("5000-6000", 5000, 6000), ("0-", 0, 9999))
        for text, first, last in ranges:
            for answer in self.answers("GET", {"Range": f"bytes={text}"}):
                self.assertEqual((answer.status, answer.content), (206, CONTENT[first : last + 1]))
                self.assertEqual(answer.fields["content-range"], f"bytes {first}-{last}/10000")
                self.assertEqual(answer.fields["content-length"], str(last + 1 - first))
                self.assertEqual((answer.fields["content-type"], answer.fields["etag"]), ("text/plain", '"a"'))

    def test_if_range(self) -> None:
        for answer in self.answers("GET", {"Range": "bytes=0-4", "If-Range": '"a"'}):
            self.assertEqual((answer.status, answer.content), (206, CONTENT[:5]))
            self.assertFalse({"content-type", "last-modified"} & set(answer.names))
        for text in ('"b"', 'W/"a"', DATE):
            for answer in self.answers("GET", {"Range": "bytes=0-4", "If-Range": text}):
                self.assertEqual((answer.status, answer.content), (200, CONTENT))
        for answer in self.answers("GET", {"Range": "bytes=0-4", "If-Range": DATE}, strong_dates=True):
            self.assertEqual(answer.status, 206)

    def test_parts(self) -> None:
        for answer in self.answers("GET", {"Range": "bytes=9000-9010,0-4,-1"}):
            self.assertEqual(answer.status, 206)
            wanted = [(0, 4), (9000, 9010), (9999, 9999)]
            parts = [(f"['bytes {first}-{last}/10000']", CONTENT[first : last + 1]) for first, last in wanted]
            self.assertEqual(answer.parts(), parts)
            self.assertEqual(answer.fields["content-length"], str(len(answer.content)))
            self.assertNotIn("content-range", answer.names)
        coded = [*FIELDS, ("Content-Encoding", "gzip")]
        for answer in self.answers("GET", {"Range": "bytes=0-4,9000-9010"}, coded):
            self.assertEqual(answer.status, 200)
        # RFC 9110, section 15.3.7: a digest of the whole is false of a part.
        digests = [*FIELDS, ("Content-Digest", "sha-256=:AA==:"), ("Content-MD5", "AA==")]
        for asked, status in (("bytes=0-4", 206), ("bytes=0-4,9000-9010", 206), ("bytes=10000-", 416)):
            for answer in self.answers("GET", {"Range": asked}, digests):
                self.assertEqual(answer.status, status)
                self.assertFalse({"content-digest", "content-md5"} & set(answer.names))

    def test_unsatisfiable(self) -> None:
        for answer in self.answers("GET", {"Range": "bytes=10000-"}):
            self.assertEqual((answer.status, answer.content), (416, b""))
            self.assertEqual(answer.fields["content-range"], "bytes */10000")
            self.assertEqual(set(answer.names), {"x-any", "content-length", "content-range", "accept-ranges"})

    def test_the_application_sees_no_condition(self) -> None:
        seen: List[List[str]] = []

        def of_wsgi(environ: Any, start: Any) -> Any:
            seen.append(sorted(name for name in environ if name.startswith(("HTTP_IF_", "HTTP_RANGE", "HTTP_X_"))))
            return wsgi_application(0, FIELDS)(environ, start)

        async def of_asgi(scope: Any, receive: Any, send: Any) -> None:
            names = (name.decode().upper().replace("-", "_") for name, _ in scope["headers"])
            seen.append(sorted(f"HTTP_{name}" for name in names if name.startswith(("IF_", "RANGE", "X_"))))
            await asgi_application(0, FIELDS)(scope, receive, send)

        asked = {
            "If-Match": "*",
            "If-None-Match": '"b"',
            "If-Modified-Since": DATE,
            "If-Unmodified-Since": DATE,
            "If-Range": '"a"',
            "Range": "bytes=0-4",
            "X-Any": "b",
        }
        asks: Tuple[Ask, ...] = (
            lambda *words: by_wsgi(wsgi.ConditionalRequests(of_wsgi), *words),
            lambda *words: by_asgi(asgi.ConditionalRequests(of_asgi), *words),
        )
        for ask in asks:
            for method, status in (("GET", 206), ("HEAD", 200)):
                self.assertEqual(ask(method, asked).status, status)
            ask("PUT", asked)
        every = sorted(f"HTTP_{name.upper().replace('-', '_')}" for name in asked)
        self.assertEqual(seen, [["HTTP_X_ANY"], ["HTTP_X_ANY"], every] * 2)

    def test_what_the_server_gave_stays(self) -> None:
        environ = {"REQUEST_METHOD": "GET", "HTTP_RANGE": "bytes=0-4"}
        list(wsgi.ConditionalRequests(wsgi_application(0, FIELDS))(environ, lambda *_: print))
        self.assertEqual(environ, {"REQUEST_METHOD": "GET", "HTTP_RANGE": "bytes=0-4"})

    def test_what_stays(self) -> None:
        asked = {"Range": "bytes=0-4", "If-None-Match": '"a"'}
        for method, line in (("GET", "404 Not Found"), ("GET", "201 Created"), ("POST", "200 OK"), ("PUT", "200 OK")):
            for answer in self.answers(method, asked, line=line):
                self.assertEqual((answer.status, answer.content), (int(line[:3]), CONTENT))
                self.assertNotIn("accept-ranges", answer.names)
        for answer in self.answers("GET", {"Range": "bytes=0-4"}, [*FIELDS, ("Accept-Ranges", "none")]):
            self.assertEqual((answer.status, answer.content), (200, CONTENT))
        for text in ("items=0-4", "bytes=4-0", "bytes=0-4,x", "bytes=", "0-4"):
            for answer in self.answers("GET", {"Range": text}):
                self.assertEqual((answer.status, answer.content), (200, CONTENT))

    def test_validators_that_cannot_be_read(self) -> None:
        fields = [("Content-Length", "10000"), ("ETag", "a"), ("Last-Modified", "yesterday")]
        by_control = wsgi.ConditionalRequests(wsgi_application(0, [("ETag", '"\x0b"')]))
        self.assertEqual(by_wsgi(by_control, "GET", {"Range": "bytes=0-4"}).status, 200)
        for answer in self.answers("GET", {"If-None-Match": '"a"', "If-Modified-Since": DATE}, fields):
            self.assertEqual(answer.status, 200)

    def test_validators_of_parts(self) -> None:
        """Validators that can't be decoded aren't sent with a part or a 304, and dates in the form of RFC 9110."""
        later = "Fri, 01 Jan 2100 00:00:00 GMT"
        part, unchanged = {"Range": "bytes=0-4"}, {"If-Modified-Since": later}
        for asked, status in ((part, 206), (unchanged, 304)):
            for date, is_sent in (("Sun Nov  6 08:49:37 1994", DATE), (later, None)):
                fields = [("Content-Length", "10000"), ("ETag", "a"), ("Last-Modified", date)]
                for answer in self.answers("GET", asked, fields):
                    self.assertEqual(answer.status, status)
                    self.assertNotIn("etag", answer.names)
                    self.assertEqual(answer.names.count("last-modified"), 1)
                    sent = answer.fields["last-modified"]
                    self.assertTrue(sent == is_sent if is_sent else sent != later, sent)
        for answer in self.answers("GET", part, [("Content-Length", "10000"), ("Last-Modified", "yesterday")]):
            self.assertEqual((answer.status, answer.names.count("last-modified")), (206, 0))
        identity = [*FIELDS, ("Content-Encoding", "identity")]
        for answer in self.answers("GET", {"Range": "bytes=0-4,9000-9010"}, identity):
            self.assertEqual((answer.status, len(answer.parts())), (206, 2))
            self.assertNotIn("content-encoding", answer.names)

    def test_a_byte_that_no_value_has(self) -> None:
        for name in ("Range", "If-Match"):
            for answer in self.answers("GET", {name: "bytes=0-0\x0b"}):
                self.assertEqual((answer.status, answer.content), (400, b""))

    def test_empty_content(self) -> None:
        fields = [("Content-Type", "text/plain"), ("Content-Length", "0")]
        for answer in self.answers("GET", {"Range": "bytes=0-4"}, fields, content=b""):
            self.assertIn(answer.status, (200, 416))

    def test_tags(self) -> None:
        plain = [("Content-Type", "text/plain"), ("Content-Length", "10000")]
        of_wsgi = wsgi.ConditionalRequests(wsgi_application(0, plain), tags=True)
        of_asgi = asgi.ConditionalRequests(asgi_application(0, plain), tags=True)
        asks: Tuple[Ask, ...] = (lambda *words: by_wsgi(of_wsgi, *words), lambda *words: by_asgi(of_asgi, *words))
        for ask in asks:
            tag = ask("GET", {}).fields["etag"]
            self.assertEqual(ask("GET", {"If-None-Match": tag}).status, 304)
            self.assertEqual(ask("GET", {"If-Range": tag, "Range": "bytes=0-4"}).status, 206)
            self.assertNotIn("etag", ask("HEAD", {}).names)


class OfWsgi(unittest.TestCase):
    def test_write(self) -> None:
        def application(environ: Any, start_response: Any) -> Any:
            write = start_response("200 OK", [("Content-Type", "text/plain"), ("ETag", '"a"')])
            write(b"01")
            return [b"23"]

        answer = by_wsgi(wsgi.ConditionalRequests(application), "GET", {"Range": "bytes=0-0"})
        self.assertEqual((answer.status, answer.content), (200, b"0123"))

    def test_generator(self) -> None:
        closed = []

        def application(environ: Any, start_response: Any) -> Any:
            start_response("200 OK", [("Content-Type", "text/plain"), ("Content-Length", "4")])
            try:
                yield b"01"
                yield b"23"
            finally:
                closed.append(True)

        made = validator(wsgi.ConditionalRequests(application))
        self.assertEqual(by_wsgi(made, "GET", {}).content, b"0123")
        self.assertEqual(by_wsgi(made, "GET", {"Range": "bytes=1-1"}).content, b"1")
        self.assertEqual(by_wsgi(made, "GET", {"If-Match": '"b"'}).status, 412)
        self.assertEqual(len(closed), 3)

    def test_error_before_the_content(self) -> None:
        def application(environ: Any, start_response: Any) -> Any:
            start_response("200 OK", [("ETag", '"a"')])
            try:
                raise KeyError
            except KeyError:
                import sys

                start_response("500 Error", [("Content-Type", "text/plain")], sys.exc_info())
            return [b"failed"]

        answer = by_wsgi(wsgi.ConditionalRequests(application), "GET", {"If-None-Match": '"a"'})
        self.assertEqual((answer.status, answer.content), (500, b"failed"))

    def test_unchanged_content_is_the_server_s(self) -> None:
        wrapper = FileWrapper(io.BytesIO(CONTENT))
        made = wsgi.ConditionalRequests(lambda environ, start: (start("200 OK", FIELDS), wrapper)[1])
        environ = {"REQUEST_METHOD": "GET"}
        self.assertIs(made(environ, lambda *_: print), wrapper)

    def test_a_file_is_not_read_up_to_a_part(self) -> None:
        read = []

        class File(io.BytesIO):
            def read(self, size: Optional[int] = -1) -> bytes:
                read.append(self.tell())
                return super().read(size)

        file = File(b"before" + CONTENT)
        file.seek(6)
        made = wsgi.ConditionalRequests(lambda environ, start: (start("200 OK", FIELDS), FileWrapper(file, 100))[1])
        answer = by_wsgi(made, "GET", {"Range": "bytes=9000-9004"})
        self.assertEqual((answer.content, read), (CONTENT[9000:9005], [9006]))


class OfAsgi(unittest.TestCase):
    def test_as_starlette_makes_middleware(self) -> None:
        """`Starlette.add_middleware(cls, **options)` calls `cls(app=app, **options)`."""
        app = asgi_application(0, FIELDS)
        classes: Tuple[Tuple[Any, Dict[str, Any]], ...] = (
            (asgi.ConditionalRequests, {"tags": True}),
            (asgi.Cors, {"policy": CorsPolicy("*")}),
            (asgi.Cached, {"cache": Cache(shared=True)}),
        )
        for made, options in classes:
            for middleware in (made(app=app, **options), made(app, **options)):
                self.assertEqual(by_asgi(middleware, "GET", {}).content, CONTENT)

    def test_content_that_only_the_server_sees(self) -> None:
        seen = []

        async def application(scope: Any, receive: Any, send: Any) -> None:
            seen.append(sorted(scope["extensions"]))
            await asgi_application(0, FIELDS)(scope, receive, send)

        more: Any = {"extensions": {"http.response.pathsend": {}, "other": {}}}
        made = asgi.ConditionalRequests(application)
        by_asgi(made, "GET", {}, more)
        by_asgi(made, "GET", {"Range": "bytes=0-4"}, more)
        self.assertEqual(seen, [["http.response.pathsend", "other"], ["other"]])

    def test_the_head_of_a_stream_does_not_wait(self) -> None:
        order: List[str] = []

        async def application(scope: Any, receive: Any, send: Any) -> None:
            await send({"type": "http.response.start", "status": 200, "headers": []})
            order.append("the application waits")
            await send({"type": "http.response.body", "body": b"a"})

        async def send(message: Any) -> None:
            order.append(message["type"])

        receive: Any = None
        scope = {"type": "http", "method": "GET", "headers": []}
        asyncio.run(asgi.ConditionalRequests(application)(scope, receive, send))
        self.assertEqual(order, ["http.response.start", "the application waits", "http.response.body"])

    def test_other_messages_pass(self) -> None:
        messages: List[Any] = []

        async def send(message: Any) -> None:
            messages.append(message)

        async def application(scope: Any, receive: Any, send: Any) -> None:
            if scope["type"] == "http":
                await send({"type": "http.response.start", "status": 200, "headers": [], "trailers": True})
                await send({"type": "http.response.body", "body": b"a"})
                await send({"type": "http.response.trailers", "headers": []})
            else:
                await send({"type": "lifespan.startup.complete"})

        made = asgi.Cors(asgi.ConditionalRequests(application), CorsPolicy("*"))
        receive: Any = None
        asyncio.run(made({"type": "lifespan"}, receive, send))
        asyncio.run(made({"type": "http", "method": "GET", "headers": [(b"range", b"bytes=0-0")]}, receive, send))
        self.assertEqual([it["type"].split(".")[-1] for it in messages], ["complete", "start", "body", "trailers"])


class OtherOrigins(unittest.TestCase):
    def setUp(self) -> None:
        policy = CorsPolicy(["https://a.example"], ["PUT"], ["content-type"], ["x-any"], 600, True)
        fields = [("Content-Type", "text/plain"), ("Vary", "Accept"), ("Access-Control-Allow-Origin", "*")]
        self.calls: List[str] = []
        inner = wsgi_application(0, fields), asgi_application(0, fields)

        def of_wsgi(environ: Any, start: Any) -> Any:
            self.calls.append(environ["REQUEST_METHOD"])
            return inner[0](environ, start)

        async def of_asgi(scope: Any, receive: Any, send: Any) -> None:
            self.calls.append(scope["method"])
            await inner[1](scope, receive, send)

        made = validator(wsgi.Cors(of_wsgi, policy)), asgi.Cors(of_asgi, policy)
        self.asks: Tuple[Ask, ...] = (
            lambda *words: by_wsgi(made[0], *words),
            lambda *words: by_asgi(made[1], *words),
        )

    def test_plain(self) -> None:
        for ask in self.asks:
            answer = ask("GET", {"Origin": "https://a.example"})
            self.assertEqual(answer.fields["access-control-allow-origin"], "https://a.example")
            self.assertEqual(answer.fields["access-control-allow-credentials"], "true")
            self.assertEqual(answer.fields["access-control-expose-headers"], "x-any")
            self.assertEqual(answer.names.count("vary"), 2)
            answer = ask("GET", {"Origin": "https://b.example"})
            self.assertEqual((answer.status, answer.content), (200, CONTENT))
            self.assertFalse([name for name in answer.names if name.startswith("access-control")])
            self.assertNotIn("access-control-allow-origin", ask("GET", {}).names)
        self.assertEqual(self.calls, ["GET"] * 6)

    def test_preflight(self) -> None:
        for ask in self.asks:
            asked = {"Origin": "https://a.example", "Access-Control-Request-Method": "PUT"}
            answer = ask("OPTIONS", asked)
            self.assertEqual((answer.status, answer.content), (204, b""))
            self.assertEqual(answer.fields["access-control-allow-methods"], "PUT")
            self.assertEqual(answer.fields["access-control-max-age"], "600")
        self.assertEqual(self.calls, [])

    def test_a_byte_that_no_value_has(self) -> None:
        for ask in self.asks:
            self.assertEqual(ask("GET", {"Origin": "\0"}).status, 400)
        self.assertEqual(self.calls, [])

    def test_another_options(self) -> None:
        for ask in self.asks:
            self.assertEqual(ask("OPTIONS", {"Origin": "https://a.example"}).status, 200)
        self.assertEqual(self.calls, ["OPTIONS"] * 2)
