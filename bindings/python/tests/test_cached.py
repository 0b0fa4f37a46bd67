"""The cache in front of an application, as a client and the application see it."""

import asyncio
import unittest
from typing import Any, Callable, Dict, Iterable, Iterator, List, Optional, Tuple
from unittest import mock
from wsgiref.util import setup_testing_defaults
from wsgiref.validate import validator

from typed_headers import Cache, asgi, wsgi

Fields = List[Tuple[str, str]]
Asked = Dict[str, str]
PLAIN = ("Content-Type", "text/plain")


class Seen:
    """A request that the application got."""

    def __init__(self, method: str, path: str, fields: Asked) -> None:
        self.method, self.path, self.fields = method, path, fields


class Given:
    """A response that the application gives, in pieces."""

    def __init__(self, status: int, fields: Fields, *pieces: bytes) -> None:
        self.status, self.fields, self.pieces = status, [PLAIN, *fields], pieces


class Answer:
    def __init__(self, status: int, fields: Fields, content: bytes) -> None:
        self.status, self.content = status, content
        self.fields = {name.lower(): value for name, value in fields}


Respond = Callable[[Seen], Given]


class Origin:
    """An application of both kinds, which notes what it is asked."""

    def __init__(self, respond: Respond) -> None:
        self.respond = respond
        self.seen: List[Seen] = []

    def answer(self, seen: Seen) -> Given:
        self.seen.append(seen)
        return self.respond(seen)

    def wsgi(self, environ: Any, start_response: Any) -> Iterable[bytes]:
        fields = {key[5:].lower().replace("_", "-"): value for key, value in environ.items() if key.startswith("HTTP_")}
        given = self.answer(Seen(environ["REQUEST_METHOD"], environ["PATH_INFO"], fields))
        start_response(f"{given.status} X", list(given.fields))
        return iter(given.pieces if environ["REQUEST_METHOD"] != "HEAD" else ())

    async def asgi(self, scope: Any, receive: Any, send: Any) -> None:
        fields = {name.decode(): value.decode("latin-1") for name, value in scope["headers"]}
        await receive()
        given = self.answer(Seen(scope["method"], scope["path"], fields))
        named = [(name.lower().encode(), value.encode("latin-1")) for name, value in given.fields]
        await send({"type": "http.response.start", "status": given.status, "headers": named})
        for piece in given.pieces if scope["method"] != "HEAD" else ():
            await send({"type": "http.response.body", "body": piece, "more_body": True})
        await send({"type": "http.response.body", "body": b""})


class Served:
    """An origin behind a cache, at a time that the test sets."""

    def __init__(self, kind: str, respond: Respond, guess: int = 0, **more: Any) -> None:
        self.kind, self.now, self.origin = kind, 1000, Origin(respond)
        self.cache = Cache(shared=True, guess=guess)
        middleware: Any = wsgi.Cached if kind == "wsgi" else asgi.Cached
        application: Any = self.origin.wsgi if kind == "wsgi" else self.origin.asgi
        self.application: Any = middleware(application, self.cache, clock=lambda: self.now, **more)

    @property
    def count(self) -> int:
        return len(self.origin.seen)

    @property
    def last(self) -> Seen:
        return self.origin.seen[-1]

    def ask(self, method: str = "GET", path: str = "/a", at: Optional[int] = None, **asked: str) -> Answer:
        self.now = self.now if at is None else at
        fields = {name.replace("_", "-"): value for name, value in asked.items()}
        return self.by_wsgi(method, path, fields) if self.kind == "wsgi" else self.by_asgi(method, path, fields)

    def environ(self, method: str, path: str, fields: Asked) -> Dict[str, Any]:
        environ: Dict[str, Any] = {
            "REQUEST_METHOD": method,
            "SCRIPT_NAME": "",
            "PATH_INFO": path,
            "QUERY_STRING": "",
            "HTTP_HOST": "A.example",
        }
        setup_testing_defaults(environ)
        environ.update({f"HTTP_{name.upper().replace('-', '_')}": value for name, value in fields.items()})
        return environ

    def by_wsgi(self, method: str, path: str, fields: Asked) -> Answer:
        head: List[Any] = []

        def start_response(status: str, given: Fields, exc_info: Any = None) -> Any:
            head[:] = [int(status[:3]), given]
            return lambda content: None

        content = self.application(self.environ(method, path, fields), start_response)
        try:
            body = b"".join(content)
        finally:
            if hasattr(content, "close"):
                content.close()
        return Answer(head[0], head[1], body)

    def by_asgi(self, method: str, path: str, fields: Asked) -> Answer:
        fields = {"Host": "A.example", **fields}
        named = [(name.lower().encode(), value.encode()) for name, value in fields.items()]
        scope = {"type": "http", "method": method, "path": path, "query_string": b"", "headers": named, "scheme": "http"}
        messages: List[Any] = []

        async def receive() -> Any:
            return {"type": "http.request", "body": b"", "more_body": False}

        async def send(message: Any) -> None:
            assert (message["type"] == "http.response.start") == (not messages), "the head comes first, and once"
            messages.append(message)

        asyncio.run(self.application(scope, receive, send))
        assert not messages[-1].get("more_body"), "the content ends"
        head, *bodies = messages
        given = [(name.decode(), value.decode("latin-1")) for name, value in head["headers"]]
        return Answer(head["status"], given, b"".join(it.get("body", b"") for it in bodies))


def fresh(seconds: int, *more: Tuple[str, str]) -> Respond:
    return lambda seen: Given(200, [("Cache-Control", f"max-age={seconds}"), *more], b"he", b"llo")


def in_turn(*given: Given) -> Respond:
    left = list(given)
    return lambda seen: left.pop(0)


class CachedTest(unittest.TestCase):
    def each(self, make: Callable[[], Respond], **more: Any) -> Iterator[Served]:
        for kind in ("wsgi", "asgi"):
            with self.subTest(kind=kind):
                yield Served(kind, make(), **more)

    def test_serves_while_it_is_fresh(self) -> None:
        for served in self.each(lambda: fresh(60)):
            first, second = served.ask(), served.ask(at=1010)
            self.assertEqual((first.status, first.content, second.status, second.content), (200, b"hello", 200, b"hello"))
            self.assertEqual((second.fields["age"], second.fields["content-type"], served.count), ("10", "text/plain", 1))
            self.assertEqual(second.fields["content-length"], "5")
            served.ask(at=1060)
            self.assertEqual(served.count, 2)

    def test_serves_each_uri_by_itself(self) -> None:
        for served in self.each(lambda: fresh(60)):
            for path in ("/a", "/b", "/a%20b", "/a", "/b"):
                served.ask(path=path)
            self.assertEqual(served.count, 3)

    def test_validates_what_is_stale(self) -> None:
        tagged = [("ETag", '"1"'), ("Cache-Control", "max-age=10")]
        for served in self.each(lambda: in_turn(Given(200, tagged, b"one"), Given(304, tagged), Given(200, [], b"two"))):
            served.ask()
            validated = served.ask(at=1020, If_None_Match='"0"')
            self.assertEqual((validated.status, validated.content), (200, b"one"))
            self.assertEqual(served.last.fields["if-none-match"], '"1"')
            self.assertEqual((served.ask(at=1025).fields["age"], served.count), ("5", 2))
            self.assertEqual((served.ask(at=1040).content, served.count), (b"two", 3))

    def test_asks_again_after_a_304_about_something_else(self) -> None:
        tagged = [("ETag", '"1"'), ("Cache-Control", "max-age=10")]
        other = Given(304, [("ETag", '"2"')])
        for served in self.each(lambda: in_turn(Given(200, tagged, b"one"), other, Given(200, [], b"two"))):
            served.ask()
            self.assertEqual(served.ask(at=1020).content, b"two")
            self.assertNotIn("if-none-match", served.last.fields)

    def test_answers_conditions_and_ranges(self) -> None:
        for served in self.each(lambda: fresh(60, ("ETag", '"1"'))):
            served.ask()
            unchanged = served.ask(If_None_Match='W/"1"')
            self.assertEqual((unchanged.status, unchanged.content, unchanged.fields["etag"]), (304, b"", '"1"'))
            self.assertNotIn("content-type", unchanged.fields)
            part = served.ask(Range="bytes=1-2")
            self.assertEqual((part.status, part.content, part.fields["content-range"]), (206, b"el", "bytes 1-2/5"))
            self.assertEqual(part.fields["content-length"], "2")
            none = served.ask(Range="bytes=5-")
            self.assertEqual((none.status, none.fields["content-range"]), (416, "bytes */5"))
            head = served.ask("HEAD")
            self.assertEqual((head.status, head.content, served.count), (200, b"", 1))

    def test_selects_by_vary(self) -> None:
        for served in self.each(lambda: lambda seen: Given(
                200, [("Cache-Control", "max-age=60"), ("Vary", "Accept-Language")],
                seen.fields.get("accept-language", "none").encode())):
            for language in ("de", "en", "de", "en"):
                self.assertEqual(served.ask(Accept_Language=language).content, language.encode())
            self.assertEqual(served.count, 2)

    def test_stores_nothing_that_is_for_one_user(self) -> None:
        personal: List[Fields] = [
            [],
            [("Cache-Control", "no-store")],
            [("Cache-Control", "private, max-age=60")],
            [("Cache-Control", "max-age=60"), ("Set-Cookie", "a=b")],
            [("Cache-Control", "s-maxage=0")],
        ]
        for fields in personal:
            for served in self.each(lambda: lambda seen: Given(200, fields, b"hello")):
                served.ask()
                served.ask()
                self.assertEqual(served.count, 2)
        for served in self.each(lambda: fresh(60)):
            served.ask(Authorization="Basic YTpi")
            served.ask()
            self.assertEqual(served.count, 2)

    def test_an_unsafe_request_removes(self) -> None:
        def respond(seen: Seen) -> Given:
            if seen.method == "GET":
                return Given(200, [("Cache-Control", "max-age=60")], b"hello")
            return Given(201, [("Location", "/b"), ("Content-Location", "http://other.example/c")])

        for served in self.each(lambda: respond):
            for path in ("/a", "/b", "/c"):
                served.ask(path=path)
            served.ask("POST")
            for path in ("/a", "/b", "/c"):
                served.ask(path=path)
            self.assertEqual([it.path for it in served.origin.seen], ["/a", "/b", "/c", "/a", "/a", "/b"])

    def test_a_failed_unsafe_request_removes_nothing(self) -> None:
        for served in self.each(lambda: in_turn(Given(200, [("Cache-Control", "max-age=60")], b"a"), Given(500, []))):
            served.ask()
            served.ask("PUT")
            self.assertEqual(served.ask().content, b"a")

    def test_an_unsafe_request_removes_also_without_memory(self) -> None:
        outcomes = (("PUT", 204, b"b"), ("X", 303, b"b"), ("PUT", 404, b"a"), ("OPTIONS", 204, b"a"))
        for method, status, content in outcomes:
            pages = [Given(200, [("Cache-Control", "max-age=60")], text) for text in (b"a", b"b")]
            for served in self.each(lambda: in_turn(pages[0], Given(status, []), pages[1])):
                served.ask()
                with mock.patch.object(served.cache, "begin", side_effect=MemoryError):
                    self.assertEqual(served.ask(method).status, status)
                self.assertEqual(served.ask().content, content)

    def test_stores_nothing_that_changed_on_the_way(self) -> None:
        for kind in ("wsgi", "asgi"):
            other = Served(kind, fresh(60))

            def respond(seen: Seen) -> Given:
                if seen.method == "GET":
                    # (meanwhile another client changes it)
                    other.cache.remove("http://a.example/a")
                return Given(200, [("Cache-Control", "max-age=60")], b"old")

            other.origin.respond = respond
            other.ask()
            other.ask()
            self.assertEqual(other.count, 2)

    def test_serves_stale_on_an_error(self) -> None:
        stored = [("Cache-Control", "max-age=10, stale-if-error=60"), ("ETag", '"1"')]

        def fails(seen: Seen) -> Given:
            raise KeyError("lost")

        for later in (lambda seen: Given(503, [], b"sorry"), fails):
            for served in self.each(lambda: lambda seen: Given(200, stored, b"hello")):
                served.ask()
                served.origin.respond = later
                stale = served.ask(at=1030)
                self.assertEqual((stale.status, stale.content, stale.fields["age"]), (200, b"hello", "30"))
                if later is fails:
                    with self.assertRaises(KeyError):
                        served.ask(at=1100)
                else:
                    self.assertEqual(served.ask(at=1100).status, 503)

    def test_revalidates_after_a_stale_response(self) -> None:
        stored = [("Cache-Control", "max-age=10, stale-while-revalidate=60"), ("ETag", '"1"')]
        for served in self.each(lambda: in_turn(Given(200, stored, b"one"), Given(304, stored), Given(200, stored, b"two"))):
            served.ask()
            stale = served.ask(at=1020)
            self.assertEqual((stale.content, stale.fields["age"], served.count), (b"one", "20", 2))
            self.assertEqual(served.last.fields["if-none-match"], '"1"')
            self.assertEqual((served.ask(at=1025).fields["age"], served.count), ("5", 2))
            self.assertEqual((served.ask(at=1050).content, served.count), (b"one", 3))
            self.assertEqual((served.ask(at=1051).content, served.count), (b"two", 3))

    def test_stores_nothing_of_a_request_with_no_store(self) -> None:
        """Nor of the request that validates what this one was served (RFC 9111, section 5.2.1.5)."""
        stale, other = [("Cache-Control", "max-age=1, stale-while-revalidate=60")], [("Cache-Control", "max-age=60")]
        for served in self.each(lambda: in_turn(Given(200, stale, b"one"), *[Given(200, other, b"two")] * 2)):
            served.ask()
            self.assertEqual(served.ask(at=1010, Cache_Control="no-store").content, b"one")
            self.assertEqual(served.ask(at=1011).content, b"one")

    def test_hands_no_cookie_of_a_304_on(self) -> None:
        stored = [("Cache-Control", "max-age=10"), ("ETag", '"1"')]
        again = [("Cache-Control", "max-age=60"), ("ETag", '"1"'), ("Set-Cookie", "session=alice")]
        for served in self.each(lambda: in_turn(Given(200, stored, b"page"), Given(304, again), Given(200, stored, b"page"))):
            served.ask()
            served.ask(at=1100)
            self.assertNotIn("set-cookie", served.ask(at=1110).fields)

    def test_asks_nobody_if_that_is_forbidden(self) -> None:
        for served in self.each(lambda: fresh(60)):
            self.assertEqual((served.ask(Cache_Control="only-if-cached").status, served.count), (504, 0))

    def test_guesses_a_lifetime_if_told(self) -> None:
        dated = [("Last-Modified", "Thu, 01 Jan 1970 00:00:00 GMT"), ("Date", "Thu, 01 Jan 1970 00:16:40 GMT")]
        for guess, count in ((0, 2), (86_400, 1)):
            for served in self.each(lambda: lambda seen: Given(200, dated, b"hello"), guess=guess):
                served.ask()
                served.ask(at=1050)
                self.assertEqual(served.count, count)

    def test_stores_no_content_that_is_cut_or_large(self) -> None:
        cut = [("Cache-Control", "max-age=60"), ("Content-Length", "9")]
        for served in self.each(lambda: lambda seen: Given(200, cut, b"hello")):
            served.ask()
            served.ask()
            self.assertEqual(served.count, 2)
        for served in self.each(lambda: fresh(60), largest=4):
            self.assertEqual((served.ask().content, served.ask().content, served.count), (b"hello", b"hello", 2))
        served = Served("wsgi", fresh(60))
        pieces = iter(served.application(served.environ("GET", "/a", {}), lambda status, fields: None))
        self.assertEqual(next(pieces), b"he")
        getattr(pieces, "close")()
        served.ask()
        self.assertEqual(served.count, 2)

    def test_head(self) -> None:
        for served in self.each(lambda: fresh(60, ("Content-Length", "5"))):
            head = served.ask("HEAD")
            self.assertEqual((head.fields["content-length"], head.content), ("5", b""))
            self.assertEqual((served.ask().content, served.count), (b"hello", 2))

    def test_follows_the_rules_of_servers(self) -> None:
        served = Served("wsgi", fresh(60))
        application: Any = validator(served.origin.wsgi)
        served.application = validator(wsgi.Cached(application, served.cache, clock=lambda: served.now))
        self.assertEqual([served.ask().content for _ in range(3)], [b"hello"] * 3)
        self.assertEqual(served.count, 1)

    def test_takes_a_shared_cache_alone(self) -> None:
        kinds: List[Any] = [wsgi.Cached, asgi.Cached]
        for middleware in kinds:
            with self.assertRaises(ValueError):
                middleware(None, Cache(shared=False))

    def test_keeps_little_of_the_content_of_a_get(self) -> None:
        """What is given to the application once more is bounded, also in the number of its messages."""

        def came_again(piece: bytes, count: int) -> bool:
            async def receive() -> Any:
                return {"type": "http.request", "body": piece, "more_body": True}

            async def read() -> bool:
                given = asgi._Given(receive, "GET")
                for _ in range(count):
                    await given()
                self.assertLessEqual(len(given.messages), 256)
                return given.rewind()

            return asyncio.run(read())

        for piece, count in ((b"a", 200), (b"", 200), (bytes(60_000), 1)):
            self.assertTrue(came_again(piece, count))
        for piece, count in ((b"a", 300), (b"", 300), (bytes(70_000), 1)):
            self.assertFalse(came_again(piece, count))

    def test_rejects_a_host_that_names_another_target(self) -> None:
        """A Host that has a part of a path would store one page under the URI of another one."""
        for served in self.each(lambda: lambda seen: Given(200, [("Cache-Control", "max-age=60")], seen.path.encode())):
            for host in ("A.example/b", "A.example/b?c=", "A.example#", "A.example /b"):
                head = served.ask(path="/c", Host=host)
                self.assertEqual((head.status, served.count), (400, 0), host)
            self.assertEqual(served.ask(path="/b/c").content, b"/b/c")

    def test_rejects_a_field_that_no_field_is(self) -> None:
        for served in self.each(lambda: fresh(60)):
            self.assertEqual((served.ask(X_Any="a\0b").status, served.count), (400, 0))


if __name__ == "__main__":
    unittest.main()
