"""The cache for `httpx`, over answers of a list and over a server of this process."""

import asyncio
import threading
import time
import unittest
from http.server import BaseHTTPRequestHandler, ThreadingHTTPServer
from typing import Any, Dict, Iterator, List, Tuple, Union

from typed_headers import Cache

try:
    import httpx

    from typed_headers.httpx import AsyncCachedTransport, CachedTransport
except ImportError as error:
    raise unittest.SkipTest(f"httpx isn't installed: {error}") from None

NOW = 1_000_000_000
URL = "http://a.example"
Answer = Tuple[int, Dict[str, str], bytes]


def stored(content: bytes = b"hello", **fields: str) -> Answer:
    fields = {it.replace("_", "-"): fields[it] for it in fields}
    return 200, {"Cache-Control": "max-age=60", "ETag": '"1"', **fields}, content


class Pieces(httpx.SyncByteStream, httpx.AsyncByteStream):
    """Content in two pieces."""

    def __init__(self, content: bytes) -> None:
        self.pieces = [content[:2], content[2:]]
        self.is_closed = False

    def __iter__(self) -> Iterator[bytes]:
        yield from self.pieces

    async def __aiter__(self) -> Any:
        for it in self.pieces:
            yield it

    def close(self) -> None:
        self.is_closed = True

    async def aclose(self) -> None:
        self.is_closed = True


class Origin(httpx.BaseTransport, httpx.AsyncBaseTransport):
    """Answers by the next answer of the test, and notes the requests."""

    def __init__(self) -> None:
        self.answers: List[Union[Answer, Exception]] = []
        self.asked: List[httpx.Request] = []
        self.given: List[Pieces] = []

    def handle_request(self, request: httpx.Request) -> httpx.Response:
        self.asked.append(request)
        answer = self.answers.pop(0)
        if isinstance(answer, Exception):
            raise answer
        self.given.append(Pieces(answer[2]))
        fields = [(name.encode(), value.encode("latin-1")) for name, value in answer[1].items()]
        return httpx.Response(answer[0], headers=fields, stream=self.given[-1])

    async def handle_async_request(self, request: httpx.Request) -> httpx.Response:
        await asyncio.sleep(0)
        return self.handle_request(request)


class Transports(unittest.TestCase):
    is_async = False

    def setUp(self) -> None:
        self.loop = asyncio.new_event_loop()
        self.addCleanup(self.loop.close)

    def begin(self, *answers: Union[Answer, Exception]) -> None:
        self.origin, self.now = Origin(), NOW
        self.origin.answers = [*answers]
        if self.is_async:
            asynchronous = AsyncCachedTransport(self.origin, clock=lambda: self.now, largest=100_000)
            self.client: Any = httpx.AsyncClient(transport=asynchronous)
        else:
            self.client = httpx.Client(transport=CachedTransport(self.origin, clock=lambda: self.now, largest=100_000))

    def get(self, path: str = "/a", method: str = "GET", **named: Any) -> Any:
        found = self.client.request(method, URL + path, **named)
        return self.loop.run_until_complete(found) if self.is_async else found

    def test_a_hit(self) -> None:
        self.begin(stored(Content_Length="5"))
        first, self.now = self.get("/a#x"), NOW + 10
        second = self.get("/a#y")
        self.assertEqual([it.extensions["from_cache"] for it in (first, second)], [False, True])
        self.assertEqual([(it.status_code, it.content) for it in (first, second)], [(200, b"hello")] * 2)
        self.assertEqual((second.headers["Age"], len(self.origin.asked)), ("10", 1))
        self.assertEqual(self.get(headers={"Range": "bytes=1-2"}).content, b"el")
        self.assertEqual(self.get(headers={"If-None-Match": '"1"'}).status_code, 304)
        self.assertEqual(self.get(method="HEAD").headers["Content-Length"], "5")
        self.assertTrue(all(it.is_closed for it in self.origin.given))

    def test_validation(self) -> None:
        renewed = 304, {"ETag": '"1"', "Cache-Control": "max-age=60"}, b""
        self.begin(stored(), renewed, stored(b"new", ETag='"2"'))
        self.get()
        self.now += 100
        found = self.get()
        self.assertEqual((found.status_code, found.content), (200, b"hello"))
        self.assertEqual(self.origin.asked[1].headers["if-none-match"], '"1"')
        self.now += 100
        self.assertEqual(self.get().content, b"new")
        self.assertEqual((self.get().content, len(self.origin.asked)), (b"new", 3))

    def test_bytes_past_ascii(self) -> None:
        renewed = 304, {"ETag": '"\xe9"', "Cache-Control": "max-age=60"}, b""
        self.begin(stored(ETag='"\xe9"', Content_Language="\xff"), renewed)
        self.get()
        for pause, age in ((10, b"10"), (100, b"0")):
            self.now += pause
            raw = dict(self.get(headers=[(b"X-A", b"\xe9")]).headers.raw)
            fields = {name.lower(): value for name, value in raw.items()}
            self.assertEqual((fields[b"etag"], fields[b"content-language"], fields[b"age"]), (b'"\xe9"', b"\xff", age))
        asked = dict(self.origin.asked[1].headers.raw)
        self.assertEqual((asked[b"if-none-match"], asked[b"X-A"]), (b'"\xe9"', b"\xe9"))

    def test_variants_and_methods(self) -> None:
        varied = [stored(it, Vary="Accept-Language") for it in (b"en", b"de")]
        self.begin(*varied, (204, {}, b""), stored(b"x"))
        for language in ("en", "de", "en", "de"):
            self.assertEqual(self.get(headers={"Accept-Language": language}).text, language)
        self.assertEqual(len(self.origin.asked), 2)
        self.assertEqual(self.get(method="PUT", content=b"new").status_code, 204)
        self.assertEqual(self.get(headers={"Accept-Language": "en"}).text, "x")

    def test_errors(self) -> None:
        failed = httpx.ConnectError("no server")
        self.begin(stored(Cache_Control="max-age=1, stale-if-error=60"), failed, (503, {}, b""), failed)
        self.get()
        self.now += 10
        self.assertEqual([self.get().content, self.get().content], [b"hello", b"hello"])
        self.now += 100
        with self.assertRaises(httpx.ConnectError):
            self.get()
        self.assertEqual(self.get(headers={"Cache-Control": "only-if-cached"}).status_code, 504)

    def test_validation_after_the_response(self) -> None:
        self.begin(stored(Cache_Control="max-age=1, stale-while-revalidate=60"), stored(b"new"))
        self.get()
        self.now += 10
        self.assertEqual(self.get().content, b"hello")
        for _ in range(500):
            if self.get().content == b"new":
                break
            time.sleep(0.01)
        self.assertEqual(len(self.origin.asked), 2)

    def test_content_that_is_not_read_whole(self) -> None:
        self.begin(stored(), stored(bytes(200_000)), stored(), ValueError("a fault"), stored(b"after"))
        if self.is_async:
            self.loop.run_until_complete(self.look())
        else:
            with self.client.stream("GET", URL + "/a") as response:
                self.assertEqual(next(response.iter_raw()), b"he")
        self.assertEqual(len(self.get().content), 200_000)
        self.assertEqual(self.get().content, b"hello")
        with self.assertRaises(ValueError):
            self.get("/b")
        self.assertEqual(self.get("/b").content, b"after")

    async def look(self) -> None:
        async with self.client.stream("GET", URL + "/a") as response:
            async for piece in response.aiter_raw():
                self.assertEqual(piece, b"he")
                break

    def test_a_wrong_field(self) -> None:
        self.begin(stored())
        with self.assertRaises(httpx.LocalProtocolError):
            self.get(headers={"A": "b\x00c"})
        self.assertEqual(self.get().content, b"hello")

    def test_private_alone(self) -> None:
        for transport in (CachedTransport, AsyncCachedTransport):
            with self.assertRaises(ValueError):
                transport(cache=Cache(shared=True))


class AsyncTransports(Transports):
    is_async = True


class Handler(BaseHTTPRequestHandler):
    protocol_version = "HTTP/1.1"
    count = 0

    def do_GET(self) -> None:
        Handler.count += 1
        content = b"%d" % Handler.count * (Handler.count % 50 + 1)
        self.send_response_only(200)
        for name, value in (("Cache-Control", "max-age=60"), ("Content-Length", str(len(content)))):
            self.send_header(name, value)
        self.end_headers()
        self.wfile.write(content)

    def log_message(self, *words: Any) -> None:
        pass


class Overlapping(unittest.TestCase):
    def test_threads_and_tasks(self) -> None:
        server = ThreadingHTTPServer(("127.0.0.1", 0), Handler)
        threading.Thread(target=server.serve_forever, daemon=True).start()
        self.addCleanup(server.server_close)
        self.addCleanup(server.shutdown)
        url, wrong, cache = f"http://127.0.0.1:{server.server_port}", [], Cache(shared=False)

        def check(found: httpx.Response) -> None:
            if int(found.headers["Content-Length"]) != len(found.content):
                wrong.append(found)

        def fields(place: int) -> Dict[str, str]:
            return {"Cache-Control": "no-cache"} if place % 4 == 0 else {}

        def ask(place: int) -> None:
            for _ in range(30):
                check(client.get(f"{url}/{place % 4}", headers=fields(place)))

        async def ask_all() -> None:
            async with httpx.AsyncClient(transport=AsyncCachedTransport(cache=cache)) as asynchronous:
                for _ in range(10):
                    asks = [asynchronous.get(f"{url}/{it % 4}", headers=fields(it)) for it in range(8)]
                    for it in await asyncio.gather(*asks):
                        check(it)

        with httpx.Client(transport=CachedTransport(cache=cache)) as client:
            threads = [threading.Thread(target=ask, args=(it,)) for it in range(8)]
            for it in threads:
                it.start()
            asyncio.run(ask_all())
            for it in threads:
                it.join()
        self.assertEqual(wrong, [])
