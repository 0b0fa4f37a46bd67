"""The cache for `requests`, over a server of this process."""

import copy
import gzip
import pickle
import threading
import time
import unittest
from contextlib import suppress
from http.server import BaseHTTPRequestHandler, ThreadingHTTPServer
from typing import Any, Dict, List, Optional, Tuple

from typed_headers import Cache

try:
    import requests

    from typed_headers.requests import CachedAdapter
except ImportError as error:
    raise unittest.SkipTest(f"requests isn't installed: {error}") from None

NOW = 1_000_000_000
Answer = Tuple[int, Dict[str, str], bytes]


class Origin(BaseHTTPRequestHandler):
    """Answers by the next answer of the test, and notes the requests."""

    protocol_version = "HTTP/1.1"
    answers: List[Optional[Answer]] = []
    asked: List[Tuple[str, str, Dict[str, str]]] = []

    def answer(self) -> None:
        length = int(self.headers.get("Content-Length", 0))
        self.rfile.read(length)
        self.asked.append((self.command, self.path, {name.lower(): value for name, value in self.headers.items()}))
        given = self.answers.pop(0)
        if given is None:
            self.close_connection = True
            return
        status, fields, content = given
        self.send_response_only(status)
        for name, value in fields.items():
            self.send_header(name, value)
        if "Content-Length" not in fields and "Transfer-Encoding" not in fields:
            self.send_header("Content-Length", str(len(content)))
        self.end_headers()
        if self.command != "HEAD":
            self.wfile.write(content)

    do_GET = do_HEAD = do_PUT = answer

    def log_message(self, *words: Any) -> None:
        pass


def stored(content: bytes = b"hello", **fields: str) -> Answer:
    return 200, {"Cache-Control": "max-age=60", "ETag": '"1"', **{it.replace("_", "-"): fields[it] for it in fields}}, content


class Adapters(unittest.TestCase):
    def setUp(self) -> None:
        self.server = ThreadingHTTPServer(("127.0.0.1", 0), Origin)
        threading.Thread(target=self.server.serve_forever, daemon=True).start()
        self.url = f"http://127.0.0.1:{self.server.server_port}"
        self.now = NOW
        self.session = requests.Session()
        self.session.mount("http://", CachedAdapter(clock=lambda: self.now, largest=100_000))
        Origin.answers, Origin.asked = [], []
        self.addCleanup(self.server.server_close)
        self.addCleanup(self.server.shutdown)
        self.addCleanup(self.session.close)

    def get(self, path: str = "/a", method: str = "GET", **named: Any) -> Any:
        return self.session.request(method, self.url + path, **named)

    def test_a_hit(self) -> None:
        Origin.answers = [stored()]
        first, self.now = self.get("/a#x"), NOW + 10
        second = self.get("/a#y")
        self.assertEqual([it.from_cache for it in (first, second)], [False, True])
        self.assertEqual([(it.status_code, it.reason, it.content) for it in (first, second)], [(200, "OK", b"hello")] * 2)
        self.assertEqual((second.headers["Age"], len(Origin.asked)), ("10", 1))
        self.assertEqual(self.get(headers={"Range": "bytes=1-2"}).content, b"el")
        self.assertEqual(self.get(headers={"If-None-Match": '"1"'}).status_code, 304)
        self.assertEqual(self.get(method="HEAD").headers["Content-Length"], "5")

    def test_validation(self) -> None:
        Origin.answers = [stored(), (304, {"ETag": '"1"', "Cache-Control": "max-age=60"}, b""), stored(b"new", ETag='"2"')]
        self.get()
        self.now += 100
        found = self.get()
        self.assertEqual((found.status_code, found.content, found.from_cache), (200, b"hello", True))
        self.assertEqual(Origin.asked[1][2]["if-none-match"], '"1"')
        self.now += 100
        self.assertEqual(self.get().content, b"new")
        self.assertEqual((self.get().content, len(Origin.asked)), (b"new", 3))

    def test_variants_and_methods(self) -> None:
        Origin.answers = [stored(b"en", Vary="Accept-Language"), stored(b"de", Vary="Accept-Language"), (204, {}, b""), stored(b"x")]
        for language in ("en", "de", "en", "de"):
            self.assertEqual(self.get(headers={"Accept-Language": language}).text, language)
        self.assertEqual(len(Origin.asked), 2)
        self.assertEqual(self.get(method="PUT", data=b"new").status_code, 204)
        self.assertEqual(self.get(headers={"Accept-Language": "en"}).text, "x")

    def test_errors(self) -> None:
        control = {"Cache_Control": "max-age=1, stale-if-error=60"}
        Origin.answers = [stored(b"hello", **control), None, (503, {}, b""), None]
        self.get()
        self.now += 10
        self.assertEqual([self.get().content, self.get().content], [b"hello", b"hello"])
        self.now += 100
        with self.assertRaises(requests.ConnectionError):
            self.get()
        self.assertEqual(self.get(headers={"Cache-Control": "only-if-cached"}).status_code, 504)

    def test_validation_after_the_response(self) -> None:
        Origin.answers = [stored(Cache_Control="max-age=1, stale-while-revalidate=60"), stored(b"new")]
        self.get()
        self.now += 10
        self.assertEqual(self.get().content, b"hello")
        for _ in range(500):
            if self.get().content == b"new":
                break
            time.sleep(0.01)
        self.assertEqual(len(Origin.asked), 2)

    def test_content(self) -> None:
        large = bytes(range(256)) * 1000
        chunked = b"5\r\nhello\r\n0\r\n\r\n"
        Origin.answers = [
            stored(gzip.compress(b"hello" * 100), Content_Encoding="gzip"),
            stored(large), stored(large), stored(chunked, Transfer_Encoding="chunked"),
            stored(chunked, Transfer_Encoding="chunked"), stored(b"cut", Content_Length="5"),
        ]
        self.assertEqual([self.get("/gzip").content for _ in range(2)], [b"hello" * 100] * 2)
        self.assertEqual([self.get("/large", stream=stream).content for stream in (False, True)], [large] * 2)
        self.assertEqual([self.get("/chunked", stream=True).content for _ in range(2)], [b"hello"] * 2)
        self.assertEqual(len(Origin.asked), 5)

    def test_a_response_that_is_cut_off(self) -> None:
        Origin.answers = [stored(b"cut", Content_Length="5", Connection="close"), stored()]
        # (version 1 of urllib3 doesn't tell)
        with suppress(requests.exceptions.RequestException):
            self.get(timeout=1)
        self.assertEqual(self.get().content, b"hello")

    def test_cookies(self) -> None:
        Origin.answers = [stored(Set_Cookie="a=b"), stored(b"other")]
        self.get()
        self.assertEqual(self.session.cookies.get("a"), "b")
        self.assertTrue(self.get().from_cache)

    def test_private_alone(self) -> None:
        with self.assertRaises(ValueError):
            CachedAdapter(Cache(shared=True))

    def test_an_adapter_is_no_value(self) -> None:
        adapter = self.session.get_adapter("http://x")
        with self.assertRaisesRegex(TypeError, "share a storage"):
            pickle.dumps(adapter)
        with self.assertRaisesRegex(TypeError, "share a storage"):
            copy.copy(adapter)

    def test_threads(self) -> None:
        Origin.answers = [stored(b"%d" % it) for it in range(200)]
        wrong: List[Any] = []

        def ask(path: str) -> None:
            session = requests.Session()
            session.mount("http://", self.session.get_adapter("http://x"))
            for _ in range(50):
                found = session.get(f"{self.url}{path}", headers={"Cache-Control": "no-cache"} if path == "/0" else {})
                if int(found.headers["Content-Length"]) != len(found.content):
                    wrong.append(found)

        threads = [threading.Thread(target=ask, args=(f"/{it % 4}",)) for it in range(8)]
        for it in threads:
            it.start()
        for it in threads:
            it.join()
        self.assertEqual(wrong, [])
