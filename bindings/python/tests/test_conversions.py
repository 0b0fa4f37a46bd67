"""Header sections of frameworks and clients, as `Headers` takes them and as it gives them. None of these is needed."""

import importlib
import subprocess
import sys
import unittest
from http.client import HTTPConnection, HTTPMessage, parse_headers
from io import BytesIO
from typing import Any, Dict, List, Tuple

from typed_headers import Headers, Section

PAIRS = [
    ("content-type", "text/plain"),
    ("set-cookie", "a=1; Path=/"),
    ("vary", "accept"),
    ("set-cookie", "b=2"),
    ("x-any", "na\xefve"),
]
#: The lines of one name come together in some of these.
GROUPED = [PAIRS[0], PAIRS[1], PAIRS[3], PAIRS[2], PAIRS[4]]
COOKIES = ["a=1; Path=/", "b=2"]


def found(name: str) -> Any:
    """A module that may be missing."""
    try:
        return importlib.import_module(name)
    except ImportError as error:
        raise unittest.SkipTest(f"{name} isn't installed: {error}") from None


class Conversions(unittest.TestCase):
    def judge(self, given: Any, wanted: List[Tuple[str, str]] = PAIRS) -> None:
        for kind in (Headers, Section):
            headers = kind(given)
            self.assertEqual(headers.pairs(), wanted)
            self.assertEqual((headers.content_type and headers.content_type.essence), "text/plain")
            self.assertEqual([str(it) for it in headers.set_cookie or ()], COOKIES)

    def test_starlette(self) -> None:
        kinds = found("starlette.datastructures")
        for kind in (kinds.Headers, kinds.MutableHeaders):
            made = kind(raw=Headers(PAIRS).raw())
            self.judge(made)
            self.judge(made.raw)
            self.assertEqual((made.getlist("Set-Cookie"), made["x-any"]), (COOKIES, "na\xefve"))
        response = found("starlette.responses").Response(headers=Headers({"Vary": "accept"}))
        self.assertEqual(Headers(response.headers)["vary"], "accept")

    def test_werkzeug(self) -> None:
        kinds = found("werkzeug.datastructures")
        made = kinds.Headers(Headers(PAIRS).pairs())
        self.judge(made)
        self.assertEqual((made.getlist("Set-Cookie"), made["X-Any"]), (COOKIES, "na\xefve"))
        response = found("werkzeug.wrappers").Response(headers=Headers(PAIRS).pairs())
        self.judge(response.headers)
        environ = {"HTTP_VARY": "accept", "CONTENT_TYPE": "text/plain", "CONTENT_LENGTH": "5", "wsgi.version": (1, 0)}
        asked = Headers(kinds.EnvironHeaders(environ))
        self.assertEqual((dict(asked), asked.content_length), (
            {"vary": "accept", "content-type": "text/plain", "content-length": "5"}, 5))

    def test_httpx(self) -> None:
        httpx = found("httpx")
        made = httpx.Headers(Headers(PAIRS).raw())
        self.judge(made)
        self.judge(made.raw)
        self.judge(httpx.Headers(Headers(PAIRS[:-1]).pairs()), PAIRS[:-1])
        self.assertEqual(made.get_list("set-cookie"), COOKIES)
        response = httpx.Response(200, headers=Headers(PAIRS).raw())
        self.judge(response.headers)

    def test_requests(self) -> None:
        requests = found("requests")
        # (what a response has of Set-Cookie is several lines in its `raw` alone)
        lines = found("urllib3.response").HTTPHeaderDict(Headers(PAIRS).pairs())
        self.judge(lines, GROUPED)
        made = requests.structures.CaseInsensitiveDict(Headers(PAIRS))
        self.assertEqual(Headers(made)["Set-Cookie"], ", ".join(COOKIES))
        asked = requests.Request("GET", "https://a.example/", headers=Headers({"Vary": "a", "X-B": "c"})).prepare()
        self.assertEqual(dict(Headers(asked.headers)), {"vary": "a", "x-b": "c"})

    def test_aiohttp(self) -> None:
        found("aiohttp")
        multidict = found("multidict")
        made = multidict.CIMultiDict(Headers(PAIRS).pairs())
        for given in (made, multidict.CIMultiDictProxy(made)):
            self.judge(given)
        self.assertEqual((made.getall("Set-Cookie"), made["X-Any"]), (COOKIES, "na\xefve"))

    def test_the_standard_library(self) -> None:
        text = "".join(f"{name}: {value}\r\n" for name, value in PAIRS) + "\r\n"
        self.judge(parse_headers(BytesIO(text.encode("latin-1"))))
        message = HTTPMessage()
        for name, value in Headers(PAIRS).pairs():
            message[name] = value
        self.judge(message)
        self.assertEqual(message.get_all("Set-Cookie"), COOKIES)

        sent: List[bytes] = []

        class Sent(HTTPConnection):
            def connect(self) -> None: ...

            def send(self, data: Any) -> None:
                sent.append(data)

        Sent("a.example").request("GET", "/", headers=Headers([("Cookie", "a=1"), ("Cookie", "b=2"), ("Accept", "c")]))
        lines = b"".join(sent).split(b"\r\n")
        self.assertIn(b"cookie: a=1; b=2", lines)
        self.assertIn(b"accept: c", lines)

    def test_a_mapping(self) -> None:
        headers = Headers(PAIRS)
        self.assertEqual([name for name in headers], ["content-type", "set-cookie", "vary", "x-any"])
        self.judge({name: headers.lines(name) for name in headers}, GROUPED)
        given: Dict[str, str] = dict(headers)
        self.assertEqual((given["vary"], Headers(given).pairs()[2]), ("accept", ("vary", "accept")))
        self.assertEqual(Headers([("Cookie", "a=1"), ("cookie", "b=2")])["Cookie"], "a=1; b=2")

    def test_none_is_needed(self) -> None:
        names = ("aiohttp", "django", "fastapi", "httpx", "multidict", "requests", "starlette", "urllib3", "werkzeug")
        code = f"import sys, typed_headers; sys.exit(any(name in sys.modules for name in {names!r}))"
        self.assertEqual(subprocess.run([sys.executable, "-c", code]).returncode, 0)
