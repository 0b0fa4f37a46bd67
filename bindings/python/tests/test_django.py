"""The middleware for Django, by its path in the settings."""

import asyncio
import io
import sys
import tempfile
import types
import unittest
import warnings
from typing import Any, Dict, List, Tuple

from typed_headers import CorsPolicy

try:
    import django
    from django.conf import settings
    from django.core.exceptions import ImproperlyConfigured
    from django.http import FileResponse, HttpResponse, StreamingHttpResponse
except ImportError as error:
    raise unittest.SkipTest(f"Django isn't installed: {error}") from None

# (the loader of tests looks at the name, which wants settings)
settings.configure(
    ALLOWED_HOSTS=["*"],
    USE_TZ=True,
    MIDDLEWARE=["typed_headers.django.Cors", "typed_headers.django.ConditionalRequests"],
)
CONTENT = bytes(place % 251 for place in range(10_000))
DATE = "Sun, 06 Nov 1994 08:49:37 GMT"
ORIGIN = "https://a.example"
SEEN: List[Any] = []
CLOSED: List[str] = []


def view(request: Any, kind: str) -> Any:
    SEEN.append((dict(request.headers), [key for key in request.META if "MATCH" in key or "RANGE" in key]))
    if kind == "file":
        file = tempfile.NamedTemporaryFile()
        file.write(CONTENT)
        file.seek(0)
        response: Any = FileResponse(file, content_type="text/plain", as_attachment=True, filename="a.txt")
    elif kind == "pieces":
        response = StreamingHttpResponse(CONTENT[place : place + 700] for place in range(0, len(CONTENT), 700))
        response["Content-Length"] = str(len(CONTENT))
        response._resource_closers.append(lambda: CLOSED.append(kind))
    elif kind == "missing":
        response = HttpResponse(b"none", status=404)
    else:
        response = HttpResponse(CONTENT, content_type="text/plain")
        response.set_cookie("SID", "1")
    if kind != "plain":
        response["ETag"] = '"a"'
    response["Last-Modified"] = DATE
    response["Vary"] = "Accept"
    return response


def setUpModule() -> None:
    routes = types.ModuleType("routes_of_this_test")
    sys.modules[routes.__name__] = routes
    django.setup()
    settings.ROOT_URLCONF = routes.__name__
    from django.urls import re_path

    setattr(routes, "urlpatterns", [re_path(r"^(\w+)$", view)])
    settings.TYPED_HEADERS_CORS = CorsPolicy(ORIGIN, methods=["PUT"])
    unittest.addModuleCleanup(lambda: sys.modules.pop(routes.__name__))


class Answer:
    def __init__(self, status: int, fields: List[Tuple[str, str]], content: bytes) -> None:
        self.status, self.content = status, content
        self.fields = {name.lower(): value for name, value in fields}


def by_wsgi(method: str, kind: str, asked: Dict[str, str]) -> Answer:
    from django.core.handlers.wsgi import WSGIHandler

    environ = {
        "REQUEST_METHOD": method,
        "PATH_INFO": f"/{kind}",
        "SCRIPT_NAME": "",
        "QUERY_STRING": "",
        "SERVER_NAME": "a",
        "SERVER_PORT": "80",
        "HTTP_HOST": "a",
        "wsgi.input": io.BytesIO(),
        "wsgi.url_scheme": "http",
        **{f"HTTP_{name.upper().replace('-', '_')}": value for name, value in asked.items()},
    }
    seen: List[Any] = []
    content = WSGIHandler()(environ, lambda status, fields: seen.extend((int(status[:3]), fields)))
    try:
        return Answer(seen[0], seen[1], b"".join(content))
    finally:
        content.close()


def by_asgi(method: str, kind: str, asked: Dict[str, str]) -> Answer:
    from django.core.handlers.asgi import ASGIHandler

    scope = {
        "type": "http",
        "method": method,
        "path": f"/{kind}",
        "query_string": b"",
        "server": ("a", 80),
        "client": ("b", 1),
        "headers": [
            (b"host", b"a"),
            *((name.lower().encode(), value.encode("latin-1")) for name, value in asked.items()),
        ],
    }
    messages: List[Any] = []
    # (Django 3.2 leaves that to the garbage collector)
    warnings.filterwarnings("ignore", "Unclosed file", ResourceWarning)
    received = [{"type": "http.request", "body": b"", "more_body": False}]

    async def receive() -> Any:
        if received:
            return received.pop()
        await asyncio.sleep(60)

    async def send(message: Any) -> None:
        messages.append(message)

    asyncio.run(ASGIHandler()(scope, receive, send))
    fields = [(name.decode(), value.decode("latin-1")) for name, value in messages[0]["headers"]]
    return Answer(messages[0]["status"], fields, b"".join(it.get("body", b"") for it in messages[1:]))


class Django(unittest.TestCase):
    def test_conditions_and_ranges(self) -> None:
        cases: List[Tuple[Dict[str, str], int, bytes]] = [
            ({}, 200, CONTENT),
            ({"If-None-Match": '"a"'}, 304, b""),
            ({"If-None-Match": '"b"'}, 200, CONTENT),
            ({"If-Modified-Since": DATE}, 304, b""),
            ({"If-Match": '"b"'}, 412, b""),
            ({"If-Unmodified-Since": "Sun, 06 Nov 1994 08:49:36 GMT"}, 412, b""),
            ({"Range": "bytes=0-9"}, 206, CONTENT[:10]),
            ({"Range": "bytes=9000-"}, 206, CONTENT[9000:]),
            ({"Range": "bytes=5000-5009", "If-Range": '"a"'}, 206, CONTENT[5000:5010]),
            ({"Range": "bytes=0-9", "If-Range": '"b"'}, 200, CONTENT),
            ({"Range": "bytes=10000-"}, 416, b""),
        ]
        for ask in (by_wsgi, by_asgi):
            for kind in ("file", "pieces", "whole"):
                for asked, status, content in cases:
                    SEEN.clear()
                    answer = ask("GET", kind, asked)
                    self.assertEqual((answer.status, answer.content), (status, content), (kind, asked))
                    ((seen, keys),) = SEEN
                    self.assertEqual([*{it.title() for it in asked} & set(seen), *keys], [])
                    if status == 206:
                        self.assertEqual(answer.fields["content-length"], str(len(content)))
                    self.assertIn("vary", answer.fields)
                    if kind == "whole":
                        self.assertIn("SID=1", answer.fields["set-cookie"])
                    self.assertEqual("content-disposition" in answer.fields, kind == "file")

    def test_several_parts(self) -> None:
        for kind in ("file", "pieces", "whole"):
            answer = by_wsgi("GET", kind, {"Range": "bytes=0-4,9000-9004"})
            self.assertEqual((answer.status, answer.fields["content-length"]), (206, str(len(answer.content))))
            for part in (CONTENT[:5], CONTENT[9000:9005]):
                self.assertIn(b"\r\n\r\n" + part + b"\r\n--", answer.content)

    def test_other_answers_stay(self) -> None:
        for ask in (by_wsgi, by_asgi):
            answer = ask("GET", "missing", {"If-None-Match": '"a"'})
            self.assertEqual((answer.status, answer.content), (404, b"none"))
            SEEN.clear()
            self.assertEqual(ask("POST", "whole", {"If-Match": '"b"'}).status, 200)
            self.assertEqual(SEEN[0][1], ["HTTP_IF_MATCH"])
            self.assertEqual(ask("GET", "whole", {"If-None-Match": "\x7f"}).status, 400)

    def test_content_is_closed(self) -> None:
        CLOSED.clear()
        by_wsgi("GET", "pieces", {"Range": "bytes=0-4"})
        by_wsgi("GET", "pieces", {"If-None-Match": '"a"'})
        self.assertEqual(CLOSED, ["pieces", "pieces"])

    def test_settings(self) -> None:
        for name in ("TYPED_HEADERS_TAGS", "TYPED_HEADERS_STRONG_DATES"):
            self.addCleanup(delattr, settings, name)
        self.assertNotIn("etag", by_wsgi("GET", "plain", {}).fields)
        self.assertEqual(by_wsgi("GET", "plain", {"Range": "bytes=0-4", "If-Range": DATE}).status, 200)
        settings.TYPED_HEADERS_TAGS = settings.TYPED_HEADERS_STRONG_DATES = True
        tag = by_wsgi("GET", "plain", {}).fields["etag"]
        self.assertEqual(by_wsgi("GET", "plain", {"If-None-Match": tag}).status, 304)
        self.assertEqual(by_wsgi("GET", "plain", {"Range": "bytes=0-4", "If-Range": DATE}).status, 206)

    def test_origins(self) -> None:
        for ask in (by_wsgi, by_asgi):
            preflight = ask("OPTIONS", "whole", {"Origin": ORIGIN, "Access-Control-Request-Method": "PUT"})
            self.assertEqual((preflight.status, preflight.content), (204, b""))
            self.assertEqual(preflight.fields["access-control-allow-methods"], "PUT")
            answer = ask("GET", "whole", {"Origin": ORIGIN})
            self.assertEqual(
                (answer.fields["access-control-allow-origin"], answer.fields["vary"]), (ORIGIN, "Accept, origin")
            )
            answer = ask("GET", "whole", {"Origin": "https://b.example"})
            self.assertEqual((answer.status, answer.fields.get("access-control-allow-origin")), (200, None))
            answer = ask("GET", "whole", {"Origin": ORIGIN, "If-None-Match": '"a"'})
            self.assertEqual((answer.status, answer.fields["access-control-allow-origin"]), (304, ORIGIN))
        policy = settings.TYPED_HEADERS_CORS
        del settings.TYPED_HEADERS_CORS
        try:
            with self.assertRaises(ImproperlyConfigured):
                by_wsgi("GET", "whole", {})
        finally:
            settings.TYPED_HEADERS_CORS = policy


if __name__ == "__main__":
    unittest.main()
