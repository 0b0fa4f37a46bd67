"""Runs the code of bindings/python/MIDDLEWARE.md, in the frameworks that this Python has.

    documented.py

Each block is run as the page has it, and then the application is asked through it.
"""
import gzip
import io
import json
import os
import re
import sys
import tempfile
import types
import unittest
from collections.abc import Callable
from contextlib import contextmanager
from pathlib import Path
from typing import Annotated, Any, Iterator, Optional
from unittest import mock

from ask import Response, ask
from typed_headers import Cache, CacheControl, CorsPolicy, asgi, wsgi

PAGE = (Path(__file__).resolve().parents[2] / "bindings/python/MIDDLEWARE.md").read_text("utf-8").split("\n## ")[0]
#: Each block of the page, and each line of code of its text that makes a middleware.
CODE = re.findall(r"```python\n(.*?)```", PAGE, re.S)
CODE += re.findall(r"`((?:ConditionalRequests|Cors|Cached)\([^`\n]+)`", re.sub(r"```.*?```", "", PAGE, flags=re.S))
CONTENT = bytes(range(10))
ORIGIN = "https://a.example"
Asks = Callable[[str, str, list[tuple[str, str]]], Response]


def run(code: str, kind: Any, **names: Any) -> dict[str, Any]:
    """Runs code with the classes of a module and these names. A value alone is the application."""
    known = {"CorsPolicy": CorsPolicy, "Cache": Cache, **vars(kind), **names}
    exec(code if "\n" in code else f"application = {code}", known)
    return known


@contextmanager
def in_folder() -> Iterator[None]:
    """Has a folder `static` with a file in the present one."""
    before = Path.cwd()
    with tempfile.TemporaryDirectory() as folder:
        (Path(folder) / "static").mkdir()
        (Path(folder) / "static/a.css").write_bytes(CONTENT)
        (Path(folder) / "static/a.css.gz").write_bytes(gzip.compress(CONTENT))
        os.chdir(folder)
        try:
            yield
        finally:
            os.chdir(before)


class Documented(unittest.TestCase):
    ran: set[str] = set()

    @classmethod
    def tearDownClass(cls) -> None:
        left = [it for it in CODE if it not in cls.ran]
        assert not left, f"no test runs {left}"

    def code(self, pattern: str) -> list[str]:
        """What the page has with this pattern."""
        found = [it for it in CODE if re.search(pattern, it)]
        assert found, pattern
        Documented.ran |= set(found)
        return found

    def block(self, pattern: str) -> str:
        (found,) = self.code(pattern)
        return found

    def judge(self, asks: Asks, *, is_cors: bool, path: str = "/") -> None:
        """Asks an application with content of ten bytes and the entity tag "a"."""
        cases = [
            ([], 200, CONTENT),
            ([("Range", "bytes=0-4")], 206, CONTENT[:5]),
            ([("Range", "bytes=-15")], 206, CONTENT),
            ([("Range", "bytes=10000-")], 416, b""),
            ([("If-None-Match", '"a"')], 304, b""),
            ([("If-Match", '"other"'), ("Range", "bytes=10000-")], 412, b""),
            ([("If-Match", "")], 412, b""),
        ]
        for fields, status, content in cases:
            for more in ([], [("Origin", ORIGIN)]):
                response = asks("GET", path, [*fields, *more])
                self.assertEqual((response.status, response.body), (status, content), fields)
                allowed = response.get("access-control-allow-origin")
                self.assertEqual(allowed is not None, is_cors and bool(more or allowed == "*"), fields)

    def judge_files(self, asks: Asks) -> None:
        """Asks an application with a folder at /static."""
        whole = asks("GET", "/static/a.css", [])
        self.assertEqual((whole.status, whole.body), (200, CONTENT))
        self.assertEqual((whole.get("content-type"), whole.get("vary")), ("text/css; charset=utf-8", "accept-encoding"))
        packed = asks("GET", "/static/a.css", [("Accept-Encoding", "br, gzip")])
        self.assertEqual((packed.get("content-encoding"), gzip.decompress(packed.body)), ("gzip", CONTENT))
        self.assertEqual(asks("GET", "/static/a.css", [("Range", "bytes=0-4")]).body, CONTENT[:5])
        self.assertEqual(asks("GET", "/static/b.css", []).status, 404)
        self.assertEqual(asks("GET", "/static/%2e%2e/a.css", []).status, 404)

    def test_wrapped(self) -> None:
        def application(environ: Any, start_response: Any) -> Any:
            start_response("200 OK", [("ETag", '"a"'), ("Content-Type", "text/plain")])
            return [CONTENT]

        async def later(scope: Any, receive: Any, send: Any) -> None:
            fields = [(b"etag", b'"a"'), (b"content-type", b"text/plain")]
            await send({"type": "http.response.start", "status": 200, "headers": fields})
            await send({"type": "http.response.body", "body": CONTENT})

        wrapping = self.block(r"(?m)^application = ")
        for is_async, kind, inner in ((False, wsgi, application), (True, asgi, later)):
            made = run(wrapping, kind, application=inner)["application"]
            self.judge(lambda *words: ask(is_async, made, *words), is_cors=True)
            for line in self.code(r"^(Cached|ConditionalRequests)\(application"):
                made = run(line, kind, application=inner)["application"]
                self.assertEqual(ask(is_async, made, "GET", "/", []).body, CONTENT)

    def test_flask(self) -> None:
        code = self.block(r"app\.wsgi_app")
        try:
            import flask
            from werkzeug.middleware.dispatcher import DispatcherMiddleware
        except ImportError:
            self.skipTest("there is no Flask")
        app = flask.Flask(__name__)

        @app.route("/")
        def show() -> Any:
            return flask.send_file(io.BytesIO(CONTENT), "text/plain", conditional=True, etag="a")

        with in_folder():
            run(code, wsgi, app=app, DispatcherMiddleware=DispatcherMiddleware)
            self.judge(lambda *words: ask(False, app, *words), is_cors=False)
            self.judge_files(lambda *words: ask(False, app, *words))

    def test_starlette(self) -> None:
        code, parameters = self.block(r"add_middleware"), self.block(r"typed_parameters")
        try:
            from starlette.applications import Starlette
            from starlette.requests import Request
            from starlette.responses import JSONResponse
            from starlette.responses import Response as Answer
            from typed_headers import starlette
        except ImportError:
            self.skipTest("there is no Starlette")

        async def show(request: Request) -> Answer:
            return Answer(CONTENT, headers={"ETag": '"a"'})

        made: list[Any] = [Starlette()]
        made[0].get = lambda path: lambda endpoint: made[0].add_route(path, endpoint)
        made[0].add_route("/", show)
        try:
            from fastapi import FastAPI
        except ImportError:
            print("skipped: FastAPI, which isn't installed")
        else:
            made.append(FastAPI())
            made[1].get("/")(show)
        names = {"Annotated": Annotated, "Optional": Optional, "CacheControl": CacheControl, "Request": Request,
                 "JSONResponse": JSONResponse}
        for app in made:
            with in_folder():
                run(code, asgi, app=app)
                run(parameters, starlette, app=app, **names)

                def asks(*words: Any, app: Any = app) -> Response:
                    return ask(True, app, *words)

                self.judge(asks, is_cors=True)
                self.judge_files(asks)
                for line, status, found in (("max-age=60", 200, 60), ("", 200, None), ("max-age=x", 400, None)):
                    response = asks("GET", "/cached", [("Cache-Control", line)] if line else [])
                    self.assertEqual(response.status, status)
                    if status == 200:
                        self.assertEqual(json.loads(response.body), {"max_age": found})
                    else:
                        self.assertIn(b"cache-control: expected directives", response.body)

    def test_django(self) -> None:
        code = self.block(r"^MIDDLEWARE")
        try:
            from django.conf import settings
        except ImportError:
            self.skipTest("there is no Django")
        known = run(code, types.SimpleNamespace())
        import apps

        fields = {"ETag": '"a"', "Content-Type": "text/plain"}
        with mock.patch.object(apps, "fields_of", lambda path: (CONTENT, fields)):
            for is_async in (False, True):
                apps.django_app([], is_async)
                settings.TYPED_HEADERS_CORS = known["TYPED_HEADERS_CORS"]
                made = apps.django_app(known["MIDDLEWARE"], is_async)
                self.judge(lambda *words: ask(is_async, made, *words), is_cors=True)


if __name__ == "__main__":
    unittest.main(argv=[*sys.argv, "-q"])
