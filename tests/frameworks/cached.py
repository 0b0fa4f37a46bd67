#!/usr/bin/env python3
"""Holds `Cached` of typed_headers to RFC 9111, as tests/chain holds caches to it.

    cached.py [REQUESTS [SEED]]

Random clients ask an application that is behind `Cached`, by WSGI and by ASGI, and in each framework that is there.
Its responses are those of tests/chain: freshness, Vary, credentials, dates and errors at random, by a clock that is
moved by hand. The checker of tests/chain, which asks no call of the library, judges each answer by what was sent on
both sides. The status is 0 exactly if nothing is found. PYTHONPATH names the package as it was built.
"""
import asyncio
import importlib.util
import random
import sys
from collections import Counter
from collections.abc import Callable
from pathlib import Path
from typing import Any
from urllib.parse import unquote

HERE = Path(__file__).resolve().parent
sys.path[:0] = [str(HERE.parent / "chain"), str(HERE.parent / "peers")]

from checker import Checker, Hop  # noqa: E402
from common.fields import Fields  # noqa: E402
from messages import Message  # noqa: E402
from origins import Origin  # noqa: E402
from parts import World  # noqa: E402
from rules import is_not_modified  # noqa: E402
from traffic import JUMPS, Client, Traffic  # noqa: E402

from typed_headers import Cache, asgi, wsgi  # noqa: E402

START = 1_800_000_000
TARGETS = ["/a", "/b", "/c/d", "/e"]
# What a server takes from a request before an application gets it, and what TRACE would need.
LEFT = {"connection", "proxy-connection", "te", "expect", "upgrade", "max-forwards", "via", "content-length"}
# The fields of one connection, which an application must not set (PEP 3333).
HOP_BY_HOP = {"connection", "keep-alive", "proxy-authenticate", "x-hop"}


class Application(Origin):
    """An origin in this process, with a version of each target that unsafe requests replace."""

    def __init__(self, world: World, draw: random.Random) -> None:
        super().__init__(world, 1, 0, draw, True)
        self.versions: Counter[str] = Counter()

    def ask(self, request: Message) -> Message:
        target = request.target
        if request.method not in ("GET", "HEAD", "OPTIONS"):
            self.versions[target] += 1
            return Message("HTTP/1.1 201 X", [("Location", self.draw.choice(TARGETS))], b"changed")
        version = self.versions[target]
        content = f"{target} {version} ".encode() * self.draw.choice([1, 1, 40])
        fields = [("Content-Type", "text/plain"), ("ETag", f'"{target}-{version}"')]
        if is_not_modified(request, fields, self.world.now):
            return Message("HTTP/1.1 304 X", fields[1:])
        return Message("HTTP/1.1 200 X", fields, content)

    def give(self, request: Message) -> Message:
        self.exchange = self.world.begin(1, request, False)
        made = self.answer(request)
        if made is None:
            self.world.finish(self.exchange, None)
            raise ConnectionError("lost")
        made.fields = [it for it in made.fields if it[0].lower() not in HOP_BY_HOP]
        if request.method == "HEAD" or made.status in (204, 304):
            made.content = b""
        return made

    def note(self, sent: Message) -> None:
        """Records what the framework made of a response."""
        self.world.finish(self.exchange, sent)


def with_via(fields: Fields) -> Fields:
    return [*fields, ("Via", "1.1 cached")]


def joined(fields: Fields) -> Fields:
    """The fields as a WSGI server hands them over: one line for a name."""
    found: dict[str, str] = {}
    for name, value in fields:
        key = name.lower()
        found[key] = f"{found[key]}, {value}" if key in found else value
    return list(found.items())


def environ_of(request: Message) -> dict[str, Any]:
    path, _, query = request.target.partition("?")
    named = {f"HTTP_{name.upper().replace('-', '_')}": value for name, value in request.fields}
    return {"REQUEST_METHOD": request.method, "SCRIPT_NAME": "", "PATH_INFO": unquote(path), "QUERY_STRING": query,
            "SERVER_NAME": "x", "SERVER_PORT": "80", "SERVER_PROTOCOL": "HTTP/1.1", "wsgi.url_scheme": "http",
            "wsgi.version": (1, 0), "wsgi.errors": sys.stderr, "wsgi.input": Nothing(), "wsgi.multithread": True,
            "wsgi.multiprocess": False, "wsgi.run_once": False, "request": request, **named}


class Nothing:
    def read(self, *_: Any) -> bytes:
        return b""


def request_of(environ: dict[str, Any]) -> Message:
    """The request that came through the cache. Its target is as it was sent."""
    fields = [(key[5:].lower().replace("_", "-"), value) for key, value in environ.items() if key.startswith("HTTP_")]
    sent = environ["request"]
    return Message(sent.first, with_via(fields), sent.content)


# The applications


def noted_wsgi(origin: Application, application: Any) -> Any:
    """Records what an application hands over, and passes it on in two pieces."""

    def noting(environ: Any, start_response: Any) -> Any:
        head: list[Any] = []

        def start(status: str, fields: Fields, exc_info: Any = None) -> Any:
            head[:] = [status, list(fields)]
            return start_response(status, fields)

        content = application(environ, start)
        body = b"".join(content)
        if hasattr(content, "close"):
            content.close()
        origin.note(Message(f"HTTP/1.1 {head[0]}", head[1], body))
        half = len(body) // 2
        return iter([body[:half], body[half:]])

    return noting


def noted_asgi(origin: Application, application: Any) -> Any:
    async def noting(scope: Any, receive: Any, send: Any) -> None:
        messages: list[Any] = []

        async def note(message: Any) -> None:
            messages.append(message)
            if message["type"] == "http.response.body" and not message.get("more_body"):
                origin.note(message_from(messages))
            await send(message)

        await application(scope, receive, note)

    return noting


def message_from(messages: list[Any]) -> Message:
    head, *bodies = messages
    given = [(name.decode(), value.decode("latin-1")) for name, value in head["headers"]]
    return Message(f"HTTP/1.1 {head['status']} X", given, b"".join(it.get("body", b"") for it in bodies))


def plain_wsgi(origin: Application) -> Any:
    def application(environ: Any, start_response: Any) -> Any:
        made = origin.give(request_of(environ))
        start_response(f"{made.status} X", made.fields)
        return [made.content]

    return application


def flask_wsgi(origin: Application) -> Any:
    import flask

    app = flask.Flask(__name__)
    app.config["PROPAGATE_EXCEPTIONS"] = True
    methods = ["GET", "HEAD", "POST", "PUT", "DELETE", "PATCH", "PURGE", "TRACE", "OPTIONS"]

    @app.route("/", defaults={"path": ""}, methods=methods, provide_automatic_options=False)
    @app.route("/<path:path>", methods=methods, provide_automatic_options=False)
    def show(path: str) -> Any:
        made = origin.give(request_of(flask.request.environ))
        response = flask.Response(made.content, made.status)
        response.headers.clear()
        for name, value in made.fields:
            response.headers.add(name, value)
        response.automatically_set_content_length = False
        return response

    return app.wsgi_app


def django_wsgi(origin: Application) -> Any:
    import django
    from django.conf import settings
    from django.core.handlers.wsgi import WSGIHandler
    from django.http import HttpResponse
    from django.urls import re_path

    def show(request: Any) -> Any:
        made = origin.give(request_of(request.environ))
        response = HttpResponse(made.content, status=made.status)
        for name in list(response.headers):
            del response.headers[name]
        for name, value in joined(made.fields):
            response.headers[name] = value
        return response

    show.csrf_exempt = True  # type: ignore[attr-defined]
    if not settings.configured:
        settings.configure(
            ALLOWED_HOSTS=["*"], ROOT_URLCONF=__name__, DEBUG_PROPAGATE_EXCEPTIONS=True, SECRET_KEY="any")
        django.setup()
    globals()["urlpatterns"] = [re_path("", show)]
    return WSGIHandler()


def message_of(scope: Any) -> Message:
    sent = scope["extensions"]["request"]["message"]
    fields = [(name.decode(), value.decode("latin-1")) for name, value in scope["headers"]]
    return Message(sent.first, with_via(fields), sent.content)


def plain_asgi(origin: Application) -> Any:
    async def application(scope: Any, receive: Any, send: Any) -> None:
        made = origin.give(message_of(scope))
        fields = [(name.lower().encode(), value.encode("latin-1")) for name, value in made.fields]
        await send({"type": "http.response.start", "status": made.status, "headers": fields})
        half = len(made.content) // 2
        await send({"type": "http.response.body", "body": made.content[:half], "more_body": True})
        await send({"type": "http.response.body", "body": made.content[half:]})

    return application


def starlette_asgi(origin: Application) -> Any:
    from starlette.responses import Response

    async def application(scope: Any, receive: Any, send: Any) -> None:
        made = origin.give(message_of(scope))
        response = Response(made.content, made.status)
        response.raw_headers = [(name.lower().encode(), value.encode("latin-1")) for name, value in made.fields]
        await response(scope, receive, send)

    return application


# The servers


def by_wsgi(application: Any, request: Message) -> Message:
    head: list[Any] = []

    def start_response(status: str, fields: Fields, exc_info: Any = None) -> Any:
        head[:] = [status, fields]
        return head.append

    content = application(environ_of(request), start_response)
    body = b"".join(content)
    if hasattr(content, "close"):
        content.close()
    return Message(f"HTTP/1.1 {head[0]}", list(head[1]), body)


def by_asgi(application: Any, request: Message) -> Message:
    path, _, query = request.target.partition("?")
    fields = [(name.lower().encode(), value.encode("latin-1")) for name, value in request.fields]
    scope = {"type": "http", "method": request.method, "scheme": "http", "path": unquote(path), "raw_path": path.encode(),
             "query_string": query.encode(), "headers": fields, "extensions": {"request": {"message": request}}}
    messages: list[Any] = []

    async def receive() -> Any:
        return {"type": "http.request", "body": request.content, "more_body": False}

    async def send(message: Any) -> None:
        messages.append(message)

    asyncio.run(application(scope, receive, send))
    return message_from(messages)


KINDS: list[tuple[str, str | None, Callable[[Application], Any], bool]] = [
    ("WSGI", None, plain_wsgi, False),
    ("ASGI", None, plain_asgi, True),
    ("Flask", "flask", flask_wsgi, False),
    ("Django", "django", django_wsgi, False),
    ("Starlette", "starlette", starlette_asgi, True),
]


def play(make: Callable[[Application], Any], is_async: bool, count: int, seed: int) -> Checker:
    draw = random.Random(seed)
    world = World(START)
    origin = Application(world, draw)
    application = (noted_asgi if is_async else noted_wsgi)(origin, make(origin))
    cache = Cache(shared=True, variants=8, responses=64, guess=86_400)
    cached = (asgi if is_async else wsgi).Cached(application, cache, clock=lambda: world.now)
    traffic = Traffic(draw, [Client(it, f"c{it}-{draw.randrange(1 << 32):08x}") for it in range(3)], list(TARGETS), False,
                      world.now)
    for _ in range(count):
        if draw.random() < 0.3:
            world.now += draw.choice(JUMPS)
        traffic.now = world.now
        made = traffic.request(draw.choice(traffic.clients))
        if made.method == "TRACE":
            continue
        fields = [it for it in [("Host", made.host), *made.fields] if it[0].lower() not in LEFT]
        # (an application can't tell an empty query from none)
        request = Message(f"{made.method} {made.target.removesuffix('?')} HTTP/1.1", joined(fields), made.content or b"")
        exchange = world.begin(0, request, True)
        try:
            answer = (by_asgi if is_async else by_wsgi)(cached, request)
        except ConnectionError:
            # (a server answers an exception by 500)
            answer = Message("HTTP/1.1 504 X", [("Date", "Thu, 01 Jan 1970 00:00:00 GMT")])
        if request.method == "HEAD" or answer.status in (204, 304):
            answer.content = b""
        if ("x-answer" in {name.lower() for name, _ in answer.fields}) and not answer.lines("date"):
            answer.fields.append(("Date", origin.date(world.now)))
        answer.fields = with_via(answer.fields)
        world.finish(exchange, answer)
        traffic.see(made, answer)
    checker = Checker([Hop("cached", "shared", 0, 1)], world.record, 1)
    checker.check()
    return checker


def main() -> int:
    count, seed = (int(it) for it in [*sys.argv[1:], *["3000", "1"][len(sys.argv) - 1:]])
    is_right = True
    for name, module, make, is_async in KINDS:
        if module is not None and importlib.util.find_spec(module) is None:
            continue
        checker = play(make, is_async, count, seed)
        print(f"{name}: {count} requests, {len(checker.found)} problems; "
              + ", ".join(f"{kind.removeprefix('shared: ')} {number}" for kind, number in sorted(checker.kinds.items())))
        for it in checker.found[:10]:
            print(f"  {it.text}\n    " + str(it.exchange.request).replace("\n", "\n    "))
            print("    -> " + str(it.exchange.response).replace("\n", "\n    "))
        is_right = is_right and not checker.found
    return 0 if is_right else 1


if __name__ == "__main__":
    sys.exit(main())
