"""uvicorn with the library's connections, by clients that write byte for byte, by httpx and curl, and with Starlette."""

import asyncio
import json
import logging
import os
import shutil
import socket
import ssl
import struct
import subprocess
import sys
import tempfile
import threading
import time
import unittest
from concurrent.futures import ThreadPoolExecutor
from contextlib import suppress
from pathlib import Path
from typing import Any, Awaitable, Callable, Dict, Iterator, List, Optional, Tuple, Type

try:
    import httpx
    import uvicorn
    from starlette.applications import Starlette
    from starlette.requests import Request
    from starlette.responses import JSONResponse, PlainTextResponse, Response, StreamingResponse
    from starlette.routing import Route, WebSocketRoute

    from typed_headers.uvicorn import Protocol
except ImportError as error:
    raise unittest.SkipTest(f"httpx, Starlette or uvicorn isn't installed: {error}") from None

MIB = 1024 * 1024
HOST = b"Host: a.example\r\n"
GET = b"GET / HTTP/1.1\r\n" + HOST + b"\r\n"
Application = Callable[[Any, Any, Any], Awaitable[None]]


class Quick(Protocol):
    """With times that a test can wait for."""

    receive_time = 0.3
    request_time = 0.9
    linger_time = 1.0


class Server(uvicorn.Server):
    """A server in a thread, which ends with the block."""

    def __init__(self, app: Application, protocol: Type[Protocol] = Protocol, **options: Any) -> None:
        self.socket = socket.socket()
        self.socket.bind(("127.0.0.1", 0))
        self.port: int = self.socket.getsockname()[1]
        given: Dict[str, Any] = {"lifespan": "off", "log_config": None, "server_header": False, "date_header": False}
        super().__init__(uvicorn.Config(app, http=protocol, **{**given, **options}))
        self.thread = threading.Thread(target=lambda: self.run(sockets=[self.socket]))

    def __enter__(self) -> "Server":
        self.thread.start()
        while not self.started:
            time.sleep(0.005)
        return self

    def __exit__(self, *_: object) -> None:
        self.stop()
        self.socket.close()

    def stop(self) -> None:
        self.should_exit = True
        self.thread.join(5)
        self.force_exit = True
        self.thread.join(30)

    def url(self, path: str = "/") -> str:
        return f"http://127.0.0.1:{self.port}{path}"

    def connect(self) -> socket.socket:
        return socket.create_connection(("127.0.0.1", self.port), timeout=20)

    def ask(self, *pieces: bytes, pause: float = 0.0) -> bytes:
        """All that the server sends for these bytes, until it closes."""
        with self.connect() as client:
            for piece in pieces:
                client.sendall(piece)
                time.sleep(pause)
            return read_all(client)


def read_all(client: socket.socket) -> bytes:
    pieces = []
    while piece := client.recv(65536):
        pieces.append(piece)
    return b"".join(pieces)


def read_until(client: socket.socket, end: bytes) -> bytes:
    found = b""
    while not found.endswith(end):
        piece = client.recv(65536)
        if not piece:
            raise EOFError(found)
        found += piece
    return found


def start(status: int = 200, *fields: Tuple[bytes, bytes]) -> Dict[str, Any]:
    return {"type": "http.response.start", "status": status, "headers": list(fields)}


def body(content: bytes = b"", more: bool = False) -> Dict[str, Any]:
    return {"type": "http.response.body", "body": content, "more_body": more}


def sized(length: int) -> Tuple[bytes, bytes]:
    return b"content-length", b"%d" % length


def last(head: bytes = b"GET / HTTP/1.1") -> bytes:
    return head + b"\r\n" + HOST + b"Connection: close\r\n\r\n"


async def echo(scope: Any, receive: Any, send: Any) -> None:
    """Answers by what was asked."""
    message = await receive()
    fields = [[name.decode("latin-1"), value.decode("latin-1")] for name, value in scope["headers"]]
    seen = [scope["method"], scope["path"], scope["query_string"].decode("latin-1"), scope["http_version"], fields,
            len(message["body"]), message["more_body"]]
    await send(start())
    await send(body(json.dumps(seen).encode()))


async def small(scope: Any, receive: Any, send: Any) -> None:
    await send(start(200, sized(2)))
    await send(body(b"ok"))


class Logs(logging.Handler):
    """What is logged in the block."""

    def __init__(self, name: str) -> None:
        super().__init__()
        self.lines: List[str] = []
        self.logger = logging.getLogger(name)

    def emit(self, record: logging.LogRecord) -> None:
        self.lines.append(record.getMessage())

    def __enter__(self) -> "Logs":
        self.before = self.logger.level
        self.logger.addHandler(self)
        self.logger.setLevel(logging.INFO)
        return self

    def __exit__(self, *_: object) -> None:
        self.logger.removeHandler(self)
        self.logger.setLevel(self.before)


def documented(language: str) -> str:
    """The code of CONNECTION.md that isn't an example of the interpreter's."""
    page = Path(__file__).resolve().parent.parent / "CONNECTION.md"
    if not page.exists():
        raise unittest.SkipTest("the page isn't there")
    blocks = [it.partition("```")[0] for it in page.read_text("utf-8").split(f"```{language}\n")[1:]]
    return next(it for it in blocks if not it.startswith(">>>"))


def setUpModule() -> None:
    logging.getLogger("uvicorn.error").addHandler(logging.NullHandler())
    logging.getLogger("uvicorn.error").propagate = False


OK = b"HTTP/1.1 200 OK\r\ncontent-length: 2\r\n\r\nok"
OK_LAST = b"HTTP/1.1 200 OK\r\ncontent-length: 2\r\nconnection: close\r\n\r\nok"


class Messages(unittest.TestCase):
    def test_what_the_application_is_told(self) -> None:
        found: List[Any] = []

        async def app(scope: Any, receive: Any, send: Any) -> None:
            found.extend((scope, await receive()))
            await small(scope, receive, send)
            found.append(await receive())

        with Server(app, root_path="/root") as server:
            with server.connect() as client:
                client.sendall(
                    b"PUT /a%20%c3%a4/%ff?b=%20 HTTP/1.1\r\nHOST: a.example\r\nX-A: 1\r\nConnection: close\r\n"
                    b"Content-Length: 3\r\nx-a:2\r\n\r\nabc"
                )
                self.assertEqual(read_all(client), OK_LAST)
                own = client.getsockname()
        self.assertEqual(
            found[0],
            {
                "type": "http",
                "asgi": {"version": "3.0", "spec_version": "2.3"},
                "http_version": "1.1",
                "server": ("127.0.0.1", server.port),
                "client": own,
                "scheme": "http",
                "method": "PUT",
                "root_path": "/root",
                "path": "/a \u00e4/\ufffd",
                "raw_path": b"/a%20%c3%a4/%ff",
                "query_string": b"b=%20",
                "headers": [(b"host", b"a.example"), (b"x-a", b"1"), (b"x-a", b"2"), (b"connection", b"close"),
                            (b"content-length", b"3")],
            },
        )
        self.assertEqual(found[1:], [{"type": "http.request", "body": b"abc", "more_body": False},
                                     {"type": "http.disconnect"}])

    def test_kept_alive_and_pipelined(self) -> None:
        with Server(echo) as server:
            with server.connect() as client:
                for number in range(50):
                    client.sendall(b"GET /%d HTTP/1.1\r\n" % number + HOST + b"\r\n")
                    self.assertIn(b'"/%d"' % number, read_until(client, b"]"))
            sent = server.ask(b"".join(b"GET /%d HTTP/1.1\r\n" % it + HOST + b"\r\n" for it in range(200)) + last())
            places = [sent.index(b'["GET", "/%d"' % it) for it in range(200)]
            self.assertEqual(places, sorted(places))
            self.assertEqual(sent.count(b"HTTP/1.1 200 OK"), 201)

    def test_bytes_one_by_one(self) -> None:
        request = last(b"POST /a HTTP/1.1")[:-2] + b"Transfer-Encoding: chunked\r\n\r\n3\r\nabc\r\n0\r\n\r\n"
        with Server(echo) as server:
            sent = server.ask(*(request[at : at + 1] for at in range(len(request))), pause=0.001)
        self.assertEqual(json.loads(sent.partition(b"\r\n\r\n")[2])[5], 3)

    def test_versions_and_the_end_of_a_connection(self) -> None:
        with Server(small) as server:
            self.assertEqual(server.ask(last()), OK_LAST)
            old = b"HTTP/1.0 200 OK\r\ncontent-length: 2\r\nconnection: "
            self.assertEqual(server.ask(b"GET / HTTP/1.0\r\n\r\n"), old + b"close\r\n\r\nok")
            with server.connect() as client:
                client.sendall(b"GET / HTTP/1.0\r\nConnection: keep-alive\r\n\r\n" + last())
                self.assertEqual(read_all(client), old + b"keep-alive\r\n\r\nok" + OK_LAST)

    def test_head(self) -> None:
        async def app(scope: Any, receive: Any, send: Any) -> None:
            await send(start(200, *([sized(5)] if scope["path"] == "/sized" else [])))
            await send(body(b"he", True))
            await send(body(b"llo"))

        with Server(app) as server:
            for path in (b"/sized", b"/"):
                sent = server.ask(b"HEAD " + path + b" HTTP/1.1\r\n" + HOST + b"\r\n" + last(b"HEAD / HTTP/1.1"))
                head = b"HTTP/1.1 200 OK\r\ncontent-length: 5\r\n"
                self.assertEqual(sent, head + b"\r\n" + head + b"connection: close\r\n\r\n")

    def test_100_continue(self) -> None:
        with Server(echo) as server, server.connect() as client:
            client.sendall(last(b"PUT / HTTP/1.1")[:-2] + b"Expect: 100-continue\r\nContent-Length: 3\r\n\r\n")
            self.assertEqual(read_until(client, b"\r\n\r\n"), b"HTTP/1.1 100 Continue\r\n\r\n")
            client.sendall(b"abc")
            self.assertTrue(read_all(client).endswith(b" 3, false]"))

    def test_what_is_rejected(self) -> None:
        with Server(small, Quick) as server:
            for data, status in ((b"x\r\n\r\n", 400), (b"GET / HTTP/1.1\r\n\r\n", 400), (b"\x16\x03\x01", 400),
                                 (b"GET / HTTP/1.1\r\nA: " + b"a" * 20000, 431), (b"GET /" + b"a" * 20000 + b" HTTP/1.1\r\n\r\n", 414)):
                with self.subTest(data=data[:20]):
                    # (without an answer to what follows)
                    sent = server.ask(data, GET)
                    self.assertTrue(sent.startswith(b"HTTP/1.1 %d " % status), sent)
                    self.assertTrue(sent.endswith(b"connection: close\r\ncontent-length: 0\r\n\r\n"), sent)
            self.assertEqual(server.ask(last()), OK_LAST)

    def test_fields_of_the_server(self) -> None:
        with Server(small, date_header=True, headers=[("x-own", "1")]) as server:
            self.assertRegex(server.ask(last()), rb"\r\ndate: [A-Z][^\r\n]+ GMT\r\nx-own: 1\r\n")


class Limits(unittest.TestCase):
    def test_slow_requests(self) -> None:
        with Server(small, Quick) as server:
            for data in (b"GET", GET[:-2], last(b"PUT / HTTP/1.1")[:-2] + b"Content-Length: 5\r\n\r\nabc"):
                with self.subTest(data=data):
                    began = time.monotonic()
                    self.assertEqual(
                        server.ask(data),
                        b"HTTP/1.1 408 Request Timeout\r\nconnection: close\r\ncontent-length: 0\r\n\r\n",
                    )
                    self.assertLess(time.monotonic() - began, 5)

    def test_a_request_of_drops(self) -> None:
        with Server(small, Quick) as server, server.connect() as client:
            client.sendall(GET[:-2])
            began, found = time.monotonic(), b""
            client.settimeout(0.1)
            while not found and time.monotonic() - began < 10:
                with suppress(socket.timeout):
                    found = client.recv(1000)
                if not found:
                    client.sendall(b"a: b\r\n")
        self.assertTrue(found.startswith(b"HTTP/1.1 408 "))
        self.assertGreater(time.monotonic() - began, 0.8)

    def test_idle_connections(self) -> None:
        with Server(small, Quick, timeout_keep_alive=1) as server:
            for data, sent in ((b"", b""), (GET, OK)):
                began = time.monotonic()
                self.assertEqual(server.ask(data), sent)
                self.assertLess(time.monotonic() - began, 5)

    def test_an_application_may_take_long(self) -> None:
        async def app(scope: Any, receive: Any, send: Any) -> None:
            await asyncio.sleep(1.5)
            await small(scope, receive, send)

        with Server(app, Quick, timeout_keep_alive=1) as server, server.connect() as client:
            client.sendall(GET)
            time.sleep(0.2)
            client.sendall(b"GET")
            self.assertEqual(read_until(client, b"ok"), OK)
            self.assertTrue(read_all(client).startswith(b"HTTP/1.1 408 "))

    def test_large_contents(self) -> None:
        class Own(Protocol):
            most_content = 1000
            linger_time = 1.0

        with Server(echo, Own) as server:
            content = b"x" * 1000
            head = last(b"PUT / HTTP/1.1")[:-2]
            self.assertTrue(server.ask(head + b"Content-Length: 1000\r\n\r\n" + content).endswith(b" 1000, false]"))
            for wrong in (b"Content-Length: 1001\r\n\r\n", b"Transfer-Encoding: chunked\r\n\r\n3e9\r\n" + content + b"x"):
                self.assertTrue(server.ask(head + wrong).startswith(b"HTTP/1.1 413 "))
            # A client that sends it all reads the response nevertheless.
            with server.connect() as client:
                client.sendall(head + b"Content-Length: 8000000\r\n\r\n")
                client.sendall(bytes(8000000))
                client.shutdown(socket.SHUT_WR)
                self.assertTrue(read_all(client).startswith(b"HTTP/1.1 413 "))

    def test_the_documented_limit(self) -> None:
        known: Dict[str, Any] = {"Protocol": Protocol}
        exec(documented("python"), known)
        for protocol, status in ((Protocol, 413), (known["Larger"], 200)):
            with Server(echo, protocol) as server:
                sent = server.ask(last(b"PUT / HTTP/1.1")[:-2] + b"Content-Length: 17000000\r\n\r\n" + bytes(17000000))
                self.assertTrue(sent.startswith(b"HTTP/1.1 %d " % status), sent[:100])

    def test_content_that_is_held(self) -> None:
        class Own(Protocol):
            most_held = 1000

        async def app(scope: Any, receive: Any, send: Any) -> None:
            await send(start(200, *([sized(2000)] if scope["path"] == "/sized" else [])))
            for _ in range(20):
                await send(body(b"x" * 100, True))
            await send(body())

        with Server(app, Own) as server:
            sent = server.ask(last(b"GET /sized HTTP/1.1"))
            self.assertTrue(sent.startswith(b"HTTP/1.1 200 ") and sent.endswith(b"\r\n\r\n" + b"x" * 2000))
            self.assertTrue(server.ask(last()).startswith(b"HTTP/1.1 500 "))

    def test_too_many_connections(self) -> None:
        with Server(small, limit_concurrency=3) as server:
            with server.connect(), server.connect():
                time.sleep(0.1)
                self.assertTrue(server.ask(GET).startswith(b"HTTP/1.1 503 Service Unavailable\r\n"))
            time.sleep(0.1)
            self.assertEqual(server.ask(last()), OK_LAST)


class Failures(unittest.TestCase):
    def sent(self, app: Application, asks: bytes = b"") -> bytes:
        with Server(app) as server:
            return server.ask(asks or last())

    def test_nothing_was_sent(self) -> None:
        async def raises(scope: Any, receive: Any, send: Any) -> None:
            raise ValueError

        async def raises_late(scope: Any, receive: Any, send: Any) -> None:
            await send(start())
            await send(body(b"held", True))
            raise ValueError

        async def returns(scope: Any, receive: Any, send: Any) -> None:
            pass

        async def begins_with_content(scope: Any, receive: Any, send: Any) -> None:
            await send(body(b"x"))

        async def begins_twice(scope: Any, receive: Any, send: Any) -> None:
            await send(start())
            await send(start())

        async def splits(scope: Any, receive: Any, send: Any) -> None:
            await send(start(200, (b"a", b"b\r\nc: d")))

        async def has_no_status(scope: Any, receive: Any, send: Any) -> None:
            await send(start(1000))

        async def has_no_length(scope: Any, receive: Any, send: Any) -> None:
            await send(start(200, (b"content-length", b"x")))

        for app in (raises, raises_late, returns, begins_with_content, begins_twice, splits, has_no_status, has_no_length):
            with self.subTest(app=app.__name__):
                sent = self.sent(app, GET)
                self.assertTrue(sent.startswith(b"HTTP/1.1 500 Internal Server Error\r\n"), sent)
                self.assertIn(b"\r\nconnection: close\r\n", sent)
                self.assertTrue(sent.endswith(b"\r\n\r\nInternal Server Error"), sent)

    def test_something_was_sent(self) -> None:
        async def raises(scope: Any, receive: Any, send: Any) -> None:
            await send(start(200, sized(5)))
            await send(body(b"he", True))
            raise ValueError

        async def stops(scope: Any, receive: Any, send: Any) -> None:
            await send(start(200, sized(5)))
            await send(body(b"he", True))

        async def is_short(scope: Any, receive: Any, send: Any) -> None:
            await send(start(200, sized(5)))
            await send(body(b"he"))

        async def is_long(scope: Any, receive: Any, send: Any) -> None:
            await send(start(200, sized(5)))
            await send(body(b"he", True))
            await send(body(b"lloo"))

        for app in (raises, stops, is_short, is_long):
            with self.subTest(app=app.__name__):
                self.assertEqual(self.sent(app, GET), b"HTTP/1.1 200 OK\r\ncontent-length: 5\r\n\r\nhe")

    def test_what_the_library_does_not_send(self) -> None:
        async def app(scope: Any, receive: Any, send: Any) -> None:
            await send(start(int(scope["path"][1:])))
            await send(body(b"x"))

        with Server(app) as server:
            for status in (101, 103, 204, 304):
                self.assertEqual(server.ask(b"GET /%d HTTP/1.1\r\n" % status + HOST + b"\r\n"), b"")

    def test_after_the_response(self) -> None:
        errors: List[str] = []

        async def app(scope: Any, receive: Any, send: Any) -> None:
            await small(scope, receive, send)
            for message in (start(), body()):
                try:
                    await send(message)
                except RuntimeError as error:
                    errors.append(str(error))
            raise ValueError

        with Server(app) as server:
            self.assertEqual(server.ask(GET, last(), pause=0.1), OK + OK_LAST)
        self.assertEqual(len(errors), 4)


class Flow(unittest.TestCase):
    def test_a_client_that_goes(self) -> None:
        seen: List[Any] = []
        begun, done = threading.Event(), threading.Event()

        async def app(scope: Any, receive: Any, send: Any) -> None:
            await receive()
            await send(start(200, sized(MIB)))
            await send(body(b"x", True))
            begun.set()
            seen.append(await receive())
            await send(body(b"y", True))
            done.set()

        for is_reset in (False, True):
            begun.clear()
            done.clear()
            with Server(app) as server:
                with server.connect() as client:
                    client.sendall(GET)
                    self.assertTrue(begun.wait(5))
                    if is_reset:
                        client.setsockopt(socket.SOL_SOCKET, socket.SO_LINGER, struct.pack("ii", 1, 0))
                self.assertTrue(done.wait(5))
        self.assertEqual(seen, [{"type": "http.disconnect"}] * 2)

    def test_resets_at_each_byte(self) -> None:
        request = last(b"PUT / HTTP/1.1")[:-2] + b"Content-Length: 3\r\n\r\nabc"
        with Server(echo) as server:
            for cut in range(len(request) + 1):
                with server.connect() as client:
                    client.sendall(request[:cut])
                    client.setsockopt(socket.SOL_SOCKET, socket.SO_LINGER, struct.pack("ii", 1, 0))
            self.assertTrue(server.ask(request).endswith(b" 3, false]"))
            end = time.monotonic() + 5
            while server.server_state.connections and time.monotonic() < end:
                time.sleep(0.01)
            self.assertFalse(server.server_state.connections)

    def test_a_client_that_reads_slowly(self) -> None:
        ahead = [0]
        count = 64

        async def app(scope: Any, receive: Any, send: Any) -> None:
            await send(start(200, sized(count * MIB)))
            for number in range(count):
                ahead[0] = number
                await send(body(bytes(MIB), number + 1 < count))

        with Server(app) as server, server.connect() as client:
            client.sendall(last())
            time.sleep(0.5)
            self.assertLess(ahead[0], 24)
            head = b"HTTP/1.1 200 OK\r\ncontent-length: %d\r\nconnection: close\r\n\r\n" % (count * MIB)
            length = 0
            while piece := client.recv(MIB):
                length += len(piece)
            self.assertEqual(length, len(head) + count * MIB)

    def test_a_client_that_writes_ahead(self) -> None:
        """What comes while a response is made is held, up to a bound."""
        begun, goes = threading.Event(), threading.Event()

        async def app(scope: Any, receive: Any, send: Any) -> None:
            begun.set()
            while not goes.is_set():
                await asyncio.sleep(0.01)
            await small(scope, receive, send)

        with Server(app) as server, server.connect() as client:
            client.sendall(GET)
            self.assertTrue(begun.wait(5))
            client.settimeout(0.3)
            count = 0
            with self.assertRaises(socket.timeout):
                for count in range(64 * MIB // len(GET)):
                    client.sendall(GET)
            self.assertLess(count * len(GET), 32 * MIB)
            goes.set()
            client.settimeout(20)
            self.assertEqual(client.recv(len(OK), socket.MSG_WAITALL), OK)

    def test_a_large_upload_and_download(self) -> None:
        async def app(scope: Any, receive: Any, send: Any) -> None:
            content = (await receive())["body"]
            await send(start(200, sized(len(content))))
            for at in range(0, len(content), 100_000):
                await send(body(content[at : at + 100_000], True))
            await send(body())

        content = os.urandom(15 * MIB)
        with Server(app) as server:
            answer = httpx.post(server.url(), content=content, timeout=60)
            self.assertEqual((answer.status_code, answer.content == content), (200, True))

            def pieces() -> Iterator[bytes]:
                for at in range(0, MIB, 10_000):
                    yield content[at : min(at + 10_000, MIB)]

            answer = httpx.post(server.url(), content=pieces(), timeout=60)
            self.assertEqual((answer.status_code, answer.content == content[:MIB]), (200, True))

    def test_32_clients_at_once(self) -> None:
        async def app(scope: Any, receive: Any, send: Any) -> None:
            content = (await receive())["body"]
            await asyncio.sleep(0.001)
            await send(start(200))
            await send(body(scope["path"].encode() + content))

        def client(number: int) -> int:
            with httpx.Client(timeout=60) as session:
                for turn in range(25):
                    content = b"%d" % turn * (number * 100)
                    answer = session.post(server.url(f"/{number}/{turn}"), content=content)
                    assert answer.status_code == 200 and answer.content == f"/{number}/{turn}".encode() + content
            return number

        with Server(app) as server, ThreadPoolExecutor(32) as pool:
            self.assertEqual(list(pool.map(client, range(32))), list(range(32)))
            self.assertEqual(server.server_state.total_requests, 800)


class Ends(unittest.TestCase):
    def test_a_graceful_end(self) -> None:
        begun = threading.Event()

        async def app(scope: Any, receive: Any, send: Any) -> None:
            begun.set()
            await asyncio.sleep(0.5)
            await small(scope, receive, send)

        with Server(app) as server, server.connect() as client, server.connect() as idle:
            client.sendall(GET)
            self.assertTrue(begun.wait(5))
            server.should_exit = True
            self.assertEqual(read_all(idle), b"")
            self.assertEqual(read_all(client), b"HTTP/1.1 200 OK\r\nconnection: close\r\ncontent-length: 2\r\n\r\nok")
            server.thread.join(5)
            self.assertFalse(server.thread.is_alive())

    def test_the_end_amid_content(self) -> None:
        begun = threading.Event()

        async def app(scope: Any, receive: Any, send: Any) -> None:
            await send(start(200, sized(4)))
            await send(body(b"ab", True))
            begun.set()
            await asyncio.sleep(0.5)
            await send(body(b"cd"))

        with Server(app) as server, server.connect() as client:
            client.sendall(GET)
            self.assertTrue(begun.wait(5))
            server.should_exit = True
            self.assertEqual(read_all(client), b"HTTP/1.1 200 OK\r\ncontent-length: 4\r\n\r\nabcd")

    def test_the_access_log(self) -> None:
        with Logs("uvicorn.access") as log, Server(echo) as server:
            with server.connect() as client:
                port = client.getsockname()[1]
                client.sendall(last(b"GET /a%20b?c HTTP/1.1"))
                read_all(client)
            server.ask(b"x\r\n\r\n")
        self.assertEqual(log.lines, [f'127.0.0.1:{port} - "GET /a%20b?c HTTP/1.1" 200'])
        with Logs("uvicorn.access") as log, Server(echo, access_log=False) as server:
            server.ask(last())
        self.assertEqual(log.lines, [])


async def hello(request: Request) -> Response:
    return PlainTextResponse(f"hello {request.path_params.get('name', '')}")


async def reflect(request: Request) -> Response:
    return JSONResponse({"json": await request.json(), "query": dict(request.query_params)}, status_code=201)


async def nothing(request: Request) -> Response:
    return Response(status_code=204)


async def streams(request: Request) -> Response:
    async def pieces() -> Any:
        for number in range(5):
            yield b"%d\n" % number
            await asyncio.sleep(0.01)

    return StreamingResponse(pieces())


async def fails(request: Request) -> Response:
    raise ValueError


async def chat(socket: Any) -> None:
    await socket.accept()
    with suppress(Exception):
        while True:
            await socket.send_text("got " + await socket.receive_text())


def application() -> Any:
    """An application of Starlette, also for a program."""
    return Starlette(
        routes=[
            Route("/hello/{name}", hello),
            Route("/reflect", reflect, methods=["POST"]),
            Route("/nothing", nothing),
            Route("/streams", streams),
            Route("/fails", fails),
            WebSocketRoute("/chat", chat),
        ]
    )


def run(*words: str) -> str:
    return subprocess.run(words, check=True, text=True, capture_output=True, timeout=60).stdout


class WithStarlette(unittest.TestCase):
    def check(self, url: str, **options: Any) -> None:
        with httpx.Client(base_url=url, timeout=20, **options) as client:
            for _ in range(2):
                self.assertEqual(client.get("/hello/a%20b").text, "hello a b")
                answer = client.post("/reflect?a=1", json={"b": [2]})
                self.assertEqual((answer.status_code, answer.json()), (201, {"json": {"b": [2]}, "query": {"a": "1"}}))
                self.assertEqual(client.get("/nothing").status_code, 204)
                self.assertEqual(client.get("/streams").text, "0\n1\n2\n3\n4\n")
                self.assertEqual(client.head("/hello/a").headers["content-length"], "7")
                self.assertEqual(client.get("/none").status_code, 404)
                self.assertEqual(client.put("/reflect").status_code, 405)
                self.assertEqual(client.get("/fails").status_code, 500)

    def test_httpx(self) -> None:
        with Server(application()) as server:
            self.check(server.url(""))

    def test_curl(self) -> None:
        curl = shutil.which("curl")
        if not curl:
            self.skipTest("there is no curl")
        with Server(application()) as server, tempfile.TemporaryDirectory() as folder:
            fetch = (curl, "-sS", "--max-time", "20")
            self.assertEqual(run(*fetch, server.url("/hello/a"), server.url("/hello/b")), "hello ahello b")
            self.assertIn("HTTP/1.1 204 No Content", run(*fetch, "-i", server.url("/nothing")))
            self.assertIn("content-length: 7", run(*fetch, "-I", server.url("/hello/a")))
            data = Path(folder, "data")
            data.write_text(json.dumps("x" * 2_000_000), "utf-8")
            for field in ("Expect: 100-continue", "Transfer-Encoding: chunked"):
                found = run(*fetch, "-H", field, "--data-binary", f"@{data}", server.url("/reflect"))
                self.assertEqual(len(json.loads(found)["json"]), 2_000_000)

    def test_tls(self) -> None:
        if not shutil.which("openssl"):
            self.skipTest("there is no openssl")
        with tempfile.TemporaryDirectory() as folder:
            key, certificate = f"{folder}/key", f"{folder}/certificate"
            run("openssl", "req", "-x509", "-newkey", "rsa:2048", "-nodes", "-days", "2", "-subj", "/CN=localhost",
                "-addext", "subjectAltName=IP:127.0.0.1", "-keyout", key, "-out", certificate)
            with Server(application(), ssl_keyfile=key, ssl_certfile=certificate) as server:
                context = ssl.create_default_context(cafile=certificate)
                self.check(server.url("").replace("http:", "https:"), verify=context)
                with context.wrap_socket(server.connect(), server_hostname="127.0.0.1") as client:
                    client.sendall(b"x\r\n\r\n")
                    self.assertTrue(read_all(client).startswith(b"HTTP/1.1 400 "))

    def test_websocket(self) -> None:
        try:
            from websockets.client import connect
            from websockets.exceptions import InvalidStatusCode
        except ImportError as error:
            self.skipTest(f"websockets isn't installed: {error}")

        async def talk(url: str) -> List[Any]:
            found: List[Any] = []
            async with connect(f"{url}/chat") as client:
                for text in ("a", "b" * 200_000):
                    await client.send(text)
                    found.append(await client.recv())
            try:
                async with connect(f"{url}/none"):
                    pass
            except InvalidStatusCode as error:
                found.append(error.status_code)
            return found

        with Server(application()) as server:
            found = asyncio.run(talk(f"ws://127.0.0.1:{server.port}"))
            self.assertEqual(found, ["got a", "got " + "b" * 200_000, 403])
            # After other requests, and what is no handshake
            sent = server.ask(
                GET + last(b"GET /chat HTTP/1.1")[:-2].replace(b": close", b": upgrade, close") + b"Upgrade: websocket\r\n\r\n"
            )
            self.assertTrue(sent.startswith(b"HTTP/1.1 404 "))
            self.assertIn(b"HTTP/1.1 4", sent[20:])

    def test_other_upgrades(self) -> None:
        upgrade = b"Connection: upgrade\r\nUpgrade: %s\r\n\r\n"
        with Server(small) as server:
            self.assertEqual(server.ask(GET[:-2] + upgrade % b"h2c" + last()), OK + OK_LAST)
        with Server(small, ws="none") as server:
            key = b"Sec-WebSocket-Key: dGhlIHNhbXBsZSBub25jZQ==\r\nSec-WebSocket-Version: 13\r\n"
            self.assertEqual(server.ask(GET[:-2] + key + upgrade % b"websocket" + last()), OK + OK_LAST)

    def test_the_program(self) -> None:
        folder = str(Path(__file__).resolve().parent)
        loops = ["asyncio"]
        with suppress(ImportError):
            import uvloop  # noqa: F401

            loops.append("uvloop")
        for loop in loops:
            with self.subTest(loop=loop), socket.socket() as listener:
                listener.bind(("127.0.0.1", 0))
                listener.listen()
                command = documented("sh").replace("app:app", "--factory test_uvicorn:application").split()
                self.assertEqual(command[0], "python3")
                words = [sys.executable, *command[1:], "--fd", str(listener.fileno()), "--loop", loop]
                environment = {**os.environ, "PYTHONPATH": os.pathsep.join([folder, *sys.path])}
                program = subprocess.Popen(words, pass_fds=[listener.fileno()], env=environment, cwd=folder,
                                           stderr=subprocess.PIPE, text=True)
                try:
                    self.check(f"http://127.0.0.1:{listener.getsockname()[1]}")
                finally:
                    program.terminate()
                    log = program.communicate(timeout=20)[1]
                self.assertEqual(program.returncode, 0, log)
                self.assertIn("Finished server process", log)


if __name__ == "__main__":
    unittest.main()
