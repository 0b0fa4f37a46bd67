"""The reverse proxy, between clients and an origin server that write byte for byte, with uvicorn as its server."""

import asyncio
import hashlib
import logging
import os
import re
import socket
import struct
import subprocess
import sys
import threading
import time
import unittest
from contextlib import suppress
from pathlib import Path
from typing import IO, Any, AsyncIterator, Callable, Dict, Iterator, List, Optional, Tuple, Union

from typed_headers import Cache, Gateway, HeaderError
from typed_headers.asgi import Cached

try:
    import httpx
    import uvicorn

    from typed_headers.gateway import ClientRequest, ClientResponse, Proxy, Unanswered
    from typed_headers.proxy import _TRAILERS
except ImportError as error:
    raise unittest.SkipTest(f"httpx or uvicorn isn't installed: {error}") from None

logging.getLogger("typed_headers.proxy").addHandler(logging.NullHandler())
Fields = List[Tuple[bytes, bytes]]
MIB = 1024 * 1024
#: What an origin server does between the bytes that it sends: it ends the connection, or resets it.
CUT, RESET = "cut", "reset"
Piece = Union[bytes, float, str]
OPTIONS: Dict[str, Any] = {
    "proxy_headers": False,
    "server_header": False,
    "date_header": False,
    "access_log": False,
    # (with httptools uvicorn drops the host of a request's target, and rejects methods)
    "http": "h11",
    "loop": "asyncio",
}
DATE = b"Date: Sun, 06 Nov 1994 08:49:37 GMT\r\n"


def read_head(file: IO[bytes]) -> Tuple[bytes, Fields]:
    """The first line of a message and its fields, names in lower case."""
    first = file.readline()
    fields: Fields = []
    while True:
        line = file.readline()
        if line in (b"\r\n", b""):
            return first.rstrip(b"\r\n"), fields
        name, _, value = line.partition(b":")
        fields.append((name.lower(), value.strip(b" \r\n")))


def read_content(file: IO[bytes], fields: Fields, until_close: bool) -> Iterator[bytes]:
    """The pieces of content as the fields delimit it. A cut raises `EOFError`."""
    named = dict(fields)
    if b"transfer-encoding" in named:
        while True:
            line = file.readline()
            if not line.endswith(b"\n"):
                raise EOFError
            size = int(line, 16)
            piece, end = file.read(size), file.readline()
            yield piece
            if len(piece) != size or end != b"\r\n":
                raise EOFError
            if size == 0:
                return
    left = int(named.get(b"content-length", b"-1" if until_close else b"0"))
    while left:
        piece = file.read(MIB if left < 0 else min(left, MIB))
        if not piece and left > 0:
            raise EOFError
        if not piece:
            return
        yield piece
        left -= len(piece) if left > 0 else 0


class Asked:
    """A request that an origin server got."""

    def __init__(self, connection: int, line: bytes, fields: Fields) -> None:
        self.connection, self.line, self.fields = connection, line, fields
        self.size, self.content, self.is_whole = 0, b"", False

    def get(self, name: bytes) -> List[bytes]:
        return [value for it, value in self.fields if it == name]


class Origin:
    """An origin server, which answers each request with pieces that the test writes."""

    def __init__(self, answer: Callable[[Asked], Any]) -> None:
        self.answer, self.connections, self.sent, self.ended = answer, 0, 0, 0
        self.asked: List[Asked] = []
        self.listener = socket.create_server(("127.0.0.1", 0))
        self.port = self.listener.getsockname()[1]
        self.url = f"http://127.0.0.1:{self.port}"
        threading.Thread(target=self.accept, daemon=True).start()

    def accept(self) -> None:
        while True:
            try:
                connection, _ = self.listener.accept()
            except OSError:
                return
            self.connections += 1
            threading.Thread(target=self.serve, args=(connection, self.connections), daemon=True).start()

    def serve(self, connection: socket.socket, number: int) -> None:
        try:
            with connection, connection.makefile("rb") as file:
                while self.exchange(connection, file, number):
                    pass
        except (OSError, EOFError):
            pass
        self.ended += 1

    def exchange(self, connection: socket.socket, file: IO[bytes], number: int) -> bool:
        line, fields = read_head(file)
        if not line:
            return False
        asked = Asked(number, line, fields)
        self.asked.append(asked)
        digest = hashlib.sha256()
        for piece in read_content(file, fields, False):
            asked.size += len(piece)
            digest.update(piece)
            if asked.size < MIB:
                asked.content += piece
        asked.content, asked.is_whole = asked.content if asked.size < MIB else digest.digest(), True
        for it in self.answer(asked):
            if it == CUT:
                return False
            if it == RESET:
                connection.setsockopt(socket.SOL_SOCKET, socket.SO_LINGER, struct.pack("ii", 1, 0))
                return False
            if isinstance(it, float):
                time.sleep(it)
            else:
                connection.sendall(it)
                self.sent += len(it)
        return True

    def close(self) -> None:
        # (a thread that waits in accept holds the socket open)
        with suppress(OSError):
            self.listener.shutdown(socket.SHUT_RDWR)
        self.listener.close()


class Server:
    """uvicorn with an application, in a thread."""

    def __init__(self, app: Any) -> None:
        listener = socket.create_server(("127.0.0.1", 0))
        self.port = listener.getsockname()[1]
        self.server = uvicorn.Server(uvicorn.Config(app, lifespan="on", log_level="critical", **OPTIONS))
        self.thread = threading.Thread(target=self.server.run, args=([listener],), daemon=True)
        self.thread.start()
        wait_for(lambda: self.server.started)

    def close(self) -> None:
        self.server.should_exit = True
        self.thread.join(5)
        self.server.force_exit = True
        self.thread.join(5)


class Reply:
    """A response as a client sees it."""

    def __init__(self, file: IO[bytes], method: str) -> None:
        line, self.fields = read_head(file)
        self.line, self.status = line, int(line.split(b" ")[1]) if line else 0
        self.content, self.is_whole = b"", bool(line)
        has_content = method != "HEAD" and self.status >= 200 and self.status not in (204, 304)
        try:
            for piece in read_content(file, self.fields, True) if has_content else ():
                self.content += piece
        except (EOFError, OSError):
            self.is_whole = False

    def get(self, name: bytes) -> List[bytes]:
        return [value for it, value in self.fields if it == name]


class Client:
    """A connection of a client."""

    def __init__(self, port: int) -> None:
        self.socket = socket.create_connection(("127.0.0.1", port), timeout=120)
        self.file = self.socket.makefile("rb")

    def ask(self, target: str = "/", *lines: Union[str, bytes], method: str = "GET", content: bytes = b"") -> Reply:
        head = [f"{method} {target} HTTP/1.1".encode(), *(it.encode() if isinstance(it, str) else it for it in lines)]
        if not any(it.lower().startswith(b"host:") for it in head):
            head.insert(1, b"Host: a.example")
        self.socket.sendall(b"\r\n".join([*head, b"", content]))
        return self.reply(method)

    def reply(self, method: str = "GET") -> Reply:
        return Reply(self.file, method)

    def close(self) -> None:
        self.file.close()
        self.socket.close()


def wait_for(holds: Callable[[], Any], seconds: float = 20) -> None:
    until = time.monotonic() + seconds
    while not holds():
        assert time.monotonic() < until, "it doesn't come"
        time.sleep(0.01)


def plain(content: bytes = b"hello", *lines: bytes, status: str = "200 OK") -> bytes:
    head = [f"HTTP/1.1 {status}".encode(), *lines, b"Content-Length: %d" % len(content), b"", content]
    return b"\r\n".join(head)


class ProxyTest(unittest.TestCase):
    def begin(self, answer: Union[bytes, List[Piece], Callable[[Asked], Any]], app: Any = None, **options: Any) -> None:
        """Starts an origin server that answers so, and the proxy before it, behind what `app` puts before that."""
        pieces = [answer] if isinstance(answer, bytes) else answer
        self.origin = Origin(pieces if callable(pieces) else lambda asked: pieces)
        self.addCleanup(self.origin.close)
        proxy = Proxy(self.origin.url, Gateway("gw.example"), **options)
        # (so that the client of a test is closed, too)
        proxy.is_own = True
        self.serve(proxy if app is None else app(proxy))

    def serve(self, app: Any) -> None:
        server = Server(app)
        self.addCleanup(server.close)
        self.port = server.port

    def client(self) -> Client:
        client = Client(self.port)
        self.addCleanup(client.close)
        return client

    def ask(self, *words: Any, **named: Any) -> Reply:
        return self.client().ask(*words, **named)

    @property
    def last(self) -> Asked:
        found: Asked = self.origin.asked[-1]
        return found


class Requests(ProxyTest):
    def test_fields(self) -> None:
        self.begin(plain())
        lines = ["Connection: X-Hop, keep-alive", "X-Hop: 1", "Keep-Alive: 5", "TE: gzip", "Proxy-Connection: a",
                 "X-B: 2", b"X-A: \xff\x80", "X-B: 1", "Via: 1.0 before", "Content_Length: 7", "Cookie: a=b"]
        self.assertEqual(self.ask("/", *lines).content, b"hello")
        expected = [(b"host", b"a.example"), (b"x-b", b"2"), (b"x-b", b"1"), (b"x-a", b"\xff\x80"),
                    (b"via", b"1.0 before"), (b"via", b"1.1 gw.example"), (b"cookie", b"a=b"),
                    (b"connection", b"close")]
        self.assertEqual(sorted(self.last.fields), sorted(expected))
        self.assertEqual([it for it in self.last.fields if it[0] == b"x-b"], expected[1:3])

    def test_targets(self) -> None:
        self.begin(plain())
        client = self.client()
        targets = ["/", "//b.example//c/", "/a%2Fb%20%41%zz", "/a?b=%3F&c=?d", "/../x/./y;z", "/?", "/a?//b", '/"<>^{}']
        for target in targets:
            client.ask(target)
            # (ASGI doesn't tell an empty query from none)
            sent = target[:-1] if target == "/?" else target
            self.assertEqual(self.last.line, f"GET {sent} HTTP/1.1".encode())
        client.ask("*", method="OPTIONS")
        self.assertEqual(self.last.line, b"OPTIONS * HTTP/1.1")
        absolute = [("http://B:81/x?y", b"B:81", "/x?y"), ("HTTP://b", b"b", "/"), ("https://b?x", b"b", "/?x"),
                    ("http://b:99999", b"b:99999", "/")]
        for target, host, sent in absolute:
            client.ask(target)
            self.assertEqual((self.last.line, self.last.get(b"host")), (f"GET {sent} HTTP/1.1".encode(), [host]))
        client.ask("http://b", method="OPTIONS")
        self.assertEqual(self.last.line, b"OPTIONS * HTTP/1.1")
        count = len(self.origin.asked)
        for target in ("/a#b", "*", "a", "http://user@b/", "http:///a", "ftp://b/", "http://b:x/"):
            self.assertEqual(self.ask(target).status, 400, target)
        self.assertEqual(self.ask("b:443", method="CONNECT").status, 501)
        self.assertEqual(len(self.origin.asked), count)

    def test_methods(self) -> None:
        self.begin(plain())
        for method in ("get", "PROPFIND", "M-SEARCH", "DELETE"):
            self.assertEqual(self.ask(method=method).status, 200)
            self.assertEqual(self.last.line, f"{method} / HTTP/1.1".encode())
            self.assertEqual(self.last.get(b"content-length") + self.last.get(b"transfer-encoding"), [])

    def test_content(self) -> None:
        self.begin(plain())
        self.assertEqual(self.ask("/", "Content-Length: 5", method="PUT", content=b"hello").status, 200)
        self.assertEqual((self.last.get(b"content-length"), self.last.content), ([b"5"], b"hello"))
        chunks = b"3\r\nhel\r\n2;a=b\r\nlo\r\n0\r\nX-A: trailer\r\n\r\n"
        self.assertEqual(self.ask("/", "Transfer-Encoding: Chunked", method="POST", content=chunks).status, 200)
        self.assertEqual((self.last.get(b"transfer-encoding"), self.last.content), ([b"chunked"], b"hello"))
        self.assertEqual(self.last.get(b"content-length"), [])
        self.assertEqual(self.ask("/", "Content-Length: 0", method="POST").status, 200)
        self.assertEqual(self.last.get(b"content-length"), [b"0"])
        self.assertEqual(self.ask("/", "Content-Length: 2", content=b"ab").status, 200)
        self.assertEqual(self.last.content, b"ab")

    def test_expectation(self) -> None:
        self.begin(plain())
        client = self.client()
        lines = ["Expect: 100-continue", "Content-Length: 5"]
        self.assertEqual(client.ask("/", *lines, method="PUT").status, 100)
        client.socket.sendall(b"hello")
        self.assertEqual((client.reply().status, self.last.content), (200, b"hello"))
        self.origin.close()
        # (no server that could want the content)
        self.assertEqual(self.ask("/", *lines, method="PUT").status, 502)

    def test_rejected(self) -> None:
        self.begin(plain())
        chunks = b"5\r\nhello\r\n0\r\n\r\nGET /smuggled HTTP/1.1\r\nHost: a\r\n\r\n"
        client = self.client()
        lines = ["Content-Length: 5", "Transfer-Encoding: chunked"]
        self.assertEqual(client.ask("/", *lines, method="POST", content=chunks).status, 400)
        self.assertEqual(client.reply().status, 0)
        for lines, status in (
            (["Host: a@b"], 400),
            (["Connection: Host"], 400),
            (["Connection: a b"], 400),
            (["Via: 1.1 GW.example"], 508),
            (["Expect: all"], 417),
            (["X: a\x01"], 400),
        ):
            reply = self.ask("/", *lines)
            self.assertEqual((reply.status, reply.content, reply.get(b"content-length")), (status, b"", [b"0"]), lines)
            self.assertEqual(len(reply.get(b"date")), 1)
        for method in ("OPTIONS", "TRACE"):
            self.assertEqual(self.ask("/", "Max-Forwards: 0", method=method).status, 200)
        self.assertEqual(self.origin.asked, [])
        self.ask("/", "Max-Forwards: 5", method="TRACE")
        self.assertEqual(self.last.get(b"max-forwards"), [b"4"])

    def test_who_sent_it(self) -> None:
        self.begin(plain(), writes_forwarded=True, writes_x_forwarded=True, tells_host=True, trusted="127.0.0.2")
        lines = ["X-Forwarded-For: 192.0.2.1", "Forwarded: for=192.0.2.1"]
        self.ask("/", *lines)
        self.assertEqual(self.last.get(b"x-forwarded-for"), [b"127.0.0.1"])
        self.assertEqual(self.last.get(b"x-forwarded-host"), [b"a.example"])
        (forwarded,) = self.last.get(b"forwarded")
        self.assertRegex(forwarded.decode(), r'^for="127\.0\.0\.1:\d+";host=a\.example;proto=http$')
        self.begin(plain(), writes_x_forwarded=True, trusted=lambda address: address == "127.0.0.1")
        self.ask("/", *lines)
        self.assertEqual(b", ".join(self.last.get(b"x-forwarded-for")), b"192.0.2.1, 127.0.0.1")
        self.begin(plain())
        self.ask("/", *lines)
        self.assertEqual(self.last.get(b"x-forwarded-for") + self.last.get(b"forwarded"), [])

    def test_http_10(self) -> None:
        self.begin([b"HTTP/1.1 200 OK\r\nTransfer-Encoding: chunked\r\n\r\n5\r\nhello\r\n0\r\n\r\n"])
        client = self.client()
        client.socket.sendall(b"GET / HTTP/1.0\r\n\r\n")
        reply = client.reply()
        self.assertEqual((reply.content, reply.get(b"transfer-encoding")), (b"hello", []))
        self.assertEqual(self.last.get(b"host"), [f"127.0.0.1:{self.origin.port}".encode()])
        self.assertEqual(self.last.get(b"via"), [b"1.0 gw.example"])


class Responses(ProxyTest):
    def test_fields(self) -> None:
        lines = [b"Set-Cookie: a=1", b"X-A: \xfe\x80", b"Set-Cookie: b=2", b"Connection: X-Hop, close", b"X-Hop: 1",
                 b"Keep-Alive: 5", b"Server: origin", DATE.strip(), b"Via: 1.1 inner", b"Content-Encoding: gzip"]
        self.begin(plain(b"no gzip", *lines))
        reply = self.ask()
        expected = [(b"set-cookie", b"a=1"), (b"set-cookie", b"b=2"), (b"x-a", b"\xfe\x80"), (b"server", b"origin"),
                    (b"date", b"Sun, 06 Nov 1994 08:49:37 GMT"), (b"via", b"1.1 inner"), (b"via", b"1.1 gw.example"),
                    (b"content-encoding", b"gzip"), (b"content-length", b"7")]
        self.assertEqual((reply.content, sorted(reply.fields)), (b"no gzip", sorted(expected)))
        self.assertEqual(reply.get(b"set-cookie"), [b"a=1", b"b=2"])

    def test_redirects_are_the_clients(self) -> None:
        for place in (b"/b", b"http://[", b"//" + b"x" * 100 + b":999999/", b"\xff"):
            self.begin(plain(b"moved", b"Location: " + place, status="307 Moved"))
            reply = self.ask()
            self.assertEqual((reply.status, reply.get(b"location"), reply.content), (307, [place], b"moved"))
            self.assertEqual(len(self.origin.asked), 1)

    def test_without_content(self) -> None:
        def answer(asked: Asked) -> List[Piece]:
            if asked.line.startswith(b"HEAD"):
                return [b"HTTP/1.1 200 OK\r\nContent-Length: 5\r\n\r\n"]
            status = asked.line[5:8]
            return [b"HTTP/1.1 %s X\r\nETag: \"1\"\r\nContent-Length: %d\r\n\r\n" % (status, 5 * (status == b"304"))]

        self.begin(answer)
        client = self.client()
        reply = client.ask(method="HEAD")
        self.assertEqual((reply.status, reply.get(b"content-length")), (200, [b"5"]))
        for status in (204, 304, 200):
            reply = client.ask(f"/{status}")
            self.assertEqual((reply.status, reply.content, reply.get(b"etag")), (status, b"", [b'"1"']))

    def test_interim_responses_are_dropped(self) -> None:
        hints = b"HTTP/1.1 103 Early Hints\r\nLink: </a>\r\n\r\n"
        self.begin([hints, hints, plain()])
        reply = self.ask()
        self.assertEqual((reply.status, reply.content, reply.get(b"link")), (200, b"hello", []))

    def test_what_is_no_response(self) -> None:
        for wrong in (
            b"HTTP/1.1 200 OK\r\nContent-Length: 5\r\nTransfer-Encoding: chunked\r\n\r\n0\r\n\r\n",
            b"HTTP/1.1 200 OK\r\nTransfer-Encoding: gzip, chunked\r\n\r\n0\r\n\r\n",
            b"HTTP/1.0 200 OK\r\nTransfer-Encoding: chunked\r\n\r\n0\r\n\r\n",
            b"HTTP/1.1 200 OK\r\nContent-Length: 5x\r\n\r\nhello",
            b"HTTP/1.1 200 OK\r\nContent-Length: -5\r\n\r\nhello",
            b"HTTP/1.1 200 OK\r\nContent-Length: 5\r\nContent-Length: 6\r\n\r\nhello!",
            b"HTTP/1.1 200 OK\r\nContent-Length : 5\r\n\r\nhello",
            b"HTTP/1.1 200 OK\r\nConnection: Content-Length\r\nContent-Length: 5\r\n\r\nhello",
            b"HTTP/1.1 200 OK\r\nX: a\x00b\r\nContent-Length: 5\r\n\r\nhello",
            b"HTTP/1.1 200 OK\r\nX: a\x01b\r\nContent-Length: 5\r\n\r\nhello",
            b"HTTP/1.1 101 Switching Protocols\r\nUpgrade: x\r\nConnection: Upgrade\r\n\r\n",
            b"HTTP/1.1 099 X\r\nContent-Length: 0\r\n\r\n",
            b"HTTP/1.1 777 X\r\nContent-Length: 0\r\n\r\n",
            b"HTTP/1.1 103 Early Hints\r\n\r\n",
            b"HTTP/1.1 200 OK\r\nA: " + b"a" * 200_000 + b"\r\n\r\n",
            b"hello\r\n\r\n",
            b"\x00" * 100,
        ):
            self.begin([wrong, CUT])
            reply = self.ask()
            length = reply.get(b"content-length")
            self.assertEqual((reply.status, reply.content, length), (502, b"", [b"0"]), wrong[:99])
            self.assertEqual((len(reply.get(b"date")), self.ask().status), (1, 502))

    def test_what_follows_a_response_reaches_nobody(self) -> None:
        more = plain(b"evil", b"X-Evil: 1")

        def answer(asked: Asked) -> List[Piece]:
            return [plain() + more, 0.2]

        self.begin(answer)
        clients = [self.client() for _ in range(3)]
        for method in ("GET", "HEAD", "GET", "HEAD", "POST"):
            for client in clients:
                reply = client.ask(method=method)
                self.assertEqual((reply.content, reply.get(b"x-evil")), (b"" if method == "HEAD" else b"hello", []))
        self.assertEqual(self.origin.connections, 15)


class Failures(ProxyTest):
    def test_no_response(self) -> None:
        some = b"HTTP/1.1 200 OK\r\nContent-Le"
        answers: List[List[Piece]] = [[CUT], [RESET], [some, CUT], [some, RESET]]
        for pieces in answers:
            self.begin(pieces)
            for method in ("GET", "POST"):
                reply = self.ask(method=method)
                self.assertEqual((reply.status, reply.content, reply.is_whole), (502, b"", True))
            self.assertEqual(len(self.origin.asked), 2)

    def test_no_server(self) -> None:
        self.begin(plain())
        self.origin.close()
        self.assertEqual([self.ask().status, self.ask(method="POST").status], [502, 502])

    def test_a_cut_is_seen(self) -> None:
        stated = b"HTTP/1.1 200 OK\r\nContent-Length: 10\r\n\r\n"
        chunked = b"HTTP/1.1 200 OK\r\nTransfer-Encoding: chunked\r\n\r\n"
        for end in (CUT, RESET):
            for head, pieces in (
                (stated, [b""]),
                (stated, [b"hello"]),
                (chunked, [b""]),
                (chunked, [b"5\r\nhello\r\n"]),
                (chunked, [b"5\r\nhel"]),
                (chunked, [b"5\r\nhello\r\n0\r\n"]),
                (chunked, [b"5\r\nhello\r\nx\r\n\r\n"]),
            ):
                self.begin([head, 0.05, *pieces, 0.05, end])
                reply = self.ask()
                self.assertEqual((reply.status, reply.is_whole), (200, False), (head, pieces, end))
                self.assertTrue(b"hello".startswith(reply.content))

    def test_timeouts(self) -> None:
        self.begin([3.0, CUT], timeout=0.3)
        self.assertEqual((self.ask().status, self.ask(method="POST").status), (504, 504))
        self.begin([b"HTTP/1.1 200 OK\r\nContent-Length: 10\r\n\r\nhello", 5.0, CUT], timeout=2.0)
        reply = self.ask()
        self.assertEqual((reply.status, reply.content, reply.is_whole), (200, b"hello", False))
        limits = httpx.Limits(max_connections=1)
        self.begin([1.0, plain()], timeout=0.3, client=httpx.AsyncHTTPTransport(verify=False, limits=limits))
        threads = [threading.Thread(target=lambda: found.append(self.ask().status)) for _ in range(2)]
        found: List[int] = []
        for it in threads:
            it.start()
        for it in threads:
            it.join()
        self.assertEqual(sorted(found), [503, 504])

    def test_a_client_that_goes_away(self) -> None:
        stated = b"HTTP/1.1 200 OK\r\nContent-Length: 1000000\r\n\r\n"

        def slow(asked: Asked) -> Iterator[Piece]:
            if asked.line.startswith(b"GET /silent"):
                yield 2.0
            yield stated
            for _ in range(2000):
                yield b"x" * 1000
                yield 0.01

        self.begin(slow)
        for request in (
            b"GET /silent HTTP/1.1\r\nHost: a\r\n\r\n",
            b"GET / HTTP/1.1\r\nHost: a\r\n\r\n",
            b"PUT / HTTP/1.1\r\nHost: a\r\nContent-Length: 5\r\n\r\nhe",
            b"PUT / HTTP/1.1\r\nHost: a\r\nTransfer-Encoding: chunked\r\n\r\n5\r\nhello\r\n",
            b"PUT / HTTP/1.1\r\nHost: a\r\nContent-Length: 5\r\n\r\nhello",
        ):
            client, asked, ended = self.client(), len(self.origin.asked), self.origin.ended
            client.socket.sendall(request)
            wait_for(lambda: len(self.origin.asked) > asked)
            time.sleep(0.1)
            client.close()
            wait_for(lambda: self.origin.ended > ended, 5)
        self.assertEqual([it.is_whole for it in self.origin.asked], [True, True, False, False, True])
        self.assertEqual(self.origin.connections, 5)

    def test_many_clients_that_go_away(self) -> None:
        def answer(asked: Asked) -> List[Piece]:
            return [0.02, plain()]

        self.begin(answer, client=httpx.AsyncHTTPTransport(verify=False))
        for number in range(100):
            client = Client(self.port)
            client.socket.sendall(b"GET / HTTP/1.1\r\nHost: a\r\n\r\n")
            time.sleep(0.001 * (number % 30))
            client.close()
        self.assertEqual([self.ask().content for _ in range(5)], [b"hello"] * 5)

    def test_kept_connections(self) -> None:
        def answer(asked: Asked) -> List[Piece]:
            is_first = sum(it.connection == asked.connection for it in self.origin.asked) == 1
            return [plain()] if is_first else [CUT]

        cases = [("GET", 0, 200, 3), ("DELETE", 0, 200, 3), ("POST", 0, 502, 2), ("PUT", 1, 502, 2)]
        for method, size, status, count in cases:
            self.begin(answer, client=httpx.AsyncHTTPTransport(verify=False))
            self.assertEqual(self.ask().status, 200)
            lines = [f"Content-Length: {size}"] if size else []
            self.assertEqual(self.ask("/", *lines, method=method, content=b"x" * size).status, status, method)
            self.assertEqual((len(self.origin.asked), self.origin.connections), (count, count - 1), method)


class Users(ProxyTest):
    def test_cookies_are_the_clients(self) -> None:
        self.begin(lambda asked: [plain(b"", b"Set-Cookie: SID=" + (asked.get(b"x-user") or [b"none"])[0])])
        for client in (None, httpx.AsyncHTTPTransport(verify=False), httpx.AsyncClient(cookies={"SID": "d"})):
            self.begin(self.origin.answer, client=client)
            for user in ("a", "b"):
                self.assertEqual(self.ask("/", f"X-User: {user}").get(b"set-cookie"), [f"SID={user}".encode()])
                self.ask("/")
                self.assertEqual(self.last.get(b"cookie"), [])
                self.ask("/", "Cookie: SID=c")
                self.assertEqual(self.last.get(b"cookie"), [b"SID=c"])

    def test_eight_users(self) -> None:
        """Each gets what is its own, from the origin server and from the cache."""

        def answer(asked: Asked) -> List[Piece]:
            user, path = asked.get(b"authorization")[0], asked.line.split()[1]
            time.sleep(0.001 * (hash(user + path) % 5))
            caching = {b"/all": b"public, max-age=60", b"/each": b"public, max-age=60"}.get(path, b"max-age=60")
            found = b"all" if path == b"/all" else user + b" " + path + b" " + asked.content
            vary = b"Vary: Authorization" if path == b"/each" else b"Vary: X"
            if path == b"/chunked":
                head = b"HTTP/1.1 200 OK\r\nTransfer-Encoding: chunked\r\n\r\n"
                return [head + b"%x\r\n%s\r\n0\r\n\r\n" % (len(found), found)]
            return [plain(found * (1000 if path == b"/large" else 1), b"Cache-Control: " + caching, vary)]

        wrong: List[Any] = []
        asked: List[str] = []

        def use(number: int) -> None:
            client, user = Client(self.port), f"user-{number}"
            for turn in range(25):
                path = ("/all", "/each", "/own", "/large", "/chunked")[(turn + number) % 5]
                content = f"{number}.{turn}".encode() if path == "/own" else b""
                method, lines = ("POST", [f"Content-Length: {len(content)}"]) if content else ("GET", [])
                reply = client.ask(path, f"Authorization: {user}", *lines, method=method, content=content)
                found = f"{user} {path} {content.decode()}".encode() * (1000 if path == "/large" else 1)
                asked.append(path)
                if (reply.status, reply.content) != (200, b"all" if path == "/all" else found):
                    wrong.append((user, path, reply.status, reply.content[:50]))
            client.close()

        for client in (None, httpx.AsyncHTTPTransport(verify=False)):
            self.begin(answer, lambda proxy: Cached(proxy, Cache(shared=True)), client=client)
            threads = [threading.Thread(target=use, args=(number,)) for number in range(8)]
            for it in threads:
                it.start()
            for it in threads:
                it.join()
            self.assertLess(len(self.origin.asked), 200 - 60)
        self.assertEqual((wrong, len(asked)), ([], 400))


class Streams:
    """A client of HTTP over streams of asyncio, with a connection for each request."""

    async def send(self, request: ClientRequest) -> ClientResponse:
        port = int(request.origin.rpartition(":")[2])
        reader, writer = await asyncio.open_connection("127.0.0.1", port)
        lines = [name + b": " + value for name, value in request.fields]
        head = [request.method.encode() + b" " + request.target + b" HTTP/1.1", *lines, b"", b""]
        writer.write(b"\r\n".join(head))
        is_chunked = (b"transfer-encoding", b"chunked") in request.fields
        if request.content is not None:
            async for piece in request.content:
                writer.write(b"%x\r\n%b\r\n" % (len(piece), piece) if is_chunked else piece)
                await writer.drain()
            writer.write(b"0\r\n\r\n" if is_chunked else b"")
        try:
            head = (await asyncio.wait_for(reader.readuntil(b"\r\n\r\n"), request.timeout)).split(b"\r\n")
        except BaseException:
            writer.close()
            raise
        first, *fields = head[:-2]
        pairs = [(it.partition(b":")[0], it.partition(b":")[2].strip()) for it in fields]
        return Streamed(reader, writer, int(first.split()[1]), 11 if first.startswith(b"HTTP/1.1") else 10, pairs)


class Streamed:
    def __init__(self, reader: Any, writer: Any, status: int, version: int, fields: Fields) -> None:
        self.reader, self.writer, self.status, self.version, self.fields = reader, writer, status, version, fields

    async def pieces(self) -> AsyncIterator[bytes]:
        left = int({name.lower(): value for name, value in self.fields}.get(b"content-length", b"0"))
        while left:
            piece = await self.reader.read(min(left, 65536))
            if not piece:
                raise ConnectionError("it was cut off")
            left -= len(piece)
            yield piece

    async def aclose(self) -> None:
        self.writer.close()


class Trailing:
    """A client that gives trailer fields. Each request gets these fields, "hello", and these trailer fields."""

    gives_trailers = True

    def __init__(self, fields: Fields, trailers: Fields) -> None:
        self.fields, self.trailers, self.asked = fields, trailers, ClientRequest("", "", b"", (), None, None)

    async def send(self, request: ClientRequest) -> Any:
        self.asked = request
        return Trailed(self.fields, self.trailers)


class Trailed:
    status, version = 200, 11

    def __init__(self, fields: Fields, trailers: Fields) -> None:
        self.fields, self.given, self.trailers = fields, trailers, [(b"server-timing", b"too-early")]

    async def pieces(self) -> AsyncIterator[bytes]:
        yield b"hello"
        self.trailers = self.given

    async def aclose(self) -> None:
        pass


class Failing:
    """A client that gets no response."""

    def __init__(self, error: Exception) -> None:
        self.error = error

    async def send(self, request: ClientRequest) -> ClientResponse:
        raise self.error


class Clients(ProxyTest):
    def test_of_httpx(self) -> None:
        """A client of httpx adds nothing to a request, follows no redirect, and decodes nothing."""
        user: Dict[str, Any] = {"headers": {"X-Own": "1"}, "cookies": {"a": "b"}, "auth": ("u", "p")}
        answer = plain(b"no gzip", b"Location: /b", b"Content-Encoding: gzip", b"Set-Cookie: c=d", status="302 Found")
        self.begin(answer, client=httpx.AsyncClient(verify=False, params={"q": "1"}, follow_redirects=True, **user))
        for path in ("/a", "/a?b"):
            reply = self.ask(path)
            self.assertEqual((reply.status, reply.content, reply.get(b"location")), (302, b"no gzip", [b"/b"]))
            self.assertEqual(self.last.line, f"GET {path} HTTP/1.1".encode())
            self.assertEqual(self.last.fields, [(b"host", b"a.example"), (b"via", b"1.1 gw.example")])
        self.assertEqual((len(self.origin.asked), self.origin.connections), (2, 1))
        content = b"x" * MIB
        reply = self.ask("/", f"Content-Length: {len(content)}", method="PUT", content=content)
        self.assertEqual((reply.status, self.last.size), (302, MIB))
        self.begin([2.0, CUT], timeout=0.2, client=httpx.AsyncClient(verify=False))
        self.assertEqual(self.ask().status, 504)

    def test_any(self) -> None:
        self.begin(lambda asked: [plain(asked.content, b"Connection: X-Hop", b"X-Hop: 1")], client=Streams())
        self.assertEqual(self.ask("/a").content, b"")
        reply = self.ask("/", "Content-Length: 5", "Connection: close", method="PUT", content=b"hello")
        self.assertEqual((reply.content, reply.get(b"x-hop"), self.last.get(b"connection")), (b"hello", [], []))
        chunks = b"3\r\nhel\r\n2\r\nlo\r\n0\r\n\r\n"
        self.assertEqual(self.ask("/", "Transfer-Encoding: chunked", method="POST", content=chunks).content, b"hello")
        self.begin([b"HTTP/1.1 200 OK\r\nContent-Length: 10\r\n\r\nhello", CUT], client=Streams())
        reply = self.ask()
        self.assertEqual((reply.status, reply.content, reply.is_whole), (200, b"hello", False))
        self.begin([1.0, CUT], timeout=0.2, client=Streams())
        self.assertEqual(self.ask().status, 504)

    def test_without_a_response(self) -> None:
        errors = [(TimeoutError("late"), 504), (asyncio.TimeoutError(), 504), (ConnectionError("no"), 502),
                  (ValueError("other"), 502), (Unanswered(503, "busy"), 503)]  # fmt: skip
        for error, status in errors:
            self.begin(plain(), client=Failing(error))
            with self.assertLogs("typed_headers.proxy", "WARNING") as log:
                self.assertEqual(self.ask().status, status)
            self.assertIn(f"answered by {status}: ", log.output[0])
            self.assertIn(str(error), log.output[0])

    def test_mounted(self) -> None:
        """Where Starlette mounts it at a part of the path, the origin server gets the whole path."""
        try:
            from starlette.applications import Starlette
            from starlette.routing import Mount
        except ImportError as error:
            raise unittest.SkipTest(str(error)) from None
        client = httpx.AsyncClient(verify=False)
        self.begin(plain(), lambda proxy: Starlette(routes=[Mount("/api", proxy)]), client=client)
        self.assertEqual((self.ask("/api/a%2Fb?c").content, self.last.line), (b"hello", b"GET /api/a%2Fb?c HTTP/1.1"))
        self.assertEqual((self.ask("/b").status, len(self.origin.asked)), (404, 1))

    def test_reasons(self) -> None:
        self.begin(plain(b"hello", b"Connection: Content-Length"))
        with self.assertLogs("typed_headers.proxy", "INFO") as log:
            self.ask()
            self.ask("/", "Connection: Host")
            self.ask("/", "Via: 1.1 gw.example")
            self.ask("b:1", method="CONNECT")
        self.assertEqual([it.split(":", 2)[2] for it in log.output], [
            "answered by 502: PROTECTED_OPTION", "answered by 400: PROTECTED_OPTION", "answered by 508: LOOP",
            "answered by 501: the target isn't passed on",
        ])  # fmt: skip


class BehindCached(ProxyTest):
    def begin_cached(self, answer: Callable[[Asked], Any]) -> None:
        self.now = 1_000_000_000
        self.begin(answer, lambda proxy: Cached(proxy, Cache(shared=True), clock=lambda: self.now))

    def test_a_cache(self) -> None:
        answers: List[bytes] = [plain(b"one", b'ETag: "1"', b"Cache-Control: max-age=60")]
        self.begin_cached(lambda asked: [answers[0]])
        self.assertEqual(self.ask("/a").get(b"age"), [])
        self.now += 10
        hit = self.ask("/a")
        self.assertEqual((hit.content, hit.get(b"age"), hit.get(b"via")), (b"one", [b"10"], [b"1.1 gw.example"]))
        self.assertEqual(self.ask("/a", 'If-None-Match: "1"').status, 304)
        part = self.ask("/a", "Range: bytes=1-")
        self.assertEqual((part.status, part.content, self.ask("/a", method="HEAD").content), (206, b"ne", b""))
        self.assertEqual(len(self.origin.asked), 1)
        self.now += 100
        answers[0] = b'HTTP/1.1 304 X\r\nETag: "1"\r\nCache-Control: max-age=60\r\n\r\n'
        self.assertEqual((self.ask("/a").content, self.last.get(b"if-none-match")), (b"one", [b'"1"']))
        self.assertEqual((self.ask("/a").content, len(self.origin.asked)), (b"one", 2))
        answers[0] = plain(b"", status="204 No Content").replace(b"Content-Length: 0\r\n", b"")
        self.assertEqual(self.ask("/a", "Content-Length: 1", method="PUT", content=b"x").status, 204)
        answers[0] = plain(b"two")
        self.assertEqual(self.ask("/a").content, b"two")

    def test_errors(self) -> None:
        answers: List[List[Piece]] = [[plain(b"one", b"Cache-Control: max-age=1, stale-if-error=60")]]
        self.begin_cached(lambda asked: answers[0])
        self.ask("/a")
        self.now += 10
        cut = b"HTTP/1.1 200 OK\r\nContent-Length: 10\r\nCache-Control: max-age=60\r\n\r\nhello"
        faults: List[List[Piece]] = [[CUT], [b"no response\r\n\r\n"], [plain(status="503 X")]]
        for answers[0] in faults:
            self.assertEqual(self.ask("/a").content, b"one")
        answers[0] = [cut, 0.05, CUT]
        self.assertFalse(self.ask("/c").is_whole)
        answers[0] = [plain(b"two", b"Cache-Control: max-age=60")]
        self.assertEqual([self.ask("/c").content, self.ask("/c").content], [b"two", b"two"])
        self.origin.close()
        self.assertEqual((self.ask("/a").content, self.ask("/d").status), (b"one", 502))
        self.now += 100
        self.assertEqual(self.ask("/a").status, 502)

    def test_validation_after_the_response(self) -> None:
        answers = [plain(b"one", b"Cache-Control: max-age=1, stale-while-revalidate=60")]
        self.begin_cached(lambda asked: [0.2, answers[0]])
        self.ask("/a")
        self.now += 10
        answers[0] = plain(b"two", b"Cache-Control: max-age=60")
        self.assertEqual(self.ask("/a").content, b"one")
        wait_for(lambda: self.ask("/a").content == b"two")
        self.assertEqual(len(self.origin.asked), 2)


#: A gateway by itself, whose memory is measured.
PROGRAM = """
import sys, uvicorn
from typed_headers import Gateway
from typed_headers.proxy import Proxy
uvicorn.run(Proxy(sys.argv[1], Gateway("gw.example")), fd=int(sys.argv[2]), log_level="critical",
            http="h11", loop="asyncio")
"""
LARGE = 100 * MIB


@unittest.skipUnless(Path("/proc/self/status").exists(), "no /proc, which tells the memory of a process")
class Large(ProxyTest):
    def setUp(self) -> None:
        def answer(asked: Asked) -> Iterator[Piece]:
            if asked.size:
                yield plain(b"%d" % asked.size)
                return
            yield b"HTTP/1.1 200 OK\r\nContent-Length: %d\r\n\r\n" % LARGE
            for _ in range(LARGE // MIB):
                yield bytes(MIB)

        self.origin = Origin(answer)
        self.addCleanup(self.origin.close)
        listener = socket.create_server(("127.0.0.1", 0))
        self.port = listener.getsockname()[1]
        command = [sys.executable, "-c", PROGRAM, self.origin.url, str(listener.fileno())]
        environ = {**os.environ, "PYTHONPATH": os.pathsep.join(it or "." for it in sys.path)}
        self.process = subprocess.Popen(command, env=environ, pass_fds=[listener.fileno()])
        listener.close()
        self.addCleanup(self.process.wait, 10)
        self.addCleanup(self.process.kill)
        self.ask("/", "Content-Length: 1", method="PUT", content=b"x")
        self.memory = self.most_memory()

    def most_memory(self) -> int:
        """The most bytes of memory that the gateway had."""
        text = Path(f"/proc/{self.process.pid}/status").read_text("ascii")
        found = re.search(r"VmHWM:\s+(\d+) kB", text)
        assert found
        return int(found[1]) * 1024

    def test_large_content(self) -> None:
        client = self.client()
        client.socket.sendall(b"GET / HTTP/1.1\r\nHost: a\r\n\r\n")
        _, fields = read_head(client.file)
        self.assertEqual(sum(map(len, read_content(client.file, fields, False))), LARGE)
        for lines, before, after in (
            ([f"Content-Length: {LARGE}"], b"", b""),
            (["Transfer-Encoding: chunked"], b"100000\r\n", b"\r\n"),
        ):
            client = self.client()
            head = "\r\n".join(["PUT / HTTP/1.1", "Host: a", *lines, "", ""])
            client.socket.sendall(head.encode())
            for _ in range(LARGE // MIB):
                client.socket.sendall(before + bytes(MIB) + after)
            client.socket.sendall(b"0\r\n\r\n" if before else b"")
            self.assertEqual(client.reply().content, b"%d" % LARGE)
        self.assertLess(self.most_memory() - self.memory, 16 * MIB)

    def test_a_slow_client(self) -> None:
        clients = [self.client() for _ in range(4)]
        for client in clients:
            client.socket.sendall(b"GET / HTTP/1.1\r\nHost: a\r\n\r\n")
        sent = -1
        while sent != self.origin.sent:
            sent = self.origin.sent
            time.sleep(0.5)
        # (each of two connections has buffers of some MiB)
        self.assertLess(sent, len(clients) * 40 * MIB)
        self.assertLess(self.most_memory() - self.memory, 16 * MIB)
        for client in clients:
            _, fields = read_head(client.file)
            self.assertEqual(sum(map(len, read_content(client.file, fields, False))), LARGE)
        self.assertLess(self.most_memory() - self.memory, 16 * MIB)


class Applications(unittest.TestCase):
    """What a server of ASGI other than uvicorn might ask."""

    def ask(self, app: Any, scope: Any, *given: Any) -> List[Any]:
        messages, left = [], list(given)

        async def receive() -> Any:
            return left.pop(0) if left else {"type": "http.request", "body": b""}

        async def send(message: Any) -> None:
            messages.append(message)

        asyncio.run(app({"method": "GET", "path": "/", "headers": [(b"host", b"a")], **scope}, receive, send))
        return messages

    def proxy(self, respond: Optional[Callable[[Any], Any]] = None, **options: Any) -> Any:
        transport = httpx.MockTransport(respond or (lambda request: httpx.Response(200, content=request.url.raw_path)))
        return Proxy("https://b.example:8443/", Gateway("gw"), client=transport, **options)

    def test_scopes(self) -> None:
        start, body, end = self.ask(self.proxy(), {"type": "http", "path": "/ä b", "query_string": b"c=%41"})
        self.assertEqual((start["status"], body["body"], end["body"]), (200, b"/%C3%A4%20b?c=%41", b""))
        self.assertEqual(self.ask(self.proxy(), {"type": "http", "http_version": "2"})[0]["status"], 505)
        self.assertEqual(self.ask(self.proxy(), {"type": "http", "method": "a b"})[0]["status"], 400)
        with self.assertRaises(NotImplementedError):
            self.ask(self.proxy(), {"type": "other"})

    def test_clients(self) -> None:
        def respond(request: Any) -> Any:
            return httpx.Response(200, text=request.headers.get("forwarded", ""))

        proxy = self.proxy(respond, writes_forwarded=True, trusted=["", "192.0.2.1"])
        for client, told in (
            (("fe80::1%eth0", 5), 'for="[fe80::1]:5";proto=http'),
            (["192.0.2.7", 0], "for=192.0.2.7;proto=http"),
            (("testclient", 50000), "for=unknown;proto=http"),
            (None, "for=before, for=unknown;proto=http"),
            (("192.0.2.1", 1), 'for=before, for="192.0.2.1:1";proto=http'),
        ):
            fields = [(b"host", b"a"), (b"forwarded", b"for=before")]
            found = self.ask(proxy, {"type": "http", "client": client, "headers": fields})
            self.assertEqual(found[1]["body"].decode(), told)
        found = self.ask(proxy, {"type": "http", "client": ("::1", 1), "scheme": "https"})
        self.assertEqual(found[1]["body"].decode(), 'for="[::1]:1";proto=https')

    def test_content_that_nothing_delimits(self) -> None:
        async def respond(request: Any) -> Any:
            await asyncio.sleep(5)

        with self.assertRaises(ValueError):
            self.ask(self.proxy(respond), {"type": "http"}, {"type": "http.request", "body": b"x"})

    def test_content_of_a_response_without_any(self) -> None:
        messages = self.ask(self.proxy(), {"type": "http", "method": "HEAD"})
        self.assertEqual([it.get("body") for it in messages], [None, b""])

    def test_websocket(self) -> None:
        scope = {"type": "websocket"}
        self.assertEqual(self.ask(self.proxy(), scope, {"type": "websocket.connect"}), [{"type": "websocket.close"}])
        messages = self.ask(self.proxy(), {**scope, "extensions": {"websocket.http.response": {}}})
        self.assertEqual((messages[0]["status"], messages[1]["body"]), (501, b""))

    def trailed(self, trailers: Fields, *lines: Tuple[bytes, bytes], offered: bool = True, **scope: Any) -> List[Any]:
        """What a server gets of a response with these trailer fields, and what the origin server is told of TE."""
        fields = [(b"Transfer-Encoding", b"chunked"), (b"Connection", b"close, signature"), *lines]
        client = Trailing(fields, trailers)
        extensions = {"http.response.trailers": {}} if offered else {}
        asked = {"headers": [(b"host", b"a"), (b"te", b"gzip, Trailers")], "extensions": extensions, **scope}
        gateway = Gateway("gw", protected=["ETag"])
        messages = self.ask(Proxy("http://a", gateway, client), {"type": "http", **asked})
        is_told = offered and "headers" not in scope
        self.assertEqual(dict(client.asked.fields).get(b"te"), b"trailers" if is_told else None)
        return messages

    def test_trailers(self) -> None:
        announced, passed = (b"Trailer", b"Server-Timing"), [(b"Server-Timing", b"a;dur=1"), (b"server-timing", b"b")]
        dropped = [(b"Content-Length", b"9"), (b"X-A", b"b"), (b"ETag", b'"1"'), (b"Signature", b"a"), (b"Via", b"1 b")]
        scopes: List[Dict[str, Any]] = [{}, {"headers": [(b"host", b"a")]}]
        for scope in scopes:
            start, body, end, trailers = self.trailed([*dropped, *passed], announced, **scope)
            self.assertEqual((start["trailers"], body["body"], end["body"]), (True, b"hello", b""))
            fields = [(b"server-timing", b"a;dur=1"), (b"server-timing", b"b")]
            expected = {"type": "http.response.trailers", "headers": fields, "more_trailers": False}
            self.assertEqual(trailers, expected)
        self.assertEqual(self.trailed(dropped, announced)[3]["headers"], [])
        for found in (
            self.trailed(passed),
            self.trailed(passed, announced, offered=False),
            self.trailed(passed, announced, method="HEAD"),
            self.trailed(passed, announced, http_version="1.0"),
        ):
            self.assertNotIn("trailers", found[0])
            self.assertEqual({it["type"] for it in found[1:]}, {"http.response.body"})
        with self.assertRaises(HeaderError):
            self.trailed([(b"Server-Timing", b"a\r\nb")], announced)

    def test_trailers_of_the_specification(self) -> None:
        page = Path(__file__).resolve().parents[3] / "crates/gateway_messages/specs/Trailers.antt"
        if not page.exists():
            self.skipTest("the specification isn't here")
        names = re.search(r"\ntrailer_names =\n(.*?)\[\]", page.read_text("utf-8"), re.S)
        self.assertEqual(set(re.findall('"(.*?)"', names[1] if names else "")), _TRAILERS)

    def test_lifespan(self) -> None:
        events = [{"type": f"lifespan.{it}"} for it in ("startup", "shutdown")]
        found = self.ask(Proxy("http://a", Gateway("gw")), {"type": "lifespan"}, *events)
        self.assertEqual([it["type"] for it in found], ["lifespan.startup.complete", "lifespan.shutdown.complete"])

    def test_arguments(self) -> None:
        wrong = ["a.example", "ftp://a.example", "http://", "http://a/b", "http://a/?b", "http://u:p@a", "http://a#b"]
        for origin in wrong:
            with self.assertRaises(ValueError):
                Proxy(origin, Gateway("gw"))
        with self.assertRaises(HeaderError):
            Gateway("a b")


class Documented(ProxyTest):
    def test_the_page(self) -> None:
        """Runs the example of bindings/python/MIDDLEWARE.md."""
        page = Path(__file__).resolve().parent.parent / "MIDDLEWARE.md"
        if not page.exists():
            self.skipTest("the page isn't here")
        (code,) = re.findall(r"test_proxy\.py -->\n```python\n(.*?)```", page.read_text("utf-8"), re.S)
        self.origin = Origin(lambda asked: [plain(b"hello", b"Cache-Control: max-age=60")])
        self.addCleanup(self.origin.close)
        self.assertIn('"http://127.0.0.1:8080"', code)
        names: Any = {}
        exec(code.replace("http://127.0.0.1:8080", self.origin.url), names)
        self.serve(names["app"])
        self.assertEqual([self.ask().content for _ in range(3)], [b"hello"] * 3)
        self.assertEqual(len(self.origin.asked), 1)


if __name__ == "__main__":
    unittest.main()
