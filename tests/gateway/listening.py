"""The gateway as it listens by itself: what each connection is started with, and what the origin server learns."""
import contextlib
import http.client
import os
import socket
import subprocess
import threading
import time
from collections.abc import Callable, Iterator
from pathlib import Path

from common import processes
from common.part import Context, Part

FIRST_PORT = 18580
REQUEST = b"GET / HTTP/1.1\r\nHost: a\r\nConnection: close\r\n\r\n"
# Targets that no request has (RFC 9112, section 3.2; RFC 3986, section 4.3).
TARGETS = [b"/a#b", b"http://b#/x", b"http://b/x#y", b"/\xc3\xa9", b"http://b/\xff"]


# What an origin sends unasked, and how many bytes /long has.
UNASKED = b"HTTP/1.1 200 OK\r\nContent-Length: 7\r\n\r\nunasked"
LONG = 32_000


class Origin(threading.Thread):
    """An origin that answers each request with the head that it received. Its connection ends after /last, and its
    answer doesn't say so. It sends another answer unasked, with that to /more and some time after that to /later."""

    def __init__(self, port: int) -> None:
        super().__init__(daemon=True)
        self.listener = socket.create_server(("127.0.0.1", port))

    def run(self) -> None:
        while True:
            connection, _ = self.listener.accept()
            threading.Thread(target=self.serve, args=(connection,), daemon=True).start()

    def serve(self, connection: socket.socket) -> None:
        with connection, connection.makefile("rb") as lines, contextlib.suppress(ConnectionError):
            while head := b"".join(iter(lines.readline, b"\r\n")):
                content = head.ljust(LONG) if b" /long " in head else head
                answer = b"HTTP/1.1 200 OK\r\nContent-Length: %d\r\n\r\n" % len(content) + content
                connection.sendall(answer + (UNASKED if b" /more " in head else b""))
                if b" /later " in head:
                    time.sleep(0.3)
                    connection.sendall(UNASKED)
                if b" /last " in head:
                    return


@contextlib.contextmanager
def listening(port: int, origin: int, work: Path, *words: str) -> Iterator[None]:
    """The gateway as its manual starts it, by a user whose shell has a profile that prints a line."""
    home = work / "home"
    home.mkdir(exist_ok=True)
    for name in (".bashrc", ".profile", ".bash_profile", "env"):
        (home / name).write_text("echo INJECTED\n")
    cache = os.environ.get("XDG_CACHE_HOME", str(Path.home() / ".cache"))  # which has the program
    environment = {**processes.environment(), "HOME": str(home), "XDG_CACHE_HOME": cache,
                   "BASH_ENV": str(home / "env"), "PORT": str(port)}
    environment.pop("SHLVL", None)
    with open(work / f"{port}.log", "wb") as log:
        process = subprocess.Popen([os.environ["GATE"], *words, f"127.0.0.1:{origin}"], stdin=subprocess.DEVNULL,
                                   stdout=log, stderr=log, cwd=work, env=environment, start_new_session=True)
    try:
        for _ in range(150):
            with contextlib.suppress(OSError), socket.create_connection(("127.0.0.1", port), timeout=3):
                break
            time.sleep(0.1)
        yield
    finally:
        processes.end(process)


def answer(port: int, request: bytes = REQUEST, source: str = "127.0.0.1") -> str:
    """What a client at that address gets until the connection ends, in lower case."""
    with socket.create_connection(("127.0.0.1", port), timeout=20, source_address=(source, 0)) as connection:
        connection.sendall(request)
        return b"".join(iter(lambda: connection.recv(65536), b"")).decode("latin-1").lower()


def field(name: str, text: str) -> list[str]:
    """The values of a field that the origin received."""
    return [line.partition(":")[2].strip() for line in text.split("\r\n") if line.startswith(name + ":")]


def after(target: bytes, port: int, request: bytes, beside: Callable[[], None] = lambda: None) -> bytes:
    """What a client gets for a request that it sends a second after it got the answer for a target. What is beside it
    comes in between."""
    with socket.create_connection(("127.0.0.1", port), timeout=20) as connection:
        connection.sendall(b"GET %s HTTP/1.1\r\nHost: a\r\n\r\n" % target)
        found = b""
        while b"get " + target not in found.lower() and (piece := connection.recv(65536)):
            found += piece
        time.sleep(1)
        beside()
        found = b""
        with contextlib.suppress(ConnectionError):
            connection.sendall(request)
            while piece := connection.recv(65536):
                found += piece
        return found


def quickest(port: int, target: str) -> float:
    """How many seconds the quickest answer over a connection takes, once twenty came. If the ends of answers wait for
    acknowledgements, each takes 0.04: the first ones are acknowledged at once."""
    connection, times = http.client.HTTPConnection("127.0.0.1", port, timeout=20), []
    for _ in range(60):
        begun = time.monotonic()
        connection.request("GET", target)
        connection.getresponse().read()
        times.append(time.monotonic() - begun)
    connection.close()
    return min(times[20:])


def run(context: Context) -> Part:
    part = Part("Listening")
    Origin(FIRST_PORT).start()
    with listening(FIRST_PORT + 1, FIRST_PORT, context.work):
        part.want("the first bytes with a profile that prints a line", answer(FIRST_PORT + 1)[:12], "http/1.1 200")
    with listening(FIRST_PORT + 2, FIRST_PORT, context.work, "--x-forwarded", "--forwarded"):
        for source in ("127.0.0.1", "127.0.0.2"):
            text = answer(FIRST_PORT + 2, source=source)
            part.want(f"X-Forwarded-For of {source}", field("x-forwarded-for", text), [source])
            part.want(f"Forwarded of {source}", field("forwarded", text), [f"for={source};proto=http"])
    # Two gateways in a row have names of their own, and one before itself knows its own.
    with listening(FIRST_PORT + 3, FIRST_PORT, context.work), listening(FIRST_PORT + 4, FIRST_PORT + 3, context.work):
        part.want("through two gateways", answer(FIRST_PORT + 4)[:12], "http/1.1 200")
    with listening(FIRST_PORT + 5, FIRST_PORT + 5, context.work):
        part.want("through a gateway before itself", answer(FIRST_PORT + 5)[:12], "http/1.1 508")
    with listening(FIRST_PORT + 6, FIRST_PORT, context.work):
        for target in TARGETS:
            found = answer(FIRST_PORT + 6, b"GET %s HTTP/1.1\r\nHost: a\r\n\r\n" % target)
            part.want(f"the target {target!r}", found[:12], "http/1.1 400")
        post = b"POST / HTTP/1.1\r\nHost: a\r\nContent-Length: 5\r\nConnection: close\r\n\r\nhello"
        for request in (REQUEST, post):
            found = after(b"/last", FIRST_PORT + 6, request)
            part.want(f"{request[:4]!r} after the origin ended its connection", found[:12], b"HTTP/1.1 200")
        # (RFC 9112, section 9.2: what comes unasked is no response)
        for target in (b"/more", b"/later"):
            found = []
            last = after(target, FIRST_PORT + 6, REQUEST, lambda: found.append(answer(FIRST_PORT + 6)))
            for text in (*found, last.decode("latin-1").lower()):
                part.want(f"the answer after {target!r}", "get / http" in text and "unasked" not in text, True)
        for target in ("/", "/long"):
            part.want(f"{target} over a kept connection doesn't wait", quickest(FIRST_PORT + 6, target) < 0.03, True)
    return part
