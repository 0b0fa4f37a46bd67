"""What an origin server sends without a request, on a connection that is kept: at once, or once the response was read.

"If a client receives data on a connection that does not have outstanding requests, the client SHOULD NOT consider that
data to be a valid response; the client SHOULD close the connection" (RFC 9112, section 9.2). So each request gets its
own answer, or none.
"""
import contextlib
import itertools
import socket
import threading
import time
from dataclasses import dataclass, field
from pathlib import Path

import gateways
from common.part import Context, Part
from common.processes import Missing
from gateways import Gateway

FIRST_PORT = 18588
# After how many seconds an origin sends what nobody asked for, and how long a client waits before it asks again.
LATE, PAUSE = 0.3, 1.0
UNASKED = b"HTTP/1.1 200 OK\r\nContent-Length: 7\r\nCache-Control: no-store\r\n\r\nunasked"
# For each way its name, the request that comes first (its path is the way and a number), and the section that makes
# what follows no response.
WAYS = [
    ("late", "GET", b"", "9.2"), ("behind", "GET", b"", "9.2"), ("head", "HEAD", b"", "6.3"),
    ("none", "GET", b"", "6.3"), ("not-modified", "GET", b"", "6.3"),
    # The origin takes the content of a request for the next one.
    ("ignored", "POST", b"GET /unasked HTTP/1.1\r\nHost: a\r\n\r\n", "6.3"),
]


# What a client may get.
RIGHT = {"its own", "none"}


def own(number: int) -> bytes:
    return b"own %d" % number


def response(content: bytes, status: int = 200) -> bytes:
    lines = f"HTTP/1.1 {status} X\r\nCache-Control: no-store\r\n"
    return (lines + ("" if status == 204 else f"Content-Length: {len(content)}\r\n") + "\r\n").encode()


class Origin(threading.Thread):
    """An origin that answers each request by what its path names, and `/plain/N` as it should."""

    def __init__(self, port: int) -> None:
        super().__init__(daemon=True)
        self.listener = socket.create_server(("127.0.0.1", port), backlog=64)

    def run(self) -> None:
        with contextlib.suppress(OSError):
            while True:
                connection, _ = self.listener.accept()
                threading.Thread(target=self.serve, args=(connection,), daemon=True).start()

    def serve(self, connection: socket.socket) -> None:
        with connection, connection.makefile("rb") as lines, contextlib.suppress(OSError, ValueError, IndexError):
            while head := b"".join(iter(lines.readline, b"\r\n")):
                path = head.split(b" ")[1].decode()
                way, _, number = path.removeprefix("/").partition("/")
                length = [int(it.partition(b":")[2]) for it in head.lower().split(b"\r\n")
                          if it.startswith(b"content-length:")]
                if length and way != "ignored":
                    lines.read(length[0])
                for piece in self.pieces(way, int(number or 0)):
                    connection.sendall(piece)

    def pieces(self, way: str, number: int):
        """The bytes that are sent, some of them late."""
        content = own(number)
        if way == "unasked":
            yield UNASKED
        elif way in ("head", "none", "not-modified"):
            yield response(UNASKED, {"head": 200, "none": 204, "not-modified": 304}[way])
            time.sleep(LATE)
            yield UNASKED
        elif way == "behind":
            yield response(content) + content + UNASKED
        else:
            yield response(content) + content
            if way == "late":
                time.sleep(LATE)
                yield UNASKED


@dataclass
class Client:
    """A connection to a gateway, on which requests are made one after another."""

    port: int
    connection: socket.socket = field(init=False)

    def __post_init__(self) -> None:
        self.connection = socket.create_connection(("127.0.0.1", self.port), timeout=4)

    def ask(self, method: str, path: str, content: bytes = b"") -> bytes:
        """What comes, until nothing more does for a while; nothing if the connection has ended."""
        length = b"Content-Length: %d\r\n" % len(content) if content else b""
        found = b""
        with contextlib.suppress(OSError):
            self.connection.sendall(f"{method} {path} HTTP/1.1\r\nHost: a\r\n".encode() + length + b"\r\n" + content)
            while piece := self.connection.recv(65536):
                found += piece
                self.connection.settimeout(0.2)
        self.connection.settimeout(4)
        return found

    def close(self) -> None:
        self.connection.close()


def outcome(found: bytes, number: int) -> str:
    if b"unasked" in found:
        return "the unasked one"
    return "its own" if own(number) in found else "that of another request" if b"own " in found else "none"


@dataclass
class Outcome:
    """What the same client gets for two more requests, and what another one gets."""

    same: list[str]
    other: str

    def __str__(self) -> str:
        return f"{self.same[0]}, {self.same[1]}; {self.other}"


def outcomes_of(gateway: Gateway, place: int, work: Path) -> list[Outcome]:
    port, origin = FIRST_PORT + 2 * place, FIRST_PORT + 2 * place + 1
    Origin(origin).start()
    found, numbers = [], itertools.count(1)
    with gateway.running(port, origin, work):
        for way, method, content, _ in WAYS:
            first = Client(port)
            first.ask(method, f"/{way}/{next(numbers)}", content)
            time.sleep(PAUSE)
            same = []
            for _ in range(2):
                number = next(numbers)
                same.append(outcome(first.ask("GET", f"/plain/{number}"), number))
            second, number = Client(port), next(numbers)
            found.append(Outcome(same, outcome(second.ask("GET", f"/plain/{number}"), number)))
            first.close()
            second.close()
    return found


def run(context: Context) -> Part:
    part = Part("Bytes that nobody asked for")
    asked = [gateways.OURS, *gateways.OTHERS]
    rows: list[list[object]] = []
    for place, gateway in enumerate(asked):
        try:
            found = outcomes_of(gateway, place, context.work)
        except Missing as error:
            part.missing.append(f"{gateway.name}: {error}")
            continue
        rows.append([gateway.title(), *found])
        same = sum(not {*it.same} <= RIGHT for it in found)
        other = [f"{way}: another client gets {it.other}" for (way, *_), it in zip(WAYS, found) if it.other not in RIGHT]
        part.counts.append(f"{gateway.title()}: {same} of {len(WAYS)} taken for an answer to the same client (SHOULD NOT), "
                           f"{len(other)} to another one")
        if gateway is gateways.OURS:
            part.faults += other
    part.section += [
        "An origin server sends a second response that nobody asked for: late, or right behind the first; as the content",
        "of a HEAD, a 204 or a 304, which have none; or since it takes the content of a request for the next request. A",
        "client then makes two more requests on its connection, and another client makes one: what each of the three",
        "gets. A gateway should close such a connection to the origin (RFC 9112, sections 6.3 and 9.2). Of ours each",
        "client has [one of its own](../../hosts/GATEWAY.md).", ""]
    part.table(["Gateway", *(way for way, *_ in WAYS)], rows)
    return part
