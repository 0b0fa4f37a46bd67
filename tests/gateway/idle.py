"""An origin server that ends a connection between two requests of a client.

If it ends one that is idle, the gateway sees that, and the next request goes out over a new one. If it ends one as the
next request comes, without a byte of an answer, the request is sent again, once, over a new connection, if its method is
idempotent and no content of it was sent (RFC 9112, section 9.3.1; RFC 9110, section 9.2.2). For another one it is 502.
"""
import contextlib
import random
import re
import socket
import struct
import threading
import time

from common.part import Context, Part
from listening import listening

FIRST_PORT = 18570
IDLE = 0.2
PAUSE = 0.4
CONTENT = random.Random(9112).randbytes(65_537)
AGAIN = ("GET", "HEAD", "DELETE", "PUT", "OPTIONS", "TRACE")
# Requests that aren't sent again.
OTHERS = [("POST", b"Content-Length: 0\r\n", b""), ("POST", b"Content-Length: 5\r\n", b"hello"),
          ("PUT", b"Content-Length: 65537\r\n", CONTENT),
          ("PUT", b"Transfer-Encoding: chunked\r\n", b"5\r\nhello\r\n0\r\n\r\n")]


class Origin(threading.Thread):
    """An origin that ends each connection once it was idle after an answer, or if it is sudden when the second request
    comes; and at once instead of an answer to /never. It tells what it was asked on which connection."""

    def __init__(self, port: int, is_sudden: bool = False) -> None:
        super().__init__(daemon=True)
        self.is_sudden = is_sudden
        self.listener = socket.create_server(("127.0.0.1", port), backlog=64)
        self.asked: list[tuple[int, str, bytes]] = []

    def run(self) -> None:
        for number in range(10**6):
            connection, _ = self.listener.accept()
            threading.Thread(target=self.serve, args=(number, connection), daemon=True).start()

    def serve(self, number: int, connection: socket.socket) -> None:
        with connection, connection.makefile("rb") as lines, contextlib.suppress(OSError):
            for turn in range(10**6):
                head = b"".join(iter(lambda: lines.readline() or b"\r\n", b"\r\n"))
                if head.count(b" ") < 2:
                    return
                method, target, _ = head.split(b" ", 2)
                length = re.search(rb"content-length: (\d+)", head.lower())
                is_last = target == b"/never" or self.is_sudden and turn == 1
                content = lines.read(int(length[1])) if length and not is_last else b""
                self.asked.append((number, target.decode(), content))
                if is_last:
                    return
                head, content = b"HTTP/1.1 200 OK\r\nContent-Length: %d\r\n\r\n" % (len(target) + 2), target + b"\r\n"
                connection.sendall(head if method == b"HEAD" else head + content)
                connection.settimeout(None if self.is_sudden else IDLE)

    def told(self, target: str) -> list[bytes]:
        """The content of each request that it got for a target."""
        return [it[2] for it in self.asked if it[1] == target]


def request(method: str, target: str, fields: bytes = b"", content: bytes = b"") -> bytes:
    return f"{method} {target} HTTP/1.1\r\nHost: a\r\n".encode() + fields + b"\r\n" + content


def put(target: str, content: bytes) -> bytes:
    return request("PUT", target, b"Content-Length: %d\r\n" % len(content), content)


def status_and_content(found: bytes) -> list[str]:
    """The statuses and the contents in a text, and a bar if the connection ended after it."""
    lines = found.decode().replace("|", "\r\n|").split("\r\n")
    return [it.removeprefix("HTTP/1.1 ")[:3] if it.startswith("HTTP/1.1 ") else it
            for it in lines if it.startswith(("HTTP/1.1 ", "/", "|"))]


def heard(connection: socket.socket, count: int) -> list[str]:
    """What a client gets until so much has come, and nothing follows for a while, or the connection ends."""
    found, until = b"", time.monotonic() + 20
    while not found.endswith(b"|"):
        whole = len(status_and_content(found)) >= count
        connection.settimeout(0.2 if whole else max(until - time.monotonic(), 0.01))
        try:
            found += connection.recv(65536) or b"|"
        except TimeoutError:
            break
        except ConnectionError:
            found += b"|"
    return status_and_content(found)


class Conversation:
    """A client that was answered once, and pauses."""

    def __init__(self, port: int, pause: float) -> None:
        self.connection = socket.create_connection(("127.0.0.1", port), timeout=20)
        self.ask(0, request("GET", "/first"), 2)
        time.sleep(pause)

    def ask(self, pause: float, text: bytes, count: int) -> list[str]:
        time.sleep(pause)
        with contextlib.suppress(ConnectionError):
            self.connection.sendall(text)
        return heard(self.connection, count)

    def __enter__(self) -> "Conversation":
        return self

    def __exit__(self, *_: object) -> None:
        self.connection.close()


def answered(method: str, target: str) -> list[str]:
    return ["200"] + [target] * (method != "HEAD")


def run_idle(part: Part, port: int, origin: Origin) -> None:
    """Each request is answered, and comes once."""
    def want(what: str, text: bytes, wanted: list[str]) -> None:
        with Conversation(port, PAUSE) as client:
            part.want(f"{what} after {PAUSE} s", client.ask(0, text, len(wanted)), wanted)

    for number, (method, fields, content) in enumerate([*((it, b"", b"") for it in AGAIN), *OTHERS]):
        target = f"/{method}/{number}"
        want(f"{method} with {fields!r}", request(method, target, fields, content), answered(method, target))
        part.want(f"how often {method} came", len(origin.told(target)), 1)
    for size in (0, 1, 65_536):
        want(f"PUT with {size} bytes", put(f"/put/{size}", CONTENT[:size]), ["200", f"/put/{size}"])
        part.want("whether they came once", origin.told(f"/put/{size}") == [CONTENT[:size]], True)
    for part_of, wanted in ((b"lo", ["200", "/parts"]), (b"", ["400", "|"])):
        with Conversation(port, PAUSE) as client:
            client.ask(0, put("/parts", b"hello")[:-2], 0)
            if not part_of:
                client.connection.shutdown(socket.SHUT_WR)
            part.want(f"PUT with {part_of!r} later", client.ask(0, part_of, 2), wanted)
    with Conversation(port, 0) as client:
        found = [client.ask(PAUSE, request("GET", f"/chain{number}"), 2) for number in range(10)]
    part.want("ten connections in a chain", found, [["200", f"/chain{number}"] for number in range(10)])
    part.want("each on one of its own", len({it[0] for it in origin.asked if "/chain" in it[1]}), 10)
    reset = Conversation(port, 0).connection
    reset.setsockopt(socket.SOL_SOCKET, socket.SO_LINGER, struct.pack("ii", 1, 0))
    reset.close()


def run_sudden(part: Part, port: int, origin: Origin) -> None:
    """Some requests are sent again, and others aren't."""
    def want(what: str, text: bytes, wanted: list[str]) -> None:
        with Conversation(port, 0) as client:
            part.want(f"{what} on a connection that ends", client.ask(0, text, len(wanted)), wanted)

    for method in AGAIN:
        want(method, request(method, f"/{method}"), answered(method, f"/{method}"))
        part.want(f"how often {method} came", len(origin.told(f"/{method}")), 2)
    for number, (method, fields, content) in enumerate(OTHERS):
        want(f"{method} with {fields!r}", request(method, f"/not/{number}", fields, content), ["502"])
        part.want(f"how often that {method} came", len(origin.told(f"/not/{number}")), 1)
    want("a request whose second connection ends too", request("GET", "/never"), ["502"])
    part.want("how often that came", len(origin.told("/never")), 2)
    targets = [f"/{number}" for number in range(4)]
    want("requests behind one another", b"".join(request("GET", it) for it in targets),
         [word for it in targets for word in ("200", it)])
    part.want("how often they came", [len(origin.told(it)) for it in targets], [2] * 4)


def run(context: Context) -> Part:
    part = Part("Idle connections")
    # (by one worker, so that each request goes out over the connection that is kept)
    for first, is_sudden, runs in ((FIRST_PORT, False, run_idle), (FIRST_PORT + 2, True, run_sudden)):
        origin = Origin(first, is_sudden)
        origin.start()
        with listening(first + 1, first, context.work, "--workers", "1"):
            runs(part, first + 1, origin)
    return part
