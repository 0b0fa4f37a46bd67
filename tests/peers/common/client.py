"""A client of HTTP/1.1 that sends field lines as they are, and reads one response to its end."""
import socket
from collections.abc import Iterable, Sequence
from dataclasses import dataclass

from common.fields import Fields

# What a server that breaks off, or answers no HTTP, raises here.
FAILURES = (OSError, EOFError, ValueError, IndexError)


@dataclass
class Response:
    status: int
    fields: Fields
    body: bytes

    def get(self, name: str) -> str | None:
        return next((value for other, value in self.fields if other == name), None)


class Reader:
    """Reads from a socket up to a mark, or so many bytes."""

    def __init__(self, connection: socket.socket) -> None:
        self.connection, self.buffer = connection, b""

    def more(self) -> bool:
        piece = self.connection.recv(65536)
        self.buffer += piece
        return bool(piece)

    def until(self, mark: bytes) -> bytes:
        while mark not in self.buffer:
            if not self.more():
                raise EOFError(self.buffer[:200])
        found, _, self.buffer = self.buffer.partition(mark)
        return found

    def exactly(self, length: int) -> bytes:
        while len(self.buffer) < length:
            if not self.more():
                raise EOFError(self.buffer[:200])
        found, self.buffer = self.buffer[:length], self.buffer[length:]
        return found

    def rest(self, length: int | None) -> bytes:
        """So many bytes, or fewer if the connection ends; without a length all up to the end."""
        while (length is None or len(self.buffer) < length) and self.more():
            pass
        return self.buffer[:length]

    def chunks(self) -> bytes:
        body = b""
        while size := int(self.until(b"\r\n").split(b";")[0], 16):
            body += self.exactly(size + 2)[:-2]
        return body

    def head(self) -> tuple[int, Fields]:
        """Status and fields of the final response."""
        while True:
            first, *lines = self.until(b"\r\n\r\n").decode("latin-1").split("\r\n")
            status = int(first.split(" ", 2)[1])
            if status >= 200:
                parts = (line.partition(":") for line in lines)
                return status, [(name.lower(), value.strip(" \t")) for name, _, value in parts]


def ask(port: int, method: str, target: str, fields: Iterable[Sequence[str]], body: bytes | None = None,
        timeout: float = 20) -> Response:
    """Sends a request with these field lines, a Host and `Connection: close`."""
    lines = [("Host", "localhost"), *fields, ("Connection", "close")]
    if body is not None:
        lines.append(("Content-Length", str(len(body))))
    head = f"{method} {target} HTTP/1.1\r\n" + "".join(f"{name}: {value}\r\n" for name, value in lines) + "\r\n"
    with socket.create_connection(("127.0.0.1", port), timeout=timeout) as connection:
        connection.sendall(head.encode("latin-1") + (body or b""))
        reader = Reader(connection)
        response = Response(*reader.head(), b"")
        if method == "HEAD" or response.status in (204, 304):
            return response
        if (response.get("transfer-encoding") or "").lower() == "chunked":
            response.body = reader.chunks()
        else:
            length = response.get("content-length")
            response.body = reader.rest(None if length is None else int(length))
        return response
