"""Messages of HTTP/1.1 on sockets: read whole, with the bytes as they came (RFC 9112)."""
import re
import socket
from collections.abc import Iterable
from dataclasses import dataclass, field
from typing import Any

from common.fields import Fields, lines_of

NO_CONTENT = (204, 304)


class Broken(Exception):
    """The connection ended, or what came is no message."""


@dataclass
class Message:
    """A request or a final response: its first line, its fields in order, its content, and its bytes."""

    first: str
    fields: Fields
    content: bytes = b""
    raw: bytes = b""
    is_last: bool = False
    # What was derived of it.
    notes: dict[str, Any] = field(default_factory=dict, repr=False)

    @property
    def method(self) -> str:
        return self.first.split(" ")[0]

    @property
    def target(self) -> str:
        return self.first.split(" ")[1]

    @property
    def status(self) -> int:
        return int(self.first.split(" ")[1])

    def lines(self, name: str) -> list[str]:
        return lines_of(self.fields, name)

    def options(self) -> list[str]:
        """The connection options, in lower case."""
        return tokens(self.lines("connection"))

    def __str__(self) -> str:
        text = "\n".join([self.first, *(f"{name}: {value}" for name, value in self.fields)])
        return f"{text}\n\n{self.content[:200]!r}" if self.content else text


def tokens(lines: Iterable[str]) -> list[str]:
    return [it.strip(" \t").lower() for line in lines for it in line.split(",") if it.strip(" \t")]


@dataclass
class Stream:
    """Bytes of a socket. `taken` are those of the message that is read."""

    connection: socket.socket
    buffer: bytes = b""
    taken: bytes = field(default=b"", repr=False)

    def more(self) -> bool:
        try:
            piece = self.connection.recv(65536)
        except OSError as error:
            raise Broken(str(error)) from None
        self.buffer += piece
        return bool(piece)

    def exactly(self, length: int) -> bytes:
        while len(self.buffer) < length:
            if not self.more():
                raise Broken(f"{length - len(self.buffer)} bytes are missing")
        found, self.buffer = self.buffer[:length], self.buffer[length:]
        self.taken += found
        return found

    def until(self, mark: bytes) -> bytes:
        while mark not in self.buffer:
            if not self.more():
                raise Broken("closed" if not self.buffer else f"cut off: {self.buffer[:80]!r}")
        return self.exactly(self.buffer.index(mark) + len(mark))

    def rest(self) -> bytes:
        while self.more():
            pass
        return self.exactly(len(self.buffer))

    def chunks(self) -> bytes:
        content = b""
        while size := int(self.until(b"\r\n").split(b";")[0], 16):
            content += self.exactly(size)
            self.exactly(2)
        while self.until(b"\r\n") != b"\r\n":
            pass
        return content

    def head(self) -> Message:
        first, *lines = self.until(b"\r\n\r\n")[:-4].decode("latin-1").split("\r\n")
        if not re.search(r"HTTP/1\.[01]", first):
            raise Broken(f"no message: {first[:80]!r}")
        parts = (line.partition(":") for line in lines)
        return Message(first, [(name, value.strip(" \t")) for name, _, value in parts])

    def content(self, message: Message, ends_at_close: bool) -> bytes:
        """The content, by section 6.3."""
        if tokens(message.lines("transfer-encoding"))[-1:] == ["chunked"]:
            return self.chunks()
        lengths = {it for line in message.lines("content-length") for it in tokens([line])}
        if lengths:
            return self.exactly(int(lengths.pop()))
        message.is_last = ends_at_close
        return self.rest() if ends_at_close else b""

    def request(self, on_head=None) -> Message:
        """The next request. `on_head` is called before the content is read."""
        self.taken = b""
        message = self.head()
        if on_head:
            on_head(message)
        message.content, message.raw = self.content(message, False), self.taken
        return message

    def response(self, method: str) -> tuple[list[bytes], Message]:
        """The interim responses, and the final one."""
        interim = []
        while True:
            self.taken = b""
            message = self.head()
            if message.status >= 200:
                break
            interim.append(self.taken)
        if method != "HEAD" and message.status not in NO_CONTENT:
            message.content = self.content(message, True)
        message.raw = self.taken
        message.is_last |= "close" in message.options() or message.first.startswith("HTTP/1.0")
        return interim, message


def written(message: Message, delimits: bool = True) -> bytes:
    """The bytes of a message; with `delimits` it states the length of its content, as its fields don't."""
    lines = [message.first, *(f"{name}: {value}" for name, value in message.fields)]
    if delimits:
        lines.append(f"Content-Length: {len(message.content)}")
    return "\r\n".join([*lines, "", ""]).encode("latin-1") + message.content
