"""A small HTTP/1.1 server that shows each request's lines as they came, and sends just the lines that it is told."""

import asyncio
import functools
from collections.abc import Callable, Iterable
from dataclasses import dataclass, field
from types import TracebackType

# Names and values as they came, without white space around the values.
ByteFields = list[tuple[bytes, bytes]]


@dataclass
class Request:
    method: bytes
    target: bytes
    version: bytes
    fields: ByteFields
    body: bytes
    port: int

    def get(self, name: bytes) -> list[bytes]:
        """The values of a field, in order."""
        return lines_of(self.fields, name)

    @property
    def path(self) -> str:
        return self.target.decode("latin-1").partition("?")[0]


@dataclass
class Response:
    status: int
    fields: ByteFields = field(default_factory=list)
    body: bytes = b""
    close: bool = False


def lines_of(fields: Iterable[tuple[bytes, bytes]], name: bytes) -> list[bytes]:
    return [value for other, value in fields if other.lower() == name.lower()]


def section(fields: Iterable[tuple[bytes, bytes]]) -> bytes:
    """The fields as a header section, as the library takes it."""
    return b"".join(name + b": " + value + b"\n" for name, value in fields)


async def read_request(reader: asyncio.StreamReader, port: int) -> Request | None:
    """The next request, or `None` at the end of the connection."""
    try:
        head = await reader.readuntil(b"\r\n\r\n")
    except (asyncio.IncompleteReadError, ConnectionError, asyncio.LimitOverrunError):
        return None
    first, *rest = head[:-4].split(b"\r\n")
    method, target, version = first.split(b" ")
    fields = []
    for line in rest:
        name, _, value = line.partition(b":")
        fields.append((name, value.strip(b" \t")))
    request = Request(method, target, version, fields, b"", port)
    if request.get(b"transfer-encoding"):
        while True:
            size = int((await reader.readuntil(b"\r\n")).split(b";")[0], 16)
            request.body += (await reader.readexactly(size + 2))[:-2]
            if size == 0:
                break
    elif request.get(b"content-length"):
        request.body = await reader.readexactly(int(request.get(b"content-length")[0]))
    return request


def serialize(response: Response, method: bytes) -> bytes:
    head = b"HTTP/1.1 %d X\r\n" % response.status
    for name, value in response.fields:
        head += name + b": " + value + b"\r\n"
    bodiless = response.status in (204, 304) or response.status < 200
    if not bodiless and not any(name.lower() == b"content-length" for name, _ in response.fields):
        head += b"Content-Length: %d\r\n" % len(response.body)
    if response.close:
        head += b"Connection: close\r\n"
    head += b"\r\n"
    return head if bodiless or method == b"HEAD" else head + response.body


class Server:
    """Serves ports of 127.0.0.1. `answer` makes the response to a request."""

    def __init__(self, ports: Iterable[int], answer: Callable[[Request], Response]) -> None:
        self.ports, self.answer = list(ports), answer
        self.servers: list[asyncio.Server] = []

    async def __aenter__(self) -> "Server":
        for port in self.ports:
            serve = functools.partial(self.serve, port)
            self.servers.append(await asyncio.start_server(serve, "127.0.0.1", port))
        return self

    async def __aexit__(self, *_: type[BaseException] | BaseException | TracebackType | None) -> None:
        for server in self.servers:
            server.close()

    async def serve(self, port: int, reader: asyncio.StreamReader, writer: asyncio.StreamWriter) -> None:
        try:
            while (request := await read_request(reader, port)) is not None:
                response = self.answer(request)
                writer.write(serialize(response, request.method))
                await writer.drain()
                if response.close:
                    break
        except (ConnectionError, asyncio.IncompleteReadError, ValueError):
            pass
        finally:
            writer.close()
