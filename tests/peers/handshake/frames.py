"""Frames of RFC 6455, as much as an echo needs, and a server whose handshakes ours decides."""
import asyncio
import os
import struct
from dataclasses import dataclass

from common.server import ByteFields, Request, read_request
from handshake import ours


async def read_frame(reader: asyncio.StreamReader) -> tuple[int, bool, bytes]:
    """Opcode, whether it is the last of its message, and the bytes."""
    first, second = await reader.readexactly(2)
    length = second & 127
    if length == 126:
        (length,) = struct.unpack(">H", await reader.readexactly(2))
    elif length == 127:
        (length,) = struct.unpack(">Q", await reader.readexactly(8))
    mask = await reader.readexactly(4) if second & 128 else None
    data = await reader.readexactly(length)
    if mask:
        data = bytes(b ^ mask[i % 4] for i, b in enumerate(data))
    if first & 0x70:
        raise ValueError("an extension that wasn't agreed on")
    return first & 15, bool(first & 128), data


def frame(opcode: int, data: bytes, is_masked: bool = False) -> bytes:
    head = bytes([128 | opcode])
    bit = 128 if is_masked else 0
    if len(data) < 126:
        head += bytes([bit | len(data)])
    elif len(data) < 65536:
        head += bytes([bit | 126]) + struct.pack(">H", len(data))
    else:
        head += bytes([bit | 127]) + struct.pack(">Q", len(data))
    if is_masked:
        mask = os.urandom(4)
        return head + mask + bytes(b ^ mask[i % 4] for i, b in enumerate(data))
    return head + data


async def echo(reader: asyncio.StreamReader, writer: asyncio.StreamWriter) -> None:
    kind, message = 0, b""
    while True:
        opcode, last, data = await read_frame(reader)
        if opcode == 8:
            writer.write(frame(8, data))
            await writer.drain()
            return
        if opcode == 9:
            writer.write(frame(10, data))
        elif opcode in (0, 1, 2):
            kind = opcode or kind
            message += data
            if last:
                writer.write(frame(kind, message))
                kind, message = 0, b""
        await writer.drain()


@dataclass
class Decided:
    """A request that came, and what ours answered."""

    request: Request
    status: int
    fields: ByteFields


def has_control(fields: ByteFields) -> bool:
    """Whether a value has a control byte: the reader of a message rejects it (RFC 9110, section 5.5)."""
    return any(byte < 0x20 and byte != 0x09 or byte == 0x7F for _, value in fields for byte in value)


class EchoServer:
    """Answers handshakes as ours does, and echoes what comes after a 101."""

    def __init__(self, port: int, own: list[bytes]) -> None:
        self.port, self.own, self.decided = port, own, list[Decided]()

    async def __aenter__(self) -> "EchoServer":
        self.server = await asyncio.start_server(self.serve, "127.0.0.1", self.port)
        return self

    async def __aexit__(self, *_: object) -> None:
        self.server.close()

    async def answer(self, request: Request) -> tuple[int, ByteFields]:
        if has_control(request.fields):
            return 400, []
        loop = asyncio.get_running_loop()
        return await loop.run_in_executor(
            None, ours.accept, self.own, request.method, request.version, request.fields)

    async def serve(self, reader: asyncio.StreamReader, writer: asyncio.StreamWriter) -> None:
        try:
            request = await asyncio.wait_for(read_request(reader, self.port), 20)
            if request is None:
                return
            status, fields = await self.answer(request)
            self.decided.append(Decided(request, status, fields))
            head = b"HTTP/1.1 %d X\r\n" % status + b"".join(name + b": " + value + b"\r\n" for name, value in fields)
            writer.write(head + (b"" if status == 101 else b"content-length: 0\r\n") + b"\r\n")
            await writer.drain()
            if status == 101:
                await asyncio.wait_for(echo(reader, writer), 60)
        except (ConnectionError, asyncio.IncompleteReadError, asyncio.TimeoutError, ValueError):
            pass
        finally:
            writer.close()
