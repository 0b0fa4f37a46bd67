"""An origin with a path for each way in which a response may be framed, sent and cut.

    origin.py PORT FOLDER

`/f/N` is N bytes, in FOLDER too. `/zeros/length/N` and `/zeros/chunks/N` are N zeros. `/echo` says what was received.
"""
import asyncio
import hashlib
import json
import sys
from pathlib import Path

FOLDER = Path(sys.argv[2])
CRLF = b"\r\n"
ZEROS = bytes(65536)


def content_of(length: int) -> bytes:
    return (FOLDER / "f" / str(length)).read_bytes()


async def read_head(reader: asyncio.StreamReader) -> tuple[str, str, list[tuple[str, str]]]:
    head = (await reader.readuntil(b"\r\n\r\n")).decode("latin-1").split("\r\n")
    method, target, _ = head[0].split(" ")
    fields = [(name.lower(), value.strip(" \t")) for name, _, value in (it.partition(":") for it in head[1:] if it)]
    return method, target, fields


async def read_content(reader: asyncio.StreamReader, fields: dict[str, str]) -> tuple[int, str, list[str], bytes]:
    """How long the content is, its sum, the trailer fields, and how the content begins."""
    length, total, trailers, front = 0, hashlib.sha256(), [], b""
    if fields.get("transfer-encoding", "").lower() == "chunked":
        while size := int((await reader.readuntil(CRLF)).split(b";")[0], 16):
            piece = (await reader.readexactly(size + 2))[:-2]
            total.update(piece)
            length, front = length + size, (front + piece)[:10000]
        while line := (await reader.readuntil(CRLF))[:-2]:
            trailers.append(line.decode("latin-1"))
    else:
        left = int(fields.get("content-length", "0"))
        while left:
            piece = await reader.read(min(left, 65536))
            if not piece:
                raise asyncio.IncompleteReadError(b"", left)
            total.update(piece)
            length, left, front = length + len(piece), left - len(piece), (front + piece)[:10000]
    return length, total.hexdigest(), trailers, front


def chunked(content: bytes, size: int = 1000) -> bytes:
    pieces = [content[at:at + size] for at in range(0, len(content), size)]
    return b"".join(b"%x\r\n" % len(it) + it + CRLF for it in pieces) + b"0\r\n"


def head(status: int, *lines: str, version: str = "1.1") -> bytes:
    fields = ["Date: Sun, 06 Nov 1994 08:49:37 GMT", *lines]
    return f"HTTP/{version} {status} X\r\n{''.join(it + chr(13) + chr(10) for it in fields)}\r\n".encode("latin-1")


def sized(status: int, content: bytes, *lines: str) -> bytes:
    return head(status, f"Content-Length: {len(content)}", *lines) + content


async def send_zeros(form: str, length: int, writer: asyncio.StreamWriter) -> None:
    """A response of zeros, piece by piece, by its length or in chunks."""
    is_chunked = form == "chunks"
    writer.write(head(200, "Transfer-Encoding: chunked" if is_chunked else f"Content-Length: {length}"))
    while length:
        piece = ZEROS[:length]
        writer.write(b"%x\r\n" % len(piece) + piece + CRLF if is_chunked else piece)
        await writer.drain()
        length -= len(piece)
    if is_chunked:
        writer.write(b"0\r\n\r\n")


# Responses to any request, and whether the connection ends after them.
FIXED = {
    "/chunked": (head(200, "Transfer-Encoding: chunked") + chunked(b"x" * 5000) + CRLF, False),
    "/chunk-extensions": (head(200, "Transfer-Encoding: chunked") + b'5;a=b;c="d;e"\r\nhello\r\n0;f\r\n\r\n', False),
    "/trailers": (head(200, "Transfer-Encoding: chunked", "Trailer: Server-Timing")
                  + chunked(b"hello") + b"Server-Timing: a\r\nServer-Timing: b\r\n\r\n", False),
    "/close": (head(200, "Connection: close") + b"y" * 5000, True),
    "/http10": (head(200, version="1.0") + b"y" * 5000, True),
    "/http10-length": (head(200, "Content-Length: 5", version="1.0") + b"hello", True),
    "/empty": (sized(200, b""), False),
    "/lines": (sized(200, b"ok", "Set-Cookie: a=1", "X-One: 1", "Set-Cookie: b=2; Path=/", "X-One: 2", "X-Empty:"),
               False),
    "/connection": (sized(200, b"ok", "Connection: X-Hop", "X-Hop: 1", "Keep-Alive: timeout=5", "X-Stays: 1"), False),
    "/undated": (b"HTTP/1.1 200 OK\r\nContent-Length: 2\r\n\r\nok", False),
    "/hints": (b"HTTP/1.1 103 Early Hints\r\nLink: </a.css>\r\n\r\n" + sized(200, b"ok"), False),
    "/interim": (b"HTTP/1.1 102 Processing\r\n\r\nHTTP/1.1 103 Early Hints\r\nLink: </b>\r\n\r\n"
                 + sized(200, b"ok"), False),
    "/length-beside-no-content": (head(204, "X-One: 1"), False),
    "/not-modified": (head(304, 'ETag: "a"', "Content-Length: 5000"), False),
    "/cut-length": (head(200, "Content-Length: 100") + b"z" * 50, True),
    "/cut-chunk": (head(200, "Transfer-Encoding: chunked") + b"64\r\n" + b"z" * 50, True),
    "/cut-chunks": (head(200, "Transfer-Encoding: chunked") + b"5\r\nhello\r\n", True),
    "/cut-head": (b"HTTP/1.1 200 OK\r\nContent-Le", True),
    "/nothing": (b"", True),
    "/both": (head(200, "Content-Length: 5", "Transfer-Encoding: chunked") + chunked(b"hello") + CRLF, True),
    "/two-lengths": (head(200, "Content-Length: 5", "Content-Length: 6") + b"hello", True),
    "/bad-length": (head(200, "Content-Length: +5") + b"hello", True),
    "/bad-chunk": (head(200, "Transfer-Encoding: chunked") + b"0x5\r\nhello\r\n0\r\n\r\n", True),
    "/coding": (head(200, "Transfer-Encoding: xchunked") + b"hello", True),
    "/blank-before-colon": (head(200, "X-One : 1", "Content-Length: 5") + b"hello", True),
    "/no-http": (b"hello\r\n\r\n", True),
}


async def answer(method: str, target: str, fields: list[tuple[str, str]], reader: asyncio.StreamReader,
                 writer: asyncio.StreamWriter) -> bool:
    """Answers a request. Returns whether the connection ends."""
    path, by_name = target.partition("?")[0], dict(fields)
    if path == "/early":
        writer.write(sized(413, b"no", "Connection: close"))
        return True
    if by_name.get("expect", "").lower() == "100-continue":
        writer.write(b"HTTP/1.1 100 Continue\r\n\r\n")
        await writer.drain()
    length, total, trailers, front = await read_content(reader, by_name)
    if path in FIXED:
        response, ends = FIXED[path]
        # (no response here to a request that may be HEAD has an interim one before it)
        writer.write(response[:response.find(b"\r\n\r\n") + 4] if method == "HEAD" else response)
        return ends
    if path == "/told":
        (FOLDER / "told").write_bytes(front)
        writer.write(sized(200, b""))
        return False
    if path.startswith("/zeros/"):
        form, length = path.split("/")[2:]
        await send_zeros(form, int(length), writer)
        return False
    if path == "/slow":
        writer.write(head(200, "Content-Length: 50"))
        for _ in range(5):
            writer.write(b"0123456789")
            await writer.drain()
            await asyncio.sleep(0.1)
        return False
    if path == "/echo":
        told = {"method": method, "target": target, "fields": fields, "length": length, "sum": total,
                "trailers": trailers}
        status, content, lines = 200, json.dumps(told).encode(), ["Content-Type: application/json"]
    elif path.startswith("/status/"):
        status = int(path.rpartition("/")[2])
        content, lines = b"" if status in (204, 304) else b"status", ["X-Status: 1"]
        if not content:
            writer.write(head(status, *lines))
            return False
    elif path == "/":
        status, content, lines = 200, b"here\n", ["Content-Type: text/plain"]
    elif path == "/page.html":
        status, content, lines = 200, (FOLDER / "page.html").read_bytes(), ["Content-Type: text/html"]
    elif path.startswith("/f/") and (FOLDER / path[1:]).exists():
        tag = f'"{path[3:]}"'
        status, content, lines = 200, content_of(int(path[3:])), [f"ETag: {tag}", "Accept-Ranges: none"]
        if by_name.get("if-none-match") == tag:
            writer.write(head(304, f"ETag: {tag}"))
            return False
    else:
        status, content, lines = 404, b"no such path\n", []
    response = sized(status, content, *lines)
    writer.write(response[:len(response) - len(content)] if method == "HEAD" else response)
    return False


async def serve(reader: asyncio.StreamReader, writer: asyncio.StreamWriter) -> None:
    try:
        while True:
            method, target, fields = await read_head(reader)
            ends = await answer(method, target, fields, reader, writer)
            await writer.drain()
            if ends or dict(fields).get("connection", "").lower() == "close":
                break
    except (asyncio.IncompleteReadError, asyncio.LimitOverrunError, ConnectionError, ValueError):
        pass
    finally:
        writer.close()


async def main() -> None:
    server = await asyncio.start_server(serve, "127.0.0.1", int(sys.argv[1]), limit=1 << 20)
    await server.serve_forever()


asyncio.run(main())
