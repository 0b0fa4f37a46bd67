"""The answers of `decide_handshake`, by the library for C."""
from collections.abc import Iterable

from common import products
from common.server import ByteFields

headers = products.library()
VERSIONS = {b"HTTP/0.9": 9, b"HTTP/1.0": 10, b"HTTP/1.1": 11, b"HTTP/2": 20, b"HTTP/3": 30}


def section(fields: ByteFields) -> bytes:
    return b"".join(name + b": " + value + b"\r\n" for name, value in fields)


def in_bytes(fields: Iterable[tuple[str, str]]) -> ByteFields:
    return [(name.encode(), value.encode("latin-1")) for name, value in fields]


def accept(own: list[bytes], method: bytes, version: bytes, fields: ByteFields) -> tuple[int, ByteFields]:
    """The status, and the fields of the response."""
    protocols = [it.decode() for it in own]
    given = headers.websocket_respond(method, section(fields), protocols, version=VERSIONS[version])
    return given.status, in_bytes(given.fields)


def request(nonce: bytes) -> ByteFields:
    return in_bytes(headers.websocket_request(nonce))


def opens(sent: ByteFields, status: int, fields: ByteFields) -> bool:
    return headers.websocket_check(section(sent), status, section(fields)) is None
