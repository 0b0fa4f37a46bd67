"""Servers that read the messages in a stream of bytes, each in its own way.

The first reading is that of RFC 9112 for the plain forms. Each other makes one mistake that servers have been known
for. What a gateway sends is safe if all read the same messages in it.
"""
import re
from dataclasses import dataclass

# A message: its method, its target, and its content.
Message = tuple[str, str, bytes]

# The messages that a server reads in a stream, and how that ends: `whole`, `incomplete` or `malformed`.
Read = tuple[list[Message], str]


class Incomplete(Exception):
    """The stream ends within a message."""


class Malformed(Exception):
    """The bytes are no message."""


@dataclass(frozen=True)
class Reading:
    """How a server reads. Without a mistake it is strict."""

    name: str
    # A field line may end with LF alone, and so may a chunk's size.
    takes_bare_lf: bool = False
    # CR, vertical tab and other bytes that aren't printed are dropped from names and values.
    drops_controls: bool = False
    # An underscore in a name counts as a dash.
    takes_underscores: bool = False
    # Which length counts if there are several: the first, the last, or none is taken.
    length: str = "only"
    # Whether the length counts before the coding.
    prefers_length: bool = False
    # Whether any value with the word `chunked` in it counts as the coding.
    finds_chunked: bool = False
    # Whether a line that begins with a blank is a field line of its own.
    splits_folds: bool = False
    # How many bits a length has. What is above them is lost, or such a length is none (RFC 9110, section 8.6).
    bits: int | None = None
    loses_bits: bool = False


STRICT = Reading("strict")
READINGS = [
    STRICT,
    Reading("first length", length="first"),
    Reading("last length", length="last"),
    Reading("length before coding", length="first", prefers_length=True),
    Reading("any chunked", finds_chunked=True, length="first"),
    Reading("controls dropped", drops_controls=True, length="first"),
    Reading("underscores", takes_underscores=True, length="last"),
    Reading("bare LF", takes_bare_lf=True, length="first"),
    Reading("folds split", splits_folds=True, length="last"),
    # (nginx, Go and Apache have this limit, but reject a greater length)
    Reading("63 bits", length="first", bits=63, loses_bits=True),
    # (old CGI servers have this one; RFC 9110 has none, so a gateway forwards greater lengths)
    Reading("31 bits", length="first", bits=31),
]

TOKEN = re.compile(rb"[!#$%&'*+\-.^_`|~0-9A-Za-z]+")
REQUEST_LINE = re.compile(rb"([!#$%&'*+\-.^_`|~0-9A-Za-z]+) ([^\x00-\x20\x7f]+) HTTP/1\.[01]")


def line_of(reading: Reading, stream: bytes, start: int) -> tuple[bytes, int]:
    """The line that starts there, and where the next one does."""
    end = stream.find(b"\n" if reading.takes_bare_lf else b"\r\n", start)
    if end < 0:
        raise Incomplete
    if reading.takes_bare_lf:
        return stream[start:end].removesuffix(b"\r"), end + 1
    return stream[start:end], end + 2


def fields_of(reading: Reading, lines: list[bytes]) -> dict[bytes, list[bytes]]:
    fields: dict[bytes, list[bytes]] = {}
    name = b""
    for line in lines:
        if line[:1] in b" \t" and line[:1] and not reading.splits_folds:
            if not name:
                raise Malformed(line)
            fields[name][-1] += b" " + line.strip(b" \t")
            continue
        name, colon, value = line.lstrip(b" \t").partition(b":") if reading.splits_folds else line.partition(b":")
        value = value.strip(b" \t")
        if reading.drops_controls:
            name = bytes(b for b in name if 32 < b < 127)
            value = bytes(b for b in value if 32 <= b < 127).strip()
        elif not colon or not TOKEN.fullmatch(name) or re.search(rb"[\x00\r\n]", value):
            raise Malformed(line)
        name = name.lower()
        if reading.takes_underscores:
            name = name.replace(b"_", b"-")
        fields.setdefault(name, []).append(value)
    return fields


def is_chunked(reading: Reading, codings: list[bytes]) -> bool:
    if not codings:
        return False
    if reading.finds_chunked:
        return any(b"chunked" in it.lower() for it in codings)
    if reading is STRICT and [it.lower() for it in codings] != [b"chunked"]:
        raise Malformed(codings)
    return codings[-1].split(b",")[-1].strip().lower() == b"chunked"


def length_of(reading: Reading, lengths: list[bytes]) -> int | None:
    if not lengths:
        return None
    if reading.length == "only" and (len(lengths) > 1 or not re.fullmatch(rb"\d{1,19}", lengths[0])):
        raise Malformed(lengths)
    value = lengths[-1 if reading.length == "last" else 0]
    found = re.match(rb"\s*[+]?(\d+)", value)
    if not found:
        raise Malformed(value)
    number = int(found[1])
    if reading.bits is not None and number >> reading.bits:
        if not reading.loses_bits:
            raise Malformed(value)
        number &= (1 << reading.bits) - 1
    return number


def chunks_of(reading: Reading, stream: bytes, start: int) -> tuple[bytes, int]:
    content = b""
    while True:
        line, start = line_of(reading, stream, start)
        size = line.partition(b";")[0].strip(b" \t")
        if not re.fullmatch(rb"[0-9A-Fa-f]{1,16}", size):
            raise Malformed(line)
        if int(size, 16) == 0:
            break
        end = start + int(size, 16)
        if end + 2 > len(stream):
            raise Incomplete
        content += stream[start:end]
        if stream[end:end + 2] != b"\r\n":
            raise Malformed(stream[end:end + 2])
        start = end + 2
    trailers = []
    while True:
        line, start = line_of(reading, stream, start)
        if not line:
            break
        trailers.append(line)
    fields_of(reading, trailers)
    return content, start


def message_of(reading: Reading, stream: bytes, start: int) -> tuple[Message, int]:
    line, start = line_of(reading, stream, start)
    lines = []
    while True:
        field_line, start = line_of(reading, stream, start)
        if not field_line:
            break
        lines.append(field_line)
    found = REQUEST_LINE.fullmatch(line)
    if not found:
        raise Malformed(line)
    fields = fields_of(reading, lines)
    length = length_of(reading, fields.get(b"content-length", []))
    codings = fields.get(b"transfer-encoding", [])
    if reading is STRICT and length is not None and codings:
        raise Malformed("both")
    content = b""
    if is_chunked(reading, codings) and not (reading.prefers_length and length is not None):
        content, start = chunks_of(reading, stream, start)
    elif length is not None:
        if start + length > len(stream):
            raise Incomplete
        content, start = stream[start:start + length], start + length
    return (found[1].decode(), found[2].decode("latin-1"), content), start


def messages_of(reading: Reading, stream: bytes) -> Read:
    found, start = [], 0
    while start < len(stream):
        try:
            message, start = message_of(reading, stream, start)
        except Incomplete:
            return found, "incomplete"
        except Malformed:
            return found, "malformed"
        found.append(message)
    return found, "whole"
