"""The readers of crates/gateway_connection/specs/Readers.antt, with the same parameters: what each takes from the front
of some bytes. Below are those of specs/ReadersInUse.antt."""
import re
from collections.abc import Callable
from dataclasses import dataclass, replace

from readings import TOKEN

VALUE_BYTE = re.compile(rb"[\t\x20-\x7e\x80-\xff]*")
Field = tuple[bytes, bytes]
# A method, a target and content.
Message = tuple[bytes, bytes, bytes]


class NeedsMore(Exception):
    """The bytes say too little."""


class Rejects(Exception):
    """The bytes are no message."""


@dataclass(frozen=True)
class LineEnds:
    bare_lf: str = "malformed"  # or ends a line, or is data
    bare_cr: str = "malformed"


@dataclass(frozen=True)
class Head:
    method: bytes
    target: bytes
    version: bytes
    fields: tuple[Field, ...]

    def count(self, name: bytes) -> int:
        return sum(it[0].lower() == name for it in self.fields)


def has_odd_version(_: int, head: Head) -> bool:
    return not head.version.lower().startswith(b"http/")


def has_odd_host(size: int, head: Head) -> bool:
    hosts = head.count(b"host")
    return has_odd_version(size, head) or hosts > 1 or hosts == 0 and head.version != b"HTTP/1.0"


def has_old_coding(size: int, head: Head) -> bool:
    return has_odd_host(size, head) or head.version == b"HTTP/1.0" and head.count(b"transfer-encoding") > 0


CRLF, LF_TOO, CR_IS_DATA = LineEnds(), LineEnds(bare_lf="ends"), LineEnds(bare_lf="ends", bare_cr="data")


@dataclass(frozen=True)
class Reader:
    skips_empty_lines: bool = True
    head_lines: LineEnds = CRLF
    words: str = "one space"  # spaces, blanks, spaces in target
    folds: str = "none"  # joined, own lines
    controls: str = "rejected"  # left out, kept
    no_colon: str = "rejected"
    name_blanks: str = "rejected"
    odd_names: str = "rejected"
    spelling: str = "dash"  # dash or underscore, dash or mark
    lengths: str = "no"  # first, last, commas, same
    number: str = "digits"  # leading, members
    coding_lines: str = "no"
    codings: str = "whole"  # last member, anywhere
    other_codings: str = "rejected"
    http10_has_codings: bool = True
    both: str = "rejects"  # coding first, length first
    chunk_lines: LineEnds = CRLF
    blanks_before_size: bool = False
    no_size_is_zero: bool = False
    extensions: str = "text"  # none, only blanks, blanks and text, blank or text, any
    data_end: str = "crlf"  # line end, two bytes, any line
    trailer_lines: LineEnds = CRLF
    parses_trailers: bool = True
    length_limit: int = 2**63
    size_limit: int = 2**63
    size_digits: int = 16
    rejects_head: Callable[[int, Head], bool] = has_old_coding
    rejects_content: Callable[[bytes], bool] = lambda _: False
    rejects_trailers: Callable[[list[bytes]], bool] = lambda _: False


def odd(how: str, is_odd: bool, text: bytes, left: bytes) -> bytes:
    """The text, or what is left of it if it is odd and that is left out."""
    if is_odd and how == "rejected":
        raise Rejects(text)
    return left if is_odd and how == "left out" else text


def read_line(ends: LineEnds, data: bytes, start: int) -> tuple[bytes, int]:
    line = bytearray()
    while start < len(data):
        byte = data[start]
        start += 1
        if byte == 13:
            if start == len(data):
                break
            if data[start] == 10:
                return bytes(line), start + 1
        how = ends.bare_lf if byte == 10 else ends.bare_cr if byte == 13 else "data"
        if how == "malformed":
            raise Rejects(line)
        if how == "ends":
            return bytes(line), start
        line.append(byte)
    raise NeedsMore


def read_section(ends: LineEnds, data: bytes, start: int) -> tuple[list[bytes], int]:
    lines = []
    while True:
        line, start = read_line(ends, data, start)
        if not line:
            return lines, start
        lines.append(line)


def words_of(r: Reader, line: bytes) -> list[bytes]:
    words = re.split(rb"[ \t]" if r.words == "blanks" else rb" ", line)
    if r.words in ("spaces", "blanks"):
        words = [it for it in words if it]
    if r.words == "spaces in target" and len(words) > 3:
        words = [words[0], b" ".join(words[1:-1]), words[-1]]
    if len(words) != 3:
        raise Rejects(line)
    return words


def fields_of(r: Reader, lines: list[bytes]) -> tuple[Field, ...]:
    if r.folds == "none" and any(it[:1] in (b" ", b"\t") for it in lines):
        raise Rejects(lines)
    if r.folds == "own lines":
        lines = [it.lstrip(b" \t") for it in lines]
    unfolded: list[bytes] = []
    for line in lines:
        if r.folds == "joined" and line[:1] in (b" ", b"\t") and unfolded:
            unfolded[-1] += line
        else:
            unfolded.append(line)
    found = []
    for line in unfolded:
        kept = bytes(b for b in line if VALUE_BYTE.fullmatch(bytes([b])))
        clean = odd(r.controls, kept != line, line, kept)
        name, colon, value = clean.partition(b":")
        if not colon:
            if odd(r.no_colon, True, b"kept", b""):
                found.append((clean, b""))
            continue
        bare = name.strip(b" \t")
        name = odd(r.name_blanks, bare != name, name, bare)
        if not TOKEN.fullmatch(name) and not odd(r.odd_names, True, b"kept", b""):
            continue
        found.append((name, value.strip(b" \t")))
    return tuple(found)


def spelled(r: Reader, name: bytes) -> bytes:
    if r.spelling == "dash or underscore":
        name = name.replace(b"_", b"-")
    if r.spelling == "dash or mark":
        name = re.sub(rb"[^0-9A-Za-z]", b"-", name)
    return name.lower()


def members(value: bytes) -> list[bytes]:
    return [it.strip(b" \t") for it in value.split(b",")]


def counting(repeated: str, values: list[bytes]) -> bytes:
    """The value that counts."""
    if repeated == "no" and len(values) > 1 or repeated == "same" and len(set(values)) > 1:
        raise Rejects(values)
    return b",".join(values) if repeated == "commas" else values[-1 if repeated == "last" else 0]


def digits_below(limit: int, text: bytes) -> int:
    if not re.fullmatch(rb"[0-9]+", text) or int(text) >= limit:
        raise Rejects(text)
    return int(text)


def length_of(r: Reader, values: list[bytes]) -> int:
    if not values:
        return 0
    value = counting(r.lengths, values)
    if r.number == "leading":
        value = re.match(rb"[0-9]*", value.lstrip(b" \t").removeprefix(b"+"))[0]
    numbers = {digits_below(r.length_limit, it) for it in (members(value) if r.number == "members" else [value])}
    if len(numbers) > 1:
        raise Rejects(value)
    return numbers.pop()


def is_chunked(r: Reader, values: list[bytes]) -> bool:
    if not values:
        return False
    value = counting(r.coding_lines, values).lower()
    found = {"whole": value == b"chunked", "last member": members(value)[-1] == b"chunked",
             "anywhere": b"chunked" in value}[r.codings]
    return found or bool(odd(r.other_codings, True, b"kept", b""))


def size_of(r: Reader, line: bytes) -> int:
    text = line.lstrip(b" \t") if r.blanks_before_size else line
    digits = re.match(rb"[0-9A-Fa-f]*", text)[0]
    after = text[len(digits):]
    rest = after.lstrip(b" \t") if r.extensions in ("only blanks", "blanks and text") else after
    may_follow = r.extensions == "any" or not rest or "text" in r.extensions and rest[:1] == b";" \
        or r.extensions == "blank or text" and rest[:1] in (b" ", b"\t")
    if not (digits or r.no_size_is_zero) or len(digits) > r.size_digits or not may_follow:
        raise Rejects(line)
    size = int(digits or b"0", 16)
    if size >= r.size_limit:
        raise Rejects(line)
    return size


def read_data_end(r: Reader, data: bytes, start: int) -> int:
    if r.data_end in ("line end", "any line"):
        line, start = read_line(r.chunk_lines, data, start)
        if line and r.data_end == "line end":
            raise Rejects(line)
        return start
    end = data[start:start + 2]
    if len(end) < 2:
        raise NeedsMore
    if r.data_end == "crlf" and end != b"\r\n":
        raise Rejects(end)
    return start + 2


def read_chunks(r: Reader, data: bytes, start: int) -> tuple[bytes, int]:
    content = b""
    while True:
        line, start = read_line(r.chunk_lines, data, start)
        size = size_of(r, line)
        if size == 0:
            break
        if start + size > len(data):
            raise NeedsMore
        content += data[start:start + size]
        start = read_data_end(r, data, start + size)
    lines, start = read_section(r.trailer_lines, data, start)
    if r.rejects_trailers(lines):
        raise Rejects(lines)
    if r.parses_trailers:
        fields_of(r, lines)
    return content, start


def read_request(r: Reader, data: bytes) -> tuple[Message, int, Head]:
    """What it takes, where what follows begins, and the head. Raises `NeedsMore` or `Rejects`."""
    line, start = read_line(r.head_lines, data, 0)
    while r.skips_empty_lines and not line:
        line, start = read_line(r.head_lines, data, start)
    lines, start = read_section(r.head_lines, data, start)
    method, target, version = words_of(r, line)
    head = Head(method, target, version, fields_of(r, lines))
    if r.rejects_head(start, head):
        raise Rejects(head)
    lengths = [it[1] for it in head.fields if spelled(r, it[0]) == b"content-length"]
    chunked = is_chunked(r, codings_of(r, head))
    if chunked and lengths and r.both == "rejects":
        raise Rejects("both")
    if chunked and not (lengths and r.both == "length first"):
        content, start = read_chunks(r, data, start)
    else:
        end = start + length_of(r, lengths)
        if end > len(data):
            raise NeedsMore
        content, start = data[start:end], end
    if r.rejects_content(content):
        raise Rejects(content)
    return (method, target, content), start, head


def codings_of(r: Reader, head: Head) -> list[bytes]:
    if not r.http10_has_codings and head.version == b"HTTP/1.0":
        return []
    return [it[1] for it in head.fields if spelled(r, it[0]) == b"transfer-encoding"]


NGINX = Reader(
    head_lines=LF_TOO, words="spaces", controls="kept", no_colon="kept", odd_names="left out", chunk_lines=LF_TOO,
    extensions="blank or text", data_end="line end", trailer_lines=LF_TOO, parses_trailers=False, size_digits=2**20)
APACHE = Reader(
    folds="joined", lengths="commas", coding_lines="commas", codings="last member", both="coding first",
    extensions="blanks and text", size_digits=2**20, rejects_head=has_odd_version)
HAPROXY = Reader(
    head_lines=LF_TOO, words="blanks", folds="joined", controls="kept", lengths="commas", number="members",
    coding_lines="commas", codings="last member", both="coding first", chunk_lines=LF_TOO, extensions="blanks and text",
    data_end="line end", trailer_lines=LF_TOO, length_limit=2**64, size_limit=2**64, size_digits=2**20,
    rejects_head=has_odd_version)
VARNISH = Reader(
    head_lines=LF_TOO, words="blanks", folds="joined", coding_lines="first", chunk_lines=LF_TOO,
    blanks_before_size=True, extensions="only blanks", data_end="line end", trailer_lines=LF_TOO, size_digits=2**20,
    rejects_head=has_odd_version, rejects_trailers=bool)
GO = Reader(
    skips_empty_lines=False, head_lines=CR_IS_DATA, folds="joined", lengths="same", http10_has_codings=False,
    both="coding first", chunk_lines=CR_IS_DATA, no_size_is_zero=True, extensions="blanks and text",
    trailer_lines=CR_IS_DATA, parses_trailers=False, rejects_head=has_odd_host)
H11 = Reader(
    skips_empty_lines=False, head_lines=LF_TOO, folds="joined", controls="kept", lengths="commas", number="members",
    both="coding first", chunk_lines=LineEnds(bare_cr="data"), extensions="blanks and text", trailer_lines=LF_TOO,
    length_limit=2**128, size_limit=2**80, size_digits=20, rejects_head=has_odd_host)
