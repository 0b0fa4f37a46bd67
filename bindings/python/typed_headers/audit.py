"""Judges many messages: what `inspect` answers, for each response of WARC and HAR files and of what `curl -i` prints.

Files are read as streams, whatever their size; only a HAR file is read whole. `findings` judges an exchange, and
`map_partition` many of them, in a process of its own or in a worker of Dask or Spark:

>>> exchange = Exchange("https://a.example/", b"HTTP/1.1 200 OK\\r\\nCache-Control: max-age=60\\r\\nSet-Cookie: a=b\\r\\n")
>>> findings(exchange)["findings"]
['stored_with_cookie', 'no_validator']
"""

import gzip
import json
import re
from dataclasses import dataclass, field
from datetime import datetime
from typing import IO, Any, Counter, Dict, Iterable, Iterator, List, Optional, Tuple, cast

from ._checks import check_members
from .errors import HeaderError
from .headers import Headers
from .inspection import Report, inspect, report_data

__all__ = [
    "Counts",
    "Exchange",
    "FINDINGS",
    "UnreadableFile",
    "count_partition",
    "findings",
    "map_partition",
    "read_exchanges",
]

#: What an exchange may be found to have, and what that means.
FINDINGS = {
    "malformed_line": "a line that is no field (RFC 9112, section 5)",
    "malformed_field": "a field whose value the library rejects",
    "stored_with_cookie": "a shared cache may store it, and it sets a cookie",
    "stored_without_lifetime": "a shared cache may store it, for as long as it guesses (RFC 9111, section 4.2.2)",
    "no_validator": "a shared cache may store it, and can't ask whether it is still good",
    "read_by_all_origins": "scripts of all origins may read it",
    "read_with_credentials": "scripts of another origin may read it with the user's credentials",
    "not_judged": "there is no head, or a part of it can't be judged",
}

#: No head is read further than this. The rest of a longer one is left out.
_LARGEST_HEAD = 1024 * 1024
_PIECE = 64 * 1024
_MESSAGE = "application/http"
_START = re.compile(rb"HTTP/\d(?:\.\d)? \d{3}(?: .*)?\r?\n?")


class UnreadableFile(HeaderError):
    """A file that is none of WARC, HAR and what `curl -i` prints, or that is cut off."""


@dataclass(frozen=True)
class Exchange:
    """A response, the request that it answers, if that is known, and when it came."""

    url: str
    #: The head of the response: its start line and its field lines.
    response: bytes
    #: The head of the request, or nothing.
    request: bytes = b""
    #: When the response came, in seconds since 1970, or `None` for the present.
    received: Optional[int] = None

    def __post_init__(self) -> None:
        check_members(self)


def _head(file: IO[bytes], most: int) -> Tuple[bytes, int]:
    """Lines up to an empty one, and how many bytes of the file these were. At most `most` bytes are read."""
    lines, taken, kept = [], 0, 0
    while taken < most:
        line = file.readline(min(most - taken, _LARGEST_HEAD))
        taken += len(line)
        if not line or line in (b"\n", b"\r\n"):
            break
        kept += len(line)
        if kept <= _LARGEST_HEAD:
            lines.append(line)
    return b"".join(lines), taken


def _skip(file: IO[bytes], count: int) -> None:
    while count > 0:
        piece = file.read(min(count, _PIECE))
        if not piece:
            raise UnreadableFile("the file ends within a record")
        count -= len(piece)


def _seconds(text: str) -> Optional[int]:
    """The seconds since 1970 of a time as WARC and HAR write it, or `None`."""
    try:
        return int(datetime.fromisoformat(re.sub(r"\.\d+", "", text).replace("Z", "+00:00")).timestamp())
    except (ValueError, OverflowError):
        return None


def _warc_records(file: IO[bytes]) -> Iterator[Tuple[Headers, bytes]]:
    """The named fields and the head of each record that holds a message."""
    while True:
        line = file.readline(_PIECE)
        if not line:
            return
        if line in (b"\r\n", b"\n"):
            continue
        if not line.startswith(b"WARC/"):
            raise UnreadableFile(f"expected a record of a WARC file, not {line[:40]!r}")
        named, _ = _head(file, _LARGEST_HEAD)
        fields = Headers(named)
        length = fields.get("content-length", "")
        if not length.isdecimal():
            raise UnreadableFile(f"a record of a WARC file needs a Content-Length, not {length!r}")
        head, taken = b"", 0
        # (crawlers record answers of DNS as responses, too)
        is_message = fields.get("content-type", _MESSAGE).lower().startswith(_MESSAGE)
        if is_message and fields.get("warc-type") in ("request", "response"):
            head, taken = _head(file, int(length))
        _skip(file, int(length) - taken)
        if head:
            yield fields, head


def _read_warc(file: IO[bytes]) -> Iterator[Exchange]:
    """The exchanges of a WARC file: a request is the record before its response or behind it, whichever names the other."""
    requests: Dict[str, bytes] = {}
    #: The response that a request may follow.
    waiting: List[Tuple[Headers, bytes]] = []

    def exchange(fields: Headers, head: bytes, request: bytes) -> Exchange:
        return Exchange(fields.get("warc-target-uri", ""), head, request, _seconds(fields.get("warc-date", "")))

    try:
        for fields, head in _warc_records(file):
            number, other = fields.get("warc-record-id", ""), fields.get("warc-concurrent-to", "")
            if fields["warc-type"] == "request":
                if waiting and other and other == waiting[0][0].get("warc-record-id"):
                    yield exchange(*waiting.pop(), head)
                else:
                    requests = {number: head}
                continue
            while waiting:
                yield exchange(*waiting.pop(), b"")
            if other in requests:
                yield exchange(fields, head, requests.pop(other))
            else:
                waiting.append((fields, head))
    except (UnreadableFile, EOFError, OSError):
        while waiting:
            yield exchange(*waiting.pop(), b"")
        raise
    while waiting:
        yield exchange(*waiting.pop(), b"")


def _read_har(file: IO[bytes]) -> Iterator[Exchange]:
    def head(start: str, fields: List[Dict[str, str]]) -> bytes:
        # (browsers list the fields of HTTP/2 that stand for the start line, and may join field lines by a line end)
        given = [it for it in fields if not it["name"].startswith(":")]
        lines = [f"{it['name']}: {line}" for it in given for line in it["value"].split("\n")]
        return "\r\n".join([start, *lines, ""]).encode("latin-1", "replace")

    try:
        for entry in json.load(file)["log"]["entries"]:
            asked, answered = entry["request"], entry["response"]
            yield Exchange(
                asked["url"],
                head(f"HTTP/1.1 {int(answered['status']):03} ", answered["headers"]),
                head(f"{asked['method']} / HTTP/1.1", asked["headers"]),
                _seconds(entry.get("startedDateTime", "")),
            )
    except (ValueError, KeyError, TypeError) as error:
        raise UnreadableFile(f"this is no HAR file: {type(error).__name__}: {error}") from None


def _read_heads(file: IO[bytes]) -> Iterator[Exchange]:
    """The responses of a text: each begins with a status line. What is no head is skipped."""
    line = file.readline(_PIECE)
    is_first, found = True, False
    while line:
        if _START.fullmatch(line) or is_first and b":" in line:
            head, _ = _head(file, _LARGEST_HEAD)
            found = True
            yield Exchange("", line + head)
        is_first = False
        line = file.readline(_PIECE)
    if not found:
        raise UnreadableFile("there is no response: expected WARC, HAR, or what `curl -i` prints")


def read_exchanges(file: IO[bytes]) -> Iterator[Exchange]:
    """The exchanges of a file of WARC, HAR, or what `curl -i` prints, each as it is or compressed by gzip.

    The file is a buffered one, of bytes. `UnreadableFile` if it is none of these, or is cut off.
    """
    peek = getattr(file, "peek", None)
    if peek is None:
        raise TypeError("a buffered file of bytes is wanted, as open(name, 'rb') gives it")
    try:
        first = peek(2)
        if first[:2] == b"\x1f\x8b":
            unpacked = gzip.GzipFile(fileobj=file)
            yield from _read(cast(IO[bytes], unpacked), unpacked.peek(5))
        else:
            yield from _read(file, first)
    except (EOFError, OSError) as error:
        raise UnreadableFile(f"the file can't be read: {error}") from None


def _read(file: IO[bytes], first: bytes) -> Iterator[Exchange]:
    if first.startswith(b"WARC/"):
        yield from _read_warc(file)
    elif first[:1] == b"{" or first.lstrip()[:1] == b"{":
        yield from _read_har(file)
    else:
        yield from _read_heads(file)


def _found(report: Report) -> Iterator[str]:
    """What a report has of `FINDINGS`."""
    if report.head.wrong:
        yield "malformed_line"
    if any(it.error is not None for it in report.fields):
        yield "malformed_field"
    shared, cors, asks = report.shared_cache, report.cors, report.validators
    if shared is not None and shared.may_store:
        if any(it.name == "set-cookie" for it in report.fields):
            yield "stored_with_cookie"
        if shared.lifetime is None:
            yield "stored_without_lifetime"
        if asks is not None and not asks.fields:
            yield "no_validator"
    if cors is not None and cors.allow_origin is not None:
        if cors.allow_origin == "*":
            yield "read_by_all_origins"
        elif cors.allow_credentials is not None:
            yield "read_with_credentials"
    if report.notes:
        yield "not_judged"


def _inspected(exchange: Exchange) -> Report:
    text = b"\r\n\r\n".join(it.rstrip(b"\r\n") for it in (exchange.request, exchange.response) if it)
    report = inspect(text + b"\r\n\r\n", received=exchange.received)
    if report.head.status is None:
        raise HeaderError("there is no response with a status from 200 on")
    return report


def findings(exchange: Exchange) -> Dict[str, Any]:
    """What `inspect` answers for the response, as data for JSON, with `url`, and `findings`: names of `FINDINGS`."""
    try:
        report = _inspected(exchange)
    except HeaderError as error:
        return {"url": exchange.url, "findings": ["not_judged"], "error": str(error)}
    return {"url": exchange.url, "findings": list(_found(report)), **report_data(report)}


def map_partition(exchanges: Iterable[Exchange]) -> List[Dict[str, Any]]:
    """`findings` of each exchange, as `map_partitions` of Dask's bags and `mapPartitions` of Spark want it."""
    return [findings(it) for it in exchanges]


@dataclass
class Counts:
    """How many responses were judged, and how many of them have each finding and each malformed field."""

    responses: int = 0
    findings: Counter[str] = field(default_factory=Counter)
    malformed: Counter[str] = field(default_factory=Counter)

    def add(self, other: "Counts") -> None:
        """Adds what another process or partition counted."""
        self.responses += other.responses
        self.findings.update(other.findings)
        self.malformed.update(other.malformed)


def count_partition(exchanges: Iterable[Exchange]) -> Counts:
    """Counts the findings of exchanges, in less time than `map_partition` takes."""
    counts = Counts()
    for exchange in exchanges:
        counts.responses += 1
        try:
            report = _inspected(exchange)
        except HeaderError:
            counts.findings["not_judged"] += 1
            continue
        counts.findings.update(_found(report))
        counts.malformed.update(it.name for it in report.fields if it.error is not None)
    return counts
