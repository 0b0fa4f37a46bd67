"""Opening handshakes, right and wrong, sent byte for byte to ours (behind a small server that reads the request), to
node-ws and to python-websockets: which of them switches?

Each request says what RFC 6455 wants: `yes` (101), `no` (anything else), or `-` if it leaves the choice, or another
standard says it.
"""
import asyncio
from collections.abc import Iterator
from dataclasses import dataclass, field

from common.processes import Missing
from common.server import ByteFields, lines_of
from handshake.frames import EchoServer
from handshake.peers import OWN, node_server, python_server

OURS, NODE, PYTHON = 18310, 18311, 18312
KEY = "dGhlIHNhbXBsZSBub25jZQ=="
Pairs = list[tuple[str, str]]
BASE = [("Host", "127.0.0.1"), ("Upgrade", "websocket"), ("Connection", "Upgrade"), ("Sec-WebSocket-Key", KEY),
        ("Sec-WebSocket-Version", "13")]
LINE = "GET / HTTP/1.1"


def put(name: str, *values: str) -> Pairs:
    """The usual lines, with these in place of those of a name."""
    return [line for line in BASE if line[0] != name] + [(name, value) for value in values]


def more(*fields: tuple[str, str]) -> Pairs:
    return BASE + list(fields)


def requests() -> Iterator[tuple[str, str, str, Pairs]]:
    """What it is, what the RFC wants, the request line, and the fields."""
    yield "as it should be", "yes", LINE, BASE
    yield "RFC 6455, section 1.3", "yes", LINE, more(
        ("Origin", "http://example.com"), ("Sec-WebSocket-Protocol", "chat, superchat"))
    yield "names in lower case", "yes", LINE, [(name.lower(), value) for name, value in BASE]
    yield "names in upper case", "yes", LINE, [(name.upper(), value) for name, value in BASE]
    yield "another order", "yes", LINE, BASE[::-1]
    yield "as Firefox sends it", "yes", LINE, put("Connection", "keep-alive, Upgrade") + [
        ("Pragma", "no-cache"), ("Cache-Control", "no-cache"), ("Sec-WebSocket-Extensions", "permessage-deflate"),
        ("Sec-Fetch-Mode", "websocket")]
    for method in ("POST", "PUT", "HEAD", "OPTIONS", "get", "PURGE"):
        yield f"method {method}", "no", f"{method} / HTTP/1.1", BASE + (
            [("Content-Length", "0")] if method in ("POST", "PUT") else [])
    yield "HTTP/1.0", "no", "GET / HTTP/1.0", BASE
    yield "HTTP/0.9", "no", "GET / HTTP/0.9", BASE
    yield "absolute form", "yes", "GET http://127.0.0.1/ HTTP/1.1", BASE
    yield "no Host", "no", LINE, put("Host")
    yield "empty Host", "-", LINE, put("Host", "")
    yield "two lines Host", "no", LINE, put("Host", "127.0.0.1", "other.example")
    for values, wanted in (([], "no"), ([""], "no"), (["WebSocket"], "yes"), (["WEBSOCKET"], "yes"),
                           (["websocket, h2c"], "yes"), (["h2c, websocket"], "yes"), (["h2c", "websocket"], "yes"),
                           (["websocket", "h2c"], "yes"), (["websocket", "websocket"], "yes"), (["websockets"], "no"),
                           (["websocket/13"], "-"), (['"websocket"'], "no"), (["web socket"], "no"), (["h2c"], "no"),
                           (["websocket,"], "yes"), (["  websocket  "], "yes"), (["websocket;q=1"], "no")):
        yield f"Upgrade {values}", wanted, LINE, put("Upgrade", *values)
    for values, wanted in (([], "no"), ([""], "no"), (["upgrade"], "yes"), (["UPGRADE"], "yes"),
                           (["keep-alive, Upgrade"], "yes"), (["Upgrade, keep-alive"], "yes"),
                           (["keep-alive", "Upgrade"], "yes"), (["Upgrade", "keep-alive"], "yes"), (["close"], "no"),
                           (["Upgrade, close"], "-"), (["keep-alive"], "no"), (["upgraded"], "no"),
                           (["keep-alive Upgrade"], "no"), (['"Upgrade"'], "no"), ([",Upgrade,"], "yes"),
                           (["Upgrade;q=1"], "no")):
        yield f"Connection {values}", wanted, LINE, put("Connection", *values)
    for values, wanted in (([], "no"), ([""], "no"), ([KEY, KEY], "no"), ([KEY, "x"], "no"), ([f"{KEY}, {KEY}"], "no"),
                           (["dGhlIHNhbXBsZSBub25jZQ"], "no"), (["dGhlIHNhbXBsZSBub25jZQ="], "no"),
                           (["dGhlIHNhbXBsZSBub25jZQ==="], "no"), (["AAAAAAAAAAAAAAAAAAAA"], "no"),
                           (["AAAAAAAAAAAAAAAAAAAAAAA="], "no"), (["AAAAAAAAAAAAAAAAAAAAAAAA"], "no"),
                           (["AQIDBAUGBwgJCgsMDQ4PEC=="], "-"), (["AAAAAAAAAAAAAAAAAAAAAB=="], "-"),
                           (["_____________________w=="], "no"), (["/////////////////////w=="], "yes"),
                           (["dGhlIHNhbXBs ZSBub25jZQ=="], "no"), (["dGhlIHNhbXBsZSBub25jZQ==x"], "no"),
                           (["dGhlIHNhbXBsZSBub25j!Q=="], "no"), ([f"  {KEY}  "], "yes"), (["x" * 5000], "no"),
                           (["AA=AAAAAAAAAAAAAAAAAAA=="], "no")):
        shown = [value if len(value) < 60 else f"{value[:3]}.. of {len(value)}" for value in values]
        yield f"Key {shown}", wanted, LINE, put("Sec-WebSocket-Key", *values)
    for values, wanted in (([], "no"), ([""], "no"), (["8"], "no"), (["0"], "no"), (["12"], "no"), (["14"], "no"),
                           (["013"], "no"), (["13.0"], "no"), (["0xd"], "no"), (["+13"], "no"), (["1e1"], "no"),
                           (["13, 8"], "no"), (["13", "8"], "no"), (["13", "13"], "no"), (["  13  "], "yes"),
                           (["13;"], "no"), (["256"], "no"), (["thirteen"], "no")):
        yield f"Version {values}", wanted, LINE, put("Sec-WebSocket-Version", *values)
    name = "Sec-WebSocket-Protocol"
    for values, wanted in ((["chat"], "yes"), (["chat, superchat"], "yes"), (["superchat, chat"], "yes"),
                           (["chat", "superchat"], "yes"), (["mqtt"], "yes"), (["Chat"], "yes"), ([""], "no"),
                           ([","], "no"),
                           (["chat,"], "-"), (["chat, chat"], "-"), (["chat", "chat"], "-"), (["a/b"], "no"),
                           (["chat, a/b"], "no"), (["chat superchat"], "no"), (['"chat"'], "no"), (["chat;q=1"], "no"),
                           (["chat, \x01"], "no"), (["chat, é"], "no")):
        yield f"Protocol {values}", wanted, LINE, more(*((name, value) for value in values))
    name = "Sec-WebSocket-Extensions"
    for values, wanted in ((["permessage-deflate; client_max_window_bits"], "yes"), (["x-foo; a=1"], "yes"),
                           (["x-foo", "x-bar"], "yes"), (['x-foo; a="1"'], "yes"), ([""], "no"), ([","], "no"),
                           (["x-foo,"], "-"), (["x-foo;"], "no"), (["x-foo; ="], "no"), (["x-foo; a="], "no"),
                           (["x foo"], "no"), (['"x-foo"'], "no"), (["x-foo; a=1 2"], "no"),
                           (['x-foo; a="1, 2"'], "no"),
                           (['x-foo; a="1'], "no"), (["="], "no"), (["x-foo; a=\x01"], "no"), (["x-foo, é"], "no"),
                           (["permessage-deflate; server_max_window_bits=7"], "-"),
                           (["permessage-deflate; bogus"], "-")):
        yield f"Extensions {values}", wanted, LINE, more(*((name, value) for value in values))
    yield "Origin null", "yes", LINE, more(("Origin", "null"))
    yield "two lines Origin", "-", LINE, more(("Origin", "http://a.example"), ("Origin", "http://b.example"))
    yield "a body", "-", LINE, more(("Content-Length", "0"))
    yield "no field at all", "no", LINE, []
    yield "Host alone", "no", LINE, [("Host", "127.0.0.1")]


def as_bytes(line: str, fields: Pairs) -> bytes:
    return "".join([f"{line}\r\n", *(f"{name}: {value}\r\n" for name, value in fields), "\r\n"]).encode("utf-8")


async def ask(port: int, data: bytes) -> tuple[str, ByteFields]:
    """The status of the answer (or `closed`, or `silent`), and its fields."""
    reader, writer = await asyncio.open_connection("127.0.0.1", port)
    try:
        writer.write(data)
        head = await asyncio.wait_for(reader.readuntil(b"\r\n\r\n"), 3)
    except asyncio.TimeoutError:
        return "silent", []
    except (asyncio.IncompleteReadError, ConnectionError):
        return "closed", []
    finally:
        writer.close()
    first, *rest = head[:-4].split(b"\r\n")
    fields = [(name.lower(), value.strip()) for name, _, value in (line.partition(b":") for line in rest)]
    return first.split(b" ")[1].decode(), fields


@dataclass
class Score:
    """What a server did otherwise than the RFC wants."""

    name: str
    asked: int = 0
    accepted: list[str] = field(default_factory=list)
    rejected: list[str] = field(default_factory=list)


async def answers_of(name: str, port: int) -> tuple[Score, list[ByteFields]]:
    score, answers = Score(name), []
    for what, wanted, line, fields in requests():
        status, given = await ask(port, as_bytes(line, fields))
        answers.append(given if status == "101" else [])
        score.asked += 1
        if status == "101" and wanted == "no":
            score.accepted.append(what)
        if status != "101" and wanted == "yes":
            score.rejected.append(what)
    return score, answers


def unlike(answers: dict[str, list[ByteFields]]) -> list[str]:
    """Where servers that switch give other accept values."""
    found = []
    for number, (what, *_) in enumerate(requests()):
        values = {name: tuple(lines_of(given[number], b"sec-websocket-accept")) for name, given in answers.items()
                  if given[number]}
        if len(set(values.values())) > 1:
            found.append(f"{what}: accept values {values}")
    return found


async def judge() -> tuple[list[Score], list[str], list[str]]:
    """The scores of the servers, ours first, the accept values that differ, and what is missing."""
    scores: list[Score] = []
    missing: list[str] = []
    answers: dict[str, list[ByteFields]] = {}
    servers = {"ours": (OURS, EchoServer(OURS, OWN)), "node-ws": (NODE, node_server(NODE, has_deflate=True)),
               "python-websockets": (PYTHON, python_server(PYTHON))}
    for name, (port, server) in servers.items():
        try:
            async with server:
                score, answers[name] = await answers_of(name, port)
                scores.append(score)
        except Missing as error:
            missing.append(f"{name}: {error}")
    return scores, unlike(answers), missing
