"""Responses to opening handshakes, right and wrong, to real clients: does each take them as the client end of ours
does? Each client's own request is what ours is asked about.
"""
import asyncio
from collections.abc import Iterator
from dataclasses import dataclass, field

from common.server import ByteFields, read_request
from handshake import model, ours
from handshake.frames import echo
from handshake.peers import CLIENTS

PORT, PAGE = 18300, 18301
Pairs = list[tuple[str, str]]
BASE = [("Upgrade", "websocket"), ("Connection", "Upgrade"), ("Sec-WebSocket-Accept", "{accept}")]
BOTH = ["chat", "superchat"]


def put(name: str, *values: str) -> Pairs:
    """The usual lines, with these in place of those of a name."""
    return [line for line in BASE if line[0] != name] + [(name, value) for value in values]


def responses() -> Iterator[tuple[str, int, Pairs, list[str]]]:
    """What it is, the status, the fields, and the subprotocols that the client asks for."""
    yield "as it should be", 101, BASE, []
    yield "names in lower case", 101, [(name.lower(), value) for name, value in BASE], []
    yield "names in upper case", 101, [(name.upper(), value) for name, value in BASE], []
    yield "another order", 101, BASE[::-1], []
    yield "more fields", 101, BASE + [("Server", "x"), ("Date", "Sun, 06 Nov 1994 08:49:37 GMT"), ("X-A", "1")], []
    for status in (200, 201, 204, 301, 302, 400, 401, 403, 404, 426, 500, 503):
        lines = BASE + ([("Location", "/elsewhere")] if status in (301, 302) else [])
        yield f"status {status}", status, lines + [("Content-Length", "0")], []
    yield "a length", 101, BASE + [("Content-Length", "0")], []
    for values in ([], [""], ["WebSocket"], ["WEBSOCKET"], ["websocket, h2c"], ["h2c, websocket"], ["websockets"],
                   ["websocket/13"], ["websocket", "websocket"], ["h2c", "websocket"], ["websocket", ""], ["h2c"],
                   ['"websocket"'], ["  websocket  "], ["websocket,"]):
        yield f"Upgrade {values}", 101, put("Upgrade", *values), []
    for values in ([], [""], ["upgrade"], ["UPGRADE"], ["keep-alive, Upgrade"], ["Upgrade, keep-alive"],
                   ["keep-alive", "Upgrade"], ["Upgrade", "keep-alive"], ["close"], ["Upgrade, close"], ["upgraded"],
                   ['"Upgrade"'], ["Upgrade;q=1"], [",Upgrade,"], ["keep-alive Upgrade"], ["Upgrade Upgrade"]):
        yield f"Connection {values}", 101, put("Connection", *values), []
    for values in ([], [""], ["{accept}", "{accept}"], ["{accept}", "x"], ["x", "{accept}"], ["{lower}"], ["{swapped}"],
                   ["{unpadded}"], ["{accept}="], ["  {accept}  "], ["{other}"], ["{key}"], ["{accept}, {accept}"],
                   ["{accept}\t"]):
        yield f"Sec-WebSocket-Accept {values}", 101, put("Sec-WebSocket-Accept", *values), []
    name = "Sec-WebSocket-Extensions"
    for values in (["permessage-deflate"], ["permessage-deflate; server_no_context_takeover"], ["x-foo"],
                   ["permessage-deflate, x-foo"], ["x-foo, permessage-deflate"],
                   ["permessage-deflate, permessage-deflate"],
                   ["permessage-deflate", "permessage-deflate"], [""], ["", ""], [","], ["Permessage-Deflate"],
                   ["permessage-deflate; bogus=1"], ["permessage-deflate;"], ["permessage-deflate; ="],
                   ["permessage-deflate; client_max_window_bits=10"], ["permessage-deflate; server_max_window_bits=7"],
                   ['permessage-deflate; client_max_window_bits="10"'], ["permessage-deflate,"],
                   ["x-webkit-deflate-frame"],
                   ["permessage deflate"], ['"permessage-deflate"']):
        yield f"Extensions {values}", 101, BASE + [(name, value) for value in values], []
    name = "Sec-WebSocket-Protocol"
    for values in (["chat"], [""], ["chat", "chat"]):
        yield f"Protocol {values}, none asked", 101, BASE + [(name, value) for value in values], []
    for values in ([], ["chat"], ["superchat"], ["Chat"], ["mqtt"], ["chat, superchat"], ["chat", "superchat"],
                   ["chat", "chat"], [""], ["  chat  "], ["chat,"], [",chat"], ['"chat"'], ["chat superchat"], ["cha"],
                   ["", "chat"], ["chat;q=1"]):
        yield f"Protocol {values}, both asked", 101, BASE + [(name, value) for value in values], BOTH


CASES = list(responses())


@dataclass
class Sent:
    """What a client asked and what it was answered."""

    request: ByteFields
    status: int
    fields: ByteFields


class Answers:
    """Answers each connection with the fields of the case in its target."""

    def __init__(self) -> None:
        self.sent: dict[int, Sent] = {}

    async def serve(self, reader: asyncio.StreamReader, writer: asyncio.StreamWriter) -> None:
        try:
            request = await asyncio.wait_for(read_request(reader, PORT), 20)
            if request is None or not request.path.startswith("/r/"):  # (a client may follow a redirect)
                return
            number = int(request.path.split("/")[2])
            _, status, lines, _ = CASES[number]
            key = request.get(b"sec-websocket-key")[0]
            accept = model.accept_key(key).decode()
            words = {
                "accept": accept, "lower": accept.lower(), "swapped": accept.swapcase(), "unpadded": accept[:-1],
                "other": model.accept_key(b"AAAAAAAAAAAAAAAAAAAAAA==").decode(), "key": key.decode(),
            }
            fields = [(name.encode(), value.format(**words).encode()) for name, value in lines]
            self.sent[number] = Sent(request.fields, status, [(name, value.strip(b" \t")) for name, value in fields])
            head = b"HTTP/1.1 %d X\r\n" % status
            writer.write(head + b"".join(name + b": " + value + b"\r\n" for name, value in fields) + b"\r\n")
            await writer.drain()
            if status == 101:
                await asyncio.wait_for(echo(reader, writer), 6)
        except (ConnectionError, asyncio.IncompleteReadError, asyncio.TimeoutError, ValueError):
            pass
        finally:
            writer.close()


@dataclass
class Score:
    """How a client took the responses to its own requests, and how ours takes the same."""

    asked: int = 0
    alike: int = 0
    # Responses on which RFC 6455 has a client fail the connection.
    opened: list[str] = field(default_factory=list)
    own_opened: list[str] = field(default_factory=list)
    # Responses on which a connection opens by RFC 6455. A client may fail it for reasons of its own.
    failed: list[str] = field(default_factory=list)
    own_failed: list[str] = field(default_factory=list)


async def judge(name: str) -> Score:
    answers, score = Answers(), Score()
    jobs = [{"id": number, "url": f"ws://127.0.0.1:{PORT}/r/{number}", "protocols": protocols, "messages": []}
            for number, (_, _, _, protocols) in enumerate(CASES)]
    async with await asyncio.start_server(answers.serve, "127.0.0.1", PORT):
        results = {it["id"]: bool(it["open"]) for it in await CLIENTS[name](jobs, PAGE)}
    for number in sorted(answers.sent):
        what, sent = CASES[number][0], answers.sent[number]
        opens = ours.opens(sent.request, sent.status, sent.fields)
        permitted = model.opens(sent.request, sent.status, sent.fields)
        score.asked += 1
        score.alike += results[number] == opens
        for is_open, opened, failed in ((results[number], score.opened, score.failed),
                                        (opens, score.own_opened, score.own_failed)):
            if is_open not in permitted:
                (opened if is_open else failed).append(what)
    return score
