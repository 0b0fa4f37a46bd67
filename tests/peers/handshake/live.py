"""Whole connections: real clients to a server whose handshakes ours decides, also through nginx, and the client end of
ours to real servers. Each sends messages and wants them back."""
import asyncio
import random
import tempfile
from collections.abc import Awaitable, Callable, Iterator
from contextlib import contextmanager
from pathlib import Path

from common import processes
from common.processes import Missing
from common.server import ByteFields
from handshake import ours
from handshake.frames import EchoServer, frame, read_frame
from handshake.peers import CLIENTS, OWN, Job, Result, node_server, python_server

PORT, PAGE, NODE, PYTHON, PROXY = 18320, 18321, 18322, 18323, 18324
MESSAGES = ["", "hello", "x" * 125, "x" * 126, "\xe4" * 40000, "x" * 70000]
OFFERS: list[list[str]] = [[], ["chat"], ["superchat"], ["chat", "superchat"], ["mqtt"], ["mqtt", "chat"], ["Chat"],
                           ["CHAT", "chat"]]
CONNECTIONS = 40
# Clients that want a subprotocol if they asked for some, as the WHATWG's standard has browsers do: they fail a
# connection without one, which RFC 6455 lets a server open.
WANTS_ONE = ("node-ws", "Chromium")

Client = Callable[[list[Job], int], Awaitable[list[Result]]]


def pick(offer: list[str]) -> str:
    return next((it.decode() for it in OWN if it.decode() in offer), "")


def wrong_result(name: str, job: Job, result: Result) -> bool:
    chosen = pick(job["protocols"])
    if name in WANTS_ONE and job["protocols"] and not chosen:
        return bool(result["open"])
    return (not result["open"], result["echoes"], result.get("protocol"), result.get("extensions")) != (
        False, MESSAGES, chosen, "")


async def to_ours(name: str, port: int = PORT) -> tuple[int, list[str]]:
    """How many connections a client tried, and those that went otherwise."""
    jobs = [{"id": number, "url": f"ws://127.0.0.1:{port}/{number}", "protocols": offer, "messages": MESSAGES}
            for number, offer in enumerate(OFFERS)]
    async with EchoServer(PORT, OWN):
        results = {it["id"]: it for it in await CLIENTS[name](jobs, PAGE)}
    wrong = [f"{name} asks for {job['protocols']}: {short(results[job['id']])}" for job in jobs
             if wrong_result(name, job, results[job["id"]])]
    return len(jobs), wrong


def short(result: Result) -> Result:
    return {**result, "echoes": [len(it) for it in result["echoes"]]}


async def handshake(port: int, offer: list[str], nonce: bytes) -> tuple[ByteFields, int, ByteFields, list[str]]:
    """What ours sends, the response, and the messages that come back if ours takes the connection for open."""
    sent = [(b"host", b"127.0.0.1:%d" % port), *ours.request(nonce)]
    if offer:
        sent.append((b"sec-websocket-protocol", ", ".join(offer).encode()))
    reader, writer = await asyncio.open_connection("127.0.0.1", port)
    try:
        lines = b"".join(name + b": " + value + b"\r\n" for name, value in sent)
        writer.write(b"GET / HTTP/1.1\r\n" + lines + b"\r\n")
        first, *rest = (await asyncio.wait_for(reader.readuntil(b"\r\n\r\n"), 10))[:-4].split(b"\r\n")
        parts = (line.partition(b":") for line in rest)
        fields = [(name.lower(), value.strip(b" \t")) for name, _, value in parts]
        status, echoes = int(first.split(b" ")[1]), []
        if ours.opens(sent, status, fields):
            for message in MESSAGES[:5]:
                writer.write(frame(1, message.encode(), is_masked=True))
                echoes.append((await asyncio.wait_for(read_frame(reader), 10))[2].decode())
    finally:
        writer.close()
    return sent, status, fields, echoes


async def from_ours(name: str, port: int) -> tuple[int, list[str]]:
    """How many connections the client end of ours tried to a server, and those that went otherwise. Another key,
    another status or another subprotocol is no answer to what was sent."""
    draw, wrong = random.Random(6), []
    for _ in range(CONNECTIONS):
        offer = draw.choice(OFFERS)
        sent, status, fields, echoes = await handshake(port, offer, draw.randbytes(16))
        if echoes != MESSAGES[:5]:
            wrong.append(f"ours to {name} asks for {offer}: {status} {fields}")
        key = dict(ours.request(bytes(16)))[b"sec-websocket-key"]
        other = [(field, key if field == b"sec-websocket-key" else value) for field, value in sent]
        for what, response in (("another key", (other, status, fields)), ("another status", (sent, 200, fields)),
                               ("a subprotocol", (sent, status, [*fields, (b"sec-websocket-protocol", b"x")]))):
            if ours.opens(*response):
                wrong.append(f"ours to {name} opens on {what}")
    return CONNECTIONS, wrong


CONFIG = """
daemon off; pid @WORK@/pid; error_log @WORK@/log; worker_processes 1; events {}
http {
    access_log off;
    client_body_temp_path @WORK@/n1; proxy_temp_path @WORK@/n2; fastcgi_temp_path @WORK@/n3;
    uwsgi_temp_path @WORK@/n4; scgi_temp_path @WORK@/n5;
    server {
        listen 127.0.0.1:@PROXY@;
        location /ready { return 200; }
        location / {
            proxy_pass http://127.0.0.1:@PORT@;
            proxy_http_version 1.1; proxy_set_header Upgrade $http_upgrade; proxy_set_header Connection "upgrade";
        }
    }
}
"""


@contextmanager
def proxy() -> Iterator[None]:
    """nginx before the server, as its documentation has it for WebSockets."""
    with tempfile.TemporaryDirectory(prefix="peers-") as folder:
        Path(folder).chmod(0o777)
        text = CONFIG.replace("@WORK@", folder).replace("@PROXY@", str(PROXY)).replace("@PORT@", str(PORT))
        Path(folder, "nginx.conf").write_text(text)
        words = ["nginx", "-c", f"{folder}/nginx.conf", "-e", f"{folder}/log"]
        with processes.server(words, PROXY, "/ready", Path(folder, "out")):
            yield


async def judge() -> tuple[list[tuple[str, int, list[str]]], list[str]]:
    """Of each pair of a client and a server how many connections were tried, and those that went otherwise; and what is
    missing."""
    found: list[tuple[str, int, list[str]]] = []
    missing: list[str] = []
    for name in CLIENTS:
        try:
            found.append((f"{name} to ours", *await to_ours(name)))
        except Missing as error:
            missing.append(f"{name}: {error}")
    try:
        with proxy():
            found.append(("python-websockets to ours through nginx", *await to_ours("python-websockets", PROXY)))
    except Missing as error:
        missing.append(f"nginx: {error}")
    servers = {"node-ws": (NODE, node_server(NODE)), "python-websockets": (PYTHON, python_server(PYTHON))}
    for name, (port, server) in servers.items():
        try:
            async with server:
                found.append((f"ours to {name}", *await from_ours(name, port)))
        except Missing as error:
            missing.append(f"{name}: {error}")
    return found, missing
