"""Many clients increment a counter through gateways and caches, and no increment may be lost.

    tests/chain/run --increments [--clients N] [--each N] [--seed N] [WAY..]

A client gets the counter, and puts the next one with If-Match and the ETag that it got. Two of three clients are curl,
a process for each request. In front of each part a proxy delays, cuts and repeats connections: a request comes late,
twice, or only in part, and an answer doesn't come. The content says how many increments each client has made. So a
client that gets no answer, or 412, sees by what it gets next whether its PUT was performed. Each fourth client asks the
origin server itself, so that the caches don't see each change.

After that the clients do without If-Match, and increments must be lost: else the run shows nothing. If each cache on
the way removes what a PUT changes, no client may get an older version than it has written: that is the theorem
`clients_read_their_writes` of crates/updates.

A line for each way has what was seen. A client stops after eight seconds, also with fewer increments. A seed doesn't
repeat a run, as its threads race. The status is 0
exactly if all of this held.
"""
import argparse
import contextlib
import functools
import itertools
import json
import os
import random
import signal
import socket
import struct
import subprocess
import sys
import tempfile
import threading
import time
from collections import Counter
from collections.abc import Callable, Iterator
from dataclasses import dataclass, field
from email.utils import formatdate
from pathlib import Path

from common import client, processes
from messages import NO_CONTENT, Message, Stream, written
from parts import World
from typed_headers import Method, Representation, Resource, Sends

# Each part has a port of its own, so that nothing late comes to another run.
PORTS = itertools.count(18600)
GUARDED, JSON = "/guarded", "application/json"
# Seconds of a run, seconds that a client waits for an answer, and seconds after which nothing late comes.
LENGTH, PATIENCE, LATE = 8, 4, 1

GATE = (["env", "PORT=@PORT@", os.environ["GATE"], "--workers", "1", "--cache", "1000000", "127.0.0.1:@ORIGIN@"], "")
NGINX = (["nginx", "-c", "@CONFIG@", "-e", "@CONFIG@.error"], """
daemon off; pid @CONFIG@.pid; error_log @CONFIG@.error; worker_processes 1; user root; events {}
http {
    access_log off; client_body_temp_path @CONFIG@.1; proxy_temp_path @CONFIG@.2; fastcgi_temp_path @CONFIG@.3;
    uwsgi_temp_path @CONFIG@.4; scgi_temp_path @CONFIG@.5; proxy_cache_path @CONFIG@.cache keys_zone=z:1m;
    upstream origin { server 127.0.0.1:@ORIGIN@ max_fails=0; keepalive 8; }
    proxy_http_version 1.1; proxy_set_header Connection ""; proxy_cache z; proxy_cache_revalidate on;
    proxy_cache_bypass $http_cache_control;
    server { listen 127.0.0.1:@PORT@; location / { proxy_pass http://origin; } }
}
""")
VARNISH = (["varnishd", "-F", "-a", "127.0.0.1:@PORT@", "-f", "@CONFIG@", "-n", "@CONFIG@.work", "-s", "malloc,64m",
            "-j", "none"], """
vcl 4.1;
backend origin { .host = "127.0.0.1"; .port = "@ORIGIN@"; }
sub vcl_recv { if (req.http.Cache-Control) { set req.hash_always_miss = true; } }
""")
# What is between clients and origin server, and whether each cache there removes what a PUT changes.
WAYS = {
    "nothing": ([], True),
    "gate": ([GATE], True),
    "nginx": ([NGINX], False),
    "varnish": ([VARNISH], False),
    "gate-gate": ([GATE, GATE], True),
    "nginx-gate": ([NGINX, GATE], False),
}


def incremented(page: dict, name: str) -> dict:
    """The counter after an increment by a client."""
    done = {**page["done"], name: page["done"].get(name, 0) + 1}
    return {"count": page["count"] + 1, "by": name, "done": done}


class Page:
    """A counter with all its versions. The tag of a version is its number, so no tag comes again."""

    def __init__(self, target: str, is_guarded: bool) -> None:
        self.target, self.is_guarded = target, is_guarded
        self.methods = [Method("GET"), Method("PUT", JSON, needs_condition=is_guarded)]
        self.versions = [json.dumps({"count": 0, "done": {}}).encode()]
        self.lock = threading.Lock()

    def answer(self, request: Message) -> Message:
        with self.lock:
            now = self.versions[-1]
            resource = Resource(self.methods, [Representation(JSON, len(now), f'"{len(self.versions)}"')])
            answer = resource.answer(request.method, request.fields, length=len(request.content))
            if answer.sends is Sends.RESULT:
                self.versions.append(request.content)
                fields = answer.apply([("ETag", f'"{len(self.versions)}"')])
            else:
                fields = [*answer.fields, ("Cache-Control", "max-age=1")]
        content = now if answer.sends is Sends.WHOLE else b""
        return Message(f"HTTP/1.1 {answer.status or 204} X", [("Date", formatdate(usegmt=True)), *fields], content)


def serve(pages: dict[str, Page], stream: Stream) -> None:
    """The origin server's side of a connection. A request that is cut is none."""
    while True:
        request = stream.request()
        made = pages[request.target].answer(request)
        stream.connection.sendall(written(made, not made.lines("content-length") and made.status not in NO_CONTENT))


@dataclass
class Hazards:
    """A TCP proxy in front of a port. `seen` counts what it has done."""

    onward: int
    draw: random.Random
    seen: Counter

    def serve(self, stream: Stream) -> None:
        peer = stream.connection
        fate = self.draw.choices(["none", "delayed", "cut", "cut back", "late", "twice"], [8, 3, 1, 2, 1, 2])[0]
        if fate == "late":
            kept = self.gathered(peer, 0.05)
            self.end(peer)
            peer.close()
            return self.replay(kept, fate)
        with socket.create_connection(("127.0.0.1", self.onward)) as server:
            kept, limit = bytearray(), int(self.draw.expovariate(1 / 600))
            back = threading.Thread(target=self.pump, args=(server, peer, fate, limit if fate == "cut back" else None))
            back.start()
            self.pump(peer, server, fate, limit if fate == "cut" else None, kept)
            back.join()
        if fate == "twice":
            self.replay(kept, fate)

    def pump(self, source: socket.socket, sink: socket.socket, fate: str, limit: int | None,
             kept: bytearray | None = None) -> None:
        """Passes bytes on until they end, or there are more than the limit."""
        count = 0
        with contextlib.suppress(OSError):
            while piece := source.recv(65536):
                if fate == "delayed":
                    time.sleep(self.draw.uniform(0, 0.1))
                count += len(piece)
                if limit is not None and count > limit:
                    self.seen["cut"] += 1
                    sink.sendall(piece[:limit - count])
                    self.end(sink)
                    return self.end(source)
                if kept is not None:
                    kept += piece
                sink.sendall(piece)
        with contextlib.suppress(OSError):
            sink.shutdown(socket.SHUT_WR)

    def gathered(self, peer: socket.socket, pause: float) -> bytes:
        """What comes until nothing does for so many seconds."""
        kept = b""
        peer.settimeout(pause)
        with contextlib.suppress(TimeoutError):
            while piece := peer.recv(65536):
                kept += piece
        return kept

    def replay(self, kept: bytes, what: str) -> None:
        """Sends bytes for the first time or once more, and drops what is answered."""
        self.seen[what] += 1
        time.sleep(self.draw.choice([0, 0.02, 0.1, 0.5]))
        with socket.create_connection(("127.0.0.1", self.onward)) as server:
            server.sendall(kept)
            self.gathered(server, 0.5)

    def end(self, peer: socket.socket) -> None:
        """Ends a connection, or resets it as it is closed."""
        is_reset = self.draw.random() < 0.5
        with contextlib.suppress(OSError):
            if is_reset:
                peer.setsockopt(socket.SOL_SOCKET, socket.SO_LINGER, struct.pack("ii", 1, 0))
            peer.shutdown(socket.SHUT_RD if is_reset else socket.SHUT_RDWR)


@dataclass
class Client:
    """A client of a port. `seen` counts what it was told."""

    number: int
    page: Page
    port: int
    draw: random.Random
    seen: Counter = field(default_factory=Counter)
    # The count of the last version that it was told to have written, and whether it asks past the caches.
    own: int = 0
    is_fresh: bool = False

    @property
    def name(self) -> str:
        return f"c{self.number}"

    def ask(self, method: str, fields: list[tuple[str, str]], content: bytes | None = None) -> tuple[int, str, bytes]:
        """The status, the ETag and the content of an answer. Raises one of FAILURES if the connection fails."""
        if self.number % 3 == 2:
            got = client.ask(self.port, method, self.page.target, fields, content, timeout=PATIENCE)
            return got.status, got.get("etag") or "", got.body
        words = ["curl", "-s", "-m", str(PATIENCE), "-X", method, "-w", "\n%{http_code} %header{etag}"]
        words += [word for name, value in fields for word in ("-H", f"{name}: {value}")]
        words += [f"http://127.0.0.1:{self.port}{self.page.target}", *(["--data-binary", "@-"] if content else [])]
        done = subprocess.run(words, input=content, capture_output=True, check=False)
        if done.returncode:
            raise OSError(done.returncode)
        body, _, told = done.stdout.rpartition(b"\n")
        status, _, tag = told.decode().partition(" ")
        return int(status), tag, body

    @property
    def made(self) -> int:
        return self.seen["told"] + self.seen["by mark"]

    def look(self, page: dict) -> None:
        """Sees in a version whether a PUT without an answer was performed."""
        self.seen["by mark"] += page["done"].get(self.name, 0) > self.made

    def run(self, increments: int) -> None:
        end = time.monotonic() + LENGTH
        while self.made < increments and time.monotonic() < end:
            with contextlib.suppress(*client.FAILURES):
                self.increment()

    def increment(self) -> None:
        """Tries an increment. Raises what `ask` does."""
        now, before = len(self.page.versions) - 1, self.made
        status, tag, content = self.ask("GET", [("Cache-Control", "no-cache")] if self.is_fresh else [])
        if status != 200:
            self.seen[str(status)] += 1
            return
        page = json.loads(content)
        self.seen["stale"] += page["count"] < now
        self.seen["older"] += page["count"] < self.own
        self.look(page)
        if self.made > before:
            return
        page = incremented(page, self.name)
        fields = [("Content-Type", JSON), *([("If-Match", tag)] if self.page.is_guarded else [])]
        status, _, _ = self.ask("PUT", fields, json.dumps(page).encode())
        self.seen[str(status)] += 1
        if status == 204:
            self.seen["told"] += 1
            self.own = page["count"]
        self.is_fresh = status == 412 and self.draw.random() < 0.75


def run(clients: list[Client], increments: int) -> Counter:
    """What the clients were told, how many increments they know of (made), how many the origin server has (kept), and
    how many versions weren't made of the one before, or clients have others than they know of (wrong)."""
    threads = [threading.Thread(target=it.run, args=(increments,)) for it in clients]
    for it in threads:
        it.start()
    for it in threads:
        it.join()
    time.sleep(LATE)
    versions = [json.loads(it) for it in list(clients[0].page.versions)]
    last = versions[-1]
    for it in clients:
        it.look(last)
    told = sum((it.seen for it in clients), Counter(made=sum(it.made for it in clients), kept=last["count"]))
    told["wrong"] += sum(after != incremented(before, after["by"]) for before, after in itertools.pairwise(versions))
    told["wrong"] += sum(it.made != last["done"].get(it.name, 0) for it in clients)
    return told


@contextlib.contextmanager
def running(parts: list, pages: list[Page], hazards: Callable[[int], Hazards], work: Path) -> Iterator[list[int]]:
    """Runs an origin server, and parts in front of it. Yields the ports of the hazards, those of the origin first."""
    world, port, fronts = World(0), next(PORTS), [next(PORTS)]
    with contextlib.ExitStack() as stack:
        stack.callback(world.end)
        world.listen(port, functools.partial(serve, {it.target: it for it in pages}))
        world.listen(fronts[0], hazards(port).serve)
        for words, config in reversed(parts):
            port, file = next(PORTS), work / str(len(fronts))
            names = {"PORT": str(port), "ORIGIN": str(fronts[-1]), "CONFIG": str(file)}
            file.write_text(processes.filled(config, names), "utf-8")
            words = [processes.filled(it, names) for it in words]
            stack.enter_context(processes.server(words, port, GUARDED, file.with_suffix(".log")))
            fronts.append(next(PORTS))
            world.listen(fronts[-1], hazards(port).serve)
        yield fronts


def pass_way(options: argparse.Namespace, name: str, work: Path) -> bool:
    """Increments a counter through a way. Prints what was seen, and returns whether it held."""
    parts, removes = WAYS[name]
    pages, seen, runs = [Page(GUARDED, True), Page("/open", False)], Counter(), []
    seed = f"{options.seed}/{name}"
    with running(parts, pages, functools.partial(Hazards, draw=random.Random(seed), seen=seen), work) as fronts:
        for page in pages:
            clients = [Client(it, page, fronts[0 if it % 4 == 3 else -1], random.Random(f"{seed}/{it}"))
                       for it in range(options.clients)]
            runs.append(run(clients, options.each))
    told, without = runs
    lost, other = told["made"] - told["kept"], without["made"] - without["kept"]
    strange = {it for one in runs for it in one if it.isdigit()} - {"204", "412", "502", "503", "504"}
    problems = {
        "an increment is lost, or made twice": lost or told["wrong"],
        "a client got an older version than its own": removes and told["older"],
        f"unexpected: {strange}": strange,
        "no increment was made": not told["made"],
        "nothing is lost without If-Match, so this shows nothing": other <= 0,
    }
    print(f"{name}: {told['made']} increments, {told['by mark']} told by their mark alone; {told['412']} times 412; "
          f"{told['stale']} stale reads, {told['older']} older than the client's own; {seen['cut']} connections cut, "
          f"{seen['late']} late, {seen['twice']} twice; lost: {lost}; without If-Match: {other} of {without['made']}",
          *(text for text, is_so in problems.items() if is_so), sep="\n  VIOLATION: ", flush=True)
    return not any(problems.values())


def main() -> int:
    parser = argparse.ArgumentParser(description=__doc__.split("\n")[0])
    parser.add_argument("--clients", type=int, default=12)
    parser.add_argument("--each", type=int, default=8, help="of each client")
    parser.add_argument("--seed", type=int, default=random.randrange(10**6))
    parser.add_argument("ways", nargs="*", metavar="WAY", help=", ".join(WAYS))
    options = parser.parse_args()
    signal.signal(signal.SIGTERM, lambda *_: sys.exit(1))
    began = time.monotonic()
    print(f"seed {options.seed}, {options.clients} clients", flush=True)
    held = []
    for name in options.ways or WAYS:
        with tempfile.TemporaryDirectory(prefix="increments-", ignore_cleanup_errors=True) as work:
            try:
                held.append(pass_way(options, name, Path(work)))
            except processes.Missing as error:
                print(f"{name}: left out: {error}", flush=True)
    print(f"{len(held)} ways, {len(held) - sum(held)} with violations, {time.monotonic() - began:.0f} seconds")
    return 0 if held and all(held) else 1


if __name__ == "__main__":
    sys.exit(main())
