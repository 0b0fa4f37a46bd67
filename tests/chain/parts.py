"""What the parts of a chain share: the clock, the record of all exchanges, and servers in threads."""
import contextlib
import itertools
import os
import signal
import socket
import subprocess
import threading
import time
from collections.abc import Callable, Iterator, Sequence
from dataclasses import dataclass, field
from pathlib import Path

from messages import Broken, Message, Stream

GATE = "gate"
# Seconds after which a part counts as broken, also on a machine that has other work.
PATIENCE = 600


@dataclass
class Exchange:
    """A request on a link, and its response: when each came by the clock, and when by the order of events."""

    link: int
    order: int
    asked: int
    request: Message
    # Whether it is the first on its connection.
    is_first: bool
    received: int = 0
    ended: int = 0
    response: Message | None = None

    @property
    def mark(self) -> str:
        return (self.request.lines("x-mark") or [""])[0]


@dataclass
class World:
    """A clock that is moved by hand, and what was exchanged on each link."""

    now: int
    record: list[Exchange] = field(default_factory=list)
    sockets: list[socket.socket] = field(default_factory=list)
    lock: threading.Lock = field(default_factory=threading.Lock)
    order: Iterator[int] = field(default_factory=itertools.count)
    busy: int = 0

    @contextlib.contextmanager
    def working(self) -> Iterator[None]:
        with self.lock:
            self.busy += 1
        try:
            yield
        finally:
            with self.lock:
                self.busy -= 1

    def begin(self, link: int, request: Message, is_first: bool) -> Exchange:
        with self.lock:
            made = Exchange(link, next(self.order), self.now, request, is_first)
            self.record.append(made)
            return made

    def finish(self, exchange: Exchange, response: Message | None) -> None:
        with self.lock:
            exchange.received, exchange.ended, exchange.response = self.now, next(self.order), response

    def rest(self) -> None:
        """Waits until nothing is on its way."""
        end = time.monotonic() + PATIENCE
        while time.monotonic() < end:
            if not self.busy:
                return
            time.sleep(0.005)
        raise RuntimeError("a part doesn't come to its end")

    def connect(self, port: int) -> Stream:
        connection = socket.create_connection(("127.0.0.1", port), timeout=PATIENCE)
        connection.setsockopt(socket.IPPROTO_TCP, socket.TCP_NODELAY, 1)
        self.keep(connection)
        return Stream(connection)

    def keep(self, connection: socket.socket) -> None:
        with self.lock:
            self.sockets.append(connection)

    def listen(self, port: int, serve: Callable[[Stream], None]) -> None:
        """Serves each connection by a thread of its own."""
        listener = socket.create_server(("127.0.0.1", port), backlog=64)
        self.keep(listener)

        def handle(connection: socket.socket) -> None:
            with connection, contextlib.suppress(Broken, OSError):
                serve(Stream(connection))

        def accept() -> None:
            with contextlib.suppress(OSError):
                while True:
                    connection, _ = listener.accept()
                    connection.settimeout(PATIENCE)
                    connection.setsockopt(socket.IPPROTO_TCP, socket.TCP_NODELAY, 1)
                    self.keep(connection)
                    threading.Thread(target=handle, args=(connection,), daemon=True).start()

        threading.Thread(target=accept, daemon=True).start()

    def end(self) -> None:
        for it in self.sockets:
            with contextlib.suppress(OSError):
                it.shutdown(socket.SHUT_RDWR)
            it.close()


def tap(world: World, link: int, onward: int,
        before: Callable[[Message], None] = lambda _: None) -> Callable[[Stream], None]:
    """Passes the bytes of messages on to a port as they are, and records the messages. `before` is called for each
    request before it counts as received."""

    def serve(stream: Stream) -> None:
        next_stream = world.connect(onward)
        is_first = True
        with next_stream.connection:
            while True:
                request = stream.request()
                before(request)
                with world.working():
                    exchange = world.begin(link, request, is_first)
                    is_first = False
                    response = None
                    try:
                        next_stream.connection.sendall(request.raw)
                        interim, response = next_stream.response(request.method)
                        stream.connection.sendall(b"".join(interim) + response.raw)
                    finally:
                        world.finish(exchange, response)
                if response.is_last:
                    return

    return serve


class Process:
    """A process in a session of its own, which ends with it."""

    def __init__(self, words: Sequence[str], more: dict[str, str], log: Path) -> None:
        with open(log, "ab") as file:
            self.process = subprocess.Popen(words, stdin=subprocess.DEVNULL, stdout=file, stderr=file,
                                            env={**os.environ, **more}, start_new_session=True)

    def end(self) -> None:
        with contextlib.suppress(ProcessLookupError):
            os.killpg(self.process.pid, signal.SIGTERM)


def await_port(port: int) -> None:
    end = time.monotonic() + PATIENCE
    while time.monotonic() < end:
        with contextlib.suppress(OSError), socket.create_connection(("127.0.0.1", port), timeout=2):
            return
        time.sleep(0.05)
    raise RuntimeError(f"nothing listens at port {port}")
