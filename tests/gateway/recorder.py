"""An origin that keeps the bytes that it receives, and answers each whole message in them."""
import re
import socket
import threading
from dataclasses import dataclass, field

from readings import STRICT, Incomplete, Malformed, message_of

EXPECTS = re.compile(rb"\r\nexpect: *100-continue *\r\n", re.IGNORECASE)
ANSWER = b"HTTP/1.1 200 OK\r\nContent-Length: 2\r\n\r\nok"
ANSWER_TO_HEAD = b"HTTP/1.1 200 OK\r\nContent-Length: 2\r\n\r\n"


@dataclass
class Stream:
    """The bytes of a connection, and how many of them an earlier attempt sent."""

    received: bytearray = field(default_factory=bytearray)
    seen: int = 0


class Recorder:
    """The origin, until the block ends."""

    def __init__(self, port: int) -> None:
        self.listener = socket.create_server(("127.0.0.1", port))
        self.lock, self.streams = threading.Lock(), []
        self.is_open = True

    def __enter__(self) -> "Recorder":
        threading.Thread(target=self.accept, daemon=True).start()
        return self

    def __exit__(self, *_) -> None:
        self.is_open = False
        self.listener.close()

    def accept(self) -> None:
        while self.is_open:
            try:
                connection, _ = self.listener.accept()
            except OSError:
                return
            stream = Stream()
            with self.lock:
                self.streams.append(stream)
            threading.Thread(target=self.serve, args=(connection, stream), daemon=True).start()

    def serve(self, connection: socket.socket, stream: Stream) -> None:
        start, has_continued = 0, False
        with connection:
            try:
                while piece := connection.recv(65536):
                    with self.lock:
                        stream.received += piece
                    while start < len(stream.received):
                        received = bytes(stream.received)
                        try:
                            (method, _, _), start = message_of(STRICT, received, start)
                        except Incomplete:
                            has_head = b"\r\n\r\n" in received[start:]
                            if has_head and not has_continued and EXPECTS.search(received, start):
                                connection.sendall(b"HTTP/1.1 100 Continue\r\n\r\n")
                                has_continued = True
                            break
                        except Malformed:
                            connection.sendall(b"HTTP/1.1 400 Bad Request\r\nConnection: close\r\n\r\n")
                            return
                        has_continued = False
                        connection.sendall(ANSWER_TO_HEAD if method == "HEAD" else ANSWER)
            except OSError:
                return

    def forget(self) -> None:
        """What was received before is no part of what `taken` gives."""
        with self.lock:
            for stream in self.streams:
                stream.seen = len(stream.received)

    def taken(self) -> list[bytes]:
        """What each connection received since."""
        with self.lock:
            return [bytes(it.received[it.seen:]) for it in self.streams if len(it.received) > it.seen]
