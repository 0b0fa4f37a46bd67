"""The origin server behind a recorder: the example resource, or nginx. The recorder passes each request on, adds to the
response what an origin server may say about caching and connections, dates it by the clock, and at times fails."""
import os
import random
import threading
from dataclasses import dataclass, field
from pathlib import Path

from common.dates import imf_fixdate, old_formats
from messages import Broken, Message, Stream, written
from parts import World

LIFETIMES = ["max-age=60", "max-age=60", "max-age=600", "max-age=5", "max-age=0", "s-maxage=60",
             "s-maxage=600, max-age=30", 'max-age="60"', "MAX-AGE=30", "max-age=3600", "max-age=10", "", "", "public"]
EXTRAS = ["public", "must-revalidate", "stale-while-revalidate=60", "stale-while-revalidate=600",
          "stale-if-error=600", "stale-if-error=600", "private", "no-cache", "no-store", "proxy-revalidate",
          "must-understand", "immutable", 'private="x-for"', 'no-cache="set-cookie"', 'x="\\", no-store"',
          'x="a, private"', "no-store-not", "no-transform", "stale-if-error=30", "no-store, must-understand"]
VARIES = ["Accept-Language", "accept-language", "X-A", "Accept-Encoding", "Accept", "Cookie", "X-A, Accept-Language",
          "accept-language,,x-a", "*", "Origin", "User-Agent"]
STATUSES = [500, 502, 503, 503, 504, 404, 410, 403, 429]


@dataclass
class Policy:
    """What the recorder adds to the responses of one target."""

    control: list[str]
    vary: list[str]
    is_personal: bool
    sets_cookie: bool


def policy(draw: random.Random) -> Policy:
    controls = []
    for _ in range(2):
        extras = [draw.choice(EXTRAS) for _ in range(draw.choice([0, 0, 1, 1, 2]))]
        controls.append(draw.choice([", ", ",", " , "]).join(it for it in (draw.choice(LIFETIMES), *extras) if it))
    vary = [draw.choice(VARIES) for _ in range(draw.choice([0, 0, 1, 1, 2]))]
    return Policy(controls, vary, draw.random() < 0.3, draw.random() < 0.15)


@dataclass
class Origin:
    """A server behind the recorder. `decorates` says whether the recorder adds to what it says about caching."""

    world: World
    link: int
    port: int
    draw: random.Random
    decorates: bool
    files: Path | None = None
    stream: Stream | None = None
    lock: threading.Lock = field(default_factory=threading.Lock)
    policies: dict[str, Policy] = field(default_factory=dict)
    count: int = 0
    is_lost: bool = False

    def serve(self, stream: Stream) -> None:
        is_first = True
        while True:
            request = stream.request()
            with self.world.working(), self.lock:
                exchange = self.world.begin(self.link, request, is_first)
                is_first = False
                response = None
                try:
                    response = self.answer(request)
                    if response is not None:
                        response.first = "HTTP/1.1 " + response.first.split(" ", 1)[1]
                        stream.connection.sendall(self.interim() + self.sent(request, response))
                finally:
                    self.world.finish(exchange, response)
            if response is None or response.is_last:
                return

    def is_likely(self, share: float) -> bool:
        return self.draw.random() < share

    def interim(self) -> bytes:
        return b"HTTP/1.1 103 Early Hints\r\nLink: </a.css>\r\n\r\n" if self.is_likely(0.01) else b""

    def ask(self, request: Message) -> Message:
        """The server's own answer. Its connection is kept, since what the example holds is lost with it."""
        self.stream = self.stream or self.world.connect(self.port)
        try:
            self.stream.connection.sendall(request.raw)
            response = self.stream.response(request.method)[1]
        except (Broken, OSError):
            self.lose()
            raise Broken("the server closed its connection") from None
        if response.is_last:
            self.lose()
        return response

    def lose(self) -> None:
        """The connection is closed. The notes of the example are lost with it, and the files of nginx aren't."""
        self.stream, self.is_lost = None, self.files is None

    def answer(self, request: Message) -> Message | None:
        """The response, or `None` if the connection breaks."""
        self.count += 1
        if self.is_likely(0.02):
            self.world.now += self.draw.choice([1, 5, 60])
        if self.is_likely(0.01):
            return None
        if self.is_likely(0.03):
            made = Message(f"HTTP/1.1 {self.draw.choice(STATUSES)} X", [("Content-Type", "text/plain")], b"failed " * 4)
            made.content += str(self.count).encode()
            if request.method == "HEAD":
                made.fields.append(("Content-Length", str(len(made.content))))
        else:
            made = self.ask(request)
            self.touch(request, made)
        gone = {"date", "transfer-encoding", "connection", "keep-alive"}
        if request.method != "HEAD":
            gone.add("content-length")
        made.fields = [it for it in made.fields if it[0].lower() not in gone]
        self.add_fields(request, made)
        return made

    def touch(self, request: Message, response: Message) -> None:
        """Dates a file that was written by the clock."""
        if self.files and request.method == "PUT" and 200 <= response.status < 300:
            path = self.files / request.target.partition("?")[0].lstrip("/")
            if path.exists():
                os.utime(path, (self.world.now, self.world.now))

    def add_fields(self, request: Message, made: Message) -> None:
        add = made.fields.append
        add(("X-Answer", str(self.count)))
        if not self.is_likely(0.02):
            add(("Date", self.date(self.world.now - (self.draw.choice([1, 5, 60, -5]) if self.is_likely(0.08) else 0))))
        if self.is_likely(0.04):
            add(("Age", self.draw.choice(["0", "5", "30", "60", "5, 10", "x"])))
        if self.decorates:
            self.decorate(request, made)
        if self.is_likely(0.08):
            add(("Connection", self.draw.choice(["X-Hop", "x-hop, keep-alive", "X-Hop, X-Other"])))
            add(("X-Hop", f"hop-{self.count}"))
            add(("Keep-Alive", "timeout=5"))
        elif self.is_likely(0.01):
            add(("Connection", self.draw.choice(["Cache-Control", "set-cookie", "x b", "Date"])))
        if self.is_likely(0.01):
            add(("Proxy-Authenticate", "Basic realm=hop"))

    def decorate(self, request: Message, made: Message) -> None:
        host = (request.lines("host") or [""])[0].lower()
        key = f"{host}{request.target}"
        if key not in self.policies:
            self.policies[key] = policy(self.draw)
        about, client = self.policies[key], (request.lines("x-client") or ["nobody"])[0]
        if control := self.draw.choice(about.control):
            made.fields.append((self.draw.choice(["Cache-Control", "cache-control"]), control))
        elif self.is_likely(0.5):
            made.fields.append(("Expires", self.date(self.world.now + self.draw.choice([-60, 0, 5, 60, 600]))))
        elif self.is_likely(0.5):
            made.fields.append(("Last-Modified", imf_fixdate(1795000000)))
        made.fields += [("Vary", it) for it in about.vary]
        if about.is_personal:
            made.fields.append(("X-For", client))
        if about.sets_cookie:
            made.fields.append(("Set-Cookie", f"seen={client}"))

    def date(self, second: int) -> str:
        """A date in one of the three formats, rarely in none."""
        if self.is_likely(0.05):
            return self.draw.choice([*old_formats(second).values(), "0", "never"])
        return imf_fixdate(second)

    def sent(self, request: Message, response: Message) -> bytes:
        """The bytes of the response: its content has a length, or is in chunks, or ends with the connection."""
        if request.method == "HEAD" or response.status in (204, 304):
            response.content = b""
            return written(response, False)
        way = self.draw.random()
        if way < 0.02:
            response.is_last = True
            return written(response, False)
        response.is_last = False
        if way > 0.15:
            return written(response)
        content = response.content
        chunked = Message(response.first, [*response.fields, ("Transfer-Encoding", "chunked")])
        half = len(content) // 2
        pieces = [it for it in (content[:half], content[half:]) if it]
        body = b"".join(b"%x;a=b\r\n%s\r\n" % (len(it), it) for it in pieces) + b"0\r\n"
        if self.is_likely(0.3):
            body += b"X-Sum: 1\r\n"
        return written(chunked, False) + body + b"\r\n"


FOLDERS = ["plain", "timed", "shared", "lenient", "private", "unstored", "secure", "members", "cookie", "checked"]


def make_files(folder: Path, draw: random.Random, now: int) -> list[str]:
    """Files of many lengths, last modified before now. Returns their targets."""
    targets = []
    for number, name in enumerate(FOLDERS):
        (folder / name).mkdir(parents=True, exist_ok=True)
        for old in (folder / name).iterdir():
            old.unlink()
        for suffix in ("css", "txt"):
            path = folder / name / f"f{number}.{suffix}"
            path.write_text(f"/* {name} */ " + "x" * draw.choice([5, 40, 700, 3000]) + "\n", "utf-8")
            modified = now - draw.choice([10, 100, 5000, 864000])
            os.utime(path, (modified, modified))
            targets.append(f"/{name}/{path.name}")
    return targets
