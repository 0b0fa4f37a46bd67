"""Random requests of several clients, with a taste for what is easy to get wrong, and curl that sends them."""
import base64
import random
import subprocess
from dataclasses import dataclass, field
from pathlib import Path

from caching.generate import REQUEST_FLAGS, REQUEST_NUMBERS, cache_control
from common.dates import imf_fixdate
from common.fields import Fields
from messages import Message

HOSTS = ["a.test"] * 12 + ["b.test", "A.TEST"]
METHODS = ["GET"] * 80 + ["HEAD"] * 9 + ["PUT"] * 4 + ["DELETE", "TRACE", "PURGE"] + ["OPTIONS"] * 4 + ["PATCH"] * 2
METHODS += ["POST"] * 3
# Few values, so that requests often agree.
FIELDS = {"Accept": ["*/*", "*/*", "application/json", "text/html", "text/html, */*;q=0.1", "text/css"],
          "Accept-Encoding": ["gzip", "gzip", "gzip, br", "gzip,br", "br, gzip", "GZIP", "identity", ""],
          "Accept-Language": ["en", "en", "de", "en;q=0.5", "de, en", "en,de"],
          "X-A": ["1", "1", "2", "", "1, 2"],
          "Origin": ["https://app.test", "https://other.test", "null"],
          "User-Agent": ["A", "A", "a"]}
SHARES = {"Accept": 0.5, "Accept-Encoding": 0.4, "Accept-Language": 0.5, "X-A": 0.4, "Origin": 0.15, "User-Agent": 0.3}
ASKED = ["max-age=0", "max-age=60", "max-stale", "max-stale=60", "min-fresh=10", "no-cache", "no-store",
         "only-if-cached", "stale-if-error=30", "max-age=600, max-stale=600", "max-stale=5, x", "no-cache, no-store"]
OPTIONS = ["close", "keep-alive", "X-Own", "x-own, X-A", "X-A", "Accept-Language", "accept-encoding, TE", "TE",
           "X-Own,,close", "Range", "If-None-Match", "Upgrade", "Origin"]
FORBIDDEN_OPTIONS = ["Host", "Cookie", "Authorization", "Cache-Control", "x b", "Via", "content-length"]
RANGES = ["bytes=0-0", "bytes=1-5", "bytes=1-", "bytes=-2", "bytes=5000-", "bytes=0-1,4-", "x=0-1", "bytes=2-1"]
EXPECTATIONS = ["100-continue", "100-continue", "200-ok"]
VIAS = ["1.0 outer", "1.1 outer (a, b)", "HTTP/1.1 a, 1.0 b"]
JUMPS = [1, 1, 1, 5, 5, 5, 10, 10, 10, 30, 30, 59, 60, 61, 300, 3600]


@dataclass
class Request:
    client: int
    mark: str
    method: str
    target: str
    host: str
    fields: Fields
    content: bytes | None = None
    is_absolute: bool = False

    def words(self, port: int, place: Path) -> list[str]:
        """The words of curl that send it."""
        found = ["-s", "--http1.1", "--path-as-is", "--noproxy", "*", "--max-time", "900"]
        found += ["--expect100-timeout", "0.05", "-o", f"{place}.content", "-D", f"{place}.head"]
        found += ["-w", "%{http_code} %{exitcode}\\n"]
        found += ["-I"] if self.method == "HEAD" else ["-X", self.method]
        names = {name.lower() for name, _ in self.fields}
        for name in ("Accept", "User-Agent", "Content-Type"):
            if name.lower() not in names:
                found += ["-H", f"{name}:"]
        for name, value in [("Host", self.host), *self.fields]:
            found += ["-H", f"{name}: {value}" if value else f"{name};"]
        if self.content is not None:
            found += ["--data-binary", self.content.decode()]
        if self.is_absolute:
            found += ["--request-target", f"http://{self.host}{self.target}"]
        return [*found, f"http://127.0.0.1:{port}{self.target}"]


@dataclass
class Client:
    """A client with marks that no other has."""

    number: int
    mark: str

    @property
    def credentials(self) -> str:
        return f"c{self.number}:pw-{self.mark}"


@dataclass
class Traffic:
    draw: random.Random
    clients: list[Client]
    targets: list[str]
    is_notes: bool
    now: int
    # The tags and dates that were seen of a target, the last ones last.
    tags: dict[str, list[str]] = field(default_factory=dict)
    dates: dict[str, list[str]] = field(default_factory=dict)
    made: dict[str, Request] = field(default_factory=dict)
    count: int = 0

    def is_likely(self, share: float) -> bool:
        return self.draw.random() < share

    def see(self, request: Request, response: Message | None) -> None:
        """Remembers the validators of a response, and the targets that it names."""
        if response is None:
            return
        self.tags.setdefault(request.target, []).extend(response.lines("etag"))
        self.dates.setdefault(request.target, []).extend(response.lines("last-modified"))
        for target in response.lines("location"):
            if target.startswith("/") and target not in self.targets and len(self.targets) < 7:
                self.targets.append(target)

    def request(self, client: Client) -> Request:
        draw = self.draw
        self.count += 1
        method, target = draw.choice(METHODS), draw.choice(self.targets[:3] if self.is_likely(0.5) else self.targets)
        if method == "POST" and self.is_notes and self.is_likely(0.8):
            target = "/notes"
        if self.is_likely(0.05):
            target += draw.choice(["?a=1", "?a=2", "?"])
        made = Request(client.number, f"{client.mark}-r{self.count}", method, target, draw.choice(HOSTS), [])
        made.is_absolute = self.is_likely(0.03)
        made.fields = [("X-Mark", made.mark), ("X-Client", client.mark)]
        if method == "GET" and self.is_likely(0.5) and (earlier := self.made.get(target)):
            # (as an earlier one of maybe another client, so that a stored response may be its answer)
            made.host, made.is_absolute = "a.test", False
            made.fields += [it for it in earlier.fields if it[0] in FIELDS]
            if self.is_likely(0.3):
                self.add_conditions(made)
            if self.is_likely(0.15):
                made.fields.append(("Cache-Control", draw.choice(ASKED)))
            return made
        self.add_fields(made, client)
        self.made[target] = made
        if method in ("PUT", "PATCH", "POST") or self.is_likely(0.01):
            self.add_content(made)
        draw.shuffle(made.fields)
        return made

    def add_fields(self, made: Request, client: Client) -> None:
        draw, add = self.draw, made.fields.append
        for name, values in FIELDS.items():
            if self.is_likely(SHARES[name]):
                made.fields += [(name, draw.choice(values)) for _ in range(2 if self.is_likely(0.04) else 1)]
        if self.is_likely(0.2):
            made.fields += (cache_control(draw, REQUEST_FLAGS, REQUEST_NUMBERS) if self.is_likely(0.2)
                            else [("Cache-Control", draw.choice(ASKED))])
        if self.is_likely(0.5 if made.target.startswith(("/secure", "/members")) else 0.08):
            add(("Authorization", f"Basic {base64.b64encode(client.credentials.encode()).decode()}"))
        if self.is_likely(0.2):
            add(("Cookie", draw.choice([f"s={client.mark}", "theme=dark"])))
        self.add_conditions(made)
        if self.is_likely(0.06):
            add(("Connection", draw.choice(OPTIONS)))
            made.fields += [("X-Own", f"own-{made.mark}")] * self.is_likely(0.7)
        elif self.is_likely(0.01):
            add(("Connection", draw.choice(FORBIDDEN_OPTIONS)))
        for name, values, share in (("TE", ["trailers", "gzip;q=0.5"], 0.03), ("Via", VIAS, 0.03),
                                    ("Expect", EXPECTATIONS, 0.006), ("Upgrade", ["websocket"], 0.01),
                                    ("Forwarded", ["for=192.0.2.1"], 0.02), ("Pragma", ["no-cache"], 0.01),
                                    ("Proxy-Connection", ["keep-alive"], 0.01)):
            if self.is_likely(share):
                add((name, draw.choice(values)))
        if made.method in ("OPTIONS", "TRACE") and self.is_likely(0.6):
            add(("Max-Forwards", draw.choice(["0", "1", "2", "3", "9"])))
        if made.method == "OPTIONS" and self.is_likely(0.4):
            add(("Access-Control-Request-Method", draw.choice(["PUT", "PATCH"])))

    def add_conditions(self, made: Request) -> None:
        draw, add = self.draw, made.fields.append
        tags = self.tags.get(made.target, [])[-3:] or ['"1"']
        dates = self.dates.get(made.target, [])[-3:] or [imf_fixdate(self.now - 100)]
        is_write = made.method in ("PUT", "DELETE", "PATCH", "POST")
        if self.is_likely(0.8 if is_write else 0.02):
            add(("If-Match", draw.choice([tags[-1], tags[-1], draw.choice(tags), "*", '"0"'])))
        if self.is_likely(0.04 if is_write else 0.2):
            tag = draw.choice(tags)
            weak = f"W/{tag}".replace("W/W/", "W/")
            add(("If-None-Match", draw.choice([tag, tag, tag, weak, f'"0", {tag}', "*", '"0"'])))
        if self.is_likely(0.02 if is_write else 0.12):
            add(("If-Modified-Since", draw.choice([*dates, imf_fixdate(self.now), imf_fixdate(self.now - 10**6), "0"])))
        if self.is_likely(0.01):
            add(("If-Unmodified-Since", draw.choice(dates)))
        if self.is_likely(0.1):
            add(("Range", draw.choice(RANGES)))
            if self.is_likely(0.4):
                add(("If-Range", draw.choice([*tags, *dates, '"0"'])))

    def add_content(self, made: Request) -> None:
        """A text whose length no other has, so that a server that tags by length and second has a tag for each."""
        kind = "application/json" if self.is_notes and self.is_likely(0.95) else "text/plain"
        made.fields.append(("Content-Type", kind))
        made.content = b'{"text":"%s"}' % (b"n" * (10 + self.count))
        if self.is_likely(0.15):
            made.fields.append(("Transfer-Encoding", "chunked"))


@dataclass
class Sent:
    """What curl says of a request: the status, its own exit status, and the content."""

    status: int
    exit: int
    content: bytes


def send(requests: list[Request], port: int, folder: Path) -> list[Sent]:
    """Sends requests one after another, over one connection as long as that stays."""
    words: list[str] = []
    for number, request in enumerate(requests):
        (folder / f"{number}.content").unlink(missing_ok=True)
        words += [*(["--next"] if words else []), *request.words(port, folder / str(number))]
    done = subprocess.run(["curl", "-q", *words], stdin=subprocess.DEVNULL, capture_output=True, text=True, check=False)
    found = []
    for number, line in enumerate(done.stdout.splitlines()):
        path = folder / f"{number}.content"
        status, code = map(int, line.split(" "))
        has_content = path.exists() and requests[number].method != "HEAD"
        found.append(Sent(status, code, path.read_bytes() if has_content else b""))
    return found
