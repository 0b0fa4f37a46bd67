"""A caching proxy whose every decision is a step of a pass through the proved cache, by the package typed_headers.

The rest is here, unproved: connections, what is removed of a message, Via, and the sending of what a step answers.
"""
import re
import threading
from typing import Any

from common import products
from common.dates import imf_fixdate
from common.fields import Fields, lines_of, section
from common.passing import end
from messages import Broken, Message, Stream, tokens, written
from parts import World

headers = products.library()
LIMITS = {"variants": 8, "responses": 64, "content": 1_000_000}
# The greatest lifetime that is guessed.
DAY = 86400
SAFE = {"GET", "HEAD", "OPTIONS", "TRACE"}
IDEMPOTENT = SAFE | {"PUT", "DELETE"}
FAILURES = (500, 502, 503, 504)
# Fields of one connection (RFC 9110, section 7.6.1), and those that delimit the content, which is written anew.
HOP = {"connection", "keep-alive", "proxy-connection", "te", "transfer-encoding", "upgrade", "content-length",
       "proxy-authenticate", "proxy-authorization", "proxy-authentication-info"}
# A sender must not name them in Connection: they are for all recipients.
NEVER_NAMED = {"host", "content-length", "transfer-encoding", "via", "max-forwards", "date", "cache-control",
               "authorization", "cookie", "set-cookie", "vary", "age", "expires", "etag", "last-modified"}
FAULTS = {
    "ignores_vary": "stores each response without its Vary",
    "keeps_private": "stores each response without no-store and private",
    "keeps_authorized": "stores a response as if its request had no Authorization",
    "keeps_connection_fields": "removes no field of a connection",
    "forgets_to_invalidate": "doesn't remove what is stored after an unsafe request",
    "serves_without_age": "sends a stored response without Age",
    "stops_its_clock": "asks as if no time had passed",
    "answers_304_to_all": "answers 304 to each request that has If-None-Match",
    "mixes_hosts": "has one key for all hosts",
    "mixes_contents": "sends the content of the response that was stored last",
    "cuts_contents": "sends a stored content without its last byte",
    "shifts_ranges": "sends each part of a stored content one byte off",
    "writes_no_via": "adds nothing to Via",
    "drops_fields": "doesn't forward Accept-Language",
    "serves_on_no_error": "serves a stale response though no directive allows it, if the origin server fails",
    "answers_unsafe": "takes each request through the cache as if it were GET",
    "only_passes_bytes": "in place of a gateway: sends each message on as it came",
}
# By which a fault finds the fields of a response that it stored otherwise.
ORIGINAL = "x-original"


def without(fields: Fields, *names: str) -> Fields:
    return [it for it in fields if it[0].lower() not in names]


class Cache:
    """A shared or private cache that listens at one port and asks another."""

    def __init__(self, world: World, name: str, is_shared: bool, onward: int, faults: set[str]) -> None:
        self.world, self.name, self.onward, self.faults = world, name, onward, faults
        self.responses, self.began = headers.Cache(shared=is_shared, guess=DAY, **LIMITS), world.now
        self.lock = threading.Lock()
        # The connection to the next server, which is opened when it is needed.
        self.next_stream: Stream | None = None
        # What a fault needs: the fields of responses that are stored otherwise, and the content that was stored last.
        self.originals: list[Fields] = []
        self.last_content = b""

    def now(self) -> int:
        return self.began if "stops_its_clock" in self.faults else self.world.now

    def serve(self, stream: Stream) -> None:
        is_open = True
        while is_open:
            request = stream.request()
            # One request at a time, since all have one connection to the next server.
            with self.world.working(), self.lock:
                is_open = Turn(self, stream, request).answer()

    def ask(self, request: Message) -> Message:
        """The response of the next server. A server may close a connection that was used at any time. So a request that
        is lost with one is sent once more if its method is idempotent, and else gets a connection of its own (RFC 9112,
        sections 9.3.1 and 9.5)."""
        if request.method not in IDEMPOTENT:
            self.drop()
        is_new = self.next_stream is None
        self.next_stream = self.next_stream or self.world.connect(self.onward)
        try:
            self.next_stream.connection.sendall(written(request, bool(request.content)))
            _, response = self.next_stream.response(request.method)
        except (OSError, Broken):
            self.drop()
            if not is_new:
                return self.ask(request)
            raise Broken("no response") from None
        if response.is_last:
            self.drop()
        return response

    def drop(self) -> None:
        if self.next_stream:
            self.next_stream.connection.close()
        self.next_stream = None


class Turn:
    """A request and what is done with it."""

    def __init__(self, cache: Cache, stream: Stream, request: Message) -> None:
        self.cache, self.stream, self.request = cache, stream, request
        self.faults = cache.faults
        self.method = request.method
        self.is_answered = False
        path, host = request.target, (request.lines("host") or [""])[0]
        if path.lower().startswith("http://"):
            host, slash, path = path[7:].partition("/")
            path = slash + path
            request.fields = [("Host", host), *without(request.fields, "host")]
        self.path = path or "/"
        self.key = f"http://{'' if 'mixes_hosts' in self.faults else host.lower()}{self.path}"
        self.fields = self.end_to_end(request)

    def end_to_end(self, message: Message) -> Fields:
        """The fields that may be forwarded, stored and compared."""
        if "keeps_connection_fields" in self.faults:
            return without(message.fields, "transfer-encoding", "content-length")
        return without(message.fields, *HOP, *message.options())

    # Answers

    def send(self, status: int, fields: Fields, content: bytes = b"", length: str | None = None) -> None:
        """Sends a response, unless the client has one."""
        if self.is_answered:
            return
        self.is_answered = True
        message = Message(f"HTTP/1.1 {status} X", list(fields), content)
        has_content = self.method != "HEAD" and status not in (204, 304)
        if not message.lines("date"):
            message.fields.append(("Date", imf_fixdate(self.cache.now())))
        if "writes_no_via" not in self.faults:
            message.fields.append(("Via", f"1.1 {self.cache.name}"))
        if length is not None and not has_content:
            message.fields.append(("Content-Length", length))
        if "close" in self.request.options():
            message.fields.append(("Connection", "close"))
        if not has_content:
            message.content = b""
        self.stream.connection.sendall(written(message, has_content))

    def reply(self, reply: Any) -> None:
        """Answers by what the cache replies."""
        status, fields, content = reply.status, list(reply.fields), reply.content or b""
        if number := lines_of(fields, ORIGINAL):
            fields = [*self.cache.originals[int(number[-1])], *(it for it in fields if it[0] == "age")]
        if "serves_without_age" in self.faults:
            fields = without(fields, "age")
        if "mixes_contents" in self.faults:
            content = self.cache.last_content if status != 206 else self.cache.last_content[:len(content)]
        if "cuts_contents" in self.faults:
            content = content[:-1]
        if "shifts_ranges" in self.faults and status == 206:
            content = content[1:] + b"."
        if "answers_304_to_all" in self.faults and lines_of(self.fields, "if-none-match"):
            status, fields = 304, without(fields, "content-type", "content-encoding", "content-length")
        length = lines_of(fields, "content-length")
        self.send(status, without(fields, "content-length"), content, length[0] if length else None)

    def pass_on(self, came: Message) -> None:
        length = tokens(came.lines("content-length"))
        self.send(came.status, self.end_to_end(came), came.content, length[0] if length else None)

    # Decisions

    def answer(self) -> bool:
        """Answers, and returns whether the client may send another request."""
        self.decide()
        return "close" not in self.request.options()

    def decide(self) -> None:
        if NEVER_NAMED & set(self.request.options()) and "keeps_connection_fields" not in self.faults:
            self.send(400, [])
        elif self.method in ("OPTIONS", "TRACE") and self.limits_hops():
            self.send(200, [])
        elif self.method not in SAFE and "forgets_to_invalidate" in self.faults:
            self.pass_on(self.forward(headers.Ask()))
        else:
            self.go_on(self.begin(self.fields))

    def limits_hops(self) -> bool:
        """Whether Max-Forwards ends the way here; else it is one less (RFC 9110, section 7.6.2)."""
        left = lines_of(self.fields, "max-forwards")
        if not left or not left[0].isdigit():
            return False
        self.fields = [*without(self.fields, "max-forwards"), ("Max-Forwards", str(int(left[0]) - 1))]
        return left[0] == "0"

    def begin(self, fields: Fields) -> Any:
        """A pass for this request with these fields."""
        method = "GET" if "answers_unsafe" in self.faults else self.method
        if "keeps_authorized" in self.faults:
            fields = without(fields, "authorization")
        return self.cache.responses.begin(method, self.key, section(fields), now=self.cache.now())

    def go_on(self, passing: Any) -> None:
        """Makes the steps of a pass to its end."""
        step = passing.step
        while isinstance(step, headers.Ask):
            try:
                came = self.forward(step)
            except Broken:
                found = passing.failed(now=self.cache.now()) or self.stale_all_the_same()
                return self.reply(found) if found else self.send(504, [])
            if NEVER_NAMED & set(came.options()):
                passing.close()
                return self.send(502, [])
            step = passing.came(came.status, section(self.told(came)), now=self.cache.now())
            if isinstance(step, headers.PassOn):
                if step.stores and end(passing, came.content, True, self.cache.now()):
                    self.cache.last_content = came.content
                found = self.stale_all_the_same() if came.status in FAILURES else None
                return self.reply(found) if found else self.pass_on(came)
        self.reply(step)
        validation = passing.validation(now=self.cache.now()) if step.validates else None
        if validation:
            self.go_on(validation)

    def forward(self, ask: Any) -> Message:
        """The next server's response to the request, with the fields by which it is asked."""
        fields = ask.apply(self.fields)
        if "drops_fields" in self.faults:
            fields = without(fields, "accept-language")
        if "writes_no_via" not in self.faults:
            fields = [*fields, ("Via", f"1.1 {self.cache.name}")]
        return self.cache.ask(Message(f"{self.method} {self.path} HTTP/1.1", fields, self.request.content))

    def told(self, came: Message) -> Fields:
        """The fields of a response, as the cache is told them."""
        fields = came.fields
        if "ignores_vary" in self.faults:
            fields = without(fields, "vary")
        if "keeps_private" in self.faults and re.search("private|no-store", str(came.lines("cache-control"))):
            fields = [*without(fields, "cache-control"), ("cache-control", "max-age=60")]
        if fields is not came.fields:
            self.cache.originals.append([(name.lower(), value) for name, value in self.end_to_end(came)])
            fields = [*fields, (ORIGINAL, str(len(self.cache.originals) - 1))]
        return fields

    def stale_all_the_same(self) -> Any:
        """A fault: what is stored, though the request doesn't say that it may be stale."""
        if "serves_on_no_error" not in self.faults:
            return None
        fields = [*without(self.fields, "cache-control"), ("cache-control", "only-if-cached, max-stale")]
        step = self.begin(fields).step
        return step if isinstance(step, headers.Reply) and step.status != 504 else None
