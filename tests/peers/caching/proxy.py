"""A caching reverse proxy whose decisions are ours.

    python3 -m caching.proxy PORT ORIGIN shared|private

By the library for C: may_store, lifetime, heuristic_lifetime, current_age, decide, validators, evaluate, select, and
what an empty cache does. By the program of test cases, as C has no such call: decide_by and freshening_at. By hand,
as nothing of ours has it: what is stored under which target, invalidation, fields that aren't stored, and the answer if
nothing is stored.
"""
import http.client
import socketserver
import sys
import threading
import time
import traceback
from collections.abc import Callable
from dataclasses import dataclass
from http.server import BaseHTTPRequestHandler
from typing import Any

from common import products, rows
from common.dates import valid_date
from common.fields import Fields, section

headers = products.library()
Decision = headers.Decision
PROGRAM = products.program()
# Fields of one connection, which aren't stored (RFC 9111, section 3.1).
HOP = {"connection", "keep-alive", "proxy-connection", "te", "transfer-encoding", "upgrade", "proxy-authenticate",
       "proxy-authentication-info", "proxy-authorization"}
CONDITIONS = {"if-none-match", "if-modified-since", "range", "if-range"}
SAFE = {"GET", "HEAD", "OPTIONS", "TRACE"}
NAMES = {"Serve": "SERVE", "ServeAndRevalidate": "SERVE_AND_REVALIDATE", "ServeStale": "SERVE_STALE",
         "Revalidate": "REVALIDATE", "RevalidateOrServe": "REVALIDATE_OR_SERVE", "Unavailable": "UNAVAILABLE",
         "Fetch": "FETCH"}


@dataclass
class Entry:
    """A stored response, the request that it answered, and when that was sent and the response came."""

    method: str
    request: Fields
    status: int
    fields: Fields
    body: bytes
    asked: int
    received: int

    def times(self) -> Any:
        return headers.Times(self.asked, self.received)

    def age(self) -> int:
        return headers.current_age(section(self.fields), self.times())


class Store:
    """What is stored, by the target."""

    def __init__(self, is_shared: bool) -> None:
        self.is_shared, self.kind = is_shared, "shared" if is_shared else "private"
        self.entries: dict[str, list[Entry]] = {}
        self.lock = threading.Lock()

    def at(self, target: str) -> list[Entry]:
        with self.lock:
            return list(self.entries.get(target, ()))

    def decide(self, entry: Entry, method: str, request: Fields) -> Any:
        """The decision, with a guessed lifetime if the origin states none."""
        response = section(entry.fields)
        found = headers.decide(entry.method, section(entry.request), method, section(request), response,
                               entry.times(), shared=self.is_shared)
        if found == Decision.FETCH or headers.lifetime(response, entry.received, shared=self.is_shared) is not None:
            return found
        guess = headers.heuristic_lifetime(entry.status, response, entry.received, shared=self.is_shared)
        if guess is None:
            return found
        words = [*rows.map_words(request), "(/)", *rows.map_words(entry.fields)]
        return Decision[NAMES[row("decide_by", self.kind, str(guess), str(entry.age()), *words)]]

    def put(self, target: str, new: Entry) -> None:
        """Stores a response in place of those that could answer its request."""
        if not headers.may_store(new.method, section(new.request), new.status, section(new.fields),
                                 shared=self.is_shared):
            return
        with self.lock:
            kept = [it for it in self.entries.get(target, ()) if it.method != new.method
                    or self.decide(it, new.method, new.request) == Decision.FETCH]
            self.entries[target] = [new, *kept]

    def invalidate(self, target: str) -> None:
        with self.lock:
            self.entries.pop(target, None)


def row(*words: str) -> str:
    return rows.answers(PROGRAM, [" ".join(words)])[0]


def freshened(stored: Fields, update: Fields, received: int) -> Fields | None:
    """The stored fields after a 304 that came at this time, or `None` if that isn't about the stored response."""
    answer = row("freshening_at", str(received), *rows.map_words(stored), "(/)", *rows.map_words(update))
    if answer == "not_updated":
        return None
    return [(name.decode(), value.decode("latin-1")) for name, value in rows.read_map(answer.split(" "))]


@dataclass
class Fetched:
    """A response, its fields without those of the connection, and all that came."""

    status: int
    fields: Fields
    body: bytes
    asked: int
    received: int
    is_whole: bool
    came: Fields


def ask_origin(port: int, method: str, target: str, fields: Fields, body: bytes | None) -> Fetched:
    connection = http.client.HTTPConnection("127.0.0.1", port, timeout=20)
    asked = int(time.time())
    connection.putrequest(method, target, skip_host=True, skip_accept_encoding=True)
    connection.putheader("Host", "localhost")
    for name, value in fields:
        if name.lower() not in HOP | {"host", "content-length"}:
            connection.putheader(name, value)
    if body:
        connection.putheader("Content-Length", str(len(body)))
    connection.endheaders(body or None)
    response = connection.getresponse()
    content = response.read()
    named = {it.strip().lower() for it in (response.getheader("connection") or "").split(",")}
    came = [(name.lower(), value) for name, value in response.getheaders()]
    lines = [it for it in came if it[0] not in HOP | named]
    is_whole = method == "HEAD" or response.length in (0, None)
    connection.close()
    return Fetched(response.status, lines, content, asked, int(time.time()), is_whole, came)


class Proxy(BaseHTTPRequestHandler):
    protocol_version = "HTTP/1.1"
    timeout = 30
    store: Store
    origin: int

    def log_message(self, *_: Any) -> None:
        pass

    def __getattr__(self, name: str) -> Callable[[], None]:
        if name.startswith("do_"):
            return self.answer
        raise AttributeError(name)

    def answer(self) -> None:
        length = int(self.headers.get("Content-Length") or 0)
        body = self.rfile.read(length) if length else None
        request = list(self.headers.items())
        for entry in self.store.at(self.path):
            decision = self.store.decide(entry, self.command, request)
            if decision not in (Decision.FETCH, Decision.UNAVAILABLE):
                self.reuse(decision, entry, request)
                return
        # (if no stored response answers the request, it is as if there were none)
        empty = headers.Cache(shared=self.store.is_shared)
        step = empty.begin(self.command, self.path, section(request)).step
        if isinstance(step, headers.Reply):
            self.send(step.status, list(step.fields))
        else:
            self.fetch(request, body=body)

    def reuse(self, decision: Any, entry: Entry, request: Fields) -> None:
        if decision in (Decision.SERVE, Decision.SERVE_STALE):
            self.serve(entry, request)
        elif decision == Decision.SERVE_AND_REVALIDATE:
            self.serve(entry, request)
            self.fetch(request, entry, answers=False)
        else:
            self.fetch(request, entry, entry if decision == Decision.REVALIDATE_OR_SERVE else None)

    def fetch(self, request: Fields, entry: Entry | None = None, on_error: Entry | None = None,
              body: bytes | None = None,
              answers: bool = True) -> None:
        """Asks the origin, by a condition if there is an entry, stores what comes and answers with it."""
        sent = request
        if entry is not None:
            own = headers.validators(section(entry.fields), entry.received)
            sent = [it for it in request if it[0].lower() not in CONDITIONS] + list(own)
        try:
            fetched = ask_origin(self.origin, self.command, self.path, sent, body)
        except (OSError, http.client.HTTPException):
            fetched = Fetched(504, [], b"", 0, 0, False, [])
        if fetched.status in (500, 502, 503, 504) and on_error is not None:
            if answers:
                self.serve(on_error, request)
            return
        if fetched.status == 304 and entry is not None:
            fields = freshened(entry.fields, fetched.fields, fetched.received)
            if fields is None:
                self.fetch([it for it in request if it[0].lower() not in CONDITIONS], answers=answers)
                return
            entry.fields, entry.asked, entry.received = fields, fetched.asked, fetched.received
            if answers:
                self.serve(entry, request)
            return
        self.keep(request, fetched)
        if answers:
            self.send(fetched.status, fetched.fields, fetched.body)

    def keep(self, request: Fields, fetched: Fetched) -> None:
        if not any(name == "date" for name, _ in fetched.fields):
            fetched.fields.append(("date", self.date_time_string(fetched.received)))
        if fetched.is_whole:
            self.store.put(self.path, Entry(self.command, request, fetched.status, fetched.fields, fetched.body,
                                            fetched.asked, fetched.received))
        if self.command not in SAFE and fetched.status < 400:
            self.store.invalidate(self.path)

    def serve(self, entry: Entry, request: Fields) -> None:
        """Answers with a stored response, also to a conditional request and to one for ranges."""
        fields = [it for it in entry.fields if it[0] != "age"] + [("age", str(entry.age()))]
        if entry.status == 200:
            known = dict(fields)
            modified = valid_date(known.get("last-modified") or known.get("date") or "", int(time.time()))
            target = headers.Target(known.get("etag"), modified)
            asked = section(it for it in request if it[0].lower() in CONDITIONS)
            try:
                if headers.evaluate(self.command, asked, target) == 304:
                    return self.send(304, fields)
                selected = headers.select(self.command, asked, target, len(entry.body))
            except headers.HeaderError:  # an entity tag that is none
                selected = headers.Selection(200)
            if len(selected.ranges) == 1:
                (part,) = selected.ranges
                fields = [it for it in fields if it[0] != "content-length"]
                fields.append(("content-range", str(headers.ContentRange(part, len(entry.body)))))
                return self.send(206, fields, entry.body[part.slice])
        return self.send(entry.status, fields, entry.body)

    def send(self, status: int, fields: Fields, body: bytes | None = b"") -> None:
        if body is not None and status not in (204, 304) and not any(name == "content-length" for name, _ in fields):
            fields = [*fields, ("content-length", str(len(body)))]
        head = f"HTTP/1.1 {status} X\r\n" + "".join(f"{name}: {value}\r\n" for name, value in fields) + "\r\n"
        self.wfile.write(head.encode("latin-1") + (b"" if self.command == "HEAD" or status in (204, 304) else body or b""))


class Server(socketserver.ThreadingMixIn, socketserver.TCPServer):
    allow_reuse_address = True
    daemon_threads = True
    request_queue_size = 512

    def handle_error(self, request: Any, client_address: Any) -> None:
        traceback.print_exc()


if __name__ == "__main__":
    Proxy.store, Proxy.origin = Store(sys.argv[3] == "shared"), int(sys.argv[2])
    Server(("127.0.0.1", int(sys.argv[1])), Proxy).serve_forever()
