"""Random histories of a cache: clients ask, an origin answers, and time goes on. Half of the calls follow from what the
model answered, as a proxy would make them; the others don't."""
import random

from caching.generate import (AGES, ENTITY_TAGS, REQUEST_FLAGS, REQUEST_NUMBERS, RESPONSE_FLAGS, RESPONSE_NUMBERS,
                              cache_control, date)
from common.dates import imf_fixdate
from common.fields import Fields
from histories import writing
from histories.model import Answer, Cache, Request, Stored

BEGIN = 1795657000  # 25 Nov 2026
LENGTH = 22
TARGETS = ["/a", "/a", "/a", "/a", "/a", "/b", "/b", "/c"]
JUMPS = [0, 0, 0, 1, 1, 1, 5, 5, 10, 10, 29, 30, 31, 59, 60, 61, 300, 3600, 86400, -1, -60]
DELAYS = [0, 0, 0, 0, 1, 5, 60, -1]
METHODS = ["GET"] * 24 + ["HEAD"] * 3 + ["PUT", "DELETE", "POST", "PROPPATCH", "OPTIONS", "get"]
STATUSES = [200] * 24 + [203, 204, 206, 301, 302, 304, 404, 410, 500, 503, 599]
UNSAFE_STATUSES = [200, 201, 204, 303, 304, 400, 404, 500, 100, 399]
# Few values, so that requests often agree.
VARIED = {"accept-encoding": ["gzip", "gzip", "gzip, br", "gzip,br", "br, gzip", "GZIP", "", ",gzip"],
          "accept-language": ["en", "en", "de", "en;q=0.5"], "x-a": ["1", "1", "2", "", "1, 2"],
          "user-agent": ["A", "A", "a"]}
VARIES = ["accept-encoding"] * 3 + ["Accept-Language"] * 3 + ["x-a"] * 4
VARIES += ["X-A", "User-Agent", "accept-encoding, x-a", "x-a,,accept-encoding", "*", "x-a, *", "", '"x-a"', "x a"]
TAGS = ['"1"'] * 3 + ['"2"', 'W/"1"', 'W/"1"', 'W/"2"']
# (the last one is after now, until time has passed)
DATES = [BEGIN - 1000, BEGIN - 1000, BEGIN - 1000, BEGIN - 2000, BEGIN + 30]
LIFETIMES = ["max-age=60", "max-age=60", "max-age=600", "max-age=3600", "max-age=0", "s-maxage=60",
             "s-maxage=600, max-age=30", 'max-age="60"', 'max-age="\\6\\0"', "max-age=60, max-age=5"]
EXTRAS = ["public", "public", "must-revalidate", "stale-while-revalidate=600", "stale-if-error=600", "x", "private",
          "no-cache", "no-store", "must-revalidate", "proxy-revalidate", "must-understand",
          "stale-while-revalidate=60", "stale-if-error=60", "immutable", 'private="x-a"', 'x="\\", no-store"',
          'x="a, no-store"', "no-store-not"]
ASKED = ["max-age=0", "max-age=60", "max-stale", "max-stale=60", "min-fresh=10", "no-cache", "no-store",
         "only-if-cached", "stale-if-error=30", "max-age=600, max-stale=600"]
CONDITIONS = {"if-none-match": ['"1"', '"1"', 'W/"1"', '"2"', '"0", "1"', "*", '"1', ""],
              "if-modified-since": [imf_fixdate(it) for it in (*DATES, BEGIN, BEGIN + 60, BEGIN + 3600)] + ["0"],
              "range": ["bytes=0-0", "bytes=1-", "bytes=-2", "bytes=50-", "bytes=0-1,4-", "x=0-1", "bytes=2-1"],
              "if-range": ['"1"', 'W/"1"', imf_fixdate(BEGIN - 1000)], "if-match": ['"1"', "*"],
              "if-unmodified-since": [imf_fixdate(BEGIN)]}
CONNECTIONS = ["close", "close, x-b", "x-b", "keep-alive", "Vary", "cache-control", "x b", ",", "date",
               "CDN-Cache-Control"]
# The options of a cache.
OPTIONS = ("none", "immutable", "targeted fields", "guessed lifetimes", "all")
TARGETED = [("cdn-cache-control",), ("cdn-cache-control",), ("cdn-cache-control", "x-cdn-control"),
            ("x-cdn-control", "cdn-cache-control")]
MEMBERS = ["max-age=60", "max-age=60", "max-age=600", "max-age=0", "max-age=3600", "s-maxage=60", "no-store",
           "no-cache", "private", "public", "must-revalidate", "immutable", "immutable", "stale-while-revalidate=600",
           "stale-if-error=600", "none", "max-age=60;x", 'max-age="60"', "max-age=60.0", "max-age", "max-age=-1",
           "no-store=?0", "no-store=?1", "no-store=x", 'private="x-a"', 'no-cache="a, b"', "x=(1 2;y);z", "x=:YQ==:",
           "public;x=\"\\\"\"", "max-age=600; a=1;b", "must-understand", "proxy-revalidate"]
MALFORMED = ["Max-Age=60", "max-age =60", "max-age=1234567890123456", "x=", "x=(1", 'x="a', "x=1.", "x=?2", "x;",
             "x=@1", "", "x=1 y", 'x="\\a"', "x=:a", "no-store "]


class Player:
    """A cache and the history of its calls."""

    def __init__(self, draw: random.Random, option: str) -> None:
        self.draw, self.now, self.count = draw, BEGIN, 0
        limits = (draw.choice([1, 2, 3, 4, 8]), draw.choice([1, 2, 3, 4, 6, 16]))
        is_shared = draw.random() < 0.5
        self.is_immutable = option in ("immutable", "all")
        self.guesses = option in ("guessed lifetimes", "all")
        self.targeted = draw.choice(TARGETED) if option in ("targeted fields", "all") else ()
        self.cache = Cache(is_shared, *limits, self.is_immutable, self.targeted)
        self.head = writing.head(is_shared, *limits, self.is_immutable, self.targeted)
        self.calls: list[writing.Call] = []

    def is_likely(self, share: float) -> bool:
        return self.draw.random() < share

    def add(self, call: list[object], answer: list[object]) -> None:
        self.calls.append(writing.Call(writing.words(call), [writing.words(answer)]))

    # Calls

    def lookup(self, target: str, request: Request) -> Answer:
        most = self.draw.choice([60, 86400]) if self.guesses and self.is_likely(0.6) else None
        answer = self.cache.lookup(target, request, self.now, most or 0)
        call = ["lookup", target, self.now] if most is None else ["lookup_guessing", target, self.now, most]
        self.add([*call, *writing.request_words(request)], writing.answer_words(answer))
        return answer

    def store(self, target: str, request: Request) -> None:
        requested, received = self.exchange()
        came = Stored(request, self.draw.choice(STATUSES), self.response(received), self.content(), requested, received)
        is_complete = self.is_likely(0.95)
        answer = self.cache.store(target, came, is_complete)
        name = "store" if is_complete else "store_incomplete"
        self.add([name, target, *writing.came_words(came)], writing.answer_words(answer))

    def freshen(self, target: str, request: Request, update: Fields) -> Answer:
        requested, received = self.exchange()
        answer = self.cache.freshen(target, request, update, requested, received)
        self.add(["freshen", target, requested, received, *writing.request_words(request), "(/)",
                  *writing.map_words(update)], writing.answer_words(answer))
        return answer

    def freshen_by_head(self, target: str, request: Request, head: Fields) -> None:
        requested, received = self.exchange()
        answer = self.cache.freshen_by_head(target, request, head, requested, received)
        self.add(["freshen_by_head", target, requested, received, *writing.request_words(request), "(/)",
                  *writing.map_words(head)], writing.answer_words(answer))

    def answer(self, target: str, place: int, request: Request) -> None:
        has_ranges = self.is_likely(0.7)
        call = ["answer", target, place, self.now, "ranges" if has_ranges else "no_ranges",
                *writing.request_words(request)]
        permitted = self.cache.answers(target, place, request, self.now, has_ranges)
        self.calls.append(writing.Call(writing.words(call), permitted))

    def invalidate(self, target: str, method: str) -> None:
        status = self.draw.choice(UNSAFE_STATUSES)
        answer = self.cache.invalidate(target, method, status)
        self.add(["invalidate", target, method, status], writing.answer_words(answer))

    def responses(self, target: str) -> None:
        self.add(["responses", target], writing.responses_words(self.cache.at(target)))

    # Messages

    def exchange(self) -> tuple[int, int]:
        """When a request is sent and when its response comes."""
        requested, self.now = self.now, max(self.now, self.now + self.draw.choice(DELAYS))
        return requested, self.now - (self.is_likely(0.03))

    def content(self) -> str:
        self.count += 1
        return f"r{self.count}".ljust(self.draw.choice([2, 3, 5, 9, 20, 40]), ".") if self.is_likely(0.97) else ""

    def request(self) -> Request:
        fields: Fields = []
        for name, values in VARIED.items():
            if self.is_likely(0.4):
                fields += [(name, self.draw.choice(values)) for _ in range(2 if self.is_likely(0.05) else 1)]
        if self.is_likely(0.3):
            fields += (cache_control(self.draw, REQUEST_FLAGS, REQUEST_NUMBERS) if self.is_likely(0.3)
                       else [("cache-control", self.draw.choice(ASKED))])
        if self.is_likely(0.12):
            fields.append(("authorization", "Basic YTpi"))
        for name, values in CONDITIONS.items():
            if self.is_likely(0.02 if name.startswith(("if-match", "if-un")) else 0.12):
                fields.append((name, self.draw.choice(values)))
        return Request(self.draw.choice(METHODS), trimmed(fields))

    def validators(self) -> Fields:
        fields: Fields = []
        if self.is_likely(0.5):
            fields += [("etag", self.draw.choice(TAGS if self.is_likely(0.93) else ENTITY_TAGS))
                       for _ in range(2 if self.is_likely(0.03) else 1)]
        if self.is_likely(0.6 if self.guesses else 0.3):
            second = self.draw.choice(DATES)
            fields.append(("last-modified", imf_fixdate(second) if self.is_likely(0.9) else date(self.draw, second)))
        return fields

    def common_fields(self, received: int) -> Fields:
        """Fields of a response or of a 304."""
        fields: Fields = []
        if self.is_likely(0.5 if self.guesses else 0.85):
            fields += self.control()
        for name in ("cdn-cache-control", "x-cdn-control"):
            if self.is_likely(0.5 if name in self.targeted else 0.05):
                fields += [(name, self.dictionary()) for _ in range(2 if self.is_likely(0.1) else 1)]
        if self.is_likely(0.6):
            made = received - self.draw.choice([0, 0, 0, 1, 5, 30, 60, 3600, -5])
            fields.append(("date", imf_fixdate(made) if self.is_likely(0.9) else date(self.draw, made)))
        if self.is_likely(0.15):
            expires = received + self.draw.choice([-60, 0, 1, 60, 600])
            fields += [("expires", date(self.draw, expires)) for _ in range(2 if self.is_likely(0.05) else 1)]
        if self.is_likely(0.15):
            fields.append(("age", self.draw.choice(AGES if self.is_likely(0.3) else ["0", "1", "10", "59", "60"])))
        if self.is_likely(0.5):
            fields += [("vary", self.draw.choice(VARIES)) for _ in range(2 if self.is_likely(0.1) else 1)]
        if self.is_likely(0.06):
            fields.append(("connection", self.draw.choice(CONNECTIONS)))
        for name in ("x-b", "content-type", "content-length", "content-encoding", "keep-alive", "proxy-authenticate"):
            if self.is_likely(0.08):
                fields.append((name, self.draw.choice(["1", "2"])))
        return fields

    def control(self) -> Fields:
        if self.is_likely(0.15):
            return cache_control(self.draw, RESPONSE_FLAGS, RESPONSE_NUMBERS)
        found = [self.draw.choice(LIFETIMES)] if self.is_likely(0.9) else []
        found += [self.draw.choice(EXTRAS) for _ in range(self.draw.choice([0, 0, 1, 1, 2]))]
        if self.is_immutable and self.is_likely(0.4):
            found.append(self.draw.choice(["immutable", "immutable", "Immutable", "immutable=1"]))
        return [("cache-control", ", ".join(found))]

    def dictionary(self) -> str:
        found = [self.draw.choice(MEMBERS) for _ in range(self.draw.choice([1, 1, 2, 2, 3]))]
        if self.is_likely(0.12):
            found.insert(self.draw.randrange(len(found) + 1), self.draw.choice(MALFORMED))
        return self.draw.choice([", ", ",", " ,\t"]).join(found)

    def response(self, received: int) -> Fields:
        fields = self.common_fields(received) + self.validators()
        self.draw.shuffle(fields)
        return trimmed(fields)

    def not_modified(self, stored: Stored) -> Fields:
        """A 304, mostly about the stored response."""
        own = [it for it in stored.fields if it[0].lower() in ("etag", "last-modified")]
        if own and self.is_likely(0.3):
            own = [self.draw.choice(own)]
        others = self.common_fields(self.now) if self.is_likely(0.5) else []
        return trimmed([*others, *(own if self.is_likely(0.75) else self.validators())])

    def cookie(self) -> Fields:
        return [("set-cookie", self.draw.choice(["a=1", "b=2"]))] if self.is_likely(0.05) else []

    def described(self, stored: Stored) -> Fields:
        """The fields of a 200 to HEAD, mostly about the stored response."""
        length = [it for it in stored.fields if it[0].lower() == "content-length"]
        return self.not_modified(stored) + (length if self.is_likely(0.5) else [])

    # What a proxy does

    def serve(self, target: str, request: Request) -> None:
        """A request, and what follows from the answer."""
        answer = self.lookup(target, request)
        if answer.word == "forward":
            if request.method not in ("GET", "HEAD"):
                self.invalidate(target, request.method)
            elif self.is_likely(0.9):
                self.forward(target, request)
        elif answer.word in ("validate", "validate_or_serve") and answer.response is not None:
            self.validate(target, request, answer.response)
        elif answer.response is not None:
            self.answer(target, self.place(target, answer.response), request)

    def forward(self, target: str, request: Request) -> None:
        found = self.cache.at(target)
        if request.method == "HEAD" and found:
            self.freshen_by_head(target, request, self.described(self.draw.choice(found)))
        self.store(target, request)

    def validate(self, target: str, request: Request, stored: Stored) -> None:
        kind = self.draw.random()
        if kind < 0.6:
            freshened = self.freshen(target, request, self.not_modified(stored) + self.cookie())
            if freshened.word in ("absent", "unchanged"):
                self.store(target, request)
            elif freshened.word == "stored" and self.is_likely(0.5):
                self.answer(target, len(self.cache.at(target)) - 1, request)
        elif kind < 0.9:
            self.forward(target, request)

    def place(self, target: str, stored: Stored) -> int:
        return next(place for place, it in enumerate(self.cache.at(target)) if it is stored)

    def again(self, target: str) -> Request:
        """A request like one that was answered before, or another one."""
        request, found = self.request(), self.cache.at(target)
        if found and self.is_likely(0.6):
            own = [it for it in request.fields if it[0] == "cache-control"]
            return Request(request.method, self.draw.choice(found).request.fields + own)
        return request

    def call(self) -> None:
        """A call that follows from nothing."""
        target = self.draw.choice(TARGETS)
        request = self.again(target)
        kind = self.draw.random()
        if kind < 0.4:
            self.store(target, request)
        elif kind < 0.65:
            self.lookup(target, request)
        elif kind < 0.85:
            found = self.cache.at(target)
            self.freshen(target, request, self.not_modified(self.draw.choice(found)) if found else self.validators())
        elif kind < 0.88:
            if found := self.cache.at(target):
                head = Request("HEAD", request.fields)
                self.freshen_by_head(target, head, self.described(self.draw.choice(found)))
        elif kind < 0.92:
            self.answer(target, self.draw.choice([0, 0, 1]), request)
        elif kind < 0.96:
            self.invalidate(target, request.method)
        else:
            self.responses(target)

    def play(self) -> "Player":
        while len(self.calls) < LENGTH:
            self.now += self.draw.choice(JUMPS)
            if self.is_likely(0.5):
                target = self.draw.choice(TARGETS)
                self.serve(target, self.again(target))
            else:
                self.call()
        for target in sorted({*TARGETS}):
            self.responses(target)
        return self

    def lines(self) -> list[str]:
        return [self.head, *(call.line() for call in self.calls)]


def trimmed(fields: Fields) -> Fields:
    """As a parser hands them on."""
    return [(name, value.strip(" \t")) for name, value in fields]


def history(seed: int, option: str, index: int) -> Player:
    """A history that was played. Each has its own random numbers, so that it can be made again by itself."""
    return Player(random.Random(f"{seed}/{option}/{index}"), option).play()
