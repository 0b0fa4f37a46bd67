"""Passes over one cache, whose steps interleave at random: up to eight requests of clients are open. The model is a
second reading of RFC 9111, sections 3, 4 and 4.4, and of RFC 5861, section 4, over the model of a cache; where the text
leaves a choice, it does what the page of the crate `cache_store` names."""
import random
from dataclasses import dataclass

from caching.model import current_ages, has
from common.dates import imf_fixdate
from common.fields import Fields, lines_of
from common.rows import word
from histories import writing
from histories.generate import JUMPS, STATUSES, TARGETS, VARIED, Player, trimmed
from histories.model import SAFE, Request, Stored, answers, is_fair, is_for_cache, matches, read
from histories.writing import Call, Told

OPEN = 8
LENGTH = 30
# Choice: the longest lifetime that is guessed.
GUESS = 60
FAILURES = (500, 502, 503, 504)
OF_CLIENT = ("cache-control", "if-match", "if-modified-since", "if-none-match", "if-range", "if-unmodified-since", "range")
HOST = "http://a.example"
# What an origin says whose pages are asked for again and again.
MILD = ["max-age=600", "max-age=60", "max-age=10, stale-while-revalidate=600", "max-age=10, stale-if-error=600",
        "s-maxage=600, max-age=10", "max-age=0, must-revalidate"]
# What a response names, from /a, and the target that is removed for it: those of other origins aren't.
NAMED = {"/b": HOST + "/b", "c": HOST + "/c", "http://a.example/b#x": HOST + "/b",
         "//b.example/b": None, "https://a.example/b": None, "http://a.example/b?": None}


@dataclass
class Pass:
    """A client's request, and how far it is: `new`, `asking`, `passing` or `ended`."""

    key: str
    request: Request
    phase: str = "new"
    requested: int = 0
    removals: int = 0
    all_removals: int = 0
    validates: bool = False
    status: int = 0
    fields: tuple[tuple[str, str], ...] = ()


class PassPlayer(Player):
    """A cache, the passes through it, and the history of their steps."""

    def __init__(self, draw: random.Random, option: str) -> None:
        super().__init__(draw, option)
        self.passes: dict[str, Pass] = {}
        self.removals: dict[str, int] = {}
        # How eagerly clients come; and in half of the histories a few clients ask for one page again and again.
        self.eagerness = draw.choice([0.3, 0.4, 0.4, 0.6])
        few = [self.request() for _ in range(draw.choice([1, 2, 3]))]
        self.regulars = [Request("GET", self.without_control(it.fields, 0.7)) for it in few] if self.is_likely(0.5) else []

    def without_control(self, fields: Fields, share: float) -> Fields:
        """The fields, with this share without Cache-Control."""
        return [it for it in fields if it[0].lower() != "cache-control"] if self.is_likely(share) else fields

    # What the standard wants

    def ask(self, it: Pass, validates: bool = False) -> None:
        it.phase, it.requested, it.validates = "asking", self.now, validates
        it.removals, it.all_removals = self.removals.get(it.key, 0), sum(self.removals.values())

    def is_outdated(self, it: Pass) -> bool:
        """Section 4.4: what was asked before the target was removed is stored no more."""
        return it.removals != self.removals.get(it.key, 0)

    def may_be_outdated(self, it: Pass) -> bool:
        """Choice: a removal of another target may count, too."""
        return it.all_removals != sum(self.removals.values())

    def alone(self, it: Pass) -> list[Told]:
        """Without a stored response."""
        if it.request.method in SAFE and has(read(it.request.fields), "only-if-cached"):
            it.phase = "ended"
            return [Told("unavailable")]
        self.ask(it)
        return [Told("ask")]

    def reply(self, it: Pass, stored: Stored, name: str = "reply") -> list[Told]:
        it.phase = "ended"
        [age] = current_ages(stored.fields, stored.requested, stored.received, self.now)
        return [Told(name, way, stored, age) for way in sorted(answers(stored, it.request, self.now, True))]

    def begun(self, it: Pass) -> list[Told]:
        found = self.cache.lookup(it.key, it.request, self.now, GUESS)
        if found.word == "unavailable":
            it.phase = "ended"
            return [Told("unavailable")]
        if found.response is None or not is_for_cache(it.request):
            return self.alone(it)
        if found.word == "serve":
            return self.reply(it, found.response)
        if found.word == "serve_and_revalidate":
            return self.reply(it, found.response, "reply_and_validate")
        self.ask(it, validates=True)
        return [Told("validate", conditions=found.fields)]

    def on_error(self, it: Pass) -> list[Told]:
        """RFC 5861, section 4, at the time of the failure."""
        found = self.cache.lookup(it.key, it.request, self.now, GUESS)
        if found.response is None or found.word == "validate" or not is_for_cache(it.request):
            return []
        return self.reply(it, found.response)

    def removed(self, key: str) -> None:
        self.cache.targets.pop(key, None)
        self.removals[key] = self.removals.get(key, 0) + 1

    def came(self, it: Pass, status: int, fields: Fields) -> list[Told]:
        if it.validates and status == 304:
            return self.validated(it, fields)
        if status in FAILURES:
            if found := self.on_error(it):
                return found
        elif it.request.method not in SAFE and 200 <= status < 400:
            self.removed(it.key)
            for name in ("location", "content-location"):
                for value in lines_of(fields, name):
                    if NAMED[value]:
                        self.removed(NAMED[value])
        cache = self.cache
        # Choices: 412 and 416 answer the conditions and the range of one request, and a cookie is for one client.
        is_kept = (status not in (412, 416) and not (cache.is_shared and lines_of(fields, "set-cookie"))
                   and is_fair(fields, cache.targeted) and cache.may_store(it.request, status, fields))
        it.phase, it.status, it.fields = "passing" if is_kept else "ended", status, tuple(fields)
        return [Told("keep" if is_kept else "pass_on")]

    def validated(self, it: Pass, update: Fields) -> list[Told]:
        """Section 4.3.3. If the 304 is about nothing that is stored, the origin is asked again."""
        if not self.is_outdated(it):
            may_ask = [Told("ask")] if self.may_be_outdated(it) else []
            found = self.cache.freshen(it.key, it.request, update, it.requested, self.now)
            if found.word in ("stored", "once") and found.response is not None:
                return self.reply(it, found.response, "reply" if found.word == "stored" else "once") + may_ask
        self.ask(it)
        return [Told("ask")]

    def ended(self, it: Pass, content: str, is_complete: bool) -> list[Told]:
        it.phase = "ended"
        came = Stored(it.request, it.status, list(it.fields), content, it.requested, self.now)
        newer = [other for other in self.cache.at(it.key) if matches(other, it.request)
                 and (other.made(), other.requested) > (came.made(), came.requested)]
        if not is_complete or self.is_outdated(it) or newer:
            # Section 4: "a cache MUST use the most recent one (as determined by the Date header field)"
            return [Told("unstored")]
        if it.request.method == "HEAD" and it.status == 200:
            self.cache.freshen_by_head(it.key, it.request, came.fields, came.requested, came.received)
        return [Told(self.cache.store(it.key, came, True).word),
                *([Told("unstored")] if self.may_be_outdated(it) else [])]

    def validation(self, it: Pass) -> list[Told]:
        """A request for nobody, if the client's own would be served stale and validated."""
        found = self.cache.lookup(it.key, it.request, self.now, GUESS)
        if found.word != "serve_and_revalidate" or not is_for_cache(it.request):
            return [Told("(none)")]
        # "A cache MUST NOT store any part of either this request or any response to it": no-store stays (section 5.2.1.5).
        # The other directives, the conditions and the range are for the client.
        asked = "no-cache, no-store" if has(read(it.request.fields), "no-store") else "no-cache"
        fields = [own for own in it.request.fields if own[0].lower() not in OF_CLIENT]
        it.request = Request(it.request.method, [*fields, ("cache-control", asked)])
        return self.begun(it)

    # What clients and the origin do

    def step(self, name: str, key: str, given: tuple[object, ...], told: list[Told], text: list[object]) -> None:
        """A step: its name and its pass, what the package gets, what is permitted, and how the program is asked."""
        self.calls.append(Call(writing.words([name, key, self.now, *text]), [it.row() for it in told], told[0].word,
                               (name, key, self.now, *given), tuple(told)))

    def asked_again(self, key: str) -> Request:
        if self.regulars and self.is_likely(0.8):
            return self.draw.choice(self.regulars)
        return self.again(key)

    def begin(self) -> None:
        target = "/a" if self.regulars and self.is_likely(0.8) else self.draw.choice(TARGETS)
        it, name = Pass(HOST + target, self.asked_again(HOST + target)), f"p{len(self.passes)}"
        self.passes[name] = it
        told = self.begun(it)
        self.step("begin", name, (it.key, it.request), told, [it.key, *writing.request_words(it.request)])
        if told[0].word == "reply_and_validate" and self.is_likely(0.8):
            self.now += self.draw.choice([0, 0, 0, 1, 600])
            other, again = Pass(it.key, it.request), f"p{len(self.passes)}"
            told = self.validation(other)
            if told[0].word != "(none)":
                self.passes[again] = other
            self.step("validation", again, (name,), told, [name])

    def answer_of_origin(self, it: Pass) -> tuple[int, Fields]:
        kind, found = self.draw.random(), self.cache.at(it.key)
        if it.validates and kind < 0.5:
            return 304, (self.not_modified(self.draw.choice(found)) if found else trimmed(self.validators())) + self.cookie()
        if kind > 0.87:
            return self.draw.choice(FAILURES), self.response(self.now)
        fields = self.response(self.now)
        if self.regulars and self.is_likely(0.5):
            fields = [*self.without_control(fields, 1), ("cache-control", self.draw.choice(MILD))]
        if self.is_likely(0.3):
            # The origin answers in another order than it was asked.
            fields = [other for other in fields if other[0] != "date"]
            fields.append(("date", imf_fixdate(self.now - self.draw.choice([0, 0, 1, 2, 5, 30]))))
        fields += self.cookie()
        if it.request.method not in SAFE:
            fields += [(name, self.draw.choice(list(NAMED))) for name in ("location", "content-location")
                       if self.is_likely(0.2)]
            return self.draw.choice([200, 201, 204, 303, 400, 404]), fields
        if it.request.method == "HEAD" and found and self.is_likely(0.6):
            return 200, self.described(self.draw.choice(found))
        return self.draw.choice([*STATUSES, 412, 416]), fields

    def go_on(self, name: str, phase: str) -> None:
        """A step of a pass that is, or is taken to be, so far."""
        it = self.passes[name]
        is_right, out_of_order = it.phase == phase, [Told("out_of_order")]
        if self.is_likely(0.02):
            if it.phase == "asking":
                # Choice: the package makes a failure of it, which uses what is stored, and so counts for what goes first.
                self.cache.lookup(it.key, it.request, 0, GUESS)
            it.phase = "ended"
            self.step("close", name, (), [Told("(none)")], [])
        elif phase == "passing":
            content = "" if it.request.method == "HEAD" else self.content()
            is_complete = self.is_likely(0.95)
            self.step("ended", name, (content, is_complete), self.ended(it, content, is_complete) if is_right
                      else out_of_order, [word(content), "complete" if is_complete else "incomplete"])
        elif self.is_likely(0.1):
            found = self.on_error(it) if is_right else out_of_order
            it.phase = "ended" if is_right else it.phase
            self.step("failed", name, (), found or [Told("(none)")], [])
        else:
            status, fields = self.answer_of_origin(it)
            self.step("came", name, (status, fields), self.came(it, status, fields) if is_right else out_of_order,
                      [status, *writing.map_words(fields)])

    def play(self) -> "PassPlayer":
        while len(self.calls) < LENGTH:
            self.now += self.draw.choice(JUMPS if self.is_likely(0.5) else [0, 0, 1, 2])
            going = [name for name, it in self.passes.items() if it.phase in ("asking", "passing")]
            if self.passes and self.is_likely(0.03):
                self.go_on(self.draw.choice(list(self.passes)), self.draw.choice(["asking", "passing"]))
            elif going and (len(going) == OPEN or not self.is_likely(self.eagerness)):
                name = self.draw.choice(going)
                self.go_on(name, self.passes[name].phase)
            elif self.is_likely(0.02):
                key = HOST + self.draw.choice(TARGETS)
                self.removed(key)
                self.step("remove", key, (), [Told("(none)")], [])
            else:
                self.begin()
        for target in sorted({*TARGETS}):
            self.look_through(HOST + target)
        return self

    def look_through(self, key: str) -> None:
        """What is stored under a target at the end. The package shows it to requests that ask for nothing else."""
        asked = {writing.words(writing.request_words(it.request)): it.request for it in self.cache.at(key)}
        for request in asked.values():
            fields = [it for it in request.fields if it[0].lower() in VARIED]
            it = Pass(key, Request(request.method, [*fields, ("cache-control", "only-if-cached, max-stale")]))
            name = f"p{len(self.passes)}"
            self.passes[name] = it
            self.step("begin", name, (it.key, it.request), self.begun(it), [key, *writing.request_words(it.request)])


def history(seed: int, option: str, index: int) -> PassPlayer:
    """A history that was played. Each has its own random numbers."""
    player = PassPlayer(random.Random(f"{seed}/package/{option}/{index}"), option)
    player.play()
    return player
