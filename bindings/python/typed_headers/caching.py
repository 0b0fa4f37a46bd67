"""What a cache may do with a response (RFC 9111 and RFC 5861).

A shared cache serves several users, as a proxy does; a private one serves a single user, as a browser does.
"""

import threading
import time
from dataclasses import dataclass, field
from enum import IntEnum
from typing import TYPE_CHECKING, Any, Callable, Iterable, List, Optional, Sequence, Set, Tuple, TypeVar, Union

from . import _library
from ._checks import check_members
from ._library import Text, Time, made
from .errors import HeaderError
from .headers import Headers, HeadersLike, section_of

if TYPE_CHECKING:
    from ._stored import Shelf

__all__ = [
    "Ask",
    "Cache",
    "Decision",
    "OutOfOrder",
    "Pass",
    "PassOn",
    "Reply",
    "Times",
    "Wait",
    "current_age",
    "decide",
    "heuristic_lifetime",
    "lifetime",
    "may_store",
    "validators",
]


class Decision(IntEnum):
    """What a cache does with a request that a stored response could answer."""

    #: The stored response is the answer. It is fresh.
    SERVE = 0
    #: It is the answer though it is stale, and is revalidated after that (`stale-while-revalidate`).
    SERVE_AND_REVALIDATE = 1
    #: It is the answer though it is stale: the request allows that (`max-stale`).
    SERVE_STALE = 2
    #: The origin has to say whether the stored response is still good.
    REVALIDATE = 3
    #: The same, but it may be the answer if the origin can't be reached or fails (`stale-if-error`).
    REVALIDATE_OR_SERVE = 4
    #: The answer is 504: the request forbids to ask the origin (`only-if-cached`).
    UNAVAILABLE = 5
    #: The origin has to answer: the stored response doesn't suit the request, or the request's method isn't safe.
    FETCH = 6


@dataclass(frozen=True)
class Times:
    """What a cache's clock said of a stored response, and the present."""

    #: When the request was made that the response answered.
    request: Time
    #: When that response came.
    response: Time
    #: The present, if it isn't given.
    now: Optional[Time] = None

    def __post_init__(self) -> None:
        check_members(self)

    def _seconds(self) -> Tuple[int, int, int]:
        now = int(time.time()) if self.now is None else _library.to_seconds(self.now, "now")
        return _library.to_seconds(self.request, "request"), _library.to_seconds(self.response, "response"), now


def _refused(*sections: bytes) -> HeaderError:
    for section in sections:
        try:
            _library.canonical_text(section)
        except HeaderError as error:
            return error
    return HeaderError("the method is no token, or the status is no number from 100 to 999")


def may_store(method: Text, request: HeadersLike, status: int, response: HeadersLike, *, shared: bool) -> bool:
    """Whether a cache may store the response to a request (RFC 9111, sections 3 and 3.5).

    >>> may_store("GET", {}, 200, {"Cache-Control": "private, max-age=60"}, shared=False)
    True
    >>> may_store("GET", {}, 200, {"Cache-Control": "private, max-age=60"}, shared=True)
    False
    """
    verb, asked, given = _library.to_bytes(method, "method"), section_of(request), section_of(response)
    ended, answer = _library.calls.may_store((verb, asked), _library.to_number(status, "status", 16), given, shared)
    _library.check(ended, lambda: _refused(asked, given))
    return answer == 1


def lifetime(response: HeadersLike, received: Optional[Time] = None, *, shared: bool) -> Optional[int]:
    """For how many seconds a response is fresh by what its origin says (RFC 9111, section 4.2.1).

    `None` if the origin doesn't say. `received` is when the response came, the present if it isn't given.

    >>> lifetime({"Cache-Control": "max-age=60, s-maxage=10"}, shared=True)
    10
    """
    given = section_of(response)
    status, seconds = _library.calls.lifetime(given, _received(received), shared)
    _library.check(status, lambda: _refused(given))
    return None if status == _library.ABSENT else seconds


def heuristic_lifetime(
    status: int, response: HeadersLike, received: Optional[Time] = None, *, shared: bool
) -> Optional[int]:
    """For how many seconds a response may be taken as fresh if its origin doesn't say so (RFC 9111, section 4.2.2).

    They are a tenth of the time from its last modification to its Date. `None` if the origin says so, if the status
    and Cache-Control let no cache guess, or if no last modification is known.

    >>> dates = {"Date": "Sun, 06 Nov 1994 08:49:37 GMT", "Last-Modified": "Sun, 06 Nov 1994 07:49:37 GMT"}
    >>> heuristic_lifetime(200, dates, shared=False)
    360
    """
    given, code = section_of(response), _library.to_number(status, "status", 16)
    ended, seconds = _library.calls.heuristic_lifetime(code, given, _received(received), shared)
    _library.check(ended, lambda: _refused(given))
    return None if ended == _library.ABSENT else seconds


def _received(received: Optional[Time]) -> int:
    return int(time.time()) if received is None else _library.to_seconds(received, "received")


def current_age(response: HeadersLike, times: Times) -> int:
    """How many seconds old a stored response is (RFC 9111, section 4.2.3).

    >>> current_age({"Age": "5"}, Times(request=1000, response=1000, now=1010))
    15
    """
    given = section_of(response)
    status, seconds = _library.calls.current_age(given, times._seconds())
    _library.check(status, lambda: _refused(given))
    return seconds


def decide(
    stored_method: Text,
    stored_request: HeadersLike,
    method: Text,
    request: HeadersLike,
    response: HeadersLike,
    times: Times,
    *,
    shared: bool,
) -> Decision:
    """What a cache does with a request, by a response that it has stored for the same URI (RFC 9111, section 4).

    `stored_method` and `stored_request` are those of the request that the response answered.

    >>> response = {"Cache-Control": "max-age=60"}
    >>> decide("GET", {}, "GET", {}, response, Times(request=1000, response=1000, now=1010), shared=True)
    <Decision.SERVE: 0>
    """
    first, given = section_of(stored_request), section_of(response)
    stored = (_library.to_bytes(stored_method, "stored_method"), first, given)
    asked = (_library.to_bytes(method, "method"), section_of(request))
    status, decision = _library.calls.decide(stored, asked, times._seconds(), shared)
    _library.check(status, lambda: _refused(first, asked[1], given))
    return Decision(decision)


def judge(
    method: bytes, request: bytes, response: bytes, status: int, now: int, shared: bool
) -> Tuple[bool, Optional[int], int, Decision]:
    """What `may_store`, `lifetime`, `current_age` and `decide` say of a response that has just come, of sections."""
    calls, asked, times = _library.calls, (method, request), (now, now, now)
    ended, answer = calls.may_store(asked, status, response, shared)
    fresh, seconds = calls.lifetime(response, now, shared)
    aged, age = calls.current_age(response, times)
    decided, decision = calls.decide((method, request, response), asked, times, shared)
    for each in (ended, fresh, aged, decided):
        _library.check(each, lambda: _refused(request, response))
    return answer == 1, None if fresh == _library.ABSENT else seconds, age, Decision(decision)


def validators(response: HeadersLike, received: Optional[Time] = None) -> Tuple[Tuple[str, str], ...]:
    """The fields by which the origin is asked whether a stored response is still good (RFC 9111, section 4.3.1).

    They replace the request's own `If-None-Match` and `If-Modified-Since`. `received` is when the response came, the
    present if it isn't given: a year of two digits depends on it.

    >>> validators({"ETag": '"a"'})
    (('if-none-match', '"a"'),)
    """
    given = section_of(response)
    status, text = _library.calls.validators(given, _received(received))
    _library.check(status, lambda: _refused(given))
    return tuple(Headers(text).pairs())


# A cache


class OutOfOrder(RuntimeError):
    """A step that its pass isn't at. Nothing is changed."""

    #: The name of the step.
    step: str

    def __init__(self, step: str, reason: str) -> None:
        super().__init__(f"{step}: {reason}")
        self.step, self._reason = step, reason

    def __reduce__(self) -> Tuple[Any, ...]:
        return type(self), (self.step, self._reason)


FieldLines = Tuple[Tuple[str, str], ...]
#: The fields of a request by which a cache validates.
_VALIDATING = ("if-none-match", "if-modified-since")


@dataclass(frozen=True)
class Ask:
    """The origin is asked."""

    #: By the request of the client with these fields in place of those that are `replaced`: `None` if as it is.
    fields: Optional[FieldLines] = None
    #: Which fields a validation for nobody replaces.
    alone: Tuple[str, ...] = field(default=(), repr=False)

    def __post_init__(self) -> None:
        check_members(self)

    @property
    def replaced(self) -> Sequence[str]:
        """The names of the fields that are replaced, in lower case."""
        return () if self.fields is None else (*_VALIDATING, *self.alone)

    def apply(self, request: Iterable[Tuple[str, str]]) -> List[Tuple[str, str]]:
        """The fields by which the origin is asked.

        >>> Ask((("if-none-match", '"a"'),)).apply([("Host", "a.example"), ("If-None-Match", '"b"')])
        [('Host', 'a.example'), ('if-none-match', '"a"')]
        """
        kept = [(name, value) for name, value in request if name.lower() not in self.replaced]
        return [*kept, *(self.fields or ())]


@dataclass(frozen=True)
class Reply:
    """The client gets this response of the cache. The pass has ended."""

    #: Its status.
    status: int
    #: Its fields, with its present Age.
    fields: FieldLines
    #: Its content: `None` if the response to this request has none, as to HEAD and with 304.
    content: Optional[bytes]
    #: Whether the response is then validated for nobody: by `Pass.validation`.
    validates: bool = False

    def __post_init__(self) -> None:
        check_members(self)


@dataclass(frozen=True)
class Wait:
    """Another pass asks the origin for the same: `Pass.resume` says what is done once that has ended, or its time is over."""


@dataclass(frozen=True)
class PassOn:
    """The client gets what the origin answered."""

    #: Whether the pass goes on: with `Pass.received` as its content comes, and then `Pass.ended`. Else it has ended.
    stores: bool

    def __post_init__(self) -> None:
        check_members(self)


class _Action(IntEnum):
    REPLY = 0
    REPLY_AND_VALIDATE = 1
    ASK = 2
    VALIDATE = 3
    SEND_504 = 4
    PASS_ON_TO_END = 5
    PASS_ON = 6
    NO_RESPONSE = 7
    WAIT = 8


Found = TypeVar("Found")


def _present(now: Optional[Time]) -> int:
    return int(time.time()) if now is None else _library.to_seconds(now, "now")


class Pass:
    """One client's request through a cache, from its arrival to its last byte. `Cache.begin` makes it.

    Each step says what is done next. Steps of several passes through one cache may interleave in any way, also in
    several threads: each holds the cache for itself, but not while content is read or received, and nothing is held
    between two steps. What a step gives is right for the request of this pass, at the time of that step.

    >>> cache = Cache(shared=True)
    >>> first = cache.begin("GET", "http://a.example/", {}, now=1000)
    >>> first.step
    Ask(fields=None)
    >>> first.came(200, {"Cache-Control": "max-age=60"}, now=1000)
    PassOn(stores=True)
    >>> first.received(b"hello")
    >>> first.ended(now=1000)
    True
    >>> cache.begin("GET", "http://a.example/", {"Range": "bytes=1-2"}, now=1010).step.content
    b'el'
    """

    def __init__(
        self, cache: "Cache", method: str, target: str, request: Headers, now: Optional[Time] = None, alone: Ask = Ask()
    ) -> None:
        self._cache, self._method, self._target, self._request, self._alone = cache, method, target, request, alone
        verb, asked = _library.to_bytes(method, "method"), request.section
        given = (target.encode(), verb, asked)
        status, self._handle, facts = cache._call(_library.calls.pass_begin, given, _present(now))
        _library.check(status, lambda: _refused(asked))
        step = self._told(facts)
        assert isinstance(step, (Ask, Reply, Wait))
        #: What is done first. `Wait` comes only of a cache with `wait`.
        self.step: Union[Ask, Reply, Wait] = step

    def resume(
        self, *, now: Optional[Time] = None, wake: Optional[Callable[[], None]] = None
    ) -> Union[Ask, Reply, Wait]:
        """What is done after `Wait`. If that is to wait on, `wake` is called once some pass through the cache has ended."""
        step = self._step("resume", _library.calls.pass_resume, _present(now), wake=wake)
        assert isinstance(step, (Ask, Reply, Wait))
        return step

    def came(self, status: int, response: HeadersLike, *, now: Optional[Time] = None) -> Union[Ask, Reply, PassOn]:
        """What is done with the status and the fields of the origin's response."""
        given, code = section_of(response), _library.to_number(status, "status", 16)
        step = self._step("came", _library.calls.pass_came, code, given, _present(now), sections=(given,))
        assert isinstance(step, (Ask, Reply, PassOn))
        return step

    def failed(self, *, now: Optional[Time] = None) -> Optional[Reply]:
        """What the client gets if no response of the origin came: `None` if that is 502 or 504. The pass has ended."""
        step = self._step("failed", _library.calls.pass_failed, _present(now))
        assert step is None or isinstance(step, Reply)
        return step

    def received(self, piece: bytes) -> None:
        """Keeps the next piece of the content that passes on, to be stored.

        If the pieces are more than the cache may have, or on `MemoryError`, the pass keeps none: nothing is stored.
        """
        _check_passing("received", _library.calls.pass_received(self._handle, bytes(piece)))

    def ended(self, *, complete: bool = True, now: Optional[Time] = None) -> bool:
        """Stores the response that passed on, if it may be stored, and returns whether it is. The pass has ended.

        `complete` says whether all of its content came. On `MemoryError` it isn't stored.
        """
        ended, number = self._call(_library.calls.pass_ended, complete, _present(now))
        self._cache._wake()
        _check_passing("ended", ended)
        return number != 0

    def validation(self, *, now: Optional[Time] = None) -> Optional["Pass"]:
        """A pass by which what was served stale is validated for nobody (RFC 5861, section 3).

        `None` if what the request would get now needs no validation any more.
        """
        served = Pass(self._cache, self._method, self._target, self._request, now)
        if not isinstance(served.step, Reply) or not served.step.validates:
            served.close()
            return None
        ended, text = _library.calls.pass_validation(self._handle)
        _check(ended)
        request, own = Headers(text), self._request
        names = {name for name, _ in (*own.pairs(), *request.pairs())}
        changed = tuple(sorted(name for name in names if own.lines(name) != request.lines(name)))
        lines = tuple((name, line) for name in changed for line in request.lines(name))
        return Pass(self._cache, self._method, self._target, request, now, made(Ask, fields=lines, alone=changed))

    def close(self) -> None:
        """Ends the pass. Nothing more is stored of it, and no other waits for it."""
        with self._cache._lock:
            if self._cache._is_open:
                self._call(_library.calls.pass_failed, 0)
                self._call(_library.calls.pass_ended, False, 0)
            _library.calls.pass_free(self._handle)
        self._cache._wake()

    def _call(self, call: Callable[..., Found], *arguments: Any) -> Found:
        return self._cache._call(call, self._handle, *arguments)

    def _step(
        self,
        name: str,
        call: Callable[..., Tuple[int, Any]],
        *arguments: Any,
        sections: Sequence[bytes] = (),
        wake: Optional[Callable[[], None]] = None,
    ) -> Union[None, Ask, Reply, PassOn, Wait]:
        try:
            with self._cache._lock:
                ended, facts = self._call(call, *arguments)
                if ended == _library.ABSENT:
                    raise OutOfOrder(name, "it doesn't wait" if name == "resume" else "the origin isn't asked")
                _check(ended, *sections)
                if wake is not None and facts[3] == _Action.WAIT:
                    self._cache._waking.add(wake)
            return self._told(facts)
        finally:
            # (nobody waits for a pass that waits)
            if name != "resume":
                self._cache._wake()

    def _told(self, facts: Tuple[int, int, int, int]) -> Union[None, Ask, Reply, PassOn, Wait]:
        """What a step says. The pass has the content of the response that it names, whatever becomes of the cache."""
        first, count, status, number = facts
        action = _Action(number)
        if action is _Action.ASK:
            return self._alone
        if action is _Action.VALIDATE:
            return made(Ask, fields=(*(self._alone.fields or ()), *self._fields()), alone=self._alone.alone)
        if action is _Action.SEND_504:
            return Reply(504, (("content-length", "0"),), b"")
        if action in (_Action.PASS_ON, _Action.PASS_ON_TO_END):
            return made(PassOn, stores=action is _Action.PASS_ON_TO_END)
        if action is _Action.NO_RESPONSE:
            return None
        if action is _Action.WAIT:
            return Wait()
        content: Optional[bytes] = None
        if count:
            ended, content = _library.calls.pass_content(self._handle, first, count)
            _check(ended)
        elif self._method != "HEAD" and status not in (204, 304):
            content = b""
        validates = action is _Action.REPLY_AND_VALIDATE
        return made(Reply, status=status, fields=self._fields(), content=content, validates=validates)

    def _fields(self) -> FieldLines:
        ended, text = _library.calls.pass_fields(self._handle)
        _check(ended)
        return tuple(Headers(text).pairs())


class Cache:
    """What a cache has stored of responses, in bounded memory (RFC 9111). Requests go through it as passes.

    Limits are responses under one target, responses in all, and bytes in all: a response counts as its
    `content`, target and fields, 256 for each field of it and its request, and 1,024. If a response states no
    lifetime, at most `guess` seconds are guessed (section 4.2.2). A cache may be used by several threads.

    With `immutable`, a fresh response with that directive isn't validated for `max-age` of a request (RFC 8246).
    `targets` are the names of targeted fields, as `CDN-Cache-Control`, the most applicable first: the first one that a
    response has, valid and not empty, counts in place of its Cache-Control and Expires (RFC 9213).

    With `wait`, a GET without Range waits for another that asks the origin for the same, for at most so many seconds
    (RFC 9111, section 4): a pass may say `Wait` first.

    >>> with Cache(shared=True) as cache:
    ...     first = cache.begin("GET", "http://a.example/", {}, now=1000)
    ...     first.came(200, {"Cache-Control": "max-age=60"}, now=1000)
    ...     first.received(b"hello")
    ...     first.ended(now=1000)
    ...     cache.begin("GET", "http://a.example/", {}, now=1010).step.content
    PassOn(stores=True)
    True
    b'hello'
    """

    def __init__(
        self,
        *,
        shared: bool,
        variants: int = 16,
        responses: int = 4096,
        content: int = 64 * 1024 * 1024,
        guess: int = 0,
        immutable: bool = False,
        targets: Sequence[Text] = (),
        wait: int = 0,
    ) -> None:
        limits = (("variants", variants), ("responses", responses), ("content", content), ("guess", guess))
        first, second, third, fourth = (_library.to_number(number, what) for what, number in limits)
        fifth = _library.to_number(wait, "wait")
        names = _library.joined(_library.to_lines("targets", targets))
        status, self._handle = _library.calls.cache_new_with(
            (first, second, third, fourth, shared), (names, immutable, fifth)
        )
        _library.check(status, lambda: HeaderError(f"some of these is no field name: {list(targets)}"))
        #: Whether it serves several users.
        self.shared = shared
        self._lock, self._is_open = threading.RLock(), True
        # What is behind it, if those that use it have a storage.
        self._shelf: Optional["Shelf"] = None
        # What is called once some pass has ended.
        self._waking: Set[Callable[[], None]] = set()

    def __enter__(self) -> "Cache":
        return self

    def __exit__(self, *_: object) -> None:
        self.close()

    def close(self) -> None:
        """Gives the memory of the cache back. Every other call, and every step of a pass, then raises `ValueError`."""
        with self._lock:
            self._is_open = False
            _library.calls.cache_free(self._handle)

    def _call(self, call: Callable[..., Found], *arguments: Any) -> Found:
        with self._lock:
            if not self._is_open:
                raise ValueError("the cache is closed")
            return call(self._handle, *arguments)

    def _wake(self) -> None:
        with self._lock:
            waking, self._waking = self._waking, set()
        for wake in waking:
            wake()

    def begin(self, method: str, target: str, request: HeadersLike, *, now: Optional[Time] = None) -> Pass:
        """Begins a pass for a request; its `step` says what is done first.

        The target is its URI, as a text that is made the same way each time. `now` is the present of one clock, as of
        each step.
        """
        return Pass(self, method, target, Headers(request), now)

    def remove(self, target: str) -> None:
        """Removes what is stored for a target, as one that changed by other means than a request through this cache.

        What was asked for it before isn't stored any more either.
        """
        _check(self._call(_library.calls.cache_remove, target.encode()))


def _check_passing(step: str, status: int) -> None:
    if status == _library.ABSENT:
        raise OutOfOrder(step, "no response passes on that is to be stored")
    _check(status)


def _check(status: int, *sections: bytes) -> None:
    _library.check(status, lambda: _refused(*sections))
