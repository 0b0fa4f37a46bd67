"""What the middleware and the clients with a cache share: a request on its way, as a pass through the cache.

The pass decides what is done. A `Turn` adds what is a program's own: a clock, how much content is stored, and that one
request at a time validates what was served stale.
"""

from threading import Event, Lock
from typing import TYPE_CHECKING, Callable, Optional, Sequence, Set, Union

from ._exchange import Fields, length_of
from ._stored import Looked, Record, Shelf, put_behind
from .caching import Ask, Cache, Pass, PassOn, Reply, Wait
from .errors import HeaderError
from .headers import Headers
from .values import Host

if TYPE_CHECKING:
    from .storage import Storage

#: What is next: `None` passes the application's response on.
Step = Union[Ask, Reply, Wait]
#: A request that waits tries again after so many seconds at the latest.
MOMENT = 1.0
#: The methods that are known to be safe (RFC 9110, section 9.2.1).
_SAFE = ("GET", "HEAD", "OPTIONS", "TRACE")


def target_of(scheme: str, hosts: Sequence[str], server: str, path: str, query: str) -> Optional[str]:
    """The target URI, by the lines of Host, or without one by the name of the server.

    `None` if the request names no target, or might name another one: the answer is 400 (RFC 9112, sections 3.2 and
    3.2.1).
    """
    try:
        for host in hosts:
            Host.parse(host)
    except HeaderError:
        return None
    if len(hosts) > 1 or not path.startswith(("/", "*")):
        return None
    return f"{scheme}://{hosts[0].lower() if hosts else server}{path}{'?' if query else ''}{query}"


class Rules:
    """A cache, with a storage behind it or none, and which targets are being validated for nobody."""

    def __init__(
        self,
        cache: Cache,
        largest: int,
        clock: Callable[[], float],
        is_shared: bool = True,
        *,
        storage: "Optional[Storage]" = None,
        secret: bytes = b"",
    ) -> None:
        if cache.shared != is_shared:
            raise ValueError("a shared cache stores nothing private" if cache.shared else "a private cache serves one user")
        self.cache, self.largest, self.clock = cache, largest, clock
        self.validating: Set[str] = set()
        self.lock = Lock()
        if storage is not None:
            put_behind(cache, storage, secret)

    @property
    def shelf(self) -> Optional[Shelf]:
        """The storage behind the cache, if it has one. Some calls of a turn may then block, as their docstrings say."""
        return self.cache._shelf

    def now(self) -> int:
        return int(self.clock())


class Turn:
    """A request, and what a cache in front of an application does with it.

    If memory runs out, or the library can't parse what is passed, the request goes to the application as it is, and its
    response to the client, unstored. What is stored for the target is removed, if the response outdates it.
    """

    def __init__(self, rules: Rules, method: str, target: str, request: Headers) -> None:
        self.rules, self.method, self.target, self.request = rules, method, target, request
        self.pass_: Optional[Pass] = None
        self.asked, self.validates, self.is_validation = Ask(), False, False
        # The fields of the response that is being passed on, if it is to be stored, and how much of its content came.
        self.came_as: Optional[Fields] = None
        self.size = 0
        # When the origin was asked, and what is written to the storage if its response is stored.
        self.asked_at = 0
        self.record: Optional[Record] = None

    def start(self) -> Step:
        """What is done first. (It may block on the storage.)"""
        shelf = self.rules.shelf
        if shelf is None or self.method not in ("GET", "HEAD"):
            return self._begin()
        with shelf.lock_of(self.target):
            try:
                return self._looked(shelf, shelf.look(self.target))
            except MemoryError:
                # (what is stored may be outdated)
                return self.asked

    def _looked(self, shelf: Shelf, looked: Optional[Looked]) -> Step:
        """What is done first after a look at the storage."""
        step = self._begin()
        # (a 504 says that the origin may not be asked)
        has_fresh = isinstance(step, Reply) and step.status != 504 and not step.validates or isinstance(step, Wait)
        if looked is not None and looked.names and self.pass_ is not None and not has_fresh:
            self.pass_.close()
            self.pass_, self.asked = None, Ask()
            shelf.take_over(self.target, looked, self.rules.now)
            step = self._begin()
        if looked is not None and self.method == "GET":
            self.record = Record(shelf, self.target, looked.token)
        return step

    def _begin(self) -> Step:
        self.asked_at = now = self.rules.now()
        try:
            self.pass_ = self.rules.cache.begin(self.method, self.target, self.request, now=now)
        except (HeaderError, MemoryError):
            return self.asked
        return self._next(self.pass_.step)

    def wait(self) -> Step:
        """What is done once the request for which this one waits has ended."""
        woken = Event()
        step = self.resume(woken.set)
        while isinstance(step, Wait):
            woken.wait(MOMENT)
            woken.clear()
            step = self.resume(woken.set)
        return step

    def resume(self, wake: Callable[[], None]) -> Step:
        """What is done after a wait. If that is to wait on, `wake` is called once some request has ended."""
        assert self.pass_ is not None
        self.asked_at = now = self.rules.now()
        try:
            return self._next(self.pass_.resume(now=now, wake=wake))
        except MemoryError:
            self.end()
            return self.asked

    def came(self, status: int, fields: Fields) -> Optional[Step]:
        """What is done with the response of the application: `None` passes it on. (It may block on the storage.)"""
        self.outdate()
        if self.pass_ is None:
            # No pass removes what the response outdates (RFC 9111, section 4.4).
            if self.method not in _SAFE and 200 <= status < 400:
                self.rules.cache.remove(self.target)
            return None
        now = self.rules.now()
        try:
            step = self.pass_.came(status, fields, now=now)
        except (HeaderError, MemoryError):
            self.end()
            self.rules.cache.remove(self.target)
            return Ask() if status == 304 and self.asked.fields is not None else None
        if isinstance(step, PassOn):
            self.came_as = fields if step.stores else None
            if self.record is not None and step.stores:
                self.record.came(self.pass_._request, status, fields, (self.asked_at, now))
            return None
        return self._next(step)

    def outdate(self) -> None:
        """Removes what the storage has of the target, if the request isn't safe: before the client gets the response.

        Whether that is an error doesn't matter: one that removed nothing costs a hit.
        """
        if self.method not in _SAFE and self.rules.shelf is not None:
            self.rules.shelf.remove(self.target)

    def failed(self) -> Optional[Reply]:
        """What is done if the application raises an error: `None` leaves that to the server. (It may block on the
        storage, as the application may have done what it was asked.)"""
        self.outdate()
        try:
            return None if self.pass_ is None else self.pass_.failed(now=self.rules.now())
        except MemoryError:
            return None
        finally:
            self.end()

    def received(self, piece: bytes) -> None:
        """A piece of the response that is being passed on. The pass keeps it, if it is to be stored."""
        if self.pass_ is None or self.came_as is None:
            return
        self.size += len(piece)
        try:
            if self.size <= self.rules.largest:
                self.pass_.received(piece)
                if self.record is not None:
                    self.record.received(piece)
                return
        except MemoryError:
            pass
        self.end()

    def keep(self) -> None:
        """Stores the response that was passed on, all of whose content came. (It may block on the storage.)"""
        record = None
        if self.pass_ is not None and self.came_as is not None:
            stated = None if self.method == "HEAD" else length_of(self.came_as)
            try:
                if self.pass_.ended(complete=stated in (None, self.size), now=self.rules.now()):
                    record = self.record
            except MemoryError:
                pass
        self.end()
        if record is not None:
            record.write()

    def validation(self) -> Optional["Turn"]:
        """The request by which what was served stale is validated, if it is stale still and none does so already."""
        with self.rules.lock:
            if self.pass_ is None or self.target in self.rules.validating:
                return None
            self.rules.validating.add(self.target)
        turn = Turn(self.rules, self.method, self.target, self.request)
        turn.is_validation = True
        if self.record is not None:
            # (its response is asked for after the look of this turn)
            turn.record = Record(self.record.shelf, self.target, self.record.token)
        turn.asked_at = now = self.rules.now()
        try:
            turn.pass_ = self.pass_.validation(now=now)
        except (HeaderError, MemoryError):
            pass
        if turn.pass_ is not None and isinstance(turn._next(turn.pass_.step), Ask):
            return turn
        turn.end()
        return None

    def end(self) -> None:
        """Nothing more comes of the application."""
        if self.pass_ is not None:
            self.pass_.close()
        self.came_as = self.pass_ = self.record = None
        if self.is_validation:
            self.is_validation = False
            with self.rules.lock:
                self.rules.validating.discard(self.target)

    def _next(self, step: Step) -> Step:
        if isinstance(step, Ask):
            self.asked = step
        elif isinstance(step, Reply):
            self.validates = step.validates
        return step
