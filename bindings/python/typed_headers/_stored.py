"""What a cache shares with those of other processes, by a storage behind it.

An entry of a storage is a pass through the cache of one process: the request, the response of the origin, and when both
were. To take it over, another process plays the pass again, through its own cache. That stores the response only if the
rules let it, with its true age, so nothing is decided here.

A storage gives each target a token, and a fresh one once the target is removed. What a process has of a target is good
for as long as the token is the one that it saw last.
"""

import hashlib
import hmac
import json
import os
from collections import OrderedDict
from dataclasses import dataclass, field, replace
from threading import Lock
from typing import TYPE_CHECKING, Callable, Dict, List, Optional, Sequence, Set, Tuple

from . import _library
from ._exchange import Fields
from ._names import SECRETS
from .caching import Ask, Cache, PassOn
from .errors import HeaderError, StorageError
from .headers import Headers

if TYPE_CHECKING:
    from .storage import Storage

#: At most so many entries of a target are stored.
MOST_ENTRIES = 16
#: The bytes of a token, and of the name of an entry before it is written in hexadecimal digits.
TOKEN = 16
#: Of so many targets a process knows the tokens. What it has of another is removed at the next request for it.
_MOST_KNOWN = 4096
#: At most so many removals that failed are tried again.
_MOST_OWED = 65_536
_LOCKS = 64
_VERSION = b"typed-headers 1\n"
_DIGEST = 32
#: What Vary may not name in a response that others get, as the entry has the values of these fields.
_UNWRITTEN = ("*", *SECRETS)


@dataclass(frozen=True)
class Entry:
    """A pass: a GET, and what its origin answered."""

    #: Those fields of the request that Vary names.
    request: Fields
    status: int
    response: Fields
    #: When the origin was asked, and when its response came.
    times: Tuple[int, int]
    content: bytes

    def seal(self, secret: bytes, *about: bytes) -> bytes:
        """The entry as bytes that show whether they are whole, and whose they are."""
        told = {
            "request": self.request,
            "status": self.status,
            "response": self.response,
            "times": self.times,
            "length": len(self.content),
        }
        body = json.dumps(told, separators=(",", ":")).encode("ascii") + b"\n" + self.content
        return _VERSION + _digest(secret, about, body) + body


def opened(sealed: bytes, secret: bytes, *about: bytes) -> Optional[Entry]:
    """The entry that was sealed, or `None` if these bytes are none, or one about something else."""
    head, body = sealed[: len(_VERSION) + _DIGEST], sealed[len(_VERSION) + _DIGEST :]
    if not hmac.compare_digest(head, _VERSION + _digest(secret, about, body)):
        return None
    line, _, content = body.partition(b"\n")
    try:
        told = json.loads(line)
        asked, came = told["times"]
        if told["length"] != len(content):
            return None
        return Entry(
            list(_library.to_pairs(told["request"], "request")),
            _library.to_number(told["status"], "status", 16),
            list(_library.to_pairs(told["response"], "response")),
            (_library.to_number(asked, "asked"), _library.to_number(came, "came")),
            content,
        )
    except (KeyError, RecursionError, TypeError, ValueError):
        # (without a secret, anybody seals what they like)
        return None


def _digest(secret: bytes, about: Sequence[bytes], body: bytes) -> bytes:
    found = hmac.new(secret, digestmod=hashlib.sha256)
    for part in (_VERSION, *about):
        found.update(b"%d:%b" % (len(part), part))
    found.update(body)
    return found.digest()


@dataclass
class _Known:
    """What this process saw of a target: its token, and those of its entries that it took over or wrote."""

    token: bytes
    names: Set[str] = field(default_factory=set)


@dataclass(frozen=True)
class Looked:
    """The token of a target, and the names of those of its entries that this process hasn't taken over."""

    token: bytes
    names: Sequence[str]


class Shelf:
    """A storage behind a cache, as this process sees it.

    If the storage fails, that costs hits: what can't be looked up isn't answered by what is stored, and a removal that
    failed is tried again before the next look.
    """

    def __init__(self, cache: Cache, storage: "Storage", secret: bytes) -> None:
        self.cache, self.storage, self.secret = cache, storage, secret
        # (a private cache stores what a shared one may not)
        self.kind = b"shared" if cache.shared else b"private"
        self.locks = [Lock() for _ in range(_LOCKS)]
        # Guards `known` and `owed`, and is held during no call of the storage.
        self.lock = Lock()
        self.known: "OrderedDict[str, _Known]" = OrderedDict()
        self.owed: Dict[str, object] = {}
        self.paying = Lock()

    def lock_of(self, target: str) -> Lock:
        """What is held from a look at a target until its pass has begun.

        Else a request that looked before a removal could bring back what another one, which looked after it, removed.
        """
        return self.locks[hash(target) % _LOCKS]

    def look(self, target: str) -> Optional[Looked]:
        """Looks at a target, whose lock is held, and removes from the cache what isn't of its present token.

        `None` if the storage fails: then all that the cache has of the target is removed.
        """
        try:
            self._pay()
            token, names = self.storage.look(target)
        except (MemoryError, StorageError):
            self.cache.remove(target)
            return None
        with self.lock:
            known = self.known.get(target)
            if known is not None and known.token == token:
                self.known.move_to_end(target)
                known.names.intersection_update(names)
                return Looked(token, [name for name in names if name not in known.names])
        # (that comes first, and what was asked before it isn't stored any more)
        self.cache.remove(target)
        with self.lock:
            self.known[target] = _Known(token)
            self.known.move_to_end(target)
            if len(self.known) > _MOST_KNOWN:
                self.known.popitem(last=False)
        return Looked(token, list(names))

    def take_over(self, target: str, looked: Looked, now: Callable[[], int]) -> None:
        """Plays the entries of a target, whose lock is held, through the cache."""
        for name in looked.names[-MOST_ENTRIES:]:
            try:
                sealed = self.storage.load(target, name)
            except (MemoryError, StorageError):
                return
            entry = None if sealed is None else opened(sealed, self.secret, *self._about(target, looked.token, name))
            if entry is not None and entry.times[1] > now():
                # (the clock of its process is ahead, so its age would be too small)
                continue
            self._note(target, looked.token, name)
            if entry is not None:
                self._play(target, entry)

    def add(self, target: str, token: bytes, entry: Entry) -> None:
        """Writes an entry for others, unless the target was removed since this was its token."""
        name = os.urandom(TOKEN).hex()
        try:
            sealed = entry.seal(self.secret, *self._about(target, token, name))
            is_added = self.storage.add(target, token, name, sealed)
        except (MemoryError, StorageError):
            return
        if is_added:
            self._note(target, token, name)
        else:
            self.cache.remove(target)

    def remove(self, target: str) -> None:
        """Removes a target for all processes. If that fails, it is tried again before the next look."""
        try:
            self.storage.remove(target)
        except (MemoryError, StorageError):
            with self.lock:
                if target in self.owed or len(self.owed) < _MOST_OWED:
                    self.owed[target] = object()

    def _pay(self) -> None:
        """Removes what couldn't be removed before. `StorageError` if some of it can't be still."""
        if not self.owed:
            return
        if not self.paying.acquire(blocking=False):
            raise StorageError("removals are owed")
        try:
            with self.lock:
                owed = list(self.owed.items())
            for target, mark in owed:
                self.storage.remove(target)
                with self.lock:
                    # (another removal may have failed meanwhile)
                    if self.owed.get(target) is mark:
                        del self.owed[target]
        finally:
            self.paying.release()

    def _about(self, target: str, token: bytes, name: str) -> Tuple[bytes, ...]:
        return self.kind, target.encode(), token, name.encode()

    def _note(self, target: str, token: bytes, name: str) -> None:
        with self.lock:
            known = self.known.get(target)
            if known is not None and known.token == token:
                known.names.add(name)

    def _play(self, target: str, entry: Entry) -> None:
        asked, came = entry.times
        try:
            # (its origin was asked, whatever this process has stored)
            forced = () if "cache-control" in _varies(entry.response) else (("cache-control", "no-cache"),)
            played = self.cache.begin("GET", target, [*entry.request, *forced], now=asked)
        except (HeaderError, MemoryError):
            return
        try:
            if isinstance(played.step, Ask):
                step = played.came(entry.status, entry.response, now=came)
                if isinstance(step, PassOn) and step.stores:
                    played.received(entry.content)
                    played.ended(now=came)
        except (HeaderError, MemoryError):
            pass
        finally:
            played.close()


class Record:
    """What a turn writes for others, if its response is stored."""

    def __init__(self, shelf: Shelf, target: str, token: bytes) -> None:
        self.shelf, self.target, self.token = shelf, target, token
        # The pass so far, and its content, if it is one that others may take over.
        self.entry: Optional[Entry] = None
        self.pieces: List[bytes] = []

    def came(self, request: Headers, status: int, fields: Fields, times: Tuple[int, int]) -> None:
        """Notes the response. No entry has secrets of clients, nor those that its origin gives to one."""
        try:
            varies = _varies(fields)
            if varies.isdisjoint(_UNWRITTEN) and "set-cookie" not in Headers(fields):
                asked = [(name, line) for name, line in request.pairs() if name in varies]
                self.entry = Entry(asked, status, fields, times, b"")
        except (HeaderError, MemoryError):
            pass

    def received(self, piece: bytes) -> None:
        if self.entry is not None:
            self.pieces.append(piece)

    def write(self) -> None:
        """Writes the entry, whose response this process has stored."""
        if self.entry is None:
            return
        try:
            self.shelf.add(self.target, self.token, replace(self.entry, content=b"".join(self.pieces)))
        except MemoryError:
            # (what was removed meanwhile is removed at the next look)
            pass


def _varies(fields: Fields) -> Set[str]:
    """The names of Vary, in lower case."""
    return {name.lower() for name in Headers(fields).vary or ()}


def put_behind(cache: Cache, storage: "Storage", secret: bytes) -> None:
    """Puts a storage behind a cache: for all that share the cache, as what they have of a target is the same."""
    with cache._lock:
        if cache._shelf is None:
            cache._shelf = Shelf(cache, storage, secret)
        elif cache._shelf.storage is not storage or cache._shelf.secret != secret:
            raise ValueError("the cache has another storage, or another secret")
