"""Storages behind a cache: what is stored outlives the process, and processes share it.

    session.mount("https://", CachedAdapter(storage=SQLiteStorage("cache.sqlite")))
    application = Cached(application, Cache(shared=True), storage=RedisStorage(redis.Redis()), secret=secret)

A process takes an entry over by playing the request and its response through its own cache again, so that what a storage
has is served only where the rules of HTTP allow it. A request that isn't safe removes its target for all processes before
its response is passed on.

>>> import tempfile
>>> from typed_headers import Cache
>>> from typed_headers.wsgi import Cached
>>> def application(environ, start_response):
...     start_response("200 OK", [("Content-Type", "text/plain"), ("Cache-Control", "max-age=60")])
...     print("asked")
...     return [b"hello"]
>>> environ = {"REQUEST_METHOD": "GET", "HTTP_HOST": "a.example", "PATH_INFO": "/"}
>>> with tempfile.TemporaryDirectory() as folder:
...     storage = SQLiteStorage(f"{folder}/cache.sqlite")
...     for _ in range(2):
...         cached = Cached(application, Cache(shared=True), storage=storage, secret=b"of the fleet")
...         b"".join(cached(environ, lambda status, fields: None))
...     storage.close()
asked
b'hello'
b'hello'
"""

import hashlib
import os
import sqlite3
import time
import weakref
from contextlib import contextmanager
from threading import Lock
from typing import Any, Iterator, List, Optional, Protocol, Sequence, Tuple, Union

from ._stored import MOST_ENTRIES, TOKEN
from .errors import StorageError

__all__ = ["RedisStorage", "SQLiteStorage", "Storage", "StorageError"]


class Storage(Protocol):
    """What caches share: a few entries for each target, and a token that changes once the target is removed.

    Each call is atomic, also between processes, and several threads may call at once. It raises `StorageError` if it
    fails, and may block. A storage may lose entries and targets at any time, but none may come back that was removed.
    """

    def look(self, target: str) -> Tuple[bytes, Sequence[str]]:
        """The target's token, and the names of its entries from the oldest to the newest.

        A target that has no token gets one, at random: so none has a token anew that it had before.
        """

    def load(self, target: str, name: str) -> Optional[bytes]:
        """An entry, or `None` if there is none of this name."""

    def add(self, target: str, token: bytes, name: str, entry: bytes) -> bool:
        """Adds an entry if this is the target's token, and returns whether it is.

        A target has at most 16 entries, the oldest of which go. If there is no room, the entry isn't added.
        """

    def remove(self, target: str) -> None:
        """Removes the entries of a target, and its token: it gets a fresh one at the next look."""


def _key(target: str) -> bytes:
    """What stands for a target, as URIs may be long, and may have secrets."""
    return hashlib.sha256(target.encode()).digest()


#: How long a call waits for other processes, in seconds; and a removal, as others answer by what isn't removed.
_PATIENCE, _PATIENCE_TO_REMOVE = 5.0, 60.0
#: A target's last use is noted again after so many milliseconds.
_NOTED_FOR = 60_000
#: How many bytes an entry counts beside its own, and a target.
_OVERHEAD = 256
_SCHEMA_VERSION = 1
_SCHEMA = f"""
CREATE TABLE targets (target BLOB PRIMARY KEY, token BLOB NOT NULL, used INTEGER NOT NULL) WITHOUT ROWID;
CREATE INDEX targets_by_use ON targets (used);
CREATE TABLE entries (made INTEGER PRIMARY KEY, target BLOB NOT NULL, name TEXT NOT NULL, entry BLOB NOT NULL);
CREATE UNIQUE INDEX entries_by_name ON entries (target, name);
CREATE TABLE taken (bytes INTEGER NOT NULL);
INSERT INTO taken VALUES (0);
CREATE TRIGGER target_made AFTER INSERT ON targets BEGIN UPDATE taken SET bytes = bytes + {_OVERHEAD}; END;
CREATE TRIGGER target_gone AFTER DELETE ON targets BEGIN UPDATE taken SET bytes = bytes - {_OVERHEAD}; END;
CREATE TRIGGER entry_made AFTER INSERT ON entries BEGIN
    UPDATE taken SET bytes = bytes + {_OVERHEAD} + length(new.entry); END;
CREATE TRIGGER entry_gone AFTER DELETE ON entries BEGIN
    UPDATE taken SET bytes = bytes - {_OVERHEAD} - length(old.entry); END;
PRAGMA user_version = {_SCHEMA_VERSION};
"""


class SQLiteStorage:
    """A storage in a file, for the processes of one machine: by SQLite, which Python has.

    When all entries take more than `most` bytes, the targets that weren't used for the longest time go. A file that isn't
    there is made, for its user alone. It must lie on a disk of this machine, as SQLite's locks do. Threads and processes
    that fork may share a storage. `StorageError` if the file can't be used.
    """

    def __init__(self, path: "Union[str, os.PathLike[str]]", *, most: int = 1 << 30) -> None:
        self.path, self.most = os.path.abspath(os.fspath(path)), most
        self._lock, self._is_open = Lock(), True
        # The connections that no thread uses, of this process; those of the process that it was forked from aren't used
        # nor closed (https://www.sqlite.org/howtocorrupt.html, section 2.6).
        self._idle: List[sqlite3.Connection] = []
        self._process, self._inherited = os.getpid(), []  # type: Tuple[int, List[sqlite3.Connection]]
        try:
            os.close(os.open(self.path, os.O_CREAT | os.O_RDWR, 0o600))
        except OSError as error:
            raise StorageError(f"{self.path}: {error.strerror}") from error
        with self._connection():
            pass
        _storages.add(self)

    def close(self) -> None:
        """Closes the file. Each other call then raises `StorageError`."""
        self._is_open = False
        self._close_idle()

    def look(self, target: str) -> Tuple[bytes, Sequence[str]]:
        """See `Storage.look`."""
        key, now = _key(target), time.time_ns() // 1_000_000
        with self._connection() as connection:
            found = self._found(connection, key)
            if not found:
                with _writing(connection):
                    connection.execute("INSERT OR IGNORE INTO targets VALUES (?, ?, ?)", (key, os.urandom(TOKEN), now))
                    found = self._found(connection, key)
                    self._make_room(connection)
            elif abs(now - found[0][1]) > _NOTED_FOR:
                connection.execute("UPDATE targets SET used = ? WHERE target = ?", (now, key))
            return found[0][0], [name for _, _, name in found if name is not None]

    def load(self, target: str, name: str) -> Optional[bytes]:
        """See `Storage.load`."""
        asked = "SELECT entry FROM entries WHERE target = ? AND name = ?"
        with self._connection() as connection:
            found = _all(connection, asked, _key(target), name)
        return found[0][0] if found else None

    def add(self, target: str, token: bytes, name: str, entry: bytes) -> bool:
        """See `Storage.add`."""
        key, now = _key(target), time.time_ns() // 1_000_000
        old = "made NOT IN (SELECT made FROM entries WHERE target = ? ORDER BY made DESC LIMIT ?)"
        with self._connection() as connection, _writing(connection):
            if _all(connection, "SELECT token FROM targets WHERE target = ?", key) != [(token,)]:
                return False
            if len(entry) + 2 * _OVERHEAD <= self.most:
                connection.execute("INSERT INTO entries (target, name, entry) VALUES (?, ?, ?)", (key, name, entry))
                connection.execute(f"DELETE FROM entries WHERE target = ? AND {old}", (key, key, MOST_ENTRIES))
                connection.execute("UPDATE targets SET used = ? WHERE target = ?", (now, key))
                self._make_room(connection)
            return True

    def remove(self, target: str) -> None:
        """See `Storage.remove`."""
        with self._connection() as connection:
            # Other changes may be lost if the machine stops, but not this one.
            _set(connection, _PATIENCE_TO_REMOVE, "FULL")
            with _writing(connection):
                self._forget(connection, _key(target))
            _set(connection, _PATIENCE, "NORMAL")

    def _found(self, connection: sqlite3.Connection, key: bytes) -> List[Tuple[bytes, int, Optional[str]]]:
        """The token of a target, its last use, and the name of an entry, for each of its entries, or once."""
        # (one statement sees the tables as they are at one time)
        asked = "SELECT token, used, name FROM targets LEFT JOIN entries USING (target) WHERE target = ? ORDER BY made"
        return _all(connection, asked, key)

    def _forget(self, connection: sqlite3.Connection, key: bytes) -> None:
        connection.execute("DELETE FROM entries WHERE target = ?", (key,))
        connection.execute("DELETE FROM targets WHERE target = ?", (key,))

    def _make_room(self, connection: sqlite3.Connection) -> None:
        while _all(connection, "SELECT bytes FROM taken") > [(self.most,)]:
            oldest = _all(connection, "SELECT target FROM targets ORDER BY used LIMIT 1")
            if not oldest:
                return
            self._forget(connection, oldest[0][0])

    @contextmanager
    def _connection(self) -> Iterator[sqlite3.Connection]:
        """A connection that nobody else uses. After an error it is closed, which undoes what it began."""
        connection: Optional[sqlite3.Connection] = None
        try:
            connection = self._taken()
            yield connection
        except BaseException as error:
            if connection is not None:
                connection.close()
            if isinstance(error, sqlite3.Error):
                raise StorageError(f"{self.path}: {error}") from error
            raise
        with self._lock:
            if self._is_open and self._process == os.getpid():
                self._idle.append(connection)
                return
        connection.close()

    def _taken(self) -> sqlite3.Connection:
        with self._lock:
            if not self._is_open:
                raise StorageError(f"{self.path}: the storage is closed")
            if self._process != os.getpid():
                self._inherited += self._idle
                self._idle, self._process = [], os.getpid()
            if self._idle:
                return self._idle.pop()
        connection = sqlite3.connect(self.path, isolation_level=None, check_same_thread=False)
        try:
            _prepare(connection)
        except BaseException:
            connection.close()
            raise
        return connection

    def _close_idle(self) -> None:
        with self._lock:
            if self._process == os.getpid():
                while self._idle:
                    self._idle.pop().close()


def _all(connection: sqlite3.Connection, statement: str, *given: object) -> List[Any]:
    """All that a statement finds. (One of which something is left would hold the tables as they were.)"""
    return connection.execute(statement, given).fetchall()


def _set(connection: sqlite3.Connection, patience: float, synchronous: str) -> None:
    _all(connection, f"PRAGMA busy_timeout = {int(patience * 1000)}")
    _all(connection, f"PRAGMA synchronous = {synchronous}")


@contextmanager
def _writing(connection: sqlite3.Connection) -> Iterator[None]:
    """A transaction that no other process writes beside."""
    connection.execute("BEGIN IMMEDIATE")
    yield
    connection.execute("COMMIT")


def _prepare(connection: sqlite3.Connection) -> None:
    """Sets the connection up, and makes the tables, if there are none."""
    _set(connection, _PATIENCE, "NORMAL")
    give_up = time.monotonic() + _PATIENCE
    while True:
        try:
            _all(connection, "PRAGMA journal_mode = WAL")
            break
        except sqlite3.OperationalError:
            # (this doesn't wait for another process that does the same)
            if time.monotonic() > give_up:
                raise
            time.sleep(0.01)
    if _all(connection, "PRAGMA user_version") == [(_SCHEMA_VERSION,)]:
        return
    with _writing(connection):
        ((version,),) = _all(connection, "PRAGMA user_version")
        if version not in (0, _SCHEMA_VERSION):
            raise sqlite3.DatabaseError(f"the file is of another version: {version}")
        if version == 0:
            for statement in _statements(_SCHEMA):
                connection.execute(statement)


def _statements(script: str) -> Iterator[str]:
    # (`executescript` would end the transaction)
    statement = ""
    for line in script.splitlines():
        statement += line + "\n"
        if sqlite3.complete_statement(statement):
            yield statement
            statement = ""


_storages: "weakref.WeakSet[SQLiteStorage]" = weakref.WeakSet()


def _close_all() -> None:
    for storage in list(_storages):
        storage._close_idle()


if hasattr(os, "register_at_fork"):
    os.register_at_fork(before=_close_all)


_LOOK = """
local token = redis.call('HGET', KEYS[1], 'token')
if not token then
    token = ARGV[1]
    redis.call('DEL', KEYS[1])
    redis.call('HSET', KEYS[1], 'token', token)
    redis.call('EXPIRE', KEYS[1], ARGV[2])
end
return {token, redis.call('HGET', KEYS[1], 'names')}
"""
_ADD = """
if redis.call('HGET', KEYS[1], 'token') ~= ARGV[1] then return 0 end
local names = {}
for name in string.gmatch(redis.call('HGET', KEYS[1], 'names') or '', '%S+') do names[#names + 1] = name end
while #names >= tonumber(ARGV[5]) do redis.call('HDEL', KEYS[1], 'entry ' .. table.remove(names, 1)) end
names[#names + 1] = ARGV[2]
redis.call('HSET', KEYS[1], 'entry ' .. ARGV[2], ARGV[3], 'names', table.concat(names, ' '))
redis.call('EXPIRE', KEYS[1], ARGV[4])
return 1
"""


class RedisStorage:
    """A storage in Redis, for the processes of several machines.

    `client` is a `redis.Redis`, which you give the times after which it gives up (`socket_timeout`,
    `socket_connect_timeout`). A target is a hash, whose key begins with `prefix`. It goes `keep` seconds after something
    was last written to it, or when Redis has no room left, if its `maxmemory-policy` lets it go.
    """

    def __init__(self, client: Any, *, prefix: str = "typed-headers:", keep: int = 86_400) -> None:
        from redis.exceptions import RedisError

        if client.connection_pool.connection_kwargs.get("decode_responses"):
            raise ValueError("the client decodes responses, and entries are bytes: make it without decode_responses")
        self.client, self.prefix, self.keep = client, prefix, keep
        self._errors = (RedisError, OSError)

    def look(self, target: str) -> Tuple[bytes, Sequence[str]]:
        """See `Storage.look`."""
        key = self._key(target)
        with self._failing():
            token, names = self.client.hmget(key, "token", "names")
            if token is None:
                token, names = self.client.eval(_LOOK, 1, key, os.urandom(TOKEN), self.keep)
            return bytes(token), (names or b"").decode("ascii", "replace").split()

    def load(self, target: str, name: str) -> Optional[bytes]:
        """See `Storage.load`."""
        with self._failing():
            found: Optional[bytes] = self.client.hget(self._key(target), f"entry {name}")
            return found

    def add(self, target: str, token: bytes, name: str, entry: bytes) -> bool:
        """See `Storage.add`."""
        with self._failing():
            return bool(self.client.eval(_ADD, 1, self._key(target), token, name, entry, self.keep, MOST_ENTRIES))

    def remove(self, target: str) -> None:
        """See `Storage.remove`."""
        with self._failing():
            self.client.delete(self._key(target))

    def _key(self, target: str) -> str:
        return self.prefix + _key(target).hex()

    @contextmanager
    def _failing(self) -> Iterator[None]:
        try:
            yield
        except self._errors as error:
            raise StorageError(f"Redis: {error}") from error
