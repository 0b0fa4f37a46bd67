"""Storages behind caches: their calls, what processes share by them, and what failures and lies of a storage cost."""

import asyncio
import contextlib
import importlib
import json
import os
import re
import sqlite3
import subprocess
import sys
import tempfile
import threading
import time
import unittest
from http.server import BaseHTTPRequestHandler, ThreadingHTTPServer
from pathlib import Path
from typing import Any, Callable, Dict, Iterable, Iterator, List, Optional, Sequence, Tuple, Type
from unittest import mock

from typed_headers import Cache, _stored, asgi, wsgi
from typed_headers._cached import Rules, Turn
from typed_headers.caching import Ask, Reply
from typed_headers.headers import Headers
from typed_headers.storage import RedisStorage, SQLiteStorage, Storage, StorageError

HERE = Path(__file__).resolve().parent
sys.path.append(str(HERE))
fleet: Any = importlib.import_module("fleet")

#: Where it takes no time to write.
ROOM = "/dev/shm" if os.access("/dev/shm", os.W_OK) else None
NO_REDIS: Optional[str] = fleet.Redis.why_not()
FRESH = [("Cache-Control", "max-age=60"), ("ETag", '"1"')]
A, B = "http://a.example/a", "http://a.example/b"
Fields = List[Tuple[str, str]]
Answer = Tuple[int, Dict[str, str], bytes]
Given = Tuple[int, Fields, bytes]


class Storages(unittest.TestCase):
    """Has a folder with storages."""

    def setUp(self) -> None:
        room = tempfile.TemporaryDirectory(dir=ROOM)
        self.addCleanup(room.cleanup)
        self.folder = Path(room.name)

    def another(self) -> SQLiteStorage:
        """An empty storage."""
        storage = SQLiteStorage(self.folder / f"{len(list(self.folder.iterdir()))}.sqlite")
        self.addCleanup(storage.close)
        return storage

    def sqlite(self, most: int = 1 << 30) -> SQLiteStorage:
        storage = SQLiteStorage(self.folder / "cache.sqlite", most=most)
        self.addCleanup(storage.close)
        return storage


# The calls of a storage


class Calls:
    """The tests of one kind of storage."""

    class Each(Storages):
        def storage(self) -> Storage:
            """One more storage over what the test has."""
            raise NotImplementedError

        def test_a_target_has_a_token(self) -> None:
            storage = self.storage()
            token, names = storage.look(A)
            self.assertEqual((len(token), list(names)), (16, []))
            self.assertEqual(self.storage().look(A)[0], token)
            self.assertNotEqual(storage.look(B)[0], token)

        def test_an_entry(self) -> None:
            storage, other, content = self.storage(), self.storage(), bytes(range(256)) * 300
            token, _ = storage.look(A)
            self.assertTrue(storage.add(A, token, "one", content))
            self.assertTrue(other.add(A, token, "two", b""))
            self.assertEqual((list(other.look(A)[1]), list(storage.look(A)[1])), (["one", "two"],) * 2)
            self.assertEqual((other.load(A, "one"), other.load(A, "two")), (content, b""))
            self.assertEqual((storage.load(A, "three"), storage.load(B, "one")), (None, None))

        def test_compares_the_token(self) -> None:
            storage = self.storage()
            self.assertFalse(storage.add(A, bytes(16), "one", b"entry"))
            token, _ = storage.look(A)
            for wrong in (bytes(16), storage.look(B)[0], token[:-1], b""):
                self.assertFalse(storage.add(A, wrong, "one", b"entry"))
            self.assertEqual((list(storage.look(A)[1]), storage.load(A, "one")), ([], None))

        def test_the_oldest_entry_goes(self) -> None:
            storage, names = self.storage(), [f"{it}" for it in range(20)]
            token, _ = storage.look(A)
            for name in names:
                self.assertTrue(storage.add(A, token, name, name.encode()))
            self.assertEqual(list(storage.look(A)[1]), names[4:])
            self.assertEqual((storage.load(A, "3"), storage.load(A, "4")), (None, b"4"))

        def test_removes(self) -> None:
            storage, other = self.storage(), self.storage()
            tokens = {storage.look(A)[0]}
            for count in range(2, 5):
                (token, _), (kept, _) = storage.look(A), storage.look(B)
                storage.add(A, token, "one", b"entry")
                storage.add(B, kept, "one", b"other")
                other.remove(A)
                self.assertEqual(storage.load(A, "one"), None)
                self.assertFalse(storage.add(A, token, "two", b"late"))
                self.assertEqual(list(storage.look(A)[1]), [])
                tokens.add(storage.look(A)[0])
                self.assertEqual(len(tokens), count)
                self.assertEqual((storage.look(B)[0], storage.load(B, "one")), (kept, b"other"))
                storage.remove(B)

        def test_threads(self) -> None:
            storage, problems = self.storage(), []

            def work(number: int) -> None:
                try:
                    for it in range(10):
                        token, _ = storage.look(A)
                        storage.add(A, token, f"{number}-{it}", b"entry")
                        if it % 5 == 4:
                            storage.remove(A)
                except Exception as error:
                    problems.append(error)

            threads = [threading.Thread(target=work, args=(it,)) for it in range(6)]
            for thread in threads:
                thread.start()
            for thread in threads:
                thread.join()
            self.assertEqual(problems, [])
            self.assertLessEqual(len(storage.look(A)[1]), 16)

        def test_processes_that_fork(self) -> None:
            storage = self.storage()
            token, _ = storage.look(A)

            def work() -> None:
                assert storage.look(A)[0] == token
                assert storage.add(A, token, f"{os.getpid()}", b"entry")

            for child in [fleet.fork(work) for _ in range(3)]:
                self.assertEqual(os.waitpid(child, 0)[1], 0)
            self.assertEqual(len(storage.look(A)[1]), 3)


class SQLiteCalls(Calls.Each):
    def storage(self) -> SQLiteStorage:
        return self.sqlite()

    def test_the_least_recently_used_goes(self) -> None:
        storage, tokens = self.sqlite(most=10_000), {}
        for number, target in enumerate("abcdef"):
            with mock.patch("time.time_ns", return_value=number * 10**12):
                tokens[target], _ = storage.look(target)
                self.assertTrue(storage.add(target, tokens[target], "one", bytes(2000)))
                storage.look("a")
        kept = [target for target in "abcdef" if storage.load(target, "one")]
        self.assertEqual(kept, ["a", "e", "f"])
        for target in "bcd":
            self.assertNotEqual(storage.look(target)[0], tokens[target])

    def test_targets_without_entries_are_bounded_too(self) -> None:
        storage = self.sqlite(most=10_000)
        for number in range(200):
            storage.look(f"{number}")
        with contextlib.closing(sqlite3.connect(self.folder / "cache.sqlite")) as connection:
            self.assertLess(connection.execute("SELECT count(*) FROM targets").fetchone()[0], 50)

    def test_an_entry_that_is_too_large(self) -> None:
        storage = self.sqlite(most=10_000)
        token, _ = storage.look(A)
        self.assertTrue(storage.add(A, token, "one", bytes(20_000)))
        self.assertEqual((storage.look(A)[0], list(storage.look(A)[1])), (token, []))

    def test_counts_what_it_has(self) -> None:
        storage = self.sqlite()
        for number in range(40):
            token, _ = storage.look(f"{number % 3}")
            storage.add(f"{number % 3}", token, f"{number}", bytes(number))
            if number % 7 == 0:
                storage.remove(f"{number % 2}")
        for target in "012":
            storage.remove(target)
        with contextlib.closing(sqlite3.connect(self.folder / "cache.sqlite")) as connection:
            self.assertEqual(connection.execute("SELECT bytes FROM taken").fetchall(), [(0,)])

    def test_no_other_user_reads_it(self) -> None:
        storage = self.sqlite()
        storage.look(A)
        for file in self.folder.iterdir():
            self.assertEqual(file.stat().st_mode & 0o77, 0, file)

    def test_fails(self) -> None:
        storage = self.sqlite()
        storage.close()
        with self.assertRaises(StorageError):
            storage.look(A)
        with self.assertRaises(StorageError):
            SQLiteStorage(self.folder / "none" / "cache.sqlite")
        (self.folder / "other").write_bytes(b"no file of SQLite" * 100)
        with self.assertRaises(StorageError):
            SQLiteStorage(self.folder / "other")
        with contextlib.closing(sqlite3.connect(self.folder / "cache.sqlite")) as connection:
            connection.execute("PRAGMA user_version = 7")
        with self.assertRaises(StorageError):
            self.sqlite()

    def test_fails_if_it_is_busy(self) -> None:
        storage = self.sqlite()
        token, _ = storage.look(A)
        with contextlib.closing(sqlite3.connect(self.folder / "cache.sqlite", isolation_level=None)) as connection:
            connection.execute("BEGIN IMMEDIATE")
            with mock.patch.multiple("typed_headers.storage", _PATIENCE=0.05, _PATIENCE_TO_REMOVE=0.05):
                storage._close_idle()
                for call in (lambda: storage.add(A, token, "one", b""), lambda: storage.remove(A)):
                    with self.assertRaises(StorageError):
                        call()
                self.assertEqual(storage.look(A)[0], token)
        self.assertTrue(storage.add(A, token, "one", b""))


@unittest.skipIf(NO_REDIS, f"{NO_REDIS}")
class RedisCalls(Calls.Each):
    server: Any

    @classmethod
    def setUpClass(cls) -> None:
        cls.server = fleet.Redis()
        cls.addClassCleanup(cls.server.close)

    def setUp(self) -> None:
        super().setUp()
        self.client = self.server.client()
        self.addCleanup(self.client.close)
        self.client.flushall()

    def storage(self) -> RedisStorage:
        return RedisStorage(self.client, keep=100)

    def test_expires(self) -> None:
        storage = self.storage()
        token, _ = storage.look(A)
        (key,) = self.client.keys()
        self.assertRegex(key.decode(), "^typed-headers:[0-9a-f]{64}$")
        self.assertIn(self.client.ttl(key), range(90, 101))
        self.client.expire(key, 10)
        storage.add(A, token, "one", b"entry")
        self.assertIn(self.client.ttl(key), range(90, 101))
        self.client.delete(key)
        self.assertNotEqual(storage.look(A)[0], token)

    def test_fails(self) -> None:
        storage = self.storage()
        storage.look(A)
        (key,) = self.client.keys()
        self.client.set(key, "a text")
        with self.assertRaises(StorageError):
            storage.look(A)
        server = fleet.Redis()
        self.addCleanup(server.close)
        storage = RedisStorage(server.client())
        storage.look(A)
        server.kill()
        for call in (lambda: storage.look(A), lambda: storage.load(A, "one"), lambda: storage.remove(A)):
            with self.assertRaises(StorageError):
                call()
        import redis

        with self.assertRaises(ValueError):
            RedisStorage(redis.Redis(decode_responses=True))


# What processes share


class Origin:
    """An application of both kinds, which answers by `respond` and notes what it is asked."""

    def __init__(self, respond: Callable[[str, Dict[str, str]], Given]) -> None:
        self.respond = respond
        self.asked: List[Tuple[str, Dict[str, str]]] = []

    def answer(self, method: str, fields: Dict[str, str]) -> Given:
        self.asked.append((method, fields))
        return self.respond(method, fields)

    def wsgi(self, environ: Any, start_response: Any) -> Iterable[bytes]:
        fields = {key[5:].lower().replace("_", "-"): value for key, value in environ.items() if key.startswith("HTTP_")}
        status, given, content = self.answer(environ["REQUEST_METHOD"], fields)
        start_response(f"{status} X", list(given))
        return iter([content[:2], content[2:]] if environ["REQUEST_METHOD"] != "HEAD" else [])

    async def asgi(self, scope: Any, receive: Any, send: Any) -> None:
        fields = {name.decode(): value.decode("latin-1") for name, value in scope["headers"]}
        status, given, content = self.answer(scope["method"], fields)
        named = [(name.lower().encode(), value.encode("latin-1")) for name, value in given]
        await send({"type": "http.response.start", "status": status, "headers": named})
        for piece in (content[:2], content[2:]) if scope["method"] != "HEAD" else ():
            await send({"type": "http.response.body", "body": piece, "more_body": True})
        await send({"type": "http.response.body", "body": b""})


class Process:
    """A cache over a storage, in front of an origin, as a process of its own has it."""

    now = 1000

    def __init__(
        self, kind: str, origin: Origin, storage: Optional[Storage], cache: Optional[Cache] = None, **more: Any
    ) -> None:
        self.kind, self.cache = kind, Cache(shared=True) if cache is None else cache
        of_kind: Tuple[Any, Any] = (wsgi.Cached, origin.wsgi) if kind == "wsgi" else (asgi.Cached, origin.asgi)
        more = {"clock": lambda: self.now, "storage": storage, "secret": b"of the fleet", **more}
        self.application: Any = of_kind[0](of_kind[1], self.cache, **more)

    def ask(self, method: str = "GET", at: Optional[int] = None, **asked: str) -> Answer:
        self.now = self.now if at is None else at
        fields = {"host": "a.example", **{name.replace("_", "-"): value for name, value in asked.items()}}
        return self.by_wsgi(method, fields) if self.kind == "wsgi" else asyncio.run(self.by_asgi(method, fields))

    def by_wsgi(self, method: str, fields: Dict[str, str]) -> Answer:
        environ = {"REQUEST_METHOD": method, "PATH_INFO": "/a", "wsgi.url_scheme": "http"}
        environ.update({f"HTTP_{name.upper().replace('-', '_')}": value for name, value in fields.items()})
        head: List[Any] = []

        def start(status: str, given: Fields, problem: Any = None) -> Any:
            head[:] = [int(status[:3]), {name.lower(): value for name, value in given}]
            return head.append

        content = self.application(environ, start)
        try:
            body = b"".join(content)
        finally:
            if hasattr(content, "close"):
                content.close()
        return head[0], head[1], body

    async def by_asgi(self, method: str, fields: Dict[str, str]) -> Answer:
        named = [(name.lower().encode(), value.encode()) for name, value in fields.items()]
        scope = {"type": "http", "method": method, "path": "/a", "query_string": b"", "headers": named, "scheme": "http"}
        messages: List[Any] = []

        async def receive() -> Any:
            return {"type": "http.request", "body": b"", "more_body": False}

        async def send(message: Any) -> None:
            messages.append(message)

        await self.application(scope, receive, send)
        head, *bodies = messages
        given = {name.decode(): value.decode("latin-1") for name, value in head["headers"]}
        return head["status"], given, b"".join(it.get("body", b"") for it in bodies)


def pages(*more: Tuple[str, str], control: str = "max-age=60") -> Origin:
    """Answers each GET with the number of methods that were not safe so far."""
    changes = [0]

    def respond(method: str, fields: Dict[str, str]) -> Given:
        if method not in ("GET", "HEAD"):
            changes[0] += 1
            return 204, [], b""
        content = f"version-{changes[0]}"
        if fields.get("if-none-match") == f'"{content}"':
            return 304, [("ETag", f'"{content}"'), ("Cache-Control", control)], b""
        return 200, [("Cache-Control", control), ("ETag", f'"{content}"'), *more], content.encode()

    return Origin(respond)


class Shared(Storages):
    """Two processes over one storage."""

    def each(self, make: Callable[[], Origin] = pages, **more: Any) -> Iterator[Tuple[Origin, Process, Process]]:
        for kind in ("wsgi", "asgi"):
            storage, origin = self.another(), make()
            with self.subTest(kind=kind):
                yield origin, Process(kind, origin, storage, **more), Process(kind, origin, storage, **more)

    def test_a_hit_has_its_age(self) -> None:
        for origin, one, two in self.each():
            first, second = one.ask(at=1000), two.ask(at=1010)
            self.assertEqual((first[2], second[0], second[2]), (b"version-0", 200, b"version-0"))
            self.assertEqual((second[1]["age"], second[1]["etag"], len(origin.asked)), ("10", '"version-0"', 1))
            self.assertEqual(two.ask(Range="bytes=1-2", at=1020)[2], b"er")
            self.assertEqual(two.ask("HEAD")[1]["age"], "20")
            self.assertEqual(two.ask(If_None_Match='"version-0"')[0], 304)
            self.assertEqual((two.ask(at=1060)[1].get("age"), len(origin.asked)), ("0", 2))

    def test_a_put_removes_for_all(self) -> None:
        for origin, one, two in self.each():
            self.assertEqual([it.ask()[2] for it in (one, two, one, two)], [b"version-0"] * 4)
            self.assertEqual(len(origin.asked), 1)
            self.assertEqual(one.ask("PUT")[0], 204)
            self.assertEqual([it.ask()[2] for it in (two, one, two)], [b"version-1"] * 3)
            self.assertEqual(two.ask("X")[0], 204)
            self.assertEqual([it.ask()[2] for it in (two, one)], [b"version-2"] * 2)
            self.assertEqual(len(origin.asked), 5)

    def test_a_safe_method_removes_nothing(self) -> None:
        for origin, one, two in self.each():
            for method in ("GET", "HEAD", "OPTIONS", "TRACE"):
                one.ask(method)
            self.assertEqual((two.ask()[2], origin.asked[-1][0]), (b"version-0", "TRACE"))

    def test_removes_in_every_case(self) -> None:
        """Also if the PUT failed, or a pass can't be begun, or goes no further."""
        problems: List[Any] = [
            lambda one: mock.patch.object(one.cache, "begin", side_effect=MemoryError),
            lambda one: mock.patch("typed_headers.caching.Pass.came", side_effect=MemoryError),
        ]
        for problem in problems:
            for _, one, two in self.each():
                self.assertEqual([it.ask()[2] for it in (one, two)], [b"version-0"] * 2)
                with problem(one):
                    self.assertEqual(one.ask("PUT")[0], 204)
                self.assertEqual([it.ask()[2] for it in (two, one)], [b"version-1"] * 2)
        for status in (404, 500, None):
            for origin, one, two in self.each():
                self.assertEqual([it.ask()[2] for it in (one, two)], [b"version-0"] * 2)
                respond = origin.respond

                def fails(method: str, fields: Dict[str, str]) -> Given:
                    given = respond(method, fields)
                    if method == "PUT" and status is None:
                        raise KeyError("lost")
                    return (status or 500, [], b"") if method == "PUT" else given

                origin.respond = fails
                with contextlib.suppress(KeyError):
                    one.ask("PUT")
                self.assertEqual([it.ask()[2] for it in (two, one)], [b"version-1"] * 2)

    def test_removes_before_the_client_gets_the_response(self) -> None:
        for origin, one, two in self.each():
            one.ask()
            two.ask()
            seen: List[bytes] = []
            if one.kind == "wsgi":
                inner = one.application.application

                def writes(environ: Any, start_response: Any) -> Iterable[bytes]:
                    if environ["REQUEST_METHOD"] != "PUT":
                        content: Iterable[bytes] = inner(environ, start_response)
                        return content
                    b"".join(inner(environ, lambda *_: None))
                    start_response("204 X", [])(b"")
                    return []

                def start(status: str, given: Fields, problem: Any = None) -> Any:
                    seen.append(two.ask()[2])
                    return seen.append

                for application in (writes, inner):
                    one.application.application = application
                    environ = {"REQUEST_METHOD": "PUT", "PATH_INFO": "/a", "HTTP_HOST": "a.example"}
                    b"".join(one.application(environ, start))
                self.assertEqual([it for it in seen if it], [b"version-1", b"version-2"])

    def test_what_was_asked_before_a_removal_is_never_stored(self) -> None:
        for origin, one, two in self.each():
            respond, puts = origin.respond, []  # type: Any, List[int]

            def overlaps(method: str, fields: Dict[str, str]) -> Given:
                given: Given = respond(method, fields)
                if method == "GET" and not puts:
                    # (meanwhile another client changes it, by another process)
                    puts.append(1)
                    thread = threading.Thread(target=two.ask, args=("PUT",))
                    thread.start()
                    thread.join()
                return given

            origin.respond = overlaps
            self.assertEqual(one.ask()[2], b"version-0")
            self.assertEqual([it.ask()[2] for it in (one, two)], [b"version-1"] * 2)

    def test_varies(self) -> None:
        def make() -> Origin:
            def respond(method: str, fields: Dict[str, str]) -> Given:
                return 200, [*FRESH, ("Vary", "Accept-Language, X-None")], fields.get("accept-language", "none").encode()

            return Origin(respond)

        for origin, one, two in self.each(make):
            for language in ("de", "en"):
                one.ask(Accept_Language=language, Cookie="a=b", X_Other="c")
            for language in ("en", "de", "en"):
                self.assertEqual(two.ask(Accept_Language=language)[2], language.encode())
            self.assertEqual(len(origin.asked), 2)
            self.assertEqual((two.ask()[2], two.ask(Accept_Language="de", X_None="1")[2]), (b"none", b"de"))
            self.assertEqual(len(origin.asked), 4)

    def test_writes_no_secrets(self) -> None:
        secret: Sequence[Tuple[str, str]] = [
            ("Vary", "Cookie"), ("Vary", "accept, AUTHORIZATION"), ("Vary", "proxy-authorization"), ("Vary", "*"),
            ("Set-Cookie", "a=b"), ("Cache-Control", "no-store"), ("Cache-Control", "private"), ("Vary", "a b"),
        ]
        for field in secret:
            for origin, one, two in self.each(lambda: pages(field, control="public, max-age=60")):
                for it in (one, two):
                    self.assertEqual(it.ask(Cookie="secret", Authorization="Basic secret")[2], b"version-0")
                self.assertEqual(len(origin.asked), 2, field)
                one.application.rules.shelf.storage.close()
        for file in self.folder.iterdir():
            self.assertNotIn(b"secret", file.read_bytes())

    def test_writes_no_cookies_of_a_private_cache(self) -> None:
        cases: List[Tuple[Fields, bool]] = [([("Set-Cookie", "a=b")], False), ([], True)]
        for given, is_written in cases:
            storage = self.another()
            rules = [Rules(Cache(shared=False), 1000, lambda: 1000, False, storage=storage) for _ in range(2)]
            get(rules[0], A, [*FRESH, *given])
            self.assertIsInstance(get(rules[0], A), Reply)
            self.assertIsInstance(get(rules[1], A), Reply if is_written else Ask)

    def test_writes_no_credentials_of_a_request(self) -> None:
        for origin, one, two in self.each(lambda: pages(("Vary", "X-User"), control="public, max-age=60")):
            one.ask(Authorization="Basic secret", Cookie="a=secret", X_User="alice")
            self.assertEqual((two.ask(X_User="alice")[1]["age"], len(origin.asked)), ("0", 1))
            for file in self.folder.iterdir():
                self.assertNotIn(b"secret", file.read_bytes())

    def test_validates_by_itself(self) -> None:
        for origin, one, two in self.each():
            one.ask(at=1000)
            stale = two.ask(at=1100)
            self.assertEqual((stale[0], stale[2]), (200, b"version-0"))
            self.assertEqual(origin.asked[-1][1]["if-none-match"], '"version-0"')
            # (what a 304 renewed isn't written)
            self.assertEqual((one.ask(at=1110)[2], len(origin.asked)), (b"version-0", 3))

    def test_what_was_validated_for_nobody_is_written(self) -> None:
        for origin, one, two in self.each(lambda: pages(control="max-age=10, stale-while-revalidate=600")):
            one.ask(at=1000)
            origin.respond("PUT", {})
            self.assertEqual(one.ask(at=1020)[2], b"version-0")
            self.assertEqual((two.ask(at=1025)[2], len(origin.asked)), (b"version-1", 2))

    def test_heads_and_parts_are_not_written(self) -> None:
        for origin, one, two in self.each():
            one.ask("HEAD")
            two.ask("HEAD")
            self.assertEqual(len(origin.asked), 2)

            def cut(method: str, fields: Dict[str, str]) -> Given:
                return 200, [*FRESH, ("Content-Length", "9")], b"hello"

            origin.respond = cut
            one.ask()
            two.ask()
            self.assertEqual(len(origin.asked), 4)

    def test_only_if_cached(self) -> None:
        for _, one, two in self.each():
            self.assertEqual(one.ask(Cache_Control="only-if-cached")[0], 504)
            one.ask()
            self.assertEqual(two.ask(Cache_Control="only-if-cached")[2], b"version-0")

    def test_large_content(self) -> None:
        for origin, one, two in self.each(lambda: Origin(lambda *_: (200, FRESH, bytes(5000))), largest=4000):
            self.assertEqual([len(it.ask()[2]) for it in (one, two)], [5000] * 2)
            self.assertEqual(len(origin.asked), 2)

    def test_a_clock_that_is_ahead(self) -> None:
        for origin, one, two in self.each():
            one.ask(at=1010)
            self.assertEqual((two.ask(at=1000)[1].get("age"), len(origin.asked)), (None, 2))

    def test_requests_that_wait(self) -> None:
        for kind in ("wsgi", "asgi"):
            storage, origin = self.another(), pages()
            respond, got = origin.respond, []

            def slow(method: str, fields: Dict[str, str]) -> Given:
                time.sleep(0.1)
                return respond(method, fields)

            origin.respond = slow
            one = Process(kind, origin, storage, Cache(shared=True, wait=30))
            threads = [threading.Thread(target=lambda: got.append(one.ask()[2])) for _ in range(6)]
            for thread in threads:
                thread.start()
            for thread in threads:
                thread.join()
            self.assertEqual((got, len(origin.asked)), ([b"version-0"] * 6, 1))
            self.assertEqual(Process(kind, origin, storage).ask()[1]["age"], "0")

    def test_knows_a_bounded_number_of_targets(self) -> None:
        storage, cache = self.sqlite(), Cache(shared=True)
        rules = Rules(cache, 1000, lambda: 1000, storage=storage)
        with mock.patch("typed_headers._stored._MOST_KNOWN", 4):
            for _ in range(2):
                for number in range(8):
                    get(rules, f"http://a.example/{number}")
            shelf = rules.shelf
            assert shelf is not None
            self.assertEqual(len(shelf.known), 4)

    def test_one_storage_for_a_cache(self) -> None:
        one, two, cache, origin = self.another(), self.another(), Cache(shared=True), pages()
        Process("wsgi", origin, one, cache)
        Process("asgi", origin, one, cache)
        for storage, secret in ((two, b"of the fleet"), (one, b"another")):
            with self.assertRaises(ValueError):
                Process("wsgi", origin, storage, cache, secret=secret)
        # One without a storage uses that of its cache.
        Process("wsgi", origin, None, cache).ask("PUT")
        Process("wsgi", origin, None, cache).ask()
        self.assertEqual((Process("wsgi", origin, one).ask()[1]["age"], len(origin.asked)), ("0", 2))

    def test_private_and_shared_caches_take_nothing_of_one_another(self) -> None:
        storage, given = self.sqlite(), [("Cache-Control", "max-age=60")]
        private, shared = (
            Rules(Cache(shared=it), 1000, lambda: 1000, it, storage=storage, secret=b"") for it in (False, True)
        )
        get(private, A, given, Authorization="Basic secret")
        self.assertIsInstance(get(shared, A, given), Ask)
        self.assertIsInstance(get(Rules(Cache(shared=False), 1000, lambda: 1000, False, storage=storage), A), Reply)

    def test_a_removal_between_a_look_and_its_pass(self) -> None:
        """A request loads an entry, another process removes it, and another request of this process looks meanwhile."""
        storage, origin = self.sqlite(), pages()
        faulty, threads = Faulty(storage), []  # type: Faulty, List[threading.Thread]
        one, other = Process("wsgi", origin, faulty), Process("wsgi", origin, storage)
        other.ask()

        def load(target: str, name: str) -> Optional[bytes]:
            sealed = storage.load(target, name)
            other.ask("PUT")
            threads.append(threading.Thread(target=one.ask, args=("HEAD",)))
            threads[0].start()
            threads[0].join(0.2)
            return sealed

        faulty.load = load
        self.assertEqual(one.ask()[2], b"version-0")
        threads[0].join()
        self.assertEqual(one.ask()[2], b"version-1")


def get(rules: Rules, target: str, given: Sequence[Tuple[str, str]] = FRESH, **asked: str) -> Any:
    """The first step of a GET, which the origin answers with these fields if it is asked."""
    turn = Turn(rules, "GET", target, Headers(asked))
    step = turn.start()
    if isinstance(step, Ask):
        assert turn.came(200, list(given)) is None
        turn.received(b"hello")
        turn.keep()
    return step


# A storage that lies, or fails


class Faulty:
    """A storage whose calls may be replaced by others."""

    def __init__(self, storage: Storage) -> None:
        self.storage = storage
        self.look, self.load, self.add, self.remove = storage.look, storage.load, storage.add, storage.remove


def fail(error: Type[Exception] = StorageError) -> Callable[..., Any]:
    def call(*_: Any) -> Any:
        raise error("out of order")

    return call


class Lies(Storages):
    """What isn't an entry of this target, with this token, is left out."""

    def setUp(self) -> None:
        super().setUp()
        self.storage, self.origin = self.sqlite(), pages()
        Process("wsgi", self.origin, self.storage).ask()
        (self.name,) = self.storage.look(A)[1]
        self.sealed = self.storage.load(A, self.name) or b""

    def take(self, sealed: Optional[bytes], secret: bytes = b"of the fleet") -> bool:
        """Whether a process takes this over, in place of the entry that is stored."""
        faulty, asked = Faulty(self.storage), len(self.origin.asked)
        faulty.load = lambda target, name: sealed
        faulty.add = lambda *_: True
        found = Process("wsgi", self.origin, faulty, secret=secret).ask()
        self.assertEqual(found[::2], (200, b"version-0"))
        self.assertEqual("age" in found[1], len(self.origin.asked) == asked)
        return "age" in found[1]

    def test_the_entry_itself(self) -> None:
        self.assertTrue(self.take(self.sealed))
        self.assertFalse(self.take(None))

    def test_changed_at_each_byte(self) -> None:
        for place in range(len(self.sealed)):
            changed = bytearray(self.sealed)
            changed[place] ^= 1 << place % 8
            self.assertFalse(self.take(bytes(changed)), place)

    def test_cut_at_each_byte(self) -> None:
        for length in range(len(self.sealed)):
            self.assertFalse(self.take(self.sealed[:length]), length)
        self.assertFalse(self.take(self.sealed + b"\n"))

    def test_of_another(self) -> None:
        self.assertFalse(self.take(self.sealed, secret=b"of another"))
        token, _ = self.storage.look(A)
        entry = _stored.opened(self.sealed, b"of the fleet", b"shared", A.encode(), token, self.name.encode())
        assert entry is not None
        rightly = (b"shared", A.encode(), token, self.name.encode())
        self.assertTrue(self.take(entry.seal(b"of the fleet", *rightly)))
        wrong = (b"private", B.encode(), bytes(16), b"0" * 32)
        for place in range(4):
            about = [*rightly]
            about[place] = wrong[place]
            self.assertFalse(self.take(entry.seal(b"of the fleet", *about)), place)
        # The parts of what it is about aren't taken for one another.
        self.assertFalse(self.take(entry.seal(b"of the fleet", b"shared", A.encode() + token, self.name.encode())))

    def test_of_an_old_token(self) -> None:
        Process("wsgi", self.origin, self.storage).ask("PUT")
        faulty, (token, _) = Faulty(self.storage), self.storage.look(A)
        faulty.look = lambda target: (token, [self.name])
        faulty.load = lambda target, name: self.sealed
        self.assertEqual(Process("wsgi", self.origin, faulty).ask()[2], b"version-1")

    def test_forged_without_a_secret(self) -> None:
        """It is taken over or left out, and nothing breaks."""
        whole: Dict[str, Any] = {"request": [], "status": 200, "times": [1000, 1000], "length": 9}
        whole["response"] = [["cache-control", "max-age=60"]]
        told: List[Any] = [None, [], "x", 1.5, {}, *({**whole, name: None} for name in whole)]
        for name, values in {
            "request": [[[]], [["a"]], [[1, 2]], [["a", "b", "c"]], [["\u1234", "b"]], [["a\n", "b"]], "ab", {"ab": 1}],
            "status": [-1, 70000, 0, 99, 204, 206, 304, 503, "200", 200.0],
            "response": [[], [["x", "\0"]], [["", ""]], [["vary", "*"]], [["age", "x"]], [["cache-control", "a=\u00e9"]]],
            "times": [[], [1], [1, 2, 3], [-1, 5], [2**64, 0], [2**63, 5], ["1", "2"], [1000, 10]],
            "length": [8, -1, "9", 2**70],
        }.items():
            told += [{**whole, name: value} for value in values]
        token, _ = self.storage.look(A)
        about = (b"shared", A.encode(), token, self.name.encode())
        lines = [json.dumps(it).encode() for it in told] + [b"", b"\xff", b"[" * 100_000, b'{"a":' * 100_000]
        self.assertTrue(self.take(self.forged(about, json.dumps(whole).encode()), secret=b""))
        for line in lines:
            faulty, forged = Faulty(self.storage), self.forged(about, line)
            faulty.load = lambda target, name: forged
            faulty.add = lambda *_: True
            found = Process("wsgi", self.origin, faulty, secret=b"").ask()
            self.assertEqual(found[2] or b"version-0", b"version-0", line)

    def forged(self, about: Sequence[bytes], line: bytes) -> bytes:
        body = line + b"\nversion-0"
        return _stored._VERSION + _stored._digest(b"", about, body) + body

    def test_many_names(self) -> None:
        faulty, (token, _), loaded = Faulty(self.storage), self.storage.look(A), []

        def load(target: str, name: str) -> Optional[bytes]:
            loaded.append(name)
            return None

        faulty.look = lambda target: (token, [f"{it}" for it in range(1000)])
        faulty.load = load
        Process("wsgi", self.origin, faulty).ask()
        self.assertEqual(len(loaded), 16)


class Failures(Storages):
    """They cost hits, and no answer is wrong."""

    def each(self) -> Iterator[Tuple[Type[Exception], Origin, Faulty, Process, Process]]:
        for kind in ("wsgi", "asgi"):
            for error in (StorageError, MemoryError):
                storage, origin = self.another(), pages()
                faulty = Faulty(storage)
                with self.subTest(kind=kind, error=error):
                    yield error, origin, faulty, Process(kind, origin, faulty), Process(kind, origin, storage)

    def test_a_look_that_fails(self) -> None:
        for error, origin, faulty, one, two in self.each():
            two.ask()
            self.assertEqual(one.ask()[2], b"version-0")
            faulty.look = fail(error)
            two.ask("PUT")
            # (it may not answer by what it has, as that may be removed)
            self.assertEqual(one.ask()[2], b"version-1")
            two.ask("PUT")
            self.assertEqual(one.ask()[2], b"version-2")
            faulty.look = faulty.storage.look
            asked = len(origin.asked)
            self.assertEqual([it.ask()[2] for it in (one, two, one)], [b"version-2"] * 3)
            self.assertEqual(len(origin.asked), asked + 1)

    def test_what_was_stored_without_a_look_is_removed_too(self) -> None:
        for error, origin, faulty, one, two in self.each():
            one.ask()
            faulty.look = fail(error)
            one.ask()
            two.ask("PUT")
            faulty.look = faulty.storage.look
            self.assertEqual(one.ask()[2], b"version-1")

    def test_a_load_that_fails(self) -> None:
        for error, origin, faulty, one, two in self.each():
            two.ask()
            faulty.load = fail(error)
            self.assertEqual((one.ask()[2], len(origin.asked)), (b"version-0", 2))

    def test_an_add_that_fails(self) -> None:
        for error, origin, faulty, one, two in self.each():
            faulty.add = fail(error)
            self.assertEqual([one.ask()[2], one.ask()[1]["age"]], [b"version-0", "0"])
            self.assertEqual((two.ask()[2], len(origin.asked)), (b"version-0", 2))

    def test_a_removal_that_fails(self) -> None:
        for error, origin, faulty, one, two in self.each():
            self.assertEqual([it.ask()[2] for it in (one, two)], [b"version-0"] * 2)
            faulty.remove = fail(error)
            self.assertEqual(one.ask("PUT")[0], 204)
            # This process knows, and asks the origin; the other can't know.
            self.assertEqual([it.ask()[2] for it in (one, one, two)], [b"version-1"] * 2 + [b"version-0"])
            faulty.remove = faulty.storage.remove
            asked = len(origin.asked)
            self.assertEqual([it.ask()[2] for it in (one, two, one)], [b"version-1"] * 3)
            self.assertEqual(len(origin.asked), asked + 1)

    def test_owes_a_bounded_number_of_removals(self) -> None:
        faulty = Faulty(self.sqlite())
        faulty.remove = fail()
        rules = Rules(Cache(shared=True), 1000, lambda: 1000, storage=faulty)
        shelf = rules.shelf
        assert shelf is not None
        with mock.patch("typed_headers._stored._MOST_OWED", 4):
            for number in range(8):
                shelf.remove(f"{number}")
            shelf.remove("0")
        self.assertEqual(list(shelf.owed), ["0", "1", "2", "3"])
        self.assertIsNone(shelf.look(A))
        removed: List[str] = []
        faulty.remove = lambda target: removed.append(target)
        self.assertIsNotNone(shelf.look(A))
        self.assertEqual((removed, shelf.owed), (["0", "1", "2", "3"], {}))

    def test_a_removal_that_fails_while_others_are_tried_again(self) -> None:
        faulty = Faulty(self.sqlite())
        shelf: Any = Rules(Cache(shared=True), 1000, lambda: 1000, storage=faulty).shelf
        looked: List[Any] = []
        faulty.remove = fail()
        shelf.remove(A)

        def remove(target: str) -> None:
            # Another PUT fails to remove the same, and another look doesn't wait.
            faulty.remove = fail()
            shelf.remove(A)
            thread = threading.Thread(target=lambda: looked.append(shelf.look(B)))
            thread.start()
            thread.join()

        faulty.remove = remove
        shelf.look(B)
        self.assertEqual((list(shelf.owed), looked), ([A], [None]))

    def test_without_memory(self) -> None:
        for _, origin, faulty, one, two in self.each():
            two.ask()
            with mock.patch.object(one.cache, "remove", side_effect=MemoryError):
                self.assertEqual(one.ask()[2], b"version-0")
            with mock.patch("typed_headers.caching.Pass.came", side_effect=MemoryError):
                self.assertEqual(one.ask()[2], b"version-0")
            with mock.patch("typed_headers._stored.Record.came", side_effect=None):
                self.assertEqual(one.ask()[2], b"version-0")


    def test_a_pass_that_does_not_begin_again(self) -> None:
        """The client didn't ask for the 304 that the validators of a pass would get."""
        for _, origin, faulty, one, two in self.each():
            one.ask(at=1000)
            token, names = faulty.storage.look(A)
            faulty.look = mock.Mock(return_value=(token, [*names, "another"]))
            begin, count = one.cache.begin, []  # type: Any, List[int]

            def fails(*given: Any, **more: Any) -> Any:
                count.append(1)
                if len(count) == 2:
                    raise MemoryError
                return begin(*given, **more)

            with mock.patch.object(one.cache, "begin", fails):
                self.assertEqual(one.ask(at=1100)[::2], (200, b"version-0"))
            self.assertNotIn("if-none-match", origin.asked[-1][1])


class Asynchronous(Storages):
    def test_a_storage_that_blocks_does_not_hold_the_loop(self) -> None:
        faulty, origin, goes = Faulty(self.sqlite()), pages(), threading.Event()
        held: List[bool] = []

        def waits(call: Callable[..., Any]) -> Callable[..., Any]:
            def called(*given: Any) -> Any:
                # (the loop lets it go, if it isn't held)
                goes.clear()
                held.append(not goes.wait(10))
                return call(*given)

            return called

        faulty.look, faulty.add = waits(faulty.look), waits(faulty.add)
        faulty.remove, faulty.load = waits(faulty.remove), waits(faulty.load)
        process = Process("asgi", origin, faulty)

        async def run() -> None:
            for method in ("GET", "GET", "PUT", "GET"):
                task = asyncio.ensure_future(process.by_asgi(method, {"host": "a.example"}))
                while not task.done():
                    await asyncio.sleep(0.001)
                    goes.set()
                task.result()

        asyncio.run(run())
        self.assertEqual(held, [False] * 6)

    def test_a_request_that_is_cancelled_at_a_look(self) -> None:
        faulty, origin, goes = Faulty(self.sqlite()), pages(), threading.Event()
        process = Process("asgi", origin, faulty, Cache(shared=True, wait=60))

        def waits(target: str) -> Any:
            goes.wait(30)
            return faulty.storage.look(target)

        async def run() -> Answer:
            faulty.look = waits
            task = asyncio.ensure_future(process.by_asgi("GET", {"host": "a.example"}))
            await asyncio.sleep(0.1)
            task.cancel()
            with contextlib.suppress(asyncio.CancelledError):
                await task
            faulty.look = faulty.storage.look
            goes.set()
            return await asyncio.wait_for(process.by_asgi("GET", {"host": "a.example"}), 30)

        self.assertEqual(asyncio.run(run())[2], b"version-0")


# Clients


class Server(BaseHTTPRequestHandler):
    """Answers with how often it was asked."""

    protocol_version = "HTTP/1.1"
    asked: List[str] = []

    def answer(self) -> None:
        self.rfile.read(int(self.headers.get("Content-Length", 0)))
        self.asked.append(self.command)
        content = f"{len(self.asked)}".encode()
        self.send_response_only(200)
        for name, value in (("Cache-Control", "private, max-age=600"), ("Content-Length", str(len(content)))):
            self.send_header(name, value)
        self.end_headers()
        self.wfile.write(content)

    do_GET = do_PUT = answer

    def log_message(self, *words: Any) -> None:
        pass


class Clients(Storages):
    """A private cache: each client is one of a process that was started again."""

    def setUp(self) -> None:
        super().setUp()
        server = ThreadingHTTPServer(("127.0.0.1", 0), Server)
        threading.Thread(target=server.serve_forever, daemon=True).start()
        self.addCleanup(server.server_close)
        self.addCleanup(server.shutdown)
        self.url, Server.asked = f"http://127.0.0.1:{server.server_port}/", []

    def judge(self, ask: Callable[[Storage, str], Tuple[bool, bytes]]) -> None:
        storage = self.sqlite()
        self.assertEqual([ask(storage, "GET") for _ in range(3)], [(False, b"1"), (True, b"1"), (True, b"1")])
        self.assertEqual(ask(self.sqlite(), "GET"), (True, b"1"))
        self.assertEqual(ask(storage, "PUT"), (False, b"2"))
        self.assertEqual([ask(storage, "GET") for _ in range(2)], [(False, b"3"), (True, b"3")])

    def test_requests(self) -> None:
        try:
            import requests
            from typed_headers.requests import CachedAdapter
        except ImportError as error:
            raise unittest.SkipTest(f"requests isn't installed: {error}") from None

        def ask(storage: Storage, method: str) -> Tuple[bool, bytes]:
            with requests.Session() as session:
                session.mount("http://", CachedAdapter(storage=storage, secret=b"mine"))
                found: Any = session.request(method, self.url)
                return found.from_cache, found.content

        self.judge(ask)
        program = (
            "import requests, sys; from typed_headers.requests import CachedAdapter; "
            "from typed_headers.storage import SQLiteStorage; session = requests.Session(); "
            "session.mount('http://', CachedAdapter(storage=SQLiteStorage(sys.argv[1]), secret=b'mine')); "
            "print(session.get(sys.argv[2]).from_cache)"
        )
        words = [sys.executable, "-c", program, str(self.folder / "cache.sqlite"), self.url]
        self.assertEqual(subprocess.run(words, stdout=subprocess.PIPE, check=True).stdout, b"True\n")

    def test_httpx(self) -> None:
        try:
            import httpx
            from typed_headers.httpx import AsyncCachedTransport, CachedTransport
        except ImportError as error:
            raise unittest.SkipTest(f"httpx isn't installed: {error}") from None

        def ask(storage: Storage, method: str) -> Tuple[bool, bytes]:
            with httpx.Client(transport=CachedTransport(storage=storage)) as client:
                found = client.request(method, self.url)
                return found.extensions["from_cache"], found.content

        def ask_later(storage: Storage, method: str) -> Tuple[bool, bytes]:
            async def run() -> Tuple[bool, bytes]:
                async with httpx.AsyncClient(transport=AsyncCachedTransport(storage=storage)) as client:
                    found = await client.request(method, self.url)
                    return found.extensions["from_cache"], found.content

            return asyncio.run(run())

        self.judge(ask)
        (self.folder / "cache.sqlite").unlink()
        Server.asked.clear()
        self.judge(ask_later)


# A fleet, and the page


class Fleet(unittest.TestCase):
    """See fleet.py. `TYPED_HEADERS_FLEET=100000` makes as many requests, and not 400."""

    def run_kind(self, kind: str) -> None:
        result = fleet.run_kind(kind, int(os.environ.get("TYPED_HEADERS_FLEET", "400")))
        self.assertEqual((result.wrong, result.failed), (0, 0), result.found)
        self.assertGreater(result.shared, 0)

    def test_sqlite(self) -> None:
        self.run_kind("sqlite")

    @unittest.skipIf(NO_REDIS, f"{NO_REDIS}")
    def test_redis(self) -> None:
        self.run_kind("redis")


class Documented(Storages):
    """The examples of MIDDLEWARE.md."""

    def test_the_page(self) -> None:
        page = HERE.parent / "MIDDLEWARE.md"
        if not page.exists():
            raise unittest.SkipTest("the page isn't here")
        mark = "<!-- test: bindings/python/tests/test_storage.py -->"
        blocks = re.findall(mark + r"\n```python\n(.*?)```", page.read_text("utf-8"), re.S)
        self.assertEqual(len(blocks), 2)
        before = os.getcwd()
        os.chdir(self.folder)
        self.addCleanup(os.chdir, before)
        for block in blocks:
            with self.subTest(block):
                try:
                    self.run_block(block)
                except ImportError as error:
                    raise unittest.SkipTest(f"{error}") from None

    def run_block(self, block: str) -> None:
        origin, kinds = pages(), {"RedisStorage": RedisStorage, "SQLiteStorage": SQLiteStorage}
        known: Dict[str, Any] = {"Cache": Cache, "secret": b"of the fleet", **kinds}
        if "redis" not in block:
            import requests
            from typed_headers.requests import CachedAdapter

            exec(block, {"requests": requests, "CachedAdapter": CachedAdapter, **known})
            self.assertTrue((self.folder / "cache.sqlite").exists())
            return
        if NO_REDIS:
            raise unittest.SkipTest(NO_REDIS)
        import redis

        server, process = fleet.Redis(), Process("asgi", origin, None)
        self.addCleanup(server.close)

        class App:
            @staticmethod
            def add_middleware(kind: Any, **given: Any) -> None:
                process.application = kind(origin.asgi, **given)

        real = redis.Redis
        with mock.patch("redis.Redis", lambda **given: real(port=server.port, **given)):
            for _ in range(2):
                exec(block, {"redis": redis, "Cached": asgi.Cached, "app": App, **known})
                self.assertEqual(process.ask()[2], b"version-0")
        self.assertEqual(len(origin.asked), 1)


if __name__ == "__main__":
    unittest.main()
