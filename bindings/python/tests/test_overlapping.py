"""Requests that overlap at one cache: each client gets what is its own.

`TYPED_HEADERS_REQUESTS=1000000` makes as many in the test of many, and not 20,000.
"""

import asyncio
import os
import random
import sys
import threading
import time
import tracemalloc
import unittest
from concurrent.futures import ThreadPoolExecutor
from typing import Any, Dict, Iterable, List, Tuple

from typed_headers import Cache, Pass, asgi, wsgi

USERS = ("alice", "bobby", "carol", "david", "ellen", "frank")
REQUESTS = int(os.environ.get("TYPED_HEADERS_REQUESTS", "20000"))


def page_of(user: str, version: int) -> bytes:
    """A page that says whose it is in each part; its length depends on the version."""
    return f"{user} {version} ".encode() * (5 + version % 40)


def ignore(content: bytes) -> None:
    """Takes what nobody reads."""


class Head:
    """Notes what a WSGI application begins its response with."""

    def __init__(self) -> None:
        self.status = ""
        self.fields: Dict[str, str] = {}

    def __call__(self, status: str, fields: Any, problem: Any = None) -> Any:
        self.status, self.fields = status, {name.lower(): value for name, value in fields}
        return ignore


class Pages:
    """An application that gives each user their own page, in versions that follow one another."""

    def __init__(self) -> None:
        self.version, self.lock = 0, threading.Lock()

    def answer(self, fields: Dict[str, str]) -> Tuple[int, Dict[str, str], bytes]:
        with self.lock:
            self.version += 1
            version = self.version
        chance = random.Random(version)
        user = fields["cookie"]
        held = fields.get("if-none-match")
        if held is not None and held.startswith(f'"{user}-') and chance.random() < 0.7:
            return 304, {"etag": held, "vary": "cookie", "cache-control": f"max-age={chance.choice([0, 100])}"}, b""
        if chance.random() < 0.05:
            return 503, {"x-user": user, "x-version": str(version)}, page_of(user, version)
        told = {
            "vary": "cookie",
            "etag": f'"{user}-{version}"',
            "x-user": user,
            "x-version": str(version),
            "content-type": "text/plain",
            "cache-control": f"max-age={chance.choice([0, 100])}, stale-if-error=600",
        }
        if chance.random() < 0.3:
            told["cache-control"] += ", stale-while-revalidate=600"
        if chance.random() < 0.1:
            told["cache-control"] = "no-store"
        content = page_of(user, version)
        if chance.random() < 0.5:
            told["content-length"] = str(len(content))
        return 200, told, content

    def wsgi(self, environ: Any, start_response: Any) -> Iterable[bytes]:
        given = {key[5:].lower().replace("_", "-"): value for key, value in environ.items() if key.startswith("HTTP_")}
        status, fields, content = self.answer(given)
        start_response(f"{status} X", list(fields.items()))
        return iter([content[:7], content[7:]])

    async def asgi(self, scope: Any, receive: Any, send: Any) -> None:
        given = {bytes(name).decode(): bytes(value).decode() for name, value in scope["headers"]}
        status, fields, content = self.answer(given)
        await asyncio.sleep(0)
        named = [(name.encode(), value.encode()) for name, value in fields.items()]
        await send({"type": "http.response.start", "status": status, "headers": named})
        await asyncio.sleep(0)
        await send({"type": "http.response.body", "body": content[:7], "more_body": True})
        await asyncio.sleep(0)
        await send({"type": "http.response.body", "body": content[7:]})


class Count:
    """What clients got: pages of others, pages that are torn, and how many came from the store."""

    def __init__(self) -> None:
        self.requests = self.stored = 0
        self.mixed: List[str] = []
        self.torn: List[str] = []

    def add(self, user: str, fields: Dict[str, str], content: bytes) -> None:
        self.requests += 1
        self.stored += "age" in fields
        if fields.get("x-user") != user or not content.startswith(user.encode() + b" "):
            self.mixed.append(f"{user} got fields of {fields.get('x-user')}, content {content[:20]!r}")
        elif content != page_of(user, int(fields["x-version"])):
            self.torn.append(f"fields of {user} {fields['x-version']}, content {content[:20]!r}")
        elif int(fields.get("content-length", len(content))) != len(content):
            self.torn.append(f"Content-Length {fields['content-length']} of {len(content)} bytes")


def asked(chance: random.Random) -> Tuple[str, str, Dict[str, str]]:
    """A user, a path, and the fields of a request."""
    user, reload = chance.choice(USERS), {"cache-control": "no-cache"} if chance.random() < 0.3 else {}
    return user, chance.choice(["/a", "/b"]), {"cookie": user, **reload}


class Many(unittest.TestCase):
    """Users over `Vary: cookie`, at one cache that eight threads share: four of a WSGI server, and four with the tasks
    of an ASGI server."""

    def test_each_user_gets_a_page_of_their_own(self) -> None:
        pages, cache, share = Pages(), Cache(shared=True, variants=4), -(-REQUESTS // 8)
        by_wsgi, by_asgi = wsgi.Cached(pages.wsgi, cache), asgi.Cached(pages.asgi, cache)

        def thread(number: int) -> Count:
            chance, count = random.Random(number), Count()
            for _ in range(share):
                user, path, fields = asked(chance)
                environ = {"REQUEST_METHOD": "GET", "HTTP_HOST": "a.example", "PATH_INFO": path, "wsgi.url_scheme": "http"}
                environ.update({f"HTTP_{name.upper().replace('-', '_')}": value for name, value in fields.items()})
                head = Head()
                content = by_wsgi(environ, head)
                count.add(user, head.fields, b"".join(content))
                close = getattr(content, "close", None)
                if close is not None:
                    close()
            return count

        def loop(number: int) -> Count:
            chance, count = random.Random(number), Count()

            async def client(requests: int) -> None:
                for _ in range(requests):
                    user, path, fields = asked(chance)
                    _, told, content = await get(by_asgi, path, fields)
                    count.add(user, told, content)

            async def clients() -> None:
                await asyncio.gather(*[client(len(range(task, share, 8))) for task in range(8)])

            asyncio.run(clients())
            return count

        was = sys.getswitchinterval()
        sys.setswitchinterval(0.0002)
        try:
            with ThreadPoolExecutor(8) as pool:
                counts = [*pool.map(lambda number: (thread, loop)[number % 2](number), range(8))]
        finally:
            sys.setswitchinterval(was)
            cache.close()
        for what in ("mixed", "torn"):
            wrong = [it for count in counts for it in getattr(count, what)]
            self.assertEqual(wrong[:5], [], f"{len(wrong)} {what}")
        self.assertGreaterEqual(sum(it.requests for it in counts), REQUESTS)
        self.assertGreater(sum(it.stored for it in counts), REQUESTS // 10)


async def get(application: Any, path: str, fields: Dict[str, str], **more: Any) -> Tuple[int, Dict[str, str], bytes]:
    sent: List[Any] = []

    async def receive() -> Any:
        await asyncio.sleep(0)
        return {"type": "http.request", "body": b"", "more_body": False}

    async def send(message: Any) -> None:
        sent.append(message)

    named = [(b"host", b"a.example"), *((name.encode(), value.encode()) for name, value in fields.items())]
    scope = {"type": "http", "method": "GET", "path": path, "query_string": b"", "headers": named, "scheme": "http"}
    await application({**scope, **more}, receive, send)
    told = {bytes(name).decode().lower(): bytes(value).decode() for name, value in sent[0]["headers"]}
    return sent[0]["status"], told, b"".join(it.get("body", b"") for it in sent[1:])


class Waiting(unittest.TestCase):
    """While a client waits for the application, what is stored changes."""

    async def late(self, second: int) -> Tuple[int, bytes]:
        """What Alice gets after a 503, if her second request is answered with this status in the meantime."""
        now, waits, goes = [1000], asyncio.Event(), asyncio.Event()
        stated = [(b"cache-control", b"max-age=10, stale-if-error=600"), (b"vary", b"cookie")]

        async def application(scope: Any, receive: Any, send: Any) -> None:
            fields = {bytes(name).decode(): bytes(value) for name, value in scope["headers"]}
            user = fields["cookie"]
            status = second if fields.get("if-none-match") == b'"' + user + b'"' else 200
            if "x-slow" in fields:
                waits.set()
                await goes.wait()
                status = 503
            head = [] if status == 503 else [*stated, (b"etag", b'"' + user + b'"')]
            await send({"type": "http.response.start", "status": status, "headers": head})
            await send({"type": "http.response.body", "body": b"page of " + user if status == 200 else b""})

        async def run() -> Tuple[int, bytes]:
            cached = asgi.Cached(application, Cache(shared=True), clock=lambda: now[0])
            for user in ("alice", "bob"):
                await get(cached, "/", {"cookie": user})
            now[0] = 1100
            first = asyncio.create_task(get(cached, "/", {"cookie": "alice", "x-slow": "1"}))
            await waits.wait()
            await get(cached, "/", {"cookie": "alice"})
            goes.set()
            status, _, content = await first
            return status, content

        return await run()

    def test_a_304_came_in_the_meantime(self) -> None:
        self.assertEqual(asyncio.run(self.late(304)), (200, b"page of alice"))

    def test_a_200_came_in_the_meantime(self) -> None:
        self.assertEqual(asyncio.run(self.late(200)), (200, b"page of alice"))

    def test_an_error_that_comes_too_late_is_passed_on(self) -> None:
        now, fails = [1000], [0]

        def application(environ: Any, start_response: Any) -> Iterable[bytes]:
            if fails[0]:
                now[0] += fails[0]
                start_response("503 X", [("Content-Length", "0")])
                return [b""]
            fields = [("Cache-Control", "max-age=10, stale-if-error=20"), ("ETag", '"1"')]
            start_response("200 X", fields)
            return [b"hello"]

        cached = wsgi.Cached(application, Cache(shared=True), clock=lambda: now[0])

        def ask() -> str:
            head = Head()
            b"".join(cached({"REQUEST_METHOD": "GET", "HTTP_HOST": "a.example", "PATH_INFO": "/"}, head))
            return head.status[:3]

        self.assertEqual(ask(), "200")
        now[0], fails[0] = 1025, 1
        self.assertEqual(ask(), "200")
        fails[0] = 75
        self.assertEqual(ask(), "503")


class Slow:
    """A WSGI application that gives its first response once it is told to, and all others at once."""

    def __init__(self, *fields: Tuple[str, str], fails: bool = False) -> None:
        self.fields, self.fails = list(fields), fails
        self.count, self.lock = 0, threading.Lock()
        self.asked, self.goes = threading.Event(), threading.Event()

    def __call__(self, environ: Any, start_response: Any) -> Iterable[bytes]:
        with self.lock:
            self.count += 1
            is_first = self.count == 1
        self.asked.set()
        assert self.goes.wait(30)
        if is_first and self.fails:
            start_response("502 X", [])
        else:
            start_response("200 X", self.fields)
        return iter([b"he", b"llo"])


class Collapsing(unittest.TestCase):
    """Clients that ask for the same while the application answers the first of them."""

    CLIENTS = 20
    ENVIRON = {"REQUEST_METHOD": "GET", "HTTP_HOST": "a.example", "PATH_INFO": "/"}

    def ask(self, slow: Slow, wait: int = 60, close_first: bool = False) -> List[Tuple[str, bytes]]:
        """What each client gets; the first may go away before the content."""
        cached, got = wsgi.Cached(slow, Cache(shared=True, wait=wait)), []

        def work(is_first: bool) -> None:
            head = Head()
            content = cached(dict(self.ENVIRON), head)
            pieces = iter(content)
            body = next(pieces) if is_first and close_first else b"".join(pieces)
            if hasattr(content, "close"):
                content.close()
            got.append((head.status[:3], body))

        threads = [threading.Thread(target=work, args=(number == 0,)) for number in range(self.CLIENTS)]
        threads[0].start()
        self.assertTrue(slow.asked.wait(30))
        for thread in threads[1:]:
            thread.start()
        # (those that don't wait ask the application meanwhile)
        for _ in range(4 if wait else 600):
            if slow.count < self.CLIENTS:
                time.sleep(0.05)
        self.assertEqual(slow.count, 1 if wait else self.CLIENTS)
        slow.goes.set()
        for thread in threads:
            thread.join(30)
        self.assertEqual(len(got), self.CLIENTS)
        return got

    def test_one_asks_for_all(self) -> None:
        slow = Slow(("Cache-Control", "max-age=60"))
        self.assertEqual(self.ask(slow), [("200", b"hello")] * self.CLIENTS)
        self.assertEqual(slow.count, 1)

    def test_nobody_waits_if_that_is_not_told(self) -> None:
        slow = Slow(("Cache-Control", "max-age=60"))
        self.assertEqual(self.ask(slow, wait=0), [("200", b"hello")] * self.CLIENTS)

    def test_each_asks_for_what_is_not_stored(self) -> None:
        slow = Slow(("Cache-Control", "no-store"))
        self.assertEqual(self.ask(slow), [("200", b"hello")] * self.CLIENTS)
        self.assertEqual(slow.count, self.CLIENTS)

    def test_others_go_on_after_a_failure(self) -> None:
        slow = Slow(("Cache-Control", "max-age=60"), fails=True)
        got = self.ask(slow)
        self.assertEqual(sorted(got), [("200", b"hello")] * (self.CLIENTS - 1) + [("502", b"hello")])

    def test_others_go_on_if_the_first_client_goes_away(self) -> None:
        slow = Slow(("Cache-Control", "max-age=60"))
        got = self.ask(slow, close_first=True)
        self.assertEqual(sorted(got), [("200", b"he")] + [("200", b"hello")] * (self.CLIENTS - 1))

    def test_nobody_waits_for_longer_than_is_told(self) -> None:
        now = [1000]
        slow = Slow(("Cache-Control", "max-age=60"))
        cached, got = wsgi.Cached(slow, Cache(shared=True, wait=5), clock=lambda: now[0]), []
        threads = [
            threading.Thread(target=lambda: got.append(b"".join(cached(dict(self.ENVIRON), Head())))) for _ in range(2)
        ]
        threads[0].start()
        self.assertTrue(slow.asked.wait(30))
        threads[1].start()
        time.sleep(0.2)
        self.assertEqual(slow.count, 1)
        now[0] = 1005
        while slow.count == 1 and threads[1].is_alive():
            time.sleep(0.05)
        self.assertEqual(slow.count, 2)
        slow.goes.set()
        for thread in threads:
            thread.join(30)
        self.assertEqual(got, [b"hello"] * 2)

    async def tasks(
        self, *fields: Tuple[bytes, bytes], status: int = 200, is_cancelled: bool = False
    ) -> Tuple[int, List[Any]]:
        """How often the application is asked, and what each client gets; the first may be cancelled."""
        asked, goes, count = asyncio.Event(), asyncio.Event(), [0]

        async def application(scope: Any, receive: Any, send: Any) -> None:
            count[0] += 1
            is_first = count[0] == 1
            asked.set()
            await goes.wait()
            head = (status, []) if is_first and status != 200 else (200, list(fields))
            await send({"type": "http.response.start", "status": head[0], "headers": head[1]})
            await send({"type": "http.response.body", "body": b"he", "more_body": True})
            await send({"type": "http.response.body", "body": b"llo"})

        async def run() -> List[Any]:
            cached = asgi.Cached(application, Cache(shared=True, wait=60))
            tasks = [asyncio.create_task(get(cached, "/", {}))]
            await asked.wait()
            tasks += [asyncio.create_task(get(cached, "/", {})) for _ in range(1, self.CLIENTS)]
            await asyncio.sleep(0.1)
            self.assertEqual(count[0], 1)
            if is_cancelled:
                tasks[0].cancel()
            goes.set()
            return await asyncio.gather(*tasks, return_exceptions=True)

        got = await run()
        return count[0], [it[::2] if isinstance(it, tuple) else type(it) for it in got]

    def test_one_task_asks_for_all(self) -> None:
        found = asyncio.run(self.tasks((b"cache-control", b"max-age=60")))
        self.assertEqual(found, (1, [(200, b"hello")] * self.CLIENTS))

    def test_each_task_asks_for_what_is_not_stored(self) -> None:
        found = asyncio.run(self.tasks((b"cache-control", b"no-store")))
        self.assertEqual(found, (self.CLIENTS, [(200, b"hello")] * self.CLIENTS))

    def test_other_tasks_go_on(self) -> None:
        count, got = asyncio.run(self.tasks((b"cache-control", b"max-age=60"), status=502))
        self.assertEqual(got, [(502, b"hello")] + [(200, b"hello")] * (self.CLIENTS - 1))
        count, got = asyncio.run(self.tasks((b"cache-control", b"max-age=60"), is_cancelled=True))
        self.assertEqual(got, [asyncio.CancelledError] + [(200, b"hello")] * (self.CLIENTS - 1))


class Changing(unittest.TestCase):
    def test_what_a_put_outdates_is_not_stored(self) -> None:
        """A PUT begins between the end of a response and the call that stores it."""
        state, threads = ["old"], []

        def application(environ: Any, start_response: Any) -> Iterable[bytes]:
            if environ["REQUEST_METHOD"] == "PUT":
                state[0] = "new"
                start_response("204 X", [])
                return []
            start_response("200 X", [("Cache-Control", "max-age=600")])
            return [state[0].encode()]

        cached = wsgi.Cached(application, Cache(shared=True))

        def ask(method: str) -> bytes:
            environ = {"REQUEST_METHOD": method, "HTTP_HOST": "a.example", "PATH_INFO": "/"}
            content = cached(environ, Head())
            whole = b"".join(content)
            close = getattr(content, "close", None)
            if close is not None:
                close()
            return whole

        real = Pass.ended

        def ended(this: Pass, *given: Any, **more: Any) -> bool:
            setattr(Pass, "ended", real)
            thread = threading.Thread(target=ask, args=("PUT",))
            threads.append(thread)
            thread.start()
            thread.join()
            return real(this, *given, **more)

        setattr(Pass, "ended", ended)
        self.assertEqual(ask("GET"), b"old")
        self.assertEqual(ask("GET"), b"new")

    def test_a_fragment_names_no_other_target(self) -> None:
        count = [0]

        def application(environ: Any, start_response: Any) -> Iterable[bytes]:
            if environ["REQUEST_METHOD"] == "POST":
                start_response("201 X", [("Location", "/made#part")])
                return []
            count[0] += 1
            start_response("200 X", [("Cache-Control", "max-age=600")])
            return [b"content"]

        cached = wsgi.Cached(application, Cache(shared=True))
        for method, path in (("GET", "/made"), ("POST", "/"), ("GET", "/made")):
            b"".join(cached({"REQUEST_METHOD": method, "HTTP_HOST": "a.example", "PATH_INFO": path}, Head()))
        self.assertEqual(count[0], 2)


class Content(unittest.TestCase):
    def upload(self, method: str, pieces: int) -> Tuple[int, int]:
        """The status, and the most bytes that were held while the content was passed on."""
        left, piece = [pieces], bytes(64 * 1024)

        async def receive() -> Any:
            left[0] -= 1
            return {"type": "http.request", "body": bytes(piece), "more_body": left[0] > 0}

        sent: List[Any] = []

        async def send(message: Any) -> None:
            sent.append(message)

        async def application(scope: Any, receive: Any, send: Any) -> None:
            while (await receive())["more_body"]:
                pass
            await send({"type": "http.response.start", "status": 204, "headers": []})
            await send({"type": "http.response.body", "body": b""})

        scope = {"type": "http", "method": method, "path": "/", "query_string": b"", "scheme": "http"}
        cached = asgi.Cached(application, Cache(shared=True))
        tracemalloc.start()
        asyncio.run(cached({**scope, "headers": [(b"host", b"a.example")]}, receive, send))
        most = tracemalloc.get_traced_memory()[1]
        tracemalloc.stop()
        return sent[0]["status"], most

    def test_content_of_a_request_is_not_kept(self) -> None:
        for method in ("POST", "GET"):
            with self.subTest(method):
                status, most = self.upload(method, 256)
                self.assertEqual(status, 204)
                self.assertLess(most, 2 * 1024 * 1024)


if __name__ == "__main__":
    began = time.time()
    unittest.main(exit=False)
    print(f"{REQUESTS} requests, {time.time() - began:.0f} s")
