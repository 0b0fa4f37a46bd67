"""A fleet: processes with a cache each, over one storage, some of which are killed at any time. And a server of Redis.

Each process has threads, which are clients of their own cache (`wsgi.Cached`) and judge each answer. An answer is wrong
if it is older than a PUT whose answer had come to its client, in any process, before the request was sent; if it is of
another page or another user; if its content isn't the one that its fields name; or if a cache gives what it may not store.
"""

import json
import mmap
import os
import random
import shutil
import signal
import socket
import subprocess
import tempfile
import threading
import time
import warnings
from contextlib import suppress
from pathlib import Path
from typing import Any, Callable, Dict, Iterable, List, NamedTuple, Optional, Tuple

from typed_headers import Cache, wsgi
from typed_headers.storage import RedisStorage, SQLiteStorage, Storage

WORKERS, THREADS = 8, 3
SLOTS = WORKERS * THREADS
USERS = ("alice", "bobby", "carol")


class Page(NamedTuple):
    """What the origin says of a page: its fields, and by which field of the request it differs."""

    control: str
    varies: str = ""
    is_stored: bool = True
    fails: float = 0.0


PAGES: Dict[str, Page] = {
    "/long/1": Page("max-age=600"),
    "/long/2": Page("max-age=600"),
    "/long/3": Page("max-age=600"),
    "/user/1": Page("max-age=600", "x-user"),
    "/user/2": Page("max-age=600", "x-user"),
    "/short": Page("max-age=1"),
    "/short/user": Page("max-age=1", "x-user"),
    "/stale": Page("max-age=1, stale-while-revalidate=600"),
    "/error": Page("max-age=1, stale-if-error=600", fails=0.3),
    "/cookie": Page("max-age=600", "cookie"),
    "/private": Page("private, max-age=600", "x-user", is_stored=False),
    "/none": Page("no-store", "x-user", is_stored=False),
}
PATHS = list(PAGES)


def content_of(path: str, user: str, version: int) -> bytes:
    """A page that says in each part whose it is; its length depends on the version."""
    return f"{path} {user} {version} ".encode() * (3 + version % 30)


# The origin


class Origin:
    """Pages with versions, which a PUT raises, over a socket of a folder: each request and each answer is a line."""

    def __init__(self, folder: Path) -> None:
        self.versions, self.lock = {path: 1 for path in PATHS}, threading.Lock()
        self.socket = socket.socket(socket.AF_UNIX)
        self.socket.bind(str(folder / "origin"))
        self.socket.listen(200)

    def serve(self) -> None:
        while True:
            connection, _ = self.socket.accept()
            threading.Thread(target=self.answer_all, args=(connection,), daemon=True).start()

    def answer_all(self, connection: socket.socket) -> None:
        # (a client that is killed breaks its connection)
        with suppress(OSError), connection, connection.makefile("rwb") as file:
            for line in file:
                asked = json.loads(line)
                answer = self.answer(asked["method"], asked["path"], asked["fields"], random.Random())
                file.write(json.dumps(answer).encode() + b"\n")
                file.flush()

    def answer(
        self, method: str, path: str, fields: Dict[str, str], chance: random.Random
    ) -> Tuple[int, Dict[str, str], str]:
        page = PAGES[path]
        if method == "PUT":
            self.pause(chance)
            with self.lock:
                self.versions[path] += 1
                version = self.versions[path]
            self.pause(chance)
            return 204 if chance.random() < 0.9 else 500, {"x-version": str(version)}, ""
        with self.lock:
            version = self.versions[path]
        self.pause(chance)
        if chance.random() < page.fails:
            return 503, {}, ""
        user = fields.get(page.varies, "") if page.varies else "all"
        tag = f'"{user}-{version}"'
        told = {"cache-control": page.control, "etag": tag, "x-page": path, "x-user": user, "x-version": str(version)}
        told["x-by"] = fields["x-by"]
        if page.varies:
            told["vary"] = page.varies
        if fields.get("if-none-match") == tag:
            return 304, told, ""
        content = content_of(path, user, version).decode()
        if chance.random() < 0.5:
            told["content-length"] = str(len(content))
        return 200, told, content

    def pause(self, chance: random.Random) -> None:
        """Gives others time between what is decided and what is answered."""
        if chance.random() < 0.3:
            time.sleep(chance.choice([0.0005, 0.002, 0.02]))


# A process of the fleet


class Counts:
    """Numbers that all processes see, and that outlive each: a thread writes those of its slot alone."""

    NAMES = ("requests", "hits", "shared", "puts", "unremoved", "wrong")

    def __init__(self) -> None:
        self.width = len(self.NAMES) + len(PATHS)
        self.memory = mmap.mmap(-1, 8 * (SLOTS * self.width + 1))
        self.numbers = memoryview(self.memory).cast("Q")

    def add(self, slot: int, name: str) -> None:
        self.numbers[slot * self.width + self.NAMES.index(name)] += 1

    def total(self, name: str) -> int:
        return sum(self.numbers[slot * self.width + self.NAMES.index(name)] for slot in range(SLOTS))

    def put(self, slot: int, path: str, version: int) -> None:
        """Notes the version of a PUT whose answer came."""
        place = slot * self.width + len(self.NAMES) + PATHS.index(path)
        self.numbers[place] = max(self.numbers[place], version)

    def oldest(self, path: str) -> int:
        """What a request that is sent now may get at the oldest."""
        place = len(self.NAMES) + PATHS.index(path)
        return max(self.numbers[slot * self.width + place] for slot in range(SLOTS))

    @property
    def is_over(self) -> bool:
        return self.numbers[SLOTS * self.width] != 0

    def stop(self) -> None:
        self.numbers[SLOTS * self.width] = 1


class Client:
    """A thread of a process: it asks by the cache of the process, and judges what it gets."""

    def __init__(self, number: int, slot: int, folder: Path, counts: Counts, cached: Any) -> None:
        self.by, self.slot, self.folder, self.counts, self.cached = f"{number}", slot, folder, counts, cached
        self.chance = random.Random(f"{number} {slot}")

    def run(self) -> None:
        while not self.counts.is_over:
            path, user = self.chance.choice(PATHS), self.chance.choice(USERS)
            if self.chance.random() < 0.06:
                self.put(path)
            else:
                self.get(path, user)
            self.counts.add(self.slot, "requests")

    def ask(self, method: str, path: str, fields: Dict[str, str]) -> Tuple[int, Dict[str, str], bytes]:
        environ = {"REQUEST_METHOD": method, "HTTP_HOST": "a.example", "PATH_INFO": path, "wsgi.url_scheme": "http"}
        environ.update({f"HTTP_{name.upper().replace('-', '_')}": value for name, value in fields.items()})
        environ["by"] = self.by
        head: List[Any] = []

        def start(status: str, given: Any, problem: Any = None) -> Any:
            head[:] = [int(status[:3]), {name.lower(): value for name, value in given}]

        content = self.cached(environ, start)
        try:
            body = b"".join(content)
        finally:
            close = getattr(content, "close", None)
            if close is not None:
                close()
        return head[0], head[1], body

    def put(self, path: str) -> None:
        _, fields, _ = self.ask("PUT", path, {})
        if self.cached.rules.shelf.owed:
            self.counts.add(self.slot, "unremoved")
        self.counts.put(self.slot, path, int(fields["x-version"]))
        self.counts.add(self.slot, "puts")

    def get(self, path: str, user: str) -> None:
        page, asked = PAGES[path], {"x-user": user, "cookie": user}
        kind, method = self.chance.random(), "GET"
        if kind < 0.05:
            asked["cache-control"] = "no-cache"
        elif kind < 0.1:
            asked["range"] = "bytes=2-9"
        elif kind < 0.15:
            method = "HEAD"
        oldest = self.counts.oldest(path)
        status, fields, content = self.ask(method, path, asked)
        if status == 503 and page.fails:
            return
        problem = self.problem(page, path, user, method, oldest, status, fields, content)
        if problem is not None:
            self.counts.add(self.slot, "wrong")
            asked_for = f"{method} {path} of {user} by {self.by}, at the oldest {oldest}"
            found = f"{problem}: {asked_for}: {status} {fields} {content!r}\n"
            with open(self.folder / "wrong", "ab", buffering=0) as file:
                file.write(found[:2000].encode())
        if "age" in fields:
            self.counts.add(self.slot, "hits")
            if fields["x-by"] != self.by:
                self.counts.add(self.slot, "shared")

    def problem(
        self, page: Page, path: str, user: str, method: str, oldest: int, status: int, fields: Dict[str, str], body: bytes
    ) -> Optional[str]:
        whose, version = user if page.varies else "all", int(fields.get("x-version", 0))
        whole = content_of(path, whose, version)
        if (fields.get("x-page"), fields.get("x-user"), fields.get("etag")) != (path, whose, f'"{whose}-{version}"'):
            return "another's fields"
        if version < oldest:
            return "older than a PUT"
        if status == 206:
            is_right = fields["content-range"] == f"bytes 2-9/{len(whole)}" and body == whole[2:10]
        else:
            length = int(fields.get("content-length", len(whole)))
            is_right = (status, length) == (200, len(whole)) and body == (b"" if method == "HEAD" else whole)
        if not is_right:
            return "another's content"
        return "stored" if "age" in fields and not page.is_stored else None


def work(number: int, worker: int, folder: Path, counts: Counts, storage: Storage, secret: bytes) -> None:
    """A process of the fleet, which closes nothing."""
    warnings.simplefilter("ignore", ResourceWarning)
    connections = threading.local()

    def application(environ: Any, start_response: Any) -> Iterable[bytes]:
        if not hasattr(connections, "file"):
            connection = socket.socket(socket.AF_UNIX)
            connection.connect(str(folder / "origin"))
            connections.file = connection.makefile("rwb")
        fields = {key[5:].lower().replace("_", "-"): value for key, value in environ.items() if key.startswith("HTTP_")}
        fields["x-by"] = environ["by"]
        asked = {"method": environ["REQUEST_METHOD"], "path": environ["PATH_INFO"], "fields": fields}
        connections.file.write(json.dumps(asked).encode() + b"\n")
        connections.file.flush()
        status, told, text = json.loads(connections.file.readline())
        start_response(f"{status} X", list(told.items()))
        content = b"" if asked["method"] == "HEAD" else text.encode()
        return iter([content[:7], content[7:]])

    cache = Cache(shared=True, wait=worker % 2 * 5)
    cached = wsgi.Cached(application, cache, storage=storage, secret=secret)
    clients = [Client(number, worker * THREADS + it, folder, counts, cached) for it in range(THREADS)]
    threads = [threading.Thread(target=client.run) for client in clients]
    for thread in threads:
        thread.start()
    for thread in threads:
        thread.join()


class Result(NamedTuple):
    """What a run of the fleet came to."""

    requests: int
    hits: int
    #: The hits whose response another process had asked for.
    shared: int
    puts: int
    #: PUTs whose removal failed, and is tried again later.
    unremoved: int
    killed: int
    #: How often the storage was killed, and lost all that it had.
    lost: int
    #: Processes that ended by themselves before the end.
    failed: int
    wrong: int
    found: str


def fork(run: Callable[[], None]) -> int:
    """The id of a process that does this and ends."""
    child = os.fork()
    if child == 0:
        status = 1
        try:
            run()
            status = 0
        finally:
            os._exit(status)
    return child


def run_fleet(storage: Storage, requests: int, *, lose: Optional[Callable[[], None]] = None) -> Result:
    """Runs the fleet for so many requests. `lose` kills the storage, and starts one that is empty."""
    with tempfile.TemporaryDirectory() as room:
        folder, counts, secret, chance = Path(room), Counts(), os.urandom(32), random.Random(requests)
        origin = Origin(folder)
        serving = fork(origin.serve)
        origin.socket.close()
        number = killed = lost = failed = 0
        running: Dict[int, int] = {}

        def start(worker: int) -> None:
            nonlocal number
            number += 1
            mine = number
            running[fork(lambda: work(mine, worker, folder, counts, storage, secret))] = worker

        try:
            for worker in range(WORKERS):
                start(worker)
            while counts.total("requests") < requests and failed < 100:
                time.sleep(chance.random() * 0.4)
                for child, worker in list(running.items()):
                    if os.waitpid(child, os.WNOHANG)[0]:
                        del running[child]
                        failed += 1
                        start(worker)
                victim = chance.choice(list(running))
                os.kill(victim, signal.SIGKILL)
                os.waitpid(victim, 0)
                killed += 1
                start(running.pop(victim))
                if lose is not None and killed % 10 == 5:
                    lose()
                    lost += 1
            counts.stop()
            for child in list(running):
                os.waitpid(child, 0)
                del running[child]
        finally:
            for child in [*running, serving]:
                os.kill(child, signal.SIGKILL)
                os.waitpid(child, 0)
        wrong = folder / "wrong"
        found = wrong.read_text("utf-8", "replace") if wrong.exists() else ""
        totals = {name: counts.total(name) for name in Counts.NAMES}
        return Result(killed=killed, lost=lost, failed=failed, found=found, **totals)


# A server of Redis


class Redis:
    """A server of Redis at a port of this machine, which stores nothing on a disk."""

    def __init__(self) -> None:
        with socket.socket() as free:
            free.bind(("127.0.0.1", 0))
            self.port = free.getsockname()[1]
        self.folder = tempfile.mkdtemp()
        self.start()

    @staticmethod
    def why_not() -> Optional[str]:
        """Why there can be none, if that is so."""
        try:
            import redis as _
        except ImportError as error:
            return str(error)
        return None if shutil.which("redis-server") else "there is no redis-server"

    def start(self) -> None:
        options = {"port": self.port, "bind": "127.0.0.1", "dir": self.folder, "save": "", "appendonly": "no"}
        words = [word for name, value in options.items() for word in (f"--{name}", str(value))]
        self.process = subprocess.Popen(["redis-server", *words], stdout=subprocess.DEVNULL)
        for _ in range(1000):
            try:
                socket.create_connection(("127.0.0.1", self.port), 1).close()
                return
            except OSError:
                time.sleep(0.01)
        raise OSError("Redis doesn't start")

    def client(self) -> Any:
        import redis

        return redis.Redis(port=self.port, socket_timeout=10, socket_connect_timeout=10)

    def kill(self) -> None:
        self.process.kill()
        self.process.wait()

    def lose(self) -> None:
        """Loses all that the server has."""
        self.kill()
        self.start()

    def close(self) -> None:
        self.kill()
        shutil.rmtree(self.folder)


def run_kind(kind: str, requests: int) -> Result:
    """Runs the fleet over a storage of this kind."""
    if kind == "redis":
        server = Redis()
        try:
            return run_fleet(RedisStorage(server.client()), requests, lose=server.lose)
        finally:
            server.close()
    with tempfile.TemporaryDirectory() as folder:
        storage = SQLiteStorage(Path(folder) / "cache.sqlite", most=200_000)
        try:
            return run_fleet(storage, requests)
        finally:
            storage.close()
