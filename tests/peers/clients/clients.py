"""Runs the cases through clients that have a cache for one user. Each case has a client of its own."""
import asyncio
import concurrent.futures
import functools
import importlib
import importlib.metadata
import json
import tempfile
import time
from collections.abc import AsyncIterator, Callable, Iterator
from contextlib import suppress
from dataclasses import dataclass, field
from typing import Any, Protocol

from caching import origin
from caching.caches import Cache, Judged, new_keys
from caching.cases import Case, Step
from caching.outcomes import Answer, results_of
from clients.cases import PRIVATE
from common import processes
from common.client import Response
from common.fields import Fields
from common.processes import Missing

TIMEOUT, AT_ONCE = 20, 32


class Client(Protocol):
    """Makes requests, and raises any exception if there is no response."""

    def ask(self, method: str, url: str, fields: Fields, body: bytes | None) -> Response: ...

    def close(self) -> None: ...


class AsyncClient(Protocol):
    async def ask(self, method: str, url: str, fields: Fields, body: bytes | None) -> Response: ...

    async def close(self) -> None: ...


def named(package: str) -> Any:
    """A package, or `Missing`."""
    try:
        return importlib.import_module(package)
    except ImportError as error:
        raise Missing(str(error)) from None


class BySession:
    """A session of `requests`. It has no two lines of one field."""

    def __init__(self, session: Any) -> None:
        self.session = session
        session.trust_env = False

    def ask(self, method: str, url: str, fields: Fields, body: bytes | None) -> Response:
        with self.session.request(
            method, url, headers=dict(fields), data=body, allow_redirects=False, timeout=TIMEOUT
        ) as found:
            lines = [(name.lower(), value) for name, value in found.headers.items()]
            return Response(found.status_code, lines, found.content)

    def close(self) -> None:
        self.session.close()


def by_adapter() -> Client:
    """Ours for `requests`."""
    session = named("requests").Session()
    session.mount("http://", named("typed_headers.requests").CachedAdapter())
    return BySession(session)


def by_cachecontrol() -> Client:
    return BySession(named("cachecontrol").CacheControl(named("requests").Session()))


def by_requests_cache() -> Client:
    # (it follows no field of a response otherwise)
    return BySession(named("requests_cache").CachedSession(backend="memory", cache_control=True))


def encoded(fields: Fields) -> list[tuple[bytes, bytes]]:
    return [(name.encode("latin-1"), value.encode("latin-1")) for name, value in fields]


def decoded(fields: list[tuple[bytes, bytes]]) -> Fields:
    return [(name.decode("latin-1").lower(), value.decode("latin-1")) for name, value in fields]


class ByTransport:
    """A client of `httpx` with our transport. Content that is cut off is what came of it."""

    def __init__(self) -> None:
        httpx, ours = named("httpx"), named("typed_headers.httpx")
        self.error = httpx.HTTPError
        self.client = httpx.Client(transport=ours.CachedTransport(), trust_env=False, timeout=TIMEOUT)

    def ask(self, method: str, url: str, fields: Fields, body: bytes | None) -> Response:
        with self.client.stream(method, url, headers=encoded(fields), content=body) as found:
            return Response(found.status_code, decoded(found.headers.raw), b"".join(self.pieces(found.iter_raw())))

    def pieces(self, content: Iterator[bytes]) -> Iterator[bytes]:
        with suppress(self.error):
            yield from content

    def close(self) -> None:
        self.client.close()


class ByAsyncTransport:
    def __init__(self) -> None:
        httpx, ours = named("httpx"), named("typed_headers.httpx")
        self.error = httpx.HTTPError
        self.client = httpx.AsyncClient(transport=ours.AsyncCachedTransport(), trust_env=False, timeout=TIMEOUT)

    async def ask(self, method: str, url: str, fields: Fields, body: bytes | None) -> Response:
        async with self.client.stream(method, url, headers=encoded(fields), content=body) as found:
            pieces = [it async for it in self.pieces(found.aiter_raw())]
            return Response(found.status_code, decoded(found.headers.raw), b"".join(pieces))

    async def pieces(self, content: AsyncIterator[bytes]) -> AsyncIterator[bytes]:
        with suppress(self.error):
            async for piece in content:
                yield piece

    async def close(self) -> None:
        await self.client.aclose()


class Memory(dict[str, bytes]):
    """A cache as httplib2 wants it: one that is false isn't asked."""

    def __bool__(self) -> bool:
        return True

    def set(self, key: str, value: bytes) -> None:
        self[key] = value

    def delete(self, key: str) -> None:
        self.pop(key, None)


class ByHttplib2:
    def __init__(self) -> None:
        self.http = named("httplib2").Http(cache=Memory(), timeout=TIMEOUT, proxy_info=None)
        self.http.follow_redirects = False

    def ask(self, method: str, url: str, fields: Fields, body: bytes | None) -> Response:
        found, content = self.http.request(url, method, body, dict(fields))
        return Response(found.status, [it for it in found.items() if it[0] != "status"], content)

    def close(self) -> None:
        self.http.close()


@dataclass
class Plan:
    """A case, the key by which the origin knows it, and the origin's port."""

    port: int
    key: str
    case: Case


def request_of(plan: Plan, number: int, step: Step) -> tuple[str, str, Fields, bytes | None]:
    target = f"/t/{plan.key}{step.query}"
    body = b"x=y" if step.method in ("POST", "PUT", "M-SEARCH") else None
    fields = [(name, origin.filled(value, target)) for name, value in step.send]
    return step.method, f"http://127.0.0.1:{plan.port}{target}", [*fields, ("Req-Num", str(number))], body


@dataclass
class Steps:
    """What came of the steps of a case, and whether the client raised an exception though the origin's response came
    whole."""

    plan: Plan
    answers: list[Answer] = field(default_factory=list)
    raises: bool = False

    def add(self, step: Step, came: Response | Exception, began: float) -> None:
        if isinstance(came, Exception):
            self.raises = self.raises or not (step.close or step.truncate)
            came = Response(0, [], repr(came).encode())
        self.answers.append(Answer(came, time.time() - began))

    @property
    def rest(self) -> float:
        """How long the case goes on after its last step: what is served stale is revalidated after it."""
        delay = max(it.delay for it in self.plan.case.steps)
        return delay + 0.5 if delay else 0


def run_case(make: Callable[[], Client], plan: Plan) -> Steps:
    steps, client = Steps(plan), make()
    try:
        for number, step in enumerate(plan.case.steps, 1):
            asked, began = request_of(plan, number, step), time.time()
            try:
                steps.add(step, client.ask(*asked), began)
            except Exception as error:
                steps.add(step, error, began)
            time.sleep(step.pause)
        time.sleep(steps.rest)
        return steps
    finally:
        client.close()


async def run_case_async(make: Callable[[], AsyncClient], plan: Plan) -> Steps:
    steps, client = Steps(plan), make()
    try:
        for number, step in enumerate(plan.case.steps, 1):
            asked, began = request_of(plan, number, step), time.time()
            try:
                steps.add(step, await client.ask(*asked), began)
            except Exception as error:
                steps.add(step, error, began)
            await asyncio.sleep(step.pause)
        await asyncio.sleep(steps.rest)
        return steps
    finally:
        await client.close()


def by_threads(make: Callable[[], Client], plans: list[Plan]) -> list[Steps]:
    make().close()
    with concurrent.futures.ThreadPoolExecutor(AT_ONCE) as pool:
        return list(pool.map(functools.partial(run_case, make), plans))


def by_tasks(make: Callable[[], AsyncClient], plans: list[Plan]) -> list[Steps]:
    async def run_all() -> list[Steps]:
        free = asyncio.Semaphore(AT_ONCE)

        async def run(plan: Plan) -> Steps:
            async with free:
                return await run_case_async(make, plan)

        return await asyncio.gather(*map(run, plans))

    return asyncio.run(run_all())


def by_scrapy(plans: list[Plan]) -> list[Steps]:
    """By a process of its own, as Scrapy has an event loop that begins but once."""
    cases = [
        [
            [
                [*request_of(plan, number, step)[:3], "x=y" if request_of(plan, number, step)[3] else None, step.pause]
                for number, step in enumerate(plan.case.steps, 1)
            ],
            plan.case.is_alone,
        ]
        for plan in plans
    ]
    with tempfile.TemporaryDirectory() as folder:
        words = [processes.PYTHON, "-B", "-m", "clients.by_scrapy", folder]
        answers = json.loads(processes.output(words, json.dumps(cases).encode()))
    found = [Steps(plan) for plan in plans]
    for steps, given in zip(found, answers):
        for step, (status, fields, content, error, took) in zip(steps.plan.case.steps, given):
            response = Response(status, [(name, value) for name, value in fields], content.encode("latin-1"))
            steps.add(step, RuntimeError(error) if error else response, time.time() - took)
    return found


@dataclass
class Kind:
    """A client: its name, the package whose version it has, and what runs cases by it."""

    name: str
    package: str
    play: Callable[[list[Plan]], list[Steps]]
    is_ours: bool = False
    repeats_fields: bool = False

    @property
    def title(self) -> str:
        try:
            return f"{self.name} {importlib.metadata.version(self.package)}"
        except importlib.metadata.PackageNotFoundError as error:
            raise Missing(f"there is no {error}") from None


KINDS = [
    Kind("ours, `CachedAdapter` in requests", "requests", functools.partial(by_threads, by_adapter), is_ours=True),
    Kind("ours, `CachedTransport` in httpx", "httpx", functools.partial(by_threads, ByTransport), is_ours=True,
         repeats_fields=True),
    Kind("ours, `AsyncCachedTransport` in httpx", "httpx", functools.partial(by_tasks, ByAsyncTransport), is_ours=True,
         repeats_fields=True),
    Kind("CacheControl", "CacheControl", functools.partial(by_threads, by_cachecontrol)),
    Kind("requests-cache", "requests-cache", functools.partial(by_threads, by_requests_cache)),
    Kind("httplib2", "httplib2", functools.partial(by_threads, ByHttplib2)),
    Kind("Scrapy", "Scrapy", by_scrapy, repeats_fields=True),
]


def repeats_a_field(case: Case) -> bool:
    return any(len({name for name, _ in it.send}) < len(it.send) for it in case.steps)


def judge(kind: Kind, port: int) -> tuple[Judged, int]:
    """What a client did, and in how many cases it raised an exception in place of a response."""
    title, keys = kind.title, new_keys(PRIVATE)
    plans = [Plan(port, key, case) for key, case in keys.items() if kind.repeats_fields or not repeats_a_field(case)]
    steps = kind.play(plans)
    results = {
        it.plan.case.id: results_of(it.plan.key, it.plan.case, it.answers, origin.RECORD.asked[it.plan.key])
        for it in steps
        if not it.raises
    }
    return Judged(Cache(kind.name, [], is_shared=False), title, results), sum(it.raises for it in steps)
