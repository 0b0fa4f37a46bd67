"""Runs the cases through real caches before one origin."""
import concurrent.futures
import time
import uuid
from collections.abc import Callable, Iterable
from dataclasses import dataclass, field
from pathlib import Path

from caching import cases, chromium, origin, trafficserver
from caching.cases import Case
from caching.outcomes import Answer, Result, results_of
from common import client, processes, products
from common.browsers import version
from common.client import Response
from common.processes import PYTHON, Missing

ORIGIN, FIRST_PORT = 18200, 18201
PEERS = Path(__file__).with_name("peers")


@dataclass
class Cache:
    """A cache: the command that starts it at @PORT@ before @ORIGIN@, the one that tells its version, and what is
    prepared in the folder before."""

    name: str
    words: list[str]
    version: list[str] = field(default_factory=list)
    config: str = ""
    prepare: Callable[[Path, int, int], dict[str, str]] | None = None
    folders: tuple[str, ...] = ()
    is_shared: bool = True


OURS = Cache("ours, shared", ["nice", PYTHON, "-B", "-m", "caching.proxy", "@PORT@", "@ORIGIN@", "shared"])
STORE = Cache("ours, the store", ["nice", PYTHON, "-B", "-m", "caching.store_proxy", "@PORT@", "@ORIGIN@", "shared"])
# (the guess is that of the other proxies)
GATE = Cache("ours, the gateway", ["@GATE@", "--listen", "127.0.0.1:@PORT@", "--origin", "app 127.0.0.1:@ORIGIN@",
                                   "--workers", "1", "--cache", "67108864", "--cache-guess", "86400"])
CACHES = [
    OURS,
    Cache("ours, private", ["nice", PYTHON, "-B", "-m", "caching.proxy", "@PORT@", "@ORIGIN@", "private"],
          is_shared=False),
    STORE,
    GATE,
    # (its own default_grace would serve for ten seconds what is stale)
    Cache("Varnish", ["varnishd", "-F", "-a", "127.0.0.1:@PORT@", "-b", "127.0.0.1:@ORIGIN@", "-n", "@WORK@/varnish",
                      "-s",
                      "malloc,64m", "-j", "none", "-p", "default_grace=0", "-p", "default_keep=3600"],
                      ["varnishd", "-V"]),
    Cache("Squid", ["squid", "-N", "-f", "@WORK@/squid.conf"], ["squid", "-v"], "squid.conf"),
    Cache("nginx", ["nginx", "-c", "@WORK@/nginx.conf", "-e", "@WORK@/nginx.error"], ["nginx", "-v"], "nginx.conf"),
    Cache("Apache", ["apache2", "-f", "@WORK@/apache.conf", "-DFOREGROUND"], ["apache2", "-v"], "apache.conf",
          folders=("apache-cache",)),
    Cache("Traffic Server", ["traffic_server"], ["traffic_server", "-V"], prepare=trafficserver.prepare),
    Cache("http-cache-semantics", ["node", str(PEERS / "semantics_proxy.js"), "@PORT@", "@ORIGIN@"]),
    Cache("Chromium", [], is_shared=False),
]


@dataclass
class Judged:
    """What a cache did: the results of each case by its id."""

    cache: Cache
    title: str
    results: dict[str, list[Result]]


def run_case(key: str, case: Case, port: int) -> list[Answer]:
    """The steps of a case through a cache."""
    answers = []
    for number, step in enumerate(case.steps, 1):
        target = f"/t/{key}{step.query}"
        body = b"x=y" if step.method in ("POST", "PUT", "M-SEARCH") else None
        send = [(name, origin.filled(value, target)) for name, value in step.send]
        began = time.time()
        try:
            response = client.ask(port, step.method, target, [*send, ("Req-Num", str(number))], body)
        except client.FAILURES as error:
            response = Response(0, [], repr(error).encode())
        answers.append(Answer(response, time.time() - began))
        time.sleep(step.pause)
    return answers


def new_keys(asked: Iterable[Case]) -> dict[str, Case]:
    """A key of its own for each case, by which the origin knows the case."""
    keys = {uuid.uuid4().hex: case for case in asked}
    origin.RECORD.asked.clear()
    origin.RECORD.steps = {key: case.steps for key, case in keys.items()}
    return keys


def by_proxy(cache: Cache, keys: dict[str, Case], work: Path) -> dict[str, list[Answer]]:
    port = FIRST_PORT + CACHES.index(cache)
    names = {"PORT": str(port), "ORIGIN": str(ORIGIN), "WORK": str(work), "GATE": products.gate()}
    words = [processes.filled(word, names) for word in cache.words]
    if not processes.has(words[0]):
        raise Missing(f"there is no {words[0]}")
    if cache.config:
        processes.fill(PEERS / cache.config, work / cache.config, names)
    more = cache.prepare(work, port, ORIGIN) if cache.prepare else {}
    for folder in cache.folders:
        (work / folder).mkdir()
        (work / folder).chmod(0o777)  # (a cache gives up the rights of root)
    with processes.server(words, port, "/page/", work / f"{cache.name}.log", more):
        with concurrent.futures.ThreadPoolExecutor(32) as pool:
            pending = {key: pool.submit(run_case, key, case, port) for key, case in keys.items() if not case.is_alone}
        # (a response that is served stale is revalidated after it)
        time.sleep(2)
        answers = {key: it.result() for key, it in pending.items()}
        return answers | {key: run_case(key, case, port) for key, case in keys.items() if case.is_alone}


def title_of(cache: Cache) -> str:
    return version("chromium") if cache.name == "Chromium" else processes.titled(cache.name, cache.version)


def judge(cache: Cache, work: Path) -> Judged:
    keys = new_keys(cases.ALL)
    if cache.words:
        answers = by_proxy(cache, keys, work)
    else:
        answers = chromium.answers_of({key: case for key, case in keys.items() if not case.is_alone}, ORIGIN, work)
    results = {
        case.id: results_of(key, case, answers[key], origin.RECORD.asked[key])
        for key, case in keys.items()
        # (a script that sends conditions of its own passes by the browser's cache: Fetch standard)
        if key in answers and not (cache.name == "Chromium" and case.id.startswith("validate-client"))
    }
    return Judged(cache, title_of(cache), results)
