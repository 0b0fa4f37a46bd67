"""Sequences of requests of a browser: how long it keeps preflights, and the HTTP cache with Vary.

Firefox 153 often asks a second time before it uses what it keeps of a first preflight to a URL. So it makes the first
step of each scenario with preflights once more before. The preflight of that may serve the scenario, or it may ask
again.
"""
import asyncio
import collections
import json
from dataclasses import dataclass
from pathlib import Path
from typing import Any

from common.browsers import Browser
from common.server import Request, Response, Server
from cors import ours
from cors import policy as model
from cors.generate import PAGE, PAGE2, PAGES, TARGET
from cors.policy import Policy
from cors.samples import PIXEL

BASE = f"http://127.0.0.1:{TARGET}"
OWN, OTHER = PAGES["ip"], PAGES["port"]
SECONDS = 180

Step = dict[str, Any]
Pairs = list[tuple[str, str]]


def ask(method: str = "GET", context: str = "ip", credentials: str = "omit", cache: str = "default",
        **headers: str) -> Step:
    headers = {name.replace("_", "-"): value for name, value in headers.items()}
    return {"context": context, "method": method, "headers": headers, "credentials": credentials, "cache": cache}


def image(context: str = "ip") -> Step:
    return {"context": context, "image": True}


def wait(seconds: float) -> Step:
    return {"wait": seconds}


LISTED = Policy(origins=[OWN, OTHER, "null"], methods=["PUT", "DELETE"], names=["X-A", "X-B"])


def listed(**changes: Any) -> Policy:
    return LISTED.with_(**changes)


STORED = [("Cache-Control", "max-age=600")]
TAGGED = [("Cache-Control", "no-cache"), ("ETag", '"tag"')]


@dataclass
class Scenario:
    """Steps to a URL of its own, and how many preflights and other requests are wanted, and which steps can be read.
    With `None` browsers may differ. From the request `from_` on the policy is `then`; without Vary the field is left
    out."""

    name: str
    policy: Policy
    own: Pairs
    steps: list[Step]
    preflights: int | None
    others: int | None
    readable: list[int | None]
    from_: int = 0
    then: Policy | None = None
    has_vary: bool = True


SCENARIOS = [
    # The preflight cache
    Scenario("an answer is kept for max-age", listed(max_age=600), [], [ask("PUT"), ask("PUT")], 1, 2, [1, 1]),
    Scenario("max-age 0 keeps none", listed(max_age=0), [], [ask("PUT"), ask("PUT")], 2, 2, [1, 1]),
    Scenario("without max-age it is kept for five seconds", listed(), [],
             [ask("PUT"), ask("PUT"), wait(6.5), ask("PUT")], 2, 3, [1, 1, 1]),
    Scenario("max-age 1 ends after a second", listed(max_age=1), [], [ask("PUT"), wait(2.5), ask("PUT")], 2, 2, [1, 1]),
    Scenario("max-age 8 lasts past the default", listed(max_age=8), [], [ask("PUT"), wait(6.5), ask("PUT")], 1, 2,
             [1, 1]),
    Scenario("another name, of the whole list", listed(max_age=600), [], [ask("PUT", X_A="1"), ask("PUT", x_b="1")], 1,
             2, [1, 1]),
    Scenario("another method, of the whole list", listed(max_age=600), [], [ask("PUT"), ask("DELETE")], 1, 2, [1, 1]),
    Scenario("a method that isn't listed", listed(max_age=600), [], [ask("PUT"), ask("PATCH")], 2, 1, [1, 0]),
    Scenario("any method and any name", Policy(methods="*", names="*", max_age=600), [],
             [ask("PUT", X_A="1"), ask("PATCH", X_B="1")], None, 2, [1, 1]),
    Scenario("with credentials, then without", listed(max_age=600, credentials=True), [],
             [ask("PUT", credentials="include"), ask("PUT")], None, 2, [1, 1]),
    Scenario("without credentials, then with", listed(max_age=600, credentials=True), [],
             [ask("PUT"), ask("PUT", credentials="include")], 2, 2, [1, 1]),
    Scenario("without credentials, then with ones that aren't allowed", listed(max_age=600), [],
             [ask("PUT"), ask("PUT", credentials="include")], 2, 1, [1, 0]),
    Scenario("two origins", listed(max_age=600), [], [ask("PUT"), ask("PUT", "port"), ask("PUT"), ask("PUT", "port")],
             2, 4, [1, 1, 1, 1]),
    Scenario("an origin that isn't listed after one that is", listed(max_age=600, origins=[OWN]), [],
             [ask("PUT"), ask("PUT", "port")], 2, 1, [1, 0]),
    Scenario("an opaque origin", listed(max_age=600), [], [ask("PUT", "sandbox"), ask("PUT", "sandbox")], None, 2,
             [1, 1]),
    Scenario("opaque, then another", listed(max_age=600), [], [ask("PUT", "sandbox"), ask("PUT", "name")], None, 1,
             [1, 0]),
    Scenario("a policy that refuses since", listed(max_age=600), [], [ask("PUT"), ask("PUT")], 1, 2, [1, 0], 1,
             listed(max_age=600, origins=[])),
    *[Scenario(f"max-age {text} lasts past the default", listed(max_age=number), [],
               [ask("PUT"), wait(6.5), ask("PUT")], 1, 2, [1, 1]) for text,
               number in (("2^31", 2**31), ("2^32 + 1", 2**32 + 1), ("2^63 - 1", 2**63 - 1), ("2^63", 2**63),
                          ("2^64 - 1", 2**64 - 1))],
    Scenario("a preflight that says max-age in Cache-Control", listed(max_age=0), STORED, [ask("PUT"), ask("PUT")], 2,
             2, [1, 1]),
    # The HTTP cache
    Scenario("stored for one origin, asked by it", listed(), STORED, [ask(), ask()], 0, 1, [1, 1]),
    Scenario("stored for one origin, asked by another", listed(), STORED, [ask(), ask(context="port")], 0, 2, [1, 1]),
    Scenario("to and fro", listed(), STORED, [ask(), ask(context="port"), ask(), ask(context="port")], 0, None,
             [1] * 4),
    Scenario("any origin: stored for one, serves another", Policy(), STORED, [ask(), ask(context="port")], 0, None,
             [1, 1]),
    Scenario("a picture, then a script", listed(), STORED, [image(), ask()], 0, 2, [1, 1]),
    Scenario("a picture, then a script, any origin", Policy(), STORED, [image(), ask()], 0, None, [1, 1]),
    Scenario("stored for an origin that isn't listed", listed(origins=[OTHER]), STORED, [ask(), ask(context="port")],
             0, 2, [0, 1]),
    Scenario("handler's own Vary", listed(), STORED + [("Vary", "accept-encoding")], [ask(), ask(context="port")], 0,
             2, [1, 1]),
    Scenario("validated for another origin", listed(), TAGGED, [ask(), ask(context="port"), ask()], 0, 3, [1, 1, 1]),
    Scenario("validated after a picture", listed(), TAGGED, [image(), ask(), ask()], 0, 3, [1, 1, 1]),
    Scenario("forced from the cache", listed(), STORED,
             [ask(), ask(cache="force-cache"), ask(context="port", cache="force-cache")], 0, None, [1, 1, None]),
    # Without Vary these fail, so the ones above show that it counts.
    Scenario("CONTROL: no Vary, another origin", listed(), STORED, [ask(), ask(context="port")], 0, None, [1, 0],
             has_vary=False),
    Scenario("CONTROL: no Vary, after a picture (Firefox keeps pictures apart)", listed(), STORED, [image(), ask()], 0,
             None, [1, None], has_vary=False),
]


class Run:
    """The server, and what came of each scenario."""

    def __init__(self, browser: str) -> None:
        self.is_firefox = browser == "firefox"
        self.pages = {context: PAGES[context] for context in ("ip", "port", "name")} | {"sandbox": PAGES["ip"]}
        self.seen: collections.defaultdict[int, list[bytes]] = collections.defaultdict(list)
        self.others: collections.Counter[int] = collections.Counter()
        self.found: list[dict[str, Any]] = []
        self.done = asyncio.Event()

    def extra(self, number: int) -> int:
        """How many steps are made once more before a scenario."""
        return int(self.is_firefox and SCENARIOS[number].preflights != 0)

    def todo(self) -> list[list[Step]]:
        made = []
        for number, scenario in enumerate(SCENARIOS):
            steps = [{**step,
                      "url": f"{BASE}/s/{number}"} for step in scenario.steps[: self.extra(number)] + scenario.steps]
            steps[0]["name"] = number
            made.append(steps)
        return made

    def answer(self, request: Request) -> Response:
        free = [(b"Content-Type", b"text/html"), (b"Cache-Control", b"no-store")]
        if request.path == "/":
            return Response(200, free, Path(__file__).with_name("steps.html").read_bytes())
        if request.path == "/steps":
            return Response(200, free, json.dumps({"pages": self.pages, "todo": self.todo()}).encode())
        if request.path == "/found":
            self.found = json.loads(request.body)
            self.done.set()
            return Response(200)
        if not request.path.startswith("/s/"):
            return Response(404)
        return self.answer_step(request, int(request.path[3:]))

    def answer_step(self, request: Request, number: int) -> Response:
        scenario, is_preflight = SCENARIOS[number], request.method == b"OPTIONS"
        self.seen[number].append(request.method)
        self.others[number] += not is_preflight
        policy = scenario.policy
        if scenario.then and self.others[number] > scenario.from_ + self.extra(number):
            policy = scenario.then
        own = [(name.encode(), value.encode()) for name, value in scenario.own or [("Cache-Control", "no-store")]]
        fields = model.applied(ours.answer(policy, request.method, request.fields, own), own)
        if not scenario.has_vary:
            fields = [(name, value) for name, value in fields if name != b"vary"]
        if is_preflight:
            return Response(204, fields)
        tag = dict(scenario.own).get("ETag")
        if tag and tag.encode() in request.get(b"if-none-match"):
            return Response(304, fields)
        return Response(200, [*fields, (b"Content-Type", b"image/gif")], PIXEL)

    def wrong(self) -> list[str]:
        results = {it["name"]: it["results"] for it in self.found}
        found = []
        for number, scenario in enumerate(SCENARIOS):
            extra = self.extra(number)
            preflights = self.seen[number].count(b"OPTIONS")
            others = len(self.seen[number]) - preflights - extra
            preflights -= extra
            readable = [int(result["ok"]) for result in results[number][extra:]]
            wanted = {scenario.preflights}
            if extra and scenario.preflights is not None and scenario.policy.max_age != 0:
                wanted |= {scenario.preflights - 1, scenario.preflights + 1}
            fits = (None in wanted or preflights in wanted) and scenario.others in (None, others) and all(
                want in (None, got) for want, got in zip(scenario.readable, readable))
            if not fits:
                found.append(f"{scenario.name}: {preflights} preflights (wanted {scenario.preflights}), {others} others"
                             f" (wanted {scenario.others}), readable {readable} (wanted {scenario.readable})")
        return found


async def judge(browser: str) -> tuple[int, list[str]]:
    """How many scenarios were tried, and those that went otherwise."""
    run = Run(browser)
    async with Server([PAGE, PAGE2, TARGET], run.answer):
        with Browser(browser, OWN + "/"):
            await asyncio.wait_for(run.done.wait(), SECONDS)
    return len(SCENARIOS), run.wrong()
