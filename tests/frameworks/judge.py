"""What frameworks answer to conditional requests, requests for ranges and requests from other origins, by themselves
and with the middleware, beside models of RFC 9110 and of the Fetch standard.

    judge.py CASES SEED

Prints JSON for the frameworks that this Python has. `run` says what it needs, and makes the page.
"""
import json
import random
import sys
import time
from collections.abc import Callable, Iterator
from dataclasses import asdict, dataclass, field
from typing import Any

import apps
from apps import FRAMEWORKS, Framework
from ask import Response, ask
from common.dates import valid_date
from conditional import cases, servers
from conditional.model import ENTITY_TAG, Request, joined
from cors import fetch, generate
from cors import policy as policies
from cors.policy import Policy
from typed_headers import CorsPolicy, HeaderError, asgi, wsgi

NOW = int(time.time())


@dataclass
class Row:
    """How an application answered."""

    framework: str
    how: str
    is_ours: bool
    part: str
    asked: int = 0
    wrong: int = 0
    failed: int = 0
    parts: int = 0
    possible: int = 0
    # Visits after which a cache gives an origin a response with which a browser does other than with its own.
    stale: int = 0
    kinds: dict[str, int] = field(default_factory=dict)
    examples: dict[str, str] = field(default_factory=dict)

    def add_wrong(self, kind: str, example: str) -> None:
        self.wrong += 1
        self.kinds[kind] = self.kinds.get(kind, 0) + 1
        if kind not in self.examples or len(example) < len(self.examples[kind]):
            self.examples[kind] = example


def shown(fields: list[tuple[str, str]]) -> str:
    return "; ".join(f"{name}: {value}" for name, value in fields)


# Conditions and ranges


def judge_conditions(row: Row, framework: Framework, application: Any, kinds: tuple[str, ...], every: list[Any]) -> None:
    validators: dict[str, tuple[str | None, int | None]] = {}
    for case in every:
        if case.kind not in kinds or case.method not in ("GET", "HEAD"):
            continue
        path = f"/{case.kind}/{case.length}"
        if path not in validators:
            plain = ask(framework.is_async, application, "GET", path, [])
            date = plain.get("last-modified")
            tag = plain.get("etag")
            validators[path] = tag, valid_date(date, NOW) if date else None
        tag, modified = validators[path]
        lines = cases.filled_lines(case, tag, modified)
        own = tag if tag is not None and ENTITY_TAG.fullmatch(tag) else None
        row.asked += 1
        # (whether its date is a strong validator is the server's to know; the middleware says that it isn't)
        strengths = (False,) if row.is_ours else (False, True)
        permitted = set()
        for is_strong in strengths:
            permitted |= Request(case.method, lines, own, modified, case.length, is_strong, NOW).permitted()
        about = f"{case.method} {shown(lines)}"
        try:
            response = ask(framework.is_async, application, case.method, path, lines)
        except Exception as error:  # a framework that fails on a request
            row.failed += 1
            row.add_wrong(f"fails: {type(error).__name__}", about)
            continue
        row.possible += any(status == 206 for status, _ in permitted)
        row.parts += response.status == 206 and any(status == 206 for status, _ in permitted)
        kind = fault_of(response, case, permitted)
        if kind:
            row.add_wrong(kind, about)


def fault_of(response: Response, case: Any, permitted: set[Any]) -> str | None:
    """What is wrong with a response, if anything."""
    wanted = " or ".join(sorted({str(status) for status, _ in permitted}))
    content = servers.content(case.length)
    if response.status != 206:
        if (response.status, ()) not in permitted:
            return f"{response.status} for {wanted}"
        if response.status == 200 and case.method == "GET" and response.body != content:
            return "other content"
        return None
    parts = response.parts()
    if parts is None:
        return "206 that isn't made as RFC 9110 says"
    if (206, joined((first, last) for first, last, _ in parts)) not in permitted:
        return f"206 for {wanted}" if not any(it[0] == 206 for it in permitted) else "206 with other parts"
    if any(body != content[first : last + 1] for first, last, body in parts) and case.method == "GET":
        return "206 with other content"
    length = response.get("content-length")
    if length is not None and case.method == "GET" and int(length) != len(response.body):
        return "206 with another Content-Length"
    return None


# Other origins


@dataclass
class Visit:
    """A request of a page, to a server with a policy."""

    policy: Policy
    origin: str
    includes: bool
    method: str
    sent: list[tuple[bytes, bytes]]
    own: list[tuple[str, str]]

    def __str__(self) -> str:
        names = ", ".join(name.decode() for name, _ in self.sent)
        rules = {name: value for name, value in asdict(self.policy).items() if value}
        given = f"{self.method} of {self.origin}{' with credentials' if self.includes else ''}"
        return f"{given}{f', fields {names}' if names else ''}, of {rules}"


ORIGINS = ["https://a.example", "http://a.example", "https://b.example:8443", "https://a.example:8443", "null"]
SENT = [(b"x-a", b"1"), (b"content-type", b"application/json"), (b"authorization", b"x"), (b"accept", b"*/*")]
OWN = [("X-A", "a"), ("ETag", '"t"'), ("Content-Language", "en")]


def visits(draw: random.Random, count: int) -> Iterator[Visit]:
    """Visits of servers whose policies each framework can say."""
    while count:
        origin, includes = draw.choice(ORIGINS), draw.random() < 0.4
        method = draw.choice(["GET", "GET", "POST", "PUT", "DELETE", "PATCH"])
        sent = draw.sample(SENT, draw.randint(0, 2))
        own = [it for it in OWN if draw.random() < 0.6] + draw.choice([[], [], [("Vary", "Accept")]])
        unsafe = [name.decode() for name in fetch.unsafe_names(sent)]
        policy = generate.draw_policy(draw, origin, includes, method, unsafe, own)
        if isinstance(policy.origins, list):
            near = [it for it in ORIGINS if it != origin]
            policy.origins = [it if it == origin else draw.choice(near) for it in policy.origins]
        if policy.names == "*" or not policies.is_lawful(policy) or not policy.origins:
            # (frameworks and the standard differ by design about a star and `authorization`)
            continue
        if policy.methods != "*" and any(it != it.upper() for it in policy.methods):
            # (nor does each framework keep the case of methods)
            continue
        count -= 1
        yield Visit(policy, origin, includes, method, sent, own)


def lets_through(visit: Visit, asks: Callable[[str, list[tuple[str, str]]], Response]) -> tuple[bool, set[str]] | None:
    """Whether a browser sends the request and lets a script read the response, and the fields that it may read.
    `None` if the application fails."""
    origin = visit.origin.encode()
    try:
        if fetch.needs_preflight(visit.method.encode(), visit.sent):
            asked = [("Origin", visit.origin), ("Access-Control-Request-Method", visit.method)]
            unsafe = fetch.unsafe_names(visit.sent)
            if unsafe:
                asked.append(("Access-Control-Request-Headers", b",".join(unsafe).decode()))
            preflight = asks("OPTIONS", asked)
            if not fetch.preflight_passes(preflight.status, preflight.byte_fields(), origin, visit.includes,
                                          visit.method.encode(), visit.sent):
                return False, set()
        fields = [("Origin", visit.origin), *((name.decode(), value.decode()) for name, value in visit.sent)]
        response = asks(visit.method, fields).byte_fields()
    except Exception:  # a framework that fails on a request
        return None
    if not fetch.cors_check(response, origin, visit.includes):
        return False, set()
    return True, {name.decode() for name in fetch.readable_names(response, visit.includes)}


def judge_origins(row: Row, framework: Framework, made: Callable[[Visit], Any], every: list[Visit]) -> None:
    for visit in every:
        application = made(visit)

        def asks(method: str, fields: list[tuple[str, str]]) -> Response:
            return ask(framework.is_async, application, method, "/", fields)

        row.asked += 1
        unsafe = [name.decode() for name in fetch.unsafe_names(visit.sent)]
        wanted = policies.allows_share(visit.policy, visit.origin, visit.includes) and (
            not fetch.needs_preflight(visit.method.encode(), visit.sent)
            or policies.allows_request(visit.policy, visit.origin, visit.includes, visit.method, unsafe))
        found = lets_through(visit, asks)
        if found is None:
            row.failed += 1
            row.add_wrong("fails", str(visit))
            continue
        judge_vary(row, visit, asks)
        passes, names = found
        if passes != wanted:
            row.add_wrong("lets through what the policy doesn't allow" if passes else "blocks what the policy allows",
                          str(visit))
            continue
        hoped = {name.lower() for name, _ in visit.own if policies.exposes(visit.policy, name)}
        shown_names = names & {name.lower() for name, _ in visit.own}
        if passes and shown_names != hoped:
            row.add_wrong("shows a field that the policy doesn't expose" if shown_names - hoped
                          else "hides a field that the policy exposes", str(visit))


def judge_vary(row: Row, visit: Visit, asks: Callable[[str, list[tuple[str, str]]], Response]) -> None:
    """Whether a cache may give an origin the response that was made for another, or for none, and a browser does with
    it other than with the origin's own."""
    try:
        own = {origin: asks("GET", [("Origin", origin)]) for origin in ORIGINS}
        responses = [*own.values(), asks("GET", [])]
    except Exception:  # (counted where the visit is made)
        return
    for response in responses:
        if {it.strip().lower() for it in (response.get("vary") or "").split(",")} & {"origin", "*"}:
            continue
        for origin, other in own.items():
            for includes in (False, True):
                checks = [fetch.cors_check(it.byte_fields(), origin.encode(), includes) for it in (response, other)]
                if checks[0] != checks[1]:
                    row.stale += 1
                    return


def ours_cors(framework: Framework, visit: Visit) -> Any:
    assert framework.plain_cors is not None
    application = framework.plain_cors(visit.own)
    lists = visit.policy.lists()
    policy = CorsPolicy(*lists, visit.policy.max_age, visit.policy.credentials)
    return (asgi if framework.is_async else wsgi).Cors(application, policy)


def main(count: int, seed: int) -> None:
    every = [*cases.of_go(), *cases.by_hand(), *cases.at_random(seed, count)]
    draw = random.Random(seed)
    asked = list(visits(draw, count))
    rows: list[Row] = []
    for framework in FRAMEWORKS:
        version = framework.version()
        if version is None:
            continue
        name = f"{framework.package} {version}"
        if framework.own is not None:
            rows.append(Row(name, framework.own_name, False, "conditions"))
            judge_conditions(rows[-1], framework, framework.own(), framework.kinds, every)
        if framework.own is not None and framework.is_wrapped:
            kind = asgi if framework.is_async else wsgi
            rows.append(Row(name, f"`{kind.__name__}.ConditionalRequests` over {framework.own_name}", True, "conditions"))
            application = kind.ConditionalRequests(framework.own())
            judge_conditions(rows[-1], framework, application, framework.kinds, every)
        if framework.plain is not None:
            kind = asgi if framework.is_async else wsgi
            rows.append(Row(name, f"`{kind.__name__}.ConditionalRequests`", True, "conditions"))
            application = kind.ConditionalRequests(framework.plain())
            judge_conditions(rows[-1], framework, application, tuple(cases.KINDS), every)
        if framework.served is not None:
            rows.append(Row(name, "`typed_headers.wsgi.Serves`", True, "conditions"))
            judge_conditions(rows[-1], framework, framework.served(), tuple(cases.KINDS), every)
        own_cors = framework.own_cors
        if own_cors is not None:
            rows.append(Row(name, framework.cors_name, False, "origins"))
            judge_origins(rows[-1], framework, lambda visit: own_cors(visit.policy, visit.own), asked)
        if framework.plain_cors is not None:
            kind = asgi if framework.is_async else wsgi
            rows.append(Row(name, f"`{kind.__name__}.Cors`", True, "origins"))
            judge_origins(rows[-1], framework, lambda visit: ours_cors(framework, visit), asked)
    print(json.dumps([asdict(row) for row in rows]))


if __name__ == "__main__":
    main(*map(int, sys.argv[1:]))
