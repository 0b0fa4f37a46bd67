"""Pairs of policies and requests in a browser: its pages make the requests, a server answers with the field lines of
ours.

Compared are what the script could read, each field that it could see, and each request that came: with what the policy
allows (policy.py), and with the standard over the field lines (fetch.py, walk.py).
"""
import asyncio
import collections
import itertools
import json
import socket
from dataclasses import dataclass, field
from pathlib import Path
from typing import Any

from common.browsers import Browser
from common.server import ByteFields, Request, Response, Server, lines_of
from cors import fetch, generate, ours
from cors import policy as model
from cors.generate import PAGES, Case
from cors.walk import Lines, Rules, Trace, walk

HERE = Path(__file__).resolve().parent
SECONDS = 300
FREE = [(b"Access-Control-Allow-Origin", b"*"), (b"Cache-Control", b"no-store")]


@dataclass
class Seen:
    """A request that came."""

    hop: int
    method: str
    origin: str | None
    kind: str
    asked: list[bytes]


@dataclass
class Findings:
    """What a browser did otherwise: pairs that a known quirk explains, by the quirk, and those that none does."""

    asked: int = 0
    readable: int = 0
    preflights: int = 0
    requests: int = 0
    refused: int = 0
    with_quirk: int = 0
    explained: collections.Counter[str] = field(default_factory=collections.Counter)
    unexplained: list[str] = field(default_factory=list)


class Pairs:
    """The server, and what came of each case."""

    def __init__(self, cases: list[Case], quirks: tuple[str, ...]) -> None:
        self.cases, self.quirks = {case.id: case for case in cases}, quirks
        self.seen: collections.defaultdict[int, list[Seen]] = collections.defaultdict(list)
        self.wires: dict[int, ByteFields] = {}  # the fields of the last answer
        self.results: dict[int, dict[str, Any]] = {}
        self.mismatches: list[str] = []  # where ours and the model differ
        self.done = asyncio.Event()

    def jobs(self) -> dict[str, list[dict[str, Any]]]:
        groups: collections.defaultdict[str, list[dict[str, Any]]] = collections.defaultdict(list)
        for case in self.cases.values():
            groups[case.context].append({
                "id": case.id, "api": case.api, "method": case.method, "headers": case.headers,
                "credentials": case.credentials, "body": case.body, "url": f"{case.hops[0].base}/c/{case.id}/0",
                "page": PAGES["ip" if PAGES[case.context] == "null" else case.context],
            })
        return groups

    def answer(self, request: Request) -> Response:
        if request.path.startswith("/c/"):
            _, _, number, place = request.path.split("/")
            return self.answer_case(request, self.cases[int(number)], int(place))
        pages = {"/": "page.html", "/frame": "frame.html"}
        if request.path in pages:
            text = (b"Content-Type", b"text/html; charset=utf-8")
            return Response(200, [*FREE, text], (HERE / pages[request.path]).read_bytes())
        if request.path == "/jobs":
            return Response(200, [*FREE, (b"Content-Type", b"application/json")], json.dumps(self.jobs()).encode())
        if request.path == "/report":
            self.results.update({it["id"]: it for it in json.loads(request.body)})
            return Response(200, FREE)
        if request.path == "/done":
            self.done.set()
            return Response(200, FREE)
        return Response(404)

    def answer_case(self, request: Request, case: Case, place: int) -> Response:
        hop = case.hops[place]
        is_preflight = model.kind_of(request.method, request.fields) == "preflight"
        response = [(b"Vary", b"accept")] if is_preflight else hop.section()
        given = ours.answer(hop.policy, request.method, request.fields, response)
        wanted = model.answer(hop.policy, request.method, request.fields, response)
        if given.comparable() != wanted.comparable():
            self.mismatches.append(f"{hop.policy}, {request.method!r} {request.fields}: {given}, the model {wanted}")
        fields = model.applied(given, response)
        origins = request.get(b"origin")
        self.seen[case.id].append(Seen(place, request.method.decode(), origins[0].decode() if origins else None,
                                       given.kind, request.get(b"access-control-request-headers")))
        if is_preflight:
            return Response(hop.preflight_status, fields)
        if place < len(case.hops) - 1:
            location = f"{case.hops[place + 1].base}/c/{case.id}/{place + 1}"
            return Response(hop.status, [*fields, (b"Location", location.encode())])
        body = f"case {case.id}".encode()
        fields.append((b"Content-Length", b"%d" % len(body)))
        self.wires[case.id] = fields
        return Response(hop.status, fields, body)

    def is_readable(self, case: Case) -> bool:
        return "error" not in self.results[case.id]

    def trace_of(self, case: Case) -> Trace:
        return [(it.hop, it.method, it.origin) for it in self.seen[case.id]]

    def differences(self, case: Case) -> list[str]:
        """What differs between the browser and the rules, and between the rules and the standard over the lines. Only a
        difference that begins with `browser` may be a quirk."""
        by_rules, by_lines = walk(case, Rules()), walk(case, Lines())
        found = []
        if by_rules[0] != by_lines[0] or (by_rules[1] is None) != (by_lines[1] is None):
            found.append(f"rules {by_rules[0]}, standard {by_lines[0]}")
        if case.id not in self.results:
            return [*found, "no result"]
        if self.is_readable(case) != (by_rules[1] is not None):
            found.append(f"browser: readable {self.is_readable(case)}, policy {by_rules[1] is not None}")
        wanted = named(case, by_rules[0])
        if self.trace_of(case) != wanted:
            found.append(f"browser: requests {self.trace_of(case)}, policy {wanted}")
        if self.is_readable(case) and by_rules[1] and by_lines[1]:
            wire = self.wires[case.id]
            found += self.wrong_fields(case, by_rules[1](wire), by_lines[1](wire))
        for value in (it for seen in self.seen[case.id] for it in seen.asked):
            if value.split(b",") != sorted(value.lower().split(b",")):
                found.append(f"order of the asked names: {value!r}")
        return found

    def wrong_fields(self, case: Case, by_rules: set[bytes], by_lines: set[bytes]) -> list[str]:
        """What the script saw of the response otherwise than it should."""
        found, result, wire = [], self.results[case.id], self.wires[case.id]
        if by_rules != by_lines:
            found.append(f"names by the rules {by_rules}, by the standard {by_lines}")
        shown = {name.encode("latin-1").lower(): value for name, value in result["headers"]}
        if shown.keys() != by_rules:
            found.append(f"names: browser {sorted(shown)}, policy {sorted(by_rules)}")
        for name in shown.keys() & by_rules:
            if shown[name] != b", ".join(lines_of(wire, name)).decode():
                found.append(f"value of {name!r}: {shown[name]}")
        if case.method != "HEAD" and result["status"] != case.hops[-1].status:
            found.append(f"status {result['status']}")
        return found

    def quirks_of(self, case: Case) -> tuple[str, ...] | None:
        """The fewest known quirks with which the rules give just what the browser did."""
        for count in range(1, len(self.quirks) + 1):
            for quirks in itertools.combinations(self.quirks, count):
                trace, shown = walk(case, Rules(), quirks)
                if self.trace_of(case) == named(case, trace) and self.is_readable(case) == (shown is not None):
                    return quirks
        return None

    def findings(self) -> Findings:
        found = Findings(asked=len(self.results), requests=sum(map(len, self.seen.values())))
        found.unexplained += [f"ours and the model: {it}" for it in self.mismatches]
        for case in self.cases.values():
            found.readable += case.id in self.results and self.is_readable(case)
            found.preflights += any(it.kind == "preflight" for it in self.seen[case.id])
            differences = self.differences(case)
            if not differences:
                continue
            may_be_quirk = all(it.startswith("browser: ") for it in differences)
            quirks = self.quirks_of(case) if may_be_quirk else None
            if quirks:
                found.with_quirk += 1
                found.explained.update(quirks)
            else:
                found.unexplained.append(f"{case}: {'; '.join(differences)}")
        return found


def named(case: Case, trace: Trace) -> Trace:
    """The requests with the origin that the browser names on its own: to the page's own origin but for GET and HEAD."""
    home = PAGES[case.context]
    return [(hop, method, home if origin is None and method not in ("GET", "HEAD") else origin)
            for hop, method, origin in trace]


def can_listen(port: int) -> bool:
    with socket.socket() as listener:
        listener.setsockopt(socket.SOL_SOCKET, socket.SO_REUSEADDR, 1)
        try:
            listener.bind(("127.0.0.1", port))
        except OSError:
            return False
    return True


def lawful_cases(seed: int, plain: int, redirects: int) -> tuple[list[Case], int, list[str]]:
    """The cases whose rules make a policy, how many don't, and the rules that ours and the model take otherwise."""
    taken, wrong = [], []
    # (only root may serve at port 80, whose page has an origin without a port)
    without = () if can_listen(80) else ("default",)
    every = [it for it in generate.cases(seed, plain, redirects) if it.context not in without]
    for case in every:
        takes = [ours.takes(hop.policy) for hop in case.hops]
        if takes != [model.is_lawful(hop.policy) for hop in case.hops]:
            wrong.append(f"rules taken {takes}: {[hop.policy for hop in case.hops]}")
        elif all(takes):
            taken.append(case)
    return taken, len(every) - len(taken), wrong


async def judge(browser: str, seed: int, plain: int, redirects: int) -> Findings:
    cases, refused, wrong = lawful_cases(seed, plain, redirects)
    pairs = Pairs(cases, fetch.QUIRKS[browser])
    ports = [generate.PAGE, generate.PAGE2, generate.TARGET, generate.TARGET2, *([80] if can_listen(80) else [])]
    async with Server(ports, pairs.answer):
        with Browser(browser, PAGES["ip"] + "/"):
            try:
                await asyncio.wait_for(pairs.done.wait(), SECONDS)
            except asyncio.TimeoutError:
                pass  # (the cases without a result tell)
    found = pairs.findings()
    found.refused = refused
    found.unexplained += wrong
    return found
