"""Holds what was recorded on each link to RFC 9110, 9111 and 9112: hop by hop, and from client to origin server.

Nothing here asks the parts. A way is a list of hops; the link in front of each hop and the one behind it have numbers.
"""
import re
from collections import Counter
from collections.abc import Iterable
from dataclasses import dataclass, field

from common.fields import Fields, lines_of, members
from messages import Message, tokens
from parts import GATE, Exchange
from rules import (OF_CONNECTION, SAFE, Use, age, by_name, control_of, end_to_end, is_not_modified, lifetime,
                   may_be_stored, may_be_used, part_of, varies)

# Fields that a hop changes by rules of their own.
CHANGED = {"via", "age", "date", "max-forwards", "expect", "host"}
# Who sent a request is told anew by each gateway, or not at all.
ABOUT_CLIENT = {"forwarded", "x-forwarded-for", "x-forwarded-host", "x-forwarded-proto"}
# RFC 9110, section 7.6.1: a sender must not name them in Connection.
FOR_ALL = {"host", "content-length", "transfer-encoding", "via", "max-forwards", "date", "cache-control",
           "authorization", "cookie", "set-cookie", "vary", "age", "expires", "etag", "last-modified"}
CONDITIONS = {"if-none-match", "if-modified-since", "if-match", "if-unmodified-since", "range", "if-range"}
# What a 304 must have if the 200 has it (RFC 9110, section 15.4.5).
IN_304 = {"cache-control", "content-location", "date", "etag", "expires", "vary"}
MARK = re.compile(r"c\d+-[0-9a-f]{8}")


@dataclass
class Hop:
    """A gateway or a cache, and the numbers of the links before and behind it."""

    name: str
    kind: str
    before: int
    behind: int

    @property
    def is_shared(self) -> bool:
        return self.kind == "shared"


@dataclass
class Found:
    """What isn't permitted, and by which exchange it is seen."""

    hop: str
    exchange: Exchange
    text: str


def key_of(request: Message) -> str:
    """The target URI."""
    if "key" not in request.notes:
        host, path = (request.lines("host") or [""])[0], request.target
        if path.lower().startswith("http://"):
            host, slash, path = path[7:].partition("/")
            path = slash + path
        request.notes["key"] = f"{host.lower()}{path or '/'}"
    return request.notes["key"]


def changes_state(exchange: Exchange) -> bool:
    """Whether it makes older responses for its target outdated (RFC 9111, section 4.4)."""
    return exchange.request.method not in SAFE and exchange.response is not None \
        and 200 <= exchange.response.status < 400


def answer_number(message: Message | None) -> str | None:
    """The number that the origin server gives each of its responses."""
    found = message.lines("x-answer") if message else []
    return found[0] if found else None


def differences(one: Fields, other: Fields, but: Iterable[str]) -> list[str]:
    first, second = by_name(one), by_name(other)
    return [f"{name}: {first.get(name)} became {second.get(name)}" for name in sorted({*first, *second} - {*but})
            if first.get(name) != second.get(name)]


def via_members(message: Message) -> list[str]:
    return [it for it in members(message.lines("via")) if it]


def crossing(before: Message, after: Message) -> list[str]:
    """The fields of a connection that came out at the other side."""
    named = set(before.options()) - {"close", "keep-alive"}
    text = [f"{name}, a field of one connection, is forwarded" for name, value in after.fields
            if name.lower() in named | (OF_CONNECTION - {"connection", "transfer-encoding", "keep-alive", "te"})
            and value in lines_of(before.fields, name.lower())]
    return text + [f"the connection option {it} is forwarded" for it in sorted(named & set(after.options()))
                   if it not in ("te", "upgrade")]


def is_for_nobody(exchange: Exchange, out: Exchange) -> bool:
    """Whether a cache validates so, from end to end, what it has sent stale (RFC 5861, section 3): its client doesn't
    get what comes of it."""
    return out.request.lines("cache-control") in (["no-cache"], ["no-cache, no-store"]) \
        and exchange.response is not None and answer_number(exchange.response) != answer_number(out.response)


class Checker:
    def __init__(self, hops: list[Hop], record: list[Exchange], origin: int) -> None:
        self.hops, self.origin = hops, origin
        self.record = sorted(record, key=lambda it: it.order)
        self.found: list[Found] = []
        self.kinds: Counter[str] = Counter()
        self.on: dict[int, list[Exchange]] = {}
        for it in self.record:
            self.on.setdefault(it.link, []).append(it)
        self.sent = {hop.name: self.behind(hop) for hop in hops}

    def behind(self, hop: Hop) -> list[Exchange]:
        """What a hop exchanged with the next one. A private cache shares that link with others, but no marks."""
        found = self.on.get(hop.behind, [])
        if hop.kind != "private":
            return found
        own = {it.mark for it in self.on.get(hop.before, [])}
        return [it for it in found if it.mark in own]

    def check(self) -> None:
        for hop in self.hops:
            came, went = self.on.get(hop.before, []), self.sent[hop.name]
            caused: dict[int, list[Exchange]] = {it.order: [] for it in came}
            for out in went:
                causes = [it for it in came if it.mark == out.mark and it.order < out.order]
                if causes:
                    caused[causes[-1].order].append(out)
                else:
                    self.add(hop.name, out, ["a request that nobody made"])
            for exchange in came:
                self.check_hop(hop, exchange, caused[exchange.order])

    def add(self, hop: str, exchange: Exchange, texts: Iterable[str]) -> None:
        self.found += [Found(hop, exchange, it) for it in texts]

    def check_hop(self, hop: Hop, exchange: Exchange, outs: list[Exchange]) -> None:
        for out in outs:
            self.add(hop.name, exchange, self.forwarded_request(hop, exchange, out))
        # (one that was lost with a connection may be sent again if its method is idempotent: RFC 9110, section 9.2.2)
        sent = [it for it in outs if it.response or it.request.method not in ("PUT", "DELETE")]
        if exchange.request.method not in SAFE and len(sent) > 1:
            self.add(hop.name, exchange, ["an unsafe request is forwarded twice"])
        if exchange.response is None:
            # A server may close a connection that was used, before it reads a request (RFC 9112, section 9.5), and so may
            # a gateway if the origin server did: its client may then send the request again (section 9.3.1).
            is_lost = hop.kind == GATE and not any(it.response or it.is_first for it in outs)
            if exchange.is_first or outs and not is_lost:
                self.add(hop.name, exchange, ["no response"])
            else:
                self.kinds[f"{hop.kind}: closed the connection"] += 1
            return
        kind, texts = self.response_kind(hop, exchange, outs)
        self.kinds[f"{hop.kind}: {kind}"] += 1
        self.add(hop.name, exchange, texts)
        if kind != "own answer":
            self.add(hop.name, exchange, (text for out in outs if out.response
                                          for text in crossing(out.response, exchange.response)))

    # Requests

    def forwarded_request(self, hop: Hop, exchange: Exchange, out: Exchange) -> list[str]:
        came, went = exchange.request, out.request
        texts = crossing(came, went)
        if (came.method, key_of(came), came.content) != (went.method, key_of(went), went.content):
            texts.append(f"another request is sent: {went.first}")
        own = end_to_end(came)
        but = CHANGED | ABOUT_CLIENT
        if hop.kind != GATE and came.method in ("GET", "HEAD"):
            but |= CONDITIONS
            texts += self.own_conditions(hop, own, out)
            but |= {"cache-control"} if is_for_nobody(exchange, out) else set()
        texts += differences(own, end_to_end(went), but)
        texts += self.via_grows(hop, came, went)
        if went.lines("expect") not in ([], came.lines("expect")):
            texts.append("Expect is changed")
        limit, left = came.lines("max-forwards"), went.lines("max-forwards")
        wanted = [str(int(limit[0]) - 1)] if came.method in ("OPTIONS", "TRACE") and limit else limit
        if left != wanted:
            texts.append(f"Max-Forwards: {limit} became {left}")
        return texts

    def own_conditions(self, hop: Hop, own: Fields, out: Exchange) -> list[str]:
        """A cache may ask by the validators of what it stored, and by no others (RFC 9111, section 4.3.1)."""
        earlier = [it for it in self.sent[hop.name] if it.order < out.order and it.response
                   and key_of(it.request) == key_of(out.request)]
        texts = []
        for name, source in (("if-none-match", "etag"), ("if-modified-since", "last-modified"), ("range", ""),
                             ("if-match", ""), ("if-unmodified-since", ""), ("if-range", "")):
            sent = out.request.lines(name)
            known = [it for other in earlier for it in other.response.lines(source)] if source else []
            if sent and sent != lines_of(own, name) and not all(it in known for it in sent):
                texts.append(f"{name}: {sent} is neither the client's nor of a stored response")
        return texts

    def via_grows(self, hop: Hop, before: Message, after: Message) -> list[str]:
        one, other = via_members(before), via_members(after)
        if len(other) == len(one) + 1 and other[:-1] == one and re.fullmatch(rf"(HTTP/)?1\.[01] {hop.name}", other[-1]):
            return []
        return [f"Via: {one} became {other}"]

    # Responses

    def response_kind(self, hop: Hop, exchange: Exchange, outs: list[Exchange]) -> tuple[str, list[str]]:
        """What a response is, and what is wrong with it as that."""
        response = exchange.response
        number = answer_number(response)
        tried: list[tuple[str, list[str]]] = []
        if number is None or (hop.kind == GATE and response.status == 502 and not self.forwards(hop, exchange, outs)):
            return "own answer", self.own_answer(hop, exchange, outs)
        for out in outs:
            if answer_number(out.response) == number and out.response.status == response.status:
                texts = self.forwarded_response(hop, exchange, out)
                if not texts:
                    return "forwarded", []
                tried.append(("forwarded", texts))
        if hop.kind != GATE:
            tried += self.stored_answers(hop, exchange, outs, number)
        if not tried:
            return "unknown", ["a response that the next server never sent"]
        return min(tried, key=lambda it: len(it[1]))

    def forwards(self, hop: Hop, exchange: Exchange, outs: list[Exchange]) -> bool:
        number = answer_number(exchange.response)
        return any(number is not None and answer_number(it.response) == number for it in outs)

    def forwarded_response(self, hop: Hop, exchange: Exchange, out: Exchange) -> list[str]:
        came, went = out.response, exchange.response
        texts = differences(end_to_end(came), end_to_end(went), {"via", "date"}) + self.via_grows(hop, came, went)
        if came.content != went.content:
            texts.append(f"the content changed: {came.content[:80]!r} became {went.content[:80]!r}")
        if came.lines("date") != went.lines("date") and (came.lines("date") or len(went.lines("date")) != 1):
            texts.append(f"Date: {came.lines('date')} became {went.lines('date')}")
        if exchange.request.method == "HEAD" and went.lines("content-length") not in ([], came.lines("content-length")):
            texts.append("Content-Length changed")
        if went.status == 304 and any(out.request.lines(it) != exchange.request.lines(it)
                                      for it in ("if-none-match", "if-modified-since")):
            texts.append("a 304 to other conditions than the client's")
        return texts

    def own_answer(self, hop: Hop, exchange: Exchange, outs: list[Exchange]) -> list[str]:
        """What a hop answers by itself, and whether it has a reason to (RFC 9110, section 7.6, and RFC 9111, section
        5.2.1.7)."""
        status, request = exchange.response.status, exchange.request
        options = request.options()
        reasons = set()
        if FOR_ALL & set(options) or not all(re.fullmatch(r"[!#$%&'*+\-.^_`|~0-9a-z]+", it) for it in options):
            reasons.add(400)
        if request.method in ("OPTIONS", "TRACE") and request.lines("max-forwards") == ["0"]:
            reasons.add(200)
        if any(it != "100-continue" for it in tokens(request.lines("expect"))):
            reasons.add(417)
        if any(it.split(" ")[1:2] == [hop.name] for it in via_members(request)):
            reasons.add(508)
        last = outs[-1].response if outs else None
        if outs and (last is None or (FOR_ALL | {"x b"}) & set(last.options())):
            reasons |= {502, 504}
        if outs and last is not None and answer_number(last) is None and last.status == status:
            return self.forwarded_response(hop, exchange, outs[-1])
        if hop.kind != GATE:
            if not outs and control_of(request.lines("cache-control")).has("only-if-cached"):
                reasons.add(504)
            if status == 416 and request.lines("range"):
                lengths = {len(it.response.content) for it in self.stored_for(hop, exchange) if it.response}
                if any(exchange.response.lines("content-range") == [f"bytes */{it}"]
                       and part_of(request, [], it) is None for it in lengths):
                    reasons.add(416)
        texts = [] if status in reasons else [f"{status} by itself, without a reason"]
        return texts + (["an own answer has content"] if exchange.response.content else [])

    # Stored responses

    def stored_for(self, hop: Hop, exchange: Exchange) -> list[Exchange]:
        """What came to a cache for the target until it answered."""
        return [it for it in self.sent[hop.name] if it.order < exchange.ended and it.response is not None
                and key_of(it.request) == key_of(exchange.request)]

    def stored_answers(self, hop: Hop, exchange: Exchange, outs: list[Exchange],
                       number: str) -> list[tuple[str, list[str]]]:
        """The ways in which a response may be made of a stored one, with what is wrong with each."""
        earlier, found = self.stored_for(hop, exchange), []
        for last in (it for it in earlier if answer_number(it.response) == number):
            updates = last.response.status == 304 or (
                last.request.method == "HEAD" and exchange.request.method == "GET")
            bases = [last] if not updates else [it for it in earlier if it.order < last.order
                                                and it.request.method in ("GET", "HEAD") and it.response.status == 200]
            for base in bases:
                texts = self.stored_problems(hop, exchange, outs, base, last, earlier)
                found.append((self.stored_kind(hop, exchange, outs, base, last), texts))
                if not texts:
                    return found
        return found

    def stored_kind(self, hop: Hop, exchange: Exchange, outs: list[Exchange], base: Exchange, last: Exchange) -> str:
        form = {206: ", a part", 304: ", as a 304"}.get(exchange.response.status, "")
        if last in outs:
            return f"validated{form}"
        fields = end_to_end(exchange.response)
        fresh_for = lifetime(base.response.status, fields, last.received, hop.is_shared)
        told = (lines_of(fields, "age") or ["0"])[0]
        return f"{'stale' if told.isdigit() and int(told) >= fresh_for else 'fresh'}{form}"

    def stored_problems(self, hop: Hop, exchange: Exchange, outs: list[Exchange], base: Exchange, last: Exchange,
                        earlier: list[Exchange]) -> list[str]:
        request, response = exchange.request, exchange.response
        fields, is_validated = end_to_end(response), last in outs
        texts = [f"{it.request.method} was performed on the target since it came" for it in earlier
                 if it.order > base.order and changes_state(it)][:1]
        if request.method not in ("GET", "HEAD") or (base.request.method, request.method) == ("HEAD", "GET"):
            texts.append(f"a response to {base.request.method} answers {request.method}")
        asked = end_to_end(base.request)
        for told in (base.response.fields, *([fields] if not is_validated and last is not base else [])):
            why = may_be_stored(base.request.method, asked, base.response.status, told, hop.is_shared)
            texts += [f"it may not be stored: {why}"] if why else []
        names = tokens(last.response.lines("vary") or response.lines("vary"))
        if differs := varies(names, asked, end_to_end(request)):
            texts.append(f"Vary: {differs} of the request differs from that of {base.mark}")
        if last.response.status == 304 and not self.is_about(last.response, base.response):
            texts.append("the 304 is about another response")
        made = [it for it in fields if it[0] != "age"] + [it for it in end_to_end(last.response) if it[0] == "age"]
        now = [age(made, last.asked, last.received, it) for it in (exchange.asked, exchange.received)]
        if not is_validated:
            failed = bool(outs) and (outs[-1].response is None or outs[-1].response.status in (500, 502, 503, 504))
            is_asked = any(it.mark == exchange.mark for it in self.sent[hop.name])
            use = Use(now[failed], is_asked, failed)
            why = may_be_used(request, base.response.status, made, last.received, hop.is_shared, use)
            texts += [f"it may not be used: {why}"] if why else []
            told = response.lines("age")
            if len(told) != 1 or not told[0].isdigit() or not now[0] <= int(told[0]) <= now[1]:
                texts.append(f"Age is {told}, and it is {now[0]} seconds old")
        elif response.lines("age") not in (last.response.lines("age"), [str(it) for it in now[1:]]):
            texts.append(f"Age is {response.lines('age')}, though it was just validated")
        texts += self.stored_fields(hop, exchange, base, last, earlier)
        return texts + self.stored_content(exchange, base, made)

    def is_about(self, update: Message, base: Message) -> bool:
        """Whether a 304 names a response (RFC 9111, section 4.3.4)."""
        for name in ("etag", "last-modified"):
            if update.lines(name) and base.lines(name):
                return update.lines(name)[0].removeprefix("W/") == base.lines(name)[0].removeprefix("W/")
        return not (update.lines("etag") and not base.lines("etag"))

    def stored_fields(self, hop: Hop, exchange: Exchange, base: Exchange, last: Exchange,
                      earlier: list[Exchange]) -> list[str]:
        """Each field is that of the last update, or that of an earlier one, or came with the response."""
        response = exchange.response
        own, newest = by_name(end_to_end(response)), by_name(end_to_end(last.response))
        chain = [it for it in earlier if base.order <= it.order <= last.order]
        texts = []
        but = {"age", "via", "date", "content-range"}
        for name, lines in own.items():
            known = [newest[name]] if name in newest else [
                by_name(end_to_end(it.response)).get(name) for it in chain]
            if name not in but and lines not in known:
                texts.append(f"{name}: {lines} was not stored")
        date = response.lines("date")
        if len(date) != 1 or (last.response.lines("date") and date != last.response.lines("date")):
            texts.append(f"Date is {date}, not {last.response.lines('date')}")
        needed = {name for name in {*by_name(end_to_end(base.response)), *newest} - but
                  if response.status != 304 or name in IN_304}
        texts += [f"{name} is missing" for name in sorted(needed - {*own})]
        lines = via_members(response)
        if lines[:-1] not in [via_members(it.response) for it in chain] or lines[-1:] != [f"1.1 {hop.name}"]:
            texts.append(f"Via is {lines}")
        return texts

    def stored_content(self, exchange: Exchange, base: Exchange, made: Fields) -> list[str]:
        request, response, content = exchange.request, exchange.response, base.response.content
        if response.status == 304:
            if base.response.status == 200 and is_not_modified(request, made, base.received):
                return []
            return ["a 304 to no validator of the client's"]
        if response.status == 206 and base.response.status != 206:
            part = part_of(request, made, len(content))
            if part is None or request.method != "GET":
                return ["a part that wasn't asked for"]
            first, last = part
            if response.lines("content-range") != [f"bytes {first}-{last}/{len(content)}"]:
                return [f"Content-Range is {response.lines('content-range')}, not {first}-{last}"]
            return [] if response.content == content[first:last + 1] else ["the part isn't of the stored content"]
        if response.status != base.response.status:
            return [f"the status {base.response.status} became {response.status}"]
        if request.method == "HEAD":
            length = response.lines("content-length")
            known = [[], base.response.lines("content-length")] + [[str(len(content))]] * (base.request.method == "GET")
            return [] if length in known else [f"Content-Length is {length}"]
        return [] if response.content == content else [f"the content isn't that of {base.mark}"]


@dataclass
class Way:
    """A client's request, its response, and the hops on its way."""

    exchange: Exchange
    hops: list[Hop]
    # What the client's own program says of the response: its status and its content.
    status: int
    content: bytes
    client: str = ""
    kinds: list[str] = field(default_factory=list)


OWN_STATUSES = {200, 400, 416, 417, 501, 502, 504, 508}


def check_ways(ways: list[Way], record: list[Exchange], origin: int) -> tuple[list[Found], Counter[str]]:
    """Each response that a client got, by the records of the clients and of the origin server alone."""
    asked = {it.exchange.mark: it for it in ways}
    answers = {answer_number(it.response): it for it in record if it.link == origin and it.response}
    at_origin = [it for it in record if it.link == origin]
    found, kinds = [], Counter()
    for way in ways:
        kind, texts = check_way(way, asked, answers, at_origin)
        kinds[kind] += 1
        found += [Found("the whole way", way.exchange, it) for it in texts]
    return found, kinds


def check_way(way: Way, asked: dict[str, Way], answers: dict[str | None, Exchange],
              at_origin: list[Exchange]) -> tuple[str, list[str]]:
    request, response = way.exchange.request, way.exchange.response
    # (a cache has conditions of its own)
    own = {"close", "keep-alive", "te", "upgrade"} | CONDITIONS
    texts = []
    for it in (it for it in at_origin if it.mark == way.exchange.mark):
        texts += [f"{name} reached the origin server" for name in request.options()
                  if name not in own and it.request.lines(name)]
        names = [entry.split(" ")[1] for entry in via_members(it.request)[len(via_members(request)):]]
        if names != [hop.name for hop in way.hops]:
            texts.append(f"Via of the request is {names}")
    if response is None:
        return "no response", texts if any(it.response is None for it in at_origin if it.mark == way.exchange.mark) \
            else ["no response"]
    if (way.status, way.content) != (response.status, response.content):
        texts.append(f"curl got {way.status}, {way.content[:60]!r}")
    if response.lines("x-hop"):
        texts.append("X-Hop, a field of the origin server's connection, reached the client")
    marks = {it for it in MARK.findall(f"{response.fields} {response.content!r}")} - {way.client}
    source = answers.get(answer_number(response)) if answer_number(response) else None
    if source is None:
        if response.status not in OWN_STATUSES:
            texts.append(f"{response.status} is no answer of a gateway or a cache")
        texts += [f"an own answer has the mark of {it}" for it in sorted(marks)]
        return "own answer", texts
    names = [entry.split(" ")[1] for entry in via_members(response)]
    if names != [hop.name for hop in reversed(way.hops)]:
        texts.append(f"Via of the response is {names}")
    if source.mark == way.exchange.mark:
        kind = "the origin server's answer" if source.response.status == response.status else "validated"
    else:
        kind = "stored"
        texts += stored_earlier(way, source, asked, at_origin)
    if kind != "the origin server's answer":
        texts += content_came(way, source, at_origin)
    elif source.response.content != response.content:
        texts.append("the content isn't what the origin server sent")
    owners = {asked[it.mark].client: it for it in at_origin if it.mark in asked and it.order <= way.exchange.ended
              and key_of(it.request) == key_of(request) and it.response and not is_personal(it)}
    texts += [f"the mark of another client, {it}" for it in sorted(marks - {*owners})]
    if marks and kind == "the origin server's answer":
        texts.append(f"the answer to its own request has the mark of {sorted(marks)}")
    return kind, texts


def is_personal(exchange: Exchange) -> bool:
    """Whether no shared cache may store an answer."""
    return may_be_stored(exchange.request.method, exchange.request.fields, 200, exchange.response.fields,
                         True) is not None


def stored_earlier(way: Way, source: Exchange, asked: dict[str, Way], at_origin: list[Exchange]) -> list[str]:
    """What must hold of an answer to another request, if it answers this one."""
    request, response, texts = way.exchange.request, way.exchange.response, []
    other = asked.get(source.mark)
    if key_of(source.request) != key_of(request):
        texts.append("it is about another target")
    if request.method not in ("GET", "HEAD"):
        texts.append(f"a stored response answers {request.method}")
    if other is None:
        return [*texts, "nobody made the request that it answered"]
    names = tokens(source.response.lines("vary"))
    if differs := varies(names, end_to_end(other.exchange.request), end_to_end(request)):
        texts.append(f"Vary: {differs} differs from that of {source.mark}")
    if source.response.status != 304 and source.request.method == "GET" and other.client != way.client:
        why = may_be_stored("GET", source.request.fields, source.response.status, source.response.fields, True)
        texts += [f"it may not be for another client: {why}"] if why else []
    told, least = response.lines("age"), way.exchange.asked - source.received
    if len(told) != 1 or not told[0].isdigit() or int(told[0]) < least:
        texts.append(f"Age is {told}, though it was sent {least} seconds ago")
    caches = {it.name for it in way.hops if it.kind != GATE}
    for it in at_origin:
        through = asked.get(it.mark)
        # (if a gateway rejected the response, the caches before it don't know that the request succeeded)
        if (through and changes_state(it) and changes_state(through.exchange)
                and it.order > source.order and it.ended < way.exchange.order
                and key_of(it.request) == key_of(request) and caches <= {hop.name for hop in through.hops}):
            return [*texts, f"{it.request.method} of {it.mark} came after it"]
    return texts


def content_came(way: Way, source: Exchange, at_origin: list[Exchange]) -> list[str]:
    """The content is one that the origin server sent for the target, no later than the answer that was used."""
    response = way.exchange.response
    if way.exchange.request.method == "HEAD" or response.status in (304, 416):
        return []
    sent = [it.response.content for it in at_origin if it.response and it.order <= source.order
            and key_of(it.request) == key_of(way.exchange.request)]
    whole = response.content in sent
    part = response.status == 206 and any(response.content in it for it in sent)
    return [] if whole or part else ["a content that the origin server never sent"]
