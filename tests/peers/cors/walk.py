"""What is to come of a case, in two ways: by the rules of its policies alone (`Rules`), and by the standard's
algorithm over the field lines that ours answers (`Lines`). Both follow redirects as the standard's "HTTP-redirect
fetch".
"""
from collections.abc import Callable, Collection
from dataclasses import dataclass

from common.server import ByteFields
from cors import fetch, ours
from cors import policy as model
from cors.generate import PAGES, Case, Hop, sent_fields


@dataclass
class Asked:
    """A request as a policy sees it: the page's origin, and whether credentials are included."""

    origin: bytes
    includes: bool
    method: bytes
    fields: ByteFields
    is_forced: bool
    quirks: Collection[str]


class Rules:
    """What the policy allows."""

    def preflight(self, hop: Hop, asked: Asked) -> bool:
        if not 200 <= hop.preflight_status <= 299:
            return False
        unsafe = [name.decode() for name in fetch.unsafe_names(asked.fields, asked.quirks)]
        star = "star-covers-authorization" in asked.quirks
        return model.allows_request(
            hop.policy, asked.origin.decode(), asked.includes, asked.method.decode(), unsafe, star)

    def check(self, hop: Hop, asked: Asked) -> bool:
        return model.allows_share(hop.policy, asked.origin.decode(), asked.includes)

    def names(self, hop: Hop, asked: Asked, wire: ByteFields) -> set[bytes]:
        return {name.lower() for name, _ in wire if model.exposes(hop.policy, name.decode())}


class Lines:
    """The standard, by the field lines that ours answers."""

    def preflight(self, hop: Hop, asked: Asked) -> bool:
        request = [(b"origin", asked.origin), (b"access-control-request-method", asked.method)]
        names = fetch.unsafe_names(asked.fields, asked.quirks)
        if names:
            request.append((b"access-control-request-headers", b",".join(names)))
        lines = model.applied(ours.answer(hop.policy, b"OPTIONS", request, []), [])
        return fetch.preflight_passes(hop.preflight_status, lines, asked.origin, asked.includes, asked.method,
                                      asked.fields, asked.is_forced, asked.quirks)

    def check(self, hop: Hop, asked: Asked) -> bool:
        own = hop.section()
        answer = ours.answer(hop.policy, asked.method, [(b"origin", asked.origin), *asked.fields], own)
        return fetch.cors_check(model.applied(answer, own), asked.origin, asked.includes)

    def names(self, hop: Hop, asked: Asked, wire: ByteFields) -> set[bytes]:
        return fetch.readable_names(wire, asked.includes)


def goes_home_unasked(hop: Hop, home: str, asked: Asked) -> bool:
    """Firefox doesn't check the origin in the answer to a preflight that goes to the page's own origin."""
    return ("preflight-names-page" in asked.quirks and hop.base == home and 200 <= hop.preflight_status <= 299
            and not fetch.needs_preflight(asked.method, asked.fields, False, asked.quirks))


# A request that a browser sends: the place of the hop, the method, and the origin that it names.
Trace = list[tuple[int, str, str | None]]
Shown = Callable[[ByteFields], set[bytes]]


def redirected(status: int, method: bytes, fields: ByteFields) -> tuple[bytes, ByteFields]:
    if (status in (301, 302) and method == b"POST") or (status == 303 and method not in (b"GET", b"HEAD")):
        return b"GET", [(name, value) for name, value in fields if name.lower() not in fetch.BODY_NAMES]
    return method, fields


def walk(case: Case, judge: Rules | Lines, quirks: Collection[str] = ()) -> tuple[Trace, Shown | None]:
    """The requests that a browser sends, and, if it lets the script read the last answer, which names of the fields on
    the wire the script may read."""
    home = PAGES[case.context]
    method, fields = fetch.normalized_method(case.method.encode()), sent_fields(case)
    is_forced = case.api == "xhr" and ("bodiless-upload" not in quirks or case.body is not None)
    if "preflight-sticks" in quirks:
        is_forced = fetch.needs_preflight(method, fields, is_forced, quirks)
    trace: Trace = []
    is_tainted, has_crossed, last = False, False, None
    asked = Asked(home.encode(), case.credentials == "include", method, fields, is_forced, quirks)
    for place, hop in enumerate(case.hops):
        if last is not None and hop.base != last:
            fields = [(name, value) for name, value in fields if name.lower() != b"authorization"]
            is_tainted = is_tainted or last != home
        has_crossed = has_crossed or hop.base != home
        origin = b"null" if is_tainted else home.encode()
        asked = Asked(origin, asked.includes, method, fields, is_forced, quirks)
        if has_crossed:
            if fetch.needs_preflight(method, fields, is_forced, quirks):
                asking = home.encode() if "preflight-names-page" in quirks else origin
                before = Asked(asking, asked.includes, method, fields, is_forced, quirks)
                trace.append((place, "OPTIONS", asking.decode()))
                if not (judge.preflight(hop, before) or goes_home_unasked(hop, home, before)):
                    return trace, None
            trace.append((place, method.decode(), origin.decode()))
            if not judge.check(hop, asked):
                return trace, None
        else:
            trace.append((place, method.decode(), None))
        if place < len(case.hops) - 1:
            method, fields = redirected(hop.status, method, fields)
        last = hop.base
    final = case.hops[-1]
    if not has_crossed:
        return trace, lambda wire: {name.lower() for name, _ in wire} - set(fetch.FORBIDDEN_RESPONSE_NAMES)
    return trace, lambda wire: judge.names(final, asked, wire)
