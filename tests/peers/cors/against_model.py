"""The library beside the second reading of its page, and the Fetch standard over the library's field lines beside the
rules, for many policies and requests, without a browser."""
import random

from common.comparison import Comparison
from common.server import ByteFields
from cors import fetch, generate, ours
from cors import policy as model
from cors.policy import Policy

ORIGINS = ["http://127.0.0.1:18080", "null", "https://a.example", "http://a.example", "https://b.example:8443"]
# Origins that no browser sends, for rules.
UNSENT = ["https://A.example", "https://a.example:443", "http://a.example:80", "https://*.example",
          "https://u@a.example", "http://127.1", "http://0x7f.1:81", "http://[0:0:0:0:0:0:0:1]", "wss://a.example",
          "https://a.example:99999", "https://a.example:", "https://a.example:0443"]
NAMES = ["x-a", "X-B", "content-type", "Authorization", "range", "etag", "set-cookie"]
VARY = ["origin", "Origin", "*", "accept", "", "a,b", "x-origin", " accept , ORIGIN ", "accept;origin", "a, *",
        '"origin"',
        "origin-x", ",,", "*x", '"a, origin"', 'a", origin', '"a\\", origin", b', '"\xe9", origin', "\xe9, *",
        '"\\\xe9"']


def draw_policy(draw: random.Random) -> Policy:
    origin = draw.choice(ORIGINS)
    policy = generate.draw_policy(draw, origin, draw.random() < 0.4, draw.choice(["PUT", "PATCH", "x"]),
                                  draw.sample(NAMES, 2), [(name, "") for name in NAMES])
    if draw.random() < 0.05 and isinstance(policy.origins, list):
        policy.origins.append(draw.choice(UNSENT))
    if draw.random() < 0.03:
        lists = [it for it in policy.lists()[1:] if isinstance(it, list)]
        if lists:
            draw.choice(lists).append("*")
    # (in the texts of the library for C one star is any value)
    for name in ("methods", "names", "exposed"):
        if getattr(policy, name) == ["*"]:
            setattr(policy, name, "*")
    return policy


def draw_request(draw: random.Random, policy: Policy) -> tuple[bytes, ByteFields, ByteFields]:
    """A method and fields as no browser would send them, and the fields of the response."""
    listed = policy.origins if isinstance(policy.origins, list) and policy.origins else ORIGINS
    fields = []
    for _ in range(draw.choice([0, 1, 1, 1, 1, 1, 2])):
        origin = draw.choice(listed)
        value = draw.choice([origin, origin, origin, draw.choice(ORIGINS), "", "*", origin.upper(), origin + "/"])
        fields.append((draw.choice([b"Origin", b"origin", b"ORIGIN"]), value.encode()))
    for _ in range(draw.choice([0, 0, 1, 1, 2])):
        fields.append((b"Access-Control-Request-Method", draw.choice([b"PUT", b"", b"GET"])))
    for _ in range(draw.choice([0, 1, 2])):
        fields.append((draw.choice([b"X-A", b"access-control-request-headers", b"cookie"]), b"x-a"))
    draw.shuffle(fields)
    response = [(draw.choice([b"Vary", b"vary"]), draw.choice(VARY).strip(" \t").encode("latin-1"))
                for _ in range(draw.choice([0, 0, 1, 1, 2, 3]))]
    if draw.random() < 0.3:
        response.append((b"access-control-allow-origin", b"*"))
    return draw.choice([b"GET", b"OPTIONS", b"OPTIONS", b"PUT", b"options"]), fields, response


def answer(policy: Policy, method: bytes, request: ByteFields, response: ByteFields,
           ) -> tuple[str, bool, ByteFields] | None:
    try:
        return ours.answer(policy, method, request, response).comparable()
    except ours.Refused:
        return None


def hold_to_standard(draw: random.Random, policy: Policy, response: ByteFields, comparison: Comparison) -> None:
    """What a browser makes of the field lines, by the standard, and what the rules allow."""
    origin, includes, is_forced = draw.choice(ORIGINS), draw.random() < 0.4, draw.random() < 0.2
    method = draw.choice(["GET", "POST", "PUT", "PATCH", "x", "*"])
    sent = [(name.encode(), b'v"') for name in draw.sample([*NAMES, "*"], draw.randint(0, 3))]
    named = (b"origin", origin.encode())

    def shown() -> str:
        return f"{policy}, {origin}, includes {includes}, {method}, {sent}, {response}"

    asked = [named, (b"access-control-request-method", method.encode())]
    lines = model.applied(ours.answer(policy, b"OPTIONS", asked, response), response)
    passes = fetch.preflight_passes(204, lines, named[1], includes, method.encode(), sent, is_forced)
    unsafe = [name.decode() for name in fetch.unsafe_names(sent)]
    comparison.add("preflight", [model.allows_request(policy, origin, includes, method, unsafe)], passes, shown)
    lines = model.applied(ours.answer(policy, b"GET", [named], response), response)
    is_read = fetch.cors_check(lines, named[1], includes)
    comparison.add("CORS check", [model.allows_share(policy, origin, includes)], is_read, shown)
    if is_read:
        for name in [*NAMES, "vary", "cache-control"]:
            is_shown = name.lower().encode() in fetch.readable_names([*lines, (name.encode(), b"")], includes)
            comparison.add("exposed field", [model.exposes(policy, name)], is_shown, shown)


def compare(seed: int, count: int) -> Comparison:
    draw, comparison = random.Random(seed), Comparison()
    for _ in range(count):
        policy = draw_policy(draw)
        request = draw_request(draw, policy)
        wanted = model.answer(policy, *request).comparable() if model.is_lawful(policy) else None
        given = answer(policy, *request)
        comparison.add("answer", [wanted], given, lambda: f"{policy}, {request}")
        if given is not None:
            hold_to_standard(draw, policy, request[2], comparison)
    return comparison
