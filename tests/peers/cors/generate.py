"""Pairs of policies and requests, at random and some by hand."""
import random
from collections.abc import Iterable
from dataclasses import dataclass

from common.server import ByteFields
from cors import fetch
from cors.policy import Policy

PAGE, PAGE2, TARGET, TARGET2 = 18080, 18081, 18090, 18091
# The pages by their origins. `sandbox` and `data` have opaque ones, which serialize to `null`.
PAGES = {
    "ip": f"http://127.0.0.1:{PAGE}",
    "port": f"http://127.0.0.1:{PAGE2}",
    "default": "http://127.0.0.1",
    "name": f"http://localhost:{PAGE}",
    "sub": f"http://a.localhost:{PAGE}",
    "underscore": f"http://x_y.localhost:{PAGE}",
    "idn": f"http://xn--bcher-kva.localhost:{PAGE}",
    "sandbox": "null",
    "data": "null",
}
TARGETS = [f"http://127.0.0.1:{TARGET}", f"http://127.0.0.1:{TARGET2}"]

Pairs = list[tuple[str, str]]


@dataclass
class Hop:
    """Where a request goes: the policy there, the statuses, and the fields of the handler's response."""

    base: str
    policy: Policy
    status: int
    preflight_status: int
    own: Pairs

    def section(self) -> ByteFields:
        return [(name.encode(), value.encode()) for name, value in self.own]


@dataclass
class Case:
    """A request of a page: by `fetch`, or by `xhr` with an upload listener, so that a preflight is always sent. Each
    hop but the last redirects."""

    id: int
    group: str
    context: str
    api: str
    method: str
    headers: Pairs
    credentials: str
    body: str | None
    hops: list[Hop]


METHODS = [
    "GET", "GET", "GET", "HEAD", "POST", "POST", "PUT", "PUT", "DELETE", "PATCH", "patch", "Patch", "OPTIONS", "put",
    "get", "delete", "PROPFIND", "M-SEARCH", "chicken", "QUERY", "!#$%&'*+-.^_`|~", "*",
]
LONG = "a" * 128
HEADERS = [
    ("Accept", "text/html"), ("Accept", "*/*;q=0.5"), ("Accept", LONG), ("Accept", LONG + "a"), ("Accept", "a(b)"),
    ("accept", "image/*;x={}"), ("Accept-Language", "de, en;q=0.5"), ("Accept-Language", "de_DE"),
    ("Accept-Language", LONG + "a"), ("Content-Language", "en"), ("Content-Language", "en@x"),
    ("Content-Type", "text/plain"), ("Content-Type", "text/plain;charset=UTF-8"), ("Content-Type", "TEXT/PLAIN"),
    ("Content-Type", "application/json"), ("Content-Type", "multipart/form-data; boundary=x"),
    ("Content-Type", "application/x-www-form-urlencoded"), ("Content-Type", 'text/plain; charset="utf-8"'),
    ("Content-Type", "text/plain; x=" + LONG), ("Content-Type", "text/xml"), ("Content-Type", "text/plain, text/html"),
    ("Range", "bytes=0-"), ("Range", "bytes=0-100"), ("Range", "bytes=-5"), ("Range", "bytes=0-1,3-4"),
    ("Range", "bytes=5-1"), ("Range", "bytes= 0-1"), ("Authorization", "Basic YTpi"), ("authorization", "Bearer x"),
    ("X-A", "1"), ("x-a", "1"), ("X-B", "2"), ("X-C", ""), ("X-Requested-With", "XMLHttpRequest"),
    ("If-None-Match", '"x"'), ("If-Modified-Since", "Sun, 06 Nov 1994 08:49:37 GMT"), ("Cache-Control", "no-cache"),
    ("Pragma", "no-cache"), ("!#$%&'*+-.^_`|~x", "odd"), ("*", "star"), ("X-HTTP-Method-Override", "PUT"),
    ("Content-Disposition", "inline"), ("Last-Event-ID", "1"), ("Cookie", "a=b"),
    ("Access-Control-Request-Method", "PUT"), ("Sec-Foo", "1"), ("Access-Control-Foo", "1"),
]
# Fields of the handler's response.
OWN = [
    ("X-A", "a"), ("X-B", "b"), ("x-lower", "c"), ("ETag", '"t"'), ("Content-Language", "en"),
    ("Expires", "Sun, 06 Nov 1994 08:49:37 GMT"), ("Last-Modified", "Sun, 06 Nov 1994 08:49:37 GMT"),
    ("Pragma", "no-cache"), ("Set-Cookie", "a=b"), ("Set-Cookie2", "a=b"), ("Accept-Ranges", "bytes"),
    ("Server", "judge"), ("Date", "Sun, 06 Nov 1994 08:49:37 GMT"), ("X-Odd!#$%&'*+.^_`|~", "odd"), ("X-A", "again"),
    ("Authorization", "x"), ("Access-Control-Foo", "x"), ("X-Empty", ""),
]
VARY = [[], [], [], ["accept-encoding"], ["Origin"], ["*"], ["accept, ORIGIN"], ["accept", "accept-encoding"]]


def other_case(draw: random.Random, text: str) -> str:
    return draw.choice([text, text.lower(), text.upper(), text.title(), text.swapcase()])


def near_origins(origin: str) -> list[str]:
    """Texts that aren't the origin, and look like it."""
    texts = [
        "https://127.0.0.1:18080", "http://127.0.0.1:18082", "http://127.0.0.1", "http://127.0.0.1:81", "null",
        "http://localhost", "http://localhost:18081", "http://127.0.0.2:18080", "http://b.localhost:18080",
        "http://evil.example", "http://0.0.0.0:18080", "http://127.0.0.1:1808",
    ]
    return [text for text in texts if text != origin]


def draw_policy(draw: random.Random, origin: str, includes: bool, method: str, unsafe: list[str], own: Pairs) -> Policy:
    origins = draw.choices(
        ["any", "own", "among", "near", "none"], [20, 40, 15, 20, 5] if not includes else [8, 55, 20, 14, 3]
    )[0]
    near = draw.sample(near_origins(origin), draw.randint(1, 4))
    listed = {"any": "*", "own": [origin], "among": near + [origin], "near": near, "none": []}[origins]
    if isinstance(listed, list):
        draw.shuffle(listed)

    any_weight = 20 if not includes else 6
    others = draw.sample(["PUT", "DELETE", "PURGE", "PATCH", "GET"], draw.randint(0, 3))
    kind = draw.choices(["any", "has", "case", "others", "none"], [any_weight, 50, 10, 12, 8])[0]
    has = [] if method == "*" else [method]
    swapped = [text for text in [method.swapcase()] if text not in (method, "*")]
    methods = {"any": "*", "has": others + has, "case": swapped + [m for m in others if m != method],
               "others": [m for m in others if m != method], "none": []}[kind]

    others = draw.sample(["X-Z", "content-type", "authorization", "if-range", "X-A"], draw.randint(0, 3))
    wanted = [other_case(draw, name) for name in unsafe if name != "*"]
    kind = draw.choices(["any", "has", "misses", "others", "none"], [any_weight, 55, 12, 8, 8])[0]
    missing = wanted[:]
    if missing:
        missing.pop(draw.randrange(len(missing)))
    names = {"any": "*", "has": others + wanted, "misses": missing, "others": others, "none": []}[kind]

    kind = draw.choices(["any", "some", "none"], [any_weight, 60, 20])[0]
    names_sent = sorted({name for name, _ in own})
    some = [other_case(draw, name) for name in draw.sample(names_sent, draw.randint(0, len(names_sent)))]
    some += draw.sample(["X-None", "content-type", "set-cookie"], draw.randint(0, 2))
    exposed = {"any": "*", "some": some, "none": []}[kind]

    has_any = "*" in [v for v in (listed, methods, names, exposed) if isinstance(v, str)]
    credentials = draw.random() < (0.05 if has_any else 0.75 if includes else 0.4)
    max_age = draw.choice([None, None, 0, 5, 600, 86400])
    return Policy(listed, methods, names, exposed, credentials, max_age)


def draw_headers(draw: random.Random) -> Pairs:
    count = draw.choices([0, 1, 2, 3, 5], [35, 30, 20, 10, 5])[0]
    headers, seen = [], set()
    for name, value in draw.sample(HEADERS, count):
        if name.lower() not in seen:
            seen.add(name.lower())
            headers.append((name, value))
    return headers


def draw_own(draw: random.Random) -> Pairs:
    own = draw.sample(OWN, draw.randint(0, 7))
    own += [("Vary", value) for value in draw.choice(VARY)]
    return [("Cache-Control", "no-store"), ("Content-Type", "text/plain")] + own


def sent_fields(case: Case) -> ByteFields:
    """The fields of the request's header list: forbidden ones are dropped, a text has a type."""
    kept = [
        (name.encode(), value.strip(" \t\r\n").encode()) for name, value in case.headers
        if not fetch.is_forbidden_request_field(name.encode(), value.encode())
    ]
    if case.body is not None and not any(name.lower() == b"content-type" for name, _ in kept):
        kept.append((b"Content-Type", b"text/plain;charset=UTF-8"))
    return kept


def draw_route(draw: random.Random, context: str, redirects: bool) -> list[str]:
    if not redirects:
        return [draw.choice(TARGETS)]
    own = PAGES[context]
    choices = TARGETS + ([own] if own != "null" else [])
    return [draw.choice(choices) for _ in range(draw.choice([2, 2, 2, 3]))]


def letting_through(draw: random.Random, policy: Policy, origin: str, includes: bool, method: str, unsafe: list[str],
                    ) -> Policy:
    """A policy that lets the request through, so that later hops are reached."""
    return Policy(
        origins=[origin] if includes or draw.random() < 0.7 else "*", methods=[method] if method != "*" else [],
        names=[name for name in unsafe if name != "*"],
        exposed=[] if includes and policy.exposed == "*" else policy.exposed,
        credentials=policy.credentials or includes, max_age=policy.max_age)


def draw_case(draw: random.Random, number: int, redirects: bool) -> Case:
    context = draw.choices(list(PAGES), [40, 10, 6, 10, 8, 6, 6, 8, 6])[0]
    api = "xhr" if draw.random() < 0.08 else "fetch"
    method = draw.choice(METHODS if draw.random() < 0.75 else ["GET", "POST"])
    normal = fetch.normalized_method(method.encode()).decode()
    has_body = normal not in ("GET", "HEAD") and (api == "xhr" or draw.random() < 0.5)
    credentials = draw.choices(["omit", "include", "same-origin"], [45, 45, 10])[0]
    if api == "xhr" and credentials == "omit":
        credentials = "same-origin"
    case = Case(number, "redirect" if redirects else api, context, api, method, draw_headers(draw), credentials,
                "body" if has_body else None, [])
    includes, is_tainted, last = credentials == "include", False, None
    unsafe = [name.decode() for name in fetch.unsafe_names(sent_fields(case))]
    bases = draw_route(draw, context, redirects)
    for place, base in enumerate(bases):
        # (the origin that the hop sees, so that its policy is about it)
        is_tainted = is_tainted or (last is not None and base != last and last != PAGES[context])
        last = base
        origin = "null" if is_tainted else PAGES[context]
        own = draw_own(draw)
        policy = draw_policy(draw, origin, includes, normal, unsafe, own)
        if redirects and draw.random() < 0.6:
            policy = letting_through(draw, policy, origin, includes, normal, unsafe)
        is_last = place == len(bases) - 1
        status = draw.choices([200, 200, 201, 404, 500, 206, 203], [60, 10, 5, 10, 5, 5, 5])[0] if is_last else (
            draw.choice([301, 302, 303, 307, 307, 308]))
        preflight = draw.choices([204, 200, 299, 206, 301, 403, 404, 500, 304], [70, 15, 3, 2, 2, 2, 2, 2, 2])[0]
        case.hops.append(Hop(base, policy, status, preflight, own))
    return case


def by_hand() -> list[tuple[str, str, str, Pairs, str, str | None, Policy]]:
    """Cases that chance would seldom make: (context, api, method, headers, credentials, body, policy)."""
    own = PAGES["ip"]
    rows = []

    def row(policy: Policy, method: str = "GET", headers: Iterable[tuple[str, str]] = (), credentials: str = "omit",
            body: str | None = None, context: str = "ip", api: str = "fetch") -> None:
        rows.append((context, api, method, list(headers), credentials, body, policy))

    # a star never stands for `authorization`
    row(Policy(names="*"), headers=[("Authorization", "Basic YTpi")])
    row(Policy(names="*"), headers=[("Authorization", "Basic YTpi"), ("X-A", "1")])
    row(Policy(names=["authorization"]), headers=[("Authorization", "Basic YTpi")])
    row(Policy(names="*"), headers=[("X-A", "1")])
    row(Policy(names="*"), headers=[("*", "1")])
    row(Policy(names=["X-A"]), headers=[("*", "1")])
    row(Policy(methods="*"), method="*")
    row(Policy(methods=["PUT"]), method="*")
    # wildcards and requests with credentials
    row(Policy(), credentials="include")
    row(Policy(origins=[own]), credentials="include")
    row(Policy(origins=[own], credentials=True), credentials="include")
    row(Policy(origins=[own], exposed="*"), credentials="same-origin")
    row(Policy(origins=[own], methods="*", names="*", exposed="*"), method="PUT", headers=[("X-A", "1")])
    row(Policy(origins=[own], methods="*", names="*", exposed="*"), method="PUT", credentials="include")
    # no method is listed: an upload listener grants none
    for method in ("GET", "HEAD", "POST", "PUT", "patch", "DELETE"):
        row(Policy(), method=method, api="xhr", credentials="same-origin",
            body=None if method in ("GET", "HEAD") else "x")
        row(Policy(methods=[method]), method=method, api="xhr", credentials="same-origin",
            body=None if method in ("GET", "HEAD") else "x")
    # case of methods
    for listed in ("patch", "PATCH"):
        for sent in ("patch", "PATCH", "Patch"):
            row(Policy(methods=[listed]), method=sent)
    for listed in ("put", "PUT"):
        for sent in ("put", "PUT"):
            row(Policy(methods=[listed]), method=sent)
    # sizes at the brink
    for size in (127, 128, 129):
        for name in ("Accept", "Accept-Language", "Content-Language"):
            row(Policy(), headers=[(name, "a" * size)])
    row(Policy(), method="POST", body="x", headers=[("Content-Type", "text/plain;" + "a" * (128 - 11))])
    row(Policy(), method="POST", body="x", headers=[("Content-Type", "text/plain;" + "a" * (129 - 11))])
    row(Policy(names=["content-type"]), method="POST", body="x",
        headers=[("Content-Type", "text/plain;" + "a" * (129 - 11))])
    for value in ("bytes=0-", "bytes=0-0", "bytes=10-1", "bytes=-1", "bytes=0-1,2-3", "bytes=0-1 ", "BYTES=0-1",
                  "bytes=00-01", "bytes =0-1", "bytes", "bytes=" + "9" * 30 + "-"):
        row(Policy(), headers=[("Range", value)])
        row(Policy(names=["range"]), headers=[("Range", value)])
    # each name of what a script may read, alone
    for name, _ in OWN:
        row(Policy(exposed=[name.upper()]))
    row(Policy(exposed="*"))
    row(Policy(exposed=["set-cookie", "Set-Cookie2", "x-a"]))
    # names that some browsers take for safe, and the standard doesn't
    for name, value in (("DPR", "1.0"), ("Save-Data", "on"), ("Width", "100"), ("Viewport-Width", "100"),
                        ("Device-Memory", "1"), ("RTT", "1"), ("Downlink", "1"), ("ECT", "4g"),
                        ("User-Agent", "x"), ("Purpose", "prefetch"), ("Upgrade-Insecure-Requests", "1"),
                        ("X-XSRF-TOKEN", "x"), ("Referer", "x"), ("Origin", "null"), ("Intervention", "x"),
                        ("Priority", "u=1"), ("Accept-Charset", "x"), ("Content-Encoding", "gzip")):
        row(Policy(), headers=[(name, value)])
        row(Policy(names=[name]), headers=[(name, value)])
    # opaque origins
    for context in ("sandbox", "data"):
        for policy in (Policy(), Policy(origins=["null"]), Policy(origins=["null"], credentials=True),
                       Policy(origins=[own]), Policy(origins=[own, "null"], methods=["PUT"])):
            for credentials in ("omit", "include"):
                row(policy, context=context, credentials=credentials)
                row(policy, method="PUT", context=context, credentials=credentials)
    # a default port is left out
    row(Policy(origins=["http://127.0.0.1"]), context="default")
    row(Policy(origins=["http://127.0.0.1:80"]), context="default")
    # many and long values
    row(Policy(origins=[f"http://o{n}.example" for n in range(500)] + [own]))
    row(Policy(methods=[f"M{n}" for n in range(500)] + ["ZAP"]), method="ZAP")
    row(Policy(names=[f"x-n{n}" for n in range(500)] + ["x-zap"]), headers=[("X-Zap", "1")])
    row(Policy(exposed=[f"x-n{n}" for n in range(500)] + ["x-a"]))
    row(Policy(methods=["PUT"], max_age=2**64 - 1), method="PUT")
    return rows


def cases(seed: int, plain: int, redirects: int) -> list[Case]:
    draw = random.Random(seed)
    made: list[Case] = []
    for context, api, method, headers, credentials, body, policy in by_hand():
        own = [("Cache-Control", "no-store"), ("Content-Type", "text/plain"), *OWN]
        hop = Hop(TARGETS[0], policy, 200, 204, own)
        made.append(Case(len(made), "by-hand", context, api, method, headers, credentials, body, [hop]))
    for count, has_redirects in ((plain, False), (redirects, True)):
        made += [draw_case(draw, len(made) + number, has_redirects) for number in range(count)]
    return made
