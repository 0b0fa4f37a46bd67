"""A second reading of crates/decide_cors/README.md, from the page alone: which rules make a policy, what a policy lets
a browser do, and the field lines of its answer."""
import re
from collections.abc import Iterable
from dataclasses import asdict, dataclass, field
from ipaddress import IPv6Address
from typing import Any, Literal

from common.fields import members
from common.server import ByteFields

SAFE_METHODS = ("GET", "HEAD", "POST")
SAFE_FIELDS = ("cache-control", "content-language", "content-length", "content-type", "expires", "last-modified",
               "pragma")
SIX = ("access-control-allow-origin", "access-control-allow-credentials", "access-control-expose-headers",
       "access-control-allow-methods", "access-control-allow-headers", "access-control-max-age")
# The greatest age that is written.
MAX_AGE = 2**31 - 1
DEFAULT_PORTS = {"ftp": 21, "http": 80, "https": 443}

# Any value, or the listed ones.
Allowed = Literal["*"] | list[str]


@dataclass
class Policy:
    origins: Allowed = "*"
    methods: Allowed = field(default_factory=list)
    names: Allowed = field(default_factory=list)
    exposed: Allowed = field(default_factory=list)
    credentials: bool = False
    max_age: int | None = None

    def with_(self, **changes: Any) -> "Policy":
        return Policy(**{**asdict(self), **changes})

    def lists(self) -> list[Allowed]:
        return [self.origins, self.methods, self.names, self.exposed]


def is_sent(origin: str) -> bool:
    """Whether browsers send such an origin, as the URL standard serializes it."""
    if origin == "null":
        return True
    scheme, mark, host = origin.partition("://")
    # (the case of these two schemes is put right)
    scheme = scheme.lower() if scheme.lower() in ("http", "https") else scheme
    if not mark or not re.fullmatch("[a-z][a-z0-9+.-]*", scheme) or scheme in ("ws", "wss", "file"):
        return False
    if ":" in host and not host.endswith("]"):
        host, _, port = host.rpartition(":")
        if not re.fullmatch("0|[1-9][0-9]*", port) or int(port) > 65535 or int(port) == DEFAULT_PORTS.get(scheme):
            return False
    return is_sent_host(host)


def is_sent_host(host: str) -> bool:
    if host.startswith("["):
        try:
            groups = [f"{int(group, 16):x}" for group in IPv6Address(host[1:-1]).exploded.split(":")]
        except ValueError:
            return False
        run = max((re.findall("(?:^|(?<=:))0(?::0)+(?![^:])", ":".join(groups))), key=len, default="")
        before, _, after = ":".join(groups).partition(run) if run else (":".join(groups), "", "")
        return host == f"[{before[:-1]}::{after[1:]}]" if run else host == f"[{before}]"
    if not re.fullmatch("[!-~]+", host) or re.search(r"[A-Z*%#/:<>?@\[\\\]^|]", host):
        return False
    if re.fullmatch("[0-9]+|0x[0-9a-f]*", host.removesuffix(".").rpartition(".")[2]):
        parts = host.split(".")
        return len(parts) == 4 and all(re.fullmatch("0|[1-9][0-9]*", it) and int(it) < 256 for it in parts)
    return True


def is_lawful(policy: Policy) -> bool:
    if policy.credentials and "*" in [it for it in policy.lists() if isinstance(it, str)]:
        return False
    if any(isinstance(it, list) and "*" in it for it in policy.lists()[1:]):
        return False
    return isinstance(policy.origins, str) or all(map(is_sent, policy.origins))


def allows_origin(policy: Policy, origin: str) -> bool:
    return policy.origins == "*" or origin in policy.origins


def allows_share(policy: Policy, origin: str, includes: bool) -> bool:
    """Whether a script of the origin may read a response. `includes`: the request includes credentials."""
    return allows_origin(policy, origin) and (not includes or policy.credentials)


def allows_request(policy: Policy, origin: str, includes: bool, method: str, unsafe: Iterable[str],
                   star_covers_authorization: bool = False) -> bool:
    """What a preflight is to let through. With the last argument as browsers have it, in place of the standard."""
    if not allows_share(policy, origin, includes):
        return False
    if method not in SAFE_METHODS and policy.methods != "*" and method not in policy.methods:
        return False
    if policy.names == "*":
        return star_covers_authorization or "authorization" not in map(str.lower, unsafe)
    listed = set(map(str.lower, policy.names))
    return all(name.lower() in listed for name in unsafe)


def exposes(policy: Policy, name: str) -> bool:
    """Whether a script may read a field of a response that it may read."""
    name = name.lower()
    if name in SAFE_FIELDS:
        return True
    if name in ("set-cookie", "set-cookie2"):
        return False
    return policy.exposed == "*" or name in map(str.lower, policy.exposed)


@dataclass
class Answer:
    """The kind of the request, whether its origin is allowed, and the lines to add: those of Vary in place of the
    response's."""

    kind: str
    is_allowed: bool
    lines: ByteFields

    def comparable(self) -> tuple[str, bool, ByteFields]:
        return self.kind, self.is_allowed, sorted(self.lines)


def kind_of(method: bytes, fields: ByteFields) -> str:
    names = {name.lower() for name, _ in fields}
    if b"origin" not in names:
        return "no-origin"
    return "preflight" if method == b"OPTIONS" and b"access-control-request-method" in names else "plain"


def joined(values: Allowed, in_lower_case: bool) -> str:
    return values if isinstance(values, str) else ", ".join(it.lower() if in_lower_case else it for it in values)


def vary_members(lines: list[str]) -> set[str]:
    """The members of Vary. One whose quote has no end is none, and a quoted-string ends in its line."""
    found = [it.lower() for line in lines for it in members([line])]
    return {it for it in found if re.sub(r'"(?:[^"\\]|\\.)*"', "", it).count('"') == 0}


def answer(policy: Policy, method: bytes, fields: ByteFields, response: ByteFields) -> Answer:
    kind = kind_of(method, fields)
    origins = [value.decode("latin-1") for name, value in fields if name.lower() == b"origin"]
    is_granted = policy.origins == "*" or (len(origins) == 1 and origins[0] in policy.origins)
    granted = "*" if policy.origins == "*" else origins[0] if is_granted else ""
    lines: list[tuple[str, str]] = []
    if is_granted:
        lines.append(("access-control-allow-origin", granted))
        if policy.credentials:
            lines.append(("access-control-allow-credentials", "true"))
        if kind != "preflight":
            if policy.exposed:
                lines.append(("access-control-expose-headers", joined(policy.exposed, True)))
        else:
            lines.append(("access-control-allow-methods", joined(policy.methods, False)))
            if policy.names:
                lines.append(("access-control-allow-headers", joined(policy.names, True)))
            if policy.max_age is not None:
                lines.append(("access-control-max-age", str(min(policy.max_age, MAX_AGE))))
    is_allowed = is_granted or kind == "no-origin"
    if policy.origins != "*":
        own = [value.decode("latin-1") for name, value in response if name.lower() == b"vary"]
        if not vary_members(own) & {"origin", "*"}:
            lines += [("vary", value) for value in own] + [("vary", "origin")]
    return Answer(kind, is_allowed, [(name.encode(), value.encode("latin-1")) for name, value in lines])


def applied(answer_: Answer, response: ByteFields) -> ByteFields:
    """The response's fields after the answer: the six fields are the policy's alone."""
    has_vary = any(name == b"vary" for name, _ in answer_.lines)
    kept = [(name, value) for name, value in response if name.lower().decode("latin-1") not in SIX
            and not (has_vary and name.lower() == b"vary")]
    return kept + answer_.lines
