"""The Fetch standard's CORS protocol, as a second reading of the standard alone: which requests need a preflight, the
CORS check, what a preflight's response lets through, and which response fields a script may read.

It knows nothing of policies.

`quirks` are what a browser is known to do in place of what the standard says; without them this is the standard:

    star-covers-authorization    a star in Access-Control-Allow-Headers stands for `authorization` too
    more-safe-names              fields of client hints, User-Agent and Intervention need no leave
    range-in-63-bits             a range from 2^63 on is none
    bodiless-upload              an upload listener forces a preflight only if there is a body
    preflight-names-page         a preflight after a redirect to another origin has the page's origin, not `null`
    preflight-sticks             if the first request needed a preflight, so does each that it is redirected to
"""

import re
from collections.abc import Collection
from typing import Literal

from common.server import ByteFields, lines_of

TOKEN = re.compile(rb"[!#$%&'*+\-.^_`|~0-9A-Za-z]+\Z")
UNSAFE_BYTES = set(b'"():<>?@[\\]{}\x7f') | (set(range(0x20)) - {0x09})
LANGUAGE_BYTES = set(b"0123456789ABCDEFGHIJKLMNOPQRSTUVWXYZabcdefghijklmnopqrstuvwxyz *,-.;=")
SAFE_METHODS = (b"GET", b"HEAD", b"POST")
SAFE_RESPONSE_NAMES = (
    b"cache-control", b"content-language", b"content-length", b"content-type", b"expires", b"last-modified", b"pragma",
)
FORBIDDEN_RESPONSE_NAMES = (b"set-cookie", b"set-cookie2")
FORBIDDEN_REQUEST_NAMES = (
    b"accept-charset", b"accept-encoding", b"access-control-request-headers", b"access-control-request-method",
    b"connection", b"content-length", b"cookie", b"cookie2", b"date", b"dnt", b"expect", b"host", b"keep-alive",
    b"origin", b"referer", b"set-cookie", b"te", b"trailer", b"transfer-encoding", b"upgrade", b"via",
)
MORE_SAFE_NAMES = (
    b"dpr", b"save-data", b"width", b"viewport-width", b"device-memory", b"rtt", b"downlink", b"ect", b"user-agent",
    b"intervention",
)
QUIRKS = {
    "chromium": ("star-covers-authorization", "more-safe-names", "range-in-63-bits", "bodiless-upload"),
    "firefox": ("star-covers-authorization", "range-in-63-bits", "preflight-names-page", "preflight-sticks"),
}
BODY_NAMES = (b"content-encoding", b"content-language", b"content-location", b"content-type")


def normalized_method(method: bytes) -> bytes:
    """"normalize" a method: six names lose their case."""
    return method.upper() if method.upper() in (b"DELETE", b"GET", b"HEAD", b"OPTIONS", b"POST", b"PUT") else method


def is_forbidden_request_field(name: bytes, value: bytes) -> bool:
    name = name.lower()
    if name in FORBIDDEN_REQUEST_NAMES or name.startswith((b"proxy-", b"sec-")):
        return True
    if name in (b"x-http-method", b"x-http-method-override", b"x-method-override"):
        parts = [part.strip(b" \t") for part in value.split(b",")]
        return any(part.upper() in (b"CONNECT", b"TRACE", b"TRACK") for part in parts)
    return False


def essence(value: bytes) -> bytes | None:
    """The essence of "parse a MIME type", or `None` for failure."""
    value = value.strip(b"\t\n\r ")
    kind, slash, rest = value.partition(b"/")
    if not slash or not TOKEN.match(kind):
        return None
    subtype = rest.split(b";", 1)[0].rstrip(b"\t\n\r ")
    if not TOKEN.match(subtype):
        return None
    return (kind + b"/" + subtype).lower()


def is_simple_range(value: bytes, quirks: Collection[str]) -> bool:
    """"parse a single range header value" without whitespace, and with a first position."""
    match = re.match(rb"bytes=([0-9]+)-([0-9]*)\Z", value)
    if not match or ("range-in-63-bits" in quirks and any(int(part or b"0") >= 2**63 for part in match.groups())):
        return False
    return not match[2] or int(match[1]) <= int(match[2])


def is_safelisted_request_field(name: bytes, value: bytes, quirks: Collection[str] = ()) -> bool:
    """"CORS-safelisted request-header"."""
    name = name.lower()
    if "more-safe-names" in quirks and name in MORE_SAFE_NAMES:
        return True
    if len(value) > 128:
        return False
    if name == b"accept":
        return not UNSAFE_BYTES & set(value)
    if name in (b"accept-language", b"content-language"):
        return set(value) <= LANGUAGE_BYTES
    if name == b"content-type":
        if UNSAFE_BYTES & set(value):
            return False
        return essence(value) in (b"application/x-www-form-urlencoded", b"multipart/form-data", b"text/plain")
    if name == b"range":
        return is_simple_range(value, quirks)
    return False


def unsafe_names(fields: ByteFields, quirks: Collection[str] = ()) -> list[bytes]:
    """"CORS-unsafe request-header names", sorted and in lower case."""
    unsafe: set[bytes] = set()
    maybe: set[bytes] = set()
    size = 0
    for name, value in fields:
        if is_safelisted_request_field(name, value, quirks):
            maybe.add(name.lower())
            size += len(value)
        else:
            unsafe.add(name.lower())
    if size > 1024:
        unsafe |= maybe
    return sorted(unsafe)


def needs_preflight(method: bytes, fields: ByteFields, forced: bool = False, quirks: Collection[str] = ()) -> bool:
    return forced or method not in SAFE_METHODS or bool(unsafe_names(fields, quirks))


def get(name: bytes, fields: ByteFields) -> bytes | None:
    """"get" of a header list."""
    values = lines_of(fields, name)
    return b", ".join(values) if values else None


def extract(name: bytes, fields: ByteFields) -> list[bytes] | None | Literal[False]:
    """"extract header list values" of a list of tokens: `None` without the field, `False` for failure."""
    value = get(name, fields)
    if value is None:
        return None
    elements = [part.strip(b" \t") for part in value.split(b",")]
    elements = [part for part in elements if part]
    return elements if all(TOKEN.match(part) for part in elements) else False


def cors_check(fields: ByteFields, origin: bytes, includes: bool) -> bool:
    allowed = get(b"access-control-allow-origin", fields)
    if allowed is None:
        return False
    if not includes and allowed == b"*":
        return True
    if allowed != origin:
        return False
    return not includes or get(b"access-control-allow-credentials", fields) == b"true"


def preflight_passes(status: int, fields: ByteFields, origin: bytes, includes: bool, method: bytes, sent: ByteFields,
                     forced: bool = False, quirks: Collection[str] = ()) -> bool:
    """"CORS-preflight fetch", step 7."""
    if not cors_check(fields, origin, includes) or not 200 <= status <= 299:
        return False
    methods = extract(b"access-control-allow-methods", fields)
    names = extract(b"access-control-allow-headers", fields)
    if methods is False or names is False:
        return False
    if methods is None:
        methods = [method] if forced else []
    if method not in methods and method not in SAFE_METHODS and (includes or b"*" not in methods):
        return False
    listed = [name.lower() for name in names or []]
    if "star-covers-authorization" not in quirks and b"authorization" not in listed:
        if any(name.lower() == b"authorization" for name, _ in sent):
            return False
    return all(name in listed or (not includes and b"*" in listed) for name in unsafe_names(sent, quirks))


def readable_names(fields: ByteFields, includes: bool) -> set[bytes]:
    """The names that a "CORS filtered response" shows, in lower case."""
    listed = extract(b"access-control-expose-headers", fields) or []
    every = not includes and b"*" in listed
    shown = [name.lower() for name in listed]
    names = {name.lower() for name, _ in fields}
    return {
        name for name in names
        if name in SAFE_RESPONSE_NAMES or ((every or name in shown) and name not in FORBIDDEN_RESPONSE_NAMES)
    }
