"""Makes the calls of rows from Python, and compares the answers with those that are wanted.

    test_python.py FILE..
"""

import re
import sys
from datetime import datetime, timedelta, timezone
from functools import partial

import typed_headers as headers

REFUSED = "(refused)"
EPOCH = datetime(1970, 1, 1, tzinfo=timezone.utc)


def decode(word):
    if word == "()":
        return b""
    return re.sub(rb"%(..)", lambda found: bytes([int(found[1], 16)]), word.encode())


def answer(call, *arguments, **named):
    try:
        return call(*arguments, **named)
    except headers.HeaderError:
        return REFUSED


def decoded(call, words):
    """What the field lines give, or `None` without any. A line that no field value is, is rejected as any other."""
    return answer(call, *map(decode, words)) if words else None


def number(call, words, wanted):
    given = decoded(call, words)
    if wanted[0] == REFUSED:
        return given == (REFUSED if words else None)
    if isinstance(given, datetime):
        given = (given - EPOCH) // timedelta(seconds=1)
    return given == int(wanted[2])


def media_type(words, wanted):
    given = decoded(headers.MediaType.parse, words)
    if wanted[0] == REFUSED:
        return given == (REFUSED if words else None)
    return str(given).encode("latin-1") == decode(wanted[1])


def name_of(kind):
    return re.sub(r"(?<=[a-z])(?=[A-Z])", "-", kind)


def canonical_field(kind, words, wanted):
    """The canonical lines of a header. Those of credentials stay as they came."""
    if not words:
        return True
    given = answer(headers.canonical_field, name_of(kind), *map(decode, words))
    if wanted[0] == REFUSED:
        return given == REFUSED
    return [line.encode("latin-1") for line in given] == list(map(decode, wanted[1 : int(wanted[0]) + 1]))


#: The types of fields that are one number, time, text or list, by the field's name without hyphens.
PLAIN = {
    **{name.lower(): getattr(headers, name) for name in headers.fields.__all__}, "connection": headers.ConnectionOptions
}


def plain(kind, words, wanted):
    """The value of a field by its own type, and what is made of that value anew."""
    given = decoded(kind.parse, words)
    if not words or wanted[0] == REFUSED:
        return given == (REFUSED if words else None)
    lines = list(map(decode, wanted[1 : int(wanted[0]) + 1]))
    if isinstance(given, tuple):
        shown = headers.members(*lines) if lines else []
        return (list(given), type(given)) == (shown, kind) and (given == kind(shown))
    return (str(given).encode("latin-1"), kind(given.value)) == (b"".join(lines), given)


def content_range(words, wanted):
    given = decoded(headers.ContentRange.parse, words)
    if wanted[0] == REFUSED:
        return given == (REFUSED if words else None)
    return str(given).encode("latin-1") == decode(wanted[1])


def etag(words, wanted):
    given = decoded(headers.ETag.parse, words)
    if wanted[0] == REFUSED:
        return given == (REFUSED if words else None)
    return str(given).encode("latin-1") == decode(wanted[1]) and given == headers.ETag(given.opaque, given.weak)


def format_date(words, wanted):
    return headers.format_date(int(words[0])).encode("latin-1") == decode(wanted[1])


def canonical(words, wanted):
    given = answer(headers.canonical_section, decode(words[0]))
    if wanted[0] == "not-a-field":
        return given == REFUSED
    marked = any(line.startswith("! ") for line in given.split("\n"))
    return (given.encode("latin-1"), marked) == (decode(wanted[1]), wanted[0] == "some-refused")


def compare(words, wanted):
    one, other = (headers.ETag.parse(decode(word)) for word in words)
    given = (one.matches_strongly(other), one.matches_weakly(other))
    return given == (wanted[0] == "true", wanted[1] == "true")


def cache_control(words, wanted):
    given = decoded(headers.CacheControl.parse, words)
    if not words or wanted[0] == REFUSED:
        return given == (REFUSED if words else None)
    flags = [given.no_cache, given.no_store, given.no_transform, given.only_if_cached, given.public]
    flags += [given.private, given.immutable, given.must_revalidate, given.must_understand]
    seconds = [given.max_age, given.max_stale, given.min_fresh, given.s_maxage]
    shown = [str(flag).lower() for flag in flags]
    shown += ["(none)" if it is None else str(it) for it in seconds]
    return shown == wanted[2:]


def stale(words, wanted):
    given = headers.CacheControl.parse(*map(decode, words))
    seconds = [given.stale_while_revalidate, given.stale_if_error]
    return ["(none)" if it is None else str(it) for it in seconds] == wanted


def named_fields(words, wanted):
    given = headers.CacheControl.parse(*map(decode, words[1:]))
    names = {"private": given.private_fields, "no-cache": given.no_cache_fields}.get(words[0])
    hoped = [] if wanted == ["(none)"] else [decode(word).decode() for word in wanted]
    return names is None or list(names) == [name.strip() for text in hoped for name in text.split(",") if name]


FORMS = "elements", "challenges", "links", "set_cookies", "dispositions", "hops", "caches"
KINDS = "parameter", "plain", "quoted", "in_challenge"


def parts(form):
    def given(words, wanted):
        status, text = headers._library.calls.field_parts(form, tuple(map(decode, words)))
        hoped = b"" if wanted == ["()"] else b"".join(decode(word) + b"\n" for word in wanted)
        return status == 0 and text == hoped

    return given


def place(words, wanted):
    name, *names = map(decode, words)
    status, found = headers._library.calls.parameter_place(tuple(names), name)
    return {"(none)": status == 4, REFUSED: status == 1}.get(wanted[0], status == 0 and str(found) == wanted[0])


def text_of(call):
    """A call over texts that gives one."""

    def given(words, wanted):
        status, text = call(*map(decode, words))
        return status == 1 if wanted == [REFUSED] else status == 0 and text == decode(wanted[0])

    return given


def ranges(words, wanted):
    given = decoded(headers.Range.parse, words[1:])
    if wanted[0] == REFUSED:
        return given == (REFUSED if words[1:] else None)
    bounds = [int(word[1:]) for word in wanted[1:]]
    found = [(it.first, it.last) for it in given.satisfiable(int(words[0]))]
    return found == list(zip(bounds[::2], bounds[1::2]))


def fields(words):
    """The fields of words up to `(/)`, and the words after it."""
    end = words.index("(/)") if "(/)" in words else len(words)
    found, name = [], b""
    for word in words[:end]:
        if word.startswith("(") and word != "()":
            name = word[1:-1].encode()
        else:
            found.append((name, decode(word)))
    return found, words[end + 1 :]


def section(words):
    found, words = fields(words)
    return b"".join(name + b": " + value + b"\n" for name, value in found), words


def request(words):
    sent, left = section(words[1:])
    return decode(words[0]), sent, left


def known(resource, **named):
    etag = None if resource[0] == "(none)" else decode(resource[0]).decode("latin-1")
    return headers.Target(etag, None if resource[1] == "(none)" else int(resource[1]), **named)


def evaluate(words, wanted):
    method, sent, resource = request(words)
    target = headers.Target(exists=False) if resource[0] == "missing" else known(resource)
    return headers.evaluate(method, sent, target).name.lower() == wanted[0]


def select(words, wanted):
    method, sent, target = request(words)
    given = headers.select(method, sent, known(target, is_date_strong=target[2] == "strong"), int(target[3]))
    if wanted[0] in ("whole", "unsatisfiable"):
        return given == headers.Selection(200 if wanted[0] == "whole" else 416)
    parts = (headers.ByteRange(*map(int, part.split("-"))) for part in wanted)
    return given == headers.Selection(206, tuple(parts))


def rules(words):
    """The rules of a row."""
    found, left = fields(words)
    listed = {name: [value.decode("latin-1") for other, value in found if other == name] for name, _ in found}
    names = (b"origins", b"methods", b"names", b"exposed")
    is_any = listed.get(b"any", [])
    lists = ["*" if name.decode() in is_any else listed.get(name, []) for name in names]
    max_age = int(listed[b"max-age"][0]) if b"max-age" in listed else None
    return {
        **dict(zip(("origins", "methods", "headers", "exposed"), lists)),
        "max_age": max_age,
        "credentials": b"credentials" in listed,
    }, left


def cors_new(words, wanted):
    given, _ = rules(words)
    if wanted[0] == "UnsentOrigin":
        try:
            headers.CorsPolicy(**given)
        except headers.HeaderError as error:
            return str(error).endswith(f"{given['origins'][int(wanted[1])]!r} (place {wanted[1]})")
    return (answer(headers.CorsPolicy, **given) == REFUSED) == (wanted[0] != "made")


def cors_answer(words, wanted):
    given, left = rules(words)
    method, sent, left = request(left)
    before, _ = section(left)
    policy = answer(headers.CorsPolicy, **given)
    shared = REFUSED if policy == REFUSED else answer(policy.answer, method, sent, before)
    if REFUSED in (wanted[0], shared):
        return shared == REFUSED == wanted[0]
    sent = [(name.decode(), value.decode("latin-1")) for name, value in fields(left)[0]]
    kind = shared.kind.name.lower().replace("_", "-")
    seen = sorted(shared.apply(sent), key=lambda field: field[0])
    hoped = [(name.decode(), value.decode("latin-1")) for name, value in fields(wanted[2:])[0]]
    return (kind, shared.is_allowed, seen) == (wanted[0], wanted[1] == "true", hoped)


def may_store(words, wanted):
    sent, left = section(words[3:])
    response = section(left)[0]
    stored = headers.may_store(decode(words[1]), sent, int(words[2]), response, shared=words[0] == "shared")
    return stored == (wanted[0] == "true")


def lifetime(words, wanted):
    given = headers.lifetime(section(words[2:])[0], int(words[1]), shared=words[0] == "shared")
    return given == (None if wanted[0] == "(none)" else int(wanted[0]))


def heuristic_lifetime(words, wanted):
    response = section(words[3:])[0]
    given = headers.heuristic_lifetime(int(words[1]), response, int(words[2]), shared=words[0] == "shared")
    return given == (None if wanted[0] == "(none)" else int(wanted[0]))


def current_age(words, wanted):
    times = headers.Times(*map(int, words[:3]))
    return headers.current_age(section(words[3:])[0], times) == int(wanted[0])


def decide(words, wanted):
    times = headers.Times(*map(int, words[1:4]))
    stored_method, *left = words[4:]
    stored, left = section(left)
    method, *left = left
    sent, left = section(left)
    response = section(left)[0]
    is_shared = words[0] == "shared"
    decision = headers.decide(decode(stored_method), stored, decode(method), sent, response, times, shared=is_shared)
    return decision.name == re.sub(r"(?<!^)(?=[A-Z])", "_", wanted[0]).upper()


def validators(words, wanted):
    _, left = section(words[1:])
    found = [(name.decode(), value.decode("latin-1")) for name, value in fields(wanted)[0]]
    given = headers.validators(section(left)[0], int(words[0]))
    return list(given) == [it for name in ("if-none-match", "if-modified-since") for it in found if it[0] == name]


def offers(dimension, action):
    names = {"accept": "type", "encoding": "coding", "language": "language"}

    def check(words, wanted):
        sent, left = fields(words)
        given = [decode(it).decode("latin-1") for it in left]
        if action == "quality":
            rate = getattr(headers, f"{names[dimension]}_quality")
            shown = [rate(sent, it) for it in given]
            hoped = [(0, True) if it == "unlisted" else (int(it), it != "0") for it in wanted]
            return [(it.weight, it.is_acceptable) for it in shown] == hoped
        choose = headers.look_up_language if action == "look_up" else getattr(headers, f"choose_{names[dimension]}")
        return choose(sent, given) == (None if wanted == ["(none)"] else decode(wanted[0]).decode("latin-1"))

    return check


def shown_fields(words):
    return [(name.decode(), value.decode("latin-1")) for name, value in fields(words)[0]]


def respond(words, wanted, sends_ranges=True):
    method, sent, left = request(words)
    if left[0] == "missing":
        target, left = headers.Target(exists=False), left[1:]
    else:
        target, left = known(left, is_date_strong=left[2] == "strong"), left[3:]
    length, kind = (None if it == "(none)" else decode(it).decode("latin-1") for it in left[:2])
    content = headers.Content(None if length is None else int(length), kind, sends_ranges)
    given = headers.respond(method, sent, target, content, now=1_767_225_600)
    if given is None or wanted == ["(none)"]:
        return given is None and wanted == ["(none)"]
    before = shown_fields(left[2:])
    hoped = [] if wanted[1:] == ["(none)"] else shown_fields(wanted[1:])
    return given.status == int(wanted[0]) and sorted(given.apply(before)) == sorted(hoped)


NEGOTIATED = {"by_media_type": True, "by_language": True, "by_coding": True}


def shown(media_type, tag, **named):
    return headers.Representation(media_type, 20, f'"{tag}"', **named)


#: The resources of tests/cases/resource.
RESOURCES = {
    "note": {
        "methods": [
            "GET",
            headers.Method("PUT", "application/json", "gzip", creates=True),
            headers.Method("DELETE", needs_condition=True),
            headers.Method("PATCH", "application/merge-patch+json", "gzip"),
        ],
        "representations": [shown("application/json", "n1")],
        "hosts": ["a.example"],
        "by_media_type": True,
        "is_strict": True,
        "needs_length": True,
        "limit": 100,
        "cors": headers.CorsPolicy("https://app.example"),
    },
    "page": {
        "methods": ["GET"],
        "representations": [
            shown("text/html", "en", language="en"),
            shown("text/html", "de", language="de"),
            shown("text/html", "gz", language="en", coding="gzip"),
        ],
        **NEGOTIATED,
    },
    "report": {
        "methods": ["GET"],
        "representations": [shown("application/pdf", "r1")],
        "is_strict": True,
        **NEGOTIATED,
    },
    "inbox": {"methods": ["POST"], **NEGOTIATED},
    "feed": {"methods": [headers.Method("POST", "application/json", "gzip")], **NEGOTIATED},
    "archive": {
        "methods": ["GET", "DELETE", headers.Method("PUT", needs_condition=True)],
        "representations": [
            headers.Representation("text/plain", 8000, last_modified=783459811),
            headers.Representation("text/plain", 8000, language="en", coding="gzip", last_modified=1798761600),
        ],
        **NEGOTIATED,
    },
}
RESOURCES["diary"] = {**RESOURCES["archive"], "has_strong_dates": True}
STATES = {"current": 0, "absent": 1, "gone": 2, "server": 3}


def implementing(words, wanted):
    implemented = decode(words[0]).decode("latin-1").split()
    return resource_answer(words[1:], wanted, implemented=implemented)


def denied(words, wanted):
    status, challenge, seconds, *left = words
    challenge = "" if challenge == "(none)" else decode(challenge).decode("latin-1")
    why = headers.Denied(int(status), challenge, None if seconds == "(none)" else int(seconds))
    return resource_answer(left, wanted, denied=why)


def resource_answer(words, wanted, implemented=None, denied=None):
    name, state, *left = words
    location = decode(left.pop(0)).decode("latin-1") if state.isdigit() else ""
    version, method, authority, content, *left = left
    resource = headers.Resource(**RESOURCES[name], location=location, implemented=implemented,
                                state=STATES[state] if state in STATES else int(state))
    target = "/" if authority == "(none)" else f"http://{authority}/"
    length = {"none": 0, "unsized": None}[content] if content.isalpha() else int(content)
    given = resource.answer(decode(method), section(left)[0], target=target, length=length,
                            version=10 if version == "1.0" else 11, now=1_767_225_600, denied=denied)
    reason, status, *left = wanted
    sends, place, ranges = "nothing", None, []
    if left[0] in ("nothing", "alternatives", "perform"):
        sends = left.pop(0)
    else:
        place, sends, *left = left
        place = None if place == "(none)" else int(place)
        while "-" in sends and sends[0].isdigit():
            ranges.append(headers.ByteRange(*map(int, sends.split("-"))))
            sends, *left = left if left[0][0].isdigit() else ["parts", *left]
    hoped = [] if left == ["(none)"] else shown_fields(left)
    name = given.sends.name.lower().replace("result", "perform")
    seen = (given.reason.name.replace("_", "").lower(), given.status, name, given.place, list(given.ranges))
    return seen == (reason.lower(), None if status == "(none)" else int(status), sends, place, ranges) and sorted(
        given.fields) == sorted(hoped)


def handshake(words, wanted, own=(), origins="*"):
    method, version, *left = words
    number = {"HTTP/0.9": 9, "HTTP/1.0": 10, "HTTP/1.1": 11, "HTTP/2": 20, "HTTP/3": 30}[version]
    given = answer(headers.websocket_respond, decode(method), section(left)[0], own, origins, number)
    if REFUSED in (given, wanted[0]):
        return given == REFUSED == wanted[0]
    fault = re.sub(r"(?<!^)(?=[A-Z]|11)", "_", wanted[1]).upper() if wanted[0] == "400" else None
    hoped = [] if wanted[-1] == "(none)" else shown_fields(wanted[1:])
    shown = (given.status, None if given.fault is None else given.fault.name)
    return shown == (int(wanted[0]), fault) and sorted(given.fields) == sorted(hoped)


def opened(words, wanted):
    sent, left = section(words)
    given = headers.websocket_check(sent, int(left[0]), section(left[1:])[0])
    name = {"MalformedExtensions": "MALFORMED_EXTENSIONS"}.get(wanted[0])
    name = name or re.sub(r"(?<!^)(?=[A-Z])", "_", wanted[0]).upper()
    return given is None if wanted[0] == "open" else given is not None and given.name == name


def offer(words, wanted):
    names = ("upgrade", "connection", "sec-websocket-version", "sec-websocket-key")
    hoped = [it for it in shown_fields([it for it in wanted if it != "(sensitive)"]) if it[0] in names]
    return sorted(headers.websocket_request(decode(words[0]))) == sorted(hoped)


def commas(word):
    return decode(word).decode("latin-1").split(",")


def gateway_of(words):
    name, kind = decode(words[0]).decode("latin-1"), words[1]
    return headers.Gateway(name, ["X-Client"], kind != "relayed", passes_underscores=kind == "underscores")


def version_of(word):
    return 10 if word == "1.0" else 11


def delimited(word, unstated):
    """How a word says that content is delimited, with this kind if its fields state nothing."""
    kind, _, length = word.partition(":")
    name = {"absent": "NO_CONTENT", "unstated": unstated}.get(kind, kind.upper().replace("-", "_"))
    return headers.Framing(headers.FramingKind[name], int(length) if length else None)


def reason_of(word):
    return headers.Rejection[re.sub(r"(?<!^)(?=[A-Z])|(?<=Http)(?=\d)", "_", word).upper()]


def framed(method, section_text, version, status, wanted):
    """Whether the content is delimited as the gateway's outcome tells, if that does."""
    given = headers.framing(method, section_text, status, version)
    if wanted[0] in ("forward", "respond"):
        return given == headers.FramingOutcome(delimited(wanted[1], "NO_CONTENT"))
    if wanted[0] != "reject" or reason_of(wanted[1]) > headers.Rejection.CODING_IN_HTTP_10:
        return True
    reason = reason_of(wanted[1])
    return given == headers.FramingOutcome(None, 502 if status else int(wanted[2]), reason)


def gateway_request(words, wanted):
    version, method = version_of(words[2]), decode(words[3])
    authority = None if words[4] == "(none)" else decode(words[4])
    sent = section(words[5:])[0]
    given = gateway_of(words).forward_request(method, sent, version=version, authority=authority)
    if wanted[0] == "reject":
        hoped = headers.RequestOutcome(headers.Action.REJECT, None, (), int(wanted[2]), reason_of(wanted[1]))
    else:
        action = headers.Action.FORWARD if wanted[0] == "forward" else headers.Action.ANSWER
        shown = tuple(shown_fields(wanted[3:])) if wanted[0] == "forward" else ()
        hoped = headers.RequestOutcome(action, delimited(wanted[1], "NO_CONTENT"), shown)
    return given == hoped and framed(method, sent, version, None, wanted)


def gateway_response(words, wanted):
    version, status, method, client = version_of(words[2]), int(words[3]), decode(words[4]), version_of(words[5])
    told = section(words[7:])[0]
    given = gateway_of(words).forward_response(method, status, told, version, client, int(words[6]))
    if wanted[0] == "forward":
        received = delimited(wanted[1], "")
        has_content = received.kind not in (headers.FramingKind.NO_CONTENT, headers.FramingKind.TUNNEL)
        sent = delimited(wanted[2], "UNTIL_CLOSE") if has_content else received
        hoped = headers.ResponseOutcome(headers.Action.FORWARD, received, sent, tuple(shown_fields(wanted[3:])))
    elif wanted[0] == "discard":
        hoped = headers.ResponseOutcome(headers.Action.DISCARD, None, None)
    else:
        hoped = headers.ResponseOutcome(headers.Action.REJECT, None, None, (), 502, reason_of(wanted[1]))
    return given == hoped and framed(method, told, version, status, wanted)


def forwarding(words, wanted):
    """The fields that tell who made a request, of one that has the host."""
    keeps, writes, client, client_port, interface, interface_port, host, scheme, trusted, *left = words
    if client_port.startswith("_") or '"' in host:
        return True  # (a port that is hidden can't be said, and a request with an invalid host is rejected)
    ports = [None if it == "(none)" else int(it) for it in (client_port, interface_port)]
    names = [None if it == "unknown" else it for it in (client, interface)]
    hop = headers.Hop(
        names[0], ports[0], names[1], ports[1],
        is_secure=scheme == "https",
        is_trusted=keeps == "kept" and trusted == "trusted",
        writes_forwarded=writes in ("forwarded", "both"),
        writes_x_forwarded=writes in ("x", "both"),
        tells_host=host != "(none)",
    )
    sent = section(left)[0] + b"host: " + (b"a" if host == "(none)" else decode(host)) + b"\n"
    given = headers.Gateway("gw").forward_request("GET", sent, hop)
    return [it for it in given.fields if it[0] not in ("host", "via")] == shown_fields(wanted)


# Typed values.


def credentials(words, wanted, is_bearer):
    """Those of one scheme. A line of the other scheme is rejected in the row alone."""
    given = decoded(headers.Credentials.parse, words)
    if given in (REFUSED, None):
        return wanted[0] == REFUSED
    is_other = (given.user is None) != is_bearer
    if wanted[0] == REFUSED or is_other:
        return wanted[0] == REFUSED and is_other
    texts = [given.token] if is_bearer else [given.user, given.password]
    return [text.encode() for text in texts] == list(map(decode, wanted[2:-1]))


def cookies(words, wanted):
    given = decoded(headers.Cookie.parse, words)
    texts = [decode(word).decode("latin-1") for word in wanted[3:]]
    return given is None if not words else list(given) == list(zip(texts[::2], texts[1::2]))


def cookie(words, wanted):
    if not words[1:]:
        return wanted == ["(none)"]
    given = answer(headers.find_cookie, *map(decode, words))
    return given == (None if wanted == ["(none)"] else decode(wanted[0]).decode("latin-1"))


def port_of(word):
    return None if word == "(none)" else int(word)


def has_whole_port(text, start, port):
    """Whether a text is a start that ends in a host, and then nothing, or a colon and perhaps a port."""
    rest = text[len(start):]
    has_port = rest[:1] == b":" and rest[1:].isdigit() and port != "(none)"
    return text.startswith(start) and (rest in (b"", b":") or has_port)


def host(words, wanted):
    given = decoded(headers.Host.parse, words)
    if wanted[0] == REFUSED or not has_whole_port(decode(wanted[1]), decode(wanted[2]), wanted[3]):
        return given == (REFUSED if words else None)
    return (given.name.encode("latin-1"), given.port) == (decode(wanted[2]), port_of(wanted[3]))


def origin(words, wanted):
    given = decoded(headers.Origin.parse, words)
    if wanted[0] == REFUSED:
        return given == (REFUSED if words else None)
    start = decode(wanted[3]) + b"://" + decode(wanted[4])
    if wanted[2] != "true" and not has_whole_port(decode(wanted[1]), start, wanted[5]):
        return given == REFUSED
    texts = [given.scheme.encode("latin-1"), given.host.encode("latin-1")]
    if not given.is_null and decoded(headers.Origin.parse, [f"{given.scheme}://{given.host}:65536"]) != REFUSED:
        return False
    return (given.is_null, texts, given.port) == (
        wanted[2] == "true", list(map(decode, wanted[3:5])), port_of(wanted[5])
    )


def transport_security(words, wanted):
    given = decoded(headers.StrictTransportSecurity.parse, words)
    if wanted[0] == REFUSED:
        return given == (REFUSED if words else None)
    return [str(given.max_age), str(given.include_subdomains).lower()] == wanted[2:]


def retry_after(words, wanted):
    given = decoded(headers.RetryAfter.parse, words)
    if wanted[0] == REFUSED:
        return given == (REFUSED if words else None)
    line = decode(wanted[1]).decode("ascii")
    is_long = line.isdigit() and int(line) > timedelta.max // timedelta(seconds=1)
    return given.delay.days == timedelta.max.days if is_long else str(given) == line


def disposition(words, wanted):
    status, given = headers._library.calls.content_disposition(tuple(map(decode, words)))
    if wanted[0] == REFUSED or not words:
        return status == (1 if words else 4)
    return [str(given == kind).lower() for kind in (1, 2, 3)] == wanted[2:]


def vary(words, wanted):
    given = decoded(headers.members, words)
    if not words:
        return given is None
    texts = [decode(word).decode("latin-1") for word in wanted[4:]]
    is_any = headers.has_member("*", *map(decode, words), any_case=False)
    return (given, is_any) == ([text for text in texts if text], wanted[2] == "true")


def allow(words, wanted):
    given = decoded(headers.members, words)
    return given is None if not words else {decode(it).decode("latin-1") for it in wanted[3:]} <= set(given)


def option(words, wanted):
    if not words[1:]:
        return wanted == [str(words[0] == "()").lower()]
    given = answer(headers.has_member, *map(decode, words))
    return given == (wanted == ["true"] and words[0] != "()")


# Passes through a cache.


class History:
    """A cache, which guesses lifetimes of up to a minute, and the passes through it."""

    statuses = {"whole": 200, "part": 206, "not_modified": 304, "unsatisfiable": 416}

    def __init__(self, words):
        kind, *limits = words
        variants, responses, content = map(int, limits)
        self.cache = headers.Cache(shared=kind == "shared", variants=variants, responses=responses, content=content,
                                   guess=60)
        self.passes, self.methods, self.targets = {}, {}, {}

    def begin(self, name, now, request):
        self.passes[name] = self.cache.begin(self.methods[name], self.targets[name], request, now=int(now))
        return self.passes[name].step

    def validates(self, words, wanted):
        """Whether the request of a validation has these fields, and is done with so: `FIELDS (/) STEP`."""
        name, now = words
        place = wanted.index("(/)")
        ended, text = headers._library.calls.pass_validation(self.passes[name]._handle)
        told = sorted(headers.Headers(text).pairs())
        return not ended and told == shown_fields(wanted[:place]) and self.is_told(
            self.begin(name, now, text), name, wanted[place + 1:])

    def step(self, call, words):
        """What a step gives, and the method of its request."""
        name, now, *left = words
        if call == "begin":
            self.methods[name], self.targets[name] = left[1], left[0]
            return self.begin(name, now, section(left[2:])[0])
        if call == "came":
            return self.passes[name].came(int(left[0]), section(left[1:])[0], now=int(now))
        if call == "failed":
            return self.passes[name].failed(now=int(now))
        self.passes[name].received(decode(left[0]))
        return self.passes[name].ended(complete=left[1] == "complete", now=int(now))

    def is_reply(self, given, method, words):
        """Whether a reply is of a stored response: `WAY CONTENT (age) AGE`."""
        way, *words = words
        whole = decode(words[1] if way == "part" else words[0])
        content, length = whole, str(len(whole))
        told = dict(given.fields)
        if way == "part":
            first, last = words[0].split("-")
            content = whole[int(first) : int(last) + 1]
            if told["content-range"] != f"bytes {first}-{last}/{length}":
                return False
        if way == "unsatisfiable":
            return (given.status, given.content, told["content-range"]) == (416, b"", f"bytes */{length}")
        content = None if way == "not_modified" or method == "HEAD" else content
        return (given.status, given.content, told["age"]) == (self.statuses[way], content, words[-1])

    def is_once(self, given, words):
        """Whether a reply is this response, which isn't stored: `whole METHOD STATUS CONTENT TIME TIME FIELDS`."""
        told = sorted(it for it in given.fields if it[0] != "age")
        return (given.status, given.content, told) == (int(words[2]), decode(words[3]), shown_fields(words[6:]))

    def is_kept(self, target, words):
        """Whether a request gets the response that alone is stored: `1 (/) METHOD STATUS CONTENT TIME TIME FIELDS`."""
        given = self.cache.begin("GET", target, b"", now=int(words[6])).step
        return words[:3] == ["1", "(/)", "GET"] and self.is_once(given, words[1:]) and ("age", "0") in given.fields

    def check(self, call, words, wanted):
        if call == "kept":
            return self.is_kept(words[0], wanted)
        if call == "validation":
            return self.validates(words, wanted)
        try:
            given = self.step(call, words)
        except headers.OutOfOrder:
            return wanted == ["out_of_order"]
        return self.is_told(given, words[0], wanted)

    def is_told(self, given, name, wanted):
        word, *left = wanted
        if isinstance(given, headers.Reply):
            if word == "unavailable":
                return given.status == 504
            if word == "once":
                return self.is_once(given, left)
            named = "reply_and_validate" if given.validates else "reply"
            return word == named and self.is_reply(given, self.methods[name], left)
        if isinstance(given, headers.Ask) and given.fields is not None:
            return word == "validate" and list(given.fields) == shown_fields(left)
        shown = {headers.Ask(): "ask", headers.PassOn(True): "keep", headers.PassOn(False): "pass_on", None: "(none)",
                 True: "stored", False: "unstored"}
        return [shown[given]] == wanted


def cache_under(words, guess=0):
    """A cache with the policy of two words: for whom it stores; and `immutable`, `plain` or names of targeted fields."""
    names = words[1].split(",")
    targets = [it for it in names if it not in ("plain", "immutable")]
    return headers.Cache(shared=words[0] == "shared", guess=guess, immutable="immutable" in names, targets=targets)


def is_stored(cache, method, sent, times, status, response):
    """Whether the response to a request is to be stored, which it then is."""
    asking = cache.begin(method, "/", sent, now=times[0])
    step = isinstance(asking.step, headers.Ask) and asking.came(status, response, now=times[1])
    if step != headers.PassOn(True):
        return False
    asking.received(b"x")
    return asking.ended(now=times[1])


def may_store_under(words, wanted):
    sent, left = section(words[4:])
    stored = is_stored(cache_under(words), words[2], sent, (0, 0), int(words[3]), section(left)[0])
    return stored == (wanted == ["true"])


def decide_under(words, wanted):
    requested, received, now = map(int, words[2:5])
    sent, left = section(words[5:])
    cache = cache_under(words)
    if not is_stored(cache, "GET", b"", (requested, received), 200, section(left)[0]):
        return False
    asking, plain = (cache.begin("GET", "/", it, now=now) for it in (sent, b""))
    if isinstance(asking.step, headers.Reply):
        is_fresh = isinstance(plain.step, headers.Reply)
        name = "ServeAndRevalidate" if asking.step.validates else "Serve" if is_fresh else "ServeStale"
        return wanted == ["Unavailable" if asking.step.status == 504 else name]
    is_served = isinstance(asking.failed(now=now), headers.Reply)
    return wanted == ["RevalidateOrServe" if is_served else "Revalidate"]


def lifetimes_under(words, wanted):
    """The lifetime, and the one that is guessed if there is none: for so long, and no longer, a response is served."""
    received, response = int(words[3]), section(words[4:])[0]

    def is_fresh(guess, now):
        cache = cache_under(words, guess)
        stored = is_stored(cache, "GET", b"", (received, received), int(words[2]), response)
        return stored and isinstance(cache.begin("GET", "/", b"", now=now).step, headers.Reply)

    stated, guessed = (0 if it == "(none)" else int(it) for it in wanted)
    seconds = [(0, stated), (10**9, guessed if wanted[0] == "(none)" else stated)]
    return all((it == 0 or is_fresh(guess, received + it - 1)) and not is_fresh(guess, received + it)
               for guess, it in seconds)


# Dates, which are seen by what is decided with them.

LAST_SECOND = 253402300799


def is_before(text, second, now=0):
    """Whether a date is before a second, as If-Unmodified-Since sees it. What is no date isn't."""
    target = headers.Target(last_modified=second)
    given = headers.evaluate("GET", b"if-unmodified-since: " + text + b"\n", target, now)
    return given is headers.Precondition.FAILED


def seconds_between(later, earlier, now=0):
    """How many seconds the one date is after the other, as Expires and Date see it."""
    return headers.lifetime(b"expires: " + later + b"\ndate: " + earlier + b"\n", now, shared=False)


def read_date(words, wanted):
    text, now, epoch = decode(words[0]), int(words[1]), b"Thu, 01 Jan 1970 00:00:00 GMT"
    if wanted[0] == "(none)":
        return not is_before(text, 0, now) and not is_before(text, LAST_SECOND, now)
    second = int(wanted[0])
    if second < 0:
        return is_before(text, 0, now) and seconds_between(epoch, text, now) == -second
    is_after = second >= LAST_SECOND or is_before(text, second + 1, now)
    return not is_before(text, min(second, LAST_SECOND), now) and is_after and seconds_between(text, epoch, now) == second


def compare_date(words, wanted):
    text, second = decode(words[0]), int(words[1])
    age = headers.current_age(b"date: " + text + b"\n", headers.Times(second, second, second))
    rest = headers.lifetime(b"expires: " + text + b"\n", second, shared=False)
    is_past = age > 0
    if second <= LAST_SECOND and is_before(text, second) != is_past:
        return False
    return [str(is_past).lower(), str(rest > 0).lower(), str(age), str(rest)] == wanted


def seconds_after(words, wanted):
    return seconds_between(*map(decode, words)) == int(wanted[0])


CREDENTIALS = ("Authorization", "ProxyAuthorization")
GATEWAY = {"request": gateway_request, "response": gateway_response, "forwarding": forwarding}

CALLS = {
    "Age.decode": lambda *row: number(headers.age, *row),
    "ContentLength.decode": lambda *row: number(headers.content_length, *row),
    "Date.decode": lambda *row: number(headers.date, *row),
    "Expires.decode": lambda *row: number(headers.expires, *row),
    "LastModified.decode": lambda *row: number(headers.last_modified, *row),
    "ContentType.decode": media_type,
    "ContentRange.decode": content_range,
    "ETag.decode": etag,
    "Date.from_unix_secs": format_date,
    "canon.run": canonical,
    "EntityTag.compare": compare,
    "CacheControl.decode": cache_control,
    "CacheControl.stale": stale,
    "CacheControl.arguments": named_fields,
    **{call: parts(form) for form, call in enumerate(FORMS)},
    **{call: text_of(partial(headers._library.calls.format_parameter, kind)) for kind, call in enumerate(KINDS)},
    "extended": text_of(headers._library.calls.extended_text),
    "place": place,
    "Range.satisfiable_ranges": ranges,
    "evaluate": evaluate,
    "select": select,
    "CorsPolicy.new": cors_new,
    "CorsPolicy.answer": cors_answer,
    "may_store": may_store,
    "lifetime": lifetime,
    "heuristic_lifetime": heuristic_lifetime,
    "current_age": current_age,
    "decide": decide,
    "read_date": read_date,
    "compare": compare_date,
    "seconds_after": seconds_after,
    "may_store_under": may_store_under,
    "decide_under": decide_under,
    "lifetimes_under": lifetimes_under,
    "validation_steps": validators,
    **{f"{dimension}.{action}": offers(dimension, action)
       for dimension in ("accept", "encoding", "language") for action in ("choose", "quality", "look_up")},
    "respond": respond,
    "respond_whole": lambda words, wanted: respond(words, wanted, sends_ranges=False),
    "accept": handshake,
    "accept_with": lambda words, wanted: handshake(words[1:], wanted, own=commas(words[0])),
    "accept_from": lambda words, wanted: handshake(words[1:], wanted, origins=commas(words[0])),
    "check": opened,
    "answer": resource_answer,
    "implementing": implementing,
    "denied": denied,
    "request": offer,
    **{f"{field}Basic.decode": lambda *row: credentials(*row, is_bearer=False) for field in CREDENTIALS},
    **{f"{field}Bearer.decode": lambda *row: credentials(*row, is_bearer=True) for field in CREDENTIALS},
    "Cookie.decode": cookies,
    "Cookie.get": cookie,
    "Host.decode": host,
    "Origin.decode": origin,
    "StrictTransportSecurity.decode": transport_security,
    "RetryAfter.decode": retry_after,
    "ContentDisposition.decode": disposition,
    "Vary.decode": vary,
    "Allow.decode": allow,
    "Connection.contains": option,
    "Connection.contains_name": option,
}


def calls_of(row, file):
    """What is made of a row of a file."""
    if "/gateway/" in file:
        yield from filter(None, [GATEWAY.get(row)])
        return
    kind, _, action = row.partition(".")
    # (MaxForwards is a header of headers_user)
    if action == "decode" and "Authorization" not in kind and kind != "MaxForwards":
        yield lambda words, wanted: canonical_field(kind, words, wanted)
        if kind.lower() in PLAIN:
            yield partial(plain, PLAIN[kind.lower()])
    if action == "writes" and kind.lower() in PLAIN:
        yield lambda words, wanted: plain(PLAIN[kind.lower()], words, ["1", *wanted] if wanted != [REFUSED] else wanted)
    if row in CALLS:
        yield CALLS[row]


def expand(line):
    """The line with COUNT times TEXT for each `%{COUNT:TEXT}`."""
    return re.sub(r"%\{(\d+):([^}]*)\}", lambda found: found[2] * int(found[1]), line)


def main(names):
    rows = wrong = 0
    history = None
    for name in names:
        with open(name, encoding="utf-8") as file:
            for place, line in enumerate(file, 1):
                call, _, wanted = expand(line.rstrip("\n")).partition(" = ")
                words = call.strip().split(" ")
                if words[0] == "cache":
                    history = History(words[1:])
                    continue
                if " ! " in wanted:
                    wanted = wanted.partition(" ! ")[2].partition(" ")[2]
                is_step = line.startswith("  ") and wanted
                for call in [partial(history.check, words[0])] if is_step else calls_of(words[0], name):
                    rows += 1
                    if not call(words[1:], wanted.split(" ")):
                        wrong += 1
                        print(f"{name}:{place}: {words[0]}: wanted {wanted[:1000]}")
    assert headers.websocket_accept(b"dGhlIHNhbXBsZSBub25jZQ==") == "s3pPLMBiTxaQ9kYGzzhZRbK+xOo="
    print(f"{rows} rows from Python, {wrong} answered otherwise")
    return 1 if wrong or not rows else 0


if __name__ == "__main__":
    sys.exit(main(sys.argv[1:]))
