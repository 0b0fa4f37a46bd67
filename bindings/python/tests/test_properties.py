"""Random calls of all that the package has: none crashes or leaks, and values are values, also for eight threads.

`TYPED_HEADERS_CALLS=1000000` makes as many calls, and not 3,000; `TYPED_HEADERS_SEED` makes other ones. Then the counts
are printed: of calls, and of what was allocated before and after.
"""

import ctypes
import gc
import os
import pickle
import sys
import tempfile
import threading
import time
import unittest
from collections import defaultdict
from concurrent.futures import ThreadPoolExecutor
from datetime import datetime, timedelta, timezone
from enum import Enum
from functools import partial
from random import Random
from typing import Any, Callable, Counter, Dict, List, NamedTuple, Tuple, cast

import typed_headers as it
from typed_headers import asgi, audit, connection, inspection, wsgi
from typed_headers._names import FIELDS

# (it keeps tables in the present folder otherwise)
STORED = tempfile.TemporaryDirectory()
os.environ.setdefault("HYPOTHESIS_STORAGE_DIRECTORY", STORED.name)
try:
    from hypothesis import HealthCheck, given, seed, settings
    from hypothesis import strategies as some
except ImportError as error:
    raise unittest.SkipTest(f"hypothesis isn't installed: {error}") from None

CALLS = int(os.environ.get("TYPED_HEADERS_CALLS", "3000"))
SEED = int(os.environ.get("TYPED_HEADERS_SEED", "1"))
#: How many calls hypothesis draws, which takes it longer than the calls. The others have arguments of several of these.
DRAWN = min(CALLS, 50_000)
Call = Callable[[], object]

# Texts: of any bytes, and of what fields are made of.

WORDS = (
    'a b Z 0 1 -1 +5 007 60 184467440737095516 18446744073709551616 = , ; : / * " \\ \\" \t ( ) < > @ ? [::1] é \xff '
    'q=0 q=0.5 text/html */* gzip br identity en-GB max-age no-cache private public stale-if-error bytes= bytes - W/ '
    '"a" W/"b" chunked close null https://a.example a.example:80 Basic Bearer QWxhZGRpbjpvcGVuIHNlc2FtZQ== inline '
    "attachment filename=x SID=31d4 lang no-referrer origin 13 websocket Upgrade max-age=1 includeSubDomains 1.1"
).split(" ")
DATE = "Sun, 06 Nov 1994 08:49:37 GMT"
BYTES = [chr(code) for code in range(256)]
MADE = some.lists(some.sampled_from([*WORDS, " ", ", ", DATE, "=", '"']), max_size=8).map("".join)


def to_bytes(text: str) -> bytes:
    return text.encode("latin-1")


ANY_TEXT = some.one_of(MADE, MADE, some.text(BYTES, max_size=12), some.text(max_size=6))
#: A text of a field, as each type that has it.
TEXT = some.one_of(ANY_TEXT, *(some.builds(kind, MADE.map(to_bytes)) for kind in (bytes, bytearray, memoryview)))
LINES = some.lists(TEXT, min_size=1, max_size=3)
NAME = some.one_of(
    some.sampled_from(sorted(FIELDS)), some.sampled_from(["accept", "authorization", "via", "x-a", "", "a b"])
)
LINE = some.one_of(MADE, some.sampled_from(["", "60", '"a"', DATE, "bytes=0-4", "gzip;q=0.5, br", "a=1; b=2"]))
PAIRS = some.lists(some.tuples(NAME, LINE), max_size=5)
SECTION = some.one_of(
    PAIRS,
    PAIRS.map(lambda pairs: dict(pairs)),
    PAIRS.map(lambda pairs: [(name.encode(), line.encode("latin-1", "ignore")) for name, line in pairs]),
    some.lists(MADE, max_size=4).map("\r\n".join),
    some.binary(max_size=40),
    some.builds(dict, some.just({"Host": "a.example", "If-None-Match": '"a"', "Range": "bytes=-3", "Origin": "null"})),
)
METHOD = some.sampled_from(["GET", "HEAD", "PUT", "POST", "OPTIONS", "DELETE", "get", "", "a b"])
NUMBER = some.one_of(some.integers(0, 999), some.sampled_from([-1, 2**16, 2**63, 2**64 - 1, 2**64]))
STATUS = some.sampled_from([0, 100, 200, 204, 206, 301, 304, 404, 412, 500, 999, 1000, 2**16])
TIME = some.one_of(NUMBER, some.datetimes(timezones=some.sampled_from([timezone.utc, timezone(timedelta(hours=2))])))
SOMETIMES_TIME = some.one_of(some.none(), TIME)
BOOL = some.booleans()
VERSION = some.sampled_from([10, 11, 20, 9, 0])
TAG = some.one_of(some.none(), some.sampled_from(['"a"', 'W/"b"', it.ETag("a"), "a"]))
TEXTS = some.lists(MADE, max_size=3)
MESSAGE = some.lists(MADE, max_size=6)
#: What isn't of the type that is wanted.
WRONG = some.one_of(some.none(), some.integers(), some.floats(), some.just([1]), some.just({1: 2}), some.just(object()))


def call(function: Callable[..., object], *arguments: Any, **named: Any) -> Any:
    return some.builds(partial, some.just(function), *arguments, **named)


def of_lines(function: Callable[..., object], *first: Any) -> Any:
    return some.tuples(some.tuples(*first), LINES).map(lambda given: partial(function, *given[0], *given[1]))


def wrong(function: Callable[..., object], *arguments: Any) -> Any:
    """Calls with one argument of another type."""

    def replaced(drawn: Tuple[int, Any, Tuple[Any, ...]]) -> Call:
        place, other, given = drawn
        return partial(ignore_types, function, *given[: place % len(given)], other, *given[place % len(given) + 1 :])

    return some.tuples(some.integers(0, 7), WRONG, some.tuples(*arguments)).map(replaced)


def ignore_types(function: Callable[..., object], *given: Any) -> object:
    """A call that may find fault with the types of its arguments, by an exception that says so."""
    try:
        return function(*given)
    except (TypeError, ValueError, AttributeError):
        return None


TARGET = some.builds(it.Target, TAG, SOMETIMES_TIME, BOOL, BOOL)
HOP = some.builds(
    it.Hop,
    some.sampled_from([None, "192.0.2.1", "::1", "_p", "a b"]),
    some.sampled_from([None, 80, 2**16]),
    is_secure=BOOL,
    is_trusted=BOOL,
    writes_forwarded=BOOL,
    writes_x_forwarded=BOOL,
    tells_host=BOOL,
    closes=BOOL,
    server_version=VERSION,
)
SHOWN = some.builds(
    it.Representation,
    some.sampled_from([None, "text/html", "a\n"]),
    some.one_of(some.none(), NUMBER),
    TAG,
    SOMETIMES_TIME,
    some.sampled_from([None, "en", "de"]),
    some.sampled_from([None, "gzip", "br"]),
    BOOL,
    BOOL,
)
DENIED = call(it.Denied, some.sampled_from([401, 403, 429, 503, 404]), MADE, some.one_of(some.none(), NUMBER))


def named(needed: Dict[str, Any], more: Dict[str, Any]) -> Any:
    """Arguments by names, of which some may be missing."""
    found: Any = some.fixed_dictionaries(needed, optional=more)
    return found


def ask_resource(methods: Any, shown: Any, options: Any, asked: Any, named: Any) -> object:
    return it.Resource(methods, shown, **options).answer(*asked, **named)


def ask_policy(make: Callable[[], it.CorsPolicy], *asked: Any) -> object:
    return make().answer(*asked)


def ask_gateway(make: Callable[[], it.Gateway], *asked: Any) -> object:
    return make().forward_request(*asked)


RESOURCE = some.tuples(
    some.lists(some.one_of(METHOD, some.builds(it.Method, METHOD, MADE, MADE, BOOL, BOOL)), max_size=3),
    some.lists(SHOWN, max_size=3),
    named(
        {"state": some.sampled_from(list(it.State)), "is_strict": BOOL, "by_media_type": BOOL, "by_coding": BOOL},
        {
            "location": MADE,
            "hosts": TEXTS,
            "by_language": BOOL,
            "boundary": MADE,
            "needs_length": BOOL,
            "limit": some.one_of(some.none(), NUMBER),
            "implemented": TEXTS,
            "cors": some.just(it.CorsPolicy("*")),
        },
    ),
    some.tuples(METHOD, SECTION),
    named(
        {},
        {
            "target": MADE,
            "length": some.one_of(some.none(), NUMBER),
            "version": VERSION,
            "now": SOMETIMES_TIME,
            "denied": some.just(it.Denied(429, retry_after=5)),
        },
    ),
).map(lambda drawn: partial(ask_resource, *drawn))
OPTIONS = {"shared": BOOL}
TIMES = some.builds(it.Times, TIME, TIME, SOMETIMES_TIME)


def take_steps(options: Any, steps: Any) -> None:
    """Passes through one cache, whose steps come in any order."""
    with it.Cache(**options) as cache:
        passes: List[it.Pass] = []
        for step, place, now, method, target, fields in steps:
            try:
                if step == "begin" or not passes:
                    passes.append(cache.begin(method, f"https://a.example/{target}", fields, now=now))
                elif step == "remove":
                    cache.remove(f"https://a.example/{target}")
                else:
                    one = passes[place % len(passes)]
                    given = {"came": (200, fields), "received": (b"content",)}.get(step, ())
                    getattr(one, step)(*given, **({"now": now} if step not in ("received", "close") else {}))
            except (it.HeaderError, it.OutOfOrder):
                pass


def converse(pieces: Any, status: Any, fields: Any, content: Any) -> None:
    """One connection, whose input comes in pieces, and whose requests get the same response."""
    one = it.Connection(most_content=100)
    try:
        for piece in pieces:
            one.receive_data(piece)
            event = one.next_event()
            while not isinstance(event, (connection.Waiting, connection.ConnectionClosed)):
                event = one.next_event()
            if event is connection.PAUSED:
                one.send(connection.Response(status, fields))
                one.send(connection.Data(content))
                one.send(connection.EndOfMessage())
            one.data_to_send()
    except (it.HeaderError, connection.LocalProtocolError):
        pass
    finally:
        one.close()


CONNECTION = some.tuples(
    some.lists(
        some.sampled_from(
            [
                b"GET / HTTP/1.1\r\nHost: a.example\r\n\r\n",
                b"POST / HTTP/1.1\r\nHost: a.example\r\nContent-Length: 5\r\n\r\nhello",
                b"POST / HTTP/1.1\r\nHost: a.example\r\nContent-Length: 500\r\n\r\n",
                b"\r\n",
                b"G",
                b"",
            ]
        ),
        max_size=5,
    ),
    STATUS,
    some.sampled_from([(), ((b"content-length", b"5"),), ((b"a b", b""),), ((b"connection", b"close"),)]),
    some.sampled_from([b"", b"hello"]),
).map(lambda drawn: partial(converse, *drawn))
PASSES = some.tuples(
    named({"shared": BOOL}, {"wait": some.just(5), "responses": some.integers(0, 3), "guess": NUMBER}),
    some.lists(
        some.tuples(
            some.sampled_from("begin came received ended failed resume validation close remove".split()),
            some.integers(0, 3),
            some.integers(0, 200),
            METHOD,
            some.integers(0, 1),
            some.sampled_from([{"Cache-Control": "max-age=60"}, {"ETag": '"a"'}, {"Vary": "*"}, {}, {"Age": "5"}]),
        ),
        max_size=8,
    ),
).map(lambda drawn: partial(take_steps, *drawn))


def by_wsgi(make: Callable[[Any], Any]) -> Any:
    """An application that answers a request with such fields."""

    def ask(method: Any, fields: Any, answer: Any, content: bytes) -> None:
        environ = {f"HTTP_{name.upper().replace('-', '_')}": line for name, line in fields}

        def application(environ: Any, start_response: Any) -> Any:
            start_response("200 OK", [pair for pair in answer if "\n" not in "".join(pair)])
            return [content]

        given = make(application)(
            {"REQUEST_METHOD": method, "PATH_INFO": "/", "HTTP_HOST": "a", "wsgi.url_scheme": "http", **environ},
            lambda status, fields, problem=None: None,
        )
        b"".join(given)
        getattr(given, "close", lambda: None)()

    return call(ask, METHOD, PAIRS, PAIRS, some.binary(max_size=20))


PARAMETERS = some.lists(some.tuples(NAME, some.one_of(some.none(), MADE)), max_size=3)
SERVED = wsgi.Served(it.Resource(["GET"], [it.Representation("text/plain", 4, '"a"')]), lambda place: b"milk")
POLICY = it.CorsPolicy(["https://a.example"], ["PUT"], "*", "*", 60)
def tags_of(tags: List[Tuple[str, bool]], is_any: bool) -> it.ETags:
    return it.ETags(tuple(it.ETag(*tag) for tag in tags), is_any)


# The types of fields that are one number, one time, one text or one list.
NUMBERS = "AccessControlMaxAge Age ContentLength".split()
TIMES_OF_FIELDS = "Date Expires IfModifiedSince IfUnmodifiedSince LastModified".split()
TEXTS_OF_FIELDS = (
    "AccessControlRequestMethod ContentLocation Location Pragma Referer SecWebSocketAccept SecWebSocketKey Server Upgrade "
    "UserAgent"
).split()
LISTS = (
    "AcceptRanges AccessControlAllowHeaders AccessControlAllowMethods AccessControlExposeHeaders "
    "AccessControlRequestHeaders Allow ConnectionOptions ContentEncoding TE TransferEncoding Vary"
).split()

VALUES: Dict[str, Any] = {
    "CacheControl": call(
        it.CacheControl,
        max_age=some.one_of(some.none(), NUMBER),
        no_cache=BOOL,
        public=BOOL,
        stale_if_error=some.one_of(some.none(), NUMBER),
        private_fields=some.lists(some.one_of(NAME, MADE), max_size=2),
    ),
    **{
        name: call(getattr(it, name), some.lists(some.builds(it.Element, ANY_TEXT, PARAMETERS), max_size=3))
        for name in ("Accept", "AcceptEncoding", "AcceptLanguage")
    },
    "CacheStatus": call(
        it.CacheStatus,
        ANY_TEXT,
        BOOL,
        some.one_of(some.none(), ANY_TEXT),
        *(some.one_of(some.none(), NUMBER) for _ in range(2)),
        BOOL,
        BOOL,
        *(some.one_of(some.none(), ANY_TEXT) for _ in range(2)),
    ),
    "Challenge": call(it.Challenge, ANY_TEXT, PARAMETERS, some.one_of(some.none(), ANY_TEXT)),
    "ContentDisposition": call(
        it.ContentDisposition,
        some.sampled_from(["", "inline", "attachment", "form-data"]),
        some.one_of(some.none(), ANY_TEXT, some.text(max_size=5)),
        PARAMETERS,
    ),
    "Forwarded": call(it.Forwarded, PARAMETERS),
    "Link": call(it.Link, ANY_TEXT, PARAMETERS),
    "SetCookie": call(
        it.SetCookie,
        ANY_TEXT,
        ANY_TEXT,
        some.one_of(some.none(), some.just("/"), ANY_TEXT),
        some.one_of(some.none(), ANY_TEXT),
        max_age=some.one_of(some.none(), NUMBER),
        secure=BOOL,
        same_site=some.sampled_from([None, "Lax", "None", "x"]),
        others=PARAMETERS,
    ),
    "ContentRange": call(
        it.ContentRange,
        some.one_of(some.none(), some.builds(it.ByteRange, some.integers(0, 9), some.integers(0, 9))),
        some.one_of(some.none(), NUMBER),
    ),
    "Cookie": call(it.Cookie, some.lists(some.tuples(MADE, MADE), max_size=3)),
    "Credentials": some.one_of(call(it.Credentials, ANY_TEXT, ANY_TEXT), call(it.Credentials, token=ANY_TEXT)),
    "ETag": call(it.ETag, ANY_TEXT, BOOL),
    "ETags": call(tags_of, some.lists(some.tuples(ANY_TEXT, BOOL), max_size=3), BOOL),
    "Host": call(it.Host, ANY_TEXT, some.one_of(some.none(), NUMBER)),
    "IfRange": some.one_of(
        call(lambda *tag: it.IfRange(it.ETag(*tag)), ANY_TEXT, BOOL),
        call(it.IfRange, date=some.datetimes(timezones=some.just(timezone.utc))),
    ),
    "MediaType": call(
        it.MediaType,
        some.sampled_from(["text", "Image", "a b", ""]),
        some.sampled_from(["html", "*", ""]),
        some.lists(some.tuples(some.sampled_from(["q", "Charset", "a b"]), MADE), max_size=2),
    ),
    "Origin": call(
        it.Origin, some.sampled_from(["https", "", "a b", "http"]), ANY_TEXT, some.one_of(some.none(), NUMBER)
    ),
    "Range": some.one_of(
        call(it.Range, MADE.map("bytes={}".format)),
        some.lists(some.tuples(some.one_of(some.none(), NUMBER), some.one_of(some.none(), NUMBER)), max_size=3).map(
            lambda ranges: partial(it.Range.bytes, *ranges)
        ),
    ),
    "ReferrerPolicy": call(it.ReferrerPolicy, some.sampled_from([str(policy) for policy in it.ReferrerPolicy])),
    "RetryAfter": some.one_of(
        call(it.RetryAfter, some.timedeltas(timedelta(-1))),
        call(it.RetryAfter, date=some.datetimes(timezones=some.just(timezone.utc))),
    ),
    "StrictTransportSecurity": call(it.StrictTransportSecurity, NUMBER, BOOL),
    "AccessControlAllowCredentials": call(it.AccessControlAllowCredentials, BOOL),
    **{
        name: call(getattr(it, name), some.one_of(NUMBER, some.just(13)))
        for name in (*NUMBERS, "SecWebSocketVersion")
    },
    **{name: call(getattr(it, name), TIME) for name in TIMES_OF_FIELDS},
    **{
        name: call(getattr(it, name), some.one_of(ANY_TEXT, some.sampled_from(["*", "100-continue", "PUT"])))
        for name in (*TEXTS_OF_FIELDS, "AccessControlAllowOrigin", "Expect")
    },
    **{name: call(getattr(it, name), some.lists(ANY_TEXT, max_size=3)) for name in LISTS},
}
#: Those whose values are plain ones, too.
PLAIN: Any = (int, str, tuple, datetime)
TYPES: Dict[str, Any] = {name: getattr(it, name) for name in VALUES}


def parser(kind: Any) -> Callable[..., Any]:
    """What parses field lines to a value of a type, or to all of them."""
    return cast(Callable[..., Any], getattr(kind, "parse", None) or kind.parse_all)


FUNCTIONS: Dict[str, Any] = {
    **{
        name: of_lines(getattr(it, name))
        for name in "age content_length date expires last_modified members websocket_accept".split()
    },
    **{
        name: call(getattr(it, name), SECTION, TEXTS)
        for name in "choose_type choose_coding choose_language look_up_language".split()
    },
    **{name: call(getattr(it, name), SECTION, TEXT) for name in "type_quality coding_quality language_quality".split()},
    **{f"{name}.parse": of_lines(parser(kind)) for name, kind in TYPES.items()},
    **{name: making for name, making in VALUES.items()},
    "canonical_field": of_lines(it.canonical_field, NAME),
    "canonical_section": call(it.canonical_section, SECTION),
    "current_age": call(it.current_age, SECTION, TIMES),
    "decide": call(it.decide, METHOD, SECTION, METHOD, SECTION, SECTION, TIMES, **OPTIONS),
    "evaluate": call(it.evaluate, METHOD, SECTION, TARGET, SOMETIMES_TIME),
    "find_cookie": of_lines(it.find_cookie, TEXT),
    "format_date": call(it.format_date, TIME),
    "framing": call(it.framing, METHOD, SECTION, some.one_of(some.none(), STATUS), VERSION),
    "has_member": of_lines(it.has_member, TEXT),
    "heuristic_lifetime": call(it.heuristic_lifetime, STATUS, SECTION, SOMETIMES_TIME, **OPTIONS),
    "lifetime": call(it.lifetime, SECTION, SOMETIMES_TIME, **OPTIONS),
    "may_store": call(it.may_store, METHOD, SECTION, STATUS, SECTION, **OPTIONS),
    "respond": call(
        it.respond, METHOD, SECTION, TARGET, some.builds(it.Content, some.one_of(some.none(), NUMBER), MADE, BOOL), MADE
    ),
    "select": call(it.select, METHOD, SECTION, TARGET, NUMBER),
    "validators": call(it.validators, SECTION, SOMETIMES_TIME),
    "version": call(it.version),
    "websocket_check": call(it.websocket_check, SECTION, STATUS, SECTION),
    "websocket_request": call(
        it.websocket_request, some.one_of(some.binary(min_size=16, max_size=16), some.binary(max_size=3))
    ),
    "websocket_respond": call(it.websocket_respond, METHOD, SECTION, TEXTS, TEXTS, VERSION),
    "Cache": PASSES,
    "CorsPolicy": some.tuples(
        call(
            it.CorsPolicy,
            TEXTS,
            TEXTS,
            some.one_of(TEXTS, some.just("*")),
            TEXTS,
            some.one_of(some.none(), NUMBER),
            BOOL,
        ),
        METHOD,
        SECTION,
        SECTION,
    ).map(lambda given: partial(ask_policy, *given)),
    "Denied": DENIED,
    "Gateway.forward_request": some.tuples(
        call(it.Gateway, some.sampled_from(["gw", "a b", ""]), TEXTS, BOOL, BOOL),
        METHOD,
        SECTION,
        HOP,
        VERSION,
        some.one_of(some.none(), TEXT),
    ).map(lambda given: partial(ask_gateway, *given)),
    "Gateway.forward_response": call(
        it.Gateway("gw").forward_response, METHOD, STATUS, SECTION, VERSION, VERSION, SOMETIMES_TIME
    ),
    "Connection": CONNECTION,
    "Headers": call(lambda given: use(it.Headers(given)), SECTION),
    "Resource": RESOURCE,
    "Section": call(lambda given: use(it.Section(given)), SECTION),
    "inspect": call(lambda lines: str(inspection.inspect("\n".join(lines) or "a: b")), MESSAGE),
    "audit": call(
        lambda lines: audit.map_partition([audit.Exchange("", "\n".join(lines).encode("latin-1", "replace"))]), MESSAGE
    ),
    "wsgi.Cached": by_wsgi(lambda app: wsgi.Cached(app, it.Cache(shared=True, responses=4))),
    "wsgi.ConditionalRequests": by_wsgi(lambda app: wsgi.ConditionalRequests(app, tags=True)),
    "wsgi.Cors": by_wsgi(lambda app: wsgi.Cors(app, POLICY)),
    "wsgi.Files": by_wsgi(lambda app: wsgi.Files(os.path.dirname(__file__), precompressed=True)),
    "wsgi.Serves": by_wsgi(lambda app: wsgi.Serves(lambda environ: SERVED)),
    "wrong types": some.one_of(
        wrong(it.age, TEXT),
        wrong(it.CacheControl.parse, TEXT, TEXT),
        wrong(it.ETag, MADE, BOOL),
        wrong(it.Cookie, PAIRS),
        wrong(it.MediaType, MADE, MADE, PAIRS),
        wrong(it.Credentials, MADE, MADE, MADE),
        wrong(it.Host, MADE, NUMBER),
        wrong(it.Origin, MADE, MADE, NUMBER),
        wrong(it.Range, MADE),
        wrong(it.RetryAfter, NUMBER, NUMBER),
        wrong(it.evaluate, METHOD, SECTION, TARGET, TIME),
        wrong(it.select, METHOD, SECTION, TARGET, NUMBER),
        wrong(it.choose_type, SECTION, TEXTS),
        wrong(it.canonical_field, NAME, TEXT),
        wrong(it.Headers, SECTION),
        wrong(it.Section, SECTION),
        wrong(it.format_date, TIME),
        wrong(it.Gateway, MADE, TEXTS),
        wrong(it.CorsPolicy, TEXTS),
        wrong(it.may_store, METHOD, SECTION, STATUS, SECTION),
        wrong(it.framing, METHOD, SECTION, STATUS, VERSION),
        wrong(it.has_member, TEXT, TEXT),
        wrong(it.StrictTransportSecurity, NUMBER, BOOL),
        wrong(it.ContentRange, NUMBER, NUMBER),
    ),
}
#: What has no code of its own: its values are those that calls give or take.
DATA = set(
    "CORS_FIELDS Action Answer Ask ByteRange Content CorsAnswer CorsKind Decision Element Fault Flaw Framing "
    "FramingKind FramingOutcome Handshake HeaderError HeadersLike Hop InvalidField InvalidSection Method OutOfOrder "
    "Pass PassOn Precondition Quality Reason Rejection Reply Representation RequestOutcome Response ResponseOutcome "
    "Selection Sends State Target Times TooLarge Wait __version__".split()
)
CALL = some.sampled_from(sorted(FUNCTIONS)).flatmap(lambda name: some.tuples(some.just(name), FUNCTIONS[name]))


def use(headers: it.Headers) -> None:
    """Asks a section for all that it has."""
    for name, member in vars(it.Headers).items():
        if isinstance(member, property):
            attempt(partial(getattr, headers, name))
    for name in headers:
        attempt(partial(headers.canonical, name))
        headers.lines(name), headers[name], name in headers
    repr(headers), len(headers), headers.raw(), pickle.loads(pickle.dumps(headers)) == headers


class Rejected(NamedTuple):
    """The error by which the library rejects an argument, as it is shown."""

    text: str
    shown: str


def attempt(function: Call) -> object:
    """What a call gives, or how it is rejected."""
    try:
        return function()
    except it.HeaderError as error:
        return Rejected(str(error), repr(error))


def tested(count: int, number: int = 0, **strategies: Any) -> Callable[[Callable[..., None]], Callable[..., None]]:
    """Runs a test with so many random arguments, which are other ones for another number."""

    def decorate(test: Callable[..., None]) -> Callable[..., None]:
        made: Any = seed(1000 * SEED + number)(given(**strategies)(test))
        checks = [HealthCheck.too_slow, HealthCheck.data_too_large, HealthCheck.filter_too_much]
        options: Any = settings(max_examples=max(count, 10), deadline=None, database=None, suppress_health_check=checks)
        ran: Callable[..., None] = options(made)
        return ran

    return decorate


def crossed(draw: Random, one: Any, other: Any) -> Any:
    """An argument of two: one of both, or a beginning of one and an end of the other."""
    if type(one) is not type(other) or draw.random() < 0.5:
        return draw.choice([one, other])
    if isinstance(one, (str, bytes, list)):
        most = 100
        return one[: draw.randint(0, min(len(one), most))] + other[draw.randint(0, len(other)) :][:most]
    return {**one, **other} if isinstance(one, dict) else one


def crossed_calls(draw: Random, one: "partial[object]", other: "partial[object]") -> "partial[object]":
    """A call of the same with arguments of both."""
    # (a text of an enumeration is one of its own)
    if one.func is not other.func or isinstance(one.func, type) and issubclass(one.func, Enum):
        return one
    arguments = [
        first if callable(first) else crossed(draw, first, second) for first, second in zip(one.args, other.args)
    ]
    named = {name: draw.choice([one, other]).keywords.get(name, value) for name, value in one.keywords.items()}
    return partial(one.func, *arguments, *one.args[len(arguments) :], **named)


class MallInfo(ctypes.Structure):
    """What the C library's `mallinfo2` tells."""

    names = "arena ordblks smblks hblks hblkhd usmblks fsmblks uordblks fordblks keepcost"
    _fields_ = [(name, ctypes.c_size_t) for name in names.split()]


class Allocated(NamedTuple):
    """How many objects Python's collector knows, how many blocks Python has allocated, and how many bytes C has, as far
    as that can be known."""

    objects: int
    blocks: int
    bytes_of_c: int


def allocated() -> Allocated:
    gc.collect()
    bytes_of_c, tells = 0, getattr(ctypes.CDLL(None), "mallinfo2", None)
    if tells is not None:
        tells.restype = MallInfo
        found = tells()
        bytes_of_c = found.uordblks + found.hblkhd
        del found
    return Allocated(len(gc.get_objects()), sys.getallocatedblocks(), bytes_of_c)


def report(text: str) -> None:
    """Prints what a long run did."""
    if "TYPED_HEADERS_CALLS" in os.environ:
        print(f"{text} ({time.process_time():.0f} s)", file=sys.stderr, flush=True)


def grows_little(calls: List[Call], rounds: int = 50) -> bool:
    """Whether fewer blocks are left of calls than one for each two rounds.

    (What the interpreter keeps for later use grows a few times, a leak each time.)
    """
    for call in calls:
        attempt(call)
    before = allocated()
    for _ in range(rounds):
        for call in calls:
            attempt(call)
    after = allocated()
    return after.blocks - before.blocks < rounds // 2 and after.bytes_of_c - before.bytes_of_c < 16 * rounds // 2


class Calls(unittest.TestCase):
    def test_each_name_is_called(self) -> None:
        called = {name.partition(".")[0] for name in FUNCTIONS}
        self.assertEqual(set(it.__all__) - called, DATA)
        for name in (*wsgi.__all__, *asgi.__all__):
            self.assertTrue(f"wsgi.{name}" in FUNCTIONS or name in ("Result", "Served", "list_alternatives"), name)

    def test_no_call_crashes_or_leaks(self) -> None:
        """Each call ends with a value or a `HeaderError`. A few of each name are made again, many times: what is
        allocated doesn't grow with the rounds."""
        kept: Dict[str, List[Call]] = defaultdict(list)
        ended: Counter[str] = Counter()
        sizes: List[Allocated] = []
        rounds = 10 if CALLS > DRAWN else 1

        def make(name: str, function: Call) -> None:
            ended["rejected" if isinstance(attempt(function), Rejected) else "given a value"] += 1
            if len(kept[name]) < 12:
                kept[name].append(function)

        def ask_all(number: int) -> None:
            for place, (name, making) in enumerate(FUNCTIONS.items()):

                @tested(
                    -(-DRAWN // rounds // len(FUNCTIONS) // 4),
                    len(FUNCTIONS) * number + place,
                    functions=some.lists(making, min_size=4, max_size=4),
                    place=some.integers(0, 2**32),
                )
                def ask(functions: List["partial[object]"], place: int) -> None:
                    draw = Random(place)
                    for function in functions:
                        make(name, function)
                        for _ in range(-(-CALLS // DRAWN) - 1):
                            make(name, crossed_calls(draw, function, draw.choice(functions)))

                with self.subTest(name):
                    ask()

        for number in range(rounds):
            ask_all(number)
            sizes.append(allocated())
        report(f"{sum(ended.values())} calls of {len(kept)} names: {dict(ended)}")
        report(f"allocated after the first tenth: {sizes[0]}")
        report(f"allocated at the end: {sizes[-1]}")
        leaking = [
            name for name, functions in kept.items() if not any(grows_little(functions) for _ in range(8))
        ]
        report(f"{len(leaking)} of {len(kept)} names leak if a call is made again")
        self.assertEqual(leaking, [])
        self.assertLessEqual(sizes[-1].blocks - sizes[0].blocks, sum(ended.values()) // 20)


class Values(unittest.TestCase):
    def judge(self, value: Any) -> None:
        """A value is what its field line encodes, and equal to what is made of it."""
        kind = type(value)
        parsed = [parser(kind)(line) for line in (str(value), str(value).encode("latin-1"))]
        again = [made[0] if isinstance(made, list) else made for made in parsed]
        copies = [*again, pickle.loads(pickle.dumps(value))]
        if isinstance(value, PLAIN):
            copies.append(kind(value.value))
            self.assertEqual((value, hash(value)), (value.value, hash(value.value)))
            self.assertNotIsInstance(value.value, kind)
        elif not isinstance(value, Enum):
            members = {name: getattr(value, name) for name in value.__dataclass_fields__}
            copies.append(kind(**members))
            for name in members:
                with self.assertRaises(AttributeError):
                    setattr(value, name, None)
        for other in copies:
            self.assertEqual(
                (other, hash(other), repr(other), str(other)), (value, hash(value), repr(value), str(value))
            )
            self.assertFalse(other != value)
        self.assertEqual(value == str(value), isinstance(value, str))

    def test_what_is_parsed_and_made(self) -> None:
        for name, kind in TYPES.items():
            with self.subTest(name):

                @tested(DRAWN // 20, make=some.one_of(of_lines(parser(kind)), VALUES[name]))
                def judge(make: Call) -> None:
                    try:
                        made = make()
                    except it.HeaderError:
                        return
                    for value in made if isinstance(made, list) else [made]:
                        self.judge(value)

                judge()

    def test_other_values_are_not_equal(self) -> None:
        @tested(DRAWN // 10, makes=some.lists(some.one_of(*VALUES.values()), min_size=2, max_size=2))
        def judge(makes: List[Call]) -> None:
            try:
                one, other = (cast(Any, make()) for make in makes)
            except it.HeaderError:
                return
            if one == other and isinstance(one, PLAIN):
                self.assertEqual((hash(one), one.value), (hash(other), other.value))
            elif one == other:
                self.assertEqual((hash(one), type(one), str(one)), (hash(other), type(other), str(other)))
            else:
                self.assertNotEqual((type(one), repr(one), str(one)), (type(other), repr(other), str(other)))

        judge()

    def test_dates(self) -> None:
        @tested(DRAWN // 10, seconds=some.integers(0, 253402300799))
        def judge(seconds: int) -> None:
            time = it.date(it.format_date(seconds))
            self.assertEqual((time.timestamp(), it.format_date(time)), (seconds, it.format_date(seconds)))

        judge()

    def test_no_secret_is_shown(self) -> None:
        secrets = some.text("abcdefgh", min_size=6, max_size=9)

        @tested(DRAWN // 10, secret=secrets, end=some.sampled_from(["", "\n", "\x7f", "é", '"', "=", " ", ","]))
        def judge(secret: str, end: str) -> None:
            text = f"XYZ{secret}{end}"
            makes: List[Call] = [
                lambda: it.Credentials("user", text),
                lambda: it.Credentials(token=text),
                lambda: it.Cookie((("SID", text),)),
                lambda: it.Cookie(((f"a;{text}", "1"),)),
                lambda: it.Credentials.parse(f"Basic {text}"),
                lambda: it.Credentials.parse(f"Bearer {text}"),
                lambda: it.Credentials.parse(f"Digest {text}"),
                lambda: it.Cookie.parse(f"SID={text}"),
                lambda: it.find_cookie("SID", f"a{text}\n"),
                lambda: it.Headers({"Authorization": text, "Cookie": text}),
                lambda: it.Section({"Set-Cookie": text}),
                lambda: it.Headers([("Proxy-Authorization", f"Bearer {text}")]).proxy_authorization,
                lambda: it.canonical_field("Set-Cookie", f"{text}\n"),
            ]
            for make in makes:
                shown = attempt(make)
                if not isinstance(shown, str):
                    self.assertNotIn(text[:9], repr(shown))

        judge()


ENVIRON = {"REQUEST_METHOD": "GET", "PATH_INFO": "/__init__.py", "HTTP_HOST": "a", "wsgi.url_scheme": "http"}


def print_nothing(*_: object) -> Any:
    """Takes the head of a response."""


def show(environ: Any, start_response: Any) -> List[bytes]:
    """An application with one response, which caches may store."""
    start_response("200 OK", [("Content-Type", "text/plain"), ("ETag", '"a"'), ("Cache-Control", "max-age=600")])
    return [b"0123456789"]


def apart(count: int, work: Callable[[int], object]) -> List[object]:
    """What so many threads get, which begin together and change places often."""
    barrier, before = threading.Barrier(count), sys.getswitchinterval()

    def run(number: int) -> object:
        barrier.wait()
        return work(number)

    sys.setswitchinterval(1e-6)
    try:
        with ThreadPoolExecutor(count) as pool:
            return list(pool.map(run, range(count)))
    finally:
        sys.setswitchinterval(before)


class Threads(unittest.TestCase):
    def test_eight_threads_over_one_of_each_object(self) -> None:
        fields = {
            "Host": "a",
            "If-None-Match": '"a"',
            "Range": "bytes=0-3",
            "Cache-Control": "max-age=5",
            "Origin": "null",
        }
        gateway, hop = it.Gateway("gw"), it.Hop(client="192.0.2.43")
        resource = it.Resource([it.Method("GET")], [it.Representation("text/plain", 10, '"b"')], cors=POLICY)
        section, headers, file = it.Section(fields), it.Headers(fields), wsgi.Files(os.path.dirname(__file__))
        cache = it.Cache(shared=True)
        self.addCleanup(cache.close)
        first = cache.begin("GET", "https://a.example/", fields, now=1000)
        first.came(200, {"Cache-Control": "max-age=60", "ETag": '"a"'}, now=1000)
        first.received(b"0123456789")
        first.ended(now=1000)
        values: List[Any] = [
            it.ETag("a"),
            it.ETags((it.ETag("a"),)),
            it.IfRange(it.ETag("a")),
            it.MediaType("text", "html", (("q", "1"),)),
            it.CacheControl(max_age=5),
            it.Range("bytes=0-3"),
            it.ContentRange(None, 5),
            it.RetryAfter(timedelta(5)),
            it.StrictTransportSecurity(5),
            it.ReferrerPolicy.ORIGIN,
            it.Credentials("a", "b"),
            it.Cookie((("a", "b"),)),
            it.Host("a"),
            it.Origin("https", "a"),
            it.ContentDisposition("inline"),
            *(kind((it.Element("a"),)) for kind in (it.Accept, it.AcceptEncoding, it.AcceptLanguage)),
            it.CacheStatus("a"),
            it.Challenge("a"),
            it.Forwarded((("for", "a"),)),
            it.Link("a"),
            it.SetCookie("a", "b"),
            it.AccessControlAllowCredentials(True),
            it.AccessControlAllowOrigin("*"),
            it.Expect("100-continue"),
            it.SecWebSocketVersion(13),
            *(getattr(it, name)(5) for name in (*NUMBERS, *TIMES_OF_FIELDS)),
            *(getattr(it, name)("PUT") for name in TEXTS_OF_FIELDS),
            *(getattr(it, name)(("PUT", "a")) for name in LISTS),
        ]
        self.assertEqual({type(value) for value in values}, set(TYPES.values()))
        questions: List[Call] = [
            *(
                partial(lambda value: (str(value), hash(value), repr(value), parser(type(value))(str(value))), value)
                for value in values
            ),
            lambda: (it.evaluate("GET", section, it.Target('"a"')), section.canonical("cache-control"), section.etag),
            lambda: (headers.cache_control, headers.range, headers.pairs(), "host" in headers),
            lambda: POLICY.answer("GET", section).fields,
            lambda: resource.answer("GET", section).fields,
            lambda: gateway.forward_request("GET", section, hop).fields,
            lambda: cache.begin("GET", "https://a.example/", {"Range": "bytes=0-3"}, now=1010).step,
            *(
                partial(lambda application: b"".join(application({**ENVIRON}, print_nothing)), application)
                for application in (
                    file,
                    wsgi.Cached(show, it.Cache(shared=True)),
                    wsgi.ConditionalRequests(show),
                    wsgi.Cors(show, POLICY),
                    wsgi.Serves(lambda environ: SERVED),
                )
            ),
        ]
        wanted = [question() for question in questions]
        rounds = max(20, CALLS // (8 * len(questions)) // 10)

        def ask(number: int, rounds: int = rounds) -> int:
            wrong = 0
            for _ in range(rounds):
                for place in range(len(questions)):
                    at = (place + number) % len(questions)
                    wrong += questions[at]() != wanted[at]
            return wrong

        self.assertEqual(apart(8, ask), [0] * 8)
        before = allocated()
        self.assertEqual(apart(8, ask), [0] * 8)
        report(f"8 threads, {2 * 8 * rounds * len(questions)} calls of {len(questions)} kinds: {before}, {allocated()}")
        # (what starts threads keeps some twenty blocks, a leak eight for each round)
        again: List[Call] = [partial(apart, 8, partial(ask, rounds=1))]
        self.assertTrue(any(grows_little(again, 60) for _ in range(8)))

    def test_eight_threads_over_one_mapping_that_changes(self) -> None:
        """Each sees a section that was whole at some time."""
        headers = it.Headers({"A": "0", "B": "0"})

        def work(number: int) -> int:
            wrong = 0
            for count in range(300):
                if number % 2:
                    headers["A"] = str(count)
                else:
                    wrong += len(headers.pairs()) != 2 or headers.lines("b") != ("0",)
            return wrong

        self.assertEqual(apart(8, work), [0] * 8)


if __name__ == "__main__":
    unittest.main()
