"""Each of the 51 fields: its type, and all that the type of a field has."""

import copy
import pickle
import unittest
from dataclasses import fields
from datetime import datetime, timedelta, timezone
from typing import Any, Dict, List, NamedTuple, Tuple, get_type_hints

import typed_headers as it
from typed_headers import parts
from typed_headers._names import FIELDS, SECRETS

DATE = "Sun, 06 Nov 1994 08:49:37 GMT"
TIME = datetime(1994, 11, 6, 8, 49, 37, tzinfo=timezone.utc)
ORIGIN = it.Origin("https", "a.example")
CONTROL = 'no-cache, no-store, max-age=1, s-maxage=2, stale-if-error=3, private="a"'
OF_TIME = {"value": TIME, "seconds": 784111777, "year": 1994}
#: What is of no member's type.
WRONG: Any = object()
#: What fields are that are one number, text, list or time.
PLAIN: Any = (int, str, tuple, datetime)


class Row(NamedTuple):
    """A field, and what is tested of it."""

    name: str
    kind: Any
    #: A field line of the value, and the canonical one.
    line: str
    canonical: str
    #: The attributes of the value.
    members: Dict[str, Any]
    #: What is made of what the value's type takes, but isn't the value, or is none.
    other: Any
    #: A field line that encodes no value.
    wrong: str = "a\0"
    #: What no `repr` and no error shows: a regular expression.
    secret: str = ""


TABLE = (
    Row("accept-ranges", it.AcceptRanges, "bytes,x", "bytes, x", {"value": ("bytes", "x")}, it.AcceptRanges(["x"])),
    Row("access-control-allow-credentials", it.AccessControlAllowCredentials, "true", "true", {"value": True}, False,
        "false"),
    Row("access-control-allow-headers", it.AccessControlAllowHeaders, "A,b", "A, b", {"value": ("A", "b")},
        it.AccessControlAllowHeaders(["a", "b"])),
    Row("access-control-allow-methods", it.AccessControlAllowMethods, "PUT,x", "PUT, x", {"value": ("PUT", "x")},
        it.AccessControlAllowMethods()),
    Row("access-control-allow-origin", it.AccessControlAllowOrigin, "https://a.example", "https://a.example",
        {"value": "https://a.example", "origin": ORIGIN, "is_any": False}, it.AccessControlAllowOrigin("*"), "a"),
    Row("access-control-expose-headers", it.AccessControlExposeHeaders, "A,b", "A, b", {"value": ("A", "b")},
        it.AccessControlExposeHeaders(["A"])),
    Row("access-control-max-age", it.AccessControlMaxAge, "060", "60", {"value": 60, "duration": timedelta(0, 60)},
        it.AccessControlMaxAge(61), "x"),
    Row("access-control-request-headers", it.AccessControlRequestHeaders, "a,b", "a, b", {"value": ("a", "b")},
        it.AccessControlRequestHeaders(["b", "a"])),
    Row("access-control-request-method", it.AccessControlRequestMethod, "PUT", "PUT", {"value": "PUT"},
        it.AccessControlRequestMethod("put"), "a b"),
    Row("age", it.Age, "+007", "7", {"value": 7, "duration": timedelta(0, 7)}, it.Age(8), "7 days"),
    Row("allow", it.Allow, "GET,HEAD", "GET, HEAD", {"value": ("GET", "HEAD")}, it.Allow(["get", "head"])),
    Row("authorization", it.Credentials, "basic QWxhZGRpbjpvcGVuIHNlc2FtZQ==",
        "Basic QWxhZGRpbjpvcGVuIHNlc2FtZQ==", {"user": "Aladdin", "password": "open sesame", "token": None},
        it.Credentials("Aladdin", "x"), "Basic QWxhZGRpbg!", "sesame|QWxhZG"),
    Row("cache-control", it.CacheControl, CONTROL.upper(), CONTROL.replace('"a"', '"A"'),
        {"no_cache": True, "no_store": True, "public": False, "max_age": 1, "s_maxage": 2, "stale_if_error": 3,
         "private": False, "private_fields": ("A",), "no_cache_fields": (), "min_fresh": None},
        it.CacheControl(max_age=1), "max-age=x"),
    Row("connection", it.ConnectionOptions, "close,X", "close, X", {"value": ("close", "X")},
        it.ConnectionOptions(["close"])),
    Row("content-disposition", it.ContentDisposition, "Attachment;filename=a; b=c", "attachment; filename=a; b=c",
        {"type": "attachment", "filename": "a", "parameters": (("b", "c"),), "is_attachment": True},
        it.ContentDisposition("inline"), "a b"),
    Row("content-encoding", it.ContentEncoding, "gzip,br", "gzip, br", {"value": ("gzip", "br")},
        it.ContentEncoding(["br", "gzip"])),
    Row("content-length", it.ContentLength, "042", "42", {"value": 42}, it.ContentLength(0), "-1"),
    Row("content-location", it.ContentLocation, "/a", "/a", {"value": "/a"}, it.ContentLocation("/b")),
    Row("content-range", it.ContentRange, "bytes 0-4/10", "bytes 0-4/10",
        {"range": it.ByteRange(0, 4), "length": 10}, it.ContentRange(None, 10), "bytes 5-4/10"),
    Row("content-type", it.MediaType, "Text/HTML;Charset=UTF-8", "text/html; charset=utf-8",
        {"type": "text", "subtype": "html", "essence": "text/html", "charset": "utf-8",
         "parameters": (("charset", "utf-8"),)}, it.MediaType("text", "html"), "text"),
    Row("cookie", it.Cookie, "SID=31d4d96e;lang=en", "SID=31d4d96e; lang=en",
        {"pairs": (("SID", "31d4d96e"), ("lang", "en"))}, it.Cookie((("SID", "x"),)), "SID=31d4d96e\0", "31d4d96e"),
    Row("date", it.Date, "Sunday, 06-Nov-94 08:49:37 GMT", DATE, OF_TIME, it.Date(5), "yesterday"),
    Row("etag", it.ETag, 'W/"a"', 'W/"a"', {"opaque": "a", "weak": True}, it.ETag("a"), "a"),
    Row("expect", it.Expect, "100-continue", "100-continue", {"value": "100-continue"}, "200-ok", "200-ok"),
    Row("expires", it.Expires, "Sun Nov  6 08:49:37 1994", DATE, OF_TIME, it.Expires(5), "0"),
    Row("host", it.Host, "a.example:80", "a.example:80", {"name": "a.example", "port": 80}, it.Host("a.example"),
        "a b"),
    Row("if-match", it.ETags, '"a",W/"b"', '"a", W/"b"',
        {"tags": (it.ETag("a"), it.ETag("b", True)), "is_any": False}, it.ETags(is_any=True), "a"),
    Row("if-modified-since", it.IfModifiedSince, DATE, DATE, OF_TIME, it.IfModifiedSince(5), "x"),
    Row("if-none-match", it.ETags, "*", "*", {"tags": (), "is_any": True}, it.ETags(), "a"),
    Row("if-range", it.IfRange, '"a"', '"a"', {"etag": it.ETag("a"), "date": None}, it.IfRange(date=TIME), "a"),
    Row("if-unmodified-since", it.IfUnmodifiedSince, DATE, DATE, OF_TIME, it.IfUnmodifiedSince(5), "x"),
    Row("last-modified", it.LastModified, DATE, DATE, OF_TIME, it.LastModified(5), "x"),
    Row("location", it.Location, "/a", "/a", {"value": "/a"}, it.Location("/A")),
    Row("origin", it.Origin, "https://a.example", "https://a.example",
        {"scheme": "https", "host": "a.example", "port": None, "is_null": False}, it.Origin(), "a"),
    Row("pragma", it.Pragma, "no-cache", "no-cache", {"value": "no-cache"}, it.Pragma("x")),
    Row("proxy-authorization", it.Credentials, "bearer mF_9.B5f-4.1JqM", "Bearer mF_9.B5f-4.1JqM",
        {"user": None, "password": None, "token": "mF_9.B5f-4.1JqM"}, it.Credentials(token="x"), "Digest mF_9.B5f",
        "mF_9.B5f"),
    Row("range", it.Range, "bytes=0-4", "bytes=0-4", {"text": "bytes=0-4"}, it.Range("bytes=0-5"), "items=0-4"),
    Row("referer", it.Referer, "https://a/", "https://a/", {"value": "https://a/"}, it.Referer("https://b/"), "\xe9"),
    Row("referrer-policy", it.ReferrerPolicy, "x, origin", "origin", {"value": "origin", "name": "ORIGIN"},
        it.ReferrerPolicy.NO_REFERRER, "x"),
    Row("retry-after", it.RetryAfter, "0120", "120", {"delay": timedelta(0, 120), "date": None},
        it.RetryAfter(date=TIME), "x"),
    Row("sec-websocket-accept", it.SecWebSocketAccept, "s3pPLMBiTxaQ9kYGzzhZRbK+xOo=", "s3pPLMBiTxaQ9kYGzzhZRbK+xOo=",
        {"value": "s3pPLMBiTxaQ9kYGzzhZRbK+xOo="}, it.SecWebSocketAccept("x")),
    Row("sec-websocket-key", it.SecWebSocketKey, "dGhlIHNhbXBsZSBub25jZQ==", "dGhlIHNhbXBsZSBub25jZQ==",
        {"value": "dGhlIHNhbXBsZSBub25jZQ=="}, it.SecWebSocketKey("x")),
    Row("sec-websocket-version", it.SecWebSocketVersion, "13", "13", {"value": 13}, 12, "12"),
    Row("server", it.Server, "x/1", "x/1", {"value": "x/1"}, it.Server("x/2"), "\xe9"),
    Row("set-cookie", it.SetCookie, "SID=31d4d96e;path=/; secure", "SID=31d4d96e; Path=/; Secure",
        {"name": "SID", "value": "31d4d96e", "path": "/", "domain": None, "max_age": None, "secure": True,
         "http_only": False, "same_site": None, "is_allowed": True}, it.SetCookie("SID", "x"), "31d4d96e", "31d4d96e"),
    Row("strict-transport-security", it.StrictTransportSecurity, "MAX-AGE=60; includesubdomains",
        "max-age=60; includeSubdomains", {"max_age": 60, "include_subdomains": True}, it.StrictTransportSecurity(60),
        "includeSubDomains"),
    Row("te", it.TE, "trailers,a;q=0.5", "trailers, a;q=0.5", {"value": ("trailers", "a;q=0.5")}, it.TE(["a"])),
    Row("transfer-encoding", it.TransferEncoding, "gzip,chunked", "gzip, chunked", {"value": ("gzip", "chunked")},
        it.TransferEncoding(["chunked"])),
    Row("upgrade", it.Upgrade, "websocket", "websocket", {"value": "websocket"}, it.Upgrade("h2c")),
    Row("user-agent", it.UserAgent, "curl", "curl", {"value": "curl"}, it.UserAgent("Curl"), "\xe9"),
    Row("vary", it.Vary, "A,b", "A, b", {"value": ("A", "b"), "is_any": False}, it.Vary(["*"])),
)


def attribute(headers: it.Headers, row: Row) -> Any:
    """The value of the field, of which some messages have several."""
    found = getattr(headers, row.name.replace("-", "_"))
    return found[0] if isinstance(found, list) else found


class EachField(unittest.TestCase):
    """Each test walks the whole table: there is no field that it leaves out."""

    def rows(self) -> List[Tuple[Row, Any]]:
        return [(row, row.kind.parse(row.line)) for row in TABLE]

    def test_the_table_has_all_fields(self) -> None:
        names = [row.name for row in TABLE]
        self.assertEqual((len(TABLE), names), (51, sorted(names)))
        self.assertEqual(set(names), {*FIELDS, "authorization", "proxy-authorization"})
        self.assertEqual({row.name for row in TABLE if row.secret}, set(SECRETS))

    def test_the_type_is_the_packages_own(self) -> None:
        for row, value in self.rows():
            with self.subTest(row.name):
                self.assertIs(type(value), row.kind)
                self.assertIs(getattr(it, row.kind.__name__), row.kind)
                self.assertIn(row.kind.__name__, it.__all__)
                hint = get_type_hints(getattr(it.Headers, row.name.replace("-", "_")).fget, localns={"parts": parts})
                self.assertIn(row.kind.__name__, str(hint["return"]))

    def test_parse(self) -> None:
        for row, value in self.rows():
            with self.subTest(row.name):
                data = row.line.encode("latin-1")
                for line in (data, bytearray(data), memoryview(data)):
                    self.assertEqual(row.kind.parse(line), value)
                for kind in (it.Headers, it.Section):
                    found = attribute(kind([(row.name.title(), row.line)]), row)
                    self.assertEqual((found, type(found)), (value, row.kind))
                self.assertIsNone(attribute(it.Headers(), row))
                for wrong in (row.wrong, f"{row.line}\0", f"{row.line}\n"):
                    with self.assertRaises(it.InvalidField):
                        row.kind.parse(wrong)
                with self.assertRaises(it.InvalidField) as caught:
                    attribute(it.Headers(f"{row.name}: {row.wrong}\n".encode("latin-1")), row)
                self.assertEqual(caught.exception.field, row.name)
                with self.assertRaises(TypeError):
                    row.kind.parse(WRONG)

    def test_attributes(self) -> None:
        for row, value in self.rows():
            with self.subTest(row.name):
                self.assertTrue(row.members)
                found = {name: getattr(value, name) for name in row.members}
                self.assertEqual(found, row.members)
                self.assertEqual([*map(type, found.values())], [*map(type, row.members.values())])

    def test_str(self) -> None:
        for row, value in self.rows():
            with self.subTest(row.name):
                self.assertEqual((str(value), type(str(value)), f"{value}"), (row.canonical, str, row.canonical))
                self.assertEqual(row.kind.parse(str(value)), value)
                if row.name in FIELDS:
                    plain = row.canonical.replace(', stale-if-error=3, private="A"', "")
                    self.assertEqual(it.canonical_field(row.name, str(value)), [plain])

    def test_equality_and_hash(self) -> None:
        for row, value in self.rows():
            with self.subTest(row.name):
                again = row.kind.parse(row.canonical)
                self.assertEqual((value == again, value != again, hash(value)), (True, False, hash(again)))
                self.assertEqual((value == row.other, value != row.other, row.other == value), (False, True, False))
                self.assertEqual(({value: 1}[again], {value, again}), (1, {value}))
                for other in (WRONG, None):
                    self.assertEqual((value == other, value != other), (False, True))
                if isinstance(value, PLAIN):
                    # (it is its plain value to all that take one)
                    self.assertEqual((value == value.value, value.value == value), (True, True))
                    self.assertEqual((hash(value), value != value.value), (hash(value.value), False))
                if issubclass(row.kind, tuple):
                    self.assertEqual((value == [*value], [*value] == value, value != [*value]), (True, True, False))

    def test_pickling_and_copies(self) -> None:
        for row, value in self.rows():
            with self.subTest(row.name):
                copies = [pickle.loads(pickle.dumps(value, number)) for number in range(pickle.HIGHEST_PROTOCOL + 1)]
                for made in (*copies, copy.copy(value), copy.deepcopy(value)):
                    self.assertEqual(
                        (made, type(made), hash(made), str(made), repr(made)),
                        (value, row.kind, hash(value), str(value), repr(value)),
                    )

    def test_repr(self) -> None:
        for row, value in self.rows():
            with self.subTest(row.name):
                self.assertIn(row.kind.__name__, repr(value))
                if not row.secret:
                    continue
                shown = [repr(value), *(repr(kind([(row.name, row.line)])) for kind in (it.Headers, it.Section))]
                for wrong in (row.wrong, f"{row.line}\0"):
                    with self.assertRaises(it.InvalidField) as caught:
                        row.kind.parse(wrong)
                    shown += [str(caught.exception), repr(caught.exception)]
                for text in shown:
                    self.assertNotRegex(text, row.secret)

    def test_construction_is_checked(self) -> None:
        for row, value in self.rows():
            with self.subTest(row.name):
                if not hasattr(row.kind, "__dataclass_fields__"):
                    self.assertEqual(row.kind(value.value), value)
                    for wrong in (WRONG, None, [WRONG], b"a"):
                        with self.assertRaisesRegex(TypeError, f"^{row.name}: expected .*, not "):
                            row.kind(wrong)
                    continue
                members = {member.name: getattr(value, member.name) for member in fields(row.kind)}
                self.assertEqual(row.kind(**members), value)
                for name in members:
                    with self.assertRaisesRegex(TypeError, f"^{name}: expected .*, not object$"):
                        row.kind(**{**members, name: WRONG})

    def test_values_do_not_change(self) -> None:
        for row, value in self.rows():
            with self.subTest(row.name):
                for name in row.members:
                    with self.assertRaises(AttributeError):
                        setattr(value, name, row.members[name])


class PlainValues(unittest.TestCase):
    """Fields that are one number, one time, one text or one list."""

    def test_numbers(self) -> None:
        self.assertEqual((it.Age(5) + 1, type(it.Age(5) + 1), f"{it.Age(5):03}"), (6, int, "005"))
        self.assertEqual((str(it.Age(2**64 - 1)), it.Age(2**64 - 1).duration.days), (str(2**64 - 1), 999_999_999))
        for number in (-1, 2**64):
            with self.assertRaisesRegex(it.HeaderError, f"age: {number} isn't from 0 to"):
                it.Age(number)
        with self.assertRaisesRegex(it.InvalidField, "sec-websocket-version: expected the word 13"):
            it.SecWebSocketVersion(12)
        self.assertEqual(it.AccessControlAllowCredentials(), True)
        with self.assertRaisesRegex(it.InvalidField, "access-control-allow-credentials: expected the word true"):
            it.AccessControlAllowCredentials(False)

    def test_times(self) -> None:
        made, east = it.Date(TIME), timezone(timedelta(hours=2))
        self.assertEqual(it.Date(datetime(1994, 11, 6, 10, 49, 37, 999_999, tzinfo=east)), TIME)
        self.assertEqual((it.Date(784111777), it.Date(1994, 11, 6, 8, 49, 37, tzinfo=timezone.utc)), (TIME, TIME))
        self.assertEqual(it.Date.fromtimestamp(784111777, east), TIME)
        self.assertEqual(it.Date.fromisoformat(TIME.isoformat()), TIME)
        self.assertLess(abs(it.Date.now(east) - datetime.now(timezone.utc)), timedelta(minutes=1))
        # What is computed is no field's value any more: it may lie before 1970, and have a fraction of a second.
        early = timedelta(days=36500, microseconds=1)
        for found, wanted in (
            (made + early, TIME + early),
            (early + made, TIME + early),
            (made - early, TIME - early),
            (made.replace(tzinfo=None), TIME.replace(tzinfo=None)),
            (made.astimezone(east), TIME.astimezone(east)),
        ):
            self.assertEqual((found, type(found)), (wanted, datetime))
        self.assertEqual((made - TIME, TIME - made, made - made), (timedelta(0),) * 3)
        self.assertEqual((f"{made:%Y}", made.isoformat(), made < TIME), ("1994", TIME.isoformat(), False))
        self.assertEqual(eval(repr(made), {"Date": it.Date, "datetime": __import__("datetime")}), made)
        wrong: Any
        for wrong in (datetime(1994, 11, 6), -1, 253402300800):
            with self.assertRaisesRegex(it.HeaderError, "^date: "):
                it.Date(wrong)

    def test_texts(self) -> None:
        self.assertEqual((it.Server("x/1").upper(), type(it.Server("x").value)), ("X/1", str))
        for wrong in ("x\n", "x\0", "\xe9"):
            with self.assertRaisesRegex(it.InvalidField, "^server: "):
                it.Server(wrong)
        with self.assertRaisesRegex(it.HeaderError, "character 0, '€', is no byte"):
            it.Location("€")
        origin = it.AccessControlAllowOrigin("null").origin
        self.assertEqual((origin, origin and origin.is_null), (it.Origin(), True))
        self.assertIsNone(it.AccessControlAllowOrigin("*").origin)

    def test_lists(self) -> None:
        options = it.ConnectionOptions.parse("Close", "upgrade,,")
        self.assertEqual((len(options), options[0], list(options)), (2, "Close", ["Close", "upgrade"]))
        self.assertTrue(options.has("close") and options.has(b"UPGRADE") and "close" not in options)
        self.assertTrue(it.Allow(["GET"]).has("GET") and not it.Allow(["GET"]).has("get"))
        self.assertEqual((it.Vary(), str(it.Vary()), it.Vary(["*"]).is_any), ((), "", True))
        for wrong in (["a,b"], [""], [" a"], ["\xe9"]):
            with self.assertRaisesRegex(it.HeaderError, "^vary: "):
                it.Vary(wrong)
        for text in ("GET", b"GET"):
            with self.assertRaisesRegex(TypeError, "^allow: expected several str|^allow: expected str"):
                it.Allow(text)  # type: ignore[arg-type]
