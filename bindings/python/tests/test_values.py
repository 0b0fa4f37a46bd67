"""Values: what they take, what they print, and what they reject."""

import copy
import multiprocessing
import pickle
import unittest
from concurrent.futures import ProcessPoolExecutor
from dataclasses import fields
from datetime import datetime, timedelta, timezone
from random import Random
from typing import Any, Callable, List, Tuple, get_type_hints

from typed_headers import (
    ByteRange,
    CacheControl,
    Content,
    ContentRange,
    Cookie,
    CorsPolicy,
    Credentials,
    ETag,
    ETags,
    Gateway,
    HeaderError,
    Headers,
    Hop,
    Host,
    IfRange,
    InvalidField,
    InvalidSection,
    MediaType,
    Method,
    Origin,
    Range,
    ReferrerPolicy,
    Representation,
    Resource,
    RetryAfter,
    Section,
    StrictTransportSecurity,
    Target,
    age,
    canonical_field,
    canonical_section,
    content_length,
    date,
    expires,
    find_cookie,
    format_date,
    has_member,
    last_modified,
    members,
    websocket_accept,
)

from typed_headers._names import FIELDS

# The example of RFC 9110, section 5.6.7, in the three formats.
DATES = ("Sun, 06 Nov 1994 08:49:37 GMT", "Sunday, 06-Nov-94 08:49:37 GMT", "Sun Nov  6 08:49:37 1994")
TIME = datetime(1994, 11, 6, 8, 49, 37, tzinfo=timezone.utc)


class Texts(unittest.TestCase):
    def test_each_type_of_text(self) -> None:
        texts: Any = ("7", b"7", bytearray(b"7"), memoryview(b"7"), memoryview(b"x7x")[1:2])
        for text in texts:
            self.assertEqual(age(text), 7)

    def test_other_types_are_rejected(self) -> None:
        wrong: Any
        for wrong in (7, None, ["7"], 7.0):
            with self.assertRaises(TypeError):
                age(wrong)

    def test_a_character_that_is_no_byte(self) -> None:
        with self.assertRaisesRegex(HeaderError, "character 1, '€', is no byte"):
            age("7€")

    def test_a_byte_that_no_value_has(self) -> None:
        for text, place in (("7\n", 1), ("7\r", 1), ("\0", 0), ("ab\x7f", 2)):
            with self.assertRaises(InvalidField) as caught:
                age(text)
            self.assertEqual((caught.exception.field, caught.exception.line, caught.exception.byte), ("age", 0, place))
        with self.assertRaisesRegex(InvalidField, "age: byte 1 of field line 1 is 0x0A"):
            age("7", "8\n")


class Errors(unittest.TestCase):
    def test_copies_and_other_processes(self) -> None:
        with self.assertRaises(InvalidField) as caught:
            age("7", "8\0")
        error = caught.exception
        for made in (copy.copy(error), pickle.loads(pickle.dumps(error))):
            self.assertIs(type(made), InvalidField)
            self.assertEqual((str(made), vars(made), made.args), (str(error), vars(error), error.args))
        with self.assertRaises(InvalidSection) as section:
            canonical_section("Age: 7\nno field\n")
        again = pickle.loads(pickle.dumps(section.exception))
        self.assertEqual((str(again), again.line), (str(section.exception), 1))
        with ProcessPoolExecutor(1, multiprocessing.get_context("spawn")) as pool:
            with self.assertRaisesRegex(InvalidField, "not '7 days'") as other:
                pool.submit(age, "7 days").result()
        self.assertEqual((other.exception.field, other.exception.lines), ("age", (b"7 days",)))


class Numbers(unittest.TestCase):
    def test_numbers(self) -> None:
        self.assertEqual(age("+007"), 7)
        self.assertEqual(age("18446744073709551615"), 2**64 - 1)
        self.assertEqual(content_length("5", "5"), 5)

    def test_rejected_numbers_say_why(self) -> None:
        with self.assertRaises(InvalidField) as caught:
            age("7", "8")
        message = "age: expected a number of seconds below 2^64 in a single field line (RFC 9111, section 5.1)"
        self.assertEqual(str(caught.exception), f"{message}, not '7', '8'")
        self.assertEqual(caught.exception.lines, (b"7", b"8"))
        for call, lines in ((age, ("18446744073709551616",)), (age, ("",)), (content_length, ("5", "6"))):
            with self.assertRaises(InvalidField):
                call(*lines)

    def test_integers_do_not_wrap(self) -> None:
        calls: Tuple[Callable[[int], object], ...] = (
            lambda it: Range.parse("bytes=0-").satisfiable(it),
            lambda it: CacheControl(max_age=it),
            lambda it: Range.bytes((0, it)),
            lambda it: ContentRange(None, it),
            lambda it: StrictTransportSecurity(it),
            format_date,
        )
        for call in calls:
            for number in (-1, 2**64, 2**64 + 5):
                with self.assertRaises(HeaderError):
                    call(number)
            wrong: Any = "7"
            with self.assertRaises(TypeError):
                call(wrong)


class Times(unittest.TestCase):
    def test_dates(self) -> None:
        for call in (date, expires, last_modified):
            for text in DATES:
                self.assertEqual(call(text), TIME)

    def test_formats(self) -> None:
        self.assertEqual(format_date(TIME), DATES[0])
        zone = timezone(timedelta(hours=2))
        self.assertEqual(format_date(datetime(1994, 11, 6, 10, 49, 37, 999_999, tzinfo=zone)), DATES[0])
        self.assertEqual(format_date(253402300799), "Fri, 31 Dec 9999 23:59:59 GMT")

    def test_times_that_are_no_date(self) -> None:
        with self.assertRaisesRegex(HeaderError, "no time zone"):
            format_date(datetime(1994, 11, 6))
        with self.assertRaisesRegex(HeaderError, "before 1970"):
            format_date(datetime(1969, 12, 31, tzinfo=timezone.utc))
        with self.assertRaisesRegex(HeaderError, "9999"):
            format_date(253402300800)
        with self.assertRaisesRegex(InvalidField, "date: expected an HTTP date"):
            date("yesterday")


class Tags(unittest.TestCase):
    def test_comparison(self) -> None:
        # The table of RFC 9110, section 8.8.3.2.
        table = (
            ('W/"1"', 'W/"1"', False, True),
            ('W/"1"', 'W/"2"', False, False),
            ('W/"1"', '"1"', False, True),
            ('"1"', '"1"', True, True),
        )
        for one, other, strong, weak in table:
            tags = ETag.parse(one), ETag.parse(other)
            self.assertEqual((tags[0].matches_strongly(tags[1]), tags[0].matches_weakly(tags[1])), (strong, weak))
            self.assertEqual((str(tags[0]), str(tags[1])), (one, other))

    def test_made(self) -> None:
        self.assertEqual(str(ETag("a", weak=True)), 'W/"a"')
        self.assertEqual(ETag.parse(b'"\xff"'), ETag("\xff"))
        for opaque in ('a"', "a b", "a\n", "\x7f", 'a", "b'):
            with self.assertRaises(InvalidField):
                ETag(opaque)

    def test_rejected(self) -> None:
        for text in ("", "a", "*", 'w/"a"', '"a', '"a", "b"', 'W/ "a"'):
            with self.assertRaises(InvalidField):
                ETag.parse(text)
        with self.assertRaises(InvalidField):
            ETag.parse('"a"', '"a"')


class MediaTypes(unittest.TestCase):
    def test_parts(self) -> None:
        it = MediaType.parse('Multipart/Form-Data;Boundary="a\\"; b=c";q=1')
        self.assertEqual((it.type, it.subtype, it.essence), ("multipart", "form-data", "multipart/form-data"))
        self.assertEqual(it.parameters, (("boundary", '"a\\"; b=c"'), ("q", "1")))
        self.assertEqual((it.parameter("Boundary"), it.parameter("q"), it.charset), ('a"; b=c', "1", None))
        self.assertEqual(MediaType.parse(str(it)), it)

    def test_made(self) -> None:
        self.assertEqual(MediaType("Text", "HTML", (("Charset", "UTF-8"),)), MediaType.parse("text/html;charset=utf-8"))
        wrong = (("text", "html; a=b", ()), ("text", "", ()), ("a/b", "c", ()), ("a", "b", (("c", "d; e=f"),)))
        for members in wrong:
            with self.assertRaises(InvalidField):
                MediaType(*members)

    def test_rejected(self) -> None:
        for text in ("", "text", "text/", "text/html;a", 'text/html; a="b'):
            with self.assertRaisesRegex(InvalidField, "content-type: expected a media type"):
                MediaType.parse(text)


class Directives(unittest.TestCase):
    def test_all_of_them(self) -> None:
        text = (
            "no-cache, no-store, no-transform, only-if-cached, must-revalidate, public, private, immutable, "
            "must-understand, proxy-revalidate, max-age=1, max-stale=2, min-fresh=3, s-maxage=4"
        )
        it = CacheControl.parse(text)
        self.assertEqual(str(it), text)
        self.assertEqual((it.max_age, it.max_stale, it.min_fresh, it.s_maxage), (1, 2, 3, 4))
        self.assertTrue(it.proxy_revalidate and it.must_understand and it.immutable)
        self.assertEqual(CacheControl.parse(str(it)), it)

    def test_lines_and_ignored_ones(self) -> None:
        self.assertEqual(CacheControl.parse("max-age=1", "MAX-AGE=2, other=x"), CacheControl(max_age=2))
        named = CacheControl.parse('private="set-cookie, proxy-revalidate", No-Cache="X-a\\,b", private=x, no-cache=')
        wanted = CacheControl(private_fields=("set-cookie", "proxy-revalidate", "x"), no_cache_fields=("X-a", "b"))
        self.assertEqual(named, wanted)
        self.assertEqual(CacheControl.parse(str(named)), named)
        self.assertEqual(str(CacheControl()), "")

    def test_lines_that_one_call_parses(self) -> None:
        """They give what all calls give."""
        parts = ["no-cache", "Private", "private=a", "stale-if-error", "Stale-while-revalidate=1", "max-age=2", "=", ","]
        parts += ['"', "\\", "public", "no-cache =b", "x", 'no-cache="a, b"', " ", "s-maxage=x", "proxy-revalidate"]
        draw = Random(1)
        for _ in range(2000):
            lines = ["".join(draw.choices(parts + [", "] * 8, k=draw.randint(1, 7))) for _ in range(draw.randint(1, 2))]
            found: List[str] = []
            for parse in (lambda: CacheControl.parse(*lines), lambda: CacheControl._otherwise(0, tuple(lines))):
                try:
                    found.append(repr(parse()))
                except InvalidField as error:
                    found.append(str(error))
            self.assertEqual(found[0], found[1], lines)

    def test_text_is_canonical(self) -> None:
        names = [name for name, kind in get_type_hints(CacheControl).items() if "stale_" not in name]
        for one in names:
            for other in names:
                given = {it: True if isinstance(getattr(CacheControl(), it), bool) else 5 for it in (one, other)}
                if "_fields" not in one + other:
                    text = str(CacheControl(**given))  # type: ignore[arg-type]
                    self.assertEqual(canonical_field("Cache-Control", text), [text])

    def test_rejected(self) -> None:
        with self.assertRaisesRegex(InvalidField, "cache-control: .*not 'max-age=x'"):
            CacheControl.parse("max-age=x")
        with self.assertRaisesRegex(HeaderError, "private_fields: 'a b' is no field name"):
            CacheControl(private_fields=("a b",))

    def test_stale_ones(self) -> None:
        it = CacheControl.parse("max-age=1, stale-while-revalidate=2", "STALE-IF-ERROR=3, stale-if-error=4")
        self.assertEqual((it.stale_while_revalidate, it.stale_if_error), (2, 3))
        self.assertEqual(str(it), "max-age=1, stale-while-revalidate=2, stale-if-error=3")
        self.assertEqual(CacheControl.parse(str(it)), it)
        self.assertEqual(CacheControl.parse("stale-if-error=x").stale_if_error, 0)
        self.assertIsNone(CacheControl.parse("stale-if-error=3, a b").stale_if_error)


class Ranges(unittest.TestCase):
    def test_satisfiable(self) -> None:
        it = Range.parse("bytes=0-0, x, 5-, -3, 20-")
        self.assertEqual(it.satisfiable(10), [ByteRange(0, 0), ByteRange(5, 9), ByteRange(7, 9)])
        self.assertEqual(it.satisfiable(0), [])
        many = Range.parse("bytes=" + ",".join(f"{place}-{place}" for place in range(1000)))
        self.assertEqual(len(many.satisfiable(500)), 500)
        self.assertEqual((ByteRange(5, 9).length, b"0123456789"[ByteRange(5, 9).slice]), (5, b"56789"))

    def test_made(self) -> None:
        self.assertEqual(str(Range.bytes((0, 4), (7, None), (None, 3))), "bytes=0-4,7-,-3")
        for part in ((None, None), (5, 4)):
            with self.assertRaises(HeaderError):
                Range.bytes(part)
        for text in ("", "items=0-4", " bytes=0-4"):
            with self.assertRaisesRegex(InvalidField, "range: expected text that begins with bytes="):
                Range(text)

    def test_content_range(self) -> None:
        values = (
            ("bytes 0-4/10", ContentRange(ByteRange(0, 4), 10)),
            ("bytes */10", ContentRange(None, 10)),
            ("bytes 0-4/*", ContentRange(ByteRange(0, 4), None)),
        )
        for text, value in values:
            self.assertEqual((ContentRange.parse(text), str(value)), (value, text))
        for text in ("bytes 5-4/10", "bytes 0-4", "items 0-4/10", "bytes 0-18446744073709551616/*"):
            with self.assertRaises(InvalidField):
                ContentRange.parse(text)
        with self.assertRaises(InvalidField):
            ContentRange(ByteRange(5, 4), 10)


class Others(unittest.TestCase):
    def test_retry_after(self) -> None:
        self.assertEqual(RetryAfter.parse("0120"), RetryAfter(timedelta(minutes=2)))
        self.assertEqual(RetryAfter.parse(DATES[1]), RetryAfter(date=TIME))
        self.assertEqual(str(RetryAfter(timedelta(minutes=2))), "120")
        self.assertEqual(RetryAfter(timedelta(seconds=2.5)), RetryAfter.parse("2"))
        self.assertEqual(RetryAfter.parse("18446744073709551615").delay, timedelta(999_999_999, 25215))
        wrong: Any = ((), (timedelta(1), TIME), (timedelta(-1),))
        for members in wrong:
            with self.assertRaises(HeaderError):
                RetryAfter(*members)

    def test_security(self) -> None:
        it = StrictTransportSecurity.parse('includesubdomains; Max-Age="60"')
        self.assertEqual((it, str(it)), (StrictTransportSecurity(60, True), "max-age=60; includeSubdomains"))
        with self.assertRaises(InvalidField):
            StrictTransportSecurity.parse("includeSubDomains")

    def test_referrer_policy(self) -> None:
        for policy in ReferrerPolicy:
            self.assertIs(ReferrerPolicy.parse(str(policy)), policy)
        self.assertIs(ReferrerPolicy.parse("origin", "never, unknown"), ReferrerPolicy.NO_REFERRER)
        with self.assertRaises(InvalidField):
            ReferrerPolicy.parse("unknown")

    def test_websocket(self) -> None:
        # The example of RFC 6455, section 4.2.2.
        self.assertEqual(websocket_accept("dGhlIHNhbXBsZSBub25jZQ=="), "s3pPLMBiTxaQ9kYGzzhZRbK+xOo=")
        with self.assertRaisesRegex(InvalidField, "sec-websocket-key: expected the base64 of 16 bytes"):
            websocket_accept("dGhlIHNhbXBsZSBub25jZQ")

    def test_types_are_checked(self) -> None:
        one: Any = 1
        text: Any = "yes"
        wrong: Tuple[Callable[[], object], ...] = (
            lambda: CacheControl(no_cache=text),
            lambda: CacheControl(no_cache=one),
            lambda: CacheControl(private_fields=text),
            lambda: ContentRange(one, 5),
            lambda: Cookie(((one, one),)),
            lambda: Credentials(one, text),
            lambda: ETag("a", weak=text),
            lambda: ETag(one),
            lambda: Host(one),
            lambda: MediaType("a", "b", (("q", one),)),
            lambda: Origin(one, one),
            lambda: Range(one),
            lambda: RetryAfter(one),
            lambda: StrictTransportSecurity(1, one),
            lambda: ByteRange(text, 1),
            lambda: Method(one),
            lambda: Resource(["GET"], [one]),
            lambda: Resource(["GET"], cors=one),
        )
        for place, make in enumerate(wrong):
            with self.assertRaises(TypeError, msg=str(place)):
                make()
        # (a text from a file of settings is true, whatever it says)
        for kind, needed in ((Content, ()), (CorsPolicy, ()), (Gateway, ("gw",)), (Hop, ()), (Method, ("GET",)),
                             (Representation, ()), (Resource, (["GET"],)), (Target, ())):
            flags = [it.name for it in fields(kind) if it.type is bool]
            self.assertTrue(flags)
            for name in flags:
                with self.assertRaisesRegex(TypeError, f"{name}: expected bool, not str"):
                    kind(*needed, **{name: "false"})
        self.assertEqual((str(CacheControl(max_age=True)), str(Host("a", True))), ("max-age=1", "a:1"))

    def test_values_are_values(self) -> None:
        values: Any = (
            ETag("a"),
            MediaType("a", "b"),
            CacheControl(max_age=1),
            Range("bytes=0-"),
            ContentRange(None, 1),
            RetryAfter(timedelta(1)),
            StrictTransportSecurity(1),
            ReferrerPolicy.ORIGIN,
        )
        for value in values:
            self.assertEqual(pickle.loads(pickle.dumps(value)), value)
            self.assertEqual(hash(type(value).parse(str(value))), hash(value))
            if not isinstance(value, ReferrerPolicy):
                with self.assertRaises(AttributeError):
                    setattr(value, "opaque", 1)


class TypedValues(unittest.TestCase):
    def test_credentials(self) -> None:
        # The examples of RFC 7617, sections 2 and 2.1.
        basic = Credentials.parse("basic dGVzdDoxMjPCow==")
        self.assertEqual((basic.user, basic.password, basic.token), ("test", "123£", None))
        self.assertEqual(Credentials("test", "123£"), basic)
        self.assertEqual(str(Credentials("Aladdin", "open:sesame")), "Basic QWxhZGRpbjpvcGVuOnNlc2FtZQ==")
        self.assertEqual(Credentials.parse("Bearer a b").token, "a b")
        for wrong in ((None, None, None), ("a", None, None), ("a", "b", "c"), ("a:b", "c", None), (None, None, " a")):
            with self.assertRaises(HeaderError):
                Credentials(*wrong)
        for line in ("Digest a", "Basic !", "Basic YQ==", "", "Bearer é"):
            with self.assertRaises(InvalidField) as caught:
                Credentials.parse(line)
            self.assertNotIn(repr(line), str(caught.exception))

    def test_secrets_are_not_shown(self) -> None:
        fields = {"Cookie": "a=secret", "Authorization": "Bearer secret", "Set-Cookie": "a=secret"}
        for given in (
            Credentials("user", "secret"),
            Credentials(token="secret"),
            Cookie.parse("a=secret"),
            Headers(fields),
            Section(fields),
        ):
            self.assertNotIn("secret", repr(given))
        for make in (lambda: Cookie((("a;b", "secret"),)), lambda: Cookie.parse("secret\n")):
            with self.assertRaises(InvalidField) as caught:
                make()
            self.assertNotIn("secret", str(caught.exception))

    def test_cookies(self) -> None:
        given = Cookie.parse('a=1; flag; b="x;y"', "a=2; c==")
        self.assertEqual(list(given), [("a", "1"), ("b", '"x;y"'), ("a", "2"), ("c", "=")])
        self.assertEqual((len(given), given.get("a"), given.get("A")), (4, "1", None))
        self.assertEqual(str(given), 'a=1; b="x;y"; a=2; c==')
        self.assertEqual((find_cookie("a", "a=1; a=2"), find_cookie(b"\xff", "a=1")), ("1", None))
        for pairs in ((("a;b", "1"),), (("a=", "1"),), (("a", "1;2"),)):
            with self.assertRaises(HeaderError):
                Cookie(pairs)

    def test_hosts_and_origins(self) -> None:
        for text, host in (("a.example", Host("a.example")), ("[::1]:80", Host("[::1]", 80))):
            self.assertEqual((Host.parse(text), str(host)), (host, text))
        for text, origin in (("null", Origin()), ("https://a.example:1", Origin("https", "a.example", 1))):
            self.assertEqual((Origin.parse(text), str(origin)), (origin, text))
        wrong: Any
        for wrong in (lambda: Host("a b"), lambda: Host("a", 65536), lambda: Host("a:1"), lambda: Origin("https")):
            with self.assertRaises(HeaderError):
                wrong()
        for text in ("a", "https://a/b", "https://a?b"):
            with self.assertRaises(InvalidField):
                Origin.parse(text)

    def test_lists(self) -> None:
        self.assertEqual(members("a,, b ,", '"c, d"', ""), ["a", "b", '"c, d"'])
        self.assertEqual(members("a, é"), [])
        self.assertTrue(has_member("ACCEPT", "accept, origin"))
        self.assertFalse(has_member("GET", "get", any_case=False))
        self.assertFalse(has_member("", "a,,b"))
        with self.assertRaises(InvalidField):
            members("a\n")

    def test_tags_of_conditions(self) -> None:
        tags = ETags.parse('"a,b", W/"c"', '"d"')
        self.assertEqual([str(it) for it in tags], ['"a,b"', 'W/"c"', '"d"'])
        self.assertTrue(tags.matches_strongly(ETag("d")) and tags.matches_weakly(ETag("c")))
        self.assertFalse(tags.matches_strongly(ETag("c", weak=True)) or tags.matches_weakly(ETag("a")))
        self.assertTrue(ETags.parse("*").matches_strongly(ETag("x")))
        self.assertEqual(ETags.parse("").tags, ())
        self.assertEqual(pickle.loads(pickle.dumps(tags)), tags)
        for line in ("a", '"a', '"a", b', '*, "a"', '"\xe9"', "a\n"):
            with self.assertRaisesRegex(InvalidField, "if-none-match"):
                ETags.parse(line)
        with self.assertRaises(HeaderError):
            ETags((ETag("a"),), is_any=True)
        with self.assertRaises(HeaderError):
            ETags((ETag("\xe9"),))
        with self.assertRaises(TypeError):
            ETags(("a",))  # type: ignore[arg-type]

    def test_conditions_of_ranges(self) -> None:
        self.assertEqual(IfRange.parse('W/"a"'), IfRange(ETag("a", weak=True)))
        self.assertEqual([IfRange.parse(it).date for it in DATES], [TIME] * 3)
        self.assertEqual(str(IfRange(date=TIME)), DATES[0])
        for line in ("a", '"a", "b"', "Sun, 06 Nov 1994"):
            with self.assertRaisesRegex(InvalidField, "if-range"):
                IfRange.parse(line)
        with self.assertRaises(HeaderError):
            IfRange()
        with self.assertRaises(HeaderError):
            IfRange(ETag("a"), TIME)

    def test_each_field_is_an_attribute(self) -> None:
        examples: Any = {
            "Accept-Ranges": ("bytes", ["bytes"], None),
            "Access-Control-Allow-Credentials": ("true", True, "false"),
            "Access-Control-Allow-Headers": ("A, b", ["A", "b"], None),
            "Access-Control-Allow-Methods": ("GET,PUT", ["GET", "PUT"], None),
            "Access-Control-Allow-Origin": ("https://a.example", "https://a.example", "a"),
            "Access-Control-Expose-Headers": ("", [], None),
            "Access-Control-Max-Age": ("060", 60, "x"),
            "Access-Control-Request-Headers": ("a", ["a"], None),
            "Access-Control-Request-Method": ("PUT", "PUT", "a b"),
            "Content-Encoding": ("gzip, br", ["gzip", "br"], None),
            "Content-Location": ("/a", "/a", None),
            "Expect": ("100-continue", "100-continue", "x"),
            "If-Match": ('"a"', ETags((ETag("a"),)), "a"),
            "If-Modified-Since": (DATES[1], TIME, "x"),
            "If-None-Match": ("*", ETags(is_any=True), "a"),
            "If-Range": ('"a"', IfRange(ETag("a")), "a"),
            "If-Unmodified-Since": (DATES[2], TIME, "x"),
            "Location": ("/b", "/b", None),
            "Pragma": ("no-cache", "no-cache", None),
            "Referer": ("https://a/", "https://a/", "\xe9"),
            "Sec-WebSocket-Accept": ("s3pPLMBiTxaQ9kYGzzhZRbK+xOo=", "s3pPLMBiTxaQ9kYGzzhZRbK+xOo=", None),
            "Sec-WebSocket-Key": ("dGhlIHNhbXBsZSBub25jZQ==", "dGhlIHNhbXBsZSBub25jZQ==", None),
            "Sec-WebSocket-Version": ("13", 13, "12"),
            "Server": ("x/1", "x/1", "\xe9"),
            "TE": ("trailers, deflate;q=0.5", ["trailers", "deflate;q=0.5"], None),
            "Transfer-Encoding": ("gzip, chunked", ["gzip", "chunked"], None),
            "Upgrade": ("websocket", "websocket", None),
            "User-Agent": ("curl", "curl", "\xe9"),
        }
        for name, (line, value, wrong) in examples.items():
            member = name.lower().replace("-", "_")
            for kind in (Headers, Section):
                self.assertEqual(getattr(kind({name: line}), member), value, name)
            self.assertIsNone(getattr(Headers(), member))
            if wrong is not None:
                with self.assertRaisesRegex(InvalidField, name.lower()):
                    getattr(Headers({name: wrong}), member)
        for name in FIELDS:
            self.assertIsInstance(getattr(Headers, name.replace("-", "_")), property, name)

    def test_headers_have_them(self) -> None:
        headers = Headers(
            [
                ("Host", "a.example"),
                ("Origin", "null"),
                ("Cookie", "a=1"),
                ("Cookie", "b=2"),
                ("Authorization", "Bearer x"),
                ("Proxy-Authorization", "Basic QTpC"),
                ("Connection", "close"),
                ("Vary", "*"),
                ("Allow", "GET, HEAD"),
                ("Content-Disposition", "inline"),
            ]
        )
        self.assertEqual((headers.host, headers.origin), (Host("a.example"), Origin()))
        self.assertEqual(headers.cookie, Cookie((("a", "1"), ("b", "2"))))
        self.assertEqual(headers.authorization, Credentials(token="x"))
        self.assertEqual(headers.proxy_authorization, Credentials("A", "B"))
        self.assertEqual((headers.connection, headers.vary, headers.allow), (["close"], ["*"], ["GET", "HEAD"]))
        self.assertEqual(str(headers.content_disposition), "inline")
        none = Headers()
        self.assertIsNone(none.host or none.origin or none.cookie or none.authorization or none.proxy_authorization)
        self.assertIsNone(none.connection or none.vary or none.allow or none.content_disposition)
