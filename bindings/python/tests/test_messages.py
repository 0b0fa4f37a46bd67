"""Header sections and decisions: what they take, and what they say of what they reject."""

import pickle
import unittest
from datetime import datetime, timedelta, timezone
from http.client import HTTPMessage
from typing import Any, Callable, Dict, List, Tuple

from typed_headers import (
    ByteRange,
    CorsAnswer,
    CorsKind,
    CorsPolicy,
    Decision,
    ETag,
    HeaderError,
    Headers,
    InvalidField,
    InvalidSection,
    Precondition,
    ReferrerPolicy,
    Selection,
    Target,
    Times,
    TooLarge,
    canonical_field,
    canonical_section,
    current_age,
    decide,
    evaluate,
    lifetime,
    may_store,
    select,
    validators,
    websocket_respond,
)

TIME = datetime(1994, 11, 6, 8, 49, 37, tzinfo=timezone.utc)
DATE = "Sun, 06 Nov 1994 08:49:37 GMT"


class Sections(unittest.TestCase):
    def test_each_form(self) -> None:
        forms: Any = (
            "Age: 7\r\nVary: a\r\nVary: b\r\n\r\nNo: field\r\n",
            b"Age:7\nVary:a\nVary: b",
            bytearray(b"Age:7\nVary:a\nVary: b\n"),
            {"Age": "7", "Vary": ["a", "b"]},
            {b"Age": b"7", b"Vary": [b"a", b"b"]},
            [("Age", "7"), ("Vary", "a"), ("Vary", "b")],
            ((name, value) for name, value in [(b"age", b"7"), (b"vary", b"a"), (b"vary", b"b")]),
        )
        for form in forms:
            headers = Headers(form)
            self.assertEqual(headers.pairs(), [("age", "7"), ("vary", "a"), ("vary", "b")])
            self.assertEqual((headers.age, headers.lines("VARY"), headers.canonical("vary")), (7, ("a", "b"), ["a, b"]))
            self.assertEqual(Headers(headers), headers)
            self.assertEqual(dict(headers), {"age": "7", "vary": "a, b"})
        self.assertTrue("Age" in headers and "Date" not in headers)

    def test_what_others_have(self) -> None:
        class Several(Dict[str, str]):
            """Has each name once as a mapping, as httpx and Starlette."""

            def multi_items(self) -> List[Tuple[str, str]]:
                return [("vary", "a"), ("vary", "b")]

        message = HTTPMessage()
        message["Vary"] = "a"
        message["Vary"] = "b"
        both: List[Any] = [Several(vary="a, b"), message]
        for given in both:
            self.assertEqual(Headers(given).lines("vary"), ("a", "b"))

    def test_a_mapping(self) -> None:
        headers = Headers([("Vary", "a"), ("Age", "7"), ("vary", "b"), ("Set-Cookie", "a=b")])
        self.assertEqual((len(headers), list(headers)), (3, ["vary", "age", "set-cookie"]))
        self.assertEqual((headers["VARY"], headers.get("date"), headers.get("Age")), ("a, b", None, "7"))
        headers["vary"] = "*"
        headers["Date"] = "x"
        self.assertEqual([name for name, _ in headers.pairs()], ["vary", "age", "set-cookie", "date"])
        headers.add("Set-Cookie", "c=d")
        self.assertEqual(headers.lines("set-cookie"), ("a=b", "c=d"))
        del headers["AGE"], headers["date"]
        self.assertIsNone(headers.age)
        self.assertEqual(headers.raw()[0], (b"vary", b"*"))
        headers.update({"Age": "8"})
        self.assertEqual((headers.pop("age"), "age" in headers, bool(Headers())), ("8", False, False))
        self.assertEqual(pickle.loads(pickle.dumps(headers)), headers)
        calls: List[Callable[[], object]] = [lambda: headers["age"], lambda: headers.pop("age"), lambda: headers.__delitem__("age")]
        for call in calls:
            with self.assertRaises(KeyError):
                call()
        before = headers.pairs()
        for name, value in (("a b:", "c"), ("a", "b\nc"), ("", "a"), ("Age ", "7"), (" Age", "7"), ("é", "a")):
            with self.assertRaises(InvalidField):
                headers[name] = value
            with self.assertRaises(InvalidField):
                headers.add(name, value)
        self.assertEqual(headers.pairs(), before)

    def test_a_mapping_with_what_is_no_field(self) -> None:
        """It changes once that is gone."""
        headers = Headers("A: b\x00\nC: d\n")
        with self.assertRaises(InvalidField):
            headers["c"] = "e"
        with self.assertRaises(InvalidField):
            headers.add("c", "e")
        self.assertEqual(headers.pairs(), [("a", "b\x00"), ("c", "d")])
        del headers["a"]
        headers["c"] = "e"
        self.assertEqual((headers.pairs(), headers.section), ([("c", "e")], b"c: e\n"))

    def test_typed_reads(self) -> None:
        headers = Headers(
            {
                "Cache-Control": "max-age=1",
                "Content-Length": "5",
                "Content-Range": "bytes 0-4/10",
                "Content-Type": "text/plain",
                "Date": DATE,
                "ETag": '"a"',
                "Expires": DATE,
                "Last-Modified": DATE,
                "Range": "bytes=0-4",
                "Referrer-Policy": "origin",
                "Retry-After": "5",
                "Strict-Transport-Security": "max-age=5",
            }
        )
        self.assertEqual(headers.cache_control and headers.cache_control.max_age, 1)
        self.assertEqual(headers.content_length, 5)
        self.assertEqual(headers.content_range and headers.content_range.length, 10)
        self.assertEqual(str(headers.content_type), "text/plain")
        self.assertEqual([headers.date, headers.expires, headers.last_modified], [TIME] * 3)
        self.assertEqual(headers.etag, ETag("a"))
        self.assertEqual(headers.range and headers.range.satisfiable(3), [ByteRange(0, 2)])
        self.assertIs(headers.referrer_policy, ReferrerPolicy.ORIGIN)
        self.assertEqual(headers.retry_after and headers.retry_after.delay, timedelta(seconds=5))
        self.assertEqual(headers.strict_transport_security and headers.strict_transport_security.max_age, 5)

    def test_absent_is_none(self) -> None:
        names = (
            "age cache_control content_length content_range content_type date etag expires last_modified range "
            "referrer_policy retry_after strict_transport_security"
        )
        for name in names.split():
            self.assertIsNone(getattr(Headers(), name), name)
        self.assertIsNone(Headers().canonical("age"))

    def test_nothing_is_injected(self) -> None:
        for name, value in (("A", "b\nC: d"), ("A", "b\r\n"), ("A: b\nC", "d"), ("", "b"), ("A:", "b"), ("A", "\0")):
            with self.assertRaises(InvalidField):
                Headers({name: value})

    def test_canonical(self) -> None:
        self.assertEqual(canonical_field("ETAG", '"a"'), ['"a"'])
        self.assertEqual(canonical_field("Set-Cookie", "a=b", "c=d"), ["a=b", "c=d"])
        self.assertEqual(canonical_field("X-Any", " b ", "c"), ["b", "c"])
        with self.assertRaisesRegex(InvalidField, "expect: expected the word 100-continue"):
            canonical_field("Expect", "all")
        with self.assertRaises(HeaderError):
            canonical_field("X Any", "b")
        self.assertEqual(canonical_section({"Age": "x", "Vary": "a"}), "! age\nvary: a\n")

    def test_a_line_that_is_no_field(self) -> None:
        for section, line in (("Age: 7\nno field\n", 1), ("A b: c\n", 0), ("Age: 7\r\nVary: a\r\n: x\r\n", 2)):
            with self.assertRaises(InvalidSection) as caught:
                canonical_section(section)
            self.assertEqual(caught.exception.line, line)
        with self.assertRaisesRegex(InvalidSection, "line 1 is no field: 'no field'"):
            evaluate("GET", "Age: 7\nno field\n", Target())

    def test_too_large(self) -> None:
        with self.assertRaises(TooLarge):
            canonical_section(f"X: {'a' * 8_388_608}\n")
        with self.assertRaises(TooLarge):
            evaluate("GET", [(f"x{number}", "") for number in range(24_577)], Target())


class Conditions(unittest.TestCase):
    def test_preconditions(self) -> None:
        target = Target(ETag("a"), TIME)
        self.assertIs(evaluate("GET", {"If-None-Match": '"a"'}, target), Precondition.NOT_MODIFIED)
        self.assertIs(evaluate(b"PUT", {"If-None-Match": '"a"'}, target), Precondition.FAILED)
        self.assertIs(evaluate("GET", {"If-Modified-Since": DATE}, target), Precondition.NOT_MODIFIED)
        self.assertIs(evaluate("GET", {"If-Match": '"b"'}, Target('"a"')), Precondition.FAILED)
        self.assertIs(evaluate("GET", {}, target, now=TIME), Precondition.PERFORM)
        self.assertIs(evaluate("PUT", {"If-Match": "*"}, Target(exists=False)), Precondition.FAILED)

    def test_the_present_resolves_years_of_two_digits(self) -> None:
        asked = {"If-Modified-Since": "Saturday, 06-Nov-94 08:49:37 GMT"}
        target = Target(last_modified=datetime(2000, 1, 1, tzinfo=timezone.utc))
        # (6 November 2094 is a Saturday, and that of 1994 a Sunday)
        for year, answer in ((2026, Precondition.PERFORM), (2050, Precondition.NOT_MODIFIED)):
            now = datetime(year, 1, 1, tzinfo=timezone.utc)
            self.assertIs(evaluate("GET", asked, target, now), answer)

    def test_selection(self) -> None:
        whole, part = Selection(200), Selection(206, (ByteRange(0, 3),))
        self.assertEqual(select("GET", {"Range": "bytes=0-3"}, Target(), 10), part)
        self.assertEqual(select("HEAD", {"Range": "bytes=0-3"}, Target(), 10), whole)
        self.assertEqual(select("GET", {"Range": "bytes=0-3", "If-Range": '"b"'}, Target('"a"'), 10), whole)
        self.assertEqual(select("GET", {"Range": "bytes=0-3", "If-Range": '"a"'}, Target('"a"'), 10), part)
        self.assertEqual(select("GET", {"Range": "bytes=0-3", "If-Range": DATE}, Target(None, TIME), 10), whole)
        dated = Target(None, TIME, is_date_strong=True)
        self.assertEqual(select("GET", {"Range": "bytes=0-3", "If-Range": DATE}, dated, 10), part)
        self.assertEqual(select("GET", {"Range": "bytes=10-"}, Target(), 10), Selection(416))
        many = {"Range": "bytes=" + ",".join(f"{place * 1000}-{place * 1000}" for place in range(50))}
        self.assertEqual(len(select("GET", many, Target(), 10**6).ranges), 50)

    def test_messages(self) -> None:
        with self.assertRaisesRegex(HeaderError, "the method 'G T' is no token"):
            evaluate("G T", {}, Target())
        with self.assertRaisesRegex(HeaderError, "etag: expected an entity tag"):
            evaluate("GET", {}, Target("a"))
        with self.assertRaisesRegex(HeaderError, "doesn't exist"):
            select("GET", {}, Target(exists=False), 10)
        with self.assertRaisesRegex(HeaderError, "length: -1 isn't from 0"):
            select("GET", {}, Target(), -1)
        with self.assertRaisesRegex(HeaderError, "last_modified: .*no time zone"):
            evaluate("GET", {}, Target(last_modified=datetime(2000, 1, 1)))


class OtherOrigins(unittest.TestCase):
    def test_answers(self) -> None:
        policy = CorsPolicy(["https://a.example"], ["PUT"], ["content-type"], ["x-a"], 600, True)
        plain = policy.answer("GET", {"Origin": "https://a.example"})
        wanted = (
            ("access-control-allow-origin", "https://a.example"),
            ("access-control-allow-credentials", "true"),
            ("access-control-expose-headers", "x-a"),
            ("vary", "origin"),
        )
        self.assertEqual(plain, CorsAnswer(CorsKind.PLAIN, True, wanted))
        self.assertFalse(policy.answer("GET", {"Origin": "https://b.example"}).is_allowed)
        self.assertIs(policy.answer("GET", {}).kind, CorsKind.NO_ORIGIN)

    def test_any(self) -> None:
        for origins in ("*", ["*"]):
            answer = CorsPolicy(origins).answer("GET", {"Origin": "https://a.example"})
            self.assertEqual(answer.fields, (("access-control-allow-origin", "*"),))
        one = CorsPolicy("https://a.example", methods="PUT")
        self.assertEqual((one.origins, one.methods), (("https://a.example",), ("PUT",)))
        self.assertEqual(one, CorsPolicy(["https://a.example"], ["PUT"]))

    def test_a_response_keeps_its_other_fields(self) -> None:
        policy = CorsPolicy("https://a.example")
        given = [("Access-Control-Allow-Origin", "*"), ("Vary", "Accept"), ("Age", "7")]
        found = policy.answer("GET", {"Origin": "https://b.example"}, given).apply(given)
        self.assertEqual(found, [("Age", "7"), ("vary", "Accept"), ("vary", "origin")])

    def test_policies_that_no_browser_reads(self) -> None:
        wrong: Any = (
            {"origins": "*", "credentials": True},
            {"origins": "https://a.example", "methods": ["PUT", "*"]},
            {"origins": "https://a.example", "headers": ["a b"]},
        )
        for rules in wrong:
            with self.assertRaisesRegex(HeaderError, "no browser reads this policy"):
                CorsPolicy(**rules)
        # Browsers serialize an origin as the URL standard does: in lower case, and without a default port.
        for unsent in ("https://A.example", "https://a.example:443", "https://*.example", "wss://a.example"):
            origins = ["null", "https://a.example", unsent, "http://127.1"]
            calls: List[Callable[[], object]] = [
                lambda: CorsPolicy(origins), lambda: websocket_respond("GET", {}, origins=origins),
            ]
            for call in calls:
                with self.assertRaises(HeaderError) as caught:
                    call()
                self.assertEqual(str(caught.exception), f"origins: no browser sends {unsent!r} (place 2)")
        with self.assertRaisesRegex(HeaderError, "origins: byte 1 is 0x0A"):
            CorsPolicy(["a\n"])
        with self.assertRaisesRegex(HeaderError, "max_age: -1"):
            CorsPolicy("*", max_age=-1)
        with self.assertRaisesRegex(HeaderError, "'G T' is no token"):
            CorsPolicy("*").answer("G T", {})


class Caches(unittest.TestCase):
    def test_questions(self) -> None:
        response = {"Date": DATE, "Cache-Control": "max-age=60", "ETag": '"a"', "Last-Modified": DATE}
        times = Times(TIME, TIME, TIME + timedelta(seconds=10))
        self.assertTrue(may_store("GET", {}, 200, response, shared=True))
        self.assertFalse(may_store("GET", {}, 200, {"Cache-Control": "no-store"}, shared=False))
        self.assertEqual(lifetime(response, TIME, shared=True), 60)
        self.assertIsNone(lifetime({}, TIME, shared=True))
        self.assertEqual(current_age(response, times), 10)
        self.assertIs(decide("GET", {}, "GET", {}, response, times, shared=True), Decision.SERVE)
        later = Times(TIME, TIME, TIME + timedelta(days=1))
        self.assertIs(decide("GET", {}, "GET", {}, response, later, shared=True), Decision.REVALIDATE)
        self.assertEqual(validators(response), (("if-none-match", '"a"'), ("if-modified-since", DATE)))
        self.assertEqual(validators({}), ())

    def test_messages(self) -> None:
        with self.assertRaisesRegex(HeaderError, "status is no number from 100 to 999"):
            may_store("GET", {}, 99, {}, shared=True)
        with self.assertRaisesRegex(HeaderError, "status: 65536"):
            may_store("GET", {}, 65536, {}, shared=True)
        with self.assertRaisesRegex(InvalidSection, "line 0 is no field"):
            lifetime("no field", shared=True)
        with self.assertRaisesRegex(HeaderError, "now: -1"):
            current_age({}, Times(0, 0, -1))
