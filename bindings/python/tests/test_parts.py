"""Fields whose values have parts, by the examples of their documents."""

import pickle
import unittest
from datetime import datetime, timezone
from typing import Any, Callable, Dict, List, Tuple

from typed_headers import (
    Accept,
    AcceptEncoding,
    AcceptLanguage,
    CacheStatus,
    Challenge,
    ContentDisposition,
    Element,
    Forwarded,
    HeaderError,
    Headers,
    InvalidField,
    Link,
    SetCookie,
)


class Parts(unittest.TestCase):
    def assert_same(self, value: Any, parse: Callable[[str], Any]) -> None:
        """A value is that of its field line, and survives what programs do with values."""
        self.assertEqual(parse(str(value)), value)
        self.assertEqual(pickle.loads(pickle.dumps(value)), value)
        self.assertEqual(hash(parse(str(value))), hash(value))

    def test_preferences(self) -> None:
        # RFC 9110, section 12.5.1.
        accept = Accept.parse("text/*;q=0.3, text/plain;q=0.7, text/plain;format=flowed", "*/*;q=0.5")
        self.assertEqual([it.value for it in accept], ["text/*", "text/plain", "text/plain", "*/*"])
        self.assertEqual(accept.elements[2].parameter("Format"), "flowed")
        self.assertEqual(accept.best_match(["image/png", "text/html"]), "image/png")
        self.assertEqual(accept.quality("text/html").weight, 300)
        self.assert_same(accept, Accept.parse)
        self.assertEqual(AcceptEncoding.parse("gzip;q=0").best_match(["gzip", "identity"]), "identity")
        self.assertEqual(AcceptEncoding((Element("br"),)).quality("br").weight, 1000)
        language = AcceptLanguage.parse("da, en-gb;q=0.8")
        self.assertEqual((language.best_match(["en", "en-GB"]), len(language)), ("en-GB", 2))
        self.assertEqual(language.look_up(["en"]), "en")
        self.assertEqual(language.quality("da").weight, 1000)
        self.assertEqual(Accept.parse("").elements, ())
        # Offers may be whatever gives them in order.
        self.assertEqual(accept.best_match(dict.fromkeys(["text/html", "text/plain"])), "text/plain")  # type: ignore
        self.assertEqual(accept.best_match(iter(["text/html", "text/plain"])), "text/plain")  # type: ignore
        for line in ("a/b;q = 1", 'a/b;c="d', ";q=1", "a;b/c"):
            with self.assertRaises(InvalidField):
                Accept.parse(line)
        for elements in ((Element("a, b"),), (Element("a;b"),), (Element(""),), (Element("a", (("b c", "d"),)),)):
            with self.assertRaises(HeaderError):
                Accept(elements)

    def test_dispositions(self) -> None:
        # RFC 6266, section 5, and RFC 8187, section 3.2.
        cases: List[Tuple[str, str, Any]] = [
            ("Attachment; filename=example.html", "attachment", "example.html"),
            ('INLINE; FILENAME= "an example.html"', "inline", "an example.html"),
            ("attachment; filename=a,b", "", None),
            ("attachment; filename*=UTF-8''%e2%82%ac%20rates", "attachment", "€ rates"),
            ("attachment; filename=\"EURO rates\"; filename*=utf-8'en'%e2%82%ac%20rates", "attachment", "€ rates"),
            ("attachment; filename*=iso-8859-1'en'%A3%20rates", "attachment", "£ rates"),
            ("attachment; filename=a; filename*=UTF-8''%ff", "attachment", "a"),
            ("attachment; filename*=UTF-8''%ff; filename=a", "attachment", "a"),
            ("attachment; filename=a; FILENAME*=UTF-8''b", "attachment", "b"),
            ("attachment; filename*=UTF-8''a; filename*=UTF-8''b", "attachment", "a"),
            ("attachment; filename*=a; filename*=UTF-8''b", "attachment", None),
            ("attachment; filename*=UTF-8%ff", "attachment", None),
            ("attachment; filename=a; filename*=UTF-8''%e2%8", "attachment", "a"),
            ("attachment; filename=a; filename*=UTF-8'en_US'b", "attachment", "a"),
            ("attachment; filename=a; filename*=US-ASCII''b", "attachment", "a"),
            ("attachment; filename=a; filename*=UTF-8''b*", "attachment", "a"),
            ("attachment; filename*=ISO-8859-1''%80%ff; filename=a", "attachment", "\x80ÿ"),
            ("attachment; filename*=UTF-8''%0A", "attachment", "\n"),
            ("attachment; filename*=UTF-8''; filename=a", "attachment", ""),
            ('form-data; name="field"', "form-data", None),
        ]
        for line, kind, name in cases:
            if not kind:
                with self.assertRaises(InvalidField):
                    ContentDisposition.parse(line)
                continue
            found = ContentDisposition.parse(line)
            self.assertEqual((found.type, found.filename), (kind, name))
            self.assert_same(found, ContentDisposition.parse)
        self.assertEqual(ContentDisposition.parse('form-data; name="a"').parameter("name"), "a")
        self.assertTrue(ContentDisposition("other").is_attachment)
        self.assertFalse(ContentDisposition("inline").is_attachment)
        for wrong in ("a b", "a;b", "", "A"):
            with self.assertRaises(HeaderError):
                ContentDisposition(wrong)
        for line in ("a/b", "a=b", '"a"', "", ";a=b", "a;b c=d", 'a;b="c'):
            with self.assertRaises(InvalidField, msg=line):
                ContentDisposition.parse(line)
        first = ContentDisposition.parse("a; filename; filename=b; filename*=UTF-8''%80; FILENAME*=UTF-8''c; x; y=z")
        self.assertEqual((first.filename, first.parameters), (None, (("x", None), ("y", "z"))))
        long = "\u20ac" * 2000
        self.assertEqual(ContentDisposition.parse(str(ContentDisposition("a", long))).filename, long)
        with self.assertRaises(TypeError):
            ContentDisposition.parse()  # type: ignore
        with self.assertRaises(HeaderError):
            ContentDisposition("attachment", "\ud800")
        self.assertEqual(str(ContentDisposition("inline", "%'é")), "inline; filename*=UTF-8''%25%27%C3%A9")
        with self.assertRaises(InvalidField):
            ContentDisposition.parse("inline", "attachment")
        self.assertEqual(str(ContentDisposition("attachment", 'a"\\b')), 'attachment; filename="a\\"\\\\b"')

    def test_challenges(self) -> None:
        # RFC 9110, section 11.6.1.
        line = 'Basic realm="simple", Newauth realm="apps", type=1, title="Login to \\"apps\\""'
        basic, other = Challenge.parse_all(line)
        self.assertEqual((basic.scheme, basic.realm), ("Basic", "simple"))
        self.assertEqual(other.parameter("title"), 'Login to "apps"')
        self.assertEqual(str(basic), 'Basic realm="simple"')
        self.assert_same(other, lambda text: Challenge.parse_all(text)[0])
        negotiate, bearer = Challenge.parse_all("Negotiate oYG2==", "Bearer")
        self.assertEqual((negotiate.token, bearer.parameters), ("oYG2==", ()))
        self.assert_same(negotiate, lambda text: Challenge.parse_all(text)[0])
        # RFC 7616, section 3.9.1.
        digest = Challenge.parse_all('Digest realm="http-auth@example.org", qop="auth, auth-int", algorithm=SHA-256')
        self.assertEqual(digest[0].parameter("qop"), "auth, auth-int")
        for text in ('realm="a"', "Basic a b", "Basic a, c=d", 'Basic realm="a', "a/b", "Basic ="):
            with self.assertRaises(InvalidField, msg=text):
                Challenge.parse_all(text)
        for scheme in ("a b", "", "a=b"):
            with self.assertRaises(HeaderError):
                Challenge(scheme)
        # RFC 7616, section 3.3: some values are always in quotes.
        made = Challenge("Digest", (("Realm", "a"), ("nonce", "b"), ("algorithm", "MD5"), ("qop", "auth")))
        self.assertEqual(str(made), 'Digest Realm="a", nonce="b", algorithm=MD5, qop="auth"')
        self.assert_same(made, lambda text: Challenge.parse_all(text)[0])

    def test_links(self) -> None:
        # RFC 8288, section 3.5.
        line = "</TheBook/chapter2>; rel=\"previous\"; title*=UTF-8'de'letztes%20Kapitel, </TheBook/chapter4>; rel=\"next\""
        one, two = Link.parse_all(line)
        self.assertEqual((one.target, one.relations, one.title), ("/TheBook/chapter2", ["previous"], "letztes Kapitel"))
        self.assertEqual(two.relations, ["next"])
        self.assert_same(one, lambda text: Link.parse_all(text)[0])
        kept, = Link.parse_all('<http://example.org/a,b;c>; rel="start http://example.net/relation/other"; crossorigin')
        self.assertEqual(kept.target, "http://example.org/a,b;c")
        self.assertEqual(kept.relations[1], "http://example.net/relation/other")
        self.assertIsNone(kept.parameter("crossorigin"))
        self.assert_same(kept, lambda text: Link.parse_all(text)[0])
        for text in ("/a; rel=b", "</a", "</a> rel=b", '</a>; rel="b'):
            with self.assertRaises(InvalidField, msg=text):
                Link.parse_all(text)
        with self.assertRaises(HeaderError):
            Link("/a>b")
        # RFC 8288, section 3.3: the first `rel` counts, and relation types are between spaces.
        titled, = Link.parse_all("</a>; title*=UTF-8''%ff; title=b; TITLE*=UTF-8''c; title=d")
        self.assertEqual((titled.title, Link("/a").title), ("b", None))
        several, none = Link.parse_all('</a>; REL="Next  x\xa0y"; rel=prev, </b>; title=c')
        self.assertEqual((several.relations, none.relations), (["next", "x\xa0y"], []))

    def test_hops(self) -> None:
        # RFC 7239, section 4, and RFC 9211, section 2.
        line = 'for=192.0.2.60;proto=http;by=203.0.113.43, For="[2001:db8:cafe::17]:4711"'
        one, two = Forwarded.parse_all(line)
        self.assertEqual((one.client, one.proto, one.by, one.host), ("192.0.2.60", "http", "203.0.113.43", None))
        self.assertEqual(two.client, "[2001:db8:cafe::17]:4711")
        self.assert_same(one, lambda text: Forwarded.parse_all(text)[0])
        many = ";".join(f"a{it}=b" for it in range(101))
        for text in ("for", "for=a;for=b", "for=a;For=b", "for=a b", "for = a", many):
            with self.assertRaises(InvalidField, msg=text):
                Forwarded.parse_all(text)
        hundred, = Forwarded.parse_all(";".join(f"a{it}=b" for it in range(100)))
        self.assertEqual(len(hundred.parameters), 100)
        # The grammar has an element without pairs.
        self.assertEqual(Forwarded.parse_all(str(Forwarded())), [Forwarded()])
        self.assertEqual(str(Forwarded((("for", "[::1]"),))), 'for="[::1]"')
        for wrong in ((("a b", "c"),), (("a", None),), (("a", "b"), ("A", "c")), (("a", "\n"),), (("a", "\u20ac"),)):
            with self.assertRaises(HeaderError, msg=wrong):
                Forwarded(wrong)

    def test_caches(self) -> None:
        # RFC 9211, sections 2 and 4.
        for text, ttl in (("A; hit; ttl=-412", -412), ("A; hit; ttl=1.5", None), ("A; hit", None)):
            status, = CacheStatus.parse_all(text)
            self.assertEqual((status.cache, status.is_hit, status.ttl), ("A", True, ttl))
        origin, company = CacheStatus.parse_all('OriginCache; hit; ttl=1100, "CDN Company Here"; fwd=uri-miss; stored')
        self.assertEqual((origin.cache, company.cache), ("OriginCache", "CDN Company Here"))
        self.assertEqual((company.forwarded, company.is_stored, company.is_collapsed), ("uri-miss", True, False))
        status = CacheStatus("A", forwarded="stale", forwarded_status=304, is_collapsed=True, key='a"b', detail="c d")
        self.assertEqual(str(status), '"A"; fwd=stale; fwd-status=304; collapsed; key="a\\"b"; detail="c d"')
        for value in (status, origin, company):
            self.assert_same(value, lambda text: CacheStatus.parse_all(text)[0])
        # A parameter counts by its type, and of two of a name the last counts.
        ignored = ("hit=?0", "hit=1", 'hit="a"', "hit; hit=?0", 'ttl="1"', 'ttl=1; ttl="2"', "key=a", "fwd=1", "x=y")
        for text in ignored:
            self.assertEqual(CacheStatus.parse_all(f"A; {text}"), [CacheStatus("A")], text)
        self.assertEqual(CacheStatus.parse_all("A; hit=?1; ttl=1; ttl=2"), [CacheStatus("A", True, ttl=2)])
        for text in ("1; hit", "a b", "A; Hit", "A; ttl=1234567890123456", 'A; key="b', "?1"):
            with self.assertRaises(InvalidField, msg=text):
                CacheStatus.parse_all(text)
        wrong: List[Dict[str, Any]] = [{"forwarded": "a b"}, {"ttl": 10**15}, {"key": "\t"}, {"cache": "\xe9"}]
        for given in wrong:
            members: Dict[str, Any] = {"cache": "A", **given}
            with self.assertRaises(HeaderError, msg=given):
                CacheStatus(**members)
        with self.assertRaises(TypeError):
            CacheStatus("A", ttl="1")  # type: ignore

    def test_cookies_to_be_set(self) -> None:
        # RFC 6265, sections 3.1 and 5.2.
        cookie = SetCookie.parse("lang=en-US; Path=/a; Domain=.Example.com; Expires=Wed, 09 Jun 2021 10:18:14 GMT; x")
        self.assertEqual((cookie.name, cookie.value, cookie.path, cookie.domain), ("lang", "en-US", "/a", "example.com"))
        self.assertEqual(cookie.expires, datetime(2021, 6, 9, 10, 18, 14, tzinfo=timezone.utc))
        self.assertEqual(cookie.others, (("x", None),))
        self.assert_same(cookie, SetCookie.parse)
        cookie = SetCookie.parse("a=b=c; max-age=-1; MAX-AGE=5; path=b; secure; samesite=NONE; httponly; max-age=x")
        self.assertEqual((cookie.value, cookie.max_age, cookie.path, cookie.same_site), ("b=c", 5, None, "None"))
        for text, seconds in (("-1", 0), ("-", 0), ("007", 7), ("9" * 5000, 2**64 - 1), ("+1", None), ("1s", None)):
            self.assertEqual(SetCookie.parse(f"a=b; Max-Age={text}").max_age, seconds, text)
        self.assertEqual(repr(SetCookie("a", "", max_age=0)), "SetCookie(name='a', max_age=0)")
        lax = SetCookie.parse("a=b; Expires=Wednesday, 09-Jun-21 10:18:14 GMT; Domain=c; Domain=; Path=/d; Path=e")
        self.assertEqual(lax.expires, datetime(2021, 6, 9, 10, 18, 14, tzinfo=timezone.utc))
        self.assertEqual((lax.domain, lax.path), ("c", None))
        self.assert_same(lax, SetCookie.parse)
        early = SetCookie.parse("a=b; Expires=1 Jan 1969 0:00:00")
        self.assertEqual(early.expires, datetime(1970, 1, 1, tzinfo=timezone.utc))
        self.assert_same(early, SetCookie.parse)
        self.assertTrue(cookie.secure and cookie.http_only and cookie.is_allowed)
        self.assertNotIn("b=c", repr(cookie))
        self.assertFalse(SetCookie.parse("__Host-a=b; Secure").is_allowed)
        self.assertFalse(SetCookie.parse("__Secure-a=b").is_allowed)
        for line in ("a", "=b", ""):
            with self.assertRaises(InvalidField):
                SetCookie.parse(line)
        wrong: List[Tuple[str, str, Dict[str, Any]]] = [
            ("__Secure-a", "b", {}),
            ("a", "b", {"same_site": "None"}),
            ("a", "b;c", {}),
            ("a=b", "c", {}),
            ("", "a", {}),
            ("a", "b", {"path": "c"}),
            ("a", "b", {"same_site": "lax"}),
            ("a", "b", {"max_age": -1}),
            ("__Host-a", "b", {"secure": True}),
        ]
        for name, value, given in wrong:
            with self.assertRaises(HeaderError, msg=(name, value, given)):
                SetCookie(name, value, **given)
        with self.assertRaisesRegex(HeaderError, "a would be another cookie, by its domain and same_site$"):
            SetCookie("a", "b", domain="A.example", same_site="lax")

    def test_sections(self) -> None:
        given = [("Set-Cookie", "a=b"), ("Set-Cookie", "c=d"), ("Link", "</a>; rel=b"), ("Accept-Encoding", "gzip")]
        given += [("WWW-Authenticate", "Basic realm=a"), ("Forwarded", "for=a"), ("Cache-Status", "a; hit")]
        headers = Headers([*given, ("Content-Disposition", "inline"), ("Accept", "a/b"), ("Accept-Language", "en")])
        self.assertEqual([it.name for it in headers.set_cookie or ()], ["a", "c"])
        self.assertEqual([it.target for it in headers.link or ()], ["/a"])
        self.assertEqual([it.realm for it in headers.www_authenticate or ()], ["a"])
        self.assertEqual([it.client for it in headers.forwarded or ()], ["a"])
        self.assertEqual([it.is_hit for it in headers.cache_status or ()], [True])
        shown = [headers.accept, headers.accept_encoding, headers.accept_language, headers.content_disposition]
        self.assertEqual([str(it) for it in shown], ["a/b", "gzip", "en", "inline"])
        none = Headers({})
        self.assertIsNone(none.set_cookie or none.link or none.www_authenticate or none.forwarded or none.cache_status)
        self.assertIsNone(none.accept or none.accept_encoding or none.accept_language or none.content_disposition)


if __name__ == "__main__":
    unittest.main()
