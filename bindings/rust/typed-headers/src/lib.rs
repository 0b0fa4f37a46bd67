//! Typed HTTP headers, by a library in C whose calls are proved to follow their specifications.
//!
//! A field is its field lines, without the name. An absent field, or an answer that a message doesn't give, is `None`.
//! Times are seconds since the start of 1970. Where a call takes a [`Timestamp`], it takes a `SystemTime` too.
//!
//! ```
//! use typed_headers::{ByteRange, age, cache_control, ranges};
//!
//! assert_eq!(age(["+007"])?, Some(7));
//! assert_eq!(cache_control(["no-cache, max-age=60"])?.unwrap().max_age, Some(60));
//! assert_eq!(ranges(["bytes=0-4"], 10)?, Some(vec![ByteRange { first: 0, last: 4 }]));
//! # Ok::<(), typed_headers::Error>(())
//! ```
//!
//! The crate needs `alloc`, and no `std` but for `Keys::random` and for caches that threads share, of the feature `std`.
//! The library is that of the system, as `pkg-config` knows it, or the static one in the folder that the variable
//! TYPED_HEADERS names.
#![no_std]
#![warn(missing_docs)]

extern crate alloc;
#[cfg(feature = "std")]
extern crate std;

mod caching;
mod conditions;
mod cors;
mod error;
mod fields;
mod gateway;
mod handles;
mod handshake;
mod header;
mod lock;
mod negotiation;
mod resource;
mod response;
mod store;
mod text;
mod time;
mod typed;

pub use caching::{current_age, decide, lifetime, may_store, validators, Decision, Times};
pub use conditions::{evaluate, select, Precondition, Selection, Target};
pub use cors::{CorsAnswer, CorsKind, CorsRules, CORS_FIELDS};
pub use error::Error;
pub use fields::{
    age, cache_control, canonical_field, content_length, date, essence, expires, format_content_range, format_date,
    format_etag, last_modified, media_type, ranges, strong_eq, weak_eq, websocket_accept, CacheControl, Canonical,
};
pub use gateway::{framing, Framing, Gateway, Hop, Rejection, RequestOutcome, ResponseOutcome};
pub use handles::{CorsPolicy, ParsedSection, PreparedResource};
pub use handshake::{websocket_check, websocket_request, websocket_respond, Fault, Flaw, HandshakeAnswer, Version};
pub use header::{
    Age, Allow, Authorization, Basic, Bearer, Connection, ContentLength, ContentType, Cookie, Date, Encode, Expires,
    Header, HeaderMapExt, LastModified, ProxyAuthorization, Range, Vary,
};
pub use negotiation::{
    choose_coding, choose_language, choose_type, coding_quality, language_quality, look_up_language, type_quality,
    Quality,
};
pub use resource::{
    Denied, Method, Reason, Representation, RequestContent, Resource, ResourceAnswer, ResourceRequest, Sends, State,
};
pub use response::{respond, Content, Response};
pub use store::{Cache, CacheOptions, CacheRequest, Pass, Reply, Step};
pub use text::{Fields, Section};
pub use time::Timestamp;
pub use typed::{
    basic, bearer, content_disposition, content_range, cookies, find_cookie, has_member, host, members, origin,
    retry_after, strict_transport_security, ContentRange, Disposition, Host, Origin, RetryAfter, TransportSecurity,
};

use typed_headers_sys as sys;

/// A range of bytes: its first and its last position, both included.
pub use sys::BytesRange as ByteRange;

/// Sixteen bytes that no sender of field names can guess. A map of fields hashes with them once names collide. They
/// change no answer.
#[derive(Clone, Copy, Debug)]
pub struct Keys(sys::Keys);

impl Keys {
    /// Keys from two numbers, as the system's source of random bytes gives them.
    pub const fn new(first: u64, second: u64) -> Keys {
        Keys(sys::Keys { first, second })
    }

    /// Random keys, as those of the standard library's hash maps.
    #[cfg(feature = "std")]
    pub fn random() -> Keys {
        use std::hash::{BuildHasher, RandomState};

        let state = RandomState::new();
        Keys::new(state.hash_one(1), state.hash_one(2))
    }
}

// The examples of README.md are tests too.
#[cfg(all(doctest, feature = "std"))]
#[doc = include_str!("../README.md")]
struct Readme;

/// The version of the library.
///
/// ```
/// assert!(typed_headers::version().starts_with("2."));
/// ```
pub fn version() -> &'static str {
    // SAFETY: the text is a constant.
    let text = unsafe { core::ffi::CStr::from_ptr(sys::typed_headers_version()) };
    text.to_str().unwrap_or_default()
}

#[cfg(test)]
mod tests {
    use alloc::string::{String, ToString};
    use alloc::vec::Vec;

    use super::*;

    const KEYS: Keys = Keys::new(1, 2);
    const NONE: [&str; 0] = [];
    // 1 January 2026.
    const NOW: u64 = 1_767_225_600;

    fn invalid(name: &'static str) -> Error {
        Error::InvalidField { name: name.into() }
    }

    #[test]
    fn texts_and_numbers() {
        let canonical = |text: &str| Section::from_bytes(text).canonical(KEYS);
        let found = canonical("Age: +007\nAge-Of: x\n").unwrap();
        assert_eq!((found.text, found.is_marked), (b"age: 7\nage-of: x\n".to_vec(), false));
        let found = canonical("Age: x\n").unwrap();
        assert_eq!((found.text, found.is_marked), (b"! age\n".to_vec(), true));
        assert_eq!(canonical("Age\n"), Err(Error::Rejected));
        assert_eq!((age(["+007"]), age(NONE), age(["7 days"])), (Ok(Some(7)), Ok(None), Err(invalid("age"))));
        assert_eq!(age([b"7\n8".as_slice()]), Err(invalid("age")));
        assert_eq!(
            (content_length(["5", "5"]), content_length(["5", "6"])),
            (Ok(Some(5)), Err(invalid("content-length")))
        );
        for found in [
            date(["Sun, 06 Nov 1994 08:49:37 GMT"]),
            expires(["Sunday, 06-Nov-94 08:49:37 GMT"]),
            last_modified(["Sun Nov  6 08:49:37 1994"]),
        ] {
            assert_eq!(found, Ok(Some(784_111_777)));
        }
        assert_eq!(strong_eq("\"a\"", "\"a\""), Ok(true));
        assert_eq!((strong_eq("\"a\"", "W/\"a\""), weak_eq("\"a\"", "W/\"a\"")), (Ok(false), Ok(true)));
        assert_eq!((strong_eq("a", "\"a\""), weak_eq("\"a\"", "")), (Err(Error::Rejected), Err(Error::Rejected)));
        assert_eq!(media_type(["Text/HTML;Charset=x"]), Ok(Some(b"text/html; charset=x".to_vec())));
        assert_eq!(essence(["Text/HTML;Charset=x"]), Ok(Some(b"text/html".to_vec())));
        assert_eq!(media_type(NONE), Ok(None));
        let directives = cache_control(["no-cache, max-age=60"]).unwrap().unwrap();
        assert_eq!((directives.no_cache, directives.no_store, directives.max_age), (true, false, Some(60)));
        assert_eq!(cache_control(NONE), Ok(None));
    }

    #[test]
    fn typed_values() {
        let long = alloc::format!("a={}; b=\"1;2\"", "x".repeat(600));
        assert_eq!(find_cookie([&long], "b"), Ok(Some("\"1;2\"".to_string())));
        assert_eq!((find_cookie([&long], "c"), find_cookie(NONE, "a")), (Ok(None), Ok(None)));
        assert_eq!(cookies([&long]).unwrap().unwrap()[0].1.len(), 600);
        assert_eq!(cookies(["a"]), Ok(Some(Vec::new())));
        assert_eq!((basic(["Bearer x"]), basic(NONE)), (Err(Error::Rejected), Ok(None)));
        assert_eq!(bearer(["bearer  x"]), Ok(Some("x".to_string())));
        assert_eq!(host(["[::1]"]), Ok(Some(Host { name: "[::1]".to_string(), port: None })));
        assert_eq!((host(["a b"]), host(NONE)), (Err(invalid("host")), Ok(None)));
        assert_eq!((origin(["null"]), origin(NONE)), (Ok(Some(Origin::Null)), Ok(None)));
        assert_eq!((origin(["a"]), origin(["null", "null"])), (Err(invalid("origin")), Err(invalid("origin"))));
        assert_eq!((strict_transport_security(NONE), retry_after(NONE)), (Ok(None), Ok(None)));
        assert_eq!(content_range(["bytes */*"]), Ok(Some(ContentRange { range: None, length: None })));
        assert_eq!(content_disposition(["Inline"]), Ok(Some(Disposition::Other)));
        assert_eq!(members(["a,,b"]), Ok(Some(alloc::vec!["a".to_string(), "b".to_string()])));
        assert_eq!((has_member(["GET"], "get", false), has_member(NONE, "*", true)), (Ok(Some(false)), Ok(None)));
        assert_eq!(has_member([","], "", true), Ok(Some(false)));
    }

    #[test]
    fn rooms_that_grow() {
        let long = alloc::format!("text/plain; a={}", "x".repeat(600));
        let content = Content { media_type: &long, length: Some(1_000_000), sends_ranges: true };
        let ranges = (0..12).map(|it| alloc::format!("{}-{}", it * 80_000, it * 80_000)).collect::<Vec<_>>().join(",");
        let request = Section::from_bytes(alloc::format!("Range: bytes={ranges}\n"));
        let target = Target::new().etag(r#""a""#);
        let found = respond("GET", &request, &target, &content, "cut", NOW, KEYS).unwrap().unwrap();
        assert_eq!((found.status, found.parts.len()), (206, 12));
        let one = Section::from_bytes("Range: bytes=0-0\n");
        let found = respond("GET", &one, &target, &content, "cut", NOW, KEYS).unwrap().unwrap();
        assert!(found.fields.as_bytes().len() > 600);
        let full = respond("GET", &Section::new(), &target, &content, "cut", NOW, KEYS).unwrap().unwrap();
        assert_eq!((full.status, full.parts.len()), (200, 0));
        assert_eq!(respond("PUT", &Section::new(), &target, &content, "cut", NOW, KEYS), Ok(None));
    }

    #[test]
    fn a_cache_over_time() {
        let cache = Cache::new(CacheOptions::shared(), KEYS).unwrap();
        let (none, stale) = (Section::new(), Section::from_bytes("Cache-Control: max-age=10\nETag: \"1\"\n"));
        let request = CacheRequest { method: "GET", target: "http://a.example/", fields: &none };
        let (mut first, step) = cache.begin(&request, 1000).unwrap();
        assert_eq!((step, first.ended(true, 1000)), (Step::Ask, Ok(None)));
        assert_eq!(first.came(200, &stale, 1000), Ok(Some(Step::PassOn { stores: true })));
        assert_eq!((first.failed(1000), first.came(200, &stale, 1000)), (Ok(None), Ok(None)));
        assert_eq!((first.received(b"hel"), first.received(b"lo")), (Ok(Some(())), Ok(Some(()))));
        assert_eq!((first.ended(true, 1000), first.received(b"")), (Ok(Some(true)), Ok(None)));
        let (mut second, step) = cache.begin(&request, 1020).unwrap();
        let Step::Validate(fields) = step else { panic!("it is stale") };
        assert_eq!(fields.as_bytes(), b"if-none-match: \"1\"\n");
        assert!(matches!(second.came(304, &stale, 1020), Ok(Some(Step::Reply(_)))));
        let ranged = Section::from_bytes("Range: bytes=-2\n");
        let (_, step) = cache.begin(&CacheRequest { fields: &ranged, ..request }, 1021).unwrap();
        let Step::Reply(part) = step else { panic!("it is fresh") };
        assert_eq!((part.status, part.content.as_slice(), part.validates), (206, b"lo".as_slice(), false));
        let (mut third, _) = cache.begin(&CacheRequest { method: "PUT", ..request }, 1021).unwrap();
        assert_eq!(third.came(204, &none, 1021), Ok(Some(Step::PassOn { stores: false })));
        assert_eq!(cache.begin(&request, 1021).unwrap().1, Step::Ask);
        assert_eq!(cache.remove("http://a.example/"), Ok(()));
        let asked = Section::from_bytes("Cache-Control: only-if-cached\n");
        assert_eq!(cache.begin(&CacheRequest { fields: &asked, ..request }, 1).unwrap().1, Step::Unavailable);
        let (mut fourth, _) = cache.begin(&request, 1021).unwrap();
        assert_eq!(fourth.failed(1021), Ok(Some(Step::NoResponse)));
        drop(fourth);
        let asked = Section::from_bytes("X: y\nCache-Control: no-store\nRange: bytes=0-1\n");
        let (mut fifth, _) = cache.begin(&CacheRequest { fields: &asked, ..request }, 1021).unwrap();
        assert_eq!(fifth.validation().unwrap().as_bytes(), b"x: y\ncache-control: no-cache, no-store\n");
        drop((first, second, third, fifth));
        let cache = std::thread::spawn(move || cache).join();
        assert!(cache.is_ok());
    }

    #[test]
    fn requests_that_wait() {
        let cache = Cache::new(CacheOptions { wait: 10, ..CacheOptions::shared() }, KEYS).unwrap();
        let (none, fresh) = (Section::new(), Section::from_bytes("Cache-Control: max-age=60\n"));
        let request = CacheRequest { method: "GET", target: "http://a.example/", fields: &none };
        let (mut first, asks) = cache.begin(&request, 1000).unwrap();
        let (mut second, waits) = cache.begin(&request, 1000).unwrap();
        assert_eq!((asks, waits, second.resume(1009)), (Step::Ask, Step::Wait, Ok(Some(Step::Wait))));
        assert_eq!(first.came(200, &fresh, 1000), Ok(Some(Step::PassOn { stores: true })));
        assert_eq!(first.ended(true, 1000), Ok(Some(true)));
        assert!(matches!(second.resume(1009), Ok(Some(Step::Reply(_)))));
        assert_eq!(second.resume(1009), Ok(None));
        let other = CacheRequest { target: "http://a.example/b", ..request };
        let (third, _) = cache.begin(&other, 1000).unwrap();
        let (mut fourth, waits) = cache.begin(&other, 1000).unwrap();
        drop(third);
        assert_eq!((waits, fourth.resume(1000)), (Step::Wait, Ok(Some(Step::Ask))));
    }

    #[test]
    fn handles() {
        let text = Section::from_bytes("Host: a.example\nOrigin: https://b.example\nRange: bytes=5-\nETag: \"a\"\n");
        let fields = ParsedSection::new(&text, KEYS).unwrap();
        let rules = CorsRules { origins: &["https://b.example"], ..CorsRules::default() };
        let policy = CorsPolicy::new(&rules).unwrap();
        let methods = [Method { name: "GET", ..Method::default() }];
        let shown = [Representation { media_type: "text/plain", length: Some(10), ..Representation::default() }];
        let given = Resource { methods: &methods, representations: &shown, cors: Some(rules), ..Resource::default() };
        let resource = PreparedResource::new(&given).unwrap();
        let target = Target::new().etag("\"a\"");
        let content = Content { media_type: "text/plain", length: Some(10), sends_ranges: true };
        for _ in 0..2 {
            assert_eq!(fields.evaluate("GET", &target, NOW), evaluate("GET", &text, &target, NOW, KEYS));
            assert_eq!(fields.select("GET", &target, 10, NOW), select("GET", &text, &target, 10, NOW, KEYS));
            let response = fields.respond("GET", &target, &content, "cut", NOW);
            assert_eq!(response, respond("GET", &text, &target, &content, "cut", NOW, KEYS));
            assert_eq!(fields.field("ETag"), Ok(Some(b"\"a\"\n".to_vec())));
            assert_eq!((fields.field("age"), fields.field("a b")), (Ok(None), Err(invalid("a b"))));
            assert_eq!((fields.choose_type(["a/b"]), fields.choose_language(NONE)), (Ok(Some(0)), Ok(None)));
            let shared = policy.answer("GET", &fields, &Section::new(), KEYS);
            assert_eq!(shared, rules.answer("GET", &text, &Section::new(), KEYS));
            let request = ResourceRequest {
                method: "GET",
                target: "/",
                version: Version::Http11,
                fields: &text,
                content: RequestContent::Absent,
                denied: None,
            };
            assert_eq!(resource.answer(&request, &fields, NOW), given.answer(&request, NOW, KEYS));
        }
        assert_eq!(ParsedSection::new(&Section::from_bytes("x\n"), KEYS).err(), Some(Error::Rejected));
        let any = CorsRules { origins: &["*"], credentials: true, ..CorsRules::default() };
        assert_eq!(CorsPolicy::new(&any).err(), Some(Error::Rejected));
        let moved = Resource { state: State::Permanent(""), ..Resource::default() };
        assert_eq!(PreparedResource::new(&moved).err(), Some(Error::Rejected));
        let moved = std::thread::spawn(move || (fields.field("age"), policy, resource)).join();
        assert_eq!(moved.map(|(found, ..)| found).ok(), Some(Ok(None)));
    }

    #[test]
    fn denied_and_unknown() {
        let fields = Section::from_bytes("Host: a.example\nOrigin: https://b.example\n");
        let parsed = ParsedSection::new(&fields, KEYS).unwrap();
        let methods = [Method { name: "GET", ..Method::default() }];
        let cors = CorsRules { origins: &["https://b.example"], ..CorsRules::default() };
        let usual = Resource { methods: &methods, cors: Some(cors), ..Resource::default() };
        let own = Resource { implemented: Some(&["PURGE"]), ..usual };
        let none = Resource { implemented: Some(&[]), ..usual };
        let request = ResourceRequest {
            method: "GET",
            target: "/",
            version: Version::Http11,
            fields: &fields,
            content: RequestContent::Absent,
            denied: None,
        };
        let answer = |resource: &Resource<'_>, request: &ResourceRequest<'_>| {
            let answer = resource.answer(request, NOW, KEYS);
            assert_eq!(PreparedResource::new(resource).unwrap().answer(request, &parsed, NOW), answer);
            answer
        };
        for (resource, method, status) in [
            (&usual, "PURGE", 501),
            (&usual, "POST", 405),
            (&own, "PURGE", 405),
            (&own, "POST", 501),
            (&none, "POST", 501),
            (&none, "GET", 200),
        ] {
            let answer = answer(resource, &ResourceRequest { method, ..request }).unwrap();
            assert_eq!(answer.status, Some(status));
        }
        let wrong = Resource { implemented: Some(&["a b"]), ..usual };
        assert_eq!(PreparedResource::new(&wrong).err(), Some(Error::Rejected));

        let denied = |denied| answer(&usual, &ResourceRequest { method: "POST", denied: Some(denied), ..request });
        for (why, status, name, value) in [
            (
                Denied::Unauthenticated("Basic realm=\"a\""),
                401,
                "www-authenticate",
                Some(b"Basic realm=\"a\"".as_slice()),
            ),
            (Denied::Forbidden, 403, "allow", None),
            (Denied::TooManyRequests(Some(120)), 429, "retry-after", Some(b"120".as_slice())),
            (Denied::Unavailable(None), 503, "retry-after", None),
        ] {
            let answer = denied(why).unwrap();
            assert_eq!((answer.status, answer.reason), (Some(status), Reason::Denied));
            assert_eq!(answer.fields.get(name), value);
            let shared = answer.fields.get("access-control-allow-origin");
            assert_eq!(shared, Some(b"https://b.example".as_slice()));
        }
        for challenge in ["", "Basic\n", "Basic\0"] {
            assert_eq!(denied(Denied::Unauthenticated(challenge)), Err(Error::Rejected));
        }
    }

    #[test]
    #[cfg(feature = "std")]
    fn threads_share_handles() {
        let text = Section::parse("Host: a.example\nOrigin: https://b.example\nRange: bytes=5-\n").unwrap();
        let fields = ParsedSection::new(&text, KEYS).unwrap();
        let rules = CorsRules { origins: &["https://b.example"], ..CorsRules::default() };
        let policy = CorsPolicy::new(&rules).unwrap();
        let methods = [Method { name: "GET", ..Method::default() }];
        let given = Resource { methods: &methods, cors: Some(rules), ..Resource::default() };
        let resource = PreparedResource::new(&given).unwrap();
        let request = ResourceRequest {
            method: "GET",
            target: "/",
            version: Version::Http11,
            fields: &text,
            content: RequestContent::Absent,
            denied: None,
        };
        let cache = Cache::new(CacheOptions::shared(), KEYS).unwrap();
        let (asked, stored) = (Section::new(), Section::parse("Cache-Control: max-age=10\n").unwrap());
        let asked = CacheRequest { method: "GET", target: "http://a.example/", fields: &asked };
        let (mut pass, _) = cache.begin(&asked, 1).unwrap();
        pass.came(200, &stored, 1).unwrap();
        pass.received(b"hello").unwrap();
        pass.ended(true, 1).unwrap();
        let shared = rules.answer("GET", &text, &Section::new(), KEYS);
        let answer = given.answer(&request, NOW, KEYS);
        std::thread::scope(|scope| {
            for _ in 0..8 {
                scope.spawn(|| {
                    for _ in 0..2000 {
                        assert_eq!(fields.field("Host"), Ok(Some(b"a.example\n".to_vec())));
                        assert_eq!(fields.choose_type(["a/b"]), Ok(Some(0)));
                        assert_eq!(policy.answer("GET", &fields, &Section::new(), KEYS), shared);
                        assert_eq!(resource.answer(&request, &fields, NOW), answer);
                        let (_, Step::Reply(reply)) = cache.begin(&asked, 5).unwrap() else { panic!("it is fresh") };
                        assert_eq!(reply.content, b"hello");
                    }
                });
            }
        });
    }

    #[test]
    fn errors() {
        let texts: Vec<String> = [Error::Rejected, Error::OutOfMemory, Error::TooLarge, Error::Unknown(9)]
            .iter()
            .map(Error::to_string)
            .collect();
        assert_eq!(texts[1..3], ["out of memory", "an argument is too large"]);
        assert_eq!(texts[3], "unknown status 9");
        let _: &dyn core::error::Error = &Error::Rejected;
        let named = [
            (cache_control(["max-age=\0"]).err(), "cache-control"),
            (ranges(["\n"], 9).err(), "range"),
            (media_type(["x"]).err(), "content-type"),
            (websocket_accept(["x"]).err(), "sec-websocket-key"),
            (retry_after(["x"]).err(), "retry-after"),
            (strict_transport_security(["x"]).err(), "strict-transport-security"),
            (content_range(["x"]).err(), "content-range"),
            (content_disposition(["\n"]).err(), "content-disposition"),
            (cookies(["\n"]).err(), "cookie"),
            (find_cookie(["\n"], "a").err(), "cookie"),
            (canonical_field("Age", ["x"]).err(), "age"),
        ];
        for (error, name) in named {
            assert_eq!(error.as_ref().and_then(Error::field), Some(name));
        }
        assert_eq!(members(["\n"]), Err(Error::Rejected));
        assert_eq!(error::check(7), Err(Error::Unknown(7)));
        assert_eq!(Section::from_bytes(alloc::vec![b'x'; 8_388_609]).canonical(KEYS), Err(Error::TooLarge));
    }

    #[test]
    fn typed_headers() {
        fn round_trip<H: Encode + Clone + PartialEq + core::fmt::Debug>(line: &str) -> H {
            let mut section = Section::from_fields([(H::name(), "x"), ("x", "y")]).unwrap();
            section.set(H::name(), line).unwrap();
            let value = section.typed_try_get::<H>().unwrap().unwrap();
            section.typed_insert(value.clone()).unwrap();
            let encoded = section.get(H::name()).unwrap();
            let canonical = canonical_field(H::name(), [line]).unwrap().unwrap();
            assert_eq!(
                (canonical.as_slice(), section.typed_get()),
                ([encoded.to_vec()].as_slice(), Some(value.clone()))
            );
            assert_eq!(section.len(), 2);
            value
        }
        assert_eq!((round_trip("+7"), round_trip("5")), (Age(7), ContentLength(5)));
        let day = 784_111_777.into();
        assert_eq!(round_trip::<Date>("Sunday, 06-Nov-94 08:49:37 GMT"), Date(day));
        assert_eq!(round_trip::<Expires>("Sun Nov  6 08:49:37 1994"), Expires(day));
        assert_eq!(round_trip::<LastModified>("Sun, 06 Nov 1994 08:49:37 GMT"), LastModified(day));
        assert_eq!(round_trip::<CacheControl>("max-age=5, Public"), CacheControl::new().with_public().with_max_age(5));
        assert_eq!(round_trip::<RetryAfter>("007"), RetryAfter::Delay(7));
        assert_eq!(round_trip::<RetryAfter>("Sun, 06 Nov 1994 08:49:37 GMT"), RetryAfter::Date(784_111_777));
        assert_eq!(round_trip::<ContentRange>("bytes */9").length, Some(9));
        assert!(round_trip::<TransportSecurity>("includeSubDomains; max-age=5").include_subdomains);
        assert_eq!(round_trip::<TransportSecurity>("max-age=5").max_age, 5);

        let late = Timestamp::from(u64::MAX);
        assert_eq!(
            (Date(late).encode(), ContentLength(u64::MAX).encode()),
            (Err(invalid("date")), Err(invalid("content-length")))
        );
        let nothing = ContentRange { range: None, length: None };
        assert_eq!(Section::new().typed_insert(nothing), Err(invalid("content-range")));

        let text =
            "Host: a:80\nOrigin: null\nAllow: GET, PUT\nAllow: HEAD\nConnection: close\nVary: *\nCookie: a=b; c=d\n\
                    Content-Type: Text/HTML;a=b\nRange: bytes=0-0,5-\nContent-Disposition: inline\n\
                    Authorization: Bearer x\nProxy-Authorization: Basic YTpi\nAge: x\n";
        let section = Section::parse(text).unwrap();
        let parsed = ParsedSection::new(&section, KEYS).unwrap();
        assert_eq!(parsed.typed_get(), Some(Host { name: "a".to_string(), port: Some(80) }));
        assert_eq!((section.typed_get(), section.typed_get()), (Some(Origin::Null), Some(Disposition::Inline)));
        assert_eq!(section.typed_get::<Allow>().unwrap().0, ["GET", "PUT", "HEAD"]);
        assert_eq!(section.typed_get::<Connection>().unwrap().0, ["close"]);
        assert_eq!(section.typed_get::<Vary>().unwrap().0, ["*"]);
        let cookies = section.typed_get::<Cookie>().unwrap();
        assert_eq!((cookies.get("c"), cookies.get("d")), (Some("d"), None));
        let content_type = section.typed_get::<ContentType>().unwrap();
        assert_eq!(
            (content_type.as_bytes(), content_type.essence()),
            (b"text/html; a=b".as_slice(), b"text/html".as_slice())
        );
        let range = section.typed_get::<Range>().unwrap();
        assert_eq!(range.satisfiable_ranges(10), ranges(["bytes=0-0,5-"], 10).map(Option::unwrap));
        let Authorization(Bearer { token }) = section.typed_get().unwrap();
        let ProxyAuthorization(credentials) = section.typed_get::<ProxyAuthorization<Basic>>().unwrap();
        assert_eq!((token.as_str(), credentials.user.as_str(), credentials.password.as_str()), ("x", "a", "b"));
        let shown = alloc::format!("{cookies:?} {credentials:?} {:?}", Bearer { token });
        assert_eq!(shown, "Cookie { .. } Basic { .. } Bearer { .. }");
        assert_eq!(section.typed_try_get::<Authorization<Basic>>(), Err(invalid("authorization")));
        assert_eq!((section.typed_try_get::<Age>(), section.typed_get::<Age>()), (Err(invalid("age")), None));
        assert_eq!(section.typed_try_get::<Date>(), Ok(None));
    }

    #[test]
    fn directives() {
        let all = "no-cache, no-store, no-transform, only-if-cached, must-revalidate, public, private, immutable, \
                   must-understand, proxy-revalidate, max-age=1, max-stale=2, min-fresh=3, s-maxage=4";
        let value = cache_control([all]).unwrap().unwrap();
        assert_eq!(value.to_string(), all);
        let mut built = CacheControl::new().with_no_cache().with_no_store().with_no_transform().with_only_if_cached();
        built = built.with_must_revalidate().with_public().with_private().with_immutable().with_must_understand();
        built = built.with_proxy_revalidate().with_max_age(1).with_max_stale(2).with_min_fresh(3).with_s_maxage(4);
        assert_eq!(built, value);
        let named = cache_control(["private=\"set-cookie, x-a\", max-age=1", "no-cache=x, stale-if-error=5"]);
        let named = named.unwrap().unwrap();
        assert_eq!(
            (&named.private_fields[..], &named.no_cache_fields[..]),
            (&["set-cookie".into(), "x-a".into()][..], &["x".into()][..])
        );
        assert_eq!((named.is_private, named.stale_if_error, named.stale_while_revalidate), (false, Some(5), None));
        assert_eq!(named.to_string(), "max-age=1, stale-if-error=5, no-cache=\"x\", private=\"set-cookie, x-a\"");
        assert_eq!(cache_control([named.to_string()]), Ok(Some(named)));
        for value in [CacheControl::new(), CacheControl::new().with_private(), CacheControl::new().with_max_age(0)] {
            let text = value.to_string();
            assert_eq!(cache_control([&text]), Ok(Some(value)));
            assert_eq!(canonical_field("Cache-Control", [&text]), Ok(Some(alloc::vec![text.into_bytes()])));
        }
    }

    #[test]
    #[cfg(feature = "std")]
    fn times() {
        use std::time::{Duration, SystemTime};

        let at = |seconds| SystemTime::UNIX_EPOCH + Duration::from_millis(seconds * 1000 + 999);
        assert_eq!((Timestamp::from(at(5)), Timestamp::from(5).seconds()), (5.into(), 5));
        assert_eq!(Timestamp::from(SystemTime::UNIX_EPOCH - Duration::from_secs(1)), 0.into());
        assert_eq!(SystemTime::try_from(Timestamp::from(u64::MAX)), Err(Error::TooLarge));
        assert_eq!((format_date(at(NOW)), format_date(u64::MAX)), (format_date(NOW), Err(Error::Rejected)));
        let request = Section::parse("If-Unmodified-Since: Sun, 06 Nov 1994 08:49:37 GMT").unwrap();
        let target = Target::new().last_modified(at(784_111_777));
        assert_eq!(target, Target::new().last_modified(784_111_777));
        assert_eq!(evaluate("GET", &request, &target, SystemTime::now(), KEYS), Ok(Precondition::Perform));
        let later = Target::new().last_modified(at(784_111_778));
        assert_eq!(evaluate("GET", &request, &later, SystemTime::now(), KEYS), Ok(Precondition::Failed));
    }

    #[test]
    fn fields_are_not_injected() {
        let mut section = Section::new();
        for (name, value) in [("", "a"), ("A:", "b"), ("A\n", "b"), ("A ", "b")] {
            assert_eq!(section.push(name, value), Err(Error::Rejected));
            assert_eq!(section.set(name, value), Err(Error::Rejected));
        }
        for value in ["b\r\nC: d", "\0"] {
            assert_eq!(section.push("A", value), Err(invalid("a")));
            assert_eq!(section.set("A", value), Err(invalid("a")));
        }
        assert_eq!(section.push("A", " b\t"), Ok(()));
        assert_eq!(section.as_bytes(), b"A: b\n");
        // The last line needs no LF, and what follows an empty one is no field.
        let mut section = Section::parse("A: b\r\n\r\nC: d").unwrap();
        assert_eq!(section.push("E", "f"), Ok(()));
        assert_eq!(section.as_bytes(), b"A: b\nE: f\n");
    }

    #[test]
    fn fields_of_a_section() {
        let mut section = Section::parse("A: 1\nb:\t2 \nA: 3\nC:").unwrap();
        let fields: Vec<(&str, &[u8])> = section.iter().collect();
        assert_eq!(fields, [("A", b"1".as_slice()), ("b", b"2"), ("A", b"3"), ("C", b"")]);
        assert_eq!(Section::from_fields(fields), Ok(section.clone()));
        assert_eq!(Section::from_fields(section.clone()), Ok(section.clone()));
        assert_eq!(Section::from_fields([("A", "1"), ("A", "\n")]), Err(invalid("a")));
        assert_eq!((section.len(), section.get("B"), section.get("")), (4, Some(b"2".as_slice()), None));
        assert_eq!(section.get_all("a").collect::<Vec<_>>(), [b"1", b"3"]);
        assert_eq!((section.contains("c"), section.remove("a"), section.remove("a")), (true, true, false));
        assert_eq!((section.set("B", "4"), section.as_bytes()), (Ok(()), b"C: \nB: 4\n".as_slice()));
        assert_eq!((Section::new().len(), Section::new().is_empty(), section.is_empty()), (0, true, false));
        assert_eq!("A: b".parse(), Section::from_fields([("A", "b")]));
        assert_eq!(section.to_map(), Ok(alloc::vec![("C".to_string(), Vec::new()), ("B".to_string(), b"4".to_vec())]));
        let numbers: Result<Vec<(String, [u8; 1])>, Error> = section.to_map();
        assert_eq!(numbers, Err(invalid("c")));
        let secret = Section::parse("Cookie: a=secret\nX: \u{e9}").unwrap();
        assert_eq!(alloc::format!("{secret:?}"), r#"[("Cookie", "(secret)"), ("X", "\\xc3\\xa9")]"#);
        let parsed = ParsedSection::new(&section, KEYS).unwrap();
        assert_eq!(parsed.iter().collect::<Vec<_>>(), (&section).into_iter().collect::<Vec<_>>());
        assert_eq!((parsed.get("b"), parsed.get_all("b").count()), (Some(b"4".as_slice()), 1));
        assert_eq!(parsed.section(), &section);
    }

    #[test]
    fn sections_are_those_of_the_library() {
        let (mut state, mut kept) = (1_u64, 0);
        for _ in 0..20_000 {
            let mut text = Vec::new();
            state = state.wrapping_mul(6_364_136_223_846_793_005).wrapping_add(1);
            for place in 0..state >> 61 {
                let choices = b"Ab1-_!#~: \t\r\n\"(,/;@\x00\x1f\x7f\x80\xff";
                text.extend_from_slice(if place % 3 == 0 { b"A:" } else { b"" });
                state = state.wrapping_mul(6_364_136_223_846_793_005).wrapping_add(1);
                text.push(choices[(state >> 33) as usize % choices.len()]);
            }
            let library = ParsedSection::new(&Section::from_bytes(text.as_slice()), KEYS);
            let section = Section::parse(&text);
            assert_eq!(section.is_ok(), library.is_ok(), "{}", text.escape_ascii());
            if let Ok(section) = section {
                let canonical = section.canonical(KEYS);
                assert_eq!(canonical, Section::from_bytes(text).canonical(KEYS));
                kept += usize::from(!section.is_empty());
            }
        }
        assert!(kept > 1000, "{kept} sections had a field");
    }

    #[test]
    fn conditions_and_ranges() {
        let target = Target::new().etag("\"a\"").last_modified(784_111_777);
        let ask = |text: &str| evaluate("GET", &Section::from_bytes(text), &target, NOW, KEYS);
        assert_eq!(ask("If-None-Match: \"a\"\n"), Ok(Precondition::NotModified));
        assert_eq!(ask("If-Match: \"b\"\n"), Ok(Precondition::Failed));
        assert_eq!(ask(""), Ok(Precondition::Perform));
        let wrong = Target::new().etag("a");
        assert_eq!(evaluate("GET", &Section::new(), &wrong, NOW, KEYS), Err(Error::Rejected));
        let parts = [ByteRange { first: 0, last: 0 }, ByteRange { first: 5, last: 9 }];
        assert_eq!(ranges(["bytes=0-0,5-"], 10), Ok(Some(parts.to_vec())));
        let many: String = (0..100).map(|place| alloc::format!("{place}-{place},")).collect();
        assert_eq!(ranges([alloc::format!("bytes={many}")], 50).unwrap().unwrap().len(), 50);
        let ask = |text: &str, target| select("GET", &Section::from_bytes(text), &target, 10, NOW, KEYS);
        assert_eq!(ask("Range: bytes=5-\n", Target::new()), Ok(Some(Selection::Parts(parts[1..].to_vec()))));
        assert_eq!(ask("", Target::new()), Ok(Some(Selection::Full)));
        assert_eq!(ask("Range: bytes=10-\n", Target::new()), Ok(Some(Selection::Unsatisfiable)));
        assert_eq!(ask("", Target::missing()), Ok(None));
        let dated = "Range: bytes=5-\nIf-Range: Sun, 06 Nov 1994 08:49:37 GMT\n";
        assert_eq!(ask(dated, target), Ok(Some(Selection::Full)));
        assert_eq!(ask(dated, target.strong_date()), Ok(Some(Selection::Parts(parts[1..].to_vec()))));
    }

    #[test]
    fn negotiation() {
        let accept = ["audio/*; q=0.2, audio/basic"];
        assert_eq!(choose_type(accept, ["audio/ogg", "audio/basic"]), Ok(Some(1)));
        assert_eq!(choose_type(accept, ["text/plain"]), Ok(None));
        assert_eq!(choose_type(accept, ["a\u{1}"]), Err(Error::Rejected));
        assert_eq!(type_quality(accept, "audio/ogg"), Ok(Quality::Weight(200)));
        assert_eq!(choose_coding(["gzip"], ["br", "gzip"]), Ok(Some(1)));
        assert_eq!(coding_quality(["gzip"], "identity"), Ok(Quality::Unlisted));
        assert_eq!(choose_language(["en-GB"], ["en"]), Ok(None));
        assert_eq!(look_up_language(["en-GB"], ["de", "en"]), Ok(Some(1)));
        assert_eq!(language_quality(["en"], "eng"), Ok(Quality::NotAcceptable));
        assert_eq!(choose_language([""; 0], ["de", "en"]), Ok(Some(0)));
    }

    #[test]
    fn other_origins() {
        let rules = CorsRules { origins: &["https://a.example"], methods: &["PUT"], ..CorsRules::default() };
        let request = Section::from_bytes("Origin: https://a.example\nAccess-Control-Request-Method: PUT\n");
        let answer = rules.answer("OPTIONS", &request, &Section::from_bytes("Vary: accept\n"), KEYS).unwrap();
        assert_eq!((answer.kind, answer.is_allowed), (CorsKind::Preflight, true));
        let fields = "access-control-allow-origin: https://a.example\naccess-control-allow-methods: PUT\n";
        let fields = alloc::format!("{fields}vary: accept\nvary: origin\n");
        assert_eq!(answer.fields.as_bytes(), fields.as_bytes());
        let any = CorsRules { origins: &["*"], credentials: true, ..CorsRules::default() };
        assert_eq!(any.answer("GET", &Section::new(), &Section::new(), KEYS), Err(Error::Rejected));
        // The URL standard serializes no default port, and HTML no origin of a WebSocket.
        let origins = ["https://a.example", "https://b.example:443", "wss://a.example"];
        let unsent = Some(Error::UnsentOrigin { place: 1 });
        assert_eq!(CorsPolicy::new(&CorsRules { origins: &origins, ..CorsRules::default() }).err(), unsent);
        assert_eq!(websocket_respond("GET", Version::Http11, &request, &[], &origins, KEYS).err(), unsent);
    }

    #[test]
    fn caches() {
        let response = "Date: Sun, 06 Nov 1994 08:49:37 GMT\nCache-Control: max-age=60\nETag: \"a\"\n";
        let (response, none) = (Section::from_bytes(response), Section::new());
        let at = |now| Times { request: 784_111_777, response: 784_111_777, now };
        assert_eq!(may_store("GET", &none, 200, &response, true, KEYS), Ok(true));
        assert_eq!(may_store("PUT", &none, 200, &response, true, KEYS), Ok(false));
        assert_eq!(may_store("GET", &none, 99, &response, true, KEYS), Err(Error::Rejected));
        assert_eq!(lifetime(&response, 784_111_777, true, KEYS), Ok(Some(60)));
        assert_eq!(lifetime(&none, 784_111_777, true, KEYS), Ok(None));
        assert_eq!(current_age(&response, &at(784_111_787), KEYS), Ok(10));
        let decided = |now| decide(("GET", &none), ("GET", &none), &response, &at(now), true, KEYS);
        assert_eq!((decided(784_111_787), decided(784_111_837)), (Ok(Decision::Serve), Ok(Decision::Revalidate)));
        let fields = validators(&response, 784_111_777, KEYS).unwrap();
        assert_eq!(fields.as_bytes(), b"if-none-match: \"a\"\n");
    }
}
