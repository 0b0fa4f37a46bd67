use alloc::vec::Vec;
use core::cell::Cell;

use typed_headers_sys as sys;

use crate::error::Error;
use crate::text::{joined, text, written, Section};
use crate::Keys;

/// The fields of a response that are the rules' alone.
pub const CORS_FIELDS: [&str; 6] = [
    "access-control-allow-origin",
    "access-control-allow-credentials",
    "access-control-expose-headers",
    "access-control-allow-methods",
    "access-control-allow-headers",
    "access-control-max-age",
];

/// What a server allows requests from other origins. A list of the one value `*` is any value.
#[derive(Clone, Copy, Debug, Default, PartialEq, Eq, Hash)]
pub struct CorsRules<'a> {
    /// The origins, as `https://a.example`, compared byte for byte with what a browser sends.
    pub origins: &'a [&'a str],
    /// The methods besides GET, HEAD and POST, with case.
    pub methods: &'a [&'a str],
    /// The names of request fields besides those that need no leave. Any name is each but `authorization`.
    pub headers: &'a [&'a str],
    /// The names of response fields that scripts may read besides those that are always readable.
    pub exposed: &'a [&'a str],
    /// For how many seconds a browser may keep the answer to a preflight.
    pub max_age: Option<u64>,
    /// Whether requests may include credentials.
    pub credentials: bool,
}

/// What a request is to a server's rules.
#[derive(Clone, Copy, Debug, PartialEq, Eq, Hash)]
#[non_exhaustive]
pub enum CorsKind {
    /// It has no `Origin`.
    NoOrigin,
    /// It has one, and is no preflight.
    Plain,
    /// A browser asks whether it may send another request.
    Preflight,
}

/// What rules answer a request.
#[derive(Clone, Debug, PartialEq, Eq, Hash)]
#[non_exhaustive]
pub struct CorsAnswer {
    /// What the request is.
    pub kind: CorsKind,
    /// Whether its origin is allowed. A request without one is.
    pub is_allowed: bool,
    /// The fields to add to the response, once those of [`CORS_FIELDS`] are removed. If there are lines of `vary`, they
    /// replace the response's.
    pub fields: Section,
}

impl CorsAnswer {
    pub(crate) fn of(facts: sys::CorsFacts, lines: Vec<u8>) -> CorsAnswer {
        CorsAnswer {
            kind: match facts.kind {
                0 => CorsKind::NoOrigin,
                1 => CorsKind::Plain,
                _ => CorsKind::Preflight,
            },
            is_allowed: facts.is_allowed == 1,
            fields: Section::from_bytes(lines),
        }
    }
}

impl CorsRules<'_> {
    // Makes a call with the rules as the library takes them.
    pub(crate) fn given<T>(&self, call: impl FnOnce(&sys::CorsRules) -> Result<T, Error>) -> Result<T, Error> {
        let lists = [joined(self.origins)?, joined(self.methods)?, joined(self.headers)?, joined(self.exposed)?];
        let [origins, methods, headers, exposed] = lists.each_ref().map(|it| text(it));
        call(&sys::CorsRules {
            origins,
            methods,
            headers,
            exposed,
            max_age: self.max_age.unwrap_or(0),
            has_max_age: self.max_age.is_some(),
            credentials: self.credentials,
        })
        .map_err(|error| error.of_origins(&lists[0]))
    }

    /// What a server with these rules answers a request (Fetch standard, section 3.3). `response` has the fields of the
    /// response as its handler left it, of which Vary counts. [`Error::Rejected`] also if no browser reads the rules as
    /// they are meant, as any origin with credentials, and [`Error::UnsentOrigin`] if none sends one of the origins.
    ///
    /// ```
    /// use typed_headers::{CorsRules, Keys, Section};
    ///
    /// let rules = CorsRules { origins: &["https://a.example"], ..CorsRules::default() };
    /// let request = Section::parse("Origin: https://a.example\n")?;
    /// let answer = rules.answer("GET", &request, &Section::new(), Keys::random())?;
    /// let fields = b"access-control-allow-origin: https://a.example\nvary: origin\n";
    /// assert_eq!((answer.is_allowed, answer.fields.as_bytes()), (true, fields.as_slice()));
    /// # Ok::<(), typed_headers::Error>(())
    /// ```
    pub fn answer(
        &self,
        method: impl AsRef<[u8]>,
        request: &Section,
        response: &Section,
        keys: Keys,
    ) -> Result<CorsAnswer, Error> {
        let (request, response) = (request.with_method(method.as_ref()), response.as_bytes());
        let facts = Cell::new(sys::CorsFacts::default());
        let found = self.given(|rules| {
            // SAFETY: these are pointers and counts of slices and of values, which don't overlap.
            written(512, |room: *mut u8, room_length, count| unsafe {
                sys::typed_headers_cors_answer(
                    rules,
                    &request,
                    response.as_ptr(),
                    response.len(),
                    &keys.0,
                    facts.as_ptr(),
                    room,
                    room_length,
                    count,
                )
            })
        })?;
        Ok(CorsAnswer::of(facts.get(), found.map_or(Vec::new(), |(text, _)| text)))
    }
}
