use alloc::vec::Vec;
use core::cell::Cell;

use typed_headers_sys as sys;

use crate::error::Error;
use crate::text::{joined, text, written_both, Section};
use crate::{ByteRange, CorsRules, Keys, Timestamp, Version};

/// A method of a resource.
#[derive(Clone, Copy, Debug, Default, PartialEq, Eq, Hash)]
pub struct Method<'a> {
    /// Its name. GET stands for HEAD too.
    pub name: &'a str,
    /// The media types that it takes, as a field line of Accept. Empty: any.
    pub accept: &'a str,
    /// The codings that it takes, as a field line of Accept-Encoding. Empty: any.
    pub accept_encoding: &'a str,
    /// Whether it is performed if there is no current representation, as PUT.
    pub creates: bool,
    /// Whether the request must name what it may replace (RFC 6585, section 3).
    pub is_guarded: bool,
}

/// A representation of a resource.
#[derive(Clone, Copy, Debug, Default, PartialEq, Eq, Hash)]
pub struct Representation<'a> {
    /// Its media type, or empty if that isn't known.
    pub media_type: &'a str,
    /// Its language, or empty.
    pub language: &'a str,
    /// Its content coding, or empty.
    pub coding: &'a str,
    /// Its entity tag with its quotes, or empty.
    pub etag: &'a str,
    /// How many bytes it has. Without a length no ranges are sent.
    pub length: Option<u64>,
    /// Whether ranges of it are sent.
    pub sends_ranges: bool,
    /// When it was last modified.
    pub last_modified: Option<u64>,
    /// Whether that is a strong validator (RFC 9110, section 8.8.2.2).
    pub is_date_strong: bool,
}

/// What state a resource is in.
#[derive(Clone, Copy, Debug, Default, PartialEq, Eq, Hash)]
#[non_exhaustive]
pub enum State<'a> {
    /// It has a current representation.
    #[default]
    Current,
    /// It has none.
    Absent,
    /// It is gone for good.
    Gone,
    /// It is under another URI, for good: 301.
    MovedPermanently(&'a str),
    /// It is under another URI for now, and the method stays: 307.
    Temporary(&'a str),
    /// It is under another URI for good, and the method stays: 308.
    Permanent(&'a str),
    /// It is the server in general, `*` (RFC 9110, section 9.3.7): OPTIONS gets the methods, and any other method 404.
    Server,
}

/// What a server knows of the target of a request before it performs a method.
#[derive(Clone, Copy, Debug, Default, PartialEq, Eq, Hash)]
pub struct Resource<'a> {
    /// The hosts that it is served for, as they are in Host. None: any.
    pub hosts: &'a [&'a str],
    /// Its methods, in the order of Allow. Each resource has OPTIONS.
    pub methods: &'a [Method<'a>],
    /// Its representations, the most wanted first.
    pub representations: &'a [Representation<'a>],
    /// Its state.
    pub state: State<'a>,
    /// Whether a representation is chosen by its media type.
    pub by_media_type: bool,
    /// Whether it is chosen by its language.
    pub by_language: bool,
    /// Whether it is chosen by its coding.
    pub by_coding: bool,
    /// Whether a read is answered by 406 if no representation is acceptable.
    pub is_strict: bool,
    /// What separates several parts. Empty: `THIS_STRING_SEPARATES`.
    pub boundary: &'a str,
    /// Whether content must have a length.
    pub needs_length: bool,
    /// The greatest length of content that is taken.
    pub limit: Option<u64>,
    /// The rules for requests from other origins.
    pub cors: Option<CorsRules<'a>>,
    /// The methods that the server implements for some resource, with GET, HEAD and its `methods` (RFC 9110, section 9.1).
    /// `None`: those of RFC 9110, and PATCH. Any other is answered by 501, and one that it doesn't have by 405.
    pub implemented: Option<&'a [&'a str]>,
    /// Whether each change of a representation gives it a later date (RFC 9110, section 8.8.2.2): then If-Unmodified-Since
    /// with that date names it. An old date isn't enough: two changes may have come in its second.
    pub has_strong_dates: bool,
}

/// What is said of the content of a request.
#[derive(Clone, Copy, Debug, Default, PartialEq, Eq, Hash)]
#[non_exhaustive]
pub enum RequestContent {
    /// It has none.
    #[default]
    Absent,
    /// It has so many bytes.
    Sized(u64),
    /// Its length isn't stated.
    Unsized,
}

/// Why a server denies a request: by its credentials, or by the load. The answer says nothing of the resource.
#[derive(Clone, Copy, Debug, PartialEq, Eq, Hash)]
#[non_exhaustive]
pub enum Denied<'a> {
    /// 401: it has no valid credentials. The challenges, as the field line of WWW-Authenticate (RFC 9110, section 11.6.1).
    /// Without one the answer is an error.
    Unauthenticated(&'a str),
    /// 403: its credentials don't suffice, or none do (section 15.5.4).
    Forbidden,
    /// 429: the client sends too many (RFC 6585, section 4). After how many seconds it may send another one, if that is
    /// known.
    TooManyRequests(Option<u64>),
    /// 503: the server can't handle it now (RFC 9110, section 15.6.4). After how many seconds the client may send another
    /// one, if that is known.
    Unavailable(Option<u64>),
}

/// A request to a resource.
#[derive(Clone, Copy, Debug)]
pub struct ResourceRequest<'a> {
    /// Its method.
    pub method: &'a str,
    /// Its target, as the request line has it.
    pub target: &'a str,
    /// Its version.
    pub version: Version,
    /// Its fields.
    pub fields: &'a Section,
    /// Its content, by the framing of its message.
    pub content: RequestContent,
    /// Why the server denies it, if it does.
    pub denied: Option<Denied<'a>>,
}

/// Why an answer is what it is.
#[derive(Clone, Copy, Debug, PartialEq, Eq, Hash)]
#[non_exhaustive]
pub enum Reason {
    /// Nothing stands in the way: the preconditions and Range decide, and then the method.
    Admitted,
    /// 400: Host is missing, is there twice, or is no host.
    InvalidHost,
    /// 421: the host isn't one of the resource's.
    Misdirected,
    /// 501: the server doesn't implement the method.
    UnknownMethod,
    /// 405: the server implements the method, and the resource doesn't have it.
    MethodNotAllowed,
    /// 204: the method is OPTIONS. A missing resource that no method makes gets 404.
    Options,
    /// 417: Expect has a member other than `100-continue`.
    UnmetExpectation,
    /// 301, 307 or 308: the resource is under another URI.
    Moved,
    /// 410: the resource is gone.
    Gone,
    /// 404: there is no current representation, and the method makes none.
    NotFound,
    /// 411: the length of the content isn't stated.
    LengthRequired,
    /// 413: the content is longer than the limit.
    ContentTooLarge,
    /// 415: the method doesn't take the media type of the content.
    UnsupportedMediaType,
    /// 415: the method doesn't take a coding of the content.
    UnsupportedCoding,
    /// 406: no representation is acceptable.
    NotAcceptable,
    /// 428: the request doesn't name what it may replace.
    PreconditionRequired,
    /// 400: PUT with Content-Range, and no parts are taken. It comes after 417.
    PartialContent,
    /// 204: a preflight, where the rules for other origins count. It comes after 421.
    Preflight,
    /// 401, 403, 429 or 503: the server denies the request. It comes after a preflight.
    Denied,
    /// A reason that this crate doesn't know.
    Unknown,
}

const REASONS: [Reason; 19] = [
    Reason::Admitted,
    Reason::InvalidHost,
    Reason::Misdirected,
    Reason::UnknownMethod,
    Reason::MethodNotAllowed,
    Reason::Options,
    Reason::UnmetExpectation,
    Reason::Moved,
    Reason::Gone,
    Reason::NotFound,
    Reason::LengthRequired,
    Reason::ContentTooLarge,
    Reason::UnsupportedMediaType,
    Reason::UnsupportedCoding,
    Reason::NotAcceptable,
    Reason::PreconditionRequired,
    Reason::PartialContent,
    Reason::Preflight,
    Reason::Denied,
];

/// What an answer sends. A response to HEAD never has content.
#[derive(Clone, Debug, PartialEq, Eq, Hash)]
#[non_exhaustive]
pub enum Sends {
    /// Nothing of the resource. The server may explain the status.
    Nothing,
    /// A list of the representations that there are.
    Alternatives,
    /// All of the representation, or without a place all that the server makes as it performs GET.
    Whole,
    /// These ranges of it.
    Parts(Vec<ByteRange>),
    /// What comes of the method, which the server performs.
    Result,
}

/// The whole answer of a resource.
#[derive(Clone, Debug, PartialEq, Eq, Hash)]
#[non_exhaustive]
pub struct ResourceAnswer {
    /// The status, or `None` if it comes of the method, which the server performs.
    pub status: Option<u16>,
    /// Why it is this answer.
    pub reason: Reason,
    /// What is sent.
    pub sends: Sends,
    /// The place of the representation that it is about.
    pub place: Option<usize>,
    /// The fields to set. One that the server has set by itself is replaced by those of its name.
    pub fields: Section,
}

fn lines<'a, T>(items: &'a [T], line: impl Fn(&'a T) -> &'a str) -> Result<Vec<u8>, Error> {
    joined(items.iter().map(line))
}

fn names<'a>(methods: &'a [Method<'a>], is_named: impl Fn(&Method<'a>) -> bool) -> Result<Vec<u8>, Error> {
    joined(methods.iter().filter(|it| is_named(it)).map(|it| it.name))
}

impl State<'_> {
    fn number(&self) -> (u16, &str) {
        match self {
            State::Current => (0, ""),
            State::Absent => (1, ""),
            State::Gone => (2, ""),
            State::MovedPermanently(location) => (301, location),
            State::Temporary(location) => (307, location),
            State::Permanent(location) => (308, location),
            State::Server => (3, ""),
        }
    }
}

impl Resource<'_> {
    /// The whole answer of the resource to a request at the second `now` (RFC 9110, sections 7.4 to 15): by its host, a
    /// denial, its method, its content, negotiation, preconditions, ranges, and the rules for other origins.
    ///
    /// ```
    /// use typed_headers::{
    ///     Denied, Keys, Method, Reason, Representation, Resource, ResourceRequest, Section, Sends, Version,
    /// };
    ///
    /// let text = Representation { media_type: "text/plain", length: Some(10), ..Representation::default() };
    /// let methods = [Method { name: "GET", ..Method::default() }];
    /// let resource = Resource { methods: &methods, representations: &[text], ..Resource::default() };
    /// let fields = Section::parse("Host: a.example\n")?;
    /// let mut request = ResourceRequest {
    ///     method: "GET",
    ///     target: "/",
    ///     version: Version::Http11,
    ///     fields: &fields,
    ///     content: Default::default(),
    ///     denied: None,
    /// };
    /// let answer = resource.answer(&request, 1_767_225_600, Keys::random())?;
    /// assert_eq!((answer.status, answer.sends, answer.place), (Some(200), Sends::Whole, Some(0)));
    /// request.method = "DELETE";
    /// let answer = resource.answer(&request, 1_767_225_600, Keys::random())?;
    /// assert_eq!((answer.status, answer.reason), (Some(405), Reason::MethodNotAllowed));
    /// request.denied = Some(Denied::TooManyRequests(Some(60)));
    /// let answer = resource.answer(&request, 1_767_225_600, Keys::random())?;
    /// assert_eq!((answer.status, answer.fields.get("retry-after")), (Some(429), Some(b"60".as_slice())));
    /// # Ok::<(), typed_headers::Error>(())
    /// ```
    pub fn answer(
        &self,
        request: &ResourceRequest<'_>,
        now: impl Into<Timestamp>,
        keys: Keys,
    ) -> Result<ResourceAnswer, Error> {
        let (asked, denial) = (request.given(now), request.denial());
        let section = request.fields.as_bytes();
        let facts = Cell::new(sys::ResourceFacts::default());
        let found = self.given(|given, numbers, rules| {
            // SAFETY: these are pointers and counts of slices and of values, which don't overlap.
            written_both(|parts, room| unsafe {
                sys::typed_headers_resource_answer(
                    given,
                    numbers.as_ptr(),
                    numbers.len(),
                    rules,
                    &asked,
                    &denial,
                    section.as_ptr(),
                    section.len(),
                    &keys.0,
                    facts.as_ptr(),
                    parts.items.as_mut_ptr(),
                    parts.items.len(),
                    &mut parts.count,
                    room.items.as_mut_ptr(),
                    room.items.len(),
                    &mut room.count,
                )
            })
        })?;
        let (parts, lines) = found.unwrap_or_default();
        Ok(ResourceAnswer::of(facts.get(), parts, lines))
    }

    // Makes a call with the resource as the library takes it.
    pub(crate) fn given<T>(
        &self,
        call: impl FnOnce(&sys::Resource, &[sys::Representation], &sys::CorsRules) -> Result<T, Error>,
    ) -> Result<T, Error> {
        let (shown, (state, location)) = (self.representations, self.state.number());
        let texts = [
            joined(self.hosts)?,
            lines(self.methods, |it| it.name)?,
            names(self.methods, |it| it.creates)?,
            names(self.methods, |it| it.is_guarded)?,
            lines(self.methods, |it| it.accept)?,
            lines(self.methods, |it| it.accept_encoding)?,
            lines(shown, |it| it.media_type)?,
            lines(shown, |it| it.language)?,
            lines(shown, |it| it.coding)?,
            lines(shown, |it| it.etag)?,
            joined(self.implemented.unwrap_or_default())?,
        ];
        let [hosts, methods, creating, guarded, accept, accept_encoding, media_types, languages, codings, etags, implemented] =
            texts.each_ref().map(|it| text(it));
        let given = sys::Resource {
            hosts,
            methods,
            creating,
            guarded,
            accept,
            accept_encoding,
            location: text(location.as_bytes()),
            media_types,
            languages,
            codings,
            etags,
            boundary: text(self.boundary.as_bytes()),
            implemented,
            limit: self.limit.unwrap_or(0),
            state,
            by_media_type: self.by_media_type,
            by_language: self.by_language,
            by_coding: self.by_coding,
            is_strict: self.is_strict,
            needs_length: self.needs_length,
            has_limit: self.limit.is_some(),
            has_cors: self.cors.is_some(),
            has_implemented: self.implemented.is_some(),
            has_strong_dates: self.has_strong_dates,
        };
        let numbers: Vec<sys::Representation> = shown
            .iter()
            .map(|it| sys::Representation {
                length: it.length.unwrap_or(0),
                last_modified: it.last_modified.unwrap_or(0),
                has_length: it.length.is_some(),
                sends_ranges: it.sends_ranges,
                has_last_modified: it.last_modified.is_some(),
                is_date_strong: it.is_date_strong,
            })
            .collect();
        self.cors.unwrap_or_default().given(|rules| call(&given, &numbers, rules))
    }
}

impl ResourceRequest<'_> {
    pub(crate) fn given(&self, now: impl Into<Timestamp>) -> sys::ResourceRequest {
        sys::ResourceRequest {
            method: text(self.method.as_bytes()),
            target: text(self.target.as_bytes()),
            present: now.into().seconds(),
            length: if let RequestContent::Sized(length) = self.content { length } else { 0 },
            version: self.version as u8,
            has_content: self.content != RequestContent::Absent,
            has_length: matches!(self.content, RequestContent::Sized(_)),
        }
    }

    pub(crate) fn denial(&self) -> sys::Denial {
        let (status, challenge, seconds) = match self.denied {
            None => (0, "", None),
            Some(Denied::Unauthenticated(challenge)) => (401, challenge, None),
            Some(Denied::Forbidden) => (403, "", None),
            Some(Denied::TooManyRequests(seconds)) => (429, "", seconds),
            Some(Denied::Unavailable(seconds)) => (503, "", seconds),
        };
        sys::Denial {
            challenge: text(challenge.as_bytes()),
            retry_after: seconds.unwrap_or(0),
            status,
            has_retry_after: seconds.is_some(),
        }
    }
}

impl ResourceAnswer {
    pub(crate) fn of(facts: sys::ResourceFacts, parts: Vec<ByteRange>, lines: Vec<u8>) -> ResourceAnswer {
        ResourceAnswer {
            status: (facts.status != 0).then_some(facts.status),
            reason: REASONS.get(usize::from(facts.reason)).copied().unwrap_or(Reason::Unknown),
            sends: match facts.sends {
                0 => Sends::Nothing,
                1 => Sends::Alternatives,
                2 => Sends::Whole,
                3 => Sends::Parts(parts),
                _ => Sends::Result,
            },
            place: (facts.has_place == 1).then_some(facts.place),
            fields: Section::from_bytes(lines),
        }
    }
}
