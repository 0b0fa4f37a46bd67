use alloc::vec::Vec;
use core::cell::Cell;

use typed_headers_sys as sys;

use crate::error::{check, Error};
use crate::lock::Owned;
use crate::text::{joined, lower, text, written, written_both, Fields, Section};
use crate::{
    Content, CorsAnswer, CorsRules, Keys, Precondition, Resource, ResourceAnswer, ResourceRequest, Response, Selection,
    Target, Timestamp,
};

// In this module pointers and counts are those of slices and of values, which don't overlap. A handle is open, and shared
// with calls that only read it.

/// A section that is parsed once, for all that is asked of its fields. Times are seconds since 1970.
///
/// Threads may share one, as they may a [`CorsPolicy`] and a [`PreparedResource`]: their calls run at the same time, and
/// none waits for another.
///
/// ```
/// use typed_headers::{Keys, ParsedSection, Precondition, Section, Target};
///
/// let request = Section::parse("If-None-Match: \"a\"\nAccept-Encoding: gzip\nAge: +007\n")?;
/// let request = ParsedSection::new(&request, Keys::random())?;
/// let target = Target::new().etag(r#""a""#);
/// assert_eq!(request.evaluate("GET", &target, 1_767_225_600)?, Precondition::NotModified);
/// assert_eq!(request.choose_coding(["br", "gzip"])?, Some(1));
/// assert_eq!(request.field("age")?, Some(b"7\n".to_vec()));
/// assert_eq!(request.get("age"), Some(b"+007".as_slice()));
/// # Ok::<(), typed_headers::Error>(())
/// ```
#[derive(Debug)]
pub struct ParsedSection {
    handle: Owned<sys::Section>,
    section: Section,
}

type Choose = unsafe extern "C" fn(*const sys::Section, *const u8, usize, *mut usize) -> u8;

impl ParsedSection {
    /// Parses the fields of a section. [`Error::Rejected`] if a line is no field.
    pub fn new(section: &Section, keys: Keys) -> Result<ParsedSection, Error> {
        let mut parsed = ParsedSection { handle: Owned::closed(), section: section.clone() };
        let text = section.as_bytes();
        // SAFETY: as above. The handle is closed.
        check(unsafe { sys::typed_headers_section_new(parsed.handle.alone(), text.as_ptr(), text.len(), &keys.0) })?;
        Ok(parsed)
    }

    /// The section, as it was before.
    pub fn section(&self) -> &Section {
        &self.section
    }

    /// The value of the first field of a name, as it came.
    pub fn get(&self, name: &str) -> Option<&[u8]> {
        self.section.get(name)
    }

    /// The values of the fields of a name, in order, as they came.
    pub fn get_all<'a, 'n>(&'a self, name: &'n str) -> impl Iterator<Item = &'a [u8]> + Clone + use<'a, 'n> {
        self.section.get_all(name)
    }

    /// Yields the name and the value of each field, in order, as they came.
    pub fn iter(&self) -> Fields<'_> {
        self.section.iter()
    }

    /// The canonical field lines of a header, each with LF, as [`canonical_field`](crate::canonical_field) gives them.
    /// `None` if the section has no line of this name.
    pub fn field(&self, name: impl AsRef<[u8]>) -> Result<Option<Vec<u8>>, Error> {
        let name = name.as_ref();
        // SAFETY: as above.
        let found = written(256, |room, room_length, count| unsafe {
            sys::typed_headers_section_field(
                self.handle.shared(),
                name.as_ptr(),
                name.len(),
                room,
                room_length,
                count,
            )
        });
        let found = found.map_err(|error| error.of(lower(name)))?;
        Ok(found.map(|(lines, _)| lines))
    }

    /// What the preconditions of a request with these fields come to: see [`evaluate`](crate::evaluate).
    pub fn evaluate(
        &self,
        method: impl AsRef<[u8]>,
        target: &Target<'_>,
        now: impl Into<Timestamp>,
    ) -> Result<Precondition, Error> {
        let (method, mut answer) = (method.as_ref(), 0);
        // SAFETY: as above.
        check(unsafe {
            let handle = self.handle.shared();
            sys::typed_headers_section_evaluate(handle, method.as_ptr(), method.len(), &target.given(now), &mut answer)
        })?;
        Ok(Precondition::of(answer))
    }

    /// Which part of the target's representation a request with these fields selects: see [`select`](crate::select).
    pub fn select(
        &self,
        method: impl AsRef<[u8]>,
        target: &Target<'_>,
        length: u64,
        now: impl Into<Timestamp>,
    ) -> Result<Option<Selection>, Error> {
        let (method, given) = (method.as_ref(), target.given(now));
        let answer = Cell::new(0);
        // SAFETY: as above.
        let found = written(8, |room, room_length, count| unsafe {
            sys::typed_headers_section_select(
                self.handle.shared(),
                method.as_ptr(),
                method.len(),
                &given,
                length,
                answer.as_ptr(),
                room,
                room_length,
                count,
            )
        })?;
        Ok(found.map(|(parts, _)| Selection::of(answer.get(), parts)))
    }

    /// The response to a request with these fields: see [`respond`](crate::respond).
    pub fn respond(
        &self,
        method: impl AsRef<[u8]>,
        target: &Target<'_>,
        content: &Content<'_>,
        boundary: &str,
        now: impl Into<Timestamp>,
    ) -> Result<Option<Response>, Error> {
        let (method, given) = (method.as_ref(), target.given(now));
        let (carried, facts) = (content.given(boundary), Cell::new(sys::Response::default()));
        // SAFETY: as above.
        let found = written_both(|parts, room| unsafe {
            sys::typed_headers_section_respond(
                self.handle.shared(),
                method.as_ptr(),
                method.len(),
                &given,
                &carried,
                facts.as_ptr(),
                parts.items.as_mut_ptr(),
                parts.items.len(),
                &mut parts.count,
                room.items.as_mut_ptr(),
                room.items.len(),
                &mut room.count,
            )
        })?;
        Ok(found.and_then(|(parts, lines)| Response::of(facts.get(), parts, lines)))
    }

    fn choose<O>(&self, call: Choose, offers: O) -> Result<Option<usize>, Error>
    where
        O: IntoIterator,
        O::Item: AsRef<[u8]>,
    {
        let (offers, mut place) = (joined(offers)?, 0);
        // SAFETY: as above.
        let status = unsafe { call(self.handle.shared(), offers.as_ptr(), offers.len(), &mut place) };
        Ok(check(status)?.then_some(place))
    }

    /// The place of the media type that a request with these fields is served, by Accept: see
    /// [`choose_type`](crate::choose_type).
    pub fn choose_type<O>(&self, offers: O) -> Result<Option<usize>, Error>
    where
        O: IntoIterator,
        O::Item: AsRef<[u8]>,
    {
        self.choose(sys::typed_headers_section_choose_type, offers)
    }

    /// The place of the content coding that it is served, by Accept-Encoding.
    pub fn choose_coding<O>(&self, offers: O) -> Result<Option<usize>, Error>
    where
        O: IntoIterator,
        O::Item: AsRef<[u8]>,
    {
        self.choose(sys::typed_headers_section_choose_coding, offers)
    }

    /// The place of the language that it is served, by Accept-Language.
    pub fn choose_language<O>(&self, offers: O) -> Result<Option<usize>, Error>
    where
        O: IntoIterator,
        O::Item: AsRef<[u8]>,
    {
        self.choose(sys::typed_headers_section_choose_language, offers)
    }
}

impl<'a> IntoIterator for &'a ParsedSection {
    type Item = (&'a str, &'a [u8]);
    type IntoIter = Fields<'a>;

    fn into_iter(self) -> Fields<'a> {
        self.iter()
    }
}

/// A policy for requests from other origins: [`CorsRules`] that are read once.
///
/// ```
/// use typed_headers::{CorsPolicy, CorsRules, Keys, ParsedSection, Section};
///
/// let rules = CorsRules { origins: &["https://a.example"], ..CorsRules::default() };
/// let policy = CorsPolicy::new(&rules)?;
/// let request = Section::parse("Origin: https://a.example\n")?;
/// let request = ParsedSection::new(&request, Keys::random())?;
/// assert!(policy.answer("GET", &request, &Section::new(), Keys::random())?.is_allowed);
/// # Ok::<(), typed_headers::Error>(())
/// ```
#[derive(Debug)]
pub struct CorsPolicy {
    handle: Owned<sys::CorsPolicy>,
}

impl CorsPolicy {
    /// Makes the policy of these rules. [`Error::Rejected`] if no browser reads them as they are meant.
    pub fn new(rules: &CorsRules<'_>) -> Result<CorsPolicy, Error> {
        let mut policy = CorsPolicy { handle: Owned::closed() };
        // SAFETY: as above. The handle is closed.
        rules.given(|given| check(unsafe { sys::typed_headers_cors_policy_new(policy.handle.alone(), given) }))?;
        Ok(policy)
    }

    /// What a server with this policy answers a request: see [`CorsRules::answer`].
    pub fn answer(
        &self,
        method: impl AsRef<[u8]>,
        request: &ParsedSection,
        response: &Section,
        keys: Keys,
    ) -> Result<CorsAnswer, Error> {
        let exchange = sys::CorsExchange { method: text(method.as_ref()), response: text(response.as_bytes()) };
        let facts = Cell::new(sys::CorsFacts::default());
        // SAFETY: as above.
        let found = written(512, |room, room_length, count| unsafe {
            sys::typed_headers_cors_policy_answer(
                self.handle.shared(),
                request.handle.shared(),
                &exchange,
                &keys.0,
                facts.as_ptr(),
                room,
                room_length,
                count,
            )
        })?;
        Ok(CorsAnswer::of(facts.get(), found.map_or(Vec::new(), |(text, _)| text)))
    }
}

/// A [`Resource`] that is read once, for all requests to it.
///
/// ```
/// use typed_headers::{Keys, Method, ParsedSection, PreparedResource, Resource, ResourceRequest, Section, Version};
///
/// let methods = [Method { name: "GET", ..Method::default() }];
/// let resource = PreparedResource::new(&Resource { methods: &methods, ..Resource::default() })?;
/// let fields = Section::parse("Host: a.example\n")?;
/// let parsed = ParsedSection::new(&fields, Keys::random())?;
/// let request = ResourceRequest {
///     method: "DELETE",
///     target: "/",
///     version: Version::Http11,
///     fields: &fields,
///     content: Default::default(),
///     denied: None,
/// };
/// assert_eq!(resource.answer(&request, &parsed, 1_767_225_600)?.status, Some(405));
/// # Ok::<(), typed_headers::Error>(())
/// ```
#[derive(Debug)]
pub struct PreparedResource {
    handle: Owned<sys::ResourceHandle>,
}

impl PreparedResource {
    /// Reads a resource. [`Error::Rejected`] if one of its parts can't be read.
    pub fn new(resource: &Resource<'_>) -> Result<PreparedResource, Error> {
        let mut prepared = PreparedResource { handle: Owned::closed() };
        resource.given(|given, numbers, rules| {
            // SAFETY: as above. The handle is closed.
            check(unsafe {
                sys::typed_headers_resource_handle_new(
                    prepared.handle.alone(),
                    given,
                    numbers.as_ptr(),
                    numbers.len(),
                    rules,
                )
            })
        })?;
        Ok(prepared)
    }

    /// The whole answer of the resource to a request at the second `now`: see [`Resource::answer`]. `fields` counts, and
    /// not `request.fields`.
    pub fn answer(
        &self,
        request: &ResourceRequest<'_>,
        fields: &ParsedSection,
        now: impl Into<Timestamp>,
    ) -> Result<ResourceAnswer, Error> {
        let (asked, denial) = (request.given(now), request.denial());
        let facts = Cell::new(sys::ResourceFacts::default());
        // SAFETY: as above.
        let found = written_both(|parts, room| unsafe {
            sys::typed_headers_resource_handle_answer(
                self.handle.shared(),
                fields.handle.shared(),
                &asked,
                &denial,
                facts.as_ptr(),
                parts.items.as_mut_ptr(),
                parts.items.len(),
                &mut parts.count,
                room.items.as_mut_ptr(),
                room.items.len(),
                &mut room.count,
            )
        })?;
        let (parts, lines) = found.unwrap_or_default();
        Ok(ResourceAnswer::of(facts.get(), parts, lines))
    }
}
