use core::cell::Cell;

use typed_headers_sys as sys;

use crate::error::Error;
use crate::text::{text, written_both, Section};
use crate::{ByteRange, Keys, Target, Timestamp};
use alloc::vec::Vec;

/// What a response carries of a representation.
///
/// ```
/// use typed_headers::Content;
///
/// let content = Content { media_type: "text/plain", length: Some(10), sends_ranges: true };
/// ```
#[derive(Clone, Copy, Debug, Default, PartialEq, Eq, Hash)]
pub struct Content<'a> {
    /// Its media type, or empty if that isn't known.
    pub media_type: &'a str,
    /// How many bytes it has. Without a length no ranges are sent.
    pub length: Option<u64>,
    /// Whether ranges of it are sent.
    pub sends_ranges: bool,
}

/// The response to a request for a representation.
#[derive(Clone, Debug, PartialEq, Eq, Hash)]
#[non_exhaustive]
pub struct Response {
    /// 200, 206, 304, 412 or 416.
    pub status: u16,
    /// The ranges that a 206 sends, in order. With several, the content is made of parts.
    pub parts: Vec<ByteRange>,
    /// The fields to set. A field that the server has set by itself is replaced by those of its name.
    pub fields: Section,
    /// Whether a Content-Encoding that the server has set stays. Content-Digest and Content-MD5 stay on a 200 alone.
    pub keeps_encoding: bool,
}

impl Content<'_> {
    pub(crate) fn given(&self, boundary: &str) -> sys::Content {
        sys::Content {
            media_type: text(self.media_type.as_bytes()),
            boundary: text(boundary.as_bytes()),
            length: self.length.unwrap_or(0),
            has_length: self.length.is_some(),
            sends_ranges: self.sends_ranges,
        }
    }
}

impl Response {
    pub(crate) fn of(facts: sys::Response, parts: Vec<ByteRange>, lines: Vec<u8>) -> Option<Response> {
        (facts.status != 0).then(|| Response {
            status: facts.status,
            parts,
            fields: Section::from_bytes(lines),
            keeps_encoding: facts.keeps_encoding == 1,
        })
    }
}

/// The response to a GET or HEAD of the target's representation, by its preconditions and its ranges, and to any request
/// whose preconditions are false (RFC 9110, sections 13.2.2 and 14.2). `None` if the server performs the method.
///
/// `boundary` is what separates several parts: 1 to 70 characters that no line of the content begins with. The request
/// is answered at the second `now`.
///
/// ```
/// use typed_headers::{ByteRange, Content, Keys, Section, Target, respond};
///
/// let request = Section::parse("Range: bytes=5-\n")?;
/// let content = Content { media_type: "text/plain", length: Some(10), sends_ranges: true };
/// let found = respond("GET", &request, &Target::new(), &content, "cut", 1_767_225_600, Keys::random())?.unwrap();
/// assert_eq!((found.status, found.parts), (206, vec![ByteRange { first: 5, last: 9 }]));
/// # Ok::<(), typed_headers::Error>(())
/// ```
pub fn respond(
    method: impl AsRef<[u8]>,
    request: &Section,
    target: &Target<'_>,
    content: &Content<'_>,
    boundary: &str,
    now: impl Into<Timestamp>,
    keys: Keys,
) -> Result<Option<Response>, Error> {
    let (request, given) = (request.with_method(method.as_ref()), target.given(now));
    let (carried, facts) = (content.given(boundary), Cell::new(sys::Response::default()));
    // SAFETY: these are pointers and counts of slices and of values, which don't overlap.
    let found = written_both(|parts, room| unsafe {
        sys::typed_headers_respond(
            &request,
            &keys.0,
            &given,
            &carried,
            facts.as_ptr(),
            parts.items.as_mut_ptr(),
            parts.items.len(),
            &mut parts.count,
            room.items.as_mut_ptr(),
            room.items.len(),
            &mut room.count,
        )
    })?;
    Ok(found.and_then(|(parts, lines)| Response::of(facts.get(), parts, lines)))
}
