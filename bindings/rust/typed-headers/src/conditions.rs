use alloc::vec::Vec;
use core::cell::Cell;

use typed_headers_sys as sys;

use crate::error::{check, Error};
use crate::text::{text, written, Section};
use crate::{ByteRange, Keys, Timestamp};

/// What a server knows of the target of a request.
///
/// ```
/// use typed_headers::Target;
///
/// let target = Target::new().etag(r#""a""#).last_modified(784_111_777);
/// ```
#[derive(Clone, Copy, Debug, PartialEq, Eq, Hash)]
pub struct Target<'a> {
    etag: &'a [u8],
    last_modified: Option<u64>,
    exists: bool,
    is_date_strong: bool,
}

impl<'a> Target<'a> {
    /// A target with a current representation, of which nothing else is known.
    pub const fn new() -> Target<'a> {
        Target { etag: &[], last_modified: None, exists: true, is_date_strong: false }
    }

    /// A target without a representation.
    pub const fn missing() -> Target<'a> {
        Target { exists: false, ..Target::new() }
    }

    /// The entity tag of the representation, with its quotes.
    pub fn etag(self, etag: &'a (impl AsRef<[u8]> + ?Sized)) -> Target<'a> {
        Target { etag: etag.as_ref(), ..self }
    }

    /// When the representation was last modified.
    pub fn last_modified(self, time: impl Into<Timestamp>) -> Target<'a> {
        Target { last_modified: Some(time.into().seconds()), ..self }
    }

    /// Says that this date is a strong validator (RFC 9110, section 8.8.2.2).
    pub const fn strong_date(self) -> Target<'a> {
        Target { is_date_strong: true, ..self }
    }

    pub(crate) fn given(&self, now: impl Into<Timestamp>) -> sys::Target {
        sys::Target {
            etag: text(self.etag),
            last_modified: self.last_modified.unwrap_or(0),
            present: now.into().seconds(),
            exists: self.exists,
            has_last_modified: self.last_modified.is_some(),
            is_date_strong: self.is_date_strong,
        }
    }
}

impl Default for Target<'_> {
    fn default() -> Self {
        Target::new()
    }
}

/// What the preconditions of a request come to.
#[derive(Clone, Copy, Debug, PartialEq, Eq, Hash)]
#[non_exhaustive]
pub enum Precondition {
    /// The method is performed.
    Perform,
    /// The status is 304.
    NotModified,
    /// The status is 412.
    Failed,
}

impl Precondition {
    pub(crate) fn of(answer: u16) -> Precondition {
        match answer {
            0 => Precondition::Perform,
            304 => Precondition::NotModified,
            _ => Precondition::Failed,
        }
    }
}

/// What the preconditions of a request come to (RFC 9110, section 13.2.2). A server asks this once it would otherwise
/// answer with success, and before it performs the method. It answers the request at the second `now`.
///
/// ```
/// use typed_headers::{Keys, Precondition, Section, Target, evaluate};
///
/// let request = Section::parse("If-None-Match: \"a\"\n")?;
/// let target = Target::new().etag(r#""a""#);
/// let found = evaluate("GET", &request, &target, 1_767_225_600, Keys::random())?;
/// assert_eq!(found, Precondition::NotModified);
/// # Ok::<(), typed_headers::Error>(())
/// ```
pub fn evaluate(
    method: impl AsRef<[u8]>,
    request: &Section,
    target: &Target<'_>,
    now: impl Into<Timestamp>,
    keys: Keys,
) -> Result<Precondition, Error> {
    let (request, mut answer) = (request.with_method(method.as_ref()), 0);
    // SAFETY: these are pointers and counts of slices and of values, which don't overlap.
    let status = unsafe { sys::typed_headers_evaluate(&request, &keys.0, &target.given(now), &mut answer) };
    check(status)?;
    Ok(Precondition::of(answer))
}

/// Which part of a representation a request selects.
#[derive(Clone, Debug, PartialEq, Eq, Hash)]
#[non_exhaustive]
pub enum Selection {
    /// All of it: the status is 200.
    Full,
    /// These ranges, in order: the status is 206.
    Parts(Vec<ByteRange>),
    /// None of it: the status is 416.
    Unsatisfiable,
}

impl Selection {
    pub(crate) fn of(answer: u16, parts: Vec<ByteRange>) -> Selection {
        match answer {
            200 => Selection::Full,
            206 => Selection::Parts(parts),
            _ => Selection::Unsatisfiable,
        }
    }
}

/// Which part of the target's representation, of so many bytes, a request selects (RFC 9110, section 14.2). A server
/// asks this once [`evaluate`] said that the method is performed. `None` if the target doesn't exist.
///
/// ```
/// use typed_headers::{ByteRange, Keys, Section, Selection, Target, select};
///
/// let request = Section::parse("Range: bytes=5-\n")?;
/// let found = select("GET", &request, &Target::new(), 10, 1_767_225_600, Keys::random())?;
/// assert_eq!(found, Some(Selection::Parts(vec![ByteRange { first: 5, last: 9 }])));
/// # Ok::<(), typed_headers::Error>(())
/// ```
pub fn select(
    method: impl AsRef<[u8]>,
    request: &Section,
    target: &Target<'_>,
    length: u64,
    now: impl Into<Timestamp>,
    keys: Keys,
) -> Result<Option<Selection>, Error> {
    let (request, given) = (request.with_method(method.as_ref()), target.given(now));
    let answer = Cell::new(0);
    // SAFETY: as above.
    let found = written(8, |room, room_length, count| unsafe {
        sys::typed_headers_select(&request, &keys.0, &given, length, answer.as_ptr(), room, room_length, count)
    })?;
    Ok(found.map(|(parts, _)| Selection::of(answer.get(), parts)))
}
