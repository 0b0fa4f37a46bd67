use alloc::vec::Vec;

use typed_headers_sys as sys;

use crate::error::{check, Error};
use crate::text::{text, written, Section};
use crate::Keys;

/// When the request was made that a stored response answered, when that came, and the present, by the cache's own
/// clock.
pub use sys::Moments as Times;

/// Whether a cache may store the response to a request (RFC 9111, sections 3 and 3.5). `is_shared` is true for a cache
/// of several users, as a proxy's.
///
/// ```
/// use typed_headers::{Keys, Section, may_store};
///
/// let response = Section::parse("Cache-Control: private, max-age=60\n")?;
/// assert_eq!(may_store("GET", &Section::new(), 200, &response, true, Keys::random())?, false);
/// # Ok::<(), typed_headers::Error>(())
/// ```
pub fn may_store(
    method: impl AsRef<[u8]>,
    request: &Section,
    status: u16,
    response: &Section,
    is_shared: bool,
    keys: Keys,
) -> Result<bool, Error> {
    let (request, response, mut answer) = (request.with_method(method.as_ref()), response.as_bytes(), 0);
    // SAFETY: here and below these are pointers and counts of slices and of values, which don't overlap.
    check(unsafe {
        sys::typed_headers_may_store(
            &request,
            status,
            response.as_ptr(),
            response.len(),
            &keys.0,
            is_shared,
            &mut answer,
        )
    })?;
    Ok(answer == 1)
}

/// For how many seconds a response that came at the second `received` is fresh (RFC 9111, section 4.2.1). `None` if its
/// origin doesn't say.
pub fn lifetime(response: &Section, received: u64, is_shared: bool, keys: Keys) -> Result<Option<u64>, Error> {
    let (response, mut seconds) = (response.as_bytes(), 0);
    // SAFETY: as above.
    let is_said = check(unsafe {
        sys::typed_headers_lifetime(response.as_ptr(), response.len(), &keys.0, received, is_shared, &mut seconds)
    })?;
    Ok(is_said.then_some(seconds))
}

/// How many seconds old a stored response is (RFC 9111, section 4.2.3).
pub fn current_age(response: &Section, times: &Times, keys: Keys) -> Result<u64, Error> {
    let (response, mut seconds) = (response.as_bytes(), 0);
    // SAFETY: as above.
    check(unsafe { sys::typed_headers_current_age(response.as_ptr(), response.len(), &keys.0, times, &mut seconds) })?;
    Ok(seconds)
}

/// What a cache does with a request that a stored response could answer.
#[derive(Clone, Copy, Debug, PartialEq, Eq, Hash)]
#[non_exhaustive]
pub enum Decision {
    /// The stored response is the answer. It is fresh.
    Serve,
    /// It is the answer though it is stale, and is revalidated after that (`stale-while-revalidate`).
    ServeAndRevalidate,
    /// It is the answer though it is stale: the request allows that (`max-stale`).
    ServeStale,
    /// The origin has to say whether the stored response is still good.
    Revalidate,
    /// The same, but it may be the answer if the origin can't be reached or fails (`stale-if-error`).
    RevalidateOrServe,
    /// The answer is 504: the request forbids to ask the origin (`only-if-cached`).
    Unavailable,
    /// The origin has to answer: the stored response doesn't suit the request, or the request's method isn't safe.
    Fetch,
}

impl Decision {
    pub(crate) fn of(number: u8) -> Decision {
        match number {
            0 => Decision::Serve,
            1 => Decision::ServeAndRevalidate,
            2 => Decision::ServeStale,
            3 => Decision::Revalidate,
            4 => Decision::RevalidateOrServe,
            5 => Decision::Unavailable,
            _ => Decision::Fetch,
        }
    }
}

/// What a cache does with a request, by a response that it has stored for the same URI (RFC 9111, section 4, and RFC
/// 5861). `stored` is the request that the response answered; each request is a method and its fields.
pub fn decide(
    stored: (&str, &Section),
    request: (&str, &Section),
    response: &Section,
    times: &Times,
    is_shared: bool,
    keys: Keys,
) -> Result<Decision, Error> {
    let stored = sys::Stored {
        method: text(stored.0.as_bytes()),
        request: text(stored.1.as_bytes()),
        response: text(response.as_bytes()),
    };
    let (request, mut decision) = (request.1.with_method(request.0.as_bytes()), 0);
    // SAFETY: as above.
    check(unsafe { sys::typed_headers_decide(&stored, &request, &keys.0, times, is_shared, &mut decision) })?;
    Ok(Decision::of(decision))
}

/// The fields by which the origin is asked whether a stored response that came at the second `received` is still good
/// (RFC 9111, section 4.3.1). They replace the request's own `If-None-Match` and `If-Modified-Since`.
pub fn validators(response: &Section, received: u64, keys: Keys) -> Result<Section, Error> {
    let response = response.as_bytes();
    // SAFETY: as above.
    let found = written(128, |room: *mut u8, length, count| unsafe {
        sys::typed_headers_validators(response.as_ptr(), response.len(), received, &keys.0, room, length, count)
    })?;
    Ok(Section::from_bytes(found.map_or(Vec::new(), |(text, _)| text)))
}
