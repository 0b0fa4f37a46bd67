use typed_headers_sys as sys;

use crate::error::{check, Error};
use crate::text::joined;

type Choose = unsafe extern "C" fn(*const u8, usize, *const u8, usize, *mut usize) -> u8;
type Rate = unsafe extern "C" fn(*const u8, usize, *const u8, usize, *mut sys::Quality) -> u8;

/// How acceptable an offer is to a client.
#[derive(Clone, Copy, Debug, PartialEq, Eq, Hash)]
#[non_exhaustive]
pub enum Quality {
    /// It isn't acceptable.
    NotAcceptable,
    /// It is acceptable though no element of the field names it: content without a coding.
    Unlisted,
    /// It is acceptable with this weight, 1 to 1000 thousandths.
    Weight(u16),
}

fn choose<L, O>(call: Choose, lines: L, offers: O) -> Result<Option<usize>, Error>
where
    L: IntoIterator,
    L::Item: AsRef<[u8]>,
    O: IntoIterator,
    O::Item: AsRef<[u8]>,
{
    let (lines, offers) = (joined(lines)?, joined(offers)?);
    let mut place = 0;
    // SAFETY: each text is as long as it says, and the library writes one number.
    let status = unsafe { call(lines.as_ptr(), lines.len(), offers.as_ptr(), offers.len(), &mut place) };
    Ok(check(status)?.then_some(place))
}

fn rate<L>(call: Rate, lines: L, offer: &[u8]) -> Result<Quality, Error>
where
    L: IntoIterator,
    L::Item: AsRef<[u8]>,
{
    let lines = joined(lines)?;
    let mut quality = sys::Quality::default();
    // SAFETY: each text is as long as it says, and the library writes one struct.
    check(unsafe { call(lines.as_ptr(), lines.len(), offer.as_ptr(), offer.len(), &mut quality) })?;
    Ok(match (quality.is_acceptable, quality.weight) {
        (0, _) => Quality::NotAcceptable,
        (_, 0) => Quality::Unlisted,
        (_, weight) => Quality::Weight(weight),
    })
}

macro_rules! choosing {
    ($(#[$text:meta])* $name:ident, $call:ident) => {
        $(#[$text])*
        pub fn $name<L, O>(lines: L, offers: O) -> Result<Option<usize>, Error>
        where
            L: IntoIterator,
            L::Item: AsRef<[u8]>,
            O: IntoIterator,
            O::Item: AsRef<[u8]>,
        {
            choose(sys::$call, lines, offers)
        }
    };
}

macro_rules! rating {
    ($(#[$text:meta])* $name:ident, $call:ident) => {
        $(#[$text])*
        pub fn $name<L>(lines: L, offer: &(impl AsRef<[u8]> + ?Sized)) -> Result<Quality, Error>
        where
            L: IntoIterator,
            L::Item: AsRef<[u8]>,
        {
            rate(sys::$call, lines, offer.as_ref())
        }
    };
}

choosing! {
    /// The place of the media type that a request is served, by the lines of Accept (RFC 9110, section 12.5.1). The
    /// offers are a server's, the most wanted first. `None` if none is acceptable.
    ///
    /// ```
    /// let place = typed_headers::choose_type(["text/*;q=0.5, text/html"], ["text/plain", "text/html"])?;
    /// assert_eq!(place, Some(1));
    /// # Ok::<(), typed_headers::Error>(())
    /// ```
    choose_type, typed_headers_choose_type
}

choosing! {
    /// The place of the content coding that a request is served, by the lines of Accept-Encoding (RFC 9110, section
    /// 12.5.3). An offer is a value of Content-Encoding, or `identity`.
    choose_coding, typed_headers_choose_coding
}

choosing! {
    /// The place of the language that a request is served, by the lines of Accept-Language and basic filtering (RFC
    /// 4647, section 3.3.1).
    choose_language, typed_headers_choose_language
}

choosing! {
    /// The place of the language that lookup finds, by the lines of Accept-Language (RFC 4647, section 3.4).
    look_up_language, typed_headers_look_up_language
}

rating! {
    /// How acceptable a media type is, by the lines of Accept.
    type_quality, typed_headers_type_quality
}

rating! {
    /// How acceptable a value of Content-Encoding is, by the lines of Accept-Encoding.
    coding_quality, typed_headers_coding_quality
}

rating! {
    /// How acceptable a language tag is, by the lines of Accept-Language.
    language_quality, typed_headers_language_quality
}
