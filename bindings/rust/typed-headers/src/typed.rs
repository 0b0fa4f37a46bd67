use alloc::string::{String, ToString};
use alloc::vec::Vec;

use typed_headers_sys as sys;

use crate::error::{check, Error};
use crate::text::{joined, written};
use crate::ByteRange;

// A text of the library that is UTF-8, as it documents.
fn string(bytes: Vec<u8>) -> Result<String, Error> {
    String::from_utf8(bytes).map_err(|_| Error::Rejected)
}

// Two texts of which the second follows the first.
fn both(bytes: Vec<u8>, first: usize) -> Result<(String, String), Error> {
    let text = string(bytes)?;
    let (one, other) = text.split_at_checked(first).ok_or(Error::Rejected)?;
    Ok((one.to_string(), other.to_string()))
}

fn bytes<I>(lines: I, call: impl Fn(&[u8], *mut u8, usize, *mut usize) -> u8) -> Result<Option<Vec<u8>>, Error>
where
    I: IntoIterator,
    I::Item: AsRef<[u8]>,
{
    let text = joined(lines)?;
    let found = written(text.len(), |room, length, count| call(&text, room, length, count))?;
    Ok(found.map(|(bytes, _)| bytes))
}

fn value<I, T: Default>(lines: I, call: impl Fn(&[u8], *mut T) -> u8) -> Result<Option<T>, Error>
where
    I: IntoIterator,
    I::Item: AsRef<[u8]>,
{
    let (text, mut found) = (joined(lines)?, T::default());
    Ok(check(call(&text, &mut found))?.then_some(found))
}

fn optional_port(port: sys::Port) -> Option<u16> {
    (port.is_set == 1).then_some(port.number)
}

/// The user name and the password of Basic, by the field lines of `Authorization` or of `Proxy-Authorization` (RFC
/// 7617, section 2). [`Error::Rejected`] if the credentials are of another scheme.
///
/// ```
/// let (user, password) = typed_headers::basic(["Basic QWxhZGRpbjpvcGVuIHNlc2FtZQ=="])?.unwrap();
/// assert_eq!((user.as_str(), password.as_str()), ("Aladdin", "open sesame"));
/// # Ok::<(), typed_headers::Error>(())
/// ```
pub fn basic<I>(lines: I) -> Result<Option<(String, String)>, Error>
where
    I: IntoIterator,
    I::Item: AsRef<[u8]>,
{
    let user_length = core::cell::Cell::new(0);
    // SAFETY: the pointers and counts are those of slices, and of values that live until the call returns.
    let found = bytes(lines, |text, room, length, count| unsafe {
        sys::typed_headers_basic(text.as_ptr(), text.len(), user_length.as_ptr(), room, length, count)
    })?;
    found.map(|text| both(text, user_length.get())).transpose()
}

/// The token of Bearer, by the field lines of `Authorization` or of `Proxy-Authorization` (RFC 6750, section 2.1).
/// [`Error::Rejected`] if the credentials are of another scheme.
///
/// ```
/// assert_eq!(typed_headers::bearer(["Bearer mF_9.B5f-4.1JqM"])?.as_deref(), Some("mF_9.B5f-4.1JqM"));
/// # Ok::<(), typed_headers::Error>(())
/// ```
pub fn bearer<I>(lines: I) -> Result<Option<String>, Error>
where
    I: IntoIterator,
    I::Item: AsRef<[u8]>,
{
    // SAFETY: as above.
    let found = bytes(lines, |text, room, length, count| unsafe {
        sys::typed_headers_bearer(text.as_ptr(), text.len(), room, length, count)
    })?;
    found.map(string).transpose()
}

/// The value of the first cookie of this name, by the field lines of `Cookie` (RFC 6265, section 5.4). `None` if there
/// is none.
///
/// ```
/// let found = typed_headers::find_cookie(["SID=31d4d96e407aad42; lang=en-US"], "lang")?;
/// assert_eq!(found.as_deref(), Some("en-US"));
/// # Ok::<(), typed_headers::Error>(())
/// ```
pub fn find_cookie<I>(lines: I, name: impl AsRef<[u8]>) -> Result<Option<String>, Error>
where
    I: IntoIterator,
    I::Item: AsRef<[u8]>,
{
    let name = name.as_ref();
    // SAFETY: as above.
    let found = bytes(lines, |text, room, length, count| unsafe {
        sys::typed_headers_cookie(text.as_ptr(), text.len(), name.as_ptr(), name.len(), room, length, count)
    })
    .map_err(|error| error.of("cookie"))?;
    found.map(string).transpose()
}

/// The names and values of the cookies of `Cookie`, in order (RFC 6265, section 5.4).
///
/// ```
/// let found = typed_headers::cookies(["SID=31d4d96e407aad42; lang=en-US"])?.unwrap();
/// assert_eq!(found[1], ("lang".to_string(), "en-US".to_string()));
/// # Ok::<(), typed_headers::Error>(())
/// ```
pub fn cookies<I>(lines: I) -> Result<Option<Vec<(String, String)>>, Error>
where
    I: IntoIterator,
    I::Item: AsRef<[u8]>,
{
    // SAFETY: as above.
    let found = bytes(lines, |text, room, length, count| unsafe {
        sys::typed_headers_cookies(text.as_ptr(), text.len(), room, length, count)
    })
    .map_err(|error| error.of("cookie"))?;
    let pair = |line: &str| line.split_once('=').map(|(name, value)| (name.to_string(), value.to_string()));
    Ok(found.map(string).transpose()?.map(|text| text.split('\n').filter_map(pair).collect()))
}

/// A host, and its port if there is one. An IPv6 address has its brackets.
#[derive(Clone, Debug, PartialEq, Eq, Hash)]
#[allow(missing_docs)]
pub struct Host {
    pub name: String,
    pub port: Option<u16>,
}

/// The host and the port of `Host` (RFC 9110, section 7.2).
///
/// ```
/// let found = typed_headers::host(["example.org:8080"])?.unwrap();
/// assert_eq!((found.name.as_str(), found.port), ("example.org", Some(8080)));
/// # Ok::<(), typed_headers::Error>(())
/// ```
pub fn host<I>(lines: I) -> Result<Option<Host>, Error>
where
    I: IntoIterator,
    I::Item: AsRef<[u8]>,
{
    let port = core::cell::Cell::new(sys::Port::default());
    // SAFETY: as above.
    let found = bytes(lines, |text, room, length, count| unsafe {
        sys::typed_headers_host(text.as_ptr(), text.len(), port.as_ptr(), room, length, count)
    })
    .map_err(|error| error.of("host"))?;
    let name = found.map(string).transpose()?;
    Ok(name.map(|name| Host { name, port: optional_port(port.get()) }))
}

/// The origin of a request (RFC 6454, section 7). An IPv6 address has its brackets.
#[derive(Clone, Debug, PartialEq, Eq, Hash)]
#[allow(missing_docs)]
pub enum Origin {
    Null,
    Tuple { scheme: String, host: String, port: Option<u16> },
}

/// The origin that `Origin` names (RFC 6454, section 7).
///
/// ```
/// use typed_headers::{Origin, origin};
///
/// let found = origin(["https://example.org"])?.unwrap();
/// let wanted = Origin::Tuple { scheme: "https".to_string(), host: "example.org".to_string(), port: None };
/// assert_eq!(found, wanted);
/// # Ok::<(), typed_headers::Error>(())
/// ```
pub fn origin<I>(lines: I) -> Result<Option<Origin>, Error>
where
    I: IntoIterator,
    I::Item: AsRef<[u8]>,
{
    let parts = core::cell::Cell::new(sys::OriginParts::default());
    // SAFETY: as above.
    let found = bytes(lines, |text, room, length, count| unsafe {
        sys::typed_headers_origin(text.as_ptr(), text.len(), parts.as_ptr(), room, length, count)
    })
    .map_err(|error| error.of("origin"))?;
    let (Some(text), parts) = (found, parts.get()) else {
        return Ok(None);
    };
    if parts.is_null == 1 {
        return Ok(Some(Origin::Null));
    }
    let (scheme, host) = both(text, parts.scheme_length)?;
    Ok(Some(Origin::Tuple { scheme, host, port: optional_port(parts.port) }))
}

/// For how many seconds a host may be reached only by secure transport, and whether its subdomains are included.
#[derive(Clone, Copy, Debug, PartialEq, Eq, Hash)]
#[allow(missing_docs)]
pub struct TransportSecurity {
    pub max_age: u64,
    pub include_subdomains: bool,
}

/// The policy of `Strict-Transport-Security` (RFC 6797, section 6.1).
///
/// ```
/// let found = typed_headers::strict_transport_security(["max-age=31536000; includeSubDomains"])?.unwrap();
/// assert_eq!((found.max_age, found.include_subdomains), (31_536_000, true));
/// # Ok::<(), typed_headers::Error>(())
/// ```
pub fn strict_transport_security<I>(lines: I) -> Result<Option<TransportSecurity>, Error>
where
    I: IntoIterator,
    I::Item: AsRef<[u8]>,
{
    // SAFETY: as above.
    let found = value(lines, |text, policy: *mut sys::TransportSecurity| unsafe {
        sys::typed_headers_strict_transport_security(text.as_ptr(), text.len(), policy)
    })
    .map_err(|error| error.of("strict-transport-security"))?;
    Ok(found.map(|it| TransportSecurity { max_age: it.max_age, include_subdomains: it.include_subdomains == 1 }))
}

/// When a client may send its request again (RFC 9110, section 10.2.3).
#[derive(Clone, Copy, Debug, PartialEq, Eq, Hash)]
pub enum RetryAfter {
    /// After so many seconds.
    Delay(u64),
    /// From this second since the start of 1970 on.
    Date(u64),
}

/// The delay or the date of `Retry-After` (RFC 9110, section 10.2.3).
///
/// ```
/// use typed_headers::{RetryAfter, retry_after};
///
/// assert_eq!(retry_after(["120"])?, Some(RetryAfter::Delay(120)));
/// assert_eq!(retry_after(["Sun, 06 Nov 1994 08:49:37 GMT"])?, Some(RetryAfter::Date(784_111_777)));
/// # Ok::<(), typed_headers::Error>(())
/// ```
pub fn retry_after<I>(lines: I) -> Result<Option<RetryAfter>, Error>
where
    I: IntoIterator,
    I::Item: AsRef<[u8]>,
{
    // SAFETY: as above.
    let found = value(lines, |text, time: *mut sys::RetryTime| unsafe {
        sys::typed_headers_retry_after(text.as_ptr(), text.len(), time)
    })
    .map_err(|error| error.of("retry-after"))?;
    Ok(found.map(|it| if it.is_date == 1 { RetryAfter::Date(it.seconds) } else { RetryAfter::Delay(it.seconds) }))
}

/// The part of a representation that a message carries, and the complete length (RFC 9110, section 14.4).
#[derive(Clone, Copy, Debug, PartialEq, Eq, Hash)]
#[allow(missing_docs)]
pub struct ContentRange {
    pub range: Option<ByteRange>,
    pub length: Option<u64>,
}

/// The range and the complete length of `Content-Range` (RFC 9110, section 14.4).
///
/// ```
/// use typed_headers::{ByteRange, ContentRange, content_range};
///
/// let wanted = ContentRange { range: Some(ByteRange { first: 0, last: 4 }), length: Some(10) };
/// assert_eq!(content_range(["bytes 0-4/10"])?, Some(wanted));
/// # Ok::<(), typed_headers::Error>(())
/// ```
pub fn content_range<I>(lines: I) -> Result<Option<ContentRange>, Error>
where
    I: IntoIterator,
    I::Item: AsRef<[u8]>,
{
    // SAFETY: as above.
    let found = value(lines, |text, range: *mut sys::ContentRange| unsafe {
        sys::typed_headers_content_range(text.as_ptr(), text.len(), range)
    })
    .map_err(|error| error.of("content-range"))?;
    Ok(found.map(|it| ContentRange {
        range: (it.has_range == 1).then_some(ByteRange { first: it.first, last: it.last }),
        length: (it.has_length == 1).then_some(it.length),
    }))
}

/// How content is to be presented (RFC 6266, section 4.2).
#[derive(Clone, Copy, Debug, PartialEq, Eq, Hash)]
#[non_exhaustive]
pub enum Disposition {
    /// By another word, which RFC 6266 has treated as an attachment.
    Other,
    /// It is shown in place.
    Inline,
    /// It is saved.
    Attachment,
    /// It is a part of a form (RFC 7578, section 4.2).
    FormData,
}

/// The disposition of `Content-Disposition`, without parameters (RFC 6266, section 4.2).
///
/// ```
/// use typed_headers::{Disposition, content_disposition};
///
/// assert_eq!(content_disposition(["attachment; filename=\"a.txt\""])?, Some(Disposition::Attachment));
/// # Ok::<(), typed_headers::Error>(())
/// ```
pub fn content_disposition<I>(lines: I) -> Result<Option<Disposition>, Error>
where
    I: IntoIterator,
    I::Item: AsRef<[u8]>,
{
    // SAFETY: as above.
    let found = value(lines, |text, kind: *mut u8| unsafe {
        sys::typed_headers_content_disposition(text.as_ptr(), text.len(), kind)
    })
    .map_err(|error| error.of("content-disposition"))?;
    Ok(found.map(|kind| match kind {
        1 => Disposition::Inline,
        2 => Disposition::Attachment,
        3 => Disposition::FormData,
        _ => Disposition::Other,
    }))
}

/// The members of a list between commas, as `Allow`, `Connection` and `Vary` are (RFC 9110, section 5.6.1).
///
/// ```
/// assert_eq!(typed_headers::members(["GET, HEAD", "OPTIONS"])?.unwrap(), ["GET", "HEAD", "OPTIONS"]);
/// # Ok::<(), typed_headers::Error>(())
/// ```
pub fn members<I>(lines: I) -> Result<Option<Vec<String>>, Error>
where
    I: IntoIterator,
    I::Item: AsRef<[u8]>,
{
    // SAFETY: as above.
    let found = bytes(lines, |text, room, length, count| unsafe {
        sys::typed_headers_members(text.as_ptr(), text.len(), room, length, count)
    })?;
    Ok(found.map(string).transpose()?.map(|text| text.lines().map(str::to_string).collect()))
}

/// Whether a list between commas has a member (RFC 9110, section 5.6.1). With `any_case` the case of ASCII letters
/// doesn't count, as of connection options and field names.
///
/// ```
/// assert_eq!(typed_headers::has_member(["Keep-Alive, Close"], "close", true)?, Some(true));
/// # Ok::<(), typed_headers::Error>(())
/// ```
pub fn has_member<I>(lines: I, member: impl AsRef<[u8]>, any_case: bool) -> Result<Option<bool>, Error>
where
    I: IntoIterator,
    I::Item: AsRef<[u8]>,
{
    let member = member.as_ref();
    // SAFETY: as above.
    let found = value(lines, |text, has: *mut u8| unsafe {
        sys::typed_headers_has_member(text.as_ptr(), text.len(), member.as_ptr(), member.len(), any_case, has)
    })?;
    Ok(found.map(|has| has == 1))
}
