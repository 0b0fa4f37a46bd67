use alloc::string::String;
use alloc::vec::Vec;
use core::fmt;

use typed_headers_sys as sys;

use crate::error::{check, status, Error};
use crate::text::{joined, lower, written, Section};
use crate::{ByteRange, Keys, Timestamp};

// In this crate pointers and counts that are handed to the library are those of slices, and of values that live until
// the call returns. None overlaps another.

fn number<I>(call: sys::NumberCall, lines: I) -> Result<Option<u64>, Error>
where
    I: IntoIterator,
    I::Item: AsRef<[u8]>,
{
    let (text, mut number) = (joined(lines)?, 0);
    // SAFETY: as above.
    Ok(check(unsafe { call(text.as_ptr(), text.len(), &mut number) })?.then_some(number))
}

macro_rules! numbers {
    ($($(#[$comment:meta])* $name:ident = $call:ident, $field:literal;)*) => {$(
        $(#[$comment])*
        pub fn $name<I>(lines: I) -> Result<Option<u64>, Error>
        where
            I: IntoIterator,
            I::Item: AsRef<[u8]>,
        {
            number(sys::$call, lines).map_err(|error| error.of($field))
        }
    )*};
}

numbers! {
    /// The seconds of `Age` (RFC 9111, section 5.1).
    ///
    /// ```
    /// assert_eq!(typed_headers::age(["+007"])?, Some(7));
    /// assert_eq!(typed_headers::age::<[&str; 0]>([])?, None);
    /// # Ok::<(), typed_headers::Error>(())
    /// ```
    age = typed_headers_age, "age";
    /// The bytes of `Content-Length` (RFC 9110, section 8.6). Several field lines have to say the same.
    ///
    /// ```
    /// assert_eq!(typed_headers::content_length(["5", "5"])?, Some(5));
    /// # Ok::<(), typed_headers::Error>(())
    /// ```
    content_length = typed_headers_content_length, "content-length";
    /// The second of `Date` since the start of 1970 (RFC 9110, section 6.6.1).
    ///
    /// ```
    /// assert_eq!(typed_headers::date(["Sun, 06 Nov 1994 08:49:37 GMT"])?, Some(784_111_777));
    /// # Ok::<(), typed_headers::Error>(())
    /// ```
    date = typed_headers_date, "date";
    /// The second of `Expires` since the start of 1970 (RFC 9111, section 5.3).
    expires = typed_headers_expires, "expires";
    /// The second of `Last-Modified` since the start of 1970 (RFC 9110, section 8.8.2).
    last_modified = typed_headers_last_modified, "last-modified";
}

fn bytes<I>(call: sys::BytesCall, lines: I) -> Result<Option<Vec<u8>>, Error>
where
    I: IntoIterator,
    I::Item: AsRef<[u8]>,
{
    let text = joined(lines)?;
    // SAFETY: as above.
    let found = written(text.len() + 28, |room, length, count| unsafe {
        call(text.as_ptr(), text.len(), room, length, count)
    })?;
    Ok(found.map(|(bytes, _)| bytes))
}

/// The canonical field lines of a header: what the value of the lines encodes to. `None` if there is no line.
///
/// The lines of `authorization` and `proxy-authorization` are decoded as credentials of Basic, else of Bearer. Those of a
/// name that no header has are as they came.
///
/// ```
/// let found = typed_headers::canonical_field("If-None-Match", ["\"a\"", "W/\"b\""])?.unwrap();
/// assert_eq!(found, [b"\"a\", W/\"b\""]);
/// assert!(typed_headers::canonical_field("Age", ["seven"]).is_err());
/// # Ok::<(), typed_headers::Error>(())
/// ```
pub fn canonical_field<I>(name: impl AsRef<[u8]>, lines: I) -> Result<Option<Vec<Vec<u8>>>, Error>
where
    I: IntoIterator,
    I::Item: AsRef<[u8]>,
{
    let name = name.as_ref();
    let text = joined(lines).map_err(|error| error.of(lower(name)))?;
    // SAFETY: as above.
    let found = written(text.len() + 28, |room, length, count| unsafe {
        sys::typed_headers_field(name.as_ptr(), name.len(), text.as_ptr(), text.len(), room, length, count)
    })
    .map_err(|error| error.of(lower(name)))?;
    Ok(found.map(|(bytes, _)| {
        bytes.split_inclusive(|byte| *byte == b'\n').map(|line| line[..line.len() - 1].to_vec()).collect()
    }))
}

// A text of the library that is ASCII, as it documents.
fn ascii(found: Option<(Vec<u8>, u8)>) -> Result<String, Error> {
    String::from_utf8(found.map(|(bytes, _)| bytes).unwrap_or_default()).map_err(|_| Error::Rejected)
}

/// The date of a time, as HTTP writes it (RFC 9110, section 5.6.7). [`Error::Rejected`] after the year 9999.
///
/// ```
/// assert_eq!(typed_headers::format_date(784_111_777)?, "Sun, 06 Nov 1994 08:49:37 GMT");
/// assert!(typed_headers::format_date(u64::MAX).is_err());
/// # Ok::<(), typed_headers::Error>(())
/// ```
pub fn format_date(time: impl Into<Timestamp>) -> Result<String, Error> {
    let second = time.into().seconds();
    // SAFETY: as above.
    let found =
        written(29, |room, length, count| unsafe { sys::typed_headers_format_date(second, room, length, count) })?;
    ascii(found)
}

/// The line of `Content-Range` for a range, for the length of the whole, or for both (RFC 9110, section 14.4).
///
/// ```
/// use typed_headers::{ByteRange, format_content_range};
///
/// assert_eq!(format_content_range(Some(ByteRange { first: 0, last: 4 }), Some(10))?, "bytes 0-4/10");
/// assert_eq!(format_content_range(None, Some(10))?, "bytes */10");
/// assert!(format_content_range(None, None).is_err());
/// # Ok::<(), typed_headers::Error>(())
/// ```
pub fn format_content_range(range: Option<ByteRange>, length: Option<u64>) -> Result<String, Error> {
    let part = range.unwrap_or_default();
    let given = sys::ContentRange {
        first: part.first,
        last: part.last,
        length: length.unwrap_or_default(),
        has_range: range.is_some().into(),
        has_length: length.is_some().into(),
    };
    // SAFETY: as above.
    let found = written(68, |room, length, count| unsafe {
        sys::typed_headers_format_content_range(&given, room, length, count)
    })?;
    ascii(found)
}

/// The entity tag with this opaque part (RFC 9110, section 8.8.3).
///
/// ```
/// assert_eq!(typed_headers::format_etag(true, "a")?, b"W/\"a\"");
/// assert!(typed_headers::format_etag(false, "\"").is_err());
/// # Ok::<(), typed_headers::Error>(())
/// ```
pub fn format_etag(is_weak: bool, opaque: impl AsRef<[u8]>) -> Result<Vec<u8>, Error> {
    let opaque = opaque.as_ref();
    // SAFETY: as above.
    let found = written(opaque.len() + 4, |room, length, count| unsafe {
        sys::typed_headers_format_etag(is_weak, opaque.as_ptr(), opaque.len(), room, length, count)
    })?;
    Ok(found.map(|(bytes, _)| bytes).unwrap_or_default())
}

/// The canonical text of the media type of `Content-Type` (RFC 9110, section 8.3).
///
/// ```
/// let found = typed_headers::media_type(["Text/HTML;Charset=UTF-8"])?;
/// assert_eq!(found.as_deref(), Some(b"text/html; charset=utf-8".as_slice()));
/// # Ok::<(), typed_headers::Error>(())
/// ```
pub fn media_type<I>(lines: I) -> Result<Option<Vec<u8>>, Error>
where
    I: IntoIterator,
    I::Item: AsRef<[u8]>,
{
    bytes(sys::typed_headers_media_type, lines).map_err(|error| error.of("content-type"))
}

/// Type and subtype of the media type of `Content-Type`, as `text/html`.
pub fn essence<I>(lines: I) -> Result<Option<Vec<u8>>, Error>
where
    I: IntoIterator,
    I::Item: AsRef<[u8]>,
{
    bytes(sys::typed_headers_essence, lines).map_err(|error| error.of("content-type"))
}

/// The value of `Sec-WebSocket-Accept` that answers a `Sec-WebSocket-Key` (RFC 6455, section 4.2.2).
///
/// ```
/// let found = typed_headers::websocket_accept(["dGhlIHNhbXBsZSBub25jZQ=="])?;
/// assert_eq!(found.as_deref(), Some(b"s3pPLMBiTxaQ9kYGzzhZRbK+xOo=".as_slice()));
/// # Ok::<(), typed_headers::Error>(())
/// ```
pub fn websocket_accept<I>(lines: I) -> Result<Option<Vec<u8>>, Error>
where
    I: IntoIterator,
    I::Item: AsRef<[u8]>,
{
    bytes(sys::typed_headers_websocket_accept, lines).map_err(|error| error.of("sec-websocket-key"))
}

fn compare(call: sys::TagsCall, one: &[u8], other: &[u8]) -> Result<bool, Error> {
    let mut equal = 0;
    // SAFETY: as above.
    let status = unsafe { call(one.as_ptr(), one.len(), other.as_ptr(), other.len(), &mut equal) };
    if check(status)? {
        Ok(equal == 1)
    } else {
        Err(Error::Rejected)
    }
}

/// Whether two entity tags are equal and neither is weak (RFC 9110, section 8.8.3.2). [`Error::Rejected`] if one of
/// them is none.
///
/// ```
/// assert_eq!(typed_headers::strong_eq(r#""a""#, r#"W/"a""#)?, false);
/// # Ok::<(), typed_headers::Error>(())
/// ```
pub fn strong_eq(one: impl AsRef<[u8]>, other: impl AsRef<[u8]>) -> Result<bool, Error> {
    compare(sys::typed_headers_strong_eq, one.as_ref(), other.as_ref())
}

/// Whether two entity tags are equal but for `W/` (RFC 9110, section 8.8.3.2). [`Error::Rejected`] if one of them is
/// none.
pub fn weak_eq(one: impl AsRef<[u8]>, other: impl AsRef<[u8]>) -> Result<bool, Error> {
    compare(sys::typed_headers_weak_eq, one.as_ref(), other.as_ref())
}

/// The directives of `Cache-Control` that are set (RFC 9111, section 5.2; RFC 5861). Seconds are `None` if they aren't.
///
/// ```
/// use typed_headers::CacheControl;
///
/// let value = CacheControl::new().with_public().with_max_age(60);
/// assert_eq!(value.to_string(), "public, max-age=60");
/// ```
#[derive(Clone, Debug, Default, PartialEq, Eq, Hash)]
#[non_exhaustive]
#[allow(missing_docs)]
pub struct CacheControl {
    pub max_age: Option<u64>,
    pub max_stale: Option<u64>,
    pub min_fresh: Option<u64>,
    pub s_maxage: Option<u64>,
    pub no_cache: bool,
    pub no_store: bool,
    pub no_transform: bool,
    pub only_if_cached: bool,
    pub must_revalidate: bool,
    pub must_understand: bool,
    pub is_public: bool,
    pub is_private: bool,
    pub immutable: bool,
    pub proxy_revalidate: bool,
    pub stale_while_revalidate: Option<u64>,
    pub stale_if_error: Option<u64>,
    /// The field names of `no-cache="..."`, by which `no_cache` isn't set (RFC 9111, section 5.2.2.4).
    pub no_cache_fields: Vec<String>,
    /// The field names of `private="..."`, by which `is_private` isn't set (RFC 9111, section 5.2.2.7).
    pub private_fields: Vec<String>,
}

// The directives in the order in which the library writes them.
macro_rules! directives {
    ($($flag:ident, $with_flag:ident, $flag_name:literal;)* / $($seconds:ident, $with:ident, $name:literal;)*) => {
        impl CacheControl {
            /// No directive.
            pub fn new() -> CacheControl {
                CacheControl::default()
            }

            $(
                #[doc = concat!("Sets `", $flag_name, "`.")]
                pub const fn $with_flag(mut self) -> CacheControl {
                    self.$flag = true;
                    self
                }
            )*

            $(
                #[doc = concat!("Sets the seconds of `", $name, "`.")]
                pub const fn $with(mut self, seconds: u64) -> CacheControl {
                    self.$seconds = Some(seconds);
                    self
                }
            )*
        }

        /// Writes the field value.
        impl fmt::Display for CacheControl {
            fn fmt(&self, formatter: &mut fmt::Formatter<'_>) -> fmt::Result {
                let mut between = "";
                $(if self.$flag {
                    write!(formatter, "{between}{}", $flag_name)?;
                    between = ", ";
                })*
                $(if let Some(seconds) = self.$seconds {
                    write!(formatter, "{between}{}={seconds}", $name)?;
                    between = ", ";
                })*
                for (name, fields) in [("no-cache", &self.no_cache_fields), ("private", &self.private_fields)] {
                    if !fields.is_empty() {
                        write!(formatter, "{between}{name}=\"{}\"", fields.join(", "))?;
                        between = ", ";
                    }
                }
                Ok(())
            }
        }
    };
}

directives! {
    no_cache, with_no_cache, "no-cache";
    no_store, with_no_store, "no-store";
    no_transform, with_no_transform, "no-transform";
    only_if_cached, with_only_if_cached, "only-if-cached";
    must_revalidate, with_must_revalidate, "must-revalidate";
    is_public, with_public, "public";
    is_private, with_private, "private";
    immutable, with_immutable, "immutable";
    must_understand, with_must_understand, "must-understand";
    proxy_revalidate, with_proxy_revalidate, "proxy-revalidate";
    /
    max_age, with_max_age, "max-age";
    max_stale, with_max_stale, "max-stale";
    min_fresh, with_min_fresh, "min-fresh";
    s_maxage, with_s_maxage, "s-maxage";
    stale_while_revalidate, with_stale_while_revalidate, "stale-while-revalidate";
    stale_if_error, with_stale_if_error, "stale-if-error";
}

/// The directives of `Cache-Control` (RFC 9111, section 5.2).
///
/// ```
/// let found = typed_headers::cache_control(["no-cache", "max-age=60"])?.unwrap();
/// assert_eq!((found.no_cache, found.max_age), (true, Some(60)));
/// # Ok::<(), typed_headers::Error>(())
/// ```
pub fn cache_control<I>(lines: I) -> Result<Option<CacheControl>, Error>
where
    I: IntoIterator,
    I::Item: AsRef<[u8]>,
{
    read_directives(lines).map_err(|error| error.of("cache-control"))
}

fn read_directives<I>(lines: I) -> Result<Option<CacheControl>, Error>
where
    I: IntoIterator,
    I::Item: AsRef<[u8]>,
{
    let text = joined(lines)?;
    let (mut given, mut stale) = (sys::CacheDirectives::default(), sys::StaleDirectives::default());
    // SAFETY: as above.
    if !check(unsafe { sys::typed_headers_cache_control(text.as_ptr(), text.len(), &mut given) })? {
        return Ok(None);
    }
    // SAFETY: as above.
    check(unsafe { sys::typed_headers_stale_directives(text.as_ptr(), text.len(), &mut stale) })?;
    let seconds = |directive: sys::DirectiveSeconds| (directive.is_set == 1).then_some(directive.seconds);
    Ok(Some(CacheControl {
        max_age: seconds(given.max_age),
        max_stale: seconds(given.max_stale),
        min_fresh: seconds(given.min_fresh),
        s_maxage: seconds(given.s_maxage),
        no_cache: given.no_cache == 1,
        no_store: given.no_store == 1,
        no_transform: given.no_transform == 1,
        only_if_cached: given.only_if_cached == 1,
        must_revalidate: given.must_revalidate == 1,
        must_understand: given.must_understand == 1,
        is_public: given.is_public == 1,
        is_private: given.is_private == 1,
        immutable: given.immutable == 1,
        proxy_revalidate: given.proxy_revalidate == 1,
        stale_while_revalidate: (stale.has_while_revalidate == 1).then_some(stale.while_revalidate),
        stale_if_error: (stale.has_if_error == 1).then_some(stale.if_error),
        no_cache_fields: named_fields(&text, b"no-cache")?,
        private_fields: named_fields(&text, b"private")?,
    }))
}

// The members of the arguments of a directive.
fn named_fields(text: &[u8], name: &[u8]) -> Result<Vec<String>, Error> {
    let (lines, size) = (text.as_ptr(), text.len());
    // SAFETY: as above.
    let found = written(size, |room, length, count| unsafe {
        sys::typed_headers_directive_arguments(lines, size, name.as_ptr(), name.len(), room, length, count)
    })?;
    let lists = found.map(|(lists, _)| lists).unwrap_or_default();
    match lists.strip_suffix(b"\n") {
        Some(lists) => Ok(crate::members(lists.split(|byte| *byte == b'\n'))?.unwrap_or_default()),
        None => Ok(Vec::new()),
    }
}

/// The ranges of `Range` that a representation of so many bytes can satisfy, in order (RFC 9110, section 14.1.2).
///
/// ```
/// use typed_headers::{ByteRange, ranges};
///
/// let found = ranges(["bytes=0-0,5-"], 10)?.unwrap();
/// assert_eq!(found, [ByteRange { first: 0, last: 0 }, ByteRange { first: 5, last: 9 }]);
/// # Ok::<(), typed_headers::Error>(())
/// ```
pub fn ranges<I>(lines: I, length: u64) -> Result<Option<Vec<ByteRange>>, Error>
where
    I: IntoIterator,
    I::Item: AsRef<[u8]>,
{
    let found = joined(lines).and_then(|text| {
        // SAFETY: as above.
        written(8, |room, room_length, count| unsafe {
            sys::typed_headers_ranges(text.as_ptr(), text.len(), length, room, room_length, count)
        })
    });
    Ok(found.map_err(|error| error.of("range"))?.map(|(ranges, _)| ranges))
}

/// The canonical form of a header section.
#[derive(Clone, Debug, PartialEq, Eq, Hash)]
#[non_exhaustive]
pub struct Canonical {
    /// Each name with its field lines together. A name whose field lines are rejected is the line `! NAME`.
    pub text: Vec<u8>,
    /// Whether there is such a name.
    pub is_marked: bool,
}

impl Section {
    /// The canonical form of the section (RFC 9112, section 5). [`Error::Rejected`] if a line is no field.
    pub fn canonical(&self, keys: Keys) -> Result<Canonical, Error> {
        let text = self.as_bytes();
        // SAFETY: as above.
        let found = written(text.len() + 64, |room, length, count| unsafe {
            sys::typed_headers_canonical(text.as_ptr(), text.len(), &keys.0, room, length, count)
        })?;
        let (text, status) = found.unwrap_or_default();
        Ok(Canonical { text, is_marked: status == status::MARKED })
    }
}
