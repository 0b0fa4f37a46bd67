use alloc::borrow::Cow;
use core::ffi::CStr;
use core::fmt;

use typed_headers_sys as sys;

/// Why a call gives nothing.
///
/// ```
/// use typed_headers::{Error, age};
///
/// let error = age(["7 days"]).unwrap_err();
/// assert_eq!(error, Error::InvalidField { name: "age".into() });
/// assert_eq!((error.field(), error.to_string()), (Some("age"), "age: the field lines encode no value".to_string()));
/// ```
#[derive(Clone, Debug, PartialEq, Eq, Hash)]
#[non_exhaustive]
pub enum Error {
    /// The field lines of this field encode no value.
    InvalidField {
        /// Its name, in lower case.
        name: Cow<'static, str>,
    },
    /// Another argument isn't what the call reads.
    Rejected,
    /// No browser sends this one of the listed origins, the first such one.
    UnsentOrigin {
        /// Its place, from 0.
        place: usize,
    },
    /// This line of a header section is no field. The first line is 1.
    InvalidLine {
        /// Its number.
        number: usize,
    },
    /// The library is out of memory. The same call may succeed later.
    OutOfMemory,
    /// An argument is longer, or has more names, than the call takes.
    TooLarge,
    /// The library's status is none that this crate knows.
    Unknown(u8),
}

impl Error {
    /// The name of the field whose lines encode no value, in lower case.
    pub fn field(&self) -> Option<&str> {
        match self {
            Error::InvalidField { name } => Some(name),
            _ => None,
        }
    }

    /// The same error, of a call that reads the lines of this field.
    pub(crate) fn of(self, name: impl Into<Cow<'static, str>>) -> Error {
        match self {
            Error::Rejected => Error::InvalidField { name: name.into() },
            other => other,
        }
    }

    /// The same error, of a call with these origins, one a line.
    pub(crate) fn of_origins(self, origins: &[u8]) -> Error {
        let mut place = 0;
        if self != Error::Rejected {
            return self;
        }
        // SAFETY: these are the pointer and the count of a slice, and the place of a number.
        match unsafe { sys::typed_headers_unsent_origin(origins.as_ptr(), origins.len(), &mut place) } {
            status::DONE => Error::UnsentOrigin { place },
            _ => self,
        }
    }
}

impl fmt::Display for Error {
    fn fmt(&self, formatter: &mut fmt::Formatter<'_>) -> fmt::Result {
        let status = match self {
            Error::InvalidField { name } => return write!(formatter, "{name}: the field lines encode no value"),
            Error::Rejected => status::REFUSED,
            Error::UnsentOrigin { place } => return write!(formatter, "no browser sends the origin at place {place}"),
            Error::OutOfMemory => status::NO_MEMORY,
            Error::TooLarge => status::TOO_LARGE,
            Error::InvalidLine { number } => return write!(formatter, "line {number} of the section is no field"),
            Error::Unknown(status) => return write!(formatter, "unknown status {status}"),
        };
        // SAFETY: each status has a text, which is never freed.
        let text = unsafe { CStr::from_ptr(sys::typed_headers_status_text(status)) };
        formatter.write_str(text.to_str().unwrap_or("unknown"))
    }
}

impl core::error::Error for Error {}

pub(crate) mod status {
    pub const DONE: u8 = 0;
    pub const REFUSED: u8 = 1;
    pub const NO_MEMORY: u8 = 2;
    pub const NO_ROOM: u8 = 3;
    pub const ABSENT: u8 = 4;
    pub const TOO_LARGE: u8 = 5;
    pub const MARKED: u8 = 6;
}

/// Whether a call gave what it was asked for: `false` if that is absent.
pub(crate) fn check(status: u8) -> Result<bool, Error> {
    match status {
        status::DONE | status::MARKED => Ok(true),
        status::ABSENT => Ok(false),
        status::REFUSED => Err(Error::Rejected),
        status::NO_MEMORY => Err(Error::OutOfMemory),
        status::TOO_LARGE => Err(Error::TooLarge),
        other => Err(Error::Unknown(other)),
    }
}
