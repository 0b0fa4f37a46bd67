//! A stand-in for the crate `headers-core`, after its documents: Debian has no package of it.

use std::fmt;

use http::{HeaderName, HeaderValue};

/// A typed header.
pub trait Header {
    /// The name of this header.
    fn name() -> &'static HeaderName;

    /// Decodes this type from the values of one name.
    fn decode<'i, I>(values: &mut I) -> Result<Self, Error>
    where
        Self: Sized,
        I: Iterator<Item = &'i HeaderValue>;

    /// Encodes this type, one value for each line.
    fn encode<E: Extend<HeaderValue>>(&self, values: &mut E);
}

/// The refusal of `decode`.
#[derive(Debug)]
pub struct Error {
    kind: Kind,
}

#[derive(Debug)]
enum Kind {
    Invalid,
}

impl Error {
    /// An error for an invalid header.
    pub fn invalid() -> Error {
        Error { kind: Kind::Invalid }
    }
}

impl fmt::Display for Error {
    fn fmt(&self, f: &mut fmt::Formatter<'_>) -> fmt::Result {
        match self.kind {
            Kind::Invalid => f.write_str("invalid HTTP header"),
        }
    }
}

impl std::error::Error for Error {}
