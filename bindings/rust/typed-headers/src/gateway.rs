use alloc::vec::Vec;
use core::cell::Cell;

use typed_headers_sys as sys;

use crate::error::{check, Error};
use crate::text::{joined, text, written, Section};
use crate::{Keys, Timestamp, Version};

/// What a gateway is to the messages that pass it.
#[derive(Clone, Copy, Debug, Default, PartialEq, Eq, Hash)]
pub struct Gateway<'a> {
    /// Its name in Via: a token.
    pub name: &'a str,
    /// The names of further fields that no connection option may name: those that the servers behind it rely on.
    pub protected_fields: &'a [&'a str],
    /// Whether clients authenticate to it as their proxy.
    pub consumes_credentials: bool,
    /// Whether it forwards fields whose name has an underscore, which servers that pass fields on as variables take for
    /// a dash. Those that have a protected name but for such marks never are.
    pub passes_underscores: bool,
}

/// How a request arrived, and what is known of the next connection. The default tells nothing of the client, and the
/// next server speaks HTTP/1.1.
#[derive(Clone, Copy, Debug, PartialEq, Eq, Hash)]
pub struct Hop<'a> {
    /// The node that sent the request: an IP address without brackets, or a name that hides it and begins with an
    /// underscore (RFC 7239, section 6.3). Empty if it isn't known.
    pub client: &'a str,
    /// The node at which the gateway received it, or empty if that isn't told.
    pub interface: &'a str,
    /// The port of the client, or 0 if it isn't told.
    pub client_port: u16,
    /// The port at which it was received, or 0 if it isn't told.
    pub interface_port: u16,
    /// The version that the next server is known to speak: HTTP/1.0 or HTTP/1.1.
    pub server_version: Version,
    /// Whether the request came over TLS.
    pub is_secure: bool,
    /// Whether the client is trusted to tell who sent it the request.
    pub is_trusted: bool,
    /// Whether the gateway writes Forwarded (RFC 7239).
    pub writes_forwarded: bool,
    /// Whether it writes X-Forwarded-For, X-Forwarded-Host and X-Forwarded-Proto.
    pub writes_x_forwarded: bool,
    /// Whether these tell the host to which the request came.
    pub tells_host: bool,
    /// Whether the next connection is closed after the request.
    pub closes: bool,
    /// Whether the gateway, and all clients behind it, accept trailer fields.
    pub accepts_trailers: bool,
}

impl Default for Hop<'_> {
    fn default() -> Self {
        Hop {
            client: "",
            interface: "",
            client_port: 0,
            interface_port: 0,
            server_version: Version::Http11,
            is_secure: false,
            is_trusted: false,
            writes_forwarded: false,
            writes_x_forwarded: false,
            tells_host: false,
            closes: false,
            accepts_trailers: false,
        }
    }
}

/// How the content of a message is delimited (RFC 9112, section 6.3).
#[derive(Clone, Copy, Debug, PartialEq, Eq, Hash)]
#[non_exhaustive]
pub enum Framing {
    /// There is none.
    Absent,
    /// By its length in bytes.
    Length(u64),
    /// It is sent in chunks.
    Chunked,
    /// It ends when the connection is closed.
    UntilClose,
    /// The connection is a tunnel from here on.
    Tunnel,
}

impl Framing {
    fn of(found: sys::Framing) -> Framing {
        match found.kind {
            0 => Framing::Absent,
            1 => Framing::Length(found.length),
            2 => Framing::Chunked,
            3 => Framing::UntilClose,
            _ => Framing::Tunnel,
        }
    }
}

/// Why a gateway rejects a message.
#[derive(Clone, Copy, Debug, PartialEq, Eq, Hash)]
#[non_exhaustive]
pub enum Rejection {
    /// It has both Content-Length and Transfer-Encoding.
    LengthAndCoding,
    /// Content-Length isn't one number in digits below 2^64 - 1.
    InvalidLength,
    /// It has transfer codings before `chunked`, or several lines of them.
    UnknownCoding,
    /// Its last transfer coding isn't `chunked`.
    LastCodingNotChunked,
    /// It is of HTTP/1.0 and has Transfer-Encoding.
    CodingInHttp10,
    /// Connection isn't a list of tokens.
    InvalidOption,
    /// Connection names a field that is meant for all recipients.
    ProtectedOption,
    /// It has no Host, several, or an invalid one.
    InvalidHost,
    /// Max-Forwards isn't one number.
    InvalidHops,
    /// It passed this gateway before.
    Loop,
    /// Expect has another expectation than `100-continue`.
    UnknownExpectation,
    /// It is a 101, which this gateway never asks for.
    SwitchedProtocols,
    /// Its content comes in chunks, which the next server doesn't know.
    LengthRequired,
    /// A reason that this crate doesn't know.
    Unknown,
}

const REJECTIONS: [Rejection; 13] = [
    Rejection::LengthAndCoding,
    Rejection::InvalidLength,
    Rejection::UnknownCoding,
    Rejection::LastCodingNotChunked,
    Rejection::CodingInHttp10,
    Rejection::InvalidOption,
    Rejection::ProtectedOption,
    Rejection::InvalidHost,
    Rejection::InvalidHops,
    Rejection::Loop,
    Rejection::UnknownExpectation,
    Rejection::SwitchedProtocols,
    Rejection::LengthRequired,
];

impl Rejection {
    fn of(number: u8) -> Rejection {
        REJECTIONS.get(usize::from(number).wrapping_sub(1)).copied().unwrap_or(Rejection::Unknown)
    }
}

/// What a gateway does with a request.
#[derive(Clone, Debug, PartialEq, Eq, Hash)]
#[non_exhaustive]
pub enum RequestOutcome {
    /// It sends these fields, and no others, with the content that is delimited so.
    Forward {
        /// All fields that are sent.
        fields: Section,
        /// How the content is delimited, as received and as sent.
        framing: Framing,
        /// Whether the client waits for a 100 (Continue) that the next server doesn't send, so that the gateway does.
        sends_continue: bool,
    },
    /// It answers the request itself, which may be forwarded no more.
    Answer(Framing),
    /// It answers the request with this status.
    Reject(u16, Rejection),
}

/// What a gateway does with a response.
#[derive(Clone, Debug, PartialEq, Eq, Hash)]
#[non_exhaustive]
pub enum ResponseOutcome {
    /// It sends these fields, and no others.
    Forward {
        /// All fields that are sent.
        fields: Section,
        /// How the content is delimited as received.
        received: Framing,
        /// How it is delimited as sent. The client's connection is closed after [`Framing::UntilClose`].
        sent: Framing,
    },
    /// It drops an interim response, which a client of HTTP/1.0 doesn't know.
    Discard,
    /// It sends a response with this status in its place.
    Reject(u16, Rejection),
}

impl Gateway<'_> {
    fn given<T>(&self, call: impl FnOnce(&sys::Gateway) -> Result<T, Error>) -> Result<T, Error> {
        let protected = joined(self.protected_fields)?;
        call(&sys::Gateway {
            name: text(self.name.as_bytes()),
            protected_fields: text(&protected),
            consumes_credentials: self.consumes_credentials,
            passes_underscores: self.passes_underscores,
        })
    }

    /// What the gateway does with a request that it received in a version, and the fields that it sends (RFC 9110,
    /// section 7.6). `authority` is that of a target in absolute-form, or empty (RFC 9112, section 3.2.2).
    ///
    /// ```
    /// use typed_headers::{Framing, Gateway, Hop, Keys, RequestOutcome, Section, Version};
    ///
    /// let gateway = Gateway { name: "edge", ..Gateway::default() };
    /// let request = Section::parse("Host: a.example\nConnection: X-Own\nX-Own: 1\n")?;
    /// let outcome = gateway.forward_request(&Hop::default(), "GET", Version::Http11, "", &request, Keys::random())?;
    /// let RequestOutcome::Forward { fields, framing, .. } = outcome else { panic!() };
    /// assert_eq!(fields.as_bytes(), b"host: a.example\nvia: 1.1 edge\n");
    /// assert_eq!(framing, Framing::Absent);
    /// # Ok::<(), typed_headers::Error>(())
    /// ```
    pub fn forward_request(
        &self,
        hop: &Hop<'_>,
        method: impl AsRef<[u8]>,
        version: Version,
        authority: &str,
        request: &Section,
        keys: Keys,
    ) -> Result<RequestOutcome, Error> {
        let request = request.with_method(method.as_ref());
        let given = sys::Hop {
            client: text(hop.client.as_bytes()),
            interface_node: text(hop.interface.as_bytes()),
            client_port: hop.client_port,
            interface_port: hop.interface_port,
            server_version: hop.server_version as u8,
            is_secure: hop.is_secure,
            is_trusted: hop.is_trusted,
            writes_forwarded: hop.writes_forwarded,
            writes_x_forwarded: hop.writes_x_forwarded,
            tells_host: hop.tells_host,
            closes: hop.closes,
            accepts_trailers: hop.accepts_trailers,
        };
        let outcome = Cell::new(sys::RequestOutcome::default());
        let lines = self.given(|gateway| {
            // SAFETY: here and below these are pointers and counts of slices and of values, which don't overlap.
            written(1024, |room: *mut u8, length, count| unsafe {
                sys::typed_headers_forward_request(
                    gateway,
                    &given,
                    &request,
                    version as u8,
                    authority.as_ptr(),
                    authority.len(),
                    &keys.0,
                    outcome.as_ptr(),
                    room,
                    length,
                    count,
                )
            })
        })?;
        let found = outcome.get();
        Ok(match found.action {
            0 => RequestOutcome::Forward {
                fields: Section::from_bytes(lines.map_or(Vec::new(), |(lines, _)| lines)),
                framing: Framing::of(found.framing),
                sends_continue: found.sends_continue == 1,
            },
            1 => RequestOutcome::Answer(Framing::of(found.framing)),
            _ => RequestOutcome::Reject(found.status, Rejection::of(found.reason)),
        })
    }

    /// What the gateway does with a response that it received in a version at the second `received`, and the fields that
    /// it sends (RFC 9110, section 7.6). `request` is the method and the version of the request that it answers.
    ///
    /// ```
    /// use typed_headers::{Framing, Gateway, Keys, ResponseOutcome, Section, Version};
    ///
    /// let gateway = Gateway { name: "edge", ..Gateway::default() };
    /// let response = Section::parse("Content-Length: 5\nDate: Thu, 01 Jan 1970 00:16:40 GMT\n")?;
    /// let request = ("GET", Version::Http11);
    /// let outcome = gateway.forward_response(200, Version::Http11, &response, request, 1000, Keys::random())?;
    /// let ResponseOutcome::Forward { sent, .. } = outcome else { panic!() };
    /// assert_eq!(sent, Framing::Length(5));
    /// # Ok::<(), typed_headers::Error>(())
    /// ```
    pub fn forward_response(
        &self,
        status: u16,
        version: Version,
        response: &Section,
        request: (&str, Version),
        received: impl Into<Timestamp>,
        keys: Keys,
    ) -> Result<ResponseOutcome, Error> {
        let response = message_of(request.0.as_bytes(), response, status, version);
        let received = received.into().seconds();
        let outcome = Cell::new(sys::ResponseOutcome::default());
        let lines = self.given(|gateway| {
            // SAFETY: as above.
            written(1024, |room: *mut u8, length, count| unsafe {
                sys::typed_headers_forward_response(
                    gateway,
                    &response,
                    &keys.0,
                    request.1 as u8,
                    received,
                    outcome.as_ptr(),
                    room,
                    length,
                    count,
                )
            })
        })?;
        let found = outcome.get();
        Ok(match found.action {
            0 => ResponseOutcome::Forward {
                fields: Section::from_bytes(lines.map_or(Vec::new(), |(lines, _)| lines)),
                received: Framing::of(found.received),
                sent: Framing::of(found.sent),
            },
            3 => ResponseOutcome::Discard,
            _ => ResponseOutcome::Reject(found.status, Rejection::of(found.reason)),
        })
    }
}

// A message as the library takes it.
fn message_of(method: &[u8], message: &Section, status: u16, version: Version) -> sys::Message {
    sys::Message { method: text(method), section: text(message.as_bytes()), status, version: version as u8 }
}

/// How the content of a message is delimited (RFC 9112, section 6.3), or the status that answers a rejected request, or
/// takes the place of a rejected response, and why. `status` is that of a response, or `None` for a request; `method` is
/// that of the request.
///
/// ```
/// use typed_headers::{Framing, Keys, Rejection, Section, Version, framing};
///
/// let both = Section::parse("Content-Length: 5\nTransfer-Encoding: chunked\n")?;
/// let found = framing("POST", None, Version::Http11, &both, Keys::random())?;
/// assert_eq!(found, Err((400, Rejection::LengthAndCoding)));
/// let length = Section::parse("Content-Length: 5\n")?;
/// assert_eq!(framing("HEAD", Some(200), Version::Http11, &length, Keys::random())?, Ok(Framing::Absent));
/// # Ok::<(), typed_headers::Error>(())
/// ```
pub fn framing(
    method: impl AsRef<[u8]>,
    status: Option<u16>,
    version: Version,
    message: &Section,
    keys: Keys,
) -> Result<Result<Framing, (u16, Rejection)>, Error> {
    let message = message_of(method.as_ref(), message, status.unwrap_or(0), version);
    let mut outcome = sys::FramingOutcome::default();
    // SAFETY: as above.
    check(unsafe { sys::typed_headers_framing(&message, &keys.0, &mut outcome) })?;
    Ok(match outcome.reason {
        0 => Ok(Framing::of(outcome.framing)),
        reason => Err((outcome.status, Rejection::of(reason))),
    })
}
