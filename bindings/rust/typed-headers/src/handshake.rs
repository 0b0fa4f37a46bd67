use alloc::vec::Vec;
use core::cell::Cell;

use typed_headers_sys as sys;

use crate::error::{check, Error};
use crate::text::{joined, text, written, Section};
use crate::Keys;

/// The version of HTTP that a message is of.
#[derive(Clone, Copy, Debug, PartialEq, Eq, Hash)]
#[non_exhaustive]
pub enum Version {
    /// HTTP/0.9.
    Http09 = 9,
    /// HTTP/1.0.
    Http10 = 10,
    /// HTTP/1.1.
    Http11 = 11,
    /// HTTP/2.
    Http2 = 20,
    /// HTTP/3.
    Http3 = 30,
}

/// Why a request is no opening handshake: the first rule that it breaks (RFC 6455, section 4.2.1).
#[derive(Clone, Copy, Debug, PartialEq, Eq, Hash)]
#[non_exhaustive]
pub enum Fault {
    /// The method isn't GET.
    NotGet,
    /// The version is older than HTTP/1.1.
    OldHttp,
    /// The version is HTTP/2 or HTTP/3, which have no 101.
    NotHttp11,
    /// There is no Host.
    NoHost,
    /// Upgrade doesn't list `websocket`.
    NoUpgrade,
    /// Connection doesn't list `upgrade`.
    NoConnection,
    /// Sec-WebSocket-Key isn't one line, the base64 of sixteen bytes.
    NoKey,
    /// Sec-WebSocket-Protocol isn't a list of tokens.
    MalformedProtocols,
    /// Sec-WebSocket-Extensions isn't a list of extensions.
    MalformedExtensions,
}

const FAULTS: [Fault; 9] = [
    Fault::NotGet,
    Fault::OldHttp,
    Fault::NotHttp11,
    Fault::NoHost,
    Fault::NoUpgrade,
    Fault::NoConnection,
    Fault::NoKey,
    Fault::MalformedProtocols,
    Fault::MalformedExtensions,
];

/// Why a client must fail the connection: the first rule that a response breaks (RFC 6455, section 4.1).
#[derive(Clone, Copy, Debug, PartialEq, Eq, Hash)]
#[non_exhaustive]
pub enum Flaw {
    /// The status isn't 101.
    NotSwitched,
    /// Upgrade isn't one line, `websocket`.
    NoUpgrade,
    /// Connection doesn't list `upgrade`.
    NoConnection,
    /// Sec-WebSocket-Accept isn't one line, what the key that was sent calls for.
    WrongAccept,
    /// Sec-WebSocket-Extensions breaks its grammar.
    MalformedExtensions,
    /// Sec-WebSocket-Extensions names an extension that wasn't asked for.
    UnaskedExtension,
    /// Sec-WebSocket-Protocol has several lines, or a subprotocol that wasn't asked for.
    UnaskedProtocol,
}

const FLAWS: [Flaw; 7] = [
    Flaw::NotSwitched,
    Flaw::NoUpgrade,
    Flaw::NoConnection,
    Flaw::WrongAccept,
    Flaw::MalformedExtensions,
    Flaw::UnaskedExtension,
    Flaw::UnaskedProtocol,
];

/// What a server answers to an opening handshake.
#[derive(Clone, Debug, PartialEq, Eq, Hash)]
#[non_exhaustive]
pub struct HandshakeAnswer {
    /// 101, 400, 403 or 426.
    pub status: u16,
    /// The rule that the request breaks, if the status is 400.
    pub fault: Option<Fault>,
    /// The fields of the answer. Those of Sec-WebSocket-Protocol and Sec-WebSocket-Extensions replace the server's own.
    pub fields: Section,
}

/// What a server answers to a client's opening handshake (RFC 6455, sections 4.2.1 and 4.2.2). `protocols` are its
/// subprotocols, the most wanted first. `origins` are those that it serves; the one origin `*` is any.
/// [`Error::UnsentOrigin`] if no browser sends one of them.
///
/// ```
/// use typed_headers::{Keys, Section, Version, websocket_respond};
///
/// let request = Section::parse(
///     "Host: a.example\nUpgrade: websocket\nConnection: Upgrade\nSec-WebSocket-Version: 13\n\
///      Sec-WebSocket-Key: dGhlIHNhbXBsZSBub25jZQ==\n",
/// )?;
/// let answer = websocket_respond("GET", Version::Http11, &request, &[], &["*"], Keys::random())?;
/// assert_eq!(answer.status, 101);
/// assert_eq!(answer.fields.get("sec-websocket-accept"), Some(b"s3pPLMBiTxaQ9kYGzzhZRbK+xOo=".as_slice()));
/// # Ok::<(), typed_headers::Error>(())
/// ```
pub fn websocket_respond(
    method: impl AsRef<[u8]>,
    version: Version,
    request: &Section,
    protocols: &[&str],
    origins: &[&str],
    keys: Keys,
) -> Result<HandshakeAnswer, Error> {
    let request = request.with_method(method.as_ref());
    let (protocols, origins) = (joined(protocols)?, joined(origins)?);
    let rules = sys::WebsocketRules { protocols: text(&protocols), origins: text(&origins) };
    let facts = Cell::new(sys::Handshake::default());
    // SAFETY: here and below these are pointers and counts of slices and of values, which don't overlap.
    let found = written(512, |room: *mut u8, length, count| unsafe {
        sys::typed_headers_websocket_respond(
            &request,
            version as u8,
            &keys.0,
            &rules,
            facts.as_ptr(),
            room,
            length,
            count,
        )
    })
    .map_err(|error| error.of_origins(&origins))?;
    Ok(HandshakeAnswer {
        status: facts.get().status,
        fault: FAULTS.get(usize::from(facts.get().fault).wrapping_sub(1)).copied(),
        fields: Section::from_bytes(found.map_or(Vec::new(), |(lines, _)| lines)),
    })
}

/// The fields of a client's opening handshake (RFC 6455, section 4.1), but for Host and what it offers in
/// Sec-WebSocket-Protocol and Sec-WebSocket-Extensions. The nonce is made at random, anew for each handshake.
///
/// ```
/// use typed_headers::websocket_request;
///
/// let fields = websocket_request(b"the sample nonce")?;
/// assert_eq!(fields.get("sec-websocket-key"), Some(b"dGhlIHNhbXBsZSBub25jZQ==".as_slice()));
/// # Ok::<(), typed_headers::Error>(())
/// ```
pub fn websocket_request(nonce: &[u8; 16]) -> Result<Section, Error> {
    // SAFETY: as above.
    let found = written(256, |room: *mut u8, length, count| unsafe {
        sys::typed_headers_websocket_request(nonce.as_ptr(), nonce.len(), room, length, count)
    })?;
    Ok(Section::from_bytes(found.map_or(Vec::new(), |(lines, _)| lines)))
}

/// What a client that sent the fields `sent` finds in a response (RFC 6455, section 4.1): `None` if the connection is
/// open, else the rule that the response breaks.
///
/// ```
/// use typed_headers::{Flaw, Keys, Section, websocket_check, websocket_request};
///
/// let sent = websocket_request(b"the sample nonce")?;
/// let response = "Upgrade: websocket\nConnection: Upgrade\nSec-WebSocket-Accept: s3pPLMBiTxaQ9kYGzzhZRbK+xOo=\n";
/// let response = Section::parse(response)?;
/// assert_eq!(websocket_check(&sent, 101, &response, Keys::random())?, None);
/// assert_eq!(websocket_check(&sent, 200, &response, Keys::random())?, Some(Flaw::NotSwitched));
/// # Ok::<(), typed_headers::Error>(())
/// ```
pub fn websocket_check(sent: &Section, status: u16, response: &Section, keys: Keys) -> Result<Option<Flaw>, Error> {
    let (sent, response, mut flaw) = (text(sent.as_bytes()), text(response.as_bytes()), 0);
    let exchange = sys::WebsocketExchange { sent, response, status };
    // SAFETY: as above.
    check(unsafe { sys::typed_headers_websocket_check(&exchange, &keys.0, &mut flaw) })?;
    Ok(FLAWS.get(usize::from(flaw).wrapping_sub(1)).copied())
}
