//! What `canon` does, over upstream.

use std::io::{Read, Write};
use std::panic::catch_unwind;

use headers::Header;
use http::{HeaderMap, HeaderName, HeaderValue};

pub const LIMIT: usize = 8_388_608;

#[derive(Debug, Clone, Copy, PartialEq, Eq)]
pub enum Outcome {
    Clean,
    SomeRefused,
    NotAField,
}

#[derive(Debug, Clone, Copy, PartialEq, Eq)]
pub enum RunError {
    Io,
    /// Too long an input, or a full map.
    Room,
}

pub fn exit_status(answer: &Result<Outcome, RunError>) -> u8 {
    match answer {
        Ok(Outcome::Clean) => 0,
        Ok(Outcome::SomeRefused) => 1,
        Ok(Outcome::NotAField) => 2,
        Err(RunError::Io) => 3,
        Err(RunError::Room) => 4,
    }
}

fn trim(mut s: &[u8]) -> &[u8] {
    while let [b' ' | b'\t', rest @ ..] = s {
        s = rest;
    }
    while let [rest @ .., b' ' | b'\t'] = s {
        s = rest;
    }
    s
}

/// The field of a line: a name, a colon, a value.
pub fn field(line: &[u8]) -> Option<(HeaderName, HeaderValue)> {
    let colon = line.iter().position(|&b| b == b':')?;
    let name = HeaderName::from_bytes(&line[..colon]).ok()?;
    let value = HeaderValue::from_bytes(trim(&line[colon + 1..])).ok()?;
    Some((name, value))
}

/// The lines before the first empty one, each without its end.
pub fn lines(input: &[u8]) -> impl Iterator<Item = &[u8]> {
    input
        .split(|&b| b == b'\n')
        .map(|l| l.strip_suffix(b"\r").unwrap_or(l))
        .take_while(|l| !l.is_empty())
}

fn canonical<H: Header>(map: &HeaderMap, out: &mut Vec<HeaderValue>) -> bool {
    match H::decode(&mut map.get_all(H::name()).iter()) {
        Ok(h) => {
            h.encode(out);
            true
        }
        Err(_) => false,
    }
}

/// The canonical field lines of a name: true if they decode, false if not, None for a name of no type.
fn known(name: &HeaderName, map: &HeaderMap, out: &mut Vec<HeaderValue>) -> Option<bool> {
    macro_rules! by_name {
        ($($text:literal => $type:ident,)+) => {
            match name.as_str() {
                $($text => Some(canonical::<headers::$type>(map, out)),)+
                _ => None,
            }
        };
    }
    by_name! {
        "age" => Age,
        "access-control-max-age" => AccessControlMaxAge,
        "content-length" => ContentLength,
        "retry-after" => RetryAfter,
        "date" => Date,
        "expires" => Expires,
        "last-modified" => LastModified,
        "if-modified-since" => IfModifiedSince,
        "if-unmodified-since" => IfUnmodifiedSince,
        "etag" => ETag,
        "if-range" => IfRange,
        "location" => Location,
        "content-location" => ContentLocation,
        "pragma" => Pragma,
        "upgrade" => Upgrade,
        "content-disposition" => ContentDisposition,
        "sec-websocket-key" => SecWebsocketKey,
        "sec-websocket-accept" => SecWebsocketAccept,
        "set-cookie" => SetCookie,
        "referer" => Referer,
        "server" => Server,
        "user-agent" => UserAgent,
        "expect" => Expect,
        "access-control-allow-credentials" => AccessControlAllowCredentials,
        "sec-websocket-version" => SecWebsocketVersion,
        "range" => Range,
        "content-range" => ContentRange,
        "accept-ranges" => AcceptRanges,
        "connection" => Connection,
        "content-encoding" => ContentEncoding,
        "te" => Te,
        "transfer-encoding" => TransferEncoding,
        "vary" => Vary,
        "cookie" => Cookie,
        "access-control-allow-headers" => AccessControlAllowHeaders,
        "access-control-expose-headers" => AccessControlExposeHeaders,
        "access-control-request-headers" => AccessControlRequestHeaders,
        "access-control-allow-methods" => AccessControlAllowMethods,
        "allow" => Allow,
        "if-match" => IfMatch,
        "if-none-match" => IfNoneMatch,
        "cache-control" => CacheControl,
        "strict-transport-security" => StrictTransportSecurity,
        "referrer-policy" => ReferrerPolicy,
        "origin" => Origin,
        "access-control-allow-origin" => AccessControlAllowOrigin,
        "host" => Host,
        "access-control-request-method" => AccessControlRequestMethod,
        "content-type" => ContentType,
    }
}

fn put_line(text: &mut Vec<u8>, name: &str, value: &[u8]) {
    text.extend_from_slice(name.as_bytes());
    text.extend_from_slice(b": ");
    text.extend_from_slice(value);
    text.push(b'\n');
}

/// The map of the fields, and its names in their order. `http` 0.2 has no `try_append`: it panics at a
/// full map, which is Room.
fn filled(fields: Vec<(HeaderName, HeaderValue)>) -> Result<(HeaderMap, Vec<HeaderName>), RunError> {
    catch_unwind(move || {
        let mut map = HeaderMap::new();
        let mut order = Vec::new();
        for (name, value) in fields {
            let again = map.append(&name, value);
            if !again {
                order.push(name);
            }
        }
        (map, order)
    })
    .map_err(|_| RunError::Room)
}

/// The whole text of an input of at most `LIMIT` bytes.
pub fn canon(input: &[u8]) -> Result<(Outcome, Vec<u8>), RunError> {
    // All lines are judged before the map is filled.
    let mut fields = Vec::new();
    for line in lines(input) {
        match field(line) {
            Some(f) => fields.push(f),
            None => return Ok((Outcome::NotAField, Vec::new())),
        }
    }
    let (map, order) = filled(fields)?;
    let mut text = Vec::with_capacity(input.len());
    let mut outcome = Outcome::Clean;
    let mut values = Vec::new();
    for name in &order {
        match known(name, &map, &mut values) {
            Some(true) => {
                for v in values.drain(..) {
                    put_line(&mut text, name.as_str(), v.as_bytes());
                }
            }
            Some(false) => {
                values.clear();
                outcome = Outcome::SomeRefused;
                text.extend_from_slice(b"! ");
                text.extend_from_slice(name.as_str().as_bytes());
                text.push(b'\n');
            }
            None => {
                for v in map.get_all(name).iter() {
                    put_line(&mut text, name.as_str(), v.as_bytes());
                }
            }
        }
    }
    Ok((outcome, text))
}

/// Reads all, makes the whole text, writes it. Nothing is tried twice.
pub fn run<R: Read, W: Write>(reader: &mut R, writer: &mut W) -> Result<Outcome, RunError> {
    let mut input = Vec::new();
    let mut chunk = vec![0; 1 << 16];
    loop {
        let n = reader.read(&mut chunk).map_err(|_| RunError::Io)?;
        if n == 0 {
            break;
        }
        input.extend_from_slice(&chunk[..n]);
        if input.len() > LIMIT {
            return Err(RunError::Room);
        }
    }
    let (outcome, text) = canon(&input)?;
    if outcome == Outcome::NotAField {
        return Ok(outcome);
    }
    let mut rest = &text[..];
    while !rest.is_empty() {
        let n = writer.write(rest).map_err(|_| RunError::Io)?;
        if n == 0 {
            return Err(RunError::Io);
        }
        rest = &rest[n..];
    }
    writer.flush().map_err(|_| RunError::Io)?;
    Ok(outcome)
}
