//! Loops over what calls of the port leave to the toolchain, for its part of their time.

use crate::kinds::weigh_lines;
use base64::engine::general_purpose::STANDARD;
use bytes::Bytes;
use headers::{HeaderMap, HeaderName, HeaderValue};
use http::Method;
use sha1::Sha1;
use std::alloc::{AllocError, Global};
use std::str;

// The texts of the field lines.
fn texts_of(groups: &[Vec<HeaderValue>], alloc: Global) -> Result<Vec<&str>, AllocError> {
    let mut texts = Vec::new(alloc);
    for group in groups {
        for line in group {
            if let Ok(text) = line.to_str() {
                texts.push(text)?;
            }
        }
    }
    Ok(texts)
}

/// Parses each item as a method.
#[inline(never)]
pub fn methods(alloc: Global, groups: &[Vec<HeaderValue>], n: usize) -> Result<u64, AllocError> {
    let mut items = Vec::new(alloc);
    for text in &texts_of(groups, alloc)? {
        for item in text.split(',') {
            items.push(item.trim())?;
        }
    }
    let mut sum: u64 = 0;
    for _ in 0..n {
        for item in &items {
            if let Ok(method) = Method::from_bytes(alloc, item.as_bytes()) {
                sum = sum.wrapping_add(method.as_str().len() as u64);
            }
        }
    }
    Ok(sum)
}

/// Makes a value of each number, in a list that is emptied each time.
#[inline(never)]
pub fn numbers(alloc: Global, groups: &[Vec<HeaderValue>], n: usize) -> Result<u64, AllocError> {
    let mut numbers = Vec::new(alloc);
    for text in &texts_of(groups, alloc)? {
        if let Ok(number) = text.parse::<u64>() {
            numbers.push(number)?;
        }
    }
    let mut out = Vec::with_capacity(alloc, 32)?;
    let mut sum: u64 = 0;
    for _ in 0..n {
        for number in &numbers {
            out.push(HeaderValue::from_u64(alloc, *number)?)?;
            sum = sum.wrapping_add(weigh_lines(out.as_slice()));
            out.clear();
        }
    }
    Ok(sum)
}

/// Makes a value of each text, in a list that is emptied each time.
#[inline(never)]
pub fn values(alloc: Global, groups: &[Vec<HeaderValue>], n: usize) -> Result<u64, AllocError> {
    let texts = texts_of(groups, alloc)?;
    let mut out = Vec::with_capacity(alloc, 32)?;
    let mut sum: u64 = 0;
    for _ in 0..n {
        for text in &texts {
            if let Ok(value) = HeaderValue::from_str(alloc, text) {
                out.push(value)?;
            }
            sum = sum.wrapping_add(weigh_lines(out.as_slice()));
            out.clear();
        }
    }
    Ok(sum)
}

/// Clones each value, into a list that is emptied each time.
#[inline(never)]
pub fn clones(alloc: Global, groups: &[Vec<HeaderValue>], n: usize) -> Result<u64, AllocError> {
    let mut out = Vec::with_capacity(alloc, 32)?;
    let mut sum: u64 = 0;
    for _ in 0..n {
        for group in groups {
            for value in group {
                out.push(value.clone()?)?;
            }
            sum = sum.wrapping_add(weigh_lines(out.as_slice()));
            out.clear();
        }
    }
    Ok(sum)
}

/// Puts the value of a number into a map in the place of the one before.
#[inline(never)]
pub fn insert(alloc: Global, mut map: HeaderMap, n: usize) -> Result<u64, AllocError> {
    let name = HeaderName::from_static("content-length");
    let mut sum: u64 = 0;
    for pass in 0..n {
        let _put = map.insert(&name, HeaderValue::from_u64(alloc, pass as u64)?);
        sum = sum.wrapping_add(map.keys_len() as u64);
    }
    Ok(sum)
}

// What the texts have after their scheme, decoded.
fn decoded(alloc: Global, groups: &[Vec<HeaderValue>]) -> Result<Vec<Vec<u8>>, AllocError> {
    let mut all = Vec::new(alloc);
    for text in &texts_of(groups, alloc)? {
        if let Some((_, code)) = text.split_once(' ')
            && let Ok(bytes) = STANDARD.decode(alloc, code.as_bytes())
        {
            all.push(bytes)?;
        }
    }
    Ok(all)
}

// The same number as `weigh_lines` of one line.
fn weigh_bytes(bytes: &[u8]) -> u64 {
    let last = match bytes.last() {
        Some(last) => *last,
        None => 0,
    };
    (bytes.len() as u64).wrapping_add(u64::from(last))
}

/// Decodes the base64 after each scheme, as text.
#[inline(never)]
pub fn decode_base64(
    alloc: Global,
    groups: &[Vec<HeaderValue>],
    n: usize,
) -> Result<u64, AllocError> {
    let mut codes = Vec::new(alloc);
    for text in &texts_of(groups, alloc)? {
        if let Some((_, code)) = text.split_once(' ') {
            codes.push(code)?;
        }
    }
    let mut sum: u64 = 0;
    for _ in 0..n {
        for code in &codes {
            if let Ok(bytes) = STANDARD.decode(alloc, code.as_bytes())
                && let Ok(text) = String::from_utf8(bytes)
            {
                // The colon is no part of the name or the password.
                sum = sum.wrapping_add(text.len() as u64).wrapping_sub(1);
            }
        }
    }
    Ok(sum)
}

/// Encodes bytes in base64 after a scheme, in a buffer that can be shared.
#[inline(never)]
pub fn encode_base64(
    alloc: Global,
    groups: &[Vec<HeaderValue>],
    n: usize,
) -> Result<u64, AllocError> {
    let all = decoded(alloc, groups)?;
    let mut sum: u64 = 0;
    for _ in 0..n {
        for bytes in &all {
            let mut text = String::with_capacity(alloc, 64)?;
            text.push_str("Basic ")?;
            STANDARD.encode_string(bytes.as_slice(), &mut text)?;
            sum = sum.wrapping_add(weigh_bytes(Bytes::from_string(text)?.as_slice()));
        }
    }
    Ok(sum)
}

/// Encodes the digest of each text and of the protocol's GUID in base64.
#[inline(never)]
pub fn digest(alloc: Global, groups: &[Vec<HeaderValue>], n: usize) -> Result<u64, AllocError> {
    let texts = texts_of(groups, alloc)?;
    let mut sum: u64 = 0;
    for _ in 0..n {
        for text in &texts {
            let mut hasher = Sha1::new();
            hasher.update(text.as_bytes());
            hasher.update(b"258EAFA5-E914-47DA-95CA-C5AB0DC85B11");
            let mut text = String::with_capacity(alloc, 64)?;
            STANDARD.encode_string(&hasher.finalize(), &mut text)?;
            sum = sum.wrapping_add(weigh_bytes(Bytes::from_string(text)?.as_slice()));
        }
    }
    Ok(sum)
}

// The names and the values of the lines `name: value` of a text, which share its bytes.
fn parts_of(alloc: Global, text: &[u8]) -> Result<Vec<(Bytes, Bytes)>, AllocError> {
    let input = Bytes::copy_from_slice(alloc, text)?;
    let mut parts = Vec::new(alloc);
    let mut end: usize = 0;
    for line in str::from_utf8(text).unwrap_or("").split('\n') {
        let start = end;
        end = start.saturating_add(line.len()).saturating_add(1);
        let line = line.trim_end();
        if let Some((name, value)) = line.split_once(": ") {
            let colon = start.saturating_add(name.len());
            let begin = colon.saturating_add(2);
            let stop = begin.saturating_add(value.len());
            if start <= colon && begin <= stop && colon <= input.len() && stop <= input.len() {
                parts.push((input.slice(start..colon)?, input.slice(begin..stop)?))?;
            }
        }
    }
    Ok(parts)
}

/// Makes the map of the fields of a text, whose bytes it shares, and looks for the values of each name.
#[inline(never)]
pub fn fields(alloc: Global, text: &[u8], n: usize) -> Result<u64, AllocError> {
    let parts = parts_of(alloc, text)?;
    let mut sum: u64 = 0;
    for _ in 0..n {
        let mut map = HeaderMap::new(alloc);
        for (name, value) in &parts {
            let found = match HeaderName::standard(name.as_slice()) {
                Some(name) => Ok(name),
                None => HeaderName::from_shared(alloc, name.clone()?),
            };
            if let Ok(name) = found
                && let Ok(value) = HeaderValue::from_shared(value.clone()?)
            {
                let _found = map.append(name, value);
            }
        }
        for name in map.keys() {
            sum = sum.wrapping_add(map.get_all(name).iter().count() as u64);
        }
    }
    Ok(sum)
}
