//! The words of arguments and answers.

use std::fmt::{self, Display, Formatter};
use std::ops::Bound;
use std::time::{Duration, SystemTime, UNIX_EPOCH};

use headers::{ETag, Header};
use http::{HeaderName, HeaderValue, Method};

/// Why a call has no value.
#[derive(Clone, Copy)]
pub enum Failure {
    /// The crate refuses it.
    Refused,
    /// The row isn't one of the calls, or has other arguments.
    NoCall,
}

/// The bytes as a word.
fn word_of(bytes: &[u8]) -> String {
    if matches!(bytes, b"" | b"=" | b"!") {
        return match bytes {
            b"=" => "%3D".into(),
            b"!" => "%21".into(),
            _ => "()".into(),
        };
    }
    let mut word = String::new();
    for (place, byte) in bytes.iter().enumerate() {
        match byte {
            b'(' if place == 0 => word.push_str("%28"),
            b' ' | b'%' | 0x00..=0x1F | 0x7F..=0xFF => word.push_str(&format!("%{byte:02X}")),
            _ => word.push(char::from(*byte)),
        }
    }
    word
}

/// The bytes of a word.
fn bytes_of(word: &str) -> Result<Vec<u8>, Failure> {
    let mut bytes = Vec::new();
    if word != "()" {
        let mut rest = word;
        while let Some((before, escaped)) = rest.split_once('%') {
            bytes.extend(before.bytes());
            let digits = escaped.get(..2).ok_or(Failure::NoCall)?;
            bytes.push(u8::from_str_radix(digits, 16).map_err(|_| Failure::NoCall)?);
            rest = &escaped[2..];
        }
        bytes.extend(rest.bytes());
    }
    // Bytes have one word.
    if word_of(&bytes) == word {
        Ok(bytes)
    } else {
        Err(Failure::NoCall)
    }
}

/// The words of an answer.
#[derive(Default)]
pub struct Answer(Vec<String>);

impl Display for Answer {
    fn fmt(&self, f: &mut Formatter<'_>) -> fmt::Result {
        f.write_str(&self.0.join(" "))
    }
}

impl Answer {
    pub fn word(&mut self, word: impl Display) {
        self.0.push(word.to_string());
    }

    pub fn bytes(&mut self, bytes: impl AsRef<[u8]>) {
        self.0.push(word_of(bytes.as_ref()));
    }

    pub fn none(&mut self) {
        self.word("(none)");
    }

    pub fn option(&mut self, word: Option<impl Display>) {
        match word {
            Some(word) => self.word(word),
            None => self.none(),
        }
    }

    /// A count, and that many byte strings.
    pub fn list<T: AsRef<[u8]>>(&mut self, items: impl IntoIterator<Item = T>) {
        let items: Vec<T> = items.into_iter().collect();
        self.word(items.len());
        for item in items {
            self.bytes(item);
        }
    }

    pub fn bound(&mut self, bound: Bound<u64>) {
        match bound {
            Bound::Included(position) => self.word(format_args!("i{position}")),
            Bound::Excluded(position) => self.word(format_args!("e{position}")),
            Bound::Unbounded => self.word("u"),
        }
    }
}

/// The words that are left of a call.
pub struct Arguments<'a>(std::vec::IntoIter<&'a str>);

fn number_of(word: &str) -> Result<u64, Failure> {
    word.parse().map_err(|_| Failure::NoCall)
}

fn value_of(word: &str) -> Result<HeaderValue, Failure> {
    HeaderValue::from_bytes(&bytes_of(word)?).map_err(|_| Failure::NoCall)
}

fn header_of<H: Header>(lines: &[HeaderValue]) -> Result<H, Failure> {
    H::decode(&mut lines.iter()).map_err(|_| Failure::Refused)
}

impl<'a> Arguments<'a> {
    pub fn new(rest: &'a str) -> Self {
        let words: Vec<&str> = if rest.is_empty() {
            Vec::new()
        } else {
            rest.split(' ').collect()
        };
        Arguments(words.into_iter())
    }

    pub fn is_empty(&self) -> bool {
        self.0.as_slice().is_empty()
    }

    /// All words that are left.
    pub fn rest(&mut self) -> impl Iterator<Item = &'a str> + '_ {
        self.0.by_ref()
    }

    pub fn word(&mut self) -> Result<&'a str, Failure> {
        self.0.next().ok_or(Failure::NoCall)
    }

    fn option(&mut self) -> Result<Option<&'a str>, Failure> {
        Ok(Some(self.word()?).filter(|word| *word != "(none)"))
    }

    pub fn bytes(&mut self) -> Result<Vec<u8>, Failure> {
        bytes_of(self.word()?)
    }

    pub fn text(&mut self) -> Result<String, Failure> {
        String::from_utf8(self.bytes()?).map_err(|_| Failure::NoCall)
    }

    pub fn number(&mut self) -> Result<u64, Failure> {
        number_of(self.word()?)
    }

    pub fn optional_number(&mut self) -> Result<Option<u64>, Failure> {
        self.option()?.map(number_of).transpose()
    }

    pub fn port(&mut self) -> Result<Option<u16>, Failure> {
        let word = self.option()?;
        word.map(|word| word.parse().map_err(|_| Failure::NoCall))
            .transpose()
    }

    pub fn duration(&mut self) -> Result<Duration, Failure> {
        Ok(Duration::from_secs(self.number()?))
    }

    /// The next word, as a time. The sum panics past the last one that there is.
    pub fn time(&mut self) -> Result<SystemTime, Failure> {
        Ok(UNIX_EPOCH + self.duration()?)
    }

    pub fn optional_time(&mut self) -> Result<Option<SystemTime>, Failure> {
        let seconds = self.optional_number()?;
        Ok(seconds.map(|seconds| UNIX_EPOCH + Duration::from_secs(seconds)))
    }

    pub fn bound(&mut self) -> Result<Bound<u64>, Failure> {
        let word = self.word()?;
        if let Some(position) = word.strip_prefix('i') {
            return Ok(Bound::Included(number_of(position)?));
        }
        if let Some(position) = word.strip_prefix('e') {
            return Ok(Bound::Excluded(number_of(position)?));
        }
        if word == "u" {
            Ok(Bound::Unbounded)
        } else {
            Err(Failure::NoCall)
        }
    }

    pub fn name(&mut self) -> Result<HeaderName, Failure> {
        HeaderName::from_bytes(&self.bytes()?).map_err(|_| Failure::NoCall)
    }

    /// All words that are left, as lines.
    pub fn lines(&mut self) -> Result<Vec<HeaderValue>, Failure> {
        self.rest().map(value_of).collect()
    }

    /// All words that are left, as names that are collected.
    pub fn names<T: FromIterator<HeaderName>>(&mut self) -> Result<T, Failure> {
        let name = |word| HeaderName::from_bytes(&bytes_of(word)?).map_err(|_| Failure::NoCall);
        self.rest().map(name).collect()
    }

    /// All words that are left, as methods that are collected.
    pub fn methods<T: FromIterator<Method>>(&mut self) -> Result<T, Failure> {
        let method = |word| Method::from_bytes(&bytes_of(word)?).map_err(|_| Failure::NoCall);
        self.rest().map(method).collect()
    }

    /// The header that the next word reads.
    pub fn header<H: Header>(&mut self) -> Result<H, Failure> {
        header_of(&[value_of(self.word()?)?])
    }

    /// The header that all words that are left read.
    pub fn header_of_rest<H: Header>(&mut self) -> Result<H, Failure> {
        header_of(&self.lines()?)
    }

    pub fn tag(&mut self) -> Result<ETag, Failure> {
        self.header()
    }

    pub fn optional_tag(&mut self) -> Result<Option<ETag>, Failure> {
        match self.option()? {
            Some(word) => Ok(Some(header_of(&[value_of(word)?])?)),
            None => Ok(None),
        }
    }
}
