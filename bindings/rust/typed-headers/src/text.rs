use alloc::string::{String, ToString};
use alloc::vec::Vec;
use core::fmt;
use core::str::FromStr;

use typed_headers_sys as sys;

use crate::error::{check, status, Error};
use crate::ByteRange;

/// Bytes as the library takes them in a struct.
pub(crate) fn text(bytes: &[u8]) -> sys::Text {
    sys::Text { bytes: bytes.as_ptr(), length: bytes.len() }
}

/// Field lines as the library takes them: one text, in which each ends in LF.
pub(crate) fn joined<I>(lines: I) -> Result<Vec<u8>, Error>
where
    I: IntoIterator,
    I::Item: AsRef<[u8]>,
{
    let mut text = Vec::new();
    for line in lines {
        let line = line.as_ref();
        if line.iter().any(|byte| matches!(byte, b'\r' | b'\n')) {
            return Err(Error::Rejected);
        }
        text.extend_from_slice(line);
        text.push(b'\n');
    }
    Ok(text)
}

/// What a call writes into a room of items, and its status. It is called again with more room if they don't fit.
pub(crate) fn written<T: Clone + Default>(
    room: usize,
    call: impl Fn(*mut T, usize, *mut usize) -> u8,
) -> Result<Option<(Vec<T>, u8)>, Error> {
    let mut items = alloc::vec![T::default(); room.max(1)];
    loop {
        let mut count = 0;
        let status = call(items.as_mut_ptr(), items.len(), &mut count);
        if status != status::NO_ROOM {
            return Ok(check(status)?.then(|| {
                items.truncate(count);
                (items, status)
            }));
        }
        items.resize(count, T::default());
    }
}

/// A room for items, and how many a call writes, or would.
pub(crate) struct Room<T> {
    pub(crate) items: Vec<T>,
    pub(crate) count: usize,
}

impl<T: Clone + Default> Room<T> {
    fn new(length: usize) -> Room<T> {
        Room { items: alloc::vec![T::default(); length], count: 0 }
    }

    fn grow(&mut self) {
        self.items.resize(self.count.max(self.items.len()), T::default());
    }

    fn taken(mut self) -> Vec<T> {
        self.items.truncate(self.count);
        self.items
    }
}

// The ranges and the bytes that a call wrote.
type Both = (Vec<ByteRange>, Vec<u8>);

/// The ranges and the bytes that a call writes. It is called again with more room if they don't fit.
pub(crate) fn written_both(call: impl Fn(&mut Room<ByteRange>, &mut Room<u8>) -> u8) -> Result<Option<Both>, Error> {
    let (mut parts, mut room) = (Room::new(8), Room::new(512));
    loop {
        let status = call(&mut parts, &mut room);
        if status != status::NO_ROOM {
            return Ok(check(status)?.then(|| (parts.taken(), room.taken())));
        }
        parts.grow();
        room.grow();
    }
}

// Whether a field has this name (RFC 9110, section 5.1), which is a token.
fn is_name(name: &[u8]) -> bool {
    !name.is_empty() && name.iter().all(|it| it.is_ascii_alphanumeric() || b"!#$%&'*+-.^_`|~".contains(it))
}

fn is_value(value: &[u8]) -> bool {
    value.iter().all(|it| *it == b'\t' || *it >= b' ' && *it != 0x7f)
}

/// The name of a field as errors say it.
pub(crate) fn lower(name: &[u8]) -> String {
    String::from_utf8_lossy(name).to_ascii_lowercase()
}

// The value without the white space around it, which is none of it.
fn trimmed(mut value: &[u8]) -> &[u8] {
    while let [b' ' | b'\t', rest @ ..] | [rest @ .., b' ' | b'\t'] = value {
        value = rest;
    }
    value
}

/// The header fields of a message, in order.
///
/// ```
/// use typed_headers::Section;
///
/// let mut section = Section::parse("Host: a.example\r\nVary: accept\r\nVary: origin\r\n\r\n")?;
/// section.push("Age", "7")?;
/// assert_eq!(section.get("host"), Some(b"a.example".as_slice()));
/// assert_eq!(section.get_all("vary").collect::<Vec<_>>(), [b"accept".as_slice(), b"origin"]);
/// for (name, value) in &section {
///     println!("{name}: {}", value.escape_ascii());
/// }
/// assert!(section.push("Age", "7\nCookie: injected").is_err());
/// # Ok::<(), typed_headers::Error>(())
/// ```
#[derive(Clone, Default, PartialEq, Eq, Hash)]
pub struct Section {
    // Each field with LF.
    pub(crate) text: Vec<u8>,
}

impl Section {
    /// A section without a field.
    pub const fn new() -> Section {
        Section { text: Vec::new() }
    }

    /// The fields of a header section as it comes on the wire (RFC 9112, section 5): a line for each field, up to the
    /// first empty one.
    ///
    /// ```
    /// use typed_headers::{Error, Section};
    ///
    /// assert_eq!(Section::parse("Age: 7\r\n\r\ncontent")?.len(), 1);
    /// assert_eq!(Section::parse("Age: 7\nHost : a.example\n"), Err(Error::InvalidLine { number: 2 }));
    /// # Ok::<(), typed_headers::Error>(())
    /// ```
    ///
    /// # Errors
    ///
    /// [`Error::InvalidLine`] if a line is no field.
    pub fn parse(text: impl AsRef<[u8]>) -> Result<Section, Error> {
        let mut section = Section::new();
        for (place, line) in text.as_ref().split(|it| *it == b'\n').enumerate() {
            let line = line.strip_suffix(b"\r").unwrap_or(line);
            if line.is_empty() {
                break;
            }
            let colon = line.iter().position(|it| *it == b':').unwrap_or(line.len());
            let (name, value) = (&line[..colon], line.get(colon + 1..));
            match value {
                Some(value) if is_name(name) && is_value(value) => section.add(name, value),
                _ => return Err(Error::InvalidLine { number: place + 1 }),
            }
        }
        Ok(section)
    }

    /// The section with these fields, each a name and a value: those of another type of maps.
    ///
    /// ```
    /// use std::collections::BTreeMap;
    /// use typed_headers::Section;
    ///
    /// let map = BTreeMap::from([("age", "7"), ("host", "a.example")]);
    /// let section = Section::from_fields(map)?;
    /// assert_eq!(section.as_bytes(), b"age: 7\nhost: a.example\n");
    /// # Ok::<(), typed_headers::Error>(())
    /// ```
    ///
    /// # Errors
    ///
    /// Those of [`push`](Section::push).
    pub fn from_fields<N, V>(fields: impl IntoIterator<Item = (N, V)>) -> Result<Section, Error>
    where
        N: AsRef<[u8]>,
        V: AsRef<[u8]>,
    {
        let mut section = Section::new();
        for (name, value) in fields {
            section.push(name, value)?;
        }
        Ok(section)
    }

    /// The fields as another map of names and values, as `HeaderMap` of the crate `http`, of any version:
    /// `let map: HeaderMap = section.to_map()?`. [`Section::from_fields`] takes such a map.
    ///
    /// ```
    /// use std::collections::BTreeMap;
    /// use typed_headers::Section;
    ///
    /// let map: BTreeMap<String, Vec<u8>> = Section::parse("Age: 7")?.to_map()?;
    /// assert_eq!(map["Age"], b"7");
    /// # Ok::<(), typed_headers::Error>(())
    /// ```
    ///
    /// # Errors
    ///
    /// [`Error::InvalidField`] if the map takes no such name or value.
    pub fn to_map<M, N, V>(&self) -> Result<M, Error>
    where
        M: FromIterator<(N, V)>,
        N: for<'a> TryFrom<&'a str>,
        V: for<'a> TryFrom<&'a [u8]>,
    {
        let pairs = self.iter().map(|(name, value)| match (N::try_from(name), V::try_from(value)) {
            (Ok(name), Ok(value)) => Ok((name, value)),
            _ => Err(Error::Rejected.of(lower(name.as_bytes()))),
        });
        pairs.collect()
    }

    // A section that the library wrote.
    pub(crate) fn from_bytes(text: impl Into<Vec<u8>>) -> Section {
        Section { text: text.into() }
    }

    fn add(&mut self, name: &[u8], value: &[u8]) {
        self.text.extend_from_slice(name);
        self.text.extend_from_slice(b": ");
        self.text.extend_from_slice(trimmed(value));
        self.text.push(b'\n');
    }

    /// Adds a field at the end.
    ///
    /// # Errors
    ///
    /// [`Error::Rejected`] if the name is no token, and [`Error::InvalidField`] if the value has a line end or another
    /// control character but the tab. The section is as it was.
    pub fn push(&mut self, name: impl AsRef<[u8]>, value: impl AsRef<[u8]>) -> Result<(), Error> {
        let (name, value) = (name.as_ref(), value.as_ref());
        if !is_name(name) {
            return Err(Error::Rejected);
        }
        if !is_value(value) {
            return Err(Error::Rejected.of(lower(name)));
        }
        self.add(name, value);
        Ok(())
    }

    /// Adds a field at the end, in place of those of its name.
    ///
    /// ```
    /// use typed_headers::Section;
    ///
    /// let mut section = Section::parse("Vary: accept\nAge: 7\nvary: origin\n")?;
    /// section.set("Vary", "*")?;
    /// assert_eq!(section.as_bytes(), b"Age: 7\nVary: *\n");
    /// # Ok::<(), typed_headers::Error>(())
    /// ```
    ///
    /// # Errors
    ///
    /// Those of [`push`](Section::push).
    pub fn set(&mut self, name: impl AsRef<[u8]>, value: impl AsRef<[u8]>) -> Result<(), Error> {
        let length = self.text.len();
        self.push(&name, value)?;
        let added = self.text.split_off(length);
        self.remove(name);
        self.text.extend(added);
        Ok(())
    }

    /// Removes the fields of a name, and says whether there were any.
    pub fn remove(&mut self, name: impl AsRef<[u8]>) -> bool {
        let (name, length) = (name.as_ref(), self.text.len());
        let mut kept = Vec::with_capacity(length);
        for line in self.text.split_inclusive(|it| *it == b'\n') {
            if !line.split(|it| *it == b':').next().is_some_and(|it| it.eq_ignore_ascii_case(name)) {
                kept.extend_from_slice(line);
            }
        }
        self.text = kept;
        self.text.len() != length
    }

    /// The value of the first field of a name. The case of a name never counts.
    pub fn get(&self, name: &str) -> Option<&[u8]> {
        self.get_all(name).next()
    }

    /// The values of the fields of a name, in order: what the calls of this crate take as field lines.
    ///
    /// ```
    /// use typed_headers::{Section, content_length};
    ///
    /// let section = Section::parse("Content-Length: 5\nAge: 7\nContent-Length: 5\n")?;
    /// assert_eq!(content_length(section.get_all("content-length"))?, Some(5));
    /// # Ok::<(), typed_headers::Error>(())
    /// ```
    pub fn get_all<'a, 'n>(&'a self, name: &'n str) -> impl Iterator<Item = &'a [u8]> + Clone + use<'a, 'n> {
        self.iter().filter(move |(it, _)| it.eq_ignore_ascii_case(name)).map(|(_, value)| value)
    }

    /// Whether there is a field of this name.
    pub fn contains(&self, name: &str) -> bool {
        self.get(name).is_some()
    }

    /// How many fields there are.
    pub fn len(&self) -> usize {
        self.iter().count()
    }

    /// Whether there is no field.
    pub fn is_empty(&self) -> bool {
        self.text.is_empty()
    }

    /// Yields the name and the value of each field, in order. A value has no white space around it.
    pub fn iter(&self) -> Fields<'_> {
        Fields { rest: &self.text }
    }

    /// The section as bytes: each field as `name: value`, with LF.
    pub fn as_bytes(&self) -> &[u8] {
        &self.text
    }

    /// A request with these fields, as the library takes it.
    pub(crate) fn with_method(&self, method: &[u8]) -> sys::Request {
        sys::Request { method: text(method), section: text(&self.text) }
    }
}

/// Yields the fields of a [`Section`], each a name and a value.
#[derive(Clone, Debug)]
pub struct Fields<'a> {
    rest: &'a [u8],
}

impl<'a> Iterator for Fields<'a> {
    type Item = (&'a str, &'a [u8]);

    fn next(&mut self) -> Option<Self::Item> {
        let end = self.rest.iter().position(|it| *it == b'\n')?;
        let (line, rest) = self.rest.split_at(end);
        self.rest = &rest[1..];
        let colon = line.iter().position(|it| *it == b':')?;
        Some((core::str::from_utf8(&line[..colon]).ok()?, trimmed(&line[colon + 1..])))
    }
}

impl core::iter::FusedIterator for Fields<'_> {}

impl<'a> IntoIterator for &'a Section {
    type Item = (&'a str, &'a [u8]);
    type IntoIter = Fields<'a>;

    fn into_iter(self) -> Fields<'a> {
        self.iter()
    }
}

impl IntoIterator for Section {
    type Item = (String, Vec<u8>);
    type IntoIter = alloc::vec::IntoIter<(String, Vec<u8>)>;

    fn into_iter(self) -> Self::IntoIter {
        self.iter().map(|(name, value)| (name.to_string(), value.to_vec())).collect::<Vec<_>>().into_iter()
    }
}

impl FromStr for Section {
    type Err = Error;

    fn from_str(text: &str) -> Result<Section, Error> {
        Section::parse(text)
    }
}

// Fields that have secrets aren't shown.
const SECRET: [&str; 4] = ["authorization", "cookie", "proxy-authorization", "set-cookie"];

impl fmt::Debug for Section {
    fn fmt(&self, formatter: &mut fmt::Formatter<'_>) -> fmt::Result {
        let shown = self.iter().map(|(name, value)| {
            let is_secret = SECRET.iter().any(|it| it.eq_ignore_ascii_case(name));
            (name, if is_secret { "(secret)".to_string() } else { value.escape_ascii().to_string() })
        });
        formatter.debug_list().entries(shown).finish()
    }
}
