//! A section of the crate `typed-headers` as a map of the crate `http`, and back.
use http::{header, HeaderMap, HeaderValue};
use typed_headers::{ContentLength, HeaderMapExt, Section};

fn main() {
    let mut map = HeaderMap::new();
    map.insert(header::CONTENT_LENGTH, HeaderValue::from_static("42"));
    map.append(header::SET_COOKIE, HeaderValue::from_static("a=b"));
    map.append(header::SET_COOKIE, HeaderValue::from_static("c=d"));
    let section = Section::from_fields(&map).unwrap();
    assert_eq!(section.typed_get::<ContentLength>(), Some(ContentLength(42)));
    assert_eq!(section.to_map::<HeaderMap, _, _>().unwrap(), map);
}
