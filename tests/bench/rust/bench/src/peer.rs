//! The loops of ../../../port, over upstream.

use headers::authorization::{Basic, Bearer};
use headers::*;
use http::HeaderValue;
use std::hint::black_box;
use std::ops::Bound;
use std::time::{Duration, SystemTime, UNIX_EPOCH};

type Groups = Vec<Vec<HeaderValue>>;

fn groups_of(text: &[u8]) -> Groups {
    let text = std::str::from_utf8(text).unwrap();
    text.split('\x0c')
        .map(|part| part.split('\n').filter_map(|l| HeaderValue::from_str(l).ok()).collect())
        .collect()
}

fn decode_values<H: Header>(group: &[HeaderValue]) -> Result<H, Error> {
    H::decode(&mut group.iter())
}

fn headers_of<H: Header>(groups: &Groups) -> Vec<H> {
    groups.iter().filter_map(|g| decode_values::<H>(g).ok()).collect()
}

trait Weigh {
    fn weigh(&self) -> u64;
}

macro_rules! weigh {
    ($($t:ty: $f:expr;)+) => { $(impl Weigh for $t { fn weigh(&self) -> u64 { let f: fn(&$t) -> u64 = $f; f(self) } })+ };
}

fn secs(d: Option<Duration>) -> u64 {
    d.map_or(0, |d| d.as_secs())
}

fn unix(t: SystemTime) -> u64 {
    t.duration_since(UNIX_EPOCH).unwrap().as_secs()
}

weigh! {
    Age: |h| h.as_secs();
    ContentLength: |h| h.0;
    Date: |h| unix((*h).into());
    Expires: |h| unix((*h).into());
    CacheControl: |h| secs(h.max_age())
        .wrapping_add(secs(h.max_stale()))
        .wrapping_add(secs(h.min_fresh()))
        .wrapping_add(secs(h.s_max_age()))
        .wrapping_add(h.no_cache() as u64)
        .wrapping_add(h.no_store() as u64)
        .wrapping_add(h.no_transform() as u64)
        .wrapping_add(h.only_if_cached() as u64)
        .wrapping_add(h.must_revalidate() as u64)
        .wrapping_add(h.public() as u64)
        .wrapping_add(h.private() as u64)
        .wrapping_add(h.immutable() as u64)
        .wrapping_add(h.must_understand() as u64);
    StrictTransportSecurity: |h| h.max_age().as_secs().wrapping_add(h.include_subdomains() as u64);
    ReferrerPolicy: |h| (*h == ReferrerPolicy::STRICT_ORIGIN_WHEN_CROSS_ORIGIN) as u64;
    ETag: |_| 1;
    IfMatch: |h| h.is_any() as u64;
    IfNoneMatch: |_| 1;
    IfRange: |h| h.is_modified(None, None) as u64;
    Vary: |_| 1;
    Connection: |_| 1;
    TransferEncoding: |_| 1;
    Cookie: |_| 1;
    SetCookie: |_| 1;
    Server: |h| h.as_str().len() as u64;
    UserAgent: |h| h.as_str().len() as u64;
    RetryAfter: |_| 1;
    Range: |_| 1;
    ContentRange: |h| h.bytes_range().map_or(1, |(a, b)| a.wrapping_add(b)).wrapping_add(h.bytes_len().unwrap_or(0));
    Origin: |h| h.scheme().len() as u64 + h.hostname().len() as u64 + u64::from(h.port().unwrap_or(0)) + h.is_null() as u64;
    Host: |h| h.hostname().len() as u64 + u64::from(h.port().unwrap_or(0));
    AccessControlAllowOrigin: |h| h.origin().map_or(1, |o| o.hostname().len() as u64);
    AccessControlAllowHeaders: |_| 1;
    AccessControlAllowMethods: |_| 1;
    Authorization<Basic>: |h| h.username().len() as u64 + h.password().len() as u64;
    Authorization<Bearer>: |h| h.token().len() as u64;
    ContentType: |_| 1;
    SecWebsocketKey: |_| 1;
    Allow: |_| 1;
    Location: |_| 1;
    ContentDisposition: |h| h.is_inline() as u64 + 1;
    ContentEncoding: |_| 1;
}

#[inline(never)]
fn decode_groups<H: Header + Weigh>(groups: &Groups, n: usize) -> u64 {
    let mut sum = 0u64;
    for _ in 0..n {
        for group in groups {
            if let Ok(header) = decode_values::<H>(black_box(group)) {
                sum = sum.wrapping_add(header.weigh());
            }
        }
    }
    sum
}

fn weigh_lines(values: &[HeaderValue]) -> u64 {
    let mut sum = 0u64;
    for value in values {
        let bytes = value.as_bytes();
        let last = bytes.last().copied().unwrap_or(0);
        sum = sum.wrapping_add(bytes.len() as u64).wrapping_add(last as u64);
    }
    sum
}

#[inline(never)]
fn encode_groups<H: Header>(groups: &Groups, n: usize) -> u64 {
    let headers = headers_of::<H>(groups);
    let mut out = Vec::with_capacity(32);
    let mut sum = 0u64;
    for _ in 0..n {
        for header in &headers {
            black_box(header).encode(&mut out);
            sum = sum.wrapping_add(weigh_lines(&out));
            out.clear();
        }
    }
    sum
}

macro_rules! by_op {
    ($op:expr, $f:ident, $groups:expr, $n:expr) => {
        match $op {
            0 => $f::<Age>($groups, $n),
            1 => $f::<ContentLength>($groups, $n),
            2 => $f::<Date>($groups, $n),
            3 => $f::<Expires>($groups, $n),
            4 => $f::<CacheControl>($groups, $n),
            5 => $f::<StrictTransportSecurity>($groups, $n),
            6 => $f::<ReferrerPolicy>($groups, $n),
            7 => $f::<ETag>($groups, $n),
            8 => $f::<IfMatch>($groups, $n),
            9 => $f::<IfNoneMatch>($groups, $n),
            10 => $f::<IfRange>($groups, $n),
            11 => $f::<Vary>($groups, $n),
            12 => $f::<Connection>($groups, $n),
            13 => $f::<TransferEncoding>($groups, $n),
            14 => $f::<Cookie>($groups, $n),
            15 => $f::<SetCookie>($groups, $n),
            16 => $f::<Server>($groups, $n),
            17 => $f::<UserAgent>($groups, $n),
            18 => $f::<RetryAfter>($groups, $n),
            19 => $f::<Range>($groups, $n),
            20 => $f::<ContentRange>($groups, $n),
            21 => $f::<Origin>($groups, $n),
            22 => $f::<Host>($groups, $n),
            23 => $f::<AccessControlAllowOrigin>($groups, $n),
            24 => $f::<AccessControlAllowHeaders>($groups, $n),
            25 => $f::<AccessControlAllowMethods>($groups, $n),
            26 => $f::<Authorization<Basic>>($groups, $n),
            27 => $f::<Authorization<Bearer>>($groups, $n),
            28 => $f::<ContentType>($groups, $n),
            29 => $f::<SecWebsocketKey>($groups, $n),
            30 => $f::<Allow>($groups, $n),
            31 => $f::<Location>($groups, $n),
            32 => $f::<ContentDisposition>($groups, $n),
            33 => $f::<ContentEncoding>($groups, $n),
            _ => 0,
        }
    };
}

fn over<H: Header>(groups: &Groups, n: usize, f: impl Fn(&H) -> u64) -> u64 {
    let headers = headers_of::<H>(groups);
    let mut sum = 0u64;
    for _ in 0..n {
        for header in &headers {
            sum = sum.wrapping_add(f(black_box(header)));
        }
    }
    sum
}

fn over_decoded<H: Header>(groups: &Groups, n: usize, tags: &[ETag], f: impl Fn(&H, &ETag) -> u64) -> u64 {
    let mut sum = 0u64;
    for _ in 0..n {
        for group in groups {
            for tag in tags {
                if let Ok(header) = decode_values::<H>(black_box(group)) {
                    sum = sum.wrapping_add(f(&header, black_box(tag)));
                }
            }
        }
    }
    sum
}

fn ask(op: u32, text: &[u8], words: &[u8], n: usize) -> u64 {
    let groups = groups_of(text);
    let words: Vec<&str> = std::str::from_utf8(words).unwrap().split('\n').collect();
    let tags: Vec<ETag> = words.iter().filter_map(|w| w.parse().ok()).collect();
    let weigh_items = |v: &Vary| v.iter_strs().map(|i| i.len() as u64 + 1).sum::<u64>();
    match op {
        0 => over::<Connection>(&groups, n, |h| words.iter().map(|w| h.contains(black_box(*w)) as u64).sum()),
        1 => over::<Vary>(&groups, n, |h| h.is_any() as u64),
        2 => over::<Vary>(&groups, n, weigh_items),
        3 => over::<TransferEncoding>(&groups, n, |h| h.is_chunked() as u64),
        4 => over::<Cookie>(&groups, n, |h| {
            words.iter().map(|w| h.get(black_box(w)).map_or(0, |v| v.len() as u64)).sum()
        }),
        5 => over::<Cookie>(&groups, n, |h| h.iter().map(|(k, v)| k.len() as u64 + v.len() as u64).sum()),
        6 => over::<IfNoneMatch>(&groups, n, |h| tags.iter().map(|t| h.precondition_passes(black_box(t)) as u64).sum()),
        7 => over_decoded::<IfNoneMatch>(&groups, n, &tags, |h, t| h.precondition_passes(t) as u64),
        8 => over::<IfMatch>(&groups, n, |h| tags.iter().map(|t| h.precondition_passes(black_box(t)) as u64).sum()),
        9 => over_decoded::<IfMatch>(&groups, n, &tags, |h, t| h.precondition_passes(t) as u64),
        10 => over::<IfRange>(&groups, n, |h| tags.iter().map(|t| h.is_modified(Some(black_box(t)), None) as u64).sum()),
        11 => {
            let text = std::str::from_utf8(text).unwrap();
            let mut sum = 0u64;
            for _ in 0..n {
                for word in text.split('\x0c') {
                    if let Ok(server) = black_box(word).parse::<Server>() {
                        sum = sum.wrapping_add(server.as_str().len() as u64);
                    }
                }
            }
            sum
        }
        12 => {
            let mut sum = 0u64;
            for _ in 0..n {
                for group in &groups {
                    if let Ok(vary) = decode_values::<Vary>(black_box(group)) {
                        sum = sum.wrapping_add(weigh_items(&vary));
                    }
                }
            }
            sum
        }
        13 => {
            let keys = headers_of::<SecWebsocketKey>(&groups);
            let mut out = Vec::with_capacity(32);
            let mut sum = 0u64;
            for _ in 0..n {
                for key in &keys {
                    SecWebsocketAccept::from(black_box(key).clone()).encode(&mut out);
                    sum = sum.wrapping_add(weigh_lines(&out));
                    out.clear();
                }
            }
            sum
        }
        14 => {
            let text = std::str::from_utf8(text).unwrap();
            let mut sum = 0u64;
            for _ in 0..n {
                for word in text.split('\x0c') {
                    if let Ok(mime) = black_box(word).parse::<Mime>() {
                        sum = sum.wrapping_add(mime.as_ref().len() as u64);
                    }
                }
            }
            sum
        }
        15 => over::<Range>(&groups, n, |h| {
            h.satisfiable_ranges(1_000_000).fold(0, |sum, (a, b)| sum.wrapping_add(place(a)).wrapping_add(place(b)))
        }),
        16 => over::<AccessControlAllowHeaders>(&groups, n, |h| h.iter().map(|it| it.as_str().len() as u64).sum()),
        17 => over::<AccessControlAllowMethods>(&groups, n, |h| h.iter().map(|it| it.as_str().len() as u64).sum()),
        18 => over::<Allow>(&groups, n, |h| h.iter().map(|it| it.as_str().len() as u64).sum()),
        19 => over::<ContentRange>(&groups, n, Weigh::weigh),
        20 => over::<Origin>(&groups, n, Weigh::weigh),
        21 => over::<Host>(&groups, n, Weigh::weigh),
        22 => over::<AccessControlAllowOrigin>(&groups, n, Weigh::weigh),
        23 => over::<Authorization<Basic>>(&groups, n, Weigh::weigh),
        24 => over::<Authorization<Bearer>>(&groups, n, Weigh::weigh),
        25 => over::<CacheControl>(&groups, n, Weigh::weigh),
        _ => 0,
    }
}

fn place(bound: Bound<u64>) -> u64 {
    match bound {
        Bound::Included(place) | Bound::Excluded(place) => place,
        Bound::Unbounded => 1,
    }
}

fn map_of(text: &[u8]) -> HeaderMap {
    let mut map = HeaderMap::new();
    for line in std::str::from_utf8(text).unwrap().split('\n') {
        if let Some((name, value)) = line.split_once(": ") {
            if let (Ok(name), Ok(value)) = (HeaderName::from_bytes(name.as_bytes()), HeaderValue::from_str(value)) {
                map.append(name, value);
            }
        }
    }
    map
}

fn found<H: Header + Weigh>(map: &HeaderMap) -> u64 {
    black_box(map).typed_get::<H>().map_or(0, |h| h.weigh().wrapping_add(1))
}

fn over_map(op: u32, text: &[u8], n: usize) -> u64 {
    let mut map = map_of(text);
    let mut sum = 0u64;
    for pass in 0..n {
        sum = sum.wrapping_add(match op {
            0 => found::<ContentLength>(&map) + 1,
            1 => found::<Age>(&map) + 1,
            2 => found::<Host>(&map)
                + found::<UserAgent>(&map)
                + found::<ContentLength>(&map)
                + found::<CacheControl>(&map)
                + found::<ETag>(&map)
                + found::<Age>(&map),
            3 => {
                map.typed_insert(ContentLength(pass as u64));
                map.keys_len() as u64
            }
            4 => {
                map.typed_insert(CacheControl::new().with_no_cache().with_public());
                map.keys_len() as u64
            }
            5 => map_of(black_box(text)).keys_len() as u64,
            _ => 0,
        });
    }
    sum
}

pub fn run(kind: u32, op: u32, text: &[u8], words: &[u8], n: usize) -> u64 {
    match kind {
        0 => by_op!(op, decode_groups, &groups_of(text), n),
        1 => by_op!(op, encode_groups, &groups_of(text), n),
        2 => ask(op, text, words, n),
        _ => over_map(op, text, n),
    }
}
