//! What the getters of each header answer.

use std::time::{Duration, SystemTime, UNIX_EPOCH};

use headers::authorization::{Basic, Bearer};
use headers::*;
use http::{HeaderValue, Method};
use mime::Mime;

use crate::words::Answer;

/// A header with the words of its getters.
pub trait Getters: Header {
    fn getters(&self, answer: &mut Answer);
}

/// The lines that a header writes.
pub fn written<H: Header>(header: &H) -> Vec<HeaderValue> {
    let mut lines = Vec::new();
    header.encode(&mut lines);
    lines
}

/// Adds the lines that a header writes, and what its getters give.
pub fn show<H: Getters>(header: &H, answer: &mut Answer) {
    answer.list(written(header));
    header.getters(answer);
}

/// The same, and whether the lines read an equal header.
pub fn show_back<H: Getters + PartialEq>(header: &H, answer: &mut Answer) {
    show(header, answer);
    let back = H::decode(&mut written(header).iter()).ok();
    answer.word(back.as_ref() == Some(header));
}

/// The constants of `ReferrerPolicy`.
pub const POLICIES: [(&str, ReferrerPolicy); 8] = [
    ("NO_REFERRER", ReferrerPolicy::NO_REFERRER),
    (
        "NO_REFERRER_WHEN_DOWNGRADE",
        ReferrerPolicy::NO_REFERRER_WHEN_DOWNGRADE,
    ),
    ("SAME_ORIGIN", ReferrerPolicy::SAME_ORIGIN),
    ("ORIGIN", ReferrerPolicy::ORIGIN),
    (
        "ORIGIN_WHEN_CROSS_ORIGIN",
        ReferrerPolicy::ORIGIN_WHEN_CROSS_ORIGIN,
    ),
    ("UNSAFE_URL", ReferrerPolicy::UNSAFE_URL),
    ("STRICT_ORIGIN", ReferrerPolicy::STRICT_ORIGIN),
    (
        "STRICT_ORIGIN_WHEN_CROSS_ORIGIN",
        ReferrerPolicy::STRICT_ORIGIN_WHEN_CROSS_ORIGIN,
    ),
];

fn unix_secs(time: impl Into<SystemTime>) -> u64 {
    let since = time.into().duration_since(UNIX_EPOCH);
    since.expect("no header has a time before 1970").as_secs()
}

fn first_line<H: Header>(header: &H) -> HeaderValue {
    written(header)
        .into_iter()
        .next()
        .expect("the header writes a line")
}

/// Whether a header writes the text.
fn writes<H: Header>(header: &H, text: &str) -> bool {
    first_line(header).as_bytes() == text.as_bytes()
}

fn is_sensitive<H: Header>(header: &H) -> bool {
    first_line(header).is_sensitive()
}

/// Adds what the getters of an origin give, and whether its text is what the header writes.
fn show_origin<H: Header>(origin: &Origin, header: &H, answer: &mut Answer) {
    answer.word(origin.is_null());
    answer.bytes(origin.scheme());
    answer.bytes(origin.hostname());
    answer.option(origin.port());
    answer.word(writes(header, &origin.to_string()));
}

macro_rules! getters {
    ($($type:ty: |$header:ident, $answer:ident| $body:block)*) => {$(
        impl Getters for $type {
            fn getters(&self, $answer: &mut Answer) {
                let $header = self;
                $body
            }
        }
    )*};
}

macro_rules! without_getters {
    ($($type:ty)*) => {$(
        impl Getters for $type {
            fn getters(&self, _answer: &mut Answer) {}
        }
    )*};
}

without_getters! {
    Connection ContentEncoding ContentLocation IfNoneMatch IfRange Location Range RetryAfter
    SecWebsocketAccept SetCookie Te Upgrade
}

getters! {
    AcceptRanges: |header, answer| {
        answer.word(header.is_bytes());
        answer.word(header.is_none());
    }
    AccessControlAllowCredentials: |header, answer| {
        answer.word(*header == AccessControlAllowCredentials);
    }
    AccessControlAllowHeaders: |header, answer| {
        answer.list(header.iter().map(|name| name.as_str().to_string()));
    }
    AccessControlAllowMethods: |header, answer| {
        answer.list(header.iter().map(|method| method.as_str().to_string()));
    }
    AccessControlAllowOrigin: |header, answer| {
        match header.origin() {
            Some(origin) => show_origin(origin, header, answer),
            None => answer.none(),
        }
    }
    AccessControlExposeHeaders: |header, answer| {
        answer.list(header.iter().map(|name| name.as_str().to_string()));
    }
    AccessControlMaxAge: |header, answer| {
        answer.word(Duration::from(header.clone()).as_secs());
    }
    AccessControlRequestHeaders: |header, answer| {
        answer.list(header.iter().map(|name| name.as_str().to_string()));
    }
    AccessControlRequestMethod: |header, answer| {
        answer.bytes(Method::from(header.clone()).as_str());
    }
    Age: |header, answer| {
        answer.word(header.as_secs());
        answer.word(Duration::from(*header).as_secs());
    }
    Allow: |header, answer| {
        answer.list(header.iter().map(|method| method.as_str().to_string()));
    }
    Authorization<Basic>: |header, answer| {
        answer.bytes(header.username());
        answer.bytes(header.password());
        answer.word(is_sensitive(header));
    }
    Authorization<Bearer>: |header, answer| {
        answer.bytes(header.token());
        answer.word(is_sensitive(header));
    }
    CacheControl: |header, answer| {
        for flag in [
            header.no_cache(),
            header.no_store(),
            header.no_transform(),
            header.only_if_cached(),
            header.public(),
            header.private(),
            header.immutable(),
            header.must_revalidate(),
            header.must_understand(),
        ] {
            answer.word(flag);
        }
        for duration in [header.max_age(), header.max_stale(), header.min_fresh(), header.s_max_age()] {
            answer.option(duration.map(|duration| duration.as_secs()));
        }
    }
    ContentDisposition: |header, answer| {
        answer.word(header.is_inline());
        answer.word(header.is_attachment());
        answer.word(header.is_form_data());
    }
    ContentLength: |header, answer| { answer.word(header.0); }
    ContentRange: |header, answer| {
        answer.option(header.bytes_range().map(|(first, last)| format!("{first} {last}")));
        answer.option(header.bytes_len());
    }
    ContentType: |header, answer| {
        let media_type = Mime::from(header.clone());
        answer.bytes(media_type.as_ref());
        let is_same = media_type.as_ref() == media_type.to_string();
        answer.word(is_same && writes(header, &header.to_string()));
    }
    Cookie: |header, answer| {
        answer.word(header.len());
        for (key, text) in header.iter() {
            answer.bytes(key);
            answer.bytes(text);
        }
    }
    Date: |header, answer| { answer.word(unix_secs(*header)); }
    ETag: |header, answer| { answer.word(header.is_weak()); }
    Expect: |header, answer| { answer.word(*header == Expect::CONTINUE); }
    Expires: |header, answer| { answer.word(unix_secs(*header)); }
    Host: |header, answer| {
        answer.bytes(header.hostname());
        answer.option(header.port());
        answer.word(writes(header, &header.to_string()));
    }
    IfMatch: |header, answer| { answer.word(header.is_any()); }
    IfModifiedSince: |header, answer| { answer.word(unix_secs(*header)); }
    IfUnmodifiedSince: |header, answer| { answer.word(unix_secs(*header)); }
    LastModified: |header, answer| { answer.word(unix_secs(*header)); }
    Origin: |header, answer| { show_origin(header, header, answer); }
    Pragma: |header, answer| { answer.word(header.is_no_cache()); }
    ProxyAuthorization<Basic>: |header, answer| {
        answer.bytes(header.0.username());
        answer.bytes(header.0.password());
        answer.word(is_sensitive(header));
    }
    ProxyAuthorization<Bearer>: |header, answer| {
        answer.bytes(header.0.token());
        answer.word(is_sensitive(header));
    }
    Referer: |header, answer| { answer.word(writes(header, &header.to_string())); }
    ReferrerPolicy: |header, answer| {
        for (name, policy) in POLICIES {
            if *header == policy {
                answer.word(name);
            }
        }
    }
    SecWebsocketKey: |header, answer| { answer.word(is_sensitive(header)); }
    SecWebsocketVersion: |header, answer| { answer.word(*header == SecWebsocketVersion::V13); }
    Server: |header, answer| {
        answer.bytes(header.as_str());
        answer.word(writes(header, &header.to_string()));
    }
    StrictTransportSecurity: |header, answer| {
        answer.word(header.max_age().as_secs());
        answer.word(header.include_subdomains());
    }
    TransferEncoding: |header, answer| { answer.word(header.is_chunked()); }
    UserAgent: |header, answer| {
        answer.bytes(header.as_str());
        answer.word(writes(header, &header.to_string()));
    }
    Vary: |header, answer| {
        answer.word(header.is_any());
        answer.list(header.iter_strs());
    }
}
