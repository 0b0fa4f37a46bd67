//! Each call of the port on texts that grow by four.

const DECODE: u32 = 0;
const ENCODE: u32 = 1;
const ASK: u32 = 2;
const MAP: u32 = 3;
const SIZES: [usize; 6] = [1 << 10, 1 << 12, 1 << 14, 1 << 16, 1 << 18, 1 << 20];
/// A map has at most 24,576 names.
const MOST_BYTES_OF_NAMES: usize = 1 << 18;

/// `head`, then items up to a length, with a separator between two.
fn list(bytes: usize, head: &str, separator: &str, item: impl Fn(usize) -> String) -> String {
    let mut text = head.to_string() + &item(0);
    let mut at = 1;
    while text.len() < bytes {
        text += separator;
        text += &item(at);
        at += 1;
    }
    text
}

fn filled(bytes: usize, head: &str, byte: &str, tail: &str) -> String {
    format!("{head}{}{tail}", byte.repeat(bytes.saturating_sub(head.len() + tail.len())))
}

fn tag(at: usize) -> String {
    format!("{}\"{at:010x}\"", if at % 3 == 0 { "W/" } else { "" })
}

fn method(at: usize) -> String {
    ["GET", "POST", "PURGE", "DELETE", "OPTIONS"][at % 5].to_string()
}

fn directive(at: usize) -> String {
    ["max-age=60", "no-cache=\"set-cookie, x\"", "public", "community=\"UCI\"", "stale-while-revalidate=60"][at % 5].to_string()
}

/// A name for each type, and a text of so many bytes that it decodes, where one can be that long.
fn decoded(op: u32, bytes: usize) -> (&'static str, String) {
    let name = |at: usize| format!("x-name-{at}");
    match op {
        0 => ("Age", filled(bytes, "", "0", "7")),
        1 => ("ContentLength, field lines", list(bytes, "", "\n", |_| "3495".to_string())),
        2 => ("Date, too long", filled(bytes, "Sun, 06 Nov 1994 08:49:37 GMT", " x", "")),
        3 => ("Expires, too long", filled(bytes, "Sunday, 06-Nov-94 08:49:37 GMT", " x", "")),
        4 => ("CacheControl", list(bytes, "", ", ", directive)),
        5 => ("StrictTransportSecurity", list(bytes, "max-age=63072000; ", "; ", |at| format!("x{at}=\"a;b\""))),
        6 => ("ReferrerPolicy", list(bytes, "", ", ", |_| "strict-origin-when-cross-origin".to_string())),
        7 => ("ETag", filled(bytes, "\"", "a", "\"")),
        8 => ("IfMatch", list(bytes, "", ", ", tag)),
        9 => ("IfNoneMatch", list(bytes, "", ", ", tag)),
        10 => ("IfRange", filled(bytes, "\"", "a", "\"")),
        11 => ("Vary, field lines", list(bytes, "", "\n", name)),
        12 => ("Connection", list(bytes, "", ", ", name)),
        13 => ("TransferEncoding, field lines", list(bytes, "", "\n", |at| format!("coding-{at}; q=\"1,2\""))),
        14 => ("Cookie", list(bytes, "", "; ", |at| format!("name{at}=value"))),
        15 => ("SetCookie, field lines", list(bytes, "", "\n", |at| format!("id{at}=a; Secure"))),
        16 => ("Server", filled(bytes, "nginx/", "1", "")),
        17 => ("UserAgent", filled(bytes, "Mozilla/5.0 (", "x", ")")),
        18 => ("RetryAfter", filled(bytes, "", "0", "7")),
        19 => ("Range", list(bytes, "bytes=", ",", |at| format!("{at}-{}", at + 9))),
        20 => ("ContentRange", filled(bytes, "bytes 0-9/", "0", "10")),
        21 => ("Origin", filled(bytes, "https://", "a", ".example:8080")),
        22 => ("Host", filled(bytes, "", "a", ".example:8080")),
        23 => ("AccessControlAllowOrigin", filled(bytes, "https://", "a", ".example:8080")),
        24 => ("AccessControlAllowHeaders", list(bytes, "", ", ", name)),
        25 => ("AccessControlAllowMethods", list(bytes, "", ", ", method)),
        26 => ("Basic", filled(bytes / 4 * 4 + 6, "Basic YTph", "YWFh", "").chars().take(bytes / 4 * 4 + 6).collect()),
        27 => ("Bearer", filled(bytes, "Bearer ", "a", "")),
        28 => ("ContentType", list(bytes, "text/plain; ", "; ", |at| format!("p{at}=\"v;{at}\""))),
        29 => ("SecWebsocketKey, too long", filled(bytes, "", "A", "==")),
        30 => ("Allow, field lines", list(bytes, "", "\n", method)),
        31 => ("Location", filled(bytes, "/", "a/", "")),
        32 => ("ContentDisposition", filled(bytes, "attachment; filename=\"", "a", "\"")),
        _ => ("ContentEncoding", list(bytes, "", ", ", |at| format!("coding-{at}"))),
    }
}

/// The calls of types: their name, the number of the call, the type whose text they take, and words.
const ASKED: [(&str, u32, u32, &str); 26] = [
    ("Connection::contains", 0, 12, "absent"),
    ("Vary::is_any", 1, 11, ""),
    ("Vary::iter_strs", 2, 11, ""),
    ("TransferEncoding::is_chunked", 3, 13, ""),
    ("Cookie::get of an absent name", 4, 14, "absent"),
    ("Cookie::iter", 5, 14, ""),
    ("IfNoneMatch::precondition_passes", 6, 9, "\"absent\""),
    ("IfNoneMatch decoded and asked", 7, 9, "\"absent\""),
    ("IfMatch::precondition_passes", 8, 8, "\"absent\""),
    ("IfMatch decoded and asked", 9, 8, "\"absent\""),
    ("IfRange::is_modified", 10, 10, "\"absent\""),
    ("Server::from_str", 11, 16, ""),
    ("Vary decoded and iterated", 12, 11, ""),
    ("SecWebsocketAccept::from", 13, 29, ""),
    ("Mime::parse", 14, 28, ""),
    ("Range::satisfiable_ranges", 15, 19, ""),
    ("AccessControlAllowHeaders::iter", 16, 24, ""),
    ("AccessControlAllowMethods::iter", 17, 25, ""),
    ("Allow::iter", 18, 30, ""),
    ("ContentRange's parts", 19, 20, ""),
    ("Origin's parts", 20, 21, ""),
    ("Host's parts", 21, 22, ""),
    ("AccessControlAllowOrigin::origin", 22, 23, ""),
    ("Basic's parts", 23, 26, ""),
    ("Bearer::token", 24, 27, ""),
    ("CacheControl's directives", 25, 4, ""),
];

const LISTS: [(&str, &str); 5] = [
    ("of commas", ","),
    ("of quotes", "\""),
    ("of quotes and commas in turn", "\","),
    ("of spaces", " "),
    ("of items in quotes", "\"a,\",b,"),
];

const OVER_MAPS: [(&str, u32); 6] = [
    ("typed_get", 0),
    ("typed_get of an absent name", 1),
    ("six of typed_get", 2),
    ("typed_insert of a length", 3),
    ("typed_insert of directives", 4),
    ("a map made", 5),
];

/// Calls `run` with each call's name, the bytes of its text, its kind, its number, the text and the words.
pub fn all(mut run: impl FnMut(&str, usize, u32, u32, &str, &str)) {
    for bytes in SIZES {
        for op in 0..=33 {
            let (name, text) = decoded(op, bytes);
            run(&format!("decode {name}"), bytes, DECODE, op, &text, "");
            run(&format!("encode {name}"), bytes, ENCODE, op, &text, "");
        }
        for (name, op, of, words) in ASKED {
            run(name, bytes, ASK, op, &decoded(of, bytes).1, words);
        }
        for (name, part) in LISTS {
            let text = part.repeat(bytes / part.len());
            run(&format!("a list {name}, iterated"), bytes, ASK, 2, &text, "");
            run(&format!("CacheControl {name}"), bytes, DECODE, 4, &text, "");
        }
        for (name, op) in OVER_MAPS {
            let lines = list(bytes, "", "\n", |_| "x-name: value".to_string());
            run(&format!("{name}, one name"), bytes, MAP, op, &lines, "");
            if bytes <= MOST_BYTES_OF_NAMES {
                let lines = list(bytes, "", "\n", |at| format!("x-name-{at}: value"));
                run(&format!("{name}, many names"), bytes, MAP, op, &lines, "");
            }
        }
    }
}
