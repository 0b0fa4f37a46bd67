//! The calls.

use std::cmp::Ordering;
use std::fmt::Display;
use std::str::FromStr;
use std::time::Duration;

use headers::authorization::{Basic, Bearer};
use headers::*;
use http::uri::Authority;
use http::{HeaderMap, HeaderValue, Method};
use mime::Mime;

use crate::getters::{show, show_back, Getters, POLICIES};
use crate::words::{Answer, Arguments, Failure};

type Made = Result<(), Failure>;

/// An iterator that says it has exactly one item.
struct OneHint<I>(I);

impl<I: Iterator> Iterator for OneHint<I> {
    type Item = I::Item;

    fn next(&mut self) -> Option<I::Item> {
        self.0.next()
    }

    fn size_hint(&self) -> (usize, Option<usize>) {
        (1, Some(1))
    }
}

fn eq<H: Header + PartialEq>(arguments: &mut Arguments, answer: &mut Answer) -> Made {
    let first: H = arguments.header()?;
    let second: H = arguments.header()?;
    answer.word(first == second);
    Ok(())
}

fn cmp<H: Header + PartialOrd>(arguments: &mut Arguments, answer: &mut Answer) -> Made {
    let first: H = arguments.header()?;
    let second: H = arguments.header()?;
    answer.option(first.partial_cmp(&second).map(|order| match order {
        Ordering::Less => "less",
        Ordering::Equal => "equal",
        Ordering::Greater => "greater",
    }));
    Ok(())
}

fn from_str<H: Getters + PartialEq + FromStr>(
    arguments: &mut Arguments,
    answer: &mut Answer,
) -> Made {
    let header: H = arguments.text()?.parse().map_err(|_| Failure::Refused)?;
    show_back(&header, answer);
    Ok(())
}

/// The header of the lines under its name in a map that has other names before and after it.
fn typed_try_get<H: Getters>(arguments: &mut Arguments, answer: &mut Answer) -> Made {
    let mut map = HeaderMap::new();
    map.append("x-before", HeaderValue::from_static("1"));
    for line in arguments.lines()? {
        map.append(H::name(), line);
    }
    map.append("x-after", HeaderValue::from_static("2"));
    let tried = map.typed_try_get::<H>();
    if map.typed_get::<H>().is_some() != matches!(tried, Ok(Some(_))) {
        answer.word("typed_get");
        return Ok(());
    }
    match tried.map_err(|_| Failure::Refused)? {
        Some(header) => show(&header, answer),
        None => answer.none(),
    }
    Ok(())
}

/// The lines under the header's name once the header of the first lines is put in a map that has the
/// others.
fn typed_insert<H: Getters>(arguments: &mut Arguments, answer: &mut Answer) -> Made {
    let count = usize::try_from(arguments.number()?).map_err(|_| Failure::NoCall)?;
    let lines = arguments.lines()?;
    if count > lines.len() {
        return Err(Failure::NoCall);
    }
    let (first, others) = lines.split_at(count);
    let header = H::decode(&mut first.iter()).map_err(|_| Failure::Refused)?;
    let mut map = HeaderMap::new();
    for line in others {
        map.append(H::name(), line.clone());
    }
    map.typed_insert(header);
    answer.list(map.get_all(H::name()));
    Ok(())
}

/// A call that every header has.
fn common<H: Getters>(call: &str, arguments: &mut Arguments, answer: &mut Answer) -> Made {
    match call {
        "name" => answer.bytes(H::name().as_str()),
        "decode" => show(&arguments.header_of_rest::<H>()?, answer),
        "decode_one_hint" => {
            let lines = arguments.lines()?;
            let header = H::decode(&mut OneHint(lines.iter())).map_err(|_| Failure::Refused)?;
            show(&header, answer);
        }
        "typed_try_get" => return typed_try_get::<H>(arguments, answer),
        "typed_insert" => return typed_insert::<H>(arguments, answer),
        _ => return Err(Failure::NoCall),
    }
    Ok(())
}

/// A call of a type: one of those that follow it, or one that every header has.
fn of_type(name: &str, call: &str, arguments: &mut Arguments, answer: &mut Answer) -> Made {
    macro_rules! types {
        ($($name:literal $type:ty: $($own:ident)*;)*) => {
            match name {
                $($name => match call {
                    $(own if own == stringify!($own) => $own::<$type>(arguments, answer),)*
                    _ => common::<$type>(call, arguments, answer),
                },)*
                _ => Err(Failure::NoCall),
            }
        };
    }
    types! {
        "AcceptRanges" AcceptRanges: eq;
        "AccessControlAllowCredentials" AccessControlAllowCredentials: eq;
        "AccessControlAllowHeaders" AccessControlAllowHeaders: eq;
        "AccessControlAllowMethods" AccessControlAllowMethods: eq;
        "AccessControlAllowOrigin" AccessControlAllowOrigin: eq;
        "AccessControlExposeHeaders" AccessControlExposeHeaders:;
        "AccessControlMaxAge" AccessControlMaxAge: eq cmp;
        "AccessControlRequestHeaders" AccessControlRequestHeaders:;
        "AccessControlRequestMethod" AccessControlRequestMethod: eq;
        "Age" Age: eq cmp;
        "Allow" Allow: eq;
        "AuthorizationBasic" Authorization<Basic>: eq;
        "AuthorizationBearer" Authorization<Bearer>: eq;
        "CacheControl" CacheControl: eq;
        "Connection" Connection:;
        "ContentDisposition" ContentDisposition:;
        "ContentEncoding" ContentEncoding:;
        "ContentLength" ContentLength: eq;
        "ContentLocation" ContentLocation: eq;
        "ContentRange" ContentRange: eq;
        "ContentType" ContentType: eq;
        "Cookie" Cookie:;
        "Date" Date: eq cmp;
        "ETag" ETag: eq from_str;
        "Expect" Expect: eq;
        "Expires" Expires: eq cmp;
        "Host" Host: eq cmp;
        "IfMatch" IfMatch: eq;
        "IfModifiedSince" IfModifiedSince: eq cmp;
        "IfNoneMatch" IfNoneMatch: eq;
        "IfRange" IfRange: eq;
        "IfUnmodifiedSince" IfUnmodifiedSince: eq cmp;
        "LastModified" LastModified: eq cmp;
        "Location" Location: eq;
        "Origin" Origin: eq;
        "Pragma" Pragma: eq;
        "ProxyAuthorizationBasic" ProxyAuthorization<Basic>: eq;
        "ProxyAuthorizationBearer" ProxyAuthorization<Bearer>: eq;
        "Range" Range: eq;
        "Referer" Referer: eq from_str;
        "ReferrerPolicy" ReferrerPolicy: eq;
        "RetryAfter" RetryAfter: eq;
        "SecWebsocketAccept" SecWebsocketAccept: eq;
        "SecWebsocketKey" SecWebsocketKey: eq;
        "SecWebsocketVersion" SecWebsocketVersion: eq;
        "Server" Server: eq cmp from_str;
        "SetCookie" SetCookie:;
        "StrictTransportSecurity" StrictTransportSecurity: eq;
        "Te" Te: eq;
        "TransferEncoding" TransferEncoding:;
        "Upgrade" Upgrade: eq;
        "UserAgent" UserAgent: eq cmp from_str;
        "Vary" Vary: eq;
    }
}

/// The value with the setters of the words, in their order.
fn with_setters(arguments: &mut Arguments) -> Result<CacheControl, Failure> {
    let mut value = CacheControl::new();
    for word in arguments.rest() {
        let (setter, number) = word.split_once('=').unwrap_or((word, "0"));
        let seconds = number.parse().map_err(|_| Failure::NoCall)?;
        let duration = Duration::from_secs(seconds);
        value = match setter {
            "no_cache" => value.with_no_cache(),
            "no_store" => value.with_no_store(),
            "no_transform" => value.with_no_transform(),
            "only_if_cached" => value.with_only_if_cached(),
            "public" => value.with_public(),
            "private" => value.with_private(),
            "immutable" => value.with_immutable(),
            "must_revalidate" => value.with_must_revalidate(),
            "must_understand" => value.with_must_understand(),
            "max_age" => value.with_max_age(duration),
            "max_stale" => value.with_max_stale(duration),
            "min_fresh" => value.with_min_fresh(duration),
            "s_max_age" => value.with_s_max_age(duration),
            _ => return Err(Failure::NoCall),
        };
    }
    Ok(value)
}

fn show_mime(media_type: &Mime, answer: &mut Answer) {
    answer.bytes(media_type.as_ref());
    answer.word(media_type.as_ref() == media_type.to_string());
}

/// The text of an error, by a call that is refused with it.
fn display(name: &str, answer: &mut Answer) -> Made {
    fn text_of<T>(refused: Result<T, impl Display>) -> String {
        refused.err().expect("the call is refused").to_string()
    }
    answer.bytes(match name {
        "Error" => text_of(Age::decode(&mut std::iter::empty())),
        "InvalidBearerToken" => text_of(Authorization::bearer("\n")),
        "InvalidContentRange" => text_of(ContentRange::bytes(.., None)),
        "InvalidETag" => text_of("x".parse::<ETag>()),
        "InvalidOrigin" => text_of(Origin::try_from_parts("http", "a b", None)),
        "InvalidRange" => text_of(Range::bytes(..)),
        "InvalidReferer" => text_of("\n".parse::<Referer>()),
        "InvalidServer" => text_of("\n".parse::<Server>()),
        "InvalidUserAgent" => text_of("\n".parse::<UserAgent>()),
        _ => return Err(Failure::NoCall),
    });
    Ok(())
}

/// Makes a call, and adds its answer.
pub fn call(name: &str, arguments: &mut Arguments, answer: &mut Answer) -> Made {
    match name {
        "display" => return display(arguments.word()?, answer),

        "AcceptRanges.bytes" => show(&AcceptRanges::bytes(), answer),
        "AcceptRanges.none" => show(&AcceptRanges::none(), answer),

        "AccessControlAllowCredentials.unit" => show(&AccessControlAllowCredentials, answer),

        "AccessControlAllowHeaders.from_iter" => {
            show(&arguments.names::<AccessControlAllowHeaders>()?, answer);
        }

        "AccessControlAllowMethods.from_iter" => {
            show(&arguments.methods::<AccessControlAllowMethods>()?, answer);
        }

        "AccessControlAllowOrigin.ANY" => show(&AccessControlAllowOrigin::ANY, answer),
        "AccessControlAllowOrigin.NULL" => show(&AccessControlAllowOrigin::NULL, answer),
        "AccessControlAllowOrigin.try_from_str" => {
            let text = arguments.text()?;
            let header = AccessControlAllowOrigin::try_from(text.as_str());
            show(&header.map_err(|_| Failure::Refused)?, answer);
        }

        "AccessControlExposeHeaders.from_iter" => {
            show(&arguments.names::<AccessControlExposeHeaders>()?, answer);
        }

        "AccessControlMaxAge.from_duration" => {
            show(&AccessControlMaxAge::from(arguments.duration()?), answer);
        }

        "AccessControlRequestHeaders.from_iter" => {
            show(&arguments.names::<AccessControlRequestHeaders>()?, answer);
        }

        "AccessControlRequestMethod.from_method" => {
            let method = Method::from_bytes(&arguments.bytes()?).map_err(|_| Failure::Refused)?;
            show(&AccessControlRequestMethod::from(method), answer);
        }

        "Age.from_secs" => show(&Age::from_secs(arguments.number()?), answer),
        "Age.from_duration" => show(&Age::from(arguments.duration()?), answer),

        "Allow.from_iter" => show(&arguments.methods::<Allow>()?, answer),

        "Authorization.basic" => {
            let user = arguments.text()?;
            let password = arguments.text()?;
            show_back(&Authorization::basic(&user, &password), answer);
        }
        "Authorization.bearer" => {
            let header = Authorization::bearer(&arguments.text()?);
            show_back(&header.map_err(|_| Failure::Refused)?, answer);
        }

        "CacheControl.with" => show_back(&with_setters(arguments)?, answer),

        "Connection.close" => show(&Connection::close(), answer),
        "Connection.keep_alive" => show(&Connection::keep_alive(), answer),
        "Connection.upgrade" => show(&Connection::upgrade(), answer),
        "Connection.from_iter" => show(&arguments.names::<Connection>()?, answer),
        "Connection.contains" => {
            let text = arguments.text()?;
            let header: Connection = arguments.header_of_rest()?;
            answer.word(header.contains(text.as_str()));
        }
        "Connection.contains_name" => {
            let name = arguments.name()?;
            let header: Connection = arguments.header_of_rest()?;
            answer.word(header.contains(name));
        }

        "ContentDisposition.inline" => show(&ContentDisposition::inline(), answer),

        "ContentEncoding.gzip" => show(&ContentEncoding::gzip(), answer),
        "ContentEncoding.brotli" => show(&ContentEncoding::brotli(), answer),
        "ContentEncoding.zstd" => show(&ContentEncoding::zstd(), answer),
        "ContentEncoding.contains" => {
            let text = arguments.text()?;
            let header: ContentEncoding = arguments.header_of_rest()?;
            answer.word(header.contains(text.as_str()));
        }

        "ContentLength.new" => show(&ContentLength(arguments.number()?), answer),

        "ContentRange.bytes" => {
            let range = (arguments.bound()?, arguments.bound()?);
            let header = ContentRange::bytes(range, arguments.optional_number()?);
            show_back(&header.map_err(|_| Failure::Refused)?, answer);
        }
        "ContentRange.unsatisfied_bytes" => {
            show_back(
                &ContentRange::unsatisfied_bytes(arguments.number()?),
                answer,
            );
        }

        "ContentType.json" => show(&ContentType::json(), answer),
        "ContentType.text" => show(&ContentType::text(), answer),
        "ContentType.text_utf8" => show(&ContentType::text_utf8(), answer),
        "ContentType.html" => show(&ContentType::html(), answer),
        "ContentType.xml" => show(&ContentType::xml(), answer),
        "ContentType.form_url_encoded" => show(&ContentType::form_url_encoded(), answer),
        "ContentType.jpeg" => show(&ContentType::jpeg(), answer),
        "ContentType.png" => show(&ContentType::png(), answer),
        "ContentType.octet_stream" => show(&ContentType::octet_stream(), answer),
        "ContentType.from_str" => {
            let header: Result<ContentType, _> = arguments.text()?.parse();
            show(&header.map_err(|_| Failure::Refused)?, answer);
        }

        "Cookie.get" => {
            let key = arguments.text()?;
            let header: Cookie = arguments.header_of_rest()?;
            match header.get(&key) {
                Some(text) => answer.bytes(text),
                None => answer.none(),
            }
        }

        "Date.from_unix_secs" => show(&Date::from(arguments.time()?), answer),

        "ETag.compare" => {
            let first = arguments.tag()?;
            let second = arguments.tag()?;
            answer.word(IfMatch::from(first.clone()).precondition_passes(&second));
            answer.word(IfNoneMatch::from(first.clone()).precondition_passes(&second));
            answer.word(IfRange::etag(first).is_modified(Some(&second), None));
        }

        "Expect.CONTINUE" => show(&Expect::CONTINUE, answer),

        "Expires.from_unix_secs" => show(&Expires::from(arguments.time()?), answer),

        "Host.from_authority" => {
            let authority = Authority::try_from(arguments.bytes()?.as_slice());
            show(
                &Host::from(authority.map_err(|_| Failure::Refused)?),
                answer,
            );
        }

        "IfMatch.any" => show(&IfMatch::any(), answer),
        "IfMatch.from_etag" => show(&IfMatch::from(arguments.tag()?), answer),
        "IfMatch.any_passes" => answer.word(IfMatch::any().precondition_passes(&arguments.tag()?)),
        "IfMatch.precondition_passes" => {
            let tag = arguments.tag()?;
            let header: IfMatch = arguments.header_of_rest()?;
            answer.word(header.precondition_passes(&tag));
        }

        "IfModifiedSince.from_unix_secs" => show(&IfModifiedSince::from(arguments.time()?), answer),
        "IfModifiedSince.is_modified" => {
            let header = IfModifiedSince::from(arguments.time()?);
            answer.word(header.is_modified(arguments.time()?));
        }

        "IfNoneMatch.any" => show(&IfNoneMatch::any(), answer),
        "IfNoneMatch.from_etag" => show(&IfNoneMatch::from(arguments.tag()?), answer),
        "IfNoneMatch.any_passes" => {
            answer.word(IfNoneMatch::any().precondition_passes(&arguments.tag()?));
        }
        "IfNoneMatch.precondition_passes" => {
            let tag = arguments.tag()?;
            let header: IfNoneMatch = arguments.header_of_rest()?;
            answer.word(header.precondition_passes(&tag));
        }

        "IfRange.date" => show(&IfRange::date(arguments.time()?), answer),
        "IfRange.etag" => show(&IfRange::etag(arguments.tag()?), answer),
        "IfRange.is_modified" => {
            let header: IfRange = arguments.header()?;
            let tag = arguments.optional_tag()?;
            let date = arguments.optional_time()?.map(LastModified::from);
            answer.word(header.is_modified(tag.as_ref(), date.as_ref()));
        }

        "IfUnmodifiedSince.from_unix_secs" => {
            show(&IfUnmodifiedSince::from(arguments.time()?), answer);
        }
        "IfUnmodifiedSince.precondition_passes" => {
            let header = IfUnmodifiedSince::from(arguments.time()?);
            answer.word(header.precondition_passes(arguments.time()?));
        }

        "LastModified.from_unix_secs" => show(&LastModified::from(arguments.time()?), answer),

        "Mime.APPLICATION_JSON" => show_mime(&mime::APPLICATION_JSON, answer),
        "Mime.APPLICATION_OCTET_STREAM" => show_mime(&mime::APPLICATION_OCTET_STREAM, answer),
        "Mime.APPLICATION_WWW_FORM_URLENCODED" => {
            show_mime(&mime::APPLICATION_WWW_FORM_URLENCODED, answer);
        }
        "Mime.IMAGE_JPEG" => show_mime(&mime::IMAGE_JPEG, answer),
        "Mime.IMAGE_PNG" => show_mime(&mime::IMAGE_PNG, answer),
        "Mime.TEXT_HTML" => show_mime(&mime::TEXT_HTML, answer),
        "Mime.TEXT_PLAIN" => show_mime(&mime::TEXT_PLAIN, answer),
        "Mime.TEXT_PLAIN_UTF_8" => show_mime(&mime::TEXT_PLAIN_UTF_8, answer),
        "Mime.TEXT_XML" => show_mime(&mime::TEXT_XML, answer),
        "Mime.parse" => {
            let media_type: Result<Mime, _> = arguments.text()?.parse();
            show_mime(&media_type.map_err(|_| Failure::Refused)?, answer);
        }

        "Origin.NULL" => show(&Origin::NULL, answer),
        "Origin.try_from_parts" => {
            let scheme = arguments.text()?;
            let host = arguments.text()?;
            let header = Origin::try_from_parts(&scheme, &host, arguments.port()?);
            show(&header.map_err(|_| Failure::Refused)?, answer);
        }

        "Pragma.no_cache" => show(&Pragma::no_cache(), answer),

        "Range.bytes" => {
            let header = Range::bytes((arguments.bound()?, arguments.bound()?));
            show(&header.map_err(|_| Failure::Refused)?, answer);
        }
        "Range.satisfiable_ranges" => {
            let length = arguments.number()?;
            let header: Range = arguments.header()?;
            let ranges: Vec<_> = header.satisfiable_ranges(length).collect();
            answer.word(ranges.len());
            for (first, last) in ranges {
                answer.bound(first);
                answer.bound(last);
            }
        }

        "ReferrerPolicy.const" => {
            let name = arguments.word()?;
            let policy = POLICIES.iter().find(|policy| policy.0 == name);
            show(&policy.ok_or(Failure::NoCall)?.1, answer);
        }

        "RetryAfter.date" => show(&RetryAfter::date(arguments.time()?), answer),
        "RetryAfter.delay" => show(&RetryAfter::delay(arguments.duration()?), answer),

        "SecWebsocketAccept.from_key" => {
            show(
                &SecWebsocketAccept::from(arguments.header::<SecWebsocketKey>()?),
                answer,
            );
        }

        "SecWebsocketKey.from_bytes16" => {
            let bytes = <[u8; 16]>::try_from(arguments.bytes()?).map_err(|_| Failure::NoCall)?;
            show(&SecWebsocketKey::from(bytes), answer);
        }

        "SecWebsocketVersion.V13" => show(&SecWebsocketVersion::V13, answer),

        "StrictTransportSecurity.excluding_subdomains" => {
            let header = StrictTransportSecurity::excluding_subdomains(arguments.duration()?);
            show(&header, answer);
        }
        "StrictTransportSecurity.including_subdomains" => {
            let header = StrictTransportSecurity::including_subdomains(arguments.duration()?);
            show(&header, answer);
        }

        "Te.trailers" => show(&Te::trailers(), answer),

        "TransferEncoding.chunked" => show(&TransferEncoding::chunked(), answer),

        "Upgrade.websocket" => show(&Upgrade::websocket(), answer),

        "Vary.any" => show(&Vary::any(), answer),
        "Vary.from_name" => show(&Vary::from(arguments.name()?), answer),
        "Vary.from_iter" => show(&arguments.names::<Vary>()?, answer),

        _ => {
            let (name, call) = name.split_once('.').ok_or(Failure::NoCall)?;
            return of_type(name, call, arguments, answer);
        }
    }
    Ok(())
}
