//! The calls of `typed_headers.h`, as it documents them. The crate `typed-headers` has safe functions over them.
#![no_std]

use core::ffi::c_char;

#[repr(C)]
#[derive(Clone, Copy, Debug)]
pub struct Keys {
    pub first: u64,
    pub second: u64,
}

#[repr(C)]
#[derive(Clone, Copy, Debug)]
pub struct Target {
    pub etag: Text,
    pub last_modified: u64,
    pub present: u64,
    pub exists: bool,
    pub has_last_modified: bool,
    pub is_date_strong: bool,
}

#[repr(C)]
#[derive(Clone, Copy, Debug, Default)]
pub struct DirectiveSeconds {
    pub seconds: u64,
    pub is_set: u8,
}

#[repr(C)]
#[derive(Clone, Copy, Debug, Default)]
pub struct CacheDirectives {
    pub max_age: DirectiveSeconds,
    pub max_stale: DirectiveSeconds,
    pub min_fresh: DirectiveSeconds,
    pub s_maxage: DirectiveSeconds,
    pub no_cache: u8,
    pub no_store: u8,
    pub no_transform: u8,
    pub only_if_cached: u8,
    pub must_revalidate: u8,
    pub must_understand: u8,
    pub is_public: u8,
    pub is_private: u8,
    pub immutable: u8,
    pub proxy_revalidate: u8,
}

#[repr(C)]
#[derive(Clone, Copy, Debug, Default, PartialEq, Eq, Hash)]
pub struct BytesRange {
    pub first: u64,
    pub last: u64,
}

#[repr(C)]
#[derive(Clone, Copy, Debug, Default, PartialEq, Eq, Hash)]
pub struct ContentRange {
    pub first: u64,
    pub last: u64,
    pub length: u64,
    pub has_range: u8,
    pub has_length: u8,
}

#[repr(C)]
#[derive(Clone, Copy, Debug)]
pub struct Text {
    pub bytes: *const u8,
    pub length: usize,
}

#[repr(C)]
#[derive(Clone, Copy, Debug)]
pub struct Request {
    pub method: Text,
    pub section: Text,
}

#[repr(C)]
#[derive(Clone, Copy, Debug)]
pub struct Message {
    pub method: Text,
    pub section: Text,
    pub status: u16,
    pub version: u8,
}

#[repr(C)]
#[derive(Clone, Copy, Debug)]
pub struct Content {
    pub media_type: Text,
    pub boundary: Text,
    pub length: u64,
    pub has_length: bool,
    pub sends_ranges: bool,
}

#[repr(C)]
#[derive(Clone, Copy, Debug, Default, PartialEq, Eq, Hash)]
pub struct Response {
    pub status: u16,
    pub keeps_encoding: u8,
}

#[repr(C)]
#[derive(Clone, Copy, Debug, Default, PartialEq, Eq, Hash)]
pub struct Quality {
    pub weight: u16,
    pub is_acceptable: u8,
}

#[repr(C)]
#[derive(Clone, Copy, Debug)]
pub struct WebsocketRules {
    pub protocols: Text,
    pub origins: Text,
}

#[repr(C)]
#[derive(Clone, Copy, Debug)]
pub struct WebsocketExchange {
    pub sent: Text,
    pub response: Text,
    pub status: u16,
}

#[repr(C)]
#[derive(Clone, Copy, Debug, Default, PartialEq, Eq, Hash)]
pub struct Handshake {
    pub status: u16,
    pub fault: u8,
}

#[repr(C)]
#[derive(Clone, Copy, Debug)]
pub struct CorsRules {
    pub origins: Text,
    pub methods: Text,
    pub headers: Text,
    pub exposed: Text,
    pub max_age: u64,
    pub has_max_age: bool,
    pub credentials: bool,
}

#[repr(C)]
#[derive(Clone, Copy, Debug)]
pub struct CorsExchange {
    pub method: Text,
    pub response: Text,
}

#[repr(C)]
#[derive(Clone, Copy, Debug, Default)]
pub struct CorsFacts {
    pub kind: u8,
    pub is_allowed: u8,
}

#[repr(C)]
#[derive(Clone, Copy, Debug)]
pub struct Resource {
    pub hosts: Text,
    pub methods: Text,
    pub creating: Text,
    pub guarded: Text,
    pub accept: Text,
    pub accept_encoding: Text,
    pub location: Text,
    pub media_types: Text,
    pub languages: Text,
    pub codings: Text,
    pub etags: Text,
    pub boundary: Text,
    pub implemented: Text,
    pub limit: u64,
    pub state: u16,
    pub by_media_type: bool,
    pub by_language: bool,
    pub by_coding: bool,
    pub is_strict: bool,
    pub needs_length: bool,
    pub has_limit: bool,
    pub has_cors: bool,
    pub has_implemented: bool,
    pub has_strong_dates: bool,
}

#[repr(C)]
#[derive(Clone, Copy, Debug, Default)]
pub struct Representation {
    pub length: u64,
    pub last_modified: u64,
    pub has_length: bool,
    pub sends_ranges: bool,
    pub has_last_modified: bool,
    pub is_date_strong: bool,
}

#[repr(C)]
#[derive(Clone, Copy, Debug)]
pub struct ResourceRequest {
    pub method: Text,
    pub target: Text,
    pub present: u64,
    pub length: u64,
    pub version: u8,
    pub has_content: bool,
    pub has_length: bool,
}

#[repr(C)]
#[derive(Clone, Copy, Debug)]
pub struct Denial {
    pub challenge: Text,
    pub retry_after: u64,
    pub status: u16,
    pub has_retry_after: bool,
}

#[repr(C)]
#[derive(Clone, Copy, Debug, Default, PartialEq, Eq, Hash)]
pub struct ResourceFacts {
    pub place: usize,
    pub status: u16,
    pub reason: u8,
    pub sends: u8,
    pub has_place: u8,
}

#[repr(C)]
#[derive(Clone, Copy, Debug, PartialEq, Eq, Hash)]
pub struct Moments {
    pub request: u64,
    pub response: u64,
    pub now: u64,
}

#[repr(C)]
#[derive(Clone, Copy, Debug)]
pub struct Stored {
    pub method: Text,
    pub request: Text,
    pub response: Text,
}

#[repr(C)]
#[derive(Clone, Copy, Debug)]
pub struct Gateway {
    pub name: Text,
    pub protected_fields: Text,
    pub consumes_credentials: bool,
    pub passes_underscores: bool,
}

#[repr(C)]
#[derive(Clone, Copy, Debug)]
pub struct Hop {
    pub client: Text,
    pub interface_node: Text,
    pub client_port: u16,
    pub interface_port: u16,
    pub server_version: u8,
    pub is_secure: bool,
    pub is_trusted: bool,
    pub writes_forwarded: bool,
    pub writes_x_forwarded: bool,
    pub tells_host: bool,
    pub closes: bool,
    pub accepts_trailers: bool,
}

#[repr(C)]
#[derive(Clone, Copy, Debug, Default, PartialEq, Eq, Hash)]
pub struct Framing {
    pub length: u64,
    pub kind: u8,
}

#[repr(C)]
#[derive(Clone, Copy, Debug, Default, PartialEq, Eq, Hash)]
pub struct RequestOutcome {
    pub framing: Framing,
    pub status: u16,
    pub action: u8,
    pub reason: u8,
    pub sends_continue: u8,
}

#[repr(C)]
#[derive(Clone, Copy, Debug, Default, PartialEq, Eq, Hash)]
pub struct ResponseOutcome {
    pub received: Framing,
    pub sent: Framing,
    pub status: u16,
    pub action: u8,
    pub reason: u8,
}

#[repr(C)]
#[derive(Clone, Copy, Debug, Default, PartialEq, Eq, Hash)]
pub struct FramingOutcome {
    pub framing: Framing,
    pub status: u16,
    pub reason: u8,
}

/// A cache. Zero bytes are a closed one.
#[repr(C)]
#[derive(Debug)]
pub struct Cache {
    pub place: *mut core::ffi::c_void,
    pub is_open: bool,
}

/// The handle of a section. Zero bytes are a closed one.
#[repr(C)]
#[derive(Debug)]
pub struct Section {
    pub place: *mut core::ffi::c_void,
    pub is_open: bool,
}

/// The handle of a policy for requests from other origins. Zero bytes are a closed one.
#[repr(C)]
#[derive(Debug)]
pub struct CorsPolicy {
    pub place: *mut core::ffi::c_void,
    pub is_open: bool,
}

/// The handle of a resource. Zero bytes are a closed one.
#[repr(C)]
#[derive(Debug)]
pub struct ResourceHandle {
    pub place: *mut core::ffi::c_void,
    pub is_open: bool,
}

/// The connection of a server. Zero bytes are a closed one.
#[repr(C)]
#[derive(Debug)]
pub struct Connection {
    pub place: *mut core::ffi::c_void,
    pub is_open: bool,
}

/// What a gateway does with each request. Zero bytes are a closed handle.
#[repr(C)]
#[derive(Debug)]
pub struct GateRules {
    pub place: *mut core::ffi::c_void,
    pub is_open: bool,
}

/// A gateway's connection to a client, and at most one to an origin. Zero bytes are a closed one.
#[repr(C)]
#[derive(Debug)]
pub struct Gate {
    pub place: *mut core::ffi::c_void,
    pub is_open: bool,
}

/// A gateway's connections to origins. Zero bytes are a closed one.
#[repr(C)]
#[derive(Debug)]
pub struct GatePool {
    pub place: *mut core::ffi::c_void,
    pub is_open: bool,
}

/// The rules of such a pool.
#[repr(C)]
#[derive(Clone, Copy, Debug)]
pub struct GatePoolOptions {
    pub origins: usize,
    pub failures: u64,
    pub pause: u64,
    pub most: u64,
    pub idle: u64,
    pub hashes: bool,
}

/// Where a request goes out.
#[repr(C)]
#[derive(Clone, Copy, Debug, Default)]
pub struct GateLease {
    pub connection: u64,
    pub origin: usize,
    pub kind: u8,
}

/// A connection to an origin by itself. Zero bytes are a closed one.
#[repr(C)]
#[derive(Debug)]
pub struct GateOrigin {
    pub place: *mut core::ffi::c_void,
    pub is_open: bool,
}

/// What a gateway does beside what it is to messages.
#[repr(C)]
#[derive(Clone, Copy, Debug)]
pub struct GateOptions {
    pub authority: Text,
    pub writes_forwarded: bool,
    pub writes_x_forwarded: bool,
    pub answers_expect: bool,
    pub passes_websocket: bool,
    pub passes_connect: bool,
}

/// The client of a gateway's connection.
#[repr(C)]
#[derive(Clone, Copy, Debug)]
pub struct GatePeer {
    pub node: Text,
    pub port: u16,
    pub is_secure: bool,
    pub is_trusted: bool,
}

/// What comes next on a gateway's connection, and what to wait for.
#[repr(C)]
#[derive(Clone, Copy, Debug, Default)]
pub struct GateFacts {
    pub piece: u64,
    pub event: u8,
    pub phase: u8,
    pub client_input: bool,
    pub client_output: bool,
    pub origin_input: bool,
    pub origin_output: bool,
    pub ends_client: bool,
    pub ends_origin: bool,
}

/// A pass through a cache. Zero bytes are a closed one.
#[repr(C)]
#[derive(Debug)]
pub struct Pass {
    pub place: *mut core::ffi::c_void,
    pub is_open: bool,
}

/// What a service of files does.
#[repr(C)]
#[derive(Clone, Copy, Debug)]
pub struct FilesOptions {
    pub cache_control: Text,
    pub hosts: Text,
    pub boundary: Text,
    pub negotiates: bool,
}

/// The handle of a service of files. Zero bytes are a closed one.
#[repr(C)]
#[derive(Debug)]
pub struct Files {
    pub place: *mut core::ffi::c_void,
    pub is_open: bool,
}

/// What a program found at a path that a service of files told it.
#[repr(C)]
#[derive(Clone, Copy, Debug)]
pub struct Entry {
    pub length: u64,
    pub modified: u64,
    pub device: u64,
    pub inode: u64,
    pub changed: u64,
    pub changed_nanosecond: u64,
    pub kind: u8,
}

/// How much a cache stores, and for whom.
#[repr(C)]
#[derive(Clone, Copy, Debug)]
pub struct CacheOptions {
    pub variants: usize,
    pub responses: usize,
    pub bytes: usize,
    pub guess: u64,
    pub is_shared: bool,
}

/// What a cache does beyond RFC 9111.
#[repr(C)]
#[derive(Clone, Copy, Debug)]
pub struct CacheExtensions {
    pub targets: Text,
    pub immutable: bool,
    pub wait: u64,
}

/// A request to a cache.
#[repr(C)]
#[derive(Clone, Copy, Debug)]
pub struct CacheRequest {
    pub target: Text,
    pub method: Text,
    pub section: Text,
}

/// What is told of a step of a pass.
#[repr(C)]
#[derive(Clone, Copy, Debug, Default)]
pub struct PassFacts {
    pub first: u64,
    pub count: u64,
    pub status: u16,
    pub action: u8,
}

#[repr(C)]
#[derive(Clone, Copy, Debug, Default, PartialEq, Eq, Hash)]
pub struct Port {
    pub number: u16,
    pub is_set: u8,
}

#[repr(C)]
#[derive(Clone, Copy, Debug, Default, PartialEq, Eq, Hash)]
pub struct OriginParts {
    pub scheme_length: usize,
    pub port: Port,
    pub is_null: u8,
}

#[repr(C)]
#[derive(Clone, Copy, Debug, Default, PartialEq, Eq, Hash)]
pub struct TransportSecurity {
    pub max_age: u64,
    pub include_subdomains: u8,
}

#[repr(C)]
#[derive(Clone, Copy, Debug, Default, PartialEq, Eq, Hash)]
pub struct RetryTime {
    pub seconds: u64,
    pub is_date: u8,
}

#[repr(C)]
#[derive(Clone, Copy, Debug, Default, PartialEq, Eq, Hash)]
pub struct StaleDirectives {
    pub while_revalidate: u64,
    pub if_error: u64,
    pub has_while_revalidate: u8,
    pub has_if_error: u8,
}

/// A call that reads one number of the lines of a field.
pub type NumberCall = unsafe extern "C" fn(lines: *const u8, lines_length: usize, number: *mut u64) -> u8;

/// A call that writes bytes, by the lines of a field.
pub type BytesCall = unsafe extern "C" fn(
    lines: *const u8,
    lines_length: usize,
    room: *mut u8,
    room_length: usize,
    written: *mut usize,
) -> u8;

/// A call that compares two entity tags.
pub type TagsCall = unsafe extern "C" fn(
    one: *const u8,
    one_length: usize,
    other: *const u8,
    other_length: usize,
    equal: *mut u8,
) -> u8;

// Written by tools/c_calls from include/calls.txt, to the end.
extern "C" {
    pub fn typed_headers_version() -> *const c_char;
    pub fn typed_headers_status_text(status: u8) -> *const c_char;
    pub fn typed_headers_canonical(
        section: *const u8,
        section_length: usize,
        keys: *const Keys,
        room: *mut u8,
        room_length: usize,
        written: *mut usize,
    ) -> u8;
    pub fn typed_headers_field(
        name: *const u8,
        name_length: usize,
        lines: *const u8,
        lines_length: usize,
        room: *mut u8,
        room_length: usize,
        written: *mut usize,
    ) -> u8;
    pub fn typed_headers_age(lines: *const u8, lines_length: usize, seconds: *mut u64) -> u8;
    pub fn typed_headers_content_length(lines: *const u8, lines_length: usize, length: *mut u64) -> u8;
    pub fn typed_headers_date(lines: *const u8, lines_length: usize, second: *mut u64) -> u8;
    pub fn typed_headers_expires(lines: *const u8, lines_length: usize, second: *mut u64) -> u8;
    pub fn typed_headers_last_modified(lines: *const u8, lines_length: usize, second: *mut u64) -> u8;
    pub fn typed_headers_media_type(
        lines: *const u8,
        lines_length: usize,
        room: *mut u8,
        room_length: usize,
        written: *mut usize,
    ) -> u8;
    pub fn typed_headers_essence(
        lines: *const u8,
        lines_length: usize,
        room: *mut u8,
        room_length: usize,
        written: *mut usize,
    ) -> u8;
    pub fn typed_headers_strong_eq(
        one: *const u8,
        one_length: usize,
        other: *const u8,
        other_length: usize,
        equal: *mut u8,
    ) -> u8;
    pub fn typed_headers_weak_eq(
        one: *const u8,
        one_length: usize,
        other: *const u8,
        other_length: usize,
        equal: *mut u8,
    ) -> u8;
    pub fn typed_headers_cache_control(lines: *const u8, lines_length: usize, directives: *mut CacheDirectives) -> u8;
    pub fn typed_headers_ranges(
        lines: *const u8,
        lines_length: usize,
        length: u64,
        room: *mut BytesRange,
        room_length: usize,
        written: *mut usize,
    ) -> u8;
    pub fn typed_headers_format_date(second: u64, room: *mut u8, room_length: usize, written: *mut usize) -> u8;
    pub fn typed_headers_format_content_range(
        range: *const ContentRange,
        room: *mut u8,
        room_length: usize,
        written: *mut usize,
    ) -> u8;
    pub fn typed_headers_format_etag(
        is_weak: bool,
        opaque: *const u8,
        opaque_length: usize,
        room: *mut u8,
        room_length: usize,
        written: *mut usize,
    ) -> u8;
    pub fn typed_headers_evaluate(
        request: *const Request,
        keys: *const Keys,
        target: *const Target,
        answer: *mut u16,
    ) -> u8;
    pub fn typed_headers_select(
        request: *const Request,
        keys: *const Keys,
        target: *const Target,
        length: u64,
        answer: *mut u16,
        room: *mut BytesRange,
        room_length: usize,
        written: *mut usize,
    ) -> u8;
    pub fn typed_headers_respond(
        request: *const Request,
        keys: *const Keys,
        target: *const Target,
        content: *const Content,
        response: *mut Response,
        parts: *mut BytesRange,
        parts_length: usize,
        parts_written: *mut usize,
        room: *mut u8,
        room_length: usize,
        written: *mut usize,
    ) -> u8;
    pub fn typed_headers_choose_type(
        lines: *const u8,
        lines_length: usize,
        offers: *const u8,
        offers_length: usize,
        place: *mut usize,
    ) -> u8;
    pub fn typed_headers_choose_coding(
        lines: *const u8,
        lines_length: usize,
        offers: *const u8,
        offers_length: usize,
        place: *mut usize,
    ) -> u8;
    pub fn typed_headers_choose_language(
        lines: *const u8,
        lines_length: usize,
        offers: *const u8,
        offers_length: usize,
        place: *mut usize,
    ) -> u8;
    pub fn typed_headers_look_up_language(
        lines: *const u8,
        lines_length: usize,
        offers: *const u8,
        offers_length: usize,
        place: *mut usize,
    ) -> u8;
    pub fn typed_headers_type_quality(
        lines: *const u8,
        lines_length: usize,
        offer: *const u8,
        offer_length: usize,
        quality: *mut Quality,
    ) -> u8;
    pub fn typed_headers_coding_quality(
        lines: *const u8,
        lines_length: usize,
        offer: *const u8,
        offer_length: usize,
        quality: *mut Quality,
    ) -> u8;
    pub fn typed_headers_language_quality(
        lines: *const u8,
        lines_length: usize,
        offer: *const u8,
        offer_length: usize,
        quality: *mut Quality,
    ) -> u8;
    pub fn typed_headers_websocket_accept(
        lines: *const u8,
        lines_length: usize,
        room: *mut u8,
        room_length: usize,
        written: *mut usize,
    ) -> u8;
    pub fn typed_headers_websocket_respond(
        request: *const Request,
        version: u8,
        keys: *const Keys,
        rules: *const WebsocketRules,
        handshake: *mut Handshake,
        room: *mut u8,
        room_length: usize,
        written: *mut usize,
    ) -> u8;
    pub fn typed_headers_websocket_request(
        nonce: *const u8,
        nonce_length: usize,
        room: *mut u8,
        room_length: usize,
        written: *mut usize,
    ) -> u8;
    pub fn typed_headers_websocket_check(exchange: *const WebsocketExchange, keys: *const Keys, flaw: *mut u8) -> u8;
    pub fn typed_headers_cors_answer(
        rules: *const CorsRules,
        request: *const Request,
        response: *const u8,
        response_length: usize,
        keys: *const Keys,
        facts: *mut CorsFacts,
        room: *mut u8,
        room_length: usize,
        written: *mut usize,
    ) -> u8;
    pub fn typed_headers_unsent_origin(origins: *const u8, origins_length: usize, place: *mut usize) -> u8;
    pub fn typed_headers_resource_answer(
        resource: *const Resource,
        representations: *const Representation,
        representations_length: usize,
        rules: *const CorsRules,
        request: *const ResourceRequest,
        denial: *const Denial,
        section: *const u8,
        section_length: usize,
        keys: *const Keys,
        facts: *mut ResourceFacts,
        parts: *mut BytesRange,
        parts_length: usize,
        parts_written: *mut usize,
        room: *mut u8,
        room_length: usize,
        written: *mut usize,
    ) -> u8;
    pub fn typed_headers_may_store(
        request: *const Request,
        status: u16,
        response: *const u8,
        response_length: usize,
        keys: *const Keys,
        is_shared: bool,
        answer: *mut u8,
    ) -> u8;
    pub fn typed_headers_lifetime(
        response: *const u8,
        response_length: usize,
        keys: *const Keys,
        received: u64,
        is_shared: bool,
        seconds: *mut u64,
    ) -> u8;
    pub fn typed_headers_heuristic_lifetime(
        status: u16,
        response: *const u8,
        response_length: usize,
        keys: *const Keys,
        received: u64,
        is_shared: bool,
        seconds: *mut u64,
    ) -> u8;
    pub fn typed_headers_current_age(
        response: *const u8,
        response_length: usize,
        keys: *const Keys,
        moments: *const Moments,
        seconds: *mut u64,
    ) -> u8;
    pub fn typed_headers_decide(
        stored: *const Stored,
        request: *const Request,
        keys: *const Keys,
        moments: *const Moments,
        is_shared: bool,
        decision: *mut u8,
    ) -> u8;
    pub fn typed_headers_validators(
        response: *const u8,
        response_length: usize,
        received: u64,
        keys: *const Keys,
        room: *mut u8,
        room_length: usize,
        written: *mut usize,
    ) -> u8;
    pub fn typed_headers_cache_new(cache: *mut Cache, options: *const CacheOptions, keys: *const Keys) -> u8;
    pub fn typed_headers_cache_new_with(
        cache: *mut Cache,
        options: *const CacheOptions,
        extensions: *const CacheExtensions,
        keys: *const Keys,
    ) -> u8;
    pub fn typed_headers_cache_free(cache: *mut Cache) -> u8;
    pub fn typed_headers_cache_remove(cache: *mut Cache, target: *const u8, target_length: usize) -> u8;
    pub fn typed_headers_forward_request(
        gateway: *const Gateway,
        hop: *const Hop,
        request: *const Request,
        version: u8,
        authority: *const u8,
        authority_length: usize,
        keys: *const Keys,
        outcome: *mut RequestOutcome,
        room: *mut u8,
        room_length: usize,
        written: *mut usize,
    ) -> u8;
    pub fn typed_headers_forward_response(
        gateway: *const Gateway,
        response: *const Message,
        keys: *const Keys,
        client_version: u8,
        received: u64,
        outcome: *mut ResponseOutcome,
        room: *mut u8,
        room_length: usize,
        written: *mut usize,
    ) -> u8;
    pub fn typed_headers_framing(message: *const Message, keys: *const Keys, outcome: *mut FramingOutcome) -> u8;
    pub fn typed_headers_basic(
        lines: *const u8,
        lines_length: usize,
        user_length: *mut usize,
        room: *mut u8,
        room_length: usize,
        written: *mut usize,
    ) -> u8;
    pub fn typed_headers_bearer(
        lines: *const u8,
        lines_length: usize,
        room: *mut u8,
        room_length: usize,
        written: *mut usize,
    ) -> u8;
    pub fn typed_headers_cookie(
        lines: *const u8,
        lines_length: usize,
        name: *const u8,
        name_length: usize,
        room: *mut u8,
        room_length: usize,
        written: *mut usize,
    ) -> u8;
    pub fn typed_headers_cookies(
        lines: *const u8,
        lines_length: usize,
        room: *mut u8,
        room_length: usize,
        written: *mut usize,
    ) -> u8;
    pub fn typed_headers_host(
        lines: *const u8,
        lines_length: usize,
        port: *mut Port,
        room: *mut u8,
        room_length: usize,
        written: *mut usize,
    ) -> u8;
    pub fn typed_headers_origin(
        lines: *const u8,
        lines_length: usize,
        parts: *mut OriginParts,
        room: *mut u8,
        room_length: usize,
        written: *mut usize,
    ) -> u8;
    pub fn typed_headers_strict_transport_security(
        lines: *const u8,
        lines_length: usize,
        policy: *mut TransportSecurity,
    ) -> u8;
    pub fn typed_headers_retry_after(lines: *const u8, lines_length: usize, time: *mut RetryTime) -> u8;
    pub fn typed_headers_stale_directives(
        lines: *const u8,
        lines_length: usize,
        directives: *mut StaleDirectives,
    ) -> u8;
    pub fn typed_headers_directive_arguments(
        lines: *const u8,
        lines_length: usize,
        name: *const u8,
        name_length: usize,
        room: *mut u8,
        room_length: usize,
        written: *mut usize,
    ) -> u8;
    pub fn typed_headers_content_range(lines: *const u8, lines_length: usize, range: *mut ContentRange) -> u8;
    pub fn typed_headers_content_disposition(lines: *const u8, lines_length: usize, disposition: *mut u8) -> u8;
    pub fn typed_headers_members(
        lines: *const u8,
        lines_length: usize,
        room: *mut u8,
        room_length: usize,
        written: *mut usize,
    ) -> u8;
    pub fn typed_headers_has_member(
        lines: *const u8,
        lines_length: usize,
        member: *const u8,
        member_length: usize,
        any_case: bool,
        has: *mut u8,
    ) -> u8;
    pub fn typed_headers_field_parts(
        form: u8,
        lines: *const u8,
        lines_length: usize,
        room: *mut u8,
        room_length: usize,
        written: *mut usize,
    ) -> u8;
    pub fn typed_headers_extended_text(
        value: *const u8,
        value_length: usize,
        room: *mut u8,
        room_length: usize,
        written: *mut usize,
    ) -> u8;
    pub fn typed_headers_format_parameter(
        kind: u8,
        name: *const u8,
        name_length: usize,
        text: *const u8,
        text_length: usize,
        room: *mut u8,
        room_length: usize,
        written: *mut usize,
    ) -> u8;
    pub fn typed_headers_parameter_place(
        names: *const u8,
        names_length: usize,
        name: *const u8,
        name_length: usize,
        place: *mut usize,
    ) -> u8;
    pub fn typed_headers_section_free(fields: *mut Section) -> u8;
    pub fn typed_headers_cors_policy_free(policy: *mut CorsPolicy) -> u8;
    pub fn typed_headers_resource_handle_free(handle: *mut ResourceHandle) -> u8;
    pub fn typed_headers_section_new(
        fields: *mut Section,
        section: *const u8,
        section_length: usize,
        keys: *const Keys,
    ) -> u8;
    pub fn typed_headers_section_field(
        fields: *const Section,
        name: *const u8,
        name_length: usize,
        room: *mut u8,
        room_length: usize,
        written: *mut usize,
    ) -> u8;
    pub fn typed_headers_section_evaluate(
        fields: *const Section,
        method: *const u8,
        method_length: usize,
        target: *const Target,
        answer: *mut u16,
    ) -> u8;
    pub fn typed_headers_section_select(
        fields: *const Section,
        method: *const u8,
        method_length: usize,
        target: *const Target,
        length: u64,
        answer: *mut u16,
        room: *mut BytesRange,
        room_length: usize,
        written: *mut usize,
    ) -> u8;
    pub fn typed_headers_section_respond(
        fields: *const Section,
        method: *const u8,
        method_length: usize,
        target: *const Target,
        content: *const Content,
        response: *mut Response,
        parts: *mut BytesRange,
        parts_length: usize,
        parts_written: *mut usize,
        room: *mut u8,
        room_length: usize,
        written: *mut usize,
    ) -> u8;
    pub fn typed_headers_section_choose_type(
        fields: *const Section,
        offers: *const u8,
        offers_length: usize,
        place: *mut usize,
    ) -> u8;
    pub fn typed_headers_section_choose_coding(
        fields: *const Section,
        offers: *const u8,
        offers_length: usize,
        place: *mut usize,
    ) -> u8;
    pub fn typed_headers_section_choose_language(
        fields: *const Section,
        offers: *const u8,
        offers_length: usize,
        place: *mut usize,
    ) -> u8;
    pub fn typed_headers_cors_policy_new(policy: *mut CorsPolicy, rules: *const CorsRules) -> u8;
    pub fn typed_headers_cors_policy_answer(
        policy: *const CorsPolicy,
        fields: *const Section,
        exchange: *const CorsExchange,
        keys: *const Keys,
        facts: *mut CorsFacts,
        room: *mut u8,
        room_length: usize,
        written: *mut usize,
    ) -> u8;
    pub fn typed_headers_resource_handle_new(
        handle: *mut ResourceHandle,
        resource: *const Resource,
        representations: *const Representation,
        representations_length: usize,
        rules: *const CorsRules,
    ) -> u8;
    pub fn typed_headers_resource_handle_answer(
        handle: *const ResourceHandle,
        fields: *const Section,
        request: *const ResourceRequest,
        denial: *const Denial,
        facts: *mut ResourceFacts,
        parts: *mut BytesRange,
        parts_length: usize,
        parts_written: *mut usize,
        room: *mut u8,
        room_length: usize,
        written: *mut usize,
    ) -> u8;
    pub fn typed_headers_connection_free(connection: *mut Connection) -> u8;
    pub fn typed_headers_connection_new(connection: *mut Connection, most_content: usize, keys: *const Keys) -> u8;
    pub fn typed_headers_connection_next(connection: *mut Connection, event: *mut u8) -> u8;
    pub fn typed_headers_connection_receive(connection: *mut Connection, input: *const u8, input_length: usize) -> u8;
    pub fn typed_headers_connection_finish_input(connection: *mut Connection) -> u8;
    pub fn typed_headers_connection_method(
        connection: *const Connection,
        room: *mut u8,
        room_length: usize,
        written: *mut usize,
    ) -> u8;
    pub fn typed_headers_connection_path(
        connection: *const Connection,
        room: *mut u8,
        room_length: usize,
        written: *mut usize,
    ) -> u8;
    pub fn typed_headers_connection_query(
        connection: *const Connection,
        room: *mut u8,
        room_length: usize,
        written: *mut usize,
    ) -> u8;
    pub fn typed_headers_connection_content(
        connection: *const Connection,
        room: *mut u8,
        room_length: usize,
        written: *mut usize,
    ) -> u8;
    pub fn typed_headers_connection_field(
        connection: *const Connection,
        name: *const u8,
        name_length: usize,
        room: *mut u8,
        room_length: usize,
        written: *mut usize,
    ) -> u8;
    pub fn typed_headers_connection_fields(
        connection: *const Connection,
        room: *mut u8,
        room_length: usize,
        written: *mut usize,
    ) -> u8;
    pub fn typed_headers_connection_version(connection: *const Connection, version: *mut u8) -> u8;
    pub fn typed_headers_connection_plan(connection: *mut Connection, status: u16) -> u8;
    pub fn typed_headers_connection_plan_field(
        connection: *mut Connection,
        name: *const u8,
        name_length: usize,
        value: *const u8,
        value_length: usize,
    ) -> u8;
    pub fn typed_headers_connection_plan_bytes(
        connection: *mut Connection,
        content: *const u8,
        content_length: usize,
    ) -> u8;
    pub fn typed_headers_connection_plan_range(connection: *mut Connection, start: u64, length: u64) -> u8;
    pub fn typed_headers_connection_respond(connection: *mut Connection) -> u8;
    pub fn typed_headers_connection_output(
        connection: *const Connection,
        room: *mut u8,
        room_length: usize,
        written: *mut usize,
    ) -> u8;
    pub fn typed_headers_connection_range(connection: *const Connection, start: *mut u64, length: *mut u64) -> u8;
    pub fn typed_headers_connection_sent(connection: *mut Connection, count: u64) -> u8;
    pub fn typed_headers_connection_time_out(
        connection: *const Connection,
        room: *mut u8,
        room_length: usize,
        written: *mut usize,
    ) -> u8;
    pub fn typed_headers_connection_rejection(connection: *const Connection, status: *mut u16) -> u8;
    pub fn typed_headers_connection_planned(connection: *const Connection, status: *mut u16, length: *mut u64) -> u8;
    pub fn typed_headers_pass_free(pass: *mut Pass) -> u8;
    pub fn typed_headers_pass_begin(
        cache: *mut Cache,
        pass: *mut Pass,
        request: *const CacheRequest,
        now: u64,
        facts: *mut PassFacts,
    ) -> u8;
    pub fn typed_headers_pass_resume(cache: *mut Cache, pass: *mut Pass, now: u64, facts: *mut PassFacts) -> u8;
    pub fn typed_headers_pass_came(
        cache: *mut Cache,
        pass: *mut Pass,
        status: u16,
        section: *const u8,
        section_length: usize,
        now: u64,
        facts: *mut PassFacts,
    ) -> u8;
    pub fn typed_headers_pass_failed(cache: *mut Cache, pass: *mut Pass, now: u64, facts: *mut PassFacts) -> u8;
    pub fn typed_headers_pass_fields(pass: *const Pass, room: *mut u8, room_length: usize, written: *mut usize) -> u8;
    pub fn typed_headers_pass_status(
        pass: *const Pass,
        name: *const u8,
        name_length: usize,
        room: *mut u8,
        room_length: usize,
        written: *mut usize,
    ) -> u8;
    pub fn typed_headers_pass_validation(
        pass: *const Pass,
        room: *mut u8,
        room_length: usize,
        written: *mut usize,
    ) -> u8;
    pub fn typed_headers_pass_content(
        pass: *const Pass,
        from: usize,
        room: *mut u8,
        room_length: usize,
        written: *mut usize,
    ) -> u8;
    pub fn typed_headers_pass_received(pass: *mut Pass, piece: *const u8, piece_length: usize) -> u8;
    pub fn typed_headers_pass_ended(
        cache: *mut Cache,
        pass: *mut Pass,
        is_complete: bool,
        now: u64,
        number: *mut u64,
    ) -> u8;
    pub fn typed_headers_files_free(files: *mut Files) -> u8;
    pub fn typed_headers_files_new(files: *mut Files, options: *const FilesOptions, keys: *const Keys) -> u8;
    pub fn typed_headers_files_path(
        files: *const Files,
        connection: *const Connection,
        found: *const Entry,
        found_length: usize,
        room: *mut u8,
        room_length: usize,
        written: *mut usize,
    ) -> u8;
    pub fn typed_headers_files_plan(
        files: *mut Files,
        connection: *mut Connection,
        found: *const Entry,
        found_length: usize,
        now: u64,
        is_last: bool,
        source: *mut usize,
    ) -> u8;
    pub fn typed_headers_gate_rules_free(rules: *mut GateRules) -> u8;
    pub fn typed_headers_gate_free(gate: *mut Gate) -> u8;
    pub fn typed_headers_gate_origin_free(origin: *mut GateOrigin) -> u8;
    pub fn typed_headers_gate_rules_new(
        rules: *mut GateRules,
        gateway: *const Gateway,
        options: *const GateOptions,
    ) -> u8;
    pub fn typed_headers_gate_new(gate: *mut Gate, peer: *const GatePeer, most_head: usize, keys: *const Keys) -> u8;
    pub fn typed_headers_gate_origin_new(origin: *mut GateOrigin, most_head: usize, keys: *const Keys) -> u8;
    pub fn typed_headers_gate_next(gate: *mut Gate, rules: *mut GateRules, now: u64, facts: *mut GateFacts) -> u8;
    pub fn typed_headers_gate_receive(gate: *mut Gate, side: u8, input: *const u8, input_length: usize) -> u8;
    pub fn typed_headers_gate_finish(gate: *mut Gate, side: u8) -> u8;
    pub fn typed_headers_gate_output(
        gate: *mut Gate,
        side: u8,
        room: *mut u8,
        room_length: usize,
        written: *mut usize,
    ) -> u8;
    pub fn typed_headers_gate_sent(gate: *mut Gate, side: u8, count: u64) -> u8;
    pub fn typed_headers_gate_clock(gate: *mut Gate, now: u64) -> u8;
    pub fn typed_headers_gate_timed_out(gate: *mut Gate) -> u8;
    pub fn typed_headers_gate_close_after(gate: *mut Gate) -> u8;
    pub fn typed_headers_gate_method(gate: *mut Gate, room: *mut u8, room_length: usize, written: *mut usize) -> u8;
    pub fn typed_headers_gate_target(gate: *mut Gate, room: *mut u8, room_length: usize, written: *mut usize) -> u8;
    pub fn typed_headers_gate_authority(gate: *mut Gate, room: *mut u8, room_length: usize, written: *mut usize) -> u8;
    pub fn typed_headers_gate_key(gate: *mut Gate, room: *mut u8, room_length: usize, written: *mut usize) -> u8;
    pub fn typed_headers_gate_field(
        gate: *mut Gate,
        name: *const u8,
        name_length: usize,
        room: *mut u8,
        room_length: usize,
        written: *mut usize,
    ) -> u8;
    pub fn typed_headers_gate_fields(gate: *mut Gate, room: *mut u8, room_length: usize, written: *mut usize) -> u8;
    pub fn typed_headers_gate_is_for(
        gate: *mut Gate,
        host: *const u8,
        host_length: usize,
        path: *const u8,
        path_length: usize,
        answer: *mut u8,
    ) -> u8;
    pub fn typed_headers_gate_connect_to(
        gate: *mut Gate,
        targets: *const u8,
        targets_length: usize,
        number: *mut u64,
    ) -> u8;
    pub fn typed_headers_gate_connected(gate: *mut Gate) -> u8;
    pub fn typed_headers_gate_conditions(
        gate: *mut Gate,
        section: *const u8,
        section_length: usize,
        keys: *const Keys,
    ) -> u8;
    pub fn typed_headers_gate_forward(gate: *mut Gate, origin: *mut GateOrigin) -> u8;
    pub fn typed_headers_gate_again(gate: *mut Gate) -> u8;
    pub fn typed_headers_gate_answer(gate: *mut Gate, status: u16) -> u8;
    pub fn typed_headers_gate_respond(
        gate: *mut Gate,
        status: u16,
        section: *const u8,
        section_length: usize,
        length: u64,
        keys: *const Keys,
    ) -> u8;
    pub fn typed_headers_gate_push(gate: *mut Gate, piece: *const u8, piece_length: usize) -> u8;
    pub fn typed_headers_gate_end(gate: *mut Gate) -> u8;
    pub fn typed_headers_gate_response(
        gate: *mut Gate,
        status: *mut u16,
        room: *mut u8,
        room_length: usize,
        written: *mut usize,
    ) -> u8;
    pub fn typed_headers_gate_add(gate: *mut Gate, section: *const u8, section_length: usize, keys: *const Keys) -> u8;
    pub fn typed_headers_gate_pass(gate: *mut Gate) -> u8;
    pub fn typed_headers_gate_piece(gate: *mut Gate, room: *mut u8, room_length: usize, written: *mut usize) -> u8;
    pub fn typed_headers_gate_take(gate: *mut Gate, origin: *mut GateOrigin) -> u8;
    pub fn typed_headers_gate_own(gate: *mut Gate, status: *mut u16) -> u8;
    pub fn typed_headers_gate_tunnel(gate: *mut Gate) -> u8;
    pub fn typed_headers_gate_ask(
        gate: *mut Gate,
        method: *const u8,
        method_length: usize,
        target: *const u8,
        target_length: usize,
        section: *const u8,
        section_length: usize,
    ) -> u8;
    pub fn typed_headers_gate_pool_free(pool: *mut GatePool) -> u8;
    pub fn typed_headers_gate_pool_new(pool: *mut GatePool, options: *const GatePoolOptions) -> u8;
    pub fn typed_headers_gate_pool_lease(
        pool: *mut GatePool,
        request: u64,
        now: u64,
        key: u64,
        lease: *mut GateLease,
    ) -> u8;
    pub fn typed_headers_gate_pool_opened(pool: *mut GatePool, connection: u64) -> u8;
    pub fn typed_headers_gate_pool_failed(pool: *mut GatePool, connection: u64, now: u64) -> u8;
    pub fn typed_headers_gate_pool_ended(pool: *mut GatePool, connection: u64, again: *mut u8) -> u8;
    pub fn typed_headers_gate_pool_release(pool: *mut GatePool, connection: u64, kept: *mut u8) -> u8;
    pub fn typed_headers_gate_pool_gone(pool: *mut GatePool, connection: u64) -> u8;
    pub fn typed_headers_gate_pool_finished(pool: *mut GatePool, request: u64) -> u8;
}
