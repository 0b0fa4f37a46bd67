/*
 * Typed HTTP headers for C. The functions of this file are proved: each meets its contract, which this file puts into
 * words, and reads and writes only what it is passed. typed_headers(3) has a first program, and include/README.md of
 * the sources a guide.
 *
 * What holds of every call
 *
 * - A text is a pointer and a count of bytes; no NUL ends it. It is read, and never kept after the call.
 * - A text or a room whose count is 0 may have any pointer: (NULL, 0) is the empty text. No other pointer may be null
 *   or stale. What a pointer that isn't `const` points to may overlap nothing else that is passed. It need not be
 *   set before the call. A `bool` that is passed is true or false.
 * - The result is a status. Unless a call says otherwise, what it would have written is as it was if the status
 *   isn't TYPED_HEADERS_DONE.
 * - Several lines of a field are one text: each line ends in LF, which the last one needn't have. A CR before a LF, or
 *   at the end of the text, is no part of a line; any other byte that no field value has (CR, NUL, other control bytes
 *   but the tab) makes the call reject the text. The empty text has no line. A line is the field's value alone, without
 *   its name. No space is taken off its ends.
 * - A call that writes bytes takes room for them. `*written` says how many bytes there are, also if they don't fit: the
 *   status is TYPED_HEADERS_NO_ROOM then, and the room is as it was. Nothing is written after them.
 * - Calls keep no state, but for handles: of caches, passes, sections, policies, resources, connections and files. They
 *   may run in several threads at once. On one handle those may overlap that take it as `const`: they only read it. Any
 *   other call on a handle overlaps with none on the same one, and the program orders it with the others, as by a lock.
 *   No call may run in a signal handler, nor in the child of a fork of a process with threads.
 * - Memory comes from malloc, realloc and free, and is given back before the call returns, but for that of a cache and
 *   of the handles.
 *   The status is TYPED_HEADERS_NO_MEMORY only if something is allocated: for lines of a field, for a section that has
 *   a line before its first empty one, for a method of more than 15 bytes, and where a call says `Memory`.
 */
#ifndef TYPED_HEADERS_H
#define TYPED_HEADERS_H

#include <stdbool.h>
#include <stddef.h>
#include <stdint.h>

/* The version of this file. `typed_headers_version` returns that of the library. */
#define TYPED_HEADERS_VERSION_MAJOR 2
#define TYPED_HEADERS_VERSION_MINOR 0
#define TYPED_HEADERS_VERSION_PATCH 0
#define TYPED_HEADERS_VERSION "2.0.0"

#ifdef __cplusplus
extern "C" {
#endif

/*
 * The version of the library, as "2.0.0". A program that was built with version 2.N runs with each library of version
 * 2.M where M is at least N: no call goes away or changes its parameters, and no struct of this file grows. A call that
 * is to take or give more gets a new name.
 */
const char *typed_headers_version(void);

/* What a status means, in a few words. The text is never freed. */
const char *typed_headers_status_text(uint8_t status);

/* How a call ends. */
enum typed_headers_status {
    /* It gave what it was asked for. */
    TYPED_HEADERS_DONE = 0,
    /* An argument isn't what the call reads. */
    TYPED_HEADERS_REFUSED = 1,
    /* It ran out of memory. The same call may succeed later. */
    TYPED_HEADERS_NO_MEMORY = 2,
    /* The bytes don't fit into the room. `*written` says how many there are. */
    TYPED_HEADERS_NO_ROOM = 3,
    /* What is asked for isn't there: the field has no line, or the target no representation. */
    TYPED_HEADERS_ABSENT = 4,
    /* An argument is longer, or has more names, than the call takes. */
    TYPED_HEADERS_TOO_LARGE = 5,
    /* The text was written, and marks names whose lines were rejected. */
    TYPED_HEADERS_MARKED = 6
};

/*
 * Sixteen bytes that no sender of names can guess, as getentropy gives them. A map of fields hashes with them once
 * names collide. They change no answer.
 */
struct typed_headers_keys {
    uint64_t first;
    uint64_t second;
};

/* A text: bytes, and how many they are. */
struct typed_headers_text {
    const uint8_t *bytes;
    size_t length;
};

/* A request. */
struct typed_headers_request {
    /* Its method. */
    struct typed_headers_text method;
    /* Its header section. */
    struct typed_headers_text section;
};

/* A request, or the response to one. */
struct typed_headers_message {
    /* The method of the request. */
    struct typed_headers_text method;
    /* The message's own header section. */
    struct typed_headers_text section;
    /* The status of a response, or 0 of a request. */
    uint16_t status;
    /* The message's own version: 10 for HTTP/1.0, or 11. */
    uint8_t version;
};

/* What a server knows of the target of a request. */
struct typed_headers_target {
    /* The entity tag of its current representation, with its quotes, or empty if that has none. */
    struct typed_headers_text etag;
    /* When its current representation was last modified, in seconds since the start of 1970. */
    uint64_t last_modified;
    /* When the request is answered, in seconds since the start of 1970. A date with a year of two digits depends on it
       (RFC 9110, section 5.6.7). */
    uint64_t present;
    /* Whether it has a current representation. If not, nothing else of the target counts. */
    bool exists;
    /* Whether `last_modified` is known. It must lie before the year 10000 then. */
    bool has_last_modified;
    /* Whether that date is a strong validator (RFC 9110, section 8.8.2.2). `typed_headers_evaluate` doesn't ask. */
    bool is_date_strong;
};

/* The seconds of a directive of `cache-control`. */
struct typed_headers_directive_seconds {
    /* The seconds, or 0 if the directive isn't set. */
    uint64_t seconds;
    /* 1 if the directive is set, else 0. */
    uint8_t is_set;
};

/* The directives of `cache-control` that are set. A flag is 1 if it is set, else 0. */
struct typed_headers_cache_directives {
    struct typed_headers_directive_seconds max_age;
    struct typed_headers_directive_seconds max_stale;
    struct typed_headers_directive_seconds min_fresh;
    struct typed_headers_directive_seconds s_maxage;
    uint8_t no_cache;
    uint8_t no_store;
    uint8_t no_transform;
    uint8_t only_if_cached;
    uint8_t must_revalidate;
    uint8_t must_understand;
    uint8_t is_public;
    uint8_t is_private;
    uint8_t immutable;
    uint8_t proxy_revalidate;
};

/* A range of bytes: its first and its last position, counted from 0, both included. */
struct typed_headers_bytes_range {
    uint64_t first;
    uint64_t last;
};

/* The part of a representation that a message carries. A flag is 0 if the numbers aren't said. */
struct typed_headers_content_range {
    /* The first and the last position of the range, counted from 0, both included. */
    uint64_t first;
    uint64_t last;
    /* How many bytes the whole has. */
    uint64_t length;
    /* Whether there is a range, and whether the length is known. */
    uint8_t has_range;
    uint8_t has_length;
};

/*
 * What a server allows requests from other origins. Each text has one value a line, as the lines of a field: the line
 * `*` alone means any value, and the empty text none.
 */
struct typed_headers_cors_rules {
    /* The origins, as `https://a.example`. One is compared byte for byte with what a browser sends. A text that no
     * browser sends is rejected, as upper-case letters, `*`, userinfo, a default port, `http://127.1` or `wss:`. */
    struct typed_headers_text origins;
    /* The methods besides GET, HEAD and POST, with case. */
    struct typed_headers_text methods;
    /* The names of request fields besides those that are always allowed. Any name is all but `authorization`. */
    struct typed_headers_text headers;
    /* The names of response fields that scripts may read besides those that are always readable. */
    struct typed_headers_text exposed;
    /* For how many seconds the answer to a preflight may be cached; 2^31 - 1 at most is written. */
    uint64_t max_age;
    /* Whether `max_age` counts. If not, browsers take five seconds. */
    bool has_max_age;
    /* Whether requests may include credentials. */
    bool credentials;
};

/* The method of a request from another origin, and the response to it. */
struct typed_headers_cors_exchange {
    /* The method of the request. */
    struct typed_headers_text method;
    /* The header section of the response. */
    struct typed_headers_text response;
};

/* What a request is to a server's rules for other origins. */
enum typed_headers_cors_kind {
    /* It has no `Origin`. */
    TYPED_HEADERS_NO_ORIGIN = 0,
    /* It has an `Origin`, and is no preflight. */
    TYPED_HEADERS_PLAIN = 1,
    /* It asks for permission to send another one: OPTIONS, with `Origin` and `Access-Control-Request-Method`. */
    TYPED_HEADERS_PREFLIGHT = 2
};

/* What the rules say of a request. */
struct typed_headers_cors_facts {
    /* One of `typed_headers_cors_kind`. */
    uint8_t kind;
    /* 1 if its origin is allowed, or if it has none, else 0. */
    uint8_t is_allowed;
};

/* Times that a cache knows of a stored response, in seconds since the start of 1970, all of its own clock. */
struct typed_headers_moments {
    /* When the request was made that the response answered. */
    uint64_t request;
    /* When that response came. */
    uint64_t response;
    /* The present. */
    uint64_t now;
};

/* A stored response. */
struct typed_headers_stored {
    /* The method of the request that it answered. */
    struct typed_headers_text method;
    /* The header section of that request. */
    struct typed_headers_text request;
    /* The header section of the response. */
    struct typed_headers_text response;
};

/* What a cache does with a request that a stored response could answer. */
enum typed_headers_decision {
    /* The stored response is the answer. It is fresh. */
    TYPED_HEADERS_SERVE = 0,
    /* It is the answer though it is stale, and is to be revalidated after that (`stale-while-revalidate`). */
    TYPED_HEADERS_SERVE_AND_REVALIDATE = 1,
    /* It is the answer though it is stale: the request takes that (`max-stale`). */
    TYPED_HEADERS_SERVE_STALE = 2,
    /* The origin has to say that the stored response is still good. */
    TYPED_HEADERS_REVALIDATE = 3,
    /* The same, but it may be the answer if the origin can't be reached or fails (`stale-if-error`). */
    TYPED_HEADERS_REVALIDATE_OR_SERVE = 4,
    /* The answer is 504: the request forbids to ask on (`only-if-cached`). */
    TYPED_HEADERS_UNAVAILABLE = 5,
    /* The origin has to answer: the stored response doesn't suit the request, or its method isn't safe. */
    TYPED_HEADERS_FETCH = 6
};

/*
 * A cache: closed, or open with a store of responses. Zero bytes are a closed one, as TYPED_HEADERS_CLOSED_CACHE. Its
 * members are the library's: a program changes none, and copies none but of a closed one. Each call changes it, so no
 * two calls on one cache may overlap. Another thread may make the next one, if the two are ordered, as by a lock.
 */
struct typed_headers_cache {
    void *place;
    bool is_open;
};

#define TYPED_HEADERS_CLOSED_CACHE {0}

/* How much a cache stores, and for whom. */
struct typed_headers_cache_options {
    /* How many responses there may be under one target. */
    size_t variants;
    /* How many responses there may be in all. */
    size_t responses;
    /* How many bytes there may be in all, of targets, contents and fields: 256 for each field line of a response and its
       request, and 1,024 for each response, count too. */
    size_t bytes;
    /* For how many seconds a response is guessed to be fresh at most, if it states no lifetime (RFC 9111, section
       4.2.2); 0 for none. */
    uint64_t guess;
    /* Whether the cache is that of several users, as a proxy's. */
    bool is_shared;
};

/* What a cache does beyond RFC 9111. Zero bytes are nothing. */
struct typed_headers_cache_extensions {
    /* The names of its targeted fields (RFC 9213), as `CDN-Cache-Control`, one a line, the most applicable first. The
       first one that a response has, valid and not empty, counts in place of its `cache-control` and `expires`. */
    struct typed_headers_text targets;
    /* Whether `immutable` of a response counts (RFC 8246): a reload by `max-age` of a request gets such a response from
       the store while it is fresh. */
    bool immutable;
    /* For how many seconds a request waits at most for another that asks the origin for the same, or 0 for none (RFC
       9111, section 4). */
    uint64_t wait;
};

/* A request to a cache. */
struct typed_headers_cache_request {
    /* The key of its target, in UTF-8: its URI, as a text that the program makes the same way each time. */
    struct typed_headers_text target;
    /* Its method. */
    struct typed_headers_text method;
    /* Its header section. */
    struct typed_headers_text section;
};

/*
 * A pass: one client's request through a cache, closed or open. Zero bytes are a closed one, as
 * TYPED_HEADERS_CLOSED_PASS. It is the library's as a cache is. A step of a pass is a call on its cache, too. A call
 * that takes the pass alone may overlap with any on the cache and on other passes. If it takes the pass as `const`, it
 * may overlap with others that do.
 */
struct typed_headers_pass {
    void *place;
    bool is_open;
};

#define TYPED_HEADERS_CLOSED_PASS {0}

/* What is done after a step of a pass. */
enum typed_headers_pass_action {
    /* Send the stored response: the status of the facts, the lines of `typed_headers_pass_fields`, and `count` bytes
       of `typed_headers_pass_content`. The pass has ended. */
    TYPED_HEADERS_REPLY = 0,
    /* The same, and then validate it for nobody: by a new pass for the request of `typed_headers_pass_validation`. */
    TYPED_HEADERS_REPLY_AND_VALIDATE = 1,
    /* Forward the request as it is. */
    TYPED_HEADERS_ASK = 2,
    /* Forward the request with the lines of `typed_headers_pass_fields` in place of its own If-None-Match and
       If-Modified-Since. */
    TYPED_HEADERS_VALIDATE = 3,
    /* Send 504: the request forbids to ask the origin (`only-if-cached`). The pass has ended. */
    TYPED_HEADERS_SEND_504 = 4,
    /* Pass on what came, its content also to `typed_headers_pass_received`, and then call `typed_headers_pass_ended`. */
    TYPED_HEADERS_PASS_ON_TO_END = 5,
    /* Pass on what came. The pass has ended. */
    TYPED_HEADERS_PASS_ON = 6,
    /* No response came, and no stored one may be sent: send 502 or 504. The pass has ended. */
    TYPED_HEADERS_NO_RESPONSE = 7,
    /* Another pass asks the origin for the same: call `typed_headers_pass_resume` once some pass through the cache has
       ended, or after a while. Only GET without Range waits, and only if the cache has a number of seconds to wait. */
    TYPED_HEADERS_WAIT = 8
};

/* What is told of a step. */
struct typed_headers_pass_facts {
    /* The first position of the content that is sent of the stored response, and how many bytes are sent. */
    uint64_t first;
    uint64_t count;
    /* The status that is sent with it, or 0 if no stored response is sent. */
    uint16_t status;
    /* One of `typed_headers_pass_action`. */
    uint8_t action;
};

/* What a response carries of a representation. */
struct typed_headers_content {
    /* Its media type, as the line of Content-Type, or empty if it isn't known. */
    struct typed_headers_text media_type;
    /* The boundary between several parts: 1 to 70 letters, digits, or `'`, `+`, `-`, `.`, `_`. No range that is sent may
       hold it. */
    struct typed_headers_text boundary;
    /* How many bytes it has, if `has_length`. */
    uint64_t length;
    /* Whether that is known. If not, no ranges are sent. */
    bool has_length;
    /* Whether ranges of it are sent. */
    bool sends_ranges;
};

/* What a response is. */
struct typed_headers_response {
    /* The status: 200, 206, 304, 412 or 416. 0 if the server performs the method, and answers by itself. */
    uint16_t status;
    /* 1 if a Content-Encoding that the server has set stays, 0 if it goes. */
    uint8_t keeps_encoding;
};

/* How acceptable an offer is. */
struct typed_headers_quality {
    /* Its weight in thousandths, 1 to 1000. 0 if it isn't acceptable, or no element of the field names it. */
    uint16_t weight;
    /* 1 if it is acceptable, else 0. */
    uint8_t is_acceptable;
};

/* What a server takes of opening handshakes. */
struct typed_headers_websocket_rules {
    /* Its own subprotocols, one a line, the most wanted first: the first that the request asks for is taken. */
    struct typed_headers_text protocols;
    /* The origins whose scripts may open a connection, one a line, as browsers send them, or the line `*` for any. A
       request without Origin is no script's, and is let in. */
    struct typed_headers_text origins;
};

/* A client's opening handshake, and the response to it. */
struct typed_headers_websocket_exchange {
    /* The header section that the client sent. */
    struct typed_headers_text sent;
    /* The header section of the response. */
    struct typed_headers_text response;
    /* The status of the response. */
    uint16_t status;
};

/* What a server answers to an opening handshake. */
struct typed_headers_handshake {
    /* The status: 101, 400, 403 or 426. */
    uint16_t status;
    /* The rule that the request breaks, one of `typed_headers_fault`, if the status is 400; else 0. */
    uint8_t fault;
};

/* Why a request is no opening handshake: the first rule that it breaks (RFC 6455, section 4.2.1). */
enum typed_headers_fault {
    /* The method isn't GET. */
    TYPED_HEADERS_NOT_GET = 1,
    /* The version is older than HTTP/1.1. */
    TYPED_HEADERS_OLD_HTTP = 2,
    /* The version is HTTP/2 or HTTP/3, which have no 101. */
    TYPED_HEADERS_NOT_HTTP_11 = 3,
    /* There is no Host. */
    TYPED_HEADERS_NO_HOST = 4,
    /* Upgrade doesn't list `websocket`. */
    TYPED_HEADERS_NO_UPGRADE = 5,
    /* Connection doesn't list `upgrade`. */
    TYPED_HEADERS_NO_CONNECTION = 6,
    /* Sec-WebSocket-Key isn't one line, the base64 of sixteen bytes. */
    TYPED_HEADERS_NO_KEY = 7,
    /* Sec-WebSocket-Protocol isn't a list of tokens. */
    TYPED_HEADERS_MALFORMED_PROTOCOLS = 8,
    /* Sec-WebSocket-Extensions isn't a list of extensions. */
    TYPED_HEADERS_MALFORMED_EXTENSIONS = 9
};

/* Why a client must fail the connection: the first rule that a response breaks (RFC 6455, section 4.1). */
enum typed_headers_flaw {
    /* None: the connection is open. */
    TYPED_HEADERS_OPEN = 0,
    /* The status isn't 101. */
    TYPED_HEADERS_NOT_SWITCHED = 1,
    /* Upgrade isn't one line, `websocket`. */
    TYPED_HEADERS_UPGRADE_MISSING = 2,
    /* Connection doesn't list `upgrade`. */
    TYPED_HEADERS_CONNECTION_MISSING = 3,
    /* Sec-WebSocket-Accept isn't one line, what the key that was sent calls for. */
    TYPED_HEADERS_WRONG_ACCEPT = 4,
    /* Sec-WebSocket-Extensions breaks its grammar. */
    TYPED_HEADERS_WRONG_EXTENSIONS = 5,
    /* Sec-WebSocket-Extensions names an extension that wasn't asked for. */
    TYPED_HEADERS_UNASKED_EXTENSION = 6,
    /* Sec-WebSocket-Protocol has several lines, or a subprotocol that wasn't asked for. */
    TYPED_HEADERS_UNASKED_PROTOCOL = 7
};

/* What the target of a request is. */
enum typed_headers_resource_state {
    /* It has a current representation. */
    TYPED_HEADERS_STATE_CURRENT = 0,
    /* It has none. */
    TYPED_HEADERS_STATE_ABSENT = 1,
    /* It has none, and none is expected again (RFC 9110, section 15.5.11). */
    TYPED_HEADERS_STATE_GONE = 2,
    /* It is the server in general, `*` (section 9.3.7): OPTIONS gets the methods, and any other method 404. Since 2.0. */
    TYPED_HEADERS_STATE_SERVER = 3,
    /* It is under another URI: for good (301, or 308, which keeps the method), or for now (307). */
    TYPED_HEADERS_STATE_MOVED_PERMANENTLY = 301,
    TYPED_HEADERS_STATE_TEMPORARY_REDIRECT = 307,
    TYPED_HEADERS_STATE_PERMANENT_REDIRECT = 308
};

/*
 * What a server knows of the target of a request before it performs a method. Each text has one value a line; of those
 * that say something of each method or of each representation, a line that is empty or missing says nothing. A struct
 * of zeros is a resource without methods, for any host, which has no representation to show.
 */
struct typed_headers_resource {
    /* The hosts that it is served for, as they are written in Host (section 7.4). Empty: any. They are compared without
       case, and one without a port is served at each port. */
    struct typed_headers_text hosts;
    /* The methods that it has, in the order of Allow. GET means HEAD too, and each resource has OPTIONS. */
    struct typed_headers_text methods;
    /* Those of `methods` that are performed if there is no current representation, as PUT (section 9.3.4). Any other is
       answered by 404. */
    struct typed_headers_text creating;
    /* Those of `methods` whose requests must name what they may replace: by entity tags in If-Match, by `*` in
       If-None-Match, or if `has_strong_dates` by a date in If-Unmodified-Since (RFC 6585, section 3). Any other request
       is answered by 428. GET and HEAD need none. */
    struct typed_headers_text guarded;
    /* The media types that each of `methods` takes, as the line of Accept that a 415 has. Nothing said: any. */
    struct typed_headers_text accept;
    /* The codings that each of `methods` takes, as the line of Accept-Encoding that a 415 has. Nothing said: none, so
       content with Content-Encoding is answered by 415. */
    struct typed_headers_text accept_encoding;
    /* Where it is, as Location has it. It counts only if it has moved, and may not be empty then. */
    struct typed_headers_text location;
    /* The media type of each representation, as the line of Content-Type. Nothing said: it isn't known. */
    struct typed_headers_text media_types;
    /* The language of each, as the line of Content-Language. Nothing said: none. */
    struct typed_headers_text languages;
    /* The coding of each, as the line of Content-Encoding. Nothing said: none. */
    struct typed_headers_text codings;
    /* The entity tag of each, with its quotes. Nothing said: none. */
    struct typed_headers_text etags;
    /* The boundary between several parts, as in `typed_headers_content`. Empty: THIS_STRING_SEPARATES. */
    struct typed_headers_text boundary;
    /* The methods that the server implements for some resource, if `has_implemented`; GET, HEAD and `methods` count
       too. Any other method is answered by 501, and one of them that isn't in `methods` by 405 (sections 9.1 and
       15.6.2). If not, they are those of RFC 9110, and PATCH. Since 2.0. */
    struct typed_headers_text implemented;
    /* The greatest length of content that is taken, if `has_limit`. */
    uint64_t limit;
    /* One of `typed_headers_resource_state`. */
    uint16_t state;
    /* By which fields a representation is chosen: Accept, Accept-Language, Accept-Encoding. Vary names them. */
    bool by_media_type;
    bool by_language;
    bool by_coding;
    /* Whether a read is answered by 406 if no representation is acceptable. If not, it gets the first. */
    bool is_strict;
    /* Whether content must have a length (section 15.5.12). */
    bool needs_length;
    /* Whether `limit` counts. */
    bool has_limit;
    /* Whether the rules for other origins count. If not, no answer has their fields. */
    bool has_cors;
    /* Whether `implemented` counts. Since 2.0. */
    bool has_implemented;
    /* Whether each change of a representation gives it a later date, so that its dates are strong validators (section
       8.8.2.2). An old date isn't enough: two changes may have come in its second. Since 2.0. */
    bool has_strong_dates;
};

/* What a server knows of a representation of a resource, beside its lines there. */
struct typed_headers_representation {
    /* How many bytes it has, if `has_length`. */
    uint64_t length;
    /* When it was last modified, in seconds since the start of 1970, if `has_last_modified`. */
    uint64_t last_modified;
    /* Whether the length is known. If not, no ranges are sent. */
    bool has_length;
    /* Whether ranges of it are sent. */
    bool sends_ranges;
    /* Whether `last_modified` is known. It must lie before the year 10000 then. */
    bool has_last_modified;
    /* Whether that date is a strong validator (RFC 9110, section 8.8.2.2). */
    bool is_date_strong;
};

/* What a server knows of a request, beside its fields. */
struct typed_headers_resource_request {
    /* Its method. */
    struct typed_headers_text method;
    /* The target of its request line, or empty. The host of one in absolute-form counts, else that of Host. */
    struct typed_headers_text target;
    /* When it is answered, in seconds since the start of 1970. */
    uint64_t present;
    /* How many bytes its content has, if `has_content` and `has_length`. */
    uint64_t length;
    /* Its version: 10 for HTTP/1.0, 11, 20 or 30. */
    uint8_t version;
    /* Whether it has content, and whether its length is stated, by the framing of its message (section 6.4). */
    bool has_content;
    bool has_length;
};

/*
 * Why a server denies a request: by its credentials, or by the load. The answer says nothing of the resource (section
 * 15.5.4), but it has the fields for other origins. A struct of zeros denies nothing. Since 2.0.
 */
struct typed_headers_denial {
    /* The challenges of 401, as the line of WWW-Authenticate: it may not be empty then (section 11.6.1). Any other status
       ignores it. */
    struct typed_headers_text challenge;
    /* After how many seconds the client may send another request, if `has_retry_after`: the line of Retry-After of 429
       (RFC 6585, section 4) and of 503 (RFC 9110, section 15.6.4). Any other status ignores it. */
    uint64_t retry_after;
    /* 401, 403, 429 or 503. 0: the request isn't denied. */
    uint16_t status;
    /* Whether `retry_after` is known. */
    bool has_retry_after;
};

/*
 * Why a request is answered as it is: the first of these that applies, in the order of
 * crates/decide_resource/README.md.
 */
enum typed_headers_resource_reason {
    /* Nothing prevents the method: the preconditions and Range decide, and then the method. */
    TYPED_HEADERS_ADMITTED = 0,
    /* 400: Host is missing, is there twice, or is no host. */
    TYPED_HEADERS_INVALID_HOST = 1,
    /* 421: the host isn't one of the resource's. */
    TYPED_HEADERS_MISDIRECTED = 2,
    /* 501: the server doesn't implement the method. */
    TYPED_HEADERS_UNKNOWN_METHOD = 3,
    /* 405: the server implements the method, and the resource doesn't have it. */
    TYPED_HEADERS_METHOD_NOT_ALLOWED = 4,
    /* 204: the method is OPTIONS. A missing resource that no method makes gets 404. */
    TYPED_HEADERS_OPTIONS = 5,
    /* 417: Expect has a member other than `100-continue`. */
    TYPED_HEADERS_UNMET_EXPECTATION = 6,
    /* 301, 307 or 308: the resource is under another URI. */
    TYPED_HEADERS_MOVED = 7,
    /* 410: the resource is gone. */
    TYPED_HEADERS_GONE = 8,
    /* 404: there is no current representation, and the method makes none. */
    TYPED_HEADERS_NOT_FOUND = 9,
    /* 411: the length of the content isn't stated. */
    TYPED_HEADERS_LENGTH_REQUIRED = 10,
    /* 413: the content is longer than the limit. */
    TYPED_HEADERS_CONTENT_TOO_LARGE = 11,
    /* 415: the method doesn't take the media type of the content. */
    TYPED_HEADERS_UNSUPPORTED_MEDIA_TYPE = 12,
    /* 415: the method doesn't take a coding of the content. */
    TYPED_HEADERS_UNSUPPORTED_CODING = 13,
    /* 406: no representation is acceptable. */
    TYPED_HEADERS_NOT_ACCEPTABLE = 14,
    /* 428: the request doesn't name what it may replace. */
    TYPED_HEADERS_PRECONDITION_REQUIRED = 15,
    /* 400: PUT with Content-Range, and no parts are taken (RFC 9110, section 14.5). It comes after 417, and before the
       state of the resource. */
    TYPED_HEADERS_PARTIAL_CONTENT = 16,
    /* 204: a preflight, where the rules for other origins count. It comes after 421. */
    TYPED_HEADERS_ANSWERED_PREFLIGHT = 17,
    /* 401, 403, 429 or 503: the server denies the request. It comes after a preflight. */
    TYPED_HEADERS_DENIED = 18
};

/* What an answer sends. A response to HEAD never has content. */
enum typed_headers_resource_sends {
    /* Nothing of the resource. The server may explain the status. */
    TYPED_HEADERS_SENDS_NOTHING = 0,
    /* A list of the representations that there are. */
    TYPED_HEADERS_SENDS_ALTERNATIVES = 1,
    /* All of the representation, or without a place all that the server makes as it performs GET. */
    TYPED_HEADERS_SENDS_WHOLE = 2,
    /* The ranges of it that are written. */
    TYPED_HEADERS_SENDS_PARTS = 3,
    /* What comes of the method, which the server performs. */
    TYPED_HEADERS_SENDS_RESULT = 4
};

/* What the answer of a resource is. */
struct typed_headers_resource_facts {
    /* The place of the representation that it is about, from 0, if `has_place`; else 0. */
    size_t place;
    /* The status. 0 if it comes of the method, which the server performs. */
    uint16_t status;
    /* One of `typed_headers_resource_reason`. */
    uint8_t reason;
    /* One of `typed_headers_resource_sends`. */
    uint8_t sends;
    /* 1 if it is about a representation, else 0. */
    uint8_t has_place;
};

/* What a gateway or proxy is to the messages that pass it. */
struct typed_headers_gateway {
    /* Its name in Via: a token (RFC 9110, section 7.6.3). A request whose Via has it is rejected as a loop. */
    struct typed_headers_text name;
    /* The names of further fields that no connection option may name, one a line: those that the servers behind the
       gateway rely on, as X-Forwarded-For (RFC 9110, section 7.6.1). */
    struct typed_headers_text protected_fields;
    /* Whether clients authenticate to it as their proxy. Proxy-Authorization and the challenges of other proxies go no
       further then (RFC 9110, section 11.7). */
    bool consumes_credentials;
    /* Whether fields whose name has an underscore are forwarded. Servers that pass fields on as variables take it for a
       dash. Those that have a protected name but for such marks never are. */
    bool passes_underscores;
};

/*
 * How a request arrived, and what is known of the next connection. With zeros but for `server_version` nothing is told
 * of the client, and what it told of others is dropped.
 *
 * A node is an IP address as inet_ntop writes it, without brackets, or an underscore and letters, digits, `.`, `_` and
 * `-`, which hide the address (RFC 7239, section 6.3). A port of 0 isn't told.
 */
struct typed_headers_hop {
    /* The node that sent the request, or empty if it isn't known. */
    struct typed_headers_text client;
    /* The node at which the gateway received it, or empty if that isn't told: `by` of Forwarded. */
    struct typed_headers_text interface_node;
    uint16_t client_port;
    uint16_t interface_port;
    /* The version of HTTP that the next server is known to speak: 10 for HTTP/1.0, or 11. */
    uint8_t server_version;
    /* Whether the request came over TLS. */
    bool is_secure;
    /* Whether the client is trusted to tell who sent it the request: a gateway of one's own. Forwarded and
       X-Forwarded-For, -Host and -Proto of any other client are dropped. */
    bool is_trusted;
    /* Whether the gateway writes Forwarded (RFC 7239), and the three others. */
    bool writes_forwarded;
    bool writes_x_forwarded;
    /* Whether these tell the host to which the request came. */
    bool tells_host;
    /* Whether the next connection is closed after the request: `Connection: close`. */
    bool closes;
    /* Whether the gateway, and all clients behind it, accept trailer fields: `TE: trailers`. */
    bool accepts_trailers;
};

/* How the content of a message is delimited (RFC 9112, section 6.3). */
enum typed_headers_framing_kind {
    /* There is none. */
    TYPED_HEADERS_NO_CONTENT = 0,
    /* By its length in bytes. */
    TYPED_HEADERS_LENGTH = 1,
    /* It is sent in chunks. */
    TYPED_HEADERS_CHUNKED = 2,
    /* It ends when the connection is closed. */
    TYPED_HEADERS_UNTIL_CLOSE = 3,
    /* The connection is a tunnel from here on. */
    TYPED_HEADERS_TUNNEL = 4
};

struct typed_headers_framing {
    /* How many bytes there are, if the kind is TYPED_HEADERS_LENGTH, else 0. */
    uint64_t length;
    /* One of `typed_headers_framing_kind`. */
    uint8_t kind;
};

/* What a gateway does with a message. */
enum typed_headers_gateway_action {
    /* It sends the lines. */
    TYPED_HEADERS_GATEWAY_FORWARD = 0,
    /* It answers the request itself: the request may be forwarded no more (`Max-Forwards: 0` of TRACE or OPTIONS). */
    TYPED_HEADERS_GATEWAY_ANSWER = 1,
    /* It rejects it: it answers the request with `status`. */
    TYPED_HEADERS_GATEWAY_REJECT = 2,
    /* It drops an interim response, which a client of HTTP/1.0 doesn't know. */
    TYPED_HEADERS_GATEWAY_DISCARD = 3
};

/* Why a message is rejected. */
enum typed_headers_gateway_reason {
    /* It has both Content-Length and Transfer-Encoding. */
    TYPED_HEADERS_GATEWAY_LENGTH_AND_CODING = 1,
    /* Content-Length isn't one number in digits below 2^64 - 1. */
    TYPED_HEADERS_GATEWAY_INVALID_LENGTH = 2,
    /* It has transfer codings before `chunked`, or several lines of them. */
    TYPED_HEADERS_GATEWAY_UNKNOWN_CODING = 3,
    /* Its last transfer coding isn't `chunked`. */
    TYPED_HEADERS_GATEWAY_LAST_CODING_NOT_CHUNKED = 4,
    /* It is of HTTP/1.0 and has Transfer-Encoding. */
    TYPED_HEADERS_GATEWAY_CODING_IN_HTTP_10 = 5,
    /* Connection isn't a list of tokens. */
    TYPED_HEADERS_GATEWAY_INVALID_OPTION = 6,
    /* Connection names a field that is meant for all recipients. */
    TYPED_HEADERS_GATEWAY_PROTECTED_OPTION = 7,
    /* It has no Host, several, or an invalid one. */
    TYPED_HEADERS_GATEWAY_INVALID_HOST = 8,
    /* Max-Forwards isn't one number. */
    TYPED_HEADERS_GATEWAY_INVALID_HOPS = 9,
    /* It passed this gateway before. */
    TYPED_HEADERS_GATEWAY_LOOP = 10,
    /* Expect has another expectation than `100-continue`. */
    TYPED_HEADERS_GATEWAY_UNKNOWN_EXPECTATION = 11,
    /* It is a 101, which this gateway never asks for. */
    TYPED_HEADERS_GATEWAY_SWITCHED_PROTOCOLS = 12,
    /* Its content comes in chunks, which the next server doesn't know. */
    TYPED_HEADERS_GATEWAY_LENGTH_REQUIRED = 13
};

/* What a gateway does with a request. */
struct typed_headers_request_outcome {
    /* How the content is delimited, as received and as sent, unless the request is rejected. */
    struct typed_headers_framing framing;
    /* The status that answers a rejected request: 400, 411, 417, 501 or 508. Else 0. */
    uint16_t status;
    /* One of `typed_headers_gateway_action`. */
    uint8_t action;
    /* One of `typed_headers_gateway_reason` if the request is rejected, else 0. */
    uint8_t reason;
    /* 1 if the client waits for a 100 (Continue) that the next server doesn't send, so that the gateway does. */
    uint8_t sends_continue;
};

/* What a gateway does with a response. */
struct typed_headers_response_outcome {
    /* How the content is delimited as received, and as sent with the lines, if the response is forwarded. The gateway
       closes the client's connection after content that is sent TYPED_HEADERS_UNTIL_CLOSE. */
    struct typed_headers_framing received;
    struct typed_headers_framing sent;
    /* 502, the status that takes the place of a rejected response, if that is final. Else 0. */
    uint16_t status;
    /* One of `typed_headers_gateway_action`. */
    uint8_t action;
    /* One of `typed_headers_gateway_reason` if the response is rejected, else 0. */
    uint8_t reason;
};

/* How the content of a message is delimited, or why the message is rejected. */
struct typed_headers_framing_outcome {
    /* How it is delimited, unless the message is rejected. */
    struct typed_headers_framing framing;
    /* The status that answers a rejected request, or 502, which takes the place of a rejected response. Else 0. */
    uint16_t status;
    /* The first five of `typed_headers_gateway_reason`, or 0. */
    uint8_t reason;
};

/* The number of a port. */
struct typed_headers_port {
    /* The number, or 0 if there is no port. */
    uint16_t number;
    /* 1 if there is a port, else 0. */
    uint8_t is_set;
};

/* The parts of an origin beside its scheme and its host. */
struct typed_headers_origin_parts {
    /* How many bytes the scheme has. */
    size_t scheme_length;
    struct typed_headers_port port;
    /* 1 if the origin is `null`, else 0. Then it has neither scheme, host nor port. */
    uint8_t is_null;
};

/* For how long a host may be reached only by secure transport. */
struct typed_headers_transport_security {
    /* The seconds. */
    uint64_t max_age;
    /* 1 if its subdomains are included, else 0. */
    uint8_t include_subdomains;
};

/* When a client may send its request again. */
struct typed_headers_retry_time {
    /* The seconds of the delay, or those of the date since the start of 1970. */
    uint64_t seconds;
    /* 1 if it is a date, 0 if it is a delay. */
    uint8_t is_date;
};

/* For how many seconds a response may be served once it is stale (RFC 5861). */
struct typed_headers_stale_directives {
    /* The seconds of `stale-while-revalidate`, or 0. */
    uint64_t while_revalidate;
    /* The seconds of `stale-if-error`, or 0. */
    uint64_t if_error;
    /* 1 if the first is set, else 0. */
    uint8_t has_while_revalidate;
    /* 1 if the second is set, else 0. */
    uint8_t has_if_error;
};

/* How a recipient is to present content (RFC 6266, section 4.2). */
enum typed_headers_disposition {
    /* By another word. RFC 6266 has it treated as an attachment. */
    TYPED_HEADERS_OTHER_DISPOSITION = 0,
    TYPED_HEADERS_INLINE = 1,
    TYPED_HEADERS_ATTACHMENT = 2,
    /* It is a part of a form (RFC 7578, section 4.2). */
    TYPED_HEADERS_FORM_DATA = 3
};

/* Forms of fields whose values have parts. */
enum typed_headers_form {
    /* A list of elements with parameters, as of `accept` and `te` (RFC 9110, section 5.6.6). */
    TYPED_HEADERS_ELEMENTS = 0,
    /* As of `www-authenticate` (RFC 9110, section 11.6.1). */
    TYPED_HEADERS_CHALLENGES = 1,
    /* As of `link` (RFC 8288, section 3). */
    TYPED_HEADERS_LINKS = 2,
    /*
     * As of `set-cookie` (RFC 6265, section 5.2): the name and the value, then those of these that the attributes mean:
     * `pPath=`, `pDomain=`, `pMax-Age=` with a number below 2^64, `pExpires=` with a date as 2021-06-09T10:18:14Z,
     * `nSecure`, `nHttpOnly`, `pSameSite=`. After the other attributes `r` has `__Secure-`, `__Host-` or `SameSite`, if
     * the attributes aren't what that demands.
     */
    TYPED_HEADERS_SET_COOKIES = 3,
    /*
     * As of `content-disposition` (RFC 6266, section 4.1): no comma separates two, and the type is in lower case. It is
     * malformed if it is no token. Behind the other parameters is the name of the file (section 4.3).
     */
    TYPED_HEADERS_DISPOSITIONS = 4,
    /*
     * As of `forwarded` (RFC 7239, section 4): pairs. An element is malformed if something else is in it, if it has a
     * name twice, in any case, or if it has more than 100 pairs.
     */
    TYPED_HEADERS_HOPS = 5,
    /*
     * As of `cache-status` (RFC 9211, section 2): the name of a cache, which is a string or a token, and its parameters
     * that sections 2.1 to 2.8 define, each once and by its type: `i` an integer, `n` what is true, `p` a string, `t` a
     * token. Of two of a name the last counts (RFC 8941, section 4.2.3.2), and one of another type is ignored.
     */
    TYPED_HEADERS_CACHES = 6
};

/* How a parameter is written. */
enum typed_headers_parameter {
    /*
     * As a token or a quoted-string if the text is spaces and visible ASCII (RFC 9110, section 5.6.6), else with a name
     * that ends in `*` (RFC 8187). The text is in UTF-8.
     */
    TYPED_HEADERS_PARAMETER_EXTENDED = 0,
    /* As a token or a quoted-string. */
    TYPED_HEADERS_PARAMETER_PLAIN = 1,
    /* As a quoted-string. */
    TYPED_HEADERS_PARAMETER_QUOTED = 2,
    /*
     * As a challenge has it: `realm` (RFC 9110, section 11.5), `domain`, `nonce`, `opaque` and `qop` (RFC 7616, section
     * 3.3) as a quoted-string, others as a token or a quoted-string.
     */
    TYPED_HEADERS_PARAMETER_IN_CHALLENGE = 3
};

/*
 * A handle: closed, or open with what it was opened with. Zero bytes are a closed one, as TYPED_HEADERS_CLOSED. An open
 * one has memory until it is closed again, and what it has never changes. Its members are the library's: a program
 * changes none, and copies none but of a closed one. Threads may share it: a call that takes it as `const` only reads
 * it, and any number of these may overlap, without a lock. One that opens or closes it overlaps with no other on it.
 *
 * Absent, of each call that reads a handle: it is closed, or is that of another struct.
 */
struct typed_headers_section {
    void *place;
    bool is_open;
};

/* A policy for requests from other origins: the same, with a server's rules. */
struct typed_headers_cors_policy {
    void *place;
    bool is_open;
};

/* A resource: the same, with what a server knows of the target of a request. */
struct typed_headers_resource_handle {
    void *place;
    bool is_open;
};

#define TYPED_HEADERS_CLOSED {0}

/*
 * The connection of a server: closed, or open with what it received and has to send. It is a handle as the ones above,
 * but calls change what it has: those that don't take it as `const`, each of which overlaps with no other on it.
 */
struct typed_headers_connection {
    void *place;
    bool is_open;
};

/* What a connection wants. */
enum typed_headers_event {
    /* `typed_headers_connection_receive`, or `typed_headers_connection_finish_input`. */
    TYPED_HEADERS_NEEDS_INPUT = 0,
    /* Read the request, make a plan, and call `typed_headers_connection_respond`. */
    TYPED_HEADERS_REQUEST = 1,
    /* Write what `typed_headers_connection_output` gives, or, if that is empty, `typed_headers_connection_range`; then
       call `typed_headers_connection_sent`. */
    TYPED_HEADERS_OUTPUT = 2,
    /* All was sent: close. */
    TYPED_HEADERS_CLOSED_CONNECTION = 3,
    /* It ran out of memory, or a response can't be sent to its end: close. */
    TYPED_HEADERS_ABORTED = 4
};

/* What a service of files does. */
struct typed_headers_files_options {
    /* What Cache-Control says of the answers that a cache may use again, 200, 206 and 304, or empty if they shall have
       none. */
    struct typed_headers_text cache_control;
    /* The hosts that are served, one a line, in any case and at any port, or empty for all. A request for another one
       is answered by 421. */
    struct typed_headers_text hosts;
    /* What stands between several parts of a response. Take digits that nobody can foresee, so that no file can be made
       to hold them. */
    struct typed_headers_text boundary;
    /* Whether a client may get the precompressed copy of a file, by its Accept-Encoding. */
    bool negotiates;
};

/* A service of the files below a folder, which opens none: a handle as a connection. */
struct typed_headers_files {
    void *place;
    bool is_open;
};

/* What there is at a path. Any other number means the last. */
enum typed_headers_entry_kind {
    /* Nothing, or what leads out of the folder: 404. */
    TYPED_HEADERS_ENTRY_MISSING = 0,
    /* A file, which the program has open. */
    TYPED_HEADERS_ENTRY_FILE = 1,
    /* A folder: 301, to the path with a slash after it. */
    TYPED_HEADERS_ENTRY_FOLDER = 2,
    /* What may not be read, or is neither: 403. */
    TYPED_HEADERS_ENTRY_FORBIDDEN = 3,
    /* What can't be read now: 503. */
    TYPED_HEADERS_ENTRY_UNAVAILABLE = 4
};

/* What the program found at a path. The numbers count for a file alone: they are those that fstat gave once it was
   open. */
struct typed_headers_entry {
    /* How many bytes it has. */
    uint64_t length;
    /* When it was last modified (`st_mtime`), in seconds since the start of 1970. A time from the year 10000 on isn't
       told, nor is one before 1970, converted to this type. */
    uint64_t modified;
    /* Its device, and its number there (`st_dev`, `st_ino`). */
    uint64_t device;
    uint64_t inode;
    /* When it last changed (`st_ctim`), in seconds and in nanoseconds of the last one. A file that changed in the last
       two seconds has no entity tag. */
    uint64_t changed;
    uint64_t changed_nanosecond;
    /* One of `typed_headers_entry_kind`. */
    uint8_t kind;
};

/*
 * What a gateway does with each request; a gateway's connection to a client, and at most one to an origin; and one to an
 * origin by itself. Each is closed or open. Zero bytes are a closed one. They are the library's as a cache is.
 */
struct typed_headers_gate_rules {
    void *place;
    bool is_open;
};

struct typed_headers_gate {
    void *place;
    bool is_open;
};

struct typed_headers_gate_origin {
    void *place;
    bool is_open;
};

/* A gateway's connections to origins. It is closed or open, as those above. */
struct typed_headers_gate_pool {
    void *place;
    bool is_open;
};

/* The rules of such a pool. */
struct typed_headers_gate_pool_options {
    /* How many origins there are, numbered from 0. */
    size_t origins;
    /* So many failures in turn, at least 1, and others are asked before an origin, for so many milliseconds. */
    uint64_t failures;
    uint64_t pause;
    /* At most so many requests have a connection to one origin, and at most so many to it are kept idle. */
    uint64_t most;
    uint64_t idle;
    /* Whether the key of a request chooses its origin (rendezvous hashing), and not the fewest requests. */
    bool hashes;
};

enum typed_headers_gate_lease_kind {
    /* It goes out on this idle connection. */
    TYPED_HEADERS_LEASE_REUSE = 0,
    /* This connection is to be opened to this origin. */
    TYPED_HEADERS_LEASE_OPEN = 1,
    /* Each origin failed for this request. */
    TYPED_HEADERS_LEASE_FAILED = 2,
    /* The origins that are left have all the connections that they may have. */
    TYPED_HEADERS_LEASE_FULL = 3
};

/* Where a request goes out. */
struct typed_headers_gate_lease {
    /* The number of the connection and of its origin, if there is one. */
    uint64_t connection;
    size_t origin;
    /* One of `typed_headers_gate_lease_kind`. */
    uint8_t kind;
};

/* What a gateway does beside what it is to messages. */
struct typed_headers_gate_options {
    /* The host that a request of HTTP/1.0 without Host is for. */
    struct typed_headers_text authority;
    /* Whether the gateway writes Forwarded (RFC 7239), and X-Forwarded-For, -Host and -Proto. */
    bool writes_forwarded;
    bool writes_x_forwarded;
    /* Whether it sends 100 (Continue) itself, and doesn't ask the origin (RFC 9110, section 10.1.1). */
    bool answers_expect;
    /* Whether an opening handshake of a WebSocket goes on as one (RFC 6455). */
    bool passes_websocket;
    /* Whether a CONNECT waits for `typed_headers_gate_connect_to`. Otherwise it is answered by 501. */
    bool passes_connect;
};

/* The client of a connection. */
struct typed_headers_gate_peer {
    /* Its node, as that of `typed_headers_hop`, or empty if it isn't known. */
    struct typed_headers_text node;
    /* Its port, or 0 if that isn't told. */
    uint16_t port;
    /* Whether it came over TLS. */
    bool is_secure;
    /* Whether it is trusted to tell who sent it a request. */
    bool is_trusted;
};

enum typed_headers_gate_side {
    TYPED_HEADERS_CLIENT = 0,
    TYPED_HEADERS_ORIGIN = 1
};

enum typed_headers_gate_event {
    /* Nothing more happens until bytes come or go. */
    TYPED_HEADERS_GATE_WAITS = 0,
    /* A request came: `typed_headers_gate_forward`, `_answer` or `_respond`. */
    TYPED_HEADERS_GATE_REQUEST = 1,
    /* The head of the final response came: `typed_headers_gate_pass`, `_answer`, `_respond` or `_again`. */
    TYPED_HEADERS_GATE_RESPONSE = 2,
    /* A piece of it was passed to the client: `typed_headers_gate_piece` has it until the next call. */
    TYPED_HEADERS_GATE_PIECE = 3,
    /* The origin ended its connection before it answered, and the request may be repeated: as REQUEST, over another. */
    TYPED_HEADERS_GATE_REPEAT = 4,
    /* The origin's connection isn't needed any more: `typed_headers_gate_take`. If a response is passed on, it is whole. */
    TYPED_HEADERS_GATE_EXCHANGED = 5,
    /* The connection is no longer HTTP: `typed_headers_gate_tunnel`. */
    TYPED_HEADERS_GATE_TUNNEL = 6,
    /* Nothing more is said: write what waits for the client, and close both connections. */
    TYPED_HEADERS_GATE_CLOSED = 7,
    /* A message was cut off: close both at once. */
    TYPED_HEADERS_GATE_ABORTED = 8
};

/* What a connection does. A program has one time limit for each, and calls `typed_headers_gate_timed_out`. */
enum typed_headers_gate_phase {
    /* No byte of a request came. */
    TYPED_HEADERS_GATE_IDLE = 0,
    /* A part of a head came. */
    TYPED_HEADERS_GATE_HEAD = 1,
    /* The request waits for a connection to an origin. */
    TYPED_HEADERS_GATE_ASKING = 2,
    /* Content of the request is awaited, and no head of a response was sent. */
    TYPED_HEADERS_GATE_CONTENT = 3,
    /* The request has ended, and its response is awaited. */
    TYPED_HEADERS_GATE_ANSWER = 4,
    /* The response is passed on. */
    TYPED_HEADERS_GATE_PASSING = 5,
    /* The program gives the response. */
    TYPED_HEADERS_GATE_GIVING = 6,
    /* It was answered, and the rest of the request is dropped. */
    TYPED_HEADERS_GATE_DRAINING = 7,
    /* It is closed, or a tunnel. */
    TYPED_HEADERS_GATE_OVER = 8
};

/* What comes next on a connection, and what to wait for. */
struct typed_headers_gate_facts {
    /* How many bytes the piece has, if the event is TYPED_HEADERS_GATE_PIECE. */
    uint64_t piece;
    /* One of `typed_headers_gate_event`, and one of `typed_headers_gate_phase`. */
    uint8_t event;
    uint8_t phase;
    /* Whether bytes of a side are to be received, and whether some wait to be written to it. */
    bool client_input;
    bool client_output;
    bool origin_input;
    bool origin_output;
    /* Whether the client, or the origin, of a tunnel gets nothing more: shut its connection down for writing. */
    bool ends_client;
    bool ends_origin;
};

/* ---- Written by tools/c_calls from calls.txt. ---- */

/*
 * The canonical text of a header section (RFC 9112, section 5). `section` is read up to its first empty line: each line
 * before it is a name, a colon and a value. The text has each name once, in lower case, at its first appearance, with
 * its lines as the typed header of that name writes them. The lines of an unknown name are as they came, without blanks
 * at their ends. A name whose lines are rejected has the line `! NAME`: the status is TYPED_HEADERS_MARKED then.
 *
 * Refused: a line before the first empty one is no field. Too large: the section has more than 8,388,608 bytes, or more
 * names than a map has room for (24,576).
 */
uint8_t typed_headers_canonical(const uint8_t *section, size_t section_length, const struct typed_headers_keys *keys,
                                uint8_t *room, size_t room_length, size_t *written);

/*
 * The canonical field lines of a header: what the typed header of this name writes of the value that the lines say,
 * each line with a LF. `name` is the name of a field, in any case: of the 51 headers of the library. The lines of
 * `authorization` and `proxy-authorization` parse as credentials of Basic, or else of Bearer. The lines of a name that
 * no header has are as they came.
 *
 * Refused: the name is no field name, or the header rejects the lines. Memory: the name is no standard one.
 */
uint8_t typed_headers_field(const uint8_t *name, size_t name_length, const uint8_t *lines, size_t lines_length,
                            uint8_t *room, size_t room_length, size_t *written);

/*
 * The seconds of `age`: the only line, a number below 2^64 (RFC 9111, section 5.1). Refused: there are several lines,
 * or the line is no number.
 */
uint8_t typed_headers_age(const uint8_t *lines, size_t lines_length, uint64_t *seconds);

/*
 * The bytes of `content-length`: all lines, each of which is the same number below 2^64 (RFC 9110, section 8.6).
 * Refused: a line is no number, or two differ.
 */
uint8_t typed_headers_content_length(const uint8_t *lines, size_t lines_length, uint64_t *length);

/*
 * The dates of `date`, `expires` and `last-modified`, as seconds since the start of 1970: the only line, in one of the
 * three formats of RFC 9110, section 5.6.7, up to the year 9999. Refused: there are several lines, or the line is no
 * such date.
 */
uint8_t typed_headers_date(const uint8_t *lines, size_t lines_length, uint64_t *second);
uint8_t typed_headers_expires(const uint8_t *lines, size_t lines_length, uint64_t *second);
uint8_t typed_headers_last_modified(const uint8_t *lines, size_t lines_length, uint64_t *second);

/*
 * The canonical text of the media type of `content-type`: its first line (RFC 9110, section 8.3). Type, subtype and the
 * names of parameters are in lower case, each parameter stands after a semicolon and a space. Refused: the line is no
 * media type.
 */
uint8_t typed_headers_media_type(const uint8_t *lines, size_t lines_length, uint8_t *room, size_t room_length,
                                 size_t *written);

/* Type and subtype of that media type, as `text/html`: its canonical text up to the first semicolon. */
uint8_t typed_headers_essence(const uint8_t *lines, size_t lines_length, uint8_t *room, size_t room_length,
                              size_t *written);

/*
 * Whether two entity tags are equal (RFC 9110, section 8.8.3.2): `*equal` is 1 if they are, 0 if not. Tags are strongly
 * equal if neither is weak and their opaque parts are the same, and weakly equal if their opaque parts are the same.
 * Each text is one line. Refused or absent: one of the texts is no entity tag, or has no line.
 */
uint8_t typed_headers_strong_eq(const uint8_t *one, size_t one_length, const uint8_t *other, size_t other_length,
                                uint8_t *equal);
uint8_t typed_headers_weak_eq(const uint8_t *one, size_t one_length, const uint8_t *other, size_t other_length,
                              uint8_t *equal);

/*
 * The directives of `cache-control`: the entries of all lines (RFC 9111, section 5.2, and RFC 8246). Names ignore ASCII
 * case; the last entry that carries a number gives it. Refused: an entry carries one of the four numbers, and it is
 * none below 2^64.
 */
uint8_t typed_headers_cache_control(const uint8_t *lines, size_t lines_length,
                                    struct typed_headers_cache_directives *directives);

/*
 * The ranges that a representation of `length` bytes can satisfy of those that `range` asks for: its first line, in
 * order (RFC 9110, section 14.1.2). Each has its last position below the length. A part of the line that is no range,
 * or covers no position, is skipped. The room and `*written` count ranges. None is written if no range can be
 * satisfied. Refused: the line isn't text that begins with `bytes=`.
 */
uint8_t typed_headers_ranges(const uint8_t *lines, size_t lines_length, uint64_t length,
                             struct typed_headers_bytes_range *room, size_t room_length, size_t *written);

/*
 * The date of a second since the start of 1970, as IMF-fixdate, 29 bytes (RFC 9110, section 5.6.7). Refused: the date
 * lies past the year 9999. Memory: it is valid.
 */
uint8_t typed_headers_format_date(uint64_t second, uint8_t *room, size_t room_length, size_t *written);

/*
 * The line of `content-range` for a range, for the length of the whole, or for both (RFC 9110, section 14.4). Refused:
 * the first position is past the last, the last isn't below the length, or neither a range nor a length is said.
 * Memory: it is valid.
 */
uint8_t typed_headers_format_content_range(const struct typed_headers_content_range *range, uint8_t *room,
                                           size_t room_length, size_t *written);

/*
 * The entity tag with this opaque part: in quotes, and behind `W/` if it is weak (RFC 9110, section 8.8.3). Refused:
 * the opaque part has a quote, a space, or a control byte. Memory: it is valid.
 */
uint8_t typed_headers_format_etag(bool is_weak, const uint8_t *opaque, size_t opaque_length, uint8_t *room,
                                  size_t room_length, size_t *written);

/*
 * Whether the preconditions of a request let its method be performed (RFC 9110, section 13.2.2): `*answer` is 0 if they
 * do, else 304 or 412. Of the section the fields If-Match, If-None-Match, If-Modified-Since and If-Unmodified-Since
 * count. A server asks this once it would otherwise answer with success, and before it performs the method.
 *
 * Refused: the method is no token, a line of the section before the first empty one is no field, `target->etag` is no
 * entity tag, or the date lies past the year 9999. Too large: the section has more names than a map has room for
 * (24,576).
 */
uint8_t typed_headers_evaluate(const struct typed_headers_request *request, const struct typed_headers_keys *keys,
                               const struct typed_headers_target *target, uint16_t *answer);

/*
 * Which part of the target's representation, of `length` bytes, a request selects (RFC 9110, sections 13.2.2 and 14.2):
 * `*answer` is 200 if all of it, 206 if the ranges that are written, 416 if none. The ranges are in order, and more
 * than 80 positions lie between two of them. Range is ignored if there are more than 100 ranges, or if 512 bytes for
 * each of several are more than `length`: so no answer is longer than twice the representation. Of the section the
 * fields Range and If-Range count. The room and `*written` count ranges; `*answer` is given also if they don't fit. A
 * server asks this once `typed_headers_evaluate` gave 0.
 *
 * Absent: the target has no representation. Refused and too large: as for `typed_headers_evaluate`. Memory: Range
 * applies.
 */
uint8_t typed_headers_select(const struct typed_headers_request *request, const struct typed_headers_keys *keys,
                             const struct typed_headers_target *target, uint64_t length, uint16_t *answer,
                             struct typed_headers_bytes_range *room, size_t room_length, size_t *written);

/*
 * The response to a GET or a HEAD of the target's current representation, by its preconditions and its ranges, and to
 * any request whose preconditions are false (RFC 9110, sections 13.2.2 and 14.2): its status, the ranges that it sends
 * unless it sends all, and its lines, each `name: value` and a LF, names in lower case. It sends ranges within the
 * limits of `typed_headers_select`. A HEAD is answered as a GET without Range, but for the content.
 *
 * Six fields are the response's alone, and are to be taken off first: etag, last-modified, accept-ranges,
 * content-range, content-length and content-type. So is content-encoding, unless `response->keeps_encoding`, and so are
 * content-digest and content-md5, unless the status is 200 or 0. Several ranges are sent as multipart/byteranges with
 * `content->boundary`.
 *
 * `*written` and `*parts_written` are given also if one of them doesn't fit, and so is `*response`. What fits is
 * written then.
 *
 * Refused: as for `typed_headers_evaluate`, or the media type is no line, or the boundary is none. Too large: the
 * section has more names than a map has room for (24,576). Memory: the media type isn't empty, or the boundary is one.
 */
uint8_t typed_headers_respond(const struct typed_headers_request *request, const struct typed_headers_keys *keys,
                              const struct typed_headers_target *target, const struct typed_headers_content *content,
                              struct typed_headers_response *response, struct typed_headers_bytes_range *parts,
                              size_t parts_length, size_t *parts_written, uint8_t *room, size_t room_length,
                              size_t *written);

/*
 * Which of a server's offers a request is served, by the lines of its `accept`, `accept-encoding` or `accept-language`
 * (RFC 9110, section 12.5): `*place` counts from 0. `offers` has one offer a line, the most wanted first: media types
 * with their parameters, values of Content-Encoding (`identity` for none), language tags. Of those of the greatest
 * quality the first is chosen, and without the field the first of all.
 *
 * Absent: none is acceptable. Refused: a line of a text can't be one.
 */
uint8_t typed_headers_choose_type(const uint8_t *lines, size_t lines_length, const uint8_t *offers,
                                  size_t offers_length, size_t *place);
uint8_t typed_headers_choose_coding(const uint8_t *lines, size_t lines_length, const uint8_t *offers,
                                    size_t offers_length, size_t *place);
uint8_t typed_headers_choose_language(const uint8_t *lines, size_t lines_length, const uint8_t *offers,
                                      size_t offers_length, size_t *place);

/*
 * Which of a server's language tags lookup finds (RFC 4647, section 3.4): where `en-GB` is asked for, `en` is found.
 * Else as `typed_headers_choose_language`.
 */
uint8_t typed_headers_look_up_language(const uint8_t *lines, size_t lines_length, const uint8_t *offers,
                                       size_t offers_length, size_t *place);

/*
 * How acceptable an offer is, by the lines of `accept`, `accept-encoding` or `accept-language` (RFC 9110, section
 * 12.5). Without the field each has the weight 1000. Refused: a line can't be one.
 */
uint8_t typed_headers_type_quality(const uint8_t *lines, size_t lines_length, const uint8_t *offer,
                                   size_t offer_length, struct typed_headers_quality *quality);
uint8_t typed_headers_coding_quality(const uint8_t *lines, size_t lines_length, const uint8_t *offer,
                                     size_t offer_length, struct typed_headers_quality *quality);
uint8_t typed_headers_language_quality(const uint8_t *lines, size_t lines_length, const uint8_t *offer,
                                       size_t offer_length, struct typed_headers_quality *quality);

/*
 * What `sec-websocket-accept` answers to `sec-websocket-key`, 28 bytes: the only line (RFC 6455, section 4.2.2).
 * Refused: there are several lines, or the line isn't the base64 of sixteen bytes.
 */
uint8_t typed_headers_websocket_accept(const uint8_t *lines, size_t lines_length, uint8_t *room, size_t room_length,
                                       size_t *written);

/*
 * What a server answers to a client's opening handshake (RFC 6455, sections 4.2.1 and 4.2.2). `version` is that of the
 * request: 10 for HTTP/1.0, 11, 20 or 30.
 *
 * The text is the lines of the answer, each `name: value` and a LF. sec-websocket-protocol and sec-websocket-extensions
 * are to be taken off a 101 first. Refused: the method is no token, the version is another number, a line of the rules
 * is no field value, no browser sends one of the origins, or a line of the section before its first empty one is no
 * field. Memory: the answer has lines.
 */
uint8_t typed_headers_websocket_respond(const struct typed_headers_request *request, uint8_t version,
                                        const struct typed_headers_keys *keys,
                                        const struct typed_headers_websocket_rules *rules,
                                        struct typed_headers_handshake *handshake, uint8_t *room, size_t room_length,
                                        size_t *written);

/*
 * A client's opening handshake (RFC 6455, section 4.1). Each line is `name: value` and a LF. `nonce` is sixteen bytes
 * at random, others for each handshake. The caller adds Host, and what it offers in sec-websocket-protocol and
 * sec-websocket-extensions. Refused: the nonce hasn't sixteen bytes. Memory: it is valid.
 */
uint8_t typed_headers_websocket_request(const uint8_t *nonce, size_t nonce_length, uint8_t *room, size_t room_length,
                                        size_t *written);

/*
 * What a client finds in the response to its opening handshake (RFC 6455, section 4.1): `*flaw` is one of
 * `typed_headers_flaw`. Refused: the status is no number from 100 to 999, or a line of a section before its first empty
 * one is no field.
 */
uint8_t typed_headers_websocket_check(const struct typed_headers_websocket_exchange *exchange,
                                      const struct typed_headers_keys *keys, uint8_t *flaw);

/*
 * What a server with these rules answers a request from another origin (Fetch standard, "CORS protocol"). `response` is
 * the header section of the response as its handler left it, of which the field Vary counts.
 *
 * The text is the lines of the answer, each `name: value` and a LF, names in lower case. Six fields are the rules'
 * alone, and are to be taken off the response first: access-control-allow-origin, -allow-credentials, -expose-headers,
 * -allow-methods, -allow-headers and access-control-max-age. Lines of `vary` in the text replace the response's own. A
 * preflight is answered with a status from 200 to 299.
 *
 * Refused: the rules have a line that is no origin that browsers send, no method or no name; they have `*` in a list of
 * several methods or names, or any origin, method or name with credentials, which no browser reads so; the method is no
 * token; or a line of a section before its first empty one is no field. Too large: a section has more names than a map
 * has room for (24,576). Memory: nothing is rejected. Whether rules are rejected shows with the method GET and two
 * empty sections.
 */
uint8_t typed_headers_cors_answer(const struct typed_headers_cors_rules *rules,
                                  const struct typed_headers_request *request, const uint8_t *response,
                                  size_t response_length, const struct typed_headers_keys *keys,
                                  struct typed_headers_cors_facts *facts, uint8_t *room, size_t room_length,
                                  size_t *written);

/*
 * Which of a list of origins, one a line, is the first that no browser sends (HTML standard, "ASCII serialization of an
 * origin"): `*place` counts from 0. A policy and a handshake reject such lists, but that a policy takes the scheme in
 * any case. Absent: browsers send each, or the only line is `*`. Refused: a line can't be one.
 */
uint8_t typed_headers_unsent_origin(const uint8_t *origins, size_t origins_length, size_t *place);

/*
 * The whole answer of a resource to a request (RFC 9110, sections 7.4 to 15): by its host, a denial, its method, its
 * content, negotiation, preconditions, ranges, and the rules for other origins. `representations` are the current ones,
 * the most wanted first. `rules` count if `resource->has_cors`. `denial` of zeros denies nothing. There may be no
 * representation to show though the state is current, if the server makes them only as it performs GET.
 *
 * The text is the lines of the answer, each `name: value` and a LF, names in lower case. They are all that the response
 * has of the fields that these decisions own. If the status is 0, the server performs the method and sets the lines in
 * the response that comes of it: lines of `vary` replace the response's own, and if `rules` count, the six fields of
 * `typed_headers_cors_answer` are taken off first. The ranges and their limits are those of `typed_headers_respond`.
 * Both rooms, their counts and `*facts` are given as there.
 *
 * Refused: a line of a text can't be a field line; a method is no token; a list has more lines than there are methods
 * or representations; the state, the version or the status of the denial is another number; the location or the
 * challenge of a 401 is empty; the boundary or an entity tag is none; a date lies past the year 9999; the rules count
 * and are rejected; the target is in absolute-form without a host; or a line of the section before its first empty one
 * is no field. Too large: the section has more names than a map has room for (24,576). Memory: the boundary is one.
 */
uint8_t typed_headers_resource_answer(const struct typed_headers_resource *resource,
                                      const struct typed_headers_representation *representations,
                                      size_t representations_length, const struct typed_headers_cors_rules *rules,
                                      const struct typed_headers_resource_request *request,
                                      const struct typed_headers_denial *denial, const uint8_t *section,
                                      size_t section_length, const struct typed_headers_keys *keys,
                                      struct typed_headers_resource_facts *facts,
                                      struct typed_headers_bytes_range *parts, size_t parts_length,
                                      size_t *parts_written, uint8_t *room, size_t room_length, size_t *written);

/*
 * Whether a cache may store the response to a request (RFC 9111, sections 3 and 3.5): `*answer` is 1 if it may, 0 if
 * not. `is_shared` is true for a cache of several users, as a proxy's, and false for that of one, as a browser's.
 *
 * Refused: the method is no token, the status is no number from 100 to 999, or a line of a section before its first
 * empty one is no field. Too large, here and below: a section has more names than a map has room for (24,576).
 */
uint8_t typed_headers_may_store(const struct typed_headers_request *request, uint16_t status,
                                const uint8_t *response, size_t response_length,
                                const struct typed_headers_keys *keys, bool is_shared, uint8_t *answer);

/*
 * For how many seconds a response is fresh by what its origin says (RFC 9111, section 4.2.1): `s-maxage` in a shared
 * cache, else `max-age`, else Expires less Date. `received` is when it came, and replaces a Date that is missing or
 * can't be parsed.
 *
 * Absent: the origin doesn't say. Refused: a line of the section before its first empty one is no field.
 */
uint8_t typed_headers_lifetime(const uint8_t *response, size_t response_length,
                               const struct typed_headers_keys *keys, uint64_t received, bool is_shared,
                               uint64_t *seconds);

/*
 * For how many seconds a response may be taken as fresh if its origin doesn't say so: a tenth of the time from its last
 * modification to its Date (RFC 9111, section 4.2.2). `received` is as above. A cache bounds this, as to a day.
 *
 * Absent: the origin says so, the status and `cache-control` let no cache guess, or no last modification is known.
 * Refused: the status is no number from 100 to 999, or a line of the section before its first empty one is no field.
 */
uint8_t typed_headers_heuristic_lifetime(uint16_t status, const uint8_t *response, size_t response_length,
                                         const struct typed_headers_keys *keys, uint64_t received, bool is_shared,
                                         uint64_t *seconds);

/*
 * How many seconds old a stored response is (RFC 9111, section 4.2.3). Refused: a line of the section before its first
 * empty one is no field.
 */
uint8_t typed_headers_current_age(const uint8_t *response, size_t response_length,
                                  const struct typed_headers_keys *keys, const struct typed_headers_moments *moments,
                                  uint64_t *seconds);

/*
 * What a cache does with a request, by a response that it has stored to the same URI (RFC 9111, section 4, and RFC
 * 5861): `*decision` is one of `typed_headers_decision`. A request whose method isn't safe is always to be fetched.
 * Refused: a method is no token, or a line of a section before its first empty one is no field.
 */
uint8_t typed_headers_decide(const struct typed_headers_stored *stored, const struct typed_headers_request *request,
                             const struct typed_headers_keys *keys, const struct typed_headers_moments *moments,
                             bool is_shared, uint8_t *decision);

/*
 * The fields by which the origin is asked whether a stored response is still good (RFC 9111, section 4.3.1): its entity
 * tag as a line of `if-none-match`, and the date of its last modification as one of `if-modified-since`, each with a
 * LF. `received` is when the response came, in seconds since 1970; it resolves a year of two digits. A validator that
 * the response doesn't have, or that is no single entity tag or date, has no line. The lines replace the request's own
 * two fields, which are to be taken off first. Refused: a line of the section before its first empty one is no field.
 */
uint8_t typed_headers_validators(const uint8_t *response, size_t response_length, uint64_t received,
                                 const struct typed_headers_keys *keys, uint8_t *room, size_t room_length,
                                 size_t *written);

/*
 * Opens a closed cache, which is empty, and stores in bounded memory (RFC 9111). It copies the keys. Requests go
 * through it as passes: see `typed_headers_pass_begin`. Refused: it is open. Such a cache has memory until it is closed
 * again. Memory: the cache is closed.
 */
uint8_t typed_headers_cache_new(struct typed_headers_cache *cache, const struct typed_headers_cache_options *options,
                                const struct typed_headers_keys *keys);

/*
 * Opens a closed cache as `typed_headers_cache_new` does, with extensions. Refused: it is open, or a line of the
 * targeted fields is no field name. Memory: the cache is closed. Since 2.0.
 */
uint8_t typed_headers_cache_new_with(struct typed_headers_cache *cache,
                                     const struct typed_headers_cache_options *options,
                                     const struct typed_headers_cache_extensions *extensions,
                                     const struct typed_headers_keys *keys);

/* Closes a cache, and gives its memory back. It may be closed before, or null. The status is TYPED_HEADERS_DONE. */
uint8_t typed_headers_cache_free(struct typed_headers_cache *cache);

/*
 * Removes what is stored under a target. What was asked for it before isn't stored any more either. A pass does this by
 * itself for what its response outdates (RFC 9111, section 4.4). Refused: the target is no UTF-8. Absent: the cache is
 * closed.
 */
uint8_t typed_headers_cache_remove(struct typed_headers_cache *cache, const uint8_t *target, size_t target_length);

/*
 * What a gateway does with a request, and the lines that it sends on its next connection (RFC 9110, section 7.6; RFC
 * 9112, sections 3.2 and 6; RFC 7239). `version` is that of the request: 10 for HTTP/1.0, or 11. `authority` is the
 * host and the port of a target in absolute-form, which takes the place of Host, or empty for any other target.
 *
 * The text is all lines of the section to send, each `name: value` and a LF, names in lower case; the empty line that
 * ends a section isn't among them. It is empty unless the request is forwarded. Fields of one connection go no further.
 * Via, Content-Length, Transfer-Encoding, Connection, TE, Forwarded and X-Forwarded-* are the gateway's own.
 * Max-Forwards of TRACE and OPTIONS is one less. `*outcome` is given also if the text doesn't fit.
 *
 * Refused: the gateway's name or the method is no token, a protected name is no field name, a node is none, a version
 * is another number, `authority` is no line, or a line of the section before its first empty one is no field. Too
 * large, here and below: the section has more names than a map has room for (24,576). Memory: the gateway's name is a
 * token.
 */
uint8_t typed_headers_forward_request(const struct typed_headers_gateway *gateway,
                                      const struct typed_headers_hop *hop,
                                      const struct typed_headers_request *request, uint8_t version,
                                      const uint8_t *authority, size_t authority_length,
                                      const struct typed_headers_keys *keys,
                                      struct typed_headers_request_outcome *outcome, uint8_t *room,
                                      size_t room_length, size_t *written);

/*
 * What a gateway does with a response, and the lines that it sends to the client (RFC 9110, sections 6.6.1, 7.6 and
 * 15.2; RFC 9112, section 6.3). `client_version` is that of the client's request. `received` is when the response came,
 * in seconds since the start of 1970: the date of one that has none. The text is as above, without a Connection of the
 * gateway's own. `*outcome` is given also if it doesn't fit.
 *
 * Refused: the gateway's name or the method is no token, a protected name is no field name, the status is no number
 * from 100 to 999, a version is another number, the date lies past the year 9999, or a line of the section before its
 * first empty one is no field. Memory: the gateway's name is a token.
 */
uint8_t typed_headers_forward_response(const struct typed_headers_gateway *gateway,
                                       const struct typed_headers_message *response,
                                       const struct typed_headers_keys *keys, uint8_t client_version,
                                       uint64_t received, struct typed_headers_response_outcome *outcome,
                                       uint8_t *room, size_t room_length, size_t *written);

/*
 * How the content of a message is delimited (RFC 9112, section 6.3). What recipients are known to delimit in different
 * ways is rejected.
 *
 * Refused: the method is no token, the status is neither 0 nor a number from 100 to 999, the version is another number,
 * or a line of the section before its first empty one is no field.
 */
uint8_t typed_headers_framing(const struct typed_headers_message *message, const struct typed_headers_keys *keys,
                              struct typed_headers_framing_outcome *outcome);

/* ---- Typed values of fields, since version 2.0 ---- */

/*
 * The user name and the password of Basic, by the first line of `authorization` or of `proxy-authorization` (RFC 7617,
 * section 2). The text is the user name and, right after its `*user_length` bytes, the password. Both are UTF-8.
 * `*user_length` is given also if the text doesn't fit.
 *
 * Refused: the line has another scheme, or what follows isn't the base64 of UTF-8 with a colon.
 */
uint8_t typed_headers_basic(const uint8_t *lines, size_t lines_length, size_t *user_length, uint8_t *room,
                            size_t room_length, size_t *written);

/*
 * The token of Bearer, by the first line of `authorization` or of `proxy-authorization` (RFC 6750, section 2.1): what
 * follows the scheme and white space. Refused: the line has another scheme, or isn't text.
 */
uint8_t typed_headers_bearer(const uint8_t *lines, size_t lines_length, uint8_t *room, size_t room_length,
                             size_t *written);

/*
 * The value of the first cookie of this name, by all lines of `cookie` (RFC 6265, section 5.4). Names are compared byte
 * for byte, and a value in quotes has them. Cookies stand between semicolons that aren't in quotes. Lines with a byte
 * outside of printable ASCII have no cookies. Absent: there is no such cookie. Refused: a line can't be one.
 */
uint8_t typed_headers_cookie(const uint8_t *lines, size_t lines_length, const uint8_t *name, size_t name_length,
                             uint8_t *room, size_t room_length, size_t *written);

/*
 * All cookies of all lines of `cookie`, in order: each is its name, `=`, its value and a LF. A name has no `=`, and
 * what stands between semicolons without one is skipped. Else as `typed_headers_cookie`.
 */
uint8_t typed_headers_cookies(const uint8_t *lines, size_t lines_length, uint8_t *room, size_t room_length,
                              size_t *written);

/*
 * The host and the port of `host`: its first line (RFC 9110, section 7.2). The text is the host; an IPv6 address has
 * its brackets. `*port` is given also if the text doesn't fit. Refused: the line is no host with a port below 65,536 or
 * without, has a user, or has more than 65,534 bytes.
 */
uint8_t typed_headers_host(const uint8_t *lines, size_t lines_length, struct typed_headers_port *port, uint8_t *room,
                           size_t room_length, size_t *written);

/*
 * The scheme, the host and the port of `origin`: the only line (RFC 6454, section 7). The text is the scheme and, right
 * after its `parts->scheme_length` bytes, the host; it is empty for `null`. `*parts` is given also if the text doesn't
 * fit. Refused: there are several lines, the line is neither `null` nor an origin, or it has a user, or a port that is
 * no number below 65,536.
 */
uint8_t typed_headers_origin(const uint8_t *lines, size_t lines_length, struct typed_headers_origin_parts *parts,
                             uint8_t *room, size_t room_length, size_t *written);

/*
 * The policy of `strict-transport-security`: the only line (RFC 6797, section 6.1). Refused: there are several lines,
 * the line hasn't exactly one max-age, a number below 2^64, or has `includeSubDomains` twice.
 */
uint8_t typed_headers_strict_transport_security(const uint8_t *lines, size_t lines_length,
                                                struct typed_headers_transport_security *policy);

/*
 * The delay or the date of `retry-after`: its first line (RFC 9110, section 10.2.3). Refused: the line is neither a
 * number below 2^64 nor a date up to the year 9999.
 */
uint8_t typed_headers_retry_after(const uint8_t *lines, size_t lines_length, struct typed_headers_retry_time *time);

/*
 * `stale-while-revalidate` and `stale-if-error` of `cache-control`, by all its lines, as a cache counts them (RFC
 * 5861): the first of two, and 0 seconds if the argument is no number. None is set if a member of the lines is no
 * directive. Refused: a line can't be one.
 */
uint8_t typed_headers_stale_directives(const uint8_t *lines, size_t lines_length,
                                       struct typed_headers_stale_directives *directives);

/*
 * What the directives of this name in `cache-control` have as arguments, by all its lines: each as it means, without
 * quotes, with a LF, in order. `typed_headers_members` takes those of `no-cache` and `private` as lines: the members
 * are field names (RFC 9111, sections 5.2.2.4 and 5.2.2.7). `typed_headers_cache_control` has such a directive as not
 * set. Refused: a line can't be one.
 */
uint8_t typed_headers_directive_arguments(const uint8_t *lines, size_t lines_length, const uint8_t *name,
                                          size_t name_length, uint8_t *room, size_t room_length, size_t *written);

/*
 * The range and the complete length of `content-range`: its first line (RFC 9110, section 14.4). Numbers that aren't
 * said are 0. Refused: the line isn't `bytes`, a space, a range or `*`, a slash, and a length or `*`, or the first
 * position is past the last.
 */
uint8_t typed_headers_content_range(const uint8_t *lines, size_t lines_length,
                                    struct typed_headers_content_range *range);

/*
 * The kind of the disposition of `content-disposition`: what its first line has before a semicolon, byte for byte (RFC
 * 6266, section 4.2). `*disposition` is one of `typed_headers_disposition`. Refused: a line can't be one.
 */
uint8_t typed_headers_content_disposition(const uint8_t *lines, size_t lines_length, uint8_t *disposition);

/*
 * The members of a list between commas, by all its lines, as `allow`, `connection` and `vary` are (RFC 9110, section
 * 5.6.1): each with a LF, in order, without white space at their ends. A comma in quotes is part of a member, and what
 * is empty between commas is none. Lines with a byte outside of printable ASCII have no members. Refused: a line can't
 * be one.
 */
uint8_t typed_headers_members(const uint8_t *lines, size_t lines_length, uint8_t *room, size_t room_length,
                              size_t *written);

/*
 * Whether a list has a member, by the lines of `allow`, `connection`, `vary` and others: `*has` is 1 if it has, 0 if
 * not. With `any_case` the case of ASCII letters doesn't count, as of connection options and field names; methods and
 * `*` are compared byte for byte. Else as `typed_headers_members`.
 */
uint8_t typed_headers_has_member(const uint8_t *lines, size_t lines_length, const uint8_t *member,
                                 size_t member_length, bool any_case, uint8_t *has);

/*
 * The parts of the values of `content-disposition`, `set-cookie`, `te` and other fields, by all lines, as lines of
 * text. `form` is one of `typed_headers_form`. Each part is a letter, a text and a LF: `v` has a text, `n` a name
 * alone, `p` a name, `=` and what its value means, without quotes, `s` the scheme of a challenge, `k` the token68 that
 * may follow it; `!` is what is malformed. Parameters are those of RFC 9110, section 5.6.6. A cookie has its name and
 * value, what its attributes mean (RFC 6265, section 5.2), its other attributes, and `r` for what browsers reject it
 * by. `a` without a text is behind the type of a disposition whose content a recipient saves (RFC 6266, section 4.2).
 * Behind the parameters of a link are the relation types of its first `rel`, each in lower case as `l` (RFC 8288,
 * section 3.3). A title and the name of a file have one line: `e` and the value of the first `title*` or `filename*`,
 * if `typed_headers_extended_text` has a text for it. Else it is `o` and the octets of the first `title` or `filename`.
 * A cache has those parameters of RFC 9211 that have its types, each once: `i` is an integer, `n` what is true, `p` a
 * string, `t` a token. An empty line ends each element, challenge, link, cookie, disposition, hop and cache. Refused:
 * `form` is none, or a line can't be one.
 */
uint8_t typed_headers_field_parts(uint8_t form, const uint8_t *lines, size_t lines_length, uint8_t *room,
                                  size_t room_length, size_t *written);

/*
 * The text, in UTF-8, that the value of a parameter means whose name ends in `*`, as of `filename*` (RFC 8187, section
 * 3.2.1). Refused: it isn't by the grammar, its charset is neither UTF-8 nor ISO-8859-1, or its octets are no text of
 * it.
 */
uint8_t typed_headers_extended_text(const uint8_t *value, size_t value_length, uint8_t *room, size_t room_length,
                                    size_t *written);

/*
 * The parameter of a name for a text. `kind` is one of `typed_headers_parameter`. Refused: `kind` is none, the name is
 * no token, the text of an extended one isn't UTF-8, or that of another has a byte that no field value has. Memory:
 * they are valid.
 */
uint8_t typed_headers_format_parameter(uint8_t kind, const uint8_t *name, size_t name_length, const uint8_t *text,
                                       size_t text_length, uint8_t *room, size_t room_length, size_t *written);

/*
 * Which of some parameters, by their names, one a line, is the first that has a name: `*place` counts from 0. The case
 * of ASCII letters doesn't count (RFC 9110, section 5.6.6). Absent: none has it.
 */
uint8_t typed_headers_parameter_place(const uint8_t *names, size_t names_length, const uint8_t *name,
                                      size_t name_length, size_t *place);

/* ---- sections and policies: what several calls are asked of is parsed once, behind a handle. Since 2.0. ---- */

/* Closes a handle, and gives its memory back. It may be closed before, or null. The status is TYPED_HEADERS_DONE. */
uint8_t typed_headers_section_free(struct typed_headers_section *fields);
uint8_t typed_headers_cors_policy_free(struct typed_headers_cors_policy *policy);
uint8_t typed_headers_resource_handle_free(struct typed_headers_resource_handle *handle);

/*
 * Opens the handle of a section with its fields (RFC 9112, section 5). Refused: the handle is open, or a line of the
 * section before its first empty one is no field. Too large: the section has more than 8,388,608 bytes, or more names
 * than a map has room for (24,576). Memory: the handle is closed.
 */
uint8_t typed_headers_section_new(struct typed_headers_section *fields, const uint8_t *section,
                                  size_t section_length, const struct typed_headers_keys *keys);

/*
 * What `typed_headers_field` gives for the lines of a name. Absent also: the section has none. Refused: the name is no
 * field name, or the header rejects the lines. Memory: there are lines, or the name is no standard one.
 */
uint8_t typed_headers_section_field(const struct typed_headers_section *fields, const uint8_t *name,
                                    size_t name_length, uint8_t *room, size_t room_length, size_t *written);

/*
 * What `typed_headers_evaluate` gives for these fields. Refused: the method is no token, `target->etag` is no entity
 * tag, or the date lies past the year 9999.
 */
uint8_t typed_headers_section_evaluate(const struct typed_headers_section *fields, const uint8_t *method,
                                       size_t method_length, const struct typed_headers_target *target,
                                       uint16_t *answer);

/*
 * What `typed_headers_select` gives for these fields. Absent also: the target has no representation. Refused: as for
 * `typed_headers_section_evaluate`. Memory: Range applies.
 */
uint8_t typed_headers_section_select(const struct typed_headers_section *fields, const uint8_t *method,
                                     size_t method_length, const struct typed_headers_target *target,
                                     uint64_t length, uint16_t *answer, struct typed_headers_bytes_range *room,
                                     size_t room_length, size_t *written);

/*
 * What `typed_headers_respond` gives for these fields. Refused: as for `typed_headers_section_evaluate`, or the media
 * type is no line, or the boundary is none. Memory: the media type isn't empty, or the boundary is one.
 */
uint8_t typed_headers_section_respond(const struct typed_headers_section *fields, const uint8_t *method,
                                      size_t method_length, const struct typed_headers_target *target,
                                      const struct typed_headers_content *content,
                                      struct typed_headers_response *response,
                                      struct typed_headers_bytes_range *parts, size_t parts_length,
                                      size_t *parts_written, uint8_t *room, size_t room_length, size_t *written);

/*
 * What `typed_headers_choose_type`, `_coding` and `_language` give for the lines of Accept, Accept-Encoding and
 * Accept-Language. Absent also: none is acceptable. Refused: a line of the offers can't be one.
 */
uint8_t typed_headers_section_choose_type(const struct typed_headers_section *fields, const uint8_t *offers,
                                          size_t offers_length, size_t *place);
uint8_t typed_headers_section_choose_coding(const struct typed_headers_section *fields, const uint8_t *offers,
                                            size_t offers_length, size_t *place);
uint8_t typed_headers_section_choose_language(const struct typed_headers_section *fields, const uint8_t *offers,
                                              size_t offers_length, size_t *place);

/*
 * Opens the handle of a policy with a server's rules. Refused: the handle is open, or `typed_headers_cors_answer`
 * rejects the rules. Memory: the handle is closed.
 */
uint8_t typed_headers_cors_policy_new(struct typed_headers_cors_policy *policy,
                                      const struct typed_headers_cors_rules *rules);

/*
 * What `typed_headers_cors_answer` gives for these rules and fields. Refused: the method is no token, or a line of the
 * response before the first empty one is no field. Too large: the response has more names than a map has room for
 * (24,576). Memory: nothing is rejected.
 */
uint8_t typed_headers_cors_policy_answer(const struct typed_headers_cors_policy *policy,
                                         const struct typed_headers_section *fields,
                                         const struct typed_headers_cors_exchange *exchange,
                                         const struct typed_headers_keys *keys,
                                         struct typed_headers_cors_facts *facts, uint8_t *room, size_t room_length,
                                         size_t *written);

/*
 * Opens the handle of a resource. Refused: the handle is open, or `typed_headers_resource_answer` rejects the resource,
 * its representations or the rules. Memory: the handle is closed.
 */
uint8_t typed_headers_resource_handle_new(struct typed_headers_resource_handle *handle,
                                          const struct typed_headers_resource *resource,
                                          const struct typed_headers_representation *representations,
                                          size_t representations_length,
                                          const struct typed_headers_cors_rules *rules);

/*
 * What `typed_headers_resource_answer` gives for this resource and these fields. Refused: the method is no token, the
 * version or the status of the denial is another number, the target is in absolute-form without a host, or the
 * challenge of a 401 is empty or can't be a field line. Memory: nothing is rejected.
 */
uint8_t typed_headers_resource_handle_answer(const struct typed_headers_resource_handle *handle,
                                             const struct typed_headers_section *fields,
                                             const struct typed_headers_resource_request *request,
                                             const struct typed_headers_denial *denial,
                                             struct typed_headers_resource_facts *facts,
                                             struct typed_headers_bytes_range *parts, size_t parts_length,
                                             size_t *parts_written, uint8_t *room, size_t room_length,
                                             size_t *written);

/* ---- The connection of a server, which opens no socket and no file. Since 2.0. ---- */

/* Closes a handle, and gives its memory back. It may be closed before, or null. The status is TYPED_HEADERS_DONE. */
uint8_t typed_headers_connection_free(struct typed_headers_connection *connection);

/*
 * Opens the handle of a connection of an HTTP/1.1 server that has received nothing (RFC 9112). A request whose content
 * is longer than so many bytes is rejected. Then ask `typed_headers_connection_next` what it wants, do so, and ask
 * again. Refused: the handle is open. Memory: the handle is closed.
 */
uint8_t typed_headers_connection_new(struct typed_headers_connection *connection, size_t most_content,
                                     const struct typed_headers_keys *keys);

/*
 * Does what needs nothing of the program, and says what the connection wants then: one of `typed_headers_event`.
 * Absent, of each call on a connection: it is closed.
 */
uint8_t typed_headers_connection_next(struct typed_headers_connection *connection, uint8_t *event);

/*
 * Receives bytes, cut anywhere: all of them, or none if it runs out of memory. Refused: the connection doesn't want
 * input. Memory: `input` isn't empty.
 */
uint8_t typed_headers_connection_receive(struct typed_headers_connection *connection, const uint8_t *input,
                                         size_t input_length);

/* Says that the input ends here: the client has closed its side. Refused: the connection doesn't want input. */
uint8_t typed_headers_connection_finish_input(struct typed_headers_connection *connection);

/*
 * The method of the request that waits, the path and the query of its target, and its content. Absent also: its target
 * has no query. Refused: no request waits.
 */
uint8_t typed_headers_connection_method(const struct typed_headers_connection *connection, uint8_t *room,
                                        size_t room_length, size_t *written);
uint8_t typed_headers_connection_path(const struct typed_headers_connection *connection, uint8_t *room,
                                      size_t room_length, size_t *written);
uint8_t typed_headers_connection_query(const struct typed_headers_connection *connection, uint8_t *room,
                                       size_t room_length, size_t *written);
uint8_t typed_headers_connection_content(const struct typed_headers_connection *connection, uint8_t *room,
                                         size_t room_length, size_t *written);

/*
 * The first line of the field of this name, in any case, of the request that waits. Absent also: it has no such field.
 * Refused: the name is no field name, or no request waits. Memory: the name isn't one of the standards'.
 */
uint8_t typed_headers_connection_field(const struct typed_headers_connection *connection, const uint8_t *name,
                                       size_t name_length, uint8_t *room, size_t room_length, size_t *written);

/*
 * The field lines of the request that waits, each with a LF: the name in lower case, a colon, a space and the value.
 * Those of one name come together, in their order. Refused: no request waits. Memory: it has a field.
 */
uint8_t typed_headers_connection_fields(const struct typed_headers_connection *connection, uint8_t *room,
                                        size_t room_length, size_t *written);

/* The version of HTTP of the request that waits: 10 or 11. Refused: no request waits. */
uint8_t typed_headers_connection_version(const struct typed_headers_connection *connection, uint8_t *version);

/*
 * Begins the plan of the response to the request that waits: with this status, and without fields and content. Refused:
 * the status is no number from 100 to 999.
 */
uint8_t typed_headers_connection_plan(struct typed_headers_connection *connection, uint16_t status);

/*
 * Adds a field line to the plan, after the others. Content-Length and Connection are added where they are needed.
 * Refused: the name is no field name, or the value no field value. Memory: the handle is open.
 */
uint8_t typed_headers_connection_plan_field(struct typed_headers_connection *connection, const uint8_t *name,
                                            size_t name_length, const uint8_t *value, size_t value_length);

/* Adds bytes to the content of the plan, after what it has. Memory: the handle is open. */
uint8_t typed_headers_connection_plan_bytes(struct typed_headers_connection *connection, const uint8_t *content,
                                            size_t content_length);

/*
 * Adds bytes of what the program has open to the content of the plan, after what it has. The program sends them by
 * itself: see `typed_headers_connection_range`. Memory: the handle is open.
 */
uint8_t typed_headers_connection_plan_range(struct typed_headers_connection *connection, uint64_t start,
                                            uint64_t length);

/*
 * Answers the request that waits, by the plan. A response to HEAD has the plan of a GET, and its content isn't sent.
 * Refused: no request waits.
 */
uint8_t typed_headers_connection_respond(struct typed_headers_connection *connection);

/* The first bytes that wait to be written, as many as fit. They stay until `typed_headers_connection_sent`. */
uint8_t typed_headers_connection_output(const struct typed_headers_connection *connection, uint8_t *room,
                                        size_t room_length, size_t *written);

/* Which bytes of what the program has open are to be written, once no others wait. Absent also: none are. */
uint8_t typed_headers_connection_range(const struct typed_headers_connection *connection, uint64_t *start,
                                       uint64_t *length);

/*
 * Says that so many bytes were written: of the output, or, if none waits, of the range. Refused: the connection offers
 * fewer, and nothing changes.
 */
uint8_t typed_headers_connection_sent(struct typed_headers_connection *connection, uint64_t count);

/*
 * The response 408 to a client that is too slow (RFC 9110, section 15.5.9): the program sends it, and closes. Absent
 * also: no part of a request was received, a request waits, or bytes wait to be written. Then the program only closes.
 */
uint8_t typed_headers_connection_time_out(const struct typed_headers_connection *connection, uint8_t *room,
                                          size_t room_length, size_t *written);

/* The status by which the connection rejected what it received, as 400. Absent also: it rejected nothing. */
uint8_t typed_headers_connection_rejection(const struct typed_headers_connection *connection, uint16_t *status);

/* The status of the plan, and how many bytes its content has. */
uint8_t typed_headers_connection_planned(const struct typed_headers_connection *connection, uint16_t *status,
                                         uint64_t *length);

/* ---- A pass: one client's request through a cache, from its arrival to its last byte. Since 2.0. ---- */

/*
 * Closes a pass, and gives its memory back. It may be closed before, or null. A pass may be closed at any time: nothing
 * more is stored of it. The status is TYPED_HEADERS_DONE.
 */
uint8_t typed_headers_pass_free(struct typed_headers_pass *pass);

/*
 * Opens a closed pass for a request, and says what is done first, at the present `now` (RFC 9111, section 4): one of
 * `typed_headers_pass_action`. The steps of passes through one cache may interleave in any way. Each later step of the
 * pass takes the same cache. A program holds its lock of the cache for one call, and none while it reads content or
 * waits for the origin.
 *
 * Refused: the pass is open, the target is no UTF-8, the method is no token, or a line of the section before its first
 * empty one is no field. Absent: the cache is closed. Memory: nothing is rejected. On each of these the pass stays as
 * it was, and a program forwards the request as it is, and then what comes. If that is a 2xx or 3xx, and the method
 * isn't known to be safe, call `typed_headers_cache_remove` (RFC 9111, section 4.4): it never runs out of memory.
 */
uint8_t typed_headers_pass_begin(struct typed_headers_cache *cache, struct typed_headers_pass *pass,
                                 const struct typed_headers_cache_request *request, uint64_t now,
                                 struct typed_headers_pass_facts *facts);

/*
 * Says what is done after WAIT. It is WAIT again while the other pass hasn't ended, and asked less than the seconds ago
 * that the cache waits. A pass waits for one other alone. Absent: the cache or the pass is closed, or the pass doesn't
 * wait; nothing changes then. Memory: the pass waits. Then a program forwards the request as it is, and then what
 * comes.
 */
uint8_t typed_headers_pass_resume(struct typed_headers_cache *cache, struct typed_headers_pass *pass, uint64_t now,
                                  struct typed_headers_pass_facts *facts);

/*
 * Says what is done with the status and the fields of the origin's response, which came at the present `now`. A 304 to
 * a request that validates updates what is stored (RFC 9111, section 4.3.4). A response to a request that isn't safe
 * removes what it outdates (section 4.4). One that says that the origin failed is replaced by a stored one where that
 * may be served now (RFC 5861, section 4).
 *
 * Refused: the status is no number from 100 to 999, or a line of the section before its first empty one is no field.
 * Absent: the cache or the pass is closed, or the pass doesn't ask the origin. On these two nothing changes. Memory:
 * nothing is rejected. Then what came is passed on and not stored, and it may be that nothing was removed: see
 * `typed_headers_pass_begin`. If it is a 304 to a request that validates, the request is forwarded again as it is.
 */
uint8_t typed_headers_pass_came(struct typed_headers_cache *cache, struct typed_headers_pass *pass, uint16_t status,
                                const uint8_t *section, size_t section_length, uint64_t now,
                                struct typed_headers_pass_facts *facts);

/*
 * Says what is done if no response of the origin came. Absent: the cache or the pass is closed, or the pass doesn't ask
 * the origin; nothing changes then. Memory: the pass asks the origin. Then 502 is sent.
 */
uint8_t typed_headers_pass_failed(struct typed_headers_cache *cache, struct typed_headers_pass *pass, uint64_t now,
                                  struct typed_headers_pass_facts *facts);

/*
 * The field lines that the last step takes, each with a LF: of REPLY and REPLY_AND_VALIDATE those to send, with the
 * present Age, which are those of a 206, a 304 or a 416 where the request's own conditions and ranges ask for that; of
 * VALIDATE those by which the origin is asked; else none. Absent: the pass is closed.
 */
uint8_t typed_headers_pass_fields(const struct typed_headers_pass *pass, uint8_t *room, size_t room_length,
                                  size_t *written);

/*
 * The field line of Cache-Status (RFC 9211) for the pass. It names the cache so. Ask after the step that names what is
 * sent. Refused: the name isn't visible ASCII and spaces. Absent: the pass is closed. Memory: nothing is rejected.
 */
uint8_t typed_headers_pass_status(const struct typed_headers_pass *pass, const uint8_t *name, size_t name_length,
                                  uint8_t *room, size_t room_length, size_t *written);

/*
 * The request that validates what a pass has sent stale: its field lines, each with a LF (RFC 5861, section 3). A new
 * pass, which answers nobody, begins with it, of the same method and target, and it is forwarded so. Its fields are the
 * client's, without conditions and Range; and Cache-Control says `no-cache` alone, and `no-store` if the client's says
 * it. Absent: the pass is closed. Too large: there are as many names as a map has room for (24,576), and none is
 * Cache-Control. Memory: nothing is rejected.
 */
uint8_t typed_headers_pass_validation(const struct typed_headers_pass *pass, uint8_t *room, size_t room_length,
                                      size_t *written);

/*
 * The content of the stored response that the last step of a pass named, from a position on: as much of it as fits. The
 * pass shares it with the cache until its next step, so no call on the cache changes it, and this call may overlap with
 * all of those, and with calls on other passes. Absent: the step named none, or the pass is closed.
 */
uint8_t typed_headers_pass_content(const struct typed_headers_pass *pass, size_t from, uint8_t *room,
                                   size_t room_length, size_t *written);

/*
 * Keeps the next piece of the content that is forwarded, to be stored. If the pieces are more than the cache may have,
 * the pass keeps none, and the response isn't stored. This call, too, may overlap with those on the cache and on other
 * passes. Absent: the pass is closed, or no response is forwarded that is to be stored; nothing changes then. Memory:
 * the piece isn't empty. Then the pass keeps none, too.
 */
uint8_t typed_headers_pass_received(struct typed_headers_pass *pass, const uint8_t *piece, size_t piece_length);

/*
 * Stores the response that passed on, with the pieces of its content, if all of them came and it may be stored (RFC
 * 9111, section 3), and unless its target was removed since the origin was asked: `*number` is its number, which the
 * cache gives no other response, or 0 if it isn't stored. Absent: the cache or the pass is closed, or no response is
 * forwarded that is to be stored; nothing changes then. Memory: all of it came. Then it isn't stored.
 */
uint8_t typed_headers_pass_ended(struct typed_headers_cache *cache, struct typed_headers_pass *pass,
                                 bool is_complete, uint64_t now, uint64_t *number);

/* ---- Files that the program opens, and a service that decides on them. Since 2.0. ---- */

/* Closes a handle, and gives its memory back. It may be closed before, or null. The status is TYPED_HEADERS_DONE. */
uint8_t typed_headers_files_free(struct typed_headers_files *files);

/*
 * Opens the handle of a service of files below a folder. It serves many connections. Entity tags are hashed with the
 * keys, so that they don't show what they are made of: take the same for all that serve the folder.
 *
 * Refused: the handle is open, `cache_control` or a line of `hosts` is no field value, or the boundary is none (RFC
 * 2046, section 5.1.1). Memory: the handle is closed.
 */
uint8_t typed_headers_files_new(struct typed_headers_files *files, const struct typed_headers_files_options *options,
                                const struct typed_headers_keys *keys);

/*
 * The path to open next for the request that waits. `found` tells what it found at those before, in the order in which
 * it was asked: at first there are none. The path is relative to the folder, and consists of names with a slash between
 * each two. None is empty, none begins with a dot, but for `.well-known` as the first, and none has a NUL or a
 * backslash. Open it so that no link leads out of the folder: by openat2 with RESOLVE_BENEATH.
 *
 * Absent: nothing is left to open, so call `typed_headers_files_plan`; or a handle is closed. Refused: no request
 * waits. Memory: a request waits, and both handles are open.
 */
uint8_t typed_headers_files_path(const struct typed_headers_files *files,
                                 const struct typed_headers_connection *connection,
                                 const struct typed_headers_entry *found, size_t found_length, uint8_t *room,
                                 size_t room_length, size_t *written);

/*
 * Makes the plan of the response, by what the program found at the paths (RFC 9110). Then call
 * `typed_headers_connection_respond`. `now` is the time in seconds since the start of 1970. With `is_last` the response
 * says that the connection ends. `*source` is the place in `found` of the file that the response is about: the ranges
 * of the plan are of this file, which stays open until they are sent. If it is about none, that is how many entries
 * there are.
 *
 * Refused: no request waits, or `typed_headers_files_path` still gives a path. Absent: a handle is closed. Memory:
 * nothing is rejected; the plan has no meaning then.
 */
uint8_t typed_headers_files_plan(struct typed_headers_files *files, struct typed_headers_connection *connection,
                                 const struct typed_headers_entry *found, size_t found_length, uint64_t now,
                                 bool is_last, size_t *source);

/* ---- A gateway's connection to a client, and at most one to an origin, which opens no socket. Since 2.0. ---- */

/* Closes a handle, and gives its memory back. It may be closed before, or null. The status is TYPED_HEADERS_DONE. */
uint8_t typed_headers_gate_rules_free(struct typed_headers_gate_rules *rules);
uint8_t typed_headers_gate_free(struct typed_headers_gate *gate);
uint8_t typed_headers_gate_origin_free(struct typed_headers_gate_origin *origin);

/*
 * Opens the handle of what a gateway does with each request. Refused: the handle is open, the gateway's name is no
 * token, a protected name is no field name, or the authority no field value. Memory: the handle is closed.
 */
uint8_t typed_headers_gate_rules_new(struct typed_headers_gate_rules *rules,
                                     const struct typed_headers_gateway *gateway,
                                     const struct typed_headers_gate_options *options);

/*
 * Opens the handle of a connection to a client that has received nothing (RFC 9112). A request with a longer head is
 * rejected. Then ask `typed_headers_gate_next`, do what it says, and ask again. Refused: the handle is open, or the
 * node is none. Memory: the handle is closed.
 */
uint8_t typed_headers_gate_new(struct typed_headers_gate *gate, const struct typed_headers_gate_peer *peer,
                               size_t most_head, const struct typed_headers_keys *keys);

/*
 * Opens the handle of a connection to an origin over which nothing went. Refused: the handle is open. Memory: the
 * handle is closed.
 */
uint8_t typed_headers_gate_origin_new(struct typed_headers_gate_origin *origin, size_t most_head,
                                      const struct typed_headers_keys *keys);

/*
 * Says what comes next, which phase it is, and what to wait for. `now` is the time in seconds since the start of 1970.
 * Absent, of each call on such a handle: it is closed. Refused: the date lies past the year 9999.
 */
uint8_t typed_headers_gate_next(struct typed_headers_gate *gate, struct typed_headers_gate_rules *rules,
                                uint64_t now, struct typed_headers_gate_facts *facts);

/*
 * Receives bytes of a side, one of `typed_headers_gate_side`, cut anywhere: all of them, or none if it runs out of
 * memory. Refused, here and below: there is no such side. Memory: `input` isn't empty.
 */
uint8_t typed_headers_gate_receive(struct typed_headers_gate *gate, uint8_t side, const uint8_t *input,
                                   size_t input_length);

/* Says that the input of a side ends here, or that it failed. */
uint8_t typed_headers_gate_finish(struct typed_headers_gate *gate, uint8_t side);

/* The first bytes that wait to be written to a side, as many as fit. They stay until `typed_headers_gate_sent`. */
uint8_t typed_headers_gate_output(struct typed_headers_gate *gate, uint8_t side, uint8_t *room, size_t room_length,
                                  size_t *written);

/* Says that so many bytes were written to a side. Refused also: fewer wait, and nothing changes. */
uint8_t typed_headers_gate_sent(struct typed_headers_gate *gate, uint8_t side, uint64_t count);

/*
 * Says the time, in seconds since 1970. The gateway's own answers have it as Date (RFC 9110, section 6.6.1) until it is
 * said anew. Refused: it lies past the year 9999, and nothing changes.
 */
uint8_t typed_headers_gate_clock(struct typed_headers_gate *gate, uint64_t now);

/*
 * Says that the time limit of the phase is over. What `typed_headers_gate_next` says then is one of: an answer 408 or
 * 504, an end, or that both connections are to be closed.
 */
uint8_t typed_headers_gate_timed_out(struct typed_headers_gate *gate);

/* Says that the connection ends after the next response, or at once if it is idle. */
uint8_t typed_headers_gate_close_after(struct typed_headers_gate *gate);

/*
 * The method of the request that waits or is passed on, its target as it is sent, and the host and the port that it is
 * for. Absent also: there is none.
 */
uint8_t typed_headers_gate_method(struct typed_headers_gate *gate, uint8_t *room, size_t room_length,
                                  size_t *written);
uint8_t typed_headers_gate_target(struct typed_headers_gate *gate, uint8_t *room, size_t room_length,
                                  size_t *written);
uint8_t typed_headers_gate_authority(struct typed_headers_gate *gate, uint8_t *room, size_t room_length,
                                     size_t *written);

/*
 * The URI of its target (RFC 9110, section 7.1), as a cache has it as a key. Absent also: there is no request. Memory:
 * the handle is open.
 */
uint8_t typed_headers_gate_key(struct typed_headers_gate *gate, uint8_t *room, size_t room_length, size_t *written);

/*
 * The first line of its field of this name, in any case. Absent also: it has no such field, or there is no request.
 * Refused: the name is no field name. Memory: the name isn't one of the standards'.
 */
uint8_t typed_headers_gate_field(struct typed_headers_gate *gate, const uint8_t *name, size_t name_length,
                                 uint8_t *room, size_t room_length, size_t *written);

/* Its field lines as received, each with a LF. Absent also: there is no request. Memory: it has a field. */
uint8_t typed_headers_gate_fields(struct typed_headers_gate *gate, uint8_t *room, size_t room_length,
                                  size_t *written);

/*
 * Whether (1 or 0) the request that waits or is passed on is for this host, in any case and at any port, and below this
 * path. An empty host is each one. Absent also: there is no request.
 */
uint8_t typed_headers_gate_is_for(struct typed_headers_gate *gate, const uint8_t *host, size_t host_length,
                                  const uint8_t *path, size_t path_length, uint8_t *answer);

/*
 * Which of these authorities, one a line, the CONNECT that waits is for (RFC 9110, section 9.3.6): the number, from 0,
 * of the first with its host, in any case, and its port. Connect there, and then say `typed_headers_gate_connected`, or
 * answer. Refused: it is for none, and was answered by 403. Absent also: no CONNECT waits. Without a tunnel, the
 * client's connection ends after the response.
 */
uint8_t typed_headers_gate_connect_to(struct typed_headers_gate *gate, const uint8_t *targets, size_t targets_length,
                                      uint64_t *number);

/*
 * Answers the CONNECT that waits by 200: then comes TYPED_HEADERS_GATE_TUNNEL. Bytes that the client sent early are the
 * tunnel's.
 */
uint8_t typed_headers_gate_connected(struct typed_headers_gate *gate);

/*
 * Sends these If-None-Match and If-Modified-Since in place of its own, as a cache that validates does. Refused: a line
 * of the section before its first empty one is no field. Memory: the handle is open.
 */
uint8_t typed_headers_gate_conditions(struct typed_headers_gate *gate, const uint8_t *section, size_t section_length,
                                      const struct typed_headers_keys *keys);

/* Sends it over a connection to an origin, whose handle is closed then. Absent also: one of them is closed. */
uint8_t typed_headers_gate_forward(struct typed_headers_gate *gate, struct typed_headers_gate_origin *origin);

/* Drops the origin's response that waits, and asks again without conditions. */
uint8_t typed_headers_gate_again(struct typed_headers_gate *gate);

/*
 * Answers the request that waits, also in place of the origin's response, without content. Refused: the status is no
 * number from 100 to 999.
 */
uint8_t typed_headers_gate_answer(struct typed_headers_gate *gate, uint16_t status);

/*
 * Begins a response with these fields, and so many bytes of content, to the request that waits, also in place of the
 * origin's. Its Content-Length is the length of that content, whatever these fields state. To HEAD, and in a 304, it is
 * the number that all its field lines state, or there is none; a 204 has none. Refused: none waits, the status is no
 * number from 100 to 999, a line of the section before its first empty one is no field, or the response can't be sent.
 * Memory: the handle is open.
 */
uint8_t typed_headers_gate_respond(struct typed_headers_gate *gate, uint16_t status, const uint8_t *section,
                                   size_t section_length, uint64_t length, const struct typed_headers_keys *keys);

/*
 * Adds a piece to the content of that response. Refused: none has begun, or it has more content then. Memory: the piece
 * isn't empty.
 */
uint8_t typed_headers_gate_push(struct typed_headers_gate *gate, const uint8_t *piece, size_t piece_length);

/* Ends that response. Refused: none has begun, or content is missing. Memory: the handle is open. */
uint8_t typed_headers_gate_end(struct typed_headers_gate *gate);

/*
 * The status of the origin's response that waits or is passed on, and its field lines, each with a LF. Absent also:
 * there is none. `*status` is given also if they don't fit. Memory: it has a field.
 */
uint8_t typed_headers_gate_response(struct typed_headers_gate *gate, uint16_t *status, uint8_t *room,
                                    size_t room_length, size_t *written);

/*
 * Adds field lines to the origin's response that waits. They go after those that are forwarded, in place of any that
 * were added before. Refused: none waits; a line of the section before its first empty one is no field; or one frames
 * the message, is for one connection, or has a name that the gateway writes itself. Memory: the handle is open.
 */
uint8_t typed_headers_gate_add(struct typed_headers_gate *gate, const uint8_t *section, size_t section_length,
                               const struct typed_headers_keys *keys);

/* Passes the origin's response that waits on. */
uint8_t typed_headers_gate_pass(struct typed_headers_gate *gate);

/* The piece of its content that was passed to the client last. */
uint8_t typed_headers_gate_piece(struct typed_headers_gate *gate, uint8_t *room, size_t room_length,
                                 size_t *written);

/*
 * Opens a closed handle with the connection to the origin, for another request. Absent also: no other may go over it.
 * Refused: the handle is open. Memory: there is such a connection.
 */
uint8_t typed_headers_gate_take(struct typed_headers_gate *gate, struct typed_headers_gate_origin *origin);

/* The status of the last answer. Absent also: it wasn't the gateway's own. */
uint8_t typed_headers_gate_own(struct typed_headers_gate *gate, uint16_t *status);

/* Goes on with the bytes of the other protocol, after TYPED_HEADERS_GATE_TUNNEL. Memory: the handle is closed then. */
uint8_t typed_headers_gate_tunnel(struct typed_headers_gate *gate);

/*
 * Receives a request without content as the client's, as for `typed_headers_pass_validation`. Memory: the handle is
 * open.
 */
uint8_t typed_headers_gate_ask(struct typed_headers_gate *gate, const uint8_t *method, size_t method_length,
                               const uint8_t *target, size_t target_length, const uint8_t *section,
                               size_t section_length);

/* ---- A gateway's connections to origins that can answer the same requests, which opens no socket. Since 2.0. ---- */

/* Closes a handle, and gives its memory back. It may be closed before, or null. The status is TYPED_HEADERS_DONE. */
uint8_t typed_headers_gate_pool_free(struct typed_headers_gate_pool *pool);

/* Opens the handle of a pool without connections. Refused: the handle is open. Memory: the handle is closed. */
uint8_t typed_headers_gate_pool_new(struct typed_headers_gate_pool *pool,
                                    const struct typed_headers_gate_pool_options *options);

/*
 * Where a request goes out. The program numbers requests, and gives each its own number. `now` is in milliseconds, and
 * never goes back. `key` is a hash of what is to go to the same origin, if the options say so. Memory: a connection is
 * to be opened. Out of memory nothing changes.
 */
uint8_t typed_headers_gate_pool_lease(struct typed_headers_gate_pool *pool, uint64_t request, uint64_t now,
                                      uint64_t key, struct typed_headers_gate_lease *lease);

/* Says that a connection was opened, so that its origin doesn't fail. */
uint8_t typed_headers_gate_pool_opened(struct typed_headers_gate_pool *pool, uint64_t connection);

/*
 * Says that a connection couldn't be opened. It is no more, and its request isn't for that origin any more. Out of
 * memory nothing changes.
 */
uint8_t typed_headers_gate_pool_failed(struct typed_headers_gate_pool *pool, uint64_t connection, uint64_t now);

/*
 * Says that a connection ended before an answer, and its request may be repeated, as TYPED_HEADERS_GATE_REPEAT says.
 * Gives 1 if it goes out again, once and on a new connection (RFC 9112, section 9.3.1), otherwise 0. Out of memory
 * nothing changes.
 */
uint8_t typed_headers_gate_pool_ended(struct typed_headers_gate_pool *pool, uint64_t connection, uint8_t *again);

/*
 * Says that an exchange is over, and `typed_headers_gate_take` gave its connection. Gives 1 if that is kept for another
 * request, or 0 if it is to be closed.
 */
uint8_t typed_headers_gate_pool_release(struct typed_headers_gate_pool *pool, uint64_t connection, uint8_t *kept);

/* Says that a connection is closed, has ended, or had a byte that nobody asked for. No request gets it any more. */
uint8_t typed_headers_gate_pool_gone(struct typed_headers_gate_pool *pool, uint64_t connection);

/* Says that a request is over, so that what failed for it is forgotten. */
uint8_t typed_headers_gate_pool_finished(struct typed_headers_gate_pool *pool, uint64_t request);

/* ---- The end of what it writes. ---- */

#ifdef __cplusplus
}
#endif

#endif
