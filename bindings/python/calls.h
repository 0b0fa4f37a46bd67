/* Written by tools/c_calls from include/calls.txt. */
union slot {
    SLOT
    union {
        struct typed_headers_directive_seconds directive_seconds;
        struct typed_headers_bytes_range bytes_range;
        struct typed_headers_content_range content_range;
        struct typed_headers_cors_facts cors_facts;
        struct typed_headers_moments moments;
        struct typed_headers_cache_options cache_options;
        struct typed_headers_pass_facts pass_facts;
        struct typed_headers_response response;
        struct typed_headers_quality quality;
        struct typed_headers_handshake handshake;
        struct typed_headers_representation representation;
        struct typed_headers_resource_facts resource_facts;
        struct typed_headers_framing framing;
        struct typed_headers_port port;
        struct typed_headers_transport_security transport_security;
        struct typed_headers_retry_time retry_time;
        struct typed_headers_stale_directives stale_directives;
        struct typed_headers_entry entry;
        struct typed_headers_gate_pool_options gate_pool_options;
        struct typed_headers_gate_lease gate_lease;
        struct typed_headers_gate_facts gate_facts;
        struct typed_headers_request request;
        struct typed_headers_message message;
        struct typed_headers_target target;
        struct typed_headers_cache_directives cache_directives;
        struct typed_headers_cors_rules cors_rules;
        struct typed_headers_cors_exchange cors_exchange;
        struct typed_headers_stored stored;
        struct typed_headers_cache_extensions cache_extensions;
        struct typed_headers_cache_request cache_request;
        struct typed_headers_content content;
        struct typed_headers_websocket_rules websocket_rules;
        struct typed_headers_websocket_exchange websocket_exchange;
        struct typed_headers_resource resource;
        struct typed_headers_resource_request resource_request;
        struct typed_headers_denial denial;
        struct typed_headers_gateway gateway;
        struct typed_headers_hop hop;
        struct typed_headers_request_outcome request_outcome;
        struct typed_headers_response_outcome response_outcome;
        struct typed_headers_framing_outcome framing_outcome;
        struct typed_headers_origin_parts origin_parts;
        struct typed_headers_files_options files_options;
        struct typed_headers_gate_options gate_options;
        struct typed_headers_gate_peer gate_peer;
    } any;
};

SHAPE(directive_seconds, FLAGGED(directive_seconds, seconds, U64, is_set))
SHAPE(bytes_range, MEMBER(bytes_range, first, U64), MEMBER(bytes_range, last, U64))
SHAPE(content_range, MEMBER(content_range, first, U64), MEMBER(content_range, last, U64),
      FLAGGED(content_range, length, U64, has_length), MEMBER(content_range, has_range, U8))
SHAPE(cors_facts, MEMBER(cors_facts, kind, U8), MEMBER(cors_facts, is_allowed, U8))
SHAPE(moments, MEMBER(moments, request, U64), MEMBER(moments, response, U64), MEMBER(moments, now, U64))
SHAPE(cache_options, MEMBER(cache_options, variants, SIZE), MEMBER(cache_options, responses, SIZE),
      MEMBER(cache_options, bytes, SIZE), MEMBER(cache_options, guess, U64), MEMBER(cache_options, is_shared, BOOL))
SHAPE(pass_facts, MEMBER(pass_facts, first, U64), MEMBER(pass_facts, count, U64), MEMBER(pass_facts, status, U16),
      MEMBER(pass_facts, action, U8))
SHAPE(response, MEMBER(response, status, U16), MEMBER(response, keeps_encoding, U8))
SHAPE(quality, MEMBER(quality, weight, U16), MEMBER(quality, is_acceptable, U8))
SHAPE(handshake, MEMBER(handshake, status, U16), MEMBER(handshake, fault, U8))
SHAPE(representation, FLAGGED(representation, length, U64, has_length),
      FLAGGED(representation, last_modified, U64, has_last_modified), MEMBER(representation, sends_ranges, BOOL),
      MEMBER(representation, is_date_strong, BOOL))
SHAPE(resource_facts, FLAGGED(resource_facts, place, SIZE, has_place), MEMBER(resource_facts, status, U16),
      MEMBER(resource_facts, reason, U8), MEMBER(resource_facts, sends, U8))
SHAPE(framing, MEMBER(framing, length, U64), MEMBER(framing, kind, U8))
SHAPE(port, FLAGGED(port, number, U16, is_set))
SHAPE(transport_security, MEMBER(transport_security, max_age, U64),
      MEMBER(transport_security, include_subdomains, U8))
SHAPE(retry_time, MEMBER(retry_time, seconds, U64), MEMBER(retry_time, is_date, U8))
SHAPE(stale_directives, FLAGGED(stale_directives, while_revalidate, U64, has_while_revalidate),
      FLAGGED(stale_directives, if_error, U64, has_if_error))
SHAPE(entry, MEMBER(entry, length, U64), MEMBER(entry, modified, U64), MEMBER(entry, device, U64),
      MEMBER(entry, inode, U64), MEMBER(entry, changed, U64), MEMBER(entry, changed_nanosecond, U64),
      MEMBER(entry, kind, U8))
SHAPE(gate_pool_options, MEMBER(gate_pool_options, origins, SIZE), MEMBER(gate_pool_options, failures, U64),
      MEMBER(gate_pool_options, pause, U64), MEMBER(gate_pool_options, most, U64),
      MEMBER(gate_pool_options, idle, U64), MEMBER(gate_pool_options, hashes, BOOL))
SHAPE(gate_lease, MEMBER(gate_lease, connection, U64), MEMBER(gate_lease, origin, SIZE),
      MEMBER(gate_lease, kind, U8))
SHAPE(gate_facts, MEMBER(gate_facts, piece, U64), MEMBER(gate_facts, event, U8), MEMBER(gate_facts, phase, U8),
      MEMBER(gate_facts, client_input, BOOL), MEMBER(gate_facts, client_output, BOOL),
      MEMBER(gate_facts, origin_input, BOOL), MEMBER(gate_facts, origin_output, BOOL),
      MEMBER(gate_facts, ends_client, BOOL), MEMBER(gate_facts, ends_origin, BOOL))
SHAPE(request, MEMBER(request, method, A_TEXT), MEMBER(request, section, A_TEXT))
SHAPE(message, MEMBER(message, method, A_TEXT), MEMBER(message, section, A_TEXT), MEMBER(message, status, U16),
      MEMBER(message, version, U8))
SHAPE(target, MEMBER(target, etag, A_TEXT), FLAGGED(target, last_modified, U64, has_last_modified),
      MEMBER(target, present, U64), MEMBER(target, exists, BOOL), MEMBER(target, is_date_strong, BOOL))
SHAPE(cache_directives, INNER(cache_directives, max_age, directive_seconds),
      INNER(cache_directives, max_stale, directive_seconds), INNER(cache_directives, min_fresh, directive_seconds),
      INNER(cache_directives, s_maxage, directive_seconds), MEMBER(cache_directives, no_cache, U8),
      MEMBER(cache_directives, no_store, U8), MEMBER(cache_directives, no_transform, U8),
      MEMBER(cache_directives, only_if_cached, U8), MEMBER(cache_directives, must_revalidate, U8),
      MEMBER(cache_directives, must_understand, U8), MEMBER(cache_directives, is_public, U8),
      MEMBER(cache_directives, is_private, U8), MEMBER(cache_directives, immutable, U8),
      MEMBER(cache_directives, proxy_revalidate, U8))
SHAPE(cors_rules, MEMBER(cors_rules, origins, A_TEXT), MEMBER(cors_rules, methods, A_TEXT),
      MEMBER(cors_rules, headers, A_TEXT), MEMBER(cors_rules, exposed, A_TEXT),
      FLAGGED(cors_rules, max_age, U64, has_max_age), MEMBER(cors_rules, credentials, BOOL))
SHAPE(cors_exchange, MEMBER(cors_exchange, method, A_TEXT), MEMBER(cors_exchange, response, A_TEXT))
SHAPE(stored, MEMBER(stored, method, A_TEXT), MEMBER(stored, request, A_TEXT), MEMBER(stored, response, A_TEXT))
SHAPE(cache_extensions, MEMBER(cache_extensions, targets, A_TEXT), MEMBER(cache_extensions, immutable, BOOL),
      MEMBER(cache_extensions, wait, U64))
SHAPE(cache_request, MEMBER(cache_request, target, A_TEXT), MEMBER(cache_request, method, A_TEXT),
      MEMBER(cache_request, section, A_TEXT))
SHAPE(content, MEMBER(content, media_type, A_TEXT), MEMBER(content, boundary, A_TEXT),
      FLAGGED(content, length, U64, has_length), MEMBER(content, sends_ranges, BOOL))
SHAPE(websocket_rules, MEMBER(websocket_rules, protocols, A_TEXT), MEMBER(websocket_rules, origins, A_TEXT))
SHAPE(websocket_exchange, MEMBER(websocket_exchange, sent, A_TEXT), MEMBER(websocket_exchange, response, A_TEXT),
      MEMBER(websocket_exchange, status, U16))
SHAPE(resource, MEMBER(resource, hosts, A_TEXT), MEMBER(resource, methods, A_TEXT),
      MEMBER(resource, creating, A_TEXT), MEMBER(resource, guarded, A_TEXT), MEMBER(resource, accept, A_TEXT),
      MEMBER(resource, accept_encoding, A_TEXT), MEMBER(resource, location, A_TEXT),
      MEMBER(resource, media_types, A_TEXT), MEMBER(resource, languages, A_TEXT), MEMBER(resource, codings, A_TEXT),
      MEMBER(resource, etags, A_TEXT), MEMBER(resource, boundary, A_TEXT),
      FLAGGED(resource, implemented, A_TEXT, has_implemented), FLAGGED(resource, limit, U64, has_limit),
      MEMBER(resource, state, U16), MEMBER(resource, by_media_type, BOOL), MEMBER(resource, by_language, BOOL),
      MEMBER(resource, by_coding, BOOL), MEMBER(resource, is_strict, BOOL), MEMBER(resource, needs_length, BOOL),
      MEMBER(resource, has_cors, BOOL), MEMBER(resource, has_strong_dates, BOOL))
SHAPE(resource_request, MEMBER(resource_request, method, A_TEXT), MEMBER(resource_request, target, A_TEXT),
      MEMBER(resource_request, present, U64), FLAGGED(resource_request, length, U64, has_length),
      MEMBER(resource_request, version, U8), MEMBER(resource_request, has_content, BOOL))
SHAPE(denial, MEMBER(denial, challenge, A_TEXT), FLAGGED(denial, retry_after, U64, has_retry_after),
      MEMBER(denial, status, U16))
SHAPE(gateway, MEMBER(gateway, name, A_TEXT), MEMBER(gateway, protected_fields, A_TEXT),
      MEMBER(gateway, consumes_credentials, BOOL), MEMBER(gateway, passes_underscores, BOOL))
SHAPE(hop, MEMBER(hop, client, A_TEXT), MEMBER(hop, interface_node, A_TEXT), MEMBER(hop, client_port, U16),
      MEMBER(hop, interface_port, U16), MEMBER(hop, server_version, U8), MEMBER(hop, is_secure, BOOL),
      MEMBER(hop, is_trusted, BOOL), MEMBER(hop, writes_forwarded, BOOL), MEMBER(hop, writes_x_forwarded, BOOL),
      MEMBER(hop, tells_host, BOOL), MEMBER(hop, closes, BOOL), MEMBER(hop, accepts_trailers, BOOL))
SHAPE(request_outcome, INNER(request_outcome, framing, framing), MEMBER(request_outcome, status, U16),
      MEMBER(request_outcome, action, U8), MEMBER(request_outcome, reason, U8),
      MEMBER(request_outcome, sends_continue, U8))
SHAPE(response_outcome, INNER(response_outcome, received, framing), INNER(response_outcome, sent, framing),
      MEMBER(response_outcome, status, U16), MEMBER(response_outcome, action, U8),
      MEMBER(response_outcome, reason, U8))
SHAPE(framing_outcome, INNER(framing_outcome, framing, framing), MEMBER(framing_outcome, status, U16),
      MEMBER(framing_outcome, reason, U8))
SHAPE(origin_parts, MEMBER(origin_parts, scheme_length, SIZE), INNER(origin_parts, port, port),
      MEMBER(origin_parts, is_null, U8))
SHAPE(files_options, MEMBER(files_options, cache_control, A_TEXT), MEMBER(files_options, hosts, A_TEXT),
      MEMBER(files_options, boundary, A_TEXT), MEMBER(files_options, negotiates, BOOL))
SHAPE(gate_options, MEMBER(gate_options, authority, A_TEXT), MEMBER(gate_options, writes_forwarded, BOOL),
      MEMBER(gate_options, writes_x_forwarded, BOOL), MEMBER(gate_options, answers_expect, BOOL),
      MEMBER(gate_options, passes_websocket, BOOL), MEMBER(gate_options, passes_connect, BOOL))
SHAPE(gate_peer, MEMBER(gate_peer, node, A_TEXT), MEMBER(gate_peer, port, U16), MEMBER(gate_peer, is_secure, BOOL),
      MEMBER(gate_peer, is_trusted, BOOL))

HANDLE(cache)
HANDLE(section)
HANDLE(cors_policy)
HANDLE(resource_handle)
HANDLE(connection)
HANDLE(pass)
HANDLE(files)
HANDLE(gate_rules)
HANDLE(gate)
HANDLE(gate_origin)
HANDLE(gate_pool)

CALL(canonical, MAY(REFUSED) | MAY(TOO_LARGE) | MAY(MARKED) | MAY(NO_MEMORY), (TEXT_OF(at[0]), &keys, ROOM(at[1])),
     PLAIN(GIVEN_TEXT), PLAIN(ROOM_OF_BYTES))
CALL(field, MAY(REFUSED) | MAY(ABSENT) | MAY(NO_MEMORY), (TEXT_OF(at[0]), FIELD(at[1]), ROOM(at[2])),
     PLAIN(GIVEN_TEXT), PLAIN(LINES), PLAIN(ROOM_OF_BYTES))
CALL(age, MAY(REFUSED) | MAY(ABSENT) | MAY(NO_MEMORY), (FIELD(at[0]), &at[1].u64), PLAIN(LINES),
     OF_KIND(OUT_NUMBER, U64))
CALL(content_length, MAY(REFUSED) | MAY(ABSENT) | MAY(NO_MEMORY), (FIELD(at[0]), &at[1].u64), PLAIN(LINES),
     OF_KIND(OUT_NUMBER, U64))
CALL(date, MAY(REFUSED) | MAY(ABSENT) | MAY(NO_MEMORY), (FIELD(at[0]), &at[1].u64), PLAIN(LINES),
     OF_KIND(OUT_NUMBER, U64))
CALL(expires, MAY(REFUSED) | MAY(ABSENT) | MAY(NO_MEMORY), (FIELD(at[0]), &at[1].u64), PLAIN(LINES),
     OF_KIND(OUT_NUMBER, U64))
CALL(last_modified, MAY(REFUSED) | MAY(ABSENT) | MAY(NO_MEMORY), (FIELD(at[0]), &at[1].u64), PLAIN(LINES),
     OF_KIND(OUT_NUMBER, U64))
CALL(media_type, MAY(REFUSED) | MAY(ABSENT) | MAY(NO_MEMORY), (FIELD(at[0]), ROOM(at[1])), PLAIN(LINES),
     PLAIN(ROOM_OF_BYTES))
CALL(essence, MAY(REFUSED) | MAY(ABSENT) | MAY(NO_MEMORY), (FIELD(at[0]), ROOM(at[1])), PLAIN(LINES),
     PLAIN(ROOM_OF_BYTES))
CALL(strong_eq, MAY(REFUSED) | MAY(ABSENT) | MAY(NO_MEMORY), (FIELD(at[0]), FIELD(at[1]), &at[2].u8), PLAIN(LINES),
     PLAIN(LINES), OF_KIND(OUT_NUMBER, U8))
CALL(weak_eq, MAY(REFUSED) | MAY(ABSENT) | MAY(NO_MEMORY), (FIELD(at[0]), FIELD(at[1]), &at[2].u8), PLAIN(LINES),
     PLAIN(LINES), OF_KIND(OUT_NUMBER, U8))
CALL(cache_control, MAY(REFUSED) | MAY(ABSENT) | MAY(NO_MEMORY), (FIELD(at[0]), &at[1].any.cache_directives),
     PLAIN(LINES), OF_SHAPE(OUT_STRUCT, cache_directives))
CALL(ranges, MAY(REFUSED) | MAY(ABSENT) | MAY(NO_MEMORY), (FIELD(at[0]), at[1].u64, ROOM(at[2])), PLAIN(LINES),
     OF_KIND(NUMBER, U64), OF_SHAPE(ROOM_OF_STRUCTS, bytes_range))
CALL(format_date, MAY(REFUSED) | MAY(NO_MEMORY), (at[0].u64, ROOM(at[1])), OF_KIND(NUMBER, U64),
     PLAIN(ROOM_OF_BYTES))
CALL(format_content_range, MAY(REFUSED) | MAY(NO_MEMORY), (&at[0].any.content_range, ROOM(at[1])),
     OF_SHAPE(IN_STRUCT, content_range), PLAIN(ROOM_OF_BYTES))
CALL(format_etag, MAY(REFUSED) | MAY(NO_MEMORY), (at[0].flag, TEXT_OF(at[1]), ROOM(at[2])), OF_KIND(NUMBER, BOOL),
     PLAIN(GIVEN_TEXT), PLAIN(ROOM_OF_BYTES))
CALL(evaluate, MAY(REFUSED) | MAY(TOO_LARGE) | MAY(NO_MEMORY), (&at[0].any.request, &keys, &at[1].any.target,
     &at[2].u16), OF_SHAPE(IN_STRUCT, request), OF_SHAPE(IN_STRUCT, target), OF_KIND(OUT_NUMBER, U16))
CALL(select, MAY(REFUSED) | MAY(ABSENT) | MAY(TOO_LARGE) | MAY(NO_MEMORY), (&at[0].any.request, &keys,
     &at[1].any.target, at[2].u64, &at[3].u16, ROOM(at[4])), OF_SHAPE(IN_STRUCT, request),
     OF_SHAPE(IN_STRUCT, target), OF_KIND(NUMBER, U64), OF_KIND(OUT_NUMBER, U16),
     OF_SHAPE(ROOM_OF_STRUCTS, bytes_range))
CALL(respond, MAY(REFUSED) | MAY(TOO_LARGE) | MAY(NO_MEMORY), (&at[0].any.request, &keys, &at[1].any.target,
     &at[2].any.content, &at[3].any.response, ROOM(at[4]), ROOM(at[5])), OF_SHAPE(IN_STRUCT, request),
     OF_SHAPE(IN_STRUCT, target), OF_SHAPE(IN_STRUCT, content), OF_SHAPE(OUT_STRUCT, response),
     OF_SHAPE(ROOM_OF_STRUCTS, bytes_range), PLAIN(ROOM_OF_BYTES))
CALL(choose_type, MAY(REFUSED) | MAY(ABSENT) | MAY(NO_MEMORY), (FIELD(at[0]), TEXT_OF(at[1]), &at[2].size),
     PLAIN(LINES), PLAIN(GIVEN_TEXT), OF_KIND(OUT_NUMBER, SIZE))
CALL(choose_coding, MAY(REFUSED) | MAY(ABSENT) | MAY(NO_MEMORY), (FIELD(at[0]), TEXT_OF(at[1]), &at[2].size),
     PLAIN(LINES), PLAIN(GIVEN_TEXT), OF_KIND(OUT_NUMBER, SIZE))
CALL(choose_language, MAY(REFUSED) | MAY(ABSENT) | MAY(NO_MEMORY), (FIELD(at[0]), TEXT_OF(at[1]), &at[2].size),
     PLAIN(LINES), PLAIN(GIVEN_TEXT), OF_KIND(OUT_NUMBER, SIZE))
CALL(look_up_language, MAY(REFUSED) | MAY(ABSENT) | MAY(NO_MEMORY), (FIELD(at[0]), TEXT_OF(at[1]), &at[2].size),
     PLAIN(LINES), PLAIN(GIVEN_TEXT), OF_KIND(OUT_NUMBER, SIZE))
CALL(type_quality, MAY(REFUSED) | MAY(ABSENT) | MAY(NO_MEMORY), (FIELD(at[0]), TEXT_OF(at[1]), &at[2].any.quality),
     PLAIN(LINES), PLAIN(GIVEN_TEXT), OF_SHAPE(OUT_STRUCT, quality))
CALL(coding_quality, MAY(REFUSED) | MAY(ABSENT) | MAY(NO_MEMORY), (FIELD(at[0]), TEXT_OF(at[1]), &at[2].any.quality),
     PLAIN(LINES), PLAIN(GIVEN_TEXT), OF_SHAPE(OUT_STRUCT, quality))
CALL(language_quality, MAY(REFUSED) | MAY(ABSENT) | MAY(NO_MEMORY), (FIELD(at[0]), TEXT_OF(at[1]),
     &at[2].any.quality), PLAIN(LINES), PLAIN(GIVEN_TEXT), OF_SHAPE(OUT_STRUCT, quality))
CALL(websocket_accept, MAY(REFUSED) | MAY(ABSENT) | MAY(NO_MEMORY), (FIELD(at[0]), ROOM(at[1])), PLAIN(LINES),
     PLAIN(ROOM_OF_BYTES))
CALL(websocket_respond, MAY(REFUSED) | MAY(TOO_LARGE) | MAY(NO_MEMORY), (&at[0].any.request, at[1].u8, &keys,
     &at[2].any.websocket_rules, &at[3].any.handshake, ROOM(at[4])), OF_SHAPE(IN_STRUCT, request),
     OF_KIND(NUMBER, U8), OF_SHAPE(IN_STRUCT, websocket_rules), OF_SHAPE(OUT_STRUCT, handshake),
     PLAIN(ROOM_OF_BYTES))
CALL(websocket_request, MAY(REFUSED) | MAY(NO_MEMORY), (TEXT_OF(at[0]), ROOM(at[1])), PLAIN(GIVEN_TEXT),
     PLAIN(ROOM_OF_BYTES))
CALL(websocket_check, MAY(REFUSED) | MAY(TOO_LARGE) | MAY(NO_MEMORY), (&at[0].any.websocket_exchange, &keys,
     &at[1].u8), OF_SHAPE(IN_STRUCT, websocket_exchange), OF_KIND(OUT_NUMBER, U8))
CALL(cors_answer, MAY(REFUSED) | MAY(TOO_LARGE) | MAY(NO_MEMORY), (&at[0].any.cors_rules, &at[1].any.request,
     TEXT_OF(at[2]), &keys, &at[3].any.cors_facts, ROOM(at[4])), OF_SHAPE(IN_STRUCT, cors_rules),
     OF_SHAPE(IN_STRUCT, request), PLAIN(GIVEN_TEXT), OF_SHAPE(OUT_STRUCT, cors_facts), PLAIN(ROOM_OF_BYTES))
CALL(unsent_origin, MAY(REFUSED) | MAY(ABSENT) | MAY(NO_MEMORY), (TEXT_OF(at[0]), &at[1].size), PLAIN(GIVEN_TEXT),
     OF_KIND(OUT_NUMBER, SIZE))
CALL(resource_answer, MAY(REFUSED) | MAY(TOO_LARGE) | MAY(NO_MEMORY), (&at[0].any.resource, at[1].list.at,
     at[1].list.length, &at[2].any.cors_rules, &at[3].any.resource_request, &at[4].any.denial, TEXT_OF(at[5]), &keys,
     &at[6].any.resource_facts, ROOM(at[7]), ROOM(at[8])), OF_SHAPE(IN_STRUCT, resource),
     OF_SHAPE(LIST_STRUCT, representation), OF_SHAPE(IN_STRUCT, cors_rules), OF_SHAPE(IN_STRUCT, resource_request),
     OF_SHAPE(IN_STRUCT, denial), PLAIN(GIVEN_TEXT), OF_SHAPE(OUT_STRUCT, resource_facts),
     OF_SHAPE(ROOM_OF_STRUCTS, bytes_range), PLAIN(ROOM_OF_BYTES))
CALL(may_store, MAY(REFUSED) | MAY(TOO_LARGE) | MAY(NO_MEMORY), (&at[0].any.request, at[1].u16, TEXT_OF(at[2]),
     &keys, at[3].flag, &at[4].u8), OF_SHAPE(IN_STRUCT, request), OF_KIND(NUMBER, U16), PLAIN(GIVEN_TEXT),
     OF_KIND(NUMBER, BOOL), OF_KIND(OUT_NUMBER, U8))
CALL(lifetime, MAY(REFUSED) | MAY(ABSENT) | MAY(TOO_LARGE) | MAY(NO_MEMORY), (TEXT_OF(at[0]), &keys, at[1].u64,
     at[2].flag, &at[3].u64), PLAIN(GIVEN_TEXT), OF_KIND(NUMBER, U64), OF_KIND(NUMBER, BOOL),
     OF_KIND(OUT_NUMBER, U64))
CALL(heuristic_lifetime, MAY(REFUSED) | MAY(ABSENT) | MAY(TOO_LARGE) | MAY(NO_MEMORY), (at[0].u16, TEXT_OF(at[1]),
     &keys, at[2].u64, at[3].flag, &at[4].u64), OF_KIND(NUMBER, U16), PLAIN(GIVEN_TEXT), OF_KIND(NUMBER, U64),
     OF_KIND(NUMBER, BOOL), OF_KIND(OUT_NUMBER, U64))
CALL(current_age, MAY(REFUSED) | MAY(TOO_LARGE) | MAY(NO_MEMORY), (TEXT_OF(at[0]), &keys, &at[1].any.moments,
     &at[2].u64), PLAIN(GIVEN_TEXT), OF_SHAPE(IN_STRUCT, moments), OF_KIND(OUT_NUMBER, U64))
CALL(decide, MAY(REFUSED) | MAY(TOO_LARGE) | MAY(NO_MEMORY), (&at[0].any.stored, &at[1].any.request, &keys,
     &at[2].any.moments, at[3].flag, &at[4].u8), OF_SHAPE(IN_STRUCT, stored), OF_SHAPE(IN_STRUCT, request),
     OF_SHAPE(IN_STRUCT, moments), OF_KIND(NUMBER, BOOL), OF_KIND(OUT_NUMBER, U8))
CALL(validators, MAY(REFUSED) | MAY(TOO_LARGE) | MAY(NO_MEMORY), (TEXT_OF(at[0]), at[1].u64, &keys, ROOM(at[2])),
     PLAIN(GIVEN_TEXT), OF_KIND(NUMBER, U64), PLAIN(ROOM_OF_BYTES))
CALL(cache_new, MAY(REFUSED) | MAY(NO_MEMORY), (at[0].handle.at, &at[1].any.cache_options, &keys),
     OF_HANDLE(NEW, cache), OF_SHAPE(IN_STRUCT, cache_options))
CALL(cache_new_with, MAY(REFUSED) | MAY(NO_MEMORY), (at[0].handle.at, &at[1].any.cache_options,
     &at[2].any.cache_extensions, &keys), OF_HANDLE(NEW, cache), OF_SHAPE(IN_STRUCT, cache_options),
     OF_SHAPE(IN_STRUCT, cache_extensions))
CALL(cache_free, 0, (at[0].handle.at), OF_HANDLE(OPENED, cache))
CALL(cache_remove, MAY(REFUSED) | MAY(ABSENT), (at[0].handle.at, TEXT_OF(at[1])), OF_HANDLE(OPENED, cache),
     PLAIN(GIVEN_TEXT))
CALL(forward_request, MAY(REFUSED) | MAY(TOO_LARGE) | MAY(NO_MEMORY), (&at[0].any.gateway, &at[1].any.hop,
     &at[2].any.request, at[3].u8, TEXT_OF(at[4]), &keys, &at[5].any.request_outcome, ROOM(at[6])),
     OF_SHAPE(IN_STRUCT, gateway), OF_SHAPE(IN_STRUCT, hop), OF_SHAPE(IN_STRUCT, request), OF_KIND(NUMBER, U8),
     PLAIN(GIVEN_TEXT), OF_SHAPE(OUT_STRUCT, request_outcome), PLAIN(ROOM_OF_BYTES))
CALL(forward_response, MAY(REFUSED) | MAY(TOO_LARGE) | MAY(NO_MEMORY), (&at[0].any.gateway, &at[1].any.message,
     &keys, at[2].u8, at[3].u64, &at[4].any.response_outcome, ROOM(at[5])), OF_SHAPE(IN_STRUCT, gateway),
     OF_SHAPE(IN_STRUCT, message), OF_KIND(NUMBER, U8), OF_KIND(NUMBER, U64), OF_SHAPE(OUT_STRUCT, response_outcome),
     PLAIN(ROOM_OF_BYTES))
CALL(framing, MAY(REFUSED) | MAY(TOO_LARGE) | MAY(NO_MEMORY), (&at[0].any.message, &keys,
     &at[1].any.framing_outcome), OF_SHAPE(IN_STRUCT, message), OF_SHAPE(OUT_STRUCT, framing_outcome))
CALL(basic, MAY(REFUSED) | MAY(ABSENT) | MAY(NO_MEMORY), (FIELD(at[0]), &at[1].size, ROOM(at[2])), PLAIN(LINES),
     OF_KIND(OUT_NUMBER, SIZE), PLAIN(ROOM_OF_BYTES))
CALL(bearer, MAY(REFUSED) | MAY(ABSENT) | MAY(NO_MEMORY), (FIELD(at[0]), ROOM(at[1])), PLAIN(LINES),
     PLAIN(ROOM_OF_BYTES))
CALL(cookie, MAY(REFUSED) | MAY(ABSENT) | MAY(NO_MEMORY), (FIELD(at[0]), TEXT_OF(at[1]), ROOM(at[2])), PLAIN(LINES),
     PLAIN(GIVEN_TEXT), PLAIN(ROOM_OF_BYTES))
CALL(cookies, MAY(REFUSED) | MAY(ABSENT) | MAY(NO_MEMORY), (FIELD(at[0]), ROOM(at[1])), PLAIN(LINES),
     PLAIN(ROOM_OF_BYTES))
CALL(host, MAY(REFUSED) | MAY(ABSENT) | MAY(NO_MEMORY), (FIELD(at[0]), &at[1].any.port, ROOM(at[2])), PLAIN(LINES),
     OF_SHAPE(OUT_STRUCT, port), PLAIN(ROOM_OF_BYTES))
CALL(origin, MAY(REFUSED) | MAY(ABSENT) | MAY(NO_MEMORY), (FIELD(at[0]), &at[1].any.origin_parts, ROOM(at[2])),
     PLAIN(LINES), OF_SHAPE(OUT_STRUCT, origin_parts), PLAIN(ROOM_OF_BYTES))
CALL(strict_transport_security, MAY(REFUSED) | MAY(ABSENT) | MAY(NO_MEMORY), (FIELD(at[0]),
     &at[1].any.transport_security), PLAIN(LINES), OF_SHAPE(OUT_STRUCT, transport_security))
CALL(retry_after, MAY(REFUSED) | MAY(ABSENT) | MAY(NO_MEMORY), (FIELD(at[0]), &at[1].any.retry_time), PLAIN(LINES),
     OF_SHAPE(OUT_STRUCT, retry_time))
CALL(stale_directives, MAY(REFUSED) | MAY(ABSENT) | MAY(NO_MEMORY), (FIELD(at[0]), &at[1].any.stale_directives),
     PLAIN(LINES), OF_SHAPE(OUT_STRUCT, stale_directives))
CALL(directive_arguments, MAY(REFUSED) | MAY(ABSENT) | MAY(NO_MEMORY), (FIELD(at[0]), TEXT_OF(at[1]), ROOM(at[2])),
     PLAIN(LINES), PLAIN(GIVEN_TEXT), PLAIN(ROOM_OF_BYTES))
CALL(content_range, MAY(REFUSED) | MAY(ABSENT) | MAY(NO_MEMORY), (FIELD(at[0]), &at[1].any.content_range),
     PLAIN(LINES), OF_SHAPE(OUT_STRUCT, content_range))
CALL(content_disposition, MAY(REFUSED) | MAY(ABSENT) | MAY(NO_MEMORY), (FIELD(at[0]), &at[1].u8), PLAIN(LINES),
     OF_KIND(OUT_NUMBER, U8))
CALL(members, MAY(REFUSED) | MAY(ABSENT) | MAY(NO_MEMORY), (FIELD(at[0]), ROOM(at[1])), PLAIN(LINES),
     PLAIN(ROOM_OF_BYTES))
CALL(has_member, MAY(REFUSED) | MAY(ABSENT) | MAY(NO_MEMORY), (FIELD(at[0]), TEXT_OF(at[1]), at[2].flag, &at[3].u8),
     PLAIN(LINES), PLAIN(GIVEN_TEXT), OF_KIND(NUMBER, BOOL), OF_KIND(OUT_NUMBER, U8))
CALL(field_parts, MAY(REFUSED) | MAY(ABSENT) | MAY(NO_MEMORY), (at[0].u8, FIELD(at[1]), ROOM(at[2])),
     OF_KIND(NUMBER, U8), PLAIN(LINES), PLAIN(ROOM_OF_BYTES))
CALL(extended_text, MAY(REFUSED) | MAY(NO_MEMORY), (TEXT_OF(at[0]), ROOM(at[1])), PLAIN(GIVEN_TEXT),
     PLAIN(ROOM_OF_BYTES))
CALL(format_parameter, MAY(REFUSED) | MAY(NO_MEMORY), (at[0].u8, TEXT_OF(at[1]), TEXT_OF(at[2]), ROOM(at[3])),
     OF_KIND(NUMBER, U8), PLAIN(GIVEN_TEXT), PLAIN(GIVEN_TEXT), PLAIN(ROOM_OF_BYTES))
CALL(parameter_place, MAY(REFUSED) | MAY(ABSENT) | MAY(NO_MEMORY), (FIELD(at[0]), TEXT_OF(at[1]), &at[2].size),
     PLAIN(LINES), PLAIN(GIVEN_TEXT), OF_KIND(OUT_NUMBER, SIZE))
CALL(section_free, 0, (at[0].handle.at), OF_HANDLE(OPENED, section))
CALL(cors_policy_free, 0, (at[0].handle.at), OF_HANDLE(OPENED, cors_policy))
CALL(resource_handle_free, 0, (at[0].handle.at), OF_HANDLE(OPENED, resource_handle))
CALL(section_new, MAY(REFUSED) | MAY(TOO_LARGE) | MAY(NO_MEMORY), (at[0].handle.at, TEXT_OF(at[1]), &keys),
     OF_HANDLE(NEW, section), PLAIN(GIVEN_TEXT))
CALL(section_field, MAY(REFUSED) | MAY(ABSENT) | MAY(NO_MEMORY), (at[0].handle.at, TEXT_OF(at[1]), ROOM(at[2])),
     OF_HANDLE(OPENED, section), PLAIN(GIVEN_TEXT), PLAIN(ROOM_OF_BYTES))
CALL(section_evaluate, MAY(REFUSED) | MAY(ABSENT) | MAY(NO_MEMORY), (at[0].handle.at, TEXT_OF(at[1]),
     &at[2].any.target, &at[3].u16), OF_HANDLE(OPENED, section), PLAIN(GIVEN_TEXT), OF_SHAPE(IN_STRUCT, target),
     OF_KIND(OUT_NUMBER, U16))
CALL(section_select, MAY(REFUSED) | MAY(ABSENT) | MAY(NO_MEMORY), (at[0].handle.at, TEXT_OF(at[1]),
     &at[2].any.target, at[3].u64, &at[4].u16, ROOM(at[5])), OF_HANDLE(OPENED, section), PLAIN(GIVEN_TEXT),
     OF_SHAPE(IN_STRUCT, target), OF_KIND(NUMBER, U64), OF_KIND(OUT_NUMBER, U16),
     OF_SHAPE(ROOM_OF_STRUCTS, bytes_range))
CALL(section_respond, MAY(REFUSED) | MAY(ABSENT) | MAY(NO_MEMORY), (at[0].handle.at, TEXT_OF(at[1]),
     &at[2].any.target, &at[3].any.content, &at[4].any.response, ROOM(at[5]), ROOM(at[6])),
     OF_HANDLE(OPENED, section), PLAIN(GIVEN_TEXT), OF_SHAPE(IN_STRUCT, target), OF_SHAPE(IN_STRUCT, content),
     OF_SHAPE(OUT_STRUCT, response), OF_SHAPE(ROOM_OF_STRUCTS, bytes_range), PLAIN(ROOM_OF_BYTES))
CALL(section_choose_type, MAY(REFUSED) | MAY(ABSENT) | MAY(NO_MEMORY), (at[0].handle.at, TEXT_OF(at[1]),
     &at[2].size), OF_HANDLE(OPENED, section), PLAIN(GIVEN_TEXT), OF_KIND(OUT_NUMBER, SIZE))
CALL(section_choose_coding, MAY(REFUSED) | MAY(ABSENT) | MAY(NO_MEMORY), (at[0].handle.at, TEXT_OF(at[1]),
     &at[2].size), OF_HANDLE(OPENED, section), PLAIN(GIVEN_TEXT), OF_KIND(OUT_NUMBER, SIZE))
CALL(section_choose_language, MAY(REFUSED) | MAY(ABSENT) | MAY(NO_MEMORY), (at[0].handle.at, TEXT_OF(at[1]),
     &at[2].size), OF_HANDLE(OPENED, section), PLAIN(GIVEN_TEXT), OF_KIND(OUT_NUMBER, SIZE))
CALL(cors_policy_new, MAY(REFUSED) | MAY(NO_MEMORY), (at[0].handle.at, &at[1].any.cors_rules),
     OF_HANDLE(NEW, cors_policy), OF_SHAPE(IN_STRUCT, cors_rules))
CALL(cors_policy_answer, MAY(REFUSED) | MAY(ABSENT) | MAY(TOO_LARGE) | MAY(NO_MEMORY), (at[0].handle.at,
     at[1].handle.at, &at[2].any.cors_exchange, &keys, &at[3].any.cors_facts, ROOM(at[4])),
     OF_HANDLE(OPENED, cors_policy), OF_HANDLE(OPENED, section), OF_SHAPE(IN_STRUCT, cors_exchange),
     OF_SHAPE(OUT_STRUCT, cors_facts), PLAIN(ROOM_OF_BYTES))
CALL(resource_handle_new, MAY(REFUSED) | MAY(NO_MEMORY), (at[0].handle.at, &at[1].any.resource, at[2].list.at,
     at[2].list.length, &at[3].any.cors_rules), OF_HANDLE(NEW, resource_handle), OF_SHAPE(IN_STRUCT, resource),
     OF_SHAPE(LIST_STRUCT, representation), OF_SHAPE(IN_STRUCT, cors_rules))
CALL(resource_handle_answer, MAY(REFUSED) | MAY(ABSENT) | MAY(NO_MEMORY), (at[0].handle.at, at[1].handle.at,
     &at[2].any.resource_request, &at[3].any.denial, &at[4].any.resource_facts, ROOM(at[5]), ROOM(at[6])),
     OF_HANDLE(OPENED, resource_handle), OF_HANDLE(OPENED, section), OF_SHAPE(IN_STRUCT, resource_request),
     OF_SHAPE(IN_STRUCT, denial), OF_SHAPE(OUT_STRUCT, resource_facts), OF_SHAPE(ROOM_OF_STRUCTS, bytes_range),
     PLAIN(ROOM_OF_BYTES))
CALL(connection_free, 0, (at[0].handle.at), OF_HANDLE(OPENED, connection))
CALL(connection_new, MAY(REFUSED) | MAY(NO_MEMORY), (at[0].handle.at, at[1].size, &keys), OF_HANDLE(NEW, connection),
     OF_KIND(NUMBER, SIZE))
CALL(connection_next, MAY(ABSENT), (at[0].handle.at, &at[1].u8), OF_HANDLE(OPENED, connection),
     OF_KIND(OUT_NUMBER, U8))
CALL(connection_receive, MAY(REFUSED) | MAY(ABSENT) | MAY(NO_MEMORY), (at[0].handle.at, TEXT_OF(at[1])),
     OF_HANDLE(OPENED, connection), PLAIN(GIVEN_TEXT))
CALL(connection_finish_input, MAY(REFUSED) | MAY(ABSENT), (at[0].handle.at), OF_HANDLE(OPENED, connection))
CALL(connection_method, MAY(REFUSED) | MAY(ABSENT), (at[0].handle.at, ROOM(at[1])), OF_HANDLE(OPENED, connection),
     PLAIN(ROOM_OF_BYTES))
CALL(connection_path, MAY(REFUSED) | MAY(ABSENT), (at[0].handle.at, ROOM(at[1])), OF_HANDLE(OPENED, connection),
     PLAIN(ROOM_OF_BYTES))
CALL(connection_query, MAY(REFUSED) | MAY(ABSENT), (at[0].handle.at, ROOM(at[1])), OF_HANDLE(OPENED, connection),
     PLAIN(ROOM_OF_BYTES))
CALL(connection_content, MAY(REFUSED) | MAY(ABSENT), (at[0].handle.at, ROOM(at[1])), OF_HANDLE(OPENED, connection),
     PLAIN(ROOM_OF_BYTES))
CALL(connection_field, MAY(REFUSED) | MAY(ABSENT) | MAY(NO_MEMORY), (at[0].handle.at, TEXT_OF(at[1]), ROOM(at[2])),
     OF_HANDLE(OPENED, connection), PLAIN(GIVEN_TEXT), PLAIN(ROOM_OF_BYTES))
CALL(connection_fields, MAY(REFUSED) | MAY(ABSENT) | MAY(NO_MEMORY), (at[0].handle.at, ROOM(at[1])),
     OF_HANDLE(OPENED, connection), PLAIN(ROOM_OF_BYTES))
CALL(connection_version, MAY(REFUSED) | MAY(ABSENT), (at[0].handle.at, &at[1].u8), OF_HANDLE(OPENED, connection),
     OF_KIND(OUT_NUMBER, U8))
CALL(connection_plan, MAY(REFUSED) | MAY(ABSENT), (at[0].handle.at, at[1].u16), OF_HANDLE(OPENED, connection),
     OF_KIND(NUMBER, U16))
CALL(connection_plan_field, MAY(REFUSED) | MAY(ABSENT) | MAY(NO_MEMORY), (at[0].handle.at, TEXT_OF(at[1]),
     TEXT_OF(at[2])), OF_HANDLE(OPENED, connection), PLAIN(GIVEN_TEXT), PLAIN(GIVEN_TEXT))
CALL(connection_plan_bytes, MAY(ABSENT) | MAY(NO_MEMORY), (at[0].handle.at, TEXT_OF(at[1])),
     OF_HANDLE(OPENED, connection), PLAIN(GIVEN_TEXT))
CALL(connection_plan_range, MAY(ABSENT) | MAY(NO_MEMORY), (at[0].handle.at, at[1].u64, at[2].u64),
     OF_HANDLE(OPENED, connection), OF_KIND(NUMBER, U64), OF_KIND(NUMBER, U64))
CALL(connection_respond, MAY(REFUSED) | MAY(ABSENT), (at[0].handle.at), OF_HANDLE(OPENED, connection))
CALL(connection_output, MAY(ABSENT), (at[0].handle.at, ROOM(at[1])), OF_HANDLE(OPENED, connection), PLAIN(PIECE))
CALL(connection_range, MAY(ABSENT), (at[0].handle.at, &at[1].u64, &at[2].u64), OF_HANDLE(OPENED, connection),
     OF_KIND(OUT_NUMBER, U64), OF_KIND(OUT_NUMBER, U64))
CALL(connection_sent, MAY(REFUSED) | MAY(ABSENT), (at[0].handle.at, at[1].u64), OF_HANDLE(OPENED, connection),
     OF_KIND(NUMBER, U64))
CALL(connection_time_out, MAY(ABSENT), (at[0].handle.at, ROOM(at[1])), OF_HANDLE(OPENED, connection),
     PLAIN(ROOM_OF_BYTES))
CALL(connection_rejection, MAY(ABSENT), (at[0].handle.at, &at[1].u16), OF_HANDLE(OPENED, connection),
     OF_KIND(OUT_NUMBER, U16))
CALL(connection_planned, MAY(ABSENT), (at[0].handle.at, &at[1].u16, &at[2].u64), OF_HANDLE(OPENED, connection),
     OF_KIND(OUT_NUMBER, U16), OF_KIND(OUT_NUMBER, U64))
CALL(pass_free, 0, (at[0].handle.at), OF_HANDLE(OPENED, pass))
CALL(pass_begin, MAY(REFUSED) | MAY(ABSENT) | MAY(TOO_LARGE) | MAY(NO_MEMORY), (at[0].handle.at, at[1].handle.at,
     &at[2].any.cache_request, at[3].u64, &at[4].any.pass_facts), OF_HANDLE(OPENED, cache), OF_HANDLE(NEW, pass),
     OF_SHAPE(IN_STRUCT, cache_request), OF_KIND(NUMBER, U64), OF_SHAPE(OUT_STRUCT, pass_facts))
CALL(pass_resume, MAY(ABSENT) | MAY(NO_MEMORY), (at[0].handle.at, at[1].handle.at, at[2].u64, &at[3].any.pass_facts),
     OF_HANDLE(OPENED, cache), OF_HANDLE(OPENED, pass), OF_KIND(NUMBER, U64), OF_SHAPE(OUT_STRUCT, pass_facts))
CALL(pass_came, MAY(REFUSED) | MAY(ABSENT) | MAY(TOO_LARGE) | MAY(NO_MEMORY), (at[0].handle.at, at[1].handle.at,
     at[2].u16, TEXT_OF(at[3]), at[4].u64, &at[5].any.pass_facts), OF_HANDLE(OPENED, cache), OF_HANDLE(OPENED, pass),
     OF_KIND(NUMBER, U16), PLAIN(GIVEN_TEXT), OF_KIND(NUMBER, U64), OF_SHAPE(OUT_STRUCT, pass_facts))
CALL(pass_failed, MAY(ABSENT) | MAY(NO_MEMORY), (at[0].handle.at, at[1].handle.at, at[2].u64, &at[3].any.pass_facts),
     OF_HANDLE(OPENED, cache), OF_HANDLE(OPENED, pass), OF_KIND(NUMBER, U64), OF_SHAPE(OUT_STRUCT, pass_facts))
CALL(pass_fields, MAY(ABSENT), (at[0].handle.at, ROOM(at[1])), OF_HANDLE(OPENED, pass), PLAIN(ROOM_OF_BYTES))
CALL(pass_status, MAY(REFUSED) | MAY(ABSENT) | MAY(NO_MEMORY), (at[0].handle.at, TEXT_OF(at[1]), ROOM(at[2])),
     OF_HANDLE(OPENED, pass), PLAIN(GIVEN_TEXT), PLAIN(ROOM_OF_BYTES))
CALL(pass_validation, MAY(ABSENT) | MAY(TOO_LARGE) | MAY(NO_MEMORY), (at[0].handle.at, ROOM(at[1])),
     OF_HANDLE(OPENED, pass), PLAIN(ROOM_OF_BYTES))
CALL(pass_content, MAY(ABSENT), (at[0].handle.at, at[1].size, ROOM(at[2])), OF_HANDLE(OPENED, pass),
     OF_KIND(NUMBER, SIZE), PLAIN(PIECE))
CALL(pass_received, MAY(ABSENT) | MAY(NO_MEMORY), (at[0].handle.at, TEXT_OF(at[1])), OF_HANDLE(OPENED, pass),
     PLAIN(GIVEN_TEXT))
CALL(pass_ended, MAY(ABSENT) | MAY(NO_MEMORY), (at[0].handle.at, at[1].handle.at, at[2].flag, at[3].u64, &at[4].u64),
     OF_HANDLE(OPENED, cache), OF_HANDLE(OPENED, pass), OF_KIND(NUMBER, BOOL), OF_KIND(NUMBER, U64),
     OF_KIND(OUT_NUMBER, U64))
CALL(files_free, 0, (at[0].handle.at), OF_HANDLE(OPENED, files))
CALL(files_new, MAY(REFUSED) | MAY(NO_MEMORY), (at[0].handle.at, &at[1].any.files_options, &keys),
     OF_HANDLE(NEW, files), OF_SHAPE(IN_STRUCT, files_options))
CALL(files_path, MAY(REFUSED) | MAY(ABSENT) | MAY(NO_MEMORY), (at[0].handle.at, at[1].handle.at, at[2].list.at,
     at[2].list.length, ROOM(at[3])), OF_HANDLE(OPENED, files), OF_HANDLE(OPENED, connection),
     OF_SHAPE(LIST_STRUCT, entry), PLAIN(ROOM_OF_BYTES))
CALL(files_plan, MAY(REFUSED) | MAY(ABSENT) | MAY(NO_MEMORY), (at[0].handle.at, at[1].handle.at, at[2].list.at,
     at[2].list.length, at[3].u64, at[4].flag, &at[5].size), OF_HANDLE(OPENED, files), OF_HANDLE(OPENED, connection),
     OF_SHAPE(LIST_STRUCT, entry), OF_KIND(NUMBER, U64), OF_KIND(NUMBER, BOOL), OF_KIND(OUT_NUMBER, SIZE))
CALL(gate_rules_free, 0, (at[0].handle.at), OF_HANDLE(OPENED, gate_rules))
CALL(gate_free, 0, (at[0].handle.at), OF_HANDLE(OPENED, gate))
CALL(gate_origin_free, 0, (at[0].handle.at), OF_HANDLE(OPENED, gate_origin))
CALL(gate_rules_new, MAY(REFUSED) | MAY(NO_MEMORY), (at[0].handle.at, &at[1].any.gateway, &at[2].any.gate_options),
     OF_HANDLE(NEW, gate_rules), OF_SHAPE(IN_STRUCT, gateway), OF_SHAPE(IN_STRUCT, gate_options))
CALL(gate_new, MAY(REFUSED) | MAY(NO_MEMORY), (at[0].handle.at, &at[1].any.gate_peer, at[2].size, &keys),
     OF_HANDLE(NEW, gate), OF_SHAPE(IN_STRUCT, gate_peer), OF_KIND(NUMBER, SIZE))
CALL(gate_origin_new, MAY(REFUSED) | MAY(NO_MEMORY), (at[0].handle.at, at[1].size, &keys),
     OF_HANDLE(NEW, gate_origin), OF_KIND(NUMBER, SIZE))
CALL(gate_next, MAY(REFUSED) | MAY(ABSENT), (at[0].handle.at, at[1].handle.at, at[2].u64, &at[3].any.gate_facts),
     OF_HANDLE(OPENED, gate), OF_HANDLE(OPENED, gate_rules), OF_KIND(NUMBER, U64), OF_SHAPE(OUT_STRUCT, gate_facts))
CALL(gate_receive, MAY(REFUSED) | MAY(ABSENT) | MAY(NO_MEMORY), (at[0].handle.at, at[1].u8, TEXT_OF(at[2])),
     OF_HANDLE(OPENED, gate), OF_KIND(NUMBER, U8), PLAIN(GIVEN_TEXT))
CALL(gate_finish, MAY(REFUSED) | MAY(ABSENT), (at[0].handle.at, at[1].u8), OF_HANDLE(OPENED, gate),
     OF_KIND(NUMBER, U8))
CALL(gate_output, MAY(REFUSED) | MAY(ABSENT), (at[0].handle.at, at[1].u8, ROOM(at[2])), OF_HANDLE(OPENED, gate),
     OF_KIND(NUMBER, U8), PLAIN(PIECE))
CALL(gate_sent, MAY(REFUSED) | MAY(ABSENT), (at[0].handle.at, at[1].u8, at[2].u64), OF_HANDLE(OPENED, gate),
     OF_KIND(NUMBER, U8), OF_KIND(NUMBER, U64))
CALL(gate_clock, MAY(REFUSED) | MAY(ABSENT) | MAY(NO_MEMORY), (at[0].handle.at, at[1].u64), OF_HANDLE(OPENED, gate),
     OF_KIND(NUMBER, U64))
CALL(gate_timed_out, MAY(ABSENT), (at[0].handle.at), OF_HANDLE(OPENED, gate))
CALL(gate_close_after, MAY(ABSENT), (at[0].handle.at), OF_HANDLE(OPENED, gate))
CALL(gate_method, MAY(ABSENT), (at[0].handle.at, ROOM(at[1])), OF_HANDLE(OPENED, gate), PLAIN(ROOM_OF_BYTES))
CALL(gate_target, MAY(ABSENT), (at[0].handle.at, ROOM(at[1])), OF_HANDLE(OPENED, gate), PLAIN(ROOM_OF_BYTES))
CALL(gate_authority, MAY(ABSENT), (at[0].handle.at, ROOM(at[1])), OF_HANDLE(OPENED, gate), PLAIN(ROOM_OF_BYTES))
CALL(gate_key, MAY(ABSENT) | MAY(NO_MEMORY), (at[0].handle.at, ROOM(at[1])), OF_HANDLE(OPENED, gate),
     PLAIN(ROOM_OF_BYTES))
CALL(gate_field, MAY(REFUSED) | MAY(ABSENT) | MAY(NO_MEMORY), (at[0].handle.at, TEXT_OF(at[1]), ROOM(at[2])),
     OF_HANDLE(OPENED, gate), PLAIN(GIVEN_TEXT), PLAIN(ROOM_OF_BYTES))
CALL(gate_fields, MAY(ABSENT) | MAY(NO_MEMORY), (at[0].handle.at, ROOM(at[1])), OF_HANDLE(OPENED, gate),
     PLAIN(ROOM_OF_BYTES))
CALL(gate_is_for, MAY(ABSENT), (at[0].handle.at, TEXT_OF(at[1]), TEXT_OF(at[2]), &at[3].u8), OF_HANDLE(OPENED, gate),
     PLAIN(GIVEN_TEXT), PLAIN(GIVEN_TEXT), OF_KIND(OUT_NUMBER, U8))
CALL(gate_connect_to, MAY(REFUSED) | MAY(ABSENT), (at[0].handle.at, TEXT_OF(at[1]), &at[2].u64),
     OF_HANDLE(OPENED, gate), PLAIN(GIVEN_TEXT), OF_KIND(OUT_NUMBER, U64))
CALL(gate_connected, MAY(ABSENT), (at[0].handle.at), OF_HANDLE(OPENED, gate))
CALL(gate_conditions, MAY(REFUSED) | MAY(ABSENT) | MAY(TOO_LARGE) | MAY(NO_MEMORY), (at[0].handle.at, TEXT_OF(at[1]),
     &keys), OF_HANDLE(OPENED, gate), PLAIN(GIVEN_TEXT))
CALL(gate_forward, MAY(ABSENT), (at[0].handle.at, at[1].handle.at), OF_HANDLE(OPENED, gate),
     OF_HANDLE(OPENED, gate_origin))
CALL(gate_again, MAY(ABSENT), (at[0].handle.at), OF_HANDLE(OPENED, gate))
CALL(gate_answer, MAY(REFUSED) | MAY(ABSENT), (at[0].handle.at, at[1].u16), OF_HANDLE(OPENED, gate),
     OF_KIND(NUMBER, U16))
CALL(gate_respond, MAY(REFUSED) | MAY(ABSENT) | MAY(TOO_LARGE) | MAY(NO_MEMORY), (at[0].handle.at, at[1].u16,
     TEXT_OF(at[2]), at[3].u64, &keys), OF_HANDLE(OPENED, gate), OF_KIND(NUMBER, U16), PLAIN(GIVEN_TEXT),
     OF_KIND(NUMBER, U64))
CALL(gate_push, MAY(REFUSED) | MAY(ABSENT) | MAY(NO_MEMORY), (at[0].handle.at, TEXT_OF(at[1])),
     OF_HANDLE(OPENED, gate), PLAIN(GIVEN_TEXT))
CALL(gate_end, MAY(REFUSED) | MAY(ABSENT) | MAY(NO_MEMORY), (at[0].handle.at), OF_HANDLE(OPENED, gate))
CALL(gate_response, MAY(ABSENT) | MAY(NO_MEMORY), (at[0].handle.at, &at[1].u16, ROOM(at[2])),
     OF_HANDLE(OPENED, gate), OF_KIND(OUT_NUMBER, U16), PLAIN(ROOM_OF_BYTES))
CALL(gate_add, MAY(REFUSED) | MAY(ABSENT) | MAY(TOO_LARGE) | MAY(NO_MEMORY), (at[0].handle.at, TEXT_OF(at[1]),
     &keys), OF_HANDLE(OPENED, gate), PLAIN(GIVEN_TEXT))
CALL(gate_pass, MAY(ABSENT), (at[0].handle.at), OF_HANDLE(OPENED, gate))
CALL(gate_piece, MAY(ABSENT), (at[0].handle.at, ROOM(at[1])), OF_HANDLE(OPENED, gate), PLAIN(ROOM_OF_BYTES))
CALL(gate_take, MAY(REFUSED) | MAY(ABSENT) | MAY(NO_MEMORY), (at[0].handle.at, at[1].handle.at),
     OF_HANDLE(OPENED, gate), OF_HANDLE(OPENED, gate_origin))
CALL(gate_own, MAY(ABSENT), (at[0].handle.at, &at[1].u16), OF_HANDLE(OPENED, gate), OF_KIND(OUT_NUMBER, U16))
CALL(gate_tunnel, MAY(ABSENT) | MAY(NO_MEMORY), (at[0].handle.at), OF_HANDLE(OPENED, gate))
CALL(gate_ask, MAY(ABSENT) | MAY(NO_MEMORY), (at[0].handle.at, TEXT_OF(at[1]), TEXT_OF(at[2]), TEXT_OF(at[3])),
     OF_HANDLE(OPENED, gate), PLAIN(GIVEN_TEXT), PLAIN(GIVEN_TEXT), PLAIN(GIVEN_TEXT))
CALL(gate_pool_free, 0, (at[0].handle.at), OF_HANDLE(OPENED, gate_pool))
CALL(gate_pool_new, MAY(REFUSED) | MAY(NO_MEMORY), (at[0].handle.at, &at[1].any.gate_pool_options),
     OF_HANDLE(NEW, gate_pool), OF_SHAPE(IN_STRUCT, gate_pool_options))
CALL(gate_pool_lease, MAY(ABSENT) | MAY(NO_MEMORY), (at[0].handle.at, at[1].u64, at[2].u64, at[3].u64,
     &at[4].any.gate_lease), OF_HANDLE(OPENED, gate_pool), OF_KIND(NUMBER, U64), OF_KIND(NUMBER, U64),
     OF_KIND(NUMBER, U64), OF_SHAPE(OUT_STRUCT, gate_lease))
CALL(gate_pool_opened, MAY(ABSENT), (at[0].handle.at, at[1].u64), OF_HANDLE(OPENED, gate_pool), OF_KIND(NUMBER, U64))
CALL(gate_pool_failed, MAY(ABSENT) | MAY(NO_MEMORY), (at[0].handle.at, at[1].u64, at[2].u64),
     OF_HANDLE(OPENED, gate_pool), OF_KIND(NUMBER, U64), OF_KIND(NUMBER, U64))
CALL(gate_pool_ended, MAY(ABSENT) | MAY(NO_MEMORY), (at[0].handle.at, at[1].u64, &at[2].u8),
     OF_HANDLE(OPENED, gate_pool), OF_KIND(NUMBER, U64), OF_KIND(OUT_NUMBER, U8))
CALL(gate_pool_release, MAY(ABSENT), (at[0].handle.at, at[1].u64, &at[2].u8), OF_HANDLE(OPENED, gate_pool),
     OF_KIND(NUMBER, U64), OF_KIND(OUT_NUMBER, U8))
CALL(gate_pool_gone, MAY(ABSENT), (at[0].handle.at, at[1].u64), OF_HANDLE(OPENED, gate_pool), OF_KIND(NUMBER, U64))
CALL(gate_pool_finished, MAY(ABSENT), (at[0].handle.at, at[1].u64), OF_HANDLE(OPENED, gate_pool),
     OF_KIND(NUMBER, U64))

enum { MOST_SLOTS = 9 };
#define CALLS \
    METHOD(canonical), METHOD(field), METHOD(age), METHOD(content_length), METHOD(date), METHOD(expires), \
    METHOD(last_modified), METHOD(media_type), METHOD(essence), METHOD(strong_eq), METHOD(weak_eq), \
    METHOD(cache_control), METHOD(ranges), METHOD(format_date), METHOD(format_content_range), METHOD(format_etag), \
    METHOD(evaluate), METHOD(select), METHOD(respond), METHOD(choose_type), METHOD(choose_coding), \
    METHOD(choose_language), METHOD(look_up_language), METHOD(type_quality), METHOD(coding_quality), \
    METHOD(language_quality), METHOD(websocket_accept), METHOD(websocket_respond), METHOD(websocket_request), \
    METHOD(websocket_check), METHOD(cors_answer), METHOD(unsent_origin), METHOD(resource_answer), METHOD(may_store), \
    METHOD(lifetime), METHOD(heuristic_lifetime), METHOD(current_age), METHOD(decide), METHOD(validators), \
    METHOD(cache_new), METHOD(cache_new_with), METHOD(cache_free), METHOD(cache_remove), METHOD(forward_request), \
    METHOD(forward_response), METHOD(framing), METHOD(basic), METHOD(bearer), METHOD(cookie), METHOD(cookies), \
    METHOD(host), METHOD(origin), METHOD(strict_transport_security), METHOD(retry_after), METHOD(stale_directives), \
    METHOD(directive_arguments), METHOD(content_range), METHOD(content_disposition), METHOD(members), \
    METHOD(has_member), METHOD(field_parts), METHOD(extended_text), METHOD(format_parameter), \
    METHOD(parameter_place), METHOD(section_free), METHOD(cors_policy_free), METHOD(resource_handle_free), \
    METHOD(section_new), METHOD(section_field), METHOD(section_evaluate), METHOD(section_select), \
    METHOD(section_respond), METHOD(section_choose_type), METHOD(section_choose_coding), \
    METHOD(section_choose_language), METHOD(cors_policy_new), METHOD(cors_policy_answer), \
    METHOD(resource_handle_new), METHOD(resource_handle_answer), METHOD(connection_free), METHOD(connection_new), \
    METHOD(connection_next), METHOD(connection_receive), METHOD(connection_finish_input), METHOD(connection_method), \
    METHOD(connection_path), METHOD(connection_query), METHOD(connection_content), METHOD(connection_field), \
    METHOD(connection_fields), METHOD(connection_version), METHOD(connection_plan), METHOD(connection_plan_field), \
    METHOD(connection_plan_bytes), METHOD(connection_plan_range), METHOD(connection_respond), \
    METHOD(connection_output), METHOD(connection_range), METHOD(connection_sent), METHOD(connection_time_out), \
    METHOD(connection_rejection), METHOD(connection_planned), METHOD(pass_free), METHOD(pass_begin), \
    METHOD(pass_resume), METHOD(pass_came), METHOD(pass_failed), METHOD(pass_fields), METHOD(pass_status), \
    METHOD(pass_validation), METHOD(pass_content), METHOD(pass_received), METHOD(pass_ended), METHOD(files_free), \
    METHOD(files_new), METHOD(files_path), METHOD(files_plan), METHOD(gate_rules_free), METHOD(gate_free), \
    METHOD(gate_origin_free), METHOD(gate_rules_new), METHOD(gate_new), METHOD(gate_origin_new), METHOD(gate_next), \
    METHOD(gate_receive), METHOD(gate_finish), METHOD(gate_output), METHOD(gate_sent), METHOD(gate_clock), \
    METHOD(gate_timed_out), METHOD(gate_close_after), METHOD(gate_method), METHOD(gate_target), \
    METHOD(gate_authority), METHOD(gate_key), METHOD(gate_field), METHOD(gate_fields), METHOD(gate_is_for), \
    METHOD(gate_connect_to), METHOD(gate_connected), METHOD(gate_conditions), METHOD(gate_forward), \
    METHOD(gate_again), METHOD(gate_answer), METHOD(gate_respond), METHOD(gate_push), METHOD(gate_end), \
    METHOD(gate_response), METHOD(gate_add), METHOD(gate_pass), METHOD(gate_piece), METHOD(gate_take), \
    METHOD(gate_own), METHOD(gate_tunnel), METHOD(gate_ask), METHOD(gate_pool_free), METHOD(gate_pool_new), \
    METHOD(gate_pool_lease), METHOD(gate_pool_opened), METHOD(gate_pool_failed), METHOD(gate_pool_ended), \
    METHOD(gate_pool_release), METHOD(gate_pool_gone), METHOD(gate_pool_finished)
