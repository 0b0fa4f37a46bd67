/*
 * Calls of typed_headers.h, made by handles: a section is parsed, and a policy or a resource is made, for the one call,
 * which is made twice. Each has the parameters of the call without handles, and gives what the second one gave.
 */
#ifndef HANDLED_H
#define HANDLED_H

#include "typed_headers.h"
#include <stdbool.h>
#include <string.h>

enum { FIRST_ROOM = 64, MOST_SECTION = 1 << 24 };

#define GIVEN(text) (text).bytes, (text).length

static uint8_t handled_evaluate(const struct typed_headers_request *request, const struct typed_headers_keys *keys,
                                const struct typed_headers_target *target, uint16_t *answer) {
    struct typed_headers_section fields = TYPED_HEADERS_CLOSED;
    uint8_t status = typed_headers_section_new(&fields, GIVEN(request->section), keys);
    if (status == TYPED_HEADERS_DONE) {
        uint16_t first;
        typed_headers_section_evaluate(&fields, GIVEN(request->method), target, &first);
        status = typed_headers_section_evaluate(&fields, GIVEN(request->method), target, answer);
    }
    typed_headers_section_free(&fields);
    return status;
}

static uint8_t handled_select(const struct typed_headers_request *request, const struct typed_headers_keys *keys,
                              const struct typed_headers_target *target, uint64_t length, uint16_t *answer,
                              struct typed_headers_bytes_range *room, size_t room_length, size_t *written) {
    struct typed_headers_section fields = TYPED_HEADERS_CLOSED;
    uint8_t status = typed_headers_section_new(&fields, GIVEN(request->section), keys);
    if (status == TYPED_HEADERS_DONE) {
        struct typed_headers_bytes_range first_room[FIRST_ROOM];
        size_t first_written;
        uint16_t first;
        typed_headers_section_select(&fields, GIVEN(request->method), target, length, &first, first_room, FIRST_ROOM,
                                     &first_written);
        status = typed_headers_section_select(&fields, GIVEN(request->method), target, length, answer, room,
                                              room_length, written);
    }
    typed_headers_section_free(&fields);
    return status;
}

static uint8_t handled_respond(const struct typed_headers_request *request, const struct typed_headers_keys *keys,
                               const struct typed_headers_target *target,
                               const struct typed_headers_content *content, struct typed_headers_response *response,
                               struct typed_headers_bytes_range *parts, size_t parts_length, size_t *parts_written,
                               uint8_t *room, size_t room_length, size_t *written) {
    struct typed_headers_section fields = TYPED_HEADERS_CLOSED;
    uint8_t status = typed_headers_section_new(&fields, GIVEN(request->section), keys);
    if (status == TYPED_HEADERS_DONE) {
        struct typed_headers_bytes_range first_parts[FIRST_ROOM];
        uint8_t first_room[FIRST_ROOM];
        size_t first_count, first_written;
        struct typed_headers_response first;
        typed_headers_section_respond(&fields, GIVEN(request->method), target, content, &first, first_parts,
                                      FIRST_ROOM, &first_count, first_room, FIRST_ROOM, &first_written);
        status = typed_headers_section_respond(&fields, GIVEN(request->method), target, content, response, parts,
                                               parts_length, parts_written, room, room_length, written);
    }
    typed_headers_section_free(&fields);
    return status;
}

/* Opens a handle with the fields of these lines, each under the name. */
static uint8_t open_lines(struct typed_headers_section *fields, const uint8_t *name, size_t name_length,
                          const uint8_t *lines, size_t lines_length) {
    static const struct typed_headers_keys keys = {1, 2};
    static uint8_t section[MOST_SECTION];
    size_t length = 0;
    bool is_first = true;
    for (size_t at = 0; at < lines_length; at++) {
        if (is_first) {
            memcpy(section + length, name, name_length);
            section[length + name_length] = ':';
            length += name_length + 1;
        }
        is_first = lines[at] == '\n';
        section[length++] = lines[at];
    }
    return typed_headers_section_new(fields, section, length, &keys);
}

/* Whether a line begins or ends with a blank, which a section takes off. */
static bool has_blank_ends(const uint8_t *lines, size_t length) {
    for (size_t at = 0; at < length; at++) {
        const bool is_blank = lines[at] == ' ' || lines[at] == '\t';
        if (is_blank && (at == 0 || lines[at - 1] == '\n' || at + 1 == length || lines[at + 1] == '\n' ||
                         lines[at + 1] == '\r')) {
            return true;
        }
    }
    return false;
}

static uint8_t handled_cors_answer(const struct typed_headers_cors_rules *rules,
                                   const struct typed_headers_request *request, const uint8_t *response,
                                   size_t response_length, const struct typed_headers_keys *keys,
                                   struct typed_headers_cors_facts *facts, uint8_t *room, size_t room_length,
                                   size_t *written) {
    struct typed_headers_section fields = TYPED_HEADERS_CLOSED;
    struct typed_headers_cors_policy policy = TYPED_HEADERS_CLOSED;
    uint8_t status = typed_headers_cors_policy_new(&policy, rules);
    if (status == TYPED_HEADERS_DONE) {
        status = typed_headers_section_new(&fields, GIVEN(request->section), keys);
    }
    if (status == TYPED_HEADERS_DONE) {
        struct typed_headers_cors_facts first;
        uint8_t first_room[FIRST_ROOM];
        size_t first_written;
        const struct typed_headers_cors_exchange exchange = {request->method, {response, response_length}};
        typed_headers_cors_policy_answer(&policy, &fields, &exchange, keys, &first, first_room, FIRST_ROOM,
                                         &first_written);
        status = typed_headers_cors_policy_answer(&policy, &fields, &exchange, keys, facts, room, room_length,
                                                  written);
    }
    typed_headers_cors_policy_free(&policy);
    typed_headers_section_free(&fields);
    return status;
}

static uint8_t handled_resource_answer(const struct typed_headers_resource *resource,
                                       const struct typed_headers_representation *representations,
                                       size_t representations_length, const struct typed_headers_cors_rules *rules,
                                       const struct typed_headers_resource_request *request,
                                       const struct typed_headers_denial *denial, const uint8_t *section,
                                       size_t section_length, const struct typed_headers_keys *keys,
                                       struct typed_headers_resource_facts *facts,
                                       struct typed_headers_bytes_range *parts, size_t parts_length,
                                       size_t *parts_written, uint8_t *room, size_t room_length, size_t *written) {
    struct typed_headers_section fields = TYPED_HEADERS_CLOSED;
    struct typed_headers_resource_handle handle = TYPED_HEADERS_CLOSED;
    uint8_t status =
        typed_headers_resource_handle_new(&handle, resource, representations, representations_length, rules);
    if (status == TYPED_HEADERS_DONE) {
        status = typed_headers_section_new(&fields, section, section_length, keys);
    }
    if (status == TYPED_HEADERS_DONE) {
        struct typed_headers_resource_facts first;
        struct typed_headers_bytes_range first_parts[FIRST_ROOM];
        uint8_t first_room[FIRST_ROOM];
        size_t first_count, first_written;
        typed_headers_resource_handle_answer(&handle, &fields, request, denial, &first, first_parts, FIRST_ROOM,
                                             &first_count, first_room, FIRST_ROOM, &first_written);
        status = typed_headers_resource_handle_answer(&handle, &fields, request, denial, facts, parts, parts_length,
                                                      parts_written, room, room_length, written);
    }
    typed_headers_section_free(&fields);
    typed_headers_resource_handle_free(&handle);
    return status;
}

#endif
