/*
 * Tests what the rows don't show of handles: closed ones, those of another struct, ones that are open already, ones
 * that are closed twice, and threads, which read the content of passes while others make steps.
 */
#include "typed_headers.h"
#include <pthread.h>
#include <stdio.h>
#include <string.h>

#define BYTES(text) (const uint8_t *)(text), sizeof(text) - 1
#define TEXT(text) {(const uint8_t *)(text), sizeof(text) - 1}

enum { ROUNDS = 2000, ROOM = 512 };

static const struct typed_headers_keys KEYS = {1, 2};
static const struct typed_headers_target TARGET = {.etag = TEXT("\"a\""), .present = 1767225600, .exists = true};
static const struct typed_headers_resource RESOURCE = {.methods = TEXT("GET"), .has_cors = true};
static const struct typed_headers_resource_request REQUEST = {
    .method = TEXT("POST"), .present = 1767225600, .version = 11, .has_length = true};
static const struct typed_headers_denial NOT_DENIED;
static const struct typed_headers_cors_rules RULES = {.origins = TEXT("https://a.example")};
static const char SECTION[] = "Host: b.example\nOrigin: https://a.example\nIf-None-Match: \"a\"\nAccept: text/html\n";

static int wrong;

static void want(bool is_right, const char *what) {
    if (!is_right) {
        wrong++;
        printf("handles: %s\n", what);
    }
}

static uint8_t share(const struct typed_headers_cors_policy *policy, const struct typed_headers_section *fields,
                     uint8_t *allowed) {
    struct typed_headers_cors_facts facts = {9, 9};
    uint8_t room[ROOM];
    size_t written;
    const struct typed_headers_cors_exchange exchange = {.method = TEXT("GET")};
    uint8_t status = typed_headers_cors_policy_answer(policy, fields, &exchange, &KEYS, &facts, room, ROOM, &written);
    *allowed = facts.is_allowed;
    return status;
}

static uint8_t answer(const struct typed_headers_resource_handle *handle, const struct typed_headers_section *fields,
                      uint16_t *code) {
    struct typed_headers_resource_facts facts = {0, 0, 0, 0, 0};
    uint8_t room[ROOM];
    size_t count, written;
    uint8_t status = typed_headers_resource_handle_answer(handle, fields, &REQUEST, &NOT_DENIED, &facts, NULL, 0,
                                                          &count, room, ROOM, &written);
    *code = facts.status;
    return status;
}

static uint8_t evaluate(const struct typed_headers_section *fields, uint16_t *code) {
    return typed_headers_section_evaluate(fields, BYTES("GET"), &TARGET, code);
}

/* A closed handle answers ABSENT, and so does one of another struct. Either is as it was. */
static void check_absent(const struct typed_headers_section *fields, const struct typed_headers_cors_policy *policy,
                         const struct typed_headers_resource_handle *handle, const char *what) {
    uint8_t room[ROOM], allowed;
    size_t written = 7, place = 7;
    uint16_t code = 7;
    memset(room, 7, ROOM);
    want(evaluate(fields, &code) == TYPED_HEADERS_ABSENT && code == 7, what);
    want(typed_headers_section_field(fields, BYTES("accept"), room, ROOM, &written) == TYPED_HEADERS_ABSENT, what);
    want(written == 7 && room[0] == 7, what);
    want(typed_headers_section_choose_type(fields, BYTES("text/html"), &place) == TYPED_HEADERS_ABSENT, what);
    want(place == 7, what);
    want(share(policy, fields, &allowed) == TYPED_HEADERS_ABSENT && allowed == 9, what);
    want(answer(handle, fields, &code) == TYPED_HEADERS_ABSENT, what);
}

/* Threads with a handle each, and one that they share. */
static struct typed_headers_cors_policy common = TYPED_HEADERS_CLOSED;

static void *ask(void *wrong_answers) {
    struct typed_headers_section fields = TYPED_HEADERS_CLOSED;
    struct typed_headers_cors_policy policy = TYPED_HEADERS_CLOSED;
    size_t *count = wrong_answers;
    *count += typed_headers_section_new(&fields, BYTES(SECTION), &KEYS) != TYPED_HEADERS_DONE;
    *count += typed_headers_cors_policy_new(&policy, &RULES) != TYPED_HEADERS_DONE;
    for (int round = 0; round < ROUNDS; round++) {
        uint8_t allowed;
        uint16_t code;
        *count += evaluate(&fields, &code) != TYPED_HEADERS_DONE || code != 304;
        *count += share(&policy, &fields, &allowed) != TYPED_HEADERS_DONE || allowed != 1;
        *count += share(&common, &fields, &allowed) != TYPED_HEADERS_DONE || allowed != 1;
    }
    typed_headers_section_free(&fields);
    typed_headers_cors_policy_free(&policy);
    return NULL;
}

static pthread_mutex_t lock = PTHREAD_MUTEX_INITIALIZER;
static struct typed_headers_cache cache = TYPED_HEADERS_CLOSED_CACHE;

/* Makes a step of a pass, for which the cache is held. */
#define STEP(call) (pthread_mutex_lock(&lock), status = (call), pthread_mutex_unlock(&lock), status)

/* Is answered by the cache, or stores content of one letter: neither is held while content is read or received. */
static void *browse(void *wrong_content) {
    size_t *count = wrong_content;
    struct typed_headers_pass pass = TYPED_HEADERS_CLOSED_PASS;
    for (int i = 0; i < ROUNDS; i++) {
        const struct typed_headers_cache_request fresh = {TEXT("/"), TEXT("GET"), {NULL, 0}},
                                                 anew = {TEXT("/"), TEXT("GET"), TEXT("cache-control: no-cache\n")};
        struct typed_headers_pass_facts facts = {0};
        uint8_t content[ROOM], status;
        uint64_t number;
        size_t written;
        *count += STEP(typed_headers_pass_begin(&cache, &pass, i % 2 ? &anew : &fresh, 1000, &facts));
        if (facts.action == TYPED_HEADERS_REPLY) {
            *count += typed_headers_pass_content(&pass, 0, content, ROOM, &written) || written != ROOM
                      || memcmp(content, content + 1, ROOM - 1);
        } else {
            memset(content, 'a' + i % 26, ROOM);
            *count += STEP(typed_headers_pass_came(&cache, &pass, 200, BYTES("cache-control: max-age=9\n"), 1000,
                                                   &facts))
                      || typed_headers_pass_received(&pass, content, ROOM)
                      || STEP(typed_headers_pass_ended(&cache, &pass, true, 1000, &number));
        }
        *count += typed_headers_pass_free(&pass);
    }
    return NULL;
}

/* Two threads do so, and none finds anything else. */
static void run_threads(void *(*run)(void *), const char *what) {
    pthread_t threads[2];
    size_t counts[2] = {0, 0};
    for (int i = 0; i < 2; i++) {
        want(!pthread_create(&threads[i], NULL, run, &counts[i]), "no thread");
    }
    for (int i = 0; i < 2; i++) {
        pthread_join(threads[i], NULL);
        want(!counts[i], what);
    }
}

static void check_threads(void) {
    const struct typed_headers_cache_options options = {4, 4, 1 << 16, 0, true};
    want(typed_headers_cors_policy_new(&common, &RULES) == TYPED_HEADERS_DONE, "a policy isn't made");
    run_threads(ask, "another answer in a thread");
    typed_headers_cors_policy_free(&common);
    want(typed_headers_cache_new(&cache, &options, &KEYS) == TYPED_HEADERS_DONE, "a cache isn't made");
    run_threads(browse, "other content in a thread");
    typed_headers_cache_free(&cache);
}

int main(void) {
    struct typed_headers_section fields = TYPED_HEADERS_CLOSED;
    struct typed_headers_cors_policy policy = TYPED_HEADERS_CLOSED;
    struct typed_headers_resource_handle handle = TYPED_HEADERS_CLOSED;
    uint8_t allowed;
    uint16_t code;
    want(!typed_headers_section_free(NULL) && !typed_headers_cors_policy_free(NULL), "null isn't closed");
    want(!typed_headers_resource_handle_free(NULL) && !typed_headers_section_free(&fields), "null isn't closed");
    check_absent(&fields, &policy, &handle, "a closed handle");

    want(typed_headers_section_new(&fields, BYTES("no field\n"), &KEYS) == TYPED_HEADERS_REFUSED, "no field is one");
    want(!fields.is_open && !fields.place, "a refused section is open");
    want(typed_headers_section_new(&fields, BYTES(SECTION), &KEYS) == TYPED_HEADERS_DONE, "a section isn't opened");
    want(typed_headers_section_new(&fields, NULL, 0, &KEYS) == TYPED_HEADERS_REFUSED, "an open section is opened");
    want(typed_headers_cors_policy_new(&policy, &RULES) == TYPED_HEADERS_DONE, "a policy isn't made");
    want(typed_headers_cors_policy_new(&policy, &RULES) == TYPED_HEADERS_REFUSED, "an open policy is made");
    want(typed_headers_resource_handle_new(&handle, &RESOURCE, NULL, 0, &RULES) == TYPED_HEADERS_DONE,
         "a resource isn't made");
    want(typed_headers_resource_handle_new(&handle, &RESOURCE, NULL, 0, &RULES) == TYPED_HEADERS_REFUSED,
         "an open resource is made");
    want(!evaluate(&fields, &code) && code == 304, "another precondition");
    want(!share(&policy, &fields, &allowed) && allowed == 1, "another origin");
    want(!answer(&handle, &fields, &code) && code == 405, "another answer");
    check_absent((void *)&policy, (void *)&handle, (void *)&fields, "a handle of another struct");
    want(!evaluate(&fields, &code) && code == 304, "another precondition after that");

    for (int i = 0; i < 2; i++) {
        want(!typed_headers_section_free(&fields) && !typed_headers_cors_policy_free(&policy) &&
                 !typed_headers_resource_handle_free(&handle), "it isn't closed");
        check_absent(&fields, &policy, &handle, "a handle that was closed");
    }
    want(typed_headers_section_new(&fields, NULL, 0, &KEYS) == TYPED_HEADERS_DONE, "an empty section isn't opened");
    want(!evaluate(&fields, &code) && code == 0, "a precondition of no field");
    typed_headers_section_free(&fields);
    check_threads();
    printf("handles: %d answered otherwise\n", wrong);
    return wrong != 0;
}
