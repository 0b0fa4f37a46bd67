/*
 * Tests that threads share handles without a lock: eight ask one section, one policy, one resource and one connection,
 * each 100,000 times or as often as the argument says, and get what a call alone gives. Meanwhile the handles are in
 * memory that may only be read: a call that wrote there would end the program. What they have is as it was in the end:
 * calls count who uses a text (by atomic steps), and leave each count as it was.
 */
#include "typed_headers.h"
#include <pthread.h>
#include <stdio.h>
#include <stdlib.h>
#include <string.h>
#include <sys/mman.h>

#define BYTES(text) (const uint8_t *)(text), sizeof(text) - 1
#define TEXT(text) {(const uint8_t *)(text), sizeof(text) - 1}

enum { THREADS = 8, CALLS = 100000, ROOM = 512, REGION = 1 << 20, ALIGNMENT = 16 };

/* What is allocated while handles are opened is in a region of its own. Each block has its size before it. */
static uint8_t *region;
static size_t used;
static bool is_opening;

void *__real_malloc(size_t size);
void *__real_realloc(void *block, size_t size);
void __real_free(void *block);
void *__wrap_malloc(size_t size);
void *__wrap_realloc(void *block, size_t size);
void __wrap_free(void *block);

static bool is_in_region(const void *block) {
    return region && (const uint8_t *)block >= region && (const uint8_t *)block < region + REGION;
}

void *__wrap_malloc(size_t size) {
    if (!is_opening) return __real_malloc(size);
    size_t taken = ALIGNMENT + (size + ALIGNMENT - 1) / ALIGNMENT * ALIGNMENT;
    if (size > REGION || taken > REGION - used) return NULL;
    uint8_t *block = region + used;
    memcpy(block, &size, sizeof size);
    used += taken;
    return block + ALIGNMENT;
}

void *__wrap_realloc(void *block, size_t size) {
    if (!is_in_region(block)) return block ? __real_realloc(block, size) : __wrap_malloc(size);
    size_t old;
    memcpy(&old, (uint8_t *)block - ALIGNMENT, sizeof old);
    void *moved = __wrap_malloc(size);
    if (moved) memcpy(moved, block, old < size ? old : size);
    return moved;
}

void __wrap_free(void *block) {
    if (!is_in_region(block)) __real_free(block);
}

static const struct typed_headers_keys KEYS = {1, 2};
static const struct typed_headers_target TARGET = {.etag = TEXT("\"a\""), .present = 1767225600, .exists = true};
static const struct typed_headers_resource RESOURCE = {
    .hosts = TEXT("b.example"), .methods = TEXT("GET"), .media_types = TEXT("text/html"), .etags = TEXT("\"b\""),
    .has_cors = true};
static const struct typed_headers_representation NUMBERS[] = {{.length = 1000}};
static const struct typed_headers_resource_request REQUEST = {
    .method = TEXT("GET"), .present = 1767225600, .version = 11};
static const struct typed_headers_denial NOT_DENIED;
static const struct typed_headers_cors_rules RULES = {
    .origins = TEXT("https://a.example\nhttps://c.example"), .exposed = TEXT("etag")};
static const struct typed_headers_cors_exchange EXCHANGE = {.method = TEXT("GET"), .response = TEXT("Vary: accept\n")};
static const char SECTION[] =
    "Host: b.example\nOrigin: https://a.example\nIf-None-Match: \"a\"\nAccept: text/html;q=0.5\n";
static const char ASKED[] = "GET /path?query HTTP/1.1\r\nHost: b.example\r\n\r\n";

struct handles {
    struct typed_headers_section fields;
    struct typed_headers_cors_policy policy;
    struct typed_headers_resource_handle resource;
    struct typed_headers_connection connection;
};

static struct handles *shared;
static unsigned long calls = CALLS;

enum { TEXTS = 5 };

struct answers {
    uint8_t status[TEXTS + 1];
    uint16_t code, resource;
    uint8_t is_allowed;
    size_t count, written[TEXTS];
    uint8_t rooms[TEXTS][ROOM];
};

static void ask(struct answers *answers) {
    struct typed_headers_cors_facts cors = {0};
    struct typed_headers_resource_facts facts = {0};
    struct typed_headers_bytes_range parts[4];
    uint8_t *status = answers->status;
    memset(answers, 0, sizeof *answers);
#define INTO(i) answers->rooms[i], ROOM, &answers->written[i]
    status[0] = typed_headers_cors_policy_answer(&shared->policy, &shared->fields, &EXCHANGE, &KEYS, &cors, INTO(0));
    status[1] = typed_headers_resource_handle_answer(&shared->resource, &shared->fields, &REQUEST, &NOT_DENIED, &facts,
                                                     parts, 4, &answers->count, INTO(1));
    status[2] = typed_headers_section_field(&shared->fields, BYTES("accept"), INTO(2));
    status[3] = typed_headers_connection_path(&shared->connection, INTO(3));
    status[4] = typed_headers_connection_field(&shared->connection, BYTES("Host"), INTO(4));
    status[5] = typed_headers_section_evaluate(&shared->fields, BYTES("GET"), &TARGET, &answers->code);
    answers->is_allowed = cors.is_allowed;
    answers->resource = facts.status;
}

static struct answers alone;

static void *ask_often(void *wrong) {
    struct answers answers;
    for (unsigned long i = 0; i < calls; i++) {
        ask(&answers);
        *(size_t *)wrong += memcmp(&answers, &alone, sizeof alone) != 0;
    }
    return NULL;
}

static bool open_handles(void) {
    uint8_t event;
    return typed_headers_section_new(&shared->fields, BYTES(SECTION), &KEYS) == TYPED_HEADERS_DONE
           && typed_headers_cors_policy_new(&shared->policy, &RULES) == TYPED_HEADERS_DONE
           && typed_headers_resource_handle_new(&shared->resource, &RESOURCE, NUMBERS, 1, &RULES) == TYPED_HEADERS_DONE
           && typed_headers_connection_new(&shared->connection, 1000, &KEYS) == TYPED_HEADERS_DONE
           && typed_headers_connection_receive(&shared->connection, BYTES(ASKED)) == TYPED_HEADERS_DONE
           && typed_headers_connection_next(&shared->connection, &event) == TYPED_HEADERS_DONE
           && event == TYPED_HEADERS_REQUEST;
}

int main(int count, char **arguments) {
    pthread_t threads[THREADS];
    size_t wrong[THREADS] = {0}, others = 0;
    if (count > 1) calls = strtoul(arguments[1], NULL, 10);
    region = mmap(NULL, REGION, PROT_READ | PROT_WRITE, MAP_PRIVATE | MAP_ANONYMOUS, -1, 0);
    if (region == MAP_FAILED) return 2;
    shared = mmap(NULL, sizeof *shared, PROT_READ | PROT_WRITE, MAP_PRIVATE | MAP_ANONYMOUS, -1, 0);
    if (shared == MAP_FAILED) return 2;
    is_opening = true;
    if (!open_handles()) {
        puts("shared: a handle isn't opened");
        return 2;
    }
    is_opening = false;
    mprotect(shared, sizeof *shared, PROT_READ);
    static uint8_t before[REGION];
    memcpy(before, region, used);
    ask(&alone);
    for (int i = 0; i < TEXTS + 1; i++) others += alone.status[i] != TYPED_HEADERS_DONE;
    others += alone.code != 304 || alone.is_allowed != 1 || memcmp(alone.rooms[3], "/path", 5) != 0;
    for (int i = 0; i < THREADS; i++) {
        if (pthread_create(&threads[i], NULL, ask_often, &wrong[i])) return 2;
    }
    for (int i = 0; i < THREADS; i++) {
        pthread_join(threads[i], NULL);
        others += wrong[i];
    }
    others += memcmp(before, region, used) != 0;
    mprotect(shared, sizeof *shared, PROT_READ | PROT_WRITE);
    typed_headers_section_free(&shared->fields);
    typed_headers_cors_policy_free(&shared->policy);
    typed_headers_resource_handle_free(&shared->resource);
    typed_headers_connection_free(&shared->connection);
    printf("shared: %zu answered otherwise\n", others);
    return others != 0;
}
