/*
 * Makes the calls of rows, and compares the answers with those that are wanted.
 *
 *     test [--null | --handles] FILE..
 *
 * A row is `CALL WORD.. = ANSWER`, as crates/test_port/README.md tells. Each row of tests/cases is made; of those of
 * the port, rows of other calls are passed over. Each call is made over bytes that end where memory that nothing may
 * touch begins. One that writes bytes is made with each room from none to one byte more than is wanted. Each request
 * for memory of a call is refused in turn. After a call no block may be left. With --handles, the calls that have one
 * are made by handles.
 */
#include "handled.h"
#include "typed_headers.h"
#include <stdbool.h>
#include <stdio.h>
#include <stdlib.h>
#include <string.h>
#include <strings.h>
#include <sys/mman.h>
#include <time.h>

enum { MOST_WORDS = 2048, AREA = 1 << 24, SHORT = 300, FILL = 0xA5 };

/* Memory as the library asks for it. */
static bool is_counting;
static size_t blocks, requests, refused_request;

void *__real_malloc(size_t size);
void *__real_realloc(void *block, size_t size);
void __real_free(void *block);

static bool is_refused(void) { return is_counting && ++requests == refused_request; }

void *__wrap_malloc(size_t size) {
    void *block = is_refused() ? NULL : __real_malloc(size);
    blocks += is_counting && block;
    return block;
}

void *__wrap_realloc(void *block, size_t size) {
    if (is_refused()) {
        return NULL;
    }
    blocks += is_counting && !block;
    return __real_realloc(block, size);
}

void __wrap_free(void *block) {
    blocks -= is_counting && block;
    __real_free(block);
}

/* Whether empty texts and rooms are handed in as null pointers. */
static bool is_null;

/* Whether calls are made by handles. */
static bool is_handled;

/* An area of memory before a page that nothing may touch. */
struct area {
    uint8_t *end;
};

static struct area new_area(void) {
    uint8_t *start = mmap(NULL, AREA + 4096, PROT_READ | PROT_WRITE, MAP_PRIVATE | MAP_ANONYMOUS, -1, 0);
    if (start == MAP_FAILED || mprotect(start + AREA, 4096, PROT_NONE)) {
        perror("test: no memory");
        exit(2);
    }
    return (struct area){start + AREA};
}

/* The bytes, up to the end of the area. */
static struct typed_headers_text put(struct area area, const char *bytes, size_t length) {
    if (is_null && !length) {
        return (struct typed_headers_text){NULL, 0};
    }
    memcpy(area.end - length, bytes, length);
    return (struct typed_headers_text){area.end - length, length};
}

/* A row, its words as bytes. */
struct word {
    char *bytes;
    size_t length;
};

struct row {
    const char *file;
    int number;
    char *call;
    struct word words[MOST_WORDS];
    size_t count;
    char *answer;
};

/* The rows, the calls that were made of them, those of these that were answered otherwise, and refusals of memory. */
static size_t rows, calls, wrong, refusals;
static struct area first_area, second_area, third_area, rule_areas[4], room_area;

static void complain(const struct row *row, const char *what) {
    wrong++;
    printf("%s:%d: %s: %s, wanted %s\n", row->file, row->number, row->call, what, row->answer);
}

static int digit(char c) { return c <= '9' ? c - '0' : (c | 32) - 'a' + 10; }

/* Decodes a word in place. */
static size_t decode(char *word) {
    size_t length = 0;
    if (strcmp(word, "()") == 0) {
        return 0;
    }
    for (const char *at = word; *at; at++) {
        if (*at == '%') {
            word[length++] = (char)(digit(at[1]) * 16 + digit(at[2]));
            at += 2;
        } else {
            word[length++] = *at;
        }
    }
    return length;
}

/* The words from one on, each with a byte 10 after it. */
static struct typed_headers_text lines(const struct row *row, size_t from) {
    static char joined[AREA];
    size_t length = 0;
    for (size_t i = from; i < row->count; i++) {
        memcpy(joined + length, row->words[i].bytes, row->words[i].length);
        length += row->words[i].length;
        joined[length++] = '\n';
    }
    return put(first_area, joined, length);
}

/* A word of an answer, counted from 0, as bytes. */
static struct word answer_word(const struct row *row, size_t place) {
    static char copy[AREA];
    snprintf(copy, sizeof copy, "%s", row->answer);
    char *word = strtok(copy, " ");
    while (word && place--) {
        word = strtok(NULL, " ");
    }
    return word ? (struct word){word, decode(word)} : (struct word){"", 0};
}

static bool answer_is(const struct row *row, size_t place, const char *answer) {
    struct word word = answer_word(row, place);
    return word.length == strlen(answer) && memcmp(word.bytes, answer, word.length) == 0;
}

static bool is_answer(const struct row *row, const char *answer) { return strcmp(row->answer, answer) == 0; }

static bool is_word(const struct word *word, const char *text) {
    return word->length == strlen(text) && memcmp(word->bytes, text, word->length) == 0;
}

/* A call over the areas: its status, and what it gave. */
typedef uint8_t call_fn(const void *arguments, uint64_t *number, uint8_t *room, size_t room_length, size_t *written);

struct gift {
    uint8_t status;
    uint64_t number;
    size_t written;
};

static const uint64_t NO_NUMBER = 0x5A5A5A5A5A5A5A5A;
static const size_t NOT_WRITTEN = 0x5B5B5B5B;

static struct gift make(call_fn *call, const void *arguments, size_t room, size_t refused) {
    struct gift gift = {0, NO_NUMBER, NOT_WRITTEN};
    memset(room_area.end - room, FILL, room);
    requests = 0;
    refused_request = refused;
    blocks = 0;
    is_counting = true;
    gift.status = call(arguments, &gift.number, is_null && !room ? NULL : room_area.end - room, room, &gift.written);
    is_counting = false;
    return gift;
}

static bool is_filled(const uint8_t *from, const uint8_t *to) {
    for (; from < to; from++) {
        if (*from != FILL) {
            return false;
        }
    }
    return true;
}

/* Makes a call with each room and each refusal, and compares it with what is wanted. */
static void check(const struct row *row, call_fn *call, const void *arguments, uint8_t status, uint64_t number,
                  struct word text) {
    const bool gives = status == TYPED_HEADERS_DONE || status == TYPED_HEADERS_MARKED;
    const size_t wanted = gives ? text.length : 0;
    calls++;
    for (size_t room = 0; room <= wanted + 1; room++) {
        if (wanted > SHORT && room > 0 && room + 1 < wanted) {
            continue;
        }
        struct gift gift = make(call, arguments, room, 0);
        const uint8_t *at = room_area.end - room;
        const bool fits = wanted <= room;
        if (gift.status != (gives && !fits ? TYPED_HEADERS_NO_ROOM : status)) {
            complain(row, "another status");
            printf("    status %d, room %zu\n", gift.status, room);
            return;
        }
        if (gift.number != (gives ? number : NO_NUMBER)) {
            complain(row, "another number");
            return;
        }
        if (gift.written != (gives && text.bytes ? wanted : NOT_WRITTEN)) {
            complain(row, "another count of bytes");
            return;
        }
        const bool has_text = gives && fits && text.bytes;
        if ((has_text && memcmp(at, text.bytes, wanted) != 0) || !is_filled(has_text ? at + wanted : at, at + room)) {
            complain(row, "other bytes");
            return;
        }
        if (blocks) {
            complain(row, "a block is left");
            return;
        }
    }
    for (size_t refused = 1;; refused++) {
        struct gift gift = make(call, arguments, wanted, refused);
        if (requests < refused) {
            return;
        }
        refusals++;
        if (gift.status == TYPED_HEADERS_NO_MEMORY
                ? gift.number != NO_NUMBER || gift.written != NOT_WRITTEN ||
                      !is_filled(room_area.end - wanted, room_area.end)
                : gift.status != status) {
            complain(row, "another answer without memory");
            return;
        }
        if (blocks) {
            complain(row, "a block is left without memory");
            return;
        }
    }
}

static const struct word NO_TEXT = {NULL, 0}, EMPTY = {"", 0};

/* What a call refuses, by the lines that it is given. */
static uint8_t refusal(struct typed_headers_text text) {
    return text.length ? TYPED_HEADERS_REFUSED : TYPED_HEADERS_ABSENT;
}

/* Calls that give a number. */
struct number_call {
    uint8_t (*function)(const uint8_t *lines, size_t lines_length, uint64_t *number);
    struct typed_headers_text lines;
};

static uint8_t call_number(const void *arguments, uint64_t *number, uint8_t *room, size_t room_length,
                           size_t *written) {
    const struct number_call *call = arguments;
    (void)room, (void)room_length, (void)written;
    return call->function(call->lines.bytes, call->lines.length, number);
}

static void check_number(const struct row *row, const char *type) {
    struct number_call call = {NULL, lines(row, 0)};
    call.function = strcmp(type, "Age") == 0             ? typed_headers_age
                    : strcmp(type, "ContentLength") == 0 ? typed_headers_content_length
                    : strcmp(type, "Date") == 0          ? typed_headers_date
                    : strcmp(type, "Expires") == 0       ? typed_headers_expires
                                                         : typed_headers_last_modified;
    if (is_answer(row, "(refused)")) {
        check(row, call_number, &call, refusal(call.lines), NO_NUMBER, NO_TEXT);
        return;
    }
    struct word number = answer_word(row, 2);
    number.bytes[number.length] = 0;
    check(row, call_number, &call, TYPED_HEADERS_DONE, strtoull(number.bytes, NULL, 10), NO_TEXT);
}

/* Calls that give bytes of lines. */
struct bytes_call {
    uint8_t (*function)(const uint8_t *lines, size_t lines_length, uint8_t *room, size_t room_length, size_t *written);
    struct typed_headers_text lines;
};

static uint8_t call_bytes(const void *arguments, uint64_t *number, uint8_t *room, size_t room_length,
                          size_t *written) {
    const struct bytes_call *call = arguments;
    (void)number;
    return call->function(call->lines.bytes, call->lines.length, room, room_length, written);
}

static void check_media_type(const struct row *row) {
    struct bytes_call call = {typed_headers_media_type, lines(row, 0)};
    if (is_answer(row, "(refused)")) {
        check(row, call_bytes, &call, refusal(call.lines), NO_NUMBER, NO_TEXT);
        return;
    }
    struct word text = answer_word(row, 1);
    check(row, call_bytes, &call, TYPED_HEADERS_DONE, NO_NUMBER, text);
    call.function = typed_headers_essence;
    text.length = strcspn(text.bytes, ";") < text.length ? strcspn(text.bytes, ";") : text.length;
    check(row, call_bytes, &call, TYPED_HEADERS_DONE, NO_NUMBER, text);
}

static const struct typed_headers_keys KEYS = {1, 2};

/* The canonical text of a section. */
static uint8_t call_canonical(const void *arguments, uint64_t *number, uint8_t *room, size_t room_length,
                              size_t *written) {
    const struct typed_headers_text *section = arguments;
    (void)number;
    return typed_headers_canonical(section->bytes, section->length, &KEYS, room, room_length, written);
}

static void check_canonical(const struct row *row) {
    struct typed_headers_text section = put(first_area, row->words[0].bytes, row->words[0].length);
    const char *outcomes[] = {"clean ", "some-refused ", "not-a-field "};
    const uint8_t statuses[] = {TYPED_HEADERS_DONE, TYPED_HEADERS_MARKED, TYPED_HEADERS_REFUSED};
    for (int i = 0; i < 3; i++) {
        if (strncmp(row->answer, outcomes[i], strlen(outcomes[i])) == 0) {
            check(row, call_canonical, &section, statuses[i], NO_NUMBER, answer_word(row, 1));
            return;
        }
    }
    complain(row, "an outcome that no call has");
}

/* Entity tags, compared. */
struct tags_call {
    uint8_t (*function)(const uint8_t *one, size_t one_length, const uint8_t *other, size_t other_length,
                        uint8_t *equal);
    struct typed_headers_text one, other;
};

static uint8_t call_tags(const void *arguments, uint64_t *number, uint8_t *room, size_t room_length,
                         size_t *written) {
    const struct tags_call *call = arguments;
    uint8_t equal = FILL;
    (void)room, (void)room_length, (void)written;
    uint8_t status = call->function(call->one.bytes, call->one.length, call->other.bytes, call->other.length, &equal);
    if (equal != FILL) {
        *number = equal;
    }
    return status;
}

static void check_tags(const struct row *row) {
    struct tags_call call = {typed_headers_strong_eq, put(first_area, row->words[0].bytes, row->words[0].length),
                             put(second_area, row->words[1].bytes, row->words[1].length)};
    check(row, call_tags, &call, TYPED_HEADERS_DONE, answer_is(row, 0, "true"), NO_TEXT);
    call.function = typed_headers_weak_eq;
    check(row, call_tags, &call, TYPED_HEADERS_DONE, answer_is(row, 1, "true"), NO_TEXT);
}

/* Whether a text is an entity tag, which any is weakly equal to itself. */
static void check_tag(const struct row *row) {
    struct tags_call call = {typed_headers_weak_eq, lines(row, 0), {NULL, 0}};
    call.other = put(second_area, (const char *)call.one.bytes, call.one.length);
    if (is_answer(row, "(refused)")) {
        check(row, call_tags, &call, refusal(call.one), NO_NUMBER, NO_TEXT);
    } else {
        check(row, call_tags, &call, TYPED_HEADERS_DONE, 1, NO_TEXT);
    }
}

/* The directives of `cache-control`, as the answers of its getters are written. */
static uint8_t call_cache_control(const void *arguments, uint64_t *number, uint8_t *room, size_t room_length,
                                  size_t *written) {
    const struct typed_headers_text *text = arguments;
    struct typed_headers_cache_directives given;
    memset(&given, FILL, sizeof given);
    (void)number;
    uint8_t status = typed_headers_cache_control(text->bytes, text->length, &given);
    if (status != TYPED_HEADERS_DONE) {
        return is_filled((const uint8_t *)&given, (const uint8_t *)(&given + 1)) ? status : FILL;
    }
    const uint8_t flags[] = {given.no_cache,   given.no_store,  given.no_transform,    given.only_if_cached,
                             given.is_public,  given.is_private, given.immutable,      given.must_revalidate,
                             given.must_understand};
    const struct typed_headers_directive_seconds numbers[] = {given.max_age, given.max_stale, given.min_fresh,
                                                              given.s_maxage};
    char shown[512];
    size_t length = 0;
    for (size_t i = 0; i < sizeof flags; i++) {
        length += sprintf(shown + length, " %s", flags[i] == 1 ? "true" : flags[i] == 0 ? "false" : "neither");
    }
    for (size_t i = 0; i < 4; i++) {
        length += numbers[i].is_set ? sprintf(shown + length, " %llu", (unsigned long long)numbers[i].seconds)
                                    : sprintf(shown + length, numbers[i].seconds ? " unset" : " (none)");
    }
    const char *proxy = given.proxy_revalidate == 1 ? " proxy" : given.proxy_revalidate ? " neither" : "";
    length += sprintf(shown + length, "%s", proxy);
    *written = length;
    if (length > room_length) {
        return TYPED_HEADERS_NO_ROOM;
    }
    memcpy(room, shown, length);
    return status;
}

static void check_cache_control(const struct row *row) {
    struct typed_headers_text text = lines(row, 0);
    if (!text.length || is_answer(row, "(refused)")) {
        check(row, call_cache_control, &text, refusal(text), NO_NUMBER, NO_TEXT);
        return;
    }
    /* Before the getters stands the line that is written, and no getter tells of `proxy-revalidate`. */
    static char wanted[AREA];
    const char *getters = strchr(row->answer + 2, ' ');
    const char *proxy = strstr(row->answer, "proxy-revalidate");
    size_t length = sprintf(wanted, "%s%s", getters, proxy && proxy < getters ? " proxy" : "");
    check(row, call_cache_control, &text, TYPED_HEADERS_DONE, NO_NUMBER, (struct word){wanted, length});
}

/* The canonical lines of a field. */
struct field_call {
    struct typed_headers_text name, lines;
};

static uint8_t call_field(const void *arguments, uint64_t *number, uint8_t *room, size_t room_length,
                          size_t *written) {
    const struct field_call *call = arguments;
    (void)number;
    if (is_handled && !has_blank_ends(call->lines.bytes, call->lines.length)) {
        struct typed_headers_section fields = TYPED_HEADERS_CLOSED;
        uint8_t status =
            open_lines(&fields, call->name.bytes, call->name.length, call->lines.bytes, call->lines.length);
        if (status == TYPED_HEADERS_DONE) {
            status = typed_headers_section_field(&fields, call->name.bytes, call->name.length, room, room_length,
                                                 written);
        }
        typed_headers_section_free(&fields);
        return status;
    }
    return typed_headers_field(call->name.bytes, call->name.length, call->lines.bytes, call->lines.length, room,
                               room_length, written);
}

/* The name of the field of a type, with the case of the type. */
static size_t name_of_type(const char *type, char *name) {
    static const struct {
        const char *type, *name;
    } others[] = {{"AuthorizationBasic", "Authorization"},
                  {"AuthorizationBearer", "Authorization"},
                  {"ProxyAuthorizationBasic", "Proxy-Authorization"},
                  {"ProxyAuthorizationBearer", "Proxy-Authorization"},
                  {"ETag", "ETag"}};
    for (size_t i = 0; i < sizeof others / sizeof *others; i++) {
        if (strcmp(type, others[i].type) == 0) {
            return sprintf(name, "%s", others[i].name);
        }
    }
    size_t length = 0;
    for (const char *at = type; *at; at++) {
        if (at > type && *at >= 'A' && *at <= 'Z') {
            name[length++] = '-';
        }
        name[length++] = *at;
    }
    return length;
}

/* Whether the first line begins with the scheme that the type isn't of. */
static bool has_other_scheme(const struct row *row, const char *type) {
    const char *scheme = strstr(type, "Basic") ? "bearer " : "basic ";
    return strstr(type, "Authorization") && row->count && row->words[0].length >= strlen(scheme) &&
           strncasecmp(row->words[0].bytes, scheme, strlen(scheme)) == 0;
}

/* `TYPE.decode LINE..`: of the answer the lines that are written count. */
static void check_field(const struct row *row, const char *type) {
    static char wanted[AREA];
    char name[64];
    const size_t name_length = name_of_type(type, name);
    struct field_call call = {put(third_area, name, name_length), lines(row, 0)};
    if (!call.lines.length) {
        check(row, call_field, &call, TYPED_HEADERS_ABSENT, NO_NUMBER, NO_TEXT);
        return;
    }
    if (is_answer(row, "(refused)")) {
        if (!has_other_scheme(row, type)) {
            check(row, call_field, &call, TYPED_HEADERS_REFUSED, NO_NUMBER, NO_TEXT);
        }
        return;
    }
    size_t length = 0;
    for (size_t i = 1, count = strtoull(row->answer, NULL, 10); i <= count; i++) {
        struct word line = answer_word(row, i);
        memcpy(wanted + length, line.bytes, line.length);
        length += line.length;
        wanted[length++] = '\n';
    }
    check(row, call_field, &call, TYPED_HEADERS_DONE, NO_NUMBER, (struct word){wanted, length});
}

/* Values, formatted. */
static uint8_t call_format_date(const void *arguments, uint64_t *number, uint8_t *room, size_t room_length,
                                size_t *written) {
    (void)number;
    return typed_headers_format_date(*(const uint64_t *)arguments, room, room_length, written);
}

/* `Date.from_unix_secs SECOND` */
static void check_format_date(const struct row *row) {
    uint64_t second = strtoull(row->words[0].bytes, NULL, 10);
    check(row, call_format_date, &second, TYPED_HEADERS_DONE, NO_NUMBER, answer_word(row, 1));
    second += 253402300800;
    check(row, call_format_date, &second, TYPED_HEADERS_REFUSED, NO_NUMBER, NO_TEXT);
}

static uint8_t call_format_range(const void *arguments, uint64_t *number, uint8_t *room, size_t room_length,
                                 size_t *written) {
    (void)number;
    return typed_headers_format_content_range(arguments, room, room_length, written);
}

/* `ContentRange.bytes FIRST LAST LENGTH`: of the answer the line counts, if both bounds are included. */
static void check_format_range(const struct row *row) {
    struct typed_headers_content_range range = {.has_range = 1, .has_length = !is_word(&row->words[2], "(none)")};
    if (row->words[0].bytes[0] != 'i' || row->words[1].bytes[0] != 'i') {
        return;
    }
    range.first = strtoull(row->words[0].bytes + 1, NULL, 10);
    range.last = strtoull(row->words[1].bytes + 1, NULL, 10);
    range.length = range.has_length ? strtoull(row->words[2].bytes, NULL, 10) : 7;
    if (range.first > range.last || (range.has_length && range.last >= range.length)) {
        check(row, call_format_range, &range, TYPED_HEADERS_REFUSED, NO_NUMBER, NO_TEXT);
    } else {
        check(row, call_format_range, &range, TYPED_HEADERS_DONE, NO_NUMBER, answer_word(row, 1));
    }
    range.has_range = range.has_length = 0;
    check(row, call_format_range, &range, TYPED_HEADERS_REFUSED, NO_NUMBER, NO_TEXT);
}

/* `ContentRange.unsatisfied_bytes LENGTH` */
static void check_format_length(const struct row *row) {
    struct typed_headers_content_range range = {.first = 9, .has_length = 255};
    range.length = strtoull(row->words[0].bytes, NULL, 10);
    check(row, call_format_range, &range, TYPED_HEADERS_DONE, NO_NUMBER, answer_word(row, 1));
}

struct tag_call {
    bool is_weak;
    struct typed_headers_text opaque;
};

static uint8_t call_format_tag(const void *arguments, uint64_t *number, uint8_t *room, size_t room_length,
                               size_t *written) {
    const struct tag_call *call = arguments;
    (void)number;
    return typed_headers_format_etag(call->is_weak, call->opaque.bytes, call->opaque.length, room, room_length,
                                     written);
}

/* `ETag.decode LINE`, if the line has the form of a tag: what its parts are formatted as. */
static void check_format_tag(const struct row *row) {
    if (row->count != 1) {
        return;
    }
    const char *bytes = row->words[0].bytes, *end = bytes + row->words[0].length;
    struct tag_call call = {.is_weak = end - bytes > 1 && memcmp(bytes, "W/", 2) == 0};
    bytes += call.is_weak ? 2 : 0;
    if (end - bytes < 2 || *bytes != '"' || end[-1] != '"') {
        return;
    }
    call.opaque = put(first_area, bytes + 1, end - bytes - 2);
    if (is_answer(row, "(refused)")) {
        check(row, call_format_tag, &call, TYPED_HEADERS_REFUSED, NO_NUMBER, NO_TEXT);
    } else {
        check(row, call_format_tag, &call, TYPED_HEADERS_DONE, NO_NUMBER, answer_word(row, 1));
    }
}

/* The ranges for a length, whose bytes are those of the room. */
struct ranges_call {
    struct typed_headers_text lines;
    uint64_t length;
};

/* The end of a room of bytes, as a room of ranges. */
struct range_room {
    struct typed_headers_bytes_range *start;
    size_t count;
};

static struct range_room range_room(uint8_t *room, size_t room_length) {
    const size_t size = sizeof(struct typed_headers_bytes_range);
    if (!room) {
        return (struct range_room){NULL, 0};
    }
    return (struct range_room){(void *)(room + room_length % size), room_length / size};
}

/* Tells of ranges that were written as of bytes, which begin where the room does. */
static uint8_t ranges_written(uint8_t status, struct range_room ranges, uint8_t *room, size_t room_length,
                              size_t *written) {
    if (status == TYPED_HEADERS_DONE || status == TYPED_HEADERS_NO_ROOM) {
        *written *= sizeof *ranges.start;
    }
    if (status == TYPED_HEADERS_DONE && (uint8_t *)ranges.start != room) {
        memmove(room, ranges.start, *written);
        memset(room + *written, FILL, room_length - *written);
    }
    return status;
}

static uint8_t call_ranges(const void *arguments, uint64_t *number, uint8_t *room, size_t room_length,
                           size_t *written) {
    const struct ranges_call *call = arguments;
    struct range_room ranges = range_room(room, room_length);
    (void)number;
    uint8_t status = typed_headers_ranges(call->lines.bytes, call->lines.length, call->length, ranges.start,
                                          ranges.count, written);
    return ranges_written(status, ranges, room, room_length, written);
}

static void check_ranges(const struct row *row) {
    static uint64_t bounds[AREA / sizeof(uint64_t)];
    size_t count = 0;
    struct ranges_call call = {lines(row, 1), strtoull(row->words[0].bytes, NULL, 10)};
    if (is_answer(row, "(refused)")) {
        check(row, call_ranges, &call, refusal(call.lines), NO_NUMBER, NO_TEXT);
        return;
    }
    for (const char *at = row->answer; (at = strstr(at, " i"));) {
        at += 2;
        bounds[count++] = strtoull(at, NULL, 10);
    }
    check(row, call_ranges, &call, TYPED_HEADERS_DONE, NO_NUMBER,
          (struct word){(char *)bounds, count * sizeof(uint64_t)});
}

/* The answer to a key. */
static bool is_key(const struct row *row) {
    const struct word *key = row->words;
    static const char symbols[] = "ABCDEFGHIJKLMNOPQRSTUVWXYZabcdefghijklmnopqrstuvwxyz0123456789+/";
    return row->count == 1 && key->length == 24 && strspn(key->bytes, symbols) >= 22 &&
           memcmp(key->bytes + 22, "==", 2) == 0 && strchr("AQgw", key->bytes[21]);
}

static void check_accept(const struct row *row) {
    struct bytes_call call = {typed_headers_websocket_accept, lines(row, 0)};
    if (is_key(row)) {
        check(row, call_bytes, &call, TYPED_HEADERS_DONE, NO_NUMBER, answer_word(row, 1));
    } else {
        check(row, call_bytes, &call, refusal(call.lines), NO_NUMBER, NO_TEXT);
    }
}

/* A request to a target. */
struct request_call {
    struct typed_headers_request request;
    struct typed_headers_target target;
    uint64_t length;
};

static uint8_t call_evaluate(const void *arguments, uint64_t *number, uint8_t *room, size_t room_length,
                             size_t *written) {
    const struct request_call *call = arguments;
    uint16_t answer = FILL;
    (void)room, (void)room_length, (void)written;
    uint8_t status = (is_handled ? handled_evaluate : typed_headers_evaluate)(
        &call->request, &KEYS, &call->target, &answer);
    if (answer != FILL) {
        *number = answer;
    }
    return status;
}

static uint8_t call_select(const void *arguments, uint64_t *number, uint8_t *room, size_t room_length,
                           size_t *written) {
    const struct request_call *call = arguments;
    struct range_room ranges = range_room(room, room_length);
    uint16_t answer = FILL;
    uint8_t status = (is_handled ? handled_select : typed_headers_select)(
        &call->request, &KEYS, &call->target, call->length, &answer, ranges.start, ranges.count, written);
    if (answer != FILL) {
        *number = answer;
    }
    return ranges_written(status, ranges, room, room_length, written);
}

/* Whether a word is the name of a field, which stands in parentheses. */
static bool is_name(const struct word *word) { return word->length > 2 && word->bytes[0] == '('; }

/* `(NAME) LINE.. (/)` as a header section in an area, which ends with the row at the latest. The place after it. */
static size_t read_section(const struct row *row, size_t i, struct area area, struct typed_headers_text *text) {
    static char section[AREA];
    size_t length = 0;
    struct word name = {"", 0};
    for (; i < row->count && !is_word(&row->words[i], "(/)"); i++) {
        const struct word *word = &row->words[i];
        if (is_name(word)) {
            name = (struct word){word->bytes + 1, word->length - 2};
            continue;
        }
        length += sprintf(section + length, "%.*s: %.*s\r\n", (int)name.length, name.bytes, (int)word->length,
                          word->bytes);
    }
    *text = put(area, section, length);
    return i + 1;
}

/* Writes the lines of a field of such words, each as is told, and says how many bytes they are. */
static size_t field_lines(const struct row *row, size_t i, const char *name, const char *form, char *lines) {
    size_t length = 0;
    bool is_wanted = false;
    for (; i < row->count && !is_word(&row->words[i], "(/)"); i++) {
        const struct word *word = &row->words[i];
        if (is_name(word)) {
            is_wanted = word->length == strlen(name) + 2 && memcmp(word->bytes + 1, name, strlen(name)) == 0;
        } else if (is_wanted) {
            length += sprintf(lines + length, form, (int)word->length, word->bytes);
        }
    }
    lines[length] = 0;
    return length;
}

/* The words of the row's answer. */
static struct row *answer_words(const struct row *row) {
    static struct row answer;
    static char copy[AREA];
    snprintf(copy, sizeof copy, "%s", row->answer);
    answer.count = 0;
    for (char *word = strtok(copy, " "); word && answer.count < MOST_WORDS; word = strtok(NULL, " ")) {
        answer.words[answer.count++] = (struct word){word, 0};
    }
    for (size_t i = 0; i < answer.count; i++) {
        answer.words[i].length = decode(answer.words[i].bytes);
    }
    return &answer;
}

/* `METHOD (NAME) LINE.. (/)` from a word on: the place after it. */
static size_t read_request(const struct row *row, size_t i, struct request_call *call) {
    call->request.method = put(third_area, row->words[i].bytes, row->words[i].length);
    call->target.etag = put(second_area, "", 0);
    return read_section(row, i + 1, first_area, &call->request.section);
}

/* `TAG SECOND KIND` of a representation. */
static void read_target(const struct word *words, struct request_call *call) {
    call->target.exists = true;
    call->target.present = 1767225600;
    if (!is_word(words, "(none)")) {
        call->target.etag = put(second_area, words->bytes, words->length);
    }
    call->target.has_last_modified = !is_word(words + 1, "(none)");
    if (call->target.has_last_modified) {
        words[1].bytes[words[1].length] = 0;
        call->target.last_modified = strtoull(words[1].bytes, NULL, 10);
    }
    call->target.is_date_strong = is_word(words + 2, "strong");
}

/* `evaluate METHOD (NAME) LINE.. (/) RESOURCE`, after the present second if it isn't the usual one. */
static void check_evaluate(const struct row *row) {
    struct request_call call = {0};
    const bool has_present = strcmp(row->call, "evaluate_at") == 0;
    const struct word *resource = &row->words[read_request(row, has_present, &call)];
    if (!is_word(resource, "missing")) {
        read_target(resource, &call);
    }
    if (has_present) {
        call.target.present = strtoull(row->words[0].bytes, NULL, 10);
    }
    check(row, call_evaluate, &call, TYPED_HEADERS_DONE,
          is_answer(row, "perform") ? 0 : is_answer(row, "not_modified") ? 304 : 412, NO_TEXT);
}

/* `select METHOD (NAME) LINE.. (/) TAG SECOND KIND LENGTH` */
static void check_select(const struct row *row) {
    static uint64_t bounds[AREA / sizeof(uint64_t)];
    size_t count = 0;
    struct request_call call = {0};
    const struct word *target = &row->words[read_request(row, 0, &call)];
    read_target(target, &call);
    call.length = strtoull(target[3].bytes, NULL, 10);
    const bool is_whole = is_answer(row, "whole"), is_none = is_answer(row, "unsatisfiable");
    if (!is_whole && !is_none) {
        for (char *at = row->answer; *at; at += *at == ' ') {
            bounds[count++] = strtoull(at, &at, 10);
            bounds[count++] = strtoull(at + 1, &at, 10);
        }
    }
    check(row, call_select, &call, TYPED_HEADERS_DONE, is_whole ? 200 : is_none ? 416 : 206,
          (struct word){(char *)bounds, count * sizeof(uint64_t)});
}

/* A request from another origin. */
struct cors_call {
    struct typed_headers_cors_rules rules;
    struct typed_headers_request request;
    struct typed_headers_text response;
};

static uint8_t call_cors(const void *arguments, uint64_t *number, uint8_t *room, size_t room_length,
                         size_t *written) {
    const struct cors_call *call = arguments;
    struct typed_headers_cors_facts facts = {FILL, FILL};
    uint8_t status = (is_handled ? handled_cors_answer : typed_headers_cors_answer)(
        &call->rules, &call->request, call->response.bytes, call->response.length, &KEYS, &facts, room, room_length,
        written);
    if (facts.kind != FILL || facts.is_allowed != FILL) {
        *number = facts.kind * 256 + facts.is_allowed;
    }
    return status;
}

/* Rules as the fields of a row. The place after them. */
static size_t read_rules(const struct row *row, struct typed_headers_cors_rules *rules) {
    static const char *names[] = {"origins", "methods", "names", "exposed"};
    static char any[AREA], list[AREA], number[64];
    struct typed_headers_text *texts[] = {&rules->origins, &rules->methods, &rules->headers, &rules->exposed};
    field_lines(row, 0, "any", " %.*s ", any);
    for (int i = 0; i < 4; i++) {
        char name[32];
        size_t length = field_lines(row, 0, names[i], "%.*s\n", list);
        snprintf(name, sizeof name, " %s ", names[i]);
        if (strstr(any, name)) {
            length = sprintf(list, "*\n");
        }
        *texts[i] = put(rule_areas[i], list, length);
    }
    rules->credentials = field_lines(row, 0, "credentials", "%.*s\n", list);
    rules->has_max_age = field_lines(row, 0, "max-age", "%.*s", number);
    rules->max_age = strtoull(number, NULL, 10);
    size_t i = 0;
    while (!is_word(&row->words[i], "(/)")) {
        i++;
    }
    return i + 1;
}

static uint8_t call_unsent(const void *arguments, uint64_t *number, uint8_t *room, size_t room_length,
                           size_t *written) {
    const struct cors_call *call = arguments;
    size_t place = FILL;
    (void)room, (void)room_length, (void)written;
    uint8_t status = typed_headers_unsent_origin(call->rules.origins.bytes, call->rules.origins.length, &place);
    if (place != FILL) {
        *number = place;
    }
    return status;
}

/* That no origin of this list is one that no browser sends, or that it is no list. */
static void check_origins(const struct row *row, const char *origins, uint8_t status) {
    struct cors_call call = {0};
    call.rules.origins = put(first_area, origins, strlen(origins));
    check(row, call_unsent, &call, status, NO_NUMBER, NO_TEXT);
}

/* `CorsPolicy.new RULES (/)`: if an origin is why, its place follows. */
static void check_rules(const struct row *row) {
    static const char unsent[] = "UnsentOrigin ";
    struct cors_call call = {0};
    call.request = (struct typed_headers_request){put(third_area, "GET", 3), put(first_area, "", 0)};
    call.response = put(second_area, "", 0);
    read_rules(row, &call.rules);
    if (strncmp(row->answer, unsent, strlen(unsent)) == 0) {
        check(row, call_unsent, &call, TYPED_HEADERS_DONE, strtoull(row->answer + strlen(unsent), NULL, 10), NO_TEXT);
        check_origins(row, "https://a.example\nnull", TYPED_HEADERS_ABSENT);
        check_origins(row, "*", TYPED_HEADERS_ABSENT);
        check_origins(row, "a\rb", TYPED_HEADERS_REFUSED);
    }
    if (!is_answer(row, "made")) {
        check(row, call_cors, &call, TYPED_HEADERS_REFUSED, NO_NUMBER, NO_TEXT);
        return;
    }
    calls++;
    if (make(call_cors, &call, 0, 0).status != TYPED_HEADERS_NO_ROOM) {
        complain(row, "another status");
    }
}

/* `CorsPolicy.answer RULES (/) METHOD REQUEST (/) RESPONSE` */
static void check_cors(const struct row *row) {
    static const char *names[] = {"access-control-allow-origin",   "access-control-allow-credentials",
                                  "access-control-expose-headers", "access-control-allow-methods",
                                  "access-control-allow-headers",  "access-control-max-age"};
    static const char *kinds[] = {"no-origin", "plain", "preflight"};
    static char wanted[AREA], vary[AREA];
    struct cors_call call = {0};
    size_t i = read_rules(row, &call.rules), length = 0;
    call.request.method = put(third_area, row->words[i].bytes, row->words[i].length);
    const size_t response = read_section(row, i + 1, first_area, &call.request.section);
    read_section(row, response, second_area, &call.response);
    if (is_answer(row, "(refused)")) {
        check(row, call_cors, &call, TYPED_HEADERS_REFUSED, NO_NUMBER, NO_TEXT);
        return;
    }
    const struct row *answer = answer_words(row);
    for (int name = 0; name < 6; name++) {
        char form[64];
        snprintf(form, sizeof form, "%s: %%.*s\n", names[name]);
        length += field_lines(answer, 2, names[name], form, wanted + length);
    }
    /* Vary is there if it isn't as it was. */
    field_lines(row, response, "vary", "vary: %.*s\n", vary);
    const size_t added = field_lines(answer, 2, "vary", "vary: %.*s\n", wanted + length);
    length += strcmp(vary, wanted + length) == 0 ? 0 : added;
    uint64_t kind = 0;
    while (!is_word(&answer->words[0], kinds[kind])) {
        kind++;
    }
    check(row, call_cors, &call, TYPED_HEADERS_DONE, kind * 256 + is_word(&answer->words[1], "true"),
          (struct word){wanted, length});
}

/* What a cache may do with a response. */
struct cache_call {
    struct typed_headers_stored stored;
    struct typed_headers_request request;
    struct typed_headers_text response;
    uint16_t status;
    bool is_shared;
    struct typed_headers_moments moments;
};

static bool read_kind(const struct row *row) { return is_word(&row->words[0], "shared"); }

static uint64_t read_number(const struct row *row, size_t i) {
    row->words[i].bytes[row->words[i].length] = 0;
    return strtoull(row->words[i].bytes, NULL, 10);
}

static void read_moments(const struct row *row, size_t i, struct typed_headers_moments *moments) {
    *moments = (struct typed_headers_moments){read_number(row, i), read_number(row, i + 1), read_number(row, i + 2)};
}

static uint8_t call_may_store(const void *arguments, uint64_t *number, uint8_t *room, size_t room_length,
                              size_t *written) {
    const struct cache_call *call = arguments;
    uint8_t answer = FILL;
    (void)room, (void)room_length, (void)written;
    uint8_t status = typed_headers_may_store(&call->request, call->status, call->response.bytes, call->response.length,
                                             &KEYS, call->is_shared, &answer);
    if (answer != FILL) {
        *number = answer;
    }
    return status;
}

/* `may_store KIND METHOD STATUS REQUEST (/) RESPONSE` */
static void check_may_store(const struct row *row) {
    struct cache_call call = {.is_shared = read_kind(row), .status = (uint16_t)read_number(row, 2)};
    call.request.method = put(third_area, row->words[1].bytes, row->words[1].length);
    read_section(row, read_section(row, 3, first_area, &call.request.section), second_area, &call.response);
    check(row, call_may_store, &call, TYPED_HEADERS_DONE, is_answer(row, "true"), NO_TEXT);
    call.status = 99;
    check(row, call_may_store, &call, TYPED_HEADERS_REFUSED, NO_NUMBER, NO_TEXT);
}

static uint8_t call_lifetime(const void *arguments, uint64_t *number, uint8_t *room, size_t room_length,
                             size_t *written) {
    const struct cache_call *call = arguments;
    (void)room, (void)room_length, (void)written;
    return typed_headers_lifetime(call->response.bytes, call->response.length, &KEYS, call->moments.response,
                                  call->is_shared, number);
}

/* `lifetime KIND RECEIVED RESPONSE` */
static void check_lifetime(const struct row *row) {
    struct cache_call call = {.is_shared = read_kind(row)};
    call.moments.response = read_number(row, 1);
    read_section(row, 2, first_area, &call.response);
    if (is_answer(row, "(none)")) {
        check(row, call_lifetime, &call, TYPED_HEADERS_ABSENT, NO_NUMBER, NO_TEXT);
    } else {
        check(row, call_lifetime, &call, TYPED_HEADERS_DONE, strtoull(row->answer, NULL, 10), NO_TEXT);
    }
}

static uint8_t call_heuristic(const void *arguments, uint64_t *number, uint8_t *room, size_t room_length,
                              size_t *written) {
    const struct cache_call *call = arguments;
    (void)room, (void)room_length, (void)written;
    return typed_headers_heuristic_lifetime(call->status, call->response.bytes, call->response.length, &KEYS,
                                            call->moments.response, call->is_shared, number);
}

/* `heuristic_lifetime KIND STATUS RECEIVED RESPONSE` */
static void check_heuristic(const struct row *row) {
    struct cache_call call = {.is_shared = read_kind(row), .status = (uint16_t)read_number(row, 1)};
    call.moments.response = read_number(row, 2);
    read_section(row, 3, first_area, &call.response);
    if (is_answer(row, "(none)")) {
        check(row, call_heuristic, &call, TYPED_HEADERS_ABSENT, NO_NUMBER, NO_TEXT);
    } else {
        check(row, call_heuristic, &call, TYPED_HEADERS_DONE, strtoull(row->answer, NULL, 10), NO_TEXT);
    }
    call.status = 1000;
    check(row, call_heuristic, &call, TYPED_HEADERS_REFUSED, NO_NUMBER, NO_TEXT);
}

static uint8_t call_current_age(const void *arguments, uint64_t *number, uint8_t *room, size_t room_length,
                                size_t *written) {
    const struct cache_call *call = arguments;
    (void)room, (void)room_length, (void)written;
    return typed_headers_current_age(call->response.bytes, call->response.length, &KEYS, &call->moments, number);
}

/* `current_age REQUESTED RECEIVED NOW RESPONSE` */
static void check_current_age(const struct row *row) {
    struct cache_call call = {0};
    read_moments(row, 0, &call.moments);
    read_section(row, 3, first_area, &call.response);
    check(row, call_current_age, &call, TYPED_HEADERS_DONE, strtoull(row->answer, NULL, 10), NO_TEXT);
}

static uint8_t call_decide(const void *arguments, uint64_t *number, uint8_t *room, size_t room_length,
                           size_t *written) {
    const struct cache_call *call = arguments;
    uint8_t decision = FILL;
    (void)room, (void)room_length, (void)written;
    uint8_t status =
        typed_headers_decide(&call->stored, &call->request, &KEYS, &call->moments, call->is_shared, &decision);
    if (decision != FILL) {
        *number = decision;
    }
    return status;
}

static struct typed_headers_text read_text(const struct row *row, size_t i) {
    return (struct typed_headers_text){(const uint8_t *)row->words[i].bytes, row->words[i].length};
}

/* `decide KIND REQUESTED RECEIVED NOW METHOD STORED (/) METHOD REQUEST (/) RESPONSE` */
static void check_decide(const struct row *row) {
    static const char *decisions[] = {"Serve",      "ServeAndRevalidate", "ServeStale", "Revalidate",
                                      "RevalidateOrServe", "Unavailable", "Fetch"};
    struct cache_call call = {.is_shared = read_kind(row)};
    read_moments(row, 1, &call.moments);
    call.stored.method = read_text(row, 4);
    const size_t method = read_section(row, 5, third_area, &call.stored.request);
    call.request.method = read_text(row, method);
    const size_t response = read_section(row, method + 1, first_area, &call.request.section);
    read_section(row, response, second_area, &call.stored.response);
    for (uint64_t i = 0; i < 7; i++) {
        if (is_answer(row, decisions[i])) {
            check(row, call_decide, &call, TYPED_HEADERS_DONE, i, NO_TEXT);
            return;
        }
    }
    complain(row, "a decision that no call has");
}

/* What a cache without a response does. */
static uint8_t call_unstored(const void *arguments, uint64_t *number, uint8_t *room, size_t room_length,
                             size_t *written) {
    static const struct typed_headers_cache_options options = {1, 1, 1, 0, true};
    const struct cache_call *call = arguments;
    const struct typed_headers_cache_request request = {{(const uint8_t *)"/", 1}, call->request.method,
                                                        call->request.section};
    struct typed_headers_cache cache = TYPED_HEADERS_CLOSED_CACHE;
    struct typed_headers_pass pass = TYPED_HEADERS_CLOSED_PASS;
    struct typed_headers_pass_facts facts = {.action = FILL};
    uint8_t status = typed_headers_cache_new(&cache, &options, &KEYS);
    if (status == TYPED_HEADERS_DONE) {
        status = typed_headers_pass_begin(&cache, &pass, &request, 0, &facts);
    }
    if (status == TYPED_HEADERS_DONE) {
        status = typed_headers_pass_fields(&pass, room, room_length, written);
    }
    typed_headers_pass_free(&pass);
    typed_headers_cache_free(&cache);
    if (facts.action != FILL) {
        *number = facts.action;
    }
    return status;
}

/* `decide_unstored METHOD REQUEST` */
static void check_unstored(const struct row *row) {
    struct cache_call call = {.request.method = put(third_area, row->words[0].bytes, row->words[0].length)};
    read_section(row, 1, first_area, &call.request.section);
    const uint64_t wanted = is_answer(row, "Fetch") ? TYPED_HEADERS_ASK : TYPED_HEADERS_SEND_504;
    check(row, call_unstored, &call, TYPED_HEADERS_DONE, wanted, EMPTY);
}

static uint8_t call_validators(const void *arguments, uint64_t *number, uint8_t *room, size_t room_length,
                               size_t *written) {
    const struct cache_call *call = arguments;
    (void)number;
    return typed_headers_validators(call->response.bytes, call->response.length, call->moments.response, &KEYS, room,
                                    room_length, written);
}

/* `validation_steps RECEIVED REQUEST (/) RESPONSE`: of the answer the two fields count. */
static void check_validators(const struct row *row) {
    static char wanted[AREA];
    struct cache_call call = {.moments.response = read_number(row, 0)};
    read_section(row, read_section(row, 1, first_area, &call.request.section), second_area, &call.response);
    const struct row *answer = answer_words(row);
    size_t length = field_lines(answer, 0, "if-none-match", "if-none-match: %.*s\n", wanted);
    length += field_lines(answer, 0, "if-modified-since", "if-modified-since: %.*s\n", wanted + length);
    check(row, call_validators, &call, TYPED_HEADERS_DONE, NO_NUMBER, (struct word){wanted, length});
}

/* The lines of one field of the words from the first on, up to `(/)`, in an area. */
static struct typed_headers_text read_lines(const struct row *row, const char *name, struct area area) {
    static char text[AREA];
    return put(area, text, field_lines(row, 0, name, "%.*s\n", text));
}

/* The place after the first `(/)`. */
static size_t after_fields(const struct row *row) {
    size_t i = 0;
    while (i < row->count && !is_word(&row->words[i], "(/)")) {
        i++;
    }
    return i + 1;
}

/* A server's offers, to the lines of a field. */
struct offers_call {
    uint8_t (*choose)(const uint8_t *lines, size_t lines_length, const uint8_t *offers, size_t offers_length,
                      size_t *place);
    uint8_t (*rate)(const uint8_t *lines, size_t lines_length, const uint8_t *offer, size_t offer_length,
                    struct typed_headers_quality *quality);
    struct typed_headers_text lines, offers;
    /* The name of the field, and the call by a handle, if there is one. */
    const char *name;
    uint8_t (*choose_of)(const struct typed_headers_section *fields, const uint8_t *offers, size_t offers_length,
                         size_t *place);
};

static uint8_t call_choose(const void *arguments, uint64_t *number, uint8_t *room, size_t room_length,
                           size_t *written) {
    const struct offers_call *call = arguments;
    size_t place = FILL;
    uint8_t status;
    (void)room, (void)room_length, (void)written;
    if (is_handled && call->choose_of && !has_blank_ends(call->lines.bytes, call->lines.length)) {
        struct typed_headers_section fields = TYPED_HEADERS_CLOSED;
        status = open_lines(&fields, (const uint8_t *)call->name, strlen(call->name), call->lines.bytes,
                            call->lines.length);
        if (status == TYPED_HEADERS_DONE) {
            status = call->choose_of(&fields, call->offers.bytes, call->offers.length, &place);
        }
        typed_headers_section_free(&fields);
    } else {
        status = call->choose(call->lines.bytes, call->lines.length, call->offers.bytes, call->offers.length, &place);
    }
    if (place != FILL) {
        *number = place;
    }
    return status;
}

static uint8_t call_rate(const void *arguments, uint64_t *number, uint8_t *room, size_t room_length,
                         size_t *written) {
    const struct offers_call *call = arguments;
    struct typed_headers_quality quality = {FILL, FILL};
    (void)room, (void)room_length, (void)written;
    uint8_t status = call->rate(call->lines.bytes, call->lines.length, call->offers.bytes, call->offers.length,
                                &quality);
    if (quality.weight != FILL || quality.is_acceptable != FILL) {
        *number = quality.weight * 2 + quality.is_acceptable;
    }
    return status;
}

/* `(NAME) LINE.. (/) OFFER..`: the place of an offer, or the quality of each. */
static void check_offers(const struct row *row, const char *dimension, const char *call_name) {
    static const char *names[] = {"accept", "accept-encoding", "accept-language"};
    static const struct offers_call calls[] = {
        {typed_headers_choose_type, typed_headers_type_quality, {NULL, 0}, {NULL, 0}, "Accept",
         typed_headers_section_choose_type},
        {typed_headers_choose_coding, typed_headers_coding_quality, {NULL, 0}, {NULL, 0}, "Accept-Encoding",
         typed_headers_section_choose_coding},
        {typed_headers_choose_language, typed_headers_language_quality, {NULL, 0}, {NULL, 0}, "Accept-Language",
         typed_headers_section_choose_language}};
    const int which = *dimension == 'a' ? 0 : *dimension == 'e' ? 1 : 2;
    struct offers_call call = calls[which];
    call.lines = read_lines(row, names[which], first_area);
    const size_t first = after_fields(row);
    if (strcmp(call_name, "quality") == 0) {
        for (size_t i = first; i < row->count; i++) {
            struct word wanted = answer_word(row, i - first);
            const bool is_unlisted = is_word(&wanted, "unlisted");
            const uint64_t weight = is_unlisted ? 0 : strtoull(wanted.bytes, NULL, 10);
            call.offers = put(second_area, row->words[i].bytes, row->words[i].length);
            check(row, call_rate, &call, TYPED_HEADERS_DONE, weight * 2 + (is_unlisted || weight), NO_TEXT);
        }
        return;
    }
    if (strcmp(call_name, "look_up") == 0) {
        call.choose = typed_headers_look_up_language;
        call.choose_of = NULL;
    } else if (strcmp(call_name, "choose") != 0) {
        return;
    }
    static char offers[AREA];
    size_t length = 0;
    uint64_t place = row->count;
    const struct word chosen = answer_word(row, 0);
    for (size_t i = first; i < row->count; i++) {
        const struct word *offer = &row->words[i];
        if (place == row->count && offer->length == chosen.length &&
            memcmp(offer->bytes, chosen.bytes, chosen.length) == 0) {
            place = i - first;
        }
        length += sprintf(offers + length, "%.*s\n", (int)offer->length, offer->bytes);
    }
    call.offers = put(second_area, offers, length);
    if (is_answer(row, "(none)")) {
        check(row, call_choose, &call, TYPED_HEADERS_ABSENT, NO_NUMBER, NO_TEXT);
    } else {
        check(row, call_choose, &call, TYPED_HEADERS_DONE, place, NO_TEXT);
    }
    call.offers = put(second_area, "a\rb", 3);
    check(row, call_choose, &call, TYPED_HEADERS_REFUSED, NO_NUMBER, NO_TEXT);
}

/* The whole response, with the parts that the last call sent. */
struct response_call {
    struct request_call asked;
    struct typed_headers_content content;
    size_t most_parts;
};

enum { MOST_PARTS = 128 };
static struct typed_headers_bytes_range sent_parts[MOST_PARTS], selected_parts[MOST_PARTS];
static size_t sent_count;

static uint8_t call_respond(const void *arguments, uint64_t *number, uint8_t *room, size_t room_length,
                            size_t *written) {
    const struct response_call *call = arguments;
    const struct request_call *asked = &call->asked;
    struct typed_headers_response response = {FILL, FILL};
    sent_count = NOT_WRITTEN;
    uint8_t status = (is_handled ? handled_respond : typed_headers_respond)(
        &asked->request, &KEYS, &asked->target, &call->content, &response, call->most_parts ? sent_parts : NULL,
        call->most_parts, &sent_count, room, room_length, written);
    if (response.status != FILL || response.keeps_encoding != FILL) {
        *number = response.status * 2 + response.keeps_encoding;
    } else if (sent_count != NOT_WRITTEN) {
        *number = FILL;
    }
    return status;
}

/* `respond METHOD (NAME) LINE.. (/) RESOURCE LENGTH TYPE (NAME) LINE..` */
static void check_respond(const struct row *row, bool sends_ranges) {
    static const char *names[] = {"etag",          "last-modified",  "accept-ranges",
                                  "content-range", "content-length", "content-type"};
    static char wanted[AREA], lines[AREA];
    struct response_call call = {.most_parts = MOST_PARTS};
    call.content.boundary = put(rule_areas[0], "THIS_STRING_SEPARATES", 21);
    size_t i = read_request(row, 0, &call.asked), length = 0;
    if (is_word(&row->words[i], "missing")) {
        i++;
    } else {
        read_target(&row->words[i], &call.asked);
        i += 3;
    }
    call.content.sends_ranges = sends_ranges;
    call.content.has_length = !is_word(&row->words[i], "(none)");
    if (call.content.has_length) {
        call.content.length = read_number(row, i);
    }
    if (!is_word(&row->words[i + 1], "(none)")) {
        call.content.media_type = put(rule_areas[1], row->words[i + 1].bytes, row->words[i + 1].length);
    }
    if (is_answer(row, "(none)")) {
        check(row, call_respond, &call, TYPED_HEADERS_DONE, 1, (struct word){wanted, 0});
        return;
    }
    const struct row *answer = answer_words(row);
    const uint64_t status = strtoull(row->answer, NULL, 10);
    for (int name = 0; name < 6; name++) {
        char form[64];
        snprintf(form, sizeof form, "%s: %%.*s\n", names[name]);
        length += field_lines(answer, 1, names[name], form, wanted + length);
    }
    const bool is_one = field_lines(answer, 1, "content-range", "%.*s\n", lines) > 0;
    const bool keeps = status == 200 || (status == 206 && is_one && !field_lines(row, 1, "if-range", "%.*s\n", lines));
    const struct word text = {wanted, length};
    check(row, call_respond, &call, TYPED_HEADERS_DONE, status * 2 + keeps, text);
    make(call_respond, &call, length, 0);
    size_t count = 0;
    uint16_t code = 0;
    if (status == 206 && call.asked.request.section.length) {
        const struct request_call *asked = &call.asked;
        typed_headers_select(&asked->request, &KEYS, &asked->target, call.content.length, &code, selected_parts,
                             MOST_PARTS, &count);
    }
    if (sent_count != count || memcmp(sent_parts, selected_parts, count * sizeof *sent_parts) != 0) {
        complain(row, "other parts");
    }
    if (count) {
        call.most_parts = 0;
        struct gift gift = make(call_respond, &call, length, 0);
        if (gift.status != TYPED_HEADERS_NO_ROOM || sent_count != count || gift.written != length ||
            memcmp(room_area.end - length, wanted, length) != 0) {
            complain(row, "another answer without room for parts");
        }
    }
    call.content.boundary = put(rule_areas[0], "", 0);
    call.most_parts = MOST_PARTS;
    check(row, call_respond, &call, TYPED_HEADERS_REFUSED, NO_NUMBER, NO_TEXT);
    call.content.boundary = put(rule_areas[0], "\xC3\xA4", 2);
    check(row, call_respond, &call, TYPED_HEADERS_REFUSED, NO_NUMBER, NO_TEXT);
}

/* `boundary TEXT`: the Content-Type of two parts. */
static void check_boundary(const struct row *row) {
    static const char section[] = "Range: bytes=0-0,900-900\n";
    static char wanted[512];
    struct response_call call = {.most_parts = MOST_PARTS, .content = {.length = 8000, .has_length = true}};
    call.content.sends_ranges = true;
    call.asked.request.method = put(third_area, "GET", 3);
    call.asked.request.section = put(first_area, section, sizeof section - 1);
    call.asked.target.etag = put(second_area, "\"a\"", 3);
    call.asked.target.exists = true;
    call.content.boundary = put(rule_areas[0], row->words[0].bytes, row->words[0].length);
    if (is_answer(row, "(refused)")) {
        check(row, call_respond, &call, TYPED_HEADERS_REFUSED, NO_NUMBER, NO_TEXT);
        return;
    }
    const struct word type = answer_word(row, 0);
    const int length = sprintf(wanted, "etag: \"a\"\naccept-ranges: bytes\ncontent-type: %.*s\n", (int)type.length,
                               type.bytes);
    check(row, call_respond, &call, TYPED_HEADERS_DONE, 206 * 2, (struct word){wanted, (size_t)length});
}

/* A server's end of an opening handshake. */
struct handshake_call {
    struct typed_headers_request request;
    struct typed_headers_websocket_rules rules;
    uint8_t version;
};

static uint8_t call_handshake(const void *arguments, uint64_t *number, uint8_t *room, size_t room_length,
                              size_t *written) {
    const struct handshake_call *call = arguments;
    struct typed_headers_handshake handshake = {FILL, FILL};
    uint8_t status = typed_headers_websocket_respond(&call->request, call->version, &KEYS, &call->rules, &handshake,
                                                     room, room_length, written);
    if (handshake.status != FILL || handshake.fault != FILL) {
        *number = handshake.status * 16 + handshake.fault;
    }
    return status;
}

/* The values of a word, with commas between, one a line. */
static struct typed_headers_text comma_lines(const struct word *word, struct area area) {
    static char text[AREA];
    for (size_t i = 0; i < word->length; i++) {
        text[i] = word->bytes[i] == ',' ? '\n' : word->bytes[i];
    }
    text[word->length] = '\n';
    return put(area, text, word->length + 1);
}

static size_t place_of(const struct word *word, const char *const *names, size_t count) {
    for (size_t i = 0; i < count; i++) {
        if (is_word(word, names[i])) {
            return i + 1;
        }
    }
    return 0;
}

/* `accept METHOD VERSION (NAME) LINE..`, after protocols or origins, and before fields in whose place those of the
 * answer come. */
static void check_handshake(const struct row *row) {
    static const char *const versions[] = {"HTTP/0.9", "HTTP/1.0", "HTTP/1.1", "HTTP/2", "HTTP/3"};
    static const uint8_t numbers[] = {0, 9, 10, 11, 20, 30};
    static const char *const faults[] = {"NotGet",    "OldHttp",      "NotHttp11", "NoHost",
                                         "NoUpgrade", "NoConnection", "NoKey",     "MalformedProtocols",
                                         "MalformedExtensions"};
    static const char *const names[] = {"upgrade", "connection", "sec-websocket-accept", "sec-websocket-protocol",
                                        "sec-websocket-version"};
    static char wanted[AREA];
    struct handshake_call call = {.rules = {put(rule_areas[0], "", 0), put(rule_areas[1], "*", 1)}};
    size_t i = 0, length = 0;
    if (strcmp(row->call, "accept_with") == 0 || strcmp(row->call, "accept_over") == 0) {
        call.rules.protocols = comma_lines(&row->words[i++], rule_areas[0]);
    } else if (strcmp(row->call, "accept_from") == 0) {
        call.rules.origins = comma_lines(&row->words[i++], rule_areas[1]);
    } else if (strcmp(row->call, "accept") != 0) {
        return;
    }
    call.request.method = put(third_area, row->words[i].bytes, row->words[i].length);
    call.version = numbers[place_of(&row->words[i + 1], versions, 5)];
    read_section(row, i + 2, first_area, &call.request.section);
    if (is_answer(row, "(refused)")) {
        check(row, call_handshake, &call, TYPED_HEADERS_REFUSED, NO_NUMBER, NO_TEXT);
        return;
    }
    const struct row *answer = answer_words(row);
    const uint64_t status = strtoull(row->answer, NULL, 10);
    const size_t fault = status == 400 ? place_of(&answer->words[1], faults, 9) : 0;
    for (int name = 0; name < 5; name++) {
        char form[64];
        snprintf(form, sizeof form, "%s: %%.*s\n", names[name]);
        length += field_lines(answer, 1, names[name], form, wanted + length);
    }
    check(row, call_handshake, &call, TYPED_HEADERS_DONE, status * 16 + fault, (struct word){wanted, length});
    call.version = 12;
    check(row, call_handshake, &call, TYPED_HEADERS_REFUSED, NO_NUMBER, NO_TEXT);
}

/* `request NONCE (NAME) LINE..`: of the answer the fields of the handshake count. */
static void check_offer(const struct row *row) {
    static const char *const names[] = {"upgrade", "connection", "sec-websocket-version", "sec-websocket-key"};
    static char wanted[AREA];
    struct bytes_call call = {typed_headers_websocket_request,
                              put(first_area, row->words[0].bytes, row->words[0].length)};
    const struct row *answer = answer_words(row);
    size_t length = 0;
    for (int name = 0; name < 4; name++) {
        char form[64];
        snprintf(form, sizeof form, "%s: %%.*s\n", names[name]);
        length += field_lines(answer, 0, names[name], form, wanted + length);
    }
    check(row, call_bytes, &call, TYPED_HEADERS_DONE, NO_NUMBER, (struct word){wanted, length});
    call.lines = put(first_area, row->words[0].bytes, row->words[0].length - 1);
    check(row, call_bytes, &call, TYPED_HEADERS_REFUSED, NO_NUMBER, NO_TEXT);
}

/* A client's end. */
static uint8_t call_check(const void *arguments, uint64_t *number, uint8_t *room, size_t room_length,
                          size_t *written) {
    uint8_t flaw = FILL;
    (void)room, (void)room_length, (void)written;
    uint8_t status = typed_headers_websocket_check(arguments, &KEYS, &flaw);
    if (flaw != FILL) {
        *number = flaw;
    }
    return status;
}

/* `check SENT (/) STATUS RESPONSE` */
static void check_opened(const struct row *row) {
    static const char *const flaws[] = {"NotSwitched",         "NoUpgrade",        "NoConnection",   "WrongAccept",
                                        "MalformedExtensions", "UnaskedExtension", "UnaskedProtocol"};
    struct typed_headers_websocket_exchange call;
    const size_t i = read_section(row, 0, first_area, &call.sent);
    call.status = (uint16_t)read_number(row, i);
    read_section(row, i + 1, second_area, &call.response);
    const struct word answer = answer_word(row, 0);
    check(row, call_check, &call, TYPED_HEADERS_DONE, place_of(&answer, flaws, 7), NO_TEXT);
    call.status = 1000;
    check(row, call_check, &call, TYPED_HEADERS_REFUSED, NO_NUMBER, NO_TEXT);
}

/* The resources of tests/cases/resource: their lines, in the order of the struct, and what else is said. */
struct resource_of {
    const char *name;
    const char *texts[13];
    size_t count;
    bool is_note, is_strict, is_dated;
};

static const struct resource_of RESOURCES[] = {
    {"note",
     {"a.example", "GET\nPUT\nDELETE\nPATCH\n", "PUT", "DELETE", "\napplication/json\n\napplication/merge-patch+json",
      "\ngzip\n\ngzip", "", "application/json", "", "", "\"n1\"", "THIS_STRING_SEPARATES"},
     1, true, true, false},
    {"page",
     {"", "GET", "", "", "", "", "", "text/html\ntext/html\ntext/html\n", "en\nde\nen", "\n\ngzip",
      "\"en\"\n\"de\"\n\"gz\"", ""},
     3, false, false, false},
    {"report", {"", "GET", "", "", "", "", "", "application/pdf", "", "", "\"r1\"", ""}, 1, false, true, false},
    {"inbox", {"", "POST", "", "", "", "", "", "", "", "", "", ""}, 0, false, false, false},
    {"feed", {"", "POST", "", "", "application/json", "gzip", "", "", "", "", "", ""}, 0, false, false, false},
    {"archive",
     {"", "GET\nDELETE\nPUT", "", "PUT", "", "", "", "text/plain\ntext/plain", "\nen", "\ngzip", "", ""},
     2, false, false, true},
    {"diary",
     {"", "PUT", "", "PUT", "", "", "", "text/plain\ntext/plain", "\nen", "\ngzip", "", ""},
     2, false, false, true},
};
enum { RESOURCE_TEXTS = 13, LOCATION = 6, ETAGS = 10, BOUNDARY = 11, IMPLEMENTED = 12 };
static struct area resource_areas[RESOURCE_TEXTS], challenge_area, wrong_area;

struct resource_call {
    struct typed_headers_resource resource;
    struct typed_headers_representation representations[3];
    size_t count, most_parts;
    struct typed_headers_cors_rules rules;
    struct typed_headers_resource_request request;
    struct typed_headers_denial denial;
    struct typed_headers_text section;
};

static uint8_t call_resource(const void *arguments, uint64_t *number, uint8_t *room, size_t room_length,
                             size_t *written) {
    const struct resource_call *call = arguments;
    struct typed_headers_resource_facts facts, before;
    memset(&facts, FILL, sizeof facts);
    before = facts;
    sent_count = NOT_WRITTEN;
    uint8_t status = (is_handled ? handled_resource_answer : typed_headers_resource_answer)(
        &call->resource, call->count ? call->representations : NULL, call->count, &call->rules, &call->request,
        &call->denial, call->section.bytes, call->section.length, &KEYS, &facts, call->most_parts ? sent_parts : NULL,
        call->most_parts, &sent_count, room, room_length, written);
    if (facts.status != before.status || facts.place != before.place || facts.sends != before.sends) {
        *number = (((facts.status * 32ull + facts.reason) * 8 + facts.sends) * 2 + facts.has_place) * 8 + facts.place;
    } else if (sent_count != NOT_WRITTEN) {
        *number = FILL;
    }
    return status;
}

static void put_part(struct resource_call *call, int place, const char *bytes, size_t length) {
    struct typed_headers_text *texts[RESOURCE_TEXTS] = {
        &call->resource.hosts,       &call->resource.methods,  &call->resource.creating,
        &call->resource.guarded,     &call->resource.accept,   &call->resource.accept_encoding,
        &call->resource.location,    &call->resource.media_types, &call->resource.languages,
        &call->resource.codings,     &call->resource.etags,    &call->resource.boundary,
        &call->resource.implemented};
    *texts[place] = put(resource_areas[place], bytes, length);
}

static void put_resource(struct resource_call *call, const struct resource_of *resource) {
    for (int place = 0; place < IMPLEMENTED; place++) {
        put_part(call, place, resource->texts[place], strlen(resource->texts[place]));
    }
    call->count = resource->count;
    for (size_t place = 0; place < resource->count; place++) {
        call->representations[place] =
            (struct typed_headers_representation){.length = resource->is_dated ? 8000 : 20,
                                                  .last_modified = place ? 1798761600 : 783459811,
                                                  .has_length = true,
                                                  .sends_ranges = true,
                                                  .has_last_modified = resource->is_dated};
    }
    call->resource.by_media_type = true;
    call->resource.by_language = call->resource.by_coding = !resource->is_note;
    call->resource.is_strict = resource->is_strict;
    call->resource.has_strong_dates = strcmp(resource->name, "diary") == 0;
    call->resource.limit = 100;
    call->resource.needs_length = call->resource.has_limit = call->resource.has_cors = resource->is_note;
    if (resource->is_note) {
        call->rules.origins = put(rule_areas[0], "https://app.example", 19);
    }
}

/* What an answer sends, from a word on: its number, the place and its parts. The place after it. */
static size_t read_sends(const struct row *answer, size_t i, uint64_t *number, size_t *count) {
    uint64_t sends = 0, place = 0;
    bool has_place = false;
    *count = 0;
    if (is_word(&answer->words[i], "alternatives") || is_word(&answer->words[i], "perform")) {
        sends = is_word(&answer->words[i], "perform") ? 4 : 1;
        i++;
    } else if (is_word(&answer->words[i], "nothing")) {
        i++;
    } else {
        has_place = !is_word(&answer->words[i], "(none)");
        place = has_place ? read_number(answer, i) : 0;
        i++;
        sends = is_word(&answer->words[i], "whole") ? 2 : is_word(&answer->words[i], "nothing") ? 0 : 3;
        for (; i < answer->count && !is_name(&answer->words[i]); i++) {
            if (sends == 3) {
                char *dash = memchr(answer->words[i].bytes, '-', answer->words[i].length);
                selected_parts[(*count)++] = (struct typed_headers_bytes_range){
                    strtoull(answer->words[i].bytes, NULL, 10), strtoull(dash + 1, NULL, 10)};
            }
        }
    }
    *number = ((*number * 8 + sends) * 2 + has_place) * 8 + place;
    return i;
}

/* Calls that are refused: a text, a number or a list that none of these is. */
static void check_refused_resource(const struct row *row, const struct resource_call *given) {
    struct resource_call call = *given;
    call.denial = (struct typed_headers_denial){.status = 402};
    check(row, call_resource, &call, TYPED_HEADERS_REFUSED, NO_NUMBER, NO_TEXT);
    call.denial.status = 401;
    check(row, call_resource, &call, TYPED_HEADERS_REFUSED, NO_NUMBER, NO_TEXT);
    call.denial.challenge = put(wrong_area, "Basic\n", 6);
    check(row, call_resource, &call, TYPED_HEADERS_REFUSED, NO_NUMBER, NO_TEXT);
    call = *given;
    call.resource.implemented = put(wrong_area, "GET\nP T", 7);
    call.resource.has_implemented = true;
    check(row, call_resource, &call, TYPED_HEADERS_REFUSED, NO_NUMBER, NO_TEXT);
    call = *given;
    call.resource.state = 4;
    check(row, call_resource, &call, TYPED_HEADERS_REFUSED, NO_NUMBER, NO_TEXT);
    call = *given;
    call.request.version = 9;
    check(row, call_resource, &call, TYPED_HEADERS_REFUSED, NO_NUMBER, NO_TEXT);
    call = *given;
    call.request.target = put(second_area, "HTTPS:///x", 10);
    check(row, call_resource, &call, TYPED_HEADERS_REFUSED, NO_NUMBER, NO_TEXT);
    call = *given;
    put_part(&call, BOUNDARY, "\xC3\xA4", 2);
    check(row, call_resource, &call, TYPED_HEADERS_REFUSED, NO_NUMBER, NO_TEXT);
    call = *given;
    put_part(&call, ETAGS, "\n\n\n\n", 4);
    check(row, call_resource, &call, TYPED_HEADERS_REFUSED, NO_NUMBER, NO_TEXT);
    if (given->count) {
        put_part(&call, ETAGS, "n1", 2);
        check(row, call_resource, &call, TYPED_HEADERS_REFUSED, NO_NUMBER, NO_TEXT);
        call = *given;
        call.representations[0].has_last_modified = true;
        call.representations[0].last_modified = 253402300800;
        check(row, call_resource, &call, TYPED_HEADERS_REFUSED, NO_NUMBER, NO_TEXT);
    }
}

/*
 * The words before the resource of a row. `implementing METHODS` has the methods that the server implements, and `denied
 * STATUS CHALLENGE SECONDS` says why it denies the request. How many they are.
 */
static size_t read_server(const struct row *row, struct resource_call *call) {
    if (strcmp(row->call, "implementing") == 0) {
        put_part(call, IMPLEMENTED, row->words[0].bytes, row->words[0].length);
        call->resource.has_implemented = true;
        return 1;
    }
    if (strcmp(row->call, "denied") != 0) {
        return 0;
    }
    call->denial.status = (uint16_t)read_number(row, 0);
    if (!is_word(&row->words[1], "(none)")) {
        call->denial.challenge = put(challenge_area, row->words[1].bytes, row->words[1].length);
    }
    call->denial.has_retry_after = !is_word(&row->words[2], "(none)");
    call->denial.retry_after = call->denial.has_retry_after ? read_number(row, 2) : 0;
    return 3;
}

/* `answer RESOURCE STATE VERSION METHOD AUTHORITY CONTENT FIELDS`, or the same after the words of the server. */
static void check_resource(const struct row *row) {
    static const char *const reasons[] = {"InvalidHost", "Misdirected", "UnknownMethod", "MethodNotAllowed", "Options",
                                          "UnmetExpectation", "Moved", "Gone", "NotFound", "LengthRequired",
                                          "ContentTooLarge", "UnsupportedMediaType", "UnsupportedCoding",
                                          "NotAcceptable", "PreconditionRequired", "PartialContent", "Preflight",
                                          "Denied"};
    static const char *const names[] = {
        "allow", "location", "accept", "accept-patch", "accept-post", "accept-encoding", "content-encoding",
        "content-language", "etag", "last-modified", "accept-ranges", "content-range", "content-length", "content-type",
        "www-authenticate", "retry-after", "access-control-allow-origin", "access-control-allow-methods", "vary"};
    static char wanted[AREA], authority[256];
    struct resource_call call = {.most_parts = MOST_PARTS, .request = {.present = 1767225600}};
    size_t known = 0, length = 0, count, i = read_server(row, &call);
    while (!is_word(&row->words[i], RESOURCES[known].name)) {
        known++;
    }
    put_resource(&call, &RESOURCES[known]);
    static const char *const states[] = {"absent", "gone", "server"};
    call.resource.state = (uint16_t)place_of(&row->words[i + 1], states, 3);
    i += 2;
    if (row->words[i - 1].bytes[0] == '3') {
        call.resource.state = (uint16_t)read_number(row, i - 1);
        put_part(&call, LOCATION, row->words[i].bytes, row->words[i].length);
        i++;
    }
    call.request.version = is_word(&row->words[i], "1.0") ? 10 : 11;
    call.request.method = put(third_area, row->words[i + 1].bytes, row->words[i + 1].length);
    const struct word *host = &row->words[i + 2];
    size_t target = is_word(host, "(none)") ? sprintf(authority, "/x")
                                            : sprintf(authority, "Http://%.*s?x", (int)host->length, host->bytes);
    call.request.target = put(second_area, authority, target);
    call.request.has_content = !is_word(&row->words[i + 3], "none");
    call.request.has_length = !is_word(&row->words[i + 3], "unsized");
    call.request.length = call.request.has_content && call.request.has_length ? read_number(row, i + 3) : 0;
    read_section(row, i + 4, first_area, &call.section);

    const struct row *answer = answer_words(row);
    const bool performs = is_word(&answer->words[1], "(none)");
    uint64_t number = (performs ? 0 : read_number(answer, 1)) * 32 + place_of(&answer->words[0], reasons, 18);
    i = read_sends(answer, 2, &number, &count);
    for (size_t name = 0; name < sizeof names / sizeof *names; name++) {
        char form[64];
        snprintf(form, sizeof form, "%s: %%.*s\n", names[name]);
        length += field_lines(answer, i, names[name], form, wanted + length);
    }
    const struct word text = {wanted, length};
    check(row, call_resource, &call, TYPED_HEADERS_DONE, number, text);
    make(call_resource, &call, length, 0);
    if (sent_count != count || memcmp(sent_parts, selected_parts, count * sizeof *sent_parts) != 0) {
        complain(row, "other parts");
    }
    if (count) {
        call.most_parts = 0;
        struct gift gift = make(call_resource, &call, length, 0);
        if (gift.status != TYPED_HEADERS_NO_ROOM || sent_count != count || gift.written != length ||
            memcmp(room_area.end - length, wanted, length) != 0) {
            complain(row, "another answer without room for parts");
        }
        call.most_parts = MOST_PARTS;
    }
    check_refused_resource(row, &call);
}

/* A gateway. What it does with a message is one number: no two outcomes of the rows have the same. */
struct gateway_call {
    struct typed_headers_gateway gateway;
    struct typed_headers_hop hop;
    struct typed_headers_message message;
    struct typed_headers_text authority;
    uint64_t received;
    uint8_t client_version;
};

static const char *const REASONS[] = {"LengthAndCoding", "InvalidLength", "UnknownCoding",      "LastCodingNotChunked",
                                      "CodingInHttp10",  "InvalidOption", "ProtectedOption",    "InvalidHost",
                                      "InvalidHops",     "Loop",          "UnknownExpectation", "SwitchedProtocols"};
enum { REASON_COUNT = 12, FRAMING_REASONS = 5 };

static uint64_t number_of_framing(struct typed_headers_framing framing) {
    return framing.length * 0x9E3779B97F4A7C15 + framing.kind;
}

static uint64_t number_of_request(struct typed_headers_request_outcome outcome) {
    return number_of_framing(outcome.framing) * 31 +
           (((uint64_t)outcome.status * 8 + outcome.action) * 16 + outcome.reason) * 2 + outcome.sends_continue;
}

static uint64_t number_of_response(struct typed_headers_response_outcome outcome) {
    return (number_of_framing(outcome.received) * 31 + number_of_framing(outcome.sent)) * 31 +
           ((uint64_t)outcome.status * 8 + outcome.action) * 16 + outcome.reason;
}

static uint64_t number_of_framed(struct typed_headers_framing_outcome outcome) {
    return number_of_framing(outcome.framing) * 31 + (uint64_t)outcome.status * 16 + outcome.reason;
}

static uint8_t call_forward_request(const void *arguments, uint64_t *number, uint8_t *room, size_t room_length,
                                    size_t *written) {
    const struct gateway_call *call = arguments;
    struct typed_headers_request_outcome outcome = {.action = FILL};
    const struct typed_headers_request request = {call->message.method, call->message.section};
    uint8_t status = typed_headers_forward_request(
        &call->gateway, &call->hop, &request, call->message.version, call->authority.bytes, call->authority.length,
        &KEYS, &outcome, room, room_length, written);
    if (outcome.action != FILL) {
        *number = number_of_request(outcome);
    }
    return status;
}

static uint8_t call_forward_response(const void *arguments, uint64_t *number, uint8_t *room, size_t room_length,
                                     size_t *written) {
    const struct gateway_call *call = arguments;
    struct typed_headers_response_outcome outcome = {.action = FILL};
    uint8_t status = typed_headers_forward_response(&call->gateway, &call->message, &KEYS, call->client_version,
                                                    call->received, &outcome, room, room_length, written);
    if (outcome.action != FILL) {
        *number = number_of_response(outcome);
    }
    return status;
}

static uint8_t call_framing(const void *arguments, uint64_t *number, uint8_t *room, size_t room_length,
                            size_t *written) {
    const struct gateway_call *call = arguments;
    struct typed_headers_framing_outcome outcome = {.reason = FILL};
    (void)room, (void)room_length, (void)written;
    uint8_t status = typed_headers_framing(&call->message, &KEYS, &outcome);
    if (outcome.reason != FILL) {
        *number = number_of_framed(outcome);
    }
    return status;
}

/* The gateway `gw`, which protects X-Client, with nothing known but a server of HTTP/1.1. */
static struct gateway_call new_gateway_call(void) {
    struct gateway_call call = {.message.version = 11, .client_version = 11, .hop.server_version = 11};
    call.gateway.name = put(rule_areas[0], "gw", 2);
    call.gateway.protected_fields = put(rule_areas[1], "X-Client\n", 9);
    call.gateway.consumes_credentials = true;
    call.hop.client = put(rule_areas[2], "", 0);
    call.hop.interface_node = put(rule_areas[3], "", 0);
    call.authority = put(second_area, "", 0);
    call.message.method = put(third_area, "GET", 3);
    return call;
}

static uint8_t read_version(const struct word *word) { return is_word(word, "1.0") ? 10 : 11; }

/* `NAME consumed|relayed|underscores VERSION` */
static struct gateway_call read_gateway(const struct row *row) {
    struct gateway_call call = new_gateway_call();
    call.gateway.name = put(rule_areas[0], row->words[0].bytes, row->words[0].length);
    call.gateway.passes_underscores = is_word(&row->words[1], "underscores");
    call.gateway.consumes_credentials = call.gateway.passes_underscores || is_word(&row->words[1], "consumed");
    call.message.version = read_version(&row->words[2]);
    return call;
}

/* How a word says that content is delimited, with this kind if its fields state nothing. */
static struct typed_headers_framing read_framing(const struct word *word, uint8_t unstated) {
    static const char *const kinds[] = {"absent", "length", "chunked", "until-close", "tunnel"};
    struct typed_headers_framing framing = {0, unstated};
    if (word->length > 7 && memcmp(word->bytes, "length:", 7) == 0) {
        framing.kind = TYPED_HEADERS_LENGTH;
        framing.length = strtoull(word->bytes + 7, NULL, 10);
    } else if (!is_word(word, "unstated")) {
        framing.kind = (uint8_t)(place_of(word, kinds, 5) - 1);
    }
    return framing;
}

/* The lines of all fields from a word on, in order. */
static struct word all_lines(const struct row *row, size_t i) {
    static char text[AREA];
    struct word name = {"", 0};
    size_t length = 0;
    for (; i < row->count; i++) {
        const struct word *word = &row->words[i];
        if (is_name(word)) {
            name = (struct word){word->bytes + 1, word->length - 2};
        } else {
            length += sprintf(text + length, "%.*s: %.*s\n", (int)name.length, name.bytes, (int)word->length,
                              word->bytes);
        }
    }
    return (struct word){text, length};
}

/* What is delimited by the message alone, if the gateway's outcome tells it. */
static void check_framing(const struct row *row, const struct gateway_call *call, const struct word *framing) {
    struct typed_headers_framing_outcome outcome = {0};
    if (framing) {
        outcome.framing = read_framing(framing, TYPED_HEADERS_NO_CONTENT);
    } else {
        const struct word reason = answer_word(row, 1);
        outcome.reason = (uint8_t)place_of(&reason, REASONS, FRAMING_REASONS);
        const struct word status = answer_word(row, 2);
        outcome.status = (uint16_t)(call->message.status ? 502 : strtoul(status.bytes, NULL, 10));
        if (!outcome.reason) {
            return;
        }
    }
    check(row, call_framing, call, TYPED_HEADERS_DONE, number_of_framed(outcome), NO_TEXT);
    struct gateway_call other = *call;
    other.message.status = 99;
    check(row, call_framing, &other, TYPED_HEADERS_REFUSED, NO_NUMBER, NO_TEXT);
    other = *call;
    other.message.version = 20;
    check(row, call_framing, &other, TYPED_HEADERS_REFUSED, NO_NUMBER, NO_TEXT);
}

/* A call that nothing fits: each part that can't be read makes it refuse all. */
static void check_refused_gateway(const struct row *row, call_fn *function, const struct gateway_call *call) {
    struct gateway_call others[4] = {*call, *call, *call, *call};
    others[0].gateway.name = put(rule_areas[0], "a b", 3);
    others[1].gateway.protected_fields = (struct typed_headers_text){(const uint8_t *)"a b", 3};
    others[2].message.version = 9;
    others[3].message.method = (struct typed_headers_text){(const uint8_t *)"(", 1};
    for (int i = 1; i < 4; i++) {
        others[i].gateway.name = (struct typed_headers_text){(const uint8_t *)"gw", 2};
    }
    for (int i = 0; i < 4; i++) {
        check(row, function, &others[i], TYPED_HEADERS_REFUSED, NO_NUMBER, NO_TEXT);
    }
}

/* `request NAME CREDENTIALS VERSION METHOD AUTHORITY FIELDS` */
static void check_forwarded_request(const struct row *row) {
    struct gateway_call call = read_gateway(row);
    struct typed_headers_request_outcome outcome = {0};
    struct word text = EMPTY;
    call.message.method = put(third_area, row->words[3].bytes, row->words[3].length);
    if (!is_word(&row->words[4], "(none)")) {
        call.authority = put(second_area, row->words[4].bytes, row->words[4].length);
    }
    read_section(row, 5, first_area, &call.message.section);
    const struct row *answer = answer_words(row);
    const bool is_sent = is_word(&answer->words[0], "forward");
    if (is_sent || is_word(&answer->words[0], "respond")) {
        outcome.framing = read_framing(&answer->words[1], TYPED_HEADERS_NO_CONTENT);
        outcome.action = is_sent ? TYPED_HEADERS_GATEWAY_FORWARD : TYPED_HEADERS_GATEWAY_ANSWER;
        text = is_sent ? all_lines(answer, 3) : EMPTY;
    } else {
        const struct word status = answer_word(row, 2);
        outcome.action = TYPED_HEADERS_GATEWAY_REJECT;
        outcome.reason = (uint8_t)place_of(&answer->words[1], REASONS, REASON_COUNT);
        outcome.status = (uint16_t)strtoul(status.bytes, NULL, 10);
    }
    check(row, call_forward_request, &call, TYPED_HEADERS_DONE, number_of_request(outcome), text);
    check_framing(row, &call, outcome.action == TYPED_HEADERS_GATEWAY_REJECT ? NULL : &answer_words(row)->words[1]);
    check_refused_gateway(row, call_forward_request, &call);
}

/* `response NAME CREDENTIALS VERSION STATUS METHOD CLIENT DATE FIELDS` */
static void check_forwarded_response(const struct row *row) {
    struct gateway_call call = read_gateway(row);
    struct typed_headers_response_outcome outcome = {0};
    struct word text = EMPTY;
    call.message.status = (uint16_t)read_number(row, 3);
    call.message.method = put(third_area, row->words[4].bytes, row->words[4].length);
    call.client_version = read_version(&row->words[5]);
    call.received = read_number(row, 6);
    read_section(row, 7, first_area, &call.message.section);
    const struct row *answer = answer_words(row);
    if (is_word(&answer->words[0], "forward")) {
        outcome.received = read_framing(&answer->words[1], 0);
        outcome.sent = outcome.received;
        if (outcome.received.kind != TYPED_HEADERS_NO_CONTENT && outcome.received.kind != TYPED_HEADERS_TUNNEL) {
            outcome.sent = read_framing(&answer->words[2], TYPED_HEADERS_UNTIL_CLOSE);
        }
        text = all_lines(answer, 3);
    } else if (is_word(&answer->words[0], "discard")) {
        outcome.action = TYPED_HEADERS_GATEWAY_DISCARD;
    } else {
        outcome.action = TYPED_HEADERS_GATEWAY_REJECT;
        outcome.reason = (uint8_t)place_of(&answer->words[1], REASONS, REASON_COUNT);
        outcome.status = 502;
    }
    check(row, call_forward_response, &call, TYPED_HEADERS_DONE, number_of_response(outcome), text);
    if (outcome.action != TYPED_HEADERS_GATEWAY_DISCARD) {
        check_framing(row, &call, outcome.action == TYPED_HEADERS_GATEWAY_REJECT ? NULL : &answer_words(row)->words[1]);
    }
    check_refused_gateway(row, call_forward_response, &call);
    call.received = 253402300800;
    check(row, call_forward_response, &call, TYPED_HEADERS_REFUSED, NO_NUMBER, NO_TEXT);
}

/* A request whose lines are a few of its own before the received ones, and what is sent of it. */
static void check_sent(const struct row *row, struct gateway_call *call, const char *section,
                       struct typed_headers_request_outcome outcome, const char *sent) {
    static char wanted[AREA];
    call->message.section = put(first_area, section, strlen(section));
    const size_t length = (size_t)sprintf(wanted, "%s", sent);
    check(row, call_forward_request, call, TYPED_HEADERS_DONE, number_of_request(outcome),
          (struct word){wanted, length});
}

/* `expectation CLIENT SERVER FRAMING FIELDS`, as a request with content that is delimited so. */
static void check_expectation(const struct row *row) {
    static char section[AREA], sent[AREA], framing[64], fields[4096];
    struct gateway_call call = new_gateway_call();
    struct typed_headers_request_outcome outcome = {.sends_continue = answer_is(row, 0, "Answered")};
    call.message.version = read_version(&row->words[0]);
    call.hop.server_version = read_version(&row->words[1]);
    call.message.method = put(third_area, "PUT", 3);
    framing[0] = 0;
    if (is_word(&row->words[2], "chunked")) {
        outcome.framing.kind = TYPED_HEADERS_CHUNKED;
        sprintf(framing, "transfer-encoding: chunked\n");
    } else if (!is_word(&row->words[2], "unstated")) {
        outcome.framing = (struct typed_headers_framing){read_number(row, 2), TYPED_HEADERS_LENGTH};
        sprintf(framing, "content-length: %llu\n", (unsigned long long)outcome.framing.length);
    }
    size_t length = field_lines(row, 3, "accept", "accept: %.*s\n", fields);
    if (answer_is(row, 0, "Forwarded")) {
        field_lines(row, 3, "expect", "expect: %.*s\n", fields + length);
    }
    sprintf(sent, "host: a\n%svia: %s gw\n%s", fields, call.message.version == 10 ? "1.0" : "1.1", framing);
    length = field_lines(row, 3, "accept", "accept: %.*s\n", fields);
    field_lines(row, 3, "expect", "expect: %.*s\n", fields + length);
    sprintf(section, "host: a\n%s%s", framing, fields);
    check_sent(row, &call, section, outcome, sent);
}

/* `connection close|no trailers|no UPGRADE`: C offers no Upgrade. */
static void check_connection(const struct row *row) {
    static char sent[AREA];
    struct gateway_call call = new_gateway_call();
    if (!is_word(&row->words[2], "(none)")) {
        return;
    }
    call.hop.closes = is_word(&row->words[0], "close");
    call.hop.accepts_trailers = is_word(&row->words[1], "trailers");
    const struct word lines = all_lines(answer_words(row), 0);
    sprintf(sent, "host: a\nvia: 1.1 gw\n%.*s", (int)lines.length, lines.bytes);
    check_sent(row, &call, "Connection: close\nHost: a\nTE: trailers\n", (struct typed_headers_request_outcome){0},
               sent);
}

/* `NAME PORT` of a node: false if C has none such. */
static bool read_node(const struct row *row, size_t i, struct area area, struct typed_headers_text *name,
                      uint16_t *port) {
    const bool is_known = !is_word(&row->words[i], "unknown"), has_port = !is_word(&row->words[i + 1], "(none)");
    *name = is_known ? put(area, row->words[i].bytes, row->words[i].length) : put(area, "", 0);
    *port = has_port && row->words[i + 1].bytes[0] != '_' ? (uint16_t)read_number(row, i + 1) : 0;
    return has_port == (*port != 0);
}

/* `forwarding kept|no WRITES CLIENT INTERFACE HOST https|no trusted|no FIELDS`, of a request with that host. */
static void check_forwarding(const struct row *row) {
    static char section[AREA], sent[AREA];
    struct gateway_call call = new_gateway_call();
    const struct word *writes = &row->words[1], *host = &row->words[6];
    if (!read_node(row, 2, rule_areas[2], &call.hop.client, &call.hop.client_port) ||
        !read_node(row, 4, rule_areas[3], &call.hop.interface_node, &call.hop.interface_port)) {
        return;
    }
    call.hop.writes_forwarded = is_word(writes, "forwarded") || is_word(writes, "both");
    call.hop.writes_x_forwarded = is_word(writes, "x") || is_word(writes, "both");
    call.hop.is_secure = is_word(&row->words[7], "https");
    call.hop.is_trusted = is_word(&row->words[0], "kept") && is_word(&row->words[8], "trusted");
    call.hop.tells_host = !is_word(host, "(none)");
    /* (a host that isn't valid is that of the target, which the gateway takes as it comes) */
    const bool is_target = call.hop.tells_host && memchr(host->bytes, '"', host->length);
    const struct word other = {"a", 1}, told = call.hop.tells_host ? *host : other, line = is_target ? other : told;
    if (is_target) {
        call.authority = put(second_area, host->bytes, host->length);
    }
    read_section(row, 9, first_area, &call.message.section);
    sprintf(section, "Host: %.*s\r\n%.*s", (int)line.length, line.bytes, (int)call.message.section.length,
            (const char *)call.message.section.bytes);
    const struct word lines = all_lines(answer_words(row), 0);
    const char *form = is_target ? "via: 1.1 gw\nhost: %.*s\n%.*s" : "host: %.*s\nvia: 1.1 gw\n%.*s";
    sprintf(sent, form, (int)told.length, told.bytes, (int)lines.length, lines.bytes);
    check_sent(row, &call, section, (struct typed_headers_request_outcome){0}, sent);
    call.hop.client = (struct typed_headers_text){(const uint8_t *)"192.0.2", 7};
    check(row, call_forward_request, &call, TYPED_HEADERS_REFUSED, NO_NUMBER, NO_TEXT);
}

/* Chunks to a server of HTTP/1.0, which no row has: RFC 9112, section 6.1. */
static void check_length_required(const struct row *row) {
    struct gateway_call call = new_gateway_call();
    call.hop.server_version = 10;
    check_sent(row, &call, "Host: a\nTransfer-Encoding: chunked\n",
               (struct typed_headers_request_outcome){
                   .status = 411, .action = TYPED_HEADERS_GATEWAY_REJECT,
                   .reason = TYPED_HEADERS_GATEWAY_LENGTH_REQUIRED},
               "");
}

/* The rows of a gateway. */
static void check_gateway(const struct row *row) {
    if (strcmp(row->call, "request") == 0) {
        check_forwarded_request(row);
    } else if (strcmp(row->call, "response") == 0) {
        check_forwarded_response(row);
    } else if (strcmp(row->call, "expectation") == 0) {
        check_expectation(row);
    } else if (strcmp(row->call, "connection") == 0) {
        check_connection(row);
        check_length_required(row);
    } else if (strcmp(row->call, "forwarding") == 0) {
        check_forwarding(row);
    }
}

/* Typed calls: the rows `TYPE.decode LINE..`, whose answers have the values of the getters behind the lines. */

/* Credentials: the length of the user name, and both texts. */
static uint8_t call_basic(const void *arguments, uint64_t *number, uint8_t *room, size_t room_length,
                          size_t *written) {
    const struct typed_headers_text *lines = arguments;
    size_t user_length = NO_NUMBER;
    uint8_t status = typed_headers_basic(lines->bytes, lines->length, &user_length, room, room_length, written);
    *number = user_length;
    return status;
}

/* Two words as one text. */
static struct word both(const struct word *one, const struct word *other) {
    static char text[AREA];
    memcpy(text, one->bytes, one->length);
    memcpy(text + one->length, other->bytes, other->length);
    return (struct word){text, one->length + other->length};
}

static void check_basic(const struct row *row) {
    struct typed_headers_text text = lines(row, 0);
    if (is_answer(row, "(refused)")) {
        check(row, call_basic, &text, refusal(text), NO_NUMBER, NO_TEXT);
        return;
    }
    const struct word *answer = answer_words(row)->words;
    check(row, call_basic, &text, TYPED_HEADERS_DONE, answer[2].length, both(&answer[2], &answer[3]));
}

static void check_bearer(const struct row *row) {
    struct bytes_call call = {typed_headers_bearer, lines(row, 0)};
    if (is_answer(row, "(refused)")) {
        check(row, call_bytes, &call, refusal(call.lines), NO_NUMBER, NO_TEXT);
    } else {
        check(row, call_bytes, &call, TYPED_HEADERS_DONE, NO_NUMBER, answer_words(row)->words[2]);
    }
}

/* A call over the words of a row: one word, and the lines that the others are. */
struct word_call {
    struct typed_headers_text lines, word;
    bool any_case;
};

static uint8_t call_cookie(const void *arguments, uint64_t *number, uint8_t *room, size_t room_length,
                           size_t *written) {
    const struct word_call *call = arguments;
    (void)number;
    return typed_headers_cookie(call->lines.bytes, call->lines.length, call->word.bytes, call->word.length, room,
                                room_length, written);
}

/* `Cookie.get NAME LINE..` */
static void check_cookie(const struct row *row) {
    struct word_call call = {lines(row, 1), put(second_area, row->words[0].bytes, row->words[0].length), false};
    if (is_answer(row, "(none)")) {
        check(row, call_cookie, &call, TYPED_HEADERS_ABSENT, NO_NUMBER, NO_TEXT);
    } else {
        check(row, call_cookie, &call, TYPED_HEADERS_DONE, NO_NUMBER, answer_word(row, 0));
    }
}

static uint8_t call_arguments(const void *arguments, uint64_t *number, uint8_t *room, size_t room_length,
                              size_t *written) {
    const struct word_call *call = arguments;
    (void)number;
    return typed_headers_directive_arguments(call->lines.bytes, call->lines.length, call->word.bytes,
                                             call->word.length, room, room_length, written);
}

/* The words of an answer from one on that aren't empty, as text: after each stands one of the bytes in turn. */
static struct word joined_words(const struct row *answer, size_t from, const char *ends, bool keeps_empty) {
    static char text[AREA];
    size_t length = 0;
    for (size_t i = from; i < answer->count; i++) {
        const struct word *word = &answer->words[i];
        if (word->length || keeps_empty) {
            memcpy(text + length, word->bytes, word->length);
            length += word->length;
            text[length++] = ends[(i - from) % strlen(ends)];
        }
    }
    return (struct word){text, length};
}

static void check_cookies(const struct row *row) {
    struct bytes_call call = {typed_headers_cookies, lines(row, 0)};
    if (!call.lines.length) {
        check(row, call_bytes, &call, TYPED_HEADERS_ABSENT, NO_NUMBER, NO_TEXT);
    } else {
        check(row, call_bytes, &call, TYPED_HEADERS_DONE, NO_NUMBER, joined_words(answer_words(row), 3, "=\n", true));
    }
}

/* Hosts and origins, whose numbers are put into one. */
static uint64_t number_of_port(struct typed_headers_port port) { return port.number | (uint64_t)port.is_set << 16; }

static uint8_t call_host(const void *arguments, uint64_t *number, uint8_t *room, size_t room_length,
                         size_t *written) {
    const struct typed_headers_text *lines = arguments;
    struct typed_headers_port port = {FILL, FILL};
    uint8_t status = typed_headers_host(lines->bytes, lines->length, &port, room, room_length, written);
    if (port.is_set != FILL) {
        *number = number_of_port(port);
    }
    return status;
}

static struct typed_headers_port port_of(const struct word *word) {
    struct typed_headers_port port = {0, !is_word(word, "(none)")};
    if (port.is_set) {
        word->bytes[word->length] = 0;
        port.number = (uint16_t)strtoul(word->bytes, NULL, 10);
    }
    return port;
}

/* Whether a text is a start that ends in a host, and then nothing, or a colon and perhaps a port. */
static bool has_whole_port(const struct word *text, struct word start, const struct word *port) {
    if (text->length < start.length || memcmp(text->bytes, start.bytes, start.length) != 0) {
        return false;
    }
    const char *rest = text->bytes + start.length;
    const size_t length = text->length - start.length;
    for (size_t i = 0; i < length; i++) {
        if (i ? rest[i] < '0' || rest[i] > '9' : rest[i] != ':') {
            return false;
        }
    }
    return length < 2 || !is_word(port, "(none)");
}

static void check_host(const struct row *row) {
    struct typed_headers_text text = lines(row, 0);
    if (is_answer(row, "(refused)")) {
        check(row, call_host, &text, refusal(text), NO_NUMBER, NO_TEXT);
        return;
    }
    const struct word *answer = answer_words(row)->words;
    if (!has_whole_port(&answer[1], answer[2], &answer[3])) {
        check(row, call_host, &text, TYPED_HEADERS_REFUSED, NO_NUMBER, NO_TEXT);
        return;
    }
    check(row, call_host, &text, TYPED_HEADERS_DONE, number_of_port(port_of(&answer[3])), answer[2]);
}

static uint64_t number_of_origin(struct typed_headers_origin_parts parts) {
    return parts.scheme_length | number_of_port(parts.port) << 24 | (uint64_t)parts.is_null << 56;
}

static uint8_t call_origin(const void *arguments, uint64_t *number, uint8_t *room, size_t room_length,
                           size_t *written) {
    const struct typed_headers_text *lines = arguments;
    struct typed_headers_origin_parts parts = {0, {FILL, FILL}, FILL};
    uint8_t status = typed_headers_origin(lines->bytes, lines->length, &parts, room, room_length, written);
    if (parts.is_null != FILL) {
        *number = number_of_origin(parts);
    }
    return status;
}

/* Whether no user precedes the host of an origin, and only a port follows it. */
static bool is_whole_origin(const struct word *text, const struct word *scheme, const struct word *host,
                            const struct word *port) {
    static char start[AREA];
    memcpy(start, scheme->bytes, scheme->length);
    memcpy(start + scheme->length, "://", 3);
    memcpy(start + scheme->length + 3, host->bytes, host->length);
    return has_whole_port(text, (struct word){start, scheme->length + 3 + host->length}, port);
}

static void check_origin(const struct row *row) {
    struct typed_headers_text text = lines(row, 0);
    if (is_answer(row, "(refused)")) {
        check(row, call_origin, &text, refusal(text), NO_NUMBER, NO_TEXT);
        return;
    }
    const struct word *answer = answer_words(row)->words;
    if (!is_word(&answer[2], "true") && !is_whole_origin(&answer[1], &answer[3], &answer[4], &answer[5])) {
        check(row, call_origin, &text, TYPED_HEADERS_REFUSED, NO_NUMBER, NO_TEXT);
        return;
    }
    struct typed_headers_origin_parts parts = {answer[3].length, port_of(&answer[5]), is_word(&answer[2], "true")};
    check(row, call_origin, &text, TYPED_HEADERS_DONE, number_of_origin(parts), both(&answer[3], &answer[4]));
    if (!parts.is_null && !parts.port.is_set) {
        static char bytes[AREA];
        int length = snprintf(bytes, sizeof bytes, "%s:65536", answer[1].bytes);
        struct typed_headers_text other = put(first_area, bytes, (size_t)length);
        check(row, call_origin, &other, TYPED_HEADERS_REFUSED, NO_NUMBER, NO_TEXT);
    }
}

/* Structs that a call gives: their bytes are what is compared. */
static uint8_t shown(uint8_t status, const void *given, size_t size, const char *text, uint8_t *room,
                     size_t room_length, size_t *written) {
    if (status != TYPED_HEADERS_DONE) {
        return is_filled(given, (const uint8_t *)given + size) ? status : FILL;
    }
    *written = strlen(text);
    if (*written > room_length) {
        return TYPED_HEADERS_NO_ROOM;
    }
    memcpy(room, text, *written);
    return status;
}

static uint8_t call_security(const void *arguments, uint64_t *number, uint8_t *room, size_t room_length,
                             size_t *written) {
    const struct typed_headers_text *lines = arguments;
    struct typed_headers_transport_security given;
    char text[64] = "";
    (void)number;
    memset(&given, FILL, sizeof given);
    uint8_t status = typed_headers_strict_transport_security(lines->bytes, lines->length, &given);
    sprintf(text, "%llu %s", (unsigned long long)given.max_age,
            given.include_subdomains == 1 ? "true" : given.include_subdomains ? "neither" : "false");
    return shown(status, &given, sizeof given, text, room, room_length, written);
}

static uint8_t call_retry_after(const void *arguments, uint64_t *number, uint8_t *room, size_t room_length,
                                size_t *written) {
    const struct typed_headers_text *lines = arguments;
    struct typed_headers_retry_time given;
    char text[64] = "";
    (void)number;
    memset(&given, FILL, sizeof given);
    uint8_t status = typed_headers_retry_after(lines->bytes, lines->length, &given);
    sprintf(text, "%s %llu", given.is_date == 1 ? "date" : given.is_date ? "neither" : "delay",
            (unsigned long long)given.seconds);
    return shown(status, &given, sizeof given, text, room, room_length, written);
}

static uint8_t call_content_range(const void *arguments, uint64_t *number, uint8_t *room, size_t room_length,
                                  size_t *written) {
    const struct typed_headers_text *lines = arguments;
    struct typed_headers_content_range given;
    char text[128] = "";
    (void)number;
    memset(&given, FILL, sizeof given);
    uint8_t status = typed_headers_content_range(lines->bytes, lines->length, &given);
    size_t length = given.has_range == 1 ? sprintf(text, "%llu %llu ", (unsigned long long)given.first,
                                                   (unsigned long long)given.last)
                    : given.has_range || given.first || given.last ? sprintf(text, "neither ")
                                                                   : sprintf(text, "(none) ");
    if (given.has_length == 1) {
        sprintf(text + length, "%llu", (unsigned long long)given.length);
    } else {
        sprintf(text + length, given.has_length || given.length ? "neither" : "(none)");
    }
    return shown(status, &given, sizeof given, text, room, room_length, written);
}

static uint8_t call_stale(const void *arguments, uint64_t *number, uint8_t *room, size_t room_length,
                          size_t *written) {
    const struct typed_headers_text *lines = arguments;
    struct typed_headers_stale_directives given;
    char text[64] = "", first[32] = "(none)", second[32] = "(none)";
    (void)number;
    memset(&given, FILL, sizeof given);
    uint8_t status = typed_headers_stale_directives(lines->bytes, lines->length, &given);
    if (given.has_while_revalidate) {
        sprintf(first, "%llu", (unsigned long long)given.while_revalidate);
    }
    if (given.has_if_error) {
        sprintf(second, "%llu", (unsigned long long)given.if_error);
    }
    sprintf(text, "%.31s %.31s", first, second);
    return shown(status, &given, sizeof given, text, room, room_length, written);
}

/* Checks a call that gives a struct, which is shown as this text. */
static void check_shown(const struct row *row, call_fn *call, const char *wanted) {
    struct typed_headers_text text = lines(row, 0);
    if (is_answer(row, "(refused)")) {
        check(row, call, &text, refusal(text), NO_NUMBER, NO_TEXT);
    } else {
        static char copy[AREA];
        snprintf(copy, sizeof copy, "%s", wanted);
        check(row, call, &text, TYPED_HEADERS_DONE, NO_NUMBER, (struct word){copy, strlen(copy)});
    }
}

/* What follows the line in an answer. */
static const char *getters(const struct row *row) {
    const char *line = strchr(row->answer, ' '), *found = line ? strchr(line + 1, ' ') : NULL;
    return found ? found + 1 : "";
}

/* The canonical line of `retry-after` is a number or an IMF-fixdate. */
static void check_retry_after(const struct row *row) {
    char line[64], text[80];
    struct word word = answer_word(row, 1);
    struct tm time = {0};
    snprintf(line, sizeof line, "%.*s", (int)word.length, word.bytes);
    const char *end = strptime(line, "%a, %d %b %Y %H:%M:%S GMT", &time);
    if (end && !*end) {
        snprintf(text, sizeof text, "date %lld", (long long)timegm(&time));
    } else {
        snprintf(text, sizeof text, "delay %s", line);
    }
    check_shown(row, call_retry_after, text);
}

static uint8_t call_disposition(const void *arguments, uint64_t *number, uint8_t *room, size_t room_length,
                                size_t *written) {
    const struct typed_headers_text *lines = arguments;
    uint8_t disposition = FILL;
    (void)room, (void)room_length, (void)written;
    uint8_t status = typed_headers_content_disposition(lines->bytes, lines->length, &disposition);
    if (disposition != FILL) {
        *number = disposition;
    }
    return status;
}

static void check_disposition(const struct row *row) {
    struct typed_headers_text text = lines(row, 0);
    if (is_answer(row, "(refused)")) {
        check(row, call_disposition, &text, refusal(text), NO_NUMBER, NO_TEXT);
        return;
    }
    const char *said = getters(row);
    const uint64_t number = strcmp(said, "true false false") == 0   ? TYPED_HEADERS_INLINE
                            : strcmp(said, "false true false") == 0 ? TYPED_HEADERS_ATTACHMENT
                            : strcmp(said, "false false true") == 0 ? TYPED_HEADERS_FORM_DATA
                                                                    : TYPED_HEADERS_OTHER_DISPOSITION;
    check(row, call_disposition, &text, TYPED_HEADERS_DONE, number, NO_TEXT);
}

static uint8_t call_has_member(const void *arguments, uint64_t *number, uint8_t *room, size_t room_length,
                               size_t *written) {
    const struct word_call *call = arguments;
    uint8_t has = FILL;
    (void)room, (void)room_length, (void)written;
    uint8_t status = typed_headers_has_member(call->lines.bytes, call->lines.length, call->word.bytes,
                                              call->word.length, call->any_case, &has);
    if (has != FILL) {
        *number = has;
    }
    return status;
}

/* Whether the lines have a member. */
static void check_member(const struct row *row, size_t from, struct word word, bool any_case, bool has) {
    struct word_call call = {lines(row, from), put(second_area, word.bytes, word.length), any_case};
    if (!call.lines.length) {
        check(row, call_has_member, &call, TYPED_HEADERS_ABSENT, NO_NUMBER, NO_TEXT);
    } else {
        check(row, call_has_member, &call, TYPED_HEADERS_DONE, has, NO_TEXT);
    }
}

/* `Connection.contains OPTION LINE..`: the empty text is no member, though an empty item is an option upstream. */
static void check_option(const struct row *row) {
    check_member(row, 1, row->words[0], true, row->words[0].length && is_answer(row, "true"));
}

/* `Vary.decode LINE..`: whether it is `*`, and the items, of which those that are empty are no members. */
static void check_vary(const struct row *row) {
    struct bytes_call call = {typed_headers_members, lines(row, 0)};
    if (!call.lines.length) {
        check(row, call_bytes, &call, TYPED_HEADERS_ABSENT, NO_NUMBER, NO_TEXT);
        return;
    }
    struct row *answer = answer_words(row);
    const bool is_any = is_word(&answer->words[2], "true");
    check(row, call_bytes, &call, TYPED_HEADERS_DONE, NO_NUMBER, joined_words(answer, 4, "\n", false));
    check_member(row, 0, (struct word){"*", 1}, false, is_any);
    check_member(row, 0, EMPTY, true, false);
}

/* `Allow.decode LINE..`: each method is a member, byte for byte. */
static void check_allow(const struct row *row) {
    const struct row *answer = answer_words(row);
    for (size_t i = 3; row->count && i < answer->count; i++) {
        check_member(row, 0, answer->words[i], false, true);
    }
}

/* `CacheControl.arguments NAME LINE..` */
static void check_arguments(const struct row *row) {
    struct word_call call = {lines(row, 1), put(second_area, row->words[0].bytes, row->words[0].length), false};
    const bool has_none = is_answer(row, "(none)");
    check(row, call_arguments, &call, TYPED_HEADERS_DONE, NO_NUMBER,
          has_none ? EMPTY : joined_words(answer_words(row), 0, "\n", true));
}

/* A call over field lines of a form. */
struct form_call {
    struct typed_headers_text lines;
    uint8_t form;
};

static uint8_t call_parts(const void *arguments, uint64_t *number, uint8_t *room, size_t room_length,
                          size_t *written) {
    const struct form_call *call = arguments;
    (void)number;
    return typed_headers_field_parts(call->form, call->lines.bytes, call->lines.length, room, room_length, written);
}

/* `elements LINE..` and the like: each word of the answer is a line. */
static void check_parts(const struct row *row, uint8_t form) {
    struct form_call call = {lines(row, 0), form};
    check(row, call_parts, &call, TYPED_HEADERS_DONE, NO_NUMBER,
          is_answer(row, "()") ? EMPTY : joined_words(answer_words(row), 0, "\n", true));
    call.form = TYPED_HEADERS_CACHES + 1;
    check(row, call_parts, &call, TYPED_HEADERS_REFUSED, NO_NUMBER, NO_TEXT);
}

/* `extended VALUE` */
static void check_extended(const struct row *row) {
    struct bytes_call call = {typed_headers_extended_text,
                              put(first_area, row->words[0].bytes, row->words[0].length)};
    if (is_answer(row, "(refused)")) {
        check(row, call_bytes, &call, TYPED_HEADERS_REFUSED, NO_NUMBER, NO_TEXT);
    } else {
        check(row, call_bytes, &call, TYPED_HEADERS_DONE, NO_NUMBER, answer_word(row, 0));
    }
}

/* A parameter of a kind. */
struct parameter_call {
    struct typed_headers_text text, name;
    uint8_t kind;
};

static uint8_t call_parameter(const void *arguments, uint64_t *number, uint8_t *room, size_t room_length,
                              size_t *written) {
    const struct parameter_call *call = arguments;
    (void)number;
    return typed_headers_format_parameter(call->kind, call->name.bytes, call->name.length, call->text.bytes,
                                          call->text.length, room, room_length, written);
}

/* `parameter NAME TEXT` and the like */
static void check_parameter(const struct row *row, uint8_t kind) {
    const struct word *name = &row->words[0], *text = &row->words[1];
    struct parameter_call call = {put(first_area, text->bytes, text->length),
                                  put(second_area, name->bytes, name->length), kind};
    if (is_answer(row, "(refused)")) {
        check(row, call_parameter, &call, TYPED_HEADERS_REFUSED, NO_NUMBER, NO_TEXT);
    } else {
        check(row, call_parameter, &call, TYPED_HEADERS_DONE, NO_NUMBER, answer_word(row, 0));
    }
    call.kind = TYPED_HEADERS_PARAMETER_IN_CHALLENGE + 1;
    check(row, call_parameter, &call, TYPED_HEADERS_REFUSED, NO_NUMBER, NO_TEXT);
}

static uint8_t call_place(const void *arguments, uint64_t *number, uint8_t *room, size_t room_length,
                          size_t *written) {
    const struct word_call *call = arguments;
    size_t place = FILL;
    (void)room, (void)room_length, (void)written;
    uint8_t status = typed_headers_parameter_place(call->lines.bytes, call->lines.length, call->word.bytes,
                                                   call->word.length, &place);
    if (place != FILL) {
        *number = place;
    }
    return status;
}

/* `place NAME NAME..` */
static void check_place(const struct row *row) {
    struct word_call call = {lines(row, 1), put(second_area, row->words[0].bytes, row->words[0].length), false};
    if (is_answer(row, "(none)")) {
        check(row, call_place, &call, TYPED_HEADERS_ABSENT, NO_NUMBER, NO_TEXT);
    } else if (is_answer(row, "(refused)")) {
        check(row, call_place, &call, TYPED_HEADERS_REFUSED, NO_NUMBER, NO_TEXT);
    } else {
        check(row, call_place, &call, TYPED_HEADERS_DONE, strtoull(row->answer, NULL, 10), NO_TEXT);
    }
}

/* The typed calls of a row. */
static void check_typed(const struct row *row) {
    const char *call = row->call;
    if (strcmp(call, "AuthorizationBasic.decode") == 0 || strcmp(call, "ProxyAuthorizationBasic.decode") == 0) {
        check_basic(row);
    } else if (strcmp(call, "AuthorizationBearer.decode") == 0 ||
               strcmp(call, "ProxyAuthorizationBearer.decode") == 0) {
        check_bearer(row);
    } else if (strcmp(call, "CacheControl.stale") == 0) {
        check_shown(row, call_stale, row->answer);
    } else if (strcmp(call, "CacheControl.arguments") == 0) {
        check_arguments(row);
    } else if (strcmp(call, "elements") == 0) {
        check_parts(row, TYPED_HEADERS_ELEMENTS);
    } else if (strcmp(call, "challenges") == 0) {
        check_parts(row, TYPED_HEADERS_CHALLENGES);
    } else if (strcmp(call, "links") == 0) {
        check_parts(row, TYPED_HEADERS_LINKS);
    } else if (strcmp(call, "set_cookies") == 0) {
        check_parts(row, TYPED_HEADERS_SET_COOKIES);
    } else if (strcmp(call, "dispositions") == 0) {
        check_parts(row, TYPED_HEADERS_DISPOSITIONS);
    } else if (strcmp(call, "hops") == 0) {
        check_parts(row, TYPED_HEADERS_HOPS);
    } else if (strcmp(call, "caches") == 0) {
        check_parts(row, TYPED_HEADERS_CACHES);
    } else if (strcmp(call, "extended") == 0) {
        check_extended(row);
    } else if (strcmp(call, "parameter") == 0) {
        check_parameter(row, TYPED_HEADERS_PARAMETER_EXTENDED);
    } else if (strcmp(call, "plain") == 0) {
        check_parameter(row, TYPED_HEADERS_PARAMETER_PLAIN);
    } else if (strcmp(call, "quoted") == 0) {
        check_parameter(row, TYPED_HEADERS_PARAMETER_QUOTED);
    } else if (strcmp(call, "in_challenge") == 0) {
        check_parameter(row, TYPED_HEADERS_PARAMETER_IN_CHALLENGE);
    } else if (strcmp(call, "place") == 0) {
        check_place(row);
    } else if (strcmp(call, "Cookie.get") == 0) {
        check_cookie(row);
    } else if (strcmp(call, "Cookie.decode") == 0) {
        check_cookies(row);
    } else if (strcmp(call, "Host.decode") == 0) {
        check_host(row);
    } else if (strcmp(call, "Origin.decode") == 0) {
        check_origin(row);
    } else if (strcmp(call, "StrictTransportSecurity.decode") == 0) {
        check_shown(row, call_security, getters(row));
    } else if (strcmp(call, "RetryAfter.decode") == 0) {
        check_retry_after(row);
    } else if (strcmp(call, "ContentRange.decode") == 0) {
        check_shown(row, call_content_range, getters(row));
    } else if (strcmp(call, "ContentDisposition.decode") == 0) {
        check_disposition(row);
    } else if (strcmp(call, "Connection.contains") == 0 || strcmp(call, "Connection.contains_name") == 0) {
        check_option(row);
    } else if (strcmp(call, "Vary.decode") == 0) {
        check_vary(row);
    } else if (strcmp(call, "Allow.decode") == 0) {
        check_allow(row);
    }
}

static void make_row(struct row *row) {
    if (strstr(row->file, "/gateway/")) {
        check_gateway(row);
        return;
    }
    const char *decode = strstr(row->call, ".decode");
    if (decode && strcmp(decode, ".decode") == 0) {
        char type[64];
        snprintf(type, sizeof type, "%.*s", (int)(decode - row->call), row->call);
        check_field(row, type);
    }
    check_typed(row);
    static const char *numbers[] = {"Age", "ContentLength", "Date", "Expires", "LastModified"};
    for (int i = 0; i < 5; i++) {
        char call[32];
        snprintf(call, sizeof call, "%s.decode", numbers[i]);
        if (strcmp(row->call, call) == 0) {
            check_number(row, numbers[i]);
            return;
        }
    }
    if (strcmp(row->call, "ContentType.decode") == 0) {
        check_media_type(row);
    } else if (strcmp(row->call, "canon.run") == 0) {
        check_canonical(row);
    } else if (strcmp(row->call, "EntityTag.compare") == 0) {
        check_tags(row);
    } else if (strcmp(row->call, "ETag.decode") == 0) {
        check_tag(row);
        check_format_tag(row);
    } else if (strcmp(row->call, "Date.from_unix_secs") == 0) {
        check_format_date(row);
    } else if (strcmp(row->call, "ContentRange.bytes") == 0) {
        check_format_range(row);
    } else if (strcmp(row->call, "ContentRange.unsatisfied_bytes") == 0) {
        check_format_length(row);
    } else if (strcmp(row->call, "CacheControl.decode") == 0) {
        check_cache_control(row);
    } else if (strcmp(row->call, "Range.satisfiable_ranges") == 0) {
        check_ranges(row);
    } else if (strcmp(row->call, "SecWebsocketAccept.from_key") == 0) {
        check_accept(row);
    } else if (strcmp(row->call, "evaluate") == 0 || strcmp(row->call, "evaluate_at") == 0) {
        check_evaluate(row);
    } else if (strcmp(row->call, "select") == 0) {
        check_select(row);
    } else if (strcmp(row->call, "CorsPolicy.new") == 0) {
        check_rules(row);
    } else if (strcmp(row->call, "CorsPolicy.answer") == 0) {
        check_cors(row);
    } else if (strcmp(row->call, "may_store") == 0) {
        check_may_store(row);
    } else if (strcmp(row->call, "lifetime") == 0) {
        check_lifetime(row);
    } else if (strcmp(row->call, "heuristic_lifetime") == 0) {
        check_heuristic(row);
    } else if (strcmp(row->call, "current_age") == 0) {
        check_current_age(row);
    } else if (strcmp(row->call, "decide") == 0) {
        check_decide(row);
    } else if (strcmp(row->call, "validation_steps") == 0) {
        check_validators(row);
    } else if (strncmp(row->call, "accept.", 7) == 0) {
        check_offers(row, row->call, row->call + 7);
    } else if (strncmp(row->call, "encoding.", 9) == 0 || strncmp(row->call, "language.", 9) == 0) {
        check_offers(row, row->call, row->call + 9);
    } else if (strcmp(row->call, "respond") == 0 || strcmp(row->call, "respond_whole") == 0) {
        check_respond(row, strcmp(row->call, "respond") == 0);
    } else if (strcmp(row->call, "boundary") == 0) {
        check_boundary(row);
    } else if (strcmp(row->call, "decide_unstored") == 0) {
        check_unstored(row);
    } else if (strcmp(row->call, "answer") == 0 || strcmp(row->call, "implementing") == 0 ||
               strcmp(row->call, "denied") == 0) {
        check_resource(row);
    } else if (strcmp(row->call, "request") == 0) {
        check_offer(row);
    } else if (strncmp(row->call, "accept", 6) == 0) {
        check_handshake(row);
    } else if (strcmp(row->call, "check") == 0) {
        check_opened(row);
    }
}

static void read_row(struct row *row, char *line) {
    char *end = strstr(line, " = ");
    if (!end) {
        complain(row, "no row");
        return;
    }
    *end = 0;
    row->answer = end + 3;
    /* After `!` and the kind of a difference stands the answer that is wanted here. */
    char *other = strstr(row->answer, " ! ");
    if (other) {
        row->answer = strchr(other + 3, ' ') + 1;
    }
    row->call = strtok(line, " ");
    row->count = 0;
    if (!row->call) {
        return;
    }
    for (char *word; (word = strtok(NULL, " "));) {
        if (row->count == MOST_WORDS) {
            return;
        }
        row->words[row->count++] = (struct word){word, 0};
    }
    for (size_t i = 0; i < row->count; i++) {
        row->words[i].length = decode(row->words[i].bytes);
    }
    const size_t before = calls;
    make_row(row);
    rows += calls > before;
    if (calls == before && strstr(row->file, "/cases/")) {
        complain(row, "no call has it");
    }
}

static void read_file(const char *name) {
    static struct row row;
    static char line[AREA];
    FILE *file = fopen(name, "r");
    if (!file) {
        perror(name);
        exit(2);
    }
    row.file = name;
    for (row.number = 1; fgets(line, sizeof line, file); row.number++) {
        line[strcspn(line, "\n")] = 0;
        if (line[0] && line[0] != '#') {
            row.call = line;
            row.answer = "";
            read_row(&row, line);
        }
    }
    fclose(file);
}

/* The library's version is that of its header, and each status has a text of its own. */
static void check_own_texts(void) {
    wrong += strcmp(typed_headers_version(), TYPED_HEADERS_VERSION) != 0;
    for (uint8_t one = 0; one <= TYPED_HEADERS_MARKED + 1; one++) {
        for (uint8_t other = 0; other < one; other++) {
            wrong += strcmp(typed_headers_status_text(one), typed_headers_status_text(other)) == 0;
        }
    }
}

int main(int count, char **names) {
    check_own_texts();
    first_area = new_area();
    second_area = new_area();
    third_area = new_area();
    for (int i = 0; i < 4; i++) {
        rule_areas[i] = new_area();
    }
    for (int i = 0; i < RESOURCE_TEXTS; i++) {
        resource_areas[i] = new_area();
    }
    challenge_area = new_area();
    wrong_area = new_area();
    room_area = new_area();
    is_null = count > 1 && strcmp(names[1], "--null") == 0;
    is_handled = count > 1 && strcmp(names[1], "--handles") == 0;
    for (int i = 1 + (is_null || is_handled); i < count; i++) {
        read_file(names[i]);
    }
    printf("%zu rows in %zu calls, %zu refusals of memory, %zu answered otherwise\n", rows, calls, refusals, wrong);
    return wrong || !rows;
}
