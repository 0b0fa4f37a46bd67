/* What the library says of itself. These two calls are not proved: each returns a constant text. */
#include "typed_headers.h"

const char *typed_headers_version(void) {
    return TYPED_HEADERS_VERSION;
}

const char *typed_headers_status_text(uint8_t status) {
    switch (status) {
    case TYPED_HEADERS_DONE:
        return "done";
    case TYPED_HEADERS_REFUSED:
        return "an argument is not what the call reads";
    case TYPED_HEADERS_NO_MEMORY:
        return "out of memory";
    case TYPED_HEADERS_NO_ROOM:
        return "the room is too small";
    case TYPED_HEADERS_ABSENT:
        return "what was asked for is absent";
    case TYPED_HEADERS_TOO_LARGE:
        return "an argument is too large";
    case TYPED_HEADERS_MARKED:
        return "the text marks field names whose lines were rejected";
    default:
        return "unknown status";
    }
}
