/* Prints the canonical text of a header. */
#include <stdio.h>
#include <typed_headers.h>

int main(void) {
    const char section[] = "Cache-Control: MAX-AGE=\"60\", no-cache\r\n\r\n";
    const struct typed_headers_keys keys = {1, 2}; /* A server takes them from getentropy. */
    uint8_t text[256];
    size_t written;
    if (typed_headers_canonical((const uint8_t *)section, sizeof section - 1, &keys, text, sizeof text, &written)) {
        return 1;
    }
    fwrite(text, 1, written, stdout);
    return 0;
}
