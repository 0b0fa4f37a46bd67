/* An allocator to preload: that of the C library, which counts its calls and writes the count at the end. */
#include <stddef.h>
#include <stdio.h>

extern void *__libc_malloc(size_t size);
extern void *__libc_realloc(void *place, size_t size);

static unsigned long count;

void *malloc(size_t size) {
    count++;
    return __libc_malloc(size);
}

void *realloc(void *place, size_t size) {
    count++;
    return __libc_realloc(place, size);
}

__attribute__((destructor)) static void tell(void) {
    fprintf(stderr, "%lu\n", count);
}
