// Lets one allocation of a process fail. Preloaded, it counts the allocations from 1, and the one whose number is in
// REFUSE_REQUEST fails. It then makes the file that REFUSE_MARK names, so that a run that made fewer allocations
// can be told. The file says `again` if the next allocation is for as much memory or less: a list that isn't
// let grow by what an iterator hints at grows by what it needs.
#include <errno.h>
#include <fcntl.h>
#include <stddef.h>
#include <stdlib.h>
#include <unistd.h>

void *__libc_malloc(size_t size);
void *__libc_calloc(size_t count, size_t size);
void *__libc_realloc(void *block, size_t size);
void *__libc_memalign(size_t alignment, size_t size);

static unsigned long requests, refused;
static size_t refused_size;
static int mark = -1;

static int is_refused(size_t size) {
    if (requests == 0) {
        const char *number = getenv("REFUSE_REQUEST");
        refused = number ? strtoul(number, NULL, 10) : 0;
    }
    requests++;
    if (requests == refused) {
        const char *name = getenv("REFUSE_MARK");
        mark = name ? open(name, O_CREAT | O_WRONLY, 0666) : -1;
        refused_size = size;
        errno = ENOMEM;
        return 1;
    }
    if (requests == refused + 1 && mark >= 0) {
        if (size <= refused_size && write(mark, "again\n", 6) != 6) {
            abort();
        }
        close(mark);
    }
    return 0;
}

void *malloc(size_t size) { return is_refused(size) ? NULL : __libc_malloc(size); }

void *calloc(size_t count, size_t size) { return is_refused(count * size) ? NULL : __libc_calloc(count, size); }

void *realloc(void *block, size_t size) { return is_refused(size) ? NULL : __libc_realloc(block, size); }

void *memalign(size_t alignment, size_t size) { return is_refused(size) ? NULL : __libc_memalign(alignment, size); }

void *aligned_alloc(size_t alignment, size_t size) { return memalign(alignment, size); }

int posix_memalign(void **block, size_t alignment, size_t size) {
    *block = memalign(alignment, size);
    return *block ? 0 : ENOMEM;
}
