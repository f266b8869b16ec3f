/* Refuses requests of memory, for a program that is started with this library in LD_PRELOAD.
 *
 * REFUSE_AT is the number of the request that is refused, from 1; with REFUSE_ALL=1 all behind it are refused, too.
 * REFUSE_MARK is the path of a file that is made once a request was refused. */
#include <errno.h>
#include <fcntl.h>
#include <stdlib.h>
#include <string.h>
#include <unistd.h>

extern void *__libc_malloc(size_t size);
extern void *__libc_calloc(size_t count, size_t size);
extern void *__libc_realloc(void *block, size_t size);
extern void *__libc_memalign(size_t alignment, size_t size);

static unsigned long refused_at;
static unsigned long requests;
static int is_all;
static const char *mark;

__attribute__((constructor)) static void read_environment(void) {
    const char *at = getenv("REFUSE_AT");
    is_all = getenv("REFUSE_ALL") != NULL;
    mark = getenv("REFUSE_MARK");
    requests = 0;
    refused_at = at ? strtoul(at, NULL, 10) : 0;
}

/* Whether the request that is made now is refused. */
static int is_refused(void) {
    requests++;
    if (refused_at == 0 || requests < refused_at || (requests > refused_at && !is_all)) {
        return 0;
    }
    if (requests == refused_at && mark != NULL) {
        int file = open(mark, O_WRONLY | O_CREAT, 0600);
        if (file >= 0) {
            close(file);
        }
    }
    errno = ENOMEM;
    return 1;
}

void *malloc(size_t size) { return is_refused() ? NULL : __libc_malloc(size); }

void *calloc(size_t count, size_t size) { return is_refused() ? NULL : __libc_calloc(count, size); }

void *realloc(void *block, size_t size) { return is_refused() ? NULL : __libc_realloc(block, size); }

void *memalign(size_t alignment, size_t size) { return is_refused() ? NULL : __libc_memalign(alignment, size); }

void *aligned_alloc(size_t alignment, size_t size) { return memalign(alignment, size); }

int posix_memalign(void **block, size_t alignment, size_t size) {
    void *found = memalign(alignment, size);
    if (found == NULL) {
        return ENOMEM;
    }
    *block = found;
    return 0;
}
