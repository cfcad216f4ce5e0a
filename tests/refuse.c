/* Preloaded into a program, it counts the program's allocations and refuses one of them.

   REFUSE_COUNT names a file, whose first eight bytes are the count as it grows. REFUSE_AT is the number of the
   allocation that is refused, counted from 1; with 0 none is. */
#include <errno.h>
#include <fcntl.h>
#include <stdatomic.h>
#include <stddef.h>
#include <stdlib.h>
#include <sys/mman.h>
#include <unistd.h>

void *__libc_malloc(size_t size);
void *__libc_calloc(size_t count, size_t size);
void *__libc_realloc(void *block, size_t size);
void *__libc_memalign(size_t alignment, size_t size);

static _Atomic unsigned long *count;
static unsigned long refused_number;

__attribute__((constructor)) static void begin(void) {
    const char *path = getenv("REFUSE_COUNT");
    const char *number = getenv("REFUSE_AT");
    int file = path ? open(path, O_RDWR) : -1;
    if (file < 0 || !number) _exit(99);
    void *shared = mmap(NULL, sizeof *count, PROT_READ | PROT_WRITE, MAP_SHARED, file, 0);
    if (shared == MAP_FAILED) _exit(99);
    close(file);
    refused_number = strtoul(number, NULL, 10);
    count = shared;
}

/* Counts an allocation, and tells whether it is the one that is refused. */
static int is_refused(void) {
    if (!count || atomic_fetch_add(count, 1) + 1 != refused_number) return 0;
    errno = ENOMEM;
    return 1;
}

void *malloc(size_t size) { return is_refused() ? NULL : __libc_malloc(size); }

void *calloc(size_t number, size_t size) { return is_refused() ? NULL : __libc_calloc(number, size); }

void *realloc(void *block, size_t size) { return is_refused() ? NULL : __libc_realloc(block, size); }

void *memalign(size_t alignment, size_t size) { return is_refused() ? NULL : __libc_memalign(alignment, size); }

void *aligned_alloc(size_t alignment, size_t size) { return memalign(alignment, size); }

int posix_memalign(void **block, size_t alignment, size_t size) {
    *block = memalign(alignment, size);
    return *block ? 0 : ENOMEM;
}
