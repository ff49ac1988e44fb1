/* Stands before the C library by LD_PRELOAD, and refuses calls for memory: those with a number from REFUSE_FIRST to
   REFUSE_LAST, counted from 1 once the loader is done. The file REFUSE_COUNT, of eight bytes, has how many calls there were so far. */
#include <errno.h>
#include <fcntl.h>
#include <stdatomic.h>
#include <stdlib.h>
#include <sys/mman.h>
#include <unistd.h>

extern void *__libc_malloc(size_t);
extern void *__libc_calloc(size_t, size_t);
extern void *__libc_realloc(void *, size_t);
extern void *__libc_memalign(size_t, size_t);

static unsigned long first, last;
/* None until the loader is done, whose calls pass. */
static atomic_ulong *count;

__attribute__((constructor)) static void begin(void) {
    int file = open(getenv("REFUSE_COUNT"), O_RDWR);
    void *shared = mmap(NULL, sizeof *count, PROT_READ | PROT_WRITE, MAP_SHARED, file, 0);
    if (file < 0 || shared == MAP_FAILED) abort();
    close(file);
    first = strtoul(getenv("REFUSE_FIRST"), NULL, 10);
    last = strtoul(getenv("REFUSE_LAST"), NULL, 10);
    count = shared;
}

static int is_refused(void) {
    if (count == NULL) return 0;
    unsigned long number = atomic_fetch_add(count, 1) + 1;
    if (number < first || number > last) return 0;
    errno = ENOMEM;
    return 1;
}

void *malloc(size_t size) { return is_refused() ? NULL : __libc_malloc(size); }

void *calloc(size_t items, size_t size) { return is_refused() ? NULL : __libc_calloc(items, size); }

void *realloc(void *old, size_t size) { return is_refused() ? NULL : __libc_realloc(old, size); }

void *memalign(size_t alignment, size_t size) { return is_refused() ? NULL : __libc_memalign(alignment, size); }

void *aligned_alloc(size_t alignment, size_t size) { return memalign(alignment, size); }

int posix_memalign(void **to, size_t alignment, size_t size) {
    void *found = memalign(alignment, size);
    if (found == NULL) return ENOMEM;
    *to = found;
    return 0;
}
