/* Counts the requests for memory of a program, and refuses one of them. check/memory.py loads it before the C library. The environment
   variable TALLY names a file of three numbers of 64 bits: which request to refuse, counted from 1, and none where that is 0; how many
   there were; and whether one was refused. */
#include <errno.h>
#include <fcntl.h>
#include <stddef.h>
#include <stdint.h>
#include <stdlib.h>
#include <sys/mman.h>
#include <unistd.h>

extern void *__libc_malloc(size_t size);
extern void *__libc_calloc(size_t count, size_t size);
extern void *__libc_realloc(void *before, size_t size);
extern void *__libc_memalign(size_t alignment, size_t size);

struct tally {
    uint64_t refuse;
    uint64_t requests;
    uint64_t is_refused;
};

static struct tally *tally;

/* Opens the tally before the program begins. Without one no request is counted. */
__attribute__((constructor)) static void open_tally(void) {
    const char *name = getenv("TALLY");
    int file = name == NULL ? -1 : open(name, O_RDWR | O_CLOEXEC);
    if (file < 0)
        return;
    void *bytes = mmap(NULL, sizeof *tally, PROT_READ | PROT_WRITE, MAP_SHARED, file, 0);
    close(file);
    if (bytes != MAP_FAILED)
        tally = bytes;
}

/* Counts a request, and tells whether it is the one to refuse. */
static int is_refused(void) {
    if (tally == NULL)
        return 0;
    tally->requests += 1;
    if (tally->requests != tally->refuse)
        return 0;
    tally->is_refused = 1;
    errno = ENOMEM;
    return 1;
}

void *malloc(size_t size) {
    return is_refused() ? NULL : __libc_malloc(size);
}

void *calloc(size_t count, size_t size) {
    return is_refused() ? NULL : __libc_calloc(count, size);
}

void *realloc(void *before, size_t size) {
    return is_refused() ? NULL : __libc_realloc(before, size);
}

void *memalign(size_t alignment, size_t size) {
    return is_refused() ? NULL : __libc_memalign(alignment, size);
}

void *aligned_alloc(size_t alignment, size_t size) {
    return is_refused() ? NULL : __libc_memalign(alignment, size);
}

int posix_memalign(void **place, size_t alignment, size_t size) {
    void *block = is_refused() ? NULL : __libc_memalign(alignment, size);
    if (block == NULL)
        return ENOMEM;
    *place = block;
    return 0;
}
