/* Stands before the C library in a program (LD_PRELOAD) and refuses its requests for memory as `refusals.py` says in its
   environment: REFUSE_AT is the number of the request that is refused, 0 for none, REFUSE_REST says that all behind it are too, and
   REFUSE_COUNT is a file whose first eight bytes are the count of requests so far. */
#include <errno.h>
#include <fcntl.h>
#include <stdatomic.h>
#include <stddef.h>
#include <stdlib.h>
#include <sys/mman.h>
#include <unistd.h>

extern void *__libc_malloc(size_t size);
extern void *__libc_calloc(size_t count, size_t size);
extern void *__libc_realloc(void *block, size_t size);

static atomic_long *requests;
static long refused_at;
static int refuses_rest;

/* Requests of the loader come before this, and aren't counted. */
__attribute__((constructor)) static void begin(void) {
    const char *at = getenv("REFUSE_AT"), *path = getenv("REFUSE_COUNT");
    int file = path ? open(path, O_RDWR | O_CREAT | O_TRUNC, 0600) : -1;
    if (!at || file < 0 || ftruncate(file, sizeof *requests) != 0) {
        _exit(99);
    }
    void *page = mmap(NULL, sizeof *requests, PROT_READ | PROT_WRITE, MAP_SHARED, file, 0);
    if (page == MAP_FAILED) {
        _exit(99);
    }
    refused_at = atol(at);
    refuses_rest = getenv("REFUSE_REST") != NULL;
    requests = page;
}

static int is_refused(void) {
    if (!requests) {
        return 0;
    }
    long number = atomic_fetch_add(requests, 1) + 1;
    if (refused_at == 0 || number < refused_at || (number > refused_at && !refuses_rest)) {
        return 0;
    }
    errno = ENOMEM;
    return 1;
}

void *malloc(size_t size) {
    return is_refused() ? NULL : __libc_malloc(size);
}

void *calloc(size_t count, size_t size) {
    return is_refused() ? NULL : __libc_calloc(count, size);
}

void *realloc(void *block, size_t size) {
    return is_refused() ? NULL : __libc_realloc(block, size);
}
