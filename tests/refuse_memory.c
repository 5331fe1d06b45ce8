/* A library to load before a program (LD_PRELOAD): it refuses the Nth request for memory, where the environment
   variable REFUSE is N, and writes the number of requests at the end to the file that COUNT names. */
#define _GNU_SOURCE
#include <dlfcn.h>
#include <errno.h>
#include <fcntl.h>
#include <stdatomic.h>
#include <stdio.h>
#include <stdlib.h>
#include <unistd.h>

static atomic_long requests;
static long refused;

__attribute__((constructor)) static void begin(void) {
    const char *which = getenv("REFUSE");
    refused = which ? atol(which) : 0;
    atomic_store(&requests, 0);
}

__attribute__((destructor)) static void end(void) {
    char line[32];
    const char *name = getenv("COUNT");
    if (!name) return;
    int length = snprintf(line, sizeof line, "%ld\n", atomic_load(&requests));
    int file = open(name, O_WRONLY | O_CREAT | O_TRUNC, 0600);
    if (file < 0) return;
    if (write(file, line, (size_t)length) < 0) { /* the count is then missing, which the caller tells */ }
    close(file);
}

static int is_refused(void) {
    if (atomic_fetch_add(&requests, 1) + 1 != refused) return 0;
    errno = ENOMEM;
    return 1;
}

void *__libc_malloc(size_t);
void *__libc_calloc(size_t, size_t);
void *__libc_realloc(void *, size_t);
void *__libc_memalign(size_t, size_t);

void *malloc(size_t size) { return is_refused() ? NULL : __libc_malloc(size); }

void *calloc(size_t count, size_t size) { return is_refused() ? NULL : __libc_calloc(count, size); }

void *realloc(void *old, size_t size) { return is_refused() ? NULL : __libc_realloc(old, size); }

void *aligned_alloc(size_t alignment, size_t size) { return is_refused() ? NULL : __libc_memalign(alignment, size); }

int posix_memalign(void **into, size_t alignment, size_t size) {
    if (is_refused()) return ENOMEM;
    *into = __libc_memalign(alignment, size);
    return *into ? 0 : ENOMEM;
}
