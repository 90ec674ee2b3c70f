/* A preloaded library that refuses one allocation of a program, the one whose number REFUSE_AT says, counted from 1. At the program's end
 * it writes to the file that REFUSE_LOG names how many were asked for. Built by checks/allocations. */
#define _GNU_SOURCE
#include <dlfcn.h>
#include <errno.h>
#include <fcntl.h>
#include <stddef.h>
#include <stdint.h>
#include <stdio.h>
#include <stdlib.h>
#include <sys/syscall.h>
#include <unistd.h>

static uint64_t asked, refused;
static int has_begun;

static void *(*real_malloc)(size_t), *(*real_calloc)(size_t, size_t), *(*real_realloc)(void *, size_t);
static void *(*real_aligned)(size_t, size_t);
static int (*real_posix)(void **, size_t, size_t);

__attribute__((constructor)) static void begin(void) {
    const char *at = getenv("REFUSE_AT");
    refused = at ? strtoull(at, NULL, 10) : 0;
    has_begun = 1;
}

static int is_refused(void) {
    return has_begun && __atomic_add_fetch(&asked, 1, __ATOMIC_RELAXED) == refused;
}

__attribute__((destructor)) static void end(void) {
    const char *log = getenv("REFUSE_LOG");
    int file = log ? open(log, O_WRONLY | O_CREAT | O_TRUNC, 0644) : -1;
    if (file >= 0) {
        dprintf(file, "%llu\n", (unsigned long long)asked);
        close(file);
    }
}

/* Programs with threads end by this, which runs no destructor. */
__attribute__((noreturn)) void _exit(int status) {
    end();
    for (;;)
        syscall(SYS_exit_group, status);
}

/* The next definition of a name, behind this one's. */
#define LOAD(real, name) do { if (!real) *(void **)&real = dlsym(RTLD_NEXT, name); } while (0)

void *malloc(size_t size) {
    if (is_refused())
        return errno = ENOMEM, NULL;
    LOAD(real_malloc, "malloc");
    return real_malloc(size);
}

void *realloc(void *old, size_t size) {
    if (is_refused())
        return errno = ENOMEM, NULL;
    LOAD(real_realloc, "realloc");
    return real_realloc(old, size);
}

/* dlsym itself may ask for zeroed memory before it has answered. */
void *calloc(size_t count, size_t size) {
    static char first[4096];
    static size_t used;
    static int is_asking;
    if (!real_calloc && is_asking) {
        void *piece = first + used;
        used += (count * size + 15) & ~(size_t)15;
        return used <= sizeof first ? piece : NULL;
    }
    is_asking = 1;
    LOAD(real_calloc, "calloc");
    is_asking = 0;
    return is_refused() ? (errno = ENOMEM, NULL) : real_calloc(count, size);
}

void *aligned_alloc(size_t align, size_t size) {
    if (is_refused())
        return errno = ENOMEM, NULL;
    LOAD(real_aligned, "aligned_alloc");
    return real_aligned(align, size);
}

int posix_memalign(void **to, size_t align, size_t size) {
    if (is_refused())
        return ENOMEM;
    LOAD(real_posix, "posix_memalign");
    return real_posix(to, align, size);
}
