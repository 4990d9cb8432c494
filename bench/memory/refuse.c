/* Refuses one growth of memory: the one whose number, from 1, stands in REFUSE. What is asked of malloc, calloc, aligned_alloc, posix_memalign and of
   realloc for more than a block has counts as a growth. How many there were goes to the file that GROWTHS names, when the process ends. */
#define _GNU_SOURCE
#include <dlfcn.h>
#include <errno.h>
#include <malloc.h>
#include <stdio.h>
#include <stdlib.h>

static unsigned long growths, refused;
static int is_ready;

__attribute__((constructor)) static void begin(void) {
    const char *number = getenv("REFUSE");
    refused = number ? strtoul(number, NULL, 10) : 0;
    growths = 0;
    is_ready = 1;
}

__attribute__((destructor)) static void end(void) {
    const char *name = getenv("GROWTHS");
    unsigned long count = growths;
    is_ready = 0;
    FILE *file = name ? fopen(name, "w") : NULL;
    if (file) {
        fprintf(file, "%lu\n", count);
        fclose(file);
    }
}

/* Whether this growth is the one that is to be refused. */
static int is_refused(void) {
    return is_ready && ++growths == refused;
}

static void *next(const char *name) {
    return dlsym(RTLD_NEXT, name);
}

void *malloc(size_t size) {
    static void *(*plain)(size_t);
    if (!plain) plain = (void *(*)(size_t))next("malloc");
    if (is_refused()) {
        errno = ENOMEM;
        return NULL;
    }
    return plain(size);
}

void *realloc(void *block, size_t size) {
    static void *(*plain)(void *, size_t);
    if (!plain) plain = (void *(*)(void *, size_t))next("realloc");
    if ((!block || size > malloc_usable_size(block)) && is_refused()) {
        errno = ENOMEM;
        return NULL;
    }
    return plain(block, size);
}

void *aligned_alloc(size_t align, size_t size) {
    static void *(*plain)(size_t, size_t);
    if (!plain) plain = (void *(*)(size_t, size_t))next("aligned_alloc");
    if (is_refused()) {
        errno = ENOMEM;
        return NULL;
    }
    return plain(align, size);
}

int posix_memalign(void **into, size_t align, size_t size) {
    static int (*plain)(void **, size_t, size_t);
    if (!plain) plain = (int (*)(void **, size_t, size_t))next("posix_memalign");
    if (is_refused()) return ENOMEM;
    return plain(into, align, size);
}
