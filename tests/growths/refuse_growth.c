/* Preloaded, it refuses the Nth growth of memory that the program asks for, N being the environment variable REFUSE,
   and makes a file of the name in the environment variable TOLD once it has done so. */
#define _GNU_SOURCE
#include <dlfcn.h>
#include <errno.h>
#include <fcntl.h>
#include <stdlib.h>
#include <unistd.h>

static unsigned long asked;
static unsigned long refused;

static void tell(void) {
    const char *name = getenv("TOLD");
    if (name)
        close(open(name, O_CREAT | O_WRONLY, 0600));
}

static int is_refused(void) {
    if (refused == 0) {
        const char *text = getenv("REFUSE");
        refused = text ? strtoul(text, NULL, 10) : (unsigned long)-1;
    }
    asked += 1;
    if (asked != refused)
        return 0;
    tell();
    errno = ENOMEM;
    return 1;
}

void *malloc(size_t size) {
    static void *(*next)(size_t);
    if (!next)
        next = dlsym(RTLD_NEXT, "malloc");
    return is_refused() ? NULL : next(size);
}

void *realloc(void *old, size_t size) {
    static void *(*next)(void *, size_t);
    if (!next)
        next = dlsym(RTLD_NEXT, "realloc");
    return is_refused() ? NULL : next(old, size);
}

void *calloc(size_t count, size_t size) {
    static void *(*next)(size_t, size_t);
    if (!next)
        next = dlsym(RTLD_NEXT, "calloc");
    return is_refused() ? NULL : next(count, size);
}

void *aligned_alloc(size_t alignment, size_t size) {
    static void *(*next)(size_t, size_t);
    if (!next)
        next = dlsym(RTLD_NEXT, "aligned_alloc");
    return is_refused() ? NULL : next(alignment, size);
}

int posix_memalign(void **place, size_t alignment, size_t size) {
    static int (*next)(void **, size_t, size_t);
    if (!next)
        next = dlsym(RTLD_NEXT, "posix_memalign");
    return is_refused() ? ENOMEM : next(place, alignment, size);
}
