/* Loaded before the C library: the allocation of the number REFUSE finds no memory, which is told on standard error. */
#define _GNU_SOURCE
#include <dlfcn.h>
#include <stdlib.h>
#include <unistd.h>

static const char TOLD[] = "refused\n";
static unsigned long wanted;
static unsigned long count;
static void *(*next_malloc)(size_t);
static void *(*next_realloc)(void *, size_t);

__attribute__((constructor)) static void begin(void) {
    const char *number = getenv("REFUSE");
    wanted = number ? strtoul(number, NULL, 10) : 0;
    count = 0;
}

static int is_refused(void) {
    if (__atomic_add_fetch(&count, 1, __ATOMIC_RELAXED) != wanted)
        return 0;
    return write(2, TOLD, sizeof TOLD - 1) >= 0;
}

void *malloc(size_t size) {
    if (!next_malloc)
        next_malloc = (void *(*)(size_t))dlsym(RTLD_NEXT, "malloc");
    return is_refused() ? NULL : next_malloc(size);
}

void *realloc(void *old, size_t size) {
    if (!next_realloc)
        next_realloc = (void *(*)(void *, size_t))dlsym(RTLD_NEXT, "realloc");
    return is_refused() ? NULL : next_realloc(old, size);
}
