/* For tools/refuse-memory, by LD_PRELOAD: the call for memory fails whose number REFUSE says, counted from 1 over malloc and realloc of
   the whole process, and the file that REFUSED names is made when it does. */
#define _GNU_SOURCE
#include <dlfcn.h>
#include <fcntl.h>
#include <stdatomic.h>
#include <stdlib.h>
#include <unistd.h>

static atomic_ulong calls;
static unsigned long refused;
static const char *mark;
static void *(*real_malloc)(size_t);
static void *(*real_realloc)(void *, size_t);
static __thread int starting;

static void start(void) {
    if (real_malloc || starting) return;
    starting = 1;
    const char *text = getenv("REFUSE");
    refused = text ? strtoul(text, 0, 10) : 0;
    mark = getenv("REFUSED");
    real_realloc = (void *(*)(void *, size_t))dlsym(RTLD_NEXT, "realloc");
    real_malloc = (void *(*)(size_t))dlsym(RTLD_NEXT, "malloc");
    starting = 0;
}

static int is_refused(void) {
    if (atomic_fetch_add(&calls, 1) + 1 != refused) return 0;
    if (mark) close(open(mark, O_CREAT | O_WRONLY, 0600));
    return 1;
}

void *malloc(size_t size) {
    start();
    if (!real_malloc || is_refused()) return 0;
    return real_malloc(size);
}

void *realloc(void *block, size_t size) {
    start();
    if (!real_realloc || is_refused()) return 0;
    return real_realloc(block, size);
}
