/* Refuses requests for memory, in a program that it is loaded before (LD_PRELOAD).
 *
 * REFUSE_AT=N   refuses the Nth request of each call, and REFUSE_REST=1 also those after it in the same call
 * REFUSE_ALL=1  makes one call of the whole run
 *
 * A call begins where the program writes to its standard output what ends with `>`, and ends where it writes what ends with `<`. After
 * each call, and at the end of the run where that is the call, two numbers are written to standard error: the call's requests, and
 * how many of them were refused. */
#define _GNU_SOURCE
#include <dlfcn.h>
#include <errno.h>
#include <stdio.h>
#include <stdlib.h>
#include <string.h>
#include <unistd.h>

static unsigned long refused_at, requests, refusals;
static int rest, whole, ready, in_call;
static void *(*real_malloc)(size_t), *(*real_calloc)(size_t, size_t), *(*real_realloc)(void *, size_t);
static void *(*real_aligned_alloc)(size_t, size_t);
static int (*real_posix_memalign)(void **, size_t, size_t);
static ssize_t (*real_write)(int, const void *, size_t);

/* What the linker itself asks for, before the real functions are known. */
static char first[65536];
static size_t first_used;

static unsigned long number(const char *name) {
    const char *text = getenv(name);
    return text ? strtoul(text, 0, 10) : 0;
}

static void start(void) {
    if (ready) return;
    ready = 1;
    real_malloc = dlsym(RTLD_NEXT, "malloc");
    real_calloc = dlsym(RTLD_NEXT, "calloc");
    real_realloc = dlsym(RTLD_NEXT, "realloc");
    real_aligned_alloc = dlsym(RTLD_NEXT, "aligned_alloc");
    real_posix_memalign = dlsym(RTLD_NEXT, "posix_memalign");
    real_write = dlsym(RTLD_NEXT, "write");
    refused_at = number("REFUSE_AT");
    rest = number("REFUSE_REST") != 0;
    whole = number("REFUSE_ALL") != 0;
    in_call = whole;
}

static void *take_first(size_t size) {
    void *taken = first + first_used;
    first_used += (size + 15) & ~(size_t)15;
    return first_used > sizeof first ? 0 : taken;
}

/* Whether this request is to be refused. */
static int is_refused(void) {
    start();
    if (!in_call) return 0;
    requests++;
    if (!refused_at || (requests != refused_at && !(rest && requests > refused_at))) return 0;
    refusals++;
    errno = ENOMEM;
    return 1;
}

void *malloc(size_t size) {
    if (is_refused()) return 0;
    return real_malloc ? real_malloc(size) : take_first(size);
}

void *calloc(size_t count, size_t size) {
    if (is_refused()) return 0;
    return real_calloc ? real_calloc(count, size) : take_first(count * size);
}

void *realloc(void *block, size_t size) {
    if (is_refused()) return 0;
    return real_realloc ? real_realloc(block, size) : 0;
}

void *aligned_alloc(size_t alignment, size_t size) {
    if (is_refused()) return 0;
    return real_aligned_alloc(alignment, size);
}

int posix_memalign(void **block, size_t alignment, size_t size) {
    if (is_refused()) return ENOMEM;
    return real_posix_memalign(block, alignment, size);
}

static void tell(void) {
    char line[64];
    int length = snprintf(line, sizeof line, "%lu %lu\n", requests, refusals);
    if (real_write(2, line, (size_t)length) < 0) _exit(125);
}

ssize_t write(int file, const void *bytes, size_t length) {
    start();
    char last = file == 1 && length > 0 && !whole ? ((const char *)bytes)[length - 1] : 0;
    if (last == '<' && in_call) {
        in_call = 0;
        tell();
    }
    ssize_t written = real_write(file, bytes, length);
    if (last == '>') {
        in_call = 1;
        requests = refusals = 0;
    }
    return written;
}

__attribute__((destructor)) static void finish(void) {
    if (whole) {
        in_call = 0;
        tell();
    }
}
