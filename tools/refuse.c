// Makes allocations fail in the process that it is preloaded into. REFUSE_AT is the number of the first
// request that fails, counted from 1 (0 or unset: none), and REFUSE_FOR how many fail in a row from it on
// (0 or unset: all). With REFUSE_WITHIN set it counts requests only after the process signals that the call
// under test begins, by a request for BEGIN bytes. A request for END bytes signals that this call is over:
// no request is counted or fails from then on. At the end it writes 'requests=N refused=M' to the file descriptor
// REFUSE_FD.
#define _GNU_SOURCE
#include <errno.h>
#include <stdio.h>
#include <stdlib.h>
#include <unistd.h>

extern void *__libc_malloc(size_t);
extern void *__libc_calloc(size_t, size_t);
extern void *__libc_realloc(void *, size_t);
extern void *__libc_memalign(size_t, size_t);

#define BEGIN 12345679
#define END 12345677

static unsigned long requests, refused, at, in_a_row;
static int descriptor = -1, counting, within;

static unsigned long number(const char *name) {
    const char *text = getenv(name);
    return text ? strtoul(text, NULL, 10) : 0;
}

__attribute__((constructor)) static void begin(void) {
    at = number("REFUSE_AT");
    in_a_row = number("REFUSE_FOR");
    if (getenv("REFUSE_FD")) descriptor = (int)number("REFUSE_FD");
    within = number("REFUSE_WITHIN") != 0;
    counting = !within;
}

static int is_refused(size_t size) {
    if (size == END) counting = within = 0;
    if (size == BEGIN && within) {
        counting = 1;
        return 0;
    }
    if (!counting) return 0;
    requests++;
    if (at == 0 || requests < at || (in_a_row != 0 && requests - at >= in_a_row)) return 0;
    refused++;
    errno = ENOMEM;
    return 1;
}

void *malloc(size_t size) {
    return is_refused(size) ? NULL : __libc_malloc(size);
}

void *calloc(size_t count, size_t size) {
    return is_refused(size) ? NULL : __libc_calloc(count, size);
}

void *realloc(void *block, size_t size) {
    return is_refused(size) ? NULL : __libc_realloc(block, size);
}

void *aligned_alloc(size_t alignment, size_t size) {
    return is_refused(size) ? NULL : __libc_memalign(alignment, size);
}

int posix_memalign(void **block, size_t alignment, size_t size) {
    if (is_refused(size)) return ENOMEM;
    *block = __libc_memalign(alignment, size);
    return *block ? 0 : ENOMEM;
}

__attribute__((destructor)) static void end(void) {
    char line[80];
    counting = 0;
    if (descriptor < 0) return;
    int length = snprintf(line, sizeof line, "requests=%lu refused=%lu\n", requests, refused);
    if (write(descriptor, line, (size_t)length) < 0) _exit(125);
}
