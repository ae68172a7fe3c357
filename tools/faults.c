// Makes reads of standard input and writes of standard output fail in the process that it is preloaded into. FAULT_READ
// and FAULT_WRITE are the number of the call that fails, counted from 1 (0 or unset: none). Others read at most 7 bytes
// and write at most 5. At the end it writes 'faults=N' to the file descriptor FAULT_FD.
#define _GNU_SOURCE
#include <errno.h>
#include <stdio.h>
#include <stdlib.h>
#include <sys/syscall.h>
#include <unistd.h>

static unsigned long reads, writes, read_at, write_at, faults;
static int descriptor = -1;

static unsigned long number(const char *name) {
    const char *text = getenv(name);
    return text ? strtoul(text, NULL, 10) : 0;
}

__attribute__((constructor)) static void begin(void) {
    read_at = number("FAULT_READ");
    write_at = number("FAULT_WRITE");
    if (getenv("FAULT_FD")) descriptor = (int)number("FAULT_FD");
}

static int fails(unsigned long *calls, unsigned long at) {
    if (++*calls != at) return 0;
    faults++;
    errno = EIO;
    return 1;
}

ssize_t read(int file, void *bytes, size_t count) {
    if (file == 0 && fails(&reads, read_at)) return -1;
    return syscall(SYS_read, file, bytes, file == 0 && count > 7 ? 7 : count);
}

ssize_t write(int file, const void *bytes, size_t count) {
    if (file == 1 && fails(&writes, write_at)) return -1;
    return syscall(SYS_write, file, bytes, file == 1 && count > 5 ? 5 : count);
}

ssize_t __write(int file, const void *bytes, size_t count) {
    return write(file, bytes, count);
}

__attribute__((destructor)) static void end(void) {
    char line[40];
    if (descriptor < 0) return;
    int length = snprintf(line, sizeof line, "faults=%lu\n", faults);
    if (syscall(SYS_write, descriptor, line, (size_t)length) < 0) _exit(125);
}
