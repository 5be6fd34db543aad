/* Loaded before the C library, this refuses one growth of memory of a program, or fails or shortens one of its reads or writes.
   REFUSE says what and the how manieth, from 1: as `growth 12`, `read 1`, `write 1`, `short-read 1`, `short-write 1`. When that
   comes, a byte goes to the descriptor NOTICE, so that whoever counts up knows when to end. Short is one byte. */
#define _GNU_SOURCE
#include <errno.h>
#include <stdatomic.h>
#include <stdio.h>
#include <stdlib.h>
#include <string.h>
#include <sys/syscall.h>
#include <unistd.h>

extern void *__libc_malloc(size_t size);
extern void *__libc_calloc(size_t count, size_t size);
extern void *__libc_realloc(void *old, size_t size);

static char what[16];
static long number;
static int notice;
static atomic_long growths, reads, writes;

__attribute__((constructor)) static void begin(void) {
    const char *wanted = getenv("REFUSE"), *descriptor = getenv("NOTICE");
    if (wanted == NULL || descriptor == NULL || sscanf(wanted, "%15s %ld", what, &number) != 2)
        number = 0;
    else
        notice = atoi(descriptor);
}

static int comes(const char *kind, long count) {
    if (number == 0 || count != number || strcmp(kind, what) != 0)
        return 0;
    return syscall(SYS_write, notice, kind, 1) == 1;
}

static int is_refused(void) {
    if (number == 0 || !comes("growth", atomic_fetch_add(&growths, 1) + 1))
        return 0;
    errno = ENOMEM;
    return 1;
}

void *malloc(size_t size) { return is_refused() ? NULL : __libc_malloc(size); }
void *calloc(size_t count, size_t size) { return is_refused() ? NULL : __libc_calloc(count, size); }
void *realloc(void *old, size_t size) { return is_refused() ? NULL : __libc_realloc(old, size); }

static ssize_t call(long which, const char *fails, const char *is_short, long count, int descriptor, const void *bytes, size_t size) {
    if (comes(fails, count)) {
        errno = EIO;
        return -1;
    }
    return syscall(which, descriptor, bytes, size > 1 && comes(is_short, count) ? 1 : size);
}

ssize_t read(int descriptor, void *bytes, size_t size) {
    long count = descriptor == 0 ? atomic_fetch_add(&reads, 1) + 1 : 0;
    return call(SYS_read, "read", "short-read", count, descriptor, bytes, size);
}

ssize_t write(int descriptor, const void *bytes, size_t size) {
    long count = descriptor == 1 ? atomic_fetch_add(&writes, 1) + 1 : 0;
    return call(SYS_write, "write", "short-write", count, descriptor, bytes, size);
}

ssize_t __write(int descriptor, const void *bytes, size_t size) { return write(descriptor, bytes, size); }
