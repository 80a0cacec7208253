// Stands before the C library of a program that bench/failures runs, and makes one of its calls fail.
//
// FAIL_ALLOCATION=N: the Nth call that asks for memory finds none. FAIL_FILE=N: the Nth call that opens, reads or writes a
// file fails. SHORT_FILE=N: of the reads and writes of several bytes the Nth moves one. COUNTS=1: at its end the program tells
// on standard error how many calls of each of these kinds there were. Calls are counted from 1.
#define _GNU_SOURCE
#include <dlfcn.h>
#include <errno.h>
#include <stdatomic.h>
#include <stdio.h>
#include <stdlib.h>
#include <string.h>
#include <unistd.h>

extern void *__libc_malloc(size_t);
extern void *__libc_calloc(size_t, size_t);
extern void *__libc_realloc(void *, size_t);
extern void *__libc_memalign(size_t, size_t);

static atomic_long allocations, files, several;

// The number that a word of the environment has, or 0, which no call has.
static long number(const char *name) {
    const char *text = getenv(name);
    return text ? atol(text) : 0;
}

static int no_memory(void) {
    if (++allocations != number("FAIL_ALLOCATION"))
        return 0;
    errno = ENOMEM;
    return 1;
}

static int file_fails(void) {
    if (++files != number("FAIL_FILE"))
        return 0;
    errno = EIO;
    return 1;
}

// How many bytes a call moves that was asked for so many.
static size_t moved(size_t count) {
    return count > 1 && ++several == number("SHORT_FILE") ? 1 : count;
}

void *malloc(size_t size) {
    return no_memory() ? NULL : __libc_malloc(size);
}

void *calloc(size_t count, size_t size) {
    return no_memory() ? NULL : __libc_calloc(count, size);
}

void *realloc(void *old, size_t size) {
    return no_memory() ? NULL : __libc_realloc(old, size);
}

void *aligned_alloc(size_t alignment, size_t size) {
    return no_memory() ? NULL : __libc_memalign(alignment, size);
}

int posix_memalign(void **place, size_t alignment, size_t size) {
    if (no_memory())
        return ENOMEM;
    *place = __libc_memalign(alignment, size);
    return *place ? 0 : ENOMEM;
}

int open(const char *name, int flags, int mode) {
    static int (*next)(const char *, int, int);
    if (!next)
        next = dlsym(RTLD_NEXT, "open");
    // The program holds the numbers of the standard streams by this one.
    return strcmp(name, "/dev/null") && file_fails() ? -1 : next(name, flags, mode);
}

ssize_t read(int file, void *into, size_t count) {
    static ssize_t (*next)(int, void *, size_t);
    if (!next)
        next = dlsym(RTLD_NEXT, "read");
    return file_fails() ? -1 : next(file, into, moved(count));
}

static ssize_t write_on(int file, const void *from, size_t count) {
    static ssize_t (*next)(int, const void *, size_t);
    if (!next)
        next = dlsym(RTLD_NEXT, "write");
    return next(file, from, count);
}

ssize_t write(int file, const void *from, size_t count) {
    // What standard error says is for people: no run depends on it.
    if (file == STDERR_FILENO)
        return write_on(file, from, count);
    return file_fails() ? -1 : write_on(file, from, moved(count));
}

void _exit(int status) {
    if (number("COUNTS")) {
        char text[80];
        int length = snprintf(text, sizeof text, "%ld %ld %ld\n", allocations, files, several);
        write_on(STDERR_FILENO, text, length);
    }
    ((void (*)(int))dlsym(RTLD_NEXT, "_exit"))(status);
    abort();
}
