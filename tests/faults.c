// Preloaded before the C library. It notes a program's calls to the system, and lets one of them fail.
//
// FAULT        the call that fails: memory, read, write, open, fcntl or statx; FAULT_AT counts these calls from 1
// FAULT_ROW    how many of these calls fail in a row; 1 where it is not set
// FAULT_AS     the error with which it fails, as errno has it; with 0 a read or a write gives or takes nothing
// FAULT_PIECE  the most bytes that a read gives and a write takes; all that are asked for where it is not set
// FAULT_CALLS  a file to which a line is added for each read and write, and for the call that failed:
//              its name, the file's number, and how many bytes it gave or took, or -1
#define _GNU_SOURCE
#include <errno.h>
#include <fcntl.h>
#include <stdarg.h>
#include <stddef.h>
#include <stdio.h>
#include <stdlib.h>
#include <string.h>
#include <sys/stat.h>
#include <sys/syscall.h>
#include <unistd.h>

void *__libc_malloc(size_t size);
void *__libc_calloc(size_t count, size_t size);
void *__libc_realloc(void *room, size_t size);

static unsigned long number_in(const char *name, unsigned long otherwise) {
    const char *text = getenv(name);
    return text == NULL ? otherwise : strtoul(text, NULL, 10);
}

// Whether the call of this name that is made now is one that fails. `made` counts these calls.
static int is_due(const char *name, unsigned long *made) {
    const char *fault = getenv("FAULT");
    ++*made;
    unsigned long first = number_in("FAULT_AT", 0);
    return fault != NULL && strcmp(fault, name) == 0 && *made >= first && *made - first < number_in("FAULT_ROW", 1);
}

static void note(const char *name, int file, long result) {
    const char *path = getenv("FAULT_CALLS");
    int before = errno;
    char line[64];
    if (path != NULL) {
        int calls = (int)syscall(SYS_openat, AT_FDCWD, path, O_WRONLY | O_CREAT | O_APPEND, 0600);
        syscall(SYS_write, calls, line, snprintf(line, sizeof line, "%s %d %ld\n", name, file, result));
        syscall(SYS_close, calls);
    }
    errno = before;
}

// What the call that fails gives.
static long failure(const char *name, int file) {
    int error = (int)number_in("FAULT_AS", EIO);
    long result = error == 0 ? 0 : -1;
    note(name, file, result);
    errno = error;
    return result;
}

static unsigned long requests;

static int is_refused(void) {
    if (!is_due("memory", &requests)) {
        return 0;
    }
    note("memory", -1, -1);
    errno = ENOMEM;
    return 1;
}

void *malloc(size_t size) {
    return is_refused() ? NULL : __libc_malloc(size);
}

void *calloc(size_t count, size_t size) {
    return is_refused() ? NULL : __libc_calloc(count, size);
}

void *realloc(void *room, size_t size) {
    return is_refused() ? NULL : __libc_realloc(room, size);
}

static size_t piece_of(size_t size) {
    size_t most = number_in("FAULT_PIECE", size);
    return size < most ? size : most;
}

ssize_t read(int file, void *bytes, size_t size) {
    static unsigned long made;
    if (is_due("read", &made)) {
        return failure("read", file);
    }
    ssize_t given = syscall(SYS_read, file, bytes, piece_of(size));
    note("read", file, given);
    return given;
}

ssize_t write(int file, const void *bytes, size_t size) {
    static unsigned long made;
    if (is_due("write", &made)) {
        return failure("write", file);
    }
    ssize_t taken = syscall(SYS_write, file, bytes, piece_of(size));
    note("write", file, taken);
    return taken;
}

ssize_t __write(int file, const void *bytes, size_t size) {
    return write(file, bytes, size);
}

int open(const char *path, int flags, ...) {
    static unsigned long made;
    va_list rest;
    va_start(rest, flags);
    int mode = va_arg(rest, int);
    va_end(rest);
    return is_due("open", &made) ? (int)failure("open", -1) : (int)syscall(SYS_openat, AT_FDCWD, path, flags, mode);
}

int fcntl(int file, int command, ...) {
    static unsigned long made;
    va_list rest;
    va_start(rest, command);
    long value = va_arg(rest, long);
    va_end(rest);
    return is_due("fcntl", &made) ? (int)failure("fcntl", file) : (int)syscall(SYS_fcntl, file, command, value);
}

int statx(int folder, const char *restrict path, int flags, unsigned int mask, struct statx *restrict told) {
    static unsigned long made;
    return is_due("statx", &made) ? (int)failure("statx", -1) : (int)syscall(SYS_statx, folder, path, flags, mask, told);
}
