// Preloaded before the C library. It interrupts a process at its calls to the system, as Ctrl-C does.
//
// interrupts_begin(at)  counts the places at which a signal may come in this thread: before and after each call below. At
//                       the place `at`, counted from 1, comes SIGINT. Before a call it ends that call, which then has done
//                       nothing.
// interrupts_end()      stops counting, and returns how many places there were.
#define _GNU_SOURCE
#include <dlfcn.h>
#include <errno.h>
#include <fcntl.h>
#include <poll.h>
#include <signal.h>
#include <stdarg.h>
#include <stdio.h>
#include <sys/file.h>
#include <unistd.h>

static __thread int is_counting;
static __thread long places, due;

void interrupts_begin(long at) {
    places = 0;
    due = at;
    is_counting = 1;
}

long interrupts_end(void) {
    is_counting = 0;
    return places;
}

static int is_interrupted(void) {
    int error = errno;
    int is_due = is_counting && ++places == due;
    if (is_due) {
        raise(SIGINT);
    }
    errno = error;
    return is_due;
}

// Such a call ends with EINTR if the signal comes before it has done anything.
#define INTERRUPTED(type, name, parameters, words)                              \
    type name parameters {                                                      \
        type (*real) parameters = (type (*) parameters)dlsym(RTLD_NEXT, #name); \
        if (is_interrupted()) {                                                 \
            errno = EINTR;                                                      \
            return -1;                                                          \
        }                                                                       \
        type result = real words;                                               \
        is_interrupted();                                                       \
        return result;                                                          \
    }

// Such a call is never interrupted: the signal is heeded after it.
#define WHOLE(name, parameters, words)                                        \
    int name parameters {                                                     \
        int (*real) parameters = (int (*) parameters)dlsym(RTLD_NEXT, #name); \
        int result = real words;                                              \
        is_interrupted();                                                     \
        return result;                                                        \
    }

INTERRUPTED(ssize_t, read, (int file, void *bytes, size_t size), (file, bytes, size))
INTERRUPTED(ssize_t, write, (int file, const void *bytes, size_t size), (file, bytes, size))
INTERRUPTED(int, fdatasync, (int file), (file))
INTERRUPTED(int, fsync, (int file), (file))
INTERRUPTED(int, ftruncate, (int file, off_t size), (file, size))
INTERRUPTED(int, ftruncate64, (int file, off64_t size), (file, size))
INTERRUPTED(int, flock, (int file, int how), (file, how))
INTERRUPTED(int, poll, (struct pollfd * files, nfds_t count, int time), (files, count, time))
WHOLE(rename, (const char *from, const char *to), (from, to))
WHOLE(unlink, (const char *path), (path))

int open64(const char *path, int flags, ...) {
    int (*real)(const char *, int, ...) = (int (*)(const char *, int, ...))dlsym(RTLD_NEXT, "open64");
    va_list rest;
    va_start(rest, flags);
    int mode = va_arg(rest, int);
    va_end(rest);
    if (is_interrupted()) {
        errno = EINTR;
        return -1;
    }
    int result = real(path, flags, mode);
    is_interrupted();
    return result;
}
