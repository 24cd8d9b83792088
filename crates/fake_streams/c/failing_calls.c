/* SPDX-License-Identifier: MIT OR Apache-2.0 */
// Calls of libc that fail or are cut short, for a program that is started with this library ahead of libc (LD_PRELOAD).
// tools/fail-calls builds it and says by the environment what is to happen:
//
//   FAIL=KIND:N   the Nth call of a kind fails, counted from 1
//   CUT=KIND:N    each call of a kind moves at most N bytes
//
// The kinds are `memory` (malloc and realloc), `read`, `write` and, for FAIL alone, `thread` (pthread_create).
#define _GNU_SOURCE
#include <dlfcn.h>
#include <errno.h>
#include <pthread.h>
#include <stdatomic.h>
#include <stdbool.h>
#include <stdlib.h>
#include <string.h>
#include <sys/syscall.h>
#include <unistd.h>

void *__libc_malloc(size_t size);
void *__libc_realloc(void *block, size_t size);

static atomic_ulong memory_calls, read_calls, write_calls, thread_calls;

// The number that a variable of the environment says of a kind, or 0.
static unsigned long said_of(const char *variable, const char *kind) {
    const char *said = getenv(variable);
    size_t length = strlen(kind);
    if (!said || strncmp(said, kind, length) != 0 || said[length] != ':')
        return 0;
    return strtoul(said + length + 1, NULL, 10);
}

// Whether this call of a kind is the one that fails.
static bool fails(const char *kind, atomic_ulong *calls) {
    return atomic_fetch_add(calls, 1) + 1 == said_of("FAIL", kind);
}

static size_t cut(const char *kind, size_t size) {
    unsigned long most = said_of("CUT", kind);
    return most != 0 && most < size ? most : size;
}

void *malloc(size_t size) {
    if (fails("memory", &memory_calls)) {
        errno = ENOMEM;
        return NULL;
    }
    return __libc_malloc(size);
}

void *realloc(void *block, size_t size) {
    if (fails("memory", &memory_calls)) {
        errno = ENOMEM;
        return NULL;
    }
    return __libc_realloc(block, size);
}

ssize_t read(int file, void *bytes, size_t size) {
    if (fails("read", &read_calls)) {
        errno = EIO;
        return -1;
    }
    return syscall(SYS_read, file, bytes, cut("read", size));
}

ssize_t write(int file, const void *bytes, size_t size) {
    if (fails("write", &write_calls)) {
        errno = EIO;
        return -1;
    }
    return syscall(SYS_write, file, bytes, cut("write", size));
}

ssize_t __write(int file, const void *bytes, size_t size) {
    return write(file, bytes, size);
}

int pthread_create(pthread_t *thread, const pthread_attr_t *attributes, void *(*run)(void *), void *argument) {
    int (*create)(pthread_t *, const pthread_attr_t *, void *(*)(void *), void *) =
        (int (*)(pthread_t *, const pthread_attr_t *, void *(*)(void *), void *))dlsym(RTLD_NEXT, "pthread_create");
    if (fails("thread", &thread_calls))
        return EAGAIN;
    return create(thread, attributes, run, argument);
}
