// Stands between a program and the C library (LD_PRELOAD) and refuses calls, or hinders them.
//
// REFUSES names the kind: allocation (malloc and realloc find no memory), thread (none is started), read or write (an
// input or output error). REFUSED is the call's number from 1, counted over all threads, and NOTICE the descriptor on
// which a byte is written when it is refused: `!`, or before any thread was asked for `0`. With an s at its end, as in
// `reads`, each later call is refused too.
//
// Where REFUSES is `hindrance`, no read and no write fails, but some are interrupted or would block, and the others
// take 1 to 9 bytes. REFUSED is the seed by which they are chosen.
#define _GNU_SOURCE
#include <dlfcn.h>
#include <errno.h>
#include <pthread.h>
#include <stdatomic.h>
#include <stdint.h>
#include <stdlib.h>
#include <string.h>
#include <sys/syscall.h>
#include <unistd.h>

// How many of so many hindered calls are interrupted, and how many would block.
enum { CHOICES = 10, INTERRUPTED = 3, BLOCKED = 1, MOST_BYTES = 9 };

extern void *__libc_malloc(size_t size);
extern void *__libc_realloc(void *old, size_t size);

static atomic_long calls, threads;

static int is_refused(const char *kind) {
    const char *refuses = getenv("REFUSES");
    size_t length = strlen(kind);
    if (!refuses || strncmp(refuses, kind, length) != 0) return 0;
    long late = ++calls - atol(getenv("REFUSED"));
    if (late == 0) syscall(SYS_write, atoi(getenv("NOTICE")), threads ? "!" : "0", 1);
    return late == 0 || (late > 0 && refuses[length] == 's');
}

void *malloc(size_t size) {
    return is_refused("allocation") ? NULL : __libc_malloc(size);
}

void *realloc(void *old, size_t size) {
    return is_refused("allocation") ? NULL : __libc_realloc(old, size);
}

static ssize_t failed(int why) {
    errno = why;
    return -1;
}

// A number that looks random, of another one (splitmix64).
static uint64_t mixed(uint64_t number) {
    number = (number ^ (number >> 30)) * 0xbf58476d1ce4e5b9;
    number = (number ^ (number >> 27)) * 0x94d049bb133111eb;
    return number ^ (number >> 31);
}

// How many of the bytes that it asks for a call is left, or -1 where it fails for now.
static ssize_t left_of(size_t size) {
    const char *refuses = getenv("REFUSES");
    if (!refuses || strcmp(refuses, "hindrance") != 0) return size;
    uint64_t chance = mixed(((uint64_t)atol(getenv("REFUSED")) << 32) + ++calls);
    uint64_t choice = chance % CHOICES;
    if (choice < INTERRUPTED) return failed(EINTR);
    if (choice < INTERRUPTED + BLOCKED) return failed(EAGAIN);
    size_t few = 1 + chance / CHOICES % MOST_BYTES;
    return size < few ? size : few;
}

ssize_t read(int from, void *room, size_t size) {
    if (is_refused("read")) return failed(EIO);
    ssize_t few = left_of(size);
    return few < 0 ? few : syscall(SYS_read, from, room, few);
}

ssize_t write(int to, const void *bytes, size_t size) {
    if (to != 1) return syscall(SYS_write, to, bytes, size);
    if (is_refused("write")) return failed(EIO);
    ssize_t few = left_of(size);
    return few < 0 ? few : syscall(SYS_write, to, bytes, few);
}

int pthread_create(pthread_t *thread, const pthread_attr_t *how, void *(*start)(void *), void *given) {
    int (*create)(pthread_t *, const pthread_attr_t *, void *(*)(void *), void *) = dlsym(RTLD_NEXT, "pthread_create");
    threads++;
    return is_refused("thread") ? EAGAIN : create(thread, how, start, given);
}
