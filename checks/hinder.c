// Stands between a program and the C library (LD_PRELOAD) and hinders its threads where they wait for each other: some
// waits on a futex end at once for no reason, with 0, EINTR or EAGAIN, as a kernel may end them, and before waits, around
// wakes and where a thread yields there are delays. Each wake is done. HINDERED is the seed by which they are chosen.
#define _GNU_SOURCE
#include <dlfcn.h>
#include <errno.h>
#include <linux/futex.h>
#include <stdarg.h>
#include <stdint.h>
#include <stdlib.h>
#include <sys/syscall.h>
#include <time.h>
#include <unistd.h>

// One of so many waits, wakes and yields is hindered, and a delay has at most so many nanoseconds.
enum { ENDED = 3, WAIT_DELAYED = 3, WAKE_DELAYED = 4, YIELD_DELAYED = 50, MOST_DELAY = 300000 };

static long (*real_syscall)(long, ...);
static int (*real_yield)(void);
static uint64_t seed;
static __thread uint64_t state;

__attribute__((constructor)) static void begin(void) {
    real_syscall = dlsym(RTLD_NEXT, "syscall");
    real_yield = dlsym(RTLD_NEXT, "sched_yield");
    seed = getenv("HINDERED") ? strtoull(getenv("HINDERED"), NULL, 10) : 1;
}

// The next random number of the thread.
static uint64_t chosen(void) {
    if (!state) state = seed * 0x9E3779B97F4A7C15u + (uint64_t)gettid() * 0xBF58476D1CE4E5B9u + 1;
    state ^= state << 13;
    state ^= state >> 7;
    return state ^= state << 17;
}

static void delay(int one_of) {
    struct timespec some = {0, (long)(chosen() % MOST_DELAY)};
    if (chosen() % one_of == 0) nanosleep(&some, NULL);
}

static long end_wait(void) {
    const int reasons[] = {0, EINTR, EAGAIN};
    int reason = reasons[chosen() % 3];
    if (reason == 0) return 0;
    errno = reason;
    return -1;
}

static long wake(const long words[6]) {
    delay(WAKE_DELAYED);
    long result = real_syscall(SYS_futex, words[0], words[1], words[2], words[3], words[4], words[5]);
    int reason = errno;
    delay(WAKE_DELAYED);
    errno = reason;
    return result;
}

long syscall(long number, ...) {
    long words[6];
    va_list given;
    va_start(given, number);
    for (int place = 0; place < 6; place++) words[place] = va_arg(given, long);
    va_end(given);
    if (number == SYS_futex) {
        int operation = (int)words[1] & FUTEX_CMD_MASK;
        if (operation != FUTEX_WAIT && operation != FUTEX_WAIT_BITSET) return wake(words);
        delay(WAIT_DELAYED);
        if (chosen() % ENDED == 0) return end_wait();
    }
    return real_syscall(number, words[0], words[1], words[2], words[3], words[4], words[5]);
}

int sched_yield(void) {
    delay(YIELD_DELAYED);
    return real_yield();
}
