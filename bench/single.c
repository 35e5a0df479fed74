// Stands between a program and the C library (LD_PRELOAD) and holds each read to one byte.
#define _GNU_SOURCE
#include <sys/syscall.h>
#include <unistd.h>

ssize_t read(int from, void *room, size_t size) {
    return syscall(SYS_read, from, room, size ? 1 : 0);
}
