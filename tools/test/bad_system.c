// A library that is loaded in front of the C library (LD_PRELOAD), for tools/test/receiver: a system that takes fewer bytes than it is given, and a
// clock that stands elsewhere. WRITE_MOST is how many bytes a write takes at most, or `half` of them; CLOCK is the second that the
// system's clock shows.
#define _GNU_SOURCE
#include <stdlib.h>
#include <string.h>
#include <sys/syscall.h>
#include <time.h>
#include <unistd.h>

ssize_t write(int fd, const void *bytes, size_t n) {
    const char *most = getenv("WRITE_MOST");
    if (most && n > 1) {
        size_t k = strcmp(most, "half") ? (size_t)atol(most) : n / 2;
        if (k < n) n = k;
    }
    return syscall(SYS_write, fd, bytes, n);
}

int clock_gettime(clockid_t id, struct timespec *now) {
    int status = (int)syscall(SYS_clock_gettime, id, now);
    const char *clock = getenv("CLOCK");
    if (clock && id == CLOCK_REALTIME && status == 0) now->tv_sec = (time_t)atoll(clock);
    return status;
}
