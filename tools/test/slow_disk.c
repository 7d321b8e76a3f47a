// A library that is loaded in front of the C library (LD_PRELOAD), for tools/test/faults: a disk that takes its time, and a list of what was made durable
// in which order. FSYNC_MS is how many milliseconds an fsync takes, FSYNC_LOG a file that gets a line for each fsync and rename.
#define _GNU_SOURCE
#include <fcntl.h>
#include <stdlib.h>
#include <string.h>
#include <sys/stat.h>
#include <sys/syscall.h>
#include <time.h>
#include <unistd.h>

static void tell(const char *line) {
    const char *path = getenv("FSYNC_LOG");
    if (!path) return;
    int fd = open(path, O_WRONLY | O_APPEND);
    if (fd < 0) return;
    if (write(fd, line, strlen(line)) < 0) abort();
    close(fd);
}

int fsync(int fd) {
    const char *ms = getenv("FSYNC_MS");
    long n = ms ? atol(ms) : 0;
    struct timespec wait = {n / 1000, n % 1000 * 1000000};
    struct stat status;
    nanosleep(&wait, NULL);
    if (fstat(fd, &status) == 0) tell(S_ISDIR(status.st_mode) ? "folder\n" : "file\n");
    return (int)syscall(SYS_fsync, fd);
}

int rename(const char *from, const char *to) {
    tell("rename\n");
    return (int)syscall(SYS_rename, from, to);
}
