/* Put before the C library by LD_PRELOAD: a disk that does what the test says, for the one file that WELMOCANT_FILE names, and for standard
 * output. A pass begins where the program goes back to the file's start. */
#define _GNU_SOURCE
#include <errno.h>
#include <fcntl.h>
#include <limits.h>
#include <stdio.h>
#include <stdlib.h>
#include <string.h>
#include <sys/syscall.h>
#include <sys/types.h>
#include <unistd.h>

static long pass = 1, calls = 0, written = 0;

static long told(const char *name, long otherwise) {
    const char *said = getenv(name);
    return said == NULL ? otherwise : atol(said);
}

static int ours(int fd) {
    char link[64], path[PATH_MAX];
    const char *file = getenv("WELMOCANT_FILE");
    snprintf(link, sizeof link, "/proc/self/fd/%d", fd);
    ssize_t len = readlink(link, path, sizeof path);
    return file != NULL && len >= 0 && (size_t)len == strlen(file) && memcmp(path, file, (size_t)len) == 0;
}

/* WELMOCANT_OTHER is the file that is served from pass WELMOCANT_OTHER_PASS on. */
static ssize_t served(int fd, void *buffer, size_t count, off_t at) {
    const char *other = getenv("WELMOCANT_OTHER");
    if (other == NULL || pass < told("WELMOCANT_OTHER_PASS", 2)) {
        return syscall(SYS_read, fd, buffer, count);
    }
    int second = open(other, O_RDONLY);
    ssize_t got = pread(second, buffer, count, at);
    close(second);
    if (got > 0) {
        syscall(SYS_lseek, fd, at + got, SEEK_SET);
    }
    return got;
}

ssize_t read(int fd, void *buffer, size_t count) {
    if (!ours(fd)) {
        return syscall(SYS_read, fd, buffer, count);
    }
    off_t at = syscall(SYS_lseek, fd, 0, SEEK_CUR);
    long fail = pass >= told("WELMOCANT_FAIL_PASS", 1) ? told("WELMOCANT_FAIL", LONG_MAX) : LONG_MAX, most = told("WELMOCANT_CUT", LONG_MAX);
    calls++;
    while (getenv("WELMOCANT_WAIT") != NULL) {
        pause();
    }
    if (getenv("WELMOCANT_INTERRUPT") != NULL && calls % 2 == 1) {
        errno = EINTR;
        return -1;
    }
    if (at >= fail) {
        errno = EIO;
        return -1;
    }
    if (most > fail - at) {
        most = fail - at;
    }
    return served(fd, buffer, count < (size_t)most ? count : (size_t)most, at);
}

off64_t lseek64(int fd, off64_t to, int whence) {
    if (whence == SEEK_SET && to == 0 && ours(fd) && syscall(SYS_lseek, fd, 0, SEEK_CUR) > 0) {
        pass++;
        if (pass >= told("WELMOCANT_STUCK_PASS", LONG_MAX)) {
            errno = EIO;
            return -1;
        }
    }
    return syscall(SYS_lseek, fd, to, whence);
}

ssize_t write(int fd, const void *buffer, size_t count) {
    if (fd == 1) {
        long most = told("WELMOCANT_WRITE_CUT", LONG_MAX), full = told("WELMOCANT_FULL", LONG_MAX);
        if (written >= full) {
            errno = ENOSPC;
            return -1;
        }
        if (most > full - written) {
            most = full - written;
        }
        count = count < (size_t)most ? count : (size_t)most;
    }
    ssize_t done = syscall(SYS_write, fd, buffer, count);
    if (fd == 1 && done > 0) {
        written += done;
    }
    return done;
}
