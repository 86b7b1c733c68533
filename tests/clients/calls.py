"""The calls by which a program reaches its spool, and those that give its replies, in their order: a small C library,
loaded before the C library, writes them into a file."""

import os
import re
import subprocess
from collections import namedtuple
from pathlib import Path

from harness import build_library

LIBRARY = r"""
#define _GNU_SOURCE
#include <dlfcn.h>
#include <fcntl.h>
#include <limits.h>
#include <stdarg.h>
#include <stdio.h>
#include <stdlib.h>
#include <string.h>
#include <sys/socket.h>
#include <sys/stat.h>
#include <sys/syscall.h>
#include <sys/uio.h>
#include <unistd.h>

#define REAL(type, name, ...) \
    static type (*real)(__VA_ARGS__); \
    if (!real) real = dlsym(RTLD_NEXT, name)

static int told = -1, spool = -1, folder = -1;

__attribute__((constructor)) static void begin(void) {
    const char *path = getenv("CALLS");
    if (path) told = syscall(SYS_openat, AT_FDCWD, path, O_WRONLY | O_CREAT | O_APPEND | O_CLOEXEC, 0600);
}

static void tell(char kind, long long at, const void *data, size_t size) {
    char line[64];
    if (told < 0) return;
    int count = snprintf(line, sizeof line, "%c %lld %zu\n", kind, at, size);
    if (syscall(SYS_write, told, line, count) != count) _exit(99);
    while (size) {
        long done = syscall(SYS_write, told, data, size);
        if (done <= 0) _exit(99);
        data = (const char *)data + done;
        size -= done;
    }
}

static int opened(const char *path, int fd) {
    char above[PATH_MAX];
    const char *wanted = getenv("SPOOL"), *link = getenv("LINK");
    if (fd < 0 || !wanted) return fd;
    snprintf(above, sizeof above, "%s", wanted);
    char *slash = strrchr(above, '/');
    if (slash) *slash = 0;
    if (!strcmp(path, wanted) || (link && !strcmp(path, link))) spool = fd;
    if (!strcmp(path, above)) folder = fd;
    return fd;
}

static int opens(const char *name, int at, const char *path, int flags, mode_t mode) {
    REAL(int, name, int, const char *, int, mode_t);
    return opened(path, real(at, path, flags, mode));
}

#define MODE va_list more; va_start(more, flags); mode_t mode = flags & O_CREAT ? va_arg(more, int) : 0; va_end(more)

int openat(int at, const char *path, int flags, ...) { MODE; return opens("openat", at, path, flags, mode); }
int openat64(int at, const char *path, int flags, ...) { MODE; return opens("openat", at, path, flags, mode); }
int open(const char *path, int flags, ...) { MODE; return opens("openat", AT_FDCWD, path, flags, mode); }
int open64(const char *path, int flags, ...) { MODE; return opens("openat", AT_FDCWD, path, flags, mode); }

int close(int fd) {
    REAL(int, "close", int);
    if (fd == spool) spool = -1;
    if (fd == folder) folder = -1;
    return real(fd);
}

static int gives(int fd) {
    struct stat it;
    return fd == 1 || (fd > 2 && fd != spool && !fstat(fd, &it) && S_ISSOCK(it.st_mode));
}

static ssize_t wrote(const void *data, off_t at, ssize_t done) {
    if (done > 0) tell('w', at, data, done);
    return done;
}

ssize_t pread(int fd, void *data, size_t size, off_t at) {
    REAL(ssize_t, "pread", int, void *, size_t, off_t);
    ssize_t done = real(fd, data, size, at);
    if (fd == spool && done > 0) tell('g', at, data, done);
    return done;
}

ssize_t pread64(int fd, void *data, size_t size, off64_t at) { return pread(fd, data, size, at); }

ssize_t pwrite(int fd, const void *data, size_t size, off_t at) {
    REAL(ssize_t, "pwrite", int, const void *, size_t, off_t);
    ssize_t done = real(fd, data, size, at);
    return fd == spool ? wrote(data, at, done) : done;
}

ssize_t pwrite64(int fd, const void *data, size_t size, off64_t at) { return pwrite(fd, data, size, at); }

ssize_t write(int fd, const void *data, size_t size) {
    REAL(ssize_t, "write", int, const void *, size_t);
    if (fd == spool) return wrote(data, lseek(fd, 0, SEEK_CUR), real(fd, data, size));
    if (gives(fd)) tell('r', 0, data, size);
    return real(fd, data, size);
}

static void gives_parts(int fd, const struct iovec *parts, size_t count) {
    if (gives(fd)) for (size_t k = 0; k < count; k++) tell('r', 0, parts[k].iov_base, parts[k].iov_len);
}

ssize_t writev(int fd, const struct iovec *parts, int count) {
    REAL(ssize_t, "writev", int, const struct iovec *, int);
    gives_parts(fd, parts, count);
    return real(fd, parts, count);
}

ssize_t send(int fd, const void *data, size_t size, int flags) {
    REAL(ssize_t, "send", int, const void *, size_t, int);
    if (gives(fd)) tell('r', 0, data, size);
    return real(fd, data, size, flags);
}

ssize_t sendto(int fd, const void *data, size_t size, int flags, const struct sockaddr *to, socklen_t long_) {
    REAL(ssize_t, "sendto", int, const void *, size_t, int, const struct sockaddr *, socklen_t);
    if (gives(fd)) tell('r', 0, data, size);
    return real(fd, data, size, flags, to, long_);
}

ssize_t sendmsg(int fd, const struct msghdr *message, int flags) {
    REAL(ssize_t, "sendmsg", int, const struct msghdr *, int);
    gives_parts(fd, message->msg_iov, message->msg_iovlen);
    return real(fd, message, flags);
}

static int synced(char kind, int fd, int done) {
    if (!done && fd == spool) tell(kind, 0, "", 0);
    if (!done && fd == folder) tell('f', 0, "", 0);
    return done;
}

int fsync(int fd) {
    REAL(int, "fsync", int);
    return synced('s', fd, real(fd));
}

int fdatasync(int fd) {
    REAL(int, "fdatasync", int);
    return synced('d', fd, real(fd));
}

int ftruncate(int fd, off_t size) {
    REAL(int, "ftruncate", int, off_t);
    int done = real(fd, size);
    if (!done && fd == spool) tell('l', size, "", 0);
    return done;
}

int ftruncate64(int fd, off64_t size) { return ftruncate(fd, size); }
"""

# A call: w, bytes written to the spool at a place; g, bytes that a read gave at a place; s, the spool synced (d, its
# data alone); f, its folder synced; l, its length set to `at`; r, bytes given to a client or to standard output.
Call = namedtuple("Call", "kind at data")
ACKNOWLEDGED = re.compile(rb"HTTP/1\.1 20[14] ")


class Log:
    """Where the calls of a program over one spool are logged."""

    def __init__(self, folder, spool):
        self.library = Path(folder, "calls.so")
        if not self.library.exists():
            build_library(folder, "calls", LIBRARY)
        self.spool, self.path = Path(spool), Path(folder, "calls")

    def env(self):
        """The environment that a program is logged by. What was logged before is gone."""
        self.path.write_bytes(b"")
        return dict(os.environ, LD_PRELOAD=str(self.library), SPOOL=str(self.spool), CALLS=str(self.path))

    def run(self, program, *words, given=b""):
        """A program run to its end over the spool, and its calls."""
        words = [program, words[0], str(self.spool), *map(str, words[1:])]
        ran = subprocess.run(words, input=given, capture_output=True, env=self.env(), timeout=120)
        return ran, self.calls()

    def script(self, program, lines):
        return self.run(program, "script", given="".join(f"{line}\n" for line in lines).encode())

    def calls(self):
        """The calls that were logged."""
        data, at, found = self.path.read_bytes(), 0, []
        while at < len(data):
            end = data.index(b"\n", at)
            kind, place, size = data[at:end].decode().split(" ")
            at = end + 1 + int(size)
            found.append(Call(kind, int(place), data[end + 1 : at]))
        return found


def acknowledged(call):
    """How many changes a call acknowledges."""
    return len(ACKNOWLEDGED.findall(call.data)) if call.kind == "r" else 0
