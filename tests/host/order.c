/* Stands in the place of the calls with which a host writes its state (ld --wrap). They have to come in this order: write, fsync of the
 * same file, rename, fsync of the folder; and no datagram is sent before all of that is done. Otherwise the host is aborted.
 * FAILING names one of them that fails, as on a disk that is full or broken. */
#define _GNU_SOURCE
#include <errno.h>
#include <stdio.h>
#include <stdlib.h>
#include <string.h>
#include <sys/socket.h>
#include <sys/stat.h>
#include <unistd.h>

ssize_t __real_write(int file, const void *bytes, size_t count);
int __real_fsync(int file);
int __real_rename(const char *from, const char *to);
ssize_t __real_sendto(int sock, const void *bytes, size_t count, int flags, const struct sockaddr *to, socklen_t size);
ssize_t __wrap_write(int file, const void *bytes, size_t count);
int __wrap_fsync(int file);
int __wrap_rename(const char *from, const char *to);
ssize_t __wrap_sendto(int sock, const void *bytes, size_t count, int flags, const struct sockaddr *to, socklen_t size);

static enum { DONE, WRITTEN, SYNCED, RENAMED } stage;
static int written;

static void wants(int held, const char *what) {
    if (held) return;
    fprintf(stderr, "out of order: %s\n", what);
    abort();
}

static int fails(const char *call, int why) {
    const char *named = getenv("FAILING");
    errno = why;
    return named != NULL && strcmp(named, call) == 0;
}

/* One that fails writes all but the last byte. */
ssize_t __wrap_write(int file, const void *bytes, size_t count) {
    wants(stage == DONE, "write");
    stage = WRITTEN, written = file;
    return __real_write(file, bytes, count - (size_t)fails("write", 0));
}

int __wrap_fsync(int file) {
    struct stat found;
    wants((stage == WRITTEN && file == written) || (stage == RENAMED && fstat(file, &found) == 0 && S_ISDIR(found.st_mode)), "fsync");
    if (fails("fsync", EIO)) return -1;
    stage = stage == WRITTEN ? SYNCED : DONE;
    return __real_fsync(file);
}

int __wrap_rename(const char *from, const char *to) {
    wants(stage == SYNCED, "rename");
    if (fails("rename", EACCES)) return -1;
    stage = RENAMED;
    return __real_rename(from, to);
}

ssize_t __wrap_sendto(int sock, const void *bytes, size_t count, int flags, const struct sockaddr *to, socklen_t size) {
    wants(stage == DONE, "sendto");
    return __real_sendto(sock, bytes, count, flags, to, size);
}
