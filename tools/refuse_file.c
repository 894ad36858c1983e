/* Refuses a call of a program on one of its files: a library to be preloaded, for the suites. It is no part of the
 * product. Calls of one kind, REFUSE_CALL=read, write, truncate, sync or accept, on files whose path ends in REFUSE_PATH
 * are counted from 1; the path of a socket ends in ']', and REFUSE_FAMILY=unix leaves other sockets out. REFUSE_NUMBER=N
 * refuses the Nth, N+ that one and each after it, and makes the file that REFUSE_MARK names. Refused reads and syncs fail
 * with EIO, all others with ENOSPC, or all with the number REFUSE_ERROR, and do nothing. */
#define _GNU_SOURCE
#include <dlfcn.h>
#include <errno.h>
#include <fcntl.h>
#include <stdio.h>
#include <stdlib.h>
#include <string.h>
#include <sys/socket.h>
#include <sys/types.h>
#include <sys/uio.h>
#include <unistd.h>

static const char *refused_call, *refused_path;
static long refused_number, calls;
static int refuses_later;

__attribute__((constructor)) static void begin(void) {
    const char *number = getenv("REFUSE_NUMBER");
    refused_call = getenv("REFUSE_CALL");
    refused_path = getenv("REFUSE_PATH");
    refused_number = number ? atol(number) : 0;
    refuses_later = number && strchr(number, '+') != NULL;
}

static int is_of_family(int file) {
    struct sockaddr_storage own;
    socklen_t length = sizeof own;
    if (!getenv("REFUSE_FAMILY"))
        return 1;
    return getsockname(file, (struct sockaddr *)&own, &length) == 0 && own.ss_family == AF_UNIX;
}

static int is_refused_file(int file) {
    char link[64], path[4096];
    snprintf(link, sizeof link, "/proc/self/fd/%d", file);
    ssize_t length = readlink(link, path, sizeof path - 1);
    size_t end = strlen(refused_path);
    if (length < 0 || (size_t)length < end)
        return 0;
    path[length] = '\0';
    return strcmp(path + length - end, refused_path) == 0 && is_of_family(file);
}

static int refuses(const char *call, int file) {
    if (!refused_call || !refused_path || refused_number == 0 || strcmp(call, refused_call) != 0)
        return 0;
    int before = errno;
    int is_counted = is_refused_file(file);
    errno = before;
    if (!is_counted || ++calls < refused_number || (calls > refused_number && !refuses_later))
        return 0;
    const char *mark = getenv("REFUSE_MARK");
    if (mark) {
        int made = open(mark, O_WRONLY | O_CREAT, 0600);
        if (made >= 0)
            close(made);
    }
    const char *error = getenv("REFUSE_ERROR");
    if (error)
        errno = atoi(error);
    else
        errno = strcmp(call, "read") == 0 || strcmp(call, "sync") == 0 ? EIO : ENOSPC;
    return 1;
}

/* The C library's own function of this name, of this type. */
#define NEXT(name) ((__typeof__(&name))dlsym(RTLD_NEXT, #name))

ssize_t read(int file, void *to, size_t count) {
    return refuses("read", file) ? -1 : NEXT(read)(file, to, count);
}

ssize_t readv(int file, const struct iovec *to, int count) {
    return refuses("read", file) ? -1 : NEXT(readv)(file, to, count);
}

ssize_t pread(int file, void *to, size_t count, off_t at) {
    return refuses("read", file) ? -1 : NEXT(pread)(file, to, count, at);
}

ssize_t pread64(int file, void *to, size_t count, off64_t at) {
    return refuses("read", file) ? -1 : NEXT(pread64)(file, to, count, at);
}

ssize_t write(int file, const void *from, size_t count) {
    return refuses("write", file) ? -1 : NEXT(write)(file, from, count);
}

ssize_t writev(int file, const struct iovec *from, int count) {
    return refuses("write", file) ? -1 : NEXT(writev)(file, from, count);
}

ssize_t pwrite(int file, const void *from, size_t count, off_t at) {
    return refuses("write", file) ? -1 : NEXT(pwrite)(file, from, count, at);
}

ssize_t pwrite64(int file, const void *from, size_t count, off64_t at) {
    return refuses("write", file) ? -1 : NEXT(pwrite64)(file, from, count, at);
}

int ftruncate(int file, off_t length) {
    return refuses("truncate", file) ? -1 : NEXT(ftruncate)(file, length);
}

int ftruncate64(int file, off64_t length) {
    return refuses("truncate", file) ? -1 : NEXT(ftruncate64)(file, length);
}

int fsync(int file) {
    return refuses("sync", file) ? -1 : NEXT(fsync)(file);
}

int fdatasync(int file) {
    return refuses("sync", file) ? -1 : NEXT(fdatasync)(file);
}

int accept(int socket, struct sockaddr *from, socklen_t *length) {
    return refuses("accept", socket) ? -1 : NEXT(accept)(socket, from, length);
}

int accept4(int socket, struct sockaddr *from, socklen_t *length, int flags) {
    return refuses("accept", socket) ? -1 : NEXT(accept4)(socket, from, length, flags);
}
