/* To be preloaded. With EXCHANGE="N" the draft that a run has made beside a file is exchanged for a link to the file TARGET, before the Nth call
   on a file after its making; "exchanged KIND" is said then on standard error, with the kind of that call. After the draft has got
   the name of its file nothing is exchanged. With KILL="N" the run is killed before its Nth call on a file. */
#define _GNU_SOURCE
#include <fcntl.h>
#include <signal.h>
#include <stdarg.h>
#include <stdio.h>
#include <stdlib.h>
#include <string.h>
#include <sys/file.h>
#include <sys/stat.h>
#include <sys/syscall.h>
#include <unistd.h>

static char draft[4096];

static void meet(const char *kind) {
    static long calls, all;
    const char *exchange = getenv("EXCHANGE"), *target = getenv("TARGET"), *killed = getenv("KILL");
    char said[64];
    if (killed && ++all == atol(killed))
        kill(getpid(), SIGKILL);
    if (!draft[0] || !exchange || !target || ++calls != atol(exchange))
        return;
    syscall(SYS_unlinkat, AT_FDCWD, draft, 0);
    syscall(SYS_symlinkat, target, AT_FDCWD, draft);
    int size = snprintf(said, sizeof said, "exchanged %s\n", kind);
    syscall(SYS_write, 2, said, size);
}

int open(const char *path, int flags, ...) {
    va_list rest;
    va_start(rest, flags);
    mode_t mode = flags & O_CREAT ? va_arg(rest, mode_t) : 0;
    va_end(rest);
    meet("open");
    int fd = syscall(SYS_openat, AT_FDCWD, path, flags, mode);
    if (fd >= 0 && flags & O_EXCL && strstr(path, ".edv-"))
        snprintf(draft, sizeof draft, "%s", path);
    return fd;
}

int statx(int fd, const char *restrict path, int flags, unsigned wanted, struct statx *restrict status) {
    meet("stat");
    return syscall(SYS_statx, fd, path, flags, wanted, status);
}

int flock(int fd, int how) {
    meet("flock");
    return syscall(SYS_flock, fd, how);
}

ssize_t read(int fd, void *room, size_t size) {
    meet("read");
    return syscall(SYS_read, fd, room, size);
}

ssize_t pread(int fd, void *room, size_t size, off_t place) {
    meet("read");
    return syscall(SYS_pread64, fd, room, size, place);
}

ssize_t write(int fd, const void *piece, size_t size) {
    meet("write");
    return syscall(SYS_write, fd, piece, size);
}

ssize_t pwrite(int fd, const void *piece, size_t size, off_t place) {
    meet("write");
    return syscall(SYS_pwrite64, fd, piece, size, place);
}

int ftruncate(int fd, off_t size) {
    meet("ftruncate");
    return syscall(SYS_ftruncate, fd, size);
}

int fsync(int fd) {
    meet("fsync");
    return syscall(SYS_fsync, fd);
}

int fchmod(int fd, mode_t mode) {
    meet("fchmod");
    return syscall(SYS_fchmod, fd, mode);
}

int fchown(int fd, uid_t owner, gid_t group) {
    meet("fchown");
    return syscall(SYS_fchown, fd, owner, group);
}

int link(const char *from, const char *to) {
    meet("link");
    int status = syscall(SYS_linkat, AT_FDCWD, from, AT_FDCWD, to, 0);
    if (status == 0 && strcmp(from, draft) == 0)
        draft[0] = 0;
    return status;
}

int rename(const char *from, const char *to) {
    meet("rename");
    int status = syscall(SYS_renameat, AT_FDCWD, from, AT_FDCWD, to);
    if (status == 0 && strcmp(from, draft) == 0)
        draft[0] = 0;
    return status;
}

int unlink(const char *path) {
    meet("unlink");
    return syscall(SYS_unlinkat, AT_FDCWD, path, 0);
}

int close(int fd) {
    meet("close");
    return syscall(SYS_close, fd);
}
