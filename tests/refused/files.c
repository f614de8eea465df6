/* To be preloaded. With REFUSE="KIND N" the Nth call of that kind, counted from 1, fails: open, stat, flock, read, write, ftruncate, fsync,
   fchmod, fchown, link, rename, unlink or close. "refused KIND WHERE PLACE" is said then on standard error: WHERE is `input`, `output`, or the number of the opened
   file, counted from 1 with those that couldn't be opened; PLACE is how many bytes lie before the place in it, which is that of the call, or
   where the last write ended. With UNCUT set each ftruncate fails too, and nothing is said of it. With BYTES="KIND.." each read, write or both
   take one byte at most. Calls on standard error are never refused. */
#define _GNU_SOURCE
#include <errno.h>
#include <fcntl.h>
#include <stdarg.h>
#include <stdio.h>
#include <stdlib.h>
#include <string.h>
#include <sys/file.h>
#include <sys/stat.h>
#include <sys/syscall.h>
#include <unistd.h>

static long opened;
static long numbers[1024];
static long places[1024];

/* The number is that of a file that isn't open yet, or 0 for what a descriptor stands for. */
static void say_refused(const char *kind, int fd, long number) {
    char where[32], said[96];
    if (!number && fd >= 0 && fd < 1024)
        number = numbers[fd];
    if (fd == 0 || fd == 1)
        snprintf(where, sizeof where, "%s", fd == 0 ? "input" : "output");
    else
        snprintf(where, sizeof where, "%ld", number);
    long place = fd < 0 ? 0 : lseek(fd, 0, SEEK_CUR);
    if (fd >= 0 && fd < 1024 && places[fd] > place)
        place = places[fd];
    int size = snprintf(said, sizeof said, "refused %s %s %ld\n", kind, where, place);
    syscall(SYS_write, 2, said, size);
}

static int is_refused(const char *kind, int fd, long number, int error) {
    static long seen;
    const char *refuse = getenv("REFUSE");
    size_t size = strlen(kind);
    if (fd == 2 || !refuse || strncmp(refuse, kind, size) != 0 || refuse[size] != ' ')
        return 0;
    if (++seen != atol(refuse + size))
        return 0;
    say_refused(kind, fd, number);
    errno = error;
    return 1;
}

static size_t taken_at_once(const char *kind, size_t size) {
    const char *bytes = getenv("BYTES");
    return bytes && strstr(bytes, kind) && size > 1 ? 1 : size;
}

int open(const char *path, int flags, ...) {
    va_list rest;
    va_start(rest, flags);
    mode_t mode = flags & O_CREAT ? va_arg(rest, mode_t) : 0;
    va_end(rest);
    opened++;
    if (is_refused("open", -1, opened, EACCES))
        return -1;
    int fd = syscall(SYS_openat, AT_FDCWD, path, flags, mode);
    if (fd >= 0 && fd < 1024)
        numbers[fd] = opened, places[fd] = 0;
    return fd;
}

int statx(int fd, const char *restrict path, int flags, unsigned wanted, struct statx *restrict status) {
    if (is_refused("stat", fd, 0, EIO))
        return -1;
    return syscall(SYS_statx, fd, path, flags, wanted, status);
}

int flock(int fd, int how) {
    return is_refused("flock", fd, 0, ENOLCK) ? -1 : syscall(SYS_flock, fd, how);
}

ssize_t read(int fd, void *room, size_t size) {
    if (is_refused("read", fd, 0, EIO))
        return -1;
    return syscall(SYS_read, fd, room, taken_at_once("read", size));
}

ssize_t pread(int fd, void *room, size_t size, off_t place) {
    if (is_refused("read", fd, 0, EIO))
        return -1;
    return syscall(SYS_pread64, fd, room, taken_at_once("read", size), place);
}

ssize_t write(int fd, const void *piece, size_t size) {
    if (is_refused("write", fd, 0, ENOSPC))
        return -1;
    return syscall(SYS_write, fd, piece, taken_at_once("write", size));
}

ssize_t pwrite(int fd, const void *piece, size_t size, off_t place) {
    if (fd >= 0 && fd < 1024)
        places[fd] = place;
    if (is_refused("write", fd, 0, ENOSPC))
        return -1;
    ssize_t taken = syscall(SYS_pwrite64, fd, piece, taken_at_once("write", size), place);
    if (fd >= 0 && fd < 1024 && taken > 0)
        places[fd] = place + taken;
    return taken;
}

int ftruncate(int fd, off_t size) {
    if (getenv("UNCUT")) {
        errno = EIO;
        return -1;
    }
    return is_refused("ftruncate", fd, 0, EIO) ? -1 : syscall(SYS_ftruncate, fd, size);
}

/* Nothing is really synced: that takes long and shows nothing here. */
int fsync(int fd) {
    return is_refused("fsync", fd, 0, EIO) ? -1 : 0;
}

int fchmod(int fd, mode_t mode) {
    return is_refused("fchmod", fd, 0, EIO) ? -1 : syscall(SYS_fchmod, fd, mode);
}

int fchown(int fd, uid_t owner, gid_t group) {
    return is_refused("fchown", fd, 0, EPERM) ? -1 : syscall(SYS_fchown, fd, owner, group);
}

int link(const char *from, const char *to) {
    return is_refused("link", -1, 0, EPERM) ? -1 : syscall(SYS_linkat, AT_FDCWD, from, AT_FDCWD, to, 0);
}

int rename(const char *from, const char *to) {
    return is_refused("rename", -1, 0, EIO) ? -1 : syscall(SYS_renameat, AT_FDCWD, from, AT_FDCWD, to);
}

int unlink(const char *path) {
    return is_refused("unlink", -1, 0, EIO) ? -1 : syscall(SYS_unlinkat, AT_FDCWD, path, 0);
}

/* A file is closed even where that is answered by an error. */
int close(int fd) {
    int refused = is_refused("close", fd, 0, EIO);
    int status = syscall(SYS_close, fd);
    if (!refused)
        return status;
    errno = EIO;
    return -1;
}
