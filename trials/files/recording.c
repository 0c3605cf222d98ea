/* Records what the program that it is loaded into does to its files, stops it, and fails its syncs.

   RECORD names the file that gets each write, cut and sync, and each write to standard output, in their order: a line
   of text and then the bytes. `w d AT LENGTH` is a write to the database, `w l AT LENGTH` one to its log, `c` is a cut
   to a length, `s` a sync, `e` a sync that failed, and `o LENGTH` an output. What is no plain file counts as neither.
   STOP_AT is the number of such a call, from 1, before which the program is killed.
   FAIL_SYNC is the number of the sync, from 1, that fails and syncs nothing. */
#define _GNU_SOURCE
#include <errno.h>
#include <fcntl.h>
#include <signal.h>
#include <stdio.h>
#include <stdlib.h>
#include <string.h>
#include <sys/stat.h>
#include <sys/syscall.h>
#include <unistd.h>

static long record = -1, calls, syncs, stop_at, fail_sync;

static long number_of(const char *name)
{
    const char *text = getenv(name);
    return text ? atol(text) : 0;
}

__attribute__((constructor)) static void start(void)
{
    const char *name = getenv("RECORD");
    if (name)
        record = syscall(SYS_openat, AT_FDCWD, name, O_WRONLY | O_CREAT | O_TRUNC | O_APPEND, 0600);
    stop_at = number_of("STOP_AT");
    fail_sync = number_of("FAIL_SYNC");
}

/* 'l' for a log, 'd' for another plain file, and 0 for all else. */
static char kind_of(int file)
{
    struct stat found;
    char link[64], path[4096];
    if (fstat(file, &found) != 0 || !S_ISREG(found.st_mode))
        return 0;
    snprintf(link, sizeof link, "/proc/self/fd/%d", file);
    long length = readlink(link, path, sizeof path);
    return length > 4 && memcmp(path + length - 4, "-wal", 4) == 0 ? 'l' : 'd';
}

static void put(const void *bytes, size_t length)
{
    const char *from = bytes;
    while (record >= 0 && length > 0) {
        long done = syscall(SYS_write, record, from, length);
        if (done <= 0)
            abort();
        from += done;
        length -= (size_t)done;
    }
}

static void note(const char *line)
{
    put(line, strlen(line));
}

static void count(void)
{
    if (++calls == stop_at)
        kill(getpid(), SIGKILL);
}

static ssize_t write_at(int file, const void *bytes, size_t length, off_t at)
{
    char line[80], kind = kind_of(file);
    if (kind)
        count();
    ssize_t done = syscall(SYS_pwrite64, file, bytes, length, at);
    if (kind && done > 0) {
        snprintf(line, sizeof line, "w %c %ld %ld\n", kind, (long)at, (long)done);
        note(line);
        put(bytes, (size_t)done);
    }
    return done;
}

static int cut(int file, off_t length)
{
    char line[80], kind = kind_of(file);
    if (kind)
        count();
    int done = (int)syscall(SYS_ftruncate, file, length);
    if (kind && done == 0) {
        snprintf(line, sizeof line, "c %c %ld\n", kind, (long)length);
        note(line);
    }
    return done;
}

static int sync_by(long call, int file)
{
    char line[80], kind = kind_of(file);
    if (!kind)
        return (int)syscall(call, file);
    count();
    if (++syncs == fail_sync) {
        snprintf(line, sizeof line, "e %c\n", kind);
        note(line);
        errno = EIO;
        return -1;
    }
    int done = (int)syscall(call, file);
    if (done == 0) {
        snprintf(line, sizeof line, "s %c\n", kind);
        note(line);
    }
    return done;
}

ssize_t write(int file, const void *bytes, size_t length)
{
    char line[80];
    if (file == STDOUT_FILENO)
        count();
    ssize_t done = syscall(SYS_write, file, bytes, length);
    if (file == STDOUT_FILENO && done > 0) {
        snprintf(line, sizeof line, "o %ld\n", (long)done);
        note(line);
        put(bytes, (size_t)done);
    }
    return done;
}

ssize_t pwrite(int file, const void *bytes, size_t length, off_t at)
{
    return write_at(file, bytes, length, at);
}

ssize_t pwrite64(int file, const void *bytes, size_t length, off_t at)
{
    return write_at(file, bytes, length, at);
}

int ftruncate(int file, off_t length)
{
    return cut(file, length);
}

int ftruncate64(int file, off_t length)
{
    return cut(file, length);
}

int fdatasync(int file)
{
    return sync_by(SYS_fdatasync, file);
}

int fsync(int file)
{
    return sync_by(SYS_fsync, file);
}
