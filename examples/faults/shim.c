/*
 * Stands before the C library's calls and makes one of them fail, as the environment variable FAULT says:
 *
 *   short_reads       a read gives 7 bytes at most, a pread 5
 *   read_error        the second read fails with EIO
 *   file_cut          the file that is read is cut to 100 bytes after the first read of it, which gives 50
 *   file_grown        a byte is added to the file that is read, after its first read
 *   short_writes      a write takes 3 bytes at most
 *   disk_full         the second write to a descriptor above 2 fails with ENOSPC
 *   copy_cut          the copy is cut to 10 bytes before it is read at an offset
 *   pread_error       a pread fails with EIO
 *   close_error       closing standard output fails with EIO, and so does an fsync before that
 *   unlink_error      taking the copy's name away fails with EACCES
 */
#define _GNU_SOURCE
#include <dlfcn.h>
#include <errno.h>
#include <stdio.h>
#include <stdlib.h>
#include <string.h>
#include <sys/types.h>
#include <unistd.h>

static int is(const char *fault)
{
    const char *given = getenv("FAULT");
    return given != NULL && strcmp(given, fault) == 0;
}
static int fails(int error)
{
    errno = error;
    return -1;
}
static size_t least(size_t a, size_t b)
{
    return a < b ? a : b;
}
/* The file that a descriptor reads, opened for writing. */
static void change(int fd, int cut)
{
    char path[64];
    snprintf(path, sizeof path, "/proc/self/fd/%d", fd);
    FILE *file = fopen(path, cut ? "r+" : "a");
    if (file == NULL)
        abort();
    if (cut ? ftruncate(fileno(file), 100) != 0 : fputc('\n', file) == EOF)
        abort();
    fclose(file);
}

ssize_t read(int fd, void *to, size_t n)
{
    static ssize_t (*real)(int, void *, size_t);
    static int reads;
    if (real == NULL)
        *(void **)&real = dlsym(RTLD_NEXT, "read");
    reads++;
    if (is("read_error") && reads == 2)
        return fails(EIO);
    if (is("short_reads"))
        n = least(n, 7);
    if (is("file_cut"))
        n = least(n, 50);
    ssize_t got = real(fd, to, n);
    if (reads == 1 && (is("file_cut") || is("file_grown")))
        change(fd, is("file_cut"));
    return got;
}

ssize_t pread(int fd, void *to, size_t n, off_t offset)
{
    static ssize_t (*real)(int, void *, size_t, off_t);
    if (real == NULL)
        *(void **)&real = dlsym(RTLD_NEXT, "pread");
    if (is("pread_error"))
        return fails(EIO);
    if (is("copy_cut") && ftruncate(fd, 10) != 0)
        abort();
    if (is("short_reads"))
        n = least(n, 5);
    return real(fd, to, n, offset);
}

ssize_t write(int fd, const void *from, size_t n)
{
    static ssize_t (*real)(int, const void *, size_t);
    static int writes;
    if (real == NULL)
        *(void **)&real = dlsym(RTLD_NEXT, "write");
    if (is("disk_full") && fd > 2 && ++writes == 2)
        return fails(ENOSPC);
    return real(fd, from, is("short_writes") ? least(n, 3) : n);
}

int close(int fd)
{
    static int (*real)(int);
    if (real == NULL)
        *(void **)&real = dlsym(RTLD_NEXT, "close");
    if (is("close_error") && fd == 1)
        return fails(EIO);
    return real(fd);
}

int fsync(int fd)
{
    static int (*real)(int);
    if (real == NULL)
        *(void **)&real = dlsym(RTLD_NEXT, "fsync");
    if (is("close_error"))
        return fails(EIO);
    return real(fd);
}

int unlink(const char *path)
{
    static int (*real)(const char *);
    if (real == NULL)
        *(void **)&real = dlsym(RTLD_NEXT, "unlink");
    if (is("unlink_error"))
        return fails(EACCES);
    return real(path);
}
