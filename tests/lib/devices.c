/* Devices that give and take pieces, are interrupted, or fail. Preloaded into a program, this is
 * between it and the calls of the C library by which it reads and writes, and starts others. What
 * each stream does is said by a variable of the environment: READS of standard input, WRITES of
 * standard output, TELLS of standard error, FILES of what the program opens itself, LENGTHS of each
 * cut of a file to a length, STARTS of each start of a program and each wait for one. Its words, each
 * followed by a number:
 *   piece       the most bytes that a call gives or takes
 *   interrupts  how often each call is interrupted before it is made
 *   good        how many calls are made before all that follow fail
 *   once        the same, but that one alone fails
 *   cut         the same as good, but they are interrupted
 * Of FILES each other call about a file counts, too: opening, listing, a look at it, a link that is
 * read, rights that are set, a sync (that waits for no disk), a new name and a removal. What the
 * program starts is given none of this. One that does not end is ended by a signal after a minute. */
#define _GNU_SOURCE
#include <dirent.h>
#include <dlfcn.h>
#include <errno.h>
#include <fcntl.h>
#include <spawn.h>
#include <stdarg.h>
#include <stdio.h>
#include <stdlib.h>
#include <string.h>
#include <sys/stat.h>
#include <sys/uio.h>
#include <sys/wait.h>
#include <unistd.h>

enum { INPUT, OUTPUT, FAULTS, OTHERS, LENGTHS, PROGRAMS, MANY };

struct device {
    const char *words;
    long made, interrupted;
};

static struct device devices[MANY];

/* The program's streams before `main` begins are those of the loader. */
static int begun;

__attribute__((constructor)) static void begin(void)
{
    static const char *const names[MANY] = {"READS", "WRITES", "TELLS", "FILES", "LENGTHS", "STARTS"};
    for (int i = 0; i < MANY; i++) {
        devices[i].words = getenv(names[i]);
        unsetenv(names[i]);
    }
    unsetenv("LD_PRELOAD");
    alarm(60);
    begun = 1;
}

/* The number behind a word, or -1 where the word is not there. */
static long number(const struct device *device, const char *word)
{
    const char *at = device->words ? strstr(device->words, word) : NULL;
    return at ? atol(at + strlen(word)) : -1;
}

/* Counts a call. 0: it is made. */
static int count(struct device *device)
{
    if (!begun || !device->words)
        return 0;
    if (device->interrupted < number(device, "interrupts ")) {
        device->interrupted++;
        errno = EINTR;
        return -1;
    }
    device->interrupted = 0;
    long made = device->made++;
    long good = number(device, "good "), cut = number(device, "cut ");
    if ((good >= 0 && made >= good) || made == number(device, "once ")) {
        errno = EIO;
        return -1;
    }
    if (cut >= 0 && made >= cut) {
        errno = EINTR;
        return -1;
    }
    return 0;
}

static struct device *of(int fd)
{
    return &devices[fd >= 0 && fd < 3 ? fd : OTHERS];
}

static size_t piece(const struct device *device, size_t bytes)
{
    long most = begun ? number(device, "piece ") : -1;
    return most >= 0 && (size_t)most < bytes ? (size_t)most : bytes;
}

/* The call of the C library of this name. */
#define NEXT(name)                    \
    static __typeof__(&name) next;    \
    if (!next)                        \
        next = (__typeof__(&name))dlsym(RTLD_NEXT, #name)

ssize_t read(int fd, void *to, size_t bytes)
{
    NEXT(read);
    return count(of(fd)) ? -1 : next(fd, to, piece(of(fd), bytes));
}

ssize_t write(int fd, const void *from, size_t bytes)
{
    NEXT(write);
    return count(of(fd)) ? -1 : next(fd, from, piece(of(fd), bytes));
}

/* The room that is reserved in a file is one call for each block. */
ssize_t pwrite(int fd, const void *from, size_t bytes, off_t place)
{
    NEXT(pwrite);
    size_t part = bytes > 0 && *(const char *)from == ' ' ? bytes : piece(of(fd), bytes);
    return count(of(fd)) ? -1 : next(fd, from, part, place);
}

/* One part of several is enough. */
ssize_t writev(int fd, const struct iovec *parts, int many)
{
    for (int i = 0; i < many; i++)
        if (parts[i].iov_len > 0)
            return write(fd, parts[i].iov_base, parts[i].iov_len);
    return write(fd, "", 0);
}

/* The rights of a file that is made. */
#define MODE(mode, flags)                                               \
    va_list rest;                                                       \
    va_start(rest, flags);                                              \
    mode_t mode = flags & (O_CREAT | O_TMPFILE) ? va_arg(rest, mode_t) : 0; \
    va_end(rest)

int open(const char *path, int flags, ...)
{
    NEXT(open);
    MODE(mode, flags);
    return count(&devices[OTHERS]) ? -1 : next(path, flags, mode);
}

int openat(int folder, const char *path, int flags, ...)
{
    NEXT(openat);
    MODE(mode, flags);
    return count(&devices[OTHERS]) ? -1 : next(folder, path, flags, mode);
}

ssize_t getdents64(int fd, void *to, size_t bytes)
{
    NEXT(getdents64);
    return count(of(fd)) ? -1 : next(fd, to, bytes);
}

int statx(int folder, const char *path, int flags, unsigned mask, struct statx *to)
{
    NEXT(statx);
    return count(&devices[OTHERS]) ? -1 : next(folder, path, flags, mask, to);
}

ssize_t readlink(const char *path, char *to, size_t bytes)
{
    NEXT(readlink);
    return count(&devices[OTHERS]) ? -1 : next(path, to, bytes);
}

int fchmod(int fd, mode_t mode)
{
    NEXT(fchmod);
    return count(of(fd)) ? -1 : next(fd, mode);
}

int fsync(int fd)
{
    return count(of(fd)) ? -1 : 0;
}

int ftruncate(int fd, off_t length)
{
    NEXT(ftruncate);
    return count(&devices[LENGTHS]) ? -1 : next(fd, length);
}

int rename(const char *from, const char *to)
{
    NEXT(rename);
    return count(&devices[OTHERS]) ? -1 : next(from, to);
}

int unlink(const char *path)
{
    NEXT(unlink);
    return count(&devices[OTHERS]) ? -1 : next(path);
}

int posix_spawn(pid_t *to, const char *path, const posix_spawn_file_actions_t *files,
                const posix_spawnattr_t *how, char *const words[], char *const environment[])
{
    NEXT(posix_spawn);
    if (count(&devices[PROGRAMS]))
        return errno;
    return next(to, path, files, how, words, environment);
}

pid_t waitpid(pid_t child, int *status, int how)
{
    NEXT(waitpid);
    return count(&devices[PROGRAMS]) ? -1 : next(child, status, how);
}
