/* Memory and threads that are refused. Preloaded into a program, this is between it and the calls of
 * the C library by which it grows and by which it starts threads. Growths are counted from 1, from
 * where `main` begins, those that the C library makes for the program among them, and so are the
 * starts of threads. Variables of the environment say which of them are refused:
 *   GROWTH   this one
 *   GROWTHS  this one and all that follow
 *   THREAD   this start of a thread
 *   ARMED    how many reads of standard input come before the first growth that is counted
 *   MARKED   not 0: both are counted anew behind each write to standard output that ends in ": ", up to
 *            the next write there, and else not
 *   COUNTS   a file, to which both counts are written where the program ends, as two numbers; of a marked
 *            program a line for each part that is counted
 * What the program starts is given none of this. A program that does not end is ended by a signal
 * after a minute. Nothing waits for a disk: a sync is told as done. */
#define _GNU_SOURCE
#include <dlfcn.h>
#include <errno.h>
#include <fcntl.h>
#include <pthread.h>
#include <stdatomic.h>
#include <stdio.h>
#include <stdlib.h>
#include <string.h>
#include <sys/syscall.h>
#include <unistd.h>

/* The allocator of the C library, by its own names: looking others up may take memory. */
extern void *__libc_malloc(size_t);
extern void *__libc_calloc(size_t, size_t);
extern void *__libc_realloc(void *, size_t);
extern void *__libc_memalign(size_t, size_t);

/* What is refused, 0 for nothing; and how many there were, once it is counted. */
static long growth, growths, thread;
static atomic_long grown, started;
static const char *counts;
/* How many reads are still to come; below 0 before `main`. */
static long reads = -1;
/* Whether growths are counted by parts of the output, and whether this is one. */
static long marked;
static atomic_int within;

static long number(const char *name)
{
    const char *text = getenv(name);
    unsetenv(name);
    return text ? atol(text) : 0;
}

__attribute__((constructor)) static void begin(void)
{
    growth = number("GROWTH");
    growths = number("GROWTHS");
    thread = number("THREAD");
    counts = getenv("COUNTS");
    unsetenv("COUNTS");
    unsetenv("LD_PRELOAD");
    alarm(60);
    marked = number("MARKED");
    reads = number("ARMED");
}

/* Writes both counts. */
static void tell(void)
{
    char text[64];
    if (!counts)
        return;
    int length = snprintf(text, sizeof text, "%ld %ld\n", grown, started);
    int fd = open(counts, O_WRONLY | O_CREAT | (marked ? O_APPEND : O_TRUNC), 0666);
    if (fd < 0 || write(fd, text, length) != length)
        syscall(SYS_exit_group, 99);
    close(fd);
}

/* The program ends by this call. */
void _exit(int status)
{
    if (!marked)
        tell();
    for (;;)
        syscall(SYS_exit_group, status);
}

/* Counts a growth. 0: it is made. */
static int refused(void)
{
    if (marked ? !within : reads != 0)
        return 0;
    long place = ++grown;
    if (place != growth && (growths == 0 || place < growths))
        return 0;
    errno = ENOMEM;
    return 1;
}

void *malloc(size_t bytes)
{
    return refused() ? NULL : __libc_malloc(bytes);
}

void *calloc(size_t many, size_t bytes)
{
    return refused() ? NULL : __libc_calloc(many, bytes);
}

void *realloc(void *from, size_t bytes)
{
    return refused() ? NULL : __libc_realloc(from, bytes);
}

void *memalign(size_t boundary, size_t bytes)
{
    return refused() ? NULL : __libc_memalign(boundary, bytes);
}

void *aligned_alloc(size_t boundary, size_t bytes)
{
    return memalign(boundary, bytes);
}

int posix_memalign(void **to, size_t boundary, size_t bytes)
{
    void *made = memalign(boundary, bytes);
    if (!made)
        return ENOMEM;
    *to = made;
    return 0;
}

int pthread_create(pthread_t *to, const pthread_attr_t *how, void *(*what)(void *), void *of)
{
    static __typeof__(&pthread_create) next;
    if (!next)
        next = (__typeof__(&pthread_create))dlsym(RTLD_NEXT, "pthread_create");
    if (++started == thread && (!marked || within))
        return EAGAIN;
    return next(to, how, what, of);
}

ssize_t write(int fd, const void *from, size_t bytes)
{
    static __typeof__(&write) next;
    if (!next)
        next = (__typeof__(&write))dlsym(RTLD_NEXT, "write");
    if (marked && fd == 1) {
        if (within)
            tell();
        within = bytes >= 2 && memcmp((const char *)from + bytes - 2, ": ", 2) == 0;
        grown = started = 0;
    }
    return next(fd, from, bytes);
}

ssize_t read(int fd, void *to, size_t bytes)
{
    static __typeof__(&read) next;
    if (!next)
        next = (__typeof__(&read))dlsym(RTLD_NEXT, "read");
    if (fd == 0 && reads > 0)
        reads--;
    return next(fd, to, bytes);
}

int fsync(int fd)
{
    (void)fd;
    return 0;
}
