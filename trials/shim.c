/* Loaded in front of the C library (LD_PRELOAD), it makes one call of a program fail, or gives the program
 * endless input:
 *   TRIALS_READ=N     the Nth read of standard input fails
 *   TRIALS_WRITE=N    the Nth write to standard output fails
 *   TRIALS_GROWTH=N   the Nth growth of memory fails
 *   TRIALS_ENDLESS=1  each read of standard input gives one octet, a blank, for ever
 * At the end it writes the counts of calls to file descriptor 9, if that is open. */
#define _GNU_SOURCE
#include <dlfcn.h>
#include <errno.h>
#include <stdio.h>
#include <stdlib.h>
#include <sys/uio.h>
#include <unistd.h>

static unsigned long reads, octets, writes, growths;

static unsigned long number(const char *name)
{
    const char *word = getenv(name);
    return word == NULL ? 0 : strtoul(word, NULL, 10);
}

static unsigned long read_at, write_at, growth_at, endless;
static ssize_t (*real_read)(int, void *, size_t);
static ssize_t (*real_write)(int, const void *, size_t);
static ssize_t (*real_writev)(int, const struct iovec *, int);
static void *(*real_malloc)(size_t);
static void *(*real_realloc)(void *, size_t);

static void *found(const char *name)
{
    return dlsym(RTLD_NEXT, name);
}

__attribute__((constructor)) static void begin(void)
{
    *(void **)&real_read = found("read");
    *(void **)&real_write = found("write");
    *(void **)&real_writev = found("writev");
    *(void **)&real_malloc = found("malloc");
    *(void **)&real_realloc = found("realloc");
    read_at = number("TRIALS_READ");
    write_at = number("TRIALS_WRITE");
    growth_at = number("TRIALS_GROWTH");
    endless = number("TRIALS_ENDLESS");
    growths = 0;
}

__attribute__((destructor)) static void end(void)
{
    char line[128];
    int length = snprintf(line, sizeof line, "%lu %lu %lu %lu\n", reads, octets, writes, growths);
    if (real_write(9, line, (size_t)length) < 0)
        return;
}

ssize_t read(int file, void *at, size_t count)
{
    if (file != 0)
        return real_read(file, at, count);
    reads += 1;
    if (reads == read_at) {
        errno = EIO;
        return -1;
    }
    if (endless) {
        *(char *)at = ' ';
        octets += count > 0;
        return count > 0;
    }
    ssize_t length = real_read(file, at, count);
    octets += length > 0 ? (unsigned long)length : 0;
    return length;
}

static int write_fails(int file)
{
    if (file != 1)
        return 0;
    writes += 1;
    if (writes == write_at)
        errno = EIO;
    return writes == write_at;
}

ssize_t write(int file, const void *at, size_t count)
{
    return write_fails(file) ? -1 : real_write(file, at, count);
}

ssize_t writev(int file, const struct iovec *pieces, int count)
{
    return write_fails(file) ? -1 : real_writev(file, pieces, count);
}

static int growth_fails(void)
{
    growths += 1;
    return growths == growth_at;
}

void *malloc(size_t size)
{
    if (real_malloc == NULL)
        *(void **)&real_malloc = found("malloc");
    return growth_fails() ? NULL : real_malloc(size);
}

void *realloc(void *at, size_t size)
{
    if (real_realloc == NULL)
        *(void **)&real_realloc = found("realloc");
    return growth_fails() ? NULL : real_realloc(at, size);
}
