/* Refuses allocations, reads or writes of a program, for tests/hostile.py and tests/torture.py.

   Loaded before the C library by LD_PRELOAD. REFUSE_MALLOC=N, REFUSE_READ=N or REFUSE_WRITE=N has the Nth call of
   that kind fail: of malloc and realloc, of read from standard input, of write to standard output. N,M,.. in the order
   of the calls refuses some. The file REFUSE_REPORT holds four numbers of 64 bits, which are kept up to date: the
   calls of each kind, and the refusals. */
#define _GNU_SOURCE
#include <errno.h>
#include <fcntl.h>
#include <stdint.h>
#include <stdlib.h>
#include <sys/mman.h>
#include <sys/syscall.h>
#include <unistd.h>

extern void *__libc_malloc(size_t);
extern void *__libc_realloc(void *, size_t);

enum { MALLOC, READ, WRITE, REFUSED };

static uint64_t unreported[4], *counts = unreported, refuse[3];
static const char *later[3]; /* the numbers after that, each behind a comma */

static void next_number(int kind)
{
    char *end = NULL;
    refuse[kind] = later[kind] ? strtoull(later[kind], &end, 10) : 0;
    later[kind] = end && *end == ',' ? end + 1 : NULL;
}

__attribute__((constructor)) static void begin(void)
{
    const char *report = getenv("REFUSE_REPORT");
    int file = report ? open(report, O_RDWR) : -1;
    if (file >= 0) {
        void *shared = mmap(NULL, sizeof unreported, PROT_READ | PROT_WRITE, MAP_SHARED, file, 0);
        if (shared != MAP_FAILED) {
            counts = shared;
        }
        close(file);
    }
    counts[MALLOC] = counts[READ] = counts[WRITE] = counts[REFUSED] = 0;
    later[MALLOC] = getenv("REFUSE_MALLOC");
    later[READ] = getenv("REFUSE_READ");
    later[WRITE] = getenv("REFUSE_WRITE");
    for (int kind = MALLOC; kind <= WRITE; kind++) {
        next_number(kind);
    }
}

static int is_refused(int kind, int error)
{
    if (++counts[kind] != refuse[kind]) {
        return 0;
    }
    counts[REFUSED]++;
    next_number(kind);
    errno = error;
    return 1;
}

void *malloc(size_t size)
{
    return is_refused(MALLOC, ENOMEM) ? NULL : __libc_malloc(size);
}

void *realloc(void *old, size_t size)
{
    return is_refused(MALLOC, ENOMEM) ? NULL : __libc_realloc(old, size);
}

ssize_t read(int file, void *to, size_t size)
{
    return file == 0 && is_refused(READ, EIO) ? -1 : syscall(SYS_read, file, to, size);
}

ssize_t write(int file, const void *from, size_t size)
{
    return file == 1 && is_refused(WRITE, EIO) ? -1 : syscall(SYS_write, file, from, size);
}

ssize_t __write(int file, const void *from, size_t size)
{
    return write(file, from, size);
}
