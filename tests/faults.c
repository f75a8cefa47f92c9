/* Loaded before a program, this makes some of its calls of the system fail, or move fewer bytes than they
   could, and keeps a log. It is built and used by faults.py, which tells it by the environment:

   FAULT_CALL    which calls are counted: r (reads), e (reads that find the end), w (writes to standard
                 output), m (writes to standard error), a (requests for memory)
   FAULT_FIRST   the number of the first call that fails, counted from 1; 0: none
   FAULT_LAST    the number of the last call that fails
   FAULT_ERROR   the error of a call that fails; 0: it answers 0 as if it moved nothing
   FAULT_PIECE   the most bytes that a read or a write moves; 0: as many as it can
   FAULT_LOG     the descriptor that gets a letter for each call: o for opening a file, and r, w and m; R, E, W,
                 M and A for one that failed by this */
#define _GNU_SOURCE
#include <dlfcn.h>
#include <errno.h>
#include <fcntl.h>
#include <stdarg.h>
#include <stdlib.h>
#include <sys/syscall.h>
#include <unistd.h>

static char kind;
static long first, last, count;
static int error, log_to = -1;
static size_t piece;

static long number(const char *name)
{
    const char *text = getenv(name);
    return text ? atol(text) : 0;
}

__attribute__((constructor)) static void begin(void)
{
    const char *call = getenv("FAULT_CALL");
    first = number("FAULT_FIRST");
    last = number("FAULT_LAST");
    error = number("FAULT_ERROR");
    piece = number("FAULT_PIECE");
    log_to = getenv("FAULT_LOG") ? number("FAULT_LOG") : -1;
    count = 0;
    kind = call ? *call : 0;
}

static void note(char letter)
{
    if (log_to >= 0 && syscall(SYS_write, log_to, &letter, 1L) != 1)
        _exit(99);
}

/* Counts a call of this kind, and says whether it has to fail. */
static int fails(char call)
{
    if (call != kind)
        return 0;
    count++;
    if (count < first || count > last || first == 0)
        return 0;
    note(call - 'a' + 'A');
    errno = error;
    return 1;
}

static size_t most(size_t size)
{
    return piece && piece < size ? piece : size;
}

static ssize_t failed(void)
{
    return error ? -1 : 0;
}

ssize_t read(int from, void *bytes, size_t size)
{
    if (fails('r'))
        return failed();
    ssize_t moved = syscall(SYS_read, from, bytes, most(size));
    if (moved == 0 && size > 0 && fails('e'))
        return failed();
    note('r');
    return moved;
}

ssize_t write(int to, const void *bytes, size_t size)
{
    char call = to == 1 ? 'w' : 'm';
    if (fails(call))
        return failed();
    note(call);
    return syscall(SYS_write, to, bytes, most(size));
}

ssize_t __write(int to, const void *bytes, size_t size)
{
    return write(to, bytes, size);
}

int open(const char *name, int flags, ...)
{
    va_list rest;
    va_start(rest, flags);
    mode_t mode = flags & O_CREAT ? va_arg(rest, mode_t) : 0;
    va_end(rest);
    note('o');
    return syscall(SYS_openat, AT_FDCWD, name, flags, mode);
}

static int is_refused(void)
{
    if (!fails('a'))
        return 0;
    errno = ENOMEM;
    return 1;
}

void *malloc(size_t size)
{
    static void *(*next)(size_t);
    if (!next)
        next = dlsym(RTLD_NEXT, "malloc");
    return is_refused() ? NULL : next(size);
}

void *realloc(void *old, size_t size)
{
    static void *(*next)(void *, size_t);
    if (!next)
        next = dlsym(RTLD_NEXT, "realloc");
    return is_refused() ? NULL : next(old, size);
}

void *calloc(size_t number_of, size_t size)
{
    static void *(*next)(size_t, size_t);
    if (!next)
        next = dlsym(RTLD_NEXT, "calloc");
    return is_refused() ? NULL : next(number_of, size);
}

void *aligned_alloc(size_t alignment, size_t size)
{
    static void *(*next)(size_t, size_t);
    if (!next)
        next = dlsym(RTLD_NEXT, "aligned_alloc");
    return is_refused() ? NULL : next(alignment, size);
}

int posix_memalign(void **place, size_t alignment, size_t size)
{
    static int (*next)(void **, size_t, size_t);
    if (!next)
        next = dlsym(RTLD_NEXT, "posix_memalign");
    return is_refused() ? ENOMEM : next(place, alignment, size);
}
