/* Put in front of the C library by LD_PRELOAD, it counts calls of a program, and stops it at the one
   that the variable AT names, counted from 1. The variable STOP says which calls, and how:
       memory   allocations; the one is refused
       outside  calls of the system for files; the one fails
       crash    the same calls; the program ends right before the one, and each block that was
                written since the last sync is as it was before, as it was written, or anything,
                as the numbers say that begin with the variable SEED
   At the end it writes how many there were into the file that the variable COUNT_TO names. Whatever
   STOP is, what the calls for files that change something do goes to the file that the variable
   TRACE_TO names, call by call as `struct told` and bytes, also where one fails. */
#define _GNU_SOURCE
#include <dlfcn.h>
#include <errno.h>
#include <fcntl.h>
#include <stdarg.h>
#include <stdint.h>
#include <stdio.h>
#include <stdlib.h>
#include <string.h>
#include <sys/stat.h>
#include <unistd.h>

enum { BLOCK = 4096, MOST_PENDING = 70000 };

enum stop { NONE, MEMORY, OUTSIDE, CRASH };

struct written {
    int file;
    off_t at;
    unsigned char before[BLOCK];
};

/* Of a call: its letter, the file, what it answers, the place or the flags, and how many bytes come
   behind it. */
struct told {
    int64_t letter, file, answer, place, length;
};

extern void *__libc_malloc(size_t size);
extern void *__libc_realloc(void *old, size_t size);

static enum stop stop;
static unsigned long at, count, numbers;
static struct written *pending;
static size_t pending_count;
static int trace = -1;

#define REAL(name) ((typeof(&name))dlsym(RTLD_NEXT, #name))

static unsigned long number_in(const char *name)
{
    const char *text = getenv(name);
    return text ? strtoul(text, NULL, 10) : 0;
}

static void tell(void)
{
    const char *name = getenv("COUNT_TO");
    if (!name)
        return;
    char text[24];
    int length = snprintf(text, sizeof text, "%lu", count);
    int file = REAL(open)(name, O_WRONLY | O_CREAT | O_TRUNC, 0600);
    if (file >= 0 && REAL(write)(file, text, (size_t)length) == length)
        REAL(close)(file);
}

/* Adds a call to the trace, and gives back its answer. */
static int64_t traced(char letter, int file, int64_t answer, int64_t place, const void *bytes, size_t length)
{
    int kept = errno;
    const struct told it = {letter, file, answer, place, (int64_t)length};
    if (trace >= 0)
        if (REAL(write)(trace, &it, sizeof it) != sizeof it || REAL(write)(trace, bytes, length) != (ssize_t)length)
            abort();
    errno = kept;
    return answer;
}

__attribute__((constructor)) static void begin(void)
{
    const char *text = getenv("STOP");
    const char *name = getenv("TRACE_TO");
    if (name)
        trace = REAL(open)(name, O_WRONLY | O_CREAT | O_TRUNC | O_APPEND, 0600);
    if (name && trace < 0)
        abort();
    at = number_in("AT");
    numbers = number_in("SEED") * 2654435761u + 1;
    if (text)
        stop = !strcmp(text, "memory") ? MEMORY : !strcmp(text, "outside") ? OUTSIDE : CRASH;
    if (stop == CRASH)
        pending = __libc_malloc(MOST_PENDING * sizeof *pending);
}

__attribute__((destructor)) static void end(void) { tell(); }

static unsigned next_number(void)
{
    numbers = numbers * 6364136223846793005u + 1442695040888963407u;
    return (unsigned)(numbers >> 33);
}

/* What the machine may leave of the blocks that no sync has confirmed, from the last one back to the
   first. */
static void crash(void)
{
    unsigned char junk[BLOCK];
    while (pending_count) {
        const struct written *it = &pending[--pending_count];
        unsigned choice = next_number() % 4;
        memset(junk, (int)next_number(), sizeof junk);
        if (choice >= 2)
            continue;
        if (REAL(pwrite)(it->file, choice ? it->before : junk, BLOCK, it->at) != BLOCK)
            abort();
    }
    _exit(137);
}

/* Whether the call that is made now fails. */
static int is_stopped(enum stop kind)
{
    if (stop != kind && !(kind == OUTSIDE && stop == CRASH))
        return 0;
    if (++count != at)
        return 0;
    if (stop == CRASH)
        crash();
    errno = kind == MEMORY ? ENOMEM : EIO;
    return 1;
}

void *malloc(size_t size) { return is_stopped(MEMORY) ? NULL : __libc_malloc(size); }

void *realloc(void *old, size_t size) { return is_stopped(MEMORY) ? NULL : __libc_realloc(old, size); }

int open(const char *path, int flags, ...)
{
    va_list more;
    va_start(more, flags);
    mode_t mode = flags & O_CREAT ? va_arg(more, mode_t) : 0;
    va_end(more);
    int file = is_stopped(OUTSIDE) ? -1 : REAL(open)(path, flags, mode);
    return (int)traced('o', file, file, flags, path, strlen(path));
}

ssize_t read(int file, void *into, size_t size) { return is_stopped(OUTSIDE) ? -1 : REAL(read)(file, into, size); }

ssize_t write(int file, const void *from, size_t size)
{
    ssize_t count = is_stopped(OUTSIDE) ? -1 : REAL(write)(file, from, size);
    return traced('w', file, count, 0, from, count < 0 ? 0 : (size_t)count);
}

ssize_t pread(int file, void *into, size_t size, off_t place) { return is_stopped(OUTSIDE) ? -1 : REAL(pread)(file, into, size, place); }

ssize_t pwrite(int file, const void *from, size_t size, off_t place)
{
    if (is_stopped(OUTSIDE))
        return traced('p', file, -1, place, from, size);
    if (stop == CRASH && size == BLOCK && pending_count < MOST_PENDING) {
        struct written *it = &pending[pending_count++];
        memset(it->before, 0, sizeof it->before);
        it->file = file;
        it->at = place;
        if (REAL(pread)(file, it->before, BLOCK, place) < 0)
            abort();
    }
    return traced('p', file, REAL(pwrite)(file, from, size, place), place, from, size);
}

static int synced(int file, int status)
{
    if (!status)
        pending_count = 0;
    return (int)traced('s', file, status, 0, NULL, 0);
}

int fdatasync(int file) { return synced(file, is_stopped(OUTSIDE) ? -1 : REAL(fdatasync)(file)); }

int fsync(int file) { return synced(file, is_stopped(OUTSIDE) ? -1 : REAL(fsync)(file)); }

int ftruncate(int file, off_t size)
{
    int status = is_stopped(OUTSIDE) ? -1 : REAL(ftruncate)(file, size);
    return (int)traced('t', file, status, size, NULL, 0);
}

int unlink(const char *path) { return (int)traced('u', -1, REAL(unlink)(path), 0, path, strlen(path)); }

int flock(int file, int operation) { return is_stopped(OUTSIDE) ? -1 : REAL(flock)(file, operation); }

off_t lseek(int file, off_t place, int whence) { return is_stopped(OUTSIDE) ? -1 : REAL(lseek)(file, place, whence); }
