/* Stands before the C library in a program (LD_PRELOAD) and refuses it something, as the environment says:

     REFUSE=growth | thread        what is refused
     REFUSE_FROM=N                 the Nth request for it
     REFUSE_ON=1                   and each one after that
     REFUSE_TOLD=FILE              this file is made when the first one is refused

     WRITES=report | file          which writes are meant: those to the standard output, or those to files
     WRITES_MOST=N                 no call takes more bytes
     WRITES_ROOM=N                 so many bytes are taken in all; then a write fails, as on a full disk
     WRITES_EMPTY=1                then it takes no byte instead

   The functions of the GNU C library with names in __libc_ do the work, since a search for them would ask for memory itself. */
#define _GNU_SOURCE
#include <dlfcn.h>
#include <errno.h>
#include <fcntl.h>
#include <pthread.h>
#include <stdatomic.h>
#include <stdlib.h>
#include <string.h>
#include <sys/syscall.h>
#include <unistd.h>

extern void *__libc_malloc(size_t);
extern void *__libc_calloc(size_t, size_t);
extern void *__libc_realloc(void *, size_t);
extern void *__libc_memalign(size_t, size_t);

static atomic_long growths, threads, taken;

static long number_of(const char *name)
{
    const char *text = getenv(name);
    return text ? atol(text) : -1;
}

/* Whether a request of this kind, the one with this number, is refused. */
static int is_refused(const char *kind, atomic_long *count)
{
    const char *refused = getenv("REFUSE");
    if (!refused || strcmp(refused, kind) != 0)
        return 0;
    long number = atomic_fetch_add(count, 1) + 1, from = number_of("REFUSE_FROM");
    if (number < from || (number > from && !getenv("REFUSE_ON")))
        return 0;
    const char *told = getenv("REFUSE_TOLD");
    if (told) {
        int file = (int)syscall(SYS_openat, AT_FDCWD, told, O_CREAT | O_WRONLY | O_CLOEXEC, 0644);
        if (file >= 0)
            syscall(SYS_close, file);
    }
    return 1;
}

static int no_growth(void)
{
    if (!is_refused("growth", &growths))
        return 0;
    errno = ENOMEM;
    return 1;
}

void *malloc(size_t size)
{
    return no_growth() ? NULL : __libc_malloc(size);
}

void *calloc(size_t count, size_t size)
{
    return no_growth() ? NULL : __libc_calloc(count, size);
}

void *realloc(void *old, size_t size)
{
    return no_growth() ? NULL : __libc_realloc(old, size);
}

void *memalign(size_t aligned, size_t size)
{
    return no_growth() ? NULL : __libc_memalign(aligned, size);
}

void *aligned_alloc(size_t aligned, size_t size)
{
    return memalign(aligned, size);
}

int posix_memalign(void **made, size_t aligned, size_t size)
{
    void *found = memalign(aligned, size);
    if (!found)
        return ENOMEM;
    *made = found;
    return 0;
}

int pthread_create(pthread_t *thread, const pthread_attr_t *attributes, void *(*begin)(void *), void *argument)
{
    static int (*next)(pthread_t *, const pthread_attr_t *, void *(*)(void *), void *);
    if (is_refused("thread", &threads))
        return EAGAIN;
    if (!next)
        *(void **)&next = dlsym(RTLD_NEXT, "pthread_create");
    return next(thread, attributes, begin, argument);
}

/* Whether writes to this file are meant. What is said on the standard error is never. */
static int is_meant(int file)
{
    const char *which = getenv("WRITES");
    return which && file != 2 && (file == 1) == (strcmp(which, "report") == 0);
}

static size_t least(size_t count, long most)
{
    return most >= 0 && (size_t)most < count ? (size_t)most : count;
}

ssize_t write(int file, const void *bytes, size_t count)
{
    int meant = is_meant(file);
    if (meant && count > 0) {
        long room = number_of("WRITES_ROOM");
        if (room >= 0 && room <= atomic_load(&taken)) {
            errno = ENOSPC;
            return getenv("WRITES_EMPTY") ? 0 : -1;
        }
        if (room >= 0)
            count = least(count, room - atomic_load(&taken));
        count = least(count, number_of("WRITES_MOST"));
    }
    ssize_t done = syscall(SYS_write, file, bytes, count);
    if (meant && done > 0)
        atomic_fetch_add(&taken, done);
    return done;
}

ssize_t __write(int file, const void *bytes, size_t count)
{
    return write(file, bytes, count);
}
