/* A library that is loaded before a program and makes some of its allocations and thread starts fail. It prints nothing.
 *
 * REFUSE_AT=N        the N-th allocation fails; all threads count together
 * REFUSE_FROM=N      the N-th allocation and all later ones fail
 * REFUSE_WITHIN=N    each allocation in the N-th started thread fails
 * REFUSE_THREADS=N   the N-th start of a thread fails, and so do all later ones
 * REFUSE_COUNT=FILE  the numbers of allocations and of thread starts are written to FILE when the program ends
 *
 * It uses the names by which the GNU C library passes its own allocator on.
 */
#define _GNU_SOURCE
#include <dlfcn.h>
#include <errno.h>
#include <fcntl.h>
#include <limits.h>
#include <pthread.h>
#include <stdatomic.h>
#include <stdio.h>
#include <stdlib.h>
#include <sys/syscall.h>
#include <unistd.h>

extern void *__libc_malloc(size_t);
extern void *__libc_calloc(size_t, size_t);
extern void *__libc_realloc(void *, size_t);
extern void *__libc_memalign(size_t, size_t);

/* More than run at once. */
#define THREADS 1024

/* What a started thread runs, and its number from 1 on. */
static struct start {
    unsigned long number;
    void *(*body)(void *);
    void *argument;
} starts[THREADS];

static atomic_ulong allocations, started;
static _Thread_local unsigned long this_thread __attribute__((tls_model("initial-exec")));
static unsigned long at = ULONG_MAX, from = ULONG_MAX, within = ULONG_MAX, threads = ULONG_MAX;
static const char *count_file;

static unsigned long number_in(const char *name)
{
    const char *text = getenv(name);
    return text ? strtoul(text, NULL, 10) : ULONG_MAX;
}

__attribute__((constructor)) static void begin(void)
{
    at = number_in("REFUSE_AT");
    from = number_in("REFUSE_FROM");
    within = number_in("REFUSE_WITHIN");
    threads = number_in("REFUSE_THREADS");
    count_file = getenv("REFUSE_COUNT");
    atomic_store(&allocations, 0);
}

__attribute__((destructor)) static void end(void)
{
    char line[64];
    int length = snprintf(line, sizeof line, "%lu %lu\n", atomic_load(&allocations), atomic_load(&started));
    int file = count_file ? open(count_file, O_WRONLY | O_CREAT | O_TRUNC, 0600) : -1;
    if (file >= 0) {
        if (write(file, line, (size_t)length) != length)
            unlink(count_file);
        close(file);
    }
}

/* A program of several threads ends by this call, which runs no destructor. */
void _exit(int status)
{
    end();
    for (;;)
        syscall(SYS_exit_group, status);
}

/* Counts one allocation, and returns whether it has to fail. */
static int fails(void)
{
    unsigned long number = atomic_fetch_add(&allocations, 1) + 1;
    if (number != at && number < from && this_thread != within)
        return 0;
    errno = ENOMEM;
    return 1;
}

void *malloc(size_t size) { return fails() ? NULL : __libc_malloc(size); }
void *calloc(size_t count, size_t size) { return fails() ? NULL : __libc_calloc(count, size); }
void *realloc(void *place, size_t size) { return fails() ? NULL : __libc_realloc(place, size); }
void *memalign(size_t alignment, size_t size) { return fails() ? NULL : __libc_memalign(alignment, size); }
void *aligned_alloc(size_t alignment, size_t size) { return memalign(alignment, size); }

void *reallocarray(void *place, size_t count, size_t size)
{
    size_t bytes;
    if (!__builtin_mul_overflow(count, size, &bytes))
        return realloc(place, bytes);
    errno = ENOMEM;
    return NULL;
}

int posix_memalign(void **place, size_t alignment, size_t size)
{
    void *found = memalign(alignment, size);
    if (found)
        *place = found;
    return found ? 0 : ENOMEM;
}

static void *run_thread(void *place)
{
    struct start *start = place;
    this_thread = start->number;
    return start->body(start->argument);
}

int pthread_create(pthread_t *thread, const pthread_attr_t *attributes, void *(*body)(void *), void *argument)
{
    static int (*_Atomic next)(pthread_t *, const pthread_attr_t *, void *(*)(void *), void *);
    unsigned long number = atomic_fetch_add(&started, 1) + 1;
    struct start *start = &starts[number % THREADS];
    if (number >= threads)
        return EAGAIN;
    if (!next)
        next = dlsym(RTLD_NEXT, "pthread_create");
    *start = (struct start){number, body, argument};
    return next(thread, attributes, run_thread, start);
}
