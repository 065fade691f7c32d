/* Refuses the allocation whose number stands in REFUSE_AT, and the start of the thread whose number stands in
   REFUSE_THREAD_AT, each counted from 1; loaded before the C library.

   With REFUSE_IN_ROUNDS set it refuses by rounds, whose ends the program tells by reading its standard input. The first read
   of a round begins it, and finds the end of the input: of the allocations behind it the one with the round's number is
   refused. The second read ends it, and nothing is refused behind it: it gives one byte where an allocation was refused, and
   another round is to come. Else it finds the end of the input, and the next round is the first again. */
#define _GNU_SOURCE
#include <dlfcn.h>
#include <errno.h>
#include <pthread.h>
#include <stddef.h>
#include <stdlib.h>
#include <sys/types.h>
#include <unistd.h>

static unsigned long count;
static unsigned long refused_at;
static unsigned long thread_count;
static unsigned long refused_thread_at;
static int has_rounds;
static int is_in_round;
static int has_refused;
static unsigned long round_number = 1;
static int is_ready;
static void *(*real_malloc)(size_t);
static void *(*real_realloc)(void *, size_t);
static ssize_t (*real_read)(int, void *, size_t);

static void get_ready(void)
{
    const char *text = getenv("REFUSE_AT");
    const char *thread_text = getenv("REFUSE_THREAD_AT");
    refused_at = text ? strtoul(text, NULL, 10) : 0;
    refused_thread_at = thread_text ? strtoul(thread_text, NULL, 10) : 0;
    has_rounds = getenv("REFUSE_IN_ROUNDS") != NULL;
    real_malloc = (void *(*)(size_t))dlsym(RTLD_NEXT, "malloc");
    real_realloc = (void *(*)(void *, size_t))dlsym(RTLD_NEXT, "realloc");
    real_read = (ssize_t (*)(int, void *, size_t))dlsym(RTLD_NEXT, "read");
    is_ready = 1;
}

static int is_refused(void)
{
    if (!is_ready)
        get_ready();
    if (__sync_add_and_fetch(&count, 1) != refused_at)
        return 0;
    has_refused = 1;
    /* Says on descriptor 9 that it refused one. */
    if (write(9, "r", 1) != 1)
        _exit(99);
    return 1;
}

void *malloc(size_t size)
{
    if (is_refused())
        return NULL;
    return real_malloc(size);
}

void *realloc(void *old, size_t size)
{
    if (is_refused())
        return NULL;
    return real_realloc(old, size);
}

ssize_t read(int descriptor, void *buffer, size_t size)
{
    if (!is_ready)
        get_ready();
    if (!has_rounds || descriptor != 0 || size == 0)
        return real_read(descriptor, buffer, size);
    is_in_round = !is_in_round;
    if (is_in_round) {
        has_refused = 0;
        count = 0;
        refused_at = round_number;
        return 0;
    }
    refused_at = 0;
    if (!has_refused) {
        round_number = 1;
        return 0;
    }
    round_number++;
    *(char *)buffer = 'r';
    return 1;
}

int pthread_create(pthread_t *thread, const pthread_attr_t *attributes, void *(*start)(void *), void *argument)
{
    static int (*real_create)(pthread_t *, const pthread_attr_t *, void *(*)(void *), void *);
    if (!is_ready)
        get_ready();
    if (!real_create)
        real_create = (int (*)(pthread_t *, const pthread_attr_t *, void *(*)(void *), void *))dlsym(RTLD_NEXT, "pthread_create");
    if (__sync_add_and_fetch(&thread_count, 1) == refused_thread_at) {
        if (write(9, "t", 1) != 1)
            _exit(99);
        return EAGAIN;
    }
    return real_create(thread, attributes, start, argument);
}
