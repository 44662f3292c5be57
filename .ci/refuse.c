/* Refuses requests of the program that it is preloaded into: the request for memory with the number in REFUSED, from 1
 * on, the request for a thread with the number in REFUSED_THREAD, and all requests for a thread with numbers above the
 * one in MOST_THREADS. At the end it writes the number of requests for memory into the file named in REQUESTS, and the
 * number of requests for a thread into the file named in THREADS. It counts the requests of all threads, also those of
 * the C library, as for a new thread's storage. A request for memory that isn't refused goes to glibc's allocator by
 * its internal names, so no name has to be looked up, and no request is counted twice. */
#define _GNU_SOURCE
#include <dlfcn.h>
#include <errno.h>
#include <fcntl.h>
#include <limits.h>
#include <pthread.h>
#include <stdatomic.h>
#include <stddef.h>
#include <stdio.h>
#include <stdlib.h>
#include <sys/syscall.h>
#include <unistd.h>

extern void *__libc_malloc(size_t);
extern void *__libc_calloc(size_t, size_t);
extern void *__libc_realloc(void *, size_t);
extern void *__libc_memalign(size_t, size_t);

typedef int create_call(pthread_t *, const pthread_attr_t *, void *(*)(void *), void *);

static atomic_ulong requests;
static unsigned long refused;
static atomic_ulong threads;
static unsigned long refused_thread;
static unsigned long most_threads = ULONG_MAX;

static unsigned long number_in(const char *name, unsigned long otherwise) {
    const char *number = getenv(name);
    return number == NULL ? otherwise : strtoul(number, NULL, 10);
}

__attribute__((constructor)) static void begin(void) {
    refused = number_in("REFUSED", 0);
    refused_thread = number_in("REFUSED_THREAD", 0);
    most_threads = number_in("MOST_THREADS", ULONG_MAX);
}

static int is_refused(void) {
    if (atomic_fetch_add(&requests, 1) + 1 != refused) {
        return 0;
    }
    errno = ENOMEM;
    return 1;
}

void *malloc(size_t size) {
    return is_refused() ? NULL : __libc_malloc(size);
}

void *calloc(size_t many, size_t size) {
    return is_refused() ? NULL : __libc_calloc(many, size);
}

void *realloc(void *old, size_t size) {
    return is_refused() ? NULL : __libc_realloc(old, size);
}

void *memalign(size_t alignment, size_t size) {
    return is_refused() ? NULL : __libc_memalign(alignment, size);
}

void *aligned_alloc(size_t alignment, size_t size) {
    return is_refused() ? NULL : __libc_memalign(alignment, size);
}

int posix_memalign(void **to, size_t alignment, size_t size) {
    void *found = is_refused() ? NULL : __libc_memalign(alignment, size);
    if (found == NULL) {
        return ENOMEM;
    }
    *to = found;
    return 0;
}

int pthread_create(pthread_t *thread, const pthread_attr_t *attributes, void *(*start)(void *), void *with) {
    unsigned long number = atomic_fetch_add(&threads, 1) + 1;
    create_call *next = (create_call *)dlsym(RTLD_NEXT, "pthread_create");
    if (next == NULL || number == refused_thread || number > most_threads) {
        return EAGAIN;
    }
    return next(thread, attributes, start, with);
}

/* Allocates nothing, so a refusal loses no count. */
static void write_count(const char *name, unsigned long count) {
    if (name == NULL) {
        return;
    }
    int file = open(name, O_WRONLY | O_CREAT | O_TRUNC, 0666);
    if (file >= 0) {
        dprintf(file, "%lu\n", count);
        close(file);
    }
}

__attribute__((destructor)) static void end(void) {
    write_count(getenv("REQUESTS"), atomic_load(&requests));
    write_count(getenv("THREADS"), atomic_load(&threads));
}

/* A program that can start threads ends here, without its destructors. */
void _exit(int status) {
    end();
    for (;;) {
        syscall(SYS_exit_group, status);
    }
}
