/* Refuses one call of a program that runs with this library before it: the allocation of number REFUSE_ALLOCATION, or the thread of
   number REFUSE_THREAD, counted from 1. Where that call comes it makes the file REFUSED. With INTERRUPT, a signal interrupts every second call that
   reads or writes, the first one included. See bench/refused.sh. */
#define _GNU_SOURCE
#include <dlfcn.h>
#include <errno.h>
#include <fcntl.h>
#include <pthread.h>
#include <stdatomic.h>
#include <stdlib.h>
#include <sys/syscall.h>
#include <unistd.h>

void *__libc_malloc(size_t size);
void *__libc_calloc(size_t count, size_t size);
void *__libc_realloc(void *block, size_t size);
void *__libc_memalign(size_t alignment, size_t size);

static atomic_long allocations, threads, transfers;
static long refused_allocation, refused_thread;
static int interrupts;

__attribute__((constructor)) static void begin(void) {
    const char *number = getenv("REFUSE_ALLOCATION");
    if (number) refused_allocation = atol(number);
    number = getenv("REFUSE_THREAD");
    if (number) refused_thread = atol(number);
    interrupts = getenv("INTERRUPT") != NULL;
    atomic_store(&allocations, 0);
}

static int is_refused(atomic_long *count, long number) {
    if (!number || atomic_fetch_add(count, 1) + 1 != number) return 0;
    const char *name = getenv("REFUSED");
    int file = name ? open(name, O_CREAT | O_WRONLY, 0600) : -1;
    if (file >= 0) close(file);
    return 1;
}

static int is_out_of_memory(void) {
    if (!is_refused(&allocations, refused_allocation)) return 0;
    errno = ENOMEM;
    return 1;
}

void *malloc(size_t size) { return is_out_of_memory() ? NULL : __libc_malloc(size); }

void *calloc(size_t count, size_t size) { return is_out_of_memory() ? NULL : __libc_calloc(count, size); }

void *realloc(void *block, size_t size) { return is_out_of_memory() ? NULL : __libc_realloc(block, size); }

void *aligned_alloc(size_t alignment, size_t size) { return is_out_of_memory() ? NULL : __libc_memalign(alignment, size); }

int posix_memalign(void **block, size_t alignment, size_t size) {
    if (is_refused(&allocations, refused_allocation)) return ENOMEM;
    *block = __libc_memalign(alignment, size);
    return *block ? 0 : ENOMEM;
}

int pthread_create(pthread_t *thread, const pthread_attr_t *how, void *(*work)(void *), void *with) {
    static int (*create)(pthread_t *, const pthread_attr_t *, void *(*)(void *), void *);
    if (is_refused(&threads, refused_thread)) return EAGAIN;
    if (!create) create = (int (*)(pthread_t *, const pthread_attr_t *, void *(*)(void *), void *))dlsym(RTLD_NEXT, "pthread_create");
    return create(thread, how, work, with);
}

static int is_interrupted(void) {
    if (!interrupts || atomic_fetch_add(&transfers, 1) % 2 == 1) return 0;
    errno = EINTR;
    return 1;
}

ssize_t write(int file, const void *bytes, size_t size) {
    return is_interrupted() ? -1 : syscall(SYS_write, file, bytes, size);
}

ssize_t read(int file, void *bytes, size_t size) {
    return is_interrupted() ? -1 : syscall(SYS_read, file, bytes, size);
}
