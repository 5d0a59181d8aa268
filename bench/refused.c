/* Preloaded into a program: counts what it asks of malloc, realloc and pthread_create, and refuses one of these calls.

   REFUSED is the number of the call that is refused, from 1 on; 0 refuses none. COUNTED is a file of eight bytes that
   gets how many there were, also of a program that ends by _exit. */
#define _GNU_SOURCE
#include <dlfcn.h>
#include <errno.h>
#include <fcntl.h>
#include <pthread.h>
#include <stdatomic.h>
#include <stddef.h>
#include <stdlib.h>
#include <sys/mman.h>
#include <unistd.h>

extern void *__libc_malloc(size_t);
extern void *__libc_realloc(void *, size_t);

static _Atomic unsigned long *counted;
static unsigned long refused;

__attribute__((constructor)) static void begin(void)
{
    const char *name = getenv("COUNTED"), *number = getenv("REFUSED");
    int file = name ? open(name, O_RDWR) : -1;
    if (file < 0 || !number)
        _exit(70);
    counted = mmap(NULL, sizeof *counted, PROT_READ | PROT_WRITE, MAP_SHARED, file, 0);
    if (counted == MAP_FAILED)
        _exit(70);
    close(file);
    refused = strtoul(number, NULL, 10);
}

/* Whether this call is the one that is refused. Those before the program has begun are not counted. */
static int is_refused(void)
{
    return counted && atomic_fetch_add(counted, 1) + 1 == refused;
}

void *malloc(size_t size)
{
    return is_refused() ? (errno = ENOMEM, NULL) : __libc_malloc(size);
}

void *realloc(void *memory, size_t size)
{
    return is_refused() ? (errno = ENOMEM, NULL) : __libc_realloc(memory, size);
}

int pthread_create(pthread_t *thread, const pthread_attr_t *attributes, void *(*start)(void *), void *argument)
{
    int (*next)(pthread_t *, const pthread_attr_t *, void *(*)(void *), void *) = dlsym(RTLD_NEXT, "pthread_create");
    return is_refused() ? EAGAIN : next(thread, attributes, start, argument);
}
