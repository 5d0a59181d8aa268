/* What picolibc asks of its environment, for a program that calls printf, malloc or the like: standard
   files that write to the console of the core, a heap between the program and the stacks, errno for
   each core, and locks. It is linked where one of these is used (rules.mk), and not otherwise. */
#include <errno.h>
#include <stdio.h>
#include <sys/lock.h>
#include <unistd.h>

#include "zsim.h"

/* ---- standard files */

static int put(char byte, FILE *file)
{
    int number = file == stderr ? 2 : 1;
    return write(number, &byte, 1) == 1 ? 0 : EOF;
}

/* There is no input. */
static int get(FILE *file)
{
    (void)file;
    return EOF;
}

static FILE out = FDEV_SETUP_STREAM(put, NULL, NULL, _FDEV_SETUP_WRITE);
static FILE err = FDEV_SETUP_STREAM(put, NULL, NULL, _FDEV_SETUP_WRITE);
static FILE in = FDEV_SETUP_STREAM(NULL, get, NULL, _FDEV_SETUP_READ);

FILE *const stdout = &out;
FILE *const stderr = &err;
FILE *const stdin = &in;

/* Ends the program of this core: what exit and abort of the library come to. */
_Noreturn void _exit(int status)
{
    environment_call(93, status, 0, 0);
    __builtin_unreachable();
}

/* ---- the heap */

/* Each core has its own (library_start.s). */
_Thread_local int errno;

/* From the end of the program to the stacks (plain.ld). */
extern char heap_start[], heap_end[];

/* Gives malloc more of the heap. It asks for it while it holds the library's lock. */
void *sbrk(ptrdiff_t bytes)
{
    static char *end = heap_start;
    if (bytes > heap_end - end || bytes < heap_start - end) {
        errno = ENOMEM;
        return (void *)-1;
    }
    end += bytes;
    return end - bytes;
}

/* ---- locks, which a core that has one can take again */

struct __lock {
    long owner; /* the core's number and 1, or 0 where it is free */
    long taken; /* how often its owner has taken it */
};

struct __lock __lock___libc_recursive_mutex;

void __retarget_lock_acquire_recursive(_LOCK_T lock)
{
    long self = core_number() + 1;
    while (__atomic_load_n(&lock->owner, __ATOMIC_RELAXED) != self) {
        long free = 0;
        if (__atomic_compare_exchange_n(&lock->owner, &free, self, 0, __ATOMIC_ACQUIRE, __ATOMIC_RELAXED))
            break;
    }
    lock->taken++;
}

void __retarget_lock_release_recursive(_LOCK_T lock)
{
    if (--lock->taken == 0)
        __atomic_store_n(&lock->owner, 0, __ATOMIC_RELEASE);
}
