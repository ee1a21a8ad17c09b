/* Tells a process from those that it was forked from. This part is tested (tests/c/forks.c) and not proved.
 *
 * The number of a process isn't enough. Once a process has ended another one may get its number, also a child of its child; and in a
 * namespace of process numbers that a process has made, its child may have the very number that it has itself. So a mark is kept in a page
 * of memory that the system wipes in each forked child, however it was forked (MADV_WIPEONFORK, Linux 4.14). A system that doesn't know
 * this refuses it, and then a handler wipes the page that fork calls in the child (pthread_atfork): a child that was made by the bare call
 * of the system isn't told by that, but by its number, unless it has the same.
 *
 * A child that shares the memory (vfork, clone with CLONE_VM) sees the mark of its parent. It is told by its number, which it has while its
 * parent lives.
 *
 * One page serves all stores of a process. It is taken at the first opening, and kept to the end of the process: a store may be closed as
 * late as that. */
#define _DEFAULT_SOURCE /* madvise, MAP_ANONYMOUS */
#include "forks.h"

#include <pthread.h>
#include <stdatomic.h>
#include <stddef.h>
#include <sys/mman.h>
#include <unistd.h>

#ifndef MADV_WIPEONFORK
#define MADV_WIPEONFORK 18
#endif

/* No advice of the system: it is refused, but by systems that refuse none and follow none. */
enum { NO_ADVICE = -1 };

/* The mark of this process, in a page of its own; 0 as long as it has none. */
typedef _Atomic uint64_t mark;
static mark *_Atomic page;

/* The last mark that was given, to this process or to one that it was forked from: theirs are never given again. */
static mark last_given;

static void wipe(void) {
    mark *own = atomic_load(&page);
    if (own != NULL) atomic_store(own, 0);
}

static bool is_wiped_by_the_system(void *taken, size_t length) {
    return madvise(taken, length, NO_ADVICE) != 0 && madvise(taken, length, MADV_WIPEONFORK) == 0;
}

/* The page of this process, which the first call takes. None if the memory for it was refused. */
static mark *find_page(void) {
    mark *own = atomic_load(&page), *none = NULL;
    if (own != NULL) return own;
    size_t length = (size_t)sysconf(_SC_PAGESIZE);
    void *taken = mmap(NULL, length, PROT_READ | PROT_WRITE, MAP_PRIVATE | MAP_ANONYMOUS, -1, 0);
    if (taken == MAP_FAILED) return NULL;
    if (!is_wiped_by_the_system(taken, length) && pthread_atfork(NULL, NULL, wipe) != 0) {
        munmap(taken, length);
        return NULL;
    }
    if (atomic_compare_exchange_strong(&page, &none, (mark *)taken)) return taken;
    munmap(taken, length); /* another thread was first */
    return none;
}

bool forks_this(forks_process *process) {
    mark *own = find_page();
    if (own == NULL) return false;
    uint64_t given = 0, next = atomic_fetch_add(&last_given, 1) + 1;
    /* It has its mark already, or gets one. */
    process->mark = atomic_compare_exchange_strong(own, &given, next) ? next : given;
    process->number = getpid();
    return true;
}

bool forks_is_this(const forks_process *process) {
    mark *own = atomic_load(&page);
    return own != NULL && process->mark != 0 && atomic_load(own) == process->mark && process->number == getpid();
}
