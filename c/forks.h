/* Which process has opened a file: what a forked child inherits, it doesn't own. No program sees these calls: build-c keeps them inside. */
#ifndef ROSKVIDH_FORKS_H
#define ROSKVIDH_FORKS_H

#include <stdbool.h>
#include <stdint.h>
#include <sys/types.h>

/* A process as it was at some moment: neither a child that it has forked since nor one of that child's children is the same. */
typedef struct forks_process {
    uint64_t mark;
    pid_t number;
} forks_process;

#define FORKS_NOBODY { 0, 0 }

/* Tells which process this one is. Any number of threads may ask at a time. Returns false if the memory for it was refused. */
bool forks_this(forks_process *process);

/* Whether this is that process. It is so of none before forks_this was called. */
bool forks_is_this(const forks_process *process);

#endif
