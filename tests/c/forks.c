/* Stores in forked children: none writes to the file of a process that it was forked from, whatever number it has itself. The system wipes
 * the mark of a process in its children, or a handler does where the system doesn't know how. Argument: a folder. What namespaces of process
 * numbers are for is left out, with a word, where they aren't allowed. */
#define _GNU_SOURCE
#include "cedar.h"
#include "check.h"

#include <errno.h>
#include <fcntl.h>
#include <pthread.h>
#include <sched.h>
#include <signal.h>
#include <string.h>
#include <sys/mman.h>
#include <sys/syscall.h>
#include <sys/wait.h>
#include <unistd.h>

enum { FIXED_NUMBER = 42, IS_LEFT_OUT = 99, THREADS = 8, STACK = 1 << 20 };

/* What of the system is played: one that wipes, one that doesn't know how, and one that takes each advice and follows none. */
static enum { WIPES, REFUSES, FOLLOWS_NONE } system_kind;
static bool is_number_fixed, lacks_memory, lacks_handlers;

pid_t __real_getpid(void);
pid_t __wrap_getpid(void) { return is_number_fixed ? FIXED_NUMBER : __real_getpid(); }

int __real_madvise(void *at, size_t length, int advice);
int __wrap_madvise(void *at, size_t length, int advice) {
    if (system_kind == WIPES) return __real_madvise(at, length, advice);
    errno = EINVAL;
    return system_kind == REFUSES ? -1 : 0;
}

void *__real_mmap(void *at, size_t length, int access, int flags, int file, off_t from);
void *__wrap_mmap(void *at, size_t length, int access, int flags, int file, off_t from) {
    if (!lacks_memory) return __real_mmap(at, length, access, flags, file, from);
    errno = ENOMEM;
    return MAP_FAILED;
}

int __real_pthread_atfork(void (*before)(void), void (*in_parent)(void), void (*in_child)(void));
int __wrap_pthread_atfork(void (*before)(void), void (*in_parent)(void), void (*in_child)(void)) {
    return lacks_handlers ? ENOMEM : __real_pthread_atfork(before, in_parent, in_child);
}

static char path[4200], other[4200];
static cedar_store shared = CEDAR_STORE_CLOSED;

static uint32_t update(cedar_store *s, const char *key, int32_t value) {
    return cedar_store_update(s, (const uint8_t *)key, strlen(key), value, NULL);
}

/* What the file has at a key, or -1. */
static int32_t kept(const char *name, const char *key) {
    cedar_store s = CEDAR_STORE_CLOSED;
    int32_t value = -1;
    CHECK(cedar_store_open_to_read(&s, name) == CEDAR_OK);
    cedar_get(cedar_store_dictionary(&s), (const uint8_t *)key, strlen(key), &value);
    cedar_store_close(&s);
    return value;
}

static void open_shared(void) {
    cedar_store_close(&shared);
    unlink(path);
    CHECK(cedar_store_open(&shared, path) == CEDAR_OK && update(&shared, "net", 7) == CEDAR_OK);
}

/* What a child has returned. */
static int status_of(pid_t child) {
    int how;
    CHECK(child > 0 && waitpid(child, &how, 0) == child && WIFEXITED(how));
    return WEXITSTATUS(how);
}

static int in_child(int (*run)(void)) {
    fflush(NULL);
    pid_t child = fork();
    if (child == 0) _exit(run());
    return status_of(child);
}

/* The same by the bare call of the system, which calls no handler. */
static int in_bare_child(int (*run)(void)) {
    fflush(NULL);
    pid_t child = (pid_t)syscall(SYS_clone, SIGCHLD, NULL, NULL, NULL, NULL);
    if (child == 0) _exit(run());
    return status_of(child);
}

/* Each call that would write is refused. */
static int is_refused(void) {
    cedar_change change = {(const uint8_t *)"batch", 5, 1, false};
    if (update(&shared, "child", 1) != CEDAR_STORE_LOCKED) return 1;
    if (cedar_store_erase(&shared, (const uint8_t *)"net", 3, NULL) != CEDAR_STORE_LOCKED) return 2;
    if (cedar_store_apply(&shared, &change, 1, NULL, NULL) != CEDAR_STORE_LOCKED) return 3;
    if (cedar_store_compact(&shared) != CEDAR_STORE_LOCKED) return 4;
    if (cedar_store_sync_every(&shared, 0) != CEDAR_OK || update(&shared, "waits", 1) != CEDAR_OK) return 5;
    return cedar_store_sync(&shared) == CEDAR_STORE_LOCKED ? 0 : 6;
}

/* So it is in a child's child. */
static int is_refused_below(void) {
    int status = in_child(is_refused);
    return status != 0 ? status : is_refused();
}

/* A child's own store is its own, beside the one that it inherits, and isn't its children's. */
static int opens_its_own(void) {
    cedar_store inherited = shared;
    shared = (cedar_store)CEDAR_STORE_CLOSED;
    unlink(other);
    if (cedar_store_open(&shared, other) != CEDAR_OK || update(&shared, "own", 3) != CEDAR_OK) return 11;
    if (update(&inherited, "child", 1) != CEDAR_STORE_LOCKED) return 12;
    if (in_child(is_refused) != 0 || in_child(is_refused_below) != 0) return 13;
    if (update(&shared, "more", 4) != CEDAR_OK || update(&inherited, "child", 1) != CEDAR_STORE_LOCKED) return 14;
    cedar_store_close(&shared);
    cedar_store_close(&inherited);
    return kept(other, "own") == 3 && kept(other, "more") == 4 && kept(other, "child") == -1 ? 0 : 15;
}

static void goes_on(void) {
    CHECK(update(&shared, "on", 8) == CEDAR_OK && kept(path, "on") == 8 && kept(path, "net") == 7);
    CHECK(kept(path, "child") == -1 && kept(path, "waits") == -1 && kept(path, "batch") == -1);
}

/* All processes have one number: so a child is told by the mark alone. */
static int has_one_number(void) {
    is_number_fixed = true;
    open_shared();
    CHECK(in_child(is_refused_below) == 0 && in_child(opens_its_own) == 0);
    if (system_kind == WIPES) CHECK(in_bare_child(is_refused) == 0 && in_bare_child(opens_its_own) == 0);
    goes_on();
    cedar_store_close(&shared);
    return 0;
}

static int shared_status = -1;

static int run_in_shared_memory(void *none) {
    (void)none;
    shared_status = (int)update(&shared, "child", 1);
    return 0;
}

/* Where no handler is called, and where the memory is the parent's, the number tells a child. */
static int has_its_number(void) {
    open_shared();
    CHECK(in_bare_child(is_refused) == 0 && in_child(is_refused_below) == 0);
    uint8_t *stack = malloc(STACK);
    CHECK(stack != NULL);
    pid_t child = clone(run_in_shared_memory, stack + STACK, CLONE_VM | CLONE_VFORK | SIGCHLD, NULL);
    CHECK(status_of(child) == 0 && shared_status == CEDAR_STORE_LOCKED);
    free(stack);
    goes_on();
    cedar_store_close(&shared);
    return 0;
}

/* Without memory for the mark nothing is opened and nothing is made. An opening to read needs none. */
static int lacks_a_page(void) {
    cedar_store s = CEDAR_STORE_CLOSED;
    unlink(path);
    lacks_memory = system_kind == WIPES;
    lacks_handlers = !lacks_memory;
    CHECK(cedar_store_open(&s, path) == CEDAR_MEMORY && s.file == NULL && access(path, F_OK) != 0);
    lacks_memory = lacks_handlers = false;
    open_shared();
    goes_on();
    cedar_store_close(&shared);
    return 0;
}

static int reads_without_a_page(void) {
    cedar_store s = CEDAR_STORE_CLOSED;
    lacks_memory = true;
    CHECK(cedar_store_open_to_read(&s, path) == CEDAR_OK && cedar_len(cedar_store_dictionary(&s)) == 2);
    CHECK(update(&s, "ten", 9) == CEDAR_STORE_READ_ONLY && cedar_store_sync(&s) == CEDAR_OK);
    cedar_store_close(&s);
    return 0;
}

static void *open_one(void *number) {
    char name[4300];
    cedar_store s = CEDAR_STORE_CLOSED;
    CHECK(snprintf(name, sizeof name, "%s.%d", path, *(int *)number) > 0);
    unlink(name);
    CHECK(cedar_store_open(&s, name) == CEDAR_OK && update(&s, "net", 7) == CEDAR_OK);
    cedar_store_close(&s);
    CHECK(kept(name, "net") == 7);
    unlink(name);
    return NULL;
}

/* The first openings of a process are made at the same time. */
static int opens_by_threads(void) {
    pthread_t threads[THREADS];
    int numbers[THREADS];
    for (int i = 0; i < THREADS; i++) {
        numbers[i] = i;
        CHECK(pthread_create(&threads[i], NULL, open_one, &numbers[i]) == 0);
    }
    for (int i = 0; i < THREADS; i++) CHECK(pthread_join(threads[i], NULL) == 0);
    return 0;
}

/* ---- processes that have one number indeed */

/* Runs something as the first process of a namespace of process numbers. */
static int in_namespace(int (*run)(void)) {
    fflush(NULL);
    pid_t child = fork();
    if (child == 0) {
        if (unshare(CLONE_NEWPID) != 0 && unshare(CLONE_NEWUSER | CLONE_NEWPID) != 0) _exit(IS_LEFT_OUT);
        _exit(in_child(run));
    }
    return status_of(child);
}

/* Process 1 of a namespace has a child that is process 1 of another. */
static int is_first_in_both(void) {
    if (getpid() != 1) return 20;
    open_shared();
    if (unshare(CLONE_NEWPID) != 0) return IS_LEFT_OUT;
    fflush(NULL);
    pid_t child = fork();
    if (child == 0) _exit(getpid() == 1 ? is_refused() : 21);
    int status = status_of(child);
    goes_on();
    cedar_store_close(&shared);
    return status;
}

/* Lets the next process of the namespace have a number. */
static bool make_next(pid_t number) {
    char text[24];
    int length = snprintf(text, sizeof text, "%d", (int)number - 1), file = open("/proc/sys/kernel/ns_last_pid", O_WRONLY | O_CLOEXEC);
    bool is_made = file >= 0 && write(file, text, (size_t)length) == length;
    if (file >= 0) close(file);
    return is_made;
}

/* The child of one that opened the store, and has ended by now: its own child gets that number. */
static int outlives(pid_t opener, int ending) {
    char none;
    if (read(ending, &none, 1) != 0) return 22;
    while (kill(opener, 0) == 0) usleep(1000);
    if (update(&shared, "child", 1) != CEDAR_STORE_LOCKED) return 23;
    if (!make_next(opener)) return IS_LEFT_OUT;
    pid_t child = fork();
    if (child == 0) _exit(getpid() == opener ? is_refused() : IS_LEFT_OUT);
    return status_of(child);
}

static int open_and_end(int ends[2]) {
    open_shared();
    pid_t opener = getpid(), child = fork();
    if (child < 0) return 24;
    if (child == 0) {
        close(ends[1]);
        _exit(outlives(opener, ends[0]));
    }
    for (int32_t i = 0; i < 3; i++) CHECK(update(&shared, i == 0 ? "on" : "then", 8) == CEDAR_OK);
    return 0;
}

static int gets_the_number(void) {
    int ends[2], how, status = 0;
    CHECK(pipe(ends) == 0);
    pid_t opener = fork();
    if (opener == 0) _exit(open_and_end(ends));
    close(ends[0]);
    close(ends[1]);
    /* The opener's child is this one's once the opener has ended. */
    while (wait(&how) > 0) {
        CHECK(WIFEXITED(how));
        if (WEXITSTATUS(how) != 0) status = WEXITSTATUS(how);
    }
    CHECK(kept(path, "net") == 7 && kept(path, "on") == 8 && kept(path, "then") == 8 && kept(path, "child") == -1);
    return status;
}

static void check_in_namespace(int (*run)(void)) {
    int status = in_namespace(run);
    if (status == IS_LEFT_OUT) puts("forks: namespaces of process numbers aren't allowed here, and no child has its parent's number");
    else CHECK(status == 0);
}

int main(int argument_count, char **arguments) {
    CHECK(argument_count == 2 && snprintf(path, sizeof path, "%s/forked.store", arguments[1]) > 0);
    CHECK(snprintf(other, sizeof other, "%s/forked.other", arguments[1]) > 0);
    /* Each has a process of its own, which has opened nothing before. */
    for (int kind = WIPES; kind <= FOLLOWS_NONE; kind++) {
        system_kind = kind;
        CHECK(in_child(has_one_number) == 0 && in_child(has_its_number) == 0);
        CHECK(in_child(lacks_a_page) == 0 && in_child(reads_without_a_page) == 0 && in_child(opens_by_threads) == 0);
        check_in_namespace(is_first_in_both);
        check_in_namespace(gets_the_number);
    }
    unlink(path);
    unlink(other);
    return 0;
}
