/* Who may call the library. Calls that read go side by side; one that changes the dictionary has it for itself.
 *
 * A short call keeps the interpreter's lock from its first look at the dictionary to its last, and calls no Python meanwhile: so it is
 * alone with the other short ones. A long call gives that lock up, and is on the dictionary's list of turns then. A short call that reads
 * waits only while a long one changes the dictionary, and one that changes it only while a long one is under way.
 *
 * Who waits stands in line. When a long call ends, the short calls at the head of the line are woken, and go on as each gets the
 * interpreter's lock; a long call is let in once those before it have gone on. So no thread that makes one long call after another keeps
 * the others out, and short calls don't hinder each other when the long one is over.
 *
 * A wait ends by a signal whose handler raises. Handlers may call dictionaries, and so may finalizers, since Python collects garbage where
 * it handles signals. A thread that waits in line steps out of it meanwhile. A thread that has a turn calls Python only to handle signals
 * (`turn_step`): a call within that one is refused where it would have to wait for its own thread, or where another thread waits within such
 * a one already. So no wait is in a circle. */
#define _DEFAULT_SOURCE /* clock_gettime */
#include "core.h"

#include <time.h>
#include <unistd.h>

/* How long a call keeps the interpreter's lock, as long as Python's own code does by default, and how long it doesn't look for signals, in
 * nanoseconds. */
static const int64_t HOLD_TIME = SIZED(5 * 1000 * 1000, 0), DEAF_TIME = SIZED(100 * 1000 * 1000, 0);

typedef struct Waiter {
    struct Waiter *next;
    PyThread_type_lock lock; /* taken until it is woken */
    Turn *turn;              /* what a long call is let in by; NULL for a short one */
    bool changes;
    bool is_woken;
} Waiter;

/* Whether this thread handles signals within a call that has a turn. */
static _Thread_local bool is_interrupted;

static int64_t time_now(void) {
    struct timespec now = {0, 0};
    clock_gettime(CLOCK_MONOTONIC, &now);
    return (int64_t)now.tv_sec * 1000000000 + now.tv_nsec;
}

/* Whether no long call under way keeps a call out. */
static bool is_free(const Core *core, bool changes) {
    return changes ? !core->turns : !core->is_changing;
}

/* A forked child has the calls of one thread alone, and nobody waits. */
static void forget_parent(Core *core) {
    long process = (long)getpid();
    if (core->process == process) return;
    unsigned long self = PyThread_get_thread_ident();
    for (Turn **at = &core->turns; *at;) {
        if ((*at)->owner == self) at = &(*at)->next;
        else *at = (*at)->next;
    }
    core->line = NULL;
    core->woken = 0;
    core->process = process;
}

static void enter(Core *core, Turn *turn) {
    forget_parent(core);
    turn->next = core->turns;
    turn->is_listed = true;
    core->turns = turn;
    core->is_changing = turn->changes;
}

/* Wakes those at the head of the line who may go on. */
static void wake(Core *core) {
    while (core->line) {
        Waiter *first = core->line;
        if (!is_free(core, first->changes) || (first->turn && core->woken > 0)) return;
        core->line = first->next;
        if (first->turn) enter(core, first->turn);
        else core->woken++;
        first->is_woken = true;
        PyThread_release_lock(first->lock);
    }
}

static void leave(Core *core, Turn *turn) {
    forget_parent(core);
    Turn **at = &core->turns;
    while (*at && *at != turn) at = &(*at)->next;
    if (*at) *at = turn->next;
    turn->is_listed = false;
    if (!core->turns) core->is_changing = false;
    wake(core);
}

/* In a forked child no other thread is there: nobody waits, and a call that was under way never ends. One that reads has left the
 * dictionary whole. */
static int settle_child(Core *core) {
    if (core->process == (long)getpid()) return 0;
    if (!core->is_changing) {
        forget_parent(core);
        return 0;
    }
    PyErr_SetString(PyExc_RuntimeError, "the dictionary was in use by another thread when this process was forked");
    return -1;
}

/* Fails where a call of this thread is under way, which would wait for itself. */
static int fail_within(const Core *core) {
    unsigned long self = PyThread_get_thread_ident();
    for (const Turn *turn = core->turns; turn; turn = turn->next) {
        if (turn->owner != self) continue;
        PyErr_SetString(PyExc_RuntimeError, "a signal handler or a finalizer has called a dictionary within a call of its own thread");
        return -1;
    }
    return 0;
}

static void stand_in_line(Core *core, Waiter *waiter, bool is_first) {
    Waiter **at = &core->line;
    while (*at && !is_first) at = &(*at)->next;
    waiter->next = *at;
    *at = waiter;
}

static void leave_line(Core *core, const Waiter *waiter) {
    Waiter **at = &core->line;
    while (*at && *at != waiter) at = &(*at)->next;
    if (*at) *at = waiter->next;
    wake(core);
}

/* Handles signals. Who waits isn't in line meanwhile, since a handler's call may wait too. */
static int handle_signals(Core *core, Waiter *waiter) {
    leave_line(core, waiter);
    if (PyErr_CheckSignals() < 0 || settle_child(core) < 0) return -1;
    stand_in_line(core, waiter, true);
    wake(core);
    return 0;
}

/* Waits in line until it is woken, or until a signal's handler raises. */
static int stay_in_line(Core *core, Waiter *waiter, bool is_first) {
    int done = 0;
    waiter->is_woken = false;
    waiter->lock = PyThread_allocate_lock();
    if (!waiter->lock) {
        PyErr_NoMemory();
        return -1;
    }
    PyThread_acquire_lock(waiter->lock, NOWAIT_LOCK);
    stand_in_line(core, waiter, is_first);
    while (!waiter->is_woken && done == 0) {
        Py_BEGIN_ALLOW_THREADS
        PyThread_acquire_lock_timed(waiter->lock, -1, 1);
        Py_END_ALLOW_THREADS
        if (!waiter->is_woken) done = handle_signals(core, waiter);
    }
    /* A signal may have ended the last attempt to take it, and then it was given back. */
    PyThread_acquire_lock(waiter->lock, NOWAIT_LOCK);
    PyThread_release_lock(waiter->lock);
    PyThread_free_lock(waiter->lock);
    return done;
}

/* The same. Only one thread at a time does so within a call of its own. */
static int wait_in_line(Core *core, Waiter *waiter, bool is_first) {
    static bool one_waits;
    if (is_interrupted && one_waits) {
        PyErr_SetString(PyExc_RuntimeError, "two signal handlers or finalizers would wait within calls of their own threads");
        return -1;
    }
    if (is_interrupted) one_waits = true;
    int done = stay_in_line(core, waiter, is_first);
    if (is_interrupted) one_waits = false;
    return done;
}

/* Waits as a short call. */
static int wait_short(Core *core, bool changes) {
    if (settle_child(core) < 0 || fail_within(core) < 0) return -1;
    for (bool is_first = false; !is_free(core, changes); is_first = true) {
        Waiter waiter = {NULL, NULL, NULL, changes, false};
        if (wait_in_line(core, &waiter, is_first) < 0) return -1;
        core->woken--;
    }
    /* With the interpreter's lock it goes on before whoever is let in here. */
    wake(core);
    return 0;
}

/* Waits as a long call, which is on the list of turns then, unless nobody was before it. */
static int wait_long(Core *core, Turn *turn) {
    if (!core->line && core->woken == 0 && is_free(core, turn->changes)) return 0;
    if (settle_child(core) < 0 || fail_within(core) < 0) return -1;
    if (!core->line && core->woken == 0 && is_free(core, turn->changes)) return 0;
    Waiter waiter = {NULL, NULL, turn, turn->changes, false};
    return wait_in_line(core, &waiter, false);
}

/* Waits until a short call may go ahead. Fails where the dictionary is closed. */
int turn_wait(Core *core, bool changes) {
    if (!is_free(core, changes) && wait_short(core, changes) < 0) return -1;
    return core->is_open ? 0 : fail_with(CEDAR_IS_CLOSED);
}

/* Begins a call, with the interpreter's lock. */
int turn_begin(Core *core, bool changes, bool is_long, Turn *turn) {
    *turn = (Turn){.core = core, .changes = changes, .is_long = is_long, .owner = PyThread_get_thread_ident()};
    if (is_long && wait_long(core, turn) < 0) return -1;
    if ((!is_long && !is_free(core, changes) && wait_short(core, changes) < 0) || !core->is_open) {
        turn_end(turn);
        return PyErr_Occurred() ? -1 : fail_with(CEDAR_IS_CLOSED);
    }
    turn->own = core->store.dictionary;
    turn->dictionary = &turn->own;
    if (is_long) turn->since = time_now();
    return 0;
}

/* Gives up the interpreter's lock until the call ends, if it is a long one. */
void turn_yield(Turn *turn) {
    if (!turn->is_long || turn->thread) return;
    if (!turn->is_listed) enter(turn->core, turn);
    turn->thread = PyEval_SaveThread();
    turn->since = time_now();
}

/* Takes the interpreter's lock back, if it was given up. */
void turn_resume(Turn *turn) {
    if (turn->thread) PyEval_RestoreThread(turn->thread);
    turn->thread = NULL;
}

/* Takes the interpreter's lock back, and handles signals. */
static int handle_within(Turn *turn) {
    bool was_interrupted = is_interrupted;
    turn_resume(turn);
    is_interrupted = true;
    int done = PyErr_CheckSignals();
    is_interrupted = was_interrupted;
    return done;
}

/* To be called between two pieces of a long call: it gives up the interpreter's lock once it is time to, and handles signals from then on.
 * Fails where a signal's handler raises. */
int turn_step(Turn *turn) {
    if (!turn->is_long || time_now() - turn->since < (turn->thread ? DEAF_TIME : HOLD_TIME)) return 0;
    if (turn->thread && handle_within(turn) < 0) return -1;
    turn_yield(turn);
    return 0;
}

void turn_end(Turn *turn) {
    turn_resume(turn);
    if (turn->is_listed) leave(turn->core, turn);
}

/* Puts a dictionary that nobody else knows in the place of the one that is there. The caller has the dictionary for itself. */
void core_install(Core *core, cedar_store *fresh) {
    cedar_store old = core->store;
    core->store = *fresh;
    core->is_open = true;
    note_keys(core);
    cedar_store_close(&old);
}

/* Waits until no long call is under way, be the dictionary open or not. */
int turn_alone(Core *core) {
    return core->turns ? wait_short(core, CHANGES) : 0;
}

/* Gives the memory back; on a closed dictionary nothing happens. */
int core_close(Core *core) {
    if (turn_alone(core) < 0) return -1;
    core->is_open = false;
    note_keys(core);
    cedar_store_close(&core->store);
    return 0;
}
