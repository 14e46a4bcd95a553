/* The C threads: their table, their bodies in the script, and the calls on them. */
#define _GNU_SOURCE
#include "threads.h"
#include "attributes.h"
#include "handlers.h"
#include "objects.h"
#include "refusal.h"
#include "script.h"
#include "session.h"

#include <errno.h>
#include <stdlib.h>
#include <string.h>

enum { FIRST_SHARED_BODY = 64 }; /* from this body on, a body is used again once its thread has ended */

struct pth_st *current_thread;
struct pth_st *running_thread;
static struct pth_st *threads[THREAD_NUMBERS]; /* the threads by their numbers */
static int count;                              /* how many there ever were */
static int generations[BODIES];                /* how often a shared body was used */
static bool is_used[BODIES];                   /* whether a thread that has not ended uses a shared body */

void threads_begin(void) {
    memset(threads, 0, sizeof *threads * (count + 1));
    memset(generations, 0, sizeof generations);
    memset(is_used, 0, sizeof is_used);
    struct pth_st *main_thread = memory_take(sizeof *main_thread);
    main_thread->number = 1;
    main_thread->has_begun = true;
    threads[1] = current_thread = running_thread = main_thread;
    count = 1;
}

struct pth_st *thread_of_number(long number) {
    return number > 0 && number <= count ? threads[number] : NULL;
}

int thread_count(void) {
    return count;
}

/* Chooses a body for the next thread. The threads that use a shared body one after another have its generations as
   arguments. */
static int choose_body(int *generation) {
    *generation = 0;
    if (count < FIRST_SHARED_BODY)
        return count;
    int best = -1;
    for (int body = FIRST_SHARED_BODY; body < BODIES; body++)
        if (!is_used[body] && (best < 0 || script_body_lines(body) < script_body_lines(best)))
            best = body;
    if (best < 0)
        refuse("more than %d threads at once", BODIES - 1);
    *generation = generations[best] + 1;
    return best;
}

static pth_t add_thread(long number, int body, int generation) {
    if (number >= THREAD_NUMBERS)
        refuse("more than %d threads", THREAD_NUMBERS - 1);
    pth_t thread = memory_take(sizeof *thread);
    thread->number = number;
    thread->body = body;
    thread->jumps_left = generation;
    if (generation) {
        generations[body] = generation;
        is_used[body] = true;
    }
    threads[number] = thread;
    count = number;
    return thread;
}

pth_t pth_spawn(pth_attr_t attributes, void *(*function)(void *), void *argument) {
    CALL_ENTER();
    if (!function) {
        errno = EINVAL;
        return NULL;
    }
    int generation;
    calls_make_deferred();
    int body = choose_body(&generation);
    script_add_body(body);
    if (generation)
        script_add_generation(body, generation);
    long number = call("spawn %d %ld %d", body, generation ? generation : value_number(argument),
                       attributes ? attributes->number : 0);
    if (call_error)
        return NULL;
    pth_t thread = add_thread(number, body, generation);
    thread->function = function;
    thread->argument = argument;
    thread->stack_size = attributes ? attributes->stack_size : 0;
    return thread;
}

void thread_end(struct pth_st *thread) {
    thread->has_ended = true;
    thread->has_pending_call = false;
    thread->cleanups = NULL;
    if (thread->body >= FIRST_SHARED_BODY)
        is_used[thread->body] = false;
}

/* ---- calls on threads */

static int call_on(const char *word, pth_t thread) {
    if (!thread) {
        errno = EINVAL;
        return FALSE;
    }
    call("%s %d", word, thread->number);
    return call_truth();
}

int pth_suspend(pth_t thread) {
    CALL_ENTER();
    int truth = call_on("suspend", thread);
    if (truth)
        thread->is_suspended = true;
    return truth;
}

int pth_resume(pth_t thread) {
    CALL_ENTER();
    int truth = call_on("resume", thread);
    if (truth)
        thread->is_suspended = false;
    return truth;
}

int pth_cancel(pth_t thread) {
    CALL_ENTER();
    return call_on("cancel", thread);
}

int pth_abort(pth_t thread) {
    CALL_ENTER();
    return call_on("abort", thread);
}

pth_t pth_self(void) {
    CALL_ENTER();
    return thread_of_number(call("self"));
}

int pth_yield(pth_t thread) {
    CALL_ENTER();
    call("yield %d", thread ? thread->number : 0);
    return call_truth();
}

int pth_join(pth_t thread, void **value) {
    CALL_ENTER();
    long number = call("join %d", thread ? thread->number : 0);
    if (call_error)
        return FALSE;
    if (value)
        *value = value_of_number(number);
    return TRUE;
}

void thread_exit(void *value) {
    if (handler_runs())
        refuse("a cleanup function or destructor ends its thread");
    handlers_run_before_exit();
    call("exit %ld", value_number(value));
    fault("a thread that has ended goes on");
}

void pth_exit(void *value) {
    CALL_ENTER();
    thread_exit(value);
}

/* ---- cancellation: the machine's states are 1 enabled and deferred, 2 disabled and deferred, 3 and 4 the same
   asynchronous */

void pth_cancel_state(int state, int *old) {
    CALL_ENTER();
    long number = call("cancel_state %d", state ? cancel_state_number(state) : 0);
    if (old)
        *old = cancel_state_flags(number);
}

void pth_cancel_point(void) {
    CALL_ENTER();
    call("cancel_point");
}
