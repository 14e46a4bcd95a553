/* Mutexes, read-write locks, conditions and barriers. The machine's numbers stand for addresses. */
#define _GNU_SOURCE
#include "events.h"
#include "handlers.h"
#include "objects.h"
#include "refusal.h"

#include <errno.h>
#include <string.h>

/* The addresses of one kind of object, by their numbers. */
struct addresses {
    const char *kind;
    const void *at[LOCK_NUMBERS];
    int count;
};

static struct addresses mutexes = {.kind = "mutexes"};          /* the mutexes of this session */
static struct addresses rwlocks = {.kind = "read-write locks"}; /* and so on */
static struct addresses conds = {.kind = "conditions"};
static struct addresses barriers = {.kind = "barriers"};
static struct addresses onces = {.kind = "once controls"};

void objects_begin(void) {
    mutexes.count = rwlocks.count = conds.count = barriers.count = onces.count = 0;
}

static int find(const struct addresses *addresses, const void *address) {
    for (int i = addresses->count - 1; i >= 0; i--)
        if (addresses->at[i] == address)
            return i;
    return -1;
}

static int add(struct addresses *addresses, const void *address) {
    if (addresses->count == LOCK_NUMBERS)
        refuse("more than %d %s in a run", LOCK_NUMBERS, addresses->kind);
    addresses->at[addresses->count] = address;
    return addresses->count++;
}

/* Adds an object that the program initialises. If there was one at this address, it is another object from now on. */
static int add_anew(struct addresses *addresses, const void *address) {
    int number = find(addresses, address);
    if (number >= 0)
        addresses->at[number] = NULL;
    return add(addresses, address);
}

/* Returns the number of an object, and whether it is used for the first time, if its memory says that it is
   initialised. */
static int find_or_add(struct addresses *addresses, const void *address, bool is_initialised, bool *is_new) {
    int number = find(addresses, address);
    *is_new = false;
    if (number >= 0)
        return number;
    if (!is_initialised || handler_runs())
        return LOCK_NUMBERS; /* a number without an object, so that the machine refuses the call */
    *is_new = true;
    return add(addresses, address);
}

int once_number(pth_once_t *control) {
    int number = find(&onces, control);
    return number >= 0 ? number : add(&onces, control);
}

static int refuse_null(void) {
    errno = EINVAL;
    return FALSE;
}

/* ---- mutexes */

int mutex_number(pth_mutex_t *mutex) {
    bool is_new;
    int number = find_or_add(&mutexes, mutex, mutex && mutex->mx_state & PTH_MUTEX_INITIALIZED, &is_new);
    if (is_new)
        call("mutex_init %d", number);
    return number;
}

int pth_mutex_init(pth_mutex_t *mutex) {
    CALL_ENTER();
    if (!mutex)
        return refuse_null();
    *mutex = (pth_mutex_t)PTH_MUTEX_INIT;
    call("mutex_init %d", add_anew(&mutexes, mutex));
    return call_truth();
}

int pth_mutex_acquire(pth_mutex_t *mutex, int tries_only, pth_event_t ring) {
    CALL_ENTER();
    int number = mutex_number(mutex);
    events_need(ring);
    call("mutex_acquire %d %d %d", number, tries_only != 0, event_number(ring));
    return call_truth();
}

int pth_mutex_release(pth_mutex_t *mutex) {
    CALL_ENTER();
    call("mutex_release %d", mutex_number(mutex));
    return call_truth();
}

/* ---- read-write locks */

static int rwlock_number(pth_rwlock_t *lock) {
    bool is_new;
    int number = find_or_add(&rwlocks, lock, lock && lock->rw_state & PTH_RWLOCK_INITIALIZED, &is_new);
    if (is_new)
        call("rw_init %d", number);
    return number;
}

int pth_rwlock_init(pth_rwlock_t *lock) {
    CALL_ENTER();
    if (!lock)
        return refuse_null();
    *lock = (pth_rwlock_t)PTH_RWLOCK_INIT;
    call("rw_init %d", add_anew(&rwlocks, lock));
    return call_truth();
}

int pth_rwlock_acquire(pth_rwlock_t *lock, int mode, int tries_only, pth_event_t ring) {
    CALL_ENTER();
    int number = rwlock_number(lock);
    events_need(ring);
    call("rw_acquire %d %s %d %d", number, mode == PTH_RWLOCK_RW ? "rw" : "rd", tries_only != 0, event_number(ring));
    return call_truth();
}

int pth_rwlock_release(pth_rwlock_t *lock) {
    CALL_ENTER();
    call("rw_release %d", rwlock_number(lock));
    return call_truth();
}

/* ---- conditions */

int cond_number(pth_cond_t *cond) {
    bool is_new;
    int number = find_or_add(&conds, cond, cond && cond->cn_state & PTH_COND_INITIALIZED, &is_new);
    if (is_new)
        call("cond_init %d", number);
    return number;
}

int pth_cond_init(pth_cond_t *cond) {
    CALL_ENTER();
    if (!cond)
        return refuse_null();
    *cond = (pth_cond_t)PTH_COND_INIT;
    call("cond_init %d", add_anew(&conds, cond));
    return call_truth();
}

int pth_cond_await(pth_cond_t *cond, pth_mutex_t *mutex, pth_event_t ring) {
    CALL_ENTER();
    int cond_at = cond_number(cond), mutex_at = mutex_number(mutex);
    events_need(ring);
    call("cond_await %d %d %d", cond_at, mutex_at, event_number(ring));
    return call_truth();
}

int pth_cond_notify(pth_cond_t *cond, int notifies_all) {
    CALL_ENTER();
    call("cond_notify %d %d", cond_number(cond), notifies_all != 0);
    return call_truth();
}

/* ---- barriers */

int pth_barrier_init(pth_barrier_t *barrier, int threshold) {
    CALL_ENTER();
    if (!barrier)
        return refuse_null();
    *barrier = (pth_barrier_t)PTH_BARRIER_INIT(threshold);
    call("barrier_init %d %d", add_anew(&barriers, barrier), threshold);
    return call_truth();
}

int pth_barrier_reach(pth_barrier_t *barrier) {
    CALL_ENTER();
    bool is_new;
    int number = find_or_add(&barriers, barrier, barrier && barrier->br_state & PTH_BARRIER_INITIALIZED, &is_new);
    if (is_new)
        call("barrier_init %d %d", number, barrier->br_threshold);
    long answer = call("barrier_reach %d", number);
    return call_error ? FALSE : (int)answer;
}
