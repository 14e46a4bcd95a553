/* Calls of mutexes, locks, conditions and barriers. */
#include "play_on_libpth.h"

struct answer mutex_init(struct call *c) {
    return is_lock(c->x[1]) ? truth(pth_mutex_init(&mutexes[c->x[1]])) : refusal(EINVAL);
}

int is_anothers(pth_mutex_t *m) { return (m->mx_state & PTH_MUTEX_LOCKED) && m->mx_owner != pth_self(); }

struct answer mutex_acquire(struct call *c) {
    if (!is_lock(c->x[1])) return refusal(EINVAL);
    pth_mutex_t *m = &mutexes[c->x[1]];
    if (is_anothers(m) && claim(c, c->x[3]) < 0) return refusal(errno);
    if (c->x[3] != 0 && known_event(c->x[3]) == NULL) return refusal(EINVAL);
    return truth(pth_mutex_acquire(m, c->x[2] != 0, ring_of(c->x[3])));
}

struct answer mutex_release(struct call *c) { return release(c->x[1]); }

struct answer rw_init(struct call *c) {
    return is_lock(c->x[1]) ? truth(pth_rwlock_init(&rwlocks[c->x[1]])) : refusal(EINVAL);
}

struct answer rw_acquire(struct call *c) {
    if (!is_lock(c->x[1])) return refusal(EINVAL);
    if (claim(c, c->x[4]) < 0) return refusal(errno);
    int mode = is(c->l->word[2], "rd") ? PTH_RWLOCK_RD : PTH_RWLOCK_RW;
    return truth(pth_rwlock_acquire(&rwlocks[c->x[1]], mode, c->x[3] != 0, ring_of(c->x[4])));
}

struct answer rw_release(struct call *c) {
    return is_lock(c->x[1]) ? truth(pth_rwlock_release(&rwlocks[c->x[1]])) : refusal(EINVAL);
}

struct answer cond_init(struct call *c) {
    return is_lock(c->x[1]) ? truth(pth_cond_init(&conditions[c->x[1]])) : refusal(EINVAL);
}

struct answer cond_await(struct call *c) {
    if (!is_lock(c->x[1]) || !is_lock(c->x[2])) return refusal(EINVAL);
    if (claim(c, c->x[3]) < 0) return refusal(errno);
    return truth(pth_cond_await(&conditions[c->x[1]], &mutexes[c->x[2]], ring_of(c->x[3])));
}

struct answer cond_notify(struct call *c) { return notify(c->x[1], c->x[2]); }

struct answer barrier_init(struct call *c) {
    if (!is_lock(c->x[1]) || c->x[2] > 1000000) return refusal(EINVAL);
    return truth(pth_barrier_init(&barriers[c->x[1]], (int)c->x[2]));
}

/* The answer TRUE is 1, and FALSE is a refusal. PTH_BARRIER_HEADLIGHT and PTH_BARRIER_TAILLIGHT are -1 and -2. */
struct answer barrier_reach(struct call *c) {
    if (!is_lock(c->x[1])) return refusal(EINVAL);
    int n = pth_barrier_reach(&barriers[c->x[1]]);
    return n == 0 ? truth(0) : number(n);
}
