/* What is told: turns, waits, ends and locks. */
#include "play_on_libpth.h"

int has_mutex(struct thread *t, pth_mutex_t *m) { return (m->mx_state & PTH_MUTEX_LOCKED) && m->mx_owner == t->tid; }

static int writes(struct thread *t, pth_rwlock_t *l) { return l->rw_mode == PTH_RWLOCK_RW && has_mutex(t, &l->rw_mutex_rw); }

void note_locks(struct thread *t) {
    t->mutexes = t->written = 0;
    for (int i = 0; i < LOCKS; i++) {
        t->mutexes |= (unsigned long long)has_mutex(t, &mutexes[i]) << i;
        t->written |= (unsigned long long)writes(t, &rwlocks[i]) << i;
    }
}

void tell_last_end(void) {
    struct thread *t = last_ended;
    last_ended = NULL;
    if (t == NULL) return;
    for (int i = 0; i < LOCKS; i++)
        if ((t->mutexes >> i & 1) && !has_mutex(t, &mutexes[i])) printf("t%d gives mutex %d\n", t->number, i);
    for (int i = 0; i < LOCKS; i++)
        if ((t->written >> i & 1) && !has_mutex(t, &rwlocks[i].rw_mutex_rw)) printf("t%d gives rwlock %d\n", t->number, i);
    printf("t%d ends %ld\n", t->number, t->value);
}

int is_in(struct thread *t, const char *call) {
    size_t n = strlen(call);
    return strncmp(t->call, call, n) == 0 && (t->call[n] == 0 || t->call[n] == ' ');
}

/* As another turn begins: whether the thread of the last one left it inside of a call that blocks. */
void tell_last_wait(void) {
    struct thread *t = last_turn;
    if (t == NULL || t->blocking == BLOCKS_NEVER) return;
    printf("t%d %s %s\n", t->number, t->call, t->blocking == HAS_BLOCKED && is_in(t, "cond_await") ? "retakes" : "waits");
    t->blocking = HAS_BLOCKED;
}

void tell(struct thread *t, const char *form, ...) {
    if (last_ended != t) tell_last_end();
    va_list rest;
    va_start(rest, form);
    printf("t%d ", t->number);
    vprintf(form, rest);
    putchar('\n');
    va_end(rest);
}

int dispatches_of(struct thread *t) {
    int n = 0;
    pth_attr_get(t->attr, PTH_ATTR_DISPATCHES, &n);
    return n;
}

static int was_dispatched_before(struct thread *t, struct thread *other) {
    pth_time_t a, b;
    pth_attr_get(t->attr, PTH_ATTR_TIME_LAST, &a);
    pth_attr_get(other->attr, PTH_ATTR_TIME_LAST, &b);
    return timercmp(&a, &b, <);
}

static void tell_turn(struct thread *t) {
    if (last_ended != t) tell_last_end();
    tell_last_wait();
    last_turn = t;
    t->dispatches++;
    printf("turn %d t%d\n", ++turns, t->number);
}

/* The thread but `last` that was dispatched, is not told, and was so first. */
static struct thread *first_untold(struct thread *last) {
    struct thread *first = NULL;
    for (int i = 1; i <= thread_count; i++) {
        struct thread *t = threads[i];
        if (t == last || t->stage != LIVE || t->tid == NULL || dispatches_of(t) <= t->dispatches) continue;
        if (first == NULL || was_dispatched_before(t, first)) first = t;
    }
    return first;
}

/* Called by thread t whenever it may have been dispatched. */
void tell_turns(struct thread *t) {
    if (main_is_alone) return;
    for (struct thread *other; (other = first_untold(t)) != NULL;) tell_turn(other);
    if (dispatches_of(t) <= t->dispatches) return;
    while (dispatches_of(t) > t->dispatches) tell_turn(t);
    turn_began = (now() - start + unit / 20) / unit; /* a timer may be early by some microseconds */
}
