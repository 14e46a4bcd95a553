/* Calls of threads. */
#include "play_on_libpth.h"

int push_last_handler(struct thread *t) { return pth_cleanup_push(last_handler, t); }

struct thread *new_thread(struct thread *spawner, long body, long a0) {
    struct thread *t = room(sizeof *t);
    t->body = &bodies[body];
    t->a[0] = a0;
    t->number = spawner != NULL ? next_number(&thread_count, spawner) : ++thread_count;
    threads[t->number] = t;
    return t;
}

struct answer spawn(struct call *c) {
    struct object *o = known_object(c->x[3]);
    if (c->x[1] < 0 || c->x[1] >= body_count || (c->x[3] != 0 && o == NULL)) return refusal(EINVAL);
    if (o != NULL && o->tid != 0 && known_thread(o->tid) == NULL) return refusal(ESRCH);
    if (o != NULL && o->tid != 0) give_up(c->t->at, "a spawn with a bound attribute object: the library reads values that nobody set");
    struct thread *t = new_thread(c->t, c->x[1], c->x[2]);
    t->tid = pth_spawn(o != NULL ? o->attr : PTH_ATTR_DEFAULT, run_body, t);
    if (t->tid == NULL) {
        thread_count--;
        return refusal(errno);
    }
    t->attr = pth_attr_of(t->tid);
    t->dispatches = dispatches_of(t);
    return number(t->number);
}

struct answer self(struct call *c) {
    struct thread *t = running_thread();
    if (t == NULL) give_up(c->t->at, "pth_self is a thread that this tool does not know");
    return number(t->number);
}

static int will_yield_to(struct thread *t, struct thread *to) {
    pth_state_t state = PTH_STATE_DEAD;
    if (to->stage == LIVE) pth_attr_get(to->attr, PTH_ATTR_STATE, &state);
    return to != t && (state == PTH_STATE_NEW || state == PTH_STATE_READY);
}

/* The answer is told before the thread gives up control, as the machine does. If it was wrong, another one comes behind it. */
struct answer yield(struct call *c) {
    struct thread *t = c->t, *to = known_thread(c->x[1]);
    if (c->x[1] != 0 && to == NULL) return refusal(EINVAL);
    int is_told = to == NULL || will_yield_to(t, to);
    if (is_told) tell(t, "%s = 1", t->call);
    errno = 0;
    struct answer a = truth(pth_yield(to != NULL ? to->tid : NULL));
    a.is_told = is_told && a.error == 0;
    return a;
}

static struct thread *first_dead(long value_is_lost) {
    for (int i = 1; i <= thread_count; i++)
        if (threads[i]->stage == DEAD && (threads[i]->value == -1) == value_is_lost) return threads[i];
    return NULL;
}

struct answer join(struct call *c) {
    struct thread *t = known_thread(c->x[1]);
    void *end = NULL;
    if (c->x[1] != 0 && t == NULL) return refusal(ESRCH);
    c->t->joins = c->x[1];
    struct answer a = truth(pth_join(t != NULL ? t->tid : NULL, &end));
    c->t->joins = 0;
    if (a.error != 0) return a;
    if (t == NULL) t = end == PTH_CANCELED ? first_dead(1) : end;
    if (t == NULL) give_up(c->t->at, "the library joined a thread that this tool does not know");
    forget_thread(t, c->t->at);
    return number(t->value);
}

static int cancel_state_of(struct thread *t) {
    unsigned int state = 0;
    pth_attr_get(t->attr, PTH_ATTR_CANCEL_STATE, &state);
    return state;
}

/* After a cancel or an abort that ends a thread at once. One that never ran has no last handler yet. */
static void note_ended(struct thread *t) {
    if (t->stage == LIVE) {
        note_cancellation(t);
        end_thread(t);
    }
    if (last_ended == t) tell_last_end();
}

struct answer cancel(struct call *c) {
    struct thread *t = known_thread(c->x[1]);
    if (t == NULL) return refusal(ESRCH);
    int at_once = t->stage == LIVE && t != c->t && cancel_state_of(t) == (PTH_CANCEL_ENABLE | PTH_CANCEL_ASYNCHRONOUS);
    victim = at_once ? t : NULL;
    struct answer a = truth(pth_cancel(t->tid));
    victim = at_once && a.error == 0 ? t : NULL;
    if (victim != NULL) note_ended(t);
    victim = NULL;
    return a;
}

struct answer abort_thread(struct call *c) {
    struct thread *t = known_thread(c->x[1]);
    if (t == NULL) return refusal(ESRCH);
    int is_dead = t->stage == DEAD;
    victim = t;
    struct answer a = truth(pth_abort(t->tid));
    if (a.error == 0 && !is_dead) note_ended(t);
    if (a.error == 0 && t->stage != GONE) forget_thread(t, c->t->at);
    victim = NULL;
    return a;
}

struct answer suspend(struct call *c) {
    struct thread *t = known_thread(c->x[1]);
    return t == NULL ? refusal(ESRCH) : truth(pth_suspend(t->tid));
}

struct answer resume(struct call *c) {
    struct thread *t = known_thread(c->x[1]);
    return t == NULL ? refusal(ESRCH) : truth(pth_resume(t->tid));
}

/* Cancel states by their numbers in a script. */
const int cancel_states[] = {
    0,
    PTH_CANCEL_ENABLE | PTH_CANCEL_DEFERRED, PTH_CANCEL_DISABLE | PTH_CANCEL_DEFERRED,
    PTH_CANCEL_ENABLE | PTH_CANCEL_ASYNCHRONOUS, PTH_CANCEL_DISABLE | PTH_CANCEL_ASYNCHRONOUS,
};

long number_of_cancel_state(int state) {
    for (int i = 1; i <= 4; i++)
        if (cancel_states[i] == state) return i;
    return -1;
}

struct answer cancel_state(struct call *c) {
    int old = 0;
    if (c->x[1] < 0 || c->x[1] > 4) return refusal(EINVAL);
    pth_cancel_state(cancel_states[c->x[1]], &old);
    return number(number_of_cancel_state(old));
}

struct answer cancel_point(struct call *c) {
    (void)c;
    pth_cancel_point();
    return number(1);
}

struct answer kill_all(struct call *c) {
    struct answer a = truth(pth_kill());
    if (a.error != 0) return a;
    tell(c->t, "kill = 1");
    printf("killed\n");
    fflush(stdout);
    _exit(0);
}

struct answer name_answer(const char *name) {
    static char copy[TEXT];
    snprintf(copy, sizeof copy, "%s", name != NULL ? name : "");
    return words(strlen(copy), copy);
}

struct answer ctrl(struct call *c) {
    static const struct { const char *word; unsigned long query; } counts[] = {
        {"threads", PTH_CTRL_GETTHREADS}, {"new", PTH_CTRL_GETTHREADS_NEW}, {"ready", PTH_CTRL_GETTHREADS_READY},
        {"running", PTH_CTRL_GETTHREADS_RUNNING}, {"waiting", PTH_CTRL_GETTHREADS_WAITING},
        {"suspended", PTH_CTRL_GETTHREADS_SUSPENDED}, {"dead", PTH_CTRL_GETTHREADS_DEAD},
    };
    const char *word = c->l->word[1];
    for (size_t i = 0; i < sizeof counts / sizeof *counts; i++)
        if (is(word, counts[i].word)) return count(pth_ctrl(counts[i].query));
    if (is(word, "favournew")) return count(pth_ctrl(PTH_CTRL_FAVOURNEW, (int)c->x[2]));
    struct thread *t = known_thread(c->x[2]);
    if (t == NULL) return refusal(ESRCH);
    if (is(word, "prio")) return number(pth_ctrl(PTH_CTRL_GETPRIO, t->tid));
    return name_answer((const char *)pth_ctrl(PTH_CTRL_GETNAME, t->tid));
}

struct answer once(struct call *c) {
    if (!is_lock(c->x[1])) return refusal(EINVAL);
    struct argument *a = room(sizeof *a);
    *a = (struct argument){c->t, c->x[2], c->x[3]};
    return truth(pth_once(&controls[c->x[1]], run_handler, a));
}
