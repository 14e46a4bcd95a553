/* Endings, handlers and destructors. */
#include "play_on_libpth.h"

void forget_thread(struct thread *t, int at) {
    if (is_waited_for(t)) give_up(at, "a thread is waited for as it goes: in C its block is freed");
    t->stage = GONE;
}

void note_cancellation(struct thread *t) {
    long m;
    if (t->leaves) return;
    t->leaves = 1;
    t->value = -1;
    if (t == victim) tell(t, "canceled");
    else tell(t, "%s canceled", t->call);
    if (t != victim && t->blocking == HAS_BLOCKED && sscanf(t->call, "cond_await %*d %ld", &m) == 1 && has_mutex(t, &mutexes[m]))
        tell(t, "takes mutex %ld", m);
    t->blocking = BLOCKS_NEVER;
}

/* As a handler or a destructor is about to run for thread t. */
static void note_ending(struct thread *t) {
    if (t != victim) tell_turns(t);
    note_cancellation(t);
}

void end_thread(struct thread *t) {
    int is_joinable = 0;
    tell_last_end();
    t->ring = t->joins = 0;
    pth_attr_get(t->attr, PTH_ATTR_JOINABLE, &is_joinable);
    if (is_joinable) t->stage = DEAD;
    else forget_thread(t, t->at);
    note_locks(t);
    last_ended = t;
}

/* The handler that each thread has below those of the script: it runs as the thread ends, and after them. */
void last_handler(void *thread) {
    if (is_in(thread, "kill")) return;
    note_ending(thread);
    end_thread(thread);
}

struct answer notify(long c, long all) {
    if (!is_lock(c)) return refusal(EINVAL);
    return truth(pth_cond_notify(&conditions[c], all != 0));
}

struct answer release(long m) {
    if (!is_lock(m)) return refusal(EINVAL);
    return truth(pth_mutex_release(&mutexes[m]));
}

/* Whether the script's number stands for no key, though it might. For one that can't be a key the library is asked. */
int is_no_key(long k) { return k >= 0 && k < PTH_KEY_MAX && !keys[k].is_live; }

pth_key_t key_of(long k) { return k >= 0 && k < PTH_KEY_MAX ? keys[k].key : PTH_KEY_MAX; }

struct answer set_key(struct thread *t, long k, long value) {
    if (is_no_key(k)) return refusal(ENOENT);
    struct argument *a = room(sizeof *a);
    *a = (struct argument){t, k, value};
    return truth(pth_key_setdata(key_of(k), value != 0 ? a : NULL));
}

struct answer put(struct thread *t, long p, long value, long reply_to) {
    if (known_port(p) == NULL || (reply_to != 0 && known_port(reply_to) == NULL)) return refusal(EINVAL);
    struct message *m = room(sizeof *m);
    *m = (struct message){.number = next_number(&message_count, t), .value = value, .at = p, .reply_to = reply_to};
    messages[m->number] = m;
    m->message.m_replyport = reply_to != 0 ? ports[reply_to].port : NULL;
    return truth(pth_msgport_put(ports[p].port, &m->message));
}

static void make_act(struct thread *t, struct line *l, long arg) {
    const char *name = l->word[0];
    int second = l->count - 1;
    long x = value_in_act(l->word[1], arg), y = value_in_act(l->word[second], arg);
    char text[120];
    struct answer a;
    errno = 0;
    if (is(name, "note")) {
        tell(t, "act note %ld", x);
        return;
    }
    if (is(name, "set")) {
        tell(t, "act set %s %ld", l->word[1], y);
        *register_of(NULL, l->word[1]) = y;
        return;
    }
    if (is(name, "setkey")) a = set_key(t, x, y);
    else if (is(name, "release")) a = release(x);
    else if (is(name, "notify")) a = notify(x, y);
    else if (is(name, "put")) a = put(t, x, y, 0);
    else give_up(l->at, "no such act");
    if (second == 1) snprintf(text, sizeof text, "act %s %ld", name, x);
    else snprintf(text, sizeof text, "act %s %ld %ld", name, x, y);
    if (last_ended == t) note_locks(t); /* without what a destructor has released */
    tell_turns(t);
    tell_answer(t, text, a);
}

static void make_acts(struct thread *t, long handler, long arg) {
    if (handler < 0 || handler >= handler_count) return;
    struct section *s = &handlers[handler];
    for (int i = 0; i < s->count; i++) make_act(t, &s->lines[i], arg);
}

void run_handler(void *argument) {
    struct argument *a = argument;
    tell(a->thread, "handler %ld arg %ld", a->number, a->value);
    make_acts(a->thread, a->number, a->value);
    free(a);
}

void run_pushed(void *argument) {
    struct argument *a = argument;
    a->thread->handlers--;
    if (!is_in(a->thread, "cleanup_pop") && !is_in(a->thread, "kill")) note_ending(a->thread);
    run_handler(argument);
}

struct thread *running_thread(void) {
    pth_t tid = pth_self();
    for (int i = 1; i <= thread_count; i++)
        if (threads[i]->stage != GONE && threads[i]->tid == tid) return threads[i];
    return NULL;
}

void run_destructor(void *argument) {
    struct argument *a = argument;
    struct thread *t = victim != NULL ? victim : running_thread();
    if (t == NULL) t = a->thread;
    tell(t, "destructor %ld arg %ld", a->number, a->value);
    make_acts(t, keys[a->number].destructor, a->value);
    free(a);
}
