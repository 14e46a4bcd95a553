/* Lines: a body runs line by line. */
#include "play_on_libpth.h"

enum turn_use {
    GOES_ON,
    GIVES_UP, /* may give up control, but never blocks */
    MAY_WAIT, /* may block */
};

static const struct {
    const char *name;
    int words; /* with its name */
    enum turn_use use;
    struct answer (*make)(struct call *);
} calls[] = {
    {"spawn", 4, GOES_ON, spawn}, {"self", 1, GOES_ON, self}, {"yield", 2, GIVES_UP, yield}, {"join", 2, MAY_WAIT, join},
    {"cancel", 2, GOES_ON, cancel}, {"abort", 2, GOES_ON, abort_thread}, {"suspend", 2, GOES_ON, suspend}, {"resume", 2, GOES_ON, resume},
    {"cancel_state", 2, GOES_ON, cancel_state}, {"cancel_point", 1, GOES_ON, cancel_point}, {"kill", 1, GOES_ON, kill_all},
    {"ctrl", 2, GOES_ON, ctrl}, {"once", 4, GOES_ON, once},
    {"attr_new", 1, GOES_ON, attr_new}, {"attr_of", 2, GOES_ON, attr_of}, {"attr_init", 2, GOES_ON, attr_init},
    {"attr_set", 4, GOES_ON, attr_set}, {"attr_get", 3, GOES_ON, attr_get}, {"attr_destroy", 2, GOES_ON, attr_destroy},
    {"cleanup_push", 3, GOES_ON, cleanup_push}, {"cleanup_pop", 2, GOES_ON, cleanup_pop},
    {"key_create", 2, GOES_ON, key_create}, {"key_delete", 2, GOES_ON, key_delete}, {"key_set", 3, GOES_ON, key_set},
    {"key_get", 2, GOES_ON, key_get},
    {"ev_time", 2, GOES_ON, ev_make}, {"ev_fd", 3, GOES_ON, ev_make}, {"ev_select", 4, GOES_ON, ev_make}, {"ev_msg", 2, GOES_ON, ev_make},
    {"ev_cond", 2, GOES_ON, ev_make}, {"ev_tid", 3, GOES_ON, ev_make}, {"ev_func", 4, GOES_ON, ev_make}, {"chain", 4, GOES_ON, chain},
    {"ev_concat", 3, GOES_ON, ev_concat}, {"ev_isolate", 2, GOES_ON, ev_isolate}, {"ev_walk", 3, GOES_ON, ev_walk},
    {"ev_status", 2, GOES_ON, ev_status}, {"ev_kind", 2, GOES_ON, ev_kind}, {"ev_free", 3, GOES_ON, ev_free},
    {"wait", 2, MAY_WAIT, wait_for}, {"timeout", 2, GOES_ON, timeout}, {"nap", 2, MAY_WAIT, nap}, {"usleep", 2, MAY_WAIT, usleep_for},
    {"sleep", 2, MAY_WAIT, sleep_for},
    {"mutex_init", 2, GOES_ON, mutex_init}, {"mutex_acquire", 4, MAY_WAIT, mutex_acquire}, {"mutex_release", 2, GOES_ON, mutex_release},
    {"rw_init", 2, GOES_ON, rw_init}, {"rw_acquire", 5, MAY_WAIT, rw_acquire}, {"rw_release", 2, GOES_ON, rw_release},
    {"cond_init", 2, GOES_ON, cond_init}, {"cond_await", 4, MAY_WAIT, cond_await}, {"cond_notify", 3, GIVES_UP, cond_notify},
    {"barrier_init", 3, GOES_ON, barrier_init}, {"barrier_reach", 2, MAY_WAIT, barrier_reach},
    {"port_create", 2, GOES_ON, port_create}, {"port_find", 2, GOES_ON, port_find}, {"port_pending", 2, GOES_ON, port_pending},
    {"port_put", 4, GOES_ON, port_put}, {"port_get", 2, GOES_ON, port_get}, {"reply", 2, GOES_ON, reply},
    {"port_destroy", 2, GOES_ON, port_destroy},
    {"read", 3, MAY_WAIT, read_from}, {"read_ev", 4, MAY_WAIT, read_from}, {"write", 3, MAY_WAIT, write_to},
    {"write_ev", 4, MAY_WAIT, write_to}, {"accept", 2, MAY_WAIT, accept_from}, {"accept_ev", 3, MAY_WAIT, accept_from},
    {"connect", 2, MAY_WAIT, connect_to}, {"connect_ev", 3, MAY_WAIT, connect_to}, {"select", 5, MAY_WAIT, select_of},
    {"select_ev", 6, MAY_WAIT, select_of}, {"fdmode", 3, GOES_ON, fdmode}, {"close", 2, GOES_ON, close_it},
};

/* Whether this word is a name, whatever it looks like. */
static int is_name(struct line *l, int at) {
    if (is(l->word[0], "attr_set")) return at == 3 && is(l->word[2], "name");
    return is(l->word[0], "port_create") || is(l->word[0], "port_find");
}

/* Reads the values of a call, and writes the call as it is told. */
static void read_call(struct call *c) {
    struct thread *t = c->t;
    struct line *l = c->l;
    int used = snprintf(t->call, TEXT, "%s", l->word[0]);
    if (is(l->word[0], "reply")) used += snprintf(t->call + used, TEXT - used, " %ld", t->message);
    for (int i = 1; i < l->count && used < TEXT; i++) {
        const char *word = l->word[i];
        if (is_name(l, i)) used += snprintf(t->call + used, TEXT - used, " %.*s", NAME_BYTES, word);
        else if (is_value(t, word)) used += snprintf(t->call + used, TEXT - used, " %ld", c->x[i] = value_of(t, word));
        else used += snprintf(t->call + used, TEXT - used, " %s", is(word, "buf") ? "hex:" : word);
    }
}

/* Whether the caller is the last thread at a barrier, whose own mutex it can take. */
static int is_tail(struct call *c) {
    if (!is(c->l->word[0], "barrier_reach") || !is_lock(c->x[1])) return 0;
    return barriers[c->x[1]].br_count == 1 && !is_anothers(&barriers[c->x[1]].br_mutex);
}

static void make_call(struct thread *t, struct line *l, long *to) {
    struct call c = {t, l, {0}};
    size_t i = 0;
    while (i < sizeof calls / sizeof *calls && !is(l->word[0], calls[i].name)) i++;
    if (i == sizeof calls / sizeof *calls || l->count < calls[i].words) give_up(t->at, "no such call");
    read_call(&c);
    if (calls[i].use != GOES_ON) use_up_turn();
    if (calls[i].use == MAY_WAIT && !is_tail(&c)) t->blocking = MAY_BLOCK;
    errno = 0;
    struct answer a = calls[i].make(&c);
    t->ring = 0;
    tell_turns(t);
    t->blocking = BLOCKS_NEVER;
    if (!a.is_told) tell_answer(t, t->call, a);
    t->call[0] = 0;
    t->err = a.error;
    if (to != NULL) *to = a.error != 0 ? -1 : a.value;
}

static long threads_in_queues(void) {
    return pth_ctrl(PTH_CTRL_GETTHREADS_NEW) + pth_ctrl(PTH_CTRL_GETTHREADS_READY) + pth_ctrl(PTH_CTRL_GETTHREADS_WAITING) +
           pth_ctrl(PTH_CTRL_GETTHREADS_SUSPENDED);
}

static int main_alone_waits(void *unused) {
    (void)unused;
    return threads_in_queues() == 1;
}

/* Main's exit, as the manual has it. The library calls the function in each pass. */
static void wait_for_others(struct thread *t, long value) {
    if (threads_in_queues() == 0) return;
    snprintf(t->call, TEXT, "exit %ld", value);
    t->blocking = MAY_BLOCK;
    pth_event_t e = pth_event(PTH_EVENT_FUNC, main_alone_waits, NULL, pth_time(LONGEST, 0));
    pth_wait(e);
    pth_event_free(e, PTH_FREE_THIS);
    tell_turns(t);
    t->blocking = BLOCKS_NEVER;
    t->call[0] = 0;
}

static void leave(struct thread *t, long value) {
    use_up_turn();
    if (t->number == 1 && !exit_is_librarys) {
        wait_for_others(t, value);
        main_is_alone = 1;
    }
    t->leaves = 1;
    t->value = value;
    pth_exit(t);
}

static int place_of(struct thread *t, struct line *l) {
    for (int i = 0; i < t->body->count; i++)
        if (is(t->body->lines[i].word[0], "label") && is(t->body->lines[i].word[1], l->word[1])) return i;
    give_up(l->at, "no such label");
    return 0;
}

/* Runs line i of the body, and answers which comes next. */
static int run_line(struct thread *t, int i) {
    struct line *l = &t->body->lines[i];
    const char *name = l->word[0];
    t->at = l->at;
    if (is(l->word[1], "=") && l->count > 2) {
        struct line call = {l->at, l->count - 2, {NULL}};
        memcpy(call.word, l->word + 2, call.count * sizeof *call.word);
        if (is(call.word[0], "exit")) leave(t, value_of(t, call.word[1]));
        make_call(t, &call, register_of(t, name));
    } else if (is(name, "exit") && l->count == 2) leave(t, value_of(t, l->word[1]));
    else if (is(name, "note") && l->count == 2) tell(t, "note %ld", value_of(t, l->word[1]));
    else if (is(name, "set") && l->count == 3) *register_of(t, l->word[1]) = value_of(t, l->word[2]);
    else if (is(name, "add") && l->count == 3) *register_of(t, l->word[1]) = sum(value_of(t, l->word[1]), value_of(t, l->word[2]));
    else if (is(name, "goto") && l->count == 5) {
        if (holds(value_of(t, l->word[2]), l->word[3], value_of(t, l->word[4]))) return place_of(t, l);
    } else if (!is(name, "label")) make_call(t, l, NULL);
    return i + 1;
}

void *run_body(void *thread) {
    struct thread *t = thread;
    push_last_handler(t);
    tell_turns(t);
    for (int i = 0; i < t->body->count;) i = run_line(t, i);
    leave(t, 0);
    return NULL;
}
