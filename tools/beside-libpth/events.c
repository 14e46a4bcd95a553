/* Calls of events, rings and time. */
#include "play_on_libpth.h"

static int event_number(pth_event_t event) {
    for (int i = event_count; i >= 1; i--)
        if (events[i]->is_live && events[i]->event == event) return i;
    return 0;
}

/* Whether some thread makes a call with event n. */
static int has_claim(int n) {
    for (int i = 1; i <= thread_count; i++)
        if (threads[i]->stage == LIVE && threads[i]->ring == n) return 1;
    return 0;
}

int is_claimed(struct event *e) {
    pth_event_t at = e->event;
    do {
        int n = event_number(at);
        if (n != 0 && has_claim(n)) return 1;
        at = pth_event_walk(at, PTH_WALK_NEXT);
    } while (at != e->event);
    return 0;
}

int is_waited_for(struct thread *t) {
    for (int i = 1; i <= thread_count; i++)
        if (threads[i]->stage == LIVE && threads[i]->joins == t->number) return 1;
    for (int i = 1; i <= event_count; i++)
        if (events[i]->is_live && events[i]->tid == t->number && is_claimed(events[i])) return 1;
    return 0;
}

static void check_ring(struct call *c, long e) {
    for (pth_event_t at = events[e]->event;;) {
        struct event *other = known_event(event_number(at));
        if (other != NULL && other->port != 0 && known_port(other->port) == NULL)
            give_up(c->t->at, "an event of a port that is gone: in C its block is freed");
        if (other != NULL && other->tid != 0 && known_thread(other->tid) == NULL)
            give_up(c->t->at, "an event of a thread that is gone: in C its block is freed");
        at = pth_event_walk(at, PTH_WALK_NEXT);
        if (at == events[e]->event) return;
    }
}

/* The ring with which a call may wait. 0 if it was given none, -1 with errno if it may not. */
long claim(struct call *c, long e) {
    if (e == 0) return 0;
    errno = known_event(e) == NULL ? EINVAL : is_claimed(events[e]) ? EBUSY : 0;
    if (errno != 0) return -1;
    check_ring(c, e);
    return c->t->ring = e;
}

pth_event_t ring_of(long e) { return e > 0 ? events[e]->event : NULL; }

static int ask_check(void *argument) {
    struct event *e = argument;
    if (e->check < 0 || e->check >= check_count) return 0;
    struct line *l = &checks[e->check];
    return holds(value_in_act(l->word[2], e->value), l->word[3], value_in_act(l->word[4], e->value));
}

void read_set(struct line *l, int word, fd_set *set) {
    FD_ZERO(set);
    if (is(l->word[word], "-")) return;
    for (char *p = l->word[word]; *p != 0; p += *p == ',') FD_SET((int)strtol(p, &p, 10) % LOCKS, set);
}

int descriptor(long f) { return is_lock(f) ? (int)f : -1; }

static unsigned long goals_of(const char *word) {
    return (strchr(word, 'r') ? PTH_UNTIL_FD_READABLE : 0) | (strchr(word, 'w') ? PTH_UNTIL_FD_WRITEABLE : 0) |
           (strchr(word, 'x') ? PTH_UNTIL_FD_EXCEPTION : 0);
}

static unsigned long state_of(const char *word) {
    return is(word, "new") ? PTH_UNTIL_TID_NEW : is(word, "ready") ? PTH_UNTIL_TID_READY :
           is(word, "waiting") ? PTH_UNTIL_TID_WAITING : PTH_UNTIL_TID_DEAD;
}

/* pth_event with PTH_MODE_CHAIN has the ring behind the specification, and without it has not. */
#define EVENT(spec, ...) (ring != NULL ? pth_event((spec) | PTH_MODE_CHAIN, ring, __VA_ARGS__) : pth_event((spec), __VA_ARGS__))

static pth_event_t event_of(struct call *c, struct event *e, pth_event_t ring, int at) {
    const char *name = c->l->word[at];
    long x = c->x[at + 1], y = c->x[at + 2], z = c->x[at + 3];
    errno = EINVAL;
    if (is(name, "ev_time")) return x < 0 ? NULL : EVENT(PTH_EVENT_TIME, time_of(start + real(x)));
    if (is(name, "ev_fd")) return EVENT(PTH_EVENT_FD | goals_of(c->l->word[at + 1]), descriptor(y));
    if (is(name, "ev_cond")) return is_lock(x) ? EVENT(PTH_EVENT_COND, &conditions[x]) : NULL;
    if (is(name, "ev_msg")) {
        if (known_port(x) == NULL) give_up(c->t->at, "an event of no port: C has no such call");
        e->port = x;
        return EVENT(PTH_EVENT_MSG, ports[x].port);
    }
    if (is(name, "ev_tid")) {
        if (known_thread(y) == NULL) give_up(c->t->at, "an event of no thread: C has no such call");
        e->tid = y;
        return EVENT(PTH_EVENT_TID | state_of(c->l->word[at + 1]), threads[y]->tid);
    }
    if (is(name, "ev_func")) {
        e->check = x;
        e->value = y;
        return z < 0 ? NULL : EVENT(PTH_EVENT_FUNC, ask_check, e, time_of(real(z)));
    }
    if (!is(name, "ev_select")) give_up(c->t->at, "no such event");
    for (int i = 0; i < 3; i++) read_set(c->l, at + 1 + i, &e->set[i]);
    return EVENT(PTH_EVENT_SELECT, &e->shown, LOCKS, &e->set[0], &e->set[1], &e->set[2]);
}

static struct answer make_event(struct call *c, pth_event_t ring, int at) {
    struct event *e = room(sizeof *e);
    e->event = event_of(c, e, ring, at);
    if (e->event == NULL) return refusal(errno);
    e->is_live = 1;
    int n = next_number(&event_count, c->t);
    events[n] = e;
    return number(n);
}

struct answer ev_make(struct call *c) { return make_event(c, NULL, 0); }

struct answer chain(struct call *c) {
    struct event *e = known_event(c->x[1]);
    if (e == NULL) return refusal(EINVAL);
    return is_claimed(e) ? refusal(EBUSY) : make_event(c, e->event, 2);
}

struct answer ev_concat(struct call *c) {
    struct event *e = known_event(c->x[1]), *f = known_event(c->x[2]);
    if (e == NULL || f == NULL) return refusal(EINVAL);
    if (is_claimed(e) || is_claimed(f)) return refusal(EBUSY);
    return number(event_number(pth_event_concat(e->event, f->event, NULL)));
}

struct answer ev_isolate(struct call *c) {
    struct event *e = known_event(c->x[1]);
    if (e == NULL) return refusal(EINVAL);
    return is_claimed(e) ? refusal(EBUSY) : number(event_number(pth_event_isolate(e->event)));
}

static int has_occurred(pth_event_t first) {
    pth_event_t at = first;
    do {
        if (pth_event_status(at) == PTH_STATUS_OCCURRED) return 1;
        at = pth_event_walk(at, PTH_WALK_NEXT);
    } while (at != first);
    return 0;
}

/* If no event of the ring has occurred, pth_event_walk would walk for ever: the answer is the machine's then. */
struct answer ev_walk(struct call *c) {
    struct event *e = known_event(c->x[1]);
    const char *word = c->l->word[2];
    if (e == NULL) return refusal(EINVAL);
    unsigned int way = strncmp(word, "next", 4) == 0 ? PTH_WALK_NEXT : PTH_WALK_PREV;
    if (strchr(word, '_') != NULL) {
        if (!has_occurred(e->event)) return refusal(ENOENT);
        way |= PTH_UNTIL_OCCURRED;
    }
    return number(event_number(pth_event_walk(e->event, way)));
}

struct answer ev_status(struct call *c) {
    struct event *e = known_event(c->x[1]);
    if (e == NULL) return refusal(EINVAL);
    pth_status_t s = pth_event_status(e->event);
    return number(s == PTH_STATUS_PENDING ? 0 : s == PTH_STATUS_OCCURRED ? 1 : 2);
}

struct answer ev_kind(struct call *c) {
    static const unsigned long kinds[] = {
        0, PTH_EVENT_FD, PTH_EVENT_SELECT, PTH_EVENT_TIME, PTH_EVENT_MSG, PTH_EVENT_TID, PTH_EVENT_FUNC, PTH_EVENT_COND,
    };
    struct event *e = known_event(c->x[1]);
    if (e == NULL) return refusal(EINVAL);
    for (int i = 1; i <= 7; i++)
        if (pth_event_typeof(e->event) & kinds[i]) return number(i);
    return number(-1);
}

static void forget_ring(struct event *e) {
    for (pth_event_t at = pth_event_walk(e->event, PTH_WALK_NEXT); at != e->event; at = pth_event_walk(at, PTH_WALK_NEXT)) {
        struct event *other = known_event(event_number(at));
        if (other != NULL) other->is_live = 0;
    }
}

struct answer ev_free(struct call *c) {
    struct event *e = known_event(c->x[1]);
    int all = is(c->l->word[2], "all");
    if (e == NULL) return refusal(EINVAL);
    if (is_claimed(e)) return refusal(EBUSY);
    if (all) forget_ring(e);
    e->is_live = 0;
    return truth(pth_event_free(e->event, all ? PTH_FREE_ALL : PTH_FREE_THIS));
}

struct answer wait_for(struct call *c) {
    if (c->x[1] == 0) return refusal(EINVAL);
    return claim(c, c->x[1]) < 0 ? refusal(errno) : count(pth_wait(ring_of(c->x[1])));
}

struct answer timeout(struct call *c) {
    if (c->x[1] < 0) return refusal(EINVAL);
    long long gone = now() - start - turn_began * unit; /* since the turn began, which took no time yet for the script */
    pth_time_t length = time_of(real(c->x[1])), moment = pth_timeout(length.tv_sec, length.tv_usec);
    return number((moment.tv_sec * 1000000LL + moment.tv_usec - start - gone + unit / 2) / unit);
}

struct answer nap(struct call *c) { return c->x[1] < 0 ? refusal(EINVAL) : truth(pth_nap(time_of(rest_of(c->x[1])))); }

struct answer usleep_for(struct call *c) {
    if (c->x[1] < 0) return refusal(EINVAL);
    return count(pth_usleep(at_least_1(rest_of(c->x[1]))));
}

struct answer sleep_for(struct call *c) { return c->x[1] < 0 ? refusal(EINVAL) : number(pth_sleep(c->x[1] * unit)); }
