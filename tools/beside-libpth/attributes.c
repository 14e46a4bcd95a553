/* Calls of attribute objects. */
#include "play_on_libpth.h"

static struct answer new_object(struct call *c, pth_attr_t attr, long tid) {
    if (attr == NULL) return refusal(errno);
    int n = next_number(&object_count, c->t);
    objects[n] = (struct object){attr, tid, 1};
    return number(n);
}

struct answer attr_new(struct call *c) { return new_object(c, pth_attr_new(), 0); }

struct answer attr_of(struct call *c) {
    struct thread *t = known_thread(c->x[1]);
    return t == NULL ? refusal(ESRCH) : new_object(c, pth_attr_of(t->tid), t->number);
}

struct answer attr_init(struct call *c) {
    struct object *o = known_object(c->x[1]);
    return o == NULL ? refusal(EINVAL) : truth(pth_attr_init(o->attr));
}

struct answer attr_destroy(struct call *c) {
    struct object *o = known_object(c->x[1]);
    if (o == NULL) return refusal(EINVAL);
    o->is_live = 0;
    return truth(pth_attr_destroy(o->attr));
}

static int field_of(const char *word) {
    static const struct { const char *word; int field; } fields[] = {
        {"prio", PTH_ATTR_PRIO}, {"name", PTH_ATTR_NAME}, {"joinable", PTH_ATTR_JOINABLE}, {"cancel", PTH_ATTR_CANCEL_STATE},
        {"dispatches", PTH_ATTR_DISPATCHES}, {"state", PTH_ATTR_STATE}, {"bound", PTH_ATTR_BOUND},
    };
    for (size_t i = 0; i < sizeof fields / sizeof *fields; i++)
        if (is(word, fields[i].word)) return fields[i].field;
    return -1;
}

static int is_of_gone_thread(struct object *o) { return o->tid != 0 && known_thread(o->tid) == NULL; }

struct answer attr_set(struct call *c) {
    struct object *o = known_object(c->x[1]);
    int field = field_of(c->l->word[2]);
    if (o == NULL) return refusal(EINVAL);
    if (is_of_gone_thread(o)) return refusal(ESRCH);
    if (field == PTH_ATTR_NAME) return truth(pth_attr_set(o->attr, field, c->l->word[3]));
    if (field != PTH_ATTR_CANCEL_STATE) return truth(pth_attr_set(o->attr, field, (int)c->x[3]));
    if (c->x[3] < 1 || c->x[3] > 4) return refusal(EINVAL);
    return truth(pth_attr_set(o->attr, field, (unsigned int)cancel_states[c->x[3]]));
}

/* A state by its name: the library has other numbers, and counts a running thread as ready. */
static long number_of_state(pth_state_t state) {
    switch (state) {
    case PTH_STATE_NEW: return 0;
    case PTH_STATE_READY: return 1;
    case PTH_STATE_WAITING: return 3;
    case PTH_STATE_DEAD: return 4;
    default: return -1;
    }
}

struct answer attr_get(struct call *c) {
    struct object *o = known_object(c->x[1]);
    int field = field_of(c->l->word[2]), n = 0;
    char *name = NULL;
    if (o == NULL) return refusal(EINVAL);
    if (is_of_gone_thread(o)) return refusal(ESRCH);
    if (field == PTH_ATTR_NAME) return pth_attr_get(o->attr, field, &name) ? name_answer(name) : refusal(errno);
    if (!pth_attr_get(o->attr, field, &n)) return refusal(errno);
    if (field == PTH_ATTR_CANCEL_STATE) return number(number_of_cancel_state(n));
    return number(field == PTH_ATTR_STATE ? number_of_state(n) : n);
}
