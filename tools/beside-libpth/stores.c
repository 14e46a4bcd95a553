/* Calls of cleanups and keys. */
#include "play_on_libpth.h"

struct answer cleanup_push(struct call *c) {
    struct argument *a = room(sizeof *a);
    *a = (struct argument){c->t, c->x[1], c->x[2]};
    c->t->handlers++;
    return truth(pth_cleanup_push(run_pushed, a));
}

struct answer cleanup_pop(struct call *c) {
    struct thread *t = c->t;
    if (t->handlers > 0) {
        if (c->x[1] == 0) t->handlers--;
        return truth(pth_cleanup_pop(c->x[1] != 0));
    }
    pth_cleanup_pop(0); /* the last handler, which is not the script's */
    errno = 0;
    struct answer a = truth(pth_cleanup_pop(c->x[1] != 0));
    push_last_handler(t);
    return a;
}

struct answer key_create(struct call *c) {
    int k = 0;
    pth_key_t key;
    int has_destructor = !is(c->l->word[1], "-");
    if (!pth_key_create(&key, has_destructor ? run_destructor : NULL)) return refusal(errno);
    while (keys[k].is_live) k++;
    keys[k] = (struct key){key, 1, c->x[1]};
    return number(k);
}

struct answer key_delete(struct call *c) {
    if (is_no_key(c->x[1])) return refusal(ENOENT);
    struct answer a = truth(pth_key_delete(key_of(c->x[1])));
    if (a.error == 0) keys[c->x[1]].is_live = 0;
    return a;
}

struct answer key_set(struct call *c) { return set_key(c->t, c->x[1], c->x[2]); }

struct answer key_get(struct call *c) {
    if (is_no_key(c->x[1])) return refusal(ENOENT);
    struct argument *a = pth_key_getdata(key_of(c->x[1]));
    return a != NULL ? number(a->value) : errno != 0 ? refusal(errno) : number(0);
}
