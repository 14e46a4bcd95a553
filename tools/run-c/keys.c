/* Keys: a value for each thread, with a destructor. */
#define _GNU_SOURCE
#include "keys.h"
#include "handlers.h"
#include "objects.h"
#include "refusal.h"

#include <errno.h>
#include <string.h>

/* A key. The machine has the values too; this library needs them where no call can ask for them. */
struct key {
    void (*destructor)(void *); /* NULL for none, or if the key is not in use */
    int handler;                /* the handler of the destructor */
};

static struct key keys[PTH_KEY_MAX]; /* the keys */

void keys_begin(void) {
    memset(keys, 0, sizeof keys);
}

static bool is_key(long key) {
    return key >= 0 && key < PTH_KEY_MAX;
}

static void forget_values(int key) {
    for (int i = 1; i <= thread_count(); i++)
        thread_of_number(i)->values[key] = NULL;
}

int key_create(pth_key_t *key, void (*destructor)(void *)) {
    if (!key) {
        errno = EINVAL;
        return FALSE;
    }
    int handler = destructor && !handler_runs() ? handler_take_free() : 0;
    long made = destructor ? call("key_create %d", handler) : call("key_create -");
    if (call_error) {
        if (destructor)
            handler_give_back(handler);
        return FALSE;
    }
    if (!is_key(made))
        fault("key %ld", made);
    keys[made] = (struct key){destructor, handler};
    forget_values(made);
    *key = made;
    return TRUE;
}

static int key_delete(pth_key_t key) {
    call("key_delete %d", key);
    if (call_error)
        return FALSE;
    if (is_key(key)) {
        if (keys[key].destructor)
            handler_give_back(keys[key].handler);
        keys[key].destructor = NULL;
        forget_values(key);
    }
    return TRUE;
}

int key_set(pth_key_t key, const void *value) {
    call("key_set %d %ld", key, value_number(value));
    if (call_error)
        return FALSE;
    struct pth_st *thread = handler_runs() ? handler_thread() : current_thread;
    if (is_key(key))
        thread->values[key] = (void *)value;
    return TRUE;
}

void *key_get(pth_key_t key) {
    if (handler_runs()) /* no act asks for a value */
        return is_key(key) ? handler_thread()->values[key] : NULL;
    long value = call("key_get %d", key);
    return call_error ? NULL : value_of_number(value);
}

/* ---- destructors */

void key_take_destructor(struct pth_st *thread, int key, long value) {
    if (!is_key(key) || !keys[key].destructor)
        fault("the destructor of key %d runs", key);
    thread->values[key] = NULL;
    handler_run_destructor(thread, keys[key].handler, value, key, keys[key].destructor);
}

/* Runs the destructors of all values that the current thread has. Returns false if there is none. */
static bool run_round(void) {
    bool has_run = false;
    for (int key = 0; key < PTH_KEY_MAX; key++) {
        void *value = current_thread->values[key];
        if (!keys[key].destructor || !value)
            continue;
        has_run = true;
        struct call_site site = current_thread->site;
        key_set(key, NULL);
        script_add_comment(current_thread->body, "the destructor runs:");
        keys[key].destructor(value);
        current_thread->site = site;
    }
    return has_run;
}

/* A destructor may end its thread, which leads here again: the rounds go on to be counted. */
void keys_run_destructors(void) {
    while (current_thread->destructor_rounds++ < PTH_DESTRUCTOR_ITERATIONS)
        if (!run_round())
            return;
    for (int key = 0; key < PTH_KEY_MAX; key++)
        if (keys[key].destructor && current_thread->values[key])
            key_set(key, NULL);
}

/* ---- the functions of pth.h */

int pth_key_create(pth_key_t *key, void (*destructor)(void *)) {
    CALL_ENTER();
    return key_create(key, destructor);
}

int pth_key_delete(pth_key_t key) {
    CALL_ENTER();
    return key_delete(key);
}

int pth_key_setdata(pth_key_t key, const void *value) {
    CALL_ENTER();
    return key_set(key, value);
}

void *pth_key_getdata(pth_key_t key) {
    CALL_ENTER();
    return key_get(key);
}
