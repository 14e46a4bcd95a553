/* Keys and pth_once: the first thread makes two keys, destructors run as threads end, and a destructor sets its
   value again. */
#include <pth.h>
#include <stdio.h>

static pth_once_t once = PTH_ONCE_INIT;
static pth_key_t name_key, rounds_key;

static void name_ends(void *value) {
    printf("destructor: the name is %s\n", (char *)value);
}

/* The destructor runs again for the value that it sets, in at most PTH_DESTRUCTOR_ITERATIONS rounds. */
static void round_ends(void *value) {
    static int round;
    printf("destructor: round %d\n", ++round);
    pth_key_setdata(rounds_key, value);
}

static void make_keys(void *unused) {
    (void)unused;
    printf("the keys are made\n");
    pth_key_create(&name_key, name_ends);
    pth_key_create(&rounds_key, round_ends);
}

static void *worker(void *name) {
    pth_once(&once, make_keys, NULL);
    printf("before: %s\n", pth_key_getdata(name_key) ? "a value" : "no value");
    pth_key_setdata(name_key, name);
    pth_yield(NULL);
    printf("after: %s\n", (char *)pth_key_getdata(name_key));
    if (*(char *)name == 'b')
        pth_key_setdata(rounds_key, &once);
    return NULL;
}

int main(void) {
    pth_init();
    pth_t a = pth_spawn(PTH_ATTR_DEFAULT, worker, "a"), b = pth_spawn(PTH_ATTR_DEFAULT, worker, "b");
    pth_join(a, NULL);
    pth_join(b, NULL);
    printf("main has %s\n", pth_key_getdata(name_key) ? "a value" : "no value");
    pth_key_setdata(name_key, "main");
    printf("delete: %d\n", pth_key_delete(name_key));
    printf("set after the delete: %d\n", pth_key_setdata(name_key, "main"));
    pth_kill();
    return 0;
}
