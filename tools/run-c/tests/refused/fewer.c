/* A destructor makes a call less for a second cancelled thread. A script has one list of acts for it. The line in the
   message is that of the first instruction of the destructor. */
#include <pth.h>
#include <stdio.h>

static pth_key_t key;
static pth_cond_t cond = PTH_COND_INIT;

static void notify(void *value) { /* refused */
    static int runs;
    (void)value;
    if (runs++ == 0) /* refused */
        pth_cond_notify(&cond, FALSE);
}

static void *worker(void *value) {
    pth_key_setdata(key, value);
    pth_sleep(100);
    return NULL;
}

int main(void) {
    pth_init();
    pth_yield(NULL);
    puts("before");
    pth_cond_notify(&cond, FALSE);
    pth_key_create(&key, notify);
    for (int i = 0; i < 2; i++) {
        pth_t thread = pth_spawn(PTH_ATTR_DEFAULT, worker, &key);
        pth_yield(NULL);
        pth_cancel(thread);
        pth_join(thread, NULL);
    }
    puts("after");
    return 0;
}
