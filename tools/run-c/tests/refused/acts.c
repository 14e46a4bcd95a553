/* acts WHICH: a destructor makes a call more for a second cancelled thread, or other calls. A script has one list of acts
   for it. */
#include <pth.h>
#include <stdio.h>
#include <string.h>

static pth_key_t key;
static pth_mutex_t mutex = PTH_MUTEX_INIT;
static pth_cond_t cond = PTH_COND_INIT;
static int makes_others;

static void unlock(void *value) {
    static int runs;
    (void)value;
    runs++;
    pth_mutex_release(&mutex);
    if (makes_others || runs == 2)
        pth_cond_notify(&cond, runs == 2); /* refused */
}

static void *worker(void *value) {
    pth_mutex_acquire(&mutex, FALSE, NULL);
    pth_key_setdata(key, value);
    pth_sleep(100);
    return NULL;
}

int main(int words, char **word) {
    pth_init();
    pth_yield(NULL);
    puts("before");
    makes_others = words > 1 && strcmp(word[1], "others") == 0;
    pth_cond_notify(&cond, FALSE);
    pth_key_create(&key, unlock);
    for (int i = 0; i < 2; i++) {
        pth_t thread = pth_spawn(PTH_ATTR_DEFAULT, worker, &mutex);
        pth_yield(NULL);
        pth_cancel(thread);
        pth_join(thread, NULL);
    }
    puts("after");
    return 0;
}
