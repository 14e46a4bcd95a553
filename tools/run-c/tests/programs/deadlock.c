/* A deadlock: two threads acquire two mutexes in different orders. Debian's library waits for ever. run-c ends the
   run and names the threads that wait. */
#include <pth.h>
#include <stdio.h>

static pth_mutex_t left = PTH_MUTEX_INIT, right = PTH_MUTEX_INIT;

static void take_both(pth_mutex_t *first, pth_mutex_t *second, const char *name) {
    pth_mutex_acquire(first, FALSE, NULL);
    printf("%s has the first mutex\n", name);
    pth_yield(NULL);
    pth_mutex_acquire(second, FALSE, NULL);
    printf("%s has both mutexes\n", name);
    pth_mutex_release(second);
    pth_mutex_release(first);
}

static void *right_handed(void *unused) {
    take_both(&right, &left, "right");
    return unused;
}

static void *left_handed(void *unused) {
    take_both(&left, &right, "left");
    return unused;
}

int main(void) {
    setvbuf(stdout, NULL, _IOLBF, 0);
    pth_init();
    pth_t a = pth_spawn(PTH_ATTR_DEFAULT, right_handed, NULL), b = pth_spawn(PTH_ATTR_DEFAULT, left_handed, NULL);
    pth_join(a, NULL);
    pth_join(b, NULL);
    pth_kill();
    return 0;
}
