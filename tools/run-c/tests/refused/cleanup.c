/* A cleanup handler of a cancelled thread acquires a mutex. No act of a handler acquires a mutex. */
#include <pth.h>
#include <stdio.h>

static pth_mutex_t mutex = PTH_MUTEX_INIT;

static void handler(void *unused) {
    (void)unused;
    pth_mutex_acquire(&mutex, FALSE, NULL); /* refused */
    pth_mutex_release(&mutex);
}

static void *worker(void *unused) {
    pth_cleanup_push(handler, NULL);
    pth_sleep(100);
    return unused;
}

int main(void) {
    pth_init();
    pth_yield(NULL);
    puts("before");
    pth_t thread = pth_spawn(PTH_ATTR_DEFAULT, worker, NULL);
    pth_yield(NULL);
    pth_cancel(thread);
    pth_join(thread, NULL);
    puts("after");
    return 0;
}
