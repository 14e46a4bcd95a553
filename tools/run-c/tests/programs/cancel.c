/* Cancellation: a worker that waits for a condition, a worker that is cancelled at once, and a worker that delays
   its cancellation. */
#include <pth.h>
#include <stdio.h>

static pth_mutex_t mutex = PTH_MUTEX_INIT;
static pth_cond_t work = PTH_COND_INIT;

static void release(void *unused) {
    (void)unused;
    printf("cleanup: the mutex is released: %d\n", pth_mutex_release(&mutex));
}

static void say(void *what) {
    printf("cleanup: %s\n", (char *)what);
}

/* Deferred: the thread ends in its wait. It has the mutex again as its handlers run, the last pushed first. */
static void *deferred(void *unused) {
    pth_cleanup_push(say, "the first pushed");
    pth_mutex_acquire(&mutex, FALSE, NULL);
    pth_cleanup_push(release, NULL);
    pth_cleanup_push(say, "popped");
    pth_cleanup_pop(TRUE);
    for (;;)
        pth_cond_await(&work, &mutex, NULL);
    return unused;
}

/* Asynchronous: the thread ends within the call of pth_cancel, at any place. */
static void *asynchronous(void *unused) {
    pth_cancel_state(PTH_CANCEL_ENABLE | PTH_CANCEL_ASYNCHRONOUS, NULL);
    pth_cleanup_push(say, "at once");
    for (;;)
        pth_yield(NULL);
    return unused;
}

/* Disabled: the thread ends at its first cancellation point after it has enabled its cancellation. */
static void *disabled(void *unused) {
    int before;
    pth_cancel_state(PTH_CANCEL_DISABLE, &before);
    printf("disabled: the state was %s\n", before == PTH_CANCEL_DEFAULT ? "the default" : "another");
    pth_usleep(1000);
    pth_cancel_point();
    printf("disabled: goes on\n");
    pth_cleanup_push(say, "delayed");
    pth_cancel_state(before, NULL);
    pth_cancel_point();
    printf("disabled: never here\n");
    return unused;
}

static void cancel_and_join(const char *name, void *(*function)(void *)) {
    void *value = NULL;
    pth_t thread = pth_spawn(PTH_ATTR_DEFAULT, function, NULL);
    pth_yield(NULL);
    printf("cancel of %s: %d\n", name, pth_cancel(thread));
    pth_join(thread, &value);
    printf("%s has %s\n", name, value == PTH_CANCELED ? "the value PTH_CANCELED" : "another value");
}

int main(void) {
    pth_init();
    cancel_and_join("deferred", deferred);
    printf("main acquires: %d\n", pth_mutex_acquire(&mutex, TRUE, NULL));
    cancel_and_join("asynchronous", asynchronous);
    cancel_and_join("disabled", disabled);
    pth_kill();
    return 0;
}
