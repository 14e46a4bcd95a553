/* Destructors and cleanup handlers. In a thread that ends by itself they make any call. In a thread that is cancelled
   they release a mutex, notify a condition, put a message and set a value. */
#include <pth.h>
#include <stdio.h>

static pth_key_t event_key, lock_key, rounds_key;
static pth_mutex_t mutex = PTH_MUTEX_INIT, lock = PTH_MUTEX_INIT;
static pth_cond_t cond = PTH_COND_INIT;
static pth_msgport_t port;
static pth_message_t messages[2];

/* Of a thread that ends by itself. */
static void free_event(void *event) {
    printf("the event is freed: %d\n", pth_event_free(event, PTH_FREE_THIS));
    pth_mutex_acquire(&lock, FALSE, NULL);
    pth_usleep(1000);
    pth_mutex_release(&lock);
}

static void *by_itself(void *unused) {
    pth_key_setdata(event_key, pth_event(PTH_EVENT_TIME, pth_timeout(1, 0)));
    pth_yield(NULL);
    return unused;
}

/* Of threads that are cancelled: the same calls for each, with the value of the thread. */
static void put_message(void *message) {
    printf("destructor: the mutex is released: %d\n", pth_mutex_release(&mutex));
    printf("destructor: the message is put: %d\n", pth_msgport_put(port, message));
    printf("destructor: the condition is notified: %d\n", pth_cond_notify(&cond, FALSE));
}

static void set_again(void *value) {
    static int round;
    printf("destructor: round %d\n", ++round);
    pth_key_setdata(rounds_key, value);
}

static void report(void *name) {
    printf("cleanup of %s: it has %s\n", (char *)name, pth_key_getdata(lock_key) ? "a value" : "no value");
}

static void *cancelled(void *message) {
    pth_cleanup_push(report, message == &messages[0] ? "the first" : "the second");
    pth_mutex_acquire(&mutex, FALSE, NULL);
    pth_key_setdata(lock_key, message);
    pth_key_setdata(rounds_key, message);
    for (;;)
        pth_usleep(10000);
    return NULL;
}

static void *waiter(void *unused) {
    pth_mutex_acquire(&lock, FALSE, NULL);
    pth_cond_await(&cond, &lock, NULL);
    pth_mutex_release(&lock);
    return unused;
}

int main(void) {
    pth_init();
    port = pth_msgport_create("port");
    pth_key_create(&event_key, free_event);
    pth_key_create(&lock_key, put_message);
    pth_key_create(&rounds_key, set_again);
    pth_join(pth_spawn(PTH_ATTR_DEFAULT, by_itself, NULL), NULL);
    for (int i = 0; i < 2; i++) {
        pth_t other = pth_spawn(PTH_ATTR_DEFAULT, waiter, NULL);
        pth_t thread = pth_spawn(PTH_ATTR_DEFAULT, cancelled, &messages[i]);
        pth_yield(NULL);
        pth_cancel(thread);
        pth_join(thread, NULL);
        pth_join(other, NULL);
        printf("the condition was notified\n");
        printf("messages: %d\n", pth_msgport_pending(port));
        printf("it is %s\n", pth_msgport_get(port) == &messages[i] ? "its own" : "another");
        printf("main acquires: %d\n", pth_mutex_acquire(&mutex, TRUE, NULL));
        pth_mutex_release(&mutex);
    }
    pth_kill();
    return 0;
}
