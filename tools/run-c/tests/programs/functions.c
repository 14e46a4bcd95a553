/* Events of functions: one that holds when it is asked the third time; one that never holds, beside a moment; one that is
   waited for twice; one that ends a wait for a mutex; one of a thread that is suspended meanwhile. */
#include <errno.h>
#include <pth.h>
#include <stdio.h>

static int asked, count;

static int third_time(void *unused) {
    (void)unused;
    return ++asked == 3;
}

static int never(void *unused) {
    (void)unused;
    return 0;
}

static int has_come(void *number) {
    return count >= *(int *)number;
}

static const char *status(pth_event_t event) {
    pth_status_t known = pth_event_status(event);
    return known == PTH_STATUS_PENDING ? "pending" : known == PTH_STATUS_OCCURRED ? "occurred" : "failed";
}

/* No thread can run until the function holds. */
static void show_asking(void) {
    pth_event_t event = pth_event(PTH_EVENT_FUNC, third_time, NULL, pth_time(0, 20000));
    int occurred = pth_wait(event);
    printf("third time: %d occurred, asked %d times\n", occurred, asked);
    printf("it is %s an event of a function\n", pth_event_typeof(event) == PTH_EVENT_FUNC ? "still" : "not");
    int (*function)(void *);
    void *argument;
    pth_time_t interval;
    pth_event_extract(event, &function, &argument, &interval);
    printf("of %s, %ld microseconds\n", function == third_time ? "third_time" : "another", (long)interval.tv_usec);
    pth_event_free(event, PTH_FREE_THIS);
}

static void show_ring(void) {
    pth_event_t moment = pth_event(PTH_EVENT_TIME, pth_timeout(0, 35000));
    pth_event_t event = pth_event(PTH_EVENT_FUNC | PTH_MODE_CHAIN, moment, never, NULL, pth_time(0, 10000));
    int occurred = pth_wait(moment);
    printf("never: %d occurred, moment %s, function %s\n", occurred, status(moment), status(event));
    pth_event_free(moment, PTH_FREE_ALL);
}

static void *counter(void *last) {
    while (count < *(int *)last) {
        pth_usleep(20000);
        count++;
    }
    return NULL;
}

/* The function is asked anew for each wait. */
static void show_two_waits(void) {
    int wanted = 2, last = 4;
    pth_t thread = pth_spawn(PTH_ATTR_DEFAULT, counter, &last);
    pth_event_t event = pth_event(PTH_EVENT_FUNC, has_come, &wanted, pth_time(0, 1000));
    int occurred = pth_wait(event);
    printf("first wait: %d occurred, count %d\n", occurred, count);
    wanted = 4;
    occurred = pth_wait(event);
    printf("second wait: %d occurred, count %d\n", occurred, count);
    pth_event_free(event, PTH_FREE_THIS);
    pth_join(thread, NULL);
}

static pth_mutex_t mutex = PTH_MUTEX_INIT;

static void *holder(void *unused) {
    pth_mutex_acquire(&mutex, FALSE, NULL);
    pth_usleep(20000);
    count++;
    pth_usleep(50000);
    pth_mutex_release(&mutex);
    return unused;
}

static void show_mutex(void) {
    int wanted = 5;
    pth_t thread = pth_spawn(PTH_ATTR_DEFAULT, holder, NULL);
    pth_yield(NULL);
    pth_event_t event = pth_event(PTH_EVENT_FUNC, has_come, &wanted, pth_time(0, 1000));
    int truth = pth_mutex_acquire(&mutex, FALSE, event);
    printf("mutex: %s, function %s\n", truth ? "acquired" : errno == EINTR ? "EINTR" : "an error", status(event));
    pth_event_free(event, PTH_FREE_THIS);
    pth_join(thread, NULL);
}

static void *waiter(void *event) {
    int occurred = pth_wait(event);
    printf("suspended thread: %d occurred, count %d\n", occurred, count);
    return NULL;
}

/* While the thread is suspended, the function comes to hold and ceases to hold, and this is not noticed. */
static void show_suspension(void) {
    int wanted = 6;
    pth_event_t event = pth_event(PTH_EVENT_FUNC, has_come, &wanted, pth_time(0, 1000));
    pth_t thread = pth_spawn(PTH_ATTR_DEFAULT, waiter, event);
    pth_yield(NULL);
    pth_suspend(thread);
    count = 6;
    pth_usleep(20000);
    count = 5;
    pth_resume(thread);
    pth_usleep(20000);
    count = 7;
    pth_join(thread, NULL);
    pth_event_free(event, PTH_FREE_THIS);
}

int main(void) {
    pth_init();
    show_asking();
    show_ring();
    show_two_waits();
    show_mutex();
    show_suspension();
    pth_kill();
    return 0;
}
