/* Condition variables: a bounded buffer of two producers and two consumers, and a wait that a time event ends. On
   Debian's library the last wait answers 1, as after a notify. On the machine it answers EINTR. */
#include <errno.h>
#include <pth.h>
#include <stdio.h>

enum { ROOM = 2, ITEMS = 3 };

static pth_mutex_t mutex = PTH_MUTEX_INIT;
static pth_cond_t not_full = PTH_COND_INIT, not_empty = PTH_COND_INIT, never = PTH_COND_INIT;
static int buffer[ROOM], count;

static void put(int item) {
    pth_mutex_acquire(&mutex, FALSE, NULL);
    while (count == ROOM)
        pth_cond_await(&not_full, &mutex, NULL);
    buffer[count++] = item;
    pth_cond_notify(&not_empty, FALSE);
    pth_mutex_release(&mutex);
}

static int take(void) {
    pth_mutex_acquire(&mutex, FALSE, NULL);
    while (count == 0)
        pth_cond_await(&not_empty, &mutex, NULL);
    int item = buffer[--count];
    pth_cond_notify(&not_full, FALSE);
    pth_mutex_release(&mutex);
    return item;
}

static void *producer(void *first) {
    for (long i = 0; i < ITEMS; i++)
        put((int)((long)first + i));
    return NULL;
}

static void *consumer(void *unused) {
    long sum = 0;
    (void)unused;
    for (int i = 0; i < ITEMS; i++)
        sum += take();
    return (void *)sum;
}

int main(void) {
    void *sums[2];
    pth_init();
    pth_t consumers[2] = {pth_spawn(PTH_ATTR_DEFAULT, consumer, NULL), pth_spawn(PTH_ATTR_DEFAULT, consumer, NULL)};
    pth_spawn(PTH_ATTR_DEFAULT, producer, (void *)1);
    pth_spawn(PTH_ATTR_DEFAULT, producer, (void *)100);
    pth_join(consumers[0], &sums[0]);
    pth_join(consumers[1], &sums[1]);
    printf("the sum of all items is %ld, and %d are left\n", (long)sums[0] + (long)sums[1], count);

    pth_event_t soon = pth_event(PTH_EVENT_TIME, pth_timeout(0, 20000));
    pth_mutex_acquire(&mutex, FALSE, NULL);
    int notified = pth_cond_await(&never, &mutex, soon);
    printf("await: %s; the moment has %s\n",
           notified         ? "1"
           : errno == EINTR ? "EINTR"
                            : "another error",
           pth_event_status(soon) == PTH_STATUS_OCCURRED ? "come" : "not come");
    pth_mutex_release(&mutex);
    pth_event_free(soon, PTH_FREE_THIS);
    pth_kill();
    return 0;
}
