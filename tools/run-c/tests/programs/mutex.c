/* Mutexes: two levels of one mutex, a try, a wait that a time event ends, and errors. */
#include <errno.h>
#include <pth.h>
#include <stdio.h>

static pth_mutex_t mutex = PTH_MUTEX_INIT;

static const char *answer(int holds) {
    return holds              ? "done"
           : errno == EBUSY   ? "EBUSY"
           : errno == EINTR   ? "EINTR"
           : errno == EACCES  ? "EACCES"
           : errno == EDEADLK ? "EDEADLK"
                              : "another error";
}

static void *holder(void *unused) {
    printf("holder acquires: %s\n", answer(pth_mutex_acquire(&mutex, FALSE, NULL)));
    printf("holder acquires again: %s\n", answer(pth_mutex_acquire(&mutex, TRUE, NULL)));
    pth_usleep(60000);
    printf("holder releases one level: %s\n", answer(pth_mutex_release(&mutex)));
    pth_yield(NULL);
    printf("holder releases the other: %s\n", answer(pth_mutex_release(&mutex)));
    return unused;
}

int main(void) {
    pth_init();
    pth_t thread = pth_spawn(PTH_ATTR_DEFAULT, holder, NULL);
    pth_yield(NULL);

    printf("main tries: %s\n", answer(pth_mutex_acquire(&mutex, TRUE, NULL)));
    printf("main releases: %s\n", answer(pth_mutex_release(&mutex)));
    pth_event_t soon = pth_event(PTH_EVENT_TIME, pth_timeout(0, 20000));
    printf("main waits for 20 ms: %s\n", answer(pth_mutex_acquire(&mutex, FALSE, soon)));
    printf("the moment has %s\n", pth_event_status(soon) == PTH_STATUS_OCCURRED ? "come" : "not come");
    pth_event_free(soon, PTH_FREE_THIS);

    printf("main waits: %s\n", answer(pth_mutex_acquire(&mutex, FALSE, NULL)));
    printf("main releases: %s\n", answer(pth_mutex_release(&mutex)));
    printf("main releases once more: %s\n", answer(pth_mutex_release(&mutex)));
    pth_join(thread, NULL);
    pth_kill();
    return 0;
}
