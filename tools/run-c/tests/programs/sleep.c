/* Sleep and time: sleepers wake in the order of their times, a time event ends a join, and each call that sleeps. */
#include <errno.h>
#include <pth.h>
#include <stdio.h>
#include <time.h>

static void *sleeper(void *milliseconds) {
    long length = (long)milliseconds;
    pth_nap(pth_time(0, length * 1000));
    printf("%ld ms are over\n", length);
    return NULL;
}

/* Waits until a thread ends, but not longer than a time. Returns whether the thread has ended. */
static int ends_within(pth_t thread, long milliseconds) {
    pth_event_t end = pth_event(PTH_EVENT_TID | PTH_UNTIL_TID_DEAD, thread);
    pth_event_t moment = pth_event(PTH_EVENT_TIME | PTH_MODE_CHAIN, end, pth_timeout(0, milliseconds * 1000));
    pth_wait(end);
    int has_ended = pth_event_status(end) == PTH_STATUS_OCCURRED;
    pth_event_free(moment, PTH_FREE_ALL);
    return has_ended;
}

int main(void) {
    struct timespec length = {0, 5000000};
    pth_init();
    pth_t slow = pth_spawn(PTH_ATTR_DEFAULT, sleeper, (void *)160);
    pth_t quick = pth_spawn(PTH_ATTR_DEFAULT, sleeper, (void *)40);
    pth_spawn(PTH_ATTR_DEFAULT, sleeper, (void *)80);
    printf("the quick thread ends within 10 ms: %d\n", ends_within(quick, 10));
    printf("the slow thread ends within 500 ms: %d\n", ends_within(slow, 500));

    printf("usleep %d\n", pth_usleep(5000));
    printf("nanosleep %d\n", pth_nanosleep(&length, NULL));
    printf("sleep %u\n", pth_sleep(1));
    pth_time_t later = pth_timeout(2, 0), sooner = pth_timeout(1, 0);
    printf("a later moment comes later: %d\n", later.tv_sec > sooner.tv_sec);
    pth_kill();
    return 0;
}
