/* Events of sets of descriptors: none ready, then one, then two; the program fills the sets again; a set of descriptors
   that can be written; a ring with which a thread waits for a mutex. */
#include <errno.h>
#include <pth.h>
#include <stdio.h>
#include <unistd.h>

static int one[2], two[2];

static void fill(fd_set *set, int with_two) {
    FD_ZERO(set);
    FD_SET(one[0], set);
    if (with_two)
        FD_SET(two[0], set);
}

static void show(const char *what, int occurred, int count, fd_set *set) {
    printf("%s: %d occurred, count %d, one %s, two %s\n", what, occurred, count, FD_ISSET(one[0], set) ? "is set" : "-",
           FD_ISSET(two[0], set) ? "is set" : "-");
}

static void *writer(void *both) {
    pth_usleep(10000);
    write(one[1], "1", 1);
    if (both)
        write(two[1], "2", 1);
    return NULL;
}

static void show_reads(void) {
    char byte;
    fd_set set;
    int count = -1, limit = (one[0] > two[0] ? one[0] : two[0]) + 1;
    fill(&set, 1);
    pth_event_t event = pth_event(PTH_EVENT_SELECT, &count, limit, &set, NULL, NULL);
    pth_event_t moment = pth_event(PTH_EVENT_TIME | PTH_MODE_CHAIN, event, pth_timeout(0, 10000));
    int occurred = pth_wait(event);
    show("moment", occurred, count, &set);
    pth_event_isolate(moment);
    pth_event_free(moment, PTH_FREE_THIS);

    pth_t thread = pth_spawn(PTH_ATTR_DEFAULT, writer, NULL);
    occurred = pth_wait(event);
    show("one", occurred, count, &set);
    pth_join(thread, NULL);
    pth_read(one[0], &byte, 1);

    fill(&set, 1); /* the wait above has left one of them */
    thread = pth_spawn(PTH_ATTR_DEFAULT, writer, "");
    occurred = pth_wait(event);
    show("both", occurred, count, &set);
    pth_join(thread, NULL);
    pth_read(two[0], &byte, 1);

    fill(&set, 0); /* another set than before */
    occurred = pth_wait(event);
    show("the first only", occurred, count, &set);
    pth_read(one[0], &byte, 1);
    pth_event_free(event, PTH_FREE_THIS);
}

static void show_writes(void) {
    fd_set set;
    int count = -1;
    FD_ZERO(&set);
    FD_SET(one[1], &set);
    pth_event_t event = pth_event(PTH_EVENT_SELECT, &count, one[1] + 1, NULL, &set, NULL);
    int occurred = pth_wait(event);
    printf("write: %d occurred, count %d, %s\n", occurred, count, FD_ISSET(one[1], &set) ? "is set" : "-");
    pth_event_free(event, PTH_FREE_THIS);
}

static pth_mutex_t mutex = PTH_MUTEX_INIT;

static void *holder(void *unused) {
    pth_mutex_acquire(&mutex, FALSE, NULL);
    writer(unused);
    pth_usleep(30000);
    pth_mutex_release(&mutex);
    return unused;
}

static void show_mutex(void) {
    fd_set set;
    int count = -1;
    pth_t thread = pth_spawn(PTH_ATTR_DEFAULT, holder, NULL);
    pth_yield(NULL);
    fill(&set, 0);
    pth_event_t event = pth_event(PTH_EVENT_SELECT, &count, one[0] + 1, &set, NULL, NULL);
    int truth = pth_mutex_acquire(&mutex, FALSE, event);
    printf("mutex: %s\n", truth ? "acquired" : errno == EINTR ? "EINTR" : "an error");
    show("mutex", pth_event_status(event) == PTH_STATUS_OCCURRED, count, &set);
    pth_event_free(event, PTH_FREE_THIS);
    pth_join(thread, NULL);
}

int main(void) {
    pth_init();
    if (pipe(one) != 0 || pipe(two) != 0)
        return 1;
    show_reads();
    show_writes();
    show_mutex();
    pth_kill();
    return 0;
}
