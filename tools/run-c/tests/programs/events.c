/* Events: a ring of a time, a message and the end of a thread; an event that is isolated; a function; a descriptor;
   a select with an event ring. */
#include <errno.h>
#include <pth.h>
#include <stdio.h>
#include <unistd.h>

static pth_msgport_t port;
static pth_event_t moment, message, end;
static int pipe_ends[2], count;

static const char *status(pth_event_t event) {
    pth_status_t known = pth_event_status(event);
    return known == PTH_STATUS_PENDING ? "pending" : known == PTH_STATUS_OCCURRED ? "occurred" : "failed";
}

static void wait_and_show(pth_event_t ring) {
    int occurred = pth_wait(ring);
    printf("%d occurred: moment %s, message %s, end %s\n", occurred, status(moment), status(message), status(end));
}

static void *helper(void *unused) {
    static pth_message_t letter;
    pth_yield(NULL);
    pth_msgport_put(port, &letter);
    pth_usleep(10000);
    return unused;
}

/* Each wait ends by another event of the ring: first the message, then the end of the helper, then the time. */
static void show_ring(void) {
    pth_t thread = pth_spawn(PTH_ATTR_DEFAULT, helper, NULL);
    port = pth_msgport_create("letters");
    moment = pth_event(PTH_EVENT_TIME, pth_timeout(0, 50000));
    message = pth_event(PTH_EVENT_MSG | PTH_MODE_CHAIN, moment, port);
    end = pth_event(PTH_EVENT_TID | PTH_UNTIL_TID_DEAD | PTH_MODE_CHAIN, moment, thread);
    wait_and_show(moment);
    pth_msgport_get(port);
    wait_and_show(moment);
    pth_event_isolate(end);
    wait_and_show(moment);
    printf("after the moment comes the %s\n", pth_event_walk(moment, PTH_WALK_NEXT) == message ? "message" : "end");
    pth_event_free(end, PTH_FREE_THIS);
    pth_event_free(moment, PTH_FREE_ALL);
    pth_join(thread, NULL);
    pth_msgport_destroy(port);
}

static int is_three(void *number) {
    return *(int *)number == 3;
}

static void *counter(void *unused) {
    for (; count < 3; count++)
        pth_usleep(5000);
    return unused;
}

static void show_function(void) {
    pth_t thread = pth_spawn(PTH_ATTR_DEFAULT, counter, NULL);
    pth_event_t three = pth_event(PTH_EVENT_FUNC, is_three, &count, pth_time(0, 1000));
    printf("function: %d occurred", pth_wait(three));
    printf(", count is %d\n", count);
    pth_event_free(three, PTH_FREE_THIS);
    pth_join(thread, NULL);
}

static void *writer(void *unused) {
    pth_usleep(5000);
    pth_write(pipe_ends[1], "x", 1);
    return unused;
}

/* A select answers EINTR if an event of its ring occurs first. */
static void show_descriptor(void) {
    fd_set set;
    FD_ZERO(&set);
    FD_SET(pipe_ends[0], &set);
    moment = pth_event(PTH_EVENT_TIME, pth_timeout(0, 10000));
    int answer = pth_select_ev(pipe_ends[0] + 1, &set, NULL, NULL, NULL, moment);
    printf("select: %s, moment %s\n", answer < 0 && errno == EINTR ? "EINTR" : "another answer", status(moment));
    pth_event_free(moment, PTH_FREE_THIS);

    pth_t thread = pth_spawn(PTH_ATTR_DEFAULT, writer, NULL);
    pth_event_t readable = pth_event(PTH_EVENT_FD | PTH_UNTIL_FD_READABLE, pipe_ends[0]);
    printf("descriptor: %d occurred\n", pth_wait(readable));
    pth_event_free(readable, PTH_FREE_THIS);
    pth_join(thread, NULL);
}

int main(void) {
    pth_init();
    if (pipe(pipe_ends) != 0)
        return 1;
    show_ring();
    show_function();
    show_descriptor();
    pth_kill();
    return 0;
}
