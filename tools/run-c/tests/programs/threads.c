/* Threads and attributes: names, priorities, states, joined values, a detached thread and a suspended thread. */
#include <errno.h>
#include <pth.h>
#include <stdio.h>

static pth_attr_t attributes;

static void *square(void *argument) {
    pth_t self = pth_self();
    long number = (long)argument;
    printf("%s runs at priority %ld\n", (char *)pth_ctrl(PTH_CTRL_GETNAME, self), pth_ctrl(PTH_CTRL_GETPRIO, self));
    return (void *)(number * number);
}

static pth_t start(const char *name, int priority, long number) {
    pth_attr_set(attributes, PTH_ATTR_NAME, name);
    pth_attr_set(attributes, PTH_ATTR_PRIO, priority);
    return pth_spawn(attributes, square, (void *)number);
}

static long joined(pth_t thread) {
    void *value = NULL;
    if (!pth_join(thread, &value))
        return -errno;
    return (long)value;
}

/* The thread with the highest priority runs first, whatever the order of the spawns. */
static void show_priorities(void) {
    pth_t low = start("low", PTH_PRIO_MIN, 2);
    pth_t middle = start("middle", PTH_PRIO_STD, 3);
    pth_t high = start("high", PTH_PRIO_MAX, 4);
    printf("%ld threads, %ld of them new\n", pth_ctrl(PTH_CTRL_GETTHREADS), pth_ctrl(PTH_CTRL_GETTHREADS_NEW));
    printf("low %ld, middle %ld, high %ld\n", joined(low), joined(middle), joined(high));
}

/* A detached thread cannot be joined, and it is removed as soon as it ends. */
static void show_detached(void) {
    pth_attr_set(attributes, PTH_ATTR_JOINABLE, FALSE);
    pth_t detached = start("detached", PTH_PRIO_STD, 5);
    printf("join of the detached thread: %s\n", joined(detached) == -EINVAL ? "EINVAL" : "another answer");
    pth_yield(NULL);
    printf("%ld thread is left\n", pth_ctrl(PTH_CTRL_GETTHREADS));
    pth_attr_set(attributes, PTH_ATTR_JOINABLE, TRUE);
}

/* A suspended thread does not run until it is resumed. */
static void show_suspended(void) {
    pth_t thread = start("suspended", PTH_PRIO_STD, 6);
    pth_suspend(thread);
    pth_yield(NULL);
    printf("%ld thread is suspended\n", pth_ctrl(PTH_CTRL_GETTHREADS_SUSPENDED));
    pth_resume(thread);
    printf("suspended %ld\n", joined(thread));
}

/* An attribute object of a running thread reads and changes the attributes of this thread. */
static void show_bound(void) {
    pth_t thread = start("bound", PTH_PRIO_STD, 7);
    pth_attr_t bound = pth_attr_of(thread);
    pth_state_t state = PTH_STATE_DEAD;
    int priority = 0, joinable = FALSE;
    pth_attr_get(bound, PTH_ATTR_STATE, &state);
    pth_attr_set(bound, PTH_ATTR_PRIO, 3);
    pth_attr_get(bound, PTH_ATTR_PRIO, &priority);
    pth_attr_get(bound, PTH_ATTR_JOINABLE, &joinable);
    printf("bound: new %d, priority %d, joinable %d\n", state == PTH_STATE_NEW, priority, joinable);
    pth_attr_destroy(bound);
    printf("bound %ld\n", joined(thread));
}

int main(void) {
    pth_init();
    attributes = pth_attr_new();
    show_priorities();
    show_detached();
    show_suspended();
    show_bound();
    pth_attr_destroy(attributes);
    pth_kill();
    return 0;
}
