/* Events and event rings. events.c makes events, and rings.c has what a call with a ring does. */
#ifndef EVENTS_H
#define EVENTS_H

#include "threads.h"

#include <signal.h>
#include <sys/select.h>

/* What an event of sets was given. */
struct event_sets {
    int *count; /* where the number of members that are ready is put, or NULL */
    int limit;
    fd_set *sets[3];     /* readable, writeable, exceptional */
    uint64_t members[3]; /* what they had when the machine's event was made: machine numbers, a bit each */
};

/* An event. The machine has its status. */
struct pth_event_st {
    int number;                 /* the machine's number */
    unsigned long kind;         /* PTH_EVENT_FD and so on */
    unsigned long spec;         /* what pth_event was given, without modes */
    pth_event_t next, previous; /* its neighbours in its ring, as the machine has them */
    int file;                   /* of an event of a descriptor: the system's number */
    int descriptor;             /* of an event of signals or of a function: the machine's number of its descriptor */
    struct event_sets select;
    sigset_t *signals;
    int *signal;       /* where the signal that came is put, or NULL */
    pth_time_t moment; /* of an event of time; of one of a function: the interval */
    pth_msgport_t port;
    pth_cond_t *cond;
    pth_t thread;
    int (*function)(void *);
    void *argument;
    pth_t waiter;              /* of an event of a function: the thread whose last call with a ring had it */
    long long last_look;       /* when the function was asked last, or that call began */
    long long next_look;       /* before this moment the function is not asked */
    pth_event_t next_function; /* the next event of a function that was made */
};

/* Forgets all events. */
void events_begin(void);

/* Returns the number of an event, or 0 for NULL. */
int event_number(pth_event_t event);

/* Makes the machine's event of sets anew if the program has changed the sets. */
void event_renew_sets(pth_event_t event);

/* Prepares the next call of the current thread, which is given a ring, or NULL. The call waits for what the ring waits
   for. Other calls may be made first, which may change numbers of events of the ring. */
void events_need(pth_event_t ring);

/* Whether events of a ring find more than that they have occurred: the members of sets, or a signal. */
bool events_have_results(pth_event_t ring);

/* Takes what the events of a ring have found, by more calls of the current thread, whose last call waited with it. */
void events_take_results(pth_event_t ring);

#endif
