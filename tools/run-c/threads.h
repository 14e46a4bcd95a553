/* The C threads, and what runs on their stacks. */
#ifndef THREADS_H
#define THREADS_H

#include "calls.h"

#pragma GCC visibility push(default)
#include <pth.h>
#pragma GCC visibility pop

#include <stdbool.h>
#include <stdint.h>
#include <ucontext.h>

struct cleanup;

/* A call is answered at once, or it waits, once or more often. A pass looks at the ring of a call that waits. */
enum wait { HAS_NOT_WAITED, WAITS, HAS_WAITED };

enum { THREAD_NUMBERS = 1 << 20 }; /* 256 bodies of 4,096 lines spawn fewer threads than that */

/* A thread. It is never freed, so an old pth_t has the machine's answer for a thread that is gone. */
struct pth_st {
    int number;                /* the machine's number, from 1 for main */
    int body;                  /* the body of the script that has its calls */
    int jumps_left;            /* jumps at the head of its body that it has not made */
    bool has_begun, has_ended; /* whether its C function began; whether the machine ended it */
    bool has_pending_call;     /* whether its last call has no answer yet */
    bool ran_handler;          /* whether its last call ran a handler that is none of the script: that of a `once` */
    size_t answer_place;       /* where the answer of its last call stands in the transcript */
    struct call_site site;     /* where the program made its last call */
    uint64_t reads, writes;    /* the descriptors whose arrivals and room its pending call waits for, a bit each */
    ucontext_t context;        /* where its C code goes on */
    char *stack;               /* its stack, or NULL for main and once it is gone */
    size_t stack_size;
    void *(*function)(void *); /* what pth_spawn was given */
    void *argument;
    struct cleanup *cleanups;  /* its cleanup functions, the last pushed first */
    void *values[PTH_KEY_MAX]; /* its values of keys, for C code that no call can ask for */
    int destructor_rounds;     /* how many rounds of destructors it has run as it ends */
    pth_message_t *message;    /* the message that it got last */
    pth_msgport_t reply_port;  /* the reply port of that message, as it was then */
    pth_event_t ring;          /* the ring with which its pending call waits, or NULL */
    enum wait wait;            /* how far that call has come */
    bool is_suspended;         /* whether it was suspended and not resumed */
};

extern struct pth_st *current_thread; /* the thread on whose stack this code runs */
extern struct pth_st *running_thread; /* the thread that the machine dispatched last */

/* Makes main the only thread. */
void threads_begin(void);

/* Returns a thread by its number, and how many threads there ever were. */
struct pth_st *thread_of_number(long number);
int thread_count(void);

/* Notes that the machine has ended a thread, whose stack is given back. */
void thread_end(struct pth_st *thread);

/* Goes on with the thread that the machine dispatched last. Returns when the thread that called this is dispatched. */
void thread_switch(void);

/* Ends the current thread by a call, after its cleanup functions have run. */
__attribute__((noreturn)) void thread_exit(void *value);

#endif
