/* What the files of play_on_libpth share. play_on_libpth.c says what the program does. */
#ifndef PLAY_ON_LIBPTH_H
#define PLAY_ON_LIBPTH_H

#include <errno.h>
#include <signal.h>
#include <stdarg.h>
#include <stdio.h>
#include <stdlib.h>
#include <string.h>
#include <unistd.h>
#include <fcntl.h>
#include <pth.h>

enum {WORDS = 12,          /* of a line */
    SECTIONS = 256,      /* handlers, checks, bodies */
    NUMBERS = 100000,    /* threads, events, ports, messages and attribute objects, each ever made */
    LOCKS = 64,          /* mutexes, locks, conditions, barriers, controls, shared registers, descriptors */
    REGISTERS = 16,
    NAME_BYTES = 40,
    TEXT = 5000,         /* bytes of a call as it is told */
    LONGEST = 1000000000 /* seconds of a length of time */
};

struct line {
    int at; /* in the file, from 1 */
    int count;
    char *word[WORDS];
};

struct section {
    int count;
    struct line *lines;
};

struct thread {
    int number;
    pth_t tid;
    pth_attr_t attr; /* bound to tid */
    struct section *body;
    int at;              /* the line in the file that it runs */
    long a[REGISTERS];
    int err;
    long message;        /* the number of its last one */
    int handlers;        /* that the script has pushed */
    int dispatches;      /* that were told */
    char call[TEXT];     /* the call that it makes, or "" */
    enum { BLOCKS_NEVER, MAY_BLOCK, HAS_BLOCKED } blocking; /* of this call */
    unsigned long long mutexes, written; /* those that it has as its ending begins: a bit for each */
    long ring;           /* the event with whose ring it makes this call, or 0 */
    long joins;          /* the thread that it joins by this call, or 0 */
    int leaves;          /* it ends by itself */
    enum { LIVE, DEAD, GONE } stage;
    long value;          /* with which it ended */
};

struct event {
    pth_event_t event;
    int is_live;
    long port, tid;      /* of which it is, or 0 */
    long check, value;   /* of an event of a function */
    fd_set set[3];
    int shown;           /* where the library counts descriptors */
};

struct port {
    pth_msgport_t port; /* NULL once it is destroyed */
};

struct message {
    pth_message_t message; /* the first member: the library knows its address */
    long number, value;
    long at, reply_to;     /* the port at which it is queued; its reply port, or 0 */
    int is_held;
};

struct object {
    pth_attr_t attr;
    long tid; /* of which it is, or 0 */
    int is_live;
};

/* The library makes keys for itself, so its numbers are not the script's. */
struct key {
    pth_key_t key;
    int is_live;
    long destructor;
};

/* What a handler or a destructor is given: for whom it runs, and with which value. */
struct argument {
    struct thread *thread;
    long number; /* of the handler, or of the key */
    long value;
};

struct answer {
    long value;
    int error;
    const char *text; /* if it is not a number */
    int is_told;      /* as by a yield, before it gives up control */
};

struct call {
    struct thread *t;
    struct line *l;     /* from the call's name on */
    long x[WORDS];      /* the values of its words, if they have one */
};

extern struct section handlers[SECTIONS], bodies[SECTIONS];
extern struct line checks[SECTIONS];
extern int handler_count, check_count, body_count;
extern struct thread *threads[NUMBERS];
extern struct event *events[NUMBERS];
extern struct port ports[NUMBERS];
extern struct message *messages[NUMBERS];
extern struct object objects[NUMBERS];
extern int thread_count, event_count, port_count, message_count, object_count;
extern long v[LOCKS];
extern pth_mutex_t mutexes[LOCKS];
extern pth_rwlock_t rwlocks[LOCKS];
extern pth_cond_t conditions[LOCKS];
extern pth_barrier_t barriers[LOCKS];
extern pth_once_t controls[LOCKS];
extern struct key keys[PTH_KEY_MAX];
extern struct thread *last_ended;  /* whose end is still to be told: its destructors come first, then the library gives its mutexes */
extern struct thread *last_turn;   /* that had the last turn that is told */
extern struct thread *victim;      /* whom the current thread ends by a cancel or an abort */
extern int main_is_alone;          /* main's own wait for the others is over */
extern int exit_is_librarys;
extern int turns;
extern long long unit, start;
extern long long turn_began; /* in units from the start */
extern const int cancel_states[5];

/* script.c */
void give_up(int at, const char *why);
void *room(size_t bytes);
int is(const char *word, const char *other);
void read_script(const char *path);

/* numbers.c */
int next_number(int *count, struct thread *t);
struct thread *known_thread(long n);
struct event *known_event(long n);
struct port *known_port(long n);
struct object *known_object(long n);
int is_lock(long n);

/* times.c */
long long now(void);
pth_time_t time_of(long long microseconds);
long long real(long units);
long long rest_of(long units);
long long at_least_1(long long rest);
void use_up_turn(void);

/* telling.c */
int has_mutex(struct thread *t, pth_mutex_t *m);
void note_locks(struct thread *t);
void tell_last_end(void);
int is_in(struct thread *t, const char *call);
void tell_last_wait(void);
void tell(struct thread *t, const char *form, ...);
int dispatches_of(struct thread *t);
void tell_turns(struct thread *t);

/* answers.c */
struct answer number(long value);
struct answer refusal(int error);
struct answer words(long value, const char *text);
struct answer truth(int is_true);
struct answer count(long n);
void tell_answer(struct thread *t, const char *what, struct answer a);

/* operands.c */
long *register_of(struct thread *t, const char *word);
int is_value(struct thread *t, const char *word);
long value_of(struct thread *t, const char *word);
long value_in_act(const char *word, long arg);
int holds(long x, const char *relation, long y);
long sum(long x, long y);

/* endings.c */
void forget_thread(struct thread *t, int at);
void note_cancellation(struct thread *t);
void end_thread(struct thread *t);
void last_handler(void *thread);
struct answer notify(long c, long all);
struct answer release(long m);
int is_no_key(long k);
pth_key_t key_of(long k);
struct answer set_key(struct thread *t, long k, long value);
struct answer put(struct thread *t, long p, long value, long reply_to);
void run_handler(void *argument);
void run_pushed(void *argument);
struct thread *running_thread(void);
void run_destructor(void *argument);

/* threads.c */
int push_last_handler(struct thread *t);
struct thread *new_thread(struct thread *spawner, long body, long a0);
struct answer spawn(struct call *c);
struct answer self(struct call *c);
struct answer yield(struct call *c);
struct answer join(struct call *c);
struct answer cancel(struct call *c);
struct answer abort_thread(struct call *c);
struct answer suspend(struct call *c);
struct answer resume(struct call *c);
long number_of_cancel_state(int state);
struct answer cancel_state(struct call *c);
struct answer cancel_point(struct call *c);
struct answer kill_all(struct call *c);
struct answer name_answer(const char *name);
struct answer ctrl(struct call *c);
struct answer once(struct call *c);

/* attributes.c */
struct answer attr_new(struct call *c);
struct answer attr_of(struct call *c);
struct answer attr_init(struct call *c);
struct answer attr_destroy(struct call *c);
struct answer attr_set(struct call *c);
struct answer attr_get(struct call *c);

/* stores.c */
struct answer cleanup_push(struct call *c);
struct answer cleanup_pop(struct call *c);
struct answer key_create(struct call *c);
struct answer key_delete(struct call *c);
struct answer key_set(struct call *c);
struct answer key_get(struct call *c);

/* events.c */
int is_claimed(struct event *e);
int is_waited_for(struct thread *t);
long claim(struct call *c, long e);
pth_event_t ring_of(long e);
void read_set(struct line *l, int word, fd_set *set);
int descriptor(long f);
struct answer ev_make(struct call *c);
struct answer chain(struct call *c);
struct answer ev_concat(struct call *c);
struct answer ev_isolate(struct call *c);
struct answer ev_walk(struct call *c);
struct answer ev_status(struct call *c);
struct answer ev_kind(struct call *c);
struct answer ev_free(struct call *c);
struct answer wait_for(struct call *c);
struct answer timeout(struct call *c);
struct answer nap(struct call *c);
struct answer usleep_for(struct call *c);
struct answer sleep_for(struct call *c);

/* locks.c */
struct answer mutex_init(struct call *c);
int is_anothers(pth_mutex_t *m);
struct answer mutex_acquire(struct call *c);
struct answer mutex_release(struct call *c);
struct answer rw_init(struct call *c);
struct answer rw_acquire(struct call *c);
struct answer rw_release(struct call *c);
struct answer cond_init(struct call *c);
struct answer cond_await(struct call *c);
struct answer cond_notify(struct call *c);
struct answer barrier_init(struct call *c);
struct answer barrier_reach(struct call *c);

/* ports.c */
struct answer port_create(struct call *c);
struct answer port_find(struct call *c);
struct answer port_pending(struct call *c);
struct answer port_put(struct call *c);
struct answer port_get(struct call *c);
struct answer reply(struct call *c);
struct answer port_destroy(struct call *c);

/* descriptors.c */
struct answer read_from(struct call *c);
struct answer write_to(struct call *c);
struct answer accept_from(struct call *c);
struct answer connect_to(struct call *c);
struct answer select_of(struct call *c);
struct answer fdmode(struct call *c);
struct answer close_it(struct call *c);

/* lines.c */
void *run_body(void *thread);

#endif
