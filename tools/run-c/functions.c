/* Events of functions. */
#define _GNU_SOURCE
#include "functions.h"
#include "arrivals.h"
#include "descriptors.h"
#include "events.h"
#include "places.h"
#include "refusal.h"
#include "session.h"

#include <errno.h>
#include <stdio.h>
#include <string.h>
#include <time.h>

enum { SHORTEST_INTERVAL = 100 }; /* microseconds, while no thread can run */

/* Whether a pass follows, in which no function was asked yet. */
enum pass { NO_PASS, PASS_AFTER_TURN, PASS_AFTER_IDLE };

static struct pth_event_st *first;       /* the events of functions, in the order in which they were made */
static bool is_taken[DESCRIPTORS];       /* the descriptors of functions that belong to an event */
static enum pass pass;                   /* which pass follows */
static long long last_pass;              /* the moment of the last pass in which functions were asked */
static const struct pth_event_st *asked; /* the event whose function is being asked, or NULL */

void functions_begin(void) {
    first = NULL;
    memset(is_taken, 0, sizeof is_taken);
    pass = NO_PASS;
    last_pass = 0;
    asked = NULL;
}

/* ---- events */

int function_take_descriptor(void) {
    int number = 0;
    while (number < DESCRIPTORS && (descriptors[number].kind != FUNCTION || is_taken[number]))
        number++;
    if (number == DESCRIPTORS) {
        number = descriptor_add(-1);
        descriptors[number].kind = FUNCTION;
        script_open(number);
    }
    is_taken[number] = true;
    return number;
}

void function_give_back(int descriptor) {
    is_taken[descriptor] = false;
}

void function_add(pth_event_t event) {
    struct pth_event_st **end = &first;
    while (*end)
        end = &(*end)->next_function;
    *end = event;
}

void function_remove(pth_event_t event) {
    struct pth_event_st **at = &first;
    while (*at && *at != event)
        at = &(*at)->next_function;
    if (*at)
        *at = event->next_function;
}

void function_clear(pth_event_t event) {
    if (descriptors[event->descriptor].unread == 0)
        return;
    script_add_comment(current_thread->body, "the function of the event is to be asked anew:");
    call("read %d 1", event->descriptor);
    descriptors[event->descriptor].unread = 0;
}

void functions_release(void) {
    for (struct pth_event_st *event = first; event; event = event->next_function)
        if (event->waiter == current_thread)
            event->waiter = NULL;
}

void function_claim(pth_event_t event) {
    event->waiter = current_thread;
    event->next_look = event->last_look = session.now;
}

/* Whether the function of an event is to be asked: a thread waits with it, and it has not held since. */
static bool is_watched(const struct pth_event_st *event) {
    const struct pth_st *thread = event->waiter;
    return thread && thread->ring && thread->wait == WAITS && !thread->is_suspended && !thread->has_ended &&
           descriptors[event->descriptor].unread == 0;
}

/* ---- asking */

static long long interval(const struct pth_event_st *event) {
    long long length = event->moment.tv_sec * 1000000LL + event->moment.tv_usec;
    return length < 0 ? 0 : length;
}

/* Asks a function at a moment. Returns whether it holds, or held in the recording. */
static bool ask(struct pth_event_st *event, long long moment) {
    int saved = errno;
    asked = event;
    bool holds = event->function(event->argument);
    asked = NULL;
    errno = saved;
    event->last_look = moment;
    event->next_look = moment + interval(event);
    if (session_is_again())
        holds = script_has_arrival(event->descriptor, moment);
    else if (holds)
        script_add_arrival(moment, event->descriptor, "in 01", false);
    descriptors[event->descriptor].unread = holds;
    return holds;
}

/* Asks the functions that are due at a moment, each at most once. Returns whether one of them holds. */
static bool ask_all(long long moment) {
    bool holds = false;
    for (struct pth_event_st *event = first; event; event = event->next_function)
        if (is_watched(event) && event->next_look <= moment && event->last_look < moment)
            holds |= ask(event, moment);
    return holds;
}

void functions_refuse_calls(void) {
    char function[PLACE_BYTES];
    if (!asked)
        return;
    place_of_function(asked->function, function);
    refuse("%s, the function of an event, makes this call, and it runs for no thread", function);
}

/* ---- passes */

void functions_see(const char *line) {
    struct pth_st *thread;
    int number;
    size_t length = strlen(line);
    if (strncmp(line, "turn ", 5) == 0) {
        pass = PASS_AFTER_TURN;
    } else if (strncmp(line, "idle ", 5) == 0) {
        pass = PASS_AFTER_IDLE;
    } else if (sscanf(line, "wake t%d", &number) == 1 && (thread = thread_of_number(number))) {
        thread->wait = HAS_WAITED;
    } else if (sscanf(line, "t%d", &number) == 1 && (thread = thread_of_number(number))) {
        if (length > 6 && strcmp(line + length - 6, " waits") == 0)
            thread->wait = WAITS;
        else if (thread->wait == WAITS)
            thread->wait = HAS_WAITED;
    }
}

bool functions_ask_at_pass(const char *next_line) {
    static const char *const after_pass[] = {"turn ", "wake ", "idle ", "stalled"};
    bool is_made = false;
    for (size_t i = 0; i < sizeof after_pass / sizeof *after_pass; i++)
        is_made |= strncmp(next_line, after_pass[i], strlen(after_pass[i])) == 0;
    if (pass == NO_PASS || !is_made)
        return false;
    last_pass = session.now + (pass == PASS_AFTER_TURN ? 1 : 0); /* a turn takes a microsecond */
    pass = NO_PASS;
    return ask_all(last_pass) && !session_is_again();
}

/* ---- while no thread can run */

/* Returns the next moment at which a function is due, or -1 if none is watched. */
static long long next_look(void) {
    long long next = -1;
    for (struct pth_event_st *event = first; event; event = event->next_function) {
        if (!is_watched(event))
            continue;
        long long look = event->last_look + SHORTEST_INTERVAL;
        look = event->next_look > look ? event->next_look : look;
        look = last_pass + 1 > look ? last_pass + 1 : look;
        next = next < 0 || look < next ? look : next;
    }
    return next;
}

/* Waits until a moment, or until something comes. If only functions are waited for, the time is not skipped: they may
   go by something outside. */
static bool wait_for_look(long long look, bool is_last) {
    long long begun = session_clock(), left;
    if (arrivals_wait(look))
        return true;
    while (is_last && (left = look - session.now - (session_clock() - begun)) > 0) {
        struct timespec length = {left / 1000000, left % 1000000 * 1000};
        nanosleep(&length, NULL);
    }
    session.now = look;
    return false;
}

bool functions_wait(long long until) {
    for (;;) {
        long long look = next_look();
        bool is_last = until < 0;
        if (look < 0 || (is_last && session_is_again()) || (!is_last && look >= until))
            return arrivals_wait(until);
        if (wait_for_look(look, is_last) || ask_all(look))
            return true;
    }
}
