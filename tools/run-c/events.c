/* Events and event rings. */
#define _GNU_SOURCE
#include "events.h"
#include "descriptors.h"
#include "functions.h"
#include "keys.h"
#include "memory.h"
#include "objects.h"
#include "places.h"
#include "ports.h"
#include "refusal.h"
#include "select.h"
#include "signals.h"
#include "times.h"

#include <errno.h>
#include <stdarg.h>
#include <stdio.h>
#include <string.h>

enum { EVENT_NUMBERS = 1 << 20, EVENT_LINE_BYTES = 3 * SET_BYTES + 64 };
enum { MODES = PTH_MODE_REUSE | PTH_MODE_CHAIN | PTH_MODE_STATIC };

static struct pth_event_st *events[EVENT_NUMBERS]; /* the events by their numbers */
static int greatest;                               /* the greatest number */

void events_begin(void) {
    memset(events, 0, sizeof *events * (greatest + 1));
    greatest = 0;
}

int event_number(pth_event_t event) {
    return event ? event->number : 0;
}

static pth_event_t event_of_number(long number) {
    return number > 0 && number <= greatest ? events[number] : NULL;
}

static void remember(pth_event_t event, long number) {
    if (number >= EVENT_NUMBERS)
        refuse("more than %d events", EVENT_NUMBERS - 1);
    event->number = number;
    events[number] = event;
    if (number > greatest)
        greatest = number;
}

/* ---- rings, as the machine has them */

/* Joins two rings, or makes one ring two: what was before the one is before the other from now on. */
static void swap_previous(pth_event_t one, pth_event_t other) {
    pth_event_t before = one->previous;
    one->previous = other->previous;
    other->previous = before;
    one->previous->next = one;
    other->previous->next = other;
}

static void isolate(pth_event_t event) {
    swap_previous(event, event->next);
}

/* ---- making an event: the line that makes it, by its kind */

static bool spell_file_event(pth_event_t event, char *line) {
    int number = descriptor_of(event->file);
    if (number < 0) {
        errno = EBADF;
        return false;
    }
    snprintf(line, EVENT_LINE_BYTES, "ev_fd %s%s%s %d", event->spec & PTH_UNTIL_FD_READABLE ? "r" : "",
             event->spec & PTH_UNTIL_FD_WRITEABLE ? "w" : "", event->spec & PTH_UNTIL_FD_EXCEPTION ? "x" : "", number);
    return true;
}

static bool read_sets(const struct event_sets *select, uint64_t members[3]) {
    for (int i = 0; i < 3; i++)
        if (!set_read(select->limit, select->sets[i], &members[i]))
            return false;
    return true;
}

static void spell_members(const struct event_sets *select, char *line) {
    char words[3][SET_BYTES];
    for (int i = 0; i < 3; i++)
        set_spell(select->members[i], words[i]);
    snprintf(line, EVENT_LINE_BYTES, "ev_select %s %s %s", words[0], words[1], words[2]);
}

static bool spell_sets(pth_event_t event, va_list *list, char *line) {
    struct event_sets *select = &event->select;
    select->count = va_arg(*list, int *);
    select->limit = va_arg(*list, int);
    for (int i = 0; i < 3; i++)
        select->sets[i] = va_arg(*list, fd_set *);
    if (!read_sets(select, select->members))
        return false;
    spell_members(select, line);
    return true;
}

static bool spell_signals(pth_event_t event, va_list *list, char *line) {
    char comment[100];
    event->signals = va_arg(*list, sigset_t *);
    event->signal = va_arg(*list, int *);
    event->descriptor = signals_take_descriptor(event->signals);
    snprintf(comment, sizeof comment, "an event of signals, which come to descriptor %d:", event->descriptor);
    script_add_comment(current_thread->body, comment);
    return snprintf(line, EVENT_LINE_BYTES, "ev_fd r %d", event->descriptor);
}

static bool spell_function(pth_event_t event, va_list *list, char *line) {
    typedef int function(void *);
    char name[PLACE_BYTES], comment[PLACE_BYTES + 100];
    event->function = va_arg(*list, function *);
    event->argument = va_arg(*list, void *);
    event->moment = va_arg(*list, pth_time_t);
    event->descriptor = function_take_descriptor();
    place_name(event->function, name);
    snprintf(comment, sizeof comment,
             "an event of the function %s: a byte comes to descriptor %d when it holds:", name, event->descriptor);
    script_add_comment(current_thread->body, comment);
    return snprintf(line, EVENT_LINE_BYTES, "ev_fd r %d", event->descriptor);
}
static const char *state_word(unsigned long spec) {
    return spec & PTH_UNTIL_TID_NEW       ? "new"
           : spec & PTH_UNTIL_TID_WAITING ? "waiting"
           : spec & PTH_UNTIL_TID_DEAD    ? "dead"
                                          : "ready";
}

static bool spell_thread_event(pth_event_t event, va_list *list, char *line) {
    event->thread = va_arg(*list, pth_t);
    if (!event->thread)
        refuse("PTH_EVENT_TID without a thread: a script has no event of any thread that is dead");
    snprintf(line, EVENT_LINE_BYTES, "ev_tid %s %d", state_word(event->spec), event->thread->number);
    return true;
}

/* Takes the subject of an event from the arguments of pth_event, and writes the line that makes it. */
static bool spell_event(pth_event_t event, va_list *list, char *line) {
    switch (event->kind) {
    case PTH_EVENT_FD:
        event->file = va_arg(*list, int);
        return spell_file_event(event, line);
    case PTH_EVENT_SELECT:
        return spell_sets(event, list, line);
    case PTH_EVENT_SIGS:
        return spell_signals(event, list, line);
    case PTH_EVENT_TIME:
        event->moment = va_arg(*list, pth_time_t);
        return snprintf(line, EVENT_LINE_BYTES, "ev_time %lld", time_moment(event->moment));
    case PTH_EVENT_MSG:
        event->port = va_arg(*list, pth_msgport_t);
        return snprintf(line, EVENT_LINE_BYTES, "ev_msg %d", port_number(event->port));
    case PTH_EVENT_MUTEX:
        refuse("PTH_EVENT_MUTEX: a script has no events of mutexes");
    case PTH_EVENT_COND:
        event->cond = va_arg(*list, pth_cond_t *);
        return snprintf(line, EVENT_LINE_BYTES, "ev_cond %d", cond_number(event->cond));
    case PTH_EVENT_TID:
        return spell_thread_event(event, list, line);
    case PTH_EVENT_FUNC:
        return spell_function(event, list, line);
    }
    errno = EINVAL;
    return false;
}

/* Lets go of the descriptor of an event. */
static void give_back_descriptor(pth_event_t event) {
    if (event->kind == PTH_EVENT_SIGS)
        signals_give_back(event->descriptor);
    else if (event->kind == PTH_EVENT_FUNC)
        function_give_back(event->descriptor);
}

static void forget(pth_event_t event) {
    isolate(event);
    events[event->number] = NULL;
    give_back_descriptor(event);
    if (event->kind == PTH_EVENT_FUNC)
        function_remove(event);
}

/* Removes the machine's event of one that is used again. Returns the event before which its place in a ring is, or
   NULL if it is alone. */
static pth_event_t remove_old(pth_event_t event) {
    pth_event_t next = event->next != event ? event->next : NULL;
    call("ev_free %d this", event->number);
    if (!call_error)
        forget(event);
    return next;
}

/* Makes an event, or makes an old one anew, before another one in its ring or in a ring of its own. */
static pth_event_t make_event(pth_event_t old, pth_event_t before, struct pth_event_st made, const char *line) {
    long number = before ? call("chain %d %s", before->number, line) : call("%s", line);
    if (call_error) {
        give_back_descriptor(&made);
        return NULL;
    }
    pth_event_t event = old ? old : memory_take(sizeof *event);
    *event = made;
    event->next = event->previous = event;
    remember(event, number);
    if (before)
        swap_previous(event, before);
    if (event->kind == PTH_EVENT_FUNC)
        function_add(event);
    return event;
}

/* What the modes of pth_event say. */
struct modes {
    pth_event_t old;    /* the event that is used again, or NULL */
    pth_event_t before; /* the event before which it comes in a ring, or NULL */
    pth_key_t *key;     /* the key that has it, or NULL */
};

/* Takes what the modes say from the arguments of pth_event. Returns false if an old event cannot be used again. */
static bool take_modes(unsigned long spec, va_list *list, struct modes *modes) {
    *modes = (struct modes){NULL, NULL, NULL};
    if (spec & PTH_MODE_REUSE) {
        modes->old = va_arg(*list, pth_event_t);
    } else if (spec & PTH_MODE_STATIC) {
        modes->key = va_arg(*list, pth_key_t *);
        if (*modes->key == PTH_KEY_INIT)
            key_create(modes->key, NULL);
        modes->old = key_get(*modes->key);
    }
    if (spec & PTH_MODE_CHAIN)
        modes->before = va_arg(*list, pth_event_t);
    call_error = 0;
    if (modes->old && event_of_number(modes->old->number) == modes->old) {
        pth_event_t next = remove_old(modes->old);
        if (!modes->before)
            modes->before = next;
    }
    return !call_error;
}

pth_event_t pth_event(unsigned long spec, ...) {
    CALL_ENTER();
    static const unsigned long kinds = PTH_EVENT_FD | PTH_EVENT_SELECT | PTH_EVENT_SIGS | PTH_EVENT_TIME |
                                       PTH_EVENT_MSG | PTH_EVENT_MUTEX | PTH_EVENT_COND | PTH_EVENT_TID |
                                       PTH_EVENT_FUNC;
    struct pth_event_st made = {.kind = spec & kinds, .spec = spec & ~MODES};
    struct modes modes;
    char line[EVENT_LINE_BYTES];
    va_list list;
    va_start(list, spec);
    bool is_spelled = take_modes(spec, &list, &modes) && spell_event(&made, &list, line);
    va_end(list);
    pth_event_t event = is_spelled ? make_event(modes.old, modes.before, made, line) : NULL;
    if (event && modes.key && event != modes.old)
        key_set(*modes.key, event);
    return event;
}

void event_renew_sets(pth_event_t event) {
    struct event_sets *select = &event->select;
    char line[EVENT_LINE_BYTES];
    uint64_t members[3];
    if (!read_sets(select, members))
        refuse("a member of the sets of an event is not open any more");
    if (memcmp(members, select->members, sizeof members) == 0)
        return;
    pth_event_t next = event->next;
    script_add_comment(current_thread->body, "the program has changed the sets of the event:");
    call("ev_free %d this", event->number);
    if (call_error) /* another call waits with the ring, so the next call is refused */
        return;
    events[event->number] = NULL;
    memcpy(select->members, members, sizeof members);
    spell_members(select, line);
    remember(event, next != event ? call("chain %d %s", next->number, line) : call("%s", line));
}

/* ---- questions and rings */

unsigned long pth_event_typeof(pth_event_t event) {
    CALL_ENTER();
    if (!event) {
        errno = EINVAL;
        return FALSE;
    }
    call("ev_kind %d", event->number);
    return event->spec;
}

pth_status_t pth_event_status(pth_event_t event) {
    CALL_ENTER();
    if (!event) {
        errno = EINVAL;
        return PTH_STATUS_PENDING;
    }
    long status = call("ev_status %d", event->number);
    return call_error ? PTH_STATUS_PENDING : (pth_status_t)status;
}

pth_event_t pth_event_concat(pth_event_t event, ...) {
    CALL_ENTER();
    if (!event) {
        errno = EINVAL;
        return NULL;
    }
    pth_event_t other;
    va_list list;
    va_start(list, event);
    call_error = 0;
    while (!call_error && (other = va_arg(list, pth_event_t)) != NULL) {
        call("ev_concat %d %d", event->number, other->number);
        if (!call_error)
            swap_previous(event, other);
    }
    va_end(list);
    return call_error ? NULL : event;
}

pth_event_t pth_event_isolate(pth_event_t event) {
    CALL_ENTER();
    if (!event) {
        errno = EINVAL;
        return NULL;
    }
    long next = call("ev_isolate %d", event->number);
    if (call_error)
        return NULL;
    isolate(event);
    return event_of_number(next);
}

pth_event_t pth_event_walk(pth_event_t event, unsigned direction) {
    CALL_ENTER();
    if (!event || !(direction & (PTH_WALK_NEXT | PTH_WALK_PREV))) {
        errno = EINVAL;
        return NULL;
    }
    long other = call("ev_walk %d %s%s", event->number, direction & PTH_WALK_PREV ? "prev" : "next",
                      direction & PTH_UNTIL_OCCURRED ? "_occurred" : "");
    return call_error ? NULL : event_of_number(other);
}

int pth_event_free(pth_event_t event, int mode) {
    CALL_ENTER();
    if (!event) {
        errno = EINVAL;
        return FALSE;
    }
    call("ev_free %d %s", event->number, mode == PTH_FREE_ALL ? "all" : "this");
    if (call_error)
        return FALSE;
    while (mode == PTH_FREE_ALL && event->next != event)
        forget(event->next);
    forget(event);
    return TRUE;
}

int pth_event_extract(pth_event_t event, ...) {
    typedef int function(void *);
    va_list list;
    int truth = TRUE;
    va_start(list, event);
    switch (event ? event->kind : 0) {
    case PTH_EVENT_FD:
        *va_arg(list, int *) = event->file;
        break;
    case PTH_EVENT_SIGS:
        *va_arg(list, sigset_t **) = event->signals;
        *va_arg(list, int **) = event->signal;
        break;
    case PTH_EVENT_TIME:
        *va_arg(list, pth_time_t *) = event->moment;
        break;
    case PTH_EVENT_MSG:
        *va_arg(list, pth_msgport_t *) = event->port;
        break;
    case PTH_EVENT_COND:
        *va_arg(list, pth_cond_t **) = event->cond;
        break;
    case PTH_EVENT_TID:
        *va_arg(list, pth_t *) = event->thread;
        break;
    case PTH_EVENT_FUNC:
        *va_arg(list, function **) = event->function;
        *va_arg(list, void **) = event->argument;
        *va_arg(list, pth_time_t *) = event->moment;
        break;
    default: /* the C library has no case for sets */
        errno = EINVAL;
        truth = FALSE;
    }
    va_end(list);
    return truth;
}

int pth_wait(pth_event_t ring) {
    CALL_ENTER();
    if (!ring) {
        errno = EINVAL;
        return -1;
    }
    events_need(ring);
    long count = call("wait %d", ring->number);
    return call_error ? -1 : (int)count;
}
