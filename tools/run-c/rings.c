/* What a call with an event ring waits for, and what its events find. */
#define _GNU_SOURCE
#include "descriptors.h"
#include "events.h"
#include "functions.h"
#include "handlers.h"
#include "refusal.h"
#include "select.h"

#include <stdio.h>

/* ---- before the call */

/* Waits for descriptors that become readable, writeable or exceptional. */
static void need_sets(const uint64_t members[3]) {
    descriptor_need(members[0], members[1]);
    descriptor_need_urgent(members[2]);
}

static void need(pth_event_t event) {
    int number = event->kind == PTH_EVENT_FD ? descriptor_find(event->file) : -1;
    if (event->kind == PTH_EVENT_SELECT)
        need_sets(event->select.members);
    else if (event->kind == PTH_EVENT_SIGS)
        descriptor_need(1ULL << event->descriptor, 0);
    else if (event->kind == PTH_EVENT_FUNC)
        function_claim(event);
    else if (number >= 0)
        need_sets((uint64_t[3]){event->spec & PTH_UNTIL_FD_READABLE ? 1ULL << number : 0,
                                event->spec & PTH_UNTIL_FD_WRITEABLE ? 1ULL << number : 0,
                                event->spec & PTH_UNTIL_FD_EXCEPTION ? 1ULL << number : 0});
}

void events_need(pth_event_t ring) {
    if (!ring || handler_runs())
        return;
    uint64_t reads = current_thread->reads, writes = current_thread->writes;
    pth_event_t event = ring;
    calls_make_deferred();
    do {
        if (event->kind == PTH_EVENT_FUNC)
            function_clear(event);
        else if (event->kind == PTH_EVENT_SELECT)
            event_renew_sets(event);
        event = event->next;
    } while (event != ring);
    current_thread->reads = reads; /* the calls above have waited for nothing */
    current_thread->writes = writes;
    current_thread->ring = ring;
    current_thread->wait = HAS_NOT_WAITED;
    functions_release();
    do {
        need(event);
        event = event->next;
    } while (event != ring);
}

/* ---- after the call */

static bool has_result(pth_event_t event) {
    return event->kind == PTH_EVENT_SELECT || event->kind == PTH_EVENT_SIGS;
}

bool events_have_results(pth_event_t ring) {
    pth_event_t event = ring;
    do {
        if (has_result(event))
            return true;
        event = event->next;
    } while (event != ring);
    return false;
}

/* Leaves the members that are ready in the sets of the program. */
static void take_sets(pth_event_t event) {
    struct event_sets *select = &event->select;
    char words[3][SET_BYTES];
    for (int i = 0; i < 3; i++)
        set_spell(select->members[i], words[i]);
    long count = call("select %s %s %s 0", words[0], words[1], words[2]);
    if (call_error || count < 1)
        refuse("what an event of sets has found is gone: another thread took it before this thread ran");
    if (sscanf(call_answer(), "%*d sets %255s %255s %255s", words[0], words[1], words[2]) != 3)
        fault("`%s' is the answer of a select", call_answer());
    for (int i = 0; i < 3; i++)
        set_write(words[i], select->sets[i]);
    if (select->count)
        *select->count = (int)count;
}

/* Takes the signal that has come for the event. No other event and no pth_sigwait has its descriptor. */
static void take_signal(pth_event_t event) {
    unsigned signal;
    call("read %d 1", event->descriptor);
    if (sscanf(call_answer(), "hex:%2x", &signal) != 1)
        fault("`%s' is the answer of a read of a signal", call_answer());
    descriptors[event->descriptor].unread--;
    if (event->signal)
        *event->signal = (int)signal;
}

void events_take_results(pth_event_t ring) {
    pth_event_t event = ring;
    do {
        if (has_result(event)) {
            script_add_comment(current_thread->body, "what the event has found:");
            if (call("ev_status %d", event->number) != 1)
                continue;
            if (event->kind == PTH_EVENT_SELECT)
                take_sets(event);
            else
                take_signal(event);
        }
    } while ((event = event->next) != ring);
}
