/* How a call is made: a line is added, the machine is asked, and the thread that it dispatched goes on. */
#define _GNU_SOURCE
#include "calls.h"
#include "actions.h"
#include "arrivals.h"
#include "events.h"
#include "functions.h"
#include "handlers.h"
#include "machine.h"
#include "refusal.h"
#include "script.h"
#include "session.h"
#include "threads.h"

#include <errno.h>
#include <stdarg.h>
#include <stdio.h>
#include <stdlib.h>
#include <string.h>

static const struct {
    const char *name;
    int number;
} errors[] = {
    {"EPERM", EPERM},
    {"ENOENT", ENOENT},
    {"ESRCH", ESRCH},
    {"EINTR", EINTR},
    {"EIO", EIO},
    {"EBADF", EBADF},
    {"EAGAIN", EAGAIN},
    {"EACCES", EACCES},
    {"EBUSY", EBUSY},
    {"EEXIST", EEXIST},
    {"EINVAL", EINVAL},
    {"EDEADLK", EDEADLK},
    {"ECONNREFUSED", ECONNREFUSED},
};

int call_error;
static char answer[LINE_BYTES + 1]; /* the answer of the last call of the thread that runs */
static volatile bool is_at_work; /* whether the library asks the machine or waits, and no code of the program runs */
static struct call_site
    refused_site; /* where a call was made that is none of a thread; its name is NULL if none was */

bool calls_are_possible(void) {
    return !is_at_work && !action_running();
}

void call_check(const char *name, const void *address) {
    int signal = action_running();
    bool is_here = session.number == 0 || session_is_here();
    if (is_here && !signal && !is_at_work)
        return;
    refused_site = (struct call_site){name, address};
    if (!is_here)
        refuse("a child that fork(2) has made of process %d makes this call", session.process);
    if (signal)
        refuse("a handler of signal %d (%s) makes this call", signal, strsignal(signal));
    functions_refuse_calls();
    refuse("this call is made while the library works, by a signal handler or after one was left by siglongjmp");
}

void call_enter(const char *name, const void *address) {
    call_check(name, address);
    session_begin();
    struct pth_st *caller = handler_runs() ? handler_thread() : current_thread;
    caller->site = (struct call_site){name, address};
    if (session.ending != GOES_ON)
        refuse("the run is over");
}

const struct call_site *call_site(void) {
    if (!current_thread || refused_site.name)
        return &refused_site;
    return handler_runs() ? &handler_thread()->site : &current_thread->site;
}

void call_program(void (*function)(void *), void *argument) {
    bool was_at_work = is_at_work;
    is_at_work = false;
    function(argument);
    is_at_work = was_at_work;
}

/* ---- answers */

long call_read_answer(const char *text) {
    call_error = 0;
    for (size_t i = 0; i < sizeof errors / sizeof *errors; i++)
        if (strcmp(text, errors[i].name) == 0) {
            errno = call_error = errors[i].number;
            return -1;
        }
    return strtol(text, NULL, 10);
}

int call_truth(void) {
    return call_error ? FALSE : TRUE;
}

const char *call_answer(void) {
    return answer;
}

static void copy_answer(const char *line) {
    size_t length = strcspn(line, "\n");
    if (length > LINE_BYTES)
        fault("an answer of %zu bytes", length);
    memcpy(answer, line, length);
    answer[length] = 0;
}

/* ---- calls */

/* Notes in the script which signals the program has handled since its last call. */
static void note_handled_signals(void) {
    char comment[64];
    for (int signal; (signal = action_next_handled()) != 0;) {
        snprintf(comment, sizeof comment, "a handler of signal %d has run", signal);
        script_add_comment(current_thread->body, comment);
    }
}

/* Makes the next call of the current thread, and returns when it is answered. */
static void make(const char *line) {
    session.calls++;
    note_handled_signals();
    script_add_line(current_thread->body, line);
    current_thread->has_pending_call = true;
    current_thread->ran_handler = false;
    machine_add_step();
    is_at_work = true;
    machine_ask(session.now);
    dispatch();
    is_at_work = false;
    thread_switch();
    copy_answer(machine_transcript(current_thread->answer_place));
}

void calls_make_deferred(void) {
    const char *line;
    if (handler_runs())
        return;
    uint64_t reads = current_thread->reads, writes = current_thread->writes;
    for (bool is_first = true; (line = handler_next_deferred()) != NULL; is_first = false) {
        if (is_first)
            script_add_comment(current_thread->body,
                               "calls of a cleanup function or destructor, which no act can say:");
        current_thread->reads = current_thread->writes = 0;
        make(line);
        call_read_answer(answer);
        if (call_error)
            refuse("`%s' of a cleanup function, made by the next thread, is answered %s", line, answer);
    }
    current_thread->reads = reads;
    current_thread->writes = writes;
}

/* Takes what the events of the ring have found with which the call waited. That takes more calls. */
static void take_results(void) {
    char kept[LINE_BYTES + 1];
    pth_event_t ring = current_thread->ring;
    current_thread->ring = NULL;
    if (!ring || current_thread->wait == HAS_NOT_WAITED || !events_have_results(ring))
        return;
    strcpy(kept, answer);
    events_take_results(ring);
    strcpy(answer, kept);
}

long call_line(const char *line) {
    if (handler_runs())
        return handler_call(line);
    calls_make_deferred();
    arrivals_look();
    make(line);
    take_results();
    return call_read_answer(answer);
}

long call(const char *format, ...) {
    char line[LINE_BYTES + 1];
    va_list list;
    va_start(list, format);
    int length = vsnprintf(line, sizeof line, format, list);
    va_end(list);
    if (length > LINE_BYTES)
        refuse("a line of the script is longer than %d bytes", LINE_BYTES);
    return call_line(line);
}
