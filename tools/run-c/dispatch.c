/* What the machine prints is taken line by line, and done. */
#define _GNU_SOURCE
#include "calls.h"
#include "functions.h"
#include "handlers.h"
#include "keys.h"
#include "machine.h"
#include "refusal.h"
#include "session.h"
#include "threads.h"

#include <stdio.h>
#include <stdlib.h>
#include <string.h>

static void take(const char *line) {
    show_line(line);
    functions_see(line);
    machine_take_line();
}

/* Makes a step more, if the thread that runs waits for it. Returns false if the thread is to make its next call. */
static bool go_on_asking(void) {
    bool is_jump = running_thread->jumps_left > 0;
    if (is_jump)
        running_thread->jumps_left--;
    else if (!running_thread->has_pending_call)
        return false;
    machine_add_step();
    machine_ask(session.now);
    if (!is_jump && !machine_next_line())
        fault("the machine made a step of thread %d, and printed nothing", running_thread->number);
    return true;
}

/* Takes a line that is no thread's: of time, of a turn, or of the end. Returns false if it is of a thread. */
static bool take_machine_line(const char *line) {
    long long moment;
    int number;
    if (strncmp(line, "stalled", 7) == 0) {
        if (functions_wait(-1)) {
            machine_ask(session.now);
            return true;
        }
        session_end_as_recorded(machine_steps());
        take(line);
        give_up_stalled(line);
    } else if (sscanf(line, "idle to %lld", &moment) == 1) {
        if (functions_wait(moment)) {
            machine_ask(session.now);
            return true;
        }
        take(line);
        session.now = moment;
    } else if (sscanf(line, "turn %*d at %lld t%d", &moment, &number) == 2) {
        take(line);
        session.now = moment;
        running_thread = thread_of_number(number);
    } else if (strncmp(line, "wake ", 5) == 0) {
        take(line);
    } else {
        return false;
    }
    return true;
}

/* Takes the answer of a call, which follows `=`, at this place of the line. */
static void take_answer(struct pth_st *thread, size_t place) {
    thread->answer_place = machine_place() + place;
    thread->has_pending_call = false;
    thread->reads = thread->writes = 0;
}

static void take_thread_line(const char *line) {
    int number, handler, used = 0;
    long value;
    if (sscanf(line, "t%d %n", &number, &used) != 1 || !used || !thread_of_number(number))
        fault("the line `%s' is not expected", line);
    struct pth_st *thread = thread_of_number(number);
    const char *rest = line + used, *equals = strstr(rest, " = ");
    bool is_act = strncmp(rest, "act ", 4) == 0;
    if (!is_act && equals && thread->has_pending_call)
        take_answer(thread, equals + 3 - line);
    take(line);
    if (sscanf(rest, "handler %d arg %ld", &handler, &value) == 2)
        handler_take(thread, handler, value);
    else if (sscanf(rest, "destructor %d arg %ld", &handler, &value) == 2)
        key_take_destructor(thread, handler, value);
    else if (is_act)
        fault("the act `%s' was not made by a C function", rest);
    else if (strncmp(rest, "ends ", 5) == 0)
        thread_end(thread);
}

static bool is_end(const char *line) {
    enum ending ending = strncmp(line, "ended ", 6) == 0 ? MAIN_ENDED : strcmp(line, "killed") == 0 ? KILLED : GOES_ON;
    if (ending == GOES_ON)
        return false;
    take(line);
    session.ending = ending;
    if (ending == MAIN_ENDED)
        session.value = strtol(line + 6, NULL, 10);
    return true;
}

void dispatch(void) {
    for (;;) {
        const char *line = machine_next_line();
        if (line) {
            if (is_end(line))
                return;
            if (functions_ask_at_pass(line))
                machine_ask(session.now);
            else if (!take_machine_line(line))
                take_thread_line(line);
        } else if (!go_on_asking()) {
            return;
        }
    }
}
