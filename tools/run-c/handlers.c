/* Cleanup functions, `once`, and the calls of C functions that run as handlers. */
#define _GNU_SOURCE
#include "handlers.h"
#include "keys.h"
#include "machine.h"
#include "objects.h"
#include "places.h"
#include "refusal.h"
#include "session.h"
#include "threads.h"

#include <errno.h>
#include <stdio.h>
#include <string.h>

enum { ACT_BYTES = 256, CLEANUP = -1 };

/* A pushed cleanup function. */
struct cleanup {
    void (*function)(void *);
    void *argument;
    int handler; /* its handler in the script */
    struct cleanup *below;
};

/* A call that the next thread makes. */
struct deferred {
    const char *line;
    struct deferred *next;
};

/* A C function that runs as a handler. */
struct run {
    struct pth_st *owner; /* the thread for which it runs, or NULL if none runs */
    int handler;
    long value; /* the number of its argument */
    int key;    /* the key of a destructor, or CLEANUP */
    void (*function)(void *);
};

static bool is_used[HANDLERS];          /* the handlers that are taken */
static bool has_run[HANDLERS];          /* those whose C function has run as a handler, so that their acts are known */
static struct run run;                  /* what runs */
static struct deferred *first_deferred; /* the calls that are left to the next thread */
static struct deferred **end_of_deferred; /* where the next one is put */

void handlers_begin(void) {
    memset(is_used, 0, sizeof is_used);
    memset(has_run, 0, sizeof has_run);
    run.owner = NULL;
    first_deferred = NULL;
    end_of_deferred = &first_deferred;
}

bool handler_runs(void) {
    return run.owner != NULL;
}

struct pth_st *handler_thread(void) {
    return run.owner;
}

int handler_take_free(void) {
    for (int handler = 0; handler < HANDLERS; handler++)
        if (!is_used[handler]) {
            script_add_handler(handler);
            is_used[handler] = true;
            return handler;
        }
    refuse("more than %d handlers: cleanup functions that are pushed or ran for a thread that was canceled, and "
           "destructors of keys",
           HANDLERS);
}

void handler_give_back(int handler) {
    if (!has_run[handler])
        is_used[handler] = false;
}

/* ---- refusals: they name the C function that runs */

/* Writes what runs, such as `the cleanup function unlock (main.c:7) of thread 2`. */
static void spell_run(char *text, size_t size) {
    char function[PLACE_BYTES];
    place_of_function(run.function, function);
    if (run.key == CLEANUP)
        snprintf(text, size, "the cleanup function %s of thread %d", function, run.owner->number);
    else
        snprintf(text, size, "the destructor %s of key %d, which runs for thread %d,", function, run.key,
                 run.owner->number);
}

__attribute__((noreturn)) static void refuse_call(bool may_be_deferred) {
    char text[PLACE_BYTES + 100];
    spell_run(text, sizeof text);
    refuse("%s makes this call, and a script has no act for it%s", text,
           may_be_deferred ? "; with --defer, the next thread makes it" : "");
}

__attribute__((noreturn)) static void refuse_acts(void) {
    char text[PLACE_BYTES + 100];
    spell_run(text, sizeof text);
    refuse("%s makes other calls than when it ran before, and a script has one list of acts for it", text);
}

/* ---- acts */

/* Spells the act that does what a call does, as the machine prints it and as the script has it. A value that is the
   argument of a destructor is `arg` in the script, so that the acts are the same for each value. Returns false if
   there is no such act. */
static bool spell_act(const char *line, char printed[ACT_BYTES], char spelled[ACT_BYTES]) {
    static const struct {
        const char *call, *act;
        bool has_value; /* whether the second operand is a value of the program */
    } acts[] = {
        {"mutex_release", "release", false},
        {"cond_notify", "notify", false},
        {"key_set", "setkey", true},
        {"port_put", "put", true},
    };
    char word[32];
    long operands[3];
    int count = sscanf(line, "%31s %ld %ld %ld", word, &operands[0], &operands[1], &operands[2]) - 1;
    size_t i = 0;
    while (i < sizeof acts / sizeof *acts && strcmp(word, acts[i].call) != 0)
        i++;
    if (i == sizeof acts / sizeof *acts || (count == 3 && operands[2] != 0)) /* no act has a reply port */
        return false;
    int length = snprintf(printed, ACT_BYTES, "%s %ld", acts[i].act, operands[0]);
    if (count > 1)
        snprintf(printed + length, ACT_BYTES - length, " %ld", operands[1]);
    if (acts[i].has_value && run.key != CLEANUP && operands[1] == run.value)
        snprintf(spelled, ACT_BYTES, "%s %ld arg", acts[i].act, operands[0]);
    else
        strcpy(spelled, printed);
    return true;
}

/* Returns the next line of the machine after `tN act `, or NULL if it is no act of the handler. */
static const char *next_act(void) {
    int number, used = 0;
    const char *line = machine_next_line();
    if (!line || sscanf(line, "t%d act %n", &number, &used) != 1 || !used || number != run.owner->number)
        return NULL;
    return line + used;
}

/* Returns the answer of an act if it is the next line of the machine, or NULL. */
static const char *answer_of_next(const char *printed) {
    const char *act = next_act();
    size_t length = strlen(printed);
    if (!act || strncmp(act, printed, length) != 0 || strncmp(act + length, " = ", 3) != 0)
        return NULL;
    return act + length + 3;
}

static long make_act(const char *printed, const char *spelled) {
    char answer[64];
    if (!next_act() && !has_run[run.handler]) {
        script_add_act(run.handler, spelled);
        machine_ask(session.now);
        if (!answer_of_next(printed))
            fault("the act `%s' has no answer", printed);
    }
    const char *text = answer_of_next(printed);
    if (!text)
        refuse_acts();
    snprintf(answer, sizeof answer, "%s", text);
    show_line(machine_next_line());
    machine_take_line();
    return call_read_answer(answer);
}

/* ---- calls of C functions that run as handlers */

/* Whether another thread can make a call with the same effect. */
static bool may_defer(const char *line) {
    static const char *const words[] = {"ev_free ", "port_destroy ", "attr_destroy ", "close "};
    for (size_t i = 0; i < sizeof words / sizeof *words; i++)
        if (strncmp(line, words[i], strlen(words[i])) == 0)
            return true;
    return false;
}

static void defer(const char *line) {
    struct deferred *deferred = memory_take(sizeof *deferred);
    char *kept = memory_take(strlen(line) + 1);
    strcpy(kept, line);
    deferred->line = kept;
    *end_of_deferred = deferred;
    end_of_deferred = &deferred->next;
    script_add_handler_comment(run.handler, "a call that no act can say, and that the next thread makes:");
    script_add_handler_comment(run.handler, line);
}

long handler_call(const char *line) {
    char printed[ACT_BYTES], spelled[ACT_BYTES];
    call_error = 0;
    if (strcmp(line, "self") == 0)
        return run.owner->number;
    if (spell_act(line, printed, spelled))
        return make_act(printed, spelled);
    if (!options.defers_calls || !may_defer(line))
        refuse_call(may_defer(line));
    defer(line);
    return 1;
}

const char *handler_next_deferred(void) {
    struct deferred *first = first_deferred;
    if (!first)
        return NULL;
    first_deferred = first->next;
    if (!first_deferred)
        end_of_deferred = &first_deferred;
    return first->line;
}

/* ---- handlers that the machine runs */

static void run_handler(struct run next, void *argument) {
    struct run before = run;
    run = next;
    call_program(run.function, argument);
    if (next_act()) { /* it ran before, and made more calls then */
        run.owner->site = (struct call_site){"the end of a destructor", NULL};
        refuse_acts();
    }
    has_run[run.handler] = true;
    run = before;
}

void handler_run_destructor(struct pth_st *thread, int handler, long value, int key, void (*function)(void *)) {
    run_handler((struct run){thread, handler, value, key, function}, value_of_number(value));
}

void handler_take(struct pth_st *thread, int handler, long value) {
    if (handler == -1 || handler >= HANDLERS) { /* that of a `once`, whose function the caller runs */
        thread->ran_handler = true;
        return;
    }
    struct cleanup *cleanup = thread->cleanups;
    if (!cleanup || cleanup->handler != handler)
        fault("handler %d runs for thread %d, and was not pushed last", handler, thread->number);
    thread->cleanups = cleanup->below;
    run_handler((struct run){thread, handler, value, CLEANUP, cleanup->function}, cleanup->argument);
}

/* ---- handlers that a thread runs as it ends by itself */

/* Whether all other threads have ended, so that main need not wait for them. */
static bool is_alone(void) {
    for (int i = 1; i <= thread_count(); i++) {
        const struct pth_st *thread = thread_of_number(i);
        if (thread != current_thread && !thread->has_ended)
            return false;
    }
    return true;
}

void handlers_run_before_exit(void) {
    if (current_thread->number == 1 && !is_alone())
        return; /* the machine runs those of main once the other threads have ended */
    while (current_thread->cleanups)
        cleanup_pop(true);
    keys_run_destructors();
}

/* ---- the functions of pth.h */

int pth_cleanup_push(void (*function)(void *), void *argument) {
    CALL_ENTER();
    if (!function) {
        errno = EINVAL;
        return FALSE;
    }
    if (handler_runs())
        refuse_call(false);
    int handler = handler_take_free();
    call("cleanup_push %d %ld", handler, value_number(argument));
    if (call_error) {
        handler_give_back(handler);
        return FALSE;
    }
    struct cleanup *cleanup = memory_take(sizeof *cleanup);
    *cleanup = (struct cleanup){function, argument, handler, current_thread->cleanups};
    current_thread->cleanups = cleanup;
    return TRUE;
}

int cleanup_pop(bool runs) {
    struct cleanup *cleanup = current_thread->cleanups;
    call("cleanup_pop 0"); /* the C function runs below as ordinary code of the thread, which may make any call */
    if (!cleanup || call_error)
        return FALSE;
    current_thread->cleanups = cleanup->below;
    handler_give_back(cleanup->handler);
    if (runs) {
        struct call_site site = current_thread->site;
        script_add_comment(current_thread->body, "the cleanup function runs:");
        cleanup->function(cleanup->argument);
        current_thread->site = site;
    }
    return TRUE;
}

int pth_cleanup_pop(int runs) {
    CALL_ENTER();
    return cleanup_pop(runs != 0);
}

int pth_once(pth_once_t *control, void (*function)(void *), void *argument) {
    CALL_ENTER();
    if (!control || !function) {
        errno = EINVAL;
        return FALSE;
    }
    call("once %d %d %ld", once_number(control), ONCE_HANDLER, value_number(argument));
    if (call_error)
        return FALSE;
    if (current_thread->ran_handler && *control != TRUE)
        function(argument);
    *control = TRUE;
    return TRUE;
}
