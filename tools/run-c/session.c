/* A session of the library: pth_init and pth_kill, the end of the process, and the options of the user. */
#define _GNU_SOURCE
#include "session.h"
#include "actions.h"
#include "calls.h"
#include "descriptors.h"
#include "events.h"
#include "functions.h"
#include "handlers.h"
#include "keys.h"
#include "machine.h"
#include "objects.h"
#include "output.h"
#include "ports.h"
#include "recording.h"
#include "refusal.h"
#include "script.h"
#include "signals.h"
#include "threads.h"

#include <errno.h>
#include <fcntl.h>
#include <signal.h>
#include <stdio.h>
#include <stdlib.h>
#include <string.h>
#include <sys/syscall.h>
#include <time.h>
#include <unistd.h>

enum { PRIVATE_FILES = 128 };

struct options options;
struct session session;
static int private_files[PRIVATE_FILES]; /* the descriptors that the library has opened for itself */
static int private_count;                /* how many there are */
static volatile int saved;               /* the last session that was saved */

/* ---- options */

/* Returns a variable of the environment, or NULL if it is missing or empty. */
static const char *variable(const char *name) {
    const char *value = getenv(name);
    return value && *value ? value : NULL;
}

__attribute__((constructor)) static void read_options(void) {
    const char *clock = variable("RUN_C_CLOCK"), *record = variable("RUN_C_RECORD");
    options = (struct options){
        .play = variable("RUN_C_PLAY"),
        .record = record ? record : "run-c",
        .again = variable("RUN_C_AGAIN"),
        .shows = variable("RUN_C_SHOW") != NULL,
        .skips_sleeps = clock && strcmp(clock, "virtual") == 0,
        .defers_calls = variable("RUN_C_DEFER") != NULL,
        .counts = variable("RUN_C_COUNTS") != NULL,
    };
}

bool session_is_again(void) {
    return options.again != NULL;
}

long long session_clock(void) {
    struct timespec time;
    clock_gettime(CLOCK_MONOTONIC, &time);
    return time.tv_sec * 1000000LL + time.tv_nsec / 1000;
}

int session_private_file(int file) {
    static const int least_numbers[] = {900, 200}; /* below the usual limits of 1024 and 256 */
    if (file < 0)
        fault("a descriptor of the library: %s", strerror(errno));
    if (private_count == PRIVATE_FILES)
        fault("more than %d descriptors of the library", PRIVATE_FILES);
    int moved = -1;
    for (int i = 0; i < 2 && moved < 0; i++)
        moved = fcntl(file, F_DUPFD_CLOEXEC, least_numbers[i]);
    if (moved >= 0)
        syscall(SYS_close, file);
    return private_files[private_count++] = moved >= 0 ? moved : file;
}

bool session_has_private_file(int file) {
    for (int i = 0; i < private_count; i++)
        if (private_files[i] == file)
            return true;
    return false;
}

bool session_is_here(void) {
    return syscall(SYS_getpid) == session.process;
}

/* ---- begin and end */

/* Whether this process has a recording that is not saved. */
static bool is_unsaved(void) {
    return session.is_on && saved != session.number && session_is_here();
}

static void save(const char *ending) {
    recording_save(ending, machine_place());
    saved = session.number;
}

/* Does at a place where no signal handler runs what is to be done at the end. */
static void save_all(const char *ending) {
    output_end();
    save(ending);
    if (machine_next_line())
        warn("the recording goes on past the place where the process ended");
    if (options.counts)
        warn("session %d: %ld calls, %ld steps, %ld questions, %.3f s", session.number, session.calls, machine_steps(),
             machine_questions(), (session_clock() - session.started_at) / 1e6);
}

static void load_recording(void) {
    size_t length = strlen(options.again);
    if (length < 4 || strcmp(options.again + length - 4, ".pth") != 0)
        fault("the name of a recording ends with .pth: %s", options.again);
    if (!recording_load(options.again, session.number, descriptor_expect))
        fault("%s cannot be read", options.again);
}

/* Whether main ends the process in the middle of the run, where it could as well make a call. */
static bool ends_in_main(void) {
    return session.ending == GOES_ON && calls_are_possible() && current_thread->number == 1 &&
           !current_thread->has_pending_call && !handler_runs();
}

static void end_run_of_main(void) {
    calls_make_deferred();
    script_add_comment(0, "the process ended without a pth_exit or pth_kill of main:");
    script_add_line(0, "kill");
    machine_add_step();
    machine_ask(session.now);
    while (machine_next_line())
        machine_take_line();
    session.ending = KILLED;
}

/* Ends the run with the process. */
static void end_with_process(void) {
    char ending[64];
    if (!is_unsaved())
        return;
    int signal = action_running();
    if (signal)
        snprintf(ending, sizeof ending, "a handler of signal %d ended the process", signal);
    else
        snprintf(ending, sizeof ending, "the process ended while thread %d ran", current_thread->number);
    if (ends_in_main())
        end_run_of_main();
    if (calls_are_possible())
        save_all(session.ending == GOES_ON ? ending : NULL);
    else
        save(ending); /* no more can be done in the middle of anything */
    session.is_on = false;
}

/* exit comes to the destructor, after all that the program has registered with atexit, and quick_exit comes to what
   is registered first with at_quick_exit. */
__attribute__((destructor)) static void end_at_exit(void) {
    end_with_process();
}

__attribute__((constructor)) static void end_at_quick_exit(void) {
    at_quick_exit(end_with_process);
}

/* Take the places of the functions that end the process and make no other call of the program. */
__attribute__((visibility("default"))) void _exit(int status) {
    end_with_process();
    for (;;)
        syscall(SYS_exit_group, status);
}

__attribute__((visibility("default"))) void _Exit(int status) {
    _exit(status);
}

void session_begin(void) {
    if (session.is_on)
        return;
    if (!options.play)
        fault("RUN_C_PLAY does not name pth_play");
    session = (struct session){
        .number = session.number + 1, .process = getpid(), .is_on = true, .started_at = session_clock()};
    gettimeofday(&session.start, NULL);
    script_clear();
    machine_begin();
    recording_begin(options.record, session.number);
    values_begin();
    objects_begin();
    handlers_begin();
    keys_begin();
    ports_begin();
    events_begin();
    functions_begin();
    descriptors_begin();
    signals_begin();
    threads_begin();
    if (options.again)
        load_recording();
    actions_begin();
}

void session_save(void) {
    if (is_unsaved())
        save_all(NULL);
}

void session_save_at_signal(int signal) {
    char ending[64];
    snprintf(ending, sizeof ending, "signal %d ended the process", signal);
    if (is_unsaved())
        save(ending);
}

void session_end_as_recorded(long steps) {
    bool by_handler;
    int signal = session_is_again() ? recording_ending(steps, &by_handler) : 0;
    if (signal && by_handler)
        raise(signal);
    else if (signal)
        action_end_process(signal);
}

void session_exit(void) {
    exit((int)(long)value_of_number(session.value));
}

int pth_init(void) {
    call_check(__func__, __builtin_return_address(0));
    if (session.is_on) {
        errno = EPERM;
        return FALSE;
    }
    session_begin();
    return TRUE;
}

int pth_kill(void) {
    call_check(__func__, __builtin_return_address(0));
    if (!session.is_on) {
        errno = EINVAL;
        return FALSE;
    }
    CALL_ENTER();
    call("kill");
    if (call_error)
        return FALSE;
    session_save();
    session.is_on = false;
    return TRUE;
}
