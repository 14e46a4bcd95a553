/* The machine: for each question, a run of pth_play on the whole script, with as many steps as there are lines to
   answer. Stopped before the first line that is not written yet, its transcript ends with the dispatch of the thread
   that goes on. */
#define _GNU_SOURCE
#include "machine.h"
#include "recording.h"
#include "refusal.h"
#include "script.h"
#include "session.h"

#include <errno.h>
#include <fcntl.h>
#include <sched.h>
#include <signal.h>
#include <stdio.h>
#include <stdlib.h>
#include <string.h>
#include <sys/mman.h>
#include <sys/syscall.h>
#include <sys/wait.h>
#include <unistd.h>

enum { PLAY_ENDED = 0, PLAY_STALLED = 1, PLAY_STOPPED = 6 }; /* statuses of pth_play */

static struct recording answers[2]; /* the last good answer, and the one that is being got */
static int good;                    /* which of them is the last good one */
static size_t taken;                /* how much of its transcript was taken */
static long steps;                  /* the steps that the machine may make */
static long questions;              /* how often it was asked */
static int script_file = -1;        /* the file with the script of the question */
static int transcript_file = -1;    /* a file without a name, for the transcript */

void machine_begin(void) {
    for (int i = 0; i < 2; i++) {
        text_clear(&answers[i].script);
        text_clear(&answers[i].transcript);
    }
    taken = 0;
    steps = questions = 0;
}

void machine_add_step(void) {
    session_end_as_recorded(steps);
    steps++;
}

long machine_steps(void) {
    return steps;
}

long machine_questions(void) {
    return questions;
}

/* ---- a run of pth_play */

/* What the child process needs. It shares the memory of this process until it has become pth_play. */
struct start {
    char **words, **environment;
    int error;
};

static int become_play(void *argument) {
    struct start *start = argument;
    if (dup2(script_file, 0) == 0 && dup2(transcript_file, 1) == 1)
        execve(start->words[0], start->words, start->environment);
    start->error = errno;
    _exit(127);
}

/* The environment, without what makes the loader take this library. */
static char **play_environment(void) {
    static char *kept[1024]; /* its variables */
    int count = 0;
    for (char **word = environ; *word && count < 1023; word++)
        if (strncmp(*word, "LD_PRELOAD=", 11) != 0 && strncmp(*word, "LD_LIBRARY_PATH=", 16) != 0)
            kept[count++] = *word;
    kept[count] = NULL;
    return kept;
}

/* Runs pth_play and returns its status. Its end sends no SIGCHLD, so the program does not see that there was a child.
 */
static int run_play(void) {
    static char stack[65536] __attribute__((aligned(64))); /* of the child, until it has become pth_play */
    char number[32];
    snprintf(number, sizeof number, "%ld", steps ? steps : 1);
    char *words[] = {(char *)options.play, "--steps", number, NULL};
    struct start start = {words, play_environment(), 0};
    sigset_t all, before;
    sigfillset(&all);
    sigprocmask(SIG_SETMASK, &all, &before);
    int child = clone(become_play, stack + sizeof stack, CLONE_VM | CLONE_VFORK, &start);
    int error = child < 0 ? errno : start.error;
    sigprocmask(SIG_SETMASK, &before, NULL);
    if (child < 0)
        fault("%s cannot be run: %s", options.play, strerror(error));
    int status;
    while (waitpid(child, &status, __WALL) < 0)
        if (errno != EINTR)
            fault("%s: %s", options.play, strerror(errno));
    if (error)
        fault("%s cannot be run: %s", options.play, strerror(error));
    return WIFEXITED(status) ? WEXITSTATUS(status) : -1;
}

static void begin_transcript(void) {
    if (transcript_file < 0)
        transcript_file = session_private_file(memfd_create("transcript", MFD_CLOEXEC));
    if (ftruncate(transcript_file, 0) != 0 || lseek(transcript_file, 0, SEEK_SET) != 0)
        fault("the transcript cannot be written: %s", strerror(errno));
}

static void read_transcript(struct text *transcript) {
    off_t length = lseek(transcript_file, 0, SEEK_END);
    if (length < 0)
        fault("the transcript cannot be read: %s", strerror(errno));
    text_clear(transcript);
    text_make_room(transcript, length);
    while (transcript->length < (size_t)length) {
        ssize_t got = pread(transcript_file, transcript->bytes + transcript->length, length - transcript->length,
                            transcript->length);
        if (got == 0 || (got < 0 && errno != EINTR))
            fault("the transcript cannot be read");
        transcript->length += got > 0 ? got : 0;
    }
    transcript->bytes[length] = 0;
}

static void play(struct recording *answer) {
    char comment[120];
    snprintf(comment, sizeof comment, "recorded by run-c%s; play it with: pth_play --steps %ld",
             options.defers_calls ? " --defer" : "", steps ? steps : 1);
    answer->steps = steps ? steps : 1;
    text_clear(&answer->script);
    script_print(&answer->script, comment);
    script_file = recording_write(answer);
    begin_transcript();
    int status = run_play();
    questions++;
    if (status != PLAY_ENDED && status != PLAY_STALLED && status != PLAY_STOPPED)
        fault("%s ended with status %d", options.play, status);
    read_transcript(&answer->transcript);
    if (answer->transcript.length == 0)
        fault("%s printed nothing", options.play);
}

/* ---- the past and what is next */

/* Whether an answer begins with what was taken of the last good one. */
static bool keeps_past(const struct recording *answer) {
    const struct text *past = &answers[good].transcript, *present = &answer->transcript;
    return present->length >= taken && (taken == 0 || memcmp(present->bytes, past->bytes, taken) == 0);
}

void machine_ask(long long now) {
    struct recording *answer = &answers[1 - good];
    play(answer);
    if (!keeps_past(answer)) {
        script_put_off_arrivals(now + 1);
        play(answer);
        if (!keeps_past(answer))
            fault(
                "the past has changed: the transcript no longer begins with what was answered and dispatched so far");
    }
    script_settle_arrivals();
    recording_keep(answer);
    good = 1 - good;
}

const char *machine_next_line(void) {
    static char line[65536]; /* the line */
    const struct text *transcript = &answers[good].transcript;
    if (taken >= transcript->length)
        return NULL;
    const char *start = transcript->bytes + taken, *end = strchr(start, '\n');
    if (!end || strncmp(start, "step limit ", 11) == 0)
        return NULL;
    snprintf(line, sizeof line, "%.*s", (int)(end - start), start);
    return line;
}

void machine_take_line(void) {
    const char *start = answers[good].transcript.bytes + taken;
    taken += strchr(start, '\n') + 1 - start;
}

size_t machine_place(void) {
    return taken;
}

const char *machine_transcript(size_t place) {
    return answers[good].transcript.bytes + place;
}
