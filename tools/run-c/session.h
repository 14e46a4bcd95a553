/* A session of the library, from pth_init to pth_kill, and the options of the user. */
#ifndef SESSION_H
#define SESSION_H

#include <stdbool.h>
#include <sys/time.h>

/* What the environment asks for. The script run-c lists its variables. */
struct options {
    const char *play;   /* RUN_C_PLAY: the program pth_play */
    const char *record; /* RUN_C_RECORD: how the names of the recording begin */
    const char *again;  /* RUN_C_AGAIN: a recording that takes the place of the real world, or NULL */
    bool shows;         /* RUN_C_SHOW: prints each line as it is taken */
    bool skips_sleeps;  /* RUN_C_CLOCK=virtual: time moves at once while nothing from outside is waited for */
    bool defers_calls;  /* RUN_C_DEFER: calls of a cleanup function that no act can say are made by the next thread */
    bool counts;        /* RUN_C_COUNTS: prints counts at the end of a session */
};
extern struct options options; /* set as the library is loaded */

enum ending { GOES_ON, MAIN_ENDED, KILLED };

struct session {
    int number;           /* how many sessions there were, with this one */
    int process;          /* the process that began it */
    bool is_on;           /* whether a session began and was not killed */
    enum ending ending;   /* how the run of the machine ended */
    long value;           /* with which value main ended it */
    long long now;        /* the machine's moment, in microseconds from the start */
    struct timeval start; /* the time of day at moment 0 */
    long long started_at; /* the clock at moment 0 */
    long calls;           /* how many calls were made */
};
extern struct session session; /* the session that is on, or the last one */

/* Begins a session if none is on, as pth_init does. */
void session_begin(void);

/* Whether this is the process that began the session, and no child that fork(2) has made of it. */
bool session_is_here(void);

/* Hands over the output that is left, saves the recording, and prints the counts if the user asked for them, at most
   once for a session. */
void session_save(void);

/* If a signal ended the process of the recording of --again here, does what it did: its default action, or the handler
   of the program. The run has made so many steps, and is about to make another or to wait for ever. */
void session_end_as_recorded(long steps);

/* Saves the recording of a process that a signal ends. It only makes system calls. */
void session_save_at_signal(int signal);

/* Ends the process as main's pth_exit does. */
__attribute__((noreturn)) void session_exit(void);

/* Returns the clock in microseconds. It does not go back. */
long long session_clock(void);

/* Whether what comes from outside stands in a recording, and the real world is not asked. */
bool session_is_again(void);

/* Moves a descriptor that the library has opened for itself to a high number, so that the program gets those which it
   would get without the library. */
int session_private_file(int file);

/* Whether a descriptor of the system is one of these. */
bool session_has_private_file(int file);

#endif
