/* How a C function of pth.h makes a call of the machine. */
#ifndef CALLS_H
#define CALLS_H

#include <stdbool.h>

/* Where the program made a call: the function of pth.h, and the address to which it returns. */
struct call_site {
    const char *name;
    const void *address;
};

/* The first statement of each function of pth.h that makes calls. It begins a session if none is on, and refuses the
   run if the call cannot be made now. */
#define CALL_ENTER() call_enter(__func__, __builtin_return_address(0))
void call_enter(const char *name, const void *address);

/* Refuses the run if no call can be made here: in a signal handler, or in a child of fork(2). Begins no session. */
void call_check(const char *name, const void *address);

/* Whether the program's own code runs, and no signal handler, so that calls could be made. */
bool calls_are_possible(void);

/* Returns where the program made the last call of the thread that runs, for messages. Its name is NULL before the
   first call. */
const struct call_site *call_site(void);

/* Makes a call as a line of the current thread, or as an act if a cleanup function runs, and returns when the machine
   has answered it and the thread is dispatched. Returns the number that is answered; -1 after an error, with errno. */
__attribute__((format(printf, 1, 2))) long call(const char *format, ...);

/* The same for a line that is there. */
long call_line(const char *line);

/* The error of the last call as a value of errno, or 0. */
extern int call_error;

/* Returns TRUE if the last call was not refused, else FALSE. */
int call_truth(void);

/* Returns the answer of the last call as the machine printed it. It is valid until the next call. */
const char *call_answer(void);

/* Reads an answer, as call does with the last one. */
long call_read_answer(const char *answer);

/* Makes the calls that cleanup functions have left to the next thread, if the user has allowed that. */
void calls_make_deferred(void);

/* Takes what the machine prints, until the thread that runs is to make its next call, or the run is over. */
void dispatch(void);

/* Calls a C function of the program from within dispatch. */
void call_program(void (*function)(void *), void *argument);

#endif
