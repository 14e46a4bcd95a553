/* Cleanup functions, and the calls of C functions that run while another thread's C code is at a call.

   A thread that ends by itself makes each of its cleanup functions and destructors run as ordinary code, before its
   `exit`: they may make any call. If a thread is canceled or aborted, or main exits while other threads are there, the
   machine runs a handler, and the C function runs then. Each call of the function becomes an act of the handler, or is
   refused. */
#ifndef HANDLERS_H
#define HANDLERS_H

#include "script.h"

#include <stdbool.h>

struct pth_st;

/* The handler of a `once`, whose C function runs as ordinary code of its thread. No script defines it. */
enum { ONCE_HANDLER = 2000000000 };

/* Forgets all handlers. */
void handlers_begin(void);

/* Takes a handler of the script, for a cleanup function that is pushed or a destructor. Refuses the run if there is
   none. */
int handler_take_free(void);

/* Gives back a handler whose C function has not run as a handler. Others keep their acts, and are not used again. */
void handler_give_back(int handler);

/* Whether a C function runs as a handler or destructor. Its calls are acts of the handler. */
bool handler_runs(void);

/* Returns the thread whose handler runs. */
struct pth_st *handler_thread(void);

/* Makes a call of the C function that runs as a handler, as an act, and returns its answer as call_line does. */
long handler_call(const char *line);

/* Returns and removes the first call that such a function has left to the next thread, or returns NULL. */
const char *handler_next_deferred(void);

/* Does what the machine prints: a cleanup handler, or that of a `once`, runs for a thread with a value. */
void handler_take(struct pth_st *thread, int handler, long value);

/* Runs the destructor of a key as this handler of a thread. Its argument is the pointer of the value. */
void handler_run_destructor(struct pth_st *thread, int handler, long value, int key, void (*function)(void *));

/* Pops a cleanup function of the current thread, and runs it as ordinary code of the thread if asked to. Returns TRUE
   or FALSE. */
int cleanup_pop(bool runs);

/* Runs the cleanup functions and destructors of the current thread, which is about to exit, unless the machine is to
   run them. */
void handlers_run_before_exit(void);

#endif
