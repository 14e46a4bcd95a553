/* Events of functions: PTH_EVENT_FUNC.

   The machine has an event of a descriptor for it, and this descriptor is of the library's own. As long as a thread
   waits with the event, the C function is asked: at each pass of the machine, and while no thread can run, but not
   before the interval of the event has passed since it was asked last. Once it holds, a byte comes to the descriptor,
   at the moment of that pass. So a recording says at which moments functions held. A run from a recording asks them at
   the same moments, and takes what they said from the recording. */
#ifndef FUNCTIONS_H
#define FUNCTIONS_H

#include "threads.h"

/* Forgets all events of functions. */
void functions_begin(void);

/* Takes a descriptor for an event, and gives it back for another event. */
int function_take_descriptor(void);
void function_give_back(int descriptor);

/* Adds an event that was made, and removes one. */
void function_add(pth_event_t event);
void function_remove(pth_event_t event);

/* Makes an event pending again before a call waits with it: reads the byte of its descriptor. */
void function_clear(pth_event_t event);

/* Notes that the current thread waits with none of the events, or that its next call waits with this one. */
void functions_release(void);
void function_claim(pth_event_t event);

/* Notes a line that the machine printed. */
void functions_see(const char *line);

/* Asks the functions if the line that comes next shows that the machine has made a pass. Returns true if one of them
   holds, so that the machine is to make that pass anew. */
bool functions_ask_at_pass(const char *next_line);

/* Waits as arrivals_wait does, and asks the functions meanwhile. */
bool functions_wait(long long until);

/* Refuses the run if a function is being asked: it is no thread that makes the call. */
void functions_refuse_calls(void);

#endif
