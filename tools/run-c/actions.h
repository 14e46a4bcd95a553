/* What the process does at signals: the handlers of the program, and the default actions that end the process. */
#ifndef ACTIONS_H
#define ACTIONS_H

/* From now on the recording is saved before the default action of a signal ends the process, which it still does.
   Signals that the program handles or ignores are left to it. */
void actions_begin(void);

/* Saves the recording, and ends the process by the default action of a signal. */
__attribute__((noreturn)) void action_end_process(int signal);

/* Returns a signal for which a handler has run since this function returned it last, or 0. */
int action_next_handled(void);

/* Returns the signal whose handler runs, or 0 if none runs. A handler that was left by siglongjmp does not run. */
int action_running(void);

#endif
