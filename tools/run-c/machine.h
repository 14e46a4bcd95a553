/* The machine: pth_play is asked on the script so far what is answered and who runs next. */
#ifndef MACHINE_H
#define MACHINE_H

#include <stddef.h>

/* Begins a run: nothing was asked. */
void machine_begin(void);

/* Lets the machine make one step more when it is asked next: a line of a body, or another try of a call that waits. */
void machine_add_step(void);

/* Asks the machine on the script and the steps so far. What was taken must be printed again, byte for byte: else the
   tentative arrivals are put off until after `now`, and if that does not help the run ends with a fault. */
void machine_ask(long long now);

/* Returns the next line that was not taken, or NULL if there is none but `step limit`. It is valid until the next
   call. */
const char *machine_next_line(void);

/* Takes the next line. */
void machine_take_line(void);

/* Returns where the line that is taken next begins in the transcript. */
size_t machine_place(void);

/* Returns the transcript from a place that was taken. */
const char *machine_transcript(size_t place);

/* Returns how many steps the machine may make, and how often it was asked. */
long machine_steps(void);
long machine_questions(void);

#endif
