/* Signals that a thread waits for. They come by descriptors of their own. */
#ifndef SIGNALS_H
#define SIGNALS_H

#include <signal.h>

/* Forgets which descriptors belong to events. */
void signals_begin(void);

/* Gives a descriptor to an event, by which the signals of a set come, each for this event only. Returns its machine
   number. */
int signals_take_descriptor(const sigset_t *set);

/* Takes the descriptor of an event back, for another event of the same set. */
void signals_give_back(int number);

#endif
