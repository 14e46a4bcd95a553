/* Arrivals: what comes from outside is added to the script. */
#ifndef ARRIVALS_H
#define ARRIVALS_H

#include <stdbool.h>
#include <stddef.h>

/* What has come to a descriptor for a call that the current thread is about to make comes at the present moment. All
   calls of a turn have the same moment. So if an earlier call of the turn has missed it, or if another thread waits
   for it, it comes a microsecond later; a call that waits gets it then. The next function lets this time pass before a
   call that does not wait, by another call. */
void arrivals_let_time_pass(int number, bool is_for_input, bool is_for_room);

/* The next four add what has come. */

/* For a call that asks whether there is input. */
void arrivals_bring_input(int number);

/* For a `read` of at most this many bytes. Returns 0, or the errno with which the system refuses the read. */
int arrivals_bring_bytes(int number, size_t size);

/* For an `accept`. Returns 0, or the errno with which the system refuses it. */
int arrivals_bring_connection(int number);

/* For a call that needs room for bytes, or asks whether there is. */
void arrivals_bring_room(int number);

/* Adds what has come for threads that wait, while the current thread runs: it comes a microsecond later. */
void arrivals_look(void);

/* Waits until something comes for a thread that waits, or until a moment, or without end for -1. Returns true once
   something was added. Returns false at the moment, or at once if nothing can come. */
bool arrivals_wait(long long until);

/* Waits until a descriptor has input, while no thread runs, as a function of the C library does. */
void arrivals_wait_plainly(int number);

#endif
