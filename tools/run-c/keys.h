/* Keys: a value for each thread, with a destructor. */
#ifndef KEYS_H
#define KEYS_H

#include "threads.h"

/* Forgets all keys. */
void keys_begin(void);

/* The functions of pth.h, for other files of the library. */
int key_create(pth_key_t *key, void (*destructor)(void *));
int key_set(pth_key_t key, const void *value);
void *key_get(pth_key_t key);

/* Does what the machine prints: the destructor of a key runs for a value of a thread. */
void key_take_destructor(struct pth_st *thread, int key, long value);

/* Runs the destructors of the current thread, which is about to exit, as ordinary code of the thread. Leaves no value
   for which the machine would run one. */
void keys_run_destructors(void);

#endif
