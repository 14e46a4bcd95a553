/* What a C program has addresses for, and a script has numbers or names for. */
#ifndef OBJECTS_H
#define OBJECTS_H

#include "threads.h"

enum { LOCK_NUMBERS = 64 }; /* of mutexes, and of read-write locks, conditions, barriers, `once` controls */

/* ---- values: arguments, exit values, messages, values of keys */

/* Forgets all values. */
void values_begin(void);

/* Returns the number of a pointer: its own value if that is small or PTH_CANCELED, else one by the order of first use.
 */
long value_number(const void *pointer);

/* Returns the pointer of a number. */
void *value_of_number(long number);

/* ---- names of threads and ports */

/* Returns a name of the script language for a name of the program: the same one each time, and another one for another
   name. */
const char *name_of_script(const char *name);

/* Returns the program's name for a name of the script. */
const char *name_of_program(const char *name);

/* ---- mutexes, read-write locks, conditions, barriers and `once` controls, by their addresses */

/* Forgets all of them. */
void objects_begin(void);

/* Returns the number of an object that is initialised; initialises it for the machine at its first use. Returns a
   number that the machine refuses if the object is not initialised. */
int mutex_number(pth_mutex_t *mutex);
int cond_number(pth_cond_t *cond);

/* Returns the number of a `once` control. */
int once_number(pth_once_t *control);

#endif
