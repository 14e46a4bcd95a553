/* Sets of descriptors: those of select, and those of the script language. */
#ifndef SELECT_H
#define SELECT_H

#include <stdbool.h>
#include <stdint.h>
#include <sys/select.h>

enum { SET_BYTES = 256 }; /* 64 numbers of two digits with commas */

/* Reads a set of the program, or NULL, as a bit for each machine number. Returns false, with EBADF, if a member is not
   open. */
bool set_read(int limit, const fd_set *set, uint64_t *bits);

/* Spells a set for the script, such as `0,5` or `-`. */
void set_spell(uint64_t bits, char word[SET_BYTES]);

/* Reads a word of the machine as a bit for each machine number. */
uint64_t set_read_word(const char *word);

/* Leaves those members in a set of the program, or NULL, that are in a word of the machine. Returns their count. */
int set_write(const char *word, fd_set *set);

#endif
