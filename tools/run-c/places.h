/* Places of the program: the C function, the file and the line of an address, for messages. */
#ifndef PLACES_H
#define PLACES_H

enum { PLACE_BYTES = 512 };

/* Writes where a call was made that returns to an address: `main.c:31 (worker)` if addr2line of binutils finds the
   line, else `worker+0x1f`, else `program+0x1234`. */
void place_of_call(const void *address, char place[PLACE_BYTES]);

/* Writes a C function: `worker (main.c:20)` if addr2line finds the line of its first instruction, else `worker`, else
   `program+0x1234`. */
void place_of_function(const void *function, char place[PLACE_BYTES]);

/* Writes the name of a C function: `worker`, else `program+0x1234`. No other process is asked. */
void place_name(const void *function, char name[PLACE_BYTES]);

#endif
