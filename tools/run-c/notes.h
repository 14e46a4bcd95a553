/* What the system answered: comments in the kernel section of the recording, which pth_play ignores. A run from the
   recording gets the same answers. Such a comment is

       # descriptor D call K WORD NUMBER [HEX]

   D is a machine number, or -1 for a descriptor that the machine does not know. K counts the calls on D, and is 0 for
   what is said of D itself. HEX is the address of a socket. The words:

       opens N            D was open before its first call, as descriptor N of the system
       accepts N HEX      D is a connection, descriptor N of the system, from this address
       mode M             before the call, the program had set (2) or cleared (1) O_NONBLOCK
       forgets N          before the call, N bytes that the machine had were read by other means
       later 0            before the call, a microsecond passed, so that the machine learns of what has come
       ends 0             the call is a read at the end of a file, which may still get longer
       goes_on 0          the same call of the program goes on with another read
       fails_at_once E    the system refused the call with errno E before the machine was asked
       fails E            the system answered errno E in place of the machine's answer; 0 is the end of the input
       returns N          the system took only N bytes of a write that the machine does not know
       hangs_up 0         pth_poll answered POLLHUP
       datagram N HEX     the call read a datagram of N bytes from this address
       name 0 HEX         getsockname answered this address
       peer 0 HEX         getpeername answered this address
       binds E, listens E, connects E   bind, listen or connect of a socket that the machine does not know was refused
       error E            getsockopt answered errno E for a connect */
#ifndef NOTES_H
#define NOTES_H

#include "memory.h"

#include <sys/socket.h>

struct note {
    int descriptor, call;
    char word[16];
    long number;
    size_t length; /* of the address */
    unsigned char address[sizeof(struct sockaddr_storage)];
};

/* Forgets all notes. */
void notes_begin(void);

/* Adds a note without an address, and one with an address. */
void note_add(int descriptor, int call, const char *word, long number);
void note_add_address(int descriptor, int call, const char *word, long number, const void *address, size_t length);

/* In a run from a recording: returns the note that the recording has of a call, and adds it again. Returns NULL if
   there is none. */
const struct note *note_take(int descriptor, int call, const char *word);

/* The same for the first note with this word that was not taken. */
const struct note *note_take_next(const char *word);

/* Reads a line of the kernel section of a recording. A line that is no note is left out. */
void notes_load(const char *line);

/* Prints the notes that were added. */
void notes_print(struct text *text);

#endif
