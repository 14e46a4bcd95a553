/* The table of descriptors. The machine's numbers, 0 to 63, are used once in a run, since a script cannot open a
   descriptor again that it has closed. The system's numbers are used again. */
#ifndef DESCRIPTORS_H
#define DESCRIPTORS_H

#include "memory.h"
#include "script.h"

#include <signal.h>
#include <stdbool.h>
#include <stdint.h>
#include <sys/socket.h>
#include <sys/types.h>

enum { PART_BYTES = 2048 }; /* at most so many bytes are in a line of a script */

enum descriptor_kind {
    SOCKET,    /* a socket of a stream */
    DATAGRAMS, /* a socket of messages with boundaries */
    LISTENER,  /* a socket to which connections come */
    PIPE,
    REGULAR,  /* a file with an offset */
    TERMINAL, /* a terminal, or another device whose bytes are gone once they were looked at */
    COUNTER,  /* an eventfd or the like, of which records are read */
    SIGNALS,  /* a descriptor of the library by which signals come */
    FUNCTION, /* one by which the library says that the function of an event holds */
};

/* A descriptor by its machine number. */
struct descriptor {
    bool is_known;    /* whether the number is in use or was */
    bool is_expected; /* whether a recording says that it comes by a connection */
    bool is_closed;
    bool is_of_event; /* whether it is of signals that come for one event only */
    bool is_outside; /* in a run from a recording: the system's descriptor is not read or written, since the other side
                        is not there */
    int system; /* the system's number, one of them after a dup; -1 for a function, or a connection that the program
                   did not accept */
    enum descriptor_kind kind;
    dev_t device; /* with the inode: the file that the system's number is for */
    ino_t inode;
    int calls;              /* how many calls were made on it; notes have this number */
    int plain_writes;       /* how many of them by functions of the C library; notes have this number with a minus */
    bool is_nonblocking;    /* whether the machine knows that calls on it do not wait */
    bool does_not_wait;     /* whether the present call does not wait, whatever O_NONBLOCK is */
    bool has_begun_connect; /* whether a connect was begun in the system */
    bool is_connecting;     /* whether the system has not said how a connect went */
    bool was_refused;       /* whether it was added that a connect was refused */
    bool has_failed;        /* whether it was added that the descriptor has failed */
    bool is_at_end;         /* whether its end or failure was added: no more input is added */
    bool is_at_file_end;    /* whether the last look found the end of a file, which may still get longer */
    bool asks_for_urgent;   /* whether a call has asked for its exceptional condition */
    bool has_urgent;        /* whether that was added */
    size_t asked;           /* how many bytes a call that waits asks for, or 0 */
    long unread;            /* bytes, signals or connections that were added and not taken by the program */
    long long unread_since; /* the moment of the last of them */
    off_t place;            /* where a pread reads or a pwrite writes; -1 for the offset of the file */
    off_t place_of_unread;  /* where the unread bytes of a file begin */
    long long missed_at;    /* the moment at which a call last found less input than it asks for */
    long room;              /* room that was added and not used by the program */
    long long cramped_at;   /* the moment at which a call last found less room than it needs */
    int error;              /* what the system has said of the failure of its input or its connect; 0 once answered */
    sigset_t signals;       /* of a descriptor of signals */
    struct text output;     /* what the machine has written and the system has not taken; see output.c */
    int output_error;       /* why the system refused some of it, which the next write answers; or 0 */
    int shutdown;           /* how it is to be shut down once there is no such output; or -1 */
    size_t peer_size;       /* of the peer's address in a run from a recording */
    unsigned char peer[sizeof(struct sockaddr_storage)];
};
extern struct descriptor descriptors[DESCRIPTORS]; /* the table */

/* Forgets all descriptors. */
void descriptors_begin(void);

/* Notes that a machine number is that of a connection in a recording. */
void descriptor_expect(int number);

/* Whether a session goes on, and this process has its descriptors: a child process has not. */
bool descriptors_are_in_use(void);

/* Returns the machine's number of one of the system, or -1 if there is none. */
int descriptor_find(int system);

/* The same, for a function of the C library that the program has called: -1 also if the descriptors are not in use. */
int descriptor_find_plain(int system);

/* The same as descriptor_find; gives a number to a descriptor that has none, which is then open from the start of the
   run. Returns -1 if it is not open in the system. */
int descriptor_of(int system);

/* Gives a new machine number to a descriptor of the system, or to a connection that is not accepted yet, for -1. */
int descriptor_add(int system);

/* Notes that a machine number is that of a descriptor of the system, which a connection has got. */
void descriptor_assign(int number, int system);

/* Lets the next call of the current thread wait for no descriptor. */
void descriptor_clear_needs(void);

/* Begins a call on a descriptor, which waits for nothing so far. Returns its machine number, or -1 with EBADF. */
int descriptor_begin_call(int system);

/* Counts a call, and lets the machine know what the program has done to the descriptor by other means. */
void descriptor_count_call(int number);

/* Lets the next call of the current thread wait for arrivals at descriptors, and for room, a bit each. */
void descriptor_need(uint64_t reads, uint64_t writes);

/* Lets it wait for exceptional conditions. */
void descriptor_need_urgent(uint64_t numbers);

/* Whether a thread waits for input of a descriptor, or for room. */
bool descriptor_is_awaited(int number, bool is_for_room);

/* Notes the errno with which the system has answered the present call of a descriptor, by a word of notes.h, or
   nothing for 0. In a run from a recording, returns what it has noted. */
int descriptor_note_error(int number, const char *word, int error);

/* Lets the machine close what a number of the system is for, unless another number is for the same. The number is
   still open in the system. */
void descriptor_close(int system);

/* Notes that a number of the system is a duplicate of another. */
void descriptor_duplicate(int system, int of);

#endif
