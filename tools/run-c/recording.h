/* The recording of a run: a script with what came from outside, and the transcript that pth_play prints of it.

   NAME.pth is there, and can be played, from the first answer on, whatever ends the process. There are two files of
   scripts: NAME.pth has that of the last good answer, and NAME.pth.PID is the one that pth_play reads next. Once its
   answer is good, one system call swaps their names. So a question writes its script once, as it would anyway, and no
   copy is made. Only if the names cannot be swapped is the script written a second time, into NAME.pth: SIGKILL at
   that moment may break it. NAME.transcript is written at the end. If SIGKILL ends the process, run-c asks pth_play
   for it. */
#ifndef RECORDING_H
#define RECORDING_H

#include "memory.h"

#include <stdbool.h>

/* What pth_play was asked and what it printed: with --steps STEPS, of this script, exactly this transcript. */
struct recording {
    struct text script, transcript;
    long steps;
};

/* Begins the recording of a session, numbered from 1. NAME.pth and NAME.transcript are those of the first session,
   NAME.2.pth and NAME.2.transcript those of the second. Refuses the run if the script is there already. */
void recording_begin(const char *name, int session);

/* Writes the script of a question. Returns the file, which is to be read from its beginning. */
int recording_write(const struct recording *recording);

/* Makes this the recording, whose script was written last. Its texts must not change until another is kept. */
void recording_keep(const struct recording *recording);

/* Writes the transcript, and appends a comment to the script: how the process ended, unless that is NULL, and whether
   the transcript goes on past the byte that the process has reached. Removes the other file of scripts. It only makes
   system calls, on text that is there: a handler of a fatal signal may call it at any time. A second call does
   nothing. */
void recording_save(const char *ending, size_t reached);

/* Takes what comes to descriptors from the kernel section of an earlier recording of this session. `name` ends with
   `.pth`. Calls `found_connection` for each descriptor that comes by a connection. Returns false if the file cannot be
   read. */
bool recording_load(const char *name, int session, void (*found_connection)(int descriptor));

/* Returns the signal that ended the process of the loaded recording, if that was after so many steps, or else 0. Its
   default action did that, or a handler that ended the process. */
int recording_ending(long steps, bool *by_handler);

#endif
