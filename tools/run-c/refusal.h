/* How a run is given up, and what is printed on standard error. */
#ifndef REFUSAL_H
#define REFUSAL_H

enum { STATUS_STALLED = 96, STATUS_REFUSED = 97, STATUS_FAULT = 98 };

/* Ends the process with STATUS_REFUSED: the program does what no script can say, or what is beyond a limit of scripts.
   The recording is saved. The format says what the limit is. It is printed on one line, below the call and its place
   in the program, as in

       run-c: refused: pth_fork at main.c:31 (worker): a script has no processes
*/
__attribute__((noreturn, format(printf, 1, 2))) void refuse(const char *format, ...);

/* Ends the process with STATUS_FAULT: the library or pth_play has failed, and the program is not at fault. The
   recording is saved. */
__attribute__((noreturn, format(printf, 1, 2))) void fault(const char *format, ...);

/* Ends the process with STATUS_STALLED, after all output of the program. The recording is saved. */
__attribute__((noreturn)) void give_up_stalled(const char *last_line);

/* Prints a line on standard error. */
__attribute__((format(printf, 1, 2))) void warn(const char *format, ...);

/* Prints a line of the transcript on standard error if the user asked for that. */
void show_line(const char *line);

#endif
