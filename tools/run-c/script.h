/* The script that grows: a body for each C thread, the handlers of their cleanup functions, and what came to
   descriptors. docs/script-language.md has the language and its limits. */
#ifndef SCRIPT_H
#define SCRIPT_H

#include "memory.h"

#include <stdbool.h>

enum { BODIES = 256, BODY_LINES = 4096, HANDLERS = 256, ACTS = 64, DESCRIPTORS = 64, ARRIVALS = 65536 };
enum { LINE_BYTES = 8192 };

/* Makes the script that of a main thread without a line. */
void script_clear(void);

/* Makes sure that a body is there, and all bodies below it. */
void script_add_body(int body);

/* Appends a line to a body. Refuses the run if the body is full. */
void script_add_line(int body, const char *line);

/* Appends a comment to a body. */
void script_add_comment(int body, const char *text);

/* Lets a body be used again, by a thread whose argument is this generation: a jump at the head of the body leads to
   the label that is appended. Threads of earlier generations jump before they come to this jump. */
void script_add_generation(int body, int generation);

/* Returns how many lines a body has. */
int script_body_lines(int body);

/* Makes sure that a handler is there, and all handlers below it. */
void script_add_handler(int handler);

/* Appends an act to a handler. Refuses the run if the handler is full. */
void script_add_act(int handler, const char *act);

/* Appends a comment to a handler. */
void script_add_handler_comment(int handler, const char *text);

/* Makes a descriptor open from the start of the run. */
void script_open(int descriptor);

/* Appends what comes to a descriptor at a moment, which is not before the last arrival of that descriptor. A tentative
   arrival may be put off, until script_settle_arrivals is called. */
void script_add_arrival(long long moment, int descriptor, const char *what, bool is_tentative);

/* Whether something comes to a descriptor at exactly this moment. */
bool script_has_arrival(int descriptor, long long moment);

/* Puts the tentative arrivals off until a moment, and settles them. */
void script_put_off_arrivals(long long moment);

/* Makes the arrivals so far definite. */
void script_settle_arrivals(void);

/* Prints the script. The comment is the second line, without its `# `. */
void script_print(struct text *text, const char *comment);

#endif
