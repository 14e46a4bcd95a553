/* How a run is given up, and what is printed on standard error. */
#define _GNU_SOURCE
#include "refusal.h"
#include "calls.h"
#include "places.h"
#include "session.h"

#include <errno.h>
#include <stdarg.h>
#include <stdio.h>
#include <string.h>
#include <sys/syscall.h>
#include <unistd.h>

enum { MESSAGE_BYTES = 4096 };

/* ---- messages: each is written by one system call, since it may be due in a signal handler */

static void write_error(const char *text, size_t length) {
    while (length > 0) {
        long written = syscall(SYS_write, 2, text, length);
        if (written < 0 && errno != EINTR)
            return;
        text += written > 0 ? written : 0;
        length -= written > 0 ? written : 0;
    }
}

/* Writes the function of pth.h that the program called last, and where. Returns the length. */
static int spell_site(char *text, size_t size) {
    char place[PLACE_BYTES];
    const struct call_site *site = call_site();
    if (!site->name)
        return 0;
    if (!site->address)
        return snprintf(text, size, "%s: ", site->name);
    place_of_call(site->address, place);
    return snprintf(text, size, "%s at %s: ", site->name, place);
}

static void write_message(const char *kind, const char *format, va_list list) {
    char text[MESSAGE_BYTES];
    size_t length = snprintf(text, sizeof text, "run-c: %s", kind ? kind : "");
    if (kind)
        length += spell_site(text + length, sizeof text - length);
    length += vsnprintf(text + length, sizeof text - length, format, list);
    if (length > sizeof text - 1)
        length = sizeof text - 1;
    text[length++] = '\n'; /* in place of the NUL */
    write_error(text, length);
}

/* ---- endings */

void refuse(const char *format, ...) {
    va_list list;
    va_start(list, format);
    if (session.number == 0 || session_is_here()) /* a child has copies of what its parent has not written yet */
        fflush(NULL);
    write_message("refused: ", format, list);
    va_end(list);
    session_save();
    _exit(STATUS_REFUSED);
}

void fault(const char *format, ...) {
    va_list list;
    va_start(list, format);
    fflush(NULL);
    write_message("fault: ", format, list);
    va_end(list);
    session_save();
    _exit(STATUS_FAULT);
}

void give_up_stalled(const char *last_line) {
    fflush(NULL);
    warn("no thread can go on: %s", last_line);
    session_save();
    _exit(STATUS_STALLED);
}

void warn(const char *format, ...) {
    va_list list;
    va_start(list, format);
    write_message(NULL, format, list);
    va_end(list);
}

void show_line(const char *line) {
    if (options.shows)
        fprintf(stderr, "%s\n", line);
}
