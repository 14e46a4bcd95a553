/* Streams of the C library on descriptors that the machine knows. What a stream reads is not in the recording. */
#define _GNU_SOURCE
#include "arrivals.h"
#include "calls.h"
#include "descriptors.h"
#include "input.h"
#include "output.h"
#include "plain.h"
#include "refusal.h"
#include "session.h"

#include <dlfcn.h>
#include <stdarg.h>
#include <stdio.h>
#include <string.h>

#undef getc
#undef getchar

/* Returns the function of the C library. */
static void *next_function(const char *name) {
    void *function = dlsym(RTLD_NEXT, name);
    if (!function)
        fault("the C library has no function %s", name);
    return function;
}

EXPORTED int fclose(FILE *stream) {
    static int (*next)(FILE *); /* that of the C library */
    if (!next)
        next = (int (*)(FILE *))next_function("fclose");
    if (descriptor_find_plain(fileno(stream)) >= 0) {
        CALL_ENTER();
        fflush(stream);
        descriptor_close(fileno(stream));
    }
    return next(stream);
}

/* The process that reads what is left of the output has to get it before the wait for its end. */
EXPORTED int pclose(FILE *stream) {
    static int (*next)(FILE *); /* that of the C library */
    if (!next)
        next = (int (*)(FILE *))next_function("pclose");
    int number = descriptor_find_plain(fileno(stream));
    if (number >= 0) {
        CALL_ENTER();
        fflush(stream);
        output_wait(number);
        descriptor_close(fileno(stream));
    }
    return next(stream);
}

/* Gives bytes to a stream, which reads them next. */
static void push_back(FILE *stream, const char *hex) {
    unsigned byte;
    for (size_t at = strlen(hex); at >= 2; at -= 2)
        if (sscanf(hex + at - 2, "%2x", &byte) != 1 || ungetc((int)byte, stream) == EOF)
            refuse("bytes that a call of Pth has taken to look at them cannot be given to the stream");
}

/* Leaves the bytes of a descriptor that the machine has to a stream. Those of a terminal are given to it, as the
   system no longer has them. */
static void begin_read(FILE *stream, const char *name, const void *address) {
    int number = descriptor_find_plain(fileno(stream));
    if (number < 0)
        return;
    call_enter(name, address);
    if (session_is_again())
        refuse("what the stream reads is not in the recording; read and pth_read are");
    descriptor_begin_call(fileno(stream));
    bool has_taken = descriptors[number].kind == TERMINAL && descriptors[number].unread > 0;
    input_leave(number);
    if (has_taken)
        push_back(stream, call_answer() + strlen("hex:"));
}

#define READS(type, name, parameters, stream, arguments)                                                              \
    EXPORTED type name parameters {                                                                                   \
        static type(*next) parameters;                                                                                \
        if (!next)                                                                                                    \
            next = (type(*) parameters)next_function(#name);                                                          \
        begin_read(stream, #name, __builtin_return_address(0));                                                       \
        return next arguments;                                                                                        \
    }

READS(char *, fgets, (char *restrict line, int size, FILE *restrict stream), stream, (line, size, stream))
READS(int, fgetc, (FILE * stream), stream, (stream))
READS(int, getc, (FILE * stream), stream, (stream))
READS(int, getchar, (void), stdin, ())
READS(size_t, fread, (void *restrict bytes, size_t size, size_t count, FILE *restrict stream), stream,
      (bytes, size, count, stream))
READS(ssize_t, getline, (char **restrict line, size_t *restrict size, FILE *restrict stream), stream,
      (line, size, stream))
READS(ssize_t, getdelim, (char **restrict line, size_t *restrict size, int end, FILE *restrict stream), stream,
      (line, size, end, stream))
READS(ssize_t, __getdelim, (char **restrict line, size_t *restrict size, int end, FILE *restrict stream), stream,
      (line, size, end, stream))

/* The names of fscanf and scanf by the standards for which a program is compiled. */
#define SCANS(name)                                                                                                   \
    int name##_fscanf(FILE *restrict stream, const char *restrict format, ...);                                       \
    int name##_scanf(const char *restrict format, ...);                                                               \
    EXPORTED int name##_fscanf(FILE *restrict stream, const char *restrict format, ...) {                             \
        va_list list;                                                                                                 \
        begin_read(stream, "fscanf", __builtin_return_address(0));                                                    \
        va_start(list, format);                                                                                       \
        int count = vfscanf(stream, format, list);                                                                    \
        va_end(list);                                                                                                 \
        return count;                                                                                                 \
    }                                                                                                                 \
    EXPORTED int name##_scanf(const char *restrict format, ...) {                                                     \
        va_list list;                                                                                                 \
        begin_read(stdin, "scanf", __builtin_return_address(0));                                                      \
        va_start(list, format);                                                                                       \
        int count = vfscanf(stdin, format, list);                                                                     \
        va_end(list);                                                                                                 \
        return count;                                                                                                 \
    }

SCANS(__isoc99)
SCANS(__isoc23)
