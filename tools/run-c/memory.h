/* Memory of the library's own, and texts that grow. */
#ifndef MEMORY_H
#define MEMORY_H

#include <stddef.h>

/* A text that grows. A NUL that the length does not count follows its bytes, once there are any. */
struct text {
    char *bytes;
    size_t length, room;
};

/* Returns zeroed memory, which is never given back. None of it comes from the program's heap, so what malloc returns
   to the program does not depend on the library, and a run from a recording sees the addresses of equal blocks be
   equal. */
void *memory_take(size_t size);

/* Appends bytes. */
void text_add(struct text *text, const char *bytes, size_t length);

/* Appends a string. */
void text_add_string(struct text *text, const char *string);

/* Appends what printf would print. */
__attribute__((format(printf, 2, 3))) void text_print(struct text *text, const char *format, ...);

/* Makes room for a length, without a change of the text. */
void text_make_room(struct text *text, size_t length);

/* Makes the text empty. Its room stays. */
void text_clear(struct text *text);

#endif
