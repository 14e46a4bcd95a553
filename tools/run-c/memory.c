/* Memory of the library's own, and texts that grow. */
#define _GNU_SOURCE
#include "memory.h"
#include "refusal.h"

#include <stdarg.h>
#include <stdio.h>
#include <string.h>
#include <sys/mman.h>

enum { CHUNK = 1 << 20, FIRST_ROOM = 4096 };

static void *map_pages(size_t size) {
    void *pages = mmap(NULL, size, PROT_READ | PROT_WRITE, MAP_PRIVATE | MAP_ANONYMOUS, -1, 0);
    if (pages == MAP_FAILED)
        fault("out of memory");
    return pages;
}

void *memory_take(size_t size) {
    static char *chunk; /* the rest of the last chunk */
    static size_t left; /* its size */
    size = (size + 15) & ~(size_t)15;
    if (size > left) {
        left = size > CHUNK ? size : CHUNK;
        chunk = map_pages(left);
    }
    char *taken = chunk;
    chunk += size;
    left -= size;
    return taken;
}

void text_make_room(struct text *text, size_t length) {
    if (length + 1 <= text->room)
        return;
    size_t room = text->room ? text->room : FIRST_ROOM;
    while (room < length + 1)
        room *= 2;
    if (text->bytes) {
        text->bytes = mremap(text->bytes, text->room, room, MREMAP_MAYMOVE);
        if (text->bytes == MAP_FAILED)
            fault("out of memory");
    } else {
        text->bytes = map_pages(room);
    }
    text->room = room;
}

void text_add(struct text *text, const char *bytes, size_t length) {
    text_make_room(text, text->length + length);
    if (length)
        memcpy(text->bytes + text->length, bytes, length);
    text->length += length;
    text->bytes[text->length] = 0;
}

void text_add_string(struct text *text, const char *string) {
    text_add(text, string, strlen(string));
}

void text_print(struct text *text, const char *format, ...) {
    va_list list, again;
    va_start(list, format);
    va_copy(again, list);
    int length = vsnprintf(NULL, 0, format, list);
    text_make_room(text, text->length + length);
    vsnprintf(text->bytes + text->length, length + 1, format, again);
    text->length += length;
    va_end(again);
    va_end(list);
}

void text_clear(struct text *text) {
    text->length = 0;
    if (text->bytes)
        text->bytes[0] = 0;
}
