/* What the system answered: comments in the recording. */
#define _GNU_SOURCE
#include "notes.h"
#include "refusal.h"

#include <stdbool.h>
#include <stdio.h>
#include <string.h>

enum { NOTES = 1 << 18, ANY = -2 };

static struct text added;          /* the notes of this run, as they are printed */
static struct note *loaded[NOTES]; /* the notes of the recording that were not taken, in their order; NULL if taken */
static int loaded_count, first_left; /* how many there were; the first that was not taken */

void notes_begin(void) {
    text_clear(&added);
    loaded_count = first_left = 0;
}

void note_add_address(int descriptor, int call, const char *word, long number, const void *address, size_t length) {
    const unsigned char *bytes = address;
    text_print(&added, "# descriptor %d call %d %s %ld", descriptor, call, word, number);
    for (size_t i = 0; i < length; i++)
        text_print(&added, "%s%02x", i ? "" : " ", bytes[i]);
    text_add_string(&added, "\n");
}

void note_add(int descriptor, int call, const char *word, long number) {
    note_add_address(descriptor, call, word, number, NULL, 0);
}

void notes_print(struct text *text) {
    text_add(text, added.bytes, added.length);
}

/* ---- the notes of the recording */

static const struct note *take(int descriptor, int call, const char *word) {
    while (first_left < loaded_count && !loaded[first_left])
        first_left++;
    for (int i = first_left; i < loaded_count; i++) {
        struct note *note = loaded[i];
        if (!note || strcmp(note->word, word) != 0)
            continue;
        if (descriptor != ANY && (note->descriptor != descriptor || note->call != call))
            continue;
        loaded[i] = NULL;
        note_add_address(note->descriptor, note->call, word, note->number, note->address, note->length);
        return note;
    }
    return NULL;
}

const struct note *note_take(int descriptor, int call, const char *word) {
    return take(descriptor, call, word);
}

const struct note *note_take_next(const char *word) {
    return take(ANY, 0, word);
}

static size_t read_address(const char *hex, unsigned char *bytes, size_t size) {
    size_t length = 0;
    unsigned byte;
    while (length < size && sscanf(hex + 2 * length, "%2x", &byte) == 1)
        bytes[length++] = byte;
    return length;
}

void notes_load(const char *line) {
    struct note note = {0};
    int used = 0;
    if (sscanf(line, "# descriptor %d call %d %15s %ld %n", &note.descriptor, &note.call, note.word, &note.number,
               &used) != 4)
        return;
    if (used)
        note.length = read_address(line + used, note.address, sizeof note.address);
    if (loaded_count == NOTES)
        fault("the recording has more than %d notes", NOTES);
    struct note *kept = memory_take(sizeof *kept);
    *kept = note;
    loaded[loaded_count++] = kept;
}
