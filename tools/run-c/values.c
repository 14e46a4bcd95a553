/* Values and names: what a C program has pointers and strings for, and a script numbers and names. */
#define _GNU_SOURCE
#include "memory.h"
#include "objects.h"
#include "refusal.h"

#include <ctype.h>
#include <stdbool.h>
#include <stdint.h>
#include <stdio.h>
#include <string.h>

enum { FIRST_NUMBER = 1 << 20, POINTERS = 1 << 20, NAME_BYTES = 40, NAMES = 1 << 16 };

/* ---- values */

static const void *pointers[POINTERS]; /* the pointers by their numbers, less FIRST_NUMBER */
static int32_t slots[2 * POINTERS];    /* a hash table of their indices plus 1; 0 is an empty slot */
static int pointer_count;              /* how many there are */

static size_t slot_of(const void *pointer) {
    size_t slot = ((uintptr_t)pointer >> 3) * 0x9e3779b97f4a7c15u >> 43;
    while (slots[slot] && pointers[slots[slot] - 1] != pointer)
        slot = (slot + 1) % (2 * POINTERS);
    return slot;
}

void values_begin(void) {
    if (pointer_count)
        memset(slots, 0, sizeof slots);
    pointer_count = 0;
}

long value_number(const void *pointer) {
    if ((uintptr_t)pointer < FIRST_NUMBER || pointer == PTH_CANCELED)
        return (long)pointer;
    size_t slot = slot_of(pointer);
    if (!slots[slot]) {
        if (pointer_count == POINTERS)
            refuse("more than %d values that are pointers", POINTERS);
        pointers[pointer_count++] = pointer;
        slots[slot] = pointer_count;
    }
    return FIRST_NUMBER + slots[slot] - 1;
}

void *value_of_number(long number) {
    if (number >= FIRST_NUMBER && number < FIRST_NUMBER + pointer_count)
        return (void *)pointers[number - FIRST_NUMBER];
    return (void *)number;
}

/* ---- names */

static struct name {
    const char *of_program;
    char of_script[NAME_BYTES + 1];
} * names[NAMES];      /* the names, kept from one session to the next */
static int name_count; /* how many there are */

/* Writes a name in the letters of the script language. Returns its length. */
static int spell_name(const char *name, char *spelling) {
    int length = 0;
    for (; name[length] && length < NAME_BYTES - 6; length++) {
        unsigned char letter = tolower((unsigned char)name[length]);
        bool is_allowed = (letter >= 'a' && letter <= 'z') || (letter >= '0' && letter <= '9') || letter == '.';
        spelling[length] = is_allowed ? letter : '_';
    }
    if (length == 0)
        spelling[length++] = '_';
    spelling[length] = 0;
    return length;
}

static bool is_taken(const char *spelling) {
    for (int i = 0; i < name_count; i++)
        if (strcmp(names[i]->of_script, spelling) == 0)
            return true;
    return false;
}

static struct name *add_name(const char *of_program) {
    if (name_count == NAMES)
        refuse("more than %d names", NAMES);
    struct name *added = memory_take(sizeof *added);
    char *kept = memory_take(strlen(of_program) + 1);
    added->of_program = strcpy(kept, of_program);
    return names[name_count++] = added;
}

const char *name_of_script(const char *name) {
    char spelling[NAME_BYTES + 1];
    for (int i = 0; i < name_count; i++)
        if (strcmp(names[i]->of_program, name) == 0)
            return names[i]->of_script;
    int length = spell_name(name, spelling);
    for (int i = 2; is_taken(spelling); i++)
        snprintf(spelling + length, sizeof spelling - length, ".%d", i);
    return strcpy(add_name(name)->of_script, spelling);
}

const char *name_of_program(const char *name) {
    for (int i = 0; i < name_count; i++)
        if (strcmp(names[i]->of_script, name) == 0)
            return names[i]->of_program;
    struct name *added = add_name(name); /* a name that the machine made, as `main.child` */
    snprintf(added->of_script, sizeof added->of_script, "%s", name);
    return added->of_program;
}
