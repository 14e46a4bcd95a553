/* The script: its sections and their lines. */
#include "play_on_libpth.h"

struct section handlers[SECTIONS], bodies[SECTIONS];
struct line checks[SECTIONS];
int handler_count, check_count, body_count;

void give_up(int at, const char *why) {
    tell_last_end();
    fflush(stdout);
    fprintf(stderr, "play_on_libpth: line %d: %s\n", at, why);
    _exit(3);
}

void *room(size_t bytes) {
    void *p = calloc(1, bytes);
    if (p == NULL) {
        fprintf(stderr, "play_on_libpth: out of memory\n");
        _exit(3);
    }
    return p;
}

int is(const char *word, const char *other) { return word != NULL && strcmp(word, other) == 0; }

static struct line split(char *text, int at) {
    struct line l = {at, 0, {NULL}};
    for (char *w = strtok(text, " "); w != NULL; w = strtok(NULL, " ")) {
        if (l.count == WORDS) give_up(at, "too many words");
        l.word[l.count++] = w;
    }
    return l;
}

static void add_line(struct section *s, struct line l) {
    s->lines = realloc(s->lines, (s->count + 1) * sizeof l);
    if (s->lines == NULL) give_up(l.at, "out of memory");
    s->lines[s->count++] = l;
}

/* The section that this line begins, or NULL if it is a whole section itself. */
static struct section *begin_section(struct line l) {
    if (is(l.word[0], "handler") && handler_count < SECTIONS) return &handlers[handler_count++];
    if (is(l.word[0], "thread") && body_count < SECTIONS) return &bodies[body_count++];
    if (is(l.word[0], "check") && check_count < SECTIONS && l.count == 5) {
        checks[check_count++] = l;
        return NULL;
    }
    if (is(l.word[0], "kernel")) give_up(l.at, "the C library plays no kernel section");
    give_up(l.at, "no such section, or too many");
    return NULL;
}

void read_script(const char *path) {
    FILE *f = fopen(path, "r");
    if (f == NULL) {
        fprintf(stderr, "play_on_libpth: %s: %s\n", path, strerror(errno));
        exit(3);
    }
    struct section *open = NULL;
    char *text = NULL;
    size_t size = 0;
    for (int at = 1; getline(&text, &size, f) >= 0; at++) {
        text[strcspn(text, "\n")] = 0;
        if (text[0] == '#') continue;
        struct line l = split(strdup(text), at);
        if (l.count == 0) give_up(at, "an empty line");
        if (at == 1 && !(is(l.word[0], "pth") && (is(l.word[1], "1") || is(l.word[1], "2")))) give_up(at, "no script");
        if (at == 1 || is(l.word[0], "range")) continue;
        if (open == NULL) open = begin_section(l);
        else if (is(l.word[0], "end")) open = NULL;
        else add_line(open, l);
    }
    free(text);
    fclose(f);
    if (open != NULL || body_count == 0) give_up(1, "a section without its end, or no body");
}
