/* The script that grows. */
#define _GNU_SOURCE
#include "script.h"
#include "notes.h"
#include "refusal.h"

#include <string.h>

struct body {
    struct text jumps; /* the jumps of its generations */
    struct text lines;
    int count; /* of both, without comments */
};

struct handler {
    struct text acts;
    int count;
};

struct arrival {
    long long moment;
    int descriptor;
    bool is_tentative;
    const char *what; /* the words after the descriptor */
};

static struct body bodies[BODIES];        /* the bodies; main's is the first */
static int body_count;                    /* how many there are */
static struct handler handlers[HANDLERS]; /* the handlers */
static int handler_count;                 /* how many there are */
static bool is_open[DESCRIPTORS];         /* the descriptors that are open from the start */
static struct arrival arrivals[ARRIVALS]; /* what came, ordered by moment and then by the time when it was added */
static int arrival_count;                 /* how much came */

void script_clear(void) {
    for (int i = 0; i < BODIES; i++) {
        text_clear(&bodies[i].jumps);
        text_clear(&bodies[i].lines);
        bodies[i].count = 0;
    }
    for (int i = 0; i < HANDLERS; i++) {
        text_clear(&handlers[i].acts);
        handlers[i].count = 0;
    }
    memset(is_open, 0, sizeof is_open);
    body_count = 1;
    handler_count = arrival_count = 0;
}

/* ---- bodies and handlers */

void script_add_body(int body) {
    if (body >= body_count)
        body_count = body + 1;
}

static void count_line(int body) {
    script_add_body(body);
    if (bodies[body].count == BODY_LINES)
        refuse("a thread makes more than %d calls", BODY_LINES);
    bodies[body].count++;
}

void script_add_line(int body, const char *line) {
    if (strlen(line) > LINE_BYTES)
        refuse("a line of the script is longer than %d bytes", LINE_BYTES);
    count_line(body);
    text_print(&bodies[body].lines, "%s\n", line);
}

void script_add_comment(int body, const char *text) {
    text_print(&bodies[body].lines, "# %s\n", text);
}

void script_add_generation(int body, int generation) {
    count_line(body);
    text_print(&bodies[body].jumps, "goto %d a0 eq %d\n", generation, generation);
    count_line(body);
    text_print(&bodies[body].lines, "label %d\n", generation);
}

int script_body_lines(int body) {
    return bodies[body].count;
}

void script_add_handler(int handler) {
    if (handler >= handler_count)
        handler_count = handler + 1;
}

void script_add_act(int handler, const char *act) {
    script_add_handler(handler);
    if (handlers[handler].count == ACTS)
        refuse("a cleanup function makes more than %d calls", ACTS);
    handlers[handler].count++;
    text_print(&handlers[handler].acts, "%s\n", act);
}

void script_add_handler_comment(int handler, const char *text) {
    text_print(&handlers[handler].acts, "# %s\n", text);
}

/* ---- what comes to descriptors */

void script_open(int descriptor) {
    is_open[descriptor] = true;
}

static long long last_moment(int descriptor) {
    for (int i = arrival_count - 1; i >= 0; i--)
        if (arrivals[i].descriptor == descriptor)
            return arrivals[i].moment;
    return 0;
}

static void insert_arrival(struct arrival arrival) {
    int at = arrival_count++;
    for (; at > 0 && arrivals[at - 1].moment > arrival.moment; at--)
        arrivals[at] = arrivals[at - 1];
    arrivals[at] = arrival;
}

void script_add_arrival(long long moment, int descriptor, const char *what, bool is_tentative) {
    if (arrival_count == ARRIVALS)
        refuse("more than %d arrivals at descriptors", ARRIVALS);
    long long last = last_moment(descriptor);
    char *kept = memory_take(strlen(what) + 1);
    strcpy(kept, what);
    insert_arrival((struct arrival){moment < last ? last : moment, descriptor, is_tentative, kept});
}

bool script_has_arrival(int descriptor, long long moment) {
    for (int i = 0; i < arrival_count; i++)
        if (arrivals[i].descriptor == descriptor && arrivals[i].moment == moment)
            return true;
    return false;
}

void script_put_off_arrivals(long long moment) {
    static struct arrival moved[ARRIVALS]; /* the tentative arrivals */
    int count = 0, kept = 0;
    for (int i = 0; i < arrival_count; i++) {
        if (arrivals[i].is_tentative)
            moved[count++] = arrivals[i];
        else
            arrivals[kept++] = arrivals[i];
    }
    arrival_count = kept;
    for (int i = 0; i < count; i++) {
        moved[i].is_tentative = false;
        if (moved[i].moment < moment)
            moved[i].moment = moment;
        insert_arrival(moved[i]);
    }
}

void script_settle_arrivals(void) {
    for (int i = 0; i < arrival_count; i++)
        arrivals[i].is_tentative = false;
}

/* ---- the text */

static void print_kernel(struct text *text) {
    bool is_needed = arrival_count > 0;
    for (int i = 0; i < DESCRIPTORS; i++)
        is_needed |= is_open[i];
    if (!is_needed)
        return;
    text_add_string(text, "kernel\n");
    for (int i = 0; i < DESCRIPTORS; i++)
        if (is_open[i])
            text_print(text, "open %d\n", i);
    notes_print(text);
    for (int i = 0; i < arrival_count; i++)
        text_print(text, "at %lld %d %s\n", arrivals[i].moment, arrivals[i].descriptor, arrivals[i].what);
}

void script_print(struct text *text, const char *comment) {
    text_print(text, "pth 1\n# %s\n", comment);
    for (int i = 0; i < handler_count; i++) {
        text_print(text, "handler %d\n", i);
        text_add(text, handlers[i].acts.bytes, handlers[i].acts.length);
        text_add_string(text, "end\n");
    }
    for (int i = 0; i < body_count; i++) {
        text_print(text, "thread %d\n", i);
        text_add(text, bodies[i].jumps.bytes, bodies[i].jumps.length);
        text_add(text, bodies[i].lines.bytes, bodies[i].lines.length);
        text_add_string(text, "end\n");
    }
    print_kernel(text);
}
