/* The recording of a run. */
#define _GNU_SOURCE
#include "recording.h"
#include "notes.h"
#include "refusal.h"
#include "script.h"
#include "session.h"

#include <errno.h>
#include <fcntl.h>
#include <limits.h>
#include <signal.h>
#include <stdio.h>
#include <string.h>
#include <sys/syscall.h>
#include <unistd.h>

enum { NAME_BYTES = NAME_MAX + 64 };

/* A file with a script. */
struct script_file {
    int file; /* the descriptor, which is the same in all sessions, or -1 before the first */
    size_t length;
};

static const struct recording *volatile kept;    /* the recording, or NULL before the first answer */
static volatile bool is_begun;                   /* whether there is a recording that is not saved yet */
static bool swaps_names;                         /* whether the names of the two scripts can be swapped */
static struct script_file script = {.file = -1}; /* the one that has the name NAME.pth */
static struct script_file next = {.file = -1};   /* the one for the next question */
static int folder = -1;                          /* the folder of the recording */
static char script_name[NAME_BYTES];             /* NAME.pth, in the folder */
static char next_name[NAME_BYTES];               /* NAME.pth.PID */
static char transcript_name[NAME_BYTES];         /* NAME.transcript */

/* ---- the files */

/* Lets a descriptor of the library stand for another file. */
static void hold(int *held, int file) {
    if (*held < 0) {
        *held = session_private_file(file);
        return;
    }
    if (syscall(SYS_dup3, file, *held, O_CLOEXEC) < 0)
        fault("a descriptor of the library: %s", strerror(errno));
    syscall(SYS_close, file);
}

static void open_folder(const char *name, size_t length) {
    static char path[PATH_MAX]; /* the folder */
    if (length >= sizeof path)
        fault("the name of the recording is too long");
    memcpy(path, length ? name : ".", length ? length : 1);
    int file = open(path, O_PATH | O_DIRECTORY | O_CLOEXEC);
    if (file < 0)
        fault("%s, the folder of the recording: %s", path, strerror(errno));
    hold(&folder, file);
}

static void open_script(struct script_file *held, const char *name, int flags) {
    int file = openat(folder, name, O_RDWR | O_CREAT | O_CLOEXEC | flags, 0644);
    if (file < 0 && errno == EEXIST)
        refuse("%s is there already: it may be the recording of another process of this run", name);
    if (file < 0)
        fault("%s, a file of the recording: %s", name, strerror(errno));
    hold(&held->file, file);
    held->length = 0;
}

void recording_begin(const char *name, int session) {
    char tag[16] = "";
    const char *slash = strrchr(name, '/'), *base = slash ? slash + 1 : name;
    if (session > 1)
        snprintf(tag, sizeof tag, ".%d", session);
    if (strlen(base) > NAME_MAX)
        fault("the name of the recording is too long");
    if (folder < 0)
        open_folder(name, base - name);
    snprintf(script_name, sizeof script_name, "%s%s.pth", base, tag);
    snprintf(next_name, sizeof next_name, "%s%s.pth.%d", base, tag, getpid());
    snprintf(transcript_name, sizeof transcript_name, "%s%s.transcript", base, tag);
    kept = NULL;
    swaps_names = true;
    open_script(&script, script_name, O_EXCL);
    is_begun = true;
    open_script(&next, next_name, O_TRUNC);
}

/* ---- writing: system calls only */

/* Writes bytes at a place, which become the end of a file. Returns false after an error. */
static bool write_end(int file, size_t place, const char *bytes, size_t length, bool is_longer) {
    size_t done = 0;
    while (done < length) {
        long written = syscall(SYS_pwrite64, file, bytes + done, length - done, place + done);
        if (written == 0 || (written < 0 && errno != EINTR))
            return false;
        done += written > 0 ? written : 0;
    }
    return is_longer || syscall(SYS_ftruncate, file, place + length) == 0;
}

static bool write_script(struct script_file *to, const struct text *text) {
    bool is_longer = text->length >= to->length;
    to->length = text->length;
    return write_end(to->file, 0, text->bytes, text->length, is_longer);
}

int recording_write(const struct recording *recording) {
    if (!write_script(&next, &recording->script) || lseek(next.file, 0, SEEK_SET) != 0)
        fault("%s, a file of the recording: %s", next_name, strerror(errno));
    return next.file;
}

/* Gives the script that was written last the name NAME.pth. A program may have given up the right to do that, and
   some file systems cannot swap names: then the script is written a second time. */
static bool name_script(const struct text *text) {
    if (swaps_names && renameat2(folder, next_name, folder, script_name, RENAME_EXCHANGE) == 0) {
        struct script_file before = script;
        script = next;
        next = before;
        return true;
    }
    swaps_names = false;
    return write_script(&script, text);
}

void recording_keep(const struct recording *recording) {
    sigset_t all, before;
    sigfillset(&all);
    sigprocmask(SIG_SETMASK, &all, &before); /* a handler that saves finds the names and `kept` in accord */
    kept = recording;
    bool is_written = name_script(&recording->script);
    sigprocmask(SIG_SETMASK, &before, NULL);
    if (!is_written)
        fault("%s, a file of the recording: %s", script_name, strerror(errno));
}

/* ---- saving: system calls only */

/* Prints how the process ended, as comments of the script. Returns the length. */
static size_t print_ending(char *comments, size_t size, const char *ending, size_t reached) {
    const struct text *transcript = &kept->transcript;
    const char *line = transcript->bytes + reached;
    int length = ending ? snprintf(comments, size, "# %s\n", ending) : 0, number = 1;
    if (reached >= transcript->length || strncmp(line, "step limit ", 11) == 0)
        return length;
    for (const char *at = transcript->bytes; at < line; at++)
        number += *at == '\n';
    return length + snprintf(comments + length, size - length,
                             "# the process ended before it came to line %d of the transcript\n", number);
}

static bool write_transcript(void) {
    int file = openat(folder, transcript_name, O_WRONLY | O_CREAT | O_TRUNC | O_CLOEXEC, 0644);
    if (file < 0)
        return false;
    bool is_written = write_end(file, 0, kept->transcript.bytes, kept->transcript.length, true);
    syscall(SYS_close, file);
    return is_written;
}

void recording_save(const char *ending, size_t reached) {
    static const char failure[] = "run-c: the transcript cannot be written\n";
    char comments[512];
    int saved = errno;
    if (!is_begun || !session_is_here())
        return;
    if (!kept) {
        unlinkat(folder, script_name, 0);
    } else {
        size_t length = print_ending(comments, sizeof comments, ending, reached);
        if (length)
            write_end(script.file, script.length, comments, length, false);
        if (!write_transcript())
            syscall(SYS_write, 2, failure, sizeof failure - 1);
    }
    unlinkat(folder, next_name, 0);
    is_begun = false;
    errno = saved;
}

/* ---- loading */

static bool read_file(const char *path, struct text *text) {
    char bytes[65536];
    int file = syscall(SYS_openat, AT_FDCWD, path, O_RDONLY | O_CLOEXEC, 0);
    if (file < 0)
        return false;
    long length;
    while ((length = syscall(SYS_read, file, bytes, sizeof bytes)) > 0)
        text_add(text, bytes, length);
    syscall(SYS_close, file);
    return length == 0;
}

static int ending_signal;  /* the signal that ended the process of the loaded recording, or 0 */
static bool is_by_handler; /* whether a handler of that signal ended it */
static long ending_steps;  /* the steps of that recording */
static int handled;        /* how often handlers of the program ran as it was made */

static void load_comment(const char *line) {
    notes_load(line);
    int signal;
    sscanf(line, "# recorded by run-c; play it with: pth_play --steps %ld", &ending_steps);
    sscanf(line, "# signal %d ended the process", &ending_signal);
    is_by_handler |= sscanf(line, "# a handler of signal %d ended the process", &ending_signal) == 1;
    handled += sscanf(line, "# a handler of signal %d has run", &signal) == 1;
}

int recording_ending(long steps, bool *by_handler) {
    *by_handler = is_by_handler;
    return steps == ending_steps ? ending_signal : 0;
}

static void load_kernel_line(const char *line, void (*found_connection)(int descriptor)) {
    int descriptor, connection, used = 0;
    long long moment;
    if (sscanf(line, "open %d", &descriptor) == 1) {
        script_open(descriptor);
    } else if (sscanf(line, "at %lld %d %n", &moment, &descriptor, &used) == 2 && used) {
        script_add_arrival(moment, descriptor, line + used, false);
        if (sscanf(line + used, "conn %d", &connection) == 1)
            found_connection(connection);
    }
}

bool recording_load(const char *name, int session, void (*found_connection)(int descriptor)) {
    static struct text text; /* the script */
    char path[PATH_MAX + 32];
    size_t stem = strlen(name) - strlen(".pth");
    if (session > 1)
        snprintf(path, sizeof path, "%.*s.%d.pth", (int)stem, name, session);
    else
        snprintf(path, sizeof path, "%s", name);
    text_clear(&text);
    ending_signal = handled = 0;
    is_by_handler = false;
    if (!read_file(path, &text))
        return false;
    bool in_kernel = false;
    for (char *line = text.bytes, *end; line && (end = strchr(line, '\n')); line = end + 1) {
        *end = 0;
        if (line[0] == '#')
            load_comment(line);
        else if (in_kernel)
            load_kernel_line(line, found_connection);
        in_kernel |= strcmp(line, "kernel") == 0;
    }
    if (handled)
        warn("as the recording was made, handlers of signals ran %d times; what came to them is not in it", handled);
    return true;
}
