/* Reading and writing. A line of a script has at most 2,048 bytes, so a call of the program may be several lines. */
#define _GNU_SOURCE
#include "io.h"
#include "arrivals.h"
#include "descriptors.h"
#include "events.h"
#include "input.h"
#include "notes.h"
#include "refusal.h"
#include "session.h"

#include <errno.h>
#include <limits.h>
#include <signal.h>
#include <stdio.h>
#include <string.h>
#include <sys/syscall.h>
#include <unistd.h>

/* A place in the parts of a call. */
struct cursor {
    const struct iovec *parts;
    size_t done; /* of the first part */
};

size_t io_size(const struct iovec *parts, int count) {
    size_t size = 0;
    for (int i = 0; i < count; i++)
        size += parts[i].iov_len;
    return size;
}

/* Copies bytes to the parts, or from them, and goes on by as many. */
static void copy(struct cursor *cursor, unsigned char *bytes, size_t length, bool is_to_parts) {
    while (length > 0) {
        const struct iovec *part = cursor->parts;
        size_t left = part->iov_len - cursor->done, count = length < left ? length : left;
        unsigned char *place = (unsigned char *)part->iov_base + cursor->done;
        if (count)
            memcpy(is_to_parts ? place : bytes, is_to_parts ? bytes : place, count);
        bytes += count;
        length -= count;
        cursor->done += count;
        if (cursor->done == part->iov_len)
            *cursor = (struct cursor){part + 1, 0};
    }
}

static bool has_parts(int count) {
    if (count > 0 && count <= IOV_MAX)
        return true;
    errno = EINVAL;
    return false;
}

/* ---- reading */

static int digit_value(char digit) {
    return digit <= '9' ? digit - '0' : digit - 'a' + 10;
}

/* Takes the bytes of an answer such as `hex:6869`. */
static size_t read_hex(const char *answer, unsigned char *bytes, size_t size) {
    size_t length = 0;
    if (strncmp(answer, "hex:", 4) != 0)
        fault("`%s' is the answer of a read", answer);
    for (const char *at = answer + 4; at[0] && at[1] && length < size; at += 2)
        bytes[length++] = digit_value(at[0]) * 16 + digit_value(at[1]);
    return length;
}

/* Whether the call that is about to be made is at the end of a file. The machine does not learn of it, since the file
   may get longer, and the program may go back in it. */
static bool is_at_file_end(int number) {
    struct descriptor *descriptor = &descriptors[number];
    bool is_at_end = descriptor->is_at_file_end;
    if (session_is_again())
        return note_take(number, descriptor->calls, "ends") != NULL;
    descriptor->is_at_file_end = false;
    if (is_at_end)
        note_add(number, descriptor->calls, "ends", 0);
    return is_at_end;
}

/* Returns what the system answers where the machine says EIO: -1 with errno, or 0 at the end. */
static ssize_t answer_failure(int number) {
    struct descriptor *descriptor = &descriptors[number];
    int error = EIO;
    if (session_is_again()) {
        const struct note *note = note_take(number, descriptor->calls, "fails");
        error = note ? (int)note->number : EIO;
    } else {
        unsigned char byte;
        ssize_t length = descriptor->error || descriptor->system < 0 ? -1 : input_look(number, &byte, 1);
        error = descriptor->error ? descriptor->error : length == 0 ? 0 : length < 0 ? errno : EIO;
        descriptor->error = 0;
        note_add(number, descriptor->calls, "fails", error);
    }
    errno = error;
    return error ? -1 : 0;
}

/* Notes from where a datagram came. What the program has no room for is lost. */
static void end_datagram(int number, size_t length) {
    struct descriptor *descriptor = &descriptors[number];
    long whole = length + descriptor->unread;
    if (session_is_again()) {
        const struct note *note = note_take(number, descriptor->calls, "datagram");
        whole = note ? note->number : (long)length;
        descriptor->peer_size = note ? note->length : 0;
        if (note)
            memcpy(descriptor->peer, note->address, note->length);
    } else {
        note_add_address(number, descriptor->calls, "datagram", whole, descriptor->peer, descriptor->peer_size);
    }
    if (whole > (long)length)
        input_forget(number, whole - length);
}

/* Makes one `read`. */
static ssize_t read_once(int number, unsigned char *bytes, size_t size, pth_event_t ring) {
    struct descriptor *descriptor = &descriptors[number];
    if (descriptor->is_nonblocking)
        arrivals_let_time_pass(number, true, false);
    int error = descriptor_note_error(number, "fails_at_once", arrivals_bring_bytes(number, size));
    if (error) {
        errno = error;
        return -1;
    }
    size_t asked = is_at_file_end(number) ? 0 : size;
    descriptor->asked = size;
    descriptor_need(1ULL << number, 0);
    events_need(ring);
    if (ring)
        call("read_ev %d %zu %d", number, asked, ring->number);
    else
        call("read %d %zu", number, asked);
    descriptor->asked = 0;
    size_t length = call_error ? 0 : read_hex(call_answer(), bytes, size);
    if (length < asked)
        descriptor->missed_at = session.now;
    if (call_error)
        return call_error == EIO ? answer_failure(number) : -1;
    descriptor->unread -= length;
    input_take(number, bytes, length);
    if (descriptor->kind == DATAGRAMS && length > 0)
        end_datagram(number, length);
    return length;
}

/* Whether a read(2) would return more bytes now than those of the last `read`. */
static bool goes_on(int number) {
    const struct descriptor *descriptor = &descriptors[number];
    unsigned char byte;
    if (session_is_again())
        return note_take(number, descriptor->calls, "goes_on") != NULL;
    if (descriptor->kind != SOCKET && descriptor->kind != PIPE && descriptor->kind != REGULAR)
        return false;
    bool has_more =
        !descriptor->is_at_end && !descriptor_is_awaited(number, false) && input_look(number, &byte, 1) > 0;
    if (has_more)
        note_add(number, descriptor->calls, "goes_on", 0);
    return has_more;
}

static ssize_t read_parts(int number, const struct iovec *parts, size_t size, pth_event_t ring) {
    struct cursor cursor = {parts, 0};
    for (size_t done = 0;;) {
        unsigned char bytes[PART_BYTES];
        size_t asked = size - done < PART_BYTES ? size - done : PART_BYTES;
        ssize_t length = read_once(number, bytes, asked, ring);
        if (length < 0)
            return done ? (ssize_t)done : -1;
        copy(&cursor, bytes, length, true);
        done += length;
        if (length < PART_BYTES || done == size || !goes_on(number))
            return done;
        descriptor_count_call(number);
    }
}

ssize_t io_read(int file, const struct iovec *parts, int count, pth_event_t ring) {
    size_t size = io_size(parts, count);
    if (size == 0)
        return 0;
    int number = descriptor_begin_call(file);
    return number < 0 ? -1 : read_parts(number, parts, size, ring);
}

ssize_t pth_read(int file, void *bytes, size_t size) {
    CALL_ENTER();
    return io_read(file, &(struct iovec){bytes, size}, 1, NULL);
}

ssize_t pth_read_ev(int file, void *bytes, size_t size, pth_event_t ring) {
    CALL_ENTER();
    return io_read(file, &(struct iovec){bytes, size}, 1, ring);
}

ssize_t pth_readv(int file, const struct iovec *parts, int count) {
    CALL_ENTER();
    return has_parts(count) ? io_read(file, parts, count, NULL) : -1;
}

ssize_t pth_readv_ev(int file, const struct iovec *parts, int count, pth_event_t ring) {
    CALL_ENTER();
    return has_parts(count) ? io_read(file, parts, count, ring) : -1;
}

/* ---- writing */

static void spell_write(char *line, int number, const unsigned char *bytes, size_t length, pth_event_t ring) {
    char *end = line + sprintf(line, ring ? "write_ev %d hex:" : "write %d hex:", number);
    for (size_t i = 0; i < length; i++)
        end += sprintf(end, "%02x", bytes[i]);
    if (ring)
        sprintf(end, " %d", ring->number);
}

/* Returns what a write returns: the count that was to be written, unless the system took another count, or refused
   with errno for -1. In a run from a recording, no system is there that sends the signal of a broken pipe. */
static ssize_t write_result(int number, int call_number, ssize_t count, ssize_t taken, int flags) {
    if (!session_is_again()) {
        int error = taken < 0 ? errno : 0;
        if (taken != count)
            note_add(number, call_number, error ? "fails" : "returns", error ? error : taken);
        errno = error ? error : errno;
        return taken;
    }
    const struct note *note = note_take(number, call_number, "fails");
    if (note) {
        if (note->number == EPIPE && !(flags & MSG_NOSIGNAL))
            raise(SIGPIPE);
        errno = note->number;
        return -1;
    }
    return (note = note_take(number, call_number, "returns")) ? note->number : count;
}

ssize_t io_plain_result(int number, ssize_t count, ssize_t taken, int flags) {
    return write_result(number, -++descriptors[number].plain_writes, count, taken, flags);
}

/* Makes one `write`. */
static ssize_t write_once(int number, const unsigned char *bytes, size_t length, pth_event_t ring,
                          const struct destination *destination) {
    char line[2 * PART_BYTES + 64];
    if (descriptors[number].is_nonblocking)
        arrivals_let_time_pass(number, false, true);
    if (descriptors[number].room < (long)length)
        arrivals_bring_room(number);
    descriptor_need(0, 1ULL << number);
    events_need(ring);
    spell_write(line, number, bytes, length, ring);
    long written = call_line(line);
    if (written < (long)length)
        descriptors[number].cramped_at = session.now;
    if (call_error && call_error != EIO)
        return -1;
    bool has_failed = call_error != 0; /* then what the system answers counts */
    if (!has_failed)
        descriptors[number].room -= written;
    ssize_t taken = output_put(number, (const char *)bytes, has_failed ? (long)length : written, destination);
    return write_result(number, descriptors[number].calls, has_failed ? -1 : written, taken,
                        destination ? destination->flags : 0);
}

static ssize_t write_parts(int number, const struct iovec *parts, size_t size, pth_event_t ring,
                           const struct destination *destination) {
    struct cursor cursor = {parts, 0};
    for (size_t done = 0;;) {
        unsigned char bytes[PART_BYTES];
        size_t length = size - done < PART_BYTES ? size - done : PART_BYTES;
        copy(&cursor, bytes, length, false);
        ssize_t written = write_once(number, bytes, length, ring, destination);
        if (written < 0)
            return done ? (ssize_t)done : -1;
        done += written;
        if (written < (ssize_t)length || done == size)
            return done;
        descriptor_count_call(number);
    }
}

ssize_t io_write(int file, const struct iovec *parts, int count, pth_event_t ring,
                 const struct destination *destination) {
    size_t size = io_size(parts, count);
    if (size == 0)
        return 0;
    int number = descriptor_begin_call(file);
    if (number < 0)
        return -1;
    if (descriptors[number].kind == DATAGRAMS && size > PART_BYTES)
        refuse("a datagram of %zu bytes, more than %d", size, PART_BYTES);
    return write_parts(number, parts, size, ring, destination);
}

ssize_t pth_write(int file, const void *bytes, size_t size) {
    CALL_ENTER();
    return io_write(file, &(struct iovec){(void *)bytes, size}, 1, NULL, NULL);
}

ssize_t pth_write_ev(int file, const void *bytes, size_t size, pth_event_t ring) {
    CALL_ENTER();
    return io_write(file, &(struct iovec){(void *)bytes, size}, 1, ring, NULL);
}

ssize_t pth_writev(int file, const struct iovec *parts, int count) {
    CALL_ENTER();
    return has_parts(count) ? io_write(file, parts, count, NULL, NULL) : -1;
}

ssize_t pth_writev_ev(int file, const struct iovec *parts, int count, pth_event_t ring) {
    CALL_ENTER();
    return has_parts(count) ? io_write(file, parts, count, ring, NULL) : -1;
}

/* ---- at a place in a file */

/* Begins a pread or pwrite, which is an ordinary `read` or `write` for the machine. Returns the machine's number. */
static int begin_at(int file, off_t place) {
    if (syscall(SYS_lseek, file, 0L, SEEK_CUR) < 0)
        return -1;
    if (place < 0) {
        errno = EINVAL;
        return -1;
    }
    int number = descriptor_begin_call(file);
    if (number < 0)
        return -1;
    input_leave(number);
    descriptors[number].place = place;
    return number;
}

ssize_t pth_pread(int file, void *bytes, size_t size, off_t place) {
    CALL_ENTER();
    int number = begin_at(file, place);
    if (number < 0)
        return -1;
    ssize_t length = size ? read_parts(number, &(struct iovec){bytes, size}, size, NULL) : 0;
    descriptors[number].place = -1;
    return length;
}

ssize_t pth_pwrite(int file, const void *bytes, size_t size, off_t place) {
    CALL_ENTER();
    int number = begin_at(file, place);
    if (number < 0)
        return -1;
    ssize_t length = size ? write_parts(number, &(struct iovec){(void *)bytes, size}, size, NULL, NULL) : 0;
    descriptors[number].place = -1;
    return length;
}
