/* Places of the program. The symbol table of its file has the functions, and addr2line has the lines. No memory of the
   heap is used, and no function of the program runs: a message may be due at any moment. */
#define _GNU_SOURCE
#include "places.h"

#include <elf.h>
#include <errno.h>
#include <fcntl.h>
#include <limits.h>
#include <link.h>
#include <poll.h>
#include <signal.h>
#include <stdbool.h>
#include <stdint.h>
#include <stdio.h>
#include <string.h>
#include <sys/mman.h>
#include <sys/stat.h>
#include <sys/syscall.h>
#include <sys/wait.h>
#include <unistd.h>

enum { PATIENCE = 10000 }; /* milliseconds that addr2line has */

/* An address of a file that is loaded: the program, or a shared library. */
struct location {
    uintptr_t address;
    uintptr_t offset; /* where the file says that it is */
    char path[PATH_MAX];
    const char *name; /* of the file, without its folder */
    bool is_found;
};

static int look_at_file(struct dl_phdr_info *info, size_t size, void *argument) {
    struct location *location = argument;
    (void)size;
    for (int i = 0; i < info->dlpi_phnum; i++) {
        uintptr_t start = info->dlpi_addr + info->dlpi_phdr[i].p_vaddr;
        if (info->dlpi_phdr[i].p_type != PT_LOAD || location->address - start >= info->dlpi_phdr[i].p_memsz)
            continue;
        bool is_program = !info->dlpi_name || !*info->dlpi_name;
        const char *slash = is_program ? NULL : strrchr(info->dlpi_name, '/');
        if (is_program)
            snprintf(location->path, sizeof location->path, "/proc/%d/exe", (int)getpid());
        else
            snprintf(location->path, sizeof location->path, "%s", info->dlpi_name);
        location->name = is_program ? program_invocation_short_name : slash ? slash + 1 : info->dlpi_name;
        location->offset = location->address - info->dlpi_addr;
        location->is_found = true;
        return 1;
    }
    return 0;
}

static void locate(const void *address, struct location *location) {
    location->address = (uintptr_t)address;
    location->is_found = false;
    dl_iterate_phdr(look_at_file, location);
}

/* ---- the symbol table */

/* A file that is mapped. */
struct image {
    const char *bytes;
    size_t size;
};

static const void *part(const struct image *image, size_t place, size_t size) {
    return place <= image->size && size <= image->size - place ? image->bytes + place : NULL;
}

/* Finds the function at an offset in a table of symbols. Returns false if there is none. */
static bool find_in_table(const struct image *image, const ElfW(Shdr) * table, const ElfW(Shdr) * strings,
                          uintptr_t offset, char *name, uintptr_t *start) {
    const ElfW(Sym) *symbols = part(image, table->sh_offset, table->sh_size);
    const char *names = part(image, strings->sh_offset, strings->sh_size);
    for (size_t i = 0; symbols && names && i < table->sh_size / sizeof *symbols; i++) {
        const ElfW(Sym) *symbol = &symbols[i];
        bool is_here = symbol->st_size ? offset - symbol->st_value < symbol->st_size : offset == symbol->st_value;
        if ((symbol->st_info & 15) != STT_FUNC || !is_here || symbol->st_name >= strings->sh_size)
            continue;
        snprintf(name, PLACE_BYTES, "%.*s", (int)(strings->sh_size - symbol->st_name), names + symbol->st_name);
        *start = symbol->st_value;
        return *name != 0;
    }
    return false;
}

static bool find_in_image(const struct image *image, uintptr_t offset, char *name, uintptr_t *start) {
    const ElfW(Ehdr) *head = part(image, 0, sizeof *head);
    if (!head || memcmp(head->e_ident, ELFMAG, SELFMAG) != 0)
        return false;
    const ElfW(Shdr) *sections = part(image, head->e_shoff, head->e_shnum * sizeof *sections);
    for (int i = 0; sections && i < head->e_shnum; i++) {
        const ElfW(Shdr) *table = &sections[i];
        if ((table->sh_type == SHT_SYMTAB || table->sh_type == SHT_DYNSYM) && table->sh_link < head->e_shnum &&
            find_in_table(image, table, &sections[table->sh_link], offset, name, start))
            return true;
    }
    return false;
}

/* Finds the function at a location, and where it starts. */
static bool find_symbol(const struct location *location, char *name, uintptr_t *start) {
    struct stat state;
    int file = location->is_found ? syscall(SYS_openat, AT_FDCWD, location->path, O_RDONLY | O_CLOEXEC) : -1;
    if (file < 0)
        return false;
    bool is_found = false;
    if (fstat(file, &state) == 0 && state.st_size > 0) {
        struct image image = {mmap(NULL, state.st_size, PROT_READ, MAP_PRIVATE, file, 0), state.st_size};
        if (image.bytes != MAP_FAILED) {
            is_found = find_in_image(&image, location->offset, name, start);
            munmap((void *)image.bytes, image.size);
        }
    }
    syscall(SYS_close, file);
    return is_found;
}

/* ---- addr2line */

__attribute__((noreturn)) static void become_addr2line(const struct location *location, int output,
                                                       const sigset_t *mask) {
    char offset[32];
    snprintf(offset, sizeof offset, "%#lx", (unsigned long)location->offset);
    char *words[] = {"addr2line", "-f", "-s", "-e", (char *)location->path, offset, NULL};
    char *environment[] = {"LC_ALL=C", NULL};
    int null = syscall(SYS_openat, AT_FDCWD, "/dev/null", O_RDWR);
    sigprocmask(SIG_SETMASK, mask, NULL);
    if (null >= 0 && dup2(null, 0) == 0 && dup2(output, 1) == 1 && dup2(null, 2) == 2)
        execvpe(words[0], words, environment);
    for (;;)
        syscall(SYS_exit_group, 127);
}

/* Reads what addr2line prints. If that takes too long, it is ended. */
static size_t read_output(int file, int child, char *text, size_t size) {
    size_t length = 0;
    struct pollfd poll = {file, POLLIN, 0};
    long got = 1;
    while (length < size - 1 && got > 0) {
        int ready = syscall(SYS_poll, &poll, 1L, PATIENCE);
        if (ready < 0 && errno == EINTR)
            continue;
        got = ready > 0 ? syscall(SYS_read, file, text + length, size - 1 - length) : -1;
        length += got > 0 ? got : 0;
    }
    if (got < 0)
        kill(child, SIGKILL);
    text[length] = 0;
    return length;
}

/* Asks addr2line about a location. The child process sends no SIGCHLD and runs no function of pthread_atfork. */
static size_t ask_addr2line(const struct location *location, char *text, size_t size) {
    int ends[2];
    size_t length = 0;
    sigset_t all, before;
    if (!location->is_found || pipe2(ends, O_CLOEXEC) != 0)
        return 0;
    sigfillset(&all);
    sigprocmask(SIG_SETMASK, &all, &before);
    int child = syscall(SYS_clone, 0L, 0L, 0L, 0L, 0L);
    if (child == 0)
        become_addr2line(location, ends[1], &before);
    syscall(SYS_close, ends[1]);
    if (child > 0) {
        length = read_output(ends[0], child, text, size);
        while (waitpid(child, NULL, __WALL) < 0 && errno == EINTR)
            ;
    }
    syscall(SYS_close, ends[0]);
    sigprocmask(SIG_SETMASK, &before, NULL);
    return length;
}

/* Finds the function and the line at a location, such as `worker` and `main.c:31`. */
static bool find_line(const struct location *location, char function[PLACE_BYTES], char line[PLACE_BYTES]) {
    char text[2 * PLACE_BYTES];
    if (!ask_addr2line(location, text, sizeof text))
        return false;
    char *second = strchr(text, '\n');
    if (!second)
        return false;
    *second++ = 0;
    second[strcspn(second, " \n")] = 0;
    snprintf(function, PLACE_BYTES, "%.*s", PLACE_BYTES - 1, text);
    snprintf(line, PLACE_BYTES, "%.*s", PLACE_BYTES - 1, second);
    const char *colon = strrchr(line, ':');
    return *function && colon && colon[1] >= '0' && colon[1] <= '9';
}

/* ---- places */

static void write_offset(const struct location *location, char place[PLACE_BYTES]) {
    if (location->is_found)
        snprintf(place, PLACE_BYTES, "%s+%#lx", location->name, (unsigned long)location->offset);
    else
        snprintf(place, PLACE_BYTES, "%#lx", (unsigned long)location->address);
}

void place_of_call(const void *address, char place[PLACE_BYTES]) {
    char function[PLACE_BYTES], line[PLACE_BYTES];
    struct location location;
    uintptr_t start;
    locate((const char *)address - 1, &location); /* the call is before the place to which it returns */
    if (find_line(&location, function, line))
        snprintf(place, PLACE_BYTES, "%.200s (%.200s)", line, function);
    else if (find_symbol(&location, function, &start))
        snprintf(place, PLACE_BYTES, "%.200s+%#lx", function, (unsigned long)(location.offset + 1 - start));
    else
        write_offset(&location, place);
}

void place_name(const void *function, char name[PLACE_BYTES]) {
    struct location location;
    uintptr_t start;
    locate(function, &location);
    if (!find_symbol(&location, name, &start))
        write_offset(&location, name);
}

void place_of_function(const void *function, char place[PLACE_BYTES]) {
    char name[PLACE_BYTES], line[PLACE_BYTES];
    struct location location;
    locate(function, &location);
    if (find_line(&location, name, line))
        snprintf(place, PLACE_BYTES, "%.200s (%.200s)", name, line);
    else
        place_name(function, place);
}
