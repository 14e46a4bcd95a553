/* Files: readv and writev in all parts, pread and pwrite, a read of more than 2,048 bytes, and reads at the end of a
   file, which is read again from its beginning. A nanosleep. */
#include <errno.h>
#include <fcntl.h>
#include <pth.h>
#include <stdio.h>
#include <stdlib.h>
#include <string.h>
#include <unistd.h>

enum { LENGTH = 5000 };

static char bytes[LENGTH], other[LENGTH];

static void show_parts(int file) {
    char head[4], none[1], middle[2100], tail[3000];
    struct iovec written[3] = {{bytes, 100}, {bytes + 100, 0}, {bytes + 100, LENGTH - 100}};
    struct iovec read[4] = {{head, sizeof head}, {none, 0}, {middle, sizeof middle}, {tail, sizeof tail}};
    printf("writev %zd\n", pth_writev(file, written, 3));
    lseek(file, 0, SEEK_SET);
    printf("readv %zd", pth_readv(file, read, 4));
    memcpy(other, head, sizeof head);
    memcpy(other + sizeof head, middle, sizeof middle);
    memcpy(other + sizeof head + sizeof middle, tail, LENGTH - sizeof head - sizeof middle);
    printf(", %s\n", memcmp(bytes, other, LENGTH) == 0 ? "the same" : "other bytes");
    printf("readv of no parts: %s\n", pth_readv(file, read, 0) < 0 && errno == EINVAL ? "EINVAL" : "another answer");
}

static void show_places(int file) {
    off_t before = lseek(file, 0, SEEK_CUR);
    printf("pwrite %zd\n", pth_pwrite(file, "here", 4, 2500));
    memset(other, 0, LENGTH);
    ssize_t count = pth_pread(file, other, 3000, 2000);
    printf("pread %zd, %.4s\n", count, other + 500);
    printf("pread at the end %zd\n", pth_pread(file, other, 10, LENGTH));
    printf("the offset is %s\n", lseek(file, 0, SEEK_CUR) == before ? "as before" : "another");
}

static void show_end(int file) {
    printf("read at the end %zd\n", pth_read(file, other, 10));
    printf("write %zd\n", pth_write(file, "more", 4));
    printf("read at the end %zd\n", pth_read(file, other, 10));
    lseek(file, -4, SEEK_END);
    ssize_t count = pth_read(file, other, 10);
    printf("read %zd, %.*s\n", count, (int)count, other);
}

static void show_sleep(void) {
    struct timespec length = {0, 5000000}, wrong = {0, -1}, left = {1, 1};
    printf("nanosleep %d", pth_nanosleep(&length, NULL));
    printf(", %s\n", pth_nanosleep(&wrong, &left) < 0 && errno == EINVAL ? "EINVAL" : "another answer");
}

int main(void) {
    char name[] = "/tmp/vectors.XXXXXX";
    pth_init();
    for (int i = 0; i < LENGTH; i++)
        bytes[i] = (char)(i % 97);
    int file = mkstemp(name);
    unlink(name);
    show_parts(file);
    show_places(file);
    show_end(file);
    show_sleep();
    close(file);
    pth_kill();
    return 0;
}
