/* Children that fork(2) has made, and that make no call of Pth: the recording stays that of their parent. */
#include <pth.h>
#include <signal.h>
#include <stdio.h>
#include <stdlib.h>
#include <sys/wait.h>
#include <unistd.h>

static int ends[2];

static void close_and_exit(void) {
    close(ends[0]);
    close(ends[1]);
    exit(3);
}

static void end_by_default_action(void) {
    kill(getpid(), SIGTERM);
}

static void end_by_fault(void) {
    abort();
}

static void end_at_once(void) {
    _exit(4);
}

static void become_another(void) {
    execlp("sh", "sh", "-c", "exit 5", NULL);
}

static void show_child(void (*function)(void)) {
    int status = 0;
    fflush(stdout);
    pid_t child = fork();
    if (child == 0) {
        function();
        _exit(99);
    }
    pth_usleep(1000);
    waitpid(child, &status, 0);
    printf("status %d, signal %d\n", WIFEXITED(status) ? WEXITSTATUS(status) : -1, WTERMSIG(status));
}

int main(void) {
    char bytes[8];
    pipe(ends);
    pth_init();
    pth_write(ends[1], "one", 3);
    show_child(close_and_exit);
    show_child(end_by_default_action);
    show_child(end_by_fault);
    show_child(end_at_once);
    show_child(become_another);
    printf("%d bytes\n", (int)pth_read(ends[0], bytes, sizeof bytes));
    pth_kill();
    return 0;
}
