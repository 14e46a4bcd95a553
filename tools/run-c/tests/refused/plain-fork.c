/* plain-fork CALL: a process that fork(2) made calls Pth: pth_yield, pth_init or pth_kill. The call belongs to no
   recording. */
#include <pth.h>
#include <stdio.h>
#include <string.h>
#include <sys/wait.h>
#include <unistd.h>

static void make_call(const char *name) {
    if (strcmp(name, "init") == 0)
        pth_init(); /* refused */
    else if (strcmp(name, "kill") == 0)
        pth_kill(); /* refused */
    else
        pth_yield(NULL); /* refused */
}

int main(int words, char **word) {
    int status = 0;
    pth_init();
    pth_yield(NULL);
    puts("before");
    fflush(stdout);
    if (fork() == 0) {
        make_call(words > 1 ? word[1] : "yield");
        puts("after");
        _exit(0);
    }
    wait(&status);
    pth_kill();
    return WEXITSTATUS(status);
}
