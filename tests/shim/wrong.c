// A program that answers wrongly: it runs the one that REAL names, with its own words, and puts out what that puts out without the last byte, or,
// where ADDS is set, with a line more.
#include <stdio.h>
#include <stdlib.h>
#include <sys/wait.h>
#include <unistd.h>

int main(int count, char **words) {
    (void)count;
    int ends[2];
    if (pipe(ends)) return 99;
    pid_t child = fork();
    if (child == 0) {
        dup2(ends[1], 1);
        close(ends[0]);
        close(ends[1]);
        execv(getenv("REAL"), words);
        _exit(99);
    }
    close(ends[1]);
    FILE *from = fdopen(ends[0], "r");
    int held = EOF;
    for (int byte; (byte = getc(from)) != EOF; held = byte)
        if (held != EOF) putchar(held);
    if (getenv("ADDS")) {
        if (held != EOF) putchar(held);
        puts("a line more");
    }
    fflush(stdout);
    int status = 0;
    waitpid(child, &status, 0);
    return WIFEXITED(status) ? WEXITSTATUS(status) : 98;
}
