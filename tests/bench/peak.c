/* Runs a program for bench.py, and tells of it as a line to the descriptor that the first word names: its wait status, the nanoseconds
   from its start to its end, and the most KiB that it held. These count from before it became the program. So it is not started by
   Python, which holds much, but by this, which holds next to nothing. */
#define _GNU_SOURCE
#include <fcntl.h>
#include <stdio.h>
#include <stdlib.h>
#include <sys/resource.h>
#include <sys/wait.h>
#include <time.h>
#include <unistd.h>

int main(int count, char **words) {
    struct timespec begun, ended;
    struct rusage used;
    int status;
    if (count < 3)
        return 2;
    int told = atoi(words[1]);
    fcntl(told, F_SETFD, FD_CLOEXEC);
    clock_gettime(CLOCK_MONOTONIC, &begun);
    pid_t process = vfork();
    if (process == 0) {
        execvp(words[2], words + 2);
        _exit(127);
    }
    if (process < 0 || wait4(process, &status, 0, &used) != process)
        return 2;
    clock_gettime(CLOCK_MONOTONIC, &ended);
    long long taken = (ended.tv_sec - begun.tv_sec) * 1000000000LL + ended.tv_nsec - begun.tv_nsec;
    dprintf(told, "%d %lld %ld\n", status, taken, used.ru_maxrss);
    return 0;
}
