/* Preloaded before the C library, this has a program run many times over, each time in a copy that is made once it is loaded, before
   anything of it has run. SERVE has a socket, to which a byte is sent first. Each message of it holds words, each ended by a NUL, with which a copy is
   run; what it ended with, as waitpid has it, goes back. The headers are left out, since the toolchain of the kit has none. */
typedef unsigned long size_t;
typedef long ssize_t;
typedef int entry(int, char **, char **);

extern char **environ;
extern char *getenv(const char *name);
extern int unsetenv(const char *name);
extern int atoi(const char *text);
extern void *dlsym(void *from, const char *name);
extern ssize_t recv(int socket, void *bytes, size_t count, int flags);
extern ssize_t send(int socket, const void *bytes, size_t count, int flags);
extern int fork(void);
extern int waitpid(int process, int *status, int options);
extern int close(int descriptor);
extern unsigned alarm(unsigned seconds);
extern void _exit(int status);
extern void abort(void);

enum { most_bytes = 1 << 16, most_words = 1 << 13, seconds = 60 };

typedef int start(entry *, int, char **, void *, void *, void *, void *);

/* Puts words, and more of them that each end with a NUL, and then the environment to where the C library wants them. */
static int joined(char **all, char **words, char *more, ssize_t length) {
    int count = 0, it = 0;
    for (; *words; words++)
        all[count++] = *words;
    for (ssize_t at = 0; at < length && count < most_words / 2; at++)
        if (at == 0 || !more[at - 1])
            all[count++] = more + at;
    all[count] = 0;
    for (char **held = environ; held[it] && count + it < most_words - 2; it++)
        all[count + 1 + it] = held[it];
    all[count + 1 + it] = 0;
    return count;
}

int __libc_start_main(entry *main, int count, char **words, void *init, void *fini, void *loader, void *stack) {
    static char more[most_bytes], *all[most_words];
    start *begin = (start *)dlsym((void *)-1L, "__libc_start_main");
    char *text = getenv("SERVE");
    ssize_t length;
    if (!text)
        return begin(main, count, words, init, fini, loader, stack);
    int socket = atoi(text);
    unsetenv("SERVE");
    send(socket, "", 1, 0);
    while ((length = recv(socket, more, sizeof more, 0)) > 0) {
        int status = 0, process = fork();
        if (process < 0)
            abort();
        if (process == 0) {
            close(socket);
            alarm(seconds);
            return begin(main, joined(all, words, more, length), all, init, fini, loader, stack);
        }
        waitpid(process, &status, 0);
        send(socket, &status, sizeof status, 0);
    }
    _exit(0);
}
