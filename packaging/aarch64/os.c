/* What the proved object asks of the toolchain's own C code, which is there for x86-64 alone: the words of the command line and the
   number of the system's last error, over the C library. `main` is the one that keeps the words; the linker is told to call the proved
   one __real_main (--wrap=main). */
#include <errno.h>
#include <stddef.h>
#include <string.h>

static int word_count;
static char **words;

int __real_main(int count, char **at);

int __wrap_main(int count, char **at) {
    word_count = count;
    words = at;
    return __real_main(count, at);
}

long rattle_arg_count(void) { return word_count; }

/* Copies a word, and gives its size; -1 where there is none, and -2 where it does not fit. */
long rattle_arg(size_t number, char *to, size_t room) {
    if (number >= (size_t)word_count) return -1;
    size_t size = strlen(words[number]);
    if (size > room) return -2;
    memcpy(to, words[number], size);
    return (long)size;
}

int rattle_errno(void) { return errno; }

void rattle_set_errno(int number) { errno = number; }
