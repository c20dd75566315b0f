/* Runs PROGRAM by QEMU with the words that it is given, the first one included, which no script could pass on. */
#include <stdlib.h>
#include <unistd.h>

int main(int argc, char **argv) {
    char **words = calloc((size_t)argc + 6, sizeof *words), **at = words;
    if (words == NULL) return 126;
    *at++ = QEMU;
#ifdef CPU
    *at++ = "-cpu", *at++ = CPU;
#endif
    *at++ = "-0", *at++ = argv[0], *at++ = PROGRAM;
    for (int i = 1; i < argc; i++) *at++ = argv[i];
    execv(QEMU, words);
    return 126;
}
