/* Preloaded before the C library, this gives random bytes in its place: as many as are asked for, each of them 1, or none where
   KEYS_FAIL is set. It writes a byte to the descriptor in KEYS_FD for each that is asked for. The headers are left out, since the
   toolchain of the kit has none. */
typedef unsigned long size_t;
typedef long ssize_t;

extern char *getenv(const char *name);
extern long atol(const char *text);
extern ssize_t write(int descriptor, const void *bytes, size_t count);

int getentropy(void *bytes, size_t count) {
    char *told = getenv("KEYS_FD");
    for (size_t at = 0; at < count; at++) {
        ((char *)bytes)[at] = 1;
        if (told && write((int)atol(told), "k", 1) != 1)
            return -1;
    }
    return getenv("KEYS_FAIL") ? -1 : 0;
}
