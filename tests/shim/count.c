/* Preloaded before the C library, this counts the allocations of a program, the bytes that they ask for, and the writes to its output.
   At its end the three numbers go to the descriptor in COUNT_FD. The headers are left out, since the toolchain of the kit has
   none. */
typedef unsigned long size_t;
typedef long ssize_t;

extern char *getenv(const char *name);
extern long atol(const char *text);
extern long syscall(long number, ...);
extern void *__libc_malloc(size_t size);
extern void *__libc_calloc(size_t count, size_t size);
extern void *__libc_realloc(void *old, size_t size);
extern void *__libc_memalign(size_t alignment, size_t size);

enum { write_call = 1, output = 1 };

static long counts[3];

static size_t counted(size_t size) {
    counts[0]++;
    counts[1] += (long)size;
    return size;
}

void *malloc(size_t size) { return __libc_malloc(counted(size)); }

void *calloc(size_t count, size_t size) {
    counted(count * size);
    return __libc_calloc(count, size);
}

void *realloc(void *old, size_t size) { return __libc_realloc(old, counted(size)); }

void *aligned_alloc(size_t alignment, size_t size) { return __libc_memalign(alignment, counted(size)); }

int posix_memalign(void **made, size_t alignment, size_t size) {
    *made = aligned_alloc(alignment, size);
    return *made ? 0 : 12;
}

ssize_t write(int descriptor, const void *bytes, size_t count) {
    counts[2] += descriptor == output;
    return syscall(write_call, descriptor, bytes, count);
}

__attribute__((destructor)) static void tell(void) {
    char *descriptor = getenv("COUNT_FD");
    if (descriptor)
        syscall(write_call, atol(descriptor), counts, sizeof counts);
}
