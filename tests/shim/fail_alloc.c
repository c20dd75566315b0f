/* Preloaded before the C library, this refuses an allocation of a program. FAIL_ALLOC has the number, from 1, of one; then a
   byte is written to the descriptor in FAIL_FD, so that the caller knows that there were that many. Or FAIL_EACH has a
   descriptor, and each is refused in turn, in a copy of the program of its own, of which that descriptor tells. At the end
   the number of blocks that were taken and not given back is written to the descriptor in KEPT_FD, as a machine has it.

   A copy is made by a fork where the program comes to the allocation. It runs to its end, with output and errors of its own, which
   begin as those so far; the program waits for it, writes down what came of it, and goes on as if nothing had been. So what came
   before is not run again for each. The headers are left out, since the toolchain of the kit has none. */
typedef unsigned long size_t;
typedef long ssize_t;

extern char *getenv(const char *name);
extern long atol(const char *text);
extern int fork(void);
extern int waitpid(int process, int *status, int options);
extern int memfd_create(const char *name, unsigned flags);
extern int ftruncate(int descriptor, long length);
extern int dup2(int from, int to);
extern long lseek(int descriptor, long offset, int whence);
extern ssize_t pread(int descriptor, void *bytes, size_t count, long offset);
extern unsigned alarm(unsigned seconds);
extern void abort(void);
extern int fcntl(int descriptor, int command, ...);
extern long syscall(long number, ...);
extern void *__libc_malloc(size_t size);
extern void *__libc_calloc(size_t count, size_t size);
extern void *__libc_realloc(void *old, size_t size);
extern void *__libc_memalign(size_t alignment, size_t size);
extern void __libc_free(void *block);

enum { write_call = 1, get_seals = 1034, from_start = 0, from_here = 1, at_end = 2, closed_at_start = 1, seconds = 60 };
/* the descriptors that a program of a test may have open; what it reads stands in files */
enum { descriptors = 32 };

struct turn {
    int kept[3];               /* what the copy puts to its output and its errors, by their descriptors */
    long offsets[descriptors]; /* where the program reads and writes, which a copy moves */
};

static long number_in(const char *name) {
    char *text = getenv(name);
    return text ? atol(text) : 0;
}

/* Whether this is a file in memory, which alone has seals. A device stays what it is in a copy too. */
static int is_in_memory(int descriptor) { return fcntl(descriptor, get_seals) >= 0; }

/* Puts the bytes of a file to where the other is. */
static void append(int to, int from) {
    static char bytes[65536];
    long at = 0, count;
    while ((count = pread(from, bytes, sizeof bytes, at)) > 0) {
        if (syscall(write_call, to, bytes, count) != count)
            abort();
        at += count;
    }
}

/* Forks. In the copy it answers 1, with output and errors of its own; in the program 0, once the copy has ended. Then the
   offsets are those of before, and to `told` were put: the number, the status as waitpid has it, the lengths of what the
   copy put to its errors and its output, a 0, since no more is told of it, and what it put. */
static int in_copy(struct turn *its, int told, long number) {
    int status = 0, process;
    if (!its->kept[1])
        for (int it = 1; it < 3; it++)
            its->kept[it] = memfd_create("turn", closed_at_start);
    for (int it = 0; it < descriptors; it++)
        its->offsets[it] = lseek(it, 0, from_here);
    for (int it = 1; it < 3; it++) {
        ftruncate(its->kept[it], 0);
        lseek(its->kept[it], 0, from_start);
        if (is_in_memory(it))
            append(its->kept[it], it);
    }
    process = fork();
    if (process < 0)
        abort();
    if (process == 0) {
        alarm(seconds);
        for (int it = 1; it < 3; it++)
            if (is_in_memory(it))
                dup2(its->kept[it], it);
        return 1;
    }
    waitpid(process, &status, 0);
    for (int it = 0; it < descriptors; it++)
        if (its->offsets[it] >= 0 && it != told)
            lseek(it, its->offsets[it], from_start);
    long head[5] = {number, status, lseek(its->kept[2], 0, at_end), lseek(its->kept[1], 0, at_end), 0};
    syscall(write_call, told, head, sizeof head);
    append(told, its->kept[2]);
    append(told, its->kept[1]);
    return 0;
}

enum { no_memory = 12 };

static long kept; /* blocks */

static void *counted(void *block) {
    if (block)
        kept++;
    return block;
}

__attribute__((destructor)) static void tell_kept(void) {
    char *descriptor = getenv("KEPT_FD");
    if (descriptor)
        syscall(write_call, atol(descriptor), &kept, sizeof kept);
}

static int is_numbered(void) {
    static long left = -1;
    if (left < 0)
        left = number_in("FAIL_ALLOC");
    if (left == 0 || --left > 0)
        return 0;
    char *descriptor = getenv("FAIL_FD");
    if (descriptor)
        syscall(write_call, atol(descriptor), "x", 1L);
    return 1;
}

static int is_refused(void) {
    static struct turn turn;
    static long told = -1, number = 0;
    static int is_copy;
    if (told < 0)
        told = number_in("FAIL_EACH");
    if (!told)
        return is_numbered();
    /* a copy has had its refusal, and where FAIL_REST is 1 all that it asks for after it is refused too */
    if (is_copy)
        return number_in("FAIL_REST") == 1;
    is_copy = in_copy(&turn, (int)told, ++number);
    return is_copy;
}

void *malloc(size_t size) { return is_refused() ? 0 : counted(__libc_malloc(size)); }

void *calloc(size_t count, size_t size) { return is_refused() ? 0 : counted(__libc_calloc(count, size)); }

/* a block that grows stays one */
void *realloc(void *old, size_t size) {
    if (is_refused())
        return 0;
    return old ? __libc_realloc(old, size) : counted(__libc_malloc(size));
}

void free(void *block) {
    if (block)
        kept--;
    __libc_free(block);
}

void *aligned_alloc(size_t alignment, size_t size) {
    return is_refused() ? 0 : counted(__libc_memalign(alignment, size));
}

int posix_memalign(void **made, size_t alignment, size_t size) {
    void *memory = aligned_alloc(alignment, size);
    if (!memory)
        return no_memory;
    *made = memory;
    return 0;
}
