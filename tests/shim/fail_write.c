/* Preloaded before the C library, this makes writes to one descriptor, that in WRITE_TO, short and failing: each takes at most WRITE_MOST
   bytes. Where WRITE_EACH has a descriptor, each write is also refused, in the first WRITE_WAYS ways, one after the other: by an error, once
   and from then on; by an interrupt; and by taking no byte, without an error. The program then runs to its end, all that it changed is put
   back, and the next refusal comes, or the write is made. So a refusal takes no process, and there may be millions of them. The descriptor
   is told how many there were, and then, for each way, what came of those that did not end as the one before: the number of the refusal,
   the status as waitpid has it, how many bytes were put to errors, to output and are told of it, and these. Told is `f` for the write
   that is refused, and `b` for each that follows it.

   What the program may change is its machine stack, its own data and its heap. The stack is copied before each refusal. The heap is of the
   shim: blocks lie one after the other, and none is given out again. At each refusal no page of it and of the program's data may be
   written: a write to one is met by a signal, and the page is copied then. The first pages that are met often are copied before each
   refusal, as the stack is. What the program keeps in the system is not put back: when it writes it must need no file that is open.
   The headers are left out, since the toolchain of the kit has none. */
typedef unsigned long size_t;
typedef long ssize_t;
typedef int entry(int, char **, char **);
typedef int start(entry *, int, char **, void *, void *, void *, void *);

extern char *getenv(const char *name);
extern long atol(const char *text);
extern void *dlsym(void *from, const char *name);
extern void *mmap(void *at, size_t count, int protection, int flags, int descriptor, long offset);
extern int mprotect(void *at, size_t count, int protection);
extern int memcmp(const void *one, const void *other, size_t count);
extern void *memcpy(void *to, const void *from, size_t count);
extern void *memset(void *to, int byte, size_t count);
extern ssize_t pwrite(int descriptor, const void *bytes, size_t count, long offset);
extern unsigned alarm(unsigned seconds);
extern long syscall(long number, ...);
extern int *__errno_location(void);
extern int sigaction(int signal, const void *to, void *from);

enum { write_call = 1, exit_call = 231 };
enum { readable = 1, writable = 2, private_unbacked = 0x4022, page = 4096 };
enum { seconds = 60, most_told = 256 };
static const size_t heap_room = 1UL << 34, stack_room = 1UL << 23;

static long number_in(const char *name) {
    char *text = getenv(name);
    return text ? atol(text) : 0;
}

__attribute__((noreturn)) static void stop(const char *why) {
    for (; *why; why++)
        syscall(write_call, 2, why, 1L);
    syscall(exit_call, 99L);
    __builtin_unreachable();
}

static char *room(size_t count) {
    char *made = mmap(0, count, readable | writable, private_unbacked, -1, 0);
    if (made == (char *)-1L)
        stop("fail_write: no room\n");
    return made;
}

/* ---- the heap: before each block stands its size */

static char *heap, *heap_end;

void *aligned_alloc(size_t alignment, size_t count) {
    if (!heap)
        heap = heap_end = room(heap_room);
    if (alignment < 16)
        alignment = 16;
    size_t at = ((size_t)heap_end + 16 + alignment - 1) / alignment * alignment;
    if (count > heap_room || at + count > (size_t)heap + heap_room)
        stop("fail_write: the heap is full\n");
    heap_end = (char *)at + count;
    ((size_t *)at)[-1] = count;
    return (void *)at;
}

void *memalign(size_t alignment, size_t count) { return aligned_alloc(alignment, count); }

int posix_memalign(void **to, size_t alignment, size_t count) {
    *to = aligned_alloc(alignment, count);
    return 0;
}

void *malloc(size_t count) { return aligned_alloc(16, count); }

void *calloc(size_t times, size_t count) { return memset(malloc(times * count), 0, times * count); }

void free(void *block) { (void)block; }

void *realloc(void *block, size_t count) {
    size_t had = block ? ((size_t *)block)[-1] : 0;
    if (block && had >= count)
        return block;
    if (block && (char *)block + had == heap_end) {
        heap_end += count - had;
        ((size_t *)block)[-1] = count;
        return block;
    }
    void *made = malloc(count);
    return had ? memcpy(made, block, had) : made;
}

/* ---- pages: what may not be written, and what is written all the same */

struct span {
    char *from, *to;
};
static struct span heap_span, data_span;

/* pages that may be written, and copies of them */
enum { most_pages = 1 << 14, most_often = 24, often = 8, counts = 1 << 12 };
struct pages {
    char *at[most_pages], *copies;
    long count;
};
static struct pages met_often; /* copied before each refusal */
static struct pages opened;    /* by the program, since the last refusal: without copies */
static struct pages changed;   /* in a refusal */
static unsigned char met[counts];
static int is_refused;

static char *page_of(const void *at) { return (char *)((size_t)at / page * page); }

static char *page_behind(const char *at) { return page_of(at + page - 1); }

static int is_in(const struct span *its, const char *at) { return its->from <= at && at < its->to; }

static void protect(char *at, size_t count, int how) {
    if (mprotect(at, count, how))
        stop("fail_write: no guard\n");
}

static void guard(struct span *its, char *to) {
    if (its->to >= to)
        return;
    protect(its->to, (size_t)(to - its->to), readable);
    its->to = to;
}

static void copy_page(struct pages *its, long number) { memcpy(its->copies + number * page, its->at[number], page); }

static void put_page_back(struct pages *its, long number) { memcpy(its->at[number], its->copies + number * page, page); }

/* A page is written that may not be. */
static void open_page(int signal, void **information, void *context) {
    char *at = page_of(information[2]);
    unsigned char *its = &met[(size_t)at / page % counts];
    (void)signal, (void)context;
    if (!is_in(&heap_span, at) && !is_in(&data_span, at))
        stop("fail_write: a bad access\n");
    struct pages *to = is_refused ? &changed : &opened;
    if (++*its >= often && !is_refused && met_often.count < most_often)
        to = &met_often;
    if (to->count == most_pages)
        stop("fail_write: too many pages\n");
    to->at[to->count++] = at;
    if (is_refused)
        copy_page(to, to->count - 1);
    protect(at, page, readable | writable);
}

/* What the program has opened may not be written any more. */
static void close_pages(void) {
    while (opened.count > 0)
        protect(opened.at[--opened.count], page, readable);
    for (long it = 0; it < met_often.count; it++)
        copy_page(&met_often, it);
}

static void put_pages_back(void) {
    for (long it = 0; it < met_often.count; it++)
        put_page_back(&met_often, it);
    while (changed.count > 0) {
        put_page_back(&changed, --changed.count);
        protect(changed.at[changed.count], page, readable);
    }
}

static void take_signals(void) {
    enum { bad_access = 11, with_information = 4 };
    struct {
        void (*handler)(int, void **, void *);
        unsigned long mask[16];
        int flags;
        void *restorer;
    } how = {open_page, {0}, with_information, 0};
    sigaction(bad_access, &how, 0);
}

/* the parts of a program, as the loader tells them */
struct part {
    unsigned kind, flags;
    size_t offset, at, physical, in_file, in_memory, alignment;
};
struct parts {
    size_t base;
    const char *name;
    const struct part *parts;
    unsigned short count;
};
extern int dl_iterate_phdr(int look(struct parts *, size_t, void *), void *given);

/* Guards the data of what is told first, which is the program; what the loader has made read only is so already. */
static int guard_data(struct parts *its, size_t size, void *given) {
    enum { loaded = 1, read_only_later = 0x6474e552, is_written = 2 };
    char *from = 0, *to = 0, *fixed = 0;
    (void)size, (void)given;
    for (int it = 0; it < its->count; it++) {
        const struct part *one = &its->parts[it];
        char *begins = (char *)its->base + one->at, *ends = begins + one->in_memory;
        if (one->kind == loaded && one->flags & is_written) {
            from = from && from < begins ? from : begins;
            to = to > ends ? to : ends;
        }
        if (one->kind == read_only_later)
            fixed = ends;
    }
    from = from < fixed ? fixed : from;
    data_span.from = data_span.to = page_behind(from);
    if (from < to)
        guard(&data_span, page_behind(to));
    return 1;
}

/* ---- one refusal */

struct said {
    char bytes[most_told];
    long count;
};
static struct said outputs, errors, told;
static long status;

static char *stack_top, *stack_from, *stack_copy, *heap_before;
static void *point[5]; /* where the run goes on */
static char other_stack[1 << 16] __attribute__((aligned(16)));

static void say(struct said *to, const void *bytes, size_t count) {
    if (count > (size_t)(most_told - to->count))
        stop("fail_write: too much is put out after a refusal\n");
    memcpy(to->bytes + to->count, bytes, count);
    to->count += count;
}

__attribute__((noreturn, used)) static void put_back(void) {
    memcpy(stack_from, stack_copy, (size_t)(stack_top - stack_from));
    put_pages_back();
    heap_end = heap_before;
    __builtin_longjmp(point, 1);
}

/* Ends the program; in a refusal all is put back, from a stack that is not put back itself. */
__attribute__((noreturn)) void exit(int its) {
    if (!is_refused)
        syscall(exit_call, (long)its);
    status = (its & 255L) << 8;
    __asm__ volatile("mov %0, %%rsp\n\tcall put_back" : : "r"(other_stack + sizeof other_stack) : "memory");
    __builtin_unreachable();
}

__attribute__((noreturn)) void _exit(int its) { exit(its); }

static void begin(void) {
    stack_copy = room(stack_room);
    met_often.copies = room((size_t)most_often * page);
    changed.copies = room((size_t)most_pages * page);
    take_signals();
    heap_span.from = heap_span.to = heap;
    dl_iterate_phdr(guard_data, 0);
}

/* Answers 1, and once the program has ended then it answers 0, with all as it was. */
__attribute__((noinline)) static int in_refusal(void) {
    if (!stack_copy)
        begin();
    alarm(seconds);
    heap_before = heap_end;
    guard(&heap_span, page_behind(heap_end));
    close_pages();
    outputs.count = errors.count = told.count = 0;
    is_refused = 1;
    if (__builtin_setjmp(point)) {
        is_refused = 0;
        return 0;
    }
    stack_from = (char *)__builtin_frame_address(0) - page;
    if ((size_t)(stack_top - stack_from) > stack_room)
        stop("fail_write: the stack is too long\n");
    memcpy(stack_copy, stack_from, (size_t)(stack_top - stack_from));
    return 1;
}

/* Counts a refusal, and tells what came of it where it is not what came of the last one of that way. */
static void tell(int to, long number, int way) {
    static struct {
        char bytes[4 * most_told];
        long count;
    } last[4];
    static long all = 0;
    char its[4 * most_told];
    long head[4] = {status, errors.count, outputs.count, told.count}, count = sizeof head;
    memcpy(its, head, sizeof head);
    const struct said *parts[3] = {&errors, &outputs, &told};
    for (int it = 0; it < 3; count += parts[it++]->count)
        memcpy(its + count, parts[it]->bytes, (size_t)parts[it]->count);
    if (all++ == 0)
        syscall(write_call, to, &all, sizeof all);
    pwrite(to, &all, sizeof all, 0);
    if (count == last[way].count && !memcmp(its, last[way].bytes, (size_t)count))
        return;
    memcpy(last[way].bytes, its, (size_t)count);
    last[way].count = count;
    syscall(write_call, to, &number, sizeof number);
    syscall(write_call, to, its, count);
}

/* ---- what stands in the place of the C library's */

/* how a write is refused: by this error, or by taking no byte; once, or from then on */
struct way {
    int error, is_for_good;
};
enum { interrupted = 4, io_error = 5 };
static const struct way ways[] = {{io_error, 0}, {io_error, 1}, {interrupted, 0}, {0, 0}};

static int refuse(const struct way *way) {
    if (!way->error)
        return 0;
    *__errno_location() = way->error;
    return -1;
}

/* A write after one that was refused in this way. */
static ssize_t write_behind(const struct way *way, int is_to, int descriptor, const void *bytes, size_t count) {
    if (is_to)
        say(&told, "b", 1);
    if (is_to && way->is_for_good)
        return refuse(way);
    say(descriptor == 1 ? &outputs : &errors, bytes, count);
    return (ssize_t)count;
}

ssize_t write(int descriptor, const void *bytes, size_t count) {
    static const struct way *refused;
    static long to = -1, most, each, number, puts = 0;
    if (to < 0)
        to = number_in("WRITE_TO"), most = number_in("WRITE_MOST"), each = number_in("WRITE_EACH"), number = number_in("WRITE_WAYS");
    int is_to = descriptor == to && count > 0;
    if (is_to && most && count > (size_t)most)
        count = (size_t)most;
    if (is_refused)
        return write_behind(refused, is_to, descriptor, bytes, count);
    puts += is_to;
    for (int it = 0; is_to && each && it < number; it++) {
        refused = &ways[it];
        if (in_refusal()) {
            say(&told, "f", 1);
            return refuse(refused);
        }
        tell((int)each, puts * 4 + it, it);
    }
    return syscall(write_call, descriptor, bytes, count);
}

static entry *its_main;

static int main_within(int count, char **words, char **environment) {
    stack_top = __builtin_frame_address(0);
    exit(its_main(count, words, environment));
}

int __libc_start_main(entry *main, int count, char **words, void *init, void *fini, void *loader, void *stack) {
    start *begins = (start *)dlsym((void *)-1L, "__libc_start_main");
    its_main = main;
    return begins(main_within, count, words, init, fini, loader, stack);
}
