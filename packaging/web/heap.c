/* The heap of the WebAssembly module: what bindings/c/heap.c is where there is a C library, over the module's own memory, which grows
   until its own limit or the host's is reached. Where memory is refused the pointer is of no use, and is not null. No proof covers this.

   Blocks lie one after the other, each with two words before what it lends, and the last is followed by what was never lent. One that is
   freed becomes one with its free neighbours, and waits in a list of those of about its size, four lists for each power of two. */

/* the compiler of the toolchain has no headers */
typedef __SIZE_TYPE__ size_t;
typedef __UINT8_TYPE__ uint8_t;
typedef __UINT32_TYPE__ uint32_t;

static_assert(sizeof(size_t) == 8, "compiled for memories of 64 bits, also where the module is then lowered to 32");

enum { PAGE = 1 << 16, HEAD = 16, LEAST = 32, WORD = 64, LISTS = 3 * WORD };
static const size_t MOST = (size_t)1 << 40; /* more is refused before it is computed with */
static const size_t FREE = 1;               /* in the size of a block, which is a multiple of 16 */

struct tried {
    bool is_there;
    void *at;
};

struct block {
    uint32_t before;            /* the bytes of the block before it; 0 of the first. The memory has 4 GiB at most */
    uint32_t number;            /* that of the limit under which it was lent; 0: there was none */
    size_t size;                /* its own, with these two words, and whether it is free */
    struct block *next, *other; /* its neighbours in its list, where it is free */
};

struct tried rattle_alloc(size_t size, size_t align);
struct tried rattle_realloc(void *old, size_t kept, size_t size, size_t align);
void rattle_dealloc(void *at);
void *memory_take(size_t size);
void memory_give(void *at);
void tmpl_limit_memory(size_t bytes);

extern uint8_t __heap_base;
static struct block *top; /* after the last block; of what is there only `before` is set */
static uint8_t *end;      /* of memory */
static struct block *lists[LISTS];
static size_t filled[LISTS / WORD]; /* a bit for each list that has a block */
static char nothing;
static uint32_t limits, number; /* how many limits were set, and the number of the one that there is; 0: none, and nothing is counted */
static size_t most, taken;      /* how many bytes it allows, and how many blocks have that were taken under it and are there */

static size_t rounded(size_t size) { return (size + 15) & ~(size_t)15; }

static size_t size_of(const struct block *it) { return it->size & ~FREE; }

static bool is_free(const struct block *it) { return it != top && (it->size & FREE) != 0; }

static struct block *moved(struct block *it, long by) { return (struct block *)((uint8_t *)it + by); }

static struct block *after(struct block *it) { return moved(it, (long)size_of(it)); }

/* ---- the lists */

/* The list of blocks of this size, with others that are less than a quarter larger or smaller. */
static size_t list_of(size_t size) {
    size_t power = WORD - 1 - (size_t)__builtin_clzl(size);
    return (power - 5) * 4 + (size >> (power - 2) & 3);
}

static void insert(struct block *it) {
    size_t list = list_of(it->size);
    it->size |= FREE;
    it->next = lists[list];
    it->other = nullptr;
    if (it->next != nullptr) it->next->other = it;
    lists[list] = it;
    filled[list / WORD] |= (size_t)1 << list % WORD;
}

static void take_out(struct block *it) {
    it->size = size_of(it);
    size_t list = list_of(it->size);
    if (it->next != nullptr) it->next->other = it->other;
    if (it->other != nullptr) it->other->next = it->next;
    else lists[list] = it->next;
    if (lists[list] == nullptr) filled[list / WORD] &= ~((size_t)1 << list % WORD);
}

/* A free block of at least this size: the first of its own list, if that will do, or one of a list of larger ones. */
static struct block *fitting(size_t size) {
    size_t own = list_of(size), from = own + 1, mask = ~(size_t)0 << from % WORD;
    if (lists[own] != nullptr && size_of(lists[own]) >= size) return lists[own];
    for (size_t word = from / WORD; word < LISTS / WORD; word++, mask = ~(size_t)0) {
        size_t found = filled[word] & mask;
        if (found != 0) return lists[word * WORD + (size_t)__builtin_ctzl(found)];
    }
    return nullptr;
}

/* ---- memory */

/* Asks for this many pages. A refusal is -1, of 64 bits or, in a module that was lowered, of 32. */
static bool grown(size_t pages) {
    if (__builtin_wasm_memory_grow(0, pages) >= 0xffffffff) return false;
    end += pages * PAGE;
    return true;
}

/* Has memory up to this place: a quarter more than there is, so that it is asked for seldom, or what is lacking alone. */
static bool reaches(const uint8_t *to) {
    if (to <= end) return true;
    size_t lacking = ((size_t)(to - end) + PAGE - 1) / PAGE, quarter = (size_t)end / PAGE / 4;
    return (quarter > lacking && grown(quarter)) || grown(lacking);
}

static bool is_started(void) {
    if (top != nullptr) return true;
    end = (uint8_t *)(__builtin_wasm_memory_size(0) * PAGE);
    uint8_t *first = (uint8_t *)rounded((size_t)&__heap_base);
    if (!reaches(first + HEAD)) return false;
    top = (struct block *)first;
    top->before = 0;
    return true;
}

/* Has the last block, or a new one after it, reach over this size. */
static bool is_last_with(struct block *it, size_t size) {
    if (!reaches((uint8_t *)it + size + HEAD)) return false;
    it->size = size;
    top = after(it);
    top->before = size;
    return true;
}

/* Frees a block, together with its free neighbours. */
static void give(struct block *it) {
    if (is_free(after(it))) {
        struct block *next = after(it);
        take_out(next);
        it->size += next->size;
    }
    if (it->before != 0 && is_free(moved(it, -(long)it->before))) {
        struct block *last = moved(it, -(long)it->before);
        take_out(last);
        last->size += it->size;
        it = last;
    }
    if (after(it) == top) {
        top = it;
    } else {
        after(it)->before = it->size;
        insert(it);
    }
}

/* Gives back what a block has beyond this size. */
static void cut(struct block *it, size_t size) {
    if (it->size - size < LEAST) return;
    struct block *rest = moved(it, (long)size);
    *rest = (struct block){.before = size, .size = it->size - size};
    it->size = size;
    after(rest)->before = rest->size;
    give(rest);
}

static size_t with_head(size_t size) { return size <= LEAST - HEAD ? LEAST : rounded(size) + HEAD; }

void *memory_take(size_t size) {
    if (size > MOST || !is_started()) return nullptr;
    size = with_head(size);
    struct block *it = fitting(size);
    if (it != nullptr) {
        take_out(it);
        cut(it, size);
    } else {
        it = top;
        if (!is_last_with(it, size)) return nullptr;
    }
    return moved(it, HEAD);
}

void memory_give(void *at) {
    if (at != nullptr) give(moved(at, -HEAD));
}

/* Makes a block larger where it is, and tells whether it could. */
static bool stretched(struct block *it, size_t size) {
    struct block *next = after(it);
    if (next == top) return is_last_with(it, size);
    if (!is_free(next) || it->size + size_of(next) < size) return false;
    take_out(next);
    it->size += next->size;
    after(it)->before = it->size;
    cut(it, size);
    return true;
}

static void *resized(void *old, size_t kept, size_t size) {
    if (old == nullptr) return memory_take(size);
    if (size > MOST) return nullptr;
    struct block *it = moved(old, -HEAD);
    if (with_head(size) <= it->size) {
        cut(it, with_head(size));
        return old;
    }
    if (stretched(it, with_head(size))) return old;
    void *to = memory_take(size);
    if (to == nullptr) return nullptr;
    __builtin_memcpy(to, old, kept < it->size - HEAD ? kept : it->size - HEAD);
    memory_give(old);
    return to;
}

/* ---- the limit */

void tmpl_limit_memory(size_t bytes) {
    limits += limits + 1 == 0 ? 2 : 1; /* the numbers begin anew after 2^32, without 0 */
    number = bytes != 0 ? limits : 0;
    most = bytes, taken = 0;
}

static size_t lent(void *at) { return size_of(moved(at, -HEAD)) - HEAD; }

/* How many bytes of a block count. */
static size_t counted(void *at) {
    return number != 0 && ((struct block *)moved(at, -HEAD))->number == number ? lent(at) : 0;
}

/* Whether so many bytes fit beside these. */
static bool fits(size_t beside, size_t size) { return number == 0 || (beside <= most && size <= most - beside); }

/* A block that was got beside those that take so many bytes. */
static struct tried told(void *at, size_t beside) {
    if (at == nullptr) return (struct tried){false, &nothing};
    moved(at, -HEAD)->number = number;
    if (number != 0) taken = beside + lent(at);
    return (struct tried){true, at};
}

struct tried rattle_alloc(size_t size, size_t align) {
    size = size != 0 ? size : align;
    return told(fits(taken, size) ? memory_take(size) : nullptr, taken);
}

struct tried rattle_realloc(void *old, size_t kept, size_t size, size_t align) {
    size_t beside = taken - counted(old);
    size = size != 0 ? size : align;
    return told(fits(beside, size) ? resized(old, kept, size) : nullptr, beside);
}

void rattle_dealloc(void *at) {
    taken -= counted(at);
    memory_give(at);
}
