/* What libFuzzer calls with each input: the input is cut into settings, a name, data and up to three files, and the library is asked in
   many ways what it comes to. Whatever differs, is written past lent memory, or stays taken, ends the process. fuzz.py builds and runs it,
   and says how an input is cut. The blocks of bindings/c/heap.c come from here, and its keys, which are always the same. */
#include "keys.h"
#include "tmpl.h"
#include <malloc.h>
#include <stdio.h>
#include <stdlib.h>
#include <string.h>

enum { FILES = 3, PARTS = 2 + 2 * FILES, HEAD = 4, CUT = 0xFF };
enum { ROOM = 1 << 16, LINE = 1 << 12, GUARD = 64, MARK = 0xA5 };
enum { BLOCK_MOST = 1 << 18, BYTES_MOST = 1 << 23 }; /* bytes that one block, and all blocks, may have: a text may double at each step */

static long asked, refused = -1, blocks;
static size_t held;
static int is_scarce; /* whether a block was refused for its size */

const struct keys *drawn_keys(void) {
    static const struct keys known;
    return &known;
}

/* ---- memory */

static int is_refused(size_t size, size_t before) {
    int is_large = size > BLOCK_MOST || held - before + size > BYTES_MOST;
    is_scarce |= is_large;
    return asked++ == refused || is_large;
}

static void *block(size_t size) {
    void *at = malloc(size);
    held += malloc_usable_size(at), blocks++;
    return at;
}

void fuzz_free(void *at) {
    if (at == NULL) return;
    held -= malloc_usable_size(at), blocks--;
    free(at);
}

void *fuzz_malloc(size_t size) { return is_refused(size, 0) ? NULL : block(size); }

/* A new block each time, so that a use of the old one is seen. */
void *fuzz_realloc(void *old, size_t size) {
    size_t before = old == NULL ? 0 : malloc_usable_size(old);
    if (is_refused(size, before)) return NULL;
    void *at = block(size);
    memcpy(at, old == NULL ? "" : old, before < size ? before : size);
    fuzz_free(old);
    return at;
}

/* ---- an input */

struct part {
    char *bytes;
    size_t size;
};

struct input {
    tmpl_settings settings;
    unsigned pick;
    struct part parts[PARTS];
    tmpl_file files[FILES];
    size_t count;
};

/* What a call put out. `text` and `line` lie between marks. */
struct told {
    int status, is_scarce;
    char before[GUARD], text[ROOM], between[GUARD], line[LINE], after[GUARD];
    tmpl_buffer out, err;
};

static void stop(const char *what) {
    fprintf(stderr, "FAILED: %s\n", what);
    abort();
}

static void need(int holds, const char *what) {
    if (!holds) stop(what);
}

/* A block of its own for each part, so that a read past it is seen. */
static void cut(struct input *it, const uint8_t *bytes, size_t size) {
    it->settings = (tmpl_settings){sizeof(tmpl_settings), 1 + bytes[1] * bytes[1] / 16, bytes[0] & 4 ? 0 : 1 + bytes[2] % 64, bytes[0] & 3, 0, 0, "", 0};
    it->pick = bytes[3];
    const uint8_t *at = bytes + HEAD, *end = bytes + size;
    size_t count = 0;
    for (; at != NULL && count < PARTS; count++) {
        const uint8_t *next = count + 1 < PARTS ? memchr(at, CUT, end - at) : NULL;
        struct part *part = it->parts + count;
        part->size = (next != NULL ? next : end) - at;
        part->bytes = malloc(part->size + !part->size);
        memcpy(part->bytes, at, part->size);
        at = next != NULL ? next + 1 : NULL;
    }
    for (size_t i = count; i < PARTS; i++) it->parts[i] = (struct part){malloc(1), 0};
    it->count = count > 2 ? (count - 1) / 2 : 0;
    for (size_t i = 0; i < it->count; i++) {
        struct part *path = it->parts + 2 + 2 * i, *text = path + 1;
        it->files[i] = (tmpl_file){path->bytes, path->size, text->bytes, text->size};
    }
}

/* The name that is run: of no bytes it is the last part of the first path. */
static struct part name_of(const struct input *it) {
    struct part name = it->parts[0], path = it->parts[2];
    if (name.size || !it->count) return name;
    for (size_t i = path.size; i-- > 0;)
        if (path.bytes[i] == '/') return (struct part){path.bytes + i + 1, path.size - i - 1};
    return path;
}

/* ---- what a call tells */

static void lend(struct told *told, size_t room, size_t line_room) {
    memset(told->before, MARK, GUARD), memset(told->between, MARK, GUARD), memset(told->after, MARK, GUARD);
    told->out = (tmpl_buffer){told->text, room, 77, 77};
    told->err = (tmpl_buffer){told->line, line_room, 77, 77};
    if (room < ROOM) told->text[room] = (char)MARK;
    if (line_room < LINE) told->line[line_room] = (char)MARK;
    is_scarce = 0;
}

static int is_marked(const char *guard) {
    for (int i = 0; i < GUARD; i++)
        if (guard[i] != (char)MARK) return 0;
    return 1;
}

static void look(struct told *told) {
    const tmpl_buffer *out = &told->out, *err = &told->err;
    told->is_scarce = is_scarce;
    need(is_marked(told->before) && is_marked(told->between) && is_marked(told->after), "a write past lent memory");
    need(out->size == ROOM || told->text[out->size] == (char)MARK, "a write past the room of the text");
    need(err->size == LINE || told->line[err->size] == (char)MARK, "a write past the room of the line");
    need(out->bytes == told->text && err->bytes == told->line, "a buffer is another");
    need(out->taken == (out->needed < out->size ? out->needed : out->size), "taken and needed of the text");
    need(err->taken == (err->needed < err->size ? err->needed : err->size), "taken and needed of the line");
    need(told->status <= TMPL_MEMORY && told->status != 3, "an unknown status");
    need((told->status == TMPL_OK) == (err->needed == 0), "a line, or none");
}

static int begins(const tmpl_buffer *it, const tmpl_buffer *whole) {
    size_t size = it->taken < whole->taken ? it->taken : whole->taken;
    return it->needed <= whole->needed && !memcmp(it->bytes, whole->bytes, size);
}

static int is_same(const tmpl_buffer *one, const tmpl_buffer *other) {
    return one->needed == other->needed && begins(one, other);
}

static int says(const tmpl_buffer *it, const char *line) {
    size_t size = strlen(line);
    return it->needed == size && !memcmp(it->bytes, line, it->taken);
}

/* Memory was refused: a beginning of the text, and the line of that. */
static int is_beginning(const struct told *it, const struct told *whole) {
    return it->status == TMPL_MEMORY && begins(&it->out, &whole->out) && says(&it->err, "tmpl: out of memory\n");
}

static void same(const struct told *it, const struct told *whole, const char *what) {
    if (it->is_scarce || whole->is_scarce) return;
    need(it->status == whole->status && is_same(&it->out, &whole->out) && is_same(&it->err, &whole->err), what);
}

/* ---- ways to ask */

static void render(const struct input *it, const tmpl_file *files, size_t count, int print, size_t room, size_t line_room, struct told *told) {
    tmpl_settings settings = it->settings;
    struct part name = name_of(it), data = it->parts[1];
    settings.print = (uint8_t)print;
    lend(told, room, line_room);
    asked = 0;
    told->status = tmpl_render(&settings, files, count, name.bytes, name.size, data.bytes, data.size, &told->out, &told->err);
    look(told);
    need(blocks == 0, "memory that a render took");
}

static void render_all(const struct input *it, int print, struct told *told) {
    render(it, it->files, it->count, print, ROOM, LINE, told);
}

/* Adds all files to a set, or stops at the first that is refused, of which the set must know nothing. */
static void add(const struct input *it, tmpl_set *set, struct told *told) {
    static struct told kept, wanted;
    size_t added = 0;
    lend(told, 0, LINE);
    told->out.taken = told->out.needed = 0;
    for (told->status = TMPL_OK; added < it->count && told->status == TMPL_OK; added += told->status == TMPL_OK)
        told->status = tmpl_set_add(set, it->files + added, &told->err);
    if (it->count) look(told);
    if (told->status == TMPL_OK) return;
    tmpl_settings settings = {.print = 1};
    tmpl_data none = {0};
    lend(&kept, ROOM, LINE);
    kept.status = tmpl_render_set(&settings, set, &none, "", 0, &kept.out, &kept.err);
    look(&kept);
    long before = blocks;
    blocks = 0;
    render(it, it->files, added, 1, ROOM, LINE, &wanted);
    blocks = before;
    same(&kept, &wanted, "a refused file changed the set");
}

/* The same by what is kept; rendered twice. */
static void keep(const struct input *it, struct told *told) {
    static struct told again;
    tmpl_set set = {0};
    tmpl_data data = {0};
    struct part name = name_of(it), read = it->parts[1];
    add(it, &set, told);
    if (told->status == TMPL_OK) {
        lend(told, 0, LINE);
        told->out.taken = told->out.needed = 0;
        told->status = tmpl_data_read(&data, read.bytes, read.size, &told->err);
        look(told);
    }
    if (told->status == TMPL_OK) {
        long before = blocks;
        lend(told, ROOM, LINE);
        told->status = tmpl_render_set(&it->settings, &set, &data, name.bytes, name.size, &told->out, &told->err);
        look(told);
        lend(&again, ROOM, LINE);
        again.status = tmpl_render_set(&it->settings, &set, &data, name.bytes, name.size, &again.out, &again.err);
        look(&again);
        same(&again, told, "a second render of what is kept");
        need(blocks == before, "memory that a render of what is kept took");
    }
    for (int i = 0; i < 2; i++) tmpl_set_free(&set), tmpl_data_free(&data);
    need(set.held == NULL && data.held == NULL && blocks == 0, "memory of what was freed");
}

/* With little room: the same beginning, and how many bytes there are. */
static void cramp(const struct input *it, const struct told *whole) {
    static struct told told;
    size_t room = it->pick * whole->out.taken / 256, line_room = it->pick % 16;
    if (whole->is_scarce || whole->out.needed > ROOM) return;
    render(it, it->files, it->count, 0, room, line_room, &told);
    int fits = whole->out.needed <= room;
    need(told.status == (fits ? whole->status : TMPL_FULL) && is_same(&told.out, &whole->out), "the text with little room");
    need(fits ? is_same(&told.err, &whole->err) : says(&told.err, "tmpl: write failed\n"), "the line with little room");
}

/* With one allocation refused: as much of the text as came before, or the same. */
static void refuse(const struct input *it, const struct told *whole, long count) {
    static struct told told;
    if (whole->is_scarce || count == 0) return;
    refused = it->pick * 7919L % count;
    render(it, it->files, it->count, 0, ROOM, LINE, &told);
    refused = -1;
    if (told.status == TMPL_MEMORY) need(is_beginning(&told, whole), "a render whose memory was refused");
    else same(&told, whole, "a render that did without memory");
}

/* The set as it is printed, read under the name of the first file: it is printed the same, and rendered the same but for the places in
   the line. */
static void print(const struct input *it, const struct told *whole) {
    static struct told printed, told;
    render_all(it, 1, &printed);
    if (printed.is_scarce || printed.out.needed > ROOM) return;
    if (whole->status == TMPL_REFUSED && printed.status != TMPL_OK) same(&printed, whole, "what is refused is refused by --print");
    if (printed.status != TMPL_OK || it->count == 0) return;
    tmpl_file file = {it->files[0].name, it->files[0].name_size, printed.text, printed.out.taken};
    render(it, &file, 1, 1, ROOM, LINE, &told);
    same(&told, &printed, "the printed set printed again");
    render(it, &file, 1, 0, ROOM, LINE, &told);
    if (told.is_scarce || whole->is_scarce) return;
    need(told.status == whole->status && is_same(&told.out, &whole->out), "the printed set rendered");
    if (told.status != TMPL_FAULT) need(is_same(&told.err, &whole->err), "the line of the printed set");
}

int LLVMFuzzerTestOneInput(const uint8_t *bytes, size_t size) {
    static struct told whole, kept;
    struct input input = {0};
    if (size < HEAD) return -1;
    cut(&input, bytes, size);
    render_all(&input, 0, &whole);
    long count = asked;
    if (whole.is_scarce) need(whole.status == TMPL_MEMORY, "memory was refused, and a status tells another thing");
    keep(&input, &kept);
    same(&kept, &whole, "what is kept and one call");
    cramp(&input, &whole);
    refuse(&input, &whole, count);
    print(&input, &whole);
    for (int i = 0; i < PARTS; i++) free(input.parts[i].bytes);
    return 0;
}
