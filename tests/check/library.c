/* What tests/check/library.py can't ask of the library from Python: each allocation refused in turn, with the blocks counted that stay, threads
   that render at the same time, and that memory stays flat. It is linked with libtmpl.a, whose calls of malloc, realloc and free come here
   (--wrap). Puts out a line for each failure, and last how many cases there were. `library few` makes few renders, for valgrind. */
#include "tmpl.h"
#include <pthread.h>
#include <stdatomic.h>
#include <stddef.h>
#include <stdio.h>
#include <stdlib.h>
#include <string.h>

void *__real_malloc(size_t size);
void *__real_realloc(void *at, size_t size);
void __real_free(void *at);

static __thread long asked, refused = -1, live;
static atomic_long all_live; /* of all threads */

void *__wrap_malloc(size_t size) {
    void *at = asked++ == refused ? NULL : __real_malloc(size);
    live += at != NULL, all_live += at != NULL;
    return at;
}

void *__wrap_realloc(void *old, size_t size) {
    void *at = asked++ == refused ? NULL : __real_realloc(old, size);
    live += old == NULL && at != NULL, all_live += old == NULL && at != NULL;
    return at;
}

void __wrap_free(void *at) {
    live -= at != NULL, all_live -= at != NULL;
    __real_free(at);
}

static long cases, failures;

static void judge(int is_right, const char *what, long number) {
    cases++;
    if (!is_right) {
        failures++;
        printf("FAILED %s, %ld\n", what, number);
    }
}

/* What a template comes to with some data: its text, line and status. */
struct row {
    const char *template, *data, *text, *line;
    int status, print;
    const char *writes; /* the format of which the text has to be, if any */
};

static const struct row rows[] = {
    {"Hello, {{.name}}!", "{\"name\":\"Ada\"}", "Hello, Ada!", "", TMPL_OK, 0, 0},
    {"{{define \"row\"}}{{printf \"%d %s\" .n .s}}\n{{end}}{{range .}}{{template \"row\" .}}{{end}}",
     "[{\"n\":1,\"s\":\"a\"},{\"n\":2,\"s\":\"b\"}]", "1 a\n2 b\n", "", TMPL_OK, 0, 0},
    {"{{$x := printf \"%q\" .}}{{html $x}} {{len $x}}", "\"<a>\"", "&#34;&lt;a&gt;&#34; 5", "", TMPL_OK, 0, 0},
    {"{{with .a}}{{index . 9}}{{end}}", "{\"a\":[1]}", "", "tmpl: t:1: in \"t\": index: out of range\n", TMPL_FAULT, 0, 0},
    {"before {{.a.b}}", "{\"a\":1}", "before ", "tmpl: t:1: in \"t\": no field \"b\" here\n", TMPL_FAULT, 0, 0},
    {"{{if .}}", "", "", "tmpl: t:1: file ends inside a control\n", TMPL_REFUSED, 0, 0},
    {"{{.}}", "{\"a\":[1.5]}", "", "tmpl: data: number not whole or out of range\n", TMPL_DATA, 0, 0},
    {"{{.}}", "{\"a\":[1,", "", "tmpl: data: not JSON\n", TMPL_DATA, 0, 0},
    {"{\"a\": {{.}}}", "5", "{\"a\": 5}", "", TMPL_OK, 0, "json"},
    {"{\"a\": {{.}}}", "\"x\"", "", "tmpl: output:1:7: not json: expected a value\n", TMPL_FORMAT, 0, "json"},
    {"a {{.b.c}}", "{\"b\":5}", "", "tmpl: t:1: in \"t\": no field \"c\" here\n", TMPL_FAULT, 0, "env"},
    {"A={{.}}\n", "\"x\"", "A=x\n", "", TMPL_OK, 0, "env"},
    {"A={{.}}\n", "\"x y\"", "", "tmpl: output:1:4: not env: expected a value that needs no quotes, or the end of the line\n", TMPL_FORMAT, 0, "env"},
    {"x", "", "", "tmpl: no such format\n", TMPL_FORMAT, 0, "xml"},
    {"{{ .a|len }}{{if .b}}x{{end}}", "", "{{define \"t\"}}{{.a | len}}{{if .b}}x{{end}}{{end}}\n", "", TMPL_OK, 1, 0},
};
enum { ROWS = sizeof rows / sizeof *rows };

/* What a check says of a file. */
static const struct row checked[] = {
    {"Hello, {{.name}}!", "", "", "", TMPL_OK, 0, 0},
    {"a\n{{if name}}{{end}} {{end}}", "",
     "t:2:1: error: action not understood: no function \"name\": write .name\n"
     "t:2:20: error: out of place: \"end\" closes nothing: no if, with, range, define or block is open\n",
     "", TMPL_REFUSED, 0, 0},
    {"{{define \"a\"}}x{{end}}{{define \"a\"}}y{{end}}", "", "t:1:23: error: second definition: second definition of \"a\", the first in line 1\n", "",
     TMPL_REFUSED, 0, 0},
    {"{{.a.b-c}}\n{{name}}", "", "t:1:1: error: unclosed or unreadable action: unexpected \"-\": write index .a \"b-c\"\n"
     "t:2:1: error: action not understood: no function \"name\": write .name\n", "", TMPL_REFUSED, 0, 0},
};
enum { CHECKED = sizeof checked / sizeof *checked };

/* What a check of a file over a schema says, which is the row's data. */
static const struct row over_schema[] = {
    {"{{len .a}}", "{\"type\":\"object\",\"properties\":{\"a\":{\"type\":\"string\"}},\"required\":[\"a\"]}", "", "", TMPL_OK, 0, 0},
    {"x\n {{.a}}", "{\"type\":\"object\",\"properties\":{\"a\":{\"type\":\"string\"}}}",
     "t:2:2: error: may fail: .a may be absent: no \"required\" at s:1\n"
     "t:2:2: note: fails with --missingkey error for {}: no entry for key \"a\"\n", "", TMPL_REFUSED, 0, 0},
    {"{{name}}", "{", "t:1:1: error: action not understood: no function \"name\": write .name\n", "", TMPL_REFUSED, 0, 0},
};
enum { OVER_SCHEMA = sizeof over_schema / sizeof *over_schema };

struct told {
    int status, is_lent, is_quiet; /* is_quiet: refused memory says no line */
    char out[256], line[128];
    tmpl_buffer text, said;
};

/* Whether the buffers are still those that were lent, as large as they were. */
static int are_lent(const struct told *told, size_t size, size_t line_size) {
    return told->text.bytes == told->out && told->text.size == size && told->said.bytes == told->line && told->said.size == line_size;
}

static tmpl_settings settings_of(const struct row *row) {
    tmpl_settings settings = TMPL_SETTINGS;
    settings.print = (uint8_t)row->print;
    if (row->writes) settings.writes = row->writes, settings.writes_size = strlen(row->writes);
    return settings;
}

static void render(const struct row *row, size_t size, size_t line_size, struct told *told) {
    told->is_quiet = 0;
    const tmpl_settings settings = settings_of(row);
    tmpl_file file = {"t", 1, row->template, strlen(row->template)};
    told->text = (tmpl_buffer){told->out, size, 99, 99};
    told->said = (tmpl_buffer){told->line, line_size, 99, 99};
    told->status = tmpl_render(&settings, &file, 1, "t", 1, row->data, strlen(row->data), &told->text, &told->said);
    told->is_lent = are_lent(told, size, line_size);
}

/* Reads data into what has data, and into what was emptied by a read of no bytes: what was there before is freed. */
static int read_again(const struct row *row, tmpl_data *data, tmpl_buffer *said) {
    static const char *const before[] = {"[\"first\"]", "{\"k\":\"second\"}", "", "[]"};
    for (size_t i = 0; i < sizeof before / sizeof *before; i++) {
        int status = tmpl_data_read(data, before[i], strlen(before[i]), said);
        if (status != TMPL_OK) return status;
    }
    return tmpl_data_read(data, row->data, strlen(row->data), said);
}

/* The same by what is kept: the file is added, the data read after others, and both rendered twice; or what stopped it. All is freed,
   twice. */
static void keep(const struct row *row, size_t size, size_t line_size, struct told *told) {
    const tmpl_settings settings = settings_of(row);
    tmpl_file file = {"t", 1, row->template, strlen(row->template)};
    tmpl_set set = {0};
    tmpl_data data = {0};
    told->is_quiet = 0;
    told->text = (tmpl_buffer){told->out, size, 0, 0};
    told->said = (tmpl_buffer){told->line, line_size, 99, 99};
    told->status = tmpl_set_add(&set, &file, &told->said);
    told->is_lent = are_lent(told, size, line_size);
    if (told->status == TMPL_OK && !row->print) told->status = read_again(row, &data, &told->said);
    told->is_lent &= are_lent(told, size, line_size);
    for (int i = 0; told->status == TMPL_OK && i < 2; i++)
        told->status = tmpl_render_set(&settings, &set, &data, "t", 1, &told->text, &told->said);
    told->is_lent &= are_lent(told, size, line_size);
    for (int i = 0; i < 2; i++) tmpl_set_free(&set), tmpl_data_free(&data);
}

/* The text as if it were lent. */
static void lend(const tmpl_text *text, tmpl_buffer *it) {
    it->taken = text->size < it->size ? text->size : it->size, it->needed = text->size;
    if (it->taken) memcpy(it->bytes, text->bytes, it->taken);
}

/* The same by a second handle of a program and of data, after the first ones and the set are freed, and twice into one text. */
static void keep_text(const struct row *row, size_t size, size_t line_size, struct told *told) {
    const tmpl_settings settings = settings_of(row);
    tmpl_file file = {"t", 1, row->template, strlen(row->template)};
    tmpl_set set = {0};
    tmpl_program program = {0}, copy = {0};
    tmpl_data data = {0}, other = {0};
    tmpl_text text = {0}, line = {0};
    told->text = (tmpl_buffer){told->out, size, 0, 0}, told->said = (tmpl_buffer){told->line, line_size, 0, 0};
    told->is_quiet = 0, told->is_lent = 1;
    told->status = tmpl_set_add(&set, &file, &told->said);
    if (told->status == TMPL_OK && row->print) {
        told->is_quiet = 1, told->status = tmpl_set_print(&set, &text);
        lend(&text, &told->text);
    } else if (told->status == TMPL_OK) {
        told->status = read_again(row, &data, &told->said);
        if (told->status == TMPL_OK) told->is_quiet = 1, told->status = tmpl_program_make(&set, &program);
        for (int i = 0; told->status == TMPL_OK && i < 2; i++) told->status = tmpl_program_share(&program, &copy);
        for (int i = 0; told->status == TMPL_OK && i < 2; i++) told->status = tmpl_data_share(&data, &other);
        int is_there = told->status == TMPL_OK;
        tmpl_set_free(&set), tmpl_program_free(&program), tmpl_data_free(&data);
        for (int i = 0; is_there && told->status != TMPL_MEMORY && i < 2; i++) {
            told->status = tmpl_render_text(&settings, &copy, &other, "t", 1, &text, &line);
            lend(&text, &told->text), lend(&line, &told->said);
        }
    }
    for (int i = 0; i < 2; i++) {
        tmpl_set_free(&set), tmpl_program_free(&program), tmpl_program_free(&copy);
        tmpl_data_free(&data), tmpl_data_free(&other), tmpl_text_free(&text), tmpl_text_free(&line);
        told->is_lent &= !text.size && !line.size;
    }
}

/* .. and into memory that is lent. */
static void keep_program(const struct row *row, size_t size, size_t line_size, struct told *told) {
    const tmpl_settings settings = settings_of(row);
    tmpl_file file = {"t", 1, row->template, strlen(row->template)};
    tmpl_set set = {0};
    tmpl_program program = {0};
    tmpl_data data = {0};
    told->text = (tmpl_buffer){told->out, size, 0, 0}, told->said = (tmpl_buffer){told->line, line_size, 0, 0};
    told->is_quiet = 0;
    told->status = tmpl_set_add(&set, &file, &told->said);
    if (told->status == TMPL_OK && !row->print) told->status = read_again(row, &data, &told->said);
    if (told->status == TMPL_OK) told->is_quiet = 1, told->status = tmpl_program_make(&set, &program);
    if (told->status == TMPL_OK) {
        told->is_quiet = 0;
        told->status = row->print ? tmpl_render_set(&settings, &set, &data, "t", 1, &told->text, &told->said)
                                  : tmpl_render_program(&settings, &program, &data, "t", 1, &told->text, &told->said);
    }
    told->is_lent = are_lent(told, size, line_size);
    tmpl_set_free(&set), tmpl_program_free(&program), tmpl_data_free(&data);
}

static int begins(const tmpl_buffer *it, const char *text) {
    return it->taken <= it->size && it->taken <= strlen(text) && !memcmp(it->bytes, text, it->taken);
}

/* Whether it has all of the text, or as much as fits. */
static int holds(const tmpl_buffer *it, const char *text) {
    size_t size = strlen(text);
    return begins(it, text) && it->taken == (size < it->size ? size : it->size) && it->needed == size;
}

static int is_right(const struct row *row, const struct told *told) {
    int fits = strlen(row->text) <= told->text.size;
    return told->is_lent && told->status == (fits ? row->status : TMPL_FULL) && holds(&told->text, row->text)
        && holds(&told->said, fits ? row->line : "tmpl: write failed\n");
}

/* Memory was refused: a beginning of the text, and the line of that. */
static int is_refused(const struct row *row, const struct told *told) {
    return told->is_lent && told->status == TMPL_MEMORY && begins(&told->text, row->text)
        && holds(&told->said, told->is_quiet ? "" : "tmpl: out of memory\n");
}

/* What a check says of the files, whose second is accepted. */
static void check(const struct row *row, size_t size, size_t line_size, struct told *told) {
    tmpl_file files[] = {{"t", 1, row->template, strlen(row->template)}, {"u", 1, "{{.}}", 5}};
    tmpl_text text = {0};
    told->text = (tmpl_buffer){told->out, size, 0, 0}, told->said = (tmpl_buffer){told->line, line_size, 0, 0};
    told->is_quiet = 1, told->is_lent = 1;
    told->status = tmpl_check(files, 2, 0, &text);
    lend(&text, &told->text);
    for (int i = 0; i < 2; i++) tmpl_text_free(&text), told->is_lent &= !text.size;
}

/* What a check over a schema says. */
static void check_schema(const struct row *row, size_t size, size_t line_size, struct told *told) {
    tmpl_file file = {"t", 1, row->template, strlen(row->template)};
    tmpl_name stop = {"stop", 4};
    tmpl_question question = {{"s", 1, row->data, strlen(row->data)}, "", 0, &stop, 1, 0, 0};
    tmpl_text text = {0};
    told->text = (tmpl_buffer){told->out, size, 0, 0}, told->said = (tmpl_buffer){told->line, line_size, 0, 0};
    told->is_quiet = 1, told->is_lent = 1;
    told->status = tmpl_check_schema(&file, 1, &question, &text);
    lend(&text, &told->text);
    for (int i = 0; i < 2; i++) tmpl_text_free(&text), told->is_lent &= !text.size;
}

typedef void way(const struct row *row, size_t size, size_t line_size, struct told *told);

/* Refuses each allocation of a render in turn; tells how many were refused. */
static long refuse_each(way *render, const struct row *row, size_t size, size_t line_size) {
    struct told told;
    for (long number = 0;; number++) {
        asked = 0, refused = number, live = 0;
        render(row, size, line_size, &told);
        long stayed = live;
        refused = -1;
        if (asked <= number) {
            judge(is_right(row, &told) && !stayed, row->template, -1);
            return number;
        }
        judge((is_right(row, &told) || is_refused(row, &told)) && !stayed, row->template, number);
    }
}

static void *render_often(void *number) {
    long wrong = 0;
    for (int i = 0; i < 20000; i++) {
        const struct row *row = rows + (i + *(int *)number) % ROWS;
        struct told told;
        render(row, sizeof told.out, sizeof told.line, &told);
        wrong += !is_right(row, &told);
    }
    return (void *)wrong;
}

enum { THREADS = 8, RENDERS = 25000, FEW = 50 }; /* renders of each thread, also of none for the first time */

/* What a thread has: handles of its own, of one program. */
struct server {
    pthread_t thread;
    tmpl_program program;
    int number, renders;
    long wrong, stayed;
};

/* Renders data of its own, which it reads anew for each tenth render. */
static void *serve(void *what) {
    struct server *it = what;
    tmpl_settings settings = {0};
    tmpl_data data = {0}, shared = {0};
    tmpl_text text = {0}, line = {0};
    char json[64], wanted[64], said[64];
    tmpl_buffer err = {said, sizeof said, 0, 0};
    for (int i = 0; i < it->renders; i++) {
        if (i % 10 == 0) {
            int size = snprintf(json, sizeof json, "{\"n\":%d,\"l\":[%d,\"x\"]}", it->number, i);
            it->wrong += tmpl_data_read(&data, json, (size_t)size, &err) != TMPL_OK || tmpl_data_share(&data, &shared) != TMPL_OK;
            snprintf(wanted, sizeof wanted, "%d: %d x \"%d\"", it->number, i, it->number);
        }
        int status = tmpl_render_text(&settings, &it->program, i % 2 ? &data : &shared, "t", 1, &text, &line);
        it->wrong += status != TMPL_OK || line.size || text.size != strlen(wanted) || memcmp(text.bytes, wanted, text.size);
    }
    tmpl_program_free(&it->program), tmpl_data_free(&data), tmpl_data_free(&shared), tmpl_text_free(&text), tmpl_text_free(&line);
    it->stayed = live; /* the data that it shares is its own */
    return NULL;
}

/* Renders by threads at the same time over one program; nothing stays. */
static void serve_all(int renders) {
    static struct server servers[THREADS];
    static const char template[] = "{{.n}}: {{range .l}}{{.}} {{end}}{{printf \"%q\" (printf \"%d\" .n)}}";
    tmpl_file file = {"t", 1, template, sizeof template - 1};
    tmpl_set set = {0};
    tmpl_program program = {0};
    char said[64];
    tmpl_buffer err = {said, sizeof said, 0, 0};
    long before = all_live;
    judge(tmpl_set_add(&set, &file, &err) == TMPL_OK && tmpl_program_make(&set, &program) == TMPL_OK, "a program", 0);
    tmpl_set_free(&set);
    for (int i = 0; i < THREADS; i++) {
        servers[i] = (struct server){.number = i, .renders = renders};
        judge(tmpl_program_share(&program, &servers[i].program) == TMPL_OK, "a program that is shared", i);
    }
    tmpl_program_free(&program);
    for (int i = 0; i < THREADS; i++) judge(!pthread_create(&servers[i].thread, NULL, serve, servers + i), "a thread", i);
    for (int i = 0; i < THREADS; i++) {
        pthread_join(servers[i].thread, NULL);
        judge(!servers[i].wrong, "renders of a thread over a program", servers[i].wrong);
    }
    judge(all_live == before, "blocks that stay", all_live - before);
}

/* The kilobytes that the process has. */
static long resident(void) {
    long pages = 0;
    FILE *it = fopen("/proc/self/statm", "r");
    if (it && fscanf(it, "%*s %ld", &pages) != 1) pages = 0;
    if (it) fclose(it);
    return pages * 4;
}

/* Renders often in one thread: neither blocks nor memory become more. */
static void render_flat(int renders) {
    tmpl_settings settings = {0};
    static const char template[] = "{{range .}}{{printf \"%05d \" .}}{{end}}";
    tmpl_file file = {"t", 1, template, sizeof template - 1};
    tmpl_set set = {0};
    tmpl_program program = {0};
    tmpl_data data = {0};
    tmpl_text text = {0}, line = {0};
    char said[64];
    tmpl_buffer err = {said, sizeof said, 0, 0};
    judge(tmpl_set_add(&set, &file, &err) == TMPL_OK && tmpl_program_make(&set, &program) == TMPL_OK, "a program", 1);
    long blocks = 0, memory = 0, wrong = 0;
    for (int i = 0; i < renders; i++) {
        if (i == renders / 10) blocks = live, memory = resident();
        wrong += tmpl_data_read(&data, "[1,22,333]", 10, &err) != TMPL_OK;
        wrong += tmpl_render_text(&settings, &program, &data, "t", 1, &text, &line) != TMPL_OK;
        wrong += text.size != 18 || memcmp(text.bytes, "00001 00022 00333 ", 18);
    }
    judge(!wrong, "renders in one thread", wrong);
    judge(live == blocks, "blocks become more", live - blocks);
    judge(resident() - memory < 512, "kilobytes become more", resident() - memory);
    tmpl_set_free(&set), tmpl_program_free(&program), tmpl_data_free(&data), tmpl_text_free(&text), tmpl_text_free(&line);
}

/* A thread's limit refuses what goes past it, in that thread alone, and counts anew from each call that sets it. */
static void *render_large(void *status) {
    static const char template[] = "{{range 10000}}0123456789{{end}}";
    tmpl_file file = {"t", 1, template, sizeof template - 1};
    tmpl_set set = {0};
    tmpl_program program = {0};
    tmpl_data data = {0};
    tmpl_text text = {0}, line = {0};
    char said[64];
    tmpl_buffer err = {said, sizeof said, 0, 0};
    *(int *)status = tmpl_set_add(&set, &file, &err);
    if (!*(int *)status) *(int *)status = tmpl_program_make(&set, &program);
    if (!*(int *)status) *(int *)status = tmpl_render_text(&(tmpl_settings){0}, &program, &data, "t", 1, &text, &line);
    tmpl_set_free(&set), tmpl_program_free(&program), tmpl_data_free(&data), tmpl_text_free(&text), tmpl_text_free(&line);
    return NULL;
}

static void limit_memory(void) {
    static const size_t few[] = {1, 64, 1024, 16384, 65536};
    int status;
    for (size_t i = 0; i < sizeof few / sizeof *few; i++) {
        tmpl_limit_memory(few[i]);
        render_large(&status);
        judge(status == TMPL_MEMORY, "a render with little memory", (long)few[i]);
    }
    pthread_t thread;
    judge(!pthread_create(&thread, NULL, render_large, &status) && !pthread_join(thread, NULL), "a thread", 0);
    judge(status == TMPL_OK, "a render of another thread", status);
    for (int i = 0; i < 20; i++) {
        tmpl_limit_memory(1 << 20);
        render_large(&status);
        judge(status == TMPL_OK, "a render with enough memory", i);
    }
    for (int i = 0; i < 20; i++) render_large(&status);
    judge(status == TMPL_OK, "renders that give back what they take", status);
    tmpl_limit_memory(0);
    render_large(&status);
    judge(status == TMPL_OK, "a render without a limit", status);
}

enum { OLDER = 10 };

/* How many of these data can be read under a limit, each in the place of what it has. */
static int read_under(size_t limit, tmpl_data *data, const char *json, size_t size) {
    char said[64];
    tmpl_buffer err = {said, sizeof said, 0, 0};
    int count = 0;
    tmpl_limit_memory(limit);
    while (count < OLDER && tmpl_data_read(data + count, json, size, &err) == TMPL_OK) count++;
    tmpl_limit_memory(0);
    return count;
}

/* What is given back of memory that was taken before the limit was set makes no room under it. */
static void give_back_older(void) {
    static char json[20001];
    tmpl_data older[OLDER] = {0}, none[OLDER] = {0};
    memset(json, ' ', sizeof json);
    for (size_t i = 1; i < sizeof json; i += 2) json[i] = '1', json[i + 1] = ',';
    json[0] = '[', json[sizeof json - 1] = ']';
    judge(read_under(0, older, json, sizeof json) == OLDER, "data without a limit", 0);
    size_t limit = 1 << 10;
    while (read_under(limit, none, json, sizeof json) < 3) limit += limit / 4;
    for (int i = 0; i < OLDER; i++) tmpl_data_free(none + i);
    const int fresh = read_under(limit, none, json, sizeof json), again = read_under(limit, older, json, sizeof json);
    judge(fresh >= 3 && fresh < OLDER, "data read under a limit", fresh);
    judge(again == fresh, "data read under a limit in the place of older data", again);
    for (int i = 0; i < OLDER; i++) tmpl_data_free(older + i), tmpl_data_free(none + i);
}

/* Settings of a caller that was compiled with fewer, of one that has more, and of one that leaves out their size. */
static void render_by_size(void) {
    struct {
        tmpl_settings known;
        char more[16];
    } settings = {.known = {.output = 1, .writes = "json", .writes_size = 4}, .more = "what comes later"};
    const struct {
        size_t size;
        int status;
    } sizes[] = {{offsetof(tmpl_settings, output), TMPL_OK}, {offsetof(tmpl_settings, writes), TMPL_FULL}, {sizeof(tmpl_settings), TMPL_FULL},
                 {sizeof settings, TMPL_FULL}, {0, TMPL_FULL}};
    for (size_t i = 0; i < sizeof sizes / sizeof *sizes; i++) {
        char text[8], line[128];
        tmpl_buffer out = {text, sizeof text, 0, 0}, err = {line, sizeof line, 0, 0};
        const tmpl_file file = {"t", 1, "ab", 2};
        settings.known.size = sizes[i].size;
        const int status = tmpl_render(&settings.known, &file, 1, "t", 1, "", 0, &out, &err);
        judge(status == sizes[i].status, "settings of a size", (long)sizes[i].size);
        const char *wanted = status == TMPL_OK ? "" : "tmpl: more than 1 bytes of output\n";
        judge(holds(&err, wanted), "the line of settings of a size", (long)sizes[i].size);
        judge(holds(&out, status == TMPL_OK ? "ab" : sizes[i].size == offsetof(tmpl_settings, writes) ? "a" : ""), "their text", (long)sizes[i].size);
    }
}

int main(int argc, char **argv) {
    (void)argv;
    render_by_size();
    long refusals = 0;
    struct told told;
    for (int i = 0; i < ROWS; i++) {
        render(rows + i, sizeof told.out, sizeof told.line, &told);
        judge(is_right(rows + i, &told), rows[i].template, -2);
    }
    for (int i = 0; i < ROWS && argc == 1; i++) {
        refusals += refuse_each(render, rows + i, sizeof told.out, sizeof told.line);
        refusals += refuse_each(render, rows + i, 3, 5);
        refusals += refuse_each(render, rows + i, 0, 0);
        refusals += refuse_each(keep, rows + i, sizeof told.out, sizeof told.line);
        refusals += refuse_each(keep_text, rows + i, sizeof told.out, sizeof told.line);
        refusals += refuse_each(keep_program, rows + i, sizeof told.out, sizeof told.line);
        refusals += refuse_each(keep_program, rows + i, 3, 5);
    }
    for (int i = 0; i < CHECKED; i++) {
        check(checked + i, sizeof told.out, sizeof told.line, &told);
        judge(is_right(checked + i, &told), checked[i].template, -3);
        if (argc == 1) refusals += refuse_each(check, checked + i, sizeof told.out, sizeof told.line);
    }
    for (int i = 0; i < OVER_SCHEMA; i++) {
        check_schema(over_schema + i, sizeof told.out, sizeof told.line, &told);
        judge(is_right(over_schema + i, &told), over_schema[i].template, -4);
        if (argc == 1) refusals += refuse_each(check_schema, over_schema + i, sizeof told.out, sizeof told.line);
    }
    live = 0;
    limit_memory();
    give_back_older();
    judge(live == 0, "blocks that stay of limited calls", live);
    for (int i = 0; i < (argc == 1 ? 1000 : 10) * ROWS; i++) {
        keep(rows + i % ROWS, sizeof told.out, sizeof told.line, &told);
        judge(is_right(rows + i % ROWS, &told) && live == 0, "made and freed", i);
        keep_text(rows + i % ROWS, sizeof told.out, sizeof told.line, &told);
        judge(is_right(rows + i % ROWS, &told) && live == 0, "made, shared and freed", i);
    }
    judge(argc > 1 || refusals > 100, "too few allocations were refused", refusals);
    pthread_t threads[2];
    int numbers[2] = {0, 3};
    for (int i = 0; i < 2 && argc == 1; i++) judge(!pthread_create(threads + i, NULL, render_often, numbers + i), "a thread", i);
    for (int i = 0; i < 2 && argc == 1; i++) {
        void *wrong;
        pthread_join(threads[i], &wrong);
        judge(!wrong, "renders of a thread", (long)wrong);
    }
    serve_all(argc == 1 ? RENDERS : FEW);
    render_flat(argc == 1 ? 4 * RENDERS : FEW);
    printf("%ld allocations refused\n%ld cases, %ld failed\n", refusals, cases, failures);
    return failures != 0;
}
