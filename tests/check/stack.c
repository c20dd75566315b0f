/* How much stack the calls of the library take with the deepest inputs. `stack KB` makes each call in a thread whose stack has so many
   kilobytes, of which each byte is marked before, and puts out a line for each: what it was, its status, FAILED where that is not the one
   that the rules give, and how many kilobytes it wrote to.
   A call that needs more ends the program. */
#include "tmpl.h"
#include <pthread.h>
#include <stdio.h>
#include <stdlib.h>
#include <string.h>
#include <sys/mman.h>

enum { LEVELS = 500, PARENTHESES = 100, DEEP = 127, DEPTH = 100000, MARK = 0xa5, PAGE = 4096 };

/* A file, data and what a render of them gives. */
struct input {
    const char *name;
    char *file, *data;
    int status; /* of the render */
};

static char *repeated(const char *before, const char *inner, const char *after, int count) {
    size_t sizes[] = {strlen(before), strlen(inner), strlen(after)};
    char *text = malloc(sizes[0] * (size_t)count + sizes[1] + sizes[2] * (size_t)count + 1), *to = text;
    for (int i = 0; i < count; i++) memcpy(to, before, sizes[0]), to += sizes[0];
    memcpy(to, inner, sizes[1]), to += sizes[1];
    for (int i = 0; i < count; i++) memcpy(to, after, sizes[2]), to += sizes[2];
    *to = 0;
    return text;
}

static tmpl_set set;
static tmpl_program program;
static tmpl_data data;
static tmpl_text text, line;
static char said[256];
static tmpl_buffer err = {said, sizeof said, 0, 0};

static int add(const struct input *it) { return tmpl_set_add(&set, &(tmpl_file){"t", 1, it->file, strlen(it->file)}, &err); }
static int print(const struct input *it) { return (void)it, tmpl_set_print(&set, &text); }
static int make(const struct input *it) { return (void)it, tmpl_program_make(&set, &program); }
static int read_data(const struct input *it) { return tmpl_data_read(&data, it->data, strlen(it->data), &err); }
static int check(const struct input *it) { return tmpl_check(&(tmpl_file){"t", 1, it->file, strlen(it->file)}, 1, 0, &text); }
/* An alarm is as good an answer as none, and so is a file that is refused. */
static int check_schema(const struct input *it) {
    const tmpl_question question = {{"s", 1, "{}", 2}, "", 0, &(tmpl_name){"x", 1}, 1, 0, 0};
    int status = tmpl_check_schema(&(tmpl_file){"t", 1, it->file, strlen(it->file)}, 1, &question, &text);
    return status == TMPL_REFUSED ? TMPL_OK : status;
}
static int render(const struct input *it) {
    return (void)it, tmpl_render_text(&(tmpl_settings){.depth = DEPTH}, &program, &data, "t", 1, &text, &line);
}
static int render_all(const struct input *it) {
    static char out[1 << 20];
    tmpl_buffer to = {out, sizeof out, 0, 0};
    tmpl_file file = {"t", 1, it->file, strlen(it->file)};
    return tmpl_render(&(tmpl_settings){.depth = DEPTH}, &file, 1, "t", 1, it->data, strlen(it->data), &to, &err);
}
static int free_all(const struct input *it) {
    tmpl_set_free(&set), tmpl_program_free(&program), tmpl_data_free(&data), tmpl_text_free(&text), tmpl_text_free(&line);
    return (void)it, TMPL_OK;
}

/* Each call, and which statuses of the whole it answers itself: where a file is refused the set stays empty, and where data is refused there
   is none, so what is printed, made and freed is well, and a render then has no template or no data. */
static const struct {
    const char *name;
    int (*call)(const struct input *it);
    unsigned answers;
} calls[] = {
    {"check", check, 1u << TMPL_REFUSED}, {"check over a schema", check_schema, 0}, {"add", add, 1u << TMPL_REFUSED}, {"print", print, 0}, {"make", make, 0}, {"read", read_data, 1u << TMPL_DATA},
    {"render", render, 1u << TMPL_REFUSED | 1u << TMPL_FAULT}, {"all", render_all, ~0u}, {"free", free_all, 0},
};
enum { CALLS = sizeof calls / sizeof *calls };

struct job {
    int (*call)(const struct input *it);
    const struct input *input;
    int status;
};

static void *run(void *it) {
    struct job *job = it;
    job->status = job->call(job->input);
    return NULL;
}

/* Makes a call in a thread with this stack; tells the bytes of it that were written to. */
static size_t used_by(struct job *job, unsigned char *stack, size_t size) {
    pthread_t thread;
    pthread_attr_t how;
    memset(stack, MARK, size);
    if (pthread_attr_init(&how) || pthread_attr_setstack(&how, stack, size) || pthread_create(&thread, &how, run, job)) exit(2);
    pthread_join(thread, NULL);
    size_t left = 0;
    while (left < size && stack[left] == MARK) left++;
    return size - left;
}

int main(int argc, char **argv) {
    if (argc != 2) return 2;
    size_t size = (size_t)atol(argv[1]) * 1024;
    char *parentheses = repeated("(", "1", ")", PARENTHESES), *action = malloc(strlen(parentheses) + 5);
    sprintf(action, "{{%s}}", parentheses);
    const struct input inputs[] = {
        {"if", repeated("{{if .}}", action, "{{end}}", LEVELS), "1", TMPL_OK},
        {"with", repeated("{{with $x := .}}", action, "{{end}}", LEVELS), "1", TMPL_OK},
        {"range", repeated("{{range 1}}", action, "{{end}}", LEVELS), "1", TMPL_OK},
        {"else if", repeated("{{if 0}}{{else if 0}}{{else}}", action, "{{end}}", LEVELS / 2), "1", TMPL_OK},
        {"block", repeated("{{block \"b\" .}}", action, "{{end}}", 1), "1", TMPL_OK},
        {"left open", repeated("{{if .}}", action, "", LEVELS), "1", TMPL_REFUSED},
        {"one level too many", repeated("{{if .}}", action, "{{end}}", LEVELS + 1), "1", TMPL_REFUSED},
        {"lists", "{{.}}{{html .}}{{printf \"%v\" .}}{{len .}}", repeated("[", "1", "]", DEEP), TMPL_OK},
        {"maps", "{{.}}{{html .}}{{print . .}}{{range $k, $v := .}}{{$v}}{{end}}", repeated("{\"a\":", "1", "}", DEEP), TMPL_OK},
        {"a list too deep", "{{.}}", repeated("[", "1", "]", DEEP + 1), TMPL_DATA},
        {"calls", "{{define \"r\"}}{{if .}}{{template \"r\" .}}{{end}}{{end}}{{template \"r\" .}}", "1", TMPL_FAULT},
    };
    unsigned char *memory = mmap(NULL, PAGE + size, PROT_READ | PROT_WRITE, MAP_PRIVATE | MAP_ANONYMOUS, -1, 0);
    if (memory == MAP_FAILED || mprotect(memory, PAGE, PROT_NONE)) return 2;
    for (size_t i = 0; i < sizeof inputs / sizeof *inputs; i++)
        for (int number = 0; number < CALLS; number++) {
            struct job job = {calls[number].call, inputs + i, -1};
            size_t used = used_by(&job, memory + PAGE, size);
            int wanted = calls[number].answers >> inputs[i].status & 1 ? inputs[i].status : TMPL_OK;
            printf("%s of %s: %d%s, %zu kB\n", calls[number].name, inputs[i].name, job.status, job.status != wanted ? " FAILED" : "", used / 1024);
            fflush(stdout);
        }
    return 0;
}
