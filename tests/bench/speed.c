/* speed TEMPLATE DATA COUNT: renders as often by the library, and tells the least and the middle time of one render in nanoseconds, with
   the parse of the template and the read of the data each time. `speed TEMPLATE DATA COUNT kept` parses and reads once, and
   `.. kept DEPTH` lets this many calls be inside one another. `.. kept DEPTH THREADS` renders as often in each of as many threads at the
   same time, by handles of one program and of the same data, and tells the time until all are done over the renders of one. With `own`
   after it each thread has a program and data that it shares with no other. */
#include "tmpl.h"
#include <pthread.h>
#include <stdio.h>
#include <stdlib.h>
#include <time.h>

static double now(void) {
    struct timespec it;
    clock_gettime(CLOCK_MONOTONIC, &it);
    return it.tv_sec * 1e9 + it.tv_nsec;
}

static char *content(const char *path, size_t *size) {
    FILE *file = fopen(path, "rb");
    if (file == NULL || fseek(file, 0, SEEK_END)) exit(2);
    *size = (size_t)ftell(file);
    rewind(file);
    char *bytes = malloc(*size + 1);
    if (bytes == NULL || fread(bytes, 1, *size, file) != *size) exit(2);
    fclose(file);
    return bytes;
}

static int less(const void *a, const void *b) { return (*(const double *)a > *(const double *)b) - (*(const double *)a < *(const double *)b); }

/* What a thread has, in memory of its own: a call writes to each handle. */
struct worker {
    _Alignas(128) pthread_t thread;
    tmpl_program program;
    tmpl_data data;
    tmpl_text text, line;
    int count, status;
};

static void *work(void *it) {
    struct worker *own = it;
    tmpl_settings settings = {0};
    for (int k = 0; k < own->count && !own->status; k++)
        own->status = tmpl_render_text(&settings, &own->program, &own->data, "m", 1, &own->text, &own->line);
    return NULL;
}

/* Renders in threads at the same time; tells how many bytes a text has, or 0 where a render did not end well. */
static size_t work_all(struct worker *workers, int threads, int count) {
    size_t size = 0;
    for (int i = 0; i < threads; i++) {
        workers[i].count = count;
        if (pthread_create(&workers[i].thread, NULL, work, workers + i)) exit(2);
    }
    for (int i = 0; i < threads; i++) {
        pthread_join(workers[i].thread, NULL);
        if (workers[i].status) return 0;
        size = workers[i].text.size;
    }
    return size;
}

enum { MOST_THREADS = 64 };
static struct worker workers[MOST_THREADS];

int main(int argc, char **argv) {
    if (argc < 4 || argc > 8) return 2;
    int threads = argc >= 7 ? atoi(argv[6]) : 0, owns = argc == 8;
    if (threads < 0 || threads > MOST_THREADS) return 2;
    enum { ROOM = 1 << 24, TIMES = 31 };
    size_t size, data_size;
    char *text = content(argv[1], &size), *data = content(argv[2], &data_size), *memory = malloc(ROOM), line[256];
    int count = atoi(argv[3]);
    double times[TIMES];
    tmpl_settings settings = {.depth = argc >= 6 ? (uint32_t)atoi(argv[5]) : 0};
    tmpl_file file = {"m", 1, text, size};
    tmpl_buffer out = {memory, ROOM, 0, 0}, err = {line, sizeof line, 0, 0};
    tmpl_set set = {0};
    tmpl_data kept = {0};
    tmpl_program program = {0};
    if (argc > 4 && (tmpl_set_add(&set, &file, &err) || tmpl_data_read(&kept, data, data_size, &err) || tmpl_program_make(&set, &program))) return 1;
    for (int i = 0; i < threads; i++) {
        struct worker *own = workers + i;
        if (owns ? tmpl_program_make(&set, &own->program) || tmpl_data_read(&own->data, data, data_size, &err)
                 : tmpl_program_share(&program, &own->program) || tmpl_data_share(&kept, &own->data)) return 1;
    }
    for (int i = 0; i < TIMES; i++) {
        double start = now();
        if (threads && !(out.taken = work_all(workers, threads, count))) return 1;
        for (int k = 0; k < count && !threads; k++) {
            if (argc > 4 ? tmpl_render_set(&settings, &set, &kept, "m", 1, &out, &err)
                          : tmpl_render(&settings, &file, 1, "m", 1, data, data_size, &out, &err)) return 1;
        }
        times[i] = (now() - start) / count;
    }
    qsort(times, TIMES, sizeof *times, less);
    tmpl_set_free(&set), tmpl_data_free(&kept), tmpl_program_free(&program);
    printf("%.0f %.0f %zu\n", times[0], times[TIMES / 2], out.taken);
    return 0;
}
