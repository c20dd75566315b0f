/* servers THREADS COUNT: renders as often in each of as many threads at the same time, by handles of one program, each with data of its own,
   and tells how many texts were not those of its data. */
#include "tmpl.h"
#include <pthread.h>
#include <stdio.h>
#include <stdlib.h>
#include <string.h>

struct server {
    _Alignas(128) pthread_t thread;
    tmpl_program program;
    int number, count, wrong;
};

/* Renders for a user of its own each time, and reads the data each time. */
static void *serve(void *it) {
    struct server *own = it;
    tmpl_settings settings = {0};
    tmpl_data user = {0};
    tmpl_text text = {0}, line = {0};
    char json[64], wanted[64], message[256];
    for (int i = 0; i < own->count; i++) {
        tmpl_buffer err = {message, sizeof message, 0, 0};
        int size = snprintf(json, sizeof json, "{\"user\": \"%d of %d\"}", i, own->number);
        int length = snprintf(wanted, sizeof wanted, "Hello, %d of %d!\n", i, own->number);
        int is_well = !tmpl_data_read(&user, json, (size_t)size, &err) && !tmpl_render_text(&settings, &own->program, &user, "m", 1, &text, &line);
        own->wrong += !is_well || text.size != (size_t)length || memcmp(text.bytes, wanted, text.size);
    }
    tmpl_data_free(&user), tmpl_text_free(&text), tmpl_text_free(&line);
    return NULL;
}

int main(int argc, char **argv) {
    enum { MOST = 64 };
    static struct server servers[MOST];
    static const char TEXT[] = "Hello, {{.user}}!\n";
    int threads = argc == 3 ? atoi(argv[1]) : 0, wrong = 0;
    if (threads < 1 || threads > MOST) return 2;
    char message[256];
    tmpl_buffer err = {message, sizeof message, 0, 0};
    tmpl_file file = {"m", 1, TEXT, sizeof TEXT - 1};
    tmpl_set set = {0};
    tmpl_program program = {0};
    if (tmpl_set_add(&set, &file, &err) || tmpl_program_make(&set, &program)) return 1;
    for (int i = 0; i < threads; i++) {
        servers[i].number = i, servers[i].count = atoi(argv[2]);
        if (tmpl_program_share(&program, &servers[i].program)) return 1;
    }
    for (int i = 0; i < threads; i++)
        if (pthread_create(&servers[i].thread, NULL, serve, servers + i)) return 1;
    for (int i = 0; i < threads; i++) {
        pthread_join(servers[i].thread, NULL);
        wrong += servers[i].wrong;
        tmpl_program_free(&servers[i].program);
    }
    tmpl_program_free(&program), tmpl_set_free(&set);
    printf("%d\n", wrong);
    return 0;
}
