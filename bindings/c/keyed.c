/* The calls that hash names for the first time or take settings: each is the proved one, with keys and with all settings. No proof
   covers this. */
#include "keys.h"
#include "tmpl.h"

uint8_t inner_render_set(const tmpl_settings *settings, tmpl_set *set, tmpl_data *data, const char *name, size_t name_size, tmpl_buffer *out,
                         tmpl_buffer *err);
uint8_t inner_render_program(const tmpl_settings *settings, tmpl_program *program, tmpl_data *data, const char *name, size_t name_size,
                             tmpl_buffer *out, tmpl_buffer *err);
uint8_t inner_render_text(const tmpl_settings *settings, tmpl_program *program, tmpl_data *data, const char *name, size_t name_size,
                          tmpl_text *text, tmpl_text *line);
uint8_t keyed_render(const struct keys *keys, const tmpl_settings *settings, const tmpl_file *files, size_t file_count, const char *name,
                     size_t name_size, const char *data, size_t data_size, tmpl_buffer *out, tmpl_buffer *err);
uint8_t keyed_check(const struct keys *keys, const tmpl_file *files, size_t file_count, size_t most, tmpl_text *text);
uint8_t keyed_check_schema(const struct keys *keys, const tmpl_file *files, size_t file_count, const tmpl_question *question, tmpl_text *text);
uint8_t keyed_set_add(const struct keys *keys, tmpl_set *set, const tmpl_file *file, tmpl_buffer *err);

/* The settings as they were when they first had a size: what a caller has that leaves it out. */
enum { FIRST_SIZE = offsetof(tmpl_settings, writes) + sizeof(char *) + sizeof(size_t) };

/* All settings: those that the caller has, which may be compiled with fewer of them, and the defaults of the others. */
static tmpl_settings all_of(const tmpl_settings *given) {
    tmpl_settings all = {0};
    size_t size = given->size == 0 ? FIRST_SIZE : given->size;
    const char *from = (const char *)given;
    char *to = (char *)&all;
    for (size_t at = 0; at < size && at < sizeof all; at++) to[at] = from[at];
    if (all.writes_size == 0) all.writes = "";
    return all;
}

uint8_t tmpl_render(const tmpl_settings *settings, const tmpl_file *files, size_t file_count, const char *name, size_t name_size,
                    const char *data, size_t data_size, tmpl_buffer *out, tmpl_buffer *err) {
    tmpl_settings all = all_of(settings);
    return keyed_render(drawn_keys(), &all, files, file_count, name, name_size, data, data_size, out, err);
}

uint8_t tmpl_check(const tmpl_file *files, size_t file_count, size_t most, tmpl_text *text) {
    return keyed_check(drawn_keys(), files, file_count, most, text);
}

uint8_t tmpl_check_schema(const tmpl_file *files, size_t file_count, const tmpl_question *question, tmpl_text *text) {
    return keyed_check_schema(drawn_keys(), files, file_count, question, text);
}

uint8_t tmpl_set_add(tmpl_set *set, const tmpl_file *file, tmpl_buffer *err) {
    return keyed_set_add(drawn_keys(), set, file, err);
}

uint8_t tmpl_render_set(const tmpl_settings *settings, tmpl_set *set, tmpl_data *data, const char *name, size_t name_size,
                        tmpl_buffer *out, tmpl_buffer *err) {
    tmpl_settings all = all_of(settings);
    return inner_render_set(&all, set, data, name, name_size, out, err);
}

uint8_t tmpl_render_program(const tmpl_settings *settings, tmpl_program *program, tmpl_data *data, const char *name, size_t name_size,
                            tmpl_buffer *out, tmpl_buffer *err) {
    tmpl_settings all = all_of(settings);
    return inner_render_program(&all, program, data, name, name_size, out, err);
}

uint8_t tmpl_render_text(const tmpl_settings *settings, tmpl_program *program, tmpl_data *data, const char *name, size_t name_size,
                         tmpl_text *text, tmpl_text *line) {
    tmpl_settings all = all_of(settings);
    return inner_render_text(&all, program, data, name, name_size, text, line);
}
