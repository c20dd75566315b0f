/* asked CALLS ..: makes each call of these files, which asked.py wrote, by the library that it is linked with, and compares what comes. */
#include "tmpl.h"
#include <stdio.h>
#include <stdlib.h>
#include <string.h>

enum { SHOWN = 10 }; /* failures that are told */

typedef struct {
    const char *bytes;
    size_t size;
} text;

static const unsigned char *at, *end;

static uint64_t number(int bytes) {
    uint64_t it = 0;
    for (int i = bytes; i-- > 0;) it = it << 8 | at[i];
    at += bytes;
    return it;
}

static text sized(void) {
    size_t size = (size_t)number(4);
    text it = {(const char *)at, size};
    at += size;
    return it;
}

/* Memory for this many bytes, and one more, so that what is put out too much is seen. */
static tmpl_buffer room(size_t size) { return (tmpl_buffer){calloc(size + 1, 1), size + 1, 0, 0}; }

static int is_same(const tmpl_buffer *it, text wanted) {
    return it->taken == wanted.size && it->needed == wanted.size && memcmp(it->bytes, wanted.bytes, wanted.size) == 0;
}

/* Makes the next call. */
static int is_as_wanted(void) {
    tmpl_settings settings = {0};
    settings.steps = number(8);
    settings.depth = (uint32_t)number(4);
    settings.missing_key = (uint8_t)number(1);
    settings.print = (uint8_t)number(1);
    at += 2;
    size_t count = (size_t)number(4);
    tmpl_file *files = calloc(count + 1, sizeof *files);
    for (size_t i = 0; i < count; i++) {
        text name = sized(), what = sized();
        files[i] = (tmpl_file){name.bytes, name.size, what.bytes, what.size};
    }
    text name = sized(), data = sized();
    uint8_t status = (uint8_t)number(4);
    text wanted = sized(), line = sized();
    tmpl_buffer out = room(wanted.size), err = room(line.size);
    uint8_t got = tmpl_render(&settings, files, count, name.bytes, name.size, data.bytes, data.size, &out, &err);
    int is_right = got == status && is_same(&out, wanted) && is_same(&err, line);
    free(files), free(out.bytes), free(err.bytes);
    return is_right;
}

static void read_all(const char *path) {
    FILE *file = fopen(path, "rb");
    if (file == NULL || fseek(file, 0, SEEK_END)) exit(2);
    size_t size = (size_t)ftell(file);
    rewind(file);
    unsigned char *bytes = malloc(size + 1);
    if (bytes == NULL || fread(bytes, 1, size, file) != size) exit(2);
    fclose(file);
    at = bytes, end = bytes + size;
}

int main(int argc, char **argv) {
    long passed = 0, failed = 0;
    for (int i = 1; i < argc; i++) {
        read_all(argv[i]);
        for (long call = 0; at < end; call++) {
            int is_right = is_as_wanted();
            passed += is_right, failed += !is_right;
            if (!is_right && failed <= SHOWN) printf("%s: call %ld is not as wanted\n", argv[i], call);
        }
    }
    printf("%ld passed, %ld failed\n", passed, failed);
    return failed || !passed;
}
