/* tmpl: templates of the language of Go's text/template over data in JSON, as a library.
 *
 * For one render: tmpl_render. It does everything in one call, and keeps nothing from one call to the next.
 *
 * For many, as in a server, parse the templates once and read each data once:
 *
 *     tmpl_set_add        the templates of each file, into a tmpl_set
 *     tmpl_program_make   the tmpl_program of the set, once all files are added
 *     tmpl_program_share  the same program once more for each thread, before the threads start, or under a lock
 *     tmpl_data_read      data, in the thread that renders them
 *     tmpl_render_text    the text, in memory of the library's own, which the next call uses again
 *
 * To report every error in template files, where it is, and what to write instead: tmpl_check. To report where a template may fail over
 * data of a JSON Schema, with counterexamples: tmpl_check_schema.
 *
 * What may be done from which thread:
 *
 * - tmpl_render, tmpl_version and tmpl_limit_memory from any number of threads at the same time.
 * - A tmpl_set, tmpl_program, tmpl_data or tmpl_text, a *handle*, is given to one call at a time, of whatever thread, also where
 *   the call changes nothing that one could see. Nothing else reads or writes the struct during the call.
 * - Calls on different handles run at the same time, also where these share a program or data: so a thread has handles of
 *   its own, and waits for no other. tmpl_program_share and tmpl_data_share make one, and copy neither templates nor data.
 *   A call writes to each handle that it is given, so keep those of a thread in memory of its own.
 * - A handle goes from one thread to another by what orders the two: a lock, the start or the end of a thread, or an atomic
 *   of sequential order.
 *
 * Strings have a size and no zero at their end. No pointer may be null, also where its size is 0: "" will do. No two pointers
 * of a call lead to the same memory, but that what is `const` may be passed twice, and by any number of threads.
 *
 * Not to be called from a signal handler, nor from a forked child of a process with threads. A call may need 512 kB of stack.
 */
#ifndef TMPL_H
#define TMPL_H

#include <stddef.h>
#include <stdint.h>

#ifdef __cplusplus
extern "C" {
#endif

/* How a call ends: the statuses of the command `tmpl`. */
enum {
    TMPL_OK = 0,       /* the whole text is in `out`, and `err` is empty */
    TMPL_FAULT = 1,    /* the run stopped at a fault: `out` has the text before it */
    TMPL_NOT_TEXT = 2, /* the name of a file is not UTF-8: `out` is empty, as it is for 4 and 5 */
    TMPL_REFUSED = 4,  /* a template file is refused, or there is no template of the name */
    TMPL_DATA = 5,     /* the data is not JSON, or a number of it is no integer or is out of range */
    TMPL_FULL = 6,     /* the text does not fit: `out` has it truncated to the capacity, and `needed` is its size. Or it is
                          longer than `output` of the settings: then `needed` is that, and its first bytes are there */
    TMPL_MEMORY = 7,   /* out of memory: `out` has a prefix of the text */
    TMPL_FORMAT = 8    /* the text is not of the format `writes` of the settings, and is not given: `out` is empty */
};

/* A template file. Both its name and its bytes are borrowed for the call. */
typedef struct tmpl_file {
    const char *name;  /* its path, in UTF-8; the template of the file itself is named by what follows the last `/` */
    size_t name_size;  /* how many bytes the name has */
    const char *bytes; /* what it holds */
    size_t size;       /* how many bytes that is; more than 16,777,216 are refused */
} tmpl_file;

/* How to run a template, as in `tmpl_settings settings = TMPL_SETTINGS;`. All zeros are the defaults. A run that comes to the limit of
 * steps or of depth is a fault, TMPL_FAULT. */
typedef struct tmpl_settings {
    size_t size;         /* sizeof(tmpl_settings), by which a later library knows which settings there are; 0: those named here */
    uint64_t steps;      /* how many nodes and turns of a `range` a run may take; 0: 1,000,000,000. They are not time: one step
                            may print a large value. Nor are they bytes of text */
    uint32_t depth;      /* how deep calls of templates may be nested; 0: 1,000; above 100,000: 100,000. Each takes memory for
                            the values of its template */
    uint8_t missing_key; /* what a missing key gives: 0 default, 1 invalid, 2 zero, 3 error, as the option --missingkey */
    uint8_t print;       /* 1: print the set of templates, and run nothing; the name and the data are not looked at */
    size_t output;       /* how many bytes of text a call may write; 0: any number. Where there are more it stops, gives TMPL_FULL,
                            and has written exactly those that come first. It gathers no more than one byte more than these */
    const char *writes;  /* the format of which the text has to be: `json`, `jsonl`, `yaml`, `env`, `nginx`, `csv:3` with three
                            columns, or `lines:^[a-z]+$`, lines with a match of a regular expression. A text that is not is not
                            given: TMPL_FORMAT, and a line that says where */
    size_t writes_size;  /* how many bytes that has; 0: any text will do, and `writes` may be null */
} tmpl_settings;

#define TMPL_SETTINGS {sizeof(tmpl_settings), 0, 0, 0, 0, 0, "", 0}

/* A caller-provided buffer for output. A call writes it from its first byte on. */
typedef struct tmpl_buffer {
    char *bytes;   /* the caller's memory */
    size_t size;   /* how many bytes that is: the capacity */
    size_t taken;  /* set by the call: how many of them hold output */
    size_t needed; /* set by the call: how many bytes the output has. Where `needed` > `size` the first `size` are there.
                      With TMPL_MEMORY: how many were written before memory ran out */
} tmpl_buffer;

/* Renders the template of this name of the files, with this data.
 *
 * settings    how to run it
 * files       the template files, in order: what a later one defines replaces what an earlier one did
 * file_count  how many there are; 0 is allowed
 * name        the template to run, any bytes: mostly the last part of a file's path
 * data        one JSON value; of size 0 there is no data, and dot is nothing
 * out         takes the text
 * err         takes one line, with a newline, on what went wrong; it is empty with TMPL_OK. Lines call the data `data`
 *
 * Gives one of the statuses above. The same arguments give the same text, line and status, unless memory runs out.
 * The text is gathered in memory of the call's own, so that it can be counted, and then copied to `out`.
 *
 * `settings`, `files` and what they point to, `name` and `data` are only read. `out`, `err` and their memory lie apart from
 * each other and from all else, and no other thread uses them during the call. */
uint8_t tmpl_render(const tmpl_settings *settings, const tmpl_file *files, size_t file_count,
                    const char *name, size_t name_size, const char *data, size_t data_size,
                    tmpl_buffer *out, tmpl_buffer *err);

/* ---- what is kept from call to call
 *
 * All zeros are an empty handle, as in `tmpl_set set = {0};`. Leave what its pointers point to alone, make no copies of the
 * struct, and free it once you are done: its memory is the library's. One that was freed is an empty one again, so that
 * freeing it twice does no harm. Handles that share something are freed in any order. */
typedef struct tmpl_set { void *held; } tmpl_set;         /* templates, parsed; empty: none */
typedef struct tmpl_program { void *held; } tmpl_program; /* templates as they are run; empty: none */
typedef struct tmpl_data { void *held; } tmpl_data;       /* one JSON value; empty: no data, and dot is nothing */

/* A text in memory of the library's own. Read it until the next call that is given it. */
typedef struct tmpl_text {
    const char *bytes; /* where it lies. Where it is empty this may be null or any other pointer */
    size_t size;       /* how many bytes it has */
    void *held;
} tmpl_text;

/* Adds the templates of a file to a set, after those of earlier files. Gives TMPL_OK, TMPL_NOT_TEXT, TMPL_REFUSED or
 * TMPL_MEMORY, and `err` takes the line that tmpl_render would give. Where it is not TMPL_OK the set is as it was. */
uint8_t tmpl_set_add(tmpl_set *set, const tmpl_file *file, tmpl_buffer *err);

/* Prints a set, as tmpl_render does with `print`. Gives TMPL_OK, or TMPL_MEMORY and a prefix of the text. */
uint8_t tmpl_set_print(tmpl_set *set, tmpl_text *text);

/* Reports every error in these files, added one after the other: in `text` a line for each, as compilers write it,
 * `FILE:LINE:COLUMN: error: REASON: DETAIL`, as tmpl-check writes it too. Lines and columns are from 1, columns by characters. Of
 * a file the first errors are reported, up to `most`, or up to 1,000 where that is 0 or above it; then a line of the reason `too
 * many errors` says at least how many more there are. A file that is refused adds nothing to those after it. Gives TMPL_OK where
 * nothing is wrong, TMPL_REFUSED where a file is refused, TMPL_NOT_TEXT where the name of one is not UTF-8, or TMPL_MEMORY. But with
 * TMPL_REFUSED `text` is empty. */
uint8_t tmpl_check(const tmpl_file *files, size_t file_count, size_t most, tmpl_text *text);

/* The name of a template, any bytes that are UTF-8. It is borrowed for the call. */
typedef struct tmpl_name {
    const char *bytes;
    size_t size;
} tmpl_name;

/* What tmpl_check_schema is asked. All that its pointers lead to is borrowed for the call. */
typedef struct tmpl_question {
    tmpl_file schema;       /* a JSON Schema, and the name by which findings call it */
    const char *name;       /* the template that is rendered */
    size_t name_size;       /* 0: the template that the first file itself is */
    const tmpl_name *stops; /* templates that may be missing, since a call of them is meant to fail, as with the option --stop */
    size_t stop_count;
    uint8_t mode;           /* for which missing keys: 0 for each of the following, 1 default, 2 invalid, 3 zero, 4 error */
    uint8_t format;         /* the form of the findings: 0 a line for each, 1 JSON, 2 SARIF 2.1.0, as tmpl-check writes them */
} tmpl_question;

/* Reports where the template may fail over data of a JSON Schema, as tmpl-check does with --schema: in `text` every error in the
 * files; where there is none, what of the schema is not understood; else each place that may fail, with a counterexample where one is
 * found; and warnings. Gives TMPL_OK where there is no error: then the template fails over no data that conform to the schema and that
 * tmpl_data_read accepts, but by a limit of its settings or a stop. Gives TMPL_REFUSED where there is an error, TMPL_NOT_TEXT where a
 * name is not UTF-8, or TMPL_MEMORY; with the last two `text` is empty. */
uint8_t tmpl_check_schema(const tmpl_file *files, size_t file_count, const tmpl_question *question, tmpl_text *text);

/* Frees a set. It is empty then. */
void tmpl_set_free(tmpl_set *set);

/* Makes a program of what the set has now, in the place of the program that was there. The set may take more files then, or
 * be freed: the program stays what it is. Gives TMPL_OK, or TMPL_MEMORY and leaves the program that was there. */
uint8_t tmpl_program_make(tmpl_set *set, tmpl_program *program);

/* Makes `copy` a second handle of the same program, in the place of what was there. Gives TMPL_OK, or TMPL_MEMORY and leaves
 * what was there. */
uint8_t tmpl_program_share(tmpl_program *program, tmpl_program *copy);

/* Frees a program: the handle, and the program itself with its last handle. */
void tmpl_program_free(tmpl_program *program);

/* Reads one JSON value in the place of the data that was there; of size 0 there is no data. Gives TMPL_OK, TMPL_DATA or
 * TMPL_MEMORY, and `err` takes the line. Where it is not TMPL_OK the data is as it was. */
uint8_t tmpl_data_read(tmpl_data *data, const char *bytes, size_t size, tmpl_buffer *err);

/* Makes `copy` a second handle of the same data, in the place of what was there. Gives TMPL_OK, or TMPL_MEMORY and leaves
 * what was there. */
uint8_t tmpl_data_share(tmpl_data *data, tmpl_data *copy);

/* Frees data: the handle, and the data itself with its last handle. */
void tmpl_data_free(tmpl_data *data);

/* Renders the template of this name of a program, with data that is kept, as tmpl_render does with the files and the data that
 * these were made of; `print` of the settings is not looked at. Text and line go to texts of the library's own, whatever their
 * size, so it gives TMPL_FULL for no text but one that is longer than `output` of the settings. With TMPL_MEMORY `text`
 * has a prefix of the text, and `line` nothing. Program and data are as they were then. */
uint8_t tmpl_render_text(const tmpl_settings *settings, tmpl_program *program, tmpl_data *data, const char *name,
                         size_t name_size, tmpl_text *text, tmpl_text *line);

/* Frees a text. It is empty then. */
void tmpl_text_free(tmpl_text *text);

/* The same render into a caller-provided buffer. Where the text does not fit, it gives TMPL_FULL, and has to be made again. */
uint8_t tmpl_render_program(const tmpl_settings *settings, tmpl_program *program, tmpl_data *data, const char *name,
                            size_t name_size, tmpl_buffer *out, tmpl_buffer *err);

/* The same of a set, which is compiled at the first render and kept so until a file is added. With `print` it prints the set. */
uint8_t tmpl_render_set(const tmpl_settings *settings, tmpl_set *set, tmpl_data *data, const char *name,
                        size_t name_size, tmpl_buffer *out, tmpl_buffer *err);

/* From now on the calls of this thread may hold at most this many bytes of memory that they take; 0: any number, as before the
 * first such call. A call that needs more gives TMPL_MEMORY, as where the system has no more. Each call of this one begins to
 * count at 0. A block counts by the size that the allocator gives it, whole where it grows, until it is given back. What was
 * taken before this call, or by another thread, does not count, and giving it back makes no room; nor do the
 * caller's own buffers. A thread that serves one request after the other calls this before each. */
void tmpl_limit_memory(size_t bytes);

/* Which build of the library this is: its version, the commit of its source, and the logic and the toolchain of the proofs, as one line
 * that ends with a zero and is never freed. */
const char *tmpl_version(void);

#ifdef __cplusplus
}
#endif
#endif
