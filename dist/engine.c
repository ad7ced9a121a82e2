/* engine.c: the calls of sagas.h as a program, for platforms without a released program.
 *
 * It needs C11, and nothing else of the platform:
 *
 *     cc -std=c11 -O1 -o sagas engine.c sagas.c -lm
 *
 *     sagas plan DEF CASE               sagas check DEF CASE ANSWER
 *     sagas draw DEF [CASE [ANSWER]]    sagas audit LOG DEF..
 *     sagas drive [--lines] [--from F] DEF..
 *
 * For the same texts, its output and its exit status are those of the program `sagas`:
 *
 *     0   SAGAS_OK, or the end of a drive
 *     1   SAGAS_REJECTED
 *     2   The arguments are not valid.
 *     3   SAGAS_INVALID: an input text is not valid.
 *     4   The system refused a file, an output or memory.
 *
 * It has only these commands and --version. It differs from the program `sagas` in these points:
 *
 *   - It writes no log file. `drive --log` and `run` do not exist.
 *   - Without arguments, it does not verify an answer on standard input.
 *   - `drive` limits the size of the log also without --lines.
 *   - `drive` has only the definitions that it was started with. It refuses `define` with
 *     `fixed-shelf`, also with --lines.
 */
#include <signal.h>
#include <stdint.h>
#include <stdio.h>
#include <stdlib.h>
#include <string.h>

/* On Unix, read() returns the bytes that have arrived. Requests that arrive together are answered
 * together. */
#if defined(__unix__) || defined(__APPLE__)
#include <unistd.h>
#define HAS_READ 1
#else
#define HAS_READ 0
#endif

#include "sagas.h"

#ifndef SAGAS_VERSION
#define SAGAS_VERSION "of engine.c"
#endif

enum { MISUSED = 2, INVALID = 3, CANNOT = 4, FIRST_SIZE = 65536, MOST_WAITING = 1048576, MOST_WITHOUT_LINES = 64 };

struct text {
    uint8_t *bytes;
    size_t size;
};

/* Reports an error of the system, and exits. */
static void stop(const char *what, const char *of) {
    fprintf(stderr, "sagas: %s%s\n", what, of);
    exit(CANNOT);
}

static void *memory_for(void *at, size_t size) {
    void *memory = realloc(at, size ? size : 1);
    if (!memory) {
        stop("out of memory", "");
    }
    return memory;
}

/* Reads a file, until it ends or is longer than a text may be. */
static struct text read_file(const char *path) {
    struct text text = {NULL, 0};
    size_t held = 0;
    FILE *file = strcmp(path, "-") == 0 ? stdin : fopen(path, "rb");
    if (!file) {
        stop("cannot read ", path);
    }
    while (text.size <= SAGAS_MAX_LOG) {
        if (text.size == held) {
            held = held ? held * 2 : FIRST_SIZE;
            text.bytes = memory_for(text.bytes, held);
        }
        size_t count = fread(text.bytes + text.size, 1, held - text.size, file);
        text.size += count;
        if (count == 0) {
            break;
        }
    }
    if (ferror(file)) {
        stop("cannot read ", path);
    }
    if (file != stdin) {
        fclose(file);
    }
    return text;
}

/* Reads the definitions of an audit or a drive into one text, and sets their spans. */
static struct text joined(char **paths, int count, struct sagas_span *spans) {
    struct text all = {memory_for(NULL, 1), 0};
    for (int i = 0; i < count; i++) {
        struct text one = read_file(paths[i]);
        all.bytes = memory_for(all.bytes, all.size + one.size);
        if (one.size) {
            memcpy(all.bytes + all.size, one.bytes, one.size);
        }
        spans[i].start = all.size;
        all.size += one.size;
        spans[i].end = all.size;
        free(one.bytes);
    }
    return all;
}

/* -- The command drive */

/* The bytes that are not yet written to standard output. */
struct output {
    uint8_t *bytes;
    size_t size, held;
};

static void add(struct output *output, const void *bytes, size_t size) {
    if (size > output->held - output->size) {
        while (size > output->held - output->size) {
            output->held = output->held ? output->held * 2 : FIRST_SIZE;
        }
        output->bytes = memory_for(output->bytes, output->held);
    }
    if (size) {
        memcpy(output->bytes + output->size, bytes, size);
    }
    output->size += size;
}

/* Adds log lines, each after a plus sign. */
static void add_lines(struct output *output, const uint8_t *lines, size_t size) {
    while (size) {
        const uint8_t *end = memchr(lines, '\n', size);
        size_t count = end ? (size_t)(end - lines) + 1 : size;
        add(output, "+", 1);
        add(output, lines, count);
        lines += count;
        size -= count;
    }
}

static void write_out(struct output *output) {
    if (output->size && fwrite(output->bytes, 1, output->size, stdout) != output->size) {
        stop("cannot write ", "-");
    }
    if (fflush(stdout) != 0) {
        stop("cannot write ", "-");
    }
    output->size = 0;
}

/* The options and definitions of a drive, its coordinator, a buffer for the coordinator, and the
 * output that is not yet written. */
struct drive {
    int shows;
    const char *from;
    char **definitions;
    int count;
    struct sagas_coordinator coordinator;
    uint8_t *buffer;
    size_t buffer_size;
    struct output output;
};

static void make_buffer(struct drive *drive, size_t size) {
    free(drive->buffer);
    drive->buffer = memory_for(NULL, size);
    drive->buffer_size = size;
}

/* Opens the coordinator. Returns 0, or the exit status if the coordinator cannot be opened. */
static int open_coordinator(struct drive *drive) {
    static struct sagas_span spans[SAGAS_MAX_DEFINITIONS];
    struct text definitions = joined(drive->definitions, drive->count, spans), log = {NULL, 0};
    size_t used = 0, log_used = 0;
    uint32_t status = SAGAS_BUFFER_TOO_SMALL;
    if (drive->from) {
        log = read_file(drive->from);
    }
    make_buffer(drive, FIRST_SIZE);
    while (status == SAGAS_BUFFER_TOO_SMALL) {
        if (used > drive->buffer_size) {
            make_buffer(drive, used);
        }
        status = sagas_open(&drive->coordinator, definitions.bytes, definitions.size, spans, (size_t)drive->count, log.bytes, log.size, &log_used,
                            drive->buffer, drive->buffer_size, &used);
    }
    free(definitions.bytes);
    free(log.bytes);
    if (status == SAGAS_INVALID) {
        fwrite(drive->buffer, 1, used, stderr);
        return INVALID;
    }
    if (status != SAGAS_OK) {
        stop("out of memory", "");
    }
    if (log_used < log.size) {
        fprintf(stderr, "sagas: log: cut line taken away: %lu bytes\n", (unsigned long)(log.size - log_used));
    }
    if (drive->shows) {
        add_lines(&drive->output, drive->buffer, used);
    }
    return 0;
}

/* Answers a request. Adds the log lines and the reply to the output. */
static void answer(struct drive *drive, const uint8_t *request, size_t size) {
    size_t used, lines;
    uint32_t status = sagas_answer(&drive->coordinator, request, size, drive->buffer, drive->buffer_size, &used, &lines);
    while (status == SAGAS_BUFFER_TOO_SMALL) {
        make_buffer(drive, used);
        status = sagas_reply(&drive->coordinator, drive->buffer, drive->buffer_size, &used, &lines);
    }
    if (status != SAGAS_OK) {
        stop("out of memory", "");
    }
    if (drive->shows) {
        add_lines(&drive->output, drive->buffer, lines);
    }
    add(&drive->output, drive->buffer + lines, used - lines);
    if (drive->output.size >= MOST_WAITING) {
        write_out(&drive->output);
    }
}

/* Reads at least one and at most `most` bytes from standard input: the bytes that have arrived, or
 * without read() those of a line. Returns 0 at the end of the input. */
static size_t arrived(uint8_t *at, size_t most) {
#if HAS_READ
    ssize_t count = read(0, at, most);
    if (count < 0) {
        stop("cannot read ", "-");
    }
    return (size_t)count;
#else
    size_t count = 0;
    int byte = 0;
    while (count < most && byte != '\n' && (byte = getchar()) != EOF) {
        at[count++] = (uint8_t)byte;
    }
    if (ferror(stdin)) {
        stop("cannot read ", "-");
    }
    return count;
#endif
}

/* Answers the requests on standard input, one per line, until the input ends. Of a line that is too
 * long, it keeps only the beginning, which is enough to refuse it. */
static void converse(struct drive *drive) {
    static uint8_t line[SAGAS_MAX_REQUEST + 1], buffer[FIRST_SIZE];
    size_t size = 0, count;
    while ((count = arrived(buffer, sizeof buffer)) > 0) {
        for (size_t at = 0; at < count;) {
            const uint8_t *end = memchr(buffer + at, '\n', count - at);
            size_t part = end ? (size_t)(end - (buffer + at)) : count - at, left = sizeof line - size;
            memcpy(line + size, buffer + at, part < left ? part : left);
            size += part < left ? part : left;
            at += part + (end != NULL);
            if (end) {
                answer(drive, line, size);
                size = 0;
            }
        }
        write_out(&drive->output);
    }
    if (size) {
        answer(drive, line, size);
    }
    write_out(&drive->output);
}

/* Reads the arguments after `drive`. Returns whether they are valid. */
static int read_words(struct drive *drive, int count, char **words) {
    int is_only_files = 0;
    drive->definitions = words;
    for (int i = 0; i < count; i++) {
        if (!is_only_files && strcmp(words[i], "--") == 0) {
            is_only_files = 1;
        } else if (!is_only_files && strcmp(words[i], "--lines") == 0 && !drive->shows) {
            drive->shows = 1;
        } else if (!is_only_files && strcmp(words[i], "--from") == 0 && !drive->from && i + 1 < count) {
            drive->from = words[++i];
        } else if (!is_only_files && strncmp(words[i], "--from=", 7) == 0 && !drive->from) {
            drive->from = words[i] + 7;
        } else if (!is_only_files && words[i][0] == '-' && words[i][1]) {
            return 0;
        } else {
            drive->definitions[drive->count++] = words[i];
        }
    }
    return drive->count > 0 && (drive->shows || !drive->from);
}

static int run_drive(int count, char **words) {
    static struct drive drive;
    if (!read_words(&drive, count, words)) {
        return MISUSED;
    }
    if (drive.count > (drive.shows ? SAGAS_MAX_DEFINITIONS : MOST_WITHOUT_LINES)) {
        fputs("sagas: too many definitions\n", stderr);
        return INVALID;
    }
    int status = open_coordinator(&drive);
    if (status == 0) {
        converse(&drive);
        sagas_close(&drive.coordinator);
    }
    return status;
}

/* -- The other commands */

enum command { PLAN, CHECK, DRAW, AUDIT, NONE };

/* A command with its texts, and for an audit the spans of its definitions. */
struct asked {
    enum command command;
    struct text texts[3];
    int count;
    struct sagas_span spans[SAGAS_MAX_DEFINITIONS];
    size_t span_count;
};

static uint32_t ask(const struct asked *asked, uint8_t *buffer, size_t size, size_t *used) {
    const struct text *t = asked->texts;
    switch (asked->command) {
    case PLAN: return sagas_plan(t[0].bytes, t[0].size, t[1].bytes, t[1].size, buffer, size, used);
    case CHECK: return sagas_check(t[0].bytes, t[0].size, t[1].bytes, t[1].size, t[2].bytes, t[2].size, buffer, size, used);
    case AUDIT: return sagas_audit_all(t[0].bytes, t[0].size, t[1].bytes, t[1].size, asked->spans, asked->span_count, buffer, size, used);
    default: break;
    }
    switch (asked->count) {
    case 1: return sagas_draw(t[0].bytes, t[0].size, buffer, size, used);
    case 2: return sagas_draw_case(t[0].bytes, t[0].size, t[1].bytes, t[1].size, buffer, size, used);
    default: return sagas_draw_answer(t[0].bytes, t[0].size, t[1].bytes, t[1].size, t[2].bytes, t[2].size, buffer, size, used);
    }
}

static enum command command_of(int count, char **words) {
    static const struct {
        const char *name;
        enum command command;
        int least, most;
    } known[] = {{"plan", PLAN, 2, 2}, {"check", CHECK, 3, 3}, {"draw", DRAW, 1, 3}, {"audit", AUDIT, 2, 1 << 16}};
    for (size_t i = 0; count > 1 && i < sizeof known / sizeof *known; i++) {
        if (strcmp(words[1], known[i].name) == 0 && count - 2 >= known[i].least && count - 2 <= known[i].most) {
            return known[i].command;
        }
    }
    return NONE;
}

/* Prints the output of a call, and returns the exit status. */
static int told(uint32_t status, const uint8_t *buffer, size_t used) {
    FILE *to = status == SAGAS_INVALID ? stderr : stdout;
    if (status == SAGAS_NO_MEMORY) {
        stop("out of memory", "");
    }
    if (fwrite(buffer, 1, used, to) != used || fflush(to) != 0) {
        stop("cannot write ", "-");
    }
    return (int)status;
}

/* Executes a command that makes one call. Returns the exit status. */
static int answered(int count, char **words) {
    static struct asked asked;
    asked.command = command_of(count, words);
    if (asked.command == NONE) {
        return MISUSED;
    }
    if (asked.command == AUDIT && count - 3 > SAGAS_MAX_DEFINITIONS) {
        fputs("sagas: too many definitions\n", stderr);
        return INVALID;
    }
    if (asked.command == AUDIT) {
        asked.texts[0] = read_file(words[2]);
        asked.span_count = (size_t)(count - 3);
        asked.texts[1] = joined(words + 3, count - 3, asked.spans);
    } else {
        for (asked.count = 0; asked.count < count - 2; asked.count++) {
            asked.texts[asked.count] = read_file(words[2 + asked.count]);
        }
    }
    size_t size = FIRST_SIZE, used;
    uint8_t *buffer = memory_for(NULL, size);
    uint32_t status = ask(&asked, buffer, size, &used);
    if (status == SAGAS_BUFFER_TOO_SMALL) {
        size = used;
        buffer = memory_for(buffer, size);
        status = ask(&asked, buffer, size, &used);
    }
    int result = told(status, buffer, used);
    free(buffer);
    return result;
}

int main(int count, char **words) {
#ifdef SIGPIPE
    signal(SIGPIPE, SIG_IGN);
#endif
    if (count == 2 && strcmp(words[1], "--version") == 0) {
        puts("sagas " SAGAS_VERSION);
        return 0;
    }
    int is_drive = count > 1 && strcmp(words[1], "drive") == 0;
    int status = is_drive ? run_drive(count - 2, words + 2) : answered(count, words);
    if (status == MISUSED) {
        fputs("usage: sagas plan DEF CASE | check DEF CASE ANSWER | draw DEF [CASE [ANSWER]] | audit LOG DEF.. | drive [--lines] [--from F] DEF..\n", stderr);
    }
    return status;
}
