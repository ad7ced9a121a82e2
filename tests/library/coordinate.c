/* A coordinator that answers as `sagas drive --lines` does: coordinate BUFFER LOG DEFINITION..
 *
 * Standard input has the requests, one per line. The program prints the log lines of a request,
 * each after a `+`, and then its reply. The calls get a buffer of BUFFER bytes. If the output does
 * not fit, sagas_reply fetches it. LOG may be `-` for an empty log.
 *
 * With -DREFUSING and -Wl,--wrap=malloc,--wrap=realloc,--wrap=free, the environment variable
 * REFUSED is the number of an allocation, counted from 0, that is refused. Each call that fails for
 * that reason is made again. The last line of standard error is the number of all allocations. */
#include <stdio.h>
#include <stdlib.h>
#include <string.h>

#include "sagas.h"

enum { ANY = 4 << 20 };

#ifdef REFUSING
void *__real_malloc(size_t size);
void *__real_realloc(void *at, size_t size);
void __real_free(void *at);
static long growths, refused = -1, held;
static int within;

static int is_refused(void) { return within && growths++ == refused; }

void *__wrap_malloc(size_t size) {
    void *at = is_refused() ? NULL : __real_malloc(size);
    held += within && at != NULL;
    return at;
}

void *__wrap_realloc(void *at, size_t size) {
    void *to = is_refused() ? NULL : __real_realloc(at, size);
    held += within && at == NULL && to != NULL;
    return to;
}

void __wrap_free(void *at) {
    held -= within && at != NULL;
    __real_free(at);
}
static uint32_t left(uint32_t status) {
    within = 0;
    return status;
}
#define CALL(call) (within = 1, status = left(call))
#else
#define CALL(call) (status = (call))
#endif

static const char MEMORY[] = "{\"fault\":\"out-of-memory\"}\n";

struct text {
    uint8_t *bytes;
    size_t size, held;
};

static void fail(const char *why) {
    fprintf(stderr, "coordinate: %s\n", why);
    exit(2);
}

/* Appends the contents of a file to a text. */
static void add(struct text *to, FILE *file) {
    size_t count;
    if (!file) fail("a file cannot be read");
    do {
        if (to->held - to->size < 65536) {
            to->held = 2 * to->held + 65536;
            to->bytes = realloc(to->bytes, to->held);
            if (!to->bytes) fail("memory");
        }
        count = fread(to->bytes + to->size, 1, 65536, file);
        to->size += count;
    } while (count > 0);
    fclose(file);
}

static void show_lines(const uint8_t *lines, size_t size) {
    for (size_t i = 0; i < size; i++) {
        if (i == 0 || lines[i - 1] == '\n') putchar('+');
        putchar(lines[i]);
    }
}

int main(int count, char **words) {
    struct sagas_coordinator it = SAGAS_CLOSED, was;
    struct sagas_span spans[SAGAS_MAX_DEFINITIONS + 1];
    struct text definitions = {NULL, 0, 0}, log = {NULL, 0, 0}, asked = {NULL, 0, 0};
    size_t size = count > 1 ? (size_t)atol(words[1]) : 0, used, log_used, lines, request_size;
    uint8_t *small = malloc(size ? size : 1), *whole = malloc(ANY);
    uint32_t status;
    int number = 0;
    if (count < 3 || !small || !whole) fail("usage: coordinate BUFFER LOG DEFINITION..");
#ifdef REFUSING
    if (getenv("REFUSED")) refused = atol(getenv("REFUSED"));
#endif
    if (strcmp(words[2], "-") != 0) add(&log, fopen(words[2], "rb"));
    for (int i = 3; i < count && number <= SAGAS_MAX_DEFINITIONS; i++, number++) {
        spans[number].start = definitions.size;
        add(&definitions, fopen(words[i], "rb"));
        spans[number].end = definitions.size;
    }

    /* A closed coordinator answers nothing. */
    if (CALL(sagas_answer(&it, (const uint8_t *)"{}", 2, whole, ANY, &used, &lines)) != SAGAS_REJECTED || used || lines) fail("answered while closed");
    if (CALL(sagas_reply(&it, whole, ANY, &used, &lines)) != SAGAS_REJECTED || used || lines) fail("replied while closed");
    sagas_close(&it);

    memset(whole, 7, ANY);
    for (;;) {
        CALL(sagas_open(&it, definitions.bytes, definitions.size, spans, (size_t)number, log.bytes, log.size, &log_used, small, size, &used));
        if (status == SAGAS_BUFFER_TOO_SMALL) CALL(sagas_open(&it, definitions.bytes, definitions.size, spans, (size_t)number, log.bytes, log.size, &log_used, whole, ANY, &used));
        else memcpy(whole, small, used <= size ? used : 0);
        if (status != SAGAS_NO_MEMORY) break;
        if (it.open) fail("open without memory");
#ifndef REFUSING
        fail("memory");
#endif
    }
    if (status == SAGAS_INVALID) {
        if (it.open || log_used) fail("open over what is invalid");
        fwrite(whole, 1, used, stderr);
        goto done;
    }
    if (status != SAGAS_OK || !it.open) fail("not opened");
    was = it;
    if (CALL(sagas_open(&it, NULL, 0, NULL, 0, NULL, 0, &lines, whole + ANY / 2, 8, &request_size)) != SAGAS_REJECTED || memcmp(&was, &it, sizeof it) != 0) fail("opened twice");
    if (log_used < log.size) fprintf(stderr, "sagas: log: cut line taken away: %zu bytes\n", log.size - log_used);
    show_lines(whole, used);

    add(&asked, stdin);
    for (size_t at = 0; at < asked.size; at += request_size + 1) {
        const uint8_t *request = asked.bytes + at, *end = memchr(request, '\n', asked.size - at);
        request_size = end ? (size_t)(end - request) : asked.size - at;
        for (;;) {
            const uint8_t *reply = small;
            CALL(sagas_answer(&it, request, request_size, small, size, &used, &lines));
            if (status == SAGAS_BUFFER_TOO_SMALL) {
                /* The request was executed, and its reply is kept: no other request is executed. */
                size_t kept = used, none, no_lines;
                if (CALL(sagas_answer(&it, request, request_size, whole, ANY, &none, &no_lines)) != SAGAS_REJECTED || none) fail("run over a kept reply");
                if (kept && (CALL(sagas_reply(&it, whole, kept - 1, &used, &lines)) != SAGAS_BUFFER_TOO_SMALL || used != kept)) fail("a kept reply that is too long");
                if (CALL(sagas_reply(&it, whole, kept, &used, &lines)) != SAGAS_OK || used != kept) fail("a kept reply");
                if (CALL(sagas_reply(&it, whole, ANY, &none, &no_lines)) != SAGAS_REJECTED || none) fail("a reply twice");
                reply = whole;
            } else if (status != SAGAS_OK) fail("not answered");
            if (lines > used) fail("more lines than text");
#ifdef REFUSING
            if (used == sizeof MEMORY - 1 && memcmp(reply, MEMORY, used) == 0) continue;
#endif
            show_lines(reply, lines);
            fwrite(reply + lines, 1, used - lines, stdout);
            break;
        }
    }
#ifdef REFUSING
    within = 1;
#endif
    sagas_close(&it);
#ifdef REFUSING
    within = 0;
    if (held != 0) fail("memory that is held");
    fprintf(stderr, "%ld growths\n", growths);
#endif
    if (it.open) fail("open after all");
    (void)MEMORY;
    status = 0;
done:
    free(small);
    free(whole);
    free(definitions.bytes);
    free(log.bytes);
    free(asked.bytes);
    return (int)status;
}
