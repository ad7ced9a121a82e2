/* Tests the calls of the library that keep no state: calls EXAMPLES
 *
 * It tests the results, which bytes a call writes, errors, texts at their maximum size, and 16
 * threads at the same time, with the stack that sagas.h requires. It prints each failure. If there
 * is one, the exit status is 1. */
#define _POSIX_C_SOURCE 200809L
#include <pthread.h>
#include <stdio.h>
#include <stdlib.h>
#include <string.h>

#include "sagas.h"

#define THREADS 16
#define ROUNDS 300
#define MARK 0x5a
#ifndef STACK
#define STACK (256 * 1024)
#endif

struct text {
    uint8_t *at;
    size_t size;
};

static int wrong;

#define EXPECT(what, holds) \
    do { \
        if (!(holds)) { \
            wrong++; \
            printf("wrong: %s (line %d)\n", what, __LINE__); \
        } \
    } while (0)

#define OF(text) (text).at, (text).size

static struct text file(const char *folder, const char *name) {
    char path[4096];
    struct text text = {malloc(1 << 16), 0};
    FILE *from;
    snprintf(path, sizeof path, "%s/%s", folder, name);
    from = fopen(path, "rb");
    if (!from || !text.at) {
        printf("cannot read %s\n", path);
        exit(2);
    }
    text.size = fread(text.at, 1, 1 << 16, from);
    fclose(from);
    return text;
}

static struct text definition, saga_case, answer, saga_log;

/* Makes the call with the number `which`, with the texts of the trip. */
static uint32_t call(int which, uint8_t *buffer, size_t size, size_t *used) {
    struct sagas_span spans[2];
    spans[0].start = 0, spans[0].end = definition.size;
    spans[1].start = 0, spans[1].end = SIZE_MAX;
    switch (which) {
    case 0: return sagas_plan(OF(definition), OF(saga_case), buffer, size, used);
    case 1: return sagas_check(OF(definition), OF(saga_case), OF(answer), buffer, size, used);
    case 2: return sagas_audit(OF(saga_log), OF(definition), buffer, size, used);
    case 3: return sagas_audit_all(OF(saga_log), OF(definition), spans, 2, buffer, size, used);
    case 4: return sagas_draw(OF(definition), buffer, size, used);
    case 5: return sagas_draw_case(OF(definition), OF(saga_case), buffer, size, used);
    default: return sagas_draw_answer(OF(definition), OF(saga_case), OF(answer), buffer, size, used);
    }
}

#define CALLS 7

static int holds(const uint8_t *buffer, size_t used, const char *wanted) {
    return used == strlen(wanted) && memcmp(buffer, wanted, used) == 0;
}

static int is_marked(const uint8_t *from, size_t size) {
    while (size > 0)
        if (from[--size] != MARK) return 0;
    return 1;
}

/* Makes each call with each buffer size, from 0 to one byte more than the output. A call writes
 * nothing after its output, and nothing at all if the output does not fit. */
static void buffers(void) {
    static uint8_t whole[8192], buffer[8192];
    int which;
    for (which = 0; which < CALLS; which++) {
        size_t size, length = 0, used = 0;
        uint32_t status = call(which, whole, sizeof whole, &length);
        EXPECT("a call", status == SAGAS_OK && length > 0 && length < 4096);
        for (size = 0; size <= length + 1; size++) {
            memset(buffer, MARK, sizeof buffer);
            used = 99;
            status = call(which, size == 0 ? NULL : buffer, size, &used);
            EXPECT("what was used", used == length);
            if (size < length) {
                EXPECT("too small a buffer", status == SAGAS_BUFFER_TOO_SMALL && is_marked(buffer, sizeof buffer));
            } else {
                EXPECT("a buffer that is large enough", status == SAGAS_OK && memcmp(buffer, whole, length) == 0 && is_marked(buffer + length, sizeof buffer - length));
            }
        }
    }
}

static void answers(const char *folder) {
    uint8_t buffer[4096];
    size_t used = 99;
    struct text bound = file(folder, "licence.toml"), failed = file(folder, "licence.case.json");
    static const char wrong_chain[] = "{\"chain\":[0],\"kind\":\"blocked\"}";
    EXPECT("a plan", call(0, buffer, sizeof buffer, &used) == SAGAS_OK && used == answer.size && memcmp(buffer, answer.at, used) == 0);
    EXPECT("a judgement", call(1, buffer, sizeof buffer, &used) == SAGAS_OK && holds(buffer, used, "least 38\n"));
    EXPECT("an audit", call(2, buffer, sizeof buffer, &used) == SAGAS_OK && holds(buffer, used, "yes sagas 1 ended 1 stuck 0 events 13\n"));
    EXPECT("an audit of two", call(3, buffer, sizeof buffer, &used) == SAGAS_OK && holds(buffer, used, "yes sagas 1 ended 1 stuck 0 events 13\n"));
    EXPECT("a drawing", call(4, buffer, sizeof buffer, &used) == SAGAS_OK && memcmp(buffer, "digraph \"trip\" {", 16) == 0);
    EXPECT("a chain", sagas_plan(OF(bound), OF(failed), buffer, sizeof buffer, &used) == SAGAS_REJECTED && holds(buffer, used, "{\"chain\":[1,0],\"kind\":\"blocked\"}\n"));
    EXPECT("a wrong chain", sagas_check(OF(bound), OF(failed), (const uint8_t *)wrong_chain, sizeof wrong_chain - 1, buffer, sizeof buffer, &used) == SAGAS_REJECTED
                                && holds(buffer, used, "no not-forced\n"));
    EXPECT("an audit over none", sagas_audit_all(OF(saga_log), NULL, 0, NULL, 0, buffer, sizeof buffer, &used) == SAGAS_REJECTED && holds(buffer, used, "no 0 no-such-definition\n"));
    EXPECT("an empty log", sagas_audit(NULL, 0, OF(definition), buffer, sizeof buffer, &used) == SAGAS_OK && holds(buffer, used, "yes sagas 0 ended 0 stuck 0 events 0\n"));
    free(bound.at);
    free(failed.at);
}

#define BAD(what, line, call) EXPECT(what, (call) == SAGAS_INVALID && holds(buffer, used, "sagas: " line "\n"))

static void faults(void) {
    uint8_t buffer[4096], *large = calloc(SAGAS_MAX_LOG + 1, 1);
    size_t used = 99;
    const size_t size = sizeof buffer;
    struct sagas_span spans[SAGAS_MAX_DEFINITIONS + 1];
    memset(spans, 0, sizeof spans);
    BAD("all null", "definition: bad-format", sagas_plan(NULL, 0, NULL, 0, buffer, size, &used));
    BAD("no case", "case: not-json", sagas_plan(OF(definition), NULL, 0, buffer, size, &used));
    BAD("no answer", "answer: not-json", sagas_check(OF(definition), OF(saga_case), NULL, 0, buffer, size, &used));
    BAD("zeros", "definition: not-toml", sagas_draw((const uint8_t *)"\0\0\0", 3, buffer, size, &used));
    BAD("a zero in a case", "case: not-json", sagas_plan(OF(definition), (const uint8_t *)"{\0}", 3, buffer, size, &used));
    BAD("no UTF-8", "case: not-json", sagas_plan(OF(definition), (const uint8_t *)"\"\xff\"", 3, buffer, size, &used));
    BAD("no UTF-8 in a definition", "definition: not-toml", sagas_draw((const uint8_t *)"#\xc3", 2, buffer, size, &used));
    BAD("a line of a log", "log: line 1: kind", sagas_audit((const uint8_t *)"[]\n", 3, OF(definition), buffer, size, &used));
    BAD("an empty span", "definition 1: bad-format", sagas_audit_all(NULL, 0, OF(definition), (spans[0].end = SIZE_MAX, spans), 2, buffer, size, &used));
    BAD("the most definitions", "definition 1: bad-format", sagas_audit_all(NULL, 0, OF(definition), spans, SAGAS_MAX_DEFINITIONS, buffer, size, &used));
    BAD("one definition more", "too many definitions", sagas_audit_all(NULL, 0, OF(definition), spans, SAGAS_MAX_DEFINITIONS + 1, buffer, size, &used));
    if (!large) {
        EXPECT("memory for the longest text", 0);
        return;
    }
    memset(large, '#', SAGAS_MAX_DEFINITION + 1);
    BAD("the longest definition", "definition: bad-format", sagas_draw(large, SAGAS_MAX_DEFINITION, buffer, size, &used));
    BAD("a byte more", "definition: too-long", sagas_draw(large, SAGAS_MAX_DEFINITION + 1, buffer, size, &used));
    memset(large, ' ', SAGAS_MAX_LOG + 1);
    BAD("the longest case", "case: not-json", sagas_plan(OF(definition), large, SAGAS_MAX_CERTIFICATE, buffer, size, &used));
    BAD("a byte more of a case", "case: too-long", sagas_plan(OF(definition), large, SAGAS_MAX_CERTIFICATE + 1, buffer, size, &used));
    BAD("the longest answer", "answer: not-json", sagas_check(OF(definition), OF(saga_case), large, SAGAS_MAX_CERTIFICATE, buffer, size, &used));
    BAD("a byte more of an answer", "answer: too-long", sagas_check(OF(definition), OF(saga_case), large, SAGAS_MAX_CERTIFICATE + 1, buffer, size, &used));
    BAD("the longest log", "log: line 1: not-json", sagas_audit(large, SAGAS_MAX_LOG, OF(definition), buffer, size, &used));
    BAD("a byte more of a log", "log: too-long", sagas_audit(large, SAGAS_MAX_LOG + 1, OF(definition), buffer, size, &used));
    free(large);
}

static void *many(void *given) {
    size_t *bad = given, used = 0;
    int round;
    for (round = 0; round < ROUNDS; round++) {
        uint8_t buffer[4096];
        *bad += call(0, buffer, sizeof buffer, &used) != SAGAS_OK || used != answer.size || memcmp(buffer, answer.at, used) != 0;
        *bad += call(1, buffer, sizeof buffer, &used) != SAGAS_OK || !holds(buffer, used, "least 38\n");
        *bad += call(2, buffer, sizeof buffer, &used) != SAGAS_OK || !holds(buffer, used, "yes sagas 1 ended 1 stuck 0 events 13\n");
    }
    return NULL;
}

static void threads(void) {
    pthread_t started[THREADS];
    size_t bad[THREADS] = {0};
    int i;
    pthread_attr_t stack;
    pthread_attr_init(&stack);
    EXPECT("a stack", pthread_attr_setstacksize(&stack, STACK) == 0);
    for (i = 0; i < THREADS; i++) EXPECT("a thread", pthread_create(&started[i], &stack, many, &bad[i]) == 0);
    pthread_attr_destroy(&stack);
    for (i = 0; i < THREADS; i++) {
        pthread_join(started[i], NULL);
        EXPECT("calls of a thread", bad[i] == 0);
    }
}

int main(int count, char **given) {
    if (count != 2) return 2;
    definition = file(given[1], "trip.toml"), saga_case = file(given[1], "trip.case.json");
    answer = file(given[1], "trip.answer.json"), saga_log = file(given[1], "trip.log");
    answers(given[1]);
    buffers();
    faults();
    threads();
    free(definition.at), free(saga_case.at), free(answer.at), free(saga_log.at);
    printf("%d wrong\n", wrong);
    return wrong != 0;
}
