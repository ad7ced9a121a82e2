/* Refuses each allocation in turn, alone and with all later ones: refusing EXAMPLES
 *
 * Each call then returns SAGAS_NO_MEMORY and leaves the buffer unchanged, or it returns the right
 * result. It frees every block, and the same call succeeds afterwards. Link the program with
 * libsagas.a and -Wl,--wrap=malloc,--wrap=realloc,--wrap=free. */
#include <stdio.h>
#include <stdlib.h>
#include <string.h>

#include "sagas.h"

void *__real_malloc(size_t size);
void *__real_realloc(void *at, size_t size);
void __real_free(void *at);

/* The number of allocations before one is refused, or -1 to refuse none. Whether all later ones are
 * refused too. The number of blocks that are not freed. */
static long left = -1, held;
static int and_the_rest;

static int is_refused(void) {
    if (left < 0) return 0;
    if (left > 0) {
        left--;
        return 0;
    }
    if (!and_the_rest) left = -1;
    return 1;
}

void *__wrap_malloc(size_t size) {
    void *at = is_refused() ? NULL : __real_malloc(size);
    held += at != NULL;
    return at;
}

void *__wrap_realloc(void *at, size_t size) {
    void *to = is_refused() ? NULL : __real_realloc(at, size);
    held += at == NULL && to != NULL;
    return to;
}

void __wrap_free(void *at) {
    held -= at != NULL;
    __real_free(at);
}

static uint8_t texts[4][16384];
static size_t sizes[4];

static uint32_t call(int which, uint8_t *buffer, size_t size, size_t *used) {
    switch (which) {
    case 0: return sagas_plan(texts[0], sizes[0], texts[1], sizes[1], buffer, size, used);
    case 1: return sagas_check(texts[0], sizes[0], texts[1], sizes[1], texts[2], sizes[2], buffer, size, used);
    case 2: return sagas_draw_answer(texts[0], sizes[0], texts[1], sizes[1], texts[2], sizes[2], buffer, size, used);
    default: return sagas_audit(texts[3], sizes[3], texts[0], sizes[0], buffer, size, used);
    }
}

/* Returns how often a call was refused memory before it succeeded, or -1 if something is wrong. */
static long tried(int which) {
    static uint8_t buffer[4096], was[4096], right[4096];
    size_t length = 0, used;
    long most, refused = 0;
    memset(was, 7, sizeof was);
    if (call(which, right, sizeof right, &length) != SAGAS_OK) return -1;
    for (most = 0;; most++) {
        uint32_t status;
        memset(buffer, 7, sizeof buffer);
        used = 99, left = most, held = 0;
        status = call(which, buffer, sizeof buffer, &used);
        {
            int is_through = left > 0;
            left = -1;
            if (held != 0) return -1;
            if (status == SAGAS_OK) {
                if (used != length || memcmp(buffer, right, length) != 0) return -1;
                if (is_through) return refused;
                continue;
            }
        }
        if (status != SAGAS_NO_MEMORY || used != 0 || memcmp(buffer, was, sizeof buffer) != 0) return -1;
        refused++;
        if (call(which, buffer, sizeof buffer, &used) != SAGAS_OK) return -1;
    }
}

int main(int count, char **given) {
    static const char *names[] = {"trip.toml", "trip.case.json", "trip.answer.json", "trip.log"};
    int i, which;
    if (count != 2) return 2;
    for (i = 0; i < 4; i++) {
        char path[4096];
        FILE *from;
        snprintf(path, sizeof path, "%s/%s", given[1], names[i]);
        from = fopen(path, "rb");
        if (!from) return 2;
        sizes[i] = fread(texts[i], 1, sizeof texts[i], from);
        fclose(from);
    }
    printf("refused in turn:");
    for (and_the_rest = 0; and_the_rest < 2; and_the_rest++) {
        for (which = 0; which < 4; which++) {
            long refused = tried(which);
            printf(" %ld", refused);
            if (refused < 10) return 1;
        }
    }
    printf("\n");
    return 0;
}
