
/* -- The calls of sagas.h, which call the module */

#if defined(__OPTIMIZE__)
#undef inline
#endif
#if !defined(__STDC_NO_ATOMICS__)
#include <stdatomic.h>
#endif

enum { FIRST_SIZE = 65536, MOST_TEXT = SAGAS_MAX_LOG, MOST_KEPT = 16 * 1024 * 1024, MOST_TEXTS = 3 };

typedef Z_sagas_instance_t module;

/* A module that no call uses. The next call takes it instead of making one. */
#if !defined(__STDC_NO_ATOMICS__)
static _Atomic(module *) spare;
#define TAKE_SPARE() atomic_exchange(&spare, NULL)
#define PUT_SPARE(it) atomic_exchange(&spare, (it))
#else
#define TAKE_SPARE() NULL
#define PUT_SPARE(it) (it)
#endif

struct text {
    const uint8_t *at;
    uint64_t size;
};

/* A call: its input texts and spans, its output buffer, and the size of its output. */
struct call {
    int name;
    struct text texts[MOST_TEXTS];
    int count;
    const struct sagas_span *spans;
    size_t span_count;
    uint8_t *buffer;
    uint64_t buffer_size;
    uint64_t used;
};

enum { PLAN, CHECK, AUDIT, AUDIT_ALL, DRAW, DRAW_CASE, DRAW_ANSWER };

/* Allocates memory in the module. Traps if there is none. */
static uint64_t memory_of(module *it, uint64_t size) {
    uint64_t at = Z_sagasZ_sagas_memory(it, size);
    if (!at) {
        wasm_rt_trap(WASM_RT_TRAP_EXHAUSTION);
    }
    return at;
}

/* Copies bytes into the module, and returns their address there: 0 if there are no bytes. */
static uint64_t put(module *it, const void *bytes, uint64_t size) {
    if (size == 0) {
        return 0;
    }
    uint64_t at = memory_of(it, size);
    memcpy(it->w2c_memory.data + at, bytes, (size_t)size);
    return at;
}

static uint64_t put_spans(module *it, const struct sagas_span *spans, size_t count) {
    uint64_t at = count ? memory_of(it, (uint64_t)count * 16) : 0;
    for (size_t i = 0; i < count; i++) {
        uint64_t both[2] = {spans[i].start, spans[i].end};
        memcpy(it->w2c_memory.data + at + 16 * i, both, 16);
    }
    return at;
}

/* Calls the module with these addresses, and a buffer of `size` bytes. */
static uint32_t ask(module *it, const struct call *call, const uint64_t *at, uint64_t spans, uint64_t buffer, uint64_t size, uint64_t used) {
    const struct text *text = call->texts;
    switch (call->name) {
    case PLAN: return Z_sagasZ_sagas_plan(it, at[0], text[0].size, at[1], text[1].size, buffer, size, used);
    case CHECK: return Z_sagasZ_sagas_check(it, at[0], text[0].size, at[1], text[1].size, at[2], text[2].size, buffer, size, used);
    case AUDIT: return Z_sagasZ_sagas_audit(it, at[0], text[0].size, at[1], text[1].size, buffer, size, used);
    case AUDIT_ALL: return Z_sagasZ_sagas_audit_all(it, at[0], text[0].size, at[1], text[1].size, spans, call->span_count, buffer, size, used);
    case DRAW: return Z_sagasZ_sagas_draw(it, at[0], text[0].size, buffer, size, used);
    case DRAW_CASE: return Z_sagasZ_sagas_draw_case(it, at[0], text[0].size, at[1], text[1].size, buffer, size, used);
    default: return Z_sagasZ_sagas_draw_answer(it, at[0], text[0].size, at[1], text[1].size, at[2], text[2].size, buffer, size, used);
    }
}

/* Copies the texts into the module, calls it, and copies its output to the caller. If the buffer in
 * the module is too small and the caller's is large enough, it calls again with a larger buffer. */
static uint32_t answer(module *it, struct call *call) {
    uint64_t at[MOST_TEXTS] = {0}, size = call->buffer_size < FIRST_SIZE ? call->buffer_size : FIRST_SIZE;
    Z_sagasZ_sagas_clear(it);
    for (int i = 0; i < call->count; i++) {
        at[i] = put(it, call->texts[i].at, call->texts[i].size);
    }
    uint64_t spans = put_spans(it, call->spans, call->span_count), used = memory_of(it, 8), buffer = size ? memory_of(it, size) : 0;
    uint32_t status = ask(it, call, at, spans, buffer, size, used);
    memcpy(&call->used, it->w2c_memory.data + used, 8);
    if (status == SAGAS_BUFFER_TOO_SMALL && call->used <= call->buffer_size) {
        size = call->used;
        buffer = memory_of(it, size);
        status = ask(it, call, at, spans, buffer, size, used);
        memcpy(&call->used, it->w2c_memory.data + used, 8);
    }
    if (status <= SAGAS_INVALID && call->used) {
        memcpy(call->buffer, it->w2c_memory.data + buffer, (size_t)call->used);
    }
    return status;
}

static void throw_away(module *it) {
    if (it) {
        Z_sagas_free(it);
        free(it);
    }
}

/* Makes a call, and returns its status. If the system has no memory, the module traps. The function
 * then frees the module. */
static uint32_t run(struct call *call, size_t *used) {
    jmp_buf here, *before = trapped;
    module *volatile it = NULL;
    volatile uint32_t status = SAGAS_NO_MEMORY;
    trapped = &here;
    if (setjmp(here) == 0) {
        it = TAKE_SPARE();
        if (!it && (it = calloc(1, sizeof *it))) {
            Z_sagas_instantiate(it);
        }
        if (it) {
            status = answer(it, call);
        }
    } else {
        throw_away(it);
        it = NULL;
        call->used = 0;
    }
    trapped = before;
    if (it && it->w2c_memory.size <= MOST_KEPT) {
        throw_away(PUT_SPARE(it));
    } else {
        throw_away(it);
    }
    *used = status == SAGAS_NO_MEMORY ? 0 : (size_t)call->used;
    return status;
}

/* Returns a text. Of a text that is too long, the module gets only as many bytes as show that. */
static struct text text_of(const uint8_t *at, size_t size) {
    struct text text = {at, size > MOST_TEXT ? (uint64_t)MOST_TEXT + 1 : size};
    return text;
}

uint32_t sagas_plan(const uint8_t *definition, size_t definition_size, const uint8_t *saga_case, size_t saga_case_size, uint8_t *buffer,
                    size_t buffer_size, size_t *used) {
    struct call call = {.name = PLAN, .texts = {text_of(definition, definition_size), text_of(saga_case, saga_case_size)}, .count = 2, .buffer = buffer, .buffer_size = buffer_size};
    return run(&call, used);
}

uint32_t sagas_check(const uint8_t *definition, size_t definition_size, const uint8_t *saga_case, size_t saga_case_size,
                     const uint8_t *answer_text, size_t answer_size, uint8_t *buffer, size_t buffer_size, size_t *used) {
    struct call call = {.name = CHECK, .texts = {text_of(definition, definition_size), text_of(saga_case, saga_case_size), text_of(answer_text, answer_size)},
                        .count = 3, .buffer = buffer, .buffer_size = buffer_size};
    return run(&call, used);
}

uint32_t sagas_audit(const uint8_t *log, size_t log_size, const uint8_t *definition, size_t definition_size, uint8_t *buffer,
                     size_t buffer_size, size_t *used) {
    struct call call = {.name = AUDIT, .texts = {text_of(log, log_size), text_of(definition, definition_size)}, .count = 2, .buffer = buffer, .buffer_size = buffer_size};
    return run(&call, used);
}

uint32_t sagas_audit_all(const uint8_t *log, size_t log_size, const uint8_t *definitions, size_t definitions_size,
                         const struct sagas_span *spans, size_t span_count, uint8_t *buffer, size_t buffer_size, size_t *used) {
    size_t counted = span_count > SAGAS_MAX_DEFINITIONS ? SAGAS_MAX_DEFINITIONS + 1 : span_count;
    struct call call = {.name = AUDIT_ALL, .texts = {text_of(log, log_size), {definitions, definitions_size}}, .count = 2, .spans = spans, .span_count = counted,
                        .buffer = buffer, .buffer_size = buffer_size};
    return run(&call, used);
}

uint32_t sagas_draw(const uint8_t *definition, size_t definition_size, uint8_t *buffer, size_t buffer_size, size_t *used) {
    struct call call = {.name = DRAW, .texts = {text_of(definition, definition_size)}, .count = 1, .buffer = buffer, .buffer_size = buffer_size};
    return run(&call, used);
}

uint32_t sagas_draw_case(const uint8_t *definition, size_t definition_size, const uint8_t *saga_case, size_t saga_case_size, uint8_t *buffer,
                         size_t buffer_size, size_t *used) {
    struct call call = {.name = DRAW_CASE, .texts = {text_of(definition, definition_size), text_of(saga_case, saga_case_size)}, .count = 2, .buffer = buffer, .buffer_size = buffer_size};
    return run(&call, used);
}

uint32_t sagas_draw_answer(const uint8_t *definition, size_t definition_size, const uint8_t *saga_case, size_t saga_case_size,
                           const uint8_t *answer_text, size_t answer_size, uint8_t *buffer, size_t buffer_size, size_t *used) {
    struct call call = {.name = DRAW_ANSWER, .texts = {text_of(definition, definition_size), text_of(saga_case, saga_case_size), text_of(answer_text, answer_size)},
                        .count = 3, .buffer = buffer, .buffer_size = buffer_size};
    return run(&call, used);
}

/* -- Coordinators */

/* The module of a coordinator, which no other call uses. The addresses in it are those of the
 * coordinator, of the numbers that a call returns, of a request and of a buffer. */
struct held {
    module it;
    uint64_t coordinator, numbers, request, buffer, buffer_size;
};

/* The offsets of the numbers that a call returns: the size of the output, of its log lines, and of
 * the log that is continued. NUMBERS and COORDINATOR are the sizes of all numbers and of a
 * coordinator. */
enum { USED = 0, LINES_USED = 8, LOG_USED = 16, NUMBERS = 24, COORDINATOR = 64 };

static uint64_t number_of(struct held *held, uint64_t which) {
    uint64_t number;
    memcpy(&number, held->it.w2c_memory.data + held->numbers + which, 8);
    return number;
}

/* Allocates memory in the module that is all zero. Traps if there is none. */
static uint64_t zeros(module *it, uint64_t size) {
    uint64_t at = memory_of(it, size);
    memset(it->w2c_memory.data + at, 0, (size_t)size);
    return at;
}

/* Replaces the buffer in the module by one of `size` bytes. If the module has no memory for it, the
 * function returns false and changes nothing. */
static bool make_buffer(struct held *held, uint64_t size) {
    uint64_t at = Z_sagasZ_sagas_memory(&held->it, size);
    if (at && held->buffer) {
        Z_sagasZ_sagas_give_back(&held->it, held->buffer);
    }
    if (at) {
        held->buffer = at;
        held->buffer_size = size;
    }
    return at != 0;
}

static void give_back(module *it, uint64_t at) {
    if (at) {
        Z_sagasZ_sagas_give_back(it, at);
    }
}

/* How many bytes of the buffer in the module a call may use: at most the size of the caller's. */
static uint64_t usable(const struct held *held, const struct call *call) {
    return call->buffer_size < held->buffer_size ? call->buffer_size : held->buffer_size;
}

/* Copies the output of a call from the module to the caller. */
static void hand_out(struct held *held, struct call *call) {
    if (call->used) {
        memcpy(call->buffer, held->it.w2c_memory.data + held->buffer, (size_t)call->used);
    }
}

/* Opens the coordinator in its module, over definitions and a log. */
static uint32_t open_in_module(struct held *held, struct call *call) {
    module *it = &held->it;
    const struct text *definitions = &call->texts[0], *log = &call->texts[1];
    held->coordinator = zeros(it, COORDINATOR);
    held->numbers = zeros(it, NUMBERS);
    held->request = memory_of(it, SAGAS_MAX_REQUEST + 1);
    uint64_t texts = put(it, definitions->at, definitions->size), spans = put_spans(it, call->spans, call->span_count), start = put(it, log->at, log->size);
    uint32_t status = SAGAS_NO_MEMORY;
    do {
        if (!make_buffer(held, call->used > FIRST_SIZE ? call->used : FIRST_SIZE)) {
            status = SAGAS_NO_MEMORY;
            break;
        }
        status = Z_sagasZ_sagas_open(it, held->coordinator, texts, definitions->size, spans, call->span_count, start, log->size, held->numbers + LOG_USED,
                                     held->buffer, usable(held, call), held->numbers + USED);
        call->used = number_of(held, USED);
    } while (status == SAGAS_BUFFER_TOO_SMALL && call->used <= call->buffer_size);
    give_back(it, texts);
    give_back(it, spans);
    give_back(it, start);
    return status;
}

/* Lets the coordinator answer a request. If `request` is NULL, the coordinator returns the reply
 * that it keeps. If the output fits only into the caller's buffer, the function makes the buffer in
 * the module larger, and fetches the reply. */
static uint32_t ask_in_module(struct held *held, struct call *call, const struct text *request) {
    module *it = &held->it;
    uint64_t used = held->numbers + USED, lines = held->numbers + LINES_USED;
    uint32_t status = SAGAS_BUFFER_TOO_SMALL;
    if (request) {
        uint64_t size = request->size > SAGAS_MAX_REQUEST ? SAGAS_MAX_REQUEST + 1 : request->size;
        if (size) {
            memcpy(it->w2c_memory.data + held->request, request->at, (size_t)size);
        }
        status = Z_sagasZ_sagas_answer(it, held->coordinator, held->request, size, held->buffer, usable(held, call), used, lines);
    } else {
        status = Z_sagasZ_sagas_reply(it, held->coordinator, held->buffer, usable(held, call), used, lines);
    }
    call->used = number_of(held, USED);
    if (status == SAGAS_BUFFER_TOO_SMALL && call->used <= call->buffer_size) {
        if (!make_buffer(held, call->used)) {
            return request ? SAGAS_BUFFER_TOO_SMALL : SAGAS_NO_MEMORY;
        }
        status = Z_sagasZ_sagas_reply(it, held->coordinator, held->buffer, usable(held, call), used, lines);
        call->used = number_of(held, USED);
    }
    return status;
}

/* Makes a call of a coordinator. If its module traps, the coordinator is closed, and its module is
 * freed. */
static uint32_t ask_coordinator(struct sagas_coordinator *coordinator, struct call *call, const struct text *request, size_t *used, size_t *lines_used) {
    jmp_buf here, *before = trapped;
    struct held *held = coordinator->session;
    volatile uint32_t status = SAGAS_REJECTED;
    *used = *lines_used = 0;
    if (!coordinator->open) {
        return status;
    }
    trapped = &here;
    if (setjmp(here) == 0) {
        status = ask_in_module(held, call, request);
        if (status == SAGAS_OK) {
            hand_out(held, call);
        }
        if (status != SAGAS_NO_MEMORY) {
            *used = (size_t)call->used;
            *lines_used = (size_t)number_of(held, LINES_USED);
        }
    } else {
        sagas_close(coordinator);
    }
    trapped = before;
    return status;
}

uint32_t sagas_open(struct sagas_coordinator *coordinator, const uint8_t *definitions, size_t definitions_size, const struct sagas_span *spans,
                    size_t span_count, const uint8_t *log, size_t log_size, size_t *log_used, uint8_t *buffer, size_t buffer_size, size_t *used) {
    jmp_buf here, *before = trapped;
    size_t counted = span_count > SAGAS_MAX_DEFINITIONS ? SAGAS_MAX_DEFINITIONS + 1 : span_count;
    struct call call = {.texts = {{definitions, definitions_size}, text_of(log, log_size)}, .count = 2, .spans = spans, .span_count = counted,
                        .buffer = buffer, .buffer_size = buffer_size};
    struct held *volatile held = NULL;
    volatile uint32_t status = SAGAS_NO_MEMORY;
    *log_used = *used = 0;
    if (coordinator->open) {
        return SAGAS_REJECTED;
    }
    trapped = &here;
    if (setjmp(here) == 0) {
        held = calloc(1, sizeof *held);
        if (held) {
            Z_sagas_instantiate(&held->it);
            status = open_in_module(held, &call);
        }
        if (status == SAGAS_OK || status == SAGAS_INVALID) {
            hand_out(held, &call);
        }
    } else {
        status = SAGAS_NO_MEMORY;
    }
    trapped = before;
    *used = status == SAGAS_NO_MEMORY ? 0 : (size_t)call.used;
    if (status == SAGAS_OK) {
        *log_used = (size_t)number_of(held, LOG_USED);
        coordinator->session = held;
        coordinator->open = 1;
    } else if (held) {
        throw_away(&held->it);
    }
    return status;
}

uint32_t sagas_answer(struct sagas_coordinator *coordinator, const uint8_t *request, size_t request_size, uint8_t *buffer, size_t buffer_size,
                      size_t *used, size_t *lines_used) {
    struct text text = {request, request_size};
    struct call call = {.buffer = buffer, .buffer_size = buffer_size};
    return ask_coordinator(coordinator, &call, &text, used, lines_used);
}

uint32_t sagas_reply(struct sagas_coordinator *coordinator, uint8_t *buffer, size_t buffer_size, size_t *used, size_t *lines_used) {
    struct call call = {.buffer = buffer, .buffer_size = buffer_size};
    return ask_coordinator(coordinator, &call, NULL, used, lines_used);
}

void sagas_close(struct sagas_coordinator *coordinator) {
    if (coordinator->open) {
        struct held *held = coordinator->session;
        throw_away(&held->it);
        coordinator->session = NULL;
        coordinator->open = 0;
    }
}
