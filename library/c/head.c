/* sagas.c: all calls of sagas.h in one file.
 *
 * The file needs a C11 compiler, a C library, and a little-endian processor:
 *
 *     cc -std=c11 -O1 -c sagas.c
 *
 * It is the WebAssembly module sagas.wasm of the same release, together with the calls of a
 * coordinator. wasm2c, which is part of wabt (Apache License 2.0), translated the module to C. The
 * beginning and the end of the file are written by hand: the memory of the module, and the calls.
 * Each address is checked against the size of that memory. No access leaves the block that is
 * allocated for it.
 *
 * sagas.h describes the calls. Their use of memory differs from that of libsagas in these points:
 *
 *   - The file allocates memory with calloc, and frees it with free.
 *   - Each call uses a module with its own memory of at most 4 GiB, and first reserves 16 MiB.
 *   - If the compiler has C11 atomics, one module is kept for the next call. The memory of that
 *     module has at most 16 MiB.
 *   - A coordinator keeps its module from sagas_open to sagas_close.
 */
#include <math.h>
#include <setjmp.h>
#include <stdbool.h>
#include <stdint.h>
#include <stdlib.h>
#include <string.h>

#include "sagas.h"

#if defined(__BYTE_ORDER__) && __BYTE_ORDER__ != __ORDER_LITTLE_ENDIAN__
#error "sagas.c takes a processor whose numbers are little-endian"
#endif

#if defined(__GNUC__)
#define UNLIKELY(x) __builtin_expect(!!(x), 0)
#define LIKELY(x) __builtin_expect(!!(x), 1)
#else
#define UNLIKELY(x) (x)
#define LIKELY(x) (x)
#endif
#if defined(__OPTIMIZE__)
/* Inlining keeps the address of the memory in registers. */
#define inline __inline __attribute__((always_inline))
#endif
#define wasm_rt_memcpy memcpy
#define WASM_RT_MEMCHECK_SIGNAL_HANDLER 0
#define WASM_RT_USE_STACK_DEPTH_COUNT 0
#define WABT_BIG_ENDIAN 0

/* The size of a page in bytes, the maximum number of pages, the capacity that is reserved first,
 * and the padding after the capacity. */
enum { PAGE = 65536, MOST_PAGES = 65535, FIRST_ROOM = 16 * 1024 * 1024, BEHIND = 65536 };

typedef enum {
    WASM_RT_TRAP_NONE,
    WASM_RT_TRAP_OOB,
    WASM_RT_TRAP_INT_OVERFLOW,
    WASM_RT_TRAP_DIV_BY_ZERO,
    WASM_RT_TRAP_INVALID_CONVERSION,
    WASM_RT_TRAP_UNREACHABLE,
    WASM_RT_TRAP_CALL_INDIRECT,
    WASM_RT_TRAP_EXHAUSTION
} wasm_rt_trap_t;

typedef enum { WASM_RT_I32, WASM_RT_I64, WASM_RT_F32, WASM_RT_F64 } wasm_rt_type_t;

/* The memory of the module. It has `size` bytes, and a capacity of `room` bytes. The bytes after
 * the first `size` are zero. BEHIND bytes of padding follow the capacity, so the small offset that
 * an instruction adds to an address needs no check. */
typedef struct {
    uint8_t *data;
    uint32_t pages, max_pages;
    uint64_t size, room;
} wasm_rt_memory_t;

/* Tables of functions. They are empty, because the module makes no indirect calls. */
typedef void (*wasm_rt_function_ptr_t)(void);
typedef struct {
    uint32_t func_type;
    wasm_rt_function_ptr_t func;
    void *module_instance;
} wasm_rt_funcref_t;
typedef struct {
    wasm_rt_funcref_t *data;
    uint32_t size;
} wasm_rt_funcref_table_t;
typedef void *wasm_rt_externref_t;
static const wasm_rt_externref_t wasm_rt_externref_null_value = NULL;
typedef struct {
    wasm_rt_externref_t *data;
    uint32_t size;
} wasm_rt_externref_table_t;

/* Where a call continues if its module traps. Each thread has its own. */
static _Thread_local jmp_buf *trapped;

#if defined(__GNUC__)
__attribute__((noreturn))
#endif
static void wasm_rt_trap(wasm_rt_trap_t code) {
    longjmp(*trapped, (int)code);
}

static bool wasm_rt_is_initialized(void) {
    return true;
}

/* Changes the capacity of the memory, and copies its contents. Returns false and changes nothing if
 * the system has no memory. */
static bool give_room(wasm_rt_memory_t *memory, uint64_t room) {
    uint8_t *data = room > SIZE_MAX - BEHIND ? NULL : calloc(1, (size_t)room + BEHIND);
    if (!data) {
        return false;
    }
    if (memory->data) {
        memcpy(data, memory->data, (size_t)memory->size);
        free(memory->data);
    }
    memory->data = data;
    memory->room = room;
    return true;
}

static void wasm_rt_allocate_memory(wasm_rt_memory_t *memory, uint32_t pages, uint32_t most) {
    memory->pages = pages;
    memory->max_pages = most < MOST_PAGES ? most : MOST_PAGES;
    memory->size = (uint64_t)pages * PAGE;
    memory->data = NULL;
    if (!(memory->size < FIRST_ROOM && give_room(memory, FIRST_ROOM)) && !give_room(memory, memory->size)) {
        wasm_rt_trap(WASM_RT_TRAP_EXHAUSTION);
    }
}

static void wasm_rt_free_memory(wasm_rt_memory_t *memory) {
    free(memory->data);
}

/* Grows the memory by a number of pages. Returns the previous number of pages, or UINT32_MAX if the
 * memory cannot grow. If the capacity is too small, the function doubles it. If that is not enough,
 * or the system refuses it, the function reserves only what is required. */
static uint32_t wasm_rt_grow_memory(wasm_rt_memory_t *memory, uint32_t more) {
    uint32_t before = memory->pages;
    uint64_t wanted = ((uint64_t)before + more) * PAGE, ample = memory->room * 2;
    if (more > memory->max_pages - before) {
        return UINT32_MAX;
    }
    if (wanted > memory->room && !(wanted < ample && give_room(memory, ample)) && !give_room(memory, wanted)) {
        return UINT32_MAX;
    }
    memory->size = wanted;
    memory->pages = before + more;
    return before;
}

static void wasm_rt_allocate_funcref_table(wasm_rt_funcref_table_t *table, uint32_t size, uint32_t most) {
    (void)size;
    (void)most;
    table->data = NULL;
    table->size = 0;
}

static void wasm_rt_free_funcref_table(wasm_rt_funcref_table_t *table) {
    (void)table;
}

static uint32_t wasm_rt_register_func_type(uint32_t given, uint32_t results, ...) {
    (void)given;
    (void)results;
    return 0;
}

/* Whether an access of `count` bytes at `address + added` leaves the memory. `added` is a constant.
 * If it is small, as nearly always, only the address is checked, once for all its offsets. */
#define LEAVES(memory, address, added, count) ((added) > BEHIND - 16 ? (uint64_t)(address) + (added) + (count) > (memory)->size : (address) >= (memory)->size)

#define MEMORY_LOAD(name, held, widened, given)                                                     \
    static inline given name(const wasm_rt_memory_t *memory, uint32_t address, uint32_t added) {    \
        held value;                                                                                 \
        if (UNLIKELY(LEAVES(memory, address, added, sizeof value))) {                               \
            wasm_rt_trap(WASM_RT_TRAP_OOB);                                                         \
        }                                                                                           \
        memcpy(&value, memory->data + address + added, sizeof value);                               \
        return (given)(widened)value;                                                               \
    }

#define MEMORY_STORE(name, held, taken)                                                                         \
    static inline void name(const wasm_rt_memory_t *memory, uint32_t address, uint32_t added, taken given) {    \
        held value = (held)given;                                                                               \
        if (UNLIKELY(LEAVES(memory, address, added, sizeof value))) {                                           \
            wasm_rt_trap(WASM_RT_TRAP_OOB);                                                                     \
        }                                                                                                       \
        memcpy(memory->data + address + added, &value, sizeof value);                                           \
    }

/* -- The module, translated by wasm2c */
