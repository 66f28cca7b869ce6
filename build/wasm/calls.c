/* zsched.h over the proved module, compiled further: the verdict names x86-64, and wasm2c made this of the module in
 * WebAssembly. What is passed is copied into the module's memory, and back, which no proof covers. One call runs at a time,
 * and others wait. */
#if __BYTE_ORDER__ != __ORDER_LITTLE_ENDIAN__
#error "zsched.c is for little-endian machines"
#endif
#define WASM_RT_MEMCHECK_SIGNAL_HANDLER 0
#define WASM_RT_USE_STACK_DEPTH_COUNT 0
#include <pthread.h>
#include <stdlib.h>
#include <string.h>
#include "module.c"
#include "zsched.h"

static Z_zsched_instance_t module;
static pthread_mutex_t turn = PTHREAD_MUTEX_INITIALIZER;
/* The memory as it begins: more than those calls need that allocate nothing. */
static uint8_t begin[BEGIN];

void wasm_rt_trap(wasm_rt_trap_t code) { (void)code, abort(); }
bool wasm_rt_is_initialized(void) { return 1; }
uint32_t wasm_rt_register_func_type(uint32_t given, uint32_t returned, ...) { return (void)given, returned; }
void wasm_rt_free_memory(wasm_rt_memory_t *memory) { (void)memory; }
void wasm_rt_allocate_memory(wasm_rt_memory_t *memory, uint32_t pages, uint32_t most) {
    *memory = (wasm_rt_memory_t){.data = begin, .pages = pages, .max_pages = most, .size = sizeof begin};
}
uint32_t wasm_rt_grow_memory(wasm_rt_memory_t *memory, uint32_t more) {
    uint32_t before = memory->pages, size = (before + more) << 16;
    uint8_t *made = realloc(memory->data == begin ? NULL : memory->data, size);
    if (!made)
        return ~0u;
    if (memory->data == begin)
        memcpy(made, begin, memory->size);
    memset(made + memory->size, 0, size - memory->size);
    memory->data = made, memory->pages += more, memory->size = size;
    return before;
}

/* What is passed, its size and whether it is written; and its place in the module. */
struct part { void *at; size_t size; int is_written; uint64_t there; };
#define IN(at, size) {(void *)(at), size, 0, 0}
#define OUT(at, size) {at, size, 1, 0}

static int put(struct part *it, int count) {
    uint64_t size = 0, room;
    pthread_mutex_lock(&turn);
    if (!module.w2c_memory.data)
        Z_zsched_init_module(), Z_zsched_instantiate(&module);
    for (int i = 0; i < count; size += (it[i++].size + 15) & ~(uint64_t)15)
        it[i].there = size;
    room = Z_zschedZ_zs_room(&module, size);
    for (int i = 0; room && i < count; i++)
        if ((it[i].there += room) && it[i].size)
            memcpy(module.w2c_memory.data + it[i].there, it[i].at, it[i].size);
    return room != 0;
}

static uint64_t take(struct part *it, int count, uint64_t result) {
    for (int i = 0; i < count; i++)
        if (it[i].is_written && it[i].size)
            memcpy(it[i].at, module.w2c_memory.data + it[i].there, it[i].size);
    pthread_mutex_unlock(&turn);
    return result;
}

#define LIST(...) {__VA_ARGS__}
#define CALL(type, name, given, parts, ...) \
    type name given { \
        struct part it[] = LIST parts; \
        int count = sizeof it / sizeof *it; \
        return put(it, count) ? take(it, count, Z_zschedZ_##name(&module, __VA_ARGS__)) : take(0, 0, ZS_NO_MEMORY); \
    }
#define LEAST(n, most) ((n) < (most) ? (n) : (most))
#define WORDS(n) LEAST(n, (size_t)ZS_STATE_MOST)
#define A it[0].there
#define B it[1].there
#define C it[2].there
#define D it[3].there

CALL(enum zs_status, zs_check, (const char *t, size_t n, uint64_t *at), (IN(t, n), OUT(at, 8)), A, n, B)
CALL(enum zs_status, zs_bounds,
     (const char *t, size_t n, const zs_driver *d, uint64_t steps, zs_run_bounds *found, uint64_t *at),
     (IN(t, n), IN(d, sizeof *d), OUT(found, sizeof *found), OUT(at, 8)), A, n, B, steps, C, D)
CALL(enum zs_status, zs_program_size, (const char *t, size_t n, size_t *p, size_t *s, uint64_t *at),
     (IN(t, n), OUT(p, sizeof *p), OUT(s, sizeof *s), OUT(at, 8)), A, n, B, C, D)
CALL(enum zs_status, zs_compile, (const char *t, size_t n, uint64_t *p, size_t k, uint64_t *at),
     (IN(t, n), OUT(p, 8 * WORDS(k)), OUT(at, 8)), A, n, B, WORDS(k), C)
CALL(enum zs_status, zs_program_begin, (const uint64_t *p, size_t k, uint64_t *s, size_t m),
     (IN(p, 8 * WORDS(k)), OUT(s, 8 * WORDS(m))), A, WORDS(k), B, WORDS(m))
CALL(enum zs_status, zs_plan, (const uint64_t *p, size_t k, uint64_t *s, size_t m, const zs_turn *turn, uint64_t *next),
     (IN(p, 8 * WORDS(k)), OUT(s, 8 * WORDS(m)), IN(turn, sizeof *turn), OUT(next, 8)), A, WORDS(k), B, WORDS(m), C, D)
CALL(enum zs_status, zs_program_step,
     (const uint64_t *p, size_t k, uint64_t *s, size_t m, uint64_t now, uint64_t input, uint64_t *next, uint64_t *visits),
     (IN(p, 8 * WORDS(k)), OUT(s, 8 * WORDS(m)), OUT(next, 8), OUT(visits, 8)), A, WORDS(k), B, WORDS(m), now, input, C, D)
CALL(enum zs_status, zs_output,
     (const uint64_t *p, size_t k, const uint64_t *s, size_t m, char *out, size_t n, size_t *size),
     (IN(p, 8 * WORDS(k)), IN(s, 8 * WORDS(m)), OUT(out, LEAST(n, 1 << 16)), OUT(size, sizeof *size)),
     A, WORDS(k), B, WORDS(m), C, LEAST(n, 1 << 16), D)
CALL(size_t, zs_strerror, (uint32_t number, uint64_t at, char *out, size_t n), (OUT(out, LEAST(n, ZS_TEXT_MOST))),
     number, at, A, LEAST(n, ZS_TEXT_MOST))
uint32_t zs_version(void) { return Z_zschedZ_zs_version(&module); }
