/* The calls of zsched.h for Node, by N-API. Texts and output buffers are Uint8Arrays, words are BigUint64Arrays, and so
 * are structs, without their size. zsched.js calls this. */
#include <node_api.h>
#include <stdarg.h>
#include <string.h>
#include <zsched.h>

#define MOST 5

typedef struct span {
    void *data;
    size_t length;
} span;

/* Reads a typed array: of bytes if `kind` is 'b', else of as many words as this digit says, or more. Returns 0 if it is
 * none. */
static int items(napi_env env, napi_value value, char kind, span *found)
{
    napi_typedarray_type type;
    bool is_typed = false;
    return napi_is_typedarray(env, value, &is_typed) == napi_ok && is_typed &&
           napi_get_typedarray_info(env, value, &type, &found->length, &found->data, NULL, NULL) == napi_ok &&
           (kind == 'b' ? type == napi_uint8_array
                        : type == napi_biguint64_array && found->length >= (size_t)(kind - '0'));
}

/* Reads the arguments of a call, of which each has a letter: 'n' is a number, for a uint64_t; the others are arrays,
 * for a span. Returns 0 if it threw. */
static int given(napi_env env, napi_callback_info info, const char *kinds, ...)
{
    napi_value values[MOST];
    size_t count = MOST;
    va_list places;
    bool is_well = napi_get_cb_info(env, info, &count, values, NULL, NULL) == napi_ok && count == strlen(kinds);
    va_start(places, kinds);
    for (size_t i = 0; is_well && i < count; i++) {
        bool is_whole = true;
        if (kinds[i] == 'n')
            is_well = napi_get_value_bigint_uint64(env, values[i], va_arg(places, uint64_t *), &is_whole) == napi_ok &&
                is_whole;
        else
            is_well = items(env, values[i], kinds[i], va_arg(places, span *));
    }
    va_end(places);
    if (!is_well)
        napi_throw_type_error(env, NULL, "zsched: not the expected arguments");
    return is_well;
}

static napi_value result(napi_env env, uint32_t number)
{
    napi_value made = NULL;
    napi_create_uint32(env, number, &made);
    return made;
}

/* bounds(text, driver, steps, found, at) */
static napi_value bounds(napi_env env, napi_callback_info info)
{
    span text, driver, found, at;
    uint64_t steps;
    if (!given(env, info, "b7n91", &text, &driver, &steps, &found, &at))
        return NULL;
    zs_driver does = ZS_DRIVER;
    zs_run_bounds run = ZS_RUN_BOUNDS;
    memcpy(&does.least_ms, driver.data, sizeof does - sizeof does.size);
    uint32_t number = zs_bounds(text.data, text.length, &does, steps, &run, at.data);
    memcpy(found.data, &run.seen, sizeof run - sizeof run.size);
    return result(env, number);
}

/* compile(text, program, state, sizes, at): the program, and its state before any step, in blocks of ZS_PROGRAM_MOST and
 * ZS_STATE_MOST words, and how many words each has */
static napi_value compile(napi_env env, napi_callback_info info)
{
    span text, program, state, sizes, at;
    size_t size, state_size;
    if (!given(env, info, "b0021", &text, &program, &state, &sizes, &at))
        return NULL;
    uint32_t number = zs_program_size(text.data, text.length, &size, &state_size, at.data);
    if (number == ZS_OK)
        number = zs_compile(text.data, text.length, program.data, program.length, at.data);
    if (number == ZS_OK)
        number = zs_program_begin(program.data, program.length, state.data, state.length);
    memcpy(sizes.data, (uint64_t[]){size, state_size}, 2 * sizeof(uint64_t));
    return result(env, number);
}

/* step(program, state, moment, input, next) */
static napi_value step(napi_env env, napi_callback_info info)
{
    span program, state, next;
    uint64_t moment, input, visits;
    if (!given(env, info, "00nn1", &program, &state, &moment, &input, &next))
        return NULL;
    return result(env, zs_program_step(program.data, program.length, state.data, state.length, moment, input,
                                       next.data, &visits));
}

/* plan(program, state, turn, begin) */
static napi_value plan(napi_env env, napi_callback_info info)
{
    span program, state, turn, begin;
    if (!given(env, info, "0071", &program, &state, &turn, &begin))
        return NULL;
    const uint64_t *it = turn.data;
    const zs_turn made = {sizeof made, it[0], it[1], it[2], it[3], it[4], (uint32_t)it[5], (uint32_t)it[6]};
    return result(env, zs_plan(program.data, program.length, state.data, state.length, &made, begin.data));
}

/* output(program, state, out, size) */
static napi_value output(napi_env env, napi_callback_info info)
{
    span program, state, out, size;
    size_t found;
    if (!given(env, info, "00b1", &program, &state, &out, &size))
        return NULL;
    uint32_t number = zs_output(program.data, program.length, state.data, state.length, out.data, out.length, &found);
    *(uint64_t *)size.data = found;
    return result(env, number);
}

/* strerror(number, at, out): returns the number of bytes of the text */
static napi_value error_text(napi_env env, napi_callback_info info)
{
    span out;
    uint64_t number, at;
    if (!given(env, info, "nnb", &number, &at, &out))
        return NULL;
    return result(env, (uint32_t)zs_strerror((uint32_t)number, at, out.data, out.length));
}

/* version() */
static napi_value version(napi_env env, napi_callback_info info)
{
    (void)info;
    return result(env, zs_version());
}

#define CALL(name, call) {name, NULL, call, NULL, NULL, NULL, napi_default, NULL}

NAPI_MODULE_INIT()
{
    const napi_property_descriptor calls[] = {
        CALL("bounds", bounds), CALL("compile", compile), CALL("step", step), CALL("plan", plan),
        CALL("output", output), CALL("strerror", error_text), CALL("version", version),
    };
    return napi_define_properties(env, exports, sizeof calls / sizeof *calls, calls) == napi_ok ? exports : NULL;
}
