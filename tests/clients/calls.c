/* Makes all ten calls of zsched.h for each line of standard input, and prints a line of all that they return and write. A line
 * is one of tests/all_calls.py; calls.js prints the same over WebAssembly. */
#define __USE_MINGW_ANSI_STDIO 1
#include <zsched.h>

#include <inttypes.h>
#include <stdio.h>
#include <stdlib.h>
#include <string.h>

#define UNTOUCHED 77
/* The bytes of words that are hashed: one more than a program or a state has. */
#define LENGTH(words) (8 * ((words) < ZS_PROGRAM_MOST ? (words) + 1 : (words)))

static uint64_t program[ZS_PROGRAM_MOST], state[ZS_STATE_MOST], other[ZS_STATE_MOST];
static char word[1 << 20], out[4096];
static unsigned char text[1 << 19];

static uint64_t number(void)
{
    uint64_t found;
    if (scanf("%" SCNu64, &found) != 1)
        exit(9);
    return found;
}

static void say(uint64_t found) { printf(" %" PRIu64, found); }

/* A hash of bytes, FNV-1a. */
static void say_hash(const void *data, size_t size)
{
    uint64_t hash = 0xcbf29ce484222325u;
    for (size_t i = 0; i < size; i++)
        hash = (hash ^ ((const unsigned char *)data)[i]) * 0x100000001b3u;
    printf(" %016" PRIx64, hash);
}

static void say_bounds(size_t length)
{
    zs_driver driver = ZS_DRIVER;
    zs_run_bounds found = ZS_RUN_BOUNDS;
    uint64_t steps, at = UNTOUCHED;
    driver.least_ms = number(), driver.has_most = number(), driver.most_ms = number();
    driver.least_percent = number(), driver.most_percent = number();
    driver.asked_ms = number(), driver.late_ms = number();
    steps = number();
    say(zs_bounds((char *)text, length, &driver, steps, &found, &at));
    say(at);
    for (size_t i = 1; i < sizeof found / 8; i++)
        say(((uint64_t *)&found)[i]);
}

static void say_turn(void)
{
    zs_turn turn = ZS_TURN;
    uint64_t begin = UNTOUCHED, next = UNTOUCHED, visits = UNTOUCHED;
    size_t size = UNTOUCHED;
    turn.began_ns = number(), turn.ended_ns = number(), turn.input = number();
    turn.least_ms = number(), turn.longest_ms = number();
    turn.percent = (uint32_t)number(), turn.draw = (uint32_t)number();
    say(zs_plan(program, ZS_PROGRAM_MOST, state, ZS_STATE_MOST, &turn, &begin));
    say(begin);
    say(zs_program_step(program, ZS_PROGRAM_MOST, other, ZS_STATE_MOST, turn.ended_ns / 1000000, turn.input, &next,
                        &visits));
    say(next), say(visits);
    memset(out, 0, sizeof out);
    say(zs_output(program, ZS_PROGRAM_MOST, state, ZS_STATE_MOST, out, sizeof out, &size));
    say(size);
    printf(" %s;", out);
}

static void say_case(size_t length)
{
    uint64_t at = UNTOUCHED, turns;
    size_t size = UNTOUCHED, state_size = UNTOUCHED;
    uint32_t found = zs_check((char *)text, length, &at);
    size_t said = zs_strerror(found, at, out, sizeof out);
    printf("%u %" PRIu64 " %zu %.*s", found, at, said, (int)said, out);
    say_bounds(length);
    say(zs_program_size((char *)text, length, &size, &state_size, &at));
    say(size), say(state_size), say(at);
    memset(program, 0, sizeof program), memset(state, 0, sizeof state);
    say(zs_compile((char *)text, length, program, ZS_PROGRAM_MOST, &at));
    say(at);
    say_hash(program, LENGTH(size));
    say(zs_program_begin(program, ZS_PROGRAM_MOST, state, ZS_STATE_MOST));
    memcpy(other, state, sizeof state);
    for (turns = number(); turns; turns--)
        say_turn();
    say_hash(state, LENGTH(state_size));
    say_hash(other, LENGTH(state_size));
    printf("\n");
}

int main(void)
{
    printf("%u\n", (unsigned)zs_version());
    while (scanf("%1048575s", word) == 1) {
        size_t length = strlen(word + 1) / 2;
        for (size_t i = 0; i < length; i++) {
            unsigned byte;
            if (sscanf(word + 1 + 2 * i, "%2x", &byte) != 1)
                return 9;
            text[i] = (unsigned char)byte;
        }
        say_case(length);
    }
}
