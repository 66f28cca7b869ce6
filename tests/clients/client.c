/* The client of the library in C and C++. It reads requests, and prints a line for each; the clients of the other languages
 * read and print the same. A request is a line of words, of which TEXT is a '.' and a schedule's text in hexadecimal digits.
 *
 *   program TEXT MOMENT INPUT ..  steps a program: a word NUMBER,NEXT,OUTPUT for each step
 *   visits TEXT MOMENT INPUT ..   the same, but prints how many nodes each step visited (C alone)
 *   stored TEXT MOMENT INPUT ..   as program, each step by a new schedule with the stored state (not in C)
 *   moved TEXT                    stores a state of the text's first line, for a program of its second line (not in C)
 *   plan TEXT PERCENT LEAST LONGEST [BEGAN ENDED INPUT DRAW]..
 *                                 plans after turns of one schedule, each with a jitter of PERCENT and a least wait of LEAST
 *                                 ms, of which LONGEST ms are honoured: a word 0,BEGIN or 1,0 for each
 *   restarted TEXT CODE BACK MOST plans a loop whose attempts fail at once with CODE, at most MOST, each in a new schedule with
 *                                 the stored state. The loop's clock is set back by BACK ms before the third attempt. Prints
 *                                 the number of attempts, and the last begin that was planned, in ns
 *   retry TEXT CODE TIMES [JITTER LEAST STOP BUDGET [MOST]]
 *                                 retries an effect that fails at once with CODE, the first TIMES times; JITTER in percent and
 *                                 each wait of LEAST ms at least, of which MOST ms are honoured, but not if CODE is STOP; all
 *                                 requests whose BUDGET is 1 share one of 10 tokens and the ratio 0.5
 *   later, loop, later_loop       as retry, but asynchronously (Python, Java, Rust), by a loop, by both (Python)
 *   order TEXT WHAT               retries an effect that fails with the code 7, with a budget of 10 tokens and the ratio 0.5.
 *                                 Prints what is called, in order: attempt, input (the hook for it), least (the hook of the
 *                                 least wait), and of each event sleep, or why the call ended (gave_up); then the
 *                                 code, or 'cancelled', and the tokens that remain. WHAT is plain; unretried (the error isn't
 *                                 retried); cancelled (in the first attempt); input or least (that hook fails); or broke (the
 *                                 budget has 1 token, and the ratio 0)
 *   edge TEXT WHAT [MS]           retries an effect that fails with the code 503 and asks for 1500 ms if WHAT is longest, with
 *                                 the option WHAT of MS ms: prints 'refused', or the number of attempts, and how the call
 *                                 ended, and after two of them short or long, if they are less than a second apart or not
 *   guarded TEXT SEED JITTER ASKED DEADLINE LATE LEAST MOST FALLS
 *                                 a call over a clock that it alone moves, with a jitter of JITTER percent and a deadline,
 *                                 unless DEADLINE is 0. By draws that follow from SEED it asks for up to twice ASKED ms,
 *                                 unless that is 0, sleeps end up to LATE ms late, attempts take LEAST to MOST ms and fail, but
 *                                 for the 200th, and if FALLS is 1 the clock falls now and then. Prints how many attempts there
 *                                 are, in ns the longest wait, all waits and the end; and of its guard, which trusts these
 *                                 times unless the clock falls, in ms the bounds `least`, `most`, `longest_ms`, `total_ms` and
 *                                 `longest_run_ms`, or -1
 *   said TEXT                     the message of a wrong text, in hexadecimal digits after a '.'
 *   limited, limited_later, limited_loop, limited_later_loop TEXT CODE TIMES MOST
 *                                 as retry, later and so on, but the first TIMES attempts take 5 s, or end with CODE some 30 ms
 *                                 after the limit of MOST ms that they get; a coroutine or future is cut off by it (not in C)
 *   good TEXT COUNT               makes COUNT calls that don't fail, and prints the nanoseconds of one (not in C)
 *   many TEXT COUNT               steps a program COUNT times, each time when it may; prints a line after each tenth
 *   bounds TEXT STEPS [LEAST MOST [JITTER ASKED LATE]]
 *                                 zs_bounds: all nine of zs_run_bounds; in C between the number and the place. JITTER is in
 *                                 percent
 *   forged TEXT COUNT             steps COUNT programs with wrong words, and prints how many steps had a result (C alone)
 *   version TEXT                  the version of the library
 *
 * A fault ends a line: NUMBER,AT,WORDS. The line of a retry has the code at which it gave up, or 'done', and the microseconds
 * at which each attempt began; with more numbers also NUMBER:MILLISECONDS for each call of its hook before a sleep. That of a
 * limited one also has the microseconds at which each attempt ended, after those at which it began.
 *
 * client refuse   prints how many allocations each request makes, after it has made each of them fail
 * client threads  runs all requests on four threads at once too, with as much stack as zsched.h says
 *
 * Each block that is passed to a call is exactly as long as its arguments say, so that a memory checker finds each access
 * outside of it. --wrap=malloc, --wrap=realloc and --wrap=free of the linker count allocations and make them fail. */
#ifndef _GNU_SOURCE
#define _GNU_SOURCE
#endif
#include "retry.h"

#include <pthread.h>
#include <stdio.h>
#include <stdlib.h>

#define THREADS 4
#define TIMES 3
#define STACK (64 * 1024)
#define BOUNDS_STACK (192 * 1024)
#define UNTOUCHED 0xAA
#define LENGTH(words, size) ((size) * sizeof *(words))

typedef struct request {
    char *command, *text, *what;
    size_t text_len;
    uint64_t *numbers;
    size_t count;
    char *line;
} request;

/* The program and the state of a request's schedule. */
typedef struct schedule {
    const request *of;
    uint64_t *program, *state;
    size_t size, state_size;
} schedule;

static request *requests;
static size_t request_count;
static long asked, held, refused_at = -1;
static int is_alone = 1;

#ifdef __cplusplus
extern "C" {
#endif
void *__real_malloc(size_t size);
void *__real_realloc(void *place, size_t size);
void __real_free(void *place);

static int is_refused(void) { return __atomic_add_fetch(&asked, 1, __ATOMIC_SEQ_CST) == refused_at; }

void *__wrap_malloc(size_t size)
{
    void *found = is_refused() ? NULL : __real_malloc(size);
    __atomic_add_fetch(&held, found != NULL, __ATOMIC_SEQ_CST);
    return found;
}

void *__wrap_realloc(void *place, size_t size)
{
    void *found = is_refused() ? NULL : __real_realloc(place, size);
    __atomic_add_fetch(&held, found != NULL && place == NULL, __ATOMIC_SEQ_CST);
    return found;
}

void __wrap_free(void *place)
{
    __atomic_sub_fetch(&held, place != NULL, __ATOMIC_SEQ_CST);
    __real_free(place);
}
#ifdef __cplusplus
}
#endif

/* Ends the program unless something holds of a request. */
static void hold(int is_well, const request *it, const char *what)
{
    if (!is_well)
        printf("%s %.*s: it doesn't hold that %s\n", it->command, (int)it->text_len, it->text, what);
    if (!is_well)
        exit(1);
}

static void drop(void *place) { __real_free(*(void **)place); }

/* What frees a block, and the words of a schedule, where its name ends. */
#define OWN __attribute__((cleanup(drop)))
#define OWN_WORDS __attribute__((cleanup(drop_words)))

static void drop_words(schedule *it)
{
    __real_free(it->program);
    __real_free(it->state);
}

/* A separate block of this size with a copy of these bytes, or with bytes that show whether they were written. */
static void *block(const void *bytes, size_t size)
{
    void *found = size ? __real_malloc(size) : NULL;
    return !found ? found : bytes ? memcpy(found, bytes, size) : memset(found, UNTOUCHED, size);
}

static int is_untouched(const void *bytes, size_t size)
{
    while (size && ((const uint8_t *)bytes)[size - 1] == UNTOUCHED)
        size--;
    return size == 0;
}

static void say_fault(FILE *said, uint32_t number, uint64_t at)
{
    char text[ZS_TEXT_MOST];
    hold(zs_strerror(number, at, text, sizeof text) == strlen(text), requests, "the text of a fault ends with a 0");
    fprintf(said, " %u,%lu,%s", number, at, text);
}

/* A step, a plan and an output over words that are too few or wrong: each fails with the same number. */
static enum zs_status deny(const schedule *it, size_t size, size_t state_size)
{
    zs_turn turn = ZS_TURN;
    uint64_t next, visits, begin;
    size_t length;
    enum zs_status number = zs_program_step(it->program, size, it->state, state_size, UINT64_MAX, 7, &next, &visits);
    hold((next | visits) == 0 && zs_plan(it->program, size, it->state, state_size, &turn, &begin) == number && begin == 0 &&
             zs_output(it->program, size, it->state, state_size, NULL, 0, &length) == number && length == 0,
         it->of, "wrong words are rejected by each call");
    return number;
}

/* Tests what zsched.h says of words that are too few, that were changed or that are another program's, and of a turn. */
static void test_words(const schedule *it)
{
    size_t size = it->size, state_size = it->state_size, length;
    OWN uint64_t *few = (uint64_t *)block(NULL, LENGTH(few, size - 1)), *at = (uint64_t *)block(NULL, sizeof *at);
    OWN uint64_t *before = (uint64_t *)block(it->state, LENGTH(before, state_size));
    zs_turn turn = ZS_TURN;
    int is_well = zs_compile(it->of->text, it->of->text_len, few, size - 1, at) == ZS_NO_ROOM && *at == 0 &&
                  is_untouched(few, LENGTH(few, size - 1)) && deny(it, size, state_size - 1) == ZS_NO_ROOM &&
                  zs_program_begin(it->program, size, it->state, state_size - 1) == ZS_NO_ROOM &&
                  zs_output(it->program, size, it->state, state_size, NULL, 0, &length) == ZS_NO_STEP && length == 0;
    for (turn.size = 0; turn.size < 2 * sizeof turn; turn.size += sizeof turn - 1)
        is_well &= zs_plan(few, 0, it->state, state_size, &turn, at) == ZS_OTHER_SIZE && *at == 0;
    for (size_t i = 0; i < size; i++)
        for (uint64_t byte = 1 + i % 255; byte; byte <<= 8) {
            it->program[i] ^= byte;
            is_well &= zs_program_begin(it->program, size, it->state, state_size) == ZS_NO_PROGRAM &&
                       deny(it, size, state_size) == ZS_NO_PROGRAM;
            it->program[i] ^= byte;
        }
    memset(few, 0, LENGTH(few, size - 1));
    for (size_t i = 0; i < 2; i++, few[0] = it->program[0])
        is_well &= zs_program_begin(few, size - 1, it->state, state_size) == ZS_NO_PROGRAM;
    for (size_t short_size = 0; short_size < size; short_size += 1 + short_size / 4)
        is_well &= deny(it, short_size, state_size) == ZS_NO_PROGRAM;
    for (uint64_t change = 1; change; change <<= 21)
        for (size_t i = 0; i < 2; i++) {
            it->state[i] ^= change;
            is_well &= deny(it, size, state_size) == (i ? ZS_OTHER_STATE : ZS_OTHER_VERSION);
            it->state[i] ^= change;
        }
    is_well &= deny(it, size, 0) == ZS_NO_ROOM && deny(it, 0, 0) == ZS_NO_PROGRAM;
    hold(is_well && memcmp(it->state, before, LENGTH(before, state_size)) == 0, it->of, "wrong words are rejected");
}

/* A step over words that, after the first two, represent no state returns, and changes none after the state. */
static void test_odd_states(const schedule *it)
{
    static const uint64_t odd[] = {0, 1, 2, 1ull << 63, UINT64_MAX};
    size_t size = it->state_size, length;
    OWN uint64_t *words = (uint64_t *)block(NULL, LENGTH(words, size + 2));
    OWN char *out = (char *)block(NULL, 9);
    uint64_t next, visits;
    for (size_t kind = 0; kind < 5; kind++) {
        for (size_t i = 0; i < size; i++)
            words[i] = kind == 2 ? i * 0x9E3779B97F4A7C15 : odd[kind];
        memcpy(words, it->state, LENGTH(words, 2));
        enum zs_status told = zs_output(it->program, it->size, words, size + 2, out, 9, &length);
        enum zs_status number = zs_program_step(it->program, it->size, words, size + 2, UINT64_MAX, 7, &next, &visits);
        hold(number <= ZS_DONE && is_untouched(words + size, LENGTH(words, 2)), it->of, "any words may be stepped");
        hold(told == ZS_OK || (told == ZS_NO_STEP && length == 0), it->of, "any words have an output");
    }
}

/* Returns the next of some pseudo-random numbers. */
static uint64_t draw(uint64_t *seed)
{
    *seed = *seed * 6364136223846793005 + 1442695040888963407;
    return *seed >> 32;
}

/* Changes 1 to 6 words of a program, each to a tag or size, by 1 or to any number. The check word is right then. */
static void forge(uint64_t *program, uint64_t size, uint64_t *seed)
{
    for (uint64_t changes = 1 + draw(seed) % 6; changes; changes--) {
        uint64_t *word = &program[2 + draw(seed) % (size - 2)], kind = draw(seed) % 4;
        *word = kind < 2 ? draw(seed) % 20 : kind == 2 ? *word + draw(seed) % 3 - 1 : draw(seed) << draw(seed) % 64;
    }
    program[1] = 0xCBF29CE484222325;
    for (uint64_t i = 2; i < size && i < program[2] + 4; i++)
        program[1] = program[1] * 0x9E3779B97F4A7C15 + program[i];
}

/* Plans after a turn of any numbers. */
static void turn_forged(const schedule *it, const uint64_t *program, uint64_t *state, size_t state_size, uint64_t *seed)
{
    OWN uint64_t *begin = (uint64_t *)block(NULL, sizeof *begin);
    OWN zs_turn *turn = (zs_turn *)block(NULL, sizeof *turn);
    uint64_t *words = (uint64_t *)turn, last = state[2], planned = state[3];
    turn->size = sizeof *turn;
    for (int i = 1; i < 7; i++)
        words[i] = draw(seed) >> draw(seed) % 64;
    enum zs_status number = zs_plan(program, it->size, state, state_size, turn, begin);
    if (number == ZS_FALLS)
        hold(*begin == 0 && state[2] == last && state[3] == planned, it->of, "a turn fails, and changes nothing");
    else
        hold(number <= ZS_DONE &&
                 (number ? *begin == 0 && state[3] == planned
                         : *begin >= turn->began_ns && *begin >= turn->ended_ns && state[3] == *begin / 1000000) &&
                 state[1] == program[1] && state[2] > planned, it->of, "a turn has a plan");
}

/* Steps programs that are forged, each 8 times. Returns how many steps had a result. Others weren't begun. */
static uint64_t step_forged(const schedule *it, uint64_t count)
{
    uint64_t seed = it->program[1], found = 0, next, visits;
    size_t size = it->size, length;
    for (; count; count--) {
        OWN uint64_t *program = (uint64_t *)block(it->program, LENGTH(program, size));
        forge(program, size, &seed);
        uint64_t state_size = program[3] < 2 * size ? program[3] + 5 : it->state_size, moment = 0;
        OWN uint64_t *state = (uint64_t *)block(NULL, LENGTH(state, state_size + 2));
        enum zs_status number = zs_program_begin(program, size, state, state_size);
        hold(number == ZS_OK || number == ZS_NO_PROGRAM || number == ZS_NO_ROOM, it->of, "a program is begun or denied");
        for (int i = 0; i < 8 && number <= ZS_DONE; i++, found++) {
            OWN char *out = (char *)block(NULL, 9);
            moment += draw(&seed) % 1000;
            number = zs_program_step(program, size, state, state_size + i % 3, moment, draw(&seed), &next, &visits);
            hold(number <= ZS_DONE && visits <= 1000 && state[1] == program[1] && state[2] == moment &&
                     zs_output(program, size, state, state_size + i % 3, out, 9, &length) == ZS_OK, it->of,
                 "a step has a result and an output");
            turn_forged(it, program, state, state_size + i % 3, &seed);
            moment = state[2];
        }
        hold(is_untouched(state + state_size, LENGTH(state, 2)), it->of, "the words after a state are unchanged");
    }
    return found;
}

/* Writes the program of a schedule and its state. Returns the number of the last call. */
static enum zs_status compile(schedule *it, uint64_t *at)
{
    enum zs_status number = zs_program_size(it->of->text, it->of->text_len, &it->size, &it->state_size, at);
    hold(!number || it->size + it->state_size == 0, it->of, "a text without a program has no sizes");
    if (number)
        return number;
    hold(it->size <= ZS_PROGRAM_MOST && it->state_size <= ZS_STATE_MOST, it->of, "the header's largest words have room");
    it->program = (uint64_t *)block(NULL, LENGTH(it->program, it->size));
    it->state = (uint64_t *)block(NULL, LENGTH(it->state, it->state_size));
    number = zs_compile(it->of->text, it->of->text_len, it->program, it->size, at);
    return number ? number : zs_program_begin(it->program, it->size, it->state, it->state_size);
}

/* Says the output of the last step, which it writes to rooms of some sizes. */
static void say_output(const schedule *it, FILE *said)
{
    OWN size_t *size = (size_t *)block(NULL, sizeof *size);
    OWN char *whole = NULL;
    hold(zs_output(it->program, it->size, it->state, it->state_size, NULL, 0, size) == ZS_OK, it->of, "a step has an output");
    const size_t length = *size, rooms[] = {length + 1, length + 7, length, 1 + length / 2};
    for (size_t i = 0; i < 4; i++) {
        OWN char *out = (char *)block(NULL, rooms[i]);
        size_t written = rooms[i] > length ? length + 1 : rooms[i];
        whole = whole ? whole : (char *)block(NULL, length + 1);
        hold(zs_output(it->program, it->size, it->state, it->state_size, out, rooms[i], size) == ZS_OK && *size == length &&
                 is_untouched(out + written, rooms[i] - written), it->of, "an output is cut at its room");
        if (i == 0)
            memcpy(whole, out, written);
        hold(whole[length] == 0 && memcmp(whole, out, written) == 0, it->of, "an output is the same in each room");
    }
    fputs(whole, said);
}

/* Makes a step, and says its result, or how many nodes it visited. Returns its number. */
static enum zs_status step(const schedule *it, uint64_t moment, uint64_t input, FILE *said)
{
    OWN uint64_t *before = (uint64_t *)block(it->state, LENGTH(before, it->state_size));
    OWN uint64_t *next = (uint64_t *)block(NULL, sizeof *next), *visits = (uint64_t *)block(NULL, sizeof *visits);
    long made = asked;
    enum zs_status number = zs_program_step(it->program, it->size, it->state, it->state_size, moment, input, next, visits);
    hold(number <= ZS_DONE || ((*next | *visits) == 0 && memcmp(before, it->state, LENGTH(before, it->state_size)) == 0),
         it->of, "a failed step changes nothing");
    if (number > ZS_DONE)
        say_fault(said, number, 0);
    else if (*it->of->command == 'v')
        fprintf(said, " %lu", *visits);
    else {
        fprintf(said, " %u,%lu,", number, *next);
        say_output(it, said);
    }
    hold(!is_alone || asked == made, it->of, "a step and its output allocate no memory");
    return number;
}

static void say_steps(const request *it, FILE *said)
{
    OWN_WORDS schedule made = {it, NULL, NULL, 0, 0};
    uint64_t at = UNTOUCHED, checked = UNTOUCHED;
    enum zs_status number = compile(&made, &at), found = refused_at < 0 ? zs_check(it->text, it->text_len, &checked) : number;
    hold(refused_at >= 0 || (number == ZS_KEEPS_LIST ? found == ZS_OK : found == number && at == checked), it,
         "a check finds what a compiler does");
    if (number)
        say_fault(said, number, at);
    if (!number && refused_at < 0) {
        test_words(&made);
        test_odd_states(&made);
    }
    for (size_t i = 0; i + 1 < it->count && number <= ZS_DONE; i += 2)
        number = step(&made, it->numbers[i], it->numbers[i + 1], said);
}

static void say_plans(const request *it, FILE *said)
{
    OWN_WORDS schedule made = {it, NULL, NULL, 0, 0};
    uint64_t at = UNTOUCHED;
    enum zs_status number = compile(&made, &at);
    if (number)
        say_fault(said, number, at);
    for (const uint64_t *turn = it->numbers + 3; turn < it->numbers + it->count && number <= ZS_DONE; turn += 4) {
        const zs_turn given = {sizeof given, turn[0], turn[1], turn[2], it->numbers[1], it->numbers[2],
                               (uint32_t)it->numbers[0], (uint32_t)turn[3]};
        OWN zs_turn *block_of = (zs_turn *)block(&given, sizeof given);
        OWN uint64_t *begin = (uint64_t *)block(NULL, sizeof *begin);
        long before = asked;
        number = zs_plan(made.program, made.size, made.state, made.state_size, block_of, begin);
        hold(!is_alone || asked == before, it, "a plan allocates no memory");
        hold(number == ZS_OK || *begin == 0, it, "what isn't planned has no begin");
        if (number > ZS_DONE)
            say_fault(said, number, 0);
        else
            fprintf(said, " %u,%lu", number, *begin);
    }
}

static void say_restarted(const request *it, FILE *said)
{
    OWN_WORDS schedule made = {it, NULL, NULL, 0, 0};
    const uint64_t start = 1000000000000000000;
    uint64_t at, clock = start, count = 0, begin, last = 0;
    enum zs_status number = compile(&made, &at);
    while (number == ZS_OK && count < it->numbers[2]) {
        OWN_WORDS schedule again = made;
        made.program = (uint64_t *)block(again.program, LENGTH(again.program, again.size));
        made.state = (uint64_t *)block(again.state, LENGTH(again.state, again.state_size));
        zs_turn turn = ZS_TURN;
        clock -= ++count == 3 ? it->numbers[1] * 1000000 : 0;
        turn.began_ns = turn.ended_ns = clock > start ? clock - start : 0;
        turn.input = it->numbers[0];
        number = zs_plan(made.program, made.size, made.state, made.state_size, &turn, &begin);
        last = number ? last : begin;
        clock = start + last;
    }
    if (number > ZS_DONE)
        say_fault(said, number, at);
    else
        fprintf(said, " %lu %lu", count, last);
}

static void say_bounds(const request *it, FILE *said)
{
    const uint64_t *numbers = it->numbers;
    zs_driver given = ZS_DRIVER;
    if (it->count > 2) {
        given.least_ms = numbers[1];
        given.has_most = 1;
        given.most_ms = numbers[2];
    }
    if (it->count > 5) {
        given.least_percent -= numbers[3];
        given.asked_ms = numbers[4];
        given.late_ms = numbers[5];
    }
    OWN zs_driver *driver = (zs_driver *)block(&given, sizeof given);
    OWN zs_run_bounds *found = (zs_run_bounds *)block(NULL, sizeof *found);
    OWN uint64_t *at = (uint64_t *)block(NULL, sizeof *at);
    uint64_t *fields = &found->seen;
    hold(zs_bounds(it->text, it->text_len, driver, numbers[0], found, at) == ZS_OTHER_SIZE &&
             is_untouched(found, sizeof *found) && *at == 0, it, "bounds have the size of their struct");
    found->size = sizeof *found;
    driver->size--;
    hold(zs_bounds(it->text, it->text_len, driver, numbers[0], found, at) == ZS_OTHER_SIZE &&
             is_untouched(fields, sizeof *found - 8) && *at == 0, it, "a driver has the size of its struct");
    driver->size++;
    enum zs_status number = zs_bounds(it->text, it->text_len, driver, numbers[0], found, at);
    hold(number == ZS_OK || is_untouched(fields, sizeof *found - 8), it, "a fault changes no bounds");
    fprintf(said, " %u", number);
    for (size_t i = 0; i < 9; i++)
        fprintf(said, " %lu", number ? 0 : fields[i]);
    fprintf(said, " %lu", *at);
}

/* An effect that fails, and says when each attempt began, and what its hooks are called with. */
typedef struct effect {
    FILE *said;
    uint64_t begun, code, times, stop, least;
} effect;

static uint64_t attempt(void *data)
{
    effect *it = (effect *)data;
    fprintf(it->said, " %lu", retry_passed(it->begun) / 1000);
    return it->times-- ? it->code : 0;
}

static int is_retried(void *data, uint64_t code) { return code != ((effect *)data)->stop; }

static uint64_t least_ms(void *data, uint64_t code) { return code ? ((effect *)data)->least : 0; }

static void on_event(void *data, const retry_event *event)
{
    if (event->why == RETRY_WAITS)
        fprintf(((effect *)data)->said, " %lu:%lu", event->number, event->wait_ns / 1000000);
}

/* Says how a call ended, and then what was noted in the file, which it closes. */
static void say_end(retry_result result, FILE *noted, char *const *notes, FILE *said)
{
    fclose(noted);
    if (result.end == RETRY_FAULT)
        say_fault(said, result.status, 0);
    else if (result.end == RETRY_CANCELLED)
        fputs(" cancelled", said);
    else
        fprintf(said, result.end == RETRY_SUCCEEDED ? " done" : " %lu", result.code);
    fputs(*notes, said);
}

/* A separate function, because its words would take up the stack of all calls. */
__attribute__((noinline)) static void say_retry(const request *it, FILE *said)
{
    static retry_budget budget = RETRY_BUDGET(10000, 500);
    OWN char *notes = NULL, *text = strndup(it->text, it->text_len);
    const uint64_t *numbers = it->numbers;
    size_t size;
    uint64_t at = 0;
    effect failing = {open_memstream(&notes, &size), retry_passed(0), numbers[0], numbers[1], 0, 0};
    retry_options options = RETRY_OPTIONS;
    retry_policy policy;
    if (it->count > 2) {
        options.is_retried = is_retried;
        options.least_ms = least_ms;
        options.longest_ms = it->count > 6 ? (int64_t)numbers[6] : 0;
        options.on_event = on_event;
        options.percent = (uint32_t)numbers[2];
        options.budget = numbers[5] ? &budget : NULL;
        failing.least = numbers[3];
        failing.stop = numbers[4];
    }
    enum zs_status status = retry_compile(&policy, text, &at);
    const retry_result fault = {RETRY_FAULT, status, at, 0};
    say_end(status ? fault : retry(&policy, it->count > 2 ? &options : NULL, attempt, &failing), failing.said, &notes, said);
}

/* What a call of `order` notes, and what it is asked to do. */
typedef struct order {
    FILE *said;
    const char *what;
    volatile int cancel;
} order;

static uint64_t ordered_attempt(void *data)
{
    order *it = (order *)data;
    fputs(" attempt", it->said);
    __atomic_store_n(&it->cancel, strcmp(it->what, "cancelled") == 0, __ATOMIC_RELEASE);
    return 7;
}

static int ordered_is_retried(void *data, uint64_t code)
{
    return code == 7 && strcmp(((order *)data)->what, "unretried") != 0;
}

static uint64_t ordered_least_ms(void *data, uint64_t code)
{
    fputs(" least", ((order *)data)->said);
    return code - 7;
}

/* Says why a call ended, or that it sleeps. */
static void ordered_event(void *data, const retry_event *event)
{
    FILE *said = ((order *)data)->said;
    fputc(' ', said);
    for (const char *at = event->why == RETRY_WAITS ? "sleep" : retry_why(event->why); *at; at++)
        fputc(*at == ' ' ? '_' : *at, said);
}

__attribute__((noinline)) static void say_order(const request *it, FILE *said)
{
    OWN char *text = strndup(it->text, it->text_len);
    retry_budget budget = RETRY_BUDGET(10000, 500), broke = RETRY_BUDGET(1000, 0);
    order noted = {said, it->what, 0};
    retry_budget *shared = strcmp(it->what, "broke") == 0 ? &broke : &budget;
    retry_options options = RETRY_OPTIONS;
    retry_policy policy;
    uint64_t at;
    options.is_retried = ordered_is_retried;
    options.least_ms = ordered_least_ms;
    options.on_event = ordered_event;
    options.budget = shared;
    options.cancel = &noted.cancel;
    hold(retry_compile(&policy, text, &at) == ZS_OK, it, "the policy has a program");
    retry_result result = retry(&policy, &options, ordered_attempt, &noted);
    if (result.end == RETRY_CANCELLED)
        fputs(" cancelled", said);
    else
        fprintf(said, " %lu", result.code);
    fprintf(said, " %.1f", (double)shared->tokens / 1000);
}

/* When the attempts of a call of `edge` began, and the least wait that they ask for. */
typedef struct edge {
    uint64_t began[2], count, least;
} edge;

static uint64_t edge_attempt(void *data)
{
    edge *it = (edge *)data;
    it->began[it->count++ % 2] = retry_passed(0);
    return 503;
}

static uint64_t edge_least_ms(void *data, uint64_t code) { return code ? ((edge *)data)->least : 0; }

__attribute__((noinline)) static void say_edge(const request *it, FILE *said)
{
    static const int cancelled = 1;
    OWN char *text = strndup(it->text, it->text_len);
    edge noted = {{0, 0}, 0, strcmp(it->what, "longest") == 0 ? 1500u : 0u};
    retry_options options = RETRY_OPTIONS;
    retry_policy policy;
    uint64_t at;
    options.least_ms = edge_least_ms;
    options.longest_ms = it->count > 1 ? (int64_t)it->numbers[1] : 0;
    options.cancel = strcmp(it->what, "cancelled") == 0 ? &cancelled : NULL;
    hold(retry_compile(&policy, text, &at) == ZS_OK, it, "the policy has a program");
    retry_result result = retry(&policy, &options, edge_attempt, &noted);
    fprintf(said, result.end == RETRY_CANCELLED ? " %lu cancelled" : " %lu %lu", result.attempts, result.code);
    if (result.attempts == 2)
        fputs(noted.began[1] - noted.began[0] < 1000000000 ? " short" : " long", said);
}

/* A call of `guarded`: the request's numbers, the last draw, the clock, and what the call did. */
typedef struct guarded {
    const uint64_t *to;
    uint64_t drawn, now, ended, attempts, longest, total;
} guarded;

/* Draws a number of at most so much. */
static uint64_t guarded_draw(guarded *it, uint64_t most) { return draw(&it->drawn) % (most + 1); }

/* Sets the clock back now and then. */
static void guarded_fall(guarded *it)
{
    if (it->to[7] && guarded_draw(it, 3) == 0)
        it->now -= 1000 * guarded_draw(it, 10000000);
}

static uint64_t guarded_now(void *data) { return ((guarded *)data)->now; }

static void guarded_sleep(void *data, uint64_t time_ns)
{
    guarded *it = (guarded *)data;
    it->now += time_ns + 1000 * guarded_draw(it, 1000 * it->to[4]);
    guarded_fall(it);
}

static uint64_t guarded_least_ms(void *data, uint64_t code)
{
    guarded *it = (guarded *)data;
    return code ? guarded_draw(it, 2 * it->to[2]) : 0;
}

static uint64_t guarded_attempt(void *data)
{
    guarded *it = (guarded *)data;
    const uint64_t wait = it->now - it->ended;
    it->longest = wait > it->longest ? wait : it->longest;
    it->total += wait;
    it->now += 1000 * (1000 * it->to[5] + guarded_draw(it, 1000 * (it->to[6] - it->to[5])));
    guarded_fall(it);
    it->ended = it->now;
    return ++it->attempts < 200 ? 502 + guarded_draw(it, 2) : 0;
}

__attribute__((noinline)) static void say_guarded(const request *it, FILE *said)
{
    const uint64_t start = 1000000000000000, *to = it->numbers;
    OWN char *text = strndup(it->text, it->text_len);
    guarded noted = {to, to[0], start, start, 0, 0, 0};
    const retry_clock clock = {guarded_now, guarded_sleep, &noted};
    retry_guard guard = RETRY_GUARD(to[7] ? UINT64_MAX : to[4]);
    retry_options options = RETRY_OPTIONS;
    retry_policy policy;
    zs_run_bounds found;
    uint64_t at;
    options.percent = (uint32_t)to[1];
    options.least_ms = to[2] ? guarded_least_ms : NULL;
    options.longest_ms = (int64_t)to[2];
    options.deadline_ms = to[3];
    options.clock = &clock;
    guard.trusting_shortest_ms = to[7] ? 0 : to[5];
    guard.trusting_longest_ms = to[7] ? 0 : to[6];
    hold(retry_compile(&policy, text, &at) == ZS_OK, it, "the policy has a program");
    retry(&policy, &options, guarded_attempt, &noted);
    hold(retry_bounds(&policy, &options, &guard, &found) == ZS_OK, it, "the loop has bounds");
    fprintf(said, " %lu %lu %lu %lu", noted.attempts, noted.longest, noted.total, noted.ended - start);
    fprintf(said, " %lu %ld %lu %ld %ld", found.least, found.has_most ? (long)found.most : -1, found.longest_ms,
            found.has_total ? (long)found.total_ms : -1, found.has_longest_run ? (long)found.longest_run_ms : -1);
}

__attribute__((noinline)) static void say_message(const request *it, FILE *said)
{
    OWN char *text = strndup(it->text, it->text_len);
    char message[RETRY_MESSAGE_MOST];
    retry_policy policy;
    uint64_t at;
    enum zs_status status = retry_compile(&policy, text, &at);
    retry_explain(text, status, at, message, sizeof message);
    fputs(" .", said);
    for (size_t i = 0; message[i]; i++)
        fprintf(said, "%02x", (unsigned char)message[i]);
}

static void step_many(const request *it)
{
    OWN_WORDS schedule made = {it, NULL, NULL, 0, 0};
    uint64_t at, visits, next = 0;
    hold(compile(&made, &at) == 0, it, "the policy has a program");
    for (uint64_t i = 1; i <= it->numbers[0]; i++) {
        hold(zs_program_step(made.program, made.size, made.state, made.state_size, next, 503, &next, &visits) <= ZS_DONE, it,
             "a step has a result");
        if (i % (it->numbers[0] / 10) == 0)
            puts("");
        fflush(stdout);
    }
}

static void say_forged(const request *it, FILE *said)
{
    OWN_WORDS schedule made = {it, NULL, NULL, 0, 0};
    uint64_t at;
    hold(compile(&made, &at) == 0, it, "the text has a program");
    fprintf(said, " %lu", step_forged(&made, it->numbers[0]));
}

static int is(const request *it, const char *command) { return strcmp(it->command, command) == 0; }

/* Runs a request, and returns its line. */
static char *served(const request *it)
{
    char *line;
    size_t size;
    FILE *said = open_memstream(&line, &size);
    if (is(it, "version"))
        fprintf(said, " %u", zs_version());
    else if (is(it, "bounds"))
        say_bounds(it, said);
    else if (is(it, "retry"))
        say_retry(it, said);
    else if (is(it, "forged"))
        say_forged(it, said);
    else if (is(it, "plan"))
        say_plans(it, said);
    else if (is(it, "restarted"))
        say_restarted(it, said);
    else if (is(it, "order"))
        say_order(it, said);
    else if (is(it, "edge"))
        say_edge(it, said);
    else if (is(it, "guarded"))
        say_guarded(it, said);
    else if (is(it, "said"))
        say_message(it, said);
    else
        say_steps(it, said);
    fclose(said);
    return line;
}

/* Makes each allocation of a request fail in turn, and returns how many there are. Whichever fails: the line is the same, or
 * ends early and says so. */
static long refuse(const request *it)
{
    OWN char *wanted = served(it);
    for (long at = 1;; at++) {
        long before = held;
        asked = 0;
        refused_at = at;
        OWN char *found = served(it);
        char *end = strstr(found, *it->command == 'b' ? " 5 0 0 0 0 0 0 0 0" : " 5,0,out of memory");
        refused_at = -1;
        hold(held == before, it, "each block is freed");
        hold(end ? asked >= at && strncmp(found, wanted, (size_t)(end - found)) == 0 : strcmp(found, wanted) == 0, it, found);
        if (asked < at)
            return at - 1;
    }
}

static void *thread(void *ignored)
{
    for (size_t i = 0; i < TIMES * request_count; i++) {
        const request *it = &requests[i % request_count];
        OWN char *found = served(it);
        hold(strcmp(found, it->line) == 0, it, found);
    }
    return ignored;
}

/* Runs all requests on four threads with small stacks; they have the size for zs_bounds if the first request is for it. */
static void run_at_once(void)
{
    pthread_t threads[THREADS];
    pthread_attr_t attributes;
    pthread_attr_init(&attributes);
    pthread_attr_setstacksize(&attributes, *requests->command == 'b' ? BOUNDS_STACK : STACK);
    is_alone = 0;
    for (int i = 0; i < THREADS; i++)
        hold(pthread_create(&threads[i], &attributes, thread, NULL) == 0, requests, "a thread starts");
    for (int i = 0; i < THREADS; i++)
        pthread_join(threads[i], NULL);
    pthread_attr_destroy(&attributes);
}

static void read_request(request *it, char *line)
{
    size_t words = 0;
    for (char *at = line; *at; at++)
        words += *at == ' ';
    char *rest, *digits, *word;
    it->command = strdup(strtok_r(line, " \n", &rest));
    digits = strtok_r(NULL, " \n", &rest) + 1;
    it->text_len = strlen(digits) / 2;
    it->text = (char *)block(NULL, it->text_len);
    it->what = NULL;
    for (size_t i = 0; i < it->text_len; i++) {
        const char pair[] = {digits[2 * i], digits[2 * i + 1], 0};
        it->text[i] = (char)strtoul(pair, NULL, 16);
    }
    it->numbers = (uint64_t *)block(NULL, LENGTH(it->numbers, words - 1));
    for (it->count = 0; (word = strtok_r(NULL, " \n", &rest)); it->count++) {
        it->what = it->what ? it->what : strdup(word);
        it->numbers[it->count] = strtoull(word, NULL, 10);
    }
}

int main(int count, char **words)
{
    OWN char *line = NULL;
    size_t size = 0;
    while (getline(&line, &size, stdin) > 0) {
        requests = (request *)__real_realloc(requests, LENGTH(requests, request_count + 1));
        request *it = &requests[request_count++];
        read_request(it, line);
        it->line = NULL;
        if (*it->command == 'm')
            step_many(it);
        else if (count > 1 && *words[1] == 'r')
            printf("%ld\n", refuse(it));
        else
            it->line = served(it);
    }
    if (count > 1 && *words[1] == 't')
        run_at_once();
    for (size_t i = 0; i < request_count; i++)
        if (requests[i].line)
            puts(requests[i].line + (*requests[i].line == ' '));
    return 0;
}
