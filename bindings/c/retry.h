/* A retry loop over zs_plan of zsched.h, for Linux, which is installed beside it.
 *
 *     static retry_policy policy;
 *     status = retry_compile(&policy, "(exponential(100) && recurs(5))", &at);
 *     result = retry(&policy, NULL, attempt, data);
 *
 * With -std=c99 and the like, include it before other headers, or define _POSIX_C_SOURCE. */
#ifndef RETRY_H
#define RETRY_H

#if defined(__STRICT_ANSI__) && !defined(_POSIX_C_SOURCE) && !defined(_GNU_SOURCE)
#define _POSIX_C_SOURCE 200809L
#endif
#include <stdio.h>
#include <stdlib.h>
#include <string.h>
#include <time.h>
#include <zsched.h>
#ifndef CLOCK_MONOTONIC
#error "retry.h: include it before other headers, or define _POSIX_C_SOURCE as 200809L"
#endif

/* How many words a program and its state may have: 4 for each node of the policy, and five more. Another number may be
 * defined for all files of a program; ZS_PROGRAM_MOST has room for any policy. */
#ifndef RETRY_WORDS
#define RETRY_WORDS 128
#endif

/* The policy of retry_default, which has full jitter. */
#define RETRY_DEFAULT "(exponential(100) && recurs(5))"
/* No message of retry_explain has more bytes than this, with its final 0. */
#define RETRY_MESSAGE_MOST 400
/* How often a sleep that ended early is repeated. */
#define RETRY_REPEATED 100

/* A compiled schedule, and its text, which stays the caller's. Threads may share it. */
typedef struct retry_policy {
    const char *text;
    uint64_t program[RETRY_WORDS];
} retry_policy;

/* Tokens that calls share, in thousandths: an error takes 1000 of them, and a success adds `ratio`, up to `most`.
 * A retry follows only while more than half of `most` are there. Threads may share a budget. */
typedef struct retry_budget {
    uint64_t most, ratio, tokens;
} retry_budget;

/* A full budget: RETRY_BUDGET(10000, 500) has 10 tokens and the ratio 0.5. */
#define RETRY_BUDGET(most, ratio) { (most), (ratio), (most) }

/* A clock, and how to sleep by it. Its functions get its data. If it falls, it counts as one that stood still. */
typedef struct retry_clock {
    uint64_t (*now_ns)(void *data);
    void (*sleep_ns)(void *data, uint64_t time_ns); /* if it ends early, it is called again, at most 100 times */
    void *data;
} retry_clock;

/* A clock for tests over a uint64_t, which only sleeps and the test move: a retry by it waits for nothing. */
#define RETRY_TEST_CLOCK(now_ns) { retry_test_now, retry_test_sleep, (now_ns) }

enum retry_end {
    RETRY_SUCCEEDED,   /* the last attempt returned 0 */
    RETRY_GAVE_UP,     /* the schedule is done */
    RETRY_DEADLINE,    /* the next attempt can't begin before the deadline */
    RETRY_CANCELLED,   /* *cancel isn't 0 */
    RETRY_NO_BUDGET,   /* the budget allows no retry */
    RETRY_NOT_RETRIED, /* the error isn't one that is retried */
    RETRY_FAULT,       /* the policy isn't one that retry_compile wrote */
    RETRY_EARLY,       /* 100 sleeps ended early: in tests, set a clock, such as RETRY_TEST_CLOCK */
    RETRY_WAITS        /* of an event alone: another attempt follows after a wait */
};

/* What happened to a call: an attempt failed and a wait follows, or the call ended. */
typedef struct retry_event {
    uint64_t number;     /* of the attempt, from 1; 0 if the call was cancelled before */
    uint64_t code;       /* what it returned */
    uint64_t elapsed_ns; /* since the begin of the first attempt */
    uint64_t wait_ns;    /* from its end to the begin of the next one, if one follows */
    const char *name;    /* the options' */
    enum retry_end why;
} retry_event;

/* What a call does besides; each field may be 0 or NULL. The functions get the call's data and the code of an error. */
typedef struct retry_options {
    int (*is_retried)(void *data, uint64_t code);    /* returns 0 if this error isn't retried */
    uint64_t (*least_ms)(void *data, uint64_t code); /* returns the least wait of a service, such as Retry-After */
    int64_t longest_ms;                              /* a least wait counts up to this; 0: an hour; below 0: none counts */
    void (*on_event)(void *data, const retry_event *event); /* is called before each sleep, and when a call ends */
    const char *name;           /* the name of the call that events have */
    uint64_t deadline_ms;       /* no attempt begins later after the first one, and a call gives up at once; 0: none */
    uint32_t percent;           /* how many percent of the schedule's wait jitter may take off, 0 to 100 */
    retry_budget *budget;
    const volatile int *cancel; /* if it isn't 0, no other attempt begins; threads and signal handlers may set it */
    const retry_clock *clock;   /* NULL: the system's */
} retry_options;

#define RETRY_OPTIONS { NULL, NULL, 0, NULL, NULL, 0, 0, NULL, NULL, NULL }

typedef struct retry_result {
    enum retry_end end;
    enum zs_status status; /* what the last call of the library returned: ZS_DONE if the schedule is done */
    uint64_t code;         /* what the last attempt returned */
    uint64_t attempts;     /* how many were made */
} retry_result;

/* What a loop doesn't know of itself, for retry_bounds. Nothing ends an attempt, so calls have an end only if the caller
 * says how long attempts take, and is trusted. */
typedef struct retry_guard {
    uint64_t late_ms;              /* how late timers end at most; UINT64_MAX is any lateness */
    uint64_t steps;                /* how many attempts are examined at most */
    uint64_t trusting_shortest_ms;
    uint64_t trusting_longest_ms;  /* 0: nothing is trusted */
} retry_guard;

/* Timers are at most so late. */
#define RETRY_GUARD(late_ms) { (late_ms), 1000, 0, 0 }

/* One call; the loop's own. */
typedef struct retry_run {
    const retry_options *to;
    void *data;
    uint64_t shown_ns, elapsed_ns;
    retry_result it;
} retry_run;

static inline uint64_t retry_test_now(void *now_ns) { return *(uint64_t *)now_ns; }

static inline void retry_test_sleep(void *now_ns, uint64_t time_ns)
{
    uint64_t *now = (uint64_t *)now_ns;
    *now = *now < UINT64_MAX - time_ns ? *now + time_ns : UINT64_MAX;
}

/* Compiles a text, which the policy keeps: ZS_OK, or what zs_compile returns for it, with its place. */
static inline enum zs_status retry_compile(retry_policy *policy, const char *text, uint64_t *at)
{
    policy->text = text;
    return zs_compile(text, strlen(text), policy->program, RETRY_WORDS, at);
}

/* Sets the default policy, and options with its jitter: at most 6 attempts, with waits of at most 3.1 s. */
static inline void retry_default(retry_policy *policy, retry_options *options)
{
    const retry_options none = RETRY_OPTIONS;
    uint64_t at;
    if (retry_compile(policy, RETRY_DEFAULT, &at) != ZS_OK)
        policy->program[0] = 0;
    *options = none;
    options->percent = 100;
}

/* Returns why a call ended: "gave up". */
static inline const char *retry_why(enum retry_end end)
{
    static const char *const words[] = {"succeeded", "gave up", "deadline", "cancelled", "budget",
                                        "not retried", "fault", "sleeps ended early", "waits"};
    return words[end];
}

/* Returns the nanoseconds of a monotonic clock since a moment of it. */
static inline uint64_t retry_passed(uint64_t since_ns)
{
    struct timespec now;
    clock_gettime(CLOCK_MONOTONIC, &now);
    return (uint64_t)now.tv_sec * 1000000000 + (uint64_t)now.tv_nsec - since_ns;
}

static inline uint64_t retry_now(const retry_clock *clock)
{
    return clock ? clock->now_ns(clock->data) : retry_passed(0);
}

/* Returns the time since the begin of the first attempt. */
static inline uint64_t retry_elapsed(retry_run *run)
{
    uint64_t now = retry_now(run->to->clock);
    run->elapsed_ns += now > run->shown_ns ? now - run->shown_ns : 0;
    run->shown_ns = now;
    return run->elapsed_ns;
}

static inline int retry_is_cancelled(const volatile int *cancel)
{
    return cancel && __atomic_load_n(cancel, __ATOMIC_ACQUIRE);
}

/* Sleeps for a time. Returns whether it ended early, unless by a signal. */
static inline int retry_pause(uint64_t time_ns)
{
    uint64_t now = retry_passed(0), end = now < UINT64_MAX - time_ns ? now + time_ns : UINT64_MAX;
    struct timespec until = {(time_t)(end / 1000000000), (long)(end % 1000000000)};
    return clock_nanosleep(CLOCK_MONOTONIC, TIMER_ABSTIME, &until, NULL) == 0 && retry_passed(0) < end;
}

/* Sleeps until a moment of the call. It looks at the cancel flag every 10 ms. Returns RETRY_WAITS, or why the call ends. */
static inline enum retry_end retry_sleep(retry_run *run, uint64_t begin_ns)
{
    const retry_options *to = run->to;
    int early = 0;
    while (retry_elapsed(run) < begin_ns && !retry_is_cancelled(to->cancel)) {
        uint64_t rest = begin_ns - run->elapsed_ns;
        if (early > RETRY_REPEATED)
            return RETRY_EARLY;
        if (to->clock)
            to->clock->sleep_ns(to->clock->data, rest);
        early += to->clock ? 1 : retry_pause(to->cancel && rest > 10000000 ? 10000000 : rest);
    }
    return retry_is_cancelled(to->cancel) ? RETRY_CANCELLED : RETRY_WAITS;
}

/* Takes a token after an error, or adds the ratio. Returns whether a retry may follow. */
static inline int retry_count(retry_budget *budget, int is_error)
{
    uint64_t next, tokens = __atomic_load_n(&budget->tokens, __ATOMIC_RELAXED);
    do {
        if (is_error)
            next = tokens < 1000 ? 0 : tokens - 1000;
        else
            next = budget->ratio < budget->most - tokens ? tokens + budget->ratio : budget->most;
    } while (!__atomic_compare_exchange_n(&budget->tokens, &tokens, next, 1, __ATOMIC_RELAXED, __ATOMIC_RELAXED));
    return next > budget->most / 2;
}

/* Returns 32 bits that differ from call to call: the clock and an address, mixed. */
static inline uint32_t retry_draw(const void *address)
{
    uint64_t bits = retry_passed((uint64_t)(uintptr_t)address << 20);
    bits = (bits ^ bits >> 30) * 0xBF58476D1CE4E5B9;
    bits = (bits ^ bits >> 27) * 0x94D049BB133111EB;
    return (uint32_t)(bits >> 32);
}

/* Notes why a call ends, or RETRY_WAITS, and calls the hook. */
static inline enum retry_end retry_say(retry_run *run, enum retry_end why, uint64_t wait_ns)
{
    const retry_options *to = run->to;
    const retry_event event = {run->it.attempts, run->it.code, run->elapsed_ns, wait_ns, to->name, why};
    run->it.end = why;
    if (to->on_event)
        to->on_event(run->data, &event);
    return why;
}

static inline uint64_t retry_longest_ms(const retry_options *to)
{
    return to->longest_ms > 0 ? (uint64_t)to->longest_ms : to->longest_ms ? 0 : 3600000;
}

/* Plans the next attempt after an error. Returns RETRY_WAITS and its begin, or why none follows. */
static inline enum retry_end retry_plan(retry_run *run, const retry_policy *policy, uint64_t *state, zs_turn *turn,
                                        uint64_t *begin_ns)
{
    const retry_options *to = run->to;
    if (to->is_retried && !to->is_retried(run->data, run->it.code))
        return RETRY_NOT_RETRIED;
    if (retry_is_cancelled(to->cancel))
        return RETRY_CANCELLED;
    turn->least_ms = to->least_ms ? to->least_ms(run->data, run->it.code) : 0;
    if (to->budget && !retry_count(to->budget, 1))
        return RETRY_NO_BUDGET;
    turn->draw = retry_draw(turn);
    if (run->it.attempts == 1)
        run->it.status = zs_program_begin(policy->program, RETRY_WORDS, state, RETRY_WORDS);
    if (run->it.status == ZS_OK)
        run->it.status = zs_plan(policy->program, RETRY_WORDS, state, RETRY_WORDS, turn, begin_ns);
    if (run->it.status != ZS_OK)
        return run->it.status == ZS_DONE ? RETRY_GAVE_UP : RETRY_FAULT;
    return to->deadline_ms && to->deadline_ms <= UINT64_MAX / 1000000 && *begin_ns > to->deadline_ms * 1000000
               ? RETRY_DEADLINE : RETRY_WAITS;
}

/* Calls attempt(data) until it returns 0 or no retry follows, and sleeps between two attempts. A number other than 0 is
 * the code of an error, and the schedule's input. The options may be NULL.
 *
 * After an error: is_retried, the cancel flag, least_ms, the budget, zs_plan, the deadline, on_event, the sleep. No attempt
 * begins before zs_plan allows it, so what zsched.h says of a loop's attempts holds. */
static inline retry_result retry(const retry_policy *policy, const retry_options *options,
                                 uint64_t (*attempt)(void *data), void *data)
{
    static const retry_options none = RETRY_OPTIONS;
    uint64_t state[RETRY_WORDS], begin = 0;
    retry_run run = {options ? options : &none, data, 0, 0, {RETRY_CANCELLED, ZS_OK, 0, 0}};
    enum retry_end end = retry_is_cancelled(run.to->cancel) ? RETRY_CANCELLED : RETRY_WAITS;
    zs_turn turn = ZS_TURN;
    turn.longest_ms = retry_longest_ms(run.to);
    turn.percent = run.to->percent;
    run.shown_ns = retry_now(run.to->clock);
    while (end == RETRY_WAITS) {
        turn.began_ns = run.elapsed_ns;
        run.it.attempts++;
        turn.input = run.it.code = attempt(data);
        turn.ended_ns = retry_elapsed(&run);
        end = run.it.code ? retry_plan(&run, policy, state, &turn, &begin) : RETRY_SUCCEEDED;
        if (end != RETRY_WAITS)
            break;
        retry_say(&run, end, begin - turn.ended_ns);
        end = retry_sleep(&run, begin);
    }
    if (end == RETRY_SUCCEEDED && run.to->budget)
        retry_count(run.to->budget, 0);
    retry_say(&run, end, 0);
    return run.it;
}

/* What each call of retry with this policy and these options does, for every input: ZS_OK, or what zs_bounds returns.
 * With a budget or a deadline bounds->least is 1; an error that isn't retried may end a call before it. */
static inline enum zs_status retry_bounds(const retry_policy *policy, const retry_options *options,
                                          const retry_guard *guard, zs_run_bounds *bounds)
{
    static const retry_options none = RETRY_OPTIONS;
    const retry_options *to = options ? options : &none;
    const zs_run_bounds empty = ZS_RUN_BOUNDS;
    zs_driver driver = ZS_DRIVER;
    enum zs_status status;
    uint64_t at, most = guard->trusting_longest_ms, last = UINT64_MAX;
    driver.least_ms = guard->trusting_shortest_ms ? guard->trusting_shortest_ms : 1;
    driver.has_most = most != 0;
    driver.most_ms = most;
    driver.least_percent = to->percent < 100 ? 100 - to->percent : 0;
    driver.asked_ms = to->least_ms ? retry_longest_ms(to) : 0;
    driver.late_ms = guard->late_ms;
    *bounds = empty;
    status = zs_bounds(policy->text, strlen(policy->text), &driver, guard->steps, bounds, &at);
    if (status == ZS_OK && (to->budget || to->deadline_ms))
        bounds->least = 1;
    if (status != ZS_OK || !to->deadline_ms || guard->late_ms > UINT64_MAX - to->deadline_ms - most)
        return status;
    /* Until the last attempt begins, and until it ends. */
    last = to->deadline_ms + guard->late_ms;
    bounds->longest_ms = bounds->longest_ms < last ? bounds->longest_ms : last;
    bounds->total_ms = bounds->has_total && bounds->total_ms < last ? bounds->total_ms : last;
    bounds->has_total = 1;
    if (most && !(bounds->has_longest_run && bounds->longest_run_ms < last + most))
        bounds->longest_run_ms = last + most;
    bounds->has_longest_run |= most != 0;
    return status;
}

/* Returns whether each call ends within a time, attempts and waits together. */
static inline int retry_ends_within(const zs_run_bounds *bounds, uint64_t run_ms)
{
    return bounds->has_longest_run && bounds->longest_run_ms <= run_ms;
}

static inline int retry_is_letter(char it) { return (it >= 'a' && it <= 'z') || (it >= 'A' && it <= 'Z'); }

static inline int retry_is_digit(char it) { return it >= '0' && it <= '9'; }

/* Returns how many letters have to be inserted, removed or replaced to make the first letters of a text a word. */
static inline size_t retry_edits(const char *text, size_t length, const char *word)
{
    size_t row[16], i, j, corner, replaced, least;
    for (j = 0; j <= strlen(word); j++)
        row[j] = j;
    for (i = 0; i < length; i++) {
        for (corner = i, row[0] = i + 1, j = 0; word[j]; j++) {
            replaced = corner + (text[i] != word[j]);
            corner = row[j + 1];
            least = row[j] < corner ? row[j] + 1 : corner + 1;
            row[j + 1] = replaced < least ? replaced : least;
        }
    }
    return row[strlen(word)];
}

/* Writes what to write at the byte of a text at which no term was found, or nothing. */
static inline void retry_hint(const char *text, size_t at, char *out, size_t size)
{
    static const char *const operators[] = {"&&", "||", "andThenEither"};
    static const char *const words[] = {"forever", "recurs", "spaced", "fixed", "exponential", "fibonacci", "identity",
        "elapsed", "linear", "windowed", "andThenEither", "whileInput", "whileOutput", "collectAll", "map", "resetWhen",
        "size", "merge", "as"};
    const char *rest = text + at, *nearest = NULL;
    size_t i, edits, least = 3, length = 0, open = 0;
    for (i = 0; i < at; i++)
        open += (size_t)(text[i] == '(') - (size_t)(text[i] == ')');
    for (i = 0; i < sizeof operators / sizeof *operators && !open; i++)
        if (strncmp(rest, operators[i], strlen(operators[i])) == 0) {
            snprintf(out, size, ": \"%s\" stands in parentheses: (A %s B)", operators[i], operators[i]);
            return;
        }
    while (retry_is_letter(rest[length]))
        length++;
    for (i = 0; i < sizeof words / sizeof *words && length; i++)
        if ((edits = retry_edits(rest, length, words[i])) < least) {
            least = edits;
            nearest = words[i];
        }
    if (at && *rest == '.' && retry_is_digit(rest[-1]) && retry_is_digit(rest[1]))
        snprintf(out, size, ": whole milliseconds, without a point");
    else if (!*rest)
        snprintf(out, size, ": the text ends too early");
    else if (nearest && least)
        snprintf(out, size, ": did you mean \"%s\"?", nearest);
}

/* Writes the message of a text for which retry_compile returned a number, with its place: the library's words and a hint,
 * the text, and a mark below its fault, with a final 0. out_len is RETRY_MESSAGE_MOST, or the message is cut. */
static inline void retry_explain(const char *text, enum zs_status status, uint64_t at, char *out, size_t out_len)
{
    char words[ZS_TEXT_MOST], hint[ZS_TEXT_MOST] = "", shown[81];
    size_t length = strlen(text), place = at < length ? (size_t)at : length, from = place > 40 ? place - 40 : 0, i;
    int has_place = status == ZS_NO_TERM || status == ZS_BAD_NUMBER || status == ZS_NOT_UTF8;
    from = length > 80 && from > length - 80 ? length - 80 : length > 80 ? from : 0;
    for (i = 0; i < 80 && text[from + i]; i++)
        shown[i] = text[from + i] >= ' ' && text[from + i] <= '~' ? text[from + i] : '?';
    shown[i] = 0;
    zs_strerror(status, at, words, sizeof words);
    if (status == ZS_NO_TERM)
        retry_hint(text, place, hint, sizeof hint);
    if (has_place)
        snprintf(out, out_len, "%s%s\n%s\n%*s", words, hint, shown, (int)(place - from + 1), "^");
    else
        snprintf(out, out_len, "%s\n%s", words, shown);
}

/* Reads a header Retry-After at a time: its seconds, or those until its date, as least_ms. Returns 0 if it is neither. */
static inline int retry_after_of(const char *header, time_t now, uint64_t *least_ms)
{
    static const char months[] = "JanFebMarAprMayJunJulAugSepOctNovDec";
    char name[4] = "", zone[4] = "", *end;
    const char *month;
    unsigned day, year, hour, minute, second;
    int length = 0;
    uint64_t days, seconds = 0;
    while (*header == ' ' || *header == '\t')
        header++;
    if (retry_is_digit(*header)) {
        seconds = strtoull(header, &end, 10);
        end += strspn(end, " \t");
        *least_ms = seconds * 1000;
        return *end == 0 && seconds <= UINT64_MAX / 1000;
    }
    if (!retry_is_letter(header[0]) || !retry_is_letter(header[1]) || !retry_is_letter(header[2]) ||
        sscanf(header + 3, ", %2u %3s %4u %2u:%2u:%2u %3s%n", &day, name, &year, &hour, &minute, &second, zone, &length) != 7 ||
        length != 26 || header[29 + strspn(header + 29, " \t")] || strcmp(zone, "GMT") != 0 ||
        !(month = strstr(months, name)) || strlen(name) != 3 || (month - months) % 3 || !day || day > 31 || year < 1970 ||
        hour > 23 || minute > 59 || second > 60)
        return 0;
    /* Years that begin in March have the leap day at their end. */
    days = (uint64_t)(month - months) / 3;
    year -= days < 2;
    days = 153 * ((days + 10) % 12) + 2;
    days = (uint64_t)365 * year + year / 4 - year / 100 + year / 400 + days / 5 + day - 1 - 719468;
    seconds = days * 86400 + hour * 3600 + minute * 60 + second;
    *least_ms = seconds > (uint64_t)now ? (seconds - (uint64_t)now) * 1000 : 0;
    return 1;
}

#endif
