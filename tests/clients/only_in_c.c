/* What only the loop in C has: policies that weren't compiled, its cancel flag, its random bits, its bounds, events, clocks
 * and header, and the tokens of a budget, of which threads lose none. It prints what doesn't hold. */
#include "retry.h"

#include <pthread.h>
#include <stdio.h>
#include <stdlib.h>

#define THREADS 4
#define CALLS 5000

static void hold(int is_well, const char *what)
{
    if (!is_well)
        printf("it doesn't hold that %s\n", what);
}

static retry_policy compiled(const char *text)
{
    retry_policy policy;
    uint64_t at;
    if (retry_compile(&policy, text, &at))
        abort();
    return policy;
}

static uint64_t succeed(void *data)
{
    (void)data;
    return 0;
}

static uint64_t fail(void *data)
{
    (void)data;
    return 7;
}

static void test_faults(void)
{
    char text[1000] = "forever";
    retry_policy policy = {NULL, {0}};
    retry_result result = retry(&policy, NULL, fail, NULL);
    uint64_t at;
    hold(result.end == RETRY_FAULT && result.status == ZS_NO_PROGRAM && result.code == 7 && result.attempts == 1,
         "a retry needs a policy that was compiled");
    result = retry(&policy, NULL, succeed, NULL);
    hold(result.end == RETRY_SUCCEEDED && result.status == ZS_OK && result.code == 0 && result.attempts == 1,
         "a call that doesn't fail reads no policy");
    hold(retry_compile(&policy, "recurs(", &at) == ZS_NO_TERM && at == 7, "a text has a place of its fault");
    hold(retry_compile(&policy, "forever.collectAll", &at) == ZS_KEEPS_LIST, "a list has no policy");
    for (int i = 0; i < 60; i++)
        strcat(text, ".whileInput(= 7)");
    hold(retry_compile(&policy, text, &at) == ZS_NO_ROOM, "a policy has at most RETRY_WORDS words");
    policy = compiled("recurs(2)");
    result = retry(&policy, NULL, fail, NULL);
    hold(result.end == RETRY_GAVE_UP && result.status == ZS_DONE && result.code == 7 && result.attempts == 3,
         "a call gives up when its schedule is done");
}

/* A call that is cancelled, the wait that its hook was called with, and the least wait of its service. */
typedef struct call {
    volatile int cancel;
    uint64_t wait_ns, least_ms;
} call;

static void *cancel(void *data)
{
    struct timespec time = {0, 50000000};
    nanosleep(&time, NULL);
    __atomic_store_n(&((call *)data)->cancel, 1, __ATOMIC_RELEASE);
    return NULL;
}

/* Whether a call in a long sleep ends when another thread cancels it. */
static int is_cancelled(const char *text)
{
    call it = {0, 0, 0};
    retry_options options = RETRY_OPTIONS;
    const retry_policy policy = compiled(text);
    uint64_t begun = retry_passed(0);
    pthread_t other;
    options.cancel = &it.cancel;
    if (pthread_create(&other, NULL, cancel, &it))
        abort();
    retry_result result = retry(&policy, &options, fail, &it);
    pthread_join(other, NULL);
    begun = retry_passed(begun);
    return result.end == RETRY_CANCELLED && result.code == 7 && result.attempts == 1 && begun >= 50000000 &&
           begun < 10000000000;
}

static void cancel_before(void *data, const retry_event *event)
{
    call *it = (call *)data;
    it->wait_ns = event->why == RETRY_WAITS ? event->wait_ns : it->wait_ns;
    it->cancel = event->code == 7 && event->number == 1;
}

static uint64_t least_ms(void *data, uint64_t code) { return code == 7 ? ((call *)data)->least_ms : 0; }

/* The nanoseconds of a first wait, of a call that is cancelled before it sleeps. */
static uint64_t wait_of(const retry_policy *policy, uint32_t percent, uint64_t least, int64_t longest)
{
    call it = {0, 0, least};
    retry_options options = RETRY_OPTIONS;
    options.least_ms = least_ms;
    options.longest_ms = longest;
    options.on_event = cancel_before;
    options.percent = percent;
    options.cancel = &it.cancel;
    hold(retry(policy, &options, fail, &it).end == RETRY_CANCELLED, "a hook may cancel a call");
    return it.wait_ns;
}

static int compare(const void *one, const void *other)
{
    uint64_t first = *(const uint64_t *)one, second = *(const uint64_t *)other;
    return (first > second) - (first < second);
}

static void test_waits(void)
{
    static uint64_t waits[CALLS];
    const retry_policy policy = compiled("spaced(1000)");
    uint64_t sum = 0, equal = 0;
    for (size_t i = 0; i < CALLS; i++)
        sum += waits[i] = wait_of(&policy, 50, 0, 0);
    qsort(waits, CALLS, sizeof *waits, compare);
    for (size_t i = 1; i < CALLS; i++)
        equal += waits[i] == waits[i - 1];
    hold(waits[0] >= 500000000 && waits[0] < 510000000 && waits[CALLS - 1] > 990000000 &&
             waits[CALLS - 1] <= 1001000000 && sum / CALLS > 735000000 && sum / CALLS < 765000000 &&
             equal < CALLS / 100,
         "jitter takes off a random part of a wait");
    hold(wait_of(&policy, 0, UINT64_MAX, 0) == 3600000000000, "an hour of a least wait counts");
    hold(wait_of(&policy, 0, UINT64_MAX, 60000) == 60000000000, "of a least wait as much counts as is honoured");
    hold(wait_of(&policy, 0, UINT64_MAX, -1) < 1002000000, "no least wait counts");
}

static retry_budget budget = RETRY_BUDGET(1000000000, 300);

static void *count(void *data)
{
    const retry_policy policy = compiled("recurs(0)");
    retry_options options = RETRY_OPTIONS;
    options.budget = &budget;
    for (int i = 0; i < 2 * CALLS; i++) {
        hold(retry(&policy, &options, fail, NULL).end == RETRY_GAVE_UP, "a call fails");
        hold(retry(&policy, &options, succeed, NULL).end == RETRY_SUCCEEDED, "a call succeeds");
    }
    return data;
}

static void test_budget(void)
{
    pthread_t threads[THREADS];
    retry_budget full = RETRY_BUDGET(1000, 300);
    for (int i = 0; i < THREADS; i++)
        if (pthread_create(&threads[i], NULL, count, NULL))
            abort();
    for (int i = 0; i < THREADS; i++)
        pthread_join(threads[i], NULL);
    hold(budget.tokens == 1000000000 - THREADS * 2 * CALLS * 700, "threads lose no token");
    hold(retry_count(&full, 0) && full.tokens == 1000 && !retry_count(&full, 1) && full.tokens == 0 &&
             !retry_count(&full, 1) && full.tokens == 0 && !retry_count(&full, 0) && full.tokens == 300,
         "a budget is never fuller than at first, nor below 0");
}

/* The bounds of a loop whose timers are on time. */
static zs_run_bounds bounds_of(const char *text, const retry_options *options, uint64_t late, uint64_t longest)
{
    retry_guard guard = RETRY_GUARD(late);
    const retry_policy policy = compiled(text);
    zs_run_bounds bounds;
    guard.trusting_longest_ms = longest;
    hold(retry_bounds(&policy, options, &guard, &bounds) == ZS_OK, "a policy has bounds");
    return bounds;
}

static int is_equal(zs_run_bounds one, zs_run_bounds other) { return memcmp(&one, &other, sizeof one) == 0; }

/* Each option that is set on the loop alone changes its bounds. */
static void test_bounds(void)
{
    static const char text[] = "(spaced(1000) && recurs(3))", elapsed[] = "(spaced(1000) && elapsed).whileOutput(_2 < 2500)";
    retry_options jittered = RETRY_OPTIONS, asked = RETRY_OPTIONS, limited = RETRY_OPTIONS, budgeted = RETRY_OPTIONS;
    const zs_run_bounds plain = bounds_of(text, NULL, 0, 0), trusted = bounds_of(text, NULL, 0, 200);
    const retry_policy policy = compiled(text);
    retry_guard guard = RETRY_GUARD(0);
    zs_run_bounds bounds;
    hold(plain.most == 4 && plain.longest_ms == 1000 && plain.total_ms == 3000 && !retry_ends_within(&plain, UINT64_MAX),
         "a loop can't end an attempt");
    hold(retry_ends_within(&trusted, 3801) && !retry_ends_within(&trusted, 3799), "trusted attempts bound calls");
    jittered.percent = 50;
    hold(bounds_of(elapsed, NULL, 0, 0).most == 4 && bounds_of(elapsed, &jittered, 0, 0).most == 6,
         "jitter makes more attempts: at 1, 502, .., 2506 ms in place of 1, 1002, 2003 and 3004");
    asked.longest_ms = 1500;
    hold(is_equal(bounds_of(text, &asked, 0, 0), plain), "a longest least wait alone changes nothing");
    asked.least_ms = least_ms;
    hold(bounds_of(text, &asked, 0, 0).longest_ms == 1500, "a longest least wait counts");
    asked.longest_ms = 0;
    hold(bounds_of(text, &asked, 0, 0).longest_ms == 3600000, "an hour of a least wait counts");
    asked.longest_ms = -1;
    hold(is_equal(bounds_of(text, &asked, 0, 0), plain), "no least wait counts");
    limited.deadline_ms = 1500;
    bounds = bounds_of(text, &limited, 10, 500);
    hold(bounds.total_ms == 1510 && bounds.longest_ms == 1010 && bounds.longest_run_ms == 2010 && bounds.least == 1,
         "a deadline counts");
    bounds = bounds_of("forever", &limited, 0, 0);
    hold(bounds.has_total && bounds.total_ms == 1500 && !bounds.has_longest_run, "a deadline bounds waits without an end");
    budgeted.budget = &budget;
    bounds = bounds_of(text, &budgeted, 0, 0);
    hold(plain.least == 4 && bounds.least == 1 && bounds.most == 4, "a budget may end a call after its first attempt");
    guard.steps = 2;
    hold(retry_bounds(&policy, NULL, &guard, &bounds) == ZS_OK && !bounds.has_most, "two attempts are examined");
    guard.trusting_shortest_ms = 6;
    guard.trusting_longest_ms = 5;
    hold(retry_bounds(&policy, NULL, &guard, &bounds) == ZS_NO_DRIVER, "no attempt is shorter than the shortest");
}

static uint64_t standing_now(void *data) { return *(uint64_t *)data; }

static void standing_sleep(void *data, uint64_t time_ns) { ((uint64_t *)data)[1] += time_ns ? 1 : 1000; }

/* Appends a line to a text for each event. */
static void append(void *data, const retry_event *it)
{
    char *text = (char *)data + strlen((char *)data);
    snprintf(text, 100, "%s %d %d %d %d %s\n", it->name, (int)it->number, (int)it->code, (int)(it->elapsed_ns / 1000000),
             (int)(it->wait_ns / 1000000), retry_why(it->why));
}

static void test_events(void)
{
    static const int cancelled = 1;
    static char told[2000];
    const retry_policy policy = compiled("(spaced(20) && recurs(1))");
    uint64_t now = 5;
    const retry_clock clock = RETRY_TEST_CLOCK(&now);
    retry_budget poor = RETRY_BUDGET(1000, 0);
    retry_options options = RETRY_OPTIONS;
    options.name = "fetch";
    options.on_event = append;
    options.clock = &clock;
    retry(&policy, &options, succeed, told);
    retry(&policy, &options, fail, told);
    hold(now == 21000005, "a clock for tests moves by each wait");
    options.deadline_ms = 21;
    retry(&policy, &options, fail, told);
    options.deadline_ms = 20;
    hold(retry(&policy, &options, fail, told).end == RETRY_DEADLINE, "a call gives up at once");
    options.budget = &poor;
    hold(retry(&policy, &options, fail, told).end == RETRY_NO_BUDGET, "a budget ends a call");
    options.cancel = &cancelled;
    hold(retry(&policy, &options, fail, told).attempts == 0, "a cancelled call makes no attempt");
    hold(strcmp(told, "fetch 1 0 0 0 succeeded\nfetch 1 7 0 21 waits\nfetch 2 7 21 0 gave up\nfetch 1 7 0 21 waits\n"
                      "fetch 2 7 21 0 gave up\nfetch 1 7 0 0 deadline\nfetch 1 7 0 0 budget\nfetch 0 0 0 0 cancelled\n") == 0,
         "events say what happened");
}

/* A sleep that ends early is repeated a hundred times at most, and no attempt begins early. */
static void test_sleeps(void)
{
    uint64_t now[2] = {0, 0};
    const retry_clock clock = {standing_now, standing_sleep, now};
    const retry_policy policy = compiled("spaced(1000)");
    retry_options options = RETRY_OPTIONS;
    options.clock = &clock;
    retry_result result = retry(&policy, &options, fail, NULL);
    hold(result.end == RETRY_EARLY && result.attempts == 1 && now[1] == 101, "a hundred sleeps are repeated");
}

static void test_default(void)
{
    retry_policy policy;
    retry_options options;
    retry_guard guard = RETRY_GUARD(0);
    zs_run_bounds bounds;
    retry_default(&policy, &options);
    guard.trusting_longest_ms = 5000;
    hold(retry_bounds(&policy, &options, &guard, &bounds) == ZS_OK && bounds.most == 6 && bounds.longest_ms == 1600 &&
             bounds.total_ms == 3100 && retry_ends_within(&bounds, 33101) && options.percent == 100,
         "the default policy has the bounds of its page");
}

static void test_header(void)
{
    static const char *const others[] = {"", "-1", "1.5", "soon", "99999999999999999999", "Sun, 06 Nov 1994 08:49:37 CET",
        "Sun, 06 Now 1994 08:49:37 GMT", "Sun, 06 Nov 1994 24:49:37 GMT", "Sun, 00 Nov 1994 08:49:37 GMT",
        "Sun; 06 Nov 1994 08:49:37 GMT", "Sun, 06 Nov 1994 08:49:37 GMT.", "Sun, 6 Nov 1994 08:49:37 GMT"};
    uint64_t least;
    hold(retry_after_of(" 120 ", 0, &least) && least == 120000, "a header has seconds");
    hold(retry_after_of("Sun, 06 Nov 1994 08:49:37 GMT", 784111770, &least) && least == 7000, "a header has a date");
    hold(retry_after_of("Sun, 06 Nov 1994 08:49:37 GMT", 784111778, &least) && least == 0, "a date may be over");
    hold(retry_after_of("Tue, 29 Feb 2000 00:00:00 GMT", 951782399, &least) && least == 1000, "a year may have a leap day");
    hold(retry_after_of("Wed, 01 Mar 2000 00:00:00 GMT", 951782400, &least) && least == 86400000, "March is after it");
    for (size_t i = 0; i < sizeof others / sizeof *others; i++)
        hold(!retry_after_of(others[i], 0, &least), others[i]);
}

int main(void)
{
    test_faults();
    hold(is_cancelled("spaced(3600000)"), "a sleep of an hour ends when it is cancelled");
    hold(is_cancelled("spaced(18446744073708)"), "a sleep of 584 years ends when it is cancelled");
    test_waits();
    test_budget();
    test_bounds();
    test_events();
    test_sleeps();
    test_default();
    test_header();
    return 0;
}
