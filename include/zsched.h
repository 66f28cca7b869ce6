/* zsched: the proved schedules, for C and for languages that call C.
 *
 * A schedule is a text, as in docs/SEMANTICS.md and docs/FORMATS.md: "(exponential(100) && recurs(5))". zs_compile writes it as
 * a program into words of the caller, once. A program and its state are arrays of words whose numbers depend only on the
 * schedule, so a step takes no longer after many steps than after one. A loop that retries needs zs_plan alone, which steps a
 * program at the end of an attempt and returns when the next one begins; zs_program_step steps it at any moment, for a caller
 * that plans by other means. zs_bounds returns what a schedule does for every input.
 *
 * No call stores anything. Programs and states may be copied, shared by threads that only read them, and stored as bytes for
 * machines of the same byte order. A program has a version and a check word over itself. A state has a version and its
 * program's check word. So zeroed, older and changed words and another program's state are rejected. The words after the first
 * two of a state don't show from which steps they come. For a state that was changed there, or a program that was changed on
 * purpose, with a check word that fits, the only promise is that a call returns, reads and writes nothing but what is passed to
 * it, and leaves the state's first two words and the words after the state.
 *
 * Link libzsched.a or libzsched.so, which build/make-library builds; both need only the C library. docs/LIBRARY.md says what
 * is proved of these calls.
 *
 * The caller must ensure what no call can test:
 *   - Each pointer points to as much memory as the number beside it says, and words are aligned as C aligns them. If the number
 *     is 0, the pointer may be NULL. A pointer with no number beside it is never NULL.
 *   - What a call writes overlaps nothing else that is passed to it, and no other thread writes to any of it during the call.
 *   - No call comes from a signal handler, or from a forked child of a process with threads. 64 KiB of stack are free (the
 *     deepest schedule took 55), for zs_bounds 192 KiB (it took 164). A thread of musl has 128 KiB, unless its attributes say
 *     another size, or the program is linked with -Wl,-z,stack-size=262144.
 *
 * Any number of threads may call at once: calls share nothing but malloc, realloc and free. Each call frees what it
 * allocated. A name that ends with _ms has whole milliseconds, and one with _ns nanoseconds, both unsigned, of 64 bits.
 */
#ifndef ZSCHED_H
#define ZSCHED_H

#include <stddef.h>
#include <stdint.h>

/* The version of this header; zs_version returns that of the library. */
#define ZS_VERSION_MAJOR 0
#define ZS_VERSION_MINOR 3
#define ZS_VERSION_PATCH 0
#define ZS_VERSION_NUMBER (1000000 * ZS_VERSION_MAJOR + 1000 * ZS_VERSION_MINOR + ZS_VERSION_PATCH)

/* No program, and no state, has more words than this. */
#define ZS_PROGRAM_MOST 4004
#define ZS_STATE_MOST 4005

/* No text of zs_strerror has more bytes than this, with its final 0. */
#define ZS_TEXT_MOST 80

/* What some compilers are told of a call: its result is read, the pointers of these numbers aren't NULL, and a pointer
 * overlaps no other. */
#if defined(__GNUC__) || defined(__clang__)
#define ZS_CALL __attribute__((warn_unused_result))
#define ZS_POINTERS(numbers) __attribute__((nonnull numbers))
#define ZS_ALONE __restrict__
#else
#define ZS_CALL
#define ZS_POINTERS(numbers)
#define ZS_ALONE
#endif

#ifdef __cplusplus
extern "C" {
#endif

/* What a call returns. *at is the place of a fault in a text; it is 0 if no place is given here. */
enum zs_status {
    ZS_OK = 0,          /* success; of zs_program_step and zs_plan: the schedule continues */
    ZS_DONE = 1,        /* zs_program_step, zs_plan: the schedule is done, and the loop gives up */
    ZS_NO_STEP = 2,     /* zs_output: no step was made yet */
    ZS_FALLS = 3,       /* zs_program_step, zs_plan: the moment is below that of the last step */
    ZS_NOT_UTF8 = 4,    /* the text isn't UTF-8 from the byte *at on */
    ZS_NO_MEMORY = 5,   /* an allocation failed; nothing is leaked, and the call may be repeated */
    ZS_KEEPS_LIST = 6,  /* zs_program_size, zs_compile: the output has a list, by collectAll, so the state would grow */
    ZS_NO_ROOM = 7,     /* calls over a program: a length is below the size from zs_program_size */
    ZS_NO_PROGRAM = 8,  /* calls over a program: no program of this version, or one that was changed */
    ZS_OTHER_STATE = 9, /* the words are the state of another program */
    ZS_NO_DRIVER = 10,  /* zs_bounds: no driver does what *driver says */
    ZS_NO_TERM = 11,    /* the text spells no schedule, found at the byte *at */
    ZS_TOO_BIG = 12,    /* the schedule is deeper than 64 or weighs more than 1000 */
    ZS_BAD_NUMBER = 13, /* the number that begins at the byte *at is above 18446744073709551615 */
    ZS_BAD_FACTOR = 14, /* the factor of an exponential is 0 */
    ZS_NO_KIND = 15,    /* a pick or a function doesn't fit the output that it is applied to */
    ZS_BAD_WINDOW = 16, /* the window of a windowed is 0 */
    ZS_OTHER_SIZE = 17, /* the `size` of a struct isn't that of this version */
    ZS_OTHER_VERSION = 18 /* the first word isn't that of the states of this version */
};

/* Each struct begins with its size in bytes, which its caller sets, so that later versions may have more fields. */

/* What a driver of a schedule may do, for zs_bounds. A loop over zs_plan with turns of percent p and a longest least wait l is
 * one with a least of 1, 100 - p percent at least and 100 at most, and an asked_ms of l. */
typedef struct zs_driver {
    uint64_t size;          /* sizeof(zs_driver) */
    uint64_t least_ms;      /* no attempt takes less: 1 or more */
    uint64_t has_most;      /* 0 if attempts may take any time, else 1 */
    uint64_t most_ms;       /* no attempt takes more: least_ms or more */
    uint64_t least_percent; /* no wait is shorter than this percentage of the schedule's, rounded down */
    uint64_t most_percent;  /* no wait is longer than this percentage of it, rounded up: least_percent or more */
    uint64_t asked_ms;      /* or than the longest least wait that a service may ask for, if that is longer */
    uint64_t late_ms;       /* how late an attempt may begin; UINT64_MAX is any lateness */
} zs_driver;

/* Attempts of 1 ms or more, and exactly the schedule's waits. */
#define ZS_DRIVER { sizeof(zs_driver), 1, 0, 0, 100, 100, 0, 0 }

/* What zs_bounds returns. A field without a meaning is 0. */
typedef struct zs_run_bounds {
    uint64_t size;            /* sizeof(zs_run_bounds) */
    uint64_t seen;            /* the number of steps that were examined */
    uint64_t least;           /* the schedule isn't done before this attempt, 1 or more */
    uint64_t has_most;        /* 1 if `most` is a bound, else 0: there may be any number of attempts */
    uint64_t most;            /* no attempt after this one is made; it is `seen` */
    uint64_t longest_ms;      /* the longest wait after the first `seen` attempts, which take 1 ms or more */
    uint64_t has_total;       /* 1 if total_ms is a bound, else 0 */
    uint64_t total_ms;        /* all waits are less than 1 ms above it; after a shorter attempt a wait may be 1 ms longer */
    uint64_t has_longest_run; /* 1 if longest_run_ms is a bound, else 0 */
    uint64_t longest_run_ms;  /* each attempt ends less than this after the begin of the first, to the nanosecond */
} zs_run_bounds;

#define ZS_RUN_BOUNDS { sizeof(zs_run_bounds), 0, 0, 0, 0, 0, 0, 0, 0, 0 }

/* One failed attempt of a loop, by the loop's own clock: for zs_plan. The attempt may have begun and ended at any moment. */
typedef struct zs_turn {
    uint64_t size;       /* sizeof(zs_turn) */
    uint64_t began_ns;   /* when the attempt began, from the begin of the first attempt */
    uint64_t ended_ns;   /* when it ended; if it is below began_ns, the clock fell, and counts as one that stood still */
    uint64_t input;      /* the error's code, or any number */
    uint64_t least_ms;   /* the least wait that the service asked for, or 0: Retry-After */
    uint64_t longest_ms; /* a least wait counts up to this */
    uint32_t percent;    /* how many percent of the schedule's wait jitter may take off: 0 for none, above 100 counts as 100 */
    uint32_t draw;       /* how much of that it takes off: 32 random bits, a fraction of 2^32 */
} zs_turn;

/* A turn with no field but its size. */
#define ZS_TURN { sizeof(zs_turn), 0, 0, 0, 0, 0, 0, 0 }

/* Whether a text is a schedule: ZS_OK, or the number of its first fault, from ZS_NOT_UTF8 on, in the order of enum zs_status;
 * memory may run out at any point. The text needs no final 0. */
ZS_CALL ZS_POINTERS((3))
enum zs_status zs_check(const char *text, size_t text_len, uint64_t *ZS_ALONE at);

/* What a text's schedule does for every input, with any driver that does what *driver says: ZS_OK. It looks at the first
 * `steps` attempts, or at fewer if the schedule is done by then. Otherwise it returns ZS_OTHER_SIZE, ZS_NO_DRIVER, or what
 * zs_check returns for the text, with its place, and *bounds is unchanged. So a service can reject a policy that never gives
 * up, or whose calls may outlast a deadline.
 *
 * The bounds hold for all steps of which no moment is above 999999999999999 ms; but zs_plan gives up, before `least` too, where
 * a begin would be above 18446744073709551615 ns, which is 584 years. longest_run_ms needs a most_ms.
 * The time grows with the steps and with the schedule: 1000 steps of one with 400 leaves took 56 milliseconds. */
ZS_CALL ZS_POINTERS((3, 5, 6))
enum zs_status zs_bounds(const char *text, size_t text_len, const zs_driver *driver, uint64_t steps,
                         zs_run_bounds *ZS_ALONE bounds, uint64_t *ZS_ALONE at);

/* The numbers of words of the program of a text's schedule, and of its state: ZS_OK. Otherwise ZS_KEEPS_LIST, or what zs_check
 * returns for the text, with its place; both are then 0. Each is at most 4 for each node of the schedule, and five more. */
ZS_CALL ZS_POINTERS((3, 4, 5))
enum zs_status zs_program_size(const char *text, size_t text_len, size_t *ZS_ALONE size, size_t *ZS_ALONE state_size,
                               uint64_t *ZS_ALONE at);

/* Writes the program of a text's schedule to the first of the words: ZS_OK. Otherwise ZS_NO_ROOM, or what zs_program_size
 * returns, with its place, and no word is written. program_len counts words; those after the program are unchanged. */
ZS_CALL ZS_POINTERS((5))
enum zs_status zs_compile(const char *text, size_t text_len, uint64_t *ZS_ALONE program, size_t program_len,
                          uint64_t *ZS_ALONE at);

/* Writes the state of a program before any step to the first of the words: ZS_OK. Otherwise the first that applies of
 * ZS_NO_PROGRAM and ZS_NO_ROOM, and no word is written. Neither this call nor those below allocate memory. */
ZS_CALL
enum zs_status zs_program_begin(const uint64_t *program, size_t program_len, uint64_t *ZS_ALONE state, size_t state_len);

/* Steps a program at the end of a loop's attempt, and plans the next one, over a state that zs_program_begin wrote and zs_plan
 * continued: ZS_OK, and the next attempt may begin at *begin_ns, counted as in *turn; or ZS_DONE, and the loop gives up,
 * because the schedule is done, or because *begin_ns would be above 18446744073709551615. Otherwise the first that applies of
 * ZS_OTHER_SIZE, ZS_OTHER_VERSION, ZS_NO_PROGRAM, ZS_NO_ROOM, ZS_OTHER_STATE and ZS_FALLS, and the words are unchanged;
 * ZS_FALLS comes only after ZS_DONE or a zs_program_step. *begin_ns is 0 unless ZS_OK is returned.
 *
 * The schedule is stepped at the attempt's end, in whole milliseconds, but at least 1 ms after the begin that was planned for
 * it. *begin_ns isn't before the attempt's end. Without jitter it isn't before the schedule's moment. With jitter at least
 * 100 - percent of the schedule's wait remain. It isn't after the schedule's moment, unless least_ms asks for more.
 *
 * A loop makes at most `most` attempts, if that is a bound for a driver with such jitter and least waits: whatever its clock
 * does, and whenever its attempts begin and end. If they begin at *begin_ns or little later, and take as long as the driver
 * says, each ends less than the driver's longest_run_ms after the first began.
 *
 * A state may be stored; later turns count from the same first begin. zs_program_step leaves the planned begin as it is. */
ZS_CALL ZS_POINTERS((5, 6))
enum zs_status zs_plan(const uint64_t *program, size_t program_len, uint64_t *ZS_ALONE state, size_t state_len,
                       const zs_turn *turn, uint64_t *ZS_ALONE begin_ns);

/* One more step of a program, at a moment of the caller's clock: ZS_OK, and the next attempt may begin at *next_ms; or ZS_DONE.
 * The words are then the state after this step, and *visits is the number of nodes of the schedule that it visited, 1 to 1000.
 * Otherwise the first that applies of ZS_OTHER_VERSION, ZS_NO_PROGRAM, ZS_NO_ROOM, ZS_OTHER_STATE and ZS_FALLS; the words
 * are then unchanged, and *visits is 0. *next_ms is 0 unless ZS_OK is returned. */
ZS_CALL ZS_POINTERS((7, 8))
enum zs_status zs_program_step(const uint64_t *program, size_t program_len, uint64_t *ZS_ALONE state, size_t state_len,
                               uint64_t moment_ms, uint64_t input, uint64_t *ZS_ALONE next_ms, uint64_t *ZS_ALONE visits);

/* The text of the output of the last step ("3", "(400,2)", "Left(7)"; ASCII): ZS_OK. Otherwise the first that applies of
 * ZS_OTHER_VERSION, ZS_NO_PROGRAM, ZS_NO_ROOM, ZS_OTHER_STATE and ZS_NO_STEP; `out` is then unchanged and *size is 0.
 *
 * *size is the number of bytes of the text, without its final 0. The text and its 0 are written to the front of `out`: all of
 * them if out_len is above *size, else its first out_len bytes. The rest of `out` is unchanged. */
ZS_CALL ZS_POINTERS((7))
enum zs_status zs_output(const uint64_t *program, size_t program_len, const uint64_t *state, size_t state_len,
                         char *ZS_ALONE out, size_t out_len, size_t *ZS_ALONE size);

/* The text of a number that a call returned, with its place, in English ("no term at byte 23"; ASCII). It returns the number
 * of bytes, without the final 0, and 0 if the number is no error. The text and its 0 are written to the front of `out`, all of
 * them if out_len is above that number, else its first out_len bytes; the rest of `out` is unchanged. */
size_t zs_strerror(uint32_t number, uint64_t at, char *ZS_ALONE out, size_t out_len);

/* The version of the library, a number like ZS_VERSION_NUMBER. */
uint32_t zs_version(void);

#ifdef __cplusplus
}
#endif

#endif
