/* Calls with lengths above 2^32, over memory that is there: of no length are the lowest 32 bits taken alone. It prints what
 * doesn't hold. */
#define _DEFAULT_SOURCE
#include "zsched.h"

#include <stdio.h>
#include <stdlib.h>
#include <string.h>
#include <sys/mman.h>

#define ABOVE ((size_t)1 << 32)
#define TEXT "(recurs(3) && recurs(3))"
#define SIZE (sizeof TEXT - 1)
#define WORDS (ABOVE + 1)

static void hold(int is_well, const char *what)
{
    if (!is_well)
        printf("it doesn't hold of %s\n", what);
}

/* Memory whose pages are there when they are touched. */
static void *room(size_t size)
{
    void *made = mmap(NULL, size, PROT_READ | PROT_WRITE, MAP_PRIVATE | MAP_ANONYMOUS | MAP_NORESERVE, -1, 0);
    if (made == MAP_FAILED)
        abort();
    return made;
}

/* Whether a call says of a text that its first byte after a schedule is wrong, or that it is too long for the memory. */
static int is_read(enum zs_status status, const uint64_t *at)
{
    return status == ZS_NO_MEMORY || (status == ZS_NOT_UTF8 && *at == SIZE);
}

static void test_texts(uint64_t *words)
{
    char *text = room(ABOVE + SIZE);
    zs_driver driver = ZS_DRIVER;
    zs_run_bounds bounds = ZS_RUN_BOUNDS;
    uint64_t at = 0;
    size_t size, state_size;
    memcpy(text, TEXT "\xff", SIZE + 1);
    hold(is_read(zs_check(text, ABOVE + SIZE, &at), &at), "zs_check");
    hold(is_read(zs_bounds(text, ABOVE + SIZE, &driver, 9, &bounds, &at), &at), "zs_bounds");
    hold(is_read(zs_program_size(text, ABOVE + SIZE, &size, &state_size, &at), &at), "zs_program_size");
    hold(is_read(zs_compile(text, ABOVE + SIZE, words, WORDS, &at), &at), "zs_compile");
}

int main(void)
{
    uint64_t *program = room(8 * WORDS), *state = room(8 * WORDS), at, next, visits;
    char *out = room(WORDS), told[ZS_TEXT_MOST];
    zs_turn turn = ZS_TURN;
    size_t size;
    test_texts(program);
    hold(!zs_compile(TEXT, SIZE, program, WORDS, &at), "the program of zs_compile");
    hold(!zs_program_begin(program, WORDS, state, WORDS), "zs_program_begin");
    hold(!zs_plan(program, WORDS, state, WORDS, &turn, &next), "zs_plan");
    hold(!zs_program_step(program, WORDS, state, WORDS, 1, 0, &next, &visits), "zs_program_step");
    hold(!zs_output(program, WORDS, state, WORDS, out, WORDS, &size) && !strcmp(out, "(1,1)"), "zs_output");
    size = zs_strerror(ZS_NO_TERM, 7, told, sizeof told);
    hold(zs_strerror(ZS_NO_TERM, 7, out, WORDS) == size && size > 9 && !strncmp(out, told, size), "zs_strerror");
    return 0;
}
