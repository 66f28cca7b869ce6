/* Checks a heap of the toolchain's kind, of three functions: each block is aligned, keeps its bytes while others change,
 * also when it grows, and a request for too much is refused. It prints what doesn't hold. */
#include <stdbool.h>
#include <stdint.h>
#include <stdio.h>
#include <string.h>

typedef struct { bool is_there; unsigned char *at; } block;
block rattle_alloc(uint64_t size, uint64_t align);
block rattle_realloc(unsigned char *at, uint64_t before, uint64_t size, uint64_t align);
void rattle_dealloc(unsigned char *at);

#define BLOCKS 400
#define TURNS 20000

static struct { unsigned char *at, byte; uint64_t size, align; } blocks[BLOCKS];

static void hold(bool is_well, const char *what)
{
    if (!is_well)
        printf("it doesn't hold that %s\n", what);
}

/* A number below another, of a generator whose state is this. */
static uint64_t below(uint64_t most)
{
    static uint64_t state = 1;
    state = state * 6364136223846793005u + 1442695040888963407u;
    return (state >> 33) % most;
}

static bool has(const unsigned char *at, uint64_t size, unsigned char byte)
{
    while (size && at[size - 1] == byte)
        size--;
    return size == 0;
}

/* Frees a block, makes one in a free place, or resizes one. */
static bool change(int number)
{
    uint64_t size = below(4) ? below(70) : below(5000), align = 1u << below(5);
    unsigned char byte = (unsigned char)below(256);
    block made;
    if (blocks[number].at && !below(2)) {
        rattle_dealloc(blocks[number].at);
        blocks[number].at = NULL;
        return true;
    }
    if (blocks[number].at) {
        uint64_t kept = blocks[number].size < size ? blocks[number].size : size;
        align = blocks[number].align;
        made = rattle_realloc(blocks[number].at, blocks[number].size, size, align);
        if (!made.is_there || !has(made.at, kept, blocks[number].byte))
            return false;
    } else {
        made = rattle_alloc(size, align);
    }
    if (!made.is_there || (uintptr_t)made.at % align)
        return false;
    memset(made.at, byte, size);
    blocks[number].at = made.at, blocks[number].size = size, blocks[number].align = align, blocks[number].byte = byte;
    return true;
}

int main(void)
{
    bool is_well = true;
    block large = rattle_alloc(UINT64_MAX >> 1, 16), small = rattle_alloc(9, 1);
    for (int turn = 0; turn < TURNS && is_well; turn++)
        is_well = change((int)below(BLOCKS));
    for (int number = 0; number < BLOCKS; number++)
        is_well = is_well && (!blocks[number].at || has(blocks[number].at, blocks[number].size, blocks[number].byte));
    hold(is_well, "blocks are aligned, and keep their bytes");
    hold(!large.is_there && small.is_there && !rattle_realloc(small.at, 9, UINT64_MAX >> 1, 1).is_there,
         "a request for too much is refused");
    memset(small.at, 1, 9);
    hold(has(small.at, 9, 1), "a block is there after a refused request");
    return 0;
}
