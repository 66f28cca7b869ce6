/* The heap of code that the toolchain compiles for arm64, and of static programs: what it has itself, in c/liblibc_c.a, for
 * x86-64 and glibc alone. No proof covers it. A block of 0 bytes is one as large as its alignment, of at most 16. */
#include <stdbool.h>
#include <stddef.h>
#include <stdint.h>
#include <stdlib.h>

typedef struct { bool is_there; unsigned char *at; } block;
static unsigned char nothing[16];

static block tried(unsigned char *at) { return (block){at != NULL, at ? at : nothing}; }

block rattle_alloc(uint64_t size, uint64_t align) { return tried(malloc(size ? size : align)); }
block rattle_realloc(unsigned char *at, uint64_t before, uint64_t size, uint64_t align) {
    (void)before;
    return tried(realloc(at, size ? size : align));
}
void rattle_dealloc(unsigned char *at) { free(at); }
