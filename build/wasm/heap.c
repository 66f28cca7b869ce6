/* The heap of the library in WebAssembly, and a room for what is passed. No proof covers it. A block has a power of 2 of
 * bytes, and a head before it; a freed one is the next of its size. Each call frees all that it took. */
typedef unsigned long long u64;
typedef struct { u64 is_there, at; } block;
typedef struct { u64 power, next; } head;
#define HEAD(at) ((head *)((at) - sizeof(head)))
extern unsigned char __heap_base[];
static u64 top, freed[32];

/* The address of a block, or 0. The last page of a memory of 32 bits, of 64 KiB as each, is never there. */
static u64 taken(u64 size) {
    u64 power = size > 16 ? 64 - __builtin_clzll(size - 1) : 4, pages = __builtin_wasm_memory_size(0), at, end;
    if (power > 31)
        return 0;
    if ((at = freed[power]))
        return (freed[power] = HEAD(at)->next, at);
    end = (at = top + sizeof(head)) + (1ull << power);
    if (end > 0xffff0000)
        return 0;
    if (end > pages << 16 && (unsigned)__builtin_wasm_memory_grow(0, ((end + 65535) >> 16) - pages) == ~0u)
        return 0;
    top = end;
    return (HEAD(at)->power = power, at);
}

block rattle_alloc(u64 size, u64 align) {
    u64 at = taken(size ? size : align);
    return (block){at != 0, at ? at : 16};
}
void rattle_dealloc(u64 at) { HEAD(at)->next = freed[HEAD(at)->power], freed[HEAD(at)->power] = at; }
block rattle_realloc(u64 before, u64 kept, u64 size, u64 align) {
    block made = rattle_alloc(size, align);
    if (made.is_there)
        __builtin_memcpy((void *)made.at, (void *)before, kept < size ? kept : size), rattle_dealloc(before);
    return made;
}

/* The address of a room of this size, in place of the one before; or 0. */
u64 zs_room(u64 size) {
    top = ((u64)__heap_base + 15) & ~15ull;
    __builtin_memset(freed, 0, sizeof freed);
    return taken(size);
}
