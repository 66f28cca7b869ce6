// The number of the survivor whose body runs, or 0 for none. It is in C: Rattle has no variable of a whole program.
// Each changed crate has this code, of which the linker takes one.
#include <stdint.h>
#include <stdlib.h>
#define SHARED __attribute__((weak))
SHARED uint64_t zs_number = UINT64_MAX;
SHARED uint64_t zs_chosen(void) {
    if (zs_number == UINT64_MAX) zs_number = getenv("ZS_CHOSEN") ? strtoull(getenv("ZS_CHOSEN"), NULL, 10) : 0;
    return zs_number;
}
