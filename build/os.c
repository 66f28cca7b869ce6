/* What programs take of the toolchain's c/libos_c.a, which it has for x86-64 and glibc alone: errno and arguments. No proof
 * covers it. objcopy gives the program's `main` the name rattle_main, since musl passes no arguments to initializers. */
#include <errno.h>
#include <signal.h>
#include <stdint.h>
#include <string.h>

int rattle_main(void);
static int count;
static char **words;

int main(int argc, char **argv) {
    count = argc;
    words = argv;
    return rattle_main();
}

int rattle_errno(void) { return errno; }
void rattle_set_errno(int number) { errno = number; }

/* Copies an argument, and returns its length: -1 if there is none, -2 if it is longer than the room, which is then full. */
int64_t rattle_arg(uint64_t place, unsigned char *to, uint64_t room) {
    uint64_t size;
    if (place >= (uint64_t)count || !words[place])
        return -1;
    size = strlen(words[place]);
    memcpy(to, words[place], size < room ? size : room);
    return size > room ? -2 : (int64_t)size;
}

#ifndef __GLIBC__
/* The programs only ignore a signal by it. */
void (*__sysv_signal(int number, void (*how)(int)))(int) { return signal(number, how); }
#endif
