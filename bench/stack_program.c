// To be preloaded: runs a program's main on a painted stack, and says on descriptor 9 how deep it wrote.
#define _GNU_SOURCE
#include "stack_painted.h"
#include <dlfcn.h>
#include <unistd.h>

typedef int entry(int, char **, char **);
static entry *real;

static int painted(int count, char **arguments, char **environment) {
    uint64_t words[6] = {(uint64_t)count, (uint64_t)arguments, (uint64_t)environment, 0, 0, 0};
    paint_all();
    int status = (int)call_at(stack_top, (void *)real, words, 0);
    dprintf(9, "%zu\n", depth());
    return status;
}

int __libc_start_main(entry *program, int count, char **arguments, void (*first)(void), void (*last)(void),
    void (*late)(void), void *end) {
    int (*start)(entry *, int, char **, void (*)(void), void (*)(void), void (*)(void), void *) =
        dlsym(RTLD_NEXT, "__libc_start_main");
    real = program;
    return start(painted, count, arguments, first, last, late, end);
}
