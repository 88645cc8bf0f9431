// Makes the NTH allocation fail, for `.ci/sessions`. The status is 99 if the program succeeds with fewer allocations, and
// 98 if it ends without freeing everything. If NTH is 0 none fails, and it prints how many there were.
#define _GNU_SOURCE
#include <dlfcn.h>
#include <stdatomic.h>
#include <stdio.h>
#include <stdlib.h>
#include <unistd.h>

static atomic_long seen;

// How many allocations aren't freed.
static atomic_long held;

static long number(void) {
    const char *word = getenv("NTH");
    return word ? atol(word) : 0;
}

static int refused(void) {
    static long nth = -1;
    if (nth < 0) nth = number();
    return ++seen == nth;
}

void *malloc(size_t size) {
    static void *(*real)(size_t);
    if (!real) real = dlsym(RTLD_NEXT, "malloc");
    void *made = refused() ? NULL : real(size);
    if (made) held++;
    return made;
}

void *realloc(void *block, size_t size) {
    static void *(*real)(void *, size_t);
    if (!real) real = dlsym(RTLD_NEXT, "realloc");
    void *moved = refused() ? NULL : real(block, size);
    if (moved && !block) held++;
    return moved;
}

void free(void *block) {
    static void (*real)(void *);
    if (!real) real = dlsym(RTLD_NEXT, "free");
    if (block) held--;
    real(block);
}

// A program may end by `_exit`, or by `exit`, as when `main` returns.
__attribute__((noreturn)) static void end(int status) {
    static void (*real)(int);
    if (!real) real = dlsym(RTLD_NEXT, "_exit");
    if (held > 0) {
        fprintf(stderr, "%ld allocations aren't freed\n", (long)held);
        real(98);
    }
    if (number() == 0) fprintf(stderr, "%ld\n", (long)seen);
    real(status == 0 && seen < number() ? 99 : status);
    __builtin_unreachable();
}

void _exit(int status) { end(status); }

static void at_exit(int status, void *nothing) {
    (void)nothing;
    fflush(NULL);
    end(status);
}

__attribute__((constructor)) static void begin(void) { on_exit(at_exit, NULL); }
