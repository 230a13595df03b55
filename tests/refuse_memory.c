/* Loaded before the C library: refuses the allocation whose number REFUSE gives, counted from 1. When it does so it makes
   the file that REFUSED names, if it names one. */
#define _GNU_SOURCE
#include <dlfcn.h>
#include <fcntl.h>
#include <stddef.h>
#include <stdlib.h>
#include <unistd.h>

static long asked;

static void report(void) {
    const char *name = getenv("REFUSED");
    int file = name ? open(name, O_WRONLY | O_CREAT, 0666) : -1;
    if (file >= 0) close(file);
}

static int refused(void) {
    static long chosen;
    if (chosen == 0) {
        const char *text = getenv("REFUSE");
        chosen = text ? atol(text) : -1;
    }
    asked += 1;
    if (asked != chosen) return 0;
    report();
    return 1;
}

void *malloc(size_t size) {
    static void *(*real)(size_t);
    if (!real) real = (void *(*)(size_t))dlsym(RTLD_NEXT, "malloc");
    return refused() ? NULL : real(size);
}

void *realloc(void *block, size_t size) {
    static void *(*real)(void *, size_t);
    if (!real) real = (void *(*)(void *, size_t))dlsym(RTLD_NEXT, "realloc");
    return refused() ? NULL : real(block, size);
}
