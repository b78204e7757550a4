// A library that stands in front of the system's one for tests/growths: of the calls of `main` that take memory it refuses the
// one whose number, from 1, is in REFUSED, and at the end it writes to the file COUNTED how many there were.
#define _GNU_SOURCE
#include <dlfcn.h>
#include <fcntl.h>
#include <stdio.h>
#include <stdlib.h>

static unsigned long calls, refused;
static int is_begun;

// counts from where main begins: what the system's own start takes is no growth of the program
__attribute__((constructor)) static void begin(void) {
    const char *word = getenv("REFUSED");
    refused = word ? strtoul(word, 0, 10) : 0;
    is_begun = 1;
}

__attribute__((destructor)) static void end(void) {
    const char *name = getenv("COUNTED");
    int file = name ? open(name, O_WRONLY | O_CREAT | O_TRUNC, 0600) : -1;
    is_begun = 0;
    if (file >= 0) dprintf(file, "%lu\n", calls);
}

static int is_refused(void) { return is_begun && ++calls == refused; }

void *malloc(size_t size) {
    static void *(*next)(size_t);
    if (!next) next = dlsym(RTLD_NEXT, "malloc");
    return is_refused() ? 0 : next(size);
}

void *realloc(void *old, size_t size) {
    static void *(*next)(void *, size_t);
    if (!next) next = dlsym(RTLD_NEXT, "realloc");
    return is_refused() ? 0 : next(old, size);
}
