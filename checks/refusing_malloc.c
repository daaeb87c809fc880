// Stands before the C library's allocator, refuses one allocation, and writes how many there were: see allocations.sh.
//
// REFUSED is the number of the allocation that is refused, counted from 1; 0 refuses none. COUNTED is a file to which the number of
// allocations is written as the program ends.
#define _GNU_SOURCE
#include <dlfcn.h>
#include <fcntl.h>
#include <stdio.h>
#include <stdlib.h>
#include <unistd.h>

static unsigned long made;
static unsigned long refused;
static void *(*next_malloc)(size_t);
static void *(*next_realloc)(void *, size_t);

__attribute__((constructor)) static void begin(void) {
    next_malloc = dlsym(RTLD_NEXT, "malloc");
    next_realloc = dlsym(RTLD_NEXT, "realloc");
    const char *number = getenv("REFUSED");
    refused = number ? strtoul(number, NULL, 10) : 0;
    made = 0;
}

__attribute__((destructor)) static void end(void) {
    const char *name = getenv("COUNTED");
    char text[32];
    int file = name ? open(name, O_WRONLY | O_CREAT | O_TRUNC, 0600) : -1;
    if (file >= 0) {
        int length = snprintf(text, sizeof text, "%lu\n", made);
        if (write(file, text, length) != length) _exit(99);
        close(file);
    }
}

void *malloc(size_t size) {
    if (!next_malloc) next_malloc = dlsym(RTLD_NEXT, "malloc");
    return ++made == refused ? NULL : next_malloc(size);
}

void *realloc(void *old, size_t size) {
    if (!next_realloc) next_realloc = dlsym(RTLD_NEXT, "realloc");
    return ++made == refused ? NULL : next_realloc(old, size);
}
