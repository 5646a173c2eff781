// Refuses one growth of a program that it is loaded before: the call number GROWTH_REFUSED, counted
// from 1, of malloc and realloc. Where GROWTH_COUNTED names a file, the number of calls is written
// there when the program ends.
#define _GNU_SOURCE
#include <dlfcn.h>
#include <errno.h>
#include <stddef.h>
#include <stdio.h>
#include <stdlib.h>

static void *(*grown)(size_t);
static void *(*grown_again)(void *, size_t);
static unsigned long calls, refused;

__attribute__((constructor)) static void begin(void) {
    const char *number = getenv("GROWTH_REFUSED");
    grown = dlsym(RTLD_NEXT, "malloc");
    grown_again = dlsym(RTLD_NEXT, "realloc");
    refused = number ? strtoul(number, NULL, 10) : 0;
    calls = 0;
}

__attribute__((destructor)) static void end(void) {
    const char *name = getenv("GROWTH_COUNTED");
    unsigned long counted = calls;
    FILE *file = name ? fopen(name, "w") : NULL;
    if (file) {
        fprintf(file, "%lu\n", counted);
        fclose(file);
    }
}

static int is_refused(void) {
    if (++calls != refused)
        return 0;
    errno = ENOMEM;
    return 1;
}

void *malloc(size_t size) {
    if (!grown)
        grown = dlsym(RTLD_NEXT, "malloc");
    return is_refused() ? NULL : grown(size);
}

void *realloc(void *place, size_t size) {
    if (!grown_again)
        grown_again = dlsym(RTLD_NEXT, "realloc");
    return is_refused() ? NULL : grown_again(place, size);
}
