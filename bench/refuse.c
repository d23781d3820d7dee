// Makes one allocation of a program fail. Loaded before the C library, it counts the calls of malloc and realloc that
// the program itself makes, and the one whose number from 1 is in REFUSE gets no memory. What it counted, it writes into
// the file that REFUSE_COUNT names. `codex` calls no other function for memory.
#define _GNU_SOURCE
#include <dlfcn.h>
#include <link.h>
#include <stdint.h>
#include <stdio.h>
#include <stdlib.h>

static uintptr_t low, high;
static unsigned long calls, refused;

// the first object is the program
static int bounds(struct dl_phdr_info *object, size_t size, void *data) {
    (void)size, (void)data;
    for (int k = 0; k < object->dlpi_phnum; k++)
        if (object->dlpi_phdr[k].p_type == PT_LOAD) {
            uintptr_t from = object->dlpi_addr + object->dlpi_phdr[k].p_vaddr;
            uintptr_t to = from + object->dlpi_phdr[k].p_memsz;
            if (!low || from < low) low = from;
            if (to > high) high = to;
        }
    return 1;
}

__attribute__((constructor)) static void begin(void) {
    const char *number = getenv("REFUSE");
    refused = number ? strtoul(number, NULL, 10) : 0;
    dl_iterate_phdr(bounds, NULL);
}

__attribute__((destructor)) static void end(void) {
    const char *name = getenv("REFUSE_COUNT");
    FILE *file = name ? fopen(name, "w") : NULL;
    if (file) fprintf(file, "%lu\n", calls), fclose(file);
}

static int refuses(void *caller) {
    return (uintptr_t)caller >= low && (uintptr_t)caller < high && ++calls == refused;
}

void *malloc(size_t size) {
    static void *(*next)(size_t);
    if (!next) next = dlsym(RTLD_NEXT, "malloc");
    return refuses(__builtin_return_address(0)) ? NULL : next(size);
}

void *realloc(void *old, size_t size) {
    static void *(*next)(void *, size_t);
    if (!next) next = dlsym(RTLD_NEXT, "realloc");
    return refuses(__builtin_return_address(0)) ? NULL : next(old, size);
}
