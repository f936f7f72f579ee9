/*
 * Refuses growths of memory to the program that it is loaded into (LD_PRELOAD): the one whose number, counted from 1, stands in REFUSE,
 * and all behind the number in REFUSE_BEHIND. As the program ends it writes how many were asked for into the file that GROWTHS names.
 */
#define _GNU_SOURCE
#include <dlfcn.h>
#include <stdatomic.h>
#include <stdio.h>
#include <stdlib.h>
#include <sys/syscall.h>
#include <unistd.h>

static void *(*own_malloc)(size_t);
static void *(*own_realloc)(void *, size_t);
static atomic_ulong asked;
static unsigned long one, behind;
static const char *file;

static unsigned long number(const char *name) {
    const char *text = getenv(name);
    return text ? strtoul(text, NULL, 10) : 0;
}

__attribute__((constructor)) static void begin(void) {
    own_malloc = (void *(*)(size_t))dlsym(RTLD_NEXT, "malloc");
    own_realloc = (void *(*)(void *, size_t))dlsym(RTLD_NEXT, "realloc");
    one = number("REFUSE");
    behind = number("REFUSE_BEHIND");
    file = getenv("GROWTHS");
    /* What was asked for before the program began doesn't count. */
    atomic_store(&asked, 0);
}

__attribute__((destructor)) static void end(void) {
    unsigned long all = atomic_load(&asked);
    FILE *out = file ? fopen(file, "w") : NULL;
    if (out) {
        fprintf(out, "%lu\n", all);
        fclose(out);
    }
}

/* A program that ends by _exit runs no destructor. */
void _exit(int status) {
    end();
    for (;;)
        syscall(SYS_exit_group, status);
}

static int is_refused(void) {
    unsigned long now = atomic_fetch_add(&asked, 1) + 1;
    return (one && now == one) || (behind && now > behind);
}

void *malloc(size_t size) {
    if (!own_malloc)
        own_malloc = (void *(*)(size_t))dlsym(RTLD_NEXT, "malloc");
    return is_refused() ? NULL : own_malloc(size);
}

void *realloc(void *old, size_t size) {
    if (!own_realloc)
        own_realloc = (void *(*)(void *, size_t))dlsym(RTLD_NEXT, "realloc");
    return is_refused() ? NULL : own_realloc(old, size);
}
