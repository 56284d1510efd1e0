// Preloaded before a program, refuses memory or fails a device: tools/memory.py builds and uses it.
//
// REFUSE=N refuses the Nth growth that the program asks for, REFUSE=-N that one and all later ones;
// READ=N and WRITE=N fail the Nth read and write in the same way, as a device that is broken does.
// At the end the counts of growths, reads and writes are written to the file that COUNTS names.
#define _GNU_SOURCE
#include <dlfcn.h>
#include <errno.h>
#include <fcntl.h>
#include <stdio.h>
#include <stdlib.h>
#include <unistd.h>

enum { GROWTHS, READS, WRITES };
static long wanted[3], counts[3];
static int is_counting;

static long number(const char *name) {
    const char *text = getenv(name);
    return text ? strtol(text, NULL, 10) : 0;
}

__attribute__((constructor)) static void begin(void) {
    wanted[GROWTHS] = number("REFUSE");
    wanted[READS] = number("READ");
    wanted[WRITES] = number("WRITE");
    is_counting = 1;
}

__attribute__((destructor)) static void end(void) {
    const char *path = getenv("COUNTS");
    is_counting = 0;
    FILE *file = path ? fopen(path, "w") : NULL;
    if (!file) return;
    fprintf(file, "%ld %ld %ld\n", counts[GROWTHS], counts[READS], counts[WRITES]);
    fclose(file);
}

// Whether this call fails.
static int fails(int kind) {
    if (!is_counting) return 0;
    long count = ++counts[kind], which = wanted[kind];
    return which > 0 ? count == which : which < 0 && count >= -which;
}

void *malloc(size_t size) {
    static void *(*next)(size_t);
    if (!next) next = (void *(*)(size_t))dlsym(RTLD_NEXT, "malloc");
    if (!fails(GROWTHS)) return next(size);
    errno = ENOMEM;
    return NULL;
}

void *realloc(void *old, size_t size) {
    static void *(*next)(void *, size_t);
    if (!next) next = (void *(*)(void *, size_t))dlsym(RTLD_NEXT, "realloc");
    if (!fails(GROWTHS)) return next(old, size);
    errno = ENOMEM;
    return NULL;
}

ssize_t read(int file, void *bytes, size_t size) {
    static ssize_t (*next)(int, void *, size_t);
    if (!next) next = (ssize_t (*)(int, void *, size_t))dlsym(RTLD_NEXT, "read");
    if (!fails(READS)) return next(file, bytes, size);
    errno = EIO;
    return -1;
}

ssize_t write(int file, const void *bytes, size_t size) {
    static ssize_t (*next)(int, const void *, size_t);
    if (!next) next = (ssize_t (*)(int, const void *, size_t))dlsym(RTLD_NEXT, "write");
    if (file == 2 || !fails(WRITES)) return next(file, bytes, size);
    errno = EIO;
    return -1;
}
