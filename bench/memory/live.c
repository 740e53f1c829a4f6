/* Counts the bytes that a program has allocated, as malloc rounds them, and writes their number before each line that
 * the program writes. It is loaded before the C library (LD_PRELOAD). */
#define _GNU_SOURCE
#include <dlfcn.h>
#include <malloc.h>
#include <stdio.h>
#include <sys/types.h>

static long live;

static void *next(const char *name) { return dlsym(RTLD_NEXT, name); }

void *malloc(size_t size) {
    static void *(*real)(size_t);
    if (!real) real = (void *(*)(size_t))next("malloc");
    void *block = real(size);
    if (block) live += (long)malloc_usable_size(block);
    return block;
}

void *realloc(void *old, size_t size) {
    static void *(*real)(void *, size_t);
    if (!real) real = (void *(*)(void *, size_t))next("realloc");
    long before = old ? (long)malloc_usable_size(old) : 0;
    void *block = real(old, size);
    if (block) live += (long)malloc_usable_size(block) - before;
    return block;
}

void free(void *block) {
    static void (*real)(void *);
    if (!real) real = (void (*)(void *))next("free");
    if (block) live -= (long)malloc_usable_size(block);
    real(block);
}

ssize_t write(int file, const void *bytes, size_t count) {
    static ssize_t (*real)(int, const void *, size_t);
    if (!real) real = (ssize_t(*)(int, const void *, size_t))next("write");
    char text[32];
    int length = snprintf(text, sizeof text, "%ld ", live);
    if (real(file, text, (size_t)length) != length) return -1;
    return real(file, bytes, count);
}
