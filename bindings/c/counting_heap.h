/* A heap of the tests in the place of heap.c: it counts, and refuses the allocations that a test names. */
#ifndef SQUALL_COUNTING_HEAP_H
#define SQUALL_COUNTING_HEAP_H

#include <stdbool.h>
#include <stdlib.h>

struct tried {
    bool ok;
    void *block;
};

struct tried rattle_alloc(size_t size, size_t align);
struct tried rattle_realloc(void *block, size_t kept, size_t size, size_t align);
void rattle_dealloc(void *block);

static char nowhere[16];
static long blocks;      /* that are allocated now */
static long asked;       /* allocations since the count began */
static long refused;     /* the number of the one to refuse, or 0 */
static bool refuses_all; /* whether each one is refused */

static bool is_refused(void) {
    return ++asked == refused || refuses_all;
}

static struct tried tried(void *block) {
    return (struct tried){block != NULL, block != NULL ? block : nowhere};
}

struct tried rattle_alloc(size_t size, size_t align) {
    struct tried answer = tried(is_refused() ? NULL : malloc(size != 0 ? size : align));
    blocks += answer.ok;
    return answer;
}

struct tried rattle_realloc(void *block, size_t kept, size_t size, size_t align) {
    (void)kept;
    return tried(is_refused() ? NULL : realloc(block, size != 0 ? size : align));
}

void rattle_dealloc(void *block) {
    blocks--;
    free(block);
}

#endif
