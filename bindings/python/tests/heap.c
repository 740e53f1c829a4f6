/* A heap that a test sees into, in the place of bindings/c/heap.c: it counts blocks, keeps the largest
 * size, and refuses the allocation of a number. */
#include <stdbool.h>
#include <stddef.h>
#include <stdlib.h>

struct tried {
    bool ok;
    void *block;
};

long test_blocks;    /* that are allocated now */
long test_asked;     /* allocations since a test set this to 0 */
long test_refused;   /* the number of the one to refuse, or 0; -1 for all */
size_t test_largest; /* how many bytes the largest one asked for, since a test set this to 0 */

static char nowhere[16];

static struct tried tried(void *block) {
    return (struct tried){block != NULL, block != NULL ? block : nowhere};
}

static bool is_refused(size_t size) {
    test_largest = size > test_largest ? size : test_largest;
    return ++test_asked == test_refused || test_refused == -1;
}

struct tried rattle_alloc(size_t size, size_t align) {
    struct tried answer = tried(is_refused(size) ? NULL : malloc(size != 0 ? size : align));
    test_blocks += answer.ok;
    return answer;
}

struct tried rattle_realloc(void *block, size_t kept, size_t size, size_t align) {
    (void)kept;
    return tried(is_refused(size) ? NULL : realloc(block, size != 0 ? size : align));
}

void rattle_dealloc(void *block) {
    test_blocks--;
    free(block);
}
