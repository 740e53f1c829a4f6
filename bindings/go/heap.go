//go:build squall_heap

package squall

// #include <malloc.h>
// #include <stdatomic.h>
// #include <stdbool.h>
// #include <stdlib.h>
//
// // The heap of bindings/c/heap.c, which counts, and refuses one allocation. It takes the place of that
// // member of libsquall.a.
// struct tried {
//     bool ok;
//     void *block;
// };
//
// static char nowhere[16];
// static atomic_long blocks;  // that are allocated now
// static atomic_long asked;   // allocations since the count began
// static atomic_long refused; // the number of the one to refuse, 0 for none, or -1 for each
//
// static bool is_refused(void) {
//     long number = atomic_fetch_add(&asked, 1) + 1, which = atomic_load(&refused);
//     return number == which || which == -1;
// }
//
// static struct tried tried(void *block) {
//     return (struct tried){block != NULL, block != NULL ? block : nowhere};
// }
//
// struct tried rattle_alloc(size_t size, size_t align) {
//     struct tried answer = tried(is_refused() ? NULL : malloc(size != 0 ? size : align));
//     atomic_fetch_add(&blocks, answer.ok);
//     return answer;
// }
//
// struct tried rattle_realloc(void *block, size_t kept, size_t size, size_t align) {
//     (void)kept;
//     return tried(is_refused() ? NULL : realloc(block, size != 0 ? size : align));
// }
//
// void rattle_dealloc(void *block) {
//     atomic_fetch_sub(&blocks, 1);
//     free(block);
// }
//
// static void refuse(long number) {
//     atomic_store(&asked, 0);
//     atomic_store(&refused, number);
// }
//
// static long asked_for(void) {
//     return atomic_load(&asked);
// }
//
// static long allocated(void) {
//     return atomic_load(&blocks);
// }
//
// static size_t in_use(void) {
//     return mallinfo2().uordblks;
// }
import "C"

// The heap of the tests with the tag squall_heap: see heap_test.go.

// refuse refuses the library the allocation of that number, from 1 on, none for 0, or each for -1. It counts
// anew.
func refuse(number int) { C.refuse(C.long(number)) }

// asked is how many allocations the library has asked for since the count began.
func asked() int { return int(C.asked_for()) }

// allocated is how many blocks the library has allocated and not freed.
func allocated() int { return int(C.allocated()) }

// inUse is how many bytes of C's heap are in use, those of rooms among them.
func inUse() int { return int(C.in_use()) }
