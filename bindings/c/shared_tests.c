/* Tests of views that threads share: eight of them make the calls that only read two views, all at once.
 * What they get is compared with what one thread got alone. The last line is `N passed, M failed`. */
#define _POSIX_C_SOURCE 200809L
#include "check.h"

#include <pthread.h>

enum { THREADS = 8, ROUNDS = 40, ROOTS = 12, LEGS = 16, SPANS = 4 };

/* All that a view says of the keys 0:0, 1:0 and so on, and what changed since another one. */
struct said {
    uint32_t status;
    uint32_t number;
    uint32_t routes[ROOTS];
    uint32_t batch[ROOTS];
    squall_place places[ROOTS];
    size_t count;
    squall_leg legs[LEGS];
    uint32_t asked[ROOTS];
    size_t changed;
    squall_span changes[SPANS];
};

struct reader {
    const squall_view *before;
    const squall_view *view;
    const struct said *wanted;
    pthread_barrier_t *start;
    int wrong; /* how often something else was said */
};

/* Asks the views for all of it. Errands live in a room of the thread. */
static void ask(const squall_view *before, const squall_view *view, struct said *said) {
    uint64_t ranks[ROOTS];
    squall_errand *errand = (squall_errand *)room_of(squall_errand_size());
    memset(said, 0, sizeof *said);
    said->status = squall_view_status(view);
    said->number = squall_view_number(view);
    for (uint32_t root = 0; root < ROOTS; root++) {
        ranks[root] = squall_rank(root, 0);
        said->routes[root] = squall_view_route(view, ranks[root]);
        squall_errand_start_at(view, ranks[root], errand);
        said->asked[root] = squall_errand_asked(errand);
        squall_errand_close(errand);
    }
    squall_view_routes(view, ranks, ROOTS, said->batch, ROOTS);
    squall_view_locate(view, ranks, ROOTS, said->places, ROOTS);
    said->count = squall_view_legs(view, 0, SQUALL_TOP, said->legs, LEGS);
    said->changed = squall_view_changes(before, view, 0, SQUALL_TOP, said->changes, SPANS);
    free(errand);
}

static void *read_on(void *argument) {
    struct reader *reader = (struct reader *)argument;
    pthread_barrier_wait(reader->start);
    for (int round = 0; round < ROUNDS; round++) {
        struct said said;
        ask(reader->before, reader->view, &said);
        reader->wrong += memcmp(&said, reader->wanted, sizeof said) != 0;
    }
    return NULL;
}

static void share(const squall_view *before, const squall_view *view) {
    struct said wanted;
    struct reader readers[THREADS];
    pthread_t threads[THREADS];
    pthread_barrier_t start;
    ask(before, view, &wanted);
    pthread_barrier_init(&start, NULL, THREADS);
    for (int i = 0; i < THREADS; i++) {
        readers[i].before = before;
        readers[i].view = view;
        readers[i].wanted = &wanted;
        readers[i].start = &start;
        readers[i].wrong = 0;
        if (pthread_create(&threads[i], NULL, read_on, &readers[i]) != 0) {
            puts("no thread");
            exit(2);
        }
    }
    for (int i = 0; i < THREADS; i++) {
        pthread_join(threads[i], NULL);
        CHECK(readers[i].wrong == 0);
    }
    pthread_barrier_destroy(&start);
}

/* Views of the worked example before and after one load, and one more view of the last. */
static void views_are_shared(void) {
    squall_router *router = router_of(1, OLD, NEW);
    squall_view *before = view_of(router);
    squall_view *again = room_for_view();
    squall_span span = {0, 0};
    CHECK(squall_router_loaded(router, 1, 0, 3, squall_rank(2, 0), squall_rank(3, 0)) == SQUALL_OK);
    squall_view *view = view_of(router);
    squall_view_again(view, again);
    drop_router(router);
    CHECK(squall_view_route(view, squall_rank(2, 0)) == 3);
    CHECK(squall_view_route(view, squall_rank(6, 0)) == 3);
    CHECK(squall_view_changes(before, view, 0, SQUALL_TOP, &span, 1) == 1);
    CHECK(span.lo == squall_rank(2, 0) && span.hi == squall_rank(3, 0));
    share(before, view);
    share(view, before);
    drop_view(view);
    share(before, again);
    drop_view(again);
    drop_view(before);
}

/* No view is shared as well. */
static void no_view_is_shared(void) {
    squall_router *router = router_of(0, OLD, NEW);
    squall_view *view = view_of(router);
    squall_view *other = view_of(router);
    drop_router(router);
    CHECK(squall_view_status(view) == SQUALL_CLOSED);
    share(other, view);
    drop_view(view);
    drop_view(other);
}

int main(void) {
    static const struct test TESTS[] = {TEST(views_are_shared), TEST(no_view_is_shared)};
    return run_tests(TESTS, sizeof TESTS / sizeof *TESTS);
}
