/* Routes from C by views, in one to four threads with a view each and in eight with one view, and many keys a call,
 * and frames. Prints `NAME: VALUE UNIT` a line. */
#define _POSIX_C_SOURCE 200809L
#include "shared.h"

#include <pthread.h>
#include <stdio.h>

enum { KEYS = 20000, ROUNDS = 100, MOST_THREADS = 4, SHARING_THREADS = 8, SMALL_FRAMES = 20000, AT_ONCE = 16 };

/* All loads lie below this rank, and so do the keys that are asked for. */
static const uint64_t REACH = UINT64_C(1) << 62;

static void demand(int fact) {
    if (!fact) {
        puts("the library answered otherwise than it is to");
        exit(1);
    }
}

/* ---- frames */

static uint8_t *put(uint8_t *at, uint64_t value, int bytes) {
    for (int i = bytes - 1; i >= 0; i--) {
        *at++ = (uint8_t)(value >> (8 * i));
    }
    return at;
}

/* The frame of so many cells of partition 2 and up, each of so many spans apart from one another, in
 * sub-plan 0 of the course `number`. How many bytes it has. */
static size_t put_frame(uint8_t *out, uint32_t number, uint32_t cells, uint32_t spans) {
    uint64_t step = REACH / spans;
    uint32_t body = 8 + cells * (17 + 16 * spans);
    uint8_t *at = put(put(out, 0x53510101, 4), body, 4);
    at = put(put(at, 0, 4), cells, 4);
    for (uint32_t cell = 0; cell < cells; cell++) {
        at = put(put(at, number, 4), cell / 1000, 4);
        at = put(put(at, 2 + cell % 1000, 4), 0, 1);
        at = put(at, spans, 4);
        for (uint32_t span = 0; span < spans; span++) {
            at = put(put(at, span * step, 8), span * step + step / 2, 8);
        }
    }
    return (size_t)(at - out);
}

static squall_router *open_router(void) {
    squall_router *router = router_of_two();
    demand(squall_router_status(router) == SQUALL_OK);
    return router;
}

static void close_router(squall_router *router) {
    squall_router_close(router);
    free(router);
}

/* ---- routes */

struct reader {
    pthread_barrier_t *start;
    squall_view *view;
    uint64_t state;
    int waits; /* whether each key is drawn from the last answer */
    double least;
    uint64_t sum;
};

static uint64_t next_state(uint64_t state) {
    return state * UINT64_C(6364136223846793005) + UINT64_C(1442695040888963407);
}

static void *read_on(void *argument) {
    struct reader *reader = argument;
    reader->least = 1e9;
    for (int round = 0; round < ROUNDS; round++) {
        pthread_barrier_wait(reader->start);
        double start = now();
        uint64_t state = reader->state;
        uint64_t sum = 0;
        for (int i = 0; i < KEYS; i++) {
            uint32_t part = squall_view_route(reader->view, state & (REACH - 1));
            sum += part;
            state = next_state(state + (reader->waits ? part : 0));
        }
        double took = now() - start;
        reader->least = took < reader->least ? took : reader->least;
        reader->state = state;
        reader->sum += sum;
    }
    return NULL;
}

/* In so many threads, each with a view of its own, or all with one. */
static void measure_routes(squall_view *view, uint32_t legs, int count, int waits, int shared) {
    struct reader readers[SHARING_THREADS];
    pthread_t threads[SHARING_THREADS];
    pthread_barrier_t start;
    double sum = 0;
    pthread_barrier_init(&start, NULL, (unsigned)count);
    for (int i = 0; i < count; i++) {
        squall_view *mine = view;
        if (!shared) {
            mine = room_of(squall_view_size());
            squall_view_again(view, mine);
        }
        readers[i] = (struct reader){&start, mine, (uint64_t)i + 1, waits, 0, 0};
        demand(pthread_create(&threads[i], NULL, read_on, &readers[i]) == 0);
    }
    for (int i = 0; i < count; i++) {
        pthread_join(threads[i], NULL);
        sum += readers[i].least;
        demand(readers[i].sum >= (uint64_t)KEYS * ROUNDS);
        if (!shared) {
            squall_view_close(readers[i].view);
            free(readers[i].view);
        }
    }
    pthread_barrier_destroy(&start);
    printf("route, %u legs, %s, %d threads%s: %.1f ns\n", legs,
           waits ? "each key from the last answer" : "keys on their own", count, shared ? " with one view" : "",
           sum / count / KEYS * 1e9);
}

/* Keys that do not wait for one another, in calls of 16: their routes, and where they stand. */
static void measure_batches(const squall_view *view, uint32_t legs) {
    uint64_t ranks[AT_ONCE];
    uint32_t parts[AT_ONCE];
    squall_place places[AT_ONCE];
    double routes = 1e9;
    double located = 1e9;
    uint64_t state = 1;
    uint64_t sum = 0;
    for (int round = 0; round < ROUNDS; round++) {
        double start = now();
        for (int i = 0; i < KEYS; i += AT_ONCE) {
            for (int j = 0; j < AT_ONCE; j++) {
                ranks[j] = state & (REACH - 1);
                state = next_state(state);
            }
            sum += squall_view_routes(view, ranks, AT_ONCE, parts, AT_ONCE) + parts[0];
        }
        double took = now() - start;
        routes = took < routes ? took : routes;
        start = now();
        for (int i = 0; i < KEYS; i += AT_ONCE) {
            for (int j = 0; j < AT_ONCE; j++) {
                ranks[j] = state & (REACH - 1);
                state = next_state(state);
            }
            sum += squall_view_locate(view, ranks, AT_ONCE, places, AT_ONCE) + places[0].part;
        }
        took = now() - start;
        located = took < located ? took : located;
    }
    demand(sum >= (uint64_t)KEYS * ROUNDS);
    printf("routes of %d keys a call, %u legs, each: %.1f ns\n", AT_ONCE, legs, routes / KEYS * 1e9);
    printf("places of %d keys a call, %u legs, each: %.1f ns\n", AT_ONCE, legs, located / KEYS * 1e9);
}

static void measure_views(uint32_t legs) {
    uint8_t *frame = room_of(SQUALL_FRAME_BYTES);
    squall_router *router = open_router();
    squall_view *view = room_of(squall_view_size());
    size_t len = put_frame(frame, 1, 1, legs / 2);
    demand(squall_router_feed(router, frame, len) == SQUALL_OK);
    double start = now();
    squall_view_open(router, view);
    printf("open a view, %u legs: %.0f us\n", legs, (now() - start) * 1e6);
    demand(squall_view_status(view) == SQUALL_OK && squall_view_route(view, 0) == 2);
    for (int waits = 0; waits < 2; waits++) {
        for (int count = 1; count <= MOST_THREADS; count++) {
            measure_routes(view, legs, count, waits, 0);
        }
        measure_routes(view, legs, SHARING_THREADS, waits, 1);
    }
    measure_batches(view, legs);
    squall_view_close(view);
    free(view);
    close_router(router);
    free(frame);
}

/* ---- feeds */

static void measure_feed(const uint8_t *stream, size_t len, size_t piece) {
    squall_router *router = open_router();
    double start = now();
    for (size_t at = 0; at < len; at += piece) {
        demand(squall_router_feed(router, stream + at, piece < len - at ? piece : len - at) == SQUALL_OK);
    }
    double took = now() - start;
    printf("feed, pieces of %zu bytes: %.0f MB/s\n", piece, (double)len / took * 1e-6);
    close_router(router);
}

static void measure_feeds(void) {
    uint8_t *stream = room_of(3 * (size_t)SQUALL_FRAME_BYTES);
    size_t len = put_frame(stream, 7, 1, 65000);
    len += put_frame(stream + len, 8, 1000, 64);
    len += put_frame(stream + len, 9, 30000, 1);
    measure_feed(stream, len, 1500);
    measure_feed(stream, len, 65536);
    measure_feed(stream, len, 4 << 20);
    free(stream);
}

typedef uint32_t take(squall_router *router, const uint8_t *frame, size_t len);

/* Frames of one load each, each taken whole by one call. */
static void measure_small_frames(const char *name, take *take) {
    squall_router *router = open_router();
    uint8_t frame[64];
    double took = 0;
    for (uint32_t i = 0; i < SMALL_FRAMES; i++) {
        size_t len = put_frame(frame, 1, 1, 1);
        put(put(frame + len - 16, 16 * (uint64_t)i, 8), 16 * (uint64_t)i + 8, 8);
        double start = now();
        uint32_t status = take(router, frame, len);
        took += now() - start;
        demand(status == SQUALL_OK);
    }
    printf("%s, frames of one load: %.0f ns\n", name, took / SMALL_FRAMES * 1e9);
    close_router(router);
}

int main(void) {
    measure_views(1000);
    measure_views(100000);
    measure_feeds();
    measure_small_frames("feed", squall_router_feed);
    measure_small_frames("hear", squall_router_hear);
    return 0;
}
