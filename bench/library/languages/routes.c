/* Routes from C: one a call, and 1,000 a call. The words are how many legs there are and the file of a frame.
 * Prints `NAME: VALUE UNIT` a line. */
#define _POSIX_C_SOURCE 200809L
#include "../shared.h"

#include <stdio.h>

enum { KEYS = 1000, ROUNDS = 1000 };

static const uint64_t REACH = UINT64_C(1) << 62;

static uint8_t frame[SQUALL_FRAME_BYTES];

static double lesser(double a, double b) {
    return a < b ? a : b;
}

/* A view by which a router that heard the frame routes. */
static squall_view *view_of(size_t len) {
    squall_router *router = router_of_two();
    squall_view *view = room_of(squall_view_size());
    if (squall_router_hear(router, frame, len) != SQUALL_OK) {
        exit(1);
    }
    squall_view_open(router, view);
    squall_router_close(router);
    free(router);
    return view;
}

int main(int count, char **words) {
    FILE *file = count == 3 ? fopen(words[2], "rb") : NULL;
    if (file == NULL) {
        return 2;
    }
    size_t len = fread(frame, 1, sizeof frame, file);
    fclose(file);
    squall_view *view = view_of(len);
    uint64_t keys[KEYS];
    uint32_t parts[KEYS];
    uint64_t state = 1;
    for (int i = 0; i < KEYS; i++) {
        keys[i] = state & (REACH - 1);
        state = state * UINT64_C(6364136223846793005) + UINT64_C(1442695040888963407);
    }
    double one = 1e9;
    double many = 1e9;
    for (int round = 0; round < ROUNDS; round++) {
        double start = now();
        uint64_t sum = 0;
        for (int i = 0; i < KEYS; i++) {
            sum += squall_view_route(view, keys[i]);
        }
        one = lesser(one, now() - start);
        start = now();
        size_t answered = squall_view_routes(view, keys, KEYS, parts, KEYS);
        many = lesser(many, now() - start);
        for (int i = 0; i < KEYS; i++) {
            sum -= parts[i];
        }
        if (answered != KEYS || sum != 0) {
            return 1;
        }
    }
    printf("route, %s legs: %.1f ns\n", words[1], one / KEYS * 1e9);
    printf("1,000 routes a call, %s legs, each: %.1f ns\n", words[1], many / KEYS * 1e9);
    squall_view_close(view);
    free(view);
    return 0;
}
