/* What the programs here share: two plans between which all keys move, a clock, and rooms. */
#ifndef BENCH_SHARED_H
#define BENCH_SHARED_H

#include "squall.h"

#include <stdlib.h>
#include <time.h>

static const char OLD[] = "{\"plan\":[{\"part\":1,\"from\":[0,0],\"to\":\"end\"}]}";
static const char NEW[] = "{\"plan\":[{\"part\":2,\"from\":[0,0],\"to\":\"end\"}]}";

/* Seconds of a clock that never goes back. */
static double now(void) {
    struct timespec time;
    clock_gettime(CLOCK_MONOTONIC, &time);
    return (double)time.tv_sec + (double)time.tv_nsec * 1e-9;
}

static void *room_of(size_t size) {
    void *room = malloc(size);
    if (room == NULL) {
        exit(2);
    }
    return room;
}

/* A router of the course between the two plans. */
static squall_router *router_of_two(void) {
    squall_router *router = room_of(squall_router_size());
    squall_router_open(1, (const uint8_t *)OLD, sizeof OLD - 1, (const uint8_t *)NEW, sizeof NEW - 1, router);
    return router;
}

#endif
