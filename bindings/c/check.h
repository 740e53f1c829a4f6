/* What the tests and examples share: checks that count, and rooms. */
#ifndef SQUALL_CHECK_H
#define SQUALL_CHECK_H

#include "squall.h"

#include <stdbool.h>
#include <stdio.h>
#include <stdlib.h>
#include <string.h>

/* How many checks of the test that runs now have failed. */
static int failures;

#define CHECK(fact) check((fact), #fact, __FILE__, __LINE__)

static inline void check(bool holds, const char *fact, const char *file, int line) {
    if (!holds) {
        failures++;
        printf("%s:%d: not so: %s\n", file, line, fact);
    }
}

/* A room of so many bytes, on the heap of the host. */
static inline void *room_of(size_t size) {
    void *room = malloc(size);
    if (room == NULL) {
        puts("no memory for a room");
        exit(2);
    }
    return room;
}

/* The plans of examples/ in this repository: [2:0,3:0) moves from 1 to 3 and [6:0,9:0) from 3 to 4,
 * all in sub-plan 0. */
static const char OLD[] =
    "{\"plan\":[{\"part\":1,\"from\":[0,0],\"to\":[3,0]},{\"part\":2,\"from\":[3,0],\"to\":[5,0]},"
    "{\"part\":3,\"from\":[5,0],\"to\":[9,0]},{\"part\":4,\"from\":[9,0],\"to\":\"end\"}]}";
static const char NEW[] =
    "{\"plan\":[{\"part\":1,\"from\":[0,0],\"to\":[2,0]},{\"part\":2,\"from\":[3,0],\"to\":[5,0]},"
    "{\"part\":3,\"from\":[2,0],\"to\":[3,0]},{\"part\":3,\"from\":[5,0],\"to\":[6,0]},"
    "{\"part\":4,\"from\":[6,0],\"to\":\"end\"}]}";

static inline const uint8_t *bytes_of(const char *text) {
    return (const uint8_t *)text;
}

/* A router of the two texts, in a room of its own, whatever its status. */
static inline squall_router *router_of(uint32_t number, const char *old, const char *new_plan) {
    squall_router *router = (squall_router *)room_of(squall_router_size());
    squall_router_open(number, bytes_of(old), strlen(old), bytes_of(new_plan), strlen(new_plan),
                       router);
    return router;
}

static inline void drop_router(squall_router *router) {
    squall_router_close(router);
    free(router);
}

static inline squall_course *room_for_course(void) {
    return (squall_course *)room_of(squall_course_size());
}

/* A course of the two texts, likewise. */
static inline squall_course *course_of(uint32_t number, const char *old, const char *new_plan) {
    squall_course *course = room_for_course();
    squall_course_open(number, bytes_of(old), strlen(old), bytes_of(new_plan), strlen(new_plan),
                       course);
    return course;
}

static inline void drop_course(squall_course *course) {
    squall_course_close(course);
    free(course);
}

/* Writes the frame of a course of the two texts, if there is room, and says how long it is. */
static inline size_t frame_of_course(uint32_t number, const char *old, const char *new_plan,
                                     uint8_t *out, size_t room) {
    squall_course *course = course_of(number, old, new_plan);
    size_t len = squall_course_frame(course, out, room);
    drop_course(course);
    return len;
}

static inline squall_view *room_for_view(void) {
    return (squall_view *)room_of(squall_view_size());
}

static inline squall_view *view_of(const squall_router *router) {
    squall_view *view = room_for_view();
    squall_view_open(router, view);
    return view;
}

static inline void drop_view(squall_view *view) {
    squall_view_close(view);
    free(view);
}

/* The first key of a root. */
static inline uint64_t key(uint32_t root) {
    return squall_rank(root, 0);
}

static inline bool is_leg(squall_leg leg, uint64_t lo, uint64_t hi, uint32_t part) {
    return leg.lo == lo && leg.hi == hi && leg.part == part;
}

/* A router whose course leads from that many ranges, by turns of partitions 3 and 4, to partition 3
 * alone. Each range begins at the key of three times its index and its index. */
static inline squall_router *router_from_ranges(uint32_t ranges) {
    char *text = (char *)room_of((size_t)ranges * 80);
    char *end = text + sprintf(text, "{\"plan\":[");
    for (uint32_t i = 0; i < ranges; i++) {
        end += sprintf(end, "{\"part\":%u,\"from\":[%u,%u],\"to\":", i % 2 == 0 ? 3u : 4u, i * 3, i);
        end += i + 1 == ranges ? sprintf(end, "\"end\"}") : sprintf(end, "[%u,%u]},", i * 3 + 3, i + 1);
    }
    sprintf(end, "]}");
    squall_router *router = router_of(1, text, "{\"plan\":[{\"part\":3,\"from\":[0,0],\"to\":\"end\"}]}");
    CHECK(squall_router_status(router) == SQUALL_OK);
    free(text);
    return router;
}

/* The bytes that the hex digits spell, at most `room` of them, and how many. */
static inline size_t bytes_of_hex(const char *hex, uint8_t *out, size_t room) {
    size_t count = 0;
    unsigned byte;
    while (count < room && sscanf(hex + 2 * count, "%2x", &byte) == 1) {
        out[count++] = (uint8_t)byte;
    }
    return count;
}

struct test {
    const char *name;
    void (*run)(void);
};

#define TEST(name) {#name, name}

/* Runs the tests and says which failed, and how many. The status of the program. */
static inline int run_tests(const struct test *tests, size_t count) {
    int passed = 0;
    int failed = 0;
    for (size_t i = 0; i < count; i++) {
        failures = 0;
        tests[i].run();
        if (failures == 0) {
            passed++;
        } else {
            failed++;
            printf("failed: %s\n", tests[i].name);
        }
    }
    printf("%d passed, %d failed\n", passed, failed);
    return failed != 0;
}

#endif
