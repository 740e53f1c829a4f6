/* Frames of a megabyte that are made to cost most. A router hears each by itself, without a limit and then with one. Prints
 * for each how long that took, how much memory the router then keeps, and how much there was at most meanwhile, as
 * `NAME: VALUE UNIT` a line. */
#define _POSIX_C_SOURCE 200809L
#include "shared.h"

#include <malloc.h>
#include <stdbool.h>
#include <stdio.h>
#include <string.h>

enum { BODY = 1048576, RANGES = 4096, PARTS = 10000 };

static uint8_t frame[BODY + 8];
static size_t filled;

static void put(uint64_t value, int bytes) {
    for (int i = bytes - 1; i >= 0; i--) {
        frame[filled++] = (uint8_t)(value >> (8 * i));
    }
}

static void begin(int version) {
    filled = 0;
    put(0x5351, 2);
    put((uint64_t)version, 1);
    put(1, 1);
    put(0, 4);
}

static void finish(void) {
    size_t whole = filled;
    filled = 4;
    put(whole - 8, 4);
    filled = whole;
}

/* How many items of so many bytes still fit, if so many bytes follow them. */
static uint32_t that_fit(size_t size, size_t after) {
    return (uint32_t)((BODY + 8 - filled - after) / size);
}

/* ---- the frames */

static void one_cell_of_spans(void) {
    begin(1);
    put(0, 4);
    put(1, 4);
    uint32_t spans = that_fit(16, 17);
    put(1, 4), put(0, 4), put(2, 4), put(0, 1), put(spans, 4);
    for (uint32_t i = 0; i < spans; i++) {
        put(10 * (uint64_t)i, 8), put(10 * (uint64_t)i + 1, 8);
    }
    finish();
}

static void cells_that_are_done(bool is_by_number) {
    begin(1);
    put(0, 4);
    uint32_t cells = that_fit(17, 4);
    put(cells, 4);
    for (uint32_t i = 0; i < cells; i++) {
        put(is_by_number ? i + 1 : 1, 4), put(is_by_number ? 0 : i / PARTS, 4);
        put(is_by_number ? 0 : i % PARTS, 4), put(1, 1), put(0, 4);
    }
    finish();
}

static void cells_of_one_course(void) {
    cells_that_are_done(false);
}

static void cells_of_own_courses(void) {
    cells_that_are_done(true);
}

static void loads_of_own_courses(void) {
    begin(1);
    put(0, 4);
    uint32_t cells = that_fit(33, 4);
    put(cells, 4);
    for (uint32_t i = 0; i < cells; i++) {
        put(i + 1, 4), put(0, 4), put(0, 4), put(0, 1), put(1, 4), put(0, 8), put(1, 8);
    }
    finish();
}

static void openings(void) {
    begin(1);
    uint32_t count = that_fit(8, 8);
    put(count, 4);
    for (uint32_t i = 0; i < count; i++) {
        put(i + 1, 4), put(1, 4);
    }
    put(0, 4);
    finish();
}

static void clashes(void) {
    begin(2);
    put(0, 4);
    uint32_t count = that_fit(5, 8);
    put(count, 4);
    for (uint32_t i = 0; i < count; i++) {
        put(i + 1, 4), put(2, 1);
    }
    put(0, 4);
    finish();
}

/* A plan of so many ranges, whose partitions begin at `part`. */
static void put_plan(uint32_t ranges, uint32_t part) {
    put(ranges, 4);
    for (uint32_t i = 0; i < ranges; i++) {
        put(i + 1 == ranges ? SQUALL_TOP : (i + 1) * UINT64_C(1000000), 8), put((part + i) % PARTS, 4);
    }
}

static void issues_of(uint32_t ranges) {
    begin(2);
    put(0, 4);
    uint32_t count = that_fit(5 + 2 * (4 + 12 * (size_t)ranges), 8);
    put(count, 4);
    for (uint32_t i = 0; i < count; i++) {
        put(i + 2, 4), put(1, 1);
        put_plan(ranges, i), put_plan(ranges, i + 1);
    }
    put(0, 4);
    finish();
}

static void small_issues(void) {
    issues_of(1);
}

static void large_issues(void) {
    issues_of(RANGES);
}

/* ---- what they cost */

/* A figure of this process in KB, and the file that sets the greatest back to the present one. */
static long figure(const char *name) {
    FILE *file = fopen("/proc/self/status", "r");
    char line[256];
    long found = 0;
    while (file != NULL && fgets(line, sizeof line, file) != NULL) {
        if (strncmp(line, name, strlen(name)) == 0) {
            found = atol(line + strlen(name));
        }
    }
    if (file != NULL) {
        fclose(file);
    }
    return found;
}

static void forget_the_greatest(void) {
    FILE *file = fopen("/proc/self/clear_refs", "w");
    if (file != NULL) {
        fputs("5", file);
        fclose(file);
    }
}

static double kept(void) {
    struct mallinfo2 info = mallinfo2();
    return (double)(info.uordblks + info.hblkhd) / 1e6;
}

/* What a router costs that hears the frame, with a limit or with none. With one it refuses all frames but the last. */
static void measure(const char *name, void (*make)(void), bool is_limited) {
    make();
    squall_router *router = router_of_two();
    if (is_limited && squall_router_limit(router, 10000, 10000, 10000, 64) != SQUALL_OK) {
        exit(2);
    }
    malloc_trim(0);
    forget_the_greatest();
    long resident = figure("VmRSS:");
    double before = kept(), begun = now();
    uint32_t status = squall_router_hear(router, frame, filled);
    double took = (now() - begun) * 1e3;
    if (status != SQUALL_OK && !(is_limited && status == SQUALL_FULL)) {
        printf("the frame of %s was refused\n", name);
        exit(1);
    }
    const char *how = status == SQUALL_FULL ? " above a limit" : is_limited ? " within a limit" : "";
    printf("%s%s, hear: %.1f ms\n", name, how, took);
    printf("%s%s, kept: %.1f MB\n", name, how, kept() - before);
    printf("%s%s, at most: %.1f MB\n", name, how, (double)(figure("VmHWM:") - resident) / 1e3);
    squall_router_close(router);
    free(router);
}

static const struct {
    const char *name;
    void (*make)(void);
} FRAMES[] = {
    {"one cell of 65,534 spans", one_cell_of_spans},
    {"61,680 cells of one course", cells_of_one_course},
    {"61,680 cells, each of a course of its own", cells_of_own_courses},
    {"31,774 loads, each of a course of its own", loads_of_own_courses},
    {"131,071 openings", openings},
    {"209,712 clashes", clashes},
    {"28,339 courses of one range", small_issues},
    {"10 courses of 4,096 ranges", large_issues},
};

int main(void) {
    for (size_t i = 0; i < sizeof FRAMES / sizeof FRAMES[0]; i++) {
        measure(FRAMES[i].name, FRAMES[i].make, false);
    }
    for (size_t i = 0; i < sizeof FRAMES / sizeof FRAMES[0]; i++) {
        measure(FRAMES[i].name, FRAMES[i].make, true);
    }
    return 0;
}
