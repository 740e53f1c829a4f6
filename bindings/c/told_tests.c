/* Tests of what a router says of itself, and of what changes between two views. Expected values are
 * worked out by hand from the plans of examples/. Each call that allocates is also made once for each of
 * its allocations, with that one refused. The last line is `N passed, M failed`. */
#include "check.h"
#include "counting_heap.h"

/* ---- routers */

static uint32_t issue(squall_router *router, uint32_t number, const char *plan) {
    return squall_router_issued(router, number, bytes_of(plan), strlen(plan));
}

static const char FIVE[] = "{\"plan\":[{\"part\":5,\"from\":[0,0],\"to\":\"end\"}]}";

/* A router that was told a load in two spans, an opening and an issue. */
static squall_router *busy_router(void) {
    squall_router *router = router_of(1, OLD, NEW);
    CHECK(squall_router_loaded(router, 1, 0, 3, key(2), squall_rank(2, 2147483648)) == SQUALL_OK);
    CHECK(squall_router_loaded(router, 1, 0, 4, key(6), key(7)) == SQUALL_OK);
    CHECK(squall_router_loaded(router, 1, 0, 4, key(8), key(9)) == SQUALL_OK);
    CHECK(squall_router_opened(router, 1, 0) == SQUALL_OK);
    CHECK(squall_router_opened(router, 3, 1) == SQUALL_OK);
    CHECK(issue(router, 1, FIVE) == SQUALL_OK);
    return router;
}

static void issues_that_clash(void) {
    squall_router *router = router_of(1, OLD, NEW);
    CHECK(squall_router_clashed(router) == 0);
    CHECK(issue(router, 2, FIVE) == SQUALL_OK);
    CHECK(squall_router_clashed(router) == 0);
    CHECK(issue(router, 2, OLD) == SQUALL_OK);
    CHECK(squall_router_number(router) == 1);
    CHECK(squall_router_clashed(router) == 1);
    CHECK(issue(router, 3, FIVE) == SQUALL_OK);
    CHECK(squall_router_number(router) == 3);
    CHECK(squall_router_clashed(router) == 0);
    drop_router(router);
}

static void what_a_router_was_told_in_numbers(void) {
    squall_router *router = router_of(1, OLD, NEW);
    squall_counts counts = {7, 7, 7, 7};
    CHECK(squall_router_counts(router, &counts, 0) == 0);
    CHECK(counts.cells == 7);
    CHECK(squall_router_counts(router, &counts, 1) == 1);
    CHECK(counts.cells == 0 && counts.spans == 0 && counts.opened == 0 && counts.issues == 0);
    drop_router(router);
    router = busy_router();
    CHECK(squall_router_counts(router, &counts, 1) == 1);
    CHECK(counts.cells == 2 && counts.spans == 3 && counts.opened == 3 && counts.issues == 1);
    drop_router(router);
}

static const char LINES[] =
    "course 1 moves 0 of 2 sub-plans 0 of 1 open 0 loaded 10737418240 of 17179869184 keys share 583/1000\n"
    "sub-plan 0 receivers 0 of 2 done\n"
    "move [2:0,3:0) 1 to 3 sub 0 loaded 2147483648 of 4294967296 missing [2:2147483648,3:0)\n"
    "move [6:0,9:0) 3 to 4 sub 0 loaded 8589934592 of 12884901888 missing [7:0,8:0)\n";

static void the_status_as_lines(void) {
    squall_router *router = busy_router();
    uint8_t text[512];
    memset(text, 7, sizeof text);
    size_t len = squall_router_status_text(router, text, 0);
    CHECK(len == strlen(LINES) && text[0] == 7);
    CHECK(squall_router_status_text(router, text, len - 1) == len && text[0] == 7);
    CHECK(squall_router_status_text(router, text, len) == len && text[len] == 7);
    CHECK(memcmp(text, LINES, len) == 0);
    drop_router(router);
}

static bool has_text(const uint8_t *text, size_t len, const char *part) {
    size_t size = strlen(part);
    for (size_t at = 0; at + size <= len; at++) {
        if (memcmp(text + at, part, size) == 0) {
            return true;
        }
    }
    return false;
}

static void the_picture(void) {
    squall_router *router = busy_router();
    size_t len = squall_router_picture(router, (uint8_t *)nowhere, 0);
    uint8_t *text = (uint8_t *)room_of(len + 1);
    text[len] = 7;
    CHECK(squall_router_picture(router, text, len) == len && text[len] == 7);
    CHECK(memcmp(text, "<svg ", 5) == 0 && memcmp(text + len - 7, "</svg>\n", 7) == 0);
    CHECK(has_text(text, len, ", loaded 10737418240 of 17179869184 keys, share 583/1000"));
    CHECK(squall_router_picture(router, text, len - 1) == len);
    free(text);
    drop_router(router);
}

static void where_no_router_is(void) {
    squall_router *none = router_of(0, OLD, NEW);
    squall_counts counts = {7, 7, 7, 7};
    uint8_t text[1] = {7};
    CHECK(squall_router_clashed(none) == 0);
    CHECK(squall_router_counts(none, &counts, 1) == 0 && counts.cells == 7);
    CHECK(squall_router_status_text(none, text, 1) == 0 && text[0] == 7);
    CHECK(squall_router_picture(none, text, 1) == 0 && text[0] == 7);
    drop_router(none);
}

/* ---- views */

static bool is_span(squall_span span, uint64_t lo, uint64_t hi) {
    return span.lo == lo && span.hi == hi;
}

static void changes_of_two_views(void) {
    squall_router *router = router_of(1, OLD, NEW);
    squall_view *before = view_of(router);
    squall_view *same = view_of(router);
    CHECK(squall_router_loaded(router, 1, 0, 3, key(2), squall_rank(2, 5)) == SQUALL_OK);
    CHECK(squall_router_loaded(router, 1, 0, 4, key(6), key(7)) == SQUALL_OK);
    CHECK(squall_router_loaded(router, 1, 0, 4, key(7), key(8)) == SQUALL_OK);
    squall_view *after = view_of(router);
    squall_span spans[3] = {{7, 7}, {7, 7}, {7, 7}};
    CHECK(squall_view_changes(before, same, 0, SQUALL_TOP, spans, 3) == 0);
    CHECK(squall_view_changes(before, after, 0, SQUALL_TOP, spans, 3) == 2);
    CHECK(is_span(spans[0], key(2), squall_rank(2, 5)) && is_span(spans[1], key(6), key(8)));
    CHECK(is_span(spans[2], 7, 7));
    CHECK(squall_view_changes(after, before, squall_rank(2, 1), key(7), spans, 3) == 2);
    CHECK(is_span(spans[0], squall_rank(2, 1), squall_rank(2, 5)) && is_span(spans[1], key(6), key(7)));
    CHECK(squall_view_changes(before, after, 0, UINT64_MAX, spans, 1) == 1);
    CHECK(is_span(spans[0], key(2), squall_rank(2, 5)));
    CHECK(squall_view_changes(before, after, spans[0].hi, UINT64_MAX, spans, 1) == 1);
    CHECK(is_span(spans[0], key(6), key(8)));
    CHECK(squall_view_changes(before, after, spans[0].hi, UINT64_MAX, spans, 1) == 0);
    CHECK(squall_view_changes(before, after, key(8), key(2), spans, 3) == 0);
    CHECK(squall_view_changes(before, after, SQUALL_TOP, UINT64_MAX, spans, 3) == 0);
    CHECK(squall_view_changes(before, after, 0, SQUALL_TOP, spans, 0) == 0);
    drop_view(before);
    drop_view(same);
    drop_view(after);
    drop_router(router);
}

/* Without a view each key is routed nowhere, so that all of them change. */
static void changes_without_a_view(void) {
    squall_router *router = router_of(1, OLD, NEW);
    squall_router *closed = router_of(0, OLD, NEW);
    squall_view *view = view_of(router);
    squall_view *none = view_of(closed);
    squall_view *other = view_of(closed);
    squall_span span = {7, 7};
    CHECK(squall_view_changes(none, view, 5, UINT64_MAX, &span, 1) == 1);
    CHECK(is_span(span, 5, SQUALL_TOP));
    CHECK(squall_view_changes(view, none, 0, 9, &span, 1) == 1);
    CHECK(is_span(span, 0, 9));
    CHECK(squall_view_changes(view, none, 0, 9, &span, 0) == 0);
    CHECK(squall_view_changes(view, none, 5, 5, &span, 1) == 0 && is_span(span, 0, 9));
    CHECK(squall_view_changes(view, none, SQUALL_TOP, UINT64_MAX, &span, 1) == 0);
    CHECK(squall_view_changes(none, other, 0, SQUALL_TOP, &span, 1) == 0);
    drop_view(view);
    drop_view(none);
    drop_view(other);
    drop_router(router);
    drop_router(closed);
}

/* ---- refused allocations */

static _Alignas(16) uint8_t place[65536];

static size_t say_clash(squall_router *router) {
    return squall_router_clashed(router);
}

static size_t count_told(squall_router *router) {
    return squall_router_counts(router, (squall_counts *)(void *)place, 1);
}

static size_t write_status(squall_router *router) {
    return squall_router_status_text(router, place, sizeof place);
}

static size_t draw(squall_router *router) {
    return squall_router_picture(router, place, sizeof place);
}

/* Makes the call with each of its allocations refused in turn: it answers that, and writes nothing, or
 * it did without. */
static void refuse_each(size_t (*call)(squall_router *)) {
    squall_router *router = busy_router();
    long before = blocks;
    size_t wanted = call(router);
    long fails = 0;
    CHECK(blocks == before);
    for (long number = 1; number < 100000; number++) {
        memset(place, 7, sizeof place);
        asked = 0;
        refused = number;
        size_t answer = call(router);
        refused = 0;
        CHECK(blocks == before);
        if (asked < number) {
            break;
        }
        fails += answer == SQUALL_NO_COUNT;
        CHECK(answer == wanted || (answer == SQUALL_NO_COUNT && place[0] == 7));
    }
    CHECK(fails > 0);
    CHECK(call(router) == wanted);
    drop_router(router);
    CHECK(blocks == 0);
}

static void clashes_without_memory(void) {
    refuse_each(say_clash);
}

static void counts_without_memory(void) {
    refuse_each(count_told);
}

static void lines_without_memory(void) {
    refuse_each(write_status);
}

static void pictures_without_memory(void) {
    refuse_each(draw);
}

static const struct test TESTS[] = {
    TEST(issues_that_clash),
    TEST(what_a_router_was_told_in_numbers),
    TEST(the_status_as_lines),
    TEST(the_picture),
    TEST(where_no_router_is),
    TEST(changes_of_two_views),
    TEST(changes_without_a_view),
    TEST(clashes_without_memory),
    TEST(counts_without_memory),
    TEST(lines_without_memory),
    TEST(pictures_without_memory),
};

int main(void) {
    return run_tests(TESTS, sizeof TESTS / sizeof TESTS[0]);
}
