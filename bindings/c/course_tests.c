/* Tests of courses, and of where keys stand. Expected values are worked out by hand from the plans of
 * examples/. The last line is `N passed, M failed`. */
#include "check.h"

static bool is_move(squall_move move, uint64_t lo, uint64_t hi, uint32_t source, uint32_t dest,
                    uint32_t sub) {
    return move.lo == lo && move.hi == hi && move.source == source && move.dest == dest
           && move.sub == sub;
}

static bool is_place(squall_place place, uint32_t part, uint32_t source, uint32_t dest,
                     uint32_t sub) {
    return place.part == part && place.source == source && place.dest == dest && place.sub == sub;
}

/* ---- courses */

static void the_course_of_the_examples(void) {
    squall_course *course = course_of(1, OLD, NEW);
    squall_move moves[3];
    squall_leg legs[8];
    uint32_t parts[4];
    CHECK(squall_course_status(course) == SQUALL_OK);
    CHECK(squall_course_fault_at(course) == SQUALL_NO_PLACE);
    CHECK(squall_course_number(course) == 1);
    CHECK(squall_course_subplans(course) == 1);
    CHECK(squall_course_moves(course, 0, moves, 3) == 2);
    CHECK(is_move(moves[0], key(2), key(3), 1, 3, 0));
    CHECK(is_move(moves[1], key(6), key(9), 3, 4, 0));
    CHECK(squall_course_receivers(course, 0, 0, parts, 4) == 2);
    CHECK(parts[0] == 3 && parts[1] == 4);
    CHECK(squall_course_receivers(course, 1, 0, parts, 4) == 0);
    CHECK(squall_course_old(course, 0, legs, 8) == 4);
    CHECK(is_leg(legs[0], 0, key(3), 1) && is_leg(legs[3], key(9), SQUALL_TOP, 4));
    CHECK(squall_course_new(course, 0, legs, 8) == 5);
    CHECK(is_leg(legs[1], key(2), key(3), 3) && is_leg(legs[4], key(6), SQUALL_TOP, 4));
    drop_course(course);
}

/* The keys of partition 1 go to 2 and to 3, one sub-plan each; those of 2 go to 1. */
static void a_course_of_two_subplans(void) {
    squall_course *course = course_of(
        9,
        "{\"plan\":[{\"part\":1,\"from\":[0,0],\"to\":[4,0]},{\"part\":2,\"from\":[4,0],\"to\":\"end\"}]}",
        "{\"plan\":[{\"part\":3,\"from\":[0,0],\"to\":[1,5]},{\"part\":2,\"from\":[1,5],\"to\":[4,0]},"
        "{\"part\":1,\"from\":[4,0],\"to\":\"end\"}]}");
    squall_move moves[4];
    uint32_t parts[4];
    CHECK(squall_course_number(course) == 9);
    CHECK(squall_course_subplans(course) == 2);
    CHECK(squall_course_moves(course, 0, moves, 4) == 3);
    CHECK(is_move(moves[0], 0, squall_rank(1, 5), 1, 3, 1));
    CHECK(is_move(moves[1], squall_rank(1, 5), key(4), 1, 2, 0));
    CHECK(is_move(moves[2], key(4), SQUALL_TOP, 2, 1, 0));
    CHECK(squall_course_receivers(course, 0, 0, parts, 4) == 2);
    CHECK(parts[0] == 1 && parts[1] == 2);
    CHECK(squall_course_receivers(course, 1, 0, parts, 4) == 1);
    CHECK(parts[0] == 3);
    drop_course(course);
}

/* Courses of many numbers are alike. From a plan to itself nothing moves. */
static void courses_of_many_numbers(void) {
    static const uint32_t NUMBERS[] = {1, 2, 7, UINT32_MAX};
    for (size_t i = 0; i < sizeof NUMBERS / sizeof NUMBERS[0]; i++) {
        squall_course *course = course_of(NUMBERS[i], OLD, NEW);
        squall_move moves[3];
        squall_leg legs[8];
        CHECK(squall_course_number(course) == NUMBERS[i] && squall_course_moves(course, 0, moves, 3) == 2);
        CHECK(squall_course_old(course, 0, legs, 8) == 4 && is_leg(legs[0], 0, key(3), 1));
        CHECK(squall_course_new(course, 0, legs, 8) == 5 && is_leg(legs[0], 0, key(2), 1));
        drop_course(course);
        course = course_of(NUMBERS[i], OLD, OLD);
        CHECK(squall_course_number(course) == NUMBERS[i]);
        CHECK(squall_course_moves(course, 0, moves, 3) == 0 && squall_course_subplans(course) == 0);
        drop_course(course);
    }
}

enum { RANGES = 4096 };

/* The text of 4096 ranges of one root each, the last of all that is left, by falling key: of the partition `first`, the
 * one after it and so on. */
static char *falling_ranges(uint32_t first) {
    char *text = (char *)room_of(RANGES * 64);
    char *end = text + sprintf(text, "{\"plan\":[");
    for (uint32_t i = RANGES; i-- > 0;) {
        end += sprintf(end, "{\"part\":%u,\"from\":[%u,0],\"to\":", first + i, i);
        end += i + 1 == RANGES ? sprintf(end, "\"end\"},") : sprintf(end, "[%u,0]}%s", i + 1, i == 0 ? "]}" : ",");
    }
    return text;
}

/* Each of 4096 ranges goes to another partition, all in one sub-plan. */
static void ranges_of_4096_move_on(void) {
    static squall_leg legs[RANGES];
    static squall_move moves[RANGES];
    static uint32_t parts[RANGES];
    char *old = falling_ranges(1000);
    char *new_plan = falling_ranges(1001);
    squall_course *course = course_of(1, old, new_plan);
    CHECK(squall_course_status(course) == SQUALL_OK);
    CHECK(squall_course_old(course, 0, legs, RANGES) == RANGES && squall_course_subplans(course) == 1);
    CHECK(squall_course_moves(course, 0, moves, RANGES) == RANGES);
    CHECK(squall_course_receivers(course, 0, 0, parts, RANGES) == RANGES);
    for (uint32_t i = 0; i < RANGES; i++) {
        uint64_t hi = i + 1 == RANGES ? SQUALL_TOP : key(i + 1);
        CHECK(is_leg(legs[i], key(i), hi, 1000 + i) && parts[i] == 1001 + i);
        CHECK(is_move(moves[i], key(i), hi, 1000 + i, 1001 + i, 0));
    }
    drop_course(course);
    free(old);
    free(new_plan);
}

static void answers_from_a_place_on(void) {
    squall_course *course = course_of(1, OLD, NEW);
    squall_move moves[2] = {{7, 7, 7, 7, 7}, {7, 7, 7, 7, 7}};
    squall_leg legs[2] = {{7, 7, 7}, {7, 7, 7}};
    uint32_t parts[2] = {7, 7};
    CHECK(squall_course_moves(course, 0, moves, 0) == 0);
    CHECK(squall_course_moves(course, 2, moves, 2) == 0);
    CHECK(squall_course_moves(course, SIZE_MAX, moves, 2) == 0);
    CHECK(is_move(moves[0], 7, 7, 7, 7, 7));
    CHECK(squall_course_moves(course, 1, moves, 2) == 1);
    CHECK(is_move(moves[0], key(6), key(9), 3, 4, 0) && is_move(moves[1], 7, 7, 7, 7, 7));
    CHECK(squall_course_moves(course, 0, moves, 1) == 1);
    CHECK(is_move(moves[0], key(2), key(3), 1, 3, 0) && is_move(moves[1], 7, 7, 7, 7, 7));
    CHECK(squall_course_old(course, 4, legs, 2) == 0);
    CHECK(squall_course_old(course, 3, legs, 2) == 1);
    CHECK(is_leg(legs[0], key(9), SQUALL_TOP, 4) && is_leg(legs[1], 7, 7, 7));
    CHECK(squall_course_new(course, 1, legs, 2) == 2);
    CHECK(is_leg(legs[0], key(2), key(3), 3) && is_leg(legs[1], key(3), key(5), 2));
    CHECK(squall_course_receivers(course, 0, 0, parts, 1) == 1);
    CHECK(parts[0] == 3 && parts[1] == 7);
    CHECK(squall_course_receivers(course, 0, 2, parts, 2) == 0);
    CHECK(squall_course_receivers(course, 0, SIZE_MAX, parts, 2) == 0);
    CHECK(squall_course_receivers(course, 1, 0, parts, 2) == 0);
    CHECK(parts[0] == 3 && parts[1] == 7);
    CHECK(squall_course_receivers(course, 0, 1, parts, 2) == 1);
    CHECK(parts[0] == 4 && parts[1] == 7);
    drop_course(course);
}

static void courses_that_are_none(void) {
    squall_course *course = course_of(0, "", "");
    squall_move moves[1];
    squall_leg legs[1];
    uint32_t parts[1];
    CHECK(squall_course_status(course) == SQUALL_LIMIT);
    drop_course(course);
    course = course_of(1, "", NEW);
    CHECK(squall_course_status(course) == SQUALL_PLAN_JSON);
    CHECK(squall_course_fault_at(course) == SQUALL_NO_PLACE);
    drop_course(course);
    course = course_of(1, OLD, "{\"plan\":[{\"part\":1,\"from\":[0,0],\"to\":[3,0]}]}");
    CHECK(squall_course_status(course) == SQUALL_NEW_PLAN_GAP);
    CHECK(squall_course_fault_at(course) == key(3));
    CHECK(squall_course_number(course) == 0);
    CHECK(squall_course_subplans(course) == 0);
    CHECK(squall_course_moves(course, 0, moves, 1) == 0);
    CHECK(squall_course_old(course, 0, legs, 1) == 0);
    CHECK(squall_course_new(course, 0, legs, 1) == 0);
    CHECK(squall_course_receivers(course, 0, 0, parts, 1) == 0);
    drop_course(course);
}

static void courses_of_a_router(void) {
    squall_router *router = router_of(1, OLD, NEW);
    squall_course *before = room_for_course();
    squall_course *first = room_for_course();
    squall_course *newest = room_for_course();
    squall_move moves[2];
    squall_course_newest(router, before);
    CHECK(squall_router_issued(router, 5, bytes_of(OLD), strlen(OLD)) == SQUALL_OK);
    squall_course_first(router, first);
    squall_course_newest(router, newest);
    drop_router(router);
    CHECK(squall_course_number(before) == 1 && squall_course_number(first) == 1);
    CHECK(squall_course_status(newest) == SQUALL_OK && squall_course_number(newest) == 5);
    CHECK(squall_course_moves(newest, 0, moves, 2) == 2);
    CHECK(is_move(moves[0], key(2), key(3), 3, 1, 0));
    CHECK(is_move(moves[1], key(6), key(9), 4, 3, 0));
    drop_course(newest);
    CHECK(squall_course_moves(first, 0, moves, 2) == 2);
    CHECK(is_move(moves[0], key(2), key(3), 1, 3, 0));
    drop_course(first);
    CHECK(squall_course_subplans(before) == 1);
    drop_course(before);
    router = router_of(0, OLD, NEW);
    newest = room_for_course();
    squall_course_newest(router, newest);
    CHECK(squall_course_status(newest) == SQUALL_CLOSED);
    CHECK(squall_course_number(newest) == 0);
    squall_course_close(newest);
    squall_course_first(router, newest);
    CHECK(squall_course_status(newest) == SQUALL_CLOSED);
    drop_course(newest);
    drop_router(router);
}

/* A router that knows one plan alone, and learns a course from another's frames, can say what it is. */
static void a_course_from_a_frame(void) {
    squall_router *mover = router_of(1, OLD, OLD);
    squall_router *proxy = router_of(1, OLD, OLD);
    squall_course *course = room_for_course();
    squall_move moves[3];
    uint8_t frame[1024];
    CHECK(squall_router_issued(mover, 2, bytes_of(NEW), strlen(NEW)) == SQUALL_OK);
    CHECK(squall_router_gather_board(mover, SQUALL_NO_LIMIT) == SQUALL_OK);
    size_t len = squall_router_frame(mover, frame, sizeof frame);
    CHECK(squall_router_hear(proxy, frame, len) == SQUALL_OK);
    squall_course_newest(proxy, course);
    CHECK(squall_course_number(course) == 2);
    CHECK(squall_course_moves(course, 0, moves, 3) == 2);
    CHECK(is_move(moves[0], key(2), key(3), 1, 3, 0));
    drop_course(course);
    drop_router(proxy);
    drop_router(mover);
}

/* ---- frames of reports */

static const char LOADED[] =
    "53510101000000290000000000000001000000010000000000000003000000000100000002000000000000000300000000";
static const char DONE[] = "53510101000000190000000000000001000000010000000000000004010000"
                           "0000";
static const char OPENED[] = "535101010000001000000001000000010000000100000000";

/* Whether the frame is that of the hex digits. */
static bool is_frame(const uint8_t *frame, size_t len, const char *hex) {
    uint8_t wanted[64];
    size_t count = bytes_of_hex(hex, wanted, sizeof wanted);
    return len == count && memcmp(frame, wanted, count) == 0;
}

static void frames_of_reports(void) {
    uint8_t out[64];
    size_t len = squall_frame_loaded(1, 0, 3, key(2), key(3), out, sizeof out);
    CHECK(is_frame(out, len, LOADED));
    len = squall_frame_done(1, 0, 4, out, sizeof out);
    CHECK(is_frame(out, len, DONE));
    len = squall_frame_opened(1, 0, out, sizeof out);
    CHECK(is_frame(out, len, OPENED));
    memset(out, 7, sizeof out);
    CHECK(squall_frame_loaded(1, 0, 3, key(2), key(3), out, 48) == 49);
    CHECK(squall_frame_opened(1, 0, out, 0) == 24);
    CHECK(squall_frame_loaded(0, 0, 3, key(2), key(3), out, sizeof out) == 0);
    CHECK(squall_frame_loaded(1, 0, 3, key(3), key(3), out, sizeof out) == 0);
    CHECK(squall_frame_loaded(1, 0, 3, key(3), UINT64_MAX, out, sizeof out) == 0);
    CHECK(squall_frame_done(1, 0, 10000, out, sizeof out) == 0);
    CHECK(squall_frame_opened(1, 10000, out, sizeof out) == 0);
    CHECK(out[0] == 7 && out[48] == 7);
}

static void frames_that_a_router_hears(void) {
    squall_router *router = router_of(1, OLD, OLD);
    squall_course *course = course_of(2, OLD, NEW);
    uint8_t out[512];
    CHECK(squall_course_frame(course, out, 3) > 100);
    size_t len = squall_course_frame(course, out, sizeof out);
    CHECK(len <= sizeof out && squall_router_hear(router, out, len) == SQUALL_OK);
    CHECK(squall_router_number(router) == 2);
    CHECK(squall_router_route(router, key(2)) == 1);
    len = squall_frame_loaded(2, 0, 3, key(2), key(3), out, sizeof out);
    CHECK(squall_router_hear(router, out, len) == SQUALL_OK);
    CHECK(squall_router_route(router, key(2)) == 3);
    drop_course(course);
    drop_router(router);
    course = course_of(0, OLD, NEW);
    CHECK(squall_course_frame(course, out, sizeof out) == 0);
    drop_course(course);
}

/* The text of a plan reads as the same plan: a course from it to itself moves nothing. */
static void plans_as_texts(void) {
    static const char *const OLD_TEXT =
        "{\"plan\":[{\"from\":[0,0],\"part\":1,\"to\":[3,0]},{\"from\":[3,0],\"part\":2,\"to\":[5,0]},"
        "{\"from\":[5,0],\"part\":3,\"to\":[9,0]},{\"from\":[9,0],\"part\":4,\"to\":\"end\"}]}";
    static const char *const NEW_TEXT =
        "{\"plan\":[{\"from\":[0,0],\"part\":1,\"to\":[2,0]},{\"from\":[2,0],\"part\":3,\"to\":[3,0]},"
        "{\"from\":[3,0],\"part\":2,\"to\":[5,0]},{\"from\":[5,0],\"part\":3,\"to\":[6,0]},"
        "{\"from\":[6,0],\"part\":4,\"to\":\"end\"}]}";
    squall_course *course = course_of(1, OLD, NEW);
    char old_text[512];
    char new_text[512];
    memset(old_text, 7, sizeof old_text);
    size_t old_len = squall_course_old_text(course, (uint8_t *)old_text, strlen(OLD_TEXT) - 1);
    CHECK(old_len == strlen(OLD_TEXT) && old_text[0] == 7);
    CHECK(squall_course_old_text(course, (uint8_t *)old_text, sizeof old_text) == old_len);
    CHECK(memcmp(old_text, OLD_TEXT, old_len) == 0 && old_text[old_len] == 7);
    size_t new_len = squall_course_new_text(course, (uint8_t *)new_text, sizeof new_text);
    CHECK(new_len == strlen(NEW_TEXT) && memcmp(new_text, NEW_TEXT, new_len) == 0);
    old_text[old_len] = 0;
    new_text[new_len] = 0;
    squall_course *again = course_of(1, old_text, new_text);
    CHECK(squall_course_status(again) == SQUALL_OK && squall_course_subplans(again) == 1);
    CHECK(squall_course_new_text(again, (uint8_t *)old_text, sizeof old_text) == new_len);
    CHECK(memcmp(old_text, new_text, new_len) == 0);
    drop_course(again);
    drop_course(course);
    course = course_of(0, OLD, NEW);
    CHECK(squall_course_old_text(course, (uint8_t *)old_text, sizeof old_text) == 0);
    CHECK(squall_course_new_text(course, (uint8_t *)old_text, sizeof old_text) == 0);
    drop_course(course);
}

/* The plan of where a course leaves the keys: loaded ones are at their new partitions, all others at
 * their old ones. */
static void where_a_course_leaves_the_keys(void) {
    static const char *const LEFT =
        "{\"plan\":[{\"from\":[0,0],\"part\":1,\"to\":[2,0]},{\"from\":[2,0],\"part\":3,\"to\":[2,5]},"
        "{\"from\":[2,5],\"part\":1,\"to\":[3,0]},{\"from\":[3,0],\"part\":2,\"to\":[5,0]},"
        "{\"from\":[5,0],\"part\":3,\"to\":[7,0]},{\"from\":[7,0],\"part\":4,\"to\":\"end\"}]}";
    /* The spans overlap, the last one has keys that don't move, and they don't rise. */
    const squall_span loaded[] = {
        {squall_rank(7, 5), key(9)}, {key(2), squall_rank(2, 5)}, {key(7), key(8)}, {0, key(1)}};
    squall_course *course = course_of(1, OLD, NEW);
    uint8_t text[512];
    uint8_t plan[512];
    memset(text, 7, sizeof text);
    size_t len = squall_course_left(course, loaded, 4, text, strlen(LEFT) - 1);
    CHECK(len == strlen(LEFT) && text[0] == 7);
    CHECK(squall_course_left(course, loaded, 4, text, sizeof text) == len);
    CHECK(memcmp(text, LEFT, len) == 0 && text[len] == 7);
    /* If nothing is loaded that is the old plan, and if all is the new one. */
    const squall_span all = {0, SQUALL_TOP};
    len = squall_course_old_text(course, plan, sizeof plan);
    CHECK(squall_course_left(course, loaded, 0, text, sizeof text) == len && memcmp(text, plan, len) == 0);
    len = squall_course_new_text(course, plan, sizeof plan);
    CHECK(squall_course_left(course, &all, 1, text, sizeof text) == len && memcmp(text, plan, len) == 0);
    /* A span without a key, one that runs backwards, and one that ends above all keys. */
    const squall_span wrong[] = {{key(2), key(2)}, {key(3), key(2)}, {key(2), SQUALL_TOP + 1}};
    text[0] = 7;
    for (size_t i = 0; i < 3; i++) {
        CHECK(squall_course_left(course, wrong + i, 1, text, sizeof text) == 0 && text[0] == 7);
    }
    drop_course(course);
    course = course_of(0, OLD, NEW);
    CHECK(squall_course_left(course, loaded, 4, text, sizeof text) == 0 && text[0] == 7);
    drop_course(course);
}

/* Every second key below 4096:0 is loaded, of two partitions: so many ranges no plan has. One less fits. */
static void a_plan_of_too_many_ranges(void) {
    static squall_span loaded[2048];
    static uint8_t text[400000];
    squall_course *course = course_of(1, "{\"plan\":[{\"part\":1,\"from\":[0,0],\"to\":\"end\"}]}",
                                      "{\"plan\":[{\"part\":2,\"from\":[0,0],\"to\":\"end\"}]}");
    for (uint32_t i = 0; i < 2048; i++) {
        loaded[i].lo = key(2 * i + 1);
        loaded[i].hi = key(2 * i + 2);
    }
    CHECK(squall_course_left(course, loaded, 2048, text, sizeof text) == 0);
    size_t len = squall_course_left(course, loaded, 2047, text, sizeof text);
    CHECK(len > 4095 * 30 && len <= sizeof text);
    squall_course *back = room_for_course();
    const char *home = "{\"plan\":[{\"part\":1,\"from\":[0,0],\"to\":\"end\"}]}";
    squall_course_open(2, text, len, (const uint8_t *)home, strlen(home), back);
    squall_leg legs[4096];
    CHECK(squall_course_status(back) == SQUALL_OK);
    CHECK(squall_course_old(back, 0, legs, 4096) == 4095);
    drop_course(back);
    drop_course(course);
}

/* ---- where keys stand */

static void where_keys_stand(void) {
    squall_router *router = router_of(1, OLD, NEW);
    CHECK(squall_router_loaded(router, 1, 0, 3, key(2), squall_rank(2, 5)) == SQUALL_OK);
    squall_view *view = view_of(router);
    const uint64_t ranks[5] = {key(0), key(2), squall_rank(2, 5), key(6), SQUALL_TOP};
    squall_place places[5];
    CHECK(squall_view_locate(view, ranks, 5, places, 5) == 5);
    CHECK(is_place(places[0], 1, 1, 1, SQUALL_NOWHERE));
    CHECK(is_place(places[1], 3, 1, 3, 0));
    CHECK(is_place(places[2], 1, 1, 3, 0));
    CHECK(is_place(places[3], 3, 3, 4, 0));
    CHECK(is_place(places[4], SQUALL_NOWHERE, SQUALL_NOWHERE, SQUALL_NOWHERE, SQUALL_NOWHERE));
    drop_view(view);
    CHECK(squall_router_done(router, 1, 0, 4) == SQUALL_OK);
    view = view_of(router);
    drop_router(router);
    places[1].sub = 7;
    CHECK(squall_view_locate(view, ranks + 3, 2, places, 1) == 1);
    CHECK(is_place(places[0], 4, 3, 4, 0) && places[1].sub == 7);
    CHECK(squall_view_locate(view, ranks, 0, places, 5) == 0);
    drop_view(view);
}

static void places_without_a_view(void) {
    squall_router *none = router_of(0, OLD, NEW);
    squall_view *view = view_of(none);
    const uint64_t rank = 0;
    squall_place place = {7, 7, 7, 7};
    CHECK(squall_view_locate(view, &rank, 1, &place, 1) == 0);
    CHECK(is_place(place, 7, 7, 7, 7));
    drop_view(view);
    drop_router(none);
}

static const struct test TESTS[] = {
    TEST(the_course_of_the_examples),
    TEST(a_course_of_two_subplans),
    TEST(courses_of_many_numbers),
    TEST(ranges_of_4096_move_on),
    TEST(answers_from_a_place_on),
    TEST(courses_that_are_none),
    TEST(courses_of_a_router),
    TEST(a_course_from_a_frame),
    TEST(frames_of_reports),
    TEST(frames_that_a_router_hears),
    TEST(plans_as_texts),
    TEST(where_a_course_leaves_the_keys),
    TEST(a_plan_of_too_many_ranges),
    TEST(where_keys_stand),
    TEST(places_without_a_view),
};

int main(void) {
    return run_tests(TESTS, sizeof TESTS / sizeof TESTS[0]);
}
