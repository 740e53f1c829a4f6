/* Tests of the library through its header. Expected values are those of the worked examples in
 * README.md and docs/, of the cases in cases/, and hashes of another program. The last line is
 * `N passed, M failed`. */
#include "check.h"

static squall_router *fresh(void) {
    return router_of(1, OLD, NEW);
}

static uint32_t feed_hex(squall_router *router, const char *hex) {
    uint8_t bytes[512];
    return squall_router_feed(router, bytes, bytes_of_hex(hex, bytes, sizeof bytes));
}

static uint32_t issue(squall_router *router, uint32_t number, const char *plan) {
    return squall_router_issued(router, number, bytes_of(plan), strlen(plan));
}

/* Whether the router's board is empty: it then has no frames. */
static bool was_told_nothing(squall_router *router) {
    uint8_t out[1];
    CHECK(squall_router_gather_board(router, SQUALL_NO_LIMIT) == SQUALL_OK);
    return squall_router_frame(router, out, sizeof out) == 0;
}

/* ---- plans */

static void the_worked_scenario(void) {
    squall_router *router = fresh();
    CHECK(squall_router_status(router) == SQUALL_OK);
    CHECK(squall_router_fault_at(router) == SQUALL_NO_PLACE);
    CHECK(squall_router_number(router) == 1);
    CHECK(squall_router_route(router, key(2)) == 1);
    CHECK(squall_router_loaded(router, 1, 0, 3, key(2), key(3)) == SQUALL_OK);
    CHECK(squall_router_route(router, key(2)) == 3);
    CHECK(squall_router_done(router, 1, 0, 4) == SQUALL_OK);
    CHECK(squall_router_route(router, key(6)) == 4);
    CHECK(squall_router_route(router, squall_rank(8, 4294967295u)) == 4);
    CHECK(squall_router_route(router, key(3)) == 2);
    CHECK(squall_router_route(router, squall_rank(4294967294u, 4294967295u)) == 4);
    CHECK(squall_router_route(router, SQUALL_TOP) == SQUALL_NOWHERE);
    CHECK(squall_router_route(router, UINT64_MAX) == SQUALL_NOWHERE);
    CHECK(squall_router_opened(router, 1, 0) == SQUALL_OK);
    CHECK(squall_router_route(router, key(2)) == 3);
    drop_router(router);
}

struct text {
    const char *plan;
    uint32_t status;
    uint64_t at;
};

static const struct text NO_PLANS[] = {
    {"", SQUALL_PLAN_JSON, SQUALL_NO_PLACE},
    {"{\"plan\":[", SQUALL_PLAN_JSON, SQUALL_NO_PLACE},
    {"[]", SQUALL_PLAN_SHAPE, SQUALL_NO_PLACE},
    {"{\"plan\":{}}", SQUALL_PLAN_SHAPE, SQUALL_NO_PLACE},
    {"{\"plan\":[{\"part\":1,\"from\":[0,0]}]}", SQUALL_PLAN_SHAPE, 0},
    {"{\"plan\":[{\"part\":-1,\"from\":[0,0],\"to\":\"end\"}]}", SQUALL_PLAN_SHAPE, 0},
    {"{\"plan\":[{\"part\":1,\"from\":[0,4294967296],\"to\":\"end\"},"
     "{\"part\":10000,\"from\":[0,0],\"to\":\"end\"}]}",
     SQUALL_PLAN_BAD_PART, 1},
    {"{\"plan\":[{\"part\":1,\"from\":[4294967295,1],\"to\":\"end\"}]}", SQUALL_PLAN_BAD_BOUND, 0},
    {"{\"plan\":[{\"part\":1,\"from\":[4294967295,0],\"to\":\"end\"}]}", SQUALL_PLAN_EMPTY_RANGE,
     0},
    {"{\"plan\":[{\"part\":1,\"from\":[0,0],\"to\":[3,5]},"
     "{\"part\":2,\"from\":[3,0],\"to\":\"end\"}]}",
     SQUALL_PLAN_OVERLAP, UINT64_C(3) << 32},
    {"{\"plan\":[{\"part\":1,\"from\":[0,0],\"to\":[3,5]},"
     "{\"part\":2,\"from\":[3,6],\"to\":\"end\"}]}",
     SQUALL_PLAN_GAP, (UINT64_C(3) << 32) + 5},
    {"{\"plan\":[]}", SQUALL_PLAN_GAP, 0},
};

/* The text as the old plan, as the new one, and as one that is issued. */
static void faulty_everywhere(const char *plan, uint32_t status, uint64_t at) {
    squall_router *router = router_of(1, plan, NEW);
    CHECK(squall_router_status(router) == status);
    CHECK(squall_router_fault_at(router) == at);
    drop_router(router);
    router = router_of(1, OLD, plan);
    CHECK(squall_router_status(router) == status + 20);
    CHECK(squall_router_fault_at(router) == at);
    drop_router(router);
    router = fresh();
    CHECK(issue(router, 2, plan) == status + 20);
    CHECK(squall_router_fault_at(router) == at);
    CHECK(squall_router_status(router) == SQUALL_OK);
    CHECK(squall_router_number(router) == 1);
    CHECK(was_told_nothing(router));
    drop_router(router);
}

static void texts_that_are_no_plans(void) {
    for (size_t i = 0; i < sizeof NO_PLANS / sizeof NO_PLANS[0]; i++) {
        faulty_everywhere(NO_PLANS[i].plan, NO_PLANS[i].status, NO_PLANS[i].at);
    }
}

static void a_plan_of_too_many_entries(void) {
    const char *entry = "{\"part\":1,\"from\":[0,0],\"to\":\"end\"},";
    size_t one = strlen(entry);
    char *text = (char *)room_of(9 + 4097 * one + 3);
    char *end = text + sprintf(text, "{\"plan\":[");
    for (int i = 0; i < 4097; i++, end += one) {
        memcpy(end, entry, one);
    }
    strcpy(end - 1, "]}");
    faulty_everywhere(text, SQUALL_PLAN_TOO_MANY, SQUALL_NO_PLACE);
    free(text);
}

/* The old plan's fault is answered before the new one's, and a number 0 before both. */
static void the_first_fault_is_answered(void) {
    squall_router *router = router_of(1, "[]", "");
    CHECK(squall_router_status(router) == SQUALL_PLAN_SHAPE);
    drop_router(router);
    router = router_of(0, "[]", "");
    CHECK(squall_router_status(router) == SQUALL_LIMIT);
    CHECK(squall_router_fault_at(router) == SQUALL_NO_PLACE);
    drop_router(router);
    router = fresh();
    CHECK(issue(router, 0, "") == SQUALL_LIMIT);
    CHECK(squall_router_fault_at(router) == SQUALL_NO_PLACE);
    CHECK(issue(router, 2, "{\"plan\":[]}") == SQUALL_NEW_PLAN_GAP);
    CHECK(squall_router_fault_at(router) == 0);
    CHECK(issue(router, 2, NEW) == SQUALL_OK);
    CHECK(squall_router_fault_at(router) == 0);
    drop_router(router);
}

/* ---- reports */

static void reports_outside_their_limits(void) {
    squall_router *router = fresh();
    CHECK(squall_router_loaded(router, 0, 0, 3, key(2), key(3)) == SQUALL_LIMIT);
    CHECK(squall_router_loaded(router, 1, 10000, 3, key(2), key(3)) == SQUALL_LIMIT);
    CHECK(squall_router_loaded(router, 1, 0, 10000, key(2), key(3)) == SQUALL_LIMIT);
    CHECK(squall_router_loaded(router, 1, 0, 3, key(2), key(2)) == SQUALL_LIMIT);
    CHECK(squall_router_loaded(router, 1, 0, 3, key(3), key(2)) == SQUALL_LIMIT);
    CHECK(squall_router_loaded(router, 1, 0, 3, key(2), SQUALL_TOP + 1) == SQUALL_LIMIT);
    CHECK(squall_router_done(router, 0, 0, 4) == SQUALL_LIMIT);
    CHECK(squall_router_done(router, 1, 10000, 4) == SQUALL_LIMIT);
    CHECK(squall_router_done(router, 1, 0, 10000) == SQUALL_LIMIT);
    CHECK(squall_router_opened(router, 0, 0) == SQUALL_LIMIT);
    CHECK(squall_router_opened(router, 1, 10000) == SQUALL_LIMIT);
    CHECK(was_told_nothing(router));
    CHECK(squall_router_opened(router, 1, 9999) == SQUALL_OK);
    CHECK(squall_router_loaded(router, 1, 9999, 9999, 0, SQUALL_TOP) == SQUALL_OK);
    CHECK(squall_router_route(router, key(2)) == 1);
    drop_router(router);
}

/* Reports of another number, sub-plan or partition than a key's own change no route of it. */
static void foreign_reports(void) {
    squall_router *router = fresh();
    CHECK(squall_router_loaded(router, 2, 0, 3, key(2), key(3)) == SQUALL_OK);
    CHECK(squall_router_loaded(router, 1, 1, 3, key(2), key(3)) == SQUALL_OK);
    CHECK(squall_router_loaded(router, 1, 0, 4, key(2), key(3)) == SQUALL_OK);
    CHECK(squall_router_route(router, key(2)) == 1);
    drop_router(router);
}

static void newer_courses_and_clashes(void) {
    const char *five = "{\"plan\":[{\"part\":5,\"from\":[0,0],\"to\":\"end\"}]}";
    squall_router *router = fresh();
    CHECK(issue(router, 2, five) == SQUALL_OK);
    CHECK(squall_router_number(router) == 2);
    CHECK(squall_router_route(router, key(2)) == 3);
    CHECK(squall_router_loaded(router, 2, 0, 5, key(2), squall_rank(2, 1)) == SQUALL_OK);
    CHECK(squall_router_route(router, key(2)) == 5);
    CHECK(squall_router_route(router, squall_rank(2, 1)) == 3);
    CHECK(issue(router, 2, OLD) == SQUALL_OK);
    CHECK(squall_router_number(router) == 1);
    CHECK(squall_router_route(router, key(2)) == 1);
    drop_router(router);
}

/* ---- legs */

static void legs_of_spans(void) {
    squall_router *router = fresh();
    squall_leg legs[8];
    CHECK(squall_router_legs(router, 0, SQUALL_TOP, legs, 8) == 4);
    CHECK(is_leg(legs[0], 0, key(3), 1) && is_leg(legs[1], key(3), key(5), 2));
    CHECK(is_leg(legs[2], key(5), key(9), 3) && is_leg(legs[3], key(9), SQUALL_TOP, 4));
    CHECK(squall_router_loaded(router, 1, 0, 3, key(2), squall_rank(2, 1)) == SQUALL_OK);
    CHECK(squall_router_loaded(router, 1, 0, 3, squall_rank(2, 2), squall_rank(2, 3)) == SQUALL_OK);
    CHECK(squall_router_legs(router, key(2), key(3), legs, 8) == 4);
    CHECK(is_leg(legs[0], key(2), squall_rank(2, 1), 3));
    CHECK(is_leg(legs[1], squall_rank(2, 1), squall_rank(2, 2), 1));
    CHECK(is_leg(legs[2], squall_rank(2, 2), squall_rank(2, 3), 3));
    CHECK(is_leg(legs[3], squall_rank(2, 3), key(3), 1));
    drop_router(router);
}

static void legs_where_room_is_short(void) {
    squall_router *router = fresh();
    squall_leg legs[3];
    CHECK(squall_router_legs(router, 7, key(9) + 7, legs, 3) == 3);
    CHECK(is_leg(legs[0], 7, key(3), 1) && is_leg(legs[2], key(5), key(9), 3));
    CHECK(squall_router_legs(router, legs[2].hi, key(9) + 7, legs, 3) == 1);
    CHECK(is_leg(legs[0], key(9), key(9) + 7, 4));
    CHECK(squall_router_legs(router, 0, SQUALL_TOP, legs, 0) == 0);
    CHECK(squall_router_legs(router, 5, 5, legs, 3) == 0);
    CHECK(squall_router_legs(router, 6, 5, legs, 3) == 0);
    CHECK(squall_router_legs(router, 0, SQUALL_TOP + 1, legs, 3) == 0);
    CHECK(squall_router_legs(router, SQUALL_TOP, SQUALL_TOP, legs, 3) == 0);
    drop_router(router);
}

/* ---- frames */

/* Partition 3 has loaded [2:0,3:0) in sub-plan 0 of course 1. */
static const char LOAD_FRAME[] = "5351010100000029000000000000000100000001000000000000000300000000"
                                 "0100000002000000000000000300000000";
/* Sub-plan 0 of course 1 was opened. */
static const char OPENING_FRAME[] = "535101010000001000000001000000010000000100000000";
static const char EMPTY_DELTA[] = "53510101000000080000000000000000";
static const char EMPTY_DIGEST[] = "53510102000000080000000000000000";

static void frames_cut_anywhere(void) {
    uint8_t bytes[64];
    size_t len = bytes_of_hex(LOAD_FRAME, bytes, sizeof bytes);
    for (size_t cut = 0; cut <= len; cut++) {
        squall_router *router = fresh();
        CHECK(squall_router_feed(router, bytes, cut) == SQUALL_OK);
        CHECK(squall_router_waiting(router) == (cut < len ? cut : 0));
        CHECK(squall_router_route(router, key(2)) == (cut < len ? 1 : 3));
        CHECK(squall_router_feed(router, bytes + cut, len - cut) == SQUALL_OK);
        CHECK(squall_router_waiting(router) == 0);
        CHECK(squall_router_route(router, key(2)) == 3);
        drop_router(router);
    }
}

/* Two frames in three pieces, cut anywhere: what is told does not depend on where. */
static void two_frames_cut_anywhere(void) {
    uint8_t bytes[128];
    size_t first = bytes_of_hex(LOAD_FRAME, bytes, sizeof bytes);
    size_t len = first + bytes_of_hex(OPENING_FRAME, bytes + first, sizeof bytes - first);
    for (size_t cut = 0; cut <= len; cut++) {
        for (size_t next = cut; next <= len; next++) {
            squall_router *router = fresh();
            uint8_t out[64];
            CHECK(squall_router_feed(router, bytes, cut) == SQUALL_OK);
            CHECK(squall_router_feed(router, bytes + cut, next - cut) == SQUALL_OK);
            CHECK(squall_router_route(router, key(2)) == (next < first ? 1 : 3));
            CHECK(squall_router_feed(router, bytes + next, len - next) == SQUALL_OK);
            CHECK(squall_router_gather_board(router, SQUALL_NO_LIMIT) == SQUALL_OK);
            /* The frame of both has 8 bytes more than that of the load alone. */
            CHECK(squall_router_frame(router, out, sizeof out) == first + 8);
            drop_router(router);
        }
    }
}

struct bad_frame {
    const char *hex;
    uint32_t fault;
};

static const struct bad_frame BAD_FRAMES[] = {
    {"5352", SQUALL_FRAME_MAGIC},
    {"53510301", SQUALL_FRAME_VERSION},
    {"53510103", SQUALL_FRAME_KIND},
    {"5351010100100001", SQUALL_FRAME_TOO_LONG},
    {"5351010100000000", SQUALL_FRAME_COUNT},
    {"535101010000000800000000ffffffff", SQUALL_FRAME_COUNT},
    {"535101010000001900000000000000010000000000000000000000030100000000", SQUALL_FRAME_RANGE},
    {"53510201000000080000000000000000", SQUALL_FRAME_RANGE},
    {"5351010100000018000000020000000200000001000000010000000100000000", SQUALL_FRAME_ORDER},
    {"5351010100000009000000000000000000", SQUALL_FRAME_SPARE},
};

static void bytes_that_are_no_frame(void) {
    for (size_t i = 0; i < sizeof BAD_FRAMES / sizeof BAD_FRAMES[0]; i++) {
        squall_router *router = fresh();
        char stream[256];
        snprintf(stream, sizeof stream, "%s%s", LOAD_FRAME, BAD_FRAMES[i].hex);
        CHECK(feed_hex(router, stream) == BAD_FRAMES[i].fault);
        CHECK(squall_router_route(router, key(2)) == 3);
        CHECK(feed_hex(router, EMPTY_DELTA) == SQUALL_FAILED);
        CHECK(feed_hex(router, "") == SQUALL_FAILED);
        CHECK(squall_router_done(router, 1, 0, 4) == SQUALL_OK);
        CHECK(squall_router_status(router) == SQUALL_OK);
        drop_router(router);
    }
}

static void a_fault_that_waits_for_its_bytes(void) {
    squall_router *router = fresh();
    CHECK(feed_hex(router, "535101") == SQUALL_OK);
    CHECK(feed_hex(router, "") == SQUALL_OK);
    CHECK(squall_router_waiting(router) == 3);
    CHECK(feed_hex(router, "03") == SQUALL_FRAME_KIND);
    CHECK(squall_router_waiting(router) == 0);
    CHECK(feed_hex(router, "03") == SQUALL_FAILED);
    CHECK(squall_router_waiting(router) == 0);
    drop_router(router);
}

/* Whether the next frame that waits has these bytes. */
static bool next_is(squall_router *router, const char *hex) {
    uint8_t wanted[256];
    uint8_t got[256];
    size_t len = bytes_of_hex(hex, wanted, sizeof wanted);
    return squall_router_frame(router, got, sizeof got) == len && memcmp(wanted, got, len) == 0;
}

static uint32_t hear_hex(squall_router *router, const char *hex) {
    uint8_t bytes[256];
    return squall_router_hear(router, bytes, bytes_of_hex(hex, bytes, sizeof bytes));
}

static void whole_frames(void) {
    squall_router *router = fresh();
    CHECK(hear_hex(router, LOAD_FRAME) == SQUALL_OK);
    CHECK(squall_router_route(router, key(2)) == 3);
    CHECK(hear_hex(router, LOAD_FRAME) == SQUALL_OK);
    CHECK(hear_hex(router, EMPTY_DELTA) == SQUALL_OK);
    CHECK(squall_router_gather_repair(router, SQUALL_NO_LIMIT) == SQUALL_NO_DIGEST);
    CHECK(hear_hex(router, EMPTY_DIGEST) == SQUALL_OK);
    CHECK(squall_router_gather_repair(router, SQUALL_NO_LIMIT) == SQUALL_OK);
    CHECK(next_is(router, LOAD_FRAME));
    drop_router(router);
}

static void frames_that_are_not_whole(void) {
    squall_router *router = fresh();
    char both[256];
    snprintf(both, sizeof both, "%s%s", EMPTY_DELTA, EMPTY_DELTA);
    CHECK(hear_hex(router, "") == SQUALL_FRAME_SHORT);
    CHECK(hear_hex(router, "535101") == SQUALL_FRAME_SHORT);
    CHECK(hear_hex(router, "5351010100000008") == SQUALL_FRAME_SHORT);
    CHECK(hear_hex(router, both) == SQUALL_FRAME_SPARE);
    for (size_t i = 0; i < sizeof BAD_FRAMES / sizeof BAD_FRAMES[0]; i++) {
        uint32_t fault = hear_hex(router, BAD_FRAMES[i].hex);
        CHECK(fault == BAD_FRAMES[i].fault);
    }
    /* no fault ends anything */
    CHECK(hear_hex(router, LOAD_FRAME) == SQUALL_OK);
    CHECK(squall_router_route(router, key(2)) == 3);
    drop_router(router);
}

static void a_frame_beside_a_stream(void) {
    squall_router *router = fresh();
    CHECK(feed_hex(router, "535101") == SQUALL_OK);
    CHECK(hear_hex(router, LOAD_FRAME) == SQUALL_OK);
    CHECK(squall_router_waiting(router) == 3);
    CHECK(squall_router_route(router, key(2)) == 3);
    CHECK(feed_hex(router, "03") == SQUALL_FRAME_KIND);
    CHECK(feed_hex(router, "") == SQUALL_FAILED);
    CHECK(hear_hex(router, EMPTY_DIGEST) == SQUALL_OK);
    CHECK(squall_router_gather_repair(router, SQUALL_NO_LIMIT) == SQUALL_OK);
    drop_router(router);
}

static void frames_of_a_board(void) {
    squall_router *router = fresh();
    uint8_t out[64];
    CHECK(squall_router_gather_board(router, SQUALL_NO_LIMIT) == SQUALL_OK);
    CHECK(squall_router_frame(router, out, sizeof out) == 0);
    CHECK(squall_router_loaded(router, 1, 0, 3, key(2), key(3)) == SQUALL_OK);
    CHECK(squall_router_frame(router, out, sizeof out) == 0);
    CHECK(squall_router_gather_board(router, SQUALL_NO_LIMIT) == SQUALL_OK);
    memset(out, 0x77, sizeof out);
    CHECK(squall_router_frame(router, out, 48) == 49);
    CHECK(squall_router_frame(router, out, 0) == 49);
    CHECK(out[0] == 0x77 && out[47] == 0x77);
    CHECK(next_is(router, LOAD_FRAME));
    CHECK(squall_router_frame(router, out, sizeof out) == 0);
    drop_router(router);
}

static void a_clash_in_a_frame(void) {
    squall_router *router = fresh();
    CHECK(issue(router, 2, "{\"plan\":[{\"part\":5,\"from\":[0,0],\"to\":\"end\"}]}") == SQUALL_OK);
    CHECK(issue(router, 2, OLD) == SQUALL_OK);
    CHECK(squall_router_loaded(router, 2, 0, 5, key(2), squall_rank(2, 1)) == SQUALL_OK);
    CHECK(squall_router_gather_board(router, SQUALL_NO_LIMIT) == SQUALL_OK);
    CHECK(next_is(router, "5351020100000032000000000000000100000002020000000100000002000000000000000500"
                          "0000000100000002000000000000000200000001"));
    drop_router(router);
}

/* The hash is that of SHA-256 over the cell's 33 bytes, by another program. */
static void frames_of_digests(void) {
    squall_router *router = fresh();
    CHECK(squall_router_gather_repair(router, SQUALL_NO_LIMIT) == SQUALL_NO_DIGEST);
    CHECK(squall_router_gather_digest(router, SQUALL_NO_LIMIT) == SQUALL_OK);
    CHECK(next_is(router, EMPTY_DIGEST));
    CHECK(squall_router_loaded(router, 1, 0, 3, key(2), key(3)) == SQUALL_OK);
    CHECK(squall_router_gather_digest(router, SQUALL_NO_LIMIT) == SQUALL_OK);
    CHECK(squall_router_gather_repair(router, SQUALL_NO_LIMIT) == SQUALL_NO_DIGEST);
    CHECK(next_is(router, "53510102000000300000000000000001000000010000000025868db80855a707339da598e4f3"
                          "a16ab6b7b5400f2c937e7a625817d02bfa4a"));
    drop_router(router);
}

/* 65,535 spans of one cell are one more than a frame holds: two frames, of 65,534 spans and of 1. */
static void a_board_of_two_pieces(void) {
    squall_router *router = fresh();
    squall_router *other = fresh();
    uint8_t *out = (uint8_t *)room_of(SQUALL_FRAME_BYTES);
    uint32_t taken = 0;
    for (uint64_t i = 0; i < 65535; i++) {
        taken |= squall_router_loaded(router, 9, 0, 3, 2 * i, 2 * i + 1);
    }
    CHECK(taken == SQUALL_OK);
    CHECK(squall_router_gather_board(router, SQUALL_NO_LIMIT) == SQUALL_OK);
    CHECK(squall_router_frame(router, out, 0) == 1048577);
    size_t len = squall_router_frame(router, out, SQUALL_FRAME_BYTES);
    CHECK(len == 1048577);
    CHECK(squall_router_feed(other, out, len) == SQUALL_OK);
    len = squall_router_frame(router, out, SQUALL_FRAME_BYTES);
    CHECK(len == 49);
    CHECK(squall_router_feed(other, out, len) == SQUALL_OK);
    CHECK(squall_router_frame(router, out, SQUALL_FRAME_BYTES) == 0);
    CHECK(squall_router_gather_board(other, SQUALL_NO_LIMIT) == SQUALL_OK);
    CHECK(squall_router_frame(other, out, 0) == 1048577);
    free(out);
    drop_router(router);
    drop_router(other);
}

/* A cell with two spans has 65 bytes, one with one span 49. The frame that waited waits on after a
 * limit that is too low. */
static void frames_of_a_board_within_a_limit(void) {
    squall_router *router = fresh();
    uint8_t out[65];
    CHECK(squall_router_gather_board(router, 0) == SQUALL_OK);
    CHECK(squall_router_frame(router, out, 0) == 0);
    CHECK(squall_router_loaded(router, 1, 0, 3, key(2), key(3)) == SQUALL_OK);
    CHECK(squall_router_loaded(router, 1, 0, 3, key(4), key(5)) == SQUALL_OK);
    CHECK(squall_router_gather_board(router, 65) == SQUALL_OK);
    CHECK(squall_router_gather_board(router, 48) == SQUALL_TOO_LONG);
    CHECK(squall_router_gather_board(router, 0) == SQUALL_TOO_LONG);
    CHECK(squall_router_frame(router, out, sizeof out) == 65);
    CHECK(squall_router_gather_board(router, 64) == SQUALL_OK);
    CHECK(next_is(router, LOAD_FRAME));
    CHECK(squall_router_frame(router, out, sizeof out) == 49);
    CHECK(squall_router_frame(router, out, sizeof out) == 0);
    CHECK(squall_router_gather_board(router, 49) == SQUALL_OK);
    CHECK(squall_router_frame(router, out, sizeof out) == 49);
    CHECK(squall_router_frame(router, out, sizeof out) == 49);
    CHECK(squall_router_frame(router, out, sizeof out) == 0);
    drop_router(router);
}

/* The frame of a course has 33 bytes, and 12 for each of the two ranges of these plans. */
static void a_course_above_the_limit(void) {
    static const char *const PLAN = "{\"plan\":[{\"part\":5,\"from\":[0,0],\"to\":\"end\"}]}";
    squall_router *router = router_of(1, PLAN, PLAN);
    uint8_t out[57];
    CHECK(issue(router, 2, PLAN) == SQUALL_OK);
    CHECK(squall_router_gather_board(router, 56) == SQUALL_TOO_LONG);
    CHECK(squall_router_frame(router, out, sizeof out) == 0);
    CHECK(squall_router_gather_board(router, 57) == SQUALL_OK);
    CHECK(squall_router_frame(router, out, sizeof out) == 57);
    drop_router(router);
}

/* A digest with one row has 56 bytes. */
static void digests_and_repairs_within_a_limit(void) {
    squall_router *router = fresh();
    uint8_t out[56];
    CHECK(squall_router_loaded(router, 1, 0, 3, key(2), key(3)) == SQUALL_OK);
    CHECK(squall_router_gather_digest(router, 55) == SQUALL_TOO_LONG);
    CHECK(squall_router_frame(router, out, sizeof out) == 0);
    CHECK(squall_router_gather_digest(router, 56) == SQUALL_OK);
    CHECK(squall_router_gather_repair(router, 0) == SQUALL_NO_DIGEST);
    CHECK(feed_hex(router, EMPTY_DIGEST) == SQUALL_OK);
    CHECK(squall_router_gather_repair(router, 48) == SQUALL_TOO_LONG);
    CHECK(squall_router_frame(router, out, sizeof out) == 56);
    CHECK(squall_router_gather_repair(router, 49) == SQUALL_OK);
    CHECK(next_is(router, LOAD_FRAME));
    drop_router(router);
}

/* ---- two routers */

/* Carries each frame that waits at one router to another, and says how many there were. */
static size_t carry(squall_router *from, squall_router *to) {
    uint8_t frame[4096];
    size_t count = 0;
    size_t len;
    while ((len = squall_router_frame(from, frame, sizeof frame)) != 0 && len <= sizeof frame) {
        CHECK(squall_router_feed(to, frame, len) == SQUALL_OK);
        count++;
    }
    return count;
}

/* Whether both have the same frames of all that they were told. */
static bool told_the_same(squall_router *a, squall_router *b) {
    uint8_t of_a[4096];
    uint8_t of_b[4096];
    CHECK(squall_router_gather_board(a, SQUALL_NO_LIMIT) == SQUALL_OK);
    CHECK(squall_router_gather_board(b, SQUALL_NO_LIMIT) == SQUALL_OK);
    size_t len = squall_router_frame(a, of_a, sizeof of_a);
    return len == squall_router_frame(b, of_b, sizeof of_b) && memcmp(of_a, of_b, len) == 0;
}

static void routers_that_exchange_boards(void) {
    squall_router *a = fresh();
    squall_router *b = fresh();
    CHECK(squall_router_loaded(a, 1, 0, 3, key(2), key(3)) == SQUALL_OK);
    CHECK(squall_router_done(b, 1, 0, 4) == SQUALL_OK);
    CHECK(!told_the_same(a, b));
    CHECK(squall_router_gather_board(a, SQUALL_NO_LIMIT) == SQUALL_OK);
    CHECK(squall_router_gather_board(b, SQUALL_NO_LIMIT) == SQUALL_OK);
    CHECK(carry(a, b) == 1);
    CHECK(carry(b, a) == 1);
    CHECK(told_the_same(a, b));
    CHECK(squall_router_route(a, key(6)) == 4);
    CHECK(squall_router_route(b, key(2)) == 3);
    drop_router(a);
    drop_router(b);
}

static void routers_that_repair(void) {
    squall_router *a = fresh();
    squall_router *b = fresh();
    CHECK(squall_router_loaded(a, 1, 0, 3, key(2), key(3)) == SQUALL_OK);
    CHECK(squall_router_loaded(b, 1, 0, 3, key(2), key(3)) == SQUALL_OK);
    CHECK(squall_router_done(b, 2, 0, 4) == SQUALL_OK);
    CHECK(squall_router_opened(b, 1, 0) == SQUALL_OK);
    CHECK(squall_router_gather_digest(a, SQUALL_NO_LIMIT) == SQUALL_OK);
    CHECK(carry(a, b) == 1);
    CHECK(squall_router_gather_repair(b, SQUALL_NO_LIMIT) == SQUALL_OK);
    CHECK(next_is(b, "53510101000000210000000100000001000000010000000100000002000000000000000401"
                     "00000000"));
    CHECK(squall_router_gather_repair(b, SQUALL_NO_LIMIT) == SQUALL_OK);
    CHECK(carry(b, a) == 1);
    CHECK(told_the_same(a, b));
    CHECK(squall_router_gather_digest(a, SQUALL_NO_LIMIT) == SQUALL_OK);
    CHECK(carry(a, b) == 1);
    CHECK(squall_router_gather_repair(b, SQUALL_NO_LIMIT) == SQUALL_OK);
    CHECK(carry(b, a) == 0);
    drop_router(a);
    drop_router(b);
}

/* ---- views */

static void routes_of_many_keys(void) {
    squall_router *router = fresh();
    CHECK(squall_router_loaded(router, 1, 0, 3, key(2), key(3)) == SQUALL_OK);
    squall_view *view = view_of(router);
    const uint64_t ranks[4] = {key(2), key(3), SQUALL_TOP, key(0)};
    uint32_t parts[4] = {7, 7, 7, 7};
    CHECK(squall_view_routes(view, ranks, 0, parts, 4) == 0);
    CHECK(squall_view_routes(view, ranks, 4, parts, 0) == 0);
    CHECK(parts[0] == 7);
    CHECK(squall_view_routes(view, ranks, 4, parts, 3) == 3);
    CHECK(parts[0] == 3 && parts[1] == 2 && parts[2] == SQUALL_NOWHERE && parts[3] == 7);
    CHECK(squall_view_routes(view, ranks + 3, 1, parts, 4) == 1);
    CHECK(parts[0] == 1 && parts[1] == 2);
    drop_view(view);
    drop_router(router);
}

static void views_stay_as_they_are(void) {
    squall_router *router = fresh();
    squall_view *before = view_of(router);
    CHECK(squall_view_status(before) == SQUALL_OK);
    CHECK(squall_view_number(before) == 1);
    CHECK(squall_router_loaded(router, 1, 0, 3, key(2), key(3)) == SQUALL_OK);
    CHECK(issue(router, 2, OLD) == SQUALL_OK);
    squall_view *after = view_of(router);
    squall_view *again = room_for_view();
    squall_view_again(before, again);
    drop_router(router);
    CHECK(squall_view_status(again) == SQUALL_OK);
    CHECK(squall_view_route(before, key(2)) == 1);
    drop_view(before);
    squall_leg legs[2];
    CHECK(squall_view_route(again, key(2)) == 1);
    CHECK(squall_view_number(again) == 1);
    CHECK(squall_view_legs(again, key(2), key(4), legs, 2) == 2);
    CHECK(is_leg(legs[0], key(2), key(3), 1) && is_leg(legs[1], key(3), key(4), 2));
    CHECK(squall_view_number(after) == 2);
    CHECK(squall_view_route(after, key(2)) == 3);
    CHECK(squall_view_route(after, SQUALL_TOP) == SQUALL_NOWHERE);
    drop_view(after);
    drop_view(again);
}

/* ---- errands */

static squall_errand *errand_for(const squall_router *router, uint64_t rank) {
    squall_errand *errand = (squall_errand *)room_of(squall_errand_size());
    squall_errand_start(router, rank, errand);
    return errand;
}

static void drop_errand(squall_errand *errand) {
    squall_errand_close(errand);
    free(errand);
}

static void an_errand_that_finds_its_key(void) {
    squall_router *router = fresh();
    squall_errand *errand = errand_for(router, key(2));
    CHECK(squall_errand_status(errand) == SQUALL_OK);
    CHECK(squall_errand_asked(errand) == 1);
    CHECK(squall_errand_number(errand) == 0);
    CHECK(squall_errand_heed(errand, SQUALL_MOVED, 3, 1) == SQUALL_ASK);
    CHECK(squall_errand_asked(errand) == 3);
    CHECK(squall_errand_number(errand) == 1);
    CHECK(squall_errand_heed(errand, SQUALL_PENDING, 1, 0) == SQUALL_AGAIN);
    CHECK(squall_errand_heed(errand, SQUALL_BEHIND, 0, 0) == SQUALL_AGAIN);
    CHECK(squall_errand_heed(errand, 5, 0, 0) == SQUALL_BAD_REPLY);
    CHECK(squall_errand_heed(errand, SQUALL_MOVED, 10000, 2) == SQUALL_BAD_REPLY);
    CHECK(squall_errand_heed(errand, SQUALL_PENDING, 10000, 0) == SQUALL_BAD_REPLY);
    CHECK(squall_errand_heed(errand, SQUALL_ELSEWHERE, 10000, 0) == SQUALL_BAD_REPLY);
    CHECK(squall_errand_asked(errand) == 3);
    CHECK(squall_errand_number(errand) == 1);
    CHECK(squall_errand_heed(errand, SQUALL_HELD, 0, 0) == SQUALL_SERVED);
    CHECK(squall_errand_heed(errand, SQUALL_ELSEWHERE, 1, 0) == SQUALL_SERVED);
    drop_errand(errand);
    drop_router(router);
}

static void errands_that_are_lost(void) {
    squall_router *router = fresh();
    squall_errand *errand = errand_for(router, key(2));
    CHECK(squall_errand_heed(errand, SQUALL_MOVED, 3, 1) == SQUALL_ASK);
    CHECK(squall_errand_heed(errand, SQUALL_MOVED, 3, 1) == SQUALL_LOST);
    CHECK(squall_errand_heed(errand, SQUALL_HELD, 0, 0) == SQUALL_LOST);
    drop_errand(errand);
    errand = errand_for(router, key(2));
    CHECK(squall_errand_heed(errand, SQUALL_ELSEWHERE, 3, 0) == SQUALL_LOST);
    drop_errand(errand);
    errand = errand_for(router, SQUALL_TOP);
    CHECK(squall_errand_status(errand) == SQUALL_LIMIT);
    CHECK(squall_errand_asked(errand) == SQUALL_NOWHERE);
    CHECK(squall_errand_number(errand) == 0);
    CHECK(squall_errand_heed(errand, SQUALL_HELD, 0, 0) == SQUALL_BAD_REPLY);
    drop_errand(errand);
    drop_router(router);
}

static void errands_by_a_view(void) {
    squall_router *router = fresh();
    CHECK(squall_router_done(router, 1, 0, 3) == SQUALL_OK);
    squall_view *view = view_of(router);
    squall_errand *errand = (squall_errand *)room_of(squall_errand_size());
    squall_errand_start_at(view, key(2), errand);
    drop_view(view);
    drop_router(router);
    CHECK(squall_errand_status(errand) == SQUALL_OK);
    CHECK(squall_errand_asked(errand) == 3);
    drop_errand(errand);
}

/* ---- misuse that is answered */

static void where_no_router_stands(void) {
    squall_router *none = router_of(1, "", NEW);
    squall_leg legs[1];
    uint8_t out[16];
    CHECK(squall_router_loaded(none, 1, 0, 3, key(2), key(3)) == SQUALL_CLOSED);
    CHECK(squall_router_done(none, 1, 0, 3) == SQUALL_CLOSED);
    CHECK(squall_router_opened(none, 1, 0) == SQUALL_CLOSED);
    CHECK(issue(none, 2, NEW) == SQUALL_CLOSED);
    CHECK(feed_hex(none, EMPTY_DELTA) == SQUALL_CLOSED);
    CHECK(squall_router_waiting(none) == 0);
    CHECK(squall_router_route(none, key(2)) == SQUALL_NOWHERE);
    CHECK(squall_router_legs(none, 0, SQUALL_TOP, legs, 1) == 0);
    CHECK(squall_router_number(none) == 0);
    CHECK(squall_router_gather_board(none, SQUALL_NO_LIMIT) == SQUALL_CLOSED);
    CHECK(squall_router_gather_digest(none, SQUALL_NO_LIMIT) == SQUALL_CLOSED);
    CHECK(squall_router_gather_repair(none, SQUALL_NO_LIMIT) == SQUALL_CLOSED);
    CHECK(squall_router_frame(none, out, sizeof out) == 0);
    CHECK(squall_router_status(none) == SQUALL_PLAN_JSON);
    squall_errand *errand = errand_for(none, key(2));
    CHECK(squall_errand_status(errand) == SQUALL_CLOSED);
    CHECK(squall_errand_asked(errand) == SQUALL_NOWHERE);
    drop_errand(errand);
    squall_view *view = view_of(none);
    drop_router(none);
    CHECK(squall_view_status(view) == SQUALL_CLOSED);
    CHECK(squall_view_route(view, key(2)) == SQUALL_NOWHERE);
    CHECK(squall_view_legs(view, 0, SQUALL_TOP, legs, 1) == 0);
    CHECK(squall_view_number(view) == 0);
    squall_view *again = room_for_view();
    squall_view_again(view, again);
    CHECK(squall_view_status(again) == SQUALL_CLOSED);
    drop_view(again);
    drop_view(view);
}

static void a_room_used_again(void) {
    squall_router *router = fresh();
    squall_router_close(router);
    memset(router, 0xff, squall_router_size());
    squall_router_open(7, bytes_of(NEW), strlen(NEW), bytes_of(OLD), strlen(OLD), router);
    CHECK(squall_router_status(router) == SQUALL_OK);
    CHECK(squall_router_number(router) == 7);
    CHECK(squall_router_route(router, key(2)) == 3);
    drop_router(router);
}

static const struct test TESTS[] = {
    TEST(the_worked_scenario),
    TEST(texts_that_are_no_plans),
    TEST(a_plan_of_too_many_entries),
    TEST(the_first_fault_is_answered),
    TEST(reports_outside_their_limits),
    TEST(foreign_reports),
    TEST(newer_courses_and_clashes),
    TEST(legs_of_spans),
    TEST(legs_where_room_is_short),
    TEST(frames_cut_anywhere),
    TEST(two_frames_cut_anywhere),
    TEST(bytes_that_are_no_frame),
    TEST(a_fault_that_waits_for_its_bytes),
    TEST(whole_frames),
    TEST(frames_that_are_not_whole),
    TEST(a_frame_beside_a_stream),
    TEST(frames_of_a_board),
    TEST(a_clash_in_a_frame),
    TEST(frames_of_digests),
    TEST(a_board_of_two_pieces),
    TEST(frames_of_a_board_within_a_limit),
    TEST(a_course_above_the_limit),
    TEST(digests_and_repairs_within_a_limit),
    TEST(routers_that_exchange_boards),
    TEST(routers_that_repair),
    TEST(routes_of_many_keys),
    TEST(views_stay_as_they_are),
    TEST(an_errand_that_finds_its_key),
    TEST(errands_that_are_lost),
    TEST(errands_by_a_view),
    TEST(where_no_router_stands),
    TEST(a_room_used_again),
};

int main(void) {
    return run_tests(TESTS, sizeof TESTS / sizeof TESTS[0]);
}
