/* Tests of leaders. Expected values are worked out by hand from the plans of examples/. The last line
 * is `N passed, M failed`. */
#include "check.h"

static squall_leader *room_for_leader(void) {
    return (squall_leader *)room_of(squall_leader_size());
}

static squall_leader *leader_of(const char *plan, uint32_t last) {
    squall_leader *leader = room_for_leader();
    squall_leader_open(bytes_of(plan), strlen(plan), last, leader);
    return leader;
}

static void drop_leader(squall_leader *leader) {
    squall_leader_close(leader);
    free(leader);
}

static squall_course *begun_by(const squall_leader *leader) {
    squall_course *course = room_for_course();
    squall_leader_course(leader, course);
    return course;
}

static uint32_t begin(squall_leader *leader, const char *plan) {
    return squall_leader_begin(leader, bytes_of(plan), strlen(plan));
}

static uint32_t begin_from(squall_leader *leader, const char *old, const char *new_plan) {
    return squall_leader_begin_from(leader, bytes_of(old), strlen(old), bytes_of(new_plan), strlen(new_plan));
}

/* The leader hears that the partition is done in the sub-plan. */
static uint32_t hear_done(squall_leader *leader, uint32_t number, uint32_t sub, uint32_t part) {
    uint8_t frame[64];
    size_t len = squall_frame_done(number, sub, part, frame, sizeof frame);
    return squall_leader_hear(leader, frame, len);
}

/* ---- leading */

static void there_and_back(void) {
    squall_leader *leader = leader_of(OLD, 0);
    uint32_t out[3] = {7, 7, 7};
    CHECK(squall_leader_status(leader) == SQUALL_OK);
    CHECK(squall_leader_fault_at(leader) == SQUALL_NO_PLACE);
    CHECK(squall_leader_finished(leader) == 0);
    CHECK(squall_leader_open_next(leader, out, 3) == SQUALL_IDLE);
    squall_course *course = begun_by(leader);
    CHECK(squall_course_status(course) == SQUALL_CLOSED);
    drop_course(course);
    CHECK(begin(leader, NEW) == SQUALL_OK);
    CHECK(begin(leader, OLD) == SQUALL_RUNNING);
    CHECK(squall_leader_open_next(leader, out, 3) == SQUALL_OK);
    CHECK(out[0] == 0 && out[1] == 7);
    CHECK(squall_leader_open_next(leader, out, 3) == SQUALL_NOT_DONE);
    CHECK(out[0] == 0 && out[1] == 3 && out[2] == 7);
    CHECK(hear_done(leader, 1, 0, 3) == SQUALL_OK);
    out[1] = 7;
    CHECK(squall_leader_open_next(leader, out, 1) == SQUALL_NOT_DONE && out[1] == 7);
    CHECK(squall_leader_open_next(leader, out, 2) == SQUALL_NOT_DONE && out[1] == 4);
    CHECK(squall_leader_finished(leader) == 0);
    CHECK(hear_done(leader, 1, 0, 4) == SQUALL_OK);
    CHECK(squall_leader_finished(leader) == 1);
    CHECK(squall_leader_open_next(leader, out, 0) == SQUALL_NO_MORE);
    CHECK(begin(leader, OLD) == SQUALL_OK);
    CHECK(squall_leader_finished(leader) == 0);
    course = begun_by(leader);
    drop_leader(leader);
    squall_move moves[3];
    CHECK(squall_course_status(course) == SQUALL_OK && squall_course_number(course) == 2);
    CHECK(squall_course_moves(course, 0, moves, 3) == 2);
    CHECK(moves[0].source == 3 && moves[0].dest == 1 && moves[1].source == 4);
    drop_course(course);
}

static void numbers_end(void) {
    squall_leader *leader = leader_of(OLD, 4294967294u);
    CHECK(begin(leader, OLD) == SQUALL_OK);
    CHECK(squall_leader_finished(leader) == 1);
    CHECK(begin(leader, NEW) == SQUALL_NO_NUMBER);
    CHECK(begin_from(leader, OLD, NEW) == SQUALL_NO_NUMBER);
    squall_course *course = begun_by(leader);
    CHECK(squall_course_number(course) == 4294967295u);
    drop_course(course);
    drop_leader(leader);
    uint32_t out[2] = {7, 7};
    leader = leader_of(OLD, 4294967295u);
    CHECK(begin(leader, NEW) == SQUALL_NO_NUMBER);
    CHECK(squall_leader_open_next(leader, out, 2) == SQUALL_IDLE && out[0] == 7);
    drop_leader(leader);
}

/* A course in which no key moves has no sub-plan, and ends as it begins. */
static void nothing_moves(void) {
    squall_leader *leader = leader_of(OLD, 0);
    uint32_t out[2] = {7, 7};
    CHECK(begin(leader, OLD) == SQUALL_OK);
    CHECK(squall_leader_finished(leader) == 1);
    CHECK(squall_leader_open_next(leader, out, 2) == SQUALL_NO_MORE && out[0] == 7);
    CHECK(begin(leader, NEW) == SQUALL_OK);
    squall_course *course = begun_by(leader);
    CHECK(squall_course_number(course) == 2);
    drop_course(course);
    drop_leader(leader);
}

/* A router hears the frame of a course. */
static void hear_course(squall_router *router, uint32_t number, const char *old, const char *new_plan) {
    uint8_t frame[512];
    size_t len = frame_of_course(number, old, new_plan, frame, sizeof frame);
    CHECK(squall_router_hear(router, frame, len) == SQUALL_OK);
}

/* Whether the leader's board is the router's. */
static bool tells_as(squall_leader *leader, squall_router *router) {
    uint8_t one[2048];
    uint8_t other[2048];
    CHECK(squall_leader_gather_board(leader, SQUALL_NO_LIMIT) == SQUALL_OK);
    CHECK(squall_router_gather_board(router, SQUALL_NO_LIMIT) == SQUALL_OK);
    size_t len = squall_leader_frame(leader, one, sizeof one);
    return squall_router_frame(router, other, sizeof other) == len && memcmp(one, other, len) == 0
           && squall_leader_frame(leader, one, sizeof one) == 0 && squall_router_frame(router, other, sizeof other) == 0;
}

/* The board has what is begun, opened and heard, and nothing else. */
static void what_a_leader_tells(void) {
    squall_leader *leader = leader_of(OLD, 0);
    squall_router *router = router_of(1, OLD, NEW);
    uint32_t out[2];
    CHECK(tells_as(leader, router));
    CHECK(begin(leader, NEW) == SQUALL_OK && !tells_as(leader, router));
    hear_course(router, 1, OLD, NEW);
    CHECK(tells_as(leader, router));
    CHECK(squall_leader_open_next(leader, out, 2) == SQUALL_OK && !tells_as(leader, router));
    CHECK(squall_router_opened(router, 1, 0) == SQUALL_OK && tells_as(leader, router));
    for (uint32_t part = 3; part <= 4; part++) {
        CHECK(hear_done(leader, 1, 0, part) == SQUALL_OK && !tells_as(leader, router));
        CHECK(squall_router_done(router, 1, 0, part) == SQUALL_OK && tells_as(leader, router));
    }
    CHECK(begin(leader, OLD) == SQUALL_OK && squall_leader_finished(leader) == 0);
    CHECK(squall_leader_open_next(leader, out, 2) == SQUALL_OK && out[0] == 0);
    hear_course(router, 2, NEW, OLD);
    CHECK(squall_router_opened(router, 2, 0) == SQUALL_OK && tells_as(leader, router));
    drop_router(router);
    drop_leader(leader);
}

/* Between OLD and NEW: the keys of 2:0 have moved, and those of 6:0 to 8:0 have not. */
static const char MIDDLE[] =
    "{\"plan\":[{\"part\":1,\"from\":[0,0],\"to\":[2,0]},{\"part\":2,\"from\":[3,0],\"to\":[5,0]},"
    "{\"part\":3,\"from\":[2,0],\"to\":[3,0]},{\"part\":3,\"from\":[5,0],\"to\":[9,0]},"
    "{\"part\":4,\"from\":[9,0],\"to\":\"end\"}]}";

/* A course that is not over ends early: the next one begins where the keys lie then. */
static void a_course_ends_early(void) {
    squall_leader *leader = leader_of(OLD, 0);
    squall_router *router = router_of(1, OLD, NEW);
    uint32_t out[2] = {7, 7};
    squall_move moves[2];
    CHECK(begin(leader, NEW) == SQUALL_OK);
    CHECK(squall_leader_open_next(leader, out, 2) == SQUALL_OK);
    CHECK(begin(leader, OLD) == SQUALL_RUNNING);
    CHECK(begin_from(leader, MIDDLE, NEW) == SQUALL_OK);
    CHECK(squall_leader_finished(leader) == 0);
    squall_course *course = begun_by(leader);
    CHECK(squall_course_number(course) == 2);
    CHECK(squall_course_moves(course, 0, moves, 2) == 1);
    CHECK(moves[0].lo == squall_rank(6, 0) && moves[0].hi == squall_rank(9, 0));
    CHECK(moves[0].source == 3 && moves[0].dest == 4 && moves[0].sub == 0);
    drop_course(course);
    hear_course(router, 1, OLD, NEW);
    hear_course(router, 2, MIDDLE, NEW);
    CHECK(squall_router_opened(router, 1, 0) == SQUALL_OK && tells_as(leader, router));
    CHECK(hear_done(leader, 1, 0, 4) == SQUALL_OK);
    CHECK(squall_leader_open_next(leader, out, 2) == SQUALL_OK && out[0] == 0);
    CHECK(squall_leader_open_next(leader, out, 2) == SQUALL_NOT_DONE && out[0] == 0 && out[1] == 4);
    CHECK(hear_done(leader, 2, 0, 4) == SQUALL_OK);
    CHECK(squall_leader_finished(leader) == 1);
    CHECK(begin_from(leader, NEW, OLD) == SQUALL_OK);
    CHECK(begin_from(leader, NEW, NEW) == SQUALL_OK);
    course = begun_by(leader);
    CHECK(squall_course_number(course) == 4 && squall_course_subplans(course) == 0);
    drop_course(course);
    drop_router(router);
    drop_leader(leader);
}

/* The first course too may begin from another plan than the leader was opened with. */
static void a_first_course_begins_anywhere(void) {
    squall_leader *leader = leader_of(OLD, 6);
    squall_leg legs[4];
    CHECK(begin_from(leader, NEW, OLD) == SQUALL_OK);
    squall_course *course = begun_by(leader);
    CHECK(squall_course_number(course) == 7);
    CHECK(squall_course_new(course, 0, legs, 4) == 4 && legs[0].part == 1 && legs[0].hi == squall_rank(3, 0));
    CHECK(squall_course_old(course, 0, legs, 1) == 1 && legs[0].part == 1 && legs[0].hi == squall_rank(2, 0));
    drop_course(course);
    drop_leader(leader);
}

static void a_course_is_resumed(void) {
    squall_course *course = course_of(7, OLD, NEW);
    squall_leader *leader = room_for_leader();
    uint32_t out[2];
    squall_leader_resume(course, leader);
    drop_course(course);
    CHECK(squall_leader_status(leader) == SQUALL_OK);
    CHECK(begin(leader, OLD) == SQUALL_RUNNING);
    CHECK(squall_leader_open_next(leader, out, 2) == SQUALL_OK && out[0] == 0);
    CHECK(hear_done(leader, 7, 0, 3) == SQUALL_OK && hear_done(leader, 7, 0, 4) == SQUALL_OK);
    CHECK(begin(leader, OLD) == SQUALL_OK);
    course = begun_by(leader);
    CHECK(squall_course_number(course) == 8);
    drop_course(course);
    drop_leader(leader);
}

/* ---- leaders that are none, and texts that are no plans */

/* What a handle without a leader answers. */
static void answers_closed(squall_leader *leader) {
    uint32_t out[2] = {7, 7};
    uint8_t frame[8] = {7};
    CHECK(begin(leader, NEW) == SQUALL_CLOSED);
    CHECK(begin_from(leader, OLD, NEW) == SQUALL_CLOSED && begin_from(leader, "", "") == SQUALL_CLOSED);
    CHECK(squall_leader_open_next(leader, out, 2) == SQUALL_CLOSED && out[0] == 7);
    CHECK(squall_leader_finished(leader) == 0);
    CHECK(squall_leader_hear(leader, frame, sizeof frame) == SQUALL_CLOSED);
    CHECK(squall_leader_feed(leader, frame, sizeof frame) == SQUALL_CLOSED);
    CHECK(squall_leader_waiting(leader) == 0);
    CHECK(squall_leader_gather_board(leader, SQUALL_NO_LIMIT) == SQUALL_CLOSED);
    CHECK(squall_leader_gather_digest(leader, SQUALL_NO_LIMIT) == SQUALL_CLOSED);
    CHECK(squall_leader_gather_repair(leader, SQUALL_NO_LIMIT) == SQUALL_CLOSED);
    CHECK(squall_leader_frame(leader, frame, sizeof frame) == 0 && frame[0] == 7);
    squall_course *course = begun_by(leader);
    CHECK(squall_course_status(course) == SQUALL_CLOSED);
    drop_course(course);
}

static void leaders_that_are_none(void) {
    squall_leader *leader = leader_of("", 0);
    CHECK(squall_leader_status(leader) == SQUALL_PLAN_JSON);
    CHECK(squall_leader_fault_at(leader) == SQUALL_NO_PLACE);
    answers_closed(leader);
    drop_leader(leader);
    leader = leader_of("{\"plan\":[{\"part\":1,\"from\":[0,0],\"to\":[3,0]}]}", 0);
    CHECK(squall_leader_status(leader) == SQUALL_PLAN_GAP);
    CHECK(squall_leader_fault_at(leader) == squall_rank(3, 0));
    drop_leader(leader);
    squall_course *none = course_of(0, OLD, NEW);
    leader = room_for_leader();
    squall_leader_resume(none, leader);
    CHECK(squall_leader_status(leader) == SQUALL_CLOSED);
    answers_closed(leader);
    drop_leader(leader);
    drop_course(none);
}

/* A plan with a gap from 3:0 on, and one whose second entry has a partition that is none. */
static const char WITH_GAP[] = "{\"plan\":[{\"part\":1,\"from\":[0,0],\"to\":[3,0]}]}";
static const char BAD_PART[] =
    "{\"plan\":[{\"part\":1,\"from\":[0,0],\"to\":[3,0]},{\"part\":10000,\"from\":[3,0],\"to\":\"end\"}]}";

static void texts_that_are_no_plans(void) {
    squall_leader *leader = leader_of(OLD, 0);
    CHECK(begin(leader, WITH_GAP) == SQUALL_NEW_PLAN_GAP);
    CHECK(squall_leader_fault_at(leader) == squall_rank(3, 0));
    CHECK(begin(leader, "{}") == SQUALL_NEW_PLAN_SHAPE);
    CHECK(squall_leader_fault_at(leader) == SQUALL_NO_PLACE);
    CHECK(squall_leader_status(leader) == SQUALL_OK);
    CHECK(begin(leader, NEW) == SQUALL_OK);
    drop_leader(leader);
}

/* Of two texts the fault of the first that is no plan is told, and nothing else changes. */
static void pairs_of_texts_that_are_no_plans(void) {
    squall_leader *leader = leader_of(OLD, 0);
    CHECK(begin(leader, NEW) == SQUALL_OK);
    CHECK(begin_from(leader, WITH_GAP, NEW) == SQUALL_PLAN_GAP);
    CHECK(squall_leader_fault_at(leader) == squall_rank(3, 0));
    CHECK(begin_from(leader, BAD_PART, WITH_GAP) == SQUALL_PLAN_BAD_PART);
    CHECK(squall_leader_fault_at(leader) == 1);
    CHECK(begin_from(leader, "", WITH_GAP) == SQUALL_PLAN_JSON);
    CHECK(squall_leader_fault_at(leader) == SQUALL_NO_PLACE);
    CHECK(begin_from(leader, OLD, WITH_GAP) == SQUALL_NEW_PLAN_GAP);
    CHECK(squall_leader_fault_at(leader) == squall_rank(3, 0));
    CHECK(begin_from(leader, OLD, BAD_PART) == SQUALL_NEW_PLAN_BAD_PART);
    CHECK(squall_leader_fault_at(leader) == 1);
    CHECK(begin_from(leader, OLD, "{}") == SQUALL_NEW_PLAN_SHAPE);
    CHECK(squall_leader_fault_at(leader) == SQUALL_NO_PLACE);
    squall_course *course = begun_by(leader);
    CHECK(squall_course_number(course) == 1);
    drop_course(course);
    CHECK(begin_from(leader, OLD, NEW) == SQUALL_OK);
    course = begun_by(leader);
    CHECK(squall_course_number(course) == 2);
    drop_course(course);
    drop_leader(leader);
}

/* ---- frames */

/* The frames that wait in the leader, joined; how many bytes they have. */
static size_t frames_of(squall_leader *leader, uint8_t *out, size_t room) {
    size_t total = 0;
    size_t len;
    while ((len = squall_leader_frame(leader, out + total, room - total)) != 0) {
        total += len;
    }
    return total;
}

/* The one frame that waits in a leader is heard by another. */
static void pass(squall_leader *from, squall_leader *to) {
    uint8_t frame[2048];
    size_t len = squall_leader_frame(from, frame, sizeof frame);
    CHECK(len != 0 && squall_leader_hear(to, frame, len) == SQUALL_OK);
    CHECK(squall_leader_frame(from, frame, sizeof frame) == 0);
}

static bool know_the_same(squall_leader *one, squall_leader *other) {
    uint8_t a[2048];
    uint8_t b[2048];
    CHECK(squall_leader_gather_board(one, SQUALL_NO_LIMIT) == SQUALL_OK);
    CHECK(squall_leader_gather_board(other, SQUALL_NO_LIMIT) == SQUALL_OK);
    size_t len = frames_of(one, a, sizeof a);
    return len == frames_of(other, b, sizeof b) && memcmp(a, b, len) == 0;
}

static void a_standby_catches_up(void) {
    squall_leader *leader = leader_of(OLD, 0);
    squall_leader *standby = leader_of(OLD, 0);
    uint32_t out[2];
    CHECK(begin(leader, NEW) == SQUALL_OK);
    CHECK(squall_leader_open_next(leader, out, 2) == SQUALL_OK);
    CHECK(hear_done(leader, 1, 0, 3) == SQUALL_OK);
    CHECK(!know_the_same(leader, standby));
    CHECK(squall_leader_gather_repair(leader, SQUALL_NO_LIMIT) == SQUALL_NO_DIGEST);
    CHECK(squall_leader_gather_digest(standby, SQUALL_NO_LIMIT) == SQUALL_OK);
    pass(standby, leader);
    CHECK(squall_leader_gather_repair(leader, SQUALL_NO_LIMIT) == SQUALL_OK);
    pass(leader, standby);
    CHECK(know_the_same(leader, standby));
    drop_leader(standby);
    drop_leader(leader);
}

/* A router that knows the old plan alone follows the leader by its frames. */
static void a_router_follows(void) {
    squall_leader *leader = leader_of(OLD, 1);
    squall_router *router = router_of(1, OLD, OLD);
    uint8_t frame[2048];
    CHECK(begin(leader, NEW) == SQUALL_OK);
    CHECK(squall_leader_gather_board(leader, SQUALL_NO_LIMIT) == SQUALL_OK);
    size_t len = squall_leader_frame(leader, frame, sizeof frame);
    CHECK(squall_router_hear(router, frame, len) == SQUALL_OK);
    CHECK(squall_router_number(router) == 2);
    CHECK(squall_router_route(router, squall_rank(2, 0)) == 1);
    CHECK(hear_done(leader, 2, 0, 3) == SQUALL_OK);
    CHECK(squall_leader_gather_board(leader, SQUALL_NO_LIMIT) == SQUALL_OK);
    len = squall_leader_frame(leader, frame, sizeof frame);
    CHECK(squall_router_hear(router, frame, len) == SQUALL_OK);
    CHECK(squall_router_route(router, squall_rank(2, 0)) == 3);
    drop_router(router);
    drop_leader(leader);
}

static void what_is_no_frame(void) {
    squall_leader *leader = leader_of(OLD, 0);
    uint8_t frame[64];
    size_t len = squall_frame_done(1, 0, 3, frame, sizeof frame);
    frame[len] = 0;
    CHECK(squall_leader_hear(leader, frame, 0) == SQUALL_FRAME_SHORT);
    CHECK(squall_leader_hear(leader, frame, len - 1) == SQUALL_FRAME_SHORT);
    CHECK(squall_leader_hear(leader, frame, len + 1) == SQUALL_FRAME_SPARE);
    frame[0] = 0;
    CHECK(squall_leader_hear(leader, frame, len) == SQUALL_FRAME_MAGIC);
    CHECK(squall_leader_gather_board(leader, SQUALL_NO_LIMIT) == SQUALL_OK);
    CHECK(squall_leader_frame(leader, frame, sizeof frame) == 0);
    drop_leader(leader);
}

static const uint8_t EMPTY_DIGEST[] = {0x53, 0x51, 1, 2, 0, 0, 0, 8, 0, 0, 0, 0, 0, 0, 0, 0};

/* The frames by which the two partitions that get keys say that they are done. */
static size_t done_frames(uint8_t *out, size_t room) {
    size_t first = squall_frame_done(1, 0, 3, out, room);
    return first + squall_frame_done(1, 0, 4, out + first, room - first);
}

/* Two frames in three pieces, cut anywhere: what is told does not depend on where. */
static void frames_cut_anywhere(void) {
    uint8_t stream[128];
    size_t len = done_frames(stream, sizeof stream);
    for (size_t cut = 0; cut <= len; cut++) {
        for (size_t next = cut; next <= len; next++) {
            squall_leader *leader = leader_of(OLD, 0);
            uint32_t out[2];
            CHECK(begin(leader, NEW) == SQUALL_OK);
            CHECK(squall_leader_open_next(leader, out, 2) == SQUALL_OK);
            CHECK(squall_leader_feed(leader, stream, cut) == SQUALL_OK);
            CHECK(squall_leader_feed(leader, stream + cut, next - cut) == SQUALL_OK);
            CHECK(squall_leader_finished(leader) == (next == len));
            CHECK(squall_leader_feed(leader, stream + next, len - next) == SQUALL_OK);
            CHECK(squall_leader_finished(leader) == 1);
            drop_leader(leader);
        }
    }
}

/* A fault ends the stream after the messages before it, and whole frames are still heard. */
static void a_fault_in_a_stream(void) {
    squall_leader *leader = leader_of(OLD, 0);
    uint32_t out[2];
    uint8_t stream[128] = {0};
    CHECK(begin(leader, NEW) == SQUALL_OK);
    CHECK(squall_leader_open_next(leader, out, 2) == SQUALL_OK);
    size_t len = squall_frame_done(1, 0, 3, stream, sizeof stream);
    CHECK(squall_leader_feed(leader, stream, len + 2) == SQUALL_FRAME_MAGIC);
    CHECK(squall_leader_waiting(leader) == 0);
    CHECK(squall_leader_open_next(leader, out, 2) == SQUALL_NOT_DONE && out[1] == 4);
    CHECK(squall_leader_feed(leader, stream, len) == SQUALL_FAILED);
    CHECK(squall_leader_feed(leader, stream, 0) == SQUALL_FAILED);
    CHECK(hear_done(leader, 1, 0, 4) == SQUALL_OK);
    CHECK(squall_leader_finished(leader) == 1);
    drop_leader(leader);
}

/* What waits of a stream waits on while a whole frame is heard. The last digest is kept. */
static void a_frame_beside_a_stream(void) {
    squall_leader *leader = leader_of(OLD, 0);
    uint8_t stream[128];
    size_t len = done_frames(stream, sizeof stream);
    CHECK(squall_leader_feed(leader, EMPTY_DIGEST, 3) == SQUALL_OK);
    CHECK(squall_leader_hear(leader, stream, len / 2) == SQUALL_OK);
    CHECK(squall_leader_gather_repair(leader, SQUALL_NO_LIMIT) == SQUALL_NO_DIGEST);
    CHECK(squall_leader_waiting(leader) == 3);
    CHECK(squall_leader_feed(leader, EMPTY_DIGEST + 3, sizeof EMPTY_DIGEST - 3) == SQUALL_OK);
    CHECK(squall_leader_waiting(leader) == 0);
    CHECK(squall_leader_gather_repair(leader, SQUALL_NO_LIMIT) == SQUALL_OK);
    CHECK(squall_leader_feed(leader, stream, len) == SQUALL_OK);
    drop_leader(leader);
}

static void a_frame_waits_for_room(void) {
    squall_leader *leader = leader_of(OLD, 0);
    uint8_t frame[64];
    memset(frame, 7, sizeof frame);
    CHECK(squall_leader_gather_digest(leader, SQUALL_NO_LIMIT) == SQUALL_OK);
    CHECK(squall_leader_frame(leader, frame, 3) == 16 && frame[0] == 7);
    CHECK(squall_leader_frame(leader, frame, 16) == 16 && frame[0] == 0x53 && frame[16] == 7);
    CHECK(squall_leader_frame(leader, frame, sizeof frame) == 0);
    drop_leader(leader);
}

/* An empty digest has 16 bytes, and the frame of a course of the two plans more than 49. */
static void frames_within_a_limit(void) {
    squall_leader *leader = leader_of(OLD, 0);
    uint8_t frame[16];
    CHECK(squall_leader_gather_digest(leader, 15) == SQUALL_TOO_LONG);
    CHECK(squall_leader_gather_digest(leader, 16) == SQUALL_OK);
    CHECK(begin(leader, NEW) == SQUALL_OK);
    CHECK(squall_leader_gather_board(leader, 49) == SQUALL_TOO_LONG);
    CHECK(squall_leader_gather_repair(leader, 49) == SQUALL_NO_DIGEST);
    CHECK(squall_leader_frame(leader, frame, sizeof frame) == 16);
    CHECK(squall_leader_hear(leader, frame, sizeof frame) == SQUALL_OK);
    CHECK(squall_leader_gather_repair(leader, 49) == SQUALL_TOO_LONG);
    CHECK(squall_leader_gather_repair(leader, 98337) == SQUALL_OK);
    CHECK(squall_leader_frame(leader, frame, 0) > 49);
    drop_leader(leader);
}

static const struct test TESTS[] = {
    TEST(there_and_back),
    TEST(numbers_end),
    TEST(nothing_moves),
    TEST(what_a_leader_tells),
    TEST(a_course_ends_early),
    TEST(a_first_course_begins_anywhere),
    TEST(a_course_is_resumed),
    TEST(leaders_that_are_none),
    TEST(texts_that_are_no_plans),
    TEST(pairs_of_texts_that_are_no_plans),
    TEST(a_standby_catches_up),
    TEST(a_router_follows),
    TEST(what_is_no_frame),
    TEST(frames_cut_anywhere),
    TEST(a_fault_in_a_stream),
    TEST(a_frame_beside_a_stream),
    TEST(a_frame_waits_for_room),
    TEST(frames_within_a_limit),
};

int main(void) {
    return run_tests(TESTS, sizeof TESTS / sizeof TESTS[0]);
}
