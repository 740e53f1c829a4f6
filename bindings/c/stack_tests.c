/* Tests in threads with no more stack than the header says: each call that reads the text of a plan, over
 * texts that nest as deep as JSON is read, and all other calls over many keys. The last line is
 * `N passed, M failed`. */
#include "check.h"

#include <pthread.h>

enum { TEXT_CALLS = 192 * 1024, OTHER_CALLS = 64 * 1024, DEEPEST = 126, SPANS = 20000 };

static void in_thread_with(size_t stack, void *(*run)(void *), void *argument) {
    pthread_attr_t attributes;
    pthread_t thread;
    CHECK(pthread_attr_init(&attributes) == 0);
    CHECK(pthread_attr_setstacksize(&attributes, stack) == 0);
    if (pthread_create(&thread, &attributes, run, argument) == 0) {
        CHECK(pthread_join(thread, NULL) == 0);
    } else {
        CHECK(!"a thread starts");
    }
    pthread_attr_destroy(&attributes);
}

static void in_thread(size_t stack, void *(*run)(void *)) {
    in_thread_with(stack, run, NULL);
}

/* ---- texts */

static char nested[4096];

/* A plan with a member that is ignored: so many objects, or arrays, one within the other. */
static void nest(int depth, const char *begin, const char *end) {
    strcpy(nested, "{\"ignored\":");
    for (int i = 0; i < depth; i++) {
        strcat(nested, begin);
    }
    strcat(nested, "1");
    for (int i = 0; i < depth; i++) {
        strcat(nested, end);
    }
    strcat(nested, ",\"plan\":[{\"part\":1,\"from\":[0,0],\"to\":\"end\"}]}");
}

/* The text as the first plan of a leader, as the plan of its next course, and as each plan of those after it. */
static void lead_by_texts(void) {
    squall_leader *leader = (squall_leader *)room_of(squall_leader_size());
    squall_leader_open(bytes_of(nested), strlen(nested), 0, leader);
    uint32_t status = squall_leader_status(leader);
    CHECK(status == SQUALL_OK || status == SQUALL_PLAN_JSON);
    squall_leader_close(leader);
    squall_leader_open(bytes_of(OLD), strlen(OLD), 0, leader);
    status = squall_leader_begin(leader, bytes_of(nested), strlen(nested));
    CHECK(status == SQUALL_OK || status == SQUALL_NEW_PLAN_JSON);
    status = squall_leader_begin_from(leader, bytes_of(nested), strlen(nested), bytes_of(nested), strlen(nested));
    CHECK(status == SQUALL_OK || status == SQUALL_PLAN_JSON);
    status = squall_leader_begin_from(leader, bytes_of(OLD), strlen(OLD), bytes_of(nested), strlen(nested));
    CHECK(status == SQUALL_OK || status == SQUALL_NEW_PLAN_JSON);
    squall_leader_close(leader);
    free(leader);
}

static void *read_texts(void *unused) {
    (void)unused;
    lead_by_texts();
    squall_router *router = router_of(1, nested, nested);
    uint32_t status = squall_router_status(router);
    CHECK(status == SQUALL_OK || status == SQUALL_PLAN_JSON);
    drop_router(router);
    router = router_of(1, OLD, NEW);
    status = squall_router_issued(router, 2, bytes_of(nested), strlen(nested));
    CHECK(status == SQUALL_OK || status == SQUALL_NEW_PLAN_JSON);
    drop_router(router);
    squall_course *course = course_of(1, nested, nested);
    status = squall_course_status(course);
    CHECK(status == SQUALL_OK || status == SQUALL_PLAN_JSON);
    drop_course(course);
    return NULL;
}

static void texts_that_nest(void) {
    static const char *const FORMS[][2] = {{"{\"a\":", "}"}, {"[", "]"}, {"[{\"a\":", "}]"}};
    for (size_t form = 0; form < sizeof FORMS / sizeof FORMS[0]; form++) {
        for (int depth = DEEPEST / 2 - 1; depth <= DEEPEST + 2; depth++) {
            nest(depth, FORMS[form][0], FORMS[form][1]);
            in_thread(TEXT_CALLS, read_texts);
        }
    }
}

/* ---- all else */

static squall_router *opened;
static uint8_t *frames;

static void *take_and_tell(void *unused) {
    (void)unused;
    for (uint64_t i = 0; i < SPANS; i++) {
        CHECK(squall_router_loaded(opened, 1, 0, 3, squall_rank(2, (uint32_t)(2 * i)),
                                   squall_rank(2, (uint32_t)(2 * i + 1))) == SQUALL_OK);
    }
    CHECK(squall_router_gather_board(opened, SQUALL_NO_LIMIT) == SQUALL_OK);
    size_t len = squall_router_frame(opened, frames, SQUALL_FRAME_BYTES);
    /* With a limit at what the router tells, frames are joined to a copy of its board. */
    CHECK(squall_router_limit(opened, 1, SPANS, 0, 0) == SQUALL_OK);
    CHECK(squall_router_feed(opened, frames, len / 2) == SQUALL_OK);
    CHECK(squall_router_waiting(opened) == len / 2);
    CHECK(squall_router_feed(opened, frames + len / 2, len - len / 2) == SQUALL_OK);
    CHECK(squall_router_hear(opened, frames, len) == SQUALL_OK);
    CHECK(squall_router_taken(opened) == 2);
    CHECK(squall_router_gather_digest(opened, SQUALL_NO_LIMIT) == SQUALL_OK);
    len = squall_router_frame(opened, frames, SQUALL_FRAME_BYTES);
    CHECK(squall_router_hear(opened, frames, len) == SQUALL_OK);
    CHECK(squall_router_gather_repair(opened, SQUALL_NO_LIMIT) == SQUALL_OK);
    CHECK(squall_router_done(opened, 1, 0, 4) == SQUALL_OK);
    CHECK(squall_router_opened(opened, 1, 0) == SQUALL_OK);
    return NULL;
}

/* What a router tells of its board and its course. */
static void *tell(void *unused) {
    (void)unused;
    squall_leg legs[4];
    squall_counts counts;
    CHECK(squall_router_route(opened, squall_rank(2, 0)) == 3);
    CHECK(squall_router_legs(opened, 0, SQUALL_TOP, legs, 4) == 4);
    CHECK(squall_router_clashed(opened) == 0);
    CHECK(squall_router_counts(opened, &counts, 1) == 1 && counts.spans == SPANS);
    CHECK(squall_router_status_text(opened, frames, SQUALL_FRAME_BYTES) > 0);
    CHECK(squall_router_picture(opened, frames, 0) > 0);
    CHECK(*squall_message(squall_router_status(opened)) != '\0');
    return NULL;
}

/* The calls of two views. Between them one key more was loaded. */
static void *compare(void *unused) {
    (void)unused;
    squall_view *view = room_for_view();
    squall_view *other = room_for_view();
    squall_errand *errand = (squall_errand *)room_of(squall_errand_size());
    const uint64_t rank = squall_rank(2, 2 * SPANS);
    uint32_t part;
    squall_leg legs[4];
    squall_span spans[4];
    squall_view_open(opened, view);
    squall_view_again(view, other);
    CHECK(squall_view_changes(view, other, 0, SQUALL_TOP, spans, 4) == 0);
    squall_view_close(other);
    CHECK(squall_router_loaded(opened, 1, 0, 3, rank, rank + 1) == SQUALL_OK);
    squall_view_open(opened, other);
    CHECK(squall_view_changes(view, other, 0, SQUALL_TOP, spans, 4) == 1);
    CHECK(squall_view_routes(other, &rank, 1, &part, 1) == 1 && part == 3);
    CHECK(squall_view_legs(other, 0, SQUALL_TOP, legs, 4) == 4);
    squall_errand_start_at(other, rank, errand);
    CHECK(squall_errand_heed(errand, SQUALL_HELD, 0, 0) == SQUALL_SERVED);
    squall_errand_close(errand);
    squall_view_close(other);
    squall_view_close(view);
    free(errand);
    free(other);
    free(view);
    return NULL;
}

static void *look(void *unused) {
    (void)unused;
    squall_view *view = room_for_view();
    squall_course *course = room_for_course();
    squall_errand *errand = (squall_errand *)room_of(squall_errand_size());
    const uint64_t rank = squall_rank(2, 0);
    squall_place place;
    squall_move moves[2];
    squall_leg legs[8];
    uint32_t parts[2];
    squall_view_open(opened, view);
    CHECK(squall_view_route(view, rank) == 3);
    CHECK(squall_view_locate(view, &rank, 1, &place, 1) == 1);
    squall_course_newest(opened, course);
    CHECK(squall_course_moves(course, 0, moves, 2) == 2);
    CHECK(squall_course_old(course, 0, legs, 8) == 4 && squall_course_new(course, 0, legs, 8) == 5);
    CHECK(squall_course_receivers(course, 0, 0, parts, 2) == 2);
    CHECK(squall_course_frame(course, frames, SQUALL_FRAME_BYTES) > 0);
    CHECK(squall_course_old_text(course, frames, SQUALL_FRAME_BYTES) > 0);
    CHECK(squall_course_new_text(course, frames, SQUALL_FRAME_BYTES) > 0);
    const squall_span loaded = {squall_rank(2, 0), squall_rank(2, 5)};
    CHECK(squall_course_left(course, &loaded, 1, frames, SQUALL_FRAME_BYTES) > 0);
    squall_errand_start(opened, rank, errand);
    CHECK(squall_errand_heed(errand, SQUALL_HELD, 0, 0) == SQUALL_SERVED);
    squall_errand_close(errand);
    squall_course_close(course);
    squall_view_close(view);
    free(errand);
    free(course);
    free(view);
    return NULL;
}

/* Each call of a partition, over a board of many spans. */
static void *hold(void *room) {
    squall_part *part = (squall_part *)room;
    uint8_t opening[24];
    squall_span spans[4];
    squall_answer answer;
    squall_chunk chunk = {squall_rank(2, 0), squall_rank(3, 0), 1, 0, 1, 3};
    CHECK(squall_router_gather_board(opened, SQUALL_NO_LIMIT) == SQUALL_OK);
    size_t len = squall_router_frame(opened, frames, SQUALL_FRAME_BYTES);
    CHECK(squall_part_feed(part, frames, len / 2) == SQUALL_OK);
    CHECK(squall_part_waiting(part) == len / 2);
    CHECK(squall_part_feed(part, frames + len / 2, len - len / 2) == SQUALL_OK);
    CHECK(squall_part_hear(part, frames, len) == SQUALL_OK);
    CHECK(squall_part_hear(part, opening, squall_frame_opened(1, 0, opening, sizeof opening))
          == SQUALL_OK);
    CHECK(squall_part_load(part, &chunk) == SQUALL_OK);
    CHECK(squall_part_finish(part, 0) == SQUALL_OK);
    for (uint32_t i = 0; i < SPANS / 10; i++) {
        CHECK(squall_part_give_at(part, squall_rank(6, 2 * i), &chunk) == SQUALL_OK);
    }
    CHECK(squall_part_give(part, UINT64_MAX, &chunk) == SQUALL_OK);
    CHECK(squall_part_close_course(part) == 1 && squall_part_course_closed(part, 1) == 1);
    CHECK(squall_part_serve(part, squall_rank(6, 0), 0, &answer) == SQUALL_OK);
    CHECK(squall_part_held(part, 0, spans, 4) == 4);
    CHECK(squall_part_given(part, 1, 0, spans, 4) == 4);
    CHECK(squall_part_loaded(part, 1, 0, spans, 4) == 1);
    CHECK(squall_part_gather_digest(part, SQUALL_NO_LIMIT) == SQUALL_OK);
    len = squall_part_frame(part, frames, SQUALL_FRAME_BYTES);
    CHECK(squall_part_hear(part, frames, len) == SQUALL_OK);
    CHECK(squall_part_gather_repair(part, SQUALL_NO_LIMIT) == SQUALL_OK);
    CHECK(squall_part_gather_board(part, SQUALL_NO_LIMIT) == SQUALL_OK);
    return NULL;
}

static void *opening_of_a_part(void *room) {
    squall_course *course = room_for_course();
    squall_course_first(opened, course);
    squall_part_open(3, course, (squall_part *)room);
    CHECK(squall_part_status((squall_part *)room) == SQUALL_OK);
    drop_course(course);
    return NULL;
}

/* A leader in the midst of the course hears all that the router knows. */
static void *lead(void *unused) {
    (void)unused;
    squall_course *course = room_for_course();
    squall_leader *leader = (squall_leader *)room_of(squall_leader_size());
    uint32_t out[2];
    squall_course_newest(opened, course);
    squall_leader_resume(course, leader);
    squall_course_close(course);
    CHECK(squall_router_gather_board(opened, SQUALL_NO_LIMIT) == SQUALL_OK);
    size_t len = squall_router_frame(opened, frames, SQUALL_FRAME_BYTES);
    CHECK(squall_leader_feed(leader, frames, len / 2) == SQUALL_OK);
    CHECK(squall_leader_waiting(leader) == len / 2);
    CHECK(squall_leader_feed(leader, frames + len / 2, len - len / 2) == SQUALL_OK);
    CHECK(squall_leader_hear(leader, frames, len) == SQUALL_OK);
    CHECK(squall_leader_open_next(leader, out, 2) == SQUALL_OK);
    CHECK(squall_leader_finished(leader) == 0);
    CHECK(squall_leader_gather_board(leader, SQUALL_NO_LIMIT) == SQUALL_OK);
    CHECK(squall_leader_gather_digest(leader, SQUALL_NO_LIMIT) == SQUALL_OK);
    len = squall_leader_frame(leader, frames, SQUALL_FRAME_BYTES);
    CHECK(squall_leader_hear(leader, frames, len) == SQUALL_OK);
    CHECK(squall_leader_gather_repair(leader, SQUALL_NO_LIMIT) == SQUALL_OK);
    squall_leader_course(leader, course);
    squall_course_close(course);
    squall_leader_close(leader);
    free(leader);
    free(course);
    return NULL;
}

static void calls_over_many_spans(void) {
    frames = (uint8_t *)room_of(SQUALL_FRAME_BYTES);
    opened = router_of(1, OLD, NEW);
    in_thread(OTHER_CALLS, take_and_tell);
    in_thread(OTHER_CALLS, tell);
    in_thread(OTHER_CALLS, look);
    in_thread(OTHER_CALLS, compare);
    squall_part *part = (squall_part *)room_of(squall_part_size());
    in_thread_with(OTHER_CALLS, opening_of_a_part, part);
    in_thread_with(OTHER_CALLS, hold, part);
    squall_part_close(part);
    free(part);
    in_thread(OTHER_CALLS, lead);
    drop_router(opened);
    free(frames);
}

static const struct test TESTS[] = {
    TEST(texts_that_nest),
    TEST(calls_over_many_spans),
};

int main(void) {
    return run_tests(TESTS, sizeof TESTS / sizeof TESTS[0]);
}
