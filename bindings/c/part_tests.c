/* Tests of partitions, with a heap of the host's own in the place of heap.c, so that each allocation of a
 * call can be refused. Expected values are worked out by hand from the plans of examples/. The last line
 * is `N passed, M failed`. */
#include "check.h"
#include "counting_heap.h"

/* ---- partitions of the course of the examples */

static const squall_chunk NO_CHUNK = {7, 7, 7, 7, 7, 7};
static const squall_answer NO_ANSWER = {7, 7, 7};

static squall_part *part_of(uint32_t id) {
    squall_course *course = course_of(1, OLD, NEW);
    squall_part *part = (squall_part *)room_of(squall_part_size());
    squall_part_open(id, course, part);
    drop_course(course);
    return part;
}

static void drop_part(squall_part *part) {
    squall_part_close(part);
    free(part);
}

/* The frame of the report that sub-plan 0 of course 1 is opened. */
static uint8_t opening[24];

static uint32_t hear_opening(squall_part *part) {
    return squall_part_hear(part, opening, sizeof opening);
}

static uint32_t feed_opening(squall_part *part) {
    return squall_part_feed(part, opening, sizeof opening);
}

/* A partition that has heard that sub-plan 0 is opened. */
static squall_part *open_part(uint32_t id) {
    squall_part *part = part_of(id);
    CHECK(hear_opening(part) == SQUALL_OK);
    return part;
}

static squall_chunk chunk_of(uint64_t lo, uint64_t hi) {
    squall_chunk chunk = {lo, hi, 1, 0, 1, 3};
    return chunk;
}

static bool is_chunk(squall_chunk one, squall_chunk other) {
    return memcmp(&one, &other, sizeof one) == 0;
}

static bool is_answer(squall_answer answer, uint32_t reply, uint32_t part, uint32_t number) {
    return answer.reply == reply && answer.part == part && answer.number == number;
}

/* ---- what they answer */

static void openings(void) {
    squall_part *part = part_of(1);
    squall_span spans[2];
    CHECK(squall_part_status(part) == SQUALL_OK);
    CHECK(squall_part_held(part, 0, spans, 2) == 1);
    CHECK(spans[0].lo == 0 && spans[0].hi == key(3));
    drop_part(part);
    part = part_of(9999);
    CHECK(squall_part_status(part) == SQUALL_OK);
    CHECK(squall_part_held(part, 0, spans, 2) == 0);
    drop_part(part);
    CHECK(blocks == 0);
}

/* Each call of what is no partition. */
static void has_no_partition(squall_part *part) {
    squall_chunk chunk = NO_CHUNK;
    squall_answer answer = NO_ANSWER;
    squall_span spans[1];
    uint8_t out[8];
    CHECK(hear_opening(part) == SQUALL_CLOSED);
    CHECK(feed_opening(part) == SQUALL_CLOSED);
    CHECK(squall_part_waiting(part) == 0);
    CHECK(squall_part_give(part, 1, &chunk) == SQUALL_CLOSED);
    CHECK(squall_part_give_at(part, 0, &chunk) == SQUALL_CLOSED);
    CHECK(is_chunk(chunk, NO_CHUNK));
    CHECK(squall_part_load(part, &chunk) == SQUALL_CLOSED);
    CHECK(squall_part_fresh(part, &chunk, 0, spans) == SQUALL_CLOSED);
    CHECK(squall_part_finish(part, 0) == SQUALL_CLOSED);
    CHECK(squall_part_close_course(part) == 0);
    CHECK(squall_part_course_closed(part, 0) == 0 && squall_part_course_closed(part, 1) == 0);
    CHECK(squall_part_serve(part, 0, 0, &answer) == SQUALL_CLOSED);
    CHECK(is_answer(answer, 7, 7, 7));
    CHECK(squall_part_held(part, 0, spans, 1) == 0);
    CHECK(squall_part_given(part, 1, 0, spans, 1) == 0);
    CHECK(squall_part_loaded(part, 1, 0, spans, 1) == 0);
    CHECK(squall_part_gather_board(part, SQUALL_NO_LIMIT) == SQUALL_CLOSED);
    CHECK(squall_part_gather_digest(part, SQUALL_NO_LIMIT) == SQUALL_CLOSED);
    CHECK(squall_part_gather_repair(part, SQUALL_NO_LIMIT) == SQUALL_CLOSED);
    CHECK(squall_part_frame(part, out, sizeof out) == 0);
}

static void partitions_that_are_none(void) {
    squall_part *part = part_of(10000);
    CHECK(squall_part_status(part) == SQUALL_LIMIT);
    has_no_partition(part);
    squall_part_close(part);
    squall_course *course = room_for_course();
    squall_course_open(0, bytes_of(""), 0, bytes_of(""), 0, course);
    squall_part_open(1, course, part);
    CHECK(squall_part_status(part) == SQUALL_CLOSED);
    has_no_partition(part);
    drop_part(part);
    drop_course(course);
    CHECK(blocks == 0);
}

static void gifts(void) {
    squall_part *part = part_of(1);
    squall_chunk chunk = NO_CHUNK;
    squall_span spans[2];
    CHECK(squall_part_give(part, 1, &chunk) == SQUALL_NOT_OPEN);
    CHECK(squall_part_give_at(part, key(2), &chunk) == SQUALL_NOT_OPEN);
    CHECK(hear_opening(part) == SQUALL_OK);
    CHECK(squall_part_give(part, 0, &chunk) == SQUALL_ZERO_MAX);
    CHECK(squall_part_give_at(part, SQUALL_TOP, &chunk) == SQUALL_LIMIT);
    CHECK(squall_part_give_at(part, 0, &chunk) == SQUALL_NOT_OUTGOING);
    CHECK(is_chunk(chunk, NO_CHUNK));
    CHECK(squall_part_give_at(part, key(2) + 1, &chunk) == SQUALL_OK);
    CHECK(is_chunk(chunk, chunk_of(key(2) + 1, key(2) + 2)));
    CHECK(squall_part_give_at(part, key(2) + 1, &chunk) == SQUALL_GIVEN);
    CHECK(squall_part_give(part, 9, &chunk) == SQUALL_OK);
    CHECK(is_chunk(chunk, chunk_of(key(2), key(2) + 1)));
    CHECK(squall_part_give(part, UINT64_MAX, &chunk) == SQUALL_OK);
    CHECK(is_chunk(chunk, chunk_of(key(2) + 2, key(3))));
    CHECK(squall_part_give(part, 1, &chunk) == SQUALL_NOTHING_LEFT);
    CHECK(squall_part_held(part, 0, spans, 2) == 1);
    CHECK(spans[0].lo == 0 && spans[0].hi == key(2));
    CHECK(squall_part_given(part, 1, 0, spans, 2) == 1);
    CHECK(spans[0].lo == key(2) && spans[0].hi == key(3));
    CHECK(squall_part_given(part, 1, 1, spans, 2) == 0 && squall_part_given(part, 2, 0, spans, 2) == 0);
    drop_part(part);
    CHECK(blocks == 0);
}

/* The rows of a chunk that overlaps another go in place for its new keys alone. */
static void chunks_have_new_keys(void) {
    squall_part *part = part_of(3);
    squall_chunk whole = chunk_of(key(2), key(3));
    squall_chunk middle = chunk_of(key(2) + 5, key(2) + 9);
    squall_chunk other = chunk_of(key(2), key(3) + 1);
    squall_span span = {7, 8};
    CHECK(squall_part_fresh(part, &whole, 0, &span) == SQUALL_NOT_OPEN);
    CHECK(hear_opening(part) == SQUALL_OK);
    CHECK(squall_part_fresh(part, &other, 0, &span) == SQUALL_STRANGER);
    CHECK(squall_part_fresh(part, &NO_CHUNK, 0, &span) == SQUALL_LIMIT);
    CHECK(squall_part_fresh(part, &whole, SQUALL_TOP + 1, &span) == SQUALL_LIMIT);
    CHECK(span.lo == 7 && span.hi == 8);
    CHECK(squall_part_load(part, &middle) == SQUALL_OK);
    CHECK(squall_part_fresh(part, &whole, 0, &span) == SQUALL_OK);
    CHECK(span.lo == key(2) && span.hi == key(2) + 5);
    CHECK(squall_part_fresh(part, &whole, span.hi, &span) == SQUALL_OK);
    CHECK(span.lo == key(2) + 9 && span.hi == key(3));
    CHECK(squall_part_fresh(part, &whole, span.hi, &span) == SQUALL_OK && span.lo == span.hi);
    CHECK(squall_part_fresh(part, &middle, 0, &span) == SQUALL_OK && span.lo == span.hi);
    drop_part(part);
    CHECK(blocks == 0);
}

static void loads(void) {
    squall_part *part = part_of(3);
    squall_chunk chunk = chunk_of(key(2), key(3));
    squall_chunk other = chunk_of(key(2), key(3) + 1);
    squall_span spans[2];
    CHECK(squall_part_load(part, &chunk) == SQUALL_NOT_OPEN);
    CHECK(squall_part_finish(part, 0) == SQUALL_NOT_OPEN);
    CHECK(hear_opening(part) == SQUALL_OK);
    CHECK(squall_part_finish(part, 0) == SQUALL_NOT_ALL);
    CHECK(squall_part_load(part, &other) == SQUALL_STRANGER);
    CHECK(squall_part_load(part, &NO_CHUNK) == SQUALL_LIMIT);
    squall_chunk strangers[] = {chunk, chunk};
    strangers[0].number = 2;
    strangers[1].source = 2;
    CHECK(squall_part_load(part, &strangers[0]) == SQUALL_STRANGER);
    CHECK(squall_part_load(part, &strangers[1]) == SQUALL_STRANGER);
    CHECK(squall_part_held(part, 0, spans, 2) == 1 && spans[0].lo == key(5));
    CHECK(squall_part_load(part, &chunk) == SQUALL_OK);
    CHECK(squall_part_load(part, &chunk) == SQUALL_LOADED_BEFORE);
    CHECK(squall_part_fresh(part, &chunk, 0, spans) == SQUALL_OK && spans[0].lo == spans[0].hi);
    CHECK(squall_part_finish(part, 0) == SQUALL_OK);
    CHECK(squall_part_finish(part, 0) == SQUALL_OK);
    CHECK(squall_part_held(part, 0, spans, 2) == 2);
    CHECK(spans[0].lo == key(2) && spans[1].lo == key(5) && spans[1].hi == key(9));
    CHECK(squall_part_loaded(part, 1, 0, spans, 2) == 1 && spans[0].hi == key(3));
    drop_part(part);
    part = open_part(2);
    CHECK(squall_part_finish(part, 0) == SQUALL_NOTHING_DUE);
    drop_part(part);
    CHECK(blocks == 0);
}

/* A chunk has a number above 0, and a sub-plan up to 9999. The second one's sub-plan is not opened. */
static void chunks_have_limits(void) {
    squall_part *part = open_part(3);
    squall_chunk chunk = chunk_of(key(2), key(2) + 1);
    chunk.number = 0;
    CHECK(squall_part_load(part, &chunk) == SQUALL_LIMIT);
    chunk.number = 1;
    chunk.sub = 10000;
    CHECK(squall_part_load(part, &chunk) == SQUALL_LIMIT);
    chunk.sub = 9999;
    CHECK(squall_part_load(part, &chunk) == SQUALL_NOT_OPEN);
    chunk.sub = 1;
    CHECK(squall_part_load(part, &chunk) == SQUALL_NOT_OPEN);
    drop_part(part);
    CHECK(blocks == 0);
}

static bool serves(const squall_part *part, uint32_t after, uint32_t reply, uint32_t named, uint32_t number) {
    squall_answer answer = NO_ANSWER;
    return squall_part_serve(part, key(2), after, &answer) == SQUALL_OK && is_answer(answer, reply, named, number);
}

/* The partition hears of the way back, course 2, and that its sub-plan 0 is opened. */
static void hear_way_back(squall_part *part) {
    uint8_t frame[512];
    size_t len = frame_of_course(2, NEW, OLD, frame, sizeof frame);
    CHECK(squall_part_hear(part, frame, len) == SQUALL_OK);
    len = squall_frame_opened(2, 0, frame, sizeof frame);
    CHECK(squall_part_hear(part, frame, len) == SQUALL_OK);
}

/* Of a number that it has not heard of, a partition knows nothing. */
static void a_later_number_is_awaited(void) {
    squall_part *part = open_part(1);
    squall_chunk chunk;
    CHECK(serves(part, 0, SQUALL_HELD, 0, 0));
    CHECK(squall_part_give_at(part, key(2), &chunk) == SQUALL_OK);
    CHECK(is_chunk(chunk, chunk_of(key(2), key(2) + 1)));
    CHECK(serves(part, 0, SQUALL_MOVED, 3, 1) && serves(part, 2, SQUALL_BEHIND, 0, 0));
    hear_way_back(part);
    CHECK(serves(part, 2, SQUALL_PENDING, 3, 0));
    drop_part(part);
    CHECK(blocks == 0);
}

/* Keys come and go back, and a repeat brings nothing back. */
static void keys_go_back(void) {
    squall_part *part = open_part(3);
    squall_chunk chunk = chunk_of(key(2), key(3));
    squall_chunk first = chunk_of(key(2), key(2) + 1);
    const squall_chunk back = {key(2), key(2) + 1, 2, 0, 3, 1};
    squall_chunk given;
    squall_span spans[3];
    CHECK(squall_part_load(part, &chunk) == SQUALL_OK && squall_part_finish(part, 0) == SQUALL_OK);
    hear_way_back(part);
    CHECK(squall_part_give(part, 1, &given) == SQUALL_OK && is_chunk(given, back));
    CHECK(serves(part, 0, SQUALL_MOVED, 1, 2));
    CHECK(squall_part_load(part, &first) == SQUALL_LOADED_BEFORE);
    CHECK(squall_part_held(part, 0, spans, 3) == 2);
    CHECK(spans[0].lo == key(2) + 1 && spans[0].hi == key(3) && spans[1].lo == key(5) && spans[1].hi == key(9));
    CHECK(squall_part_given(part, 1, 0, spans, 3) == 0);
    CHECK(squall_part_loaded(part, 1, 0, spans, 3) == 1 && spans[0].lo == key(2) && spans[0].hi == key(3));
    CHECK(squall_part_given(part, 2, 0, spans, 3) == 1 && spans[0].lo == key(2) && spans[0].hi == key(2) + 1);
    CHECK(squall_part_loaded(part, 2, 0, spans, 3) == 0);
    drop_part(part);
    CHECK(blocks == 0);
}

/* Once the course is closed nothing is given in it, whatever else is so. What comes in is loaded as before. */
static void a_course_is_closed(void) {
    squall_part *part = open_part(3);
    squall_chunk chunk = NO_CHUNK;
    squall_chunk whole = chunk_of(key(2), key(3));
    squall_span spans[3];
    CHECK(squall_part_course_closed(part, 1) == 0);
    CHECK(squall_part_give_at(part, key(6), &chunk) == SQUALL_OK);
    chunk = NO_CHUNK;
    CHECK(squall_part_close_course(part) == 1);
    for (int repeat = 0; repeat < 2; repeat++) {
        CHECK(squall_part_course_closed(part, 1) == 1);
        CHECK(squall_part_course_closed(part, 0) == 0 && squall_part_course_closed(part, 2) == 0);
        CHECK(squall_part_give(part, 1, &chunk) == SQUALL_ENDED);
        CHECK(squall_part_give(part, 0, &chunk) == SQUALL_ENDED);
        CHECK(squall_part_give_at(part, key(7), &chunk) == SQUALL_ENDED);
        CHECK(squall_part_give_at(part, key(6), &chunk) == SQUALL_ENDED);
        CHECK(squall_part_give_at(part, key(5), &chunk) == SQUALL_ENDED);
        CHECK(squall_part_give_at(part, SQUALL_TOP, &chunk) == SQUALL_LIMIT);
        CHECK(is_chunk(chunk, NO_CHUNK));
        CHECK(squall_part_close_course(part) == 1);
    }
    CHECK(squall_part_load(part, &whole) == SQUALL_OK && squall_part_finish(part, 0) == SQUALL_OK);
    CHECK(squall_part_held(part, 0, spans, 3) == 3);
    CHECK(spans[0].lo == key(2) && spans[1].hi == key(6) && spans[2].lo == key(6) + 1 && spans[2].hi == key(9));
    CHECK(squall_part_given(part, 1, 0, spans, 3) == 1 && spans[0].lo == key(6) && spans[0].hi == key(6) + 1);
    drop_part(part);
    CHECK(blocks == 0);
}

/* A course may be closed before its sub-plan is opened: a gift is answered that it has ended, and a load that
 * nothing is opened. */
static void a_course_is_closed_before_it_opens(void) {
    squall_part *part = part_of(3);
    squall_chunk chunk = NO_CHUNK;
    squall_chunk whole = chunk_of(key(2), key(3));
    CHECK(squall_part_close_course(part) == 1);
    CHECK(squall_part_give(part, 1, &chunk) == SQUALL_ENDED);
    CHECK(squall_part_give_at(part, key(6), &chunk) == SQUALL_ENDED);
    CHECK(squall_part_load(part, &whole) == SQUALL_NOT_OPEN);
    CHECK(hear_opening(part) == SQUALL_OK);
    CHECK(squall_part_give(part, 1, &chunk) == SQUALL_ENDED);
    CHECK(is_chunk(chunk, NO_CHUNK));
    CHECK(squall_part_load(part, &whole) == SQUALL_OK);
    drop_part(part);
    CHECK(blocks == 0);
}

/* In a newer course it gives again, until that is closed too. */
static void a_newer_course_is_not_closed(void) {
    squall_part *part = open_part(3);
    squall_chunk chunk = chunk_of(key(2), key(3));
    const squall_chunk back = {key(2), key(2) + 1, 2, 0, 3, 1};
    CHECK(squall_part_load(part, &chunk) == SQUALL_OK && squall_part_close_course(part) == 1);
    hear_way_back(part);
    CHECK(squall_part_course_closed(part, 1) == 1 && squall_part_course_closed(part, 2) == 0);
    CHECK(squall_part_give(part, 1, &chunk) == SQUALL_OK && is_chunk(chunk, back));
    CHECK(squall_part_close_course(part) == 2);
    CHECK(squall_part_course_closed(part, 1) == 1 && squall_part_course_closed(part, 2) == 1);
    CHECK(squall_part_give(part, 1, &chunk) == SQUALL_ENDED && is_chunk(chunk, back));
    drop_part(part);
    CHECK(blocks == 0);
}

/* What was not loaded before its key is to go back is not held. */
static void keys_that_never_came(void) {
    squall_part *part = part_of(3);
    squall_chunk chunk = NO_CHUNK;
    squall_span spans[2];
    hear_way_back(part);
    CHECK(squall_part_give_at(part, key(2), &chunk) == SQUALL_NOT_HELD);
    CHECK(is_chunk(chunk, NO_CHUNK));
    CHECK(squall_part_held(part, 0, spans, 2) == 1 && spans[0].lo == key(5) && spans[0].hi == key(9));
    drop_part(part);
    CHECK(blocks == 0);
}

/* The board of a partition that is done has its load and that it is done. */
static void what_a_partition_tells(void) {
    squall_part *part = open_part(3);
    squall_router *router = router_of(1, OLD, NEW);
    squall_chunk chunk = chunk_of(key(2), key(3));
    uint8_t one[1024];
    uint8_t other[1024];
    CHECK(squall_part_load(part, &chunk) == SQUALL_OK && squall_part_finish(part, 0) == SQUALL_OK);
    CHECK(squall_router_opened(router, 1, 0) == SQUALL_OK && squall_router_done(router, 1, 0, 3) == SQUALL_OK);
    CHECK(squall_router_loaded(router, 1, 0, 3, key(2), key(3)) == SQUALL_OK);
    CHECK(squall_part_gather_board(part, SQUALL_NO_LIMIT) == SQUALL_OK);
    CHECK(squall_router_gather_board(router, SQUALL_NO_LIMIT) == SQUALL_OK);
    size_t len = squall_part_frame(part, one, sizeof one);
    CHECK(len != 0 && squall_router_frame(router, other, sizeof other) == len && memcmp(one, other, len) == 0);
    CHECK(squall_part_frame(part, one, sizeof one) == 0 && squall_router_frame(router, other, sizeof other) == 0);
    drop_router(router);
    drop_part(part);
    CHECK(blocks == 0);
}

/* An errand follows the replies of partitions to a key that moves. */
static void replies_for_errands(void) {
    squall_part *source = open_part(1);
    squall_part *dest = open_part(3);
    squall_router *router = router_of(1, OLD, NEW);
    squall_errand *errand = (squall_errand *)room_of(squall_errand_size());
    squall_answer answer = NO_ANSWER;
    squall_chunk chunk;
    CHECK(squall_part_serve(source, SQUALL_TOP, 0, &answer) == SQUALL_LIMIT);
    CHECK(is_answer(answer, 7, 7, 7));
    CHECK(squall_part_give(source, UINT64_MAX, &chunk) == SQUALL_OK);
    squall_errand_start(router, key(2), errand);
    CHECK(squall_errand_asked(errand) == 1);
    CHECK(squall_part_serve(source, key(2), 0, &answer) == SQUALL_OK);
    CHECK(is_answer(answer, SQUALL_MOVED, 3, 1));
    CHECK(squall_errand_heed(errand, answer.reply, answer.part, answer.number) == SQUALL_ASK);
    CHECK(squall_part_serve(dest, key(2), squall_errand_number(errand), &answer) == SQUALL_OK);
    CHECK(is_answer(answer, SQUALL_PENDING, 1, 0));
    CHECK(squall_errand_heed(errand, answer.reply, answer.part, answer.number) == SQUALL_AGAIN);
    CHECK(squall_part_load(dest, &chunk) == SQUALL_OK);
    CHECK(squall_part_serve(dest, key(2), squall_errand_number(errand), &answer) == SQUALL_OK);
    CHECK(is_answer(answer, SQUALL_HELD, 0, 0));
    CHECK(squall_errand_heed(errand, answer.reply, answer.part, answer.number) == SQUALL_SERVED);
    CHECK(squall_part_serve(source, key(9), 0, &answer) == SQUALL_OK);
    CHECK(is_answer(answer, SQUALL_ELSEWHERE, 4, 0));
    squall_errand_close(errand);
    free(errand);
    drop_router(router);
    drop_part(source);
    drop_part(dest);
    CHECK(blocks == 0);
}

/* What one partition reports reaches another one, and a router, in frames. */
static void frames(void) {
    squall_part *one = open_part(3);
    squall_part *other = part_of(1);
    squall_router *router = router_of(1, OLD, NEW);
    squall_chunk chunk = chunk_of(key(2), key(3));
    uint8_t out[1024];
    CHECK(squall_part_gather_repair(one, SQUALL_NO_LIMIT) == SQUALL_NO_DIGEST);
    CHECK(squall_part_load(one, &chunk) == SQUALL_OK);
    CHECK(squall_part_gather_digest(other, SQUALL_NO_LIMIT) == SQUALL_OK);
    size_t len = squall_part_frame(other, out, sizeof out);
    CHECK(squall_part_hear(one, out, len) == SQUALL_OK);
    CHECK(squall_part_gather_repair(one, SQUALL_NO_LIMIT) == SQUALL_OK);
    len = squall_part_frame(one, out, 1);
    CHECK(len > 1 && squall_part_frame(one, out, sizeof out) == len);
    CHECK(squall_part_frame(one, out, sizeof out) == 0);
    CHECK(squall_router_route(router, key(2)) == 1);
    CHECK(squall_router_hear(router, out, len) == SQUALL_OK);
    CHECK(squall_router_route(router, key(2)) == 3);
    CHECK(squall_part_hear(other, out, len) == SQUALL_OK);
    CHECK(squall_part_give(other, 1, &chunk) == SQUALL_OK);
    CHECK(squall_part_hear(other, out, len - 1) == SQUALL_FRAME_SHORT);
    CHECK(squall_part_gather_board(one, SQUALL_NO_LIMIT) == SQUALL_OK);
    CHECK(squall_part_frame(one, out, sizeof out) == len);
    drop_router(router);
    drop_part(one);
    drop_part(other);
    CHECK(blocks == 0);
}

/* A digest of an opening and a row has 64 bytes, and a load has 49. What waited waits on after a limit that is too
 * low. */
static void frames_within_a_limit(void) {
    squall_part *part = open_part(3);
    squall_chunk chunk = chunk_of(key(2), key(3));
    uint8_t out[1024];
    CHECK(squall_part_load(part, &chunk) == SQUALL_OK);
    CHECK(squall_part_gather_board(part, SQUALL_NO_LIMIT) == SQUALL_OK);
    size_t len = squall_part_frame(part, out, 0);
    CHECK(squall_part_gather_board(part, 48) == SQUALL_TOO_LONG);
    CHECK(squall_part_gather_digest(part, 63) == SQUALL_TOO_LONG);
    CHECK(squall_part_frame(part, out, sizeof out) == len);
    CHECK(squall_part_gather_board(part, len) == SQUALL_OK);
    CHECK(squall_part_frame(part, out, sizeof out) == len);
    drop_part(part);
    CHECK(blocks == 0);
}

/* ---- streams of frames */

static const uint8_t EMPTY_DIGEST[] = {0x53, 0x51, 1, 2, 0, 0, 0, 8, 0, 0, 0, 0, 0, 0, 0, 0};
static const uint8_t EMPTY_DELTA[] = {0x53, 0x51, 1, 1, 0, 0, 0, 8, 0, 0, 0, 0, 0, 0, 0, 0};

/* An opening and a digest in three pieces, cut anywhere: what is told does not depend on where. */
static void frames_cut_anywhere(void) {
    uint8_t stream[sizeof opening + sizeof EMPTY_DIGEST];
    memcpy(stream, opening, sizeof opening);
    memcpy(stream + sizeof opening, EMPTY_DIGEST, sizeof EMPTY_DIGEST);
    for (size_t cut = 0; cut <= sizeof stream; cut++) {
        for (size_t next = cut; next <= sizeof stream; next++) {
            squall_part *part = part_of(1);
            squall_chunk chunk;
            CHECK(squall_part_feed(part, stream, cut) == SQUALL_OK);
            CHECK(squall_part_feed(part, stream + cut, next - cut) == SQUALL_OK);
            CHECK(squall_part_give(part, 1, &chunk)
                  == (next < sizeof opening ? SQUALL_NOT_OPEN : SQUALL_OK));
            CHECK(squall_part_gather_repair(part, SQUALL_NO_LIMIT)
                  == (next < sizeof stream ? SQUALL_NO_DIGEST : SQUALL_OK));
            CHECK(squall_part_feed(part, stream + next, sizeof stream - next) == SQUALL_OK);
            CHECK(squall_part_gather_repair(part, SQUALL_NO_LIMIT) == SQUALL_OK);
            CHECK(squall_part_give(part, 1, &chunk) == SQUALL_OK);
            drop_part(part);
        }
    }
    CHECK(blocks == 0);
}

/* A fault ends the stream after the messages before it, and whole frames are still heard. */
static void a_fault_in_a_stream(void) {
    squall_part *part = part_of(1);
    uint8_t stream[sizeof opening + 2] = {0};
    squall_chunk chunk;
    memcpy(stream, opening, sizeof opening);
    CHECK(squall_part_feed(part, stream, sizeof stream) == SQUALL_FRAME_MAGIC);
    CHECK(squall_part_waiting(part) == 0);
    CHECK(squall_part_give(part, 1, &chunk) == SQUALL_OK);
    CHECK(squall_part_feed(part, EMPTY_DELTA, sizeof EMPTY_DELTA) == SQUALL_FAILED);
    CHECK(squall_part_feed(part, EMPTY_DELTA, 0) == SQUALL_FAILED);
    CHECK(squall_part_hear(part, EMPTY_DIGEST, sizeof EMPTY_DIGEST) == SQUALL_OK);
    CHECK(squall_part_gather_repair(part, SQUALL_NO_LIMIT) == SQUALL_OK);
    drop_part(part);
    CHECK(blocks == 0);
}

/* What waits of a stream waits on while a whole frame is heard. */
static void a_frame_beside_a_stream(void) {
    squall_part *part = part_of(1);
    squall_chunk chunk;
    CHECK(squall_part_feed(part, opening, 3) == SQUALL_OK);
    CHECK(squall_part_hear(part, EMPTY_DIGEST, sizeof EMPTY_DIGEST) == SQUALL_OK);
    CHECK(squall_part_hear(part, EMPTY_DIGEST, 3) == SQUALL_FRAME_SHORT);
    CHECK(squall_part_waiting(part) == 3);
    CHECK(squall_part_feed(part, opening + 3, sizeof opening - 3) == SQUALL_OK);
    CHECK(squall_part_waiting(part) == 0);
    CHECK(squall_part_give(part, 1, &chunk) == SQUALL_OK);
    CHECK(squall_part_gather_repair(part, SQUALL_NO_LIMIT) == SQUALL_OK);
    drop_part(part);
    CHECK(blocks == 0);
}

/* ---- allocations that are refused */

static uint32_t give_some(squall_part *part) {
    squall_chunk chunk;
    return squall_part_give(part, 2, &chunk);
}

static uint32_t give_one(squall_part *part) {
    squall_chunk chunk;
    return squall_part_give_at(part, key(6) + 2, &chunk);
}

static uint32_t load_some(squall_part *part) {
    squall_chunk chunk = chunk_of(key(2) + 9, key(3));
    return squall_part_load(part, &chunk);
}

static uint32_t find_fresh(squall_part *part) {
    squall_chunk chunk = chunk_of(key(2), key(3));
    squall_span span;
    return squall_part_fresh(part, &chunk, 0, &span);
}

static uint32_t load_all(squall_part *part) {
    squall_chunk chunk = chunk_of(key(2), key(3));
    return squall_part_load(part, &chunk);
}

static uint32_t give_all(squall_part *part) {
    squall_chunk chunk;
    return squall_part_give(part, UINT64_MAX, &chunk);
}

static uint32_t give_first(squall_part *part) {
    squall_chunk chunk;
    return squall_part_give_at(part, key(2), &chunk);
}

static uint32_t finish(squall_part *part) {
    return squall_part_finish(part, 0);
}

/* The frame of the way back, course 2, which is made before any allocation is refused. */
static uint8_t way_back[512];
static size_t way_back_len;

static void make_way_back(void) {
    way_back_len = frame_of_course(2, NEW, OLD, way_back, sizeof way_back);
}

static uint32_t turn(squall_part *part) {
    return squall_part_hear(part, way_back, way_back_len);
}

static uint32_t gather_board(squall_part *part) {
    return squall_part_gather_board(part, SQUALL_NO_LIMIT);
}

static uint32_t gather_digest(squall_part *part) {
    return squall_part_gather_digest(part, SQUALL_NO_LIMIT);
}

static uint32_t hear_digest(squall_part *part) {
    return squall_part_hear(part, EMPTY_DIGEST, sizeof EMPTY_DIGEST);
}

static uint32_t gather_repair(squall_part *part) {
    return squall_part_gather_repair(part, SQUALL_NO_LIMIT);
}

/* Partitions of which something is asked then. */
static squall_part *source(void) {
    return part_of(1);
}

static squall_part *open_source(void) {
    return open_part(1);
}

static squall_part *open_dest(void) {
    return open_part(3);
}

static squall_part *full_dest(void) {
    squall_part *part = open_part(3);
    CHECK(load_all(part) == SQUALL_OK && hear_digest(part) == SQUALL_OK);
    return part;
}

enum { MANY = 300, SPANS = 512 };

/* A source that gave each second one of so many keys: what it holds and gave has several blocks of spans. */
static squall_part *scattered_source(void) {
    squall_part *part = open_part(1);
    squall_chunk chunk;
    for (uint32_t i = 0; i < MANY; i++) {
        CHECK(squall_part_give_at(part, squall_rank(2, 2 * i + 1), &chunk) == SQUALL_OK);
    }
    return part;
}

/* A destination that loaded each second one of so many keys. */
static squall_part *scattered_dest(void) {
    squall_part *part = open_part(3);
    for (uint32_t i = 0; i < MANY; i++) {
        squall_chunk chunk = chunk_of(squall_rank(2, 2 * i + 1), squall_rank(2, 2 * i + 2));
        CHECK(squall_part_load(part, &chunk) == SQUALL_OK);
    }
    return part;
}

static uint32_t give_between(squall_part *part) {
    squall_chunk chunk;
    return squall_part_give_at(part, squall_rank(2, MANY), &chunk);
}

/* A chunk of a hundred keys, of which each second one was loaded before. */
static uint32_t load_over_many(squall_part *part) {
    squall_chunk chunk = chunk_of(squall_rank(2, MANY), squall_rank(2, MANY + 100));
    return squall_part_load(part, &chunk);
}

/* What a caller can see: the frame that waits, that of the board, and which keys the partition holds, and gave and
 * loaded in courses 1 and 2. */
struct seen {
    size_t waits;
    size_t len;
    uint8_t board[16384];
    squall_span spans[5][SPANS];
    size_t counts[5];
    uint32_t closed;
};

static struct seen before;
static struct seen after;

static void see(squall_part *part, struct seen *seen) {
    memset(seen, 0, sizeof *seen);
    seen->waits = squall_part_frame(part, seen->board, sizeof seen->board);
    CHECK(gather_board(part) == SQUALL_OK);
    seen->len = squall_part_frame(part, seen->board, sizeof seen->board);
    CHECK(gather_board(part) == SQUALL_OK);
    seen->counts[0] = squall_part_held(part, 0, seen->spans[0], SPANS);
    for (uint32_t number = 1; number <= 2; number++) {
        seen->counts[number] = squall_part_given(part, number, 0, seen->spans[number], SPANS);
        seen->counts[number + 2] = squall_part_loaded(part, number, 0, seen->spans[number + 2], SPANS);
    }
    seen->closed = squall_part_course_closed(part, 1);
    CHECK(seen->len <= sizeof seen->board && seen->counts[0] < SPANS);
}

/* How often the test that runs now was answered SQUALL_NO_MEMORY. */
static int answered;

typedef squall_part *part_maker(void);
typedef uint32_t part_call(squall_part *part);

/* The call with the allocation of that number refused; whether it made so many. */
static bool refuse_one(long number, part_maker *made, part_call *call) {
    squall_part *part = made();
    CHECK(gather_board(part) == SQUALL_OK);
    see(part, &before);
    asked = 0;
    refused = number;
    uint32_t status = call(part);
    bool was_refused = asked >= number;
    refused = 0;
    CHECK(status == SQUALL_OK || (was_refused && status == SQUALL_NO_MEMORY));
    if (status == SQUALL_NO_MEMORY) {
        answered++;
        see(part, &after);
        CHECK(memcmp(&before, &after, sizeof before) == 0);
        CHECK(call(part) == SQUALL_OK);
    }
    drop_part(part);
    CHECK(blocks == 0);
    return was_refused;
}

static void refuse_each(part_maker *made, part_call *call) {
    long number = 1;
    answered = 0;
    while (refuse_one(number, made, call)) {
        number++;
    }
    CHECK(answered > 0);
}

enum { PIECE = 7 };

/* The opening in pieces with the allocation of that number refused. The piece that is not taken comes
 * again. Whether the calls made so many. */
static bool refuse_in_pieces(long number) {
    squall_part *part = part_of(1);
    squall_chunk chunk;
    asked = 0;
    refused = number;
    for (size_t at = 0; at < sizeof opening; at += PIECE) {
        size_t len = at + PIECE < sizeof opening ? PIECE : sizeof opening - at;
        uint32_t status = squall_part_feed(part, opening + at, len);
        CHECK(status == SQUALL_OK || (asked >= number && status == SQUALL_NO_MEMORY));
        if (status == SQUALL_NO_MEMORY) {
            answered++;
            CHECK(squall_part_give(part, 1, &chunk) == SQUALL_NOT_OPEN);
            CHECK(squall_part_feed(part, opening + at, len) == SQUALL_OK);
        }
    }
    bool was_refused = asked >= number;
    refused = 0;
    CHECK(squall_part_give(part, 1, &chunk) == SQUALL_OK);
    drop_part(part);
    CHECK(blocks == 0);
    return was_refused;
}

static void refused_pieces(void) {
    long number = 1;
    answered = 0;
    while (refuse_in_pieces(number)) {
        number++;
    }
    CHECK(answered > 0);
}

static void refused_allocations(void) {
    make_way_back();
    refuse_each(source, hear_opening);
    refuse_each(source, feed_opening);
    refuse_each(source, turn);
    refuse_each(open_dest, turn);
    refuse_each(open_source, give_all);
    refuse_each(open_source, give_first);
    refuse_each(open_dest, give_some);
    refuse_each(open_dest, give_one);
    refuse_each(open_dest, load_some);
    refuse_each(open_dest, load_all);
    refuse_each(open_dest, find_fresh);
    refuse_each(full_dest, finish);
    refuse_each(open_dest, gather_board);
    refuse_each(open_dest, gather_digest);
    refuse_each(full_dest, gather_repair);
    refuse_each(scattered_source, give_between);
    refuse_each(scattered_source, give_some);
    refuse_each(scattered_dest, load_over_many);
}

/* The opening with the allocation of that number refused; whether it made so many. */
static bool refuse_in_opening(const squall_course *course, squall_part *part, long number) {
    squall_span spans[2];
    asked = 0;
    refused = number;
    squall_part_open(1, course, part);
    bool was_refused = asked >= number;
    refused = 0;
    uint32_t status = squall_part_status(part);
    CHECK(status == SQUALL_OK || (was_refused && status == SQUALL_NO_MEMORY));
    CHECK(squall_part_held(part, 0, spans, 2) == (status == SQUALL_OK ? 1 : 0));
    CHECK(status != SQUALL_OK || (spans[0].lo == 0 && spans[0].hi == key(3)));
    CHECK(squall_course_number(course) == 1);
    squall_part_close(part);
    return was_refused;
}

static void refused_openings(void) {
    squall_course *course = course_of(1, OLD, NEW);
    squall_part *part = (squall_part *)room_of(squall_part_size());
    long before = blocks;
    long number = 1;
    while (refuse_in_opening(course, part, number)) {
        CHECK(blocks == before);
        number++;
    }
    CHECK(number > 1);
    free(part);
    drop_course(course);
    CHECK(blocks == 0);
}

/* What the header says of each call that allocates nothing. */
static void calls_that_allocate_nothing(void) {
    squall_part *part = open_part(3);
    squall_answer answer;
    squall_span spans[2];
    uint8_t out[1024];
    CHECK(squall_part_gather_board(part, SQUALL_NO_LIMIT) == SQUALL_OK);
    asked = 0;
    CHECK(squall_part_serve(part, key(5), 0, &answer) == SQUALL_OK);
    CHECK(squall_part_held(part, 0, spans, 2) == 1 && squall_part_given(part, 1, 0, spans, 2) == 0);
    CHECK(squall_part_loaded(part, 1, 0, spans, 2) == 0);
    CHECK(squall_part_course_closed(part, 1) == 0);
    CHECK(squall_part_close_course(part) == 1);
    CHECK(squall_part_course_closed(part, 1) == 1);
    CHECK(squall_part_frame(part, out, sizeof out) != 0);
    CHECK(asked == 0);
    drop_part(part);
    CHECK(blocks == 0);
}

static const struct test TESTS[] = {
    TEST(openings),
    TEST(partitions_that_are_none),
    TEST(gifts),
    TEST(loads),
    TEST(chunks_have_new_keys),
    TEST(chunks_have_limits),
    TEST(a_later_number_is_awaited),
    TEST(keys_go_back),
    TEST(a_course_is_closed),
    TEST(a_course_is_closed_before_it_opens),
    TEST(a_newer_course_is_not_closed),
    TEST(keys_that_never_came),
    TEST(what_a_partition_tells),
    TEST(replies_for_errands),
    TEST(frames),
    TEST(frames_within_a_limit),
    TEST(frames_cut_anywhere),
    TEST(a_fault_in_a_stream),
    TEST(a_frame_beside_a_stream),
    TEST(refused_allocations),
    TEST(refused_pieces),
    TEST(refused_openings),
    TEST(calls_that_allocate_nothing),
};

int main(void) {
    CHECK(squall_frame_opened(1, 0, opening, sizeof opening) == sizeof opening);
    return run_tests(TESTS, sizeof TESTS / sizeof TESTS[0]);
}
