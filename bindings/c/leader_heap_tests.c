/* Tests of leaders with a heap of the host's own in the place of heap.c: each call once for each
 * allocation that it makes, with that one refused. The call then answers SQUALL_NO_MEMORY, nothing has
 * changed, and the same call succeeds afterwards. At the end each block was freed. The last line is
 * `N passed, M failed`. */
#include "check.h"
#include "counting_heap.h"

/* ---- leaders */

static const uint8_t EMPTY_DIGEST[] = {0x53, 0x51, 1, 2, 0, 0, 0, 8, 0, 0, 0, 0, 0, 0, 0, 0};

static squall_leader *leader_of(const char *plan, uint32_t last) {
    squall_leader *leader = (squall_leader *)room_of(squall_leader_size());
    squall_leader_open(bytes_of(plan), strlen(plan), last, leader);
    return leader;
}

static void drop_leader(squall_leader *leader) {
    squall_leader_close(leader);
    free(leader);
}

static uint32_t begin(squall_leader *leader) {
    return squall_leader_begin(leader, bytes_of(NEW), strlen(NEW));
}

static uint32_t begin_from(squall_leader *leader) {
    return squall_leader_begin_from(leader, bytes_of(OLD), strlen(OLD), bytes_of(NEW), strlen(NEW));
}

static uint32_t open_next(squall_leader *leader) {
    uint32_t out[2] = {7, 7};
    uint32_t status = squall_leader_open_next(leader, out, 2);
    CHECK(out[0] == (status == SQUALL_OK ? 0 : 7) && out[1] == 7);
    return status;
}

/* The frame of the report that the partition is done. No allocation is refused or counted meanwhile. */
static size_t frame_of_done(uint32_t number, uint32_t part, uint8_t *frame, size_t room) {
    long kept = refused;
    bool all = refuses_all;
    long count = asked;
    refused = 0;
    refuses_all = false;
    size_t len = squall_frame_done(number, 0, part, frame, room);
    refused = kept;
    refuses_all = all;
    asked = count;
    return len;
}

static size_t done_frame(uint8_t *frame, size_t room) {
    return frame_of_done(3, 3, frame, room);
}

static uint32_t hear(squall_leader *leader) {
    uint8_t frame[64];
    size_t len = done_frame(frame, sizeof frame);
    return squall_leader_hear(leader, frame, len);
}

static uint32_t feed(squall_leader *leader) {
    uint8_t frame[64];
    size_t len = done_frame(frame, sizeof frame);
    return squall_leader_feed(leader, frame, len);
}

/* Both partitions that load keys are done in course 7: two frames in one piece. */
static uint32_t feed_both(squall_leader *leader) {
    uint8_t frames[128];
    size_t len = frame_of_done(7, 3, frames, sizeof frames);
    len += frame_of_done(7, 4, frames + len, sizeof frames - len);
    uint32_t status = squall_leader_feed(leader, frames, len);
    CHECK((squall_leader_finished(leader) == 1) == (status == SQUALL_OK));
    return status;
}

/* A leader that has begun nothing and was told nothing, whose first course is number 1. */
static squall_leader *new_leader(void) {
    squall_leader *leader = leader_of(OLD, 0);
    CHECK(squall_leader_status(leader) == SQUALL_OK);
    return leader;
}

/* The same, whose first course is number 7. */
static squall_leader *later_leader(void) {
    squall_leader *leader = leader_of(OLD, 6);
    CHECK(squall_leader_status(leader) == SQUALL_OK);
    return leader;
}

/* A leader that has begun nothing, was told something, has heard a digest and has a frame that waits. */
static squall_leader *idle_leader(void) {
    squall_leader *leader = leader_of(OLD, 6);
    CHECK(squall_leader_status(leader) == SQUALL_OK);
    CHECK(hear(leader) == SQUALL_OK);
    CHECK(squall_leader_hear(leader, EMPTY_DIGEST, sizeof EMPTY_DIGEST) == SQUALL_OK);
    CHECK(squall_leader_gather_board(leader, SQUALL_NO_LIMIT) == SQUALL_OK);
    return leader;
}

/* The same, in the midst of a course. */
static squall_leader *busy_leader(void) {
    squall_leader *leader = idle_leader();
    CHECK(begin(leader) == SQUALL_OK);
    CHECK(squall_leader_gather_board(leader, SQUALL_NO_LIMIT) == SQUALL_OK);
    return leader;
}

/* The same, once its sub-plan is opened. */
static squall_leader *opened_leader(void) {
    squall_leader *leader = busy_leader();
    CHECK(open_next(leader) == SQUALL_OK);
    CHECK(squall_leader_gather_board(leader, SQUALL_NO_LIMIT) == SQUALL_OK);
    return leader;
}

/* What a caller can see: the frame that waits, the frame of the board, and the course. */
struct seen {
    size_t waits;
    size_t len;
    uint8_t board[2048];
    uint32_t number;
    uint32_t finished;
};

static struct seen seen_of(squall_leader *leader) {
    struct seen seen;
    memset(&seen, 0, sizeof seen);
    squall_course *course = room_for_course();
    squall_leader_course(leader, course);
    seen.number = squall_course_number(course);
    drop_course(course);
    seen.finished = squall_leader_finished(leader);
    seen.waits = squall_leader_frame(leader, seen.board, sizeof seen.board);
    CHECK(squall_leader_gather_board(leader, SQUALL_NO_LIMIT) == SQUALL_OK);
    seen.len = squall_leader_frame(leader, seen.board, sizeof seen.board);
    CHECK(squall_leader_gather_board(leader, SQUALL_NO_LIMIT) == SQUALL_OK);
    return seen;
}

/* How often the test that runs now was answered SQUALL_NO_MEMORY. */
static int answered;

/* Whether the status fits: no lack of memory if nothing was refused. */
static bool fits(uint32_t status, bool was_refused) {
    answered += status == SQUALL_NO_MEMORY;
    return status == SQUALL_OK || (was_refused && status == SQUALL_NO_MEMORY);
}

typedef uint32_t leader_call(squall_leader *);
typedef squall_leader *leader_maker(void);

/* The leader answers other calls as another one does. Both are closed. */
static void go_on_alike(squall_leader *one, squall_leader *other) {
    squall_leader *both[2] = {one, other};
    uint32_t answers[2][8] = {{0}};
    struct seen seen[2];
    for (int i = 0; i < 2; i++) {
        uint32_t out[2] = {7, 7};
        uint32_t *answer = answers[i];
        answer[0] = squall_leader_open_next(both[i], out, 2);
        answer[1] = begin(both[i]);
        answer[2] = squall_leader_open_next(both[i], out, 2);
        answer[3] = feed(both[i]);
        answer[4] = squall_leader_open_next(both[i], out, 2);
        answer[5] = squall_leader_begin(both[i], bytes_of(OLD), strlen(OLD));
        answer[6] = out[0];
        answer[7] = out[1];
        seen[i] = seen_of(both[i]);
        drop_leader(both[i]);
    }
    CHECK(memcmp(answers[0], answers[1], sizeof answers[0]) == 0);
    CHECK(memcmp(&seen[0], &seen[1], sizeof seen[0]) == 0);
}

/* A leader whose call had the allocation of that number refused. Then it is what it was before. */
static squall_leader *refused_leader(long number, leader_maker *made, leader_call *call, uint32_t *status) {
    squall_leader *leader = made();
    struct seen before = seen_of(leader);
    asked = 0;
    refused = number;
    *status = call(leader);
    refused = 0;
    if (*status == SQUALL_NO_MEMORY) {
        struct seen after = seen_of(leader);
        CHECK(memcmp(&before, &after, sizeof before) == 0);
    }
    return leader;
}

/* The call with the allocation of that number refused; whether it made so many. After a refusal the same call
 * succeeds, and other calls are answered as by a leader of which nothing was asked. */
static bool refuse_one(long number, leader_maker *made, leader_call *call) {
    uint32_t status;
    squall_leader *leader = refused_leader(number, made, call, &status);
    bool was_refused = asked >= number;
    CHECK(fits(status, was_refused));
    if (status == SQUALL_NO_MEMORY) {
        CHECK(call(leader) == SQUALL_OK);
        squall_leader *twin = made();
        seen_of(twin);
        go_on_alike(refused_leader(number, made, call, &status), twin);
    }
    drop_leader(leader);
    return was_refused;
}

static void refuse_each(leader_maker *made, leader_call *call) {
    long number = 1;
    answered = 0;
    while (refuse_one(number, made, call)) {
        number++;
    }
    CHECK(number > 1 && answered > 0);
    CHECK(blocks == 0);
}

static uint32_t gather_board(squall_leader *leader) {
    return squall_leader_gather_board(leader, SQUALL_NO_LIMIT);
}

static uint32_t gather_digest(squall_leader *leader) {
    return squall_leader_gather_digest(leader, SQUALL_NO_LIMIT);
}

static uint32_t gather_repair(squall_leader *leader) {
    return squall_leader_gather_repair(leader, SQUALL_NO_LIMIT);
}

static void courses_begin(void) {
    refuse_each(new_leader, begin);
    refuse_each(later_leader, begin);
    refuse_each(idle_leader, begin);
}

static void courses_begin_from_a_plan(void) {
    refuse_each(idle_leader, begin_from);
    refuse_each(busy_leader, begin_from);
    refuse_each(opened_leader, begin_from);
}

static void subplans_open(void) {
    refuse_each(busy_leader, open_next);
}

static void frames_are_heard(void) {
    refuse_each(busy_leader, hear);
    refuse_each(opened_leader, hear);
}

static void streams_are_heard(void) {
    refuse_each(busy_leader, feed);
    refuse_each(opened_leader, feed_both);
}

enum { PIECE = 7 };

/* The frame in pieces with the allocation of that number refused. The piece that is not taken comes
 * again. Whether the calls made so many. */
static bool refuse_in_pieces(long number) {
    squall_leader *leader = leader_of(OLD, 6);
    uint8_t frame[64];
    size_t len = done_frame(frame, sizeof frame);
    struct seen before = seen_of(leader);
    asked = 0;
    refused = number;
    for (size_t at = 0; at < len; at += PIECE) {
        size_t piece = at + PIECE < len ? PIECE : len - at;
        uint32_t status = squall_leader_feed(leader, frame + at, piece);
        CHECK(fits(status, asked >= number));
        if (status == SQUALL_NO_MEMORY) {
            struct seen after = seen_of(leader);
            CHECK(memcmp(&before, &after, sizeof before) == 0);
            CHECK(squall_leader_feed(leader, frame + at, piece) == SQUALL_OK);
        }
    }
    bool was_refused = asked >= number;
    refused = 0;
    CHECK(squall_leader_gather_board(leader, SQUALL_NO_LIMIT) == SQUALL_OK);
    CHECK(squall_leader_frame(leader, frame, sizeof frame) == len);
    drop_leader(leader);
    return was_refused;
}

static void pieces(void) {
    long number = 1;
    answered = 0;
    while (refuse_in_pieces(number)) {
        number++;
    }
    CHECK(number > 1 && answered > 0);
    CHECK(blocks == 0);
}

static void boards(void) {
    refuse_each(busy_leader, gather_board);
}

static void digests(void) {
    refuse_each(busy_leader, gather_digest);
}

static void repairs(void) {
    refuse_each(busy_leader, gather_repair);
}

/* An opening with the allocation of that number refused, if numbers up to `last` were used before; whether it made
 * so many. */
static bool refuse_in_opening(uint32_t last, long number) {
    asked = 0;
    refused = number;
    squall_leader *leader = leader_of(OLD, last);
    bool was_refused = asked >= number;
    refused = 0;
    CHECK(fits(squall_leader_status(leader), was_refused));
    CHECK(squall_leader_fault_at(leader) == SQUALL_NO_PLACE);
    CHECK(squall_leader_finished(leader) == 0);
    drop_leader(leader);
    return was_refused;
}

static void openings(void) {
    for (uint32_t last = 0; last <= 6; last += 6) {
        long number = 1;
        answered = 0;
        while (refuse_in_opening(last, number)) {
            number++;
        }
        CHECK(number > 1 && answered > 0);
        CHECK(blocks == 0);
    }
}

/* The same of a leader in the midst of a course. */
static bool refuse_in_resuming(const squall_course *course, long number) {
    squall_leader *leader = (squall_leader *)room_of(squall_leader_size());
    asked = 0;
    refused = number;
    squall_leader_resume(course, leader);
    bool was_refused = asked >= number;
    refused = 0;
    CHECK(fits(squall_leader_status(leader), was_refused));
    drop_leader(leader);
    return was_refused;
}

static void resumptions(void) {
    squall_course *course = course_of(7, OLD, NEW);
    long number = 1;
    answered = 0;
    while (refuse_in_resuming(course, number)) {
        number++;
    }
    CHECK(number > 1 && answered > 0);
    drop_course(course);
    CHECK(blocks == 0);
}

static void calls_that_allocate_nothing(void) {
    squall_leader *leader = busy_leader();
    squall_course *course = room_for_course();
    uint8_t frame[2048];
    asked = 0;
    refuses_all = true;
    CHECK(squall_leader_finished(leader) == 0);
    CHECK(squall_leader_status(leader) == SQUALL_OK);
    CHECK(squall_leader_fault_at(leader) == SQUALL_NO_PLACE);
    squall_leader_course(leader, course);
    CHECK(squall_course_number(course) == 7);
    CHECK(squall_leader_frame(leader, frame, sizeof frame) != 0);
    squall_course_close(course);
    CHECK(squall_leader_size() > 0);
    CHECK(asked == 0);
    refuses_all = false;
    free(course);
    drop_leader(leader);
    CHECK(blocks == 0);
}

static const struct test TESTS[] = {
    TEST(courses_begin),
    TEST(courses_begin_from_a_plan),
    TEST(subplans_open),
    TEST(frames_are_heard),
    TEST(streams_are_heard),
    TEST(pieces),
    TEST(boards),
    TEST(digests),
    TEST(repairs),
    TEST(openings),
    TEST(resumptions),
    TEST(calls_that_allocate_nothing),
};

int main(void) {
    return run_tests(TESTS, sizeof TESTS / sizeof TESTS[0]);
}
