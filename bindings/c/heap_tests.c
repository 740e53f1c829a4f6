/* Tests with a heap of the host's own in the place of heap.c: each call once for each allocation that
 * it makes, with that one refused. The call then answers SQUALL_NO_MEMORY, nothing has changed, and
 * the same call succeeds afterwards; or it did without, as sorting does. At the end each block was
 * freed. The last line is `N passed, M failed`. */
#include "check.h"
#include "counting_heap.h"

/* ---- the calls under test */

static const uint8_t LOAD_FRAME[] = {
    0x53, 0x51, 1, 1, 0, 0, 0, 0x29, 0, 0, 0, 0, 0, 0, 0, 1, 0, 0, 0, 1, 0, 0, 0, 0, 0,
    0,    0,    3, 0, 0, 0, 0, 1,    0, 0, 0, 2, 0, 0, 0, 0, 0, 0, 0, 3, 0, 0, 0, 0,
};
static const uint8_t EMPTY_DIGEST[] = {0x53, 0x51, 1, 2, 0, 0, 0, 8, 0, 0, 0, 0, 0, 0, 0, 0};

/* Each kind of item: openings, an issue and a clash, a load and a completion. */
static const char EACH[] = "53510201000000780000000200000001" "00002710ffffffff0000000200000002"
                           "000000010100000001ffffffff000000000000000100000001ffffffff0000000000000002"
                           "00000002020000000200000001000000000000000300000000010000000200000000000000"
                           "0300000000ffffffff0000270f0000270f0100000000";

/* A digest of an opening, an issue and a row, with hashes that no board has. */
static const char OTHER_DIGEST[] = "53510202000000600000000100000001000027100000000100000001"
                                   "0000000000000000000000000000000000000000000000000000000000000000"
                                   "00000001000000010000270f"
                                   "0000000000000000000000000000000000000000000000000000000000000000";

static uint32_t load(squall_router *router) {
    return squall_router_loaded(router, 1, 0, 3, key(2), key(3));
}

static uint32_t load_half(squall_router *router) {
    return squall_router_loaded(router, 1, 0, 3, key(2), squall_rank(2, 7));
}

static uint32_t finish(squall_router *router) {
    return squall_router_done(router, 1, 0, 4);
}

static uint32_t open_next(squall_router *router) {
    return squall_router_opened(router, 1, 0);
}

static uint32_t issue(squall_router *router) {
    return squall_router_issued(router, 2, bytes_of(OLD), strlen(OLD));
}

static uint32_t feed(squall_router *router) {
    return squall_router_feed(router, LOAD_FRAME, sizeof LOAD_FRAME);
}

static uint32_t hear(squall_router *router) {
    return squall_router_hear(router, LOAD_FRAME, sizeof LOAD_FRAME);
}

static uint32_t hear_hex(squall_router *router, const char *hex) {
    uint8_t frame[256];
    return squall_router_hear(router, frame, bytes_of_hex(hex, frame, sizeof frame));
}

static uint32_t hear_each(squall_router *router) {
    return hear_hex(router, EACH);
}

static uint32_t hear_digest(squall_router *router) {
    return hear_hex(router, OTHER_DIGEST);
}

/* Frames of reports, which are made before any allocation is refused. */
static uint8_t done_frame[64];
static uint8_t opened_frame[64];
static uint8_t issue_frame[512];
static size_t done_len;
static size_t opened_len;
static size_t issue_len;

static void make_frames(void) {
    issue_len = frame_of_course(2, NEW, OLD, issue_frame, sizeof issue_frame);
    done_len = squall_frame_done(1, 0, 4, done_frame, sizeof done_frame);
    opened_len = squall_frame_opened(1, 0, opened_frame, sizeof opened_frame);
}

static uint32_t hear_done(squall_router *router) {
    return squall_router_hear(router, done_frame, done_len);
}

static uint32_t hear_opened(squall_router *router) {
    return squall_router_hear(router, opened_frame, opened_len);
}

static uint32_t hear_issue(squall_router *router) {
    return squall_router_hear(router, issue_frame, issue_len);
}

static uint32_t gather_board(squall_router *router) {
    return squall_router_gather_board(router, SQUALL_NO_LIMIT);
}

static uint32_t gather_digest(squall_router *router) {
    return squall_router_gather_digest(router, SQUALL_NO_LIMIT);
}

static uint32_t gather_repair(squall_router *router) {
    return squall_router_gather_repair(router, SQUALL_NO_LIMIT);
}

/* A span of keys of one cell in a frame of its own. */
static uint32_t gather_pieces(squall_router *router) {
    return squall_router_gather_board(router, 49);
}

/* A router that was told something, has heard a digest and has a frame that waits. */
static squall_router *busy_router(void) {
    squall_router *router = router_of(1, OLD, NEW);
    CHECK(squall_router_status(router) == SQUALL_OK);
    CHECK(squall_router_loaded(router, 1, 0, 3, 0, 7) == SQUALL_OK);
    CHECK(squall_router_feed(router, EMPTY_DIGEST, sizeof EMPTY_DIGEST) == SQUALL_OK);
    CHECK(squall_router_gather_board(router, SQUALL_NO_LIMIT) == SQUALL_OK);
    return router;
}

/* A router that was told of the first half of a load. */
static squall_router *half_router(void) {
    squall_router *router = router_of(1, OLD, NEW);
    CHECK(squall_router_status(router) == SQUALL_OK);
    CHECK(load_half(router) == SQUALL_OK);
    return router;
}

/* A router that was told of spans in two cells and heard each kind of item, and a digest. */
static squall_router *full_router(void) {
    squall_router *router = half_router();
    CHECK(squall_router_loaded(router, 1, 0, 3, squall_rank(2, 8), squall_rank(2, 9)) == SQUALL_OK);
    CHECK(squall_router_loaded(router, 1, 0, 4, key(6), key(7)) == SQUALL_OK);
    CHECK(hear_each(router) == SQUALL_OK && hear_digest(router) == SQUALL_OK);
    return router;
}

/* ---- tables of many legs and cells of many spans */

enum { RANGES = 601, SPANS = 600 };

/* The ranges are of four blocks. */
static squall_router *router_of_many(void) {
    return router_from_ranges(RANGES);
}

static uint32_t load_wide(squall_router *router, uint64_t lo, uint64_t hi) {
    return squall_router_loaded(router, 1, 0, 3, lo, hi);
}

/* The legs 100 to 500 become one. */
static uint32_t load_over_blocks(squall_router *router) {
    return load_wide(router, squall_rank(300, 100), squall_rank(1500, 500));
}

/* Leg 301 is split. */
static uint32_t load_within_a_leg(squall_router *router) {
    return load_wide(router, key(904), key(905));
}

/* Leg 301 is joined with its neighbours. */
static uint32_t load_a_leg(squall_router *router) {
    return load_wide(router, squall_rank(903, 301), squall_rank(906, 302));
}

/* In one frame 101 and 501 are split, and 301 is joined with its neighbours. */
static uint8_t three_frame[128];
static size_t three_len;

static void make_three(void) {
    squall_router *router = router_of(1, OLD, NEW);
    CHECK(load_wide(router, key(304), key(305)) == SQUALL_OK && load_a_leg(router) == SQUALL_OK);
    CHECK(load_wide(router, key(1504), key(1505)) == SQUALL_OK);
    CHECK(squall_router_gather_board(router, SQUALL_NO_LIMIT) == SQUALL_OK);
    three_len = squall_router_frame(router, three_frame, sizeof three_frame);
    CHECK(three_len == 81);
    drop_router(router);
}

static uint32_t hear_three(squall_router *router) {
    return squall_router_hear(router, three_frame, three_len);
}

/* A router with a cell of so many spans of one key each, which are of several blocks. */
static squall_router *router_of_spans(void) {
    squall_router *router = half_router();
    for (uint32_t i = 0; i < SPANS; i++) {
        CHECK(load_wide(router, squall_rank(2, 10 + 2 * i), squall_rank(2, 11 + 2 * i)) == SQUALL_OK);
    }
    CHECK(squall_router_hear(router, EMPTY_DIGEST, sizeof EMPTY_DIGEST) == SQUALL_OK);
    return router;
}

/* One span more, in the middle. */
static uint32_t load_between_spans(squall_router *router) {
    return load_wide(router, squall_rank(2, 611), squall_rank(2, 612));
}

/* Two hundred spans become one. */
static uint32_t load_over_spans(squall_router *router) {
    return load_wide(router, squall_rank(2, 310), squall_rank(2, 711));
}

/* ---- what is seen of a router */

enum { LEGS = 2048 };

/* What a caller can see: the frame that waits, the frame of the board, the first legs. */
struct seen {
    size_t waits;
    size_t len;
    uint8_t board[16384];
    squall_leg legs[LEGS];
    size_t count;
    uint32_t number;
};

static void see(squall_router *router, struct seen *seen) {
    memset(seen, 0, sizeof *seen);
    seen->waits = squall_router_frame(router, seen->board, sizeof seen->board);
    CHECK(squall_router_gather_board(router, SQUALL_NO_LIMIT) == SQUALL_OK);
    seen->len = squall_router_frame(router, seen->board, sizeof seen->board);
    CHECK(squall_router_gather_board(router, SQUALL_NO_LIMIT) == SQUALL_OK);
    seen->count = squall_router_legs(router, 0, SQUALL_TOP, seen->legs, LEGS);
    seen->number = squall_router_number(router);
    CHECK(seen->len <= sizeof seen->board && seen->count <= LEGS);
}

static struct seen before;
static struct seen after;

/* How often the test that runs now was answered SQUALL_NO_MEMORY. */
static int answered;

/* Whether the status fits: no lack of memory where nothing was refused. */
static bool fits(uint32_t status, bool was_refused) {
    answered += status == SQUALL_NO_MEMORY;
    return status == SQUALL_OK || (was_refused && status == SQUALL_NO_MEMORY);
}

typedef squall_router *router_maker(void);
typedef uint32_t router_call(squall_router *router);

/* The call with the allocation of that number refused; whether it made so many. */
static bool refuse_one(long number, router_maker *made, router_call *call) {
    squall_router *router = made();
    CHECK(squall_router_gather_board(router, SQUALL_NO_LIMIT) == SQUALL_OK);
    see(router, &before);
    asked = 0;
    refused = number;
    uint32_t status = call(router);
    bool was_refused = asked >= number;
    refused = 0;
    CHECK(fits(status, was_refused));
    if (status == SQUALL_NO_MEMORY) {
        see(router, &after);
        CHECK(memcmp(&before, &after, sizeof before) == 0);
        CHECK(call(router) == SQUALL_OK);
    }
    drop_router(router);
    CHECK(blocks == 0);
    return was_refused;
}

static void refuse_each(router_maker *made, router_call *call) {
    long number = 1;
    answered = 0;
    while (number < 10000 && refuse_one(number, made, call)) {
        number++;
    }
    CHECK(answered > 0 && number < 10000);
}

enum { PIECE = 7 };

/* The frame in pieces with the allocation of that number refused, where the piece that is not taken
 * comes again; whether the calls made so many. */
static bool refuse_in_pieces(long number) {
    squall_router *router = busy_router();
    see(router, &before);
    asked = 0;
    refused = number;
    for (size_t at = 0; at < sizeof LOAD_FRAME; at += PIECE) {
        uint32_t status = squall_router_feed(router, LOAD_FRAME + at, PIECE);
        CHECK(fits(status, asked >= number));
        if (status == SQUALL_NO_MEMORY) {
            see(router, &after);
            CHECK(memcmp(&before, &after, sizeof before) == 0);
            CHECK(squall_router_feed(router, LOAD_FRAME + at, PIECE) == SQUALL_OK);
        }
    }
    bool was_refused = asked >= number;
    refused = 0;
    CHECK(squall_router_route(router, squall_rank(2, 0)) == 3);
    drop_router(router);
    CHECK(blocks == 0);
    return was_refused;
}

/* ---- the tests */

/* Reports of the host's own, to a router that knows some of what they say, or nothing. */
static void reports(void) {
    static router_call *const CALLS[] = {load, finish, open_next, issue};
    for (size_t i = 0; i < sizeof CALLS / sizeof CALLS[0]; i++) {
        refuse_each(busy_router, CALLS[i]);
        refuse_each(half_router, CALLS[i]);
    }
}

static void feeds(void) {
    refuse_each(busy_router, feed);
}

static void whole_frames(void) {
    static router_call *const CALLS[] = {hear, hear_done, hear_opened, hear_issue, hear_each, hear_digest};
    make_frames();
    for (size_t i = 0; i < sizeof CALLS / sizeof CALLS[0]; i++) {
        refuse_each(busy_router, CALLS[i]);
        refuse_each(half_router, CALLS[i]);
    }
}

static void tables_of_many_legs(void) {
    static router_call *const CALLS[] = {load_over_blocks, load_within_a_leg, load_a_leg, hear_three};
    make_three();
    for (size_t i = 0; i < sizeof CALLS / sizeof CALLS[0]; i++) {
        refuse_each(router_of_many, CALLS[i]);
    }
}

static void cells_of_many_spans(void) {
    static router_call *const CALLS[] = {load_between_spans, load_over_spans, hear, gather_board, gather_digest, gather_repair};
    for (size_t i = 0; i < sizeof CALLS / sizeof CALLS[0]; i++) {
        refuse_each(router_of_spans, CALLS[i]);
    }
}

/* What is known is taken without memory. */
static void known_reports(void) {
    squall_router *router = half_router();
    CHECK(load(router) == SQUALL_OK && open_next(router) == SQUALL_OK && finish(router) == SQUALL_OK);
    CHECK(issue(router) == SQUALL_OK);
    asked = 0;
    refuses_all = true;
    CHECK(load_half(router) == SQUALL_OK && load(router) == SQUALL_OK);
    CHECK(open_next(router) == SQUALL_OK && finish(router) == SQUALL_OK);
    refuses_all = false;
    CHECK(asked == 0);
    drop_router(router);
    CHECK(blocks == 0);
}

static void pieces(void) {
    long number = 1;
    answered = 0;
    while (number < 10000 && refuse_in_pieces(number)) {
        number++;
    }
    CHECK(answered > 0 && number < 10000);
}

static void boards(void) {
    refuse_each(busy_router, gather_board);
    refuse_each(full_router, gather_board);
}

static void boards_in_pieces(void) {
    refuse_each(busy_router, gather_pieces);
}

static void digests(void) {
    refuse_each(busy_router, gather_digest);
    refuse_each(full_router, gather_digest);
}

static void repairs(void) {
    refuse_each(busy_router, gather_repair);
    refuse_each(full_router, gather_repair);
}

static bool refuse_in_opening(long number) {
    asked = 0;
    refused = number;
    squall_router *router = router_of(1, OLD, NEW);
    bool was_refused = asked >= number;
    refused = 0;
    CHECK(fits(squall_router_status(router), was_refused));
    CHECK(squall_router_fault_at(router) == SQUALL_NO_PLACE);
    drop_router(router);
    CHECK(blocks == 0);
    return was_refused;
}

static void openings_of_routers(void) {
    long number = 1;
    answered = 0;
    while (refuse_in_opening(number)) {
        number++;
    }
    CHECK(answered > 0);
}

static bool refuse_in_view(const squall_router *router, squall_view *view, long number) {
    uint32_t part = squall_router_route(router, 7);
    asked = 0;
    refused = number;
    squall_view_open(router, view);
    bool was_refused = asked >= number;
    refused = 0;
    uint32_t status = squall_view_status(view);
    CHECK(fits(status, was_refused));
    CHECK(squall_view_route(view, 7) == (status == SQUALL_OK ? part : SQUALL_NOWHERE));
    squall_view_close(view);
    return was_refused;
}

static void openings_of_views(void) {
    static router_maker *const MADE[] = {busy_router, router_of_many};
    squall_view *view = room_for_view();
    for (size_t i = 0; i < sizeof MADE / sizeof MADE[0]; i++) {
        squall_router *router = MADE[i]();
        see(router, &before);
        long number = 1;
        answered = 0;
        while (refuse_in_view(router, view, number)) {
            number++;
        }
        CHECK(answered > 0);
        see(router, &after);
        CHECK(memcmp(before.legs, after.legs, sizeof before.legs) == 0);
        drop_router(router);
    }
    free(view);
    CHECK(blocks == 0);
}

static bool refuse_in_course(squall_course *course, long number) {
    asked = 0;
    refused = number;
    squall_course_open(1, bytes_of(OLD), strlen(OLD), bytes_of(NEW), strlen(NEW), course);
    bool was_refused = asked >= number;
    refused = 0;
    uint32_t status = squall_course_status(course);
    CHECK(fits(status, was_refused));
    CHECK(squall_course_fault_at(course) == SQUALL_NO_PLACE);
    CHECK(squall_course_number(course) == (status == SQUALL_OK));
    squall_course_close(course);
    CHECK(blocks == 0);
    return was_refused;
}

static void openings_of_courses(void) {
    squall_course *course = room_for_course();
    long number = 1;
    answered = 0;
    while (refuse_in_course(course, number)) {
        number++;
    }
    CHECK(answered > 0);
    free(course);
}

static bool refuse_in_receivers(const squall_course *course, long number) {
    uint32_t parts[2] = {7, 7};
    asked = 0;
    refused = number;
    size_t count = squall_course_receivers(course, 0, 0, parts, 2);
    bool was_refused = asked >= number;
    refused = 0;
    CHECK(fits(count == SQUALL_NO_COUNT ? SQUALL_NO_MEMORY : SQUALL_OK, was_refused));
    CHECK(count == SQUALL_NO_COUNT ? parts[0] == 7 && parts[1] == 7
                                   : count == 2 && parts[0] == 3 && parts[1] == 4);
    return was_refused;
}

static void receivers_of_a_course(void) {
    squall_course *course = course_of(1, OLD, NEW);
    CHECK(squall_course_status(course) == SQUALL_OK);
    long number = 1;
    while (refuse_in_receivers(course, number)) {
        number++;
    }
    /* It tries a second time, for less: so one refused allocation is not enough. */
    uint32_t parts[2] = {7, 7};
    refuses_all = true;
    CHECK(squall_course_receivers(course, 0, 0, parts, 2) == SQUALL_NO_COUNT);
    refuses_all = false;
    CHECK(parts[0] == 7 && parts[1] == 7);
    drop_course(course);
    CHECK(blocks == 0);
}

static size_t put_course(const squall_course *course, uint8_t *out, size_t room) {
    return squall_course_frame(course, out, room);
}

static size_t put_old_text(const squall_course *course, uint8_t *out, size_t room) {
    return squall_course_old_text(course, out, room);
}

static size_t put_new_text(const squall_course *course, uint8_t *out, size_t room) {
    return squall_course_new_text(course, out, room);
}

static size_t put_left(const squall_course *course, uint8_t *out, size_t room) {
    const squall_span loaded[2] = {{squall_rank(2, 0), squall_rank(2, 5)}, {squall_rank(6, 0), SQUALL_TOP}};
    return squall_course_left(course, loaded, 2, out, room);
}

static size_t put_load(const squall_course *course, uint8_t *out, size_t room) {
    (void)course;
    return squall_frame_loaded(1, 0, 3, squall_rank(2, 0), squall_rank(3, 0), out, room);
}

static size_t put_done(const squall_course *course, uint8_t *out, size_t room) {
    (void)course;
    return squall_frame_done(1, 0, 4, out, room);
}

static size_t put_opened(const squall_course *course, uint8_t *out, size_t room) {
    (void)course;
    return squall_frame_opened(1, 0, out, room);
}

typedef size_t put_frame(const squall_course *course, uint8_t *out, size_t room);

static bool refuse_in_frame(put_frame *put, const squall_course *course, long number) {
    uint8_t out[512];
    memset(out, 7, sizeof out);
    asked = 0;
    refused = number;
    size_t count = put(course, out, sizeof out);
    bool was_refused = asked >= number;
    refused = 0;
    CHECK(fits(count == SQUALL_NO_COUNT ? SQUALL_NO_MEMORY : SQUALL_OK, was_refused));
    CHECK(count == SQUALL_NO_COUNT ? out[0] == 7 : (out[0] == 'S' || out[0] == '{') && count < sizeof out);
    return was_refused;
}

static void frames_of_reports(void) {
    static put_frame *const PUTS[] = {put_course, put_old_text, put_new_text, put_left,
                                      put_load,   put_done,     put_opened};
    squall_course *course = course_of(1, OLD, NEW);
    for (size_t i = 0; i < sizeof PUTS / sizeof PUTS[0]; i++) {
        long number = 1;
        answered = 0;
        while (refuse_in_frame(PUTS[i], course, number)) {
            number++;
        }
        CHECK(answered > 0);
    }
    drop_course(course);
    CHECK(blocks == 0);
}

/* What the header says of each call of a course that allocates nothing. */
static void courses_that_allocate_nothing(void) {
    squall_router *router = busy_router();
    squall_view *view = room_for_view();
    squall_course *course = room_for_course();
    const uint64_t rank = 7;
    squall_move moves[2];
    squall_leg legs[8];
    squall_place place;
    squall_view_open(router, view);
    asked = 0;
    CHECK(squall_view_locate(view, &rank, 1, &place, 1) == 1);
    squall_course_newest(router, course);
    CHECK(squall_course_subplans(course) == 1);
    CHECK(squall_course_moves(course, 0, moves, 2) == 2);
    CHECK(squall_course_old(course, 0, legs, 8) == 4);
    CHECK(squall_course_new(course, 0, legs, 8) == 5);
    squall_course_close(course);
    squall_course_first(router, course);
    squall_course_close(course);
    CHECK(asked == 0);
    free(course);
    drop_view(view);
    drop_router(router);
    CHECK(blocks == 0);
}

/* What the header says of each call that allocates nothing. */
static void calls_that_allocate_nothing(void) {
    squall_router *router = busy_router();
    squall_view *view = room_for_view();
    squall_view *more = room_for_view();
    squall_errand *errand = (squall_errand *)room_of(squall_errand_size());
    squall_leg legs[8];
    uint8_t out[1024];
    squall_view_open(router, view);
    asked = 0;
    CHECK(squall_router_route(router, 7) == 1);
    CHECK(squall_router_legs(router, 0, SQUALL_TOP, legs, 8) != 0);
    CHECK(squall_router_number(router) == 1);
    CHECK(squall_router_frame(router, out, sizeof out) != 0);
    squall_view_again(view, more);
    CHECK(squall_view_route(more, 7) == 1);
    CHECK(squall_view_legs(more, 0, SQUALL_TOP, legs, 8) != 0);
    squall_errand_start(router, 7, errand);
    CHECK(squall_errand_heed(errand, SQUALL_HELD, 0, 0) == SQUALL_SERVED);
    squall_errand_close(errand);
    squall_errand_start_at(more, 7, errand);
    squall_errand_close(errand);
    CHECK(asked == 0);
    free(errand);
    drop_view(view);
    drop_view(more);
    drop_router(router);
    CHECK(blocks == 0);
}

static const struct test TESTS[] = {
    TEST(reports),
    TEST(feeds),
    TEST(whole_frames),
    TEST(tables_of_many_legs),
    TEST(cells_of_many_spans),
    TEST(known_reports),
    TEST(pieces),
    TEST(boards),
    TEST(boards_in_pieces),
    TEST(digests),
    TEST(repairs),
    TEST(openings_of_routers),
    TEST(openings_of_views),
    TEST(openings_of_courses),
    TEST(receivers_of_a_course),
    TEST(frames_of_reports),
    TEST(calls_that_allocate_nothing),
    TEST(courses_that_allocate_nothing),
};

int main(void) {
    return run_tests(TESTS, sizeof TESTS / sizeof TESTS[0]);
}
