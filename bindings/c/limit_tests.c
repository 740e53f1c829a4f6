/* Tests of the limit on what frames may tell a router, and of how many frames it took. Expected values are
 * worked out by hand. Each call that hears is also made once for each of its allocations, with that one
 * refused. The last line is `N passed, M failed`. */
#include "check.h"
#include "counting_heap.h"

/* ---- frames */

/* Frames, one after the other. */
struct frames {
    size_t len;
    uint8_t bytes[512];
};

static struct frames load_in(uint32_t sub, uint64_t lo, uint64_t hi) {
    struct frames made = {0};
    made.len = squall_frame_loaded(1, sub, 3, lo, hi, made.bytes, sizeof made.bytes);
    return made;
}

static struct frames load(uint64_t lo, uint64_t hi) {
    return load_in(0, lo, hi);
}

static struct frames completion(uint32_t part) {
    struct frames made = {0};
    made.len = squall_frame_done(1, 0, part, made.bytes, sizeof made.bytes);
    return made;
}

static struct frames opening(uint32_t sub) {
    struct frames made = {0};
    made.len = squall_frame_opened(1, sub, made.bytes, sizeof made.bytes);
    return made;
}

/* The frame by which a course is issued. */
static struct frames course(uint32_t number, const char *old, const char *new_plan) {
    struct frames made = {0};
    made.len = frame_of_course(number, old, new_plan, made.bytes, sizeof made.bytes);
    return made;
}

static struct frames issue(uint32_t number) {
    return course(number, OLD, NEW);
}

/* That by which a course follows, from the new plan to the old one. */
static struct frames way_back(uint32_t number) {
    return course(number, NEW, OLD);
}

static struct frames of_hex(const char *hex) {
    struct frames made = {0};
    made.len = bytes_of_hex(hex, made.bytes, sizeof made.bytes);
    return made;
}

static struct frames empty_delta(void) {
    return of_hex("53510101000000080000000000000000");
}

static struct frames empty_digest(void) {
    return of_hex("53510102000000080000000000000000");
}

static struct frames both(struct frames first, struct frames second) {
    CHECK(first.len + second.len <= sizeof first.bytes);
    memcpy(first.bytes + first.len, second.bytes, second.len);
    first.len += second.len;
    return first;
}

/* ---- routers */

/* Both ways by which a router takes frames. */
typedef uint32_t take_bytes(squall_router *router, const uint8_t *bytes, size_t len);
static take_bytes *const WAYS[] = {squall_router_feed, squall_router_hear};
enum { COUNT_OF_WAYS = sizeof WAYS / sizeof WAYS[0] };

/* The numbers of a limit. */
enum number { CELLS, SPANS, OPENED, ISSUES, NUMBERS };

static squall_router *fresh(void) {
    return router_of(1, OLD, NEW);
}

static uint32_t limit_all(squall_router *router, uint64_t most) {
    return squall_router_limit(router, most, most, most, most);
}

/* Sets a limit on one number alone. */
static uint32_t limit_one(squall_router *router, int number, uint64_t most) {
    uint64_t mosts[NUMBERS] = {SQUALL_NO_LIMIT, SQUALL_NO_LIMIT, SQUALL_NO_LIMIT, SQUALL_NO_LIMIT};
    mosts[number] = most;
    return squall_router_limit(router, mosts[CELLS], mosts[SPANS], mosts[OPENED], mosts[ISSUES]);
}

static uint64_t told(const squall_router *router, int number) {
    squall_counts counts = {0, 0, 0, 0};
    CHECK(squall_router_counts(router, &counts, 1) == 1);
    const uint64_t numbers[NUMBERS] = {counts.cells, counts.spans, counts.opened, counts.issues};
    return numbers[number];
}

static uint32_t take(take_bytes *way, squall_router *router, struct frames given) {
    return way(router, given.bytes, given.len);
}

/* What a caller can see of a router. `repair` says whether it has heard a digest. */
struct seen {
    uint64_t taken;
    uint32_t number;
    uint32_t repair;
    size_t len;
    uint8_t board[1024];
};

static struct seen seen_of(squall_router *router) {
    struct seen seen;
    memset(&seen, 0, sizeof seen);
    seen.taken = squall_router_taken(router);
    seen.number = squall_router_number(router);
    seen.repair = squall_router_gather_repair(router, SQUALL_NO_LIMIT);
    CHECK(squall_router_gather_board(router, SQUALL_NO_LIMIT) == SQUALL_OK);
    seen.len = squall_router_frame(router, seen.board, sizeof seen.board);
    return seen;
}

static bool is_same(struct seen before, squall_router *router) {
    struct seen after = seen_of(router);
    return memcmp(&before, &after, sizeof before) == 0;
}

/* Whether the router refuses the frames, and nothing changes. */
static bool is_full_for(take_bytes *way, squall_router *router, struct frames given) {
    struct seen before = seen_of(router);
    return take(way, router, given) == SQUALL_FULL && is_same(before, router);
}

/* ---- what is refused */

/* A frame after which a router tells 1 of a number, and another one, after which it tells 2. */
struct pair {
    struct frames first;
    struct frames second;
};

static struct pair pair_for(int number) {
    switch (number) {
    case CELLS:
        return (struct pair){completion(3), completion(4)};
    case SPANS:
        return (struct pair){load(0, 1), load(2, 3)};
    case OPENED:
        return (struct pair){opening(0), opening(1)};
    default:
        return (struct pair){issue(2), issue(3)};
    }
}

static void keeps_to_one(int number, take_bytes *way) {
    squall_router *router = fresh();
    struct pair pair = pair_for(number);
    CHECK(limit_one(router, number, 0) == SQUALL_OK);
    CHECK(is_full_for(way, router, pair.first));
    CHECK(limit_one(router, number, 1) == SQUALL_OK);
    CHECK(take(way, router, pair.first) == SQUALL_OK && told(router, number) == 1);
    CHECK(is_full_for(way, router, pair.second));
    /* What is known already is no more. */
    CHECK(take(way, router, pair.first) == SQUALL_OK && told(router, number) == 1);
    CHECK(limit_one(router, number, 2) == SQUALL_OK);
    CHECK(take(way, router, pair.second) == SQUALL_OK && told(router, number) == 2);
    CHECK(squall_router_taken(router) == 3);
    drop_router(router);
}

static void each_number_has_its_limit(void) {
    for (int number = 0; number < NUMBERS; number++) {
        for (int way = 0; way < COUNT_OF_WAYS; way++) {
            keeps_to_one(number, WAYS[way]);
        }
    }
    CHECK(blocks == 0);
}

/* Both loads make one span, though each has one. An opening counts each sub-plan up to it. */
static void the_limit_is_on_what_is_joined(void) {
    for (int way = 0; way < COUNT_OF_WAYS; way++) {
        squall_router *router = fresh();
        CHECK(squall_router_limit(router, 1, 1, 3, 0) == SQUALL_OK);
        CHECK(take(WAYS[way], router, load(0, 2)) == SQUALL_OK);
        CHECK(take(WAYS[way], router, load(1, 4)) == SQUALL_OK);
        CHECK(is_full_for(WAYS[way], router, load(5, 6)));
        CHECK(take(WAYS[way], router, load(4, 6)) == SQUALL_OK && told(router, SPANS) == 1);
        CHECK(is_full_for(WAYS[way], router, opening(3)));
        CHECK(take(WAYS[way], router, opening(2)) == SQUALL_OK && told(router, OPENED) == 3);
        drop_router(router);
    }
}

/* The keys from 2:0 on. */
static struct frames load_up_to(uint32_t sub, uint64_t hi) {
    return load_in(sub, squall_rank(2, 0), hi);
}

/* At most one cell of one span, two opened sub-plans, and one issue. A load of more keys joins the one before.
 * Partition 4 would be a second cell, and a load in another sub-plan too. The number 3 would be a second issue. */
static void what_is_within_is_taken(void) {
    for (int way = 0; way < COUNT_OF_WAYS; way++) {
        squall_router *router = fresh();
        CHECK(squall_router_limit(router, 1, 1, 2, 1) == SQUALL_OK);
        CHECK(take(WAYS[way], router, load_up_to(0, squall_rank(2, 7))) == SQUALL_OK);
        CHECK(take(WAYS[way], router, load_up_to(0, squall_rank(3, 0))) == SQUALL_OK);
        CHECK(is_full_for(WAYS[way], router, completion(4)));
        CHECK(is_full_for(WAYS[way], router, load_up_to(1, squall_rank(3, 0))));
        CHECK(take(WAYS[way], router, opening(0)) == SQUALL_OK);
        CHECK(take(WAYS[way], router, way_back(2)) == SQUALL_OK);
        CHECK(is_full_for(WAYS[way], router, issue(3)));
        CHECK(take(WAYS[way], router, way_back(2)) == SQUALL_OK);
        CHECK(take(WAYS[way], router, load_up_to(0, squall_rank(4, 0))) == SQUALL_OK);
        CHECK(squall_router_number(router) == 2 && squall_router_route(router, squall_rank(2, 0)) == 3);
        CHECK(told(router, CELLS) == 1 && told(router, SPANS) == 1);
        CHECK(told(router, OPENED) == 1 && told(router, ISSUES) == 1);
        drop_router(router);
    }
    CHECK(blocks == 0);
}

/* Above the limit no frame passes, not even one that is known. */
static void above_the_limit_nothing_is_taken(void) {
    squall_router *router = fresh();
    CHECK(take(squall_router_hear, router, load_up_to(0, squall_rank(2, 7))) == SQUALL_OK);
    CHECK(take(squall_router_hear, router, completion(4)) == SQUALL_OK);
    CHECK(squall_router_limit(router, 1, 1, 2, 1) == SQUALL_OK);
    CHECK(is_full_for(squall_router_hear, router, load_up_to(0, squall_rank(2, 7))));
    CHECK(is_full_for(squall_router_hear, router, completion(4)));
    CHECK(is_full_for(squall_router_hear, router, way_back(2)));
    CHECK(told(router, CELLS) == 2);
    drop_router(router);
    CHECK(blocks == 0);
}

static void a_limit_taken_away(void) {
    for (int way = 0; way < COUNT_OF_WAYS; way++) {
        squall_router *router = fresh();
        CHECK(limit_all(router, 0) == SQUALL_OK);
        CHECK(is_full_for(WAYS[way], router, load(0, 1)));
        CHECK(limit_all(router, SQUALL_NO_LIMIT) == SQUALL_OK);
        CHECK(take(WAYS[way], router, load(0, 1)) == SQUALL_OK);
        CHECK(take(WAYS[way], router, issue(2)) == SQUALL_OK && squall_router_number(router) == 2);
        CHECK(limit_all(router, SQUALL_NO_LIMIT - 1) == SQUALL_OK);
        CHECK(take(WAYS[way], router, completion(4)) == SQUALL_OK);
        drop_router(router);
    }
}

/* They are not refused. But after them the router tells more than the limit, so each board is. */
static void reports_of_the_host_itself(void) {
    squall_router *router = fresh();
    CHECK(limit_all(router, 0) == SQUALL_OK);
    CHECK(squall_router_loaded(router, 1, 0, 3, 0, 1) == SQUALL_OK);
    CHECK(squall_router_done(router, 1, 0, 4) == SQUALL_OK);
    CHECK(squall_router_opened(router, 1, 0) == SQUALL_OK);
    CHECK(squall_router_issued(router, 2, bytes_of(OLD), strlen(OLD)) == SQUALL_OK);
    CHECK(squall_router_number(router) == 2 && squall_router_taken(router) == 0);
    CHECK(is_full_for(squall_router_hear, router, load(0, 1)));
    CHECK(is_full_for(squall_router_hear, router, empty_delta()));
    CHECK(squall_router_limit(router, 2, 1, 1, 1) == SQUALL_OK);
    CHECK(take(squall_router_hear, router, empty_delta()) == SQUALL_OK);
    CHECK(take(squall_router_hear, router, load(0, 1)) == SQUALL_OK);
    CHECK(squall_router_loaded(router, 1, 0, 3, 4, 5) == SQUALL_OK);
    CHECK(is_full_for(squall_router_hear, router, load(0, 1)));
    drop_router(router);
}

static void digests_are_never_refused(void) {
    for (int way = 0; way < COUNT_OF_WAYS; way++) {
        squall_router *router = fresh();
        CHECK(squall_router_loaded(router, 1, 0, 3, 0, 1) == SQUALL_OK);
        CHECK(limit_all(router, 0) == SQUALL_OK);
        CHECK(take(WAYS[way], router, empty_digest()) == SQUALL_OK);
        CHECK(squall_router_taken(router) == 1);
        CHECK(squall_router_gather_repair(router, SQUALL_NO_LIMIT) == SQUALL_OK);
        drop_router(router);
    }
}

/* But the others of its piece may be. */
static void digests_in_a_piece(void) {
    squall_router *router = fresh();
    CHECK(limit_all(router, 0) == SQUALL_OK);
    CHECK(is_full_for(squall_router_feed, router, both(empty_digest(), load(0, 1))));
    CHECK(squall_router_gather_repair(router, SQUALL_NO_LIMIT) == SQUALL_NO_DIGEST);
    CHECK(take(squall_router_feed, router, both(empty_digest(), empty_digest())) == SQUALL_OK);
    CHECK(squall_router_taken(router) == 2);
    drop_router(router);
}

static void no_router_has_a_limit(void) {
    squall_router *none = router_of(0, OLD, NEW);
    CHECK(limit_all(none, 0) == SQUALL_CLOSED);
    CHECK(squall_router_taken(none) == 0);
    CHECK(take(squall_router_hear, none, load(0, 1)) == SQUALL_CLOSED);
    CHECK(take(squall_router_feed, none, load(0, 1)) == SQUALL_CLOSED);
    CHECK(squall_router_taken(none) == 0);
    CHECK(squall_router_status(none) == SQUALL_LIMIT);
    drop_router(none);
}

/* ---- streams */

/* The frame is cut anywhere. Its last piece is refused, and comes again once the limit is higher. */
static void a_piece_comes_again(void) {
    struct frames given = load(squall_rank(2, 0), squall_rank(3, 0));
    for (size_t cut = 0; cut < given.len; cut++) {
        squall_router *router = fresh();
        CHECK(limit_one(router, CELLS, 0) == SQUALL_OK);
        CHECK(squall_router_feed(router, given.bytes, cut) == SQUALL_OK);
        for (int times = 0; times < 2; times++) {
            CHECK(squall_router_feed(router, given.bytes + cut, given.len - cut) == SQUALL_FULL);
        }
        CHECK(squall_router_route(router, squall_rank(2, 0)) == 1 && squall_router_taken(router) == 0);
        /* A frame is heard beside the stream. */
        CHECK(take(squall_router_hear, router, opening(0)) == SQUALL_OK);
        CHECK(limit_one(router, CELLS, 1) == SQUALL_OK);
        CHECK(squall_router_feed(router, given.bytes + cut, given.len - cut) == SQUALL_OK);
        CHECK(squall_router_route(router, squall_rank(2, 0)) == 3 && squall_router_taken(router) == 2);
        CHECK(take(squall_router_feed, router, empty_digest()) == SQUALL_OK);
        drop_router(router);
    }
}

/* All messages of a piece are refused if all of them tell too much, also those before the last one. */
static void a_piece_is_taken_whole_or_not_at_all(void) {
    squall_router *router = fresh();
    struct frames three = both(both(load(0, 1), opening(0)), load(2, 3));
    CHECK(limit_one(router, SPANS, 1) == SQUALL_OK);
    CHECK(is_full_for(squall_router_feed, router, three));
    CHECK(limit_one(router, SPANS, 2) == SQUALL_OK);
    CHECK(take(squall_router_feed, router, three) == SQUALL_OK);
    CHECK(told(router, SPANS) == 2 && told(router, OPENED) == 1 && squall_router_taken(router) == 3);
    drop_router(router);
}

/* A piece that is refused ends no stream, though a fault follows its messages. */
static void a_fault_behind_messages(void) {
    squall_router *router = fresh();
    struct frames faulty = both(both(load(0, 1), opening(0)), of_hex("5352"));
    CHECK(limit_one(router, OPENED, 0) == SQUALL_OK);
    CHECK(is_full_for(squall_router_feed, router, faulty));
    CHECK(limit_one(router, OPENED, 1) == SQUALL_OK);
    CHECK(take(squall_router_feed, router, faulty) == SQUALL_FRAME_MAGIC);
    CHECK(told(router, OPENED) == 1 && squall_router_taken(router) == 2);
    CHECK(limit_all(router, 0) == SQUALL_OK);
    CHECK(take(squall_router_feed, router, opening(1)) == SQUALL_FAILED);
    CHECK(is_full_for(squall_router_hear, router, opening(1)));
    drop_router(router);
}

/* ---- how many were taken */

static void frames_that_were_taken(void) {
    squall_router *router = fresh();
    CHECK(squall_router_taken(router) == 0);
    struct frames three = both(both(load(0, 1), empty_digest()), empty_delta());
    CHECK(take(squall_router_feed, router, three) == SQUALL_OK);
    CHECK(squall_router_taken(router) == 3);
    CHECK(take(squall_router_hear, router, load(0, 1)) == SQUALL_OK);
    CHECK(take(squall_router_hear, router, empty_digest()) == SQUALL_OK);
    CHECK(squall_router_taken(router) == 5);
    CHECK(squall_router_loaded(router, 1, 0, 3, 4, 5) == SQUALL_OK);
    CHECK(take(squall_router_hear, router, of_hex("5352")) == SQUALL_FRAME_MAGIC);
    CHECK(take(squall_router_hear, router, both(load(0, 1), load(2, 3))) == SQUALL_FRAME_SPARE);
    CHECK(take(squall_router_feed, router, of_hex("535101")) == SQUALL_OK);
    CHECK(take(squall_router_feed, router, of_hex("03")) == SQUALL_FRAME_KIND);
    CHECK(take(squall_router_feed, router, load(0, 1)) == SQUALL_FAILED);
    CHECK(squall_router_taken(router) == 5);
    drop_router(router);
}

/* ---- refused allocations */

/* A call that hears: what the router may tell, the frame, and how it answers with all memory. */
struct hearing {
    take_bytes *way;
    uint64_t most;
    struct frames given;
    uint32_t wanted;
};

/* A router that has heard of one span, and may tell at most `most` of each number. */
static squall_router *limited(uint64_t most) {
    squall_router *router = fresh();
    CHECK(take(squall_router_hear, router, load(0, 2)) == SQUALL_OK);
    CHECK(limit_all(router, most) == SQUALL_OK);
    return router;
}

/* The call with the allocation of that number refused; whether it made so many. */
static bool refuse_one(const struct hearing *hearing, long number, int *answered) {
    squall_router *router = limited(hearing->most);
    struct seen before = seen_of(router);
    asked = 0;
    refused = number;
    uint32_t status = take(hearing->way, router, hearing->given);
    bool was_refused = asked >= number;
    refused = 0;
    CHECK(status == hearing->wanted || (was_refused && status == SQUALL_NO_MEMORY));
    *answered += status == SQUALL_NO_MEMORY;
    CHECK(status == SQUALL_OK || is_same(before, router));
    if (status == SQUALL_NO_MEMORY) {
        CHECK(take(hearing->way, router, hearing->given) == hearing->wanted);
    }
    drop_router(router);
    CHECK(blocks == 0);
    return was_refused;
}

static void refuse_each(const struct hearing *hearing) {
    long number = 1;
    int answered = 0;
    while (number < 10000 && refuse_one(hearing, number, &answered)) {
        number++;
    }
    CHECK(answered > 0 && number < 10000);
}

/* Far from the limit, near it, so that the join is counted, and above it. */
static void frames_without_memory(void) {
    for (int way = 0; way < COUNT_OF_WAYS; way++) {
        const struct hearing hearings[] = {
            {WAYS[way], 100, load(1, 4), SQUALL_OK},
            {WAYS[way], 1, load(1, 4), SQUALL_OK},
            {WAYS[way], 1, load(3, 4), SQUALL_FULL},
            {WAYS[way], 0, empty_delta(), SQUALL_FULL},
        };
        for (size_t i = 0; i < sizeof hearings / sizeof hearings[0]; i++) {
            refuse_each(&hearings[i]);
        }
    }
    const struct hearing piece = {squall_router_feed, 1, both(opening(0), load(1, 4)), SQUALL_OK};
    refuse_each(&piece);
}

static void what_allocates_nothing(void) {
    squall_router *router = limited(1);
    refuses_all = true;
    CHECK(squall_router_limit(router, 5, 6, 7, 8) == SQUALL_OK);
    CHECK(limit_all(router, SQUALL_NO_LIMIT) == SQUALL_OK);
    CHECK(squall_router_taken(router) == 1);
    refuses_all = false;
    drop_router(router);
    CHECK(blocks == 0);
}

static const struct test TESTS[] = {
    TEST(each_number_has_its_limit),
    TEST(the_limit_is_on_what_is_joined),
    TEST(what_is_within_is_taken),
    TEST(above_the_limit_nothing_is_taken),
    TEST(a_limit_taken_away),
    TEST(reports_of_the_host_itself),
    TEST(digests_are_never_refused),
    TEST(digests_in_a_piece),
    TEST(no_router_has_a_limit),
    TEST(a_piece_comes_again),
    TEST(a_piece_is_taken_whole_or_not_at_all),
    TEST(a_fault_behind_messages),
    TEST(frames_that_were_taken),
    TEST(frames_without_memory),
    TEST(what_allocates_nothing),
};

int main(void) {
    return run_tests(TESTS, sizeof TESTS / sizeof TESTS[0]);
}
