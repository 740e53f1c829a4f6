/* Tests of frames: digests, repairs, and boards that are cut into several frames. Expected values are worked out
 * by hand, and hashes are those of another program. The last line is `N passed, M failed`. */
#include "check.h"

static squall_router *fresh(void) {
    return router_of(1, OLD, NEW);
}

/* A router that has heard the frame of the hex digits. */
static squall_router *router_told(const char *hex) {
    uint8_t frame[512];
    squall_router *router = fresh();
    CHECK(squall_router_hear(router, frame, bytes_of_hex(hex, frame, sizeof frame)) == SQUALL_OK);
    return router;
}

/* Whether the next frame that waits has these bytes. If there are none, whether no frame waits. */
static bool next_is(squall_router *router, const char *hex) {
    uint8_t wanted[512];
    uint8_t got[512];
    size_t len = bytes_of_hex(hex, wanted, sizeof wanted);
    return squall_router_frame(router, got, sizeof got) == len && memcmp(wanted, got, len) == 0;
}

/* One router hears the next frame that waits at another. */
static void pass(squall_router *from, squall_router *to) {
    uint8_t frame[512];
    size_t len = squall_router_frame(from, frame, sizeof frame);
    CHECK(len == 0 || squall_router_hear(to, frame, len) == SQUALL_OK);
}

/* ---- frames that come back */

static const char LOAD[] =
    "53510101000000290000000000000001000000010000000000000003000000000100000002000000000000000300000000";
static const char DONE[] = "535101010000001900000000000000010000000100000000000000030100000000";
static const char OPENED_CLASH[] = "535102010000001900000001000000010000000400000001000000010200000000";
static const char ISSUED[] = "535102010000003900000001000000010000000100000001000000010100000001ffffffff000000000000000100000001"
                             "ffffffff000000000000000200000000";
/* Each kind of item. Course 1 has 10,000 openings and the greatest number 2. Course 1 leads from partition 1, which has
 * all keys, to partition 2, and number 2 is a clash. The cells are that of the load, and the completion of partition
 * 9999 in sub-plan 9999 of the greatest number. */
static const char EACH[] = "5351020100000078000000020000000100002710ffffffff0000000200000002000000010100000001ffffff"
                           "ff000000000000000100000001ffffffff000000000000000200000002020000000200000001000000000000"
                           "0003000000000100000002000000000000000300000000ffffffff0000270f0000270f0100000000";
/* Two cells; a cell that is done, with two spans; an opening and two clashes; an issue of two ranges each. */
static const char TWO_CELLS[] = "535101010000003a000000000000000200000001000000000000000300000000010000000200000000000000"
                               "03000000000000000100000000000000040100000000";
static const char TWO_SPANS[] = "5351010100000039000000000000000100000001000000000000000301000000020000000200000000000000"
                               "020000000700000002000000080000000300000000";
static const char TWO_CLASHES[] = "535102010000001e000000010000000100000001000000020000000202000000030200000000";
static const char TWO_RANGES[] = "53510201000000490000000000000001000000010100000002000000030000000000000001ffffffff000000"
                               "000000000200000002000000020000000000000003ffffffff000000000000000100000000";

static void what_is_heard_comes_back(void) {
    const char *const frames[] = {LOAD, DONE, OPENED_CLASH, ISSUED, EACH, TWO_CELLS, TWO_SPANS, TWO_CLASHES, TWO_RANGES};
    for (size_t i = 0; i < sizeof frames / sizeof frames[0]; i++) {
        squall_router *router = router_told(frames[i]);
        CHECK(squall_router_gather_board(router, SQUALL_NO_LIMIT) == SQUALL_OK);
        CHECK(next_is(router, frames[i]) && next_is(router, ""));
        drop_router(router);
    }
}

/* ---- bytes that are no frame */

static const struct fault {
    const char *hex;
    uint32_t fault;
} FAULTS[] = {
    /* Heads. */
    {"00", SQUALL_FRAME_MAGIC},
    {"535103", SQUALL_FRAME_VERSION},
    {"53510001000000080000000000000000", SQUALL_FRAME_VERSION},
    {"5351010000000008", SQUALL_FRAME_KIND},
    {"", SQUALL_FRAME_SHORT},
    {"535101", SQUALL_FRAME_SHORT},
    {"5351010100100000", SQUALL_FRAME_SHORT},
    /* Cells. */
    {"535101010000001900000000000000010000000100002710000000030100000000", SQUALL_FRAME_RANGE},
    {"5351010100000018000000000000000100000001000000000000000301000000", SQUALL_FRAME_COUNT},
    {"535101010000002a000000000000000200000001000000000000000301000000000000000100000000000000"
     "020100000000", SQUALL_FRAME_ORDER},
    {"535101010000002a000000000000000200000001000000000000000301000000000000000100000000000000"
     "030100000000", SQUALL_FRAME_ORDER},
    /* Rows of digests. */
    {"535101020000001000000000000000010000000100000000", SQUALL_FRAME_COUNT},
    {"5351010200000030000000000000000100000000000000000000000000000000000000000000000000000000"
     "000000000000000000000000", SQUALL_FRAME_RANGE},
    {"5351010200000030000000000000000100000001000027100000000000000000000000000000000000000000"
     "000000000000000000000000", SQUALL_FRAME_RANGE},
    {"5351010200000058000000000000000200000001000000000000000000000000000000000000000000000000"
     "0000000000000000000000000000000100000000000000000000000000000000000000000000000000000000"
     "0000000000000000", SQUALL_FRAME_ORDER},
    /* Issues. */
    {"53510202000000080000000000000000", SQUALL_FRAME_RANGE},
    {"53510201000000110000000000000001000000010000000000", SQUALL_FRAME_RANGE},
    {"53510201000000110000000000000001000000000200000000", SQUALL_FRAME_RANGE},
    {"535102010000001600000000000000020000000202000000020200000000", SQUALL_FRAME_ORDER},
    {"535102010000000c000000000000000100000001", SQUALL_FRAME_COUNT},
    {"5351020100000012000000000000000100000001020000000000", SQUALL_FRAME_SPARE},
    {"535102020000000c000000000000000100000001", SQUALL_FRAME_COUNT},
    /* Plans. */
    {"53510201000000110000000000000001000000010100000000", SQUALL_FRAME_RANGE},
    {"53510201000000110000000000000001000000010100001001", SQUALL_FRAME_RANGE},
    {"53510201000000110000000000000001000000010100001000", SQUALL_FRAME_COUNT},
    {"535102010000001d0000000000000001000000010100000001ffffffff0000000100000001", SQUALL_FRAME_RANGE},
    {"535102010000001d0000000000000001000000010100000001ffffffff0000000000002710", SQUALL_FRAME_RANGE},
    {"535102010000001d0000000000000001000000010100000001000000030000000000000001", SQUALL_FRAME_RANGE},
    {"53510201000000290000000000000001000000010100000002000000000000000000000001ffffffff000000"
     "0000000002", SQUALL_FRAME_ORDER},
    {"53510201000000290000000000000001000000010100000002000000030000000000000001ffffffff000000"
     "0000000001", SQUALL_FRAME_ORDER},
    {"535102010000001d0000000000000001000000010100000001ffffffff000000000000270f", SQUALL_FRAME_COUNT},
};

static void bytes_that_are_no_frame(void) {
    for (size_t i = 0; i < sizeof FAULTS / sizeof FAULTS[0]; i++) {
        squall_router *router = fresh();
        uint8_t bytes[256];
        size_t len = bytes_of_hex(FAULTS[i].hex, bytes, sizeof bytes);
        CHECK(squall_router_hear(router, bytes, len) == FAULTS[i].fault);
        CHECK(squall_router_gather_board(router, SQUALL_NO_LIMIT) == SQUALL_OK && next_is(router, ""));
        drop_router(router);
    }
}

static const char EMPTY_DIGEST[] = "53510102000000080000000000000000";

/* Each first part of a frame, the empty one too, is too short. */
static void parts_of_frames(void) {
    const char *const frames[] = {LOAD, EMPTY_DIGEST, EACH};
    squall_router *router = fresh();
    for (size_t i = 0; i < sizeof frames / sizeof frames[0]; i++) {
        uint8_t bytes[256];
        size_t len = bytes_of_hex(frames[i], bytes, sizeof bytes);
        for (size_t end = 0; end < len; end++) {
            CHECK(squall_router_hear(router, bytes, end) == SQUALL_FRAME_SHORT);
        }
        CHECK(squall_router_hear(router, bytes, len) == SQUALL_OK);
    }
    drop_router(router);
}

/* ---- streams in pieces of one length */

/* The router is fed the bytes in pieces of that length. The last answer, up to the first that is not SQUALL_OK. */
static uint32_t feed_pieces(squall_router *router, const uint8_t *bytes, size_t len, size_t length) {
    uint32_t status = SQUALL_OK;
    for (size_t at = 0; at < len && status == SQUALL_OK; at += length) {
        status = squall_router_feed(router, bytes + at, at + length < len ? length : len - at);
    }
    return status;
}

/* The load, and the clash of number 2: all that the stream below tells. */
static const char LOAD_AND_CLASH[] = "5351020100000032000000000000000100000002020000000100000001000000000000000300"
                                     "0000000100000002000000000000000300000000";

/* A load, a digest of nothing and a clash are heard in pieces of each length; or a load, and then bytes with which no
 * frame begins. */
static void pieces_of_each_length(void) {
    uint8_t three[128];
    size_t len = bytes_of_hex(LOAD, three, sizeof three);
    len += bytes_of_hex(EMPTY_DIGEST, three + len, sizeof three - len);
    len += bytes_of_hex("535102010000001100000000000000010000000202" "00000000", three + len, sizeof three - len);
    uint8_t faulty[64];
    size_t faulty_len = bytes_of_hex(LOAD, faulty, sizeof faulty);
    faulty_len += bytes_of_hex("5352", faulty + faulty_len, sizeof faulty - faulty_len);
    CHECK(len == 90 && faulty_len == 51);
    for (size_t length = 1; length < 100; length++) {
        squall_router *router = fresh();
        CHECK(feed_pieces(router, three, len, length) == SQUALL_OK);
        CHECK(squall_router_taken(router) == 3 && squall_router_waiting(router) == 0);
        CHECK(squall_router_gather_repair(router, SQUALL_NO_LIMIT) == SQUALL_OK && next_is(router, LOAD_AND_CLASH));
        drop_router(router);
        router = fresh();
        CHECK(feed_pieces(router, faulty, faulty_len, length) == SQUALL_FRAME_MAGIC);
        CHECK(squall_router_gather_board(router, SQUALL_NO_LIMIT) == SQUALL_OK && next_is(router, LOAD));
        drop_router(router);
    }
}

/* ---- digests and repairs */

/* A frame, and that of the digest of its board. */
static const struct digest {
    const char *told;
    const char *digest;
} DIGESTS[] = {
    {"53510101000000080000000000000000", "53510102000000080000000000000000"},
    {LOAD, "53510102000000300000000000000001000000010000000025868db80855a707339da598e4f3a16ab6b7b5400f2c937e7a625817d02bfa4a"},
    {ISSUED, "5351020200000038000000010000000100000001000000010000000"
             "11a7b6c1d735527356ebe61e8de2683038318f3d13fc07f79cef70905824f5a0300000000"},
};

static void digests_of_boards(void) {
    for (size_t i = 0; i < sizeof DIGESTS / sizeof DIGESTS[0]; i++) {
        squall_router *router = router_told(DIGESTS[i].told);
        CHECK(squall_router_gather_digest(router, SQUALL_NO_LIMIT) == SQUALL_OK);
        CHECK(next_is(router, DIGESTS[i].digest));
        drop_router(router);
    }
}

/* The load, and the completion of partition 4 in sub-plan 1. */
static const char BOTH[] = "535101010000003a000000000000000200000001000000000000000300000000010000000200000000000000030000000000000001"
                           "00000001000000040100000000";

/* The frames of a board, of another, and of the repair of the other by the digest of the first. The last one is
 * that of the first board once it has the repair. */
static const struct repair {
    const char *first;
    const char *second;
    const char *repair;
    const char *both;
} REPAIRS[] = {
    /* The load is shown, and not the completion. */
    {LOAD, BOTH, "535101010000001900000000000000010000000100000001000000040100000000", BOTH},
    /* All is shown. */
    {BOTH, BOTH, "", BOTH},
    /* A greater count of openings, an equal one, a lower one, and one that is lacking. */
    {"5351010100000020000000030000000100000001000000020000000200000003000000" "0300000000",
     "53510101000000280000000400000001000000020000000200000002000000030000000100000004" "0000000700000000",
     "5351010100000018000000020000000100000002000000040000000700000000",
     "53510101000000280000000400000001000000020000000200000002000000030000000300000004" "0000000700000000"},
    /* An issue that is lacking, an equal one, and another. */
    {"53510201000000560000000000000002000000020100000001ffffffff000000000000000100000001ffffffff00000000" "00000001"
     "000000030100000001ffffffff000000000000000100000001ffffffff00000000" "0000000100000000",
     "535102010000007b0000000000000003000000010100000001ffffffff000000000000000100000001ffffffff00000000" "00000001"
     "000000020100000001ffffffff000000000000000100000001ffffffff00000000" "00000001"
     "000000030100000001ffffffff000000000000000200000001ffffffff00000000" "0000000200000000",
     "53510201000000560000000000000002000000010100000001ffffffff000000000000000100000001ffffffff00000000" "00000001"
     "000000030100000001ffffffff000000000000000200000001ffffffff00000000" "0000000200000000",
     "535102010000005b0000000000000003000000010100000001ffffffff000000000000000100000001ffffffff00000000" "00000001"
     "000000020100000001ffffffff000000000000000100000001ffffffff00000000" "00000001"
     "000000030200000000"},
};

static void repairs_complete_boards(void) {
    for (size_t i = 0; i < sizeof REPAIRS / sizeof REPAIRS[0]; i++) {
        squall_router *first = router_told(REPAIRS[i].first);
        squall_router *second = router_told(REPAIRS[i].second);
        CHECK(squall_router_gather_digest(first, SQUALL_NO_LIMIT) == SQUALL_OK);
        pass(first, second);
        CHECK(squall_router_gather_repair(second, SQUALL_NO_LIMIT) == SQUALL_OK);
        CHECK(next_is(second, REPAIRS[i].repair) && next_is(second, ""));
        CHECK(squall_router_gather_repair(second, SQUALL_NO_LIMIT) == SQUALL_OK);
        pass(second, first);
        CHECK(squall_router_gather_board(first, SQUALL_NO_LIMIT) == SQUALL_OK);
        CHECK(next_is(first, REPAIRS[i].both) && next_is(first, ""));
        drop_router(first);
        drop_router(second);
    }
}

/* ---- boards in several frames */

enum { MOST = 4 };

/* Frames that waited at a router. */
struct frames {
    size_t count;
    size_t len[MOST];
    uint8_t *bytes[MOST];
};

static struct frames frames_of(squall_router *router) {
    struct frames frames = {0};
    uint8_t nothing;
    size_t len;
    while (frames.count < MOST && (len = squall_router_frame(router, &nothing, 0)) != 0) {
        frames.bytes[frames.count] = (uint8_t *)room_of(len);
        frames.len[frames.count] = squall_router_frame(router, frames.bytes[frames.count], len);
        frames.count++;
    }
    return frames;
}

static void drop_frames(struct frames frames) {
    for (size_t i = 0; i < frames.count; i++) {
        free(frames.bytes[i]);
    }
}

/* A router that hears these frames, from the last to the first. */
static squall_router *router_from_last(struct frames frames) {
    squall_router *router = fresh();
    for (size_t i = frames.count; i-- > 0;) {
        CHECK(squall_router_hear(router, frames.bytes[i], frames.len[i]) == SQUALL_OK);
    }
    return router;
}

static bool same_frames(struct frames one, struct frames other) {
    bool same = one.count == other.count;
    for (size_t i = 0; same && i < one.count; i++) {
        same = one.len[i] == other.len[i] && memcmp(one.bytes[i], other.bytes[i], one.len[i]) == 0;
    }
    return same;
}

/* Whether a router that hears the frames of another from the last to the first tells what that one does. */
static bool come_back(squall_router *router, struct frames frames) {
    squall_router *other = router_from_last(frames);
    CHECK(squall_router_gather_board(router, SQUALL_NO_LIMIT) == SQUALL_OK);
    CHECK(squall_router_gather_board(other, SQUALL_NO_LIMIT) == SQUALL_OK);
    struct frames one = frames_of(router);
    struct frames two = frames_of(other);
    bool same = same_frames(one, two);
    drop_frames(one);
    drop_frames(two);
    drop_router(other);
    return same;
}

/* The board has that many frames within the limit, none of them longer; none, if some item is too long. */
static void has_frames_within(squall_router *router, size_t limit, size_t count) {
    uint32_t status = squall_router_gather_board(router, limit);
    CHECK(status == (count == 0 ? SQUALL_TOO_LONG : SQUALL_OK));
    if (status == SQUALL_OK) {
        struct frames frames = frames_of(router);
        CHECK(frames.count == count);
        for (size_t i = 0; i < frames.count; i++) {
            CHECK(frames.len[i] <= limit);
        }
        CHECK(come_back(router, frames));
        drop_frames(frames);
    }
}

struct within {
    size_t limit;
    size_t count;
};

static void an_opening_and_an_issue_within_limits(void) {
    static const struct within ROWS[] = {{1048584, 1}, {33, 1}, {32, 2}, {25, 2}, {24, 0}, {0, 0}};
    squall_router *router = router_told(OPENED_CLASH);
    for (size_t i = 0; i < sizeof ROWS / sizeof ROWS[0]; i++) {
        has_frames_within(router, ROWS[i].limit, ROWS[i].count);
    }
    drop_router(router);
}

/* Takes this many spans of one key each, all in one cell. */
static void take_spans(squall_router *router, uint64_t count) {
    uint32_t taken = SQUALL_OK;
    for (uint64_t i = 0; i < count; i++) {
        taken |= squall_router_loaded(router, 1, 0, 3, 2 * i, 2 * i + 1);
    }
    CHECK(taken == SQUALL_OK);
}

static void spans_within_limits(void) {
    static const struct within ROWS[] = {{81, 1}, {80, 2}, {65, 2}, {64, 3}, {49, 3}, {48, 0}};
    squall_router *router = fresh();
    CHECK(squall_router_gather_board(router, 0) == SQUALL_OK && next_is(router, ""));
    take_spans(router, 3);
    for (size_t i = 0; i < sizeof ROWS / sizeof ROWS[0]; i++) {
        has_frames_within(router, ROWS[i].limit, ROWS[i].count);
    }
    drop_router(router);
}

/* Two cells are in one frame. */
static void one_frame_of_two_cells(void) {
    squall_router *router = router_told(BOTH);
    CHECK(squall_router_gather_board(router, SQUALL_NO_LIMIT) == SQUALL_OK);
    CHECK(next_is(router, BOTH) && next_is(router, ""));
    drop_router(router);
}

/* A cell that is done has one span more than a frame holds. The first frame says that it is done, and the other has
 * the last key alone. */
static void a_cell_that_is_cut(void) {
    squall_router *router = router_told(DONE);
    take_spans(router, 65535);
    CHECK(squall_router_gather_board(router, SQUALL_NO_LIMIT) == SQUALL_OK);
    struct frames frames = frames_of(router);
    uint8_t last[64];
    size_t len = bytes_of_hex("5351010100000029000000000000000100000001000000000000000300000000"
                              "01000000000001fffc000000000001fffd", last, sizeof last);
    CHECK(frames.count == 2 && frames.len[0] == 1048577 && frames.bytes[0][28] == 1);
    CHECK(frames.len[1] == len && memcmp(frames.bytes[1], last, len) == 0);
    CHECK(come_back(router, frames));
    drop_frames(frames);
    drop_router(router);
}

/* A board whose frame is as long as can be. It is heard in short pieces and in long ones. */
static void a_frame_as_long_as_can_be(void) {
    squall_router *router = fresh();
    take_spans(router, 65534);
    CHECK(squall_router_gather_board(router, SQUALL_NO_LIMIT) == SQUALL_OK);
    struct frames frames = frames_of(router);
    CHECK(frames.count == 1 && frames.len[0] == 8 + 1048569);
    for (size_t length = 7; length <= 65536; length += 65529) {
        squall_router *other = fresh();
        CHECK(feed_pieces(other, frames.bytes[0], frames.len[0], length) == SQUALL_OK);
        CHECK(squall_router_gather_board(other, SQUALL_NO_LIMIT) == SQUALL_OK);
        struct frames back = frames_of(other);
        CHECK(same_frames(frames, back));
        drop_frames(back);
        drop_router(other);
    }
    drop_frames(frames);
    drop_router(router);
}

/* What a router was told, in numbers: openings, issues and cells. */
static bool has_counts(const squall_router *router, uint64_t opened, uint64_t issues) {
    squall_counts counts = {7, 7, 7, 7};
    return squall_router_counts(router, &counts, 1) == 1 && counts.opened == opened && counts.issues == issues;
}

/* A frame holds fewer than 40,000 cells. The first has the openings and the clash. */
static void issues_and_many_cells(void) {
    squall_router *router = router_told(OPENED_CLASH);
    uint32_t taken = SQUALL_OK;
    for (uint32_t i = 0; i < 40000; i++) {
        taken |= squall_router_loaded(router, 1, i / 10000, i % 10000, 5, 6);
    }
    CHECK(taken == SQUALL_OK);
    CHECK(squall_router_gather_board(router, SQUALL_NO_LIMIT) == SQUALL_OK);
    struct frames frames = frames_of(router);
    CHECK(frames.count == 2);
    for (size_t i = 0; i < frames.count; i++) {
        squall_router *other = fresh();
        CHECK(squall_router_hear(other, frames.bytes[i], frames.len[i]) == SQUALL_OK);
        CHECK(i == 0 ? has_counts(other, 4, 1) : has_counts(other, 0, 0));
        drop_router(other);
    }
    CHECK(come_back(router, frames));
    drop_frames(frames);
    drop_router(router);
}

static const struct test TESTS[] = {
    TEST(what_is_heard_comes_back),
    TEST(bytes_that_are_no_frame),
    TEST(parts_of_frames),
    TEST(pieces_of_each_length),
    TEST(digests_of_boards),
    TEST(repairs_complete_boards),
    TEST(an_opening_and_an_issue_within_limits),
    TEST(spans_within_limits),
    TEST(one_frame_of_two_cells),
    TEST(a_cell_that_is_cut),
    TEST(a_frame_as_long_as_can_be),
    TEST(issues_and_many_cells),
};

int main(void) {
    return run_tests(TESTS, sizeof TESTS / sizeof TESTS[0]);
}
