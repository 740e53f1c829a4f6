/* Tests of routers by what they heard, row by row, and of errands by the replies to them. Expected values
 * are worked out by hand from the plans of examples/. The last line is `N passed, M failed`. */
#include "check.h"

/* ---- what comes to a router */

/* What is said, one letter each:
 * h, from 2:0 to 2:7 the keys are loaded at partition 3, in sub-plan 0 of number 1;
 * l, from 2:0 to 3:0 they are; w, from 2:0 to 4:0, of which those from 3:0 on don't move;
 * a, from 2:0 to 3:0 they are, in sub-plan 1, in which no key moves;
 * o, sub-plan 0 of number 1 is opened; d, partition 4 is done in it;
 * 1, 2 or 3, the new plan follows the old one under that number; I, B or T, the old plan the new one. */
static size_t frame_of_load(uint32_t sub, uint64_t hi, uint8_t *out, size_t room) {
    return squall_frame_loaded(1, sub, 3, key(2), hi, out, room);
}

static size_t frame_of(char said, uint8_t *out, size_t room) {
    switch (said) {
    case 'h':
        return frame_of_load(0, squall_rank(2, 7), out, room);
    case 'l':
        return frame_of_load(0, key(3), out, room);
    case 'w':
        return frame_of_load(0, key(4), out, room);
    case 'a':
        return frame_of_load(1, key(3), out, room);
    case 'o':
        return squall_frame_opened(1, 0, out, room);
    case 'd':
        return squall_frame_done(1, 0, 4, out, room);
    case 'I':
        return frame_of_course(1, NEW, OLD, out, room);
    case 'B':
        return frame_of_course(2, NEW, OLD, out, room);
    case 'T':
        return frame_of_course(3, NEW, OLD, out, room);
    default:
        return frame_of_course((uint32_t)(said - '0'), OLD, NEW, out, room);
    }
}

/* A router hears the frame of what is said. */
static uint32_t hear(squall_router *router, char said) {
    uint8_t frame[1024];
    size_t len = frame_of(said, frame, sizeof frame);
    CHECK(len != 0 && len <= sizeof frame);
    return squall_router_hear(router, frame, len);
}

/* A router takes what is said as a report of the host, if the host can report it. */
static uint32_t take(squall_router *router, char said) {
    switch (said) {
    case 'h':
        return squall_router_loaded(router, 1, 0, 3, key(2), squall_rank(2, 7));
    case 'l':
        return squall_router_loaded(router, 1, 0, 3, key(2), key(3));
    case 'w':
        return squall_router_loaded(router, 1, 0, 3, key(2), key(4));
    case 'a':
        return squall_router_loaded(router, 1, 1, 3, key(2), key(3));
    case 'o':
        return squall_router_opened(router, 1, 0);
    case 'd':
        return squall_router_done(router, 1, 0, 4);
    case 'I':
        return squall_router_issued(router, 1, bytes_of(OLD), strlen(OLD));
    case 'B':
        return squall_router_issued(router, 2, bytes_of(OLD), strlen(OLD));
    case 'T':
        return squall_router_issued(router, 3, bytes_of(OLD), strlen(OLD));
    default:
        return hear(router, said);
    }
}

typedef uint32_t way(squall_router *router, char said);
static way *const WAYS[] = {hear, take};

/* A router that begins with course 1, to which so much came. */
static squall_router *router_after(way *come, const char *said) {
    squall_router *router = router_of(1, OLD, NEW);
    for (; *said != 0; said++) {
        CHECK(come(router, *said) == SQUALL_OK);
    }
    return router;
}

/* ---- rows */

/* A key, and the partition that is asked for it. */
struct asked {
    uint64_t key;
    uint32_t part;
};

enum { ASKED = 6 };

/* What came, the number of the course that the router then uses, its table if that is a plan, and the
 * partitions that it asks for keys; partition 0 ends the list. */
struct row {
    const char *said;
    uint32_t number;
    const char *plan;
    struct asked asked[ASKED];
};

#define KEY(root, second) ((UINT64_C(root) << 32) + second)

static const struct row ROWS[] = {
    {"", 1, OLD, {{KEY(2, 0), 1}}},
    /* An opening moves no key, nor does a load in a sub-plan that brings the partition none. */
    {"o", 1, OLD, {{KEY(2, 0), 1}, {KEY(6, 0), 3}}},
    {"a", 1, OLD, {{KEY(2, 0), 1}}},
    /* Of a load the keys move that the sub-plan brings there. */
    {"w", 1, NULL, {{KEY(1, 9), 1}, {KEY(2, 0), 3}, {KEY(2, 9), 3}, {KEY(3, 0), 2}}},
    {"ld", 1, NEW, {{KEY(2, 0), 3}, {KEY(6, 0), 4}, {KEY(8, 4294967295), 4}, {KEY(3, 0), 2}}},
    {"h", 1, NULL, {{KEY(1, 9), 1}, {KEY(2, 0), 3}, {KEY(2, 6), 3}, {KEY(2, 7), 1}, {KEY(6, 0), 3}}},
    /* A completion moves all that comes in. */
    {"d", 1, NULL, {{KEY(2, 0), 1}, {KEY(4, 9), 2}, {KEY(5, 9), 3}, {KEY(6, 0), 4}, {KEY(8, 9), 4}, {KEY(9, 0), 4}}},
    /* Once all has come, the table is the plan. */
    {"dl", 1, NEW, {{0, 0}}},
    {"dh", 1, NULL, {{KEY(2, 6), 3}, {KEY(2, 7), 1}, {KEY(6, 0), 4}}},
    /* An issue turns the router, and an older one does not. */
    {"B", 2, NEW, {{0, 0}}},
    {"lB", 2, NEW, {{0, 0}}},
    {"Tl21", 3, NEW, {{0, 0}}},
    {"I", 1, NULL, {{0, 0}}},
    /* A clash makes the first course the newest, or an older one. */
    {"Bl", 2, NULL, {{KEY(8, 0), 4}}},
    {"Bl2", 1, NULL, {{KEY(8, 0), 3}, {KEY(2, 0), 3}}},
    {"3B", 3, OLD, {{0, 0}}},
    {"3BT", 2, NEW, {{0, 0}}},
    /* A clash of an older one turns nothing. */
    {"TB2", 3, NEW, {{0, 0}}},
};

enum { LEGS = 16 };

/* Whether both routers have the same table, of at most 16 legs. */
static bool same_table(const squall_router *one, const squall_router *other) {
    squall_leg legs[2][LEGS];
    size_t count = squall_router_legs(one, 0, SQUALL_TOP, legs[0], LEGS);
    bool same = count <= LEGS && squall_router_legs(other, 0, SQUALL_TOP, legs[1], LEGS) == count;
    for (size_t i = 0; same && i < count; i++) {
        same = legs[0][i].lo == legs[1][i].lo && legs[0][i].hi == legs[1][i].hi && legs[0][i].part == legs[1][i].part;
    }
    return same;
}

/* Whether the table of the router is that of a router that begins with the plan. */
static bool has_plan(const squall_router *router, const char *plan) {
    squall_router *other = router_of(1, plan, plan);
    bool same = same_table(router, other);
    drop_router(other);
    return same;
}

/* Whether an errand for the key begins at the partition. */
static bool begins_at(const squall_router *router, struct asked asked) {
    squall_errand *errand = (squall_errand *)room_of(squall_errand_size());
    squall_errand_start(router, asked.key, errand);
    bool right = squall_errand_asked(errand) == asked.part && squall_errand_number(errand) == 0;
    squall_errand_close(errand);
    free(errand);
    return right;
}

static void look_at_row(const struct row *row, way *come) {
    squall_router *router = router_after(come, row->said);
    CHECK(squall_router_number(router) == row->number);
    CHECK(row->plan == NULL || has_plan(router, row->plan));
    for (int i = 0; i < ASKED && row->asked[i].part != 0; i++) {
        CHECK(squall_router_route(router, row->asked[i].key) == row->asked[i].part);
        CHECK(begins_at(router, row->asked[i]));
    }
    drop_router(router);
}

static void routers_go_by_what_came(void) {
    for (size_t i = 0; i < sizeof ROWS / sizeof ROWS[0]; i++) {
        for (int at = 0; at < 2; at++) {
            look_at_row(&ROWS[i], WAYS[at]);
        }
    }
}

/* The frames of the router's board, one after the other; how many bytes they have. */
static size_t board_of(squall_router *router, uint8_t *out, size_t room) {
    size_t total = 0;
    size_t len;
    CHECK(squall_router_gather_board(router, SQUALL_NO_LIMIT) == SQUALL_OK);
    while ((len = squall_router_frame(router, out + total, room - total)) != 0) {
        total += len;
    }
    return total;
}

/* Whether both routers have one board, one number and one table. They are closed. */
static bool are_alike(squall_router *one, squall_router *other) {
    uint8_t frames[2][2048];
    size_t len = board_of(one, frames[0], sizeof frames[0]);
    bool same = board_of(other, frames[1], sizeof frames[1]) == len && memcmp(frames[0], frames[1], len) == 0;
    same = same && squall_router_number(one) == squall_router_number(other) && same_table(one, other);
    drop_router(one);
    drop_router(other);
    return same;
}

/* What came in one order and number, what came in another, and whether it is the same. */
static void any_order_and_number(void) {
    CHECK(are_alike(router_after(hear, "hd"), router_after(hear, "dhdh")));
    CHECK(!are_alike(router_after(hear, "hd"), router_after(hear, "h")));
    CHECK(are_alike(router_after(hear, "Bd"), router_after(hear, "dBB")));
    CHECK(!are_alike(router_after(hear, "Bd"), router_after(hear, "d")));
    /* More of a cell is no longer known. */
    CHECK(are_alike(router_after(take, "hhll"), router_after(hear, "l")));
}

/* A report that is taken does what its frame does. */
static void taken_as_heard(void) {
    const char *const lists[] = {"ohl", "waw", "dld", "hBl", "Bl2d", "3BTw", "Iho"};
    for (size_t i = 0; i < sizeof lists / sizeof lists[0]; i++) {
        CHECK(are_alike(router_after(take, lists[i]), router_after(hear, lists[i])));
    }
}

static void legs_are_cut_to_the_span(void) {
    squall_leg legs[4];
    squall_router *router = router_of(1, OLD, NEW);
    CHECK(squall_router_legs(router, squall_rank(2, 5), squall_rank(5, 1), legs, 4) == 3);
    CHECK(is_leg(legs[0], squall_rank(2, 5), key(3), 1) && is_leg(legs[1], key(3), key(5), 2));
    CHECK(is_leg(legs[2], key(5), squall_rank(5, 1), 3));
    CHECK(take(router, 'l') == SQUALL_OK);
    CHECK(squall_router_legs(router, key(2), key(4), legs, 4) == 2);
    CHECK(is_leg(legs[0], key(2), key(3), 3) && is_leg(legs[1], key(3), key(4), 2));
    drop_router(router);
}

/* ---- tables of many legs */

enum { RANGES = 2101, MANY = 4096 };

static squall_router *router_of_many(void) {
    return router_from_ranges(RANGES);
}

/* Some keys in the middle of legs 1, 301, 1201 and 2099, each of partition 4: two legs more for each. */
static const squall_span SPLITS[] = {
    {KEY(4, 0), KEY(5, 0)}, {KEY(904, 0), KEY(905, 0)}, {KEY(3604, 0), KEY(3605, 0)}, {KEY(6298, 0), KEY(6299, 0)}, {0, 0}};
/* All keys of legs 301, 303 and 1201: two legs fewer for each. */
static const squall_span JOINS[] = {
    {KEY(903, 301), KEY(906, 302)}, {KEY(909, 303), KEY(912, 304)}, {KEY(3603, 1201), KEY(3606, 1202)}, {0, 0}};
/* From leg 400 to leg 1000, which become one leg. */
static const squall_span WIDE[] = {{KEY(1200, 400), KEY(3000, 1000)}, {0, 0}};
/* The first keys of leg 301 and the last of leg 1201: as many legs as before. */
static const squall_span BORDERS[] = {{KEY(903, 301), KEY(904, 0)}, {KEY(3605, 0), KEY(3606, 1202)}, {0, 0}};
/* Leg 301 is split, legs 400 to 1000 become one, leg 301 is joined, and leg 2099 is split. */
static const squall_span ALL_FOUR[] = {
    {KEY(904, 0), KEY(905, 0)}, {KEY(1200, 400), KEY(3000, 1000)}, {KEY(903, 301), KEY(906, 302)}, {KEY(6298, 0), KEY(6299, 0)}, {0, 0}};
/* All that comes to partition 3. */
static const squall_span ALL[] = {{0, SQUALL_TOP}, {0, 0}};
static const squall_span NONE[] = {{0, 0}};

/* The router takes loads at partition 3, one after the other, or that it is done. */
static void take_loads(squall_router *router, const squall_span *loads) {
    for (; loads->hi != 0; loads++) {
        uint32_t status = loads->hi == SQUALL_TOP ? squall_router_done(router, 1, 0, 3)
                                                  : squall_router_loaded(router, 1, 0, 3, loads->lo, loads->hi);
        CHECK(status == SQUALL_OK);
    }
}

/* The router hears the loads in one frame. */
static void hear_loads(squall_router *router, const squall_span *loads) {
    squall_router *other = router_of(1, OLD, NEW);
    uint8_t frame[1024];
    take_loads(other, loads);
    size_t len = board_of(other, frame, sizeof frame);
    CHECK(len == 0 || squall_router_hear(router, frame, len) == SQUALL_OK);
    drop_router(other);
}

static size_t legs_of(const squall_router *router, squall_leg *legs) {
    return squall_router_legs(router, 0, SQUALL_TOP, legs, MANY);
}

/* Whether both have the same legs, and this many. */
static bool have_legs(const squall_router *one, const squall_router *other, size_t wanted) {
    static squall_leg legs[2][MANY];
    bool same = legs_of(one, legs[0]) == wanted && legs_of(other, legs[1]) == wanted;
    for (size_t i = 0; same && i < wanted; i++) {
        same = is_leg(legs[0][i], legs[1][i].lo, legs[1][i].hi, legs[1][i].part);
    }
    return same;
}

/* What comes first, what comes then, and how many legs there are after both. */
static const struct many {
    const squall_span *first;
    const squall_span *then;
    size_t legs;
} MANY_ROWS[] = {
    {NONE, NONE, 2101}, {SPLITS, NONE, 2109}, {JOINS, NONE, 2095}, {BORDERS, NONE, 2101}, {WIDE, NONE, 1501}, {ALL, NONE, 1},
    /* The pieces of legs 301 and 1201 go, with those of leg 303. */
    {SPLITS, JOINS, 2099}, {JOINS, SPLITS, 2099}, {BORDERS, WIDE, 1501}, {WIDE, SPLITS, 1509}, {WIDE, ALL, 1},
    {ALL, SPLITS, 1}, {ALL_FOUR, NONE, 1501},
};

/* A table is the same if it takes the reports one by one, or hears of several in a frame. */
static void tables_of_many_legs(void) {
    for (size_t i = 0; i < sizeof MANY_ROWS / sizeof MANY_ROWS[0]; i++) {
        const struct many *row = &MANY_ROWS[i];
        squall_router *one = router_of_many();
        squall_router *other = router_of_many();
        take_loads(one, row->first);
        take_loads(one, row->then);
        hear_loads(other, row->first);
        hear_loads(other, row->then);
        CHECK(have_legs(one, other, row->legs));
        drop_router(one);
        drop_router(other);
    }
}

/* ---- tables row by row */

enum kind { NOTHING, LOAD, DONE, OPENED };

/* A report of partition 3's load, or of a completion, or of an opening. Its course is the one that the table is of,
 * or one later. */
struct report {
    enum kind kind;
    uint64_t lo;
    uint64_t hi;
    uint32_t part;
    uint32_t sub;
    uint32_t later;
};

#define LOADED(lo, hi) {LOAD, lo, hi, 3, 0, 0}
#define DONE_BY(part) {DONE, 0, 0, part, 0, 0}
#define NO_REPORT {NOTHING, 0, 0, 0, 0, 0}

/* The router takes the report, which is of that course. */
static void take_report(squall_router *router, const struct report *report, uint32_t course) {
    uint32_t number = course + report->later;
    uint32_t status = SQUALL_OK;
    if (report->kind == LOAD) {
        status = squall_router_loaded(router, number, report->sub, report->part, report->lo, report->hi);
    } else if (report->kind == DONE) {
        status = squall_router_done(router, number, report->sub, report->part);
    } else if (report->kind == OPENED) {
        status = squall_router_opened(router, number, report->sub);
    }
    CHECK(status == SQUALL_OK);
}

/* The two plans of a course, reports that come first and then, and the legs of the table after both. */
struct table_row {
    const char *old;
    const char *new_plan;
    struct report first[2];
    struct report then[2];
    const char *legs;
};

static void take_both(squall_router *router, const struct report *reports, uint32_t course) {
    take_report(router, &reports[0], course);
    take_report(router, &reports[1], course);
}

/* The router hears both reports in one frame. */
static void hear_both(squall_router *router, const struct report *reports) {
    squall_router *other = router_of(1, OLD, NEW);
    uint8_t frame[1024];
    take_both(other, reports, 1);
    size_t len = board_of(other, frame, sizeof frame);
    CHECK(len == 0 || squall_router_hear(router, frame, len) == SQUALL_OK);
    drop_router(other);
}

/* A table that takes the reports one by one. */
static squall_router *taken(const struct table_row *row) {
    squall_router *router = router_of(1, row->old, row->new_plan);
    take_both(router, row->first, 1);
    take_both(router, row->then, 1);
    return router;
}

/* A table that takes them from two frames. */
static squall_router *absorbed(const struct table_row *row) {
    squall_router *router = router_of(1, row->old, row->new_plan);
    hear_both(router, row->first);
    hear_both(router, row->then);
    return router;
}

/* A table that is built of the board that has taken them: they are of course 2, which is issued after them. */
static squall_router *built(const struct table_row *row) {
    squall_router *router = router_of(1, row->new_plan, row->old);
    take_both(router, row->first, 2);
    take_both(router, row->then, 2);
    CHECK(squall_router_issued(router, 2, bytes_of(row->new_plan), strlen(row->new_plan)) == SQUALL_OK);
    CHECK(squall_router_number(router) == 2);
    return router;
}

/* The table as text: of each leg its partition and its span. */
static void write_legs(const squall_router *router, char *out) {
    squall_leg legs[LEGS];
    size_t count = squall_router_legs(router, 0, SQUALL_TOP, legs, LEGS);
    CHECK(count <= LEGS);
    for (size_t i = 0; i < count && i < LEGS; i++) {
        out += sprintf(out, "%u [%u:%u,", legs[i].part, (unsigned)(legs[i].lo >> 32), (unsigned)legs[i].lo);
        out += legs[i].hi == SQUALL_TOP ? sprintf(out, "end);")
                                        : sprintf(out, "%u:%u);", (unsigned)(legs[i].hi >> 32), (unsigned)legs[i].hi);
    }
    *out = 0;
}

#define BEFORE "1 [0:0,3:0);2 [3:0,5:0);3 [5:0,9:0);4 [9:0,end);"
#define AFTER_LOAD "1 [0:0,2:0);3 [2:0,3:0);2 [3:0,5:0);3 [5:0,9:0);4 [9:0,end);"

static const char ALONE[] = "{\"plan\":[{\"part\":1,\"from\":[0,0],\"to\":\"end\"}]}";
/* The first keys and the last go from 1 to 3. */
static const char ENDS[] = "{\"plan\":[{\"part\":3,\"from\":[0,0],\"to\":[1,0]},{\"part\":1,\"from\":[1,0],\"to\":[8,0]},"
                           "{\"part\":3,\"from\":[8,0],\"to\":\"end\"}]}";

static const struct table_row TABLE_ROWS[] = {
    {OLD, NEW, {{OPENED, 0, 0, 0, 0, 0}, NO_REPORT}, {{OPENED, 0, 0, 0, 0, 0}, NO_REPORT}, BEFORE},
    /* One move brings all keys of the span, or some of them. */
    {OLD, NEW, {{OPENED, 0, 0, 0, 0, 0}, NO_REPORT}, {LOADED(KEY(2, 0), KEY(3, 0)), NO_REPORT}, AFTER_LOAD},
    {OLD, NEW, {{OPENED, 0, 0, 0, 0, 0}, NO_REPORT}, {LOADED(KEY(1, 0), KEY(4, 0)), NO_REPORT}, AFTER_LOAD},
    {OLD, NEW, {LOADED(KEY(2, 0), KEY(2, 7)), NO_REPORT}, {LOADED(KEY(2, 5), KEY(2, 9)), NO_REPORT},
     "1 [0:0,2:0);3 [2:0,2:9);1 [2:9,3:0);2 [3:0,5:0);3 [5:0,9:0);4 [9:0,end);"},
    /* The leg of the load joins the one below it, the one above it, or has been there. */
    {OLD, NEW, {LOADED(KEY(2, 0), KEY(2, 7)), NO_REPORT}, {LOADED(KEY(2, 7), KEY(3, 0)), NO_REPORT}, AFTER_LOAD},
    {OLD, NEW, {LOADED(KEY(2, 7), KEY(3, 0)), NO_REPORT}, {LOADED(KEY(2, 0), KEY(2, 7)), NO_REPORT}, AFTER_LOAD},
    {OLD, NEW, {LOADED(KEY(2, 0), KEY(3, 0)), NO_REPORT}, {LOADED(KEY(2, 3), KEY(2, 7)), NO_REPORT}, AFTER_LOAD},
    /* None of the span goes to partition 3. */
    {OLD, NEW, {{OPENED, 0, 0, 0, 0, 0}, NO_REPORT}, {LOADED(KEY(5, 0), KEY(9, 0)), NO_REPORT}, BEFORE},
    {OLD, NEW, {LOADED(KEY(2, 0), KEY(3, 0)), NO_REPORT}, {DONE_BY(4), NO_REPORT},
     "1 [0:0,2:0);3 [2:0,3:0);2 [3:0,5:0);3 [5:0,6:0);4 [6:0,end);"},
    /* Completions of another course, and of a sub-plan in which no key moves. */
    {OLD, NEW, {{DONE, 0, 0, 4, 0, 1}, NO_REPORT}, {{DONE, 0, 0, 4, 1, 0}, NO_REPORT}, BEFORE},
    /* Some of a move, and all of one. */
    {OLD, NEW, {LOADED(KEY(2, 0), KEY(2, 7)), NO_REPORT}, {NO_REPORT, NO_REPORT},
     "1 [0:0,2:0);3 [2:0,2:7);1 [2:7,3:0);2 [3:0,5:0);3 [5:0,9:0);4 [9:0,end);"},
    {OLD, NEW, {DONE_BY(4), NO_REPORT}, {NO_REPORT, NO_REPORT}, "1 [0:0,3:0);2 [3:0,5:0);3 [5:0,6:0);4 [6:0,end);"},
    {OLD, NEW, {LOADED(KEY(2, 0), KEY(2, 3)), LOADED(KEY(2, 5), KEY(2, 7))}, {NO_REPORT, NO_REPORT},
     "1 [0:0,2:0);3 [2:0,2:3);1 [2:3,2:5);3 [2:5,2:7);1 [2:7,3:0);2 [3:0,5:0);3 [5:0,9:0);4 [9:0,end);"},
    /* The same a second time changes nothing. */
    {OLD, NEW, {LOADED(KEY(2, 1), KEY(2, 2)), DONE_BY(4)}, {LOADED(KEY(2, 1), KEY(2, 2)), DONE_BY(4)},
     "1 [0:0,2:1);3 [2:1,2:2);1 [2:2,3:0);2 [3:0,5:0);3 [5:0,6:0);4 [6:0,end);"},
    {ALONE, ENDS, {LOADED(KEY(0, 0), KEY(0, 4)), NO_REPORT}, {LOADED(KEY(8, 5), SQUALL_TOP), NO_REPORT},
     "3 [0:0,0:4);1 [0:4,8:5);3 [8:5,end);"},
    {ALONE, ENDS, {LOADED(KEY(0, 4), KEY(0, 7)), NO_REPORT}, {DONE_BY(3), NO_REPORT},
     "3 [0:0,1:0);1 [1:0,8:0);3 [8:0,end);"},
};

/* A table has the legs of its row, whether it takes the reports, absorbs their frames or is built of them. */
static void tables_have_rows(void) {
    static squall_router *(*const MADE[])(const struct table_row *) = {taken, absorbed, built};
    for (size_t i = 0; i < sizeof TABLE_ROWS / sizeof TABLE_ROWS[0]; i++) {
        for (int at = 0; at < 3; at++) {
            char legs[LEGS * 64];
            squall_router *router = MADE[at](&TABLE_ROWS[i]);
            write_legs(router, legs);
            CHECK(strcmp(legs, TABLE_ROWS[i].legs) == 0);
            drop_router(router);
        }
    }
}

enum { LOADS = 500 };

/* Loads of one move, each of one key: two legs for each, and four that no load changes. */
static void each_load_of_one_move(void) {
    static squall_leg legs[MANY];
    squall_router *router = router_of(1, OLD, NEW);
    for (uint32_t i = 0; i < LOADS; i++) {
        CHECK(squall_router_loaded(router, 1, 0, 3, squall_rank(2, 2 * i), squall_rank(2, 2 * i + 1)) == SQUALL_OK);
    }
    CHECK(legs_of(router, legs) == 2 * LOADS + 4);
    for (uint32_t i = 0; i < LOADS; i++) {
        CHECK(squall_router_route(router, squall_rank(2, 2 * i)) == 3 && squall_router_route(router, squall_rank(2, 2 * i + 1)) == 1);
    }
    drop_router(router);
}

/* Where range `index` of `count` begins, and the top behind the last. */
static uint64_t begin_of(uint32_t index, uint32_t count) {
    return index == count ? SQUALL_TOP : squall_rank(3 * index, index);
}

/* A router of the plan of that many ranges, which is no course of moves. */
static squall_router *router_of_ranges(uint32_t count) {
    char *text = (char *)room_of(count * 80 + 80);
    char *end = text + sprintf(text, "{\"plan\":[");
    for (uint32_t i = 0; i < count; i++) {
        end += sprintf(end, "{\"part\":%u,\"from\":[%u,%u],\"to\":", i % 7, i * 3, i);
        end += i + 1 == count ? sprintf(end, "\"end\"}") : sprintf(end, "[%u,%u]},", i * 3 + 3, i + 1);
    }
    sprintf(end, "]}");
    squall_router *router = router_of(1, text, text);
    CHECK(squall_router_status(router) == SQUALL_OK);
    free(text);
    return router;
}

/* Whether the key, if it is one, is in that leg: by its route, and by the legs from it on. */
static bool is_in_leg(const squall_router *router, uint64_t rank, uint64_t hi, uint32_t part) {
    squall_leg leg;
    return rank == SQUALL_TOP || (squall_router_route(router, rank) == part
                                  && squall_router_legs(router, rank, SQUALL_TOP, &leg, 1) > 0
                                  && is_leg(leg, rank, hi, part));
}

/* Each bound, and the keys beside it. Of 2101 legs there are several blocks. */
static void look_ups(void) {
    static const uint32_t COUNTS[] = {1, 2, 3, 15, 16, 17, 33, 100, 2101};
    for (size_t i = 0; i < sizeof COUNTS / sizeof COUNTS[0]; i++) {
        uint32_t count = COUNTS[i];
        squall_router *router = router_of_ranges(count);
        static squall_leg legs[MANY];
        CHECK(legs_of(router, legs) == count);
        for (uint32_t at = 0; at < count; at++) {
            uint64_t lo = begin_of(at, count);
            uint64_t hi = begin_of(at + 1, count);
            CHECK(is_leg(legs[at], lo, hi, at % 7));
            CHECK(is_in_leg(router, lo, hi, at % 7) && is_in_leg(router, lo + 1, hi, at % 7));
            CHECK(is_in_leg(router, hi - 1, hi, at % 7));
        }
        drop_router(router);
    }
}

/* ---- errands */

/* A reply with its partition and its number, 0 if it has none, and what the errand answers. */
struct heed {
    uint32_t reply;
    uint32_t part;
    uint32_t number;
    uint32_t next;
};

enum { HEEDS = 4 };

/* Replies to an errand that begins at partition 1, and the partition that it asks and the number of the
 * last move then. Those that are left out are as the last one. */
struct course_of_replies {
    struct heed heeds[HEEDS];
    int count;
    uint32_t asked;
    uint32_t number;
};

#define HELD(next) {SQUALL_HELD, 0, 0, next}
#define BEHIND(next) {SQUALL_BEHIND, 0, 0, next}
#define MOVED(part, number, next) {SQUALL_MOVED, part, number, next}
#define PENDING(part, next) {SQUALL_PENDING, part, 0, next}
#define ELSEWHERE(part, next) {SQUALL_ELSEWHERE, part, 0, next}

static const struct course_of_replies REPLIES[] = {
    {{HELD(SQUALL_SERVED), BEHIND(SQUALL_SERVED), MOVED(2, 9, SQUALL_SERVED), ELSEWHERE(2, SQUALL_SERVED)}, 4, 1, 0},
    /* It waits where the key is on its way. */
    {{PENDING(4, SQUALL_AGAIN), BEHIND(SQUALL_AGAIN), HELD(SQUALL_SERVED)}, 3, 1, 0},
    /* It follows greater numbers. */
    {{MOVED(3, 2, SQUALL_ASK), PENDING(1, SQUALL_AGAIN), MOVED(5, 7, SQUALL_ASK), BEHIND(SQUALL_AGAIN)}, 4, 5, 7},
    /* An equal number, a lower one, the same again, and a key that was never there are contradictions: it is
     * lost for ever, and keeps its place and number. */
    {{MOVED(3, 2, SQUALL_ASK), MOVED(5, 2, SQUALL_LOST), HELD(SQUALL_LOST), MOVED(4, 9, SQUALL_LOST)}, 4, 3, 2},
    {{MOVED(3, 2, SQUALL_ASK), MOVED(5, 1, SQUALL_LOST), HELD(SQUALL_LOST), MOVED(4, 9, SQUALL_LOST)}, 4, 3, 2},
    {{MOVED(3, 2, SQUALL_ASK), MOVED(3, 2, SQUALL_LOST), HELD(SQUALL_LOST), MOVED(4, 9, SQUALL_LOST)}, 4, 3, 2},
    {{MOVED(3, 2, SQUALL_ASK), ELSEWHERE(1, SQUALL_LOST), HELD(SQUALL_LOST), MOVED(4, 9, SQUALL_LOST)}, 4, 3, 2},
    {{MOVED(3, 0, SQUALL_LOST)}, 1, 1, 0},
    {{MOVED(3, 2, SQUALL_ASK), MOVED(5, 7, SQUALL_ASK), MOVED(6, 7, SQUALL_LOST), MOVED(8, 9, SQUALL_LOST)}, 4, 5, 7},
    {{MOVED(3, 1, SQUALL_ASK), PENDING(1, SQUALL_AGAIN), HELD(SQUALL_SERVED), ELSEWHERE(1, SQUALL_SERVED)}, 4, 3, 1},
    {{MOVED(3, 1, SQUALL_ASK), MOVED(3, 1, SQUALL_LOST), HELD(SQUALL_LOST)}, 3, 3, 1},
};

static void look_at_replies(const squall_router *router, const struct course_of_replies *row) {
    squall_errand *errand = (squall_errand *)room_of(squall_errand_size());
    squall_errand_start(router, key(2), errand);
    CHECK(squall_errand_asked(errand) == 1 && squall_errand_number(errand) == 0);
    for (int i = 0; i < row->count; i++) {
        struct heed heed = row->heeds[i];
        CHECK(squall_errand_heed(errand, heed.reply, heed.part, heed.number) == heed.next);
    }
    CHECK(squall_errand_asked(errand) == row->asked && squall_errand_number(errand) == row->number);
    squall_errand_close(errand);
    free(errand);
}

static void errands_follow_replies(void) {
    squall_router *router = router_of(1, OLD, NEW);
    for (size_t i = 0; i < sizeof REPLIES / sizeof REPLIES[0]; i++) {
        look_at_replies(router, &REPLIES[i]);
    }
    drop_router(router);
}

static const struct test TESTS[] = {
    TEST(routers_go_by_what_came),
    TEST(any_order_and_number),
    TEST(taken_as_heard),
    TEST(legs_are_cut_to_the_span),
    TEST(tables_of_many_legs),
    TEST(tables_have_rows),
    TEST(each_load_of_one_move),
    TEST(look_ups),
    TEST(errands_follow_replies),
};

int main(void) {
    return run_tests(TESTS, sizeof TESTS / sizeof TESTS[0]);
}
