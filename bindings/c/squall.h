/* squall for C and C++: which partition to ask for a key while partitions move.
 *
 * A router knows an old and a new partition plan and takes reports of what was loaded where. It
 * says for each key which partition to ask. A view is what a router said at one moment, for threads
 * that only read. An errand follows the replies of partitions until a key is found. A course says
 * which keys move, from which partition to which. A partition holds keys, gives and loads them while
 * they move, and replies to requests for them. A leader begins one course after another, and opens
 * their sub-plans.
 *
 * Link with libsquall.a or libsquall.so (tools/library makes both). docs/EMBEDDING.md is a
 * walk through all of this; docs/FORMATS.md has the text of a plan and the bytes of a frame.
 *
 *
 * RULES
 *
 * What the library's contracts promise holds for a host that keeps these rules. Nothing can check
 * them: where one is broken, the behaviour is undefined.
 *
 * 1. Rooms. Routers, views, errands, courses, partitions and leaders live in memory that the host
 *    gives: a room. A room has at least as many bytes as squall_router_size(), squall_view_size(),
 *    squall_errand_size(), squall_course_size(), squall_part_size() or squall_leader_size() answers,
 *    is writable and is aligned to 16, as memory of malloc is.
 * 2. Open once, close once. These calls open a room: each squall_.._open, squall_view_again,
 *    squall_errand_start and _start_at, squall_course_newest and _first, squall_leader_resume, and
 *    squall_leader_course, whose room is that of a course. Each is followed by one close of the
 *    room's kind, also if the status says that nothing was opened. Between the two the host neither
 *    reads nor writes nor copies nor moves the room: its address is a handle, which it passes to
 *    functions of this header that take one of that kind, and to nothing else. After the close the
 *    room is plain memory again, and may be opened again.
 * 3. One call at a time. Each handle serves one call at a time, also if the call only reads and its
 *    pointer is to const. Views are the exception, for the calls that only read them:
 *    squall_view_status, _route, _routes, _locate, _legs, _number and _changes, and
 *    squall_errand_start_at. Any number of these may run at once with one view, and no other call with it
 *    meanwhile. Calls with different handles may run at the same time, also if one was made from the
 *    other, or both share a course or a table.
 *    What the contracts promise rests on one call at a time. That the exception changes nothing of it is
 *    trusted and not proved, for this reason: these calls take the view by a shared borrow and change no
 *    count of owners, and nothing else in a view can change behind a shared borrow.
 * 4. Threads. A handle may pass from one thread to another if a lock, the start or the join of a
 *    thread, or a sequentially consistent atomic orders the calls. The same orders the opening of a
 *    view before the calls that share it, and those before its close. No function starts a thread,
 *    takes a lock or waits.
 * 5. What is read. A pointer and a length name that many bytes, `ranks` and `count` that many ranks,
 *    `loaded` and `count` that many spans, and `chunk` one chunk. They are readable and do not change
 *    while the call runs. The pointer is not null, even for length 0, and is aligned as what it points
 *    to is.
 * 6. Places for answers. A pointer `out` or `parts` and a `room` name that many places, and an `out`
 *    without a `room` names one. They are writable and in no handle's room. The pointer is not null,
 *    even for room 0, and is aligned as what it points to is.
 * 7. Memory. malloc, realloc and free of the program are one allocator, which aligns a block to each
 *    power of two up to 16 that divides its size. heap.c, which is part of the library, calls them.
 *    A host with an allocator of its own links its own three functions in the place of that file,
 *    which do what is said there, and return.
 * 8. Signals and forks. No function is called in a signal handler, nor, where the program has
 *    threads, in the child of a fork before it executes another program.
 * 9. Stack. The calls that read the text of a plan have 192 KiB of stack, as a text may nest objects:
 *    squall_router_open, squall_router_issued, squall_course_open, squall_leader_open,
 *    squall_leader_begin and squall_leader_begin_from. Any other call has 64 KiB.
 *
 * What is no matter of these rules: any numbers, any bytes of a plan or a frame, any order of
 * reports and any failed allocation. Each has its answer below.
 *
 *
 * WORDS
 *
 * Key      a pair root:second of 32 bits each, given as its rank root * 4294967296 + second. The
 *          ranks below SQUALL_TOP are keys; SQUALL_TOP is the end of all keys and no key itself.
 * Span     the keys from lo on, below hi.
 * Course   a numbered change from one plan to another, worked off in sub-plans, numbered from 0.
 * Board    what a router, a partition or a leader was told. Reports may come in any order and more
 *          than once.
 */
#ifndef SQUALL_H
#define SQUALL_H

#include <stddef.h>
#include <stdint.h>

#ifdef __cplusplus
extern "C" {
#endif

/* How a call ended. squall_message has a text for each. The faults of plans and frames are explained in
 * docs/FORMATS.md. */
enum squall_status {
    SQUALL_OK = 0,
    SQUALL_NO_MEMORY = 1, /* an allocation failed that was needed, or a count of owners is full */
    SQUALL_LIMIT = 2,     /* a number or a rank lies outside its limits, or a span has no keys */
    SQUALL_CLOSED = 3,    /* nothing was opened here: the status of the handle says why */
    SQUALL_FAILED = 4,    /* a frame fault came earlier, and the stream is at its end */
    SQUALL_TOO_LONG = 5,  /* a frame would have more bytes than it may have */
    SQUALL_NO_DIGEST = 6, /* no digest was heard that could be answered */
    SQUALL_FULL = 7,      /* the router would hear of more than its limit */

    /* Why a text is no plan; of squall_router_open, squall_course_open and squall_leader_begin_from the
     * old one. */
    SQUALL_PLAN_JSON = 11,
    SQUALL_PLAN_SHAPE = 12,
    SQUALL_PLAN_BAD_PART = 13,
    SQUALL_PLAN_BAD_BOUND = 14,
    SQUALL_PLAN_EMPTY_RANGE = 15,
    SQUALL_PLAN_TOO_MANY = 16,
    SQUALL_PLAN_OVERLAP = 17,
    SQUALL_PLAN_GAP = 18,

    /* Why the text of the new plan is none. */
    SQUALL_NEW_PLAN_JSON = 31,
    SQUALL_NEW_PLAN_SHAPE = 32,
    SQUALL_NEW_PLAN_BAD_PART = 33,
    SQUALL_NEW_PLAN_BAD_BOUND = 34,
    SQUALL_NEW_PLAN_EMPTY_RANGE = 35,
    SQUALL_NEW_PLAN_TOO_MANY = 36,
    SQUALL_NEW_PLAN_OVERLAP = 37,
    SQUALL_NEW_PLAN_GAP = 38,

    /* Why bytes are no frame. */
    SQUALL_FRAME_MAGIC = 51,
    SQUALL_FRAME_VERSION = 52,
    SQUALL_FRAME_KIND = 53,
    SQUALL_FRAME_TOO_LONG = 54,
    SQUALL_FRAME_SHORT = 55, /* of squall_.._hear alone: the bytes end within the frame */
    SQUALL_FRAME_COUNT = 56,
    SQUALL_FRAME_RANGE = 57,
    SQUALL_FRAME_ORDER = 58,
    SQUALL_FRAME_SPARE = 59,

    /* Why a partition does not give, load or finish. docs/SCENARIOS.md has the same names. */
    SQUALL_NOT_OPEN = 71,     /* as far as the partition knows, the sub-plan is not opened */
    SQUALL_NOTHING_LEFT = 72, /* it holds no key that goes out in the sub-plan opened last */
    SQUALL_ZERO_MAX = 73,     /* no key was asked for */
    SQUALL_NOT_OUTGOING = 74, /* the key does not go out in the sub-plan opened last */
    SQUALL_GIVEN = 75,        /* the key was given under this course before */
    SQUALL_NOT_HELD = 76,     /* the key goes out, and is neither given nor held */
    SQUALL_STRANGER = 77,     /* the course does not bring these keys to this partition so */
    SQUALL_NOT_ALL = 78,      /* keys that come in are missing */
    SQUALL_NOTHING_DUE = 79,  /* no key comes in, in that sub-plan */
    SQUALL_LOADED_BEFORE = 80, /* each key of the chunk was loaded before */
    SQUALL_ENDED = 81,         /* the partition gives no more in its newest course */

    /* Why a leader does not go on. */
    SQUALL_RUNNING = 91,   /* the course begun last is not over */
    SQUALL_NO_NUMBER = 92, /* the greatest number is used */
    SQUALL_IDLE = 93,      /* no course is begun */
    SQUALL_NOT_DONE = 94,  /* a partition has not reported that it has all keys of a sub-plan */
    SQUALL_NO_MORE = 95    /* all sub-plans are opened, and the last one is done */
};

/* What a partition replies to an errand. */
enum squall_reply {
    SQUALL_HELD = 0,     /* it holds the key */
    SQUALL_MOVED = 1,    /* it gave the key to `part` in the course `number` */
    SQUALL_PENDING = 2,  /* the key is on its way to it from `part` */
    SQUALL_BEHIND = 3,   /* it has not heard of the course by which the key was sent to it */
    SQUALL_ELSEWHERE = 4 /* it neither has the key nor awaits it: the old plan has it at `part` */
};

/* What to do after a reply. */
enum squall_next {
    SQUALL_SERVED = 0,     /* the key was found: nothing is left to do */
    SQUALL_ASK = 1,        /* ask the partition squall_errand_asked, to which the key went */
    SQUALL_AGAIN = 2,      /* ask the same partition again, later */
    SQUALL_LOST = 3,       /* replies contradict each other: start anew once the router heard more */
    SQUALL_BAD_REPLY = 255 /* that is no reply, or no errand stands here: nothing changed */
};

/* No partition. */
#define SQUALL_NOWHERE UINT32_C(4294967295)
/* No count: an allocation failed. */
#define SQUALL_NO_COUNT SIZE_MAX
/* No place: no plan fault has come that has one. */
#define SQUALL_NO_PLACE UINT64_C(18446744073709551615)
/* The rank of the end of all keys. */
#define SQUALL_TOP UINT64_C(18446744069414584320)
/* No frame has more bytes. */
#define SQUALL_FRAME_BYTES 1048584u
/* No limit: for squall_router_limit, and for the calls that make frames, which keep to that of the
 * format. */
#define SQUALL_NO_LIMIT SIZE_MAX
/* The alignment of each room. */
#define SQUALL_ALIGN 16u

typedef struct squall_router squall_router;
typedef struct squall_view squall_view;
typedef struct squall_errand squall_errand;
typedef struct squall_course squall_course;
typedef struct squall_part squall_part;
typedef struct squall_leader squall_leader;

/* The keys from lo on, below hi, are to be asked for at the partition. */
typedef struct squall_leg {
    uint64_t lo;
    uint64_t hi;
    uint32_t part;
} squall_leg;

/* Where a key stands. It is settled if `part` is `dest`: then it stays there until another course
 * begins. Else the key moves, and its load is not known yet: `part` is `source`. For a rank that is
 * no key's all four are SQUALL_NOWHERE: look at `part` first. */
typedef struct squall_place {
    uint32_t part;   /* the partition to ask */
    uint32_t source; /* its partition in the old plan */
    uint32_t dest;   /* its partition in the new plan */
    uint32_t sub;    /* the sub-plan in which it moves; SQUALL_NOWHERE if it does not move */
} squall_place;

/* The keys from lo on, below hi, move from a partition to another in a sub-plan. */
typedef struct squall_move {
    uint64_t lo;
    uint64_t hi;
    uint32_t source;
    uint32_t dest;
    uint32_t sub;
} squall_move;

/* The keys from lo on, below hi. */
typedef struct squall_span {
    uint64_t lo;
    uint64_t hi;
} squall_span;

/* How much a router heard. A number that does not fit is the greatest one that does. */
typedef struct squall_counts {
    uint64_t cells;  /* of how many partitions in a sub-plan of a course something was reported */
    uint64_t spans;  /* the spans of keys that were loaded, over all cells */
    uint64_t opened; /* the sub-plans that are opened, over all courses */
    uint64_t issues; /* the numbers under which plans were issued */
} squall_counts;

/* The keys from lo on, below hi, on their way from a partition to another in a sub-plan of the course
 * of that number. The host sends their rows and these numbers to `dest`. */
typedef struct squall_chunk {
    uint64_t lo;
    uint64_t hi;
    uint32_t number;
    uint32_t sub;
    uint32_t source;
    uint32_t dest;
} squall_chunk;

/* The reply of a partition: what squall_errand_heed takes. */
typedef struct squall_answer {
    uint32_t reply; /* one of squall_reply */
    uint32_t part;  /* the partition that it names; 0 if none */
    uint32_t number; /* the number that it names; 0 if none */
} squall_answer;

/* The rank of root:second. */
static inline uint64_t squall_rank(uint32_t root, uint32_t second) {
    return ((uint64_t)root << 32) | second;
}


/* KEYS OF ROWS */

/* The rank of the key to which a row belongs whose own key is these bytes. All programs of a
 * deployment have to map a row to the same key, and this is the map. Bytes that begin with two
 * numbers, as `2:7` or `2:7:cart`, belong to the key of these numbers. A number has 1 to 10 decimal
 * digits and is at most 4294967295, the first one at most 4294967294. All other bytes belong to the
 * key of a hash. It is that of the bytes between the first `{` and the next `}` after it, if there
 * is at least one, or else that of all bytes. So `cart{17}` and `basket{17}` have one key. The answer
 * is below SQUALL_TOP. No handle is needed, and any number of calls may run at once. Allocates
 * nothing. */
uint64_t squall_key_of(const uint8_t *bytes, size_t len);


/* ROUTERS */

/* How many bytes the room of a router has. */
size_t squall_router_size(void);

/* Opens a router in the room: of the course `number` from the old plan to the new one, with nothing
 * reported. squall_router_status then says whether there is one:
 *   SQUALL_OK         there is
 *   SQUALL_LIMIT      the number is 0; no text was looked at
 *   SQUALL_PLAN_..    the old text is no plan
 *   SQUALL_NEW_PLAN_..  the old text is one and the new one is none
 *   SQUALL_NO_MEMORY  an allocation failed
 * Where there is none, the other functions answer as they say below, and the room is closed in the
 * same way. Allocates. */
void squall_router_open(uint32_t number, const uint8_t *old_plan, size_t old_len,
                        const uint8_t *new_plan, size_t new_len, squall_router *room);

/* How the opening ended. Never changes. */
uint32_t squall_router_status(const squall_router *router);

/* Where the plan fault lies that was answered last, of an opening or of squall_router_issued: the
 * index of an entry, from 0, for .._SHAPE to .._EMPTY_RANGE; the rank of a bound for .._OVERLAP and
 * .._GAP. SQUALL_NO_PLACE where none was answered, or it has no place. */
uint64_t squall_router_fault_at(const squall_router *router);

/* Takes the report that partition `part` has loaded the keys from lo on, below hi, in sub-plan `sub`
 * of course `number`. Answers
 *   SQUALL_OK         the router has taken it
 *   SQUALL_LIMIT      there is no such report: a number 0, a sub-plan or partition above 9999, a
 *                     rank above SQUALL_TOP, or lo not below hi
 *   SQUALL_NO_MEMORY  an allocation failed
 *   SQUALL_CLOSED     there is no router
 * At all but SQUALL_OK nothing changed. Allocates. */
uint32_t squall_router_loaded(squall_router *router, uint32_t number, uint32_t sub, uint32_t part,
                              uint64_t lo, uint64_t hi);

/* Takes the report that the partition has all the keys that the sub-plan brings it. Answers as
 * squall_router_loaded does. Allocates. */
uint32_t squall_router_done(squall_router *router, uint32_t number, uint32_t sub, uint32_t part);

/* Takes the report that the sub-plan has been opened, and all those before it. Changes no route.
 * Answers as squall_router_loaded does. Allocates. */
uint32_t squall_router_opened(squall_router *router, uint32_t number, uint32_t sub);

/* Takes the report that course `number` leads from the new plan of squall_router_open to this one.
 * Routes go by the course of the greatest number for which one pair of plans is known. Answers as
 * squall_router_loaded does, or
 *   SQUALL_NEW_PLAN_..  the text is no plan; squall_router_fault_at says where
 * At all but SQUALL_OK nothing changed but squall_router_fault_at. A number 0 is SQUALL_LIMIT
 * whatever the text is. Allocates. */
uint32_t squall_router_issued(squall_router *router, uint32_t number, const uint8_t *plan,
                              size_t len);

/* Takes the next bytes of a stream of frames, which may be cut anywhere. The deltas that end in
 * these bytes are taken as reports; the last digest is kept for squall_router_gather_repair; what
 * is left waits for the next bytes. Answers
 *   SQUALL_OK         all bytes were taken
 *   SQUALL_FRAME_..   bytes are no frame. The messages before them were taken. The stream is at its
 *                     end: from now on the answer is SQUALL_FAILED
 *   SQUALL_FAILED     a fault came before; nothing changed
 *   SQUALL_FULL       with the deltas that end in these bytes the router would tell more than
 *                     squall_router_limit allows; nothing changed, and the same bytes may be fed again
 *   SQUALL_NO_MEMORY  an allocation failed; nothing changed, and the same bytes may be fed again
 *   SQUALL_CLOSED     there is no router
 * Allocates. */
uint32_t squall_router_feed(squall_router *router, const uint8_t *bytes, size_t len);

/* How many bytes that squall_router_feed took wait for the rest of their frame. It is 0 if none do, if a
 * fault has ended the stream, or if there is no router. If it is above 0 when the stream ends, the
 * stream was cut within a frame. Allocates nothing. */
size_t squall_router_waiting(const squall_router *router);

/* Takes one whole frame, no more and no less, for transports that keep messages apart. A delta is
 * taken as reports; a digest is kept for squall_router_gather_repair. Answers
 *   SQUALL_OK         the message was taken
 *   SQUALL_FRAME_..   the bytes are no frame: .._SHORT if they end within it, .._SPARE if bytes follow
 *                     it or are left in it
 *   SQUALL_FULL       with this delta the router would tell more than squall_router_limit allows
 *   SQUALL_NO_MEMORY  an allocation failed
 *   SQUALL_CLOSED     there is no router
 * At all but SQUALL_OK nothing changed, and the next frame may come. It has nothing to do with the
 * stream of squall_router_feed: what waits there waits on, and a stream that ended takes no bytes, but
 * frames are still heard. Allocates. */
uint32_t squall_router_hear(squall_router *router, const uint8_t *frame, size_t len);

/* Sets the most that the router may tell after a frame, in the numbers of squall_router_counts: cells,
 * spans of keys loaded, opened sub-plans and issued numbers. From then on squall_router_feed and
 * squall_router_hear answer SQUALL_FULL, and nothing changes, if the router would tell more with the
 * deltas that the bytes bring. That is so too if it tells more already, and they bring nothing new.
 * Digests are never refused, and reports by the host's own calls (squall_router_loaded, _done, _opened,
 * _issued) are not limited. SQUALL_NO_LIMIT for one of the four leaves that one without a limit, and for
 * all of them takes the limit away. At first there is none. Answers
 *   SQUALL_OK         the limit is set
 *   SQUALL_CLOSED     there is no router; nothing changed
 * Allocates nothing. */
uint32_t squall_router_limit(squall_router *router, uint64_t cells, uint64_t spans, uint64_t opened,
                             uint64_t issues);

/* How many frames the router has taken by squall_router_feed and squall_router_hear, boards and digests:
 * 0 if there is no router. Stops at the greatest number of 64 bits. Allocates nothing. */
uint64_t squall_router_taken(const squall_router *router);

/* The partition to ask for the key of that rank; SQUALL_NOWHERE where the rank is no key's or there
 * is no router. Allocates nothing. */
uint32_t squall_router_route(const squall_router *router, uint64_t rank);

/* Writes the legs of the keys from lo on, below hi, to the front of `out`, by rising key, the first
 * and the last cut to the span, as many as there is room for, and answers how many. Neighbours have
 * different partitions. Where there is no more room, the rest begins at the hi of the last one.
 * Answers 0 where lo is not below hi, a rank is above SQUALL_TOP, or there is no router. Allocates
 * nothing. */
size_t squall_router_legs(const squall_router *router, uint64_t lo, uint64_t hi, squall_leg *out,
                          size_t room);

/* The number of the course by which routes go; 0 where there is no router. Allocates nothing. */
uint32_t squall_router_number(const squall_router *router);

/* Makes the frames of all that the router was told, in the place of those that wait to be fetched by
 * squall_router_frame. There are none if it was told nothing. Each has at most `limit` bytes, for a
 * transport that limits its messages. No limit is SQUALL_NO_LIMIT: a frame never has more than
 * SQUALL_FRAME_BYTES. The smaller the limit, the more frames there are. Answers
 *   SQUALL_OK         the frames wait
 *   SQUALL_TOO_LONG   a single report needs a longer frame. That of a course has 33 bytes, and 12 for
 *                     each range of its two plans: a limit of 98,337 is enough for any. Each other
 *                     report has 49 at most
 *   SQUALL_NO_MEMORY  an allocation failed
 *   SQUALL_CLOSED     there is no router
 * At all but SQUALL_OK those that waited still do. Allocates. */
uint32_t squall_router_gather_board(squall_router *router, size_t limit);

/* Makes the frame of a digest of all that the router was told, in the place of those that wait. Answers
 * as squall_router_gather_board does, and SQUALL_TOO_LONG if the digest has more than `limit` bytes, or
 * more rows than a frame holds. A digest is not cut. It has at most 20 bytes, 8 for each number with an
 * opened sub-plan, 36 for each number with an issue, and 40 for each sub-plan of which something was
 * loaded or done. Allocates. */
uint32_t squall_router_gather_digest(squall_router *router, size_t limit);

/* Makes the frames of what the digest that was fed last does not show, in the place of those that wait.
 * There are none if it shows all. Each has at most `limit` bytes. Answers as squall_router_gather_board
 * does, or SQUALL_NO_DIGEST if none was fed, after which those that waited still do. Allocates. */
uint32_t squall_router_gather_repair(squall_router *router, size_t limit);

/* Writes the next frame that waits to the front of `out`, and answers how many bytes it has. It waits
 * no longer. Where there is not room enough, nothing is written, the frame still waits, and the
 * answer is how many bytes it has. 0 where no frame waits. SQUALL_FRAME_BYTES are room for any.
 * Allocates nothing. */
size_t squall_router_frame(squall_router *router, uint8_t *out, size_t room);

/* Whether the router heard of different pairs of plans under a number above that of its course: such a
 * number has no course. Answers 1 if it did, and 0 if not, or if there is no router; SQUALL_NO_COUNT if
 * an allocation fails. Allocates. */
size_t squall_router_clashed(const squall_router *router);

/* Writes how much the router heard into `out`, and answers 1: 0 if there is no router, or room is 0;
 * SQUALL_NO_COUNT if an allocation fails. At all but 1 nothing is written. Allocates. */
size_t squall_router_counts(const squall_router *router, squall_counts *out, size_t room);

/* Writes how far the router's course has come into `out`, in the lines of the command `squall status`,
 * and answers how many bytes they have: 0 if there is no router; SQUALL_NO_COUNT if an allocation fails.
 * If the room is too short, nothing is written. No 0 byte ends the text. Allocates. */
size_t squall_router_status_text(const squall_router *router, uint8_t *out, size_t room);

/* The same with a picture of it, in SVG, as `squall picture` draws it. Allocates. */
size_t squall_router_picture(const squall_router *router, uint8_t *out, size_t room);

/* Closes the router, and frees what it has allocated. The room is plain memory again. */
void squall_router_close(squall_router *router);


/* VIEWS */

/* How many bytes the room of a view has. */
size_t squall_view_size(void);

/* Opens a view of what the router says now. It stays as it is, whatever the router is told later,
 * also after the router was closed. squall_view_status then says SQUALL_OK, SQUALL_NO_MEMORY, or
 * SQUALL_CLOSED where there is no router. Copies the router's table: allocates. */
void squall_view_open(const squall_router *router, squall_view *room);

/* Opens one more view of the same, for one more reader. Nothing is copied: both share one table,
 * which is freed with the last view of it. squall_view_status of the new one then says what that of
 * the old one says, or SQUALL_NO_MEMORY where a table has more views than can be counted. Counts as
 * a call with both handles. Allocates nothing. */
void squall_view_again(const squall_view *view, squall_view *room);

/* How the opening ended. Never changes. */
uint32_t squall_view_status(const squall_view *view);

/* As squall_router_route, of the router at the moment of squall_view_open. Allocates nothing. */
uint32_t squall_view_route(const squall_view *view, uint64_t rank);

/* Writes the partitions to ask for the keys of `count` ranks to the front of `parts`, as many as there
 * is room for, and answers how many. Each is what squall_view_route answers. Allocates nothing. */
size_t squall_view_routes(const squall_view *view, const uint64_t *ranks, size_t count,
                          uint32_t *parts, size_t room);

/* Writes where the keys of `count` ranks stand to the front of `out`, as many as there is room for,
 * and answers how many: 0 if there is no view. Each `part` is what squall_view_route answers.
 * Allocates nothing. */
size_t squall_view_locate(const squall_view *view, const uint64_t *ranks, size_t count,
                          squall_place *out, size_t room);

/* As squall_router_legs, of that moment. Allocates nothing. */
size_t squall_view_legs(const squall_view *view, uint64_t lo, uint64_t hi, squall_leg *out,
                        size_t room);

/* As squall_router_number, of that moment. Allocates nothing. */
uint32_t squall_view_number(const squall_view *view);

/* Writes the spans of the keys from lo on, below hi, for which the two views have different routes, into
 * `out`, by rising key, as many as there is room for, and answers how many. Each span is as long as can
 * be. If there is no more room, the rest begins at the hi of the last one. A key from lo to
 * there, or to hi if there is room for more, lies in one of the spans exactly if squall_view_route
 * answers differently for it. A hi above SQUALL_TOP is taken as SQUALL_TOP. The handles are two different
 * ones. Allocates nothing. */
size_t squall_view_changes(const squall_view *before, const squall_view *after, uint64_t lo, uint64_t hi,
                           squall_span *out, size_t room);

/* Closes the view. The last one that shares a table frees it. */
void squall_view_close(squall_view *view);


/* COURSES */

/* How many bytes the room of a course has. */
size_t squall_course_size(void);

/* Opens the course `number` from the old plan to the new one. squall_course_status then says whether
 * there is one, as squall_router_status does after squall_router_open. Allocates. */
void squall_course_open(uint32_t number, const uint8_t *old_plan, size_t old_len,
                        const uint8_t *new_plan, size_t new_len, squall_course *room);

/* Opens the course by which the router routes now: its newest. It stays as it is, whatever the router
 * is told later. squall_course_status then says SQUALL_OK, SQUALL_CLOSED if there is no router, or
 * SQUALL_NO_MEMORY if the course has more owners than can be counted. Nothing is copied, and nothing
 * allocated. Counts as a call with both handles. */
void squall_course_newest(const squall_router *router, squall_course *room);

/* The same of the course with which the router was opened. */
void squall_course_first(const squall_router *router, squall_course *room);

/* How the opening ended. Never changes. */
uint32_t squall_course_status(const squall_course *course);

/* Where the plan fault lies that squall_course_open answered, as squall_router_fault_at says it. */
uint64_t squall_course_fault_at(const squall_course *course);

/* The number of the course; 0 if there is none. */
uint32_t squall_course_number(const squall_course *course);

/* How many sub-plans it has: 0 if nothing moves, or there is no course. */
uint32_t squall_course_subplans(const squall_course *course);

/* Writes the moves by rising key, from the move `from` on, counted from 0, to the front of `out`, as
 * many as there is room for, and answers how many: 0 if there are no more. Each key that moves lies
 * in exactly one, and no other key in any. Allocates nothing. */
size_t squall_course_moves(const squall_course *course, size_t from, squall_move *out, size_t room);

/* Writes the ranges of the old plan by rising key, from the range `from` on, likewise. Neighbours have
 * different partitions. Allocates nothing. */
size_t squall_course_old(const squall_course *course, size_t from, squall_leg *out, size_t room);

/* The same of the new plan. */
size_t squall_course_new(const squall_course *course, size_t from, squall_leg *out, size_t room);

/* Writes the old plan as a JSON text to the front of `out`, and answers how many bytes it has: 0 if there
 * is no course; SQUALL_NO_COUNT if an allocation fails. If the room is too short, nothing is written. The
 * text has the ranges by rising key, without spaces, and reads as the same plan. No 0 byte ends it.
 * Allocates. */
size_t squall_course_old_text(const squall_course *course, uint8_t *out, size_t room);

/* The same of the new plan. */
size_t squall_course_new_text(const squall_course *course, uint8_t *out, size_t room);

/* The same of the plan of where the course leaves the keys if it ends early: squall_leader_begin_from
 * begins the next course from it. A key of the `count` spans is loaded, and at its new partition. Any
 * other is at its old one. The spans may overlap, and come in any order. The answer is also 0 if a span
 * has no keys or ends above SQUALL_TOP, or if the plan would have more than 4096 ranges. */
size_t squall_course_left(const squall_course *course, const squall_span *loaded, size_t count,
                          uint8_t *out, size_t room);

/* Writes the partitions to which keys move in the sub-plan, by rising number, from the one at `from` on,
 * counted from 0, to the front of `out`, as many as there is room for, and answers how many: 0 if there
 * are no more. SQUALL_NO_COUNT if an allocation fails: then nothing is written. Allocates. */
size_t squall_course_receivers(const squall_course *course, uint32_t sub, size_t from, uint32_t *out,
                               size_t room);

/* Writes the frame of the report that this course was issued to the front of `out`, and answers how
 * many bytes it has: 0 if there is no course; SQUALL_NO_COUNT if an allocation fails. If the room is
 * too short, nothing is written. A router that hears it knows the course. Allocates. */
size_t squall_course_frame(const squall_course *course, uint8_t *out, size_t room);

/* Closes the course. What is shared with routers and other courses stays with them. */
void squall_course_close(squall_course *course);


/* FRAMES OF REPORTS, without a router */

/* Writes the frame of the report of squall_router_loaded to the front of `out`, and answers how many
 * bytes it has: 49. Answers 0 if there is no such report, as squall_router_loaded says it;
 * SQUALL_NO_COUNT if an allocation fails. If the room is too short, nothing is written. Allocates. */
size_t squall_frame_loaded(uint32_t number, uint32_t sub, uint32_t part, uint64_t lo, uint64_t hi,
                           uint8_t *out, size_t room);

/* The same of the report of squall_router_done: 33 bytes. */
size_t squall_frame_done(uint32_t number, uint32_t sub, uint32_t part, uint8_t *out, size_t room);

/* The same of the report of squall_router_opened: 24 bytes. */
size_t squall_frame_opened(uint32_t number, uint32_t sub, uint8_t *out, size_t room);


/* ERRANDS */

/* How many bytes the room of an errand has. */
size_t squall_errand_size(void);

/* Opens an errand for the key of that rank, which begins at the partition to which the router routes
 * the key now. squall_errand_status then says SQUALL_OK, SQUALL_LIMIT where the rank is no key's, or
 * SQUALL_CLOSED where there is no router. Allocates nothing. */
void squall_errand_start(const squall_router *router, uint64_t rank, squall_errand *room);

/* The same, by a view. */
void squall_errand_start_at(const squall_view *view, uint64_t rank, squall_errand *room);

/* How the opening ended. Never changes. */
uint32_t squall_errand_status(const squall_errand *errand);

/* The partition to ask; SQUALL_NOWHERE where there is no errand. */
uint32_t squall_errand_asked(const squall_errand *errand);

/* The number of the last SQUALL_MOVED that was followed, to be told to the partition that is asked;
 * 0 before the first, or where there is no errand. */
uint32_t squall_errand_number(const squall_errand *errand);

/* Takes a reply of the partition that was asked, one of squall_reply, and says what to do, one of
 * squall_next. `part` is looked at for SQUALL_MOVED, SQUALL_PENDING and SQUALL_ELSEWHERE, and is at
 * most 9999 then; `number` is looked at for SQUALL_MOVED; give 0 otherwise. After SQUALL_SERVED or
 * SQUALL_LOST the answer to any reply stays the same. SQUALL_BAD_REPLY, where there is no such reply
 * or no errand, changes nothing. Allocates nothing. */
uint32_t squall_errand_heed(squall_errand *errand, uint32_t reply, uint32_t part, uint32_t number);

/* Closes the errand. */
void squall_errand_close(squall_errand *errand);


/* PARTITIONS
 *
 * A partition keeps which keys it holds, gave and loaded, and not their rows: these stay with the host.
 * The host makes each call in the transaction in which it moves the rows, or keeps a log of the calls
 * that were answered SQUALL_OK. The same calls, made of a new partition of the same course, lead to the
 * same partition. */

/* How many bytes the room of a partition has. */
size_t squall_part_size(void);

/* Opens partition `id` with the keys that the old plan of the course gives it, and nothing heard.
 * squall_part_status then says whether there is one:
 *   SQUALL_OK         there is
 *   SQUALL_CLOSED     there is no course
 *   SQUALL_LIMIT      the id is above 9999
 *   SQUALL_NO_MEMORY  an allocation failed, or the course has more owners than can be counted
 * Counts as a call with both handles. Allocates. */
void squall_part_open(uint32_t id, const squall_course *course, squall_part *room);

/* How the opening ended. Never changes. */
uint32_t squall_part_status(const squall_part *part);

/* Takes the next bytes of a stream of frames, as squall_router_feed does: a delta that ends in these
 * bytes is absorbed, the last digest is kept for squall_part_gather_repair, and what is left waits for
 * the next bytes. Answers as squall_router_feed does, and SQUALL_CLOSED if there is no partition. A log
 * also has the calls that answered SQUALL_FRAME_..: they took the messages before the fault. Allocates. */
uint32_t squall_part_feed(squall_part *part, const uint8_t *bytes, size_t len);

/* How many bytes that squall_part_feed took wait for the rest of their frame, as squall_router_waiting
 * says it; 0 if there is no partition. Allocates nothing. */
size_t squall_part_waiting(const squall_part *part);

/* Takes one whole frame, as squall_router_hear does: a delta is absorbed, and a digest kept for
 * squall_part_gather_repair. Answers as squall_router_hear does, and SQUALL_CLOSED if there is no
 * partition. At all but SQUALL_OK nothing changed. It has nothing to do with the stream of
 * squall_part_feed. Allocates. */
uint32_t squall_part_hear(squall_part *part, const uint8_t *frame, size_t len);

/* Gives the first keys, at most `max`, of those that go out in the sub-plan opened last and that the
 * partition still holds: writes their chunk to `out`, and holds them no longer. Answers
 *   SQUALL_OK            the chunk is written
 *   SQUALL_ENDED         squall_part_close_course ended what it gives in its newest course
 *   SQUALL_NOT_OPEN      no sub-plan of its newest course is opened
 *   SQUALL_NOTHING_LEFT  no such key is held
 *   SQUALL_ZERO_MAX      `max` is 0
 *   SQUALL_NO_MEMORY     an allocation failed
 *   SQUALL_CLOSED        there is no partition
 * At all but SQUALL_OK nothing changed, and nothing is written. Allocates. */
uint32_t squall_part_give(squall_part *part, uint64_t max, squall_chunk *out);

/* Gives the key of that rank, likewise. Answers SQUALL_LIMIT if the rank is no key's; SQUALL_CLOSED; or
 * the first of these that is so: SQUALL_ENDED, SQUALL_NOT_OPEN, SQUALL_NOT_OUTGOING, SQUALL_GIVEN,
 * SQUALL_NOT_HELD, SQUALL_NO_MEMORY. Allocates. */
uint32_t squall_part_give_at(squall_part *part, uint64_t rank, squall_chunk *out);

/* Takes a chunk. Its keys that were not loaded under its number are loaded and held now, and the
 * partition's board has the report of the whole chunk. Answers
 *   SQUALL_OK             that was done
 *   SQUALL_LOADED_BEFORE  each of its keys was loaded before, even if it was given since
 *   SQUALL_NOT_OPEN       its sub-plan is not opened under its course
 *   SQUALL_STRANGER       its course is not known, or does not bring these keys from `source` to this
 *                         partition in that sub-plan
 *   SQUALL_LIMIT          a number 0, a sub-plan or partition above 9999, a rank above SQUALL_TOP, or lo
 *                         not below hi
 *   SQUALL_NO_MEMORY      an allocation failed
 *   SQUALL_CLOSED         there is no partition
 * At all but SQUALL_OK nothing changed. squall_frame_loaded writes the frame of that report. Allocates. */
uint32_t squall_part_load(squall_part *part, const squall_chunk *chunk);

/* Writes the first span of the new keys of the chunk that ends above the rank `from` to `out`. New keys are
 * neither loaded under the chunk's number nor held. Put the chunk's rows of these keys in place before
 * squall_part_load, and no others: the partition may have changed the row of any other key since. Ask from
 * 0 on, and then from the `hi` of each span on, until a span has no key: its lo is its hi. Answers
 * SQUALL_OK; or as squall_part_load refuses the chunk, and also SQUALL_LIMIT if `from` is above SQUALL_TOP:
 * then nothing is written. Allocates. */
uint32_t squall_part_fresh(const squall_part *part, const squall_chunk *chunk, uint64_t from, squall_span *out);

/* Reports that the partition has all keys that the sub-plan of its newest course brings it. A repeat
 * reports the same. Answers SQUALL_OK, SQUALL_CLOSED, or the first of these that is so: SQUALL_NOT_OPEN,
 * SQUALL_NOT_ALL, SQUALL_NOTHING_DUE; or SQUALL_NO_MEMORY. At all but SQUALL_OK nothing changed.
 * squall_frame_done writes the frame of that report. Allocates. */
uint32_t squall_part_finish(squall_part *part, uint32_t sub);

/* Ends what the partition gives in the newest course that it knows, and answers the number of that course;
 * 0 if there is no partition. From then on squall_part_give and squall_part_give_at answer SQUALL_ENDED,
 * until it hears of a newer course. It loads as before. A repeat changes nothing, and answers the same.
 * Make the call durable before the number is passed on: a log has it too. Allocates nothing. */
uint32_t squall_part_close_course(squall_part *part);

/* 1 if the partition gives no more under the number, and else 0. It is 0 too if the partition has not heard of
 * that course, or if there is none. Allocates nothing. */
uint32_t squall_part_course_closed(const squall_part *part, uint32_t number);

/* Writes the reply to a request for the key of that rank to `out`. The request followed a SQUALL_MOVED of
 * the number `after` to this partition; `after` is 0 if it followed none, and what
 * squall_errand_number says. Answers SQUALL_OK; SQUALL_LIMIT if the rank is no key's; or SQUALL_CLOSED: then
 * nothing is written. Allocates nothing. */
uint32_t squall_part_serve(const squall_part *part, uint64_t rank, uint32_t after, squall_answer *out);

/* Writes the spans of the keys that the partition holds, by rising key, from the span `from` on, counted
 * from 0, to the front of `out`, as many as there is room for, and answers how many: 0 if there are no
 * more, or no partition. Neighbours do not touch. Allocates nothing. */
size_t squall_part_held(const squall_part *part, size_t from, squall_span *out, size_t room);

/* The same of the keys that it gave under the number: none if it does not know the course. */
size_t squall_part_given(const squall_part *part, uint32_t number, size_t from, squall_span *out,
                         size_t room);

/* The same of the keys that it loaded under the number. */
size_t squall_part_loaded(const squall_part *part, uint32_t number, size_t from, squall_span *out,
                          size_t room);

/* Makes the frames of all that the partition knows and reports, of a digest of that, or of what the
 * digest that was heard last does not show, as the calls of a router do. Each frame has at most `limit`
 * bytes. Allocates. */
uint32_t squall_part_gather_board(squall_part *part, size_t limit);
uint32_t squall_part_gather_digest(squall_part *part, size_t limit);
uint32_t squall_part_gather_repair(squall_part *part, size_t limit);

/* Writes the next frame that waits, as squall_router_frame does. Allocates nothing. */
size_t squall_part_frame(squall_part *part, uint8_t *out, size_t room);

/* Closes the partition, and frees what it has allocated. The room is plain memory again. */
void squall_part_close(squall_part *part);


/* LEADERS
 *
 * A leader begins one course after another and opens their sub-plans, one at a time. It hears from
 * partitions what is done, and sends all that it knows. */

/* How many bytes the room of a leader has. */
size_t squall_leader_size(void);

/* Opens a leader in the room: the keys lie as the plan says, and no course is begun. Its first course
 * has the number `last` plus 1. Give 0 if no number was used before, and 1 if routers were opened with
 * course 1, from the first plan to itself. squall_leader_status then says whether there is one:
 *   SQUALL_OK         there is
 *   SQUALL_PLAN_..    the text is no plan
 *   SQUALL_NO_MEMORY  an allocation failed
 * If there is none, the other functions answer as they say below, and the room is closed in the same
 * way. Allocates. */
void squall_leader_open(const uint8_t *plan, size_t len, uint32_t last, squall_leader *room);

/* Opens a leader that has begun this course. It is as if squall_leader_begin had just begun it, and it
 * has heard nothing else. squall_leader_status then says SQUALL_OK, SQUALL_CLOSED if there is no course,
 * or SQUALL_NO_MEMORY. The course is shared. Counts as a call with both handles. Allocates. */
void squall_leader_resume(const squall_course *course, squall_leader *room);

/* How the opening ended. Never changes. */
uint32_t squall_leader_status(const squall_leader *leader);

/* Where the plan fault lies that was answered last, of an opening, of squall_leader_begin or
 * of squall_leader_begin_from, as squall_router_fault_at says it. */
uint64_t squall_leader_fault_at(const squall_leader *leader);

/* Takes the next bytes of a stream of frames, as squall_router_feed does, and answers as that does. A
 * delta that ends in these bytes is taken as reports. The last digest is kept for
 * squall_leader_gather_repair. What is left waits for the next bytes. A log also has the calls that
 * answered SQUALL_FRAME_..: they took the messages before the fault. Allocates. */
uint32_t squall_leader_feed(squall_leader *leader, const uint8_t *bytes, size_t len);

/* How many bytes that squall_leader_feed took wait for the rest of their frame, as squall_router_waiting
 * says it; 0 if there is no leader. Allocates nothing. */
size_t squall_leader_waiting(const squall_leader *leader);

/* Takes one whole frame, as squall_router_hear does, and answers as that does. A delta is taken as
 * reports. A digest is kept for squall_leader_gather_repair. It has nothing to do with the stream of
 * squall_leader_feed. Allocates. */
uint32_t squall_leader_hear(squall_leader *leader, const uint8_t *frame, size_t len);

/* Begins the course from the newest plan to this one. Its number is the last one plus 1, and its plan is
 * the newest one then. The leader takes the report of it, which squall_leader_gather_board sends.
 * Answers
 *   SQUALL_OK           the course is begun; squall_leader_course opens it
 *   SQUALL_NEW_PLAN_..  the text is no plan; squall_leader_fault_at says where
 *   SQUALL_RUNNING      the course begun last is not over
 *   SQUALL_NO_NUMBER    the greatest number is used
 *   SQUALL_NO_MEMORY    an allocation failed
 *   SQUALL_CLOSED       there is no leader
 * At all but SQUALL_OK nothing changed but squall_leader_fault_at. Allocates. */
uint32_t squall_leader_begin(squall_leader *leader, const uint8_t *plan, size_t len);

/* Begins the course from the old plan to the new one, whether or not the course begun last is over, which
 * may end early so. Its number is the last one plus 1, and the new plan is the newest one then. The caller
 * makes sure that the old plan has each key where the course begun last leaves it: each partition holds
 * the keys that the old plan gives it, has closed that course if such a key was to leave it, and what was
 * given is loaded. Answers as squall_leader_begin does, but never SQUALL_RUNNING, and SQUALL_PLAN_.. if the
 * text of the old plan is none. At all but SQUALL_OK nothing changed but squall_leader_fault_at.
 * Allocates. */
uint32_t squall_leader_begin_from(squall_leader *leader, const uint8_t *old_plan, size_t old_len,
                                  const uint8_t *new_plan, size_t new_len);

/* Opens the course that the leader began last. squall_course_status then says SQUALL_OK, SQUALL_CLOSED
 * if it has begun none, or SQUALL_NO_MEMORY if the course has more owners than can be counted. The room
 * is closed by squall_course_close. Counts as a call with both handles. Allocates nothing. */
void squall_leader_course(const squall_leader *leader, squall_course *room);

/* Opens the next sub-plan of the course begun last. The leader takes the report of it. Answers
 *   SQUALL_OK         the sub-plan is opened: out[0]
 *   SQUALL_NOT_DONE   out[1] is the least partition that has not reported that it has all keys of
 *                     sub-plan out[0], which was opened last
 *   SQUALL_NO_MORE    all sub-plans are opened, and the last one is done
 *   SQUALL_IDLE       no course is begun
 *   SQUALL_NO_MEMORY  an allocation failed
 *   SQUALL_CLOSED     there is no leader
 * At all but SQUALL_OK nothing changed. Writes as many numbers as there is room for: 2 are
 * enough. Allocates. */
uint32_t squall_leader_open_next(squall_leader *leader, uint32_t *out, size_t room);

/* 1 if all sub-plans of the course begun last are opened and the last one is done; 0 if not, if no
 * course is begun, or if there is no leader. Allocates nothing. */
uint32_t squall_leader_finished(const squall_leader *leader);

/* Makes the frames of all that the leader heard and reported itself, each of at most `limit` bytes, as
 * squall_router_gather_board does. Answers as that does. Allocates. */
uint32_t squall_leader_gather_board(squall_leader *leader, size_t limit);

/* Makes the frame of a digest of that, as squall_router_gather_digest does. Answers as that does.
 * Allocates. */
uint32_t squall_leader_gather_digest(squall_leader *leader, size_t limit);

/* Makes the frames of what the digest that was heard last does not show, as squall_router_gather_repair
 * does. Answers as that does. Allocates. */
uint32_t squall_leader_gather_repair(squall_leader *leader, size_t limit);

/* Writes the next frame that waits into `out`, as squall_router_frame does, and answers as that
 * does. Allocates nothing. */
size_t squall_leader_frame(squall_leader *leader, uint8_t *out, size_t room);

/* Closes the leader, and frees what it has allocated. The room is plain memory again. */
void squall_leader_close(squall_leader *leader);


/* THE LIBRARY */

/* What a status says, one of squall_status, as "an allocation failed": an English text that ends in a 0
 * byte and is never freed. It begins with a small letter and ends with no point. All numbers that are no
 * status have one text. That of a plan's fault says `this entry` or `this key` of the place that
 * squall_.._fault_at answers; it begins with "the text is no plan: ", or with "the new text is no plan: "
 * for SQUALL_NEW_PLAN_.. . That of a frame's fault begins with "no frame: ". May be called at any time, in
 * any thread. Allocates nothing. */
const char *squall_message(uint32_t status);

/* The version of the library, as "1.2.3": a text that ends in a 0 byte and is never freed. May be
 * called at any time, in any thread. Allocates nothing. */
const char *squall_version(void);

#ifdef __cplusplus
}
#endif

#endif
